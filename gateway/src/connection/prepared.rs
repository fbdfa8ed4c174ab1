//! Prepared statements and portals.

use std::cell::RefCell;
use std::collections::HashMap;
use std::mem;
use std::rc::Rc;

use postgres_protocol::Oid;

use crate::budget::{Charge, Pool};
use crate::catalog::Parameter;
use crate::connection::catalog::RawValue;
use crate::connection::results::Rows;
use crate::leftovers::Leftovers;
use crate::rows::Definition;
use crate::sqlstate::{Failure, Report, SqlState};
use crate::statement::constant::Input;
use crate::statement::parameters::{self, Place};
use crate::statement::query::Query;
use crate::statement::served::{Served, Verb};
use crate::statement::Parsed;
use crate::value::{self, oid, Value};
use crate::wire::backend::{Column, Format};

/// The most prepared statements of a connection.
const MOST_STATEMENTS: usize = 4_096;

/// The most portals of a connection.
const MOST_PORTALS: usize = 1_024;

/// For how many portals a connection keeps the memory of their list.
const USUAL_PORTALS: usize = 4;

/// How many bytes all prepared statements and portals of a connection take at the most: texts with what is read of them,
/// values and formats. Rows that wait in portals are bounded by themselves.
pub const MOST_BYTES: u64 = 64 * 1024 * 1024;

/// About what a prepared statement or a portal takes beside what it holds.
const OVERHEAD: usize = 512;

/// A prepared statement.
#[derive(Debug)]
pub struct Statement {
    /// Its text.
    pub text: Rc<str>,
    /// What it is. None: its text is empty.
    pub parsed: Option<Rc<Parsed>>,
    /// The types of its parameters, as far as the client tells them.
    pub types: Vec<Oid>,
    /// The columns that the client was told last.
    pub described: RefCell<Option<Rc<[Column]>>>,
    charge: RefCell<Option<Charge>>,
}

impl Statement {
    /// Makes a prepared statement of a text that was read.
    pub fn new(text: Rc<str>, parsed: Option<Rc<Parsed>>, types: Vec<Oid>) -> Statement {
        Statement {
            text,
            parsed,
            types,
            described: RefCell::default(),
            charge: RefCell::default(),
        }
    }

    /// Returns about how many bytes it takes.
    fn size(&self) -> usize {
        OVERHEAD
            + self.text.len()
            + self.types.capacity() * mem::size_of::<Oid>()
            + self.parsed.as_ref().map_or(0, |parsed| parsed.size)
    }

    /// Returns what the program does for it.
    pub fn served(&self) -> Option<&Served> {
        self.parsed.as_ref()?.statement.served()
    }

    /// Returns the name of its table.
    pub fn table_name(&self) -> Option<&str> {
        self.served()?.table().map(|name| name.text.as_str())
    }

    /// Returns what a parameter stands for, and its type as far as the client tells it.
    fn parameter(&self, parameter: usize) -> (&Place, Oid) {
        let places = self
            .parsed
            .as_ref()
            .map_or(&[][..], |parsed| &parsed.places);
        let place = places.get(parameter).unwrap_or(&Place::Unused);
        (
            place,
            self.types
                .get(parameter)
                .copied()
                .unwrap_or(oid::UNSPECIFIED),
        )
    }

    /// Returns it as a query that reads no table of the database.
    pub fn query(&self) -> Option<&Query> {
        self.parsed.as_ref()?.statement.query()
    }

    /// Returns the types of its parameters.
    pub fn parameter_types(&self, definition: Option<&Definition>) -> Vec<Oid> {
        if self.query().is_some() {
            return self.types.clone();
        }
        (0..self.types.len())
            .map(|parameter| {
                let (place, oid) = self.parameter(parameter);
                parameters::parameter_type(place, oid, definition)
            })
            .collect()
    }

    /// Returns whether the types of its parameters, or of its columns, depend on its table's definition.
    pub fn is_described_by_table(&self) -> bool {
        let has_columns =
            |served: &Served| served.verb() == Verb::Select || !served.returning().is_empty();
        self.served().map_or(false, has_columns) || self.has_open_parameters()
    }

    /// Returns whether the type of a parameter is that of a column.
    fn has_open_parameters(&self) -> bool {
        (0..self.types.len()).any(|parameter| {
            let (place, oid) = self.parameter(parameter);
            parameters::needs_definition(place, oid)
        })
    }
}

/// The values of a statement's parameters, and their types.
#[derive(Debug, Default)]
pub struct Arguments {
    values: Vec<Value>,
    types: Vec<Oid>,
    /// The values of a query of the catalog, as the client sent them.
    raw: Vec<RawValue>,
}

impl Arguments {
    /// Returns them as a statement takes them.
    pub fn input(&self) -> Input<'_> {
        Input {
            values: &self.values,
            types: &self.types,
        }
    }

    /// Returns the values of a query of the catalog.
    pub fn raw(&self) -> Vec<Parameter<'_>> {
        self.raw
            .iter()
            .map(|(format, value)| (*format, value.as_deref()))
            .collect()
    }

    fn size(&self) -> usize {
        let values = self.values.iter().map(Value::size).sum::<usize>();
        let raw = self
            .raw
            .iter()
            .map(|(_, value)| value.as_ref().map_or(0, Vec::capacity));
        values
            + raw.sum::<usize>()
            + self.raw.capacity() * mem::size_of::<RawValue>()
            + self.values.capacity() * mem::size_of::<Value>()
            + self.types.capacity() * mem::size_of::<Oid>()
    }
}

/// What a portal has come to.
#[derive(Debug)]
pub enum Progress {
    /// It hasn't run.
    Ready,
    /// It has run, and rows may be left.
    Rows(Box<Rows>),
    /// It has run.
    Done,
}

/// The formats of values, as Bind gives them.
#[derive(Clone, Debug)]
pub enum Formats {
    /// One for all of them.
    All(Format),
    /// One for each.
    Each(Rc<[Format]>),
}

impl Default for Formats {
    fn default() -> Formats {
        Formats::All(Format::Text)
    }
}

impl Formats {
    /// Returns the format of the value at this place.
    pub fn of(&self, place: usize) -> Format {
        match self {
            Formats::All(format) => *format,
            Formats::Each(formats) => formats.get(place).copied().unwrap_or(Format::Text),
        }
    }

    /// Returns how many there are, if there is one for each value.
    fn count(&self) -> Option<usize> {
        match self {
            Formats::All(_) => None,
            Formats::Each(formats) => Some(formats.len()),
        }
    }
}

/// What a Bind gives beside its values.
#[derive(Debug)]
pub struct Binding {
    /// The portal's name.
    pub portal: String,
    /// The portal's statement.
    pub statement: Rc<Statement>,
    /// The formats of the values.
    pub value_formats: Formats,
    /// The formats of its columns.
    pub formats: Formats,
}

impl Binding {
    /// Returns whether its table's definition has to be known before its values can be read.
    pub fn needs_definition(&self) -> bool {
        self.statement.has_open_parameters()
    }

    /// Makes the portal of the values of its parameters.
    ///
    /// # Errors
    ///
    /// Fails if one is none of its type, or none that the program holds.
    pub fn read(
        self,
        given: &[Option<&[u8]>],
        definition: Option<&Definition>,
    ) -> Result<Portal, Failure> {
        let types = self.statement.parameter_types(definition);
        let formats = &self.value_formats;
        let (mut values, mut raw) = (Vec::new(), Vec::new());
        if self.statement.query().is_some() {
            let given = given.iter().enumerate();
            let given = given.map(|(at, value)| (formats.of(at), value.map(<[u8]>::to_vec)));
            raw = given.collect();
        } else {
            values.reserve_exact(given.len());
            for (at, bytes) in given.iter().enumerate() {
                let oid = types.get(at).copied().unwrap_or(oid::UNSPECIFIED);
                values.push(value::parameter(at + 1, oid, formats.of(at), *bytes)?);
            }
        }
        let arguments = Arguments { values, types, raw };
        Ok(Portal::new(
            self.statement,
            arguments,
            self.formats,
            Progress::Ready,
        ))
    }
}

/// A portal.
#[derive(Debug)]
pub struct Portal {
    /// Its statement.
    pub statement: Rc<Statement>,
    /// The values of its parameters.
    pub arguments: Rc<Arguments>,
    /// The formats of its columns.
    pub formats: Formats,
    /// What it has come to.
    pub progress: Progress,
    charge: Option<Charge>,
}

impl Portal {
    /// Makes a portal of a statement.
    pub fn new(
        statement: Rc<Statement>,
        arguments: Arguments,
        formats: Formats,
        progress: Progress,
    ) -> Portal {
        Portal {
            statement,
            arguments: Rc::new(arguments),
            formats,
            progress,
            charge: None,
        }
    }

    /// Checks that a result has as many columns as the client gives formats for.
    ///
    /// # Errors
    ///
    /// Fails if it hasn't.
    pub fn check_formats(&self, columns: &[Column]) -> Result<(), Failure> {
        match self.formats.count() {
            Some(count) if count != columns.len() => Err(Report::error(
                SqlState::PROTOCOL_VIOLATION,
                format!(
                    "bind message has {} result formats but query has {} columns",
                    count,
                    columns.len()
                ),
            )),
            _ => Ok(()),
        }
    }

    /// Checks that a result has the columns that the client was told last.
    ///
    /// # Errors
    ///
    /// Fails if it has others.
    pub fn check_described(&self, columns: &Rc<[Column]>) -> Result<(), Failure> {
        match &*self.statement.described.borrow() {
            Some(described) if described != columns => Err(other_columns()),
            _ => Ok(()),
        }
    }

    /// Returns about how many bytes it takes.
    fn size(&self) -> usize {
        let formats = self.formats.count().unwrap_or(0) * mem::size_of::<Format>();
        OVERHEAD + self.arguments.size() + formats
    }
}

/// Makes the report of a result that has other columns than the client was told.
pub fn other_columns() -> Failure {
    let text = "cached plan must not change result type";
    Report::error(SqlState::FEATURE_NOT_SUPPORTED, text)
}

/// The prepared statements and the portals of a connection.
#[derive(Debug)]
pub struct Prepared {
    statements: HashMap<String, Rc<Statement>>,
    portals: HashMap<String, Portal>,
    /// What they all take.
    memory: Pool,
    /// Where they go when many are removed at once.
    leftovers: Rc<Leftovers>,
}

fn too_many(what: &str) -> Failure {
    Report::error(
        SqlState::OUT_OF_MEMORY,
        format!("too many {} in a connection", what),
    )
    .hint("Close what is no longer used.")
}

impl Prepared {
    /// Returns none as yet, which will take their memory of that of all connections.
    pub fn new(memory: &Pool, leftovers: &Rc<Leftovers>) -> Prepared {
        Prepared {
            statements: HashMap::new(),
            portals: HashMap::new(),
            memory: memory.part(MOST_BYTES),
            leftovers: Rc::clone(leftovers),
        }
    }

    /// Returns a prepared statement.
    ///
    /// # Errors
    ///
    /// Fails if there is none of this name.
    pub fn statement(&self, name: &str) -> Result<&Rc<Statement>, Failure> {
        self.statements.get(name).ok_or_else(|| {
            let text = if name.is_empty() {
                "unnamed prepared statement does not exist".to_owned()
            } else {
                format!("prepared statement \"{}\" does not exist", name)
            };
            Report::error(SqlState::UNDEFINED_PREPARED_STATEMENT, text)
        })
    }

    /// Adds a prepared statement. The one without a name takes the place of the one before.
    ///
    /// # Errors
    ///
    /// Fails if the name is taken, or if there are too many.
    pub fn add_statement(&mut self, name: &str, mut statement: Statement) -> Result<(), Failure> {
        if name.is_empty() {
            self.remove_statement(name);
        } else if self.statements.contains_key(name) {
            return Err(Report::error(
                SqlState::DUPLICATE_PREPARED_STATEMENT,
                format!("prepared statement \"{}\" already exists", name),
            ));
        }
        let charge = self.memory.take(name.len() + statement.size());
        if self.statements.len() == MOST_STATEMENTS || charge.is_none() {
            return Err(too_many("prepared statements"));
        }
        statement.charge = charge.into();
        self.statements.insert(name.to_owned(), Rc::new(statement));
        Ok(())
    }

    /// Removes a prepared statement, and returns whether there was one.
    pub fn remove_statement(&mut self, name: &str) -> bool {
        self.statements.remove(name).is_some()
    }

    /// Removes all prepared statements.
    pub fn remove_statements(&mut self) {
        let statements = mem::take(&mut self.statements);
        let charges = statements.values().map(|it| it.charge.borrow_mut());
        let bytes = charges.map(|mut it| leave_part(&mut it)).sum();
        let pieces = statements.into_values();
        self.leftovers
            .add(bytes, pieces.map(|it| bytes_of(&it.charge.borrow())));
    }

    /// Returns a portal.
    ///
    /// # Errors
    ///
    /// Fails if there is none of this name.
    pub fn portal(&mut self, name: &str) -> Result<&mut Portal, Failure> {
        self.portals.get_mut(name).ok_or_else(|| {
            let text = format!("portal \"{}\" does not exist", name);
            Report::error(SqlState::UNDEFINED_PORTAL, text)
        })
    }

    /// Returns what a portal has come to, if there is one of this name.
    pub fn progress(&self, name: &str) -> Option<&Progress> {
        self.portals.get(name).map(|portal| &portal.progress)
    }

    /// Adds a portal. The one without a name takes the place of the one before.
    ///
    /// # Errors
    ///
    /// Fails if the name is taken, or if there are too many.
    pub fn add_portal(&mut self, name: &str, mut portal: Portal) -> Result<(), Failure> {
        if name.is_empty() {
            self.portals.remove(name);
        } else if self.portals.contains_key(name) {
            return Err(Report::error(
                SqlState::DUPLICATE_PORTAL,
                format!("cursor \"{}\" already exists", name),
            ));
        }
        portal.charge = self.memory.take(name.len() + portal.size());
        if self.portals.len() == MOST_PORTALS || portal.charge.is_none() {
            return Err(too_many("portals"));
        }
        self.portals.insert(name.to_owned(), portal);
        Ok(())
    }

    /// Removes a portal, and returns whether there was one.
    pub fn remove_portal(&mut self, name: &str) -> bool {
        self.portals.remove(name).is_some()
    }

    /// Gives back the memory of the lists that isn't needed.
    pub fn trim(&mut self) {
        self.statements.shrink_to_fit();
        self.portals.shrink_to_fit();
    }

    /// Removes all portals, because the transaction ends.
    pub fn drop_portals(&mut self) {
        if self.portals.len() <= USUAL_PORTALS {
            self.portals.clear();
            self.portals.shrink_to(USUAL_PORTALS);
            return;
        }
        let mut portals = mem::take(&mut self.portals);
        let charges = portals.values_mut().map(|it| &mut it.charge);
        let bytes = charges.map(leave_part).sum();
        let pieces = portals.into_values();
        self.leftovers
            .add(bytes, pieces.map(|it| bytes_of(&it.charge)));
    }
}

impl Drop for Prepared {
    fn drop(&mut self) {
        self.drop_portals();
        self.remove_statements();
    }
}

fn bytes_of(charge: &Option<Charge>) -> u64 {
    charge.as_ref().map_or(0, Charge::bytes)
}

/// Lets a charge count for all connections alone. Returns its bytes.
fn leave_part(charge: &mut Option<Charge>) -> u64 {
    if let Some(charge) = charge {
        charge.leave_part();
    }
    bytes_of(charge)
}
