//! The extended query: Parse, Bind, Describe, Execute, Close, Sync.

use std::rc::Rc;

use postgres_protocol::Oid;

use crate::connection::prepared::{Binding, Formats, Portal, Progress, Statement};
use crate::connection::transaction::Block;
use crate::connection::work::{failed_block, AfterCommit, AfterDefinition, Subject, Target};
use crate::connection::Connection;
use crate::rows::Definition;
use crate::sqlstate::{Failure, Report, SqlState};
use crate::statement::known::Content;
use crate::statement::literal::not_utf8;
use crate::statement::parameters::{self, Place};
use crate::statement::served::{Served, Verb};
use crate::statement::{select, Statement as Tree};
use crate::value::oid;
use crate::wire::backend::{self, Column, Format};
use crate::wire::frontend::{self, Bind, Parse};

/// What Describe tells of a statement.
struct Described {
    /// The types of its parameters.
    types: Vec<Oid>,
    /// The columns of its rows. None: it has none.
    columns: Option<Rc<[Column]>>,
}

impl Connection {
    /// Serves Sync: commits what a pipeline has reserved, and ends the skipping behind an error.
    pub(super) fn sync(&mut self) {
        self.skipping = false;
        if self.transaction.block != Block::None {
            return self.ready();
        }
        if self.transaction.dirty {
            return self.commit(AfterCommit::Sync);
        }
        self.end_transaction(true);
        self.ready();
    }

    /// Serves Parse.
    pub(super) fn parse(&mut self, parse: &Parse<'_>) {
        let text = match std::str::from_utf8(parse.text) {
            Ok(text) => text,
            Err(_) => return self.fail(not_utf8(parse.text), None),
        };
        let prepared = self.prepare(text, &parse.types).and_then(|statement| {
            if self.has_failed_for(&statement) {
                return Err(failed_block());
            }
            self.prepared.add_statement(parse.name, statement)
        });
        match prepared {
            Ok(()) => backend::parse_complete(self.output.buffer()),
            Err(report) => self.fail(report, Some(text)),
        }
    }

    /// Serves Bind.
    pub(super) fn bind(&mut self, bind: &Bind<'_>) {
        let binding = match self.binding_of(bind) {
            Ok(binding) => binding,
            Err(report) => return self.fail(report, None),
        };
        if !binding.needs_definition() {
            return self.bind_now(binding, &bind.values, None);
        }
        let statement = Rc::clone(&binding.statement);
        match statement
            .table_name()
            .map(|table| (table, self.definitions().get(table)))
        {
            Some((table, None)) => {
                let values = bind.values.iter();
                let values = values.map(|value| value.map(<[u8]>::to_vec)).collect();
                let then = AfterDefinition::Bind(binding, values, Rc::clone(&statement));
                self.ask_definition(table, then);
            }
            known => {
                let definition = known.and_then(|(_, definition)| definition);
                self.bind_now(binding, &bind.values, definition.as_deref());
            }
        }
    }

    /// Binds, where the table's definition is known if it has to be.
    pub(super) fn bind_now(
        &mut self,
        binding: Binding,
        values: &[Option<&[u8]>],
        definition: Option<&Definition>,
    ) {
        let name = binding.portal.clone();
        let bound = binding
            .read(values, definition)
            .and_then(|portal| self.prepared.add_portal(&name, portal));
        match bound {
            Ok(()) => backend::bind_complete(self.output.buffer()),
            Err(report) => self.fail(report, None),
        }
    }

    fn binding_of(&self, bind: &Bind<'_>) -> Result<Binding, Failure> {
        let statement = self.prepared.statement(bind.statement)?;
        let is_empty_in_failed_block =
            statement.parsed.is_none() && self.transaction.block == Block::Failed;
        if self.has_failed_for(statement) || is_empty_in_failed_block {
            return Err(failed_block());
        }
        let count = bind.values.len();
        if bind.formats.len() > 1 && bind.formats.len() != count {
            return Err(Report::error(
                SqlState::PROTOCOL_VIOLATION,
                format!(
                    "bind message has {} parameter formats but {} parameters",
                    bind.formats.len(),
                    count
                ),
            ));
        }
        if count != statement.types.len() {
            return Err(Report::error(
                SqlState::PROTOCOL_VIOLATION,
                format!(
                    "bind message supplies {} parameters, but prepared statement \"{}\" requires {}",
                    count,
                    bind.statement,
                    statement.types.len()
                ),
            ));
        }
        Ok(Binding {
            portal: bind.portal.to_owned(),
            statement: Rc::clone(statement),
            value_formats: formats(&bind.formats)?,
            formats: formats(&bind.result_formats)?,
        })
    }

    /// Serves Describe.
    pub(super) fn describe(&mut self, target: frontend::Target<'_>) {
        match target {
            frontend::Target::Portal(name) => self.describe_portal(name),
            frontend::Target::Statement(name) => self.describe_statement(name),
        }
    }

    fn describe_statement(&mut self, name: &str) {
        let statement = match self.prepared.statement(name) {
            Ok(statement) => Rc::clone(statement),
            Err(report) => return self.fail(report, None),
        };
        if self.has_failed_for(&statement) {
            return self.fail(failed_block(), None);
        }
        match self.unknown_table(&statement) {
            Some(table) => {
                let then = AfterDefinition::Describe(name.to_owned(), statement);
                self.ask_definition(&table, then);
            }
            None => self.describe_now(name),
        }
    }

    /// Returns the name of a statement's table, if that describes the statement and is not known.
    fn unknown_table(&self, statement: &Statement) -> Option<String> {
        let table = statement.table_name()?;
        let is_unknown =
            statement.is_described_by_table() && self.definitions().get(table).is_none();
        is_unknown.then(|| table.to_owned())
    }

    /// Returns whether a failed block refuses to tell of the statement's rows.
    fn has_failed_for(&self, statement: &Statement) -> bool {
        self.transaction.block == Block::Failed
            && !statement
                .parsed
                .as_ref()
                .map_or(true, |parsed| parsed.statement.leaves_failed_block())
    }

    /// Describes a prepared statement whose table's definition is known, if it needs that.
    pub(super) fn describe_now(&mut self, name: &str) {
        let statement = match self.prepared.statement(name) {
            Ok(statement) => Rc::clone(statement),
            Err(report) => return self.fail(report, None),
        };
        let Described { types, columns } = match self.described(&statement) {
            Ok(described) => described,
            Err(report) => return self.fail(report, Some(&statement.text)),
        };
        let out = self.output.buffer();
        backend::parameter_description(out, &types);
        match &columns {
            Some(columns) => backend::row_description(out, columns, |_| Format::Text),
            None => backend::no_data(out),
        }
        statement.described.replace(columns);
    }

    /// Returns what Describe tells of a statement.
    fn described(&self, statement: &Statement) -> Result<Described, Failure> {
        let table = statement.table_name();
        let definition = table.and_then(|table| self.definitions().get(table));
        let definition = definition.as_deref();
        let types = statement.parameter_types(definition);
        let of_table = |shown: &[select::Shown]| {
            definition
                .map(|definition| select::columns(shown, definition, &types))
                .transpose()
        };
        let columns = match statement.parsed.as_ref().map(|parsed| &parsed.statement) {
            None => None,
            Some(Tree::Served(Served::Select(select))) => of_table(&select.shown)?,
            Some(Tree::Served(served)) if !served.returning().is_empty() => {
                of_table(served.returning())?
            }
            Some(Tree::Query(query)) => Some(self.query_columns(query, &types)?),
            Some(tree) => self.columns(tree)?,
        };
        Ok(Described { types, columns })
    }

    /// Describes a portal. The rows of a table are read ahead for it.
    pub(super) fn describe_portal(&mut self, name: &str) {
        let statement = match self.prepared.portal(name) {
            Ok(portal) => Rc::clone(&portal.statement),
            Err(report) => return self.fail(report, None),
        };
        if self.has_failed_for(&statement) {
            return self.fail(failed_block(), None);
        }
        let is_ready = matches!(
            self.prepared.portal(name),
            Ok(Portal {
                progress: Progress::Ready,
                ..
            })
        );
        let verb = statement.served().map(Served::verb);
        if is_ready && verb == Some(Verb::Select) {
            let target = Target::Describe {
                portal: name.to_owned(),
            };
            return self.run_portal(name, target, false);
        }
        if let (true, Some(table)) = (is_ready, self.unknown_table(&statement)) {
            let then = AfterDefinition::DescribePortal(name.to_owned(), statement);
            return self.ask_definition(&table, then);
        }
        match self.described(&statement) {
            Err(report) => self.fail(report, Some(&statement.text)),
            Ok(told) => {
                let columns = told
                    .columns
                    .or_else(|| statement.described.borrow().clone());
                self.write_description(name, columns);
            }
        }
    }

    /// Describes the columns of a portal's rows. None: it has no rows.
    pub(super) fn write_description(&mut self, name: &str, columns: Option<Rc<[Column]>>) {
        let columns = match columns {
            Some(columns) => columns,
            None => return backend::no_data(self.output.buffer()),
        };
        let written = match self.prepared.portal(name) {
            Ok(portal) => portal.check_formats(&columns).map(|()| {
                portal
                    .statement
                    .described
                    .replace(Some(Rc::clone(&columns)));
                let format = |place| portal.formats.of(place);
                backend::row_description(self.output.buffer(), &columns, format);
            }),
            Err(report) => Err(report),
        };
        if let Err(report) = written {
            self.fail(report, None);
        }
    }

    /// Serves Execute. `last`: a Sync is behind it.
    pub(super) fn execute_portal(&mut self, name: &str, limit: u32, last: bool) {
        let portal = match self.prepared.portal(name) {
            Ok(portal) => portal,
            Err(report) => return self.fail(report, None),
        };
        match (&portal.progress, &portal.statement.parsed) {
            (_, None) => backend::empty_query(self.output.buffer()),
            (Progress::Rows(_), _) => self.give_rows_of(name, limit),
            (Progress::Done, Some(_)) => {
                let text = format!("portal \"{}\" cannot be run", name);
                self.fail(
                    Report::error(SqlState::NOT_IN_PREREQUISITE_STATE, text),
                    None,
                );
            }
            (Progress::Ready, Some(_)) => {
                let target = Target::Execute {
                    portal: name.to_owned(),
                    limit,
                };
                self.run_portal(name, target, last);
            }
        }
    }

    /// Runs a portal that hasn't run.
    fn run_portal(&mut self, name: &str, target: Target, last: bool) {
        let subject = match self.prepared.portal(name) {
            Ok(portal) => {
                Subject::Prepared(Rc::clone(&portal.statement), Rc::clone(&portal.arguments))
            }
            Err(report) => return self.fail(report, None),
        };
        self.execute(subject, target, last);
    }

    /// Serves Close.
    pub(super) fn close_target(&mut self, target: frontend::Target<'_>) {
        match target {
            frontend::Target::Statement(name) => {
                self.prepared.remove_statement(name);
            }
            frontend::Target::Portal(name) => {
                self.prepared.remove_portal(name);
            }
        }
        backend::close_complete(self.output.buffer());
    }
}

fn formats(codes: &[i16]) -> Result<Formats, Failure> {
    let format = |code: &i16| match code {
        0 => Ok(Format::Text),
        1 => Ok(Format::Binary),
        code => Err(Report::error(
            SqlState::INVALID_PARAMETER_VALUE,
            format!("unsupported format code: {}", code),
        )),
    };
    Ok(match codes {
        [] => Formats::default(),
        [code] => Formats::All(format(code)?),
        codes => Formats::Each(codes.iter().map(format).collect::<Result<_, _>>()?),
    })
}

impl Connection {
    /// Reads the text of a prepared statement.
    fn prepare(&self, text: &str, types: &[u32]) -> Result<Statement, Failure> {
        let (text, mut parsed) = match self.settings.statements.read(text)? {
            Content::Nothing => (text.into(), None),
            Content::One(known) => (known.text, Some(known.parsed)),
            Content::Several => {
                return Err(Report::error(
                    SqlState::SYNTAX_ERROR,
                    "cannot insert multiple commands into a prepared statement",
                ));
            }
        };
        if let Some(query) = parsed.as_ref().and_then(|parsed| parsed.statement.query()) {
            let used = parsed.as_ref().map_or(&[][..], |parsed| &parsed.places);
            for (at, oid) in types.iter().enumerate() {
                if matches!(used.get(at), None | Some(Place::Unused)) {
                    parameters::check_type(at + 1, &Place::Unused, *oid)?;
                }
            }
            let types = self.describe_query(query, types)?.parameters;
            return Ok(Statement::new(text, parsed, types));
        }
        if let Some(parsed) = &mut parsed {
            parameters::settle_members(parsed, types);
        }
        let places = parsed.as_ref().map_or(&[][..], |parsed| &parsed.places);
        let mut types = types.to_vec();
        if types.len() < places.len() {
            types.resize(places.len(), oid::UNSPECIFIED);
        }
        for (at, oid) in types.iter().enumerate() {
            let place = places.get(at).unwrap_or(&Place::Unused);
            parameters::check_type(at + 1, place, *oid)?;
        }
        Ok(Statement::new(text, parsed, types))
    }
}
