//! Which names a query may use, and what they mean.

use std::cell::{Cell, RefCell};

use crate::catalog::analysis::{Analyser, Typed};
use crate::catalog::missing;
use crate::catalog::plan::{Aggregate, Node, OutputColumn, Window};
use crate::catalog::system::Relation;
use crate::catalog::types::oid;
use crate::catalog::value::Value;
use crate::sqlstate::{Failure, Report, SqlState};
use crate::statement::query::{Name, QualifiedName, Span};

/// The most relations that a query reads side by side.
pub const MOST_SLOTS: usize = 100;

/// A relation that a query reads.
#[derive(Debug)]
pub struct Item {
    /// Its schema, if it has no other name.
    pub schema: Option<String>,
    /// Its name in the query.
    pub name: String,
    /// Its slot.
    pub slot: usize,
    /// Its columns.
    pub columns: Vec<OutputColumn>,
    /// The relation of the catalog that it is.
    pub relation: Option<&'static Relation>,
}

/// What is found besides rows while the columns of a SELECT are read.
#[derive(Debug, Default)]
pub struct Extras {
    /// Aggregates.
    pub aggregates: Vec<Aggregate>,
    /// Window functions.
    pub windows: Vec<Window>,
    /// Functions that give several rows.
    pub sets: Vec<Node>,
}

/// Which clause of a query is read: not each may have aggregates and functions that give several rows.
#[derive(Clone, Copy, Debug, PartialEq, Eq)]
pub enum Clause {
    /// FROM, with the conditions of joins.
    From,
    /// WHERE
    Where,
    /// GROUP BY
    Group,
    /// HAVING
    Having,
    /// What the result shows, and ORDER BY.
    Targets,
    /// VALUES
    Values,
    /// LIMIT and OFFSET
    Limit,
}

impl Clause {
    /// Returns its name as messages have it.
    pub fn name(self) -> &'static str {
        match self {
            Clause::From => "functions in FROM",
            Clause::Where => "WHERE",
            Clause::Group => "GROUP BY",
            Clause::Having => "HAVING",
            Clause::Targets => "the select list",
            Clause::Values => "VALUES",
            Clause::Limit => "LIMIT",
        }
    }
}

/// The names of a query, and of those around it.
#[derive(Debug)]
pub struct Scope<'o> {
    /// The query around this one.
    pub outer: Option<&'o Scope<'o>>,
    /// How many queries are around this one.
    pub level: usize,
    /// The relations, in the order of FROM.
    pub items: Vec<Item>,
    /// The columns that may be named alone, in the order of `*`: places of item and column.
    pub visible: Vec<(usize, usize)>,
    /// The slots whose columns were read since this was emptied.
    pub read: Cell<u128>,
    /// The clause that is read.
    pub clause: Cell<Clause>,
    /// Whether an aggregate's arguments are read.
    pub in_aggregate: Cell<bool>,
    /// What was found besides.
    pub extras: RefCell<Extras>,
}

impl<'o> Scope<'o> {
    /// Begins a scope without relations.
    pub fn new(outer: Option<&'o Scope<'o>>) -> Scope<'o> {
        Scope {
            outer,
            level: outer.map_or(0, |outer| outer.level + 1),
            items: Vec::new(),
            visible: Vec::new(),
            read: Cell::new(0),
            clause: Cell::new(Clause::From),
            in_aggregate: Cell::new(false),
            extras: RefCell::new(Extras::default()),
        }
    }

    /// Returns the slot of the aggregates: it is behind those of FROM.
    pub fn aggregate_slot(&self) -> usize {
        self.items.len()
    }

    /// Returns the slot of the window functions.
    pub fn window_slot(&self) -> usize {
        self.items.len() + 1
    }

    /// Returns the slot of the functions that give several rows.
    pub fn set_slot(&self) -> usize {
        self.items.len() + 2
    }

    fn column(&self, item: usize, place: usize) -> Typed {
        let item = &self.items[item];
        let column = &item.columns[place];
        self.read.set(self.read.get() | 1 << item.slot);
        Typed {
            node: Node::Column {
                up: 0,
                slot: item.slot,
                place,
            },
            oid: column.oid,
            modifier: column.modifier,
            span: None,
        }
    }

    /// Looks for a column that is named alone. None: there is none.
    fn unqualified(&self, name: &Name) -> Result<Option<Typed>, Failure> {
        let mut found = self
            .visible
            .iter()
            .filter(|&&(item, place)| self.items[item].columns[place].name == name.text);
        match (found.next(), found.next()) {
            (Some(_), Some(_)) => {
                let text = format!("column reference \"{}\" is ambiguous", name.text);
                Err(Report::error(SqlState::AMBIGUOUS_COLUMN, text).at(name.span.start))
            }
            (Some(&(item, place)), None) => Ok(Some(self.column(item, place))),
            _ if name.text == "tableoid" => Ok(match self.items.as_slice() {
                [item] => system_column(item),
                _ => None,
            }),
            _ => Ok(None),
        }
    }

    /// Looks for a relation by its name in the query.
    pub fn item(&self, schema: Option<&str>, name: &str) -> Option<usize> {
        self.items.iter().position(|item| {
            item.name == name
                && match schema {
                    None => true,
                    Some(schema) => item.schema.as_deref() == Some(schema),
                }
        })
    }

    /// Looks for a column of a relation. None: there is no such relation here.
    fn qualified(
        &self,
        schema: Option<&Name>,
        table: &Name,
        name: &Name,
    ) -> Result<Option<Typed>, Failure> {
        let schema = schema.map(|schema| schema.text.as_str());
        let place = match self.item(schema, &table.text) {
            Some(place) => place,
            None => return Ok(None),
        };
        let item = &self.items[place];
        let mut found = item
            .columns
            .iter()
            .enumerate()
            .filter(|(_, column)| column.name == name.text);
        match (found.next(), found.next()) {
            (Some((column, _)), None) => Ok(Some(self.column(place, column))),
            (Some(_), Some(_)) => {
                let text = format!("column reference \"{}\" is ambiguous", name.text);
                Err(Report::error(SqlState::AMBIGUOUS_COLUMN, text).at(table.span.start))
            }
            _ => match system_column(item).filter(|_| name.text == "tableoid") {
                Some(oid) => Ok(Some(oid)),
                None => {
                    let text = format!("column {}.{} does not exist", table.text, name.text);
                    Err(Report::error(SqlState::UNDEFINED_COLUMN, text).at(table.span.start))
                }
            },
        }
    }
}

/// Returns the value of the column tableoid: in which relation a row is.
fn system_column(item: &Item) -> Option<Typed> {
    let relation = item.relation.filter(|relation| relation.kind == "r")?;
    Some(Typed::new(
        Node::Constant(Value::from(relation.oid)),
        oid::OID,
    ))
}

/// Returns the node with its rows so many queries further out.
fn further_out(mut typed: Typed, levels: usize) -> Typed {
    if let Node::Column { up, .. } = &mut typed.node {
        *up = levels;
    }
    typed
}

impl Analyser<'_> {
    /// Returns the column that a name means.
    pub(super) fn column(&mut self, names: &[Name], scope: &Scope<'_>) -> Result<Typed, Failure> {
        let span = names.first().map_or(Span::default(), |name| name.span);
        let (mut place, mut levels) = (Some(scope), 0);
        while let Some(scope) = place {
            let found = match names {
                [name] => scope.unqualified(name)?,
                [table, name] => scope.qualified(None, table, name)?,
                [schema, table, name] => scope.qualified(Some(schema), table, name)?,
                _ => None,
            };
            if let Some(typed) = found {
                self.outermost = self.outermost.min(scope.level);
                return Ok(further_out(typed, levels));
            }
            levels += 1;
            place = scope.outer;
        }
        Err(self.no_column(names, scope).at(span.start))
    }

    fn no_column(&self, names: &[Name], scope: &Scope<'_>) -> Failure {
        let text = match names {
            [name] if scope.item(None, &name.text).is_some() => {
                return missing(&format!("a whole row, {},", name.text));
            }
            [name]
                if matches!(
                    name.text.as_str(),
                    "xmin" | "xmax" | "cmin" | "cmax" | "ctid"
                ) =>
            {
                return missing(&format!("the system column {}", name.text));
            }
            [name] => format!("column \"{}\" does not exist", name.text),
            [table, _] => {
                let text = format!("missing FROM-clause entry for table \"{}\"", table.text);
                return Report::error(SqlState::UNDEFINED_TABLE, text);
            }
            names => {
                let names: Vec<&str> = names.iter().map(|name| name.text.as_str()).collect();
                return missing(&format!("the name {}", names.join(".")));
            }
        };
        Report::error(SqlState::UNDEFINED_COLUMN, text)
    }

    /// Returns the columns that `*` or `t.*` means, with their names.
    pub(super) fn star(
        &mut self,
        table: Option<&QualifiedName>,
        span: Span,
        scope: &Scope<'_>,
    ) -> Result<Vec<(String, Typed)>, Failure> {
        let places: Vec<(usize, usize)> = match table {
            None if scope.items.is_empty() => {
                let text = "SELECT * with no tables specified is not valid";
                return Err(Report::error(SqlState::SYNTAX_ERROR, text).at(span.start));
            }
            None => scope.visible.clone(),
            Some(table) => {
                let schema = table.schema.as_ref().map(|schema| schema.text.as_str());
                let item = scope.item(schema, &table.name.text).ok_or_else(|| {
                    let text = format!(
                        "missing FROM-clause entry for table \"{}\"",
                        table.name.text
                    );
                    Report::error(SqlState::UNDEFINED_TABLE, text).at(span.start)
                })?;
                (0..scope.items[item].columns.len())
                    .map(|place| (item, place))
                    .collect()
            }
        };
        self.outermost = self.outermost.min(scope.level);
        let column = |(item, place): (usize, usize)| {
            (
                scope.items[item].columns[place].name.clone(),
                scope.column(item, place),
            )
        };
        Ok(places.into_iter().map(column).collect())
    }
}
