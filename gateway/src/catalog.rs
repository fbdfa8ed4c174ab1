//! Queries that read no table of the database: values alone, and PostgreSQL's catalog.
//!
//! A query is answered by what it means, as PostgreSQL 15 would answer it: pg_catalog and information_schema are relations
//! whose rows follow from the tables of the database, and a small evaluator joins, filters and sorts them. What it doesn't
//! know is refused by its name, with 0A000. Both its steps and its memory are bounded.

mod analysis;
mod casts;
mod constraints;
mod execution;
mod functions;
mod namespace;
pub(crate) mod operators;
mod output;
mod plan;
mod procedures;
mod reading;
mod relations;
mod system;
pub(crate) mod types;
mod value;

#[cfg(test)]
mod tests;

use std::rc::Rc;
use std::time::{Duration, SystemTime, UNIX_EPOCH};

use postgres_protocol::Oid;

use crate::activity::Activity;
use crate::catalog::analysis::Analyser;
use crate::catalog::execution::Executor;
pub use crate::catalog::execution::MOST_STEPS;
use crate::catalog::namespace::{Tables, FIRST_NORMAL};
use crate::catalog::plan::Plan;
use crate::catalog::value::Value;
use crate::rows::Definition;
use crate::sqlstate::{Failure, Report};
use crate::statement::query::Query;
use crate::wire::backend::{Column, Format};

/// Makes the report of something that PostgreSQL has, and that queries of the catalog don't have here.
fn missing(what: &str) -> Failure {
    Report::missing(what).hint("The reference lists what queries of the catalog may use.")
}

/// A setting as pg_settings shows it.
#[derive(Clone, Debug, PartialEq, Eq)]
pub struct SettingRow {
    /// Its name.
    pub name: String,
    /// Its value.
    pub value: String,
    /// The unit of its value, if it is a number with one.
    pub unit: Option<String>,
    /// Who may change it: `user` or `internal`.
    pub context: &'static str,
    /// `bool`, `integer`, `string` or `enum`.
    pub kind: &'static str,
    /// Where its value is from: `default`, `client` or `session`.
    pub source: &'static str,
    /// Its value if nobody sets it.
    pub default: String,
    /// The value to which RESET goes back.
    pub reset: String,
}

/// The session that a query belongs to.
pub trait Session {
    /// Returns a setting's value as SHOW prints it.
    ///
    /// # Errors
    ///
    /// Fails with 42704 if there is none of this name.
    fn setting(&self, name: &str) -> Result<String, Failure>;

    /// Changes a setting, as SET or SET LOCAL does. None: RESET.
    ///
    /// # Errors
    ///
    /// Fails as SET does.
    fn set(&mut self, name: &str, value: Option<&str>, is_local: bool) -> Result<(), Failure>;

    /// Returns all settings, in order of their names.
    fn settings(&self) -> Vec<SettingRow>;

    /// Returns what all connections do. It is asked for by queries for which [`reads_activity`] is true, and no others.
    fn activities(&self) -> &[Activity];

    /// Ends the connection with this process id.
    fn terminate(&mut self, process_id: i32);

    /// Sends the client a warning.
    fn warn(&mut self, report: Failure);

    /// Returns the time, in microseconds since the first second of 2000 in UTC.
    fn now(&self) -> i64;

    /// Returns when the transaction began, as [`Session::now`] does.
    fn transaction_start(&self) -> i64;
}

/// What a query may know of its session and its database while it is read.
#[derive(Debug, Default)]
pub struct World {
    tables: Tables,
    user: String,
    database: String,
    databases: Vec<String>,
    process_id: i32,
}

impl World {
    /// Takes the definitions of all tables of the database, the names of all databases, and who the client is.
    pub fn new(
        tables: Vec<Rc<Definition>>,
        databases: &[String],
        database: &str,
        user: &str,
        process_id: i32,
    ) -> World {
        World {
            tables: Tables::new(tables),
            user: user.to_owned(),
            database: database.to_owned(),
            databases: databases.to_vec(),
            process_id,
        }
    }

    /// Returns the Oid of a database. 0: there is none of this name.
    fn database_oid(&self, name: &str) -> Oid {
        let place = self.databases.iter().position(|known| known == name);
        place.map_or(0, |place| FIRST_NORMAL + place as Oid)
    }

    /// Returns the name of the database of this Oid.
    fn database_name(&self, oid: Oid) -> Option<&str> {
        let place = oid.checked_sub(FIRST_NORMAL)? as usize;
        self.databases.get(place).map(String::as_str)
    }
}

/// The parameters and columns of a query, which a client may ask for before it runs.
#[derive(Clone, Debug, PartialEq, Eq)]
pub struct Description {
    /// The types of its parameters.
    pub parameters: Vec<Oid>,
    /// The columns of its result.
    pub columns: Rc<[Column]>,
    /// How much was looked at, in the unit of [`MOST_STEPS`].
    pub effort: usize,
}

/// The rows of a query, each value in the format that was asked for.
#[derive(Clone, Debug, PartialEq, Eq)]
pub struct Answer {
    /// The columns.
    pub columns: Rc<[Column]>,
    /// The rows: the length of each value, -1 for NULL, and its bytes.
    pub rows: Vec<Vec<u8>>,
    /// How much was looked at, in the unit of [`MOST_STEPS`].
    pub effort: usize,
}

/// Finds out the types of a query's parameters, and its columns. `types` are those that the client gave, 0 for none.
///
/// # Errors
///
/// Fails at a name that means nothing, at types that don't fit, and at what is not supported.
pub fn describe(query: &Query, types: &[Oid], world: &World) -> Result<Description, Failure> {
    let (plan, parameters, effort) = Analyser::new(world, types).plan(query)?;
    Ok(Description {
        parameters,
        columns: columns(&plan),
        effort,
    })
}

/// A parameter's value as the client sent it. None: NULL.
pub type Parameter<'p> = (Format, Option<&'p [u8]>);

/// Answers a query. `format` tells the format of each column of the result, from 0.
///
/// # Errors
///
/// Fails as [`describe`] does, if a value can't be computed, and past the bounds of steps and memory.
pub fn run(
    query: &Query,
    types: &[Oid],
    parameters: &[Parameter<'_>],
    format: impl Fn(usize) -> Format,
    world: &World,
    session: &mut dyn Session,
) -> Result<Answer, Failure> {
    let (plan, types, effort) = Analyser::new(world, types).plan(query)?;
    let values: Result<Vec<Value>, Failure> = parameters
        .iter()
        .enumerate()
        .map(|(place, &(format, bytes))| {
            let oid = types.get(place).copied().unwrap_or(types::oid::TEXT);
            casts::parameter(place + 1, oid, format, bytes, world)
        })
        .collect();
    let values = values?;
    let mut executor = Executor::new(world, session, &values);
    let rows = executor.rows(&plan, None)?;
    let mut encoded = Vec::with_capacity(rows.len());
    for row in rows {
        let mut out = Vec::new();
        for (place, (value, column)) in row.iter().zip(&plan.columns).enumerate() {
            output::append_cell_of(&mut out, value, column.oid, format(place), world)?;
        }
        executor.keep(out.len() + 24)?;
        encoded.push(out);
    }
    Ok(Answer {
        columns: columns(&plan),
        rows: encoded,
        effort: effort + executor.spent(),
    })
}

fn columns(plan: &Plan) -> Rc<[Column]> {
    plan.columns
        .iter()
        .map(|column| Column {
            name: column.name.clone(),
            oid: column.oid,
            size: types::by_oid(column.oid).map_or(-1, |known| known.size),
            modifier: column.modifier,
        })
        .collect()
}

/// Returns whether PostgreSQL's catalog has a relation of this name. A name without a schema is looked for there first.
pub fn has_relation(schema: Option<&str>, name: &str) -> bool {
    matches!(schema, Some("pg_catalog" | "information_schema"))
        || system::by_name(schema, name).is_some()
}

/// Returns whether a query asks for what all connections do: it reads pg_stat_activity, or ends one of them.
pub fn reads_activity(query: &Query) -> bool {
    reading::reads_activity(query)
}

/// Returns a time as the catalog counts it: microseconds since the first second of 2000 in UTC.
pub fn microseconds(time: SystemTime) -> i64 {
    const SECONDS_BEFORE: u64 = 946_684_800;
    let start = UNIX_EPOCH + Duration::from_secs(SECONDS_BEFORE);
    let signed = |duration: Duration| i64::try_from(duration.as_micros()).unwrap_or(i64::MAX);
    match time.duration_since(start) {
        Ok(since) => signed(since),
        Err(before) => -signed(before.duration()),
    }
}
