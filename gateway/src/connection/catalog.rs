//! Queries that read no table of the database: values alone, and PostgreSQL's catalog.

use std::rc::Rc;
use std::time::SystemTime;

use postgres_protocol::Oid;

use crate::activity::{Activity, Clock};
use crate::catalog::{self, microseconds, Session, SettingRow, World};
use crate::connection::transaction::Block;
use crate::connection::work::{Completed, Subject, Tag, Target};
use crate::connection::{Connection, EFFORT_OF_A_BYTE};
use crate::rows::ResultSet;
use crate::sqlstate::Failure;
use crate::statement::query::Query;
use crate::statement::Statement;
use crate::wire::backend::{Column, Format};

/// The session whose query is run.
struct Running<'c> {
    connection: &'c mut Connection,
    activities: &'c [Activity],
}

impl Running<'_> {
    fn clock(&self) -> Clock {
        Clock::new(self.connection.now, SystemTime::now())
    }
}

impl Session for Running<'_> {
    fn setting(&self, name: &str) -> Result<String, Failure> {
        Ok(self.connection.setting(name)?.1)
    }

    fn set(&mut self, name: &str, value: Option<&str>, is_local: bool) -> Result<(), Failure> {
        self.connection.set_value(name, value, is_local)
    }

    fn settings(&self) -> Vec<SettingRow> {
        self.connection.variables.rows()
    }

    fn activities(&self) -> &[Activity] {
        self.activities
    }

    fn terminate(&mut self, process_id: i32) {
        self.connection.terminate(process_id);
    }

    fn warn(&mut self, report: Failure) {
        self.connection.report(&report, None);
    }

    fn now(&self) -> i64 {
        microseconds(self.clock().time_of(self.connection.now))
    }

    fn transaction_start(&self) -> i64 {
        let since = self
            .connection
            .transaction
            .since()
            .unwrap_or(self.connection.now);
        microseconds(self.clock().time_of(since))
    }
}

impl Connection {
    fn world(&self) -> World {
        World::new(
            self.definitions().all(),
            &self.settings.databases,
            &self.database,
            &self.user,
            self.process_id,
        )
    }

    /// Counts what a query looked at towards the connection's share of the turn.
    fn add_effort(&self, effort: usize) {
        self.effort.set(self.effort.get().saturating_add(effort));
    }

    /// Counts bytes of messages and texts that were read towards the connection's share of the turn.
    pub(super) fn add_effort_of_bytes(&self, bytes: usize) {
        self.add_effort(bytes.saturating_mul(EFFORT_OF_A_BYTE));
    }

    /// Finds out the types of a query's parameters, and its columns.
    pub(super) fn describe_query(
        &self,
        query: &Query,
        types: &[Oid],
    ) -> Result<catalog::Description, Failure> {
        let description = catalog::describe(query, types, &self.world())?;
        self.add_effort(description.effort);
        Ok(description)
    }

    /// Runs a query. If it needs to know what all connections do, the engine is asked for that first.
    pub(super) fn run_query(&mut self, query: &Query, target: Target, subject: Subject) {
        if !catalog::reads_activity(query) {
            let result = self.answer(query, &target, &subject, &[]);
            return self.finish(target, &subject, result);
        }
        let (asked, of) = (target.clone(), subject.clone());
        self.ask_activities(target, subject, move |connection, activities| {
            match of.statement().and_then(Statement::query) {
                Some(query) => connection.answer(query, &asked, &of, activities),
                None => Ok(Completed::plain("SELECT 0")),
            }
        });
    }

    fn answer(
        &mut self,
        query: &Query,
        target: &Target,
        subject: &Subject,
        activities: &[Activity],
    ) -> Result<Completed, Failure> {
        let formats = match target {
            Target::Execute { portal, .. } | Target::Describe { portal } => {
                self.prepared.portal(portal)?.formats.clone()
            }
            _ => Default::default(),
        };
        let (types, values) = match subject {
            Subject::Simple(_) => (&[][..], Vec::new()),
            Subject::Prepared(prepared, arguments) => (&prepared.types[..], arguments.raw()),
        };
        let world = self.world();
        let mut session = Running {
            connection: self,
            activities,
        };
        let format = |place| formats.of(place);
        let answer = catalog::run(query, types, &values, format, &world, &mut session);
        // What SET LOCAL has set outside of a block ends with its statement.
        if self.transaction.block == Block::None && !self.transaction.several {
            self.end_local_variables();
        }
        let answer = answer.map_err(|report| {
            self.add_effort(catalog::MOST_STEPS);
            report
        })?;
        self.add_effort(answer.effort);
        Ok(Completed {
            tag: Tag::Rows("SELECT"),
            rows: Some(ResultSet::encoded(answer.columns, answer.rows)),
        })
    }

    /// Returns the columns of a query.
    pub(super) fn query_columns(
        &self,
        query: &Query,
        types: &[Oid],
    ) -> Result<Rc<[Column]>, Failure> {
        Ok(self.describe_query(query, types)?.columns)
    }
}

/// A value as a client sent it: its format and its bytes.
pub type RawValue = (Format, Option<Vec<u8>>);
