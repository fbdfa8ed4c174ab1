//! Statements that the gateway serves by itself.

use std::rc::Rc;

use crate::connection::prepared::Progress;
use crate::connection::transaction::Block;
use crate::connection::work::{no_savepoint, outside_of_block, Completed, Tag};
use crate::connection::Connection;
use crate::rows::{self, ResultSet};
use crate::sqlstate::{Failure, Report, SqlState};
use crate::statement::session::{Isolation, Modes, Setting};
use crate::statement::{Discard, Statement};
use crate::value::oid;
use crate::variables::{no_isolation, Snapshot};
use crate::wire::backend::{self, Column};

/// Refuses levels of isolation that aren't served.
fn check_isolation(modes: Modes) -> Result<(), Failure> {
    match modes.isolation {
        Some(Isolation::RepeatableRead | Isolation::Serializable) => Err(no_isolation()),
        _ => Ok(()),
    }
}

impl Connection {
    /// Runs a statement that needs no program.
    pub(super) fn run_locally(&mut self, statement: &Statement) -> Result<Completed, Failure> {
        match statement {
            Statement::Begin { start, modes } => self.begin(*start, *modes),
            Statement::Release(name) => self.release(&name.text),
            Statement::SetTransaction(modes) => self.set_transaction(*modes),
            Statement::SetCharacteristics(modes) => self.set_characteristics(*modes),
            Statement::Set(setting) => self.set(setting),
            Statement::SetRole { name, is_reset } => {
                if let Some(name) = name.as_ref().filter(|name| **name != self.user) {
                    let text = format!("role \"{}\" does not exist", name);
                    return Err(Report::error(SqlState::INVALID_PARAMETER_VALUE, text));
                }
                Ok(Completed::plain(if *is_reset { "RESET" } else { "SET" }))
            }
            Statement::SetConstraints => {
                if self.transaction.block == Block::None && !self.transaction.several {
                    let text = "SET CONSTRAINTS can only be used in transaction blocks";
                    let report = Report::warning(SqlState::NO_ACTIVE_TRANSACTION, text);
                    self.report(&report, None);
                }
                Ok(Completed::plain("SET CONSTRAINTS"))
            }
            Statement::ResetAll => {
                self.remember_variables();
                self.change_variables(|variables| variables.reset_all());
                Ok(Completed::plain("RESET"))
            }
            Statement::Discard(discard) => self.discard(*discard),
            Statement::Deallocate(None) => {
                self.prepared.remove_statements();
                Ok(Completed::plain("DEALLOCATE ALL"))
            }
            Statement::Deallocate(Some(name)) => {
                self.prepared.statement(&name.text)?;
                self.prepared.remove_statement(&name.text);
                Ok(Completed::plain("DEALLOCATE"))
            }
            Statement::Unlisten => Ok(Completed::plain("UNLISTEN")),
            Statement::Close(None) => {
                self.prepared.drop_portals();
                Ok(Completed::plain("CLOSE CURSOR ALL"))
            }
            Statement::Close(Some(name)) => {
                if self.prepared.remove_portal(&name.text) {
                    return Ok(Completed::plain("CLOSE CURSOR"));
                }
                let text = format!("cursor \"{}\" does not exist", name.text);
                Err(Report::error(SqlState::UNDEFINED_PORTAL, text))
            }
            Statement::ShowSetting(_) | Statement::ShowAll => Ok(Completed {
                tag: Tag::Plain("SHOW"),
                rows: Some(self.shown_settings(statement)?),
            }),
            Statement::Commit { .. }
            | Statement::Rollback { .. }
            | Statement::Savepoint(_)
            | Statement::RollbackTo(_)
            | Statement::Declare(_)
            | Statement::Fetch { .. }
            | Statement::Query(_)
            | Statement::Served(_) => Err(Report::error(
                SqlState::INTERNAL_ERROR,
                "the program serves this statement",
            )),
        }
    }

    /// Returns the columns of a statement's rows, as far as no table's definition tells them. None: it has no rows.
    pub(super) fn columns(&self, statement: &Statement) -> Result<Option<Rc<[Column]>>, Failure> {
        let rows = match statement {
            Statement::Served(served) => {
                let columns = rows::shown_columns(served.verb().into());
                return Ok(Some(columns).filter(|columns| !columns.is_empty()));
            }
            Statement::Fetch {
                name,
                is_move: false,
                ..
            } => return Ok(self.cursor_columns(&name.text)),
            Statement::ShowSetting(_) | Statement::ShowAll => self.shown_settings(statement)?,
            Statement::Query(query) => return self.query_columns(query, &[]).map(Some),
            _ => return Ok(None),
        };
        Ok(Some(Rc::clone(rows.columns())))
    }

    fn cursor_columns(&self, name: &str) -> Option<Rc<[Column]>> {
        match self.prepared.progress(name)? {
            Progress::Rows(rows) => Some(Rc::clone(rows.columns())),
            _ => None,
        }
    }

    /// Returns what SHOW of a setting, or of all, shows.
    fn shown_settings(&self, statement: &Statement) -> Result<ResultSet, Failure> {
        if let Statement::ShowSetting(name) = statement {
            let (name, value) = self.setting(name)?;
            return Ok(rows::constants(&[(&name, oid::TEXT)], &[vec![Some(value)]]));
        }
        let columns = [
            ("name", oid::TEXT),
            ("setting", oid::TEXT),
            ("description", oid::TEXT),
        ];
        let settings: Vec<Vec<Option<String>>> = self
            .variables
            .all()
            .map(|(name, value)| {
                vec![
                    Some(name.to_owned()),
                    Some(value.to_owned()),
                    Some(String::new()),
                ]
            })
            .collect();
        Ok(rows::constants(&columns, &settings))
    }

    pub(super) fn setting(&self, name: &str) -> Result<(String, String), Failure> {
        let (name, value) = self.variables.get(name)?;
        let value = match name.as_str() {
            "transaction_read_only" if self.is_read_only() => "on".to_owned(),
            _ => value.to_owned(),
        };
        Ok((name, value))
    }

    /// Returns whether the transaction only reads, or the next one if none is open.
    pub(super) fn is_read_only(&self) -> bool {
        match self.transaction.block {
            Block::None => self.variables.is_read_only_by_default(),
            _ => self.transaction.read_only,
        }
    }

    fn begin(&mut self, start: bool, modes: Modes) -> Result<Completed, Failure> {
        let tag = if start { "START TRANSACTION" } else { "BEGIN" };
        check_isolation(modes)?;
        if self.transaction.block != Block::None {
            let text = "there is already a transaction in progress";
            self.report(&Report::warning(SqlState::ACTIVE_TRANSACTION, text), None);
            return Ok(Completed::plain(tag));
        }
        let read_only = self.is_read_only();
        self.begin_block(modes.read_only.unwrap_or(read_only));
        Ok(Completed::plain(tag))
    }

    fn release(&mut self, name: &str) -> Result<Completed, Failure> {
        if self.transaction.block == Block::None {
            return Err(outside_of_block("RELEASE SAVEPOINT"));
        }
        let place = self
            .transaction
            .savepoint(name)
            .ok_or_else(|| no_savepoint(name))?;
        self.transaction.release(place);
        Ok(Completed::plain("RELEASE"))
    }

    fn set_transaction(&mut self, modes: Modes) -> Result<Completed, Failure> {
        check_isolation(modes)?;
        if self.transaction.block == Block::None {
            let text = "SET TRANSACTION can only be used in transaction blocks";
            self.report(
                &Report::warning(SqlState::NO_ACTIVE_TRANSACTION, text),
                None,
            );
        } else if let Some(read_only) = modes.read_only {
            self.transaction.read_only = read_only;
        }
        Ok(Completed::plain("SET"))
    }

    fn set_characteristics(&mut self, modes: Modes) -> Result<Completed, Failure> {
        check_isolation(modes)?;
        if let Some(read_only) = modes.read_only {
            let value = if read_only { "on" } else { "off" };
            self.set_value("default_transaction_read_only", Some(value), false)?;
        }
        Ok(Completed::plain("SET"))
    }

    fn set(&mut self, setting: &Setting) -> Result<Completed, Failure> {
        if setting.local && self.transaction.block == Block::None && !self.transaction.several {
            let text = "SET LOCAL can only be used in transaction blocks";
            self.report(
                &Report::warning(SqlState::NO_ACTIVE_TRANSACTION, text),
                None,
            );
        }
        self.set_value(&setting.name, setting.value.as_deref(), setting.local)?;
        if !setting.local || self.transaction.block != Block::None || self.transaction.several {
            return Ok(Completed::plain(if setting.reset {
                "RESET"
            } else {
                "SET"
            }));
        }
        // The transaction that a LOCAL outside of a block is for ends with the statement.
        self.end_local_variables();
        Ok(Completed::plain("SET"))
    }

    pub(super) fn set_value(
        &mut self,
        name: &str,
        value: Option<&str>,
        local: bool,
    ) -> Result<(), Failure> {
        self.remember_variables();
        let before = self.variables.known(name).map(str::to_owned);
        if let Some((name, value)) = self.variables.set(name, value, local)? {
            if Some(value) != before.as_deref() {
                backend::parameter_status(self.output.buffer(), name, value);
            }
        }
        Ok(())
    }

    fn discard(&mut self, discard: Discard) -> Result<Completed, Failure> {
        if discard == Discard::All {
            if self.transaction.block != Block::None
                || self.transaction.several
                || self.transaction.dirty
            {
                return Err(Report::error(
                    SqlState::ACTIVE_TRANSACTION,
                    "DISCARD ALL cannot run inside a transaction block",
                ));
            }
            self.prepared.remove_statements();
            self.change_variables(|variables| variables.reset_all());
        }
        Ok(Completed::plain(match discard {
            Discard::All => "DISCARD ALL",
            Discard::Plans => "DISCARD PLANS",
            Discard::Sequences => "DISCARD SEQUENCES",
            Discard::Temporary => "DISCARD TEMP",
        }))
    }

    /// Changes settings, and tells the client of those that it is told of.
    fn change_variables(&mut self, change: impl FnOnce(&mut crate::variables::Variables)) {
        let before: Vec<String> = self
            .variables
            .reported()
            .map(|(_, value)| value.to_owned())
            .collect();
        change(&mut self.variables);
        let out = self.output.buffer();
        for ((name, value), before) in self.variables.reported().zip(&before) {
            if value != before {
                backend::parameter_status(out, name, value);
            }
        }
    }

    /// Goes back to the settings of a snapshot.
    pub(super) fn restore_variables(&mut self, snapshot: &Snapshot) {
        if !self.variables.is_as_in(snapshot) {
            self.change_variables(|variables| variables.restore(snapshot));
        }
    }

    /// Forgets the settings of the transaction alone.
    pub(super) fn end_local_variables(&mut self) {
        if self.variables.has_local() {
            self.change_variables(|variables| variables.end_transaction());
        }
    }
}
