//! The simple query: one text, perhaps of several statements.

use std::rc::Rc;

use crate::connection::work::{AfterCommit, Subject, Target};
use crate::connection::{transaction::Block, Connection};
use crate::sqlstate::Failure;
use crate::statement::constant::no_parameter;
use crate::statement::known::Known;
use crate::statement::literal::not_utf8;
use crate::statement::parser::next_statement;
use crate::statement::Parsed;
use crate::wire::backend;

/// How many bytes of a text are read ahead at a time, but for the end of the last statement.
const READ_AHEAD: usize = 4 * 1024;

/// A simple query that is being served.
#[derive(Debug)]
pub struct Query {
    /// Its text.
    pub text: Rc<str>,
    /// Up to where it was read ahead. None: to its end.
    ahead: Option<usize>,
    /// Where the statement behind the next one begins.
    at: usize,
    /// Its next statement, if that was read.
    statement: Option<Rc<Parsed>>,
}

impl Connection {
    /// Begins a simple query.
    pub(super) fn begin_query(&mut self, text: &[u8]) {
        let text = match std::str::from_utf8(text) {
            Ok(text) => text,
            Err(_) => return self.refuse_query(not_utf8(text), ""),
        };
        let unknown = match self.settings.statements.find(text) {
            Ok(Known { text, parsed }) => {
                self.query = Some(Query {
                    at: text.len(),
                    text,
                    ahead: None,
                    statement: Some(parsed),
                });
                return;
            }
            Err(unknown) => unknown,
        };
        let mut at = 0;
        match next_statement(text, &mut at) {
            Err(report) => return self.refuse_query(report, text),
            Ok(None) => {
                backend::empty_query(self.output.buffer());
                return self.ready();
            }
            Ok(first) => {
                self.query = Some(Query {
                    text: text.into(),
                    ahead: Some(at),
                    at,
                    statement: first,
                });
            }
        }
        self.read_ahead();
        match &self.query {
            Some(Query {
                text,
                ahead: None,
                statement: Some(parsed),
                ..
            }) if !self.transaction.several => {
                let (text, parsed) = (Rc::clone(text), Rc::clone(parsed));
                self.settings
                    .statements
                    .keep(unknown, &Known { text, parsed });
            }
            _ => {}
        }
    }

    /// Refuses a simple query before anything of it runs.
    pub(super) fn refuse_query(&mut self, report: Failure, text: &str) {
        self.query = Some(Query {
            text: "".into(),
            ahead: None,
            at: 0,
            statement: None,
        });
        self.fail(report, Some(text));
    }

    /// Reads the next statements of the simple query ahead, as many as one turn has time for. Nothing of it runs before
    /// all of it is read, as in PostgreSQL: a syntax error in its last statement refuses all.
    fn read_ahead(&mut self) {
        let query = match &mut self.query {
            Some(query) => query,
            None => return,
        };
        let end = query.ahead.unwrap_or_default() + READ_AHEAD;
        while let Some(ahead) = query.ahead.as_mut().filter(|ahead| **ahead < end) {
            match next_statement(&query.text, ahead) {
                Err(report) => return self.fail_query(report),
                Ok(Some(_)) => self.transaction.several = true,
                Ok(None) => query.ahead = None,
            }
        }
        if query.ahead.is_none() && !self.transaction.several {
            query.at = query.text.len();
        }
    }

    /// Runs the next statement of the simple query, or ends it.
    pub(super) fn next_statement(&mut self) {
        let query = match &mut self.query {
            Some(query) => query,
            None => return,
        };
        if query.ahead.is_some() {
            self.add_effort_of_bytes(READ_AHEAD);
            return self.read_ahead();
        }
        let start = query.at;
        let parsed = match query.statement.take() {
            Some(parsed) => Ok(Some(parsed)),
            None => next_statement(&query.text, &mut query.at),
        };
        let read = query.at - start;
        self.add_effort_of_bytes(read);
        match parsed.and_then(|parsed| parsed.map(without_parameters).transpose()) {
            Ok(Some(parsed)) => {
                let commits = !self.transaction.several;
                self.execute(Subject::Simple(parsed), Target::Simple, commits);
            }
            Ok(None) if self.transaction.block == Block::None && self.transaction.dirty => {
                self.commit(AfterCommit::Query);
            }
            Ok(None) => self.end_query(),
            Err(report) => self.fail_query(report),
        }
    }

    /// Ends a simple query all of whose statements were served.
    pub(super) fn end_query(&mut self) {
        self.query = None;
        self.transaction.several = false;
        if self.transaction.block == Block::None {
            self.end_transaction(true);
        }
        self.ready();
    }
}

/// Returns the statement of a simple query.
///
/// # Errors
///
/// Fails if it has parameters, since no simple query gives them values.
fn without_parameters(parsed: Rc<Parsed>) -> Result<Rc<Parsed>, Failure> {
    match parsed.parameter {
        Some((number, place)) => Err(no_parameter(number, place)),
        None => Ok(parsed),
    }
}
