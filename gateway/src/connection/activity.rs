//! What a connection does, and statements about all connections.

use std::fmt;
use std::time::Instant;

use crate::activity::{Activity, Clock, State};
use crate::connection::transaction::Block;
use crate::connection::work::{Awaited, Completed, Subject, Target};
use crate::connection::{Connection, Phase};
use crate::sqlstate::Failure;

type Evaluation = dyn FnOnce(&mut Connection, &[Activity]) -> Result<Completed, Failure>;

/// What makes the result of a statement out of what all connections do.
pub struct Evaluate(Box<Evaluation>);

impl fmt::Debug for Evaluate {
    fn fmt(&self, formatter: &mut fmt::Formatter<'_>) -> fmt::Result {
        formatter.write_str("Evaluate")
    }
}

impl Connection {
    /// Returns what BackendKeyData names.
    pub fn process_id(&self) -> i32 {
        self.process_id
    }

    /// Returns the name of the database that it asked for, if that is served. Otherwise it is empty.
    pub fn database(&self) -> &str {
        &self.database
    }

    /// Returns the name that the client gave itself, as soon as it has named a database that is served.
    pub fn user(&self) -> &str {
        &self.user
    }

    /// Returns the setting `application_name`.
    pub fn application_name(&self) -> &str {
        self.variables.value("application_name")
    }

    /// Returns what it does, if it serves its client. `session` is the number of the session that it has.
    pub fn activity(&self, session: Option<u16>, clock: &Clock) -> Option<Activity> {
        if !matches!(self.phase, Phase::Serving) {
            return None;
        }
        let is_busy = self.is_busy() || !self.resting;
        let state = match self.transaction.block {
            _ if is_busy => State::Active,
            Block::None => State::Idle,
            Block::Open => State::IdleInTransaction,
            Block::Failed => State::IdleInFailedTransaction,
        };
        Some(Activity {
            process_id: self.process_id,
            database: self.database.clone(),
            user: self.user.clone(),
            application_name: self.application_name().to_owned(),
            session,
            since: clock.time_of(self.since),
            transaction_since: self.transaction.since().map(|it| clock.time_of(it)),
            state_since: clock.time_of(self.idle_since),
            state,
            reservations: self.transaction.reservations,
        })
    }

    /// Asks the engine what all connections do, for a statement whose result `evaluate` makes.
    pub(super) fn ask_activities(
        &mut self,
        target: Target,
        subject: Subject,
        evaluate: impl FnOnce(&mut Connection, &[Activity]) -> Result<Completed, Failure> + 'static,
    ) {
        self.requests.ask_activities();
        self.awaited.push_back(Awaited::Activities {
            target,
            subject,
            evaluate: Evaluate(Box::new(evaluate)),
        });
    }

    /// Asks the engine to end the connection with this process id, if there is one. It may be this one.
    pub(super) fn terminate(&mut self, process_id: i32) {
        self.requests.terminate(process_id);
    }

    /// Takes the answer to [`Request::Activities`](super::Request::Activities): what all connections do, this one
    /// included.
    pub fn activities(&mut self, all: &[Activity], now: Instant) {
        self.now = now;
        match self.awaited.pop_front() {
            Some(Awaited::Activities {
                target,
                subject,
                evaluate: Evaluate(evaluate),
            }) => {
                let result = evaluate(self, all);
                self.finish(target, &subject, result);
            }
            Some(awaited) => self.awaited.push_front(awaited),
            None => {}
        }
        self.advance();
    }
}
