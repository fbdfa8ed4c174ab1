//! What the engine knows of all connections, and what it logs of them.

use std::time::SystemTime;

use escrowd_pg::activity::{Activity, Clock};
use escrowd_pg::connection::{Ending, Event};
use escrowd_pg::sqlstate::SqlState;
use tracing::{debug, info, warn};

use super::{enqueue, Engine};
use crate::client::Client;
use crate::program::Number;

/// Returns what an operator should know of an error that a client got, if it is one that needs a look.
fn warning(state: SqlState) -> Option<&'static str> {
    match state {
        SqlState::IDLE_IN_TRANSACTION_TIMEOUT => {
            Some("it was idle inside a transaction for too long")
        }
        SqlState::TRANSACTION_TIMEOUT => Some("its transaction lasted too long"),
        SqlState::OUT_OF_MEMORY => Some("there is no memory for a statement"),
        SqlState::TOO_MANY_CONNECTIONS => {
            Some("all connections or all sessions of the database are taken")
        }
        SqlState::IO_ERROR => Some("the store cannot be read or written"),
        SqlState::INTERNAL_ERROR => Some("a reply of the program was not understood"),
        _ => None,
    }
}

/// Returns the SQLSTATE of an error that an operator should know of.
pub(super) fn grave(event: Event) -> Option<SqlState> {
    match event {
        Event::Refused(state) if warning(state).is_some() => Some(state),
        _ => None,
    }
}

/// Logs an error that a client got, if an operator should look.
pub(super) fn log_refusal(client: &Client, state: SqlState) {
    if let Some(text) = warning(state) {
        let connection = &client.connection;
        warn!(
            "{}: connection {} of user {:?}, application {:?}, got {}: {text}",
            connection.database(),
            connection.process_id(),
            connection.user(),
            connection.application_name(),
            state.code(),
        );
    }
}

/// Logs that a client is let in, if it is.
pub(super) fn log_begin(client: &Client) {
    if client.is_connected {
        debug!(
            "{}: connection {} of user {:?} begins",
            client.connection.database(),
            client.connection.process_id(),
            client.connection.user(),
        );
    }
}

/// Logs that a client left.
pub(super) fn log_end(client: &Client) {
    let connection = &client.connection;
    debug!(
        "{}: connection {} ended",
        connection.database(),
        connection.process_id()
    );
}

impl Engine {
    /// Tells the client at `place` what all connections do.
    pub(super) fn tell_activities(&mut self, place: usize) {
        let clock = Clock::new(self.now, SystemTime::now());
        let mut all: Vec<Activity> = self
            .clients
            .iter()
            .filter_map(|(_, client)| {
                let session = client.session.map(Number::to_u16);
                client.connection.activity(session, &clock)
            })
            .collect();
        all.sort_by_key(|activity| activity.process_id);
        if let Some(client) = self.clients.get_mut(place) {
            client.connection.activities(&all, self.now);
        }
    }

    /// Ends the connection with this process id, if there is one.
    pub(super) fn terminate(&mut self, process_id: i32) {
        let found = self
            .clients
            .iter_mut()
            .find(|(_, client)| client.connection.process_id() == process_id);
        if let Some((place, client)) = found {
            info!("connection {process_id} is ended by an administrator's statement");
            client.connection.end(Ending::Shutdown, self.now);
            enqueue(&mut self.queue, client, place);
        }
    }
}

#[cfg(test)]
mod tests {
    use super::*;

    #[test]
    fn an_operator_is_told_of_limits_and_faults_alone() {
        for state in [
            SqlState::IDLE_IN_TRANSACTION_TIMEOUT,
            SqlState::TRANSACTION_TIMEOUT,
            SqlState::OUT_OF_MEMORY,
            SqlState::TOO_MANY_CONNECTIONS,
            SqlState::IO_ERROR,
            SqlState::INTERNAL_ERROR,
        ] {
            assert_eq!(grave(Event::Refused(state)), Some(state));
        }
        for event in [
            Event::Refused(SqlState::CHECK_VIOLATION),
            Event::Refused(SqlState::SYNTAX_ERROR),
            Event::Committed,
        ] {
            assert_eq!(grave(event), None, "{event:?}");
        }
    }
}
