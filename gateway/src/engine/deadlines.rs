//! What is done by time.

use std::time::{Duration, Instant};

use super::door::Door;
use super::{enqueue, wake, Engine, Phase, REST};
use crate::metrics::{Metrics, State};
use crate::program::Program;

impl Engine {
    /// Does what is due by time.
    pub(super) fn keep_deadlines(&mut self) {
        if matches!(self.alarm, Some(alarm) if alarm <= self.now) {
            self.alarm = None;
            for (place, client) in self.clients.iter_mut() {
                match client.connection.deadline() {
                    Some(deadline) if deadline <= self.now => {
                        client.connection.time_passed(self.now);
                        enqueue(&mut self.queue, client, place);
                    }
                    deadline => wake(&mut self.alarm, deadline),
                }
            }
        }
        if matches!(self.rest, Some(rest) if rest <= self.now) {
            self.trim_clients();
        }
        let failed = self
            .programs
            .iter_mut()
            .find_map(|program| program.roll_back_again(self.now).err());
        if let Some(failure) = failed {
            self.fail(failure);
        }
        if matches!(self.metrics_due(), Some(due) if due <= self.now) {
            self.write_metrics();
        }
    }

    /// Lets clients that rest give back memory.
    fn trim_clients(&mut self) {
        let (clients, now) = (&mut self.clients, self.now);
        self.restless.retain(|&place| match clients.get_mut(place) {
            Some(client) => {
                client.is_restless = client.connection.trim(REST, now);
                client.is_restless
            }
            None => false,
        });
        self.rest = (!self.restless.is_empty()).then(|| now + REST);
    }

    /// Returns when the metrics are to be written next. They begin with the first client that may come.
    fn metrics_due(&self) -> Option<Instant> {
        match self.phase {
            Phase::Opening => None,
            _ => self.metrics.as_ref().map(Metrics::due),
        }
    }

    /// Writes the metrics.
    fn write_metrics(&mut self) {
        let mut states: Vec<_> = self.programs.iter().map(State::of).collect();
        for (_, client) in self.clients.iter() {
            if let (Some(database), true) = (client.database, client.is_connected) {
                let connection = &client.connection;
                states[database].add(connection.transaction_since(), connection.reservations());
            }
        }
        if let Some(metrics) = &mut self.metrics {
            metrics.write(&states, self.now);
        }
    }

    /// Returns how long to wait for something to be ready.
    pub(super) fn timeout(&self) -> Option<Duration> {
        let phase = match self.phase {
            Phase::Leaving(until) | Phase::Closing(until) | Phase::Killing(until) => Some(until),
            Phase::Opening | Phase::Serving | Phase::Finished => None,
        };
        let door = self.door.as_ref().and_then(Door::deadline);
        let metrics = self.metrics_due();
        let ends = self
            .programs
            .iter()
            .map(|program| program.end_deadline(self.now));
        let retries = self.programs.iter().map(|program| {
            let is_ahead = |retry: &Instant| self.now < *retry;
            program.retry_at().filter(is_ahead)
        });
        let rollbacks = self.programs.iter().map(Program::rollback_deadline);
        let selects = self.programs.iter().map(Program::long_deadline);
        let deadlines = [self.alarm, self.rest, phase, door, metrics];
        let next = deadlines
            .iter()
            .copied()
            .chain(ends)
            .chain(retries)
            .chain(rollbacks)
            .chain(selects)
            .flatten()
            .min()?;
        Some(next.saturating_duration_since(self.now))
    }
}
