//! What each connection of the gateway does, as `pg_stat_activity` shows it.

use std::time::{Duration, Instant, SystemTime};

/// What a connection does at the moment, as PostgreSQL's column `state` says it.
#[derive(Clone, Copy, Debug, PartialEq, Eq)]
pub enum State {
    /// It runs a statement, or is amid messages that no Sync has ended yet.
    Active,
    /// It waits for the client, outside of a block.
    Idle,
    /// It waits for the client, inside a block.
    IdleInTransaction,
    /// It waits for the client, inside a block that has failed.
    IdleInFailedTransaction,
}

impl State {
    /// Returns PostgreSQL's words for it.
    pub fn words(self) -> &'static str {
        match self {
            State::Active => "active",
            State::Idle => "idle",
            State::IdleInTransaction => "idle in transaction",
            State::IdleInFailedTransaction => "idle in transaction (aborted)",
        }
    }
}

/// A connection that is served, and what it does.
#[derive(Clone, Debug, PartialEq, Eq)]
pub struct Activity {
    /// What BackendKeyData told its client. No two connections have the same at a time.
    pub process_id: i32,
    /// The database that it is connected to.
    pub database: String,
    /// The name that the client gave itself. Nobody has checked it.
    pub user: String,
    /// The setting `application_name`.
    pub application_name: String,
    /// The session that its transaction has in that database: the number that SHOW JOURNAL shows.
    pub session: Option<u16>,
    /// When the client connected.
    pub since: SystemTime,
    /// When its transaction began. None: it is outside of a block and holds nothing.
    pub transaction_since: Option<SystemTime>,
    /// When the state began.
    pub state_since: SystemTime,
    /// What it does.
    pub state: State,
    /// How many reservations it holds: as many as SHOW JOURNAL shows of its session.
    pub reservations: u32,
}

/// The time of day at which something happened.
#[derive(Clone, Copy, Debug)]
pub struct Clock {
    now: Instant,
    time: SystemTime,
}

impl Clock {
    /// Returns a clock for which it is `time` at the instant `now`.
    pub fn new(now: Instant, time: SystemTime) -> Clock {
        Clock { now, time }
    }

    /// Returns the time of day at an instant that is not after the clock's own. If the clock can't tell a time that
    /// early, it returns its own time.
    pub fn time_of(&self, instant: Instant) -> SystemTime {
        let age: Duration = self.now.saturating_duration_since(instant);
        self.time.checked_sub(age).unwrap_or(self.time)
    }
}

#[cfg(test)]
mod tests {
    use super::*;

    #[test]
    fn a_clock_tells_when_something_happened() {
        let (now, time) = (Instant::now(), SystemTime::now());
        let clock = Clock::new(now, time);
        assert_eq!(clock.time_of(now), time);
        let later = now + Duration::from_secs(90);
        let clock = Clock::new(later, time);
        assert_eq!(clock.time_of(now), time - Duration::from_secs(90));
        assert_eq!(clock.time_of(later + Duration::from_secs(1)), time);
    }
}
