//! Why the gateway ends with another status than 0.

use std::io;
use std::path::PathBuf;

use escrowd_pg::system::socket::SocketError;
use thiserror::Error;

/// A reason to end. Its text is the last line on standard error.
#[derive(Debug, Error)]
pub enum Failure {
    /// A call of the system failed on which all depends.
    #[error("{what}: {error}")]
    System {
        /// What was tried.
        what: &'static str,
        /// What the system said.
        error: io::Error,
    },
    /// The programs were told to end, and one of them didn't end well.
    #[error("the program of {database} {how}")]
    EndedBadly {
        /// The database it served.
        database: String,
        /// How it ended.
        how: String,
    },
    /// A program cannot be started.
    #[error("the program of {database}, {}, cannot be started: {error}", program.display())]
    NotStarted {
        /// The database it should have served.
        database: String,
        /// The path of the program.
        program: PathBuf,
        /// What the system said.
        error: io::Error,
    },
    /// A program ended before it served anything.
    #[error("the store of {database} cannot be opened: the program {how}")]
    NotOpened {
        /// The database it should have served.
        database: String,
        /// How it ended.
        how: String,
    },
    /// The metrics cannot be written where they should be.
    #[error("the metrics cannot be written to {}: {error}", path.display())]
    Metrics {
        /// The path that was given, or the one beside it.
        path: PathBuf,
        /// What is wrong with it.
        error: io::Error,
    },
    /// The socket cannot be had.
    #[error(transparent)]
    Socket(#[from] SocketError),
    /// A program ended while it was in use.
    #[error("the program of {database} {how}")]
    Ended {
        /// The database it served.
        database: String,
        /// How it ended.
        how: String,
    },
    /// A program doesn't roll back what a client has left.
    #[error(
        "the program of {database} has refused for {seconds} s to roll back what a client left"
    )]
    NotRolledBack {
        /// The database it serves.
        database: String,
        /// For how long.
        seconds: u64,
    },
    /// A program's output doesn't fit what it was asked.
    #[error("the program of {database} wrote {line:?}, but {expected}")]
    OutOfStep {
        /// The database it served.
        database: String,
        /// The beginning of what it wrote.
        line: String,
        /// What was expected there.
        expected: String,
    },
}

impl Failure {
    /// Returns the status with which the gateway ends. `--help` lists them.
    pub fn status(&self) -> u8 {
        match self {
            Failure::System { .. } | Failure::EndedBadly { .. } => 1,
            Failure::Metrics { .. } => 2,
            Failure::NotStarted { .. } | Failure::NotOpened { .. } => 3,
            Failure::Socket(_) => 4,
            Failure::Ended { .. } | Failure::NotRolledBack { .. } => 5,
            Failure::OutOfStep { .. } => 6,
        }
    }

    /// Wraps what the system said of `what`.
    pub fn system(what: &'static str) -> impl FnOnce(io::Error) -> Failure {
        move |error| Failure::System { what, error }
    }
}
