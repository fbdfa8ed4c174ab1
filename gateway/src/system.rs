//! What a program that clients of PostgreSQL connect to needs of the system: its socket, log, and metrics.

pub mod log;
pub mod notify;
pub mod socket;
#[cfg(test)]
mod temporary;
pub mod textfile;
