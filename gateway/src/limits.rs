//! Limits of the program, as its reference has them.
//!
//! The program cannot be asked for them. They stay while its version begins with 1, and the gateway starts no program of
//! another version than its own.

/// The bytes of a line, without its end and with its prefix.
pub const LINE: usize = 4_096;

/// The tables of a database.
pub const TABLES: usize = 32;

/// The rows of a table.
pub const ROWS: usize = 65_536;

/// The bytes of a name.
pub const NAME: usize = 30;

/// The open reservations of a session.
pub const RESERVATIONS: usize = 256;

/// The open reservations of a row.
pub const RESERVATIONS_OF_A_ROW: usize = 16_384;

/// The savepoints of a session.
pub const SAVEPOINTS: usize = 64;

/// The digits of a number.
pub const MOST_DIGITS: usize = 15;

/// The digits of a number behind its point.
pub const MOST_DIGITS_BEHIND_POINT: usize = 6;
