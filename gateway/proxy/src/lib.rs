//! Reservations inside the transactions of a PostgreSQL. `PROTOCOL.md` has the rules by their numbers.
//!
//! `protocol`, `frames`, `note` and `sasl` have no input and output. `stream`, `unix` and `tls` are connections; `conninfo` and `target` say
//! where PostgreSQL is; `relay` moves bytes. `keeper` holds the owner's locks.

#![forbid(unsafe_code)]
#![warn(missing_docs)]

pub mod args;
pub mod catalog;
pub mod conninfo;
pub mod error;
pub mod expected;
pub mod folder;
pub mod frames;
pub mod hub;
pub mod install;
mod json;
pub mod keeper;
pub mod listener;
pub mod metrics;
pub mod note;
pub mod own;
pub mod parameters;
pub mod process;
pub mod protocol;
pub mod refusals;
pub mod relay;
pub mod replies;
pub mod requests;
mod reservations;
pub mod sasl;
pub mod script;
pub mod server;
#[cfg(test)]
mod simulation;
pub mod stream;
pub mod target;
pub mod threads;
pub mod tls;
mod told;
pub mod unix;
pub mod update;
