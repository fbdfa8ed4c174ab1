//! PostgreSQL's protocol in front of `escrowd serve`.
//!
//! The modules of this library have no input and output: bytes and replies go in, statements and bytes come out. Only
//! rows that wait for their client go to a file of their own, and `system` has what a program needs around them.
#![forbid(unsafe_code)]
#![warn(missing_docs)]

pub mod activity;
pub mod budget;
pub mod catalog;
pub mod connection;
pub mod decimal;
pub mod leftovers;
pub mod limits;
pub mod queue;
pub mod reply;
pub mod rows;
pub mod sqlstate;
pub mod statement;
pub mod system;
pub mod value;
pub mod variables;
pub mod version;
pub mod wire;
