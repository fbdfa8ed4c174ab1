//! The messages of PostgreSQL's protocol 3.0.

pub mod backend;
pub mod frontend;
