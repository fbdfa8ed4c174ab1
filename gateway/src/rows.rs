//! Results with rows: a table's, and those of SHOW.

mod definition;
mod definitions;
mod result;
pub mod shape;
pub mod spool;

pub use definition::{Check, ColumnType, DefinedColumn, Definition};
pub use definitions::Definitions;
pub use result::{
    append_count, constants, shown_columns, statistics, LineFault, Reader, ResultSet, Row,
};
