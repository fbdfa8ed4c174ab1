//! Which rows of a table a result has, in which order, and what it shows of each.
//!
//! The program gives all columns of all rows, or of one row, in the order of the key. What a client asks beyond that is
//! cut and ordered here, as the rows stream by.

use std::rc::Rc;

use crate::wire::backend::Column;

/// What a column of the result shows.
#[derive(Clone, Debug, PartialEq, Eq)]
pub enum Output {
    /// The table's column at this place, from 0.
    Column(usize),
    /// A text that is the same in each row. None: NULL.
    Constant(Option<String>),
    /// `count(*)`: how many rows there are. The result has one row then.
    Count,
    /// EXISTS: whether there are rows. The result has one row then.
    Exists,
}

/// The order of the rows.
#[derive(Clone, Copy, Debug, Default, PartialEq, Eq)]
pub enum Order {
    /// The program's: by the key, rising.
    #[default]
    Rising,
    /// By the key, falling.
    Falling,
}

/// What a result has of a table's rows.
#[derive(Clone, Debug, PartialEq, Eq)]
pub struct Shape {
    /// The columns, as a client is told them.
    pub columns: Rc<[Column]>,
    /// What each of them shows.
    pub outputs: Vec<Output>,
    /// In which order.
    pub order: Order,
    /// How many rows are passed over.
    pub offset: u64,
    /// How many rows there are at the most.
    pub limit: Option<u64>,
}

impl Shape {
    /// Returns the shape of a result that has all rows, with these columns as they are.
    pub fn all(columns: Rc<[Column]>) -> Shape {
        Shape {
            outputs: (0..columns.len()).map(Output::Column).collect(),
            columns,
            order: Order::Rising,
            offset: 0,
            limit: None,
        }
    }

    /// Returns whether the result has one row, which counts the table's.
    pub fn counts(&self) -> bool {
        let is_of_all = |output: &Output| matches!(output, Output::Count | Output::Exists);
        self.outputs.iter().any(is_of_all)
    }
}
