//! What a query does: names are resolved, types are known, conditions stand where they can be tested first.

use std::fmt;
use std::rc::Rc;

use postgres_protocol::Oid;

use crate::catalog::functions::Body as FunctionBody;
use crate::catalog::operators::{Arithmetic, Comparison, Match};
use crate::catalog::system::Relation;
use crate::catalog::value::Value;
use crate::statement::query::IsWhat;

/// A column of a result.
#[derive(Clone, Debug, PartialEq, Eq)]
pub struct OutputColumn {
    /// Its name.
    pub name: String,
    /// The Oid of its type.
    pub oid: Oid,
    /// The type's modifier; -1: none.
    pub modifier: i32,
}

/// A query.
#[derive(Debug)]
pub struct Plan {
    /// The columns of its result.
    pub columns: Vec<OutputColumn>,
    /// What gives its rows. They may have more columns than the result, to sort by.
    pub body: Body,
    /// What its rows are sorted by.
    pub order: Vec<SortKey>,
    /// LIMIT
    pub limit: Option<Node>,
    /// OFFSET
    pub offset: Option<Node>,
    /// Whether it reads no row of a query around it.
    pub is_closed: bool,
}

/// A sort key.
#[derive(Clone, Copy, Debug)]
pub struct SortKey {
    /// The place of the column among those of the body.
    pub place: usize,
    /// DESC
    pub is_descending: bool,
    /// NULLS FIRST
    pub nulls_first: bool,
}

/// What gives rows.
#[derive(Debug)]
pub enum Body {
    /// SELECT
    Select(Box<Select>),
    /// VALUES
    Values(Vec<Vec<Node>>),
    /// UNION, INTERSECT, EXCEPT
    Set {
        /// On the left.
        left: Box<Body>,
        /// On the right.
        right: Box<Body>,
        /// The operation.
        operation: SetOperation,
        /// ALL
        is_all: bool,
    },
}

/// The operations on sets of rows.
#[derive(Clone, Copy, Debug, PartialEq, Eq)]
pub enum SetOperation {
    /// UNION
    Union,
    /// INTERSECT
    Intersect,
    /// EXCEPT
    Except,
}

/// Which rows of a SELECT are left out because others are like them.
#[derive(Debug)]
pub enum Distinct {
    /// None.
    No,
    /// Those that are equal in the columns of the result.
    All,
    /// Those that are equal in columns at these places.
    On(Vec<usize>),
}

/// SELECT.
#[derive(Debug)]
pub struct Select {
    /// How many rows are read side by side: those of FROM, and those with aggregates, window functions and sets.
    pub slots: usize,
    /// The conditions that read no row.
    pub guards: Vec<Node>,
    /// What is read, one behind the other.
    pub steps: Vec<Step>,
    /// GROUP BY, or aggregates.
    pub grouping: Option<Grouping>,
    /// row_number()
    pub windows: Vec<Window>,
    /// Functions in the select list that give several rows.
    pub sets: Vec<Node>,
    /// The columns of the rows.
    pub targets: Vec<Node>,
    /// DISTINCT
    pub distinct: Distinct,
    /// How many columns the result shows.
    pub visible: usize,
}

/// A relation that is read, once for each row of those in front of it.
#[derive(Debug)]
pub struct Step {
    /// What is read.
    pub source: Source,
    /// Whether a row in front stays, with NULL here, if nothing fits: LEFT JOIN.
    pub is_outer: bool,
    /// The conditions of the join.
    pub on: Vec<Node>,
    /// A column of a relation that has to equal a value known in front: rows are found by it.
    pub lookup: Option<(usize, Node)>,
    /// The conditions that are tested behind it.
    pub filters: Vec<Node>,
}

/// What is read.
#[derive(Debug)]
pub enum Source {
    /// A relation of the catalog, into this slot.
    Relation {
        /// The slot.
        slot: usize,
        /// The relation.
        relation: &'static Relation,
    },
    /// A query, into this slot.
    Query {
        /// The slot.
        slot: usize,
        /// The query.
        plan: Rc<Plan>,
        /// Whether it may read the rows in front of it.
        is_lateral: bool,
    },
    /// Functions side by side, into this slot.
    Functions {
        /// The slot.
        slot: usize,
        /// The calls, and how many columns each gives.
        calls: Vec<(Node, usize)>,
        /// Whether a column counts the rows.
        with_ordinality: bool,
    },
    /// Several of them, joined.
    Joined(Vec<Step>),
}

/// GROUP BY with its aggregates.
#[derive(Debug, Default)]
pub struct Grouping {
    /// What rows of a group have in common.
    pub keys: Vec<Node>,
    /// The aggregates, whose values are in a slot of their own.
    pub aggregates: Vec<Aggregate>,
    /// HAVING
    pub having: Option<Node>,
    /// The slot of the aggregates.
    pub slot: usize,
}

/// The aggregates.
#[derive(Clone, Copy, Debug, PartialEq, Eq)]
pub enum AggregateKind {
    /// count(*)
    CountRows,
    /// count(a)
    Count,
    /// min(a)
    Least,
    /// max(a)
    Greatest,
    /// sum(a) of integers
    Sum,
    /// sum(a) of numeric, and of bigint
    SumDecimal,
    /// bool_and(a), every(a)
    And,
    /// bool_or(a)
    Or,
    /// array_agg(a)
    Array,
    /// string_agg(a, b)
    Text,
}

/// An aggregate.
#[derive(Debug)]
pub struct Aggregate {
    /// Which.
    pub kind: AggregateKind,
    /// Its arguments.
    pub arguments: Vec<Node>,
    /// DISTINCT
    pub is_distinct: bool,
    /// ORDER BY: the values, and how they are sorted.
    pub order: Vec<(Node, SortKey)>,
}

/// row_number() OVER (..)
#[derive(Debug)]
pub struct Window {
    /// PARTITION BY
    pub partition: Vec<Node>,
    /// ORDER BY
    pub order: Vec<(Node, SortKey)>,
}

/// A value that is computed from rows.
#[derive(Clone, Debug)]
pub enum Node {
    /// A value.
    Constant(Value),
    /// A parameter, from 0.
    Parameter(usize),
    /// A column of a row: how many queries further out, which of the rows side by side, which column.
    Column {
        /// How many queries further out.
        up: usize,
        /// Which row.
        slot: usize,
        /// Which column.
        place: usize,
    },
    /// A value that stands in several places.
    Shared(Rc<Node>),
    /// NOT
    Not(Box<Node>),
    /// AND
    And(Vec<Node>),
    /// OR
    Or(Vec<Node>),
    /// IS, IS NOT
    Is(Box<Node>, IsWhat, bool),
    /// A comparison of values of one type.
    Compare(Comparison, Box<Node>, Box<Node>),
    /// IS DISTINCT FROM, IS NOT DISTINCT FROM (true)
    Distinct(Box<Node>, Box<Node>, bool),
    /// A value compared with each of a list: whether ALL have to fit.
    Quantified {
        /// The value.
        left: Box<Node>,
        /// How it is compared.
        comparison: ElementTest,
        /// ALL
        is_all: bool,
        /// An array.
        right: Box<Node>,
    },
    /// A value, or several, compared with each row of a query: whether ALL have to fit.
    QuantifiedQuery {
        /// The values.
        left: Vec<Node>,
        /// How they are compared.
        comparison: Comparison,
        /// ALL
        is_all: bool,
        /// The query.
        plan: Rc<Plan>,
    },
    /// Arithmetic of two numbers of one type.
    Arithmetic(Arithmetic, Oid, Box<Node>, Box<Node>),
    /// A number with the other sign.
    Negative(Oid, Box<Node>),
    /// A text that is compared with a pattern.
    Match(Match, Box<Node>, Box<Node>),
    /// Two texts, one behind the other.
    Concatenate(Box<Node>, Box<Node>),
    /// Two arrays, one behind the other.
    Append(Box<Node>, Box<Node>),
    /// A value as one of another type.
    Cast {
        /// The value.
        value: Box<Node>,
        /// Its type.
        from: Oid,
        /// The other type.
        to: Oid,
        /// The other type's modifier; -1: none.
        modifier: i32,
    },
    /// CASE: conditions and values, and what is left.
    Case(Vec<(Node, Node)>, Box<Node>),
    /// COALESCE
    Coalesce(Vec<Node>),
    /// NULLIF of two values of one type
    NullIf(Box<Node>, Box<Node>),
    /// GREATEST (true), LEAST
    Extreme(Vec<Node>, bool),
    /// A function.
    Call(Rc<Call>),
    /// A query as a value.
    Scalar(Rc<Plan>),
    /// EXISTS
    Exists(Rc<Plan>),
    /// ARRAY(SELECT ..)
    ArrayQuery(Rc<Plan>),
    /// ARRAY[..]
    Array(Vec<Node>),
    /// ROW(..)
    Row(Vec<Node>),
    /// An element of an array: the first has this number.
    Subscript(Box<Node>, Box<Node>, i64),
    /// A field of a row, from 0.
    Field(Box<Node>, usize),
}

/// How an element of an array is compared.
#[derive(Clone, Copy, Debug)]
pub enum ElementTest {
    /// As a value of the same type.
    Compare(Comparison),
    /// As a pattern.
    Match(Match),
}

/// A call of a function.
pub struct Call {
    /// Its name.
    pub name: &'static str,
    /// What it does.
    pub body: FunctionBody,
    /// Whether NULL among its arguments gives NULL.
    pub is_strict: bool,
    /// Its arguments.
    pub arguments: Vec<Node>,
    /// Their types.
    pub types: Vec<Oid>,
    /// The type of its result.
    pub result: Oid,
}

impl fmt::Debug for Call {
    fn fmt(&self, formatter: &mut fmt::Formatter<'_>) -> fmt::Result {
        write!(
            formatter,
            "{}({:?}): {}",
            self.name, self.arguments, self.result
        )
    }
}
