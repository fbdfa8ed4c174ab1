//! From the tree of a query to its plan: names are looked up, types are found, what is missing is refused.

mod calls;
mod coercion;
mod expressions;
mod from;
mod locking;
mod queries;
mod scope;

use std::rc::Rc;

use postgres_protocol::Oid;

use crate::catalog::plan::{Node, Plan};
use crate::catalog::types::oid;
use crate::catalog::value::Value;
use crate::catalog::World;
use crate::sqlstate::{Failure, Report, SqlState};
use crate::statement::query::{Query, Span};

/// The deepest that queries and expressions may be inside of each other.
const MOST_DEPTH: usize = 100;

/// What reading an expression takes, in steps of the evaluation.
const EFFORT: usize = 10;

/// The most expressions of a query.
const MOST_EXPRESSIONS: usize = 20_000;

/// A value with its type.
#[derive(Clone, Debug)]
pub struct Typed {
    /// What it is.
    pub node: Node,
    /// The Oid of its type.
    pub oid: Oid,
    /// The type's modifier; -1: none.
    pub modifier: i32,
    /// Where it is written, if it is.
    pub span: Option<Span>,
}

impl Typed {
    fn new(node: Node, oid: Oid) -> Typed {
        Typed {
            node,
            oid,
            modifier: -1,
            span: None,
        }
    }

    /// Returns whether its type is open: a text in quotes, NULL or a parameter.
    fn is_open(&self) -> bool {
        matches!(self.oid, oid::UNKNOWN | oid::UNSPECIFIED)
    }

    fn constant(value: impl Into<Value>, oid: Oid) -> Typed {
        Typed::new(Node::Constant(value.into()), oid)
    }
}

/// A query that WITH names.
struct Named {
    name: String,
    plan: Rc<Plan>,
}

/// What is known while a query is read.
pub struct Analyser<'w> {
    world: &'w World,
    /// The types of the parameters. 0: not known yet.
    parameters: Vec<Oid>,
    named: Vec<Named>,
    depth: usize,
    expressions: usize,
    /// The level of the outermost query whose rows were read since this was set.
    outermost: usize,
}

impl<'w> Analyser<'w> {
    /// Begins, with the types that the client gave its parameters.
    pub fn new(world: &'w World, parameters: &[Oid]) -> Analyser<'w> {
        Analyser {
            world,
            parameters: parameters.to_vec(),
            named: Vec::new(),
            depth: 0,
            expressions: 0,
            outermost: usize::MAX,
        }
    }

    /// Makes the plan of a query, the types of its parameters, and how much was looked at.
    ///
    /// # Errors
    ///
    /// Fails at a name that means nothing, at types that don't fit, and at what is not supported.
    pub fn plan(mut self, query: &Query) -> Result<(Plan, Vec<Oid>, usize), Failure> {
        let plan = self.query(query, None)?;
        for parameter in &mut self.parameters {
            if *parameter == oid::UNSPECIFIED {
                *parameter = oid::TEXT;
            }
        }
        Ok((plan, self.parameters, self.expressions * EFFORT))
    }

    /// Counts one more expression, and one more level of depth for `inner`.
    fn deeper<T>(
        &mut self,
        inner: impl FnOnce(&mut Self) -> Result<T, Failure>,
    ) -> Result<T, Failure> {
        self.expressions += 1;
        if self.depth >= MOST_DEPTH || self.expressions > MOST_EXPRESSIONS {
            return Err(too_complex());
        }
        self.depth += 1;
        let result = inner(self);
        self.depth -= 1;
        result
    }
}

/// Makes the report of a query that is too large.
pub fn too_complex() -> Failure {
    Report::error(
        SqlState::STATEMENT_TOO_COMPLEX,
        "the query of the catalog is too complex",
    )
}
