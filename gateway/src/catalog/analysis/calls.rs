//! Calls of functions, aggregates and window functions.

use std::rc::Rc;

use postgres_protocol::Oid;

use crate::catalog::analysis::expressions::nodes;
use crate::catalog::analysis::scope::{Clause, Scope};
use crate::catalog::analysis::{Analyser, Typed};
use crate::catalog::functions::{self, Body};
use crate::catalog::missing;
use crate::catalog::plan::{Aggregate, AggregateKind, Call, Node, SortKey, Window};
use crate::catalog::procedures::{self, Choice, Procedure};
use crate::catalog::types::{self, oid};
use crate::sqlstate::{Failure, Report, SqlState};
use crate::statement::query::{self, Expression, FunctionCall, Name, OrderBy, Span};

/// A call whose function and types are known.
pub struct Resolved {
    /// The function.
    pub procedure: &'static Procedure,
    /// The arguments.
    pub arguments: Vec<Typed>,
    /// The type of the result.
    pub result: Oid,
}

impl Analyser<'_> {
    /// Reads a call in an expression.
    pub(super) fn call(
        &mut self,
        call: &FunctionCall,
        span: Span,
        scope: &Scope<'_>,
    ) -> Result<Typed, Failure> {
        let name = call.name.name.text.as_str();
        let is_plain = call.name.schema.is_none();
        match name {
            "coalesce" if is_plain => return self.coalesce(&call.arguments, span, scope),
            "nullif" if is_plain => return self.null_if(&call.arguments, span, scope),
            "greatest" | "least" if is_plain => {
                return self.extreme(&call.arguments, name == "greatest", span, scope)
            }
            _ => {}
        }
        if call.over.is_some() {
            return self.window(call, span, scope);
        }
        if call.is_star || self.is_aggregate(call) {
            return self.aggregate(call, span, scope);
        }
        if call.is_distinct || !call.order.is_empty() {
            let text = format!(
                "{} specified, but {} is not an aggregate function",
                if call.is_distinct {
                    "DISTINCT"
                } else {
                    "ORDER BY"
                },
                name
            );
            return Err(Report::error(SqlState::WRONG_OBJECT_TYPE, text));
        }
        let resolved = self.resolve(call, scope)?;
        let (returns_set, result) = (resolved.procedure.returns_set, resolved.result);
        let node = function_node(resolved)?;
        if returns_set {
            return set_in_targets(node, result, scope);
        }
        Ok(Typed::new(node, result))
    }

    fn is_aggregate(&self, call: &FunctionCall) -> bool {
        let schema = call
            .name
            .schema
            .as_ref()
            .map_or("pg_catalog", |schema| &schema.text);
        procedures::by_name(&call.name.name.text)
            .any(|procedure| procedure.schema == schema && procedure.kind == 'a')
    }

    /// Finds the function that a call means, with its arguments in the types that it takes.
    pub(super) fn resolve(
        &mut self,
        call: &FunctionCall,
        scope: &Scope<'_>,
    ) -> Result<Resolved, Failure> {
        let arguments = self.list(&call.arguments, scope)?;
        let given: Vec<Oid> = arguments.iter().map(|typed| typed.oid).collect();
        let schema = call.name.schema.as_ref().map(|schema| schema.text.as_str());
        let name = call.name.name.text.as_str();
        let found =
            match procedures::choose(special_name(name, schema), schema, &given) {
                Choice::One(procedure, wanted) => procedures::settle(procedure, &wanted, &given)
                    .map(|(types, result)| (procedure, types, result)),
                Choice::None => None,
                Choice::Several => return Err(Report::error(
                    SqlState::AMBIGUOUS_FUNCTION,
                    format!("function {} is not unique", shown(name, schema, &given)),
                )
                .hint(
                    "Could not choose a best candidate function. You might need to add explicit \
                     type casts.",
                )),
            };
        let (procedure, types, result) = found.ok_or_else(|| {
            let text = format!("function {} does not exist", shown(name, schema, &given));
            Report::error(SqlState::UNDEFINED_FUNCTION, text).hint(
                "No function matches the given name and argument types. You might need to add \
                 explicit type casts.",
            )
        })?;
        let arguments: Result<Vec<Typed>, Failure> = arguments
            .into_iter()
            .zip(&types)
            .zip(&call.arguments)
            .map(|((typed, &to), written)| self.cast(typed, to, -1, written.span))
            .collect();
        Ok(Resolved {
            procedure,
            arguments: arguments?,
            result,
        })
    }

    fn coalesce(
        &mut self,
        arguments: &[Expression],
        span: Span,
        scope: &Scope<'_>,
    ) -> Result<Typed, Failure> {
        let values = self.list(arguments, scope)?;
        let (values, oid) = self.common(values, "COALESCE", span)?;
        Ok(Typed::new(Node::Coalesce(nodes(values)), oid))
    }

    fn null_if(
        &mut self,
        arguments: &[Expression],
        span: Span,
        scope: &Scope<'_>,
    ) -> Result<Typed, Failure> {
        let (left, right) = match arguments {
            [left, right] => (
                self.expression(left, scope)?,
                self.expression(right, scope)?,
            ),
            _ => {
                return Err(Report::error(
                    SqlState::SYNTAX_ERROR,
                    "NULLIF takes two values",
                ))
            }
        };
        let left = self.settled(left, span)?;
        let modifier = left.modifier;
        let (left, right, compared) = self.comparable(left, "=", right, span)?;
        let modifier = if left.oid == compared { modifier } else { -1 };
        let node = Node::NullIf(Box::new(left.node), Box::new(right.node));
        Ok(Typed {
            modifier,
            ..Typed::new(node, compared)
        })
    }

    fn extreme(
        &mut self,
        arguments: &[Expression],
        is_greatest: bool,
        span: Span,
        scope: &Scope<'_>,
    ) -> Result<Typed, Failure> {
        let values = self.list(arguments, scope)?;
        let what = if is_greatest { "GREATEST" } else { "LEAST" };
        let (values, oid) = self.common(values, what, span)?;
        Ok(Typed::new(Node::Extreme(nodes(values), is_greatest), oid))
    }

    /// Reads a window function. row_number() is the only one.
    fn window(
        &mut self,
        call: &FunctionCall,
        span: Span,
        scope: &Scope<'_>,
    ) -> Result<Typed, Failure> {
        let name = call.name.name.text.as_str();
        if name != "row_number" || !call.arguments.is_empty() {
            return Err(missing(&format!("the window function {}", name)));
        }
        if scope.clause.get() != Clause::Targets || scope.in_aggregate.get() {
            let text = format!(
                "window functions are not allowed in {}",
                scope.clause.get().name()
            );
            return Err(Report::error(SqlState::WINDOWING_ERROR, text).at(span.start));
        }
        let over = call.over.as_ref();
        let partition: Result<Vec<Node>, Failure> = over
            .map_or(&[][..], |over: &query::Window| &over.partition)
            .iter()
            .map(|expression| Ok(self.settled_expression(expression, scope)?.node))
            .collect();
        let order = self.sorted(over.map_or(&[], |over| &over.order), scope)?;
        let mut extras = scope.extras.borrow_mut();
        extras.windows.push(Window {
            partition: partition?,
            order,
        });
        let node = Node::Column {
            up: 0,
            slot: scope.window_slot(),
            place: extras.windows.len() - 1,
        };
        Ok(Typed::new(node, oid::INT8))
    }

    /// Reads an ORDER BY inside of a call.
    fn sorted(
        &mut self,
        order: &[OrderBy],
        scope: &Scope<'_>,
    ) -> Result<Vec<(Node, SortKey)>, Failure> {
        order
            .iter()
            .enumerate()
            .map(|(place, by)| {
                let typed = self.settled_expression(&by.expression, scope)?;
                Ok((typed.node, sort_key(place, by)))
            })
            .collect()
    }

    fn aggregate(
        &mut self,
        call: &FunctionCall,
        span: Span,
        scope: &Scope<'_>,
    ) -> Result<Typed, Failure> {
        let clause = scope.clause.get();
        if scope.in_aggregate.get() {
            let text = "aggregate function calls cannot be nested";
            return Err(Report::error(SqlState::GROUPING_ERROR, text).at(span.start));
        }
        if !matches!(clause, Clause::Targets | Clause::Having) {
            let text = format!("aggregate functions are not allowed in {}", clause.name());
            return Err(Report::error(SqlState::GROUPING_ERROR, text).at(span.start));
        }
        scope.in_aggregate.set(true);
        let outermost = std::mem::replace(&mut self.outermost, usize::MAX);
        let result = self.aggregate_arguments(call, span, scope);
        let reads_outside = self.outermost < scope.level;
        self.outermost = self.outermost.min(outermost);
        scope.in_aggregate.set(false);
        let (aggregate, result) = result?;
        if reads_outside {
            return Err(missing("an aggregate over columns of a query around it"));
        }
        let mut extras = scope.extras.borrow_mut();
        extras.aggregates.push(aggregate);
        let place = extras.aggregates.len() - 1;
        let node = Node::Column {
            up: 0,
            slot: scope.aggregate_slot(),
            place,
        };
        Ok(Typed::new(node, result))
    }

    fn aggregate_arguments(
        &mut self,
        call: &FunctionCall,
        span: Span,
        scope: &Scope<'_>,
    ) -> Result<(Aggregate, Oid), Failure> {
        let order = self.sorted(&call.order, scope)?;
        if call.is_star {
            let is_count = call.name.name.text == "count";
            if !is_count {
                return Err(missing(&format!("{}(*)", call.name.name.text)));
            }
            let aggregate = Aggregate {
                kind: AggregateKind::CountRows,
                arguments: Vec::new(),
                is_distinct: false,
                order,
            };
            return Ok((aggregate, oid::INT8));
        }
        let resolved = self.resolve(call, scope)?;
        let kind = aggregate_kind(resolved.procedure, resolved.result)?;
        let mut arguments = resolved.arguments;
        if kind == AggregateKind::SumDecimal {
            let first = arguments.remove(0);
            arguments.push(self.cast(first, oid::NUMERIC, -1, span)?);
        }
        let aggregate = Aggregate {
            kind,
            arguments: nodes(arguments),
            is_distinct: call.is_distinct,
            order,
        };
        Ok((aggregate, resolved.result))
    }

    /// Reads the field of a row that a function gives.
    pub(super) fn field(
        &mut self,
        row: &Expression,
        name: &Name,
        scope: &Scope<'_>,
    ) -> Result<Typed, Failure> {
        let typed = self.expression(row, scope)?;
        let fields = match &row.kind {
            query::ExpressionKind::Function(call) => functions::fields(&call.name.name.text),
            query::ExpressionKind::Column(_) if typed.oid == oid::RECORD => {
                functions::fields("_pg_expandarray")
            }
            _ => None,
        };
        let fields = fields.filter(|_| typed.oid == oid::RECORD).ok_or_else(|| {
            let text = format!(
                "column notation .{} applied to type {}, which is not a composite type",
                name.text,
                types::display(typed.oid)
            );
            Report::error(SqlState::WRONG_OBJECT_TYPE, text).at(row.span.start)
        })?;
        let place = fields
            .iter()
            .position(|(field, _)| *field == name.text)
            .ok_or_else(|| {
                let text = format!(
                    "could not identify column \"{}\" in record data type",
                    name.text
                );
                Report::error(SqlState::UNDEFINED_COLUMN, text).at(row.span.start)
            })?;
        Ok(Typed::new(
            Node::Field(Box::new(typed.node), place),
            fields[place].1,
        ))
    }
}

/// Makes the sort key of an ORDER BY: NULL comes last unless it falls.
pub fn sort_key(place: usize, by: &OrderBy) -> SortKey {
    SortKey {
        place,
        is_descending: by.is_descending,
        nulls_first: by.nulls_first.unwrap_or(by.is_descending),
    }
}

/// Returns the node of a call.
pub fn function_node(resolved: Resolved) -> Result<Node, Failure> {
    let procedure = resolved.procedure;
    let body: Body = functions::body(procedure)
        .ok_or_else(|| missing(&format!("the function {}", procedure.name)))?;
    let types = resolved.arguments.iter().map(|typed| typed.oid).collect();
    Ok(Node::Call(Rc::new(Call {
        name: procedure.name,
        body,
        is_strict: procedure.is_strict,
        arguments: nodes(resolved.arguments),
        types,
        result: resolved.result,
    })))
}

/// Puts a function that gives several rows among those of the select list.
fn set_in_targets(node: Node, result: Oid, scope: &Scope<'_>) -> Result<Typed, Failure> {
    if scope.clause.get() != Clause::Targets || scope.in_aggregate.get() {
        let text = format!(
            "set-returning functions are not allowed in {}",
            scope.clause.get().name()
        );
        return Err(Report::error(SqlState::FEATURE_NOT_SUPPORTED, text));
    }
    let mut extras = scope.extras.borrow_mut();
    extras.sets.push(node);
    let node = Node::Column {
        up: 0,
        slot: scope.set_slot(),
        place: extras.sets.len() - 1,
    };
    Ok(Typed::new(node, result))
}

/// Returns the function that PostgreSQL's grammar makes of a word without parentheses.
fn special_name<'n>(name: &'n str, schema: Option<&str>) -> &'n str {
    match (name, schema) {
        ("user" | "current_role", None) => "current_user",
        ("current_catalog", None) => "current_database",
        ("current_timestamp", None) => "now",
        (name, _) => name,
    }
}

fn shown(name: &str, schema: Option<&str>, given: &[Oid]) -> String {
    let types: Vec<String> = given
        .iter()
        .map(|&oid| match oid {
            oid::UNKNOWN | oid::UNSPECIFIED => "unknown".to_owned(),
            oid => types::display(oid),
        })
        .collect();
    let schema = schema.map_or(String::new(), |schema| format!("{}.", schema));
    format!("{}{}({})", schema, name, types.join(", "))
}

fn aggregate_kind(procedure: &Procedure, result: Oid) -> Result<AggregateKind, Failure> {
    Ok(match (procedure.name, result) {
        ("count", _) => AggregateKind::Count,
        ("min", _) => AggregateKind::Least,
        ("max", _) => AggregateKind::Greatest,
        ("sum", oid::INT8) => AggregateKind::Sum,
        ("sum", oid::NUMERIC) => AggregateKind::SumDecimal,
        ("bool_and" | "every", _) => AggregateKind::And,
        ("bool_or", _) => AggregateKind::Or,
        ("array_agg", _)
            if types::element(procedure.arguments[0]).is_none()
                && procedure.arguments[0] != oid::ANYARRAY =>
        {
            AggregateKind::Array
        }
        ("string_agg", oid::TEXT) => AggregateKind::Text,
        (name, _) => return Err(missing(&format!("the aggregate {}", name))),
    })
}
