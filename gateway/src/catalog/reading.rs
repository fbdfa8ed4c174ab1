//! What a query reads, found without its plan.

use crate::statement::query::{
    Body, Expression, ExpressionKind, FunctionCall, JoinCondition, OrderBy, Query, Relation, Target,
};

/// The functions that need to know what all connections do.
const FUNCTIONS: [&str; 2] = ["pg_terminate_backend", "pg_cancel_backend"];

/// Returns whether a query reads pg_stat_activity, or calls a function about other connections.
pub fn reads_activity(query: &Query) -> bool {
    query.with.iter().any(|with| reads_activity(&with.query))
        || in_body(&query.body)
        || in_order(&query.order)
        || query.limit.iter().chain(&query.offset).any(in_expression)
}

fn in_order(order: &[OrderBy]) -> bool {
    order.iter().any(|by| in_expression(&by.expression))
}

fn in_body(body: &Body) -> bool {
    match body {
        Body::Select(select) => {
            let targets = select.targets.iter().any(|target| match target {
                Target::Expression(expression, _) => in_expression(expression),
                Target::Star(..) => false,
            });
            targets
                || select.from.iter().any(in_relation)
                || select.condition.iter().any(in_expression)
                || select.having.iter().any(in_expression)
                || any(&select.group)
                || any(&select.distinct_on)
        }
        Body::Values(rows) => rows.iter().any(|row| any(row)),
        Body::Query(query) => reads_activity(query),
        Body::Set(left, _, _, right) => in_body(left) || in_body(right),
    }
}

fn in_relation(relation: &Relation) -> bool {
    match relation {
        Relation::Table { name, .. } => name.name.text == "pg_stat_activity",
        Relation::Subquery { query, .. } => reads_activity(query),
        Relation::Function { call, .. } => in_call(call),
        Relation::Join {
            left,
            right,
            condition,
            ..
        } => {
            in_relation(left)
                || in_relation(right)
                || matches!(condition, JoinCondition::On(on) if in_expression(on))
        }
    }
}

fn any(expressions: &[Expression]) -> bool {
    expressions.iter().any(in_expression)
}

fn in_call(call: &FunctionCall) -> bool {
    FUNCTIONS.contains(&call.name.name.text.as_str())
        || any(&call.arguments)
        || in_order(&call.order)
}

fn in_expression(expression: &Expression) -> bool {
    match &expression.kind {
        ExpressionKind::Null
        | ExpressionKind::Boolean(_)
        | ExpressionKind::Number(_)
        | ExpressionKind::Text(_)
        | ExpressionKind::Parameter(_)
        | ExpressionKind::Column(_) => false,
        ExpressionKind::Unary(_, operand)
        | ExpressionKind::Cast(operand, _)
        | ExpressionKind::Is(operand, _, _)
        | ExpressionKind::Field(operand, _)
        | ExpressionKind::Collate(operand, _) => in_expression(operand),
        ExpressionKind::Binary(left, _, right)
        | ExpressionKind::Quantified(left, _, _, right)
        | ExpressionKind::Subscript(left, right) => in_expression(left) || in_expression(right),
        ExpressionKind::In(left, list, _) => in_expression(left) || any(list),
        ExpressionKind::InQuery(left, query, _) => in_expression(left) || reads_activity(query),
        ExpressionKind::Between(operand, low, high, _) => {
            in_expression(operand) || in_expression(low) || in_expression(high)
        }
        ExpressionKind::Function(call) => in_call(call),
        ExpressionKind::Case {
            operand,
            branches,
            otherwise,
        } => {
            let in_branches = branches
                .iter()
                .any(|(when, then)| in_expression(when) || in_expression(then));
            let mut ends = operand.iter().chain(otherwise);
            in_branches || ends.any(|expression| in_expression(expression))
        }
        ExpressionKind::Subquery(query)
        | ExpressionKind::Exists(query)
        | ExpressionKind::ArrayQuery(query) => reads_activity(query),
        ExpressionKind::Array(expressions) | ExpressionKind::Row(expressions) => any(expressions),
    }
}
