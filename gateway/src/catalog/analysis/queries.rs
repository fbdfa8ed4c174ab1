//! Queries: WITH, SELECT, VALUES, UNION and their like, ORDER BY, LIMIT.

use std::rc::Rc;

use postgres_protocol::Oid;

use crate::catalog::analysis::calls::sort_key;
use crate::catalog::analysis::coercion::common_type;
use crate::catalog::analysis::from::{placed_conditions, step, Condition, Joined};
use crate::catalog::analysis::locking;
use crate::catalog::analysis::scope::{Clause, Extras, Scope};
use crate::catalog::analysis::{too_complex, Analyser, Named, Typed};
use crate::catalog::casts;
use crate::catalog::missing;
use crate::catalog::plan::{
    Body, Distinct, Grouping, Node, OutputColumn, Plan, Select, SetOperation, SortKey, Source,
};
use crate::catalog::types::{self, oid};
use crate::sqlstate::{Failure, Report, SqlState};
use crate::statement::query::{
    self, ColumnName, Expression, ExpressionKind, FunctionCall, Locking, Name, OrderBy, Query,
    Span, Target,
};

/// The most expressions of GROUP BY.
const MOST_KEYS: usize = 32;

/// A column of a body, whose type may still be open.
#[derive(Clone, Debug)]
struct Shown {
    name: String,
    oid: Oid,
    modifier: i32,
    /// Where it is written, if it is.
    span: Option<Span>,
}

/// The rows of a query, before they are sorted.
struct Rows {
    body: Body,
    columns: Vec<Shown>,
}

impl Analyser<'_> {
    /// Makes the plan of a query. `outer` is what it may read around it.
    pub(super) fn query(
        &mut self,
        query: &Query,
        outer: Option<&Scope<'_>>,
    ) -> Result<Plan, Failure> {
        let outermost = std::mem::replace(&mut self.outermost, usize::MAX);
        let named = self.named.len();
        let result = self.deeper(|analyser| analyser.query_inside(query, outer));
        self.named.truncate(named);
        let level = outer.map_or(0, |outer| outer.level + 1);
        let is_closed = self.outermost >= level;
        self.outermost = self.outermost.min(outermost);
        result.map(|plan| Plan { is_closed, ..plan })
    }

    fn query_inside(&mut self, query: &Query, outer: Option<&Scope<'_>>) -> Result<Plan, Failure> {
        if query.is_recursive {
            return Err(missing("WITH RECURSIVE").at(query.span.start));
        }
        let first = self.named.len();
        for with in &query.with {
            let Name { text, span } = &with.alias.name;
            if self.named[first..].iter().any(|named| named.name == *text) {
                let text = format!("WITH query name \"{}\" specified more than once", text);
                return Err(Report::error(SqlState::DUPLICATE_ALIAS, text).at(span.start));
            }
            let mut plan = self.query(&with.query, outer)?;
            if !plan.is_closed {
                let text = "WITH that reads columns of a query around it";
                return Err(missing(text).at(with.alias.name.span.start));
            }
            if with.alias.columns.len() > plan.columns.len() {
                let text = format!(
                    "WITH query \"{}\" has too few columns",
                    with.alias.name.text
                );
                return Err(Report::error(SqlState::INVALID_COLUMN_REFERENCE, text));
            }
            for (column, name) in plan.columns.iter_mut().zip(&with.alias.columns) {
                column.name = name.text.clone();
            }
            let name = with.alias.name.text.clone();
            self.named.push(Named {
                name,
                plan: Rc::new(plan),
            });
        }
        let (rows, order) = match &query.body {
            query::Body::Select(select) => {
                self.select(select, &query.order, &query.locking, outer)?
            }
            body => {
                let rows = self.body(body, outer)?;
                locking::check(&query.locking, &rows.body, &[], &self.named)?;
                let order = self.order_of_columns(&query.order, &rows.columns)?;
                (rows, order)
            }
        };
        let (body, columns) = self.settle_columns(rows, query.span)?;
        let limit = self.row_count(query.limit.as_ref(), outer)?;
        let offset = self.row_count(query.offset.as_ref(), outer)?;
        Ok(Plan {
            columns,
            body,
            order,
            limit,
            offset,
            is_closed: true,
        })
    }

    fn row_count(
        &mut self,
        count: Option<&Expression>,
        outer: Option<&Scope<'_>>,
    ) -> Result<Option<Node>, Failure> {
        count
            .map(|count| {
                let scope = Scope::new(outer);
                scope.clause.set(Clause::Limit);
                let typed = self.expression(count, &scope)?;
                if !typed.is_open() && !types::is_number(typed.oid) {
                    let text = format!(
                        "argument of LIMIT must be type bigint, not type {}",
                        types::display(typed.oid)
                    );
                    return Err(
                        Report::error(SqlState::DATATYPE_MISMATCH, text).at(count.span.start)
                    );
                }
                Ok(self.cast(typed, oid::INT8, -1, count.span)?.node)
            })
            .transpose()
    }

    fn body(&mut self, body: &query::Body, outer: Option<&Scope<'_>>) -> Result<Rows, Failure> {
        self.deeper(|analyser| match body {
            query::Body::Select(select) => Ok(analyser.select(select, &[], &[], outer)?.0),
            query::Body::Values(rows) => analyser.values(rows, outer),
            query::Body::Query(query) => {
                let plan = analyser.query(query, outer)?;
                analyser.nested(plan)
            }
            query::Body::Set(left, operation, is_all, right) => {
                let left = analyser.body(left, outer)?;
                let right = analyser.body(right, outer)?;
                analyser.set(left, operation, *is_all, right)
            }
        })
    }

    /// Makes rows of a whole query: SELECT * of it.
    fn nested(&mut self, plan: Plan) -> Result<Rows, Failure> {
        let columns: Vec<Shown> = plan
            .columns
            .iter()
            .map(|column| Shown {
                name: column.name.clone(),
                oid: column.oid,
                modifier: column.modifier,
                span: None,
            })
            .collect();
        let targets = (0..columns.len())
            .map(|place| Node::Column {
                up: 0,
                slot: 0,
                place,
            })
            .collect();
        let step = step(Source::Query {
            slot: 0,
            plan: Rc::new(plan),
            is_lateral: false,
        });
        let select = Select {
            slots: 4,
            guards: Vec::new(),
            steps: vec![step],
            grouping: None,
            windows: Vec::new(),
            sets: Vec::new(),
            targets,
            distinct: Distinct::No,
            visible: columns.len(),
        };
        Ok(Rows {
            body: Body::Select(Box::new(select)),
            columns,
        })
    }

    fn values(
        &mut self,
        rows: &[Vec<Expression>],
        outer: Option<&Scope<'_>>,
    ) -> Result<Rows, Failure> {
        let scope = Scope::new(outer);
        scope.clause.set(Clause::Values);
        let width = rows.first().map_or(0, Vec::len);
        let mut columns: Vec<Vec<Typed>> = (0..width).map(|_| Vec::new()).collect();
        for row in rows {
            if row.len() != width {
                let text = "VALUES lists must all be the same length";
                let place = row.first().map_or(0, |value| value.span.start);
                return Err(Report::error(SqlState::SYNTAX_ERROR, text).at(place));
            }
            for (column, value) in columns.iter_mut().zip(row) {
                column.push(self.expression(value, &scope)?);
            }
        }
        let mut shown = Vec::with_capacity(width);
        let mut nodes: Vec<Vec<Node>> = rows.iter().map(|_| Vec::with_capacity(width)).collect();
        for (place, column) in columns.into_iter().enumerate() {
            let span = column.first().and_then(|typed| typed.span);
            let (values, oid) = self.common(column, "VALUES", Span::default())?;
            for (row, typed) in nodes.iter_mut().zip(values) {
                row.push(typed.node);
            }
            shown.push(Shown {
                name: format!("column{}", place + 1),
                oid,
                modifier: -1,
                span,
            });
        }
        Ok(Rows {
            body: Body::Values(nodes),
            columns: shown,
        })
    }

    fn set(
        &mut self,
        mut left: Rows,
        operation: &str,
        is_all: bool,
        mut right: Rows,
    ) -> Result<Rows, Failure> {
        if left.columns.len() != right.columns.len() {
            let text = format!(
                "each {} query must have the same number of columns",
                operation
            );
            let report = Report::error(SqlState::SYNTAX_ERROR, text);
            let first = right.columns.first().and_then(|column| column.span);
            return Err(match first {
                Some(span) => report.at(span.start),
                None => report,
            });
        }
        for place in 0..left.columns.len() {
            let (before, behind) = (&left.columns[place], &right.columns[place]);
            let types = [before, behind].map(|column| (column.oid, column.span));
            let oid = common_type(types.into_iter(), operation)?;
            let modifier = if before.modifier == behind.modifier && before.oid == behind.oid {
                before.modifier
            } else {
                -1
            };
            self.convert(&mut left, place, oid)?;
            self.convert(&mut right, place, oid)?;
            left.columns[place].modifier = modifier;
        }
        let operation = match operation {
            "UNION" => SetOperation::Union,
            "INTERSECT" => SetOperation::Intersect,
            "EXCEPT" => SetOperation::Except,
            other => return Err(missing(other)),
        };
        let body = Body::Set {
            left: Box::new(left.body),
            right: Box::new(right.body),
            operation,
            is_all,
        };
        Ok(Rows {
            body,
            columns: left.columns,
        })
    }

    /// Gives a column of rows another type.
    fn convert(&mut self, rows: &mut Rows, place: usize, to: Oid) -> Result<(), Failure> {
        let column = &mut rows.columns[place];
        let from = std::mem::replace(&mut column.oid, to);
        let span = column.span.unwrap_or_default();
        self.convert_body(&mut rows.body, place, from, to, span)
    }

    fn convert_body(
        &mut self,
        body: &mut Body,
        place: usize,
        from: Oid,
        to: Oid,
        span: Span,
    ) -> Result<(), Failure> {
        if from == to {
            return Ok(());
        }
        let mut convert = |node: &mut Node| {
            let before =
                std::mem::replace(node, Node::Constant(crate::catalog::value::Value::Null));
            *node = self.cast(Typed::new(before, from), to, -1, span)?.node;
            Ok(())
        };
        match body {
            Body::Select(select) => convert(&mut select.targets[place]),
            Body::Values(rows) => rows.iter_mut().try_for_each(|row| convert(&mut row[place])),
            Body::Set { left, right, .. } => {
                self.convert_body(left, place, from, to, span)?;
                self.convert_body(right, place, from, to, span)
            }
        }
    }

    /// Gives a column of a plan another type, to compare it.
    pub(super) fn convert_column(
        &mut self,
        plan: &mut Plan,
        place: usize,
        to: Oid,
        span: Span,
    ) -> Result<(), Failure> {
        let from = plan.columns[place].oid;
        plan.columns[place].oid = to;
        casts::check(from, to).map_err(|report| report.or_at(span.start))?;
        let is_sorted_by_it = plan.order.iter().any(|key| key.place == place);
        if is_sorted_by_it
            && from != to
            && !matches!((from, to), (oid::NAME | oid::VARCHAR, oid::TEXT))
        {
            return Err(missing("a comparison with a sorted query of another type"));
        }
        self.convert_body(&mut plan.body, place, from, to, span)
    }

    /// Gives each column whose type is open that of texts.
    fn settle_columns(
        &mut self,
        mut rows: Rows,
        span: Span,
    ) -> Result<(Body, Vec<OutputColumn>), Failure> {
        for place in 0..rows.columns.len() {
            if matches!(rows.columns[place].oid, oid::UNKNOWN | oid::UNSPECIFIED) {
                self.convert(&mut rows, place, oid::TEXT)
                    .map_err(|report| report.or_at(span.start))?;
            }
        }
        let columns = rows
            .columns
            .into_iter()
            .map(|shown| OutputColumn {
                name: shown.name,
                oid: shown.oid,
                modifier: shown.modifier,
            })
            .collect();
        Ok((rows.body, columns))
    }

    /// Reads an ORDER BY that may name columns of the result alone.
    fn order_of_columns(
        &mut self,
        order: &[OrderBy],
        columns: &[Shown],
    ) -> Result<Vec<SortKey>, Failure> {
        order
            .iter()
            .map(|by| match column_of_result(&by.expression, columns)? {
                Some(place) => Ok(sort_key(place, by)),
                None => {
                    Err(missing("ORDER BY of an expression behind UNION")
                        .at(by.expression.span.start))
                }
            })
            .collect()
    }

    fn select(
        &mut self,
        select: &query::Select,
        order: &[OrderBy],
        locking: &[Locking],
        outer: Option<&Scope<'_>>,
    ) -> Result<(Rows, Vec<SortKey>), Failure> {
        let mut scope = Scope::new(outer);
        let mut joined = Joined::default();
        for relation in &select.from {
            self.from(relation, &mut joined, &mut scope)?;
        }
        if let Some(condition) = &select.condition {
            scope.clause.set(Clause::Where);
            joined
                .conditions
                .extend(self.conditions(condition, "WHERE", &scope)?);
        }
        scope.clause.set(Clause::Targets);
        let mut targets = Targets::default();
        for target in &select.targets {
            self.target(target, &mut targets, &scope)?;
        }
        let visible = targets.nodes.len();
        let keys = self.group(&select.group, &targets, &scope)?;
        scope.clause.set(Clause::Targets);
        let distinct = self.distinct(select, &mut targets, visible, &scope)?;
        let order = self.order(order, &mut targets, visible, &scope)?;
        if matches!(distinct, Distinct::All) && targets.nodes.len() > visible {
            let text = "for SELECT DISTINCT, ORDER BY expressions must appear in select list";
            let report = Report::error(SqlState::INVALID_COLUMN_REFERENCE, text);
            let span = targets.shown[visible].span.unwrap_or_default();
            return Err(report.or_at(span.start));
        }
        scope.clause.set(Clause::Having);
        let having = match &select.having {
            Some(having) => Some(self.condition(having, "HAVING", &scope)?),
            None => None,
        };
        let extras: Extras = scope.extras.take();
        let is_grouped =
            !select.group.is_empty() || having.is_some() || !extras.aggregates.is_empty();
        let grouping = is_grouped.then(|| Grouping {
            keys,
            aggregates: extras.aggregates,
            having,
            slot: scope.aggregate_slot(),
        });
        if let Some(grouping) = &grouping {
            check_grouped(&targets, grouping, &extras.windows, &extras.sets, &scope)?;
        }
        let slots = scope.items.len() + 3;
        let (guards, steps) = if joined.steps.is_empty() {
            let node = |condition: Condition| condition.node;
            (
                joined.conditions.into_iter().map(node).collect(),
                Vec::new(),
            )
        } else {
            (Vec::new(), placed_conditions(joined))
        };
        let body = Body::Select(Box::new(Select {
            slots,
            guards,
            steps,
            grouping,
            windows: extras.windows,
            sets: extras.sets,
            targets: targets.nodes,
            distinct,
            visible,
        }));
        locking::check(locking, &body, &scope.items, &self.named)?;
        let mut columns = targets.shown;
        columns.truncate(visible);
        Ok((Rows { body, columns }, order))
    }

    fn target(
        &mut self,
        target: &Target,
        targets: &mut Targets,
        scope: &Scope<'_>,
    ) -> Result<(), Failure> {
        match target {
            Target::Star(table, span) => {
                for (name, typed) in self.star(table.as_ref(), *span, scope)? {
                    targets.push(name, typed, None);
                }
            }
            Target::Expression(expression, name) => {
                let typed = self.expression(expression, scope)?;
                let name = match name {
                    Some(name) => name.text.clone(),
                    None => column_name(expression).unwrap_or("?column?").to_owned(),
                };
                targets.push(name, typed, Some(expression.clone()));
            }
        }
        Ok(())
    }

    fn group(
        &mut self,
        group: &[Expression],
        targets: &Targets,
        scope: &Scope<'_>,
    ) -> Result<Vec<Node>, Failure> {
        scope.clause.set(Clause::Group);
        if group.len() > MOST_KEYS {
            return Err(too_complex());
        }
        group
            .iter()
            .map(|expression| {
                // A column of what is read comes first, then one of the result.
                let name = only_name(expression);
                let is_read = name.map_or(false, |name| {
                    scope
                        .visible
                        .iter()
                        .any(|&(item, place)| scope.items[item].columns[place].name == name)
                });
                let place = if is_read {
                    None
                } else {
                    column_of_result(expression, &targets.shown)?
                };
                match place {
                    Some(place) => match &targets.nodes[place] {
                        Node::Column { slot, .. } if *slot >= scope.aggregate_slot() => {
                            let text = "aggregate functions are not allowed in GROUP BY";
                            let span = targets.shown[place].span.unwrap_or(expression.span);
                            Err(Report::error(SqlState::GROUPING_ERROR, text).at(span.start))
                        }
                        node => Ok(node.clone()),
                    },
                    None => Ok(self.settled_expression(expression, scope)?.node),
                }
            })
            .collect()
    }

    fn distinct(
        &mut self,
        select: &query::Select,
        targets: &mut Targets,
        visible: usize,
        scope: &Scope<'_>,
    ) -> Result<Distinct, Failure> {
        if select.distinct_on.is_empty() {
            return Ok(if select.is_distinct {
                Distinct::All
            } else {
                Distinct::No
            });
        }
        let places: Result<Vec<usize>, Failure> = select
            .distinct_on
            .iter()
            .map(|expression| self.sorted_place(expression, targets, visible, scope))
            .collect();
        Ok(Distinct::On(places?))
    }

    /// Reads ORDER BY: columns of the result, or expressions, which become columns that nobody sees.
    fn order(
        &mut self,
        order: &[OrderBy],
        targets: &mut Targets,
        visible: usize,
        scope: &Scope<'_>,
    ) -> Result<Vec<SortKey>, Failure> {
        order
            .iter()
            .map(|by| {
                let place = self.sorted_place(&by.expression, targets, visible, scope)?;
                Ok(sort_key(place, by))
            })
            .collect()
    }

    fn sorted_place(
        &mut self,
        expression: &Expression,
        targets: &mut Targets,
        visible: usize,
        scope: &Scope<'_>,
    ) -> Result<usize, Failure> {
        if let Some(place) = column_of_result(expression, &targets.shown[..visible])? {
            return Ok(place);
        }
        let same = targets.written.iter().position(|written| {
            written
                .as_ref()
                .map_or(false, |written| is_same(written, expression))
        });
        if let Some(place) = same {
            return Ok(place);
        }
        let typed = self.settled_expression(expression, scope)?;
        if let Node::Column { up, slot, place } = typed.node {
            let is_it = |node: &Node| matches!(node, Node::Column { up: u, slot: s, place: p } if (*u, *s, *p) == (up, slot, place));
            if let Some(place) = targets.nodes.iter().position(is_it) {
                return Ok(place);
            }
        }
        targets.push(String::new(), typed, Some(expression.clone()));
        Ok(targets.nodes.len() - 1)
    }
}

/// The columns of a SELECT while they are read.
#[derive(Default)]
struct Targets {
    nodes: Vec<Node>,
    shown: Vec<Shown>,
    written: Vec<Option<Expression>>,
}

impl Targets {
    fn push(&mut self, name: String, typed: Typed, written: Option<Expression>) {
        self.nodes.push(typed.node);
        self.shown.push(Shown {
            name,
            oid: typed.oid,
            modifier: typed.modifier,
            span: typed.span,
        });
        self.written.push(written);
    }
}

/// Returns whether two expressions are written alike, wherever they stand.
fn is_same(left: &Expression, right: &Expression) -> bool {
    use ExpressionKind::{Cast, Column, Function};
    match (&left.kind, &right.kind) {
        (Column(left), Column(right)) => {
            let (left, right) = (left.names().iter(), right.names().iter());
            left.map(|name| &name.text).eq(right.map(|name| &name.text))
        }
        (Cast(left, to), Cast(right, other)) => {
            is_same(left, right)
                && to.name.name.text == other.name.name.text
                && (&to.modifiers, to.is_array) == (&other.modifiers, other.is_array)
        }
        (Function(left), Function(right)) => {
            let is_plain = |call: &FunctionCall| {
                !call.is_star && !call.is_distinct && call.order.is_empty() && call.over.is_none()
            };
            is_plain(left)
                && is_plain(right)
                && left.name.name.text == right.name.name.text
                && left.arguments.len() == right.arguments.len()
                && left
                    .arguments
                    .iter()
                    .zip(&right.arguments)
                    .all(|(left, right)| is_same(left, right))
        }
        (ExpressionKind::Text(left), ExpressionKind::Text(right)) => left == right,
        (ExpressionKind::Number(left), ExpressionKind::Number(right)) => left == right,
        _ => false,
    }
}

/// Returns the name of a column that is named alone.
fn only_name(expression: &Expression) -> Option<&str> {
    match &expression.kind {
        ExpressionKind::Column(ColumnName::Plain(name)) => Some(&name.text),
        _ => None,
    }
}

/// Returns the column of the result that ORDER BY or GROUP BY means by its number or by its name.
fn column_of_result(expression: &Expression, columns: &[Shown]) -> Result<Option<usize>, Failure> {
    if let ExpressionKind::Number(digits) = &expression.kind {
        let place = digits
            .parse::<usize>()
            .ok()
            .and_then(|number| number.checked_sub(1));
        return match place.filter(|&place| place < columns.len()) {
            Some(place) => Ok(Some(place)),
            None => {
                let text = format!("ORDER BY position {} is not in select list", digits);
                Err(Report::error(SqlState::INVALID_COLUMN_REFERENCE, text)
                    .at(expression.span.start))
            }
        };
    }
    let name = match only_name(expression) {
        Some(name) => name,
        None => return Ok(None),
    };
    Ok(columns.iter().position(|column| column.name == name))
}

/// How good a name of a column is: that of a type or of CASE yields to one that is found inside.
#[derive(Clone, Copy, Debug, PartialEq, Eq)]
enum Strength {
    Weak,
    Strong,
}

/// Returns the name that PostgreSQL gives a column without AS. None: it has none.
fn column_name(expression: &Expression) -> Option<&str> {
    named(expression).map(|(name, _)| name)
}

fn named(expression: &Expression) -> Option<(&str, Strength)> {
    let strong = |name| Some((name, Strength::Strong));
    let inside = |operand| named(operand).filter(|(_, strength)| *strength == Strength::Strong);
    match &expression.kind {
        ExpressionKind::Column(column) => strong(column.names().last()?.text.as_str()),
        ExpressionKind::Field(_, name) => strong(&name.text),
        ExpressionKind::Subscript(operand, _) | ExpressionKind::Collate(operand, _) => {
            named(operand)
        }
        ExpressionKind::Function(call) => strong(&call.name.name.text),
        ExpressionKind::Cast(operand, name) => {
            inside(operand).or(Some((&name.name.name.text, Strength::Weak)))
        }
        ExpressionKind::Case { otherwise, .. } => otherwise
            .as_deref()
            .and_then(inside)
            .or(Some(("case", Strength::Weak))),
        ExpressionKind::Array(_) | ExpressionKind::ArrayQuery(_) => strong("array"),
        ExpressionKind::Exists(_) => strong("exists"),
        ExpressionKind::Row(_) => strong("row"),
        ExpressionKind::Subquery(query) => match &query.body {
            query::Body::Select(select) => match select.targets.first() {
                Some(Target::Expression(_, Some(name))) => strong(&name.text),
                Some(Target::Expression(expression, None)) => named(expression),
                _ => None,
            },
            _ => None,
        },
        _ => None,
    }
}

/// Refuses columns that are neither in GROUP BY nor inside of an aggregate.
fn check_grouped(
    targets: &Targets,
    grouping: &Grouping,
    windows: &[crate::catalog::plan::Window],
    sets: &[Node],
    scope: &Scope<'_>,
) -> Result<(), Failure> {
    let keys: Vec<(usize, usize)> = grouping
        .keys
        .iter()
        .filter_map(|key| match key {
            Node::Column { up: 0, slot, place } => Some((*slot, *place)),
            _ => None,
        })
        .collect();
    let is_key_of_relation = |slot: usize| {
        let item = &scope.items[slot];
        let has_oid = item.relation.map_or(false, |relation| relation.kind == "r");
        has_oid
            && keys
                .iter()
                .any(|&(key, place)| key == slot && item.columns[place].name == "oid")
    };
    let fits = |slot: usize, place: usize| {
        slot >= scope.items.len() || keys.contains(&(slot, place)) || is_key_of_relation(slot)
    };
    let in_windows = windows.iter().flat_map(|window| {
        window
            .partition
            .iter()
            .chain(window.order.iter().map(|(node, _)| node))
    });
    for node in targets
        .nodes
        .iter()
        .chain(&grouping.having)
        .chain(sets)
        .chain(in_windows)
    {
        if grouping.keys.iter().any(|key| is_same_node(key, node)) {
            continue;
        }
        if let Some((slot, place)) = ungrouped(node, &grouping.keys, &fits) {
            if slot == usize::MAX {
                return Err(missing("a query that reads the rows of a grouped one"));
            }
            let item = &scope.items[slot];
            let text = format!(
                "column \"{}.{}\" must appear in the GROUP BY clause or be used in an aggregate function",
                item.name, item.columns[place].name
            );
            return Err(Report::error(SqlState::GROUPING_ERROR, text));
        }
    }
    Ok(())
}

/// Returns whether two nodes are the same column or print alike.
fn is_same_node(left: &Node, right: &Node) -> bool {
    std::mem::discriminant(left) == std::mem::discriminant(right)
        && format!("{:?}", left) == format!("{:?}", right)
}

/// Returns a column of this query that doesn't fit a grouped one. `usize::MAX`: a query inside may read one.
fn ungrouped(
    node: &Node,
    keys: &[Node],
    fits: &impl Fn(usize, usize) -> bool,
) -> Option<(usize, usize)> {
    if keys.iter().any(|key| is_same_node(key, node)) {
        return None;
    }
    let inside = |node: &Node| ungrouped(node, keys, fits);
    let of = |nodes: &[Node]| nodes.iter().find_map(inside);
    match node {
        Node::Column { up: 0, slot, place } => (!fits(*slot, *place)).then_some((*slot, *place)),
        Node::Column { .. } | Node::Constant(_) | Node::Parameter(_) => None,
        Node::Shared(node) => inside(node),
        Node::Not(node) | Node::Is(node, ..) | Node::Negative(_, node) | Node::Field(node, _) => {
            inside(node)
        }
        Node::Cast { value, .. } => inside(value),
        Node::And(nodes)
        | Node::Or(nodes)
        | Node::Coalesce(nodes)
        | Node::Extreme(nodes, _)
        | Node::Array(nodes)
        | Node::Row(nodes) => of(nodes),
        Node::Compare(_, left, right)
        | Node::Distinct(left, right, _)
        | Node::Arithmetic(_, _, left, right)
        | Node::Match(_, left, right)
        | Node::Concatenate(left, right)
        | Node::Append(left, right)
        | Node::NullIf(left, right)
        | Node::Subscript(left, right, _)
        | Node::Quantified { left, right, .. } => inside(left).or_else(|| inside(right)),
        Node::Case(branches, otherwise) => branches
            .iter()
            .find_map(|(when, then)| inside(when).or_else(|| inside(then)))
            .or_else(|| inside(otherwise)),
        Node::Call(call) => of(&call.arguments),
        Node::QuantifiedQuery { left, plan, .. } => of(left).or_else(|| reads_rows(plan)),
        Node::Scalar(plan) | Node::Exists(plan) | Node::ArrayQuery(plan) => reads_rows(plan),
    }
}

fn reads_rows(plan: &Plan) -> Option<(usize, usize)> {
    (!plan.is_closed).then_some((usize::MAX, 0))
}
