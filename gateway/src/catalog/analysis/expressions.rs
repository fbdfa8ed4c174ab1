//! Expressions.

use std::rc::Rc;

use postgres_protocol::Oid;

use crate::catalog::analysis::coercion::text_constant;
use crate::catalog::analysis::scope::Scope;
use crate::catalog::analysis::{Analyser, Typed};
use crate::catalog::missing;
use crate::catalog::operators::{
    no_operator_before, no_operator_between, Arithmetic, Comparison, Match,
};
use crate::catalog::plan::{ElementTest, Node, Plan};
use crate::catalog::types::{self, oid};
use crate::catalog::value::Value;
use crate::decimal::Decimal;
use crate::sqlstate::{Failure, Report, SqlState};
use crate::statement::constant::sign_of_unknown;
use crate::statement::query::{Expression, ExpressionKind, IsWhat, Query, Span};

impl Analyser<'_> {
    /// Reads an expression.
    pub(super) fn expression(
        &mut self,
        expression: &Expression,
        scope: &Scope<'_>,
    ) -> Result<Typed, Failure> {
        let span = expression.span;
        let typed = self.deeper(|analyser| {
            analyser
                .kind(expression, scope)
                .map_err(|report| report.or_at(span.start))
        })?;
        Ok(Typed {
            span: typed.span.or(Some(span)),
            ..typed
        })
    }

    /// Reads an expression, and gives it a type if it has none.
    pub(super) fn settled_expression(
        &mut self,
        expression: &Expression,
        scope: &Scope<'_>,
    ) -> Result<Typed, Failure> {
        let typed = self.expression(expression, scope)?;
        self.settled(typed, expression.span)
    }

    /// Reads a condition.
    pub(super) fn condition(
        &mut self,
        expression: &Expression,
        what: &str,
        scope: &Scope<'_>,
    ) -> Result<Node, Failure> {
        let typed = self.expression(expression, scope)?;
        self.boolean(typed, what, expression.span)
    }

    fn boolean(&mut self, typed: Typed, what: &str, span: Span) -> Result<Node, Failure> {
        if !typed.is_open() && typed.oid != oid::BOOL {
            let text = format!(
                "argument of {} must be type boolean, not type {}",
                what,
                types::display(typed.oid)
            );
            return Err(Report::error(SqlState::DATATYPE_MISMATCH, text).at(span.start));
        }
        Ok(self.implicit(typed, oid::BOOL, span)?.node)
    }

    fn kind(&mut self, expression: &Expression, scope: &Scope<'_>) -> Result<Typed, Failure> {
        let span = expression.span;
        match &expression.kind {
            ExpressionKind::Null => Ok(Typed::constant(Value::Null, oid::UNKNOWN)),
            ExpressionKind::Boolean(value) => Ok(Typed::constant(*value, oid::BOOL)),
            ExpressionKind::Number(digits) => number(digits),
            ExpressionKind::Text(text) => Ok(text_constant(text)),
            ExpressionKind::Parameter(number) => self.parameter(*number),
            ExpressionKind::Column(column) => self.column(column.names(), scope),
            ExpressionKind::Unary(operator, operand) => self.unary(operator, operand, scope),
            ExpressionKind::Binary(left, operator, right) => {
                let span = operator.span;
                self.binary(left, operator, right, span, scope)
                    .map_err(|report| report.or_at(span.start))
            }
            ExpressionKind::Cast(operand, name) => {
                let (oid, modifier) = self.type_of(name)?;
                if matches!(&operand.kind, ExpressionKind::Array(elements) if elements.is_empty())
                    && types::element(oid).is_some()
                {
                    let empty = Value::Array(Vec::new().into());
                    return Ok(Typed::constant(empty, oid));
                }
                let typed = self.expression(operand, scope)?;
                self.cast(typed, oid, modifier, operand.span)
            }
            ExpressionKind::Is(operand, what, is_negated) => {
                self.is(operand, *what, *is_negated, scope)
            }
            ExpressionKind::In(left, list, is_negated) => {
                self.in_list(left, list, *is_negated, scope)
            }
            ExpressionKind::InQuery(left, query, is_negated) => {
                let comparison = if *is_negated {
                    Comparison::Unequal
                } else {
                    Comparison::Equal
                };
                self.quantified_query(left, comparison, *is_negated, query, scope)
            }
            ExpressionKind::Between(operand, low, high, is_negated) => {
                self.between([&**operand, &**low, &**high], *is_negated, scope)
            }
            ExpressionKind::Quantified(left, operator, is_all, right) => {
                let span = operator.span;
                self.quantified(left, operator, *is_all, right, span, scope)
                    .map_err(|report| report.or_at(span.start))
            }
            ExpressionKind::Function(call) => self.call(call, span, scope),
            ExpressionKind::Case {
                operand,
                branches,
                otherwise,
            } => self.case(
                operand.as_deref(),
                branches,
                otherwise.as_deref(),
                span,
                scope,
            ),
            ExpressionKind::Subquery(query) => {
                let plan = self.subquery(query, scope)?;
                let column = only_column(&plan, span)?;
                Ok(Typed {
                    modifier: column.1,
                    ..Typed::new(Node::Scalar(plan), column.0)
                })
            }
            ExpressionKind::Exists(query) => {
                let plan = self.subquery(query, scope)?;
                Ok(Typed::new(Node::Exists(plan), oid::BOOL))
            }
            ExpressionKind::ArrayQuery(query) => {
                let plan = self.subquery(query, scope)?;
                let (element, _) = only_column(&plan, span)?;
                Ok(Typed::new(Node::ArrayQuery(plan), array_of(element)?))
            }
            ExpressionKind::Array(elements) if elements.is_empty() => {
                let text = "cannot determine type of empty array";
                Err(Report::error(SqlState::INDETERMINATE_TYPE, text)
                    .hint("Explicitly cast to the desired type, for example ARRAY[]::integer[]."))
            }
            ExpressionKind::Array(elements) => {
                let elements = self.list(elements, scope)?;
                let (elements, element) = self.common(elements, "ARRAY", span)?;
                Ok(Typed::new(Node::Array(nodes(elements)), array_of(element)?))
            }
            ExpressionKind::Row(fields) => {
                let fields: Result<Vec<Typed>, Failure> = fields
                    .iter()
                    .map(|field| self.settled_expression(field, scope))
                    .collect();
                Ok(Typed::new(Node::Row(nodes(fields?)), oid::RECORD))
            }
            ExpressionKind::Subscript(array, index) => self.subscript(array, index, scope),
            ExpressionKind::Field(row, name) => self.field(row, name, scope),
            ExpressionKind::Collate(operand, collation) => {
                let name = collation.name.text.as_str();
                if !matches!(name, "default" | "C" | "POSIX" | "ucs_basic") {
                    return Err(missing(&format!("the collation \"{}\"", name)));
                }
                let typed = self.settled_expression(operand, scope)?;
                if !types::is_text(typed.oid) {
                    let text = format!(
                        "collations are not supported by type {}",
                        types::display(typed.oid)
                    );
                    return Err(Report::error(SqlState::DATATYPE_MISMATCH, text));
                }
                Ok(typed)
            }
        }
    }

    /// Reads several expressions.
    pub(super) fn list(
        &mut self,
        list: &[Expression],
        scope: &Scope<'_>,
    ) -> Result<Vec<Typed>, Failure> {
        list.iter()
            .map(|expression| self.expression(expression, scope))
            .collect()
    }

    fn parameter(&mut self, number: u16) -> Result<Typed, Failure> {
        let place = usize::from(number).checked_sub(1).ok_or_else(|| {
            Report::error(SqlState::UNDEFINED_PARAMETER, "there is no parameter $0")
        })?;
        if self.parameters.len() <= place {
            self.parameters.resize(place + 1, oid::UNSPECIFIED);
        }
        let oid = match self.parameters[place] {
            oid::UNKNOWN => oid::UNSPECIFIED,
            oid => oid,
        };
        self.parameters[place] = oid;
        Ok(Typed::new(Node::Parameter(place), oid))
    }

    fn unary(
        &mut self,
        operator: &str,
        operand: &Expression,
        scope: &Scope<'_>,
    ) -> Result<Typed, Failure> {
        if operator == "NOT" {
            let condition = self.condition(operand, "NOT", scope)?;
            return Ok(Typed::new(Node::Not(Box::new(condition)), oid::BOOL));
        }
        // A number with a minus in front is one constant: -2147483648 is an integer.
        if let (ExpressionKind::Number(digits), "-") = (&operand.kind, operator) {
            return number(&format!("-{}", digits));
        }
        let typed = self.expression(operand, scope)?;
        match operator {
            "-" if types::is_number(typed.oid) => Ok(Typed::new(
                Node::Negative(typed.oid, Box::new(typed.node)),
                typed.oid,
            )),
            "+" if types::is_number(typed.oid) => Ok(typed),
            "-" if typed.is_open() => Err(sign_of_unknown('-')),
            "+" if typed.is_open() => Err(sign_of_unknown('+')),
            "-" | "+" => Err(no_operator_before(operator, typed.oid)),
            _ => Err(missing(&format!("the operator {}", operator))),
        }
    }

    fn binary(
        &mut self,
        left: &Expression,
        operator: &str,
        right: &Expression,
        span: Span,
        scope: &Scope<'_>,
    ) -> Result<Typed, Failure> {
        match operator {
            "AND" | "OR" => {
                let sides = vec![
                    self.condition(left, operator, scope)?,
                    self.condition(right, operator, scope)?,
                ];
                let node = if operator == "AND" {
                    Node::And(sides)
                } else {
                    Node::Or(sides)
                };
                return Ok(Typed::new(node, oid::BOOL));
            }
            _ => {}
        }
        if let (ExpressionKind::Row(lefts), ExpressionKind::Row(rights)) = (&left.kind, &right.kind)
        {
            return self.rows(lefts, operator, rights, span, scope);
        }
        let left = self.expression(left, scope)?;
        let right = self.expression(right, scope)?;
        self.operator(left, operator, right, span)
    }

    /// Compares two rows in parentheses.
    fn rows(
        &mut self,
        lefts: &[Expression],
        operator: &str,
        rights: &[Expression],
        span: Span,
        scope: &Scope<'_>,
    ) -> Result<Typed, Failure> {
        let comparison = match Comparison::of(operator) {
            Some(comparison @ (Comparison::Equal | Comparison::Unequal)) => comparison,
            _ => return Err(missing("an order of rows")),
        };
        if lefts.len() != rights.len() {
            let text = "unequal number of entries in row expressions";
            return Err(Report::error(SqlState::SYNTAX_ERROR, text).at(span.start));
        }
        let pairs: Result<Vec<Node>, Failure> = lefts
            .iter()
            .zip(rights)
            .map(|(left, right)| Ok(self.binary(left, operator, right, span, scope)?.node))
            .collect();
        let node = if comparison == Comparison::Equal {
            Node::And(pairs?)
        } else {
            Node::Or(pairs?)
        };
        Ok(Typed::new(node, oid::BOOL))
    }

    /// Applies an operator to two values.
    pub(super) fn operator(
        &mut self,
        left: Typed,
        operator: &str,
        right: Typed,
        span: Span,
    ) -> Result<Typed, Failure> {
        if let Some(comparison) = Comparison::of(operator) {
            let (left, right, _) = self.comparable(left, operator, right, span)?;
            let node = Node::Compare(comparison, Box::new(left.node), Box::new(right.node));
            return Ok(Typed::new(node, oid::BOOL));
        }
        if let "IS DISTINCT FROM" | "IS NOT DISTINCT FROM" = operator {
            let (left, right, _) = self.comparable(left, "=", right, span)?;
            let is_negated = operator == "IS NOT DISTINCT FROM";
            let node = Node::Distinct(Box::new(left.node), Box::new(right.node), is_negated);
            return Ok(Typed::new(node, oid::BOOL));
        }
        if let Some(how) = Match::of(operator) {
            let fails = no_operator_between(left.oid, operator, right.oid);
            let is_text = |typed: &Typed| typed.is_open() || types::is_text(typed.oid);
            if !is_text(&left) || !is_text(&right) {
                return Err(fails);
            }
            let left = self.implicit(left, oid::TEXT, span)?;
            let right = self.implicit(right, oid::TEXT, span)?;
            let node = Node::Match(how, Box::new(left.node), Box::new(right.node));
            return Ok(Typed::new(node, oid::BOOL));
        }
        if operator == "||" {
            return self.concatenation(left, right, span);
        }
        match Arithmetic::of(operator) {
            Some(arithmetic) => self.arithmetic(left, arithmetic, operator, right, span),
            None => Err(missing(&format!("the operator {}", operator))),
        }
    }

    /// Gives two values that are compared one type.
    pub(super) fn comparable(
        &mut self,
        left: Typed,
        operator: &str,
        right: Typed,
        span: Span,
    ) -> Result<(Typed, Typed, Oid), Failure> {
        let fails = no_operator_between(left.oid, operator, right.oid);
        let compared = compared_as(left.oid, right.oid).ok_or(fails)?;
        if compared == oid::BPCHAR {
            return Err(missing("a comparison of the type character"));
        }
        let left = self.cast(left, compared, -1, span)?;
        let right = self.cast(right, compared, -1, span)?;
        Ok((left, right, compared))
    }

    fn concatenation(&mut self, left: Typed, right: Typed, span: Span) -> Result<Typed, Failure> {
        let (is_left, is_right) = (
            types::element(left.oid).is_some(),
            types::element(right.oid).is_some(),
        );
        if is_left || is_right {
            let array = if is_left { left.oid } else { right.oid };
            let mut side = |typed: Typed| match types::element(typed.oid) {
                Some(_) if typed.oid == array => Ok(typed.node),
                Some(_) => Err(no_operator_between(array, "||", typed.oid)),
                None if typed.is_open() => Ok(self.implicit(typed, array, span)?.node),
                None if types::element(array) == Some(typed.oid) => {
                    Ok(Node::Array(vec![typed.node]))
                }
                None => Err(no_operator_between(array, "||", typed.oid)),
            };
            let (left, right) = (side(left)?, side(right)?);
            return Ok(Typed::new(
                Node::Append(Box::new(left), Box::new(right)),
                array,
            ));
        }
        let is_text = |typed: &Typed| types::is_text(typed.oid);
        let is_taken = |typed: &Typed| is_text(typed) || typed.is_open();
        if !is_taken(&left) && !is_taken(&right) {
            return Err(no_operator_between(left.oid, "||", right.oid));
        }
        let left = self.cast(left, oid::TEXT, -1, span)?;
        let right = self.cast(right, oid::TEXT, -1, span)?;
        let node = Node::Concatenate(Box::new(left.node), Box::new(right.node));
        Ok(Typed::new(node, oid::TEXT))
    }

    fn arithmetic(
        &mut self,
        left: Typed,
        arithmetic: Arithmetic,
        operator: &str,
        right: Typed,
        span: Span,
    ) -> Result<Typed, Failure> {
        let fails = no_operator_between(left.oid, operator, right.oid);
        let oid = match (left.oid, right.oid) {
            (left, right) if types::is_number(left) && types::is_number(right) => {
                if left == right || types::is_implicit(left, right) {
                    right
                } else {
                    left
                }
            }
            (number, oid::UNKNOWN | oid::UNSPECIFIED) if types::is_number(number) => number,
            (oid::UNKNOWN | oid::UNSPECIFIED, number) if types::is_number(number) => number,
            _ if left.is_open() && right.is_open() => return Err(not_unique(operator)),
            _ => return Err(fails),
        };
        let is_whole = types::is_integer(oid);
        if !is_whole && (arithmetic.is_of_bits() || arithmetic == Arithmetic::Remainder) {
            return Err(if arithmetic.is_of_bits() {
                fails
            } else {
                missing("% of numeric")
            });
        }
        let is_shift = matches!(arithmetic, Arithmetic::ShiftLeft | Arithmetic::ShiftRight);
        let left_oid = left.oid;
        let left = self.implicit(left, oid, span)?;
        let right = self.implicit(right, oid, span)?;
        let node = Node::Arithmetic(arithmetic, oid, Box::new(left.node), Box::new(right.node));
        let shown = if is_shift && types::is_integer(left_oid) {
            left_oid
        } else {
            oid
        };
        if shown == oid {
            return Ok(Typed::new(node, oid));
        }
        Err(missing("a shift by a number of another type"))
    }

    fn is(
        &mut self,
        operand: &Expression,
        what: IsWhat,
        is_negated: bool,
        scope: &Scope<'_>,
    ) -> Result<Typed, Failure> {
        let node = match what {
            IsWhat::Null => {
                if let ExpressionKind::Row(_) = operand.kind {
                    return Err(missing("IS NULL of a row"));
                }
                self.settled_expression(operand, scope)?.node
            }
            _ => self.condition(operand, "IS", scope)?,
        };
        Ok(Typed::new(
            Node::Is(Box::new(node), what, is_negated),
            oid::BOOL,
        ))
    }

    fn in_list(
        &mut self,
        left: &Expression,
        list: &[Expression],
        is_negated: bool,
        scope: &Scope<'_>,
    ) -> Result<Typed, Failure> {
        let operator = if is_negated { "<>" } else { "=" };
        let comparisons: Result<Vec<Node>, Failure> = match &left.kind {
            ExpressionKind::Row(lefts) => list
                .iter()
                .map(|right| match &right.kind {
                    ExpressionKind::Row(rights) => {
                        Ok(self.rows(lefts, operator, rights, left.span, scope)?.node)
                    }
                    _ => {
                        Err(no_operator_between(oid::RECORD, "=", oid::RECORD).at(right.span.start))
                    }
                })
                .collect(),
            _ => {
                let typed = self.expression(left, scope)?;
                let shared = self.shared(typed);
                list.iter()
                    .map(|right| {
                        let typed = self.expression(right, scope)?;
                        Ok(self
                            .operator(shared.clone(), operator, typed, right.span)?
                            .node)
                    })
                    .collect()
            }
        };
        let node = if is_negated {
            Node::And(comparisons?)
        } else {
            Node::Or(comparisons?)
        };
        Ok(Typed::new(node, oid::BOOL))
    }

    /// Makes a value usable in several places without a copy of it.
    fn shared(&mut self, typed: Typed) -> Typed {
        match typed.node {
            Node::Constant(_) | Node::Parameter(_) | Node::Column { .. } => typed,
            node => Typed {
                node: Node::Shared(Rc::new(node)),
                ..typed
            },
        }
    }

    fn between(
        &mut self,
        [operand, low, high]: [&Expression; 3],
        is_negated: bool,
        scope: &Scope<'_>,
    ) -> Result<Typed, Failure> {
        let typed = self.expression(operand, scope)?;
        let operand_value = self.shared(typed);
        let low_value = self.expression(low, scope)?;
        let high_value = self.expression(high, scope)?;
        let above = self.operator(operand_value.clone(), ">=", low_value, low.span)?;
        let below = self.operator(operand_value, "<=", high_value, high.span)?;
        let node = Node::And(vec![above.node, below.node]);
        let node = if is_negated {
            Node::Not(Box::new(node))
        } else {
            node
        };
        Ok(Typed::new(node, oid::BOOL))
    }

    fn quantified(
        &mut self,
        left: &Expression,
        operator: &str,
        is_all: bool,
        right: &Expression,
        span: Span,
        scope: &Scope<'_>,
    ) -> Result<Typed, Failure> {
        if let ExpressionKind::Subquery(query) = &right.kind {
            let comparison = Comparison::of(operator)
                .ok_or_else(|| missing(&format!("{} ANY of a query", operator)))?;
            return self.quantified_query(left, comparison, is_all, query, scope);
        }
        let left = self.expression(left, scope)?;
        let right = self.expression(right, scope)?;
        let element = match types::element(right.oid) {
            Some(element) => element,
            None if right.is_open() && !left.is_open() => left.oid,
            None if right.is_open() => oid::TEXT,
            None => {
                let text = "op ANY/ALL (array) requires array on right side";
                return Err(Report::error(SqlState::WRONG_OBJECT_TYPE, text).at(span.start));
            }
        };
        if let Some(how) = Match::of(operator) {
            if !types::is_text(element) {
                return Err(no_operator_between(left.oid, operator, element));
            }
            let left = self.implicit(left, oid::TEXT, span)?;
            let right = self.cast(right, oid::TEXT_ARRAY, -1, span)?;
            return Ok(quantified_node(
                left,
                ElementTest::Match(how),
                is_all,
                right,
            ));
        }
        let comparison =
            Comparison::of(operator).ok_or_else(|| missing(&format!("{} ANY", operator)))?;
        let fails = no_operator_between(left.oid, operator, element);
        let compared = compared_as(left.oid, element).ok_or(fails)?;
        let left = self.cast(left, compared, -1, span)?;
        let right = self.cast(right, array_of(compared)?, -1, span)?;
        Ok(quantified_node(
            left,
            ElementTest::Compare(comparison),
            is_all,
            right,
        ))
    }

    fn quantified_query(
        &mut self,
        left: &Expression,
        comparison: Comparison,
        is_all: bool,
        query: &Query,
        scope: &Scope<'_>,
    ) -> Result<Typed, Failure> {
        let lefts = match &left.kind {
            ExpressionKind::Row(fields) => self.list(fields, scope)?,
            _ => vec![self.expression(left, scope)?],
        };
        if lefts.len() > 1 && !matches!(comparison, Comparison::Equal | Comparison::Unequal) {
            return Err(missing("an order of rows"));
        }
        let mut plan = self.open_subquery(query, scope)?;
        if plan.columns.len() != lefts.len() {
            let text = if plan.columns.len() < lefts.len() {
                "subquery has too few columns"
            } else {
                "subquery has too many columns"
            };
            return Err(Report::error(SqlState::SYNTAX_ERROR, text).at(query.span.start));
        }
        let mut values = Vec::with_capacity(lefts.len());
        for (place, typed) in lefts.into_iter().enumerate() {
            let column = plan.columns[place].oid;
            let fails = no_operator_between(typed.oid, "=", column);
            let compared = compared_as(typed.oid, column).ok_or(fails)?;
            self.convert_column(&mut plan, place, compared, query.span)?;
            values.push(self.cast(typed, compared, -1, left.span)?.node);
        }
        let node = Node::QuantifiedQuery {
            left: values,
            comparison,
            is_all,
            plan: Rc::new(plan),
        };
        Ok(Typed::new(node, oid::BOOL))
    }

    fn case(
        &mut self,
        operand: Option<&Expression>,
        branches: &[(Expression, Expression)],
        otherwise: Option<&Expression>,
        span: Span,
        scope: &Scope<'_>,
    ) -> Result<Typed, Failure> {
        let compared = match operand {
            Some(operand) => {
                let typed = self.settled_expression(operand, scope)?;
                Some(self.shared(typed))
            }
            None => None,
        };
        let mut conditions = Vec::with_capacity(branches.len());
        // The type of ELSE counts first.
        let mut values = vec![match otherwise {
            Some(otherwise) => self.expression(otherwise, scope)?,
            None => Typed::constant(Value::Null, oid::UNKNOWN),
        }];
        for (when, then) in branches {
            conditions.push(match &compared {
                Some(compared) => {
                    let when_value = self.expression(when, scope)?;
                    self.operator(compared.clone(), "=", when_value, when.span)?
                        .node
                }
                None => self.condition(when, "CASE/WHEN", scope)?,
            });
            values.push(self.expression(then, scope)?);
        }
        let (values, oid) = self.common(values, "CASE", span)?;
        let mut values = nodes(values).into_iter();
        let otherwise = values.next().unwrap_or(Node::Constant(Value::Null));
        let branches = conditions.into_iter().zip(values).collect();
        Ok(Typed::new(Node::Case(branches, Box::new(otherwise)), oid))
    }

    fn subscript(
        &mut self,
        array: &Expression,
        index: &Expression,
        scope: &Scope<'_>,
    ) -> Result<Typed, Failure> {
        let array_value = self.expression(array, scope)?;
        let element = types::element(array_value.oid).ok_or_else(|| {
            let text = format!(
                "cannot subscript type {} because it does not support subscripting",
                types::display(array_value.oid)
            );
            Report::error(SqlState::DATATYPE_MISMATCH, text).at(array.span.start)
        })?;
        let index_value = self.expression(index, scope)?;
        if !index_value.is_open()
            && !types::is_implicit(index_value.oid, oid::INT4)
            && index_value.oid != oid::INT8
        {
            let text = "array subscript must have type integer";
            return Err(Report::error(SqlState::DATATYPE_MISMATCH, text).at(index.span.start));
        }
        let index = self.cast(index_value, oid::INT4, -1, index.span)?;
        // int2vector and oidvector count from 0.
        let first = i64::from(!matches!(array_value.oid, oid::INT2VECTOR | oid::OIDVECTOR));
        let node = Node::Subscript(Box::new(array_value.node), Box::new(index.node), first);
        Ok(Typed::new(node, element))
    }

    /// Makes the plan of a query inside of an expression.
    fn subquery(&mut self, query: &Query, scope: &Scope<'_>) -> Result<Rc<Plan>, Failure> {
        let plan = self.open_subquery(query, scope)?;
        Ok(Rc::new(plan))
    }

    fn open_subquery(&mut self, query: &Query, scope: &Scope<'_>) -> Result<Plan, Failure> {
        self.deeper(|analyser| analyser.query(query, Some(scope)))
    }
}

fn quantified_node(left: Typed, comparison: ElementTest, is_all: bool, right: Typed) -> Typed {
    let node = Node::Quantified {
        left: Box::new(left.node),
        comparison,
        is_all,
        right: Box::new(right.node),
    };
    Typed::new(node, oid::BOOL)
}

/// Returns the nodes of values.
pub fn nodes(values: Vec<Typed>) -> Vec<Node> {
    values.into_iter().map(|typed| typed.node).collect()
}

/// Returns the type of arrays of this type.
pub fn array_of(element: Oid) -> Result<Oid, Failure> {
    types::array_of(element).ok_or_else(|| {
        let text = format!(
            "could not find array type for data type {}",
            types::display(element)
        );
        Report::error(SqlState::UNDEFINED_OBJECT, text)
    })
}

/// Reads a number that is written: an integer, a bigint or a numeric.
fn number(digits: &str) -> Result<Typed, Failure> {
    if let Ok(value) = digits.parse::<i64>() {
        let oid = if i32::try_from(value).is_ok() {
            oid::INT4
        } else {
            oid::INT8
        };
        return Ok(Typed::constant(value, oid));
    }
    match Decimal::parse(digits) {
        Some(value) => Ok(Typed::new(
            Node::Constant(Value::Decimal(value)),
            oid::NUMERIC,
        )),
        None => Err(missing("a number of more than 38 digits")),
    }
}

/// Returns the type and the modifier of the only column of a query.
fn only_column(plan: &Plan, span: Span) -> Result<(Oid, i32), Failure> {
    match plan.columns.as_slice() {
        [column] => Ok((column.oid, column.modifier)),
        _ => {
            let text = "subquery must return only one column";
            Err(Report::error(SqlState::SYNTAX_ERROR, text).at(span.start))
        }
    }
}

/// Makes the report of an operator between two values whose types are open.
fn not_unique(operator: &str) -> Failure {
    let text = format!("operator is not unique: unknown {} unknown", operator);
    Report::error(SqlState::AMBIGUOUS_FUNCTION, text).hint(
        "Could not choose a best candidate operator. You might need to add explicit type casts.",
    )
}

/// Returns the type as which values of two types are compared. None: they are not.
fn compared_as(left: Oid, right: Oid) -> Option<Oid> {
    let is_open = |oid: Oid| matches!(oid, oid::UNKNOWN | oid::UNSPECIFIED);
    let alone = |oid: Oid| match oid {
        oid if types::is_named_oid(oid) => oid::OID,
        oid::VARCHAR => oid::TEXT,
        oid => oid,
    };
    match (left, right) {
        (left, right) if is_open(left) && is_open(right) => Some(oid::TEXT),
        (left, right) if is_open(left) => has_order(right).then(|| alone(right)),
        (left, right) if is_open(right) => has_order(left).then(|| alone(left)),
        (left, right) if types::is_number(left) && types::is_number(right) => {
            Some(if types::is_implicit(left, right) {
                right
            } else {
                left
            })
        }
        (left, right) if types::is_oid(left) || types::is_oid(right) => {
            let fits = |oid: Oid| types::is_oid(oid) || types::is_integer(oid);
            (fits(left) && fits(right)).then_some(oid::OID)
        }
        (oid::BPCHAR, right) | (right, oid::BPCHAR) => types::is_text(right).then_some(oid::BPCHAR),
        (left, right) if types::is_text(left) && types::is_text(right) => Some(if left == right {
            alone(left)
        } else {
            oid::TEXT
        }),
        (oid::XID, right) | (right, oid::XID) => {
            (right == oid::XID || right == oid::INT4).then_some(oid::XID)
        }
        (left, right) => {
            let (left_element, right_element) = (types::element(left), types::element(right));
            let is_same =
                left == right || (left_element.is_some() && left_element == right_element);
            (is_same && has_order(left)).then_some(left)
        }
    }
}

/// Returns whether values of the type can be compared here.
fn has_order(oid: Oid) -> bool {
    types::is_text(oid)
        || types::is_oid(oid)
        || types::is_number(oid)
        || matches!(oid, oid::BOOL | oid::TIMESTAMPTZ | oid::XID)
        || types::element(oid).map_or(false, has_order)
}
