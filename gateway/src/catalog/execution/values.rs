//! The value of an expression.

use std::rc::Rc;

use crate::catalog::casts;
use crate::catalog::execution::{Environment, Executor, Row};
use crate::catalog::operators::{out_of_range, Comparison, Match};
use crate::catalog::plan::{Call, ElementTest, Node, Plan};
use crate::catalog::value::Value;
use crate::sqlstate::{Failure, Report, SqlState};
use crate::statement::query::IsWhat;

/// A condition that may be unknown.
type Truth = Option<bool>;

fn truth(value: &Value) -> Truth {
    match value {
        Value::Bool(value) => Some(*value),
        _ => None,
    }
}

impl Executor<'_> {
    /// Computes a value.
    ///
    /// # Errors
    ///
    /// Fails if it can't be computed, and past the bounds.
    pub fn value(&mut self, node: &Node, environment: &Environment<'_>) -> Result<Value, Failure> {
        self.spend(1)?;
        Ok(match node {
            Node::Constant(value) => value.clone(),
            Node::Parameter(place) => self.parameters.get(*place).cloned().unwrap_or(Value::Null),
            Node::Column { up, slot, place } => environment.column(*up, *slot, *place),
            Node::Shared(node) => self.value(node, environment)?,
            Node::Not(node) => truth(&self.value(node, environment)?)
                .map(|value| !value)
                .into(),
            Node::And(nodes) => self.all(nodes, environment, true)?.into(),
            Node::Or(nodes) => self.all(nodes, environment, false)?.into(),
            Node::Is(node, what, is_negated) => {
                let value = self.value(node, environment)?;
                let is = match what {
                    IsWhat::Null | IsWhat::Unknown => value.is_null(),
                    IsWhat::True => value.is_true(),
                    IsWhat::False => truth(&value) == Some(false),
                };
                Value::Bool(is != *is_negated)
            }
            Node::Compare(comparison, left, right) => {
                let (left, right) = self.pair(left, right, environment)?;
                comparison.test(&left, &right).into()
            }
            Node::Distinct(left, right, is_negated) => {
                let (left, right) = self.pair(left, right, environment)?;
                let is_same = match left.compare(&right) {
                    Some(order) => order.is_eq(),
                    None => left.is_null() && right.is_null(),
                };
                Value::Bool(is_same == *is_negated)
            }
            Node::Quantified {
                left,
                comparison,
                is_all,
                right,
            } => {
                let (left, right) = self.pair(left, right, environment)?;
                self.quantified(&left, *comparison, *is_all, &right)?.into()
            }
            Node::QuantifiedQuery {
                left,
                comparison,
                is_all,
                plan,
            } => self
                .quantified_query(left, *comparison, *is_all, plan, environment)?
                .into(),
            Node::Arithmetic(arithmetic, oid, left, right) => {
                let (left, right) = self.pair(left, right, environment)?;
                arithmetic.compute(*oid, &left, &right)?
            }
            Node::Negative(oid, node) => match self.value(node, environment)? {
                Value::Integer(number) => {
                    let negative = number.checked_neg();
                    let in_range =
                        |number: &i64| crate::catalog::operators::in_range(*number, *oid);
                    Value::Integer(
                        negative
                            .filter(in_range)
                            .ok_or_else(|| out_of_range(*oid))?,
                    )
                }
                Value::Decimal(number) => Value::Decimal(number.negated()),
                Value::Float(number) => Value::Float(-number),
                _ => Value::Null,
            },
            Node::Match(how, left, right) => {
                let (left, right) = self.pair(left, right, environment)?;
                self.matches(*how, &left, &right)?.into()
            }
            Node::Concatenate(left, right) => {
                let (left, right) = self.pair(left, right, environment)?;
                if left.is_null() || right.is_null() {
                    return Ok(Value::Null);
                }
                self.new_text(format!("{}{}", left.as_text(), right.as_text()))?
            }
            Node::Append(left, right) => {
                let (left, right) = self.pair(left, right, environment)?;
                match (&left, &right) {
                    (Value::Null, _) => right,
                    (_, Value::Null) => left,
                    _ => {
                        let elements = left.as_array().iter().chain(right.as_array());
                        let appended: Rc<[Value]> = elements.cloned().collect();
                        self.keep(32 * appended.len())?;
                        self.spend(appended.len())?;
                        Value::Array(appended)
                    }
                }
            }
            Node::Cast {
                value,
                from,
                to,
                modifier,
            } => {
                let value = self.value(value, environment)?;
                self.keep(value.size())?;
                casts::cast(value, *from, *to, *modifier, self.world)?
            }
            Node::Case(branches, otherwise) => {
                for (condition, value) in branches {
                    if self.value(condition, environment)?.is_true() {
                        return self.value(value, environment);
                    }
                }
                self.value(otherwise, environment)?
            }
            Node::Coalesce(nodes) => {
                for node in nodes {
                    let value = self.value(node, environment)?;
                    if !value.is_null() {
                        return Ok(value);
                    }
                }
                Value::Null
            }
            Node::NullIf(left, right) => {
                let (left, right) = self.pair(left, right, environment)?;
                match Comparison::Equal.test(&left, &right) {
                    Some(true) => Value::Null,
                    _ => left,
                }
            }
            Node::Extreme(nodes, is_greatest) => self.extreme(nodes, *is_greatest, environment)?,
            Node::Call(call) => self.call(call, environment)?,
            Node::Scalar(plan) => self.scalar(plan, environment)?,
            Node::Exists(plan) => {
                Value::Bool(!self.inner_rows(plan, Some(environment))?.is_empty())
            }
            Node::ArrayQuery(plan) => {
                let rows = self.inner_rows(plan, Some(environment))?;
                Value::Array(rows.iter().map(|row| row[0].clone()).collect())
            }
            Node::Array(nodes) => Value::Array(self.row(nodes, environment)?),
            Node::Row(nodes) => Value::Row(self.row(nodes, environment)?),
            Node::Subscript(array, index, first) => {
                let (array, index) = self.pair(array, index, environment)?;
                let place = match index {
                    Value::Integer(index) => usize::try_from(index - first).ok(),
                    _ => None,
                };
                place
                    .and_then(|place| array.as_array().get(place))
                    .cloned()
                    .unwrap_or(Value::Null)
            }
            Node::Field(node, place) => {
                let row = self.value(node, environment)?;
                row.as_array().get(*place).cloned().unwrap_or(Value::Null)
            }
        })
    }

    fn pair(
        &mut self,
        left: &Node,
        right: &Node,
        environment: &Environment<'_>,
    ) -> Result<(Value, Value), Failure> {
        Ok((
            self.value(left, environment)?,
            self.value(right, environment)?,
        ))
    }

    /// Computes AND (true) or OR of conditions: the first one that decides ends it.
    fn all(
        &mut self,
        nodes: &[Node],
        environment: &Environment<'_>,
        is_and: bool,
    ) -> Result<Truth, Failure> {
        let mut result = Some(is_and);
        for node in nodes {
            match truth(&self.value(node, environment)?) {
                Some(value) if value == is_and => {}
                Some(value) => return Ok(Some(value)),
                None => result = None,
            }
        }
        Ok(result)
    }

    fn matches(&mut self, how: Match, text: &Value, pattern: &Value) -> Result<Truth, Failure> {
        if text.is_null() || pattern.is_null() {
            return Ok(None);
        }
        let (text, pattern) = (text.as_text(), pattern.as_text());
        let factor = if how.is_regular { 1 } else { pattern.len() };
        self.spend((text.len() * factor + pattern.len()) / 16)?;
        self.patterns.test(how, text, pattern).map(Some)
    }

    fn quantified(
        &mut self,
        left: &Value,
        comparison: ElementTest,
        is_all: bool,
        right: &Value,
    ) -> Result<Truth, Failure> {
        if right.is_null() {
            return Ok(None);
        }
        let mut result = Some(is_all);
        self.spend(right.as_array().len())?;
        for element in right.as_array() {
            let fits = match comparison {
                ElementTest::Compare(comparison) => comparison.test(left, element),
                ElementTest::Match(how) => self.matches(how, left, element)?,
            };
            match fits {
                Some(fits) if fits == is_all => {}
                Some(fits) => return Ok(Some(fits)),
                None => result = None,
            }
        }
        Ok(result)
    }

    fn quantified_query(
        &mut self,
        left: &[Node],
        comparison: Comparison,
        is_all: bool,
        plan: &Rc<Plan>,
        environment: &Environment<'_>,
    ) -> Result<Truth, Failure> {
        let mut lefts = Vec::with_capacity(left.len());
        for node in left {
            lefts.push(self.value(node, environment)?);
        }
        let rows = self.inner_rows(plan, Some(environment))?;
        self.spend(rows.len())?;
        let mut result = Some(is_all);
        for row in rows.iter() {
            match compare_rows(&lefts, row, comparison) {
                Some(fits) if fits == is_all => {}
                Some(fits) => return Ok(Some(fits)),
                None => result = None,
            }
        }
        Ok(result)
    }

    fn extreme(
        &mut self,
        nodes: &[Node],
        is_greatest: bool,
        environment: &Environment<'_>,
    ) -> Result<Value, Failure> {
        let mut extreme = Value::Null;
        for node in nodes {
            let value = self.value(node, environment)?;
            let wins = match value.compare(&extreme) {
                Some(order) if is_greatest => order.is_gt(),
                Some(order) => order.is_lt(),
                None => extreme.is_null(),
            };
            if wins {
                extreme = value;
            }
        }
        Ok(extreme)
    }

    fn call(&mut self, call: &Call, environment: &Environment<'_>) -> Result<Value, Failure> {
        let mut arguments = Vec::with_capacity(call.arguments.len());
        for node in &call.arguments {
            let value = self.value(node, environment)?;
            if call.is_strict && value.is_null() {
                return Ok(Value::Null);
            }
            arguments.push(value);
        }
        (call.body)(self, call, &arguments)
    }

    fn scalar(&mut self, plan: &Rc<Plan>, environment: &Environment<'_>) -> Result<Value, Failure> {
        let rows = self.inner_rows(plan, Some(environment))?;
        match rows.as_slice() {
            [] => Ok(Value::Null),
            [row] => Ok(row[0].clone()),
            _ => {
                let text = "more than one row returned by a subquery used as an expression";
                Err(Report::error(SqlState::CARDINALITY_VIOLATION, text))
            }
        }
    }
}

/// Compares values with a row: equal in each, or unequal in one.
fn compare_rows(lefts: &[Value], row: &Row, comparison: Comparison) -> Truth {
    if lefts.len() == 1 {
        return comparison.test(&lefts[0], &row[0]);
    }
    let mut equal = Some(true);
    for (left, right) in lefts.iter().zip(row.iter()) {
        match Comparison::Equal.test(left, right) {
            Some(true) => {}
            Some(false) => {
                equal = Some(false);
                break;
            }
            None => equal = None,
        }
    }
    equal.map(|equal| equal == (comparison == Comparison::Equal))
}
