//! GROUP BY, aggregates and row_number().

use std::collections::{HashMap, HashSet};
use std::rc::Rc;

use crate::catalog::execution::{order_of_values, Environment, Executor, Row};
use crate::catalog::missing;
use crate::catalog::operators::{in_range, out_of_range};
use crate::catalog::plan::{Aggregate, AggregateKind, Select};
use crate::catalog::types::oid;
use crate::catalog::value::{Key, Value};
use crate::decimal::Decimal;
use crate::sqlstate::{Failure, Report, SqlState};

/// The rows of a group so far.
struct Group {
    /// The first combination of its rows.
    slots: Vec<Row>,
    /// What each aggregate has seen.
    seen: Vec<Vec<Seen>>,
    /// How many combinations there were.
    count: i64,
}

/// A value that an aggregate has seen: its arguments, and what it is sorted by.
struct Seen {
    arguments: Vec<Value>,
    order: Vec<Value>,
}

impl Executor<'_> {
    /// Computes the rows of a query with groups.
    pub(super) fn grouped(
        &mut self,
        select: &Select,
        slots: &mut Vec<Row>,
        outer: Option<&Environment<'_>>,
        rows: &mut Vec<Row>,
        is_empty: bool,
    ) -> Result<(), Failure> {
        let grouping = match &select.grouping {
            Some(grouping) => grouping,
            None => return Ok(()),
        };
        let mut places: HashMap<Vec<Key>, usize> = HashMap::new();
        let mut groups: Vec<Group> = Vec::new();
        let new_group = |slots: &[Row]| Group {
            slots: slots.to_vec(),
            seen: grouping.aggregates.iter().map(|_| Vec::new()).collect(),
            count: 0,
        };
        if grouping.keys.is_empty() {
            groups.push(new_group(slots));
            places.insert(Vec::new(), 0);
        }
        if !is_empty {
            self.scan(&select.steps, slots, outer, &mut |executor, slots| {
                let environment = Environment { rows: slots, outer };
                let mut key = Vec::with_capacity(grouping.keys.len());
                for node in &grouping.keys {
                    key.push(executor.value(node, &environment)?.key());
                }
                let place = match places.get(&key) {
                    Some(&place) => place,
                    None => {
                        executor.keep(128 + 32 * (slots.len() + key.len()))?;
                        places.insert(key, groups.len());
                        groups.push(new_group(slots));
                        groups.len() - 1
                    }
                };
                let group = &mut groups[place];
                group.count += 1;
                for (aggregate, seen) in grouping.aggregates.iter().zip(&mut group.seen) {
                    executor.see(aggregate, seen, &environment)?;
                }
                Ok(())
            })?;
        }
        let mut kept = Vec::new();
        for group in groups {
            let mut slots = group.slots;
            let mut results = Vec::with_capacity(grouping.aggregates.len());
            for (aggregate, seen) in grouping.aggregates.iter().zip(group.seen) {
                results.push(self.result(aggregate, seen, group.count)?);
            }
            slots[grouping.slot] = Row::from(results);
            if self.holds(grouping.having.as_slice_of_nodes(), &slots, outer)? {
                kept.push(slots);
            }
        }
        self.numbered(select, kept, outer, rows)
    }

    /// Shows an aggregate the rows of one combination.
    fn see(
        &mut self,
        aggregate: &Aggregate,
        seen: &mut Vec<Seen>,
        environment: &Environment<'_>,
    ) -> Result<(), Failure> {
        if aggregate.kind == AggregateKind::CountRows {
            return Ok(());
        }
        let mut arguments = Vec::with_capacity(aggregate.arguments.len());
        for node in &aggregate.arguments {
            arguments.push(self.value(node, environment)?);
        }
        if arguments[0].is_null() && aggregate.kind != AggregateKind::Array {
            return Ok(());
        }
        let mut order = Vec::with_capacity(aggregate.order.len());
        for (node, _) in &aggregate.order {
            order.push(self.value(node, environment)?);
        }
        self.keep(64 + 32 * (arguments.len() + order.len()))?;
        seen.push(Seen { arguments, order });
        Ok(())
    }

    /// Computes an aggregate of what it has seen.
    fn result(
        &mut self,
        aggregate: &Aggregate,
        mut seen: Vec<Seen>,
        count: i64,
    ) -> Result<Value, Failure> {
        self.spend(seen.len())?;
        if aggregate.is_distinct {
            let mut keys = HashSet::new();
            if aggregate.order.is_empty() {
                seen.sort_by(|left, right| left.arguments[0].order(&right.arguments[0]));
            }
            seen.retain(|one| {
                keys.insert(one.arguments.iter().map(Value::key).collect::<Vec<Key>>())
            });
        }
        if !aggregate.order.is_empty() {
            seen.sort_by(|left, right| {
                let keys = aggregate.order.iter().map(|(_, key)| key);
                left.order
                    .iter()
                    .zip(&right.order)
                    .zip(keys)
                    .map(|((left, right), key)| order_of_values(left, right, key))
                    .find(|order| order.is_ne())
                    .unwrap_or(std::cmp::Ordering::Equal)
            });
        }
        let mut values = seen.iter().map(|one| &one.arguments[0]);
        Ok(match aggregate.kind {
            AggregateKind::CountRows => Value::Integer(count),
            AggregateKind::Count => Value::Integer(seen.len() as i64),
            AggregateKind::Least => values
                .min_by(|left, right| left.order(right))
                .cloned()
                .into(),
            AggregateKind::Greatest => values
                .max_by(|left, right| left.order(right))
                .cloned()
                .into(),
            AggregateKind::And if seen.is_empty() => Value::Null,
            AggregateKind::And => Value::Bool(values.all(Value::is_true)),
            AggregateKind::Or if seen.is_empty() => Value::Null,
            AggregateKind::Or => Value::Bool(values.any(Value::is_true)),
            AggregateKind::Sum | AggregateKind::SumDecimal if seen.is_empty() => Value::Null,
            AggregateKind::Sum => {
                let sum: i128 = values.map(|value| i128::from(value.as_integer())).sum();
                match i64::try_from(sum) {
                    Ok(sum) if in_range(sum, oid::INT8) => Value::Integer(sum),
                    _ => return Err(out_of_range(oid::INT8)),
                }
            }
            AggregateKind::SumDecimal => {
                let sum = values.try_fold(Decimal::from(0), |sum, value| match value {
                    Value::Decimal(number) => sum.plus(*number),
                    _ => None,
                });
                sum.map(Value::Decimal)
                    .ok_or_else(|| missing("a numeric of more than 38 digits"))?
            }
            AggregateKind::Array if seen.is_empty() => Value::Null,
            AggregateKind::Array => Value::Array(values.cloned().collect()),
            AggregateKind::Text if seen.is_empty() => Value::Null,
            AggregateKind::Text => {
                let mut text = String::new();
                for (place, one) in seen.iter().enumerate() {
                    if place > 0 {
                        text.push_str(one.arguments[1].as_text());
                    }
                    text.push_str(one.arguments[0].as_text());
                    if text.len() > MOST_TEXT {
                        return Err(Report::error(
                            SqlState::OUT_OF_MEMORY,
                            "string_agg is too long",
                        ));
                    }
                }
                self.new_text(text)?
            }
        })
    }

    /// Numbers combinations of rows by each window, and makes rows of the result of them.
    pub(super) fn numbered(
        &mut self,
        select: &Select,
        mut kept: Vec<Vec<Row>>,
        outer: Option<&Environment<'_>>,
        rows: &mut Vec<Row>,
    ) -> Result<(), Failure> {
        let mut numbers: Vec<Vec<Value>> = vec![Vec::new(); kept.len()];
        for window in &select.windows {
            let mut sorted = Vec::with_capacity(kept.len());
            for (place, slots) in kept.iter().enumerate() {
                let environment = Environment { rows: slots, outer };
                let (mut partition, mut order) = (Vec::new(), Vec::new());
                for node in &window.partition {
                    partition.push(self.value(node, &environment)?);
                }
                for (node, _) in &window.order {
                    order.push(self.value(node, &environment)?);
                }
                self.keep(64 + 32 * (partition.len() + order.len()))?;
                sorted.push((partition, order, place));
            }
            let compare = |left: &[Value], right: &[Value]| {
                let mut orders = left
                    .iter()
                    .zip(right)
                    .map(|(left, right)| left.order(right));
                orders
                    .find(|order| order.is_ne())
                    .unwrap_or(std::cmp::Ordering::Equal)
            };
            sorted.sort_by(|left, right| {
                let mut orders = left.1.iter().zip(&right.1).zip(&window.order);
                compare(&left.0, &right.0).then_with(|| {
                    orders
                        .find_map(|((left, right), (_, key))| {
                            Some(order_of_values(left, right, key)).filter(|order| order.is_ne())
                        })
                        .unwrap_or(std::cmp::Ordering::Equal)
                })
            });
            let mut before: Option<&[Value]> = None;
            let mut number = 0;
            for (partition, _, place) in &sorted {
                let is_new = before.map_or(true, |before| compare(before, partition).is_ne());
                number = if is_new { 1 } else { number + 1 };
                before = Some(partition);
                numbers[*place].push(Value::Integer(number));
            }
        }
        for (slots, numbers) in kept.iter_mut().zip(numbers) {
            if !select.windows.is_empty() {
                let slot = slots.len() - 2;
                slots[slot] = Rc::from(numbers);
            }
            self.project(select, slots, outer, rows)?;
        }
        Ok(())
    }
}

/// The most bytes of a text that string_agg makes.
const MOST_TEXT: usize = 4 * 1024 * 1024;

trait AsSliceOfNodes {
    fn as_slice_of_nodes(&self) -> &[crate::catalog::plan::Node];
}

impl AsSliceOfNodes for Option<crate::catalog::plan::Node> {
    fn as_slice_of_nodes(&self) -> &[crate::catalog::plan::Node] {
        self.as_ref().map_or(&[], std::slice::from_ref)
    }
}
