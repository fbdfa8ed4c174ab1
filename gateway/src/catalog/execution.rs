//! The rows of a plan.

mod grouping;
mod values;

use std::cell::RefCell;
use std::cmp::Ordering;
use std::collections::{HashMap, HashSet};
use std::rc::Rc;

use postgres_protocol::Oid;

use crate::catalog::operators::Patterns;
use crate::catalog::plan::{
    Body, Distinct, Node, Plan, Select, SetOperation, SortKey, Source, Step,
};
use crate::catalog::relations;
use crate::catalog::system::Relation;
use crate::catalog::value::{Key, Value};
use crate::catalog::{Session, World};
use crate::sqlstate::{Failure, Report, SqlState};

/// A row. One without values is NULL in each column.
pub type Row = Rc<[Value]>;

/// How many rows and values a query may look at.
pub const MOST_STEPS: usize = 500_000;

/// How many bytes the rows and texts that a query makes may take.
const MOST_BYTES: usize = 16 * 1024 * 1024;

/// The rows of a relation, with what finds them by a column.
pub struct Stored {
    rows: Vec<Row>,
    indexes: RefCell<HashMap<usize, Rc<Index>>>,
}

/// The places of rows by the value of a column.
type Index = HashMap<Key, Vec<usize>>;

impl Stored {
    /// Takes the rows of a relation.
    pub fn new(rows: Vec<Row>) -> Stored {
        Stored {
            rows,
            indexes: RefCell::new(HashMap::new()),
        }
    }

    fn index(&self, column: usize) -> Rc<Index> {
        let mut indexes = self.indexes.borrow_mut();
        let index = indexes.entry(column).or_insert_with(|| {
            let mut index = Index::new();
            for (place, row) in self.rows.iter().enumerate() {
                index.entry(row[column].key()).or_default().push(place);
            }
            Rc::new(index)
        });
        Rc::clone(index)
    }
}

/// The rows that a value is computed from, and those of the queries around it.
#[derive(Clone, Copy)]
pub struct Environment<'e> {
    rows: &'e [Row],
    outer: Option<&'e Environment<'e>>,
}

impl<'e> Environment<'e> {
    fn column(&self, up: usize, slot: usize, place: usize) -> Value {
        let mut environment = self;
        for _ in 0..up {
            environment = match environment.outer {
                Some(outer) => outer,
                None => return Value::Null,
            };
        }
        let row = environment.rows.get(slot);
        row.and_then(|row| row.get(place))
            .cloned()
            .unwrap_or(Value::Null)
    }
}

/// What is done with each combination of rows.
type Then<'t, 's> = &'t mut dyn FnMut(&mut Executor<'s>, &mut Vec<Row>) -> Result<(), Failure>;

/// What computes the rows of a plan, within bounds.
pub struct Executor<'s> {
    /// The tables and names.
    pub world: &'s World,
    /// The session whose query this is.
    pub session: &'s mut dyn Session,
    parameters: &'s [Value],
    patterns: Patterns,
    stored: HashMap<Oid, Rc<Stored>>,
    closed: HashMap<*const Plan, Rc<Vec<Row>>>,
    steps: usize,
    bytes: usize,
}

impl<'s> Executor<'s> {
    /// Begins, with the values of the parameters.
    pub fn new(
        world: &'s World,
        session: &'s mut dyn Session,
        parameters: &'s [Value],
    ) -> Executor<'s> {
        Executor {
            world,
            session,
            parameters,
            patterns: Patterns::default(),
            stored: HashMap::new(),
            closed: HashMap::new(),
            steps: MOST_STEPS,
            bytes: MOST_BYTES,
        }
    }

    /// Counts what is looked at.
    pub fn spend(&mut self, steps: usize) -> Result<(), Failure> {
        self.steps = self.steps.checked_sub(steps).ok_or_else(|| {
            let text = "the query of the catalog looks at too many rows";
            Report::error(SqlState::STATEMENT_TOO_COMPLEX, text)
        })?;
        Ok(())
    }

    /// Counts what is kept.
    pub fn keep(&mut self, bytes: usize) -> Result<(), Failure> {
        self.bytes = self.bytes.checked_sub(bytes).ok_or_else(|| {
            let text = "the query of the catalog takes too much memory";
            Report::error(SqlState::OUT_OF_MEMORY, text)
        })?;
        Ok(())
    }

    /// Makes a text, and counts it.
    pub fn new_text(&mut self, text: impl AsRef<str>) -> Result<Value, Failure> {
        let text = text.as_ref();
        self.spend(text.len() / 64)?;
        self.keep(text.len())?;
        Ok(Value::text(text))
    }

    /// Returns what was counted.
    pub fn spent(&self) -> usize {
        MOST_STEPS - self.steps
    }

    /// Computes the rows of a plan.
    ///
    /// # Errors
    ///
    /// Fails if a value can't be computed, and past the bounds.
    pub fn rows(
        &mut self,
        plan: &Plan,
        outer: Option<&Environment<'_>>,
    ) -> Result<Vec<Row>, Failure> {
        let mut rows = self.body(&plan.body, outer)?;
        if !plan.order.is_empty() {
            self.spend(rows.len() * plan.order.len())?;
            rows.sort_by(|left, right| order(left, right, &plan.order));
        }
        if let Body::Select(select) = &plan.body {
            if let Distinct::On(places) = &select.distinct {
                let mut seen = HashSet::new();
                rows.retain(|row| seen.insert(keys(row, places.iter().copied())));
            }
        }
        let offset = self.row_count(
            plan.offset.as_ref(),
            SqlState::INVALID_ROW_COUNT_IN_OFFSET,
            outer,
        )?;
        if let Some(offset) = offset {
            rows.drain(..offset.min(rows.len()));
        }
        let limit = self.row_count(
            plan.limit.as_ref(),
            SqlState::INVALID_ROW_COUNT_IN_LIMIT,
            outer,
        )?;
        if let Some(limit) = limit {
            rows.truncate(limit);
        }
        let width = plan.columns.len();
        if rows.first().map_or(false, |row| row.len() > width) {
            for row in &mut rows {
                *row = row[..width].into();
            }
        }
        Ok(rows)
    }

    fn row_count(
        &mut self,
        count: Option<&Node>,
        state: SqlState,
        outer: Option<&Environment<'_>>,
    ) -> Result<Option<usize>, Failure> {
        let count = match count {
            Some(count) => count,
            None => return Ok(None),
        };
        let environment = Environment { rows: &[], outer };
        match self.value(count, &environment)? {
            Value::Integer(count) if count < 0 => {
                let what = if state == SqlState::INVALID_ROW_COUNT_IN_LIMIT {
                    "LIMIT"
                } else {
                    "OFFSET"
                };
                Err(Report::error(
                    state,
                    format!("{} must not be negative", what),
                ))
            }
            Value::Integer(count) => Ok(Some(usize::try_from(count).unwrap_or(usize::MAX))),
            _ => Ok(None),
        }
    }

    /// Computes the rows of a plan inside of another one, once if they are always the same.
    fn inner_rows(
        &mut self,
        plan: &Rc<Plan>,
        outer: Option<&Environment<'_>>,
    ) -> Result<Rc<Vec<Row>>, Failure> {
        let key = Rc::as_ptr(plan);
        if let Some(rows) = self.closed.get(&key) {
            return Ok(Rc::clone(rows));
        }
        let rows = Rc::new(self.rows(plan, outer)?);
        if plan.is_closed {
            self.closed.insert(key, Rc::clone(&rows));
        }
        Ok(rows)
    }

    fn body(&mut self, body: &Body, outer: Option<&Environment<'_>>) -> Result<Vec<Row>, Failure> {
        match body {
            Body::Select(select) => self.select(select, outer),
            Body::Values(rows) => {
                let environment = Environment { rows: &[], outer };
                rows.iter().map(|row| self.row(row, &environment)).collect()
            }
            Body::Set {
                left,
                right,
                operation,
                is_all,
            } => {
                let left = self.body(left, outer)?;
                let right = self.body(right, outer)?;
                self.spend(left.len() + right.len())?;
                Ok(combine(left, right, *operation, *is_all))
            }
        }
    }

    fn row(&mut self, nodes: &[Node], environment: &Environment<'_>) -> Result<Row, Failure> {
        self.keep(48 + 32 * nodes.len())?;
        nodes
            .iter()
            .map(|node| self.value(node, environment))
            .collect()
    }

    fn select(
        &mut self,
        select: &Select,
        outer: Option<&Environment<'_>>,
    ) -> Result<Vec<Row>, Failure> {
        let mut slots: Vec<Row> = vec![Vec::new().into(); select.slots];
        let mut rows = Vec::new();
        if !self.holds(&select.guards, &slots, outer)? {
            // Aggregates have a row where nothing is read.
            if select.grouping.is_none() {
                return Ok(rows);
            }
            self.grouped(select, &mut slots, outer, &mut rows, true)?;
        } else if select.grouping.is_some() {
            self.grouped(select, &mut slots, outer, &mut rows, false)?;
        } else if !select.windows.is_empty() {
            let mut kept = Vec::new();
            self.scan(&select.steps, &mut slots, outer, &mut |executor, slots| {
                executor.keep(32 + 16 * slots.len())?;
                kept.push(slots.clone());
                Ok(())
            })?;
            self.numbered(select, kept, outer, &mut rows)?;
        } else {
            self.scan(&select.steps, &mut slots, outer, &mut |executor, slots| {
                executor.project(select, slots, outer, &mut rows)
            })?;
        }
        if let Distinct::All = select.distinct {
            self.spend(rows.len())?;
            let mut seen = HashSet::new();
            rows.retain(|row| seen.insert(keys(row, 0..select.visible)));
        }
        Ok(rows)
    }

    /// Makes rows of the result of a combination of rows: several if functions give several.
    fn project(
        &mut self,
        select: &Select,
        slots: &mut [Row],
        outer: Option<&Environment<'_>>,
        rows: &mut Vec<Row>,
    ) -> Result<(), Failure> {
        if select.sets.is_empty() {
            let row = self.row(&select.targets, &Environment { rows: slots, outer })?;
            rows.push(row);
            return Ok(());
        }
        let mut sets = Vec::with_capacity(select.sets.len());
        for set in &select.sets {
            sets.push(self.value(set, &Environment { rows: slots, outer })?);
        }
        let most = sets
            .iter()
            .map(|set| set.as_array().len())
            .max()
            .unwrap_or(0);
        let slot = slots.len() - 1;
        for place in 0..most {
            slots[slot] = sets
                .iter()
                .map(|set| set.as_array().get(place).cloned().unwrap_or(Value::Null))
                .collect();
            let row = self.row(&select.targets, &Environment { rows: slots, outer })?;
            rows.push(row);
        }
        Ok(())
    }

    /// Returns whether all conditions are true.
    fn holds(
        &mut self,
        conditions: &[Node],
        slots: &[Row],
        outer: Option<&Environment<'_>>,
    ) -> Result<bool, Failure> {
        let environment = Environment { rows: slots, outer };
        for condition in conditions {
            if !self.value(condition, &environment)?.is_true() {
                return Ok(false);
            }
        }
        Ok(true)
    }

    /// Calls `then` for each combination of rows that fits.
    fn scan(
        &mut self,
        steps: &[Step],
        slots: &mut Vec<Row>,
        outer: Option<&Environment<'_>>,
        then: Then<'_, 's>,
    ) -> Result<(), Failure> {
        let (step, rest) = match steps.split_first() {
            Some(split) => split,
            None => return then(self, slots),
        };
        let mut fits = false;
        match &step.source {
            Source::Joined(inner) => {
                self.scan(inner, slots, outer, &mut |executor, slots| {
                    if executor.holds(&step.on, slots, outer)? {
                        fits = true;
                        executor.further(step, rest, slots, outer, then)?;
                    }
                    Ok(())
                })?;
            }
            Source::Relation { slot, relation } => {
                let stored = self.relation(relation)?;
                let places = match &step.lookup {
                    Some((column, node)) => {
                        let key = self.value(node, &Environment { rows: slots, outer })?;
                        let index = stored.index(*column);
                        if key.is_null() {
                            Some(Vec::new())
                        } else {
                            Some(index.get(&key.key()).cloned().unwrap_or_default())
                        }
                    }
                    None => None,
                };
                let all = 0..stored.rows.len();
                let places: Box<dyn Iterator<Item = usize>> = match places {
                    Some(places) => Box::new(places.into_iter()),
                    None => Box::new(all),
                };
                for place in places {
                    slots[*slot] = Rc::clone(&stored.rows[place]);
                    fits |= self.tested(step, rest, slots, outer, then)?;
                }
            }
            Source::Query {
                slot,
                plan,
                is_lateral,
            } => {
                let rows = if *is_lateral {
                    let environment = Environment { rows: slots, outer };
                    self.inner_rows(plan, Some(&environment))?
                } else {
                    self.inner_rows(plan, outer)?
                };
                for row in rows.iter() {
                    slots[*slot] = Rc::clone(row);
                    fits |= self.tested(step, rest, slots, outer, then)?;
                }
            }
            Source::Functions {
                slot,
                calls,
                with_ordinality,
            } => {
                for row in self.function_rows(calls, *with_ordinality, slots, outer)? {
                    slots[*slot] = row;
                    fits |= self.tested(step, rest, slots, outer, then)?;
                }
            }
        }
        if step.is_outer && !fits {
            clear(&step.source, slots);
            self.further(step, rest, slots, outer, then)?;
        }
        Ok(())
    }

    /// Goes on with a row if the conditions of its join hold, and returns whether they do.
    fn tested(
        &mut self,
        step: &Step,
        rest: &[Step],
        slots: &mut Vec<Row>,
        outer: Option<&Environment<'_>>,
        then: Then<'_, 's>,
    ) -> Result<bool, Failure> {
        self.spend(1)?;
        let fits = self.holds(&step.on, slots, outer)?;
        if fits {
            self.further(step, rest, slots, outer, then)?;
        }
        Ok(fits)
    }

    fn further(
        &mut self,
        step: &Step,
        rest: &[Step],
        slots: &mut Vec<Row>,
        outer: Option<&Environment<'_>>,
        then: Then<'_, 's>,
    ) -> Result<(), Failure> {
        if self.holds(&step.filters, slots, outer)? {
            self.scan(rest, slots, outer, then)?;
        }
        Ok(())
    }

    fn relation(&mut self, relation: &'static Relation) -> Result<Rc<Stored>, Failure> {
        if let Some(stored) = self.stored.get(&relation.oid) {
            return Ok(Rc::clone(stored));
        }
        let stored = relations::stored(relation, self.world, self.session)?;
        self.spend(stored.rows.len())?;
        self.stored.insert(relation.oid, Rc::clone(&stored));
        Ok(stored)
    }

    /// Returns the rows of functions side by side; the shorter ones have NULL at their end.
    fn function_rows(
        &mut self,
        calls: &[(Node, usize)],
        with_ordinality: bool,
        slots: &[Row],
        outer: Option<&Environment<'_>>,
    ) -> Result<Vec<Row>, Failure> {
        let mut sets = Vec::with_capacity(calls.len());
        for (call, width) in calls {
            sets.push((
                self.value(call, &Environment { rows: slots, outer })?,
                *width,
            ));
        }
        let most = sets
            .iter()
            .map(|(set, _)| set.as_array().len())
            .max()
            .unwrap_or(0);
        self.keep(most * (48 + 32 * sets.len()))?;
        let row = |place: usize| {
            let mut row = Vec::new();
            for (set, width) in &sets {
                match set.as_array().get(place) {
                    Some(Value::Row(fields)) => row.extend(fields.iter().cloned()),
                    Some(value) => row.push(value.clone()),
                    None => row.extend(std::iter::repeat(Value::Null).take(*width)),
                }
            }
            if with_ordinality {
                row.push(Value::Integer(place as i64 + 1));
            }
            Row::from(row)
        };
        Ok((0..most).map(row).collect())
    }
}

/// Makes the slots of a source NULL.
fn clear(source: &Source, slots: &mut [Row]) {
    match source {
        Source::Joined(steps) => steps.iter().for_each(|step| clear(&step.source, slots)),
        Source::Relation { slot, .. }
        | Source::Query { slot, .. }
        | Source::Functions { slot, .. } => {
            slots[*slot] = Vec::new().into();
        }
    }
}

fn keys(row: &Row, places: impl Iterator<Item = usize>) -> Vec<Key> {
    places.map(|place| row[place].key()).collect()
}

/// Compares two values for a sort.
fn order_of_values(left: &Value, right: &Value, key: &SortKey) -> Ordering {
    match (left.is_null(), right.is_null()) {
        (true, true) => Ordering::Equal,
        (true, false) if key.nulls_first => Ordering::Less,
        (true, false) => Ordering::Greater,
        (false, true) if key.nulls_first => Ordering::Greater,
        (false, true) => Ordering::Less,
        _ if key.is_descending => right.order(left),
        _ => left.order(right),
    }
}

fn order(left: &Row, right: &Row, sort: &[SortKey]) -> Ordering {
    sort.iter()
        .map(|key| order_of_values(&left[key.place], &right[key.place], key))
        .find(|order| *order != Ordering::Equal)
        .unwrap_or(Ordering::Equal)
}

/// Combines the rows of two queries.
fn combine(left: Vec<Row>, right: Vec<Row>, operation: SetOperation, is_all: bool) -> Vec<Row> {
    let key = |row: &Row| keys(row, 0..row.len());
    let mut rows = match operation {
        SetOperation::Union => {
            let mut rows = left;
            rows.extend(right);
            rows
        }
        SetOperation::Intersect | SetOperation::Except => {
            let mut counts: HashMap<Vec<Key>, usize> = HashMap::new();
            for row in &right {
                *counts.entry(key(row)).or_default() += 1;
            }
            let wants = operation == SetOperation::Intersect;
            let mut is_kept = |row: &Row| match counts.get_mut(&key(row)) {
                Some(count) if is_all && *count > 0 => {
                    *count -= 1;
                    wants
                }
                Some(_) if is_all => !wants,
                Some(_) => wants,
                None => !wants,
            };
            left.into_iter().filter(|row| is_kept(row)).collect()
        }
    };
    if !is_all {
        let mut seen = HashSet::new();
        rows.retain(|row| seen.insert(key(row)));
    }
    rows
}
