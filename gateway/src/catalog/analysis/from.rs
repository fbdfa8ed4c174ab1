//! FROM: what is read, in which order, and under which conditions.

use std::rc::Rc;

use crate::catalog::analysis::calls::function_node;
use crate::catalog::analysis::scope::{Clause, Item, Scope, MOST_SLOTS};
use crate::catalog::analysis::{too_complex, Analyser};
use crate::catalog::functions;
use crate::catalog::missing;
use crate::catalog::operators::Comparison;
use crate::catalog::plan::{Node, OutputColumn, Plan, Source, Step};
use crate::catalog::system;
use crate::catalog::types::oid;
use crate::sqlstate::{Failure, Report, SqlState};
use crate::statement::query::{
    Alias, Expression, ExpressionKind, FunctionCall, JoinCondition, JoinKind, Name, QualifiedName,
    Relation,
};

/// A condition with the slots of this query whose rows it reads.
pub struct Condition {
    /// What is tested.
    pub node: Node,
    /// A bit for each slot.
    pub slots: u128,
}

/// Several relations that are read one behind the other, with the conditions that hold between them.
#[derive(Default)]
pub struct Joined {
    /// The relations.
    pub steps: Vec<Step>,
    /// The conditions.
    pub conditions: Vec<Condition>,
}

impl Analyser<'_> {
    /// Reads a relation of FROM and what is joined with it.
    pub(super) fn from(
        &mut self,
        relation: &Relation,
        joined: &mut Joined,
        scope: &mut Scope<'_>,
    ) -> Result<(), Failure> {
        self.deeper(|analyser| match relation {
            Relation::Table { name, alias, .. } => {
                analyser.table(name, alias.as_ref(), joined, scope)
            }
            Relation::Subquery {
                query,
                is_lateral,
                alias,
            } => {
                let outer = if *is_lateral {
                    Some(&*scope)
                } else {
                    scope.outer
                };
                let plan = Rc::new(analyser.query(query, outer)?);
                if alias.is_none() {
                    let text = "subquery in FROM must have an alias";
                    let report = Report::error(SqlState::SYNTAX_ERROR, text);
                    return Err(report
                        .at(query.span.start)
                        .hint("For example, FROM (SELECT ...) [AS] foo."));
                }
                analyser.add_query(plan, *is_lateral, alias.as_ref(), joined, scope)
            }
            Relation::Function {
                call,
                with_ordinality,
                alias,
                ..
            } => analyser.function(call, *with_ordinality, alias.as_ref(), joined, scope),
            Relation::Join {
                kind,
                left,
                right,
                condition,
            } => analyser.join(*kind, left, right, condition, joined, scope),
        })
    }

    fn table(
        &mut self,
        name: &QualifiedName,
        alias: Option<&Alias>,
        joined: &mut Joined,
        scope: &mut Scope<'_>,
    ) -> Result<(), Failure> {
        let schema = name.schema.as_ref().map(|schema| schema.text.as_str());
        let text = name.name.text.as_str();
        if schema.is_none() {
            if let Some(named) = self.named.iter().rev().find(|named| named.name == text) {
                let plan = Rc::clone(&named.plan);
                let alias = alias.cloned().unwrap_or_else(|| Alias {
                    name: name.name.clone(),
                    columns: Vec::new(),
                });
                return self.add_query(plan, false, Some(&alias), joined, scope);
            }
        }
        let relation = system::by_name(schema, text).ok_or_else(|| {
            let is_table = self.world.tables.by_name(text).is_some();
            if is_table && matches!(schema, None | Some("public")) {
                let what = format!("a query that reads the table {} beside others", text);
                return missing(&what)
                    .hint("A query of a table of the database reads that table alone.")
                    .at(name.name.span.start);
            }
            let text = match schema {
                Some(schema) => format!("relation \"{}.{}\" does not exist", schema, text),
                None => format!("relation \"{}\" does not exist", text),
            };
            let first = name.schema.as_ref().unwrap_or(&name.name);
            Report::error(SqlState::UNDEFINED_TABLE, text).at(first.span.start)
        })?;
        if !crate::catalog::relations::is_served(relation) {
            let text = format!("{}.{}", relation.schema, relation.name);
            return Err(missing(&format!("the relation {}", text)).at(name.name.span.start));
        }
        let columns = relation
            .columns
            .iter()
            .map(|column| OutputColumn {
                name: column.name.to_owned(),
                oid: column.oid,
                modifier: column.modifier,
            })
            .collect();
        let slot = self.add_item(
            Item {
                schema: alias.is_none().then(|| relation.schema.to_owned()),
                name: text.to_owned(),
                slot: 0,
                columns,
                relation: Some(relation),
            },
            alias,
            scope,
        )?;
        joined.steps.push(step(Source::Relation { slot, relation }));
        Ok(())
    }

    fn add_query(
        &mut self,
        plan: Rc<Plan>,
        is_lateral: bool,
        alias: Option<&Alias>,
        joined: &mut Joined,
        scope: &mut Scope<'_>,
    ) -> Result<(), Failure> {
        let item = Item {
            schema: None,
            name: String::new(),
            slot: 0,
            columns: plan.columns.clone(),
            relation: None,
        };
        let slot = self.add_item(item, alias, scope)?;
        joined.steps.push(step(Source::Query {
            slot,
            plan,
            is_lateral,
        }));
        Ok(())
    }

    /// Reads a function in FROM. unnest of several arrays is several functions side by side.
    fn function(
        &mut self,
        call: &FunctionCall,
        with_ordinality: bool,
        alias: Option<&Alias>,
        joined: &mut Joined,
        scope: &mut Scope<'_>,
    ) -> Result<(), Failure> {
        let name = call.name.name.text.clone();
        let several: Vec<FunctionCall> = if name == "unnest" && call.arguments.len() > 1 {
            let one = |argument: &Expression| FunctionCall {
                arguments: vec![argument.clone()],
                ..call.clone()
            };
            call.arguments.iter().map(one).collect()
        } else {
            vec![call.clone()]
        };
        scope.clause.set(Clause::From);
        let (mut calls, mut columns) = (Vec::new(), Vec::new());
        for call in &several {
            let resolved = self.resolve(call, scope)?;
            let (is_set, result) = (resolved.procedure.returns_set, resolved.result);
            let node = function_node(resolved)?;
            let node = if is_set {
                node
            } else {
                Node::Array(vec![node])
            };
            let fields = match functions::fields(&name).filter(|_| result == oid::RECORD) {
                Some(fields) => fields.to_vec(),
                None => vec![(name.as_str(), result)],
            };
            // A function that gives one value names its column as the relation.
            let only = fields.len() == 1 && result != oid::RECORD;
            calls.push((
                node,
                if result == oid::RECORD {
                    fields.len()
                } else {
                    1
                },
            ));
            for (field, oid) in fields {
                let name = match alias {
                    Some(alias) if only => alias.name.text.clone(),
                    _ => field.to_owned(),
                };
                columns.push(OutputColumn {
                    name,
                    oid,
                    modifier: -1,
                });
            }
        }
        if with_ordinality {
            columns.push(OutputColumn {
                name: "ordinality".to_owned(),
                oid: oid::INT8,
                modifier: -1,
            });
        }
        let item = Item {
            schema: None,
            name,
            slot: 0,
            columns,
            relation: None,
        };
        let slot = self.add_item(item, alias, scope)?;
        joined.steps.push(step(Source::Functions {
            slot,
            calls,
            with_ordinality,
        }));
        Ok(())
    }

    /// Adds a relation with its names to the scope, and returns its slot.
    fn add_item(
        &mut self,
        mut item: Item,
        alias: Option<&Alias>,
        scope: &mut Scope<'_>,
    ) -> Result<usize, Failure> {
        if let Some(alias) = alias {
            item.name = alias.name.text.clone();
            item.schema = None;
            if alias.columns.len() > item.columns.len() {
                let text = format!(
                    "table \"{}\" has {} columns available but {} columns specified",
                    item.name,
                    item.columns.len(),
                    alias.columns.len()
                );
                return Err(Report::error(SqlState::INVALID_COLUMN_REFERENCE, text)
                    .at(alias.name.span.start));
            }
            for (column, name) in item.columns.iter_mut().zip(&alias.columns) {
                column.name = name.text.clone();
            }
        }
        let is_same = |other: &&Item| other.name == item.name && other.schema == item.schema;
        if scope.items.iter().any(|other| is_same(&other)) && !item.name.is_empty() {
            let text = format!("table name \"{}\" specified more than once", item.name);
            return Err(Report::error(SqlState::DUPLICATE_ALIAS, text));
        }
        let slot = scope.items.len();
        if slot >= MOST_SLOTS {
            return Err(too_complex());
        }
        item.slot = slot;
        scope
            .visible
            .extend((0..item.columns.len()).map(|place| (slot, place)));
        scope.items.push(item);
        Ok(slot)
    }

    fn join(
        &mut self,
        kind: JoinKind,
        left: &Relation,
        right: &Relation,
        condition: &JoinCondition,
        joined: &mut Joined,
        scope: &mut Scope<'_>,
    ) -> Result<(), Failure> {
        if kind == JoinKind::Full {
            return Err(missing("FULL JOIN in a query of the catalog"));
        }
        let first_item = scope.items.len();
        let first_visible = scope.visible.len();
        let (mut on_left, mut on_right) = (Joined::default(), Joined::default());
        self.from(left, &mut on_left, scope)?;
        let middle_item = scope.items.len();
        let middle_visible = scope.visible.len();
        self.from(right, &mut on_right, scope)?;
        let sides = Sides {
            first_item,
            first_visible,
            middle_item,
            middle_visible,
        };
        let conditions = self.join_conditions(condition, kind, &sides, scope)?;
        match kind {
            JoinKind::Left => {
                joined.append(on_left);
                joined.steps.push(nullable(on_right, conditions));
            }
            JoinKind::Right => {
                joined.append(on_right);
                joined.steps.push(nullable(on_left, conditions));
            }
            _ => {
                joined.append(on_left);
                joined.append(on_right);
                joined.conditions.extend(conditions);
            }
        }
        Ok(())
    }

    fn join_conditions(
        &mut self,
        condition: &JoinCondition,
        kind: JoinKind,
        sides: &Sides,
        scope: &mut Scope<'_>,
    ) -> Result<Vec<Condition>, Failure> {
        let names: Vec<Name> = match condition {
            JoinCondition::None => return Ok(Vec::new()),
            JoinCondition::On(expression) => {
                return self.on(expression, sides, scope);
            }
            JoinCondition::Using(names) => names.clone(),
            JoinCondition::Natural => sides.common_names(scope),
        };
        let mut conditions = Vec::new();
        for name in &names {
            let left = sides.column(&name.text, true, scope);
            let right = sides.column(&name.text, false, scope);
            let (left, right) = match (left, right) {
                (Some(left), Some(right)) => (left, right),
                (left, _) => {
                    let text = format!(
                        "column \"{}\" specified in USING clause does not exist in {} table",
                        name.text,
                        if left.is_none() { "left" } else { "right" }
                    );
                    return Err(Report::error(SqlState::UNDEFINED_COLUMN, text).at(name.span.start));
                }
            };
            scope.read.set(0);
            let value = |place: (usize, usize)| {
                let column = &scope.items[place.0].columns[place.1];
                scope.read.set(scope.read.get() | 1 << place.0);
                super::Typed::new(
                    Node::Column {
                        up: 0,
                        slot: place.0,
                        place: place.1,
                    },
                    column.oid,
                )
            };
            let typed = self.operator(value(left), "=", value(right), name.span)?;
            conditions.push(Condition {
                node: typed.node,
                slots: scope.read.get(),
            });
            let hidden = if kind == JoinKind::Right { left } else { right };
            scope.visible.retain(|&place| place != hidden);
        }
        sides.merge(&names, scope);
        Ok(conditions)
    }

    /// Reads ON, where only the relations of the join are known.
    fn on(
        &mut self,
        expression: &Expression,
        sides: &Sides,
        scope: &mut Scope<'_>,
    ) -> Result<Vec<Condition>, Failure> {
        let before: Vec<(usize, usize)> = scope.visible.drain(..sides.first_visible).collect();
        scope.clause.set(Clause::From);
        let conditions = self.conditions(expression, "JOIN/ON", scope);
        scope.visible.splice(0..0, before);
        conditions
    }

    /// Reads a condition, cut at each AND.
    pub(super) fn conditions(
        &mut self,
        expression: &Expression,
        what: &str,
        scope: &Scope<'_>,
    ) -> Result<Vec<Condition>, Failure> {
        let mut conditions = Vec::new();
        for part in conjuncts(expression) {
            scope.read.set(0);
            let node = self.condition(part, what, scope)?;
            conditions.push(Condition {
                node,
                slots: scope.read.get(),
            });
        }
        Ok(conditions)
    }
}

/// Where the two sides of a join are in the scope.
struct Sides {
    first_item: usize,
    first_visible: usize,
    middle_item: usize,
    middle_visible: usize,
}

impl Sides {
    /// Returns the column of this name on one side. None: there is none, or several.
    fn column(&self, name: &str, is_left: bool, scope: &Scope<'_>) -> Option<(usize, usize)> {
        let is_here = |item: usize| item >= self.first_item && (item < self.middle_item) == is_left;
        let mut found = scope.visible.iter().copied().filter(|&(item, place)| {
            is_here(item) && scope.items[item].columns[place].name == name
        });
        match (found.next(), found.next()) {
            (Some(place), None) => Some(place),
            _ => None,
        }
    }

    /// Returns the names that both sides have, in the order of the left one.
    fn common_names(&self, scope: &Scope<'_>) -> Vec<Name> {
        scope.visible[self.first_visible..self.middle_visible]
            .iter()
            .map(|&(item, place)| scope.items[item].columns[place].name.clone())
            .filter(|name| self.column(name, false, scope).is_some())
            .map(|text| Name {
                text,
                span: Default::default(),
            })
            .collect()
    }

    /// Moves the columns that both sides share to the front.
    fn merge(&self, names: &[Name], scope: &mut Scope<'_>) {
        let mut columns = scope.visible.split_off(self.first_visible);
        let mut merged = Vec::new();
        for name in names {
            let is_it = |&(item, place): &(usize, usize)| {
                scope.items[item].columns[place].name == name.text
            };
            if let Some(at) = columns.iter().position(is_it) {
                merged.push(columns.remove(at));
            }
        }
        scope.visible.append(&mut merged);
        scope.visible.append(&mut columns);
    }
}

impl Joined {
    fn append(&mut self, mut other: Joined) {
        self.steps.append(&mut other.steps);
        self.conditions.append(&mut other.conditions);
    }
}

/// Makes the step of a source without conditions.
pub fn step(source: Source) -> Step {
    Step {
        source,
        is_outer: false,
        on: Vec::new(),
        lookup: None,
        filters: Vec::new(),
    }
}

/// Makes the step of what is NULL where nothing fits.
fn nullable(mut joined: Joined, conditions: Vec<Condition>) -> Step {
    let mut step = if joined.steps.len() == 1 && !joined.steps[0].is_outer {
        // Conditions of the one relation by itself are conditions of the join.
        let step = joined.steps.remove(0);
        let own = joined
            .conditions
            .drain(..)
            .map(|condition| condition.node)
            .collect();
        Step { on: own, ..step }
    } else {
        step(Source::Joined(placed_conditions(joined)))
    };
    step.is_outer = true;
    step.on
        .extend(conditions.into_iter().map(|condition| condition.node));
    step.lookup = lookup(&step.source, &mut step.on);
    step
}

/// Returns the slots that a step fills, a bit for each.
pub fn slots_of(step: &Step) -> u128 {
    match &step.source {
        Source::Relation { slot, .. }
        | Source::Query { slot, .. }
        | Source::Functions { slot, .. } => 1 << slot,
        Source::Joined(steps) => steps.iter().map(slots_of).fold(0, |all, slots| all | slots),
    }
}

/// Puts the steps into an order in which few rows are read, and each condition behind the first step at which all that it
/// reads is known.
pub fn placed_conditions(joined: Joined) -> Vec<Step> {
    let mut left: Vec<Option<Step>> = joined.steps.into_iter().map(Some).collect();
    let here = left
        .iter()
        .flatten()
        .map(slots_of)
        .fold(0, |all, slots| all | slots);
    let mut waiting = joined.conditions;
    let mut known = !here;
    let mut steps = Vec::with_capacity(left.len());
    while let Some(place) = next_step(&left, &waiting, known) {
        let mut step = match left[place].take() {
            Some(step) => step,
            None => break,
        };
        known |= slots_of(&step);
        let (ready, later): (Vec<Condition>, Vec<Condition>) = waiting
            .into_iter()
            .partition(|condition| condition.slots & !known == 0);
        waiting = later;
        step.filters
            .extend(ready.into_iter().map(|condition| condition.node));
        if !step.is_outer {
            step.lookup = lookup(&step.source, &mut step.filters);
        }
        steps.push(step);
    }
    steps
}

/// Returns the place of the step that is best read next: one whose rows are found by a value that is known, else one
/// with a condition of its own, else the first one.
fn next_step(left: &[Option<Step>], waiting: &[Condition], known: u128) -> Option<usize> {
    let first = left.iter().position(Option::is_some)?;
    let may_be_next = |place: usize, step: &Step| {
        // What may read the rows in front of it, or is joined with them, comes behind them.
        place == first || (!step.is_outer && matches!(step.source, Source::Relation { .. }))
    };
    let rank = |step: &Step| {
        let own = slots_of(step);
        let own_slot = own.trailing_zeros() as usize;
        let ready: Vec<&Condition> = waiting
            .iter()
            .filter(|condition| condition.slots & !(known | own) == 0 && condition.slots & own != 0)
            .collect();
        let is_lookup = |condition: &&Condition| match &condition.node {
            Node::Compare(Comparison::Equal, one, other) => {
                [(one, other), (other, one)].iter().any(|(column, value)| {
                    matches!(&***column, Node::Column { up: 0, slot, .. } if *slot == own_slot)
                        && is_known(value, own_slot)
                })
            }
            _ => false,
        };
        match step.source {
            Source::Relation { .. } if ready.iter().any(is_lookup) => 0,
            Source::Relation { .. } if ready.is_empty() => 2,
            _ => 1,
        }
    };
    left.iter()
        .enumerate()
        .filter_map(|(place, step)| step.as_ref().map(|step| (place, step)))
        .filter(|(place, step)| may_be_next(*place, step))
        .min_by_key(|(place, step)| (rank(step), *place))
        .map(|(place, _)| place)
}

/// Takes a condition `column = value` out, if the column is one of this relation and the value is known before.
fn lookup(source: &Source, conditions: &mut Vec<Node>) -> Option<(usize, Node)> {
    let own = match source {
        Source::Relation { slot, .. } => *slot,
        _ => return None,
    };
    let column = |node: &Node| match node {
        Node::Column { up: 0, slot, place } if *slot == own => Some(*place),
        _ => None,
    };
    let found = conditions
        .iter()
        .enumerate()
        .find_map(|(at, condition)| match condition {
            Node::Compare(Comparison::Equal, left, right) => {
                if let Some(place) = column(left).filter(|_| is_known(right, own)) {
                    Some((at, place, false))
                } else {
                    column(right)
                        .filter(|_| is_known(left, own))
                        .map(|place| (at, place, true))
                }
            }
            _ => None,
        });
    let (at, place, is_right) = found?;
    match conditions.remove(at) {
        Node::Compare(_, left, right) => Some((place, if is_right { *left } else { *right })),
        _ => None,
    }
}

/// Returns whether a value needs no row of this slot: a constant, a parameter or a column of another one.
fn is_known(node: &Node, own: usize) -> bool {
    match node {
        Node::Constant(_) | Node::Parameter(_) => true,
        Node::Column { up, slot, .. } => *up > 0 || *slot != own,
        Node::Cast { value, .. } => is_known(value, own),
        _ => false,
    }
}

/// Cuts a condition at each AND outside of parentheses that matter.
fn conjuncts(expression: &Expression) -> Vec<&Expression> {
    let (mut open, mut parts) = (vec![expression], Vec::new());
    while let Some(next) = open.pop() {
        match &next.kind {
            ExpressionKind::Binary(left, operator, right) if operator == "AND" => {
                open.push(right);
                open.push(left);
            }
            _ => parts.push(next),
        }
    }
    parts
}
