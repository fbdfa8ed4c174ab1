//! UPDATEs that add to or subtract from reservable columns of a row, by its key.
//!
//! What is not understood here passes on to PostgreSQL, whose triggers refuse it if it touches a reservable column. So
//! each function returns nothing in doubt.

use std::sync::Arc;

use escrowd_pg::decimal::Decimal;
use escrowd_pg::statement as gateway;
use escrowd_pg::statement::constant::Datum;
use escrowd_pg::statement::parser::{next_statement, parse_updates};
use escrowd_pg::statement::query::{
    ColumnName, Expression, ExpressionKind, FoundUpdate, Name, Place, QualifiedName, Span, Target,
};

use escrowd_pg::statement::served::Served;
use tokio_postgres::types::Type;

use crate::catalog::Table;
use crate::parameters::{
    array_oid, change_text, is_number, key_text, number, number_oid, to_oid, wider, Parameters,
};
use crate::protocol::Row;

/// The columns of each table that tell of a row's version, which is not yet the one that the UPDATE leaves.
const OF_VERSIONS: [&str; 5] = ["ctid", "xmin", "xmax", "cmin", "cmax"];

/// A row of a declared table.
#[derive(Clone, Debug, PartialEq, Eq, PartialOrd, Ord, Hash)]
pub struct Key {
    /// The table's number.
    pub table: i32,
    /// The key as text, in one form for each value.
    pub text: Arc<str>,
}

impl Row for Key {
    type Table = i32;

    fn table(&self) -> i32 {
        self.table
    }
}

/// What each reservable column changes by, as text. None: it does not change.
pub type Change = Arc<[Option<String>]>;

/// Reads changes as PostgreSQL has them in a hold: 0 is none.
pub fn changes(all: impl IntoIterator<Item = Option<String>>) -> Change {
    let is_none = |text: &String| text.bytes().all(|byte| matches!(byte, b'0' | b'.' | b'-'));
    all.into_iter()
        .map(|it| it.filter(|text| !is_none(text)))
        .collect()
}

/// A text that the proxy looks at.
#[derive(Clone, Debug, PartialEq, Eq)]
pub enum Statement {
    /// An UPDATE that may be a reservation.
    Update(Arc<Form>),
    /// A DELETE of a row by its key.
    Delete(Deletion),
    /// DEALLOCATE of a statement.
    Deallocate(String),
    /// COMMIT, and nothing else.
    Commit,
    /// One that names functions of schema `escrow`.
    Named,
}

/// A DELETE of rows by their key. PostgreSQL serves it, once the row is no longer held.
#[derive(Clone, Debug, PartialEq, Eq)]
pub struct Deletion {
    table: String,
    column: String,
    key: Expression,
}

impl Deletion {
    fn read(text: &str) -> Option<Deletion> {
        let start = text.trim_start();
        if !start.get(..6)?.eq_ignore_ascii_case("DELETE") {
            return None;
        }
        let mut at = 0;
        let parsed = next_statement(text, &mut at).ok()??;
        let delete = match &parsed.statement {
            gateway::Statement::Served(Served::Delete(delete)) => delete,
            _ => return None,
        };
        Some(Deletion {
            table: delete.table.name.text.clone(),
            column: delete.keys.column.text.clone(),
            key: delete.keys.values.first()?.clone(),
        })
    }

    /// Returns the table's name.
    pub fn table_name(&self) -> &str {
        &self.table
    }

    /// Returns the row of a table that it deletes. None: it is not told by the key, or not understood.
    pub fn key(&self, table: &Table, parameters: Parameters<'_>) -> Option<Key> {
        if self.column != table.key || parameters.is_float(&self.key) {
            return None;
        }
        let key = parameters.evaluate(&self.key, table.key_type.parameter_oid())?;
        Some(Key {
            table: table.number,
            text: key_text(key, table.key_type)?.into(),
        })
    }
}

impl Statement {
    /// Reads a text. None: it passes on as it is.
    pub fn read(text: &str) -> Option<Statement> {
        if is_commit(text) {
            return Some(Statement::Commit);
        }
        let update = Form::read(text).map(|form| Statement::Update(Arc::new(form)));
        let delete = || Deletion::read(text).map(Statement::Delete);
        let deallocate = || deallocated(text).map(Statement::Deallocate);
        update.or_else(delete).or_else(deallocate)
    }
}

/// Returns the name in a plain DEALLOCATE, as drivers write it. None: it is another text.
fn deallocated(text: &str) -> Option<String> {
    let text = text.trim_matches(|it: char| it.is_ascii_whitespace() || it == ';');
    if !text.get(..11)?.eq_ignore_ascii_case("DEALLOCATE ") {
        return None;
    }
    let mut at = 0;
    match &next_statement(text, &mut at).ok()??.statement {
        gateway::Statement::Deallocate(Some(name)) => Some(name.text.clone()),
        _ => None,
    }
}

/// Returns whether a text is a plain COMMIT, as drivers write it.
fn is_commit(text: &str) -> bool {
    let text = text.trim_matches(|it: char| it.is_ascii_whitespace() || it == ';');
    [
        "COMMIT",
        "END",
        "COMMIT WORK",
        "COMMIT TRANSACTION",
        "END TRANSACTION",
    ]
    .iter()
    .any(|known| text.eq_ignore_ascii_case(known))
}

/// What a statement's text asks for: an UPDATE of rows by their key, whose values may be parameters. It may be a part of a
/// statement with WITH.
#[derive(Clone, Debug, PartialEq, Eq)]
pub struct Form {
    text: String,
    /// Where the UPDATE is written.
    span: Span,
    place: Place,
    /// The numbers of all parameters of the text.
    numbers: Vec<u16>,
    table: QualifiedName,
    alias: Option<Name>,
    assignments: Vec<Assignment>,
    keys: Keys,
    /// Where the whole condition is written.
    condition: Span,
    at_least: Option<AtLeast>,
    returning: Option<Returning>,
}

/// `column = value`.
#[derive(Clone, Debug, PartialEq, Eq)]
struct Assignment {
    column: String,
    /// Where it is written.
    span: Span,
    /// What it adds to the column or subtracts, if that is its form.
    change: Option<ColumnChange>,
    /// What the value reads. None: it is not understood.
    reads: Option<Reads>,
}

/// What an expression reads.
#[derive(Clone, Debug, Default, PartialEq, Eq)]
struct Reads {
    /// Columns, with what is in front of their names.
    columns: Vec<Vec<String>>,
    /// The numbers of parameters.
    numbers: Vec<u16>,
    /// The names of functions.
    functions: Vec<String>,
}

/// `column - value`.
#[derive(Clone, Debug, PartialEq, Eq)]
struct ColumnChange {
    /// The column on the right, with what is in front of its name.
    own: Vec<String>,
    /// The type of what the column is replaced by where it is NULL, if it is written so.
    instead: Option<u32>,
    is_subtracted: bool,
    value: Expression,
}

/// `column = value`, `column IN (value, ..)`, `column = ANY (array)`.
#[derive(Clone, Debug, PartialEq, Eq)]
struct Keys {
    column: Vec<String>,
    values: Vec<Expression>,
    /// Whether there is one value, which is an array of them.
    is_array: bool,
    span: Span,
}

/// `column >= value`, `column > value`.
#[derive(Clone, Debug, PartialEq, Eq)]
struct AtLeast {
    column: Vec<String>,
    value: Expression,
    is_above: bool,
}

/// What RETURNING shows.
#[derive(Clone, Debug, PartialEq, Eq)]
struct Returning {
    span: Span,
    reads: Reads,
    /// Whether it shows columns alone, so that nobody sees how often it is computed.
    are_columns: bool,
}

/// What a form means for a table.
#[derive(Clone, Debug)]
pub struct Plan<'a> {
    form: &'a Form,
    table: &'a Table,
    /// The place of each reservable column, and what it changes by.
    changes: Vec<(usize, &'a ColumnChange)>,
    /// What is left to PostgreSQL.
    plain: Vec<&'a Assignment>,
}

/// A statement that is a part of a client's.
#[derive(Clone, Debug, PartialEq, Eq)]
pub struct Part {
    /// Its text.
    pub text: String,
    /// By how many characters the places of its errors are in front of those in the client's text.
    pub moved: i64,
}

/// What a statement asks for.
#[derive(Clone, Debug, PartialEq, Eq)]
pub struct Asked {
    /// The rows.
    pub keys: Vec<Key>,
    /// What each of them changes by.
    pub change: Change,
    /// The place of the condition of the table's CHECKs that says the same as the statement's condition: where it refuses, that
    /// does not hold.
    pub condition: Option<usize>,
}

impl Form {
    /// Reads a text. None: it is no such UPDATE.
    pub fn read(text: &str) -> Option<Form> {
        if !may_be_update(text) {
            return None;
        }
        let mut found = parse_updates(text).ok()??;
        // With two of them, one could be about the other's rows.
        match (found.updates.pop(), found.updates.is_empty()) {
            (Some(update), true) => Form::of(text, update, found.parameters),
            _ => None,
        }
    }

    fn of(text: &str, found: FoundUpdate, numbers: Vec<u16>) -> Option<Form> {
        let FoundUpdate {
            update,
            span: whole,
            place,
        } = found;
        let condition = update.condition?;
        let span = condition.span;
        let (keys, at_least) = condition_of(condition)?;
        let returning = match update.returning.is_empty() {
            true => None,
            false => Some(returning(update.returning)?),
        };
        Some(Form {
            text: text.to_owned(),
            span: whole,
            place,
            numbers,
            table: update.table,
            alias: update.alias,
            assignments: update.changes.into_iter().map(assignment).collect(),
            keys,
            condition: span,
            at_least,
            returning,
        })
    }

    /// Returns whether the statement's tag and rows are those of the UPDATE.
    pub fn is_main(&self) -> bool {
        !matches!(self.place, Place::InWith(_))
    }

    /// Returns the text.
    pub fn text(&self) -> &str {
        &self.text
    }

    /// Returns the table's name without its schema.
    pub fn table_name(&self) -> &str {
        &self.table.name.text
    }

    /// Returns the table's name with its schema, if it is written, as `to_regclass` reads it.
    pub fn relation(&self) -> String {
        let quoted = |name: &Name| format!("\"{}\"", name.text.replace('"', "\"\""));
        match &self.table.schema {
            Some(schema) => format!("{}.{}", quoted(schema), quoted(&self.table.name)),
            None => quoted(&self.table.name),
        }
    }

    /// Returns what it means for a table. None: it changes no reservable column, or not by the key alone, or something of
    /// it reads what it may not.
    pub fn plan<'a>(&'a self, table: &'a Table) -> Option<Plan<'a>> {
        if !self.is_own(table, &self.keys.column, &table.key) {
            return None;
        }
        let mut plan = Plan {
            form: self,
            table,
            changes: Vec::new(),
            plain: Vec::new(),
        };
        for assignment in &self.assignments {
            match (table.column(&assignment.column), &assignment.change) {
                (Some(at), Some(change))
                    if self.is_own(table, &change.own, &assignment.column)
                        && plan.changes.iter().all(|(other, _)| *other != at) =>
                {
                    plan.changes.push((at, change));
                }
                (None, _) if assignment.column != table.key => {
                    self.check_reads(table, assignment.reads.as_ref()?)?;
                    plan.plain.push(assignment);
                }
                _ => return None,
            }
        }
        if let Some(returning) = &self.returning {
            self.check_reads(table, &returning.reads)?;
            let names = returning.reads.columns.iter().filter_map(|it| it.last());
            let mut of_versions = names.filter(|name| OF_VERSIONS.contains(&name.as_str()));
            if of_versions.next().is_some() || !self.is_main() && !returning.are_columns {
                return None;
            }
        }
        (!plan.changes.is_empty()).then_some(plan)
    }

    /// Checks that columns are none whose value the row shows late.
    fn check_reads(&self, table: &Table, reads: &Reads) -> Option<()> {
        let is_late = |names: &Vec<String>| match names.last() {
            Some(name) => {
                table.column(name).is_some()
                    || *name == table.name
                    || self.alias.as_ref().map_or(false, |it| it.text == *name)
            }
            None => true,
        };
        (!reads.columns.iter().any(is_late)).then_some(())
    }

    /// Returns whether names are those of a column of the table.
    fn is_own(&self, table: &Table, names: &[String], column: &str) -> bool {
        let named: Vec<&str> = names.iter().map(String::as_str).collect();
        let (qualifier, name) = match named.split_last() {
            Some((name, qualifier)) => (qualifier, *name),
            None => return false,
        };
        let is_table = match (qualifier, &self.alias) {
            ([], _) => true,
            ([name], Some(alias)) => *name == alias.text,
            ([name], None) => *name == table.name,
            ([schema, name], None) => *schema == table.schema && *name == table.name,
            _ => false,
        };
        is_table && name == column
    }

    fn written(&self, span: Span) -> &str {
        self.text.get(span.start..span.end).unwrap_or("")
    }
}

impl Keys {
    /// Returns the parameters of the keys, each with the type that it has there by itself. 0: it is not known.
    fn numbers(&self, table: &Table, parameters: Parameters<'_>) -> Vec<(u16, u32)> {
        let key = table.key_type.parameter_oid();
        let mut found = Vec::new();
        let mut oid = key;
        if self.is_array {
            oid = array_oid(key).unwrap_or(0);
        } else if is_number(key) && self.values.len() > 1 {
            // PostgreSQL compares the key and all values of a list by one type.
            oid = self
                .values
                .iter()
                .fold(key, |oid, it| match parameters.number_oid(it) {
                    Some(of) => wider(oid, of),
                    None => oid,
                });
        }
        self.values.iter().for_each(|it| typed(it, oid, &mut found));
        found
    }

    /// Returns the values of the keys. None: one is not understood.
    fn values(&self, table: &Table, parameters: Parameters<'_>) -> Option<Vec<Datum>> {
        let oid = table.key_type.parameter_oid();
        if self.is_array {
            return parameters.elements(self.values.first()?, oid);
        }
        let values = self
            .values
            .iter()
            .map(|key| match parameters.is_float(key) {
                true => None, // PostgreSQL compares floats
                false => parameters.evaluate(key, oid),
            });
        values.collect()
    }
}

impl Plan<'_> {
    /// Returns the rows and the change that the statement asks for. None: a value is not understood, or none that the row
    /// could have.
    pub fn bind(&self, parameters: Parameters<'_>) -> Option<Asked> {
        let (form, table) = (self.form, self.table);
        let types = self.types(parameters);
        let parameters = Parameters {
            types: &types,
            ..parameters
        };
        if !self.knows_types(parameters) {
            return None;
        }
        let keys = form.keys.values(table, parameters)?.into_iter();
        let keys = keys.map(|key| {
            let text = key_text(key, table.key_type)?.into();
            let table = table.number;
            Some(Key { table, text })
        });
        let mut keys: Vec<Key> = keys.collect::<Option<_>>()?;
        // In one order, as PostgreSQL's locks are best taken.
        keys.sort();
        keys.dedup();
        let mut changes = vec![None; table.columns.len()];
        for (at, change) in &self.changes {
            let column = &table.columns[*at];
            let value = parameters.evaluate(&change.value, column.oid())?;
            let value = number(value, column.oid())?;
            let value = if change.is_subtracted {
                value.negated()
            } else {
                value
            };
            changes[*at] = Some(change_text(value, column.digits.1)?);
        }
        let condition = match &form.at_least {
            Some(at_least) => Some(self.same_check(at_least, &changes, parameters)?),
            None => None,
        };
        Some(Asked {
            keys,
            change: changes.into(),
            condition,
        })
    }

    /// Returns the CHECK that refuses the change just where a condition does not hold: `c - 3 >= 0` says `c >= 3`.
    fn same_check(
        &self,
        at_least: &AtLeast,
        changes: &[Option<String>],
        parameters: Parameters<'_>,
    ) -> Option<usize> {
        let table = self.table;
        let at = table.column(at_least.column.last()?)?;
        let column = &table.columns[at];
        if !self.form.is_own(table, &at_least.column, &column.name) {
            return None;
        }
        let unit = Decimal::parse(&match column.digits.1 {
            0 => "1".to_owned(),
            scale => format!("0.{}1", "0".repeat(scale as usize - 1)),
        })?;
        let above = |value: Decimal, is_above| match is_above {
            true => value.plus(unit),
            false => Some(value),
        };
        let least = parameters.evaluate(&at_least.value, column.oid())?;
        let least = above(number(least, column.oid())?, at_least.is_above)?;
        let change = Decimal::parse(changes[at].as_deref()?)?;
        let says_the_same = |check: &crate::catalog::Check| {
            let mut coefficients = check.coefficients.iter().enumerate();
            let is_of_it =
                coefficients.all(|(place, it)| it == if place == at { "1" } else { "0" });
            let limit = match check.comparison.as_str() {
                ">=" => above_limit(&check.limit, false, &above),
                ">" => above_limit(&check.limit, true, &above),
                _ => None,
            };
            let same = limit.and_then(|limit| limit.subtract(change));
            is_of_it && same.map_or(false, |same| same.compare(&least).is_eq())
        };
        table.checks.iter().position(says_the_same)
    }

    /// Returns the statement that PostgreSQL has to serve beside the reservation, with the same parameters: the UPDATE of
    /// the plain columns, or a SELECT of what RETURNING shows. With `has_rows` false it is about no row.
    pub fn rest(&self, has_rows: bool) -> Option<Part> {
        let form = self.form;
        let (condition, keys) = (form.condition, form.keys.span);
        let none = if has_rows { "" } else { " AND false" };
        if !self.plain.is_empty() {
            // What is left stays at its place, so that PostgreSQL's errors tell places of the client's text.
            let mut text = String::new();
            let mut at = 0;
            for (turn, it) in self.plain.iter().enumerate() {
                let between = Span {
                    start: at,
                    end: it.span.start,
                };
                match turn {
                    0 => {
                        let first = form.assignments.first()?.span.start;
                        text.push_str(&form.text[..first]);
                        text.push_str(&blank(&form.text[first..it.span.start]));
                    }
                    _ => {
                        text.push(',');
                        text.extend(blank(form.written(between)).chars().skip(1));
                    }
                }
                text.push_str(form.written(it.span));
                at = it.span.end;
            }
            let last = form.assignments.last()?.span.end;
            text.push_str(&blank(&form.text[at..last]));
            text.push_str(&form.text[last..condition.start]);
            text.push_str(&blank(&form.text[condition.start..keys.start]));
            text.push_str(form.written(keys));
            text.push_str(none);
            let behind = blank(&form.text[keys.end..condition.end]);
            text.extend(behind.chars().skip(none.len()));
            text.push_str(&form.text[condition.end..]);
            return Some(Part { text, moved: 0 });
        }
        let shown = form.returning.as_ref().map(|it| it.span);
        if shown.is_none() && form.place == Place::Whole {
            return None;
        }
        let name = &form.table;
        let start = name.schema.as_ref().unwrap_or(&name.name).span.start;
        let end = form.alias.as_ref().unwrap_or(&name.name).span.end;
        // Without RETURNING the UPDATE of a statement with WITH shows no row.
        let none = if shown.is_none() { " AND false" } else { none };
        const SELECT: &str = "SELECT ";
        let select = format!(
            "{SELECT}{} FROM {} WHERE {}{none}",
            shown.map_or("", |shown| form.written(shown)),
            &form.text[start..end],
            form.written(keys),
        );
        let (in_front, behind) = (&form.text[..form.span.start], &form.text[form.span.end..]);
        let moved = match (form.place, shown) {
            (Place::Whole, Some(shown)) => {
                form.text[..shown.start].chars().count() as i64 - SELECT.len() as i64
            }
            _ => 0,
        };
        let text = match form.place {
            Place::Whole => select,
            Place::BehindWith | Place::InWith(_) => {
                // What is behind it stays at its place.
                let length = form.written(form.span).chars().count();
                format!("{in_front}{select:length$}{behind}")
            }
        };
        Some(Part { text, moved })
    }

    /// Returns the functions that may give the rest other rows than the UPDATE has: PostgreSQL refuses aggregates, and functions that
    /// return sets, in RETURNING alone.
    pub fn shown_functions(&self) -> &[String] {
        match &self.form.returning {
            Some(returning) if self.plain.is_empty() => &returning.reads.functions,
            _ => &[],
        }
    }

    /// Returns whether the rest has as many rows as were reserved.
    pub fn rest_counts(&self) -> bool {
        let form = self.form;
        form.is_main() && (!self.plain.is_empty() || form.returning.is_some())
    }

    /// Returns whether the rows of the rest are described to a client that has sent a Query.
    pub fn rest_has_rows(&self) -> bool {
        !self.form.is_main() || self.form.returning.is_some()
    }

    /// Returns whether all values are known as PostgreSQL reads them. The text of a key says the same in all types that PostgreSQL
    /// compares with the key's, or nearly so.
    fn knows_types(&self, parameters: Parameters<'_>) -> bool {
        let mut keys = self.form.keys.numbers(self.table, parameters).into_iter();
        let changes = self.changes.iter();
        let changes = changes.flat_map(|(at, change)| self.of_change(*at, change));
        let mut others = self.of_at_least().into_iter().chain(changes);
        keys.all(|(number, oid)| parameters.may_be_key(number, oid))
            && others.all(|(number, _)| parameters.told(number).is_some())
    }

    /// Returns the parameters of the condition, in the order in which they are written.
    fn of_condition(&self, parameters: Parameters<'_>) -> Vec<(u16, u32)> {
        let keys = self.form.keys.numbers(self.table, parameters);
        let is_in_front = |it: &AtLeast| it.value.span.start < self.form.keys.span.start;
        match self.form.at_least.as_ref().map_or(false, is_in_front) {
            true => [self.of_at_least(), keys].concat(),
            false => [keys, self.of_at_least()].concat(),
        }
    }

    /// Returns the parameters with which a column is compared.
    fn of_at_least(&self) -> Vec<(u16, u32)> {
        let mut found = Vec::new();
        if let Some(it) = &self.form.at_least {
            let at = it.column.last().and_then(|name| self.table.column(name));
            let oid = at.map_or(0, |at| self.table.columns[at].oid());
            typed(&it.value, oid, &mut found);
        }
        found
    }

    /// Returns the parameters of a change.
    fn of_change(&self, at: usize, change: &ColumnChange) -> Vec<(u16, u32)> {
        let column = self.table.columns[at].oid();
        let oid = change.instead.map_or(column, |it| wider(column, it));
        let mut found = Vec::new();
        typed(&change.value, oid, &mut found);
        found
    }

    /// Returns the types of all parameters, also for [`Plan::rest`], which may lack some of them. They are those that are told, and
    /// else those that PostgreSQL finds, or 0 where they are not known. PostgreSQL goes through WITH from the first to the last statement, and then through the one behind it; in an UPDATE through the
    /// condition, RETURNING and the assignments, in this order. The first place decides.
    pub fn types(&self, parameters: Parameters<'_>) -> Vec<u32> {
        let form = self.form;
        let condition = self.of_condition(parameters).into_iter();
        let shown = form.returning.iter().flat_map(|it| &it.reads.numbers);
        let assigned = form.assignments.iter().flat_map(|it| {
            let own = self
                .changes
                .iter()
                .find(|(_, change)| Some(*change) == it.change.as_ref());
            match (own, &it.reads) {
                (Some((at, change)), _) => self.of_change(*at, change),
                (None, Some(reads)) => reads.numbers.iter().map(|&number| (number, 0)).collect(),
                (None, None) => Vec::new(),
            }
        });
        let found = condition.chain(shown.map(|&number| (number, 0)));
        let found: Vec<(u16, u32)> = found.chain(assigned).collect();
        let count = |all: &mut dyn Iterator<Item = u16>, number: u16| {
            all.filter(|&it| it == number).count()
        };
        let is_first = matches!(form.place, Place::Whole | Place::InWith(0));
        let of = |number: u16| {
            let here = count(&mut found.iter().map(|it| it.0), number);
            let everywhere = count(&mut form.numbers.iter().copied(), number);
            let first = found.iter().find(|it| it.0 == number);
            first
                .filter(|_| is_first || here == everywhere)
                .map_or(0, |it| it.1)
        };
        let numbers = 1..=parameters.values.len() as u16;
        let types = numbers.map(|number| parameters.told(number).unwrap_or_else(|| of(number)));
        types.collect()
    }
}

/// Returns as many blanks as a text has characters.
fn blank(text: &str) -> String {
    let of = |it| if it == '\n' { '\n' } else { ' ' };
    text.chars().map(of).collect()
}

fn above_limit(
    limit: &str,
    is_above: bool,
    above: &impl Fn(Decimal, bool) -> Option<Decimal>,
) -> Option<Decimal> {
    above(Decimal::parse(limit)?, is_above)
}

/// Returns whether a text may begin with UPDATE or WITH: comments and blanks are left to the parser.
fn may_be_update(text: &str) -> bool {
    let text = text.trim_start_matches(|it: char| it.is_ascii_whitespace());
    let begins = |word: &str| {
        let first = text.get(..word.len());
        first.map_or(false, |first| first.eq_ignore_ascii_case(word))
    };
    ["--", "/*", "UPDATE", "WITH"]
        .iter()
        .any(|word| begins(word))
}

fn texts(column: &ColumnName) -> Vec<String> {
    column
        .names()
        .iter()
        .map(|name| name.text.clone())
        .collect()
}

/// Adds what an expression reads. None: it may read something else.
fn reads(expression: &Expression, found: &mut Reads) -> Option<()> {
    let mut all =
        |expressions: &[&Expression]| expressions.iter().try_for_each(|it| reads(it, found));
    match &expression.kind {
        ExpressionKind::Null
        | ExpressionKind::Boolean(_)
        | ExpressionKind::Number(_)
        | ExpressionKind::Text(_) => Some(()),
        ExpressionKind::Parameter(number) => {
            found.numbers.push(*number);
            Some(())
        }
        ExpressionKind::Column(column) => {
            found.columns.push(texts(column));
            Some(())
        }
        ExpressionKind::Unary(_, operand)
        | ExpressionKind::Cast(operand, _)
        | ExpressionKind::Is(operand, _, _) => all(&[operand]),
        ExpressionKind::Binary(left, _, right) => all(&[left, right]),
        ExpressionKind::Between(operand, low, high, _) => all(&[operand, low, high]),
        ExpressionKind::Function(call)
            if call.over.is_none()
                && !call.is_star
                && !call.is_distinct
                && call.order.is_empty() =>
        {
            all(&call.arguments.iter().collect::<Vec<_>>())?;
            found.functions.push(call.name.name.text.clone());
            Some(())
        }
        ExpressionKind::Case {
            operand,
            branches,
            otherwise,
        } => {
            let mut parts: Vec<&Expression> = operand.iter().map(|it| &**it).collect();
            parts.extend(branches.iter().flat_map(|(when, then)| [when, then]));
            parts.extend(otherwise.iter().map(|it| &**it));
            all(&parts)
        }
        _ => None,
    }
}

/// Adds the parameters of a value, each with the type that it has there by itself. `oid` is that of a parameter alone. 0: it is
/// not known.
fn typed(expression: &Expression, oid: u32, found: &mut Vec<(u16, u32)>) {
    match &expression.kind {
        ExpressionKind::Parameter(number) => found.push((*number, oid)),
        ExpressionKind::Unary(sign, operand) => {
            // Behind + PostgreSQL takes one for a float. Behind - it refuses one.
            let is_float = sign == "+" && matches!(operand.kind, ExpressionKind::Parameter(_));
            let oid = if is_float { Type::FLOAT8.oid() } else { oid };
            typed(operand, oid, found);
        }
        ExpressionKind::Cast(operand, to) => typed(operand, to_oid(to).unwrap_or(0), found),
        _ => {}
    }
}

/// Returns the column that an expression is the value of: `n`, or `COALESCE(n, 0)`, since no reservable column is NULL. And the
/// type of that 0.
fn own_column(expression: &Expression) -> Option<(Vec<String>, Option<u32>)> {
    match &expression.kind {
        ExpressionKind::Column(column) => Some((texts(column), None)),
        ExpressionKind::Function(call)
            if call.name.schema.is_none()
                && call.name.name.text == "coalesce"
                && call.arguments.len() == 2
                // The grammar's own word, whose place is all of it, and not a function "coalesce".
                && call.arguments[1].span.end < call.name.name.span.end =>
        {
            match (&call.arguments[0].kind, &call.arguments[1].kind) {
                (ExpressionKind::Column(column), ExpressionKind::Number(number)) => {
                    Some((texts(column), Some(number_oid(number))))
                }
                _ => None,
            }
        }
        _ => None,
    }
}

fn assignment((column, value): (Name, Expression)) -> Assignment {
    let span = Span {
        start: column.span.start,
        end: value.span.end,
    };
    let mut found = Reads::default();
    Assignment {
        column: column.text,
        span,
        reads: reads(&value, &mut found).map(|()| found),
        change: column_change(value),
    }
}

/// Reads `column + value` and its like. None: it is another form.
fn column_change(value: Expression) -> Option<ColumnChange> {
    let (left, is_subtracted, right) = match value.kind {
        ExpressionKind::Binary(left, operator, right) => match &*operator {
            "+" => (*left, false, *right),
            "-" => (*left, true, *right),
            _ => return None,
        },
        _ => return None,
    };
    let ((own, instead), value) = match (own_column(&left), own_column(&right)) {
        (Some(own), None) => (own, right),
        (None, Some(own)) if !is_subtracted => (own, left),
        _ => return None,
    };
    Some(ColumnChange {
        own,
        instead,
        is_subtracted,
        value,
    })
}

/// Reads a condition: the key's, and perhaps one that a column has at least a value. None: it is another one.
fn condition_of(condition: Expression) -> Option<(Keys, Option<AtLeast>)> {
    match condition.kind {
        ExpressionKind::Binary(left, operator, right) if operator == "AND" => {
            match (at_least(&left), at_least(&right)) {
                (None, Some(bound)) => Some((keys_of(*left)?, Some(bound))),
                (Some(bound), None) => Some((keys_of(*right)?, Some(bound))),
                _ => None,
            }
        }
        _ => Some((keys_of(condition)?, None)),
    }
}

fn keys_of(condition: Expression) -> Option<Keys> {
    let span = condition.span;
    let mut is_array = false;
    let (column, values) = match condition.kind {
        ExpressionKind::Binary(left, operator, right) if operator == "=" => {
            match (left.kind, right.kind) {
                (ExpressionKind::Column(names), kind) => {
                    let span = right.span;
                    (names, vec![Expression { kind, span }])
                }
                (kind, ExpressionKind::Column(names)) => {
                    let span = left.span;
                    (names, vec![Expression { kind, span }])
                }
                _ => return None,
            }
        }
        ExpressionKind::In(left, values, false) => match left.kind {
            ExpressionKind::Column(names) => (names, values),
            _ => return None,
        },
        ExpressionKind::Quantified(left, operator, false, right) if operator == "=" => {
            is_array = true;
            match left.kind {
                ExpressionKind::Column(names) => (names, vec![*right]),
                _ => return None,
            }
        }
        _ => return None,
    };
    Some(Keys {
        column: texts(&column),
        values,
        is_array,
        span,
    })
}

/// Reads `column >= value` and its like.
fn at_least(condition: &Expression) -> Option<AtLeast> {
    let (left, operator, right) = match &condition.kind {
        ExpressionKind::Binary(left, operator, right) => (left, &**operator, right),
        _ => return None,
    };
    let (column, value, is_above) = match (&left.kind, operator, &right.kind) {
        (ExpressionKind::Column(names), ">=", _) => (names, right, false),
        (ExpressionKind::Column(names), ">", _) => (names, right, true),
        (_, "<=", ExpressionKind::Column(names)) => (names, left, false),
        (_, "<", ExpressionKind::Column(names)) => (names, left, true),
        _ => return None,
    };
    Some(AtLeast {
        column: texts(column),
        value: (**value).clone(),
        is_above,
    })
}

/// Reads what RETURNING shows. None: it shows all columns, or something that is not understood.
fn returning(targets: Vec<Target>) -> Option<Returning> {
    let mut found = Reads::default();
    let mut span: Option<Span> = None;
    let mut are_columns = true;
    for target in targets {
        let (expression, name) = match target {
            Target::Expression(expression, name) => (expression, name),
            Target::Star(..) => return None,
        };
        reads(&expression, &mut found)?;
        are_columns &= matches!(expression.kind, ExpressionKind::Column(_));
        let end = name.map_or(expression.span.end, |name| name.span.end);
        let start = span.map_or(expression.span.start, |span| span.start);
        span = Some(Span { start, end });
    }
    Some(Returning {
        span: span?,
        reads: found,
        are_columns,
    })
}

#[cfg(test)]
mod tests {
    use super::*;
    use crate::catalog::{Column, KeyType};

    fn table(key_type: KeyType) -> Table {
        let column = |name: &str, type_name: &str, digits| Column {
            name: name.to_owned(),
            place: 2,
            type_name: type_name.to_owned(),
            digits,
            range: None,
        };
        Table {
            number: 7,
            oid: 1,
            schema: "public".to_owned(),
            name: "stock".to_owned(),
            key: "id".to_owned(),
            key_type,
            columns: vec![
                column("pieces", "integer", (10, 0)),
                column("price", "numeric(10,2)", (10, 2)),
            ],
            checks: vec![crate::catalog::Check {
                name: "in_stock".to_owned(),
                coefficients: vec!["1".to_owned(), "0".to_owned()],
                comparison: ">=".to_owned(),
                limit: "0".to_owned(),
            }],
            note_text: String::new(),
            own_text: String::new(),
            refusal_text: String::new(),
            here_text: String::new(),
            direct_text: String::new(),
        }
    }

    const INTEGER: KeyType = KeyType::Integer(-2_147_483_648, 2_147_483_647);

    /// Returns the key and the changes of a text: what reserves nothing is nothing.
    fn read(text: &str, key: KeyType, parameters: Parameters<'_>) -> Option<String> {
        let table = table(key);
        let form = Form::read(text)?;
        let plan = form.plan(&table).filter(|_| form.table_name() == "stock")?;
        let Asked {
            keys,
            change,
            condition,
        } = plan.bind(parameters)?;
        let changes: Vec<&str> = change
            .iter()
            .map(|it| it.as_deref().unwrap_or("_"))
            .collect();
        let keys: Vec<&str> = keys.iter().map(|it| &*it.text).collect();
        let condition = condition.map(|it| format!(" unless {}", table.checks[it].name));
        let condition = condition.unwrap_or_default();
        let words = |it: Part| it.text.split_whitespace().collect::<Vec<_>>().join(" ");
        let rest = plan
            .rest(true)
            .map_or_else(String::new, |it| format!("; {}", words(it)));
        Some(format!(
            "{}: {}{}{}",
            keys.join(","),
            changes.join(" "),
            condition,
            rest
        ))
    }

    #[test]
    fn forms_that_drivers_write_are_understood() {
        for (text, expected) in [
            ("UPDATE stock SET pieces = pieces - 3 WHERE id = 5", "5: -3 _"),
            ("update Stock set PIECES=pieces+3 where ID=5;", "5: 3 _"),
            ("UPDATE \"stock\" SET \"pieces\" = (\"stock\".\"pieces\" - 3) WHERE \"stock\".\"id\" = 5", "5: -3 _"),
            ("UPDATE ONLY public.stock AS s SET pieces = s.pieces - 3 WHERE s.id = 5", "5: -3 _"),
            ("UPDATE public.stock SET pieces = public.stock.pieces - 3 WHERE 5 = stock.id", "5: -3 _"),
            ("/* a */ UPDATE stock s SET pieces = 3 + s.pieces WHERE (s.id) = (5)", "5: 3 _"),
            ("UPDATE stock SET pieces = COALESCE(pieces, 0) - 3, price = price + 0.50 WHERE id = '5'", "5: -3 0.5"),
            ("UPDATE stock SET pieces = pieces - -3::smallint WHERE id = CAST('5' AS integer)", "5: 3 _"),
            ("UPDATE stock SET pieces = pieces + 2.0 WHERE id = 5.0", "5: 2 _"),
            ("UPDATE stock SET pieces = pieces - '3' WHERE id = -5 -- end", "-5: -3 _"),
            ("UPDATE stock SET price = price - 1 WHERE id = 5", "5: _ -1"),
            ("UPDATE stock SET pieces = pieces + 0 WHERE id = 5", "5: 0 _"),
            ("UPDATE stock SET pieces = pieces - 3 WHERE id = ANY ('{7, 5,NULL}')", "5,7: -3 _"),
            ("UPDATE stock SET pieces = pieces - 3 WHERE id = ANY ('{7,\"5\"}'::integer[])", "5,7: -3 _"),
            ("UPDATE stock SET pieces = pieces - 3 WHERE id = SOME (ARRAY[7, 5, -1])", "-1,5,7: -3 _"),
            ("UPDATE stock SET pieces = pieces - 3 WHERE id = ANY (ARRAY['7', '5']::int[])", "5,7: -3 _"),
            ("UPDATE stock SET pieces = pieces - 3 WHERE id = ANY ('{}')", ": -3 _"),
            ("UPDATE stock SET pieces = pieces - 3 WHERE id = ANY (ARRAY[]::bigint[])", ": -3 _"),
        ] {
            let found = read(text, INTEGER, Parameters::default());
            assert_eq!(found.as_deref(), Some(expected), "{}", text);
        }
    }

    #[test]
    fn what_is_not_understood_is_left_to_postgresql() {
        for text in [
            "UPDATE stock SET pieces = 3 WHERE id = 5",
            "UPDATE stock SET pieces = pieces - 3",
            "UPDATE stock SET pieces = pieces * 3 WHERE id = 5",
            "UPDATE stock SET pieces = 3 - pieces WHERE id = 5",
            "UPDATE stock SET pieces = price - 3 WHERE id = 5",
            "UPDATE stock SET pieces = pieces - price WHERE id = 5",
            "UPDATE stock SET pieces = pieces - pieces WHERE id = 5",
            "UPDATE stock SET pieces = pieces - 2.5 WHERE id = 5",
            "UPDATE stock SET price = price - 2.505 WHERE id = 5",
            "UPDATE stock SET pieces = pieces - 3, pieces = pieces - 4 WHERE id = 5",
            "UPDATE stock SET pieces = pieces - 3, title = pieces WHERE id = 5",
            "UPDATE stock SET pieces = pieces - 3, title = (SELECT 'x') WHERE id = 5",
            "UPDATE stock SET pieces = pieces - 3, id = 7 WHERE id = 5",
            "UPDATE stock SET title = 'x', price = 3 WHERE id = 5",
            "UPDATE stock SET title = 'x' WHERE id = 5",
            "UPDATE stock SET pieces = pieces - 3 WHERE id = 5 AND pieces > 3",
            "UPDATE stock SET pieces = pieces - 3 WHERE id = 5 AND pieces >= 2",
            "UPDATE stock SET pieces = pieces - 3 WHERE id = 5 AND price >= 3",
            "UPDATE stock SET pieces = pieces + 3 WHERE id = 5 AND pieces >= 3",
            "UPDATE stock SET pieces = pieces - 3 WHERE id = 5 OR id = 6",
            "UPDATE stock SET pieces = pieces - 3 WHERE id = 5 AND title = 'x'",
            "UPDATE stock SET pieces = pieces - 3 WHERE id NOT IN (5)",
            "UPDATE stock SET pieces = pieces - 3 WHERE id IN (5, NULL)",
            "UPDATE stock SET pieces = pieces - 3 WHERE id IN (SELECT 5)",
            "UPDATE stock SET pieces = pieces - 3 WHERE id = 5 RETURNING *",
            "UPDATE stock SET pieces = pieces - 3 WHERE id = 5 RETURNING stock",
            "UPDATE stock SET pieces = pieces - 3 WHERE id = 5 RETURNING id, pieces + 1",
            "UPDATE stock SET pieces = pieces - 3 WHERE id > 5",
            "UPDATE stock SET pieces = pieces - 3 WHERE title = 5",
            "UPDATE stock SET pieces = pieces - 3 WHERE id = NULL",
            "UPDATE stock SET pieces = pieces - NULL WHERE id = 5",
            "UPDATE stock SET pieces = pieces - 3 WHERE id = 5.5",
            "UPDATE stock SET pieces = pieces - 3 WHERE id = 3000000000",
            "UPDATE stock SET pieces = pieces - 3 WHERE id = '5x'",
            "UPDATE stock SET pieces = pieces - 3 WHERE id = 5 RETURNING pieces",
            "UPDATE stock SET pieces = pieces - 3 FROM orders WHERE id = 5",
            "UPDATE stock AS s SET pieces = stock.pieces - 3 WHERE id = 5",
            "UPDATE stock SET pieces = other.stock.pieces - 3 WHERE id = 5",
            "UPDATE stock SET pieces = pieces - random() WHERE id = 5",
            "UPDATE stock SET pieces = pieces - (SELECT 3) WHERE id = 5",
            "UPDATE stock SET pieces = pieces - $1 WHERE id = 5",
            "UPDATE stock SET pieces = pieces - 3 WHERE id = 5; SELECT 1",
            "WITH a AS (SELECT 1 AS n) UPDATE stock SET pieces = pieces - a.n FROM a WHERE id = 5",
            "WITH a AS (UPDATE stock SET pieces = pieces - 3 WHERE id = 5), b AS (UPDATE stock SET pieces = pieces - 3 WHERE id = 6) SELECT 1",
            "WITH a AS (UPDATE stock SET pieces = pieces - 3 WHERE id = 5 RETURNING nextval('s')) SELECT 1",
            "WITH RECURSIVE a AS (SELECT 1) UPDATE stock SET pieces = pieces - 3 WHERE id = 5",
            "EXPLAIN UPDATE stock SET pieces = pieces - 3 WHERE id = 5",
            "UPDATE stock SET pieces = pieces - 1000000000000000 WHERE id = 5",
            "UPDATE stock SET (pieces) = (pieces - 3) WHERE id = 5",
            "UPDATE stock SET pieces = pieces - 3 WHERE CURRENT OF c",
            "UPDATE stock SET pieces = pieces - true WHERE id = 5",
            "UPDATE stock SET pieces = pieces - '3'::text WHERE id = 5",
            "UPDATE stock SET pieces = pieces - 3 WHERE id = ALL ('{5}')",
            "UPDATE stock SET pieces = pieces - 3 WHERE id <> ANY ('{5}')",
            "UPDATE stock SET pieces = pieces - 3 WHERE id = ANY (ARRAY['7', '5'])",
            "UPDATE stock SET pieces = pieces - 3 WHERE id = ANY ('{5}'::text[])",
            "UPDATE stock SET pieces = pieces - 3 WHERE id = ANY ('{{5}}')",
            "UPDATE stock SET pieces = pieces - 3 WHERE id = ANY (ARRAY(SELECT 5))",
            "UPDATE stock SET pieces = pieces - 3 WHERE id = ANY ('{\u{a0}5}'::numeric[])",
            "UPDATE stock SET price = price - '\u{2003}3' WHERE id = 5",
            "UPDATE stock SET price = price - '3\u{a0}'::numeric WHERE id = 5",
            "UPDATE stock SET pieces = pieces - 3 WHERE id = ANY (ARRAY[])",
            "UPDATE stock SET pieces = pieces - 3 WHERE id = ANY (ARRAY[]::text[])",
            "UPDATE stock SET pieces = pieces - 3 WHERE id = ANY ('{NULL}'::uuid[])",
            "UPDATE ONLY stock * SET pieces = pieces - 3 WHERE id = 5",
            "UPDATE stock SET pieces = pieces - 3 WHERE id = 5 RETURNING id, xmin",
            "UPDATE stock AS s SET pieces = pieces - 3, title = 'x' WHERE id = 5 RETURNING s.ctid::text",
            "UPDATE stock SET pieces = \"coalesce\"(pieces, 0) - 3 WHERE id = 5",
            "WITH stock AS (SELECT 7 AS id) UPDATE stock SET pieces = pieces - 3 WHERE id = 5 RETURNING id",
            "WITH s AS (UPDATE Stock SET pieces = pieces - 3 WHERE id = 5 RETURNING id), stock AS (SELECT 7 AS id) SELECT * FROM s",
        ] {
            assert_eq!(read(text, INTEGER, Parameters::default()), None, "{}", text);
        }
    }

    #[test]
    fn what_is_beside_a_reservation_is_left_to_postgresql() {
        for (text, expected) in [
            ("UPDATE stock SET pieces = pieces - 3, title = 'x' WHERE id = 5", "5: -3 _; UPDATE stock SET title = 'x' WHERE id = 5"),
            (
                "UPDATE stock AS s SET seen = now(), pieces = s.pieces - 3, title = lower(s.title) WHERE (s.id = 5) RETURNING s.id AS n, title;",
                "5: -3 _; UPDATE stock AS s SET seen = now(), title = lower(s.title) WHERE (s.id = 5) RETURNING s.id AS n, title;",
            ),
            ("UPDATE public.stock s SET pieces = pieces - 3 WHERE id IN (7, 5, 7) RETURNING id, title || 'x' AS t", "5,7: -3 _; SELECT id, title || 'x' AS t FROM public.stock s WHERE id IN (7, 5, 7)"),
            ("UPDATE stock SET pieces = pieces - 3 WHERE id = 5 AND pieces >= 3", "5: -3 _ unless in_stock"),
            (
                "WITH o AS (INSERT INTO orders VALUES (5, 3) RETURNING id) UPDATE stock SET pieces = pieces - 3 WHERE id = 5",
                "5: -3 _; WITH o AS (INSERT INTO orders VALUES (5, 3) RETURNING id) SELECT FROM stock WHERE id = 5 AND false",
            ),
            (
                "WITH stock AS (SELECT 7 AS id) UPDATE public.stock SET pieces = pieces - 3 WHERE id = 5 RETURNING id",
                "5: -3 _; WITH stock AS (SELECT 7 AS id) SELECT id FROM public.stock WHERE id = 5",
            ),
            (
                "WITH s AS (UPDATE stock SET pieces = pieces - 3 WHERE id = 5 AND pieces >= 3 RETURNING id) INSERT INTO orders SELECT id, 3 FROM s",
                "5: -3 _ unless in_stock; WITH s AS (SELECT id FROM stock WHERE id = 5 ) INSERT INTO orders SELECT id, 3 FROM s",
            ),
            (
                "WITH s AS (UPDATE stock SET pieces = pieces - 3, title = 'x' WHERE id = 5 RETURNING id) SELECT * FROM s",
                "5: -3 _; WITH s AS (UPDATE stock SET title = 'x' WHERE id = 5 RETURNING id) SELECT * FROM s",
            ),
            ("UPDATE stock SET pieces = pieces - 3 WHERE 2 < stock.pieces AND id = 5", "5: -3 _ unless in_stock"),
            ("UPDATE stock SET pieces = pieces - 3, title = 'x' WHERE id = 5 AND pieces >= 3 RETURNING id", "5: -3 _ unless in_stock; UPDATE stock SET title = 'x' WHERE id = 5 RETURNING id"),
        ] {
            let found = read(text, INTEGER, Parameters::default());
            assert_eq!(found.as_deref(), Some(expected), "{}", text);
        }
    }

    #[test]
    fn the_rest_knows_the_types_of_parameters_that_it_lacks() {
        let table = table(INTEGER);
        let text =
            "UPDATE stock SET pieces = pieces - $1, title = $2, price = price + -$3 WHERE id = $4";
        let form = Form::read(text).unwrap();
        let plan = form.plan(&table).unwrap();
        let values = vec![Some(b"1".to_vec()); 4];
        let parameters = Parameters {
            types: &[tokio_postgres::types::Type::UNKNOWN.oid(), 25],
            formats: &[],
            values: &values,
        };
        assert_eq!(plan.types(parameters), [23, 25, 1700, 23]);
        let rest = plan.rest(true).unwrap();
        let (first, last) = (" ".repeat(22), " ".repeat(21));
        assert_eq!(
            rest.text,
            format!("UPDATE stock SET {first}title = $2{last} WHERE id = $4")
        );
        assert_eq!(rest.moved, 0);
    }

    #[test]
    fn a_parameter_in_with_has_the_type_that_postgresql_finds() {
        let table = table(INTEGER);
        let values = vec![Some(b"1".to_vec()); 2];
        let is_bound = |text: &str, types: &[u32]| {
            let form = Form::read(text).unwrap();
            let parameters = Parameters {
                types,
                formats: &[],
                values: &values,
            };
            let plan = form.plan(&table).unwrap();
            plan.bind(parameters).is_some()
        };
        let first = "WITH s AS (UPDATE stock SET pieces = pieces - $1 WHERE id = $2 RETURNING id) INSERT INTO orders SELECT id, $1 FROM s";
        let last = "WITH o AS (INSERT INTO orders VALUES ($2, $1)) UPDATE stock SET pieces = pieces - $1 WHERE id = $2";
        assert!(is_bound(first, &[]) && is_bound(first, &[23, 0]));
        assert!(!is_bound(last, &[]) && is_bound(last, &[23, 0]));
    }

    #[test]
    fn a_parameter_at_several_places_has_the_type_of_the_first() {
        let table = table(KeyType::Integer(i64::MIN, i64::MAX));
        let (int, long) = (5i32.to_be_bytes().to_vec(), 5i64.to_be_bytes().to_vec());
        // A numeric that is 0, which has 8 bytes too.
        let zero = vec![0, 0, 0, 0, 0, 0, 0, 2];
        for (text, value, expected) in [
            (
                "SET pieces = pieces - $1 WHERE id = $1",
                &long,
                Some("5: -5 _"),
            ),
            ("SET pieces = pieces - $1 WHERE id = $1", &int, None),
            (
                "SET price = price - $1::numeric WHERE id = $1",
                &long,
                Some("5: _ -5"),
            ),
            (
                "SET price = price - $1 WHERE $1 = id",
                &long,
                Some("5: _ -5"),
            ),
            (
                "SET pieces = pieces - $1::int WHERE id = 7",
                &int,
                Some("7: -5 _"),
            ),
            (
                "SET pieces = pieces - $1 WHERE id = $1::int",
                &int,
                Some("5: -5 _"),
            ),
            (
                "SET pieces = pieces - $1 WHERE pieces >= $1 AND id = $1",
                &int,
                Some("5: -5 _ unless in_stock"),
            ),
            (
                "SET price = price - $1, pieces = pieces - $1 WHERE id = 7",
                &zero,
                Some("7: 0 0"),
            ),
            (
                "SET pieces = COALESCE(pieces, 0) - $1 WHERE id = 7",
                &int,
                Some("7: -5 _"),
            ),
            (
                "SET pieces = COALESCE(pieces, 0.5) - $1 WHERE id = 7",
                &zero,
                Some("7: 0 _"),
            ),
            (
                "SET pieces = pieces - 1 WHERE id IN ($1, 7)",
                &long,
                Some("5,7: -1 _"),
            ),
            (
                "SET pieces = pieces - 1 WHERE id IN ($1, 7.0)",
                &zero,
                Some("0,7: -1 _"),
            ),
            (
                "SET title = $1, pieces = pieces - $1 WHERE id = 7",
                &int,
                None,
            ),
            (
                "SET pieces = pieces - $1 WHERE id = 7 RETURNING $1",
                &int,
                None,
            ),
        ] {
            let values = [Some(value.clone())];
            let parameters = Parameters {
                types: &[],
                formats: &[1],
                values: &values,
            };
            let found = read(&format!("UPDATE stock {text}"), table.key_type, parameters);
            let found = found.map(|it| it.split("; ").next().map(str::to_owned));
            assert_eq!(found.flatten().as_deref(), expected, "{text}");
        }
    }

    #[test]
    fn a_key_has_one_text() {
        let key = |value: &str, key| {
            let text = format!("UPDATE stock SET pieces = pieces - 1 WHERE id = {}", value);
            let found = read(&text, key, Parameters::default())?;
            Some(found.strip_suffix(": -1 _")?.to_owned())
        };
        let numeric = KeyType::Numeric(Some((8, 2)));
        for (value, kind, expected) in [
            ("1.50", numeric, Some("1.5")),
            ("1.500", numeric, Some("1.5")),
            ("'1.5'", numeric, Some("1.5")),
            ("-0.00", numeric, Some("0")),
            ("1.505", numeric, None),
            ("123456789", numeric, None),
            ("'NaN'", numeric, None),
            ("1e2", KeyType::Numeric(None), Some("100")),
            ("'+007'", INTEGER, Some("7")),
            ("' 7 '", INTEGER, Some("7")),
            ("'abc'", KeyType::Text(Some(3)), Some("abc")),
            ("'abcd'", KeyType::Text(Some(3)), None),
            ("'a b '", KeyType::Text(None), Some("a b ")),
            ("7", KeyType::Text(None), None),
            (
                "'A0EEBC99-9C0B-4EF8-BB6D-6BB9BD380A11'",
                KeyType::Uuid,
                Some("a0eebc99-9c0b-4ef8-bb6d-6bb9bd380a11"),
            ),
            (
                "'a0eebc999c0b4ef8bb6d6bb9bd380a11'::uuid",
                KeyType::Uuid,
                Some("a0eebc99-9c0b-4ef8-bb6d-6bb9bd380a11"),
            ),
            ("'a0eebc99-9c0b4ef8bb6d6bb9bd380a11'", KeyType::Uuid, None),
            ("'x'", KeyType::Uuid, None),
        ] {
            assert_eq!(key(value, kind).as_deref(), expected, "{}", value);
        }
    }

    #[test]
    fn parameters_are_read_by_their_types_and_formats() {
        let text = "UPDATE stock SET pieces = pieces - $1 WHERE id = $2";
        let values = |one: &[u8], two: &[u8]| [Some(one.to_vec()), Some(two.to_vec())];
        let found = |types: &[u32], formats: &[i16], values: &[Option<Vec<u8>>]| {
            read(
                text,
                INTEGER,
                Parameters {
                    types,
                    formats,
                    values,
                },
            )
        };
        let expected = Some("5: -3 _".to_owned());
        assert_eq!(found(&[], &[], &values(b"3", b"5")), expected);
        assert_eq!(found(&[23, 20], &[0], &values(b"3", b" 5")), expected);
        assert_eq!(
            found(&[21, 20], &[1], &values(&[0, 3], &[0, 0, 0, 0, 0, 0, 0, 5])),
            expected
        );
        assert_eq!(
            found(&[0, 0], &[1, 1], &values(&[0, 0, 0, 3], &[0, 0, 0, 5])),
            expected
        );
        // 3.5 that shows no digit behind the point.
        let hidden = [0, 2, 0, 0, 0, 0, 0, 0, 0, 3, 0x13, 0x88];
        assert_eq!(found(&[1700, 0], &[1, 0], &values(&hidden, b"5")), expected);
        assert_eq!(
            found(&[701, 0], &[1, 0], &values(&3f64.to_be_bytes(), b"5")),
            expected
        );
        assert_eq!(
            found(&[701, 0], &[1, 0], &values(&2.5f64.to_be_bytes(), b"5")),
            None
        );
        assert_eq!(
            found(&[23, 701], &[0, 1], &values(b"3", &5f64.to_be_bytes())),
            None
        );
        let signed = |text: &str| {
            let values = values(&3f64.to_be_bytes(), &5f64.to_be_bytes());
            let parameters = Parameters {
                types: &[0, 701],
                formats: &[1],
                values: &values,
            };
            read(text, KeyType::Integer(i64::MIN, i64::MAX), parameters)
        };
        assert_eq!(
            signed("UPDATE stock SET pieces = pieces - (+ $1) WHERE id = 5"),
            expected
        );
        assert_eq!(
            signed("UPDATE stock SET pieces = pieces - 3 WHERE id = - $2"),
            None
        );
        assert_eq!(
            found(&[25, 23], &[], &values(b"3", b"5")),
            None,
            "integer - text"
        );
        assert_eq!(found(&[16, 23], &[], &values(b"t", b"5")), None);
        assert_eq!(found(&[], &[], &[Some(b"3".to_vec()), None]), None, "NULL");
        assert_eq!(
            found(&[], &[], &[Some(b"3".to_vec())]),
            None,
            "one is missing"
        );
        assert_eq!(
            found(&[23, 23], &[1], &values(b"3", b"5")),
            None,
            "not four bytes"
        );
    }
}
