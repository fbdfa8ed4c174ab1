//! SELECT of a table: which of its forms are served, and what its result has of the table's rows.

use std::iter;
use std::rc::Rc;

use postgres_protocol::Oid;

use crate::catalog::types;
use crate::rows::shape::{Order, Output, Shape};
use crate::rows::Definition;
use crate::sqlstate::{Failure, Report, SqlState};
use crate::statement::constant::{self, Datum, Input, Usage};
use crate::statement::query::{
    Body, ColumnName, Expression, ExpressionKind, Name, OrderBy, Query, Relation, Span, Target,
};
use crate::statement::relations;
use crate::statement::served::{unknown_column, whole_row, Keys, Table, Verb};
use crate::value::{oid, Value};
use crate::wire::backend::Column;

/// The most rows that a SELECT reads by their keys: each is a line of the program.
const MOST_KEYS: usize = 1_000;

/// A column of a result, or all columns of the table.
#[derive(Clone, Debug, PartialEq, Eq)]
pub struct Shown {
    /// What it shows.
    pub what: What,
    /// Its name, if it isn't the one of the table's column.
    pub label: Option<String>,
    /// Whether it has the table's name: if no column is called so, it is the row as a whole.
    pub may_be_row: bool,
    /// Where it is written.
    pub span: Span,
}

/// What a column of a result shows.
#[derive(Clone, Debug, PartialEq, Eq)]
pub enum What {
    /// `*`
    All,
    /// A column.
    Column(Name),
    /// The same value in each row.
    Constant(Expression),
    /// How many rows there are; of the column, if one is named, which has a value in each row.
    Count(Option<Name>),
    /// Whether there are rows.
    Exists,
}

impl Shown {
    /// Returns whether it counts the rows.
    pub fn is_count(&self) -> bool {
        matches!(self.what, What::Count(_))
    }
}

/// What rows are sorted by.
#[derive(Clone, Debug, PartialEq, Eq)]
enum SortKey {
    /// The column of the result at this place, from 1.
    Place(usize),
    /// A column of the table.
    Column(Name),
    /// The same in each row.
    Constant,
}

/// A SELECT of a table.
#[derive(Clone, Debug, PartialEq, Eq)]
pub struct Select {
    /// The table.
    pub table: Table,
    /// What it shows.
    pub shown: Vec<Shown>,
    /// The rows, by their keys. None: all.
    pub keys: Option<Keys>,
    /// The strength of FOR UPDATE and its like.
    pub locks: Option<String>,
    /// The SELECT whose rows are counted, if it is another one.
    inner: Option<Box<Select>>,
    order: Vec<(SortKey, bool, Span)>,
    limit: Option<Expression>,
    offset: Option<Expression>,
}

impl Select {
    /// Returns LIMIT and OFFSET, as far as they are there.
    pub fn bounds(&self) -> impl Iterator<Item = &Expression> {
        self.limit.iter().chain(&self.offset)
    }
}

fn missing(what: &str, span: Span) -> Failure {
    Verb::Select.missing(what, span.start)
}

/// Makes the served form of a query that reads a table of the program.
///
/// # Errors
///
/// Fails if the query does what isn't served.
pub fn lowered(query: Query) -> Result<Select, Failure> {
    if let Some(with) = query.with.first() {
        return Err(missing("WITH of a table", with.alias.name.span));
    }
    let select = match query.body {
        Body::Select(select) => *select,
        Body::Set(..) => return Err(missing("UNION, INTERSECT or EXCEPT of a table", query.span)),
        Body::Query(_) | Body::Values(_) => {
            return Err(missing("this query of a table", query.span))
        }
    };
    let mut from = select.from;
    let mut inner = None;
    let table = match (from.pop(), from.is_empty()) {
        (Some(Relation::Subquery { query, .. }), true) if select.condition.is_none() => {
            let counted = counted(*query)?;
            let table = Table {
                alias: None,
                ..counted.table.clone()
            };
            inner = Some(Box::new(counted));
            table
        }
        (Some(Relation::Table { name, alias, .. }), true) => {
            if let Some(column) = alias.as_ref().and_then(|alias| alias.columns.first()) {
                return Err(missing("an alias with names of columns", column.span));
            }
            Table::new(name, alias.map(|alias| alias.name))?
        }
        _ => return Err(missing("a query of several tables", select.span)),
    };
    if select.is_distinct {
        return Err(missing("DISTINCT", select.span));
    }
    if let Some(group) = select.group.first().or(select.having.as_ref()) {
        return Err(missing("GROUP BY or HAVING", group.span));
    }
    let shown = shown(&table, select.targets, Verb::Select)?;
    let counts = shown.iter().any(Shown::is_count);
    let is_plain = |shown: &Shown| matches!(shown.what, What::Count(None) | What::Constant(_));
    if inner.is_some() && !(counts && shown.iter().all(is_plain)) {
        return Err(missing("a query of a query, but its count", select.span));
    }
    let single = shown
        .iter()
        .find(|shown| matches!(shown.what, What::All | What::Column(_)));
    if let (true, Some(single)) = (counts, single) {
        let name = match &single.what {
            What::Column(name) => name.text.as_str(),
            _ => "*",
        };
        let text = format!(
            "column \"{}.{}\" must appear in the GROUP BY clause or be used in an aggregate function",
            table.name.text, name
        );
        return Err(Report::error(SqlState::GROUPING_ERROR, text).at(single.span.start));
    }
    for locking in &query.locking {
        if counts {
            let text = format!(
                "FOR {} is not allowed with aggregate functions",
                locking.strength
            );
            let report = Report::error(SqlState::FEATURE_NOT_SUPPORTED, text);
            return Err(report.at(locking.span.start));
        }
        for name in locking.names() {
            let name = name?;
            if name.text != table.shown_name().text {
                return Err(locking.unknown(name));
            }
        }
    }
    let keys = match (&inner, select.condition) {
        (Some(inner), _) => inner.keys.clone(),
        (None, Some(condition)) => Some(Keys::new(&table, condition, Verb::Select, true)?),
        (None, None) => None,
    };
    let order = query
        .order
        .into_iter()
        .map(|order| sort_key(order, &table, &shown, counts))
        .collect::<Result<_, _>>()?;
    for bound in query.limit.iter().chain(&query.offset) {
        constant::check(bound, Verb::Select)?;
    }
    Ok(Select {
        table,
        shown,
        keys,
        locks: query
            .locking
            .into_iter()
            .next()
            .map(|locking| locking.strength),
        inner,
        order,
        limit: query.limit,
        offset: query.offset,
    })
}

/// Makes the served form of a query whose rows are counted by another one.
fn counted(query: Query) -> Result<Select, Failure> {
    let span = query.span;
    let select = lowered(query)?;
    if select.inner.is_some()
        || select.bounds().next().is_some()
        || select.shown.iter().any(Shown::is_count)
    {
        return Err(missing("a count of this query", span));
    }
    Ok(select)
}

/// Makes the served form of `SELECT EXISTS (SELECT .. FROM t ..)`. None: it is another query.
///
/// # Errors
///
/// Fails if the query inside does what isn't served.
pub fn exists(query: &Query) -> Result<Option<Select>, Failure> {
    let select = match &query.body {
        Body::Select(select) if select.from.is_empty() && select.condition.is_none() => select,
        _ => return Ok(None),
    };
    let (inner, label, span) = match &select.targets[..] {
        [Target::Expression(expression, label)] => match &expression.kind {
            ExpressionKind::Exists(inner) => (inner, label, expression.span),
            _ => return Ok(None),
        },
        _ => return Ok(None),
    };
    if !relations::reads_table(inner) {
        return Ok(None);
    }
    let inner = counted(Query::clone(inner))?;
    let label = label
        .as_ref()
        .map_or("exists", |label| &label.text)
        .to_owned();
    Ok(Some(Select {
        table: inner.table.clone(),
        shown: vec![Shown {
            what: What::Exists,
            label: Some(label),
            may_be_row: false,
            span,
        }],
        keys: inner.keys.clone(),
        locks: None,
        inner: Some(Box::new(inner)),
        order: Vec::new(),
        limit: query.limit.clone(),
        offset: query.offset.clone(),
    }))
}

/// Makes what a result shows of a table.
///
/// # Errors
///
/// Fails at what isn't served.
pub fn shown(table: &Table, targets: Vec<Target>, verb: Verb) -> Result<Vec<Shown>, Failure> {
    targets
        .into_iter()
        .map(|target| match target {
            Target::Star(qualifier, span) => {
                if let Some(name) = qualifier {
                    let schema = name.schema.as_ref().map(|schema| schema.text.as_str());
                    let qualifier: Vec<&str> = schema
                        .into_iter()
                        .chain([name.name.text.as_str()])
                        .collect();
                    table.check_qualifier(&qualifier, span.start)?;
                }
                Ok(Shown {
                    what: What::All,
                    label: None,
                    may_be_row: false,
                    span,
                })
            }
            Target::Expression(expression, label) => {
                let span = expression.span;
                let (what, name) = what(table, expression, verb)?;
                let label = label.map(|label| label.text).or(name);
                let may_be_row = match &what {
                    What::Column(name) | What::Count(Some(name)) => {
                        name.text == table.shown_name().text
                    }
                    _ => false,
                };
                Ok(Shown {
                    what,
                    label,
                    may_be_row,
                    span,
                })
            }
        })
        .collect()
}

/// Returns what an expression shows, and the name that the column has without AS.
fn what(
    table: &Table,
    expression: Expression,
    verb: Verb,
) -> Result<(What, Option<String>), Failure> {
    match expression.kind {
        ExpressionKind::Column(column) => Ok((What::Column(table.column(column)?), None)),
        ExpressionKind::Function(call)
            if call.name.name.text == "count"
                && call
                    .name
                    .schema
                    .as_ref()
                    .map_or(true, |schema| schema.text == "pg_catalog") =>
        {
            let span = expression.span;
            if call.is_distinct || !call.order.is_empty() {
                return Err(verb.missing("count(DISTINCT ..)", span.start));
            }
            let mut arguments = call.arguments;
            let column = match (arguments.pop().map(|it| it.kind), arguments.is_empty()) {
                (None, true) if call.is_star => None,
                (Some(ExpressionKind::Column(column)), true) => Some(table.column(column)?),
                (Some(ExpressionKind::Number(_) | ExpressionKind::Boolean(_)), true) => None,
                _ => return Err(verb.missing("count of this", span.start)),
            };
            Ok((What::Count(column), Some("count".to_owned())))
        }
        _ if constant::is_constant(&expression) => {
            let label = label_of(&expression).unwrap_or("?column?").to_owned();
            Ok((What::Constant(expression), Some(label)))
        }
        ExpressionKind::Function(call) => {
            let what = format!("the function {}", call.name.name.text);
            Err(verb.missing(&what, expression.span.start))
        }
        _ => Err(verb.missing(
            "an expression in the list of columns",
            expression.span.start,
        )),
    }
}

/// Returns the name that PostgreSQL gives a column of a constant. None: it has none.
pub fn label_of(expression: &Expression) -> Option<&str> {
    match &expression.kind {
        ExpressionKind::Cast(operand, to) => label_of(operand).or(Some(&to.name.name.text)),
        _ => None,
    }
}

fn sort_key(
    order: OrderBy,
    table: &Table,
    shown: &[Shown],
    counts: bool,
) -> Result<(SortKey, bool, Span), Failure> {
    let span = order.expression.span;
    let by_label = |text: &str| {
        let label_of = |shown: &Shown| match (&shown.label, &shown.what) {
            (Some(label), _) => label == text,
            (None, What::Column(name)) => name.text == text,
            _ => false,
        };
        let mut named = shown.iter().filter(|shown| label_of(shown));
        let first = named.next();
        let is_same = |other: &Shown| match (first.map(|first| &first.what), &other.what) {
            (Some(What::Column(first)), What::Column(other)) => first.text == other.text,
            (Some(What::Constant(first)), What::Constant(other)) => first.kind == other.kind,
            (Some(What::Count(_)), What::Count(_)) => true,
            _ => false,
        };
        if named.any(|other| !is_same(other)) {
            let text = format!("ORDER BY \"{}\" is ambiguous", text);
            return Err(Report::error(SqlState::AMBIGUOUS_COLUMN, text).at(span.start));
        }
        Ok(first)
    };
    let key = match order.expression.kind {
        ExpressionKind::Number(written) => match written.parse() {
            Ok(place) => SortKey::Place(place),
            Err(_) => {
                let text = "non-integer constant in ORDER BY";
                return Err(Report::error(SqlState::SYNTAX_ERROR, text).at(span.start));
            }
        },
        ExpressionKind::Column(column) => {
            let named = match &column {
                ColumnName::Plain(name) => by_label(&name.text)?,
                ColumnName::Qualified(_) => None,
            };
            match named.map(|shown| &shown.what) {
                Some(What::Column(name)) => SortKey::Column(name.clone()),
                Some(_) => SortKey::Constant,
                None if counts => {
                    return Err(missing("ORDER BY of a count", span));
                }
                None => SortKey::Column(table.column(column)?),
            }
        }
        _ => return Err(missing("ORDER BY an expression", span)),
    };
    Ok((key, order.is_descending, span))
}

/// Returns the columns of a table with the columns that are shown, each with its place or its value.
///
/// # Errors
///
/// Fails if the table hasn't a column that is named, or if a constant can't be computed.
fn outputs(
    shown: &[Shown],
    definition: &Definition,
    input: Option<Input<'_>>,
    types: &[Oid],
) -> Result<(Rc<[Column]>, Vec<Output>), Failure> {
    let all = || (0..definition.columns.len()).map(Output::Column);
    if let [Shown {
        what: What::All, ..
    }] = shown
    {
        return Ok((definition.result_columns(), all().collect()));
    }
    let (mut columns, mut outputs) = (Vec::new(), Vec::new());
    for shown in shown {
        match &shown.what {
            What::All => {
                columns.extend(definition.result_columns().iter().cloned());
                outputs.extend(all());
                continue;
            }
            What::Column(name) => {
                let place = place_of(name, shown.may_be_row, definition)?;
                columns.push(definition.columns[place].result_column());
                outputs.push(Output::Column(place));
            }
            What::Constant(expression) => {
                let (oid, modifier) = constant::type_of(expression, types);
                let oid = if oid == oid::UNKNOWN { oid::TEXT } else { oid };
                let column = Column::plain("", oid);
                columns.push(Column { modifier, ..column });
                let datum = input.map(|input| constant::evaluate(expression, input));
                outputs.push(Output::Constant(match datum {
                    Some(datum) => datum?.text(),
                    None => None,
                }));
            }
            What::Count(column) => {
                if let Some(column) = column {
                    place_of(column, shown.may_be_row, definition)?;
                }
                columns.push(Column::plain("count", oid::INT8));
                outputs.push(Output::Count);
            }
            What::Exists => {
                columns.push(Column::plain("exists", oid::BOOL));
                outputs.push(Output::Exists);
            }
        }
        if let (Some(label), Some(column)) = (&shown.label, columns.last_mut()) {
            column.name = label.clone();
        }
    }
    Ok((columns.into(), outputs))
}

/// Returns the place of a column. `may_be_row`: its name is the table's too.
fn place_of(name: &Name, may_be_row: bool, definition: &Definition) -> Result<usize, Failure> {
    let mut columns = definition.columns.iter();
    let place = columns.position(|column| column.name == name.text);
    place.ok_or_else(|| match may_be_row {
        true => whole_row(name),
        false => unknown_column(name),
    })
}

/// Returns the columns of the result of what is shown of a table.
///
/// # Errors
///
/// Fails if the table hasn't a column that is named.
pub fn columns(
    shown: &[Shown],
    definition: &Definition,
    types: &[Oid],
) -> Result<Rc<[Column]>, Failure> {
    outputs(shown, definition, None, types).map(|(columns, _)| columns)
}

/// Returns the row that RETURNING shows of a row whose values are known: `value` gives that of a column.
///
/// # Errors
///
/// Fails if the table hasn't a column that is named, or if `value` doesn't know it.
pub fn returned_row(
    shown: &[Shown],
    definition: &Definition,
    input: Input<'_>,
    mut value: impl FnMut(usize) -> Option<String>,
) -> Result<Vec<Option<String>>, Failure> {
    let (_, outputs) = outputs(shown, definition, Some(input), input.types)?;
    let places = shown.iter().flat_map(|shown| {
        let columns = match shown.what {
            What::All => definition.columns.len(),
            _ => 1,
        };
        iter::repeat(shown.span.start).take(columns)
    });
    let row = outputs.into_iter().zip(places).map(|(output, at)| match output {
        Output::Column(place) => value(place).map(Some).ok_or_else(|| {
            let what = format!("RETURNING column \"{}\"", definition.columns[place].name);
            let hint = "Only what the statement itself tells is known: the key, constants, and values that it \
                        gives. SELECT the row for the rest.";
            Report::missing(&what).hint(hint).at(at)
        }),
        Output::Constant(text) => Ok(text),
        Output::Count | Output::Exists => Ok(None),
    });
    row.collect()
}

impl Select {
    /// Returns the columns of its result.
    ///
    /// # Errors
    ///
    /// Fails if the table hasn't a column that is named.
    pub fn columns(&self, definition: &Definition, types: &[Oid]) -> Result<Rc<[Column]>, Failure> {
        columns(&self.shown, definition, types)
    }

    /// Returns what its result has of the table's rows.
    ///
    /// # Errors
    ///
    /// Fails if the table hasn't a column that is named, if rows are to be sorted by another column than the key, or if
    /// a bound or a constant can't be computed.
    pub fn shape(&self, definition: &Definition, input: Input<'_>) -> Result<Shape, Failure> {
        if let Some(inner) = &self.inner {
            inner.shape(definition, input)?;
        }
        let (columns, outputs) = outputs(&self.shown, definition, Some(input), input.types)?;
        let order = self.order(definition, &outputs)?;
        let bound = |expression: &Option<Expression>, name: &str, state| match expression {
            Some(expression) => bound(expression, input, name, state),
            None => Ok(None),
        };
        let limit = bound(&self.limit, "LIMIT", SqlState::INVALID_ROW_COUNT_IN_LIMIT)?;
        let offset = bound(
            &self.offset,
            "OFFSET",
            SqlState::INVALID_ROW_COUNT_IN_OFFSET,
        )?;
        Ok(Shape {
            columns,
            outputs,
            order,
            offset: offset.unwrap_or(0),
            limit,
        })
    }

    fn order(&self, definition: &Definition, outputs: &[Output]) -> Result<Order, Failure> {
        let is_of_all = |output: &Output| matches!(output, Output::Count | Output::Exists);
        let is_single = outputs.iter().any(is_of_all)
            || self
                .keys
                .as_ref()
                .map_or(false, |keys| keys.values.len() == 1 && !keys.is_array);
        let mut order = None;
        for (key, is_descending, span) in &self.order {
            let column = match key {
                SortKey::Column(name) => {
                    let may_be_row = name.text == self.table.shown_name().text;
                    Some(place_of(name, may_be_row, definition)?)
                }
                SortKey::Constant => None,
                SortKey::Place(place) => {
                    match place.checked_sub(1).and_then(|at| outputs.get(at)) {
                        Some(Output::Column(column)) => Some(*column),
                        Some(_) => None,
                        None => {
                            let text = format!("ORDER BY position {} is not in select list", place);
                            let state = SqlState::INVALID_COLUMN_REFERENCE;
                            return Err(Report::error(state, text).at(span.start));
                        }
                    }
                }
            };
            match column {
                _ if order.is_some() || is_single => {}
                None => {}
                Some(column) if column == definition.key => {
                    order = Some(if *is_descending {
                        Order::Falling
                    } else {
                        Order::Rising
                    });
                }
                Some(column) => {
                    let name = &definition.columns[column].name;
                    let text = format!("ORDER BY column \"{}\", which is not the key", name);
                    let hint = "Rows come in the order of the key: sort by it, or sort in the application.";
                    return Err(Report::missing(&text).hint(hint).at(span.start));
                }
            }
        }
        Ok(order.unwrap_or_default())
    }

    /// Returns the keys of the rows that it reads, in the order of the program and each once. None: all rows.
    ///
    /// # Errors
    ///
    /// Fails if the column doesn't take one of the values.
    pub fn key_values(
        &self,
        definition: &Definition,
        input: Input<'_>,
    ) -> Result<Option<Vec<Value>>, Failure> {
        let keys = match &self.keys {
            Some(keys) => keys,
            None => return Ok(None),
        };
        let column = definition.column(&keys.column.text);
        if column.is_none() {
            return Err(unknown_column(&keys.column));
        }
        let mut values = Vec::with_capacity(keys.values.len());
        for expression in &keys.values {
            let place = expression.span.start;
            if keys.is_array {
                for datum in constant::elements(expression, input)? {
                    let value = datum.fit(column, Usage::Compared);
                    values.push(value.map_err(|report| report.at(place))?);
                }
            } else {
                let value = constant::value_for(expression, input, column, Usage::Compared)?;
                values.push(value);
            }
        }
        values.sort_by(Value::compare);
        values.dedup();
        if values.len() > MOST_KEYS {
            let report = Report::error(SqlState::LIMIT_EXCEEDED, "too many keys in a SELECT");
            let detail = format!("A SELECT reads at most {} rows by their keys.", MOST_KEYS);
            return Err(report.detail(detail).at(keys.column.span.start));
        }
        Ok(Some(values))
    }
}

/// Returns how many rows LIMIT or OFFSET tells. None: NULL.
fn bound(
    expression: &Expression,
    input: Input<'_>,
    name: &str,
    state: SqlState,
) -> Result<Option<u64>, Failure> {
    let place = expression.span.start;
    let of = constant::type_of(expression, input.types).0;
    let mismatch = || {
        let of = types::name(of);
        let text = format!("argument of {} must be type bigint, not type {}", name, of);
        Err(Report::error(SqlState::DATATYPE_MISMATCH, text).at(place))
    };
    // A NULL has a type too, if it is cast.
    if matches!(of, oid::BOOL | oid::TEXT | oid::VARCHAR) {
        return mismatch();
    }
    let count = match constant::evaluate(expression, input)? {
        Datum::Null => return Ok(None),
        Datum::Integer(count, _) => Some(count),
        Datum::Numeric(count) => count.rounded(),
        Datum::Unknown(text) => {
            Some(crate::value::integer(oid::INT8, &text).map_err(|report| report.at(place))?)
        }
        Datum::Boolean(_) | Datum::Text(..) => return mismatch(),
    };
    match count.map(u64::try_from) {
        Some(Ok(count)) => Ok(Some(count)),
        Some(Err(_)) => Err(Report::error(
            state,
            format!("{} must not be negative", name),
        )),
        None => Err(Report::error(SqlState::NUMBER_OUT_OF_RANGE, "bigint out of range").at(place)),
    }
}
