//! Writes a statement as lines of the program.

use crate::limits;
use crate::rows::{DefinedColumn, Definition};
use crate::sqlstate::{Failure, Report, SqlState};
use crate::statement::constant::{self, Input, Usage};
use crate::statement::literal;
use crate::statement::parser::lexer::too_long;
use crate::statement::query::{Expression, ExpressionKind};
use crate::statement::select::Select;
use crate::statement::served::{no_column, Insert, Keys, Served, Show, Update};
use crate::value::Value;

/// The most bytes of a line, without its prefix and its line feed: with both it is written to a pipe whole.
pub const LONGEST_LINE: usize = limits::LINE - b"bank.65535: \n".len();

/// Returns whether a table's definition has to be known before its statement can be written: texts in quotes become
/// what their columns want.
pub fn needs_definition(served: &Served, input: Input<'_>) -> bool {
    let is_open = |value: &Expression| !constant::is_number(value, input.types);
    match served {
        Served::Select(_) => true,
        Served::Insert(insert) => {
            insert.rows.iter().flatten().any(is_open) || !insert.returning.is_empty()
        }
        Served::Update(update) => {
            update.assignments.iter().any(|it| is_open(&it.value))
                || update.keys.values.iter().any(is_open)
                || !update.returning.is_empty()
        }
        Served::Delete(delete) => {
            delete.keys.values.iter().any(is_open) || !delete.returning.is_empty()
        }
        Served::Show(Show::Bounds(_, keys)) => keys.values.iter().any(is_open),
        Served::Define(_) | Served::Show(_) => false,
    }
}

/// Appends a statement to `out` as a line. A SELECT has [others](write_select).
///
/// `row` is the row of an INSERT. The table's definition is known if [`needs_definition`] says so.
///
/// # Errors
///
/// Fails if a value is none that its column takes, or if a line becomes too long. Then `out` is as long as it was.
pub fn write(
    served: &Served,
    row: usize,
    definition: Option<&Definition>,
    input: Input<'_>,
    out: &mut Vec<u8>,
) -> Result<(), Failure> {
    let start = out.len();
    let written = append(served, row, definition, input, out);
    let written = written.and_then(|()| check_length(&out[start..]));
    if written.is_err() {
        out.truncate(start);
    }
    written
}

fn check_length(line: &[u8]) -> Result<(), Failure> {
    if line.len() > LONGEST_LINE {
        return Err(too_long());
    }
    Ok(())
}

fn append(
    served: &Served,
    row: usize,
    definition: Option<&Definition>,
    input: Input<'_>,
    out: &mut Vec<u8>,
) -> Result<(), Failure> {
    match served {
        Served::Select(select) => words(out, &["SELECT * FROM ", &select.table.name.text]),
        Served::Insert(insert) => append_row(insert, row, definition, input, out)?,
        Served::Update(update) => {
            words(out, &["UPDATE ", &update.table.name.text, " SET "]);
            append_assignments(update, definition, input, out)?;
            append_key(out, &update.keys, definition, input)?;
        }
        Served::Delete(delete) => {
            words(out, &["DELETE FROM ", &delete.table.name.text]);
            append_key(out, &delete.keys, definition, input)?;
        }
        Served::Define(define) => words(out, &[&define.line]),
        Served::Show(Show::Table(table)) => words(out, &["SHOW TABLE ", &table.name.text]),
        Served::Show(Show::Bounds(table, keys)) => {
            words(out, &["SHOW BOUNDS ", &table.name.text]);
            append_key(out, keys, definition, input)?;
        }
        Served::Show(Show::Journal(Some(table))) => {
            words(out, &["SHOW JOURNAL ", &table.name.text]);
        }
        Served::Show(Show::Journal(None)) => words(out, &["SHOW JOURNAL"]),
        Served::Show(Show::Statistics) => words(out, &["SHOW STATISTICS"]),
    }
    Ok(())
}

/// Appends the lines of a SELECT to `out`, each with its line feed: one for each key, or one for all rows. Returns how
/// many they are.
///
/// # Errors
///
/// Fails if the key's column doesn't take one of the values, or if a line becomes too long.
pub fn write_select(
    select: &Select,
    definition: &Definition,
    input: Input<'_>,
    out: &mut Vec<u8>,
) -> Result<usize, Failure> {
    let table = &select.table.name.text;
    let (keys, named) = match (select.key_values(definition, input)?, &select.keys) {
        (Some(keys), Some(named)) => (keys, named),
        _ => {
            words(out, &["SELECT * FROM ", table, "\n"]);
            return Ok(1);
        }
    };
    let place = named.values.first().map_or(0, |value| value.span.start);
    for key in &keys {
        let start = out.len();
        let column = &named.column.text;
        words(out, &["SELECT * FROM ", table, " WHERE ", column, " = "]);
        append_value(out, key).map_err(|report| report.at(place))?;
        check_length(&out[start..])?;
        out.push(b'\n');
    }
    Ok(keys.len())
}

/// Returns the values that are known of the row that a statement writes, as a SELECT would show them: one for each column
/// of its table. What is NULL, or not given, is refused when the row is written.
///
/// # Errors
///
/// Fails if a column doesn't take its value.
pub fn known_values(
    served: &Served,
    row: usize,
    definition: &Definition,
    input: Input<'_>,
) -> Result<Vec<Option<String>>, Failure> {
    let mut known = vec![None; definition.columns.len()];
    let mut note = |name: &str, value: &Expression, usage| -> Result<(), Failure> {
        let place = definition
            .columns
            .iter()
            .position(|column| column.name == name);
        if let Some(place) = place {
            let column = &definition.columns[place];
            known[place] = match constant::value_for(value, input, Some(column), usage) {
                Ok(value) => Some(column.printed(&value)),
                Err(report) if report.state == SqlState::NOT_NULL_VIOLATION => None,
                Err(report) => return Err(report),
            };
        }
        Ok(())
    };
    if let Some(keys) = served.keys() {
        for value in &keys.values {
            note(&keys.column.text, value, Usage::Compared)?;
        }
    }
    match served {
        Served::Insert(insert) => {
            let values = insert.rows.get(row).map_or(&[][..], Vec::as_slice);
            for (column, value) in inserted(insert, values, definition)?.iter().zip(values) {
                note(&column.name, value, Usage::Assigned)?;
            }
        }
        Served::Update(update) if !update.reserves => {
            for assignment in &update.assignments {
                note(&assignment.column.text, &assignment.value, Usage::Assigned)?;
            }
        }
        _ => {}
    }
    Ok(known)
}

fn words(out: &mut Vec<u8>, words: &[&str]) {
    for word in words {
        out.extend_from_slice(word.as_bytes());
    }
}

/// Appends a value: a number with its sign, or a text in quotes.
fn append_value(out: &mut Vec<u8>, value: &Value) -> Result<(), Failure> {
    match value {
        Value::Null => Err(constant::null_value()),
        Value::Number(number) => {
            let sign = if number.negative { "-" } else { "" };
            words(out, &[sign, &number.digits]);
            Ok(())
        }
        Value::Text(text) => literal::append_text(out, text),
        Value::List(_) => Err(Report::missing("an array as a value")),
    }
}

fn append_for(
    out: &mut Vec<u8>,
    expression: &Expression,
    input: Input<'_>,
    column: Option<&DefinedColumn>,
    usage: Usage,
) -> Result<(), Failure> {
    if let Some(digits) = digits(expression, column) {
        words(out, &[digits]);
        return Ok(());
    }
    let value = constant::value_for(expression, input, column, usage)?;
    append_value(out, &value).map_err(|report| report.at(expression.span.start))
}

/// Returns the digits of a whole number that is written as the program writes it, if a column takes it as it is. None: it
/// is another value, which has to be computed.
fn digits<'a>(expression: &'a Expression, column: Option<&DefinedColumn>) -> Option<&'a str> {
    let digits = match &expression.kind {
        ExpressionKind::Number(written) if column.map_or(true, DefinedColumn::is_number) => written,
        _ => return None,
    };
    let is_plain = digits.len() <= limits::MOST_DIGITS
        && digits.bytes().all(|byte| byte.is_ascii_digit())
        && (!digits.starts_with('0') || digits.len() == 1);
    is_plain.then_some(digits.as_str())
}

fn append_key(
    out: &mut Vec<u8>,
    keys: &Keys,
    definition: Option<&Definition>,
    input: Input<'_>,
) -> Result<(), Failure> {
    let column = definition.and_then(|definition| definition.column(&keys.column.text));
    words(out, &[" WHERE ", &keys.column.text, " = "]);
    match keys.values.first() {
        Some(value) => append_for(out, value, input, column, Usage::Compared),
        None => Ok(()),
    }
}

fn append_assignments(
    update: &Update,
    definition: Option<&Definition>,
    input: Input<'_>,
    out: &mut Vec<u8>,
) -> Result<(), Failure> {
    for (at, assignment) in update.assignments.iter().enumerate() {
        let name = &assignment.column.text;
        let column = definition.and_then(|definition| definition.column(name));
        let sign = |is_negative| match is_negative ^ assignment.is_subtracted {
            true => " - ",
            false => " + ",
        };
        words(out, &[if at > 0 { ", " } else { "" }, name, " = "]);
        if !update.reserves {
            append_for(out, &assignment.value, input, column, Usage::Assigned)?;
            continue;
        }
        if let Some(digits) = digits(&assignment.value, column) {
            words(out, &[name, sign(false), digits]);
            continue;
        }
        let place = assignment.value.span.start;
        let value = constant::value_for(&assignment.value, input, column, Usage::Changed)?;
        match value {
            Value::Number(mut number) => {
                words(out, &[name, sign(number.negative)]);
                number.negative = false;
                append_value(out, &Value::Number(number))?;
            }
            _ => {
                let text = "a RESERVABLE column is changed by a number";
                return Err(Report::error(SqlState::INVALID_PARAMETER_VALUE, text).at(place));
            }
        }
    }
    Ok(())
}

fn append_row(
    insert: &Insert,
    row: usize,
    definition: Option<&Definition>,
    input: Input<'_>,
    out: &mut Vec<u8>,
) -> Result<(), Failure> {
    words(out, &["INSERT INTO ", &insert.table.name.text]);
    for (at, column) in insert.columns.iter().enumerate() {
        words(out, &[if at == 0 { " (" } else { ", " }, &column.text]);
    }
    words(
        out,
        &[
            if insert.columns.is_empty() { "" } else { ")" },
            " VALUES (",
        ],
    );
    let values = insert.rows.get(row).map_or(&[][..], Vec::as_slice);
    let columns = match definition {
        Some(definition) => inserted(insert, values, definition)?,
        None => Vec::new(),
    };
    for (at, value) in values.iter().enumerate() {
        words(out, &[if at > 0 { ", " } else { "" }]);
        append_for(out, value, input, columns.get(at).copied(), Usage::Assigned)?;
    }
    out.push(b')');
    definition.map_or(Ok(()), |definition| check_given(&columns, definition))
}

/// Checks that the columns to which an INSERT gives values are all of the table's. PostgreSQL finds that one is missing when
/// it writes the row, behind all else that can be wrong.
///
/// # Errors
///
/// Fails if one is missing.
pub fn check_given(given: &[&DefinedColumn], definition: &Definition) -> Result<(), Failure> {
    let mut columns = definition.columns.iter();
    match columns.find(|column| !given.iter().any(|given| given.name == column.name)) {
        Some(column) => Err(no_value(column, definition)),
        None => Ok(()),
    }
}

/// Returns the columns of the values of an INSERT.
///
/// # Errors
///
/// Fails if it gives not just one value to each column that it lists.
pub fn inserted<'a>(
    insert: &Insert,
    values: &[Expression],
    definition: &'a Definition,
) -> Result<Vec<&'a DefinedColumn>, Failure> {
    let mut columns: Vec<&DefinedColumn> = Vec::with_capacity(definition.columns.len());
    for name in &insert.columns {
        let column = definition
            .column(&name.text)
            .ok_or_else(|| no_column(name, &definition.table))?;
        if columns.iter().any(|known| known.name == name.text) {
            let text = format!("column \"{}\" specified more than once", name.text);
            let report = Report::error(SqlState::DUPLICATE_COLUMN, text);
            return Err(report.column(name.text.as_str()).at(name.span.start));
        }
        columns.push(column);
    }
    if insert.columns.is_empty() {
        columns.extend(&definition.columns);
    }
    if let Some(extra) = values.get(columns.len()) {
        let text = "INSERT has more expressions than target columns";
        return Err(Report::error(SqlState::SYNTAX_ERROR, text).at(extra.span.start));
    }
    if values.len() < columns.len() && !insert.columns.is_empty() {
        let text = "INSERT has more target columns than expressions";
        let place = insert.columns[values.len()].span.start;
        return Err(Report::error(SqlState::SYNTAX_ERROR, text).at(place));
    }
    columns.truncate(values.len());
    Ok(columns)
}

fn no_value(column: &DefinedColumn, definition: &Definition) -> Failure {
    let text = format!(
        "null value in column \"{}\" of relation \"{}\" violates not-null constraint",
        column.name, definition.table
    );
    Report::error(SqlState::NOT_NULL_VIOLATION, text)
        .hint("An INSERT must give each column a value.")
        .table(definition.table.as_str())
        .column(column.name.as_str())
}
