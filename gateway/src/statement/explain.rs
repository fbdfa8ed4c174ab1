//! Why the program refused a statement, as its table's definition tells.

use crate::rows::{ColumnType, DefinedColumn, Definition};
use crate::sqlstate::{Failure, Report, SqlState};
use crate::statement::constant::{self, Input, Usage};
use crate::statement::line::{check_given, inserted};
use crate::statement::query::{Expression, Name};
use crate::statement::served::{no_column, unknown_column, Keys, Served, Show, Update};
use crate::value::{Number, Value};

/// Explains why the program refused a statement for a value or a column. None: the definition tells nothing.
///
/// `row` is the row of an INSERT.
pub fn refusal(
    definition: &Definition,
    served: &Served,
    row: usize,
    input: Input<'_>,
) -> Option<Failure> {
    let explained = match served {
        Served::Insert(insert) => {
            let values = insert.rows.get(row).map_or(&[][..], Vec::as_slice);
            inserted(insert, values, definition).and_then(|columns| {
                let mut assigned = columns.iter().zip(values);
                assigned
                    .try_for_each(|(column, value)| fits(column, value, input, Usage::Assigned))?;
                check_given(&columns, definition)
            })
        }
        Served::Update(update) => assigned(update, definition, input)
            .and_then(|()| compared(&update.keys, definition, input)),
        Served::Delete(delete) => compared(&delete.keys, definition, input),
        Served::Show(Show::Bounds(_, keys)) => compared(keys, definition, input),
        Served::Select(select) => match &select.keys {
            Some(keys) => compared(keys, definition, input),
            None => Ok(()),
        },
        Served::Define(_) | Served::Show(_) => Ok(()),
    };
    explained
        .err()
        .map(|report| report.table(definition.table.as_str()))
}

fn assigned(update: &Update, definition: &Definition, input: Input<'_>) -> Result<(), Failure> {
    let usage = if update.reserves {
        Usage::Changed
    } else {
        Usage::Assigned
    };
    for (at, assignment) in update.assignments.iter().enumerate() {
        let Name { text, span } = &assignment.column;
        let column = definition
            .column(text)
            .ok_or_else(|| no_column(&assignment.column, &definition.table))?;
        if update.assignments[..at]
            .iter()
            .any(|other| other.column.text == *text)
        {
            let text = format!("multiple assignments to same column \"{}\"", text);
            return Err(Report::error(SqlState::SYNTAX_ERROR, text).at(span.start));
        }
        fits(column, &assignment.value, input, usage)?;
    }
    Ok(())
}

fn compared(keys: &Keys, definition: &Definition, input: Input<'_>) -> Result<(), Failure> {
    let column = definition
        .column(&keys.column.text)
        .ok_or_else(|| unknown_column(&keys.column))?;
    if keys.is_array {
        return Ok(());
    }
    keys.values
        .iter()
        .try_for_each(|value| fits(column, value, input, Usage::Compared))
}

/// Checks that a value fits into its column.
fn fits(
    column: &DefinedColumn,
    expression: &Expression,
    input: Input<'_>,
    usage: Usage,
) -> Result<(), Failure> {
    let value = constant::value_for(expression, input, Some(column), usage)?;
    let misfit = match (column.column_type, &value) {
        (ColumnType::Text { bytes }, Value::Text(text)) => no_text_of(text, bytes),
        (ColumnType::Number { precision, scale }, Value::Number(number)) => {
            no_number_of(column, number, precision, scale)
        }
        _ => None,
    };
    match misfit {
        Some(report) => Err(report
            .column(column.name.as_str())
            .at(expression.span.start)),
        None => Ok(()),
    }
}

/// Makes the report of a text that a column of so many bytes doesn't hold.
fn no_text_of(written: &str, bytes: i32) -> Option<Failure> {
    if written.is_empty() {
        let text = "a text must not be empty";
        Some(Report::error(SqlState::INVALID_PARAMETER_VALUE, text))
    } else if i32::try_from(written.len()).map_or(true, |length| length > bytes) {
        let text = format!("value too long for type character varying({})", bytes);
        let detail = format!("The text has {} bytes.", written.len());
        Some(Report::error(SqlState::TEXT_TOO_LONG, text).detail(detail))
    } else {
        None
    }
}

/// Makes the report of a number that the column doesn't hold.
fn no_number_of(
    column: &DefinedColumn,
    number: &Number,
    precision: i32,
    scale: i32,
) -> Option<Failure> {
    let (whole, fraction) = number
        .digits
        .split_once('.')
        .unwrap_or((&number.digits, ""));
    let whole = if whole == "0" { 0 } else { whole.len() as i32 };
    if whole > precision - scale {
        let text = if scale == 0 {
            "value is out of range"
        } else {
            "numeric field overflow"
        };
        let detail = format!(
            "A field with precision {}, scale {} holds an absolute value less than 10^{}.",
            precision,
            scale,
            precision - scale
        );
        Some(Report::error(SqlState::NUMBER_OUT_OF_RANGE, text).detail(detail))
    } else if fraction.len() as i32 > scale {
        let text = format!(
            "value {} has too many digits after the decimal point",
            number
        );
        let detail = format!(
            "Column \"{}\" has {} digits after the decimal point, and values are not rounded.",
            column.name, scale
        );
        Some(Report::error(SqlState::INVALID_PARAMETER_VALUE, text).detail(detail))
    } else {
        None
    }
}
