//! Values as a client gets them, as text and in binary.

use postgres_protocol::Oid;

use crate::catalog::missing;
use crate::catalog::namespace;
use crate::catalog::types::{self, oid};
use crate::catalog::value::Value;
use crate::catalog::World;
use crate::sqlstate::Failure;
use crate::value::append_cell;
use crate::wire::backend::Format;

/// Writes a value as text. NULL is an empty one.
///
/// # Errors
///
/// Fails if values of the type are not written here.
pub fn text(value: &Value, oid: Oid, world: &World) -> Result<String, Failure> {
    Ok(match value {
        Value::Null => String::new(),
        Value::Bool(value) => (if *value { "t" } else { "f" }).to_owned(),
        Value::Integer(number) if types::is_named_oid(oid) => {
            namespace::write_named(*number as Oid, oid, &world.tables, &world.user)
        }
        Value::Integer(number) => number.to_string(),
        Value::Decimal(number) => number.to_string(),
        Value::Float(number) => float(*number)?,
        Value::Time(microseconds) => time(*microseconds),
        Value::Text(text) => text.to_string(),
        Value::Array(elements) => array(elements, oid, world)?,
        Value::Row(fields) => row(fields),
    })
}

fn float(number: f64) -> Result<String, Failure> {
    let size = number.abs();
    if number == 0.0 || (1e-4..1e15).contains(&size) {
        Ok(number.to_string())
    } else {
        Err(missing(
            "a number of the type double precision of this size",
        ))
    }
}

fn array(elements: &[Value], oid: Oid, world: &World) -> Result<String, Failure> {
    let element = types::element(oid).unwrap_or(oid::TEXT);
    let is_vector = matches!(oid, oid::INT2VECTOR | oid::OIDVECTOR);
    let written: Result<Vec<String>, Failure> = elements
        .iter()
        .map(|value| match value {
            Value::Null => Ok("NULL".to_owned()),
            value => {
                let text = text(value, element, world)?;
                Ok(if is_vector { text } else { quoted(&text) })
            }
        })
        .collect();
    Ok(if is_vector {
        written?.join(" ")
    } else {
        format!("{{{}}}", written?.join(","))
    })
}

/// Puts an element of an array into quotes if it has to be.
fn quoted(text: &str) -> String {
    let needs = text.is_empty()
        || text.eq_ignore_ascii_case("NULL")
        || text.contains(|mark: char| {
            matches!(mark, '{' | '}' | ',' | '"' | '\\')
                || mark.is_ascii_whitespace()
                || mark == '\x0b'
        });
    if needs {
        format!("\"{}\"", text.replace('\\', "\\\\").replace('"', "\\\""))
    } else {
        text.to_owned()
    }
}

/// Writes a row whose fields are numbers or plain texts.
fn row(fields: &[Value]) -> String {
    let written: Vec<String> = fields
        .iter()
        .map(|field| match field {
            Value::Integer(number) => number.to_string(),
            Value::Text(text) => quoted_field(text),
            Value::Bool(value) => (if *value { "t" } else { "f" }).to_owned(),
            Value::Decimal(number) => number.to_string(),
            _ => String::new(),
        })
        .collect();
    format!("({})", written.join(","))
}

fn quoted_field(text: &str) -> String {
    let needs = text.is_empty()
        || text.contains(|mark: char| {
            matches!(mark, '(' | ')' | ',' | '"' | '\\') || mark.is_ascii_whitespace()
        });
    if needs {
        format!("\"{}\"", text.replace('\\', "\\\\").replace('"', "\"\""))
    } else {
        text.to_owned()
    }
}

/// Microseconds of a day.
const DAY: i64 = 86_400_000_000;

/// Days from the first of January 1970 to that of 2000.
const DAYS_BEFORE: i64 = 10_957;

/// Writes microseconds since the first second of 2000 as a time in UTC.
fn time(microseconds: i64) -> String {
    let (days, rest) = (microseconds.div_euclid(DAY), microseconds.rem_euclid(DAY));
    let (year, month, day) = date(days + DAYS_BEFORE);
    let (seconds, fraction) = (rest / 1_000_000, rest % 1_000_000);
    let fraction = match fraction {
        0 => String::new(),
        fraction => format!(".{:06}", fraction).trim_end_matches('0').to_owned(),
    };
    let (hour, minute, second) = (seconds / 3_600, seconds / 60 % 60, seconds % 60);
    format!(
        "{:04}-{:02}-{:02} {:02}:{:02}:{:02}{}+00",
        year, month, day, hour, minute, second, fraction
    )
}

/// Returns year, month and day of a day, counted from the first of January 1970.
fn date(day: i64) -> (i64, i64, i64) {
    // Years begin in March here, so that the day that leap years have is their last one.
    let day = day + 719_468;
    let era = day.div_euclid(146_097);
    let day_of_era = day.rem_euclid(146_097);
    let year_of_era =
        (day_of_era - day_of_era / 1_460 + day_of_era / 36_524 - day_of_era / 146_096) / 365;
    let day_of_year = day_of_era - (365 * year_of_era + year_of_era / 4 - year_of_era / 100);
    let month = (5 * day_of_year + 2) / 153;
    let day_of_month = day_of_year - (153 * month + 2) / 5 + 1;
    let month = if month < 10 { month + 3 } else { month - 9 };
    let year = year_of_era + era * 400 + i64::from(month <= 2);
    (year, month, day_of_month)
}

/// Appends a value in its type's binary form.
///
/// # Errors
///
/// Fails if values of the type are not written in binary here.
pub fn append_binary(
    out: &mut Vec<u8>,
    value: &Value,
    oid: Oid,
    world: &World,
) -> Result<(), Failure> {
    match value {
        Value::Null => {}
        Value::Bool(value) => out.push(u8::from(*value)),
        Value::Integer(number) => match oid {
            oid::INT2 => out.extend_from_slice(&(*number as i16).to_be_bytes()),
            oid::INT8 => out.extend_from_slice(&number.to_be_bytes()),
            // Oids are unsigned: these are their 32 bits.
            _ => out.extend_from_slice(&(*number as u32).to_be_bytes()),
        },
        Value::Decimal(number) => {
            let mut cell = Vec::new();
            append_cell(&mut cell, &number.to_string(), oid::NUMERIC, Format::Binary)
                .map_err(|_| missing("this number in binary"))?;
            out.extend_from_slice(&cell[4..]);
        }
        Value::Float(number) if oid == oid::FLOAT4 => {
            out.extend_from_slice(&(*number as f32).to_be_bytes());
        }
        Value::Float(number) => out.extend_from_slice(&number.to_be_bytes()),
        Value::Time(microseconds) => out.extend_from_slice(&microseconds.to_be_bytes()),
        // "char" is one byte, which is 0 where there is no character.
        Value::Text(text) if oid == oid::CHAR => out.push(text.bytes().next().unwrap_or(0)),
        Value::Text(text) if is_bytes_of_text(oid) => out.extend_from_slice(text.as_bytes()),
        Value::Array(elements) => append_array(out, elements, oid, world)?,
        Value::Text(_) | Value::Row(_) => {
            return Err(missing(&format!(
                "the type {} in binary",
                types::display(oid)
            )))
        }
    }
    Ok(())
}

/// Returns whether the binary form of a type is its text.
fn is_bytes_of_text(oid: Oid) -> bool {
    types::is_text(oid) || matches!(oid, oid::UNKNOWN | oid::VOID | 114 | 194)
}

fn append_array(
    out: &mut Vec<u8>,
    elements: &[Value],
    oid: Oid,
    world: &World,
) -> Result<(), Failure> {
    let element = types::element(oid).unwrap_or(oid::TEXT);
    let has_null = elements.iter().any(Value::is_null);
    let dimensions = i32::from(!elements.is_empty());
    for word in [dimensions, i32::from(has_null), element as i32] {
        out.extend_from_slice(&word.to_be_bytes());
    }
    if elements.is_empty() {
        return Ok(());
    }
    let first = i32::from(!matches!(oid, oid::INT2VECTOR | oid::OIDVECTOR));
    for word in [elements.len() as i32, first] {
        out.extend_from_slice(&word.to_be_bytes());
    }
    for value in elements {
        append_cell_of(out, value, element, Format::Binary, world)?;
    }
    Ok(())
}

/// Appends a value with its length in front; NULL has the length -1.
///
/// # Errors
///
/// Fails if values of the type are not written here.
pub fn append_cell_of(
    out: &mut Vec<u8>,
    value: &Value,
    oid: Oid,
    format: Format,
    world: &World,
) -> Result<(), Failure> {
    if value.is_null() {
        out.extend_from_slice(&(-1_i32).to_be_bytes());
        return Ok(());
    }
    let start = out.len();
    out.extend_from_slice(&[0; 4]);
    match format {
        Format::Text => out.extend_from_slice(text(value, oid, world)?.as_bytes()),
        Format::Binary => append_binary(out, value, oid, world)?,
    }
    let length = (out.len() - start - 4) as u32;
    out[start..start + 4].copy_from_slice(&length.to_be_bytes());
    Ok(())
}

#[cfg(test)]
mod tests {
    use super::*;

    #[test]
    fn times_are_printed_as_in_postgresql() {
        for (microseconds, printed) in [
            (0, "2000-01-01 00:00:00+00"),
            (1_500_000, "2000-01-01 00:00:01.5+00"),
            (-1, "1999-12-31 23:59:59.999999+00"),
            (59 * DAY, "2000-02-29 00:00:00+00"),
            (366 * DAY, "2001-01-01 00:00:00+00"),
            (849_276_381_261_839, "2026-11-29 14:06:21.261839+00"),
        ] {
            assert_eq!(time(microseconds), printed);
        }
    }

    #[test]
    fn arrays_are_written_as_in_postgresql() {
        let world = World::default();
        let array = Value::texts(["a", "b c", "", "NULL", "q\"", "{"]);
        let printed = text(&array, oid::TEXT_ARRAY, &world).unwrap();
        assert_eq!(printed, "{a,\"b c\",\"\",\"NULL\",\"q\\\"\",\"{\"}");
        assert_eq!(
            text(&Value::integers([1, 2]), oid::INT2VECTOR, &world).unwrap(),
            "1 2"
        );
        let mut out = Vec::new();
        append_binary(&mut out, &Value::integers([7]), oid::INT2VECTOR, &world).unwrap();
        assert_eq!(
            out,
            [0, 0, 0, 1, 0, 0, 0, 0, 0, 0, 0, 21, 0, 0, 0, 1, 0, 0, 0, 0, 0, 0, 0, 2, 0, 7]
        );
    }

    #[test]
    fn rows_are_written_as_in_postgresql() {
        assert_eq!(
            row(&[1_i64.into(), "a b".into(), Value::Null, true.into()]),
            "(1,\"a b\",,t)"
        );
    }
}
