//! Casts: a value of one type as one of another, and texts as values.

use postgres_protocol::Oid;

use crate::catalog::missing;
use crate::catalog::namespace;
use crate::catalog::operators::{in_range, out_of_range};
use crate::catalog::types::{self, oid};
use crate::catalog::value::Value;
use crate::catalog::{output, World};
use crate::decimal::Decimal;
use crate::sqlstate::{Failure, Report, SqlState};
use crate::statement::literal::{cut, not_utf8, LONGEST_NAME};
use crate::value::{self, array, integer};
use crate::wire::backend::Format;

/// Returns whether a text is read as a value of this type.
fn is_read(to: Oid) -> bool {
    types::is_text(to)
        || types::is_number(to)
        || types::is_oid(to)
        || matches!(to, oid::BOOL | oid::XID | oid::VOID)
        || types::element(to).map_or(false, is_read)
}

/// Returns whether values of a type can be written as text.
fn is_written(from: Oid) -> bool {
    is_read(from) || matches!(from, oid::TIMESTAMPTZ)
}

/// Fails if there is no cast from one type to another here.
///
/// # Errors
///
/// Fails with 0A000, which names both types.
pub fn check(from: Oid, to: Oid) -> Result<(), Failure> {
    let is_opaque = |oid: Oid| types::by_oid(oid).map_or(true, |known| known.kind != 'b');
    let fits = from == to
        || (types::is_text(to) && (is_written(from) || !is_opaque(from)))
        || (types::is_text(from) && is_read(to))
        || (types::is_number(from) && types::is_number(to))
        || (is_whole(from) && is_whole(to))
        || (from == oid::BOOL && to == oid::INT4)
        || (from == oid::INT4 && to == oid::BOOL)
        || matches!((types::element(from), types::element(to)), (Some(from), Some(to)) if check(from, to).is_ok());
    if fits && to != oid::BPCHAR {
        return Ok(());
    }
    let what = format!(
        "a cast from {} to {}",
        types::display(from),
        types::display(to)
    );
    Err(missing(&what))
}

/// Returns whether values of the type are whole numbers, oids among them.
fn is_whole(oid: Oid) -> bool {
    types::range(oid).is_some()
}

/// Returns a value as one of another type. `from` is unknown for a text in quotes.
///
/// # Errors
///
/// Fails if the value is none of the type, or if there is no such cast here.
pub fn cast(
    value: Value,
    from: Oid,
    to: Oid,
    modifier: i32,
    world: &World,
) -> Result<Value, Failure> {
    if value.is_null() {
        return Ok(Value::Null);
    }
    let value = match value {
        Value::Text(text) if !types::is_text(to) => read(&text, from, to, world)?,
        // A cast spells a boolean out; it is printed as one letter.
        Value::Bool(value) if types::is_text(to) => {
            let word = if value { "true" } else { "false" };
            Value::text(shortened(word, to))
        }
        value if types::is_text(to) => {
            Value::text(shortened(&output::text(&value, from, world)?, to))
        }
        Value::Array(elements) => {
            let (from, to) = match (types::element(from), types::element(to)) {
                (Some(from), Some(to)) => (from, to),
                _ => return Err(no_cast(from, to)),
            };
            let elements: Result<Vec<Value>, Failure> = elements
                .iter()
                .map(|element| cast(element.clone(), from, to, modifier, world))
                .collect();
            return Ok(Value::Array(elements?.into()));
        }
        Value::Bool(value) if to == oid::INT4 => Value::Integer(i64::from(value)),
        Value::Integer(number) if to == oid::BOOL => Value::Bool(number != 0),
        value => number(value, to)?,
    };
    sized(value, to, modifier)
}

fn no_cast(from: Oid, to: Oid) -> Failure {
    missing(&format!(
        "a cast from {} to {}",
        types::display(from),
        types::display(to)
    ))
}

/// Cuts a text to what its type holds: a name to 63 bytes, a "char" to one.
fn shortened(text: &str, to: Oid) -> &str {
    match to {
        oid::NAME => cut(text, LONGEST_NAME),
        oid::CHAR => text
            .chars()
            .next()
            .map_or("", |first| &text[..first.len_utf8()]),
        _ => text,
    }
}

/// Applies a type's modifier: the length of a text, precision and scale of a number.
fn sized(value: Value, to: Oid, modifier: i32) -> Result<Value, Failure> {
    const HEADER: i32 = 4;
    if modifier < HEADER {
        return Ok(value);
    }
    let modifier = modifier - HEADER;
    match (to, value) {
        (oid::VARCHAR, Value::Text(text)) => {
            let most = modifier as usize;
            Ok(match text.char_indices().nth(most) {
                Some((end, _)) => Value::text(&text[..end]),
                None => Value::Text(text),
            })
        }
        (oid::NUMERIC, Value::Decimal(number)) => {
            let (precision, scale) = ((modifier >> 16) as u32, (modifier & 0x7ff) as u32);
            value::sized(number, precision, scale).map(Value::Decimal)
        }
        (_, value) => Ok(value),
    }
}

/// Returns a number as one of another type.
fn number(value: Value, to: Oid) -> Result<Value, Failure> {
    let whole = |number: i64| {
        if in_range(number, to) {
            Ok(Value::Integer(number))
        } else {
            Err(out_of_range(to))
        }
    };
    match (value, to) {
        (Value::Integer(number), oid::NUMERIC) => Ok(Value::Decimal(Decimal::from(number))),
        (Value::Integer(number), oid::FLOAT4 | oid::FLOAT8) => Ok(Value::Float(number as f64)),
        // An integer below zero is an oid of 32 bits too.
        (Value::Integer(number), to) if types::is_oid(to) && number < 0 => {
            match i32::try_from(number) {
                Ok(number) => Ok(Value::Integer(i64::from(number as u32))),
                Err(_) => Err(out_of_range(oid::OID)),
            }
        }
        (Value::Integer(number), _) => whole(number),
        (Value::Decimal(number), oid::NUMERIC) => Ok(Value::Decimal(number)),
        (Value::Decimal(number), oid::FLOAT4 | oid::FLOAT8) => Ok(Value::Float(number.to_float())),
        (Value::Decimal(number), _) => number
            .rounded()
            .ok_or_else(|| out_of_range(to))
            .and_then(whole),
        (Value::Float(number), oid::FLOAT4) => Ok(Value::Float(f64::from(number as f32))),
        (Value::Float(number), oid::FLOAT8) => Ok(Value::Float(number)),
        _ => Err(missing(&format!("a cast to {}", types::display(to)))),
    }
}

fn invalid(to: Oid, text: &str) -> Failure {
    Report::error(
        SqlState::INVALID_TEXT_REPRESENTATION,
        format!(
            "invalid input syntax for type {}: \"{}\"",
            types::display(to),
            text
        ),
    )
}

/// Reads a value of a type from its text, as PostgreSQL does.
fn read(text: &str, from: Oid, to: Oid, world: &World) -> Result<Value, Failure> {
    let trimmed = text.trim_matches(|mark: char| mark.is_ascii_whitespace());
    match to {
        oid::BOOL => boolean(trimmed)
            .map(Value::Bool)
            .ok_or_else(|| invalid(to, text)),
        oid::INT2 | oid::INT4 | oid::INT8 => integer(to, text).map(Value::Integer),
        oid::OID | oid::XID => match trimmed.parse::<i64>() {
            Ok(number) if in_range(number, to) => Ok(Value::Integer(number)),
            Ok(number) if number < 0 && i32::try_from(number).is_ok() => {
                Ok(Value::Integer(i64::from(number as i32 as u32)))
            }
            Ok(_) => Err(too_large(text, to)),
            Err(_) => Err(invalid(to, text)),
        },
        oid::NUMERIC => Decimal::parse(trimmed)
            .map(Value::Decimal)
            .ok_or_else(|| invalid(to, text)),
        oid::FLOAT4 | oid::FLOAT8 => match Decimal::parse(trimmed) {
            Some(number) => Ok(Value::Float(number.to_float())),
            None => Err(invalid(to, text)),
        },
        oid::VOID => Ok(Value::text("")),
        to if types::is_named_oid(to) => {
            namespace::read_named(text, to, &world.tables, &world.user).map(Value::from)
        }
        oid::INT2VECTOR | oid::OIDVECTOR => {
            let element = types::element(to).unwrap_or(oid::INT4);
            let elements: Result<Vec<Value>, Failure> = trimmed
                .split_ascii_whitespace()
                .map(|part| read(part, from, element, world))
                .collect();
            Ok(Value::Array(elements?.into()))
        }
        to => match types::element(to) {
            Some(element) => {
                let elements: Result<Vec<Value>, Failure> = array::elements(text)?
                    .iter()
                    .map(|piece| match piece {
                        None => Ok(Value::Null),
                        Some(piece) if types::is_text(element) => {
                            Ok(Value::text(shortened(piece, element)))
                        }
                        Some(piece) => read(piece, oid::UNKNOWN, element, world),
                    })
                    .collect();
                Ok(Value::Array(elements?.into()))
            }
            None => Err(no_cast(
                if from == oid::UNKNOWN {
                    oid::TEXT
                } else {
                    from
                },
                to,
            )),
        },
    }
}

fn too_large(text: &str, to: Oid) -> Failure {
    let text = format!(
        "value \"{}\" is out of range for type {}",
        text,
        types::display(to)
    );
    Report::error(SqlState::NUMBER_OUT_OF_RANGE, text)
}

/// Reads the value of the parameter `$number`.
///
/// # Errors
///
/// Fails if the bytes are no value of its type, or if its type isn't read here.
pub fn parameter(
    number: usize,
    oid: Oid,
    format: Format,
    bytes: Option<&[u8]>,
    world: &World,
) -> Result<Value, Failure> {
    let bytes = match bytes {
        Some(bytes) => bytes,
        None => return Ok(Value::Null),
    };
    let as_text = || std::str::from_utf8(bytes).map_err(|_| not_utf8(bytes));
    if format == Format::Text {
        return cast(Value::text(as_text()?), oid::UNKNOWN, oid, -1, world);
    }
    let whole = |size: usize| -> Result<i64, Failure> {
        if bytes.len() != size {
            return Err(value::no_binary(number));
        }
        let negative = bytes[0] >= 0x80 && !types::is_oid(oid);
        let start = if negative { -1 } else { 0 };
        Ok(bytes
            .iter()
            .fold(start, |number, &byte| number << 8 | i64::from(byte)))
    };
    Ok(match oid {
        oid::BOOL => Value::Bool(whole(1)? & 1 == 1),
        oid::INT2 => Value::Integer(whole(2)?),
        oid::INT8 => Value::Integer(whole(8)?),
        oid::INT4 | oid::XID => Value::Integer(whole(4)?),
        oid if types::is_oid(oid) => Value::Integer(whole(4)?),
        oid::CHAR if bytes == [0] => Value::text(""),
        oid if types::is_text(oid) || oid == oid::UNKNOWN => Value::text(as_text()?),
        oid => match types::element(oid) {
            Some(element) => {
                let elements: Result<Vec<Value>, Failure> =
                    array::binary_elements(number, element, bytes)?
                        .into_iter()
                        .map(|bytes| parameter(number, element, format, bytes, world))
                        .collect();
                Value::Array(elements?.into())
            }
            None => {
                let what = format!("a parameter of the type {} in binary", types::display(oid));
                return Err(missing(&what));
            }
        },
    })
}

/// Reads a boolean: a word, or the beginning of one.
pub fn boolean(text: &str) -> Option<bool> {
    let text = text.to_ascii_lowercase();
    let begins = |word: &str| !text.is_empty() && word.starts_with(&text);
    match text.as_str() {
        "1" | "on" => Some(true),
        "0" | "off" | "of" => Some(false),
        _ if begins("true") || begins("yes") => Some(true),
        _ if begins("false") || begins("no") => Some(false),
        _ => None,
    }
}

#[cfg(test)]
mod tests {
    use super::*;

    fn cast_text(text: &str, to: Oid, modifier: i32) -> Result<String, Failure> {
        let world = World::default();
        let value = cast(Value::text(text), oid::UNKNOWN, to, modifier, &world)?;
        output::text(&value, to, &world)
    }

    #[test]
    fn texts_become_values_as_in_postgresql_15() {
        for (text, to, modifier, expected) in [
            (" 12 ", oid::INT4, -1, "12"),
            ("-5", oid::INT2, -1, "-5"),
            ("t", oid::BOOL, -1, "t"),
            ("off", oid::BOOL, -1, "f"),
            ("2.55", oid::NUMERIC, (5 << 16 | 1) + 4, "2.6"),
            ("abcdef", oid::VARCHAR, 7, "abc"),
            ("public", oid::NAME, -1, "public"),
            ("rest", oid::CHAR, -1, "r"),
            ("{0}", 1028, -1, "{0}"),
            (
                "{a, \"b c\" ,NULL,\"NULL\"}",
                oid::TEXT_ARRAY,
                -1,
                "{a,\"b c\",NULL,\"NULL\"}",
            ),
            ("{}", oid::TEXT_ARRAY, -1, "{}"),
            ("{a\\b}", oid::TEXT_ARRAY, -1, "{ab}"),
            ("1 2", oid::INT2VECTOR, -1, "1 2"),
            ("pg_class", oid::REGCLASS, -1, "pg_class"),
            ("-1", oid::OID, -1, "4294967295"),
        ] {
            assert_eq!(cast_text(text, to, modifier).unwrap(), expected, "{}", text);
        }
    }

    #[test]
    fn what_is_no_value_is_refused_as_there() {
        for (text, to, state) in [
            ("x", oid::INT4, SqlState::INVALID_TEXT_REPRESENTATION),
            ("70000", oid::INT2, SqlState::NUMBER_OUT_OF_RANGE),
            ("maybe", oid::BOOL, SqlState::INVALID_TEXT_REPRESENTATION),
            ("{a", oid::TEXT_ARRAY, SqlState::INVALID_TEXT_REPRESENTATION),
            (
                "{a,}",
                oid::TEXT_ARRAY,
                SqlState::INVALID_TEXT_REPRESENTATION,
            ),
            ("none", oid::REGCLASS, SqlState::UNDEFINED_TABLE),
        ] {
            assert_eq!(
                cast_text(text, to, -1).unwrap_err().state,
                state,
                "{}",
                text
            );
        }
    }

    #[test]
    fn numbers_are_rounded_and_have_ranges() {
        let world = World::default();
        let cast = |value: Value, from, to| cast(value, from, to, -1, &world);
        let decimal = |text: &str| Value::Decimal(Decimal::parse(text).unwrap());
        assert_eq!(
            cast(decimal("-2.55"), oid::NUMERIC, oid::INT4).unwrap(),
            (-3_i64).into()
        );
        assert!(cast(decimal("3000000000"), oid::NUMERIC, oid::INT4).is_err());
        assert_eq!(
            cast((-1_i64).into(), oid::INT4, oid::OID).unwrap(),
            4_294_967_295_i64.into()
        );
        assert!(check(oid::BOOL, oid::NUMERIC).is_err());
    }
}
