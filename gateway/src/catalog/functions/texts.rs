//! Functions of texts and numbers.

use crate::catalog::execution::Executor;
use crate::catalog::functions::Table;
use crate::catalog::namespace::quoted;
use crate::catalog::operators::{in_range, out_of_range};
use crate::catalog::output;
use crate::catalog::plan::Call;
use crate::catalog::types;
use crate::catalog::value::Value;
use crate::sqlstate::{Failure, Report, SqlState};

pub const BODIES: Table = &[
    ("lower(text)", |executor, _, arguments| {
        executor.new_text(arguments[0].as_text().to_lowercase())
    }),
    ("upper(text)", |executor, _, arguments| {
        executor.new_text(arguments[0].as_text().to_uppercase())
    }),
    ("length(text)", length),
    ("char_length(text)", length),
    ("character_length(text)", length),
    ("octet_length(text)", |_, _, arguments| {
        Ok((arguments[0].as_text().len() as i64).into())
    }),
    ("substring(text,int4)", substring),
    ("substring(text,int4,int4)", substring),
    ("substr(text,int4)", substring),
    ("substr(text,int4,int4)", substring),
    ("left(text,int4)", |executor, _, arguments| {
        let text = arguments[0].as_text();
        let kept = from_end(text, arguments[1].as_integer());
        executor.new_text(text.chars().take(kept).collect::<String>())
    }),
    ("right(text,int4)", |executor, _, arguments| {
        let text = arguments[0].as_text();
        let kept = from_end(text, arguments[1].as_integer());
        let passed = text.chars().count() - kept.min(text.chars().count());
        executor.new_text(text.chars().skip(passed).collect::<String>())
    }),
    ("btrim(text)", trimmed::<true, true>),
    ("btrim(text,text)", trimmed::<true, true>),
    ("ltrim(text)", trimmed::<true, false>),
    ("ltrim(text,text)", trimmed::<true, false>),
    ("rtrim(text)", trimmed::<false, true>),
    ("rtrim(text,text)", trimmed::<false, true>),
    ("replace(text,text,text)", |executor, _, arguments| {
        let (text, piece) = (arguments[0].as_text(), arguments[1].as_text());
        if piece.is_empty() {
            return Ok(arguments[0].clone());
        }
        let longest = text.len().saturating_mul(arguments[2].as_text().len() + 1);
        executor.keep(longest)?;
        executor.new_text(text.replace(piece, arguments[2].as_text()))
    }),
    ("position(text,text)", position),
    ("strpos(text,text)", position),
    ("starts_with(text,text)", |_, _, arguments| {
        Ok(arguments[0]
            .as_text()
            .starts_with(arguments[1].as_text())
            .into())
    }),
    ("split_part(text,text,int4)", |executor, _, arguments| {
        let (text, delimiter) = (arguments[0].as_text(), arguments[1].as_text());
        let number = arguments[2].as_integer();
        let parts: Vec<&str> = if delimiter.is_empty() {
            vec![text]
        } else {
            text.split(delimiter).collect()
        };
        if number == 0 {
            let text = "field position must not be zero";
            return Err(Report::error(SqlState::INVALID_PARAMETER_VALUE, text));
        }
        let place = if number > 0 {
            number - 1
        } else {
            parts.len() as i64 + number
        };
        let part = usize::try_from(place)
            .ok()
            .and_then(|place| parts.get(place));
        executor.new_text(part.unwrap_or(&""))
    }),
    ("concat(any)", |executor, call, arguments| {
        let mut text = String::new();
        for (value, &oid) in arguments.iter().zip(&call.types) {
            text.push_str(&output::text(value, oid, executor.world)?);
        }
        executor.new_text(text)
    }),
    ("concat_ws(text,any)", |executor, call, arguments| {
        if arguments[0].is_null() {
            return Ok(Value::Null);
        }
        let mut parts = Vec::new();
        for (value, &oid) in arguments.iter().zip(&call.types).skip(1) {
            if !value.is_null() {
                parts.push(output::text(value, oid, executor.world)?);
            }
        }
        executor.keep(arguments[0].as_text().len() * parts.len())?;
        executor.new_text(parts.join(arguments[0].as_text()))
    }),
    ("quote_ident(text)", |executor, _, arguments| {
        executor.new_text(quoted(arguments[0].as_text()))
    }),
    ("quote_literal(text)", |executor, _, arguments| {
        let text = arguments[0].as_text();
        let escape = if text.contains('\\') { "E" } else { "" };
        let inside = text.replace('\\', "\\\\").replace('\'', "''");
        executor.new_text(format!("{}'{}'", escape, inside))
    }),
    ("like_escape(text,text)", |executor, _, arguments| {
        let (pattern, escape) = (arguments[0].as_text(), arguments[1].as_text());
        match escape {
            "\\" => Ok(arguments[0].clone()),
            escape if escape.chars().count() > 1 => {
                let text = "invalid escape string";
                Err(Report::error(SqlState::INVALID_ESCAPE_SEQUENCE, text)
                    .hint("Escape string must be empty or one character."))
            }
            escape => {
                let pattern = escaped(pattern, escape.chars().next());
                executor.new_text(pattern)
            }
        }
    }),
    ("abs(int2)", absolute),
    ("abs(int4)", absolute),
    ("abs(int8)", absolute),
    ("mod(int4,int4)", remainder),
    ("mod(int8,int8)", remainder),
    ("pg_typeof(any)", |_, call, _| Ok(call.types[0].into())),
    ("num_nulls(any)", |_, _, arguments| {
        Ok((arguments.iter().filter(|value| value.is_null()).count() as i64).into())
    }),
    ("num_nonnulls(any)", |_, _, arguments| {
        Ok((arguments.iter().filter(|value| !value.is_null()).count() as i64).into())
    }),
    ("pg_size_pretty(int8)", |executor, _, arguments| {
        executor.new_text(pretty_size(arguments[0].as_integer()))
    }),
];

fn length(_: &mut Executor<'_>, _: &Call, arguments: &[Value]) -> Result<Value, Failure> {
    Ok((arguments[0].as_text().chars().count() as i64).into())
}

fn position(_: &mut Executor<'_>, _: &Call, arguments: &[Value]) -> Result<Value, Failure> {
    let text = arguments[0].as_text();
    let place = text.find(arguments[1].as_text());
    Ok(place
        .map_or(0, |place| text[..place].chars().count() as i64 + 1)
        .into())
}

/// Cuts a piece out of a text: the first character has the number 1, and a piece may begin in front of it.
fn substring(executor: &mut Executor<'_>, _: &Call, arguments: &[Value]) -> Result<Value, Failure> {
    let from = arguments[1].as_integer();
    let end = match arguments.get(2) {
        Some(count) if count.as_integer() < 0 => {
            let text = "negative substring length not allowed";
            return Err(Report::error(SqlState::SUBSTRING_ERROR, text));
        }
        Some(count) => from.saturating_add(count.as_integer()),
        None => i64::MAX,
    };
    let first = from.max(1);
    let passed = usize::try_from(first - 1).unwrap_or(usize::MAX);
    let count = usize::try_from((end - first).max(0)).unwrap_or(usize::MAX);
    let piece: String = arguments[0]
        .as_text()
        .chars()
        .skip(passed)
        .take(count)
        .collect();
    executor.new_text(piece)
}

/// Returns how many characters are kept: a count below zero leaves so many out.
fn from_end(text: &str, count: i64) -> usize {
    let all = text.chars().count() as i64;
    let kept = if count < 0 { all + count } else { count };
    usize::try_from(kept.max(0)).unwrap_or(usize::MAX)
}

fn trimmed<const AT_START: bool, const AT_END: bool>(
    executor: &mut Executor<'_>,
    _: &Call,
    arguments: &[Value],
) -> Result<Value, Failure> {
    let marks = arguments.get(1).map_or(" ", Value::as_text);
    let mut text = arguments[0].as_text();
    executor.spend(text.len().saturating_mul(marks.len()) / 16)?;
    if AT_START {
        text = text.trim_start_matches(|mark| marks.contains(mark));
    }
    if AT_END {
        text = text.trim_end_matches(|mark| marks.contains(mark));
    }
    executor.new_text(text)
}

/// Rewrites a pattern of LIKE whose escape is another character, or none.
fn escaped(pattern: &str, escape: Option<char>) -> String {
    let mut written = String::new();
    let mut marks = pattern.chars();
    while let Some(mark) = marks.next() {
        if Some(mark) == escape {
            written.push('\\');
            written.extend(marks.next());
        } else {
            if mark == '\\' {
                written.push('\\');
            }
            written.push(mark);
        }
    }
    written
}

fn absolute(_: &mut Executor<'_>, call: &Call, arguments: &[Value]) -> Result<Value, Failure> {
    let number = arguments[0].as_integer().checked_abs();
    number
        .filter(|&number| in_range(number, call.result))
        .map(Value::Integer)
        .ok_or_else(|| out_of_range(call.result))
}

fn remainder(_: &mut Executor<'_>, call: &Call, arguments: &[Value]) -> Result<Value, Failure> {
    let arithmetic = crate::catalog::operators::Arithmetic::Remainder;
    debug_assert!(types::is_integer(call.result));
    arithmetic.compute(call.result, &arguments[0], &arguments[1])
}

/// Writes a size in bytes with a unit, as pg_size_pretty does.
fn pretty_size(size: i64) -> String {
    // Each unit is used up to 10 of the next one; sizes are rounded half away from zero.
    const LIMIT: i64 = 10 * 1_024;
    if size.unsigned_abs() < LIMIT as u64 {
        return format!("{} bytes", size);
    }
    let mut halves = i128::from(size) / 512;
    for unit in ["kB", "MB", "GB", "TB", "PB"] {
        let rounded = (halves + halves.signum()) / 2;
        if halves.abs() < i128::from(2 * LIMIT - 1) || unit == "PB" {
            return format!("{} {}", rounded, unit);
        }
        halves /= 1_024;
    }
    String::new()
}

#[cfg(test)]
mod tests {
    use super::*;

    #[test]
    fn sizes_are_written_as_in_postgresql_15() {
        for (size, written) in [
            (0, "0 bytes"),
            (8192, "8192 bytes"),
            (10_239, "10239 bytes"),
            (10_240, "10 kB"),
            (16_384, "16 kB"),
            (10_485_247, "10239 kB"),
            (10_485_248, "10 MB"),
            (-10_240, "-10 kB"),
            (1 << 40, "1024 GB"),
        ] {
            assert_eq!(pretty_size(size), written);
        }
    }

    #[test]
    fn patterns_are_rewritten_for_another_escape() {
        assert_eq!(escaped("a!%b\\_", Some('!')), "a\\%b\\\\_");
        assert_eq!(escaped("a\\%", None), "a\\\\%");
    }
}
