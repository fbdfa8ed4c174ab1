//! Functions of arrays and series.

use crate::catalog::execution::Executor;
use crate::catalog::functions::Table;
use crate::catalog::output;
use crate::catalog::plan::Call;
use crate::catalog::types::{self, oid};
use crate::catalog::value::Value;
use crate::sqlstate::{Failure, Report, SqlState};

pub const BODIES: Table = &[
    (
        "array_append(anycompatiblearray,anycompatible)",
        |executor, _, arguments| {
            let mut elements = arguments[0].as_array().to_vec();
            executor.keep(32 * elements.len())?;
            elements.push(arguments[1].clone());
            Ok(Value::Array(elements.into()))
        },
    ),
    (
        "array_cat(anycompatiblearray,anycompatiblearray)",
        |executor, _, arguments| {
            let mut elements = arguments[0].as_array().to_vec();
            elements.extend_from_slice(arguments[1].as_array());
            executor.keep(32 * elements.len())?;
            Ok(Value::Array(elements.into()))
        },
    ),
    ("array_length(anyarray,int4)", |_, _, arguments| {
        Ok(dimension(arguments).map(|array| array.len() as i64).into())
    }),
    ("array_lower(anyarray,int4)", |_, call, arguments| {
        Ok(dimension(arguments).map(|_| first(call)).into())
    }),
    ("array_upper(anyarray,int4)", |_, call, arguments| {
        Ok(dimension(arguments)
            .map(|array| first(call) + array.len() as i64 - 1)
            .into())
    }),
    ("array_ndims(anyarray)", |_, _, arguments| {
        Ok((!arguments[0].as_array().is_empty())
            .then_some(1_i64)
            .into())
    }),
    ("cardinality(anyarray)", |_, _, arguments| {
        Ok((arguments[0].as_array().len() as i64).into())
    }),
    (
        "array_position(anycompatiblearray,anycompatible)",
        |_, call, arguments| {
            if arguments[0].is_null() {
                return Ok(Value::Null);
            }
            let is_it = |element: &Value| element.key() == arguments[1].key();
            let place = arguments[0].as_array().iter().position(is_it);
            Ok(place.map(|place| place as i64 + first(call)).into())
        },
    ),
    (
        "array_remove(anycompatiblearray,anycompatible)",
        |executor, _, arguments| {
            if arguments[0].is_null() {
                return Ok(Value::Null);
            }
            executor.spend(arguments[0].as_array().len())?;
            let is_other = |element: &&Value| element.key() != arguments[1].key();
            Ok(Value::Array(
                arguments[0]
                    .as_array()
                    .iter()
                    .filter(is_other)
                    .cloned()
                    .collect(),
            ))
        },
    ),
    (
        "array_to_string(anyarray,text)",
        |executor, call, arguments| joined(executor, call, arguments, None),
    ),
    (
        "array_to_string(anyarray,text,text)",
        |executor, call, arguments| {
            if arguments[0].is_null() || arguments[1].is_null() {
                return Ok(Value::Null);
            }
            let null = (!arguments[2].is_null()).then(|| arguments[2].as_text().to_owned());
            joined(executor, call, arguments, null)
        },
    ),
    ("string_to_array(text,text)", |executor, _, arguments| {
        if arguments[0].is_null() {
            return Ok(Value::Null);
        }
        let text = arguments[0].as_text();
        executor.keep(text.len() * 33)?;
        executor.spend(text.len())?;
        Ok(match &arguments[1] {
            _ if text.is_empty() => Value::Array(Vec::new().into()),
            Value::Null => Value::texts(text.chars().map(|mark| mark.to_string())),
            delimiter if delimiter.as_text().is_empty() => Value::texts([text]),
            delimiter => Value::texts(text.split(delimiter.as_text())),
        })
    }),
    ("unnest(anyarray)", |_, _, arguments| {
        Ok(arguments[0].clone())
    }),
    (
        "generate_subscripts(anyarray,int4)",
        |_, call, arguments| {
            let first = first(call);
            let count = dimension(arguments).map_or(0, <[Value]>::len) as i64;
            Ok(Value::integers(first..first + count))
        },
    ),
    (
        "generate_subscripts(anyarray,int4,bool)",
        |_, call, arguments| {
            let first = first(call);
            let count = dimension(arguments).map_or(0, <[Value]>::len) as i64;
            let mut places: Vec<i64> = (first..first + count).collect();
            if arguments[2].is_true() {
                places.reverse();
            }
            Ok(Value::integers(places))
        },
    ),
    ("generate_series(int4,int4)", series),
    ("generate_series(int4,int4,int4)", series),
    ("generate_series(int8,int8)", series),
    ("generate_series(int8,int8,int8)", series),
    ("_pg_expandarray(anyarray)", |executor, _, arguments| {
        let elements = arguments[0].as_array();
        executor.keep(96 * elements.len())?;
        let row = |(place, element): (usize, &Value)| {
            Value::Row(vec![element.clone(), Value::Integer(place as i64 + 1)].into())
        };
        Ok(Value::Array(elements.iter().enumerate().map(row).collect()))
    }),
];

/// Returns the number of an array's first element.
fn first(call: &Call) -> i64 {
    i64::from(!matches!(
        call.types.first(),
        Some(&(oid::INT2VECTOR | oid::OIDVECTOR))
    ))
}

/// Returns the elements of an array with the dimension that is asked for. None: it has no such dimension.
fn dimension(arguments: &[Value]) -> Option<&[Value]> {
    let elements = arguments[0].as_array();
    (arguments[1].as_integer() == 1 && !elements.is_empty()).then_some(elements)
}

fn joined(
    executor: &mut Executor<'_>,
    call: &Call,
    arguments: &[Value],
    null: Option<String>,
) -> Result<Value, Failure> {
    let element = call
        .types
        .first()
        .and_then(|&oid| types::element(oid))
        .unwrap_or(oid::TEXT);
    let mut parts = Vec::new();
    for value in arguments[0].as_array() {
        match value {
            Value::Null => parts.extend(null.clone()),
            value => parts.push(output::text(value, element, executor.world)?),
        }
    }
    let delimiter = arguments[1].as_text();
    executor.keep(delimiter.len().saturating_mul(parts.len()))?;
    executor.new_text(parts.join(delimiter))
}

fn series(executor: &mut Executor<'_>, _: &Call, arguments: &[Value]) -> Result<Value, Failure> {
    let (from, to) = (arguments[0].as_integer(), arguments[1].as_integer());
    let step = arguments.get(2).map_or(1, Value::as_integer);
    if step == 0 {
        let text = "step size cannot equal zero";
        return Err(Report::error(SqlState::INVALID_PARAMETER_VALUE, text));
    }
    let span = if step > 0 {
        i128::from(to) - i128::from(from)
    } else {
        i128::from(from) - i128::from(to)
    };
    let count = if span < 0 {
        0
    } else {
        span / i128::from(step).abs() + 1
    };
    let count = usize::try_from(count).unwrap_or(usize::MAX);
    executor.spend(count)?;
    executor.keep(count.saturating_mul(32))?;
    Ok(Value::integers(
        (0..count as i64).map(|place| from + place * step),
    ))
}
