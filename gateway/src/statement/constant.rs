//! Values that a statement itself tells: literals, parameters, signs and casts, evaluated as PostgreSQL does.

use postgres_protocol::Oid;

use crate::catalog::operators::{in_range, no_operator_before, no_operator_between, out_of_range};
use crate::catalog::types;
use crate::decimal::Decimal;
use crate::rows::{ColumnType, DefinedColumn};
use crate::sqlstate::{Failure, Report, SqlState};
use crate::statement::query::{Expression, ExpressionKind, TypeName};
use crate::statement::served::Verb;
use crate::value::{self, oid, Number, Value};

/// The values of a statement's parameters and their types, as far as it has any.
#[derive(Clone, Copy, Debug, Default)]
pub struct Input<'a> {
    /// The values.
    pub values: &'a [Value],
    /// The types, each of which is one that the client told or that follows from the place.
    pub types: &'a [Oid],
}

/// A value of one of PostgreSQL's types.
#[derive(Clone, Debug, PartialEq, Eq)]
pub enum Datum {
    /// NULL
    Null,
    /// boolean
    Boolean(bool),
    /// smallint, integer or bigint, which the Oid tells.
    Integer(i64, Oid),
    /// numeric
    Numeric(Decimal),
    /// A text in quotes, which becomes what its place wants.
    Unknown(String),
    /// A text of this type.
    Text(String, Oid),
}

/// What a value is for.
#[derive(Clone, Copy, Debug, PartialEq, Eq)]
pub enum Usage {
    /// A column takes it.
    Assigned,
    /// It is added to a column or subtracted.
    Changed,
    /// A column is compared with it.
    Compared,
}

/// A type to which a value may be cast.
#[derive(Clone, Copy, Debug, PartialEq, Eq)]
enum CastTo {
    Integer(Oid),
    Numeric(Option<(u32, u32)>),
    Text,
    Varchar(Option<usize>),
}

/// Returns the type that a cast names.
///
/// # Errors
///
/// Fails if values are not cast to it here.
fn cast_to(to: &TypeName) -> Result<CastTo, Failure> {
    let schema = to.name.schema.as_ref().map(|schema| schema.text.as_str());
    let is_known = matches!(schema, None | Some("pg_catalog")) && !to.is_array;
    let invalid = |text: String| {
        Err(Report::error(SqlState::INVALID_PARAMETER_VALUE, text).at(to.span.start))
    };
    Ok(match (to.name.name.text.as_str(), &to.modifiers[..]) {
        ("int2", []) if is_known => CastTo::Integer(oid::INT2),
        ("int4", []) if is_known => CastTo::Integer(oid::INT4),
        ("int8", []) if is_known => CastTo::Integer(oid::INT8),
        ("text", []) if is_known => CastTo::Text,
        ("varchar", []) if is_known => CastTo::Varchar(None),
        ("varchar", [length]) if is_known => match usize::try_from(*length) {
            Ok(length) if length > 0 => CastTo::Varchar(Some(length)),
            _ => return invalid("length for type varchar must be at least 1".to_owned()),
        },
        ("numeric", []) if is_known => CastTo::Numeric(None),
        ("numeric", [precision] | [precision, _]) if is_known => {
            let scale = to.modifiers.get(1).copied().unwrap_or(0);
            if !(1..=1000).contains(precision) {
                let text = format!("NUMERIC precision {} must be between 1 and 1000", precision);
                return invalid(text);
            }
            if !(0..=30).contains(&scale) {
                return Err(Report::missing("a cast to numeric of such a scale").at(to.span.start));
            }
            CastTo::Numeric(Some((*precision as u32, scale as u32)))
        }
        (name, _) => {
            return Err(Report::missing(&format!("a cast to {}", name)).at(to.span.start));
        }
    })
}

/// Checks that an expression is a value that can be told without reading anything.
///
/// # Errors
///
/// Fails if it isn't.
pub fn check(expression: &Expression, verb: Verb) -> Result<(), Failure> {
    match &expression.kind {
        ExpressionKind::Null
        | ExpressionKind::Boolean(_)
        | ExpressionKind::Number(_)
        | ExpressionKind::Text(_)
        | ExpressionKind::Parameter(_) => Ok(()),
        ExpressionKind::Unary(sign, operand) if is_sign(sign) => check(operand, verb),
        ExpressionKind::Cast(operand, to) => {
            cast_to(to)?;
            check(operand, verb)
        }
        ExpressionKind::Column(column) => {
            let name = column.names().last().map_or("", |name| name.text.as_str());
            let what = format!("column \"{}\" in place of a value", name);
            Err(verb.missing(&what, expression.span.start))
        }
        _ => Err(verb.missing("an expression in place of a value", expression.span.start)),
    }
}

fn is_sign(operator: &str) -> bool {
    matches!(operator, "-" | "+")
}

/// Returns whether an expression is a value that can be told without reading anything.
pub fn is_constant(expression: &Expression) -> bool {
    check(expression, Verb::Select).is_ok()
}

/// Returns whether a value is a number, whatever its column is.
pub fn is_number(expression: &Expression, types: &[Oid]) -> bool {
    matches!(
        type_of(expression, types).0,
        oid::INT2 | oid::INT4 | oid::INT8 | oid::NUMERIC
    )
}

/// Returns the type of a value, and its modifier, or -1. A text in quotes is `unknown`.
pub fn type_of(expression: &Expression, types: &[Oid]) -> (Oid, i32) {
    let oid = match &expression.kind {
        ExpressionKind::Boolean(_) => oid::BOOL,
        ExpressionKind::Number(written) => number_type(written),
        ExpressionKind::Parameter(number) => types
            .get(usize::from(*number) - 1)
            .copied()
            .unwrap_or(oid::UNKNOWN),
        ExpressionKind::Unary(sign, operand) => match &operand.kind {
            ExpressionKind::Number(written) => number_type(&format!("{}{}", sign, written)),
            _ => type_of(operand, types).0,
        },
        ExpressionKind::Cast(_, to) => match cast_to(to) {
            Ok(CastTo::Integer(oid)) => oid,
            Ok(CastTo::Numeric(None)) => oid::NUMERIC,
            Ok(CastTo::Numeric(Some((precision, scale)))) => {
                return (oid::NUMERIC, (precision << 16 | scale) as i32 + 4);
            }
            Ok(CastTo::Varchar(length)) => {
                let modifier = length.and_then(|length| i32::try_from(length + 4).ok());
                return (oid::VARCHAR, modifier.unwrap_or(-1));
            }
            _ => oid::TEXT,
        },
        _ => oid::UNKNOWN,
    };
    (oid, -1)
}

/// Returns the type of a number as it is written.
fn number_type(written: &str) -> Oid {
    let written = written.strip_prefix('+').unwrap_or(written);
    if written.parse::<i32>().is_ok() {
        oid::INT4
    } else if written.parse::<i64>().is_ok() {
        oid::INT8
    } else {
        oid::NUMERIC
    }
}

/// Returns the type that a cast gives a parameter. None: the type follows from elsewhere.
pub fn parameter_cast(to: &TypeName) -> Option<Oid> {
    Some(match cast_to(to).ok()? {
        CastTo::Integer(oid) => oid,
        CastTo::Numeric(_) => oid::NUMERIC,
        CastTo::Text => oid::TEXT,
        CastTo::Varchar(_) => oid::VARCHAR,
    })
}

/// Returns the value of an expression that passed [`check`].
///
/// # Errors
///
/// Fails if a cast does, or at a number with too many digits.
pub fn evaluate(expression: &Expression, input: Input<'_>) -> Result<Datum, Failure> {
    let place = expression.span.start;
    match &expression.kind {
        ExpressionKind::Boolean(value) => Ok(Datum::Boolean(*value)),
        ExpressionKind::Number(written) => number(written, place),
        ExpressionKind::Text(text) => Ok(Datum::Unknown(text.clone())),
        ExpressionKind::Parameter(number) => parameter(*number, input, place),
        ExpressionKind::Unary(sign, operand) => {
            signed(sign, operand, input).map_err(|report| report.or_at(expression.span.start))
        }
        ExpressionKind::Cast(operand, to) => {
            let datum = evaluate(operand, input)?;
            cast(datum, cast_to(to)?).map_err(|report| report.or_at(operand.span.start))
        }
        _ => Ok(Datum::Null),
    }
}

fn number(written: &str, place: usize) -> Result<Datum, Failure> {
    let oid = number_type(written);
    match (oid, written.strip_prefix('+').unwrap_or(written).parse()) {
        (oid::INT4 | oid::INT8, Ok(integer)) => Ok(Datum::Integer(integer, oid)),
        _ => match Decimal::parse(written) {
            Some(decimal) => Ok(Datum::Numeric(decimal)),
            None => Err(value::out_of_range(written).at(place)),
        },
    }
}

/// Makes the report of a parameter that the message lacks.
pub fn no_parameter(number: u16, place: usize) -> Failure {
    let text = format!("there is no parameter ${}", number);
    Report::error(SqlState::UNDEFINED_PARAMETER, text).at(place)
}

fn parameter(number: u16, input: Input<'_>, place: usize) -> Result<Datum, Failure> {
    let index = usize::from(number) - 1;
    let value = input
        .values
        .get(index)
        .ok_or_else(|| no_parameter(number, place))?;
    let oid = input.types.get(index).copied().unwrap_or(oid::UNKNOWN);
    datum_of(value, oid).map_err(|report| report.at(place))
}

fn datum_of(value: &Value, oid: Oid) -> Result<Datum, Failure> {
    Ok(match value {
        Value::Null => Datum::Null,
        Value::Text(text) if oid == oid::UNKNOWN => Datum::Unknown(text.clone()),
        Value::Text(text) => Datum::Text(text.clone(), oid),
        Value::Number(number) => match (oid, number.integer()) {
            (oid::INT2 | oid::INT4 | oid::INT8, Some(integer)) => Datum::Integer(integer, oid),
            _ => {
                let written = number.to_string();
                match Decimal::parse(&written) {
                    Some(decimal) => Datum::Numeric(decimal),
                    None => return Err(value::out_of_range(&written)),
                }
            }
        },
        Value::List(_) => return Err(Report::missing("an array in place of a value")),
    })
}

/// Returns whether an expression is an array whose elements can be told without reading anything: a parameter, or a text.
pub fn is_array(expression: &Expression) -> bool {
    match &expression.kind {
        ExpressionKind::Parameter(_) | ExpressionKind::Text(_) => true,
        ExpressionKind::Cast(operand, to) => array_cast(to).is_some() && is_array(operand),
        _ => false,
    }
}

/// Returns the type of an array that a cast names. None: it is another type.
pub fn array_cast(to: &TypeName) -> Option<Oid> {
    let element = TypeName {
        is_array: false,
        ..to.clone()
    };
    parameter_cast(&element)
        .filter(|_| to.is_array)
        .and_then(value::array::of)
}

/// Returns the elements of an expression for which [`is_array`] holds, without those that are NULL.
///
/// # Errors
///
/// Fails if it is no array, or if a value does not have the type of its cast.
pub fn elements(expression: &Expression, input: Input<'_>) -> Result<Vec<Datum>, Failure> {
    let place = expression.span.start;
    let elements: Vec<Datum> = match &expression.kind {
        ExpressionKind::Text(text) => {
            let elements = value::array::elements(text).map_err(|report| report.at(place))?;
            elements.into_iter().flatten().map(Datum::Unknown).collect()
        }
        ExpressionKind::Cast(operand, to) => {
            let element = array_cast(to).and_then(value::array::element);
            let of = |datum| match element {
                Some(oid::NUMERIC) => cast(datum, CastTo::Numeric(None)),
                Some(oid::TEXT) => cast(datum, CastTo::Text),
                Some(oid::VARCHAR) => cast(datum, CastTo::Varchar(None)),
                Some(oid) => cast(datum, CastTo::Integer(oid)),
                None => Ok(datum),
            };
            let elements = elements(operand, input)?.into_iter().map(of);
            elements
                .collect::<Result<_, _>>()
                .map_err(|report| report.or_at(operand.span.start))?
        }
        ExpressionKind::Parameter(number) => {
            let index = usize::from(*number) - 1;
            let oid = input.types.get(index).copied().unwrap_or(oid::UNKNOWN);
            let element = value::array::element(oid).unwrap_or(oid::UNKNOWN);
            match input.values.get(index) {
                None => return Err(no_parameter(*number, place)),
                Some(Value::List(list)) => {
                    let data = list.iter().map(|value| datum_of(value, element));
                    data.collect::<Result<_, _>>()?
                }
                Some(Value::Null) => Vec::new(),
                Some(_) => {
                    let text = "op ANY/ALL (array) requires array on right side";
                    return Err(Report::error(SqlState::WRONG_OBJECT_TYPE, text).at(place));
                }
            }
        }
        _ => Vec::new(),
    };
    Ok(elements
        .into_iter()
        .filter(|datum| *datum != Datum::Null)
        .collect())
}

fn signed(sign: &str, operand: &Expression, input: Input<'_>) -> Result<Datum, Failure> {
    if let ExpressionKind::Number(written) = &operand.kind {
        return number(&format!("{}{}", sign, written), operand.span.start);
    }
    let datum = evaluate(operand, input)?;
    let is_minus = sign == "-";
    Ok(match datum {
        Datum::Integer(integer, oid) if is_minus => {
            let negated = integer
                .checked_neg()
                .filter(|negated| in_range(*negated, oid));
            Datum::Integer(negated.ok_or_else(|| out_of_range(oid))?, oid)
        }
        Datum::Numeric(decimal) if is_minus => Datum::Numeric(decimal.negated()),
        Datum::Integer(..) | Datum::Numeric(_) | Datum::Null => datum,
        Datum::Unknown(_) => return Err(sign_of_unknown(if is_minus { '-' } else { '+' })),
        datum => return Err(no_operator_before(sign, datum.oid())),
    })
}

/// Makes the report of a sign in front of a text, or of a parameter whose type nothing tells. Behind + PostgreSQL takes
/// them for floating-point numbers.
pub fn sign_of_unknown(sign: char) -> Failure {
    if sign == '+' {
        return Report::missing("a + in front of a text or of a parameter without a type");
    }
    let hint =
        "Could not choose a best candidate operator. You might need to add explicit type casts.";
    let text = "operator is not unique: - unknown";
    Report::error(SqlState::AMBIGUOUS_FUNCTION, text).hint(hint)
}

fn cast(datum: Datum, to: CastTo) -> Result<Datum, Failure> {
    let text = match (&datum, to) {
        (Datum::Null, _) => return Ok(datum),
        (Datum::Boolean(_), _) => return Err(Report::missing("a cast of a boolean")),
        (Datum::Integer(integer, _), CastTo::Integer(oid)) => {
            return if in_range(*integer, oid) {
                Ok(Datum::Integer(*integer, oid))
            } else {
                Err(out_of_range(oid))
            };
        }
        (Datum::Numeric(decimal), CastTo::Integer(oid)) => {
            let rounded = decimal.rounded().filter(|rounded| in_range(*rounded, oid));
            let rounded = rounded.ok_or_else(|| out_of_range(oid))?;
            return Ok(Datum::Integer(rounded, oid));
        }
        (Datum::Integer(integer, _), CastTo::Numeric(size)) => {
            return numeric(Decimal::from(*integer), size);
        }
        (Datum::Numeric(decimal), CastTo::Numeric(size)) => return numeric(*decimal, size),
        _ => datum.text().unwrap_or_default(),
    };
    Ok(match to {
        CastTo::Integer(oid) => Datum::Integer(value::integer(oid, &text)?, oid),
        CastTo::Numeric(size) => match Decimal::parse(text.trim_matches(value::is_blank)) {
            Some(decimal) => return numeric(decimal, size),
            None => return Err(value::no_number(&text)),
        },
        CastTo::Varchar(Some(length)) => {
            Datum::Text(text.chars().take(length).collect(), oid::VARCHAR)
        }
        CastTo::Varchar(None) => Datum::Text(text, oid::VARCHAR),
        CastTo::Text => Datum::Text(text, oid::TEXT),
    })
}

/// Returns a number as one of a numeric, perhaps with precision and scale.
fn numeric(decimal: Decimal, size: Option<(u32, u32)>) -> Result<Datum, Failure> {
    let sized = size.map_or(Ok(decimal), |(precision, scale)| {
        value::sized(decimal, precision, scale)
    });
    sized.map(Datum::Numeric)
}

impl Datum {
    /// Returns the value as PostgreSQL prints it. None: NULL.
    pub fn text(&self) -> Option<String> {
        Some(match self {
            Datum::Null => return None,
            Datum::Boolean(true) => "t".to_owned(),
            Datum::Boolean(false) => "f".to_owned(),
            Datum::Integer(integer, _) => integer.to_string(),
            Datum::Numeric(decimal) => decimal.to_string(),
            Datum::Unknown(text) | Datum::Text(text, _) => text.clone(),
        })
    }

    fn oid(&self) -> Oid {
        match self {
            Datum::Null | Datum::Unknown(_) => oid::UNKNOWN,
            Datum::Boolean(_) => oid::BOOL,
            Datum::Numeric(_) => oid::NUMERIC,
            Datum::Integer(_, oid) | Datum::Text(_, oid) => *oid,
        }
    }

    /// Returns the value as the program takes it for a column. Without the column it has to be a number.
    ///
    /// # Errors
    ///
    /// Fails if the column's type does not take the value's, or if it is NULL.
    pub fn fit(self, column: Option<&DefinedColumn>, usage: Usage) -> Result<Value, Failure> {
        let is_number = matches!(self, Datum::Integer(..) | Datum::Numeric(_));
        match (column, &self) {
            (_, Datum::Null) => Err(null_value()),
            (None, _) => self.value(),
            (Some(column), Datum::Boolean(_))
                if !column.is_number() && usage == Usage::Assigned =>
            {
                Err(Report::missing("a boolean in place of a text"))
            }
            (Some(column), Datum::Boolean(_)) => Err(mismatch(column, usage, self.oid())),
            (Some(column), _) => match (column.column_type, &self) {
                (ColumnType::Text { .. }, _) if is_number && usage == Usage::Compared => {
                    Err(mismatch(column, usage, self.oid()))
                }
                (ColumnType::Text { .. }, _) if is_number => {
                    let text = format!("column \"{}\" takes a text in quotes", column.name);
                    let report = Report::error(SqlState::INVALID_PARAMETER_VALUE, text);
                    Err(report.column(column.name.as_str()))
                }
                (ColumnType::Number { .. }, Datum::Unknown(text)) => {
                    value::number(column.result_column().oid, text).map(Value::Number)
                }
                (ColumnType::Number { .. }, Datum::Text(_, oid)) => {
                    Err(mismatch(column, usage, *oid))
                }
                _ => self.value(),
            },
        }
    }

    /// Returns the number that it is.
    ///
    /// # Errors
    ///
    /// Fails if it is of another type, or if the program's numbers don't hold it.
    pub fn number(self) -> Result<Number, Failure> {
        let oid = self.oid();
        match self.value()? {
            Value::Number(number) => Ok(number),
            _ => Err(no_operator_between(oid::NUMERIC, "=", oid)),
        }
    }

    /// Returns the value as the program takes it, whatever the column.
    fn value(self) -> Result<Value, Failure> {
        match self {
            Datum::Integer(integer, _) => Number::from_integer(integer)
                .map(Value::Number)
                .map_err(|_| value::out_of_range(&integer.to_string())),
            Datum::Numeric(decimal) => {
                let written = decimal.to_string();
                Number::from_text(&written)
                    .map(Value::Number)
                    .map_err(|_| value::out_of_range(&written))
            }
            Datum::Unknown(text) | Datum::Text(text, _) => Ok(Value::Text(text)),
            Datum::Boolean(_) => Err(Report::missing("a boolean")),
            Datum::Null => Err(null_value()),
        }
    }
}

/// Makes the report of a value whose type a column doesn't take, in PostgreSQL's words.
fn mismatch(column: &DefinedColumn, usage: Usage, oid: Oid) -> Failure {
    let of_column = column.result_column().oid;
    let sign = match usage {
        Usage::Assigned => {
            let text = format!(
                "column \"{}\" is of type {} but expression is of type {}",
                column.name,
                types::name(of_column),
                types::name(oid)
            );
            let report = Report::error(SqlState::DATATYPE_MISMATCH, text);
            return report.hint("You will need to rewrite or cast the expression.");
        }
        Usage::Changed => "+",
        Usage::Compared => "=",
    };
    no_operator_between(of_column, sign, oid)
}

/// Makes the report of a NULL, which no column takes.
pub fn null_value() -> Failure {
    let text = "NULL is not allowed in any column";
    Report::error(SqlState::NOT_NULL_VIOLATION, text).hint("Every column is NOT NULL.")
}

/// Returns the value of an expression as the program takes it for a column.
///
/// # Errors
///
/// Fails at its place if the column doesn't take it.
pub fn value_for(
    expression: &Expression,
    input: Input<'_>,
    column: Option<&DefinedColumn>,
    usage: Usage,
) -> Result<Value, Failure> {
    let datum = evaluate(expression, input)?;
    datum
        .fit(column, usage)
        .map_err(|report| report.or_at(expression.span.start))
}
