//! Values of a statement: literals, and parameters in text or binary, as PostgreSQL reads them at their places.
//!
//! What is not understood is nothing, so that PostgreSQL decides.

use escrowd_pg::decimal::Decimal;
use escrowd_pg::statement::constant::{self, Datum, Input};
use escrowd_pg::statement::query::{
    Expression, ExpressionKind, Name, Operator, QualifiedName, Span, TypeName,
};
use escrowd_pg::value::{array, is_blank};
use tokio_postgres::types::Type;

use crate::catalog::KeyType;

/// The most digits of a change, as the server has them.
const MOST_DIGITS: usize = 15;

/// The least bytes of a text that some type cuts: `name`.
const SHORTEST_CUT: usize = 64;

/// The longest key, in bytes, as a note carries it.
const LONGEST_KEY: usize = 2_000;

/// The values of a statement's parameters.
#[derive(Clone, Copy, Debug, Default)]
pub struct Parameters<'a> {
    /// The types that the client has told or PostgreSQL has found; 0 is none.
    pub types: &'a [u32],
    /// Which are binary: none, all by one number, or each.
    pub formats: &'a [i16],
    /// The values. None: NULL.
    pub values: &'a [Option<Vec<u8>>],
}

impl Parameters<'_> {
    /// Returns whether an expression is a parameter that is a float, perhaps with signs in front.
    pub fn is_float(&self, expression: &Expression) -> bool {
        match &expression.kind {
            ExpressionKind::Parameter(number) => self.told(*number) == Some(Type::FLOAT8.oid()),
            ExpressionKind::Unary(_, operand) => self.is_float(operand),
            _ => false,
        }
    }

    /// Returns the value of an expression. `oid` is the type that a parameter without one has at its place.
    pub fn evaluate(&self, expression: &Expression, oid: u32) -> Option<Datum> {
        let literal = self.literal(expression, oid)?;
        if is_uuid_cast(&literal) {
            return match literal.kind {
                ExpressionKind::Cast(operand, _) if oid == Type::UUID.oid() => {
                    constant::evaluate(&operand, Input::default()).ok()
                }
                _ => None,
            };
        }
        let verb = escrowd_pg::statement::served::Verb::Reserve;
        constant::check(&literal, verb).ok()?;
        constant::evaluate(&literal, Input::default()).ok()
    }

    /// Returns an expression with its parameters' values in their places.
    fn literal(&self, expression: &Expression, oid: u32) -> Option<Expression> {
        let span = expression.span;
        let kind = match &expression.kind {
            ExpressionKind::Parameter(number) => return self.value(*number, oid, expression),
            ExpressionKind::Cast(operand, to) => {
                let own = cast_oid(to)?;
                let operand = self.literal(operand, own)?;
                ExpressionKind::Cast(Box::new(operand), to.clone())
            }
            ExpressionKind::Unary(sign, operand) => {
                // The least value of a type has no negative.
                let is_signed = matches!(operand.kind, ExpressionKind::Parameter(_));
                let operand = self.literal(operand, oid)?;
                if is_signed && matches!(operand.kind, ExpressionKind::Unary(..)) && sign == "-" {
                    return Some(*negated(operand)?);
                }
                ExpressionKind::Unary(sign.clone(), Box::new(operand))
            }
            kind => kind.clone(),
        };
        Some(Expression { kind, span })
    }

    /// Returns the elements of an array with which a key is compared. `oid` is the key's type. NULLs are left out, since
    /// nothing is equal to them.
    pub fn elements(&self, expression: &Expression, oid: u32) -> Option<Vec<Datum>> {
        let elements = match &expression.kind {
            ExpressionKind::Cast(operand, to) => {
                // Without an element nothing else tells that PostgreSQL has no such operator.
                let told = element_oid(to).filter(|&told| are_comparable(told, oid))?;
                self.array(operand, Some(told), oid)?
            }
            // PostgreSQL knows no type of it.
            ExpressionKind::Array(elements) if elements.is_empty() => return None,
            _ => self.array(expression, None, oid)?,
        };
        elements
            .iter()
            .map(|element| self.evaluate(element, oid))
            .collect()
    }

    /// Returns the elements of an array as literals. `told` is the type that a cast gives them, and `oid` that of the key.
    fn array(
        &self,
        expression: &Expression,
        told: Option<u32>,
        oid: u32,
    ) -> Option<Vec<Expression>> {
        let span = expression.span;
        let cast = |kind| match told {
            Some(told) => cast_to(Expression { kind, span }, told),
            None => Some(Expression { kind, span }),
        };
        match &expression.kind {
            ExpressionKind::Text(text) => {
                let texts = array::elements(text).ok()?.into_iter().flatten();
                texts.map(|text| cast(ExpressionKind::Text(text))).collect()
            }
            // Texts in ARRAY[..] are of the type text, and PostgreSQL compares no number with one.
            ExpressionKind::Array(elements) => elements
                .iter()
                .map(|element| match (&element.kind, told) {
                    (ExpressionKind::Text(_), None) => cast_to(element.clone(), Type::TEXT.oid()),
                    (ExpressionKind::Text(_), Some(told)) => cast_to(element.clone(), told),
                    (kind, None) if is_signed_number(kind) => Some(element.clone()),
                    _ => None,
                })
                .collect(),
            ExpressionKind::Parameter(number) => {
                self.array_parameter(*number, told, oid, expression)
            }
            _ => None,
        }
    }

    /// Returns the elements of a parameter that is an array.
    fn array_parameter(
        &self,
        number: u16,
        cast: Option<u32>,
        oid: u32,
        place: &Expression,
    ) -> Option<Vec<Expression>> {
        let (bytes, format, told) = self.given(number)?;
        let told = match told {
            Some(told) => Some(element_of(told)?),
            None => cast,
        };
        let literal = |kind| {
            let span = place.span;
            let literal = Expression { kind, span };
            match told {
                Some(told) if is_text(told) || told == Type::UUID.oid() => cast_to(literal, told),
                _ => Some(literal),
            }
        };
        match format {
            0 => {
                let texts = array::elements(std::str::from_utf8(bytes).ok()?).ok()?;
                let literals = texts.into_iter().flatten().map(|text| match told {
                    Some(told) => literal(text_literal(told, &text)?),
                    None => literal(ExpressionKind::Text(text)),
                });
                literals.collect()
            }
            1 => {
                let of = u32::from_be_bytes(bytes.get(8..12)?.try_into().ok()?);
                if of != told.unwrap_or(oid) {
                    return None;
                }
                let elements = array::binary_elements(number.into(), of, bytes).ok()?;
                let literals = elements.into_iter().flatten();
                literals.map(|it| literal(binary(of, it)?)).collect()
            }
            _ => None,
        }
    }

    /// Returns the type of a parameter that is told or known.
    pub fn told(&self, number: u16) -> Option<u32> {
        let at = usize::from(number).checked_sub(1)?;
        let told = self.types.get(at).copied();
        told.filter(|&told| told != 0 && told != Type::UNKNOWN.oid())
    }

    /// Returns whether a parameter's value is known that is compared with a key of this type: its type is, or its text says the same in
    /// all types that PostgreSQL compares with that of the key. Some types cut a text.
    pub fn may_be_key(&self, number: u16, oid: u32) -> bool {
        match self.given(number) {
            Some((bytes, 0, None)) => {
                !is_text(oid) || bytes.len() < SHORTEST_CUT && bytes.last() != Some(&b' ')
            }
            Some((_, _, told)) => told.is_some(),
            None => true,
        }
    }

    /// Returns the type of a number in a list. None: it has none, as a text.
    pub fn number_oid(&self, expression: &Expression) -> Option<u32> {
        match &expression.kind {
            ExpressionKind::Number(number) => Some(number_oid(number)),
            ExpressionKind::Unary(_, operand) => self.number_oid(operand),
            ExpressionKind::Cast(_, to) => Some(cast_oid(to).unwrap_or(0)),
            ExpressionKind::Parameter(number) => self.told(*number),
            _ => None,
        }
    }

    /// Returns the bytes of a parameter's value, their format, and the type that the client has told. None: it is NULL.
    fn given(&self, number: u16) -> Option<(&[u8], i16, Option<u32>)> {
        let at = usize::from(number).checked_sub(1)?;
        let bytes = self.values.get(at)?.as_deref()?;
        let format = match self.formats {
            [] => 0,
            [all] => *all,
            each => *each.get(at)?,
        };
        Some((bytes, format, self.told(number)))
    }

    /// Returns a parameter's value as a literal. None: it is NULL, or not understood.
    fn value(&self, number: u16, oid: u32, place: &Expression) -> Option<Expression> {
        let (bytes, format, told) = self.given(number)?;
        let is_told = told.is_some();
        let own = told.unwrap_or(oid);
        let span = place.span;
        let is_text_place = !is_number(oid) && oid != Type::UUID.oid();
        let literal = match format {
            1 => binary(own, bytes)?,
            0 => text_literal(own, std::str::from_utf8(bytes).ok()?)?,
            _ => return None,
        };
        // PostgreSQL has no operator for a number and a text whose types are told.
        if is_told
            && (is_text(own) != is_text_place
                || (own == Type::UUID.oid()) != (oid == Type::UUID.oid()))
        {
            return None;
        }
        Some(Expression {
            kind: literal,
            span,
        })
    }
}

/// Reads a value of a type in text.
fn text_literal(oid: u32, text: &str) -> Option<ExpressionKind> {
    match oid {
        oid if is_number(oid) => number_literal(text.trim_matches(is_blank)),
        oid if oid == Type::FLOAT8.oid() => {
            number_literal(&float(text.trim_matches(is_blank).parse().ok()?)?)
        }
        oid if oid == Type::UUID.oid() || is_text(oid) => {
            Some(ExpressionKind::Text(text.to_owned()))
        }
        _ => None,
    }
}

/// Returns the type of the elements of a type of arrays.
fn element_of(array: u32) -> Option<u32> {
    match array {
        array if array == Type::UUID_ARRAY.oid() => Some(Type::UUID.oid()),
        array => array::element(array),
    }
}

/// Returns the type of the elements of an array that is cast to.
fn element_oid(to: &TypeName) -> Option<u32> {
    let mut element = to.clone();
    element.is_array = false;
    cast_oid(&element).filter(|_| to.is_array && to.modifiers.is_empty())
}

/// Returns a literal with a cast to a type.
fn cast_to(literal: Expression, oid: u32) -> Option<Expression> {
    let name = Type::from_oid(oid)?.name().to_owned();
    let span = literal.span;
    let name = Name { text: name, span };
    let to = TypeName {
        name: QualifiedName { schema: None, name },
        modifiers: Vec::new(),
        is_array: false,
        span,
    };
    let kind = ExpressionKind::Cast(Box::new(literal), Box::new(to));
    Some(Expression { kind, span })
}

fn is_signed_number(kind: &ExpressionKind) -> bool {
    match kind {
        ExpressionKind::Number(_) => true,
        ExpressionKind::Unary(sign, operand) => sign == "-" && is_signed_number(&operand.kind),
        _ => false,
    }
}

/// The types of numbers, from the narrowest to the widest.
const NUMBERS: [Type; 4] = [Type::INT2, Type::INT4, Type::INT8, Type::NUMERIC];

/// Returns whether a type is one of numbers.
pub fn is_number(oid: u32) -> bool {
    NUMBERS.iter().any(|it| it.oid() == oid)
}

/// Returns whether PostgreSQL compares values of two types that the proxy understands.
fn are_comparable(one: u32, other: u32) -> bool {
    one == other || is_number(one) && is_number(other) || is_text(one) && is_text(other)
}

/// Returns the type that PostgreSQL takes where two types of numbers meet. 0: it is not known.
pub fn wider(one: u32, other: u32) -> u32 {
    let place = |oid: u32| NUMBERS.iter().position(|it| it.oid() == oid);
    match (place(one), place(other)) {
        (Some(first), Some(second)) => NUMBERS[first.max(second)].oid(),
        _ => 0,
    }
}

/// Returns the type of a number that is written out.
pub fn number_oid(text: &str) -> u32 {
    match text.parse::<i64>() {
        Ok(value) if i32::try_from(value).is_ok() => Type::INT4.oid(),
        Ok(_) => Type::INT8.oid(),
        Err(_) => Type::NUMERIC.oid(),
    }
}

/// Returns the type of arrays of a type.
pub fn array_oid(element: u32) -> Option<u32> {
    match element {
        element if element == Type::UUID.oid() => Some(Type::UUID_ARRAY.oid()),
        element => array::of(element),
    }
}

fn is_text(oid: u32) -> bool {
    oid == Type::TEXT.oid() || oid == Type::VARCHAR.oid()
}

/// Returns the type of a cast that is understood, of arrays too.
pub fn to_oid(to: &TypeName) -> Option<u32> {
    cast_oid(to).or_else(|| array_oid(element_oid(to)?))
}

/// Returns the type of a cast that is understood.
fn cast_oid(to: &TypeName) -> Option<u32> {
    let schema = to.name.schema.as_ref().map(|schema| schema.text.as_str());
    if to.is_array || !matches!(schema, None | Some("pg_catalog")) {
        return None;
    }
    Some(match to.name.name.text.as_str() {
        "int2" => Type::INT2.oid(),
        "int4" => Type::INT4.oid(),
        "int8" => Type::INT8.oid(),
        "numeric" => Type::NUMERIC.oid(),
        "text" => Type::TEXT.oid(),
        "varchar" => Type::VARCHAR.oid(),
        "uuid" => Type::UUID.oid(),
        _ => return None,
    })
}

fn is_uuid_cast(expression: &Expression) -> bool {
    match &expression.kind {
        ExpressionKind::Cast(operand, to) => {
            cast_oid(to) == Some(Type::UUID.oid())
                && matches!(operand.kind, ExpressionKind::Text(_))
        }
        _ => false,
    }
}

/// Takes the sign off a negative literal.
fn negated(literal: Expression) -> Option<Box<Expression>> {
    match literal.kind {
        ExpressionKind::Unary(_, operand) => Some(operand),
        _ => None,
    }
}

/// Returns a number as a literal, with its sign in front.
fn number_literal(text: &str) -> Option<ExpressionKind> {
    Decimal::parse(text)?;
    let (sign, digits) = match text.strip_prefix('-') {
        Some(digits) => ("-", digits),
        None => ("", text.strip_prefix('+').unwrap_or(text)),
    };
    let number = ExpressionKind::Number(digits.to_owned());
    if sign.is_empty() {
        return Some(number);
    }
    let span = Span::default();
    let number = Expression { kind: number, span };
    let minus = Operator {
        name: sign.into(),
        span,
    };
    Some(ExpressionKind::Unary(minus, Box::new(number)))
}

/// Reads a value of a type in binary.
fn binary(oid: u32, bytes: &[u8]) -> Option<ExpressionKind> {
    let text = if oid == Type::INT2.oid() {
        i16::from_be_bytes(bytes.try_into().ok()?).to_string()
    } else if oid == Type::INT4.oid() {
        i32::from_be_bytes(bytes.try_into().ok()?).to_string()
    } else if oid == Type::INT8.oid() {
        i64::from_be_bytes(bytes.try_into().ok()?).to_string()
    } else if oid == Type::NUMERIC.oid() {
        escrowd_pg::value::Number::from_binary(bytes)
            .ok()?
            .to_string()
    } else if oid == Type::FLOAT8.oid() {
        float(f64::from_be_bytes(bytes.try_into().ok()?))?
    } else if is_text(oid) {
        return Some(ExpressionKind::Text(
            std::str::from_utf8(bytes).ok()?.to_owned(),
        ));
    } else if oid == Type::UUID.oid() && bytes.len() == 16 {
        return Some(ExpressionKind::Text(hyphenated(&hex(bytes))));
    } else {
        return None;
    };
    number_literal(&text)
}

/// Returns a float in as few digits as it has. A column of 15 digits plus it is what PostgreSQL gets as well: 15 digits of
/// a double are exact.
fn float(value: f64) -> Option<String> {
    value.is_finite().then(|| value.to_string())
}

fn hex(bytes: &[u8]) -> String {
    bytes.iter().map(|byte| format!("{:02x}", byte)).collect()
}

/// Writes a uuid of 32 digits as PostgreSQL does.
fn hyphenated(digits: &str) -> String {
    [
        &digits[..8],
        &digits[8..12],
        &digits[12..16],
        &digits[16..20],
        &digits[20..],
    ]
    .join("-")
}

/// Returns a value as a number, as a column of this type takes it beside an operator.
pub fn number(value: Datum, oid: u32) -> Option<Decimal> {
    match value {
        Datum::Integer(value, _) => Some(Decimal::from(value)),
        Datum::Numeric(value) => Some(value),
        Datum::Unknown(text) if oid == Type::NUMERIC.oid() => {
            Decimal::parse(text.trim_matches(is_blank))
        }
        Datum::Unknown(text) => escrowd_pg::value::integer(oid, &text)
            .ok()
            .map(Decimal::from),
        _ => None,
    }
}

/// Returns a change as text. None: PostgreSQL would round it, or the server has no such number.
pub fn change_text(value: Decimal, scale: u32) -> Option<String> {
    let text = value.reduced().to_string();
    let unsigned = text.strip_prefix('-').unwrap_or(&text);
    let (whole, fraction) = unsigned.split_once('.').unwrap_or((unsigned, ""));
    let fits = fraction.len() <= scale as usize
        && whole.trim_start_matches('0').len() + scale as usize <= MOST_DIGITS;
    fits.then_some(text)
}

/// Returns a key in the one form of its value. None: no row can have it, or it is not understood.
pub fn key_text(value: Datum, key: KeyType) -> Option<String> {
    let text = match key {
        KeyType::Integer(least, greatest) => {
            let value = match value {
                Datum::Integer(value, _) => value,
                Datum::Unknown(text) => {
                    escrowd_pg::value::integer(key.parameter_oid(), &text).ok()?
                }
                Datum::Numeric(value) => value.reduced().to_string().parse().ok()?,
                _ => return None,
            };
            if !(least..=greatest).contains(&value) {
                return None;
            }
            value.to_string()
        }
        KeyType::Numeric(size) => {
            let value = number(value, Type::NUMERIC.oid())?.reduced();
            let text = value.to_string();
            let unsigned = text.strip_prefix('-').unwrap_or(&text);
            let (whole, fraction) = unsigned.split_once('.').unwrap_or((unsigned, ""));
            if let Some((in_front, behind)) = size {
                let whole = whole.trim_start_matches('0').len();
                if whole > in_front as usize || fraction.len() > behind as usize {
                    return None;
                }
            }
            if unsigned.bytes().all(|it| it == b'0' || it == b'.') {
                "0".to_owned()
            } else {
                text
            }
        }
        KeyType::Text(length) => {
            let text = match value {
                Datum::Unknown(text) | Datum::Text(text, _) => text,
                _ => return None,
            };
            if length.map_or(false, |length| text.chars().count() > length) {
                return None;
            }
            text
        }
        KeyType::Uuid => {
            let text = match value {
                Datum::Unknown(text) => text.to_ascii_lowercase(),
                _ => return None,
            };
            let digits: String = text.chars().filter(|&it| it != '-').collect();
            let is_one = digits.len() == 32 && digits.bytes().all(|it| it.is_ascii_hexdigit());
            let written = is_one.then(|| hyphenated(&digits))?;
            if text != written && text != digits {
                return None;
            }
            written
        }
    };
    (text.len() <= LONGEST_KEY && !text.contains('\0')).then_some(text)
}
