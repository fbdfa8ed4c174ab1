//! Values in text and in binary, as clients send them and as they get them.

use std::cmp::Ordering;
use std::fmt;

use postgres_protocol::types;
use postgres_protocol::Oid;

use crate::decimal::Decimal;
use crate::limits::{MOST_DIGITS, MOST_DIGITS_BEHIND_POINT};
use crate::sqlstate::{Failure, Report, SqlState};
use crate::statement::literal::not_utf8;
use crate::wire::backend::Format;

pub mod array;

/// The Oids of the types that are understood.
pub mod oid {
    use postgres_protocol::Oid;

    /// A type that the client leaves open.
    pub const UNSPECIFIED: Oid = 0;
    /// boolean
    pub const BOOL: Oid = 16;
    /// name
    pub const NAME: Oid = 19;
    /// bigint
    pub const INT8: Oid = 20;
    /// smallint
    pub const INT2: Oid = 21;
    /// integer
    pub const INT4: Oid = 23;
    /// text
    pub const TEXT: Oid = 25;
    /// oid
    pub const OID: Oid = 26;
    /// unknown
    pub const UNKNOWN: Oid = 705;
    /// character(n)
    pub const BPCHAR: Oid = 1042;
    /// character varying
    pub const VARCHAR: Oid = 1043;
    /// numeric
    pub const NUMERIC: Oid = 1700;
}

/// A number as the program reads it: its sign, and its digits without zeros that mean nothing.
#[derive(Clone, Debug, PartialEq, Eq)]
pub struct Number {
    /// Whether it is below zero.
    pub negative: bool,
    /// Its digits, perhaps with a point.
    pub digits: String,
}

/// Why there is no number.
#[derive(Clone, Copy, Debug, PartialEq, Eq)]
pub enum NumberFault {
    /// It isn't written as one.
    Syntax,
    /// It has more digits than the program's numbers.
    Range,
}

/// A parameter's value.
#[derive(Clone, Debug, PartialEq, Eq)]
pub enum Value {
    /// NULL.
    Null,
    /// A number.
    Number(Number),
    /// A text.
    Text(String),
    /// The elements of an array.
    List(Vec<Value>),
}

impl Value {
    /// Returns how many bytes it takes.
    pub fn size(&self) -> usize {
        match self {
            Value::Null => 0,
            Value::Number(number) => number.digits.len(),
            Value::Text(text) => text.len(),
            Value::List(list) => {
                let own = list.capacity() * std::mem::size_of::<Value>();
                own + list.iter().map(Value::size).sum::<usize>()
            }
        }
    }
}

impl Value {
    /// Compares values of one column in the order in which the program keeps them.
    pub fn compare(&self, other: &Value) -> Ordering {
        match (self, other) {
            (Value::Number(left), Value::Number(right)) => left.compare(right),
            (Value::Text(left), Value::Text(right)) => left.cmp(right),
            _ => Ordering::Equal,
        }
    }
}

impl Number {
    /// Compares two numbers.
    pub fn compare(&self, other: &Number) -> Ordering {
        let magnitude = |number: &Number| {
            let (whole, fraction) = number
                .digits
                .split_once('.')
                .unwrap_or((&number.digits, ""));
            let digits = format!("{:0>15}{:0<6}", whole, fraction);
            let magnitude = digits.parse::<i128>().unwrap_or(0);
            if number.negative {
                -magnitude
            } else {
                magnitude
            }
        };
        magnitude(self).cmp(&magnitude(other))
    }

    /// Makes a number of a whole one.
    ///
    /// # Errors
    ///
    /// Fails if it has more than 15 digits.
    pub fn from_integer(value: i64) -> Result<Number, NumberFault> {
        let digits = value.unsigned_abs().to_string();
        if digits.len() > MOST_DIGITS {
            return Err(NumberFault::Range);
        }
        Ok(Number {
            negative: value < 0,
            digits,
        })
    }

    /// Reads a number as PostgreSQL's numeric is written: a sign, digits, a point, an exponent.
    ///
    /// # Errors
    ///
    /// Fails if it isn't written so, or has more digits than the program's numbers.
    pub fn from_text(text: &str) -> Result<Number, NumberFault> {
        let text = text.trim_matches(is_blank);
        let (negative, unsigned) = match text.as_bytes().first() {
            Some(b'-') => (true, &text[1..]),
            Some(b'+') => (false, &text[1..]),
            _ => (false, text),
        };
        let (mantissa, exponent) = match unsigned.find(['e', 'E']) {
            Some(end) => (&unsigned[..end], Some(&unsigned[end + 1..])),
            None => (unsigned, None),
        };
        let (whole, fraction) = match mantissa.find('.') {
            Some(end) => (&mantissa[..end], &mantissa[end + 1..]),
            None => (mantissa, ""),
        };
        let are_digits = |text: &str| text.bytes().all(|byte| byte.is_ascii_digit());
        if whole.len() + fraction.len() == 0 || !are_digits(whole) || !are_digits(fraction) {
            return Err(NumberFault::Syntax);
        }
        let exponent = exponent.map_or(Ok(0), read_exponent)?;
        let digits = whole.bytes().chain(fraction.bytes()).collect();
        Number::from_digits(negative, digits, whole.len() as i64 + exponent)
    }

    /// Reads numeric in binary. As in PostgreSQL the number of digits behind the point that it tells hides those behind them.
    ///
    /// # Errors
    ///
    /// Fails if the bytes are no numeric, or one that the program's numbers don't hold, NaN and infinity among them.
    pub fn from_binary(bytes: &[u8]) -> Result<Number, NumberFault> {
        let word = |place: usize| {
            let bytes = bytes
                .get(2 * place..2 * place + 2)
                .ok_or(NumberFault::Syntax)?;
            Ok(u16::from_be_bytes([bytes[0], bytes[1]]))
        };
        let (count, weight, sign) = (usize::from(word(0)?), word(1)? as i16, word(2)?);
        let shown = i64::from(word(3)?);
        if bytes.len() != 8 + 2 * count {
            return Err(NumberFault::Syntax);
        }
        let negative = match sign {
            0x0000 => false,
            0x4000 => true,
            // NaN and the infinities.
            0xc000 | 0xd000 | 0xf000 => return Err(NumberFault::Range),
            _ => return Err(NumberFault::Syntax),
        };
        let mut digits = Vec::with_capacity(4 * count);
        for place in 0..count {
            let group = word(4 + place)?;
            if group > 9_999 {
                return Err(NumberFault::Syntax);
            }
            digits.extend_from_slice(format!("{:04}", group).as_bytes());
        }
        let point = 4 * (i64::from(weight) + 1);
        digits.truncate(usize::try_from(point + shown).unwrap_or(0));
        Number::from_digits(negative, digits, point)
    }

    /// Returns it as a whole number. None: it has a point.
    pub fn integer(&self) -> Option<i64> {
        let digits: i64 = self.digits.parse().ok()?;
        Some(if self.negative { -digits } else { digits })
    }

    /// Makes a number of its digits, `point` of which are in front of the point.
    fn from_digits(
        negative: bool,
        mut digits: Vec<u8>,
        mut point: i64,
    ) -> Result<Number, NumberFault> {
        let zeros = digits.iter().take_while(|&&digit| digit == b'0').count();
        digits.drain(..zeros);
        point -= zeros as i64;
        while digits.last() == Some(&b'0') {
            digits.pop();
        }
        if digits.is_empty() {
            return Ok(Number {
                negative: false,
                digits: "0".to_owned(),
            });
        }
        let in_front = usize::try_from(point).unwrap_or(0);
        let behind = usize::try_from(digits.len() as i64 - point).unwrap_or(0);
        if in_front + behind > MOST_DIGITS || behind > MOST_DIGITS_BEHIND_POINT {
            return Err(NumberFault::Range);
        }
        let mut written = String::with_capacity(MOST_DIGITS + 2);
        if in_front == 0 {
            written.push('0');
        }
        let digit_at = |place: i64| match usize::try_from(place) {
            Ok(place) => digits.get(place).map_or('0', |&digit| char::from(digit)),
            Err(_) => '0',
        };
        written.extend((0..in_front as i64).map(digit_at));
        if behind > 0 {
            written.push('.');
            written.extend((point..point + behind as i64).map(digit_at));
        }
        Ok(Number {
            negative,
            digits: written,
        })
    }
}

impl fmt::Display for Number {
    fn fmt(&self, formatter: &mut fmt::Formatter<'_>) -> fmt::Result {
        let sign = if self.negative { "-" } else { "" };
        write!(formatter, "{}{}", sign, self.digits)
    }
}

fn read_exponent(text: &str) -> Result<i64, NumberFault> {
    let digits = text.strip_prefix(['+', '-']).unwrap_or(text);
    if digits.is_empty() || !digits.bytes().all(|byte| byte.is_ascii_digit()) {
        return Err(NumberFault::Syntax);
    }
    // What doesn't fit here is far out of range, and so is this.
    let exponent = digits
        .parse()
        .unwrap_or(i64::from(i32::MAX))
        .min(i64::from(i32::MAX));
    Ok(if text.starts_with('-') {
        -exponent
    } else {
        exponent
    })
}

/// Returns whether a character is one of the blanks that PostgreSQL takes around a number and in an array.
pub fn is_blank(character: char) -> bool {
    character.is_ascii_whitespace() || character == '\x0b'
}

/// Returns whether a type that a parameter may have is one of texts. None: it is another type.
fn is_text(oid: Oid) -> Option<bool> {
    match oid {
        oid::INT2 | oid::INT4 | oid::INT8 | oid::NUMERIC => Some(false),
        oid::TEXT | oid::VARCHAR | oid::BPCHAR | oid::NAME => Some(true),
        oid::UNKNOWN | oid::UNSPECIFIED => Some(true),
        _ => None,
    }
}

/// Reads the value of the parameter `$number`.
///
/// # Errors
///
/// Fails if its type isn't understood, if the bytes are none of its type, or if the program can't hold it.
pub fn parameter(
    number: usize,
    oid: Oid,
    format: Format,
    bytes: Option<&[u8]>,
) -> Result<Value, Failure> {
    if let (Some(element), Some(bytes)) = (array::element(oid), bytes) {
        return list(number, element, format, bytes);
    }
    if bytes.is_none() && array::element(oid).is_some() {
        return Ok(Value::Null);
    }
    let is_text = is_text(oid).ok_or_else(|| {
        Report::missing(&format!(
            "a parameter (${}) of the type with Oid {}",
            number, oid
        ))
        .hint(
            "Send smallint, integer, bigint, numeric, text or character varying, or leave the \
             type unspecified.",
        )
    })?;
    let bytes = match bytes {
        Some(bytes) => bytes,
        None => return Ok(Value::Null),
    };
    if is_text {
        let text = std::str::from_utf8(bytes).map_err(|_| not_utf8(bytes))?;
        return Ok(Value::Text(text.to_owned()));
    }
    match format {
        Format::Text => {
            let text = std::str::from_utf8(bytes).map_err(|_| not_utf8(bytes))?;
            self::number(oid, text).map(Value::Number)
        }
        Format::Binary => binary_number(number, oid, bytes),
    }
}

/// Reads an array.
fn list(number: usize, element: Oid, format: Format, bytes: &[u8]) -> Result<Value, Failure> {
    let value = |bytes: Option<&[u8]>| parameter(number, element, format, bytes);
    let values: Result<Vec<Value>, Failure> = match format {
        Format::Text => {
            let text = std::str::from_utf8(bytes).map_err(|_| not_utf8(bytes))?;
            let elements = array::elements(text)?;
            let elements = elements.iter().map(Option::as_deref);
            elements
                .map(|text| value(text.map(str::as_bytes)))
                .collect()
        }
        Format::Binary => {
            let elements = array::binary_elements(number, element, bytes)?;
            elements.into_iter().map(value).collect()
        }
    };
    values.map(Value::List)
}

/// Returns whether PostgreSQL's numeric has this value, which is no number of the program.
fn is_special(text: &str) -> bool {
    let text = text.trim().trim_start_matches(['-', '+']);
    ["nan", "inf", "infinity"]
        .iter()
        .any(|special| text.eq_ignore_ascii_case(special))
}

/// Reads a whole number as PostgreSQL reads the integer type of this Oid.
///
/// # Errors
///
/// Fails if it isn't written as one, or is out of the type's range.
pub fn integer(oid: Oid, text: &str) -> Result<i64, Failure> {
    let (name, least, greatest) = match oid {
        oid::INT2 => ("smallint", i64::from(i16::MIN), i64::from(i16::MAX)),
        oid::INT4 => ("integer", i64::from(i32::MIN), i64::from(i32::MAX)),
        _ => ("bigint", i64::MIN, i64::MAX),
    };
    let trimmed = text.trim_matches(is_blank);
    let digits = trimmed.strip_prefix(['+', '-']).unwrap_or(trimmed);
    if digits.is_empty() || !digits.bytes().all(|byte| byte.is_ascii_digit()) {
        return Err(invalid_input(name, text));
    }
    match trimmed.parse::<i64>() {
        Ok(value) if (least..=greatest).contains(&value) => Ok(value),
        _ => Err(Report::error(
            SqlState::NUMBER_OUT_OF_RANGE,
            format!("value \"{}\" is out of range for type {}", text, name),
        )),
    }
}

/// Reads a number as PostgreSQL reads the type of this Oid: an integer type, or numeric.
///
/// # Errors
///
/// Fails if it isn't written as one, or if the program's numbers don't hold it.
pub fn number(oid: Oid, text: &str) -> Result<Number, Failure> {
    let number = match oid {
        oid::NUMERIC => Number::from_text(text),
        _ => Number::from_integer(integer(oid, text)?),
    };
    number.map_err(|fault| match fault {
        NumberFault::Syntax => no_number(text),
        NumberFault::Range => out_of_range(text),
    })
}

/// Makes the report of a text that is no numeric, or one that the program doesn't have.
pub fn no_number(text: &str) -> Failure {
    if is_special(text) {
        out_of_range(text)
    } else {
        invalid_input("numeric", text)
    }
}

/// Returns a number as one of a numeric with precision and scale.
///
/// # Errors
///
/// Fails if it has too many digits.
pub fn sized(number: Decimal, precision: u32, scale: u32) -> Result<Decimal, Failure> {
    let rounded = number.with_scale(scale);
    let fitting = rounded.filter(|rounded| rounded.has_digits(precision));
    fitting.ok_or_else(|| {
        let limit = match i64::from(precision) - i64::from(scale) {
            0 => "1".to_owned(),
            most => format!("10^{}", most),
        };
        let detail = format!(
            "A field with precision {}, scale {} must round to an absolute value less than {}.",
            precision, scale, limit
        );
        Report::error(SqlState::NUMBER_OUT_OF_RANGE, "numeric field overflow").detail(detail)
    })
}

fn binary_number(number: usize, oid: Oid, bytes: &[u8]) -> Result<Value, Failure> {
    let least = match oid {
        oid::INT2 => 2,
        oid::INT4 => 4,
        oid::INT8 | oid::NUMERIC => 8,
        _ => 0,
    };
    if bytes.len() < least {
        let text = "insufficient data left in message";
        return Err(Report::error(SqlState::PROTOCOL_VIOLATION, text));
    }
    let wrong = || no_binary(number);
    let integer = match oid {
        oid::INT2 => types::int2_from_sql(bytes).map(i64::from),
        oid::INT4 => types::int4_from_sql(bytes).map(i64::from),
        oid::INT8 => types::int8_from_sql(bytes),
        _ => {
            return Number::from_binary(bytes)
                .map(Value::Number)
                .map_err(|fault| match fault {
                    NumberFault::Range => out_of_range(&format!("${}", number)),
                    NumberFault::Syntax => wrong(),
                })
        }
    };
    let integer = integer.map_err(|_| wrong())?;
    Number::from_integer(integer)
        .map(Value::Number)
        .map_err(|_| out_of_range(&integer.to_string()))
}

/// Makes the report of a parameter whose bytes are no value of its type.
pub fn no_binary(number: usize) -> Failure {
    let text = format!("incorrect binary data format in bind parameter {}", number);
    Report::error(SqlState::INVALID_BINARY_REPRESENTATION, text)
}

fn invalid_input(name: &str, text: &str) -> Failure {
    Report::error(
        SqlState::INVALID_TEXT_REPRESENTATION,
        format!("invalid input syntax for type {}: \"{}\"", name, text),
    )
}

/// Makes the report of a number that the program's numbers don't hold.
pub fn out_of_range(text: &str) -> Failure {
    Report::error(
        SqlState::NUMBER_OUT_OF_RANGE,
        format!("value \"{}\" is out of range", text),
    )
    .detail("A number has at most 15 digits, at most 6 of them after the decimal point.")
}

/// Appends a value that is written as text in the format and the type of its column, with its length.
///
/// # Errors
///
/// Fails if the text is none of the type.
pub fn append_cell(
    out: &mut Vec<u8>,
    text: &str,
    oid: Oid,
    format: Format,
) -> Result<(), NumberFault> {
    let start = out.len();
    out.extend_from_slice(&[0; 4]);
    match (format, oid) {
        (Format::Binary, oid::INT8) => append_integer::<i64, 8>(out, text, i64::to_be_bytes)?,
        (Format::Binary, oid::INT4) => append_integer::<i32, 4>(out, text, i32::to_be_bytes)?,
        (Format::Binary, oid::INT2) => append_integer::<i16, 2>(out, text, i16::to_be_bytes)?,
        (Format::Binary, oid::OID) => append_integer::<u32, 4>(out, text, u32::to_be_bytes)?,
        (Format::Binary, oid::BOOL) => out.push(u8::from(text == "t")),
        (Format::Binary, oid::NUMERIC) => append_numeric(out, text)?,
        _ => out.extend_from_slice(text.as_bytes()),
    }
    let length = (out.len() - start - 4) as u32;
    out[start..start + 4].copy_from_slice(&length.to_be_bytes());
    Ok(())
}

fn append_integer<T: std::str::FromStr, const N: usize>(
    out: &mut Vec<u8>,
    text: &str,
    bytes: fn(T) -> [u8; N],
) -> Result<(), NumberFault> {
    let value = text.parse().map_err(|_| NumberFault::Syntax)?;
    out.extend_from_slice(&bytes(value));
    Ok(())
}

/// Appends a number, written as the program writes it, as numeric in binary.
fn append_numeric(out: &mut Vec<u8>, text: &str) -> Result<(), NumberFault> {
    let (negative, unsigned) = match text.strip_prefix('-') {
        Some(unsigned) => (true, unsigned),
        None => (false, text.strip_prefix('+').unwrap_or(text)),
    };
    let (whole, fraction) = match unsigned.find('.') {
        Some(end) => (&unsigned[..end], &unsigned[end + 1..]),
        None => (unsigned, ""),
    };
    let are_digits = |text: &str| text.bytes().all(|byte| byte.is_ascii_digit());
    if whole.is_empty() || !are_digits(whole) || !are_digits(fraction) {
        return Err(NumberFault::Syntax);
    }
    let groups_in_front = (whole.len() + 3) / 4;
    let padding = 4 * groups_in_front - whole.len();
    let padded = std::iter::repeat(b'0')
        .take(padding)
        .chain(whole.bytes())
        .chain(fraction.bytes())
        .chain(std::iter::repeat(b'0').take((4 - fraction.len() % 4) % 4));
    let mut groups = Vec::with_capacity(groups_in_front + fraction.len() / 4 + 1);
    for (place, digit) in padded.enumerate() {
        if place % 4 == 0 {
            groups.push(0_u16);
        }
        if let Some(group) = groups.last_mut() {
            *group = *group * 10 + u16::from(digit - b'0');
        }
    }
    let zeros = groups.iter().take_while(|&&group| group == 0).count();
    let weight = groups_in_front as i16 - 1 - zeros as i16;
    while groups.last() == Some(&0) {
        groups.pop();
    }
    let groups = groups.get(zeros..).unwrap_or(&[]);
    let (weight, negative) = if groups.is_empty() {
        (0, false)
    } else {
        (weight, negative)
    };
    out.extend_from_slice(&(groups.len() as u16).to_be_bytes());
    out.extend_from_slice(&weight.to_be_bytes());
    out.extend_from_slice(&[if negative { 0x40 } else { 0 }, 0]);
    out.extend_from_slice(&(fraction.len() as u16).to_be_bytes());
    for group in groups {
        out.extend_from_slice(&group.to_be_bytes());
    }
    Ok(())
}

#[cfg(test)]
mod tests {
    use super::*;
    use proptest::prelude::*;

    fn written(number: Result<Number, NumberFault>) -> String {
        match number {
            Ok(number) => format!(
                "{}{}",
                if number.negative { "-" } else { "" },
                number.digits
            ),
            Err(fault) => format!("{:?}", fault),
        }
    }

    fn from_text(text: &str) -> String {
        written(Number::from_text(text))
    }

    /// Bytes as `numeric_send` of PostgreSQL writes them.
    fn numeric(groups: &[u16], weight: i16, sign: u16, scale: u16) -> Vec<u8> {
        let mut bytes = (groups.len() as u16).to_be_bytes().to_vec();
        bytes.extend_from_slice(&weight.to_be_bytes());
        bytes.extend_from_slice(&sign.to_be_bytes());
        bytes.extend_from_slice(&scale.to_be_bytes());
        for group in groups {
            bytes.extend_from_slice(&group.to_be_bytes());
        }
        bytes
    }

    fn cell(text: &str, oid: Oid) -> Vec<u8> {
        let mut out = Vec::new();
        append_cell(&mut out, text, oid, Format::Binary).unwrap();
        out.split_off(4)
    }

    #[test]
    fn reads_numbers_as_postgresql_writes_them() {
        for (text, number) in [
            ("5", "5"),
            (" -5 ", "-5"),
            ("+05", "5"),
            ("9.500", "9.5"),
            (".5", "0.5"),
            ("5.", "5"),
            ("-0.00", "0"),
            ("1e3", "1000"),
            ("1.5E+2", "150"),
            ("25e-1", "2.5"),
            ("0.000001", "0.000001"),
            ("999999999999999", "999999999999999"),
            ("123456789.123456", "123456789.123456"),
            ("0e999999999999", "0"),
        ] {
            assert_eq!(from_text(text), number, "{}", text);
        }
    }

    #[test]
    fn refuses_what_is_no_number_or_has_too_many_digits() {
        for text in [
            "", "-", ".", "1e", "1e+", "1 2", "\u{a0}1", "0x1", "1_0", "--1", "abc", "NaN", "1,5",
        ] {
            assert_eq!(from_text(text), "Syntax", "{}", text);
        }
        for text in [
            "1000000000000000",
            "0.0000001",
            "1234567890.123456",
            "1e15",
            "1e-7",
            "1e99999999999999999999",
            "-1e-99999999999999999999",
        ] {
            assert_eq!(from_text(text), "Range", "{}", text);
        }
    }

    #[test]
    fn reads_and_writes_numeric_in_binary_as_postgresql_15_does() {
        // From SELECT numeric_send('..'::numeric).
        for (text, bytes) in [
            ("0.00", numeric(&[], 0, 0, 2)),
            ("9.50", numeric(&[9, 5000], 0, 0, 2)),
            ("-0.05", numeric(&[500], -1, 0x4000, 2)),
            ("10000.00", numeric(&[1], 1, 0, 2)),
            ("1234567.891234", numeric(&[123, 4567, 8912, 3400], 1, 0, 6)),
            ("0.000012", numeric(&[1200], -2, 0, 6)),
            (
                "-999999999999999",
                numeric(&[999, 9999, 9999, 9999], 3, 0x4000, 0),
            ),
        ] {
            assert_eq!(cell(text, oid::NUMERIC), bytes, "{}", text);
            assert_eq!(
                Number::from_binary(&bytes),
                Number::from_text(text),
                "{}",
                text
            );
        }
    }

    #[test]
    fn a_numeric_in_binary_has_the_digits_that_its_scale_shows() {
        // From numeric_recv of such bytes: an array of one numeric, COPY .. WITH BINARY.
        for (groups, weight, scale, text) in [
            (&[1, 9999][..], 0, 2, "1.99"),
            (&[1, 9999], 0, 0, "1"),
            (&[100], -2, 1, "0"),
            (&[100], -2, 6, "0.000001"),
            (&[5000], -1, 9, "0.5"),
        ] {
            let bytes = numeric(groups, weight, 0, scale);
            assert_eq!(written(Number::from_binary(&bytes)), text);
        }
    }

    #[test]
    fn refuses_numerics_that_are_none() {
        let infinity = numeric(&[], 0, 0xd000, 0);
        assert_eq!(Number::from_binary(&infinity), Err(NumberFault::Range));
        assert_eq!(
            Number::from_binary(&numeric(&[], 0, 0xc000, 0)),
            Err(NumberFault::Range)
        );
        assert_eq!(
            Number::from_binary(&numeric(&[10_000], 0, 0, 0)),
            Err(NumberFault::Syntax)
        );
        assert_eq!(
            Number::from_binary(&numeric(&[1], 0, 0x1234, 0)),
            Err(NumberFault::Syntax)
        );
        assert_eq!(
            Number::from_binary(&numeric(&[1], 0, 0, 0)[..9]),
            Err(NumberFault::Syntax)
        );
        assert_eq!(
            Number::from_binary(&numeric(&[1], i16::MAX, 0, 0)),
            Err(NumberFault::Range)
        );
    }

    #[test]
    fn reads_parameters_of_each_type() {
        let read = |oid, format, bytes: &[u8]| match parameter(1, oid, format, Some(bytes)) {
            Ok(Value::Number(number)) => written(Ok(number)),
            Ok(Value::Text(text)) => format!("'{}'", text),
            Ok(Value::Null | Value::List(_)) => "NULL".to_owned(),
            Err(report) => report.state.code().to_owned(),
        };
        use Format::{Binary, Text};
        assert_eq!(read(oid::INT2, Binary, &(-5_i16).to_be_bytes()), "-5");
        assert_eq!(read(oid::INT4, Binary, &70_000_i32.to_be_bytes()), "70000");
        assert_eq!(read(oid::INT8, Binary, &(-7_i64).to_be_bytes()), "-7");
        assert_eq!(
            read(oid::INT8, Binary, &1_000_000_000_000_000_i64.to_be_bytes()),
            "22003"
        );
        assert_eq!(read(oid::INT8, Binary, &i64::MIN.to_be_bytes()), "22003");
        assert_eq!(read(oid::INT4, Binary, &[0, 1]), "08P01");
        assert_eq!(read(oid::INT4, Binary, &[0; 8]), "22P03");
        assert_eq!(read(oid::INT2, Text, b" +32767 "), "32767");
        assert_eq!(read(oid::INT2, Text, b"32768"), "22003");
        assert_eq!(read(oid::INT8, Text, b"9.5"), "22P02");
        assert_eq!(read(oid::INT8, Text, b""), "22P02");
        assert_eq!(read(oid::NUMERIC, Text, b"9.50"), "9.5");
        assert_eq!(read(oid::NUMERIC, Text, b"NaN"), "22003");
        assert_eq!(read(oid::NUMERIC, Text, b"-Infinity"), "22003");
        assert_eq!(read(oid::NUMERIC, Text, b"x"), "22P02");
        assert_eq!(
            read(oid::VARCHAR, Binary, "\u{e4}'".as_bytes()),
            "'\u{e4}''"
        );
        assert_eq!(read(oid::TEXT, Text, b"\xff"), "22021");
        assert_eq!(read(701, Text, b"1.5"), "0A000");
        assert_eq!(parameter(1, oid::INT4, Binary, None), Ok(Value::Null));
    }

    #[test]
    fn writes_whole_numbers_and_truth_in_binary() {
        assert_eq!(cell("-2", oid::INT8), (-2_i64).to_be_bytes());
        assert_eq!(cell("70000", oid::INT4), 70_000_i32.to_be_bytes());
        assert_eq!(cell("-32768", oid::INT2), i16::MIN.to_be_bytes());
        assert_eq!(cell("t", oid::BOOL), [1]);
        assert_eq!(cell("a\u{e4}", oid::VARCHAR), "a\u{e4}".as_bytes());
        let mut out = Vec::new();
        assert_eq!(
            append_cell(&mut out, "9.50", oid::INT8, Format::Binary),
            Err(NumberFault::Syntax)
        );
    }

    proptest! {
        #[test]
        fn numbers_there_and_back(units in -999_999_999_999_999_i64..=999_999_999_999_999, scale in 0_usize..=6) {
            let digits = format!("{:0>width$}", units.unsigned_abs(), width = scale + 1);
            let (whole, fraction) = digits.split_at(digits.len() - scale);
            let point = if scale > 0 { "." } else { "" };
            let text = format!("{}{}{}{}", if units < 0 { "-" } else { "" }, whole, point, fraction);
            let from_text = Number::from_text(&text).unwrap();
            let binary = cell(&text, oid::NUMERIC);
            prop_assert_eq!(&Number::from_binary(&binary).unwrap(), &from_text);
            let again = written(Ok(from_text.clone()));
            prop_assert_eq!(Number::from_text(&again).unwrap(), from_text);
            if scale == 0 {
                prop_assert_eq!(written(Number::from_integer(units)), text);
            }
        }

        #[test]
        fn any_bytes_are_read_or_refused(bytes in proptest::collection::vec(any::<u8>(), 0..40)) {
            for oid in [oid::INT2, oid::INT4, oid::INT8, oid::NUMERIC, oid::TEXT, 0, 701] {
                for format in [Format::Text, Format::Binary] {
                    if let Ok(Value::Number(number)) = parameter(1, oid, format, Some(&bytes)) {
                        prop_assert!(number.digits.len() <= MOST_DIGITS + 2);
                        prop_assert!(Number::from_text(&number.digits).is_ok());
                    }
                }
            }
        }
    }
}
