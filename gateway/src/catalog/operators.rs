//! Comparisons, arithmetic and patterns.

use std::cmp::Ordering;
use std::collections::HashMap;

use postgres_protocol::Oid;
use regex::{Regex, RegexBuilder};

use crate::catalog::missing;
use crate::catalog::types;
use crate::catalog::value::Value;
use crate::sqlstate::{Failure, Report, SqlState};

/// A comparison of two values.
#[derive(Clone, Copy, Debug, PartialEq, Eq)]
pub enum Comparison {
    /// =
    Equal,
    /// <>
    Unequal,
    /// <
    Less,
    /// <=
    LessOrEqual,
    /// >
    Greater,
    /// >=
    GreaterOrEqual,
}

impl Comparison {
    /// Returns the comparison of an operator.
    pub fn of(operator: &str) -> Option<Comparison> {
        Some(match operator {
            "=" => Comparison::Equal,
            "<>" | "!=" => Comparison::Unequal,
            "<" => Comparison::Less,
            "<=" => Comparison::LessOrEqual,
            ">" => Comparison::Greater,
            ">=" => Comparison::GreaterOrEqual,
            _ => return None,
        })
    }

    /// Returns whether two values that compare so fit it.
    pub fn fits(self, order: Ordering) -> bool {
        match self {
            Comparison::Equal => order == Ordering::Equal,
            Comparison::Unequal => order != Ordering::Equal,
            Comparison::Less => order == Ordering::Less,
            Comparison::LessOrEqual => order != Ordering::Greater,
            Comparison::Greater => order == Ordering::Greater,
            Comparison::GreaterOrEqual => order != Ordering::Less,
        }
    }

    /// Compares two values of one type. NULL gives NULL.
    pub fn test(self, left: &Value, right: &Value) -> Option<bool> {
        left.compare(right).map(|order| self.fits(order))
    }
}

/// Arithmetic of two numbers.
#[derive(Clone, Copy, Debug, PartialEq, Eq)]
pub enum Arithmetic {
    /// +
    Add,
    /// -
    Subtract,
    /// *
    Multiply,
    /// /
    Divide,
    /// %
    Remainder,
    /// &
    And,
    /// |
    Or,
    /// #
    ExclusiveOr,
    /// <<
    ShiftLeft,
    /// >>
    ShiftRight,
}

impl Arithmetic {
    /// Returns the arithmetic of an operator.
    pub fn of(operator: &str) -> Option<Arithmetic> {
        Some(match operator {
            "+" => Arithmetic::Add,
            "-" => Arithmetic::Subtract,
            "*" => Arithmetic::Multiply,
            "/" => Arithmetic::Divide,
            "%" => Arithmetic::Remainder,
            "&" => Arithmetic::And,
            "|" => Arithmetic::Or,
            "#" => Arithmetic::ExclusiveOr,
            "<<" => Arithmetic::ShiftLeft,
            ">>" => Arithmetic::ShiftRight,
            _ => return None,
        })
    }

    /// Returns whether it is of bits, and so of whole numbers alone.
    pub fn is_of_bits(self) -> bool {
        matches!(
            self,
            Arithmetic::And
                | Arithmetic::Or
                | Arithmetic::ExclusiveOr
                | Arithmetic::ShiftLeft
                | Arithmetic::ShiftRight
        )
    }

    fn integers(self, left: i64, right: i64, oid: Oid) -> Option<i64> {
        let bits = types::range(oid).map_or(64, |(_, most)| 65 - most.leading_zeros());
        let shift = (right as u32) % bits;
        match self {
            Arithmetic::Add => left.checked_add(right),
            Arithmetic::Subtract => left.checked_sub(right),
            Arithmetic::Multiply => left.checked_mul(right),
            Arithmetic::Divide => left.checked_div(right),
            Arithmetic::Remainder => Some(left.wrapping_rem(right)),
            Arithmetic::And => Some(left & right),
            Arithmetic::Or => Some(left | right),
            Arithmetic::ExclusiveOr => Some(left ^ right),
            Arithmetic::ShiftLeft => {
                let unused = 64 - bits;
                Some((left << (shift + unused)) >> unused)
            }
            Arithmetic::ShiftRight => Some(left >> shift),
        }
    }

    /// Computes with two numbers of one type.
    ///
    /// # Errors
    ///
    /// Fails at a division by zero, and if the result is out of the type's range.
    pub fn compute(self, oid: Oid, left: &Value, right: &Value) -> Result<Value, Failure> {
        let is_division = matches!(self, Arithmetic::Divide | Arithmetic::Remainder);
        match (left, right) {
            (Value::Null, _) | (_, Value::Null) => Ok(Value::Null),
            (_, Value::Integer(0)) if is_division => Err(division_by_zero()),
            (Value::Integer(left), Value::Integer(right)) => self
                .integers(*left, *right, oid)
                .filter(|&number| in_range(number, oid))
                .map(Value::Integer)
                .ok_or_else(|| out_of_range(oid)),
            (Value::Decimal(left), Value::Decimal(right)) => {
                let result = match self {
                    Arithmetic::Add => left.plus(*right),
                    Arithmetic::Subtract => left.subtract(*right),
                    Arithmetic::Multiply => left.multiply(*right),
                    _ => return Err(missing("a division of numeric")),
                };
                result
                    .map(Value::Decimal)
                    .ok_or_else(|| missing("a numeric of more than 38 digits"))
            }
            (Value::Float(left), Value::Float(right)) => Ok(Value::Float(match self {
                Arithmetic::Add => left + right,
                Arithmetic::Subtract => left - right,
                Arithmetic::Multiply => left * right,
                Arithmetic::Divide if *right == 0.0 => return Err(division_by_zero()),
                _ => left / right,
            })),
            _ => Err(Report::error(
                SqlState::INTERNAL_ERROR,
                "these are no numbers of one type",
            )),
        }
    }
}

fn division_by_zero() -> Failure {
    Report::error(SqlState::DIVISION_BY_ZERO, "division by zero")
}

/// Returns whether a whole number is one of this type.
pub fn in_range(number: i64, oid: Oid) -> bool {
    types::range(oid).map_or(true, |(least, most)| (least..=most).contains(&number))
}

/// Makes the report of a number that its type doesn't hold.
pub fn out_of_range(oid: Oid) -> Failure {
    let text = format!("{} out of range", types::display(oid));
    Report::error(SqlState::NUMBER_OUT_OF_RANGE, text)
}

/// Makes the report of an operator in front that doesn't take this type.
pub fn no_operator_before(operator: &str, right: Oid) -> Failure {
    let text = format!(
        "operator does not exist: {} {}",
        operator,
        types::name(right)
    );
    Report::error(SqlState::UNDEFINED_FUNCTION, text).hint(
        "No operator matches the given name and argument type. You might need to add an explicit type cast.",
    )
}

/// Makes the report of an operator that doesn't take these types.
pub fn no_operator_between(left: Oid, operator: &str, right: Oid) -> Failure {
    let (left, right) = (types::name(left), types::name(right));
    let text = format!("operator does not exist: {} {} {}", left, operator, right);
    Report::error(SqlState::UNDEFINED_FUNCTION, text).hint(
        "No operator matches the given name and argument types. You might need to add explicit type casts.",
    )
}

/// How a text is compared with a pattern.
#[derive(Clone, Copy, Debug, PartialEq, Eq)]
pub struct Match {
    /// Whether the pattern is a regular expression, else one of LIKE.
    pub is_regular: bool,
    /// Whether capitals and small letters are the same.
    pub ignores_case: bool,
    /// Whether the text may not fit.
    pub is_negated: bool,
}

impl Match {
    /// Returns the comparison of an operator.
    pub fn of(operator: &str) -> Option<Match> {
        let (is_negated, rest) = match operator.strip_prefix('!') {
            Some(rest) => (true, rest),
            None => (false, operator),
        };
        let (is_regular, ignores_case) = match rest {
            "~" => (true, false),
            "~*" => (true, true),
            "~~" => (false, false),
            "~~*" => (false, true),
            _ => return None,
        };
        Some(Match {
            is_regular,
            ignores_case,
            is_negated,
        })
    }
}

/// The regular expressions of a query, compiled once each.
#[derive(Debug, Default)]
pub struct Patterns {
    regular: HashMap<(String, bool), Regex>,
}

/// The most bytes that a compiled expression takes.
const MOST_EXPRESSION: usize = 256 * 1024;

/// The most regular expressions that are kept.
const MOST_PATTERNS: usize = 32;

impl Patterns {
    /// Compares a text with a pattern.
    ///
    /// # Errors
    ///
    /// Fails if the pattern is wrong, or none that both PostgreSQL and the library understand alike.
    pub fn test(&mut self, how: Match, text: &str, pattern: &str) -> Result<bool, Failure> {
        let fits = if how.is_regular {
            self.expression(pattern, how.ignores_case)?.is_match(text)
        } else if how.ignores_case {
            like(&text.to_lowercase(), &pattern.to_lowercase())?
        } else {
            like(text, pattern)?
        };
        Ok(fits != how.is_negated)
    }

    fn expression(&mut self, pattern: &str, ignores_case: bool) -> Result<&Regex, Failure> {
        let key = (pattern.to_owned(), ignores_case);
        if !self.regular.contains_key(&key) {
            let compiled = compile(pattern, ignores_case)?;
            if self.regular.len() >= MOST_PATTERNS {
                self.regular.clear();
            }
            self.regular.insert(key.clone(), compiled);
        }
        Ok(&self.regular[&key])
    }
}

/// Compiles a regular expression, in which a point is also a line feed, as in PostgreSQL.
fn compile(pattern: &str, ignores_case: bool) -> Result<Regex, Failure> {
    let missing = || missing(&format!("the regular expression {}", pattern));
    if !is_alike(pattern) {
        return Err(missing());
    }
    RegexBuilder::new(pattern)
        .case_insensitive(ignores_case)
        .dot_matches_new_line(true)
        .size_limit(MOST_EXPRESSION)
        .build()
        .map_err(|_| missing())
}

/// Returns whether PostgreSQL and the library read a regular expression alike.
///
/// They differ in escapes, in options at the beginning, and in brackets inside of brackets.
fn is_alike(pattern: &str) -> bool {
    let mut marks = pattern.chars().peekable();
    let mut in_brackets = false;
    if pattern.starts_with("***") {
        return false;
    }
    while let Some(mark) = marks.next() {
        let next = marks.peek().copied();
        match mark {
            '\\' => match marks.next() {
                Some('d' | 'w' | 's' | 'D' | 'W' | 'S' | 't' | 'n' | 'r') => {}
                Some(escaped) if escaped.is_ascii_punctuation() => {}
                _ => return false,
            },
            '[' if in_brackets => match next {
                Some(':') => {}
                _ => return false,
            },
            '&' | '-' | '~' if in_brackets && next == Some(mark) => return false,
            '[' => {
                in_brackets = true;
                if next == Some('^') {
                    marks.next();
                }
                if marks.peek() == Some(&']') {
                    marks.next();
                }
            }
            ':' if in_brackets && next == Some(']') => {
                marks.next();
            }
            ']' => in_brackets = false,
            '(' if !in_brackets && next == Some('?') => {
                marks.next();
                if marks.next() != Some(':') {
                    return false;
                }
            }
            _ => {}
        }
    }
    true
}

/// Compares a text with a pattern of LIKE: `%` is any text, `_` any character, behind a backslash neither.
fn like(text: &str, pattern: &str) -> Result<bool, Failure> {
    let text: Vec<char> = text.chars().collect();
    let mut marks: Vec<(char, bool)> = Vec::new();
    let mut written = pattern.chars();
    let mut is_dangling = false;
    while let Some(mark) = written.next() {
        match (mark, written.clone().next()) {
            ('\\', Some(escaped)) => {
                written.next();
                marks.push((escaped, true));
            }
            ('\\', None) => is_dangling = true,
            (mark, _) => marks.push((mark, false)),
        }
    }
    // The last `%` and the text behind it, to which a mismatch goes back.
    let (mut at, mut place, mut star) = (0, 0, None);
    while at < text.len() {
        match marks.get(place) {
            Some(('%', false)) => {
                star = Some((place, at));
                place += 1;
            }
            Some(&(mark, is_literal)) if mark == text[at] || (mark == '_' && !is_literal) => {
                at += 1;
                place += 1;
            }
            // PostgreSQL refuses such a pattern only where the text gets so far.
            None if is_dangling => return Err(dangling_escape()),
            _ => match star {
                Some((percent, from)) => {
                    star = Some((percent, from + 1));
                    place = percent + 1;
                    at = from + 1;
                }
                None => return Ok(false),
            },
        }
    }
    Ok(!is_dangling && marks[place..].iter().all(|mark| *mark == ('%', false)))
}

fn dangling_escape() -> Failure {
    let text = "LIKE pattern must not end with escape character";
    Report::error(SqlState::INVALID_ESCAPE_SEQUENCE, text)
}

#[cfg(test)]
mod tests {
    use super::*;
    use crate::catalog::types::oid;

    #[test]
    fn like_is_that_of_postgresql() {
        for (text, pattern, fits) in [
            ("stock", "st%", true),
            ("stock", "%", true),
            ("", "%", true),
            ("", "", true),
            ("stock", "s_ock", true),
            ("stock", "stoc", false),
            ("pg_x", "pg\\_%", true),
            ("pgax", "pg\\_%", false),
            ("abcabd", "%abd", true),
            ("a%", "a\\%", true),
            ("ab", "a\\%", false),
            ("stock", "%o%k", true),
            ("ä", "_", true),
            ("a", "b\\", false),
            ("", "\\", false),
        ] {
            assert_eq!(
                like(text, pattern).unwrap(),
                fits,
                "{} LIKE {}",
                text,
                pattern
            );
        }
        assert_eq!(
            like("ab", "a\\").unwrap_err().state,
            SqlState::INVALID_ESCAPE_SEQUENCE
        );
    }

    #[test]
    fn regular_expressions_are_those_of_postgresql_or_refused() {
        let mut patterns = Patterns::default();
        let mut test = |operator: &str, text: &str, pattern: &str| {
            patterns.test(Match::of(operator).unwrap(), text, pattern)
        };
        assert!(test("~", "stock", "^(stock)$").unwrap());
        assert!(!test("~", "stocks", "^(stock)$").unwrap());
        assert!(test("!~", "public", "^pg_").unwrap());
        assert!(test("~*", "STOCK", "^(st.*)$").unwrap());
        assert!(test("~", "a\nb", "^a.b$").unwrap());
        assert!(test("~", "a$b", "^(a\\$b)$").unwrap());
        assert!(test("~", "a]", "^a[]x]$").unwrap());
        assert!(test("~", "ab1", "^[[:alpha:]]+[0-9]$").unwrap());
        for pattern in [
            "a\\b",
            "(?i)a",
            "***=a",
            "[a[b]",
            "a(?=b)",
            "(",
            "\\mword\\M",
            "[a&&b]",
            "a\\1",
        ] {
            let state = test("~", "a", pattern).unwrap_err().state;
            assert_eq!(state, SqlState::FEATURE_NOT_SUPPORTED, "{}", pattern);
        }
    }

    #[test]
    fn whole_numbers_have_ranges() {
        let compute = |arithmetic: Arithmetic, oid, left: i64, right: i64| {
            arithmetic.compute(oid, &left.into(), &right.into())
        };
        assert_eq!(
            compute(Arithmetic::Add, oid::INT4, 1, 1).unwrap(),
            2_i64.into()
        );
        assert_eq!(
            compute(Arithmetic::Divide, oid::INT4, -7, 2).unwrap(),
            (-3_i64).into()
        );
        assert_eq!(
            compute(Arithmetic::Remainder, oid::INT4, -7, 2).unwrap(),
            (-1_i64).into()
        );
        assert_eq!(
            compute(Arithmetic::And, oid::INT4, 3, 1).unwrap(),
            1_i64.into()
        );
        assert_eq!(
            compute(Arithmetic::ShiftLeft, oid::INT4, 1, 31).unwrap(),
            i64::from(i32::MIN).into()
        );
        assert_eq!(
            compute(Arithmetic::ShiftLeft, oid::INT4, 1, 33).unwrap(),
            2_i64.into()
        );
        assert_eq!(
            compute(Arithmetic::Add, oid::INT4, i64::from(i32::MAX), 1)
                .unwrap_err()
                .message,
            "integer out of range"
        );
        assert_eq!(
            compute(Arithmetic::Divide, oid::INT4, 1, 0)
                .unwrap_err()
                .state,
            SqlState::DIVISION_BY_ZERO
        );
        assert!(compute(Arithmetic::Divide, oid::INT8, i64::MIN, -1).is_err());
    }
}
