//! numeric, exact, with at most 38 digits.

use std::cmp::Ordering;
use std::fmt;

/// A number with a fixed count of digits behind its point.
#[derive(Clone, Copy, Debug, PartialEq, Eq)]
pub struct Decimal {
    /// The digits as a whole number.
    digits: i128,
    /// How many of them are behind the point.
    scale: u32,
}

/// The most digits behind the point.
const MOST_SCALE: u32 = 30;

fn power(exponent: u32) -> Option<i128> {
    10_i128.checked_pow(exponent)
}

impl Decimal {
    /// Reads a number as PostgreSQL's numeric is written, with a sign, a point and an exponent.
    ///
    /// None: it isn't one, or has too many digits.
    pub fn parse(text: &str) -> Option<Decimal> {
        let (is_negative, unsigned) = match text.as_bytes().first()? {
            b'-' => (true, &text[1..]),
            b'+' => (false, &text[1..]),
            _ => (false, text),
        };
        let (mantissa, exponent) = match unsigned.find(['e', 'E']) {
            Some(end) => (&unsigned[..end], unsigned[end + 1..].parse::<i32>().ok()?),
            None => (unsigned, 0),
        };
        let (whole, fraction) = mantissa.split_once('.').unwrap_or((mantissa, ""));
        let are_digits = |text: &str| text.bytes().all(|byte| byte.is_ascii_digit());
        if whole.len() + fraction.len() == 0 || !are_digits(whole) || !are_digits(fraction) {
            return None;
        }
        let written = format!("0{}{}", whole, fraction);
        let digits: i128 = written
            .trim_start_matches('0')
            .parse()
            .or_else(|_| {
                if written.bytes().all(|byte| byte == b'0') {
                    Ok(0)
                } else {
                    written.parse()
                }
            })
            .ok()?;
        let digits = if is_negative { -digits } else { digits };
        let scale = i32::try_from(fraction.len()).ok()?.checked_sub(exponent)?;
        if scale < 0 {
            let digits = digits.checked_mul(power(scale.unsigned_abs())?)?;
            return Some(Decimal { digits, scale: 0 });
        }
        let scale = scale.unsigned_abs();
        (scale <= MOST_SCALE).then_some(Decimal { digits, scale })
    }

    /// Returns it with this many digits behind the point, rounded half away from zero.
    ///
    /// None: it has too many digits.
    pub fn with_scale(self, scale: u32) -> Option<Decimal> {
        if scale >= self.scale {
            let digits = self.digits.checked_mul(power(scale - self.scale)?)?;
            return (scale <= MOST_SCALE).then_some(Decimal { digits, scale });
        }
        let unit = power(self.scale - scale)?;
        let (quotient, rest) = (self.digits / unit, self.digits % unit);
        let step = if rest.unsigned_abs() * 2 >= unit.unsigned_abs() {
            rest.signum()
        } else {
            0
        };
        Some(Decimal {
            digits: quotient + step,
            scale,
        })
    }

    /// Returns it without the zeros that end its fraction.
    pub fn reduced(self) -> Decimal {
        let mut reduced = self;
        while reduced.scale > 0 && reduced.digits % 10 == 0 {
            reduced.digits /= 10;
            reduced.scale -= 1;
        }
        reduced
    }

    /// Returns the whole number that is nearest.
    pub fn rounded(self) -> Option<i64> {
        i64::try_from(self.with_scale(0)?.digits).ok()
    }

    /// Returns whether it has at most so many digits, all behind its point among them.
    pub fn has_digits(self, most: u32) -> bool {
        power(most).map_or(true, |limit| self.digits.abs() < limit)
    }

    /// Compares two numbers.
    pub fn compare(&self, other: &Decimal) -> Ordering {
        match Decimal::aligned(*self, *other) {
            Some((left, right, _)) => left.cmp(&right),
            None => self.to_float().total_cmp(&other.to_float()),
        }
    }

    /// Returns the nearest double.
    pub fn to_float(self) -> f64 {
        self.to_string().parse().unwrap_or(f64::NAN)
    }

    fn aligned(left: Decimal, right: Decimal) -> Option<(i128, i128, u32)> {
        let scale = left.scale.max(right.scale);
        Some((
            left.with_scale(scale)?.digits,
            right.with_scale(scale)?.digits,
            scale,
        ))
    }

    /// Adds. None: the sum has too many digits.
    pub fn plus(self, other: Decimal) -> Option<Decimal> {
        let (left, right, scale) = Decimal::aligned(self, other)?;
        left.checked_add(right)
            .map(|digits| Decimal { digits, scale })
    }

    /// Subtracts. None: the difference has too many digits.
    pub fn subtract(self, other: Decimal) -> Option<Decimal> {
        self.plus(other.negated())
    }

    /// Multiplies. None: the product has too many digits.
    pub fn multiply(self, other: Decimal) -> Option<Decimal> {
        let scale = self.scale + other.scale;
        let digits = self.digits.checked_mul(other.digits)?;
        (scale <= MOST_SCALE).then_some(Decimal { digits, scale })
    }

    /// Returns it with the other sign.
    pub fn negated(self) -> Decimal {
        Decimal {
            digits: -self.digits,
            scale: self.scale,
        }
    }
}

impl From<i64> for Decimal {
    fn from(number: i64) -> Decimal {
        Decimal {
            digits: i128::from(number),
            scale: 0,
        }
    }
}

impl fmt::Display for Decimal {
    fn fmt(&self, formatter: &mut fmt::Formatter<'_>) -> fmt::Result {
        let digits = self.digits.unsigned_abs().to_string();
        let scale = self.scale as usize;
        let padded = format!("{:0>width$}", digits, width = scale + 1);
        let (whole, fraction) = padded.split_at(padded.len() - scale);
        let sign = if self.digits < 0 { "-" } else { "" };
        if scale == 0 {
            write!(formatter, "{}{}", sign, whole)
        } else {
            write!(formatter, "{}{}.{}", sign, whole, fraction)
        }
    }
}

#[cfg(test)]
mod tests {
    use super::*;

    fn decimal(text: &str) -> Decimal {
        Decimal::parse(text).unwrap()
    }

    #[test]
    fn reads_and_prints_as_postgresql_15_does() {
        for (text, printed) in [
            ("0", "0"),
            ("1.50", "1.50"),
            (".5", "0.5"),
            ("5.", "5"),
            ("-0.010", "-0.010"),
            ("1e3", "1000"),
            ("1.5e-2", "0.015"),
            ("007", "7"),
            ("+2", "2"),
            ("-0", "0"),
            ("0.000", "0.000"),
        ] {
            assert_eq!(decimal(text).to_string(), printed);
        }
        for text in ["", ".", "1e", "x", "1.2.3", "--1", "1e99"] {
            assert_eq!(Decimal::parse(text), None, "{:?}", text);
        }
    }

    #[test]
    fn rounds_half_away_from_zero() {
        for (text, scale, printed) in [
            ("2.55", 1, "2.6"),
            ("-2.55", 1, "-2.6"),
            ("2.5", 0, "3"),
            ("2.44", 1, "2.4"),
            ("2", 2, "2.00"),
        ] {
            assert_eq!(
                decimal(text).with_scale(scale).unwrap().to_string(),
                printed
            );
        }
    }

    #[test]
    fn computes_exactly() {
        assert_eq!(
            decimal("1.5").plus(decimal("2.25")).unwrap().to_string(),
            "3.75"
        );
        assert_eq!(
            decimal("1.5")
                .subtract(decimal("2.25"))
                .unwrap()
                .to_string(),
            "-0.75"
        );
        assert_eq!(
            decimal("1.50")
                .multiply(decimal("2.0"))
                .unwrap()
                .to_string(),
            "3.000"
        );
        assert_eq!(decimal("1.50").compare(&decimal("1.5")), Ordering::Equal);
        assert_eq!(decimal("1.50").reduced(), decimal("1.5"));
        assert!(decimal("12.5").has_digits(3) && !decimal("12.5").has_digits(2));
    }
}
