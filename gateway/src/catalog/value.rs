//! Values of the catalog's queries, in memory and as a client gets them.

use std::cmp::Ordering;
use std::rc::Rc;

use postgres_protocol::Oid;

use crate::decimal::Decimal;

/// A value of a query. Which type of PostgreSQL it has, the plan knows.
#[derive(Clone, Debug, PartialEq)]
pub enum Value {
    /// NULL.
    Null,
    /// boolean
    Bool(bool),
    /// smallint, integer, bigint, oid, xid and the types whose values are oids with names
    Integer(i64),
    /// numeric
    Decimal(Decimal),
    /// real, double precision
    Float(f64),
    /// timestamp with time zone: microseconds since the first second of 2000 in UTC
    Time(i64),
    /// text and its like, and each other type as it is printed
    Text(Rc<str>),
    /// An array of one dimension
    Array(Rc<[Value]>),
    /// A row
    Row(Rc<[Value]>),
}

impl Value {
    /// Makes a text.
    pub fn text(text: impl AsRef<str>) -> Value {
        Value::Text(Rc::from(text.as_ref()))
    }

    /// Makes an array of texts.
    pub fn texts<T: AsRef<str>>(texts: impl IntoIterator<Item = T>) -> Value {
        Value::Array(texts.into_iter().map(Value::text).collect())
    }

    /// Makes an array of whole numbers.
    pub fn integers(numbers: impl IntoIterator<Item = i64>) -> Value {
        Value::Array(numbers.into_iter().map(Value::Integer).collect())
    }

    /// Returns whether it is NULL.
    pub fn is_null(&self) -> bool {
        matches!(self, Value::Null)
    }

    /// Returns whether it is true; NULL is not.
    pub fn is_true(&self) -> bool {
        matches!(self, Value::Bool(true))
    }

    /// Returns the text. Another value has none.
    pub fn as_text(&self) -> &str {
        match self {
            Value::Text(text) => text,
            _ => "",
        }
    }

    /// Returns the whole number. Another value has none.
    pub fn as_integer(&self) -> i64 {
        match self {
            Value::Integer(number) => *number,
            _ => 0,
        }
    }

    /// Returns the Oid that a whole number is. Another value has 0, which is none.
    pub fn as_oid(&self) -> Oid {
        self.as_integer() as Oid
    }

    /// Returns the elements of an array. Another value has none.
    pub fn as_array(&self) -> &[Value] {
        match self {
            Value::Array(elements) | Value::Row(elements) => elements,
            _ => &[],
        }
    }

    /// Returns how many bytes it takes beside itself.
    pub fn size(&self) -> usize {
        match self {
            Value::Text(text) => text.len(),
            Value::Array(elements) | Value::Row(elements) => {
                elements.iter().map(|element| 32 + element.size()).sum()
            }
            _ => 0,
        }
    }

    /// Compares two values of one type. None: one of them is NULL.
    ///
    /// Texts are compared by their bytes, as under the collation "C". Arrays and rows compare NULL as the greatest.
    pub fn compare(&self, other: &Value) -> Option<Ordering> {
        Some(match (self, other) {
            (Value::Null, _) | (_, Value::Null) => return None,
            (Value::Bool(left), Value::Bool(right)) => left.cmp(right),
            (Value::Integer(left), Value::Integer(right)) => left.cmp(right),
            (Value::Decimal(left), Value::Decimal(right)) => left.compare(right),
            (Value::Float(left), Value::Float(right)) => left.total_cmp(right),
            (Value::Time(left), Value::Time(right)) => left.cmp(right),
            (Value::Text(left), Value::Text(right)) => left.as_bytes().cmp(right.as_bytes()),
            (left, right) => {
                let (left, right) = (left.as_array(), right.as_array());
                left.iter()
                    .zip(right)
                    .map(|(left, right)| left.order(right))
                    .find(|order| *order != Ordering::Equal)
                    .unwrap_or_else(|| left.len().cmp(&right.len()))
            }
        })
    }

    /// Compares two values for a sort: NULL is the greatest.
    pub fn order(&self, other: &Value) -> Ordering {
        self.compare(other)
            .unwrap_or_else(|| self.is_null().cmp(&other.is_null()))
    }

    /// Returns what two values have in common exactly if they are equal, or NULL both: a key of a hash table.
    pub fn key(&self) -> Key {
        match self {
            Value::Null => Key::Null,
            Value::Bool(value) => Key::Integer(i64::from(*value)),
            Value::Integer(number) | Value::Time(number) => Key::Integer(*number),
            Value::Decimal(number) => Key::Text(Rc::from(number.reduced().to_string())),
            Value::Float(number) => Key::Text(Rc::from(number.to_string())),
            Value::Text(text) => Key::Text(Rc::clone(text)),
            Value::Array(elements) | Value::Row(elements) => {
                Key::Several(elements.iter().map(Value::key).collect())
            }
        }
    }
}

/// What identifies a value among others of its type.
#[derive(Clone, Debug, PartialEq, Eq, Hash)]
pub enum Key {
    /// NULL
    Null,
    /// A number
    Integer(i64),
    /// A text
    Text(Rc<str>),
    /// An array or a row
    Several(Vec<Key>),
}

impl From<bool> for Value {
    fn from(value: bool) -> Value {
        Value::Bool(value)
    }
}

impl From<i64> for Value {
    fn from(value: i64) -> Value {
        Value::Integer(value)
    }
}

impl From<i32> for Value {
    fn from(value: i32) -> Value {
        Value::Integer(i64::from(value))
    }
}

impl From<u32> for Value {
    fn from(value: u32) -> Value {
        Value::Integer(i64::from(value))
    }
}

impl From<i16> for Value {
    fn from(value: i16) -> Value {
        Value::Integer(i64::from(value))
    }
}

impl From<&str> for Value {
    fn from(value: &str) -> Value {
        Value::text(value)
    }
}

impl From<String> for Value {
    fn from(value: String) -> Value {
        Value::text(value)
    }
}

impl<T: Into<Value>> From<Option<T>> for Value {
    fn from(value: Option<T>) -> Value {
        value.map_or(Value::Null, Into::into)
    }
}
