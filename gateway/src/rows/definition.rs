//! A table's definition, as SHOW TABLE prints it.

use std::rc::Rc;

use crate::value::{oid, Value};
use crate::wire::backend::Column;

/// A type of a column.
#[derive(Clone, Copy, Debug, PartialEq, Eq)]
pub enum ColumnType {
    /// NUMBER(precision,scale)
    Number {
        /// How many digits it has.
        precision: i32,
        /// How many of them are behind the point.
        scale: i32,
    },
    /// VARCHAR2(bytes)
    Text {
        /// The most bytes.
        bytes: i32,
    },
}

/// A column of a table.
#[derive(Clone, Debug, PartialEq, Eq)]
pub struct DefinedColumn {
    /// Its name, in lower case.
    pub name: String,
    /// Its type.
    pub column_type: ColumnType,
    /// Whether it is RESERVABLE.
    pub is_reservable: bool,
}

/// A check that was declared.
#[derive(Clone, Debug, PartialEq, Eq)]
pub struct Check {
    /// Its name, in lower case.
    pub name: String,
    /// Its condition, in lower case, as SHOW TABLE prints it: `2 * a + b <= 100`.
    pub condition: String,
}

/// A table's definition.
#[derive(Clone, Debug, PartialEq, Eq)]
pub struct Definition {
    /// The table's name, in lower case.
    pub table: String,
    /// Its columns, in order.
    pub columns: Vec<DefinedColumn>,
    /// The place of its key among the columns, from 0.
    pub key: usize,
    /// The checks that were declared, in order.
    pub checks: Vec<Check>,
    /// Its columns as a result describes them.
    described: Rc<[Column]>,
}

/// The bytes that PostgreSQL counts in a type's modifier beside the size.
const MODIFIER_HEADER: i32 = 4;

impl DefinedColumn {
    /// Returns whether its values are numbers.
    pub fn is_number(&self) -> bool {
        matches!(self.column_type, ColumnType::Number { .. })
    }

    /// Returns a value as SELECT shows it in this column: a number with all digits behind its point.
    pub fn printed(&self, value: &Value) -> String {
        let number = match value {
            Value::Number(number) => number,
            Value::Text(text) => return text.clone(),
            Value::Null | Value::List(_) => return String::new(),
        };
        let written = number.to_string();
        let scale = match self.column_type {
            ColumnType::Number { scale, .. } => scale as usize,
            ColumnType::Text { .. } => 0,
        };
        if scale == 0 {
            return written;
        }
        let (whole, fraction) = written.split_once('.').unwrap_or((&written, ""));
        format!("{}.{:0<width$}", whole, fraction, width = scale)
    }

    /// Returns the column as a result describes it.
    pub fn result_column(&self) -> Column {
        let (oid, size, modifier) = match self.column_type {
            ColumnType::Number { scale: 0, .. } => (oid::INT8, 8, -1),
            ColumnType::Number { precision, scale } => (
                oid::NUMERIC,
                -1,
                (precision << 16 | scale) + MODIFIER_HEADER,
            ),
            ColumnType::Text { bytes } => (oid::VARCHAR, -1, bytes + MODIFIER_HEADER),
        };
        Column {
            name: self.name.clone(),
            oid,
            size,
            modifier,
        }
    }
}

impl Definition {
    /// Reads what SHOW TABLE prints. None: this is something else.
    pub fn parse(printed: &str) -> Option<Definition> {
        let rest = printed.strip_prefix("CREATE TABLE ")?;
        let (table, rest) = rest.split_once(" (")?;
        let items = rest.strip_suffix(')')?;
        let (mut columns, mut checks, mut key) = (Vec::new(), Vec::new(), None);
        for item in items_of(items) {
            if let Some(check) = item.strip_prefix("CONSTRAINT ") {
                checks.push(read_check(check)?);
                continue;
            }
            let (column, is_key) = read_column(item)?;
            if is_key {
                key = Some(columns.len());
            }
            columns.push(column);
        }
        Some(Definition {
            table: table.to_ascii_lowercase(),
            described: columns.iter().map(DefinedColumn::result_column).collect(),
            columns,
            key: key?,
            checks,
        })
    }

    /// Returns the column of this name, in lower case.
    pub fn column(&self, name: &str) -> Option<&DefinedColumn> {
        self.columns.iter().find(|column| column.name == name)
    }

    /// Returns the columns as a result describes them.
    pub fn result_columns(&self) -> Rc<[Column]> {
        Rc::clone(&self.described)
    }
}

/// Cuts the items of a CREATE TABLE apart, at commas outside of parentheses.
fn items_of(items: &str) -> Vec<&str> {
    let (mut depth, mut start, mut cut) = (0_usize, 0, Vec::new());
    for (place, mark) in items.char_indices() {
        match mark {
            '(' => depth += 1,
            ')' => depth = depth.saturating_sub(1),
            ',' if depth == 0 => {
                cut.push(items[start..place].trim());
                start = place + 1;
            }
            _ => {}
        }
    }
    cut.push(items[start..].trim());
    cut
}

/// Reads `NAME CHECK (CONDITION)`.
fn read_check(item: &str) -> Option<Check> {
    let (name, condition) = item.split_once(" CHECK (")?;
    Some(Check {
        name: name.to_ascii_lowercase(),
        condition: condition.strip_suffix(')')?.to_ascii_lowercase(),
    })
}

/// Reads `NAME TYPE`, and whether it is the key.
fn read_column(item: &str) -> Option<(DefinedColumn, bool)> {
    let (name, rest) = item.split_once(' ')?;
    let (column_type, behind) = column_type(rest)?;
    let (is_key, is_reservable) = match behind {
        "" => (false, false),
        " PRIMARY KEY" => (true, false),
        " RESERVABLE" => (false, true),
        _ => return None,
    };
    let column = DefinedColumn {
        name: name.to_ascii_lowercase(),
        column_type,
        is_reservable,
    };
    Some((column, is_key))
}

/// Reads a type, and returns what is behind it.
fn column_type(text: &str) -> Option<(ColumnType, &str)> {
    let (word, sizes) = (text.find('(')?, text.find(')')?);
    let mut numbers = text
        .get(word + 1..sizes)?
        .split(',')
        .map(|number| number.trim().parse());
    let first = numbers.next()?.ok()?;
    let column_type = match &text[..word] {
        "NUMBER" => {
            let scale = match numbers.next() {
                Some(scale) => scale.ok()?,
                None => 0,
            };
            ColumnType::Number {
                precision: first,
                scale,
            }
        }
        "VARCHAR2" => ColumnType::Text { bytes: first },
        _ => return None,
    };
    Some((column_type, &text[sizes + 1..]))
}

#[cfg(test)]
mod tests {
    use super::*;

    const SHOP: &str = "CREATE TABLE SHOP (CODE VARCHAR2(8) PRIMARY KEY, PRICE NUMBER(8,2), \
                        STOCK NUMBER(4) RESERVABLE, CONSTRAINT IN_STOCK CHECK (STOCK >= 0), \
                        CONSTRAINT D CHECK (STOCK BETWEEN -5 AND 5))";

    #[test]
    fn reads_columns_and_their_types() {
        let shop = Definition::parse(SHOP).unwrap();
        assert_eq!(shop.table, "shop");
        let names: Vec<&str> = shop
            .columns
            .iter()
            .map(|column| column.name.as_str())
            .collect();
        assert_eq!(names, ["code", "price", "stock"]);
        assert_eq!(shop.columns[0].column_type, ColumnType::Text { bytes: 8 });
        assert_eq!(
            shop.columns[1].column_type,
            ColumnType::Number {
                precision: 8,
                scale: 2
            }
        );
        assert_eq!(
            shop.columns[2].column_type,
            ColumnType::Number {
                precision: 4,
                scale: 0
            }
        );
    }

    #[test]
    fn reads_key_checks_and_what_is_reservable() {
        let shop = Definition::parse(SHOP).unwrap();
        assert_eq!(shop.key, 0);
        let reservable: Vec<bool> = shop
            .columns
            .iter()
            .map(|column| column.is_reservable)
            .collect();
        assert_eq!(reservable, [false, false, true]);
        let checks: Vec<(&str, &str)> = shop
            .checks
            .iter()
            .map(|check| (check.name.as_str(), check.condition.as_str()))
            .collect();
        assert_eq!(
            checks,
            [("in_stock", "stock >= 0"), ("d", "stock between -5 and 5")]
        );
    }

    #[test]
    fn reads_a_table_without_checks() {
        let printed = "CREATE TABLE T (A NUMBER(15) RESERVABLE, K NUMBER(9) PRIMARY KEY)";
        assert_eq!(Definition::parse(printed).unwrap().columns.len(), 2);
    }

    #[test]
    fn describes_columns_as_postgresql_15_does() {
        // From pg_attribute.atttypmod of numeric(8,2) and varchar(8).
        let shop = Definition::parse(SHOP).unwrap();
        let described: Vec<(u32, i16, i32)> = shop
            .result_columns()
            .iter()
            .map(|column| (column.oid, column.size, column.modifier))
            .collect();
        assert_eq!(
            described,
            [(1043, -1, 12), (1700, -1, 524_294), (20, 8, -1)]
        );
    }

    #[test]
    fn what_is_no_definition_is_none() {
        for text in [
            "",
            "CREATE TABLE",
            "CREATE TABLE T (",
            "CREATE TABLE T (A DATE)",
            "OK table",
        ] {
            assert_eq!(Definition::parse(text), None, "{:?}", text);
        }
    }
}
