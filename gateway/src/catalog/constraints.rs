//! Keys, checks and indexes of tables, as PostgreSQL prints them.

use postgres_protocol::Oid;

use crate::catalog::namespace::{quoted, Table};
use crate::catalog::types::{self, oid};
use crate::rows::DefinedColumn;

/// Returns the type of a column as a client is told it.
pub fn column_type(column: &DefinedColumn) -> (Oid, i32) {
    let described = column.result_column();
    (described.oid, described.modifier)
}

/// A part of a condition: its text, as it stands inside of something else, and its type.
#[derive(Clone)]
struct Piece {
    text: String,
    oid: Oid,
    kind: PieceKind,
}

/// What a part is, for the parentheses around it.
#[derive(Clone, Copy, PartialEq, Eq)]
enum PieceKind {
    /// A column or a constant.
    Simple,
    /// A number with a minus in front, in its own parentheses.
    Sign,
    /// A product.
    Product,
    /// A sum.
    Sum,
}

/// Prints a condition.
struct Printer<'t> {
    table: &'t Table,
    is_pretty: bool,
}

impl Printer<'_> {
    /// Puts a part into parentheses, which are left out where a reader is meant to do without.
    fn part(&self, piece: &Piece, may_stand_alone: &[PieceKind]) -> String {
        let is_plain = piece.kind == PieceKind::Simple
            || (self.is_pretty && may_stand_alone.contains(&piece.kind));
        if is_plain {
            piece.text.clone()
        } else {
            format!("({})", piece.text)
        }
    }

    /// Casts a part.
    fn cast(&self, piece: Piece, to: Oid) -> Piece {
        if piece.oid == to || (types::is_integer(piece.oid) && types::is_integer(to)) {
            return piece;
        }
        let inner = self.part(&piece, &[]);
        let name = types::display(to);
        let text = if self.is_pretty {
            format!("{}::{}", inner, name)
        } else {
            format!("({})::{}", inner, name)
        };
        Piece {
            text,
            oid: to,
            kind: PieceKind::Simple,
        }
    }

    fn constant(&self, digits: &str) -> Piece {
        let oid = match digits.parse::<i64>() {
            Ok(number) if i32::try_from(number).is_ok() => oid::INT4,
            Ok(_) => oid::INT8,
            Err(_) => oid::NUMERIC,
        };
        let is_plain = !digits.starts_with('-') && oid != oid::INT8;
        let text = if is_plain {
            digits.to_owned()
        } else {
            format!("'{}'::{}", digits, types::display(oid))
        };
        Piece {
            text,
            oid,
            kind: PieceKind::Simple,
        }
    }

    fn column(&self, name: &str) -> Piece {
        let oid = self
            .table
            .definition
            .column(name)
            .map_or(oid::NUMERIC, |column| column_type(column).0);
        Piece {
            text: quoted(name),
            oid,
            kind: PieceKind::Simple,
        }
    }

    /// Joins two parts by an operator, as values of one type.
    fn operation(&self, left: Piece, operator: &str, right: Piece, kind: PieceKind) -> Piece {
        let oid = if [left.oid, right.oid].contains(&oid::NUMERIC) {
            oid::NUMERIC
        } else {
            oid::INT8
        };
        let (left, right) = (self.cast(left, oid), self.cast(right, oid));
        let alone: &[PieceKind] = match kind {
            PieceKind::Sum => &[PieceKind::Product, PieceKind::Sum],
            _ => &[],
        };
        // A sum on the right of another one needs its parentheses.
        let text = format!(
            "{} {} {}",
            self.part(&left, alone),
            operator,
            self.part(
                &right,
                if alone.is_empty() {
                    &[]
                } else {
                    &[PieceKind::Product]
                }
            )
        );
        Piece { text, oid, kind }
    }

    /// Prints a comparison of a sum with a limit, without parentheses around it.
    fn comparison(&self, sum: &Piece, operator: &str, limit: &str) -> String {
        let limit = self.constant(limit);
        let oid = if [sum.oid, limit.oid].contains(&oid::NUMERIC) {
            oid::NUMERIC
        } else {
            sum.oid
        };
        let (sum, limit) = (self.cast(sum.clone(), oid), self.cast(limit, oid));
        format!(
            "{} {} {}",
            self.part(&sum, &[]),
            operator,
            self.part(&limit, &[])
        )
    }

    /// Reads a sum, as `-a + 2 * b`, up to the word of a comparison, and returns what is behind it.
    fn sum<'w>(&self, words: &'w [&'w str]) -> Option<(Piece, &'w [&'w str])> {
        let mut rest = words;
        let mut sum: Option<Piece> = None;
        let mut sign = "+";
        loop {
            let (word, behind) = rest.split_first()?;
            rest = behind;
            let (is_negative, word) = match word.strip_prefix('-') {
                Some(word) => (true, word),
                None => (false, *word),
            };
            let mut term = if rest.first() == Some(&"*") {
                let factor = if is_negative {
                    format!("-{}", word)
                } else {
                    word.to_owned()
                };
                let column = self.column(rest.get(1)?);
                rest = &rest[2..];
                self.operation(self.constant(&factor), "*", column, PieceKind::Product)
            } else {
                let column = self.column(word);
                if is_negative {
                    Piece {
                        text: format!("- {}", column.text),
                        oid: column.oid,
                        kind: PieceKind::Sign,
                    }
                } else {
                    column
                }
            };
            if let Some(before) = sum {
                term = self.operation(before, sign, term, PieceKind::Sum);
            }
            match rest.first() {
                Some(&next @ ("+" | "-")) => {
                    sum = Some(term);
                    sign = next;
                    rest = &rest[1..];
                }
                _ => return Some((term, rest)),
            }
        }
    }

    /// Prints a condition as PostgreSQL prints the same one. None: it isn't written as SHOW TABLE writes them.
    fn condition(&self, condition: &str) -> Option<String> {
        let words: Vec<&str> = condition.split(' ').collect();
        let (sum, rest) = self.sum(&words)?;
        let tests = match rest {
            ["between", low, "and", high] => {
                vec![
                    self.comparison(&sum, ">=", low),
                    self.comparison(&sum, "<=", high),
                ]
            }
            [operator @ (">=" | "<=" | "="), limit] => vec![self.comparison(&sum, operator, limit)],
            _ => return None,
        };
        let tests: Vec<String> = tests
            .into_iter()
            .map(|test| {
                if self.is_pretty {
                    test
                } else {
                    format!("({})", test)
                }
            })
            .collect();
        Some(match tests.as_slice() {
            [test] => test.clone(),
            tests if self.is_pretty => tests.join(" AND "),
            tests => format!("({})", tests.join(" AND ")),
        })
    }
}

/// Prints the condition of a check, as pg_get_expr does.
pub fn condition(table: &Table, condition: &str, is_pretty: bool) -> String {
    let printer = Printer { table, is_pretty };
    printer
        .condition(condition)
        .unwrap_or_else(|| condition.to_owned())
}

/// Returns the names and what pg_get_constraintdef prints of a constraint.
pub fn definition(table: &Table, constraint: Oid, is_pretty: bool) -> Option<String> {
    if constraint == table.key_constraint() {
        return Some(format!("PRIMARY KEY ({})", key_column(table)));
    }
    let place = constraint.checked_sub(table.check(0))? as usize;
    let check = table.definition.checks.get(place)?;
    Some(format!(
        "CHECK ({})",
        condition(table, &check.condition, is_pretty)
    ))
}

/// Returns the name of the key's column.
pub fn key_column(table: &Table) -> String {
    quoted(&table.definition.columns[table.definition.key].name)
}

/// Returns what pg_get_indexdef prints of the key's index.
pub fn index_definition(table: &Table, is_pretty: bool) -> String {
    format!(
        "CREATE UNIQUE INDEX {} ON {}{} USING btree ({})",
        quoted(&table.key_name()),
        if is_pretty { "" } else { "public." },
        quoted(table.name()),
        key_column(table)
    )
}

/// Returns the places, from 1, of the columns that a check names.
pub fn columns_of(table: &Table, condition: &str) -> Vec<i64> {
    let words: Vec<&str> = condition
        .split(' ')
        .map(|word| word.trim_start_matches('-'))
        .collect();
    let columns = table.definition.columns.iter().enumerate();
    columns
        .filter(|(_, column)| words.contains(&column.name.as_str()))
        .map(|(place, _)| place as i64 + 1)
        .collect()
}

#[cfg(test)]
mod tests {
    use super::*;
    use crate::rows::Definition;
    use std::rc::Rc;

    fn table() -> Table {
        let printed = "CREATE TABLE T (ID NUMBER(15) PRIMARY KEY, A NUMBER(15) RESERVABLE, \
                       B NUMBER(15) RESERVABLE, P NUMBER(8,2) RESERVABLE)";
        Table {
            oid: 20_000,
            definition: Rc::new(Definition::parse(printed).unwrap()),
        }
    }

    #[test]
    fn conditions_are_printed_as_postgresql_15_prints_them() {
        let table = table();
        for (written, plain, pretty) in [
            ("a >= 0", "(a >= 0)", "a >= 0"),
            (
                "a between -5 and 5",
                "((a >= '-5'::integer) AND (a <= 5))",
                "a >= '-5'::integer AND a <= 5",
            ),
            ("-a + b <= 0", "(((- a) + b) <= 0)", "((- a) + b) <= 0"),
            (
                "2 * a + 3 * b <= 100",
                "(((2 * a) + (3 * b)) <= 100)",
                "(2 * a + 3 * b) <= 100",
            ),
            ("a - b = 7", "((a - b) = 7)", "(a - b) = 7"),
            ("p >= 0", "(p >= (0)::numeric)", "p >= 0::numeric"),
            (
                "p >= -1.5",
                "(p >= '-1.5'::numeric)",
                "p >= '-1.5'::numeric",
            ),
            (
                "p >= -5",
                "(p >= ('-5'::integer)::numeric)",
                "p >= '-5'::integer::numeric",
            ),
            (
                "a + p <= 10.50",
                "(((a)::numeric + p) <= 10.50)",
                "(a::numeric + p) <= 10.50",
            ),
            (
                "a <= 3000000000",
                "(a <= '3000000000'::bigint)",
                "a <= '3000000000'::bigint",
            ),
            (
                "2 * p <= 10",
                "(((2)::numeric * p) <= (10)::numeric)",
                "(2::numeric * p) <= 10::numeric",
            ),
        ] {
            assert_eq!(condition(&table, written, false), plain, "{}", written);
            assert_eq!(condition(&table, written, true), pretty, "{}", written);
        }
    }

    #[test]
    fn columns_of_checks_are_found() {
        assert_eq!(columns_of(&table(), "-a + 2 * p <= 0"), [2, 4]);
    }
}
