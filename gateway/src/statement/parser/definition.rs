//! CREATE TABLE, ALTER TABLE and DROP TABLE.

use std::fmt::Write;

use crate::limits::{MOST_DIGITS, MOST_DIGITS_BEHIND_POINT};
use crate::sqlstate::{Failure, Report, SqlState};
use crate::statement::constant::{self, Datum, Input};
use crate::statement::parser::{keywords, Parser};
use crate::statement::query::{Expression, ExpressionKind, Name, Span, TypeName};
use crate::statement::served::{check_new_name, is_legal_name, Define, Served, Table, Verb};
use crate::statement::Statement;
use crate::value::{self, oid, Number};

/// The most bytes of a text in a column.
const LONGEST_TEXT: i32 = 255;

/// Makes the report of something that a table can't have.
fn missing(what: &str, place: usize) -> Failure {
    Verb::CreateTable.missing(what, place)
}

/// What a CREATE TABLE says, as far as it was read.
#[derive(Default)]
struct Items {
    /// The items, as the program reads them.
    list: Vec<String>,
    notices: Vec<String>,
    /// The name of the key.
    key: Option<Name>,
}

impl<'a> Parser<'a> {
    /// Reads CREATE, from behind that word.
    pub(super) fn create(&mut self, start: usize) -> Result<Statement, Failure> {
        self.expect_table("CREATE", Verb::CreateTable, start)?;
        let is_conditional = self.keywords(&["IF", "NOT", "EXISTS"]);
        let name = self.new_table()?;
        if self.at_keyword("OF") || self.at_keyword("PARTITION") || self.at_keyword("AS") {
            return Err(self.missing("this form of CREATE TABLE"));
        }
        self.expect_symbol(b'(')?;
        let mut items = Items::default();
        loop {
            self.item(&mut items)?;
            if !self.symbol(b',') {
                break;
            }
        }
        self.expect_symbol(b')')?;
        for word in [
            "INHERITS",
            "PARTITION",
            "USING",
            "WITH",
            "WITHOUT",
            "ON",
            "TABLESPACE",
            "AS",
        ] {
            if self.at_keyword(word) {
                return Err(missing(&format!("{} of a table", word), self.start()));
            }
        }
        let line = format!("CREATE TABLE {} ({})", name.text, items.list.join(", "));
        Ok(self.define(Define {
            verb: Verb::CreateTable,
            table: name,
            constraint: None,
            key: items.key,
            is_conditional,
            notices: items.notices,
            line,
        }))
    }

    /// Reads ALTER, from behind that word.
    pub(super) fn alter(&mut self, start: usize) -> Result<Statement, Failure> {
        self.expect_table("ALTER", Verb::AlterTable, start)?;
        if self.at_keywords(&["IF", "EXISTS"]) {
            return Err(self.missing("ALTER TABLE IF EXISTS"));
        }
        self.keyword("ONLY");
        let table = self.known_table()?;
        let place = self.start();
        let (line, constraint, is_conditional) = if self.keyword("ADD") {
            let name = self.constraint_name()?;
            if !self.at_keyword("CHECK") {
                let is_column = name.is_none()
                    && self.peek().is_some()
                    && !self.at_other_constraint()
                    && !self.at_keyword("PRIMARY");
                if is_column {
                    return Err(Verb::AlterTable.missing("ADD of a column", self.start()));
                }
                return Err(self.other_constraint(Verb::AlterTable));
            }
            let check = self.check(name)?;
            if self.keywords(&["NOT", "VALID"]) {
                return Err(Verb::AlterTable.missing("NOT VALID", place));
            }
            (
                format!("ALTER TABLE {} ADD {}", table.text, check),
                None,
                false,
            )
        } else if self.keywords(&["DROP", "CONSTRAINT"]) {
            let is_conditional = self.keywords(&["IF", "EXISTS"]);
            let name = self.name()?;
            if !is_constraint(&name.text) {
                return Err(no_constraint(&name, &table.text));
            }
            self.keyword_of(&["CASCADE", "RESTRICT"]);
            let line = format!("ALTER TABLE {} DROP CONSTRAINT {}", table.text, name.text);
            (line, Some(name), is_conditional)
        } else {
            let words: Vec<&str> = (0..2).filter_map(|ahead| self.word_at(ahead)).collect();
            if words.is_empty() {
                return Err(self.fault());
            }
            let what = format!("ALTER TABLE {}", words.join(" ").to_ascii_uppercase());
            return Err(Verb::AlterTable.missing(&what, place));
        };
        if self.symbol(b',') {
            return Err(Verb::AlterTable.missing("an ALTER TABLE of several steps", place));
        }
        Ok(self.define(Define {
            verb: Verb::AlterTable,
            table,
            constraint,
            key: None,
            is_conditional,
            notices: Vec::new(),
            line,
        }))
    }

    /// Reads DROP, from behind that word.
    pub(super) fn drop(&mut self, start: usize) -> Result<Statement, Failure> {
        self.expect_table("DROP", Verb::DropTable, start)?;
        let is_conditional = self.keywords(&["IF", "EXISTS"]);
        let table = self.qualified_name()?;
        if self.at_symbol(0, b',') {
            return Err(Verb::DropTable.missing("DROP of several tables", self.start()));
        }
        // Nothing depends on a table.
        self.keyword_of(&["CASCADE", "RESTRICT"]);
        let name = table.name.clone();
        let table = match Table::new(table, None) {
            Ok(table) => table.name,
            Err(report) => {
                let report = of_no_table(report);
                if !is_conditional {
                    return Err(report);
                }
                return Ok(self.define(Define {
                    verb: Verb::DropTable,
                    table: name,
                    constraint: None,
                    key: None,
                    is_conditional,
                    notices: vec![format!("{}, skipping", report.message)],
                    line: String::new(),
                }));
            }
        };
        let line = format!("DROP TABLE {}", table.text);
        Ok(self.define(Define {
            verb: Verb::DropTable,
            table,
            constraint: None,
            key: None,
            is_conditional,
            notices: Vec::new(),
            line,
        }))
    }

    /// Makes the statement. Of all that was read it keeps no more.
    fn define(&mut self, define: Define) -> Statement {
        let notices = define.notices.iter().map(String::capacity).sum::<usize>();
        self.size = define.line.capacity() + notices + define.table.text.len();
        Statement::Served(Served::Define(define))
    }

    /// Moves behind TABLE.
    fn expect_table(&mut self, word: &str, verb: Verb, start: usize) -> Result<(), Failure> {
        if self.keyword("TABLE") {
            return Ok(());
        }
        match self.word() {
            Some(next) => {
                let what = format!("{} {}", word, next.to_ascii_uppercase());
                Err(verb.missing(&what, start))
            }
            None => Err(self.fault()),
        }
    }

    fn new_table(&mut self) -> Result<Name, Failure> {
        let name = self.qualified_name()?;
        if let Some(schema) = name.schema.filter(|schema| schema.text != "public") {
            let text = format!("schema \"{}\" does not exist", schema.text);
            return Err(Report::error(SqlState::INVALID_SCHEMA, text).at(schema.span.start));
        }
        check_new_name(&name.name)?;
        Ok(name.name)
    }

    fn known_table(&mut self) -> Result<Name, Failure> {
        let name = self.qualified_name()?;
        Ok(Table::new(name, None)?.name)
    }

    fn new_name(&mut self) -> Result<Name, Failure> {
        let name = self.name()?;
        check_new_name(&name)?;
        Ok(name)
    }

    /// Reads `CONSTRAINT name`, if it is here.
    fn constraint_name(&mut self) -> Result<Option<Name>, Failure> {
        if self.keyword("CONSTRAINT") {
            self.new_name().map(Some)
        } else {
            Ok(None)
        }
    }

    /// Reads a column, or a constraint of the table.
    fn item(&mut self, items: &mut Items) -> Result<(), Failure> {
        let has_name = self.at_keyword("CONSTRAINT");
        let name = self.constraint_name()?;
        if self.at_keyword("CHECK") {
            let check = self.check(name)?;
            items.list.push(check);
        } else if self.keywords(&["PRIMARY", "KEY"]) {
            let columns = self.list_in_parentheses(Self::new_name)?;
            if let Some(column) = columns.get(1) {
                return Err(missing("a key of several columns", column.span.start));
            }
            items.key = name;
            let columns: Vec<String> = columns.into_iter().map(|column| column.text).collect();
            items
                .list
                .push(format!("PRIMARY KEY ({})", columns.join(", ")));
        } else if has_name || self.at_other_constraint() {
            return Err(self.other_constraint(Verb::CreateTable));
        } else if self.at_keyword("LIKE") {
            return Err(missing("LIKE", self.start()));
        } else {
            self.column(items)?;
        }
        Ok(())
    }

    fn at_other_constraint(&self) -> bool {
        [
            "UNIQUE",
            "FOREIGN",
            "REFERENCES",
            "DEFAULT",
            "COLLATE",
            "GENERATED",
            "DEFERRABLE",
            "INITIALLY",
        ]
        .iter()
        .any(|word| self.at_keyword(word))
            || (self.at_keyword("EXCLUDE") && self.at_keyword_ahead(1, "USING"))
    }

    /// Makes the report of a constraint that isn't served.
    fn other_constraint(&self, verb: Verb) -> Failure {
        match self.word() {
            Some(word) if self.at_other_constraint() || word.eq_ignore_ascii_case("PRIMARY") => {
                verb.missing(&word.to_ascii_uppercase(), self.start())
            }
            _ => self.fault(),
        }
    }

    fn column(&mut self, items: &mut Items) -> Result<(), Failure> {
        let name = self.name_if(keywords::may_name_column)?;
        let type_name = self.type_name()?;
        let (program, notice) = program_type(&type_name)?;
        if let Some(notice) = notice {
            items
                .notices
                .push(format!("column \"{}\": {}", name.text, notice));
        }
        check_new_name(&name)?;
        let mut item = format!("{} {}", name.text, program);
        loop {
            let start = self.start();
            let has_name = self.at_keyword("CONSTRAINT");
            let constraint = self.constraint_name()?;
            if self.at_keyword("CHECK") {
                let check = self.check(constraint)?;
                item.push(' ');
                item.push_str(&check);
            } else if self.keywords(&["PRIMARY", "KEY"]) {
                items.key = constraint;
                item.push_str(" PRIMARY KEY");
            } else if self.keywords(&["NOT", "NULL"]) {
                item.push_str(" NOT NULL");
            } else if !has_name && self.keyword("RESERVABLE") {
                item.push_str(" RESERVABLE");
            } else if self.keyword("NULL") {
                return Err(missing("a column that may be NULL", start));
            } else if has_name || self.at_other_constraint() {
                return Err(self.other_constraint(Verb::CreateTable));
            } else {
                break;
            }
        }
        items.list.push(item);
        Ok(())
    }

    /// Reads CHECK with its condition, as the program reads them.
    fn check(&mut self, name: Option<Name>) -> Result<String, Failure> {
        self.expect_keyword("CHECK")?;
        self.expect_symbol(b'(')?;
        let condition = self.expression()?;
        self.expect_symbol(b')')?;
        if self.keywords(&["NO", "INHERIT"]) {
            return Err(missing("NO INHERIT", condition.span.start));
        }
        let mut written = String::new();
        if let Some(name) = name {
            written = format!("CONSTRAINT {} ", name.text);
        }
        written.push_str("CHECK (");
        append_condition(&mut written, &condition)?;
        written.push(')');
        Ok(written)
    }
}

/// Makes the report of a table that can't be dropped, in the words of DROP TABLE.
fn of_no_table(mut report: Failure) -> Failure {
    report.message = report.message.replacen("relation", "table", 1).into();
    report
}

fn no_constraint(name: &Name, table: &str) -> Failure {
    let text = format!(
        "constraint \"{}\" of relation \"{}\" does not exist",
        name.text, table
    );
    Report::error(SqlState::UNDEFINED_OBJECT, text).constraint(name.text.as_str())
}

/// Returns whether a constraint can have this name: those of ranges may be longer than others.
fn is_constraint(name: &str) -> bool {
    is_legal_name(name.strip_prefix("range_").unwrap_or(name)) || is_legal_name(name)
}

/// Returns the program's type for one of PostgreSQL's or of its own, and what it holds less.
fn program_type(type_name: &TypeName) -> Result<(String, Option<String>), Failure> {
    let place = type_name.span.start;
    let name = type_name.name.name.text.as_str();
    let unknown = || Err(missing(&format!("the type {}", name), place));
    let schema = type_name
        .name
        .schema
        .as_ref()
        .map(|schema| schema.text.as_str());
    if type_name.is_array || !matches!(schema, None | Some("pg_catalog")) {
        return unknown();
    }
    let text = |length: &i32| {
        if *length > LONGEST_TEXT {
            let notice = format!("a text has at most {} bytes", LONGEST_TEXT);
            (format!("VARCHAR2({})", LONGEST_TEXT), Some(notice))
        } else {
            (format!("VARCHAR2({})", length), None)
        }
    };
    Ok(match (name, &type_name.modifiers[..]) {
        ("int4", []) => ("INTEGER".to_owned(), None),
        ("int2", []) => ("NUMBER(5)".to_owned(), None),
        ("int8", []) => {
            let notice = "bigint has at most 15 digits".to_owned();
            ("NUMBER(15)".to_owned(), Some(notice))
        }
        ("number", []) => ("NUMBER".to_owned(), None),
        ("numeric", []) => {
            let notice = "numeric has at most 15 digits, 6 of them behind the point".to_owned();
            ("NUMBER(15,6)".to_owned(), Some(notice))
        }
        ("number", [precision]) => (format!("NUMBER({})", precision), None),
        ("number", [precision, scale]) => (format!("NUMBER({},{})", precision, scale), None),
        ("numeric", [precision] | [precision, _]) => {
            let scale = type_name.modifiers.get(1).copied().unwrap_or(0);
            let fits = *precision <= MOST_DIGITS as i32
                && (0..=MOST_DIGITS_BEHIND_POINT as i32).contains(&scale)
                && scale <= *precision;
            if !fits {
                let what = "numeric of more than 15 digits, or more than 6 behind the point";
                return Err(missing(what, place));
            }
            (format!("NUMBER({},{})", precision, scale), None)
        }
        ("varchar2", [length]) => (format!("VARCHAR2({})", length), None),
        ("varchar", [length]) => text(length),
        ("varchar" | "text", []) => {
            let notice = format!("a text has at most {} bytes", LONGEST_TEXT);
            (format!("VARCHAR2({})", LONGEST_TEXT), Some(notice))
        }
        _ => return unknown(),
    })
}

/// Appends a condition as the program reads it: comparisons of sums with AND between them, without parentheses.
fn append_condition(written: &mut String, condition: &Expression) -> Result<(), Failure> {
    match &condition.kind {
        ExpressionKind::Binary(left, operator, right) if operator == "AND" => {
            append_condition(written, left)?;
            written.push_str(" AND ");
            append_condition(written, right)
        }
        ExpressionKind::Binary(left, operator, right)
            if matches!(&**operator, "<" | "<=" | ">" | ">=" | "=") =>
        {
            append_sum(written, left)?;
            let _ = write!(written, " {} ", operator);
            append_sum(written, right)
        }
        ExpressionKind::Between(operand, low, high, false) => {
            append_sum(written, operand)?;
            let (low, high) = (limit(low)?, limit(high)?);
            let _ = write!(written, " BETWEEN {} AND {}", low, high);
            Ok(())
        }
        _ => Err(missing("this condition", condition.span.start)),
    }
}

/// A part of a sum: a number, a column, or a number of columns.
struct Term {
    is_negative: bool,
    written: String,
}

fn append_sum(written: &mut String, sum: &Expression) -> Result<(), Failure> {
    let mut terms = Vec::new();
    collect_terms(&mut terms, sum, false)?;
    for (place, term) in terms.iter().enumerate() {
        match (place, term.is_negative) {
            (0, false) => {}
            (0, true) => written.push('-'),
            (_, false) => written.push_str(" + "),
            (_, true) => written.push_str(" - "),
        }
        written.push_str(&term.written);
    }
    Ok(())
}

fn collect_terms(
    terms: &mut Vec<Term>,
    sum: &Expression,
    is_negative: bool,
) -> Result<(), Failure> {
    match &sum.kind {
        ExpressionKind::Binary(left, operator, right) if matches!(&**operator, "+" | "-") => {
            collect_terms(terms, left, is_negative)?;
            collect_terms(terms, right, is_negative ^ (operator == "-"))
        }
        ExpressionKind::Unary(sign, operand)
            if matches!(&**sign, "+" | "-") && !constant::is_constant(sum) =>
        {
            collect_terms(terms, operand, is_negative ^ (sign == "-"))
        }
        ExpressionKind::Binary(left, operator, right) if operator == "*" => {
            let (factor, column) = if constant::is_constant(left) {
                (left, right)
            } else {
                (right, left)
            };
            let factor = limit(factor)?;
            terms.push(Term {
                is_negative: is_negative ^ factor.negative,
                written: format!("{} * {}", factor.digits, column_of(column)?),
            });
            Ok(())
        }
        _ if constant::is_constant(sum) => {
            let number = limit(sum)?;
            terms.push(Term {
                is_negative: is_negative ^ number.negative,
                written: number.digits,
            });
            Ok(())
        }
        _ => {
            terms.push(Term {
                is_negative,
                written: column_of(sum)?,
            });
            Ok(())
        }
    }
}

/// Returns the number that an expression of a condition is.
fn limit(expression: &Expression) -> Result<Number, Failure> {
    let place = expression.span.start;
    constant::check(expression, Verb::CreateTable)?;
    if let ExpressionKind::Parameter(number) = expression.kind {
        return Err(constant::no_parameter(number, place));
    }
    let datum = constant::evaluate(expression, Input::default())?;
    let number = match datum {
        Datum::Unknown(text) => value::number(oid::NUMERIC, &text),
        datum => datum.number(),
    };
    number.map_err(|report| report.at(place))
}

fn column_of(expression: &Expression) -> Result<String, Failure> {
    let Span { start, .. } = expression.span;
    match &expression.kind {
        ExpressionKind::Column(column) => match column.names() {
            [.., column] if is_legal_name(&column.text) => Ok(column.text.clone()),
            [.., column] => {
                let text = format!("column \"{}\" does not exist", column.text);
                Err(Report::error(SqlState::UNDEFINED_COLUMN, text).at(column.span.start))
            }
            [] => Err(missing("this expression in a condition", start)),
        },
        _ => Err(missing("this expression in a condition", start)),
    }
}
