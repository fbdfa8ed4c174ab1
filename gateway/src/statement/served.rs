//! Statements that the program serves.

use crate::limits;
use crate::sqlstate::{Failure, Report, SqlState};
use crate::statement::query::{
    ColumnName, Expression, ExpressionKind, Name, QualifiedName, Query, Span, Target,
};
use crate::statement::select::{self, Select, Shown};
use crate::statement::words::Words;
use crate::statement::{constant, Kind};

/// What a statement does.
#[derive(Clone, Copy, Debug, PartialEq, Eq)]
pub enum Verb {
    /// SELECT of a table.
    Select,
    /// INSERT.
    Insert,
    /// UPDATE of RESERVABLE columns: `column = column + number`.
    Reserve,
    /// UPDATE of plain columns: `column = value`.
    Replace,
    /// DELETE.
    Delete,
    /// CREATE TABLE.
    CreateTable,
    /// ALTER TABLE.
    AlterTable,
    /// DROP TABLE.
    DropTable,
    /// SHOW TABLE.
    ShowTable,
    /// SHOW BOUNDS.
    ShowBounds,
    /// SHOW JOURNAL.
    ShowJournal,
    /// SHOW STATISTICS.
    ShowStatistics,
}

impl Verb {
    /// Returns its first words, as PostgreSQL writes them in tags and errors.
    pub fn words(self) -> &'static str {
        match self {
            Verb::Select => "SELECT",
            Verb::Insert => "INSERT",
            Verb::Reserve | Verb::Replace => "UPDATE",
            Verb::Delete => "DELETE",
            Verb::CreateTable => "CREATE TABLE",
            Verb::AlterTable => "ALTER TABLE",
            Verb::DropTable => "DROP TABLE",
            Verb::ShowTable | Verb::ShowBounds | Verb::ShowJournal | Verb::ShowStatistics => "SHOW",
        }
    }

    /// Returns how the metrics count it.
    pub fn kind(self) -> Kind {
        match self {
            Verb::Select => Kind::Select,
            Verb::Insert => Kind::Insert,
            Verb::Reserve | Verb::Replace => Kind::Update,
            Verb::Delete => Kind::Delete,
            Verb::CreateTable | Verb::AlterTable | Verb::DropTable => Kind::Definition,
            Verb::ShowTable | Verb::ShowBounds | Verb::ShowJournal | Verb::ShowStatistics => {
                Kind::Show
            }
        }
    }

    /// Returns whether the program commits it at once.
    pub fn commits_by_itself(self) -> bool {
        matches!(
            self,
            Verb::Insert
                | Verb::Replace
                | Verb::Delete
                | Verb::CreateTable
                | Verb::AlterTable
                | Verb::DropTable
        )
    }

    /// Returns whether it may change something.
    pub fn writes(self) -> bool {
        self.commits_by_itself() || self == Verb::Reserve
    }

    /// Returns the forms that are served, for the hint of a refusal.
    pub fn form(self) -> &'static str {
        match self {
            Verb::Select => {
                "The form is SELECT column, .. FROM table [WHERE key = value | WHERE key IN (value, ..)] \
                 [ORDER BY key] [LIMIT n] [OFFSET n]; count(*) and constants may be columns."
            }
            Verb::Insert => "The form is INSERT INTO table [(column, ..)] VALUES (value, ..) [, ..].",
            Verb::Reserve | Verb::Replace => {
                "The forms are UPDATE table SET column = column + number, .. WHERE key = value for RESERVABLE \
                 columns (or - in place of +), and UPDATE table SET column = value, .. WHERE key = value for others."
            }
            Verb::Delete => "The form is DELETE FROM table WHERE key = value.",
            Verb::CreateTable => {
                "The form is CREATE TABLE table (column type [PRIMARY KEY] [RESERVABLE] [CHECK \
                 (condition)], ..) with the types INTEGER, NUMBER(p), NUMBER(p,s) and VARCHAR2(n)."
            }
            Verb::AlterTable => {
                "The forms are ALTER TABLE table ADD [CONSTRAINT name] CHECK (condition) and \
                 ALTER TABLE table DROP CONSTRAINT name."
            }
            Verb::DropTable => "The form is DROP TABLE table.",
            Verb::ShowTable => "The form is SHOW TABLE table.",
            Verb::ShowBounds => "The form is SHOW BOUNDS table WHERE key = value.",
            Verb::ShowJournal => "The form is SHOW JOURNAL [table].",
            Verb::ShowStatistics => "The form is SHOW STATISTICS.",
        }
    }

    /// Makes the report of a piece that PostgreSQL has and that is missing here.
    pub fn missing(self, what: &str, place: usize) -> Failure {
        Report::missing(what).hint(self.form()).at(place)
    }
}

/// A table that a statement names, and what its columns may have in front.
#[derive(Clone, Debug, PartialEq, Eq)]
pub struct Table {
    /// The table's name.
    pub name: Name,
    /// The name that it has in the statement, if another one is given.
    pub alias: Option<Name>,
}

/// The words that are no names for the program, in lower case and in order.
#[rustfmt::skip]
static RESERVED: Words = Words::new(&[
    "add", "and", "alter", "bounds", "between", "check", "commit", "create", "constraint", "drop",
    "delete", "from", "into", "insert", "integer", "journal", "key", "not", "null", "number",
    "primary", "rollback", "reservable", "set", "show", "select", "savepoint", "statistics", "to",
    "table", "update", "values", "varchar2", "work", "where",
]);

/// Returns whether the program may have something of this name, which it tells in lower case.
pub fn is_legal_name(name: &str) -> bool {
    let is_part = |byte| matches!(byte, b'a'..=b'z' | b'0'..=b'9' | b'_' | b'$' | b'#');
    name.len() <= limits::NAME
        && matches!(name.as_bytes().first(), Some(b'a'..=b'z'))
        && name.bytes().all(is_part)
        && !RESERVED.has(name)
}

/// Checks that the program can have something of this name.
///
/// # Errors
///
/// Fails if it has characters that its names don't have, or too many, or is a reserved word.
pub fn check_new_name(name: &Name) -> Result<(), Failure> {
    if is_legal_name(&name.text) {
        return Ok(());
    }
    if name.text.len() > limits::NAME {
        let text = format!("name \"{}\" is too long", name.text);
        let report = Report::error(SqlState::NAME_TOO_LONG, text);
        return Err(report
            .detail(format!("A name has at most {} bytes.", limits::NAME))
            .at(name.span.start));
    }
    let report = Report::error(
        SqlState::INVALID_NAME,
        format!("invalid name \"{}\"", name.text),
    );
    let detail = if RESERVED.has(&name.text) {
        "It is a reserved word of the server."
    } else {
        "A name has 1 to 30 lower-case ASCII letters, digits, _, $ and #, and begins with a letter."
    };
    Err(report.detail(detail).at(name.span.start))
}

/// Makes the report of a table that does not exist.
pub fn no_table(name: &str, place: usize) -> Failure {
    let text = format!("relation \"{}\" does not exist", name);
    Report::error(SqlState::UNDEFINED_TABLE, text)
        .table(name)
        .at(place)
}

/// Makes the report of a column that a table doesn't have.
pub fn no_column(column: &Name, table: &str) -> Failure {
    let text = format!(
        "column \"{}\" of relation \"{}\" does not exist",
        column.text, table
    );
    Report::error(SqlState::UNDEFINED_COLUMN, text).at(column.span.start)
}

/// Makes the report of a column that the table of a statement doesn't have.
pub fn unknown_column(column: &Name) -> Failure {
    let text = format!("column \"{}\" does not exist", column.text);
    Report::error(SqlState::UNDEFINED_COLUMN, text).at(column.span.start)
}

/// Makes the report of a table's name in place of a column: it is the whole row as one value.
pub fn whole_row(name: &Name) -> Failure {
    Report::missing("a row as one value").at(name.span.start)
}

impl Table {
    /// Makes the table of a name as it is written.
    ///
    /// # Errors
    ///
    /// Fails if no table of the program can have this name.
    pub fn new(name: QualifiedName, alias: Option<Name>) -> Result<Table, Failure> {
        let QualifiedName { schema, name } = name;
        match schema {
            Some(schema) if schema.text != "public" => {
                let full = format!("{}.{}", schema.text, name.text);
                Err(no_table(&full, schema.span.start))
            }
            schema if !is_legal_name(&name.text) => {
                let place = schema.map_or(name.span.start, |schema| schema.span.start);
                Err(no_table(&name.text, place))
            }
            _ => Ok(Table { name, alias }),
        }
    }

    /// Returns the name of a column of this table, which may have the table's in front.
    ///
    /// # Errors
    ///
    /// Fails if another table is in front, or if no column of the program can have this name.
    pub fn column(&self, column: ColumnName) -> Result<Name, Failure> {
        let is_plain = matches!(column, ColumnName::Plain(_));
        let column = match column {
            ColumnName::Plain(name) => name,
            ColumnName::Qualified(mut names) => {
                let place = names.first().map_or(0, |name| name.span.start);
                let column = match names.pop() {
                    Some(column) => column,
                    None => return Err(Report::missing("a column without a name").at(place)),
                };
                let written: Vec<&str> = names.iter().map(|name| name.text.as_str()).collect();
                self.check_qualifier(&written, place)?;
                column
            }
        };
        if is_legal_name(&column.text) {
            Ok(column)
        } else if is_plain && column.text == self.shown_name().text {
            Err(whole_row(&column))
        } else {
            Err(unknown_column(&column))
        }
    }

    /// Returns its name in the statement: its alias, if it has one.
    pub fn shown_name(&self) -> &Name {
        self.alias.as_ref().unwrap_or(&self.name)
    }

    /// Checks that no other table is in front of a column or of `*`.
    ///
    /// # Errors
    ///
    /// Fails if one is.
    pub fn check_qualifier(&self, qualifier: &[&str], place: usize) -> Result<(), Failure> {
        let table = match qualifier {
            [] => return Ok(()),
            ["public", table] if self.alias.is_none() => table,
            [table] => table,
            [.., table] => {
                let text = format!("missing FROM-clause entry for table \"{}\"", table);
                return Err(Report::error(SqlState::UNDEFINED_TABLE, text).at(place));
            }
        };
        match &self.alias {
            Some(alias) if alias.text == *table => Ok(()),
            None if self.name.text == *table => Ok(()),
            Some(alias) if self.name.text == *table => {
                let text = format!(
                    "invalid reference to FROM-clause entry for table \"{}\"",
                    table
                );
                let hint = format!(
                    "Perhaps you meant to reference the table alias \"{}\".",
                    alias.text
                );
                Err(Report::error(SqlState::UNDEFINED_TABLE, text)
                    .hint(hint)
                    .at(place))
            }
            _ => {
                let text = format!("missing FROM-clause entry for table \"{}\"", table);
                Err(Report::error(SqlState::UNDEFINED_TABLE, text).at(place))
            }
        }
    }

    /// Checks that a column that is written can have this name.
    ///
    /// # Errors
    ///
    /// Fails if none can.
    pub fn check_column(&self, column: &Name) -> Result<(), Failure> {
        if is_legal_name(&column.text) {
            Ok(())
        } else {
            Err(no_column(column, &self.name.text))
        }
    }
}

/// The rows that a statement is about, by their keys.
#[derive(Clone, Debug, PartialEq, Eq)]
pub struct Keys {
    /// The column that is compared: the server refuses it unless it is the key.
    pub column: Name,
    /// The values.
    pub values: Vec<Expression>,
    /// Whether there is one value, which is an array of them: `key = ANY (array)`.
    pub is_array: bool,
}

impl Keys {
    /// Makes the keys of a condition: `key = value`, `value = key`, and if `several` may be: `key IN (value, ..)`.
    ///
    /// # Errors
    ///
    /// Fails if it is another condition.
    pub fn new(
        table: &Table,
        condition: Expression,
        verb: Verb,
        several: bool,
    ) -> Result<Keys, Failure> {
        let span = condition.span;
        let mut is_array = false;
        let (column, values) = match condition.kind {
            ExpressionKind::Binary(left, operator, right) if operator == "=" => {
                match (left.kind, right.kind) {
                    (ExpressionKind::Column(column), kind) => {
                        let span = right.span;
                        (column, vec![Expression { kind, span }])
                    }
                    (kind, ExpressionKind::Column(column)) => {
                        let span = left.span;
                        (column, vec![Expression { kind, span }])
                    }
                    _ => return Err(not_the_key(verb, span)),
                }
            }
            ExpressionKind::Binary(_, operator, _) => {
                let what = format!("the operator {} in WHERE", operator);
                return Err(verb.missing(&what, span.start));
            }
            ExpressionKind::In(left, members, false) => match left.kind {
                ExpressionKind::Column(column) if several || members.len() == 1 => {
                    (column, members)
                }
                _ => return Err(not_the_key(verb, span)),
            },
            ExpressionKind::Quantified(left, operator, false, right) if operator == "=" => {
                match (left.kind, right.kind) {
                    (ExpressionKind::Column(column), ExpressionKind::Array(members))
                        if !members.is_empty() && (several || members.len() == 1) =>
                    {
                        (column, members)
                    }
                    (ExpressionKind::Column(column), kind) => {
                        let span = right.span;
                        let array = Expression { kind, span };
                        is_array = true;
                        if !several || !constant::is_array(&array) {
                            return Err(not_the_key(verb, span));
                        }
                        (column, vec![array])
                    }
                    _ => return Err(not_the_key(verb, span)),
                }
            }
            _ => return Err(not_the_key(verb, span)),
        };
        let column = table.column(column)?;
        if !is_array {
            values
                .iter()
                .try_for_each(|value| constant::check(value, verb))?;
        }
        Ok(Keys {
            column,
            values,
            is_array,
        })
    }
}

fn not_the_key(verb: Verb, span: Span) -> Failure {
    verb.missing("a WHERE that does more than compare the key", span.start)
}

/// An INSERT.
#[derive(Clone, Debug, PartialEq, Eq)]
pub struct Insert {
    /// Its table.
    pub table: Table,
    /// The columns that it lists; none if it lists none.
    pub columns: Vec<Name>,
    /// The values of each row.
    pub rows: Vec<Vec<Expression>>,
    /// What RETURNING shows; nothing without it.
    pub returning: Vec<Shown>,
}

/// A column and its value.
#[derive(Clone, Debug, PartialEq, Eq)]
pub struct Assignment {
    /// The column.
    pub column: Name,
    /// The value, or what is added or subtracted.
    pub value: Expression,
    /// Whether the value is subtracted. Only in a reservation.
    pub is_subtracted: bool,
}

/// An UPDATE.
#[derive(Clone, Debug, PartialEq, Eq)]
pub struct Update {
    /// Its table.
    pub table: Table,
    /// Whether it adds to columns; otherwise it gives them new values.
    pub reserves: bool,
    /// What it changes.
    pub assignments: Vec<Assignment>,
    /// The row.
    pub keys: Keys,
    /// What RETURNING shows; nothing without it.
    pub returning: Vec<Shown>,
}

/// A DELETE.
#[derive(Clone, Debug, PartialEq, Eq)]
pub struct Delete {
    /// Its table.
    pub table: Table,
    /// The row.
    pub keys: Keys,
    /// What RETURNING shows; nothing without it.
    pub returning: Vec<Shown>,
}

/// A CREATE TABLE, ALTER TABLE or DROP TABLE, which has no parameters.
#[derive(Clone, Debug, PartialEq, Eq)]
pub struct Define {
    /// Which of them.
    pub verb: Verb,
    /// The table.
    pub table: Name,
    /// The constraint that is dropped.
    pub constraint: Option<Name>,
    /// The name of a new table's key, if it has one. The program has no names of keys.
    pub key: Option<Name>,
    /// IF EXISTS, IF NOT EXISTS: that there is one, or none, is told as a notice.
    pub is_conditional: bool,
    /// What is told beside the tag: types that hold less than what was written.
    pub notices: Vec<String>,
    /// The line for the program. It is empty if there is nothing to do.
    pub line: String,
}

/// What SHOW shows.
#[derive(Clone, Debug, PartialEq, Eq)]
pub enum Show {
    /// SHOW TABLE
    Table(Table),
    /// SHOW BOUNDS
    Bounds(Table, Keys),
    /// SHOW JOURNAL
    Journal(Option<Table>),
    /// SHOW STATISTICS
    Statistics,
}

/// A statement that the program serves.
#[derive(Clone, Debug, PartialEq, Eq)]
pub enum Served {
    /// SELECT
    Select(Box<Select>),
    /// INSERT
    Insert(Insert),
    /// UPDATE
    Update(Update),
    /// DELETE
    Delete(Delete),
    /// CREATE TABLE, ALTER TABLE, DROP TABLE
    Define(Define),
    /// SHOW
    Show(Show),
}

impl Served {
    /// Makes the served form of a query that reads a table.
    ///
    /// # Errors
    ///
    /// Fails if the query does what isn't served.
    pub fn select(query: Query) -> Result<Served, Failure> {
        select::lowered(query).map(Box::new).map(Served::Select)
    }

    /// Returns what it does.
    pub fn verb(&self) -> Verb {
        match self {
            Served::Select(_) => Verb::Select,
            Served::Insert(_) => Verb::Insert,
            Served::Update(update) if update.reserves => Verb::Reserve,
            Served::Update(_) => Verb::Replace,
            Served::Delete(_) => Verb::Delete,
            Served::Define(define) => define.verb,
            Served::Show(Show::Table(_)) => Verb::ShowTable,
            Served::Show(Show::Bounds(..)) => Verb::ShowBounds,
            Served::Show(Show::Journal(_)) => Verb::ShowJournal,
            Served::Show(Show::Statistics) => Verb::ShowStatistics,
        }
    }

    /// Returns the name of its table.
    pub fn table(&self) -> Option<&Name> {
        match self {
            Served::Select(select) => Some(&select.table.name),
            Served::Insert(insert) => Some(&insert.table.name),
            Served::Update(update) => Some(&update.table.name),
            Served::Delete(delete) => Some(&delete.table.name),
            Served::Define(define) => Some(&define.table),
            Served::Show(Show::Table(table) | Show::Bounds(table, _)) => Some(&table.name),
            Served::Show(Show::Journal(table)) => table.as_ref().map(|table| &table.name),
            Served::Show(Show::Statistics) => None,
        }
    }

    /// Returns the rows that it names by their keys.
    pub fn keys(&self) -> Option<&Keys> {
        match self {
            Served::Select(select) => select.keys.as_ref(),
            Served::Update(Update { keys, .. })
            | Served::Delete(Delete { keys, .. })
            | Served::Show(Show::Bounds(_, keys)) => Some(keys),
            _ => None,
        }
    }

    /// Returns what its RETURNING shows; nothing without it.
    pub fn returning(&self) -> &[Shown] {
        match self {
            Served::Insert(Insert { returning, .. })
            | Served::Update(Update { returning, .. })
            | Served::Delete(Delete { returning, .. }) => returning,
            _ => &[],
        }
    }
}

/// Makes what RETURNING shows.
///
/// # Errors
///
/// Fails at what isn't served.
pub fn returned(table: &Table, targets: Vec<Target>, verb: Verb) -> Result<Vec<Shown>, Failure> {
    let shown = select::shown(table, targets, verb)?;
    match shown.iter().find(|shown| shown.is_count()) {
        Some(count) => {
            let text = "aggregate functions are not allowed in RETURNING";
            Err(Report::error(SqlState::GROUPING_ERROR, text).at(count.span.start))
        }
        None => Ok(shown),
    }
}
