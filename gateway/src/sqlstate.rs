//! Errors and notices as PostgreSQL reports them, and the SQLSTATE of each refusal of the program.

use std::borrow::Cow;

use crate::limits;
use crate::reply::{Broken, Refusal};

/// The five characters that tell a client which error it got.
#[derive(Clone, Copy, Debug, PartialEq, Eq, Hash, PartialOrd, Ord)]
pub struct SqlState(&'static str);

/// Names SQLSTATEs.
macro_rules! states {
    ($($name:ident $code:literal,)*) => {
        impl SqlState {
            $(#[doc = $code] pub const $name: SqlState = SqlState($code);)*
        }
    };
}

states! {
    SUCCESS "00000",
    WARNING "01000",
    PROTOCOL_VIOLATION "08P01",
    FEATURE_NOT_SUPPORTED "0A000",
    CARDINALITY_VIOLATION "21000",
    TEXT_TOO_LONG "22001",
    NUMBER_OUT_OF_RANGE "22003",
    NULL_VALUE_NOT_ALLOWED "22004",
    SUBSTRING_ERROR "22011",
    DIVISION_BY_ZERO "22012",
    INVALID_ROW_COUNT_IN_LIMIT "2201W",
    INVALID_ROW_COUNT_IN_OFFSET "2201X",
    CHARACTER_NOT_IN_REPERTOIRE "22021",
    INVALID_PARAMETER_VALUE "22023",
    INVALID_ESCAPE_SEQUENCE "22025",
    INVALID_TEXT_REPRESENTATION "22P02",
    INVALID_BINARY_REPRESENTATION "22P03",
    NOT_NULL_VIOLATION "23502",
    UNIQUE_VIOLATION "23505",
    CHECK_VIOLATION "23514",
    ACTIVE_TRANSACTION "25001",
    READ_ONLY_TRANSACTION "25006",
    NO_ACTIVE_TRANSACTION "25P01",
    FAILED_TRANSACTION "25P02",
    IDLE_IN_TRANSACTION_TIMEOUT "25P03",
    TRANSACTION_TIMEOUT "25P04",
    UNDEFINED_PREPARED_STATEMENT "26000",
    INVALID_AUTHORIZATION "28000",
    UNDEFINED_PORTAL "34000",
    UNDEFINED_SAVEPOINT "3B001",
    UNDEFINED_DATABASE "3D000",
    INVALID_SCHEMA "3F000",
    SYNTAX_ERROR "42601",
    INVALID_NAME "42602",
    NAME_TOO_LONG "42622",
    DUPLICATE_COLUMN "42701",
    AMBIGUOUS_COLUMN "42702",
    UNDEFINED_COLUMN "42703",
    UNDEFINED_OBJECT "42704",
    DUPLICATE_ALIAS "42712",
    AMBIGUOUS_FUNCTION "42725",
    GROUPING_ERROR "42803",
    DATATYPE_MISMATCH "42804",
    WRONG_OBJECT_TYPE "42809",
    UNDEFINED_FUNCTION "42883",
    UNDEFINED_TABLE "42P01",
    UNDEFINED_PARAMETER "42P02",
    DUPLICATE_PORTAL "42P03",
    DUPLICATE_PREPARED_STATEMENT "42P05",
    DUPLICATE_TABLE "42P07",
    INVALID_COLUMN_REFERENCE "42P10",
    INVALID_TABLE_DEFINITION "42P16",
    INDETERMINATE_TYPE "42P18",
    WINDOWING_ERROR "42P20",
    DISK_FULL "53100",
    OUT_OF_MEMORY "53200",
    TOO_MANY_CONNECTIONS "53300",
    CONFIGURATION_LIMIT_EXCEEDED "53400",
    LIMIT_EXCEEDED "54000",
    STATEMENT_TOO_COMPLEX "54001",
    NOT_IN_PREREQUISITE_STATE "55000",
    OBJECT_IN_USE "55006",
    CANNOT_CHANGE_NOW "55P02",
    ADMIN_SHUTDOWN "57P01",
    IO_ERROR "58030",
    INTERNAL_ERROR "XX000",
}

impl SqlState {
    /// Returns the five characters.
    pub fn code(self) -> &'static str {
        self.0
    }
}

/// How grave a report is.
#[derive(Clone, Copy, Debug, PartialEq, Eq, PartialOrd, Ord)]
pub enum Severity {
    /// A word beside a result.
    Notice,
    /// A word beside a result, of something that is most often a mistake.
    Warning,
    /// The statement failed.
    Error,
    /// The connection ends.
    Fatal,
}

impl Severity {
    /// Returns the word of the protocol.
    pub fn word(self) -> &'static str {
        match self {
            Severity::Notice => "NOTICE",
            Severity::Warning => "WARNING",
            Severity::Error => "ERROR",
            Severity::Fatal => "FATAL",
        }
    }
}

/// What an ErrorResponse or a NoticeResponse says.
#[derive(Clone, Debug, PartialEq, Eq)]
pub struct Report {
    /// How grave it is.
    pub severity: Severity,
    /// Its SQLSTATE.
    pub state: SqlState,
    /// What happened, in one line.
    pub message: Cow<'static, str>,
    /// More about it.
    pub detail: Option<String>,
    /// What to do.
    pub hint: Option<Cow<'static, str>>,
    /// Where the fault is: a byte of the client's text, from 0.
    pub place: Option<usize>,
    /// The table that it is about.
    pub table: Option<String>,
    /// The column that it is about.
    pub column: Option<String>,
    /// The constraint that it is about.
    pub constraint: Option<String>,
}

/// A report on the heap, so that a result stays small.
pub type Failure = Box<Report>;

impl Report {
    fn new(severity: Severity, state: SqlState, message: Cow<'static, str>) -> Failure {
        Box::new(Report {
            severity,
            state,
            message,
            detail: None,
            hint: None,
            place: None,
            table: None,
            column: None,
            constraint: None,
        })
    }

    /// Makes a report of a statement that failed.
    pub fn error(state: SqlState, message: impl Into<Cow<'static, str>>) -> Failure {
        Report::new(Severity::Error, state, message.into())
    }

    /// Makes a report of a connection that ends.
    pub fn fatal(state: SqlState, message: impl Into<Cow<'static, str>>) -> Failure {
        Report::new(Severity::Fatal, state, message.into())
    }

    /// Makes a warning.
    pub fn warning(state: SqlState, message: impl Into<Cow<'static, str>>) -> Failure {
        Report::new(Severity::Warning, state, message.into())
    }

    /// Makes a notice.
    pub fn notice(state: SqlState, message: impl Into<Cow<'static, str>>) -> Failure {
        Report::new(Severity::Notice, state, message.into())
    }

    /// Makes the report of a syntax error at a piece of the client's text, as PostgreSQL words it.
    pub fn syntax(text: &str, start: usize, end: usize) -> Failure {
        match text.get(start..end) {
            Some(piece) if !piece.is_empty() => {
                let message = format!("syntax error at or near \"{}\"", piece);
                Report::error(SqlState::SYNTAX_ERROR, message).at(start)
            }
            _ => Report::error(SqlState::SYNTAX_ERROR, "syntax error at end of input")
                .at(start.min(text.len())),
        }
    }

    /// Makes the report of something that PostgreSQL has and that is missing here.
    pub fn missing(what: &str) -> Failure {
        Report::error(
            SqlState::FEATURE_NOT_SUPPORTED,
            format!("{} is not supported", what),
        )
    }

    /// Adds a place: a byte of the client's text, from 0.
    pub fn at(mut self: Box<Self>, place: usize) -> Failure {
        self.place = Some(place);
        self
    }

    /// Adds a place, unless it has one.
    pub fn or_at(self: Box<Self>, place: usize) -> Failure {
        match self.place {
            Some(_) => self,
            None => self.at(place),
        }
    }

    /// Adds a detail.
    pub fn detail(mut self: Box<Self>, detail: impl Into<String>) -> Failure {
        self.detail = Some(detail.into());
        self
    }

    /// Adds a hint.
    pub fn hint(mut self: Box<Self>, hint: impl Into<Cow<'static, str>>) -> Failure {
        self.hint = Some(hint.into());
        self
    }

    /// Adds the name of a table.
    pub fn table(mut self: Box<Self>, table: impl Into<String>) -> Failure {
        self.table = Some(table.into());
        self
    }

    /// Adds the name of a column.
    pub fn column(mut self: Box<Self>, column: impl Into<String>) -> Failure {
        self.column = Some(column.into());
        self
    }

    /// Adds the name of a constraint.
    pub fn constraint(mut self: Box<Self>, constraint: impl Into<String>) -> Failure {
        self.constraint = Some(constraint.into());
        self
    }
}

/// What a report of a refusal needs of the statement that was refused.
#[derive(Clone, Copy, Debug)]
pub struct Refused<'a> {
    /// The statement's first word, as PostgreSQL writes it in tags: `INSERT`, `DROP TABLE`.
    pub verb: &'static str,
    /// The table that the statement names, in lower case, and its place in the client's text.
    pub table: Option<(&'a str, usize)>,
    /// The constraint that the statement names, in lower case.
    pub constraint: Option<&'a str>,
}

/// What the name of a check of a column's range begins with; the column's name is behind it.
const RANGE: &str = "range_";

/// Makes the report of a refusal, of all but a syntax error.
pub fn refusal(refusal: &Refusal<'_>, refused: Refused<'_>) -> Failure {
    let name = refused.table.map_or("", |(name, _)| name);
    let at_table = |report: Failure| match refused.table {
        Some((name, place)) => report.table(name).at(place),
        None => report,
    };
    let of_table = |report: Failure| match refused.table {
        Some((name, _)) => report.table(name),
        None => report,
    };
    match *refusal {
        Refusal::TableExists => at_table(Report::error(
            SqlState::DUPLICATE_TABLE,
            format!("relation \"{}\" already exists", name),
        )),
        Refusal::NoSuchTable => at_table(Report::error(
            SqlState::UNDEFINED_TABLE,
            format!("relation \"{}\" does not exist", name),
        )),
        Refusal::BadDefinition => of_table(
            Report::error(
                SqlState::INVALID_TABLE_DEFINITION,
                "invalid table definition",
            )
            .detail("The definition breaks a rule of tables or a limit."),
        ),
        Refusal::BadValue => of_table(
            Report::error(
                SqlState::INVALID_PARAMETER_VALUE,
                "invalid value for a column",
            )
            .detail(
                "A value has another type than its column, does not fit into it, is an empty \
                     text, or the list of values is not the list of columns.",
            )
            .hint("Numbers are never rounded, and each column needs a value."),
        ),
        Refusal::BadAssignment => of_table(
            Report::error(
                SqlState::FEATURE_NOT_SUPPORTED,
                "invalid assignment in UPDATE",
            )
            .hint(
                "Set a RESERVABLE column to itself plus or minus a number, and a plain column to a \
                 value. One UPDATE cannot change both kinds. The key cannot be changed.",
            ),
        ),
        Refusal::NotTheKey => of_table(
            Report::error(
                SqlState::FEATURE_NOT_SUPPORTED,
                "the column in WHERE is not the primary key",
            )
            .hint("WHERE must compare the primary key with one value."),
        ),
        Refusal::TransactionOpen => of_table(commits_by_itself(refused.verb)),
        Refusal::NoSuchConstraint => of_table(undefined_constraint(name, refused.constraint)),
        Refusal::RowExists => of_table(
            Report::error(
                SqlState::UNIQUE_VIOLATION,
                format!(
                    "duplicate key value violates unique constraint \"{}_pkey\"",
                    name
                ),
            )
            .constraint(format!("{}_pkey", name)),
        ),
        Refusal::NoSuchRow => of_table(Report::error(SqlState::INTERNAL_ERROR, "no such row")),
        Refusal::RowReserved => of_table(
            Report::error(
                SqlState::OBJECT_IN_USE,
                "another transaction has reserved the row",
            )
            .hint("Try again when that transaction has ended."),
        ),
        Refusal::TableReserved => of_table(
            Report::error(
                SqlState::OBJECT_IN_USE,
                format!("another transaction has reserved rows of \"{}\"", name),
            )
            .hint("Try again when that transaction has ended."),
        ),
        Refusal::TableFull => of_table(
            Report::error(
                SqlState::LIMIT_EXCEEDED,
                format!("table \"{}\" is full", name),
            )
            .detail(format!("A table holds at most {} rows.", limits::ROWS)),
        ),
        Refusal::TooManyTables => Report::error(SqlState::LIMIT_EXCEEDED, "too many tables")
            .detail(format!("A database holds at most {} tables.", limits::TABLES)),
        Refusal::Broken(broken) => of_table(broken_check(broken, refused)),
        Refusal::TooManyReservations => Report::error(
            SqlState::LIMIT_EXCEEDED,
            "too many open reservations",
        )
        .detail(format!(
            "A transaction holds at most {} reservations, and a row has at most {}.",
            limits::RESERVATIONS,
            limits::RESERVATIONS_OF_A_ROW,
        ))
        .hint("Commit more often."),
        Refusal::NoSuchSavepoint => Report::error(SqlState::UNDEFINED_SAVEPOINT, "savepoint does not exist"),
        Refusal::TooManySavepoints => Report::error(
            SqlState::LIMIT_EXCEEDED,
            "too many savepoints in a transaction",
        )
        .detail(format!("A transaction holds at most {} savepoints.", limits::SAVEPOINTS)),
        Refusal::NoMoreIds => Report::error(
            SqlState::LIMIT_EXCEEDED,
            "no ids of reservations are left",
        )
        .hint("Restart the server."),
        Refusal::Memory => Report::error(SqlState::OUT_OF_MEMORY, "out of memory").hint("Try again later."),
        Refusal::Store => Report::error(SqlState::IO_ERROR, "the store could not be read or written")
            .detail("It is unknown whether the disk has kept the write that failed.")
            .hint(
                "Try again once. If it fails again, the disk is full or failed: look at the \
                 disk, restart the server, and read the row before you repeat the write.",
            ),
        Refusal::Line => Report::error(SqlState::LIMIT_EXCEEDED, "the statement is too long"),
        Refusal::Syntax { .. } => Report::error(SqlState::SYNTAX_ERROR, "syntax error"),
        Refusal::Unknown { number, words } => Report::error(
            SqlState::INTERNAL_ERROR,
            format!("the server refused the statement with error {} {}", number, words),
        )
        .detail("It has changed nothing."),
    }
}

/// Makes the report of a statement that commits by itself inside a transaction block.
pub fn commits_by_itself(verb: &str) -> Failure {
    Report::error(
        SqlState::ACTIVE_TRANSACTION,
        format!("{} cannot run inside a transaction block", verb),
    )
    .hint(
        "INSERT, DELETE, UPDATE of plain columns and definitions commit by themselves: send them \
         alone, outside a block (autocommit).",
    )
}

fn undefined_constraint(table: &str, constraint: Option<&str>) -> Failure {
    let report = Report::error(
        SqlState::UNDEFINED_OBJECT,
        format!(
            "constraint \"{}\" of relation \"{}\" does not exist",
            constraint.unwrap_or(""),
            table
        ),
    );
    match constraint {
        Some(name) => report.constraint(name),
        None => report,
    }
}

fn broken_check(broken: Broken<'_>, refused: Refused<'_>) -> Failure {
    let (table, _) = refused.table.unwrap_or(("", 0));
    let name = broken.constraint.to_ascii_lowercase();
    let message = match refused.verb {
        "ALTER TABLE" => {
            format!(
                "check constraint \"{}\" of relation \"{}\" is violated by some row",
                name, table
            )
        }
        "INSERT" => format!(
            "new row for relation \"{}\" violates check constraint \"{}\"",
            table, name
        ),
        _ => format!(
            "change of relation \"{}\" would violate check constraint \"{}\"",
            table, name
        ),
    };
    let side = if broken.high {
        "above the high limit"
    } else {
        "below the low limit"
    };
    let detail = match refused.verb {
        "INSERT" => format!("The value is {}, {} {}.", broken.worst, side, broken.limit),
        // The row may have this value already, whatever is open.
        "ALTER TABLE" => format!(
            "In one row the value is or could become {}, {} {}.",
            broken.worst, side, broken.limit
        ),
        _ => format!(
            "The value could become {}, {} {}, if some of the open transactions commit.",
            broken.worst, side, broken.limit
        ),
    };
    let report = Report::error(SqlState::CHECK_VIOLATION, message).detail(detail);
    let report = match name.strip_prefix(RANGE) {
        Some(column) => report.column(column),
        None => report,
    };
    report.constraint(name)
}

#[cfg(test)]
mod tests {
    use super::*;
    use crate::reply::{self, Outcome};

    fn report(line: &str, verb: &'static str) -> Failure {
        match reply::outcome(line).unwrap() {
            Outcome::Refused(refused) => {
                let table = Some(("stock", 7));
                refusal(
                    &refused,
                    Refused {
                        verb,
                        table,
                        constraint: Some("cap"),
                    },
                )
            }
            outcome => panic!("{:?}", outcome),
        }
    }

    #[test]
    fn each_refusal_has_its_sqlstate() {
        for (line, state) in [
            ("ERR 12 line", "54000"),
            ("ERR 20 table exists", "42P07"),
            ("ERR 21 no such table", "42P01"),
            ("ERR 22 bad definition", "42P16"),
            ("ERR 23 bad value", "22023"),
            ("ERR 24 bad assignment", "0A000"),
            ("ERR 25 not the key", "0A000"),
            ("ERR 26 transaction open", "25001"),
            ("ERR 27 no such constraint", "42704"),
            ("ERR 30 row exists", "23505"),
            ("ERR 32 row reserved", "55006"),
            ("ERR 33 table reserved", "55006"),
            ("ERR 34 table full", "54000"),
            ("ERR 35 too many tables", "54000"),
            ("ERR 41 CAP high 101 limit 100", "23514"),
            ("ERR 42 too many reservations", "54000"),
            ("ERR 43 no such savepoint", "3B001"),
            ("ERR 44 too many savepoints", "54000"),
            ("ERR 45 no more ids", "54000"),
            ("ERR 51 memory", "53200"),
            ("ERR 60 store", "58030"),
            ("ERR 99 what", "XX000"),
        ] {
            assert_eq!(report(line, "UPDATE").state.code(), state, "{}", line);
        }
    }

    #[test]
    fn a_broken_check_is_named_with_its_table_and_its_limit() {
        let broken = report("ERR 41 IN_STOCK low -0.05 limit 0.00", "UPDATE");
        assert_eq!(broken.constraint.as_deref(), Some("in_stock"));
        assert_eq!(broken.table.as_deref(), Some("stock"));
        let detail = broken.detail.unwrap();
        assert!(
            detail.contains("-0.05") && detail.contains("0.00"),
            "{}",
            detail
        );
        let range = report("ERR 41 RANGE_PIECES high 1000 limit 999", "UPDATE");
        assert_eq!(range.column.as_deref(), Some("pieces"));
        assert_eq!(range.constraint.as_deref(), Some("range_pieces"));
    }

    #[test]
    fn names_are_those_that_postgresql_gives() {
        assert_eq!(
            report("ERR 30 row exists", "INSERT").constraint.as_deref(),
            Some("stock_pkey")
        );
        assert_eq!(
            report("ERR 27 no such constraint", "ALTER TABLE")
                .constraint
                .as_deref(),
            Some("cap")
        );
        assert_eq!(report("ERR 21 no such table", "SELECT").place, Some(7));
    }
}
