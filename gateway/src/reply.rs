//! Replies of the program.

use crate::statement::served::Verb;

/// What a statement asks the program for, as far as the form of its reply goes.
///
/// The form tells where a reply ends. Its words alone do not, since a table's columns may be called `OK` and `ERR`.
#[derive(Clone, Copy, Debug, PartialEq, Eq)]
pub enum Question {
    /// All that has a reply of one line.
    Order,
    /// SELECT: a line with the names of the columns, and a line for each row.
    Rows,
    /// SHOW TABLE: the statement that makes the table.
    Table,
    /// SHOW BOUNDS: a line for each column and each check.
    Bounds,
    /// SHOW JOURNAL: a line for each reservation.
    Journal,
    /// SHOW STATISTICS: a line with totals.
    Statistics,
}

impl From<Verb> for Question {
    fn from(verb: Verb) -> Question {
        match verb {
            Verb::Select => Question::Rows,
            Verb::ShowTable => Question::Table,
            Verb::ShowBounds => Question::Bounds,
            Verb::ShowJournal => Question::Journal,
            Verb::ShowStatistics => Question::Statistics,
            Verb::Insert
            | Verb::Reserve
            | Verb::Replace
            | Verb::Delete
            | Verb::CreateTable
            | Verb::AlterTable
            | Verb::DropTable => Question::Order,
        }
    }
}

impl Question {
    /// Returns whether `line`, without its prefix and its line feed, is the last one of the reply.
    pub fn is_last_line(self, line: &[u8]) -> bool {
        let is_end = match self {
            Question::Order => true,
            // A row begins with a quote, a sign or a digit, and the second word of the names is `|`.
            Question::Rows => line.starts_with(b"OK rows "),
            Question::Table => line == b"OK table",
            Question::Bounds => line == b"OK bounds",
            Question::Journal => line.starts_with(b"OK reservations "),
            Question::Statistics => line == b"OK statistics",
        };
        is_end || is_refusal(line)
    }
}

/// Returns whether a line is a refusal: `ERR` and a number. No column's name begins with a digit.
fn is_refusal(line: &[u8]) -> bool {
    line.strip_prefix(b"ERR ")
        .and_then(<[u8]>::first)
        .map_or(false, u8::is_ascii_digit)
}

/// What the last line of a reply says.
#[derive(Clone, Copy, Debug, PartialEq, Eq)]
pub enum Outcome<'a> {
    /// `OK` and more words.
    Done(Done),
    /// `ERR` and the words of a refusal.
    Refused(Refusal<'a>),
}

/// What was done.
#[derive(Clone, Copy, Debug, PartialEq, Eq)]
pub enum Done {
    /// `OK created NAME`
    Created,
    /// `OK dropped NAME`
    Dropped,
    /// `OK altered NAME`
    Altered,
    /// `OK inserted`
    Inserted,
    /// `OK deleted`
    Deleted,
    /// `OK updated`
    Updated,
    /// `OK reserved N`
    Reserved,
    /// `OK committed N`
    Committed,
    /// `OK rolled back N` and `OK rolled back to NAME N`
    RolledBack,
    /// `OK savepoint NAME`
    Savepoint,
    /// `OK rows N`: how many rows were shown.
    Rows(u64),
    /// `OK table`
    Table,
    /// `OK bounds`
    Bounds,
    /// `OK reservations N`: how many were shown.
    Reservations(u64),
    /// `OK statistics`
    Statistics,
}

/// A refusal, by its number. A statement that is refused has changed nothing.
#[derive(Clone, Copy, Debug, PartialEq, Eq)]
pub enum Refusal<'a> {
    /// 11: it is no statement.
    Syntax {
        /// The byte of the fault, from 1, behind the colon of the line's prefix.
        column: usize,
    },
    /// 12: it is no line, or too long.
    Line,
    /// 20
    TableExists,
    /// 21
    NoSuchTable,
    /// 22
    BadDefinition,
    /// 23
    BadValue,
    /// 24
    BadAssignment,
    /// 25
    NotTheKey,
    /// 26
    TransactionOpen,
    /// 27
    NoSuchConstraint,
    /// 30
    RowExists,
    /// 31
    NoSuchRow,
    /// 32
    RowReserved,
    /// 33
    TableReserved,
    /// 34
    TableFull,
    /// 35
    TooManyTables,
    /// 41
    Broken(Broken<'a>),
    /// 42
    TooManyReservations,
    /// 43
    NoSuchSavepoint,
    /// 44
    TooManySavepoints,
    /// 45
    NoMoreIds,
    /// 51
    Memory,
    /// 60
    Store,
    /// A number that this version does not know.
    Unknown {
        /// The number.
        number: u16,
        /// The words behind it.
        words: &'a str,
    },
}

/// What a refusal with 41 says.
#[derive(Clone, Copy, Debug, PartialEq, Eq)]
pub struct Broken<'a> {
    /// The name of the constraint, in upper case.
    pub constraint: &'a str,
    /// Whether the high limit would be broken, otherwise the low one.
    pub high: bool,
    /// What its value would come to.
    pub worst: &'a str,
    /// The limit.
    pub limit: &'a str,
}

impl Refusal<'_> {
    /// Returns whether the table may be another one than the gateway knows: its name, its columns or its key differ.
    pub fn is_of_definition(self) -> bool {
        matches!(
            self,
            Refusal::NoSuchTable
                | Refusal::BadDefinition
                | Refusal::BadValue
                | Refusal::BadAssignment
                | Refusal::NotTheKey
        )
    }
}

/// Reads the last line of a reply, without its prefix and its line feed. None: it is none.
pub fn outcome(line: &str) -> Option<Outcome<'_>> {
    let (word, words) = first_word(line);
    match word {
        "OK" => done(words).map(Outcome::Done),
        "ERR" => refusal(words).map(Outcome::Refused),
        _ => None,
    }
}

/// Returns the first word of a text, and what is behind it and its blank.
fn first_word(text: &str) -> (&str, &str) {
    match text.bytes().position(|byte| byte == b' ') {
        Some(end) => (&text[..end], &text[end + 1..]),
        None => (text, ""),
    }
}

fn done(words: &str) -> Option<Done> {
    let (word, words) = first_word(words);
    let count = || first_word(words).0.parse().ok();
    Some(match word {
        "created" => Done::Created,
        "dropped" => Done::Dropped,
        "altered" => Done::Altered,
        "inserted" => Done::Inserted,
        "deleted" => Done::Deleted,
        "updated" => Done::Updated,
        "reserved" => Done::Reserved,
        "committed" => Done::Committed,
        "rolled" => Done::RolledBack,
        "savepoint" => Done::Savepoint,
        "rows" => Done::Rows(count()?),
        "table" => Done::Table,
        "bounds" => Done::Bounds,
        "reservations" => Done::Reservations(count()?),
        "statistics" => Done::Statistics,
        _ => return None,
    })
}

fn refusal(text: &str) -> Option<Refusal<'_>> {
    let (number, words) = first_word(text);
    Some(match number.parse().ok()? {
        11 => Refusal::Syntax {
            column: words.strip_prefix("syntax column ")?.parse().ok()?,
        },
        12 => Refusal::Line,
        20 => Refusal::TableExists,
        21 => Refusal::NoSuchTable,
        22 => Refusal::BadDefinition,
        23 => Refusal::BadValue,
        24 => Refusal::BadAssignment,
        25 => Refusal::NotTheKey,
        26 => Refusal::TransactionOpen,
        27 => Refusal::NoSuchConstraint,
        30 => Refusal::RowExists,
        31 => Refusal::NoSuchRow,
        32 => Refusal::RowReserved,
        33 => Refusal::TableReserved,
        34 => Refusal::TableFull,
        35 => Refusal::TooManyTables,
        41 => Refusal::Broken(broken(words)?),
        42 => Refusal::TooManyReservations,
        43 => Refusal::NoSuchSavepoint,
        44 => Refusal::TooManySavepoints,
        45 => Refusal::NoMoreIds,
        51 => Refusal::Memory,
        60 => Refusal::Store,
        number => Refusal::Unknown { number, words },
    })
}

/// Reads `NAME low W limit L` and `NAME high W limit L`.
fn broken(words: &str) -> Option<Broken<'_>> {
    let words: Vec<&str> = words.split(' ').collect();
    let (constraint, side, worst, limit) = match words[..] {
        [constraint, side, worst, "limit", limit] => (constraint, side, worst, limit),
        _ => return None,
    };
    let high = match side {
        "high" => true,
        "low" => false,
        _ => return None,
    };
    Some(Broken {
        constraint,
        high,
        worst,
        limit,
    })
}

#[cfg(test)]
mod tests {
    use super::*;

    #[test]
    fn each_question_knows_the_last_line_of_its_reply() {
        for (question, line) in [
            (Question::Order, "OK created T"),
            (Question::Order, "OK rolled back to A 1"),
            (Question::Order, "ERR 41 C low -1 limit 0"),
            (Question::Rows, "OK rows 0"),
            (Question::Rows, "ERR 21 no such table"),
            (Question::Table, "OK table"),
            (Question::Bounds, "OK bounds"),
            (Question::Bounds, "ERR 31 no such row"),
            (Question::Journal, "OK reservations 0"),
            (Question::Statistics, "OK statistics"),
            (Question::Statistics, "ERR 51 memory"),
        ] {
            assert!(question.is_last_line(line.as_bytes()), "{}", line);
        }
    }

    #[test]
    fn what_a_table_has_ends_no_reply() {
        for (question, line) in [
            (Question::Rows, "OK | A"),
            (Question::Rows, "ERR | OK"),
            (Question::Rows, "'OK rows 3' | 1"),
            (Question::Rows, "-1 | 'ERR 21'"),
            (
                Question::Table,
                "CREATE TABLE OK (ERR NUMBER(5) PRIMARY KEY)",
            ),
            (Question::Bounds, "OK value 1 inf 1 sup 1"),
            (Question::Bounds, "ERR value 1 inf 1 sup 1"),
            (Question::Journal, "3 session 2 OK 'OK reservations 1' N +1"),
            (Question::Statistics, "served 3 granted 1"),
        ] {
            assert!(!question.is_last_line(line.as_bytes()), "{}", line);
        }
    }

    #[test]
    fn reads_what_was_done() {
        assert_eq!(outcome("OK rows 12"), Some(Outcome::Done(Done::Rows(12))));
        let rolled_back = Some(Outcome::Done(Done::RolledBack));
        assert_eq!(outcome("OK rolled back to SEATS 2"), rolled_back);
    }

    #[test]
    fn reads_refusals() {
        let refused = |line: &'static str| match outcome(line).unwrap() {
            Outcome::Refused(refusal) => refusal,
            done => panic!("{:?}", done),
        };
        assert_eq!(
            refused("ERR 41 MINIMUM_BALANCE low -0.05 limit 0.00"),
            Refusal::Broken(Broken {
                constraint: "MINIMUM_BALANCE",
                high: false,
                worst: "-0.05",
                limit: "0.00"
            })
        );
        assert_eq!(
            refused("ERR 11 syntax column 9"),
            Refusal::Syntax { column: 9 }
        );
        assert_eq!(refused("ERR 31 no such row"), Refusal::NoSuchRow);
        let (number, words) = (99, "what is new");
        assert_eq!(
            refused("ERR 99 what is new"),
            Refusal::Unknown { number, words }
        );
        assert!(refused("ERR 25 not the key").is_of_definition());
        assert!(!refused("ERR 26 transaction open").is_of_definition());
    }

    #[test]
    fn what_is_no_last_line_is_none() {
        for line in [
            "",
            "OK",
            "OK ",
            "ERR",
            "ERR x",
            "OK nothing",
            "OK rows",
            "OK rows x",
            "1 | 2",
            "ERR 41 A low 1",
            "ERR 41 A side 1 limit 2",
            "ERR 11 syntax",
            "ERR 123456 x",
        ] {
            assert_eq!(outcome(line), None, "{:?}", line);
        }
    }
}
