//! What a client is told that gets no reservation, in PostgreSQL's words where it has some.

use crate::catalog::Table;
use crate::protocol::Answer;
use crate::server::Refusal;

/// The words of a refusal.
pub struct Words {
    /// The SQLSTATE.
    pub state: &'static str,
    /// What happened.
    pub message: String,
    /// More about it.
    pub detail: String,
    /// A constraint or a column, or nothing.
    pub about: String,
}

/// Returns the words of an answer that is no grant.
pub fn words(table: &Table, answer: Answer, refusal: Option<Refusal>) -> Words {
    let name = &table.name;
    let plain = |state, message: &str, detail: &str| Words {
        state,
        message: message.to_owned(),
        detail: detail.to_owned(),
        about: String::new(),
    };
    match (answer, refusal) {
        (Answer::Refused, Some(Refusal::Check { constraint, worst, limit, .. })) => Words {
            state: "23514",
            message: format!(
                "new row for relation \"{name}\" violates check constraint \"{constraint}\""
            ),
            detail: format!(
                "If this change and some that others have reserved were committed, its sum would be {worst}. The limit is {limit}."
            ),
            about: constraint,
        },
        (Answer::Refused, Some(Refusal::Range(column, type_name))) => Words {
            state: "22003",
            message: match type_name.starts_with("numeric") {
                true => "numeric field overflow".to_owned(),
                false => format!("{type_name} out of range"),
            },
            detail: format!("The column \"{column}\" has the type {type_name}, of at most 15 digits."),
            about: column,
        },
        (Answer::Refused, Some(Refusal::NoSession)) => plain(
            "53300",
            "too many transactions have reservations",
            "No session of the server was free in time. Repeat the transaction.",
        ),
        (Answer::Refused, Some(Refusal::Memory)) => plain(
            "53200",
            "out of memory",
            "The server has no memory for a reservation.",
        ),
        (Answer::Refused | Answer::TooMany, _) => plain(
            "54000",
            "too many open reservations",
            "A transaction has at most 256 reservations, and 64 subtransactions with some. A row has at most 16384.",
        ),
        (Answer::Locked, _) => plain(
            "55P03",
            &format!("could not obtain lock on row in relation \"{name}\""),
            "Another transaction has locked the row, or it cannot be held now. Repeat the transaction.",
        ),
        (Answer::TableStopped, _) => plain(
            "55000",
            &format!("escrowd-proxy has stopped reservations of table \"{name}\""),
            "A change that was committed cannot be moved into its row. escrow.reservations() says why.",
        ),
        _ => plain(
            "55000",
            "escrowd-proxy has stopped reservations",
            "Its log says why.",
        ),
    }
}
