//! How the program answered the statements of a connection, as SHOW STATISTICS tells it.
//!
//! The server counts for each of its sessions. A connection has a session for one transaction, so the gateway counts for
//! the connection, by the server's rules.

use crate::reply::{Done, Outcome, Refusal};
use crate::rows::{self, ResultSet};

/// How often each kind of reply came.
#[derive(Clone, Copy, Debug, Default, PartialEq, Eq)]
pub struct Totals {
    granted: u64,
    broken: u64,
    refused: u64,
    commits: u64,
    rollbacks: u64,
    writes: u64,
    queries: u64,
    /// Tables that were created, dropped and altered, and savepoints.
    others: u64,
}

impl Totals {
    /// Counts a reply.
    pub fn count(&mut self, outcome: Outcome<'_>) {
        let total = match outcome {
            Outcome::Done(done) => match done {
                Done::Reserved => &mut self.granted,
                Done::Committed => &mut self.commits,
                Done::RolledBack => &mut self.rollbacks,
                Done::Inserted | Done::Deleted | Done::Updated => &mut self.writes,
                Done::Rows(_) | Done::Table | Done::Bounds | Done::Reservations(_) => {
                    &mut self.queries
                }
                Done::Created | Done::Dropped | Done::Altered | Done::Savepoint => &mut self.others,
                Done::Statistics => return,
            },
            Outcome::Refused(refusal) => match refusal {
                Refusal::Broken(_) => &mut self.broken,
                // 52 and the others of these say that a statement was not served.
                Refusal::Line | Refusal::Memory | Refusal::Store | Refusal::Unknown { .. } => {
                    return
                }
                _ => &mut self.refused,
            },
        };
        *total += 1;
    }

    /// Returns the result of SHOW STATISTICS.
    pub fn shown(&self) -> ResultSet {
        let counted = [
            self.granted,
            self.broken,
            self.refused,
            self.commits,
            self.rollbacks,
            self.writes,
            self.queries,
        ];
        rows::statistics(self.others + counted.iter().sum::<u64>(), counted)
    }
}

#[cfg(test)]
mod tests {
    use super::*;
    use crate::reply::outcome;
    use crate::wire::backend::Format;

    #[test]
    fn each_reply_is_counted_once_and_by_the_servers_rules() {
        let mut totals = Totals::default();
        for line in [
            "OK reserved 7",
            "OK reserved 8",
            "ERR 41 C low -1 limit 0",
            "ERR 31 no such row",
            "ERR 11 syntax column 1",
            "OK committed 2",
            "OK rolled back 0",
            "OK rolled back to P0 1",
            "OK inserted",
            "OK deleted",
            "OK updated",
            "OK rows 0",
            "OK table",
            "OK bounds",
            "OK reservations 3",
            "OK created T",
            "OK altered T",
            "OK dropped T",
            "OK savepoint P0",
            "OK statistics",
            "ERR 12 line",
            "ERR 51 memory",
            "ERR 52 history",
            "ERR 60 store",
        ] {
            totals.count(outcome(line).unwrap());
        }
        let mut shown = totals.shown();
        assert_eq!(shown.columns()[0].name, "served");
        assert_eq!(shown.columns()[7].name, "queries");
        let mut row = Vec::new();
        assert!(shown.take_row(|_| Format::Text, &mut row).unwrap());
        let mut expected = Vec::new();
        for total in ["19", "2", "1", "2", "1", "2", "3", "4"] {
            expected.extend((total.len() as u32).to_be_bytes());
            expected.extend(total.bytes());
        }
        // In front are the kind of the message, its length, and the number of values.
        assert_eq!(row[7..], expected);
    }
}
