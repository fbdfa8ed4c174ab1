//! SELECTs of whole tables, which take turns with all other statements.
//!
//! The program serves one statement after another. One SELECT of a large table takes it as long as thousands of other
//! statements. So no more than one of these is on its way at a time, and behind it the others have the program for
//! themselves, if one of them had to wait for it: for as long as it took, or 25 times as long if that is felt.
//!
//! Each statement passes [`LongSelects::admit`]. If its asker has a statement that waits, the new one waits behind it,
//! whatever their sessions are. So the statements of a client reach the program in the order in which they were asked.

use std::collections::{HashMap, HashSet, VecDeque};
use std::time::{Duration, Instant};

use escrowd_pg::reply::Question;

use super::sessions::{Asked, Asker, Number};

/// A result of more rows than this is long: these take the program about a millisecond.
const LONG: u64 = 250;

/// Who waits so long for a SELECT feels it.
const FELT: Duration = Duration::from_millis(20);

/// How many times as long others have the program for themselves behind a SELECT that was felt. So of a hundred of their
/// statements about one meets such a SELECT, if they come every ten milliseconds.
const OTHERS: u32 = 25;

/// How long others have the program for themselves at the most.
const MOST_PAUSE: Duration = Duration::from_secs(4);

/// How many statements are known by their text. Beyond that all are forgotten, and learnt again.
const MOST_KNOWN: usize = 256;

/// SELECTs of whole tables that wait, what waits behind them, and those that are on their way.
#[derive(Default)]
pub struct LongSelects {
    /// Whether the results of statements were long when they were asked last.
    known: HashMap<Vec<u8>, bool>,
    /// Those that the program was asked, in order.
    sent: VecDeque<Sent>,
    /// The statements that may not be asked yet, in the order in which they came.
    waiting: VecDeque<Waiting>,
    /// Until when others have the program for themselves.
    pause: Option<Instant>,
}

struct Sent {
    statement: Vec<u8>,
    since: Instant,
    /// Whether no other one may be asked before it is answered.
    is_alone: bool,
}

/// A statement that waits until it may be asked.
#[derive(Debug, PartialEq, Eq)]
pub struct Waiting {
    /// Who asked it, in which session, and since when it waits.
    pub asked: Asked,
    /// Itself.
    pub statement: Vec<u8>,
}

/// Returns whether a statement reads a whole table.
pub fn is_of_whole_table(question: Question, statement: &[u8]) -> bool {
    const WHERE: &[u8] = b" WHERE ";
    question == Question::Rows && !statement.windows(WHERE.len()).any(|words| words == WHERE)
}

impl LongSelects {
    /// Returns whether a statement may be sent now, at the time when it is asked. If not, it waits, and
    /// [`LongSelects::next`] returns it when it may be sent.
    pub fn admit(&mut self, asked: Asked, statement: &[u8]) -> bool {
        let takes_turns = self.takes_turns(asked, statement);
        let is_behind = self.waiting.iter().any(|it| {
            it.asked.asker == asked.asker
                || takes_turns && self.takes_turns(it.asked, &it.statement)
        });
        if is_behind || takes_turns && self.is_shut(asked.since) {
            self.waiting.push_back(Waiting {
                asked,
                statement: statement.to_vec(),
            });
            return false;
        }
        if asked.is_of_whole_table {
            self.send(statement, asked.since);
        }
        true
    }

    /// Takes the next statement that waited and may be sent now.
    pub fn next(&mut self, now: Instant) -> Option<Waiting> {
        let is_shut = self.is_shut(now);
        let mut askers = HashSet::new();
        let place = self.waiting.iter().position(|it| {
            let is_first = askers.insert(it.asked.asker);
            is_first && !(is_shut && self.takes_turns(it.asked, &it.statement))
        })?;
        let found = self.waiting.remove(place)?;
        if found.asked.is_of_whole_table {
            self.send(&found.statement, now);
        }
        Some(found)
    }

    /// Notes that the program is sent a SELECT of a whole table.
    fn send(&mut self, statement: &[u8], now: Instant) {
        self.sent.push_back(Sent {
            statement: statement.to_vec(),
            since: now,
            is_alone: self.is_perhaps_long(statement),
        });
    }

    /// Notes that the oldest SELECT of a whole table that was asked is answered, with so many rows if it wasn't
    /// refused. `others_wait`: for other statements.
    pub fn answered(&mut self, rows: Option<u64>, others_wait: bool, now: Instant) {
        let (sent, rows) = match (self.sent.pop_front(), rows) {
            (Some(sent), Some(rows)) => (sent, rows),
            _ => return,
        };
        let is_long = rows > LONG;
        if is_long && others_wait {
            let took = now.duration_since(sent.since);
            let times = if took > FELT { OTHERS } else { 1 };
            self.pause = Some(now + took.saturating_mul(times).min(MOST_PAUSE));
        }
        if self.known.len() == MOST_KNOWN {
            self.known.clear();
        }
        self.known.insert(sent.statement, is_long);
    }

    /// Returns when the next one may be asked, if one waits for that time alone.
    pub fn deadline(&self) -> Option<Instant> {
        self.pause
            .filter(|_| !self.waiting.is_empty() && !self.is_busy())
    }

    /// Forgets what an asker waits for, since it left. Returns the sessions of these statements.
    pub fn leave(&mut self, asker: Asker) -> Vec<Number> {
        let of_asker = self.waiting.iter().filter(|it| it.asked.asker == asker);
        let sessions = of_asker.map(|it| it.asked.session).collect();
        self.waiting.retain(|it| it.asked.asker != asker);
        sessions
    }

    /// Returns whether a statement may be sent only when no other such statement is on its way.
    fn takes_turns(&self, asked: Asked, statement: &[u8]) -> bool {
        asked.is_of_whole_table && self.is_perhaps_long(statement)
    }

    /// Returns whether a result is long, or may be.
    fn is_perhaps_long(&self, statement: &[u8]) -> bool {
        self.known.get(statement).copied().unwrap_or(true)
    }

    /// Returns whether those that take turns have to wait.
    fn is_shut(&self, now: Instant) -> bool {
        self.is_busy() || matches!(self.pause, Some(end) if now < end)
    }

    fn is_busy(&self) -> bool {
        self.sent.iter().any(|sent| sent.is_alone)
    }
}

#[cfg(test)]
mod tests {
    use super::super::sessions::ClientId;
    use super::*;

    const BIG: &[u8] = b"SELECT * FROM BIG";
    const SMALL: &[u8] = b"SELECT * FROM SMALL";

    /// Clients of one database, and the SELECTs that take turns.
    struct Turns {
        long: LongSelects,
        now: Instant,
    }

    fn client(place: usize) -> Asker {
        let serial = 7 + place as u64;
        Asker::Client(ClientId { place, serial })
    }

    impl Turns {
        fn new() -> Turns {
            Turns {
                long: LongSelects::default(),
                now: Instant::now(),
            }
        }

        fn admit(&mut self, place: usize, question: Question, statement: &[u8]) -> bool {
            let asked = Asked {
                asker: client(place),
                session: Number::SHARED,
                question,
                since: self.now,
                is_of_whole_table: is_of_whole_table(question, statement),
            };
            self.long.admit(asked, statement)
        }

        /// Asks a SELECT of the client at this place. Returns whether the program gets it now.
        fn select(&mut self, place: usize, statement: &[u8]) -> bool {
            self.admit(place, Question::Rows, statement)
        }

        /// Asks another statement.
        fn order(&mut self, place: usize, statement: &[u8]) -> bool {
            self.admit(place, Question::Order, statement)
        }

        /// Answers the oldest SELECT of a whole table with so many rows.
        fn answer(&mut self, rows: Option<u64>, others_wait: bool) {
            self.long.answered(rows, others_wait, self.now);
        }

        /// Returns what the program gets now of what waited: places of clients, and statements.
        fn asked_now(&mut self) -> Vec<(usize, Vec<u8>)> {
            std::iter::from_fn(|| self.long.next(self.now))
                .map(|it| match it.asked.asker {
                    Asker::Client(client) => (client.place, it.statement),
                    asker => panic!("{asker:?}"),
                })
                .collect()
        }
    }

    #[test]
    fn a_select_of_one_row_takes_no_turns() {
        assert!(is_of_whole_table(Question::Rows, BIG));
        assert!(!is_of_whole_table(
            Question::Rows,
            b"SELECT * FROM BIG WHERE ID = 1"
        ));
        assert!(!is_of_whole_table(Question::Order, b"COMMIT"));
    }

    #[test]
    fn long_ones_are_asked_one_by_one_and_others_have_time() {
        let mut turns = Turns::new();
        assert!(turns.select(0, BIG));
        assert!(!turns.select(1, BIG));
        assert!(!turns.select(2, SMALL), "it may be long");
        assert!(turns.asked_now().is_empty() && turns.long.deadline().is_none());
        let begin = turns.now;
        turns.now += 2 * FELT;
        turns.answer(Some(LONG + 1), true);
        assert!(turns.asked_now().is_empty());
        let end = begin + 2 * FELT * (1 + OTHERS);
        assert_eq!(turns.long.deadline(), Some(end));
        turns.now = end;
        assert_eq!(turns.asked_now(), [(1, BIG.to_vec())]);
        // A client that left waits no more.
        assert_eq!(turns.long.leave(client(2)), [Number::SHARED]);
        assert!(turns.long.leave(client(2)).is_empty());
        turns.answer(Some(LONG + 1), false);
        assert!(turns.asked_now().is_empty());
        // One that nobody felt is followed by as much time as it took.
        assert!(turns.select(3, BIG));
        let begin = turns.now;
        turns.now += FELT;
        turns.answer(Some(LONG + 1), true);
        assert!(!turns.select(3, BIG));
        assert_eq!(turns.long.deadline(), Some(begin + 2 * FELT));
    }

    #[test]
    fn there_is_no_pause_if_nobody_waits() {
        let mut turns = Turns::new();
        assert!(turns.select(0, BIG));
        turns.now += Duration::from_secs(1);
        turns.answer(Some(LONG + 1), false);
        assert!(turns.select(0, BIG));
    }

    #[test]
    fn short_ones_never_wait() {
        let mut turns = Turns::new();
        assert!(turns.select(0, SMALL));
        turns.answer(Some(LONG), true);
        assert!(turns.select(1, BIG));
        assert!(turns.select(0, SMALL) && !turns.select(2, BIG));
        // BIG is answered, and then SMALL, which has grown since.
        turns.answer(None, true);
        turns.answer(Some(LONG + 1), false);
        assert!(!turns.select(3, b"SELECT * FROM NEW"));
        assert_eq!(turns.asked_now(), [(2, BIG.to_vec())]);
        assert!(!turns.select(0, SMALL));
    }

    #[test]
    fn what_a_client_asks_stays_behind_its_select_that_waits() {
        let mut turns = Turns::new();
        assert!(turns.select(0, SMALL));
        turns.answer(Some(1), false);
        assert!(turns.select(0, BIG));
        // Two clients wait, each with lines behind. A third one, that has nothing waiting, passes them.
        assert!(!turns.select(1, BIG));
        assert!(!turns.order(1, b"COMMIT"));
        assert!(!turns.select(2, BIG));
        assert!(
            !turns.select(1, SMALL),
            "it is short, and behind its client's"
        );
        assert!(!turns.order(2, b"ROLLBACK"));
        assert!(!turns.select(1, BIG), "a second long one");
        assert!(!turns.order(1, b"BEGIN"));
        assert!(turns.order(0, b"COMMIT") && turns.select(0, SMALL));
        assert!(turns.asked_now().is_empty());
        // Each turn lets one long SELECT pass, and what its client asked behind it up to the next one.
        turns.answer(Some(LONG + 1), false);
        turns.answer(Some(1), false);
        assert_eq!(
            turns.asked_now(),
            [
                (1, BIG.to_vec()),
                (1, b"COMMIT".to_vec()),
                (1, SMALL.to_vec())
            ]
        );
        turns.answer(Some(LONG + 1), false);
        assert_eq!(
            turns.asked_now(),
            [(2, BIG.to_vec()), (2, b"ROLLBACK".to_vec())]
        );
        turns.answer(Some(1), false);
        turns.answer(Some(LONG + 1), false);
        assert_eq!(
            turns.asked_now(),
            [(1, BIG.to_vec()), (1, b"BEGIN".to_vec())]
        );
        assert!(turns.order(1, b"COMMIT"), "nothing of its client waits");
    }
}
