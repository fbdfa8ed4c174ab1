//! The sessions of one database: who has them, who waits for one, and who waits for a reply.
//!
//! The first session is shared. The program serves in it whatever leaves nothing open, of all clients. Each other one
//! is given to a client when it first needs one, and is free again as soon as the program has answered all that was
//! asked in it and holds nothing for it: neither reservations nor savepoints. What it holds, the replies tell.

use std::collections::{BTreeMap, BTreeSet, VecDeque};
use std::time::Instant;

use escrowd_pg::connection::Need;
use escrowd_pg::reply::Question;

/// The room for so many statements is kept.
const KEPT: usize = 1024;

/// So many sessions are left to single statements, so that none of these waits until somebody's transaction ends.
const FOR_STATEMENTS: usize = 3;

/// The sessions that no transaction can have.
const OTHERS: usize = 1 + FOR_STATEMENTS;

/// Returns how many transactions may have a session at a time.
pub fn most_transactions(sessions: u16) -> usize {
    usize::from(sessions).saturating_sub(OTHERS)
}

/// A client: its place, and a number by which it is told from others that have been there.
#[derive(Clone, Copy, Debug, PartialEq, Eq, Hash)]
pub struct ClientId {
    /// The place.
    pub place: usize,
    /// The number.
    pub serial: u64,
}

/// Who asked something.
#[derive(Clone, Copy, Debug, PartialEq, Eq, Hash)]
pub enum Asker {
    /// The gateway, which asks whether the store is open and which tables it has.
    Gateway,
    /// A client.
    Client(ClientId),
    /// The gateway, which rolls back what a client left in a session.
    Leaver,
}

/// A session's number, from 1.
#[derive(Clone, Copy, Debug, PartialEq, Eq, PartialOrd, Ord)]
pub struct Number(u16);

impl Number {
    /// The session that all share.
    pub const SHARED: Number = Number(1);

    /// Returns the first `count` numbers.
    pub fn first(count: u16) -> impl Iterator<Item = Number> {
        (1..=count).map(Number)
    }

    /// Returns the place of the session, from 0.
    pub fn place(self) -> usize {
        usize::from(self.0) - 1
    }

    /// Returns the number.
    pub fn to_u16(self) -> u16 {
        self.0
    }
}

/// A statement that a reply answers.
#[derive(Clone, Copy, Debug, PartialEq, Eq)]
pub struct Asked {
    /// Who asked it.
    pub asker: Asker,
    /// Its session.
    pub session: Number,
    /// What it asks for.
    pub question: Question,
    /// When it was asked.
    pub since: Instant,
    /// Whether it is a SELECT of a whole table.
    pub is_of_whole_table: bool,
}

/// A place in the line of those who wait for a session.
#[derive(Clone, Copy, Debug, PartialEq, Eq)]
pub struct Ticket {
    need: Need,
    number: u64,
}

/// Who has a session.
#[derive(Clone, Copy, Debug, PartialEq, Eq)]
enum Holder {
    Nobody,
    /// A client, for this.
    Client(Need),
    /// A client that left, for this. What the session holds is rolled back, and then it is free.
    Leaving(Need),
}

#[derive(Clone, Copy, Debug)]
struct Session {
    holder: Holder,
    /// How many statements of it have no reply.
    unanswered: usize,
    /// Whether the program holds reservations or savepoints for it.
    is_open: bool,
}

const FREE: Session = Session {
    holder: Holder::Nobody,
    unanswered: 0,
    is_open: false,
};

/// All sessions of a database, the line of those who wait for one, and the queue of the statements without a reply.
pub struct Sessions {
    sessions: Vec<Session>,
    free: BTreeSet<Number>,
    asked: VecDeque<Asked>,
    /// How many transactions have a session, those that their clients left included.
    transactions: usize,
    /// Who waits, for a transaction and for a statement, by the numbers of their tickets.
    line: [BTreeMap<u64, ClientId>; 2],
    next_ticket: u64,
}

impl Sessions {
    /// Returns so many sessions, all of them free but the shared one.
    pub fn new(count: u16) -> Sessions {
        Sessions {
            sessions: vec![FREE; count.into()],
            free: Number::first(count).skip(1).collect(),
            asked: VecDeque::new(),
            transactions: 0,
            line: Default::default(),
            next_ticket: 0,
        }
    }

    /// Returns how many there are.
    pub fn count(&self) -> u16 {
        self.sessions.len() as u16
    }

    /// Gives a session to a client, if one is free for what it needs and nobody is in line before it.
    ///
    /// # Errors
    ///
    /// Fails with its place in the line if it has to wait. [`Sessions::next_in_line`] gives it one.
    pub fn take(&mut self, client: ClientId, need: Need) -> Result<Number, Ticket> {
        if self.line[need as usize].is_empty() {
            if let Some(number) = self.take_free(need) {
                return Ok(number);
            }
        }
        let ticket = Ticket {
            need,
            number: self.next_ticket,
        };
        self.next_ticket += 1;
        self.line[need as usize].insert(ticket.number, client);
        Err(ticket)
    }

    /// Takes the first session that is free for a need.
    fn take_free(&mut self, need: Need) -> Option<Number> {
        if need == Need::Transaction && self.transactions >= most_transactions(self.count()) {
            return None;
        }
        let number = *self.free.iter().next()?;
        self.free.remove(&number);
        if need == Need::Transaction {
            self.transactions += 1;
        }
        self.sessions[number.place()].holder = Holder::Client(need);
        Some(number)
    }

    /// Gives a session to whoever waits for one and came first, if there is one for it.
    pub fn next_in_line(&mut self) -> Option<(ClientId, Number)> {
        let mut firsts: Vec<_> = [Need::Transaction, Need::Statement]
            .into_iter()
            .filter_map(|need| {
                let (&number, &client) = self.line[need as usize].iter().next()?;
                Some((number, need, client))
            })
            .collect();
        firsts.sort_unstable_by_key(|&(number, ..)| number);
        firsts.into_iter().find_map(|(ticket, need, client)| {
            let session = self.take_free(need)?;
            self.line[need as usize].remove(&ticket);
            Some((client, session))
        })
    }

    /// Takes somebody out of the line.
    pub fn quit_line(&mut self, ticket: Ticket) {
        self.line[ticket.need as usize].remove(&ticket.number);
    }

    /// Returns how many wait for a session.
    pub fn waiting(&self) -> usize {
        self.line.iter().map(BTreeMap::len).sum()
    }

    /// Returns how many sessions clients have, or had and are not free yet.
    pub fn taken(&self) -> usize {
        self.sessions.len() - 1 - self.free.len()
    }

    /// Notes that a statement of a session will be sent.
    pub fn expect(&mut self, session: Number) {
        self.sessions[session.place()].unanswered += 1;
    }

    /// Notes that a statement of a session, which was expected, won't be sent.
    pub fn forget(&mut self, session: Number) {
        self.sessions[session.place()].unanswered -= 1;
    }

    /// Notes that a statement, which was expected, is sent.
    pub fn ask(&mut self, asked: Asked) {
        self.asked.push_back(asked);
    }

    /// Returns the statement that the next reply answers.
    pub fn next(&self) -> Option<Asked> {
        self.asked.front().copied()
    }

    /// Notes that the oldest statement is answered by a reply that ends with this line. Returns whether its client has
    /// no session any more for that.
    pub fn answered(&mut self, line: &[u8]) -> bool {
        let asked = match self.asked.pop_front() {
            Some(asked) => asked,
            None => return false,
        };
        // What a burst of statements needed is given back.
        if self.asked.is_empty() {
            self.asked.shrink_to(KEPT);
        }
        let session = &mut self.sessions[asked.session.place()];
        session.unanswered -= 1;
        session.is_open = opens_or_ends(line).unwrap_or(session.is_open);
        debug_assert!(asked.session != Number::SHARED || !session.is_open);
        let is_done = matches!(session.holder, Holder::Client(_)) && is_idle(session);
        if is_done {
            self.free(asked.session);
        }
        is_done
    }

    /// Notes that the client of a session left. Returns whether the session is free at once, since nothing was asked
    /// there. Otherwise it is free when it is rolled back.
    pub fn leave(&mut self, number: Number) -> bool {
        let session = &mut self.sessions[number.place()];
        let is_free = is_idle(session);
        if is_free {
            self.free(number);
        } else if let Holder::Client(need) = session.holder {
            session.holder = Holder::Leaving(need);
        }
        is_free
    }

    /// Takes back a session in which nothing is open or unanswered. Nobody has it now.
    pub fn free(&mut self, number: Number) {
        let session = &mut self.sessions[number.place()];
        if !is_idle(session) {
            return;
        }
        match session.holder {
            Holder::Client(need) | Holder::Leaving(need) => {
                *session = FREE;
                self.free.insert(number);
                if need == Need::Transaction {
                    self.transactions -= 1;
                }
            }
            Holder::Nobody => {}
        }
    }
}

/// Returns whether all that was asked in a session is answered, and the program holds nothing for it.
fn is_idle(session: &Session) -> bool {
    session.unanswered == 0 && !session.is_open
}

/// Returns what the last line of a reply tells of its session: whether the program holds something for it now. None: that
/// is as it was.
fn opens_or_ends(line: &[u8]) -> Option<bool> {
    let begins = |words: &[u8]| line.starts_with(words);
    if begins(b"OK reserved ") || begins(b"OK savepoint ") {
        Some(true)
    } else if begins(b"OK rolled back to ") {
        None
    } else if begins(b"OK committed ") || begins(b"OK rolled back ") {
        Some(false)
    } else {
        None
    }
}

#[cfg(test)]
mod tests {
    use super::*;
    use proptest::prelude::*;

    /// The sessions of the tests: so many transactions have one at a time.
    const COUNT: u16 = 8;
    const TRANSACTIONS: usize = COUNT as usize - OTHERS;
    const UPDATE: &[u8] = b"UPDATE";
    const COMMIT: &[u8] = b"COMMIT";
    const ROLLBACK: &[u8] = b"ROLLBACK";
    const SAVEPOINT: &[u8] = b"SAVEPOINT P0";

    fn client(place: usize) -> ClientId {
        let serial = place as u64;
        ClientId { place, serial }
    }

    /// Sessions with a program that answers when it is told to, and keeps what each session holds.
    struct Database {
        sessions: Sessions,
        lines: VecDeque<&'static [u8]>,
        open: BTreeMap<Number, usize>,
    }

    impl Database {
        fn new() -> Database {
            Database {
                sessions: Sessions::new(COUNT),
                lines: VecDeque::new(),
                open: BTreeMap::new(),
            }
        }

        fn ask(&mut self, asker: Asker, session: Number, line: &'static [u8]) {
            self.sessions.expect(session);
            self.sessions.ask(Asked {
                asker,
                session,
                question: Question::Order,
                since: Instant::now(),
                is_of_whole_table: false,
            });
            self.lines.push_back(line);
        }

        /// Lets a client leave, as the program's part does.
        fn leave(&mut self, session: Number) {
            if !self.sessions.leave(session) {
                self.ask(Asker::Leaver, session, ROLLBACK);
            }
        }

        /// Answers the oldest line, which is refused if it is told so. Returns who asked it in which session, and whether
        /// its client has none any more.
        fn answer(&mut self, is_refused: bool) -> Option<(Asker, Number, bool)> {
            let asked = self.sessions.next()?;
            let line = self.lines.pop_front()?;
            let open = self.open.entry(asked.session).or_default();
            let reply = match line {
                _ if is_refused => "ERR 51 memory".to_owned(),
                UPDATE | SAVEPOINT => {
                    *open += 1;
                    match line {
                        UPDATE => format!("OK reserved {open}"),
                        _ => "OK savepoint P0".to_owned(),
                    }
                }
                COMMIT => format!("OK committed {}", std::mem::take(open)),
                _ => format!("OK rolled back {}", std::mem::take(open)),
            };
            let is_freed = self.sessions.answered(reply.as_bytes());
            if asked.asker == Asker::Leaver {
                match is_refused {
                    true => self.ask(Asker::Leaver, asked.session, ROLLBACK),
                    false => self.sessions.free(asked.session),
                }
            }
            Some((asked.asker, asked.session, is_freed))
        }

        /// Returns whether the program holds nothing in a session, and has answered all that was asked there.
        fn is_clean(&self, session: Number) -> bool {
            let is_unanswered = self
                .sessions
                .asked
                .iter()
                .any(|asked| asked.session == session);
            self.open.get(&session).map_or(true, |open| *open == 0) && !is_unanswered
        }

        fn answer_all(&mut self) {
            while self.answer(false).is_some() {}
        }
    }

    #[test]
    fn the_first_free_session_is_given_and_never_the_shared_one() {
        let mut sessions = Sessions::new(COUNT);
        let places: Vec<_> = (0..TRANSACTIONS)
            .map(|place| sessions.take(client(place), Need::Transaction).unwrap())
            .map(Number::to_u16)
            .collect();
        assert_eq!(places, [2, 3, 4, 5]);
        assert!(sessions.leave(Number(3)));
        assert_eq!(sessions.take(client(9), Need::Transaction), Ok(Number(3)));
        assert_eq!((sessions.taken(), sessions.waiting()), (TRANSACTIONS, 0));
    }

    #[test]
    fn a_statement_finds_a_session_beside_all_transactions() {
        let mut it = Database::new();
        for place in 0..TRANSACTIONS {
            let session = it.sessions.take(client(place), Need::Transaction).unwrap();
            it.ask(Asker::Client(client(place)), session, UPDATE);
        }
        it.answer_all();
        let late = it.sessions.take(client(10), Need::Transaction);
        assert!(late.is_err(), "{late:?}");
        for place in 20..20 + FOR_STATEMENTS {
            let session = it.sessions.take(client(place), Need::Statement).unwrap();
            it.ask(Asker::Client(client(place)), session, UPDATE);
            it.ask(Asker::Client(client(place)), session, COMMIT);
        }
        assert!(it.sessions.take(client(30), Need::Statement).is_err());
        assert_eq!(it.sessions.waiting(), 2);
        assert_eq!(it.sessions.next_in_line(), None);
        // The first statement is done. Its session is for a statement again, though a transaction came first.
        it.answer(false);
        assert_eq!(
            it.sessions.next_in_line(),
            None,
            "its COMMIT is not answered"
        );
        let (_, session, is_freed) = it.answer(false).unwrap();
        assert!(is_freed);
        assert_eq!(it.sessions.next_in_line(), Some((client(30), session)));
        assert_eq!(it.sessions.next_in_line(), None);
        it.answer_all();
        // A transaction ends.
        it.ask(Asker::Client(client(2)), Number(4), COMMIT);
        assert_eq!(it.sessions.next_in_line(), None);
        assert!(it.answer(false).unwrap().2);
        let (next, _) = it.sessions.next_in_line().unwrap();
        assert_eq!((next, it.sessions.waiting()), (client(10), 0));
    }

    #[test]
    fn those_in_line_come_in_their_order_and_may_quit_it() {
        let mut it = Sessions::new(COUNT);
        let taken: Vec<_> = (0..TRANSACTIONS)
            .map(|place| it.take(client(place), Need::Transaction).unwrap())
            .collect();
        let tickets: Vec<_> = (10..14)
            .map(|place| it.take(client(place), Need::Transaction).unwrap_err())
            .collect();
        it.quit_line(tickets[1]);
        it.quit_line(tickets[1]);
        for session in &taken[..2] {
            assert!(it.leave(*session));
        }
        // One that comes now may not pass them.
        assert!(it.take(client(14), Need::Transaction).is_err());
        let given: Vec<_> = std::iter::from_fn(|| it.next_in_line())
            .map(|(client, _)| client.place)
            .collect();
        assert_eq!(given, [10, 12]);
        assert_eq!(it.waiting(), 2);
    }

    #[test]
    fn a_session_stays_with_its_client_while_something_is_open_or_unanswered() {
        let mut it = Database::new();
        let me = Asker::Client(client(1));
        let session = it.sessions.take(client(1), Need::Transaction).unwrap();
        let mut freed = |lines: &[&'static [u8]], refused: &[usize]| -> Vec<bool> {
            lines.iter().for_each(|line| it.ask(me, session, line));
            (0..lines.len())
                .map(|place| it.answer(refused.contains(&place)).unwrap().2)
                .collect()
        };
        assert_eq!(freed(&[UPDATE, SAVEPOINT], &[]), [false, false]);
        assert_eq!(freed(&[UPDATE, COMMIT], &[0, 1]), [false, false]);
        assert_eq!(
            freed(&[ROLLBACK, UPDATE, COMMIT], &[]),
            [false, false, true]
        );
        // An UPDATE that is refused leaves nothing open.
        assert_eq!(it.sessions.take(client(1), Need::Transaction), Ok(session));
        it.ask(me, session, UPDATE);
        assert!(it.answer(true).unwrap().2);
        assert_eq!(it.sessions.taken(), 0);
    }

    #[test]
    fn back_to_a_savepoint_is_no_end() {
        for (line, told) in [
            ("OK reserved 1", Some(true)),
            ("OK savepoint P0", Some(true)),
            ("OK committed 1", Some(false)),
            ("OK rolled back 0", Some(false)),
            ("OK rolled back to P0 2", None),
            ("ERR 41 C low -1 limit 0", None),
            ("ERR 51 memory", None),
            ("OK inserted", None),
        ] {
            assert_eq!(opens_or_ends(line.as_bytes()), told, "{line}");
        }
    }

    #[test]
    fn a_session_that_was_left_is_free_when_it_is_rolled_back() {
        let mut it = Database::new();
        let session = it.sessions.take(client(1), Need::Transaction).unwrap();
        it.ask(Asker::Client(client(1)), session, UPDATE);
        it.leave(session);
        assert!(!it.answer(false).unwrap().2);
        for is_refused in [true, true, false] {
            assert_eq!(it.sessions.taken(), 1, "the ROLLBACK has no reply");
            it.answer(is_refused);
        }
        assert_eq!(it.sessions.taken(), 0);
    }

    proptest! {
        #![proptest_config(ProptestConfig::with_cases(400))]
        /// Clients that ask, wait, are answered and leave in any order: no session has two of them, none is given while
        /// the program holds something there or has not answered, and all are free in the end.
        #[test]
        fn no_session_is_given_twice_or_lost(steps in prop::collection::vec((0_usize..14, 0_u8..9), 0..300)) {
            let mut it = Database::new();
            let mut has: BTreeMap<usize, Number> = BTreeMap::new();
            let mut waits: BTreeMap<usize, Ticket> = BTreeMap::new();
            for (place, action) in steps {
                match action {
                    0..=3 => {
                        let need = if action == 3 { Need::Statement } else { Need::Transaction };
                        if waits.contains_key(&place) {
                            continue;
                        }
                        let session = match has.get(&place) {
                            Some(session) => *session,
                            None => match it.sessions.take(client(place), need) {
                                Ok(session) => {
                                    prop_assert!(it.is_clean(session));
                                    has.insert(place, session);
                                    session
                                }
                                Err(ticket) => {
                                    waits.insert(place, ticket);
                                    continue;
                                }
                            },
                        };
                        let lines: &[&[u8]] = match action {
                            0 => &[UPDATE],
                            1 => &[SAVEPOINT],
                            2 => &[ROLLBACK],
                            _ => &[UPDATE, COMMIT],
                        };
                        for line in lines {
                            it.ask(Asker::Client(client(place)), session, line);
                        }
                    }
                    4 => {
                        if let Some(ticket) = waits.remove(&place) {
                            it.sessions.quit_line(ticket);
                        }
                        if let Some(session) = has.remove(&place) {
                            it.leave(session);
                        }
                    }
                    _ => {
                        if let Some((Asker::Client(asker), session, true)) = it.answer(action == 5) {
                            prop_assert_eq!(has.remove(&asker.place), Some(session));
                        }
                    }
                }
                while let Some((next, session)) = it.sessions.next_in_line() {
                    prop_assert!(waits.remove(&next.place).is_some());
                    prop_assert!(it.is_clean(session));
                    prop_assert!(has.insert(next.place, session).is_none());
                }
                let sessions: BTreeSet<_> = has.values().collect();
                prop_assert_eq!(sessions.len(), has.len());
                prop_assert!(it.sessions.transactions <= TRANSACTIONS);
                prop_assert_eq!(it.sessions.waiting(), waits.len());
            }
            for ticket in waits.into_values() {
                it.sessions.quit_line(ticket);
            }
            for session in has.into_values() {
                it.leave(session);
            }
            it.answer_all();
            prop_assert_eq!((it.sessions.taken(), it.sessions.transactions), (0, 0));
            prop_assert!(it.open.values().all(|open| *open == 0));
        }
    }
}
