//! The program `escrowd serve`, in memory, as a child on pipes: its sessions, its tables, and what it was asked.
//!
//! It serves lines in their order, so a reply answers the oldest line that has none. A session is given to a client's
//! transaction at its first reservation, and free again as soon as its end is on the way.

use std::collections::hash_map::Entry;
use std::collections::{BTreeMap, BTreeSet, HashMap, VecDeque};
use std::sync::Arc;
use std::time::{Duration, Instant};

use escrowd_pg::limits::{RESERVATIONS, ROWS, TABLES};
use escrowd_pg::reply::{self, Broken, Done, Outcome};

use crate::catalog::{Column, Table};
use crate::protocol::{Connection, Line, Told};
use crate::update::{Change, Key};

/// How long a transaction waits for a session, since it may hold locks (rule 21).
pub const SEAT_WAIT: Duration = Duration::from_secs(1);

/// How many rows of a full table are left at once.
const ROOM: usize = ROWS / 64;

/// The most bytes of lines that wait for a question.
const MOST_UNSENT: usize = 65_536;

/// The session that makes tables and rows.
const OWN: u16 = 1;

/// How many sessions the server has. So one transaction less may have reservations at a time.
pub const SESSIONS: u16 = 4_096;

/// What the server was asked.
#[derive(Clone, Debug, PartialEq, Eq)]
enum Asked {
    /// A change of a row of the table of this number.
    Grant(Connection, i32),
    Told(Told),
    /// What is reserved in another session than before, which it cannot refuse.
    Again,
    Create(i32),
    Insert(Key),
    Delete(Key),
    Drop(i32),
}

/// Why a reservation is refused.
#[derive(Clone, Debug, PartialEq, Eq)]
pub enum Refusal {
    /// A CHECK of the table.
    Check {
        /// Its name.
        constraint: String,
        /// Which of the table's conditions it is.
        place: usize,
        /// Whether its sum would be too high, otherwise too low.
        is_high: bool,
        /// What its sum would come to.
        worst: String,
        /// Its limit.
        limit: String,
    },
    /// The type of a column: its name, and the type's.
    Range(String, String),
    /// The session or the row has too many reservations.
    TooMany,
    /// No session was free in time.
    NoSession,
    /// Want of memory.
    Memory,
}

/// What a line of the server means.
#[derive(Clone, Debug, PartialEq, Eq)]
pub enum Said {
    /// It has granted.
    Granted(Connection),
    /// It has refused.
    Refused(Connection, Refusal),
    /// It has the row.
    Inserted(Key),
    /// It cannot have the row, for this reason.
    NotInserted(Key, String),
    /// Nothing that anybody waits for.
    Nothing,
    /// It has refused what it must do, or answers what nobody asked.
    Broke(String),
}

/// A table of the server.
struct Made {
    table: Arc<Table>,
    /// The row's number of each key, and when it was used last.
    rows: HashMap<Arc<str>, (u32, u64)>,
    next: u32,
    free: Vec<u32>,
    is_refused: bool,
}

/// What a session keeps of holds.
type Bin = Vec<Kept>;

/// A line of a hold.
struct Kept {
    line: Line,
    key: Key,
    /// What reserves it.
    statement: String,
}

/// A row that is to be reserved, and that it does not have.
#[derive(Clone, Debug, PartialEq, Eq, thiserror::Error)]
#[error("the server lacks what a hold needs (table {}, key {})", .0.table, .0.text)]
pub struct Lacks(pub Key);

/// A transaction that waits for a session.
struct Waiting {
    connection: Connection,
    lines: Vec<(Asked, String)>,
    since: Instant,
}

/// What is known of the server, and what it is to be sent.
pub struct Server {
    asked: VecDeque<(u16, Asked)>,
    /// Free sessions.
    free: Vec<u16>,
    seats: HashMap<Connection, u16>,
    waiting: VecDeque<Waiting>,
    /// The sessions that keep lines of holds.
    bins: BTreeMap<u16, Bin>,
    /// The bins by how many lines they have.
    sizes: BTreeSet<(usize, u16)>,
    /// In which bin each line is.
    places: HashMap<Line, u16>,
    /// How many bins there are before holds share one, if there is room.
    most_bins: usize,
    tables: HashMap<i32, Made>,
    /// Counts what is asked, as a clock of rows.
    clock: u64,
    /// Lines that were not taken yet.
    lines: Vec<u8>,
    /// Whether somebody waits for the reply to one of them.
    are_awaited: bool,
}

impl Default for Server {
    fn default() -> Self {
        Server::new()
    }
}

impl Server {
    /// Returns a server without tables.
    pub fn new() -> Server {
        Server::of(SESSIONS)
    }

    /// Returns one of so many sessions. Half of them keep holds before these share one.
    fn of(sessions: u16) -> Server {
        Server {
            asked: VecDeque::new(),
            free: (OWN + 1..=sessions).rev().collect(),
            seats: HashMap::new(),
            waiting: VecDeque::new(),
            bins: BTreeMap::new(),
            sizes: BTreeSet::new(),
            places: HashMap::new(),
            most_bins: usize::from(sessions / 2),
            tables: HashMap::new(),
            clock: 0,
            lines: Vec::new(),
            are_awaited: false,
        }
    }

    /// Takes the lines that are to be written: none until somebody waits for a reply to one of them. So ends of transactions
    /// come to the server together with the next question, still in front of it.
    pub fn take_lines(&mut self) -> Vec<u8> {
        if !self.are_awaited && self.lines.len() < MOST_UNSENT {
            return Vec::new();
        }
        self.are_awaited = false;
        std::mem::take(&mut self.lines)
    }

    /// Returns how many rows it has.
    pub fn rows(&self) -> usize {
        self.tables.values().map(|made| made.rows.len()).sum()
    }

    fn send(&mut self, session: u16, asked: Asked, statement: &str) {
        self.are_awaited |= !matches!(asked, Asked::Told(_));
        self.asked.push_back((session, asked));
        let line = format!("bank.{}: {}\n", session, statement);
        self.lines.extend_from_slice(line.as_bytes());
    }

    /// Tells a transaction's session something. One without a session holds nothing.
    pub fn tell(&mut self, connection: Connection, told: Told) {
        let statement = match told {
            Told::Mark(mark) => format!("SAVEPOINT M{}", mark.0),
            Told::BackTo(mark) => format!("ROLLBACK TO M{}", mark.0),
            Told::Commit => "COMMIT".to_owned(),
            Told::Rollback => "ROLLBACK".to_owned(),
        };
        let asked = Asked::Told(told);
        match (self.seats.get(&connection), told) {
            (Some(&seat), _) => {
                self.send(seat, asked, &statement);
                if matches!(told, Told::Commit | Told::Rollback) {
                    self.seats.remove(&connection);
                    self.freed(seat);
                }
            }
            (None, Told::Mark(_)) => self.begin(connection, asked, statement),
            (None, _) => {}
        }
    }

    /// Gives a session that is free to who waits longest.
    fn freed(&mut self, seat: u16) {
        match self.waiting.pop_front() {
            Some(waiting) => {
                self.seats.insert(waiting.connection, seat);
                for (asked, statement) in waiting.lines {
                    self.send(seat, asked, &statement);
                }
            }
            None => self.free.push(seat),
        }
    }

    /// Sends the first line of a transaction, as soon as there is a session.
    fn begin(&mut self, connection: Connection, asked: Asked, statement: String) {
        if self.free.is_empty() {
            self.merge();
        }
        match self.free.pop() {
            Some(seat) => {
                self.seats.insert(connection, seat);
                self.send(seat, asked, &statement);
            }
            None => self.waiting.push_back(Waiting {
                connection,
                lines: vec![(asked, statement)],
                since: Instant::now(),
            }),
        }
    }

    /// Returns the statement that changes a row. None: it has no such row.
    fn update(&mut self, key: &Key, change: &Change) -> Option<String> {
        self.clock += 1;
        let made = self.tables.get_mut(&key.table)?;
        let (row, used) = made.rows.get_mut(&key.text)?;
        *used = self.clock;
        let changes = assignments(change);
        Some(format!(
            "UPDATE T{} SET {changes} WHERE K = {row}",
            key.table
        ))
    }

    /// Asks for a change of a row that it has. Returns false if it has no such row.
    #[must_use]
    pub fn grant(&mut self, connection: Connection, key: &Key, change: &Change) -> bool {
        let statement = match self.update(key, change) {
            Some(statement) => statement,
            None => return false,
        };
        let asked = Asked::Grant(connection, key.table);
        match self.seats.get(&connection) {
            Some(&seat) => self.send(seat, asked, &statement),
            None => {
                // It has come as the last one, or a moment ago.
                let mut waiting = self.waiting.iter_mut().rev();
                match waiting.find(|it| it.connection == connection) {
                    Some(waiting) => waiting.lines.push((asked, statement)),
                    None => self.begin(connection, asked, statement),
                }
            }
        }
        true
    }

    /// Ends a transaction: commits these changes, and keeps these lines. All of it was reserved, so it is granted again: nothing
    /// comes between these lines of the server's.
    pub fn keep(
        &mut self,
        connection: Connection,
        committed: &[(Key, Change)],
        kept: Vec<(Line, Key, Change)>,
    ) -> Result<(), Lacks> {
        let seat = match self.seats.remove(&connection) {
            Some(seat) => seat,
            // Nothing of it was granted.
            None => {
                let all = committed.iter().map(|it| &it.0);
                let mut all = all.chain(kept.iter().map(|it| &it.1));
                return all.next().map_or(Ok(()), |key| Err(Lacks(key.clone())));
            }
        };
        let kept = self.lines(kept)?;
        let changes = committed.iter().map(|(key, change)| (key, change));
        self.end_and_commit(seat, changes)?;
        let bin = match kept.is_empty() {
            true => None,
            false => self.choose(kept.len(), Some(seat)),
        };
        if let Some(bin) = bin {
            self.fill(bin, kept);
        }
        if bin != Some(seat) {
            self.freed(seat);
        }
        Ok(())
    }

    /// Returns whether there is room for so many lines of holds more.
    pub fn has_room(&self, count: usize) -> bool {
        let left = self.sizes.iter().map(|(size, _)| RESERVATIONS - size);
        left.sum::<usize>() + self.free.len() * RESERVATIONS >= count
    }

    /// Reserves lines of holds.
    pub fn reserve(&mut self, lines: Vec<(Line, Key, Change)>) -> Result<(), Lacks> {
        for line in self.lines(lines)? {
            let bin = self.choose(1, None);
            let bin = bin.ok_or_else(|| Lacks(line.key.clone()))?;
            self.fill(bin, vec![line]);
        }
        Ok(())
    }

    /// Returns lines as a bin keeps them.
    fn lines(&mut self, lines: Vec<(Line, Key, Change)>) -> Result<Bin, Lacks> {
        let kept = lines
            .into_iter()
            .map(|(line, key, change)| match self.update(&key, &change) {
                Some(statement) => Ok(Kept {
                    line,
                    key,
                    statement,
                }),
                None => Err(Lacks(key)),
            });
        kept.collect()
    }

    /// Ends lines of holds, and commits so much of each, or nothing. The others of a bin are reserved again: nothing comes
    /// between.
    pub fn end_lines(&mut self, ends: Vec<(Line, Option<Change>)>) -> Result<(), Lacks> {
        let mut bins: BTreeMap<u16, HashMap<Line, Option<Change>>> = BTreeMap::new();
        for (line, change) in ends {
            if let Some(bin) = self.places.remove(&line) {
                bins.entry(bin).or_default().insert(line, change);
            }
        }
        for (seat, ended) in bins {
            let bin = self.bins.remove(&seat).unwrap_or_default();
            self.sizes.remove(&(bin.len(), seat));
            let (gone, kept): (Bin, Bin) =
                bin.into_iter().partition(|it| ended.contains_key(&it.line));
            let taken = gone.iter().filter_map(|it| {
                let change = ended.get(&it.line)?.as_ref()?;
                Some((&it.key, change))
            });
            self.end_and_commit(seat, taken)?;
            match kept.is_empty() {
                true => self.freed(seat),
                false => self.fill(seat, kept),
            }
        }
        Ok(())
    }

    /// Gives back all that a session has reserved, and commits these changes in it.
    fn end_and_commit<'a>(
        &mut self,
        seat: u16,
        changes: impl Iterator<Item = (&'a Key, &'a Change)>,
    ) -> Result<(), Lacks> {
        self.send(seat, Asked::Told(Told::Rollback), "ROLLBACK");
        let mut has_changes = false;
        for (key, change) in changes {
            let statement = self.update(key, change).ok_or_else(|| Lacks(key.clone()))?;
            self.send(seat, Asked::Again, &statement);
            has_changes = true;
        }
        if has_changes {
            self.send(seat, Asked::Told(Told::Commit), "COMMIT");
        }
        Ok(())
    }

    /// Chooses the bin of so many lines: a session of its own while there are few, then the emptiest bin. `own` is a session
    /// that has just become free.
    fn choose(&mut self, count: usize, own: Option<u16>) -> Option<u16> {
        let room = self.sizes.iter().next().copied();
        let shared = room.filter(|(size, _)| size + count <= RESERVATIONS);
        match shared {
            Some((_, seat)) if self.bins.len() >= self.most_bins => Some(seat),
            _ => own
                .or_else(|| self.free.pop())
                .or_else(|| shared.map(|(_, seat)| seat)),
        }
    }

    /// Puts the lines of the emptiest bin into the next one, if they fit, so that a session is free.
    fn merge(&mut self) {
        let mut sizes = self.sizes.iter().copied();
        if let (Some((few, from)), Some((more, to))) = (sizes.next(), sizes.next()) {
            if few + more <= RESERVATIONS {
                let lines = self.bins.remove(&from).unwrap_or_default();
                self.sizes.remove(&(few, from));
                self.send(from, Asked::Told(Told::Rollback), "ROLLBACK");
                self.fill(to, lines);
                self.free.push(from);
            }
        }
    }

    /// Reserves lines in a bin.
    fn fill(&mut self, seat: u16, lines: Bin) {
        for it in &lines {
            self.send(seat, Asked::Again, &it.statement);
            self.places.insert(it.line, seat);
        }
        let bin = self.bins.entry(seat).or_default();
        self.sizes.remove(&(bin.len(), seat));
        bin.extend(lines);
        self.sizes.insert((bin.len(), seat));
    }

    /// Returns who has waited too long for a session, and lets them wait no longer.
    pub fn tired(&mut self) -> Vec<Connection> {
        let mut tired = Vec::new();
        self.waiting.retain(|waiting| {
            let stays = waiting.since.elapsed() < SEAT_WAIT;
            if !stays {
                tired.push(waiting.connection);
            }
            stays
        });
        tired
    }

    /// Gives it a row with these values. Returns why it cannot have it, if that is known at once.
    pub fn insert(&mut self, table: &Arc<Table>, key: &Key, values: &[String]) -> Option<String> {
        if let Entry::Vacant(place) = self.tables.entry(table.number) {
            place.insert(Made {
                table: table.clone(),
                rows: HashMap::new(),
                next: 1,
                free: Vec::new(),
                is_refused: false,
            });
            for statement in definition(table) {
                self.send(OWN, Asked::Create(table.number), &statement);
            }
        }
        let made = self.tables.get_mut(&table.number)?;
        if made.is_refused {
            return Some("the server has refused the table".to_owned());
        }
        let row = match made.free.pop() {
            Some(row) => row,
            None if made.rows.len() < ROWS => {
                made.next += 1;
                made.next - 1
            }
            None => return Some(format!("the proxy holds {} rows of the table", ROWS)),
        };
        made.rows.insert(key.text.clone(), (row, self.clock));
        let statement = format!(
            "INSERT INTO T{} VALUES ({}, {})",
            table.number,
            row,
            values.join(", ")
        );
        self.send(OWN, Asked::Insert(key.clone()), &statement);
        None
    }

    /// Returns the numbers of its tables.
    pub fn tables(&self) -> Vec<i32> {
        self.tables.keys().copied().collect()
    }

    /// Takes a table away from it of which nobody has reserved anything. Those that found no room are tried anew.
    pub fn drop_table(&mut self, table: i32) {
        if self.tables.remove(&table).is_some() {
            self.send(OWN, Asked::Drop(table), &format!("DROP TABLE T{table}"));
            self.tables.retain(|_, made| !made.is_refused);
        }
    }

    /// Returns keys of a table whose rows were not used for the longest time, of those that may be left, if it has no room for
    /// many more.
    pub fn oldest(&self, table: i32, may_be_left: impl Fn(&Key) -> bool) -> Vec<Key> {
        let made = match self.tables.get(&table) {
            Some(made) if made.rows.len() >= ROWS - ROOM => made,
            _ => return Vec::new(),
        };
        let keys = made.rows.iter().map(|(text, (_, used))| {
            let text = text.clone();
            (*used, Key { table, text })
        });
        let mut keys: Vec<(u64, Key)> = keys.filter(|(_, key)| may_be_left(key)).collect();
        if keys.len() > ROOM {
            keys.select_nth_unstable_by_key(ROOM, |(used, _)| *used);
            keys.truncate(ROOM);
        }
        keys.into_iter().map(|(_, key)| key).collect()
    }

    /// Takes a row that nobody has reserved away from it.
    pub fn delete(&mut self, key: &Key) {
        let row = match self.tables.get_mut(&key.table) {
            Some(made) => made.rows.remove(&key.text),
            None => None,
        };
        if let Some((row, _)) = row {
            if let Some(made) = self.tables.get_mut(&key.table) {
                made.free.push(row);
            }
            let statement = format!("DELETE FROM T{} WHERE K = {}", key.table, row);
            self.send(OWN, Asked::Delete(key.clone()), &statement);
        }
    }

    /// Takes a line that it wrote.
    pub fn said(&mut self, line: &str) -> Said {
        let (session, asked) = match self.asked.pop_front() {
            Some(asked) => asked,
            None => return Said::Broke(format!("nobody asked for {:?}", line)),
        };
        let prefix = format!("bank.{}> ", session);
        let outcome = line.strip_prefix(&prefix).and_then(reply::outcome);
        match (asked, outcome) {
            (Asked::Grant(connection, _), Some(Outcome::Done(Done::Reserved))) => {
                Said::Granted(connection)
            }
            (Asked::Grant(connection, table), Some(Outcome::Refused(refusal))) => {
                match self.refusal(table, refusal) {
                    Some(refusal) => Said::Refused(connection, refusal),
                    None => Said::Broke(format!("a reservation was answered {:?}", line)),
                }
            }
            (Asked::Again, Some(Outcome::Done(Done::Reserved))) => Said::Nothing,
            (Asked::Told(told), Some(Outcome::Done(done))) if is_done(told, done) => Said::Nothing,
            (Asked::Create(_), Some(Outcome::Done(Done::Created | Done::Altered))) => Said::Nothing,
            (Asked::Create(number), Some(Outcome::Refused(refusal))) => {
                if let Some(made) = self.tables.get_mut(&number).filter(|it| !it.is_refused) {
                    made.is_refused = true;
                    let name = &made.table.name;
                    match refusal {
                        reply::Refusal::TooManyTables => tracing::error!(
                            "nothing of the table {name} is reserved: the proxy serves {TABLES} tables at a time; \
                             escrow.ordinary of another one makes room"
                        ),
                        _ => tracing::error!("the server refuses the table {name}: {line}"),
                    }
                }
                Said::Nothing
            }
            // A table that lacks a CHECK has rows that nobody may use.
            (Asked::Insert(key), Some(Outcome::Done(Done::Inserted)))
                if !self.is_refused(key.table) =>
            {
                Said::Inserted(key)
            }
            (Asked::Insert(key), Some(Outcome::Done(Done::Inserted) | Outcome::Refused(_))) => {
                if let Some(made) = self.tables.get_mut(&key.table) {
                    if let Some((row, _)) = made.rows.remove(&key.text) {
                        made.free.push(row);
                    }
                }
                Said::NotInserted(key, line.to_owned())
            }
            (Asked::Delete(_), Some(Outcome::Done(Done::Deleted))) => Said::Nothing,
            // A table that it has refused meanwhile does not exist.
            (Asked::Drop(_), Some(Outcome::Done(Done::Dropped) | Outcome::Refused(_))) => {
                Said::Nothing
            }
            (asked, _) => Said::Broke(format!("{:?} was answered {:?}", asked, line)),
        }
    }

    /// Returns whether the server has refused a table, or a CHECK of it.
    fn is_refused(&self, table: i32) -> bool {
        self.tables.get(&table).map_or(true, |made| made.is_refused)
    }

    /// Reads a refusal of a reservation. None: it is none that there may be.
    fn refusal(&self, table: i32, refusal: reply::Refusal<'_>) -> Option<Refusal> {
        match refusal {
            reply::Refusal::Broken(broken) => broken_check(&self.tables.get(&table)?.table, broken),
            reply::Refusal::TooManyReservations => Some(Refusal::TooMany),
            reply::Refusal::Memory => Some(Refusal::Memory),
            _ => None,
        }
    }
}

/// Names a broken check as the table has it.
fn broken_check(table: &Table, broken: Broken<'_>) -> Option<Refusal> {
    let at = |text: &str| text.parse::<usize>().ok()?.checked_sub(1);
    let name = broken.constraint;
    let range = name
        .strip_prefix("RANGE_C")
        .or_else(|| name.strip_prefix('R'));
    if let Some(number) = range {
        let column = table.columns.get(at(number)?)?;
        return Some(Refusal::Range(
            column.name.clone(),
            column.type_name.clone(),
        ));
    }
    let place = at(name.strip_prefix('X')?)?;
    let check = table.checks.get(place)?;
    Some(Refusal::Check {
        constraint: check.name.clone(),
        place,
        is_high: broken.high,
        worst: broken.worst.to_owned(),
        limit: broken.limit.to_owned(),
    })
}

/// Returns whether a reply says that what was told is done.
fn is_done(told: Told, done: Done) -> bool {
    match told {
        Told::Mark(_) => done == Done::Savepoint,
        Told::BackTo(_) | Told::Rollback => done == Done::RolledBack,
        Told::Commit => done == Done::Committed,
    }
}

/// Returns the changes of columns, as the server reads them. `change` has the place of each of them.
fn assignments(change: &Change) -> String {
    let changes = change.iter().enumerate().filter_map(|(at, change)| {
        let change = change.as_deref()?;
        let (sign, number) = match change.strip_prefix('-') {
            Some(number) => ('-', number),
            None => ('+', change),
        };
        Some((at + 1, sign, number))
    });
    let texts: Vec<String> = changes
        .map(|(at, sign, number)| format!("C{0} = C{0} {1} {2}", at, sign, number))
        .collect();
    texts.join(", ")
}

/// Returns the statements that make a table: its rows are numbered, its columns are `C1` and so on. Each CHECK has a statement,
/// since all of them may be longer than a line.
fn definition(table: &Table) -> Vec<String> {
    let mut items = vec!["K NUMBER(10) PRIMARY KEY".to_owned()];
    for (at, column) in table.columns.iter().enumerate() {
        let Column { digits, range, .. } = column;
        items.push(format!(
            "C{} NUMBER({},{}) RESERVABLE",
            at + 1,
            digits.0,
            digits.1
        ));
        if let Some((least, greatest)) = range {
            items.push(format!(
                "CONSTRAINT R{0} CHECK (C{0} BETWEEN {1} AND {2})",
                at + 1,
                least,
                greatest
            ));
        }
    }
    let mut statements = vec![format!(
        "CREATE TABLE T{} ({})",
        table.number,
        items.join(", ")
    )];
    for (at, check) in table.checks.iter().enumerate() {
        let terms = check.coefficients.iter().enumerate();
        let terms = terms.filter(|(_, coefficient)| coefficient.as_str() != "0");
        let sum: Vec<String> = terms
            .map(|(at, coefficient)| match coefficient.strip_prefix('-') {
                Some(number) => format!("- {} * C{}", number, at + 1),
                None => format!("+ {} * C{}", coefficient, at + 1),
            })
            .collect();
        statements.push(format!(
            "ALTER TABLE T{} ADD CONSTRAINT X{} CHECK ({} {} {})",
            table.number,
            at + 1,
            sum.join(" "),
            check.comparison,
            check.limit
        ));
    }
    statements
}

#[cfg(test)]
mod tests {
    use rand::rngs::StdRng;
    use rand::{Rng, SeedableRng};

    use super::*;
    use crate::catalog::KeyType;
    use crate::protocol::Mark;

    /// What `escrowd serve` has: what is open in each session, and what was committed.
    #[derive(Default)]
    struct Model {
        open: BTreeMap<u16, Vec<i64>>,
        value: i64,
    }

    impl Model {
        fn reply(&mut self, line: &str) -> String {
            let (session, statement) = line
                .strip_prefix("bank.")
                .unwrap()
                .split_once(": ")
                .unwrap();
            let open = self.open.entry(session.parse().unwrap()).or_default();
            let words: Vec<&str> = statement.split(' ').collect();
            let said = match words[0] {
                "CREATE" => "created T7".to_owned(),
                "ALTER" => "altered T7".to_owned(),
                "INSERT" => "inserted".to_owned(),
                "UPDATE" => {
                    open.push(words[6..8].concat().parse().unwrap());
                    format!("reserved {}", open.len())
                }
                "COMMIT" => {
                    self.value += open.iter().sum::<i64>();
                    format!("committed {}", open.drain(..).count())
                }
                "ROLLBACK" => format!("rolled back {}", open.drain(..).count()),
                other => panic!("{other}"),
            };
            format!("bank.{session}> OK {said}")
        }
    }

    /// A server with a row, and what of it has to be open and committed.
    struct Tried {
        server: Server,
        model: Model,
        key: Key,
        transactions: BTreeMap<Connection, Vec<i64>>,
        kept: BTreeMap<Line, i64>,
        value: i64,
        lines: i64,
    }

    impl Tried {
        fn table() -> Arc<Table> {
            let column = Column {
                name: "pieces".to_owned(),
                place: 2,
                type_name: "integer".to_owned(),
                digits: (10, 0),
                range: None,
            };
            Arc::new(Table {
                number: 7,
                oid: 1,
                schema: "public".to_owned(),
                name: "stock".to_owned(),
                key: "id".to_owned(),
                key_type: KeyType::Integer(0, 99),
                columns: vec![column],
                checks: Vec::new(),
                note_text: String::new(),
                own_text: String::new(),
                refusal_text: String::new(),
                here_text: String::new(),
                direct_text: String::new(),
            })
        }

        fn new(sessions: u16) -> Tried {
            let mut tried = Tried {
                server: Server::of(sessions),
                model: Model::default(),
                key: Key {
                    table: 7,
                    text: "5".into(),
                },
                transactions: BTreeMap::new(),
                kept: BTreeMap::new(),
                value: 0,
                lines: 0,
            };
            let refused = tried
                .server
                .insert(&Tried::table(), &tried.key, &["0".to_owned()]);
            assert_eq!(refused, None);
            tried.check();
            tried
        }

        fn line(&mut self) -> Line {
            self.lines += 1;
            Line {
                epoch: 1,
                number: self.lines,
            }
        }

        /// Serves what was asked, and tests what is open and committed then.
        fn check(&mut self) {
            // As if a question stood behind them.
            self.server.are_awaited = true;
            let asked = String::from_utf8(self.server.take_lines()).unwrap();
            for line in asked.lines() {
                let reply = self.model.reply(line);
                if let Said::Broke(what) = self.server.said(&reply) {
                    panic!("{what}");
                }
            }
            let mut open: Vec<i64> = self.model.open.values().flatten().copied().collect();
            let transactions = self.transactions.values().flatten();
            let mut expected: Vec<i64> = transactions.chain(self.kept.values()).copied().collect();
            open.sort_unstable();
            expected.sort_unstable();
            assert_eq!((open, self.model.value), (expected, self.value));
        }

        fn grant(&mut self, connection: Connection, change: i64) {
            assert!(self.server.grant(connection, &self.key, &changed(change)));
            let open = self.transactions.entry(connection).or_default();
            open.push(change);
        }

        fn end(&mut self, connection: Connection, told: Told) {
            self.server.tell(connection, told);
            let open = self.transactions.remove(&connection).unwrap_or_default();
            if told == Told::Commit {
                self.value += open.iter().sum::<i64>();
            }
        }

        /// Ends a transaction, of whose changes some are committed, some are kept, and the others given back.
        fn keep(&mut self, connection: Connection, random: &mut StdRng) {
            let mut committed = Vec::new();
            let mut kept = Vec::new();
            for change in self.transactions.remove(&connection).unwrap_or_default() {
                match random.gen_range(0..3) {
                    0 => {
                        self.value += change;
                        committed.push((self.key.clone(), changed(change)));
                    }
                    1 => {
                        let line = self.line();
                        self.kept.insert(line, change);
                        kept.push((line, self.key.clone(), changed(change)));
                    }
                    _ => {}
                }
            }
            self.server.keep(connection, &committed, kept).unwrap();
        }

        fn reserve(&mut self, changes: &[i64]) {
            let mut lines = Vec::new();
            for &change in changes {
                let line = self.line();
                self.kept.insert(line, change);
                lines.push((line, self.key.clone(), changed(change)));
            }
            self.server.reserve(lines).unwrap();
        }

        /// Ends some holds: whole, in part, or without a change.
        fn end_some(&mut self, random: &mut StdRng) {
            let mut ends = Vec::new();
            for (line, change) in self.kept.clone() {
                let taken = match random.gen_range(0..6) {
                    0 => change,
                    1 => change.signum(),
                    2 => 0,
                    _ => continue,
                };
                self.kept.remove(&line);
                self.value += taken;
                ends.push((line, (taken != 0).then(|| changed(taken))));
            }
            self.server.end_lines(ends).unwrap();
        }
    }

    fn changed(change: i64) -> Change {
        [Some(change.to_string())].into_iter().collect()
    }

    #[test]
    fn holds_stay_reserved_in_whichever_session_they_are() {
        for seed in 0..40 {
            let mut random = StdRng::seed_from_u64(seed);
            // Four transactions and the holds need more sessions than there are, unless holds share them.
            let mut tried = Tried::new(6);
            for _ in 0..300 {
                let connection = Connection(random.gen_range(1..=4));
                let is_open = tried.transactions.contains_key(&connection);
                let changes: Vec<i64> = (0..random.gen_range(1..4))
                    .map(|_| [-2, -1, 3][random.gen_range(0..3)])
                    .collect();
                match random.gen_range(0..7) {
                    0 => tried.end(connection, Told::Commit),
                    1 => tried.end(connection, Told::Rollback),
                    2 if is_open => tried.keep(connection, &mut random),
                    3 if tried.kept.len() < 100 => tried.reserve(&changes),
                    4 => tried.end_some(&mut random),
                    _ => changes
                        .iter()
                        .for_each(|&change| tried.grant(connection, change)),
                }
                tried.check();
            }
        }
    }

    #[test]
    fn a_session_keeps_no_more_than_it_may() {
        let mut tried = Tried::new(3);
        assert!(tried.server.has_room(2 * RESERVATIONS));
        assert!(!tried.server.has_room(2 * RESERVATIONS + 1));
        tried.reserve(&[-1; 2 * RESERVATIONS]);
        tried.check();
        let mut sizes = tried.model.open.values().map(Vec::len);
        assert!(sizes.all(|size| size <= RESERVATIONS));
        assert!(!tried.server.has_room(1));
        let lacks = tried.server.reserve(vec![(
            Line {
                epoch: 2,
                number: 1,
            },
            tried.key.clone(),
            changed(-1),
        )]);
        assert_eq!(lacks, Err(Lacks(tried.key.clone())));
    }

    #[test]
    fn what_nobody_waits_for_is_sent_with_the_next_question() {
        let mut server = Server::new();
        server.tell(Connection(1), Told::Mark(Mark(1)));
        server.tell(Connection(1), Told::Commit);
        assert!(server.take_lines().is_empty());
        server.send(OWN, Asked::Create(1), "CREATE TABLE T1 ()");
        let lines = "bank.2: SAVEPOINT M1\nbank.2: COMMIT\nbank.1: CREATE TABLE T1 ()\n";
        assert_eq!(server.take_lines(), lines.as_bytes());
        server.tell(Connection(1), Told::Mark(Mark(1)));
        assert!(server.take_lines().is_empty());
    }

    #[test]
    fn what_nobody_waits_for_is_sent_before_it_is_much() {
        let mut server = Server::new();
        server.tell(Connection(1), Told::Mark(Mark(1)));
        let mut sent = Vec::new();
        for count in 1..=MOST_UNSENT {
            server.tell(Connection(1), Told::BackTo(Mark(1)));
            sent = server.take_lines();
            if !sent.is_empty() {
                assert!(count > 1_000, "after {count} lines");
                break;
            }
        }
        assert!(sent.len() >= MOST_UNSENT);
    }

    #[test]
    fn the_oldest_rows_of_those_that_may_be_left_make_room() {
        let (table, mut server) = (Tried::table(), Server::of(1));
        let key = |at: usize| Key {
            table: 7,
            text: at.to_string().into(),
        };
        for at in 0..ROWS - ROOM {
            assert!(server.oldest(7, |_| true).is_empty());
            assert_eq!(server.insert(&table, &key(at), &["0".to_owned()]), None);
            server.clock += 1;
        }
        let keys = |from: usize| -> BTreeSet<Key> { (from..from + ROOM).map(key).collect() };
        let oldest: BTreeSet<Key> = server.oldest(7, |_| true).into_iter().collect();
        assert!(oldest == keys(0));
        let others = server.oldest(7, |key| !oldest.contains(key));
        assert!(others.into_iter().collect::<BTreeSet<_>>() == keys(ROOM));
        assert!(server.oldest(7, |it| *it == key(9_999)) == [key(9_999)]);
    }

    #[test]
    fn a_table_that_found_no_room_is_tried_anew() {
        let mut server = Server::new();
        let one = Tried::table();
        let other = Table {
            number: 8,
            ..(*one).clone()
        };
        let tables = [one, Arc::new(other)];
        let insert = |server: &mut Server, at: usize| {
            let table = tables[at].number;
            let text = "5".into();
            server.insert(&tables[at], &Key { table, text }, &["0".to_owned()])
        };
        assert_eq!(
            (insert(&mut server, 0), insert(&mut server, 1)),
            (None, None)
        );
        while let Some((session, asked)) = server.asked.front().cloned() {
            let reply = match asked {
                Asked::Create(8) => "ERR 35",
                Asked::Create(_) => "OK created T7",
                _ => "OK inserted",
            };
            let said = server.said(&format!("bank.{session}> {reply}"));
            assert!(!matches!(said, Said::Broke(_)), "{said:?}");
        }
        assert!(insert(&mut server, 1).is_some());
        server.drop_table(7);
        assert_eq!(insert(&mut server, 1), None);
    }
}
