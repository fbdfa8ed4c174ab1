//! PostgreSQL: rows, a journal, transactions with subtransactions, a log of which a crash leaves a first part, locks, epoch.

mod holds;
mod own;

use std::collections::{BTreeMap, BTreeSet, VecDeque};

use rand::rngs::StdRng;
use rand::seq::IteratorRandom;
use rand::Rng;

use super::server::Grant;
use super::{Change, Key, Without, GREATEST, KEYS, LEAST, START};
use crate::protocol::{Fate, Status, Verdict};
pub(super) use holds::HeldLine;
use holds::HoldId;
pub(super) use own::Counts;
use own::{Own, Snapshot};

/// What a client sends.
#[derive(Clone, Copy, Debug, PartialEq, Eq)]
pub(super) enum Statement {
    Begin,
    BeginRepeatable,
    Savepoint,
    /// To the savepoint of this depth, or an error.
    RollbackTo(usize),
    ReleaseTo(usize),
    Commit,
    CommitAndChain,
    Rollback,
    RollbackAndChain,
    Select,
    /// One that fails.
    Fail,
    /// A procedure that commits, and then fails or not.
    CallCommit {
        fails: bool,
    },
    /// A procedure that rolls back.
    CallRollback,
    /// What the transaction has reserved so far becomes a hold.
    Hold,
    /// A hold is taken, or a part of it, and by a number that chooses among those that stand.
    Take(usize, bool),
    /// A hold is released.
    Release(usize),
    /// SELECT .. FOR UPDATE of a row.
    Lock(Key),
    /// An UPDATE of a row's other columns.
    Write(Key),
    Insert(Key),
    Delete(Key),
    /// An UPDATE that the proxy passes on, since there was no such row.
    Change(Key, Change),
}

/// What a backend reads.
#[derive(Clone, Copy, Debug)]
pub(super) enum Message {
    Statement(Statement),
    Note(Note),
    /// A note and a fold in one (rule 13).
    Direct(Note),
    /// A change without a reservation (rule 16).
    Here(Note),
    /// A fold of these keys, in front of a COMMIT (rule 13).
    OwnFold([bool; KEYS]),
    Sync,
}

/// A note.
#[derive(Clone, Copy, Debug)]
pub(super) struct Note {
    pub(super) epoch: u64,
    pub(super) key: Key,
    pub(super) change: Change,
    pub(super) grant: Grant,
    /// Whether the server has granted it.
    pub(super) is_granted: bool,
}

/// What a backend answers.
#[derive(Clone, Debug, PartialEq, Eq)]
pub(super) enum Reply {
    Completed(&'static str),
    /// The id, and whether the row has it already.
    Noted(u64, bool),
    /// Whether all is folded.
    OwnFolded(bool),
    /// Whether it is changed.
    Changed(bool),
    Error,
    Ready(Status),
}

/// A subtransaction, or the transaction itself.
#[derive(Default)]
struct Level {
    id: Option<u64>,
    rows: Vec<Note>,
    /// It has locked the journal without a row, for a change without a reservation.
    locks_journal: bool,
    /// Rows of it and of those around it that it has moved into lines of a hold.
    moved: Vec<(Grant, HoldId)>,
    /// Lines that it has ended.
    ends: Vec<(Grant, Fate<Change>)>,
    own: Own,
    /// Its subtransactions that were released.
    merged: Vec<u64>,
}

/// What a backend does when its next step comes.
enum Work {
    Read,
    /// The note is written, or the journal locked for it, and the epoch is not yet tested.
    Test(Note, Then),
    /// The commit record is in the log. What comes then.
    Commit(usize, Vec<Reply>, After),
}

/// What a note does once its test is passed.
#[derive(Clone, Copy, PartialEq, Eq)]
enum Then {
    Nothing,
    /// It folds its row, as a direct note.
    Fold,
    /// It is written and folded, as a change without a reservation, if nobody holds the row.
    Here,
}

#[derive(Clone, Copy, PartialEq, Eq)]
enum After {
    Nothing,
    /// A block goes on.
    Chain,
    /// The statement fails.
    Fail,
}

/// A connection's two directions, and its backend.
struct Backend {
    number: u32,
    inbox: VecDeque<Message>,
    outbox: VecDeque<Reply>,
    /// What was committed up to each ReadyForQuery in the outbox.
    shown: VecDeque<Shown>,
    /// The proxy has closed it.
    is_cut: bool,
    /// The process runs.
    is_alive: bool,
    levels: Vec<Level>,
    in_block: bool,
    has_failed: bool,
    /// An error skips what comes before the Sync.
    skips: bool,
    /// In REPEATABLE READ: what it sees, from its first statement on.
    is_repeatable: bool,
    snapshot: Option<Snapshot>,
    /// It stands still for so many of its steps.
    stalled: u32,
    work: Work,
}

impl Backend {
    /// Returns whether it has something to do.
    fn has_work(&self) -> bool {
        let waits = self.inbox.is_empty() && matches!(self.work, Work::Read);
        self.is_alive && (self.is_cut || !waits)
    }

    /// Returns whether both sides have ended.
    fn is_gone(&self) -> bool {
        !self.is_alive && self.is_cut
    }

    fn rows(&self) -> impl Iterator<Item = Note> + '_ {
        self.levels.iter().flat_map(|it| it.rows.iter().copied())
    }

    fn moved(&self) -> BTreeMap<Grant, HoldId> {
        let moved = self.levels.iter().flat_map(|it| &it.moved);
        moved.copied().collect()
    }

    /// Returns the lines that it has ended, of which it may have moved some into a hold again.
    fn ended(&self) -> BTreeSet<Grant> {
        let ends = self.levels.iter().flat_map(|it| &it.ends);
        ends.map(|it| it.0).collect()
    }

    /// Returns its own rows of the journal: what is neither folded nor moved into a hold.
    fn pending(&self) -> Vec<Note> {
        let (own, moved) = (self.own(), self.moved());
        let is_left = |row: &Note| !own.has_taken(row.grant) && !moved.contains_key(&row.grant);
        self.rows().filter(is_left).collect()
    }
}

/// A row of the journal.
type Row = Note;

/// A commit record: what it moves, and whose it is.
#[derive(Clone, Default)]
struct Record {
    rises: Vec<(Key, Change)>,
    removed: Vec<Grant>,
    added: Vec<Row>,
    held: Vec<(Note, HoldId)>,
    ends: Vec<(Grant, Fate<Change>)>,
    forgotten: Vec<Grant>,
    /// What a transaction has written into rows by other ways than folds.
    own: Own,
    /// Marks that are made and removed (rule 14).
    marked: Vec<(Key, Option<Mark>)>,
    ids: Vec<u64>,
    is_visible: bool,
}

/// By whom a row is held: the owner of an epoch, by a load of this number.
#[derive(Clone, Copy, Debug, PartialEq, Eq)]
pub(super) struct Mark {
    pub(super) epoch: u64,
    pub(super) load: u64,
}

/// What a loader has sent on a connection that is lost, and that PostgreSQL still reads.
#[derive(Clone, Copy)]
pub(super) enum Late {
    Load(Key, Mark),
    /// With the epoch, and a number that is above those of the loads whose marks it may remove.
    Leave(Key, Mark),
}

/// What is committed.
#[derive(Clone)]
struct Image {
    rows: [Option<i64>; KEYS],
    /// How often each row was written.
    versions: [u64; KEYS],
    /// Who holds the rows.
    marks: [Option<Mark>; KEYS],
    journal: BTreeMap<Grant, Row>,
    /// What commits have added to each row, by folds or not.
    truth: [Option<i64>; KEYS],
    ids: BTreeSet<u64>,
    /// What of each grant is committed.
    grants: BTreeMap<Grant, Change>,
    lines: BTreeMap<Grant, HeldLine>,
}

impl Image {
    fn apply(&mut self, record: &Record) {
        self.insert(&record.own);
        for row in &record.added {
            self.journal.insert(row.grant, *row);
            self.truth[row.key] = self.truth[row.key].map(|it| it + row.change);
            self.grants.insert(row.grant, row.change);
        }
        for grant in &record.removed {
            self.journal.remove(grant);
        }
        for &(note, hold) in &record.held {
            let fate = Fate::Stands;
            self.lines.insert(note.grant, HeldLine { note, hold, fate });
        }
        for (grant, fate) in &record.ends {
            if let Some(line) = self.lines.get_mut(grant) {
                line.fate = *fate;
            }
        }
        for grant in &record.forgotten {
            self.lines.remove(grant);
        }
        for &(key, change) in &record.rises {
            self.rows[key] = self.rows[key].map(|it| it + change);
            self.versions[key] += 1;
        }
        self.change(&record.own);
        for &(key, mark) in &record.marked {
            // A load may be late.
            let last = self.marks[key].filter(|last| Some(last.epoch) == mark.map(|it| it.epoch));
            let least = last.map_or(0, |last| last.load);
            self.marks[key] = mark.map(|it| Mark {
                load: it.load.max(least),
                ..it
            });
        }
        self.ids.extend(&record.ids);
    }
}

/// Returns whether a value meets the CHECK.
fn meets(value: i64) -> bool {
    (LEAST..=GREATEST).contains(&value)
}

/// A fold or load that is in the log and not yet visible.
pub(super) struct Folding {
    record: usize,
    life: u32,
    locked: Vec<Key>,
    /// The keys of which nothing is left in the journal.
    pub(super) keys: Vec<Key>,
}

/// What transactions of a connection have committed.
#[derive(Clone, Default)]
pub(super) struct Shown {
    /// Rows of the journal, and whether each was a line of a hold that it has taken.
    pub(super) rows: Vec<(Grant, bool)>,
    /// Lines of holds that it has ended.
    pub(super) ends: Vec<Grant>,
}

/// A cluster.
pub(super) struct Postgres {
    visible: Image,
    /// What is durable for sure.
    base: Image,
    log: Vec<Record>,
    backends: BTreeMap<u32, Backend>,
    aborted: BTreeSet<u64>,
    next_id: u64,
    next_backend: u32,
    numbers: u64,
    /// Who has locked each row: a backend, or a connection of a proxy's own.
    locks: [Option<Locker>; KEYS],
    sync: bool,
    /// Who has nothing to do gets its turn too, so that all the others are late.
    pub(super) is_slow: bool,
    epoch: u64,
    /// Who holds OWNER, with the epoch whose lock it holds.
    owner: Option<(usize, u64)>,
    pub(super) life: u32,
    /// A CHECK has refused what it may not (rule 22).
    alarm: Option<String>,
    /// How often each happened: own folds, direct notes that fold, changes without a reservation, rows that are deleted.
    pub(super) own_counts: Counts,
    /// What is in sockets whose proxy reads no answer any more.
    late: Vec<Late>,
    /// What each connection has committed since its last ReadyForQuery.
    shown: BTreeMap<u32, Shown>,
    without: Option<Without>,
}

/// Who holds a row's lock.
#[derive(Clone, Copy, PartialEq, Eq)]
enum Locker {
    Backend(u32),
    Proxy,
}

impl Postgres {
    pub(super) fn new(sync: bool, is_slow: bool, without: Option<Without>) -> Postgres {
        let image = Image {
            rows: [Some(START); KEYS],
            versions: [0; KEYS],
            marks: [None; KEYS],
            journal: BTreeMap::new(),
            truth: [Some(START); KEYS],
            ids: BTreeSet::new(),
            grants: BTreeMap::new(),
            lines: BTreeMap::new(),
        };
        Postgres {
            visible: image.clone(),
            base: image,
            log: Vec::new(),
            backends: BTreeMap::new(),
            aborted: BTreeSet::new(),
            next_id: 1,
            next_backend: 1,
            numbers: 0,
            locks: [None; KEYS],
            sync,
            is_slow,
            epoch: 0,
            owner: None,
            life: 0,
            alarm: None,
            own_counts: Counts::default(),
            late: Vec::new(),
            shown: BTreeMap::new(),
            without,
        }
    }

    /// Tests that each committed change counts once, and that no CHECK is broken.
    pub(super) fn check(&self) -> Result<(), String> {
        if let Some(alarm) = &self.alarm {
            return Err(alarm.clone());
        }
        for key in 0..KEYS {
            let (row, now) = (self.visible.rows[key], self.now(key));
            if now != self.visible.truth[key] {
                return Err(format!(
                    "key {}: {:?} in place of {:?}",
                    key, now, self.visible.truth[key]
                ));
            }
            if !row.map_or(true, meets) || !now.map_or(true, meets) {
                return Err(format!(
                    "key {}: {:?} and {:?} break the CHECK",
                    key, row, now
                ));
            }
            if row.is_none() && self.visible.journal.values().any(|it| it.key == key) {
                return Err(format!("key {}: the journal has more than the row", key));
            }
            if row.is_none() && self.is_held(key) {
                return Err(format!("key {}: a hold stands of a row that is gone", key));
            }
        }
        Ok(())
    }

    /// Returns D + J, if the row exists.
    pub(super) fn now(&self, key: Key) -> Option<i64> {
        let rows = self.visible.journal.values().filter(|row| row.key == key);
        let pending: i64 = rows.map(|row| row.change).sum();
        self.visible.rows[key].map(|it| it + pending)
    }

    /// Returns a number that was never used, for an epoch or a grant.
    pub(super) fn number(&mut self) -> u64 {
        self.numbers += 1;
        self.numbers
    }

    /// Returns how many notes have committed, and were not lost.
    pub(super) fn commits(&self) -> u64 {
        self.visible.grants.len() as u64
    }

    /// Returns what of a grant is committed.
    pub(super) fn committed(&self, grant: Grant) -> Option<Change> {
        self.visible.grants.get(&grant).copied()
    }

    /// Returns the grants of the present epoch whose COMMIT may be under way.
    pub(super) fn may_commit(&self) -> Vec<Grant> {
        let is_committing = |backend: &&Backend| matches!(backend.work, Work::Commit(..));
        let levels = self
            .backends
            .values()
            .filter(is_committing)
            .flat_map(|it| &it.levels);
        let rows = levels.flat_map(|level| &level.rows);
        rows.filter(|row| row.epoch == self.epoch && row.is_granted)
            .map(|row| row.grant)
            .collect()
    }

    pub(super) fn is_quiet(&self) -> bool {
        let is_resting =
            |it: &Backend| it.inbox.is_empty() && it.outbox.is_empty() && it.levels.is_empty();
        // The owner has looked at what became of holds, and is done with it.
        let mut lines = self.visible.lines.values();
        self.backends.values().all(is_resting)
            && self.late.is_empty()
            && lines.all(|it| it.fate == Fate::Stands)
    }

    pub(super) fn journal_is_empty(&self) -> bool {
        self.visible.journal.is_empty()
    }

    // The keeper.

    /// Takes OWNER and the lock of an epoch.
    pub(super) fn take_owner(&mut self, proxy: usize, epoch: u64) -> bool {
        if self.owner.is_some() {
            return false;
        }
        self.owner = Some((proxy, epoch));
        true
    }

    pub(super) fn is_owner(&self, proxy: usize, epoch: u64) -> bool {
        self.owner == Some((proxy, epoch))
    }

    pub(super) fn set_epoch(&mut self, epoch: u64) {
        self.epoch = epoch;
    }

    /// Ends who holds the journal. Returns whether anybody still does.
    pub(super) fn end_holders(&mut self) -> bool {
        let locks = |level: &Level| level.locks_journal || !level.rows.is_empty();
        let holds = |backend: &Backend| backend.levels.iter().any(locks);
        let numbers: Vec<u32> = self
            .backends
            .iter()
            .filter(|(_, backend)| holds(backend))
            .map(|(&number, _)| number)
            .collect();
        for number in numbers {
            self.end(number);
        }
        self.backends.values().any(holds)
    }

    pub(super) fn end_keeper(&mut self) {
        self.owner = None;
    }

    pub(super) fn verdict(&self, id: u64) -> Verdict {
        if self.visible.ids.contains(&id) {
            Verdict::Committed
        } else if self.aborted.contains(&id) {
            Verdict::Aborted
        } else {
            Verdict::InProgress
        }
    }

    // Folds and loads.

    /// Folds what it can lock. Fails if a CHECK refuses it. The rest of it is [`Postgres::folded`]. A load marks its key for
    /// the owner of an epoch.
    pub(super) fn fold(
        &mut self,
        keys: &[Key],
        mark: Option<Mark>,
        random: &mut StdRng,
    ) -> Result<Folding, String> {
        let may_be_locked =
            |key: &Key| !self.is_locked(*key) || self.without == Some(Without::RowLocks);
        let free = keys.iter().copied().filter(may_be_locked);
        let locked: Vec<Key> = free.filter(|&key| self.has_row(key)).collect();
        let is_folded = |key: &Key| {
            let mut rows = self.visible.journal.values();
            locked.contains(key) || !rows.any(|row| row.key == *key)
        };
        let keys = keys.iter().copied().filter(is_folded).collect();
        let mut record = Record::default();
        for &key in &locked {
            let rows = self.visible.journal.values().filter(|row| row.key == key);
            let taken: Vec<&Row> = if self.without == Some(Without::WholeFolds) {
                rows.choose(random).into_iter().collect()
            } else {
                rows.collect()
            };
            let rise: i64 = taken.iter().map(|row| row.change).sum();
            if !self.visible.rows[key].map_or(true, |it| meets(it + rise)) {
                return Err(format!("a fold of key {} by {} is refused", key, rise));
            }
            if mark.is_none() || self.without != Some(Without::LoadsThatWrite) || rise != 0 {
                record.rises.push((key, rise));
            }
            record.removed.extend(taken.iter().map(|row| row.grant));
            if mark.is_some() && self.without != Some(Without::Marks) {
                record.marked.push((key, mark));
            }
        }
        for &key in &locked {
            self.locks[key] = Some(Locker::Proxy);
        }
        if !locked.is_empty() {
            self.log.push(record);
        }
        Ok(Folding {
            record: self.log.len().saturating_sub(1),
            life: self.life,
            locked,
            keys,
        })
    }

    /// Makes a fold visible. Returns false if a crash came between.
    pub(super) fn folded(&mut self, folding: &Folding) -> bool {
        if folding.life != self.life {
            return false;
        }
        if !folding.locked.is_empty() {
            self.show(folding.record);
        }
        for &key in &folding.locked {
            self.locks[key] = None;
        }
        true
    }

    pub(super) fn is_locked(&self, key: Key) -> bool {
        self.locks[key].is_some()
    }

    // Connections.

    pub(super) fn connect(&mut self) -> u32 {
        let number = self.next_backend;
        self.next_backend += 1;
        let backend = Backend {
            number,
            inbox: VecDeque::new(),
            outbox: VecDeque::new(),
            shown: VecDeque::new(),
            is_cut: false,
            is_alive: true,
            levels: Vec::new(),
            in_block: false,
            has_failed: false,
            skips: false,
            is_repeatable: false,
            snapshot: None,
            stalled: 0,
            work: Work::Read,
        };
        self.backends.insert(number, backend);
        number
    }

    pub(super) fn send(&mut self, number: u32, message: Message) {
        if let Some(backend) = self.backends.get_mut(&number) {
            if backend.is_alive {
                backend.inbox.push_back(message);
            }
        }
    }

    /// Returns the next reply.
    pub(super) fn receive(&mut self, number: u32) -> Option<Reply> {
        let backend = self.backends.get_mut(&number);
        backend.and_then(|it| it.outbox.pop_front())
    }

    /// Returns whether the connection has ended, and nothing is left to read.
    pub(super) fn has_ended(&self, number: u32) -> bool {
        let has = |backend: &Backend| backend.outbox.is_empty() && !backend.is_alive;
        self.backends.get(&number).map_or(true, has)
    }

    /// Returns whether something is left to read, or the connection has ended.
    pub(super) fn has_news(&self, number: u32) -> bool {
        let has = |backend: &Backend| !backend.outbox.is_empty() || !backend.is_alive;
        self.backends.get(&number).map_or(true, has)
    }

    /// Closes a connection at the proxy's side. The backend reads first what was sent.
    pub(super) fn cut(&mut self, number: u32) {
        if let Some(backend) = self.backends.get_mut(&number) {
            backend.is_cut = true;
            backend.outbox.clear();
        }
    }

    /// Ends a backend, unless it is inside its commit.
    fn end(&mut self, number: u32) {
        let backend = match self.backends.get_mut(&number) {
            Some(backend) if !matches!(backend.work, Work::Commit(..)) => backend,
            _ => return,
        };
        let levels = std::mem::take(&mut backend.levels);
        backend.is_alive = false;
        backend.inbox.clear();
        backend.work = Work::Read;
        self.abort(levels);
    }

    /// Ends any backend.
    pub(super) fn end_one(&mut self, random: &mut StdRng) {
        if let Some(number) = self.backends.keys().copied().choose(random) {
            self.end(number);
        }
    }

    /// Lets any backend stand still.
    pub(super) fn stall_one(&mut self, random: &mut StdRng) {
        if let Some(backend) = self.backends.values_mut().choose(random) {
            backend.stalled = random.gen_range(1..100);
        }
    }

    fn abort(&mut self, levels: Vec<Level>) {
        for level in levels {
            self.unlock(&level.own);
            self.aborted.extend(level.id);
            self.aborted.extend(level.merged);
        }
    }

    /// Crashes and recovers. Of what is not flushed any first part is left.
    pub(super) fn crash(&mut self, random: &mut StdRng) {
        let durable = if self.sync {
            self.log
                .iter()
                .rposition(|record| record.is_visible && !record.ids.is_empty())
        } else {
            None
        };
        let least = durable.map_or(0, |place| place + 1);
        let kept = random.gen_range(least..=self.log.len());
        let mut image = self.base.clone();
        for record in &self.log[..kept] {
            image.apply(record);
        }
        self.visible = image.clone();
        self.base = image;
        self.log.clear();
        let lost: Vec<Level> = self
            .backends
            .values_mut()
            .flat_map(|backend| {
                backend.is_alive = false;
                backend.inbox.clear();
                backend.work = Work::Read;
                std::mem::take(&mut backend.levels)
            })
            .collect();
        for level in lost {
            let ids = level.id.into_iter().chain(level.merged);
            self.aborted
                .extend(ids.filter(|id| !self.visible.ids.contains(id)));
        }
        self.locks = [None; KEYS];
        self.late.clear();
        self.owner = None;
        self.epoch = 0;
        self.life += 1;
    }

    fn show(&mut self, place: usize) {
        let record = &mut self.log[place];
        record.is_visible = true;
        let record = record.clone();
        self.visible.apply(&record);
    }

    fn keep_shown(&mut self, number: u32, place: usize) {
        let record = &self.log[place];
        let ends: Vec<Grant> = record.ends.iter().map(|end| end.0).collect();
        let rows = record.added.iter().map(|row| row.grant);
        let shown = self.shown.entry(number).or_default();
        shown.rows.extend(rows.map(|it| (it, ends.contains(&it))));
        shown.ends.extend(ends);
    }

    fn be_ready(&mut self, backend: &mut Backend, status: Status) {
        backend.outbox.push_back(Reply::Ready(status));
        let shown = self.shown.remove(&backend.number);
        backend.shown.push_back(shown.unwrap_or_default());
    }

    /// Returns what a connection has committed between the ReadyForQuery that was read last and the one before.
    pub(super) fn take_shown(&mut self, number: u32) -> Shown {
        let backend = self.backends.get_mut(&number);
        backend
            .and_then(|it| it.shown.pop_front())
            .unwrap_or_default()
    }

    /// Returns whether a row of the journal is not folded yet.
    pub(super) fn is_pending(&self, grant: Grant) -> bool {
        self.visible.journal.contains_key(&grant)
    }

    /// Returns whether anything can go on.
    pub(super) fn has_work(&self) -> bool {
        let has_work = |it: &Backend| it.has_work() || it.is_gone();
        self.is_slow || !self.late.is_empty() || self.backends.values().any(has_work)
    }

    /// Lets one backend go on.
    pub(super) fn step(&mut self, random: &mut StdRng) {
        self.backends.retain(|_, backend| !backend.is_gone());
        if !self.late.is_empty() && random.gen_range(0..50) == 0 {
            let late = self.late.swap_remove(random.gen_range(0..self.late.len()));
            self.read_late(late, random);
        }
        if self.log.len() > 50 && self.log.iter().all(|record| record.is_visible) {
            // A checkpoint: all of it is durable.
            self.base = self.visible.clone();
            self.log.clear();
        }
        let may_be = |it: &Backend| it.is_alive && (self.is_slow || it.has_work());
        let mut busy = self.backends.iter().filter(|(_, it)| may_be(it));
        let number = match busy.by_ref().choose(random) {
            Some((&number, _)) => number,
            None => return,
        };
        let mut backend = match self.backends.remove(&number) {
            Some(backend) => backend,
            None => return,
        };
        if backend.stalled > 0 {
            backend.stalled -= 1;
            self.backends.insert(number, backend);
            return;
        }
        match std::mem::replace(&mut backend.work, Work::Read) {
            Work::Read => match backend.inbox.pop_front() {
                Some(message) => self.read(&mut backend, message),
                None if backend.is_cut => {
                    backend.is_alive = false;
                    self.abort(std::mem::take(&mut backend.levels));
                }
                None => {}
            },
            Work::Test(note, then) => self.test(&mut backend, note, then),
            Work::Commit(record, replies, after) => {
                self.show(record);
                self.keep_shown(number, record);
                for level in backend.levels.drain(..) {
                    self.unlock(&level.own);
                }
                backend.snapshot = None;
                backend.in_block = after == After::Chain;
                if after == After::Chain {
                    backend.levels.push(Level::default());
                }
                if after == After::Fail {
                    self.fail(&mut backend);
                } else {
                    for reply in replies {
                        match reply {
                            Reply::Ready(status) => self.be_ready(&mut backend, status),
                            reply => backend.outbox.push_back(reply),
                        }
                    }
                }
            }
        }
        self.backends.insert(number, backend);
    }

    fn read(&mut self, backend: &mut Backend, message: Message) {
        match message {
            Message::Sync => {
                backend.skips = false;
                if !backend.in_block && !backend.levels.is_empty() {
                    self.commit(backend, vec![Reply::Ready(Status::Idle)], After::Nothing);
                    return;
                }
                let status = match (backend.in_block, backend.has_failed) {
                    (false, _) => Status::Idle,
                    (true, false) => Status::InBlock,
                    (true, true) => Status::Failed,
                };
                self.be_ready(backend, status);
            }
            _ if backend.skips => {}
            Message::Note(_) | Message::Direct(_) | Message::Here(_) | Message::OwnFold(_)
                if backend.has_failed =>
            {
                self.fail(backend);
            }
            Message::Note(note) => self.write(backend, note, Then::Nothing),
            Message::Direct(note) => self.write(backend, note, Then::Fold),
            Message::Here(note) => self.here(backend, note),
            Message::OwnFold(keys) => self.own_fold(backend, keys),
            Message::Statement(statement) => self.run(backend, statement),
        }
    }

    /// Writes a row of the journal. It is tested then (rule 7).
    fn write(&mut self, backend: &mut Backend, note: Note, then: Then) {
        self.see(backend);
        if let Some(level) = self.writing(backend) {
            level.rows.push(note);
        }
        backend.work = Work::Test(note, then);
    }

    /// Returns the innermost level, which has an id like those around it.
    fn writing<'a>(&mut self, backend: &'a mut Backend) -> Option<&'a mut Level> {
        if backend.levels.is_empty() {
            backend.levels.push(Level::default());
        }
        for level in &mut backend.levels {
            if level.id.is_none() {
                level.id = Some(self.next_id);
                self.next_id += 1;
            }
        }
        backend.levels.last_mut()
    }

    /// Rules 7, 8 and 10.
    fn test(&mut self, backend: &mut Backend, note: Note, then: Then) {
        let is_live = self.owner.map_or(false, |(_, epoch)| epoch == note.epoch);
        let passes = self.without == Some(Without::Epoch) || self.epoch == note.epoch && is_live;
        let id = backend.levels.last().and_then(|level| level.id);
        match id {
            Some(id) if passes => self.fold_noted(backend, note, id, then),
            _ => self.fail(backend),
        }
    }

    /// An error: it ends the innermost subtransaction, or the transaction.
    fn fail(&mut self, backend: &mut Backend) {
        backend.outbox.push_back(Reply::Error);
        backend.skips = true;
        if !backend.in_block {
            self.abort(std::mem::take(&mut backend.levels));
        } else if !backend.has_failed {
            backend.has_failed = true;
            if let Some(level) = backend.levels.last_mut() {
                let failed = std::mem::take(level);
                self.abort(vec![failed]);
            }
        }
    }

    fn commit(&mut self, backend: &mut Backend, replies: Vec<Reply>, after: After) {
        let ids: Vec<u64> = backend
            .levels
            .iter()
            .flat_map(|level| level.id.into_iter().chain(level.merged.iter().copied()))
            .collect();
        let moved = backend.moved();
        let held = backend
            .rows()
            .filter_map(|row| Some((row, *moved.get(&row.grant)?)));
        let is_left = |grant: &Grant| !moved.contains_key(grant);
        let ends = backend.levels.iter().flat_map(|level| level.ends.iter());
        let own = Own::of(backend.levels.iter().map(|level| &level.own));
        self.log.push(Record {
            added: backend.rows().filter(|row| is_left(&row.grant)).collect(),
            held: held.collect(),
            ends: ends.filter(|end| is_left(&end.0)).copied().collect(),
            rises: own.rises.clone(),
            removed: own.taken.clone(),
            own,
            ids,
            ..Record::default()
        });
        backend.work = Work::Commit(self.log.len() - 1, replies, after);
    }

    fn run(&mut self, backend: &mut Backend, statement: Statement) {
        use Statement::*;
        if backend.has_failed
            && !matches!(
                statement,
                Commit | CommitAndChain | Rollback | RollbackAndChain | RollbackTo(_)
            )
        {
            self.fail(backend);
            return;
        }
        let depth = backend.levels.len();
        if !matches!(statement, Begin | BeginRepeatable) {
            self.see(backend);
        }
        match statement {
            Begin | BeginRepeatable => {
                if !backend.in_block {
                    backend.is_repeatable = statement == BeginRepeatable;
                }
                backend.in_block = true;
                if backend.levels.is_empty() {
                    backend.levels.push(Level::default());
                }
                backend.outbox.push_back(Reply::Completed("BEGIN"));
            }
            Select => backend.outbox.push_back(Reply::Completed("SELECT 1")),
            Fail => self.fail(backend),
            Savepoint if backend.in_block => {
                backend.levels.push(Level::default());
                backend.outbox.push_back(Reply::Completed("SAVEPOINT"));
            }
            RollbackTo(to) if backend.in_block && to >= 1 && to < depth => {
                let dead = backend.levels.split_off(to);
                self.abort(dead);
                backend.levels.push(Level::default());
                backend.has_failed = false;
                backend.outbox.push_back(Reply::Completed("ROLLBACK"));
            }
            ReleaseTo(to) if backend.in_block && to >= 1 && to < depth => {
                let released = backend.levels.split_off(to);
                if let Some(level) = backend.levels.last_mut() {
                    for it in released {
                        level.merged.extend(it.id.into_iter().chain(it.merged));
                        level.rows.extend(it.rows);
                        level.locks_journal |= it.locks_journal;
                        level.moved.extend(it.moved);
                        level.ends.extend(it.ends);
                        level.own.add(&it.own);
                    }
                }
                backend.outbox.push_back(Reply::Completed("RELEASE"));
            }
            Savepoint | RollbackTo(_) | ReleaseTo(_) => self.fail(backend),
            Hold => self.hold(backend),
            Take(pick, in_part) => self.end_hold(backend, pick, Some(in_part)),
            Release(pick) => self.end_hold(backend, pick, None),
            Lock(_) | Write(_) | Insert(_) | Delete(_) | Change(..) => {
                self.write_row(backend, statement)
            }
            Commit | CommitAndChain | Rollback | RollbackAndChain => {
                self.end_block(backend, statement)
            }
            CallCommit { .. } | CallRollback if backend.in_block => self.fail(backend),
            CallCommit { fails } => {
                let after = if fails { After::Fail } else { After::Nothing };
                self.commit(backend, vec![Reply::Completed("CALL")], after);
            }
            CallRollback => {
                self.abort(std::mem::take(&mut backend.levels));
                backend.outbox.push_back(Reply::Completed("CALL"));
            }
        }
    }

    fn end_block(&mut self, backend: &mut Backend, statement: Statement) {
        use Statement::*;
        let chains = matches!(statement, CommitAndChain | RollbackAndChain);
        if chains && !backend.in_block {
            self.fail(backend);
            return;
        }
        let commits = matches!(statement, Commit | CommitAndChain) && !backend.has_failed;
        backend.has_failed = false;
        let after = if chains { After::Chain } else { After::Nothing };
        if commits {
            self.commit(backend, vec![Reply::Completed("COMMIT")], after);
        } else {
            self.abort(std::mem::take(&mut backend.levels));
            backend.snapshot = None;
            backend.in_block = chains;
            if chains {
                backend.levels.push(Level::default());
            }
            backend.outbox.push_back(Reply::Completed("ROLLBACK"));
        }
    }
}
