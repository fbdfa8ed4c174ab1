//! What transactions of clients do to rows themselves: own folds, direct notes, changes without a reservation, rows that they
//! insert, delete, lock or change otherwise. And how a proxy leaves rows and sweeps marks.

use std::collections::BTreeSet;

use super::super::server::Grant;
use super::super::{Change, Key, Without, KEYS, START};
use rand::rngs::StdRng;

use super::{
    meets, Backend, HoldId, Image, Late, Level, Locker, Mark, Note, Postgres, Record, Reply,
    Statement, Then, Work,
};

/// What a transaction, or a part of it, has written into rows.
#[derive(Clone, Default)]
pub(super) struct Own {
    /// The rows whose locks it has taken.
    locked: Vec<Key>,
    inserted: Vec<Key>,
    deleted: Vec<Key>,
    /// Rows of which it has written other columns.
    written: Vec<Key>,
    /// Changes of reservable columns in rows of its own, which the guard lets pass.
    changed: Vec<(Key, Change)>,
    /// It has changed a row without a reservation.
    was_here: bool,
    /// What its folds add to rows, and take out of the journal.
    pub(super) rises: Vec<(Key, Change)>,
    pub(super) taken: Vec<Grant>,
}

impl Own {
    pub(super) fn of<'a>(all: impl Iterator<Item = &'a Own>) -> Own {
        let mut sum = Own::default();
        all.for_each(|it| sum.add(it));
        sum
    }

    pub(super) fn add(&mut self, other: &Own) {
        self.locked.extend(&other.locked);
        self.inserted.extend(&other.inserted);
        self.deleted.extend(&other.deleted);
        self.written.extend(&other.written);
        self.changed.extend(&other.changed);
        self.was_here |= other.was_here;
        self.rises.extend(&other.rises);
        self.taken.extend(&other.taken);
    }

    /// Returns the value of a row that it leaves.
    fn left(&self, key: Key, before: Option<i64>) -> Option<i64> {
        let begun = match self.inserted.contains(&key) {
            true => Some(START),
            false => before,
        };
        let changes = self.rises.iter().chain(&self.changed);
        let sum: i64 = changes.filter(|it| it.0 == key).map(|it| it.1).sum();
        begun
            .filter(|_| !self.deleted.contains(&key))
            .map(|it| it + sum)
    }

    pub(super) fn has_taken(&self, grant: Grant) -> bool {
        self.taken.contains(&grant)
    }

    /// Returns whether it has changed a reservable column that no reservation stands for.
    pub(super) fn has_changed_without(&self) -> bool {
        self.was_here || !self.changed.is_empty()
    }

    /// Returns whether it has written a row anew.
    fn has_written(&self, key: Key) -> bool {
        let mut changes = self.rises.iter().chain(&self.changed);
        self.inserted.contains(&key) || self.written.contains(&key) || changes.any(|it| it.0 == key)
    }
}

impl Image {
    pub(super) fn insert(&mut self, own: &Own) {
        for &key in &own.inserted {
            self.rows[key] = Some(START);
            self.truth[key] = Some(START);
            self.versions[key] += 1;
        }
    }

    pub(super) fn change(&mut self, own: &Own) {
        for &(key, change) in &own.changed {
            self.rows[key] = self.rows[key].map(|it| it + change);
            self.truth[key] = self.truth[key].map(|it| it + change);
            self.versions[key] += 1;
        }
        for &key in &own.written {
            self.versions[key] += 1;
        }
        for &key in &own.deleted {
            self.rows[key] = None;
            self.truth[key] = None;
            self.versions[key] += 1;
        }
    }
}

/// What a transaction in REPEATABLE READ sees of others.
#[derive(Clone)]
pub(super) struct Snapshot {
    rows: [Option<i64>; KEYS],
    versions: [u64; KEYS],
    marks: [Option<Mark>; KEYS],
    /// The keys of which the journal has rows.
    journal: BTreeSet<Key>,
    /// The holds that stand.
    pub(super) holds: BTreeSet<HoldId>,
}

/// How often each happened.
#[derive(Clone, Copy, Debug, Default, PartialEq, Eq)]
pub(crate) struct Counts {
    pub(crate) own_folds: u64,
    pub(crate) direct: u64,
    pub(crate) here: u64,
    pub(crate) changed: u64,
    pub(crate) deleted: u64,
    pub(crate) left: u64,
    pub(crate) swept: u64,
    /// What was read late, and has done something.
    pub(crate) late: u64,
    /// What a hold has stopped: a DELETE, a change without a reservation, the end of a mark.
    pub(crate) held_deletes: u64,
    pub(crate) held_here: u64,
    pub(crate) held_marks: u64,
}

impl std::ops::AddAssign for Counts {
    fn add_assign(&mut self, other: Counts) {
        self.own_folds += other.own_folds;
        self.direct += other.direct;
        self.here += other.here;
        self.changed += other.changed;
        self.deleted += other.deleted;
        self.left += other.left;
        self.swept += other.swept;
        self.late += other.late;
        self.held_deletes += other.held_deletes;
        self.held_here += other.held_here;
        self.held_marks += other.held_marks;
    }
}

/// What became of a lock.
#[derive(Clone, Copy, PartialEq, Eq)]
enum Lock {
    Taken,
    /// Somebody else has it.
    Busy,
    /// There is no such row.
    Missing,
    /// In REPEATABLE READ: the row was written since the snapshot (40001).
    Stale,
}

impl Backend {
    pub(super) fn own(&self) -> Own {
        Own::of(self.levels.iter().map(|level| &level.own))
    }

    /// Returns whether all of its statements see one snapshot.
    fn sees_one(&self) -> bool {
        self.in_block && self.is_repeatable
    }
}

impl Postgres {
    /// Takes the snapshot of a transaction in REPEATABLE READ, at its first statement.
    pub(super) fn see(&self, backend: &mut Backend) {
        if backend.sees_one() && backend.snapshot.is_none() {
            backend.snapshot = Some(self.now_seen());
        }
    }

    fn now_seen(&self) -> Snapshot {
        Snapshot {
            rows: self.visible.rows,
            versions: self.visible.versions,
            marks: self.visible.marks,
            journal: self.visible.journal.values().map(|row| row.key).collect(),
            holds: self.standing().map(|line| line.hold).collect(),
        }
    }

    /// Returns what a statement of a transaction sees of others.
    pub(super) fn seen(&self, backend: &Backend) -> Snapshot {
        match &backend.snapshot {
            Some(snapshot) if backend.sees_one() => snapshot.clone(),
            _ => self.now_seen(),
        }
    }

    pub(super) fn unlock(&mut self, own: &Own) {
        for &key in &own.locked {
            self.locks[key] = None;
        }
    }

    /// Takes a row's lock for a transaction, if nobody else has it.
    fn lock(&mut self, backend: &mut Backend, key: Key) -> Lock {
        let own = backend.own();
        let me = Locker::Backend(backend.number);
        let seen = self.seen(backend);
        if own.left(key, seen.rows[key]).is_none() {
            return Lock::Missing;
        } else if self.locks[key] == Some(me) {
            return Lock::Taken;
        } else if self.locks[key].is_some() {
            return Lock::Busy;
        } else if seen.versions[key] != self.visible.versions[key] {
            return Lock::Stale;
        }
        self.locks[key] = Some(me);
        if let Some(level) = self.writing(backend) {
            level.own.locked.push(key);
        }
        Lock::Taken
    }

    /// Moves what a transaction sees of a key's rows of the journal into the row, which it has locked. Returns whether the
    /// CHECK holds.
    fn take(&mut self, backend: &mut Backend, key: Key) -> bool {
        let own = backend.own();
        let takes_others = !backend.sees_one() && self.without != Some(Without::OthersRows);
        let others = self.visible.journal.values().filter(|_| takes_others);
        let others = others.filter(|row| !own.has_taken(row.grant)).copied();
        let rows = others.chain(backend.pending());
        let rows: Vec<Note> = rows.filter(|row| row.key == key).collect();
        let rise: i64 = rows.iter().map(|row| row.change).sum();
        let before = own.left(key, self.seen(backend).rows[key]);
        if let Some(level) = self.writing(backend) {
            level.own.rises.push((key, rise));
            level.own.taken.extend(rows.iter().map(|row| row.grant));
        }
        before.map_or(true, |it| meets(it + rise))
    }

    /// A fold that may not be refused (rule 22).
    fn take_surely(&mut self, backend: &mut Backend, key: Key) {
        if !self.take(backend, key) {
            self.alarm = Some(format!("an own fold of key {} is refused", key));
        }
    }

    /// Rule 13: an own fold, in front of a COMMIT.
    pub(super) fn own_fold(&mut self, backend: &mut Backend, keys: [bool; KEYS]) {
        let mut are_all = true;
        for key in (0..KEYS).filter(|&key| keys[key]) {
            let may = !backend.sees_one() && self.lock(backend, key) == Lock::Taken;
            if may {
                self.own_counts.own_folds += 1;
                self.take_surely(backend, key);
            }
            are_all &= may;
        }
        backend.outbox.push_back(Reply::OwnFolded(are_all));
    }

    /// Ends a note whose test is passed.
    pub(super) fn fold_noted(&mut self, backend: &mut Backend, note: Note, id: u64, then: Then) {
        match then {
            Then::Nothing => backend.outbox.push_back(Reply::Noted(id, false)),
            Then::Fold => {
                let folds = self.lock(backend, note.key) == Lock::Taken;
                if folds && backend.is_cut && !self.take(backend, note.key) {
                    // The proxy has given it up, since it cannot commit (rule 3).
                    return self.fail(backend);
                } else if folds && !backend.is_cut {
                    self.own_counts.direct += 1;
                    self.take_surely(backend, note.key);
                }
                backend.outbox.push_back(Reply::Noted(id, folds));
            }
            Then::Here => self.change_here(backend, note),
        }
    }

    /// Rule 16: a change without a reservation, of a row that nobody holds. It locks the row, and then the journal, as a note
    /// does. The epoch is tested then.
    pub(super) fn here(&mut self, backend: &mut Backend, note: Note) {
        match self.lock(backend, note.key) {
            Lock::Taken => {}
            Lock::Stale => return self.fail(backend),
            Lock::Busy | Lock::Missing => {
                backend.outbox.push_back(Reply::Changed(false));
                return;
            }
        }
        if let Some(level) = self.writing(backend) {
            level.locks_journal = true;
        }
        backend.work = Work::Test(note, Then::Here);
    }

    /// Ends a change without a reservation whose test is passed (rules 16 and 27).
    fn change_here(&mut self, backend: &mut Backend, note: Note) {
        let seen = self.seen(backend);
        let mark = seen.marks[note.key];
        let is_marked = match backend.sees_one() {
            true => {
                let mut own = backend.pending().into_iter();
                let is_pending = seen.journal.contains(&note.key);
                mark.is_some() || is_pending || own.any(|row| row.key == note.key)
            }
            false => mark.map(|it| it.epoch) == Some(self.epoch),
        };
        let is_marked = is_marked && self.without != Some(Without::HereLooks);
        let is_held = !backend.sees_one()
            && self.is_held_for(backend, note.key)
            && self.without != Some(Without::HereLooksForHolds);
        if is_marked || is_held {
            self.own_counts.held_here += u64::from(is_held && !is_marked);
            backend.outbox.push_back(Reply::Changed(false));
            return;
        }
        if let Some(level) = self.writing(backend) {
            level.rows.push(note);
            level.own.was_here = true;
        }
        if self.take(backend, note.key) {
            self.own_counts.here += 1;
            backend.outbox.push_back(Reply::Changed(true));
        } else {
            self.fail(backend);
        }
    }

    /// What a client does to a row by itself.
    pub(super) fn write_row(&mut self, backend: &mut Backend, statement: Statement) {
        let key = match statement {
            Statement::Insert(key) => return self.insert(backend, key),
            Statement::Lock(key)
            | Statement::Write(key)
            | Statement::Delete(key)
            | Statement::Change(key, _) => key,
            _ => return self.fail(backend),
        };
        match self.lock(backend, key) {
            Lock::Taken => {}
            // It waits, and then its time is over.
            Lock::Busy | Lock::Stale => return self.fail(backend),
            Lock::Missing => {
                backend.outbox.push_back(Reply::Completed("UPDATE 0"));
                return;
            }
        }
        let (seen, own) = (self.seen(backend), backend.own());
        let mut pending = backend.pending().into_iter();
        let is_held = seen.marks[key].is_some()
            || seen.journal.contains(&key)
            || pending.any(|row| row.key == key);
        let has_hold = self.is_held(key);
        let level = match self.writing(backend) {
            Some(level) => level,
            None => return,
        };
        match statement {
            Statement::Write(key) => level.own.written.push(key),
            Statement::Delete(key) => {
                if is_held && self.without != Some(Without::DeleteLooks) {
                    self.own_counts.held_deletes += u64::from(has_hold);
                    return self.fail(backend);
                }
                self.own_counts.deleted += 1;
                level.own.deleted.push(key);
            }
            Statement::Change(key, change) => {
                // The guard: rules 15 and 16.
                let left = own.left(key, seen.rows[key]).map(|it| it + change);
                let is_refused = !own.has_written(key)
                    || is_held && self.without != Some(Without::GuardLooks)
                    || !left.map_or(true, meets);
                if is_refused {
                    return self.fail(backend);
                }
                self.own_counts.changed += 1;
                level.own.changed.push((key, change));
            }
            _ => {}
        }
        backend.outbox.push_back(Reply::Completed("UPDATE 1"));
    }

    /// An INSERT of a row. One that another transaction has just inserted or deleted is waited for, too long.
    fn insert(&mut self, backend: &mut Backend, key: Key) {
        let own = backend.own();
        let me = Locker::Backend(backend.number);
        let is_there = own.left(key, self.visible.rows[key]).is_some();
        if is_there || self.locks[key].map_or(false, |it| it != me) || own.deleted.contains(&key) {
            return self.fail(backend);
        }
        let is_locked = self.locks[key].replace(me).is_some();
        if let Some(Level { own, .. }) = self.writing(backend) {
            own.inserted.push(key);
            if !is_locked {
                own.locked.push(key);
            }
        }
        backend.outbox.push_back(Reply::Completed("INSERT 0 1"));
    }

    // What a proxy's own connections do to marks.

    /// Whether the owner of an epoch may still make and remove marks.
    pub(crate) fn is_present(&self, epoch: u64) -> bool {
        self.epoch == epoch
    }

    pub(crate) fn has_row(&self, key: Key) -> bool {
        self.visible.rows[key].is_some()
    }

    /// Folds a row that nobody has locked, and removes its mark, if that is for `is_its` to remove and no hold of the row stands
    /// (rule 27). Returns whether it has removed it.
    fn unmark(&mut self, key: Key, is_its: impl Fn(Mark) -> bool) -> bool {
        let mut journal = self.visible.journal.values();
        let has_any = self.visible.marks[key].is_some() || journal.any(|row| row.key == key);
        if self.locks[key].is_some() || !self.has_row(key) || !has_any {
            return false;
        }
        let is_free = !self.is_held(key) || self.without == Some(Without::MarksOfHolds);
        let is_its = self.visible.marks[key].map_or(false, is_its);
        self.own_counts.held_marks += u64::from(is_its && !is_free);
        let rows = self.visible.journal.values().filter(|row| row.key == key);
        let rows: Vec<Note> = rows.copied().collect();
        let rise: i64 = rows.iter().map(|row| row.change).sum();
        if !self.visible.rows[key].map_or(true, |it| meets(it + rise)) {
            self.alarm = Some(format!("a sweep of key {} is refused", key));
        }
        self.log.push(Record {
            rises: vec![(key, rise)],
            removed: rows.iter().map(|row| row.grant).collect(),
            marked: (is_its && is_free)
                .then_some((key, None))
                .into_iter()
                .collect(),
            ..Record::default()
        });
        self.show(self.log.len() - 1);
        is_its && is_free
    }

    /// A loader has sent this on a connection that is lost.
    pub(crate) fn keep_late(&mut self, late: Late) {
        self.late.push(late);
    }

    /// Reads what a loader has sent on a connection that is lost.
    pub(super) fn read_late(&mut self, late: Late, random: &mut StdRng) {
        match late {
            Late::Leave(key, mark) => {
                self.own_counts.late += u64::from(self.leave(key, mark));
            }
            Late::Load(key, mark) => {
                if !self.is_present(mark.epoch) || !self.has_row(key) || self.is_locked(key) {
                    return;
                }
                self.own_counts.late += 1;
                match self.fold(&[key], Some(mark), random) {
                    Ok(folding) => drop(self.folded(&folding)),
                    Err(text) => self.alarm = Some(text),
                }
            }
        }
    }

    /// A row is no longer held, by word of the owner of an epoch (event 16), who has loaded it before this number. A mark may be a
    /// former owner's, of a row that had holds. Returns whether it has removed it.
    pub(crate) fn leave(&mut self, key: Key, before: Mark) -> bool {
        let is_tested = self.without != Some(Without::LeavesOwn);
        let may = self.is_present(before.epoch) || !is_tested;
        let are_all = self.without == Some(Without::LeavesBefore);
        let is_its = |mark: Mark| mark.epoch != before.epoch || mark.load < before.load || are_all;
        let is_left = may && self.unmark(key, is_its);
        self.own_counts.left += u64::from(is_left);
        is_left
    }

    /// Removes a mark of a former epoch (rule 14), if something may be there to do.
    pub(crate) fn sweep(&mut self, key: Key, epoch: u64) {
        let may = self.is_present(epoch) || self.without == Some(Without::SweepTested);
        let is_marked = self.visible.marks[key].map_or(false, |mark| mark.epoch != epoch);
        if may && is_marked && self.unmark(key, |mark| mark.epoch != epoch) {
            self.own_counts.swept += 1;
        }
    }
}
