//! The server: committed values, sessions with reservations and savepoints. It tries every choice of what is open.

use std::collections::{BTreeMap, BTreeSet};

use super::postgres::Postgres;
use super::{Change, Key, GREATEST, LEAST};
use crate::protocol::{Connection, Mark, Told};

/// A grant of the proxy, by which a row of the journal is known.
pub(super) type Grant = u64;

enum Entry {
    Mark(Mark),
    Reservation(Key, Change, Grant),
}

/// A server in memory.
#[derive(Default)]
pub(super) struct Server {
    pub(super) values: BTreeMap<Key, i64>,
    sessions: BTreeMap<Connection, Vec<Entry>>,
    /// What is kept of holds.
    kept: BTreeMap<Grant, (Key, Change)>,
}

impl Server {
    fn open(&self) -> impl Iterator<Item = (Key, Change, Grant)> + '_ {
        let entries = self.sessions.values().flatten();
        let reserved = entries.filter_map(|entry| match entry {
            Entry::Reservation(key, change, grant) => Some((*key, *change, *grant)),
            Entry::Mark(_) => None,
        });
        let kept = self.kept.iter();
        reserved.chain(kept.map(|(grant, (key, change))| (*key, *change, *grant)))
    }

    /// Returns whether no choice of what is open breaks the CHECK with this change.
    fn may_grant(&self, key: Key, change: Change) -> bool {
        let open = || self.open().filter(|it| it.0 == key).map(|it| it.1);
        let value = self.values[&key] + change;
        let least = value + open().filter(|&it| it < 0).sum::<i64>();
        let greatest = value + open().filter(|&it| it > 0).sum::<i64>();
        least >= LEAST && greatest <= GREATEST
    }

    /// Commits a change that was reserved a moment ago.
    fn commit(&mut self, key: Key, change: Change) -> Result<(), String> {
        if !self.may_grant(key, change) {
            return Err(format!("{} of key {} is refused", change, key));
        }
        *self.values.entry(key).or_default() += change;
        Ok(())
    }

    /// Reserves a line of a hold.
    pub(super) fn reserve(&mut self, grant: Grant, key: Key, change: Change) -> Result<(), String> {
        if !self.may_grant(key, change) || self.kept.contains_key(&grant) {
            return Err(format!("{} of a hold of key {} is refused", change, key));
        }
        self.kept.insert(grant, (key, change));
        Ok(())
    }

    /// Ends a transaction that has left holds.
    pub(super) fn keep(
        &mut self,
        connection: Connection,
        committed: Vec<(Key, Change)>,
        kept: Vec<(Grant, Key, Change)>,
    ) -> Result<(), String> {
        self.sessions.remove(&connection);
        for (key, change) in committed {
            self.commit(key, change)?;
        }
        for (grant, key, change) in kept {
            self.reserve(grant, key, change)?;
        }
        Ok(())
    }

    /// Ends a line of a hold.
    pub(super) fn end(&mut self, grant: Grant, taken: Option<Change>) -> Result<(), String> {
        let (key, _) = self
            .kept
            .remove(&grant)
            .ok_or_else(|| format!("{} is not kept", grant))?;
        match taken {
            Some(change) => self.commit(key, change),
            None => Ok(()),
        }
    }

    /// Grants a change if no choice of what is open breaks the CHECK.
    pub(super) fn grant(
        &mut self,
        connection: Connection,
        key: Key,
        change: Change,
        grant: Grant,
    ) -> bool {
        let is_granted = self.may_grant(key, change);
        if is_granted {
            let entries = self.sessions.entry(connection).or_default();
            entries.push(Entry::Reservation(key, change, grant));
        }
        is_granted
    }

    /// Has a row no longer. Fails if something of it is open.
    pub(super) fn leave(&mut self, key: Key) -> Result<(), String> {
        if self.open().any(|it| it.0 == key) {
            return Err(format!("key {} is left, and something of it is open", key));
        }
        self.values.remove(&key);
        Ok(())
    }

    /// Does what a session is told. Fails if it would refuse.
    pub(super) fn tell(&mut self, connection: Connection, told: Told) -> Result<(), String> {
        let entries = self.sessions.entry(connection).or_default();
        match told {
            Told::Mark(mark) => {
                entries.retain(|entry| !matches!(entry, Entry::Mark(it) if *it == mark));
                entries.push(Entry::Mark(mark));
            }
            Told::BackTo(mark) => {
                let is_it = |entry: &Entry| matches!(entry, Entry::Mark(it) if *it == mark);
                let place = entries.iter().position(is_it);
                let place = place.ok_or_else(|| format!("{:?} has no {:?}", connection, mark))?;
                entries.truncate(place + 1);
            }
            Told::Rollback => entries.clear(),
            Told::Commit => {
                for entry in entries.drain(..) {
                    if let Entry::Reservation(key, change, _) = entry {
                        *self.values.entry(key).or_default() += change;
                    }
                }
            }
        }
        Ok(())
    }

    /// The invariant: D + J = V + the changes of what is open here and committed there.
    pub(super) fn check(&self, postgres: &Postgres) -> Result<(), String> {
        for (&key, &value) in &self.values {
            let open = self.open().filter(|it| it.0 == key);
            let committed = open.filter_map(|it| postgres.committed(it.2));
            let expected = value + committed.sum::<i64>();
            if postgres.now(key) != Some(expected) {
                return Err(format!(
                    "key {}: PostgreSQL has {:?}, the server {}",
                    key,
                    postgres.now(key),
                    expected
                ));
            }
        }
        for grant in postgres.may_commit() {
            if !self.open().any(|it| it.2 == grant) {
                return Err(format!("grant {} may commit, and is not open", grant));
            }
        }
        let open: BTreeSet<Grant> = self.open().map(|it| it.2).collect();
        for line in postgres.standing() {
            if self.values.contains_key(&line.note.key) && !open.contains(&line.note.grant) {
                return Err(format!("{:?} stands, and is not open", line));
            }
        }
        Ok(())
    }

    /// Returns whether something of a grant is reserved.
    pub(super) fn has_open(&self, grant: Grant) -> bool {
        self.open().any(|it| it.2 == grant)
    }

    /// Tests that nothing is left open but the holds that stand.
    pub(super) fn rested(&self, postgres: &Postgres) -> Result<(), String> {
        let stands: BTreeSet<Grant> = postgres.standing().map(|it| it.note.grant).collect();
        match self.open().find(|it| !stands.contains(&it.2)) {
            Some(left) => Err(format!("{:?} is left", left)),
            None => Ok(()),
        }
    }
}
