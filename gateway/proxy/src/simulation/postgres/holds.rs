//! Holds: rows of the journal that a transaction leaves as lines, takes of them, releases, and looks at what became of them.

use std::collections::BTreeSet;

use super::super::server::Grant;
use super::super::{Change, Key};
use super::{Backend, Image, Note, Postgres, Record, Reply};
use crate::protocol::Fate;

pub(super) type HoldId = u64;

/// A line of a hold.
#[derive(Clone, Copy, Debug)]
pub(in crate::simulation) struct HeldLine {
    pub(in crate::simulation) note: Note,
    pub(super) hold: HoldId,
    pub(in crate::simulation) fate: Fate<Change>,
}

impl Image {
    /// Returns the lines of holds that stand.
    pub(super) fn standing(&self) -> impl Iterator<Item = &HeldLine> {
        let lines = self.lines.values();
        lines.filter(|line| line.fate == Fate::Stands)
    }
}

impl Postgres {
    /// Returns the lines of holds that stand.
    pub(in crate::simulation) fn standing(&self) -> impl Iterator<Item = &HeldLine> {
        self.visible.standing()
    }

    /// Returns whether a line of a row stands.
    pub(super) fn is_held(&self, key: Key) -> bool {
        self.standing().any(|line| line.note.key == key)
    }

    /// Returns whether a line of a row stands as a transaction in READ COMMITTED sees it.
    pub(super) fn is_held_for(&self, backend: &Backend, key: Key) -> bool {
        let (moved, ended) = (backend.moved(), backend.ended());
        let is_left = |line: &&HeldLine| !ended.contains(&line.note.grant);
        let mut left = self.standing().filter(is_left);
        let mut own = backend.rows().filter(|row| moved.contains_key(&row.grant));
        left.any(|line| line.note.key == key) || own.any(|row| row.key == key)
    }

    /// Looks at lines of holds: forgets some, ends a hold whose time is over, and returns the others that have ended, and those
    /// that are asked.
    pub(in crate::simulation) fn look(
        &mut self,
        forgotten: Vec<Grant>,
        asked: &[Grant],
        ends_one: bool,
    ) -> Vec<HeldLine> {
        let over = match ends_one {
            true => self.free_hold(0).map_or(Vec::new(), |it| it.1),
            false => Vec::new(),
        };
        if !forgotten.is_empty() || !over.is_empty() {
            self.log.push(Record {
                forgotten,
                ends: over.into_iter().map(|it| (it, Fate::Free)).collect(),
                ..Record::default()
            });
            self.show(self.log.len() - 1);
        }
        let lines = self.visible.lines.values();
        let is_told = |it: &&HeldLine| it.fate != Fate::Stands || asked.contains(&it.note.grant);
        lines.filter(is_told).copied().collect()
    }

    /// Returns a hold that stands and that no transaction has locked, with its lines.
    fn free_hold(&self, pick: usize) -> Option<(HoldId, Vec<Grant>)> {
        let locked: BTreeSet<Grant> = self.backends.values().flat_map(Backend::ended).collect();
        let free = self
            .standing()
            .filter(|it| !locked.contains(&it.note.grant));
        let holds: BTreeSet<HoldId> = free.map(|it| it.hold).collect();
        let chosen = *holds.iter().nth(pick % holds.len().max(1))?;
        let lines = self.standing().filter(|it| it.hold == chosen);
        Some((chosen, lines.map(|it| it.note.grant).collect()))
    }

    /// Moves the transaction's own rows of the journal into a hold. What was taken in part cannot be held again, and what was
    /// changed without a reservation cannot be held at all.
    pub(super) fn hold(&mut self, backend: &mut Backend) {
        let own = backend.pending();
        let is_part = own.iter().any(|row| {
            let line = self.visible.lines.get(&row.grant);
            line.map_or(false, |line| line.note.change != row.change)
        });
        if own.is_empty() || is_part || backend.own().has_changed_without() {
            self.fail(backend);
            return;
        }
        let hold = self.number();
        if let Some(level) = self.writing(backend) {
            level.moved.extend(own.iter().map(|it| (it.grant, hold)));
        }
        backend.outbox.push_back(Reply::Completed("SELECT 1"));
    }

    /// Ends a hold. What is taken of it are rows of the journal.
    pub(super) fn end_hold(&mut self, backend: &mut Backend, pick: usize, takes: Option<bool>) {
        // The backend itself is not among the others now.
        let (own, seen) = (backend.ended(), self.seen(backend));
        let is_free = |hold: HoldId, lines: &[Grant]| {
            seen.holds.contains(&hold) && lines.iter().all(|it| !own.contains(it))
        };
        let lines = match self.free_hold(pick) {
            Some((hold, lines)) if is_free(hold, &lines) => lines,
            _ => return self.fail(backend),
        };
        let notes: Vec<Note> = lines.iter().map(|it| self.visible.lines[it].note).collect();
        if let Some(level) = self.writing(backend) {
            for mut note in notes {
                match takes {
                    Some(in_part) => {
                        if in_part && note.change.abs() > 1 {
                            note.change = note.change.signum();
                        }
                        level.rows.push(note);
                        level.ends.push((note.grant, Fate::Taken(note.change)));
                    }
                    None => level.ends.push((note.grant, Fate::Free)),
                }
            }
        }
        backend.outbox.push_back(Reply::Completed("SELECT 1"));
    }
}
