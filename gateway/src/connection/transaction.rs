//! Transactions and savepoints of a connection.

use std::time::Instant;

use crate::connection::work::Awaited;
use crate::connection::{Connection, Event};
use crate::variables::Snapshot;

/// What ReadyForQuery tells.
#[derive(Clone, Copy, Debug, Default, PartialEq, Eq)]
pub enum Block {
    /// No block is open. A transaction may be, until the end of the query or until Sync.
    #[default]
    None,
    /// A block is open.
    Open,
    /// A block is open, and a statement of it has failed.
    Failed,
}

/// A savepoint of the client's.
#[derive(Debug)]
struct Savepoint {
    name: String,
    /// How many reservations were made before it.
    reservations: u32,
    variables: Snapshot,
}

/// The transaction of a connection.
#[derive(Debug, Default)]
pub struct Transaction {
    /// The block.
    pub block: Block,
    /// Whether the statement is one of several of a simple query.
    pub several: bool,
    /// Whether the program's session holds reservations or savepoints.
    pub dirty: bool,
    /// Whether something was reserved since the last savepoint.
    pub reserved: bool,
    /// How many reservations the program's session holds.
    pub reservations: u32,
    /// READ ONLY.
    pub read_only: bool,
    savepoints: Vec<Savepoint>,
    /// The settings when it began.
    variables: Option<Snapshot>,
    since: Option<Instant>,
}

impl Transaction {
    /// Returns since when a block is open, or something is reserved.
    pub fn since(&self) -> Option<Instant> {
        self.since
    }

    /// Is told that the program's session holds one more reservation.
    pub fn reserves(&mut self, now: Instant) {
        self.reserved = true;
        self.reservations += 1;
        self.holds(now);
    }

    /// Is told that the program's session holds something.
    pub fn holds(&mut self, now: Instant) {
        self.dirty = true;
        self.since.get_or_insert(now);
    }

    /// Returns the place of the last savepoint of this name.
    pub fn savepoint(&self, name: &str) -> Option<usize> {
        self.savepoints
            .iter()
            .rposition(|savepoint| savepoint.name == name)
    }

    /// Forgets the savepoint at a place, and those behind it. What was reserved since stays.
    pub fn release(&mut self, place: usize) {
        self.savepoints.truncate(place);
        self.reserved = true;
    }
}

/// Returns the name that the savepoint at a place has in the program.
///
/// The program has no RELEASE, and a name that is used again stands behind all others. So a savepoint's place is its
/// name: what stands below it was made before, and what was released is made anew when its place is taken again.
pub fn savepoint_name(place: usize) -> String {
    format!("P{}", place)
}

impl Connection {
    /// Opens a block.
    pub(super) fn begin_block(&mut self, read_only: bool) {
        self.transaction.block = Block::Open;
        self.transaction.read_only = read_only;
        self.transaction.since.get_or_insert(self.now);
        if self.transaction.variables.is_none() {
            self.transaction.variables = Some(self.variables.snapshot());
        }
    }

    /// Remembers the settings, before one is changed inside a transaction.
    pub(super) fn remember_variables(&mut self) {
        let is_inside = self.transaction.block != Block::None || self.transaction.several;
        if is_inside && self.transaction.variables.is_none() {
            self.transaction.variables = Some(self.variables.snapshot());
        }
    }

    /// Forgets the transaction, which was committed or rolled back.
    pub(super) fn end_transaction(&mut self, committed: bool) {
        if self.transaction.dirty || self.transaction.block != Block::None {
            self.events.push(if committed {
                Event::Committed
            } else {
                Event::RolledBack
            });
        }
        let variables = self.transaction.variables.take();
        if let (false, Some(variables)) = (committed, variables) {
            self.restore_variables(&variables);
        }
        let several = self.transaction.several;
        self.transaction = Transaction {
            several,
            ..Transaction::default()
        };
        self.end_local_variables();
        self.prepared.drop_portals();
    }

    /// Forgets the transaction, and opens the next block with its modes if it is chained.
    pub(super) fn end_block(&mut self, committed: bool, chain: bool) {
        let read_only = self.transaction.read_only;
        self.end_transaction(committed);
        if chain {
            self.begin_block(read_only);
        }
    }

    /// Goes back as far as PostgreSQL does when a statement fails: behind the last savepoint of a block, or to the
    /// transaction's begin. What was reserved since is free for others at once.
    pub(super) fn abort(&mut self) {
        if self.transaction.block == Block::None {
            if self.transaction.dirty {
                self.undo(&["ROLLBACK"]);
            }
            self.end_transaction(false);
            return;
        }
        self.transaction.block = Block::Failed;
        self.prepared.drop_portals();
        if !self.transaction.reserved {
            return;
        }
        self.transaction.reserved = false;
        let last = self.transaction.savepoints.last();
        self.transaction.reservations = last.map_or(0, |savepoint| savepoint.reservations);
        match self.transaction.savepoints.len().checked_sub(1) {
            Some(last) => self.undo(&["ROLLBACK TO ", &savepoint_name(last)]),
            None => {
                self.undo(&["ROLLBACK"]);
                self.transaction.dirty = false;
            }
        }
    }

    /// Rolls back by a line whose reply tells the client nothing. Nothing more is asked before that is done.
    fn undo(&mut self, words: &[&str]) {
        self.ask_in_transaction(words, Awaited::Undo);
    }

    /// Adds a savepoint, which the program has under its place's name.
    pub(super) fn add_savepoint(&mut self, name: String) {
        let savepoint = Savepoint {
            name,
            reservations: self.transaction.reservations,
            variables: self.variables.snapshot(),
        };
        self.transaction.savepoints.push(savepoint);
        self.transaction.reserved = false;
        self.transaction.holds(self.now);
    }

    /// Returns how many savepoints there are.
    pub(super) fn savepoints(&self) -> usize {
        self.transaction.savepoints.len()
    }

    /// Goes back to the savepoint at a place, to which the program went back.
    pub(super) fn back_to_savepoint(&mut self, place: usize) {
        self.transaction.savepoints.truncate(place + 1);
        self.transaction.block = Block::Open;
        self.transaction.reserved = false;
        if let Some(savepoint) = self.transaction.savepoints.last() {
            self.transaction.reservations = savepoint.reservations;
            let variables = savepoint.variables.clone();
            self.restore_variables(&variables);
        }
    }
}
