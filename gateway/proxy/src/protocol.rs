//! Ownership, commit and fold as a state machine without input and output.
//!
//! Events go in by [`Protocol::handle`], and actions come out, which the caller carries out in their order. The machine
//! never sees a value or a text: it knows keys, transaction ids, and what the replies of PostgreSQL say of an end. Rules
//! are those of `PROTOCOL.md`.
//!
//! What the caller owes: it relays nothing of a client between [`Event::Reserve`] and the [`Action::Answer`] to it, gives
//! each reply of PostgreSQL to what the client sent as [`Event::Completed`], [`Event::Failed`] and [`Event::Ready`], in
//! their order and before it reads on, and keeps a ReadyForQuery back until [`Action::Deliver`].

mod clients;
mod folds;
mod holds;
#[cfg(test)]
mod tests;

use std::collections::{BTreeMap, BTreeSet};

use clients::{Client, Kept, Settled, Stage};
use folds::Folds;
use holds::{Holds, LEAVES, MANY};

/// The most savepoints that the server keeps of a session.
pub const MARKS: u32 = 64;

/// The key of a row.
pub trait Row: Clone + Ord {
    /// What tells its table.
    type Table: Copy + Ord;

    /// Returns the row's table.
    fn table(&self) -> Self::Table;
}

/// A client's connection.
#[derive(Clone, Copy, Debug, PartialEq, Eq, PartialOrd, Ord, Hash)]
pub struct Connection(pub u32);

/// A transaction's or subtransaction's id of 64 bits, as `note` returns it.
#[derive(Clone, Copy, Debug, PartialEq, Eq, PartialOrd, Ord, Hash)]
pub struct Id(pub u64);

/// A savepoint of the proxy's own in a session of the server, from 1. One of the same number replaces it.
#[derive(Clone, Copy, Debug, PartialEq, Eq, PartialOrd, Ord, Hash)]
pub struct Mark(pub u32);

/// A note, by the epoch in which it was granted and by its number there. If its transaction has left it as a part of a hold,
/// a line of that hold in PostgreSQL has both.
#[derive(Clone, Copy, Debug, PartialEq, Eq, PartialOrd, Ord, Hash)]
pub struct Line {
    /// The epoch.
    pub epoch: i64,
    /// The number of the note.
    pub number: i64,
}

/// What has become of a line of a hold.
#[derive(Clone, Copy, Debug, PartialEq, Eq, Hash)]
pub enum Fate<C> {
    /// It stands: somebody may take it.
    Stands,
    /// It was taken, and so much of it is committed.
    Taken(C),
    /// It was released, or its time is over.
    Free,
}

/// What a look has found out about a line.
#[derive(Clone, Debug, PartialEq, Eq)]
pub struct News<K, C> {
    /// The line.
    pub line: Line,
    /// Its row.
    pub key: K,
    /// What has become of it.
    pub fate: Fate<C>,
    /// Whether it was granted in this epoch.
    pub is_ours: bool,
}

/// What `pg_xact_status` says of an id.
#[derive(Clone, Copy, Debug, PartialEq, Eq, Hash)]
pub enum Verdict {
    /// Committed, and seen by later snapshots.
    Committed,
    /// Rolled back.
    Aborted,
    /// Neither yet.
    InProgress,
}

/// What a command tag says of the end of transactions.
#[derive(Clone, Copy, Debug, PartialEq, Eq, Hash)]
pub enum Tag {
    /// It ends and begins none: SELECT, INSERT, UPDATE, DELETE, BEGIN, SET and their like.
    Plain,
    /// SAVEPOINT or RELEASE: another subtransaction goes on.
    Savepoint,
    /// COMMIT.
    Commit,
    /// Any other, known or not: ROLLBACK, PREPARE TRANSACTION, CALL, DO.
    Other,
}

impl Tag {
    /// Reads the tag of a CommandComplete. A tag that is not known is [`Tag::Other`], which costs a question.
    pub fn read(tag: &str) -> Tag {
        let word = tag.split(' ').next().unwrap_or_default();
        match word {
            "COMMIT" if tag == "COMMIT" => Tag::Commit,
            "SAVEPOINT" | "RELEASE" => Tag::Savepoint,
            "SELECT" | "INSERT" | "UPDATE" | "DELETE" | "MERGE" | "FETCH" | "MOVE" | "COPY"
            | "BEGIN" | "SET" | "RESET" | "SHOW" | "LOCK" | "EXPLAIN" => Tag::Plain,
            "DECLARE" | "CLOSE" | "PREPARE" | "DEALLOCATE" | "LISTEN" | "UNLISTEN" | "NOTIFY"
                if tag != "PREPARE TRANSACTION" =>
            {
                Tag::Plain
            }
            _ => Tag::Other,
        }
    }
}

/// The status of a ReadyForQuery.
#[derive(Clone, Copy, Debug, PartialEq, Eq, Hash)]
pub enum Status {
    /// No transaction is open.
    Idle,
    /// Inside a block.
    InBlock,
    /// Inside a block that has failed.
    Failed,
}

/// What happened.
#[derive(Clone, Debug, PartialEq, Eq)]
pub enum Event<K: Row, C> {
    /// The keeper has OWNER and the lock of a new epoch.
    OwnerTaken,
    /// Another proxy has OWNER.
    OwnerElsewhere,
    /// The epoch is set.
    EpochSet,
    /// Who holds a journal: somebody, or nobody any more.
    Holders {
        /// Whether somebody does.
        any: bool,
    },
    /// The keeper's connection is lost.
    KeeperLost,
    /// Some time has passed: what was not done is tried again.
    Tick,
    /// The row is loaded, and the server has it.
    Loaded {
        /// Its key.
        key: K,
        /// The lines of holds that stand, by the snapshot in which it was read.
        lines: Vec<(Line, C)>,
    },
    /// There is no such row, or it cannot be locked in time.
    NotLoaded {
        /// Its key.
        key: K,
        /// Whether the row does not exist.
        missing: bool,
    },
    /// A fold has committed.
    Folded {
        /// The keys whose row it could lock.
        keys: Vec<K>,
    },
    /// A fold's connection was lost, or it waited too long.
    FoldFailed,
    /// What a fold had left out was folded behind it after all.
    FoldedLate {
        /// The keys whose row was locked.
        keys: Vec<K>,
        /// How many commits were known when it began.
        commits: u64,
    },
    /// Rows that a fold could not lock may be free again.
    FoldAgain,
    /// A transaction has folded itself what it holds (rule 13).
    OwnFolded {
        /// Whose.
        connection: Connection,
        /// Of which key; None: all that it holds.
        key: Option<K>,
    },
    /// A fold of a table was refused (rule 22). Those of other tables go on.
    FoldRefused {
        /// Which table.
        table: K::Table,
    },
    /// The server does not have the row of a grant (rule 22).
    RowLacks {
        /// Whose grant.
        connection: Connection,
        /// The row's key.
        key: K,
    },
    /// The server has refused what it must do (rule 22).
    ServerBroke,
    /// A table that an alarm has stopped may be tried again.
    Resumed {
        /// Which table.
        table: K::Table,
    },
    /// A row is no longer to be held: somebody wants to delete it, or others need the room.
    Leave {
        /// Who waits for that, if anybody does.
        connection: Option<Connection>,
        /// Its key.
        key: K,
    },
    /// The row's mark is removed, or cannot be now.
    Left {
        /// Its key.
        key: K,
    },
    /// The client changes reservable columns of a row.
    Reserve {
        /// Which connection.
        connection: Connection,
        /// The row.
        key: K,
        /// The change.
        change: C,
        /// Whether the UPDATE is a transaction by itself, with nothing else before the Sync that the proxy sends.
        alone: bool,
    },
    /// The server has granted.
    Granted {
        /// To whom.
        connection: Connection,
    },
    /// The server has refused.
    Refused {
        /// Whom.
        connection: Connection,
    },
    /// The note is answered.
    Noted {
        /// Whose.
        connection: Connection,
        /// What wrote its row.
        id: Id,
        /// By which it is known if it becomes a part of a hold.
        line: Line,
    },
    /// The client's message names the functions of holds.
    Names {
        /// Whose.
        connection: Connection,
        /// Whether they may run by it.
        runs: bool,
    },
    /// The answer to [`Action::Look`].
    Looked {
        /// What was found.
        news: Vec<News<K, C>>,
    },
    /// A look was not possible, since somebody has locked what it needs. The next [`Event::Tick`] tries again.
    LookFailed,
    /// PostgreSQL has answered the note by an error.
    NoteFailed {
        /// Whose.
        connection: Connection,
    },
    /// A CommandComplete to what the client sent.
    Completed {
        /// Whose.
        connection: Connection,
        /// Its tag.
        tag: Tag,
    },
    /// An ErrorResponse to what the client sent.
    Failed {
        /// Whose.
        connection: Connection,
    },
    /// A ReadyForQuery.
    Ready {
        /// Whose.
        connection: Connection,
        /// Its status.
        status: Status,
        /// Whether more was sent behind what it ends.
        goes_on: bool,
    },
    /// The client has waited long enough for the fold.
    WaitOver {
        /// Which client.
        connection: Connection,
    },
    /// The client or its backend is gone.
    Lost {
        /// Which connection.
        connection: Connection,
    },
    /// The answer to [`Action::Ask`].
    Verdicts {
        /// Whose ids.
        connection: Connection,
        /// One for each id that was asked, in their order.
        verdicts: Vec<Verdict>,
    },
}

/// What the client gets to its UPDATE.
#[derive(Clone, Copy, Debug, PartialEq, Eq, Hash)]
pub enum Answer {
    /// `UPDATE 1`.
    Reserved,
    /// The server's refusal, which is raised inside PostgreSQL.
    Refused,
    /// `UPDATE 0`.
    Missing,
    /// The row is locked for too long (55P03).
    Locked,
    /// The transaction has too many subtransactions with reservations (54000).
    TooMany,
    /// PostgreSQL's own error to the note.
    Failed,
    /// Another proxy is the owner: connect there.
    NotOwner,
    /// An alarm has stopped the proxy.
    Stopped,
    /// An alarm has stopped the table.
    TableStopped,
}

/// A rule was broken (rule 22).
#[derive(Clone, Copy, Debug, PartialEq, Eq, Hash)]
pub enum Alarm {
    /// A fold was refused.
    FoldRefused,
    /// What survives of a transaction is no prefix of what it reserved.
    NoPrefix,
    /// The server has refused what it must do.
    ServerBroke,
    /// A transaction has left a hold, and was taken for committed.
    HoldUnseen,
}

/// What a session of the server is told, beside reservations. It never refuses these.
#[derive(Clone, Copy, Debug, PartialEq, Eq, Hash)]
pub enum Told {
    /// SAVEPOINT.
    Mark(Mark),
    /// ROLLBACK TO.
    BackTo(Mark),
    /// COMMIT.
    Commit,
    /// ROLLBACK.
    Rollback,
}

/// How much there is of what a metric shows.
#[derive(Clone, Copy, Debug, Default, PartialEq, Eq)]
pub struct Counts {
    /// Rows that the server has.
    pub rows: usize,
    /// Rows with committed changes that are not folded yet.
    pub pending: usize,
    /// Open reservations of transactions.
    pub reservations: usize,
    /// Open reservations of holds.
    pub holds: usize,
    /// Transactions with reservations that were committed and left to the folder in this epoch.
    pub commits: u64,
    /// Tables that an alarm has stopped.
    pub stopped: usize,
}

/// What is to be done.
#[derive(Clone, Debug, PartialEq, Eq)]
pub enum Action<K: Row, C> {
    /// Try to take OWNER, and the lock of a new epoch. The next [`Event::Tick`] tries again.
    TakeOwner,
    /// Set the epoch whose lock is held.
    SetEpoch,
    /// End who holds a journal, and look whether anybody still does.
    EndHolders,
    /// Start a server without rows in place of the present one, and forget what folder and loader were doing.
    RestartServer,
    /// Load a row, and give it to the server.
    Load(K),
    /// Take a row away from the server, if it has it, and remove its mark. The mark of a load that begins later stays.
    Leave(K),
    /// Fold these keys.
    Fold(Vec<K>),
    /// Tell a session of the server.
    Tell(Connection, Told),
    /// Ask the server for a change.
    Grant(Connection, K, C),
    /// Send the note and a Flush.
    Note(Connection, K, C),
    /// Ask for the outcome of these ids on the keeper.
    Ask(Connection, Vec<Id>),
    /// Look on the keeper what has become of holds, once these lines are forgotten, which have ended.
    Look {
        /// What is forgotten.
        done: Vec<Line>,
        /// Notes that may have become lines of a hold.
        asked: Vec<Line>,
    },
    /// End a transaction in the server: commit these changes, keep those reserved, and give back the rest.
    Keep {
        /// Whose session it is.
        connection: Connection,
        /// What is committed.
        committed: Vec<(K, C)>,
        /// What is kept.
        kept: Vec<(Line, K, C)>,
    },
    /// Reserve lines of holds, whose row was loaded. The server never refuses one.
    Reserve(Vec<(Line, K, C)>),
    /// End lines of holds in the server, and commit so much of each, or nothing.
    End(Vec<(Line, Option<C>)>),
    /// Answer the client's UPDATE, and relay on; send the Sync if the UPDATE is a transaction by itself (rule 3).
    Answer(Connection, Answer),
    /// Give the client the ReadyForQuery that was kept back.
    Deliver(Connection),
    /// End the connection at both sides. No [`Event::Lost`] follows.
    Close(Connection),
    /// Tell the operator. It stops one table, or all of them.
    Alarm(Alarm, Option<K::Table>),
}

/// How far a proxy is with becoming the owner.
#[derive(Clone, Copy, Debug, PartialEq, Eq, Hash)]
pub enum Ownership {
    /// It is not the owner, and does not know whether another is. Requests wait.
    Standby,
    /// Another proxy is the owner.
    Elsewhere,
    /// OWNER and the lock of the epoch are held.
    Owning,
    /// The epoch is set; older transactions may still hold a journal.
    Raised,
    /// It grants.
    Serving,
    /// An alarm has stopped it, until an operator starts it again.
    Stopped,
}

/// The state of a proxy.
pub struct Protocol<K: Row, C> {
    ownership: Ownership,
    clients: BTreeMap<Connection, Client<K, C>>,
    /// How often clients hold each key or ask for it. There may be thousands of them, so nobody looks at all.
    wanted: BTreeMap<K, usize>,
    /// The rows that the server has.
    loaded: BTreeSet<K>,
    /// Who waits for a row's load.
    loading: BTreeMap<K, Vec<Connection>>,
    /// Who waits until a row is no longer held.
    leaving: BTreeMap<K, Vec<Connection>>,
    folds: Folds<K>,
    /// The tables that an alarm has stopped, until an operator lets them go on.
    stopped: BTreeSet<K::Table>,
    holds: Holds<K, C>,
    #[cfg(test)]
    pub(crate) fault: Option<Fault>,
}

/// A rule that a test takes away.
#[cfg(test)]
#[derive(Clone, Copy, Debug, PartialEq, Eq)]
pub(crate) enum Fault {
    /// Rule 2: a connection that is lost has rolled back.
    LossIsRollback,
    /// Rule 4: an end is what the last tag says.
    EndByTag,
    /// Rule 4: the end of a later transaction is taken for that of one whose outcome is not known yet.
    LaterCycles,
    /// Rule 4: outcomes of different moments are taken for those of one.
    TornAnswers,
    /// Rule 5: a ROLLBACK TO passes unseen.
    RollbackUnseen,
    /// Rule 6: a transaction whose connection is lost while the server is asked is dead as far as it is known to be.
    LostGrants,
    /// Rule 9: nobody is waited for.
    NoWait,
    /// Rule 13a: what a transaction has folded itself of one key stands for all that it holds.
    AllAreFolded,
    /// Rule 13a: what another look has shown is not waited for.
    OthersLooks,
    /// Rule 13a: nobody waits for an end of a line that was shown too early to say anything of it.
    Unsaid,
    /// Rule 23: what has committed is told the server, also if it was left as a hold.
    HoldUnseen,
    /// Rule 24: a row's holds are not reserved when it is loaded.
    HoldsForgotten,
}

impl<K: Row, C: Clone> Default for Protocol<K, C> {
    fn default() -> Self {
        Protocol::new()
    }
}

impl<K: Row, C: Clone> Protocol<K, C> {
    /// Returns a standby, which takes OWNER at the first [`Event::Tick`].
    pub fn new() -> Protocol<K, C> {
        Protocol {
            ownership: Ownership::Standby,
            clients: BTreeMap::new(),
            wanted: BTreeMap::new(),
            loaded: BTreeSet::new(),
            loading: BTreeMap::new(),
            leaving: BTreeMap::new(),
            folds: Folds::new(),
            stopped: BTreeSet::new(),
            holds: Holds::new(),
            #[cfg(test)]
            fault: None,
        }
    }

    /// Returns how far it is with becoming the owner.
    pub fn ownership(&self) -> Ownership {
        self.ownership
    }

    /// Returns how much there is of each.
    pub fn counts(&self) -> Counts {
        Counts {
            rows: self.loaded.len(),
            pending: self.folds.len(),
            reservations: self.clients.values().map(Client::reservations).sum(),
            holds: self.holds.len(),
            commits: self.folds.turn(),
            stopped: self.stopped.len(),
        }
    }

    /// Returns how many transactions with reservations were committed and left to the folder in this epoch.
    pub fn commits(&self) -> u64 {
        self.folds.turn()
    }

    /// Returns whether an alarm has stopped a row's table.
    fn is_stopped(&self, key: &K) -> bool {
        self.stopped.contains(&key.table())
    }

    /// Returns whether nothing is open: no request, no reservation, no outcome and no fold.
    pub fn is_quiet(&self) -> bool {
        self.clients.values().all(Client::is_idle) && self.folds.is_empty() && self.holds.is_quiet()
    }

    /// Returns all that is reserved, and by whom.
    pub fn reservations(&self) -> impl Iterator<Item = (Connection, &K, &C)> {
        self.clients.iter().flat_map(|(&connection, client)| {
            let all = client.reserved();
            all.map(move |(key, change)| (connection, key, change))
        })
    }

    /// Returns whether nothing of a connection is open, and nothing has to be known of what it does.
    pub fn is_idle(&self, connection: Connection) -> bool {
        let is_idle = |client: &Client<K, C>| client.is_idle() && client.runs_since().is_none();
        self.clients.get(&connection).map_or(true, is_idle)
    }

    /// Returns the keys that a transaction may fold itself with its COMMIT (rule 13): all that it holds, if nobody else wants
    /// one of them and none waits for a fold. Otherwise none, since their rows would be locked over its flush.
    pub fn own_folds(&self, connection: Connection) -> BTreeSet<K> {
        let keys = match self.clients.get(&connection) {
            Some(client) if self.ownership == Ownership::Serving => client.alive(),
            _ => return BTreeSet::new(),
        };
        let is_wanted = |(key, own): (&K, &usize)| {
            self.is_stopped(key) || self.folds.has(key) || self.wanted.get(key) > Some(own)
        };
        if keys.iter().any(is_wanted) {
            return BTreeSet::new();
        }
        keys.into_keys().collect()
    }

    /// Returns whether a transaction may fold a change of this key with its note (rule 13): nobody else wants it, and none
    /// waits for its fold.
    pub fn may_fold(&self, connection: Connection, key: &K) -> bool {
        let client = self.clients.get(&connection);
        let own = client.map_or(0, |client| client.wants(key));
        !self.folds.has(key) && self.wanted.get(key).map_or(true, |&all| all <= own)
    }

    /// Forgets the rows of a table that is not declared any more, unless somebody has reserved some of it, asks for it or leaves it.
    /// Returns whether it did.
    pub fn forget_table(&mut self, table: K::Table) -> bool {
        let is_its = |key: &K| key.table() == table;
        let is_open = self.wanted.keys().any(is_its)
            || self.loading.keys().any(is_its)
            || self.leaving.keys().any(is_its)
            || self.holds.rows().any(is_its);
        if !is_open {
            self.loaded.retain(|key| !is_its(key));
        }
        !is_open
    }

    /// Takes an event, and returns what is to be done.
    pub fn handle(&mut self, event: Event<K, C>) -> Vec<Action<K, C>> {
        let mut actions = Vec::new();
        match event {
            Event::OwnerTaken => {
                if matches!(self.ownership, Ownership::Standby | Ownership::Elsewhere) {
                    self.ownership = Ownership::Owning;
                    actions.push(Action::SetEpoch);
                }
            }
            Event::OwnerElsewhere => {
                if self.ownership == Ownership::Standby {
                    self.ownership = Ownership::Elsewhere;
                    self.advance_all(&mut actions);
                }
            }
            Event::EpochSet => {
                if self.ownership == Ownership::Owning {
                    self.ownership = Ownership::Raised;
                    actions.push(Action::EndHolders);
                }
            }
            Event::Holders { any } => self.look(any, &mut actions),
            Event::KeeperLost => self.reset(&mut actions),
            Event::Tick => self.tick(&mut actions),
            Event::Loaded { key, lines } => {
                if self.loading.contains_key(&key) {
                    self.loaded.insert(key.clone());
                    self.reserve_holds(&key, lines, &mut actions);
                    self.loads_end(&key, None, &mut actions);
                }
            }
            Event::NotLoaded { key, missing } => {
                let answer = if missing {
                    Answer::Missing
                } else {
                    Answer::Locked
                };
                self.loads_end(&key, Some(answer), &mut actions);
            }
            Event::Leave { connection, key } => self.leave(connection, key, &mut actions),
            Event::Left { key } => {
                for connection in self.leaving.remove(&key).unwrap_or_default() {
                    actions.push(Action::Answer(connection, Answer::Missing));
                }
                self.advance_all(&mut actions);
            }
            Event::Folded { keys } => {
                for connection in self.folds.folded(&keys) {
                    self.release(connection, &mut actions);
                }
                self.fold(false, &mut actions);
            }
            Event::FoldFailed => self.folds.failed(),
            Event::FoldedLate { keys, commits } => {
                for connection in self.folds.folded_late(&keys, commits) {
                    self.release(connection, &mut actions);
                }
            }
            Event::FoldAgain => self.fold(true, &mut actions),
            Event::OwnFolded { connection, key } => {
                #[cfg(test)]
                let key = key.filter(|_| self.fault != Some(Fault::AllAreFolded));
                if let Some(client) = self.clients.get_mut(&connection) {
                    client.folded(key.as_ref());
                }
            }
            Event::FoldRefused { table } => {
                self.stop_table(table, Alarm::FoldRefused, &mut actions);
            }
            Event::RowLacks { connection, key } => {
                self.stop_table(key.table(), Alarm::ServerBroke, &mut actions);
                self.refused(connection, Answer::TableStopped, &mut actions);
            }
            Event::ServerBroke => self.alarm(Alarm::ServerBroke, &mut actions),
            Event::Resumed { table } => {
                self.stopped.remove(&table);
                self.fold(true, &mut actions);
            }
            Event::Reserve {
                connection,
                key,
                change,
                alone,
            } => {
                let client = self.clients.entry(connection).or_insert_with(Client::new);
                *self.wanted.entry(key.clone()).or_default() += 1;
                client.request(key, change, alone);
                client.release(&mut self.wanted);
                self.advance(connection, &mut actions);
            }
            Event::Granted { connection } => self.granted(connection, &mut actions),
            Event::Refused { connection } => {
                self.refused(connection, Answer::Refused, &mut actions);
            }
            Event::Noted {
                connection,
                id,
                line,
            } => self.noted(connection, id, line, &mut actions),
            Event::Names { connection, runs } => {
                let since = Some(self.folds.turn()).filter(|_| runs);
                let client = self.clients.entry(connection).or_insert_with(Client::new);
                client.names(since);
            }
            Event::Looked { news } => self.looked(news, &mut actions),
            Event::LookFailed => self.holds.give_up_look(),
            Event::NoteFailed { connection } => self.note_failed(connection, &mut actions),
            Event::Completed { connection, tag } => self.completed(connection, tag),
            Event::Failed { connection } => self.completed(connection, Tag::Other),
            Event::Ready {
                connection,
                status,
                goes_on,
            } => self.ready(connection, status, goes_on, &mut actions),
            Event::WaitOver { connection } => self.wait_over(connection, &mut actions),
            Event::Lost { connection } => self.lost(connection, &mut actions),
            Event::Verdicts {
                connection,
                verdicts,
            } => self.verdicts(connection, &verdicts, &mut actions),
        }
        #[cfg(test)]
        self.check_wanted();
        actions
    }

    /// Fails unless the counts of who wants each key are right.
    #[cfg(test)]
    fn check_wanted(&self) {
        if self.clients.len() < 10 {
            for key in self.clients.values().flat_map(Client::keys) {
                let all: usize = self.clients.values().map(|it| it.wants(key)).sum();
                assert_eq!(self.wanted.get(key), Some(&all));
            }
            let keys: BTreeSet<&K> = self.clients.values().flat_map(Client::keys).collect();
            assert_eq!(self.wanted.len(), keys.len());
        }
    }

    /// Serves once nobody holds a journal any more.
    fn look(&mut self, any: bool, actions: &mut Vec<Action<K, C>>) {
        #[cfg(test)]
        let any = any && self.fault != Some(Fault::NoWait);
        if self.ownership != Ownership::Raised || any {
            return;
        }
        self.ownership = Ownership::Serving;
        self.advance_all(actions);
    }

    fn advance_all(&mut self, actions: &mut Vec<Action<K, C>>) {
        for connection in self.clients.keys().copied().collect::<Vec<_>>() {
            self.advance(connection, actions);
        }
    }

    /// Begins anew: what the server held is of no epoch any more.
    fn reset(&mut self, actions: &mut Vec<Action<K, C>>) {
        // Nobody else folds what a client waits for.
        let folds = &self.folds;
        let is_open = |connection: Connection, client: &Client<K, C>| {
            !client.is_idle() || folds.is_awaited_by(connection)
        };
        for (&connection, client) in &self.clients {
            if !client.is_lost && is_open(connection, client) {
                actions.push(Action::Close(connection));
            }
        }
        // What a connection has named holds for it to its end.
        self.clients.retain(|&connection, client| {
            let stays = !client.is_lost && !is_open(connection, client) && client.may_hold();
            client.begin_anew();
            stays
        });
        self.wanted.clear();
        self.holds = Holds::new();
        self.loaded.clear();
        self.loading.clear();
        for connection in std::mem::take(&mut self.leaving).into_values().flatten() {
            actions.push(Action::Answer(connection, Answer::Missing));
        }
        self.folds = Folds::new();
        actions.push(Action::RestartServer);
        if self.ownership != Ownership::Stopped {
            self.ownership = Ownership::Standby;
            actions.push(Action::TakeOwner);
        }
    }

    /// Tries again what was not done.
    fn tick(&mut self, actions: &mut Vec<Action<K, C>>) {
        match self.ownership {
            Ownership::Standby | Ownership::Elsewhere => actions.push(Action::TakeOwner),
            Ownership::Raised => actions.push(Action::EndHolders),
            Ownership::Owning | Ownership::Stopped => {}
            Ownership::Serving => {
                self.fold(true, actions);
                self.holds.try_again();
                self.look_at_holds(true, actions);
            }
        }
        for (&connection, client) in &mut self.clients {
            if let Some(ids) = client.ask_again() {
                actions.push(Action::Ask(connection, ids));
            }
        }
    }

    /// Begins a fold of what is pending, if none is under way.
    fn fold(&mut self, all: bool, actions: &mut Vec<Action<K, C>>) {
        if self.ownership != Ownership::Serving {
            return;
        }
        let stopped = &self.stopped;
        let may_be_folded = |key: &K| !stopped.contains(&key.table());
        if let Some(keys) = self.folds.begin(all, may_be_folded) {
            actions.push(Action::Fold(keys));
        }
    }

    fn alarm(&mut self, alarm: Alarm, actions: &mut Vec<Action<K, C>>) {
        self.ownership = Ownership::Stopped;
        actions.push(Action::Alarm(alarm, None));
        self.advance_all(actions);
    }

    /// Grants and folds nothing more of a table. What has committed stays in its journal, so nobody waits for it.
    fn stop_table(&mut self, table: K::Table, alarm: Alarm, actions: &mut Vec<Action<K, C>>) {
        if self.stopped.insert(table) {
            actions.push(Action::Alarm(alarm, Some(table)));
        }
        for connection in self.folds.give_up(|key| key.table() == table) {
            self.release(connection, actions);
        }
        self.advance_all(actions);
    }

    /// Delivers a ReadyForQuery that waits for nothing any more.
    fn release(&mut self, connection: Connection, actions: &mut Vec<Action<K, C>>) {
        if self.folds.is_awaited_by(connection) {
            return;
        }
        if let Some(client) = self.clients.get_mut(&connection) {
            if client.may_go_on() {
                client.take_kept();
                actions.push(Action::Deliver(connection));
            }
        }
    }

    /// Delivers a ReadyForQuery, whatever it waits for: no later one waits for that either.
    fn wait_over(&mut self, connection: Connection, actions: &mut Vec<Action<K, C>>) {
        if let Some(client) = self.clients.get_mut(&connection) {
            if client.take_kept() {
                client.give_up(self.folds.turn());
                self.folds.forget(connection);
                self.holds.forget_news(connection);
                actions.push(Action::Deliver(connection));
            }
        }
    }

    /// Answers a request, which is over.
    fn end_request(
        &mut self,
        connection: Connection,
        answer: Answer,
        actions: &mut Vec<Action<K, C>>,
    ) {
        if let Some(client) = self.clients.get_mut(&connection) {
            client.end_request();
            client.release(&mut self.wanted);
            if !client.is_lost {
                actions.push(Action::Answer(connection, answer));
            }
        }
    }

    /// Goes on with a request, as far as it can without waiting.
    fn advance(&mut self, connection: Connection, actions: &mut Vec<Action<K, C>>) {
        let client = match self.clients.get_mut(&connection) {
            Some(client) if client.is_waiting() => client,
            _ => return,
        };
        match self.ownership {
            Ownership::Serving => {}
            Ownership::Stopped => return self.end_request(connection, Answer::Stopped, actions),
            Ownership::Elsewhere => return self.end_request(connection, Answer::NotOwner, actions),
            Ownership::Standby | Ownership::Owning | Ownership::Raised => return,
        }
        // Rule 5: the server must hold what is alive.
        if client.is_ending() || client.must_look() {
            return;
        }
        if client.is_unsure() {
            if let Some(ids) = client.ask() {
                actions.push(Action::Ask(connection, ids));
            }
            return;
        }
        let (key, change) = match client.asks() {
            Some(request) => (request.key.clone(), request.change.clone()),
            None => return,
        };
        if self.stopped.contains(&key.table()) {
            return self.end_request(connection, Answer::TableStopped, actions);
        }
        if self.leaving.contains_key(&key) {
            return;
        }
        if !self.loaded.contains(&key) {
            client.stage(Stage::Loading);
            let waiting = self.loading.entry(key.clone()).or_default();
            if waiting.is_empty() {
                actions.push(Action::Load(key));
            }
            waiting.push(connection);
            return;
        }
        match client.mark() {
            Ok(Some(mark)) => actions.push(Action::Tell(connection, Told::Mark(mark))),
            Ok(None) => {}
            Err(()) => return self.end_request(connection, Answer::TooMany, actions),
        }
        actions.push(Action::Grant(connection, key, change));
    }

    /// Holds a row no longer, if nobody has reserved it, asks for it, or may still commit a change of it (event 16). If somebody
    /// waits for that, PostgreSQL is asked also where the server does not have the row: its mark may have stayed.
    fn leave(&mut self, connection: Option<Connection>, key: K, actions: &mut Vec<Action<K, C>>) {
        let may_leave = self.ownership == Ownership::Serving && self.may_be_left(&key);
        if !may_leave {
            let answer = |connection| Action::Answer(connection, Answer::Missing);
            actions.extend(connection.map(answer));
        } else if let Some(waiting) = self.leaving.get_mut(&key) {
            waiting.extend(connection);
        } else if self.loaded.remove(&key) || connection.is_some() {
            let waiting = connection.into_iter().collect();
            self.leaving.insert(key.clone(), waiting);
            actions.push(Action::Leave(key));
        }
    }

    /// Returns whether nobody has reserved a row, asks for it, or may still commit a change of it, and its table goes on.
    pub fn may_be_left(&self, key: &K) -> bool {
        let is_wanted = self.holds.has_row(key)
            || self.loading.contains_key(key)
            || self.wanted.contains_key(key);
        !is_wanted && !self.is_stopped(key)
    }

    /// Goes on with those who waited for a row, or answers them.
    fn loads_end(&mut self, key: &K, answer: Option<Answer>, actions: &mut Vec<Action<K, C>>) {
        for connection in self.loading.remove(key).unwrap_or_default() {
            let client = match self.clients.get_mut(&connection) {
                Some(client) if client.is_at(Stage::Loading) => client,
                _ => continue,
            };
            client.stage(Stage::Waiting);
            match answer {
                Some(answer) => self.end_request(connection, answer, actions),
                None => self.advance(connection, actions),
            }
        }
        self.try_again(actions);
    }

    /// Looks again for those to whom nothing could be said before.
    fn try_again(&mut self, actions: &mut Vec<Action<K, C>>) {
        if self.holds.try_again() {
            self.look_at_holds(false, actions);
        }
    }

    /// Notes what was granted, or gives it back if nobody is there any more.
    fn granted(&mut self, connection: Connection, actions: &mut Vec<Action<K, C>>) {
        let client = match self.clients.get_mut(&connection) {
            Some(client) if client.is_at(Stage::Granting) => client,
            _ => return,
        };
        if client.is_lost {
            self.drop_request(connection, actions);
            return;
        }
        client.stage(Stage::Noting);
        if let Some(request) = client.asks() {
            actions.push(Action::Note(
                connection,
                request.key.clone(),
                request.change.clone(),
            ));
        }
    }

    /// Answers what the server has refused.
    fn refused(&mut self, connection: Connection, answer: Answer, actions: &mut Vec<Action<K, C>>) {
        let client = match self.clients.get_mut(&connection) {
            Some(client) if client.is_at(Stage::Granting) => client,
            _ => return,
        };
        if client.is_free() {
            // The session has a mark, and nothing else.
            actions.push(Action::Tell(connection, Told::Rollback));
        }
        self.end_request(connection, answer, actions);
        self.settle(connection, actions);
    }

    /// Rule 3: only now may something be sent that commits it.
    fn noted(
        &mut self,
        connection: Connection,
        id: Id,
        line: Line,
        actions: &mut Vec<Action<K, C>>,
    ) {
        let client = match self.clients.get_mut(&connection) {
            Some(client) if client.is_at(Stage::Noting) => client,
            _ => return,
        };
        if client.hold(id, line) {
            actions.push(Action::Answer(connection, Answer::Reserved));
        } else {
            // A subtransaction that no tag has told of: its fate may differ from that of its mark.
            actions.push(Action::Close(connection));
            self.lost(connection, actions);
        }
    }

    /// Rule 6: a note that failed is dead, and with it all of its subtransaction.
    fn note_failed(&mut self, connection: Connection, actions: &mut Vec<Action<K, C>>) {
        let is_noting = |client: &Client<K, C>| client.is_at(Stage::Noting);
        if !self.clients.get(&connection).map_or(false, is_noting) {
            return;
        }
        self.drop_request(connection, actions);
        actions.push(Action::Answer(connection, Answer::Failed));
        self.completed(connection, Tag::Other);
    }

    /// Gives back a grant that cannot commit any more.
    fn drop_request(&mut self, connection: Connection, actions: &mut Vec<Action<K, C>>) {
        if let Some(client) = self.clients.get_mut(&connection) {
            let told = client.drop_request();
            actions.extend(told.map(|told| Action::Tell(connection, told)));
        }
        self.settle(connection, actions);
    }

    /// Remembers what a reply says of ends.
    fn completed(&mut self, connection: Connection, tag: Tag) {
        #[cfg(test)]
        if self.fault == Some(Fault::RollbackUnseen) && tag == Tag::Other {
            return;
        }
        if let Some(client) = self.clients.get_mut(&connection) {
            client.completed(tag);
        }
    }

    /// Takes the end of a cycle: what it says of the transaction, by rules 4 and 5.
    fn ready(
        &mut self,
        connection: Connection,
        status: Status,
        goes_on: bool,
        actions: &mut Vec<Action<K, C>>,
    ) {
        let client = match self.clients.get_mut(&connection) {
            Some(client) => client,
            None => {
                actions.push(Action::Deliver(connection));
                return;
            }
        };
        client.keep();
        // A client may go on before the outcome of its last transaction is known. What its next ones say is of these.
        let is_later = client.is_ending();
        #[cfg(test)]
        let is_later = is_later && self.fault != Some(Fault::LaterCycles);
        let is_plain = client.is_plain_commit() && !is_later;
        #[cfg(test)]
        let is_plain = is_plain || self.fault == Some(Fault::EndByTag) && client.ends_with_commit();
        let has_commit = client.has_commit();
        let has_commit_behind = client.has_commit_behind();
        client.next_cycle();
        let ends = status == Status::Idle || status == Status::InBlock && has_commit;
        if ends && self.ownership == Ownership::Serving {
            if let Some(since) = client.runs_since() {
                client.await_news(since);
                self.holds.wait_for_news(connection);
            }
        }
        let mut asks = true;
        match status {
            Status::Idle => {
                if !goes_on {
                    client.end_runs();
                }
                asks = !is_later;
                if !is_later {
                    client.end();
                    client.await_outcome();
                }
                if is_plain && client.is_ending() {
                    client.decide_all(Verdict::Committed);
                    self.settle(connection, actions);
                    asks = false;
                }
            }
            Status::InBlock => {
                // What a ROLLBACK TO has ended is free for others at once.
                asks = client.is_unsure();
                if asks && has_commit_behind {
                    // COMMIT AND CHAIN.
                    client.await_outcome();
                }
            }
            // What the error has ended is free at once.
            Status::Failed => {}
        }
        if asks {
            self.ask(connection, actions);
        }
        self.look_at_holds(false, actions);
        self.release(connection, actions);
    }

    /// Asks for what is not decided, unless a question is under way.
    fn ask(&mut self, connection: Connection, actions: &mut Vec<Action<K, C>>) {
        let client = self.clients.get_mut(&connection);
        if let Some(ids) = client.and_then(Client::ask) {
            actions.push(Action::Ask(connection, ids));
        }
    }

    /// Rule 2: a loss says nothing, but of a note that was not answered (rule 3).
    fn lost(&mut self, connection: Connection, actions: &mut Vec<Action<K, C>>) {
        let client = match self.clients.get_mut(&connection) {
            Some(client) => client,
            None => return,
        };
        client.is_lost = true;
        client.take_kept();
        self.folds.forget(connection);
        self.holds.forget_news(connection);
        // Nothing was sent since it has asked the server that could commit what it holds (rule 6).
        let is_granting = client.is_at(Stage::Granting);
        let is_dead = is_granting || client.is_at(Stage::Noting);
        #[cfg(test)]
        let is_dead = is_dead && !(is_granting && self.fault == Some(Fault::LostGrants));
        if is_dead {
            if !is_granting || !client.is_free() {
                actions.push(Action::Tell(connection, Told::Rollback));
            }
            client.drop_held();
        }
        if !is_granting {
            // Otherwise the server's reply is still to come.
            client.end_request();
        }
        client.release(&mut self.wanted);
        client.end();
        #[cfg(test)]
        if self.fault == Some(Fault::LossIsRollback) {
            client.decide_all(Verdict::Aborted);
        }
        if let Some(ids) = client.ask() {
            actions.push(Action::Ask(connection, ids));
        }
        self.settle(connection, actions);
    }

    /// Takes outcomes by id.
    fn verdicts(
        &mut self,
        connection: Connection,
        verdicts: &[Verdict],
        actions: &mut Vec<Action<K, C>>,
    ) {
        let client = self.clients.get_mut(&connection);
        let is_new = client.map_or(false, |client| client.answered(verdicts));
        let is_torn = self.is_torn(connection);
        let client = match self.clients.get_mut(&connection) {
            Some(client) => client,
            None => return,
        };
        if is_new && !is_torn {
            client.be_sure();
        } else if let Some(ids) = client.ask() {
            actions.push(Action::Ask(connection, ids));
            return;
        }
        if !client.is_ending() && !client.must_look() {
            client.hear_outcome();
        }
        self.settle(connection, actions);
        self.advance(connection, actions);
    }

    /// Returns whether what is known of a transaction's outcomes is of different moments.
    fn is_torn(&self, connection: Connection) -> bool {
        #[cfg(test)]
        if self.fault == Some(Fault::TornAnswers) {
            return false;
        }
        let client = self.clients.get(&connection);
        client.map_or(false, Client::is_torn)
    }

    /// Begins a look for what has become of holds, if it is due or somebody waits for it.
    fn look_at_holds(&mut self, is_due: bool, actions: &mut Vec<Action<K, C>>) {
        if self.ownership != Ownership::Serving {
            return;
        }
        if let Some((done, who)) = self.holds.begin(is_due) {
            let clients = who.fates.iter().filter_map(|it| self.clients.get(it));
            let asked = clients.flat_map(Client::lines).collect();
            actions.push(Action::Look { done, asked });
        }
    }

    /// Reserves the lines of a row that was loaded, before anything else of it is granted (rule 24).
    fn reserve_holds(&mut self, key: &K, lines: Vec<(Line, C)>, actions: &mut Vec<Action<K, C>>) {
        #[cfg(test)]
        if self.fault == Some(Fault::HoldsForgotten) {
            return;
        }
        if lines.is_empty() {
            return;
        }
        let mut all = Vec::with_capacity(lines.len());
        for (line, change) in lines {
            self.holds.keep(line, key.clone(), change.clone());
            all.push((line, key.clone(), change));
        }
        actions.push(Action::Reserve(all));
    }

    /// Takes what a look has found. Lines of transactions that have ended tell what became of these; lines that the server
    /// has kept end there (rules 23 and 25).
    fn looked(&mut self, news: Vec<News<K, C>>, actions: &mut Vec<Action<K, C>>) {
        let who = self.holds.looked();
        let undecided: BTreeSet<Line> = match news.is_empty() {
            true => BTreeSet::new(),
            false => self.clients.values().flat_map(Client::lines).collect(),
        };
        let mut ends = Vec::new();
        let mut fates = BTreeMap::new();
        let mut taken = BTreeSet::new();
        let mut unheld = BTreeSet::new();
        let mut is_loading = false;
        let mut told = 0;
        let mut is_shown_again = false;
        for News {
            line,
            key,
            fate,
            is_ours,
        } in news
        {
            if undecided.contains(&line) {
                fates.insert(line, fate);
            } else if self.holds.has(&line) {
                let change = match fate {
                    Fate::Stands => continue,
                    Fate::Taken(change) => Some(change),
                    Fate::Free => None,
                };
                if change.is_some() {
                    taken.insert(key);
                }
                self.holds.end(&line);
                self.holds.forget([line]);
                ends.push((line, change));
                told += 1;
            } else if self.holds.is_done(&line) {
                // It was to be forgotten, and takes the room of another one.
                is_shown_again = true;
            } else if is_ours {
                return self.alarm(Alarm::HoldUnseen, actions);
            } else if self.loading.contains_key(&key) {
                is_loading = true;
            } else {
                // The row's load has not shown the line: what was taken may be in its journal still.
                self.holds.forget([line]);
                told += 1;
                if !self.loaded.contains(&key) {
                    unheld.insert(key.clone());
                }
                if matches!(fate, Fate::Taken(_)) {
                    taken.insert(key);
                }
            }
        }
        let is_more = told >= MANY || is_shown_again;
        if !ends.is_empty() {
            actions.push(Action::End(ends));
        }
        for key in unheld {
            // Its journal is folded, and its mark goes with its last hold. A table that is stopped is swept when it goes on.
            let may_leave = self.leaving.len() < LEAVES && !self.is_stopped(&key);
            if may_leave && !self.leaving.contains_key(&key) {
                self.leaving.insert(key.clone(), Vec::new());
                actions.push(Action::Leave(key));
            }
        }
        if !taken.is_empty() {
            self.folds.taken(&taken.into_iter().collect::<Vec<_>>());
        }
        for &connection in &who.fates {
            if let Some(client) = self.clients.get_mut(&connection) {
                client.tell_fates(&mut fates);
            }
            self.settle(connection, actions);
            self.advance(connection, actions);
        }
        // What was shown of transactions whose outcomes are not known, or of rows that are loaded, is told later.
        let is_unsaid = is_loading || fates.values().any(|it| !matches!(it, Fate::Stands));
        #[cfg(test)]
        let is_unsaid = is_unsaid && self.fault != Some(Fault::Unsaid);
        for connection in who.news {
            match (is_more, is_unsaid) {
                (true, _) => self.holds.wait_for_news(connection),
                (false, true) => self.holds.wait_again(connection),
                (false, false) => self.tell_news(connection, actions),
            }
        }
        self.fold(false, actions);
        self.holds.end_look();
        self.look_at_holds(is_more, actions);
    }

    /// A look has shown all that a connection may have taken: it waits for the folds of that.
    fn tell_news(&mut self, connection: Connection, actions: &mut Vec<Action<K, C>>) {
        let client = self.clients.get_mut(&connection);
        if let Some(since) = client.and_then(Client::hear_news) {
            #[cfg(test)]
            let since = match self.fault {
                Some(Fault::OthersLooks) => self.folds.turn(),
                _ => since,
            };
            let stopped = &self.stopped;
            let may_be_folded = |key: &K| !stopped.contains(&key.table());
            self.folds.wait_for_takes(since, connection, may_be_folded);
        }
        self.release(connection, actions);
    }

    /// Tells the server what is decided: what is dead goes, and an ended transaction whose outcomes are all known ends.
    fn settle(&mut self, connection: Connection, actions: &mut Vec<Action<K, C>>) {
        let is_torn = self.is_torn(connection);
        let client = match self.clients.get_mut(&connection) {
            Some(client) if !is_torn => client,
            // It is judged once it is asked again.
            _ => return,
        };
        #[cfg(test)]
        if self.fault == Some(Fault::HoldUnseen) {
            client.tell_fates(&mut BTreeMap::new());
        }
        let settled = client.settle();
        client.release(&mut self.wanted);
        let settled = match settled {
            Ok(settled) => settled,
            Err(alarm) => return self.alarm(alarm, actions),
        };
        let told = settled.told.iter();
        actions.extend(told.map(|&told| Action::Tell(connection, told)));
        if settled.needs_look {
            self.holds.wait_for_fates(connection);
            self.look_at_holds(false, actions);
            return;
        }
        if settled.is_over {
            client.hear_outcome();
        }
        let (waits, is_gone) = (client.waits_for_folds(), client.is_lost && client.is_idle());
        let is_over = settled.is_over;
        self.end_transaction(connection, settled, waits, actions);
        self.release(connection, actions);
        if is_gone {
            self.clients.remove(&connection);
        } else if is_over {
            self.advance(connection, actions);
        }
    }

    /// Takes what has become of a transaction that has ended. `waits` says that its client waits for the folds.
    fn end_transaction(
        &mut self,
        connection: Connection,
        settled: Settled<K, C>,
        waits: bool,
        actions: &mut Vec<Action<K, C>>,
    ) {
        let has_lines = settled.kept.is_some();
        if let Some(Kept { committed, lines }) = settled.kept {
            for (line, key, change) in &lines {
                self.holds.keep(*line, key.clone(), change.clone());
            }
            actions.push(Action::Keep {
                connection,
                committed,
                kept: lines,
            });
        }
        self.holds.forget(settled.done);
        self.folds.unlocked(&settled.folded);
        if !settled.taken.is_empty() {
            self.folds.taken(&settled.taken);
        }
        if !settled.committed.is_empty() {
            self.folds.committed(&settled.committed);
            if waits {
                let stopped = &self.stopped;
                let may_be_folded = |key: &K| !stopped.contains(&key.table());
                self.folds
                    .wait(settled.committed, connection, may_be_folded);
            }
        }
        self.fold(false, actions);
        if has_lines {
            self.try_again(actions);
        }
    }
}
