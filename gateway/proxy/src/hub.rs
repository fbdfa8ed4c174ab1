//! Where the state machine meets the world: events go in under one lock, and actions are handed to who carries them out.
//!
//! Nothing waits here. The server's lines are queued under the same lock, so that it is told things in the order in which
//! the machine decided them.

use std::collections::{BTreeMap, BTreeSet, HashMap};
use std::sync::{Arc, Mutex, MutexGuard, PoisonError};
use std::time::{Duration, Instant, SystemTime};

use tokio::sync::mpsc::{unbounded_channel, UnboundedReceiver, UnboundedSender};
use tokio::sync::{oneshot, watch, Notify};

use crate::catalog::Catalog;
use crate::json;
use crate::metrics::{Metrics, Now};
use crate::note::Secret;
use crate::process::Lines;
use crate::protocol::{Action, Answer, Connection, Event, Line, Ownership, Protocol, Told};
use crate::server::{Lacks, Refusal, Said, Server};
use crate::target::Address;
use crate::update::{Change, Key};

/// An event of the proxy.
pub type HubEvent = Event<Key, Change>;

/// Counts the servers that were started. What belongs to a former one is dropped.
pub type Generation = u64;

/// What a connection's task is told about its request.
#[derive(Debug)]
pub enum Mail {
    /// Send the note.
    Note {
        /// The row.
        key: Key,
        /// What it changes by.
        change: Change,
        /// The epoch of the owner.
        epoch: i64,
        /// Whether it may fold its own change, if it is a transaction by itself.
        may_fold: bool,
    },
    /// The request is over.
    Answer(Answer, Option<Refusal>),
}

/// How the hub reaches a connection's task.
#[derive(Clone)]
struct Link {
    /// The process that serves the client, once it is greeted.
    process: i32,
    mail: UnboundedSender<Mail>,
    delivered: UnboundedSender<()>,
    end: Arc<Notify>,
}

/// A connection's ends of its channels.
pub struct Ends {
    /// Its number.
    pub connection: Connection,
    /// About its request.
    pub mail: UnboundedReceiver<Mail>,
    /// ReadyForQuery may go on.
    pub delivered: UnboundedReceiver<()>,
    /// The connection has to end.
    pub end: Arc<Notify>,
}

/// What the keeper is asked for.
#[derive(Debug)]
pub enum KeeperTask {
    /// An action of its own.
    Do(Action<Key, Change>),
    /// The server has ended: ownership begins anew.
    Abandon,
    /// Say whether this process of PostgreSQL serves a client.
    Find(i32, oneshot::Sender<bool>),
}

/// When a fold began.
#[derive(Clone, Copy, Debug)]
pub struct Folding {
    /// Whose generation it is of.
    pub generation: Generation,
    /// How many commits were known.
    pub commits: u64,
}

/// What the folder is asked for.
#[derive(Debug)]
pub enum FolderTask {
    /// Fold these keys.
    Fold(Folding, Vec<Key>),
    /// Fold whatever journals have, for the owner of this epoch.
    Sweep(i64),
    /// The same, in a while.
    SweepSoon(i64),
}

/// What a loader is asked for.
#[derive(Debug)]
pub enum LoaderTask {
    /// Load a row. The load has this number.
    Load(Generation, i64, Key),
    /// Remove the mark of a row that the server of this epoch's owner does not have, and say so.
    Leave(Generation, Leaving, Key, Left),
}

/// Which marks of a row are removed: those of other epochs, and of loads before this number.
#[derive(Clone, Copy, Debug, PartialEq, Eq)]
pub struct Leaving {
    /// The epoch of the owner that leaves the row.
    pub epoch: i64,
    /// The number.
    pub number: i64,
}

/// Why a row's mark is removed.
#[derive(Clone, Copy, Debug, PartialEq, Eq)]
pub enum Left {
    /// The server had it.
    Held,
    /// The server cannot have it.
    Refused,
}

/// Where tasks of other connections of the proxy's own go.
pub struct Workers {
    /// To the keeper.
    pub keeper: UnboundedSender<KeeperTask>,
    /// To the folder.
    pub folder: UnboundedSender<FolderTask>,
    /// To the loaders.
    pub loader: UnboundedSender<LoaderTask>,
    /// To who starts servers: the new one's generation.
    pub starter: UnboundedSender<Generation>,
}

/// An alarm that has stopped a table.
struct Stop {
    since: SystemTime,
    why: String,
}

struct State {
    protocol: Protocol<Key, Change>,
    links: HashMap<Connection, Link>,
    connections: u32,
    server: Server,
    generation: Generation,
    /// Takes the server's lines. None: it is not started yet.
    lines: Option<Lines>,
    refusals: HashMap<Connection, Refusal>,
    /// The lines of holds that rows have which the server is given.
    arriving: HashMap<Key, Vec<(Line, Change)>>,
    /// When each transaction with reservations got its first one.
    since: HashMap<Connection, Instant>,
    /// The tables that alarms have stopped, by their numbers.
    stopped: BTreeMap<i32, Stop>,
    /// The number of commits when the last fold began.
    commits: u64,
    epoch: i64,
    /// The last number that a note, a greeting, a tag or a load has.
    number: i64,
}

/// What all tasks share.
pub struct Hub {
    state: Mutex<State>,
    workers: Workers,
    catalog: watch::Sender<Option<Arc<Catalog>>>,
    generations: watch::Sender<Generation>,
    refresh: Notify,
    metrics: Metrics,
    secret: Mutex<Option<Secret>>,
    address: Mutex<Option<Address>>,
    /// Held while a connection is greeted: greetings go one after another (rule 18).
    pub greeting: tokio::sync::Mutex<()>,
}

fn lock<T>(mutex: &Mutex<T>) -> MutexGuard<'_, T> {
    // What is kept is whole after each change; a task that panicked has ended its own connection.
    mutex.lock().unwrap_or_else(PoisonError::into_inner)
}

impl Hub {
    /// Makes the hub of a standby.
    pub fn new(workers: Workers, metrics: Metrics) -> Hub {
        let _ = workers.starter.send(1);
        Hub {
            state: Mutex::new(State {
                protocol: Protocol::new(),
                links: HashMap::new(),
                connections: 0,
                server: Server::new(),
                generation: 1,
                lines: None,
                refusals: HashMap::new(),
                arriving: HashMap::new(),
                since: HashMap::new(),
                stopped: BTreeMap::new(),
                commits: 0,
                epoch: 0,
                number: 0,
            }),
            workers,
            catalog: watch::channel(None).0,
            generations: watch::channel(1).0,
            refresh: Notify::new(),
            metrics,
            secret: Mutex::new(None),
            address: Mutex::new(None),
            greeting: tokio::sync::Mutex::new(()),
        }
    }

    /// Makes a connection known.
    pub fn open(&self) -> Ends {
        let mut state = lock(&self.state);
        state.connections += 1;
        let connection = Connection(state.connections);
        let (mail, to_mail) = unbounded_channel();
        let (delivered, to_delivered) = unbounded_channel();
        let end = Arc::new(Notify::new());
        let link = Link {
            process: 0,
            mail,
            delivered,
            end: end.clone(),
        };
        state.links.insert(connection, link);
        Ends {
            connection,
            mail: to_mail,
            delivered: to_delivered,
            end,
        }
    }

    /// Forgets a connection whose both sides have ended.
    pub fn close(&self, connection: Connection) {
        let mut state = lock(&self.state);
        state.links.remove(&connection);
        state.refusals.remove(&connection);
        self.take(&mut state, Event::Lost { connection });
    }

    /// Takes an event.
    pub fn handle(&self, event: HubEvent) {
        self.take(&mut lock(&self.state), event);
    }

    /// Takes what belongs to a server: nothing of a former one.
    pub fn report(&self, generation: Generation, event: HubEvent) {
        let mut state = lock(&self.state);
        if state.generation == generation {
            self.take(&mut state, event);
        }
    }

    /// Returns whether nothing of a connection is open.
    pub fn is_idle(&self, connection: Connection) -> bool {
        lock(&self.state).protocol.is_idle(connection)
    }

    /// Returns the keys that a transaction may fold itself with its COMMIT.
    pub fn own_folds(&self, connection: Connection) -> BTreeSet<Key> {
        lock(&self.state).protocol.own_folds(connection)
    }

    /// Remembers which server takes writes: clients' connections go there.
    pub fn set_address(&self, address: Address) {
        *lock(&self.address) = Some(address);
    }

    /// Forgets which server takes writes.
    pub fn forget_address(&self) {
        *lock(&self.address) = None;
    }

    /// Returns the server that took writes when the keeper connected last.
    pub fn address(&self) -> Option<Address> {
        lock(&self.address).clone()
    }

    /// Returns how far the proxy is with becoming the owner.
    pub fn ownership(&self) -> Ownership {
        lock(&self.state).protocol.ownership()
    }

    /// Returns what counts.
    pub fn metrics(&self) -> &Metrics {
        &self.metrics
    }

    /// Returns what is true at the moment.
    pub fn now(&self) -> Now {
        let state = lock(&self.state);
        let oldest = state.since.values().min();
        Now {
            ownership: state.protocol.ownership(),
            connections: state.links.len(),
            counts: state.protocol.counts(),
            oldest: oldest.map_or(Duration::ZERO, Instant::elapsed),
        }
    }

    /// Remembers which process serves a client.
    pub fn set_process(&self, connection: Connection, process: i32) {
        if let Some(link) = lock(&self.state).links.get_mut(&connection) {
            link.process = process;
        }
    }

    /// Returns whether a process of PostgreSQL has ended, as far as the keeper knows.
    pub async fn has_ended(&self, process: i32) -> bool {
        let (tell, told) = oneshot::channel();
        let _ = self.workers.keeper.send(KeeperTask::Find(process, tell));
        // Without a keeper nobody answers.
        told.await == Ok(false)
    }

    /// Returns all that is reserved and the tables that are stopped, as `escrow.show` reads it.
    pub fn reservations(&self) -> String {
        let state = lock(&self.state);
        let now = SystemTime::now();
        let entries = state.protocol.reservations().map(|(connection, key, change)| {
            let process = state.links.get(&connection).map_or(0, |link| link.process);
            let age = state.since.get(&connection).map_or(Duration::ZERO, Instant::elapsed);
            let changes = change.iter().map(|it| match it {
                Some(it) => format!("\"{it}\""),
                None => "null".to_owned(),
            });
            format!(
                "{{\"process\":{process},\"table\":{},\"key\":{},\"changes\":[{}],\"since\":\"{}\"}}",
                key.table,
                json::string(&key.text),
                changes.collect::<Vec<_>>().join(","),
                json::time(now.checked_sub(age).unwrap_or(now))
            )
        });
        let stopped = state.stopped.iter().map(|(table, stop)| {
            format!(
                "{{\"table\":{table},\"changes\":[],\"since\":\"{}\",\"stopped\":{}}}",
                json::time(stop.since),
                json::string(&stop.why)
            )
        });
        let entries: Vec<String> = entries.chain(stopped).collect();
        format!("[{}]", entries.join(","))
    }

    /// Returns the epoch.
    pub fn epoch(&self) -> i64 {
        lock(&self.state).epoch
    }

    /// Returns whether this proxy grants as the owner of an epoch, as far as it knows.
    pub fn serves(&self, epoch: i64) -> bool {
        let state = lock(&self.state);
        state.epoch == epoch && state.protocol.ownership() == Ownership::Serving
    }

    /// Returns a number that is above all before.
    pub fn number(&self) -> i64 {
        lock(&self.state).next_number()
    }

    /// Goes on with numbers above one that PostgreSQL has had in this epoch.
    pub fn pass_number(&self, last: i64) {
        let mut state = lock(&self.state);
        state.number = state.number.max(last);
    }

    /// Begins an epoch, which PostgreSQL has. Numbers go on: who still asks for one in the former epoch gets none that
    /// PostgreSQL has had before (rule 18).
    pub fn begin_epoch(&self, epoch: i64) {
        lock(&self.state).epoch = epoch;
    }

    /// Keeps the secret of schema `escrow`.
    pub fn set_secret(&self, secret: Secret) {
        *lock(&self.secret) = Some(secret);
    }

    /// Returns the secret, once the keeper has read it.
    pub fn secret(&self) -> Option<Secret> {
        lock(&self.secret).clone()
    }

    /// Returns the generation of the server that is there, which changes whenever the proxy begins anew.
    pub fn generations(&self) -> watch::Receiver<Generation> {
        self.generations.subscribe()
    }

    /// Returns what is declared, and what it becomes.
    pub fn catalog(&self) -> watch::Receiver<Option<Arc<Catalog>>> {
        self.catalog.subscribe()
    }

    /// Returns what is declared, as it was read last. None: it was not read yet.
    pub fn declared(&self) -> Option<Arc<Catalog>> {
        self.catalog.borrow().clone()
    }

    /// Keeps what is declared.
    pub fn set_catalog(&self, catalog: Catalog) {
        let stopped: Vec<i32> = lock(&self.state).stopped.keys().copied().collect();
        for table in stopped {
            if catalog.of_number(table).is_none() {
                self.resume(table); // it is ordinary now
            }
        }
        let catalog = Arc::new(catalog);
        self.catalog.send_replace(Some(catalog.clone()));
        // The server has room for few tables. If something of one is open yet, it goes when what is declared is read next.
        let mut state = lock(&self.state);
        for table in state.server.tables() {
            if catalog.of_number(table).is_none() && state.protocol.forget_table(table) {
                state.server.drop_table(table);
            }
        }
        state.write();
    }

    /// Stops a table whose fold PostgreSQL has refused.
    pub fn fold_refused(&self, table: i32, why: &str) {
        self.metrics.fold_refused();
        let mut state = lock(&self.state);
        state.stop(table, why);
        self.take(&mut state, Event::FoldRefused { table });
    }

    /// Lets a table go on that an alarm has stopped.
    pub fn resume(&self, table: i32) {
        let mut state = lock(&self.state);
        if state.stopped.remove(&table).is_some() {
            tracing::info!("table {} goes on", self.name_of(table));
            self.take(&mut state, Event::Resumed { table });
            self.sweep(state.epoch);
        }
    }

    /// Returns whether an alarm has stopped a table.
    pub fn is_stopped(&self, table: i32) -> bool {
        lock(&self.state).stopped.contains_key(&table)
    }

    /// Returns how the log names a table.
    fn name_of(&self, table: i32) -> String {
        let catalog = self.catalog.borrow();
        let known = catalog.as_ref().and_then(|it| it.of_number(table));
        known.map_or_else(
            || format!("of number {table}"),
            |it| format!("{}.{}", it.schema, it.name),
        )
    }

    /// Asks for what is declared anew.
    pub fn refresh(&self) {
        self.refresh.notify_one();
    }

    /// Waits until somebody asks for what is declared.
    pub async fn is_asked_to_refresh(&self) {
        self.refresh.notified().await;
    }

    /// Folds whatever journals have, for the owner of this epoch.
    pub fn sweep(&self, epoch: i64) {
        let _ = self.workers.folder.send(FolderTask::Sweep(epoch));
    }

    /// Folds whatever journals have, in a while: holds of former epochs have ended, whose rows may be locked or too many to be left
    /// at once.
    pub fn sweep_soon(&self, epoch: i64) {
        let _ = self.workers.folder.send(FolderTask::SweepSoon(epoch));
    }

    /// Some time has passed.
    pub fn tick(&self) {
        let mut state = lock(&self.state);
        for connection in state.server.tired() {
            state.refuse(connection, Refusal::NoSession);
            self.take(&mut state, Event::Refused { connection });
        }
        self.take(&mut state, Event::Tick);
    }

    /// Gives the server the row that was loaded, and remembers its lines of holds until the server has it.
    pub fn loaded(
        &self,
        generation: Generation,
        key: Key,
        values: &[String],
        lines: Vec<(Line, Change)>,
    ) {
        let mut state = lock(&self.state);
        if state.generation != generation {
            return;
        }
        let catalog = self.catalog.borrow().clone();
        let table = catalog
            .as_ref()
            .and_then(|it| it.of_number(key.table))
            .cloned();
        let refused = match table {
            Some(table) => state.server.insert(&table, &key, values),
            None => Some("the table is not declared any more".to_owned()),
        };
        let may_be_left = |key: &Key| state.protocol.may_be_left(key);
        for key in state.server.oldest(key.table, may_be_left) {
            let connection = None;
            self.take(&mut state, Event::Leave { connection, key });
        }
        match refused {
            None => {
                state.arriving.insert(key, lines);
                state.write();
            }
            Some(why) => self.not_loaded(&mut state, key, &why),
        }
    }

    fn not_loaded(&self, state: &mut State, key: Key, why: &str) {
        let Key { table, text } = &key;
        tracing::warn!("a row cannot be held (table {table}, key {text}): {why}");
        let task = LoaderTask::Leave(state.generation, state.leaving(), key, Left::Refused);
        let _ = self.workers.loader.send(task);
    }

    /// Begins to send lines to the server of a generation.
    pub fn started(&self, generation: Generation, lines: Lines) {
        let mut state = lock(&self.state);
        if state.generation == generation {
            state.lines = Some(lines);
            state.write();
        }
    }

    /// Takes a line of the server. Returns false if it is a former one.
    pub fn said(&self, generation: Generation, line: &str) -> bool {
        let mut state = lock(&self.state);
        if state.generation != generation {
            return false;
        }
        match state.server.said(line) {
            Said::Granted(connection) => self.take(&mut state, Event::Granted { connection }),
            Said::Refused(connection, refusal) => {
                state.refuse(connection, refusal);
                self.take(&mut state, Event::Refused { connection });
            }
            Said::Inserted(key) => {
                self.metrics.loaded();
                let lines = state.arriving.remove(&key).unwrap_or_default();
                match state.server.has_room(lines.len()) {
                    true => self.take(&mut state, Event::Loaded { key, lines }),
                    false => {
                        state.server.delete(&key);
                        self.not_loaded(&mut state, key, "too many holds for its sessions");
                        state.write();
                    }
                }
            }
            Said::NotInserted(key, why) => {
                state.arriving.remove(&key);
                self.not_loaded(&mut state, key, &why);
            }
            Said::Nothing => {}
            Said::Broke(what) => {
                tracing::error!("{}", what);
                self.take(&mut state, Event::ServerBroke);
            }
        }
        true
    }

    /// The server of a generation has ended.
    pub fn ended(&self, generation: Generation) {
        if lock(&self.state).generation == generation {
            tracing::error!("the server has ended; it is started anew");
            let _ = self.workers.keeper.send(KeeperTask::Abandon);
        }
    }

    fn take(&self, state: &mut State, event: HubEvent) {
        let actions = state.protocol.handle(event);
        for action in actions {
            self.carry_out(state, action);
        }
        state.write();
    }

    /// Alarms if the server lacks what it must have.
    fn expect_all(&self, state: &mut State, done: Result<(), Lacks>) {
        if let Err(lacks) = done {
            tracing::error!("{}", lacks);
            self.take(state, Event::ServerBroke);
        }
    }

    fn carry_out(&self, state: &mut State, action: Action<Key, Change>) {
        match action {
            Action::TakeOwner
            | Action::SetEpoch
            | Action::EndHolders
            | Action::Ask(..)
            | Action::Look { .. } => {
                let _ = self.workers.keeper.send(KeeperTask::Do(action));
            }
            Action::RestartServer => {
                state.generation += 1;
                state.server = Server::new();
                state.lines = None;
                state.refusals.clear();
                state.arriving.clear();
                state.since.clear();
                let _ = self.workers.starter.send(state.generation);
                self.generations.send_replace(state.generation);
            }
            Action::Load(key) => {
                let task = LoaderTask::Load(state.generation, state.next_number(), key);
                let _ = self.workers.loader.send(task);
            }
            Action::Leave(key) => {
                state.server.delete(&key);
                let task = LoaderTask::Leave(state.generation, state.leaving(), key, Left::Held);
                let _ = self.workers.loader.send(task);
            }
            Action::Fold(keys) => {
                let commits = state.protocol.commits();
                // A new epoch counts anew.
                let before = std::mem::replace(&mut state.commits, commits);
                self.metrics
                    .fold_begins(commits.checked_sub(before).unwrap_or(commits));
                let folding = Folding {
                    generation: state.generation,
                    commits,
                };
                let _ = self.workers.folder.send(FolderTask::Fold(folding, keys));
            }
            Action::Tell(connection, told) => {
                let is_end = matches!(told, Told::Commit | Told::Rollback);
                if is_end && state.since.remove(&connection).is_some() {
                    self.metrics.ended(told == Told::Commit);
                }
                state.server.tell(connection, told);
            }
            Action::Keep {
                connection,
                committed,
                kept,
            } => {
                if state.since.remove(&connection).is_some() {
                    self.metrics.ended(true);
                }
                let done = state.server.keep(connection, &committed, kept);
                self.expect_all(state, done);
            }
            Action::Reserve(lines) => {
                let done = state.server.reserve(lines);
                self.expect_all(state, done);
            }
            Action::End(lines) => {
                let done = state.server.end_lines(lines);
                self.expect_all(state, done);
            }
            Action::Grant(connection, key, change) => {
                if !state.server.grant(connection, &key, &change) {
                    let why = format!("the server lacks a row (key {})", key.text);
                    state.stop(key.table, &why);
                    self.take(state, Event::RowLacks { connection, key });
                }
            }
            Action::Note(connection, key, change) => {
                state.since.entry(connection).or_insert_with(Instant::now);
                self.metrics.granted();
                let mail = Mail::Note {
                    may_fold: state.protocol.may_fold(connection, &key),
                    epoch: state.epoch,
                    key,
                    change,
                };
                state.mail(connection, mail);
            }
            Action::Answer(connection, answer) => {
                let refusal = state.refusals.remove(&connection);
                if let Some(refusal) = &refusal {
                    self.metrics.refused(refusal);
                }
                state.mail(connection, Mail::Answer(answer, refusal));
            }
            Action::Deliver(connection) => {
                if let Some(link) = state.links.get(&connection) {
                    let _ = link.delivered.send(());
                }
            }
            Action::Close(connection) => {
                if let Some(link) = state.links.get(&connection) {
                    link.end.notify_one();
                }
            }
            Action::Alarm(alarm, table) => {
                self.metrics.alarm(alarm);
                let why = table.and_then(|table| state.stopped.get(&table));
                match (table, why) {
                    (Some(table), Some(stop)) => tracing::error!(
                        "ALARM: {alarm:?}: {}: table {} grants nothing more until escrow.resume is called",
                        stop.why,
                        self.name_of(table)
                    ),
                    _ => tracing::error!("ALARM: {alarm:?}: no further reservation is granted until this program is started anew"),
                }
            }
        }
    }
}

impl State {
    /// Keeps why a connection is refused, until it is told. One that has gone is told nothing.
    fn refuse(&mut self, connection: Connection, refusal: Refusal) {
        if self.links.contains_key(&connection) {
            self.refusals.insert(connection, refusal);
        }
    }

    /// Returns a number that is above all before.
    fn next_number(&mut self) -> i64 {
        self.number += 1;
        self.number
    }

    /// Returns which marks are removed now.
    fn leaving(&mut self) -> Leaving {
        Leaving {
            epoch: self.epoch,
            number: self.next_number(),
        }
    }

    /// Remembers why a table stops, as it was told first.
    fn stop(&mut self, table: i32, why: &str) {
        self.stopped.entry(table).or_insert_with(|| Stop {
            since: SystemTime::now(),
            why: why.to_owned(),
        });
    }

    fn mail(&self, connection: Connection, mail: Mail) {
        if let Some(link) = self.links.get(&connection) {
            let _ = link.mail.send(mail);
        }
    }

    /// Hands the server's lines on.
    fn write(&mut self) {
        if let Some(lines) = &self.lines {
            let bytes = self.server.take_lines();
            if !bytes.is_empty() {
                lines.send(bytes);
            }
        }
    }
}

#[cfg(test)]
mod tests {
    use super::*;

    #[test]
    fn numbers_go_on_in_the_next_epoch() {
        let (keeper, _to_keeper) = unbounded_channel();
        let (folder, _to_folder) = unbounded_channel();
        let (loader, _to_loader) = unbounded_channel();
        let (starter, _to_starter) = unbounded_channel();
        let workers = Workers {
            keeper,
            folder,
            loader,
            starter,
        };
        let hub = Hub::new(workers, Metrics::new().unwrap());
        hub.begin_epoch(7);
        assert_eq!((hub.epoch(), hub.number(), hub.number()), (7, 1, 2));
        hub.begin_epoch(5);
        assert_eq!((hub.epoch(), hub.number()), (5, 3));
    }
}
