//! The connections that move what is noted into the rows of tables, that load rows, and that look what is declared.
//!
//! A fold skips rows that somebody else has locked. A load waits for a lock for a short time (rule 21). COMMITs of all tables
//! wait for one connection that folds, so it leaves a table whose fold is held up to a second connection, which has patience.

use std::collections::{BTreeSet, HashMap};
use std::future::Future;
use std::sync::{Arc, Mutex, MutexGuard, PoisonError};
use std::time::Duration;

use tokio::sync::mpsc::{unbounded_channel, UnboundedReceiver};
use tokio::sync::watch;
use tokio::time::{sleep, sleep_until, timeout, timeout_at, Instant};
use tokio_postgres::error::{Severity, SqlState};
use tokio_postgres::{Error, Statement};

use crate::catalog::Catalog;
use crate::hub::{FolderTask, Folding, Generation, Hub, Leaving, Left, LoaderTask};
use crate::protocol::{Event, Line};
use crate::target::{Heard, LoginError, Session, Target};
use crate::told::Told;
use crate::update::{self, Change, Key};

/// How long PostgreSQL may take to answer: many rows with slow triggers take long, and on a connection that the network has
/// forgotten it never does.
const PATIENCE: Duration = Duration::from_secs(600);

/// A pause behind what failed.
const PAUSE: Duration = Duration::from_millis(100);

/// How soon rows that were locked are tried again, and how soon at the latest if they stay locked.
const AGAIN: Duration = Duration::from_millis(2);
const LONGEST_AGAIN: Duration = Duration::from_millis(100);

/// How often what is declared is read in any case; and how soon it is tried again where it could not be read, and rows where
/// a sweep found them locked.
const REFRESH: Duration = Duration::from_secs(30);
const RETRY: Duration = Duration::from_secs(1);

/// How soon what is declared is read again at the earliest.
const SPACING: Duration = Duration::from_millis(20);

/// On which PostgreSQL notifies of what is declared.
const CHANNEL: &str = "escrow_declared";

/// How many keys of a journal are folded at once.
const PIECE: usize = 1_000;

/// How many connections load.
pub const LOADERS: usize = 4;

const ISOLATION: &str = "-c default_transaction_isolation=read\\ committed -c idle_session_timeout=0 -c statement_timeout=0";

/// A connection of the proxy's own, which is opened when it is needed, with its prepared statements.
struct Own {
    hub: Arc<Hub>,
    target: Arc<Target>,
    name: &'static str,
    options: String,
    session: Option<Session>,
    prepared: HashMap<String, Statement>,
    generations: watch::Receiver<Generation>,
    /// Takes what [`CHANNEL`] says, if the connection listens. It is empty, or the number of a table that may go on.
    heard: Option<Heard>,
    /// Why PostgreSQL did not let it in.
    told: Told,
}

/// Why nothing came of a query.
#[derive(Debug, thiserror::Error)]
enum Failure {
    /// PostgreSQL's error.
    #[error("{0}")]
    Refused(Error),
    /// There is no connection any more.
    #[error("{0}")]
    Lost(String),
}

impl From<Error> for Failure {
    fn from(error: Error) -> Failure {
        // PostgreSQL has ended the connection if the error is more than an ERROR, and refused nothing.
        let severity = error.as_db_error().map(|it| it.parsed_severity());
        match severity {
            None | Some(Some(Severity::Fatal | Severity::Panic)) => {
                Failure::Lost(error.to_string())
            }
            Some(_) => Failure::Refused(error),
        }
    }
}

impl Own {
    fn new(hub: &Arc<Hub>, target: Arc<Target>, name: &'static str, options: &str) -> Own {
        Own {
            hub: hub.clone(),
            target,
            name,
            options: format!("{} {}", ISOLATION, options),
            session: None,
            prepared: HashMap::new(),
            generations: hub.generations(),
            heard: None,
            told: Told::default(),
        }
    }

    /// Returns the connection, and opens it if there is none: first to where the keeper is.
    async fn session(&mut self) -> Result<&Session, Failure> {
        let session = match self.session.take().filter(|session| !session.is_closed()) {
            Some(session) => session,
            None => {
                self.prepared.clear();
                let first = self.hub.address();
                let login = self.target.login(first.as_ref(), self.name, &self.options);
                let own = match login.await {
                    Ok((own, _)) => own,
                    Err(error) => return Err(self.told.lost(self.name, &error)),
                };
                self.told.forget();
                match &self.heard {
                    Some(heard) => {
                        let session = Session::listening(own, heard.clone());
                        session.batch_execute(&format!("LISTEN {CHANNEL}")).await?;
                        session
                    }
                    None => Session::from(own),
                }
            }
        };
        Ok(self.session.insert(session))
    }

    /// Runs a query that is prepared once.
    async fn query(
        &mut self,
        text: &str,
        values: &[&(dyn tokio_postgres::types::ToSql + Sync)],
    ) -> Result<Vec<tokio_postgres::Row>, Failure> {
        let begun = self.begin();
        let result = in_time(begun, self.try_query(text, values)).await;
        self.end(result)
    }

    async fn try_query(
        &mut self,
        text: &str,
        values: &[&(dyn tokio_postgres::types::ToSql + Sync)],
    ) -> Result<Vec<tokio_postgres::Row>, Failure> {
        let known = match self.session.as_ref().map(|session| session.is_closed()) {
            Some(false) => self.prepared.get(text).cloned(),
            _ => None,
        };
        let session = self.session().await?;
        let statement = match known {
            Some(statement) => statement,
            None => session.prepare(text).await?,
        };
        let rows = session.query(&statement, values).await?;
        self.prepared.insert(text.to_owned(), statement);
        Ok(rows)
    }

    /// Reads what is declared.
    async fn read(&mut self) -> Result<Catalog, Failure> {
        let begun = self.begin();
        let result = in_time(begun, async {
            let session = self.session().await?;
            Ok(Catalog::read(session).await?)
        });
        let result = result.await;
        self.end(result)
    }

    /// Leaves the connection if the proxy has begun anew since it was used last: its server may be one that is gone without
    /// a word.
    fn begin(&mut self) -> watch::Receiver<Generation> {
        if self.generations.has_changed().unwrap_or(false) {
            self.generations.borrow_and_update();
            self.session = None;
        }
        self.generations.clone()
    }

    /// Leaves a connection that is lost, or whose server takes no writes.
    fn end<T>(&mut self, result: Result<T, Failure>) -> Result<T, Failure> {
        match &result {
            Err(Failure::Lost(_)) => self.session = None,
            Err(Failure::Refused(error)) if is_read_only(error) => self.session = None,
            _ => {}
        }
        result
    }
}

impl Told {
    /// Returns that there is no connection, and tells it if PostgreSQL has refused it: too many are open, for instance. The keeper
    /// tells of a PostgreSQL that is away.
    fn lost(&mut self, name: &str, error: &LoginError) -> Failure {
        if let LoginError::Postgres(_) = error {
            self.warn(&format!("{name} has no connection: {error}"));
        }
        Failure::Lost(error.to_string())
    }
}

/// Waits for an answer of PostgreSQL: not longer than it may take, and not when the proxy begins anew.
async fn in_time<T>(
    mut generations: watch::Receiver<Generation>,
    asked: impl Future<Output = Result<T, Failure>>,
) -> Result<T, Failure> {
    tokio::select! {
        answered = timeout(PATIENCE, asked) => match answered {
            Ok(answered) => answered,
            Err(_) => Err(Failure::Lost("PostgreSQL does not answer".to_owned())),
        },
        _ = generations.changed() => Err(Failure::Lost("the proxy begins anew".to_owned())),
    }
}

/// The tables whose folds are held up: the patient connection has them, and the other one leaves them out.
#[derive(Clone, Default)]
struct Late(Arc<Mutex<BTreeSet<i32>>>);

impl Late {
    fn add(&self, table: i32) {
        lock(&self.0).insert(table);
    }

    fn has(&self, table: i32) -> bool {
        lock(&self.0).contains(&table)
    }

    fn remove(&self, table: i32) {
        lock(&self.0).remove(&table);
    }
}

/// What the patient connection is asked for.
enum PatientTask {
    /// Fold keys of a table that is late.
    Fold(Folding, i32, Vec<Key>),
    /// Fold whatever journals have, for the owner of this epoch.
    Sweep(i64),
    /// The same, in a while.
    SweepSoon(i64),
}

/// Folds, one fold after another.
pub async fn fold(hub: Arc<Hub>, target: Arc<Target>, mut tasks: UnboundedReceiver<FolderTask>) {
    let options = "-c synchronous_commit=off -c lock_timeout=10";
    let mut own = Own::new(&hub, target.clone(), "escrowd-proxy folder", options);
    let late = Late::default();
    let (patient, to_patient) = unbounded_channel();
    tokio::spawn(fold_patiently(
        hub.clone(),
        target,
        late.clone(),
        to_patient,
    ));
    let mut pause = AGAIN;
    // When rows that were locked are tried again. One try has all of them.
    let mut again: Option<Instant> = None;
    let mut generation = 0;
    loop {
        let task = tokio::select! {
            biased;
            _ = sleep_until(again.unwrap_or_else(Instant::now)), if again.is_some() => {
                again = None;
                hub.report(generation, Event::FoldAgain);
                continue;
            }
            task = tasks.recv() => task,
        };
        let (folding, keys) = match task {
            Some(FolderTask::Fold(folding, keys)) => (folding, keys),
            Some(FolderTask::Sweep(epoch)) => {
                let _ = patient.send(PatientTask::Sweep(epoch));
                continue;
            }
            Some(FolderTask::SweepSoon(epoch)) => {
                let _ = patient.send(PatientTask::SweepSoon(epoch));
                continue;
            }
            None => return,
        };
        generation = folding.generation;
        let begun = Instant::now();
        let mut folded = Vec::with_capacity(keys.len());
        let mut are_locked = false;
        let mut is_lost = false;
        for (table, keys) in by_table(keys) {
            if late.has(table) {
                // The patient connection says when it is tried again.
                continue;
            }
            match fold_table(&hub, &mut own, table, &keys).await {
                Tried::Folded(some) => {
                    are_locked |= some.len() < keys.len();
                    folded.extend(some);
                }
                Tried::Refused => {}
                Tried::HeldUp => {
                    late.add(table);
                    let _ = patient.send(PatientTask::Fold(folding, table, keys));
                }
                Tried::Lost => {
                    is_lost = true;
                    break;
                }
            }
        }
        if is_lost {
            hub.metrics().fold_failed();
            sleep(PAUSE).await;
            hub.report(folding.generation, Event::FoldFailed);
            continue;
        }
        hub.metrics().folded(begun.elapsed());
        if are_locked {
            let next = Instant::now() + pause;
            again = Some(again.map_or(next, |at| at.min(next)));
            pause = LONGEST_AGAIN.min(2 * pause);
        } else {
            pause = AGAIN;
        }
        hub.report(folding.generation, Event::Folded { keys: folded });
    }
}

/// Folds tables that are late, and what former owners have left. Nobody but they wait for it.
async fn fold_patiently(
    hub: Arc<Hub>,
    target: Arc<Target>,
    late: Late,
    mut tasks: UnboundedReceiver<PatientTask>,
) {
    let options = "-c synchronous_commit=off -c lock_timeout=300";
    let mut own = Own::new(&hub, target, "escrowd-proxy sweeper", options);
    let mut sweep = Sweep::default();
    let mut pause = AGAIN;
    loop {
        let task = match sweep.due {
            None => tasks.recv().await.map(Some),
            Some(due) => match timeout_at(due, tasks.recv()).await {
                Ok(task) => task.map(Some),
                Err(_) => Some(None),
            },
        };
        let task = match task {
            Some(task) => task,
            None => return,
        };
        match task {
            Some(PatientTask::Fold(folding, table, keys)) => {
                match fold_table(&hub, &mut own, table, &keys).await {
                    Tried::Folded(keys) => {
                        let commits = folding.commits;
                        let event = Event::FoldedLate { keys, commits };
                        hub.report(folding.generation, event);
                        pause = AGAIN;
                    }
                    Tried::Refused => pause = AGAIN,
                    Tried::HeldUp | Tried::Lost => {
                        hub.metrics().fold_failed();
                        pause = LONGEST_AGAIN.min(2 * pause);
                    }
                }
                let (hub, late) = (hub.clone(), late.clone());
                tokio::spawn(async move {
                    sleep(pause).await;
                    late.remove(table);
                    hub.report(folding.generation, Event::FoldAgain);
                });
            }
            Some(PatientTask::Sweep(epoch)) => sweep = Sweep::of(&hub, epoch).await,
            Some(PatientTask::SweepSoon(epoch)) => sweep.begin_soon(epoch),
            None if sweep.tables.is_empty() => sweep = Sweep::of(&hub, sweep.epoch).await,
            None => sweep.go_on(&hub, &mut own).await,
        }
    }
}

fn by_table(keys: Vec<Key>) -> HashMap<i32, Vec<Key>> {
    let mut tables: HashMap<i32, Vec<Key>> = HashMap::new();
    for key in keys {
        tables.entry(key.table).or_default().push(key);
    }
    tables
}

/// What came of a fold of a table.
enum Tried {
    /// These keys are folded.
    Folded(Vec<Key>),
    /// It is refused, and the table stops.
    Refused,
    /// Something stands in its way, which passes: a lock of the table, for instance.
    HeldUp,
    /// The connection is lost.
    Lost,
}

/// Folds keys of a table, some at a time. If PostgreSQL refuses it, the table stops.
async fn fold_table(hub: &Hub, own: &mut Own, table: i32, keys: &[Key]) -> Tried {
    let text = format!("SELECT escrow.fold_{table}($1::text[])");
    let mut folded = Vec::with_capacity(keys.len());
    for piece in keys.chunks(PIECE) {
        let texts: Vec<&str> = piece.iter().map(|key| &*key.text).collect();
        match own.query(&text, &[&texts]).await {
            Ok(rows) => folded.extend(rows.iter().map(|row| Key {
                table,
                text: row.get::<_, &str>(0).into(),
            })),
            Err(Failure::Lost(why)) => {
                tracing::debug!("a fold failed: {why}");
                return Tried::Lost;
            }
            Err(Failure::Refused(error)) if is_passing(&error) => {
                tracing::debug!("a fold failed (table {table}): {error}");
                return Tried::HeldUp;
            }
            // Its declaration was taken back, which folded all. If that was amid the fold, the error may be any.
            Err(Failure::Refused(_)) if is_ordinary(own, table).await => {
                return Tried::Folded(keys.to_vec())
            }
            Err(Failure::Refused(error)) => {
                hub.fold_refused(table, &words(&error));
                return Tried::Refused;
            }
        }
    }
    Tried::Folded(folded)
}

/// Returns PostgreSQL's words for an error.
fn words(error: &Error) -> String {
    match error.as_db_error() {
        Some(error) => format!("a fold was refused: {}", error.message()),
        None => format!("a fold was refused: {error}"),
    }
}

/// What the owner of an epoch has still to do about what former owners have left.
#[derive(Default)]
struct Sweep {
    epoch: i64,
    /// The numbers of the tables whose journals are still to be swept.
    tables: Vec<i32>,
    /// Whether rows were left out, which somebody has locked.
    is_left: bool,
    /// When it goes on, or begins again. None: nothing is to be done.
    due: Option<Instant>,
}

impl Sweep {
    /// Begins with all tables, once they are known: a proxy may be the owner before it has read what is declared.
    async fn of(hub: &Hub, epoch: i64) -> Sweep {
        let mut catalog = hub.catalog();
        while catalog.borrow().is_none() && catalog.changed().await.is_ok() {}
        let known = catalog.borrow().clone().unwrap_or_default();
        let tables = known.tables().iter().map(|table| table.number);
        let tables: Vec<i32> = tables.filter(|&table| !hub.is_stopped(table)).collect();
        Sweep {
            epoch,
            due: (!tables.is_empty()).then(Instant::now),
            tables,
            is_left: false,
        }
    }

    /// Begins again in a while. One that is under way may have passed what has come.
    fn begin_soon(&mut self, epoch: i64) {
        match self.tables.is_empty() {
            true => {
                self.epoch = epoch;
                self.due.get_or_insert_with(|| Instant::now() + RETRY);
            }
            false => self.is_left = true,
        }
    }

    /// Goes on with a piece. What fails for a passing reason is tried again, as long as this proxy is the owner of the epoch.
    async fn go_on(&mut self, hub: &Hub, own: &mut Own) {
        let table = match self.tables.last() {
            Some(&table) if hub.serves(self.epoch) => table,
            _ => return *self = Sweep::default(),
        };
        match sweep_piece(own, table, self.epoch).await {
            Ok(swept) => {
                own.told.forget();
                match swept {
                    Swept::Some => return,
                    Swept::AllButLocked => self.is_left = true,
                    Swept::All => {}
                }
            }
            Err(Failure::Refused(error)) if !is_passing(&error) => {
                if !is_ordinary(own, table).await {
                    hub.fold_refused(table, &words(&error));
                }
            }
            Err(failure) => {
                let why = format!("a journal is not folded yet (table {table}): {failure}");
                own.told.warn(&why);
                self.tables.rotate_right(1); // the others go on
                self.due = Some(Instant::now() + PAUSE);
                return;
            }
        }
        self.tables.pop();
        if self.tables.is_empty() {
            let is_left = std::mem::take(&mut self.is_left);
            self.due = is_left.then(|| Instant::now() + RETRY);
        }
    }
}

/// What a piece of a sweep has done.
enum Swept {
    /// Some, and there may be more.
    Some,
    /// All that nobody has locked.
    AllButLocked,
    /// All.
    All,
}

/// Folds some of what former owners have left, and removes their marks, but for those of rows with holds that stand.
async fn sweep_piece(own: &mut Own, table: i32, epoch: i64) -> Result<Swept, Failure> {
    let text = format!("SELECT escrow.sweep_{table}($1, $2)");
    let rows = own.query(&text, &[&epoch, &(PIECE as i32)]).await?;
    let count = rows.first().map_or(0, |row| row.get::<_, i32>(0));
    Ok(match count {
        0 => Swept::All,
        1.. => {
            tracing::info!("{count} rows of a former owner are folded (table {table})");
            Swept::Some
        }
        _ => Swept::AllButLocked,
    })
}

/// Returns whether a server takes no writes.
fn is_read_only(error: &Error) -> bool {
    error.code() == Some(&SqlState::READ_ONLY_SQL_TRANSACTION)
}

/// Returns whether an error says nothing of what was to be folded, so that it is tried again: a lock, a deadlock, a
/// connection that is ended, want of room, a server that takes no writes.
fn is_passing(error: &Error) -> bool {
    error.code().map_or(true, |code| {
        *code == SqlState::LOCK_NOT_AVAILABLE
            || is_read_only(error)
            || ["40", "53", "57", "58", "08"]
                .iter()
                .any(|class| code.code().starts_with(class))
    })
}

/// Returns whether a table is not declared any more. An error of a trigger of a user's may look like one of its functions that
/// are gone.
async fn is_ordinary(own: &mut Own, table: i32) -> bool {
    let text = "SELECT pg_catalog.to_regprocedure($1) IS NULL";
    match own
        .query(text, &[&format!("escrow.fold_{table}(text[])")])
        .await
    {
        Ok(rows) => rows.first().map_or(false, |row| row.get(0)),
        Err(_) => false,
    }
}

/// Returns whether an error says that a function, a table or a column is not there.
fn is_gone(error: &Error) -> bool {
    let gone = [
        SqlState::UNDEFINED_FUNCTION,
        SqlState::UNDEFINED_TABLE,
        SqlState::UNDEFINED_COLUMN,
        SqlState::INVALID_SCHEMA_NAME,
    ];
    error.code().map_or(false, |code| gone.contains(code))
}

/// Loads rows that the server is to have.
pub async fn load(
    hub: Arc<Hub>,
    target: Arc<Target>,
    tasks: Arc<tokio::sync::Mutex<UnboundedReceiver<LoaderTask>>>,
) {
    let mut own = Own::new(&hub, target, "escrowd-proxy loader", "-c lock_timeout=50");
    loop {
        let task = tasks.lock().await.recv().await;
        let (generation, number, key) = match task {
            Some(LoaderTask::Load(generation, number, key)) => (generation, number, key),
            Some(LoaderTask::Leave(generation, leaving, key, why)) => {
                leave(&mut own, leaving, &key).await;
                let missing = false;
                let event = match why {
                    Left::Held => Event::Left { key },
                    Left::Refused => Event::NotLoaded { key, missing },
                };
                hub.report(generation, event);
                continue;
            }
            None => return,
        };
        let text = format!(
            "SELECT loaded, epochs, numbers, changes FROM escrow.open_{}($1, $2, $3)",
            key.table
        );
        let epoch = hub.epoch();
        let loaded = own.query(&text, &[&epoch, &number, &&*key.text]).await;
        let values: Option<Vec<String>> = match &loaded {
            Ok(rows) => rows.first().and_then(|row| row.get(0)),
            Err(_) => None,
        };
        match (loaded, values) {
            (Ok(rows), Some(values)) => {
                let lines = rows.first().map_or_else(Vec::new, lines);
                hub.loaded(generation, key, &values, lines);
            }
            (loaded, _) => {
                let missing = match loaded {
                    Ok(_) => true,
                    Err(Failure::Refused(error)) => {
                        tracing::debug!("a row is not loaded: {}", error);
                        is_gone(&error) && is_ordinary(&mut own, key.table).await
                    }
                    Err(Failure::Lost(why)) => {
                        tracing::debug!("a row is not loaded: {}", why);
                        false
                    }
                };
                hub.report(generation, Event::NotLoaded { key, missing });
            }
        }
    }
}

/// Reads the lines of holds that a row has.
fn lines(row: &tokio_postgres::Row) -> Vec<(Line, Change)> {
    let epochs: Option<Vec<i64>> = row.get(1);
    let numbers: Option<Vec<i64>> = row.get(2);
    let changes: Option<Vec<&str>> = row.get(3);
    let lines = epochs.into_iter().flatten();
    let lines = lines.zip(numbers.into_iter().flatten());
    let changes = changes.into_iter().flatten();
    lines
        .zip(changes)
        .map(|((epoch, number), changes)| {
            let changes = changes.split(',').map(|it| Some(it.to_owned()));
            (Line { epoch, number }, update::changes(changes))
        })
        .collect()
}

/// Removes the mark of a row that the server of this epoch's owner does not have.
async fn leave(own: &mut Own, Leaving { epoch, number }: Leaving, key: &Key) {
    let text = format!("SELECT escrow.leave_{}($1, $2, $3)", key.table);
    match own.query(&text, &[&epoch, &number, &&*key.text]).await {
        Ok(_) => {}
        Err(Failure::Lost(why)) => tracing::debug!("a row is not left: {}", why),
        Err(Failure::Refused(error)) => tracing::debug!("a row is not left: {}", error),
    }
}

/// Looks what is declared: when PostgreSQL notifies it of a change, when it is asked to, and now and then in any case. Notices
/// are anybody's: many of them cost no more than some, and let no table go on that is not stopped.
pub async fn watch(hub: Arc<Hub>, target: Arc<Target>) {
    let asked = Arc::new(Mutex::new(BTreeSet::new()));
    let mut own = Own::new(
        &hub,
        target,
        "escrowd-proxy watcher",
        "-c lock_timeout=1000",
    );
    own.heard = Some(heard(hub.clone(), asked.clone()));
    let mut is_installed = true;
    let mut resumed: Option<Instant> = None;
    loop {
        let begun = Instant::now();
        let mut pause = RETRY;
        match own.read().await {
            Ok(catalog) => {
                is_installed = true;
                pause = REFRESH;
                hub.set_catalog(catalog);
            }
            Err(Failure::Refused(error)) if is_gone(&error) => {
                if is_installed {
                    tracing::warn!("schema escrow is not installed, or of an older version: nothing is reserved");
                }
                is_installed = false;
                hub.set_catalog(Catalog::default());
            }
            Err(Failure::Refused(error)) => {
                tracing::warn!("what is declared cannot be read: {}", error);
                own.session = None;
            }
            Err(Failure::Lost(why)) => tracing::debug!("what is declared cannot be read: {}", why),
        }
        match resumed.map_or(Duration::ZERO, |at| RETRY.saturating_sub(at.elapsed())) {
            Duration::ZERO => {
                let tables = std::mem::take(&mut *lock(&asked));
                if !tables.is_empty() {
                    resumed = Some(Instant::now());
                }
                tables.into_iter().for_each(|table| hub.resume(table));
            }
            rest if !lock(&asked).is_empty() => pause = pause.min(rest),
            _ => {}
        }
        let mut generations = own.generations.clone();
        tokio::select! {
            _ = sleep(pause) => {}
            _ = generations.changed() => {}
            _ = hub.is_asked_to_refresh() => {}
        }
        sleep_until(begun + SPACING).await;
    }
}

/// Returns what takes notices: it remembers which tables that are stopped may go on.
fn heard(hub: Arc<Hub>, asked: Arc<Mutex<BTreeSet<i32>>>) -> Heard {
    Arc::new(move |payload| {
        if let Some(table) = payload.parse().ok().filter(|&it| hub.is_stopped(it)) {
            lock(&asked).insert(table);
        }
        hub.refresh();
    })
}

fn lock<T>(mutex: &Mutex<T>) -> MutexGuard<'_, T> {
    // What is kept is whole after each change.
    mutex.lock().unwrap_or_else(PoisonError::into_inner)
}

#[cfg(test)]
mod tests {
    use tokio::io::{AsyncReadExt, AsyncWriteExt};
    use tokio_postgres::{Config, NoTls};

    use super::*;
    use crate::own;

    /// Returns what comes of a query that a server answers so.
    async fn failure(answer: Vec<u8>) -> Failure {
        let (near, mut far) = tokio::io::duplex(4_096);
        tokio::spawn(async move {
            let mut asked = [0; 1_024];
            for answer in [b"R\0\0\0\x08\0\0\0\0Z\0\0\0\x05I".to_vec(), answer] {
                assert!(far.read(&mut asked).await.unwrap() > 0);
                far.write_all(&answer).await.unwrap();
            }
        });
        let login = Config::new().user("escrowd").connect_raw(near, NoTls).await;
        let (client, connection) = login.unwrap();
        tokio::spawn(connection);
        client.batch_execute("SELECT 1").await.unwrap_err().into()
    }

    #[tokio::test]
    async fn an_end_of_the_connection_refuses_nothing() {
        // PostgreSQL 17 ends a transaction that takes too long by this.
        let fatal = own::fatal("25P04", "terminating connection due to transaction timeout");
        let error = [&fatal[..], b"Z\0\0\0\x05I"].concat();
        let error = String::from_utf8(error).unwrap().replace("FATAL", "ERROR");
        assert!(matches!(failure(fatal).await, Failure::Lost(_)));
        assert!(matches!(
            failure(error.into_bytes()).await,
            Failure::Refused(_)
        ));
    }

    #[tokio::test]
    async fn a_sweep_that_is_asked_for_amid_another_begins_behind_it() {
        let mut sweep = Sweep {
            epoch: 7,
            tables: vec![1],
            ..Sweep::default()
        };
        sweep.begin_soon(7);
        assert!(sweep.is_left);
        let mut idle = Sweep::default();
        idle.begin_soon(7);
        assert!(!idle.is_left && idle.due.is_some() && idle.epoch == 7);
    }
}
