//! The connection that holds the owner's locks, and asks for outcomes (rules 4, 9 and 10).
//!
//! It waits for no lock of PostgreSQL. If it is lost, so is what it held.

use std::sync::Arc;
use std::time::Duration;

use rand::Rng;
use tokio::sync::mpsc::UnboundedReceiver;
use tokio::sync::oneshot;
use tokio::time::{interval, timeout, Instant, MissedTickBehavior};
use tokio_postgres::error::SqlState;

use crate::hub::{Hub, KeeperTask};
use crate::install::{self, WrongVersion};
use crate::note::Secret;
use crate::protocol::{Action, Event, Fate, Id, Line, News, Verdict};
use crate::target::{Address, LoginError, Session, Target};
use crate::told::Told;
use crate::update::{self, Change, Key};

/// How often what was not done is tried again. The owner says something as often.
pub const TICK: Duration = Duration::from_millis(200);

/// How long an owner may say nothing before the next one ends it, in seconds of PostgreSQL's clock.
pub const SILENCE: f64 = 3.0;

/// How long PostgreSQL may take to answer the keeper.
const PATIENCE: Duration = Duration::from_secs(3);

/// How long looks may be cut off before the log says it.
const BLIND: Duration = Duration::from_secs(10);

/// The key of OWNER, as `escrow.set_epoch` expects it.
const OWNER: (i32, i32) = (1_702_064_993, 1);

/// Why the keeper is lost.
#[derive(Debug, thiserror::Error)]
pub enum Error {
    /// PostgreSQL's error, or that of the connection.
    #[error("{0}")]
    Postgres(#[from] tokio_postgres::Error),
    /// There is no connection.
    #[error("{0}")]
    Login(#[from] LoginError),
    /// Schema `escrow` is not what this program needs.
    #[error("{0}")]
    Version(#[from] WrongVersion),
    /// PostgreSQL did not answer in time.
    #[error("PostgreSQL does not answer")]
    Silent,
    /// An answer that no question has.
    #[error("an outcome that is not known: {0}")]
    Outcome(String),
    /// Schema `escrow` has no secret.
    #[error("escrow.secret has no key of 64 bytes")]
    Secret,
    /// What granted under this epoch is gone.
    #[error("the server has ended")]
    ServerEnded,
}

impl Error {
    /// Returns whether a look was cut off, and changed nothing: a lock could not be had in time, it was cancelled or too long, or
    /// PostgreSQL lacks room.
    fn is_passing(&self) -> bool {
        let code = match self {
            Error::Postgres(error) => error.code(),
            _ => None,
        };
        let passing = [
            SqlState::LOCK_NOT_AVAILABLE,
            SqlState::T_R_DEADLOCK_DETECTED,
            SqlState::QUERY_CANCELED,
        ];
        code.map_or(false, |it| {
            passing.contains(it) || it.code().starts_with("53")
        })
    }
}

/// Who may still commit a note of an older epoch.
#[derive(Clone, Debug, Default, PartialEq, Eq)]
pub struct Holders {
    /// Processes, which were told to end.
    pub processes: Vec<i32>,
    /// Prepared transactions, whose end somebody else has to decide.
    pub prepared: Vec<String>,
}

impl Holders {
    /// Returns whether nobody does.
    pub fn is_empty(&self) -> bool {
        self.processes.is_empty() && self.prepared.is_empty()
    }
}

/// An open connection.
pub struct Keeper {
    client: Session,
    epoch: i64,
    /// Since when no look was done, but cut off. None: the last one was done.
    blind: Option<Instant>,
}

impl Keeper {
    /// Connects, and reads the secret of schema `escrow`. Returns where it is connected to as well.
    pub async fn open(target: &Target) -> Result<(Keeper, Secret, Address), Error> {
        let options = concat!(
            // A statement that takes longer would be taken for silence.
            "-c default_transaction_isolation=read\\ committed -c statement_timeout=2s -c lock_timeout=0",
            " -c idle_session_timeout=0"
        );
        let (own, address) = target.login(None, "escrowd-proxy keeper", options).await?;
        let client = Session::from(own);
        install::check(in_time(install::version(&client)).await?)?;
        let query = "SELECT key FROM escrow.secret";
        let row = in_time(client.query_one(query, &[])).await?;
        let secret = Secret::new(row.get(0)).ok_or(Error::Secret)?;
        let keeper = Keeper {
            client,
            epoch: 0,
            blind: None,
        };
        Ok((keeper, secret, address.clone()))
    }

    /// Returns the epoch whose lock it holds, or 0.
    pub fn epoch(&self) -> i64 {
        self.epoch
    }

    /// Takes OWNER and the lock of a new epoch. Returns false if somebody else has OWNER; it ends whoever may not have it,
    /// and an owner that is silent.
    pub async fn take_owner(&mut self) -> Result<bool, Error> {
        let query = "SELECT pg_catalog.pg_try_advisory_lock($1, $2)";
        let row = in_time(self.client.query_one(query, &[&OWNER.0, &OWNER.1])).await?;
        if !row.get::<_, bool>(0) {
            let query = "SELECT escrow.end_owner($1)";
            let ended = in_time(self.client.query_one(query, &[&SILENCE])).await?;
            if ended.get::<_, i32>(0) > 0 {
                tracing::warn!("an owner that is silent or may not be one was ended");
            }
            return Ok(false);
        }
        loop {
            let epoch = rand::thread_rng().gen_range(1..=i64::MAX);
            let query = "SELECT pg_catalog.pg_try_advisory_lock($1)";
            let row = in_time(self.client.query_one(query, &[&epoch])).await?;
            if row.get(0) {
                self.epoch = epoch;
                return Ok(true);
            }
        }
    }

    /// Sets the epoch whose lock is held.
    pub async fn set_epoch(&self) -> Result<(), Error> {
        in_time(
            self.client
                .execute("SELECT escrow.set_epoch($1)", &[&self.epoch]),
        )
        .await?;
        Ok(())
    }

    /// Ends the processes that hold a journal, and returns who did.
    pub async fn end_holders(&self) -> Result<Holders, Error> {
        let query = "SELECT process, prepared FROM escrow.end_holders()";
        let mut holders = Holders::default();
        for row in in_time(self.client.query(query, &[])).await? {
            match (
                row.get::<_, Option<i32>>(0),
                row.get::<_, Option<String>>(1),
            ) {
                (Some(process), _) => holders.processes.push(process),
                (None, prepared) => holders.prepared.push(prepared.unwrap_or_default()),
            }
        }
        Ok(holders)
    }

    /// Returns the outcome of each id.
    pub async fn verdicts(&self, ids: &[Id]) -> Result<Vec<Verdict>, Error> {
        let query = "SELECT pg_catalog.pg_xact_status(id::text::xid8) FROM unnest($1::bigint[]) WITH ORDINALITY AS i (id, n) ORDER BY n";
        let ids: Vec<i64> = ids.iter().map(|id| id.0 as i64).collect();
        let rows = in_time(self.client.query(query, &[&ids])).await?;
        rows.iter()
            .map(|row| verdict(row.get::<_, Option<&str>>(0)))
            .collect()
    }

    /// Looks what has become of holds. `done` is forgotten, and `asked` are notes of its epoch that may be lines of holds.
    pub async fn look(
        &self,
        done: &[Line],
        asked: &[Line],
    ) -> Result<Vec<News<Key, Change>>, Error> {
        let query =
            "SELECT epoch, number, \"table\", key, stands, taken FROM escrow.look($1, $2, $3, $4)";
        let epochs: Vec<i64> = done.iter().map(|line| line.epoch).collect();
        let numbers: Vec<i64> = done.iter().map(|line| line.number).collect();
        let asked: Vec<i64> = asked.iter().map(|line| line.number).collect();
        let values: [&(dyn tokio_postgres::types::ToSql + Sync); 4] =
            [&self.epoch, &epochs, &numbers, &asked];
        let rows = in_time(self.client.query(query, &values)).await?;
        let news = rows.into_iter().map(|row| {
            let epoch: i64 = row.get(0);
            let number = row.get(1);
            let taken: Option<Vec<Option<String>>> = row.get(5);
            News {
                line: Line { epoch, number },
                key: Key {
                    table: row.get(2),
                    text: row.get::<_, &str>(3).into(),
                },
                fate: match (row.get(4), taken) {
                    (true, _) => Fate::Stands,
                    (false, Some(taken)) => Fate::Taken(update::changes(taken)),
                    (false, None) => Fate::Free,
                },
                is_ours: epoch == self.epoch,
            }
        });
        Ok(news.collect())
    }

    /// Returns whether a process serves a client.
    pub async fn has_process(&self, process: i32) -> Result<bool, Error> {
        let query = "SELECT FROM pg_catalog.pg_stat_get_activity($1)";
        let rows = in_time(self.client.query(query, &[&process])).await?;
        Ok(!rows.is_empty())
    }

    /// Says something, so that it is not taken for silent.
    pub async fn beat(&self) -> Result<(), Error> {
        in_time(self.client.simple_query("")).await?;
        Ok(())
    }
}

/// Reads what `pg_xact_status` returns. NULL: the id is so old that its outcome is forgotten.
fn verdict(status: Option<&str>) -> Result<Verdict, Error> {
    match status {
        Some("committed") => Ok(Verdict::Committed),
        Some("aborted") => Ok(Verdict::Aborted),
        Some("in progress") => Ok(Verdict::InProgress),
        other => Err(Error::Outcome(other.unwrap_or("forgotten").to_string())),
    }
}

async fn in_time<T>(
    future: impl std::future::Future<Output = Result<T, tokio_postgres::Error>>,
) -> Result<T, Error> {
    match timeout(PATIENCE, future).await {
        Ok(result) => Ok(result?),
        Err(_) => Err(Error::Silent),
    }
}

/// Keeps ownership, and asks for outcomes, as the hub's state machine says.
///
/// It ends when `tasks` is closed.
pub async fn keep(hub: Arc<Hub>, target: Arc<Target>, mut tasks: UnboundedReceiver<KeeperTask>) {
    let mut keeper: Option<Keeper> = None;
    let mut told = Told::default();
    let mut ticks = interval(TICK);
    ticks.set_missed_tick_behavior(MissedTickBehavior::Delay);
    loop {
        let done = tokio::select! {
            _ = ticks.tick() => {
                hub.tick();
                match &keeper {
                    Some(open) => open.beat().await,
                    None => Ok(()),
                }
            }
            task = tasks.recv() => match task {
                Some(KeeperTask::Do(action)) => carry_out(&hub, &target, &mut keeper, &mut told, action).await,
                Some(KeeperTask::Abandon) => Err(Error::ServerEnded),
                Some(KeeperTask::Find(process, tell)) => find(&keeper, process, tell).await,
                None => return,
            },
        };
        if let Err(error) = done {
            if keeper.take().map_or(false, |it| it.epoch != 0) {
                tracing::warn!("not the owner any more: {}", error);
            }
            if target.asks_for_writes() {
                hub.forget_address();
            }
            // OWNER is tried again at the next tick.
            hub.handle(Event::KeeperLost);
            while drop_tasks(&mut tasks) {
                hub.handle(Event::KeeperLost);
            }
        }
    }
}

/// Drops what was asked before, which is of no matter any more. Returns whether a server has ended: it may be the one that was
/// just started.
fn drop_tasks(tasks: &mut UnboundedReceiver<KeeperTask>) -> bool {
    let mut has_ended = false;
    while let Ok(task) = tasks.try_recv() {
        has_ended |= matches!(task, KeeperTask::Abandon);
    }
    has_ended
}

/// Says whether a process serves a client, if there is a keeper.
async fn find(
    keeper: &Option<Keeper>,
    process: i32,
    tell: oneshot::Sender<bool>,
) -> Result<(), Error> {
    if let Some(open) = keeper {
        // Who has asked may have gone.
        let _ = tell.send(open.has_process(process).await?);
    }
    Ok(())
}

async fn carry_out(
    hub: &Hub,
    target: &Target,
    keeper: &mut Option<Keeper>,
    told: &mut Told,
    action: Action<Key, Change>,
) -> Result<(), Error> {
    let open = match (&action, keeper.as_mut()) {
        (Action::TakeOwner, None) => match Keeper::open(target).await {
            Ok((open, secret, address)) => {
                told.forget();
                hub.set_secret(secret);
                hub.set_address(address);
                keeper.insert(open)
            }
            Err(error) => {
                told.warn(&format!("this proxy cannot be the owner: {error}"));
                return Ok(());
            }
        },
        (_, Some(open)) => open,
        (_, None) => return Ok(()),
    };
    match action {
        Action::TakeOwner if open.epoch != 0 => {}
        Action::TakeOwner if open.take_owner().await? => {
            hub.handle(Event::OwnerTaken);
        }
        Action::TakeOwner => hub.handle(Event::OwnerElsewhere),
        Action::SetEpoch => {
            open.set_epoch().await?;
            hub.begin_epoch(open.epoch);
            hub.handle(Event::EpochSet);
        }
        Action::EndHolders => {
            let holders = open.end_holders().await?;
            let any = !holders.is_empty();
            if !any {
                tracing::info!("owner of epoch {}", open.epoch);
            } else if !holders.prepared.is_empty() {
                tracing::warn!(
                    "prepared transactions hold a takeover up: {:?}",
                    holders.prepared
                );
            }
            hub.handle(Event::Holders { any });
            if !any {
                hub.sweep(open.epoch);
            }
        }
        Action::Ask(connection, ids) => {
            let verdicts = open.verdicts(&ids).await?;
            hub.handle(Event::Verdicts {
                connection,
                verdicts,
            });
        }
        Action::Look { done, asked } => match open.look(&done, &asked).await {
            Ok(news) => {
                let is_formers = |it: &News<Key, Change>| !it.is_ours && it.fate != Fate::Stands;
                let have_ended = news.iter().any(is_formers);
                if open.blind.take().is_some() {
                    told.forget();
                }
                hub.handle(Event::Looked { news });
                if have_ended {
                    hub.sweep_soon(open.epoch);
                }
            }
            Err(error) if error.is_passing() => {
                tracing::debug!("holds cannot be looked at: {error}");
                if open.blind.get_or_insert_with(Instant::now).elapsed() > BLIND {
                    told.warn(&format!("holds that have ended are not free yet: {error}"));
                }
                hub.handle(Event::LookFailed);
            }
            Err(error) => return Err(error),
        },
        _ => {}
    }
    Ok(())
}

#[cfg(test)]
mod tests {
    use tokio::sync::mpsc::unbounded_channel;

    use super::*;

    #[test]
    fn a_server_that_ends_meanwhile_is_noticed() {
        let (to_keeper, mut tasks) = unbounded_channel();
        let _ = to_keeper.send(KeeperTask::Abandon);
        let _ = to_keeper.send(KeeperTask::Do(Action::TakeOwner));
        assert!(drop_tasks(&mut tasks));
        let _ = to_keeper.send(KeeperTask::Do(Action::TakeOwner));
        assert!(!drop_tasks(&mut tasks));
    }

    #[test]
    fn outcomes_are_known_or_an_error() {
        assert_eq!(verdict(Some("committed")).ok(), Some(Verdict::Committed));
        assert_eq!(verdict(Some("aborted")).ok(), Some(Verdict::Aborted));
        assert_eq!(verdict(Some("in progress")).ok(), Some(Verdict::InProgress));
        assert!(verdict(Some("else")).is_err() && verdict(None).is_err());
    }
}
