//! Schema `escrow`: what is installed in PostgreSQL, and its version.

use std::io::{self, Write};
use std::time::Duration;

use futures_util::future::poll_fn;
use tokio::time::timeout;
use tokio_postgres::error::SqlState;
use tokio_postgres::{AsyncMessage, Client};

use crate::args::Script;
use crate::target::{BadTarget, LoginError, Own, Target};

/// The version that this program works with.
pub const VERSION: i32 = 4;

/// The scripts.
const INSTALL: &str = include_str!("../sql/install.sql");
const UNINSTALL: &str = include_str!("../sql/uninstall.sql");

/// How long a script waits for a lock, for instance of a declared table that a transaction uses.
const SETTINGS: &str = "-c default_transaction_isolation=read\\ committed -c default_transaction_read_only=off \
    -c lock_timeout=10s -c statement_timeout=0 -c idle_in_transaction_session_timeout=0 -c session_replication_role=origin";

/// Who has schema `escrow`, unless it is the caller or a superuser.
const FOREIGN: &str =
    "SELECT r.rolname::text FROM pg_namespace AS n JOIN pg_roles AS r ON r.oid = n.nspowner
    WHERE n.nspname = 'escrow' AND NOT r.rolsuper AND r.rolname <> current_user";

/// How long a connection may take.
const PATIENCE: Duration = Duration::from_secs(30);

/// Which script is run.
#[derive(Clone, Copy, Debug, PartialEq, Eq)]
pub enum Act {
    /// Installs schema `escrow`, or brings an older version to [`VERSION`].
    Install,
    /// Removes it.
    Uninstall,
}

/// Why a script was not run.
#[derive(Debug, thiserror::Error)]
pub enum Error {
    /// The connection string cannot be used.
    #[error("{0}")]
    Target(#[from] BadTarget),
    /// There is no connection.
    #[error("{0}")]
    Login(#[from] LoginError),
    /// It took too long.
    #[error("PostgreSQL does not answer")]
    Silent,
    /// Schema `escrow` is of a role that may have put anything into it.
    #[error("schema escrow belongs to the role {0}, which is no superuser: it may have functions of anybody's; drop it")]
    Foreign(String),
    /// PostgreSQL refused a statement. Nothing has changed.
    #[error("{}", told(.0))]
    Postgres(#[from] tokio_postgres::Error),
    /// Standard output cannot be written.
    #[error("{0}")]
    System(#[from] io::Error),
}

/// Returns what PostgreSQL says of an error, with its hint.
fn told(error: &tokio_postgres::Error) -> String {
    match error.as_db_error() {
        Some(error) => {
            let hint = error.hint().filter(|hint| !hint.is_empty());
            let hint = hint.map(|hint| format!("\nHINT: {hint}"));
            format!("{}{}", error.message(), hint.unwrap_or_default())
        }
        None => error.to_string(),
    }
}

impl Act {
    fn script(self) -> &'static str {
        match self {
            Act::Install => INSTALL,
            Act::Uninstall => UNINSTALL,
        }
    }
}

/// Prints a script, or runs it and prints what became of it.
///
/// # Errors
///
/// See [`Error`]. After an error schema `escrow` is as it was.
pub async fn run(act: Act, how: &Script) -> Result<(), Error> {
    let mut output = io::stdout();
    match &how.postgres {
        None => write!(output, "BEGIN;\n\n{}\nCOMMIT;\n", act.script())?,
        Some(conninfo) => {
            let target = Target::of(conninfo)?;
            let login = target.login(None, "escrowd-proxy install", SETTINGS);
            let (own, _) = timeout(PATIENCE, login)
                .await
                .map_err(|_| Error::Silent)??;
            let client = in_background(own);
            writeln!(output, "{}", apply(act, &client).await?)?;
        }
    }
    output.flush()?;
    Ok(())
}

/// Runs a connection in a task of its own. PostgreSQL's notices go to standard error.
fn in_background((client, mut connection): Own) -> Client {
    tokio::spawn(async move {
        loop {
            match poll_fn(|context| connection.poll_message(context)).await {
                Some(Ok(AsyncMessage::Notice(notice))) if notice.severity() != "DEBUG" => {
                    eprintln!("{}: {}", notice.severity(), notice.message());
                }
                Some(Ok(_)) => {}
                Some(Err(_)) | None => return,
            }
        }
    });
    client
}

/// Runs a script in one transaction, and returns what became of it.
async fn apply(act: Act, client: &Client) -> Result<String, Error> {
    // The scripts say so too. Even a look at the version would run a function of the schema's.
    if let Some(row) = client.query_opt(FOREIGN, &[]).await? {
        return Err(Error::Foreign(row.get(0)));
    }
    let before = version(client).await?;
    if (act, before) == (Act::Uninstall, None) {
        return Ok("schema escrow is not installed".to_owned());
    }
    client
        .batch_execute("BEGIN; SET LOCAL client_min_messages = warning")
        .await?;
    // The transaction ends with the connection if it fails.
    client.batch_execute(act.script()).await?;
    client.batch_execute("COMMIT").await?;
    Ok(match (act, before) {
        (Act::Uninstall, _) => "schema escrow is removed".to_owned(),
        (Act::Install, None) => format!("schema escrow is installed, version {VERSION}"),
        (Act::Install, Some(VERSION)) => {
            format!("schema escrow had version {VERSION}, its functions are made anew")
        }
        (Act::Install, Some(before)) => {
            format!("schema escrow is brought from version {before} to version {VERSION}")
        }
    })
}

/// Returns the version of schema `escrow`. None: it is not installed.
///
/// # Errors
///
/// Fails as a query does.
pub async fn version(client: &Client) -> Result<Option<i32>, tokio_postgres::Error> {
    match client.query_one("SELECT escrow.version()", &[]).await {
        Ok(row) => row.try_get(0).map(Some),
        Err(error) => match error.code() {
            Some(code) if *code == SqlState::INVALID_SCHEMA_NAME => Ok(None),
            Some(code) if *code == SqlState::UNDEFINED_FUNCTION => Ok(None),
            _ => Err(error),
        },
    }
}

/// Why a program does not work with a database.
#[derive(Clone, Copy, Debug, PartialEq, Eq, thiserror::Error)]
pub enum WrongVersion {
    /// It has no schema `escrow`.
    #[error("schema escrow is not installed; run `escrowd-proxy install --apply` as a superuser")]
    Missing,
    /// It is older than this program.
    #[error(
        "schema escrow has version {0}, and this program needs {VERSION}; \
         run `escrowd-proxy install --apply` as a superuser"
    )]
    Old(i32),
    /// It is newer than this program.
    #[error(
        "schema escrow has version {0}, and this program knows {VERSION}; use a newer program"
    )]
    New(i32),
}

/// Tells whether this program works with a version.
///
/// # Errors
///
/// Fails unless it is [`VERSION`].
pub fn check(version: Option<i32>) -> Result<(), WrongVersion> {
    match version {
        None => Err(WrongVersion::Missing),
        Some(VERSION) => Ok(()),
        Some(other) if other < VERSION => Err(WrongVersion::Old(other)),
        Some(other) => Err(WrongVersion::New(other)),
    }
}

#[cfg(test)]
mod tests {
    use super::*;

    #[test]
    fn the_script_has_the_version_of_the_program() {
        assert!(INSTALL.contains(&format!("IMMUTABLE AS 'SELECT {VERSION}'")));
    }

    #[test]
    fn another_version_is_told() {
        assert_eq!(check(Some(VERSION)), Ok(()));
        assert_eq!(check(None), Err(WrongVersion::Missing));
        assert_eq!(
            check(Some(VERSION - 1)),
            Err(WrongVersion::Old(VERSION - 1))
        );
        assert_eq!(
            check(Some(VERSION + 1)),
            Err(WrongVersion::New(VERSION + 1))
        );
    }
}
