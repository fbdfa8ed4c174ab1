//! The command line.

use std::collections::HashSet;
use std::ffi::OsString;
use std::os::unix::ffi::{OsStrExt, OsStringExt};
use std::path::PathBuf;
use std::time::Duration;

use clap::builder::{OsStringValueParser, TypedValueParser};
use clap::error::ErrorKind;
use clap::{CommandFactory, Parser};
use escrowd_pg::system::log::LogLevel;
use escrowd_pg::variables::Limits;

/// The longest name of a database, in bytes: PostgreSQL's clients cut longer ones.
const NAME_LIMIT: usize = 63;

/// What `--help` says behind the options.
const AFTER_HELP: &str = "\
The gateway starts one program, `escrowd serve`, for each database. It looks for the program at
--program, then in the environment variable ESCROWD, then beside its own executable. A program that
is not proved, whose `--version` says so, has to be named in one of the first two ways.

Clients connect to the Unix socket DIRECTORY/.s.PGSQL.PORT, for example by
`psql -h DIRECTORY -p PORT NAME`. The socket appears as soon as all stores are open. The permissions
of the socket and its directory are the only access control.

Exit status:
  0  a signal stopped it, and all programs exited without an error
  1  a system call failed, or a program exited with an error
  2  wrong arguments, or the file of the metrics is not a regular file
  3  a program cannot be started, or a store cannot be opened
  4  the socket cannot be created, or another process listens on it
  5  a program ended while it was in use, or refused for ten seconds to roll back
  6  a program's reply does not match its statement";

/// PostgreSQL's protocol in front of `escrowd serve`.
#[derive(Debug, Parser)]
#[command(name = "escrowd-pg", version, after_help = AFTER_HELP)]
pub struct Args {
    /// The directory of the socket. It must exist
    #[arg(long, value_name = "DIRECTORY")]
    pub listen: PathBuf,

    /// The number in the socket's name
    #[arg(long, default_value_t = 5432, value_parser = clap::value_parser!(u16).range(1..))]
    pub port: u16,

    /// The socket's permissions, in octal
    #[arg(long, default_value = "0600", value_parser = mode)]
    pub mode: u32,

    /// A database and the file that stores it. Without a file it is in memory. May be repeated
    #[arg(
        long = "database",
        value_name = "NAME[=PATH]",
        required = true,
        value_parser = OsStringValueParser::new().try_map(|value| database(&value))
    )]
    pub databases: Vec<Database>,

    /// The program that serves each database
    #[arg(long, value_name = "PATH")]
    pub program: Option<PathBuf>,

    /// The sessions of each database's program, from 5 to 65,535. All but 4 are for transactions that hold something
    #[arg(long, value_name = "N", default_value_t = 4096, value_parser = clap::value_parser!(u16).range(5..))]
    pub sessions: u16,

    /// The most connections of a database, from 1 to 65,535. Each takes a file descriptor
    #[arg(long, value_name = "N", default_value_t = 8192, value_parser = clap::value_parser!(u16).range(1..))]
    pub connections: u16,

    /// Ends connections that are idle inside a transaction for longer than this. 0 means never
    #[arg(long, value_name = "SECONDS", default_value_t = 0)]
    idle_in_transaction_timeout: u32,

    /// Ends connections whose transaction lasts longer than this. 0 means never
    #[arg(long, value_name = "SECONDS", default_value_t = 0)]
    transaction_timeout: u32,

    /// Writes metrics to FILE every ten seconds, for the textfile collector of node_exporter
    #[arg(long, value_name = "FILE")]
    pub metrics: Option<PathBuf>,

    /// Logs what is at least this grave. `debug` shows each connection
    #[arg(long, value_name = "LEVEL", value_enum, default_value_t = LogLevel::Info)]
    pub log_level: LogLevel,
}

/// A database that is served.
#[derive(Clone, Debug, PartialEq, Eq)]
pub struct Database {
    /// The name by which clients connect.
    pub name: String,
    /// The file of its store. None: it is kept in memory.
    pub store: Option<PathBuf>,
}

impl Args {
    /// Reads the command line of this process. Ends it with status 2 if it cannot be used.
    pub fn read() -> Args {
        Args::from(std::env::args_os()).unwrap_or_else(|error| error.exit())
    }

    /// Reads a command line, the name of the program first.
    fn from(words: impl IntoIterator<Item = OsString>) -> Result<Args, clap::Error> {
        let args = Args::try_parse_from(words)?;
        let mut names = HashSet::new();
        match args
            .databases
            .iter()
            .find(|database| !names.insert(database.name.as_str()))
        {
            None => Ok(args),
            Some(twice) => {
                let text = format!("two databases are named {}", twice.name);
                Err(Args::command().error(ErrorKind::ValueValidation, text))
            }
        }
    }

    /// Returns how long transactions may be idle, and how long they may last.
    pub fn limits(&self) -> Limits {
        Limits {
            idle_in_transaction: limit(self.idle_in_transaction_timeout),
            transaction: limit(self.transaction_timeout),
        }
    }
}

/// Returns a limit of so many seconds. None: there is no limit.
fn limit(seconds: u32) -> Option<Duration> {
    Some(Duration::from_secs(seconds.into())).filter(|limit| !limit.is_zero())
}

/// Reads the permissions of a socket.
fn mode(text: &str) -> Result<u32, String> {
    match u32::from_str_radix(text, 8) {
        Ok(mode) if mode <= 0o777 => Ok(mode),
        _ => Err("the mode must be an octal number, at most 0777".to_owned()),
    }
}

/// Reads `NAME=PATH` or `NAME`.
fn database(value: &OsString) -> Result<Database, String> {
    let mut parts = value.as_bytes().splitn(2, |&byte| byte == b'=');
    let name = parts.next().unwrap_or_default();
    let name = std::str::from_utf8(name).map_err(|_| "the name must be UTF-8".to_owned())?;
    if name.is_empty() || name.len() > NAME_LIMIT || name.chars().any(char::is_control) {
        return Err(format!(
            "the name must have 1 to {NAME_LIMIT} bytes and no control characters"
        ));
    }
    let store = match parts.next() {
        None => None,
        Some(b"") => return Err("a path must follow the `=`".to_owned()),
        Some(path) => Some(OsString::from_vec(path.to_vec()).into()),
    };
    Ok(Database {
        name: name.to_owned(),
        store,
    })
}

#[cfg(test)]
mod tests {
    use super::*;
    use tracing::Level;

    fn read(words: &[&str]) -> Result<Args, clap::Error> {
        Args::from(["escrowd-pg"].iter().chain(words).map(OsString::from))
    }

    #[test]
    fn the_command_is_well_formed() {
        Args::command().debug_assert();
    }

    #[test]
    fn what_is_not_given_has_its_default() {
        let args = read(&["--listen", "/run/x", "--database", "shop"]).unwrap();
        assert_eq!(args.listen, PathBuf::from("/run/x"));
        assert_eq!((args.port, args.mode), (5432, 0o600));
        assert_eq!((args.sessions, args.connections), (4096, 8192));
        assert_eq!(
            args.databases,
            [Database {
                name: "shop".to_owned(),
                store: None
            }]
        );
        assert_eq!(args.limits(), Limits::default());
        assert_eq!(args.log_level.level(), Level::INFO);
        assert_eq!((args.program, args.metrics), (None, None));
    }

    #[test]
    fn all_options_are_read() {
        let args = read(&[
            "--listen=/run/x",
            "--port=6432",
            "--mode=0660",
            "--database=shop=/var/a=b.db",
            "--database=other",
            "--program=/opt/escrowd",
            "--sessions=300",
            "--connections=500",
            "--idle-in-transaction-timeout=30",
            "--transaction-timeout=4294967295",
            "--metrics=/var/m.prom",
            "--log-level=debug",
        ])
        .unwrap();
        assert_eq!((args.port, args.mode), (6432, 0o660));
        assert_eq!((args.sessions, args.connections), (300, 500));
        assert_eq!(args.databases[0].store, Some(PathBuf::from("/var/a=b.db")));
        assert_eq!(args.databases[1].store, None);
        assert_eq!(args.program, Some(PathBuf::from("/opt/escrowd")));
        let limits = args.limits();
        assert_eq!(limits.idle_in_transaction, Some(Duration::from_secs(30)));
        assert_eq!(
            limits.transaction,
            Some(Duration::from_secs(u32::MAX.into()))
        );
        assert_eq!(args.metrics, Some(PathBuf::from("/var/m.prom")));
        assert_eq!(args.log_level.level(), Level::DEBUG);
    }

    #[test]
    fn a_path_may_be_in_any_encoding() {
        let words = ["escrowd-pg", "--listen", "x", "--database"]
            .iter()
            .map(OsString::from);
        let odd = OsString::from_vec(b"a=\xFF.db".to_vec());
        let args = Args::from(words.chain([odd])).unwrap();
        assert_eq!(
            args.databases[0]
                .store
                .as_ref()
                .unwrap()
                .as_os_str()
                .as_bytes(),
            b"\xFF.db"
        );
    }

    #[test]
    fn what_cannot_be_used_is_refused() {
        let long = "n".repeat(NAME_LIMIT + 1);
        let refused: [&[&str]; 16] = [
            &[],
            &["--listen", "x"],
            &["--database", "a"],
            &["--listen", "x", "--database", ""],
            &["--listen", "x", "--database", "=p"],
            &["--listen", "x", "--database", "a="],
            &["--listen", "x", "--database", &long],
            &["--listen", "x", "--database", "a", "--database", "a=b"],
            &["--listen", "x", "--database", "a", "--mode", "1777"],
            &["--listen", "x", "--database", "a", "--port", "0"],
            &["--listen", "x", "--database", "a", "--sessions", "4"],
            &["--listen", "x", "--database", "a", "--sessions", "65536"],
            &["--listen", "x", "--database", "a", "--connections", "0"],
            &["--listen", "x", "--database", "a", "--connections", "65536"],
            &["--listen", "x", "--database", "a", "--log-level", "loud"],
            &[
                "--listen",
                "x",
                "--database",
                "a",
                "--transaction-timeout",
                "-1",
            ],
        ];
        for words in refused {
            let error = read(words).expect_err(&format!("{words:?} was read"));
            assert!(error.use_stderr(), "{words:?}");
        }
    }
}
