//! The command line.

use std::ffi::OsString;
use std::fmt;
use std::path::PathBuf;
use std::str::FromStr;
use std::time::Duration;

use clap::error::ErrorKind;
use clap::{Args as ClapArgs, CommandFactory, Parser, Subcommand};
use escrowd_pg::system::log::LogLevel;

use crate::conninfo::Conninfo;

/// What `--help` says behind the options.
const AFTER_HELP: &str = "\
The proxy starts one program, `escrowd serve`, which decides about reservations. It looks for the
program at --program, then in the environment variable ESCROWD, then beside its own executable.

Clients are who they say they are to PostgreSQL: the proxy passes their authentication on. PostgreSQL
sees the proxy's address. The proxy's own connections take the password of the connection string, or
of the environment variable PGPASSWORD. sslmode may be disable, prefer, require, verify-ca or
verify-full, with sslrootcert.

Exit status:
  0  a signal stopped it
  1  a system call or a statement failed
  2  wrong arguments
  3  the program cannot be started
  4  it cannot listen there";

/// Reservations inside the transactions of a PostgreSQL.
#[derive(Debug, Parser)]
#[command(
    name = "escrowd-proxy",
    version,
    after_help = AFTER_HELP,
    args_conflicts_with_subcommands = true,
    subcommand_negates_reqs = true
)]
struct Line {
    #[command(subcommand)]
    command: Option<Command>,
    #[command(flatten)]
    serve: Option<Serve>,
}

#[derive(Debug, Subcommand)]
enum Command {
    /// Prints the SQL that installs schema escrow, or brings an older version to this one
    Install(Script),
    /// Prints the SQL that removes schema escrow. Tables keep their rows, with all that was committed
    Uninstall(Script),
}

/// What the program is to do.
#[derive(Debug)]
pub enum Task {
    /// Serve clients.
    Serve(Box<Serve>),
    /// Install schema `escrow`.
    Install(Script),
    /// Remove it.
    Uninstall(Script),
}

/// How a script is used.
#[derive(Debug, ClapArgs)]
pub struct Script {
    /// Runs the SQL instead of printing it, in one transaction
    #[arg(long, requires = "postgres")]
    pub apply: bool,

    /// Where it runs: a connection string of libpq, with a superuser
    #[arg(long, value_name = "CONNINFO", requires = "apply")]
    pub postgres: Option<Conninfo>,
}

/// How clients are served.
#[derive(Clone, Debug, ClapArgs)]
pub struct Serve {
    /// Listens here: HOST:PORT, or the folder of a Unix socket. May be repeated
    #[arg(long, value_name = "ADDRESS|FOLDER", required = true)]
    pub listen: Vec<Place>,

    /// The number in the name of a Unix socket
    #[arg(long, default_value_t = 5432, value_parser = clap::value_parser!(u16).range(1..))]
    pub port: u16,

    /// The permissions of a Unix socket, in octal
    #[arg(long, default_value = "0777", value_parser = mode)]
    pub mode: u32,

    /// PostgreSQL: a connection string of libpq. It may have several hosts, with
    /// target_session_attrs=read-write. Its user is the proxy's own role, a member of escrow_proxy
    #[arg(long, value_name = "CONNINFO", required = true)]
    pub postgres: Conninfo,

    /// The program that decides about reservations
    #[arg(long, value_name = "PATH")]
    pub program: Option<PathBuf>,

    /// Answers COMMIT at the latest after this time, though a lock keeps the change from its row
    #[arg(long, value_name = "MILLISECONDS", default_value = "100", value_parser = milliseconds)]
    pub fold_wait: Duration,

    /// How many threads serve clients: by itself one for two processors. Where the proxy has a machine
    /// of its own, it may have more
    #[arg(long, value_name = "NUMBER", value_parser = clap::value_parser!(u16).range(1..=1024))]
    pub threads: Option<u16>,

    /// The certificate that clients see over TCP, and those that sign it, in PEM
    #[arg(long, value_name = "FILE", requires = "tls_key")]
    pub tls_certificate: Option<PathBuf>,

    /// The key of the certificate, in PEM
    #[arg(long, value_name = "FILE", requires = "tls_certificate")]
    pub tls_key: Option<PathBuf>,

    /// Refuses clients over TCP that do not use TLS
    #[arg(long, requires = "tls_certificate")]
    pub tls_only: bool,

    /// Writes metrics to a file every ten seconds, for the textfile collector of node_exporter, or
    /// shows them by HTTP at HOST:PORT
    #[arg(long, value_name = "FILE|ADDRESS")]
    pub metrics: Option<Place>,

    /// Logs what is at least this grave. `debug` shows each connection
    #[arg(long, value_name = "LEVEL", value_enum, default_value_t = LogLevel::Info)]
    pub log_level: LogLevel,
}

/// A network address, or a path.
#[derive(Clone, Debug, PartialEq, Eq)]
pub enum Place {
    /// `HOST:PORT`, as `127.0.0.1:6432` or `[::1]:6432`.
    Address(String),
    /// It has a slash.
    Path(PathBuf),
}

impl fmt::Display for Place {
    fn fmt(&self, formatter: &mut fmt::Formatter<'_>) -> fmt::Result {
        match self {
            Place::Address(address) => formatter.write_str(address),
            Place::Path(path) => path.display().fmt(formatter),
        }
    }
}

/// A text that is neither an address nor a path.
#[derive(Clone, Copy, Debug, PartialEq, Eq, thiserror::Error)]
#[error("it must be HOST:PORT, or a path with a slash")]
pub struct BadPlace;

impl FromStr for Place {
    type Err = BadPlace;

    fn from_str(text: &str) -> Result<Place, BadPlace> {
        if text.contains('/') {
            return Ok(Place::Path(PathBuf::from(text)));
        }
        match text.rsplit_once(':') {
            Some((host, port)) if !host.is_empty() && port.parse::<u16>().is_ok() => {
                Ok(Place::Address(text.to_owned()))
            }
            _ => Err(BadPlace),
        }
    }
}

impl Task {
    /// Reads the command line of this process. Ends it with status 2 if it cannot be used.
    pub fn read() -> Task {
        Task::from(std::env::args_os()).unwrap_or_else(|error| error.exit())
    }

    /// Reads a command line, the name of the program first.
    fn from(words: impl IntoIterator<Item = OsString>) -> Result<Task, clap::Error> {
        let line = Line::try_parse_from(words)?;
        match (line.command, line.serve) {
            (Some(Command::Install(script)), _) => Ok(Task::Install(script)),
            (Some(Command::Uninstall(script)), _) => Ok(Task::Uninstall(script)),
            (None, Some(serve)) => Ok(Task::Serve(Box::new(serve))),
            (None, None) => {
                let text = "--listen and --postgres are needed";
                Err(Line::command().error(ErrorKind::MissingRequiredArgument, text))
            }
        }
    }
}

/// Reads the permissions of a socket.
fn mode(text: &str) -> Result<u32, String> {
    match u32::from_str_radix(text, 8) {
        Ok(mode) if mode <= 0o777 => Ok(mode),
        _ => Err("the mode must be an octal number, at most 0777".to_owned()),
    }
}

/// Reads a time of at most an hour.
fn milliseconds(text: &str) -> Result<Duration, String> {
    match text.parse() {
        Ok(time) if time <= 3_600_000 => Ok(Duration::from_millis(time)),
        _ => Err("it must be a number from 0 to 3600000".to_owned()),
    }
}

#[cfg(test)]
mod tests {
    use super::*;

    fn read(line: &str) -> Result<Task, clap::Error> {
        Task::from(
            ["escrowd-proxy"]
                .into_iter()
                .chain(line.split_whitespace())
                .map(OsString::from),
        )
    }

    fn serve(line: &str) -> Box<Serve> {
        match read(line) {
            Ok(Task::Serve(serve)) => serve,
            other => panic!("{:?} is read from {:?}", other, line),
        }
    }

    #[test]
    fn the_command_is_well_formed() {
        Line::command().debug_assert();
    }

    #[test]
    fn what_is_not_given_has_its_default() {
        let it = serve("--listen /run/x --postgres host=a");
        assert_eq!(it.listen, [Place::Path(PathBuf::from("/run/x"))]);
        assert_eq!((it.port, it.mode), (5432, 0o777));
        assert_eq!(
            (it.fold_wait, it.threads),
            (Duration::from_millis(100), None)
        );
        assert_eq!(
            (it.program, it.metrics, it.tls_certificate),
            (None, None, None)
        );
        assert_eq!((it.tls_only, it.log_level), (false, LogLevel::Info));
    }

    #[test]
    fn all_options_are_read() {
        let it = serve(
            "--listen [::1]:6432 --listen ./x --port 1 --mode 0660 --postgres host=a,b --program /p --fold-wait 0 \
             --threads 3 --tls-certificate c --tls-key k --tls-only --metrics localhost:9 --log-level debug",
        );
        let address = |text: &str| Place::Address(text.to_owned());
        assert_eq!(
            it.listen,
            [address("[::1]:6432"), Place::Path(PathBuf::from("./x"))]
        );
        assert_eq!((it.port, it.mode, it.fold_wait), (1, 0o660, Duration::ZERO));
        assert_eq!(it.threads, Some(3));
        assert_eq!(it.postgres.config.get_hosts().len(), 2);
        assert_eq!(
            (it.program, it.tls_key),
            (Some("/p".into()), Some("k".into()))
        );
        assert_eq!(
            (it.metrics, it.tls_only),
            (Some(address("localhost:9")), true)
        );
        assert_eq!(it.log_level, LogLevel::Debug);
    }

    #[test]
    fn scripts_are_printed_or_applied() {
        assert!(
            matches!(read("install"), Ok(Task::Install(it)) if !it.apply && it.postgres.is_none())
        );
        assert!(matches!(
            read("uninstall --apply --postgres host=a"),
            Ok(Task::Uninstall(it)) if it.apply && it.postgres.is_some()
        ));
    }

    #[test]
    fn what_cannot_be_used_is_refused() {
        let refused = [
            "",
            "--listen /x",
            "--postgres host=a",
            "--listen x --postgres host=a",
            "--listen :1 --postgres host=a",
            "--listen a:70000 --postgres host=a",
            "--listen /x --postgres sslmode=loud",
            "--listen /x --postgres host=a --mode 1777",
            "--listen /x --postgres host=a --port 0",
            "--listen /x --postgres host=a --fold-wait -1",
            "--listen /x --postgres host=a --threads 0",
            "--listen /x --postgres host=a --tls-certificate c",
            "--listen /x --postgres host=a --tls-key k",
            "--listen /x --postgres host=a --tls-only",
            "--listen /x --postgres host=a --metrics x",
            "--listen /x --postgres host=a install",
            "install --apply",
            "install --postgres host=a",
            "install --listen /x",
            "remove",
        ];
        for line in refused {
            let error = read(line).expect_err(&format!("{:?} was read", line));
            assert!(error.use_stderr(), "{:?}", line);
        }
    }
}
