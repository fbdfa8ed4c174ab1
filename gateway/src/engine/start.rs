//! How the gateway is put together.

use std::env;
use std::path::PathBuf;
use std::rc::Rc;
use std::time::{Duration, Instant};

use escrowd_pg::budget::Pool;
use escrowd_pg::connection::Settings;
use escrowd_pg::rows::spool;
use escrowd_pg::statement::known::KnownStatements;
use escrowd_pg::version::check_version;
use mio::{Poll, Token};
use tracing::warn;

use super::clients::Clients;
use super::door::Door;
use super::{memory, signals};
use super::{Engine, Phase, PROGRAMS};
use crate::args::Args;
use crate::failure::Failure;
use crate::metrics::{Metrics, Most};
use crate::program::{self, most_transactions, Program};

/// How many bytes one read takes at most: what a pipe holds.
const BUFFER: usize = 64 * 1024;

/// How long a client may take to begin.
const STARTUP: Duration = Duration::from_secs(10);

/// The version of PostgreSQL whose protocol and errors clients expect.
const POSTGRESQL: &str = "15.0";

impl Engine {
    /// Makes the socket and starts the programs.
    pub fn start(args: &Args) -> Result<Engine, Failure> {
        let now = Instant::now();
        let poll = Poll::new().map_err(Failure::system("epoll"))?;
        let (signals, hang_up) = signals::watch(&poll).map_err(Failure::system("signals"))?;
        let most = Most {
            connections: args.connections.into(),
            transactions: most_transactions(args.sessions),
        };
        let metrics = args.metrics.as_ref();
        let metrics = metrics
            .map(|path| Metrics::new(&args.databases, most, path, now))
            .transpose()?;
        let door = Door::make(&args.listen, args.port, args.mode)?;
        let path = program(args)?;
        let mut programs = Vec::with_capacity(args.databases.len());
        for (place, database) in args.databases.iter().enumerate() {
            let token = Token(PROGRAMS + place * program::TOKENS);
            programs.push(Program::start(
                &path,
                database,
                args.sessions,
                poll.registry(),
                token,
                now,
            )?);
        }
        let names: Vec<_> = args
            .databases
            .iter()
            .map(|database| database.name.clone())
            .collect();
        let definitions = programs.iter().map(Program::definitions).cloned().collect();
        Ok(Engine {
            poll,
            signals,
            hang_up,
            stopped: None,
            door: Some(door),
            programs,
            clients: Clients::default(),
            queue: Vec::new(),
            settings: Rc::new(Settings {
                databases: names,
                version: format!("{POSTGRESQL} (escrowd {})", env!("CARGO_PKG_VERSION")),
                limits: args.limits(),
                startup: STARTUP,
                connections: most.connections,
                transactions: most.transactions,
                definitions,
                statements: KnownStatements::default(),
                memory: memory::of_connections(),
                leftovers: Rc::default(),
                disk: Pool::new(spool::MOST_OF_ALL),
            }),
            metrics,
            phase: Phase::Opening,
            failure: None,
            alarm: None,
            restless: Vec::new(),
            rest: None,
            process_id: 0,
            buffer: vec![0; BUFFER].into_boxed_slice(),
            now,
        })
    }
}

/// Returns the path of the program that serves the databases, once it has told its version.
fn program(args: &Args) -> Result<PathBuf, Failure> {
    let named = args.program.clone().or_else(|| {
        let path = env::var_os("ESCROWD").filter(|path| !path.is_empty());
        path.map(PathBuf::from)
    });
    let is_named = named.is_some();
    let path = match named {
        Some(path) => path,
        None => env::current_exe()
            .map_err(Failure::system("the gateway's own path"))?
            .with_file_name("escrowd"),
    };
    match check_version(&path, is_named) {
        Ok(true) => {}
        Ok(false) => warn!("{} is not proved", path.display()),
        Err(error) => {
            return Err(Failure::NotStarted {
                database: args.databases[0].name.clone(),
                program: path,
                error,
            })
        }
    }
    Ok(path)
}
