//! `escrowd-proxy`: reservations inside the transactions of a PostgreSQL.

#![forbid(unsafe_code)]

use std::io;
use std::panic;
use std::path::PathBuf;
use std::process::ExitCode;
use std::sync::Arc;
use std::time::Duration;

use escrowd_pg::system::log::Log;
use escrowd_pg::system::notify;
use escrowd_pg::version::check_version;
use escrowd_proxy::args::{Place, Script, Serve, Task};
use escrowd_proxy::hub::{Hub, Workers};
use escrowd_proxy::install::{self, Act};
use escrowd_proxy::listener::{ListenError, Listener};
use escrowd_proxy::metrics::{Metrics, Shown};
use escrowd_proxy::relay::Service;
use escrowd_proxy::target::{BadTarget, Target};
use escrowd_proxy::threads::{usual_count, Threads};
use escrowd_proxy::tls::{Acceptor, BadFile};
use escrowd_proxy::{folder, keeper, process};
use tokio::signal::unix::{signal, SignalKind};
use tokio::sync::mpsc::unbounded_channel;

/// How long no client is accepted after the system refused to.
const PAUSE: Duration = Duration::from_millis(100);

/// Why the program ends.
#[derive(Debug, thiserror::Error)]
enum Failure {
    #[error("{0}")]
    Target(#[from] BadTarget),
    #[error("the certificate for clients cannot be used: {0}")]
    Certificate(#[from] BadFile),
    #[error("the program {} cannot be used: {error}", path.display())]
    Program { path: PathBuf, error: io::Error },
    #[error("{0}")]
    Listen(#[from] ListenError),
    #[error("the metrics cannot be shown at {place}: {error}")]
    Metrics { place: Place, error: io::Error },
    #[error("the metrics cannot be counted: {0}")]
    Counting(#[from] prometheus::Error),
    #[error("{0}")]
    System(#[from] io::Error),
}

impl Failure {
    fn status(&self) -> ExitCode {
        ExitCode::from(match self {
            Failure::System(_) | Failure::Counting(_) => 1,
            Failure::Target(_) | Failure::Certificate(_) | Failure::Metrics { .. } => 2,
            Failure::Program { .. } => 3,
            Failure::Listen(_) => 4,
        })
    }
}

#[tokio::main(flavor = "current_thread")]
async fn main() -> ExitCode {
    match Task::read() {
        Task::Serve(serve) => begin(*serve).await,
        Task::Install(script) => apply(Act::Install, &script).await,
        Task::Uninstall(script) => apply(Act::Uninstall, &script).await,
    }
}

async fn apply(act: Act, script: &Script) -> ExitCode {
    match install::run(act, script).await {
        Ok(()) => ExitCode::SUCCESS,
        Err(error) => {
            eprintln!("escrowd-proxy: {error}");
            ExitCode::FAILURE
        }
    }
}

/// Lets a panic end the program. What was decided may be carried out by half then, and others would go on with it. The next
/// owner begins from what PostgreSQL has.
fn end_at_a_panic() {
    let usual = panic::take_hook();
    panic::set_hook(Box::new(move |panic| {
        usual(panic);
        std::process::abort();
    }));
}

async fn begin(args: Serve) -> ExitCode {
    end_at_a_panic();
    let log = match Log::start(args.log_level.level()) {
        Ok(log) => log,
        Err(error) => {
            eprintln!("escrowd-proxy: the log cannot be started: {error}");
            return ExitCode::FAILURE;
        }
    };
    let status = match serve(args).await {
        Ok(()) => ExitCode::SUCCESS,
        Err(failure) => {
            tracing::error!("{failure}");
            failure.status()
        }
    };
    log.finish();
    status
}

/// Accepts clients until a signal comes.
async fn serve(args: Serve) -> Result<(), Failure> {
    let target = Arc::new(Target::of(&args.postgres)?);
    let acceptor = match (&args.tls_certificate, &args.tls_key) {
        (Some(certificate), Some(key)) => {
            Some(Arc::new(Acceptor::new(certificate, key, args.tls_only)?))
        }
        _ => None,
    };
    let program = program_of(&args)?;
    let (mut term, mut int, mut hup) = (
        signal(SignalKind::terminate())?,
        signal(SignalKind::interrupt())?,
        signal(SignalKind::hangup())?,
    );
    let metrics = Metrics::new()?;
    let shown = match &args.metrics {
        Some(place) => Some(show(place).await?),
        None => None,
    };
    let mut listeners = Vec::new();
    for place in &args.listen {
        listeners.push(Listener::open(place, args.port, args.mode).await?);
        tracing::info!("listening on {place}");
    }
    let (hub, threads) = start(program, target, acceptor.clone(), &args, metrics.clone())?;
    if let Some(shown) = shown {
        tokio::spawn(shown.run(metrics, move || hub.now()));
    }
    for listener in listeners {
        tokio::spawn(accept(listener, threads.clone()));
    }
    notify::ready();
    loop {
        tokio::select! {
            _ = term.recv() => break,
            _ = int.recv() => break,
            _ = hup.recv() => reload(acceptor.as_deref()),
        }
    }
    notify::stopping();
    Ok(())
}

/// Returns the program that grants: that of the command line, of the environment, or the one beside this one.
fn program_of(args: &Serve) -> Result<PathBuf, Failure> {
    let named = args.program.clone();
    let named = named.or_else(|| std::env::var_os("ESCROWD").map(PathBuf::from));
    let is_named = named.is_some();
    let path = match named {
        Some(path) => path,
        None => std::env::current_exe()?.with_file_name("escrowd"),
    };
    match check_version(&path, is_named) {
        Ok(is_proved) => {
            if !is_proved {
                tracing::warn!("{} is not proved", path.display());
            }
            Ok(path)
        }
        Err(error) => Err(Failure::Program { path, error }),
    }
}

/// Starts what serves all clients: threads, the server, and the proxy's own connections.
fn start(
    program: PathBuf,
    target: Arc<Target>,
    acceptor: Option<Arc<Acceptor>>,
    args: &Serve,
    metrics: Metrics,
) -> io::Result<(Arc<Hub>, Threads)> {
    let (keeper, to_keeper) = unbounded_channel();
    let (folder, to_folder) = unbounded_channel();
    let (loader, to_loader) = unbounded_channel();
    let (starter, to_starter) = unbounded_channel();
    let workers = Workers {
        keeper,
        folder,
        loader,
        starter,
    };
    let hub = Arc::new(Hub::new(workers, metrics));
    let service = Service {
        hub: hub.clone(),
        target: target.clone(),
        acceptor,
        fold_wait: args.fold_wait,
    };
    let threads = Threads::start(args.threads.unwrap_or_else(usual_count), &service)?;
    threads.spawn(process::run(hub.clone(), program, to_starter));
    threads.spawn(folder::fold(hub.clone(), target.clone(), to_folder));
    let to_loader = Arc::new(tokio::sync::Mutex::new(to_loader));
    for _ in 0..folder::LOADERS {
        threads.spawn(folder::load(hub.clone(), target.clone(), to_loader.clone()));
    }
    // The keeper has to be heard of in time (rule 9), however busy the clients are.
    tokio::spawn(keeper::keep(hub.clone(), target.clone(), to_keeper));
    tokio::spawn(folder::watch(hub.clone(), target));
    Ok((hub, threads))
}

/// Opens the place of the metrics.
async fn show(place: &Place) -> Result<Shown, Failure> {
    Shown::open(place).await.map_err(|error| Failure::Metrics {
        place: place.clone(),
        error,
    })
}

/// Reads the certificate anew.
fn reload(acceptor: Option<&Acceptor>) {
    match acceptor.map(Acceptor::reload) {
        Some(Ok(())) => tracing::info!("the certificate for clients was read anew"),
        Some(Err(error)) => tracing::warn!("the certificate for clients stays: {error}"),
        None => {}
    }
}

/// Accepts clients until the program ends.
async fn accept(listener: Listener, mut threads: Threads) {
    loop {
        let taken = match listener.accept().await {
            Ok(client) => threads.take(client),
            Err(error) => Err(error),
        };
        match taken {
            Ok(()) => {}
            Err(error) => {
                // No file descriptors, for instance: others have to end first.
                tracing::warn!("a connection could not be accepted: {error}");
                tokio::time::sleep(PAUSE).await;
            }
        }
    }
}
