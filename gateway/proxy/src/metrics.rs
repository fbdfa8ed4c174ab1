//! Metrics, in a file for the textfile collector of node_exporter, or over HTTP for Prometheus itself.

use std::future::Future;
use std::io;
use std::sync::Arc;
use std::time::Duration;

use escrowd_pg::system::textfile::TextFile;
use prometheus::core::Collector;
use prometheus::{
    Encoder, Gauge, Histogram, HistogramOpts, IntCounter, IntCounterVec, IntGauge, IntGaugeVec,
    Opts, Registry, TextEncoder,
};
use tokio::io::{AsyncReadExt, AsyncWriteExt};
use tokio::net::{TcpListener, TcpStream};
use tokio::sync::Semaphore;
use tokio::time::{interval, sleep, timeout};

use crate::args::Place;
use crate::protocol::{Alarm, Counts, Ownership};
use crate::server::Refusal;

/// How often a file is written.
const INTERVAL: Duration = Duration::from_secs(10);

/// The upper ends of the buckets of times, in seconds, and of numbers of commits.
const SECONDS: [f64; 14] = [
    0.0002, 0.0005, 0.001, 0.002, 0.005, 0.01, 0.02, 0.05, 0.1, 0.2, 0.5, 1.0, 2.0, 5.0,
];
const COMMITS: [f64; 10] = [1.0, 2.0, 4.0, 8.0, 16.0, 32.0, 64.0, 128.0, 256.0, 512.0];

/// How many answer HTTP at a time, how long a request may be, and how long it may take.
const READERS: usize = 8;
const LONGEST_REQUEST: usize = 8_192;
const PATIENCE: Duration = Duration::from_secs(5);

/// A pause behind a refused accept.
const PAUSE: Duration = Duration::from_millis(100);

/// What is true at the moment.
#[derive(Clone, Copy, Debug)]
pub struct Now {
    /// How far the proxy is with becoming the owner.
    pub ownership: Ownership,
    /// How many clients are connected.
    pub connections: usize,
    /// What the state machine has.
    pub counts: Counts,
    /// How long the oldest transaction with a reservation has it.
    pub oldest: Duration,
}

/// What is counted. Clones share it.
#[derive(Clone, Debug)]
pub struct Metrics {
    registry: Registry,
    is_owner: IntGauge,
    connections: IntGauge,
    open: IntGauge,
    holds: IntGauge,
    held: IntGauge,
    pending: IntGauge,
    stopped: IntGauge,
    oldest: Gauge,
    reservations: IntCounter,
    refusals: IntCounterVec,
    committed: IntCounter,
    rolled_back: IntCounter,
    loads: IntCounter,
    fold_commits: Histogram,
    fold_seconds: Histogram,
    folds_failed: IntCounter,
    folds_refused: IntCounter,
    alarms: IntCounterVec,
}

impl Metrics {
    /// Returns metrics that have counted nothing.
    ///
    /// # Errors
    ///
    /// Fails if two of them have the same name.
    pub fn new() -> prometheus::Result<Metrics> {
        let registry = Registry::new();
        let gauge = |name, help| registered(&registry, IntGauge::new(name, help)?);
        let counter = |name, help| registered(&registry, IntCounter::new(name, help)?);
        let counters = |name, help, labels: &[&str]| {
            registered(
                &registry,
                IntCounterVec::new(Opts::new(name, help), labels)?,
            )
        };
        let histogram = |name, help, buckets: &[f64]| {
            let options = HistogramOpts::new(name, help).buckets(buckets.to_vec());
            registered(&registry, Histogram::with_opts(options)?)
        };
        let build = Opts::new(
            "escrowd_proxy_build_info",
            "1, with the version of the proxy.",
        );
        let build = registered(&registry, IntGaugeVec::new(build, &["version"])?)?;
        build.with_label_values(&[env!("CARGO_PKG_VERSION")]).set(1);
        let transactions = counters(
            "escrowd_proxy_transactions_total",
            "Transactions with reservations that ended, by outcome.",
            &["outcome"],
        )?;
        let oldest = Gauge::new(
            "escrowd_proxy_oldest_reservation_seconds",
            "The age of the oldest open reservation, 0 if none is open.",
        )?;
        Ok(Metrics {
            is_owner: gauge(
                "escrowd_proxy_owner",
                "1 if this proxy grants, 0 if it stands by.",
            )?,
            connections: gauge("escrowd_proxy_connections", "Clients that are connected.")?,
            open: gauge(
                "escrowd_proxy_reservations",
                "Reservations of open transactions.",
            )?,
            holds: gauge(
                "escrowd_proxy_holds",
                "Reservations of holds, of rows that the proxy has loaded.",
            )?,
            held: gauge("escrowd_proxy_rows_held", "Rows that the proxy has loaded.")?,
            pending: gauge(
                "escrowd_proxy_rows_pending",
                "Rows with committed changes that are not folded yet.",
            )?,
            stopped: gauge(
                "escrowd_proxy_tables_stopped",
                "Tables that an alarm has stopped. It must be 0.",
            )?,
            oldest: registered(&registry, oldest)?,
            reservations: counter(
                "escrowd_proxy_reservations_total",
                "Reservations that were granted.",
            )?,
            refusals: counters(
                "escrowd_proxy_refusals_total",
                "Reservations that were refused, by kind and, if it is a CHECK, its name.",
                &["kind", "constraint"],
            )?,
            committed: transactions.with_label_values(&["committed"]),
            rolled_back: transactions.with_label_values(&["rolled_back"]),
            loads: counter("escrowd_proxy_loads_total", "Rows that were loaded.")?,
            fold_commits: histogram(
                "escrowd_proxy_fold_commits",
                "Transactions that were committed since the fold before.",
                &COMMITS,
            )?,
            fold_seconds: histogram(
                "escrowd_proxy_fold_seconds",
                "The time of a fold, to its COMMIT.",
                &SECONDS,
            )?,
            folds_failed: counter(
                "escrowd_proxy_folds_failed_total",
                "Folds that failed for a lock or a connection, and are tried again.",
            )?,
            folds_refused: counter(
                "escrowd_proxy_folds_refused_total",
                "Folds that PostgreSQL refused. It must be 0: their table grants no more.",
            )?,
            alarms: counters(
                "escrowd_proxy_alarms_total",
                "Broken rules, by kind. It must be 0: a table or the proxy grants no more.",
                &["kind"],
            )?,
            registry,
        })
    }

    /// Counts a reservation that was granted.
    pub fn granted(&self) {
        self.reservations.inc();
    }

    /// Counts one that was refused.
    pub fn refused(&self, refusal: &Refusal) {
        let (kind, constraint) = match refusal {
            Refusal::Check { constraint, .. } => ("check", constraint.as_str()),
            Refusal::Range(..) => ("range", ""),
            Refusal::TooMany => ("too_many", ""),
            Refusal::NoSession => ("no_session", ""),
            Refusal::Memory => ("memory", ""),
        };
        self.refusals.with_label_values(&[kind, constraint]).inc();
    }

    /// Counts a transaction with reservations whose outcome is known.
    pub fn ended(&self, is_committed: bool) {
        match is_committed {
            true => self.committed.inc(),
            false => self.rolled_back.inc(),
        }
    }

    /// Counts a row that was loaded.
    pub fn loaded(&self) {
        self.loads.inc();
    }

    /// Counts a fold that begins, and how many transactions were committed since the one before.
    pub fn fold_begins(&self, commits: u64) {
        self.fold_commits.observe(commits as f64);
    }

    /// Counts a fold that has ended well.
    pub fn folded(&self, time: Duration) {
        self.fold_seconds.observe(time.as_secs_f64());
    }

    /// Counts a fold that is tried again.
    pub fn fold_failed(&self) {
        self.folds_failed.inc();
    }

    /// Counts a fold that PostgreSQL refused.
    pub fn fold_refused(&self) {
        self.folds_refused.inc();
    }

    /// Counts a broken rule.
    pub fn alarm(&self, alarm: Alarm) {
        let kind = match alarm {
            Alarm::FoldRefused => "fold_refused",
            Alarm::NoPrefix => "no_prefix",
            Alarm::ServerBroke => "server_broke",
            Alarm::HoldUnseen => "hold_unseen",
        };
        self.alarms.with_label_values(&[kind]).inc();
    }

    /// Sets what is true at the moment.
    fn show(&self, now: Now) {
        let whole = |number: usize| i64::try_from(number).unwrap_or(i64::MAX);
        self.is_owner
            .set((now.ownership == Ownership::Serving).into());
        self.connections.set(whole(now.connections));
        self.open.set(whole(now.counts.reservations));
        self.holds.set(whole(now.counts.holds));
        self.held.set(whole(now.counts.rows));
        self.pending.set(whole(now.counts.pending));
        self.stopped.set(whole(now.counts.stopped));
        self.oldest.set(now.oldest.as_secs_f64());
    }

    /// Returns the text of Prometheus.
    fn text(&self, now: Now) -> Vec<u8> {
        self.show(now);
        let mut text = Vec::new();
        // Writing to memory fails only if a metric has no value, and each has one.
        if let Err(error) = TextEncoder::new().encode(&self.registry.gather(), &mut text) {
            tracing::warn!("the metrics cannot be written: {error}");
        }
        text
    }
}

/// Adds a metric to a registry, and returns it.
fn registered<T: Collector + Clone + 'static>(
    registry: &Registry,
    metric: T,
) -> prometheus::Result<T> {
    registry.register(Box::new(metric.clone()))?;
    Ok(metric)
}

/// Where the metrics go.
pub enum Shown {
    /// To a file, which goes with this value.
    File(File),
    /// To who asks at a socket.
    Socket(TcpListener),
}

/// A file of metrics. It is removed with this value, so that no old values are collected.
pub struct File(TextFile);

impl Drop for File {
    fn drop(&mut self) {
        self.0.remove();
    }
}

impl Shown {
    /// Opens the place.
    ///
    /// # Errors
    ///
    /// Fails if the path has another kind of file than a regular one, or nobody can listen at the address.
    pub async fn open(place: &Place) -> io::Result<Shown> {
        Ok(match place {
            Place::Path(path) => Shown::File(File(TextFile::new(path)?)),
            Place::Address(address) => Shown::Socket(TcpListener::bind(address).await?),
        })
    }

    /// Shows the metrics until the program ends. `now` tells what is true.
    pub async fn run(self, metrics: Metrics, now: impl Fn() -> Now + Send + Sync + 'static) {
        match self {
            Shown::File(mut file) => {
                let mut ticks = interval(INTERVAL);
                loop {
                    ticks.tick().await;
                    metrics.show(now());
                    file.0.write(&metrics.registry);
                }
            }
            Shown::Socket(listener) => {
                let now = Arc::new(now);
                let places = Arc::new(Semaphore::new(READERS));
                loop {
                    // A closed semaphore has no places; this one is never closed.
                    let place = places.clone().acquire_owned().await;
                    match listener.accept().await {
                        Ok((socket, _)) => {
                            let (metrics, now) = (metrics.clone(), now.clone());
                            tokio::spawn(async move {
                                in_time(answer(socket, || metrics.text(now()))).await;
                                drop(place);
                            });
                        }
                        Err(_) => sleep(PAUSE).await,
                    }
                }
            }
        }
    }
}

async fn in_time(answering: impl Future<Output = io::Result<()>>) {
    // Who asks slowly, or leaves, gets nothing.
    let _ = timeout(PATIENCE, answering).await;
}

/// Answers one request of HTTP/1.1 (RFC 9112), and closes the connection.
async fn answer(mut socket: TcpStream, text: impl Fn() -> Vec<u8>) -> io::Result<()> {
    let mut request = Vec::new();
    while !request.windows(4).any(|end| end == b"\r\n\r\n") {
        if request.len() > LONGEST_REQUEST || socket.read_buf(&mut request).await? == 0 {
            return Ok(());
        }
    }
    let line = request.split(|&byte| byte == b'\r').next();
    let (status, body) = match line.map(|line| line.splitn(3, |&byte| byte == b' ')) {
        Some(mut words) => match (words.next(), words.next()) {
            (Some(b"GET"), Some(b"/metrics")) => ("200 OK", text()),
            (Some(b"GET"), _) => ("404 Not Found", b"see /metrics\n".to_vec()),
            _ => ("405 Method Not Allowed", b"GET alone\n".to_vec()),
        },
        None => ("400 Bad Request", Vec::new()),
    };
    let head = format!(
        "HTTP/1.1 {status}\r\nContent-Type: text/plain; version=0.0.4\r\nContent-Length: {}\r\nAllow: GET\r\n\
         Connection: close\r\n\r\n",
        body.len()
    );
    socket.write_all(head.as_bytes()).await?;
    socket.write_all(&body).await?;
    socket.shutdown().await
}

#[cfg(test)]
mod tests {
    use super::*;

    const NOW: Now = Now {
        ownership: Ownership::Serving,
        connections: 3,
        counts: Counts {
            rows: 5,
            pending: 2,
            reservations: 7,
            holds: 4,
            commits: 0,
            stopped: 1,
        },
        oldest: Duration::from_millis(1_500),
    };

    fn counted() -> Metrics {
        let metrics = Metrics::new().unwrap();
        metrics.granted();
        metrics.refused(&Refusal::Check {
            constraint: "in_stock".to_owned(),
            place: 0,
            is_high: false,
            worst: "-1".to_owned(),
            limit: "0".to_owned(),
        });
        metrics.refused(&Refusal::NoSession);
        metrics.ended(true);
        metrics.fold_begins(40);
        metrics.folded(Duration::from_micros(700));
        metrics.fold_refused();
        metrics.alarm(Alarm::FoldRefused);
        metrics
    }

    #[test]
    fn the_text_has_what_was_counted() {
        let text = String::from_utf8(counted().text(NOW)).unwrap();
        for line in [
            "escrowd_proxy_owner 1",
            "escrowd_proxy_connections 3",
            "escrowd_proxy_reservations 7",
            "escrowd_proxy_holds 4",
            "escrowd_proxy_rows_held 5",
            "escrowd_proxy_rows_pending 2",
            "escrowd_proxy_tables_stopped 1",
            "escrowd_proxy_oldest_reservation_seconds 1.5",
            "escrowd_proxy_reservations_total 1",
            r#"escrowd_proxy_refusals_total{constraint="in_stock",kind="check"} 1"#,
            r#"escrowd_proxy_refusals_total{constraint="",kind="no_session"} 1"#,
            r#"escrowd_proxy_transactions_total{outcome="committed"} 1"#,
            r#"escrowd_proxy_transactions_total{outcome="rolled_back"} 0"#,
            r#"escrowd_proxy_fold_commits_bucket{le="32"} 0"#,
            r#"escrowd_proxy_fold_commits_bucket{le="64"} 1"#,
            r#"escrowd_proxy_fold_seconds_bucket{le="0.0005"} 0"#,
            r#"escrowd_proxy_fold_seconds_bucket{le="0.001"} 1"#,
            "escrowd_proxy_folds_failed_total 0",
            "escrowd_proxy_folds_refused_total 1",
            r#"escrowd_proxy_alarms_total{kind="fold_refused"} 1"#,
        ] {
            assert!(
                text.lines().any(|found| found == line),
                "{line} is not in {text}"
            );
        }
    }

    async fn asked(address: std::net::SocketAddr, request: &[u8]) -> String {
        let mut socket = TcpStream::connect(address).await.unwrap();
        socket.write_all(request).await.unwrap();
        let mut answer = String::new();
        // Who has sent too much may find the connection reset.
        let _ = socket.read_to_string(&mut answer).await;
        answer
    }

    #[tokio::test]
    async fn http_has_the_text_at_one_path() {
        let place = Place::Address("127.0.0.1:0".to_owned());
        let shown = Shown::open(&place).await.unwrap();
        let address = match &shown {
            Shown::Socket(listener) => listener.local_addr().unwrap(),
            Shown::File(_) => unreachable!(),
        };
        tokio::spawn(shown.run(counted(), || NOW));
        for _ in 0..2 * READERS {
            let answer = asked(address, b"GET /metrics HTTP/1.1\r\nHost: x\r\n\r\n").await;
            assert!(answer.starts_with("HTTP/1.1 200 OK\r\n"), "{answer}");
            assert!(answer.contains("\nescrowd_proxy_owner 1\n"), "{answer}");
        }
        let answer = asked(address, b"GET / HTTP/1.1\r\n\r\n").await;
        assert!(answer.starts_with("HTTP/1.1 404 "), "{answer}");
        let answer = asked(address, b"POST /metrics HTTP/1.1\r\n\r\n").await;
        assert!(answer.starts_with("HTTP/1.1 405 "), "{answer}");
        // What is too long is cut off, and may be answered by a reset.
        let mut socket = TcpStream::connect(address).await.unwrap();
        let sent = socket.write_all(&[b'x'; 3 * LONGEST_REQUEST]).await;
        let mut answer = Vec::new();
        let read = socket.read_to_end(&mut answer).await;
        assert!(answer.is_empty(), "{sent:?} {read:?}");
    }
}
