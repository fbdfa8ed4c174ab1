//! Metrics, written to a file for the textfile collector of node_exporter.

use std::fs;
use std::io::{self, ErrorKind};
use std::path::{Path, PathBuf};
use std::time::{Duration, Instant};

use escrowd_pg::connection::Event;
use escrowd_pg::statement::Kind;
use escrowd_pg::system::textfile::{with_suffix, TextFile};
use prometheus::core::Collector;
use prometheus::local::LocalHistogram;
use prometheus::{
    Gauge, GaugeVec, HistogramOpts, HistogramVec, IntCounter, IntCounterVec, IntGauge, IntGaugeVec,
    Opts, Registry,
};

use crate::args::Database;
use crate::failure::Failure;
use crate::program::Program;

/// How often the file is written.
const INTERVAL: Duration = Duration::from_secs(10);

/// The upper ends of the histograms' buckets, in microseconds.
const MICROSECONDS: [f64; 16] = [
    20.0, 50.0, 100.0, 200.0, 500.0, 1e3, 2e3, 5e3, 1e4, 2e4, 5e4, 1e5, 2e5, 5e5, 1e6, 1e7,
];

/// How many microseconds a second has.
const MILLION: f64 = 1e6;

/// The metrics of all databases, and their file.
pub struct Metrics {
    registry: Registry,
    databases: Vec<DatabaseMetrics>,
    refusals: IntCounterVec,
    file: TextFile,
    due: Instant,
}

/// What is counted of one database.
struct DatabaseMetrics {
    statements: Vec<IntCounter>,
    refusals: IntCounterVec,
    committed: IntCounter,
    rolled_back: IntCounter,
    connections: IntGauge,
    sessions: IntGauge,
    waiting: IntGauge,
    reservations: IntGauge,
    oldest: Gauge,
    seconds: LocalHistogram,
    microseconds: LocalHistogram,
    store: Option<StoreMetrics>,
    name: String,
}

/// What is measured of a database's files.
struct StoreMetrics {
    path: PathBuf,
    log_path: PathBuf,
    bytes: IntGauge,
    log_bytes: IntGauge,
}

impl StoreMetrics {
    /// Reads the sizes of the files. One that does not exist has none.
    fn measure(&self) {
        let size = |path: &Path| fs::metadata(path).map_or(0, |found| found.len() as i64);
        self.bytes.set(size(&self.path));
        self.log_bytes.set(size(&self.log_path));
    }
}

/// How many there may be of a database.
#[derive(Clone, Copy, Debug)]
pub struct Most {
    /// Connections.
    pub connections: usize,
    /// Transactions that have a session.
    pub transactions: usize,
}

/// What is true of a database at the moment.
#[derive(Clone, Copy, Debug, Default, PartialEq)]
pub struct State {
    /// How many clients are connected.
    pub connections: usize,
    /// How many sessions are taken.
    pub sessions: usize,
    /// How many clients wait for one.
    pub waiting: usize,
    /// How many reservations their transactions hold.
    pub reservations: u32,
    /// When the oldest open transaction began.
    pub oldest: Option<Instant>,
}

impl State {
    /// Returns the state of a program's database, without its transactions.
    pub fn of(program: &Program) -> State {
        let (sessions, waiting) = program.taken_sessions();
        State {
            connections: program.clients(),
            sessions,
            waiting,
            ..State::default()
        }
    }

    /// Adds a client: the time at which its transaction began, if it has one, and how many reservations it holds.
    pub fn add(&mut self, transaction: Option<Instant>, reservations: u32) {
        self.oldest = self.oldest.into_iter().chain(transaction).min();
        self.reservations += reservations;
    }
}

impl Metrics {
    /// Returns metrics of these databases, each of which has so much. They are written to `path`.
    ///
    /// # Errors
    ///
    /// Fails if the path, or that beside it which is written first, has another kind of file than a regular one.
    pub fn new(
        databases: &[Database],
        most: Most,
        path: &Path,
        now: Instant,
    ) -> Result<Metrics, Failure> {
        let file = TextFile::new(path).map_err(|error| Failure::Metrics {
            path: path.to_owned(),
            error,
        })?;
        let failed = |error| Failure::system("metrics")(io::Error::new(ErrorKind::Other, error));
        let registry = Registry::new();
        let families = Families::register(&registry).map_err(failed)?;
        let version = env!("CARGO_PKG_VERSION");
        families.build.with_label_values(&[version]).set(1);
        let of = |database| families.of(database, most);
        Ok(Metrics {
            databases: databases.iter().map(of).collect(),
            registry,
            refusals: families.refusals.clone(),
            file,
            due: now,
        })
    }

    /// Counts a fact of a client, by the place of its database. None: it has named none that is served.
    pub fn count(&self, database: Option<usize>, event: Event) {
        match (database, event) {
            (Some(place), _) => self.databases[place].count(event),
            (None, Event::Refused(state)) => {
                self.refusals.with_label_values(&["", state.code()]).inc();
            }
            (None, _) => {}
        }
    }

    /// Notes how long the program of a database took to answer a statement.
    pub fn answered(&self, database: usize, duration: Duration) {
        let seconds = duration.as_secs_f64();
        let database = &self.databases[database];
        database.seconds.observe(seconds);
        database.microseconds.observe(seconds * MILLION);
    }

    /// Returns when the file is to be written.
    pub fn due(&self) -> Instant {
        self.due
    }

    /// Writes the file. `states` has the databases in order.
    pub fn write(&mut self, states: &[State], now: Instant) {
        self.due = now + INTERVAL;
        for (database, state) in self.databases.iter().zip(states) {
            database.show(state, now);
        }
        self.file.write(&self.registry);
    }

    /// Takes the file away, so that no old values are collected.
    pub fn remove(&self) {
        self.file.remove();
    }
}

impl DatabaseMetrics {
    /// Counts a fact.
    fn count(&self, event: Event) {
        match event {
            Event::Statement(kind) => self.statements[kind as usize].inc(),
            Event::Refused(state) => {
                self.refusals
                    .with_label_values(&[&self.name, state.code()])
                    .inc();
            }
            Event::Committed => self.committed.inc(),
            Event::RolledBack => self.rolled_back.inc(),
        }
    }

    /// Sets what is true at the moment.
    fn show(&self, state: &State, now: Instant) {
        self.seconds.flush();
        self.microseconds.flush();
        if let Some(store) = &self.store {
            store.measure();
        }
        self.connections.set(state.connections as i64);
        self.sessions.set(state.sessions as i64);
        self.waiting.set(state.waiting as i64);
        self.reservations.set(state.reservations.into());
        let age = state
            .oldest
            .map_or(Duration::ZERO, |since| now.saturating_duration_since(since));
        self.oldest.set(age.as_secs_f64());
    }
}

/// The metrics before they are told apart by database.
struct Families {
    build: IntGaugeVec,
    statements: IntCounterVec,
    refusals: IntCounterVec,
    transactions: IntCounterVec,
    connections: IntGaugeVec,
    most_connections: IntGaugeVec,
    sessions: IntGaugeVec,
    most_sessions: IntGaugeVec,
    waiting: IntGaugeVec,
    reservations: IntGaugeVec,
    oldest: GaugeVec,
    seconds: HistogramVec,
    microseconds: HistogramVec,
    store: IntGaugeVec,
}

impl Families {
    fn register(registry: &Registry) -> prometheus::Result<Families> {
        let counters = |name, help, labels: &[&str]| {
            registered(registry, IntCounterVec::new(Opts::new(name, help), labels)?)
        };
        let gauges = |name, help, labels: &[&str]| {
            registered(registry, IntGaugeVec::new(Opts::new(name, help), labels)?)
        };
        let histograms = |name, help, buckets| {
            let options = HistogramOpts::new(name, help).buckets(buckets);
            registered(registry, HistogramVec::new(options, &["database"])?)
        };
        let oldest = Opts::new(
            "escrowd_pg_oldest_transaction_seconds",
            "The age of the oldest open transaction, 0 if none is open.",
        );
        Ok(Families {
            build: gauges(
                "escrowd_pg_build_info",
                "1, with the version of the gateway.",
                &["version"],
            )?,
            statements: counters(
                "escrowd_pg_statements_total",
                "Statements that clients sent, by kind.",
                &["database", "kind"],
            )?,
            refusals: counters(
                "escrowd_pg_refusals_total",
                "Errors that clients got, by SQLSTATE.",
                &["database", "sqlstate"],
            )?,
            transactions: counters(
                "escrowd_pg_transactions_total",
                "Transactions that ended, by outcome.",
                &["database", "outcome"],
            )?,
            connections: gauges(
                "escrowd_pg_connections",
                "Clients that are connected.",
                &["database"],
            )?,
            most_connections: gauges(
                "escrowd_pg_connections_max",
                "Clients that can be connected at a time.",
                &["database"],
            )?,
            sessions: gauges(
                "escrowd_pg_sessions",
                "Sessions that transactions and single statements have.",
                &["database"],
            )?,
            most_sessions: gauges(
                "escrowd_pg_sessions_max",
                "Transactions that can have a session at a time.",
                &["database"],
            )?,
            waiting: gauges(
                "escrowd_pg_sessions_waiting",
                "Clients that wait for a session.",
                &["database"],
            )?,
            reservations: gauges(
                "escrowd_pg_reservations",
                "Reservations of open transactions.",
                &["database"],
            )?,
            oldest: registered(registry, GaugeVec::new(oldest, &["database"])?)?,
            seconds: histograms(
                "escrowd_pg_statement_seconds",
                "The time from a statement to its program's reply.",
                MICROSECONDS.iter().map(|end| end / MILLION).collect(),
            )?,
            microseconds: histograms(
                "escrowd_pg_statement_microseconds",
                "Deprecated: escrowd_pg_statement_seconds in microseconds.",
                MICROSECONDS.to_vec(),
            )?,
            store: gauges(
                "escrowd_pg_store_bytes",
                "The sizes of a store and of the log beside it.",
                &["database", "file"],
            )?,
        })
    }

    fn of(&self, database: &Database, most: Most) -> DatabaseMetrics {
        let name = database.name.as_str();
        let bounds = [
            (&self.most_connections, most.connections),
            (&self.most_sessions, most.transactions),
        ];
        for (family, most) in bounds {
            family.with_label_values(&[name]).set(most as i64);
        }
        let statements = Kind::ALL.iter();
        DatabaseMetrics {
            statements: statements
                .map(|kind| self.statements.with_label_values(&[name, kind.name()]))
                .collect(),
            refusals: self.refusals.clone(),
            committed: self.transactions.with_label_values(&[name, "committed"]),
            rolled_back: self.transactions.with_label_values(&[name, "rolled_back"]),
            connections: self.connections.with_label_values(&[name]),
            sessions: self.sessions.with_label_values(&[name]),
            waiting: self.waiting.with_label_values(&[name]),
            reservations: self.reservations.with_label_values(&[name]),
            oldest: self.oldest.with_label_values(&[name]),
            seconds: self.seconds.with_label_values(&[name]).local(),
            microseconds: self.microseconds.with_label_values(&[name]).local(),
            store: database.store.as_deref().map(|path| StoreMetrics {
                path: path.to_owned(),
                log_path: with_suffix(path, "-wal"),
                bytes: self.store.with_label_values(&[name, "store"]),
                log_bytes: self.store.with_label_values(&[name, "log"]),
            }),
            name: name.to_owned(),
        }
    }
}

/// Adds metrics to a registry, and returns them.
fn registered<T: Collector + Clone + 'static>(
    registry: &Registry,
    family: T,
) -> prometheus::Result<T> {
    registry.register(Box::new(family.clone()))?;
    Ok(family)
}

#[cfg(test)]
mod tests {
    use super::*;
    use crate::temporary::Folder;

    fn database(name: &str, store: Option<PathBuf>) -> Database {
        Database {
            name: name.to_owned(),
            store,
        }
    }

    #[test]
    fn the_file_has_what_was_counted() {
        let folder = Folder::new("metrics");
        let path = folder.0.join("escrowd.prom");
        let store = folder.0.join("shop.db");
        fs::write(&store, [0; 4096]).unwrap();
        let start = Instant::now();
        let databases = [database("shop", Some(store)), database("other", None)];
        let most = Most {
            connections: 500,
            transactions: 60,
        };
        let mut metrics = Metrics::new(&databases, most, &path, start).unwrap();
        metrics.count(Some(0), Event::Statement(Kind::ALL[0]));
        metrics.count(Some(0), Event::Committed);
        metrics.count(Some(0), Event::Committed);
        metrics.count(Some(1), Event::RolledBack);
        metrics.answered(0, Duration::from_micros(30));
        let mut state = State {
            connections: 3,
            sessions: 2,
            waiting: 1,
            ..State::default()
        };
        for (since, reservations) in [
            (None, 0),
            (Some(start + Duration::from_secs(1)), 2),
            (Some(start), 5),
            (None, 0),
        ] {
            state.add(since, reservations);
        }
        let now = start + Duration::from_secs(5);
        metrics.write(&[state, State::default()], now);
        assert_eq!(metrics.due(), now + INTERVAL);
        let text = fs::read_to_string(&path).unwrap();
        let kind = Kind::ALL[0].name();
        let version = env!("CARGO_PKG_VERSION");
        for line in [
            &format!(r#"escrowd_pg_build_info{{version="{version}"}} 1"#),
            &format!(r#"escrowd_pg_statements_total{{database="shop",kind="{kind}"}} 1"#),
            r#"escrowd_pg_transactions_total{database="shop",outcome="committed"} 2"#,
            r#"escrowd_pg_transactions_total{database="other",outcome="rolled_back"} 1"#,
            r#"escrowd_pg_connections{database="shop"} 3"#,
            r#"escrowd_pg_connections_max{database="other"} 500"#,
            r#"escrowd_pg_sessions{database="shop"} 2"#,
            r#"escrowd_pg_sessions{database="other"} 0"#,
            r#"escrowd_pg_sessions_max{database="shop"} 60"#,
            r#"escrowd_pg_sessions_waiting{database="shop"} 1"#,
            r#"escrowd_pg_reservations{database="shop"} 7"#,
            r#"escrowd_pg_oldest_transaction_seconds{database="shop"} 5"#,
            r#"escrowd_pg_oldest_transaction_seconds{database="other"} 0"#,
            r#"escrowd_pg_statement_seconds_bucket{database="shop",le="0.00002"} 0"#,
            r#"escrowd_pg_statement_seconds_bucket{database="shop",le="0.00005"} 1"#,
            r#"escrowd_pg_statement_microseconds_bucket{database="shop",le="20"} 0"#,
            r#"escrowd_pg_statement_microseconds_bucket{database="shop",le="50"} 1"#,
            r#"escrowd_pg_store_bytes{database="shop",file="store"} 4096"#,
            r#"escrowd_pg_store_bytes{database="shop",file="log"} 0"#,
        ] {
            assert!(
                text.lines().any(|found| found == line),
                "{line} is not in {text}"
            );
        }
        assert!(!text.contains(r#"escrowd_pg_store_bytes{database="other""#));
        assert_eq!(folder.entries(), 2);
        metrics.remove();
        assert_eq!(folder.entries(), 1);
    }
}
