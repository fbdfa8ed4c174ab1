//! The state machine of one client, without input and output.

mod activity;
mod catalog;
mod channel;
mod extended;
mod local;
mod prepared;
mod results;
mod simple;
mod startup;
mod totals;
mod transaction;
mod work;

#[cfg(test)]
mod tests;

use std::cell::Cell;
use std::collections::VecDeque;
use std::rc::Rc;
use std::time::{Duration, Instant};

use crate::budget::{Charge, Pool};
use crate::leftovers::Leftovers;
use crate::reply::Question;
use crate::rows::spool::Spill;
use crate::rows::Definitions;
use crate::sqlstate::{Failure, Report, Severity, SqlState};
use crate::statement::known::KnownStatements;
use crate::statement::Kind;
use crate::variables::{Limits, Variables};
use crate::wire::backend::{self, Status};
use crate::wire::frontend::{self, Fault, Frame, Message, Raw};
use channel::{Input, Output, Requests};
use prepared::Prepared;
use results::Rows;
use simple::Query;
use startup::Startup;
use totals::Totals;
use transaction::{Block, Transaction};
use work::{not_understood, Awaited, Target};

/// What every connection of a gateway shares.
#[derive(Clone, Debug)]
pub struct Settings {
    /// The names of the databases that are served, in order.
    pub databases: Vec<String>,
    /// The version that `server_version` reports: PostgreSQL's number in front, as in `15.0 (escrowd 1.1)`.
    pub version: String,
    /// How long transactions may last, unless a connection sets it for itself.
    pub limits: Limits,
    /// How long a client may take for its startup.
    pub startup: Duration,
    /// The most connections of a database, for the text of the refusal.
    pub connections: usize,
    /// The most transactions of a database that have a session, for the text of the refusal.
    pub transactions: usize,
    /// The definitions of the tables of each database, in the order of [`Settings::databases`].
    pub definitions: Vec<Definitions>,
    /// The statements that were read lately.
    pub statements: KnownStatements,
    /// The memory of all connections.
    pub memory: Pool,
    /// What connections no longer use.
    pub leftovers: Rc<Leftovers>,
    /// The disk for rows of all connections that wait for their clients.
    pub disk: Pool,
}

/// What a connection asks the engine for.
#[derive(Debug, PartialEq, Eq)]
pub enum Request<'a> {
    /// A place among the connections of the database at this place of [`Settings::databases`].
    Open {
        /// The place, from 0.
        database: usize,
    },
    /// A statement. It gets one reply.
    Statement {
        /// The line, without prefix and without line feed.
        line: &'a [u8],
        /// What it asks for.
        question: Question,
        /// The session that it needs. None: it leaves nothing open, and is served in the session that all share.
        need: Option<Need>,
    },
    /// What all connections do. [`Connection::activities`] takes the answer, before anything else comes.
    Activities,
    /// The end of the connection with this process id, as an administrator's. It has no answer: the list of
    /// [`Request::Activities`] tells whether there is one.
    Terminate {
        /// What BackendKeyData told the client of that connection.
        process_id: i32,
    },
}

/// What a statement needs a session of its own for. It keeps it as long as the program holds something there, or has not
/// answered all that was asked there.
#[derive(Clone, Copy, Debug, PartialEq, Eq)]
pub enum Need {
    /// A transaction, from its first reservation or savepoint to its end, for which the client may take its time.
    Transaction,
    /// A statement whose COMMIT is asked with it.
    Statement,
}

/// The answer to [`Request::Open`].
#[derive(Clone, Copy, Debug, PartialEq, Eq)]
pub enum Opened {
    /// The client is let in.
    Accepted,
    /// The database has as many connections as it may have.
    TooMany,
}

/// Why the gateway ends a connection.
#[derive(Clone, Debug, PartialEq, Eq)]
pub enum Ending {
    /// The program ended, with this text.
    ProgramEnded(String),
    /// An administrator stops the gateway, or ends this connection.
    Shutdown,
}

/// A fact for the metrics.
#[derive(Clone, Copy, Debug, PartialEq, Eq)]
pub enum Event {
    /// A statement was begun.
    Statement(Kind),
    /// A statement was refused.
    Refused(SqlState),
    /// A transaction was committed.
    Committed,
    /// A transaction was rolled back.
    RolledBack,
}

/// How much output may wait before nothing more is done for the client.
const MOST_OUTPUT: usize = 64 * 1024;

/// How many rows and values queries of the catalog look at in a turn, before others have theirs: some milliseconds.
const MOST_EFFORT: usize = 20_000;

/// What a byte of a message or of a text counts like. So some 4 KB of them are read in a turn.
const EFFORT_OF_A_BYTE: usize = 5;

/// How many messages or statements are served in a turn, at most. Then others have their turn.
const STEPS: usize = 8;

/// How much input may wait while a statement runs.
const MOST_INPUT: usize = 64 * 1024;

/// A Sync. One with a body is a fault, and commits nothing.
const SYNC: Raw<'_> = Raw {
    kind: b'S',
    body: &[],
};

/// How long a transaction waits for a session.
pub const MOST_WAIT: Duration = Duration::from_secs(1);

/// How long a client may take for its last words.
const LINGER: Duration = Duration::from_secs(5);

/// Where a connection is in its life.
#[derive(Debug)]
enum Phase {
    /// The startup packet hasn't come.
    Startup(Startup),
    /// The engine looks whether one more may connect.
    Opening,
    /// Statements are served.
    Serving,
    /// It is closed as soon as its output is sent.
    Closing,
}

/// One client.
pub struct Connection {
    settings: Rc<Settings>,
    process_id: i32,
    phase: Phase,
    /// When the client connected.
    since: Instant,
    now: Instant,
    /// When the startup, or the last words, have to be over.
    limit: Option<Instant>,
    input: Input,
    /// What the input takes of the memory of all.
    waiting: Charge,
    output: Output,
    requests: Requests,
    /// What the replies of the program answer, in order. Nothing else is done for the client before they came.
    awaited: VecDeque<Awaited>,
    /// The result that the client is getting, and what asked for it.
    giving: Option<Box<(Target, Rows)>>,
    /// Whether there is more to do at once, in the next turn.
    has_turn: bool,
    /// How many messages or statements may still be served in this turn.
    steps: usize,
    /// How much was looked at and read in this turn.
    effort: Cell<usize>,
    /// The simple query that is being served.
    query: Option<Query>,
    /// Whether messages are skipped up to the next Sync.
    skipping: bool,
    /// Whether nothing of the client's has been begun since it was told to be ready.
    resting: bool,
    /// Since when it waits for the client.
    idle_since: Instant,
    /// Whether its statement waits for a session.
    in_line: bool,
    /// When it has waited for too long, if it may not wait for as long as it takes.
    session_limit: Option<Instant>,
    transaction: Transaction,
    totals: Totals,
    variables: Variables,
    prepared: Prepared,
    /// Where rows wait, since there was a result.
    spill: Option<Spill>,
    definitions: Definitions,
    database: String,
    user: String,
    events: Vec<Event>,
    shutting_down: bool,
    input_ended: bool,
}

impl Connection {
    /// Begins a connection, of which no byte has come yet. `process_id` is what BackendKeyData names.
    pub fn new(settings: Rc<Settings>, process_id: i32, now: Instant) -> Connection {
        let variables = Variables::new(&settings.version, "", settings.limits);
        let limit = now.checked_add(settings.startup);
        Connection {
            prepared: Prepared::new(&settings.memory, &settings.leftovers),
            spill: None,
            waiting: settings.memory.charge(),
            settings,
            process_id,
            phase: Phase::Startup(Startup::default()),
            since: now,
            now,
            limit,
            input: Input::default(),
            output: Output::default(),
            requests: Requests::default(),
            awaited: VecDeque::new(),
            giving: None,
            has_turn: false,
            steps: STEPS,
            effort: Cell::new(0),
            query: None,
            skipping: false,
            resting: true,
            idle_since: now,
            in_line: false,
            session_limit: None,
            transaction: Transaction::default(),
            totals: Totals::default(),
            variables,
            definitions: Definitions::default(),
            database: String::new(),
            user: String::new(),
            events: Vec::new(),
            shutting_down: false,
            input_ended: false,
        }
    }

    /// Takes bytes that came from the client.
    pub fn receive(&mut self, bytes: &[u8], now: Instant) {
        self.now = now;
        if self.is_closing() {
            return;
        }
        let is_taken = self.input.extend(bytes) && self.waiting.set(self.input.memory());
        if !is_taken {
            return self.die(Report::fatal(SqlState::OUT_OF_MEMORY, "out of memory"));
        }
        self.advance();
    }

    /// Is told that the client sends nothing more. What it has sent is served, then the connection ends.
    pub fn input_ended(&mut self, now: Instant) {
        self.now = now;
        self.input_ended = true;
        self.advance();
    }

    /// Returns whether it takes more input: what is in flight and what is unsent is bounded.
    pub fn wants_input(&self) -> bool {
        let has_room = match self.phase {
            Phase::Closing => false,
            Phase::Startup(_) => true,
            // A message that isn't there as a whole may be longer.
            Phase::Opening | Phase::Serving => {
                self.input.len() < MOST_INPUT || self.input.is_incomplete()
            }
        };
        has_room && !self.input_ended && self.output.len() < MOST_OUTPUT
    }

    /// Returns whether there is more to do without anything that has to come first.
    pub fn has_turn(&self) -> bool {
        self.has_turn
    }

    /// Begins its next turn, and goes on with what the last one left.
    pub fn go_on(&mut self, now: Instant) {
        self.now = now;
        self.steps = STEPS;
        self.effort.set(0);
        if self.has_turn {
            self.advance();
        }
    }

    /// Gives back the memory that it kept for what comes next, if it has been idle for so long. Returns whether it has not.
    pub fn trim(&mut self, time: Duration, now: Instant) -> bool {
        let is_idle = !self.is_busy() && self.input.len() == 0 && self.output.len() == 0;
        if !is_idle || now.saturating_duration_since(self.idle_since) < time {
            return true;
        }
        self.input.trim();
        self.waiting.set(self.input.memory());
        self.output.trim();
        self.requests.trim();
        self.awaited = VecDeque::new();
        self.events.shrink_to_fit();
        self.prepared.trim();
        self.spill = self.spill.take().filter(|spill| !spill.is_unused());
        false
    }

    /// Returns the definitions of the tables of its database.
    pub fn definitions(&self) -> &Definitions {
        &self.definitions
    }

    /// Returns the next thing that it asks for. The engine takes all there are, in order. Before it takes a statement for
    /// which [`Connection::need`] returns something, the connection has a session.
    pub fn next_request(&mut self) -> Option<Request<'_>> {
        self.requests.next()
    }

    /// Returns what the next statement needs a session of its own for. None: there is no statement, or it needs none.
    pub fn need(&self) -> Option<Need> {
        self.requests.need()
    }

    /// Returns whether its next statement waits for a session.
    pub fn is_waiting(&self) -> bool {
        self.in_line
    }

    /// Is told that there is no session for its next statement. A transaction is refused if that goes on for
    /// [`MOST_WAIT`], since it may wait for other clients. A statement alone waits for the program.
    pub fn wait(&mut self, now: Instant) {
        self.now = now;
        self.in_line = true;
        self.session_limit = match self.need() {
            Some(Need::Transaction) => now.checked_add(MOST_WAIT),
            _ => None,
        };
    }

    /// Is told that there is a session for the statement that waits.
    pub fn wait_ended(&mut self) {
        self.in_line = false;
        self.session_limit = None;
    }

    /// Takes the answer to [`Request::Open`].
    pub fn opened(&mut self, outcome: Opened, now: Instant) {
        self.now = now;
        if let Phase::Opening = self.phase {
            match outcome {
                Opened::Accepted => self.serve(),
                Opened::TooMany => {
                    let text = "sorry, too many clients already";
                    let report = Report::fatal(SqlState::TOO_MANY_CONNECTIONS, text);
                    let detail = format!(
                        "A database serves at most {} connections.",
                        self.settings.connections
                    );
                    let hint = "The gateway's option --connections raises that.";
                    self.die(report.detail(detail).hint(hint));
                }
            }
        }
    }

    /// Takes the next line of the reply to the oldest unanswered statement, without prefix and without line feed.
    pub fn replied(&mut self, line: &[u8], is_last: bool, now: Instant) {
        self.now = now;
        if is_last {
            self.requests.answered();
        }
        if let Phase::Serving = self.phase {
            if is_last {
                self.take_last_line(line);
                self.advance();
            } else {
                self.take_line(line);
            }
        }
    }

    /// Returns how many statements, taken by `next_request`, have no reply yet.
    pub fn unanswered(&self) -> usize {
        self.requests.unanswered()
    }

    /// Returns the first bytes for the client. They are none exactly if there are none.
    pub fn output(&self) -> &[u8] {
        self.output.unsent()
    }

    /// Is told that the first `count` bytes of the output were written.
    pub fn sent(&mut self, count: usize, now: Instant) {
        self.now = now;
        self.output.sent(count);
        self.advance();
    }

    /// Returns whether it is to be closed as soon as its output is sent.
    pub fn is_closing(&self) -> bool {
        matches!(self.phase, Phase::Closing)
    }

    /// Returns when `time_passed` has to be called at the latest.
    pub fn deadline(&self) -> Option<Instant> {
        match self.phase {
            Phase::Startup(_) | Phase::Closing => self.limit,
            Phase::Opening => None,
            Phase::Serving => {
                let limits = [
                    self.idle_limit(),
                    self.transaction_limit(),
                    self.session_limit,
                ];
                limits.iter().copied().flatten().min()
            }
        }
    }

    /// Is told the time, at its deadline or at any time before.
    pub fn time_passed(&mut self, now: Instant) {
        self.now = now;
        if self.deadline().map_or(true, |deadline| now < deadline) {
            return;
        }
        match self.phase {
            Phase::Startup(_) => self.close(),
            Phase::Closing => self.output.clear(),
            Phase::Opening => {}
            Phase::Serving if self.transaction_is_too_long() => self.end_long_transaction(),
            Phase::Serving if self.session_limit.is_some() => self.refuse_session(),
            Phase::Serving => self.die(Report::fatal(
                SqlState::IDLE_IN_TRANSACTION_TIMEOUT,
                "terminating connection due to idle-in-transaction timeout",
            )),
        }
    }

    /// Ends the connection: at once if it is idle or if the program has ended, otherwise behind what it is doing.
    pub fn end(&mut self, why: Ending, now: Instant) {
        self.now = now;
        match why {
            Ending::ProgramEnded(text) => {
                if !self.is_closing() {
                    let message = "terminating connection because the database's program ended";
                    self.die(Report::fatal(SqlState::ADMIN_SHUTDOWN, message).detail(text));
                }
            }
            Ending::Shutdown => {
                self.shutting_down = true;
                self.advance();
            }
        }
    }

    /// Returns since when it waits for the client's startup, if it does.
    pub fn in_startup_since(&self) -> Option<Instant> {
        match self.phase {
            Phase::Startup(_) => Some(self.since),
            _ => None,
        }
    }

    /// Returns since when it holds an open transaction, if it does.
    pub fn transaction_since(&self) -> Option<Instant> {
        self.transaction.since()
    }

    /// Returns how many reservations its transaction holds.
    pub fn reservations(&self) -> u32 {
        self.transaction.reservations
    }

    /// Takes the facts for the metrics that came up since they were last taken.
    pub fn take_events(&mut self) -> std::vec::Drain<'_, Event> {
        self.events.drain(..)
    }

    /// Does what can be done without waiting for the program or for the client, as far as its turn goes.
    fn advance(&mut self) {
        self.flow();
        self.has_turn = false;
        while self.awaited.is_empty() && self.output.len() < MOST_OUTPUT {
            if self.transaction_is_too_long() {
                self.end_long_transaction();
            }
            if self.steps == 0 || self.effort.get() > MOST_EFFORT {
                self.has_turn = true;
                return;
            }
            let goes_on = match self.phase {
                Phase::Startup(_) => self.startup_packet(),
                Phase::Opening | Phase::Closing => false,
                Phase::Serving if self.giving.is_some() => {
                    self.give_rows();
                    true
                }
                Phase::Serving if self.query.is_some() => {
                    self.next_statement();
                    true
                }
                Phase::Serving if self.shutting_down && self.resting => false,
                Phase::Serving => self.next_message(),
            };
            if !goes_on {
                break;
            }
            self.steps -= 1;
        }
        let is_busy = self.is_busy() || self.is_closing();
        if self.shutting_down && !is_busy {
            self.die(Report::fatal(
                SqlState::ADMIN_SHUTDOWN,
                "terminating connection due to administrator command",
            ));
        } else if self.input_ended && !is_busy {
            let is_waiting =
                matches!(self.phase, Phase::Opening) || self.output.len() >= MOST_OUTPUT;
            if !is_waiting {
                self.close();
            }
        }
    }

    /// Gives the client rows that wait, while the program writes more of them.
    fn flow(&mut self) {
        let result = match self.awaited.front_mut() {
            Some(Awaited::Statement(running)) => running.flow(&mut self.output),
            _ => Ok(()),
        };
        if let Err(report) = result {
            self.die(report);
        }
    }

    /// Returns whether a statement is being served.
    fn is_busy(&self) -> bool {
        !self.awaited.is_empty() || self.giving.is_some() || self.query.is_some()
    }

    /// Serves the next message, if all of it is there. Returns whether it was.
    fn next_message(&mut self) -> bool {
        let input = std::mem::take(&mut self.input);
        let goes_on = match frontend::raw(input.rest()) {
            Frame::Incomplete => false,
            Frame::BadLength => {
                let message = "invalid message length";
                self.die(Report::fatal(SqlState::PROTOCOL_VIOLATION, message));
                false
            }
            Frame::Whole(raw, length) => {
                let next = input.behind(length);
                self.add_effort_of_bytes(length);
                self.serve_message(raw, next);
                self.input = input.take(length);
                self.idle_since = self.now;
                return true;
            }
        };
        self.input = input;
        goes_on
    }

    /// Serves a message. `next` is the one behind it, if all of that is there.
    fn serve_message(&mut self, raw: Raw<'_>, next: Option<Raw<'_>>) {
        let message = match frontend::message(raw) {
            Ok(message) => message,
            Err(Fault::UnknownKind(kind)) => {
                let text = format!("invalid frontend message type {}", kind);
                return self.die(Report::fatal(SqlState::PROTOCOL_VIOLATION, text));
            }
            Err(Fault::Layout) => return self.refuse_layout(raw.kind),
        };
        match message {
            Message::Terminate => return self.close(),
            Message::Sync => return self.sync(),
            _ if self.skipping => return,
            _ => self.resting = false,
        }
        match message {
            Message::Query(text) => self.begin_query(text),
            Message::Parse(parse) => self.parse(&parse),
            Message::Bind(bind) => self.bind(&bind),
            Message::Describe(target) => self.describe(target),
            Message::Execute { portal, limit } => {
                self.execute_portal(portal, limit, next == Some(SYNC));
            }
            Message::Close(target) => self.close_target(target),
            Message::FunctionCall => {
                self.fail(Report::missing("a function call"), None);
                self.skipping = false;
                self.ready();
            }
            // Outside of a COPY these are skipped, as in PostgreSQL.
            Message::Copy | Message::Flush | Message::Sync | Message::Terminate => {}
        }
    }

    /// Refuses a message that is laid out wrongly inside a right length: the next one's place is known.
    fn refuse_layout(&mut self, kind: u8) {
        let report = Report::error(SqlState::PROTOCOL_VIOLATION, "invalid message format");
        match kind {
            _ if self.skipping && kind != b'S' => {}
            b'Q' => self.refuse_query(report, ""),
            // PostgreSQL rolls back, tells of the fault, and is ready.
            b'S' => {
                self.fail(report, None);
                self.skipping = false;
                self.ready();
            }
            _ => {
                self.resting = false;
                self.fail(report, None);
            }
        }
    }

    /// Tells the client that it may send the next statement.
    fn ready(&mut self) {
        let status = match self.transaction.block {
            Block::None => Status::Idle,
            Block::Open => Status::Block,
            Block::Failed => Status::Failed,
        };
        backend::ready_for_query(self.output.buffer(), status);
        self.resting = true;
        self.idle_since = self.now;
    }

    /// Returns when a transaction has been idle for too long, if one is open and nothing runs.
    fn idle_limit(&self) -> Option<Instant> {
        if self.is_busy() || self.transaction.since().is_none() {
            return None;
        }
        self.idle_since
            .checked_add(self.variables.limits().idle_in_transaction?)
    }

    /// Returns when a transaction lasts too long, if one is open and nothing runs: what runs is answered first. A
    /// statement that waits for a session does not run.
    fn transaction_limit(&self) -> Option<Instant> {
        if !self.awaited.is_empty() && !self.in_line {
            return None;
        }
        let since = self.transaction.since()?;
        since.checked_add(self.variables.limits().transaction?)
    }

    /// Returns whether a transaction lasts too long.
    fn transaction_is_too_long(&self) -> bool {
        let is_over = |limit| limit <= self.now;
        matches!(self.phase, Phase::Serving) && self.transaction_limit().map_or(false, is_over)
    }

    /// Ends the connection for the age of its transaction, as PostgreSQL 17 does.
    fn end_long_transaction(&mut self) {
        self.die(Report::fatal(
            SqlState::TRANSACTION_TIMEOUT,
            "terminating connection due to transaction timeout",
        ));
    }

    /// Refuses the statement that has waited for a session for too long. Nothing of it was asked.
    fn refuse_session(&mut self) {
        self.wait_ended();
        self.requests.drop_untaken();
        let awaited = self.awaited.pop_front();
        self.awaited.clear();
        let report = no_session(self.settings.transactions);
        match awaited {
            Some(Awaited::Statement(running)) => self.fail_statement(running, report),
            Some(Awaited::Savepoint { .. }) => self.fail(report, None),
            // Whoever commits or rolls back has a session.
            _ => self.die(not_understood()),
        }
        self.advance();
    }

    /// Tells the client of a failure, and gives up what it is doing. `text` is the text that the place is of.
    fn fail(&mut self, report: Failure, text: Option<&str>) {
        self.report(&report, text);
        if report.severity == Severity::Fatal {
            return self.close();
        }
        self.abort();
        if self.query.take().is_some() {
            self.transaction.several = false;
            self.ready();
        } else {
            self.skipping = true;
        }
    }

    fn report(&mut self, report: &Report, text: Option<&str>) {
        let position = match (report.place, text) {
            (Some(place), Some(text)) => {
                let before = text.get(..place).unwrap_or(text);
                Some(before.chars().count() + 1)
            }
            _ => None,
        };
        let out = self.output.buffer();
        match report.severity {
            Severity::Error | Severity::Fatal => {
                backend::error_response(out, report, position);
                self.events.push(Event::Refused(report.state));
            }
            Severity::Warning | Severity::Notice => {
                let (warnings, notices) = self.variables.wanted_messages();
                let wanted = if report.severity == Severity::Warning {
                    warnings
                } else {
                    notices
                };
                if wanted {
                    backend::notice_response(out, report, position);
                }
            }
        }
    }

    /// Tells the client why the connection ends, and ends it.
    fn die(&mut self, report: Failure) {
        self.report(&report, None);
        self.close();
    }

    /// Ends the connection as soon as its output is sent.
    fn close(&mut self) {
        if !self.is_closing() {
            self.phase = Phase::Closing;
            self.limit = self.now.checked_add(LINGER);
            self.input = Input::default();
            self.waiting.clear();
            self.awaited.clear();
            self.giving = None;
            self.query = None;
            self.wait_ended();
            self.requests.drop_untaken();
        }
    }
}

/// Makes the report of a statement that got no session.
fn no_session(most: usize) -> Failure {
    let text = "too many transactions hold reservations or savepoints";
    Report::error(SqlState::TOO_MANY_CONNECTIONS, text)
        .detail(format!(
            "At most {} transactions of a database do so at a time. This one waited for {} s.",
            most,
            MOST_WAIT.as_secs()
        ))
        .hint("Repeat the transaction. The gateway's option --sessions lets more of them hold something.")
}
