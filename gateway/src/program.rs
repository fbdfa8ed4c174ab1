//! A program that serves one database, and the pipes to it.

mod candidates;
mod long;
mod replies;
mod sessions;
mod statements;

use std::fs;
use std::io::{self, ErrorKind, Read};
use std::os::unix::fs::PermissionsExt;
use std::path::{Path, PathBuf};
use std::process::{Child, Command, ExitStatus, Stdio};
use std::time::{Duration, Instant};

use mio::event::Event;
use mio::unix::pipe::{Receiver, Sender};
use mio::{Interest, Registry, Token};
use tracing::{debug, info, warn};

use escrowd_pg::connection::Need;
use escrowd_pg::reply::{self, Done, Outcome, Question};
use escrowd_pg::rows::Definitions;

pub use sessions::{most_transactions, ClientId, Number, Ticket};

use crate::allocator;
use crate::args::Database;
use crate::failure::Failure;
use candidates::candidates;
use long::{is_of_whole_table, LongSelects};
use replies::{Replies, Wrong};
use sessions::{Asked, Asker, Sessions};
use statements::Statements;

/// The tokens of a program: one for each of its pipes.
pub const TOKENS: usize = 3;

/// What a program is asked at the start. It needs neither memory nor the store, and counts nowhere.
const OPENING: &[u8] = b"SHOW STATISTICS";

/// What frees what a session holds.
const ROLLBACK: &[u8] = b"ROLLBACK";

/// How long the end of its output and its exit status may be apart.
const END: Duration = Duration::from_secs(1);

/// How long a program is started again if another one has its store open. One that a killed gateway left closes it.
const LOCK: Duration = Duration::from_secs(10);

/// How long after the end of a program it is started again.
const RETRY: Duration = Duration::from_millis(100);

/// How the program's line on standard error ends if another one has its store open.
const LOCKED: &str = "another program has it open";

/// How often a pipe is read in a turn, at most. Then others have their turn.
const READS: usize = 2;

/// How long a ROLLBACK that was refused waits until it is asked again.
const PAUSE: Duration = Duration::from_millis(50);

/// How long a ROLLBACK may be refused.
const MOST_REFUSED: Duration = Duration::from_secs(10);

/// The longest line of its standard error that is passed on whole, in bytes.
const ERROR_LINE: usize = 4096;

/// Starts the program so that it ignores what a terminal, `timeout` or a service manager sends to all processes of a
/// group. The gateway gets these signals too, and ends the program by the end of its input. SIGXFSZ makes a file that
/// meets a limit an end; ignored, it is a write that fails.
const WITHOUT_KEYS: &str =
    r#"trap '' HUP INT QUIT TERM USR1 USR2 ALRM VTALRM PROF XFSZ; exec "$@""#;

/// What a program wrote.
pub enum Output<'a> {
    /// A line of a reply to a client.
    Line(Line<'a>),
    /// A reply to the gateway itself.
    Own {
        /// Its last line, if that is a refusal.
        refusal: Option<String>,
    },
    /// The reply behind which a session is free that its client left.
    Freed,
    /// A line that concerns nobody.
    Passed,
}

/// A line of a reply to a client.
pub struct Line<'a> {
    /// The client.
    pub client: ClientId,
    /// When it asked.
    pub since: Instant,
    /// The line, without prefix and without line feed.
    pub text: &'a [u8],
    /// Whether it is the last one of the reply.
    pub is_last: bool,
    /// Whether the client has no session any more, since nothing of it is open or unanswered.
    pub is_freed: bool,
}

/// A session whose ROLLBACK was refused.
struct Refused {
    session: Number,
    since: Instant,
    /// When it is asked again. None: that was done.
    again: Option<Instant>,
}

/// A program that serves a database.
pub struct Program {
    database: Database,
    path: PathBuf,
    token: Token,
    child: Child,
    input: Option<Sender>,
    input_is_ready: bool,
    output: Source,
    errors: Source,
    error_lines: ErrorLines,
    statements: Statements,
    replies: Replies,
    sessions: Sessions,
    long: LongSelects,
    /// Sessions that clients left, and that can't be rolled back yet.
    refused: Vec<Refused>,
    definitions: Definitions,
    /// How many clients are connected to its database.
    clients: usize,
    started: Instant,
    /// How many questions of the gateway's own have no answer.
    own: usize,
    /// Whether it was asked for the definitions of its tables.
    is_listed: bool,
    is_open: bool,
    /// Whether its input ends as soon as it has taken all statements.
    is_told_to_end: bool,
    /// Whether its replies didn't fit.
    is_abandoned: bool,
    exit: Option<ExitStatus>,
    is_killed: bool,
    ending_since: Option<Instant>,
}

impl Program {
    /// Starts the program at `path` for a database of so many sessions, registers its pipes as `token` and the two
    /// behind it, and asks it whether its store is open.
    pub fn start(
        path: &Path,
        database: &Database,
        sessions: u16,
        registry: &Registry,
        token: Token,
        now: Instant,
    ) -> Result<Program, Failure> {
        let failed = |error| Failure::NotStarted {
            database: database.name.clone(),
            program: path.to_owned(),
            error,
        };
        let mut child = spawn(path, database, sessions).map_err(failed)?;
        let mut pipes = Pipes::of(&mut child).map_err(failed)?;
        pipes.register(registry, token).map_err(failed)?;
        let mut program = Program {
            database: database.clone(),
            path: path.to_owned(),
            token,
            child,
            input: Some(pipes.input),
            input_is_ready: true,
            output: Source::new(pipes.output),
            errors: Source::new(pipes.errors),
            error_lines: ErrorLines::default(),
            statements: Statements::new(sessions),
            replies: Replies::new(sessions),
            sessions: Sessions::new(sessions),
            long: LongSelects::default(),
            refused: Vec::new(),
            definitions: Definitions::default(),
            clients: 0,
            started: now,
            own: 0,
            is_listed: false,
            is_open: false,
            is_told_to_end: false,
            is_abandoned: false,
            exit: None,
            is_killed: false,
            ending_since: None,
        };
        // The program writes nothing until it is asked, and reads nothing until its store is open.
        program.ask_itself(Question::Statistics, OPENING, now);
        Ok(program)
    }

    /// Returns whether it ended because another program has its store open. Then it has served nothing.
    pub fn found_its_store_open(&self) -> bool {
        let last = self.error_lines.last.as_deref().unwrap_or_default();
        !self.is_open && self.exit.is_some() && last.ends_with(LOCKED)
    }

    /// Returns when to start it again, if it ended because another program has its store open. None: it is not to be
    /// started again.
    pub fn retry_at(&self) -> Option<Instant> {
        if !self.found_its_store_open() {
            return None;
        }
        let retry = self.ending_since? + RETRY;
        Some(retry).filter(|&retry| retry < self.started + LOCK)
    }

    /// Starts it again, if it is time for that.
    pub fn retry(&mut self, registry: &Registry, now: Instant) -> Result<(), Failure> {
        let is_due = self.retry_at().map_or(false, |retry| retry <= now);
        if is_due && self.has_exited(now) {
            let (started, definitions) = (self.started, self.definitions.clone());
            let sessions = self.sessions.count();
            *self = Program {
                started,
                definitions,
                ..Program::start(
                    &self.path,
                    &self.database,
                    sessions,
                    registry,
                    self.token,
                    now,
                )?
            };
        }
        Ok(())
    }

    /// Notes what the system says of its pipe at this place, from 0.
    pub fn is_ready(&mut self, pipe: usize, event: &Event) {
        match pipe {
            0 => self.input_is_ready = true,
            1 => self.output.is_ready_by(event),
            _ => self.errors.is_ready_by(event),
        }
    }

    /// Returns whether its store is open.
    pub fn is_open(&self) -> bool {
        self.is_open
    }

    /// Lets a client in, if fewer than `most` are connected. Returns whether it did.
    pub fn connect(&mut self, most: usize) -> bool {
        let has_room = self.clients < most;
        self.clients += usize::from(has_room);
        has_room
    }

    /// Notes that a client that was let in is gone.
    pub fn disconnect(&mut self) {
        self.clients -= 1;
    }

    /// Returns how many clients are connected to its database.
    pub fn clients(&self) -> usize {
        self.clients
    }

    /// Gives a session to a client, if one is free for what it needs and nobody is in line before it.
    ///
    /// # Errors
    ///
    /// Fails with its place in the line if it has to wait.
    pub fn take_session(&mut self, client: ClientId, need: Need) -> Result<Number, Ticket> {
        self.sessions.take(client, need)
    }

    /// Gives a session to whoever waits for one and came first, if there is one for it.
    pub fn next_in_line(&mut self) -> Option<(ClientId, Number)> {
        self.sessions.next_in_line()
    }

    /// Takes back a session in which nothing was asked.
    pub fn give_back(&mut self, session: Number) {
        self.sessions.free(session);
    }

    /// Takes somebody out of the line of those who wait for a session.
    pub fn quit_line(&mut self, ticket: Ticket) {
        self.sessions.quit_line(ticket);
    }

    /// Returns how many sessions are taken, and how many clients wait for one.
    pub fn taken_sessions(&self) -> (usize, usize) {
        (self.sessions.taken(), self.sessions.waiting())
    }

    /// Returns the definitions of its tables.
    pub fn definitions(&self) -> &Definitions {
        &self.definitions
    }

    /// Queues a statement of a client in a session, behind all that it asked before.
    pub fn ask(
        &mut self,
        client: ClientId,
        session: Number,
        question: Question,
        statement: &[u8],
        now: Instant,
    ) {
        self.ask_as(Asker::Client(client), session, question, statement, now);
    }

    fn ask_as(
        &mut self,
        asker: Asker,
        session: Number,
        question: Question,
        statement: &[u8],
        now: Instant,
    ) {
        let asked = Asked {
            asker,
            session,
            question,
            since: now,
            is_of_whole_table: is_of_whole_table(question, statement),
        };
        // It counts even while it waits, so nobody else gets the session before it is answered.
        self.sessions.expect(session);
        if self.long.admit(asked, statement) {
            self.send(asked, statement);
        }
    }

    fn send(&mut self, asked: Asked, statement: &[u8]) {
        self.sessions.ask(asked);
        self.statements.push(asked.session, statement);
    }

    /// Queues the statements that waited, as far as it is their turn.
    fn ask_waiting(&mut self, now: Instant) {
        while let Some(it) = self.long.next(now) {
            self.send(it.asked, &it.statement);
        }
    }

    /// Returns when a SELECT may be queued that waits.
    pub fn long_deadline(&self) -> Option<Instant> {
        self.long.deadline()
    }

    /// Queues a statement of the gateway's own.
    fn ask_itself(&mut self, question: Question, statement: &[u8], now: Instant) {
        self.own += 1;
        self.ask_as(Asker::Gateway, Number::SHARED, question, statement, now);
    }

    /// Notes that a client left. If it has a session, what that holds is rolled back, and it is free then. Returns
    /// whether the session is free at once, since nothing was asked in it.
    pub fn leave(&mut self, client: ClientId, session: Option<Number>, now: Instant) -> bool {
        for session in self.long.leave(Asker::Client(client)) {
            self.sessions.forget(session);
        }
        match session {
            Some(session) if self.sessions.leave(session) => true,
            Some(session) => {
                self.roll_back(session, now);
                false
            }
            None => false,
        }
    }

    /// Asks for the end of what a client left in a session.
    fn roll_back(&mut self, session: Number, now: Instant) {
        self.ask_as(Asker::Leaver, session, Question::Order, ROLLBACK, now);
    }

    /// Asks again for what was refused, if it is time for that.
    ///
    /// # Errors
    ///
    /// Fails if a ROLLBACK was refused for too long. Only the program's end frees what its session holds.
    pub fn roll_back_again(&mut self, now: Instant) -> Result<(), Failure> {
        let mut due = Vec::new();
        for refused in &mut self.refused {
            if matches!(refused.again, Some(again) if again <= now) {
                if refused.since + MOST_REFUSED <= now {
                    return Err(Failure::NotRolledBack {
                        database: self.database.name.clone(),
                        seconds: MOST_REFUSED.as_secs(),
                    });
                }
                refused.again = None;
                due.push(refused.session);
            }
        }
        for session in due {
            self.roll_back(session, now);
        }
        Ok(())
    }

    /// Returns when a ROLLBACK is asked again, if one was refused.
    pub fn rollback_deadline(&self) -> Option<Instant> {
        self.refused
            .iter()
            .filter_map(|refused| refused.again)
            .min()
    }

    /// Writes the queued statements, as far as the pipe takes them.
    pub fn write(&mut self, now: Instant) {
        self.ask_waiting(now);
        if let (Some(input), true) = (&mut self.input, self.input_is_ready) {
            match self.statements.write(input) {
                Ok(all) => self.input_is_ready = all,
                // It reads nothing more, so it ends.
                Err(_) => {
                    self.input = None;
                    self.ending_since.get_or_insert(now);
                }
            }
        }
        if self.is_told_to_end && (self.statements.is_empty() || self.input.is_none()) {
            self.input = None;
        }
    }

    /// Reads what the program wrote. Returns whether there may be more at once.
    pub fn read(&mut self, buffer: &mut [u8], now: Instant) -> bool {
        let (replies, error_lines) = (&mut self.replies, &mut self.error_lines);
        let name = &self.database.name;
        self.errors
            .read(buffer, |bytes| error_lines.push(bytes, name));
        self.output.read(buffer, |bytes| replies.push(bytes));
        if self.output.is_ended() {
            self.ending_since.get_or_insert(now);
        }
        self.output.is_ready || self.errors.is_ready
    }

    /// Takes the next line that it wrote, if there is one.
    pub fn next_output(&mut self, now: Instant) -> Result<Option<Output<'_>>, Failure> {
        if self.is_abandoned {
            return Ok(None);
        }
        let database = &self.database.name;
        let out_of_step = |wrong: Wrong| Failure::OutOfStep {
            database: database.clone(),
            line: wrong.line,
            expected: wrong.expected,
        };
        let asked = match self.sessions.next() {
            Some(asked) => asked,
            None => {
                let unasked = self.replies.check_unasked();
                return unasked.map_err(out_of_step).map(|()| None);
            }
        };
        let text = match self.replies.take(asked.session).map_err(out_of_step)? {
            Some(text) => text,
            None => return Ok(None),
        };
        self.definitions.note(asked.question, text);
        let is_last = asked.question.is_last_line(text);
        let is_freed = is_last && self.sessions.answered(text);
        if is_last && asked.is_of_whole_table {
            let others_wait = self.sessions.next().is_some();
            self.long.answered(rows_told(text), others_wait, now);
        }
        Ok(Some(match asked.asker {
            Asker::Client(client) => Output::Line(Line {
                client,
                since: asked.since,
                text,
                is_last,
                is_freed,
            }),
            // It is the last statement of a session that its client left.
            Asker::Leaver => {
                let place = self
                    .refused
                    .iter()
                    .position(|it| it.session == asked.session);
                if is_rolled_back(text).map_err(out_of_step)? {
                    self.sessions.free(asked.session);
                    place.map(|place| self.refused.swap_remove(place));
                    return Ok(Some(Output::Freed));
                }
                let again = Some(now + PAUSE);
                match place {
                    Some(place) => self.refused[place].again = again,
                    None => self.refused.push(Refused {
                        session: asked.session,
                        since: now,
                        again,
                    }),
                }
                Output::Passed
            }
            Asker::Gateway if is_last => {
                self.own -= 1;
                Output::Own {
                    refusal: match reply::outcome(&String::from_utf8_lossy(text)) {
                        Some(Outcome::Done(_)) => None,
                        _ => Some(String::from_utf8_lossy(text).into_owned()),
                    },
                }
            }
            Asker::Gateway => Output::Passed,
        }))
    }

    /// Takes an answer to a question of the gateway's own: whether its store is open, and then the definitions of its
    /// tables. It is open once it has answered all of them.
    ///
    /// # Errors
    ///
    /// Fails if it refuses to tell whether its store is open.
    pub fn own_answered(&mut self, refusal: Option<String>, now: Instant) -> Result<(), Failure> {
        if !self.is_listed {
            if let Some(refusal) = refusal {
                return Err(Failure::NotOpened {
                    database: self.database.name.clone(),
                    how: format!("answered {refusal}"),
                });
            }
            self.is_listed = true;
            let store = self.database.store.clone();
            for name in store.map_or_else(Vec::new, |store| candidates(&store)) {
                self.ask_itself(
                    Question::Table,
                    format!("SHOW TABLE {name}").as_bytes(),
                    now,
                );
            }
        }
        if self.own == 0 {
            self.opened(now);
        }
        Ok(())
    }

    fn opened(&mut self, now: Instant) {
        self.is_open = true;
        let name = &self.database.name;
        let took = now.duration_since(self.started).as_millis();
        let tables = self.definitions.all().len();
        match &self.database.store {
            None => info!("{name}: open, in memory, after {took} ms"),
            Some(path) => {
                let path_text = path.display();
                match fs::metadata(path) {
                    Ok(found) => {
                        let size = found.len();
                        info!("{name}: the store {path_text} is open: {tables} tables, {size} bytes, {took} ms")
                    }
                    Err(error) => info!("{name}: the store {path_text} is open ({error})"),
                }
            }
        }
    }

    /// Asks it nothing more, and believes nothing that it writes. Its input ends where it is.
    pub fn abandon(&mut self, now: Instant) {
        self.input = None;
        self.is_abandoned = true;
        self.ending_since.get_or_insert(now);
    }

    /// Ends its input, as soon as it has taken all statements.
    pub fn tell_to_end(&mut self) {
        self.is_told_to_end = true;
    }

    /// Lets it go on if somebody has stopped it (SIGSTOP): else it could neither answer nor close its store. systemd
    /// does the same for a process that it ends.
    pub fn let_go_on(&self) {
        let id = self.child.id().to_string();
        if self.exit.is_none() && is_stopped(&id) {
            warn!(
                "{}: the program was stopped, and goes on",
                self.database.name
            );
            // If that fails, the program is killed in the end.
            let _ = Command::new("/bin/sh")
                .args(["-c", r#"kill -CONT "$1""#, "sh", &id])
                .status();
        }
    }

    /// Kills it, if it runs still. Its store keeps what was answered.
    pub fn kill(&mut self) {
        if self.exit.is_none() {
            // If that fails, it has ended.
            let _ = self.child.kill();
            self.is_killed = true;
        }
    }

    /// Asks the system whether it has ended.
    pub fn look_for_end(&mut self, now: Instant) {
        if self.exit.is_none() {
            if let Ok(Some(exit)) = self.child.try_wait() {
                self.exit = Some(exit);
                self.ending_since.get_or_insert(now);
                // What it wrote last is still in the pipes.
                self.output.is_ready = true;
                self.errors.is_ready = true;
            }
        }
    }

    /// Returns when it counts as ended at the latest, once there are signs of that. None if that is past.
    pub fn end_deadline(&self, now: Instant) -> Option<Instant> {
        self.ending_since
            .map(|since| since + END)
            .filter(|&deadline| now < deadline)
    }

    /// Returns whether it serves no more: it has exited, or there have been signs of that for a second.
    pub fn has_ended(&self, now: Instant) -> bool {
        let is_read = self.output.is_ended() && self.errors.is_ended();
        match (self.ending_since, self.exit) {
            (None, _) => false,
            (Some(_), Some(_)) if is_read => true,
            (Some(since), _) => since + END <= now,
        }
    }

    /// Returns whether it has exited, and all that it wrote was read.
    pub fn has_exited(&self, now: Instant) -> bool {
        self.exit.is_some() && self.has_ended(now)
    }

    /// Returns whether it ended without a fault.
    pub fn ended_well(&self) -> bool {
        self.exit.map_or(false, |exit| exit.success())
    }

    /// Describes how it ended, behind the word "program" and the name of its database.
    pub fn how_it_ended(&self) -> String {
        let mut text = match self.exit {
            Some(_) if self.is_killed => "was killed before it closed its store".to_owned(),
            Some(exit) => format!("ended ({exit})"),
            None => "closed its output or its input".to_owned(),
        };
        if let Some(line) = &self.error_lines.last {
            text.push_str(": ");
            text.push_str(line);
        }
        text
    }

    /// Returns the name of its database.
    pub fn name(&self) -> &str {
        &self.database.name
    }
}

/// Returns whether a process is stopped, as by SIGSTOP.
fn is_stopped(process: &str) -> bool {
    // The state follows the name of the program, which is in parentheses and may have some itself.
    fs::read_to_string(format!("/proc/{process}/stat")).map_or(false, |text| {
        text.rsplit(") ")
            .next()
            .map_or(false, |state| state.starts_with('T'))
    })
}

/// Returns how many rows the last line of a reply to SELECT tells. None: it is a refusal.
fn rows_told(line: &[u8]) -> Option<u64> {
    match reply::outcome(std::str::from_utf8(line).ok()?)? {
        Outcome::Done(Done::Rows(rows)) => Some(rows),
        _ => None,
    }
}

/// Returns whether the last line of a reply to ROLLBACK says that it was done. Otherwise it was refused.
fn is_rolled_back(line: &[u8]) -> Result<bool, Wrong> {
    let text = String::from_utf8_lossy(line);
    match reply::outcome(&text) {
        Some(Outcome::Done(Done::RolledBack)) => Ok(true),
        Some(Outcome::Refused(_)) => Ok(false),
        _ => Err(Wrong {
            expected: "a reply to ROLLBACK was expected".to_owned(),
            line: text.into_owned(),
        }),
    }
}

/// Starts the program at `path` for a database of so many sessions.
fn spawn(path: &Path, database: &Database, sessions: u16) -> io::Result<Child> {
    // The shell's own words for these would be harder to read.
    let found = fs::metadata(path)?;
    if !found.is_file() || found.permissions().mode() & 0o111 == 0 {
        return Err(ErrorKind::PermissionDenied.into());
    }
    let mut command = Command::new("/bin/sh");
    allocator::unsettle(&mut command);
    command
        .args(["-c", WITHOUT_KEYS, "sh"])
        .arg(path)
        .arg("serve")
        .arg("--sessions")
        .arg(sessions.to_string());
    if let Some(store) = &database.store {
        command.arg("--store").arg(store);
    }
    command
        .stdin(Stdio::piped())
        .stdout(Stdio::piped())
        .stderr(Stdio::piped())
        .spawn()
}

/// The ends of a program's pipes.
struct Pipes {
    input: Sender,
    output: Receiver,
    errors: Receiver,
}

impl Pipes {
    /// Takes them of a child that was just started.
    fn of(child: &mut Child) -> io::Result<Pipes> {
        match (child.stdin.take(), child.stdout.take(), child.stderr.take()) {
            (Some(input), Some(output), Some(errors)) => Ok(Pipes {
                input: Sender::from(input),
                output: Receiver::from(output),
                errors: Receiver::from(errors),
            }),
            _ => Err(ErrorKind::BrokenPipe.into()),
        }
    }

    /// Registers them as `token` and the two behind it.
    fn register(&mut self, registry: &Registry, token: Token) -> io::Result<()> {
        self.input.set_nonblocking(true)?;
        self.output.set_nonblocking(true)?;
        self.errors.set_nonblocking(true)?;
        registry.register(&mut self.input, token, Interest::WRITABLE)?;
        registry.register(&mut self.output, Token(token.0 + 1), Interest::READABLE)?;
        registry.register(&mut self.errors, Token(token.0 + 2), Interest::READABLE)
    }
}

/// A pipe that is read when it is ready.
struct Source {
    /// None: it has ended.
    pipe: Option<Receiver>,
    is_ready: bool,
    /// Whether the other end is closed, so that the end of the pipe has to be read too.
    is_closed: bool,
}

impl Source {
    fn new(pipe: Receiver) -> Source {
        Source {
            pipe: Some(pipe),
            is_ready: true,
            is_closed: false,
        }
    }

    fn is_ended(&self) -> bool {
        self.pipe.is_none()
    }

    fn is_ready_by(&mut self, event: &Event) {
        self.is_ready = true;
        self.is_closed |= event.is_read_closed();
    }

    /// Reads what is there, and hands it to `take`. `is_ready` says then whether there may be more.
    fn read(&mut self, buffer: &mut [u8], mut take: impl FnMut(&[u8])) {
        let pipe = match &mut self.pipe {
            Some(pipe) if self.is_ready => pipe,
            _ => return,
        };
        for _ in 0..READS {
            match pipe.read(buffer) {
                Ok(0) => {
                    self.pipe = None;
                    self.is_ready = false;
                    return;
                }
                Ok(count) => {
                    take(&buffer[..count]);
                    // A pipe that gave less than was asked for is empty: the system tells when it no longer is.
                    if count < buffer.len() && !self.is_closed {
                        self.is_ready = false;
                        return;
                    }
                }
                Err(error) if error.kind() == ErrorKind::WouldBlock => {
                    self.is_ready = false;
                    return;
                }
                Err(error) if error.kind() == ErrorKind::Interrupted => {}
                Err(_) => {
                    self.pipe = None;
                    self.is_ready = false;
                    return;
                }
            }
        }
    }
}

/// The lines of a program's standard error, which are passed on.
#[derive(Default)]
struct ErrorLines {
    /// The beginning of the line that isn't complete.
    line: Vec<u8>,
    /// The last complete one.
    last: Option<String>,
}

impl ErrorLines {
    /// Passes on the lines of `bytes`, behind the name of the database.
    fn push(&mut self, bytes: &[u8], database: &str) {
        for &byte in bytes {
            if byte != b'\n' {
                self.line.push(byte);
            }
            if byte == b'\n' || self.line.len() == ERROR_LINE {
                self.pass_on(database);
            }
        }
    }

    fn pass_on(&mut self, database: &str) {
        let line = String::from_utf8_lossy(&self.line).into_owned();
        self.line.clear();
        if line.ends_with(LOCKED) {
            // It is said often, and at the end if the gateway gives up.
            debug!("{database}: {line}");
        } else if !line.is_empty() {
            warn!("{database}: {line}");
        }
        if !line.is_empty() {
            self.last = Some(line);
        }
    }
}

#[cfg(test)]
mod tests {
    use super::*;

    #[test]
    fn lines_of_standard_error_are_bounded() {
        let mut lines = ErrorLines::default();
        lines.push(b"escrowd: the first\nescrowd: the sec", "shop");
        assert_eq!(lines.last.as_deref(), Some("escrowd: the first"));
        lines.push(b"ond\n\n", "shop");
        assert_eq!(lines.last.as_deref(), Some("escrowd: the second"));
        lines.push(&[b'x'; ERROR_LINE + 1], "shop");
        assert_eq!(lines.last.as_ref().map(String::len), Some(ERROR_LINE));
        assert_eq!(lines.line.len(), 1);
    }

    #[test]
    fn a_session_is_free_only_behind_a_rollback() {
        assert_eq!(is_rolled_back(b"OK rolled back 0"), Ok(true));
        assert_eq!(is_rolled_back(b"ERR 51 memory"), Ok(false));
        assert_eq!(
            is_rolled_back(b"OK committed 1").unwrap_err().line,
            "OK committed 1"
        );
    }
}
