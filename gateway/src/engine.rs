//! The loop that moves bytes between clients and programs.
//!
//! In each turn it reads what is ready, writes all statements that came to their programs at once, and writes what
//! each client got. It waits for nothing but the system's word that something is ready, and the next deadline.

mod activity;
mod clients;
mod deadlines;
mod door;
mod memory;
mod phases;
mod signals;
mod start;

use std::io::ErrorKind;
use std::rc::Rc;
use std::time::{Duration, Instant};

use escrowd_pg::connection::{Connection, Opened, Request, Settings};
use mio::event::Event;
use mio::{Events, Interest, Poll, Token};
use signal_hook_mio::v0_8::Signals;
use tracing::{debug, error, info};

use crate::client::Client;
use crate::failure::Failure;
use crate::metrics::Metrics;
use crate::program::{self, Number, Output, Program};
use clients::Clients;
use door::Door;
use signals::HangUp;

/// How many events one turn takes at most.
const EVENTS: usize = 1024;

/// How many clients may be there that no database has let in yet.
const NOT_LET_IN: usize = 256;

/// How many clients are accepted in a turn at most. Then others have their turn.
const ACCEPTED: usize = 64;

/// How many of these may take the place of others that do not begin. More would come for as long as the others come
/// back, and each takes the time of a statement.
const REPLACED: usize = 4;

/// How long a client is idle until it gives back the memory that is kept for what comes next. In between an allocation
/// for each statement is spared.
const REST: Duration = Duration::from_secs(1);

/// How many bytes of a client are read in a turn at most. Then others have their turn.
const READ: usize = 16 * 1024;

/// How long clients may take to finish their statements and to be told of an orderly end.
const FAREWELL: Duration = Duration::from_secs(10);

/// How long clients may take to be told of a fault.
const SHORT_FAREWELL: Duration = Duration::from_secs(1);

/// How long programs may take to close their stores. Then they are killed: a store keeps what was answered.
const CLOSING: Duration = Duration::from_secs(60);

/// How long a killed program may take to end.
const KILLING: Duration = Duration::from_secs(2);

const SIGNALS: Token = Token(0);
const LISTENER: Token = Token(1);
const PROGRAMS: usize = 2;

/// What the engine does.
#[derive(Clone, Copy, Debug, PartialEq, Eq)]
enum Phase {
    /// Stores are being opened; there is no socket yet.
    Opening,
    /// Clients are served.
    Serving,
    /// Clients are told of the end, until then at the latest.
    Leaving(Instant),
    /// Programs close their stores, until then at the latest.
    Closing(Instant),
    /// Programs that didn't close their stores in time are killed, and waited for until then.
    Killing(Instant),
    /// All is done.
    Finished,
}

/// A gateway with its programs and clients.
pub struct Engine {
    poll: Poll,
    signals: Signals,
    hang_up: HangUp,
    /// When a signal last asked for the end.
    stopped: Option<Instant>,
    /// None: no client is accepted any more.
    door: Option<Door>,
    programs: Vec<Program>,
    clients: Clients,
    /// The places of the clients that have something to do in this turn.
    queue: Vec<usize>,
    settings: Rc<Settings>,
    metrics: Option<Metrics>,
    phase: Phase,
    /// Why it ends, if not for a signal.
    failure: Option<Failure>,
    /// No client's deadline is earlier. It may be one that has been put off since.
    alarm: Option<Instant>,
    /// The places of the clients that have done something since they last gave back memory.
    restless: Vec<usize>,
    /// When it is looked which of these rest. None: all do.
    rest: Option<Instant>,
    process_id: i32,
    buffer: Box<[u8]>,
    now: Instant,
}

impl Engine {
    /// Serves until a signal, or a fault that ends it. Returns the exit status.
    pub fn run(mut self) -> u8 {
        let mut events = Events::with_capacity(EVENTS);
        let mut is_busy = true;
        while self.phase != Phase::Finished {
            let timeout = if is_busy {
                Some(Duration::ZERO)
            } else {
                self.timeout()
            };
            match self.poll.poll(&mut events, timeout) {
                Ok(()) => {}
                Err(error) if error.kind() == ErrorKind::Interrupted => {}
                Err(error) => {
                    let failure = Failure::system("epoll")(error);
                    error!("{failure}");
                    return failure.status();
                }
            }
            self.now = Instant::now();
            for event in &events {
                self.note(event);
            }
            is_busy = self.turn();
        }
        if let Some(metrics) = &self.metrics {
            metrics.remove();
        }
        match self.failure {
            None => {
                info!("all stores are closed");
                0
            }
            Some(failure) => failure.status(),
        }
    }

    /// Notes what the system says is ready.
    fn note(&mut self, event: &Event) {
        let first_client = self.first_client();
        match event.token() {
            SIGNALS => self.take_signals(),
            LISTENER => {
                if let Some(door) = &mut self.door {
                    door.is_ready();
                }
            }
            Token(token) if token < first_client => {
                let place = token - PROGRAMS;
                let program = &mut self.programs[place / program::TOKENS];
                program.is_ready(place % program::TOKENS, event);
            }
            Token(token) => {
                let place = token - first_client;
                if let Some(client) = self.clients.get_mut(place) {
                    client.is_ready(event);
                    enqueue(&mut self.queue, client, place);
                }
            }
        }
    }

    /// Serves all that is ready. Returns whether there is more, for which no further word of the system comes.
    fn turn(&mut self) -> bool {
        let mut is_more = self.hand_out_lines();
        let mut queue = std::mem::take(&mut self.queue);
        for &place in &queue {
            self.serve(place);
        }
        self.write_to_programs();
        for place in queue.drain(..) {
            self.finish(place);
        }
        if self.queue.is_empty() {
            // The memory is used again.
            self.queue = queue;
        }
        is_more |= self.accept();
        self.act_on_phase();
        // Of clients that left, transactions are rolled back.
        self.write_to_programs();
        self.keep_deadlines();
        is_more |= self.settings.leftovers.free_some();
        is_more || !self.queue.is_empty()
    }

    /// Reads what the programs wrote, and gives each line to the client that waits for it. Returns whether there is more.
    fn hand_out_lines(&mut self) -> bool {
        let mut is_more = false;
        for database in 0..self.programs.len() {
            is_more |= self.programs[database].read(&mut self.buffer, self.now);
            loop {
                match self.hand_out(database) {
                    Ok(true) => {}
                    Ok(false) => break,
                    Err(failure) => {
                        self.programs[database].abandon(self.now);
                        self.fail(failure);
                        break;
                    }
                }
            }
        }
        is_more
    }

    /// Gives the next line of a program to the client that waits for it. Returns whether there was one.
    fn hand_out(&mut self, database: usize) -> Result<bool, Failure> {
        let program = &mut self.programs[database];
        match program.next_output(self.now)? {
            None => return Ok(false),
            Some(Output::Passed) => {}
            Some(Output::Own { refusal }) => program.own_answered(refusal, self.now)?,
            Some(Output::Line(line)) => {
                if let (Some(metrics), true) = (&self.metrics, line.is_last) {
                    metrics.answered(database, self.now.duration_since(line.since));
                }
                let is_freed = line.is_freed;
                if let Some(client) = self.clients.find(line.client) {
                    if is_freed {
                        client.session = None;
                    }
                    client.connection.replied(line.text, line.is_last, self.now);
                    enqueue(&mut self.queue, client, line.client.place);
                }
                if is_freed {
                    self.hand_on_sessions(database);
                }
            }
            Some(Output::Freed) => self.hand_on_sessions(database),
        }
        Ok(true)
    }

    /// Gives the free sessions of a database to those who wait for one.
    fn hand_on_sessions(&mut self, database: usize) {
        let program = &mut self.programs[database];
        while let Some((id, session)) = program.next_in_line() {
            match self.clients.find(id) {
                Some(client) if client.connection.is_waiting() => {
                    client.session = Some(session);
                    client.ticket = None;
                    client.connection.wait_ended();
                    enqueue(&mut self.queue, client, id.place);
                }
                // It waits no more.
                other => {
                    if let Some(client) = other {
                        client.ticket = None;
                    }
                    program.give_back(session);
                }
            }
        }
    }

    /// Returns the session for the next statement of the client at `place`. None: the client has to wait for one, and is in
    /// line.
    fn session(&mut self, place: usize) -> Option<Number> {
        let client = self.clients.get_mut(place)?;
        let program = match client.database {
            Some(database) => &mut self.programs[database],
            None => return Some(Number::SHARED),
        };
        if client.connection.is_waiting() {
            return None;
        }
        if let Some(ticket) = client.ticket.take() {
            // What it waited for was refused.
            program.quit_line(ticket);
        }
        match (client.connection.need(), client.session) {
            (None, _) => Some(Number::SHARED),
            (Some(_), Some(session)) => Some(session),
            (Some(need), None) => match program.take_session(client.id, need) {
                Ok(session) => {
                    client.session = Some(session);
                    Some(session)
                }
                Err(ticket) => {
                    client.ticket = Some(ticket);
                    client.connection.wait(self.now);
                    None
                }
            },
        }
    }

    /// Reads what the client at `place` sent, and queues its statements.
    fn serve(&mut self, place: usize) {
        let client = match self.clients.get_mut(place) {
            Some(client) => client,
            None => return,
        };
        client.connection.go_on(self.now);
        client.read(&mut self.buffer[..READ], self.now);
        self.forward(place);
    }

    /// Takes what the client at `place` asks for. It leaves its database if that is all.
    fn forward(&mut self, place: usize) {
        while let Some(client) = self.clients.get_mut(place) {
            if client.is_over() {
                self.leave_database(place);
                return;
            }
            let session = match self.session(place) {
                Some(session) => session,
                None => return,
            };
            let client = match self.clients.get_mut(place) {
                Some(client) => client,
                None => return,
            };
            match client.connection.next_request() {
                None => return,
                Some(Request::Open { database }) => self.connect(place, database),
                Some(Request::Statement { line, question, .. }) => {
                    if let Some(database) = client.database {
                        let program = &mut self.programs[database];
                        program.ask(client.id, session, question, line, self.now);
                    }
                }
                Some(Request::Activities) => self.tell_activities(place),
                Some(Request::Terminate { process_id }) => self.terminate(process_id),
            }
        }
    }

    /// Lets the client at `place` in, if its database has room for one more.
    fn connect(&mut self, place: usize, database: usize) {
        if let Some(client) = self.clients.get_mut(place) {
            client.database = Some(database);
            client.is_connected = self.programs[database].connect(self.settings.connections);
            let outcome = match client.is_connected {
                true => Opened::Accepted,
                false => Opened::TooMany,
            };
            client.connection.opened(outcome, self.now);
            activity::log_begin(client);
        }
    }

    /// Gives back what the client at `place` has of its database.
    fn leave_database(&mut self, place: usize) {
        let client = match self.clients.get_mut(place) {
            Some(client) => client,
            None => return,
        };
        let database = match client.database {
            Some(database) if std::mem::take(&mut client.is_connected) => database,
            _ => return,
        };
        let program = &mut self.programs[database];
        program.disconnect();
        if let Some(ticket) = client.ticket.take() {
            program.quit_line(ticket);
        }
        if program.leave(client.id, client.session.take(), self.now) {
            self.hand_on_sessions(database);
        }
    }

    /// Writes what the client at `place` is to get, and closes its socket if that is all.
    fn finish(&mut self, place: usize) {
        let token = Token(self.first_client() + place);
        let client = match self.clients.get_mut(place) {
            Some(client) => client,
            None => return,
        };
        client.is_queued = false;
        client.write(self.poll.registry(), token, self.now);
        let database = client.database;
        let mut refused = None;
        for event in client.connection.take_events() {
            refused = activity::grave(event).or(refused);
            if let Some(metrics) = &self.metrics {
                metrics.count(database, event);
            }
        }
        if let Some(state) = refused {
            activity::log_refusal(client, state);
        }
        // What was sent made room, for input that waited in the connection too.
        self.forward(place);
        let client = match self.clients.get_mut(place) {
            Some(client) => client,
            None => return,
        };
        if client.is_done() {
            activity::log_end(client);
            self.clients.remove(place);
            return;
        }
        if client.has_work() {
            enqueue(&mut self.queue, client, place);
        }
        wake(&mut self.alarm, client.connection.deadline());
        if !std::mem::replace(&mut client.is_restless, true) {
            self.restless.push(place);
            self.rest.get_or_insert(self.now + REST);
        }
    }

    /// Accepts clients that arrived. Returns whether there may be more.
    ///
    /// Where too many are not let in yet, the one that has taken longest for its startup makes room.
    fn accept(&mut self) -> bool {
        let first_client = self.first_client();
        let door = match &mut self.door {
            Some(door) if self.phase == Phase::Serving => door,
            _ => return false,
        };
        let connected: usize = self.programs.iter().map(Program::clients).sum();
        for count in 0..ACCEPTED {
            let is_full = self.clients.len() >= connected + NOT_LET_IN;
            if is_full && count >= REPLACED {
                return true;
            }
            let oldest = match is_full && door.may_accept(self.now) {
                true => self.clients.oldest_in_startup(),
                false => None,
            };
            if is_full && oldest.is_none() {
                return false;
            }
            let mut socket = match door.accept(self.now) {
                Some(socket) => socket,
                None => return false,
            };
            if let Some(oldest) = oldest {
                debug!("a client that does not begin is dropped, since there are too many");
                self.clients.remove(oldest);
            }
            let id = self.clients.next_id();
            let token = Token(first_client + id.place);
            let registry = self.poll.registry();
            if registry
                .register(&mut socket, token, Interest::READABLE)
                .is_err()
            {
                // The system has no memory for it. The client sees that it is closed.
                continue;
            }
            self.process_id = self.clients.next_process_id(self.process_id);
            let connection = Connection::new(Rc::clone(&self.settings), self.process_id, self.now);
            let client = Client::new(socket, id, connection);
            wake(&mut self.alarm, client.connection.deadline());
            self.clients.insert(client);
        }
        true
    }

    /// Writes the statements that are queued.
    fn write_to_programs(&mut self) {
        for program in &mut self.programs {
            program.write(self.now);
        }
    }

    /// Returns the token of the client at place 0.
    fn first_client(&self) -> usize {
        PROGRAMS + self.programs.len() * program::TOKENS
    }
}

/// Gives a client its place in the queue, unless it has one.
fn enqueue(queue: &mut Vec<usize>, client: &mut Client, place: usize) {
    if !client.is_queued {
        client.is_queued = true;
        queue.push(place);
    }
}

/// Lets the alarm ring at `deadline`, if that is earlier.
fn wake(alarm: &mut Option<Instant>, deadline: Option<Instant>) {
    if let Some(deadline) = deadline {
        *alarm = Some(alarm.map_or(deadline, |alarm| alarm.min(deadline)));
    }
}
