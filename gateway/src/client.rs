//! A client: its socket, and the state of its connection.

use std::io::{ErrorKind, Read, Write};
use std::time::Instant;

use escrowd_pg::connection::Connection;
use mio::event::Event;
use mio::net::UnixStream;
use mio::{Interest, Registry, Token};

use crate::program::{ClientId, Number, Ticket};

/// How often a turn writes to a client at most. Then others have their turn.
const WRITES: usize = 4;

/// A client.
pub struct Client {
    socket: UnixStream,
    /// Which one it is.
    pub id: ClientId,
    /// What it said and what it gets.
    pub connection: Connection,
    /// The place of the database that it named, as soon as it has.
    pub database: Option<usize>,
    /// Whether it is one of the connections of that database.
    pub is_connected: bool,
    /// The session of that database that it has.
    pub session: Option<Number>,
    /// Its place in the line of those who wait for a session.
    pub ticket: Option<Ticket>,
    /// Whether it waits for its turn already.
    pub is_queued: bool,
    /// Whether it has done something since it last gave back memory.
    pub is_restless: bool,
    is_readable: bool,
    /// Whether the other end is closed, so that the end of the input has to be read too.
    is_closed: bool,
    /// Whether the end of the input was read.
    is_ended: bool,
    is_writable: bool,
    /// Whether the system was asked to tell when it is writable.
    is_watched: bool,
    is_broken: bool,
}

impl Client {
    /// Returns a client that has just connected. Its socket is registered to be read.
    pub fn new(socket: UnixStream, id: ClientId, connection: Connection) -> Client {
        Client {
            socket,
            id,
            connection,
            database: None,
            is_connected: false,
            session: None,
            ticket: None,
            is_queued: false,
            is_restless: false,
            is_readable: false,
            is_closed: false,
            is_ended: false,
            is_writable: true,
            is_watched: false,
            is_broken: false,
        }
    }

    /// Notes what the system says of the socket.
    pub fn is_ready(&mut self, event: &Event) {
        self.is_closed |= event.is_read_closed();
        self.is_readable |= event.is_readable() || event.is_read_closed();
        self.is_readable &= !self.is_ended;
        self.is_writable |= event.is_writable() || event.is_write_closed();
    }

    /// Returns whether it can go on without a further word of the system.
    pub fn has_work(&self) -> bool {
        self.has_input()
            || self.connection.has_turn()
            || (self.is_writable && !self.connection.output().is_empty())
    }

    fn has_input(&self) -> bool {
        self.is_readable && !self.is_over() && self.connection.wants_input()
    }

    /// Reads once, if there is input and room for it.
    pub fn read(&mut self, buffer: &mut [u8], now: Instant) {
        if !self.has_input() {
            return;
        }
        match self.socket.read(buffer) {
            Ok(0) => {
                self.is_ended = true;
                self.is_readable = false;
                self.connection.input_ended(now);
            }
            Ok(count) => {
                // A socket that gave less than was asked for is empty: the system tells when it no longer is.
                self.is_readable = count == buffer.len() || self.is_closed;
                self.connection.receive(&buffer[..count], now);
            }
            Err(error) => match error.kind() {
                ErrorKind::WouldBlock => self.is_readable = false,
                ErrorKind::Interrupted => {}
                _ => self.is_broken = true,
            },
        }
    }

    /// Writes what the client is to get, as far as the socket takes it, and as far as one turn goes.
    pub fn write(&mut self, registry: &Registry, token: Token, now: Instant) {
        for _ in 0..WRITES {
            if !self.is_writable || self.is_broken || self.connection.output().is_empty() {
                break;
            }
            match self.socket.write(self.connection.output()) {
                Ok(count) => self.connection.sent(count, now),
                Err(error) => match error.kind() {
                    ErrorKind::WouldBlock => self.is_writable = false,
                    ErrorKind::Interrupted => {}
                    _ => self.is_broken = true,
                },
            }
        }
        self.watch(registry, token);
    }

    /// Asks the system to tell when the socket is writable, but only while it isn't: else each reply that the client
    /// reads would wake the gateway.
    fn watch(&mut self, registry: &Registry, token: Token) {
        if self.is_watched != self.is_writable {
            return;
        }
        let interest = match self.is_writable {
            true => Interest::READABLE,
            false => Interest::READABLE | Interest::WRITABLE,
        };
        match registry.reregister(&mut self.socket, token, interest) {
            Ok(()) => self.is_watched = !self.is_writable,
            Err(_) => self.is_broken = true,
        }
    }

    /// Returns whether it has nothing more to ask: it ends, or it is gone.
    pub fn is_over(&self) -> bool {
        self.is_broken || self.connection.is_closing()
    }

    /// Returns whether its socket is to be closed: it is over, and has its output.
    pub fn is_done(&self) -> bool {
        self.is_broken || (self.connection.is_closing() && self.connection.output().is_empty())
    }
}
