//! The socket at which clients arrive.

use std::io::ErrorKind;
use std::path::Path;
use std::time::{Duration, Instant};

use escrowd_pg::system::socket::{Socket, SocketError};
use mio::net::{UnixListener, UnixStream};
use mio::{Interest, Registry, Token};
use tracing::warn;

use crate::failure::Failure;

/// How long no client is accepted after the system refused to.
const PAUSE: Duration = Duration::from_secs(1);

/// The listening socket.
pub struct Door {
    socket: Socket,
    listener: UnixListener,
    is_ready: bool,
    paused_until: Option<Instant>,
}

impl Door {
    /// Makes the socket of this port, still without its name.
    pub fn make(folder: &Path, port: u16, mode: u32) -> Result<Door, SocketError> {
        let (socket, listener) = Socket::bind(folder, port, mode)?;
        let listener = UnixListener::from_std(listener);
        Ok(Door {
            socket,
            listener,
            is_ready: false,
            paused_until: None,
        })
    }

    /// Gives the socket its name, and registers it.
    pub fn open(&mut self, registry: &Registry, token: Token) -> Result<(), Failure> {
        registry
            .register(&mut self.listener, token, Interest::READABLE)
            .map_err(Failure::system("epoll"))?;
        Ok(self.socket.announce()?)
    }

    /// Returns the path by which clients find the socket.
    pub fn path(&self) -> &Path {
        self.socket.path()
    }

    /// Notes that clients arrived.
    pub fn is_ready(&mut self) {
        self.is_ready = true;
    }

    /// Returns when to try again, after the system refused to accept a client.
    pub fn deadline(&self) -> Option<Instant> {
        self.paused_until
    }

    /// Returns whether a client may have arrived, and may be accepted now.
    pub fn may_accept(&self, now: Instant) -> bool {
        self.is_ready && self.paused_until.map_or(true, |until| until <= now)
    }

    /// Accepts the next client, if one has arrived.
    pub fn accept(&mut self, now: Instant) -> Option<UnixStream> {
        if matches!(self.paused_until, Some(until) if until <= now) {
            self.paused_until = None;
        }
        while self.is_ready && self.paused_until.is_none() {
            match self.listener.accept() {
                Ok((socket, _)) => return Some(socket),
                Err(error) => match error.kind() {
                    ErrorKind::WouldBlock => self.is_ready = false,
                    ErrorKind::Interrupted | ErrorKind::ConnectionAborted => {}
                    // Most often there are too many open files. The client stays in the queue of the system, and a
                    // further attempt at once would fail as well.
                    _ => {
                        warn!(
                            "no client can be accepted for {} s: {error}",
                            PAUSE.as_secs()
                        );
                        self.paused_until = Some(now + PAUSE);
                    }
                },
            }
        }
        None
    }
}
