//! Where clients arrive.

use std::io;

use escrowd_pg::system::socket::{Socket, SocketError};
use tokio::net::{TcpListener, UnixListener};

use crate::args::Place;
use crate::conninfo::Keepalives;
use crate::stream::{keep_alive, Stream};

/// A socket that clients connect to. A Unix socket's file is removed with it.
pub enum Listener {
    /// TCP.
    Tcp(TcpListener),
    /// A Unix socket.
    Unix(UnixListener, Socket),
}

/// Why a socket does not listen.
#[derive(Debug, thiserror::Error)]
pub enum ListenError {
    /// The address cannot be had.
    #[error("{address}: {error}")]
    Address {
        /// The address.
        address: String,
        /// What the system said.
        error: io::Error,
    },
    /// The Unix socket cannot be had.
    #[error(transparent)]
    Socket(#[from] SocketError),
    /// The system refused to wait for clients.
    #[error("the socket cannot be waited for: {0}")]
    System(io::Error),
}

impl Listener {
    /// Listens at an address, or in a folder under the name that PostgreSQL's clients look for. A socket that was left there
    /// is replaced if nobody answers.
    ///
    /// # Errors
    ///
    /// See [`ListenError`].
    pub async fn open(place: &Place, port: u16, mode: u32) -> Result<Listener, ListenError> {
        match place {
            Place::Address(address) => match TcpListener::bind(address).await {
                Ok(listener) => Ok(Listener::Tcp(listener)),
                Err(error) => Err(ListenError::Address {
                    address: address.clone(),
                    error,
                }),
            },
            Place::Path(folder) => {
                let (mut socket, listener) = Socket::bind(folder, port, mode)?;
                let listener = UnixListener::from_std(listener).map_err(ListenError::System)?;
                socket.announce()?;
                Ok(Listener::Unix(listener, socket))
            }
        }
    }

    /// Waits for the next client. The system asks after one that says nothing, since what a client has reserved and locked is
    /// kept until its connection ends.
    ///
    /// # Errors
    ///
    /// Fails if the system refuses it, for instance because too many files are open. The next call may succeed.
    pub async fn accept(&self) -> io::Result<Stream> {
        match self {
            Listener::Tcp(listener) => {
                let (socket, _) = listener.accept().await?;
                keep_alive(&socket, Keepalives::default())?;
                Stream::tcp(socket)
            }
            Listener::Unix(listener, _) => Ok(Stream::Unix(listener.accept().await?.0)),
        }
    }
}
