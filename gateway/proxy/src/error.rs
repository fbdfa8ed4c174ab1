//! Why a client's connection ends early.

use std::io;

use crate::frames::BadLength;
use crate::own;
use crate::relay::STARTUP;

/// Why a connection ended early.
#[derive(Debug, thiserror::Error)]
pub enum Error {
    /// The system refused a read or a write, or a handshake failed.
    #[error("{0}")]
    System(#[from] io::Error),
    /// A message of no length that there is.
    #[error("{0}")]
    Protocol(#[from] BadLength),
    /// The client sent something behind its wish for encryption before it was answered. Somebody between may have put it there.
    #[error("unencrypted data behind a request for encryption")]
    Unencrypted,
    /// The client has to use TLS, and does not.
    #[error("a client without TLS was refused")]
    Plain,
    /// The client asked twice for the same kind of encryption.
    #[error("a second request for encryption")]
    Twice,
    /// The client can bind its authentication, and PostgreSQL would refuse it.
    #[error("a client wants channel binding")]
    Binding,
    /// PostgreSQL lets the proxy's own role in without a question, so every client could be it.
    #[error("a client comes as the proxy's own role, and PostgreSQL asks for no password")]
    Unasked,
    /// The client sent no StartupMessage in time.
    #[error("no startup within {} s", STARTUP.as_secs())]
    Late,
    /// No server of the target accepts connections.
    #[error("PostgreSQL cannot be reached: {0}")]
    Unreachable(io::Error),
    /// A client uses a name of the proxy's own (rule 19).
    #[error("names that begin with \"escrowd-proxy \" are the proxy's own")]
    OwnName,
    /// A client sends a text of the proxy's own (rule 19).
    #[error("only the proxy itself may send this text")]
    OwnText,
    /// Another proxy is the owner: clients find it under another host.
    #[error("another escrowd-proxy is the owner")]
    NotOwner,
    /// Nobody has become the owner in time.
    #[error("no escrowd-proxy serves reservations yet")]
    NoOwner,
    /// PostgreSQL has not answered a greeting in time.
    #[error("PostgreSQL does not answer")]
    Silent,
    /// PostgreSQL has ended the session of a client that takes nothing of what it is sent.
    #[error("PostgreSQL has ended the session of a client that reads nothing")]
    Forsaken,
    /// What a note answered is not what PostgreSQL's function answers.
    #[error("an answer that no note gives")]
    Forged,
    /// PostgreSQL answers what nobody asked.
    #[error("a reply that was not expected (kind {0})")]
    Stray(char),
    /// The state machine has ended the connection.
    #[error("the proxy has begun anew as the owner")]
    Ended,
}

impl Error {
    /// Returns what the client is told, if it is told anything.
    pub fn fatal(&self) -> Option<Vec<u8>> {
        let code = match self {
            Error::OwnName | Error::OwnText => "42501",
            Error::NotOwner | Error::NoOwner | Error::Silent | Error::Ended => "57P01",
            Error::Forged | Error::Stray(_) => "08P01",
            _ => return None,
        };
        Some(own::fatal(code, &self.to_string()))
    }
}
