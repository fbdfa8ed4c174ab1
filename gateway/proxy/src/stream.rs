//! A connection of either side: over TCP, a Unix socket, or TLS over TCP.

use std::io::{self, IoSlice};
use std::pin::Pin;
use std::task::{Context, Poll};
use std::time::Duration;

use bytes::BytesMut;
use socket2::{SockRef, TcpKeepalive};
use tokio::io::{split, AsyncRead, AsyncWrite, AsyncWriteExt, ReadBuf, ReadHalf, WriteHalf};
use tokio::net::{tcp, TcpStream, UnixStream};
use tokio_rustls::TlsStream;

use crate::conninfo::Keepalives;
use crate::unix;

/// A connection. What is written to it has to be flushed: TLS keeps what the socket did not take at once.
#[derive(Debug)]
pub enum Stream {
    /// TCP, not encrypted.
    Tcp(TcpStream),
    /// A Unix socket, which is never encrypted, as in PostgreSQL.
    Unix(UnixStream),
    /// TLS over TCP, with the certificate of the side that accepted, in DER.
    Tls(Box<TlsStream<TcpStream>>, Vec<u8>),
}

/// Lets the system ask after the other side of a connection when it says nothing, and end the connection if that side is gone.
///
/// # Errors
///
/// Fails if the system refuses an option.
pub fn keep_alive(socket: &TcpStream, keepalives: Keepalives) -> io::Result<()> {
    let seconds = |it: u32| Duration::from_secs(it.into());
    let asked = TcpKeepalive::new()
        .with_time(seconds(keepalives.idle))
        .with_interval(seconds(keepalives.interval))
        .with_retries(keepalives.count);
    SockRef::from(socket).set_tcp_keepalive(&asked)
}

/// The half of a connection that is read.
#[derive(Debug)]
pub enum Reader {
    /// Of TCP.
    Tcp(tcp::OwnedReadHalf),
    /// Of a Unix socket.
    Unix(unix::Reader),
    /// Of TLS.
    Tls(ReadHalf<TlsStream<TcpStream>>),
}

/// The half of a connection that is written. It has to be flushed.
#[derive(Debug)]
pub enum Writer {
    /// Of TCP.
    Tcp(tcp::OwnedWriteHalf),
    /// Of a Unix socket.
    Unix(unix::Writer),
    /// Of TLS.
    Tls(WriteHalf<TlsStream<TcpStream>>),
}

/// A connection that no runtime has, on its way from one thread to another.
#[derive(Debug)]
pub enum Detached {
    /// TCP.
    Tcp(std::net::TcpStream),
    /// A Unix socket.
    Unix(std::os::unix::net::UnixStream),
}

impl Detached {
    /// Gives it to the runtime of this thread.
    ///
    /// # Errors
    ///
    /// Fails if the system refuses to watch it.
    pub fn attach(self) -> io::Result<Stream> {
        Ok(match self {
            Detached::Tcp(socket) => Stream::Tcp(TcpStream::from_std(socket)?),
            Detached::Unix(socket) => Stream::Unix(UnixStream::from_std(socket)?),
        })
    }
}

/// The half of a connection that is written, and what is still to be written. A write that is given up goes on where it ended.
#[derive(Debug)]
pub struct Outgoing {
    to: Writer,
    bytes: BytesMut,
    /// Whether the last message is not whole.
    is_cut: bool,
}

impl Outgoing {
    /// Makes one with nothing to be written.
    pub fn new(to: Writer) -> Outgoing {
        Outgoing {
            to,
            bytes: BytesMut::new(),
            is_cut: false,
        }
    }

    /// Adds messages.
    pub fn push(&mut self, bytes: &[u8]) {
        self.bytes.extend_from_slice(bytes);
    }

    /// Adds a part of a large message, and whether more of it is still to come.
    pub fn push_part(&mut self, bytes: &[u8], is_cut: bool) {
        self.push(bytes);
        self.is_cut = is_cut;
    }

    /// Returns how many bytes are still to be written.
    pub fn len(&self) -> usize {
        self.bytes.len()
    }

    /// Returns whether all is written.
    pub fn is_empty(&self) -> bool {
        self.bytes.is_empty()
    }

    /// Writes all.
    ///
    /// # Errors
    ///
    /// Fails if the other side has gone.
    pub async fn flush(&mut self) -> io::Result<()> {
        self.to.write_all_buf(&mut self.bytes).await?;
        self.to.flush().await
    }

    /// Writes all and some last messages, unless they would come amid another one, and ends the direction.
    ///
    /// # Errors
    ///
    /// Fails if the other side has gone.
    pub async fn end(&mut self, last: &[u8]) -> io::Result<()> {
        if !self.is_cut {
            self.push(last);
        }
        self.flush().await?;
        self.to.shutdown().await
    }
}

impl Stream {
    /// Takes it from the runtime that has it.
    ///
    /// # Errors
    ///
    /// Fails if the system refuses, or if it is encrypted already.
    pub fn detach(self) -> io::Result<Detached> {
        Ok(match self {
            Stream::Tcp(socket) => Detached::Tcp(socket.into_std()?),
            Stream::Unix(socket) => Detached::Unix(socket.into_std()?),
            Stream::Tls(..) => return Err(io::ErrorKind::Unsupported.into()),
        })
    }

    /// Returns a connection over TCP, whose messages are sent at once.
    ///
    /// # Errors
    ///
    /// Fails if the system refuses the option.
    pub fn tcp(socket: TcpStream) -> io::Result<Stream> {
        socket.set_nodelay(true)?;
        Ok(Stream::Tcp(socket))
    }

    /// Returns the certificate of the side that accepted, in DER. None: the connection is not encrypted.
    ///
    /// A client of SCRAM-SHA-256-PLUS proves that it sees this certificate (`tls-server-end-point` of RFC 5929).
    pub fn certificate(&self) -> Option<&[u8]> {
        match self {
            Stream::Tls(_, certificate) => Some(certificate),
            Stream::Tcp(_) | Stream::Unix(_) => None,
        }
    }

    /// Returns the connection's two halves, which different tasks may use.
    ///
    /// # Errors
    ///
    /// Fails if the system refuses to watch it.
    pub fn split(self) -> io::Result<(Reader, Writer)> {
        Ok(match self {
            Stream::Tcp(socket) => {
                let (reader, writer) = socket.into_split();
                (Reader::Tcp(reader), Writer::Tcp(writer))
            }
            Stream::Unix(socket) => {
                let (reader, writer) = unix::split(socket)?;
                (Reader::Unix(reader), Writer::Unix(writer))
            }
            Stream::Tls(stream, _) => {
                let (reader, writer) = split(*stream);
                (Reader::Tls(reader), Writer::Tls(writer))
            }
        })
    }
}

/// Calls a method of what the variant holds.
macro_rules! of_each {
    ($it:ident.$method:ident($($argument:expr),*)) => {
        match $it.get_mut() {
            Self::Tcp(it) => Pin::new(it).$method($($argument),*),
            Self::Unix(it) => Pin::new(it).$method($($argument),*),
            Self::Tls(it, ..) => Pin::new(it).$method($($argument),*),
        }
    };
}

/// Implements reading for an enum whose variants can be read.
macro_rules! can_be_read {
    ($name:ident) => {
        impl AsyncRead for $name {
            fn poll_read(
                self: Pin<&mut Self>,
                context: &mut Context<'_>,
                buffer: &mut ReadBuf<'_>,
            ) -> Poll<io::Result<()>> {
                of_each!(self.poll_read(context, buffer))
            }
        }
    };
}

/// Implements writing for an enum whose variants can be written.
macro_rules! can_be_written {
    ($name:ident) => {
        impl AsyncWrite for $name {
            fn poll_write(
                self: Pin<&mut Self>,
                context: &mut Context<'_>,
                bytes: &[u8],
            ) -> Poll<io::Result<usize>> {
                of_each!(self.poll_write(context, bytes))
            }

            fn poll_flush(self: Pin<&mut Self>, context: &mut Context<'_>) -> Poll<io::Result<()>> {
                of_each!(self.poll_flush(context))
            }

            fn poll_shutdown(
                self: Pin<&mut Self>,
                context: &mut Context<'_>,
            ) -> Poll<io::Result<()>> {
                of_each!(self.poll_shutdown(context))
            }

            fn poll_write_vectored(
                self: Pin<&mut Self>,
                context: &mut Context<'_>,
                parts: &[IoSlice<'_>],
            ) -> Poll<io::Result<usize>> {
                of_each!(self.poll_write_vectored(context, parts))
            }

            fn is_write_vectored(&self) -> bool {
                match self {
                    Self::Tcp(it) => it.is_write_vectored(),
                    Self::Unix(it) => it.is_write_vectored(),
                    Self::Tls(it, ..) => it.is_write_vectored(),
                }
            }
        }
    };
}

can_be_read!(Stream);
can_be_read!(Reader);
can_be_written!(Stream);
can_be_written!(Writer);

#[cfg(test)]
mod tests {
    use tokio::io::AsyncReadExt;
    use tokio::time::timeout;

    use super::*;

    #[tokio::test]
    async fn a_write_that_is_given_up_goes_on_where_it_ended() {
        for is_cut in [false, true] {
            let (near, far) = UnixStream::pair().unwrap();
            let (mut from, _open) = Stream::Unix(near).split().unwrap();
            let (_other, to) = Stream::Unix(far).split().unwrap();
            let mut to = Outgoing::new(to);
            let sent: Vec<u8> = (0..3_000_000u32).map(|it| (it % 251) as u8).collect();
            to.push_part(&sent, is_cut);
            assert!(timeout(Duration::from_millis(10), to.flush())
                .await
                .is_err());
            let mut got = Vec::new();
            let (ended, read) = tokio::join!(to.end(b"last"), from.read_to_end(&mut got));
            assert!(ended.is_ok() && read.is_ok());
            // Nothing comes amid a message.
            let last: &[u8] = if is_cut { b"" } else { b"last" };
            assert!(got == [&sent[..], last].concat());
        }
    }
}
