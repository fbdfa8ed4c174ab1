//! The two halves of a connection over a Unix socket.
//!
//! The system tells each time that the other side has read something: then more can be written. Who waits for messages alone
//! is woken by that for nothing, twice for each message that goes through. So a half waits for room only while it has none.

use std::io::{self, Read, Write};
use std::net::Shutdown;
use std::os::unix::net::UnixStream as Socket;
use std::pin::Pin;
use std::task::{Context, Poll};

use futures_util::ready;
use tokio::io::unix::AsyncFd;
use tokio::io::{AsyncRead, AsyncWrite, Interest, ReadBuf};
use tokio::net::UnixStream;

/// The most bytes that are read at once.
const CHUNK: usize = 16_384;

/// The half that is read.
#[derive(Debug)]
pub struct Reader {
    socket: AsyncFd<Socket>,
    /// Where the system puts what it reads.
    read: Box<[u8]>,
}

/// The half that is written.
#[derive(Debug)]
pub struct Writer {
    socket: Socket,
    /// Waits for room, while there is none.
    room: Option<AsyncFd<Socket>>,
}

/// Returns the halves of a connection.
///
/// # Errors
///
/// Fails if the system refuses to watch it.
pub fn split(stream: UnixStream) -> io::Result<(Reader, Writer)> {
    let socket = stream.into_std()?;
    let writer = Writer::of(socket.try_clone()?);
    let reader = Reader {
        socket: AsyncFd::with_interest(socket, Interest::READABLE)?,
        read: vec![0; CHUNK].into(),
    };
    Ok((reader, writer))
}

impl Writer {
    /// Makes one of a socket that does not block.
    pub fn of(socket: Socket) -> Writer {
        Writer { socket, room: None }
    }
}

impl AsyncRead for Reader {
    fn poll_read(
        self: Pin<&mut Self>,
        context: &mut Context<'_>,
        buffer: &mut ReadBuf<'_>,
    ) -> Poll<io::Result<()>> {
        let Reader { socket, read } = self.get_mut();
        let most = read.len().min(buffer.remaining());
        loop {
            let mut guard = ready!(socket.poll_read_ready(context))?;
            match guard.try_io(|socket| socket.get_ref().read(&mut read[..most])) {
                Ok(Ok(count)) => {
                    if 0 < count && count < most {
                        // There was no more.
                        guard.clear_ready();
                    }
                    buffer.put_slice(&read[..count]);
                    return Poll::Ready(Ok(()));
                }
                Ok(Err(error)) if error.kind() == io::ErrorKind::Interrupted => {}
                Ok(Err(error)) => return Poll::Ready(Err(error)),
                Err(_) => {}
            }
        }
    }
}

impl AsyncWrite for Writer {
    fn poll_write(
        self: Pin<&mut Self>,
        context: &mut Context<'_>,
        bytes: &[u8],
    ) -> Poll<io::Result<usize>> {
        let Writer { socket, room } = self.get_mut();
        loop {
            match socket.write(bytes) {
                Err(error) if error.kind() == io::ErrorKind::Interrupted => {}
                Err(error) if error.kind() == io::ErrorKind::WouldBlock => {
                    let waiting = match room {
                        Some(waiting) => waiting,
                        None => room.insert(AsyncFd::with_interest(
                            socket.try_clone()?,
                            Interest::WRITABLE,
                        )?),
                    };
                    // It may have had room again before it was watched: then it is ready at once.
                    ready!(waiting.poll_write_ready(context))?.clear_ready();
                }
                written => {
                    *room = None;
                    return Poll::Ready(written);
                }
            }
        }
    }

    fn poll_flush(self: Pin<&mut Self>, _: &mut Context<'_>) -> Poll<io::Result<()>> {
        Poll::Ready(Ok(()))
    }

    fn poll_shutdown(self: Pin<&mut Self>, _: &mut Context<'_>) -> Poll<io::Result<()>> {
        Poll::Ready(match self.socket.shutdown(Shutdown::Write) {
            Err(error) if error.kind() == io::ErrorKind::NotConnected => Ok(()),
            ended => ended,
        })
    }
}

impl Drop for Writer {
    /// The other side sees the end, also while the other half is read.
    fn drop(&mut self) {
        // It may have ended.
        let _ = self.socket.shutdown(Shutdown::Write);
    }
}

#[cfg(test)]
mod tests {
    use super::*;
    use tokio::io::{AsyncReadExt, AsyncWriteExt};

    #[tokio::test]
    async fn what_the_socket_does_not_take_at_once_is_written_as_there_is_room() {
        let (near, far) = UnixStream::pair().unwrap();
        let (mut reader, _open) = split(near).unwrap();
        let (_, mut writer) = split(far).unwrap();
        let sent: Vec<u8> = (0..3_000_000u32).map(|it| (it % 251) as u8).collect();
        let expected = sent.clone();
        let task = tokio::spawn(async move {
            writer.write_all(&sent).await.unwrap();
            writer.shutdown().await.unwrap();
            assert!(writer.room.is_none());
        });
        let mut got = Vec::new();
        reader.read_to_end(&mut got).await.unwrap();
        task.await.unwrap();
        assert!(got == expected);
    }

    #[tokio::test]
    async fn bytes_that_come_one_by_one_are_read_one_by_one() {
        let (near, far) = UnixStream::pair().unwrap();
        let (mut reader, _open) = split(near).unwrap();
        let (_, mut writer) = split(far).unwrap();
        for byte in 0..100u8 {
            writer.write_all(&[byte]).await.unwrap();
            let mut got = [0; 16];
            assert_eq!(reader.read(&mut got).await.unwrap(), 1);
            assert_eq!(got[0], byte);
        }
        drop(writer);
        assert_eq!(reader.read(&mut [0; 16]).await.unwrap(), 0);
    }
}
