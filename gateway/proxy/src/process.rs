//! Starts `escrowd serve`, writes its lines, and reads its replies.

use std::io;
use std::os::unix::io::OwnedFd;
use std::os::unix::net::UnixStream;
use std::path::{Path, PathBuf};
use std::process::Stdio;
use std::sync::Arc;
use std::time::Duration;

use tokio::io::{AsyncBufReadExt, AsyncReadExt, AsyncWriteExt, BufReader};
use tokio::process::{Child, ChildStderr, ChildStdout, Command};
use tokio::sync::mpsc::{unbounded_channel, UnboundedReceiver, UnboundedSender};
use tokio::time::{sleep, sleep_until, Instant};

use crate::hub::{Generation, Hub};
use crate::server::SESSIONS;
use crate::unix::Writer;

/// Starts the program so that it ignores what a terminal or a service manager sends to all processes of a group: the end
/// of its input ends it.
const WITHOUT_KEYS: &str = r#"trap '' HUP INT QUIT TERM USR1 USR2 ALRM VTALRM PROF; exec "$@""#;

/// The bytes that are read at once.
const CHUNK: usize = 16_384;

/// How soon behind a start the next one comes at the earliest: a program may end as soon as it begins, again and again.
const PAUSE: Duration = Duration::from_millis(200);

/// Where the server's lines go. A task writes all that has come when it gets its turn at once.
#[derive(Clone, Debug)]
pub struct Lines(UnboundedSender<Vec<u8>>);

impl Lines {
    /// Sends lines behind those that were sent before.
    pub fn send(&self, lines: Vec<u8>) {
        // If that fails, the server has ended, which its reader tells.
        let _ = self.0.send(lines);
    }
}

/// Starts a server for each generation, and ends the one before.
pub async fn run(hub: Arc<Hub>, program: PathBuf, mut starts: UnboundedReceiver<Generation>) {
    let mut next = starts.recv().await;
    while let Some(generation) = next {
        // Only the last one counts.
        if let Ok(later) = starts.try_recv() {
            next = Some(later);
            continue;
        }
        let begun = Instant::now();
        match spawn(&program) {
            Ok((mut child, lines)) => {
                if let (Some(output), Some(errors)) = (child.stdout.take(), child.stderr.take()) {
                    tokio::spawn(complain(errors));
                    tokio::spawn(read(hub.clone(), generation, output));
                    hub.started(generation, lines);
                }
                next = starts.recv().await;
                end(child).await;
                sleep_until(begun + PAUSE).await;
            }
            Err(error) => {
                tracing::error!("{} cannot be started: {}", program.display(), error);
                sleep(PAUSE).await;
            }
        }
    }
}

fn spawn(program: &Path) -> io::Result<(Child, Lines)> {
    let (socket, input) = UnixStream::pair()?;
    socket.set_nonblocking(true)?;
    let child = Command::new("/bin/sh")
        .args(["-c", WITHOUT_KEYS, "sh"])
        .arg(program)
        .args(["serve", "--sessions"])
        .arg(SESSIONS.to_string())
        .stdin(Stdio::from(OwnedFd::from(input)))
        .stdout(Stdio::piped())
        .stderr(Stdio::piped())
        .kill_on_drop(true)
        .spawn()?;
    let (lines, to_write) = unbounded_channel();
    tokio::spawn(write(Writer::of(socket), to_write));
    Ok((child, Lines(lines)))
}

/// Ends a server, whose rows are of no epoch any more.
async fn end(mut child: Child) {
    // If that fails, it has ended.
    let _ = child.kill().await;
}

/// Writes lines.
async fn write(mut input: Writer, mut lines: UnboundedReceiver<Vec<u8>>) {
    while let Some(mut bytes) = lines.recv().await {
        while let Ok(more) = lines.try_recv() {
            bytes.extend(more);
        }
        if input.write_all(&bytes).await.is_err() {
            return;
        }
    }
}

/// Reads replies to the end of the server.
async fn read(hub: Arc<Hub>, generation: Generation, mut output: ChildStdout) {
    let mut bytes = Vec::new();
    loop {
        bytes.reserve(CHUNK);
        match output.read_buf(&mut bytes).await {
            Ok(0) | Err(_) => break,
            Ok(_) => {}
        }
        let mut start = 0;
        while let Some(length) = bytes[start..].iter().position(|&byte| byte == b'\n') {
            let line = String::from_utf8_lossy(&bytes[start..start + length]);
            if !hub.said(generation, &line) {
                return;
            }
            start += length + 1;
        }
        bytes.drain(..start);
    }
    hub.ended(generation);
}

/// Passes on what it says of itself.
async fn complain(errors: ChildStderr) {
    let mut lines = BufReader::new(errors).lines();
    while let Ok(Some(line)) = lines.next_line().await {
        tracing::warn!("server: {}", line);
    }
}
