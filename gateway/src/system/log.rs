//! What is said on standard error.

use std::collections::VecDeque;
use std::env;
use std::fs::{File, Metadata};
use std::io::{self, Write};
use std::os::unix::fs::MetadataExt;
use std::os::unix::io::AsFd;
use std::sync::{Arc, Condvar, Mutex, MutexGuard, PoisonError};
use std::thread;
use std::time::Duration;

use clap::ValueEnum;
use tracing::Level;
use tracing_subscriber::fmt::MakeWriter;

/// How many lines wait for a reader of standard error. Further ones are dropped, and counted.
const WAITING: usize = 1024;

/// How long the end of the process waits for a reader of standard error.
const PATIENCE: Duration = Duration::from_secs(1);

/// The environment variable in which systemd names the device and the inode of the journal's stream.
const JOURNAL: &str = "JOURNAL_STREAM";

/// How grave a line of the log is.
#[derive(Clone, Copy, Debug, PartialEq, Eq, ValueEnum)]
pub enum LogLevel {
    /// The program ends.
    Error,
    /// An operator should look.
    Warning,
    /// A store is open, the program stops.
    Info,
    /// A client connects or leaves.
    Debug,
}

impl LogLevel {
    /// Returns the level that a line must have at least.
    pub fn level(self) -> Level {
        match self {
            LogLevel::Error => Level::ERROR,
            LogLevel::Warning => Level::WARN,
            LogLevel::Info => Level::INFO,
            LogLevel::Debug => Level::DEBUG,
        }
    }
}

/// Lines on their way to standard error. A thread writes them, so that a reader that stands still stops nobody.
#[derive(Clone)]
pub struct Log(Arc<Shared>);

struct Shared {
    queue: Mutex<Queue>,
    changed: Condvar,
    style: Style,
}

/// What is in front of each line.
#[derive(Clone, Copy, Debug, PartialEq, Eq)]
enum Style {
    /// The time and the level.
    Plain,
    /// The priority, as sd-daemon(3) says: the journal notes the time by itself, and takes the number off.
    Journal,
}

impl Style {
    /// Returns how the lines of standard error begin.
    fn of_stderr() -> io::Result<Style> {
        let stderr = File::from(io::stderr().as_fd().try_clone_to_owned()?);
        let stream = env::var(JOURNAL).unwrap_or_default();
        Ok(match is_stream(&stream, &stderr.metadata()?) {
            true => Style::Journal,
            false => Style::Plain,
        })
    }

    /// Returns what is in front of a line of this level, and not written by the subscriber.
    fn prefix(self, level: Level) -> &'static str {
        match self {
            Style::Plain => "",
            Style::Journal if level == Level::ERROR => "<3>",
            Style::Journal if level == Level::WARN => "<4>",
            Style::Journal if level == Level::INFO => "<6>",
            Style::Journal => "<7>",
        }
    }
}

/// Returns whether `named` is a file, by its device and inode: `DEVICE:INODE` in decimal.
fn is_stream(named: &str, file: &Metadata) -> bool {
    named == format!("{}:{}", file.dev(), file.ino())
}

#[derive(Default)]
struct Queue {
    lines: VecDeque<Vec<u8>>,
    /// How many were dropped since the last one was written.
    dropped: u64,
    is_writing: bool,
}

impl Queue {
    /// Takes what is to be written next.
    fn next(&mut self, style: Style) -> Option<Vec<u8>> {
        match std::mem::take(&mut self.dropped) {
            0 => self.lines.pop_front(),
            dropped => {
                let prefix = style.prefix(Level::WARN);
                let text = "lines were dropped: standard error was not read in time";
                Some(format!("{prefix}{dropped} {text}\n").into_bytes())
            }
        }
    }
}

impl Log {
    /// Begins to log to standard error what is at least as grave as `level`. It is called once.
    pub fn start(level: Level) -> io::Result<Log> {
        let style = Style::of_stderr()?;
        let log = Log::to(io::stderr(), style)?;
        let lines = tracing_subscriber::fmt()
            .with_writer(log.clone())
            .with_max_level(level)
            .with_target(false)
            .with_ansi(false);
        match style {
            Style::Plain => lines.init(),
            Style::Journal => lines.without_time().with_level(false).init(),
        }
        Ok(log)
    }

    /// Writes lines to `writer`.
    fn to(writer: impl Write + Send + 'static, style: Style) -> io::Result<Log> {
        let log = Log(Arc::new(Shared {
            queue: Mutex::default(),
            changed: Condvar::new(),
            style,
        }));
        let shared = Arc::clone(&log.0);
        thread::Builder::new()
            .name("log".to_owned())
            .spawn(move || shared.write_all(writer))?;
        Ok(log)
    }

    /// Waits until all lines are written, for a second at most.
    pub fn finish(&self) {
        let is_waiting = |queue: &mut Queue| queue.is_writing || !queue.lines.is_empty();
        // If the time passes, the lines are lost with their reader.
        let _ = self
            .0
            .changed
            .wait_timeout_while(self.0.lock(), PATIENCE, is_waiting);
    }
}

impl Shared {
    fn lock(&self) -> MutexGuard<'_, Queue> {
        // Each change of the queue is whole, so that one made by a thread that panicked is as good.
        self.queue.lock().unwrap_or_else(PoisonError::into_inner)
    }

    /// Writes the lines that come, to the end of the process.
    fn write_all(&self, mut writer: impl Write) {
        let mut queue = self.lock();
        loop {
            let line = match queue.next(self.style) {
                Some(line) => line,
                None => {
                    queue = self
                        .changed
                        .wait(queue)
                        .unwrap_or_else(PoisonError::into_inner);
                    continue;
                }
            };
            queue.is_writing = true;
            drop(queue);
            // Nobody could be told of an error.
            let _ = writer.write_all(&line);
            queue = self.lock();
            queue.is_writing = false;
            self.changed.notify_all();
        }
    }
}

/// Takes lines of one level.
pub struct Lines {
    log: Log,
    level: Level,
}

impl Write for Lines {
    /// Takes a whole line: a subscriber writes each at once.
    fn write(&mut self, line: &[u8]) -> io::Result<usize> {
        let shared = &self.log.0;
        let mut queue = shared.lock();
        if queue.lines.len() < WAITING {
            let prefix = shared.style.prefix(self.level).as_bytes();
            queue.lines.push_back([prefix, line].concat());
            shared.changed.notify_all();
        } else {
            queue.dropped += 1;
        }
        Ok(line.len())
    }

    fn flush(&mut self) -> io::Result<()> {
        Ok(())
    }
}

impl MakeWriter<'_> for Log {
    type Writer = Lines;

    fn make_writer(&self) -> Lines {
        Lines {
            log: self.clone(),
            level: Level::INFO,
        }
    }

    fn make_writer_for(&self, line: &tracing::Metadata<'_>) -> Lines {
        Lines {
            level: *line.level(),
            ..self.make_writer()
        }
    }
}

#[cfg(test)]
mod tests {
    use super::*;
    use std::sync::mpsc::{channel, Receiver, Sender};

    /// A writer that waits before each write for a word, and shows what it was given.
    struct Slow {
        word: Receiver<()>,
        given: Sender<Vec<u8>>,
    }

    impl Write for Slow {
        fn write(&mut self, line: &[u8]) -> io::Result<usize> {
            self.word.recv().map_err(|_| io::ErrorKind::BrokenPipe)?;
            self.given
                .send(line.to_vec())
                .map_err(|_| io::ErrorKind::BrokenPipe)?;
            Ok(line.len())
        }

        fn flush(&mut self) -> io::Result<()> {
            Ok(())
        }
    }

    #[test]
    fn a_reader_that_stands_still_stops_nobody() {
        let (word, wait) = channel();
        let (given, written) = channel();
        let log = Log::to(Slow { word: wait, given }, Style::Plain).unwrap();
        log.make_writer().write_all(b"line\n").unwrap();
        // The thread takes this line, and then waits for a word.
        while !log.0.lock().lines.is_empty() {
            thread::yield_now();
        }
        for _ in 0..2 * WAITING {
            log.make_writer().write_all(b"line\n").unwrap();
        }
        let dropped = log.0.lock().dropped;
        assert_eq!(dropped, WAITING as u64);
        for _ in 0..2 * WAITING {
            word.send(()).unwrap();
        }
        log.finish();
        let written: Vec<_> = written.try_iter().collect();
        let lines = written.iter().filter(|line| *line == b"line\n").count();
        assert_eq!(lines, WAITING + 1);
        let told = format!("{dropped} lines were dropped: standard error was not read in time\n")
            .into_bytes();
        assert!(written.contains(&told));
    }

    #[test]
    fn the_journal_gets_priorities() {
        let (word, wait) = channel();
        let (given, written) = channel();
        let log = Log::to(Slow { word: wait, given }, Style::Journal).unwrap();
        for level in [
            Level::ERROR,
            Level::WARN,
            Level::INFO,
            Level::DEBUG,
            Level::TRACE,
        ] {
            let mut lines = Lines {
                level,
                ..log.make_writer()
            };
            lines.write_all(b"line\n").unwrap();
            word.send(()).unwrap();
        }
        log.finish();
        let written: Vec<_> = written.try_iter().collect();
        let expected = [
            "<3>line\n",
            "<4>line\n",
            "<6>line\n",
            "<7>line\n",
            "<7>line\n",
        ];
        assert_eq!(written, expected.map(|line| line.as_bytes().to_vec()));
    }

    #[test]
    fn a_stream_is_told_by_device_and_inode() {
        let file = std::fs::metadata("/").unwrap();
        assert!(is_stream(&format!("{}:{}", file.dev(), file.ino()), &file));
        assert!(!is_stream(
            &format!("{}:{}", file.dev(), file.ino() + 1),
            &file
        ));
        assert!(!is_stream("", &file));
    }
}
