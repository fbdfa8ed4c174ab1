//! The statements on their way to a program.

use std::io::{self, ErrorKind, Write};

use escrowd_pg::queue::Queue;

use super::sessions::Number;

/// What the kernel takes from one write to a pipe whole or not at all (Linux's PIPE_BUF).
const ATOMIC: usize = 4096;

/// Statements that the pipe hasn't taken yet.
///
/// Each write has whole lines alone, and at most [`ATOMIC`] bytes. So a gateway that is killed leaves no part of a line
/// in the pipe. The program would serve that part, and `WHERE id = 12` may be the beginning of `WHERE id = 123`.
pub struct Statements {
    prefixes: Vec<Vec<u8>>,
    /// Each piece is one write.
    lines: Queue,
}

impl Statements {
    /// Returns an empty queue for statements of so many sessions.
    pub fn new(sessions: u16) -> Statements {
        let prefixes = (1..=sessions).map(|number| format!("bank.{number}: ").into_bytes());
        Statements {
            prefixes: prefixes.collect(),
            lines: Queue::new(ATOMIC),
        }
    }

    /// Adds a statement, which has no line feed.
    pub fn push(&mut self, session: Number, statement: &[u8]) {
        let prefix = &self.prefixes[session.place()];
        // A line that is longer than a write would be cut; a connection makes none.
        let piece = self.lines.room(prefix.len() + statement.len() + 1);
        piece.extend_from_slice(prefix);
        piece.extend_from_slice(statement);
        piece.push(b'\n');
    }

    /// Returns whether the pipe has taken all.
    pub fn is_empty(&self) -> bool {
        self.lines.is_empty()
    }

    /// Writes as much as `pipe` takes. Returns whether it took all.
    ///
    /// After an error other than that of a full pipe, the program reads nothing more.
    pub fn write(&mut self, pipe: &mut impl Write) -> io::Result<bool> {
        while !self.lines.is_empty() {
            match pipe.write(self.lines.front()) {
                Ok(count) => self.lines.take(count),
                Err(error) if error.kind() == ErrorKind::WouldBlock => return Ok(false),
                Err(error) if error.kind() == ErrorKind::Interrupted => {}
                Err(error) => return Err(error),
            }
        }
        Ok(true)
    }
}

#[cfg(test)]
mod tests {
    use super::*;

    const SESSIONS: u16 = 64;

    /// A pipe that takes each write whole, or refuses it.
    struct Pipe {
        writes: Vec<Vec<u8>>,
        room: usize,
    }

    impl Write for Pipe {
        fn write(&mut self, bytes: &[u8]) -> io::Result<usize> {
            if bytes.len() > self.room {
                return Err(ErrorKind::WouldBlock.into());
            }
            self.room -= bytes.len();
            self.writes.push(bytes.to_vec());
            Ok(bytes.len())
        }

        fn flush(&mut self) -> io::Result<()> {
            Ok(())
        }
    }

    fn numbers() -> Vec<Number> {
        Number::first(SESSIONS).collect()
    }

    #[test]
    fn statements_of_all_sessions_go_in_one_write() {
        let numbers = numbers();
        let mut statements = Statements::new(SESSIONS);
        assert!(statements.is_empty());
        statements.push(numbers[0], b"COMMIT");
        statements.push(numbers[63], b"SHOW STATISTICS");
        let mut pipe = Pipe {
            writes: Vec::new(),
            room: ATOMIC,
        };
        assert!(statements.write(&mut pipe).unwrap());
        assert_eq!(
            pipe.writes,
            [b"bank.1: COMMIT\nbank.64: SHOW STATISTICS\n".to_vec()]
        );
        assert!(statements.is_empty());
    }

    #[test]
    fn each_write_has_whole_lines_that_the_kernel_does_not_part() {
        let numbers = numbers();
        let mut statements = Statements::new(SESSIONS);
        let longest = vec![b'x'; ATOMIC - b"bank.64: \n".len()];
        let mut all = Vec::new();
        for round in 0..300 {
            let number = numbers[round % numbers.len()];
            let text = &longest[..if round % 7 == 0 { longest.len() } else { round }];
            statements.push(number, text);
            all.extend_from_slice(format!("bank.{}: ", number.place() + 1).as_bytes());
            all.extend_from_slice(text);
            all.push(b'\n');
        }
        let mut pipe = Pipe {
            writes: Vec::new(),
            room: 3 * ATOMIC,
        };
        while !statements.write(&mut pipe).unwrap() {
            assert!(!statements.is_empty());
            pipe.room = 2 * ATOMIC;
        }
        for write in &pipe.writes {
            assert!(write.len() <= ATOMIC && write.ends_with(b"\n") && write.starts_with(b"bank."));
        }
        assert_eq!(pipe.writes.concat(), all);
    }

    #[test]
    fn a_broken_pipe_is_told() {
        struct Broken;
        impl Write for Broken {
            fn write(&mut self, _: &[u8]) -> io::Result<usize> {
                Err(ErrorKind::BrokenPipe.into())
            }
            fn flush(&mut self) -> io::Result<()> {
                Ok(())
            }
        }
        let mut statements = Statements::new(SESSIONS);
        statements.push(Number::SHARED, b"COMMIT");
        let error = statements.write(&mut Broken).unwrap_err();
        assert_eq!(error.kind(), ErrorKind::BrokenPipe);
    }
}
