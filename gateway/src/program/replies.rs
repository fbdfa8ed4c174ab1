//! The lines of a program's output.

use super::sessions::Number;

/// No line of a program is nearly as long: one with 30 texts has some 16 KB.
const LINE_LIMIT: usize = 1 << 20;

/// How much memory a buffer keeps.
const KEPT: usize = 128 * 1024;

/// How much of a wrong line an error shows, in bytes.
const SHOWN: usize = 120;

/// Output that doesn't answer the oldest statement.
#[derive(Debug, PartialEq, Eq)]
pub struct Wrong {
    /// The beginning of the line.
    pub line: String,
    /// What should have been there.
    pub expected: String,
}

/// Output of a program, from which lines are taken in order.
pub struct Replies {
    prefixes: Vec<Vec<u8>>,
    /// What was read. The lines before `next` were taken.
    output: Vec<u8>,
    next: usize,
}

impl Replies {
    /// Returns an empty buffer for replies to so many sessions.
    pub fn new(sessions: u16) -> Replies {
        let prefixes = (1..=sessions).map(|number| format!("bank.{number}> ").into_bytes());
        Replies {
            prefixes: prefixes.collect(),
            output: Vec::new(),
            next: 0,
        }
    }

    /// Adds what the program wrote. All lines before it were taken.
    pub fn push(&mut self, output: &[u8]) {
        self.output.drain(..self.next);
        self.next = 0;
        if self.output.is_empty() {
            self.output.shrink_to(KEPT);
        }
        self.output.extend_from_slice(output);
    }

    /// Returns an error if there is output that no statement asked for.
    pub fn check_unasked(&self) -> Result<(), Wrong> {
        match &self.output[self.next..] {
            [] => Ok(()),
            rest => Err(wrong(rest, "no statement was waiting for a reply")),
        }
    }

    /// Takes the next line of the reply to the oldest statement, which is one of `session`, if it is there. Returns it
    /// without prefix and without line feed.
    pub fn take(&mut self, session: Number) -> Result<Option<&[u8]>, Wrong> {
        let prefix = self.prefixes[session.place()].as_slice();
        let rest = &self.output[self.next..];
        let length = match rest.iter().position(|&byte| byte == b'\n') {
            Some(length) => length,
            None if rest.len() > LINE_LIMIT => return Err(misplaced(rest, prefix)),
            None => return Ok(None),
        };
        match rest[..length].strip_prefix(prefix) {
            Some(line) => {
                self.next += length + 1;
                Ok(Some(line))
            }
            None => Err(misplaced(&rest[..length], prefix)),
        }
    }
}

/// Describes a line that doesn't begin with `prefix`.
fn misplaced(line: &[u8], prefix: &[u8]) -> Wrong {
    wrong(
        line,
        &format!(
            "a line that begins with {:?} was expected",
            String::from_utf8_lossy(prefix)
        ),
    )
}

/// Describes output that shouldn't be there.
fn wrong(output: &[u8], expected: &str) -> Wrong {
    let line = output
        .split(|&byte| byte == b'\n')
        .next()
        .unwrap_or_default();
    let line = &line[..line.len().min(SHOWN)];
    Wrong {
        line: String::from_utf8_lossy(line).into_owned(),
        expected: expected.to_owned(),
    }
}

#[cfg(test)]
mod tests {
    use super::*;

    fn numbers() -> (Number, Number) {
        let mut numbers = Number::first(2);
        (numbers.next().unwrap(), numbers.next().unwrap())
    }

    const OUTPUT: &[u8] = b"bank.1> OK reserved 1\nbank.2> ID | OK\nbank.2> OK rows 0\n\
        bank.1> ERR 41 D low 4 limit 5\n";

    #[test]
    fn lines_are_cut_wherever_the_output_is() {
        let (one, two) = numbers();
        for piece in 1..=OUTPUT.len() {
            let mut replies = Replies::new(2);
            let mut taken: Vec<Vec<u8>> = Vec::new();
            let due = [one, two, two, one];
            for piece in OUTPUT.chunks(piece) {
                replies.push(piece);
                while let Some(&session) = due.get(taken.len()) {
                    match replies.take(session).unwrap() {
                        Some(line) => taken.push(line.to_vec()),
                        None => break,
                    }
                }
            }
            let expected = [
                "OK reserved 1",
                "ID | OK",
                "OK rows 0",
                "ERR 41 D low 4 limit 5",
            ];
            assert_eq!(taken, expected.map(|line| line.as_bytes().to_vec()));
            replies.check_unasked().unwrap();
        }
    }

    #[test]
    fn the_prefix_is_compared() {
        let (one, two) = numbers();
        let mut replies = Replies::new(2);
        replies.push(b"bank.1> OK reserved 1\nbank.11> OK committed 1\n");
        assert!(replies.take(one).unwrap().is_some());
        let wrong = replies.take(one).unwrap_err();
        assert_eq!(wrong.line, "bank.11> OK committed 1");
        assert!(wrong.expected.contains("bank.1> "));
        assert!(replies.take(two).is_err());
    }

    #[test]
    fn other_output_is_an_error() {
        let (one, _) = numbers();
        let mut replies = Replies::new(2);
        replies.push(b"script> ERR 12 line\n");
        assert_eq!(
            replies.check_unasked().unwrap_err().line,
            "script> ERR 12 line"
        );
        assert!(replies.take(one).is_err());

        let mut replies = Replies::new(2);
        replies.push(&vec![b'x'; LINE_LIMIT]);
        assert_eq!(replies.take(one), Ok(None));
        replies.push(b"xx");
        assert!(replies.take(one).is_err());
    }

    #[test]
    fn memory_does_not_grow_with_a_reply() {
        let (one, _) = numbers();
        let mut replies = Replies::new(2);
        let output = b"bank.1> A | B\n".repeat(400_000);
        // Each piece ends within a line.
        for piece in output.chunks(64 * 1024 - 1) {
            replies.push(piece);
            while replies.take(one).unwrap().is_some() {}
        }
        assert!(replies.output.capacity() <= 3 * KEPT);
    }
}
