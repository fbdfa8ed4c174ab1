//! What comes from the client, what goes to it, and what goes to the program.

use std::collections::VecDeque;

use crate::connection::{Need, Request};
use crate::queue::Queue;
use crate::reply::Question;
use crate::wire::frontend::{self, Frame, Raw};

/// How many bytes of memory a buffer keeps for its next bytes.
const KEPT: usize = 16 * 1024;

/// Bytes of the client that aren't served yet.
///
/// They are in one piece, since a message is read in one piece.
#[derive(Debug, Default)]
pub struct Input {
    bytes: Vec<u8>,
    at: usize,
}

impl Input {
    /// Adds bytes that came. Returns whether the system has memory for them.
    pub fn extend(&mut self, bytes: &[u8]) -> bool {
        self.give_back();
        let has_room = self.bytes.try_reserve(bytes.len()).is_ok();
        if has_room {
            self.bytes.extend_from_slice(bytes);
        }
        has_room
    }

    /// Returns how many bytes of memory it takes.
    pub fn memory(&self) -> usize {
        self.bytes.capacity()
    }

    /// Gives the kept memory back, if there are no bytes.
    pub fn trim(&mut self) {
        if self.len() == 0 {
            *self = Input::default();
        }
    }

    /// Returns the bytes that aren't served.
    pub fn rest(&self) -> &[u8] {
        &self.bytes[self.at..]
    }

    /// Returns how many bytes aren't served.
    pub fn len(&self) -> usize {
        self.bytes.len() - self.at
    }

    /// Returns whether the first message isn't there as a whole.
    pub fn is_incomplete(&self) -> bool {
        frontend::raw(self.rest()) == Frame::Incomplete
    }

    /// Returns the message behind `length` bytes, if all of it is there.
    pub fn behind(&self, length: usize) -> Option<Raw<'_>> {
        match frontend::raw(self.rest().get(length..)?) {
            Frame::Whole(raw, _) => Some(raw),
            _ => None,
        }
    }

    /// Takes bytes off the front.
    pub fn take(mut self, length: usize) -> Input {
        self.at += length;
        self.give_back();
        self
    }

    /// Gives memory back. What is moved for that is no more than what was served before.
    fn give_back(&mut self) {
        if self.at > self.len() || self.len() == 0 {
            self.bytes.drain(..self.at);
            self.at = 0;
        }
        if self.bytes.capacity() > KEPT && self.bytes.capacity() / 4 > self.bytes.len() {
            self.bytes.shrink_to(KEPT);
        }
    }
}

/// Bytes for the client.
#[derive(Debug)]
pub struct Output {
    bytes: Queue,
}

impl Default for Output {
    fn default() -> Output {
        Output {
            bytes: Queue::new(KEPT),
        }
    }
}

impl Output {
    /// Returns the buffer, to append a few messages to.
    pub fn buffer(&mut self) -> &mut Vec<u8> {
        self.bytes.room(1)
    }

    /// Returns the first bytes that aren't sent. They are none exactly if all is sent.
    pub fn unsent(&self) -> &[u8] {
        self.bytes.front()
    }

    /// Returns how many bytes aren't sent.
    pub fn len(&self) -> usize {
        self.bytes.len()
    }

    /// Takes bytes off the front.
    pub fn sent(&mut self, count: usize) {
        self.bytes.take(count);
    }

    /// Forgets what isn't sent.
    pub fn clear(&mut self) {
        self.bytes.clear();
    }

    /// Gives the kept memory back, if all is sent.
    pub fn trim(&mut self) {
        self.bytes.trim();
    }
}

/// A line for the program.
#[derive(Debug)]
struct Line {
    /// The session of its own that it needs.
    need: Option<Need>,
    /// What it asks for.
    question: Question,
    /// Its length with its line feed.
    length: usize,
}

/// What is asked of the engine: perhaps a place or what all connections do, then lines for the program.
#[derive(Debug, Default)]
pub struct Requests {
    open: Option<usize>,
    /// Whether it is asked what all connections do.
    activities: bool,
    /// The process ids of the connections that are to end.
    terminate: Vec<i32>,
    /// The lines, each with its line feed.
    lines: Vec<u8>,
    /// What each of them is.
    waiting: VecDeque<Line>,
    at: usize,
    unanswered: usize,
}

impl Requests {
    /// Asks for a place among the connections of the database at this place.
    pub fn open(&mut self, database: usize) {
        self.open = Some(database);
    }

    /// Asks what all connections do.
    pub fn ask_activities(&mut self) {
        self.activities = true;
    }

    /// Asks for the end of the connection with this process id.
    pub fn terminate(&mut self, process_id: i32) {
        self.terminate.push(process_id);
    }

    /// Asks the program by a line that `write` appends. Nothing is asked if it fails.
    pub fn line<E>(
        &mut self,
        need: Option<Need>,
        question: Question,
        write: impl FnOnce(&mut Vec<u8>) -> Result<(), E>,
    ) -> Result<(), E> {
        let start = self.lines.len();
        let written = write(&mut self.lines);
        match written {
            Ok(()) => self.end_line(need, question, start),
            Err(_) => self.lines.truncate(start),
        }
        written
    }

    /// Ends the line that begins at this byte.
    fn end_line(&mut self, need: Option<Need>, question: Question, start: usize) {
        debug_assert!(!self.lines[start..].contains(&b'\n'));
        self.lines.push(b'\n');
        self.waiting.push_back(Line {
            need,
            question,
            length: self.lines.len() - start,
        });
    }

    /// Asks the program by lines that `write` appends, each with its line feed, and whose number it returns. They need no
    /// session of their own. Nothing is asked if it fails.
    pub fn lines<E>(
        &mut self,
        question: Question,
        write: impl FnOnce(&mut Vec<u8>) -> Result<usize, E>,
    ) -> Result<usize, E> {
        let start = self.lines.len();
        match write(&mut self.lines) {
            Ok(count) => {
                let lines = self.lines[start..].split_inclusive(|&byte| byte == b'\n');
                self.waiting.extend(lines.map(|line| Line {
                    need: None,
                    question,
                    length: line.len(),
                }));
                Ok(count)
            }
            Err(fault) => {
                self.lines.truncate(start);
                Err(fault)
            }
        }
    }

    /// Asks the program by this line.
    pub fn push(&mut self, need: Option<Need>, question: Question, words: &[&str]) {
        let start = self.lines.len();
        for word in words {
            self.lines.extend_from_slice(word.as_bytes());
        }
        self.end_line(need, question, start);
    }

    /// Returns what session the next line needs of its own. None: there is no line, or any session will do.
    pub fn need(&self) -> Option<Need> {
        self.waiting.front().and_then(|line| line.need)
    }

    /// Returns the next request.
    pub fn next(&mut self) -> Option<Request<'_>> {
        if let Some(database) = self.open.take() {
            return Some(Request::Open { database });
        }
        if std::mem::take(&mut self.activities) {
            return Some(Request::Activities);
        }
        if let Some(process_id) = self.terminate.pop() {
            return Some(Request::Terminate { process_id });
        }
        let line = match self.waiting.pop_front() {
            Some(line) => line,
            None => {
                self.drop_untaken();
                return None;
            }
        };
        let start = self.at;
        self.at = start + line.length;
        self.unanswered += 1;
        Some(Request::Statement {
            line: &self.lines[start..self.at - 1],
            question: line.question,
            need: line.need,
        })
    }

    /// Counts a reply.
    pub fn answered(&mut self) {
        self.unanswered = self.unanswered.saturating_sub(1);
    }

    /// Returns how many lines were taken and have no reply.
    pub fn unanswered(&self) -> usize {
        self.unanswered
    }

    /// Gives the kept memory back, if all is taken and answered.
    pub fn trim(&mut self) {
        if self.waiting.is_empty() && self.unanswered == 0 {
            *self = Requests::default();
        }
    }

    /// Forgets what nobody has taken.
    pub fn drop_untaken(&mut self) {
        self.open = None;
        self.activities = false;
        self.terminate.clear();
        self.waiting.clear();
        self.at = 0;
        self.lines.clear();
        self.lines.shrink_to(KEPT);
    }
}
