//! Rows that wait until their client takes them: in memory, and past a bound in a file without a name.
//!
//! The program writes a result without a pause, and all clients of its database wait behind it. So a client that reads
//! slowly must not keep the gateway from reading. What it has not read goes to the disk, where it costs others neither
//! time nor memory.

use std::cell::RefCell;
use std::fs::{self, File, OpenOptions};
use std::os::unix::fs::{FileExt, OpenOptionsExt};
use std::rc::Rc;
use std::{env, io, process};

use crate::budget::{Charge, Pool};
use crate::sqlstate::{Failure, Report, SqlState};

/// How much memory the rows of a connection take before they go to its file.
const MEMORY: u64 = 128 * 1024;

/// How much memory is taken at a time.
const STEP: usize = 8 * 1024;

/// How many bytes one write or one read of the file takes, about.
const BLOCK: usize = 32 * 1024;

/// How many bytes wait on the disk for a connection at the most. The largest result of a table takes half as much.
pub const MOST_OF_A_CONNECTION: u64 = 1 << 30;

/// How many bytes wait on the disk for all connections at the most.
pub const MOST_OF_ALL: u64 = 4 << 30;

/// The bytes of a DataRow that tell its length: its kind, and the length of the rest.
const HEADER: usize = 5;

/// The bytes behind each row, which tell its length to who reads backwards.
const LENGTH: usize = 4;

/// The file of a connection, for all of its results, and the memory that they share.
#[derive(Clone, Debug)]
pub struct Spill {
    memory: Pool,
    overflow: Rc<RefCell<Overflow>>,
}

#[derive(Debug)]
struct Overflow {
    file: Option<File>,
    disk: Charge,
    /// The bytes of the file.
    written: u64,
    /// The bytes behind them, which aren't written yet.
    pending: Vec<u8>,
    /// Bytes that were read: their place in the file, and themselves.
    window: (u64, Vec<u8>),
    /// How many spools have bytes in it.
    users: usize,
}

/// Rows in their order, each a DataRow. They are taken from the front or from the back.
#[derive(Debug)]
pub struct Spool {
    spill: Spill,
    /// The first rows. What is taken off its front stays for a while.
    head: Vec<u8>,
    charge: Charge,
    /// Where the rows begin and end in `head`.
    start: usize,
    end: usize,
    /// The rows behind them, if some are in the file.
    region: Option<Region>,
    rows: u64,
}

/// A part of the file.
#[derive(Clone, Copy, Debug)]
struct Region {
    /// Where it was begun, and how far it was written.
    first: u64,
    last: u64,
    /// Where the rows begin and end that nobody has taken.
    start: u64,
    end: u64,
}

impl Spill {
    /// Returns one for a connection, of the memory and of the disk of all.
    pub fn new(memory: &Pool, disk: &Pool) -> Spill {
        Spill {
            memory: memory.part(MEMORY),
            overflow: Rc::new(RefCell::new(Overflow {
                file: None,
                disk: disk.part(MOST_OF_A_CONNECTION).charge(),
                written: 0,
                pending: Vec::new(),
                window: (0, Vec::new()),
                users: 0,
            })),
        }
    }

    /// Returns whether no result has rows in it.
    pub fn is_unused(&self) -> bool {
        Rc::strong_count(&self.overflow) == 1
    }
}

impl Overflow {
    fn end(&self) -> u64 {
        self.written + self.pending.len() as u64
    }

    fn push(&mut self, bytes: &[u8]) -> Result<(), Failure> {
        if !self.disk.grow(bytes.len()) {
            return Err(too_large());
        }
        if self.pending.try_reserve(bytes.len()).is_err() {
            return Err(out_of_memory());
        }
        self.pending.extend_from_slice(bytes);
        if self.pending.len() >= BLOCK {
            self.flush()?;
        }
        Ok(())
    }

    fn flush(&mut self) -> Result<(), Failure> {
        self.write().map_err(|error| disk_failed(&error))
    }

    fn write(&mut self) -> io::Result<()> {
        let file = match &mut self.file {
            Some(file) => file,
            none => none.insert(unnamed_file()?),
        };
        file.write_all_at(&self.pending, self.written)?;
        self.written += self.pending.len() as u64;
        self.pending.clear();
        Ok(())
    }

    /// Returns `length` bytes at a place. If they have to be read, so are those behind them, or those before them.
    fn bytes(&mut self, at: u64, length: usize, is_backwards: bool) -> Result<&[u8], Failure> {
        let end = at + length as u64;
        if at < self.written && end > self.written {
            self.flush()?;
        }
        if at >= self.written {
            let start = (at - self.written) as usize;
            return Ok(&self.pending[start..start + length]);
        }
        let (first, window) = (self.window.0, &self.window.1);
        if at < first || end > first + window.len() as u64 {
            let block = BLOCK.max(length) as u64;
            let from = match is_backwards {
                true => end.saturating_sub(block),
                false => at,
            };
            self.read(from, block.min(self.written - from) as usize)
                .map_err(|error| disk_failed(&error))?;
        }
        let start = (at - self.window.0) as usize;
        Ok(&self.window.1[start..start + length])
    }

    fn read(&mut self, from: u64, count: usize) -> io::Result<()> {
        let (at, bytes) = &mut self.window;
        *at = from;
        bytes.resize(count, 0);
        match &self.file {
            Some(file) => file.read_exact_at(bytes, from),
            None => Err(io::ErrorKind::UnexpectedEof.into()),
        }
    }

    /// Takes a region back. Its space is free at once if nobody's bytes are behind it, otherwise when all is.
    fn release(&mut self, region: Region) {
        let origin = region.first;
        self.users -= 1;
        if self.users == 0 {
            self.file = None;
            self.disk.clear();
            self.written = 0;
            self.pending = Vec::new();
            self.window = (0, Vec::new());
        } else if region.last == self.end() {
            self.pending
                .truncate(origin.saturating_sub(self.written) as usize);
            if origin < self.written {
                self.written = origin;
                self.window = (0, Vec::new());
                if let Some(file) = &self.file {
                    // If the system refuses, the space is used again all the same.
                    let _ = file.set_len(origin);
                }
            }
            self.disk.clear();
            // No more than was given back.
            self.disk.grow(origin as usize);
        }
    }
}

impl Spool {
    /// Returns one without rows.
    pub fn new(spill: &Spill) -> Spool {
        Spool {
            spill: spill.clone(),
            head: Vec::new(),
            charge: spill.memory.charge(),
            start: 0,
            end: 0,
            region: None,
            rows: 0,
        }
    }

    /// Returns how many rows wait.
    pub fn len(&self) -> u64 {
        self.rows
    }

    /// Returns whether no row waits.
    pub fn is_empty(&self) -> bool {
        self.rows == 0
    }

    /// Adds a row: the bytes of a DataRow.
    ///
    /// # Errors
    ///
    /// Fails if there is neither memory nor room on the disk for it, or if too much waits already.
    pub fn push(&mut self, row: &[u8]) -> Result<(), Failure> {
        let length = (row.len() as u32).to_be_bytes();
        if self.region.is_none() && self.has_room(row.len() + LENGTH) {
            self.head.truncate(self.end);
            self.head.extend_from_slice(row);
            self.head.extend_from_slice(&length);
            self.end = self.head.len();
        } else {
            let mut overflow = self.spill.overflow.borrow_mut();
            let end = overflow.end();
            let region = self.region.get_or_insert_with(|| {
                overflow.users += 1;
                Region {
                    first: end,
                    last: end,
                    start: end,
                    end,
                }
            });
            if region.last != end {
                // The rows of two results never come by turns.
                return Err(out_of_memory());
            }
            let written = overflow.push(row).and_then(|()| overflow.push(&length));
            region.last = overflow.end();
            written?;
            region.end = region.last;
        }
        self.rows += 1;
        Ok(())
    }

    /// Makes room in memory for so many bytes, if there is some.
    fn has_room(&mut self, bytes: usize) -> bool {
        if self.start > self.end - self.start {
            self.head.drain(..self.start);
            self.end -= self.start;
            self.start = 0;
        }
        let needed = (self.end + bytes).saturating_sub(self.head.capacity());
        if needed == 0 {
            return true;
        }
        let more = needed.max(STEP);
        let capacity = self.head.capacity() + more;
        self.head.truncate(self.end);
        self.charge.grow(more)
            && self
                .head
                .try_reserve_exact(capacity - self.head.len())
                .is_ok()
    }

    /// Takes the first row, and appends it to `out`. Returns whether there was one.
    ///
    /// # Errors
    ///
    /// Fails if the file can't be read.
    pub fn take_first(&mut self, out: &mut Vec<u8>) -> Result<bool, Failure> {
        if self.is_empty() {
            return Ok(false);
        }
        if self.start < self.end {
            let length = row_length(&self.head[self.start..]);
            out.extend_from_slice(&self.head[self.start..self.start + length]);
            self.start += length + LENGTH;
        } else if let Some(region) = &mut self.region {
            let mut overflow = self.spill.overflow.borrow_mut();
            let header = overflow.bytes(region.start, HEADER, false)?;
            let length = row_length(header);
            out.extend_from_slice(overflow.bytes(region.start, length, false)?);
            region.start += (length + LENGTH) as u64;
        }
        self.taken();
        Ok(true)
    }

    /// Takes the last row, and appends it to `out`. Returns whether there was one.
    ///
    /// # Errors
    ///
    /// Fails if the file can't be read.
    pub fn take_last(&mut self, out: &mut Vec<u8>) -> Result<bool, Failure> {
        if self.is_empty() {
            return Ok(false);
        }
        match &mut self.region {
            Some(region) if region.start < region.end => {
                let mut overflow = self.spill.overflow.borrow_mut();
                let behind = region.end - LENGTH as u64;
                let length = length_in(overflow.bytes(behind, LENGTH, true)?);
                let start = behind - length as u64;
                out.extend_from_slice(overflow.bytes(start, length, true)?);
                region.end = start;
            }
            _ => {
                let behind = self.end - LENGTH;
                let length = length_in(&self.head[behind..]);
                out.extend_from_slice(&self.head[behind - length..behind]);
                self.end = behind - length;
            }
        }
        self.taken();
        Ok(true)
    }

    /// Forgets all rows.
    pub fn clear(&mut self) {
        self.rows = 0;
        self.release();
    }

    fn taken(&mut self) {
        self.rows -= 1;
        if self.rows == 0 {
            self.release();
        }
    }

    /// Gives back all memory, and its part of the file.
    fn release(&mut self) {
        self.head = Vec::new();
        self.charge.clear();
        self.start = 0;
        self.end = 0;
        if let Some(region) = self.region.take() {
            self.spill.overflow.borrow_mut().release(region);
        }
    }
}

impl Drop for Spool {
    fn drop(&mut self) {
        self.release();
    }
}

/// Returns the length of the DataRow that `bytes` begin with.
fn row_length(bytes: &[u8]) -> usize {
    1 + length_in(&bytes[1..])
}

/// Reads the length that `bytes` begin with.
fn length_in(bytes: &[u8]) -> usize {
    let mut length = [0; LENGTH];
    length.copy_from_slice(&bytes[..LENGTH]);
    u32::from_be_bytes(length) as usize
}

/// Makes a file that has no name, in the folder of the environment's TMPDIR or in /tmp. It is gone when it is closed.
fn unnamed_file() -> io::Result<File> {
    let folder = env::temp_dir();
    let mut options = OpenOptions::new();
    options.read(true).write(true).mode(0o600);
    let made = options.clone().custom_flags(libc::O_TMPFILE).open(&folder);
    match made.as_ref().map_err(io::Error::raw_os_error) {
        // The file system has only files with names.
        Err(Some(libc::EOPNOTSUPP | libc::EISDIR | libc::ENOENT | libc::EINVAL)) => {
            let name = folder.join(format!("escrowd-pg.{}.rows", process::id()));
            let file = options.create_new(true).open(&name)?;
            fs::remove_file(&name)?;
            Ok(file)
        }
        _ => made,
    }
}

fn disk_failed(error: &io::Error) -> Failure {
    Report::error(
        SqlState::DISK_FULL,
        format!("could not use a temporary file: {}", error),
    )
    .hint("Rows wait there until the client reads them, in the directory TMPDIR of the gateway.")
}

fn too_large() -> Failure {
    Report::error(
        SqlState::CONFIGURATION_LIMIT_EXCEEDED,
        "too many rows wait until clients read them",
    )
    .detail(format!(
        "At most {} MiB wait for a connection, and {} MiB for all.",
        MOST_OF_A_CONNECTION >> 20,
        MOST_OF_ALL >> 20
    ))
}

fn out_of_memory() -> Failure {
    Report::error(SqlState::OUT_OF_MEMORY, "out of memory")
}

#[cfg(test)]
mod tests {
    use super::*;
    use proptest::prelude::*;
    use std::collections::VecDeque;

    fn spill(memory: u64, disk: u64) -> Spill {
        Spill::new(&Pool::new(memory), &Pool::new(disk))
    }

    fn row(body: &[u8]) -> Vec<u8> {
        let length = (body.len() as u32 + 4).to_be_bytes();
        [&b"D"[..], &length, body].concat()
    }

    fn first(spool: &mut Spool) -> Option<Vec<u8>> {
        let mut out = Vec::new();
        spool.take_first(&mut out).unwrap().then_some(out)
    }

    #[test]
    fn rows_come_back_from_either_end() {
        for memory in [0, STEP as u64, u64::MAX] {
            let spill = spill(memory, u64::MAX);
            let mut spool = Spool::new(&spill);
            let rows: Vec<_> = (0..3_000_u32)
                .map(|n| row(&n.to_be_bytes().repeat(20)))
                .collect();
            for row in &rows {
                spool.push(row).unwrap();
            }
            for pair in 0..1_500 {
                assert_eq!(first(&mut spool).as_ref(), Some(&rows[pair]));
                let mut out = Vec::new();
                assert!(spool.take_last(&mut out).unwrap());
                assert_eq!(out, rows[2_999 - pair]);
            }
            assert!(spool.is_empty() && !spool.take_last(&mut Vec::new()).unwrap());
            assert!(spill.overflow.borrow().file.is_none());
            assert_eq!(spill.memory.taken(), 0);
        }
    }

    #[test]
    fn what_is_taken_is_free_again() {
        let disk = Pool::new(1_000_000);
        let spill = Spill::new(&Pool::new(0), &disk);
        let mut below = Spool::new(&spill);
        below.push(&row(&[1; 50_000])).unwrap();
        // Results that come and go behind another one that stays.
        for _ in 0..100 {
            let mut spool = Spool::new(&spill);
            for _ in 0..10 {
                spool.push(&row(&[2; 50_000])).unwrap();
            }
            assert_eq!(first(&mut spool), Some(row(&[2; 50_000])));
        }
        assert_eq!(first(&mut below), Some(row(&[1; 50_000])));
        assert_eq!(disk.taken(), 0);
        assert!(spill.overflow.borrow().file.is_none());
    }

    #[test]
    fn a_limit_is_told() {
        let mut spool = Spool::new(&spill(0, 100));
        spool.push(&row(&[1; 50])).unwrap();
        let report = spool.push(&row(&[1; 50])).unwrap_err();
        assert_eq!(report.state, SqlState::CONFIGURATION_LIMIT_EXCEEDED);
        assert_eq!(first(&mut spool), Some(row(&[1; 50])));
    }

    /// A step: rows to add, then how many to take from the front, then from the back.
    fn steps() -> impl Strategy<Value = Vec<(Vec<usize>, usize, usize)>> {
        let rows = prop::collection::vec(0_usize..9_000, 0..12);
        prop::collection::vec((rows, 0_usize..12, 0_usize..3), 1..12)
    }

    proptest! {
        /// A spool gives what a list of rows gives, wherever the rows are.
        #[test]
        fn a_spool_is_a_list_of_rows(steps in steps(), memory in 0_u64..200_000, from_the_back in any::<bool>()) {
            let spill = spill(memory, u64::MAX);
            let (mut spool, mut plain) = (Spool::new(&spill), VecDeque::new());
            let mut number = 0_u8;
            for (lengths, front, back) in steps {
                for length in lengths {
                    number = number.wrapping_add(1);
                    let row = row(&vec![number; length]);
                    spool.push(&row).unwrap();
                    plain.push_back(row);
                }
                for _ in 0..front {
                    prop_assert_eq!(first(&mut spool), plain.pop_front());
                }
                prop_assert_eq!(spool.len(), plain.len() as u64);
                // Rows are taken from the back only behind the last one that is added.
                if from_the_back && back == 0 {
                    break;
                }
            }
            while let Some(row) = plain.pop_back() {
                let mut out = Vec::new();
                prop_assert!(spool.take_last(&mut out).unwrap());
                prop_assert_eq!(out, row);
            }
            prop_assert_eq!((spool.len(), spill.memory.taken()), (0, 0));
        }
    }
}
