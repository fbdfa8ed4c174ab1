//! The names of tables that a store may have.
//!
//! No statement lists a database's tables. A store keeps each definition as its text, so the names are found by reading
//! its file and its log as bytes. What is found is a hint: dropped tables leave their texts for a while. The program is
//! asked for each of them, and its answer counts.

use std::collections::BTreeSet;
use std::ffi::OsString;
use std::fs::File;
use std::io::{self, ErrorKind, Read};
use std::path::{Path, PathBuf};
use std::time::{Duration, Instant};

use escrowd_pg::limits::NAME;
use tracing::warn;

/// What a definition begins with.
const WORDS: &[u8] = b"CREATE TABLE ";

/// How many bytes one read takes at most.
const BLOCK: usize = 256 * 1024;

/// How many names are asked for at most.
const MOST: usize = 4_096;

/// How long all reading may take.
const PATIENCE: Duration = Duration::from_secs(10);

/// Returns the names of tables whose definitions are found in a store or in its log, in order.
///
/// A table that isn't found works all the same. It is missing in lists of tables until a statement names it.
pub fn candidates(store: &Path) -> Vec<String> {
    let mut names = BTreeSet::new();
    let end = Instant::now() + PATIENCE;
    for path in [store.to_owned(), log_of(store)] {
        let read = File::open(&path).and_then(|file| read_names(file, &mut names, end));
        match read {
            Err(error) if error.kind() != ErrorKind::NotFound => {
                warn!("lists of tables may lack some: {}: {error}", path.display());
            }
            _ => {}
        }
    }
    names.into_iter().collect()
}

/// Returns the path of a store's log.
fn log_of(store: &Path) -> PathBuf {
    let mut path = OsString::from(store);
    path.push("-wal");
    path.into()
}

fn read_names(mut file: impl Read, names: &mut BTreeSet<String>, end: Instant) -> io::Result<()> {
    let mut block = vec![0; BLOCK];
    // The bytes at the beginning of the block that were read before.
    let mut kept = 0;
    loop {
        let count = match file.read(&mut block[kept..]) {
            Err(error) if error.kind() == ErrorKind::Interrupted => continue,
            count => count?,
        };
        let bytes = &block[..kept + count];
        find_names(bytes, names);
        if count == 0 {
            return Ok(());
        }
        if names.len() > MOST || end <= Instant::now() {
            return Err(io::Error::new(
                ErrorKind::Other,
                "it has too many bytes or tables",
            ));
        }
        // A definition may begin here whose name is still to come.
        let (length, longest) = (bytes.len(), WORDS.len() + NAME + 1);
        kept = length.min(longest);
        block.copy_within(length - kept..length, 0);
    }
}

/// Finds the names behind which a definition goes on.
fn find_names(bytes: &[u8], names: &mut BTreeSet<String>) {
    let mut rest = bytes;
    while let Some(place) = rest.iter().position(|&byte| byte == WORDS[0]) {
        rest = &rest[place..];
        if let Some(name) = rest.strip_prefix(WORDS).and_then(name) {
            names.insert(name);
        }
        rest = &rest[1..];
    }
}

/// Returns the name that `bytes` begin with, if a bracket is behind it as in a definition.
fn name(bytes: &[u8]) -> Option<String> {
    let is_of_name = |byte: &u8| byte.is_ascii_alphanumeric() || b"_$#".contains(byte);
    let length = bytes
        .iter()
        .take(NAME + 1)
        .take_while(|byte| is_of_name(byte))
        .count();
    let (name, behind) = bytes.split_at(length);
    if (1..=NAME).contains(&length) && behind.starts_with(b" (") && name[0].is_ascii_alphabetic() {
        Some(String::from_utf8_lossy(name).into_owned())
    } else {
        None
    }
}

#[cfg(test)]
mod tests {
    use super::*;

    /// A reader that gives so many bytes at a time.
    struct Pieces<'a>(&'a [u8], usize);

    impl Read for Pieces<'_> {
        fn read(&mut self, buffer: &mut [u8]) -> io::Result<usize> {
            let count = self.1.min(self.0.len()).min(buffer.len());
            let (now, later) = self.0.split_at(count);
            buffer[..count].copy_from_slice(now);
            self.0 = later;
            Ok(count)
        }
    }

    #[test]
    fn names_are_found_wherever_the_file_is_cut() {
        let longest = "L".repeat(NAME);
        let bytes = format!(
            "\0\u{1}CREATE TABLE A (K\0CCREATE TABLE {longest} (XCREATE TABLE {longest}L (\
             CREATE TABLE B(\0CREATE TABLE 1 (CREATE TABLE  (CREATE TABLE A (CREATE TABLE C_$#1 ("
        );
        for piece in [1, 2, 7, 50, bytes.len()] {
            let mut names = BTreeSet::new();
            let end = Instant::now() + PATIENCE;
            read_names(Pieces(bytes.as_bytes(), piece), &mut names, end).unwrap();
            let names: Vec<_> = names.iter().map(String::as_str).collect();
            assert_eq!(names, ["A", "C_$#1", longest.as_str()], "{piece}");
        }
    }

    #[test]
    fn a_store_that_is_not_there_has_none() {
        assert!(candidates(Path::new("/nowhere/at/all.db")).is_empty());
    }
}
