//! Statements that were read before, by their texts.
//!
//! Programs send the same texts again and again: `COMMIT`, and whatever has parameters in place of values. A text that
//! comes for the second time is kept with its tree, so from the third time on nothing of it is read. A text with its
//! values in it mostly comes once; it pushes none of the others out.

use std::cell::RefCell;
use std::collections::hash_map::DefaultHasher;
use std::hash::Hasher;
use std::rc::Rc;

use crate::sqlstate::Failure;
use crate::statement::parser::next_statement;
use crate::statement::Parsed;

/// How many statements a set keeps.
const WAYS: usize = 4;

/// How many sets there are.
const SETS: usize = 128;

/// The most bytes that a text and its tree may take to be kept. So all of them take at most 2 MB.
const MOST_BYTES: usize = 4 * 1024;

/// A text that is one statement.
#[derive(Clone, Debug)]
pub struct Known {
    /// The text.
    pub text: Rc<str>,
    /// The statement.
    pub parsed: Rc<Parsed>,
}

/// What a text has.
#[derive(Clone, Debug)]
pub enum Content {
    /// No statement.
    Nothing,
    /// One statement.
    One(Known),
    /// Several statements.
    Several,
}

/// A text that isn't known, by its hash.
#[derive(Clone, Copy, Debug)]
pub struct Unknown(u64);

/// The statements that are kept. Clones of this share them.
#[derive(Clone, Debug, Default)]
pub struct KnownStatements(Rc<RefCell<Sets>>);

/// The texts are found by their hashes. Two of one hash are told apart by themselves, so whoever makes such texts gains
/// nothing.
#[derive(Debug)]
struct Sets {
    kept: Vec<Option<(u64, Known)>>,
    /// The hash of the last text of each set that came and wasn't kept.
    last: Vec<u64>,
    /// Which of its statements a full set gives up next.
    next: usize,
}

impl Default for Sets {
    fn default() -> Sets {
        Sets {
            kept: vec![None; SETS * WAYS],
            last: vec![0; SETS],
            next: 0,
        }
    }
}

impl KnownStatements {
    /// Returns the statement of a text.
    ///
    /// # Errors
    ///
    /// Fails if it isn't known. Once it is read, [`KnownStatements::keep`] takes note of it.
    pub fn find(&self, text: &str) -> Result<Known, Unknown> {
        if text.len() > MOST_BYTES {
            return Err(Unknown(0));
        }
        let mut hasher = DefaultHasher::new();
        hasher.write(text.as_bytes());
        let hash = hasher.finish();
        let sets = self.0.borrow();
        let known = sets.kept[Sets::of(hash)].iter().flatten();
        let is_text = |it: &&(u64, Known)| it.0 == hash && *it.1.text == *text;
        let found = known.clone().find(is_text).map(|(_, known)| known.clone());
        found.ok_or(Unknown(hash))
    }

    /// Keeps a statement that wasn't known, if its text has come before.
    pub fn keep(&self, unknown: Unknown, known: &Known) {
        let Unknown(hash) = unknown;
        if known.text.len() + known.parsed.size > MOST_BYTES {
            return;
        }
        let sets = &mut *self.0.borrow_mut();
        let last = &mut sets.last[hash as usize % SETS];
        if *last != hash {
            *last = hash;
            return;
        }
        let set = &mut sets.kept[Sets::of(hash)];
        let place = set.iter().position(Option::is_none).unwrap_or_else(|| {
            sets.next = (sets.next + 1) % WAYS;
            sets.next
        });
        set[place] = Some((hash, known.clone()));
    }

    /// Returns what a text has: reads it, unless it is known.
    ///
    /// # Errors
    ///
    /// Fails if its first statement or the one behind it can't be read.
    pub fn read(&self, text: &str) -> Result<Content, Failure> {
        let unknown = match self.find(text) {
            Ok(known) => return Ok(Content::One(known)),
            Err(unknown) => unknown,
        };
        let mut at = 0;
        let parsed = match next_statement(text, &mut at)? {
            Some(parsed) => parsed,
            None => return Ok(Content::Nothing),
        };
        if next_statement(text, &mut at)?.is_some() {
            return Ok(Content::Several);
        }
        let text = text.into();
        let known = Known { text, parsed };
        self.keep(unknown, &known);
        Ok(Content::One(known))
    }
}

impl Sets {
    /// Returns the places of the set in which a text is.
    fn of(hash: u64) -> std::ops::Range<usize> {
        let first = hash as usize % SETS * WAYS;
        first..first + WAYS
    }
}

#[cfg(test)]
mod tests {
    use super::*;

    /// Reads a text, and returns whether it was known.
    fn is_known(statements: &KnownStatements, text: &str) -> bool {
        let known = statements.find(text);
        let read = match statements.read(text).unwrap() {
            Content::One(read) => read,
            content => panic!("{:?}", content),
        };
        assert_eq!(&*read.text, text);
        let fresh = next_statement(text, &mut 0).unwrap().unwrap();
        assert_eq!(read.parsed, fresh, "{}", text);
        known.map_or(false, |known| Rc::ptr_eq(&known.parsed, &read.parsed))
    }

    #[test]
    fn a_text_is_kept_when_it_comes_again() {
        let statements = KnownStatements::default();
        let shared = statements.clone();
        for (text, expected) in [
            ("COMMIT", false),
            ("COMMIT", false),
            ("COMMIT", true),
            ("commit", false),
        ] {
            assert_eq!(is_known(&statements, text), expected, "{}", text);
        }
        assert!(is_known(&shared, "COMMIT"));
    }

    #[test]
    fn only_a_text_of_one_statement_is_kept() {
        let statements = KnownStatements::default();
        for _ in 0..3 {
            for text in ["BEGIN; COMMIT", "BEGIN; COMMIT; ROLLBACK"] {
                assert!(matches!(statements.read(text), Ok(Content::Several)));
            }
            assert!(matches!(statements.read(" ;"), Ok(Content::Nothing)));
            assert!(statements.read("BEGIN;;COMMT").is_err());
            assert!(statements.read("COMMT").is_err());
        }
    }

    #[test]
    fn texts_that_come_once_push_out_nothing_and_memory_is_bounded() {
        let statements = KnownStatements::default();
        let often = |at: usize| format!("SAVEPOINT s{}", at);
        let kept = |range: std::ops::Range<usize>| {
            range
                .filter(|&at| statements.find(&often(at)).is_ok())
                .count()
        };
        let read = |at, times| (0..times).any(|_| is_known(&statements, &often(at)));
        assert!((0..64).all(|at| read(at, 3)));
        assert_eq!(kept(0..64), 64);
        for at in 0..20_000 {
            is_known(&statements, &format!("DELETE FROM t WHERE id = {}", at));
        }
        assert_eq!(kept(0..64), 64);
        (64..20_000).for_each(|at| assert!(!read(at, 2), "{}", at));
        assert!(kept(0..20_000) <= SETS * WAYS);
        // The newest are kept, and a long text never is.
        assert!(kept(19_900..20_000) > 50);
        let long = format!("SELECT '{}'", "x".repeat(MOST_BYTES));
        assert!((0..4).all(|_| !is_known(&statements, &long)));
    }
}
