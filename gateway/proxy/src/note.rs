//! What is sent to `escrow.note` and `escrow.greet`, and what comes back, with their MACs (rules 17 and 18).

use std::fmt::Write;

use bytes::Buf;
use sha2::{Digest, Sha512};

use crate::protocol::Id;

/// The bytes of the secret.
const LENGTH: usize = 64;

/// The secret of schema `escrow`, as the table `escrow.secret` keeps it.
#[derive(Clone)]
pub struct Secret([u8; LENGTH]);

/// A MAC: a half of SHA-512 over the words and the secret behind them.
pub type Proof = [u8; 32];

/// A grant, as a note tells of it.
#[derive(Clone, Debug, PartialEq, Eq)]
pub struct Grant<'a> {
    /// The table's number in `escrow.declared`.
    pub table: i32,
    /// The owner's epoch.
    pub epoch: i64,
    /// The process that serves the client.
    pub process: i32,
    /// The note's number, which rises in an epoch.
    pub number: i64,
    /// The key as text.
    pub key: &'a str,
    /// A change as text for each reservable column, or nothing.
    pub changes: &'a [Option<String>],
}

/// The two halves of a note's hash.
#[derive(Clone, Copy, Debug, PartialEq, Eq)]
pub struct Proved {
    /// What is sent.
    pub proof: Proof,
    /// What comes back. Only the note itself can answer it, and nobody has seen it before.
    pub answer: Proof,
}

impl Secret {
    /// Reads the column of `escrow.secret`. None: it is no key.
    pub fn new(key: &[u8]) -> Option<Secret> {
        Some(Secret(key.try_into().ok()?))
    }

    /// Returns the halves of the hash of words, which are joined by bars.
    fn proved(&self, words: &[&dyn std::fmt::Display]) -> Proved {
        let mut text = String::with_capacity(256);
        for (at, word) in words.iter().enumerate() {
            let bar = if at == 0 { "" } else { "|" };
            // A String takes all.
            let _ = write!(text, "{bar}{word}");
        }
        let hash = Sha512::new()
            .chain_update(text)
            .chain_update(self.0)
            .finalize();
        let half = |at: usize| std::array::from_fn(|place| hash[at + place]);
        Proved {
            proof: half(0),
            answer: half(32),
        }
    }

    /// Returns the proof of a greeting.
    pub fn of_greeting(&self, epoch: i64, process: i32, number: i64) -> Proof {
        self.proved(&[&"greet", &epoch, &process, &number]).proof
    }

    /// Returns the proof of a change of a row that the client itself has locked. It has no tag.
    pub fn of_here(&self, grant: &Grant<'_>) -> Proof {
        let words: [&dyn std::fmt::Display; 8] = [
            &"here",
            &grant.table,
            &grant.epoch,
            &grant.process,
            &grant.number,
            &grant.key.len(),
            &grant.key,
            &written(grant.changes),
        ];
        self.proved(&words).proof
    }

    /// Returns the proof of a note, and what it has to answer.
    pub fn of_note(&self, grant: &Grant<'_>) -> Proved {
        self.proved(&[
            &"note",
            &grant.table,
            &grant.epoch,
            &grant.process,
            &grant.number,
            &changes_array(grant.changes),
            &grant.key,
        ])
    }
}

/// Writes changes as an array, as PostgreSQL does.
pub fn changes_array(changes: &[Option<String>]) -> String {
    let changes: Vec<&str> = changes
        .iter()
        .map(|it| it.as_deref().unwrap_or("NULL"))
        .collect();
    format!("{{{}}}", changes.join(","))
}

/// Returns changes as `array_to_string` writes them.
fn written(changes: &[Option<String>]) -> String {
    let changes: Vec<&str> = changes
        .iter()
        .map(|it| it.as_deref().unwrap_or(""))
        .collect();
    changes.join(",")
}

/// What a note returns.
#[derive(Clone, Copy, Debug, PartialEq, Eq)]
pub struct Noted {
    /// The transaction or subtransaction that wrote it.
    pub id: Id,
    /// Whether it is in the table's row already.
    pub has_folded: bool,
}

impl Noted {
    /// Reads it: the transaction's id, the lower half of the id of what wrote the note, the answer, and of a direct note
    /// whether it has folded. None: no note has answered that. An answer is good for one note, so it does not matter that the
    /// time of its comparison tells of it.
    pub fn read(mut bytes: &[u8], expected: &Proof) -> Option<Noted> {
        if !matches!(bytes.len(), 44 | 45) {
            return None;
        }
        let (top, writer) = (bytes.get_u64(), bytes.get_u32());
        let (answer, folded) = bytes.split_at(expected.len());
        (answer == expected).then(|| Noted {
            id: full_id(top, writer),
            has_folded: folded == [1],
        })
    }
}

/// Returns the id of 64 bits of a transaction or of a subtransaction of it, by its lower half. `top` is the transaction's.
fn full_id(top: u64, writer: u32) -> Id {
    let id = top & !u64::from(u32::MAX) | u64::from(writer);
    Id(if id < top { id + (1 << 32) } else { id })
}

#[cfg(test)]
mod tests {
    use super::*;

    const KEY: &[u8; LENGTH] = b"0123456789abcdef0123456789abcdef0123456789abcdef0123456789abcdef";

    fn expected(text: &str) -> Proved {
        let hash = Sha512::digest([text.as_bytes(), KEY].concat());
        Proved {
            proof: hash[..32].try_into().unwrap(),
            answer: hash[32..].try_into().unwrap(),
        }
    }

    fn grant<'a>(key: &'a str, changes: &'a [Option<String>]) -> Grant<'a> {
        Grant {
            table: 3,
            epoch: 77,
            process: 4_321,
            number: 9,
            key,
            changes,
        }
    }

    #[test]
    fn proofs_are_halves_of_a_hash() {
        let it = Secret::new(KEY).unwrap();
        assert_eq!(
            it.of_greeting(77, 4_321, 9),
            expected("greet|77|4321|9").proof
        );
        let changes = [Some("-3".to_string()), None, Some("0.50".to_string())];
        let note = grant("\u{e4}b", &changes);
        assert_eq!(
            it.of_note(&note),
            expected("note|3|77|4321|9|{-3,NULL,0.50}|\u{e4}b")
        );
        assert_eq!(
            it.of_here(&note),
            expected("here|3|77|4321|9|3|\u{e4}b|-3,,0.50").proof
        );
    }

    #[test]
    fn an_id_has_the_round_of_its_transaction() {
        let round = 7 << 32;
        assert_eq!(full_id(round + 9, 9), Id(round + 9));
        assert_eq!(full_id(round + 9, 12), Id(round + 12));
        assert_eq!(full_id(round + 0xffff_fffe, 3), Id(round + (1 << 32) + 3));
    }

    #[test]
    fn what_a_note_returns_is_read() {
        let bytes = [
            &1_000u64.to_be_bytes()[..],
            &1_002u32.to_be_bytes(),
            &[7; 32],
        ]
        .concat();
        let (id, with) = (Id(1_002), |byte: u8| [&bytes[..], &[byte]].concat());
        let read = |bytes: &[u8]| Noted::read(bytes, &[7; 32]);
        let noted = |has_folded| Some(Noted { id, has_folded });
        assert_eq!(read(&bytes), noted(false));
        assert_eq!(read(&with(0)), noted(false));
        assert_eq!(read(&with(1)), noted(true));
        assert_eq!(Noted::read(&bytes, &[8; 32]), None);
        assert_eq!(read(&bytes[..43]), None);
        assert_eq!(read(&[&with(1)[..], b"1"].concat()), None);
    }

    #[test]
    fn a_secret_has_64_bytes() {
        assert!(Secret::new(&[0; 63]).is_none());
        assert!(Secret::new(&[0; 65]).is_none());
    }
}
