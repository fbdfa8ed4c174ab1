//! Lists of words in which names are looked up.

/// The most letters of a word.
const LONGEST: usize = 31;

/// Words, all in lower case or all in capitals.
///
/// A name is compared with those alone that have its first letter and its length. Most names have none.
pub struct Words {
    words: &'static [&'static str],
    /// For each letter and each length: the place of the first word that has both, or of the next one.
    starts: [[u16; LONGEST + 2]; 26],
}

impl Words {
    /// Returns a list of words of at most 31 letters, which begin with a letter. They are in the order of their first
    /// letters, and those of one letter in the order of their lengths.
    pub const fn new(words: &'static [&'static str]) -> Words {
        let mut starts = [[0; LONGEST + 2]; 26];
        let (mut place, mut letter) = (0, 0);
        while letter < starts.len() {
            let mut length = 0;
            while length < LONGEST + 2 {
                starts[letter][length] = place as u16;
                while place < words.len()
                    && words[place].len() == length
                    && letter_of(words[place].as_bytes()[0]) == letter
                {
                    place += 1;
                }
                length += 1;
            }
            letter += 1;
        }
        assert!(place == words.len(), "words are in order");
        Words { words, starts }
    }

    /// Returns whether a word is one of them.
    pub fn has(&self, word: &str) -> bool {
        self.like(word).contains(&word)
    }

    /// Returns the one that a word is in its own case or in another. A word has letters, digits, `_` and `$` alone: any
    /// two of these that differ in the bit of the case alone are the same letter.
    pub fn find(&self, word: &str) -> Option<&'static str> {
        const CASE: u8 = 0x20;
        let is_same = |known: &&&str| {
            let mut pairs = known.bytes().zip(word.bytes());
            pairs.all(|(known, byte)| (known ^ byte) & !CASE == 0)
        };
        self.like(word).iter().find(is_same).copied()
    }

    /// Returns those with the first letter and the length of a word.
    fn like(&self, word: &str) -> &'static [&'static str] {
        let first = word.as_bytes().first().copied().unwrap_or_default();
        match self.starts.get(letter_of(first)) {
            Some(starts) if word.len() <= LONGEST => {
                let (start, end) = (starts[word.len()], starts[word.len() + 1]);
                &self.words[usize::from(start)..usize::from(end)]
            }
            _ => &[],
        }
    }
}

/// Returns the place of a letter in the alphabet, from 0. Of what is no letter it is 26 or more.
const fn letter_of(byte: u8) -> usize {
    (byte | 0x20).wrapping_sub(b'a') as usize
}

#[cfg(test)]
mod tests {
    use super::*;

    #[test]
    fn only_the_words_of_a_list_are_in_it() {
        const WORDS: Words = Words::new(&["add", "to", "table"]);
        for word in ["add", "table", "to"] {
            assert!(WORDS.has(word));
            assert_eq!(WORDS.find(&word.to_ascii_uppercase()), Some(word));
        }
        let long = "a".repeat(32);
        for word in [
            "", "a", "and", "tab", "Table", "tables", "t1", "1", "\u{e4}", &long,
        ] {
            assert!(!WORDS.has(word), "{word}");
        }
        assert_eq!(WORDS.find("tab"), None);
    }
}
