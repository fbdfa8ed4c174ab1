//! Names and texts as they are meant, out of how they are written.

use std::borrow::Cow;

use crate::sqlstate::{Failure, Report, SqlState};
use crate::statement::parser;

/// The most bytes of a name, as in PostgreSQL. Longer ones are cut.
pub const LONGEST_NAME: usize = 63;

/// Returns a name as PostgreSQL means it, from how it is written: in lower case unless it is in quotes, and cut to 63
/// bytes.
pub fn folded(written: &str, is_quoted: bool) -> String {
    let mut name = if is_quoted {
        // Each quote of a name is written twice. What is cut is not read, however long it is.
        cut(&written[1..written.len() - 1], 2 * LONGEST_NAME + 2).replace("\"\"", "\"")
    } else {
        cut(written, LONGEST_NAME).to_ascii_lowercase()
    };
    name.truncate(cut(&name, LONGEST_NAME).len());
    name
}

/// Returns the first characters of a text, as many as are in so many bytes.
pub fn cut(text: &str, most: usize) -> &str {
    let mut end = text.len().min(most);
    while !text.is_char_boundary(end) {
        end -= 1;
    }
    &text[..end]
}

/// Returns the delimiter of a text in dollar quotes with which `text` begins: `$$`, `$tag$`. None: there is none.
pub fn dollar_quote(text: &str) -> Option<&str> {
    let rest = text.strip_prefix('$')?;
    let tag = &rest[..rest.find('$')?];
    let is_start = |byte: u8| byte.is_ascii_alphabetic() || byte == b'_' || byte >= 0x80;
    let is_tag = tag
        .bytes()
        .enumerate()
        .all(|(place, byte)| is_start(byte) || (place > 0 && byte.is_ascii_digit()));
    is_tag.then(|| &text[..tag.len() + 2])
}

/// Returns the text that a token of a text means, from how it is written.
///
/// # Errors
///
/// Fails if an escape of `E'..'` is none, or stands for no character.
pub fn text_of(kind: parser::TokenKind, written: &str) -> Result<String, Failure> {
    if kind == parser::TokenKind::DollarText {
        let quote = dollar_quote(written).map_or(0, str::len);
        return Ok(written[quote..written.len() - quote].to_owned());
    }
    let is_escaped = kind == parser::TokenKind::EscapedText;
    let pieces = pieces(written, usize::from(is_escaped) + 1, is_escaped);
    if is_escaped {
        unescape(&pieces)
    } else {
        Ok(pieces.replace("''", "'"))
    }
}

/// Joins the pieces of a text that goes on on other lines, without the quotes around them.
fn pieces(written: &str, first: usize, is_escaped: bool) -> Cow<'_, str> {
    let bytes = written.as_bytes();
    let (mut joined, mut start, mut at) = (String::new(), first, first);
    while at < bytes.len() {
        match bytes[at] {
            b'\\' if is_escaped => at += 2,
            b'\'' if bytes.get(at + 1) == Some(&b'\'') => at += 2,
            b'\'' if at + 1 < bytes.len() => {
                joined.push_str(&written[start..at]);
                at = parser::lexer::continuation(bytes, at + 1).unwrap_or(bytes.len());
                start = at;
            }
            _ => at += 1,
        }
    }
    let last = &written[start..written.len() - 1];
    if joined.is_empty() {
        return Cow::Borrowed(last);
    }
    joined.push_str(last);
    Cow::Owned(joined)
}

fn unescape(written: &str) -> Result<String, Failure> {
    let mut value = Vec::with_capacity(written.len());
    let mut rest = written.bytes().peekable();
    let mut surrogate = None;
    while let Some(byte) = rest.next() {
        if byte == b'\'' {
            // The second of the two quotes that mean one.
            rest.next();
        }
        if byte != b'\\' {
            if surrogate.is_some() {
                return Err(bad_surrogate());
            }
            value.push(byte);
            continue;
        }
        let unit = match rest.next() {
            Some(b'u') => hexadecimal(&mut rest, 4, 4)?,
            Some(b'U') => hexadecimal(&mut rest, 8, 8)?,
            other => {
                if surrogate.is_some() {
                    return Err(bad_surrogate());
                }
                value.push(escaped_byte(other, &mut rest)?);
                continue;
            }
        };
        let code = match (surrogate.take(), unit) {
            (None, 0xd800..=0xdbff) => {
                surrogate = Some(unit);
                continue;
            }
            (Some(high), 0xdc00..=0xdfff) => 0x10000 + ((high - 0xd800) << 10) + (unit - 0xdc00),
            (Some(_), _) | (None, 0xdc00..=0xdfff) => return Err(bad_surrogate()),
            (None, unit) => unit,
        };
        let character = char::from_u32(code).filter(|&character| character != '\0');
        let character = character
            .ok_or_else(|| Report::error(SqlState::SYNTAX_ERROR, "invalid Unicode escape value"))?;
        value.extend_from_slice(character.encode_utf8(&mut [0; 4]).as_bytes());
    }
    if surrogate.is_some() {
        return Err(bad_surrogate());
    }
    String::from_utf8(value).map_err(|error| not_utf8(error.as_bytes()))
}

fn escaped_byte(
    escape: Option<u8>,
    rest: &mut std::iter::Peekable<std::str::Bytes<'_>>,
) -> Result<u8, Failure> {
    Ok(match escape {
        Some(b'b') => 0x08,
        Some(b'f') => 0x0c,
        Some(b'n') => b'\n',
        Some(b'r') => b'\r',
        Some(b't') => b'\t',
        Some(b'v') => 0x0b,
        Some(b'x') if rest.peek().map_or(false, u8::is_ascii_hexdigit) => {
            hexadecimal(rest, 1, 2)? as u8
        }
        Some(first @ b'0'..=b'7') => {
            let mut number = u32::from(first - b'0');
            for _ in 0..2 {
                match rest.peek() {
                    Some(&digit @ b'0'..=b'7') => {
                        number = number * 8 + u32::from(digit - b'0');
                        rest.next();
                    }
                    _ => break,
                }
            }
            number as u8
        }
        Some(other) => other,
        None => b'\\',
    })
}

fn hexadecimal(
    rest: &mut std::iter::Peekable<std::str::Bytes<'_>>,
    least: usize,
    most: usize,
) -> Result<u32, Failure> {
    let mut number = 0;
    for count in 0..most {
        match rest
            .peek()
            .and_then(|&digit| char::from(digit).to_digit(16))
        {
            Some(digit) => {
                number = number << 4 | digit;
                rest.next();
            }
            None if count >= least => break,
            None => {
                return Err(Report::error(
                    SqlState::CHARACTER_NOT_IN_REPERTOIRE,
                    "invalid Unicode escape",
                )
                .hint("Unicode escapes must be \\uXXXX or \\UXXXXXXXX."));
            }
        }
    }
    Ok(number)
}

fn bad_surrogate() -> Failure {
    Report::error(SqlState::SYNTAX_ERROR, "invalid Unicode surrogate pair")
}

/// Makes the report of bytes that are no UTF-8.
pub fn not_utf8(bytes: &[u8]) -> Failure {
    let start = std::str::from_utf8(bytes).map_or_else(|error| error.valid_up_to(), str::len);
    let wrong: Vec<String> = bytes[start..]
        .iter()
        .take(3)
        .map(|byte| format!("0x{:02x}", byte))
        .collect();
    Report::error(
        SqlState::CHARACTER_NOT_IN_REPERTOIRE,
        format!(
            "invalid byte sequence for encoding \"UTF8\": {}",
            wrong.join(" ")
        ),
    )
}

/// Appends a text as a literal of the program: in quotes, with each quote twice.
///
/// # Errors
///
/// Fails if it has a control character, which the program doesn't keep.
pub fn append_text(out: &mut Vec<u8>, value: &str) -> Result<(), Failure> {
    out.push(b'\'');
    for byte in value.bytes() {
        if byte < 0x20 || byte == 0x7f {
            return Err(Report::error(
                SqlState::CHARACTER_NOT_IN_REPERTOIRE,
                format!("a text contains the control character 0x{:02x}", byte),
            )
            .detail("A text must not contain control characters (0 to 31 and 127)."));
        }
        if byte == b'\'' {
            out.push(b'\'');
        }
        out.push(byte);
    }
    out.push(b'\'');
    Ok(())
}

#[cfg(test)]
mod tests {
    use super::*;
    fn value(text: &str) -> Result<String, Failure> {
        let tokens = parser::lexer::next_statement(text, &mut 0).unwrap();
        text_of(tokens.list[0].kind, text)
    }

    #[test]
    fn names_are_folded_unless_quoted_and_cut_to_63_bytes() {
        assert_eq!(folded("Account", false), "account");
        assert_eq!(folded("\"Account \"\"x\"\"\"", true), "Account \"x\"");
        assert_eq!(folded(&"a".repeat(70), false), "a".repeat(63));
        let long = format!("\"{}\"", "\u{e4}".repeat(40));
        assert_eq!(folded(&long, true), "\u{e4}".repeat(31));
        for (count, kept) in [(40, 40), (63, 63), (64, 63), (9_000, 63)] {
            let quotes = format!("\"{}\"", "\"\"".repeat(count));
            assert_eq!(folded(&quotes, true), "\"".repeat(kept));
            let mixed = format!("\"\u{e4}{}\u{1f600}\"", "\"\"".repeat(count));
            let all = format!("\u{e4}{}\u{1f600}", "\"".repeat(count));
            assert_eq!(folded(&mixed, true), cut(&all, LONGEST_NAME));
        }
    }

    #[test]
    fn texts_go_on_on_another_line() {
        let continued = "'it''s' -- it's\n  'a''b'";
        assert_eq!(value(continued).unwrap(), "it'sa'b");
        assert_eq!(value("E'\\x41'\r\n'\\x42'").unwrap(), "AB");
        assert_eq!(value("$a$ ' $$ \\n$a$").unwrap(), " ' $$ \\n");
    }

    #[test]
    fn reads_texts_and_escapes_as_postgresql_does() {
        assert_eq!(value("'it''s \\n'").unwrap(), "it's \\n");
        assert_eq!(
            value("E'it''s \\'x\\' \\\\ \\t\\x41\\102\\q'").unwrap(),
            "it's 'x' \\ \tABq"
        );
        assert_eq!(
            value("E'\\u00e4\\U0001F600\\ud83d\\ude00'").unwrap(),
            "\u{e4}\u{1f600}\u{1f600}"
        );
        assert_eq!(value("e'\\xc3\\xa4'").unwrap(), "\u{e4}");
    }

    #[test]
    fn refuses_escapes_that_stand_for_nothing() {
        assert_eq!(
            value("E'\\ud83d'").unwrap_err().state,
            SqlState::SYNTAX_ERROR
        );
        assert_eq!(
            value("E'\\ud83dx'").unwrap_err().state,
            SqlState::SYNTAX_ERROR
        );
        assert_eq!(
            value("E'\\u00'").unwrap_err().state,
            SqlState::CHARACTER_NOT_IN_REPERTOIRE
        );
        let report = value("E'\\xff'").unwrap_err();
        assert_eq!(report.state, SqlState::CHARACTER_NOT_IN_REPERTOIRE);
        assert_eq!(
            report.message,
            "invalid byte sequence for encoding \"UTF8\": 0xff"
        );
    }

    #[test]
    fn writes_texts_for_the_program() {
        let mut out = Vec::new();
        append_text(&mut out, "it's \u{e4} | \\").unwrap();
        assert_eq!(out, "'it''s \u{e4} | \\'".as_bytes());
        for control in ["a\nb", "\0", "\u{7f}", "\t"] {
            assert_eq!(
                append_text(&mut Vec::new(), control).unwrap_err().state,
                SqlState::CHARACTER_NOT_IN_REPERTOIRE
            );
        }
    }
}
