//! Cuts a query text into tokens, by PostgreSQL's lexical rules (manual 4.1, `scan.l` of version 15).

use crate::sqlstate::{Failure, Report, SqlState};
use crate::statement::line::LONGEST_LINE;
use crate::statement::literal;
use crate::statement::parser::keywords;
use crate::statement::query::Span;

/// The most tokens of a statement. More would not fit into a line of the program.
pub const MOST_TOKENS: usize = 4_096;

/// How many tokens a statement usually has at the most.
const USUAL_TOKENS: usize = 32;

/// What a token is.
#[derive(Clone, Copy, Debug, PartialEq, Eq)]
pub enum TokenKind {
    /// A name or a keyword without quotes.
    Word,
    /// `"a name"`.
    QuotedName,
    /// A number without a sign.
    Number,
    /// `'a text'`, perhaps continued on the next line.
    Text,
    /// `E'a text'`, perhaps continued on the next line.
    EscapedText,
    /// `$$a text$$`, `$tag$a text$tag$`.
    DollarText,
    /// `$1`; its number.
    Parameter(u16),
    /// `+`, `<=`, `~*` and so on: as many characters as belong together.
    Operator,
    /// `::`
    Cast,
    /// `..` or `:=`, which no statement has.
    Pair,
    /// Any other character, as `(` or `,`.
    Symbol(u8),
}

/// A piece of a query text.
#[derive(Clone, Copy, Debug, PartialEq, Eq)]
pub struct Token {
    /// What it is.
    pub kind: TokenKind,
    /// Its first byte, and the one behind its last. No message has 4 GB.
    start: u32,
    end: u32,
    /// The keyword that it is, in capitals, if it is a word without quotes.
    pub keyword: Option<&'static str>,
}

impl Token {
    /// Returns where it is written.
    pub fn span(&self) -> Span {
        Span {
            start: self.start as usize,
            end: self.end as usize,
        }
    }

    /// Returns the token as it is written.
    pub fn text<'a>(&self, text: &'a str) -> &'a str {
        &text[self.start as usize..self.end as usize]
    }
}

/// The tokens of one statement.
#[derive(Debug)]
pub struct Tokens {
    /// The tokens, up to a semicolon, the text's end or the first fault.
    pub list: Vec<Token>,
    /// Where the statement ends: its semicolon, or the end of the text.
    pub end: Span,
    /// What is wrong behind the last token.
    pub fault: Option<Failure>,
}

/// Reads the tokens of the next statement of `text`, from the byte `at`, and moves `at` behind it and its semicolon.
///
/// Skips statements without a token. None: there are no more. A fault is told behind the tokens in front of it, since
/// what they say may be wrong before; then `at` is the end of the text.
pub fn next_statement(text: &str, at: &mut usize) -> Option<Tokens> {
    let mut list = Vec::new();
    let fault = loop {
        if let Err(report) = skip_blanks(text, at) {
            break Some(report);
        }
        if *at == text.len() {
            if list.is_empty() {
                return None;
            }
            break None;
        }
        let (kind, end) = match token(text, *at) {
            Ok(found) => found,
            Err(report) => break Some(report),
        };
        let start = std::mem::replace(at, end);
        if kind == TokenKind::Symbol(b';') {
            if list.is_empty() {
                continue;
            }
            let end = Span { start, end };
            let fault = None;
            return Some(Tokens { list, end, fault });
        }
        if list.len() == MOST_TOKENS {
            break Some(too_long());
        }
        if list.is_empty() {
            list.reserve(USUAL_TOKENS);
        }
        list.push(Token {
            kind,
            start: start as u32,
            end: end as u32,
            keyword: match kind {
                TokenKind::Word => keywords::find(&text[start..end]),
                _ => None,
            },
        });
    };
    *at = text.len();
    let end = Span {
        start: text.len(),
        end: text.len(),
    };
    Some(Tokens { list, end, fault })
}

/// Makes the report of a statement that doesn't fit into a line of the program.
pub fn too_long() -> Failure {
    Report::error(SqlState::LIMIT_EXCEEDED, "the statement is too long").detail(format!(
        "A statement has at most {LONGEST_LINE} bytes, without comments and with its parameters."
    ))
}

/// Moves `at` behind blanks and comments.
fn skip_blanks(text: &str, at: &mut usize) -> Result<(), Failure> {
    let bytes = text.as_bytes();
    loop {
        *at = end_of(bytes, *at, BLANK);
        match bytes.get(*at) {
            Some(b'-') if bytes.get(*at + 1) == Some(&b'-') => *at = line_end(bytes, *at),
            Some(b'/') if bytes.get(*at + 1) == Some(&b'*') => *at = comment_end(text, *at)?,
            _ => return Ok(()),
        }
    }
}

/// Returns the place of the next line feed or carriage return, or the end.
fn line_end(bytes: &[u8], start: usize) -> usize {
    bytes[start..]
        .iter()
        .position(|byte| matches!(byte, b'\n' | b'\r'))
        .map_or(bytes.len(), |count| start + count)
}

/// Returns the byte behind a comment. Comments nest.
fn comment_end(text: &str, start: usize) -> Result<usize, Failure> {
    let bytes = text.as_bytes();
    let mut depth = 0_usize;
    let mut at = start;
    while at < bytes.len() {
        match (bytes[at], bytes.get(at + 1)) {
            (b'/', Some(b'*')) => {
                depth += 1;
                at += 2;
            }
            (b'*', Some(b'/')) => {
                depth -= 1;
                at += 2;
                if depth == 0 {
                    return Ok(at);
                }
            }
            _ => at += 1,
        }
    }
    Err(unterminated("/* comment", text, start))
}

fn unterminated(what: &str, text: &str, start: usize) -> Failure {
    let message = format!("unterminated {} at or near \"{}\"", what, &text[start..]);
    Report::error(SqlState::SYNTAX_ERROR, message).at(start)
}

/// Returns what the token at a place is, and the byte behind it.
#[inline]
fn token(text: &str, start: usize) -> Result<(TokenKind, usize), Failure> {
    let bytes = text.as_bytes();
    let first = bytes[start];
    let class = CLASSES[usize::from(first)];
    let next = bytes.get(start + 1).copied();
    if class & WORD_START != 0 && !matches!(next, Some(b'\'' | b'&')) {
        return Ok((TokenKind::Word, word_end(bytes, start)));
    }
    Ok(match first {
        b'\'' => (TokenKind::Text, text_end(text, start, start + 1, false)?),
        b'e' | b'E' if next == Some(b'\'') => (
            TokenKind::EscapedText,
            text_end(text, start, start + 2, true)?,
        ),
        b'n' | b'N' if next == Some(b'\'') => {
            return Err(Report::missing("a national text (N'..')").at(start));
        }
        b'b' | b'B' | b'x' | b'X' if next == Some(b'\'') => {
            return Err(Report::missing("a text of bits").at(start));
        }
        b'u' | b'U' if next == Some(b'&') && matches!(bytes.get(start + 2), Some(b'\'' | b'"')) => {
            return Err(Report::missing("a text or name with Unicode escapes (U&)").at(start));
        }
        b'"' => (TokenKind::QuotedName, quoted_name_end(text, start)?),
        b'$' if next.map_or(false, |next| next.is_ascii_digit()) => parameter(text, start)?,
        b'$' => match literal::dollar_quote(&text[start..]) {
            Some(quote) => {
                let body = start + quote.len();
                let length = text[body..]
                    .find(quote)
                    .ok_or_else(|| unterminated("dollar-quoted string", text, start))?;
                (TokenKind::DollarText, body + length + quote.len())
            }
            None => return Err(Report::syntax(text, start, start + 1)),
        },
        b'0'..=b'9' => (TokenKind::Number, number_end(text, start)?),
        b'.' if matches!(next, Some(b'0'..=b'9')) => (TokenKind::Number, number_end(text, start)?),
        b':' if next == Some(b':') => (TokenKind::Cast, start + 2),
        b':' if next == Some(b'=') => (TokenKind::Pair, start + 2),
        b'.' if next == Some(b'.') => (TokenKind::Pair, start + 2),
        _ if class & WORD_START != 0 => (TokenKind::Word, word_end(bytes, start)),
        _ if class & OPERATOR != 0 => {
            let end = operator_end(bytes, start);
            if end - start > literal::LONGEST_NAME {
                let text = format!("operator too long at or near \"{}\"", &text[start..end]);
                return Err(Report::error(SqlState::SYNTAX_ERROR, text).at(start));
            }
            (TokenKind::Operator, end)
        }
        byte if byte < 0x20 || byte == 0x7f => {
            let text = format!("syntax error at the control character 0x{:02x}", byte);
            return Err(Report::error(SqlState::SYNTAX_ERROR, text).at(start));
        }
        byte => (TokenKind::Symbol(byte), start + 1),
    })
}

/// A name may begin with the byte.
const WORD_START: u8 = 1;

/// A name may have the byte behind its first one.
const WORD_PART: u8 = 2;

/// Operators may have the byte.
const OPERATOR: u8 = 4;

/// An operator that has the byte may end in + or -.
const BEFORE_SIGN: u8 = 8;

/// The byte is a blank.
const BLANK: u8 = 16;

/// What each byte may be part of.
static CLASSES: [u8; 256] = classes();

const fn classes() -> [u8; 256] {
    let mut classes = [0; 256];
    let mut byte = 0;
    while byte < classes.len() {
        classes[byte] = match byte as u8 {
            b'a'..=b'z' | b'A'..=b'Z' | b'_' | 0x80..=0xff => WORD_START | WORD_PART,
            b'0'..=b'9' | b'$' => WORD_PART,
            b'~' | b'!' | b'@' | b'#' | b'^' | b'&' | b'|' | b'`' | b'?' | b'%' => {
                OPERATOR | BEFORE_SIGN
            }
            b'+' | b'-' | b'*' | b'/' | b'<' | b'>' | b'=' => OPERATOR,
            b' ' | b'\t' | b'\n' | b'\r' | 0x0c => BLANK,
            _ => 0,
        };
        byte += 1;
    }
    classes
}

/// Returns whether a byte has one of these classes.
fn is_of(byte: u8, classes: u8) -> bool {
    CLASSES[usize::from(byte)] & classes != 0
}

/// Returns whether a name may begin with this byte.
pub fn is_word_start(byte: u8) -> bool {
    is_of(byte, WORD_START)
}

/// Returns the byte behind those from `start` on that have one of these classes.
fn end_of(bytes: &[u8], start: usize, classes: u8) -> usize {
    let mut rest = bytes[start..].iter();
    rest.position(|&byte| !is_of(byte, classes))
        .map_or(bytes.len(), |count| start + count)
}

fn word_end(bytes: &[u8], start: usize) -> usize {
    end_of(bytes, start, WORD_PART)
}

/// How many bytes are looked at for the end of an operator. PostgreSQL refuses one of 64 bytes, and no statement has one.
const LOOKED_AT: usize = 64;

/// Returns the byte behind an operator: it ends where a comment begins, and ends in + or - only with certain characters
/// in front.
fn operator_end(bytes: &[u8], start: usize) -> usize {
    let bytes = &bytes[..bytes.len().min(start + LOOKED_AT)];
    let end = end_of(bytes, start, OPERATOR);
    if end == start + 1 {
        return end;
    }
    let run = &bytes[start..end];
    let comment = run
        .windows(2)
        .position(|pair| pair == b"--" || pair == b"/*");
    let piece = &run[..comment.unwrap_or(run.len())];
    if piece.iter().any(|&byte| is_of(byte, BEFORE_SIGN)) {
        return start + piece.len();
    }
    let is_sign = |byte: &&u8| matches!(byte, b'+' | b'-');
    let signs = piece.iter().rev().take_while(is_sign).count();
    start + (piece.len() - signs).max(1)
}

fn text_end(text: &str, start: usize, first: usize, escaped: bool) -> Result<usize, Failure> {
    let bytes = text.as_bytes();
    let mut at = first;
    loop {
        match bytes.get(at) {
            None => return Err(unterminated("quoted string", text, start)),
            Some(b'\'') if bytes.get(at + 1) == Some(&b'\'') => at += 2,
            Some(b'\'') => match continuation(bytes, at + 1) {
                Some(next) => at = next,
                None => return Ok(at + 1),
            },
            Some(b'\\') if escaped => at += 2,
            Some(_) => at += 1,
        }
    }
}

/// Returns the byte behind the quote with which a text goes on on another line. None: the text ends.
pub fn continuation(bytes: &[u8], mut at: usize) -> Option<usize> {
    let mut has_line_feed = false;
    loop {
        match bytes.get(at) {
            Some(b'\n' | b'\r') => {
                has_line_feed = true;
                at += 1;
            }
            Some(b' ' | b'\t' | 0x0c) => at += 1,
            Some(b'-') if bytes.get(at + 1) == Some(&b'-') => {
                at = line_end(bytes, at);
                // Behind a line feed a comment counts only with its own.
                if at == bytes.len() {
                    return None;
                }
            }
            Some(b'\'') if has_line_feed => return Some(at + 1),
            _ => return None,
        }
    }
}

fn quoted_name_end(text: &str, start: usize) -> Result<usize, Failure> {
    let bytes = text.as_bytes();
    let mut at = start + 1;
    loop {
        match bytes.get(at) {
            None => return Err(unterminated("quoted identifier", text, start)),
            Some(b'"') if bytes.get(at + 1) == Some(&b'"') => at += 2,
            Some(b'"') if at == start + 1 => {
                let text = "zero-length delimited identifier at or near \"\"\"\"";
                return Err(Report::error(SqlState::SYNTAX_ERROR, text).at(start));
            }
            Some(b'"') => return Ok(at + 1),
            Some(_) => at += 1,
        }
    }
}

fn parameter(text: &str, start: usize) -> Result<(TokenKind, usize), Failure> {
    let digits = &text[start + 1..];
    let count = digits
        .bytes()
        .position(|byte| !byte.is_ascii_digit())
        .unwrap_or(digits.len());
    let end = start + 1 + count;
    refuse_junk(text, start, end, "parameter")?;
    match digits[..count].parse() {
        Ok(number) if number > 0 && number <= i16::MAX as u16 => {
            Ok((TokenKind::Parameter(number), end))
        }
        _ => Err(Report::error(
            SqlState::UNDEFINED_PARAMETER,
            format!("there is no parameter {}", &text[start..end]),
        )
        .at(start)),
    }
}

/// Returns the byte behind a number: digits, perhaps a point, perhaps an exponent.
fn number_end(text: &str, start: usize) -> Result<usize, Failure> {
    let bytes = text.as_bytes();
    let digits = |mut at: usize| {
        while matches!(bytes.get(at), Some(b'0'..=b'9')) {
            at += 1;
        }
        at
    };
    let mut end = digits(start);
    if bytes.get(end) == Some(&b'.') {
        if bytes.get(end + 1) == Some(&b'.') {
            return Ok(end);
        }
        end = digits(end + 1);
    }
    if matches!(bytes.get(end), Some(b'e' | b'E')) {
        let sign = usize::from(matches!(bytes.get(end + 1), Some(b'+' | b'-')));
        if matches!(bytes.get(end + 1 + sign), Some(b'0'..=b'9')) {
            end = digits(end + 1 + sign);
        } else if sign > 0 {
            return Err(junk(text, start, end + 2, "numeric literal"));
        }
    }
    refuse_junk(text, start, end, "numeric literal")?;
    Ok(end)
}

/// Refuses a word that begins where a number or a parameter ends.
fn refuse_junk(text: &str, start: usize, end: usize, what: &str) -> Result<(), Failure> {
    let bytes = text.as_bytes();
    if bytes.get(end).map_or(false, |&byte| is_word_start(byte)) {
        return Err(junk(text, start, word_end(bytes, end), what));
    }
    Ok(())
}

fn junk(text: &str, start: usize, end: usize, what: &str) -> Failure {
    let message = format!(
        "trailing junk after {} at or near \"{}\"",
        what,
        &text[start..end]
    );
    Report::error(SqlState::SYNTAX_ERROR, message).at(start)
}
