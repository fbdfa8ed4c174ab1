//! Messages that the proxy itself sends to PostgreSQL and to clients.

use bytes::{BufMut, Bytes};

/// What the names of the proxy's own prepared statements and portals begin with. Clients may not use them.
pub const PREFIX: &str = "escrowd-proxy ";

/// The name of the statement and the portal of a string's statements, one after another: so one that fails leaves no more
/// than one.
const PIECE: &str = "escrowd-proxy piece";

/// Flush.
pub const FLUSH: &[u8] = b"H\0\0\0\x04";

/// Sync.
pub const SYNC: &[u8] = b"S\0\0\0\x04";

/// PortalSuspended.
pub const SUSPENDED: &[u8] = b"s\0\0\0\x04";

/// A value of a parameter.
#[derive(Clone, Debug)]
pub enum Value {
    /// In text.
    Text(String),
    /// In binary.
    Binary(Vec<u8>),
    /// NULL
    Null,
}

/// Appends a message; `body` writes what is behind its length.
fn message(out: &mut Vec<u8>, kind: u8, body: impl FnOnce(&mut Vec<u8>)) {
    out.push(kind);
    let start = out.len();
    out.put_u32(0);
    body(out);
    let length = (out.len() - start) as u32;
    out[start..start + 4].copy_from_slice(&length.to_be_bytes());
}

fn string(out: &mut Vec<u8>, text: &str) {
    out.extend(text.bytes().filter(|&byte| byte != 0));
    out.push(0);
}

/// Appends a Parse. PostgreSQL finds the types that are 0 or not given.
pub fn parse(out: &mut Vec<u8>, name: &str, text: &str, types: &[u32]) {
    message(out, b'P', |out| {
        string(out, name);
        string(out, text);
        out.put_u16(types.len() as u16);
        for &oid in types {
            out.put_u32(oid);
        }
    });
}

/// Appends a Bind of values as a client has sent them.
pub fn bind_as(
    out: &mut Vec<u8>,
    portal: &str,
    statement: &str,
    formats: &[i16],
    values: &[Option<Vec<u8>>],
    results: &[i16],
) {
    message(out, b'B', |out| {
        string(out, portal);
        string(out, statement);
        out.put_u16(formats.len() as u16);
        formats.iter().for_each(|&format| out.put_i16(format));
        out.put_u16(values.len() as u16);
        for value in values {
            match value {
                Some(bytes) => {
                    out.put_u32(bytes.len() as u32);
                    out.extend_from_slice(bytes);
                }
                None => out.put_i32(-1),
            }
        }
        out.put_u16(results.len() as u16);
        results.iter().for_each(|&result| out.put_i16(result));
    });
}

/// Appends a Describe of a portal.
pub fn describe_portal(out: &mut Vec<u8>, portal: &str) {
    message(out, b'D', |out| {
        out.push(b'P');
        string(out, portal);
    });
}

/// Appends a Close of a statement.
pub fn close_statement(out: &mut Vec<u8>, name: &str) {
    message(out, b'C', |out| {
        out.push(b'S');
        string(out, name);
    });
}

/// Appends a Bind.
pub fn bind(out: &mut Vec<u8>, portal: &str, statement: &str, values: &[Value], results: &[i16]) {
    message(out, b'B', |out| {
        string(out, portal);
        string(out, statement);
        out.put_u16(values.len() as u16);
        for value in values {
            out.put_u16(u16::from(matches!(value, Value::Binary(_))));
        }
        out.put_u16(values.len() as u16);
        for value in values {
            let bytes = match value {
                Value::Text(text) => text.as_bytes(),
                Value::Binary(bytes) => bytes,
                Value::Null => {
                    out.put_i32(-1);
                    continue;
                }
            };
            out.put_u32(bytes.len() as u32);
            out.extend_from_slice(bytes);
        }
        out.put_u16(results.len() as u16);
        for &result in results {
            out.put_i16(result);
        }
    });
}

/// Appends what sends a statement of a string. Returns how many replies acknowledge it in front of those of its Execute.
pub fn piece(out: &mut Vec<u8>, text: &str) -> usize {
    let closed = close_piece(out);
    parse(out, PIECE, text, &[]);
    bind(out, PIECE, PIECE, &[], &[]);
    describe_portal(out, PIECE);
    execute(out, PIECE);
    closed + 3
}

/// Appends what closes the last statement of a string. Returns how many replies acknowledge it.
pub fn close_piece(out: &mut Vec<u8>) -> usize {
    close_statement(out, PIECE);
    close_portal(out, PIECE);
    2
}

/// Appends an Execute of all rows.
pub fn execute(out: &mut Vec<u8>, portal: &str) {
    message(out, b'E', |out| {
        string(out, portal);
        out.put_u32(0);
    });
}

/// Appends a Close of a portal.
pub fn close_portal(out: &mut Vec<u8>, portal: &str) {
    message(out, b'C', |out| {
        out.push(b'P');
        string(out, portal);
    });
}

/// Returns a CommandComplete.
pub fn command_complete(tag: &str) -> Vec<u8> {
    let mut out = Vec::new();
    message(&mut out, b'C', |out| string(out, tag));
    out
}

/// Returns an ErrorResponse of severity FATAL.
pub fn fatal(code: &str, text: &str) -> Vec<u8> {
    let mut out = Vec::new();
    message(&mut out, b'E', |out| {
        for (kind, text) in [(b'S', "FATAL"), (b'V', "FATAL"), (b'C', code), (b'M', text)] {
            out.push(kind);
            string(out, text);
        }
        out.push(0);
    });
    out
}

/// Returns an ErrorResponse without what says where in PostgreSQL's functions it was raised.
pub fn without_context(error: &[u8]) -> Vec<u8> {
    changed(error, |field| match field.first() {
        Some(b'W' | b'F' | b'L' | b'R') => None,
        _ => Some(field.to_vec()),
    })
}

/// Returns an ErrorResponse whose place in the statement is so many characters further behind.
pub fn moved(error: &[u8], by: i64) -> Vec<u8> {
    changed(error, |field| {
        let place = field.strip_prefix(b"P").map(std::str::from_utf8);
        match place.and_then(|it| it.ok()?.parse::<i64>().ok()) {
            Some(place) => Some(format!("P{}", place + by).into_bytes()),
            None => Some(field.to_vec()),
        }
    })
}

/// A row that PostgreSQL keeps, since the proxy holds it.
#[derive(Clone, Debug, PartialEq, Eq)]
pub struct KeptRow {
    /// The table's schema.
    pub schema: String,
    /// The table's name.
    pub table: String,
    /// The key, as PostgreSQL writes it.
    pub key: String,
}

/// Returns the row that an ErrorResponse of a trigger of schema `escrow` names. None: it is another error.
pub fn kept_row(error: &[u8]) -> Option<KeptRow> {
    let fields = error.get(5..).unwrap_or_default().split(|&byte| byte == 0);
    let fields: Vec<&str> = fields
        .filter_map(|it| std::str::from_utf8(it).ok())
        .collect();
    let field = |kind: char| fields.iter().find_map(|it| it.strip_prefix(kind));
    let key = field('D')?.strip_prefix("The key is ")?.strip_suffix('.')?;
    (field('C')? == "55006").then_some(())?;
    Some(KeptRow {
        schema: field('s')?.to_owned(),
        table: field('t')?.to_owned(),
        key: key.to_owned(),
    })
}

/// Returns an ErrorResponse with its fields changed.
fn changed(error: &[u8], change: impl Fn(&[u8]) -> Option<Vec<u8>>) -> Vec<u8> {
    let fields = error.get(5..).unwrap_or_default().split(|&byte| byte == 0);
    let mut out = Vec::new();
    message(&mut out, b'E', |out| {
        for field in fields.filter(|it| !it.is_empty()).filter_map(change) {
            out.extend(field);
            out.push(0);
        }
        out.push(0);
    });
    out
}

/// Reads the types of a ParameterDescription, without its kind and length. None: it is laid out wrongly.
pub fn types(body: &[u8]) -> Option<Vec<u32>> {
    let words = body.get(2..)?.chunks(4);
    let types = words.map(|it| Some(u32::from_be_bytes(it.try_into().ok()?)));
    types.collect()
}

/// Reads the values of a DataRow, whole with its kind and length. None: it is laid out wrongly.
pub fn row(message: &Bytes) -> Option<Vec<Option<Bytes>>> {
    let mut at = 7;
    let count = u16::from_be_bytes(message.get(5..7)?.try_into().ok()?);
    let mut values = Vec::with_capacity(usize::from(count));
    for _ in 0..count {
        let length = i32::from_be_bytes(message.get(at..at + 4)?.try_into().ok()?);
        at += 4;
        values.push(match usize::try_from(length) {
            Ok(length) => {
                message.get(at..at + length)?;
                at += length;
                Some(message.slice(at - length..at))
            }
            Err(_) => None,
        });
    }
    Some(values)
}

#[cfg(test)]
mod tests {
    use super::*;

    #[test]
    fn messages_are_laid_out_as_the_protocol_says() {
        let mut out = Vec::new();
        parse(&mut out, "a", "SELECT 1", &[]);
        bind(
            &mut out,
            "p",
            "a",
            &[Value::Text("x".to_owned()), Value::Null],
            &[1],
        );
        execute(&mut out, "p");
        close_portal(&mut out, "p");
        let expected = [
            &b"P\0\0\0\x11a\0SELECT 1\0\0\0"[..],
            b"B\0\0\0\x1dp\0a\0\0\x02\0\0\0\0\0\x02\0\0\0\x01x\xff\xff\xff\xff\0\x01\0\x01",
            b"E\0\0\0\x0ap\0\0\0\0\0",
            b"C\0\0\0\x07Pp\0",
        ]
        .concat();
        assert_eq!(out, expected);
        assert_eq!(command_complete("UPDATE 1"), b"C\0\0\0\x0dUPDATE 1\0");
    }

    #[test]
    fn an_error_says_no_more_where_it_was_raised() {
        let error = b"E\0\0\0\x20SERROR\0C23514\0Mno\0WPL/pgSQL\0\0";
        assert_eq!(
            without_context(error),
            b"E\0\0\0\x17SERROR\0C23514\0Mno\0\0"
        );
    }

    #[test]
    fn an_error_tells_its_place_in_the_clients_text() {
        let error = b"E\0\0\0\x16SERROR\0C42703\0P9\0\0";
        assert_eq!(moved(error, 3), b"E\0\0\0\x17SERROR\0C42703\0P12\0\0");
    }

    #[test]
    fn an_error_tells_which_row_is_kept() {
        let of = |code: &str, detail: &str| {
            let fields = format!("SERROR\0{code}\0Mheld\0{detail}\0spublic\0tstock\0\0");
            kept_row(&[b"E\0\0\0\0", fields.as_bytes()].concat()).map(|it| it.key)
        };
        assert_eq!(of("C55006", "DThe key is a.b."), Some("a.b".to_owned()));
        assert_eq!(of("C55006", "DIt is 5."), None);
        assert_eq!(of("C23503", "DThe key is 5."), None);
        assert_eq!(kept_row(b"E\0\0\0\x10C55006\0\0"), None);
    }

    #[test]
    fn rows_are_read() {
        let bytes = Bytes::from_static(b"D\0\0\0\x0f\0\x02\0\0\0\x01x\xff\xff\xff\xff");
        assert_eq!(
            row(&bytes),
            Some(vec![Some(Bytes::from_static(b"x")), None])
        );
        assert_eq!(row(&bytes.slice(..bytes.len() - 1)), None);
    }
}
