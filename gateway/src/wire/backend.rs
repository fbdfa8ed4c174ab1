//! Messages that a client gets.

use postgres_protocol::Oid;

use crate::sqlstate::Report;
use crate::value::oid;

/// What ReadyForQuery tells of the transaction.
#[derive(Clone, Copy, Debug, PartialEq, Eq)]
pub enum Status {
    /// `I`: no block is open.
    Idle,
    /// `T`: a block is open.
    Block,
    /// `E`: a block is open and has failed.
    Failed,
}

/// How a value is written.
#[derive(Clone, Copy, Debug, PartialEq, Eq)]
pub enum Format {
    /// As text.
    Text,
    /// In binary.
    Binary,
}

/// A column of a result.
#[derive(Clone, Debug, PartialEq, Eq)]
pub struct Column {
    /// Its name.
    pub name: String,
    /// The Oid of its type.
    pub oid: Oid,
    /// The bytes of a value; -1: they vary.
    pub size: i16,
    /// The type's modifier; -1: none.
    pub modifier: i32,
}

impl Column {
    /// Makes a column of a type without a modifier.
    pub fn plain(name: &str, oid: Oid) -> Column {
        let size = match oid {
            oid::BOOL => 1,
            oid::INT2 => 2,
            oid::INT4 | oid::OID => 4,
            oid::INT8 => 8,
            oid::NAME => 64,
            _ => -1,
        };
        Column {
            name: name.to_owned(),
            oid,
            size,
            modifier: -1,
        }
    }
}

/// Writes a message of this kind; `body` writes what is behind the length.
fn message(out: &mut Vec<u8>, kind: u8, body: impl FnOnce(&mut Vec<u8>)) {
    out.push(kind);
    let start = out.len();
    out.extend_from_slice(&[0; 4]);
    body(out);
    let length = (out.len() - start) as u32;
    out[start..start + 4].copy_from_slice(&length.to_be_bytes());
}

fn string(out: &mut Vec<u8>, text: &str) {
    let bytes = text.as_bytes();
    if bytes.contains(&0) {
        // A zero byte would end the string early.
        out.extend(bytes.iter().filter(|&&byte| byte != 0));
    } else {
        out.extend_from_slice(bytes);
    }
    out.push(0);
}

/// Writes AuthenticationOk.
pub fn authentication_ok(out: &mut Vec<u8>) {
    message(out, b'R', |out| out.extend_from_slice(&0_u32.to_be_bytes()));
}

/// Writes BackendKeyData. Nothing is cancelled by it, so the key is the process's number.
pub fn backend_key_data(out: &mut Vec<u8>, process_id: i32) {
    message(out, b'K', |out| {
        out.extend_from_slice(&process_id.to_be_bytes());
        out.extend_from_slice(&process_id.to_be_bytes());
    });
}

/// Writes ParameterStatus.
pub fn parameter_status(out: &mut Vec<u8>, name: &str, value: &str) {
    message(out, b'S', |out| {
        string(out, name);
        string(out, value);
    });
}

/// Writes NegotiateProtocolVersion: 3.0 is the newest, and these options aren't known.
pub fn negotiate_protocol_version(out: &mut Vec<u8>, unknown: &[&str]) {
    message(out, b'v', |out| {
        out.extend_from_slice(&0_u32.to_be_bytes());
        out.extend_from_slice(&(unknown.len() as u32).to_be_bytes());
        for option in unknown {
            string(out, option);
        }
    });
}

/// Writes ReadyForQuery.
pub fn ready_for_query(out: &mut Vec<u8>, status: Status) {
    let status = match status {
        Status::Idle => b'I',
        Status::Block => b'T',
        Status::Failed => b'E',
    };
    out.extend_from_slice(&[b'Z', 0, 0, 0, 5, status]);
}

/// Writes CommandComplete.
pub fn command_complete(out: &mut Vec<u8>, tag: &str) {
    message(out, b'C', |out| string(out, tag));
}

/// Writes CommandComplete of a tag with a number behind it.
pub fn command_complete_of(out: &mut Vec<u8>, tag: &str, count: usize) {
    message(out, b'C', |out| {
        out.extend_from_slice(tag.as_bytes());
        out.push(b' ');
        string(out, &count.to_string());
    });
}

/// Writes EmptyQueryResponse.
pub fn empty_query(out: &mut Vec<u8>) {
    message(out, b'I', |_| {});
}

/// Writes ParseComplete.
pub fn parse_complete(out: &mut Vec<u8>) {
    message(out, b'1', |_| {});
}

/// Writes BindComplete.
pub fn bind_complete(out: &mut Vec<u8>) {
    message(out, b'2', |_| {});
}

/// Writes CloseComplete.
pub fn close_complete(out: &mut Vec<u8>) {
    message(out, b'3', |_| {});
}

/// Writes NoData.
pub fn no_data(out: &mut Vec<u8>) {
    message(out, b'n', |_| {});
}

/// Writes PortalSuspended.
pub fn portal_suspended(out: &mut Vec<u8>) {
    message(out, b's', |_| {});
}

/// Writes ParameterDescription.
pub fn parameter_description(out: &mut Vec<u8>, types: &[Oid]) {
    message(out, b't', |out| {
        out.extend_from_slice(&(types.len() as u16).to_be_bytes());
        for oid in types {
            out.extend_from_slice(&oid.to_be_bytes());
        }
    });
}

/// Writes RowDescription. `format` tells the format of the column at a place.
pub fn row_description(out: &mut Vec<u8>, columns: &[Column], format: impl Fn(usize) -> Format) {
    message(out, b'T', |out| {
        out.extend_from_slice(&(columns.len() as u16).to_be_bytes());
        for (place, column) in columns.iter().enumerate() {
            string(out, &column.name);
            // No table and no column of a catalog.
            out.extend_from_slice(&[0; 6]);
            out.extend_from_slice(&column.oid.to_be_bytes());
            out.extend_from_slice(&column.size.to_be_bytes());
            out.extend_from_slice(&column.modifier.to_be_bytes());
            out.extend_from_slice(&(format(place) as u16).to_be_bytes());
        }
    });
}

/// Writes a DataRow of `count` values; `values` writes each with its length.
pub fn data_row(out: &mut Vec<u8>, count: usize, values: impl FnOnce(&mut Vec<u8>)) {
    message(out, b'D', |out| {
        out.extend_from_slice(&(count as u16).to_be_bytes());
        values(out);
    });
}

/// Writes ErrorResponse. `position` is a character of the client's text, from 1.
pub fn error_response(out: &mut Vec<u8>, report: &Report, position: Option<usize>) {
    message(out, b'E', |out| report_fields(out, report, position));
}

/// Writes NoticeResponse.
pub fn notice_response(out: &mut Vec<u8>, report: &Report, position: Option<usize>) {
    message(out, b'N', |out| report_fields(out, report, position));
}

fn report_fields(out: &mut Vec<u8>, report: &Report, position: Option<usize>) {
    let mut field = |kind: u8, text: &str| {
        out.push(kind);
        string(out, text);
    };
    field(b'S', report.severity.word());
    field(b'V', report.severity.word());
    field(b'C', report.state.code());
    field(b'M', &report.message);
    if let Some(detail) = &report.detail {
        field(b'D', detail);
    }
    if let Some(hint) = &report.hint {
        field(b'H', hint);
    }
    if let Some(position) = position {
        field(b'P', &position.to_string());
    }
    if let Some(table) = &report.table {
        field(b's', "public");
        field(b't', table);
    }
    if let Some(column) = &report.column {
        field(b'c', column);
    }
    if let Some(constraint) = &report.constraint {
        field(b'n', constraint);
    }
    out.push(0);
}

#[cfg(test)]
mod tests {
    use super::*;
    use crate::sqlstate::SqlState;

    #[test]
    fn writes_messages_as_the_protocol_lays_them_out() {
        let mut out = Vec::new();
        ready_for_query(&mut out, Status::Failed);
        assert_eq!(out, b"Z\0\0\0\x05E");
        out.clear();
        command_complete_of(&mut out, "SELECT", 12);
        assert_eq!(out, b"C\0\0\0\x0eSELECT 12\0");
        out.clear();
        parameter_status(&mut out, "a", "b");
        assert_eq!(out, b"S\0\0\0\x08a\0b\0");
        out.clear();
        let column = Column {
            name: "price".to_owned(),
            oid: 1700,
            size: -1,
            modifier: 524_294,
        };
        row_description(&mut out, &[column], |_| Format::Binary);
        assert_eq!(
            out,
            b"T\0\0\0\x1e\0\x01price\0\0\0\0\0\0\0\0\0\x06\xa4\xff\xff\0\x08\0\x06\0\x01"
        );
    }

    #[test]
    fn an_error_has_the_fields_that_are_known() {
        let report = Report::error(SqlState::CHECK_VIOLATION, "broken")
            .table("t")
            .constraint("c");
        let mut out = Vec::new();
        error_response(&mut out, &report, Some(7));
        assert_eq!(
            &out[5..],
            b"SERROR\0VERROR\0C23514\0Mbroken\0P7\0spublic\0tt\0nc\0\0"
        );
    }

    #[test]
    fn a_zero_byte_in_a_text_does_not_end_it() {
        let mut out = Vec::new();
        command_complete(&mut out, "a\0b");
        assert_eq!(out, b"C\0\0\0\x07ab\0");
    }
}
