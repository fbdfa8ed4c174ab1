//! Messages that a client sends.

use postgres_protocol::Oid;

/// The most bytes of a message, its length word included.
pub const LARGEST_MESSAGE: usize = 1 << 20;

/// The most bytes of a startup packet, as in PostgreSQL.
pub const LARGEST_STARTUP: usize = 10_000;

const CANCEL_REQUEST: u32 = 80_877_102;
const SSL_REQUEST: u32 = 80_877_103;
const GSS_ENCRYPTION_REQUEST: u32 = 80_877_104;

/// What the first bytes of a stream are.
#[derive(Clone, Copy, Debug, PartialEq, Eq)]
pub enum Frame<T> {
    /// More bytes have to come.
    Incomplete,
    /// A length that no message has.
    BadLength,
    /// A whole message, and how many bytes it takes.
    Whole(T, usize),
}

/// A packet without a kind, as a client sends it until its startup is done.
#[derive(Clone, Copy, Debug, PartialEq, Eq)]
pub enum Startup<'a> {
    /// SSLRequest.
    Ssl,
    /// GSSENCRequest.
    GssEncryption,
    /// CancelRequest.
    Cancel,
    /// StartupMessage: its protocol's major and minor number, and its names and values.
    Message {
        /// The major number.
        major: u16,
        /// The minor number.
        minor: u16,
        /// Names and values, each with its zero byte.
        parameters: &'a [u8],
    },
}

/// Reads the packet that `bytes` begin with.
pub fn startup(bytes: &[u8]) -> Frame<Startup<'_>> {
    let length = match bytes.get(..4).map(be_u32) {
        Some(length) => length as usize,
        None => return Frame::Incomplete,
    };
    if !(8..=LARGEST_STARTUP).contains(&length) {
        return Frame::BadLength;
    }
    let packet = match bytes.get(4..length) {
        Some(packet) => packet,
        None => return Frame::Incomplete,
    };
    let (code, parameters) = packet.split_at(4);
    let startup = match be_u32(code) {
        CANCEL_REQUEST => Startup::Cancel,
        SSL_REQUEST => Startup::Ssl,
        GSS_ENCRYPTION_REQUEST => Startup::GssEncryption,
        version => Startup::Message {
            major: (version >> 16) as u16,
            minor: version as u16,
            parameters,
        },
    };
    Frame::Whole(startup, length)
}

/// Reads the names and values of a StartupMessage. None: they are laid out wrongly.
pub fn startup_parameters(mut bytes: &[u8]) -> Option<Vec<(&str, &str)>> {
    let mut parameters = Vec::new();
    loop {
        let name = string(&mut bytes)?;
        if name.is_empty() {
            return if bytes.is_empty() {
                Some(parameters)
            } else {
                None
            };
        }
        parameters.push((name, string(&mut bytes)?));
    }
}

/// A message with a kind: the kind, and the bytes behind the length.
#[derive(Clone, Copy, Debug, PartialEq, Eq)]
pub struct Raw<'a> {
    /// The first byte.
    pub kind: u8,
    /// What is behind the length.
    pub body: &'a [u8],
}

/// Reads the message that `bytes` begin with.
pub fn raw(bytes: &[u8]) -> Frame<Raw<'_>> {
    let (kind, length) = match (bytes.first(), bytes.get(1..5)) {
        (Some(&kind), Some(length)) => (kind, be_u32(length) as usize),
        _ => return Frame::Incomplete,
    };
    if !(4..=LARGEST_MESSAGE).contains(&length) {
        return Frame::BadLength;
    }
    match bytes.get(5..1 + length) {
        Some(body) => Frame::Whole(Raw { kind, body }, 1 + length),
        None => Frame::Incomplete,
    }
}

/// What a Describe or a Close names.
#[derive(Clone, Copy, Debug, PartialEq, Eq)]
pub enum Target<'a> {
    /// A prepared statement.
    Statement(&'a str),
    /// A portal.
    Portal(&'a str),
}

/// A message.
#[derive(Clone, Debug, PartialEq, Eq)]
pub enum Message<'a> {
    /// Query. Its text, which may not be UTF-8.
    Query(&'a [u8]),
    /// Parse.
    Parse(Parse<'a>),
    /// Bind.
    Bind(Bind<'a>),
    /// Describe.
    Describe(Target<'a>),
    /// Execute.
    Execute {
        /// The portal.
        portal: &'a str,
        /// The most rows; 0 for all.
        limit: u32,
    },
    /// Close.
    Close(Target<'a>),
    /// Flush.
    Flush,
    /// Sync.
    Sync,
    /// Terminate.
    Terminate,
    /// FunctionCall.
    FunctionCall,
    /// CopyData, CopyDone, CopyFail.
    Copy,
}

/// What a Parse says.
#[derive(Clone, Debug, PartialEq, Eq)]
pub struct Parse<'a> {
    /// The name of the prepared statement.
    pub name: &'a str,
    /// Its text, which may not be UTF-8.
    pub text: &'a [u8],
    /// The types of its parameters, as far as they are told; 0 for one that isn't.
    pub types: Vec<Oid>,
}

/// What a Bind says.
#[derive(Clone, Debug, PartialEq, Eq)]
pub struct Bind<'a> {
    /// The name of the portal.
    pub portal: &'a str,
    /// The name of the prepared statement.
    pub statement: &'a str,
    /// The formats of the values: none, one for all, or one for each.
    pub formats: Vec<i16>,
    /// The values. None: NULL.
    pub values: Vec<Option<&'a [u8]>>,
    /// The formats of the result's columns: none, one for all, or one for each.
    pub result_formats: Vec<i16>,
}

/// Why a message isn't understood.
#[derive(Clone, Copy, Debug, PartialEq, Eq)]
pub enum Fault {
    /// No message has this kind.
    UnknownKind(u8),
    /// Its bytes are laid out wrongly.
    Layout,
}

/// Reads a message.
///
/// # Errors
///
/// Fails if its kind isn't known, or if its bytes aren't laid out as its kind asks.
pub fn message(raw: Raw<'_>) -> Result<Message<'_>, Fault> {
    let mut bytes = raw.body;
    let message = match raw.kind {
        b'Q' => Message::Query(bytes_to_zero(&mut bytes).ok_or(Fault::Layout)?),
        b'P' => Message::Parse(parse(&mut bytes).ok_or(Fault::Layout)?),
        b'B' => Message::Bind(bind(&mut bytes).ok_or(Fault::Layout)?),
        b'D' => Message::Describe(target(&mut bytes).ok_or(Fault::Layout)?),
        b'C' => Message::Close(target(&mut bytes).ok_or(Fault::Layout)?),
        b'E' => execute(&mut bytes).ok_or(Fault::Layout)?,
        b'H' => Message::Flush,
        b'S' => Message::Sync,
        b'X' => return Ok(Message::Terminate),
        b'F' => return Ok(Message::FunctionCall),
        b'd' | b'c' | b'f' => return Ok(Message::Copy),
        kind => return Err(Fault::UnknownKind(kind)),
    };
    if bytes.is_empty() {
        Ok(message)
    } else {
        Err(Fault::Layout)
    }
}

fn parse<'a>(bytes: &mut &'a [u8]) -> Option<Parse<'a>> {
    let name = string(bytes)?;
    let text = bytes_to_zero(bytes)?;
    let count = count(bytes)?;
    let mut types = Vec::with_capacity(count.min(bytes.len() / 4));
    for _ in 0..count {
        types.push(be_u32(take(bytes, 4)?));
    }
    Some(Parse { name, text, types })
}

fn bind<'a>(bytes: &mut &'a [u8]) -> Option<Bind<'a>> {
    let portal = string(bytes)?;
    let statement = string(bytes)?;
    let formats = formats(bytes)?;
    let count = count(bytes)?;
    let mut values = Vec::with_capacity(count.min(bytes.len() / 4));
    for _ in 0..count {
        let length = be_u32(take(bytes, 4)?) as i32;
        values.push(match length {
            -1 => None,
            length => Some(take(bytes, usize::try_from(length).ok()?)?),
        });
    }
    let result_formats = self::formats(bytes)?;
    Some(Bind {
        portal,
        statement,
        formats,
        values,
        result_formats,
    })
}

fn formats(bytes: &mut &[u8]) -> Option<Vec<i16>> {
    let count = count(bytes)?;
    let mut formats = Vec::with_capacity(count.min(bytes.len() / 2));
    for _ in 0..count {
        formats.push(be_u16(take(bytes, 2)?) as i16);
    }
    Some(formats)
}

fn execute<'a>(bytes: &mut &'a [u8]) -> Option<Message<'a>> {
    let portal = string(bytes)?;
    // A number below zero asks for all rows, as in PostgreSQL.
    let limit = be_u32(take(bytes, 4)?) as i32;
    Some(Message::Execute {
        portal,
        limit: u32::try_from(limit).unwrap_or(0),
    })
}

fn target<'a>(bytes: &mut &'a [u8]) -> Option<Target<'a>> {
    match take(bytes, 1)? {
        b"S" => Some(Target::Statement(string(bytes)?)),
        b"P" => Some(Target::Portal(string(bytes)?)),
        _ => None,
    }
}

fn count(bytes: &mut &[u8]) -> Option<usize> {
    usize::try_from(be_u16(take(bytes, 2)?) as i16).ok()
}

fn string<'a>(bytes: &mut &'a [u8]) -> Option<&'a str> {
    std::str::from_utf8(bytes_to_zero(bytes)?).ok()
}

fn bytes_to_zero<'a>(bytes: &mut &'a [u8]) -> Option<&'a [u8]> {
    let end = bytes.iter().position(|&byte| byte == 0)?;
    let string = &bytes[..end];
    *bytes = &bytes[end + 1..];
    Some(string)
}

fn take<'a>(bytes: &mut &'a [u8], count: usize) -> Option<&'a [u8]> {
    let taken = bytes.get(..count)?;
    *bytes = &bytes[count..];
    Some(taken)
}

fn be_u32(bytes: &[u8]) -> u32 {
    bytes
        .iter()
        .fold(0, |number, &byte| number << 8 | u32::from(byte))
}

fn be_u16(bytes: &[u8]) -> u16 {
    bytes
        .iter()
        .fold(0, |number, &byte| number << 8 | u16::from(byte))
}

#[cfg(test)]
mod tests {
    use super::*;
    use proptest::prelude::*;

    #[test]
    fn a_message_is_whole_or_incomplete() {
        let bytes = b"Q\0\0\0\x0dSELECT 1\0S\0\0\0\x04";
        for length in 0..14 {
            assert_eq!(raw(&bytes[..length]), Frame::Incomplete);
        }
        let body = b"SELECT 1\0";
        assert_eq!(raw(bytes), Frame::Whole(Raw { kind: b'Q', body }, 14));
        assert_eq!(raw(b"Q\0\0\0\x03"), Frame::BadLength);
        assert_eq!(raw(b"Q\xff\xff\xff\xff"), Frame::BadLength);
        assert_eq!(raw(b"Q\0\x10\0\x01"), Frame::BadLength);
        assert_eq!(raw(b"Q\0\x10\0\0"), Frame::Incomplete);
    }

    #[test]
    fn reads_a_bind() {
        let body = b"p\0s\0\0\x01\0\x01\0\x02\0\0\0\x01x\xff\xff\xff\xff\0\x02\0\0\0\x01";
        assert_eq!(
            message(Raw { kind: b'B', body }),
            Ok(Message::Bind(Bind {
                portal: "p",
                statement: "s",
                formats: vec![1],
                values: vec![Some(b"x"), None],
                result_formats: vec![0, 1],
            }))
        );
        for length in 0..body.len() {
            let body = &body[..length];
            assert_eq!(message(Raw { kind: b'B', body }), Err(Fault::Layout));
        }
    }

    #[test]
    fn reads_parse_describe_execute_and_close() {
        assert_eq!(
            message(Raw {
                kind: b'P',
                body: b"s\0SELECT\0\0\x02\0\0\0\x14\0\0\0\0"
            }),
            Ok(Message::Parse(Parse {
                name: "s",
                text: b"SELECT",
                types: vec![20, 0]
            }))
        );
        assert_eq!(
            message(Raw {
                kind: b'D',
                body: b"Pp\0"
            }),
            Ok(Message::Describe(Target::Portal("p")))
        );
        assert_eq!(
            message(Raw {
                kind: b'C',
                body: b"S\0"
            }),
            Ok(Message::Close(Target::Statement("")))
        );
        assert_eq!(
            message(Raw {
                kind: b'E',
                body: b"\0\xff\xff\xff\xff"
            }),
            Ok(Message::Execute {
                portal: "",
                limit: 0
            })
        );
        assert_eq!(
            message(Raw {
                kind: b'D',
                body: b"Xp\0"
            }),
            Err(Fault::Layout)
        );
        assert_eq!(
            message(Raw {
                kind: b'S',
                body: b"x"
            }),
            Err(Fault::Layout)
        );
        assert_eq!(
            message(Raw {
                kind: b'?',
                body: b""
            }),
            Err(Fault::UnknownKind(b'?'))
        );
    }

    #[test]
    fn reads_startup_packets() {
        assert_eq!(
            startup(b"\0\0\0\x08\x04\xd2\x16\x2f"),
            Frame::Whole(Startup::Ssl, 8)
        );
        assert_eq!(
            startup(b"\0\0\0\x08\x04\xd2\x16\x30"),
            Frame::Whole(Startup::GssEncryption, 8)
        );
        let cancel = b"\0\0\0\x10\x04\xd2\x16\x2e\0\0\0\x01\0\0\0\x02";
        assert_eq!(startup(cancel), Frame::Whole(Startup::Cancel, 16));
        assert_eq!(startup(b"\0\0\0\x07"), Frame::BadLength);
        assert_eq!(startup(b"\0\0\x27\x11"), Frame::BadLength);
        assert_eq!(startup(b"\0\0\0\x09\0\x03\0\0"), Frame::Incomplete);
        assert_eq!(
            startup_parameters(b"user\0ada\0\0"),
            Some(vec![("user", "ada")])
        );
        assert_eq!(startup_parameters(b"user\0ada\0"), None);
        assert_eq!(startup_parameters(b"user\0\0x"), None);
    }

    proptest! {
        #[test]
        fn any_bytes_are_read_or_refused(bytes in prop::collection::vec(any::<u8>(), 0..200)) {
            let _ = startup(&bytes);
            let _ = startup_parameters(&bytes);
            for kind in 0..=255 {
                if let Ok(Message::Bind(bind)) = message(Raw { kind, body: &bytes }) {
                    prop_assert!(bind.values.len() * 4 <= bytes.len());
                }
            }
        }

        #[test]
        fn a_message_is_read_the_same_whatever_is_behind_it(
            kind in any::<u8>(),
            body in prop::collection::vec(any::<u8>(), 0..50),
            behind in prop::collection::vec(any::<u8>(), 0..50),
        ) {
            let mut bytes = vec![kind];
            bytes.extend_from_slice(&(body.len() as u32 + 4).to_be_bytes());
            bytes.extend_from_slice(&body);
            let length = bytes.len();
            bytes.extend_from_slice(&behind);
            prop_assert_eq!(raw(&bytes), Frame::Whole(Raw { kind, body: &body }, length));
            for cut in 0..length {
                prop_assert_eq!(raw(&bytes[..cut]), Frame::Incomplete);
            }
        }
    }
}
