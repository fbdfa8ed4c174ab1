//! Messages of PostgreSQL's protocol in a stream of bytes, of either direction. What is too large to look at passes in parts.

use bytes::{Buf, Bytes, BytesMut};

/// The most bytes of a message that is handed out whole, its kind and length included.
pub const LARGEST_WHOLE: usize = 65_536;

/// The most bytes of a startup packet, as in PostgreSQL.
pub const LARGEST_STARTUP: usize = 10_000;

const CANCEL_REQUEST: u32 = 80_877_102;
const SSL_REQUEST: u32 = 80_877_103;
const GSS_ENCRYPTION_REQUEST: u32 = 80_877_104;

/// A length that no message has.
#[derive(Clone, Copy, Debug, PartialEq, Eq, thiserror::Error)]
#[error("a message has a length of {0}")]
pub struct BadLength(pub u32);

/// What comes next in a stream.
#[derive(Clone, Debug, PartialEq, Eq)]
pub enum Piece {
    /// A whole message: its kind, and all of its bytes.
    Message(u8, Bytes),
    /// Some bytes of a message that is larger than [`LARGEST_WHOLE`], and whether they are the first. These begin with its
    /// kind, and are at least so many.
    Part(Bytes, bool),
}

impl Piece {
    /// Returns its bytes.
    pub fn bytes(&self) -> &[u8] {
        match self {
            Piece::Message(_, bytes) | Piece::Part(bytes, _) => bytes,
        }
    }
}

/// Cuts a stream behind its startup into messages.
#[derive(Debug, Default)]
pub struct Frames {
    /// The bytes of a large message that are still to come.
    rest: usize,
}

impl Frames {
    /// Returns whether the message whose part came last is not whole.
    pub fn is_amid(&self) -> bool {
        self.rest > 0
    }

    /// Takes the next piece out of `input`, or nothing if more bytes have to come.
    pub fn next(&mut self, input: &mut BytesMut) -> Result<Option<Piece>, BadLength> {
        let is_first = self.rest == 0;
        if is_first {
            let (kind, length) = match (input.first(), input.get(1..5)) {
                (Some(&kind), Some(mut length)) => (kind, length.get_u32()),
                _ => return Ok(None),
            };
            if !(4..=i32::MAX as u32).contains(&length) {
                return Err(BadLength(length));
            }
            let whole = 1 + length as usize;
            if whole <= LARGEST_WHOLE {
                if input.len() < whole {
                    return Ok(None);
                }
                return Ok(Some(Piece::Message(kind, input.split_to(whole).freeze())));
            }
            if input.len() < LARGEST_WHOLE {
                return Ok(None);
            }
            self.rest = whole;
        }
        let taken = self.rest.min(input.len());
        if taken == 0 {
            return Ok(None);
        }
        self.rest -= taken;
        let bytes = input.split_to(taken).freeze();
        Ok(Some(Piece::Part(bytes, is_first)))
    }
}

/// Returns whether a client has sent a Sync next, with nothing in front of it but what runs nothing.
pub fn has_sync(mut input: &[u8]) -> bool {
    while let (Some(b'C' | b'H'), Some(mut length)) = (input.first(), input.get(1..5)) {
        let whole = 1 + length.get_u32() as usize;
        input = input.get(whole..).unwrap_or_default();
    }
    input.first() == Some(&b'S')
}

/// What a client's first packets are.
#[derive(Clone, Debug, PartialEq, Eq)]
pub enum Startup {
    /// SSLRequest.
    Tls,
    /// GSSENCRequest.
    Gss,
    /// CancelRequest, whole.
    Cancel(Bytes),
    /// StartupMessage, whole.
    Message(Bytes),
}

/// Takes a startup packet out of `input`, or nothing if more bytes have to come.
pub fn startup(input: &mut BytesMut) -> Result<Option<Startup>, BadLength> {
    let length = match input.get(..4) {
        Some(mut length) => length.get_u32(),
        None => return Ok(None),
    };
    if !(8..=LARGEST_STARTUP).contains(&(length as usize)) {
        return Err(BadLength(length));
    }
    if input.len() < length as usize {
        return Ok(None);
    }
    let packet = input.split_to(length as usize).freeze();
    Ok(Some(match (&packet[4..]).get_u32() {
        SSL_REQUEST => Startup::Tls,
        GSS_ENCRYPTION_REQUEST => Startup::Gss,
        CANCEL_REQUEST => Startup::Cancel(packet),
        _ => Startup::Message(packet),
    }))
}

#[cfg(test)]
mod tests {
    use super::*;

    fn message(kind: u8, body: usize) -> Vec<u8> {
        let mut bytes = vec![kind];
        bytes.extend((4 + body as u32).to_be_bytes());
        bytes.extend((0..body).map(|it| it as u8));
        bytes
    }

    #[test]
    fn any_cut_of_a_stream_gives_the_same_messages() {
        let sizes = [0, 1, 300, LARGEST_WHOLE - 5, LARGEST_WHOLE - 4, 200_000, 0];
        let messages: Vec<Vec<u8>> = sizes.iter().map(|&size| message(b'd', size)).collect();
        let stream = messages.concat();
        for step in [1, 2, 3, 5, 7, 1_000, 65_537, stream.len()] {
            let (mut frames, mut input) = (Frames::default(), BytesMut::new());
            let (mut passed, mut whole) = (Vec::new(), Vec::new());
            for chunk in stream.chunks(step) {
                input.extend_from_slice(chunk);
                while let Some(piece) = frames.next(&mut input).unwrap() {
                    passed.extend_from_slice(piece.bytes());
                    match piece {
                        Piece::Message(kind, bytes) => {
                            assert_eq!(kind, b'd');
                            whole.push(bytes.len());
                        }
                        Piece::Part(bytes, true) => assert!(bytes.len() >= LARGEST_WHOLE),
                        Piece::Part(..) => {}
                    }
                }
            }
            assert!(passed == stream && input.is_empty(), "in steps of {}", step);
            assert_eq!(whole, [5, 6, 305, LARGEST_WHOLE, 5], "in steps of {}", step);
        }
    }

    #[test]
    fn a_sync_is_seen_behind_what_runs_nothing() {
        let sync = message(b'S', 0);
        for (in_front, found) in [
            (&b""[..], true),
            (b"C\0\0\0\x06P\0H\0\0\0\x04", true),
            (b"E\0\0\0\x09\0\0\0\0\0", false),
            (b"C\0\0\0\xff", false),
            (b"C\0\0", false),
        ] {
            assert_eq!(has_sync(&[in_front, &sync].concat()), found);
        }
        assert!(!has_sync(b""));
    }

    #[test]
    fn a_length_below_four_or_above_a_gigabyte_is_an_error() {
        for length in [0u32, 3, 1 << 31, u32::MAX] {
            let mut input = BytesMut::from(&[&b"Q"[..], &length.to_be_bytes()].concat()[..]);
            assert_eq!(Frames::default().next(&mut input), Err(BadLength(length)));
        }
    }

    #[test]
    fn startup_packets_are_told_apart() {
        let packet = |code: u32, more: &[u8]| {
            let length = (8 + more.len() as u32).to_be_bytes();
            BytesMut::from(&[&length[..], &code.to_be_bytes(), more].concat()[..])
        };
        let whole = |code, more| startup(&mut packet(code, more)).unwrap().unwrap();
        assert_eq!(whole(SSL_REQUEST, b""), Startup::Tls);
        assert_eq!(whole(GSS_ENCRYPTION_REQUEST, b""), Startup::Gss);
        assert!(
            matches!(whole(CANCEL_REQUEST, b"12345678"), Startup::Cancel(it) if it.len() == 16)
        );
        assert!(matches!(whole(196_608, b"user\0a\0\0"), Startup::Message(it) if it.len() == 16));
        let mut cut = packet(196_608, b"user\0a\0\0").split_to(15);
        assert_eq!(startup(&mut cut), Ok(None));
        let mut short = BytesMut::from(&7u32.to_be_bytes()[..]);
        assert_eq!(startup(&mut short), Err(BadLength(7)));
        let mut long = BytesMut::from(&10_001u32.to_be_bytes()[..]);
        assert_eq!(startup(&mut long), Err(BadLength(10_001)));
    }
}
