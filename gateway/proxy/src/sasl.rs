//! Authentication by SCRAM through the proxy (RFC 5802, RFC 7677).
//!
//! SCRAM-SHA-256-PLUS binds it to the certificate that the client sees. That is the proxy's, and PostgreSQL expects its own.
//! So the proxy passes this mechanism on only if both are the same, and takes it out of PostgreSQL's list otherwise.

/// The kind of a message of authentication, and the code of AuthenticationSASL.
const AUTHENTICATION: u8 = b'R';
const SASL: [u8; 4] = 10u32.to_be_bytes();

/// The mechanism that binds.
const BINDING: &[u8] = b"SCRAM-SHA-256-PLUS";

/// Returns PostgreSQL's message without the mechanism that binds. None: the message does not offer it.
pub fn without_binding(message: &[u8]) -> Option<Vec<u8>> {
    let (head, list) = (message.get(..9)?, message.get(9..)?);
    if head[0] != AUTHENTICATION || head[5..] != SASL {
        return None;
    }
    let names: Vec<&[u8]> = list.split(|&byte| byte == 0).collect();
    if !names.contains(&BINDING) {
        return None;
    }
    let rest: Vec<&[u8]> = names.into_iter().filter(|name| *name != BINDING).collect();
    let rest = rest.join(&0);
    let length = u32::try_from(8 + rest.len()).ok()?;
    Some([&[AUTHENTICATION], &length.to_be_bytes()[..], &SASL, &rest].concat())
}

/// Returns whether PostgreSQL's message is AuthenticationOk.
pub fn is_ok(message: &[u8]) -> bool {
    message == b"R\0\0\0\x08\0\0\0\0"
}

/// Returns whether PostgreSQL's message asks who the client is: for a password, or one of the exchanges by GSSAPI, SSPI and SASL.
pub fn asks(message: &[u8]) -> bool {
    matches!(
        message,
        [AUTHENTICATION, _, _, _, _, 0, 0, 0, 3 | 5 | 7 | 9 | 10, ..]
    )
}

/// Returns whether PostgreSQL waits for an answer to its message: it asks, or goes on with an exchange.
pub fn waits(message: &[u8]) -> bool {
    asks(message) || matches!(message, [AUTHENTICATION, _, _, _, _, 0, 0, 0, 8 | 11, ..])
}

/// Returns whether a client's SASLInitialResponse says that the client could bind and believes that the server cannot: the
/// flag `y` of RFC 5802. PostgreSQL refuses it over TLS, since somebody between may have changed its list, as the proxy has.
pub fn misses_binding(message: &[u8]) -> bool {
    let body = match message {
        [b'p', _, _, _, _, body @ ..] => body,
        _ => return false,
    };
    let behind = match body.iter().position(|&byte| byte == 0) {
        Some(end) => &body[end + 1..],
        None => return false,
    };
    matches!(behind, [_, _, _, _, b'y', b',', ..])
}

#[cfg(test)]
mod tests {
    use super::*;

    fn offer(names: &[&str]) -> Vec<u8> {
        let list: Vec<u8> = names
            .iter()
            .flat_map(|name| name.bytes().chain([0]))
            .chain([0])
            .collect();
        let length = (8 + list.len() as u32).to_be_bytes();
        [&b"R"[..], &length, &[0, 0, 0, 10], &list].concat()
    }

    #[test]
    fn the_binding_mechanism_is_taken_out() {
        let both = offer(&["SCRAM-SHA-256-PLUS", "SCRAM-SHA-256"]);
        assert_eq!(without_binding(&both), Some(offer(&["SCRAM-SHA-256"])));
        assert_eq!(without_binding(&offer(&["SCRAM-SHA-256"])), None);
        assert_eq!(without_binding(b"R\0\0\0\x08\0\0\0\0"), None);
        assert!(asks(&both) && asks(b"R\0\0\0\x08\0\0\0\x03") && !asks(b"R\0\0\0\x08\0\0\0\0"));
        assert!(is_ok(b"R\0\0\0\x08\0\0\0\0") && !is_ok(&both));
        let (goes_on, is_final) = (b"R\0\0\0\x0a\0\0\0\x0br=", b"R\0\0\0\x0a\0\0\0\x0cv=");
        assert!(waits(&both) && waits(goes_on) && !asks(goes_on) && !waits(is_final));
        assert_eq!(without_binding(b"E\0\0\0\x08\0\0\0\x0a"), None);
        assert_eq!(without_binding(b"R"), None);
    }

    #[test]
    fn a_client_that_misses_it_is_seen() {
        let first = |flag: &str| {
            let body = [b"SCRAM-SHA-256\0\0\0\0\x20", flag.as_bytes(), b"n=,r=abc"].concat();
            let length = (4 + body.len() as u32).to_be_bytes();
            [&b"p"[..], &length, &body].concat()
        };
        assert!(misses_binding(&first("y,,")));
        assert!(!misses_binding(&first("n,,")));
        assert!(!misses_binding(&first("p=tls-server-end-point,,")));
        assert!(!misses_binding(b"p\0\0\0\x08pw\0\0"));
        assert!(!misses_binding(b""));
    }
}
