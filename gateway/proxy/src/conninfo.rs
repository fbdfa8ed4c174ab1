//! The connection string of `--postgres`: what libpq calls conninfo, with its parameters of TLS.

use std::path::{Path, PathBuf};
use std::str::FromStr;

use tokio_postgres::Config;

use crate::tls::{BadFile, Connector, Mode};

/// Where PostgreSQL is, how the proxy connects, and who it is there.
#[derive(Clone, Debug)]
pub struct Conninfo {
    /// What `tokio-postgres` is to know: all parameters but these of TLS and keepalives.
    pub config: Config,
    /// `sslmode`.
    pub mode: Mode,
    /// `sslrootcert`.
    pub root: Option<PathBuf>,
    /// How the system asks after a server that says nothing. None: `keepalives=0`.
    pub keepalives: Option<Keepalives>,
}

/// How the system asks after a side of a connection that says nothing, by libpq's names.
#[derive(Clone, Copy, Debug, PartialEq, Eq)]
pub struct Keepalives {
    /// `keepalives_idle`: the seconds behind which it asks.
    pub idle: u32,
    /// `keepalives_interval`: the seconds behind which it asks again.
    pub interval: u32,
    /// `keepalives_count`: how many questions without an answer end the connection.
    pub count: u32,
}

impl Default for Keepalives {
    fn default() -> Self {
        Keepalives {
            idle: 30,
            interval: 10,
            count: 3,
        }
    }
}

/// Why a connection string cannot be used.
#[derive(Debug, thiserror::Error)]
pub enum BadConninfo {
    /// A parameter that does not exist, or has a value that it cannot have.
    #[error("{0}: {}", std::error::Error::source(.0).map(ToString::to_string).unwrap_or_default())]
    Parameter(#[from] tokio_postgres::Error),
    /// `sslmode` has another value.
    #[error("{0}")]
    Mode(#[from] crate::tls::BadMode),
    /// A quoted value has no end.
    #[error("a quoted value has no end")]
    Quote,
    /// A number of keepalives is none.
    #[error("{0} has a value that is no number")]
    Number(String),
    /// `sslcert` and `sslkey` would let every client in as the user of the certificate.
    #[error("{0} is not supported: every client would be who the proxy's certificate says")]
    Identity(String),
}

impl Conninfo {
    /// Returns TLS as the string asks for it. Without `sslrootcert` it takes `~/.postgresql/root.crt` if there is one, as
    /// libpq does.
    ///
    /// # Errors
    ///
    /// Fails if the root certificates cannot be read, or are needed and do not exist.
    pub fn connector(&self) -> Result<Connector, BadFile> {
        let usual = || {
            let home = PathBuf::from(std::env::var_os("HOME")?);
            Some(home.join(".postgresql/root.crt")).filter(|path| path.exists())
        };
        let root = self.root.clone().or_else(usual);
        Connector::new(self.mode, root.as_deref().map(Path::new))
    }
}

impl FromStr for Conninfo {
    type Err = BadConninfo;

    fn from_str(text: &str) -> Result<Conninfo, BadConninfo> {
        let is_url = ["postgres://", "postgresql://"]
            .iter()
            .any(|prefix| text.starts_with(prefix));
        let (mut mode, mut root) = (Mode::default(), None);
        let (mut asks, mut keepalives) = (true, Keepalives::default());
        let mut is_taken = |name: &str, value: &str| {
            let number = || -> Result<u32, BadConninfo> {
                let number = value.parse();
                number.map_err(|_| BadConninfo::Number(name.to_owned()))
            };
            match name {
                "sslmode" => mode = value.parse()?,
                "sslrootcert" => root = Some(PathBuf::from(value)),
                "keepalives" => asks = number()? != 0,
                "keepalives_idle" => keepalives.idle = number()?.max(1),
                "keepalives_interval" => keepalives.interval = number()?.max(1),
                "keepalives_count" => keepalives.count = number()?.max(1),
                "sslcert" | "sslkey" => return Err(BadConninfo::Identity(name.to_owned())),
                _ => return Ok(false),
            }
            Ok(true)
        };
        let rest = match is_url {
            true => rest_of_url(text, &mut is_taken)?,
            false => rest_of_pairs(text, &mut is_taken)?,
        };
        Ok(Conninfo {
            config: rest.parse()?,
            mode,
            root,
            keepalives: asks.then_some(keepalives),
        })
    }
}

/// Takes a parameter and returns whether it is one of the proxy's own.
type Takes<'a> = &'a mut dyn FnMut(&str, &str) -> Result<bool, BadConninfo>;

/// Returns a URL without the parameters that are taken.
fn rest_of_url(text: &str, takes: Takes<'_>) -> Result<String, BadConninfo> {
    let (place, parameters) = match text.split_once('?') {
        Some(parts) => parts,
        None => return Ok(text.to_owned()),
    };
    let mut rest = Vec::new();
    for parameter in parameters.split('&') {
        let (name, value) = parameter.split_once('=').unwrap_or((parameter, ""));
        if !takes(name, &decoded(value))? {
            rest.push(parameter);
        }
    }
    Ok(match rest.is_empty() {
        true => place.to_owned(),
        false => format!("{place}?{}", rest.join("&")),
    })
}

/// Decodes `%` and two hexadecimal digits. What is none stays.
fn decoded(text: &str) -> String {
    let mut bytes = Vec::with_capacity(text.len());
    let mut rest = text.as_bytes();
    while let [first, behind @ ..] = rest {
        let code = behind
            .get(..2)
            .and_then(|digits| std::str::from_utf8(digits).ok())
            .and_then(|digits| u8::from_str_radix(digits, 16).ok());
        match (first, code) {
            (b'%', Some(code)) => {
                bytes.push(code);
                rest = &behind[2..];
            }
            _ => {
                bytes.push(*first);
                rest = behind;
            }
        }
    }
    String::from_utf8_lossy(&bytes).into_owned()
}

/// Returns pairs `name = value` without those that are taken. Values are quoted as in libpq, or end at a space.
fn rest_of_pairs(text: &str, takes: Takes<'_>) -> Result<String, BadConninfo> {
    let mut rest = Vec::new();
    let mut input = text.trim_start();
    while !input.is_empty() {
        let (name, behind) = match input.split_once('=') {
            Some((name, behind)) => (name.trim_end(), behind.trim_start()),
            // tokio-postgres says what is wrong with it.
            None => {
                rest.push(input.to_owned());
                break;
            }
        };
        let (value, behind) = value(behind)?;
        if !takes(name, &value)? {
            let quoted = value.replace('\\', "\\\\").replace('\'', "\\'");
            rest.push(format!("{name}='{quoted}'"));
        }
        input = behind.trim_start();
    }
    Ok(rest.join(" "))
}

/// Splits a value off.
fn value(text: &str) -> Result<(String, &str), BadConninfo> {
    let quoted = text.strip_prefix('\'');
    let text = quoted.unwrap_or(text);
    let mut value = String::new();
    let mut characters = text.char_indices();
    while let Some((place, character)) = characters.next() {
        match character {
            '\'' if quoted.is_some() => return Ok((value, &text[place + 1..])),
            space if quoted.is_none() && space.is_ascii_whitespace() => {
                return Ok((value, &text[place..]))
            }
            '\\' => value.extend(characters.next().map(|(_, escaped)| escaped)),
            other => value.push(other),
        }
    }
    match quoted {
        Some(_) => Err(BadConninfo::Quote),
        None => Ok((value, "")),
    }
}

#[cfg(test)]
mod tests {
    use super::*;

    fn read(text: &str) -> Conninfo {
        text.parse().unwrap()
    }

    #[test]
    fn parameters_of_tls_are_taken_out() {
        let texts = [
            r"host=a,b port = 1,2 sslmode=verify-full password='it\'s \\ =' sslrootcert='/a b/root.crt' dbname=shop",
            "postgresql://a:1,b:2/shop?sslmode=verify-full&password=it's%20%5C%20%3D&sslrootcert=%2Fa%20b%2Froot.crt",
        ];
        for text in texts {
            let it = read(text);
            assert_eq!(it.mode, Mode::VerifyFull, "{}", text);
            assert_eq!(it.root, Some(PathBuf::from("/a b/root.crt")), "{}", text);
            assert_eq!(it.config.get_dbname(), Some("shop"));
            assert_eq!(it.config.get_ports(), [1, 2]);
            assert_eq!(it.config.get_hosts().len(), 2);
            assert_eq!(
                it.config.get_password(),
                Some(&br"it's \ ="[..]),
                "{}",
                text
            );
        }
    }

    #[test]
    fn tls_is_preferred_by_default() {
        for text in ["host=a", "postgres://a", "postgres://a/b?connect_timeout=3"] {
            let it = read(text);
            assert_eq!((it.mode, it.root), (Mode::Prefer, None));
        }
        assert_eq!(read("host=a sslmode=disable").mode, Mode::Disable);
    }

    #[test]
    fn what_cannot_be_used_is_refused() {
        let refused = [
            ("host=a sslmode=allow", "sslmode=allow is not one of"),
            ("host=a sslcert=x", "sslcert is not supported"),
            ("postgres://a?sslkey=x", "sslkey is not supported"),
            ("host='a", "no end"),
            ("host=a nothing=1", "nothing"),
            ("host", "EOF"),
        ];
        for (text, why) in refused {
            let error = text.parse::<Conninfo>().unwrap_err().to_string();
            assert!(error.contains(why), "{}: {}", text, error);
        }
    }

    #[test]
    fn roots_are_needed_to_verify() {
        let mut it = read("host=a sslmode=verify-ca sslrootcert=/does/not/exist");
        let error = it.connector().unwrap_err().to_string();
        assert!(error.contains("/does/not/exist"), "{}", error);
        it.root = Some(PathBuf::from("/dev/null"));
        let error = it.connector().unwrap_err().to_string();
        assert!(error.contains("no certificate"), "{}", error);
    }
}
