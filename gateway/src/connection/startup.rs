//! The startup of a connection.

use crate::connection::{Connection, Phase};
use crate::sqlstate::{Failure, Report, SqlState};
use crate::variables::Variables;
use crate::wire::backend;
use crate::wire::frontend::{self, Frame};

/// What a client has asked before its startup.
#[derive(Clone, Copy, Debug, Default)]
pub struct Startup {
    ssl_refused: bool,
    gss_refused: bool,
}

/// The names that a StartupMessage gives.
#[derive(Debug, Default)]
struct Names<'a> {
    user: &'a str,
    database: &'a str,
    options: &'a str,
    replication: &'a str,
    settings: Vec<(&'a str, &'a str)>,
    /// Options of the protocol, of which none is known.
    unknown: Vec<&'a str>,
}

impl Connection {
    /// Reads a packet, if all of it is there. Returns whether it was.
    pub(super) fn startup_packet(&mut self) -> bool {
        let input = std::mem::take(&mut self.input);
        match frontend::startup(input.rest()) {
            Frame::Incomplete => {
                self.input = input;
                false
            }
            Frame::BadLength => {
                let text = "invalid length of startup packet";
                self.die(Report::fatal(SqlState::PROTOCOL_VIOLATION, text));
                false
            }
            Frame::Whole(packet, length) => {
                self.serve_startup(packet);
                if !self.is_closing() {
                    self.input = input.take(length);
                }
                true
            }
        }
    }

    fn serve_startup(&mut self, packet: frontend::Startup<'_>) {
        let asked = match self.phase {
            Phase::Startup(asked) => asked,
            _ => return,
        };
        match packet {
            frontend::Startup::Cancel => self.close(),
            frontend::Startup::Ssl if !asked.ssl_refused => {
                self.output.buffer().push(b'N');
                self.phase = Phase::Startup(Startup {
                    ssl_refused: true,
                    ..asked
                });
            }
            frontend::Startup::GssEncryption if !asked.gss_refused => {
                self.output.buffer().push(b'N');
                self.phase = Phase::Startup(Startup {
                    gss_refused: true,
                    ..asked
                });
            }
            frontend::Startup::Ssl => self.unknown_protocol(1234, 5679),
            frontend::Startup::GssEncryption => self.unknown_protocol(1234, 5680),
            frontend::Startup::Message {
                major: 3,
                minor,
                parameters,
            } => match self.begin_session(minor, parameters) {
                Ok(()) => {}
                Err(report) => self.die(report),
            },
            frontend::Startup::Message { major, minor, .. } => self.unknown_protocol(major, minor),
        }
    }

    fn unknown_protocol(&mut self, major: u16, minor: u16) {
        let text = format!(
            "unsupported frontend protocol {}.{}: server supports 3.0 to 3.0",
            major, minor
        );
        self.die(Report::fatal(SqlState::FEATURE_NOT_SUPPORTED, text));
    }

    /// Takes the names of a StartupMessage, and asks whether one more may connect.
    fn begin_session(&mut self, minor: u16, parameters: &[u8]) -> Result<(), Failure> {
        let names = names(parameters)?;
        if minor > 0 || !names.unknown.is_empty() {
            backend::negotiate_protocol_version(self.output.buffer(), &names.unknown);
        }
        if names.user.is_empty() {
            return Err(Report::fatal(
                SqlState::INVALID_AUTHORIZATION,
                "no PostgreSQL user name specified in startup packet",
            ));
        }
        if !matches!(names.replication, "" | "false" | "off" | "no" | "0") {
            return Err(fatal(Report::missing("replication")));
        }
        // Nobody has to prove who they are. Faults in what follows come behind this, as in PostgreSQL.
        backend::authentication_ok(self.output.buffer());
        let database = if names.database.is_empty() {
            names.user
        } else {
            names.database
        };
        let place = self
            .settings
            .databases
            .iter()
            .position(|name| name == database);
        let place = place.ok_or_else(|| {
            let text = format!("database \"{}\" does not exist", database);
            Report::fatal(SqlState::UNDEFINED_DATABASE, text)
        })?;
        let limits = self.settings.limits;
        self.variables = Variables::new(&self.settings.version, names.user, limits);
        for (name, value) in &names.settings {
            self.variables
                .set(name, Some(value), false)
                .map_err(fatal)?;
        }
        for (name, value) in options(names.options)? {
            self.variables
                .set(&name, Some(&value), false)
                .map_err(fatal)?;
        }
        self.variables.begin();
        self.user = names.user.to_owned();
        self.database = database.to_owned();
        self.definitions = self
            .settings
            .definitions
            .get(place)
            .cloned()
            .unwrap_or_default();
        self.requests.open(place);
        self.phase = Phase::Opening;
        Ok(())
    }

    /// Tells the client that it is connected.
    pub(super) fn serve(&mut self) {
        self.phase = Phase::Serving;
        let out = self.output.buffer();
        for (name, value) in self.variables.reported() {
            backend::parameter_status(out, name, value);
        }
        backend::backend_key_data(out, self.process_id);
        self.ready();
        self.advance();
    }
}

fn fatal(mut report: Failure) -> Failure {
    report.severity = crate::sqlstate::Severity::Fatal;
    report
}

fn names(parameters: &[u8]) -> Result<Names<'_>, Failure> {
    let parameters = frontend::startup_parameters(parameters).ok_or_else(|| {
        let text = "invalid startup packet layout: expected terminator as last byte";
        Report::fatal(SqlState::PROTOCOL_VIOLATION, text)
    })?;
    let mut names = Names::default();
    for (name, value) in parameters {
        match name {
            "user" => names.user = value,
            "database" => names.database = value,
            "options" => names.options = value,
            "replication" => names.replication = value,
            _ if name.starts_with("_pq_.") => names.unknown.push(name),
            _ => names.settings.push((name, value)),
        }
    }
    Ok(names)
}

/// Reads the settings of command line options: `-c name=value` and `--name=value`.
fn options(text: &str) -> Result<Vec<(String, String)>, Failure> {
    let mut settings = Vec::new();
    let mut words = words(text).into_iter();
    while let Some(word) = words.next() {
        let setting = if word == "-c" {
            words.next()
        } else if let Some(setting) = word.strip_prefix("--") {
            Some(setting.to_owned())
        } else {
            word.strip_prefix("-c").map(str::to_owned)
        };
        let bad = || {
            let text = format!("invalid command-line argument for server process: {}", word);
            Report::fatal(SqlState::SYNTAX_ERROR, text)
        };
        let setting = setting.ok_or_else(bad)?;
        let (name, value) = setting.split_once('=').ok_or_else(bad)?;
        settings.push((name.replace('-', "_"), value.to_owned()));
    }
    Ok(settings)
}

/// Cuts options at blanks; a backslash keeps the character behind it.
fn words(text: &str) -> Vec<String> {
    let mut words = vec![String::new()];
    let mut characters = text.chars();
    while let Some(character) = characters.next() {
        let kept = match character {
            '\\' => characters.next(),
            blank if blank.is_ascii_whitespace() => None,
            other => Some(other),
        };
        match (kept, words.last_mut()) {
            (Some(kept), Some(word)) => word.push(kept),
            _ => words.push(String::new()),
        }
    }
    words.retain(|word| !word.is_empty());
    words
}

#[cfg(test)]
mod tests {
    use super::*;

    #[test]
    fn reads_options_as_postgresql_does() {
        let pair = |name: &str, value: &str| (name.to_owned(), value.to_owned());
        assert_eq!(
            options("-c statement_timeout=5s --lock-timeout=1 -cgeqo=off").unwrap(),
            [
                pair("statement_timeout", "5s"),
                pair("lock_timeout", "1"),
                pair("geqo", "off")
            ]
        );
        assert_eq!(
            options("-c application_name=my\\ shop\\\\x").unwrap(),
            [pair("application_name", "my shop\\x")]
        );
        assert_eq!(options("  ").unwrap(), []);
        assert_eq!(options("-d 5").unwrap_err().state, SqlState::SYNTAX_ERROR);
        assert_eq!(options("-c").unwrap_err().state, SqlState::SYNTAX_ERROR);
    }
}
