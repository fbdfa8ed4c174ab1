//! The settings of a session: SET, RESET and SHOW.

use std::rc::Rc;
use std::time::Duration;

use crate::catalog::SettingRow;
use crate::sqlstate::{Failure, Report, SqlState};

/// What values a setting takes.
#[derive(Clone, Copy, Debug, PartialEq, Eq)]
enum Domain {
    /// Any text.
    Text,
    /// on, off and their other words.
    Bool,
    /// A whole number.
    Integer,
    /// A time, in milliseconds where no unit is written.
    Milliseconds,
    /// UTF8, or SQL_ASCII, which is taken without a change.
    Encoding,
    /// A level of messages.
    Messages,
    /// A level of isolation, of which there is one.
    Isolation,
    /// A style of dates, of which ISO is served.
    DateStyle,
    /// on alone.
    On,
    /// Fixed when the session begins.
    Fixed,
}

impl Domain {
    /// Returns the word that pg_settings has for it.
    fn kind(self) -> &'static str {
        match self {
            Domain::Bool | Domain::On => "bool",
            Domain::Integer | Domain::Milliseconds => "integer",
            Domain::Messages | Domain::Isolation => "enum",
            Domain::Text | Domain::Encoding | Domain::DateStyle | Domain::Fixed => "string",
        }
    }
}

/// A setting that is known.
#[derive(Debug)]
struct Known {
    /// Its name as PostgreSQL writes it.
    name: &'static str,
    default: &'static str,
    domain: Domain,
    /// Whether ParameterStatus tells its value.
    reported: bool,
}

const fn known(name: &'static str, default: &'static str, domain: Domain) -> Known {
    Known {
        name,
        default,
        domain,
        reported: false,
    }
}

const fn reported(name: &'static str, default: &'static str, domain: Domain) -> Known {
    Known {
        reported: true,
        ..known(name, default, domain)
    }
}

/// The settings that are known, with their defaults. Most are accepted and change nothing.
static KNOWN: &[Known] = &[
    reported("application_name", "", Domain::Text),
    known("array_nulls", "on", Domain::Bool),
    known("backslash_quote", "safe_encoding", Domain::Text),
    known("bytea_output", "hex", Domain::Text),
    known("check_function_bodies", "on", Domain::Bool),
    reported("client_encoding", "UTF8", Domain::Encoding),
    known("client_min_messages", "notice", Domain::Messages),
    reported("DateStyle", "ISO, MDY", Domain::DateStyle),
    known("default_table_access_method", "heap", Domain::Text),
    known("default_tablespace", "", Domain::Text),
    known("default_transaction_deferrable", "off", Domain::Bool),
    known(
        "default_transaction_isolation",
        "read committed",
        Domain::Isolation,
    ),
    reported("default_transaction_read_only", "off", Domain::Bool),
    known("escape_string_warning", "on", Domain::Bool),
    known(POOLED, "off", Domain::On),
    known("extra_float_digits", "1", Domain::Integer),
    known("geqo", "on", Domain::Bool),
    known(IDLE_LIMIT, "0", Domain::Milliseconds),
    known("idle_session_timeout", "0", Domain::Milliseconds),
    reported("in_hot_standby", "off", Domain::Fixed),
    reported("integer_datetimes", "on", Domain::Fixed),
    reported("IntervalStyle", "postgres", Domain::Text),
    reported("is_superuser", "off", Domain::Fixed),
    known("jit", "off", Domain::Bool),
    known("lc_messages", "C", Domain::Text),
    known("lc_monetary", "C", Domain::Text),
    known("lc_numeric", "C", Domain::Text),
    known("lc_time", "C", Domain::Text),
    known("lock_timeout", "0", Domain::Milliseconds),
    known("log_min_duration_statement", "-1", Domain::Milliseconds),
    known("log_statement", "none", Domain::Text),
    known("max_identifier_length", "63", Domain::Fixed),
    known("max_index_keys", "32", Domain::Fixed),
    known("password_encryption", "scram-sha-256", Domain::Text),
    known("plan_cache_mode", "auto", Domain::Text),
    known("quote_all_identifiers", "off", Domain::Bool),
    known("row_security", "on", Domain::Bool),
    known("search_path", "\"$user\", public", Domain::Text),
    reported("server_encoding", "UTF8", Domain::Fixed),
    reported("server_version", "", Domain::Fixed),
    known("server_version_num", "150000", Domain::Fixed),
    reported("session_authorization", "", Domain::Fixed),
    reported("standard_conforming_strings", "on", Domain::On),
    known("statement_timeout", "0", Domain::Milliseconds),
    known("synchronize_seqscans", "on", Domain::Bool),
    known("synchronous_commit", "on", Domain::Text),
    reported("TimeZone", "Etc/UTC", Domain::Text),
    known("transaction_deferrable", "off", Domain::Bool),
    known("transaction_isolation", "read committed", Domain::Isolation),
    known("transaction_read_only", "off", Domain::Bool),
    known(TRANSACTION_LIMIT, "0", Domain::Milliseconds),
    known("work_mem", "4MB", Domain::Text),
    known("xmloption", "content", Domain::Text),
];

/// The most bytes of a name of a client's own setting.
const LONGEST_NAME: usize = 256;

/// The most bytes of a setting's value.
const LONGEST_VALUE: usize = 4_096;

/// The greatest time in milliseconds that a client may set, as in PostgreSQL.
const MOST_MILLISECONDS: f64 = i32::MAX as f64;

/// The setting that limits how long a transaction may be idle.
const IDLE_LIMIT: &str = "idle_in_transaction_session_timeout";

/// The setting that limits how long a transaction may last, as in PostgreSQL 17.
const TRANSACTION_LIMIT: &str = "transaction_timeout";

/// The setting that says that a pool lends the connection to another client for each transaction. It stays on.
const POOLED: &str = "escrowd.transaction_pooling";

/// The settings by which one client of such a pool would change what another one's statements do.
const EFFECTIVE: [&str; 3] = [
    IDLE_LIMIT,
    TRANSACTION_LIMIT,
    "default_transaction_read_only",
];

/// How long transactions may last. None: forever.
#[derive(Clone, Copy, Debug, Default, PartialEq, Eq)]
pub struct Limits {
    /// How long one may wait for its client.
    pub idle_in_transaction: Option<Duration>,
    /// How long one may last.
    pub transaction: Option<Duration>,
}

/// A setting.
#[derive(Clone, Debug, PartialEq, Eq, PartialOrd, Ord)]
enum Key {
    /// The one at this place of `KNOWN`.
    Known(usize),
    /// One of the client's own, which has a dot in its name, in lower case.
    Custom(Rc<str>),
}

impl Key {
    fn name(&self) -> &str {
        match self {
            Key::Known(place) => KNOWN[*place].name,
            Key::Custom(name) => name,
        }
    }

    /// Returns whether the next client of a pool would notice its value.
    fn lasts_for_others(&self) -> bool {
        match self {
            Key::Known(place) => EFFECTIVE.contains(&KNOWN[*place].name),
            Key::Custom(_) => true,
        }
    }

    fn default(&self) -> &'static str {
        match self {
            Key::Known(place) => KNOWN[*place].default,
            Key::Custom(_) => "",
        }
    }
}

/// Values that differ from their defaults, in the order of their settings. They are few, and every connection has some:
/// a map would take three times as much memory.
#[derive(Clone, Debug, Default, PartialEq, Eq)]
struct Values(Vec<(Key, String)>);

impl Values {
    fn place(&self, key: &Key) -> Result<usize, usize> {
        self.0.binary_search_by(|(other, _)| other.cmp(key))
    }

    fn get(&self, key: &Key) -> Option<&String> {
        self.place(key).ok().map(|place| &self.0[place].1)
    }

    fn contains_key(&self, key: &Key) -> bool {
        self.place(key).is_ok()
    }

    fn insert(&mut self, key: Key, value: String) {
        match self.place(&key) {
            Ok(place) => self.0[place].1 = value,
            Err(place) => self.0.insert(place, (key, value)),
        }
    }

    fn remove(&mut self, key: &Key) {
        if let Ok(place) = self.place(key) {
            self.0.remove(place);
        }
    }

    fn keys(&self) -> impl Iterator<Item = &Key> {
        self.0.iter().map(|(key, _)| key)
    }

    fn is_empty(&self) -> bool {
        self.0.is_empty()
    }
}

/// The most settings of a client's own.
const MOST_CUSTOM: usize = 64;

/// The settings of a session.
#[derive(Clone, Debug)]
pub struct Variables {
    /// The values at the session's begin, to which RESET goes back.
    initial: Rc<Values>,
    /// The values of the session.
    session: Rc<Values>,
    /// The values of the transaction, in front of the session's.
    local: Rc<Values>,
    /// How long transactions may last, as these values say.
    limits: Limits,
    /// Whether transactions only read unless they say otherwise.
    reads_only: bool,
}

/// The values at a place of a transaction, to which a rollback goes back.
#[derive(Clone, Debug)]
pub struct Snapshot {
    session: Rc<Values>,
    local: Rc<Values>,
}

fn place(name: &str) -> Option<usize> {
    KNOWN
        .iter()
        .position(|known| known.name.eq_ignore_ascii_case(name))
}

fn unrecognized(name: &str) -> Failure {
    let text = format!("unrecognized configuration parameter \"{}\"", name);
    Report::error(SqlState::UNDEFINED_OBJECT, text)
}

/// Returns the setting of a name, which has a dot if it is none that is known.
fn key(name: &str) -> Result<Key, Failure> {
    if let Some(place) = place(name) {
        return Ok(Key::Known(place));
    }
    if !name.contains('.') {
        return Err(unrecognized(name));
    }
    let begins = |byte: u8| byte.is_ascii_alphabetic() || byte == b'_' || byte >= 0x80;
    let is_word = |word: &str| {
        word.bytes().next().map_or(false, begins)
            && word
                .bytes()
                .all(|byte| begins(byte) || byte.is_ascii_digit() || byte == b'$')
    };
    if name.len() > LONGEST_NAME || !name.split('.').all(is_word) {
        let text = format!("invalid configuration parameter name \"{}\"", name);
        return Err(Report::error(SqlState::INVALID_NAME, text).detail(
            "Custom parameter names must be two or more simple identifiers separated by dots.",
        ));
    }
    Ok(Key::Custom(name.to_ascii_lowercase().into()))
}

fn invalid(known: &Known, value: &str) -> Failure {
    Report::error(
        SqlState::INVALID_PARAMETER_VALUE,
        format!(
            "invalid value for parameter \"{}\": \"{}\"",
            known.name, value
        ),
    )
}

/// Reads a time as PostgreSQL writes it. Without a unit it is in milliseconds.
fn milliseconds(text: &str) -> Option<f64> {
    let text = text.trim();
    let is_part = |mark: char| mark.is_ascii_digit() || matches!(mark, '.' | '-' | '+');
    let end = text.find(|mark| !is_part(mark)).unwrap_or(text.len());
    let number: f64 = text[..end].parse().ok()?;
    let unit = match text[end..].trim() {
        "" | "ms" => 1.0,
        "us" => 0.001,
        "s" => 1_000.0,
        "min" => 60_000.0,
        "h" => 3_600_000.0,
        "d" => 86_400_000.0,
        _ => return None,
    };
    Some((number * unit).round())
}

/// Returns whether a client may set a time of so many milliseconds.
fn is_settable(milliseconds: &f64) -> bool {
    milliseconds.abs() <= MOST_MILLISECONDS
}

/// Writes a time as SHOW prints it: in the largest unit that it is a whole number of.
fn written_time(milliseconds: f64) -> String {
    let whole = milliseconds as i64;
    if whole <= 0 {
        return whole.to_string();
    }
    for (unit, size) in [
        ("d", 86_400_000),
        ("h", 3_600_000),
        ("min", 60_000),
        ("s", 1_000),
    ] {
        if whole % size == 0 {
            return format!("{}{}", whole / size, unit);
        }
    }
    format!("{}ms", whole)
}

fn boolean(text: &str) -> Option<bool> {
    let text = text.trim().to_ascii_lowercase();
    match text.as_str() {
        "on" | "1" => Some(true),
        "off" | "of" | "0" => Some(false),
        "" => None,
        word if "true".starts_with(word) || "yes".starts_with(word) => Some(true),
        word if "false".starts_with(word) || "no".starts_with(word) => Some(false),
        _ => None,
    }
}

/// Returns a value as SHOW prints it.
fn canonical(known: &Known, value: &str) -> Result<String, Failure> {
    let written = value;
    let value = value.trim();
    if value.len() > LONGEST_VALUE {
        return Err(invalid(
            known,
            &format!("{}..", &value.chars().take(32).collect::<String>()),
        ));
    }
    let bad = || invalid(known, value);
    match known.domain {
        Domain::Text => Ok(value.to_owned()),
        Domain::Bool => match boolean(value) {
            Some(true) => Ok("on".to_owned()),
            Some(false) => Ok("off".to_owned()),
            None => Err(Report::error(
                SqlState::INVALID_PARAMETER_VALUE,
                format!("parameter \"{}\" requires a Boolean value", known.name),
            )),
        },
        Domain::Integer => match value.parse::<i32>() {
            Ok(number) => Ok(number.to_string()),
            Err(_) => Err(bad()),
        },
        Domain::Milliseconds => match milliseconds(value).filter(is_settable) {
            Some(time) if time >= 0.0 || known.name.starts_with("log_") => Ok(written_time(time)),
            Some(time) => Err(Report::error(
                SqlState::INVALID_PARAMETER_VALUE,
                format!(
                    "{} ms is outside the valid range for parameter \"{}\" (0 .. 2147483647)",
                    time, known.name
                ),
            )),
            None => Err(bad().hint(
                "Valid units for this parameter are \"us\", \"ms\", \"s\", \"min\", \"h\", and \"d\".",
            )),
        },
        // As in PostgreSQL, letters and digits alone count: 'utf-8' in quotes is UTF8.
        Domain::Encoding => match value
            .replace(|mark: char| !mark.is_ascii_alphanumeric(), "")
            .to_ascii_lowercase()
            .as_str()
        {
            "utf8" | "unicode" => Ok("UTF8".to_owned()),
            "sqlascii" => Ok("SQL_ASCII".to_owned()),
            _ => Err(bad().hint("Texts are in UTF8.")),
        },
        Domain::Messages => {
            // PostgreSQL drops no blanks around a word.
            let level = written.to_ascii_lowercase();
            match level.as_str() {
                "debug5" | "debug4" | "debug3" | "debug2" | "debug1" | "debug" | "log" | "info"
                | "notice" | "warning" | "error" | "fatal" | "panic" => Ok(level),
                _ => Err(invalid(known, written)),
            }
        }
        Domain::Isolation => match value.to_ascii_lowercase().as_str() {
            level @ ("read committed" | "read uncommitted") => Ok(level.to_owned()),
            "repeatable read" | "serializable" => Err(no_isolation()),
            _ => Err(bad()),
        },
        Domain::DateStyle => {
            let style = value.to_ascii_uppercase();
            match style.split(',').next().map(str::trim) {
                Some("ISO") => Ok("ISO, MDY".to_owned()),
                _ => Err(bad().hint("ISO is the only date style.")),
            }
        }
        Domain::On => match boolean(value) {
            Some(true) => Ok("on".to_owned()),
            _ => Err(Report::missing(&format!("{} = {}", known.name, value))),
        },
        Domain::Fixed => Err(Report::error(
            SqlState::CANNOT_CHANGE_NOW,
            format!("parameter \"{}\" cannot be changed", known.name),
        )),
    }
}

/// Makes the report of a level of isolation that is missing here.
pub fn no_isolation() -> Failure {
    Report::missing("an isolation level above READ COMMITTED").hint(
        "A reservation never breaks a check, whatever else commits; reads are READ COMMITTED.",
    )
}

impl Variables {
    /// Begins a session of this user. Without SET `limits` say how long its transactions may last.
    pub fn new(version: &str, user: &str, limits: Limits) -> Variables {
        let mut values = Values::default();
        let mut put = |name: &str, value: String| {
            if let Some(place) = place(name) {
                values.insert(Key::Known(place), value);
            }
        };
        put("server_version", version.to_owned());
        put("session_authorization", user.to_owned());
        for (name, limit) in [
            (IDLE_LIMIT, limits.idle_in_transaction),
            (TRANSACTION_LIMIT, limits.transaction),
        ] {
            if let Some(limit) = limit {
                put(name, written_time(limit.as_millis() as f64));
            }
        }
        let values = Rc::new(values);
        let mut variables = Variables {
            initial: Rc::clone(&values),
            session: values,
            local: Rc::default(),
            limits: Limits::default(),
            reads_only: false,
        };
        variables.changed();
        variables
    }

    /// Reads the values that are asked for often.
    fn changed(&mut self) {
        self.limits = Limits {
            idle_in_transaction: self.limit(IDLE_LIMIT),
            transaction: self.limit(TRANSACTION_LIMIT),
        };
        self.reads_only = self.value("default_transaction_read_only") == "on";
    }

    /// Returns the time of a setting. None: it is 0, which is no limit.
    fn limit(&self, name: &str) -> Option<Duration> {
        let time = milliseconds(self.value(name)).filter(|&time| time >= 1.0)?;
        Some(Duration::from_millis(time as u64))
    }

    /// Makes the values that the session has now those to which RESET goes back.
    pub fn begin(&mut self) {
        self.initial = Rc::clone(&self.session);
    }

    /// Sets a setting. Without a value it goes back to that of the session's begin.
    ///
    /// Returns the name and the value to tell by ParameterStatus, if it is one that is told.
    ///
    /// # Errors
    ///
    /// Fails if the setting isn't known, or doesn't take this value.
    pub fn set(
        &mut self,
        name: &str,
        value: Option<&str>,
        local: bool,
    ) -> Result<Option<(&'static str, &str)>, Failure> {
        let key = key(name)?;
        let value = match &key {
            Key::Known(place) => self.known_value(*place, value)?,
            Key::Custom(_) => Some(self.custom_value(&key, value)?),
        };
        if !local {
            if key.name() == POOLED {
                // RESET ALL and DISCARD ALL go back to it.
                put(&mut self.initial, key.clone(), value.clone());
            } else if key.lasts_for_others() {
                self.check_lasting(&key, value.as_deref())?;
            }
            if self.local.contains_key(&key) {
                Rc::make_mut(&mut self.local).remove(&key);
            }
            put(&mut self.session, key.clone(), value);
        } else {
            let value = value.unwrap_or_else(|| key.default().to_owned());
            put(&mut self.local, key.clone(), Some(value));
        }
        self.changed();
        match key {
            Key::Known(place) if KNOWN[place].reported => {
                Ok(Some((KNOWN[place].name, self.at(&Key::Known(place)))))
            }
            _ => Ok(None),
        }
    }

    /// Returns the value that a setting gets. None: it goes back to its default.
    fn known_value(&self, place: usize, value: Option<&str>) -> Result<Option<String>, Failure> {
        let known = &KNOWN[place];
        match value {
            Some(value) => canonical(known, value).map(Some),
            None => {
                if known.domain == Domain::Fixed {
                    canonical(known, "")?;
                }
                Ok(self.initial.get(&Key::Known(place)).cloned())
            }
        }
    }

    /// Returns the value that a setting of the client's own gets. RESET leaves it empty.
    fn custom_value(&self, key: &Key, value: Option<&str>) -> Result<String, Failure> {
        let is_custom = |key: &&Key| matches!(key, Key::Custom(_));
        let count = self
            .session
            .keys()
            .chain(self.local.keys())
            .filter(is_custom)
            .count();
        let is_new = !self.session.contains_key(key) && !self.local.contains_key(key);
        if is_new && count >= MOST_CUSTOM {
            let text = "too many configuration parameters of the client's own";
            return Err(Report::error(SqlState::OUT_OF_MEMORY, text));
        }
        match value {
            Some(value) if value.len() > LONGEST_VALUE => {
                let text = format!("value of parameter \"{}\" is too long", key.name());
                Err(Report::error(SqlState::INVALID_PARAMETER_VALUE, text))
            }
            Some(value) => Ok(value.to_owned()),
            None => Ok(self.initial.get(key).cloned().unwrap_or_default()),
        }
    }

    /// Refuses a value that isn't that of the session's begin, if a pool would let other clients have it.
    fn check_lasting(&self, key: &Key, value: Option<&str>) -> Result<(), Failure> {
        let initial = self.initial.get(key);
        let initial = initial.map_or(key.default(), String::as_str);
        if self.value(POOLED) == "off" || value.map_or(true, |value| value == initial) {
            return Ok(());
        }
        let text = format!(
            "SET {} would reach other clients of this connection",
            key.name()
        );
        Err(Report::error(SqlState::FEATURE_NOT_SUPPORTED, text)
            .hint("Use SET LOCAL inside a block, or an option of escrowd-pg for all."))
    }

    /// Sets all settings back to the values of the session's begin. Those of the client's own are empty then.
    pub fn reset_all(&mut self) {
        let own = self.session.keys().chain(self.local.keys()).cloned();
        let own: Vec<Key> = own.filter(|key| matches!(key, Key::Custom(_))).collect();
        self.session = Rc::clone(&self.initial);
        for key in own {
            if !self.session.contains_key(&key) {
                put(&mut self.session, key, Some(String::new()));
            }
        }
        self.local = Rc::default();
        self.changed();
    }

    fn at(&self, key: &Key) -> &str {
        self.local
            .get(key)
            .or_else(|| self.session.get(key))
            .map_or(key.default(), String::as_str)
    }

    /// Returns the name of a setting as PostgreSQL writes it, and its value.
    ///
    /// # Errors
    ///
    /// Fails if the setting isn't known. One of the client's own is known once it was set.
    pub fn get(&self, name: &str) -> Result<(String, &str), Failure> {
        let key = match place(name) {
            Some(place) => Key::Known(place),
            None => Key::Custom(name.to_ascii_lowercase().into()),
        };
        let is_set = self.local.contains_key(&key) || self.session.contains_key(&key);
        if matches!(key, Key::Custom(_)) && !is_set {
            return Err(unrecognized(name));
        }
        Ok((key.name().to_owned(), self.at(&key)))
    }

    /// Returns the value of a setting. None: it isn't known.
    pub fn known(&self, name: &str) -> Option<&str> {
        self.get(name).ok().map(|(_, value)| value)
    }

    /// Returns the value of a setting that is known for sure, or an empty text.
    pub fn value(&self, name: &str) -> &str {
        self.known(name).unwrap_or("")
    }

    /// Returns all settings as pg_settings shows them.
    pub fn rows(&self) -> Vec<SettingRow> {
        let known = (0..KNOWN.len()).map(Key::Known);
        let own = self.session.keys().chain(self.local.keys());
        let mut own: Vec<Key> = own
            .filter(|key| matches!(key, Key::Custom(_)))
            .cloned()
            .collect();
        own.sort();
        own.dedup();
        known.chain(own).map(|key| self.row(&key)).collect()
    }

    fn row(&self, key: &Key) -> SettingRow {
        let domain = match key {
            Key::Known(place) => KNOWN[*place].domain,
            Key::Custom(_) => Domain::Text,
        };
        // Times are shown in milliseconds, without their unit.
        let plain = |value: &str| match domain {
            Domain::Milliseconds => {
                milliseconds(value).map_or(value.to_owned(), |time| (time as i64).to_string())
            }
            _ => value.to_owned(),
        };
        let now = self.local.get(key).or_else(|| self.session.get(key));
        let reset = self.initial.get(key);
        let is_fixed = domain == Domain::Fixed;
        SettingRow {
            name: key.name().to_owned(),
            value: plain(self.at(key)),
            unit: (domain == Domain::Milliseconds).then(|| "ms".to_owned()),
            context: if is_fixed { "internal" } else { "user" },
            kind: domain.kind(),
            source: match now {
                None => "default",
                Some(_) if is_fixed => "default",
                now if now == reset => "client",
                _ => "session",
            },
            default: plain(if is_fixed {
                self.at(key)
            } else {
                key.default()
            }),
            reset: plain(reset.map_or(key.default(), String::as_str)),
        }
    }

    /// Returns names and values of all settings.
    pub fn all(&self) -> impl Iterator<Item = (&'static str, &str)> {
        KNOWN
            .iter()
            .enumerate()
            .map(move |(place, known)| (known.name, self.at(&Key::Known(place))))
    }

    /// Returns names and values of the settings that ParameterStatus tells.
    pub fn reported(&self) -> impl Iterator<Item = (&'static str, &str)> {
        KNOWN
            .iter()
            .enumerate()
            .filter(|(_, known)| known.reported)
            .map(move |(place, known)| (known.name, self.at(&Key::Known(place))))
    }

    /// Returns how long transactions may last.
    pub fn limits(&self) -> Limits {
        self.limits
    }

    /// Returns whether the client wants warnings, and whether it wants notices.
    pub fn wanted_messages(&self) -> (bool, bool) {
        match self.value("client_min_messages") {
            "error" | "fatal" | "panic" => (false, false),
            "warning" => (true, false),
            _ => (true, true),
        }
    }

    /// Returns the values as they are now.
    pub fn snapshot(&self) -> Snapshot {
        Snapshot {
            session: Rc::clone(&self.session),
            local: Rc::clone(&self.local),
        }
    }

    /// Goes back to these values.
    pub fn restore(&mut self, snapshot: &Snapshot) {
        self.session = Rc::clone(&snapshot.session);
        self.local = Rc::clone(&snapshot.local);
        self.changed();
    }

    /// Returns whether nothing was set since the snapshot.
    pub fn is_as_in(&self, snapshot: &Snapshot) -> bool {
        Rc::ptr_eq(&self.session, &snapshot.session) && Rc::ptr_eq(&self.local, &snapshot.local)
    }

    /// Returns whether something is set for the transaction alone.
    pub fn has_local(&self) -> bool {
        !self.local.is_empty()
    }

    /// Forgets what was set for the transaction alone.
    pub fn end_transaction(&mut self) {
        self.local = Rc::default();
        self.changed();
    }

    /// Returns whether transactions only read unless they say otherwise.
    pub fn is_read_only_by_default(&self) -> bool {
        self.reads_only
    }
}

fn put(values: &mut Rc<Values>, key: Key, value: Option<String>) {
    let values = Rc::make_mut(values);
    match value {
        Some(value) => values.insert(key, value),
        None => values.remove(&key),
    };
}

#[cfg(test)]
mod tests {
    use super::*;

    fn variables() -> Variables {
        Variables::new("15.0 (escrowd 1.1)", "ada", Limits::default())
    }

    #[test]
    fn times_are_read_and_shown_as_postgresql_15_does() {
        // Each pair is from SET statement_timeout = ..; SHOW statement_timeout.
        for (set, shown) in [
            ("5000", "5s"),
            ("1500", "1500ms"),
            ("90s", "90s"),
            ("2 min", "2min"),
            ("60min", "1h"),
            ("1d", "1d"),
            ("0", "0"),
            ("0.5s", "500ms"),
            ("1500us", "2ms"),
        ] {
            let mut variables = variables();
            variables
                .set("statement_timeout", Some(set), false)
                .unwrap();
            assert_eq!(variables.value("statement_timeout"), shown, "{}", set);
        }
    }

    #[test]
    fn refuses_times_that_are_none() {
        for bad in ["5 minutes", "x", "", "-1", "99999999999", "1.2.3"] {
            let report = variables()
                .set("lock_timeout", Some(bad), false)
                .unwrap_err();
            assert_eq!(report.state, SqlState::INVALID_PARAMETER_VALUE, "{}", bad);
        }
    }

    #[test]
    fn a_limit_is_a_duration() {
        let mut variables = variables();
        assert_eq!(variables.limits(), Limits::default());
        variables.set(IDLE_LIMIT, Some("1500"), false).unwrap();
        variables.set(TRANSACTION_LIMIT, Some("1h"), false).unwrap();
        let limits = Limits {
            idle_in_transaction: Some(Duration::from_millis(1_500)),
            transaction: Some(Duration::from_secs(3_600)),
        };
        assert_eq!(variables.limits(), limits);
        variables.set(IDLE_LIMIT, Some("0"), true).unwrap();
        assert_eq!(variables.limits().idle_in_transaction, None);
        variables.end_transaction();
        assert_eq!(variables.limits(), limits);
    }

    #[test]
    fn limits_of_the_gateway_may_be_longer_than_a_client_can_set() {
        // PostgreSQL's settings end at 2,147,483,647 ms, which are 24.8 days.
        let day = Duration::from_secs(86_400);
        let limits = Limits {
            idle_in_transaction: Some(30 * day),
            transaction: Some(Duration::from_secs(u32::MAX.into())),
        };
        let mut variables = Variables::new("", "", limits);
        assert_eq!(variables.limits(), limits);
        assert_eq!(variables.value(IDLE_LIMIT), "30d");
        variables.set(IDLE_LIMIT, Some("24d"), false).unwrap();
        variables.set(IDLE_LIMIT, None, false).unwrap();
        assert_eq!(variables.limits(), limits);
        let refused = variables.set(IDLE_LIMIT, Some("30d"), false).unwrap_err();
        assert_eq!(refused.state, SqlState::INVALID_PARAMETER_VALUE);
    }

    #[test]
    fn a_connection_of_a_pool_takes_no_value_that_lasts() {
        let limits = Limits {
            idle_in_transaction: Some(Duration::from_secs(60)),
            transaction: None,
        };
        let mut variables = Variables::new("", "", limits);
        variables.set(POOLED, Some("on"), false).unwrap();
        let read_only = "default_transaction_read_only";
        for (name, value) in [
            (IDLE_LIMIT, "5s"),
            (TRANSACTION_LIMIT, "5s"),
            (read_only, "on"),
        ] {
            let refused = variables.set(name, Some(value), false).unwrap_err();
            assert_eq!(refused.state, SqlState::FEATURE_NOT_SUPPORTED, "{}", name);
            variables.set(name, Some(value), true).unwrap();
            variables.end_transaction();
            assert_eq!(variables.limits(), limits);
        }
        // What changes nothing is taken, as what pools and drivers set for each client.
        for (name, value) in [
            (IDLE_LIMIT, "60s"),
            (TRANSACTION_LIMIT, "0"),
            (read_only, "off"),
            ("application_name", "x"),
            ("client_min_messages", "warning"),
        ] {
            variables.set(name, Some(value), false).unwrap();
        }
        variables.set(IDLE_LIMIT, None, false).unwrap();
        variables.reset_all();
        let off = variables.set(POOLED, Some("off"), false).unwrap_err();
        assert_eq!(off.state, SqlState::FEATURE_NOT_SUPPORTED);
        variables.set(POOLED, None, false).unwrap();
        assert_eq!(variables.value(POOLED), "on");
    }

    #[test]
    fn a_rollback_goes_back_to_a_snapshot() {
        let mut variables = variables();
        let before = variables.snapshot();
        assert_eq!(
            variables
                .set("application_name", Some("shop"), false)
                .unwrap(),
            Some(("application_name", "shop"))
        );
        variables.restore(&before);
        assert_eq!(variables.value("application_name"), "");
    }

    #[test]
    fn reset_goes_back_to_the_values_of_the_begin() {
        let mut variables = variables();
        variables.set("datestyle", Some("iso, dmy"), false).unwrap();
        variables
            .set("application_name", Some("psql"), false)
            .unwrap();
        variables.begin();
        variables.set("application_name", Some("x"), false).unwrap();
        variables.set("application_name", None, false).unwrap();
        assert_eq!(variables.value("application_name"), "psql");
        variables.set("search_path", Some("x"), false).unwrap();
        variables.reset_all();
        assert_eq!(variables.value("search_path"), "\"$user\", public");
        assert_eq!(variables.value("session_authorization"), "ada");
    }

    #[test]
    fn refuses_what_would_change_meanings() {
        let state =
            |name: &str, value: &str| variables().set(name, Some(value), false).unwrap_err().state;
        assert_eq!(
            state("standard_conforming_strings", "off"),
            SqlState::FEATURE_NOT_SUPPORTED
        );
        assert_eq!(
            state("client_encoding", "latin1"),
            SqlState::INVALID_PARAMETER_VALUE
        );
        assert_eq!(state("server_version", "16"), SqlState::CANNOT_CHANGE_NOW);
        assert_eq!(state("nothing", "1"), SqlState::UNDEFINED_OBJECT);
        assert_eq!(
            state("default_transaction_isolation", "serializable"),
            SqlState::FEATURE_NOT_SUPPORTED
        );
        assert_eq!(
            state("row_security", "x"),
            SqlState::INVALID_PARAMETER_VALUE
        );
    }
}
