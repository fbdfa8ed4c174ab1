//! What a client sends: it goes on to PostgreSQL message by message, but for UPDATEs that are reservations.
//!
//! Such an UPDATE is asked of the server, and then noted in the client's own transaction (rules 3 to 6). Nothing else of
//! the client's is sent in between.

use std::borrow::Cow;
use std::collections::{HashMap, VecDeque};
use std::sync::atomic::AtomicU64;
use std::sync::{Arc, Mutex};

use bytes::{Bytes, BytesMut};
use escrowd_pg::wire::frontend::{self, Message, Raw};
use tokio::io::{AsyncReadExt, AsyncWriteExt};
use tokio::sync::mpsc::{UnboundedReceiver, UnboundedSender};

use crate::catalog::Catalog;
use crate::error::Error;
use crate::expected::{Bound, Expect, Left, Lost, Prepared};
use crate::frames::{self, Frames};
use crate::hub::{Hub, Mail};
use crate::own::{self, Value};
use crate::parameters::Parameters;
use crate::protocol::{Connection, Event, Status};
use crate::relay::{Shared, CHUNK};
use crate::script::{self, depends_on_settings, Piece};
use crate::stream::{Reader, Writer};
use crate::update::{Form, Statement};

/// What PostgreSQL has answered the proxy itself.
#[derive(Debug)]
pub enum OwnReply {
    /// The last row, if there was one.
    Row(Option<Vec<Option<Bytes>>>),
    /// An ErrorResponse, whole.
    Failed(Bytes),
    /// Nothing: an error of the client's came before.
    Skipped,
    /// Nothing was sent, since PostgreSQL skips what comes.
    Unsent,
}

/// What the other direction is to write to the client before it goes on behind an own reply.
#[derive(Debug)]
pub struct Resumed {
    /// What it writes.
    pub bytes: Bytes,
    /// Whether that is the command tag at the end of a Query: it goes together with the ReadyForQuery behind it, and an error takes
    /// its place.
    pub is_end: bool,
}

/// How a client has sent a statement.
#[derive(Clone, Copy, Debug, PartialEq, Eq)]
pub(crate) enum Sent<'a> {
    /// By itself in a Query, which is here as a whole.
    Query(&'a [u8]),
    /// By an Execute, which is here as a whole, and how many rows it asks for at most, if it does.
    Execute(&'a [u8], Option<usize>),
    /// In a Query with others: its text, how many characters are in front of it, and whether it is the last.
    Piece(&'a str, usize, bool),
}

impl Sent<'_> {
    /// Returns whether it is a Query by itself, whose ReadyForQuery the client waits for.
    pub(crate) fn is_query(self) -> bool {
        matches!(self, Sent::Query(_))
    }

    /// Returns whether it is the end of a Query. Outside a block its transaction ends then, and PostgreSQL tells an error of that in
    /// place of the command tag.
    pub(crate) fn is_end(self) -> bool {
        matches!(self, Sent::Query(_) | Sent::Piece(_, _, true))
    }

    /// Returns whether an Execute has sent it: then the client describes its rows itself.
    pub(crate) fn is_execute(self) -> bool {
        matches!(self, Sent::Execute(..))
    }
}

/// A statement that PostgreSQL serves beside a reservation: its text and its parameters, as the client has sent them.
#[derive(Clone, Debug)]
pub(crate) struct Rest {
    pub(crate) text: String,
    /// By how many characters the places of its errors are in front of those in the client's text.
    pub(crate) moved: i64,
    /// Whether it may have rows.
    pub(crate) has_rows: bool,
    /// Whether its rows are described to the client.
    pub(crate) is_described: bool,
    /// How many rows it has to have. None: it may have any.
    pub(crate) count: Option<usize>,
    pub(crate) types: Vec<u32>,
    pub(crate) formats: Vec<i16>,
    pub(crate) values: Vec<Option<Vec<u8>>>,
    pub(crate) results: Vec<i16>,
    /// How many rows the client has asked for at most, if it has.
    pub(crate) limit: Option<usize>,
}

/// What an own request ends with.
#[derive(Clone, Debug, PartialEq, Eq)]
pub(crate) enum End {
    Flush,
    /// A Sync whose ReadyForQuery is the client's.
    Sync,
    /// The client's Query, which PostgreSQL skips if the request fails.
    Query(Vec<u8>),
    /// The client's Execute, likewise, and a Flush.
    Execute(Vec<u8>),
}

/// The direction from a client to PostgreSQL.
pub struct Requests<'a> {
    /// The client.
    pub from: Reader,
    /// PostgreSQL.
    pub to: Writer,
    /// What both directions share.
    pub shared: &'a Shared,
    /// The hub.
    pub hub: &'a Arc<Hub>,
    /// The number of the connection.
    pub connection: Connection,
    /// What the hub tells.
    pub mail: UnboundedReceiver<Mail>,
    /// Own replies.
    pub replies: UnboundedReceiver<OwnReply>,
    /// Lets the other direction go on behind an own reply.
    pub resume: UnboundedSender<Resumed>,
    pub(crate) own: Session,
    /// Whether a Sync is here that comes next.
    pub(crate) has_sync: bool,
    forms: Forms,
    out: Vec<u8>,
}

/// The bytes of a name of a statement or a portal that PostgreSQL compares.
const LONGEST_NAME: usize = 63;

/// At least as many bytes as a word has that is looked for in parts of a text.
const LONGEST_WORD: usize = 32;

/// The text that asks for the settings by which PostgreSQL reads texts.
const LETTERS: &str = "SELECT pg_catalog.current_setting('standard_conforming_strings'), pg_catalog.current_setting('client_encoding')";

/// How many UPDATEs are kept that were read before, and the most bytes of the text of one.
const KEPT: usize = 8;
const LONGEST_KEPT: usize = 1_024;

/// The last UPDATEs that were read: programs send the same texts again and again.
#[derive(Default)]
struct Forms(VecDeque<Arc<Form>>);

impl Forms {
    /// Reads a text, unless it was read before. None: it passes on as it is.
    fn read(&mut self, text: &str) -> Option<Statement> {
        if let Some(known) = self.0.iter().find(|form| form.text() == text) {
            return Some(Statement::Update(known.clone()));
        }
        let statement = Statement::read(text)?;
        match &statement {
            Statement::Update(form) if text.len() <= LONGEST_KEPT => {
                self.0.truncate(KEPT - 1);
                self.0.push_front(form.clone());
            }
            _ => {}
        }
        Some(statement)
    }
}

/// What the proxy has made in the client's session.
#[derive(Default)]
pub(crate) struct Session {
    /// The names of its prepared statements, by their texts.
    pub(crate) prepared: HashMap<String, String>,
    /// The names of those that may be left of requests that have failed. The next request closes them.
    left: Vec<String>,
    /// How many names were given so far.
    names: u64,
    /// The epoch in which it was greeted.
    pub(crate) greeted: i64,
    /// Whether what is declared may have been changed by this client.
    pub(crate) is_old: bool,
    /// Whether the client has waited until what is declared is known.
    pub(crate) has_waited: bool,
    /// What the last UPDATE has left of its rows.
    pub(crate) rows_left: Option<Left>,
    /// Whether the client may have prepared, by SQL's own PREPARE, what names the functions of holds.
    prepares_holds: bool,
    /// Of a large Query or Parse: its kind, and the end of what has come of it.
    large: Option<(u8, Vec<u8>)>,
}

impl Session {
    /// Forgets what is lost.
    pub(crate) fn lose(&mut self, lost: Lost) {
        if lost == Lost::All {
            self.prepared.clear();
        }
        if lost != Lost::Nothing {
            self.greeted = 0;
        }
    }
}

impl<'a> Requests<'a> {
    /// Makes the direction.
    pub fn new(
        from: Reader,
        to: Writer,
        shared: &'a Shared,
        hub: &'a Arc<Hub>,
        ends: (Connection, UnboundedReceiver<Mail>),
        replies: UnboundedReceiver<OwnReply>,
        resume: UnboundedSender<Resumed>,
    ) -> Requests<'a> {
        Requests {
            from,
            to,
            shared,
            hub,
            connection: ends.0,
            mail: ends.1,
            replies,
            resume,
            own: Session::default(),
            has_sync: false,
            forms: Forms::default(),
            out: Vec::new(),
        }
    }

    /// Serves the client until it ends, and tells PostgreSQL of that end. `input` was read before.
    pub async fn run(mut self, input: BytesMut) -> Result<(), Error> {
        let served = self.serve(input).await;
        match &served {
            Ok(()) | Err(Error::System(_)) => {
                // PostgreSQL may have gone.
                let _ = self.to.shutdown().await;
            }
            Err(_) => {}
        }
        served
    }

    async fn serve(&mut self, mut input: BytesMut) -> Result<(), Error> {
        let mut frames = Frames::default();
        loop {
            while let Some(piece) = frames.next(&mut input)? {
                self.has_sync =
                    matches!(piece, frames::Piece::Message(b'E', _)) && frames::has_sync(&input);
                match piece {
                    frames::Piece::Message(kind, bytes) => self.message(kind, bytes).await?,
                    frames::Piece::Part(bytes, is_first) => self.part(&bytes, is_first).await?,
                }
                if self.out.len() > CHUNK {
                    self.flush().await?;
                }
            }
            self.flush().await?;
            input.reserve(CHUNK);
            if self.from.read_buf(&mut input).await? == 0 {
                return Ok(());
            }
        }
    }

    pub(crate) async fn flush(&mut self) -> Result<(), Error> {
        if !self.out.is_empty() {
            self.to.write_all(&self.out).await?;
            self.to.flush().await?;
            self.out.clear();
        }
        Ok(())
    }

    pub(crate) fn expect(&self, expect: Expect) {
        self.shared.track().expect(expect);
    }

    pub(crate) fn pass(&mut self, bytes: &[u8], expect: Expect) {
        self.expect(expect);
        self.out.extend_from_slice(bytes);
    }

    /// Passes a part of a message that is too large to be looked at. Its first part has its names, and its text if that is one of
    /// the proxy's own.
    async fn part(&mut self, bytes: &[u8], is_first: bool) -> Result<(), Error> {
        if is_first {
            let names = self.check_part(bytes[0], &bytes[5..])?;
            let mut names = names.iter().map(|name| known_name(name).into_owned());
            let mut name = || names.next().unwrap_or_default();
            match bytes.first() {
                Some(b'Q') => {
                    self.names_holds(false);
                    // It may turn out to run the functions of holds.
                    self.settle_what_runs().await?;
                    self.expect(Expect::Query);
                }
                Some(b'P') => {
                    self.names_holds(false);
                    self.expect(Expect::Parse(name(), None));
                }
                Some(b'B') => {
                    let (portal, statement) = (name(), name());
                    let is_engaged = self.shared.is_engaged();
                    if self
                        .shared
                        .track()
                        .may_lose_statement(&statement, is_engaged)
                    {
                        self.settle().await?;
                    }
                    let statement = self.shared.track().statement(&statement);
                    let bound = statement.map(|statement| Arc::new(Bound::large(statement)));
                    self.expect(Expect::Bind(portal, bound));
                }
                Some(b'F') => self.expect(Expect::Function),
                Some(b'D') => self.expect(Expect::Describe(None)),
                Some(b'E') => self.expect(Expect::Execute),
                Some(b'd') => self.shared.track().copy_goes_on(),
                Some(b'C') if bytes.get(5) == Some(&b'P') => {
                    self.expect(Expect::ClosePortal(name()));
                }
                Some(b'C') => self.expect(Expect::CloseStatement(name())),
                _ => {}
            }
            self.own.large = match bytes[0] {
                kind @ (b'Q' | b'P') => Some((kind, Vec::new())),
                _ => None,
            };
        }
        self.look_at_part(bytes);
        self.out.extend_from_slice(bytes);
        Ok(())
    }

    /// Looks whether a part of a large text names the functions of holds, with the end of the part in front of it.
    fn look_at_part(&mut self, bytes: &[u8]) {
        let (kind, mut text) = match self.own.large.take() {
            Some(large) => large,
            None => return,
        };
        text.extend_from_slice(bytes);
        if self.may_run_holds(&text) {
            match kind {
                b'Q' => self.names_holds(true),
                _ => self.shared.track().parse_names_holds(),
            }
        }
        let rest = text.split_off(text.len().saturating_sub(LONGEST_WORD));
        self.own.large = Some((kind, rest));
    }

    /// Ends a client whose message has a name or a text of the proxy's own (rule 19). A name that has no end in the first part of
    /// it hides what comes behind. Returns the names, of which one that is not UTF-8 is none that is known.
    fn check_part(&mut self, kind: u8, body: &[u8]) -> Result<Vec<String>, Error> {
        let (names, body) = match kind {
            b'P' | b'E' => (1, body),
            b'B' => (2, body),
            // The kind of what is named stands first.
            b'C' | b'D' => (1, &body[1..]),
            b'Q' => (0, body),
            _ => return Ok(Vec::new()),
        };
        let mut words = body.split(|&byte| byte == 0);
        let names: Vec<&[u8]> = words.by_ref().take(names).collect();
        for name in &names {
            self.check_prefix(name)?;
        }
        let names = names.into_iter();
        let names = names.map(|it| String::from_utf8_lossy(it).into_owned());
        let names = names.collect();
        let text = match words.next() {
            Some(text) => text,
            None => return Err(Error::OwnName),
        };
        if !matches!(kind, b'P' | b'Q') {
            return Ok(names);
        }
        let begins = |it: Arc<Catalog>| it.begins_own_text(text);
        if words.next().is_none() && self.hub.declared().map_or(false, begins) {
            return Err(Error::OwnText);
        }
        self.check_text(text)?;
        Ok(names)
    }

    async fn message(&mut self, kind: u8, bytes: Bytes) -> Result<(), Error> {
        let raw = Raw {
            kind,
            body: &bytes[5..],
        };
        let message = match frontend::message(raw) {
            Ok(message) => message,
            // PostgreSQL says what is wrong with it.
            Err(_) => return self.unknown(kind, &bytes),
        };
        if matches!(message, Message::Query(_) | Message::Execute { .. }) {
            self.leave_refused().await;
        }
        match message {
            Message::Query(text) => self.query(text, &bytes).await?,
            Message::Parse(parse) => {
                self.check_name(parse.name)?;
                self.check_text(parse.text)?;
                let shows = contains(parse.text, b"escrow.reservations");
                if depends_on_settings(parse.text) && may_be_looked_at(parse.text) {
                    self.learn_letters().await?;
                }
                let mut statement = self.statement(parse.text);
                let names_holds = self.may_run_holds(parse.text);
                if names_holds {
                    self.names_holds(false);
                }
                if names_holds || shows {
                    statement = statement.or(Some(Statement::Named));
                }
                let types = parse.types;
                let prepared = statement.map(|statement| {
                    Arc::new(Prepared {
                        statement,
                        names_holds,
                        may_come_second: may_come_second(parse.text),
                        shows,
                        types,
                    })
                });
                let name = known_name(parse.name).into_owned();
                self.pass(&bytes, Expect::Parse(name, prepared));
            }
            Message::Bind(bind) => {
                self.check_name(bind.statement)?;
                self.check_name(bind.portal)?;
                let (portal, name) = (known_name(bind.portal), known_name(bind.statement));
                let is_engaged = self.shared.is_engaged();
                if self.shared.track().may_lose_statement(&name, is_engaged) {
                    self.settle().await?;
                }
                let statement = self.shared.track().statement(&name);
                let bound = statement.map(|statement| {
                    let values = bind.values.iter().map(|it| it.map(<[u8]>::to_vec));
                    Arc::new(Bound {
                        statement,
                        values: values.collect(),
                        formats: bind.formats.clone(),
                        results: bind.result_formats.clone(),
                        is_large: false,
                        left: Mutex::default(),
                        meanings: AtomicU64::default(),
                    })
                });
                self.pass(&bytes, Expect::Bind(portal.into_owned(), bound));
            }
            Message::Describe(target) => {
                self.check_target(target)?;
                let statement = match target {
                    frontend::Target::Statement(name) => Some(known_name(name).into_owned()),
                    frontend::Target::Portal(_) => None,
                };
                self.pass(&bytes, Expect::Describe(statement));
            }
            Message::Close(target) => {
                self.check_target(target)?;
                let expect = match target {
                    frontend::Target::Statement(name) => {
                        Expect::CloseStatement(known_name(name).into_owned())
                    }
                    frontend::Target::Portal(name) => {
                        Expect::ClosePortal(known_name(name).into_owned())
                    }
                };
                self.pass(&bytes, expect);
            }
            Message::Execute { portal, limit } => {
                let limit = Some(limit as usize).filter(|&limit| limit > 0);
                self.check_name(portal)?;
                let portal = known_name(portal);
                let is_engaged = self.shared.is_engaged();
                if self.shared.track().may_lose_portal(&portal, is_engaged) {
                    self.settle().await?;
                }
                let bound = self.shared.track().portal(&portal);
                let prepared = bound
                    .as_ref()
                    .map(|bound| (bound, &bound.statement.statement));
                if bound.as_ref().map_or(false, |it| it.statement.names_holds) {
                    self.runs_holds().await?;
                    if bound
                        .as_ref()
                        .map_or(false, |it| it.statement.may_come_second)
                    {
                        self.know_wait().await?;
                    }
                }
                if bound.as_ref().map_or(false, |it| it.statement.shows) {
                    self.show().await?;
                }
                match prepared {
                    Some((bound, _)) if bound.is_large => self.pass(&bytes, Expect::Execute),
                    Some((bound, Statement::Update(form))) => {
                        if self.goes_on(bound, limit).await? {
                            return Ok(());
                        }
                        self.settle_what_runs().await?;
                        if self.shared.track().has_other_meanings(bound) {
                            // PostgreSQL runs it as it was bound.
                            self.pass(&bytes, Expect::Execute);
                            return Ok(());
                        }
                        let parameters = Parameters {
                            types: &bound.statement.types,
                            formats: &bound.formats,
                            values: &bound.values,
                        };
                        let sent = Sent::Execute(&bytes, limit);
                        self.update(form, parameters, &bound.results, sent).await?;
                        match self.own.rows_left.take() {
                            None => self.shared.track().spend_portal(&portal),
                            left => *bound.left() = left,
                        }
                    }
                    Some((bound, Statement::Delete(deletion))) => {
                        let parameters = Parameters {
                            types: &bound.statement.types,
                            formats: &bound.formats,
                            values: &bound.values,
                        };
                        self.delete(deletion, parameters).await?;
                        self.pass(&bytes, Expect::Execute);
                    }
                    Some((_, Statement::Deallocate(name))) => {
                        self.pass(&bytes, Expect::Execute);
                        self.expect(Expect::Deallocated(known_name(name).into_owned()));
                    }
                    Some((_, Statement::Commit)) => {
                        self.commit(Sent::Execute(&bytes, limit)).await?;
                    }
                    Some((_, Statement::Named)) | None => self.pass(&bytes, Expect::Execute),
                }
            }
            Message::Sync => self.pass(&bytes, Expect::Sync),
            Message::FunctionCall => self.pass(&bytes, Expect::Function),
            Message::Flush | Message::Terminate => self.out.extend_from_slice(&bytes),
            Message::Copy => {
                match kind {
                    b'd' => self.shared.track().copy_goes_on(),
                    _ => self.shared.track().copy_ends(),
                }
                self.out.extend_from_slice(&bytes);
            }
        }
        Ok(())
    }

    /// Gives the client more of what a portal has left of its rows. Returns false if it has not run yet, or its transaction has
    /// failed.
    async fn goes_on(&mut self, bound: &Bound, limit: Option<usize>) -> Result<bool, Error> {
        if bound.left().is_none() {
            return Ok(false);
        }
        self.settle().await?;
        if self.has_failed() {
            return Ok(false);
        }
        if let Some(left) = bound.left().as_mut() {
            self.say(left.take(limit.unwrap_or(0)), false);
        }
        Ok(true)
    }

    /// Passes a message that is laid out wrongly. PostgreSQL answers it by an error.
    fn unknown(&mut self, kind: u8, bytes: &[u8]) -> Result<(), Error> {
        self.shared.track().forget_statements();
        self.names_holds(false);
        let name = String::new();
        match kind {
            b'Q' => self.expect(Expect::Query),
            b'P' => self.expect(Expect::Parse(name, None)),
            b'B' => self.expect(Expect::Bind(name, None)),
            // A Flush has an answer too then: the error, behind which PostgreSQL skips what comes.
            b'D' | b'H' => self.expect(Expect::Describe(None)),
            b'E' => self.expect(Expect::Execute),
            b'C' => self.expect(Expect::CloseStatement(name)),
            b'S' => self.expect(Expect::Sync),
            _ => {}
        }
        self.out.extend_from_slice(bytes);
        Ok(())
    }

    /// Ends a client that uses a name of the proxy's own (rule 19).
    fn check_name(&self, name: &str) -> Result<(), Error> {
        self.check_prefix(name.as_bytes())
    }

    fn check_prefix(&self, name: &[u8]) -> Result<(), Error> {
        if name.starts_with(own::PREFIX.as_bytes()) {
            return Err(Error::OwnName);
        }
        Ok(())
    }

    fn check_target(&self, target: frontend::Target<'_>) -> Result<(), Error> {
        match target {
            frontend::Target::Statement(name) | frontend::Target::Portal(name) => {
                self.check_name(name)
            }
        }
    }

    /// Ends a client that sends a text of the proxy's own (rule 19).
    fn check_text(&mut self, text: &[u8]) -> Result<(), Error> {
        if contains(text, b"set_config") {
            self.shared.track().forget_meanings();
        }
        if !contains(text, b"escrow") {
            return Ok(());
        }
        let catalog = self.hub.declared();
        if catalog.map_or(false, |it| it.is_own_text(text)) {
            return Err(Error::OwnText);
        }
        // What may change what is declared, or what names mean.
        if contains(text, b"reservable") || contains(text, b"ordinary") {
            self.own.is_old = true;
        }
        Ok(())
    }

    /// Tells the hub that the client names the functions of holds, or may do so, and whether they may run by that. From then
    /// on each of its transactions may leave a hold (rule 23).
    fn names_holds(&self, runs: bool) {
        let connection = self.connection;
        self.hub.handle(Event::Names { connection, runs });
        if runs {
            self.shared.engage();
        }
    }

    /// Tells the hub that the client runs the functions of holds. What was sent in front has ended then, so that its end is not taken
    /// for theirs.
    async fn runs_holds(&mut self) -> Result<(), Error> {
        self.settle_what_runs().await?;
        self.names_holds(true);
        Ok(())
    }

    /// Waits until what runs is answered, and all in front of it.
    async fn settle_what_runs(&mut self) -> Result<(), Error> {
        if self.shared.track().is_executing() {
            self.settle().await?;
        }
        Ok(())
    }

    /// Returns whether the functions of holds may run by a text: it names them, or executes what a former text has prepared that
    /// names them.
    fn may_run_holds(&mut self, text: &[u8]) -> bool {
        let names = names_holds(text);
        self.own.prepares_holds |= names && contains(text, b"prepare");
        names || self.own.prepares_holds && contains(text, b"execute")
    }

    /// Learns the settings by which PostgreSQL reads a text that comes next. PostgreSQL tells a change of them at the next
    /// ReadyForQuery, so they are asked for if something has run since the last one. Returns false if that failed: its error has
    /// answered the client.
    pub(crate) async fn learn_letters(&mut self) -> Result<bool, Error> {
        self.settle_what_runs().await?;
        if self.shared.track().is_fresh() || self.has_failed() {
            return Ok(true);
        }
        let reply = self.ask(LETTERS, &[], &[], End::Flush).await?;
        if let OwnReply::Row(Some(row)) = &reply {
            let at = |at: usize| row.get(at).and_then(Option::as_deref).unwrap_or_default();
            let mut track = self.shared.track();
            track.is_conforming = at(0) == b"on";
            track.set_encoding(at(1));
        }
        self.tell_failure(&reply);
        self.go_on(&reply, Vec::new());
        Ok(matches!(reply, OwnReply::Row(_)))
    }

    /// Reads a text that the proxy looks at.
    fn statement(&mut self, text: &[u8]) -> Option<Statement> {
        let text = self.known_text(text)?;
        self.forms.read(text)
    }

    /// Returns a text, if its letters are those that the proxy knows.
    fn known_text<'t>(&self, text: &'t [u8]) -> Option<&'t str> {
        let track = self.shared.track();
        let is_known = track.is_conforming && (track.is_utf8 || text.is_ascii());
        if !is_known && depends_on_settings(text) {
            return None;
        }
        std::str::from_utf8(text).ok()
    }

    async fn query(&mut self, text: &[u8], bytes: &[u8]) -> Result<(), Error> {
        self.check_text(text)?;
        if self.may_run_holds(text) {
            self.runs_holds().await?;
            if may_come_second(text) && self.is_heard().await? && !self.know_wait().await? {
                self.pass(own::SYNC, Expect::Sync);
                return Ok(());
            }
        }
        let is_looked_at = depends_on_settings(text) && may_be_looked_at(text);
        if is_looked_at && !self.learn_letters().await? {
            self.pass(own::SYNC, Expect::Sync);
            return Ok(());
        }
        if let Some(pieces) = self.pieces(text).await {
            return self.string(&pieces, bytes).await;
        }
        match self.statement(text) {
            Some(Statement::Update(form)) => {
                let parameters = Parameters::default();
                self.update(&form, parameters, &[], Sent::Query(bytes))
                    .await
            }
            Some(Statement::Delete(deletion)) => {
                self.delete(&deletion, Parameters::default()).await?;
                self.pass(bytes, Expect::Query);
                Ok(())
            }
            Some(Statement::Deallocate(name)) => {
                self.pass(bytes, Expect::Query);
                self.expect(Expect::Deallocated(known_name(&name).into_owned()));
                Ok(())
            }
            Some(Statement::Commit) => self.commit(Sent::Query(bytes)).await,
            Some(Statement::Named) | None => {
                if contains(text, b"escrow.reservations") && self.is_heard().await? {
                    self.show().await?;
                    if self.shared.track().is_skipping() {
                        // Its error has answered the client.
                        self.pass(own::SYNC, Expect::Sync);
                        return Ok(());
                    }
                }
                self.pass(bytes, Expect::Query);
                self.tell_catalog().await
            }
        }
    }

    /// Waits until the proxy knows what this client has declared: others shall know it as soon as this client is told.
    async fn tell_catalog(&mut self) -> Result<(), Error> {
        if self.own.is_old {
            self.settle().await?;
            drop(self.known_catalog().await);
        }
        Ok(())
    }

    /// Reads a string of several statements, of which one may be a reservation. None: it passes on as it is.
    async fn pieces(&mut self, text: &[u8]) -> Option<Vec<Piece>> {
        let text = self.known_text(text)?;
        if !script::may_be_several(text) {
            return None;
        }
        let catalog = self.first_catalog().await;
        let in_block = {
            let track = self.shared.track();
            track.status() != Status::Idle || !track.is_plain()
        };
        script::pieces(text, &catalog, in_block)
    }

    /// Serves a string of several statements, one after another up to the first error. They are a pipeline, which is one
    /// transaction outside a block, as the string is.
    async fn string(&mut self, pieces: &[Piece], bytes: &[u8]) -> Result<(), Error> {
        if !self.is_heard().await? {
            self.pass(bytes, Expect::Query);
            return Ok(());
        }
        self.drop_unnamed();
        for (at, piece) in pieces.iter().enumerate() {
            if self.shared.track().is_skipping() {
                break;
            }
            let sent = Sent::Piece(&piece.text, piece.place, at + 1 == pieces.len());
            match &piece.statement {
                Some(Statement::Update(form)) => {
                    self.update(form, Parameters::default(), &[], sent).await?;
                }
                Some(Statement::Delete(deletion)) => {
                    self.settle().await?;
                    self.delete(deletion, Parameters::default()).await?;
                    self.pass_on(sent);
                }
                _ => self.pass_on(sent),
            }
            if self.out.len() > CHUNK {
                self.flush().await?;
            }
        }
        for _ in 0..own::close_piece(&mut self.out) {
            self.expect(Expect::Piece(0));
        }
        self.pass(own::SYNC, Expect::Sync);
        self.tell_catalog().await
    }

    /// Drops the statement and the portal without a name, as a Query does that PostgreSQL does not see.
    pub(crate) fn drop_unnamed(&mut self) {
        if self.shared.track().drop_unnamed() {
            own::close_statement(&mut self.out, "");
            own::close_portal(&mut self.out, "");
        }
    }

    /// Passes a statement on.
    pub(crate) fn pass_on(&mut self, sent: Sent<'_>) {
        match sent {
            Sent::Query(bytes) => self.pass(bytes, Expect::Query),
            Sent::Execute(bytes, _) => self.pass(bytes, Expect::Execute),
            Sent::Piece(text, place, _) => {
                for _ in 0..own::piece(&mut self.out, text) {
                    self.expect(Expect::Piece(place));
                }
                self.expect(Expect::Execute);
            }
        }
    }

    /// Waits until all that was sent is answered. Returns whether PostgreSQL serves what comes: it does not behind an error of the
    /// extended protocol, up to the client's Sync, and while it waits for data of a COPY.
    pub(crate) async fn is_heard(&mut self) -> Result<bool, Error> {
        self.settle().await?;
        Ok(!self.shared.track().is_deaf())
    }

    /// Waits until all that was sent is answered, or PostgreSQL waits for data of the client's.
    pub(crate) async fn settle(&mut self) -> Result<(), Error> {
        if self.shared.track().is_settled() {
            return Ok(());
        }
        self.out.extend_from_slice(own::FLUSH);
        self.flush().await?;
        while !self.shared.track().is_settled() {
            self.shared.changed.notified().await;
        }
        Ok(())
    }

    /// Lets the other direction go on behind an own reply, with what it writes to the client first. An error goes to the
    /// client.
    pub(crate) fn go_on(&self, reply: &OwnReply, bytes: Vec<u8>) {
        self.go_on_to(reply, bytes, false);
    }

    /// Does the same with a command tag; `is_end` says that it ends a Query.
    pub(crate) fn go_on_to(&self, reply: &OwnReply, tag: Vec<u8>, is_end: bool) {
        match reply {
            OwnReply::Failed(error) => self.write(own::without_context(error), false),
            OwnReply::Unsent => {}
            OwnReply::Row(_) | OwnReply::Skipped => self.write(tag, is_end),
        }
    }

    /// Writes to the client, while the other direction waits for nothing of this one. It may be a command tag that ends a Query.
    pub(crate) fn say(&self, bytes: Vec<u8>, is_end: bool) {
        self.write(bytes, is_end);
    }

    fn write(&self, bytes: Vec<u8>, is_end: bool) {
        let bytes = bytes.into();
        // If that fails, the other direction has ended.
        let _ = self.resume.send(Resumed { bytes, is_end });
    }

    /// Sends a statement whose rows are the client's, and waits for its tag. The other direction waits for
    /// [`Requests::go_on`] then.
    pub(crate) async fn ask_rest(&mut self, rest: &Rest) -> Result<OwnReply, Error> {
        if self.shared.track().is_skipping() {
            return Ok(OwnReply::Unsent);
        }
        self.shared.track().make_room();
        let closed = self.close_left();
        self.own.names += 1;
        let name = format!("{}{}", own::PREFIX, self.own.names);
        let Rest {
            text,
            types,
            formats,
            values,
            results,
            is_described,
            limit,
            ..
        } = rest;
        own::parse(&mut self.out, &name, text, types);
        own::bind_as(&mut self.out, &name, &name, formats, values, results);
        if *is_described {
            own::describe_portal(&mut self.out, &name);
        }
        own::execute(&mut self.out, &name);
        own::close_portal(&mut self.out, &name);
        own::close_statement(&mut self.out, &name);
        self.out.extend_from_slice(own::FLUSH);
        self.expect(Expect::OwnParse);
        self.expect(Expect::OwnBind);
        if *is_described {
            self.expect(Expect::OwnDescribe);
        }
        self.expect(Expect::OwnRows(*limit));
        self.expect(Expect::OwnShut);
        self.expect(Expect::OwnClose);
        self.flush().await?;
        let reply = self.replies.recv().await.ok_or(Error::Ended)?;
        if matches!(reply, OwnReply::Failed(_)) {
            self.own.left.push(name);
        }
        self.end_of_closing(&reply, closed);
        Ok(reply)
    }

    /// Sends a Close of each statement that failed requests may have left in the session. Returns their names.
    fn close_left(&mut self) -> Vec<String> {
        let left = std::mem::take(&mut self.own.left);
        for name in &left {
            own::close_statement(&mut self.out, name);
            self.expect(Expect::OwnShut);
        }
        left
    }

    /// Keeps the names of statements that are still to be closed: an error came before, and PostgreSQL skipped the request.
    fn end_of_closing(&mut self, reply: &OwnReply, names: Vec<String>) {
        if matches!(reply, OwnReply::Skipped) {
            self.own.left.extend(names);
        }
    }

    /// Sends a request of the proxy's own, and waits for its reply. The other direction waits for [`Requests::go_on`] then.
    pub(crate) async fn ask(
        &mut self,
        text: &str,
        values: &[Value],
        results: &[i16],
        end: End,
    ) -> Result<OwnReply, Error> {
        if self.shared.track().is_skipping() {
            return Ok(OwnReply::Unsent);
        }
        self.own.lose(self.shared.track().take_lost());
        let closed = self.close_left();
        let session = &mut self.own;
        session.names += 1;
        let portal = format!("{}{}", own::PREFIX, session.names);
        let known = session.prepared.get(text).cloned();
        let is_new = known.is_none();
        let name = known.unwrap_or_else(|| portal.clone());
        if is_new {
            own::parse(&mut self.out, &portal, text, &[]);
            self.shared.track().expect(Expect::OwnParse);
            session.prepared.insert(text.to_owned(), portal.clone());
        }
        own::bind(&mut self.out, &portal, &name, values, results);
        own::execute(&mut self.out, &portal);
        own::close_portal(&mut self.out, &portal);
        {
            let mut track = self.shared.track();
            track.expect(Expect::OwnBind);
            track.expect(Expect::OwnExecute);
            track.expect(Expect::OwnClose);
        }
        match end {
            End::Flush => self.out.extend_from_slice(own::FLUSH),
            End::Sync => {
                self.out.extend_from_slice(own::SYNC);
                self.expect(Expect::Sync);
            }
            End::Query(bytes) => self.pass(&bytes, Expect::Query),
            End::Execute(bytes) => {
                self.pass(&bytes, Expect::Execute);
                self.out.extend_from_slice(own::FLUSH);
            }
        }
        self.flush().await?;
        let reply = self.replies.recv().await.ok_or(Error::Ended)?;
        match reply {
            OwnReply::Row(_) => {}
            // PostgreSQL has seen nothing of it.
            OwnReply::Skipped => {
                if is_new {
                    self.own.prepared.remove(text);
                }
            }
            OwnReply::Failed(_) | OwnReply::Unsent => {
                // Its statements may be gone, and its greeting; what a name means may have been wrong.
                let names = self.own.prepared.drain().map(|(_, name)| name);
                self.own.left.extend(names);
                self.own.greeted = 0;
                self.shared.track().forget_meanings();
            }
        }
        self.end_of_closing(&reply, closed);
        Ok(reply)
    }
}

/// Returns the name of a statement or a portal as PostgreSQL knows it: what is behind its first 63 bytes counts for nothing.
fn known_name(name: &str) -> Cow<'_, str> {
    match name.as_bytes().get(..LONGEST_NAME) {
        // They may end amid a letter.
        Some(bytes) => bytes.iter().map(|&byte| char::from(byte)).collect(),
        None => name.into(),
    }
}

/// Returns whether the proxy may ask something in front of a text: it is one statement that may run functions. Of others some have
/// to come first in their transaction, as VACUUM and what sets an isolation.
fn may_come_second(text: &[u8]) -> bool {
    const WORDS: [&str; 8] = [
        "select", "with", "insert", "update", "delete", "execute", "call", "do",
    ];
    let text = String::from_utf8_lossy(text);
    let begins = |word: &&str| {
        let first = text.trim_start().get(..word.len());
        first.map_or(false, |it| it.eq_ignore_ascii_case(word))
    };
    !script::may_be_several(&text) && WORDS.iter().any(begins)
}

/// Returns whether a text may be a statement that the proxy looks at.
fn may_be_looked_at(text: &[u8]) -> bool {
    let words: [&[u8]; 3] = [b"update", b"with", b"delete"];
    words.iter().any(|word| contains(text, word))
}

/// Returns whether a text has a word, which is in small letters, in letters of any case.
fn contains(text: &[u8], word: &[u8]) -> bool {
    let mut all = text.windows(word.len());
    all.any(|it| it[0] | 0x20 == word[0] && it.eq_ignore_ascii_case(word))
}

/// Returns whether a text names the functions of holds, as `escrow.hold` looks for its own name in it.
fn names_holds(text: &[u8]) -> bool {
    contains(text, b"escrow.")
        && ["hold", "take", "release", "prolong"]
            .iter()
            .any(|name| contains(text, format!("escrow.{name}").as_bytes()))
}

#[cfg(test)]
mod tests {
    use super::*;

    #[test]
    fn the_last_texts_are_not_read_again() {
        let mut forms = Forms::default();
        let mut read = |key: usize| {
            let text = format!("UPDATE t SET n = n - 1 WHERE id = {key}");
            match forms.read(&text) {
                Some(Statement::Update(form)) if form.text() == text => form,
                other => panic!("{text} is read as {other:?}"),
            }
        };
        let first = read(0);
        assert!(Arc::ptr_eq(&first, &read(0)));
        for key in 1..KEPT {
            read(key);
        }
        assert!(Arc::ptr_eq(&first, &read(0)), "{KEPT} are kept");
        read(KEPT);
        assert!(!Arc::ptr_eq(&first, &read(0)), "the oldest has gone");
    }

    #[test]
    fn names_are_the_same_as_in_postgres() {
        let begin = format!("{}\u{e4}", "n".repeat(LONGEST_NAME - 1));
        let same = known_name(&begin);
        assert_eq!(
            known_name(&begin[..LONGEST_NAME - 1]),
            "n".repeat(LONGEST_NAME - 1)
        );
        assert!(
            same == known_name(&format!("{begin}a"))
                && same != known_name(&begin.replace('\u{e4}', "b"))
        );
    }

    #[test]
    fn a_word_is_found_in_letters_of_any_case() {
        assert!(contains(
            b"SELECT Set_Config('a', 'b', true)",
            b"set_config"
        ));
        assert!(!contains(b"SELECT set config, @et_config", b"set_config"));
        assert!(!contains(b"set", b"set_config"));
    }
}
