//! What a connection's PostgreSQL still has to answer, and what is known of its prepared statements and portals.
//!
//! Each message that is sent puts what it expects into a queue; each reply takes from its front. So it is known whose a
//! reply is: the client's, or the proxy's own. An error takes all away that PostgreSQL skips, up to the next Sync.

use std::collections::{HashMap, VecDeque};
use std::sync::atomic::{AtomicU64, Ordering};
use std::sync::{Arc, Mutex, MutexGuard, PoisonError};

use bytes::Bytes;

use crate::own::{self, KeptRow};
use crate::protocol::{Status, Tag};
use crate::update::Statement;

/// A statement that the client has prepared, if the proxy looks at it.
#[derive(Debug)]
pub struct Prepared {
    /// What its text asks for.
    pub statement: Statement,
    /// Whether its text names the functions of holds, so that they may run by it.
    pub names_holds: bool,
    /// Whether the proxy may ask something in front of it, in its transaction.
    pub may_come_second: bool,
    /// Whether its text names the function that shows what is reserved.
    pub shows: bool,
    /// The types of its parameters, as far as the client has told them, or PostgreSQL has described them.
    pub types: Vec<u32>,
}

impl Prepared {
    /// Returns whether something may go wrong if a name means another statement by then. A DELETE only has a row left, at worst for
    /// nothing, and a COMMIT passes as it is unless the hub hears of the connection.
    fn matters(&self, is_engaged: bool) -> bool {
        let passes = match self.statement {
            Statement::Delete(_) => true,
            Statement::Commit => !is_engaged,
            _ => false,
        };
        self.names_holds || self.shows || !passes
    }
}

/// A portal of such a statement.
#[derive(Debug)]
pub struct Bound {
    /// The statement.
    pub statement: Arc<Prepared>,
    /// The formats of its values.
    pub formats: Vec<i16>,
    /// Its values.
    pub values: Vec<Option<Vec<u8>>>,
    /// The formats of the columns of its result.
    pub results: Vec<i16>,
    /// Whether its Bind was too large to be looked at, so that it has no values here.
    pub is_large: bool,
    /// What an Execute has left of its rows, once it has run.
    pub left: Mutex<Option<Left>>,
    /// How often names of tables had changed their meanings, at most, when PostgreSQL bound it. 0: that is not answered yet.
    pub meanings: AtomicU64,
}

impl Bound {
    /// Returns a portal whose values were too large to be looked at.
    pub fn large(statement: Arc<Prepared>) -> Bound {
        Bound {
            statement,
            formats: Vec::new(),
            values: Vec::new(),
            results: Vec::new(),
            is_large: true,
            left: Mutex::default(),
            meanings: AtomicU64::default(),
        }
    }

    /// Returns what an Execute has left of its rows, once it has run.
    pub fn left(&self) -> MutexGuard<'_, Option<Left>> {
        self.left.lock().unwrap_or_else(PoisonError::into_inner)
    }

    /// Returns how many bytes the rows take that are left.
    fn bytes_left(&self) -> usize {
        let left = self.left();
        left.iter().flat_map(|it| &it.rows).map(size).sum()
    }
}

/// The rows of a portal that its client has not asked for yet.
#[derive(Debug, Default)]
pub struct Left {
    /// The rows, as messages.
    pub rows: VecDeque<Bytes>,
    /// The command tag without its number.
    pub tag: String,
}

impl Left {
    /// Takes so many rows, or all for 0, and what tells how they end: that there may be more, or how many they are.
    pub fn take(&mut self, limit: usize) -> Vec<u8> {
        let all = self.rows.len();
        let count = if limit == 0 { all } else { all.min(limit) };
        let mut out: Vec<u8> = self.rows.drain(..count).flatten().collect();
        match count == limit && limit > 0 {
            true => out.extend(own::SUSPENDED),
            false => out.extend(own::command_complete(&format!("{} {count}", self.tag))),
        }
        out
    }
}

/// The most bytes of rows that are kept for portals of a connection.
const MOST_KEPT: usize = 16 << 20;

/// Rows of an own request that the client has not asked for yet.
#[derive(Debug, Default)]
pub struct Kept {
    /// The rows, as messages.
    pub rows: Vec<Bytes>,
    /// Whether the client has got as many as it has asked for.
    pub is_full: bool,
    /// Whether they are too many to be kept, so that some are missing.
    pub are_too_many: bool,
    /// The bytes that there is room for.
    room: usize,
}

impl Kept {
    /// Keeps a row, if there is room.
    fn push(&mut self, row: Bytes) {
        match self.room.checked_sub(size(&row)) {
            Some(room) if !self.are_too_many => {
                self.room = room;
                self.rows.push(row);
            }
            _ => {
                self.are_too_many = true;
                self.rows = Vec::new();
            }
        }
    }
}

/// Returns how many bytes a row takes that is kept.
fn size(row: &Bytes) -> usize {
    row.len() + std::mem::size_of::<Bytes>()
}

/// What is expected next.
#[derive(Debug)]
pub enum Expect {
    /// The end of the startup.
    Startup,
    /// ParseComplete: then the name stands for the statement, or for one that is no reservation.
    Parse(String, Option<Arc<Prepared>>),
    /// BindComplete: then the portal is this one.
    Bind(String, Option<Arc<Bound>>),
    /// What a portal is described with, or the statement of this name.
    Describe(Option<String>),
    /// CloseComplete: then this statement is gone.
    CloseStatement(String),
    /// CloseComplete: then this portal is gone.
    ClosePortal(String),
    /// The replies to an Execute.
    Execute,
    /// The replies to a Query, up to its ReadyForQuery.
    Query,
    /// The replies to a FunctionCall, up to its ReadyForQuery.
    Function,
    /// A ReadyForQuery.
    Sync,
    /// Data of a COPY that the client has sent. Nothing answers them.
    CopyData,
    /// The end of a COPY that the client has sent. Nothing answers it by itself.
    CopyEnd,
    /// The statement that the DEALLOCATE in front of it names. Nothing answers it by itself.
    Deallocated(String),
    /// The acknowledgement, or the description, of a statement of a string, which begins behind so many characters of it.
    Piece(usize),
    /// ParseComplete, of the proxy's own.
    OwnParse,
    /// BindComplete, of the proxy's own.
    OwnBind,
    /// The replies to an Execute of the proxy's own.
    OwnExecute,
    /// The description of an own result that is the client's.
    OwnDescribe,
    /// The replies to an Execute of the proxy's own whose rows are the client's: all of them, or so many before others are kept.
    OwnRows(Option<usize>),
    /// CloseComplete, of the proxy's own.
    OwnShut,
    /// CloseComplete, with which an own reply is whole.
    OwnClose,
}

impl Expect {
    fn is_own(&self) -> bool {
        matches!(
            self,
            Expect::OwnParse
                | Expect::OwnBind
                | Expect::OwnExecute
                | Expect::OwnDescribe
                | Expect::OwnRows(_)
                | Expect::OwnShut
                | Expect::OwnClose
        )
    }

    /// Returns whether nothing answers it by itself.
    fn is_silent(&self) -> bool {
        matches!(
            self,
            Expect::CopyData | Expect::CopyEnd | Expect::Deallocated(_)
        )
    }

    /// Returns whether it runs something, or may stop errors from being skipped.
    fn runs(&self) -> bool {
        self.ends_ready() || matches!(self, Expect::Execute) || self.is_own()
    }

    /// Returns whether a ReadyForQuery ends it.
    fn ends_ready(&self) -> bool {
        matches!(
            self,
            Expect::Startup | Expect::Query | Expect::Function | Expect::Sync
        )
    }
}

/// What a reply is.
#[derive(Clone, Copy, Debug, PartialEq, Eq)]
pub enum Reply {
    /// It goes to the client, and ends nothing.
    Pass,
    /// A CommandComplete of the client's.
    Completed(Tag),
    /// An ErrorResponse of the client's. With it PostgreSQL skips an own request, or not.
    Failed {
        /// Whether an own request was skipped.
        skips_own: bool,
        /// By how many characters its place is further behind in the client's text.
        moved: usize,
    },
    /// A ReadyForQuery. It counts when [`Track::ready`] is called.
    Ready(Status),
    /// A part of an own reply.
    Own,
    /// A row of an own request whose rows are the client's, which the client has not asked for yet.
    Kept,
    /// The command tag of an own request whose rows are the client's.
    OwnTag,
    /// The last part of an own reply.
    OwnDone,
    /// The error that ends an own request.
    OwnFailed,
    /// It answers nothing that was asked.
    Stray,
}

/// What the session has lost of what the proxy has made in it.
#[derive(Clone, Copy, Debug, PartialEq, Eq, PartialOrd, Ord)]
pub enum Lost {
    /// Nothing.
    Nothing,
    /// Its greeting.
    Greeting,
    /// Its statements too.
    All,
}

/// What is known of one connection.
#[derive(Debug)]
pub struct Track {
    queue: VecDeque<Expect>,
    /// Whether PostgreSQL skips what comes, up to a Sync that was not sent yet.
    is_skipping: bool,
    /// The status of the last ReadyForQuery.
    status: Status,
    /// Whether since then nothing was answered that begins or ends a transaction, and no error.
    is_plain: bool,
    /// Whether since then nothing of the client's has run.
    is_fresh: bool,
    statements: HashMap<String, Arc<Prepared>>,
    portals: HashMap<String, Arc<Bound>>,
    /// Whether names of tables may mean something else than before, to the end of the transaction.
    is_volatile: bool,
    /// Whether it is known if a COMMIT waits for its fold: a setting of the client's, which changes as meanings do.
    knows_wait: bool,
    /// What names of tables mean.
    resolved: HashMap<String, Option<u32>>,
    /// How often that may have changed, and 1.
    meanings: u64,
    /// What the session has lost of the proxy's.
    lost: Lost,
    /// Whether a COPY into PostgreSQL is under way.
    is_copying: bool,
    /// How many Syncs in front of the data of COPYs that have failed were taken for ignored. PostgreSQL has answered one if a
    /// trigger failed before it read anything.
    spare_syncs: usize,
    /// Whether something was answered since the last ReadyForQuery.
    is_answered: bool,
    /// Whether PostgreSQL may have a statement or a portal without a name.
    has_unnamed: bool,
    /// Whether something that is expected may give a name to what the proxy looks at. A long pipeline of other statements is not
    /// searched for each of them.
    gives_names: bool,
    /// Rows of the own request that is under way, or was last.
    kept_rows: Kept,
    /// The rows for which PostgreSQL has refused something to the client, since the proxy holds them.
    refused_rows: Vec<KeptRow>,
    /// The process that serves the client.
    pub process: i32,
    /// Whether texts have `standard_conforming_strings`.
    pub is_conforming: bool,
    /// Whether texts are in UTF-8.
    pub is_utf8: bool,
    /// Whether PostgreSQL takes texts in UTF-8 as they are: they are so, or in no encoding.
    pub takes_utf8: bool,
}

impl Default for Track {
    fn default() -> Self {
        Track::new()
    }
}

impl Track {
    /// Returns a connection whose startup is under way.
    pub fn new() -> Track {
        Track {
            queue: VecDeque::from([Expect::Startup]),
            is_skipping: false,
            status: Status::Idle,
            is_plain: true,
            is_fresh: true,
            statements: HashMap::new(),
            portals: HashMap::new(),
            is_volatile: false,
            knows_wait: false,
            resolved: HashMap::new(),
            meanings: 1,
            lost: Lost::Nothing,
            is_copying: false,
            spare_syncs: 0,
            is_answered: false,
            has_unnamed: false,
            gives_names: false,
            kept_rows: Kept::default(),
            refused_rows: Vec::new(),
            process: 0,
            is_conforming: true,
            is_utf8: false,
            takes_utf8: false,
        }
    }

    /// Notes what a message that is sent expects.
    pub fn expect(&mut self, expect: Expect) {
        if self.is_skipping {
            if !matches!(expect, Expect::Sync) {
                return;
            }
            self.is_skipping = false;
        }
        self.gives_names &= !self.queue.is_empty();
        self.gives_names |= matches!(expect, Expect::Parse(_, Some(_)) | Expect::Bind(_, Some(_)));
        match &expect {
            Expect::Parse(name, _) | Expect::Bind(name, _) => self.has_unnamed |= name.is_empty(),
            Expect::Query => self.has_unnamed = false,
            _ => {}
        }
        self.queue.push_back(expect);
    }

    /// The client sends data of a COPY, which PostgreSQL may not have begun yet.
    pub fn copy_goes_on(&mut self) {
        if !self.is_quiet() && !matches!(self.queue.back(), Some(Expect::CopyData)) {
            self.expect(Expect::CopyData);
        }
    }

    /// The client ends a COPY, which PostgreSQL may not have begun yet.
    pub fn copy_ends(&mut self) {
        if !self.is_quiet() {
            self.expect(Expect::CopyEnd);
        }
    }

    /// A COPY into PostgreSQL was done. PostgreSQL has ignored each Sync up to its end.
    fn copy_is_done(&mut self) {
        let is_in_it = |it: &&Expect| matches!(it, Expect::Sync | Expect::CopyData);
        let ignored = self.queue.iter().skip(1).take_while(is_in_it).count();
        if matches!(self.queue.get(1 + ignored), Some(Expect::CopyEnd)) {
            self.queue.drain(1..=1 + ignored);
        }
    }

    /// A COPY into PostgreSQL has failed, most likely by its data: PostgreSQL has ignored each Sync in front of them.
    fn copy_has_failed(&mut self) {
        self.spare_syncs = 0;
        while matches!(self.queue.get(1), Some(Expect::Sync)) {
            self.queue.remove(1);
            self.spare_syncs += 1;
        }
    }

    /// Returns whether PostgreSQL waits for data of a COPY whose end the client has not sent: it answers nothing else then.
    fn is_fed(&self) -> bool {
        self.is_copying && !self.queue.iter().any(|it| matches!(it, Expect::CopyEnd))
    }

    /// Returns whether all is answered.
    pub fn is_quiet(&self) -> bool {
        self.queue.iter().all(Expect::is_silent)
    }

    /// Returns whether all is answered, or PostgreSQL answers nothing more before the client goes on.
    pub fn is_settled(&self) -> bool {
        self.is_quiet() || self.is_fed()
    }

    /// Returns whether something is not answered that may change what is reserved, or that may stop errors from being
    /// skipped.
    pub fn is_executing(&self) -> bool {
        self.queue.iter().any(Expect::runs)
    }

    /// Returns whether something was sent behind what the next ReadyForQuery ends.
    pub fn goes_on(&self) -> bool {
        let mut queue = self.queue.iter().skip_while(|it| !it.ends_ready());
        queue.by_ref().next();
        queue.any(|it| !it.is_silent())
    }

    /// Returns whether nothing is left of a string but what closes its last statement, and its Sync.
    pub fn ends_string(&self) -> bool {
        let mut queue = self.queue.iter();
        let closes = queue
            .by_ref()
            .take(2)
            .all(|it| matches!(it, Expect::Piece(_)));
        closes && matches!(queue.next(), Some(Expect::Sync))
    }

    /// Returns whether PostgreSQL skips what comes.
    pub fn is_skipping(&self) -> bool {
        self.is_skipping
    }

    /// Returns whether PostgreSQL serves nothing that comes: it skips it, or ends the session since it waits for data.
    pub fn is_deaf(&self) -> bool {
        self.is_skipping || self.is_fed()
    }

    /// Returns the status of the last ReadyForQuery.
    pub fn status(&self) -> Status {
        self.status
    }

    /// Returns whether nothing was answered since the last ReadyForQuery that begins or ends a transaction, and no error.
    pub fn is_plain(&self) -> bool {
        self.is_plain
    }

    /// Returns whether nothing of the client's has run since the last ReadyForQuery, as far as it is answered.
    pub fn is_fresh(&self) -> bool {
        self.is_fresh
    }

    /// The proxy serves something of the client's itself.
    pub fn runs(&mut self) {
        self.is_fresh = false;
    }

    /// Returns whether it depends on what is not answered which portal of interest a name is.
    pub fn may_lose_portal(&self, name: &str, is_engaged: bool) -> bool {
        let matters = |it: &Arc<Bound>| it.statement.matters(is_engaged);
        let binds = |it: &Expect| matches!(it, Expect::Bind(portal, Some(bound)) if portal == name && matters(bound));
        let is_about = |it: &Expect| matches!(it, Expect::Bind(other, _) | Expect::ClosePortal(other) if other == name);
        let is_known = self.portals.get(name).map_or(false, matters);
        self.may_lose(is_known, binds, is_about)
    }

    /// Does the same for the name of a statement.
    pub fn may_lose_statement(&self, name: &str, is_engaged: bool) -> bool {
        let matters = |it: &Arc<Prepared>| it.matters(is_engaged);
        let parses = |it: &Expect| matches!(it, Expect::Parse(other, Some(prepared)) if other == name && matters(prepared));
        let is_about = |it: &Expect| matches!(it, Expect::Parse(other, _) | Expect::CloseStatement(other) if other == name);
        let is_known = self.statements.get(name).map_or(false, matters);
        self.may_lose(is_known, parses, is_about)
    }

    /// Does it for either: whether what is answered gives the name, or what is expected, and what is about it.
    fn may_lose(
        &self,
        is_known: bool,
        gives: impl Fn(&Expect) -> bool,
        is_about: impl Fn(&Expect) -> bool,
    ) -> bool {
        (is_known || self.gives_names)
            && self.runs_behind(is_about)
            && (is_known || self.queue.iter().any(gives))
    }

    /// Returns whether something is not answered that runs or ends a cycle behind the last message about a name. What runs may drop
    /// what has the name. And behind the end of a cycle it is not known whether the message has failed.
    fn runs_behind(&self, is_about: impl Fn(&Expect) -> bool) -> bool {
        let mut behind = self.queue.iter().rev().take_while(|it| !is_about(it));
        behind.any(Expect::runs)
    }

    /// Returns the portal of a name, as it will be when all is answered without an error.
    pub fn portal(&self, name: &str) -> Option<Arc<Bound>> {
        let last = self.queue.iter().rev().find_map(|it| match it {
            Expect::Bind(portal, bound) if portal == name => Some(bound.clone()),
            Expect::ClosePortal(portal) if portal == name => Some(None),
            Expect::Query if name.is_empty() => Some(None),
            _ => None,
        });
        last.unwrap_or_else(|| self.portals.get(name).cloned())
    }

    /// Keeps no rows of former requests, and makes room for those of another one.
    pub fn make_room(&mut self) {
        let kept: usize = self.portals.values().map(|it| it.bytes_left()).sum();
        self.kept_rows = Kept {
            room: MOST_KEPT.saturating_sub(kept),
            ..Kept::default()
        };
    }

    /// Keeps a row that the client has not asked for yet.
    pub fn keep_row(&mut self, row: Bytes) {
        self.kept_rows.push(row);
    }

    /// Returns the rows that were kept.
    pub fn take_kept_rows(&mut self) -> Kept {
        std::mem::take(&mut self.kept_rows)
    }

    /// PostgreSQL has refused something, since the proxy holds this row.
    pub fn refuse_row(&mut self, row: KeptRow) {
        self.refused_rows.push(row);
    }

    /// Returns the rows for which something was refused since the last call.
    pub fn take_refused_rows(&mut self) -> Vec<KeptRow> {
        std::mem::take(&mut self.refused_rows)
    }

    /// A portal is run: PostgreSQL runs none a second time.
    pub fn spend_portal(&mut self, name: &str) {
        self.portals.remove(name);
        for it in &mut self.queue {
            match it {
                Expect::Bind(portal, bound) if portal == name => *bound = None,
                _ => {}
            }
        }
    }

    /// The text of the last Parse names the functions of holds. More parts of that message may come.
    pub fn parse_names_holds(&mut self) {
        if let Some(Expect::Parse(_, prepared)) = self.queue.back_mut() {
            self.gives_names = true;
            *prepared = Some(Arc::new(Prepared {
                statement: Statement::Named,
                names_holds: true,
                may_come_second: true,
                shows: false,
                types: Vec::new(),
            }));
        }
    }

    /// Returns the statement of a name, as it will be when all is answered without an error.
    pub fn statement(&self, name: &str) -> Option<Arc<Prepared>> {
        if !self.gives_names && !self.statements.contains_key(name) {
            return None;
        }
        let last = self.queue.iter().rev().find_map(|it| match it {
            Expect::Parse(statement, prepared) if statement == name => Some(prepared.clone()),
            Expect::CloseStatement(statement) if statement == name => Some(None),
            Expect::Query if name.is_empty() => Some(None),
            _ => None,
        });
        last.unwrap_or_else(|| self.statements.get(name).cloned())
    }

    /// The proxy serves a Query itself, which drops the statement and the portal without a name. All is answered. Returns whether
    /// PostgreSQL may have them: then two messages that close them are to be sent. An error in their place is the client's, since no
    /// request of the proxy's own waits for it.
    pub fn drop_unnamed(&mut self) -> bool {
        self.statements.remove("");
        self.portals.remove("");
        let are_closed = std::mem::take(&mut self.has_unnamed);
        if are_closed {
            self.expect(Expect::Piece(0));
            self.expect(Expect::Piece(0));
        }
        are_closed
    }

    /// Forgets all statements and portals: a message that was not looked at may have changed any of them.
    pub fn forget_statements(&mut self) {
        self.forget_answered();
        for it in &mut self.queue {
            match it {
                Expect::Parse(_, prepared) => *prepared = None,
                Expect::Bind(_, bound) => *bound = None,
                _ => {}
            }
        }
    }

    /// Forgets those that PostgreSQL has made so far, and none that was sent behind what it answers now.
    fn forget_answered(&mut self) {
        self.statements.clear();
        self.portals.clear();
    }

    /// Returns what a name of a table means, if that is known: a relation, or nothing.
    pub fn meaning(&self, name: &str) -> Option<Option<u32>> {
        if self.is_volatile {
            return None;
        }
        self.resolved.get(name).copied()
    }

    /// Returns whether the names in a portal may mean something else than when PostgreSQL bound it.
    pub fn has_other_meanings(&self, bound: &Bound) -> bool {
        let then = bound.meanings.load(Ordering::Relaxed);
        then != 0 && then != self.meanings
    }

    /// Keeps what a name of a table means.
    pub fn set_meaning(&mut self, name: String, oid: Option<u32>) {
        // A client that makes up names gets no more than this.
        if self.resolved.len() >= 100 {
            self.resolved.clear();
        }
        self.resolved.insert(name, oid);
    }

    /// Forgets what names mean, and the settings that are known.
    pub fn forget_meanings(&mut self) {
        self.resolved.clear();
        self.meanings += 1;
        self.knows_wait = false;
        self.is_volatile = true;
    }

    /// Returns whether it is known if a COMMIT waits for its fold.
    pub fn knows_wait(&self) -> bool {
        self.knows_wait
    }

    /// It is known now.
    pub fn learn_wait(&mut self) {
        self.knows_wait = true;
    }

    /// Returns what the session has lost of the proxy's since the last call.
    pub fn take_lost(&mut self) -> Lost {
        std::mem::replace(&mut self.lost, Lost::Nothing)
    }

    /// Takes a reply, by its kind and its body.
    pub fn reply(&mut self, kind: u8, body: &[u8]) -> Reply {
        while self.queue.front().map_or(false, Expect::is_silent) {
            self.queue.pop_front();
        }
        match kind {
            // They come at any time.
            b'N' | b'A' | b'R' | b'v' => return Reply::Pass,
            b'S' => {
                self.note_parameter(body);
                return Reply::Pass;
            }
            b'K' => {
                let process = body.get(..4).and_then(|it| it.try_into().ok());
                self.process = process.map_or(0, i32::from_be_bytes);
                return Reply::Pass;
            }
            b'Z' if self.is_spare() => {
                self.spare_syncs -= 1;
                self.is_answered = false;
                self.is_skipping &= !self.queue.is_empty();
                return Reply::Pass;
            }
            b'Z' => {
                return match body.first() {
                    Some(b'I') => Reply::Ready(Status::Idle),
                    Some(b'T') => Reply::Ready(Status::InBlock),
                    Some(b'E') => Reply::Ready(Status::Failed),
                    _ => Reply::Stray,
                }
            }
            _ => self.is_answered = true,
        }
        if kind == b'E' {
            return self.error();
        }
        match (kind, self.queue.front()) {
            (b'1', Some(Expect::Parse(..))) => {
                if let Some(Expect::Parse(name, prepared)) = self.queue.pop_front() {
                    match prepared {
                        Some(prepared) => self.statements.insert(name, prepared),
                        None => self.statements.remove(&name),
                    };
                }
                Reply::Pass
            }
            (b'2', Some(Expect::Bind(..))) => {
                if let Some(Expect::Bind(name, bound)) = self.queue.pop_front() {
                    match bound {
                        Some(bound) => {
                            bound.meanings.store(self.meanings, Ordering::Relaxed);
                            self.portals.insert(name, bound)
                        }
                        None => self.portals.remove(&name),
                    };
                }
                Reply::Pass
            }
            (b'3', Some(Expect::CloseStatement(_) | Expect::ClosePortal(_))) => {
                match self.queue.pop_front() {
                    Some(Expect::CloseStatement(name)) => drop(self.statements.remove(&name)),
                    Some(Expect::ClosePortal(name)) => drop(self.portals.remove(&name)),
                    _ => {}
                }
                Reply::Pass
            }
            (b'T' | b'n', Some(Expect::Describe(_))) => {
                self.queue.pop_front();
                Reply::Pass
            }
            (b't', Some(Expect::Describe(name))) => {
                let found = name.as_ref().and_then(|it| self.statements.get_mut(it));
                if let (Some(prepared), Some(types)) = (found, own::types(body)) {
                    *prepared = Arc::new(Prepared {
                        statement: prepared.statement.clone(),
                        names_holds: prepared.names_holds,
                        may_come_second: prepared.may_come_second,
                        shows: prepared.shows,
                        types,
                    });
                }
                Reply::Pass
            }
            (b'C', Some(Expect::Execute | Expect::Query)) if self.is_copying => {
                self.is_copying = false;
                self.copy_is_done();
                self.reply(kind, body)
            }
            (b'C', Some(Expect::Execute)) => {
                self.queue.pop_front();
                Reply::Completed(self.completed(body))
            }
            (b'C', Some(Expect::Query)) => Reply::Completed(self.completed(body)),
            (b'I' | b's', Some(Expect::Execute)) => {
                self.is_fresh = false;
                self.queue.pop_front();
                Reply::Pass
            }
            (b'G', Some(Expect::Execute | Expect::Query)) => {
                self.is_copying = true;
                Reply::Pass
            }
            (
                b'D' | b'T' | b'H' | b'W' | b'd' | b'c' | b'I',
                Some(Expect::Execute | Expect::Query),
            ) => Reply::Pass,
            (b'V', Some(Expect::Function)) => Reply::Pass,
            (b'1', Some(Expect::OwnParse))
            | (b'2', Some(Expect::OwnBind))
            | (b'1' | b'2' | b'3' | b'n', Some(Expect::Piece(_))) => {
                self.queue.pop_front();
                Reply::Own
            }
            (b'T', Some(Expect::Piece(_))) => {
                self.queue.pop_front();
                Reply::Pass
            }
            (b'D' | b'T', Some(Expect::OwnExecute)) => Reply::Own,
            (b'C', Some(Expect::OwnExecute)) => {
                self.queue.pop_front();
                Reply::Own
            }
            (b'T', Some(Expect::OwnDescribe)) => {
                self.queue.pop_front();
                Reply::Pass
            }
            (b'n', Some(Expect::OwnDescribe)) | (b'3', Some(Expect::OwnShut)) => {
                self.queue.pop_front();
                Reply::Own
            }
            (b'D', Some(Expect::OwnRows(_))) => self.own_row(),
            (b'C', Some(&Expect::OwnRows(left))) => {
                self.kept_rows.is_full = left == Some(0);
                self.queue.pop_front();
                Reply::OwnTag
            }
            (b'3', Some(Expect::OwnClose)) => {
                self.queue.pop_front();
                Reply::OwnDone
            }
            _ => Reply::Stray,
        }
    }

    /// Returns whether a large message of this kind has to be looked at as a whole: an error that answers the proxy, or with which
    /// PostgreSQL skips a request of the proxy's, or whose place in the client's text changes; and a row that the client has not
    /// asked for yet.
    pub fn needs_whole(&self, kind: u8) -> bool {
        let mut queue = self.queue.iter().filter(|it| !it.is_silent());
        match kind {
            b'E' => queue
                .take_while(|it| !matches!(it, Expect::Sync))
                .any(|it| it.is_own() || matches!(it, Expect::Piece(_))),
            b'D' => matches!(queue.next(), Some(Expect::OwnRows(Some(0)))),
            _ => false,
        }
    }

    /// Returns whether a ReadyForQuery answers a Sync that was taken for ignored. A Query has other answers in front of its own one.
    fn is_spare(&self) -> bool {
        let is_next = match self.queue.front() {
            Some(Expect::Query | Expect::Function) => self.is_answered,
            front => front.map_or(false, Expect::ends_ready),
        };
        self.spare_syncs > 0 && !is_next
    }

    /// Takes a row of an own request whose rows are the client's.
    fn own_row(&mut self) -> Reply {
        match self.queue.front_mut() {
            Some(Expect::OwnRows(Some(0))) => Reply::Kept,
            Some(Expect::OwnRows(Some(left))) => {
                *left -= 1;
                Reply::Pass
            }
            _ => Reply::Pass,
        }
    }

    /// Takes an error: PostgreSQL skips all of the extended protocol up to the next Sync.
    fn error(&mut self) -> Reply {
        self.is_plain = false;
        if std::mem::take(&mut self.is_copying) {
            self.copy_has_failed();
        }
        let (is_own, moved) = match self.queue.front() {
            Some(Expect::Piece(place)) => (false, *place),
            Some(front) if !front.ends_ready() => (front.is_own(), 0),
            _ => {
                let (skips_own, moved) = (false, 0);
                return Reply::Failed { skips_own, moved };
            }
        };
        let mut skips_own = false;
        while let Some(front) = self.queue.front() {
            if matches!(front, Expect::Sync) {
                break;
            }
            skips_own |= front.is_own();
            self.queue.pop_front();
        }
        self.is_skipping = self.queue.is_empty();
        if is_own {
            Reply::OwnFailed
        } else {
            Reply::Failed { skips_own, moved }
        }
    }

    /// A ReadyForQuery counts.
    pub fn ready(&mut self, status: Status) {
        while let Some(front) = self.queue.pop_front() {
            if matches!(front, Expect::Query) {
                // A simple query drops them.
                self.portals.remove("");
                self.statements.remove("");
            }
            if front.ends_ready() {
                break;
            }
        }
        self.status = status;
        self.is_answered = false;
        self.is_plain = true;
        self.is_fresh = true;
        self.is_copying = false;
        if status == Status::Idle {
            self.portals.clear();
            if self.is_volatile {
                self.forget_meanings();
                self.is_volatile = false;
            }
        }
    }

    /// Notes what a command tag says.
    fn completed(&mut self, body: &[u8]) -> Tag {
        self.is_fresh = false;
        let text = body.strip_suffix(&[0]).unwrap_or(body);
        let text = std::str::from_utf8(text).unwrap_or("");
        let tag = Tag::read(text);
        let word = text.split(' ').next().unwrap_or("");
        if tag != Tag::Plain || word == "BEGIN" {
            self.is_plain = false;
        }
        if matches!(tag, Tag::Commit | Tag::Other) {
            self.portals.clear();
        }
        match word {
            "SELECT" | "INSERT" | "UPDATE" | "DELETE" | "BEGIN" | "COMMIT" | "SAVEPOINT"
            | "RELEASE" | "FETCH" | "MOVE" | "COPY" | "DECLARE" | "LISTEN" | "NOTIFY"
            | "EXPLAIN" | "LOCK" | "SHOW" => {}
            "DEALLOCATE" if text == "DEALLOCATE" => {
                let at = usize::from(matches!(self.queue.front(), Some(Expect::Query)));
                match self.queue.get(at) {
                    Some(Expect::Deallocated(name)) => drop(self.statements.remove(name)),
                    _ => self.forget_answered(),
                }
            }
            // A cursor is a portal too.
            "CLOSE" => self.portals.clear(),
            // PREPARE gives no name that another statement has.
            "PREPARE" => {}
            "DEALLOCATE" => self.forget_answered(),
            "DISCARD" => self.forget_meanings(),
            _ => self.forget_meanings(),
        }
        let lost = match text {
            "DEALLOCATE ALL" => Lost::All,
            "DISCARD ALL" => {
                self.forget_answered();
                Lost::All
            }
            // It has the number of the greeting.
            "DISCARD SEQUENCES" => Lost::Greeting,
            _ => Lost::Nothing,
        };
        self.lost = self.lost.max(lost);
        tag
    }

    fn note_parameter(&mut self, body: &[u8]) {
        let mut words = body.split(|&byte| byte == 0);
        match (words.next(), words.next()) {
            (Some(b"standard_conforming_strings"), Some(value)) => {
                self.is_conforming = value == b"on";
            }
            (Some(b"client_encoding"), Some(value)) => self.set_encoding(value),
            _ => {}
        }
    }

    /// Notes the encoding of the client's texts.
    pub fn set_encoding(&mut self, name: &[u8]) {
        self.is_utf8 = name == b"UTF8";
        self.takes_utf8 = self.is_utf8 || name == b"SQL_ASCII";
    }
}

#[cfg(test)]
mod tests {
    use super::*;

    fn started() -> Track {
        let mut track = Track::new();
        assert_eq!(track.reply(b'Z', b"I"), Reply::Ready(Status::Idle));
        track.ready(Status::Idle);
        track
    }

    #[test]
    fn an_error_skips_up_to_the_next_sync() {
        let mut track = started();
        track.expect(Expect::Parse("".to_owned(), None));
        track.expect(Expect::OwnBind);
        track.expect(Expect::OwnExecute);
        track.expect(Expect::OwnClose);
        let (skips_own, moved) = (true, 0);
        assert_eq!(track.reply(b'E', b""), Reply::Failed { skips_own, moved });
        assert!(track.is_skipping() && track.is_quiet());
        track.expect(Expect::Execute);
        assert!(track.is_quiet(), "it is skipped");
        track.expect(Expect::Sync);
        assert!(!track.is_skipping() && !track.is_quiet());
        assert_eq!(track.reply(b'Z', b"E"), Reply::Ready(Status::Failed));
        track.ready(Status::Failed);
        assert!(track.is_quiet());
    }

    #[test]
    fn an_error_of_the_sync_itself_skips_nothing() {
        let mut track = started();
        track.expect(Expect::Execute);
        track.expect(Expect::Sync);
        assert_eq!(
            track.reply(b'C', b"INSERT 0 1\0"),
            Reply::Completed(Tag::Plain)
        );
        let (skips_own, moved) = (false, 0);
        assert_eq!(track.reply(b'E', b""), Reply::Failed { skips_own, moved });
        assert!(!track.is_skipping() && !track.is_quiet());
    }

    #[test]
    fn own_replies_are_told_from_the_clients() {
        let mut track = started();
        track.expect(Expect::OwnParse);
        track.expect(Expect::OwnBind);
        track.expect(Expect::OwnExecute);
        track.expect(Expect::OwnClose);
        track.expect(Expect::Sync);
        for kind in [b'1', b'2', b'D', b'C'] {
            assert_eq!(track.reply(kind, b""), Reply::Own);
        }
        assert_eq!(track.reply(b'N', b""), Reply::Pass);
        assert_eq!(track.reply(b'3', b""), Reply::OwnDone);
        assert_eq!(track.reply(b'2', b""), Reply::Stray);
    }

    #[test]
    fn rows_are_kept_while_there_is_room() {
        let row = Bytes::from(vec![0; MOST_KEPT / 4]);
        let mut track = started();
        let statement = Statement::read("UPDATE t SET n = n - 1 WHERE id = 1").unwrap();
        let bound = Arc::new(Bound::large(Arc::new(Prepared {
            statement,
            names_holds: false,
            may_come_second: true,
            shows: false,
            types: Vec::new(),
        })));
        *bound.left() = Some(Left {
            rows: VecDeque::from([row.clone()]),
            tag: "SELECT".to_owned(),
        });
        track.expect(Expect::Bind("p".to_owned(), Some(bound)));
        track.reply(b'2', b"");
        for (count, are_too_many) in [(2, false), (3, true), (4, true), (0, false)] {
            track.make_room();
            (0..count).for_each(|_| track.keep_row(row.clone()));
            let kept = track.take_kept_rows();
            let all = if are_too_many { 0 } else { count };
            assert_eq!((kept.rows.len(), kept.are_too_many), (all, are_too_many));
        }
    }

    #[test]
    fn a_large_error_is_whole_where_it_skips_what_is_the_proxys() {
        let mut track = started();
        for (expect, is_whole) in [
            (Expect::Parse("s".to_owned(), None), false),
            (Expect::Sync, false),
            (Expect::Parse("t".to_owned(), None), false),
            (Expect::OwnParse, false),
        ] {
            track.expect(expect);
            assert_eq!(track.needs_whole(b'E'), is_whole);
        }
        track.reply(b'1', b"");
        track.ready(Status::Idle);
        assert!(track.needs_whole(b'E') && !track.needs_whole(b'N'));
    }

    #[test]
    fn an_error_where_the_unnamed_are_closed_is_the_clients() {
        let mut track = started();
        track.expect(Expect::Parse("".to_owned(), None));
        track.reply(b'1', b"");
        assert!(track.drop_unnamed() && !track.drop_unnamed());
        assert_eq!(track.reply(b'3', b""), Reply::Own);
        let (skips_own, moved) = (false, 0);
        assert_eq!(track.reply(b'E', b""), Reply::Failed { skips_own, moved });
    }

    #[test]
    fn a_statement_of_a_string_shows_its_rows_and_its_errors() {
        let mut track = started();
        for _ in 0..2 {
            for expect in [
                Expect::Piece(7),
                Expect::Piece(7),
                Expect::Piece(7),
                Expect::Execute,
                Expect::Piece(7),
            ] {
                track.expect(expect);
            }
        }
        for (kind, reply) in [
            (b'1', Reply::Own),
            (b'2', Reply::Own),
            (b'T', Reply::Pass),
            (b'D', Reply::Pass),
            (b'C', Reply::Completed(Tag::Plain)),
            (b'3', Reply::Own),
        ] {
            assert_eq!(track.reply(kind, b"SELECT 1\0"), reply);
        }
        let (skips_own, moved) = (false, 7);
        assert_eq!(track.reply(b'E', b""), Reply::Failed { skips_own, moved });
        assert!(track.is_skipping());
    }

    #[test]
    fn a_portal_is_run_once() {
        let mut track = started();
        let statement = Statement::read("UPDATE t SET n = n - 1 WHERE id = 1").unwrap();
        let types = Vec::new();
        let bound = Arc::new(Bound {
            statement: Arc::new(Prepared {
                statement,
                names_holds: false,
                may_come_second: true,
                shows: false,
                types,
            }),
            formats: Vec::new(),
            values: Vec::new(),
            results: Vec::new(),
            is_large: false,
            left: Mutex::default(),
            meanings: AtomicU64::default(),
        });
        for is_answered in [true, false] {
            track.expect(Expect::Bind("p".to_owned(), Some(bound.clone())));
            if is_answered {
                track.reply(b'2', b"");
            }
            assert!(track.portal("p").is_some());
            track.spend_portal("p");
            assert!(track.portal("p").is_none());
        }
        track.reply(b'2', b"");
        assert!(track.portal("p").is_none());
    }

    #[test]
    fn only_what_may_go_wrong_waits_for_what_runs() {
        for (text, is_engaged, waits) in [
            ("UPDATE t SET n = n - 1 WHERE id = 1", false, true),
            ("DELETE FROM t WHERE id = 1", true, false),
            ("COMMIT", false, false),
            ("COMMIT", true, true),
        ] {
            let mut track = started();
            let prepared = Arc::new(Prepared {
                statement: Statement::read(text).unwrap(),
                names_holds: false,
                may_come_second: true,
                shows: false,
                types: Vec::new(),
            });
            track.expect(Expect::Parse("a".to_owned(), Some(prepared)));
            assert!(!track.may_lose_statement("a", is_engaged), "{text}");
            track.expect(Expect::Execute);
            assert_eq!(track.may_lose_statement("a", is_engaged), waits, "{text}");
            assert!(track.statement("a").is_some() && !track.may_lose_statement("b", is_engaged));
        }
    }

    #[test]
    fn a_deallocate_forgets_what_it_names() {
        let mut track = started();
        let statement = Statement::read("UPDATE t SET n = n - 1 WHERE id = 1").unwrap();
        let prepared = Arc::new(Prepared {
            statement,
            names_holds: false,
            may_come_second: true,
            shows: false,
            types: Vec::new(),
        });
        for name in ["a", "b"] {
            track.expect(Expect::Parse(name.to_owned(), Some(prepared.clone())));
            assert_eq!(track.reply(b'1', b""), Reply::Pass);
        }
        for (name, fails) in [("b", true), ("a", false)] {
            track.expect(Expect::Query);
            track.expect(Expect::Deallocated(name.to_owned()));
            match fails {
                true => track.reply(b'E', b""),
                false => track.reply(b'C', b"DEALLOCATE\0"),
            };
            track.reply(b'Z', b"I");
            track.ready(Status::Idle);
        }
        assert!(track.statement("a").is_none() && track.statement("b").is_some());
        assert!(track.is_quiet());
        // One that was not understood may have named any.
        track.expect(Expect::Query);
        track.reply(b'C', b"DEALLOCATE\0");
        assert!(track.statement("b").is_none());
    }

    #[test]
    fn a_sync_amid_a_copy_is_not_answered() {
        let mut track = started();
        track.expect(Expect::Execute);
        track.expect(Expect::Sync);
        assert_eq!(track.reply(b'G', b""), Reply::Pass);
        track.expect(Expect::Sync);
        track.copy_ends();
        track.expect(Expect::Sync);
        assert_eq!(track.reply(b'C', b"COPY 3\0"), Reply::Completed(Tag::Plain));
        assert_eq!(track.reply(b'Z', b"I"), Reply::Ready(Status::Idle));
        track.ready(Status::Idle);
        assert!(track.is_quiet());
    }

    #[test]
    fn an_error_amid_a_copy_leaves_the_syncs_behind_its_data() {
        // What PostgreSQL answers to the two Syncs: it has ignored the first one, or a trigger failed before it read that.
        for (what, ready) in [("data", 1), ("a trigger", 2)] {
            let mut track = started();
            track.expect(Expect::Execute);
            track.expect(Expect::Sync);
            track.copy_goes_on();
            track.expect(Expect::Sync);
            track.expect(Expect::Execute);
            assert_eq!(track.reply(b'G', b""), Reply::Pass);
            let (skips_own, moved) = (false, 0);
            assert_eq!(track.reply(b'E', b""), Reply::Failed { skips_own, moved });
            assert_eq!(track.reply(b'Z', b"I"), Reply::Ready(Status::Idle));
            track.ready(Status::Idle);
            for _ in 1..ready {
                assert_eq!(track.reply(b'Z', b"I"), Reply::Pass, "{what}");
            }
            let completed = Reply::Completed(Tag::Plain);
            assert_eq!(track.reply(b'C', b"SELECT 1\0"), completed, "{what}");
            assert!(track.is_quiet());
        }
    }

    #[test]
    fn postgres_that_waits_for_data_serves_nothing_else() {
        let mut track = started();
        for is_last in [false, true] {
            track.expect(Expect::Query);
            assert!(!track.is_settled() && !track.is_deaf());
            assert_eq!(track.reply(b'G', b""), Reply::Pass);
            assert!(track.is_settled() && track.is_deaf());
            if is_last {
                let (skips_own, moved) = (false, 0);
                assert_eq!(track.reply(b'E', b""), Reply::Failed { skips_own, moved });
                assert!(!track.is_settled() && !track.is_deaf());
                return;
            }
            track.copy_goes_on();
            assert!(track.is_deaf());
            track.copy_ends();
            assert!(!track.is_settled() && !track.is_deaf());
            track.reply(b'C', b"COPY 1\0");
            track.ready(Status::Idle);
        }
    }

    #[test]
    fn a_copy_that_is_sent_at_once_keeps_the_sync_behind_it() {
        let mut track = started();
        track.expect(Expect::Execute);
        track.expect(Expect::Sync);
        track.copy_ends();
        for _ in 0..2 {
            track.expect(Expect::Sync);
        }
        assert_eq!(track.reply(b'G', b""), Reply::Pass);
        assert_eq!(track.reply(b'C', b"COPY 3\0"), Reply::Completed(Tag::Plain));
        for is_last in [false, true] {
            assert!(!track.is_quiet());
            assert_eq!(track.reply(b'Z', b"I"), Reply::Ready(Status::Idle));
            track.ready(Status::Idle);
            assert_eq!(track.is_quiet(), is_last);
        }
        // The end of none holds nobody up.
        track.expect(Expect::Execute);
        track.copy_ends();
        assert_eq!(
            track.reply(b'C', b"SELECT 1\0"),
            Reply::Completed(Tag::Plain)
        );
        assert!(track.is_quiet());
        track.expect(Expect::Sync);
        assert_eq!(track.reply(b'Z', b"I"), Reply::Ready(Status::Idle));
    }
}
