//! A proxy around its state machine: the relay of connections, keeper, folder and loader. And its clients.

use std::collections::{BTreeMap, VecDeque};

use rand::rngs::StdRng;
use rand::seq::{IteratorRandom, SliceRandom};
use rand::Rng;

use super::postgres::{Folding, Late, Mark, Message, Note, Postgres, Reply, Shown, Statement};
use super::server::{Grant, Server};
use super::{Change, Key, Seen, Without, CLIENTS, KEYS};
use crate::protocol::{
    Action, Answer, Connection, Event, Id, Line, News, Ownership, Protocol, Status, Tag, Told,
    Verdict,
};

/// What a client sends next.
#[derive(Clone, Copy)]
enum Step {
    Statement(Statement),
    Hot(Key, Change),
    /// A DELETE, for which the proxy has the row left.
    Delete(Key),
    Sync,
    /// The connection is lost, behind an UPDATE that is still asked for.
    Lose,
}

/// What a connection of a client waits for.
#[derive(Clone, Copy, PartialEq, Eq)]
enum Waits {
    Nothing,
    /// Replies to what was sent: what the client waits for may be behind them.
    Replies,
    /// The answer to its UPDATE or its DELETE.
    Answer,
    /// That of a change without a reservation.
    Here,
    /// The note's answer.
    Note,
    /// Behind its Sync.
    Ready,
}

struct Client {
    backend: u32,
    script: VecDeque<Step>,
    waits: Waits,
    /// Replies that are still to come, up to the next ReadyForQuery.
    expected: u32,
    /// A Sync is sent whose ReadyForQuery is not read.
    has_sync: bool,
    /// Replies that are still to come behind that.
    behind: u32,
    /// The ReadyForQuery that is kept back. Nothing is read behind it.
    kept: Option<Status>,
    /// What it has committed up to that, since a ReadyForQuery behind a COMMIT.
    shown: Shown,
    /// The present UPDATE is a transaction by itself, and the proxy sends its Sync.
    by_itself: bool,
    /// It is outside of a block.
    alone: bool,
    /// Nothing has begun or ended a transaction since the last ReadyForQuery, and there was no error.
    is_plain: bool,
    /// A COMMIT was answered since then.
    has_commit: bool,
    /// It has ended a hold in a function that passes unseen.
    is_unseen: bool,
    /// Its patience is over.
    is_over: bool,
    /// What it asks for: the statement that passes if there is no such row, or none is held.
    asked: Statement,
    /// What the server was asked for last.
    grant: Grant,
    /// The transaction status of the last ReadyForQuery.
    status: Status,
    /// An error skips what comes before the Sync.
    skips: bool,
}

impl Client {
    /// Returns whether it may go on without a reply.
    fn has_next(&self) -> bool {
        match self.waits {
            Waits::Nothing => true,
            Waits::Replies | Waits::Ready => self.is_answered(),
            Waits::Answer | Waits::Here | Waits::Note => false,
        }
    }

    /// Returns whether no reply is still to come, but what is kept back.
    fn is_answered(&self) -> bool {
        self.expected + self.behind == 0
    }

    /// A message is sent that has a reply.
    fn expect(&mut self) {
        match self.has_sync {
            true => self.behind += 1,
            false => self.expected += 1,
        }
    }

    /// Sends a Sync.
    fn sync(&mut self, postgres: &mut Postgres) {
        postgres.send(self.backend, Message::Sync);
        self.expect();
        self.has_sync = true;
        self.skips = false;
    }

    /// What was sent up to the next Sync is skipped.
    fn fail(&mut self) {
        self.skips = !self.has_sync;
        self.is_plain = false;
        self.expected = u32::from(self.has_sync);
    }

    /// Sends the Sync of an UPDATE by itself.
    fn end_alone(&mut self, postgres: &mut Postgres, without: Option<Without>) {
        if !self.by_itself {
            return;
        }
        if self.expected == 0 || without != Some(Without::AnsweredNotes) {
            self.sync(postgres);
        }
        self.waits = Waits::Ready;
        self.skips = false;
    }
}

/// How many commits were known at a moment.
type Turn = u64;

/// What is under way outside of the state machine.
enum Job {
    /// Ids that are asked, and the outcomes of the first ones: others come later.
    Verdicts(Connection, Vec<Id>, Vec<Verdict>),
    Load(Key, Option<Folding>, bool),
    /// With the lines that the snapshot of the value shows. None: another snapshot shows them.
    Loaded(Key, i64, Option<Vec<(Line, Change)>>),
    Looked(Vec<News<Key, Change>>),
    Leave(Key, Mark),
    Fold(Folding),
    /// A key whose table is held up, and what had committed when it was left out.
    Late(Key, Turn),
    FoldLate(Folding, Turn),
    LookFailed,
    Granted(Connection, bool),
    Holders(bool),
    EpochSet,
    OwnerTaken,
    OwnerElsewhere,
    WaitOver(Connection),
}

/// A proxy.
pub(super) struct Relay {
    place: usize,
    pub(super) protocol: Protocol<Key, Change>,
    pub(super) server: Server,
    pub(super) epoch: u64,
    life: u32,
    clients: BTreeMap<Connection, Client>,
    next: u32,
    /// In order, as each connection of the proxy's own answers: the place says which.
    jobs: [VecDeque<Job>; 5],
    stopped: u32,
    /// The keeper is not answered for so many of its steps.
    keeper_stalled: u32,
    is_finishing: bool,
    /// Clients may send on before they have got a ReadyForQuery, looks may fail, and folds may leave a row out.
    sends_ahead: bool,
    without: Option<Without>,
}

/// The places of [`Relay::jobs`].
const KEEPER: usize = 0;
const LOADER: usize = 1;
const FOLDER: usize = 2;
const SERVER: usize = 3;
const PATIENT: usize = 4;

impl Relay {
    pub(super) fn new(place: usize, sends_ahead: bool, without: Option<Without>) -> Relay {
        let mut protocol = Protocol::new();
        if let Some(Without::Rule(fault)) = without {
            protocol.fault = Some(fault);
        }
        Relay {
            place,
            protocol,
            server: Server::default(),
            epoch: 0,
            life: 0,
            clients: BTreeMap::new(),
            next: 1,
            jobs: Default::default(),
            stopped: 0,
            keeper_stalled: 0,
            is_finishing: false,
            sends_ahead,
            without,
        }
    }

    /// Dies: all its connections are closed. What a folder has sent is carried out all the same.
    pub(super) fn die(&mut self, postgres: &mut Postgres, without: Option<Without>) -> Relay {
        for client in self.clients.values() {
            postgres.cut(client.backend);
        }
        self.let_folds_end(postgres);
        if postgres.is_owner(self.place, self.epoch) {
            postgres.end_keeper();
        }
        Relay {
            next: self.next,
            ..Relay::new(self.place, self.sends_ahead, without)
        }
    }

    fn let_folds_end(&mut self, postgres: &mut Postgres) {
        for job in self.jobs.iter_mut().flat_map(|jobs| jobs.drain(..)) {
            match job {
                Job::Fold(folding) | Job::FoldLate(folding, _) | Job::Load(_, Some(folding), _) => {
                    postgres.folded(&folding);
                }
                Job::Leave(key, before) if self.life == postgres.life => {
                    postgres.keep_late(Late::Leave(key, before));
                }
                _ => {}
            }
        }
    }

    /// Stands still for so many of its steps.
    pub(super) fn stop(&mut self, steps: u32) {
        self.stopped = steps;
    }

    /// PostgreSQL does not answer its keeper for so many of its steps.
    pub(super) fn stall_keeper(&mut self, steps: u32) {
        self.keeper_stalled = steps;
    }

    /// Its clients begin nothing more.
    pub(super) fn finish(&mut self) {
        self.is_finishing = true;
        self.stopped = 0;
        self.keeper_stalled = 0;
    }

    pub(super) fn is_quiet(&self, postgres: &Postgres) -> bool {
        let is_resting = |client: &Client| {
            client.script.is_empty()
                && client.waits == Waits::Nothing
                && client.status == Status::Idle
        };
        let is_decided = match self.protocol.ownership() {
            Ownership::Serving => postgres.is_owner(self.place, self.epoch),
            Ownership::Standby | Ownership::Elsewhere => true,
            Ownership::Owning | Ownership::Raised | Ownership::Stopped => false,
        };
        is_decided
            && self.protocol.is_quiet()
            && self.jobs.iter().all(VecDeque::is_empty)
            && self.clients.values().all(is_resting)
    }

    /// Returns whether all rows are loaded, so that nothing of former owners can be left in the journal.
    pub(super) fn has_loaded_all(&self) -> bool {
        self.server.values.len() == KEYS
    }

    /// Loses the connection of one client, at either side.
    pub(super) fn cut_one(
        &mut self,
        postgres: &mut Postgres,
        random: &mut StdRng,
        seen: &mut Seen,
    ) -> Result<(), String> {
        // One that has asked the server, as often as any.
        let asks: bool = random.gen();
        let may_be = |it: &Client| !asks || it.waits == Waits::Answer;
        let mut clients = self.clients.iter().filter(|it| may_be(it.1));
        match clients.by_ref().choose(random) {
            Some((&connection, _)) => self.lose(connection, postgres, random, seen),
            None => Ok(()),
        }
    }

    fn lose(
        &mut self,
        connection: Connection,
        postgres: &mut Postgres,
        random: &mut StdRng,
        seen: &mut Seen,
    ) -> Result<(), String> {
        match self.clients.remove(&connection) {
            Some(client) => {
                postgres.cut(client.backend);
                seen.lost_commits += u64::from(client.waits == Waits::Ready);
                self.give(Event::Lost { connection }, postgres, random, seen)
            }
            None => Ok(()),
        }
    }

    /// Does one thing of the many that it may do.
    pub(super) fn step(
        &mut self,
        postgres: &mut Postgres,
        random: &mut StdRng,
        seen: &mut Seen,
    ) -> Result<(), String> {
        if self.stopped > 0 {
            self.stopped -= 1;
            return Ok(());
        }
        self.keeper_stalled = self.keeper_stalled.saturating_sub(1);
        match random.gen_range(0..20) {
            0 if !self.is_finishing && random.gen_range(0..5) == 0 => {
                let (connection, key) = (None, random.gen_range(0..KEYS));
                self.give(Event::Leave { connection, key }, postgres, random, seen)
            }
            0 if self.protocol.ownership() == Ownership::Serving && random.gen_range(0..5) == 0 => {
                if self.is_connected(postgres) {
                    postgres.sweep(random.gen_range(0..KEYS), self.epoch);
                }
                Ok(())
            }
            0 if self.sends_ahead && random.gen() => {
                self.give(Event::FoldAgain, postgres, random, seen)
            }
            0 => self.give(Event::Tick, postgres, random, seen),
            1..=5 => self.job(postgres, random, seen),
            _ => self.serve(postgres, random, seen),
        }
    }

    /// Gives an event to the machine, and does what it says.
    fn give(
        &mut self,
        event: Event<Key, Change>,
        postgres: &mut Postgres,
        random: &mut StdRng,
        seen: &mut Seen,
    ) -> Result<(), String> {
        for action in self.protocol.handle(event) {
            self.act(action, postgres, random, seen)?;
        }
        Ok(())
    }

    fn is_connected(&self, postgres: &Postgres) -> bool {
        self.life == postgres.life
    }

    /// Returns whether the connection of a loader is lost, with what it has just sent.
    fn loses_loader(&self, random: &mut StdRng) -> bool {
        !self.is_finishing && random.gen_range(0..10) == 0
    }

    /// Returns the mark of a load that begins now.
    fn mark(&self, postgres: &mut Postgres) -> Mark {
        let (epoch, load) = (self.epoch, postgres.number());
        Mark { epoch, load }
    }

    fn act(
        &mut self,
        action: Action<Key, Change>,
        postgres: &mut Postgres,
        random: &mut StdRng,
        seen: &mut Seen,
    ) -> Result<(), String> {
        match action {
            Action::TakeOwner => {
                let epoch = postgres.number();
                if self.jobs[KEEPER].is_empty() && postgres.take_owner(self.place, epoch) {
                    self.epoch = epoch;
                    self.life = postgres.life;
                    seen.takeovers += 1;
                    self.jobs[KEEPER].push_back(Job::OwnerTaken);
                } else if self.jobs[KEEPER].is_empty() {
                    self.jobs[KEEPER].push_back(Job::OwnerElsewhere);
                }
            }
            Action::SetEpoch if postgres.is_owner(self.place, self.epoch) => {
                postgres.set_epoch(self.epoch);
                self.jobs[KEEPER].push_back(Job::EpochSet);
            }
            Action::EndHolders if postgres.is_owner(self.place, self.epoch) => {
                let any = postgres.end_holders();
                self.jobs[KEEPER].push_back(Job::Holders(any));
            }
            Action::Ask(connection, ids) if postgres.is_owner(self.place, self.epoch) => {
                seen.questions += 1;
                self.jobs[KEEPER].push_back(Job::Verdicts(connection, ids, Vec::new()));
            }
            Action::Look { .. } if self.sends_ahead && random.gen_range(0..8) == 0 => {
                self.jobs[KEEPER].push_back(Job::LookFailed);
            }
            // The keeper is gone, which it will see.
            Action::Look { done, asked } if postgres.is_owner(self.place, self.epoch) => {
                let done = done.into_iter().map(|it| it.number as Grant).collect();
                let asked: Vec<Grant> = asked.iter().map(|it| it.number as Grant).collect();
                let ends_one = random.gen_range(0..40) == 0;
                let lines = postgres.look(done, &asked, ends_one);
                let epoch = self.epoch;
                let news = lines.into_iter().map(|it| News {
                    line: line(&it.note),
                    key: it.note.key,
                    fate: it.fate,
                    is_ours: it.note.epoch == epoch,
                });
                self.jobs[KEEPER].push_back(Job::Looked(news.collect()));
            }
            Action::SetEpoch | Action::EndHolders | Action::Ask(..) | Action::Look { .. } => {}
            Action::Keep {
                connection,
                committed,
                kept,
            } => {
                seen.holds += kept.len() as u64;
                let kept = kept
                    .into_iter()
                    .map(|(line, key, change)| (line.number as Grant, key, change));
                self.server.keep(connection, committed, kept.collect())?;
            }
            Action::Reserve(lines) => {
                seen.reserved_again += lines.len() as u64;
                for (line, key, change) in lines {
                    self.server.reserve(line.number as Grant, key, change)?;
                }
            }
            Action::End(lines) => {
                for (line, taken) in lines {
                    seen.taken += u64::from(taken.is_some());
                    self.server.end(line.number as Grant, taken)?;
                }
            }
            Action::RestartServer => {
                self.let_folds_end(postgres);
                self.server = Server::default();
            }
            Action::Load(key) => {
                let is_missing = self.is_connected(postgres) && !postgres.has_row(key);
                let is_present =
                    postgres.is_present(self.epoch) || self.without == Some(Without::LoadsTested);
                let may = self.is_connected(postgres) && is_present && !postgres.is_locked(key);
                let mark = self.mark(postgres);
                let is_lost = self.is_connected(postgres) && self.loses_loader(random);
                let folding = match may && !is_missing && !is_lost {
                    true => Some(postgres.fold(&[key], Some(mark), random)?),
                    false => None,
                };
                if is_lost {
                    postgres.keep_late(Late::Load(key, mark));
                }
                self.jobs[LOADER].push_back(Job::Load(key, folding, is_missing && !is_lost));
            }
            Action::Leave(key) => {
                self.server.leave(key)?;
                let before = self.mark(postgres);
                self.jobs[LOADER].push_back(Job::Leave(key, before));
            }
            Action::Fold(mut keys) => {
                if self.is_connected(postgres) {
                    seen.folds += 1;
                    self.leave_out(&mut keys, random);
                    let folding = postgres.fold(&keys, None, random)?;
                    self.jobs[FOLDER].push_back(Job::Fold(folding));
                }
            }
            Action::Tell(connection, told) => self.server.tell(connection, told)?,
            Action::Grant(connection, key, change) => {
                let grant = postgres.number();
                let is_granted = self.server.grant(connection, key, change, grant);
                seen.refused += u64::from(!is_granted);
                if let Some(client) = self.clients.get_mut(&connection) {
                    client.grant = grant;
                }
                self.jobs[SERVER].push_back(Job::Granted(connection, is_granted));
            }
            Action::Note(connection, key, change) => {
                if let Some(client) = self.clients.get_mut(&connection) {
                    let note = Note {
                        epoch: self.epoch,
                        key,
                        change,
                        grant: client.grant,
                        is_granted: true,
                    };
                    client.waits = Waits::Note;
                    let folds = client.alone && self.protocol.may_fold(connection, &key);
                    let message = match folds && random.gen() {
                        true => Message::Direct(note),
                        false => Message::Note(note),
                    };
                    postgres.send(client.backend, message);
                    if self.without == Some(Without::AnsweredNotes) && client.by_itself {
                        client.sync(postgres);
                    }
                }
            }
            Action::Answer(connection, answer) => self.answer(connection, answer, postgres)?,
            Action::Deliver(connection) => {
                if let Some(client) = self.clients.get_mut(&connection) {
                    if let Some(status) = client.kept.take() {
                        client.status = status;
                        client.is_plain = true;
                    }
                    if client.waits == Waits::Ready && client.is_answered() {
                        client.waits = Waits::Nothing;
                    }
                }
                self.sees(connection, postgres)?;
            }
            Action::Close(connection) => {
                if let Some(client) = self.clients.remove(&connection) {
                    postgres.cut(client.backend);
                }
            }
            Action::Alarm(alarm, _) => return Err(format!("{:?}", alarm)),
        }
        Ok(())
    }

    /// Tests that the next statement of a client sees what it has committed, unless it has waited long enough; and that what it
    /// has freed is free.
    fn sees(&mut self, connection: Connection, postgres: &mut Postgres) -> Result<(), String> {
        let is_owner = postgres.is_owner(self.place, self.epoch);
        let serves = is_owner && self.protocol.ownership() == Ownership::Serving;
        let client = match self.clients.get_mut(&connection) {
            Some(client) => client,
            None => return Ok(()),
        };
        let has_commit = std::mem::take(&mut client.has_commit);
        let may_see = match client.status {
            Status::Idle => true,
            Status::InBlock => has_commit,
            Status::Failed => false,
        };
        if !may_see && !client.is_over {
            return Ok(());
        }
        let shown = std::mem::take(&mut client.shown);
        let is_unseen = client.is_unseen;
        // What passed unseen may be of the block that goes on, or of what was sent behind.
        client.is_unseen &= client.status == Status::InBlock || !client.is_answered();
        if !serves || client.is_over {
            return Ok(());
        }
        for (grant, is_taken) in shown.rows {
            if postgres.is_pending(grant) && !(is_taken && is_unseen) {
                let what = if is_taken { "take" } else { "commit" };
                return Err(format!(
                    "{:?} does not see its {} of {}",
                    connection, what, grant
                ));
            }
        }
        let mut ends = shown.ends.iter().filter(|_| !is_unseen);
        match ends.find(|&&grant| self.server.has_open(grant)) {
            Some(grant) => Err(format!(
                "{:?} has ended {}, which is open",
                connection, grant
            )),
            None => Ok(()),
        }
    }

    fn answer(
        &mut self,
        connection: Connection,
        answer: Answer,
        postgres: &mut Postgres,
    ) -> Result<(), String> {
        let without = self.without;
        let client = match self.clients.get_mut(&connection) {
            Some(client) => client,
            None => return Ok(()),
        };
        client.waits = Waits::Nothing;
        match answer {
            Answer::Reserved => {}
            Answer::Missing => {
                postgres.send(client.backend, Message::Statement(client.asked));
                client.expect();
            }
            Answer::Failed => client.skips = true,
            // It may be the client itself that has locked the row.
            Answer::Locked if self.epoch != 0 => {
                if let Statement::Change(key, change) = client.asked {
                    client.waits = Waits::Here;
                    let note = Note {
                        epoch: self.epoch,
                        key,
                        change,
                        grant: postgres.number(),
                        is_granted: false,
                    };
                    postgres.send(client.backend, Message::Here(note));
                    return Ok(());
                }
            }
            // It is raised inside PostgreSQL, so that the block has failed.
            Answer::Refused
            | Answer::Locked
            | Answer::TooMany
            | Answer::NotOwner
            | Answer::Stopped
            | Answer::TableStopped => {
                postgres.send(client.backend, Message::Statement(Statement::Fail));
                client.expect();
                client.skips = true;
            }
        }
        client.end_alone(postgres, without);
        if without == Some(Without::PostgresFirst) && answer == Answer::Reserved && client.by_itself
        {
            self.server.tell(connection, Told::Commit)?;
        }
        Ok(())
    }

    /// Lets one of the proxy's own connections answer.
    fn job(
        &mut self,
        postgres: &mut Postgres,
        random: &mut StdRng,
        seen: &mut Seen,
    ) -> Result<(), String> {
        let has_keeper = !matches!(
            self.protocol.ownership(),
            Ownership::Standby | Ownership::Elsewhere
        ) || !self.jobs[KEEPER].is_empty();
        if has_keeper && !postgres.is_owner(self.place, self.epoch) && random.gen_range(0..30) == 0
        {
            self.jobs
                .iter_mut()
                .take(KEEPER + 1)
                .for_each(VecDeque::clear);
            self.jobs[SERVER].clear();
            self.give(Event::KeeperLost, postgres, random, seen)?;
            // The clients' connections of before a crash are seen to have ended, each by itself.
            return Ok(());
        }
        let queue = match (0..self.jobs.len())
            .filter(|&it| !self.jobs[it].is_empty() && (it != KEEPER || self.keeper_stalled == 0))
            .choose(random)
        {
            Some(queue) => queue,
            None => return Ok(()),
        };
        let job = match self.jobs[queue].pop_front() {
            Some(job) => job,
            None => return Ok(()),
        };
        let event = match job {
            Job::OwnerTaken => Event::OwnerTaken,
            Job::OwnerElsewhere => Event::OwnerElsewhere,
            Job::EpochSet => Event::EpochSet,
            Job::Holders(any) => Event::Holders { any },
            Job::Verdicts(connection, ids, mut verdicts) if verdicts.len() < ids.len() => {
                if postgres.is_owner(self.place, self.epoch) {
                    verdicts.push(postgres.verdict(ids[verdicts.len()].0));
                    self.jobs[queue].push_front(Job::Verdicts(connection, ids, verdicts));
                    if !self.is_finishing && random.gen_range(0..8) == 0 {
                        self.keeper_stalled = random.gen_range(1..40);
                    }
                }
                return Ok(());
            }
            Job::Verdicts(connection, _, verdicts) => Event::Verdicts {
                connection,
                verdicts,
            },
            Job::Granted(connection, true) => Event::Granted { connection },
            Job::Granted(connection, false) => Event::Refused { connection },
            Job::WaitOver(connection) => {
                let over = Event::WaitOver { connection };
                self.be_over(connection, true);
                self.give(over, postgres, random, seen)?;
                self.be_over(connection, false);
                return Ok(());
            }
            Job::Load(key, Some(folding), _) if postgres.folded(&folding) => {
                // One snapshot shows what is pending since the fold's, and which lines stand.
                let is_one = self.without != Some(Without::OneSnapshot);
                let value = postgres.now(key).ok_or("a row is loaded and gone")?;
                let lines = is_one.then(|| standing(postgres, key));
                self.jobs[LOADER].push_front(Job::Loaded(key, value, lines));
                return Ok(());
            }
            Job::Loaded(key, value, lines) => {
                self.server.values.insert(key, value);
                let lines = lines.unwrap_or_else(|| standing(postgres, key));
                Event::Loaded { key, lines }
            }
            Job::Looked(news) => Event::Looked { news },
            Job::Leave(key, before) => {
                if self.is_connected(postgres) && self.loses_loader(random) {
                    postgres.keep_late(Late::Leave(key, before));
                } else if self.is_connected(postgres) {
                    postgres.leave(key, before);
                }
                Event::Left { key }
            }
            Job::Load(key, _, missing) => Event::NotLoaded { key, missing },
            Job::Fold(folding) if postgres.folded(&folding) => Event::Folded { keys: folding.keys },
            Job::Fold(_) => Event::FoldFailed,
            Job::Late(key, commits) if self.is_connected(postgres) => {
                let folding = postgres.fold(&[key], None, random)?;
                self.jobs[PATIENT].push_front(Job::FoldLate(folding, commits));
                return Ok(());
            }
            Job::FoldLate(folding, commits) if postgres.folded(&folding) => {
                let keys = folding.keys;
                Event::FoldedLate { keys, commits }
            }
            Job::Late(..) | Job::FoldLate(..) => return Ok(()),
            Job::LookFailed => Event::LookFailed,
        };
        self.give(event, postgres, random, seen)
    }

    /// Leaves out of a fold what is held up, as by a lock of its table: another connection folds that.
    fn leave_out(&mut self, keys: &mut Vec<Key>, random: &mut StdRng) {
        if self.sends_ahead && self.jobs[PATIENT].is_empty() && random.gen_range(0..5) == 0 {
            let key = keys[random.gen_range(0..keys.len())];
            let late = Job::Late(key, self.protocol.commits());
            self.jobs[PATIENT].push_back(late);
        }
        if let Some(Job::Late(late, _)) = self.jobs[PATIENT].front() {
            keys.retain(|key| key != late);
        }
    }

    fn be_over(&mut self, connection: Connection, is_over: bool) {
        if let Some(client) = self.clients.get_mut(&connection) {
            client.is_over = is_over;
        }
    }

    /// Serves one client.
    fn serve(
        &mut self,
        postgres: &mut Postgres,
        random: &mut StdRng,
        seen: &mut Seen,
    ) -> Result<(), String> {
        if self.clients.len() < CLIENTS && !self.is_finishing {
            let connection = Connection(self.next);
            self.next += 1;
            let client = Client {
                backend: postgres.connect(),
                script: VecDeque::new(),
                waits: Waits::Nothing,
                expected: 0,
                has_sync: false,
                behind: 0,
                kept: None,
                shown: Shown::default(),
                by_itself: false,
                alone: false,
                is_plain: true,
                has_commit: false,
                is_unseen: false,
                is_over: false,
                asked: Statement::Select,
                grant: 0,
                status: Status::Idle,
                skips: false,
            };
            self.clients.insert(connection, client);
        }
        let is_slow = postgres.is_slow;
        let has_news = |it: &Client| it.kept.is_none() && postgres.has_news(it.backend);
        let is_busy = |it: &Client| is_slow || it.has_next() || it.kept.is_some() || has_news(it);
        let mut busy = self.clients.iter_mut().filter(|it| is_busy(it.1));
        let (connection, client) = match busy.by_ref().choose(random) {
            Some((&connection, client)) => (connection, client),
            None => return Ok(()),
        };
        let is_kept = client.kept.is_some();
        if postgres.has_ended(client.backend) {
            return self.lose(connection, postgres, random, seen);
        } else if !is_kept {
            if let Some(reply) = postgres.receive(client.backend) {
                return self.reply(connection, reply, postgres, random, seen);
            }
        }
        match client.waits {
            // The client's patience is over before the fold is.
            _ if is_kept && (client.waits == Waits::Ready || random.gen()) => {
                let over = Job::WaitOver(connection);
                let patience = if self.keeper_stalled > 0 { 2 } else { 10 };
                if self.jobs[SERVER].len() < 20 && random.gen_range(0..patience) == 0 {
                    self.jobs[SERVER].push_back(over);
                }
                Ok(())
            }
            Waits::Nothing => self.send(connection, postgres, random, seen),
            Waits::Replies if client.is_answered() => {
                client.waits = Waits::Nothing;
                Ok(())
            }
            Waits::Replies | Waits::Answer | Waits::Here | Waits::Note | Waits::Ready => Ok(()),
        }
    }

    fn reply(
        &mut self,
        connection: Connection,
        reply: Reply,
        postgres: &mut Postgres,
        random: &mut StdRng,
        seen: &mut Seen,
    ) -> Result<(), String> {
        let client = match self.clients.get_mut(&connection) {
            Some(client) => client,
            None => return Ok(()),
        };
        let event = match reply {
            Reply::Noted(id, has_folded) => {
                let key = match client.asked {
                    Statement::Change(key, _) => Some(key),
                    _ => None,
                };
                let noted = Event::Noted {
                    connection,
                    id: Id(id),
                    line: Line {
                        epoch: self.epoch as i64,
                        number: client.grant as i64,
                    },
                };
                self.give(noted, postgres, random, seen)?;
                if !has_folded {
                    return Ok(());
                }
                Event::OwnFolded { connection, key }
            }
            Reply::OwnFolded(are_all) => {
                client.expected -= 1;
                if !are_all {
                    return Ok(());
                }
                let key = None;
                Event::OwnFolded { connection, key }
            }
            Reply::Changed(is_so) => {
                client.waits = Waits::Nothing;
                if !is_so {
                    postgres.send(client.backend, Message::Statement(Statement::Fail));
                    client.expect();
                    client.skips = true;
                }
                client.end_alone(postgres, self.without);
                return Ok(());
            }
            Reply::Error if client.waits == Waits::Here => {
                client.waits = Waits::Nothing;
                client.skips = true;
                client.is_plain = false;
                client.end_alone(postgres, self.without);
                Event::Failed { connection }
            }
            Reply::Error if client.waits == Waits::Note => {
                seen.stale_notes += 1;
                Event::NoteFailed { connection }
            }
            Reply::Error => {
                client.fail();
                Event::Failed { connection }
            }
            Reply::Completed(tag) => {
                client.expected -= 1;
                let read = Tag::read(tag);
                client.is_plain &= read == Tag::Plain && tag != "BEGIN";
                client.has_commit |= read == Tag::Commit;
                Event::Completed {
                    connection,
                    tag: read,
                }
            }
            Reply::Ready(status) => {
                let goes_on = client.behind > 0;
                client.expected = std::mem::take(&mut client.behind);
                client.has_sync = false;
                client.kept = Some(status);
                let shown = postgres.take_shown(client.backend);
                client.shown.rows.extend(shown.rows);
                client.shown.ends.extend(shown.ends);
                Event::Ready {
                    connection,
                    status,
                    goes_on,
                }
            }
        };
        self.give(event, postgres, random, seen)
    }

    /// Sends the client's next message.
    fn send(
        &mut self,
        connection: Connection,
        postgres: &mut Postgres,
        random: &mut StdRng,
        seen: &mut Seen,
    ) -> Result<(), String> {
        let is_finishing = self.is_finishing;
        let client = match self.clients.get_mut(&connection) {
            Some(client) => client,
            None => return Ok(()),
        };
        if client.script.is_empty() {
            if is_finishing && client.status == Status::Idle {
                return Ok(());
            }
            client.script = if is_finishing {
                VecDeque::from(vec![Step::Statement(Statement::Rollback), Step::Sync])
            } else {
                cycle(client.status, random)
            };
        }
        match client.script.front().copied() {
            // One Sync is sent at a time, and what may make or end a hold behind its reply.
            Some(Step::Sync)
            | Some(Step::Statement(Statement::Hold))
            | Some(Step::Statement(Statement::Take(..)))
            | Some(Step::Statement(Statement::Release(_)))
                if client.has_sync =>
            {
                client.waits = Waits::Replies;
                return Ok(());
            }
            Some(Step::Sync) => {
                client.sync(postgres);
                client.waits = match self.sends_ahead && !is_finishing && random.gen() {
                    true => Waits::Nothing,
                    false => Waits::Ready,
                };
            }
            Some(_) if client.skips => {}
            Some(Step::Statement(Statement::Commit)) if client.is_answered() => {
                let keys = self.protocol.own_folds(connection);
                let is_last = matches!(client.script.get(1), Some(Step::Sync));
                if is_last && client.status == Status::InBlock && !keys.is_empty() && random.gen() {
                    let mut asked = [false; KEYS];
                    keys.iter().for_each(|&key| asked[key] = true);
                    postgres.send(client.backend, Message::OwnFold(asked));
                    client.expect();
                }
                postgres.send(client.backend, Message::Statement(Statement::Commit));
                client.expect();
            }
            Some(Step::Statement(statement)) => {
                postgres.send(client.backend, Message::Statement(statement));
                client.expect();
                let is_seen = match statement {
                    Statement::Hold => true,
                    // A function that takes it passes unseen.
                    Statement::Take(..) | Statement::Release(_) => random.gen(),
                    _ => false,
                };
                client.is_unseen |=
                    !is_seen && matches!(statement, Statement::Take(..) | Statement::Release(_));
                if is_seen {
                    client.script.pop_front();
                    let runs = true;
                    return self.give(Event::Names { connection, runs }, postgres, random, seen);
                }
            }
            // What was sent before it is answered first.
            Some(Step::Hot(..)) | Some(Step::Delete(_)) if !client.is_answered() => {
                client.waits = Waits::Replies;
                return Ok(());
            }
            Some(Step::Delete(key)) => {
                client.script.pop_front();
                client.waits = Waits::Answer;
                client.by_itself = false;
                client.alone = false;
                client.asked = Statement::Delete(key);
                let connection = Some(connection);
                return self.give(Event::Leave { connection, key }, postgres, random, seen);
            }
            Some(Step::Hot(key, change)) => {
                client.script.pop_front();
                client.waits = Waits::Answer;
                client.asked = Statement::Change(key, change);
                // By itself, if nothing else is in its cycle.
                client.by_itself = client.status == Status::Idle && client.script.is_empty();
                client.alone = client.status == Status::Idle && client.is_plain;
                let alone = client.alone;
                let is_lost = matches!(client.script.front(), Some(Step::Lose));
                let reserve = Event::Reserve {
                    connection,
                    key,
                    change,
                    alone,
                };
                self.give(reserve, postgres, random, seen)?;
                return match is_lost {
                    true => self.lose(connection, postgres, random, seen),
                    false => Ok(()),
                };
            }
            Some(Step::Lose) => return self.lose(connection, postgres, random, seen),
            None => {}
        }
        client.script.pop_front();
        Ok(())
    }
}

/// Returns how a note is known that has become a line of a hold.
fn line(note: &Note) -> Line {
    Line {
        epoch: note.epoch as i64,
        number: note.grant as i64,
    }
}

/// Returns the lines of holds that stand of a row.
fn standing(postgres: &Postgres, key: Key) -> Vec<(Line, Change)> {
    let lines = postgres.standing().filter(|it| it.note.key == key);
    lines.map(|it| (line(&it.note), it.note.change)).collect()
}

/// A block that makes a hold, takes one, or takes one and holds it with more.
fn with_hold(random: &mut StdRng, hot: impl Fn(&mut StdRng) -> Step, steps: &mut VecDeque<Step>) {
    let (pick, in_part) = (random.gen_range(0..20), random.gen_range(0..4) == 0);
    let way = random.gen_range(0..8);
    steps.push_back(Step::Statement(Statement::Begin));
    if way >= 4 {
        steps.push_back(Step::Statement(Statement::Take(pick, in_part)));
    }
    if way < 6 {
        steps.push_back(hot(random));
        steps.push_back(Step::Statement(Statement::Hold));
    }
    if way % 2 == 0 {
        steps.push_back(hot(random));
    }
    steps.push_back(Step::Statement(Statement::Commit));
}

/// A block with savepoints, whose client may wait for each reply.
fn with_savepoints(
    random: &mut StdRng,
    hot: impl Fn(&mut StdRng) -> Step,
    steps: &mut VecDeque<Step>,
) {
    use Statement::*;
    let mut add = |random: &mut StdRng, step: Step| {
        steps.push_back(step);
        if random.gen() {
            steps.push_back(Step::Sync);
        }
    };
    add(random, Step::Statement(Begin));
    for _ in 0..random.gen_range(1..3) {
        let change = hot(random);
        add(random, change);
        add(random, Step::Statement(Savepoint));
    }
    let change = hot(random);
    if random.gen_range(0..4) == 0 {
        steps.extend([change, Step::Lose]);
        return;
    }
    add(random, change);
    let depth = random.gen_range(1..3);
    let ways = [RollbackTo(depth), RollbackTo(depth), ReleaseTo(depth), Fail];
    let way = *ways.choose(random).unwrap_or(&Fail);
    add(random, Step::Statement(way));
    if random.gen() {
        let change = hot(random);
        add(random, change);
    }
    if random.gen() {
        // It may go on before its outcome is known.
        let others = [Rollback, Begin].map(|it| [Step::Statement(it), Step::Sync]);
        steps.extend(others.concat());
    }
    steps.push_back(Step::Statement(Commit));
}

/// A block that locks, writes, inserts or deletes a row, and changes it.
fn with_row(random: &mut StdRng, steps: &mut VecDeque<Step>) {
    use Statement::*;
    let key = random.gen_range(0..KEYS);
    let begin = *[Begin, Begin, BeginRepeatable]
        .choose(random)
        .unwrap_or(&Begin);
    steps.push_back(Step::Statement(begin));
    if random.gen() {
        steps.push_back(Step::Statement(Select));
    }
    let all = [
        Step::Statement(Lock(key)),
        Step::Statement(Write(key)),
        Step::Statement(Insert(key)),
        Step::Statement(Insert(key)),
        Step::Statement(Insert(key)),
        Step::Delete(key),
        Step::Statement(Delete(key)),
    ];
    steps.extend(all.choose(random).copied());
    for _ in 0..random.gen_range(0..3) {
        let change = *[-2, -1, 1, 2].choose(random).unwrap_or(&1);
        // The proxy does not understand each.
        steps.push_back(match random.gen_range(0..4) {
            0 => Step::Statement(Change(key, change)),
            _ => Step::Hot(key, change),
        });
    }
    if random.gen_range(0..4) > 0 {
        steps.push_back(Step::Statement(Commit));
    }
}

/// What a client does in one cycle, up to its Sync. An UPDATE by itself has none: the proxy sends it.
fn cycle(status: Status, random: &mut StdRng) -> VecDeque<Step> {
    use Statement::*;
    let hot = |random: &mut StdRng| {
        let change = *[-2, -1, -1, 1, 1, 2].choose(random).unwrap_or(&1);
        Step::Hot(random.gen_range(0..KEYS), change)
    };
    let statement = |random: &mut StdRng| {
        let depth = random.gen_range(1..3);
        let (pick, in_part) = (random.gen_range(0..20), random.gen_range(0..4) == 0);
        let all = [
            Select,
            Savepoint,
            Savepoint,
            RollbackTo(depth),
            RollbackTo(depth),
            ReleaseTo(depth),
            Hold,
            Hold,
            Take(pick, in_part),
            Take(pick, in_part),
            Release(pick),
            Commit,
            Commit,
            Commit,
            Commit,
            Commit,
            CommitAndChain,
            Rollback,
            RollbackAndChain,
            Fail,
            Begin,
        ];
        *all.choose(random).unwrap_or(&Select)
    };
    let mut steps = VecDeque::new();
    let kinds = if status == Status::Idle { 24 } else { 10 };
    match (status, random.gen_range(0..kinds)) {
        (Status::Idle, 10..=15) => with_hold(random, hot, &mut steps),
        (Status::Idle, 16..=19) => with_row(random, &mut steps),
        (Status::Idle, 20..=23) => with_savepoints(random, hot, &mut steps),
        (Status::Idle, 0..=2) => return VecDeque::from(vec![hot(random)]),
        (Status::Idle, 3..=4) => {
            // A pipeline without a block, with foreign parts or without.
            let is_foreign = random.gen();
            for _ in 0..random.gen_range(1..4) {
                let (pick, in_part) = (random.gen_range(0..20), random.gen());
                let call = *[
                    Take(pick, in_part),
                    Release(pick),
                    Hold,
                    Select,
                    CallCommit { fails: true },
                    CallCommit { fails: false },
                    CallRollback,
                    Fail,
                    Commit,
                ]
                .choose(random)
                .unwrap_or(&Select);
                steps.extend(Some(Step::Statement(call)).filter(|_| is_foreign));
                steps.push_back(hot(random));
            }
            steps.push_back(Step::Statement(Select));
        }
        (Status::Idle, _) => steps.push_back(Step::Statement(Begin)),
        (Status::InBlock, 0..=4) => steps.push_back(hot(random)),
        (Status::InBlock, 5) => {
            // Several at once.
            for _ in 0..random.gen_range(1..5) {
                steps.push_back(if random.gen() {
                    hot(random)
                } else {
                    Step::Statement(statement(random))
                });
            }
        }
        (Status::InBlock, _) => steps.push_back(Step::Statement(statement(random))),
        (Status::Failed, _) => steps.push_back(Step::Statement(statement(random))),
    }
    steps.push_back(Step::Sync);
    steps
}
