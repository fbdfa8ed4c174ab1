//! What a proxy knows of one client's transaction.

use std::collections::BTreeMap;

use super::folds::Turn;
use super::{Alarm, Fate, Id, Line, Mark, Tag, Told, Verdict, MARKS};

/// Where a request is.
#[derive(Clone, Copy, Debug, PartialEq, Eq)]
pub(super) enum Stage {
    /// Behind an outcome, or a takeover.
    Waiting,
    /// Its row is loaded.
    Loading,
    /// The server was asked.
    Granting,
    /// The note is sent.
    Noting,
}

/// An UPDATE that is not answered yet.
pub(super) struct Request<K, C> {
    pub(super) key: K,
    pub(super) change: C,
    /// Whether it is a transaction by itself.
    pub(super) alone: bool,
    stage: Stage,
    /// The mark behind which the server was asked.
    mark: Mark,
}

/// A reservation whose note was answered.
struct Reservation<K, C> {
    key: K,
    change: C,
    id: Id,
    line: Line,
    mark: Mark,
    verdict: Verdict,
    /// Whether the transaction has folded it itself.
    is_folded: bool,
}

/// What a ReadyForQuery that is kept back waits for, beside folds.
#[derive(Clone, Copy, Debug, Default, PartialEq, Eq)]
struct Awaits {
    /// The outcome of the transaction.
    outcome: bool,
    /// A look that shows what it may have taken or released, since this turn.
    news: Option<Turn>,
}

/// What becomes of a transaction that has left holds.
pub(super) struct Kept<K, C> {
    /// The changes that are committed.
    pub(super) committed: Vec<(K, C)>,
    /// What stays reserved.
    pub(super) lines: Vec<(Line, K, C)>,
}

/// What the replies since the last ReadyForQuery said.
#[derive(Default)]
struct Cycle {
    commits: u32,
    /// Another tag that may end something, or an error.
    others: bool,
    #[cfg(test)]
    ends_with_commit: bool,
}

/// A question that is under way.
struct Question {
    ids: Vec<Id>,
    /// Whether something was said since that may end what is alive.
    is_stale: bool,
}

/// What the server is told of a transaction.
pub(super) struct Settled<K, C> {
    pub(super) told: Vec<Told>,
    /// The keys whose changes have committed, without those that the transaction has folded itself.
    pub(super) committed: Vec<K>,
    /// The keys of its holds that somebody has taken already.
    pub(super) taken: Vec<K>,
    /// The keys that a transaction which has committed has folded itself.
    pub(super) folded: Vec<K>,
    /// Whether a transaction that had ended is over in the server too.
    pub(super) is_over: bool,
    /// Whether it has committed, and a look has to begin that shows whether it has left holds.
    pub(super) needs_look: bool,
    /// What it has left as holds, if it has.
    pub(super) kept: Option<Kept<K, C>>,
    /// Its lines that have ended already.
    pub(super) done: Vec<Line>,
}

/// A client's connection.
pub(super) struct Client<K, C> {
    request: Option<Request<K, C>>,
    /// The keys that it wants no longer, until [`Client::release`].
    released: Vec<K>,
    pub(super) is_lost: bool,
    /// What was reserved, in order.
    held: Vec<Reservation<K, C>>,
    /// Whether the transaction of `held` has ended, or nothing more can be heard of it.
    has_ended: bool,
    /// Whether some of `held` may be dead.
    is_unsure: bool,
    /// Whether that was so when the cycle began.
    was_unsure: bool,
    /// Whether a subtransaction may have begun since the last mark.
    needs_mark: bool,
    /// The transaction is one UPDATE and its Sync.
    is_alone: bool,
    cycle: Cycle,
    /// Whether a COMMIT was answered since the last ReadyForQuery, also one before anything of `held` was reserved.
    has_commit: bool,
    question: Option<Question>,
    /// Whether a ReadyForQuery is kept back.
    is_kept: bool,
    awaits: Awaits,
    /// Whether the client has waited for what `held` comes to as long as it wants.
    is_given_up: bool,
    /// Whether the client has ever named the functions of holds.
    may_hold: bool,
    /// Whether it has run them since the last end of a transaction, and how many commits folds knew before.
    runs_since: Option<Turn>,
    /// The same, by what was sent while the ReadyForQuery was kept back.
    runs_behind: Option<Turn>,
    /// Whether a look is to show the fates.
    is_looked_for: bool,
    /// What a look has found out about `held`: it is no line of a hold if it is not in it.
    fates: Option<BTreeMap<Line, Fate<C>>>,
}

impl<K: Clone + Ord, C> Client<K, C> {
    /// Returns how many reservations are open.
    pub(super) fn reservations(&self) -> usize {
        self.held.len()
    }

    pub(super) fn new() -> Client<K, C> {
        Client {
            request: None,
            released: Vec::new(),
            is_lost: false,
            held: Vec::new(),
            has_ended: false,
            is_unsure: false,
            was_unsure: false,
            needs_mark: true,
            is_alone: false,
            cycle: Cycle::default(),
            has_commit: false,
            question: None,
            is_kept: false,
            awaits: Awaits::default(),
            is_given_up: false,
            may_hold: false,
            runs_since: None,
            runs_behind: None,
            is_looked_for: false,
            fates: None,
        }
    }

    /// The client names the functions of holds, and runs them from this turn on, or does not.
    pub(super) fn names(&mut self, runs: Option<Turn>) {
        self.may_hold = true;
        self.runs_since = self.runs_since.or(runs);
        if self.is_kept {
            self.runs_behind = self.runs_behind.or(runs);
        }
    }

    pub(super) fn may_hold(&self) -> bool {
        self.may_hold
    }

    /// Returns since which turn it may have run them in the transaction, if it may.
    pub(super) fn runs_since(&self) -> Option<Turn> {
        self.runs_since
    }

    /// Its transaction has ended, and nothing was sent behind it.
    pub(super) fn end_runs(&mut self) {
        self.runs_since = None;
    }

    /// The ReadyForQuery waits for what it may have taken or released since a turn.
    pub(super) fn await_news(&mut self, since: Turn) {
        self.awaits.news = Some(since);
    }

    /// A look has shown that. Returns since which turn it was, if it waits for that.
    pub(super) fn hear_news(&mut self) -> Option<Turn> {
        self.awaits.news.take()
    }

    /// The ReadyForQuery waits for the outcome of what is held.
    pub(super) fn await_outcome(&mut self) {
        self.awaits.outcome = !self.held.is_empty();
    }

    /// It waits for that no longer.
    pub(super) fn hear_outcome(&mut self) {
        self.awaits.outcome = false;
    }

    /// Returns whether the ReadyForQuery that is kept waits for nothing but folds.
    pub(super) fn may_go_on(&self) -> bool {
        self.is_kept && self.awaits == Awaits::default()
    }

    /// The client goes on without what it has waited for, at this turn. What it has sent meanwhile is to be waited for.
    pub(super) fn give_up(&mut self, turn: Turn) {
        self.is_given_up |= self.awaits.outcome;
        self.runs_since = self.runs_behind.or(self.runs_since.map(|_| turn));
        self.awaits = Awaits::default();
    }

    /// Returns whether it waits for what it holds to be folded once that has committed.
    pub(super) fn waits_for_folds(&self) -> bool {
        !self.is_lost && !self.is_given_up
    }

    /// Begins anew with another owner's folds.
    pub(super) fn begin_anew(&mut self) {
        self.awaits = Awaits::default();
        self.is_looked_for = false;
        self.runs_since = self.runs_since.map(|_| 0);
    }

    /// Returns whether a look has to show what the transaction has left as holds: all of it that survives has committed.
    pub(super) fn must_look(&self) -> bool {
        let survives = self.held.iter().map(|it| it.verdict);
        let mut survives = survives.filter(|&it| it != Verdict::Aborted).peekable();
        let is_committed = survives.peek().is_some() && survives.all(|it| it == Verdict::Committed);
        is_committed && self.may_hold && self.fates.is_none()
    }

    /// Returns the notes that it holds.
    pub(super) fn lines(&self) -> impl Iterator<Item = Line> + '_ {
        self.held.iter().map(|it| it.line)
    }

    /// Takes what a look has found out about them.
    pub(super) fn tell_fates(&mut self, all: &mut BTreeMap<Line, Fate<C>>) {
        let lines = self.held.iter().map(|it| it.line);
        let fates = lines.filter_map(|line| Some((line, all.remove(&line)?)));
        self.fates = Some(fates.collect());
        self.is_looked_for = false;
    }

    /// Returns the keys that it holds, and how often, if all that is held is alive and its transaction goes on.
    pub(super) fn alive(&self) -> BTreeMap<K, usize> {
        let mut alive = BTreeMap::new();
        if !(self.has_ended || self.is_unsure || self.is_lost || self.question.is_some()) {
            for it in &self.held {
                *alive.entry(it.key.clone()).or_default() += 1;
            }
        }
        alive
    }

    /// Returns what it has reserved.
    pub(super) fn reserved(&self) -> impl Iterator<Item = (&K, &C)> {
        self.held.iter().map(|it| (&it.key, &it.change))
    }

    /// Returns how often it holds a key or asks for it.
    pub(super) fn wants(&self, key: &K) -> usize {
        let is_asked = self.request.as_ref().map_or(false, |it| it.key == *key);
        let held = self.held.iter().filter(|it| it.key == *key).count();
        held + usize::from(is_asked)
    }

    /// Returns the keys that it holds, and the one that it asks for.
    #[cfg(test)]
    pub(super) fn keys(&self) -> impl Iterator<Item = &K> {
        let asked = self.request.iter().map(|it| &it.key);
        asked.chain(self.held.iter().map(|it| &it.key))
    }

    /// Takes what it wants no longer out of the counts of who wants each key.
    pub(super) fn release(&mut self, wanted: &mut BTreeMap<K, usize>) {
        for key in self.released.drain(..) {
            match wanted.get_mut(&key) {
                Some(count) if *count > 1 => *count -= 1,
                _ => {
                    wanted.remove(&key);
                }
            }
        }
    }

    /// The transaction has folded what it holds of a key, or all that it holds.
    pub(super) fn folded(&mut self, key: Option<&K>) {
        let is_its = |it: &&mut Reservation<K, C>| key.map_or(true, |key| it.key == *key);
        for reservation in self.held.iter_mut().filter(is_its) {
            reservation.is_folded = true;
        }
    }

    /// Returns whether nothing of it is open.
    pub(super) fn is_idle(&self) -> bool {
        self.request.is_none() && self.held.is_empty() && self.question.is_none() && !self.is_kept
    }

    /// Returns whether it holds nothing.
    pub(super) fn is_free(&self) -> bool {
        self.held.is_empty()
    }

    /// Returns what it asks for.
    pub(super) fn asks(&self) -> Option<&Request<K, C>> {
        self.request.as_ref()
    }

    /// Asks for nothing any more.
    pub(super) fn end_request(&mut self) {
        self.released
            .extend(self.request.take().map(|request| request.key));
    }

    pub(super) fn request(&mut self, key: K, change: C, alone: bool) {
        self.end_request();
        self.request = Some(Request {
            key,
            change,
            alone,
            stage: Stage::Waiting,
            mark: Mark(0),
        });
    }

    pub(super) fn is_waiting(&self) -> bool {
        self.is_at(Stage::Waiting)
    }

    pub(super) fn is_at(&self, stage: Stage) -> bool {
        self.request
            .as_ref()
            .map_or(false, |request| request.stage == stage)
    }

    pub(super) fn stage(&mut self, stage: Stage) {
        if let Some(request) = &mut self.request {
            request.stage = stage;
        }
    }

    /// Returns whether an ended transaction is not over in the server yet.
    pub(super) fn is_ending(&self) -> bool {
        self.has_ended && !self.held.is_empty()
    }

    /// Returns whether the server may hold what is dead.
    pub(super) fn is_unsure(&self) -> bool {
        !self.held.is_empty() && self.is_unsure
    }

    /// Chooses the mark behind which the server is asked. Returns it if it is new. Fails if there are too many.
    pub(super) fn mark(&mut self) -> Result<Option<Mark>, ()> {
        let last = self.held.last().map_or(0, |reservation| reservation.mark.0);
        if self.needs_mark && last == MARKS {
            return Err(());
        }
        let mark = Mark(last + u32::from(self.needs_mark));
        if let Some(request) = &mut self.request {
            request.stage = Stage::Granting;
            request.mark = mark;
        }
        Ok(Some(mark).filter(|_| self.needs_mark))
    }

    /// Holds the request's reservation. Returns false if its id is not that of its mark.
    pub(super) fn hold(&mut self, id: Id, line: Line) -> bool {
        let request = match self.request.take() {
            Some(request) => request,
            None => return false,
        };
        if self.held.is_empty() {
            // What was said before is of other transactions, or of this one before it reserved anything.
            self.is_unsure = false;
            self.was_unsure = false;
            self.cycle = Cycle::default();
            self.is_alone = request.alone;
            self.is_given_up = false;
        }
        let last = self.held.last();
        let is_one = last.map_or(true, |last| last.mark != request.mark || last.id == id);
        self.needs_mark = false;
        self.held.push(Reservation {
            key: request.key,
            change: request.change,
            id,
            line,
            mark: request.mark,
            verdict: Verdict::InProgress,
            is_folded: false,
        });
        is_one
    }

    /// Drops the request, whose grant cannot commit any more, and what shares its subtransaction. Returns what the server
    /// is to be told.
    pub(super) fn drop_request(&mut self) -> Option<Told> {
        let mark = self.request.as_ref()?.mark;
        self.end_request();
        let (held, dead): (Vec<_>, Vec<_>) = self.held.drain(..).partition(|it| it.mark < mark);
        self.released.extend(dead.into_iter().map(|it| it.key));
        self.held = held;
        self.needs_mark = true;
        Some(if self.held.is_empty() {
            Told::Rollback
        } else {
            Told::BackTo(mark)
        })
    }

    /// Drops all that it holds, which cannot commit any more.
    pub(super) fn drop_held(&mut self) {
        self.released.extend(self.held.drain(..).map(|it| it.key));
        self.has_ended = false;
    }

    pub(super) fn completed(&mut self, tag: Tag) {
        #[cfg(test)]
        match tag {
            Tag::Commit => self.cycle.ends_with_commit = true,
            Tag::Plain | Tag::Savepoint => {}
            Tag::Other => self.cycle.ends_with_commit = false,
        }
        match tag {
            Tag::Plain => return,
            Tag::Savepoint => {
                self.needs_mark = true;
                return;
            }
            Tag::Commit => {
                self.cycle.commits += 1;
                self.has_commit = true;
            }
            Tag::Other => self.cycle.others = true,
        }
        self.needs_mark = true;
        if self.has_ended {
            // It is said of a later transaction.
            return;
        }
        self.is_unsure = true;
        if let Some(question) = &mut self.question {
            question.is_stale = true;
        }
    }

    /// Returns whether the cycle has a COMMIT, of what is held or of what was before it.
    pub(super) fn has_commit(&self) -> bool {
        self.has_commit
    }

    /// Returns whether the cycle has a COMMIT behind the first reservation of what is held.
    pub(super) fn has_commit_behind(&self) -> bool {
        self.cycle.commits > 0
    }

    /// Rule 4: whether the cycle that ends idle is plainly a commit of all that is held.
    pub(super) fn is_plain_commit(&self) -> bool {
        let commits = if self.is_alone { 0 } else { 1 };
        !self.was_unsure && !self.cycle.others && self.cycle.commits == commits
    }

    #[cfg(test)]
    pub(super) fn ends_with_commit(&self) -> bool {
        self.cycle.ends_with_commit
    }

    pub(super) fn next_cycle(&mut self) {
        self.was_unsure = self.is_unsure;
        self.cycle = Cycle::default();
        self.has_commit = false;
    }

    /// Nothing more is heard of the transaction of what is held.
    pub(super) fn end(&mut self) {
        if self.is_ending() {
            return;
        }
        self.has_ended = !self.held.is_empty();
        self.is_unsure = false;
        self.needs_mark = true;
        if let Some(question) = &mut self.question {
            question.is_stale = true;
        }
    }

    pub(super) fn decide_all(&mut self, verdict: Verdict) {
        for reservation in &mut self.held {
            reservation.verdict = verdict;
        }
    }

    /// Begins a question for what is not decided. None: there is nothing to ask, or a question is under way.
    pub(super) fn ask(&mut self) -> Option<Vec<Id>> {
        if self.question.is_some() {
            return None;
        }
        let mut ids: Vec<Id> = self
            .held
            .iter()
            .filter(|reservation| reservation.verdict == Verdict::InProgress)
            .map(|reservation| reservation.id)
            .collect();
        ids.dedup();
        if ids.is_empty() {
            return None;
        }
        self.question = Some(Question {
            ids: ids.clone(),
            is_stale: false,
        });
        Some(ids)
    }

    /// Begins the question of an ended transaction that was in progress.
    pub(super) fn ask_again(&mut self) -> Option<Vec<Id>> {
        if self.has_ended {
            self.ask()
        } else {
            None
        }
    }

    /// Takes the answer to the question. Returns false if something was said since that may end what is alive.
    pub(super) fn answered(&mut self, verdicts: &[Verdict]) -> bool {
        let question = match self.question.take() {
            Some(question) => question,
            None => return true,
        };
        for (id, &verdict) in question.ids.iter().zip(verdicts) {
            // Committed and aborted are so for ever, whenever they were asked.
            for reservation in self.held.iter_mut().filter(|it| it.id == *id) {
                reservation.verdict = verdict;
            }
        }
        !question.is_stale
    }

    /// Returns whether the outcomes are of different moments: something is in progress that is not in front of all that is
    /// decided, or has something committed behind it.
    pub(super) fn is_torn(&self) -> bool {
        let is_open = |it: &Reservation<K, C>| it.verdict == Verdict::InProgress;
        let mut behind = self.held.iter().skip_while(|it| is_open(it));
        self.held.iter().any(is_open) && !behind.all(|it| it.verdict == Verdict::Aborted)
    }

    /// What is held is alive, but for what is known to be dead.
    pub(super) fn be_sure(&mut self) {
        self.is_unsure = false;
        self.was_unsure = false;
    }

    /// Returns what the server is to be told by the outcomes that are known, and forgets what is over.
    pub(super) fn settle(&mut self) -> Result<Settled<K, C>, Alarm> {
        let mut settled = Settled {
            told: Vec::new(),
            committed: Vec::new(),
            taken: Vec::new(),
            folded: Vec::new(),
            is_over: false,
            needs_look: false,
            kept: None,
            done: Vec::new(),
        };
        let is_dead = |it: &Reservation<K, C>| it.verdict == Verdict::Aborted;
        let alive = self
            .held
            .iter()
            .position(is_dead)
            .unwrap_or(self.held.len());
        if !self.held[alive..].iter().all(is_dead) {
            // An ended transaction is judged when all is known; what is alive is a prefix at any time.
            return Err(Alarm::NoPrefix);
        }
        if alive < self.held.len() {
            let mark = self.held[alive].mark;
            if self.held[..alive].iter().any(|it| it.mark == mark) {
                return Err(Alarm::NoPrefix);
            }
            let dead = self.held.drain(alive..);
            self.released.extend(dead.map(|it| it.key));
            self.needs_mark = true;
            if alive > 0 {
                settled.told.push(Told::BackTo(mark));
            } else {
                settled.told.push(Told::Rollback);
                settled.is_over = self.has_ended;
            }
        }
        let has_committed = |it: &Reservation<K, C>| it.verdict == Verdict::Committed;
        if !self.held.is_empty() && self.held.iter().all(has_committed) {
            if self.must_look() {
                settled.needs_look = !std::mem::replace(&mut self.is_looked_for, true);
                return Ok(settled);
            }
            self.commit(&mut settled);
            settled.is_over = true;
            self.needs_mark = true;
        } else if !self.has_ended && self.held.iter().any(has_committed) {
            // COMMIT AND CHAIN commits all that was held, since nothing is granted before the outcome is known.
            return Err(Alarm::NoPrefix);
        }
        if self.held.is_empty() {
            settled.is_over |= self.has_ended;
            self.has_ended = false;
            self.is_unsure = false;
        }
        Ok(settled)
    }

    /// Ends a transaction that has committed: what it has left as a hold stays reserved (rule 23).
    fn commit(&mut self, settled: &mut Settled<K, C>) {
        let mut fates = self.fates.take().unwrap_or_default();
        let has_holds = !fates.is_empty();
        let mut kept = Kept {
            committed: Vec::new(),
            lines: Vec::new(),
        };
        for it in self.held.drain(..) {
            self.released.push(it.key.clone());
            match fates.remove(&it.line) {
                None => {
                    match it.is_folded {
                        true => settled.folded.push(it.key.clone()),
                        false => settled.committed.push(it.key.clone()),
                    }
                    kept.committed.push((it.key, it.change));
                }
                Some(Fate::Stands) => kept.lines.push((it.line, it.key, it.change)),
                Some(Fate::Taken(change)) => {
                    settled.done.push(it.line);
                    settled.taken.push(it.key.clone());
                    kept.committed.push((it.key, change));
                }
                Some(Fate::Free) => settled.done.push(it.line),
            }
        }
        match has_holds {
            true => settled.kept = Some(kept),
            false => settled.told.push(Told::Commit),
        }
    }

    /// Keeps a ReadyForQuery back.
    pub(super) fn keep(&mut self) {
        self.is_kept = true;
        self.runs_behind = None;
    }

    /// Gives the ReadyForQuery free. Returns whether one was kept.
    pub(super) fn take_kept(&mut self) -> bool {
        std::mem::take(&mut self.is_kept)
    }
}
