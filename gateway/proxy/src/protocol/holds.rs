//! What the server has reserved for holds, and the looks that find out what has become of them.

use std::collections::{BTreeMap, BTreeSet};

use super::{Connection, Line};

/// If so many lines have ended, there may be more, so that the next look begins at once.
pub(super) const MANY: usize = 100;

/// The most lines that a look forgets: more would take it too long.
pub(super) const FORGETS: usize = 4_000;

/// So many rows are left at a time because their holds have ended. A sweep does the others, and loads need not wait for them.
pub(super) const LEAVES: usize = 64;

/// Who waits for a look.
#[derive(Clone, Debug, Default, PartialEq, Eq)]
pub(super) struct Who {
    /// For what they may have taken or released.
    pub(super) news: BTreeSet<Connection>,
    /// For which of their notes have become lines of holds.
    pub(super) fates: BTreeSet<Connection>,
}

impl Who {
    fn is_empty(&self) -> bool {
        self.news.is_empty() && self.fates.is_empty()
    }

    fn extend(&mut self, other: Who) {
        self.news.extend(other.news);
        self.fates.extend(other.fates);
    }
}

/// The lines of holds that the server has. At most one look is under way.
pub(super) struct Holds<K, C> {
    kept: BTreeMap<Line, (K, C)>,
    /// How many of them each row has.
    rows: BTreeMap<K, usize>,
    /// Who waits for a look that is still to begin.
    waiting: Who,
    /// Who waits for the look that is under way.
    looking: Option<Who>,
    /// Who has waited for news, and was shown an end too early to say anything of it. A look begins for them once that can be said.
    again: BTreeSet<Connection>,
    /// Lines that have ended, and that PostgreSQL may forget.
    done: BTreeSet<Line>,
    /// Those that the look under way lets it forget.
    forgotten: Vec<Line>,
}

impl<K: Clone + Ord, C> Holds<K, C> {
    pub(super) fn new() -> Holds<K, C> {
        Holds {
            kept: BTreeMap::new(),
            rows: BTreeMap::new(),
            waiting: Who::default(),
            looking: None,
            again: BTreeSet::new(),
            done: BTreeSet::new(),
            forgotten: Vec::new(),
        }
    }

    /// Returns how many lines the server has.
    pub(super) fn len(&self) -> usize {
        self.kept.len()
    }

    /// Returns the rows that have lines in the server.
    pub(super) fn rows(&self) -> impl Iterator<Item = &K> {
        self.rows.keys()
    }

    /// Returns whether the server has a line of a row.
    pub(super) fn has_row(&self, key: &K) -> bool {
        self.rows.contains_key(key)
    }

    /// Returns whether the server has a line.
    pub(super) fn has(&self, line: &Line) -> bool {
        self.kept.contains_key(line)
    }

    /// Adds a line that the server has reserved.
    pub(super) fn keep(&mut self, line: Line, key: K, change: C) {
        *self.rows.entry(key.clone()).or_default() += 1;
        self.kept.insert(line, (key, change));
    }

    /// Takes a line away that has ended.
    pub(super) fn end(&mut self, line: &Line) {
        if let Some((key, _)) = self.kept.remove(line) {
            match self.rows.get_mut(&key) {
                Some(count) if *count > 1 => *count -= 1,
                _ => {
                    self.rows.remove(&key);
                }
            }
        }
    }

    /// Lets PostgreSQL forget lines at the next look.
    pub(super) fn forget(&mut self, lines: impl IntoIterator<Item = Line>) {
        self.done.extend(lines);
    }

    /// Returns whether a line has ended that PostgreSQL has not forgotten yet, since there were too many.
    pub(super) fn is_done(&self, line: &Line) -> bool {
        self.done.contains(line)
    }

    /// Lets a connection wait for the next look, which shows which of its notes have become lines.
    pub(super) fn wait_for_fates(&mut self, connection: Connection) {
        self.waiting.fates.insert(connection);
    }

    /// Lets a connection wait for the next look, which shows what it may have taken or released.
    pub(super) fn wait_for_news(&mut self, connection: Connection) {
        self.waiting.news.insert(connection);
    }

    /// Lets a connection wait for a look that begins once [`Holds::try_again`] is called.
    pub(super) fn wait_again(&mut self, connection: Connection) {
        self.again.insert(connection);
    }

    /// More may be said now than at the last look. Returns whether somebody waits for that.
    pub(super) fn try_again(&mut self) -> bool {
        let is_any = !self.again.is_empty();
        self.waiting.news.append(&mut self.again);
        is_any
    }

    /// Lets a connection wait for no news any more.
    pub(super) fn forget_news(&mut self, connection: Connection) {
        let looking = self.looking.iter_mut().map(|who| &mut who.news);
        for waiting in looking.chain([&mut self.waiting.news, &mut self.again]) {
            waiting.remove(&connection);
        }
    }

    /// Returns whether nobody waits.
    pub(super) fn is_quiet(&self) -> bool {
        let are_none = self.waiting.is_empty() && self.again.is_empty();
        are_none && self.looking.as_ref().map_or(true, Who::is_empty)
    }

    /// Begins a look, unless one is under way. Without `is_due` it begins only if somebody waits. Returns what PostgreSQL may
    /// forget, and who waits for the look.
    pub(super) fn begin(&mut self, is_due: bool) -> Option<(Vec<Line>, &Who)> {
        if self.looking.is_some() || self.waiting.is_empty() && !is_due {
            return None;
        }
        let next = self.done.iter().nth(FORGETS).copied();
        let rest = next.map_or_else(BTreeSet::new, |line| self.done.split_off(&line));
        let done: Vec<Line> = std::mem::replace(&mut self.done, rest)
            .into_iter()
            .collect();
        self.forgotten.clone_from(&done);
        let who: &_ = self.looking.insert(std::mem::take(&mut self.waiting));
        Some((done, who))
    }

    /// Returns who waited for the look that is under way. None begins before [`Holds::end_look`]: it could show a line again
    /// that is done with by then.
    pub(super) fn looked(&mut self) -> Who {
        self.looking.replace(Who::default()).unwrap_or_default()
    }

    /// Ends the look that is under way.
    pub(super) fn end_look(&mut self) {
        self.looking = None;
        self.forgotten.clear();
    }

    /// Gives up the look that is under way: it has shown nothing, and nothing is forgotten. The next one does it all.
    pub(super) fn give_up_look(&mut self) {
        self.waiting.extend(self.looking.take().unwrap_or_default());
        self.done.extend(self.forgotten.drain(..));
    }
}
