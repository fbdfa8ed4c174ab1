//! What is committed and not yet in the tables' rows, and who waits for that.

use std::collections::{BTreeMap, BTreeSet};

use super::Connection;

/// Counts commits that were told to the server.
pub(super) type Turn = u64;

/// The keys with committed rows in their journals. At most one fold is under way.
pub(super) struct Folds<K> {
    /// The turn of the last commit of each key.
    pending: BTreeMap<K, Turn>,
    /// Keys that a fold could not lock. They wait for the next try.
    skipped: BTreeMap<K, Turn>,
    /// The turn of the last take of each key, until that is folded.
    takes: BTreeMap<K, Turn>,
    /// Who waits until their keys are folded.
    waiting: BTreeMap<Connection, Vec<(K, Turn)>>,
    turn: Turn,
    /// The keys of the fold that is under way, and the turn before which it began.
    folding: Option<(Vec<K>, Turn)>,
}

impl<K: Clone + Ord> Folds<K> {
    pub(super) fn new() -> Folds<K> {
        Folds {
            pending: BTreeMap::new(),
            skipped: BTreeMap::new(),
            takes: BTreeMap::new(),
            waiting: BTreeMap::new(),
            turn: 0,
            folding: None,
        }
    }

    /// Returns how many keys are to be folded.
    pub(super) fn len(&self) -> usize {
        self.pending.len() + self.skipped.len()
    }

    /// Returns how many commits it was told.
    pub(super) fn turn(&self) -> Turn {
        self.turn
    }

    pub(super) fn is_empty(&self) -> bool {
        self.pending.is_empty() && self.skipped.is_empty() && self.folding.is_none()
    }

    /// Returns whether a key is to be folded.
    pub(super) fn has(&self, key: &K) -> bool {
        self.pending.contains_key(key) || self.skipped.contains_key(key)
    }

    /// Tries keys again that were locked by a transaction which has ended.
    pub(super) fn unlocked(&mut self, keys: &[K]) {
        for key in keys {
            if let Some(turn) = self.skipped.remove(key) {
                self.pending.insert(key.clone(), turn);
            }
        }
    }

    /// Adds keys with something that has committed.
    pub(super) fn committed(&mut self, keys: &[K]) {
        self.turn += 1;
        for key in keys {
            self.skipped.remove(key);
            self.pending.insert(key.clone(), self.turn);
        }
    }

    /// Adds keys of holds that were taken.
    pub(super) fn taken(&mut self, keys: &[K]) {
        self.committed(keys);
        let turn = self.turn;
        self.takes
            .extend(keys.iter().map(|key| (key.clone(), turn)));
    }

    /// Lets a connection wait for keys that have committed just now and may be folded.
    pub(super) fn wait(
        &mut self,
        keys: Vec<K>,
        connection: Connection,
        may_be_folded: impl Fn(&K) -> bool,
    ) {
        let turn = self.turn;
        let keys = keys.into_iter().filter(|key| may_be_folded(key));
        self.wait_for(connection, keys.map(|key| (key, turn)).collect());
    }

    /// Lets a connection wait for what was taken since a turn, and is not folded yet.
    pub(super) fn wait_for_takes(
        &mut self,
        since: Turn,
        connection: Connection,
        may_be_folded: impl Fn(&K) -> bool,
    ) {
        let takes = self.takes.iter();
        let takes = takes.filter(|&(key, &turn)| turn > since && may_be_folded(key));
        let takes = takes.map(|(key, &turn)| (key.clone(), turn)).collect();
        self.wait_for(connection, takes);
    }

    fn wait_for(&mut self, connection: Connection, keys: Vec<(K, Turn)>) {
        if !keys.is_empty() {
            self.waiting.entry(connection).or_default().extend(keys);
        }
    }

    /// Returns whether a connection waits for a fold.
    pub(super) fn is_awaited_by(&self, connection: Connection) -> bool {
        self.waiting.contains_key(&connection)
    }

    /// Begins a fold of what may be folded. Returns its keys, or none if one is under way or nothing is pending. `all` tries
    /// the skipped ones again, by the next fold if one is under way: else none would, as long as one follows another.
    pub(super) fn begin(
        &mut self,
        all: bool,
        may_be_folded: impl Fn(&K) -> bool,
    ) -> Option<Vec<K>> {
        if all {
            self.pending.append(&mut self.skipped);
        }
        if self.folding.is_some() {
            return None;
        }
        let keys = self.pending.keys().filter(|key| may_be_folded(key));
        let keys: Vec<K> = keys.cloned().collect();
        if keys.is_empty() {
            return None;
        }
        self.folding = Some((keys.clone(), self.turn));
        Some(keys)
    }

    /// Nobody waits for these keys any more. Returns who is free by that.
    pub(super) fn give_up(&mut self, is_given_up: impl Fn(&K) -> bool) -> Vec<Connection> {
        self.free(|key, _| is_given_up(key))
    }

    /// Returns who waits no longer, once nobody waits for these keys of these turns.
    fn free(&mut self, is_over: impl Fn(&K, Turn) -> bool) -> Vec<Connection> {
        let mut free = Vec::new();
        self.waiting.retain(|&connection, keys| {
            keys.retain(|(key, since)| !is_over(key, *since));
            if keys.is_empty() {
                free.push(connection);
            }
            !keys.is_empty()
        });
        free
    }

    /// Notes that the fold has moved these keys. Returns who waits no longer.
    pub(super) fn folded(&mut self, moved: &[K]) -> Vec<Connection> {
        let (keys, turn) = match self.folding.take() {
            Some(folding) => folding,
            None => return Vec::new(),
        };
        let moved: BTreeSet<&K> = moved.iter().collect();
        for key in keys {
            if self.pending.get(&key).map_or(true, |&last| last > turn) {
                continue;
            }
            let last = self.pending.remove(&key);
            if let (false, Some(last)) = (moved.contains(&key), last) {
                self.skipped.insert(key, last);
            }
        }
        self.moved(&moved, turn)
    }

    /// Notes that keys which an earlier fold had left out are folded, as of the turn at which it began. Returns who waits no
    /// longer.
    pub(super) fn folded_late(&mut self, moved: &[K], turn: Turn) -> Vec<Connection> {
        let moved: BTreeSet<&K> = moved.iter().collect();
        for late in [&mut self.pending, &mut self.skipped] {
            for &key in &moved {
                if late.get(key).map_or(false, |&last| last <= turn) {
                    late.remove(key);
                }
            }
        }
        self.moved(&moved, turn)
    }

    /// Notes that the rows of these keys show what had committed up to a turn. Returns who waits no longer.
    fn moved(&mut self, moved: &BTreeSet<&K>, turn: Turn) -> Vec<Connection> {
        for key in moved {
            if self.takes.get(key).map_or(false, |&taken| taken <= turn) {
                self.takes.remove(key);
            }
        }
        self.free(|key, since| since <= turn && moved.contains(key))
    }

    /// Notes that the fold has moved nothing.
    pub(super) fn failed(&mut self) {
        self.folding = None;
    }

    /// Lets a connection wait no longer.
    pub(super) fn forget(&mut self, connection: Connection) {
        self.waiting.remove(&connection);
    }
}

#[cfg(test)]
mod tests {
    use super::*;

    const ONE: Connection = Connection(1);
    const TWO: Connection = Connection(2);

    fn all(_: &&str) -> bool {
        true
    }

    /// Adds keys that have committed, for which a connection waits.
    fn commit(folds: &mut Folds<&'static str>, keys: &[&'static str], connection: Connection) {
        folds.committed(keys);
        folds.wait(keys.to_vec(), connection, all);
    }

    #[test]
    fn a_commit_behind_the_beginning_of_a_fold_waits_for_the_next() {
        let mut folds = Folds::new();
        commit(&mut folds, &["a"], ONE);
        assert_eq!(folds.begin(false, all), Some(vec!["a"]));
        commit(&mut folds, &["a"], TWO);
        assert_eq!(folds.begin(false, all), None, "one is under way");
        assert_eq!(folds.folded(&["a"]), vec![ONE]);
        assert_eq!(folds.begin(false, all), Some(vec!["a"]));
        assert_eq!(folds.folded(&["a"]), vec![TWO]);
        assert!(folds.is_empty());
    }

    #[test]
    fn a_locked_row_waits_for_the_next_try_and_keeps_its_client() {
        let mut folds = Folds::new();
        commit(&mut folds, &["a", "b"], ONE);
        assert_eq!(folds.begin(false, all), Some(vec!["a", "b"]));
        assert_eq!(folds.folded(&["b"]), vec![]);
        assert_eq!(folds.begin(false, all), None);
        assert!(!folds.is_empty());
        assert_eq!(folds.begin(true, all), Some(vec!["a"]));
        folds.failed();
        assert_eq!(folds.begin(false, all), Some(vec!["a"]));
        assert_eq!(folds.folded(&["a"]), vec![ONE]);
        assert!(folds.is_empty());
    }

    #[test]
    fn a_locked_row_is_tried_again_though_one_fold_follows_another() {
        let mut folds = Folds::new();
        commit(&mut folds, &["a"], ONE);
        assert_eq!(folds.begin(false, all), Some(vec!["a"]));
        commit(&mut folds, &["b"], TWO);
        assert_eq!(folds.folded(&[]), vec![]);
        assert_eq!(folds.begin(false, all), Some(vec!["b"]));
        assert_eq!(folds.begin(true, all), None, "one is under way");
        commit(&mut folds, &["c"], TWO);
        assert_eq!(folds.folded(&["b"]), vec![]);
        assert_eq!(folds.begin(false, all), Some(vec!["a", "c"]));
        assert_eq!(folds.folded(&["a", "c"]), vec![ONE, TWO]);
    }

    #[test]
    fn a_late_fold_has_moved_what_had_committed_when_it_began() {
        let mut folds = Folds::new();
        commit(&mut folds, &["a", "b"], ONE);
        assert_eq!(folds.begin(false, all), Some(vec!["a", "b"]));
        let late = folds.turn();
        assert_eq!(folds.folded(&["b"]), vec![]);
        commit(&mut folds, &["b"], TWO);
        assert_eq!(folds.begin(true, all), Some(vec!["a", "b"]));
        assert_eq!(folds.folded_late(&["a"], late), vec![ONE]);
        assert_eq!(folds.folded(&["b"]), vec![TWO]);
        assert!(folds.is_empty());
        // A commit behind its beginning is none of it.
        let late = folds.turn();
        commit(&mut folds, &["a"], ONE);
        assert_eq!(folds.folded_late(&["a"], late), vec![]);
        assert_eq!(folds.begin(false, all), Some(vec!["a"]));
    }

    #[test]
    fn a_locked_row_of_a_later_commit_is_not_folded_before_it() {
        let mut folds = Folds::new();
        commit(&mut folds, &["a"], ONE);
        assert_eq!(folds.begin(false, all), Some(vec!["a"]));
        assert_eq!(folds.folded(&[]), vec![]);
        commit(&mut folds, &["b"], ONE);
        assert_eq!(folds.begin(true, all), Some(vec!["a", "b"]));
        assert_eq!(folds.folded(&["b"]), vec![]);
        assert_eq!(folds.len(), 1);
        commit(&mut folds, &["a"], TWO);
        assert_eq!(folds.len(), 1, "it is tried at once");
        assert_eq!(folds.begin(true, all), Some(vec!["a"]));
        commit(&mut folds, &["a"], TWO);
        assert_eq!(folds.folded(&["a"]), vec![ONE]);
        assert_eq!(folds.begin(false, all), Some(vec!["a"]));
        assert_eq!(folds.folded(&["a"]), vec![TWO]);
        assert!(folds.is_empty());
    }

    #[test]
    fn a_row_whose_lock_is_free_is_tried_at_once() {
        let mut folds = Folds::new();
        commit(&mut folds, &["a", "b"], ONE);
        folds.begin(false, all);
        assert_eq!(folds.folded(&[]), vec![]);
        assert_eq!(folds.begin(false, all), None, "both are locked");
        folds.unlocked(&["a", "c"]);
        assert_eq!(folds.begin(false, all), Some(vec!["a"]));
    }

    #[test]
    fn a_take_behind_the_beginning_of_a_fold_waits_for_the_next() {
        let mut folds = Folds::new();
        folds.committed(&["a"]);
        let since = folds.turn();
        assert_eq!(folds.begin(false, all), Some(vec!["a"]));
        folds.taken(&["a"]);
        assert_eq!(folds.folded(&["a"]), vec![]);
        folds.wait_for_takes(since, ONE, all);
        assert_eq!(folds.begin(false, all), Some(vec!["a"]));
        assert_eq!(folds.folded(&["a"]), vec![ONE]);
    }

    #[test]
    fn nobody_waits_for_what_may_not_be_folded() {
        let mut folds = Folds::new();
        let is_b = |key: &&str| *key == "b";
        commit(&mut folds, &["a", "b"], ONE);
        assert_eq!(folds.begin(false, all), Some(vec!["a", "b"]));
        assert_eq!(folds.give_up(|key| *key == "a"), vec![]);
        assert_eq!(folds.folded(&["b"]), vec![ONE]);
        assert_eq!(folds.begin(true, is_b), None);
        folds.committed(&["a"]);
        folds.wait(vec!["a"], TWO, is_b);
        assert!(!folds.is_awaited_by(TWO));
        commit(&mut folds, &["b"], TWO);
        assert!(folds.is_awaited_by(TWO));
        assert_eq!(folds.begin(true, is_b), Some(vec!["b"]));
        assert_eq!(folds.folded(&["b"]), vec![TWO]);
        assert_eq!(folds.begin(true, all), Some(vec!["a"]));
    }

    #[test]
    fn only_what_was_taken_since_is_waited_for_and_only_until_it_is_folded() {
        let mut folds = Folds::new();
        folds.taken(&["a"]);
        let since = folds.turn();
        folds.wait_for_takes(since, ONE, all);
        assert!(!folds.is_awaited_by(ONE), "it was taken before");
        assert_eq!(folds.begin(false, all), Some(vec!["a"]));
        folds.taken(&["b"]);
        folds.committed(&["c"]);
        for _ in 0..2 {
            folds.wait_for_takes(since, ONE, all);
        }
        // The fold that is under way has begun before, and the next one finds the row locked at first.
        assert_eq!(folds.folded(&["a"]), vec![]);
        assert_eq!(folds.begin(false, all), Some(vec!["b", "c"]));
        assert_eq!(folds.folded(&["c"]), vec![]);
        folds.wait_for_takes(since, TWO, all);
        assert_eq!(folds.begin(true, all), Some(vec!["b"]));
        assert_eq!(folds.folded(&["b"]), vec![ONE, TWO]);
        folds.wait_for_takes(0, TWO, all);
        assert!(!folds.is_awaited_by(TWO) && folds.takes.is_empty());
    }
}
