//! Single cases of the state machine, event by event. The simulation has all the others.

use super::holds::FORGETS;
use super::*;

type Machine = Protocol<&'static str, i64>;

const ONE: Connection = Connection(1);
const TWO: Connection = Connection(2);

impl Row for &'static str {
    /// The first letter.
    type Table = char;

    fn table(&self) -> char {
        self.chars().next().unwrap_or_default()
    }
}

/// Returns an owner that has loaded the row `a`.
fn serving() -> Machine {
    let mut it = Machine::new();
    assert_eq!(it.handle(Event::Tick), [Action::TakeOwner]);
    assert_eq!(it.handle(Event::OwnerTaken), [Action::SetEpoch]);
    assert_eq!(it.handle(Event::EpochSet), [Action::EndHolders]);
    assert_eq!(it.handle(Event::Holders { any: true }), []);
    assert_eq!(it.handle(Event::Tick), [Action::EndHolders]);
    assert_eq!(it.handle(Event::Holders { any: false }), []);
    assert_eq!(reserve(&mut it, "a", true), [Action::Load("a")]);
    let missing = Event::NotLoaded {
        key: "a",
        missing: true,
    };
    assert_eq!(it.handle(missing), [Action::Answer(ONE, Answer::Missing)]);
    assert_eq!(reserve(&mut it, "a", false), [Action::Load("a")]);
    let granted = [
        Action::Tell(ONE, Told::Mark(Mark(1))),
        Action::Grant(ONE, "a", 1),
    ];
    let lines = Vec::new();
    assert_eq!(it.handle(Event::Loaded { key: "a", lines }), granted);
    let refused = [
        Action::Tell(ONE, Told::Rollback),
        Action::Answer(ONE, Answer::Refused),
    ];
    assert_eq!(it.handle(Event::Refused { connection: ONE }), refused);
    it
}

fn reserve(it: &mut Machine, key: &'static str, alone: bool) -> Vec<Action<&'static str, i64>> {
    it.handle(Event::Reserve {
        connection: ONE,
        key,
        change: 1,
        alone,
    })
}

/// Returns the line of a note, which has the number of its id here.
fn line(id: u64) -> Line {
    let number = id as i64;
    Line { epoch: 1, number }
}

/// Reserves of the row `a`, and notes it under an id.
fn hold(it: &mut Machine, alone: bool, id: u64) {
    let asked = reserve(it, "a", alone);
    assert_eq!(
        asked.last(),
        Some(&Action::Grant(ONE, "a", 1)),
        "{:?}",
        asked
    );
    let noted = [Action::Note(ONE, "a", 1)];
    assert_eq!(it.handle(Event::Granted { connection: ONE }), noted);
    let answered = [Action::Answer(ONE, Answer::Reserved)];
    assert_eq!(
        it.handle(Event::Noted {
            connection: ONE,
            id: Id(id),
            line: line(id),
        }),
        answered
    );
}

fn completed(it: &mut Machine, tag: &str) {
    let event = Event::Completed {
        connection: ONE,
        tag: Tag::read(tag),
    };
    assert_eq!(it.handle(event), []);
}

fn ready(it: &mut Machine, status: Status) -> Vec<Action<&'static str, i64>> {
    it.handle(Event::Ready {
        connection: ONE,
        status,
        goes_on: false,
    })
}

fn verdicts(it: &mut Machine, verdicts: &[Verdict]) -> Vec<Action<&'static str, i64>> {
    it.handle(Event::Verdicts {
        connection: ONE,
        verdicts: verdicts.to_vec(),
    })
}

#[test]
fn tags_are_known_or_unsure() {
    for (tag, expected) in [
        ("SELECT 3", Tag::Plain),
        ("INSERT 0 1", Tag::Plain),
        ("COPY 7", Tag::Plain),
        ("DECLARE CURSOR", Tag::Plain),
        ("PREPARE", Tag::Plain),
        ("SAVEPOINT", Tag::Savepoint),
        ("RELEASE", Tag::Savepoint),
        ("COMMIT", Tag::Commit),
        ("COMMIT PREPARED", Tag::Other),
        ("PREPARE TRANSACTION", Tag::Other),
        ("ROLLBACK", Tag::Other),
        ("CALL", Tag::Other),
        ("DO", Tag::Other),
        ("CREATE TABLE", Tag::Other),
        ("", Tag::Other),
    ] {
        assert_eq!(Tag::read(tag), expected, "{}", tag);
    }
}

#[test]
fn a_lone_update_is_told_folded_and_delivered() {
    let mut it = serving();
    hold(&mut it, true, 7);
    let told = [Action::Tell(ONE, Told::Commit), Action::Fold(vec!["a"])];
    assert_eq!(ready(&mut it, Status::Idle), told);
    assert!(!it.is_quiet());
    let delivered = [Action::Deliver(ONE)];
    assert_eq!(it.handle(Event::Folded { keys: vec!["a"] }), delivered);
    assert!(it.is_quiet());
}

#[test]
fn a_client_waits_no_longer_than_it_wants_for_a_locked_row() {
    let mut it = serving();
    hold(&mut it, true, 7);
    ready(&mut it, Status::Idle);
    assert_eq!(
        it.handle(Event::Folded { keys: vec![] }),
        [],
        "the row is locked"
    );
    assert_eq!(
        it.handle(Event::WaitOver { connection: ONE }),
        [Action::Deliver(ONE)]
    );
    assert_eq!(it.handle(Event::WaitOver { connection: ONE }), []);
    let tried = [Action::Fold(vec!["a"]), look(&[], &[])];
    assert_eq!(it.handle(Event::Tick), tried);
    assert_eq!(it.handle(Event::Folded { keys: vec!["a"] }), []);
    assert!(it.is_quiet());
}

#[test]
fn a_commit_with_anything_beside_it_is_asked() {
    for beside in ["ROLLBACK", "COMMIT", "CALL", "DO"] {
        let mut it = serving();
        hold(&mut it, false, 7);
        completed(&mut it, beside);
        completed(&mut it, "COMMIT");
        let asked = [Action::Ask(ONE, vec![Id(7)])];
        assert_eq!(ready(&mut it, Status::Idle), asked, "{}", beside);
        let told = [Action::Tell(ONE, Told::Rollback), Action::Deliver(ONE)];
        assert_eq!(verdicts(&mut it, &[Verdict::Aborted]), told);
        assert!(it.is_quiet());
    }
    // An error behind the COMMIT of a block that goes on.
    let mut it = serving();
    hold(&mut it, false, 7);
    completed(&mut it, "COMMIT");
    it.handle(Event::Failed { connection: ONE });
    assert_eq!(
        ready(&mut it, Status::Failed)[0],
        Action::Ask(ONE, vec![Id(7)])
    );
    assert_eq!(
        verdicts(&mut it, &[Verdict::Committed])[0],
        Action::Tell(ONE, Told::Commit)
    );
}

#[test]
fn rollback_to_leaves_a_prefix() {
    let mut it = serving();
    hold(&mut it, false, 7);
    hold(&mut it, false, 7);
    completed(&mut it, "SAVEPOINT");
    hold(&mut it, false, 8);
    completed(&mut it, "ROLLBACK");
    // What is dead is free for others at once. The next grant waits for the outcome.
    let asked = [Action::Ask(ONE, vec![Id(7), Id(8)]), Action::Deliver(ONE)];
    assert_eq!(ready(&mut it, Status::InBlock), asked);
    assert_eq!(reserve(&mut it, "a", false), []);
    let back = [
        Action::Tell(ONE, Told::BackTo(Mark(2))),
        Action::Tell(ONE, Told::Mark(Mark(2))),
        Action::Grant(ONE, "a", 1),
    ];
    assert_eq!(
        verdicts(&mut it, &[Verdict::InProgress, Verdict::Aborted]),
        back
    );
}

#[test]
fn what_survives_and_is_no_prefix_is_an_alarm() {
    let mut it = serving();
    hold(&mut it, false, 7);
    completed(&mut it, "SAVEPOINT");
    hold(&mut it, false, 8);
    completed(&mut it, "ROLLBACK");
    assert_eq!(
        ready(&mut it, Status::Idle),
        [Action::Ask(ONE, vec![Id(7), Id(8)])]
    );
    let alarm = [Action::Alarm(Alarm::NoPrefix, None)];
    assert_eq!(
        verdicts(&mut it, &[Verdict::Aborted, Verdict::Committed]),
        alarm
    );
    assert_eq!(it.ownership(), Ownership::Stopped);
    it.handle(Event::KeeperLost);
    assert_eq!(
        it.ownership(),
        Ownership::Stopped,
        "until an operator starts it again"
    );
}

/// The outcomes of one question are found out one after another, and the COMMIT may come between two of them.
#[test]
fn torn_outcomes_are_asked_again() {
    let mut it = serving();
    hold(&mut it, false, 7);
    completed(&mut it, "SAVEPOINT");
    hold(&mut it, false, 8);
    completed(&mut it, "ROLLBACK");
    let both = [Action::Ask(ONE, vec![Id(7), Id(8)]), Action::Deliver(ONE)];
    assert_eq!(ready(&mut it, Status::InBlock), both);
    let torn = [Verdict::InProgress, Verdict::Committed];
    assert_eq!(verdicts(&mut it, &torn), [Action::Ask(ONE, vec![Id(7)])]);
    let told = [Action::Tell(ONE, Told::Commit), Action::Fold(vec!["a"])];
    assert_eq!(verdicts(&mut it, &[Verdict::Committed]), told);
    // What is decided is judged.
    let mut it = serving();
    hold(&mut it, false, 7);
    completed(&mut it, "SAVEPOINT");
    hold(&mut it, false, 8);
    completed(&mut it, "ROLLBACK");
    ready(&mut it, Status::InBlock);
    let torn = [Verdict::Aborted, Verdict::InProgress];
    assert_eq!(verdicts(&mut it, &torn), [Action::Ask(ONE, vec![Id(8)])]);
    assert_eq!(it.handle(Event::Lost { connection: ONE }), []);
    let again = [Verdict::InProgress];
    assert_eq!(verdicts(&mut it, &again), [Action::Ask(ONE, vec![Id(8)])]);
    let alarm = [Action::Alarm(Alarm::NoPrefix, None)];
    assert_eq!(verdicts(&mut it, &[Verdict::Committed]), alarm);
}

/// Its wait is over before the keeper answers. The COMMIT of a later block says nothing of what was rolled back.
#[test]
fn goes_on_before_its_outcome_is_known() {
    let mut it = serving();
    hold(&mut it, false, 7);
    completed(&mut it, "ROLLBACK");
    assert_eq!(
        ready(&mut it, Status::Idle),
        [Action::Ask(ONE, vec![Id(7)])]
    );
    let over = Event::WaitOver { connection: ONE };
    assert_eq!(it.handle(over), [Action::Deliver(ONE)]);
    completed(&mut it, "BEGIN");
    assert_eq!(ready(&mut it, Status::InBlock), [Action::Deliver(ONE)]);
    completed(&mut it, "COMMIT");
    assert!(!ready(&mut it, Status::Idle).contains(&Action::Tell(ONE, Told::Commit)));
    assert_eq!(reserve(&mut it, "a", false), []);
    let told = verdicts(&mut it, &[Verdict::Aborted]);
    assert_eq!(told[0], Action::Tell(ONE, Told::Rollback));
    assert_eq!(told.last(), Some(&Action::Grant(ONE, "a", 1)));
}

/// The fold of what it has waited for long enough holds none of its later statements up.
#[test]
fn a_wait_for_an_outcome_that_is_over_is_over_for_its_fold() {
    let mut it = serving();
    hold(&mut it, false, 7);
    completed(&mut it, "DO");
    completed(&mut it, "COMMIT");
    let asked = [Action::Ask(ONE, vec![Id(7)])];
    assert_eq!(ready(&mut it, Status::Idle), asked);
    let over = Event::WaitOver { connection: ONE };
    assert_eq!(it.handle(over), [Action::Deliver(ONE)]);
    let told = [Action::Tell(ONE, Told::Commit), Action::Fold(vec!["a"])];
    assert_eq!(verdicts(&mut it, &[Verdict::Committed]), told);
    assert_eq!(ready(&mut it, Status::Idle), [Action::Deliver(ONE)]);
    assert_eq!(it.handle(Event::Folded { keys: vec!["a"] }), []);
    // It waits for its next transaction.
    hold(&mut it, true, 8);
    assert_eq!(ready(&mut it, Status::Idle), told);
    let folded = Event::Folded { keys: vec!["a"] };
    assert_eq!(it.handle(folded), [Action::Deliver(ONE)]);
}

#[test]
fn a_loss_amid_torn_outcomes_wants_nothing_more() {
    let mut it = serving();
    hold(&mut it, false, 7);
    completed(&mut it, "SAVEPOINT");
    hold(&mut it, false, 8);
    completed(&mut it, "ROLLBACK");
    let asked = [Action::Ask(ONE, vec![Id(7), Id(8)])];
    assert_eq!(ready(&mut it, Status::Idle), asked);
    it.handle(Event::WaitOver { connection: ONE });
    assert_eq!(reserve(&mut it, "b", false), []);
    let again = [Action::Ask(ONE, vec![Id(7)])];
    let torn = [Verdict::InProgress, Verdict::Committed];
    assert_eq!(verdicts(&mut it, &torn), again);
    assert_eq!(it.handle(Event::Lost { connection: ONE }), []);
    assert!(it.forget_table('b'));
}

#[test]
fn an_error_frees_at_once_what_it_has_ended() {
    let mut it = serving();
    hold(&mut it, false, 7);
    it.handle(Event::Failed { connection: ONE });
    let asked = [Action::Ask(ONE, vec![Id(7)]), Action::Deliver(ONE)];
    assert_eq!(ready(&mut it, Status::Failed), asked);
    assert_eq!(
        verdicts(&mut it, &[Verdict::Aborted]),
        [Action::Tell(ONE, Told::Rollback)]
    );
    completed(&mut it, "ROLLBACK");
    assert_eq!(ready(&mut it, Status::Idle), [Action::Deliver(ONE)]);
    assert!(it.is_quiet());
}

#[test]
fn an_answer_to_an_old_question_is_not_taken_for_a_new_one() {
    let mut it = serving();
    hold(&mut it, false, 7);
    completed(&mut it, "SAVEPOINT");
    hold(&mut it, false, 8);
    it.handle(Event::Failed { connection: ONE });
    assert_eq!(
        ready(&mut it, Status::Failed)[0],
        Action::Ask(ONE, vec![Id(7), Id(8)])
    );
    completed(&mut it, "ROLLBACK");
    ready(&mut it, Status::InBlock);
    assert_eq!(reserve(&mut it, "a", false), []);
    // Both were alive when it was asked, and one of them may be dead since.
    let both = [Verdict::InProgress, Verdict::InProgress];
    assert_eq!(
        verdicts(&mut it, &both),
        [Action::Ask(ONE, vec![Id(7), Id(8)])]
    );
}

#[test]
fn a_loss_is_asked_until_it_is_known() {
    let mut it = serving();
    hold(&mut it, false, 7);
    assert_eq!(
        it.handle(Event::Lost { connection: ONE }),
        [Action::Ask(ONE, vec![Id(7)])]
    );
    assert_eq!(
        verdicts(&mut it, &[Verdict::InProgress]),
        [],
        "it is prepared"
    );
    let asked = [look(&[], &[]), Action::Ask(ONE, vec![Id(7)])];
    assert_eq!(it.handle(Event::Tick), asked);
    let told = [Action::Tell(ONE, Told::Commit), Action::Fold(vec!["a"])];
    assert_eq!(verdicts(&mut it, &[Verdict::Committed]), told);
    it.handle(Event::Folded { keys: vec!["a"] });
    assert!(it.is_quiet());
}

#[test]
fn a_note_without_an_answer_is_dropped_with_its_connection() {
    let mut it = serving();
    reserve(&mut it, "a", true);
    it.handle(Event::Granted { connection: ONE });
    let told = [Action::Tell(ONE, Told::Rollback)];
    assert_eq!(it.handle(Event::Lost { connection: ONE }), told);
    assert!(it.is_quiet());
    // The server's reply may be still to come.
    let mut it = serving();
    reserve(&mut it, "a", true);
    assert_eq!(it.handle(Event::Lost { connection: ONE }), []);
    assert_eq!(it.handle(Event::Granted { connection: ONE }), told);
    assert!(it.is_quiet());
}

/// Rule 6: PostgreSQL rolls the subtransaction back, and keeps what is in front of it.
#[test]
fn a_note_that_failed_is_dead_with_its_subtransaction() {
    let mut it = serving();
    hold(&mut it, false, 7);
    completed(&mut it, "SAVEPOINT");
    hold(&mut it, false, 8);
    reserve(&mut it, "a", false);
    it.handle(Event::Granted { connection: ONE });
    let failed = [
        Action::Tell(ONE, Told::BackTo(Mark(2))),
        Action::Answer(ONE, Answer::Failed),
    ];
    assert_eq!(it.handle(Event::NoteFailed { connection: ONE }), failed);
    assert_eq!(it.counts().reservations, 1);
    let asked = [Action::Ask(ONE, vec![Id(7)]), Action::Deliver(ONE)];
    assert_eq!(ready(&mut it, Status::Failed), asked);
}

/// Otherwise a part of it is found dead first, and the server goes back to a mark in front of the one that the grant has.
#[test]
fn a_loss_while_the_server_is_asked_drops_all_of_the_transaction() {
    let mut it = serving();
    for id in [7, 8] {
        hold(&mut it, false, id);
        completed(&mut it, "SAVEPOINT");
    }
    let asked = reserve(&mut it, "a", false);
    assert_eq!(asked[0], Action::Tell(ONE, Told::Mark(Mark(3))));
    let told = [Action::Tell(ONE, Told::Rollback)];
    assert_eq!(it.handle(Event::Lost { connection: ONE }), told);
    assert_eq!(it.handle(Event::Granted { connection: ONE }), told);
    assert!(it.is_quiet());
}

#[test]
fn a_subtransaction_that_no_tag_has_told_of_ends_the_connection() {
    let mut it = serving();
    hold(&mut it, false, 7);
    reserve(&mut it, "a", false);
    it.handle(Event::Granted { connection: ONE });
    let closed = [Action::Close(ONE), Action::Ask(ONE, vec![Id(7), Id(8)])];
    assert_eq!(
        it.handle(Event::Noted {
            connection: ONE,
            id: Id(8),
            line: line(8),
        }),
        closed
    );
}

#[test]
fn a_transaction_has_64_marks() {
    let mut it = serving();
    for id in 0..64 {
        hold(&mut it, false, id);
        completed(&mut it, "SAVEPOINT");
    }
    assert_eq!(
        reserve(&mut it, "a", false),
        [Action::Answer(ONE, Answer::TooMany)]
    );
}

#[test]
fn requests_wait_for_a_takeover_unless_another_owns() {
    let mut it = Machine::new();
    assert_eq!(reserve(&mut it, "a", true), []);
    let answered = [Action::Answer(ONE, Answer::NotOwner)];
    assert_eq!(it.handle(Event::OwnerElsewhere), answered);
    assert_eq!(reserve(&mut it, "a", true), answered);
    it.handle(Event::OwnerTaken);
    it.handle(Event::EpochSet);
    assert_eq!(reserve(&mut it, "a", true), []);
    assert_eq!(
        it.handle(Event::Holders { any: false }),
        [Action::Load("a")]
    );
}

#[test]
fn a_lost_keeper_ends_what_was_reserved() {
    let mut it = serving();
    hold(&mut it, false, 7);
    let begun = [Action::Close(ONE), Action::RestartServer, Action::TakeOwner];
    assert_eq!(it.handle(Event::KeeperLost), begun);
    assert!(it.is_quiet());
    assert_eq!(verdicts(&mut it, &[Verdict::Committed]), []);
}

#[test]
fn a_row_that_nobody_wants_is_left_and_loaded_anew() {
    let mut it = serving();
    hold(&mut it, false, 7);
    let key = "a";
    let two = Connection(2);
    let leave = |connection| Event::Leave { connection, key };
    // Somebody has reserved it.
    let answer = [Action::Answer(two, Answer::Missing)];
    assert_eq!(it.handle(leave(Some(two))), answer);
    assert_eq!(it.handle(leave(None)), []);
    // Its outcome is not known.
    it.handle(Event::Lost { connection: ONE });
    assert_eq!(it.handle(leave(Some(two))), answer);
    verdicts(&mut it, &[Verdict::Aborted]);
    assert_eq!(it.handle(leave(Some(two))), [Action::Leave(key)]);
    // A request waits until it is left, and then loads it.
    let connection = Connection(3);
    let reserve = Event::Reserve {
        connection,
        key,
        change: 1,
        alone: false,
    };
    assert_eq!(it.handle(reserve), []);
    let left = [answer[0].clone(), Action::Load(key)];
    assert_eq!(it.handle(Event::Left { key }), left);
    assert_eq!(it.handle(leave(Some(two))), answer, "it is wanted");
}

#[test]
fn a_row_whose_mark_may_have_stayed_is_left_again() {
    let mut it = serving();
    let key = "a";
    let leave = |connection| Event::Leave { connection, key };
    let answer = |connection| Action::Answer(connection, Answer::Missing);
    let (two, three) = (Connection(2), Connection(3));
    assert_eq!(it.handle(leave(Some(two))), [Action::Leave(key)]);
    assert_eq!(it.handle(leave(Some(three))), [], "it waits for the same");
    let left = [answer(two), answer(three)];
    assert_eq!(it.handle(Event::Left { key }), left);
    // PostgreSQL may not have got the lock.
    assert_eq!(it.handle(leave(Some(two))), [Action::Leave(key)]);
    it.handle(Event::Left { key });
    assert_eq!(it.handle(leave(None)), [], "nobody waits for it");
    // While it is loaded its mark is made, whoever asked for it is there or not.
    assert_eq!(reserve(&mut it, key, false), [Action::Load(key)]);
    it.handle(Event::Lost { connection: ONE });
    assert_eq!(it.handle(leave(Some(two))), [answer(two)]);
}

#[test]
fn a_fold_that_is_refused_stops_its_table_alone() {
    let mut it = serving();
    reserve(&mut it, "a1", false);
    let (key, lines) = ("a1", Vec::new());
    it.handle(Event::Loaded { key, lines });
    it.handle(Event::Refused { connection: ONE });
    hold_by(&mut it, TWO, "a1", 5);
    assert_eq!(it.own_folds(TWO), BTreeSet::from(["a1"]));
    hold(&mut it, true, 7);
    let told = [Action::Tell(ONE, Told::Commit), Action::Fold(vec!["a"])];
    assert_eq!(ready(&mut it, Status::Idle), told);
    let stopped = [
        Action::Alarm(Alarm::FoldRefused, Some('a')),
        Action::Deliver(ONE),
    ];
    assert_eq!(it.handle(Event::FoldRefused { table: 'a' }), stopped);
    assert_eq!(it.handle(Event::Folded { keys: vec![] }), []);
    let ticked = it.handle(Event::Tick);
    assert_eq!(ticked, [look(&[], &[])], "its folds stand still");
    assert_eq!((it.counts().stopped, it.counts().pending), (1, 1));
    assert_eq!(it.own_folds(TWO), BTreeSet::new());
    let refused = [Action::Answer(ONE, Answer::TableStopped)];
    assert_eq!(reserve(&mut it, "a", false), refused);
    assert_eq!(reserve(&mut it, "b", false), [Action::Load("b")]);
    let (key, lines) = ("b", Vec::new());
    it.handle(Event::Loaded { key, lines });
    it.handle(Event::Refused { connection: ONE });
    // It is tried again, and granted, once an operator lets it go on.
    let resumed = it.handle(Event::Resumed { table: 'a' });
    assert_eq!(resumed, [Action::Fold(vec!["a"])]);
    it.handle(Event::Folded { keys: vec!["a"] });
    assert_eq!(it.counts().pending, 0);
    assert_eq!(it.own_folds(TWO), BTreeSet::from(["a1"]));
    hold(&mut it, false, 8);
}

#[test]
fn a_row_that_the_server_lacks_stops_its_table_alone() {
    let mut it = serving();
    reserve(&mut it, "a", false);
    let event = Event::RowLacks {
        connection: ONE,
        key: "a",
    };
    let stopped = [
        Action::Alarm(Alarm::ServerBroke, Some('a')),
        Action::Tell(ONE, Told::Rollback),
        Action::Answer(ONE, Answer::TableStopped),
    ];
    assert_eq!(it.handle(event), stopped);
    assert_eq!(it.ownership(), Ownership::Serving);
    let other = Event::Reserve {
        connection: TWO,
        key: "b",
        change: 1,
        alone: false,
    };
    assert_eq!(it.handle(other), [Action::Load("b")]);
}

fn names(it: &mut Machine) {
    let event = Event::Names {
        connection: ONE,
        runs: true,
    };
    assert_eq!(it.handle(event), []);
}

fn news(id: u64, fate: Fate<i64>, is_ours: bool) -> News<&'static str, i64> {
    News {
        line: line(id),
        key: "a",
        fate,
        is_ours,
    }
}

fn looked(it: &mut Machine, news: Vec<News<&'static str, i64>>) -> Vec<Action<&'static str, i64>> {
    it.handle(Event::Looked { news })
}

fn look(done: &[u64], asked: &[u64]) -> Action<&'static str, i64> {
    let lines = |ids: &[u64]| ids.iter().map(|&id| line(id)).collect();
    Action::Look {
        done: lines(done),
        asked: lines(asked),
    }
}

#[test]
fn a_hold_is_kept_and_the_rest_is_committed() {
    let mut it = serving();
    names(&mut it);
    hold(&mut it, false, 7);
    completed(&mut it, "SAVEPOINT");
    let asked = reserve(&mut it, "a", false);
    assert_eq!(asked.last(), Some(&Action::Grant(ONE, "a", 1)));
    it.handle(Event::Granted { connection: ONE });
    it.handle(Event::Noted {
        connection: ONE,
        id: Id(8),
        line: line(8),
    });
    completed(&mut it, "COMMIT");
    assert_eq!(ready(&mut it, Status::Idle), [look(&[], &[7, 8])]);
    // Another look does not begin, and nothing is granted to the connection before.
    assert_eq!(it.handle(Event::Tick), []);
    assert_eq!(reserve(&mut it, "a", true), []);
    let found = looked(&mut it, vec![news(7, Fate::Stands, true)]);
    let kept = Action::Keep {
        connection: ONE,
        committed: vec![("a", 1)],
        kept: vec![(line(7), "a", 1)],
    };
    assert_eq!(found[0], kept);
    assert!(
        found.contains(&Action::Fold(vec!["a"])) && found.contains(&Action::Grant(ONE, "a", 1))
    );
    // Nobody leaves the row. The hold ends by a look, which the next one lets PostgreSQL forget.
    let (connection, key) = (None, "a");
    assert_eq!(it.handle(Event::Leave { connection, key }), []);
    assert_eq!(it.handle(Event::Tick), [look(&[], &[])]);
    let ended = [Action::End(vec![(line(7), Some(1))])];
    assert_eq!(looked(&mut it, vec![news(7, Fate::Taken(1), true)]), ended);
    assert_eq!(it.handle(Event::Tick), [look(&[7], &[])]);
    assert_eq!(it.counts().holds, 0);
}

#[test]
fn a_hold_that_has_ended_before_it_is_known_is_no_hold() {
    for (fate, committed) in [
        (Fate::Taken(1), vec![("a", 1)]),
        (Fate::Taken(0), vec![("a", 0)]),
        (Fate::Free, vec![]),
    ] {
        let mut it = serving();
        names(&mut it);
        hold(&mut it, false, 7);
        completed(&mut it, "COMMIT");
        // An earlier look has shown its end, which is of no matter before the transaction is decided.
        assert_eq!(ready(&mut it, Status::Idle), [look(&[], &[7])]);
        let kept = Action::Keep {
            connection: ONE,
            committed,
            kept: vec![],
        };
        assert_eq!(looked(&mut it, vec![news(7, fate, true)])[0], kept);
        assert_eq!(it.handle(Event::Tick).last(), Some(&look(&[7], &[])));
    }
}

#[test]
fn what_a_row_holds_is_reserved_before_anything_else() {
    let mut it = serving();
    it.handle(Event::Leave {
        connection: None,
        key: "a",
    });
    it.handle(Event::Left { key: "a" });
    assert_eq!(reserve(&mut it, "a", true), [Action::Load("a")]);
    // What ends while the row is loaded may be a line that the load shows.
    assert_eq!(it.handle(Event::Tick), [look(&[], &[])]);
    assert_eq!(looked(&mut it, vec![news(3, Fate::Free, false)]), []);
    let lines = vec![(line(3), -2), (line(4), -1)];
    let found = it.handle(Event::Loaded { key: "a", lines });
    let reserved = Action::Reserve(vec![(line(3), "a", -2), (line(4), "a", -1)]);
    assert_eq!(
        (&found[0], found.last()),
        (&reserved, Some(&Action::Grant(ONE, "a", 1)))
    );
    assert_eq!(it.handle(Event::Tick), [look(&[], &[])]);
    let ended = [Action::End(vec![(line(3), None)])];
    assert_eq!(looked(&mut it, vec![news(3, Fate::Free, false)]), ended);
    // What was taken before the load showed the row's lines may be in its journal.
    assert_eq!(it.handle(Event::Tick), [look(&[3], &[])]);
    let folded = [Action::Fold(vec!["a"])];
    assert_eq!(
        looked(&mut it, vec![news(5, Fate::Taken(1), false)]),
        folded
    );
}

#[test]
fn what_ended_before_this_owner_is_forgotten_and_its_mark_goes() {
    let mut it = serving();
    assert_eq!(it.handle(Event::Tick), [look(&[], &[])]);
    let mut other = news(3, Fate::Taken(1), false);
    other.key = "b";
    let left = [Action::Leave("b"), Action::Fold(vec!["b"])];
    assert_eq!(looked(&mut it, vec![other]), left);
    it.handle(Event::Folded { keys: vec!["b"] });
    assert_eq!(it.handle(Event::Tick), [look(&[3], &[])]);
}

#[test]
fn a_hold_that_was_taken_for_committed_is_an_alarm() {
    let mut it = serving();
    hold(&mut it, true, 7);
    ready(&mut it, Status::Idle);
    it.handle(Event::Tick);
    let alarm = [Action::Alarm(Alarm::HoldUnseen, None)];
    assert_eq!(looked(&mut it, vec![news(7, Fate::Free, true)]), alarm);
    assert_eq!(it.ownership(), Ownership::Stopped);
}

#[test]
fn a_take_is_answered_once_the_server_knows_it() {
    let mut it = serving();
    names(&mut it);
    completed(&mut it, "SELECT 1");
    assert_eq!(ready(&mut it, Status::Idle), [look(&[], &[])]);
    assert_eq!(looked(&mut it, vec![]), [Action::Deliver(ONE)]);
    // A connection that has named holds is asked after a restart of PostgreSQL too.
    it.handle(Event::KeeperLost);
    for event in [
        Event::OwnerTaken,
        Event::EpochSet,
        Event::Holders { any: false },
    ] {
        it.handle(event);
    }
    assert_eq!(reserve(&mut it, "a", false), [Action::Load("a")]);
    it.handle(Event::Loaded {
        key: "a",
        lines: Vec::new(),
    });
    it.handle(Event::Granted { connection: ONE });
    it.handle(Event::Noted {
        connection: ONE,
        id: Id(9),
        line: line(9),
    });
    completed(&mut it, "COMMIT");
    assert_eq!(ready(&mut it, Status::Idle), [look(&[], &[9])]);
}

#[test]
fn a_look_that_fails_is_done_again() {
    let mut it = serving();
    names(&mut it);
    hold(&mut it, false, 7);
    completed(&mut it, "COMMIT");
    assert_eq!(ready(&mut it, Status::Idle), [look(&[], &[7])]);
    looked(&mut it, vec![news(7, Fate::Free, true)]);
    assert_eq!(it.handle(Event::Tick).last(), Some(&look(&[7], &[])));
    // What was to be forgotten may be shown again, and somebody else waits for the next look.
    assert_eq!(it.handle(Event::LookFailed), []);
    hold(&mut it, false, 8);
    completed(&mut it, "COMMIT");
    assert_eq!(ready(&mut it, Status::Idle), [look(&[7], &[8])]);
    assert_eq!(it.handle(Event::LookFailed), []);
    assert_eq!(it.handle(Event::Tick), [look(&[7], &[8])]);
    let found = looked(&mut it, vec![news(8, Fate::Stands, true)]);
    let kept = Action::Keep {
        connection: ONE,
        committed: vec![],
        kept: vec![(line(8), "a", 1)],
    };
    assert_eq!(found[0], kept);
}

/// No look comes any more that it could wait for.
#[test]
fn an_alarm_answers_whoever_waits() {
    let mut it = serving();
    names(&mut it);
    hold(&mut it, false, 7);
    completed(&mut it, "COMMIT");
    assert_eq!(ready(&mut it, Status::Idle), [look(&[], &[7])]);
    it.handle(Event::WaitOver { connection: ONE });
    assert_eq!(reserve(&mut it, "a", false), []);
    let stopped = [
        Action::Alarm(Alarm::ServerBroke, None),
        Action::Answer(ONE, Answer::Stopped),
    ];
    assert_eq!(it.handle(Event::ServerBroke), stopped);
}

/// Two connections wait for a look: one for what it has taken, which has committed more meanwhile, and the other for its notes.
#[test]
fn a_look_begins_when_all_of_the_one_before_is_done() {
    const TWO: Connection = Connection(2);
    let mut it = serving();
    assert_eq!(it.handle(Event::Tick), [look(&[], &[])]);
    names(&mut it);
    completed(&mut it, "SELECT 1");
    assert_eq!(ready(&mut it, Status::Idle), []);
    it.handle(Event::WaitOver { connection: ONE });
    it.handle(Event::Names {
        connection: TWO,
        runs: true,
    });
    for (connection, id) in [(ONE, 7), (TWO, 8)] {
        it.handle(Event::Reserve {
            connection,
            key: "a",
            change: 1,
            alone: false,
        });
        it.handle(Event::Granted { connection });
        it.handle(Event::Noted {
            connection,
            id: Id(id),
            line: line(id),
        });
        let tag = Tag::Commit;
        it.handle(Event::Completed { connection, tag });
        let ready = Event::Ready {
            connection,
            status: Status::Idle,
            goes_on: false,
        };
        assert_eq!(it.handle(ready), []);
    }
    assert_eq!(looked(&mut it, vec![]), [look(&[], &[7, 8])]);
    let both = vec![news(7, Fate::Stands, true), news(8, Fate::Free, true)];
    let found = looked(&mut it, both);
    let kept = Action::Keep {
        connection: ONE,
        committed: vec![],
        kept: vec![(line(7), "a", 1)],
    };
    assert_eq!(found[0], kept);
    // The line of the second one is forgotten by the next look.
    assert_eq!(it.handle(Event::Tick), [look(&[8], &[])]);
}

fn folded(it: &mut Machine, keys: &[&'static str]) -> Vec<Action<&'static str, i64>> {
    let keys = keys.to_vec();
    it.handle(Event::Folded { keys })
}

/// A statement that has taken something sees it next, whosever look has shown it first.
#[test]
fn a_take_that_another_look_has_shown_is_waited_for() {
    let mut it = serving();
    names(&mut it);
    it.handle(Event::Tick);
    let taken = vec![news(5, Fate::Taken(1), false)];
    assert_eq!(looked(&mut it, taken), [Action::Fold(vec!["a"])]);
    completed(&mut it, "SELECT 1");
    assert_eq!(ready(&mut it, Status::Idle), [look(&[5], &[])]);
    assert_eq!(looked(&mut it, vec![]), []);
    assert_eq!(folded(&mut it, &[]), [], "the row is locked");
    assert_eq!(it.handle(Event::FoldAgain), [Action::Fold(vec!["a"])]);
    assert_eq!(folded(&mut it, &["a"]), [Action::Deliver(ONE)]);
    assert!(it.is_quiet());
}

#[test]
fn a_former_take_of_a_locked_row_holds_nobody_up() {
    let mut it = serving();
    it.handle(Event::Tick);
    let taken = vec![news(5, Fate::Taken(1), false)];
    assert_eq!(looked(&mut it, taken), [Action::Fold(vec!["a"])]);
    assert_eq!(folded(&mut it, &[]), []);
    names(&mut it);
    completed(&mut it, "SELECT 1");
    assert_eq!(ready(&mut it, Status::Idle), [look(&[5], &[])]);
    assert_eq!(looked(&mut it, vec![]), [Action::Deliver(ONE)]);
}

/// What the client no longer waits for holds none of its later statements up, and a look that has begun before shows nothing of
/// what comes later.
#[test]
fn a_wait_that_is_over_is_over_for_all() {
    let mut it = serving();
    names(&mut it);
    hold(&mut it, false, 7);
    completed(&mut it, "COMMIT");
    assert_eq!(ready(&mut it, Status::Idle), [look(&[], &[7])]);
    let over = Event::WaitOver { connection: ONE };
    assert_eq!(it.handle(over), [Action::Deliver(ONE)]);
    assert_eq!(ready(&mut it, Status::Idle), [Action::Deliver(ONE)]);
    names(&mut it);
    assert_eq!(ready(&mut it, Status::Idle), []);
    let found = looked(&mut it, vec![news(5, Fate::Taken(1), false)]);
    let told = [
        Action::Tell(ONE, Told::Commit),
        Action::Fold(vec!["a"]),
        look(&[5], &[]),
    ];
    assert_eq!(found, told);
    assert_eq!(folded(&mut it, &[]), []);
    // The take was shown since it named its own.
    assert_eq!(looked(&mut it, vec![]), []);
    it.handle(Event::FoldAgain);
    assert_eq!(folded(&mut it, &["a"]), [Action::Deliver(ONE)]);
}

/// The line is one of a transaction whose COMMIT the proxy has not read yet.
#[test]
fn a_take_of_what_is_not_decided_is_waited_for() {
    let mut it = serving();
    let reserve = Event::Reserve {
        connection: TWO,
        key: "a",
        change: 1,
        alone: false,
    };
    let (connection, runs) = (TWO, true);
    it.handle(Event::Names { connection, runs });
    it.handle(reserve);
    it.handle(Event::Granted { connection });
    it.handle(Event::Noted {
        connection,
        id: Id(8),
        line: line(8),
    });
    names(&mut it);
    assert_eq!(ready(&mut it, Status::Idle), [look(&[], &[])]);
    let shown = vec![news(8, Fate::Taken(1), true)];
    assert_eq!(looked(&mut it, shown.clone()), []);
    let tag = Tag::Commit;
    it.handle(Event::Completed { connection, tag });
    let (status, goes_on) = (Status::Idle, false);
    let asked = it.handle(Event::Ready {
        connection,
        status,
        goes_on,
    });
    assert_eq!(asked, [look(&[], &[8])]);
    let found = looked(&mut it, shown);
    assert!(matches!(found[0], Action::Keep { .. }));
    let more = [Action::Fold(vec!["a"]), look(&[8], &[])];
    assert_eq!(found[1..], more);
    assert_eq!(looked(&mut it, vec![]), []);
    let delivered = [Action::Deliver(ONE), Action::Deliver(TWO)];
    assert_eq!(folded(&mut it, &["a"]), delivered);
}

/// The row is being loaded when the look shows it, and what the load shows is not known yet.
#[test]
fn a_take_of_a_row_that_is_loaded_is_waited_for() {
    let mut it = serving();
    names(&mut it);
    let reserve = Event::Reserve {
        connection: TWO,
        key: "b",
        change: 1,
        alone: false,
    };
    assert_eq!(it.handle(reserve), [Action::Load("b")]);
    assert_eq!(ready(&mut it, Status::Idle), [look(&[], &[])]);
    let mut shown = news(5, Fate::Taken(1), false);
    shown.key = "b";
    assert_eq!(looked(&mut it, vec![shown.clone()]), []);
    let (key, lines) = ("b", vec![(line(5), 1)]);
    let loaded = it.handle(Event::Loaded { key, lines });
    assert_eq!(loaded.last(), Some(&look(&[], &[])));
    let ended = [
        Action::End(vec![(line(5), Some(1))]),
        Action::Fold(vec!["b"]),
    ];
    assert_eq!(looked(&mut it, vec![shown]), ended);
    assert_eq!(folded(&mut it, &["b"]), [Action::Deliver(ONE)]);
}

/// Another owner's folds count anew, and whatever it shows was taken since.
#[test]
fn a_take_over_a_takeover_is_waited_for() {
    let mut it = serving();
    for id in 7..10 {
        hold(&mut it, true, id);
        ready(&mut it, Status::Idle);
        folded(&mut it, &["a"]);
    }
    names(&mut it);
    it.handle(Event::KeeperLost);
    it.handle(Event::OwnerTaken);
    it.handle(Event::EpochSet);
    it.handle(Event::Holders { any: false });
    it.handle(Event::Tick);
    let shown = vec![news(5, Fate::Taken(1), false)];
    assert!(looked(&mut it, shown).contains(&Action::Fold(vec!["a"])));
    assert_eq!(ready(&mut it, Status::Idle), [look(&[5], &[])]);
    assert_eq!(looked(&mut it, vec![]), []);
    assert_eq!(folded(&mut it, &["a"]), [Action::Deliver(ONE)]);
}

#[test]
fn a_take_behind_another_that_was_sent_at_once_is_waited_for() {
    let mut it = serving();
    names(&mut it);
    let (connection, status, goes_on) = (ONE, Status::Idle, true);
    let first = Event::Ready {
        connection,
        status,
        goes_on,
    };
    assert_eq!(it.handle(first), [look(&[], &[])]);
    assert_eq!(looked(&mut it, vec![]), [Action::Deliver(ONE)]);
    assert!(!it.is_idle(ONE), "the next end has to be told");
    assert_eq!(ready(&mut it, Status::Idle), [look(&[], &[])]);
    assert_eq!(looked(&mut it, vec![]), [Action::Deliver(ONE)]);
    assert!(it.is_idle(ONE));
}

/// More was sent behind the take, before its row could be folded.
#[test]
fn what_a_client_has_not_waited_for_holds_up_nothing_that_was_sent_at_once() {
    let mut it = serving();
    names(&mut it);
    let (connection, status, goes_on) = (ONE, Status::Idle, true);
    let first = Event::Ready {
        connection,
        status,
        goes_on,
    };
    assert_eq!(it.handle(first), [look(&[], &[])]);
    let taken = vec![news(5, Fate::Taken(1), false)];
    assert_eq!(looked(&mut it, taken), [Action::Fold(vec!["a"])]);
    assert_eq!(folded(&mut it, &[]), [], "the row is locked");
    let over = Event::WaitOver { connection };
    assert_eq!(it.handle(over), [Action::Deliver(ONE)]);
    assert_eq!(ready(&mut it, Status::Idle), [look(&[5], &[])]);
    assert_eq!(looked(&mut it, vec![]), [Action::Deliver(ONE)]);
}

/// It was sent while the client still waited for the fold of another transaction, and a look has shown it before that wait was over.
#[test]
fn a_take_that_was_sent_during_a_wait_is_waited_for_behind_it() {
    let mut it = serving();
    hold(&mut it, true, 7);
    ready(&mut it, Status::Idle);
    assert_eq!(folded(&mut it, &[]), [], "the row is locked");
    names(&mut it);
    let tried = [Action::Fold(vec!["a"]), look(&[], &[])];
    assert_eq!(it.handle(Event::Tick), tried);
    let taken = vec![news(5, Fate::Taken(1), false)];
    assert_eq!(looked(&mut it, taken), []);
    assert_eq!(folded(&mut it, &[]), [Action::Fold(vec!["a"])]);
    assert_eq!(folded(&mut it, &[]), []);
    let over = Event::WaitOver { connection: ONE };
    assert_eq!(it.handle(over), [Action::Deliver(ONE)]);
    assert_eq!(ready(&mut it, Status::Idle), [look(&[5], &[])]);
    assert_eq!(looked(&mut it, vec![]), []);
    assert_eq!(it.handle(Event::FoldAgain), [Action::Fold(vec!["a"])]);
    assert_eq!(folded(&mut it, &["a"]), [Action::Deliver(ONE)]);
}

#[test]
fn a_block_that_goes_on_behind_its_commit_sees_it() {
    let mut it = serving();
    hold(&mut it, false, 7);
    completed(&mut it, "COMMIT");
    let asked = [Action::Ask(ONE, vec![Id(7)])];
    assert_eq!(ready(&mut it, Status::InBlock), asked);
    let told = [Action::Tell(ONE, Told::Commit), Action::Fold(vec!["a"])];
    assert_eq!(verdicts(&mut it, &[Verdict::Committed]), told);
    assert_eq!(folded(&mut it, &["a"]), [Action::Deliver(ONE)]);
}

/// Something of the next transaction is reserved before the ReadyForQuery behind the COMMIT.
#[test]
fn a_block_that_goes_on_and_reserves_sees_what_it_has_taken() {
    let mut it = serving();
    names(&mut it);
    completed(&mut it, "SELECT 1");
    completed(&mut it, "COMMIT");
    hold(&mut it, false, 7);
    assert_eq!(ready(&mut it, Status::InBlock), [look(&[], &[])]);
    let taken = vec![news(5, Fate::Taken(1), false)];
    assert_eq!(looked(&mut it, taken), [Action::Fold(vec!["a"])]);
    assert_eq!(folded(&mut it, &["a"]), [Action::Deliver(ONE)]);
}

/// A part of it was rolled back, and the rest may have been left as a hold.
#[test]
fn a_block_that_goes_on_waits_for_the_look_at_what_survives() {
    let mut it = serving();
    names(&mut it);
    hold(&mut it, false, 7);
    completed(&mut it, "SAVEPOINT");
    hold(&mut it, false, 8);
    completed(&mut it, "ROLLBACK");
    completed(&mut it, "COMMIT");
    let asked = [Action::Ask(ONE, vec![Id(7), Id(8)]), look(&[], &[])];
    assert_eq!(ready(&mut it, Status::InBlock), asked);
    let back = [Action::Tell(ONE, Told::BackTo(Mark(2)))];
    let survives = [Verdict::Committed, Verdict::Aborted];
    assert_eq!(verdicts(&mut it, &survives), back);
    // The look that is under way shows what it has taken, and the next one what it has left.
    assert_eq!(looked(&mut it, vec![]), [look(&[], &[7])]);
    let committed = [Action::Tell(ONE, Told::Commit), Action::Fold(vec!["a"])];
    assert_eq!(looked(&mut it, vec![]), committed);
    assert_eq!(folded(&mut it, &["a"]), [Action::Deliver(ONE)]);
}

/// A pipeline of two UPDATEs: the second could lock its row, and the first could not.
#[test]
fn what_a_transaction_has_not_folded_itself_is_folded() {
    let mut it = serving();
    hold(&mut it, true, 7);
    assert_eq!(reserve(&mut it, "b", true), [Action::Load("b")]);
    let (key, lines) = ("b", vec![]);
    it.handle(Event::Loaded { key, lines });
    it.handle(Event::Granted { connection: ONE });
    it.handle(Event::Noted {
        connection: ONE,
        id: Id(7),
        line: line(9),
    });
    let (connection, key) = (ONE, Some("b"));
    it.handle(Event::OwnFolded { connection, key });
    let told = [Action::Tell(ONE, Told::Commit), Action::Fold(vec!["a"])];
    assert_eq!(ready(&mut it, Status::Idle), told);
    assert_eq!(folded(&mut it, &["a"]), [Action::Deliver(ONE)]);
}

/// Reserves of a row that is loaded, and notes it.
fn hold_by(it: &mut Machine, connection: Connection, key: &'static str, number: i64) {
    it.handle(Event::Reserve {
        connection,
        key,
        change: 1,
        alone: false,
    });
    it.handle(Event::Granted { connection });
    it.handle(Event::Noted {
        connection,
        id: Id(u64::from(connection.0)),
        line: Line { epoch: 1, number },
    });
}

#[test]
fn what_an_own_fold_has_locked_is_tried_once_it_has_ended() {
    let mut it = serving();
    hold(&mut it, false, 7);
    hold_by(&mut it, TWO, "a", 1);
    let (connection, tag) = (TWO, Tag::Commit);
    it.handle(Event::Completed { connection, tag });
    let (status, goes_on) = (Status::Idle, false);
    let told = it.handle(Event::Ready {
        connection,
        status,
        goes_on,
    });
    assert_eq!(told.last(), Some(&Action::Fold(vec!["a"])));
    let (connection, key) = (ONE, None);
    it.handle(Event::OwnFolded { connection, key });
    completed(&mut it, "COMMIT");
    assert_eq!(folded(&mut it, &[]), [], "its row is locked");
    let told = [
        Action::Tell(ONE, Told::Commit),
        Action::Fold(vec!["a"]),
        Action::Deliver(ONE),
    ];
    assert_eq!(ready(&mut it, Status::Idle), told);
    assert_eq!(folded(&mut it, &["a"]), [Action::Deliver(TWO)]);
}

/// Rule 13: its row would be locked over the client's flush.
#[test]
fn what_waits_for_a_fold_is_folded_by_none_of_its_own() {
    let mut it = serving();
    hold_by(&mut it, TWO, "a", 1);
    assert_eq!(it.own_folds(TWO), BTreeSet::from(["a"]));
    hold(&mut it, true, 7);
    assert_eq!(it.own_folds(TWO), BTreeSet::new(), "it is wanted");
    ready(&mut it, Status::Idle);
    assert_eq!(it.own_folds(TWO), BTreeSet::new());
    assert!(!it.may_fold(TWO, &"a"));
    folded(&mut it, &["a"]);
    assert_eq!(it.own_folds(TWO), BTreeSet::from(["a"]));
    assert!(it.may_fold(TWO, &"a"));
}

#[test]
fn nobody_looks_at_all_open_transactions() {
    const MANY_OPEN: u32 = 3_000;
    let begun = std::time::Instant::now();
    let mut it = serving();
    let keys: Vec<&'static str> = (0..MANY_OPEN)
        .map(|at| &*Box::leak(format!("a{at}").into_boxed_str()))
        .collect();
    let mut number = 0;
    for (connection, &key) in (10..).map(Connection).zip(&keys) {
        it.handle(Event::Reserve {
            connection,
            key,
            change: 1,
            alone: false,
        });
        let lines = Vec::new();
        it.handle(Event::Loaded { key, lines });
        it.handle(Event::Refused { connection });
        for _ in 0..10 {
            number += 1;
            hold_by(&mut it, connection, key, number);
            assert!(it.may_fold(connection, &key));
            assert!(!it.may_fold(ONE, &key));
        }
    }
    for (connection, &key) in (10..).map(Connection).zip(&keys) {
        assert_eq!(it.own_folds(connection), BTreeSet::from([key]));
        let another = Event::Leave {
            connection: None,
            key,
        };
        assert_eq!(it.handle(another), []);
    }
    hold_by(&mut it, ONE, keys[5], 0);
    assert_eq!(it.own_folds(Connection(15)), BTreeSet::new());
    assert!(!it.forget_table('a'));
    // Where each looks at all others, it takes minutes.
    assert!(begun.elapsed().as_secs() < 60, "{:?}", begun.elapsed());
}

#[test]
fn rows_of_a_table_that_is_ordinary_are_forgotten_once_nobody_has_reserved_one() {
    let mut it = serving();
    hold(&mut it, false, 7);
    assert!(!it.forget_table('a'));
    assert!(it.forget_table('b'));
    completed(&mut it, "ROLLBACK");
    ready(&mut it, Status::Idle);
    verdicts(&mut it, &[Verdict::Aborted]);
    assert!(it.forget_table('a'));
    assert_eq!(reserve(&mut it, "a", false), [Action::Load("a")]);
    // It is loaded, though nobody wants it any more; it has a hold; it is left.
    it.handle(Event::Lost { connection: ONE });
    assert!(!it.forget_table('a'));
    let (key, lines) = ("a", vec![(line(3), -2)]);
    it.handle(Event::Loaded { key, lines });
    assert!(!it.forget_table('a'));
    it.handle(Event::Tick);
    looked(&mut it, vec![news(3, Fate::Free, false)]);
    let connection = None;
    it.handle(Event::Leave { connection, key });
    assert!(!it.forget_table('a'));
    it.handle(Event::Left { key });
    assert!(it.forget_table('a'));
}

/// More has ended at one moment than a look forgets, so that the next one shows the rest again.
#[test]
fn what_is_still_to_be_forgotten_is_no_alarm() {
    let mut it = serving();
    let clients = || (10..27).map(Connection);
    for connection in clients() {
        let runs = true;
        it.handle(Event::Names { connection, runs });
    }
    let mut shown = Vec::new();
    for connection in clients() {
        for _ in 0..256 {
            let number = shown.len() as u64 + 1;
            hold_by(&mut it, connection, "a", number as i64);
            shown.push(news(number, Fate::Free, true));
        }
    }
    it.handle(Event::Tick);
    for connection in clients() {
        let (tag, status, goes_on) = (Tag::Commit, Status::Idle, false);
        it.handle(Event::Completed { connection, tag });
        it.handle(Event::Ready {
            connection,
            status,
            goes_on,
        });
    }
    looked(&mut it, vec![]);
    looked(&mut it, shown.clone());
    let rest = shown.split_off(FORGETS);
    let forgotten = shown.iter().map(|it| it.line).collect();
    let asked = Vec::new();
    let first = Action::Look {
        done: forgotten,
        asked,
    };
    assert_eq!(it.handle(Event::Tick), [first]);
    // Who has taken something waits until a look shows nothing else.
    names(&mut it);
    assert_eq!(ready(&mut it, Status::Idle), []);
    let done = rest.iter().map(|it| it.line).collect();
    let asked = Vec::new();
    assert_eq!(looked(&mut it, rest), [Action::Look { done, asked }]);
    assert_eq!(looked(&mut it, vec![]), [Action::Deliver(ONE)]);
}
