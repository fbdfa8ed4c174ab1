//! What a connection tells of itself, and what it asks about others.

use super::*;
use crate::activity::{Activity, Clock, State};
use crate::connection::work::{Completed, Subject, Target};
use crate::statement::parser::next_statement;
use std::time::SystemTime;

impl Client {
    /// Returns what the connection does, with 3 as the number of its session.
    fn activity(&self) -> Activity {
        let clock = Clock::new(
            self.now,
            SystemTime::UNIX_EPOCH + Duration::from_secs(1_000),
        );
        self.connection
            .activity(Some(3), &clock)
            .expect("it is served")
    }

    /// Returns its state and the number of its reservations.
    fn state(&self) -> (&'static str, u32) {
        let activity = self.activity();
        (activity.state.words(), activity.reservations)
    }
}

#[test]
fn a_connection_tells_who_it_is_and_since_when() {
    let mut client = Client::new();
    let clock = Clock::new(client.now, SystemTime::now());
    assert_eq!(client.connection.activity(Some(3), &clock), None);
    let names = [
        "user",
        "ada",
        "database",
        "shop",
        "application_name",
        "till",
    ];
    client.send(&startup_packet(196_608, &names));
    assert_eq!(client.connection.activity(Some(3), &clock), None);
    client.connection.next_request();
    client.connection.opened(Opened::Accepted, client.now);
    client.output();
    let begun = SystemTime::UNIX_EPOCH + Duration::from_secs(1_000);
    let idle = Activity {
        process_id: 7,
        database: "shop".to_owned(),
        user: "ada".to_owned(),
        application_name: "till".to_owned(),
        session: Some(3),
        since: begun,
        transaction_since: None,
        state_since: begun,
        state: State::Idle,
        reservations: 0,
    };
    assert_eq!(client.activity(), idle);
    client.now += Duration::from_secs(4);
    client.ask("BEGIN", &[]);
    client.now += Duration::from_secs(3);
    let in_block = Activity {
        since: begun - Duration::from_secs(7),
        transaction_since: Some(begun - Duration::from_secs(3)),
        state_since: begun - Duration::from_secs(3),
        state: State::IdleInTransaction,
        ..idle
    };
    assert_eq!(client.activity(), in_block);
    client.send(b"?\0\0\0\x04");
    assert_eq!(client.connection.activity(Some(3), &clock), None);
}

#[test]
fn reservations_are_counted_as_the_journal_shows_them() {
    let mut client = Client::connected();
    let reserve = |client: &mut Client| client.ask(TAKE, &[(TAKE, RESERVED)]);
    client.ask("BEGIN", &[]);
    reserve(&mut client);
    assert_eq!(client.state(), ("idle in transaction", 1));
    client.ask("SAVEPOINT a", &[("SAVEPOINT P0", "OK savepoint P0\n")]);
    reserve(&mut client);
    reserve(&mut client);
    assert_eq!(client.state(), ("idle in transaction", 3));
    // A refusal drops what was reserved since the last savepoint.
    client.ask(
        TAKE,
        &[
            (TAKE, BROKEN),
            ("ROLLBACK TO P0", "OK rolled back to P0 2\n"),
        ],
    );
    assert_eq!(client.state(), ("idle in transaction (aborted)", 1));
    let back = [("ROLLBACK TO P0", "OK rolled back to P0 0\n")];
    client.ask("ROLLBACK TO a", &back);
    reserve(&mut client);
    client.ask("RELEASE a", &[]);
    assert_eq!(client.state(), ("idle in transaction", 2));
    client.ask(TAKE, &[(TAKE, BROKEN), ("ROLLBACK", ROLLED_BACK)]);
    assert_eq!(client.state(), ("idle in transaction (aborted)", 0));
    client.ask("ROLLBACK", &[]);
    assert_eq!(client.state(), ("idle", 0));
    client.ask("BEGIN", &[]);
    reserve(&mut client);
    client.ask("COMMIT", &[("COMMIT", COMMITTED)]);
    assert_eq!(client.state(), ("idle", 0));
}

#[test]
fn a_connection_is_active_up_to_its_sync() {
    let mut client = Client::connected();
    client.send(&query(TAKE));
    assert_eq!(client.state(), ("active", 0));
    client.serve(&[(TAKE, RESERVED), ("COMMIT", COMMITTED)]);
    assert_eq!(client.state(), ("idle", 0));
    client.send(
        &[
            parse("", TAKE, &[]),
            bind("", "", &[], 0, 0),
            execute("", 0),
        ]
        .concat(),
    );
    client.serve(&[(TAKE, RESERVED)]);
    assert_eq!(client.state(), ("active", 1));
    client.send(&sync());
    client.serve(&[("COMMIT", COMMITTED)]);
    assert_eq!(client.state(), ("idle", 0));
}

#[test]
fn the_engine_tells_what_all_connections_do() {
    let mut client = Client::connected();
    client.connection.query = None;
    let parsed = next_statement("SHOW ALL", &mut 0).unwrap().unwrap();
    let subject = Subject::Simple(parsed);
    client
        .connection
        .ask_activities(Target::Simple, subject, |it, all| {
            it.terminate(all[0].process_id);
            Ok(Completed::plain("SELECT"))
        });
    assert_eq!(client.state(), ("active", 0));
    assert_eq!(client.connection.next_request(), Some(Request::Activities));
    assert_eq!(client.connection.next_request(), None);
    let all = [client.activity()];
    client.connection.activities(&all, client.now);
    let end = Request::Terminate { process_id: 7 };
    assert_eq!(client.connection.next_request(), Some(end));
    assert_eq!(client.output(), ["complete SELECT"]);
    // An answer that nobody asked for changes nothing.
    client.connection.activities(&all, client.now);
    assert_eq!(client.output(), Vec::<String>::new());
}
