//! Queries that read no table of the database, and what pools and drivers send between transactions.

use super::*;
use crate::activity::{Activity, State};
use std::time::SystemTime;

#[test]
fn the_tables_of_the_database_are_listed() {
    let mut client = Client::connected();
    client.learn(STOCK);
    let text = "SELECT relname, relkind FROM pg_class WHERE relnamespace = 2200 ORDER BY 1";
    assert_eq!(
        client.ask(text, &[]),
        [
            "columns 2",
            "row stock|r",
            "row stock_pkey|i",
            "complete SELECT 2",
            "ready I"
        ]
    );
}

#[test]
fn a_query_of_the_catalog_in_a_block_fails_it_only_where_postgresql_would() {
    let mut client = Client::connected();
    client.ask("BEGIN", &[]);
    let reset = client.ask("SELECT 1 FROM pg_policy WHERE polname LIKE 'a%'", &[]);
    assert_eq!(reset, ["columns 1", "complete SELECT 0", "ready T"]);
    let fault = client.ask("SELECT nothing FROM pg_class", &[]);
    assert_eq!(fault, ["ERROR 42703 P=8", "ready E"]);
}

#[test]
fn pools_reset_a_connection_by_one_message() {
    let mut client = Client::connected();
    client.ask("SET application_name = 'till'", &[]);
    let text = "SELECT pg_advisory_unlock_all(); CLOSE ALL; UNLISTEN *; RESET ALL;";
    assert_eq!(
        client.ask(text, &[]),
        [
            "columns 1",
            "row ",
            "complete SELECT 1",
            "complete CLOSE CURSOR ALL",
            "complete UNLISTEN",
            "status application_name=",
            "complete RESET",
            "ready I",
        ]
    );
}

#[test]
fn parameters_of_the_catalog_have_the_types_of_their_places() {
    let mut client = Client::connected();
    let text = "SELECT t.oid, t.typname, t.typtype FROM pg_type t WHERE t.oid = $1";
    client.send(
        &[
            parse("s", text, &[]),
            describe('S', "s"),
            bind("", "s", &[Some(&114_u32.to_be_bytes())], 1, 1),
            execute("", 0),
            bind("", "s", &[Some(b"x")], 0, 0),
            execute("", 0),
            sync(),
        ]
        .concat(),
    );
    assert_eq!(
        client.output(),
        [
            "parsed",
            "parameters 26",
            "columns 3",
            "bound",
            "row \0\0\0r|json|b",
            "complete SELECT 1",
            "bound",
            "ERROR 22P02",
            "ready I",
        ]
    );
    let unknown = "SELECT 1 FROM pg_type WHERE oid = $1::regtype AND typname = $2";
    client.send(&[parse("", unknown, &[]), describe('S', ""), sync()].concat());
    assert_eq!(
        client.output(),
        ["parsed", "parameters 2206 19", "columns 1", "ready I"]
    );
    client.send(&[parse("", "SELECT nothing", &[]), sync()].concat());
    assert_eq!(client.output(), ["ERROR 42703 P=8", "ready I"]);
}

#[test]
fn settings_are_changed_and_read_by_functions() {
    let mut client = Client::connected();
    assert_eq!(
        client.ask("SELECT set_config('application_name', 'a', false)", &[]),
        [
            "status application_name=a",
            "columns 1",
            "row a",
            "complete SELECT 1",
            "ready I"
        ]
    );
    // What is local ends with its transaction, here the statement.
    let local =
        "SELECT set_config('application_name', 'b', true), current_setting('application_name')";
    assert_eq!(
        client.ask(local, &[]),
        [
            "status application_name=b",
            "status application_name=a",
            "columns 2",
            "row b|b",
            "complete SELECT 1",
            "ready I"
        ]
    );
    let names = "SELECT name, setting, source FROM pg_settings WHERE name LIKE 'application%'";
    assert_eq!(client.ask(names, &[])[1], "row application_name|a|session");
}

#[test]
fn settings_of_a_clients_own_have_a_dot() {
    let mut client = Client::connected();
    assert_eq!(client.ask("SHOW my.var", &[]), ["ERROR 42704", "ready I"]);
    client.ask("SET my.var = 'a b'", &[]);
    assert_eq!(client.ask("SHOW My.Var", &[])[1], "row a b");
    client.ask("RESET my.var", &[]);
    let text = "SELECT current_setting('my.var'), current_setting('your.var', true)";
    assert_eq!(client.ask(text, &[])[1], "row |NULL");
    assert_eq!(
        client.ask("SELECT set_config('my.1', 'a', false)", &[]),
        ["ERROR 42602", "ready I"]
    );
}

#[test]
fn the_clients_own_role_is_the_only_one() {
    let mut client = Client::connected();
    for text in [
        "SET ROLE NONE",
        "SET ROLE ada",
        "SET SESSION AUTHORIZATION DEFAULT",
    ] {
        assert_eq!(
            client.ask(text, &[]),
            ["complete SET", "ready I"],
            "{}",
            text
        );
    }
    assert_eq!(client.ask("RESET ROLE", &[]), ["complete RESET", "ready I"]);
    assert_eq!(client.ask("SET ROLE bob", &[]), ["ERROR 22023", "ready I"]);
}

#[test]
fn sessions_are_shown_and_ended() {
    let mut client = Client::connected();
    let activity = Activity {
        process_id: 7,
        database: "shop".to_owned(),
        user: "ada".to_owned(),
        application_name: "till".to_owned(),
        session: Some(3),
        since: SystemTime::UNIX_EPOCH + Duration::from_secs(1_000_000_000),
        transaction_since: None,
        state_since: SystemTime::UNIX_EPOCH + Duration::from_secs(1_000_000_001),
        state: State::Idle,
        reservations: 2,
    };
    client.send(&query(
        "SELECT pid, usename, state, xact_start, backend_start, session, reservations FROM pg_stat_activity",
    ));
    assert_eq!(client.connection.next_request(), Some(Request::Activities));
    client
        .connection
        .activities(std::slice::from_ref(&activity), client.now);
    assert_eq!(
        client.output(),
        [
            "columns 7",
            "row 7|ada|idle|NULL|2001-09-09 01:46:40+00|3|2",
            "complete SELECT 1",
            "ready I"
        ]
    );
    client.send(&query(
        "SELECT pg_terminate_backend(pid) FROM pg_stat_activity WHERE pid = 7",
    ));
    assert_eq!(client.connection.next_request(), Some(Request::Activities));
    client
        .connection
        .activities(std::slice::from_ref(&activity), client.now);
    let end = Request::Terminate { process_id: 7 };
    assert_eq!(client.connection.next_request(), Some(end));
    assert_eq!(client.output()[1], "row t");
    client.send(&query("SELECT pg_terminate_backend(9)"));
    assert_eq!(client.connection.next_request(), Some(Request::Activities));
    client.connection.activities(&[activity], client.now);
    assert_eq!(
        client.output(),
        [
            "WARNING 01000",
            "columns 1",
            "row f",
            "complete SELECT 1",
            "ready I"
        ]
    );
}

#[test]
fn cursors_read_the_catalog() {
    let mut client = Client::connected();
    client.ask("BEGIN", &[]);
    let declare = "DECLARE c CURSOR FOR SELECT x FROM generate_series(1, 3) x";
    assert_eq!(
        client.ask(declare, &[]),
        ["complete DECLARE CURSOR", "ready T"]
    );
    assert_eq!(
        client.ask("FETCH 2 FROM c", &[]),
        ["columns 1", "row 1", "row 2", "complete FETCH 2", "ready T"]
    );
}

#[test]
fn queries_that_look_at_much_take_turns_with_others() {
    let mut client = Client::connected();
    let text = "SELECT count(*) FROM generate_series(1, 30000)";
    let both = [query(text), query(text)].concat();
    client.connection.receive(&both, client.now);
    assert!(client.connection.has_turn());
    let written = client.connection.output().to_vec();
    let one = ["columns 1", "row 30000", "complete SELECT 1", "ready I"];
    assert_eq!(decoded(&written), one[..3]);
    client.connection.sent(written.len(), client.now);
    client.go_on();
    assert_eq!(client.output(), [&one[3..], &one[..]].concat());
}
