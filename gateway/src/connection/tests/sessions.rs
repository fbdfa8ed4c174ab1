//! Which lines need a session of their own, and what a client gets if there is none.

use super::*;

const NO_SESSION: [&str; 2] = ["ERROR 53300", "ready I"];

impl Client {
    /// Takes all lines that the program is asked, with what they need.
    fn take_needs(&mut self) -> Vec<(String, Option<Need>)> {
        let mut taken = Vec::new();
        loop {
            let need = self.connection.need();
            match self.connection.next_request() {
                Some(Request::Statement {
                    line,
                    question,
                    need: told,
                }) => {
                    assert_eq!(need, told);
                    let line = String::from_utf8(line.to_vec()).unwrap();
                    taken.push((line.clone(), told));
                    self.asked.push_back((line, question));
                }
                None => return taken,
                request => panic!("{:?}", request),
            }
        }
    }

    /// Sends a simple query, and expects lines with their needs, which get these replies. Returns what the client gets.
    fn needs(&mut self, text: &str, script: &[(&str, Option<Need>, &str)]) -> Vec<String> {
        self.send(&query(text));
        let mut asked = Vec::new();
        for (_, _, reply) in script {
            asked.extend(self.take_needs());
            self.answer(reply);
        }
        asked.extend(self.take_needs());
        let expected: Vec<_> = script
            .iter()
            .map(|(line, need, _)| ((*line).to_owned(), *need))
            .collect();
        assert_eq!(asked, expected);
        self.output()
    }

    /// Is told that there is no session for what it asked.
    fn wait(&mut self) {
        assert!(self.connection.need().is_some() && !self.connection.is_waiting());
        self.connection.wait(self.now);
    }
}

#[test]
fn what_leaves_nothing_open_needs_no_session_of_its_own() {
    let mut client = Client::connected();
    client.learn(STOCK);
    for (text, line, reply) in [
        ("SELECT * FROM stock", "SELECT * FROM stock", ROWS),
        (
            "INSERT INTO stock VALUES (4, 1, 1, 'x')",
            "INSERT INTO stock VALUES (4, 1, 1, 'x')",
            "OK inserted\n",
        ),
        (
            "DELETE FROM stock WHERE id = 4",
            "DELETE FROM stock WHERE id = 4",
            "OK deleted\n",
        ),
        (
            "UPDATE stock SET price = 1 WHERE id = 1",
            "UPDATE stock SET price = 1 WHERE id = 1",
            "OK updated\n",
        ),
        ("SHOW TABLE stock", "SHOW TABLE stock", STOCK),
        ("SHOW JOURNAL", "SHOW JOURNAL", "OK reservations 0\n"),
    ] {
        let out = client.needs(text, &[(line, None, reply)]);
        assert_eq!(out.last().unwrap(), "ready I", "{}", text);
    }
}

#[test]
fn a_block_needs_a_session_from_its_first_reservation_or_savepoint_on() {
    let mut client = Client::connected();
    client.learn(STOCK);
    let own = Some(Need::Transaction);
    client.needs("BEGIN", &[]);
    client.needs(
        "SELECT * FROM stock",
        &[("SELECT * FROM stock", None, ROWS)],
    );
    client.needs(TAKE, &[(TAKE, own, RESERVED)]);
    client.needs(
        "SELECT * FROM stock",
        &[("SELECT * FROM stock", None, ROWS)],
    );
    client.needs("COMMIT", &[("COMMIT", own, COMMITTED)]);
    client.needs("BEGIN", &[]);
    client.needs("SAVEPOINT a", &[("SAVEPOINT P0", own, "OK savepoint P0\n")]);
    client.needs(
        "ROLLBACK TO a",
        &[("ROLLBACK TO P0", own, "OK rolled back to P0 0\n")],
    );
    client.needs("ROLLBACK", &[("ROLLBACK", own, "OK rolled back 0\n")]);
    // A block that holds nothing asks nothing at its end.
    client.needs("BEGIN", &[]);
    client.needs("COMMIT", &[]);
    // An error drops what was reserved, with the session's.
    client.needs("BEGIN", &[]);
    client.needs(TAKE, &[(TAKE, own, RESERVED)]);
    client.needs(TAKE, &[(TAKE, own, BROKEN), ("ROLLBACK", own, ROLLED_BACK)]);
    client.needs("ROLLBACK", &[]);
}

#[test]
fn a_statement_whose_commit_is_behind_it_needs_a_session_for_itself_alone() {
    let mut client = Client::connected();
    let (alone, own) = (Some(Need::Statement), Some(Need::Transaction));
    client.needs(
        TAKE,
        &[(TAKE, alone, RESERVED), ("COMMIT", alone, COMMITTED)],
    );
    let both = format!("{}; {}", TAKE, TAKE);
    client.needs(
        &both,
        &[
            (TAKE, own, RESERVED),
            (TAKE, own, RESERVED),
            ("COMMIT", own, COMMITTED),
        ],
    );
    // The client may take its time up to Sync.
    let execution = [
        parse("", TAKE, &[]),
        bind("", "", &[], 0, 0),
        execute("", 0),
    ]
    .concat();
    client.send(&execution);
    assert_eq!(client.take_needs(), [(TAKE.to_owned(), own)]);
    client.answer(RESERVED);
    client.send(&sync());
    assert_eq!(client.take_needs(), [("COMMIT".to_owned(), own)]);
    client.answer(COMMITTED);
    client.output();
    client.send(&[execution, sync()].concat());
    let asked = client.take_needs();
    assert_eq!(
        asked.iter().map(|(_, need)| *need).collect::<Vec<_>>(),
        [alone, alone]
    );
}

#[test]
fn a_commit_behind_a_refusal_leaves_nothing_to_roll_back() {
    let mut client = Client::connected();
    let memory = "ERR 51 memory\n";
    let out = client.ask(TAKE, &[(TAKE, BROKEN), ("COMMIT", memory)]);
    assert!(out[0].starts_with("ERROR 23514"), "{:?}", out);
    assert_eq!(out[1], "ready I");
    let failed = [
        (TAKE, RESERVED),
        ("COMMIT", memory),
        ("ROLLBACK", ROLLED_BACK),
    ];
    assert_eq!(client.ask(TAKE, &failed), ["ERROR 53200", "ready I"]);
}

#[test]
fn a_statement_alone_waits_for_a_session_as_long_as_it_takes() {
    let mut client = Client::connected();
    client.send(&query(TAKE));
    client.wait();
    assert_eq!(client.connection.deadline(), None);
    client.pass(100 * MOST_WAIT);
    assert!(client.connection.is_waiting());
    client.connection.wait_ended();
    client.serve(&[(TAKE, RESERVED), ("COMMIT", COMMITTED)]);
    assert_eq!(client.output(), ["complete UPDATE 1", "ready I"]);
}

#[test]
fn a_transaction_without_a_session_is_refused_after_a_second() {
    let mut client = Client::connected();
    client.send(&query(&format!("{}; {}", TAKE, TAKE)));
    client.wait();
    client.pass(MOST_WAIT - Duration::from_millis(1));
    assert!(client.connection.is_waiting());
    assert_eq!(client.output(), Vec::<String>::new());
    client.pass(Duration::from_millis(1));
    assert!(!client.connection.is_waiting());
    assert_eq!(client.output(), NO_SESSION);
    assert_eq!(
        (client.connection.need(), client.take_needs()),
        (None, vec![])
    );
    assert_eq!(client.connection.deadline(), None);
    // The next one is asked as if nothing had been.
    assert_eq!(
        client.ask(TAKE, &[(TAKE, RESERVED), ("COMMIT", COMMITTED)]),
        ["complete UPDATE 1", "ready I"]
    );
}

#[test]
fn a_block_without_a_session_has_failed() {
    let mut client = Client::connected();
    for text in [TAKE, "SAVEPOINT a"] {
        client.ask("BEGIN", &[]);
        client.send(&query(text));
        client.wait();
        client.pass(MOST_WAIT);
        assert_eq!(client.output(), ["ERROR 53300", "ready E"], "{}", text);
        assert_eq!(client.ask(TAKE, &[]), ["ERROR 25P02", "ready E"]);
        assert_eq!(client.ask("COMMIT", &[]), ["complete ROLLBACK", "ready I"]);
    }
}

#[test]
fn a_session_that_comes_in_time_ends_the_wait() {
    let mut client = Client::connected();
    client.send(&query(TAKE));
    client.wait();
    client.pass(MOST_WAIT / 2);
    client.connection.wait_ended();
    client.serve(&[(TAKE, RESERVED), ("COMMIT", COMMITTED)]);
    client.pass(MOST_WAIT);
    assert_eq!(client.output(), ["complete UPDATE 1", "ready I"]);
}

#[test]
fn a_transaction_timeout_ends_the_wait_for_a_session() {
    let mut client = Client::connected();
    client.ask("SET transaction_timeout = '500ms'", &[]);
    client.ask("BEGIN", &[]);
    client.send(&query(TAKE));
    client.wait();
    client.pass(Duration::from_millis(499));
    assert_eq!(client.output(), Vec::<String>::new());
    client.pass(Duration::from_millis(1));
    assert_eq!(client.output(), ["FATAL 25P04"]);
    assert_eq!(client.connection.need(), None);
}

#[test]
fn a_client_that_closes_while_it_waits_asks_nothing() {
    let mut client = Client::connected();
    client.send(&query(&format!("{}; {}", TAKE, TAKE)));
    client.wait();
    client.connection.input_ended(client.now);
    assert!(!client.connection.is_closing(), "what it sent is served");
    client.pass(MOST_WAIT);
    assert!(client.connection.is_closing());
    assert_eq!(client.take_needs(), []);
}

#[test]
fn show_statistics_counts_what_the_connection_asked() {
    let mut client = Client::connected();
    client.ask(TAKE, &[(TAKE, RESERVED), ("COMMIT", COMMITTED)]);
    client.ask("BEGIN", &[]);
    client.ask(TAKE, &[(TAKE, BROKEN)]);
    client.ask("ROLLBACK", &[]);
    assert_eq!(
        client.ask("SHOW STATISTICS", &[]),
        [
            "columns 8",
            "row 3|1|1|0|1|0|0|0",
            "complete SHOW",
            "ready I"
        ]
    );
}

#[test]
fn what_a_client_leaves_is_freed_in_turns_and_counts_against_it_no_more() {
    const MANY: u64 = 48 << 20;
    let settings = settings();
    let mut client = Client::connected_with(settings.clone());
    let fill = |client: &mut Client| {
        let names = (0..).map(|at| format!("s{}", at));
        for name in names.take_while(|_| settings.memory.taken() < MANY) {
            client.send(&parse(&name, "SELECT 1", &[23; 32_767]));
            client.send(&bind(&name, &name, &[None; 32_767], 0, 0));
            assert_eq!(client.output(), ["parsed", "bound"]);
        }
    };
    client.ask("BEGIN", &[]);
    fill(&mut client);
    // A client has 64 MiB. What it had before isn't freed yet, and the same names are free.
    client.ask("COMMIT; DEALLOCATE ALL", &[]);
    assert!(settings.memory.taken() > MANY - (1 << 20));
    client.send(&parse("s0", "SELECT 1", &[23; 32_767]));
    assert_eq!(client.output(), ["parsed"]);
    let turns = std::iter::from_fn(|| settings.leftovers.free_some().then_some(())).count();
    assert!(turns > 20, "{}", turns);
    assert!(settings.memory.taken() < 500_000);
    // So it is if a client ends.
    client.ask("BEGIN; DEALLOCATE ALL", &[]);
    fill(&mut client);
    drop(client);
    assert!(settings.leftovers.free_some() && settings.memory.taken() > MANY / 2);
    while settings.leftovers.free_some() {}
    assert_eq!(settings.memory.taken(), 0);
}

#[test]
fn a_connection_that_rests_gives_its_memory_back() {
    let rest = Duration::from_secs(1);
    let mut client = Client::connected();
    client.learn(STOCK);
    let select = [("SELECT * FROM stock", ROWS)];
    client.ask("SELECT * FROM stock", &select);
    client.ask(TAKE, &[(TAKE, RESERVED), ("COMMIT", COMMITTED)]);
    assert!(client.connection.trim(rest, client.now), "it may go on");
    client.connection.take_events();
    client.now += rest;
    assert!(!client.connection.trim(rest, client.now));
    let connection = &client.connection;
    assert_eq!(connection.input.memory(), 0);
    assert_eq!(connection.awaited.capacity(), 0);
    assert_eq!(connection.events.capacity(), 0);
    assert!(connection.spill.is_none());
    // The rest of a connection is this, its names and its settings.
    let size = std::mem::size_of::<Connection>();
    assert!(size <= 1_024, "{}", size);
    // Rows that wait stay.
    client.ask("BEGIN", &[]);
    client.ask("DECLARE c CURSOR FOR SELECT * FROM stock", &select);
    client.now += rest;
    assert!(!client.connection.trim(rest, client.now));
    let out = client.ask("FETCH 1 FROM c", &[]);
    assert_eq!(out[1], "row 1|5|9.50|tea");
    // While it waits for a reply, it keeps what it has.
    client.send(&query("SELECT * FROM stock"));
    client.now += rest;
    assert!(client.connection.trim(rest, client.now));
    client.serve(&select);
    assert_eq!(client.output().last().unwrap(), "ready T");
}
