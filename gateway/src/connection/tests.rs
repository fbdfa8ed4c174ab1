//! A connection is fed with a client's bytes and with replies, and what comes out is compared.

mod activity;
mod catalog;
mod sessions;

use super::*;
use proptest::prelude::*;
use std::collections::VecDeque;

const STOCK: &str = "CREATE TABLE STOCK (ID NUMBER(15) PRIMARY KEY, PIECES NUMBER(15) RESERVABLE, \
                     PRICE NUMBER(8,2), NAME VARCHAR2(20), CONSTRAINT IN_STOCK CHECK (PIECES >= 0))\n\
                     OK table\n";
const ROWS: &str = "ID | PIECES | PRICE | NAME\n1 | 5 | 9.50 | 'tea'\n2 | 7 | -0.05 | 'it''s'\n\
                    3 | 0 | 0.00 | 'x | y'\nOK rows 3\n";
const TAKE: &str = "UPDATE stock SET pieces = pieces - 1 WHERE id = 1";
const RESERVED: &str = "OK reserved 1\n";
const COMMITTED: &str = "OK committed 1\n";
const BROKEN: &str = "ERR 41 IN_STOCK low -1 limit 0\n";
const ROLLED_BACK: &str = "OK rolled back 1\n";

fn settings() -> Rc<Settings> {
    Rc::new(Settings {
        databases: vec!["bank".to_owned(), "shop".to_owned()],
        version: "15.0 (escrowd 1.1)".to_owned(),
        limits: Limits::default(),
        startup: Duration::from_secs(10),
        connections: 64,
        transactions: 60,
        definitions: vec![Definitions::default(), Definitions::default()],
        statements: KnownStatements::default(),
        memory: Pool::new(u64::MAX),
        leftovers: Rc::default(),
        disk: Pool::new(u64::MAX),
    })
}

fn message(kind: u8, body: &[u8]) -> Vec<u8> {
    let mut bytes = vec![kind];
    bytes.extend_from_slice(&(body.len() as u32 + 4).to_be_bytes());
    bytes.extend_from_slice(body);
    bytes
}

fn startup_packet(version: u32, parameters: &[&str]) -> Vec<u8> {
    let mut body = version.to_be_bytes().to_vec();
    for parameter in parameters {
        body.extend_from_slice(parameter.as_bytes());
        body.push(0);
    }
    body.push(0);
    let mut bytes = (body.len() as u32 + 4).to_be_bytes().to_vec();
    bytes.extend_from_slice(&body);
    bytes
}

fn request_packet(code: u32) -> Vec<u8> {
    let mut bytes = 8_u32.to_be_bytes().to_vec();
    bytes.extend_from_slice(&code.to_be_bytes());
    bytes
}

fn query(text: &str) -> Vec<u8> {
    message(b'Q', format!("{}\0", text).as_bytes())
}

fn parse(name: &str, text: &str, types: &[u32]) -> Vec<u8> {
    let mut body = format!("{}\0{}\0", name, text).into_bytes();
    body.extend_from_slice(&(types.len() as u16).to_be_bytes());
    for oid in types {
        body.extend_from_slice(&oid.to_be_bytes());
    }
    message(b'P', &body)
}

fn bind(
    portal: &str,
    statement: &str,
    values: &[Option<&[u8]>],
    format: u16,
    result: u16,
) -> Vec<u8> {
    let mut body = format!("{}\0{}\0", portal, statement).into_bytes();
    body.extend_from_slice(&[0, 1]);
    body.extend_from_slice(&format.to_be_bytes());
    body.extend_from_slice(&(values.len() as u16).to_be_bytes());
    for value in values {
        match value {
            Some(value) => {
                body.extend_from_slice(&(value.len() as u32).to_be_bytes());
                body.extend_from_slice(value);
            }
            None => body.extend_from_slice(&[0xff; 4]),
        }
    }
    body.extend_from_slice(&[0, 1]);
    body.extend_from_slice(&result.to_be_bytes());
    message(b'B', &body)
}

fn describe(kind: char, name: &str) -> Vec<u8> {
    message(b'D', format!("{}{}\0", kind, name).as_bytes())
}

fn execute(portal: &str, limit: u32) -> Vec<u8> {
    let mut body = format!("{}\0", portal).into_bytes();
    body.extend_from_slice(&limit.to_be_bytes());
    message(b'E', &body)
}

fn sync() -> Vec<u8> {
    message(b'S', b"")
}

/// Returns a message in words.
fn words(kind: u8, body: &[u8]) -> String {
    let strings = || {
        let texts: Vec<String> = body
            .split(|&byte| byte == 0)
            .map(|text| String::from_utf8_lossy(text).into())
            .collect();
        texts
    };
    let number = |at: usize| u16::from_be_bytes([body[at], body[at + 1]]);
    match kind {
        b'E' | b'N' => {
            let fields = strings();
            let field = |mark: char| {
                let field = fields.iter().find(|field| field.starts_with(mark));
                field.map_or("", |field| &field[1..]).to_owned()
            };
            let mut words = format!("{} {}", field('S'), field('C'));
            for mark in ['P', 't', 'c', 'n'] {
                if !field(mark).is_empty() {
                    words += &format!(" {}={}", mark, field(mark));
                }
            }
            words
        }
        b'C' => format!("complete {}", strings()[0]),
        b'Z' => format!("ready {}", char::from(body[0])),
        b'S' => format!("status {}={}", strings()[0], strings()[1]),
        b'T' => format!("columns {}", number(0)),
        b't' => {
            let oids: Vec<String> = body[2..]
                .chunks(4)
                .map(|oid| u32::from_be_bytes([oid[0], oid[1], oid[2], oid[3]]).to_string())
                .collect();
            format!("parameters {}", oids.join(" "))
        }
        b'D' => {
            let (mut at, mut values) = (2, Vec::new());
            for _ in 0..number(0) {
                let length =
                    i32::from_be_bytes([body[at], body[at + 1], body[at + 2], body[at + 3]]);
                at += 4;
                match usize::try_from(length) {
                    Ok(length) => {
                        let value = &body[at..at + length];
                        values.push(String::from_utf8_lossy(value).into_owned());
                        at += length;
                    }
                    Err(_) => values.push("NULL".to_owned()),
                }
            }
            assert_eq!(at, body.len());
            format!("row {}", values.join("|"))
        }
        b'R' => "authenticated".to_owned(),
        b'K' => "key".to_owned(),
        b'I' => "empty".to_owned(),
        b'1' => "parsed".to_owned(),
        b'2' => "bound".to_owned(),
        b'3' => "closed".to_owned(),
        b'n' => "no data".to_owned(),
        b's' => "suspended".to_owned(),
        b'v' => format!("negotiate {}", String::from_utf8_lossy(&body[8..])),
        kind => panic!("unknown message {}", char::from(kind)),
    }
}

/// Returns messages in words.
fn decoded(mut bytes: &[u8]) -> Vec<String> {
    let mut messages = Vec::new();
    while !bytes.is_empty() {
        let length = u32::from_be_bytes([bytes[1], bytes[2], bytes[3], bytes[4]]) as usize;
        messages.push(words(bytes[0], &bytes[5..1 + length]));
        bytes = &bytes[1 + length..];
    }
    messages
}

/// A connection with a clock and with what the program was asked.
struct Client {
    connection: Connection,
    now: Instant,
    asked: VecDeque<(String, Question)>,
}

impl Client {
    fn new() -> Client {
        Client::with(settings())
    }

    fn with(settings: Rc<Settings>) -> Client {
        let now = Instant::now();
        Client {
            connection: Connection::new(settings, 7, now),
            now,
            asked: VecDeque::new(),
        }
    }

    /// A client that is connected.
    fn connected() -> Client {
        Client::connected_with(settings())
    }

    fn connected_with(settings: Rc<Settings>) -> Client {
        let mut client = Client::with(settings);
        client.send(&startup_packet(
            196_608,
            &["user", "ada", "database", "shop"],
        ));
        assert_eq!(
            client.connection.next_request(),
            Some(Request::Open { database: 1 })
        );
        client.connection.opened(Opened::Accepted, client.now);
        client.output();
        client
    }

    fn send(&mut self, bytes: &[u8]) {
        self.connection.receive(bytes, self.now);
        self.go_on();
    }

    /// Lets it have all of its turns.
    fn go_on(&mut self) {
        while self.connection.has_turn() {
            self.connection.go_on(self.now);
        }
    }

    /// Gives a reply, as the part that reads the program's output does.
    fn reply(&mut self, question: Question, reply: &str) {
        let lines: Vec<&str> = reply.split_terminator('\n').collect();
        for (place, line) in lines.iter().enumerate() {
            let is_last = place + 1 == lines.len();
            assert_eq!(question.is_last_line(line.as_bytes()), is_last, "{}", line);
            self.connection
                .definitions()
                .note(question, line.as_bytes());
            self.connection.replied(line.as_bytes(), is_last, self.now);
        }
        self.go_on();
    }

    /// Lets the gateway learn a definition that another connection asked for.
    fn learn(&mut self, shown: &str) {
        let definitions = self.connection.definitions();
        shown
            .lines()
            .for_each(|line| definitions.note(Question::Table, line.as_bytes()));
    }

    /// Answers the oldest line that the program was asked. Returns the line.
    fn answer(&mut self, reply: &str) -> Option<String> {
        let (line, question) = self.asked.pop_front()?;
        self.reply(question, reply);
        Some(line)
    }

    /// Takes all lines that the program is asked.
    fn take(&mut self) {
        while let Some(request) = self.connection.next_request() {
            match request {
                Request::Statement { line, question, .. } => {
                    let line = String::from_utf8(line.to_vec()).unwrap();
                    self.asked.push_back((line, question));
                }
                request => panic!("{:?}", request),
            }
        }
    }

    /// Returns the lines that the program was asked and that have no reply.
    fn lines(&self) -> Vec<&str> {
        self.asked.iter().map(|(line, _)| line.as_str()).collect()
    }

    /// Compares the lines that the program is asked with these, and gives their replies.
    fn serve(&mut self, script: &[(&str, &str)]) -> &mut Client {
        for (line, reply) in script {
            self.take();
            assert_eq!(self.answer(reply).as_deref(), Some(*line));
        }
        self.take();
        assert_eq!(self.asked, []);
        assert_eq!(self.connection.unanswered(), 0);
        self
    }

    /// Takes what was written to the client, in words.
    fn output(&mut self) -> Vec<String> {
        decoded(&self.bytes())
    }

    /// Takes what was written to the client.
    fn bytes(&mut self) -> Vec<u8> {
        let mut bytes = Vec::new();
        while !self.connection.output().is_empty() {
            let piece = self.connection.output().to_vec();
            self.connection.sent(piece.len(), self.now);
            self.go_on();
            bytes.extend(piece);
        }
        bytes
    }

    /// Sends a simple query, serves it, and returns what the client gets.
    fn ask(&mut self, text: &str, script: &[(&str, &str)]) -> Vec<String> {
        self.send(&query(text));
        self.serve(script);
        self.output()
    }

    fn pass(&mut self, time: Duration) {
        self.now += time;
        self.connection.time_passed(self.now);
    }
}

#[test]
fn a_client_is_told_what_the_server_is() {
    let mut client = Client::new();
    client.send(&request_packet(80_877_103));
    assert_eq!(client.connection.output(), b"N");
    client.connection.sent(1, client.now);
    client.send(&request_packet(80_877_104));
    assert_eq!(client.connection.output(), b"N");
    client.connection.sent(1, client.now);
    let names = [
        "user",
        "ada",
        "database",
        "shop",
        "application_name",
        "x",
        "client_encoding",
        "'utf-8'",
    ];
    client.send(&startup_packet(196_608, &names));
    assert_eq!(
        client.connection.next_request(),
        Some(Request::Open { database: 1 })
    );
    assert_eq!(client.connection.next_request(), None);
    client.connection.opened(Opened::Accepted, client.now);
    let told = client.output();
    assert_eq!(told[0], "authenticated");
    assert_eq!(&told[told.len() - 2..], ["key", "ready I"]);
    for status in [
        "status application_name=x",
        "status client_encoding=UTF8",
        "status DateStyle=ISO, MDY",
        "status integer_datetimes=on",
        "status server_encoding=UTF8",
        "status server_version=15.0 (escrowd 1.1)",
        "status session_authorization=ada",
        "status standard_conforming_strings=on",
        "status TimeZone=Etc/UTC",
    ] {
        assert!(told.iter().any(|message| message == status), "{}", status);
    }
}

#[test]
fn a_startup_that_cannot_be_served_is_refused() {
    let refused = |packet: &[u8]| {
        let mut client = Client::new();
        client.send(packet);
        assert_eq!(client.connection.next_request(), None);
        assert!(client.connection.is_closing());
        client.output()
    };
    let version = 196_608;
    assert_eq!(
        refused(&startup_packet(version, &["user", "nobody"])),
        ["authenticated", "FATAL 3D000"]
    );
    assert_eq!(
        refused(&startup_packet(version, &["database", "shop"])),
        ["FATAL 28000"]
    );
    assert_eq!(
        refused(&startup_packet(
            version,
            &["user", "shop", "replication", "true"]
        )),
        ["FATAL 0A000"]
    );
    assert_eq!(
        refused(&startup_packet(131_072, &["user", "shop"])),
        ["FATAL 0A000"]
    );
    assert_eq!(
        refused(&startup_packet(
            version,
            &["user", "shop", "client_encoding", "latin1"]
        )),
        ["authenticated", "FATAL 22023"]
    );
    assert_eq!(
        refused(&startup_packet(
            version,
            &["user", "shop", "options", "-c nothing=1"]
        )),
        ["authenticated", "FATAL 42704"]
    );
    assert_eq!(refused(&[0, 0, 0, 7]), ["FATAL 08P01"]);
    assert_eq!(refused(&[0, 1, 0, 0]), ["FATAL 08P01"]);
    assert_eq!(refused(&[0, 0, 0, 9, 0, 3, 0, 0, b'x']), ["FATAL 08P01"]);
    assert_eq!(refused(&request_packet(80_877_102)), Vec::<String>::new());
    let twice = [request_packet(80_877_103), request_packet(80_877_103)].concat();
    let mut client = Client::new();
    client.send(&twice);
    assert!(client.connection.is_closing());
}

#[test]
fn a_newer_minor_version_is_negotiated() {
    let mut client = Client::new();
    client.send(&startup_packet(196_610, &["user", "shop", "_pq_.x", "1"]));
    assert_eq!(client.output(), ["negotiate _pq_.x\0", "authenticated"]);
    assert_eq!(
        client.connection.next_request(),
        Some(Request::Open { database: 1 })
    );
}

#[test]
fn a_connection_that_is_too_many_is_refused() {
    let mut client = Client::new();
    client.send(&startup_packet(196_608, &["user", "bank"]));
    assert_eq!(
        client.connection.next_request(),
        Some(Request::Open { database: 0 })
    );
    client.connection.opened(Opened::TooMany, client.now);
    assert_eq!(client.output(), ["authenticated", "FATAL 53300"]);
    assert!(client.connection.is_closing());
}

#[test]
fn a_startup_that_takes_too_long_ends() {
    let mut client = Client::new();
    client.send(&[0, 0]);
    client.pass(Duration::from_secs(9));
    assert!(!client.connection.is_closing());
    client.pass(Duration::from_secs(1));
    assert!(client.connection.is_closing());
    assert_eq!(client.output(), Vec::<String>::new());
}

#[test]
fn an_update_outside_of_a_block_is_committed_at_once() {
    let mut client = Client::connected();
    client.send(&query(TAKE));
    client.take();
    assert_eq!(client.lines(), [TAKE, "COMMIT"]);
    client.serve_replies(&[RESERVED, COMMITTED]);
    assert_eq!(client.output(), ["complete UPDATE 1", "ready I"]);
    let events: Vec<Event> = client.connection.take_events().collect();
    assert_eq!(events, [Event::Statement(Kind::Update), Event::Committed]);
    assert_eq!(client.connection.transaction_since(), None);
}

#[test]
fn the_commit_behind_a_refusal_is_not_told() {
    let mut client = Client::connected();
    assert_eq!(
        client.ask(TAKE, &[(TAKE, BROKEN), ("COMMIT", "OK committed 0\n")]),
        ["ERROR 23514 t=stock n=in_stock", "ready I"]
    );
    assert_eq!(
        client.ask(
            TAKE,
            &[
                (TAKE, "ERR 31 no such row\n"),
                ("COMMIT", "OK committed 0\n")
            ]
        ),
        ["complete UPDATE 0", "ready I"]
    );
}

#[test]
fn a_commit_that_fails_is_rolled_back() {
    let mut client = Client::connected();
    let script = [
        (TAKE, RESERVED),
        ("COMMIT", "ERR 60 store\n"),
        ("ROLLBACK", ROLLED_BACK),
    ];
    assert_eq!(client.ask(TAKE, &script), ["ERROR 58030", "ready I"]);
    client.ask("BEGIN", &[]);
    client.ask(TAKE, &[(TAKE, RESERVED)]);
    let script = [("COMMIT", "ERR 51 memory\n"), ("ROLLBACK", ROLLED_BACK)];
    assert_eq!(client.ask("COMMIT", &script), ["ERROR 53200", "ready I"]);
    assert_eq!(client.connection.transaction_since(), None);
}

#[test]
fn a_block_is_committed_by_one_line() {
    let mut client = Client::connected();
    assert_eq!(client.ask("BEGIN", &[]), ["complete BEGIN", "ready T"]);
    assert_eq!(
        client.ask(TAKE, &[(TAKE, RESERVED)]),
        ["complete UPDATE 1", "ready T"]
    );
    assert_eq!(
        client.ask("BEGIN", &[]),
        ["WARNING 25001", "complete BEGIN", "ready T"]
    );
    assert_eq!(
        client.ask("COMMIT", &[("COMMIT", COMMITTED)]),
        ["complete COMMIT", "ready I"]
    );
    assert_eq!(
        client.ask("COMMIT", &[]),
        ["WARNING 25P01", "complete COMMIT", "ready I"]
    );
    client.ask("SET client_min_messages = error", &[]);
    assert_eq!(
        client.ask("ROLLBACK", &[]),
        ["complete ROLLBACK", "ready I"]
    );
}

#[test]
fn a_failed_block_holds_nothing_and_rolls_back() {
    let mut client = Client::connected();
    client.ask("BEGIN", &[]);
    client.ask(TAKE, &[(TAKE, RESERVED)]);
    assert_eq!(
        client.ask(TAKE, &[(TAKE, BROKEN), ("ROLLBACK", ROLLED_BACK)]),
        ["ERROR 23514 t=stock n=in_stock", "ready E"]
    );
    assert_eq!(client.ask(TAKE, &[]), ["ERROR 25P02", "ready E"]);
    assert_eq!(client.ask("SAVEPOINT a", &[]), ["ERROR 25P02", "ready E"]);
    assert_eq!(client.ask("", &[]), ["empty", "ready E"]);
    assert_eq!(client.ask("COMMIT", &[]), ["complete ROLLBACK", "ready I"]);
}

#[test]
fn what_commits_by_itself_is_refused_in_a_block() {
    let mut client = Client::connected();
    client.ask("BEGIN", &[]);
    for text in [
        "INSERT INTO stock VALUES (1, 2, 3, 'x')",
        "DELETE FROM stock WHERE id = 1",
        "UPDATE stock SET name = 'x' WHERE id = 1",
        "CREATE TABLE t (id INTEGER PRIMARY KEY)",
        "DROP TABLE stock",
        "ALTER TABLE stock DROP CONSTRAINT in_stock",
        "DISCARD ALL",
    ] {
        assert_eq!(
            client.ask(text, &[]),
            ["ERROR 25001", "ready E"],
            "{}",
            text
        );
        client.ask("ROLLBACK", &[]);
        client.ask("BEGIN", &[]);
    }
    client.ask("ROLLBACK", &[]);
    let both = "INSERT INTO stock VALUES (1, 2, 3, 'x'); SELECT 1";
    assert_eq!(client.ask(both, &[]), ["ERROR 25001", "ready I"]);
    client.learn(STOCK);
    let alone = "INSERT INTO stock VALUES (1, 2, 3, 'x')";
    assert_eq!(
        client.ask(alone, &[(alone, "OK inserted\n")]),
        ["complete INSERT 0 1", "ready I"]
    );
}

#[test]
fn savepoints_of_one_name_hide_each_other_until_they_are_released() {
    let mut client = Client::connected();
    client.ask("BEGIN", &[]);
    let made = "OK savepoint P\n";
    let back = "OK rolled back to P 1\n";
    client.ask("SAVEPOINT a", &[("SAVEPOINT P0", made)]);
    client.ask(TAKE, &[(TAKE, RESERVED)]);
    client.ask("SAVEPOINT \"A b\"", &[("SAVEPOINT P1", made)]);
    client.ask("SAVEPOINT A", &[("SAVEPOINT P2", made)]);
    client.ask("ROLLBACK TO a", &[("ROLLBACK TO P2", back)]);
    assert_eq!(
        client.ask("RELEASE a", &[]),
        ["complete RELEASE", "ready T"]
    );
    // The place of the released one is taken again, and the program makes it anew behind all others.
    client.ask("SAVEPOINT c", &[("SAVEPOINT P2", made)]);
    assert_eq!(
        client.ask("RELEASE SAVEPOINT \"A b\"", &[]),
        ["complete RELEASE", "ready T"]
    );
    assert_eq!(
        client.ask("ROLLBACK TO SAVEPOINT c", &[("ROLLBACK TO P0", back)]),
        ["ERROR 3B001", "ready E"]
    );
    assert_eq!(
        client.ask("ROLLBACK TO a", &[("ROLLBACK TO P0", back)]),
        ["complete ROLLBACK", "ready T"]
    );
    assert_eq!(
        client.ask("RELEASE \"A b\"", &[]),
        ["ERROR 3B001", "ready E"]
    );
    assert_eq!(
        client.ask("ROLLBACK", &[("ROLLBACK", ROLLED_BACK)]),
        ["complete ROLLBACK", "ready I"]
    );
    for text in ["SAVEPOINT a", "RELEASE a", "ROLLBACK TO a"] {
        assert_eq!(
            client.ask(text, &[]),
            ["ERROR 25P01", "ready I"],
            "{}",
            text
        );
    }
}

#[test]
fn an_error_behind_a_savepoint_keeps_what_was_reserved_before() {
    let mut client = Client::connected();
    client.ask("BEGIN", &[]);
    client.ask(TAKE, &[(TAKE, RESERVED)]);
    client.ask("SAVEPOINT a", &[("SAVEPOINT P0", "OK savepoint P0\n")]);
    // Nothing was reserved since, so nothing has to be given back.
    client.ask(TAKE, &[(TAKE, BROKEN)]);
    client.ask(
        "ROLLBACK TO a",
        &[("ROLLBACK TO P0", "OK rolled back to P0 0\n")],
    );
    client.ask(TAKE, &[(TAKE, RESERVED)]);
    assert_eq!(
        client.ask(
            TAKE,
            &[
                (TAKE, BROKEN),
                ("ROLLBACK TO P0", "OK rolled back to P0 1\n")
            ]
        ),
        ["ERROR 23514 t=stock n=in_stock", "ready E"]
    );
    client.ask(
        "ROLLBACK TO a",
        &[("ROLLBACK TO P0", "OK rolled back to P0 0\n")],
    );
    assert_eq!(
        client.ask("COMMIT", &[("COMMIT", COMMITTED)]),
        ["complete COMMIT", "ready I"]
    );
}

#[test]
fn the_sixty_fifth_savepoint_is_refused() {
    let mut client = Client::connected();
    client.ask("BEGIN", &[]);
    for place in 0..64 {
        let line = format!("SAVEPOINT P{}", place);
        client.ask("SAVEPOINT a", &[(&line, "OK savepoint P\n")]);
    }
    let script = [("SAVEPOINT P64", "ERR 44 too many savepoints\n")];
    assert_eq!(
        client.ask("SAVEPOINT a", &script),
        ["ERROR 54000", "ready E"]
    );
}

#[test]
fn several_statements_are_one_transaction() {
    let mut client = Client::connected();
    let both = format!("{}; {};", TAKE, TAKE);
    assert_eq!(
        client.ask(
            &both,
            &[(TAKE, RESERVED), (TAKE, RESERVED), ("COMMIT", COMMITTED)]
        ),
        ["complete UPDATE 1", "complete UPDATE 1", "ready I"]
    );
    let three = format!("{}; {}; SELECT 1", TAKE, TAKE);
    assert_eq!(
        client.ask(
            &three,
            &[(TAKE, RESERVED), (TAKE, BROKEN), ("ROLLBACK", ROLLED_BACK)]
        ),
        [
            "complete UPDATE 1",
            "ERROR 23514 t=stock n=in_stock",
            "ready I"
        ]
    );
    let begun = format!("{}; BEGIN; {}", TAKE, TAKE);
    assert_eq!(
        client.ask(&begun, &[(TAKE, RESERVED), (TAKE, RESERVED)]),
        [
            "complete UPDATE 1",
            "complete BEGIN",
            "complete UPDATE 1",
            "ready T"
        ]
    );
    client.ask("ROLLBACK", &[("ROLLBACK", ROLLED_BACK)]);
    // Nothing runs where one of them can't be read.
    let unread = format!("{}; SELEC", TAKE);
    assert_eq!(client.ask(&unread, &[]), ["ERROR 42601 P=52", "ready I"]);
}

#[test]
fn rows_have_the_columns_of_their_table() {
    let mut client = Client::connected();
    let script = [("SHOW TABLE stock", STOCK), ("SELECT * FROM stock", ROWS)];
    assert_eq!(
        client.ask("SELECT * FROM stock", &script),
        [
            "columns 4",
            "row 1|5|9.50|tea",
            "row 2|7|-0.05|it's",
            "row 3|0|0.00|x | y",
            "complete SELECT 3",
            "ready I"
        ]
    );
    let script = [("SHOW TABLE nothing", "ERR 21 no such table\n")];
    assert_eq!(
        client.ask("SELECT * FROM nothing", &script),
        ["ERROR 42P01 P=15 t=nothing", "ready I"]
    );
}

#[test]
fn a_fault_is_shown_in_the_clients_own_text() {
    let mut client = Client::connected();
    assert_eq!(
        client.ask("/* \u{e4} */ DELETE FROM stock\n  id = 1", &[]),
        ["ERROR 42601 P=32", "ready I"]
    );
    let script = [("SHOW TABLE stock", STOCK)];
    assert_eq!(
        client.ask("DELETE FROM stock WHERE id = 'x'", &script),
        ["ERROR 22P02 P=30", "ready I"]
    );
    let script = [("DELETE FROM stock WHERE name = 'x'", "ERR 25 not the key\n")];
    assert_eq!(
        client.ask("DELETE FROM stock WHERE name = 'x'", &script),
        ["ERROR 0A000 t=stock", "ready I"]
    );
    let script = [(
        "UPDATE stock SET x = 1 WHERE id = 1",
        "ERR 24 bad assignment\n",
    )];
    assert_eq!(
        client.ask("UPDATE stock SET x = 1 WHERE id = 1", &script),
        ["ERROR 42703 P=18 t=stock", "ready I"]
    );
    // What the tree prints is always read; that it isn't is no fault of the client's.
    let script = [
        (TAKE, "ERR 11 syntax column 3\n"),
        ("COMMIT", "OK committed 0\n"),
    ];
    assert_eq!(client.ask(TAKE, &script), ["ERROR XX000", "ready I"]);
}

#[test]
fn a_number_in_quotes_is_written_as_its_column_wants_it() {
    let mut client = Client::connected();
    let line = "UPDATE stock SET pieces = pieces - 2 WHERE id = 1";
    let script = [
        ("SHOW TABLE stock", STOCK),
        (line, RESERVED),
        ("COMMIT", COMMITTED),
    ];
    let text = "UPDATE stock SET pieces = pieces - '2' WHERE id = ' 1 '";
    assert_eq!(client.ask(text, &script), ["complete UPDATE 1", "ready I"]);

    // Another connection makes the table anew before the statement is served: then it is written again.
    client.send(&query("DELETE FROM stock WHERE id = '1'"));
    client.take();
    assert_eq!(client.lines(), ["DELETE FROM stock WHERE id = 1"]);
    client.learn(&STOCK.replace("ID NUMBER(15)", "ID VARCHAR2(9)"));
    client.answer("ERR 23 bad value\n");
    client.serve(&[("DELETE FROM stock WHERE id = '1'", "OK deleted\n")]);
    assert_eq!(client.output(), ["complete DELETE 1", "ready I"]);
}

#[test]
fn rows_are_picked_ordered_and_counted() {
    let mut client = Client::connected();
    client.learn(STOCK);
    let all = [("SELECT * FROM stock", ROWS)];
    for (text, expected) in [
        (
            "SELECT s.name AS n, id, 7, 'x' y FROM public.stock s ORDER BY s.id DESC LIMIT 2",
            vec![
                "columns 4",
                "row x | y|3|7|x",
                "row it's|2|7|x",
                "complete SELECT 2",
            ],
        ),
        (
            "SELECT stock.* FROM stock ORDER BY 1 OFFSET 1 ROWS FETCH FIRST ROW ONLY",
            vec!["columns 4", "row 2|7|-0.05|it's", "complete SELECT 1"],
        ),
        (
            "SELECT count(*) FROM stock",
            vec!["columns 1", "row 3", "complete SELECT 1"],
        ),
        (
            "SELECT (1) AS a FROM stock LIMIT 1",
            vec!["columns 1", "row 1", "complete SELECT 1"],
        ),
        (
            "TABLE stock LIMIT 0",
            vec!["columns 4", "complete SELECT 0"],
        ),
        (
            "SELECT count(*) AS n FROM (SELECT id, name FROM stock ORDER BY id) AS x",
            vec!["columns 1", "row 3", "complete SELECT 1"],
        ),
        (
            "SELECT EXISTS (SELECT 1 FROM stock) AS it",
            vec!["columns 1", "row t", "complete SELECT 1"],
        ),
    ] {
        assert_eq!(
            client.ask(text, &all),
            [&expected[..], &["ready I"]].concat(),
            "{}",
            text
        );
    }
    // Each key is a line; together they are one result, in the order of the keys and each once.
    let row = |id: u8| {
        format!(
            "ID | PIECES | PRICE | NAME\n{} | 5 | 9.50 | 'tea'\nOK rows 1\n",
            id
        )
    };
    let none = "ID | PIECES | PRICE | NAME\nOK rows 0\n";
    let (first, third) = (row(1), row(3));
    client.send(&query(
        "SELECT id FROM stock WHERE id IN (3, '1', 20, 3.0) FOR UPDATE",
    ));
    client.serve(&[
        ("SELECT * FROM stock WHERE id = 1", &first),
        ("SELECT * FROM stock WHERE id = 3", &third),
        ("SELECT * FROM stock WHERE id = 20", none),
    ]);
    assert_eq!(
        client.output(),
        [
            "columns 1",
            "row 1",
            "row 3",
            "complete SELECT 2",
            "ready I"
        ]
    );
    for (text, error) in [
        ("SELECT nothing FROM stock", "ERROR 42703 P=8"),
        // The table's name is its row as one value.
        ("SELECT stock FROM stock", "ERROR 0A000 P=8"),
        ("SELECT \"S\" FROM stock \"S\"", "ERROR 0A000 P=8"),
        ("SELECT count(s) FROM stock s", "ERROR 0A000 P=14"),
        ("SELECT id FROM stock s ORDER BY s", "ERROR 0A000 P=33"),
        ("SELECT id FROM stock s ORDER BY stock", "ERROR 42703 P=33"),
        ("SELECT id FROM stock ORDER BY name", "ERROR 0A000 P=31"),
        ("SELECT id FROM stock ORDER BY 2", "ERROR 42P10 P=31"),
        ("SELECT id FROM stock LIMIT -1", "ERROR 2201W"),
        ("SELECT id, count(*) FROM stock", "ERROR 42803 P=8"),
        ("SELECT s.id FROM stock", "ERROR 42P01 P=8"),
        ("SELECT id FROM stock WHERE pieces > 1", "ERROR 0A000 P=28"),
        ("SELECT id FROM stock a, stock b", "ERROR 0A000 P=1"),
        (
            "SELECT count(*) FROM (SELECT x FROM stock) y",
            "ERROR 42703 P=30",
        ),
        ("SELECT id FROM (SELECT id FROM stock) y", "ERROR 0A000 P=1"),
        ("SELECT id FROM \"Stock\"", "ERROR 42P01 P=16 t=Stock"),
    ] {
        assert_eq!(client.ask(text, &[]), [error, "ready I"], "{}", text);
    }
}

#[test]
fn an_array_of_keys_may_be_a_parameter() {
    let mut client = Client::connected();
    client.learn(STOCK);
    client.send(&parse("a", "SELECT id FROM stock WHERE id = ANY($1)", &[]));
    client.send(&[describe('S', "a"), sync()].concat());
    client.serve(&[]);
    assert_eq!(
        client.output(),
        ["parsed", "parameters 1016", "columns 1", "ready I"]
    );
    let none = "ID | PIECES | PRICE | NAME\nOK rows 0\n";
    client.send(&bind("", "a", &[Some(b"{2,1}")], 0, 0));
    client.send(&[execute("", 0), sync()].concat());
    client.serve(&[
        ("SELECT * FROM stock WHERE id = 1", none),
        ("SELECT * FROM stock WHERE id = 2", none),
    ]);
    assert_eq!(client.output(), ["bound", "complete SELECT 0", "ready I"]);
    client.send(&bind("", "a", &[Some(b"{}")], 0, 0));
    client.send(&[describe('P', ""), execute("", 0), sync()].concat());
    client.serve(&[]);
    assert_eq!(
        client.output(),
        ["bound", "columns 1", "complete SELECT 0", "ready I"]
    );
}

#[test]
fn rows_of_an_insert_are_written_one_by_one() {
    let mut client = Client::connected();
    client.learn(STOCK);
    let line = |id: u8| {
        format!(
            "INSERT INTO stock (id, pieces, price, name) VALUES ({}, 2, 0.5, 'x')",
            id
        )
    };
    let lines: Vec<String> = (1..=3).map(line).collect();
    let text =
        "INSERT INTO stock (id, pieces, price, name) VALUES (1, 2, .5, 'x'), (2, '2', 0.50, 'x'), \
                (3, 2, '.5', 'x') RETURNING id, price AS p, 1";
    let script: Vec<(&str, &str)> = lines
        .iter()
        .map(|line| (&line[..], "OK inserted\n"))
        .collect();
    assert_eq!(
        client.ask(text, &script),
        [
            "columns 3",
            "row 1|0.50|1",
            "row 2|0.50|1",
            "row 3|0.50|1",
            "complete INSERT 0 3",
            "ready I"
        ]
    );
    let script = [script[0], (&lines[1], "ERR 30 row exists\n")];
    client.send(&query(text));
    client.serve(&script);
    let output = client.connection.output().to_vec();
    let output = String::from_utf8_lossy(&output);
    assert!(
        output.contains("The row before it was inserted, and stays."),
        "{}",
        output
    );
    assert_eq!(
        client.output(),
        ["ERROR 23505 t=stock n=stock_pkey", "ready I"]
    );
}

#[test]
fn what_returning_names_is_looked_for_before_a_row_is_judged() {
    let mut client = Client::connected();
    client.learn(STOCK);
    for (values, returning, expected) in [
        ("(id) VALUES (1)", "colour", "42703"),
        ("(id, name) VALUES (1, NULL)", "colour", "42703"),
        ("(id) VALUES ('x')", "colour", "22P02"),
        ("(id) VALUES (1, 2)", "colour", "42601"),
        ("(id) VALUES (1)", "pieces", "23502"),
        ("VALUES (1, 2, 3, NULL)", "name", "23502"),
        ("VALUES (1, 2, 3)", "id", "23502"),
    ] {
        let text = format!("INSERT INTO stock {} RETURNING {}", values, returning);
        let told = client.ask(&text, &[]);
        let expected = format!("ERROR {}", expected);
        assert!(told[0].starts_with(&expected), "{}: {:?}", text, told);
        assert_eq!(told[1..], ["ready I"]);
    }
}

#[test]
fn a_long_query_is_read_in_turns_before_any_of_it_runs() {
    let show = "SHOW server_version;";
    for (end, is_run) in [("", true), ("COMMT", false), ("SELECT 'x", false)] {
        let mut client = Client::connected();
        let text = show.repeat(5_000) + end;
        client.connection.go_on(client.now);
        client.connection.receive(&query(&text), client.now);
        let mut turns = 1;
        while client.connection.has_turn() && client.connection.output().is_empty() {
            client.connection.go_on(client.now);
            turns += 1;
        }
        assert!((20..100).contains(&turns), "{} turns", turns);
        client.go_on();
        let told = client.output();
        if is_run {
            assert_eq!(told.len(), 3 * 5_000 + 1);
            assert_eq!(told[14_999..], ["complete SHOW", "ready I"]);
        } else {
            let place = show.len() * 5_000 + if end == "COMMT" { 1 } else { 8 };
            assert_eq!(told, [&format!("ERROR 42601 P={}", place), "ready I"]);
        }
        // The next one is served as ever.
        assert_eq!(client.ask("", &[]), ["empty", "ready I"]);
    }
}

#[test]
fn a_turn_serves_so_many_messages_however_often_the_client_is_written_to() {
    let mut client = Client::connected();
    client.connection.go_on(client.now);
    client
        .connection
        .receive(&query("").repeat(10 * STEPS), client.now);
    let mut told = Vec::new();
    for _ in 0..4 {
        let written = client.connection.output().to_vec();
        client.connection.sent(written.len(), client.now);
        told.extend(written);
    }
    assert_eq!(decoded(&told).len(), 2 * STEPS);
    assert!(client.connection.has_turn());
    // Long messages count more.
    client.go_on();
    assert_eq!(client.output().len(), 20 * STEPS - 2 * STEPS);
    let long = query(&format!("SHOW server_version -- {}", "x".repeat(2_000)));
    client.connection.go_on(client.now);
    client.connection.receive(&long.repeat(STEPS), client.now);
    let written = client.connection.output().to_vec();
    let served = decoded(&written).len() / 4;
    assert!((1..4).contains(&served), "{} were served", served);
}

#[test]
fn a_text_that_comes_again_is_served_as_before() {
    let mut client = Client::connected();
    client.learn(STOCK);
    let several = "SELECT * FROM stock WHERE id IN ($1, $2)";
    for _ in 0..4 {
        let script = [(TAKE, RESERVED), ("COMMIT", COMMITTED)];
        assert_eq!(client.ask(TAKE, &script), ["complete UPDATE 1", "ready I"]);
        assert_eq!(
            client.ask("UPDATE stock SET pieces = pieces - 1", &[]),
            ["ERROR 0A000 P=1", "ready I"]
        );
        // What members are compared as follows from the types of each Parse by itself.
        for (types, expected) in [
            ([1_700, 0], "parameters 1700 1700"),
            ([23, 0], "parameters 23 20"),
        ] {
            client.send(&[parse("", several, &types), describe('S', ""), sync()].concat());
            assert_eq!(client.output()[..2], ["parsed", expected]);
        }
        assert_eq!(
            client.ask("SHOW server_version $1", &[])[0],
            "ERROR 42601 P=21"
        );
        assert_eq!(client.ask("SELECT $1", &[])[0], "ERROR 42P02 P=8");
    }
    let known = &client.connection.settings.statements;
    assert!([TAKE, several, "SELECT $1"]
        .iter()
        .all(|text| known.find(text).is_ok()));
}

#[test]
fn returning_shows_what_the_statement_itself_tells() {
    let mut client = Client::connected();
    client.learn(STOCK);
    let update = "UPDATE stock SET price = 2 WHERE id = 1";
    assert_eq!(
        client.ask(
            &format!("{} RETURNING id, price", update),
            &[(update, "OK updated\n")]
        ),
        ["columns 2", "row 1|2.00", "complete UPDATE 1", "ready I"]
    );
    let delete = "DELETE FROM stock WHERE id = 9";
    assert_eq!(
        client.ask(
            &format!("{} RETURNING id", delete),
            &[(delete, "ERR 31 no such row\n")]
        ),
        ["columns 1", "complete DELETE 0", "ready I"]
    );
    // The position is that of the column that isn't known, and of * where that has it.
    for (returning, place) in [("pieces", 61), ("id, pieces", 65), ("id, *, pieces", 65)] {
        assert_eq!(
            client.ask(&format!("{} RETURNING {}", TAKE, returning), &[]),
            [&format!("ERROR 0A000 P={}", place), "ready I"]
        );
    }
}

#[test]
fn cursors_are_read_in_steps() {
    let mut client = Client::connected();
    client.learn(STOCK);
    let declare = "DECLARE c NO SCROLL CURSOR FOR SELECT id FROM stock";
    assert_eq!(client.ask(declare, &[]), ["ERROR 25P01", "ready I"]);
    client.ask("BEGIN", &[]);
    let script = [("SELECT * FROM stock", ROWS)];
    assert_eq!(
        client.ask(declare, &script),
        ["complete DECLARE CURSOR", "ready T"]
    );
    assert_eq!(
        client.ask("FETCH 2 FROM c; MOVE c; FETCH ALL IN c", &[]),
        [
            "columns 1",
            "row 1",
            "row 2",
            "complete FETCH 2",
            "complete MOVE 1",
            "columns 1",
            "complete FETCH 0",
            "ready T"
        ]
    );
    client.send(
        &[
            parse("", "DECLARE d CURSOR FOR SELECT 5", &[]),
            bind("", "", &[], 0, 0),
        ]
        .concat(),
    );
    client.send(
        &[
            execute("", 0),
            parse("", "FETCH d", &[]),
            bind("", "", &[], 0, 0),
        ]
        .concat(),
    );
    client.send(&[describe('P', ""), execute("", 0), sync()].concat());
    assert_eq!(
        client.output(),
        [
            "parsed",
            "bound",
            "complete DECLARE CURSOR",
            "parsed",
            "bound",
            "columns 1",
            "row 5",
            "complete FETCH 1",
            "ready T"
        ]
    );
    assert_eq!(
        client.ask("CLOSE d", &[]),
        ["complete CLOSE CURSOR", "ready T"]
    );
    assert_eq!(
        client.ask("FETCH PRIOR FROM c", &[]),
        ["ERROR 55000", "ready E"]
    );
    client.ask("ROLLBACK", &[]);
    assert_eq!(client.ask("FETCH c", &[]), ["ERROR 34000", "ready I"]);
}

#[test]
fn blanks_around_a_level_and_types_of_nothing_are_refused() {
    let mut client = Client::connected();
    let set = "SET client_min_messages = ' warning'";
    assert_eq!(client.ask(set, &[]), ["ERROR 22023", "ready I"]);
    // A parameter that the text doesn't have needs a type.
    for (oid, told) in [(0, "ERROR 42P18"), (23, "parsed")] {
        client.send(&[parse("", "SELECT 1", &[oid]), sync()].concat());
        assert_eq!(client.output(), [told, "ready I"]);
    }
}

#[test]
fn definitions_may_be_conditional() {
    let mut client = Client::connected();
    let create =
        "CREATE TABLE t (id NUMBER(15) PRIMARY KEY, n NUMBER(8,2) RESERVABLE, CHECK (n >= 0))";
    let text = "CREATE TABLE IF NOT EXISTS t (id BIGINT, n DECIMAL(8, 2) RESERVABLE, \
                CONSTRAINT t_pkey PRIMARY KEY (id), CHECK ((n) >= (0)))";
    let create = create
        .replace("id NUMBER(15) PRIMARY KEY, n", "id NUMBER(15), n")
        .replace("CHECK", "PRIMARY KEY (id), CHECK");
    let table = "CREATE TABLE T (ID NUMBER(15) PRIMARY KEY, N NUMBER(8,2) RESERVABLE)\nOK table\n";
    assert_eq!(
        client.ask(
            text,
            &[(&create, "OK created T\n"), ("SHOW TABLE t", table)]
        ),
        ["NOTICE 00000", "complete CREATE TABLE", "ready I"]
    );
    assert_eq!(
        client.ask(
            text,
            &[(&create, "ERR 20 table exists\n"), ("SHOW TABLE t", table)]
        ),
        ["NOTICE 42P07", "complete CREATE TABLE", "ready I"]
    );
    // In PostgreSQL a key is a relation too.
    for (table, key) in [("u", "t"), ("u", "u"), ("t", "t")] {
        let text =
            format!("CREATE TABLE {table} (id BIGINT CONSTRAINT {key} PRIMARY KEY, n BIGINT)");
        assert_eq!(client.ask(&text, &[]), ["ERROR 42P07", "ready I"], "{text}");
    }
    assert_eq!(
        client.ask("DROP TABLE IF EXISTS other.x", &[]),
        ["NOTICE 00000", "complete DROP TABLE", "ready I"]
    );
    assert_eq!(
        client.ask(
            "DROP TABLE IF EXISTS x",
            &[("DROP TABLE x", "ERR 21 no such table\n")]
        ),
        ["NOTICE 00000", "complete DROP TABLE", "ready I"]
    );
}

#[test]
fn shows_are_results() {
    let mut client = Client::connected();
    let bounds = "PIECES value 5 inf 4 sup 5\nCHECK IN_STOCK least 4 greatest 5 low 0 high none\nOK bounds\n";
    assert_eq!(
        client.ask(
            "SHOW BOUNDS stock WHERE id = 1",
            &[("SHOW BOUNDS stock WHERE id = 1", bounds)]
        ),
        [
            "columns 7",
            "row pieces|column|5|4|5|NULL|NULL",
            "row in_stock|check|NULL|4|5|0|NULL",
            "complete SHOW",
            "ready I"
        ]
    );
    let script = [("SHOW BOUNDS stock WHERE id = 9", "ERR 31 no such row\n")];
    assert_eq!(
        client.ask("SHOW BOUNDS stock WHERE id = 9", &script),
        ["columns 7", "complete SHOW", "ready I"]
    );
    assert_eq!(
        client.ask("SHOW TRANSACTION ISOLATION LEVEL", &[]),
        [
            "columns 1",
            "row read committed",
            "complete SHOW",
            "ready I"
        ]
    );
}

#[test]
fn settings_of_a_block_are_rolled_back_with_it() {
    let mut client = Client::connected();
    client.ask("BEGIN", &[]);
    assert_eq!(
        client.ask("SET application_name = 'x'", &[]),
        ["status application_name=x", "complete SET", "ready T"]
    );
    assert_eq!(
        client.ask("ROLLBACK", &[]),
        ["status application_name=", "complete ROLLBACK", "ready I"]
    );
    client.ask("BEGIN", &[]);
    client.ask("SET LOCAL statement_timeout = '5s'", &[]);
    assert_eq!(client.ask("SHOW statement_timeout", &[])[1], "row 5s");
    client.ask("COMMIT", &[]);
    assert_eq!(client.ask("SHOW statement_timeout", &[])[1], "row 0");
}

#[test]
fn a_transaction_that_only_reads_writes_nothing() {
    let mut client = Client::connected();
    client.ask("BEGIN READ ONLY", &[]);
    assert_eq!(client.ask(TAKE, &[]), ["ERROR 25006", "ready E"]);
    client.ask("ROLLBACK", &[]);
    client.ask("SET SESSION CHARACTERISTICS AS TRANSACTION READ ONLY", &[]);
    assert_eq!(client.ask(TAKE, &[]), ["ERROR 25006", "ready I"]);
    assert_eq!(
        client.ask("BEGIN ISOLATION LEVEL SERIALIZABLE", &[]),
        ["ERROR 0A000", "ready I"]
    );
}

#[test]
fn a_parameter_of_an_open_type_is_one_of_its_column() {
    let mut client = Client::connected();
    let text = "UPDATE stock SET pieces = pieces - $1 WHERE id = $2";
    client.send(&parse("a", text, &[]));
    client.send(&bind("", "a", &[Some(b"-2"), Some(b"1")], 0, 0));
    client.send(&execute("", 0));
    client.send(&sync());
    let line = "UPDATE stock SET pieces = pieces + 2 WHERE id = 1";
    client.serve(&[
        ("SHOW TABLE stock", STOCK),
        (line, RESERVED),
        ("COMMIT", COMMITTED),
    ]);
    assert_eq!(
        client.output(),
        ["parsed", "bound", "complete UPDATE 1", "ready I"]
    );
    // The definition is known now.
    client.send(&bind("", "a", &[Some(b"-2"), Some(b"1")], 0, 0));
    client.send(&[execute("", 0), sync()].concat());
    client.serve(&[(line, RESERVED), ("COMMIT", COMMITTED)]);
    assert_eq!(client.output(), ["bound", "complete UPDATE 1", "ready I"]);
    client.ask("DROP TABLE x", &[("DROP TABLE x", "OK dropped X\n")]);
    client.send(&[bind("", "a", &[Some(b"x"), Some(b"1")], 0, 0), sync()].concat());
    assert_eq!(client.output(), ["ERROR 22P02", "ready I"]);
}

#[test]
fn a_pipeline_is_one_transaction() {
    let mut client = Client::connected();
    let step = [
        parse("", TAKE, &[]),
        bind("", "", &[], 0, 0),
        execute("", 0),
    ]
    .concat();
    client.send(&[step.clone(), step.clone(), sync()].concat());
    client.serve(&[(TAKE, RESERVED), (TAKE, RESERVED), ("COMMIT", COMMITTED)]);
    let one = ["parsed", "bound", "complete UPDATE 1"];
    assert_eq!(client.output(), [&one[..], &one[..], &["ready I"]].concat());
    client.send(&[step.clone(), step.clone(), step, sync()].concat());
    client.serve(&[(TAKE, RESERVED), (TAKE, BROKEN), ("ROLLBACK", ROLLED_BACK)]);
    let failed = [
        "parsed",
        "bound",
        "ERROR 23514 t=stock n=in_stock",
        "ready I",
    ];
    assert_eq!(client.output(), [&one[..], &failed[..]].concat());
    client.learn(STOCK);
    let insert = "INSERT INTO stock VALUES (1, 2, 3, 'x')";
    let step = [
        parse("", insert, &[]),
        bind("", "", &[], 0, 0),
        execute("", 0),
    ]
    .concat();
    client.send(&[step.clone(), step, sync()].concat());
    client.serve(&[(insert, "OK inserted\n"), (insert, "ERR 30 row exists\n")]);
    assert_eq!(client.output()[2], "complete INSERT 0 1");
}

#[test]
fn rows_come_in_steps() {
    let mut client = Client::connected();
    client.ask("BEGIN", &[]);
    client.send(&parse("", "SELECT * FROM stock", &[]));
    client.send(
        &[
            bind("p", "", &[], 0, 0),
            describe('P', "p"),
            execute("p", 2),
        ]
        .concat(),
    );
    client.send(&[execute("p", 1), execute("p", 0), sync()].concat());
    client.serve(&[("SHOW TABLE stock", STOCK), ("SELECT * FROM stock", ROWS)]);
    assert_eq!(
        client.output(),
        [
            "parsed",
            "bound",
            "columns 4",
            "row 1|5|9.50|tea",
            "row 2|7|-0.05|it's",
            "suspended",
            "row 3|0|0.00|x | y",
            "suspended",
            "complete SELECT 0",
            "ready T"
        ]
    );
    client.ask("COMMIT", &[]);
    client.send(&[execute("p", 0), execute("p", 0), sync()].concat());
    assert_eq!(client.output(), ["ERROR 34000", "ready I"]);
}

#[test]
fn a_description_tells_types_before_anything_runs() {
    let mut client = Client::connected();
    client.send(&parse(
        "a",
        "INSERT INTO stock VALUES ($1, $2, $3, $4)",
        &[0, 23],
    ));
    client.send(&[describe('S', "a"), sync()].concat());
    client.serve(&[("SHOW TABLE stock", STOCK)]);
    assert_eq!(
        client.output(),
        ["parsed", "parameters 20 23 1700 1043", "no data", "ready I"]
    );
    client.send(&parse("b", "SELECT * FROM stock WHERE id = $1", &[]));
    client.send(&[describe('S', "b"), sync()].concat());
    assert_eq!(
        client.output(),
        ["parsed", "parameters 20", "columns 4", "ready I"]
    );
    // Another connection has changed the table since.
    let changed = STOCK.replace("NUMBER(8,2)", "NUMBER(8)");
    client.learn(&changed);
    let rows = "ID | PIECES | PRICE | NAME\n1 | 5 | 9 | 'tea'\nOK rows 1\n";
    client.send(&bind("", "b", &[Some(&1_i64.to_be_bytes())], 1, 1));
    client.send(&[execute("", 0), sync()].concat());
    client.serve(&[("SELECT * FROM stock WHERE id = 1", rows)]);
    assert_eq!(client.output(), ["bound", "ERROR 0A000", "ready I"]);
}

#[test]
fn messages_behind_an_error_are_skipped_to_sync() {
    let mut client = Client::connected();
    let step = [
        parse("", "SELEC", &[]),
        bind("", "", &[], 0, 0),
        execute("", 0),
    ]
    .concat();
    client.send(&[step, query(TAKE), sync(), query("SELECT 1")].concat());
    client.serve(&[]);
    assert_eq!(
        client.output(),
        [
            "ERROR 42601 P=1",
            "ready I",
            "columns 1",
            "row 1",
            "complete SELECT 1",
            "ready I"
        ]
    );
}

#[test]
fn faults_of_the_protocol_end_the_connection() {
    for bytes in [
        &[b'Q', 0, 0, 0, 3][..],
        &[b'Q', 0, 0x10, 0, 1],
        &[b'?', 0, 0, 0, 4],
    ] {
        let mut client = Client::connected();
        client.send(bytes);
        assert_eq!(client.output(), ["FATAL 08P01"], "{:?}", bytes);
        assert!(client.connection.is_closing());
    }
    let mut client = Client::connected();
    client.send(&message(b'X', b""));
    assert!(client.connection.is_closing());
    assert_eq!(client.output(), Vec::<String>::new());
}

#[test]
fn a_message_that_is_laid_out_wrongly_is_refused() {
    let mut client = Client::connected();
    client.send(b"Q\0\0\0\x05x");
    assert_eq!(client.output(), ["ERROR 08P01", "ready I"]);
    client.send(&[message(b'B', b"\0\0"), query(TAKE), sync()].concat());
    assert_eq!(client.output(), ["ERROR 08P01", "ready I"]);
    assert_eq!(client.ask("BEGIN", &[]), ["complete BEGIN", "ready T"]);
    client.send(b"Q\0\0\0\x05x");
    assert_eq!(client.output(), ["ERROR 08P01", "ready E"]);
}

#[test]
fn a_sync_that_is_laid_out_wrongly_commits_nothing() {
    let wrong = message(b'S', b"x");
    let run = [
        parse("", TAKE, &[]),
        bind("", "", &[], 0, 0),
        execute("", 0),
    ]
    .concat();
    let mut client = Client::connected();
    client.send(&[run, wrong.clone()].concat());
    client.serve(&[(TAKE, RESERVED), ("ROLLBACK", ROLLED_BACK)]);
    let told = [
        "parsed",
        "bound",
        "complete UPDATE 1",
        "ERROR 08P01",
        "ready I",
    ];
    assert_eq!(client.output(), told);
    // It ends the skipping behind an error, too.
    client.send(&[message(b'B', b"\0\0"), wrong].concat());
    assert_eq!(client.output(), ["ERROR 08P01", "ERROR 08P01", "ready I"]);
}

#[test]
fn a_text_that_is_no_utf_8_is_refused() {
    let mut client = Client::connected();
    client.send(&message(b'Q', b"SELECT '\xff'\0"));
    assert_eq!(client.output(), ["ERROR 22021", "ready I"]);
}

#[test]
fn a_transaction_that_is_idle_too_long_ends() {
    let mut client = Client::connected();
    client.ask("SET idle_in_transaction_session_timeout = '2s'", &[]);
    assert_eq!(client.connection.deadline(), None);
    client.ask("BEGIN", &[]);
    client.pass(Duration::from_millis(1_500));
    // Half a message is no statement.
    client.send(b"Q");
    assert_eq!(
        client.connection.deadline(),
        Some(client.now + Duration::from_millis(500))
    );
    client.pass(Duration::from_millis(500));
    assert_eq!(client.output(), ["FATAL 25P03"]);
    assert!(client.connection.is_closing());
}

#[test]
fn a_pipeline_without_an_end_is_idle_too() {
    let mut settings = (*settings()).clone();
    settings.limits.idle_in_transaction = Some(Duration::from_secs(1));
    let mut client = Client::connected_with(Rc::new(settings));
    client.send(
        &[
            parse("", TAKE, &[]),
            bind("", "", &[], 0, 0),
            execute("", 0),
        ]
        .concat(),
    );
    client.serve(&[(TAKE, RESERVED)]);
    assert!(client.connection.transaction_since().is_some());
    client.output();
    client.pass(Duration::from_secs(1));
    assert_eq!(client.output(), ["FATAL 25P03"]);
}

#[test]
fn a_transaction_that_lasts_too_long_ends() {
    let mut settings = (*settings()).clone();
    settings.limits.transaction = Some(Duration::from_secs(60));
    let mut client = Client::connected_with(Rc::new(settings));
    client.pass(Duration::from_secs(100));
    client.ask("BEGIN", &[]);
    let end = client.now + Duration::from_secs(60);
    // It counts from the begin, whatever the client does.
    client.pass(Duration::from_secs(50));
    client.ask(TAKE, &[(TAKE, RESERVED)]);
    assert_eq!(client.connection.deadline(), Some(end));
    client.pass(Duration::from_secs(9));
    assert_eq!(client.output(), Vec::<String>::new());
    // What runs is answered first, and what came behind it is not begun.
    client.send(&[query(TAKE), query(TAKE)].concat());
    client.take();
    client.pass(Duration::from_secs(1));
    assert_eq!(client.lines(), [TAKE]);
    client.serve_replies(&[RESERVED]);
    assert_eq!(client.output(), ["complete UPDATE 1", "FATAL 25P04"]);
    assert!(client.connection.is_closing());
}

#[test]
fn the_age_of_a_transaction_can_be_limited_by_its_client() {
    let mut client = Client::connected();
    client.ask("SET transaction_timeout = '2s'", &[]);
    client.ask("BEGIN", &[]);
    client.ask("SET LOCAL transaction_timeout = 0", &[]);
    assert_eq!(client.connection.deadline(), None);
    client.ask("ROLLBACK", &[]);
    client.ask("BEGIN", &[]);
    client.pass(Duration::from_secs(2));
    assert_eq!(client.output(), ["FATAL 25P04"]);
}

#[test]
fn a_client_that_never_reads_its_last_words_is_given_up() {
    let mut client = Client::connected();
    client.send(b"?\0\0\0\x04");
    assert!(!client.connection.output().is_empty());
    client.pass(LINGER);
    assert!(client.connection.output().is_empty() && client.connection.is_closing());
}

#[test]
fn a_shutdown_answers_what_runs_first() {
    let mut client = Client::connected();
    client.connection.end(Ending::Shutdown, client.now);
    assert_eq!(client.output(), ["FATAL 57P01"]);
    let mut client = Client::connected();
    client.send(&query(TAKE));
    client.connection.end(Ending::Shutdown, client.now);
    assert_eq!(client.output(), Vec::<String>::new());
    client.serve(&[(TAKE, RESERVED), ("COMMIT", COMMITTED)]);
    assert_eq!(
        client.output(),
        ["complete UPDATE 1", "ready I", "FATAL 57P01"]
    );
    assert!(client.connection.is_closing());
    let mut client = Client::connected();
    client.send(&query(TAKE));
    client
        .connection
        .end(Ending::ProgramEnded("status 1".to_owned()), client.now);
    assert_eq!(client.output(), ["FATAL 57P01"]);
}

#[test]
fn what_was_sent_before_the_end_is_served() {
    let mut client = Client::connected();
    client.send(&[query("BEGIN"), query(TAKE), b"Q\0".to_vec()].concat());
    client.connection.input_ended(client.now);
    assert!(!client.connection.is_closing() && !client.connection.wants_input());
    client.serve(&[(TAKE, RESERVED)]);
    assert!(client.connection.is_closing());
    assert_eq!(
        client.output(),
        ["complete BEGIN", "ready T", "complete UPDATE 1", "ready T"]
    );
    let mut client = Client::new();
    client.connection.input_ended(client.now);
    assert!(client.connection.is_closing());
}

/// A reply with so many rows, whose names are long enough that they take some megabytes.
fn many_rows(count: usize) -> String {
    let name = "x".repeat(20);
    let row = |id| format!("{id} | 5 | 9.50 | '{name}'\n");
    let rows: String = (0..count).map(row).collect();
    format!("ID | PIECES | PRICE | NAME\n{rows}OK rows {count}\n")
}

#[test]
fn a_client_that_does_not_read_is_not_served_on() {
    let mut client = Client::connected();
    client.learn(STOCK);
    let text = "SELECT * FROM stock";
    client.send(&[query(text), query(text)].concat());
    client.serve(&[(text, &many_rows(20_000))]);
    // The rest waits in a file.
    assert!(client.connection.output.len() < MOST_OUTPUT + 100);
    assert!(client.connection.settings.memory.taken() < 300_000);
    assert!(client.connection.settings.disk.taken() > 800_000);
    assert!(!client.connection.wants_input());
    let told = client.output();
    assert_eq!(told.len(), 20_003);
    assert_eq!(told[20_000], format!("row 19999|5|9.50|{}", "x".repeat(20)));
    assert_eq!(told[20_001..], ["complete SELECT 20000", "ready I"]);
    assert_eq!(client.connection.settings.disk.taken(), 0);
    client.serve(&[(text, ROWS)]);
    client.output();
    assert!(client.connection.wants_input());
}

#[test]
fn rows_of_portals_wait_in_one_file() {
    let mut client = Client::connected();
    client.learn(STOCK);
    let text = "SELECT * FROM stock";
    client.send(&[query("BEGIN"), parse("a", text, &[])].concat());
    client.output();
    let rows = many_rows(3_000);
    for portal in ["p", "q", "r"] {
        client.send(&[bind(portal, "a", &[], 0, 0), execute(portal, 1)].concat());
        client.serve(&[(text, &rows)]);
        assert_eq!(client.output()[2], "suspended");
    }
    assert!(client.connection.settings.memory.taken() < 200_000);
    for portal in ["r", "p", "q"] {
        client.send(&execute(portal, 0));
        let told = client.output();
        assert_eq!(told[2_999], "complete SELECT 2999");
        assert!(told[2_998].starts_with("row 2999|"), "{}", told[2_998]);
    }
    client.send(&[execute("p", 0), sync()].concat());
    assert_eq!(client.output(), ["complete SELECT 0", "ready T"]);
    client.ask("COMMIT", &[]);
    assert_eq!(client.connection.settings.disk.taken(), 0);
}

#[test]
fn too_many_waiting_rows_fail_behind_those_that_were_given() {
    let settings = Settings {
        disk: Pool::new(100_000),
        ..(*settings()).clone()
    };
    let mut client = Client::connected_with(Rc::new(settings));
    client.learn(STOCK);
    let text = "SELECT * FROM stock";
    client.send(&query(text));
    client.serve(&[(text, &many_rows(20_000))]);
    let told = client.output();
    assert_eq!(told[told.len() - 2..], ["ERROR 53400", "ready I"]);
    assert!(told[told.len() - 3].starts_with("row "));
    // Nothing is left of it.
    assert_eq!(client.connection.settings.disk.taken(), 0);
    let told = client.ask(text, &[(text, ROWS)]);
    assert_eq!(told[4..], ["complete SELECT 3", "ready I"]);
}

#[test]
fn a_select_of_a_table_that_was_defined_anew_is_asked_again() {
    let mut client = Client::connected();
    client.learn(STOCK);
    let text = "SELECT * FROM stock";
    client.send(&query(text));
    client.take();
    // Another connection has dropped it, and made it with other columns.
    let anew = "CREATE TABLE STOCK (K VARCHAR2(5) PRIMARY KEY, N NUMBER(5) RESERVABLE)\nOK table\n";
    client.learn(anew);
    let rows = "K | N\n'a' | 3\nOK rows 1\n";
    client.serve(&[(text, rows), (text, rows)]);
    let told = ["columns 2", "row a|3", "complete SELECT 1", "ready I"];
    assert_eq!(client.output(), told);
    // It is dropped, and nobody has made it again.
    client.send(&query(text));
    client.take();
    client
        .connection
        .definitions()
        .note(Question::Order, b"OK dropped STOCK");
    let missing = "ERR 21 no such table\n";
    client.serve(&[(text, missing), ("SHOW TABLE stock", missing)]);
    assert_eq!(client.output(), ["ERROR 42P01 P=15 t=stock", "ready I"]);
}

#[test]
fn a_name_in_quotes_is_of_its_case() {
    let mut client = Client::connected();
    client.learn(STOCK);
    let told = client.ask("SELECT * FROM \"STOCK\"", &[]);
    assert_eq!(told, ["ERROR 42P01 P=15 t=STOCK", "ready I"]);
}

#[test]
fn a_definition_is_asked_for_behind_the_statement_that_makes_it() {
    let mut client = Client::connected();
    let text = "CREATE TABLE stock (id INTEGER PRIMARY KEY, pieces INTEGER RESERVABLE)";
    let script = [(text, "OK created STOCK\n"), ("SHOW TABLE stock", STOCK)];
    let told = ["complete CREATE TABLE", "ready I"];
    assert_eq!(client.ask(text, &script), told);
    let text = "SELECT * FROM stock";
    assert_eq!(client.ask(text, &[(text, ROWS)])[0], "columns 4");
    let text = "ALTER TABLE stock DROP CONSTRAINT x";
    let refused = [
        (text, "ERR 27 no such constraint\n"),
        ("SHOW TABLE stock", STOCK),
    ];
    assert_eq!(
        client.ask(text, &refused),
        ["ERROR 42704 t=stock n=x", "ready I"]
    );
    client.ask(
        "DROP TABLE stock",
        &[("DROP TABLE stock", "OK dropped STOCK\n")],
    );
    assert!(client.connection.definitions().all().is_empty());
}

#[test]
fn nothing_is_asked_behind_a_rollback_that_is_refused() {
    for (begin, line) in [
        ("BEGIN", "ROLLBACK"),
        ("BEGIN; SAVEPOINT a", "ROLLBACK TO P0"),
    ] {
        let mut client = Client::connected();
        let savepoint = [("SAVEPOINT P0", "OK savepoint P0\n")];
        client.ask(begin, if line == "ROLLBACK" { &[] } else { &savepoint });
        client.ask(TAKE, &[(TAKE, RESERVED)]);
        client.send(&[query("SELEC"), query("COMMIT")].concat());
        client.serve(&[(line, "ERR 51 memory\n")]);
        assert_eq!(
            client.output(),
            ["ERROR 42601 P=1", "ready E", "FATAL 53200"]
        );
        assert!(client.connection.is_closing());
    }
}

#[test]
fn input_waits_while_a_statement_runs() {
    let mut client = Client::connected();
    client.send(&query(TAKE));
    client.send(&vec![0; MOST_INPUT]);
    assert!(!client.connection.wants_input());
}

impl Client {
    /// Gives these replies.
    fn serve_replies(&mut self, replies: &[&str]) {
        for reply in replies {
            self.answer(reply);
        }
    }
}

/// Answers a line as a program with one table would, whatever was asked before.
fn plausible_reply(line: &str) -> &'static str {
    match line.split(' ').next() {
        Some("UPDATE") if line.contains("pieces = pieces") => RESERVED,
        Some("UPDATE") => "OK updated\n",
        Some("COMMIT") => COMMITTED,
        Some("ROLLBACK") => ROLLED_BACK,
        Some("SAVEPOINT") => "OK savepoint P\n",
        Some("INSERT") => "OK inserted\n",
        Some("DELETE") => "ERR 31 no such row\n",
        Some("SHOW") if line.starts_with("SHOW TABLE stock") => STOCK,
        Some("SHOW") => "ERR 21 no such table\n",
        Some("SELECT") if line.contains("stock") => ROWS,
        Some("SELECT") => "ERR 21 no such table\n",
        _ => "ERR 11 syntax column 3\n",
    }
}

/// Feeds pieces of a client's bytes, answers all lines, and returns the lines and the output.
fn played(pieces: &[&[u8]]) -> (Vec<String>, Vec<u8>) {
    let mut client = Client::connected();
    let (mut lines, mut output) = (Vec::new(), Vec::new());
    for piece in pieces {
        client.send(piece);
        loop {
            client.take();
            let reply = match client.asked.front() {
                Some((line, _)) => plausible_reply(line),
                None => break,
            };
            lines.extend(client.answer(reply));
        }
        assert!(client.connection.output.len() <= 2 * MOST_OUTPUT);
        output.extend(client.bytes());
    }
    (lines, output)
}

/// Messages of every kind, of which many belong together.
fn any_message() -> impl Strategy<Value = Vec<u8>> {
    let texts = prop::sample::select(vec![
        TAKE,
        "BEGIN",
        "COMMIT",
        "ROLLBACK",
        "SAVEPOINT a",
        "RELEASE a",
        "ROLLBACK TO a",
        "SELECT * FROM stock",
        "SELECT * FROM nothing",
        "INSERT INTO stock VALUES (1, 2, 3, 'x')",
        "DELETE FROM stock WHERE id = $1",
        "SHOW statement_timeout",
        "SET LOCAL application_name = 'x'",
        "SELECT 1; SELECT 2",
        "SELEC",
        "",
    ]);
    let names = prop::sample::select(vec!["", "a", "b"]);
    prop_oneof![
        4 => texts.clone().prop_map(query),
        2 => (names.clone(), texts).prop_map(|(name, text)| parse(name, text, &[])),
        2 => (names.clone(), names.clone(), any::<bool>()).prop_map(|(portal, name, with)| {
            let values: &[Option<&[u8]>] = if with { &[Some(b"1")] } else { &[] };
            bind(portal, name, values, 0, 0)
        }),
        2 => (names.clone(), any::<bool>()).prop_map(|(name, portal)| {
            describe(if portal { 'P' } else { 'S' }, name)
        }),
        2 => (names, 0_u32..3).prop_map(|(name, limit)| execute(name, limit)),
        2 => Just(sync()),
        1 => Just(message(b'H', b"")),
    ]
}

proptest! {
    #![proptest_config(ProptestConfig::with_cases(128))]

    #[test]
    fn pieces_are_served_as_the_whole(
        messages in prop::collection::vec(any_message(), 1..20),
        cuts in prop::collection::vec(any::<prop::sample::Index>(), 0..12),
    ) {
        // An end, so that whether a Sync is there already makes no difference.
        let bytes = [messages.concat(), sync()].concat();
        let mut places: Vec<usize> = cuts.iter().map(|cut| cut.index(bytes.len())).collect();
        places.sort_unstable();
        let (mut pieces, mut start) = (Vec::new(), 0);
        for place in places {
            pieces.push(&bytes[start..place]);
            start = place;
        }
        pieces.push(&bytes[start..]);
        let (whole_lines, whole) = played(&[&bytes]);
        let (lines, output) = played(&pieces);
        prop_assert_eq!(lines, whole_lines);
        prop_assert_eq!(decoded(&output), decoded(&whole));
    }

    #[test]
    fn random_bytes_neither_panic_nor_grow(bytes in prop::collection::vec(any::<u8>(), 0..400)) {
        played(&[&bytes]);
        let mut client = Client::new();
        client.send(&bytes);
        prop_assert!(client.connection.output().len() < 4_096);
    }

    #[test]
    fn damaged_messages_do_not_panic(
        messages in prop::collection::vec(any_message(), 1..10),
        place in any::<prop::sample::Index>(),
        byte in any::<u8>(),
    ) {
        let mut bytes = messages.concat();
        let place = place.index(bytes.len());
        bytes[place] = byte;
        played(&[&bytes]);
    }

    #[test]
    fn any_reply_is_taken(reply in "[A-Z0-9a-z |'\n-]{0,60}") {
        let mut client = Client::connected();
        client.send(&query("SELECT * FROM stock"));
        client.take();
        for line in reply.split('\n').chain(["OK rows 1"]) {
            let is_last = Question::Rows.is_last_line(line.as_bytes());
            client.connection.replied(line.as_bytes(), is_last, client.now);
        }
    }
}
