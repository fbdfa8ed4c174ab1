//! The gateway and the program behind it, as tokio-postgres meets them.
//!
//! The environment variable ESCROWD names the program. Without it the tests are skipped, and say so.

mod gateway;

use std::ffi::{OsStr, OsString};

use gateway::{has_program, kill, run, write_program, Folder, Gateway};
use tokio_postgres::error::SqlState;
use tokio_postgres::types::Type;
use tokio_postgres::{Client, Error, SimpleQueryMessage};

const CREATE: &str = "CREATE TABLE stock (id INTEGER PRIMARY KEY, \
    pieces INTEGER RESERVABLE CONSTRAINT in_stock CHECK (pieces >= 0), name VARCHAR2(20))";

/// Makes the table with one row of 100 pieces.
async fn make_stock(client: &Client) {
    client.batch_execute(CREATE).await.expect("CREATE TABLE");
    client
        .batch_execute("INSERT INTO stock VALUES (1, 100, 'Bob''s')")
        .await
        .expect("INSERT");
}

/// Starts the gateway over a database that has the table, and connects to it.
async fn stocked() -> (Gateway, Client) {
    let gateway = Gateway::start(&[OsStr::new("shop")]);
    let client = gateway.connect("shop").await.expect("a connection");
    make_stock(&client).await;
    (gateway, client)
}

/// Returns the pieces of the row.
async fn pieces(client: &Client) -> i64 {
    let row = client
        .query_one("SELECT * FROM stock WHERE id = 1", &[])
        .await
        .expect("SELECT");
    row.get("pieces")
}

/// Returns the SQLSTATE of a refusal.
fn code(error: &Error) -> &SqlState {
    error
        .code()
        .unwrap_or_else(|| panic!("no refusal: {error}"))
}

#[tokio::test]
async fn simple_queries_have_tags_rows_and_refusals() {
    if !has_program("simple queries") {
        return;
    }
    let (_gateway, client) = stocked().await;
    let messages = client
        .simple_query("SELECT * FROM stock")
        .await
        .expect("SELECT");
    let values: Vec<_> = match &messages[..] {
        [SimpleQueryMessage::Row(row), SimpleQueryMessage::CommandComplete(1)] => (0..row.len())
            .map(|place| row.get(place).expect("a value"))
            .collect(),
        _ => panic!("{} messages", messages.len()),
    };
    assert_eq!(values, ["1", "100", "Bob's"]);

    let broken = "UPDATE stock SET pieces = pieces - 101 WHERE id = 1";
    let error = client
        .batch_execute(broken)
        .await
        .expect_err("101 of 100 pieces");
    assert_eq!(code(&error), &SqlState::CHECK_VIOLATION);
    let refusal = error.as_db_error().expect("a refusal");
    assert_eq!(
        refusal.constraint().map(str::to_lowercase).as_deref(),
        Some("in_stock")
    );

    let error = client
        .batch_execute("SELECT * FROM nowhere")
        .await
        .expect_err("no table");
    assert_eq!(code(&error), &SqlState::UNDEFINED_TABLE);
    assert_eq!(pieces(&client).await, 100);
}

#[tokio::test]
async fn prepared_statements_take_and_give_binary_values() {
    if !has_program("prepared statements") {
        return;
    }
    let (_gateway, client) = stocked().await;
    let insert = client
        .prepare_typed(
            "INSERT INTO stock VALUES ($1, $2, $3)",
            &[Type::INT4, Type::INT8, Type::VARCHAR],
        )
        .await
        .expect("an INSERT");
    for (id, name) in [(2, "it's"), (3, "\\ \u{2028}"), (4, "x")] {
        let count = client
            .execute(&insert, &[&id, &50_i64, &name])
            .await
            .expect("a row");
        assert_eq!(count, 1);
    }
    let change = client
        .prepare_typed(
            "UPDATE stock SET pieces = pieces + $1 WHERE id = $2",
            &[Type::INT8, Type::INT8],
        )
        .await
        .expect("an UPDATE");
    assert_eq!(
        client
            .execute(&change, &[&-20_i64, &2_i64])
            .await
            .expect("less"),
        1
    );
    assert_eq!(
        client
            .execute(&change, &[&7_i64, &3_i64])
            .await
            .expect("more"),
        1
    );
    assert_eq!(
        client
            .execute(&change, &[&7_i64, &99_i64])
            .await
            .expect("no row"),
        0
    );
    let error = client
        .execute(&change, &[&-51_i64, &4_i64])
        .await
        .expect_err("51 of 50");
    assert_eq!(code(&error), &SqlState::CHECK_VIOLATION);
    let error = client
        .execute(&insert, &[&2, &1_i64, &"twice"])
        .await
        .expect_err("a key twice");
    assert_eq!(code(&error), &SqlState::UNIQUE_VIOLATION);

    let rows = client
        .query("SELECT * FROM stock", &[])
        .await
        .expect("SELECT");
    let rows: Vec<(i64, i64, String)> = rows
        .iter()
        .map(|row| (row.get(0), row.get(1), row.get(2)))
        .collect();
    let expected = [
        (1, 100, "Bob's"),
        (2, 30, "it's"),
        (3, 57, "\\ \u{2028}"),
        (4, 50, "x"),
    ];
    let expected: Vec<_> = expected
        .iter()
        .map(|&(id, pieces, name)| (id, pieces, name.to_owned()))
        .collect();
    assert_eq!(rows, expected);
}

#[tokio::test]
async fn transactions_end_as_they_are_told() {
    if !has_program("transactions") {
        return;
    }
    let gateway = Gateway::start(&[OsStr::new("shop")]);
    let mut client = gateway.connect("shop").await.expect("a connection");
    let other = gateway.connect("shop").await.expect("another connection");
    make_stock(&client).await;
    let take = "UPDATE stock SET pieces = pieces - 10 WHERE id = 1";

    let transaction = client.transaction().await.expect("BEGIN");
    transaction.batch_execute(take).await.expect("an UPDATE");
    assert_eq!(pieces(&other).await, 100);
    transaction.commit().await.expect("COMMIT");
    assert_eq!(pieces(&other).await, 90);

    let transaction = client.transaction().await.expect("BEGIN");
    transaction.batch_execute(take).await.expect("an UPDATE");
    drop(transaction);
    assert_eq!(pieces(&client).await, 90);

    let mut transaction = client.transaction().await.expect("BEGIN");
    transaction.batch_execute(take).await.expect("an UPDATE");
    let nested = transaction.transaction().await.expect("SAVEPOINT");
    nested.batch_execute(take).await.expect("an UPDATE");
    nested.rollback().await.expect("ROLLBACK TO");
    let nested = transaction.transaction().await.expect("SAVEPOINT");
    nested.batch_execute(take).await.expect("an UPDATE");
    nested.commit().await.expect("RELEASE");
    transaction.commit().await.expect("COMMIT");
    assert_eq!(pieces(&client).await, 70);

    let transaction = client.transaction().await.expect("BEGIN");
    transaction.batch_execute(take).await.expect("an UPDATE");
    transaction
        .batch_execute("SELECT * FROM nowhere")
        .await
        .expect_err("no table");
    let error = transaction
        .batch_execute(take)
        .await
        .expect_err("a failed block");
    assert_eq!(code(&error), &SqlState::IN_FAILED_SQL_TRANSACTION);
    transaction
        .commit()
        .await
        .expect("a COMMIT that rolls back");
    assert_eq!(pieces(&client).await, 70);

    // A client that goes away in a transaction leaves nothing open.
    client.batch_execute("BEGIN").await.expect("BEGIN");
    client
        .batch_execute("UPDATE stock SET pieces = pieces - 70 WHERE id = 1")
        .await
        .expect("all");
    other
        .batch_execute(take)
        .await
        .expect_err("all is reserved");
    drop(client);
    loop {
        match other.batch_execute(take).await {
            Ok(()) => break,
            Err(error) => assert_eq!(code(&error), &SqlState::CHECK_VIOLATION),
        }
    }
    assert_eq!(pieces(&other).await, 60);
}

#[tokio::test]
async fn clients_at_the_same_time_get_replies_of_their_own() {
    const CLIENTS: i64 = 16;
    const ROUNDS: i64 = 20;
    if !has_program("parallel clients") {
        return;
    }
    let gateway = Gateway::start(&[OsStr::new("shop")]);
    let first = gateway.connect("shop").await.expect("a connection");
    make_stock(&first).await;
    let mut tasks = Vec::new();
    for number in 0..CLIENTS {
        let mut client = gateway.connect("shop").await.expect("a connection");
        tasks.push(tokio::spawn(async move {
            let id = 100 + number;
            client
                .execute(
                    "INSERT INTO stock VALUES ($1, $2, 'own')",
                    &[&id, &(1000 * id)],
                )
                .await
                .expect("a row");
            for round in 0..ROUNDS {
                let transaction = client.transaction().await.expect("BEGIN");
                let own = "UPDATE stock SET pieces = pieces - 1 WHERE id = $1";
                transaction.execute(own, &[&id]).await.expect("an UPDATE");
                let shared = "UPDATE stock SET pieces = pieces + 1 WHERE id = 1";
                transaction
                    .batch_execute(shared)
                    .await
                    .expect("an UPDATE of the shared row");
                transaction.commit().await.expect("COMMIT");
                let row = client
                    .query_one("SELECT * FROM stock WHERE id = $1", &[&id])
                    .await;
                let row = row.expect("its row");
                assert_eq!(row.get::<_, i64>(0), id);
                assert_eq!(row.get::<_, i64>(1), 1000 * id - round - 1);
            }
        }));
    }
    for task in tasks {
        task.await.expect("a client");
    }
    assert_eq!(pieces(&first).await, 100 + CLIENTS * ROUNDS);
}

#[tokio::test]
async fn each_database_has_connections_of_its_own() {
    if !has_program("connections") {
        return;
    }
    let databases = [OsStr::new("shop"), OsStr::new("other")];
    let gateway = Gateway::start_with(&databases, &["--connections", "64"]);
    let mut clients = Vec::new();
    for _ in 0..64 {
        clients.push(gateway.connect("shop").await.expect("a connection"));
    }
    let error = gateway
        .connect("shop")
        .await
        .map(|_| ())
        .expect_err("a 65th connection");
    assert_eq!(code(&error), &SqlState::TOO_MANY_CONNECTIONS);
    gateway
        .connect("other")
        .await
        .expect("a connection of another database");
    let error = gateway
        .connect("nowhere")
        .await
        .map(|_| ())
        .expect_err("no such database");
    assert_eq!(code(&error), &SqlState::INVALID_CATALOG_NAME);
    make_stock(&clients[63]).await;
    clients.truncate(63);
    loop {
        match gateway.connect("shop").await {
            Ok(client) => {
                assert_eq!(pieces(&client).await, 100);
                break;
            }
            Err(error) => assert_eq!(code(&error), &SqlState::TOO_MANY_CONNECTIONS),
        }
    }
}

#[tokio::test]
async fn a_signal_ends_it_in_order() {
    if !has_program("SIGTERM") {
        return;
    }
    let folder = Folder::new();
    let store = folder.join("shop.db");
    let mut database = OsString::from("shop=");
    database.push(&store);
    for (round, signal) in ["TERM", "INT"].iter().enumerate() {
        let mut gateway = Gateway::start(&[&database]);
        let client = gateway.connect("shop").await.expect("a connection");
        if round == 0 {
            make_stock(&client).await;
        }
        let take = "UPDATE stock SET pieces = pieces - 1 WHERE id = 1";
        client.batch_execute(take).await.expect("an UPDATE");
        gateway.signal(signal);
        gateway.read_until("all stores are closed");
        assert_eq!(gateway.wait(), Some(0));
        assert!(client.batch_execute(take).await.is_err());
        assert!(client.is_closed());
        assert!(!gateway.folder().join(".s.PGSQL.5432").exists());
        assert!(!folder.join("shop.db-wal").exists());
    }
    let gateway = Gateway::start(&[&database]);
    let client = gateway.connect("shop").await.expect("a connection");
    assert_eq!(pieces(&client).await, 98);
}

#[tokio::test]
async fn the_end_of_a_program_is_told_to_all() {
    if !has_program("the end of a program") {
        return;
    }
    let mut gateway = Gateway::start(&[OsStr::new("shop"), OsStr::new("other")]);
    let clients = [
        gateway.connect("shop").await.expect("a connection"),
        gateway.connect("other").await.expect("a connection"),
    ];
    let programs = gateway.programs();
    assert_eq!(programs.len(), 2);
    kill(programs[0], "KILL");
    assert_eq!(gateway.wait(), Some(5));
    for client in clients {
        assert!(client.batch_execute("SELECT * FROM stock").await.is_err());
        assert!(client.is_closed());
    }
}

#[test]
fn what_cannot_be_served_has_a_status() {
    let folder = Folder::new();
    let shop = OsStr::new("shop");
    let (status, said) = run(&folder.join("none"), &[shop], &[]);
    assert_eq!(status, Some(4), "{said}");
    let (status, said) = run(
        &folder.join("."),
        &[shop],
        &["--program", "/nowhere/escrowd"],
    );
    assert_eq!(status, Some(3), "{said}");
    assert!(said.contains("/nowhere/escrowd"), "{said}");
    let (status, said) = run(&folder.join("."), &[shop], &["--program", "/bin/false"]);
    assert_eq!(status, Some(3), "{said}");
    // What has another version, or none, is refused before it is asked anything.
    let (status, said) = run(&folder.join("."), &[shop], &["--program", "/bin/echo"]);
    assert_eq!(status, Some(3), "{said}");
    for (version, status_then) in [("1.0", 3), ("1.1", 6)] {
        let path = folder.join(version);
        write_program(&path, &format!("echo escrowd {version}"));
        let program = path.to_str().expect("a path in UTF-8");
        let (status, said) = run(&folder.join("."), &[shop], &["--program", program]);
        assert_eq!(status, Some(status_then), "{said}");
    }
    let (status, said) = run(&folder.join("."), &[shop, shop], &[]);
    assert_eq!(status, Some(2), "{said}");
}

#[tokio::test]
async fn a_store_or_a_socket_in_use_is_not_taken() {
    if !has_program("what is in use") {
        return;
    }
    let folder = Folder::new();
    let mut database = OsString::from("shop=");
    database.push(folder.join("shop.db"));
    let gateway = Gateway::start(&[&database]);
    let (status, said) = run(gateway.folder(), &[OsStr::new("other")], &[]);
    assert_eq!(status, Some(4), "{said}");
    let (status, said) = run(&folder.join("."), &[&database], &[]);
    assert_eq!(status, Some(3), "{said}");
    assert!(said.contains("another program has it open"), "{said}");
    gateway
        .connect("shop")
        .await
        .expect("the first one still serves");
}
