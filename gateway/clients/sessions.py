"""Sessions for like_postgres: what is sent to PostgreSQL and to the gateway."""
from __future__ import annotations

from typing import List, Sequence, Tuple, Union

from clients.wire import BINARY, INT2, INT4, INT8, NUMERIC, STRING, VARCHAR, bind, close_portal, close_statement
from clients.wire import describe_portal, describe_statement, execute, flush, parse, run

CHECK = "CONSTRAINT in_stock CHECK (pieces >= 0)"
OURS = f"CREATE TABLE stock (id INTEGER PRIMARY KEY, pieces INTEGER RESERVABLE {CHECK}, price NUMBER(8,2), name VARCHAR2(20))"
THEIRS = f"CREATE TABLE stock (id bigint PRIMARY KEY, pieces bigint {CHECK}, price numeric(8,2), name varchar(20))"
ROWS = [
    "INSERT INTO stock VALUES (1, 5, 9.50, 'tea')",
    "INSERT INTO stock VALUES (2, 7, -0.05, 'it''s \\')",
    "INSERT INTO stock VALUES (3, 0, 0, 'ä€𝄞')",
]
TAKE, TOO_MUCH = "UPDATE stock SET pieces = pieces - 1 WHERE id = 1", "UPDATE stock SET pieces = pieces - 99 WHERE id = 1"
ONE, NONE, ALL, NO_TABLE = "SELECT * FROM stock WHERE id = 1", "SELECT * FROM stock WHERE id = 9", "SELECT * FROM stock", "SELECT * FROM nothing"
# A step is a simple query, or the messages of an extended one, behind which Sync is sent.
Step = Union[str, Sequence[bytes]]
Session = List[Step]


def big(value: int, size: int) -> bytes:
    """Returns a whole number in binary."""
    return value.to_bytes(size, "big", signed=True)


SIMPLE: List[Tuple[str, Session]] = [
    ("a statement by itself", [TAKE, ONE, TOO_MUCH, ONE, NONE, NO_TABLE, "", ";", ";;", "-- nothing", "/* nothing */"]),
    (
        "rows that are not there",
        ["UPDATE stock SET pieces = pieces - 1 WHERE id = 9", "UPDATE stock SET name = 'x' WHERE id = 9", "DELETE FROM stock WHERE id = 9"],
    ),
    ("a block", ["BEGIN", TAKE, "COMMIT", ONE]),
    ("a block that is rolled back", ["BEGIN", TAKE, "ROLLBACK", ONE]),
    ("a block that fails", ["BEGIN", TAKE, TOO_MUCH, TAKE, ONE, "SAVEPOINT a", "BEGIN", "", "COMMIT", ONE]),
    ("a failed block that is rolled back", ["BEGIN", TOO_MUCH, "ROLLBACK", ONE]),
    ("a block that fails by the syntax", ["BEGIN", "SELEC 1", TAKE, "END", ONE]),
    (
        "words for the same",
        [
            "START TRANSACTION",
            "END",
            "BEGIN WORK",
            "COMMIT WORK",
            "BEGIN TRANSACTION",
            "ABORT",
            "begin",
            "commit transaction",
            "Begin;",
            "Rollback Work;",
        ],
    ),
    (
        "modes of a block",
        [
            "BEGIN ISOLATION LEVEL READ COMMITTED",
            "COMMIT",
            "START TRANSACTION READ WRITE",
            "COMMIT",
            "BEGIN READ WRITE, ISOLATION LEVEL READ COMMITTED",
            "ROLLBACK",
        ],
    ),
    ("ends without a beginning", ["COMMIT", "ROLLBACK", "END", "ABORT"]),
    ("a beginning in a block", ["BEGIN", "BEGIN", TAKE, "COMMIT", ONE]),
    ("chains", ["BEGIN", TAKE, "COMMIT AND CHAIN", "ROLLBACK AND NO CHAIN", ONE]),
    (
        "savepoints",
        ["BEGIN", "SAVEPOINT a", TAKE, "SAVEPOINT b", TAKE, "ROLLBACK TO a", "ROLLBACK TO b", "ROLLBACK TO SAVEPOINT a", TAKE, "COMMIT", ONE],
    ),
    ("savepoints of a failed block", ["BEGIN", TAKE, "SAVEPOINT a", TOO_MUCH, "RELEASE a", "ROLLBACK TO a", TAKE, "COMMIT", ONE]),
    ("savepoints released", ["BEGIN", "SAVEPOINT a", TAKE, "SAVEPOINT b", TAKE, "RELEASE a", "RELEASE b", "ROLLBACK", ONE]),
    ("a released savepoint keeps what it did", ["BEGIN", "SAVEPOINT a", TAKE, "RELEASE SAVEPOINT a", TAKE, "COMMIT", ONE]),
    ("savepoints of one name", ["BEGIN", "SAVEPOINT a", TAKE, "SAVEPOINT a", TAKE, "ROLLBACK TO a", "RELEASE a", "ROLLBACK TO a", "COMMIT", ONE]),
    (
        "savepoints with names in quotes",
        ["BEGIN", 'SAVEPOINT "A b"', TAKE, 'SAVEPOINT "a b"', TAKE, 'ROLLBACK TO "A b"', 'ROLLBACK TO "a b"', "ROLLBACK"],
    ),
    ("savepoints outside of a block", ["SAVEPOINT a", "ROLLBACK TO a", "RELEASE a"]),
    ("several statements", [f"{TAKE}; {TAKE}", ONE, f"{TAKE}; {TOO_MUCH}; {TAKE}", ONE, f"{ONE}; {TAKE}; {NO_TABLE}", ONE]),
    (
        "several statements with a block",
        [f"BEGIN; {TAKE}; COMMIT", f"BEGIN; {TAKE}", "COMMIT", f"{TAKE}; BEGIN; {TAKE}; ROLLBACK", ONE, f"{TAKE}; COMMIT; {TAKE}; ROLLBACK", ONE],
    ),
    ("a block that ends in a failed query", ["BEGIN", f"{TAKE}; {TOO_MUCH}; COMMIT", "ROLLBACK", ONE]),
    ("a failed block ended in a query of several", ["BEGIN", TOO_MUCH, f"ROLLBACK; {ONE}; {TAKE}", ONE]),
    ("savepoints in several statements", [f"SAVEPOINT a; {TAKE}", f"BEGIN; SAVEPOINT a; {TAKE}; ROLLBACK TO a; COMMIT", ONE]),
    (
        "texts",
        [
            "UPDATE stock SET name = 'Bob''s ; -- /* $1' WHERE id = 1",
            ONE,
            "UPDATE stock SET name = E'a\\\\b\\'c''d' WHERE id = 1",
            ONE,
            "UPDATE stock SET name = 'a\\' WHERE id = 1",
            ONE,
        ],
    ),
    (
        "numbers in quotes",
        [
            "SELECT * FROM stock WHERE id = '1'",
            "INSERT INTO stock VALUES ('7', '5', ' 2.50 ', '9')",
            "UPDATE stock SET pieces = pieces - '2' WHERE id = '7'",
            "UPDATE stock SET pieces = pieces + '-1' WHERE id = 7",
            "UPDATE stock SET price = '-0.75' WHERE id = '7'",
            "UPDATE stock SET name = '5' WHERE id = '7'",
            "BEGIN",
            "UPDATE stock SET pieces = pieces - '1' WHERE id = '7'",
            "UPDATE stock SET pieces = pieces - '99' WHERE id = '7'",
            "ROLLBACK",
            "SELECT * FROM stock WHERE id = '7'",
            "DELETE FROM stock WHERE id = '7'",
            "DELETE FROM stock WHERE id = '7'",
            "INSERT INTO stock VALUES ('7', '5', '9999999', '9')",
            "SELECT * FROM stock WHERE id = 'x'",
            "DELETE FROM stock WHERE id = '1x'",
            ALL,
        ],
    ),
    (
        "comments",
        ["SELECT /* a /* nested */ one ; ' */ * -- to the end ; '\nFROM stock\n\tWHERE id = 1 -- last", "--\n" + ONE + "; -- behind\n" + ONE],
    ),
    ("names in quotes", ['SELECT * FROM "stock" WHERE "id" = 1', 'UPDATE "stock" SET "pieces" = "pieces" - 1 WHERE "id" = 1']),
    (
        "subscripts, signs and modes",
        ["SELECT 1[1]", "SELECT 'a'[1]", "SELECT (1)[1]", "SELECT (ARRAY[7, 8])[2]", "SELECT - 'a'::text", "BEGIN", "SET TRANSACTION", "ROLLBACK"],
    ),
    (
        "locks of rows that are none",
        [
            "SELECT 1 FOR UPDATE",
            "SELECT (1) FOR UPDATE OF t$1",
            "SELECT 1 FOR SHARE OF stock",
            "SELECT 1 FROM (SELECT 1) g FOR UPDATE OF g",
            "SELECT 1 FROM generate_series(1, 2) g FOR UPDATE",
            "SELECT 1 FROM generate_series(1, 2) g FOR UPDATE OF g",
            "WITH g AS (SELECT 1) SELECT 1 FROM g FOR UPDATE OF g",
            "SELECT 1 FROM pg_class a LEFT JOIN pg_type b ON true FOR UPDATE",
            "SELECT 1 UNION SELECT 2 FOR UPDATE",
            "VALUES (1) FOR UPDATE",
            "SELECT DISTINCT 1 FOR UPDATE",
            "SELECT count(*) FOR UPDATE",
            "SELECT id FROM stock FOR UPDATE OF public.stock",
            "SELECT id FROM stock s FOR UPDATE OF stock",
        ],
    ),
    ("texts without an end", ["SELECT * FROM stock WHERE name = 'x", 'SELECT * FROM "stock', "SELECT /* 1", "SELECT E'x\\'"]),
    ("rows of all sorts", [ALL]),
    (
        "a row twice",
        [
            "INSERT INTO stock VALUES (1, 1, 1, 'x')",
            "INSERT INTO stock VALUES (5, -1, 1, 'x')",
            "INSERT INTO stock VALUES (5, 1, 1, 'twenty-one characters')",
            "DELETE FROM stock WHERE id = 3",
            ALL,
        ],
    ),
    (
        "settings",
        [
            "SET application_name = 'x'",
            "SET extra_float_digits = 3",
            "SET SESSION idle_in_transaction_session_timeout TO '5min'",
            "SHOW idle_in_transaction_session_timeout",
            "RESET idle_in_transaction_session_timeout",
            "SHOW idle_in_transaction_session_timeout",
            "SHOW transaction_isolation",
            "SHOW TRANSACTION ISOLATION LEVEL",
            "SHOW standard_conforming_strings",
            "SET nothing = 1",
            "SHOW nothing",
            "SET statement_timeout = 0",
        ],
    ),
    ("ends of what is kept", ["DISCARD ALL", "DEALLOCATE ALL", "DEALLOCATE nothing", "BEGIN", "DISCARD ALL", "ROLLBACK"]),
    ("what drivers ask", ["select current_schema()", "show standard_conforming_strings", "SELECT 1"]),
]
P1 = f"{TAKE[:-1]}$1"
EXTENDED: List[Tuple[str, Session]] = [
    ("a statement", [[run(TAKE)], [run(ONE)], [run(NONE)], [run(TOO_MUCH)], [run(NO_TABLE)], [run("")]]),
    ("a block", [[run("BEGIN")], [run(TAKE)], [run(TOO_MUCH)], [run(TAKE)], [run(ONE)], [run("COMMIT")], [run(ONE)]]),
    ("an implicit block", [[run(TAKE), run(TAKE)], [run(ONE)], [run(TAKE), run(TOO_MUCH), run(TAKE)], [run(ONE)]]),
    (
        "numbers in quotes in a pipeline",
        [
            [run("UPDATE stock SET pieces = pieces - '1' WHERE id = '1'"), run(TAKE), run("SELECT * FROM stock WHERE id = '2'"), run(NONE)],
            ONE,
            [run("UPDATE stock SET pieces = pieces - '1' WHERE id = '1'"), run("UPDATE stock SET pieces = pieces - '99' WHERE id = '1'"), run(TAKE)],
            ONE,
        ],
    ),
    ("a block in a pipeline", [[run("BEGIN"), run(TAKE), run("COMMIT"), run(ONE)], [run("BEGIN"), run(TOO_MUCH), run("COMMIT")], [run("ROLLBACK")]]),
    ("a failed block ended in a pipeline", [[run("BEGIN")], [run(TOO_MUCH)], [run("ROLLBACK"), run(TAKE)], [run(ONE)]]),
    (
        "skipping to Sync",
        [
            [parse(TAKE), bind(), execute(), parse("SELEC"), bind(), execute(), parse(TAKE), bind(), execute()],
            ONE,
            [bind(name="nothing"), parse(TAKE), bind(), execute()],
            [execute("nothing")],
            [describe_statement("nothing")],
            [describe_portal("nothing")],
            ONE,
        ],
    ),
    (
        "statements by name",
        [
            [parse(P1, "a")],
            [parse(P1, "a")],
            [describe_statement("a")],
            [bind(["1"], "a"), execute()],
            [bind(["9"], "a"), execute()],
            [close_statement("a")],
            [bind(["1"], "a")],
            [close_statement("a"), close_portal("nothing")],
            [parse(P1, "a")],
            "DEALLOCATE a",
            [bind(["1"], "a")],
        ],
    ),
    (
        "the statement without a name",
        [[parse(ONE)], [bind(), execute()], [bind(), describe_portal(), execute()], [parse(ALL), bind()], [execute()], [close_statement()], [bind()]],
    ),
    (
        "a portal ends with its transaction",
        [
            [parse(ALL), bind(portal="p"), execute("p", 1)],
            [execute("p", 1)],
            "BEGIN",
            [parse(ALL), bind(portal="p"), execute("p", 1)],
            [execute("p", 1)],
            [bind(portal="p")],
            "ROLLBACK",
            [execute("p", 1)],
        ],
    ),
    (
        "row limits",
        [
            "BEGIN",
            [parse(ALL), bind(portal="p"), describe_portal("p"), execute("p", 1), execute("p", 1), execute("p", 5), execute("p", 5), execute("p")],
            "COMMIT",
            [parse(ALL), bind(), execute("", 3)],
            [parse(ALL), bind(), execute("", 2), execute("", 1), execute("", 1)],
            [parse(TAKE), bind(), execute("", 1)],
            [parse(ONE), bind(), execute("", 1)],
        ],
    ),
    ("portals closed", ["BEGIN", [parse(ALL), bind(portal="p"), execute("p", 1)], [close_portal("p")], [execute("p", 1)], "ROLLBACK"]),
    ("an executed portal again", [[parse(TAKE), bind(), execute(), execute()], [parse(ONE), bind(), execute(), execute()], ONE]),
    ("flush", [[parse(ONE), flush(), bind(), flush(), execute(), flush()]]),
    ("empty", [[parse(""), describe_statement(), bind(), describe_portal(), execute()], [parse("-- nothing"), bind(), execute()], [], []]),
    ("several statements in one", [[parse(f"{TAKE}; {TAKE}")], ONE]),
    (
        "parameters as texts",
        [
            [run(P1, ["1"], types=[INT8])],
            [run(P1, ["1"])],
            [run(P1, [" 1 "], types=[INT8])],
            [run(P1, ["x"], types=[INT8])],
            [run(P1, [""], types=[INT8])],
            [run("SELECT * FROM stock WHERE id = $1", ["9" * 30], types=[INT8])],
            [run("UPDATE stock SET name = $1 WHERE id = $2", ["it's \\ $1", "1"], types=[STRING, INT8])],
            ONE,
            [run("UPDATE stock SET price = $1 WHERE id = $2", ["-1.25", "1"], types=[NUMERIC, INT4])],
            [run("UPDATE stock SET price = $1 WHERE id = $2", ["+1.5", "1"], types=[NUMERIC, INT4])],
            ONE,
        ],
    ),
    (
        "parameters in binary",
        [
            [run(P1, [big(1, 8)], types=[INT8], formats=[BINARY])],
            [run(P1, [big(1, 4)], types=[INT4], formats=[BINARY])],
            [run(P1, [big(1, 2)], types=[INT2], formats=[BINARY])],
            [run(P1, [big(1, 4)], types=[INT8], formats=[BINARY])],
            [run(P1, [big(1, 3)], types=[INT4], formats=[BINARY])],
            [run(P1, [big(1, 9)], types=[INT8], formats=[BINARY])],
            [run("UPDATE stock SET name = $1 WHERE id = $2", ["ä'", big(1, 4)], types=[VARCHAR, INT4], formats=[BINARY])],
            [run("UPDATE stock SET name = $1 WHERE id = $2", ["tea", big(1, 4)], types=[STRING, INT4], formats=[0, BINARY])],
            ONE,
            [run("UPDATE stock SET pieces = pieces + $1 WHERE id = $2", [big(-2, 4), big(1, 8)], types=[INT4, INT8], formats=[BINARY, BINARY])],
            [run("UPDATE stock SET pieces = pieces - $1 WHERE id = $2", [big(-2, 4), big(1, 8)], types=[INT4, INT8], formats=[BINARY, BINARY])],
            ONE,
        ],
    ),
    (
        "parameters that are too few or too many",
        [
            [run(P1)],
            [run(P1, ["1", "2"])],
            [run(ONE, ["1"])],
            [run(P1, ["1"], formats=[0, 0])],
            [parse("SELECT * FROM stock WHERE id = $2"), describe_statement()],
        ],
    ),
    ("a text that is no UTF-8", [[run("UPDATE stock SET name = $1 WHERE id = 1", [b"\xff"], types=[VARCHAR])], ONE]),
    ("rows in binary", [[run(ALL, results=[BINARY])], [run(ONE, results=[0, 1, 0, 1])]]),
    (
        "descriptions",
        [
            [parse(ALL), describe_statement()],
            [parse(P1), describe_statement()],
            [parse("SELECT * FROM stock WHERE id = $1", types=[INT4]), describe_statement()],
            [parse("UPDATE stock SET name = $1 WHERE id = $2"), describe_statement()],
            [parse("INSERT INTO stock VALUES ($1, $2, $3, $4)"), describe_statement()],
            [parse("INSERT INTO stock (name, id, pieces, price) VALUES ($1, $2, $3, $4)"), describe_statement()],
            [parse("DELETE FROM stock WHERE id = $1"), describe_statement()],
            [parse("UPDATE stock SET pieces = pieces - $1 WHERE id = $2"), describe_statement()],
            [parse("BEGIN"), describe_statement()],
            [parse(NO_TABLE), describe_statement()],
            [parse("UPDATE stock SET price = $1 WHERE id = 1"), describe_statement()],
        ],
    ),
    (
        "an INSERT",
        [
            [run("INSERT INTO stock VALUES ($1, $2, $3, $4)", ["7", "1", "2.50", "x"])],
            [run("INSERT INTO stock VALUES ($1, $2, $3, $4)", ["7", "1", "2.50", "x"])],
            [run("DELETE FROM stock WHERE id = $1", ["7"])],
            [run("DELETE FROM stock WHERE id = $1", ["7"])],
        ],
    ),
    (
        "settings",
        [[run("SHOW standard_conforming_strings")], [run("SET application_name = 'y'")], [run("SHOW application_name")], [run("DISCARD ALL")]],
    ),
    (
        "simple and extended mixed",
        [
            [parse(TAKE, "a")],
            "BEGIN",
            [bind(name="a"), execute()],
            TOO_MUCH,
            [bind(name="a"), execute()],
            [bind(name="a")],
            "ROLLBACK",
            [bind(name="a"), execute()],
            ONE,
        ],
    ),
]
