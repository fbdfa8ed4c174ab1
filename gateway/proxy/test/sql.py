#!/usr/bin/env python3
"""Tests what schema escrow does, by itself: on a PostgreSQL 15, with a stand-in for the proxy.

    python3 -m proxy.test.sql            all parts, in the folder gateway
    python3 -m proxy.test.sql NAME ..    parts whose name contains NAME
"""
from __future__ import annotations

import signal
import subprocess
import threading
import time
from contextlib import contextmanager
from typing import Any, Callable, Dict, Iterator, List, Tuple, Type

import psycopg
from psycopg import errors

from clients.servers import wait_until
from clients.suite import main
from proxy.test.harness import SharedPart, installed
from proxy.test.standin import Client, Cluster, Noted, OWNER, Owner, array, perform


def end_owner(cluster: Cluster) -> None:
    """Ends who holds OWNER."""
    cluster.run(f"SELECT pg_terminate_backend(pid) FROM pg_locks WHERE locktype = 'advisory' AND classid = {OWNER[0]} AND objid = {OWNER[1]}")
    until_free(cluster)


def until_free(cluster: Cluster) -> None:
    """Waits until nobody holds OWNER."""
    wait_until("nobody is the owner", lambda: value(cluster, "SELECT process FROM escrow.owner()") is None)


PART = SharedPart("proxy_sql", installed, end_owner)
part = PART.case


@contextmanager
def refused(kind: Type[psycopg.Error], text: str = "") -> Iterator[None]:
    """Fails unless its body raises the error, with the text in it."""
    try:
        yield
    except kind as error:
        assert text in str(error), f"{text!r} is not in {error}"
        return
    raise AssertionError(f"not refused: {kind.__name__} {text}")


def same(found: object, expected: object) -> None:
    """Fails unless both are equal."""
    assert found == expected, f"{found!r} is not {expected!r}"


def stock(cluster: Cluster, pieces: int = 10, check: str = "pieces >= 0") -> Owner:
    """Makes the table anew, declares it, and returns an owner."""
    cluster.run(
        "DROP TABLE IF EXISTS orders, audit",
        "SELECT escrow.ordinary(relation::regclass) FROM escrow.declared",
        "DROP TABLE IF EXISTS stock",
        f"CREATE TABLE stock (id integer PRIMARY KEY, title text, pieces integer NOT NULL CONSTRAINT in_stock CHECK ({check}))",
        f"INSERT INTO stock SELECT i, 'row ' || i, {pieces} FROM generate_series(1, 5) AS i",
        "CREATE TABLE orders (id serial PRIMARY KEY, pieces integer NOT NULL)",
        "SELECT escrow.reservable('stock', 'pieces')",
    )
    return Owner(cluster)


def make_buyer(cluster: Cluster) -> None:
    """Makes a role without rights, anew."""
    if value(cluster, "SELECT to_regrole('buyer')") is not None:
        cluster.run("DROP OWNED BY buyer", "DROP ROLE buyer")
    cluster.run("CREATE ROLE buyer LOGIN")


def value(cluster: Cluster, query: str) -> Any:
    """Returns the only value of a query."""
    with cluster.connect() as it:
        row = it.execute(query.encode()).fetchone()
    assert row is not None
    return row[0]


@part
def declarations_are_tested(cluster: Cluster) -> None:
    good = "id integer PRIMARY KEY, n integer NOT NULL"
    cases = [
        ("id integer, n integer NOT NULL", "'n'", "it has no primary key of one column"),
        ("id integer, b integer, n integer NOT NULL, PRIMARY KEY (id, b)", "'n'", "it has no primary key of one column"),
        ("id date PRIMARY KEY, n integer NOT NULL", "'n'", "its key id has the type date"),
        ("id integer PRIMARY KEY, n integer", "'n'", "the column n may be NULL"),
        ("id integer PRIMARY KEY, n real NOT NULL", "'n'", "the column n has the type real"),
        ("id integer PRIMARY KEY, n numeric NOT NULL", "'n'", "the column n has the type numeric"),
        ("id integer PRIMARY KEY, n numeric(16,2) NOT NULL", "'n'", "the column n has the type numeric(16,2)"),
        ("id integer PRIMARY KEY, n numeric(10,7) NOT NULL", "'n'", "the column n has the type numeric(10,7)"),
        ("id integer PRIMARY KEY, n numeric(3,-2) NOT NULL", "'n'", "the column n has the type numeric(3,-2)"),
        (good, "'m'", "it has no column m"),
        (good, "'n', 'n'", "the column n is named twice"),
        (good, "'id'", "the column id is its key"),
        (good + " UNIQUE", "'n'", "the column n is in the constraint t_n_key"),
        (good + " REFERENCES r", "'n'", "the column n is in the constraint t_n_fkey"),
        (good + " GENERATED ALWAYS AS IDENTITY", "'n'", "the column n is generated"),
        (good + ", m integer, CHECK (n <= m)", "'n'", "the CHECK t_check names reservable columns and others: (n <= m)"),
        (good + " CHECK (n % 2 = 0)", "'n'", "the CHECK t_n_check compares no sums of its columns: ((n % 2) = 0)"),
        (good + " CHECK (n > 0 OR n < -5)", "'n'", "the CHECK t_n_check compares no sums"),
        (good + " CHECK (n <> 3)", "'n'", "the CHECK t_n_check compares no sums"),
        (good + " CHECK (n * n < 100)", "'n'", "the CHECK t_n_check compares no sums"),
        (good + " CHECK (abs(n) < 100)", "'n'", "the CHECK t_n_check compares no sums"),
        (good + " CHECK (n / 2 < 100)", "'n'", "the CHECK t_n_check compares no sums"),
        (good + " CHECK ((n + 1) * 2 < 100)", "'n'", "the CHECK t_n_check compares no sums"),
        (good + " CHECK (n - 2 * (n + 1) < 100)", "'n'", "the CHECK t_n_check compares no sums"),
        (good + " CHECK (n IN (1, 2))", "'n'", "the CHECK t_n_check compares no sums"),
        ("id integer PRIMARY KEY, n numeric(5,2) NOT NULL CHECK (n::integer < 5)", "'n'", "the CHECK t_n_check compares no sums"),
        ("id integer PRIMARY KEY, n numeric(5,2) NOT NULL CHECK (n::numeric(5,1) < 5)", "'n'", "the CHECK t_n_check compares no sums"),
        ("id integer PRIMARY KEY, n bigint NOT NULL CHECK (n::integer < 5)", "'n'", "the CHECK t_n_check compares no sums"),
        (good + " CHECK (n = 0.5)", "'n'", "the CHECK t_n_check holds for no value"),
        (good + " CHECK (n * 1000001 >= 0)", "'n'", "the CHECK t_n_check has a factor above 1000000"),
        (good + " CHECK (n <= 1000000000000000)", "'n'", "the CHECK t_n_check has a factor above 1000000, or a limit"),
        (good + "".join(f", CHECK (n >= {-i})" for i in range(32)), "'n'", "its CHECKs have 33 conditions"),
        (good + ", m integer GENERATED ALWAYS AS (100 / n) STORED", "'n'", "the column m is generated from the column n"),
        (good + ', "a$body$b" integer', "'n'", "a name of it has $body$"),
    ]
    with cluster.connect() as it:
        it.execute("DROP TABLE IF EXISTS r; CREATE TABLE r (id integer PRIMARY KEY)")
        for columns, names, text in cases:
            it.execute(f"CREATE TABLE t ({columns})".encode())
            with refused(errors.InvalidTableDefinition, f"t cannot be declared reservable: {text}"):
                it.execute(f"SELECT escrow.reservable('t', {names})".encode())
            it.execute("DROP TABLE t")
        for made, text in (
            (f"CREATE TABLE t ({good}) PARTITION BY RANGE (id)", "it is no ordinary table by itself"),
            (f"CREATE TABLE p ({good}); CREATE TABLE t () INHERITS (p)", "it is no ordinary table by itself"),
            (f"CREATE UNLOGGED TABLE t ({good})", "it is temporary or unlogged"),
            (f"CREATE TABLE t ({good}); ALTER TABLE t ENABLE ROW LEVEL SECURITY", "it has row-level security"),
            (f"CREATE TABLE t ({good}); CREATE RULE r AS ON UPDATE TO t DO INSTEAD NOTHING", "it has rules"),
            (f"CREATE TABLE t ({good}); CREATE UNIQUE INDEX ON t ((n + 1))", "the column n is in a unique index"),
            (f"CREATE TABLE t ({good}); CREATE INDEX i ON t ((100 / n))", "the column n is in an expression or the condition of the index public.i"),
            (f"CREATE TABLE t ({good}); CREATE INDEX i ON t (id) WHERE 100 / n > 1", "the column n is in an expression or the condition of the index public.i"),
            (f"CREATE TABLE t ({good}); CREATE INDEX i ON t (id) WHERE n + n > 1", "the column n is in an expression or the condition of the index public.i"),
            (f"CREATE TABLE t ({good}); CREATE FUNCTION f() RETURNS trigger LANGUAGE plpgsql AS 'BEGIN RETURN NULL; END'; "
             "CREATE CONSTRAINT TRIGGER f AFTER UPDATE ON t DEFERRABLE FOR EACH ROW EXECUTE FUNCTION f()", "the trigger f can be deferred"),
            (f"CREATE TABLE t ({good}); CREATE TRIGGER \"~f\" BEFORE INSERT OR UPDATE ON t FOR EACH ROW EXECUTE FUNCTION suppress_redundant_updates_trigger()",
             "the trigger \"~f\" fires behind the one that guards reservable columns"),
            (f"CREATE TABLE t ({good}); ALTER TABLE t ADD CHECK (n > 0) NOT VALID", "the CHECK t_n_check is not validated"),
            ("CREATE TABLE t (id integer PRIMARY KEY, n bigint NOT NULL); INSERT INTO t VALUES (1, 1000000000000000)",
             "the column n has the value 1000000000000000"),
        ):
            it.execute(made.encode())
            with refused(errors.InvalidTableDefinition, f"t cannot be declared reservable: {text}"):
                it.execute("SELECT escrow.reservable('t', 'n')")
            it.execute("DROP TABLE IF EXISTS t, p CASCADE")
        it.execute(f"CREATE TABLE t ({good}); CREATE ROLE other LOGIN".encode())
        with cluster.connect("other") as stranger, refused(errors.InsufficientPrivilege, "must be owner of table public.t"):
            stranger.execute("SELECT escrow.reservable('t', 'n')")
        it.execute("SELECT escrow.reservable('t', 'n')")
        with refused(errors.InvalidTableDefinition, "it is declared already"):
            it.execute("SELECT escrow.reservable('t', 'n')")
        it.execute("SELECT escrow.ordinary('t'); DROP TABLE t; DROP ROLE other")
        with refused(errors.InvalidTableDefinition, "0 columns are named"):
            it.execute("CREATE TABLE t (id integer PRIMARY KEY, a integer NOT NULL); SELECT escrow.reservable('t', VARIADIC '{}'::name[])")


@part
def checks_are_told_back(cluster: Cluster) -> None:
    cases = [
        ("a >= 0", ["a >= 0"]),
        ("0 <= a", ["-a <= 0"]),
        ("a > 5 AND a < 10", ["a > 5", "a < 10"]),
        ("a BETWEEN 1 AND 9", ["a >= 1", "a <= 9"]),
        ("a - b >= -5", ["a - b >= -5"]),
        ("a - (b + c) >= 0", ["a - b - c >= 0"]),
        ("a - (b - (c - a)) >= 0", ["-b + c >= 0"]),
        ("-(a + b) <= 3", ["-a - b <= 3"]),
        ("- a <= - b", ["-a + b <= 0"]),
        ("2 * a + b * 3 < 101", ["2 * a + 3 * b < 101"]),
        ("a + 5 >= b - 2", ["a - b >= -7"]),
        ("a = b", ["a - b = 0"]),
        ("c >= 0.5", ["c >= 0.5"]),
        ("a * (-2) + (-3) * b <= -(-7)", ["-2 * a - 3 * b <= 7"]),
        ("-a - (-b) >= -5", ["-a + b >= -5"]),
        ("(a - 1) - (2 - b) <= 3 - (c - 1)", ["a + b + c <= 7"]),
        ("c * 2.5 - a >= -0.25", ["-10 * a + 25 * c >= -2.5"]),
        ("a < 5.5 AND a >= 0.5", ["a <= 5", "a >= 1"]),
        ("c > 0.005 AND c <= 9.999", ["c >= 0.01", "c <= 9.99"]),
        ("a - a >= 0 AND b > 0", ["b > 0"]),
        ("a::bigint + b >= 0 AND a::numeric + c >= 0", ["a + b >= 0", "a + c >= 0"]),
        ("(a >= 0 AND b >= 0) AND c <= 7", ["a >= 0", "b >= 0", "c <= 7"]),
    ]
    with cluster.connect() as it:
        for condition, expected in cases:
            it.execute("CREATE TABLE t (id integer PRIMARY KEY, a integer NOT NULL, b bigint NOT NULL, c numeric(9,2) NOT NULL, d integer CHECK (d % 2 = 0))")
            it.execute(f"ALTER TABLE t ADD CONSTRAINT it CHECK ({condition})".encode())
            found = it.execute("SELECT escrow.reservable('t', 'a', 'b', 'c')").fetchall()
            same([text for text, in found], [f"it: {text}" for text in expected])
            it.execute("SELECT escrow.ordinary('t'); DROP TABLE t")


@part
def only_folds_change_columns(cluster: Cluster) -> None:
    stock(cluster)
    make_buyer(cluster)
    cluster.run("GRANT SELECT, INSERT, UPDATE, DELETE ON stock TO buyer")
    for user in ("buyer", "clerk"):
        with cluster.connect(user) as it:
            for text in ("pieces = 3", "pieces = pieces - 1", "pieces = 9, title = 'x'"):
                with refused(errors.FeatureNotSupported, "reservable columns of stock are changed by escrowd-proxy alone"):
                    it.execute(f"UPDATE stock SET {text} WHERE id = 1".encode())
            it.execute("UPDATE stock SET title = 'new', pieces = pieces WHERE id = 1")
            with refused(errors.FeatureNotSupported):
                it.execute("INSERT INTO stock VALUES (1, 'x', 3) ON CONFLICT (id) DO UPDATE SET pieces = excluded.pieces")
            with refused(errors.FeatureNotSupported):
                it.execute("SET escrow.fold = ''; UPDATE stock SET pieces = 3 WHERE id = 1")
            it.execute("ROLLBACK")
            with refused(errors.ObjectInUse, "cannot be truncated") if user == "clerk" else refused(errors.InsufficientPrivilege):
                it.execute("TRUNCATE stock")
    # A trigger behind ours changes the value: the guard sees what is written.
    cluster.run(
        "CREATE FUNCTION zero() RETURNS trigger LANGUAGE plpgsql AS 'BEGIN NEW.pieces := 0; RETURN NEW; END'",
        "CREATE TRIGGER zzz BEFORE UPDATE ON stock FOR EACH ROW EXECUTE FUNCTION zero()",
    )
    with cluster.connect() as it, refused(errors.FeatureNotSupported):
        it.execute("UPDATE stock SET title = 'y' WHERE id = 1")
    cluster.run("DROP TRIGGER zzz ON stock", "DROP FUNCTION zero")
    same(value(cluster, "SELECT sum(pieces) FROM stock"), 50)


@part
def own_rows_may_be_changed(cluster: Cluster) -> None:
    owner = stock(cluster)
    with cluster.connect() as it:
        it.execute("BEGIN; INSERT INTO stock VALUES (7, 'new', 5); UPDATE stock SET pieces = 6 WHERE id = 7; SAVEPOINT a")
        it.execute("UPDATE stock SET pieces = pieces + 1 WHERE id = 7; INSERT INTO stock VALUES (8, 'x', 1); UPDATE stock SET pieces = 2 WHERE id = 8; COMMIT")
        same(it.execute("SELECT id, pieces FROM stock WHERE id > 6 ORDER BY id").fetchall(), [(7, 7), (8, 2)])
        with refused(errors.FeatureNotSupported):
            it.execute("UPDATE stock SET pieces = 1 WHERE id = 7")
        # The row's last version is its own, but the owner holds it.
        owner.load("stock", 1)
        it.execute("BEGIN; UPDATE stock SET title = 'own' WHERE id = 1")
        with refused(errors.ObjectInUse, "the row of stock is held by escrowd-proxy"):
            it.execute("UPDATE stock SET pieces = 1 WHERE id = 1")
        it.execute("ROLLBACK")
        # Nobody holds it, and the lock keeps a load away until the end.
        it.execute("BEGIN; UPDATE stock SET title = 'own' WHERE id = 2; UPDATE stock SET pieces = 1 WHERE id = 2")
        owner.keeper.execute("SET lock_timeout = 50")
        with refused(errors.LockNotAvailable):
            owner.load("stock", 2)
        it.execute("COMMIT")
        same(owner.load("stock", 2), ["1"])


@part
def held_rows_stay(cluster: Cluster) -> None:
    owner = stock(cluster)
    with cluster.connect() as it, cluster.connect() as old:
        old.execute("BEGIN ISOLATION LEVEL REPEATABLE READ; SELECT 1 FROM stock")
        same(owner.load("stock", 1), ["10"])
        same(owner.load("stock", 99), None)
        for text in ("DELETE FROM stock WHERE id = 1", "UPDATE stock SET id = 9 WHERE id = 1"):
            with refused(errors.ObjectInUse, "the row of stock is held by escrowd-proxy"):
                it.execute(text.encode())
        # An old snapshot does not show the mark, but the load has written the row anew.
        with refused(errors.SerializationFailure):
            old.execute("DELETE FROM stock WHERE id = 1")
        same(owner.leave("stock", 1), True)
        it.execute("UPDATE stock SET id = 9 WHERE id = 1; DELETE FROM stock WHERE id = 9; DELETE FROM stock WHERE id = 2")
        # A row that is locked for a deletion is not loaded.
        it.execute("BEGIN; DELETE FROM stock WHERE id = 3")
        owner.keeper.execute("SET lock_timeout = 50")
        with refused(errors.LockNotAvailable):
            owner.load("stock", 3)
        it.execute("ROLLBACK")
        # A committed note that is not folded keeps its row, too.
        owner.load("stock", 4)
        Client(owner).note("stock", 4, -1)
        cluster.run(f"DELETE FROM escrow.held_{owner.declared('stock')[0]}")
        with refused(errors.ObjectInUse):
            it.execute("DELETE FROM stock WHERE id = 4")
        # A load of an epoch that is over fails.
        owner.keeper.execute("SELECT setval('escrow.epoch', 5)")
        with refused(errors.SerializationFailure, "not the owner any more"):
            owner.load("stock", 5)


@part
def notes_follow_their_transaction(cluster: Cluster) -> None:
    owner = stock(cluster)
    client = Client(owner)
    journal = f"SELECT count(*) FROM escrow.journal_{owner.declared('stock')[0]}"
    client.execute("BEGIN")
    first = client.note("stock", 1, -1)
    client.execute("SAVEPOINT a")
    second = client.note("stock", 1, -2)
    assert first.id != second.id, "a subtransaction has an id of its own"
    same([owner.status(it.id) for it in (first, second)], ["in progress", "in progress"])
    client.execute("ROLLBACK TO a")
    same([owner.status(it.id) for it in (first, second)], ["in progress", "aborted"])
    third = client.note("stock", 1, -3)
    client.execute("RELEASE a")
    same(value(cluster, journal), 0)
    client.execute("INSERT INTO orders (pieces) VALUES (4); COMMIT")
    same([owner.status(it.id) for it in (first, second, third)], ["committed", "aborted", "committed"])
    same(value(cluster, journal), 2)
    same((value(cluster, "SELECT pieces FROM stock WHERE id = 1"), value(cluster, "SELECT pieces FROM escrow.now_stock WHERE id = 1")), (10, 6))
    same(owner.fold("stock", 1, 2), ["1", "2"])
    same((value(cluster, journal), value(cluster, "SELECT pieces FROM stock WHERE id = 1")), (0, 6))
    # An error without a savepoint aborts at once, before the ROLLBACK.
    client.execute("BEGIN")
    lost = client.note("stock", 1, -1)
    with refused(errors.DivisionByZero):
        client.execute("SELECT 1 / 0")
    same(owner.status(lost.id), "aborted")
    client.execute("ROLLBACK")
    # By itself it commits.
    same(owner.status(client.note("stock", 1, -1).id), "committed")
    # A procedure that commits, and then an error: the note is committed.
    cluster.run("CREATE PROCEDURE twice() LANGUAGE plpgsql AS 'BEGIN COMMIT; PERFORM 1 / 0; END'")
    arguments = client.arguments("stock", 1, -1)
    with refused(errors.DivisionByZero), client.connection.pipeline():
        cursor = perform(client.connection, arguments[0], arguments[1:])
        client.execute("CALL twice()")
    same(owner.status(Noted.of(cursor.fetchone()).id), "committed")
    cluster.run("DROP PROCEDURE twice")


@part
def notes_need_a_grant(cluster: Cluster) -> None:
    owner = stock(cluster)
    make_buyer(cluster)
    client, other = Client(owner), Client(owner)
    # What is changed, or is NULL, or is another backend's.
    others = [(4, changes) for changes in ("{-2}", "{NULL}", "{-1.0}", "{{-1}}", "[0:0]={-1}")]
    for place, change in ((1, owner.epoch + 1), (2, 10**9), (3, "2"), (5, b"x" * 32), *others):
        arguments = client.arguments("stock", 1, -1)
        arguments[place] = change
        with refused(errors.InsufficientPrivilege, "escrow.note is for escrowd-proxy"):
            client.send(arguments)
    for place in range(1, 6):
        arguments = client.arguments("stock", 1, -1)
        arguments[place] = None
        same(perform(client.connection, arguments[0], arguments[1:]).fetchone(), (None,))
    same(value(cluster, f"SELECT count(*) FROM escrow.journal_{owner.declared('stock')[0]}"), 0)
    with refused(errors.InsufficientPrivilege, "escrow.note is for escrowd-proxy"):
        other.send(client.arguments("stock", 1, -1))
    # What was sent once: again, behind ROLLBACK TO, behind ROLLBACK, behind DISCARD.
    arguments = client.arguments("stock", 1, -1)
    client.execute("BEGIN; SAVEPOINT a")
    client.send(arguments)
    client.execute("ROLLBACK TO a")
    with refused(errors.InsufficientPrivilege, "escrow.note is for escrowd-proxy"):
        client.send(arguments)
    client.execute("ROLLBACK")
    with refused(errors.InsufficientPrivilege, "escrow.note is for escrowd-proxy"):
        client.send(arguments)
    client.execute("DISCARD ALL")
    with refused(errors.ObjectNotInPrerequisiteState, "currval"):
        client.send(arguments)
    client.greet()
    with refused(errors.InsufficientPrivilege):
        client.send(arguments)
    with refused(errors.ObjectNotInPrerequisiteState, "currval"):
        Client(owner, greets=False).note("stock", 1, -1)
    # A greeting is worth one.
    number = owner.next()
    words = (owner.epoch, number, owner.mac("greet", owner.epoch, client.connection.info.backend_pid, number))
    greeted = "SELECT escrow.greet(%s, %s, %s)"
    same(client.connection.execute(greeted, words).fetchone(), (None,))
    client.note("stock", 1, -1)
    heard = value(cluster, "SELECT last_value FROM escrow.heard")
    same(client.connection.execute(greeted, words).fetchone(), (number,))
    same(value(cluster, "SELECT last_value FROM escrow.heard"), heard)
    with refused(errors.InsufficientPrivilege, "escrow.greet is for escrowd-proxy"):
        client.connection.execute(greeted, (owner.epoch, number + 100, words[2]))
    # Another text: rights that the client grants itself, EXECUTE of a statement of SQL, DO.
    buyer = Client(owner, "buyer")
    with refused(errors.InsufficientPrivilege, "permission denied for table stock"):
        buyer.note("stock", 1, -1)
    arguments = buyer.arguments("stock", 1, -1)
    arguments[0] = arguments[0][: arguments[0].index("(pg_catalog.")] + "true, $6::text IS NOT NULL)"
    with refused(errors.InsufficientPrivilege, "escrow.note is for escrowd-proxy"):
        buyer.send(arguments)
    table, text = owner.declared("stock")
    for form in ("PREPARE n (bigint, bigint, integer, numeric[], bytea, text) AS {note}; EXECUTE n ({values}, 'stock')",
                 "DO $$ BEGIN PERFORM * FROM ({call}) AS it; END $$", "SELECT 1; {call}"):
        given = client.arguments("stock", 1, -1)
        values = ", ".join((str(given[1]), str(given[2]), given[3], f"'{given[4]}'", f"'\\x{given[5].hex()}'"))
        call = text.replace("$1, $2, $3, $4, $5", values).replace("$6", "'stock'")
        with refused(errors.InsufficientPrivilege, "escrow.note is for escrowd-proxy"):
            client.execute(form.format(note=text, call=call, values=values))
    # With rights it is good; READ ONLY is PostgreSQL's.
    cluster.run("GRANT SELECT, UPDATE (pieces) ON stock TO buyer")
    buyer.note("stock", 1, -1)
    buyer.execute("BEGIN READ ONLY")
    with refused(errors.ReadOnlySqlTransaction):
        buyer.note("stock", 1, -1)
    buyer.execute("ROLLBACK")
    # What nobody may do but the owners of functions.
    for text in (
        "SELECT * FROM escrow.secret", "INSERT INTO escrow.journal_{n} VALUES (1, 1, 1, 1, 1)", "DELETE FROM escrow.journal_{n}", "SELECT escrow.mac('a')",
        "SELECT escrow.is_fresh(1)", "SELECT setval('escrow.heard', 1)", "SELECT currval('escrow.heard')", "SELECT setval('escrow.epoch', 1)",
        "SELECT escrow.fold_{n}('{{1}}')", "SELECT escrow.row_{n}(1, true)", "SELECT escrow.lock_{n}(1, true)", "SELECT escrow.load_{n}(1, 1, '1')",
        "SELECT escrow.leave_{n}(1, 1, '1')", "SELECT escrow.set_epoch(3)", "DELETE FROM escrow.held_{n}", "UPDATE escrow.declared SET note_text = ''",
    ):
        with refused(errors.InsufficientPrivilege, "permission denied"):
            buyer.execute(text.format(n=table))
    # A table's owner may fold, as anybody may who changes the row: it changes by what the journal has, and by nothing else.
    client.execute("SET escrow.fold = on")
    for text in (f"SELECT escrow.row_{table}(1, true)", "UPDATE stock SET title = 'folded' WHERE id = 1"):
        pieces = value(cluster, "SELECT pieces FROM escrow.now_stock WHERE id = 1")
        client.note("stock", 1, -1)
        client.execute(text)
        same((value(cluster, "SELECT pieces FROM stock WHERE id = 1"), value(cluster, f"SELECT count(*) FROM escrow.journal_{table}")), (pieces - 1, 0))
    with refused(errors.FeatureNotSupported):
        client.execute("UPDATE stock SET pieces = pieces + 5")


@part
def notes_need_the_rights_of_what_they_change(cluster: Cluster) -> None:
    """Those of the columns that have a change, and of the key."""
    make_buyer(cluster)
    for rights, changes in (("SELECT (id, n), UPDATE (n)", (-1, None)), ("SELECT (id, m), UPDATE (m)", (None, -1)), ("SELECT, UPDATE (n, m)", (-1, -1)),
                            ("SELECT (n, m), UPDATE", None), ("SELECT (id), UPDATE", None), ("SELECT", None)):
        cluster.run("SELECT escrow.ordinary(relation::regclass) FROM escrow.declared", "DROP TABLE IF EXISTS pair",
                    "CREATE TABLE pair (id integer PRIMARY KEY, n integer NOT NULL, m integer NOT NULL)", "INSERT INTO pair VALUES (1, 5, 5)",
                    "SELECT escrow.reservable('pair', 'n', 'm')", f"GRANT {rights} ON pair TO buyer")
        owner = Owner(cluster)
        buyer = Client(owner, "buyer")
        for given in ((-1, None), (None, -1), (-1, -1)):
            if changes is not None and all(it is None or may is not None for it, may in zip(given, changes)):
                buyer.note("pair", 1, *given)
            else:
                with refused(errors.InsufficientPrivilege, "permission denied for table pair"):
                    buyer.note("pair", 1, *given)
        owner.keeper.close()
    cluster.run("SELECT escrow.ordinary('pair')", "DROP TABLE pair")


@part
def notes_of_the_past_raise(cluster: Cluster) -> None:
    owner = stock(cluster)
    client, old = Client(owner), Client(owner)
    old.execute("BEGIN ISOLATION LEVEL REPEATABLE READ; SELECT 1")
    client.note("stock", 1, -1)
    # The keeper is gone, and nobody else came.
    owner.keeper.execute("SELECT pg_advisory_unlock(%s)", (owner.epoch,))
    arguments = client.arguments("stock", 1, -1)
    with refused(errors.SerializationFailure, "not the owner any more"):
        client.send(arguments)
    owner.keeper.execute("SELECT pg_advisory_lock(%s)", (owner.epoch,))
    client.note("stock", 1, -1)
    # Another owner. A snapshot of before it does not help.
    waiting = [client.arguments("stock", 1, -1), old.arguments("stock", 1, -1)]
    owner.keeper.close()
    second = Owner(cluster)
    for one, arguments in zip((client, old), waiting):
        with refused(errors.SerializationFailure, "not the owner any more"):
            one.send(arguments)
    old.execute("ROLLBACK")
    # Greetings of the old epoch are over too; connections go on under the new one.
    for one in (client, old):
        one.owner = second
        one.greet()
        one.note("stock", 1, -1)
    same(value(cluster, "SELECT is_proxy FROM escrow.owner()"), True)
    second.keeper.close()
    # A stranger may hold OWNER, and is known. Only who holds both locks sets an epoch.
    make_buyer(cluster)
    with cluster.connect("buyer") as it:
        it.execute("SELECT pg_advisory_lock(%s, %s)", OWNER)
        same(value(cluster, "SELECT (process, is_proxy)::text FROM escrow.owner()"), f"({it.info.backend_pid},f)")
    with cluster.connect() as it, refused(errors.ObjectNotInPrerequisiteState, "the locks of the owner are not held"):
        it.execute("SELECT pg_advisory_lock(6)")
        it.execute("SELECT escrow.set_epoch(6)")


@part
def a_takeover_finds_who_holds(cluster: Cluster) -> None:
    owner = stock(cluster)
    client = Client(owner)
    holders = "SELECT process, prepared FROM escrow.holders()"
    client.execute("BEGIN")
    client.note("stock", 1, -1)
    same(owner.keeper.execute(holders).fetchall(), [(client.connection.info.backend_pid, None)])
    client.execute("SAVEPOINT a; ROLLBACK TO a")
    same(owner.keeper.execute(holders).fetchall(), [(client.connection.info.backend_pid, None)])
    with refused(errors.FeatureNotSupported, "session-level and transaction-level locks"):
        client.execute("PREPARE TRANSACTION 'orphan'")
    same(owner.keeper.execute(holders).fetchall(), [])
    client.execute("BEGIN")
    xid = client.note("stock", 1, -1).id
    client.execute("SELECT pg_advisory_unlock_all()")
    client.execute("PREPARE TRANSACTION 'orphan'")
    same((owner.status(xid), owner.keeper.execute(holders).fetchall()), ("in progress", [(None, "orphan")]))
    # Still so behind a restart, in which PostgreSQL names it anew.
    owner.keeper.close()
    cluster.end(signal.SIGINT)
    cluster.again()
    owner = Owner(cluster)
    same((owner.status(xid), owner.keeper.execute(holders).fetchall()), ("in progress", [(None, "orphan")]))
    cluster.run("COMMIT PREPARED 'orphan'")
    same((owner.status(xid), owner.keeper.execute(holders).fetchall()), ("committed", []))
    client = Client(owner)
    client.execute("BEGIN")
    client.note("stock", 1, -1)
    owner.keeper.execute("SELECT pg_terminate_backend(%s)", (client.connection.info.backend_pid,))
    wait_until("nobody holds it", lambda: owner.keeper.execute(holders).fetchall() == [])


def waits_for_owner(connection: "psycopg.Connection[Any]") -> None:
    """Takes OWNER until the connection is ended."""
    with refused(psycopg.OperationalError):
        connection.execute("SELECT pg_advisory_lock(%s, %s)", OWNER)
        connection.execute("SELECT pg_sleep(60)")


@part
def a_proxy_is_no_superuser(cluster: Cluster) -> None:
    """Its role ends who holds a journal or OWNER, also superusers, and nobody else."""
    owner = stock(cluster)
    make_buyer(cluster)
    cluster.run("DROP ROLE IF EXISTS runner", "CREATE ROLE runner LOGIN IN ROLE escrow_proxy")
    client, bystander = Client(owner), cluster.connect()
    client.execute("BEGIN")
    client.note("stock", 1, -1)
    with cluster.connect("runner") as it, cluster.connect("buyer") as buyer:
        with refused(errors.InsufficientPrivilege):
            it.execute("SELECT pg_terminate_backend(%s)", (client.connection.info.backend_pid,))
        for call in ("escrow.end_holders()", "escrow.end_owner(0)"):
            with refused(errors.InsufficientPrivilege, "permission denied for function"):
                buyer.execute(f"SELECT {call}".encode())
        same(it.execute("SELECT process, prepared FROM escrow.end_holders()").fetchall(), [(client.connection.info.backend_pid, None)])
        wait_until("nobody holds it", lambda: it.execute("SELECT process FROM escrow.end_holders()").fetchall() == [])
        # Who waits for OWNER and may not have it is ended with who has it; a prepared transaction that has it is named.
        owner.keeper.execute("SELECT pg_advisory_unlock(%s, %s)", OWNER)
        others = [buyer, cluster.connect("buyer"), cluster.connect("buyer")]
        waiting = [threading.Thread(target=waits_for_owner, args=(other,)) for other in others]
        for thread in waiting:
            thread.start()
        wait_until("two wait", lambda: value(cluster, "SELECT count(*) FROM pg_locks WHERE locktype = 'advisory' AND NOT granted") == 2)
        same(it.execute("SELECT escrow.end_owner(3)").fetchall(), [(3,)])
        for thread in waiting:
            thread.join()
        until_free(cluster)
        cluster.run(f"BEGIN; SELECT pg_advisory_xact_lock({OWNER[0]}, {OWNER[1]}); PREPARE TRANSACTION 'mine'")
        same(it.execute("SELECT process, prepared FROM escrow.holders()").fetchall(), [(None, "mine")])
        cluster.run("ROLLBACK PREPARED 'mine'")
        assert owner.one("SELECT pg_try_advisory_lock(%s, %s)", *OWNER)[0]
        # An owner is left for a second at least, and ended when it was silent for longer.
        begin = time.monotonic()
        owner.one("SELECT 1")
        ended = it.execute("SELECT escrow.end_owner(0)").fetchall()
        assert ended == [(0,)] or time.monotonic() - begin > 1, ended
        wait_until("it is ended", lambda: ended == [(1,)] or it.execute("SELECT escrow.end_owner(0)").fetchall() == [(1,)])
    bystander.execute("SELECT 1")
    cluster.run("DROP ROLE runner")


@part
def a_former_owner_leaves_no_row_of_the_next(cluster: Cluster) -> None:
    former = stock(cluster)
    former.load("stock", 1)
    former.keeper.close()
    owner = Owner(cluster)
    owner.load("stock", 1)
    client = Client(owner)
    client.execute("BEGIN")
    client.note("stock", 1, -1)
    former.keeper = cluster.connect()
    with refused(errors.SerializationFailure, "not the owner any more"):
        former.leave("stock", 1)
    with cluster.connect() as it:
        with refused(errors.ObjectInUse, "the row of stock is held by escrowd-proxy"):
            it.execute(b"DELETE FROM stock WHERE id = 1")
    client.execute("COMMIT")
    same(owner.fold("stock", 1), ["1"])
    same(owner.leave("stock", 1), True)
    cluster.run("DELETE FROM stock WHERE id = 1")
    same(owner.fold("stock", 1), ["1"])  # nothing is left of it


@part
def a_change_without_a_reservation_is_one_of_its_epoch(cluster: Cluster) -> None:
    """A row that its owner had not yet loaded when the change was sent, and that it had when the change came, behind the next owner's epoch."""
    former = stock(cluster)
    late, client = Client(former), Client(former)
    same(late.here("stock", 2, -1), True)
    same(value(cluster, "SELECT pieces FROM stock WHERE id = 2"), 9)
    # Nobody but PostgreSQL has judged it. So it is folded in any case, and waits for a lock of the table.
    with cluster.connect() as it:
        it.execute("BEGIN; LOCK TABLE stock IN SHARE MODE")
        late.execute("SET lock_timeout = 50")
        with refused(errors.LockNotAvailable):
            late.here("stock", 2, -10)
    with refused(errors.CheckViolation):
        late.here("stock", 2, -10)
    former.load("stock", 1)
    same(late.here("stock", 1, -10), False)
    client.execute("BEGIN")
    client.note("stock", 1, -10)
    former.keeper.close()
    owner = Owner(cluster)
    former.keeper = cluster.connect()
    late.execute("BEGIN")
    with refused(errors.SerializationFailure, "not the owner any more"):
        late.here("stock", 1, -10)
    client.execute("COMMIT")
    same(owner.load("stock", 1), ["0"])


@part
def a_crash_ends_the_epoch(cluster: Cluster) -> None:
    owner = stock(cluster)
    client = Client(owner)
    client.note("stock", 1, -1)
    cluster.run("CHECKPOINT")
    cluster.kill()
    cluster.again()
    same(value(cluster, "SELECT last_value FROM escrow.epoch"), 0)
    late = Owner.__new__(Owner)
    late.__dict__.update(owner.__dict__, keeper=cluster.connect())
    zombie = Client(late, greets=False)
    with refused(errors.SerializationFailure, "not the owner any more"):
        zombie.greet()
    second = Owner(cluster)
    same(second.load("stock", 1), ["9"])
    # A clean stop keeps the epoch, but nobody has its lock.
    third = Client(second)
    third.note("stock", 1, -1)
    cluster.end(signal.SIGINT)
    cluster.again()
    same(value(cluster, "SELECT last_value FROM escrow.epoch"), second.epoch)
    late.__dict__.update(second.__dict__, keeper=cluster.connect())
    zombie = Client(late)
    with refused(errors.SerializationFailure, "not the owner any more"):
        zombie.note("stock", 1, -1)


class Load:
    """Threads that repeat steps until they are stopped. A fault in one of them stops all."""

    def __init__(self) -> None:
        self.stop = threading.Event()
        self.faults: List[BaseException] = []
        self.threads: List[threading.Thread] = []
        self.counts: Dict[str, int] = {}

    def add(self, name: str, step: Callable[[], None]) -> None:
        """Adds a thread, which begins at once."""

        def repeat() -> None:
            try:
                while not self.stop.is_set():
                    step()
                    self.counts[name] = self.counts.get(name, 0) + 1
            except BaseException as fault:  # pylint: disable=broad-exception-caught  # the case raises it
                self.faults.append(fault)
                self.stop.set()

        self.threads.append(threading.Thread(target=repeat))
        self.threads[-1].start()

    def end(self, seconds: float, **counts: int) -> None:
        """Waits so long, and until each name has so many steps. Stops all threads then, and fails if one of them failed."""
        self.stop.wait(seconds)
        try:
            wait_until(f"steps {counts}", lambda: self.stop.is_set() or all(self.counts.get(it, 0) > least for it, least in counts.items()))
        finally:
            self.stop.set()
        for thread in self.threads:
            thread.join()
        if self.faults:
            raise self.faults[0]


@part
def folds_keep_sums(cluster: Cluster) -> None:
    """Writers add one, and take it once that is committed. No fold of any part of it is refused, and `now` is exact."""
    owner = stock(cluster, 0, "pieces BETWEEN 0 AND 8")
    owner.load("stock", 1)
    table = owner.declared("stock")[0]
    lock = threading.Lock()
    load = Load()

    def writes(client: Client, kind: int) -> Callable[[], None]:
        begin = ("", "BEGIN ISOLATION LEVEL REPEATABLE READ", "BEGIN", "BEGIN; SAVEPOINT a")[kind]
        own = client.owner.one("SELECT own_text FROM escrow.declared")[0]

        def step() -> None:
            for change in (1, -1):
                with lock:
                    arguments = client.arguments("stock", 1, change)
                if begin:
                    client.execute(begin + "; INSERT INTO orders (pieces) VALUES (1)")
                client.send(arguments)
                if kind >= 2:
                    perform(client.connection, own, (array([1]),))
                if begin:
                    client.execute("COMMIT")

        return step

    def asks(query: str, is_good: Callable[[Any], bool]) -> Callable[[], None]:
        connection = cluster.connect()

        def step() -> None:
            found = connection.execute(query.encode())
            if found.description:
                assert is_good(found.fetchone()), query

        return step

    for n in range(8):
        load.add("writers", writes(Client(owner), n % 4))
    for _ in range(2):
        load.add("folders", asks(f"SELECT count(*) FROM escrow.fold_{table}('{{1}}')", lambda row: bool(row[0] in (0, 1))))
    load.add("looks", asks("SELECT pieces FROM escrow.now_stock WHERE id = 1", lambda row: bool(0 <= row[0] <= 8)))
    load.add("late looks", asks("SELECT pieces FROM stock WHERE id = 1", lambda row: bool(0 <= row[0] <= 8)))
    load.add("titles", asks("UPDATE stock SET title = clock_timestamp()::text WHERE id = 1", lambda _: True))
    load.end(4, writers=100, folders=50)
    owner.fold("stock", 1)
    same(value(cluster, "SELECT pieces FROM stock WHERE id = 1"), 0)
    same(value(cluster, f"SELECT count(*) FROM escrow.journal_{table}"), 0)


@part
def direct_notes_are_in_the_row(cluster: Cluster) -> None:
    owner = stock(cluster)
    make_buyer(cluster)
    owner.load("stock", 1)
    pieces = "SELECT pieces FROM stock WHERE id = 1"
    client, buyer = Client(owner), Client(owner, "buyer")
    journal = f"SELECT count(*) FROM escrow.journal_{owner.declared('stock')[0]}"
    assert client.direct("stock", 1, -1)
    same((value(cluster, pieces), value(cluster, journal)), (9, 0))
    # It folds what others have committed.
    Client(owner).note("stock", 1, -2)
    assert client.direct("stock", 1, -1)
    same((value(cluster, pieces), value(cluster, journal)), (6, 0))
    Client(owner).note("stock", 1, 1)
    assert client.direct("stock", 1, -1)
    same((value(cluster, pieces), value(cluster, journal)), (6, 0))
    # Where somebody has the row's lock, and in another isolation, it is a note.
    with cluster.connect() as it:
        for lock in ("UPDATE stock SET title = 'locked' WHERE id = 1", "LOCK TABLE stock IN SHARE MODE"):
            it.execute(f"BEGIN; {lock}".encode())
            assert not client.direct("stock", 1, -1)
            it.execute("COMMIT")
    assert client.direct("stock", 1, 1)
    client.execute("SET default_transaction_isolation = 'repeatable read'")
    assert not client.direct("stock", 1, -1)
    assert not client.direct("stock", 1, -1)
    same((value(cluster, pieces), value(cluster, journal)), (5, 2))
    client.execute("RESET default_transaction_isolation")
    assert client.direct("stock", 1, -1)
    same((value(cluster, pieces), value(cluster, journal)), (2, 0))
    # Words that are null are left out of what a proof is over. So nothing is called with them.
    for place in (2, 3, 4):
        arguments = client.direct_arguments("stock", 1, -1)
        arguments[place] = None
        words = (owner.epoch, client.connection.info.backend_pid, arguments[2], arguments[4], arguments[3])
        arguments[5] = owner.mac("note", owner.declared("stock")[0], *(it for it in words if it is not None))
        same(perform(client.connection, arguments[0], arguments[1:]).fetchone(), (None,))
    same((value(cluster, pieces), value(cluster, journal)), (2, 0))
    # What a note is refused for, it is too.
    with refused(errors.InsufficientPrivilege, "permission denied for table stock"):
        buyer.direct("stock", 1, -1)
    with refused(errors.ReadOnlySqlTransaction):
        client.execute("SET default_transaction_read_only = on")
        client.direct("stock", 1, -1)
    # The owner is gone: nothing is left of it. A row that is not there gets a note, which a CHECK on the key's row never sees.
    client.execute("RESET default_transaction_read_only")
    second = cluster.connect()
    owner.keeper.execute(f"SELECT pg_advisory_unlock({owner.epoch})".encode())
    with refused(errors.SerializationFailure, "not the owner any more"):
        client.direct("stock", 1, -1)
    same((value(cluster, pieces), value(cluster, journal)), (2, 0))
    second.close()


@part
def a_takeover_waits_for_direct_notes(cluster: Cluster) -> None:
    """Its UPDATE is in nobody's journal, so the lock on the journal has to tell of it."""
    owner = stock(cluster)
    owner.load("stock", 1)
    client = Client(owner)
    client.execute("BEGIN")
    outer = client.send(client.direct_arguments("stock", 1, -1))
    assert outer.folded
    same([it[0] for it in owner.keeper.execute("SELECT process FROM escrow.holders()")], [client.connection.info.backend_pid])
    # Inside of a block its id is that of the subtransaction which wrote the row.
    client.execute("SAVEPOINT a")
    inner = client.send(client.direct_arguments("stock", 1, -1))
    assert inner.folded and inner.id != outer.id
    client.execute("ROLLBACK TO a")
    same((owner.status(outer.id), owner.status(inner.id)), ("in progress", "aborted"))
    client.execute("COMMIT")
    same((owner.status(outer.id), value(cluster, "SELECT pieces FROM stock WHERE id = 1")), ("committed", 9))


@part
def marks_of_former_epochs_go(cluster: Cluster) -> None:
    owner = stock(cluster)
    table = owner.declared("stock")[0]
    for key in (1, 2, 3, 4):
        owner.load("stock", key)
    Client(owner).note("stock", 2, -4)
    owner.keeper.close()
    until_free(cluster)
    second = Owner(cluster)
    second.load("stock", 1)

    def sweep(owner: Owner, most: int) -> Any:
        return second.one(f"SELECT escrow.sweep_{table}(%s, %s)", owner.epoch, most)[0]

    held = f"SELECT array_agg(key ORDER BY key) FROM escrow.held_{table}"
    # The former owner removes no mark of the new one.
    with refused(errors.SerializationFailure, "not the owner any more"):
        sweep(owner, 10)
    with cluster.connect() as it:
        it.execute("BEGIN; UPDATE stock SET title = 'locked' WHERE id = 3")
        same((sweep(second, 1), sweep(second, 10), sweep(second, 10)), (1, 1, -1))
        same(value(cluster, held), [1, 3])
        it.execute("COMMIT")
    same((sweep(second, 10), sweep(second, 10), value(cluster, held)), (1, 0, [1]))
    same(value(cluster, "SELECT pieces FROM stock WHERE id = 2"), 6)
    cluster.run("DELETE FROM stock WHERE id = 4")
    with refused(errors.ObjectInUse):
        cluster.run("DELETE FROM stock WHERE id = 1")


@part
def a_look_takes_little_time(cluster: Cluster) -> None:
    """However many holds are over at once: the keeper must not be silent for three seconds."""
    owner = stock(cluster)
    count, lines = 120, 240
    cluster.run("INSERT INTO escrow.hold_names (name, maker, since, until) SELECT 'over/' || i, 'clerk', now(), now() "
                f"FROM generate_series(1, {count}) AS i",
                "INSERT INTO escrow.hold_lines (epoch, number, hold, \"table\", key, changes) SELECT 7, 1000 * h.number + i, h.number, 1, i::text, '{1}' "
                f"FROM escrow.hold_names AS h CROSS JOIN generate_series(1, {lines}) AS i WHERE h.name LIKE 'over/%'")
    ended: List[Tuple[int, int]] = []
    done: List[Tuple[int, int]] = []
    begun = time.monotonic()
    parts = 0
    while not done or ended:
        begin = time.monotonic()
        ended = owner.keeper.execute("SELECT epoch, number FROM escrow.look(%s, %s::bigint[], %s::bigint[], '{}')",
                                     (owner.epoch, [it for it, _ in ended], [it for _, it in ended])).fetchall()
        assert time.monotonic() - begin < 2, f"a look took {time.monotonic() - begin:.1f} s"
        # A hold that has ended in part is over, whatever another machine's clock says.
        in_part = "SELECT count(*) FROM escrow.hold_lines AS l JOIN escrow.hold_names AS h ON h.number = l.hold WHERE h.state = 'standing' AND NOT l.stands"
        parts += value(cluster, in_part)
        same(value(cluster, f"{in_part} AND h.until > '-infinity'"), 0)
        done += ended
    print(f"  {len(done)} lines in {time.monotonic() - begun:.1f} s")
    assert parts > 0, "no hold has ended in parts"
    same((len(set(done)), value(cluster, "SELECT count(*) FROM escrow.hold_lines"),
          value(cluster, "SELECT count(*) FROM escrow.hold_names WHERE name LIKE 'over/%' AND state = 'expired'")), (count * lines, 0, count))
    owner.keeper.close()


@part
def names_are_no_program(cluster: Cluster) -> None:
    """Functions are made of a table's names. What a name has is no statement."""
    cluster.run("SELECT escrow.ordinary(relation::regclass) FROM escrow.declared", "CREATE ROLE mallory LOGIN", "CREATE SCHEMA mallory AUTHORIZATION mallory")
    good = "x'; $f$ %1$s %% $$ \\ $b$ END; --"
    evil = "x $body$; ALTER ROLE mallory SUPERUSER; SELECT $body$"
    with cluster.connect("mallory") as it:
        it.execute("SET search_path = mallory; SET check_function_bodies = off")
        for name in (evil, good):
            for table in (f'"{name}" (id integer PRIMARY KEY, n integer NOT NULL)', f't (id integer PRIMARY KEY, "{name}" integer NOT NULL)',
                          f't ("{name}" text PRIMARY KEY, n integer NOT NULL)'):
                it.execute(f"CREATE TABLE {table}".encode())
                first, column = it.execute(b"SELECT c.oid::regclass::text, a.attname FROM pg_class AS c JOIN pg_attribute AS a ON a.attrelid = c.oid "
                                           b"WHERE relkind = 'r' AND relnamespace = 'mallory'::regnamespace AND attnum = 2").fetchall()[0]
                declare = b"SELECT escrow.reservable(%s, %s)"
                if name == evil:
                    with refused(errors.InvalidTableDefinition, "a name of it has $body$"):
                        it.execute(declare, (first, column))
                else:
                    it.execute(declare, (first, column))
                    it.execute(f"INSERT INTO {first} VALUES ('1', 5)".encode())
                    owner = Owner(cluster)
                    relation = owner.one("SELECT relation::text FROM escrow.declared")[0]
                    same(owner.load(relation, 1), ["5"])
                    Client(owner).note(relation, 1, -2)
                    same(owner.fold(relation, 1), ["1"])
                    same(owner.one(f'SELECT "{column}" FROM {relation}'.replace("%", "%%"))[0], 3)
                    owner.keeper.close()
                    until_free(cluster)
                    it.execute(b"SELECT escrow.ordinary(%s)", (first,))
                it.execute(f"DROP TABLE {first}".encode())
    same(value(cluster, "SELECT rolsuper FROM pg_roles WHERE rolname = 'mallory'"), False)
    cluster.run("DROP SCHEMA mallory CASCADE", "DROP ROLE mallory")


@part
def functions_of_the_owner_stay(cluster: Cluster) -> None:
    """The owner of a table owns functions of its folds. Altered, they would run triggers as the journals' owner."""
    cluster.run("SELECT escrow.ordinary(relation::regclass) FROM escrow.declared", "CREATE ROLE mallory LOGIN", "CREATE SCHEMA mallory AUTHORIZATION mallory")
    with cluster.connect("mallory") as it:
        it.execute("CREATE TABLE mallory.t (id integer PRIMARY KEY, n integer NOT NULL); SELECT escrow.reservable('mallory.t', 'n')")
        n = it.execute("SELECT number FROM escrow.declared").fetchall()[0][0]
        own = it.execute(b"SELECT f::regprocedure::text, proconfig IS NOT NULL FROM escrow.functions(%s) AS f JOIN pg_proc AS p ON p.oid = f"
                         b" WHERE proowner = 'mallory'::regrole", (n,)).fetchall()
        same(len(own), 5)
        for name, has_settings in own:
            for text in ("ALTER FUNCTION {} SECURITY INVOKER", "ALTER ROUTINE {} SECURITY INVOKER", "ALTER FUNCTION {} SET search_path = mallory",
                         "ALTER FUNCTION {} RENAME TO x", "DROP FUNCTION {}", *["ALTER FUNCTION {} RESET ALL"] * has_settings,
                         "CREATE OR REPLACE FUNCTION {} RETURNS boolean LANGUAGE sql AS 'SELECT true'"):
                try:
                    it.execute(text.format(name).encode())
                except psycopg.Error:
                    continue
                raise AssertionError(f"not refused: {text} {name}")
        it.execute("CREATE FUNCTION mallory.f() RETURNS void LANGUAGE sql AS ''; ALTER FUNCTION mallory.f() COST 3; SELECT escrow.ordinary('mallory.t')")
    cluster.run("DROP SCHEMA mallory CASCADE", "DROP ROLE mallory")


@part
def nobody_calls_what_is_not_theirs(cluster: Cluster) -> None:
    """Which functions of schema escrow a role without rights may call, and which of them run with the rights of their owner."""
    owner = stock(cluster)
    n = owner.declared("stock")[0]
    cluster.run("DROP ROLE IF EXISTS buyer2", "CREATE ROLE buyer2")
    query = """SELECT proname FROM pg_proc WHERE pronamespace = 'escrow'::regnamespace AND has_function_privilege('buyer2', oid, 'EXECUTE') AND prosecdef
               ORDER BY proname"""
    same([name for name, in owner.keeper.execute(query.encode())],
         sorted(["greet", "reservable", "ordinary", "hold", "take", "take", "release", "prolong", "keep_declared",
                 *(f"{it}_{n}" for it in ("note", "direct", "here", "own"))]))
    query = """SELECT relname FROM pg_class WHERE relnamespace = 'escrow'::regnamespace AND relkind IN ('r', 'v', 'S')
               AND (has_any_column_privilege('buyer2', oid, 'SELECT')
        OR has_table_privilege('buyer2', oid, 'INSERT, UPDATE, DELETE, TRUNCATE'))"""
    same(sorted(name for name, in owner.keeper.execute(query.encode())), ["declared", "holds"])
    without_path = """SELECT proname FROM pg_proc WHERE pronamespace = 'escrow'::regnamespace AND prosecdef
                      AND NOT coalesce(proconfig, '{}') && ARRAY['search_path=pg_catalog, pg_temp'] ORDER BY proname"""
    same([name for name, in owner.keeper.execute(without_path.encode())], [f"{name}_{n}" for name in PATHLESS])
    cluster.run("DROP ROLE buyer2")


# The functions that set no path of search, and run with the rights of their owner.
PATHLESS = ("direct", "guard", "lock", "note", "own", "row")
# All that they could name of another schema's: functions, operators and types, each of which raises.
EVIL = """
WITH types AS (SELECT oid, typname FROM pg_type WHERE oid = ANY (
    '{int2,int4,int8,numeric,text,bytea,bool,xid,xid8,name,oid,text[],numeric[]}'::regtype[]::oid[]))
SELECT format('CREATE FUNCTION evil.%I(%s) RETURNS %s LANGUAGE plpgsql AS $$ BEGIN RAISE EXCEPTION ''evil''; END $$', p.proname,
    pg_get_function_identity_arguments(p.oid), pg_get_function_result(p.oid))
FROM pg_proc AS p WHERE p.pronamespace = 'pg_catalog'::regnamespace AND p.prokind = 'f' AND p.proname ~ '^[a-z]'
    AND NOT (p.proargtypes::oid[] || p.prorettype) && ARRAY['internal', 'cstring', '"any"']::regtype[]::oid[]
    AND EXISTS (SELECT FROM pg_proc AS f WHERE f.pronamespace = 'escrow'::regnamespace AND f.proname ~ '^(direct|guard|lock|note|own|row)_[0-9]'
        AND f.prosrc ~ ('\\m' || p.proname || '\\M'))
UNION ALL
SELECT format('CREATE FUNCTION evil.op%s(%s, %s) RETURNS %s LANGUAGE plpgsql AS $$ BEGIN RAISE EXCEPTION ''evil''; END $$; '
    'CREATE OPERATOR evil.%s (FUNCTION = evil.op%1$s, LEFTARG = %2$s, RIGHTARG = %3$s)', oid, oprleft::regtype, oprright::regtype, oprresult::regtype, oprname)
FROM pg_operator WHERE oprnamespace = 'pg_catalog'::regnamespace AND oprname IN ('=', '<>', '<', '>', '+', '||')
    AND oprleft IN (SELECT oid FROM types) AND oprright IN (SELECT oid FROM types)
UNION ALL SELECT format('CREATE DOMAIN evil.%I AS pg_catalog.circle', typname) FROM types"""


@part
def functions_without_a_path_need_none(cluster: Cluster) -> None:
    """They do the same where all that they name stands in another schema too, and that comes first."""
    owner = stock(cluster)
    table = owner.declared("stock")[0]
    owner.load("stock", 1)
    cluster.run("CREATE SCHEMA evil", "GRANT USAGE ON SCHEMA evil TO PUBLIC")
    with cluster.connect() as it:
        made = [text for text, in it.execute(EVIL.encode())]
        it.execute("; ".join(made).encode())
    assert len(made) > 120, made
    path = "SET search_path = evil, pg_catalog, public"
    client = Client(owner)
    client.execute(path)
    with refused(errors.RaiseException, "evil"):
        client.execute("SELECT 1 = 1")
    pieces = "SELECT pieces FROM stock WHERE id = 1"
    client.execute("BEGIN")
    client.note("stock", 1, -1)
    client.fold("stock", 1)
    client.execute("COMMIT")
    same(value(cluster, pieces), 9)
    assert client.direct("stock", 1, -2)
    client.note("stock", 1, -1)
    client.execute("SET escrow.fold = on; UPDATE stock SET title = 'folded' WHERE id OPERATOR(pg_catalog.=) 1; RESET escrow.fold")
    same(value(cluster, pieces), 6)
    client.note("stock", 1, -3)
    owner.keeper.execute(path)
    same([key for key, in owner.keeper.execute(f"SELECT escrow.fold_{table}('{{1}}')".encode())], ["1"])
    same(value(cluster, pieces), 3)
    with refused(errors.FeatureNotSupported, "are changed by escrowd-proxy alone"):
        client.execute("UPDATE stock SET pieces = 5")
    client.execute("INSERT INTO stock (id, pieces) VALUES (78, 1); UPDATE stock SET pieces = 2 WHERE id OPERATOR(pg_catalog.=) 78")
    cluster.run("DROP SCHEMA evil CASCADE")


@part
def sums_fit_their_types(cluster: Cluster) -> None:
    """PostgreSQL fails where a sum of integers leaves its type. So the server is told these limits too."""
    cases: List[Tuple[str, List[Tuple[str, str, int]]]] = [
        ("a + b >= 0", [("1 1", "<=", 32767), ("1 1", ">=", -32768)]),
        ("a <= b", []),
        ("2 * a <= b + 5", [("2 0", "<=", 2147483647), ("2 0", ">=", -2147483648), ("0 1", "<=", 2147483642), ("0 1", ">=", -2147483653)]),
        ("a - (b - 7) >= 3", [("0 1", "<=", 2147483654), ("0 1", ">=", -2147483641), ("1 -1", "<=", 2147483640), ("1 -1", ">=", -2147483655)]),
        ("5 - (a + b) >= 0", [("1 1", "<=", 32767), ("1 1", ">=", -32768), ("-1 -1", "<=", 2147483642), ("-1 -1", ">=", -2147483653)]),
        ("a::integer + b >= 0", [("1 1", "<=", 2147483647), ("1 1", ">=", -2147483648)]),
        ("a::bigint + b >= 0", []),
        ("a::numeric + b >= 0", []),
        ("-a <= 5", [("-1 0", "<=", 32767), ("-1 0", ">=", -32768)]),
    ]
    with cluster.connect() as it:
        it.execute("SELECT escrow.ordinary(relation::regclass) FROM escrow.declared")
        for condition, expected in cases:
            it.execute("CREATE TABLE t (id integer PRIMARY KEY, a smallint NOT NULL, b smallint NOT NULL)")
            it.execute(f"ALTER TABLE t ADD CONSTRAINT it CHECK ({condition})".encode())
            it.execute("SELECT escrow.reservable('t', 'a', 'b')")
            found = it.execute("SELECT array_to_string(ARRAY(SELECT jsonb_array_elements_text(c->'coefficients')), ' '), c->>'comparison', "
                               "(c->>'limit')::bigint "
                               "FROM escrow.declared, jsonb_array_elements(checks) AS c WHERE c ? 'range'").fetchall()
            same(sorted(found), sorted(expected))
            it.execute("SELECT escrow.ordinary('t'); DROP TABLE t")


@part
def reservations_are_shown_to_who_may_know(cluster: Cluster) -> None:
    owner = stock(cluster)
    make_buyer(cluster)
    n = owner.declared("stock")[0]
    entries = (f'[{{"process": 42, "table": {n}, "key": "7", "changes": ["-3"], "since": "2026-01-01T00:00:00Z"}}, '
               f'{{"process": 43, "table": {n}, "key": "8", "changes": [null]}}, '
               f'{{"table": {n}, "changes": [], "since": "2026-01-02T00:00:00Z", "stopped": "why"}}]')
    query = "SELECT process, relation::text, key, \"column\", change, extract(year FROM since), stopped FROM escrow.reservations() ORDER BY process"
    with cluster.connect() as it, cluster.connect("buyer") as buyer:
        with refused(errors.ObjectNotInPrerequisiteState, "only escrowd-proxy knows"):
            it.execute(query.encode())
        for connection in (it, buyer):
            connection.execute("SELECT escrow.show(%s)", (entries,))
        same(it.execute(query.encode()).fetchall(), [(42, "stock", "7", "pieces", -3, 2026, None), (None, "stock", None, None, None, 2026, "why")])
        with refused(errors.InsufficientPrivilege, "permission denied for function escrow.reservations"):
            buyer.execute(query.encode())
        same(buyer.execute("SELECT current_setting('escrow.shown', true)").fetchall()[0][0], None)


@part
def only_a_tables_owner_lets_it_go_on(cluster: Cluster) -> None:
    stock(cluster)
    make_buyer(cluster)
    with cluster.connect() as listener, cluster.connect("buyer") as buyer:
        listener.execute("LISTEN escrow_declared")
        with refused(errors.InsufficientPrivilege, "must be owner of table public.stock"):
            buyer.execute("SELECT escrow.resume('stock')")
        with refused(errors.ObjectNotInPrerequisiteState, "public.orders is not declared reservable"):
            listener.execute("SELECT escrow.resume('orders')")
        number = listener.execute("SELECT number::text FROM escrow.declared").fetchall()[0][0]
        found: List[str] = []
        listener.add_notify_handler(lambda it: found.append(it.payload))
        listener.execute("SELECT escrow.resume('stock')")
        same(found, [number])


@part
def triggers_run_with_the_owners_rights(cluster: Cluster) -> None:
    owner = stock(cluster)
    cluster.run(
        "CREATE TABLE audit (who name, pieces integer)",
        "CREATE FUNCTION record() RETURNS trigger LANGUAGE plpgsql AS 'BEGIN INSERT INTO audit VALUES (current_user, NEW.pieces); RETURN NULL; END'",
        "CREATE TRIGGER record AFTER UPDATE ON stock FOR EACH ROW WHEN (OLD.pieces <> NEW.pieces) EXECUTE FUNCTION record()",
    )
    owner.load("stock", 1)
    Client(owner).note("stock", 1, -4)
    owner.fold("stock", 1)
    same(value(cluster, "SELECT (who, pieces)::text FROM audit"), "(clerk,6)")
    # One that does the fold's change once more is stopped by the guard, so the fold is refused.
    cluster.run(
        "CREATE OR REPLACE FUNCTION record() RETURNS trigger LANGUAGE plpgsql AS "
        "'BEGIN IF pg_trigger_depth() = 1 THEN UPDATE stock SET pieces = pieces - 1 WHERE id = NEW.id; END IF; RETURN NULL; END'"
    )
    Client(owner).note("stock", 1, -1)
    with refused(errors.FeatureNotSupported, "are changed by escrowd-proxy alone"):
        owner.fold("stock", 1)
    # One that keeps it away, too.
    cluster.run("ALTER TABLE stock DISABLE TRIGGER record", "CREATE FUNCTION keep() RETURNS trigger LANGUAGE plpgsql AS 'BEGIN RETURN NULL; END'",
                "CREATE TRIGGER keep BEFORE UPDATE ON stock FOR EACH ROW EXECUTE FUNCTION keep()")
    with refused(errors.TriggeredDataChangeViolation, "a trigger has kept a change of stock away"):
        owner.fold("stock", 1)
    cluster.run("DROP TRIGGER keep ON stock", "DROP FUNCTION keep")
    cluster.run("DROP TRIGGER record ON stock", "DROP FUNCTION record")
    owner.fold("stock", 1)
    same(value(cluster, "SELECT pieces FROM stock WHERE id = 1"), 5)


@part
def folds_wait_for_nobody(cluster: Cluster) -> None:
    owner = stock(cluster)
    with cluster.connect() as it:
        it.execute("BEGIN; UPDATE stock SET title = 'locked' WHERE id = 1")
        Client(owner).note("stock", 1, -1)
        Client(owner).note("stock", 2, -1)
        same(owner.fold("stock", 1, 2), ["2"])
        it.execute("COMMIT; BEGIN; LOCK TABLE stock")
        owner.keeper.execute("SET lock_timeout = 10")  # as the folder has it
        with refused(errors.LockNotAvailable):
            owner.fold("stock", 1)
        it.execute("COMMIT")
    same(owner.fold("stock", 1), ["1"])
    with cluster.connect() as it, refused(errors.InvalidTransactionState, "READ COMMITTED"):
        it.execute("BEGIN ISOLATION LEVEL REPEATABLE READ")
        it.execute(f"SELECT escrow.fold_{owner.declared('stock')[0]}('{{1}}')".encode())


@part
def own_folds_never_raise(cluster: Cluster) -> None:
    owner = stock(cluster)
    make_buyer(cluster)
    owner.load("stock", 1)
    pieces = "SELECT pieces FROM stock WHERE id = 1"
    client, other, buyer = Client(owner), Client(owner), Client(owner, "buyer")
    other.note("stock", 1, -1)
    client.execute("BEGIN")
    client.note("stock", 1, -2)
    client.fold("stock", 1)
    same(value(cluster, pieces), 10)
    client.execute("COMMIT")
    same(value(cluster, pieces), 7)  # with what others had committed
    # It takes no part in REPEATABLE READ, and does nothing for who has no right, or by another text.
    client.execute("BEGIN ISOLATION LEVEL REPEATABLE READ")
    client.note("stock", 1, -1)
    client.fold("stock", 1)
    client.execute("COMMIT")
    buyer.fold("stock", 1)
    cluster.run("GRANT UPDATE (pieces) ON stock TO buyer")  # without the right to see the key
    buyer.fold("stock", 1)
    client.execute(f"SELECT escrow.own_{owner.declared('stock')[0]}('{{1}}', true)")
    same(value(cluster, pieces), 7)
    # A row, a table or what a trigger writes that somebody has locked: COMMIT is good, and waits for nobody. An error, of any kind: it is good.
    cluster.run("CREATE FUNCTION acts() RETURNS trigger LANGUAGE plpgsql AS 'BEGIN UPDATE audit SET n = n + 1; RETURN NEW; END'",
                "CREATE TABLE audit (n integer)", "INSERT INTO audit VALUES (0)",
                "CREATE TRIGGER acts BEFORE UPDATE ON stock FOR EACH ROW EXECUTE FUNCTION acts()")

    def commits() -> None:
        begin = time.monotonic()
        client.execute("BEGIN; INSERT INTO orders (pieces) VALUES (1)")
        client.note("stock", 1, -1)
        client.fold("stock", 1)
        client.execute("COMMIT")
        assert time.monotonic() - begin < 10, "it has waited until its statement_timeout"

    with cluster.connect() as it:
        for lock in ("UPDATE stock SET title = 'x' WHERE id = 1", "LOCK TABLE stock", "LOCK TABLE stock IN SHARE MODE", "UPDATE audit SET n = 5"):
            it.execute(f"BEGIN; {lock}".encode())
            commits()
            it.execute("ROLLBACK")
    for act in ("RAISE EXCEPTION ''no''", "ASSERT false", "RAISE query_canceled"):
        cluster.run(f"CREATE OR REPLACE FUNCTION acts() RETURNS trigger LANGUAGE plpgsql AS 'BEGIN {act}; END'")
        commits()
    client.fold("stock", 1, "no number")
    same((value(cluster, pieces), value(cluster, "SELECT pieces FROM escrow.now_stock WHERE id = 1")), (7, -1))
    cluster.run("DROP TRIGGER acts ON stock", "DROP FUNCTION acts", "DROP TABLE audit")
    Client(owner).note("stock", 1, 3)
    client.fold("stock", 1)
    same(value(cluster, pieces), 2)
    # A row that the transaction has written itself, by an UPDATE of another column.
    client.execute("BEGIN; UPDATE stock SET title = 'mine' WHERE id = 1")
    client.note("stock", 1, -1)
    client.fold("stock", 1)
    same(client.execute(pieces).fetchall(), [(1,)])
    client.execute("COMMIT")
    same(value(cluster, pieces), 1)


@part
def definitions_stay(cluster: Cluster) -> None:
    stock(cluster)
    with cluster.connect() as it:
        it.execute("CREATE TEMP TABLE mine (LIKE stock INCLUDING ALL)")
        for text in (
            "ALTER TABLE stock RENAME TO ware", "ALTER TABLE stock RENAME COLUMN pieces TO items", "ALTER TABLE stock RENAME COLUMN id TO nr",
            "ALTER TABLE stock ADD CHECK (pieces < 100)", "ALTER TABLE stock ADD CHECK (title <> 'row 1') NOT VALID",
            "ALTER TABLE stock DROP CONSTRAINT in_stock", "ALTER TABLE stock DROP CONSTRAINT stock_pkey",
            "ALTER TABLE stock ALTER pieces DROP NOT NULL", "ALTER TABLE stock ENABLE ROW LEVEL SECURITY", "ALTER TABLE stock DISABLE TRIGGER ALL",
            "ALTER TABLE stock DISABLE TRIGGER \"~escrow guard\"", "DROP TRIGGER \"~escrow guard\" ON stock", "CREATE UNIQUE INDEX ON stock (pieces)",
            "CREATE RULE r AS ON UPDATE TO stock DO INSTEAD NOTHING", "CREATE TABLE child () INHERITS (stock)", "DROP TABLE stock CASCADE",
            "CREATE TEMP TABLE child () INHERITS (stock)", "ALTER TABLE mine INHERIT stock",
            "ALTER TRIGGER \"~escrow guard\" ON stock RENAME TO x", "ALTER TABLE stock SET SCHEMA pg_temp",
            "CREATE TRIGGER \"~later\" BEFORE UPDATE ON stock FOR EACH ROW EXECUTE FUNCTION suppress_redundant_updates_trigger()",
            # By words for other things than tables.
            "ALTER INDEX stock RENAME TO ware", "ALTER VIEW stock RENAME COLUMN pieces TO items", "ALTER MATERIALIZED VIEW stock RENAME COLUMN id TO nr",
            "ALTER FOREIGN TABLE stock RENAME COLUMN id TO nr", "ALTER TYPE stock RENAME ATTRIBUTE pieces TO items",
        ):
            try:
                it.execute(text.encode())
            except psycopg.Error:
                continue
            raise AssertionError(f"not refused: {text}")
        for text in ("ALTER TABLE stock ADD COLUMN more integer", "ALTER TABLE stock ALTER title TYPE varchar(99)", "ALTER TABLE stock DROP COLUMN more",
                     "CREATE INDEX ON stock (pieces)", "ALTER TABLE stock ADD CHECK (title <> '')", "VACUUM FULL stock", "REINDEX TABLE stock"):
            it.execute(text.encode())


@part
def temporary_tables_cost_no_look_at_what_is_declared(cluster: Cluster) -> None:
    stock(cluster)
    with cluster.connect() as it:
        it.execute("SET track_functions = 'all'; BEGIN; CREATE TEMP TABLE mine (id integer PRIMARY KEY, n integer); CREATE INDEX ON mine (n); "
                   "ALTER TABLE mine ADD COLUMN more text; DROP TABLE mine")
        calls = "SELECT coalesce(sum(calls), 0) FROM pg_stat_xact_user_functions WHERE funcname = 'describe'"
        same(it.execute(calls).fetchall(), [(0,)])
        it.execute("CREATE TABLE other (id integer); DROP TABLE other")
        same(it.execute(calls).fetchall(), [(2,)])
        it.execute("ROLLBACK")


@part
def an_index_finds_a_key_of_any_collation(cluster: Cluster) -> None:
    """Without one a fold would cost more than a second: PostgreSQL compiles a plan that it takes for so dear."""
    # Other tables had the usual collation in earlier versions.
    older = 'ALTER TABLE escrow.{} ALTER key TYPE text COLLATE "default"'
    for collation, is_older in (('"C"', False), ('"C"', True), ('"default"', False)):
        cluster.run("SELECT escrow.ordinary(relation::regclass) FROM escrow.declared", "DROP TABLE IF EXISTS folders",
                    f"CREATE TABLE folders (path text COLLATE {collation} PRIMARY KEY, n integer NOT NULL CHECK (n >= 0))",
                    "INSERT INTO folders VALUES ('a', 5)", "SELECT escrow.reservable('folders', 'n')")
        number = value(cluster, "SELECT number FROM escrow.declared")
        tables = [f"{kind}_{number}" for kind in ("journal", "held")]
        if is_older:
            view = value(cluster, "SELECT pg_get_viewdef('escrow.now_folders')")
            cluster.run("DROP VIEW escrow.now_folders", *(older.format(it) for it in tables), f"CREATE VIEW escrow.now_folders AS {view}",
                        f"COMMENT ON VIEW escrow.now_folders IS '{number}'")
            cluster.script("install.sql")
        with cluster.connect() as it:
            it.execute("SET enable_seqscan = off; SET enable_bitmapscan = off; SET enable_hashjoin = off; SET enable_mergejoin = off")
            for table in tables:
                text = f"EXPLAIN (COSTS OFF) SELECT FROM folders AS f WHERE EXISTS (SELECT FROM escrow.{table} AS t WHERE t.key = f.path OFFSET 0)"
                plan = "\n".join(line for line, in it.execute(text.encode()).fetchall())
                assert "Index Cond: (key = f.path)" in plan, f"{collation}, {is_older}: {plan}"


@part
def a_dump_is_restored(cluster: Cluster) -> None:
    owner = stock(cluster)
    owner.load("stock", 1)
    Client(owner).note("stock", 1, -4)
    dump = subprocess.run(["pg_dump", "-d", cluster.dsn()], check=True, stdout=subprocess.PIPE).stdout
    cluster.run("DROP DATABASE IF EXISTS copy", "CREATE DATABASE copy")
    # Other tables first, so that numbers of objects differ.
    copied = Copy(cluster)
    copied.run("CREATE TABLE something (id integer)")
    words = ["psql", "-Xqd", copied.dsn(), "-v", "ON_ERROR_STOP=1"]
    subprocess.run(words, input=dump, check=True, stdout=subprocess.DEVNULL)
    # What names objects by their numbers is made anew. A restored epoch is nobody's: nobody holds its lock there.
    copied.script("install.sql")
    with refused(errors.SerializationFailure, "not the owner any more"):
        Client(Owner.of(copied)).note("stock", 1, -1)
    second = Owner(copied)
    same(second.load("stock", 1), ["6"])
    Client(second).note("stock", 1, -1)
    second.fold("stock", 1)
    same(value(copied, "SELECT pieces FROM stock WHERE id = 1"), 5)
    with copied.connect() as it, refused(errors.FeatureNotSupported):
        it.execute("UPDATE stock SET pieces = 1 WHERE id = 1")
    cluster.run("DROP DATABASE copy WITH (FORCE)")


class Copy(Cluster):
    """The database `copy` of a cluster that runs."""

    def __init__(self, of: Cluster) -> None:  # pylint: disable=super-init-not-called  # the other one has the server
        self.of = of

    def dsn(self, database: str = "copy") -> str:
        return self.of.dsn(database)


@part
def removal_leaves_tables(cluster: Cluster) -> None:
    owner = stock(cluster)

    def dumped() -> List[str]:
        words = ["pg_dump", "-d", cluster.dsn(), "-n", "public"]
        lines = subprocess.run(words, check=True, stdout=subprocess.PIPE, text=True).stdout.splitlines()
        return sorted(it for it in lines if not it.startswith(("--", "\\")))  # rows are not in order

    cluster.run("SELECT escrow.ordinary('stock')")
    before = dumped()
    cluster.run("SELECT escrow.reservable('stock', 'pieces')")
    Client(owner).note("stock", 3, -4)
    cluster.script("install.sql")  # again: nothing is lost
    Client(owner).note("stock", 3, 1)
    with refused(errors.ObjectInUse, "an escrowd-proxy is running"):
        cluster.script("uninstall.sql")
    owner.keeper.close()
    until_free(cluster)
    cluster.script("uninstall.sql")
    same(dumped(), sorted("3\trow 3\t7" if it == "3\trow 3\t10" else it for it in before))
    same(value(cluster, "SELECT count(*) FROM pg_namespace WHERE nspname LIKE 'escrow%'"), 0)
    same(value(cluster, "SELECT count(*) FROM pg_roles WHERE rolname LIKE 'escrow\\_%'"), 0)
    cluster.script("install.sql")


if __name__ == "__main__":
    main(PART)
