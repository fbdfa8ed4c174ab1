"""What a client of escrowd-proxy may rely on: grants, refusals, ends of transactions, rights, settings, and who is served when."""
from __future__ import annotations

import signal
import socket
import struct
import threading
import time
from contextlib import contextmanager
from decimal import Decimal
from functools import partial
from pathlib import Path
from typing import Any, Iterator, List, Tuple

import psycopg
from psycopg import errors
from psycopg.pq import ExecStatus

from clients import wire
from clients.servers import END, PATIENCE, wait_until
from clients.suite import expect, main
from proxy.test.harness import Proxy, SharedPart
from proxy.test.sql import refused
from proxy.test.standin import Cluster

Connection = psycopg.Connection[Any]
TABLES = (
    "CREATE TABLE stock (id integer PRIMARY KEY, title text NOT NULL DEFAULT '', pieces integer NOT NULL CONSTRAINT in_stock CHECK (pieces >= 0))",
    "CREATE TABLE orders (id serial PRIMARY KEY, item integer NOT NULL REFERENCES stock, pieces integer NOT NULL)",
    "CREATE TABLE money (id bigint PRIMARY KEY, small smallint NOT NULL, amount numeric(8,2) NOT NULL CHECK (amount - fee >= -5), fee numeric(8,2) NOT NULL)",
)
FREE = iter(range(1, 10_000))


# How many seconds a COMMIT waits for its fold.
FOLD_WAIT = 5.0 * PATIENCE


@contextmanager
def served() -> Iterator[Tuple[Cluster, Proxy]]:
    """Opens a cluster with declared tables, and a proxy that is the owner."""
    with Cluster() as cluster:
        cluster.script("install.sql")
        cluster.run(*TABLES, "SELECT escrow.reservable('stock', 'pieces')", "SELECT escrow.reservable('money', 'small', 'amount', 'fee')")
        # A busy machine folds within the limit too.
        with Proxy(cluster, "", "--fold-wait", round(1000 * FOLD_WAIT)) as proxy:
            proxy.await_owner()
            yield cluster, proxy


PART = SharedPart("proxy_reserves", served)
case = PART.case


def row(cluster: Cluster, pieces: int = 10) -> int:
    """Inserts a row, and returns its key."""
    key = next(FREE)
    cluster.run(f"INSERT INTO stock VALUES ({key}, 'row', {pieces})")
    return key


def take(it: Connection, key: int, pieces: int) -> str:
    """Takes pieces. Returns the tag."""
    return str(it.execute("UPDATE stock SET pieces = pieces - %s WHERE id = %s", (pieces, key)).statusmessage)


def is_given(it: Connection, key: int, pieces: int) -> bool:
    """Takes pieces, and returns whether they were given."""
    try:
        take(it, key, pieces)
    except errors.CheckViolation:
        return False
    return True


def has_pieces(cluster: Cluster, key: int, count: int) -> bool:
    """Returns whether a row has so many."""
    return pieces(cluster, key) == count


def pieces(cluster: Cluster, key: int, table: str = "stock") -> int:
    """Returns what PostgreSQL has."""
    with cluster.connect() as it:
        found = it.execute(f"SELECT pieces FROM {table} WHERE id = {key}".encode()).fetchone()
    assert found is not None
    return int(found[0])


@case
def a_grant_counts_at_once(cluster: Cluster, proxy: Proxy) -> None:
    """Whatever the open transactions do, no CHECK breaks; what is given back can be taken again."""
    key = row(cluster)
    with proxy.connect() as one, proxy.connect() as two, proxy.connect() as three:
        one.execute("BEGIN")
        expect(take(one, key, 6), "UPDATE 1")
        with refused(errors.CheckViolation, 'new row for relation "stock" violates check constraint "in_stock"'):
            take(two, key, 5)
        expect(take(two, key, 4), "UPDATE 1")
        with refused(errors.CheckViolation):
            take(three, key, 1)
        # A rise that is not committed gives nothing, neither to others nor to its own transaction.
        three.execute("BEGIN")
        take(three, key, -3)
        with refused(errors.CheckViolation):
            take(two, key, 1)
        with refused(errors.CheckViolation):
            take(three, key, 1)
        three.execute("ROLLBACK")
        one.execute("ROLLBACK")
        expect(take(two, key, 6), "UPDATE 1")
        expect(pieces(cluster, key), 0)


@case
def a_single_update_wakes_its_client_once(cluster: Cluster, proxy: Proxy) -> None:
    """Its tag comes together with its ReadyForQuery, which it has to wait for."""
    key = row(cluster)
    startup = b"user\0clerk\0database\0bank\0\0"
    text = f"UPDATE stock SET pieces = pieces - 1 WHERE id = {key}\0".encode()
    with socket.socket(socket.AF_UNIX) as it:
        it.settimeout(END)
        it.connect(str(proxy.socket))
        it.sendall(struct.pack("!ii", 8 + len(startup), 196_608) + startup)
        answer = b""
        while not answer.endswith(b"Z\0\0\0\5I"):
            more = it.recv(65_536)
            assert more, f"the connection has ended behind {answer!r}"
            answer += more
        for _ in range(3):
            it.sendall(b"Q" + struct.pack("!i", 4 + len(text)) + text)
            expect(it.recv(65_536), b"C\0\0\0\rUPDATE 1\0Z\0\0\0\5I")
    expect(pieces(cluster, key), 7)


@case
def an_error_is_that_of_postgres(cluster: Cluster, proxy: Proxy) -> None:
    key = row(cluster)
    with proxy.connect() as it:
        try:
            take(it, key, 11)
        except errors.CheckViolation as error:
            told = error.diag
            expect((told.severity, told.schema_name, told.table_name, told.constraint_name), ("ERROR", "public", "stock", "in_stock"))
            assert "-1" in str(told.message_detail) and "0" in str(told.message_detail), told.message_detail
        it.execute("BEGIN")
        with refused(errors.CheckViolation):
            take(it, key, 11)
        with refused(errors.InFailedSqlTransaction):
            take(it, key, 1)
        expect(it.execute("COMMIT").statusmessage, "ROLLBACK")
        expect(take(it, 99_999, 1), "UPDATE 0")
        for text, kind in (
            ("UPDATE stock SET pieces = pieces - 'x' WHERE id = 1", errors.InvalidTextRepresentation),
            ("UPDATE stock SET pieces = piece - 1 WHERE id = 1", errors.UndefinedColumn),
            ("UPDATE stocks SET pieces = pieces - 1 WHERE id = 1", errors.UndefinedTable),
            (f"UPDATE stock SET pieces = pieces - 99999999999 WHERE id = {key}", errors.Error),
            (f"UPDATE stock SET pieces = pieces + 2147483640 WHERE id = {key}", errors.NumericValueOutOfRange),
            (f"UPDATE stock SET pieces = 3 WHERE id = {key}", errors.FeatureNotSupported),
            (f"UPDATE stock SET pieces = pieces * 2 WHERE id = {key}", errors.FeatureNotSupported),
            (f"UPDATE stock SET pieces = pieces - 1 WHERE id > {key - 1} AND id < {key + 1}", errors.FeatureNotSupported),
            (f"WITH a AS (UPDATE stock SET pieces = pieces - 1 WHERE id = {key} RETURNING 1) SELECT * FROM a", errors.FeatureNotSupported),
            (f"WITH a AS (UPDATE stock SET pieces = pieces - 11 WHERE id = {key} RETURNING id) SELECT * FROM a", errors.CheckViolation),
        ):
            with refused(kind):
                it.execute(text.encode())
        expect(take(it, key, 10), "UPDATE 1")
    expect(pieces(cluster, key), 0)


def shows(cluster: Cluster, key: int, left: int) -> bool:
    """Returns whether a row shows so many pieces."""
    return pieces(cluster, key) == left


@case
def a_prepared_statement_shows_what_is_reserved_then(cluster: Cluster, proxy: Proxy) -> None:
    key = row(cluster)
    with proxy.connect() as it, proxy.connect() as other, proxy.connect() as later:
        other.execute("BEGIN")
        for count in range(3):
            found = it.execute("SELECT count(*) FROM escrow.reservations() WHERE key = %s", (str(key),), prepare=True).fetchone()
            expect(found, (count,))
            take(other, key, 1)
        time.sleep(1.1)
        later.execute("BEGIN")
        take(later, key, 1)
        since = "SELECT change, max(since) OVER () - since >= interval '1 second' FROM escrow.reservations() WHERE key = %s ORDER BY since"
        expect(it.execute(since, (str(key),)).fetchall(), [(-1, True)] * 3 + [(-1, False)])
        other.execute("ROLLBACK")
        later.execute("ROLLBACK")


@case
def ends_of_transactions(cluster: Cluster, proxy: Proxy) -> None:
    key = row(cluster, 100)
    left = 100
    with proxy.connect() as it, proxy.connect() as other:
        for end, is_kept in (("COMMIT", True), ("ROLLBACK", False), ("END WORK", True), ("ABORT", False), ("COMMIT AND CHAIN", True),
                             ("ROLLBACK AND CHAIN", False), ("SELECT 1; COMMIT", True), ("COMMIT; SELECT 1 / 0", True), ("ROLLBACK; SELECT 1", False),
                             ("SELECT 1 / 0", False), ("COMMIT PREPARED 'x'", False)):
            it.execute("BEGIN")
            take(it, key, 3)
            try:
                it.execute(end.encode())
            except psycopg.Error:
                pass
            it.execute("ROLLBACK")
            left -= 3 * is_kept
            wait_until(f"the row shows {end}", partial(shows, cluster, key, left))
            # The server has just that left.
            other.execute("BEGIN")
            expect(take(other, key, left), "UPDATE 1", end)
            other.execute("ROLLBACK")
            with refused(errors.CheckViolation):
                take(other, key, left + 1)


@case
def a_pipeline_is_in_its_rows(cluster: Cluster, proxy: Proxy) -> None:
    """When it is answered, each row shows its change, also if somebody else has reserved one of them."""
    keys = [row(cluster) for _ in range(3)]
    with proxy.connect() as it, proxy.connect() as other:
        other.execute("BEGIN")
        take(other, keys[0], 1)
        with it.pipeline():
            for key in keys:
                take(it, key, 2)
        expect([pieces(cluster, key) for key in keys], [8, 8, 8])
        it.cursor().executemany("UPDATE stock SET pieces = pieces - 1 WHERE id = %s", [(key,) for key in keys])
        expect([pieces(cluster, key) for key in keys], [7, 7, 7])
        other.execute("COMMIT")
        expect(pieces(cluster, keys[0]), 6)


@case
def savepoints_give_back(cluster: Cluster, proxy: Proxy) -> None:
    key = row(cluster, 10)
    with proxy.connect() as it, proxy.connect() as other:
        for back in ("ROLLBACK TO a", "ROLLBACK TO SAVEPOINT a", "rollback transaction to a", "SELECT 1; ROLLBACK TO a",
                     "ROLLBACK TO a; RELEASE a; SAVEPOINT a"):
            it.execute("BEGIN; SAVEPOINT a")
            take(it, key, -5)
            take(it, key, 7)
            it.execute(back.encode())
            with refused(errors.CheckViolation):
                take(it, key, 11)
            it.execute("ROLLBACK TO a")
            take(it, key, 10)
            it.execute("ROLLBACK TO a")
            wait_until(f"{back} gives back to others", lambda: is_given(other, key, 10))
            take(other, key, -10)
            take(it, key, 1)
            it.execute("RELEASE a; COMMIT")
            take(it, key, -1)
        it.execute("BEGIN")
        for _ in range(70):
            it.execute("SAVEPOINT a")
        for _ in range(9):
            take(it, key, 1)
        it.execute("COMMIT")
    expect(pieces(cluster, key), 1)


@case
def rights_and_modes_are_those_of_postgres(cluster: Cluster, proxy: Proxy) -> None:
    key = row(cluster)
    cluster.run("CREATE ROLE reader LOGIN", "CREATE ROLE buyer LOGIN", "GRANT SELECT ON stock TO reader", "GRANT SELECT, UPDATE (pieces) ON stock TO buyer",
                "GRANT reader TO buyer")
    with proxy.connect(user="reader") as it:
        for text in ("1 WHERE id = {}", "1000 WHERE id = {}", "1000 WHERE id = {} AND pieces >= 1000", "1000 WHERE id = {} AND pieces >= 1000 RETURNING id",
                     "1 WHERE id = ANY ('{{}}')", "1 WHERE id = ANY ('{{}}') RETURNING id"):
            with refused(errors.InsufficientPrivilege):
                it.execute(f"UPDATE stock SET pieces = pieces - {text.format(key)}".encode())
    with proxy.connect(user="buyer") as it:
        expect(take(it, key, 1), "UPDATE 1")
        it.execute("SET ROLE reader")
        with refused(errors.InsufficientPrivilege):
            take(it, key, 1)
        it.execute("RESET ROLE")
        expect(take(it, key, 1), "UPDATE 1")
        it.execute("BEGIN READ ONLY")
        with refused(errors.ReadOnlySqlTransaction):
            take(it, key, 1)
        it.execute("ROLLBACK")
        it.execute("SET default_transaction_read_only = on")
        with refused(errors.ReadOnlySqlTransaction):
            take(it, key, 1)
        it.execute("RESET default_transaction_read_only")
        expect(take(it, key, 1), "UPDATE 1")
    with proxy.connect() as it:
        it.execute("CREATE SCHEMA other; CREATE TABLE other.stock (LIKE stock); INSERT INTO other.stock SELECT * FROM stock")
        it.execute("SET search_path = other, public")
        expect(take(it, key, 1), "UPDATE 1")
        expect((pieces(cluster, key), pieces(cluster, key, "other.stock")), (7, 6))
        it.execute("SET search_path = public")
        expect(take(it, key, 1), "UPDATE 1")
        # The name means another table. The first UPDATE may find that out.
        it.execute("CREATE TEMP TABLE stock AS TABLE public.stock")
        try:
            take(it, key, 1)
        except errors.SerializationFailure:
            expect(take(it, key, 1), "UPDATE 1")
        expect(pieces(cluster, key), 6)
        it.execute("DROP TABLE pg_temp.stock; DROP SCHEMA other CASCADE")


@case
def a_session_that_is_reset_goes_on(cluster: Cluster, proxy: Proxy) -> None:
    """What poolers send between clients."""
    key = row(cluster, 100)
    with proxy.connect() as it:
        it.prepare_threshold = None
        for text in ("DISCARD ALL", "DISCARD SEQUENCES", "RESET ALL", "DEALLOCATE ALL", "SET SESSION AUTHORIZATION DEFAULT", "SELECT pg_advisory_unlock_all()",
                     "CLOSE ALL; UNLISTEN *"):
            take(it, key, 1)
            it.execute(text.encode())
            expect(take(it, key, 1), "UPDATE 1", text)
        expect(pieces(cluster, key), 86)


@case
def what_others_see(cluster: Cluster, proxy: Proxy) -> None:
    """Own reservations are not seen; a COMMIT is answered once the row shows it; the view is exact."""
    key = row(cluster)
    with proxy.connect() as it, proxy.connect() as other, cluster.connect() as straight:
        for _ in range(50):
            it.execute("BEGIN")
            take(it, key, 1)
            expect(it.execute("SELECT pieces FROM stock WHERE id = %s", (key,)).fetchone(), (10,))
            it.execute("COMMIT")
            expect(other.execute("SELECT pieces FROM stock WHERE id = %s", (key,)).fetchone(), (9,))
            take(other, key, -1)
            expect(it.execute("SELECT pieces FROM stock WHERE id = %s", (key,)).fetchone(), (10,))
        # Who holds the row's lock delays the fold, and no COMMIT for longer than the limit.
        straight.execute(f"BEGIN; SELECT 1 FROM stock WHERE id = {key} FOR UPDATE".encode())
        begin = time.monotonic()
        take(it, key, 2)
        took = time.monotonic() - begin
        assert FOLD_WAIT / 2 < took < END, took
        expect((pieces(cluster, key), pieces(cluster, key, "escrow.now_stock")), (10, 8))
        it.execute("SET escrow.wait = off", prepare=True)
        begin = time.monotonic()
        for _ in range(10):
            take(it, key, -1)
        assert time.monotonic() - begin < 10 * FOLD_WAIT, "it waits"
        straight.execute("ROLLBACK")
        wait_until("it is folded", lambda: pieces(cluster, key) == 18)
        # Of two UPDATEs that are one transaction, the second alone gets its row's lock.
        free = row(cluster)
        it.execute("SET escrow.wait = on")
        take(it, free, 1)
        straight.execute(f"BEGIN; SELECT 1 FROM stock WHERE id = {key} FOR UPDATE".encode())
        with it.pipeline():
            for one in (key, free):
                it.execute("UPDATE stock SET pieces = pieces - 1 WHERE id = %s", (one,))
        expect((pieces(cluster, key), pieces(cluster, free)), (18, 8))
        straight.execute("ROLLBACK")
        wait_until("both are folded", lambda: pieces(cluster, key) == 17)


@case
def a_commit_waits_as_the_session_says(cluster: Cluster, proxy: Proxy) -> None:
    """The setting is PostgreSQL's, however it was changed."""
    key = row(cluster)
    cluster.run("CREATE ROLE hasty LOGIN SUPERUSER", "ALTER ROLE hasty SET escrow.wait = off")
    text, off = f"UPDATE stock SET pieces = pieces - 0 WHERE id = {key}", "SET escrow.wait = off"
    with proxy.connect() as it:
        it.execute(text.encode())
    with cluster.connect() as straight:
        straight.execute(f"BEGIN; SELECT 1 FROM stock WHERE id = {key} FOR UPDATE".encode())
        for user, statements, waits in (
            ("hasty", ("SET escrow.wait = on", text, "RESET ALL", text), False),
            ("clerk", ("BEGIN", text, "SET LOCAL escrow.wait = off", "COMMIT"), False),
            ("clerk", ("SELECT set_config('escrow.wait', 'off', false)", text), False),
            ("clerk", (off, text, "DISCARD ALL", text), True),
            ("clerk", ("BEGIN", "SAVEPOINT a", off, text, "ROLLBACK TO a", text, "COMMIT"), True),
        ):
            with proxy.connect(user=user) as it:
                for statement in statements:
                    begin = time.monotonic()
                    it.execute(statement.encode())
                expect(time.monotonic() - begin > FOLD_WAIT / 2, waits, str(statements))
        straight.execute("ROLLBACK")
    cluster.run("DROP ROLE hasty")


@case
def numbers_of_all_types(cluster: Cluster, proxy: Proxy) -> None:
    cluster.run("INSERT INTO money VALUES (9007199254740993, 5, 10.25, 0.75)")
    with proxy.connect() as it:
        key = 9007199254740993
        it.execute("UPDATE money SET amount = amount - 3.5, fee = fee + %s, small = small + 1 WHERE id = %s", (Decimal("0.25"), key))
        it.execute(b"UPDATE money SET amount = amount - '.25'::numeric WHERE id = 9007199254740993")
        with refused(errors.CheckViolation):
            it.execute("UPDATE money SET amount = amount - 10.51 WHERE id = %s", (key,))
        with refused(errors.NumericValueOutOfRange):
            it.execute("UPDATE money SET small = small + 32767 WHERE id = %s", (key,))
        with refused(errors.NumericValueOutOfRange):
            it.execute("UPDATE money SET amount = amount + 999999.99 WHERE id = %s", (key,))
        expect([str(it) for it in it.execute("SELECT small, amount, fee FROM money").fetchall()[0]], ["6", "6.50", "1.00"])
        it.execute("UPDATE money SET amount = amount - 0.001 WHERE id = %s", (key,))
        expect(str(it.execute("SELECT amount FROM money").fetchall()[0][0]), "6.50")


@case
def a_locked_row_can_be_reserved_by_who_locked_it(cluster: Cluster, proxy: Proxy) -> None:
    for lock in ("SELECT 1 FROM stock WHERE id = {} FOR UPDATE", "UPDATE stock SET title = 'mine' WHERE id = {}",
                 "INSERT INTO orders (item, pieces) VALUES ({}, 1)"):
        for is_held in (True, False):
            key = row(cluster)
            with proxy.connect() as it:
                if is_held:
                    take(it, key, 0)
                it.execute("BEGIN")
                it.execute(lock.format(key).encode())
                expect(take(it, key, 2), "UPDATE 1", f"{lock}, {is_held}")
                expect(take(it, key, 2), "UPDATE 1", f"{lock}, {is_held}")
                it.execute("COMMIT")
                wait_until("it is folded", partial(has_pieces, cluster, key, 6))


@case
def own_rows(cluster: Cluster, proxy: Proxy) -> None:
    """A row is inserted and then changed by one transaction."""
    key = next(FREE)
    with proxy.connect() as it, proxy.connect() as other:
        it.execute("BEGIN")
        it.execute("INSERT INTO stock VALUES (%s, 'new', 5)", (key,))
        expect(take(it, key, 2), "UPDATE 1")
        with refused(errors.CheckViolation):
            take(it, key, 9)
        it.execute("ROLLBACK")
        it.execute("BEGIN")
        it.execute("INSERT INTO stock VALUES (%s, 'new', 5)", (key,))
        expect(take(it, key, 2), "UPDATE 1")
        it.execute("COMMIT")
        expect(take(other, key, 1), "UPDATE 1")
        expect(pieces(cluster, key), 2)


@case
def a_row_is_deleted_once_nobody_has_reserved_it(cluster: Cluster, proxy: Proxy) -> None:
    key = row(cluster)
    with proxy.connect() as it, proxy.connect() as other:
        other.execute("BEGIN")
        take(other, key, 1)
        with refused(errors.ObjectInUse, "the row of stock is held by escrowd-proxy"):
            it.execute("DELETE FROM stock WHERE id = %s", (key,))
        other.execute("ROLLBACK")
        expect(it.execute("DELETE FROM stock WHERE id = %s", (key,)).statusmessage, "DELETE 1")
        expect(take(it, key, 1), "UPDATE 0")
        it.execute("INSERT INTO stock VALUES (%s, 'again', 1)", (key,))
        with refused(errors.CheckViolation):
            take(it, key, 2)
        expect(take(it, key, 1), "UPDATE 1")


@case
def a_table_whose_fold_is_refused_stops_alone(cluster: Cluster, proxy: Proxy) -> None:
    """The other tables go on, an operator sees it, and lets it go on."""
    key = row(cluster)
    cluster.run("INSERT INTO money VALUES (7, 5, 10, 0)")
    stopped = "SELECT relation::text, stopped FROM escrow.reservations() WHERE stopped IS NOT NULL"
    with proxy.connect() as it:
        take(it, key, 0)
        cluster.run("CREATE FUNCTION not_today() RETURNS trigger LANGUAGE plpgsql AS 'BEGIN RAISE EXCEPTION ''not today''; END'",
                    "CREATE TRIGGER not_today BEFORE UPDATE ON stock FOR EACH ROW EXECUTE FUNCTION not_today()")
        it.execute("BEGIN")
        take(it, key, 2)
        it.execute("COMMIT")
        wait_until("the table is stopped", lambda: it.execute(stopped).fetchall())
        expect(it.execute(stopped).fetchall(), [("stock", "a fold was refused: not today")])
        alarm = "ALARM: FoldRefused: a fold was refused: not today: table public.stock"
        wait_until("the log says so", lambda: alarm in proxy.said())
        with refused(errors.ObjectNotInPrerequisiteState, 'escrowd-proxy has stopped reservations of table "stock"'):
            take(it, key, 1)
        expect((pieces(cluster, key), pieces(cluster, key, "escrow.now_stock")), (10, 8))
        for left in (9, 8):
            expect(it.execute("UPDATE money SET amount = amount - 1 WHERE id = 7").statusmessage, "UPDATE 1")
            expect(it.execute("SELECT amount FROM money WHERE id = 7").fetchone(), (left,))
        # Nothing is changed by an operator who has not removed the cause.
        it.execute("SELECT escrow.resume('stock')")
        wait_until("it is stopped again", lambda: proxy.said().count("ALARM") > 1)
        cluster.run("DROP TRIGGER not_today ON stock", "DROP FUNCTION not_today")
        # Anybody may send such notices, and many of them hold up nobody's.
        cluster.run("CREATE ROLE noisy LOGIN")
        cluster.run("SELECT pg_notify('escrow_declared', i::text) FROM generate_series(100, 50000) AS i", user="noisy")
        cluster.run("DROP ROLE noisy")
        it.execute("SELECT escrow.resume('stock')")
        wait_until("the change is in the row", lambda: pieces(cluster, key) == 8)
        expect(take(it, key, 8), "UPDATE 1")
        expect(it.execute(stopped).fetchall(), [])


@case
def a_lock_of_a_table_holds_up_no_other(cluster: Cluster, proxy: Proxy) -> None:
    """Its own changes wait, and reach their rows once the lock is gone."""
    key, money = row(cluster), next(FREE)
    cluster.run(f"INSERT INTO money VALUES ({money}, 5, 1000, 0)")
    # The folder folds what a string of several statements commits.
    late = f"BEGIN; UPDATE stock SET pieces = pieces - 1 WHERE id = {key}; COMMIT"
    other = f"BEGIN; UPDATE money SET amount = amount - 1 WHERE id = {money}; COMMIT"
    with proxy.connect() as it, proxy.connect() as hasty, cluster.connect() as locking:
        hasty.execute("SET escrow.wait = off")
        hasty.execute(late.encode())
        it.execute(other.encode())
        for left, mode in ((8, "SHARE"), (7, "ACCESS EXCLUSIVE")):
            locking.execute(f"BEGIN; LOCK TABLE stock IN {mode} MODE".encode())
            hasty.execute(late.encode())
            begin = time.monotonic()
            for _ in range(30):
                it.execute(other.encode())
            took = time.monotonic() - begin
            assert took < 3, f"30 COMMITs of another table: {took:.1f} s"
            locking.execute("COMMIT")
            wait_until("the change is in the row", partial(has_pieces, cluster, key, left), 20)
        expect(it.execute("SELECT amount FROM money WHERE id = %s", (money,)).fetchone(), (1000 - 61,))


@case
def a_table_may_have_as_many_checks_as_can_be_declared(cluster: Cluster, proxy: Proxy) -> None:
    """Together they are longer than a line of the server."""
    names = [f"n{at}" for at in range(10)]
    total = " + ".join(f"999999 * {it}" for it in names)
    checks = ", ".join(f"CONSTRAINT c{at} CHECK ({total} >= -{2 if at == 31 else 3 + at}000000)" for at in range(32))
    cluster.run(f"CREATE TABLE wide (id integer PRIMARY KEY, {', '.join(f'{it} numeric(6) NOT NULL DEFAULT 0' for it in names)}, {checks})",
                "INSERT INTO wide VALUES (1)", f"SELECT escrow.reservable('wide', VARIADIC '{{{','.join(names)}}}')")
    key = row(cluster)
    with proxy.connect() as it:
        expect(it.execute("UPDATE wide SET n0 = n0 - 1, n9 = n9 - 1 WHERE id = 1").statusmessage, "UPDATE 1")
        with refused(errors.CheckViolation, 'new row for relation "wide" violates check constraint "c31"'):
            it.execute("UPDATE wide SET n5 = n5 - 1 WHERE id = 1")
        expect(take(it, key, 1), "UPDATE 1")
    cluster.run("SELECT escrow.ordinary('wide')", "DROP TABLE wide")


@case
def a_table_that_is_ordinary_again_makes_room(cluster: Cluster, proxy: Proxy) -> None:
    """The server has 32 tables at a time."""
    # They look at all tables that are declared, which takes long.
    triggers = ("escrow_keep_altered", "escrow_keep_dropped")
    cluster.run(*(f"ALTER EVENT TRIGGER {it} DISABLE" for it in triggers))
    with proxy.connect() as it, proxy.connect() as other:
        for turn in range(2):
            names = [f"turn{turn}_{at}" for at in range(20)]
            for name in names:
                it.execute(f"CREATE TABLE {name} (id integer PRIMARY KEY, n integer NOT NULL CHECK (n >= 0)); INSERT INTO {name} VALUES (1, 5)".encode())
                it.execute("SELECT escrow.reservable(%s, 'n')", (name,))
            for name in names:
                it.execute("BEGIN")
                expect(it.execute(f"UPDATE {name} SET n = n - 1 WHERE id = 1".encode()).statusmessage, "UPDATE 1")
                with refused(errors.CheckViolation, "new row for relation"):
                    other.execute(f"UPDATE {name} SET n = n - 5 WHERE id = 1".encode())
                it.execute("ROLLBACK")
            for name in names:
                it.execute(f"SELECT escrow.ordinary('{name}'); DROP TABLE {name}".encode())
    cluster.run(*(f"ALTER EVENT TRIGGER {it} ENABLE" for it in triggers))


@case
def a_table_is_known_once_it_is_declared(cluster: Cluster, proxy: Proxy) -> None:
    """Also if a session has declared it that does not pass the proxy."""
    table = "CREATE TABLE late (id integer PRIMARY KEY, n integer NOT NULL CHECK (n >= 0))"
    cluster.run(table, "INSERT INTO late VALUES (1, 1)", "SELECT escrow.reservable('late', 'n')")
    with proxy.connect() as it:

        def is_taken() -> bool:
            try:
                it.execute("UPDATE late SET n = n - 1 WHERE id = 1")
            except errors.FeatureNotSupported:
                return False
            return True

        # The proxy also looks by itself, but not as often.
        wait_until("the table is known", is_taken)
    cluster.run("SELECT escrow.ordinary('late')", "DROP TABLE late")


@case
def a_refusal_says_the_form_to_write(cluster: Cluster, proxy: Proxy) -> None:
    key = row(cluster)
    with proxy.connect() as it:
        for text, form in (
            (f"INSERT INTO stock (id, pieces) VALUES ({key}, 1) ON CONFLICT (id) DO UPDATE SET pieces = stock.pieces + excluded.pieces",
             "write INSERT .. ON CONFLICT DO NOTHING"),
            (f"UPDATE stock SET pieces = stock.pieces - o.n FROM (SELECT {key} AS item, 1 AS n) AS o WHERE id = o.item", "name the key and the number"),
            (f"WITH o AS (SELECT {key} AS item) UPDATE stock SET pieces = pieces - 1 WHERE id = (SELECT item FROM o)", "name the key and the number"),
            (f"DO 'BEGIN UPDATE stock SET pieces = pieces - 1 WHERE id = {key}; END'", "send the UPDATE by itself"),
            (f"UPDATE stock SET pieces = 4 WHERE id = {key}", "add or subtract by the key"),
        ):
            try:
                it.execute(text.encode())
            except errors.FeatureNotSupported as error:
                assert form in str(error.diag.message_hint), f"{text}: {error.diag.message_hint}"
            else:
                raise AssertionError(f"not refused: {text}")
        # The form that the first hint says.
        it.execute("BEGIN")
        expect(it.execute("INSERT INTO stock (id, pieces) VALUES (%s, 1) ON CONFLICT DO NOTHING", (key,)).statusmessage, "INSERT 0 0")
        expect(take(it, key, -1), "UPDATE 1")
        it.execute("COMMIT")
    expect(pieces(cluster, key), 11)


@case
def strings_are_transactions(cluster: Cluster, proxy: Proxy) -> None:
    """Others see all of a string or nothing, and its reservations end with it."""
    key = row(cluster)
    order, take_two = f"INSERT INTO orders (item, pieces) VALUES ({key}, 2)", f"UPDATE stock SET pieces = pieces - 2 WHERE id = {key}"
    with proxy.connect() as it, proxy.connect() as other:
        it.execute(f"{order}; {take_two}; {take_two}".encode())
        expect(pieces(cluster, key), 6)
        for end, kind in (("SELECT 1 / 0", errors.DivisionByZero), (take_two.replace("- 2", "- 7"), errors.CheckViolation), ("SELEC 1", errors.SyntaxError)):
            for begin in ("", "BEGIN; "):
                with refused(kind):
                    it.execute(f"{begin}{take_two}; {order}; {end}".encode())
                it.execute("ROLLBACK")
                # The server has just that left.
                expect(take(other, key, 6), "UPDATE 1", f"{begin}{end}")
                take(other, key, -6)
        it.execute(f"BEGIN; {take_two}".encode())
        with refused(errors.CheckViolation):
            take(other, key, 5)
        it.execute(f"{take_two}; COMMIT; {order}".encode())
        expect((pieces(cluster, key), take(other, key, 2)), (2, "UPDATE 1"))


@case
def what_is_refused_as_it_stands(cluster: Cluster, proxy: Proxy) -> None:
    key = row(cluster)
    with proxy.connect() as it:
        it.execute("BEGIN")
        take(it, key, 1)
        with refused(errors.FeatureNotSupported):
            it.execute("PREPARE TRANSACTION 'two'")
        it.execute("ROLLBACK")
    with cluster.connect() as straight:
        text = straight.execute("SELECT note_text FROM escrow.declared LIMIT 1").fetchall()[0][0]
    # A message that the proxy does not look at whole has many types, or a long name.
    many, long = [23] * 20_000, b"n" * 65_300
    for name, asked, types in ((b"mine", text.encode(), None), (b"mine", text.encode(), many), (b"escrowd-proxy 1", b"SELECT 1", many),
                               (long, text.encode(), None), (long + long, b"SELECT 1", None)):
        it = proxy.connect()
        expect(it.pgconn.prepare(name, asked, types).status, ExecStatus.FATAL_ERROR)
        expect(it.closed, True)


@case
def many_at_a_time(cluster: Cluster, proxy: Proxy) -> None:
    """Sixty connections in blocks on one row; the row ends where it has to."""
    key = row(cluster, 1000)
    faults: List[BaseException] = []

    def buy() -> None:
        try:
            with proxy.connect() as it:
                for turn in range(10):
                    it.execute("BEGIN")
                    it.execute("INSERT INTO orders (item, pieces) VALUES (%s, 1)", (key,))
                    take(it, key, 1)
                    it.execute("COMMIT" if turn % 2 else "ROLLBACK")
        except BaseException as fault:  # pylint: disable=broad-exception-caught  # the case raises it
            faults.append(fault)

    threads = [threading.Thread(target=buy) for _ in range(60)]
    for thread in threads:
        thread.start()
    for thread in threads:
        thread.join()
    expect(faults, [])
    expect(pieces(cluster, key), 700)


@case
def refusals_leave_nothing_in_a_session(cluster: Cluster, proxy: Proxy) -> None:
    """A session lasts long in a pool, and PostgreSQL keeps what is prepared to its end."""
    key = row(cluster)
    with proxy.connect() as it:

        def prepared() -> int:
            found = it.execute("SELECT count(*) FROM pg_prepared_statements WHERE name LIKE 'escrowd-proxy %'").fetchone()
            assert found is not None
            return int(found[0])

        def be_refused() -> None:
            with refused(errors.CheckViolation):
                take(it, key, 1000)
            with refused(errors.NotNullViolation):
                it.execute("UPDATE stock SET pieces = pieces - 1, title = NULL WHERE id = %s", (key,))
            with refused(errors.DivisionByZero):
                it.execute(f"UPDATE stock SET pieces = pieces - 1 WHERE id = {key}; SELECT 1 / (random() * 0)::integer".encode())

        be_refused()
        before = prepared()
        for _ in range(20):
            be_refused()
        assert prepared() <= before + 2, (before, prepared())


@case
def a_late_greeting_of_a_former_owner_holds_nobody_up(cluster: Cluster, proxy: Proxy) -> None:
    """It came while this owner set its epoch, and its number was higher than this one's numbers."""
    key = row(cluster)
    cluster.run("SELECT setval('escrow.greeted', last_value + 1000000) FROM escrow.greeted")
    for _ in range(2):
        with proxy.connect() as it:
            expect(take(it, key, 1), "UPDATE 1")


@case
def messages_of_any_order_are_answered_as_by_postgres(cluster: Cluster, proxy: Proxy) -> None:
    """Raw messages. `...` waits for the reply to those in front of it."""
    key = row(cluster)
    cluster.run("CREATE TABLE copied (i integer)", "CREATE FUNCTION no() RETURNS trigger LANGUAGE plpgsql AS 'BEGIN RAISE EXCEPTION ''no''; END'",
                "CREATE TABLE never (i integer)", "CREATE TRIGGER no BEFORE INSERT ON never EXECUTE FUNCTION no()",
                "CREATE FUNCTION loud() RETURNS text LANGUAGE plpgsql AS 'BEGIN RAISE EXCEPTION ''%'', repeat(''e'', 100000); END'")
    # It is served, and PostgreSQL itself lets it pass.
    update = f"UPDATE stock SET pieces = pieces - 0 WHERE id = {key}"
    served, string, sync = wire.query(update), wire.query(f"{update}; SELECT 1"), wire.sync()
    asks, copy = wire.query("SELECT 1 FROM escrow.reservations() LIMIT 0"), wire.query("COPY copied FROM STDIN")
    good, bad, done = wire.message("d", b"1\n"), wire.message("d", b"x\n"), wire.message("c", b"")
    copies, fails = wire.run("COPY copied FROM STDIN"), wire.run("SELECT 1 / 0")
    never, pipeline = wire.run("COPY never FROM STDIN"), wire.run(update)
    large = f"UPDATE stock SET pieces = pieces - 0, title = {{}} WHERE id IN ({key}, {row(cluster)}) RETURNING title"
    portal, once = wire.parse(large.format("repeat('x', 70000)")) + wire.bind(portal="p"), wire.execute("p", 1)
    schedules: List[Tuple[object, ...]] = [
        # Statements that come amid a COPY, or where PostgreSQL waits for a Sync.
        *((copy, *more, it) for more in ((), (...,), (good,)) for it in (served, string, wire.query("BEGIN") + served, pipeline + sync)),
        (copies, pipeline, sync), (wire.query("BEGIN"), served, copy, wire.query("COMMIT")),
        *((fails, *more, it, sync, served) for more in ((), (wire.flush(), ...)) for it in (served, string, asks)),
        # Syncs that a COPY ignores, and others.
        *((copies, sync, *more, sync, good, done, sync, pipeline, sync) for more in ((), (...,))),
        *((copies, sync, *more, bad, sync, pipeline, sync, served) for more in ((), (...,))),
        *((copies, sync, *more, bad, done, sync, pipeline, sync, served) for more in ((), (...,))),
        *((copy, sync, bad, *more, sync, served, sync, served) for more in ((), (done,))),
        (never, sync, good, done, sync, pipeline, sync, served), (never, sync, ..., ..., ..., served),
        (never, sync, good, done, sync, wire.query("SELECT 1"), served),
        # Several of them.
        (wire.query(f"COPY copied FROM STDIN; {update}; COPY copied FROM STDIN"), good, done, good, done, served),
        (wire.query("COPY copied FROM STDIN /* escrow: reservable */"), ..., good, done, served),
        (done, wire.query("SELECT 1"), done, copies, sync, good, done, sync, pipeline, sync),
        # What has to come first in its transaction.
        (wire.query("BEGIN ISOLATION LEVEL SERIALIZABLE; SELECT 'escrow.take'; COMMIT"), wire.query("VACUUM copied /* escrow.hold_lines */"),
         wire.run("VACUUM copied /* escrow.hold_lines */"), sync),
        # Portals end with their transactions.
        (wire.parse(update) + wire.bind(portal="p"), sync, wire.execute("p"), sync, served), (portal, once, sync, once, sync, served),
        (wire.query("BEGIN; SAVEPOINT a"), portal, once, sync, wire.query("ROLLBACK TO a"), once, sync, served),
        (wire.run(update.replace("UPDATE", "WITH s AS (UPDATE") + " RETURNING id) INSERT INTO copied SELECT 1 FROM s RETURNING i"),
         wire.execute(), sync, served),
        # Messages that are too large to be looked at in one piece.
        (wire.run(large.format("loud()")), sync, served), (wire.query("BEGIN"), portal, once, once, once, sync),
    ]
    for schedule in schedules:
        answers = []
        for path in (cluster.socket, proxy.socket):
            with wire.Connection(path, timeout=20) as it:
                found: List[wire.Message] = []
                try:
                    for step in (*schedule, wire.terminate()):
                        if isinstance(step, bytes):
                            it.send(step)
                        else:
                            found.append(it.read())
                            while found[-1].kind not in "GEZ":
                                found.append(it.read())
                except BrokenPipeError:
                    pass  # it has ended
                answers.append([each.shown() for each in found + it.until_end()])
        expect(answers[1], answers[0], str(schedule))
    # What fails amid its rows leaves none of them to the next one.
    rows = [row(cluster) for _ in range(3)]
    shows = f"UPDATE stock SET pieces = pieces - 0 WHERE id IN ({rows[0]}, {rows[1]}, {rows[2]}) RETURNING {{}}"
    with wire.Connection(proxy.socket) as it:
        for shown in (f"10 / (id - {rows[2]})", "7"):
            it.do("BEGIN")
            answer = it.extended(wire.parse(shows.format(shown)), wire.bind(), wire.execute(most=1), wire.execute())
            it.do("ROLLBACK")
        expect(answer, ["parsed", "bound", "row 7", "suspended", "row 7", "row 7", "complete UPDATE 2", "ready T"])
    cluster.run("DROP TABLE copied, never", "DROP FUNCTION no, loud")


@case
def a_client_that_takes_nothing_stops_no_greeting(cluster: Cluster, proxy: Proxy) -> None:
    """Greetings go one after another. None waits for its client to read, nor for a lock that the client's own statement waits for."""
    key = row(cluster, 1_000)
    text = f"UPDATE stock SET pieces = pieces - 1 WHERE id = {key}"
    cluster.run("CREATE TABLE locked (i integer)")
    silent: List[wire.Connection] = []
    with cluster.connect() as locker, cluster.connect() as watcher, proxy.connect() as other:
        locker.execute("BEGIN; LOCK TABLE locked")
        # The proxy still knows what the name means, so that it asks for nothing else before it greets.
        for size in (0, *range(120, 600, 24)):
            it = wire.Connection(proxy.socket)
            it.do("SET application_name = silent", text, "DEALLOCATE ALL")
            silent.append(it)
            if size:
                it.send(wire.query(f"SELECT repeat('x', 1000) FROM generate_series(1, {size})"), wire.query(text))
            else:
                it.extended(wire.parse(text, "own"))
                it.send(wire.parse("TABLE locked"), wire.bind(name="own"), wire.execute(), wire.sync())
        busy = """SELECT 1 FROM pg_stat_activity WHERE application_name = 'silent' AND state = 'active' AND wait_event_type IS DISTINCT FROM 'Lock'
            AND wait_event IS DISTINCT FROM 'ClientWrite'"""
        wait_until("each waits for something", lambda: not watcher.execute(busy).fetchall())
        expect(take(other, key, 1), "UPDATE 1")
        locker.execute("COMMIT")
        for it in silent:
            expect(it.until_ready()[-1].shown(), "ready I")
            it.close()


@case
def what_is_reserved_goes_with_its_backend(cluster: Cluster, proxy: Proxy) -> None:
    """Also where the client takes nothing of what PostgreSQL has sent before that end."""
    key = row(cluster)
    with wire.Connection(proxy.socket) as silent, cluster.connect() as watcher, proxy.connect() as other:
        silent.do("SET application_name = silent", "BEGIN", f"UPDATE stock SET pieces = pieces - 10 WHERE id = {key}")
        silent.send(wire.query("SELECT repeat('x', 1000) FROM generate_series(1, 5000)"))
        ends = "SELECT pg_terminate_backend(pid) FROM pg_stat_activity WHERE application_name = 'silent' AND wait_event = 'ClientWrite'"
        wait_until("it waits for its client", lambda: watcher.execute(ends).fetchall())
        wait_until("its reservation has gone", lambda: is_given(other, key, 1))


@case
def a_backend_that_is_ended_has_the_last_word(cluster: Cluster, proxy: Proxy) -> None:
    """Also where the proxy comes to know of that end as it sends something of its own."""
    key = row(cluster, 100)
    gone = "SELECT 1 FROM pg_stat_activity WHERE application_name = 'ended'"
    with cluster.connect() as watcher:
        for _ in range(10):
            with wire.Connection(proxy.socket) as it:
                it.do("SET application_name = ended", "BEGIN", f"UPDATE stock SET pieces = pieces - 1 WHERE id = {key}")
                proxy.running().send_signal(signal.SIGSTOP)
                try:
                    wait_until("the proxy has stopped", partial(is_stopped, proxy.running().pid))
                    watcher.execute(gone.replace("1", "pg_terminate_backend(pid)"))
                    wait_until("its backend has ended", lambda: not watcher.execute(gone).fetchall())
                    it.send(wire.query("COMMIT"))
                finally:
                    proxy.running().send_signal(signal.SIGCONT)
                expect([told.fields()["M"] for told in it.until_end()], ["terminating connection due to administrator command"])


def is_stopped(process: int) -> bool:
    """Returns whether all threads of a process have stopped."""
    states = [each.read_text(encoding="utf-8").rpartition(")")[2].split()[0] for each in Path(f"/proc/{process}/task").glob("*/stat")]
    return set(states) == {"T"}


def is_served(proxy: Proxy) -> bool:
    """Returns whether a proxy takes clients."""
    try:
        proxy.connect().close()
    except psycopg.OperationalError:
        return False
    return True


@case
def a_standby_sends_clients_to_the_owner(cluster: Cluster, proxy: Proxy) -> None:
    key = row(cluster)
    with Proxy(cluster) as second:
        wait_until("it knows that there is an owner", lambda: not is_served(second))
        for first, other in ((second, proxy), (proxy, second)):
            with psycopg.connect(f"host={first.folder},{other.folder} port=6000 dbname=bank user=clerk", autocommit=True) as it:
                expect(take(it, key, 1), "UPDATE 1")
    expect(pieces(cluster, key), 8)


if __name__ == "__main__":
    main(PART)
