"""psycopg 3: types, refusals, transactions, pipelines, pools, threads, fork, and signals inside calls."""
from __future__ import annotations

import asyncio
import threading
import time
from concurrent.futures import ThreadPoolExecutor
from decimal import Decimal
from functools import partial
from typing import Any

import psycopg
import psycopg.errors
from psycopg import pq
from psycopg_pool import ConnectionPool

from clients import dbapi
from clients.servers import Gateway
from clients.suite import Part, expect, load, main

PART = Part("with_psycopg3")


@PART.served
def types_there_and_back(gateway: Gateway) -> None:
    dbapi.types_there_and_back(psycopg, gateway)


@PART.served
def values_that_are_refused(gateway: Gateway) -> None:
    dbapi.values_that_are_refused(psycopg, gateway)


@PART.served
def refusals_by_their_exceptions(gateway: Gateway) -> None:
    dbapi.refusals_by_their_exceptions(psycopg, gateway)


@PART.served
def blocks(gateway: Gateway) -> None:
    dbapi.blocks(psycopg, gateway)


@PART.served
def many_threads(gateway: Gateway) -> None:
    dbapi.many_threads(psycopg, gateway)


@PART.served
def after_fork(gateway: Gateway) -> None:
    dbapi.after_fork(psycopg, gateway)


@PART.served
def signals_inside_calls(gateway: Gateway) -> None:
    """The driver waits in Python, so an exception leaves replies unread: such a connection is active and discarded, another is used on."""

    def is_usable(connection: "psycopg.Connection[Any]") -> bool:
        if connection.closed or connection.pgconn.transaction_status in (pq.TransactionStatus.ACTIVE, pq.TransactionStatus.UNKNOWN):
            return False
        connection.rollback()
        return True

    dbapi.signals_inside_calls(psycopg, gateway, is_usable)


@PART.served
def nested_transactions(gateway: Gateway) -> None:
    watch = dbapi.opened(psycopg, gateway, dbapi.STOCK, "INSERT INTO stock VALUES (1, 20)")
    take = "UPDATE stock SET pieces = pieces - %s WHERE id = 1"
    with psycopg.connect(gateway.dsn()) as connection:
        with connection.transaction():
            connection.execute(take, (1,))
            with connection.transaction():
                connection.execute(take, (2,))
                try:
                    with connection.transaction():
                        connection.execute(take, (4,))
                        connection.execute(take, (100,))
                except psycopg.errors.CheckViolation:
                    pass
                with connection.transaction("A name of one's own") as own:
                    connection.execute(take, (8,))
                    raise psycopg.Rollback(own)
        expect(dbapi.rows(watch, "SELECT * FROM stock"), [(1, 17)])
        with connection.transaction(force_rollback=True):
            connection.execute(take, (5,))
        expect(connection.info.transaction_status, pq.TransactionStatus.IDLE)
    expect(dbapi.rows(watch, "SELECT * FROM stock"), [(1, 17)])
    watch.close()


@PART.served
def many_rows_by_executemany(gateway: Gateway) -> None:
    connection = dbapi.opened(psycopg, gateway, dbapi.STOCK)
    with connection.cursor() as cursor:
        cursor.executemany("INSERT INTO stock VALUES (%s, %s)", [(key, 5) for key in range(100)])
        expect(cursor.rowcount, 100)
        with connection.transaction():
            cursor.executemany("UPDATE stock SET pieces = pieces - %s WHERE id = %s", [(key % 6, key) for key in range(100)])
        cursor.executemany("SELECT * FROM stock WHERE id = %s", [(key,) for key in range(3)], returning=True)
        got = [cursor.fetchall()]
        while cursor.nextset():
            got.append(cursor.fetchall())
    expect(got, [[(0, 5)], [(1, 4)], [(2, 3)]])
    expect(dbapi.rows(connection, "SELECT * FROM stock"), [(key, 5 - key % 6) for key in range(100)])
    connection.close()


@PART.served
def pipeline(gateway: Gateway) -> None:
    keys = load(200)
    connection = dbapi.opened(psycopg, gateway, dbapi.STOCK, *(f"INSERT INTO stock VALUES ({key}, {key * 3})" for key in range(20)))
    with connection.pipeline():
        cursors = [connection.execute("SELECT * FROM stock WHERE id = %s", (key % 20,)) for key in range(keys)]
        expect([it.fetchall() for it in cursors], [[(key % 20, key % 20 * 3)] for key in range(keys)])
    with connection.pipeline() as line:
        first = connection.execute("UPDATE stock SET pieces = pieces - 1 WHERE id = 1")
        line.sync()
        with connection.cursor() as second, connection.cursor() as third:
            second.execute("UPDATE stock SET pieces = pieces - 1 WHERE id = 1")
            try:
                third.execute("UPDATE stock SET pieces = pieces - 99 WHERE id = 1")
                line.sync()
            except psycopg.errors.CheckViolation as error:
                expect(error.diag.constraint_name, "in_stock")
            else:
                raise AssertionError("no CheckViolation")
    # What stood between two syncs with the refused statement is rolled back with it.
    expect((first.statusmessage, dbapi.rows(connection, "SELECT * FROM stock WHERE id = 1")), ("UPDATE 1", [(1, 2)]))
    with connection.pipeline(), connection.transaction():
        for _ in range(2):
            connection.execute("UPDATE stock SET pieces = pieces - 1 WHERE id = 1")
    expect(dbapi.rows(connection, "SELECT * FROM stock WHERE id = 1"), [(1, 0)])
    connection.close()


@PART.served
def prepared_and_binary(gateway: Gateway) -> None:
    connection = dbapi.opened(psycopg, gateway, dbapi.THINGS, "INSERT INTO things VALUES (1, -9.50, 999999999999999, 0.000001, 'it''s')")
    wanted = (1, Decimal("-9.50"), 999999999999999, Decimal("0.000001"), "it's")
    for binary in (False, True):
        for prepare in (False, True, None):
            for _ in range(8):
                got = connection.execute("SELECT * FROM things WHERE id = %s", (1,), prepare=prepare, binary=binary).fetchone()
                expect(got, wanted, f"binary {binary}, prepare {prepare}")
    cursor = connection.cursor()
    for places, words in enumerate(("%s", "%b", "%t")):
        cursor.execute(f"UPDATE things SET micro = micro + {words}, amount = amount - {words} WHERE id = {words}", (Decimal("1.25"), 2**places * 40000, 1))
        expect(cursor.rowcount, 1)
        cursor.execute(f"SELECT * FROM things WHERE id = {words}", (1,))
        expect(cursor.fetchone()[2:4], (999999999999999 - (2 ** (places + 1) - 1) * 40000, Decimal("0.000001") + (places + 1) * Decimal("1.25")))
    expect([(it.name, it.type_code, it.precision, it.scale) for it in cursor.description],
           [("id", 20, None, None), ("price", 1700, 15, 2), ("amount", 20, None, None), ("micro", 1700, 15, 6), ("name", 1043, None, None)])
    expect(cursor.description[4].display_size, 255)
    connection.execute("DEALLOCATE ALL")
    connection.close()


@PART.served
def values_put_in_by_the_client(gateway: Gateway) -> None:
    connection = dbapi.opened(psycopg, gateway, dbapi.THINGS)
    cursor = psycopg.ClientCursor(connection)
    for key, name in enumerate(dbapi.TEXTS):
        cursor.execute("INSERT INTO things VALUES (%s, %s, %s, %s, %s)", (key, Decimal("-0.50"), -7, 0, name))
    expect([row[4] for row in dbapi.rows(connection, "SELECT * FROM things")], dbapi.TEXTS)
    connection.close()


@PART.served
def rows_one_by_one(gateway: Gateway) -> None:
    connection = dbapi.opened(psycopg, gateway, dbapi.STOCK, *(f"INSERT INTO stock VALUES ({key}, 1)" for key in range(50)))
    with connection.cursor() as cursor:
        expect([key for key, _ in cursor.stream("SELECT * FROM stock")], list(range(50)))
    connection.close()


@PART.served
def pool(gateway: Gateway) -> None:
    threads, turns = 16, load(25)
    watch = dbapi.opened(psycopg, gateway, dbapi.STOCK, f"INSERT INTO stock VALUES (1, {threads * turns})")

    def buy(_: int) -> None:
        for _ in range(turns):
            with connections.connection() as connection:
                connection.execute("UPDATE stock SET pieces = pieces - 1 WHERE id = 1")

    with ConnectionPool(gateway.dsn(), min_size=2, max_size=8) as connections:
        with ThreadPoolExecutor(threads) as executor:
            list(executor.map(buy, range(threads)))
        connections.check()
    expect(dbapi.rows(watch, "SELECT * FROM stock"), [(1, 0)])
    watch.close()


@PART.served
def asynchronous(gateway: Gateway) -> None:
    tasks, turns = 20, load(10)
    watch = dbapi.opened(psycopg, gateway, dbapi.STOCK, f"INSERT INTO stock VALUES (1, {tasks * turns})")

    async def buy() -> None:
        async with await psycopg.AsyncConnection.connect(gateway.dsn()) as connection:
            for _ in range(turns):
                async with connection.transaction():
                    await connection.execute("UPDATE stock SET pieces = pieces - 1 WHERE id = 1")

    async def all_of_them() -> None:
        await asyncio.gather(*(buy() for _ in range(tasks)))

    asyncio.run(all_of_them())
    expect(dbapi.rows(watch, "SELECT * FROM stock"), [(1, 0)])
    watch.close()


@PART.served
def cancel(gateway: Gateway) -> None:
    """A cancel request closes its own connection and disturbs no other."""
    connection = dbapi.opened(psycopg, gateway, dbapi.STOCK, "INSERT INTO stock VALUES (1, 5)")

    def ask() -> None:
        for _ in range(20):
            connection.cancel()
            time.sleep(0.001)

    asker = threading.Thread(target=ask)
    asker.start()
    for _ in range(load(100)):
        expect(dbapi.rows(connection, "SELECT * FROM stock"), [(1, 5)])
    asker.join()
    connection.close()


@PART.served
def what_is_not_there(gateway: Gateway) -> None:
    connection = dbapi.opened(psycopg, gateway, dbapi.STOCK)
    for statement in ("LISTEN news", "SELECT * FROM pg_operator", "LOCK TABLE stock"):
        error = dbapi.refused(psycopg, "FeatureNotSupported", partial(dbapi.run, connection, statement))
        expect(bool(error.diag.message_hint), True, statement)

    def copy() -> None:
        with connection.cursor() as cursor, cursor.copy("COPY stock FROM STDIN") as it:
            it.write_row((1, 1))

    dbapi.refused(psycopg, "FeatureNotSupported", copy)
    expect(dbapi.rows(connection, "SELECT * FROM stock"), [])
    connection.close()


@PART.served
def cursors_with_names(gateway: Gateway) -> None:
    """DECLARE, FETCH, MOVE and CLOSE, as a cursor of the server's sends them, with parameters."""
    rows = [f"INSERT INTO stock VALUES ({key}, {key})" for key in range(1, 8)]
    connection = dbapi.opened(psycopg, gateway, dbapi.STOCK, *rows)
    with connection.transaction(), connection.cursor("named") as cursor:
        cursor.execute("SELECT id FROM stock ORDER BY id LIMIT %s", (6,))
        expect(cursor.fetchmany(2), [(1,), (2,)])
        cursor.scroll(2)
        expect(cursor.fetchall(), [(5,), (6,)])
    expect(dbapi.rows(connection, "SELECT count(*) FROM stock"), [(7,)])
    connection.close()


if __name__ == "__main__":
    main(PART)
