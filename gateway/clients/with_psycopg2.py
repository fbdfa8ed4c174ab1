"""psycopg2: types, refusals, transactions, threads, pools, fork, and signals inside calls."""
from __future__ import annotations

import time
from concurrent.futures import ThreadPoolExecutor
from functools import partial
from typing import List

import psycopg2
import psycopg2.errors
import psycopg2.extensions
import psycopg2.extras
import psycopg2.pool

from clients import dbapi
from clients.servers import Gateway
from clients.suite import Part, expect, load, main

PART = Part("with_psycopg2")


@PART.served
def types_there_and_back(gateway: Gateway) -> None:
    dbapi.types_there_and_back(psycopg2, gateway)


@PART.served
def values_that_are_refused(gateway: Gateway) -> None:
    dbapi.values_that_are_refused(psycopg2, gateway)


@PART.served
def refusals_by_their_exceptions(gateway: Gateway) -> None:
    dbapi.refusals_by_their_exceptions(psycopg2, gateway)


@PART.served
def blocks(gateway: Gateway) -> None:
    dbapi.blocks(psycopg2, gateway)


@PART.served
def many_threads(gateway: Gateway) -> None:
    dbapi.many_threads(psycopg2, gateway)


@PART.served
def after_fork(gateway: Gateway) -> None:
    dbapi.after_fork(psycopg2, gateway)


@PART.served
def signals_inside_calls(gateway: Gateway) -> None:
    """The driver waits inside of libpq, so an exception comes behind the reply: the connection is used on, once its transaction is idle."""

    def is_usable(connection: "psycopg2.extensions.connection") -> bool:
        connection.rollback()
        return bool(connection.get_transaction_status() == psycopg2.extensions.TRANSACTION_STATUS_IDLE)

    dbapi.signals_inside_calls(psycopg2, gateway, is_usable)


@PART.served
def signals_inside_calls_that_wait_in_python(gateway: Gateway) -> None:
    """With a wait callback the exception comes in the middle of a reply: the driver closes the connection, or it is discarded."""
    psycopg2.extensions.set_wait_callback(psycopg2.extras.wait_select)
    try:
        dbapi.signals_inside_calls(psycopg2, gateway, lambda connection: False)
    finally:
        psycopg2.extensions.set_wait_callback(None)


@PART.served
def what_a_connection_knows(gateway: Gateway) -> None:
    with psycopg2.connect(gateway.dsn(application_name="till")) as connection:
        expect(connection.server_version, 150000)
        expect(connection.encoding, "UTF8")
        expect(connection.get_parameter_status("standard_conforming_strings"), "on")
        expect(connection.get_parameter_status("integer_datetimes"), "on")
        expect(connection.info.backend_pid > 0, True)
        connection.set_client_encoding("UTF8")
        connection.set_session(autocommit=True)
    connection.close()


@PART.served
def many_rows_by_executemany(gateway: Gateway) -> None:
    connection = dbapi.opened(psycopg2, gateway, dbapi.STOCK)
    with connection.cursor() as cursor:
        cursor.executemany("INSERT INTO stock VALUES (%s, %s)", [(key, 5) for key in range(100)])
        connection.autocommit = False
        cursor.executemany("UPDATE stock SET pieces = pieces - %s WHERE id = %s", [(key % 6, key) for key in range(100)])
        connection.commit()
        cursor.execute("SELECT * FROM stock")
        expect(cursor.rowcount, 100)
        expect(cursor.fetchmany(2), [(0, 5), (1, 4)])
        expect([pieces for _, pieces in cursor], [5 - key % 6 for key in range(2, 100)])
        expect([(it.name, it.type_code) for it in cursor.description], [("id", 20), ("pieces", 20)])
    connection.close()


@PART.served
def connection_as_a_block(gateway: Gateway) -> None:
    connection = dbapi.opened(psycopg2, gateway, dbapi.STOCK, "INSERT INTO stock VALUES (1, 5)")
    connection.autocommit = False
    with connection, connection.cursor() as cursor:
        cursor.execute("UPDATE stock SET pieces = pieces - 1 WHERE id = 1")
    try:
        with connection, connection.cursor() as cursor:
            cursor.execute("UPDATE stock SET pieces = pieces - 1 WHERE id = 1")
            raise KeyError
    except KeyError:
        pass
    expect(dbapi.rows(connection, "SELECT * FROM stock"), [(1, 4)])
    connection.close()


@PART.served
def pool_of_threads(gateway: Gateway) -> None:
    threads, turns, most = 16, load(25), 8
    watch = dbapi.opened(psycopg2, gateway, dbapi.STOCK, f"INSERT INTO stock VALUES (1, {threads * turns})")
    pool = psycopg2.pool.ThreadedConnectionPool(1, most, gateway.dsn())

    def buy(_: int) -> None:
        for _ in range(turns):
            connection = None
            while connection is None:
                try:
                    connection = pool.getconn()
                except psycopg2.pool.PoolError:
                    time.sleep(0.001)
            try:
                with connection, connection.cursor() as cursor:
                    cursor.execute("UPDATE stock SET pieces = pieces - 1 WHERE id = 1")
            finally:
                pool.putconn(connection)

    with ThreadPoolExecutor(threads) as executor:
        list(executor.map(buy, range(threads)))
    pool.closeall()
    expect(dbapi.rows(watch, "SELECT * FROM stock"), [(1, 0)])
    watch.close()


@PART.served
def what_is_not_there(gateway: Gateway) -> None:
    connection = dbapi.opened(psycopg2, gateway, dbapi.STOCK)
    names: List[str] = []
    for statement in ("COPY stock TO STDOUT", "LISTEN news", "SELECT * FROM pg_operator", "PREPARE TRANSACTION 'a'", "LOCK TABLE stock", "VACUUM"):
        error = dbapi.refused(psycopg2, "FeatureNotSupported", partial(dbapi.run, connection, statement))
        names += [statement] if not error.diag.message_hint else []
    expect(names, [], "refused without a hint")
    connection.close()


@PART.served
def cursors_with_names(gateway: Gateway) -> None:
    """DECLARE, FETCH and CLOSE, as a cursor with a name sends them."""
    rows = [f"INSERT INTO stock VALUES ({key}, {key})" for key in range(1, 8)]
    connection = dbapi.opened(psycopg2, gateway, dbapi.STOCK, *rows)
    connection.autocommit = False
    with connection.cursor("named") as cursor:
        cursor.itersize = 3
        cursor.execute("SELECT id FROM stock ORDER BY id DESC")
        expect([key for key, in cursor], [7, 6, 5, 4, 3, 2, 1])
    with connection.cursor("Other") as cursor:
        cursor.execute("SELECT id, 'x' AS mark FROM stock WHERE id IN %s", ((2, 9, 1),))
        expect(cursor.fetchmany(1), [(1, "x")])
        expect([column.name for column in cursor.description], ["id", "mark"])
        dbapi.refused(psycopg2, "ObjectNotInPrerequisiteState", lambda: cursor.scroll(-1))
    connection.rollback()
    connection.close()


if __name__ == "__main__":
    main(PART)
