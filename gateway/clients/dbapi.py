"""What psycopg2 and psycopg 3 have in common: the cases take the driver's module."""
from __future__ import annotations

import os
import random
import signal
from concurrent.futures import ThreadPoolExecutor
from contextlib import closing
from decimal import Decimal
from functools import partial
from types import FrameType
from typing import Any, Callable, List, Optional, Tuple

from clients.servers import Gateway
from clients.suite import expect, load

# The module of a driver, and what it makes, have no types that both share.
Driver = Any
Connection = Any

STOCK = "CREATE TABLE stock (id INTEGER PRIMARY KEY, pieces INTEGER RESERVABLE CONSTRAINT in_stock CHECK (pieces >= 0))"
THINGS = ("CREATE TABLE things (id INTEGER PRIMARY KEY, price NUMBER(15,2), amount NUMBER(15) RESERVABLE, micro NUMBER(15,6) RESERVABLE, "
          "name VARCHAR2(255))")
TEXTS = [
    "Bob's", "''", "\\", "a\\nb \\' \\\\", '"quoted"', "; DROP TABLE things; --", "/* no comment */", "$1 %s %% :name", "a | b", " blanks ",
    "ä€𝄞", "line\u2028separator\u2029\x85", "E'x'", "x" * 255, "ü" * 127,
]
NUMBERS = [0, 1, -1, 32767, -32768, 32768, 2147483647, -2147483648, 2147483648, 999999999999999, -999999999999999]
DECIMALS = ["0", "0.01", "-0.01", "9.50", "9999999999999.99", "-9999999999999.99", "1E+3", "0.10"]
THREADS, SIGNALS = 40, 1000


def opened(driver: Driver, gateway: Gateway, *statements: str) -> Connection:
    """Returns a connection on which each statement commits by itself, with statements run."""
    connection = driver.connect(gateway.dsn())
    connection.autocommit = True
    run(connection, *statements)
    return connection


def run(connection: Connection, *statements: str) -> None:
    """Runs statements without parameters."""
    with connection.cursor() as cursor:
        for it in statements:
            cursor.execute(it)


def rows(connection: Connection, statement: str, values: Tuple[object, ...] = ()) -> List[Tuple[object, ...]]:
    """Returns the rows of a query."""
    with connection.cursor() as cursor:
        cursor.execute(statement, values or None)
        return list(cursor.fetchall())


def refused(driver: Driver, name: str, act: Callable[[], object]) -> Any:
    """Expects an exception of a name from the driver's errors, and returns it."""
    try:
        act()
    except driver.Error as error:
        expect(type(error).__name__, name, str(error))
        return error
    raise AssertionError(f"no {name}")


def types_there_and_back(driver: Driver, gateway: Gateway) -> None:
    with closing(opened(driver, gateway, THINGS)) as connection:
        wanted = []
        for key, name in enumerate(TEXTS, 1):
            wanted.append((key, Decimal("9.50"), 5, Decimal("-0.000001"), name))
        for number in NUMBERS:
            wanted.append((len(wanted) + 1, Decimal("1.00"), number, Decimal("999999999.999999"), "number"))
        for decimal in DECIMALS:
            wanted.append((len(wanted) + 1, Decimal(decimal), 0, Decimal("1.5"), "decimal"))
        with connection.cursor() as cursor:
            for row in wanted:
                cursor.execute("INSERT INTO things VALUES (%s, %s, %s, %s, %s)", row)
                expect((cursor.rowcount, cursor.statusmessage), (1, "INSERT 0 1"))
        got = rows(connection, "SELECT * FROM things")
        expect(got, wanted)
        expect([type(it) for it in got[0]], [int, Decimal, int, Decimal, str])
        for row in wanted:
            expect(rows(connection, "SELECT * FROM things WHERE id = %s", (row[0],)), [row])
        with connection.cursor() as cursor:
            cursor.execute("UPDATE things SET micro = micro - %s, amount = amount + %s WHERE id = %s", (Decimal("0.5"), 7, 1))
            expect(cursor.rowcount, 1)
            cursor.execute("UPDATE things SET amount = amount - %s WHERE id = %s", (-3, 1))
            cursor.execute("UPDATE things SET price = %s, name = %s WHERE id = %s", (Decimal("0.05"), "it's", 1))
            cursor.execute("UPDATE things SET name = %s WHERE id = %s", ("nobody", 1000))
            expect((cursor.rowcount, cursor.statusmessage), (0, "UPDATE 0"))
        expect(rows(connection, "SELECT * FROM things WHERE id = 1"), [(1, Decimal("0.05"), 15, Decimal("-0.500001"), "it's")])


def values_that_are_refused(driver: Driver, gateway: Gateway) -> None:
    """The text of a control character is refused as the server does, and nothing is stored in its place."""
    with closing(opened(driver, gateway, THINGS)) as connection:

        def insert(price: object, name: object) -> None:
            with connection.cursor() as cursor:
                cursor.execute("INSERT INTO things VALUES (%s, %s, %s, %s, %s)", (1, price, 1, 1, name))

        for character in ("\n", "\r", "\t", "\x01", "\x1f", "\x7f"):
            refused(driver, "CharacterNotInRepertoire", partial(insert, 1, f"a{character}b"))
        refused(driver, "NotNullViolation", lambda: insert(1, None))
        for price, name in ((Decimal("0.005"), "x"), (Decimal("99999999999999.99"), "x"), (1, "x" * 256), (1, ""), ("x", "x"), (1, 5)):
            try:
                insert(price, name)
            except driver.Error as error:
                code = str(getattr(error, "sqlstate", None) or getattr(error, "pgcode", None))
                expect(code[:2] in ("22", "42"), True, f"{price!r}, {name!r}: {code}")
            else:
                raise AssertionError(f"{price!r}, {name!r} is not refused")
        expect(rows(connection, "SELECT * FROM things"), [])


def refusals_by_their_exceptions(driver: Driver, gateway: Gateway) -> None:
    connection = opened(driver, gateway, STOCK, "INSERT INTO stock VALUES (1, 5)")

    def ask(statement: str) -> Callable[[], object]:
        return lambda: run(connection, statement)

    broken = refused(driver, "CheckViolation", ask("UPDATE stock SET pieces = pieces - 6 WHERE id = 1"))
    expect((broken.diag.constraint_name, broken.diag.table_name, broken.diag.sqlstate), ("in_stock", "stock", "23514"))
    expect("-1" in broken.diag.message_detail and "0" in broken.diag.message_detail, True, broken.diag.message_detail)
    unique = refused(driver, "UniqueViolation", ask("INSERT INTO stock VALUES (1, 5)"))
    expect((unique.diag.sqlstate, unique.diag.table_name), ("23505", "stock"))
    refused(driver, "CheckViolation", ask("INSERT INTO stock VALUES (2, -1)"))
    refused(driver, "UndefinedTable", ask("SELECT * FROM nothing"))
    refused(driver, "DuplicateTable", ask(STOCK))
    refused(driver, "UndefinedObject", ask("ALTER TABLE stock DROP CONSTRAINT nothing"))
    refused(driver, "FeatureNotSupported", ask("SELECT * FROM stock WHERE pieces = 5"))
    refused(driver, "FeatureNotSupported", ask("UPDATE stock SET pieces = 5 WHERE id = 1"))
    computed = refused(driver, "FeatureNotSupported", ask("UPDATE stock SET pieces = pieces * 2 WHERE id = 1"))
    expect(computed.diag.statement_position, "27")
    fault = refused(driver, "SyntaxError", ask("UPDATE stock SET pieces = pieces - 1..5 WHERE id = 1"))
    expect(fault.diag.statement_position, "37")
    connection.close()


def blocks(driver: Driver, gateway: Gateway) -> None:
    """A driver's transaction: what it refuses inside, the failed state, savepoints, and a COMMIT that rolls back."""
    watch = opened(driver, gateway, STOCK, "INSERT INTO stock VALUES (1, 5)")
    connection = driver.connect(gateway.dsn())
    pieces: Callable[[], object] = lambda: rows(watch, "SELECT * FROM stock")[0][1]
    run(connection, "UPDATE stock SET pieces = pieces - 1 WHERE id = 1")
    expect(pieces(), 5)
    connection.commit()
    expect(pieces(), 4)
    run(connection, "UPDATE stock SET pieces = pieces - 1 WHERE id = 1")
    connection.rollback()
    expect(pieces(), 4)
    run(connection, "UPDATE stock SET pieces = pieces - 1 WHERE id = 1")
    refused(driver, "ActiveSqlTransaction", lambda: run(connection, "INSERT INTO stock VALUES (2, 1)"))
    refused(driver, "InFailedSqlTransaction", lambda: run(connection, "SELECT * FROM stock"))
    connection.commit()
    expect(rows(watch, "SELECT * FROM stock"), [(1, 4)])
    run(connection, "UPDATE stock SET pieces = pieces - 1 WHERE id = 1", "SAVEPOINT one", "UPDATE stock SET pieces = pieces - 1 WHERE id = 1")
    refused(driver, "CheckViolation", lambda: run(connection, "UPDATE stock SET pieces = pieces - 9 WHERE id = 1"))
    run(connection, "ROLLBACK TO one")
    refused(driver, "InvalidSavepointSpecification", lambda: run(connection, "ROLLBACK TO two"))
    run(connection, "ROLLBACK TO SAVEPOINT one", "RELEASE SAVEPOINT one")
    connection.commit()
    expect(pieces(), 3)
    run(connection, "UPDATE stock SET pieces = pieces - 1 WHERE id = 1")
    refused(driver, "ObjectInUse", lambda: run(watch, "DELETE FROM stock WHERE id = 1"))
    connection.close()
    run(watch, "DELETE FROM stock WHERE id = 1")
    watch.close()


def many_threads(driver: Driver, gateway: Gateway) -> None:
    """Forty threads reserve on a hot row, each on its own row too, and some roll back."""
    turns = load(50)
    watch = opened(driver, gateway, STOCK, f"INSERT INTO stock VALUES (0, {THREADS * turns})")
    for key in range(1, THREADS + 1):
        run(watch, f"INSERT INTO stock VALUES ({key}, 1000)")

    def buy(key: int) -> int:
        kept = 0
        connection = driver.connect(gateway.dsn())
        for turn in range(turns):
            run(connection, "UPDATE stock SET pieces = pieces - 1 WHERE id = 0", f"UPDATE stock SET pieces = pieces + 1 WHERE id = {key}")
            expect(rows(connection, "SELECT * FROM stock WHERE id = %s", (key,)), [(key, 1000 + kept)])
            if (key + turn) % 3:
                connection.commit()
                kept += 1
            else:
                connection.rollback()
        connection.close()
        return kept

    with ThreadPoolExecutor(THREADS) as threads:
        kept = list(threads.map(buy, range(1, THREADS + 1)))
    expect(rows(watch, "SELECT * FROM stock"), [(0, THREADS * turns - sum(kept)), *((key, 1000 + it) for key, it in enumerate(kept, 1))])
    watch.close()


def after_fork(driver: Driver, gateway: Gateway) -> None:
    """Children with connections of their own get their own rows, and the parent's connection serves on."""
    watch = opened(driver, gateway, STOCK, *(f"INSERT INTO stock VALUES ({key}, {key * 7})" for key in range(1, 6)))
    processes = []
    for key in range(1, 5):
        process = os.fork()
        if process == 0:
            status = 1
            try:
                own = opened(driver, gateway)
                status = int(any(rows(own, "SELECT * FROM stock WHERE id = %s", (key,)) != [(key, key * 7)] for _ in range(load(300))))
            finally:
                os._exit(status)  # pylint: disable=protected-access  # so that the parent's connection isn't closed here
        processes.append(process)
    for _ in range(load(300)):
        expect(rows(watch, "SELECT * FROM stock WHERE id = 5"), [(5, 35)])
    expect([os.waitstatus_to_exitcode(os.waitpid(it, 0)[1]) for it in processes], [0] * 4)
    expect(rows(watch, "SELECT * FROM stock WHERE id = 5"), [(5, 35)])
    watch.close()


class Struck(Exception):
    """What a handler of a signal raises inside a call."""


def signals_inside_calls(driver: Driver, gateway: Gateway, is_usable: Callable[[Connection], bool]) -> None:
    """An exception from a signal's handler ends calls at any place. A connection is used on as its driver allows; no row is another's."""
    keys, wanted = 64, load(SIGNALS)
    watch = opened(driver, gateway, STOCK, *(f"INSERT INTO stock VALUES ({key}, {key * 7})" for key in range(keys)))

    def strike(_number: int, _frame: Optional[FrameType]) -> None:
        raise Struck

    def ask(connection: Connection, key: int) -> List[Tuple[object, ...]]:
        run(connection, f"UPDATE stock SET pieces = pieces + 1 WHERE id = {key}")
        return rows(connection, "SELECT * FROM stock WHERE id = %s", (key,))

    connection, draw = driver.connect(gateway.dsn()), random.Random(1)
    struck, calls, others, discarded = 0, 0, 0, 0
    latest = 0.01  # the seconds until a signal at the latest: fitted so that about each second call is struck, at any load of the machine
    before = signal.signal(signal.SIGALRM, strike)
    try:
        while struck < wanted:
            key = draw.randrange(keys)
            got: Optional[List[Tuple[object, ...]]] = None
            calls += 1
            try:
                signal.setitimer(signal.ITIMER_REAL, draw.uniform(1e-5, latest))
                got = ask(connection, key)
                signal.setitimer(signal.ITIMER_REAL, 0)
                latest *= 0.9
                connection.rollback()
            except Struck:
                struck += 1
                latest *= 1.1
                if not is_usable(connection):
                    connection.close()
                    connection = driver.connect(gateway.dsn())
                    discarded += 1
            if got is not None and got != [(key, key * 7)]:
                others += 1
    finally:
        signal.setitimer(signal.ITIMER_REAL, 0)
        signal.signal(signal.SIGALRM, before)
    expect(others, 0, f"rows of another, of {calls} calls, {struck} signals, {discarded} connections discarded")
    connection.close()
    expect(rows(watch, "SELECT * FROM stock"), [(key, key * 7) for key in range(keys)])
    watch.close()
