"""Statements at random, through the proxy and to PostgreSQL itself, over equal tables.

    python3 -m proxy.test.compare [--seed N] [--count N]

What the proxy reserves or passes on has the tags, rows, errors and effects that PostgreSQL gives on ordinary tables; or it is refused, by one of REFUSALS.
The gate sends the same statements each time. By hand a seed and a count can be chosen. A difference is printed with its statement.
"""
from __future__ import annotations

import argparse
import math
import random
import re
import struct
import sys
import time
from dataclasses import dataclass
from pathlib import Path
from typing import Dict, List, NamedTuple, Optional, Sequence, Tuple

from psycopg import pq

from clients import wire
from clients.suite import expect, load, main
from proxy.test import messages
from proxy.test.drivers import Both, opened
from proxy.test.harness import SharedPart

PART = SharedPart("proxy_compare", opened)
# What the gate sends; and its most seconds, behind which a slow machine sends no more.
SEED, COUNT, SECONDS = 83, 1_200, 100.0
# The statements behind which the rows are made anew, and the differences that are shown.
A_TABLE, MOST_SHOWN = 100, 12

# How the proxy may refuse what PostgreSQL would do: SQLSTATE, and what the message has.
REFUSALS: Dict[str, str] = {
    "0A000": "are changed by escrowd-proxy alone",
    "55006": "is held by escrowd-proxy",
}

ACCOUNT = "'00000000-0000-0000-0000-000000000001'"
FORMS = (
    "UPDATE stock SET pieces = pieces - 1, title = 'x' WHERE id = 1 AND pieces >= 1 RETURNING id, title",
    "UPDATE stock SET pieces = pieces - 12 WHERE id = 2 AND pieces >= 12",
    "UPDATE public.stock AS s SET pieces = s.pieces + 2::int WHERE s.id IN (1, 2, 3)",
    "UPDATE stock SET title = title || 'y', pieces = stock.pieces - (- 3) WHERE 3 = id",
    "UPDATE stock SET pieces = pieces - 4 WHERE id = 5",
    "UPDATE ONLY stock SET pieces = pieces + '7', title = upper(title) WHERE (id) = (CAST('2' AS int)) RETURNING stock.id AS a, title b",
    "UPDATE stock SET pieces = COALESCE(pieces, 0) + 1 WHERE id = '3'",
    "UPDATE stock SET pieces = 2 + pieces WHERE id = 1.0",
    "UPDATE account SET balance = balance - 1.25, held = held + .5 WHERE id = " + ACCOUNT,
    "UPDATE account a SET held = a.held - 0.50 WHERE a.id = " + ACCOUNT + "::uuid RETURNING owner",
    "UPDATE shelf SET room = room + 7 WHERE code = E'a\\'b'",
    "UPDATE shelf SET room = room - 3 WHERE code = 'c' AND room > 2 RETURNING code",
    "UPDATE stock SET pieces = pieces - 1 WHERE id = ANY ('{1,2}') RETURNING id",
    "UPDATE stock SET pieces = pieces + 1, title = 'z' WHERE id = ANY (ARRAY[1, 3])",
    "UPDATE shelf SET room = room + 1 WHERE code = ANY ('{c,\"a''b\"}'::text[])",
    "WITH s AS (UPDATE stock SET pieces = pieces - 1 WHERE id = 1 AND pieces >= 1 RETURNING id, title) INSERT INTO taken SELECT id, 1 FROM s",
    "WITH o AS (INSERT INTO taken VALUES (2, 3) RETURNING pieces) UPDATE stock AS s SET pieces = s.pieces - 3 WHERE id = 2 RETURNING title",
    "WITH s AS (UPDATE stock SET pieces = pieces + 1, title = 'w' WHERE id IN (2, 3) RETURNING id) SELECT * FROM s ORDER BY id",
    "DELETE FROM stock WHERE id = 4 RETURNING id",
    "DELETE FROM shelf WHERE code = 'c'",
    "INSERT INTO stock VALUES (4, 'four', 10)",
    "INSERT INTO taken (item, pieces) VALUES (1, 2), (5, 1) RETURNING item",
)
# Strings of several statements, which are Queries.
STRINGS = (
    "BEGIN; INSERT INTO taken (item, pieces) VALUES (1, 1); UPDATE stock SET pieces = pieces - 1 WHERE id = 1; COMMIT",
    "INSERT INTO taken VALUES (2, 1) RETURNING item; UPDATE stock SET pieces = pieces - 3 WHERE id = 2; SELECT count(*) FROM taken",
    "UPDATE stock SET pieces = pieces - 1 WHERE id = 1; UPDATE stock SET title = 'x' WHERE id = 2 RETURNING title; "
    "UPDATE shelf SET room = room + 1 WHERE code = 'c'",
    "BEGIN; UPDATE stock SET pieces = pieces + 2 WHERE id = 3; SAVEPOINT a; UPDATE shelf SET room = room - 1 WHERE code = 'c'; ROLLBACK TO a; COMMIT; "
    "UPDATE stock SET pieces = pieces - 1 WHERE id = 5",
    "SET search_path = public; DELETE FROM stock WHERE id = 4; INSERT INTO stock VALUES (4, 'again', 1)",
    "UPDATE stock SET pieces = pieces - 1 WHERE id = 5; SELECT 'ä', nothing",
)
# Texts with parameters, and what those may be.
WITH_PARAMETERS = (
    "UPDATE stock SET pieces = pieces - $1 WHERE id = $2",
    "UPDATE stock SET pieces = $1 + pieces, title = 'p' WHERE id IN ($2, 3) RETURNING title",
    "UPDATE stock SET pieces = pieces - $1::int WHERE id = $2 AND pieces >= $1",
    "UPDATE account SET balance = balance - $1 WHERE id = " + ACCOUNT + " AND $2 = 2",
    "UPDATE account SET balance = balance + $1, held = held + $2 WHERE id = " + ACCOUNT,
    "UPDATE shelf SET room = room + (- $1) WHERE code = $2",
    "WITH s AS (UPDATE stock SET pieces = pieces - $1 WHERE id = $2 RETURNING id) INSERT INTO taken SELECT id, $1 FROM s",
    "WITH o AS (INSERT INTO taken VALUES ($2, 1)) UPDATE stock SET pieces = pieces - $1 WHERE id = $2",
    "DELETE FROM stock WHERE id = $2 AND $1 = 4",
    "DELETE FROM stock WHERE id = $2",
)
VALUES = (b"1", b"2", b"3", b"-1", b" 2 ", b"1.5", b"0.25", b"2.0", b"1e0", b"c", b"", b"4000000000", b"99999999999999999", b"0x1", b"NaN")
INT2, INT4, INT8, FLOAT8, NUMERIC, TEXT, UNKNOWN, UNTOLD = 21, 23, 20, 701, 1700, 25, 705, 0
TYPES = (UNTOLD, UNTOLD, UNTOLD, INT2, INT4, INT4, INT8, FLOAT8, NUMERIC, TEXT, UNKNOWN)
BINARY = {INT2: "!h", INT4: "!i", INT8: "!q", FLOAT8: "!d"}

CHARACTERS = "()'\"0123456789.,;=<>-+:* eE\\\n"
WORDS = (" AND ", " OR ", "pieces", "id", "title", "NULL", "::text", "::int", "::numeric", "1", "2", "3", " NOT ", "stock", "s.", "'5'", " - ", " + ", " = ")

TAKEN = "CREATE TABLE taken (item integer REFERENCES stock ON DELETE CASCADE, pieces integer NOT NULL CHECK (pieces > 0))"
ROWS = (
    "INSERT INTO stock (id, title, pieces) SELECT i, 'row ' || i, 10 FROM generate_series(1, 5) AS i",
    f"INSERT INTO account (id, owner, balance, held) VALUES ({ACCOUNT}, 'Ann', 50, 1)",
    "INSERT INTO shelf (code, room) VALUES ('c', 5), ('a''b', 0)",
)
SHOWN = """SELECT 'stock', id::text, title, pieces::text, '' FROM stock UNION ALL SELECT 'account', id::text, owner, balance::text, held::text FROM account
    UNION ALL SELECT 'shelf', code, '', room::text, '' FROM shelf
    UNION ALL SELECT 'taken', item::text, '', pieces::text, '' FROM taken ORDER BY 1, 2, 3, 4, 5"""


# Sessions of messages, which have to be equal.
SESSIONS: Dict[str, Sequence[messages.Step]] = {
    **messages.NAMES, **messages.LETTERS, **messages.ENCODINGS, **messages.KEPT, **messages.TYPES, **messages.WHOLE
}


@dataclass(frozen=True)
class Sent:
    """A statement, and how it is sent. Without parameters it is a Query."""

    text: str
    values: Optional[Tuple[Optional[bytes], ...]] = None
    types: Tuple[int, ...] = ()
    formats: Tuple[int, ...] = ()

    def is_string(self) -> bool:
        """Returns whether it may have several statements, of which some may be committed though a later one is refused."""
        return self.values is None and ";" in self.text

    def __str__(self) -> str:
        shown = "" if self.values is None else f" with {self.values} of types {self.types} in formats {self.formats}"
        return repr(self.text) + shown


class Result(NamedTuple):
    """One result of a message: tag, columns with their types, rows; or what is told of an error."""

    tag: bytes = b""
    columns: Tuple[Tuple[Optional[bytes], int], ...] = ()
    rows: Tuple[Tuple[Optional[bytes], ...], ...] = ()
    error: str = ""
    place: Optional[bytes] = None
    message: str = ""


class Answer(NamedTuple):
    """What came back, and the state of the session behind it."""

    results: Tuple[Result, ...]
    state: int

    def is_refusal(self, sent: Sent) -> bool:
        """Returns whether the proxy has refused it as it may. The changes of a string count each by itself."""
        may_be = {**REFUSALS, "23514": "some that others have reserved"} if sent.is_string() else REFUSALS
        return any(may_be.get(it.error, "\0") in it.message for it in self.results)

    def is_error(self) -> bool:
        """Returns whether it has an error."""
        return any(it.error for it in self.results)

    def compared(self, sent: Sent) -> object:
        """Returns what has to be equal. In WITH the place of an error is that in the statement which PostgreSQL got."""
        has_place = not re.match(r"\s*WITH\b", sent.text)
        return [it._replace(message="", place=it.place if has_place else None) for it in self.results], self.state


def result(it: pq.abc.PGresult) -> Result:
    """Reads a result."""
    if it.status == pq.ExecStatus.FATAL_ERROR:
        asked = (pq.DiagnosticField.SQLSTATE, pq.DiagnosticField.MESSAGE_PRIMARY, pq.DiagnosticField.MESSAGE_DETAIL)
        state, message, detail = ((it.error_field(field) or b"").decode(errors="replace") for field in asked)
        return Result(error=state, place=it.error_field(pq.DiagnosticField.STATEMENT_POSITION), message=f"{message} {detail}")
    columns = tuple((it.fname(at), it.ftype(at)) for at in range(it.nfields))
    rows = (tuple(it.get_value(row, at) for at in range(it.nfields)) for row in range(it.ntuples))
    # The order of an UPDATE's rows is nobody's promise.
    return Result(it.command_status or b"", columns, tuple(sorted(rows, key=str)))


def answer(connection: pq.abc.PGconn, sent: Sent) -> Answer:
    """Sends a statement, and waits for all that comes back."""
    if sent.values is None:
        connection.send_query(sent.text.encode())
    else:
        connection.send_query_params(sent.text.encode(), sent.values, sent.types, sent.formats)
    results: List[Result] = []
    found = connection.get_result()
    while found is not None:
        results.append(result(found))
        found = connection.get_result()
    return Answer(tuple(results), connection.transaction_status)


class Generator:
    """Makes statements: the same ones from the same seed."""

    def __init__(self, seed: int) -> None:
        self.draw = random.Random(seed)

    def mutated(self, text: str) -> str:
        """Changes a text at up to two places: a character, or a whole word or number."""
        draw = self.draw
        for _ in range(draw.choice((0, 0, 1, 1, 2))):
            tokens = re.findall(r"\w+|\s+|.", text, re.DOTALL)
            at = draw.randrange(len(tokens))
            if draw.random() < 0.3:
                tokens.insert(at, draw.choice(CHARACTERS))
            elif draw.random() < 0.5:
                tokens[at] = draw.choice(tokens if draw.random() < 0.5 else WORDS)
            elif draw.random() < 0.5:
                tokens.insert(at, draw.choice(WORDS))
            else:
                del tokens[at]
            text = "".join(tokens)
        return text

    def value(self) -> Tuple[Optional[bytes], int, int]:
        """Returns a value of a parameter, its type and its format."""
        draw = self.draw
        value, oid = draw.choice(VALUES), draw.choice(TYPES)
        if draw.random() < 0.05:
            return None, oid, 0
        if draw.random() < 0.5:
            layout = BINARY.get(oid, "!i")
            number = draw.choice((1, 2, 3, -1))
            return struct.pack(layout, number), oid, 1
        return value, oid, 0

    def statement(self) -> Sent:
        """Returns the next statement."""
        draw = self.draw
        if draw.random() < 0.3:
            text = draw.choice(WITH_PARAMETERS)
            values = [self.value() for _ in range(2)]
            given, types, formats = zip(*values)
            return Sent(self.mutated(text) if draw.random() < 0.3 else text, given, types, formats)
        if draw.random() < 0.3:
            return Sent(self.mutated(draw.choice(STRINGS)))
        text = self.mutated(draw.choice(FORMS))
        return Sent(text) if draw.random() < 0.5 else Sent(text, ())


class Comparison:
    """Both databases with equal rows, and what was found so far."""

    def __init__(self, both: Both) -> None:
        self.both = both
        self.proxied, self.plain = both.proxy.connect(), both.plain.connect()
        self.straight = both.cluster.connect()
        self.served = self.errors = self.refused = 0
        self.differences: List[str] = []

    def renew(self) -> None:
        """Makes the rows anew on both."""
        for it in (self.proxied, self.plain):
            for table, key in (("stock", "id"), ("account", "id"), ("shelf", "code")):
                for value, in it.execute(f"SELECT {key}::text FROM {table}".encode()).fetchall():
                    it.execute(f"DELETE FROM {table} WHERE {key} = %s".encode(), (value,))
            for statement in ROWS:
                it.execute(statement.encode())

    def differ(self, sent: Sent, what: str, through: object, straight: object) -> None:
        """Notes a difference."""
        self.differences.append(f"{what} of {sent}: through the proxy {through}, PostgreSQL {straight}")

    def try_one(self, sent: Sent) -> None:
        """Sends a statement to both, and compares what they do."""
        if self.proxied.closed or self.proxied.pgconn.status != pq.ConnStatus.OK:
            self.proxied = self.both.proxy.connect()
        through = answer(self.proxied.pgconn, sent)
        is_refused = through.is_refusal(sent)
        if is_refused and not sent.is_string():
            self.refused += 1
            self.end_blocks()
            return
        straight = answer(self.plain.pgconn, sent)
        if through.compared(sent) != straight.compared(sent):
            if is_refused:
                self.refused += 1
                self.end_blocks()
                self.renew()
                return
            self.differ(sent, "the answer", through, straight)
        self.end_blocks()
        if through.is_error():
            self.errors += 1
        else:
            self.served += 1
        tables = [it.execute(SHOWN.encode()).fetchall() for it in (self.straight, self.plain)]
        if tables[0] != tables[1]:
            self.differ(sent, "the effect", *tables)
            self.renew()

    def end_blocks(self) -> None:
        """Ends the blocks that a statement has left open."""
        for it in (self.proxied, self.plain):
            if it.pgconn.status == pq.ConnStatus.OK and it.pgconn.transaction_status != pq.TransactionStatus.IDLE:
                it.execute("ROLLBACK")

    def run(self, seed: int, count: int, seconds: float) -> None:
        """Tries the statements of a seed, for so many seconds at most."""
        generator = Generator(seed)
        end = time.monotonic() + seconds
        for turn in range(count):
            if turn % A_TABLE == 0:
                self.renew()
            self.try_one(generator.statement())
            if len(self.differences) >= MOST_SHOWN or time.monotonic() > end:
                return

    def close(self) -> None:
        """Ends its connections."""
        for it in (self.proxied, self.plain, self.straight):
            it.close()


@PART.case
def mutated_statements(both: Both) -> None:
    compared(both, SEED, load(COUNT), SECONDS)


def played(path: Path, database: str, steps: Sequence[messages.Step]) -> List[str]:
    """Returns what comes back for a session of messages, in words."""
    found: List[str] = []
    with wire.Connection(path, database=database) as it:
        try:
            for count, sent in steps:
                it.send(*sent)
                while count:
                    told = it.read()
                    count -= told.kind == "Z"
                    if told.kind not in "NS":
                        found.append(f"{told.shown()} {told.fields()['M']}" if told.kind == "E" else told.shown())
        except wire.Ended:
            found.append("ended")
    return found


@PART.case
def sessions_of_messages(both: Both) -> None:
    for database in (both.cluster, both.plain):
        database.run("DROP TABLE IF EXISTS taken", TAKEN)
    comparison = Comparison(both)
    try:
        for name, steps in SESSIONS.items():
            comparison.renew()
            straight = played(both.cluster.socket, both.plain.name, steps)
            expect(played(both.proxy.socket, "bank", steps), straight, name)
            tables = [it.execute(SHOWN.encode()).fetchall() for it in (comparison.straight, comparison.plain)]
            expect(tables[0], tables[1], name)
        for name, steps in messages.REFUSED.items():
            comparison.renew()
            before = comparison.straight.execute(SHOWN.encode()).fetchall()
            refusals = [it for it in played(both.proxy.socket, "bank", steps) if REFUSALS["0A000"] in it]
            expect((len(refusals), comparison.straight.execute(SHOWN.encode()).fetchall()), (1, before), name)
    finally:
        comparison.close()


def renew(both: Both) -> None:
    """Makes the rows anew on both."""
    comparison = Comparison(both)
    try:
        comparison.renew()
    finally:
        comparison.close()


@PART.case
def requests_that_postgresql_skips(both: Both) -> None:
    """They leave what the proxy has made in the session before, and make nothing."""
    renew(both)
    made = "SELECT name FROM pg_prepared_statements WHERE name LIKE 'escrowd-proxy %' ORDER BY name"
    with wire.Connection(both.proxy.socket) as it:
        it.do(messages.TAKE)
        before = it.rows(made)
        for _, sent in [messages.SKIPPED] * 3:
            it.send(*sent)
            expect([told.shown() for told in it.until_ready()], ["parsed", "ERROR 22P02", "ready I"])
        it.do(messages.TAKE)
        expect(it.rows(made), before)


@PART.case
def more_rows_of_a_portal_than_are_kept(both: Both) -> None:
    """They fail the statement, and nothing else."""
    renew(both)
    told = played(both.proxy.socket, "bank", messages.MANY_ROWS)
    expect([told[0], told[1], *(it[:11] for it in told[3:])], ["parsed", "bound", "ERROR 54000", "ready I", "complete UP", "ready I"])
    with both.cluster.connect() as it:
        expect(it.execute("SELECT pieces FROM stock WHERE id = 1").fetchall(), [(9,)])


@PART.case
def a_setting_that_cannot_be_asked_for(both: Both) -> None:
    """The error of that answers the Query."""
    renew(both)
    told = played(both.proxy.socket, "bank", messages.UNASKED)
    expect([told[-2][:11], told[-1]], ["ERROR 26000", "ready I"])


def compared(both: Both, seed: int, count: int, seconds: float = math.inf) -> None:
    """Compares the statements of a seed. Fails, and shows the first differences, if there are some."""
    for database in (both.cluster, both.plain):
        database.run("DROP TABLE IF EXISTS taken", TAKEN)
    comparison = Comparison(both)
    try:
        comparison.run(seed, count, seconds)
    finally:
        comparison.close()
    print(f"seed {seed}: {comparison.served} served, {comparison.errors} errors, {comparison.refused} refused", file=sys.stderr)
    expect("\n".join(comparison.differences), "", f"seed {seed}")
    # Not all that is sent may be a syntax error.
    tried = comparison.served + comparison.errors + comparison.refused
    expect(comparison.served > tried / 5, True, f"{comparison.served} of {tried} were served")


def by_hand(words: Sequence[str]) -> None:
    """Runs as the command line says."""
    parser = argparse.ArgumentParser(description=__doc__, formatter_class=argparse.RawDescriptionHelpFormatter)
    parser.add_argument("--seed", type=int, default=SEED)
    parser.add_argument("--count", type=int, default=COUNT)
    asked = parser.parse_args(words)
    with opened() as (both,):
        compared(both, asked.seed, asked.count)


if __name__ == "__main__":
    if any(word.startswith("-") for word in sys.argv[1:]):
        by_hand(sys.argv[1:])
    else:
        main(PART)
