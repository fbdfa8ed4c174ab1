"""Buyers for the test that kills: each writes orders and takes their pieces from the stock, in one transaction, in all ways that clients do.

    python3 -m proxy.test.buyers [--careless] [--thinking SECONDS] [--kinds KIND ..] -- FIRST COUNT SEED FILE DSN [DSN ..]

Each order has a key of its own. FILE gets a line for what is known of it: `answered` if its COMMIT was answered, `aborted` if it cannot be there,
`unknown` if the connection was lost amid COMMIT; such an order is repeated with the same key until something is known. `fault` is an answer that
nobody may get. SIGTERM ends a buyer behind its transaction.
"""
from __future__ import annotations

import argparse
import os
import random
import signal
import sys
import threading
import time
from dataclasses import dataclass, field
from typing import Any, Callable, Dict, List, NamedTuple, Optional, Tuple

import psycopg
from psycopg import errors
from psycopg.pq import ExecStatus, TransactionStatus

Connection = psycopg.Connection[Any]

# Rows by their keys: those that are nearly empty and nearly full, those with enough for all, and that of the UPDATEs by themselves.
TIGHT, AMPLE, ALONE = (1, 2), (3, 4, 5, 6), 100
MOST = 60
START = {**{key: MOST // 2 for key in TIGHT}, **{key: 1_000_000 for key in AMPLE}, ALONE: 1_000_000_000}
# Nobody of these is a superuser: who owns the tables, declares columns and may see what is reserved, and the role of the buyers.
MERCHANT, BUYER = "merchant", "buyer"
ROLES = (
    f"CREATE ROLE {MERCHANT} LOGIN IN ROLE pg_monitor",
    f"CREATE ROLE {BUYER} LOGIN",
    f"GRANT CREATE ON SCHEMA public TO {MERCHANT}",
)
TABLES = (
    "CREATE TABLE stock (id integer PRIMARY KEY, title text NOT NULL, pieces integer NOT NULL CONSTRAINT in_stock CHECK (pieces >= 0))",
    "CREATE TABLE orders (key text PRIMARY KEY, item integer NOT NULL REFERENCES stock, pieces integer NOT NULL)",
    "CREATE TABLE receipts (of_order text NOT NULL REFERENCES orders DEFERRABLE INITIALLY DEFERRED)",
    "CREATE TABLE carts (key text PRIMARY KEY, item integer NOT NULL REFERENCES stock, pieces integer NOT NULL)",
    "CREATE FUNCTION pay(name text) RETURNS integer LANGUAGE plpgsql AS 'BEGIN RETURN escrow.take(name); END'",
    "CREATE PROCEDURE finish(fails boolean) LANGUAGE plpgsql AS 'BEGIN COMMIT; IF fails THEN PERFORM 1 / 0; END IF; END'",
    *(f"INSERT INTO stock VALUES ({key}, 'item {key}', {pieces})" for key, pieces in START.items()),
)
RIGHTS = (f"GRANT SELECT, INSERT ON orders, receipts, carts TO {BUYER}", f"GRANT SELECT, UPDATE ON stock TO {BUYER}")
PREPARED = {b"insert": b"INSERT INTO orders VALUES ($1, $2, $3)", b"take": b"UPDATE stock SET pieces = pieces - $1 WHERE id = $2"}
# More than any row has.
TOO_MANY = 1_500_000_000
# Errors that roll a transaction back and may come at any time: refusals, conflicts, deadlocks, limits, cancels.
USUAL = ("23514", "40001", "40P01", "53300", "55P03", "57014")
# The classes of errors that leave the outcome of a COMMIT unknown: of connections, and of a server that ends.
LOST = ("08", "57", "58")
# What a proxy says of itself if it has lost count of messages.
STRAY = "08P01"


class Line(NamedTuple):
    """A line of an order."""

    key: str
    item: int
    pieces: int


class NotRefused(Exception):
    """The stock gave what it has not."""


@dataclass
class Order:
    """A try of an order: the lines that its COMMIT keeps, those that were taken back before, whether something that commits was sent, and whether
    earlier tries are known to be dead, since the first line could be written."""

    key: str
    kind: str
    seed: int
    is_first: bool = True
    kept: List[Line] = field(default_factory=list)
    dropped: List[Line] = field(default_factory=list)
    is_sent: bool = False

    def line(self, draw: random.Random, keeps: bool = True) -> Line:
        """Adds a line."""
        item = draw.choice(TIGHT if draw.random() < 0.6 else AMPLE)
        lines = self.kept if keeps else self.dropped
        lines.append(Line(f"{self.key}/{len(self.kept) + len(self.dropped)}", item, draw.choice((-2, -1, 1, 1, 2))))
        return lines[-1]


class Till:
    """A connection, and how it says a thing: a draw decides for each statement."""

    def __init__(self, connection: Connection, order: Order, draw: random.Random, thinking: float = 0.0) -> None:
        self.connection, self.order, self.draw, self.thinking = connection, order, draw, thinking

    def think(self) -> None:
        """Waits before one statement of three, up to so many seconds."""
        if self.thinking and self.draw.randrange(3) == 0:
            time.sleep(self.draw.uniform(0, self.thinking))

    def run(self, statement: str, *values: object) -> "psycopg.Cursor[Any]":
        """Runs a statement: without values by the simple protocol."""
        self.think()
        return self.connection.execute(statement.encode(), values or None)

    def run_prepared(self, name: bytes, *values: object) -> str:
        """Runs a statement that was prepared under a name. Returns its tag."""
        self.think()
        result = self.connection.pgconn.exec_prepared(name, [str(it).encode() for it in values])
        if result.status != ExecStatus.COMMAND_OK:
            raise errors.error_from_result(result)
        return (result.command_status or b"").decode()

    def insert(self, line: Line) -> None:
        """Writes a line of the order."""
        way = self.draw.randrange(3)
        if way == 0:
            self.run(f"INSERT INTO orders VALUES ('{line.key}', {line.item}, {line.pieces})")
        elif way == 1:
            self.run_prepared(b"insert", *line)
        else:
            self.run("INSERT INTO orders VALUES (%s, %s, %s)", *line)
        self.order.is_first = True

    def take(self, item: int, pieces: int) -> None:
        """Takes pieces from the stock, in one of many forms."""
        sign, count = ("-", pieces) if pieces >= 0 else ("+", -pieces)
        way = self.draw.randrange(7)
        if way == 0:
            tag = self.run(f"UPDATE stock SET pieces = pieces {sign} {count} WHERE id = {item}").statusmessage
        elif way == 1:
            tag = self.run(f'update public."stock" set "pieces" = ("stock"."pieces" {sign} {count}) where "stock"."id" = {item};').statusmessage
        elif way == 2:
            tag = self.run("UPDATE stock SET pieces = pieces - %b WHERE id = %b", pieces, item).statusmessage
        elif way == 3:
            tag = self.run("UPDATE stock AS s SET pieces = s.pieces + %s::integer WHERE s.id = %s", -pieces, item).statusmessage
        elif way == 4:
            tag = self.run(f"UPDATE ONLY stock SET pieces=pieces{sign}{count} WHERE(id={item})").statusmessage
        elif way == 5:
            tag = self.run("UPDATE stock SET pieces = pieces - %s WHERE id = %s", pieces, item).statusmessage
        else:
            tag = self.run_prepared(b"take", pieces, item)
        if tag != "UPDATE 1":
            raise NotRefused(f"{tag} of a row that is there")

    def refused(self) -> None:
        """Asks for more than there is."""
        try:
            self.take(self.draw.choice(TIGHT + AMPLE), TOO_MANY)
        except errors.CheckViolation as error:
            if (error.diag.constraint_name, error.diag.table_name) != ("in_stock", "stock"):
                raise NotRefused(f"by {error.diag.constraint_name} of {error.diag.table_name}") from error
            return
        raise NotRefused("more than there is")

    def buy(self, keeps: bool = True) -> None:
        """Writes a line and takes its pieces. The first line that is kept comes first, so that a repeat waits for the end of the earlier try."""
        line = self.order.line(self.draw, keeps)
        if len(self.order.kept) <= 1 or self.draw.random() < 0.5:
            self.insert(line)
            self.take(line.item, line.pieces)
        else:
            self.take(line.item, line.pieces)
            self.insert(line)

    def begin(self) -> None:
        self.run(self.draw.choice(("BEGIN", "begin work", "START TRANSACTION", "BEGIN ISOLATION LEVEL READ COMMITTED")))

    def commit(self) -> None:
        """Commits, in one of the spellings."""
        self.order.is_sent = True
        it = self.run(self.draw.choice(("COMMIT", "commit;", "END", "COMMIT WORK", "/* so */ COMMIT TRANSACTION", "COMMIT AND NO CHAIN")))
        if it.statusmessage != "COMMIT":
            raise NotRefused(f"{it.statusmessage} at a COMMIT")

    def roll_back(self) -> None:
        self.run(self.draw.choice(("ROLLBACK", "rollback work", "ABORT", "ROLLBACK AND NO CHAIN")))
        take_back(self.order)


def take_back(order: Order) -> None:
    """Notes that nothing of an order is kept."""
    order.dropped += order.kept
    order.kept = []


KINDS: Dict[str, Tuple[int, Callable[[Till], None]]] = {}


def kind(weight: int) -> Callable[[Callable[[Till], None]], Callable[[Till], None]]:
    """Adds a kind of transaction, which is drawn so often."""

    def add(act: Callable[[Till], None]) -> Callable[[Till], None]:
        KINDS[act.__name__] = weight, act
        return act

    return add


@kind(20)
def one_row(till: Till) -> None:
    till.begin()
    till.buy()
    till.commit()


@kind(10)
def several_rows(till: Till) -> None:
    till.begin()
    for _ in range(till.draw.randint(2, 5)):
        till.buy()
    till.commit()


@kind(5)
def taken_back(till: Till) -> None:
    till.begin()
    till.buy()
    till.buy()
    till.roll_back()


# The first is for a block that has not failed.
BACK = ("SELECT 1; ROLLBACK TO a", "ROLLBACK TO a; SELECT 1", "ROLLBACK TO a", "ROLLBACK TO SAVEPOINT a", "rollback work to savepoint \"a\"",
        "ROLLBACK TRANSACTION TO a", "/* ; */ rOlLbAcK tO a;")


@kind(15)
def savepoints(till: Till) -> None:
    """Some of it is taken back, some of that by a refusal, and what comes behind may use what was given back."""
    till.begin()
    till.buy()
    for _ in range(till.draw.randint(1, 3)):
        till.run("SAVEPOINT a")
        till.buy(keeps=False)
        if till.draw.random() < 0.3:
            till.run("SAVEPOINT b")
            till.buy(keeps=False)
            if till.draw.random() < 0.5:
                till.run("RELEASE b")
        is_refused = till.draw.random() < 0.3
        if is_refused:
            till.refused()
        till.run(till.draw.choice(BACK[is_refused:]))
        if till.draw.random() < 0.3:
            till.run("RELEASE SAVEPOINT a")
        if till.draw.random() < 0.5:
            till.buy()
    till.commit()


@kind(5)
def savepoints_that_stay(till: Till) -> None:
    till.begin()
    till.buy()
    till.run("SAVEPOINT a")
    till.buy()
    till.run("SAVEPOINT b")
    till.buy()
    till.run("RELEASE a")
    till.commit()


@kind(5)
def refusals(till: Till) -> None:
    """The block has failed, and a COMMIT of it rolls back."""
    till.begin()
    till.buy()
    till.refused()
    it = till.run(till.draw.choice(("COMMIT", "ROLLBACK", "END")))
    if it.statusmessage != "ROLLBACK":
        raise NotRefused(f"{it.statusmessage} of a block that has failed")
    take_back(till.order)


@kind(8)
def alone(till: Till) -> None:
    """An UPDATE is its own transaction."""
    till.order.is_sent = True
    till.take(ALONE, 1)


@kind(5)
def deferred(till: Till) -> None:
    """A constraint is tested at the COMMIT, and fails there or not."""
    till.begin()
    till.buy()
    is_good = till.draw.random() < 0.3
    till.run("INSERT INTO receipts VALUES (%s)", till.order.kept[0].key if is_good else "nobody's")
    try:
        till.commit()
    except errors.ForeignKeyViolation:
        if is_good:
            raise
        take_back(till.order)
        return
    if not is_good:
        raise NotRefused("a receipt of nobody")


@kind(12)
def one_snapshot(till: Till) -> None:
    till.run(f"BEGIN ISOLATION LEVEL {till.draw.choice(('REPEATABLE READ', 'SERIALIZABLE'))}")
    if till.draw.random() < 0.5:
        till.run("SELECT count(*) FROM receipts")
    till.buy()
    if till.draw.random() < 0.3:
        till.run("SAVEPOINT a")
        till.buy(keeps=False)
        till.run("ROLLBACK TO a")
    till.commit()


@kind(5)
def chained(till: Till) -> None:
    """The order is that of a block that begins with the end of another."""
    is_first = till.order.is_first
    till.begin()
    till.run("SELECT 1")
    till.run("COMMIT AND CHAIN")
    till.buy()
    if till.draw.random() < 0.3:
        till.run("ROLLBACK AND CHAIN")
        take_back(till.order)
        till.order.is_first = is_first  # no try keeps the line that could be written, so it tells nothing of an earlier one
        till.buy()
    if till.draw.random() < 0.5:
        till.commit()
    else:
        till.order.is_sent = True
        till.run("COMMIT AND CHAIN")
        till.run("ROLLBACK")


@kind(8)
def pipeline(till: Till) -> None:
    """A block in one piece, or statements without a block up to one Sync, which are a transaction too."""
    has_block = till.draw.random() < 0.5
    lines = [till.order.line(till.draw) for _ in range(till.draw.randint(1, 3))]
    till.order.is_sent = True
    with till.connection.pipeline():
        if has_block:
            till.connection.execute("BEGIN")
        for line in lines:
            till.connection.execute("INSERT INTO orders VALUES (%s, %s, %s)", line)
            till.connection.execute("UPDATE stock SET pieces = pieces - %s WHERE id = %s", (line.pieces, line.item))
        if has_block:
            till.connection.execute("COMMIT")


@kind(6)
def hidden_commit(till: Till) -> None:
    """The COMMIT is one of several statements of a string. An error behind it takes nothing back."""
    till.begin()
    till.buy()
    way = till.draw.randrange(5)
    till.order.is_sent = True
    if way == 0:
        till.run("SELECT 1; COMMIT")
    elif way == 1:
        till.run("COMMIT; BEGIN; SELECT 1")
        till.run("ROLLBACK")
    elif way == 2:
        try:
            till.run("COMMIT; SELECT 1 / 0")
        except errors.DivisionByZero:
            pass
    elif way == 3:
        till.run("DO $$ BEGIN PERFORM 1; END $$; COMMIT; SELECT 2")
    else:
        till.run("ROLLBACK; SELECT 'COMMIT'")
        take_back(till.order)


@kind(6)
def do_blocks(till: Till) -> None:
    """The order is written by a block of PL/pgSQL, which may swallow an error of its own subtransaction."""
    till.begin()
    line = till.order.line(till.draw)
    values = f"'{line.key}', {line.item}, {line.pieces}"
    till.run(f"DO $$ BEGIN INSERT INTO orders VALUES ({values}); BEGIN PERFORM 1 / 0; EXCEPTION WHEN OTHERS THEN NULL; END; END $$")
    till.order.is_first = True
    till.take(line.item, line.pieces)
    till.run("DO $$ BEGIN PERFORM count(*) FROM receipts; END $$")
    till.commit()


@kind(6)
def procedures(till: Till) -> None:
    """Without a block, a procedure commits what came before it since the last Sync, also if it fails then."""
    line = till.order.line(till.draw)
    fails = till.draw.random() < 0.5
    till.order.is_sent = True
    try:
        with till.connection.pipeline():
            till.connection.execute("INSERT INTO orders VALUES (%s, %s, %s)", line)
            till.connection.execute("UPDATE stock SET pieces = pieces - %s WHERE id = %s", (line.pieces, line.item))
            till.connection.execute("CALL finish(%s)", (fails,))
    except errors.DivisionByZero:
        if not fails:
            raise


@kind(5)
def locked_row(till: Till) -> None:
    """It has the row's lock, or changes another column of it, while it and others reserve."""
    till.begin()
    till.buy()
    item = till.order.kept[0].item
    if till.draw.random() < 0.5:
        till.run(f"SELECT title FROM stock WHERE id = {item} FOR UPDATE")
    else:
        till.run(f"UPDATE stock SET title = 'item {till.draw.randrange(1000)}' WHERE id = {item}")
    till.take(item, 1)
    till.take(item, -1)
    till.commit()


@kind(5)
def further_forms(till: Till) -> None:
    """An UPDATE of other columns too, of two rows, with a condition that holds or not, and one that returns columns."""
    till.begin()
    till.buy()
    line = till.order.line(till.draw)
    till.insert(line)
    way = till.draw.randrange(5)
    if way == 0:
        till.run("UPDATE stock SET title = %s, pieces = pieces - %s WHERE id = %s", f"item {till.draw.randrange(1000)}", line.pieces, line.item)
    elif way == 1:
        found = till.run("UPDATE stock SET pieces = pieces - %s WHERE id = %s RETURNING id, title", line.pieces, line.item).fetchall()
        if len(found) != 1 or found[0][0] != line.item:
            raise NotRefused(f"RETURNING gives {found}")
    elif way == 2:
        till.run("SAVEPOINT a")
        taken = "UPDATE stock SET pieces = pieces - %s WHERE id = %s AND pieces >= %s"
        if line.pieces < 0 or till.run(taken, line.pieces, line.item, line.pieces).rowcount == 0:
            till.take(line.item, line.pieces)
        till.run("RELEASE a")
    elif way == 3:
        if till.run("UPDATE stock SET pieces = pieces - %s WHERE id = %s AND pieces >= %s", TOO_MANY, line.item, TOO_MANY).rowcount != 0:
            raise NotRefused("a condition that does not hold")
        till.take(line.item, line.pieces)
    else:
        other = till.order.line(till.draw)
        while other.item == line.item:
            till.order.kept.pop()
            other = till.order.line(till.draw)
        till.order.kept[-1] = Line(other.key, other.item, line.pieces)
        till.insert(till.order.kept[-1])
        if till.run("UPDATE stock SET pieces = pieces - %s WHERE id IN (%s, %s)", line.pieces, line.item, other.item).rowcount != 2:
            raise NotRefused("not two rows")
    till.commit()


# The kinds of transaction that need schema escrow.
WITH_ESCROW = ("held",)
# How long a hold stands: the first are over before anybody takes it.
SHORT, LONG = "20 milliseconds", "5 seconds"
TIME_IS_OVER = "55H03"


def hold(till: Till, name: str, lasting: str) -> None:
    """Makes a hold of what the transaction has reserved."""
    if till.draw.random() < 0.5:
        till.run(f"SELECT escrow.hold('{name}', interval '{lasting}')")
    else:
        till.run("SELECT escrow.hold(%s, %s::interval)", name, lasting)


def fill_cart(till: Till, line: Line, lasting: str) -> None:
    """Writes a cart and holds its pieces, in one transaction. Other pieces of it may be taken back, or taken and given again."""
    till.begin()
    till.run("INSERT INTO carts VALUES (%s, %s, %s)", *line)
    way = till.draw.randrange(4)
    if way == 0:
        till.run("SAVEPOINT a")
        till.take(line.item, 1)
        hold(till, line.key, lasting)
        till.run("ROLLBACK TO a")
    till.take(line.item, line.pieces)
    hold(till, line.key, lasting)
    if way == 1:
        till.take(line.item, 1)
        till.take(line.item, -1)
    elif way == 2:
        till.run("SELECT escrow.take(%s)", line.key)
        hold(till, line.key, lasting)
    till.commit()


@kind(15)
def held(till: Till) -> None:
    """A cart is held in one transaction, and bought in another one, by whoever: whole or in part. Or it is released, or its time is over."""
    line = till.order.line(till.draw)
    if not till.order.is_first:
        till.begin()
        till.insert(line)  # an earlier try has ended, and has not bought it
        till.run("ROLLBACK")
    try:
        hold_and_buy(till, line)
    except psycopg.Error as error:
        if error.sqlstate != TIME_IS_OVER:
            raise
        till.run("ROLLBACK")
        take_back(till.order)


def hold_and_buy(till: Till, line: Line) -> None:
    """Fills a cart, and releases or buys it."""
    try:
        fill_cart(till, line, till.draw.choice((SHORT, LONG, LONG, LONG)))
    except errors.UniqueViolation:
        till.run("ROLLBACK")  # an earlier try has left it
    till.order.is_sent = False
    way = till.draw.randrange(10)
    if way == 0:
        take_back(till.order)
        till.run("SELECT escrow.release(%s)", line.key)
        return
    part = 1 if way < 4 and abs(line.pieces) == 2 else 0
    till.order.kept = [Line(line.key, line.item, line.pieces // 2 if part else line.pieces)]
    till.begin()
    till.insert(till.order.kept[0])
    if part:
        till.run("SELECT escrow.take(%s, %s)", line.key, part)
    else:
        till.run(till.draw.choice(("SELECT escrow.take(%s)", "SELECT pay(%s)")), line.key)
    till.commit()


class Careless:
    """What a client does that has not understood transactions: the order is committed before its pieces are taken. The checks have to find it."""

    @staticmethod
    def act(till: Till) -> None:
        line = till.order.line(till.draw)
        till.order.is_sent = True
        till.insert(line)
        till.take(line.item, line.pieces)


def is_lost(error: psycopg.Error, connection: Connection) -> bool:
    """Returns whether an error leaves it open what became of a COMMIT."""
    code = error.sqlstate or ""
    return connection.closed or not code or (code[:2] in LOST and code != "57014")


class Buyer(threading.Thread):
    """A connection that writes one order after another."""

    def __init__(self, name: str, seed: int, file: int, stop: threading.Event, asked: argparse.Namespace) -> None:
        super().__init__()
        self.buyer, self.draw, self.file, self.stop, self.asked = name, random.Random(seed), file, stop, asked
        self.connection: Optional[Connection] = None
        self.count = 0

    def say(self, what: str, *words: object) -> None:
        """Writes a line."""
        os.write(self.file, (" ".join((what, *map(str, words))).replace("\n", " ") + "\n").encode())

    def connected(self) -> Connection:
        """Returns the connection, and opens it if there is none."""
        while self.connection is None or self.connection.closed:
            try:
                # A string of its own may have a shorter one.
                dsn = f"connect_timeout=30 {self.draw.choice(self.asked.dsns)}"
                self.connection = psycopg.connect(dsn, autocommit=True, prepare_threshold=None)
                for name, statement in PREPARED.items():
                    result = self.connection.pgconn.prepare(name, statement)
                    if result.status != ExecStatus.COMMAND_OK:
                        raise errors.error_from_result(result)
                if self.draw.random() < 0.1:
                    self.connection.execute("SET escrow.wait = off")
            except psycopg.Error:
                self.connection = None
                time.sleep(self.draw.uniform(0.02, 0.2))
                if self.stop.is_set():
                    sys.exit()
        return self.connection

    def run(self) -> None:
        while not self.stop.is_set():
            self.count += 1
            chosen = self.draw.choices(self.asked.kinds, [KINDS[it][0] for it in self.asked.kinds])[0]
            seed = self.draw.getrandbits(32)
            key = f"{self.buyer}.{self.count}"
            # What is not known is asked by a repeat, in the same words.
            is_known = self.tried(Order(key, chosen, seed))
            while not is_known and not self.stop.is_set():
                is_known = self.tried(Order(key, chosen, seed, is_first=False))

    def tried(self, order: Order) -> bool:
        """Tries an order. Returns whether its outcome is known, or nobody will ask for it."""
        connection = self.connected()
        till = Till(connection, order, random.Random(order.seed), self.asked.thinking)
        try:
            (Careless.act if self.asked.careless else KINDS[order.kind][1])(till)
        except errors.UniqueViolation:
            self.ended(order, "answered")  # the first try was committed
        except psycopg.Error as error:
            is_open = is_lost(error, connection)
            if is_open:
                connection.close()
            if error.sqlstate == STRAY or not (is_open or error.sqlstate in USUAL):
                self.say("fault", order.kind, order.key, error.sqlstate, error)
            elif not is_open:
                self.say("refused", error.sqlstate)
            # In a pipeline the UPDATE is refused behind the line.
            if (is_open and order.is_sent) or not (order.is_first or error.sqlstate == "23514"):
                self.ended(order, "unknown")
                self.clean(connection)
                return order.kind == alone.__name__
            take_back(order)
            self.ended(order, "aborted")
        except NotRefused as fault:
            self.say("fault", order.kind, order.key, fault)
            connection.close()
        else:
            self.ended(order, "answered")
        self.clean(connection)
        return True

    def ended(self, order: Order, outcome: str) -> None:
        """Says how an order ended."""
        if order.kind == alone.__name__ and not self.asked.careless:
            self.say("alone", outcome)
            return
        for what, lines in ((outcome, order.kept), ("aborted", order.dropped)):
            if lines:
                self.say(what, *(it.key for it in lines))

    @staticmethod
    def clean(connection: Connection) -> None:
        """Ends a block that is left."""
        if not connection.closed and connection.info.transaction_status != TransactionStatus.IDLE:
            try:
                connection.execute("ROLLBACK")
            except psycopg.Error:
                connection.close()


def main() -> None:
    parser = argparse.ArgumentParser()
    parser.add_argument("--careless", action="store_true")
    parser.add_argument("--thinking", type=float, default=0.0)
    parser.add_argument("--kinds", nargs="+", default=list(KINDS), choices=list(KINDS))
    parser.add_argument("first", type=int)
    parser.add_argument("count", type=int)
    parser.add_argument("seed", type=int)
    parser.add_argument("file")
    parser.add_argument("dsns", nargs="+")
    asked = parser.parse_args()
    said = os.open(asked.file, os.O_WRONLY | os.O_CREAT | os.O_APPEND)
    stop = threading.Event()
    signal.signal(signal.SIGTERM, lambda *_: stop.set())
    buyers = [Buyer(f"{asked.seed}.{it}", asked.seed * 1000 + it, said, stop, asked) for it in range(asked.first, asked.first + asked.count)]
    for it in buyers:
        it.start()
    for it in buyers:
        it.join()
    # All is said. No connection that is left may hold its end up.
    os._exit(0)  # pylint: disable=protected-access


if __name__ == "__main__":
    main()
