"""Attacks: texts that could be taken for other statements, clients who want the gateway's memory or its time, and faults of all that is around it.

    python3 -m clients.attacks --p99 [--rounds N] [ATTACK ..]     the times of 39 honest clients without and beside each attack
    python3 -m clients.attacks --soak MINUTES                     40 clients, and each attack in turn: the gateway's memory, as a table
    python3 -m clients.attacks --run ATTACK SOCKET SECONDS CROWD  an attack by itself

The part of the gate serves each case once, with bounds that a busy machine keeps.
"""
from __future__ import annotations

import argparse
import os
import resource
import socket
import statistics
import struct
import subprocess
import sys
import time
from dataclasses import dataclass
from functools import partial
from pathlib import Path
from typing import Callable, Dict, FrozenSet, Iterator, List, Optional, Sequence, Tuple

from clients import honest, wire
from clients.servers import END, PATIENCE, TRANSACTIONS, Gateway, holds, keeps, resident, wait_until
from clients.suite import Part, expect, main
from clients.wire import Connection

PART = Part("attacks")
MB = 1 << 20
HERE = Path(__file__).resolve().parent

# Another statement than was written

STOCK = "CREATE TABLE stock (id INTEGER PRIMARY KEY, pieces INTEGER RESERVABLE CHECK (pieces >= 0), price NUMBER(8,2), note VARCHAR2(20))"
STOCKS = "CREATE TABLE stocks (id INTEGER PRIMARY KEY, pieces INTEGER RESERVABLE CHECK (pieces >= 0))"
KEYS = (1, 5, 10, 12, 15)
ROWS = [f"INSERT INTO stock VALUES ({key}, 100, 1.50, 'tea')" for key in KEYS]
NOT_A_STATEMENT = frozenset({"42601"})
NOT_SERVED = frozenset({"42601", "0A000"})
NO_SUCH_NAME = frozenset({"42601", "0A000", "42P01", "42703"})


@dataclass(frozen=True)
class Text:
    """A statement, and what may come of it: an SQLSTATE with which it is refused, or the row of its key behind it."""

    text: str
    refused: FrozenSet[str] = frozenset()
    row: Optional[Tuple[str, ...]] = None
    key: int = 1
    values: Tuple[str, ...] = ()


UNCHANGED = ("1", "100", "1.50", "tea")
GONE: Tuple[str, ...] = ()
TEXTS = [
    # The blanks between tokens are the gateway's, and a token ends where PostgreSQL ends it.
    Text('DELETE FROM "stock"s WHERE id = 15', row=GONE, key=15),
    Text("DELETE FROM stock/**/s WHERE s.id = 12", row=GONE, key=12),
    Text("UPDATE stock SET pieces = pieces - 1..5 WHERE id = 1", NOT_A_STATEMENT),
    Text("UPDATE stock SET pieces = pieces - 1.5.5 WHERE id = 1", NOT_A_STATEMENT),
    Text("UPDATE stock SET pieces = pieces - 1a WHERE id = 1", NOT_A_STATEMENT),
    Text("DELETE FROM stock WHERE id = 1$1", NOT_A_STATEMENT, values=("5",)),
    Text("DELETE FROM stock WHERE id = $1$2", NOT_A_STATEMENT, values=("1", "5")),
    Text("DELETE FROM stock WHERE id = $1a", NOT_A_STATEMENT, values=("1",)),
    Text("UPDATE stock SET note = 'a'E'b' WHERE id = 1", NOT_A_STATEMENT),
    Text("UPDATE stock SET note = 'a''b' 'c' WHERE id = 1", NOT_A_STATEMENT),
    Text("UPDATE stock SET note = $1'x' WHERE id = 1", NOT_A_STATEMENT, values=("a",)),
    Text("UPDATE stock SET note = $2'x' WHERE id = $1", NOT_A_STATEMENT, values=("1", "a")),
    Text("ALTER TABLE stocks ADD CHECK (pieces >= -1..5)", NOT_A_STATEMENT),
    Text("UPDATE stock SET note = 'a'\n'b' WHERE id = 1", NOT_SERVED, ("1", "100", "1.50", "ab")),
    Text("UPDATE stock SET note = $q$it's$q$ WHERE id = 1", NOT_SERVED, ("1", "100", "1.50", "it's")),
    Text('UPDATE "STOCK" SET note = \'b\' WHERE id = 1', NO_SUCH_NAME),
    Text('UPDATE stock SET "NOTE" = \'b\' WHERE id = 1', NO_SUCH_NAME),
    # A cast is applied.
    Text("UPDATE stock SET pieces = pieces + 1.5::int WHERE id = 1", NOT_SERVED, ("1", "102", "1.50", "tea")),
    Text("UPDATE stock SET pieces = pieces - 2.55::int WHERE id = 1", NOT_SERVED, ("1", "97", "1.50", "tea")),
    Text("UPDATE stock SET price = 2.55::numeric(5,1) WHERE id = 1", NOT_SERVED, ("1", "100", "2.60", "tea")),
    Text("UPDATE stock SET note = 'abcdef'::varchar(3) WHERE id = 1", NOT_SERVED, ("1", "100", "1.50", "abc")),
    Text("UPDATE stock SET pieces = pieces + 70000::smallint WHERE id = 1", NOT_SERVED | {"22003"}),
    Text("UPDATE stock SET note = 'x'::bigint::text WHERE id = 1", NOT_SERVED | {"22P02"}),
    Text("UPDATE stock SET pieces = pieces + $1::int WHERE id = 1", NOT_SERVED | {"22P02"}, values=("2.55",)),
    Text("UPDATE stock SET pieces = pieces - -1.5::int WHERE id = 1", NOT_SERVED, ("1", "102", "1.50", "tea")),
    Text("UPDATE stock SET note = 12345::varchar(3) WHERE id = 1", NOT_SERVED, ("1", "100", "1.50", "123")),
    # Parentheses and qualifiers mean what they mean.
    Text("DELETE FROM stock ( ) WHERE id = 12", NOT_SERVED, key=12),
    Text("DELETE FROM stock WHERE (id = ) 12", NOT_A_STATEMENT, key=12),
    Text("INSERT INTO stock VALUES ((3, 4, 1, 'k'))", NOT_SERVED),
    Text("UPDATE stock SET pieces = pieces - (3,4) WHERE id = 1", NOT_SERVED | {"42883"}),
    Text("UPDATE stock SET (pieces) = (pieces - 3) WHERE id = 1", NOT_SERVED),
    Text("DELETE FROM stock WHERE public.id = 1", NO_SUCH_NAME),
    Text("DELETE FROM stock WHERE stock.stock = 1", NO_SUCH_NAME),
    Text("DELETE FROM stock WHERE stocks.id = 1", NO_SUCH_NAME),
    Text("DELETE FROM public.public.stock WHERE id = 1", NO_SUCH_NAME),
    Text("DELETE FROM other.stock WHERE id = 1", NO_SUCH_NAME | {"3F000"}),
    Text("UPDATE stock SET stock.pieces = pieces - 1 WHERE id = 1", NO_SUCH_NAME),
    Text("UPDATE stock x SET pieces = stock.pieces - 1 WHERE id = 1", NO_SUCH_NAME),
    Text("DELETE FROM stock stock. WHERE id = 1", NOT_A_STATEMENT),
    Text("SELECT * FROM key", frozenset({"42601", "42P01", "42602"})),
    Text("SELECT * FROM stock WHERE id = 1 $1", NOT_A_STATEMENT, values=("1",)),
]


def rows_behind(it: Text, code: str) -> List[Tuple[str, ...]]:
    """Returns the rows that have to be there behind a text: those of before if it was refused."""
    before: List[Tuple[str, ...]] = [(str(key), *UNCHANGED[1:]) for key in KEYS]
    if code or it.row is None:
        return before
    return [row for row in (it.row if row[0] == str(it.key) else row for row in before) if row]


@PART.served
def what_is_run_is_what_was_written(gateway: Gateway) -> None:
    """Each text as a query and by the extended protocol: nothing is done but what PostgreSQL would do, or it is refused."""
    with Connection(gateway.socket) as connection:
        connection.do(STOCK, STOCKS, "INSERT INTO stocks VALUES (15, 1)", *ROWS)
        wrong: List[str] = []
        for it in TEXTS:
            for request in [wire.run(it.text, it.values) + wire.sync(), wire.query(it.text)][: 1 if it.values else 2]:
                connection.send(request)
                code = next((found.fields()["C"] for found in connection.until_ready() if found.kind == "E"), "")
                found = connection.rows("SELECT * FROM stock")
                if found != rows_behind(it, code) or (code and code not in it.refused) or (not code and it.row is None):
                    wrong.append(f"{it.text} {list(it.values) or ''}: {code or 'done'}, {[row for row in found if row[0] == str(it.key)]}")
                if found != rows_behind(it, "refused"):
                    connection.do("DROP TABLE stock", STOCK, *ROWS)
                if connection.rows("SELECT * FROM stocks") != [("15", "1")]:
                    wrong.append(f"{it.text}: it changes stocks")
                    connection.do("DROP TABLE stocks", STOCKS, "INSERT INTO stocks VALUES (15, 1)")
        if wrong:
            raise AssertionError(f"{len(wrong)} of {len(TEXTS)} texts: " + "\n".join(wrong))


@PART.served
def a_cast_of_a_parameter_is_its_type(gateway: Gateway) -> None:
    with Connection(gateway.socket) as connection:
        connection.do(STOCK, *ROWS)
        connection.send(wire.parse("UPDATE stock SET pieces = pieces + $1::int WHERE id = 1"), wire.describe_statement(), wire.sync())
        found = [it.shown() for it in connection.until_ready()]
        if not any(it in found for it in (f"parameters [{wire.INT4}]", "ERROR 0A000")):
            raise AssertionError(f"described as {found}")


# Attacks: each goes on until a time, over connections of its own.

Attack = Callable[[Path, float], None]
ATTACKS: Dict[str, Attack] = {}


def attack(act: Attack) -> Attack:
    """Adds an attack by its name."""
    ATTACKS[act.__name__] = act
    return act


def until(end: float) -> Iterator[None]:
    """Goes on until a time."""
    while time.monotonic() < end:
        yield


BIG = "big"
BIG_COLUMNS = 12
BIG_TABLE = f"CREATE TABLE big (id INTEGER PRIMARY KEY, n INTEGER RESERVABLE, {', '.join(f'c{at} VARCHAR2(255)' for at in range(BIG_COLUMNS))})"


def fill_big(path: Path, rows: int, width: int) -> None:
    """Creates a table of so many rows, each of twelve texts of a width."""
    with Connection(path, timeout=300.0) as it:
        it.do(BIG_TABLE)
        texts = ", ".join(["'" + "x" * width + "'"] * BIG_COLUMNS)
        for first in range(0, rows, 500):
            it.send(*(wire.query(f"INSERT INTO big VALUES ({key}, 1, {texts})") for key in range(first, min(rows, first + 500))))
            for _ in range(first, min(rows, first + 500)):
                expect(it.until_ready()[0].kind, "C")


def flood(connections: Sequence[Connection], request: bytes, end: float, reads: bool = True) -> None:
    """Sends a request again and again over all connections, as fast as they are taken, and reads what comes if it is asked to."""
    for it in connections:
        it.socket.setblocking(False)
    left = [b""] * len(connections)
    alive = set(range(len(connections)))
    while time.monotonic() < end and alive:
        moved = False
        for at in list(alive):
            plug = connections[at].socket
            try:
                if not left[at]:
                    left[at] = request
                sent = plug.send(left[at])
                left[at] = left[at][sent:]
                moved = True
            except BlockingIOError:
                pass
            except OSError:
                alive.discard(at)
                continue
            if reads:
                try:
                    moved = bool(plug.recv(1 << 18)) or moved
                except BlockingIOError:
                    pass
                except OSError:
                    alive.discard(at)
        if not moved:
            time.sleep(0.001)


def long_update(size: int) -> str:
    """Returns an UPDATE of so many bytes that changes nothing: its row does not exist."""
    text = "UPDATE hot SET pieces = pieces - 0{} WHERE id = 999"
    return text.format(" - 0" * ((size - len(text)) // 4)) if size else text.format("")


def is_refused(connection: Connection) -> bool:
    """Returns whether what was asked is refused, or the connection has ended."""
    try:
        return any(found.kind == "E" for found in connection.until_ready())
    except (wire.Ended, OSError):
        return True


def with_connections(path: Path, count: int) -> List[Connection]:
    """Opens connections, as many of them as are served."""
    found: List[Connection] = []
    for _ in range(count):
        it = Connection(path, ready=False, timeout=60.0)
        it.send(wire.startup())
        if it.until_ready_or_end()[-1].kind == "Z":
            found.append(it)
    return found


def closed(connections: Sequence[Connection]) -> None:
    for it in connections:
        it.close()


# The connections of an attack by more.
ALL = 60


class Crowd:
    """How many connections honest clients leave to an attack by many."""

    clients = 20


NOTE_COLUMNS = "abcdefghijklmno"
NOTES = "CREATE TABLE notes (id INTEGER PRIMARY KEY, n INTEGER RESERVABLE, " + ", ".join(f"{it} VARCHAR2(255)" for it in NOTE_COLUMNS) + ")"


def note(columns: int) -> bytes:
    """Returns an UPDATE of a row by so many texts of 250 bytes."""
    return wire.query("UPDATE notes SET " + ", ".join(f"{it} = '{'x' * 250}'" for it in NOTE_COLUMNS[:columns]) + " WHERE id = 1")


def prepare_notes(path: Path) -> None:
    with Connection(path) as it:
        it.ask(NOTES)
        it.ask("INSERT INTO notes VALUES (1, 1" + ", 'x'" * len(NOTE_COLUMNS) + ")")


@attack
def pipelines_of_long_updates(path: Path, end: float) -> None:
    """Clients who send statements of 4 KB without waiting, so that a server's pipe is always full."""
    prepare_notes(path)
    connections = with_connections(path, Crowd.clients)
    flood(connections, note(15) * 8, end)
    closed(connections)


@attack
def long_statements_in_turn(path: Path, end: float) -> None:
    """Clients who wait for each reply, with lines of 2 KB, so many that the pipe is never empty."""
    prepare_notes(path)
    connections = with_connections(path, Crowd.clients)
    request = note(8)
    for _ in until(end):
        for it in connections:
            it.send(request)
        for it in connections:
            it.until_ready()
    closed(connections)


@attack
def readers_that_are_never_level(path: Path, end: float) -> None:
    """Clients who read steadily, and ask for more before they have all."""
    connections = with_connections(path, 2)
    for it in connections:
        it.send(wire.query("SELECT * FROM big") * 2)
    taken = [b""] * len(connections)
    for _ in until(end):
        for at, it in enumerate(connections):
            got = it.socket.recv(16_384)
            if b"SELECT " in taken[at] + got:
                it.send(wire.query("SELECT * FROM big"))
                got = b""
            taken[at] = got[-6:]
    closed(connections)


@attack
def results_that_nobody_reads(path: Path, end: float) -> None:
    """Clients who ask for the large table, and read nothing."""
    connections = with_connections(path, Crowd.clients)
    for it in connections:
        it.send(wire.query("SELECT * FROM big"))
    time.sleep(max(0.0, end - time.monotonic()))
    closed(connections)


@attack
def whole_results(path: Path, end: float) -> None:
    """A client who asks for the large table and reads all."""
    with Connection(path, timeout=120.0) as it:
        for _ in until(end):
            it.send(wire.query("SELECT * FROM big"))
            it.until_ready()


@attack
def portals_with_rows_left(path: Path, end: float) -> None:
    """Portals whose first row was taken: each holds the others."""
    for _ in until(end):
        with Connection(path, timeout=120.0) as it:
            it.send(wire.query("BEGIN"), wire.parse("SELECT * FROM big", "s"), wire.sync())
            it.until_ready()
            it.until_ready()
            for turn in range(200):
                it.send(wire.bind(name="s", portal=f"p{turn}"), wire.execute(f"p{turn}", 1), wire.sync())
                if is_refused(it) or time.monotonic() > end:
                    break


MANY = 32_767


def many_nulls(portal: str) -> bytes:
    """Returns a Bind of 32,767 NULLs."""
    return wire.message("B", wire.text(portal) + wire.text("n") + struct.pack("!hh", 0, MANY) + b"\xff" * 4 * MANY + struct.pack("!h", 0))


def parse_of_many() -> bytes:
    """Returns a Parse with 32,767 types, of a statement that has two parameters."""
    return wire.parse("UPDATE hot SET pieces = pieces - $1 WHERE id = $2", "n", [wire.INT8] * MANY)


@attack
def portals_of_nulls(path: Path, end: float) -> None:
    """Binds portals of 32,767 NULLs, and then small ones. A small Bind may cost no more than itself."""
    for _ in until(end):
        with Connection(path, timeout=120.0) as it:
            it.send(wire.query("BEGIN"), parse_of_many(), wire.parse("SELECT * FROM hot WHERE id = 1", "s"), wire.sync())
            it.until_ready()
            it.until_ready()
            try:
                for turn in range(100):
                    it.send(many_nulls(f"p{turn}"), wire.sync())
                    if any(found.kind == "E" for found in it.until_ready()) or time.monotonic() > end:
                        break
                small = [wire.bind(name="s", portal="q"), wire.close_portal("q"), wire.sync()] * 50
                while time.monotonic() < end:
                    it.send(*small)
                    for _ in range(50):
                        it.until_ready()
            except (wire.Ended, OSError):
                continue


@attack
def statements_of_many_tokens(path: Path, end: float) -> None:
    """Prepared statements of 4 KB that are nearly all tokens."""
    for _ in until(end):
        with Connection(path, timeout=120.0) as it:
            for turn in range(4000):
                it.send(wire.parse(long_update(4000), f"s{turn}"), wire.sync())
                if is_refused(it) or time.monotonic() > end:
                    break


@attack
def statements_of_many_types(path: Path, end: float) -> None:
    """Prepared statements of 40 bytes with 32,767 types."""
    for _ in until(end):
        with Connection(path, timeout=120.0) as it:
            for turn in range(500):
                it.send(wire.parse("UPDATE hot SET pieces = pieces - 1 WHERE id = 999", f"s{turn}", [wire.INT8] * MANY), wire.sync())
                if is_refused(it) or time.monotonic() > end:
                    break


@attack
def signs_without_end(path: Path, end: float) -> None:
    """A prepared statement of 4,000 signs in front of a name, bound again and again, each time by 33 bytes."""
    with Connection(path, timeout=120.0) as it:
        it.send(wire.parse("UPDATE hot SET pieces = pieces " + "+" * 4_000 + "pieces WHERE id = $1", "s"), wire.sync())
        it.until_ready()
        for _ in until(end):
            it.send(*[wire.bind(["1"], "s") + wire.execute() + wire.sync()] * 50)
            for _ in range(50):
                it.until_ready()


@attack
def parameters_without_values(path: Path, end: float) -> None:
    """`INSERT INTO t ($1,$1,..)`, which is no statement, 16 times in 100 KB."""
    with Connection(path, timeout=120.0) as it:
        text = "INSERT INTO hot (" + ",".join(["$1"] * 2_000) + ")"
        for _ in until(end):
            it.send(*[wire.parse(text), wire.describe_statement(), wire.sync()] * 16)
            for _ in range(16):
                it.until_ready()


@attack
def parentheses_without_end(path: Path, end: float) -> None:
    """Statements of 1 MB of parentheses, brackets, signs and dots."""
    with Connection(path, timeout=120.0) as it:
        for _ in until(end):
            for piece in ("(", "((1),", "+ ", "a.", "NOT ", "/*", "$$", "'x'\n", "\"a\"", "1,"):
                it.send(wire.query("SELECT * FROM hot WHERE id = " + piece * (1_000_000 // len(piece))))
                it.until_ready()


@attack
def one_message_of_many_statements(path: Path, end: float) -> None:
    """A message of 1 MB of `SHOW ALL;`, whose answer is read promptly."""
    request = wire.query("SHOW ALL;" * 110_000)
    for _ in until(end):
        with Connection(path, timeout=120.0) as it:
            it.send(request)
            while time.monotonic() < end and it.read().kind != "Z":
                pass


@attack
def many_small_messages(path: Path, end: float) -> None:
    """Clients who send Parse, Bind, Close and Sync without end, and read all."""
    connections = with_connections(path, 4)
    flood(connections, (wire.parse("SELECT * FROM hot WHERE id = 1", "s") + wire.bind(name="s") + wire.close_statement("s") + wire.sync()) * 50, end)
    closed(connections)


@attack
def connections_half_open(path: Path, end: float) -> None:
    """300 connections that send half of a startup. They are opened again as soon as they are ended."""
    half: List[socket.socket] = []
    for _ in until(end):
        while len(half) < 300:
            it = socket.socket(socket.AF_UNIX)
            it.setblocking(False)
            try:
                it.connect(str(path))
                it.send(wire.startup()[:9])
            except OSError:
                it.close()
                break
            half.append(it)
        time.sleep(0.02)
        for it in list(half):
            try:
                if not it.recv(100):
                    raise OSError
            except BlockingIOError:
                continue
            except OSError:
                it.close()
                half.remove(it)
    for it in half:
        it.close()


@attack
def comers_and_goers(path: Path, end: float) -> None:
    """Connections that reserve and vanish without a word."""
    for _ in until(end):
        with Connection(path) as it:
            it.send(wire.query("BEGIN; UPDATE hot SET pieces = pieces - 1 WHERE id = 39"), wire.query("SELECT * FROM hot"))


@attack
def holders_of_all_sessions(path: Path, end: float) -> None:
    """Clients who hold as much as may be held at a time, and as many who wait to hold more and are refused."""
    connections = with_connections(path, 2 * TRANSACTIONS)
    for _ in until(end):
        for it in connections:
            it.send(wire.query("BEGIN"), wire.query("UPDATE hot SET pieces = pieces - 1 WHERE id = 38"), wire.query("ROLLBACK"))
        for it in connections:
            for _ in range(3):
                it.until_ready()
    closed(connections)


def begin(name: str, path: Path, seconds: float, crowd: int = Crowd.clients) -> "subprocess.Popen[bytes]":
    """Starts an attack in a process of its own."""
    words = [sys.executable, "-B", "-m", "clients.attacks", "--run", name, str(path), str(seconds), str(crowd)]
    return subprocess.Popen(words, cwd=HERE.parent, stderr=subprocess.PIPE)


def finish(process: "subprocess.Popen[bytes]") -> str:
    """Waits for an attack. Returns what it met, if it did not come to its end."""
    try:
        _, errors = process.communicate(timeout=180)
    except subprocess.TimeoutExpired:
        process.kill()
        return "it had no answer for 180 s"
    return errors.decode().strip().splitlines()[-1] if process.returncode else ""


# Memory

# The memory in MB that an attack may take while it lasts, beside what the gateway had: a connection has 256 KB on its way, and 64 MB of statements and
# portals. What is left behind it has to be little.
TAKES: Dict[str, float] = {
    "pipelines_of_long_updates": 32,
    "long_statements_in_turn": 16,
    "readers_that_are_never_level": 8,
    "results_that_nobody_reads": 32,
    "whole_results": 16,
    "portals_with_rows_left": 96,
    "portals_of_nulls": 96,
    "statements_of_many_tokens": 96,
    "statements_of_many_types": 96,
}
# The seconds behind which a busy machine has freed it.
LEAVES, FREED = 16.0, 30.0 * PATIENCE
# Those that ask for the large table.
OF_BIG = ("readers_that_are_never_level", "results_that_nobody_reads", "whole_results", "portals_with_rows_left")
# No attack may take the machine: past this the gateway gets no memory.
MOST_MEMORY = 2 << 30


def attacked(gateway: Gateway, name: str, seconds: float) -> Tuple[float, float, str]:
    """Runs an attack. Returns the MB that the gateway took at most and those that it kept behind it, and what the attacker met."""
    process = gateway.running().pid
    before = holds(process)
    Path(f"/proc/{process}/clear_refs").write_text("5", encoding="utf-8")  # the largest so far counts from now on
    said = finish(begin(name, gateway.socket, seconds, ALL))
    if gateway.running().poll() is not None:
        raise AssertionError(f"{name}: the gateway ended with status {gateway.running().poll()}: {gateway.said()[-300:]}")
    most = resident(process) - before
    end = time.monotonic() + FREED
    while holds(process) - before > LEAVES * MB and time.monotonic() < end:
        time.sleep(0.1)
    return most / MB, (holds(process) - before) / MB, said


def too_much(name: str, seconds: float) -> str:
    """Returns what is wrong with the memory that an attack takes, or nothing."""
    with Gateway() as gateway:
        resource.prlimit(gateway.running().pid, resource.RLIMIT_AS, (MOST_MEMORY, MOST_MEMORY))
        honest.prepare(gateway.socket)
        if name in OF_BIG:
            fill_big(gateway.socket, 2000, 200)
        most, left, said = attacked(gateway, name, seconds)
        with Connection(gateway.socket) as it:
            expect(len(it.rows("SELECT * FROM hot")), honest.ROWS)
        gateway.expect_clean_end()
        if most > TAKES[name] or left > LEAVES:
            return f"{name}: {most:.1f} MB at most, {left:.1f} MB left (allowed: {TAKES[name]} and {LEAVES}) {said}"
        return f"{name}: {said}" if said else ""


def expect_little(*names: str) -> None:
    """Fails if attacks take or leave too much memory, and names all that do."""
    wrong = []
    for it in names:
        try:
            wrong.append(too_much(it, 3.0))
        except (AssertionError, OSError) as error:
            wrong.append(f"{it}: {str(error)[:400]}")
    if any(wrong):
        raise AssertionError("\n".join(it for it in wrong if it))


@PART.alone
def memory_of_what_is_on_its_way() -> None:
    expect_little(
        "pipelines_of_long_updates", "long_statements_in_turn", "readers_that_are_never_level", "results_that_nobody_reads", "whole_results"
    )


@PART.alone
def memory_of_what_is_prepared() -> None:
    expect_little("portals_with_rows_left", "portals_of_nulls", "statements_of_many_tokens", "statements_of_many_types")


@PART.alone
def want_of_memory_ends_a_connection() -> None:
    """With 48 MB more than it has, the gateway outlives each attack, and serves others behind it."""
    with Gateway() as gateway:
        honest.prepare(gateway.socket)
        fill_big(gateway.socket, 2000, 200)
        process = gateway.running().pid
        pages = int(Path(f"/proc/{process}/statm").read_text(encoding="utf-8").split()[0])
        room = pages * resource.getpagesize() + 48 * MB
        resource.prlimit(process, resource.RLIMIT_AS, (room, room))
        for name in (
            "statements_of_many_tokens",
            "statements_of_many_types",
            "portals_of_nulls",
            "portals_with_rows_left",
            "results_that_nobody_reads",
        ):
            finish(begin(name, gateway.socket, 2.0, ALL))
            # What the attackers had is freed in turns, and until then others may get no memory either.
            wait_until(f"behind {name} others are served", partial(serves, gateway))
        gateway.expect_clean_end()


def serves(gateway: Gateway) -> bool:
    """Returns whether a client gets its rows. Fails if the gateway has ended."""
    expect(gateway.running().poll(), None, f"the gateway ended: {gateway.said()[-300:]}")
    try:
        with Connection(gateway.socket) as it:
            return len(it.rows("SELECT * FROM hot")) == honest.ROWS
    except (wire.Ended, AssertionError, ConnectionError):
        return False


# Time

# The milliseconds that the 99th of 100 statements of honest clients may take beside an attack in the gate, also if the server has to read the large
# table for it, and how many clients they are there. A busy machine takes longer now and then: what stops others does so each time of as many.
COARSE, COARSE_OF_BIG, HONEST = 500.0 * PATIENCE, 1500.0 * PATIENCE, 39
TRIES = 3


@PART.alone
def others_are_served_beside_each_attack() -> None:
    """Coarsely: what stops others for seconds. `--p99` measures it exactly."""
    with Gateway() as gateway:
        resource.prlimit(gateway.running().pid, resource.RLIMIT_AS, (MOST_MEMORY, MOST_MEMORY))
        honest.prepare(gateway.socket)
        fill_big(gateway.socket, 1000, 200)
        found = {name: [what] for name in ATTACKS if (what := stops_others(gateway, name))}
        for _ in range(1, TRIES):
            found = {name: [*before, what] for name, before in found.items() if (what := stops_others(gateway, name))}
        if found:
            raise AssertionError("\n".join(f"{name}: {'; '.join(each)}" for name, each in found.items()))
        gateway.expect_clean_end()


def stops_others(gateway: Gateway, name: str) -> str:
    """Returns how an attack stops others, or nothing."""
    attacker = begin(name, gateway.socket, 2.0)
    measured = honest.result(honest.apart(gateway.socket, HONEST, 1.2))
    said = finish(attacker)
    return f"{measured.shown()} {said}" if measured.p99 > (COARSE_OF_BIG if name in OF_BIG else COARSE) or said else ""


@PART.served
def a_new_client_beside_half_open_ones(gateway: Gateway) -> None:
    """300 connections without a startup keep a new one out for no second."""
    longest: List[float] = []
    while not longest or (longest[-1] >= 1.0 * PATIENCE and len(longest) < TRIES):
        attacker = begin("connections_half_open", gateway.socket, 6.0)
        time.sleep(1.5)
        took = 0.0
        for _ in range(10):
            asked = time.monotonic()
            Connection(gateway.socket).close()
            took = max(took, time.monotonic() - asked)
        longest.append(took)
        finish(attacker)
    expect(longest[-1] < 1.0 * PATIENCE, True, f"{longest} s")


# Faults


class Refusing(Gateway):
    """A gateway whose program answers `ERR 51 memory` to the first ROLLBACKs."""

    def __init__(self, refusals: int) -> None:
        super().__init__()
        self.refusals = refusals

    def words(self) -> List[str]:
        words = super().words()
        words[words.index("--program") + 1] = str(HERE / "refusing_program.py")
        return words

    def start(self) -> None:
        os.environ["ESCROWD_REFUSED_ROLLBACKS"] = str(self.refusals)
        try:
            super().start()
        finally:
            del os.environ["ESCROWD_REFUSED_ROLLBACKS"]


TAKE = "UPDATE stock SET pieces = pieces - {} WHERE id = 1"


def holds_nothing(watch: Connection) -> bool:
    """Returns whether nobody has reserved anything."""
    return watch.rows("SHOW JOURNAL") == []


@PART.alone
def a_rollback_that_is_refused_for_a_client_that_has_gone() -> None:
    """What a client reserved before it vanished is never committed by the next client of its session."""
    with Refusing(3) as gateway:
        watch = Connection(gateway.socket)
        watch.do(STOCK, *ROWS)
        with Connection(gateway.socket) as holder:
            holder.do("BEGIN", TAKE.format(7))
        others: List[Connection] = []
        for _ in range(10):
            it = Connection(gateway.socket)
            it.do("BEGIN", "UPDATE stock SET pieces = pieces - 1 WHERE id = 5", "COMMIT")
            others.append(it)
        wait_until("nothing is reserved", lambda: watch.rows("SHOW JOURNAL") == [])
        expect(watch.rows("SELECT * FROM stock")[:2], [UNCHANGED, ("5", str(100 - len(others)), "1.50", "tea")])
        closed([*others, watch])
        gateway.expect_clean_end()


@PART.served
def a_rollback_among_blanks(gateway: Gateway) -> None:
    """The server gets its own short form, however many blanks and comments the client writes."""
    with Connection(gateway.socket) as it:
        it.do(STOCK, *ROWS)
        for text in ("ROLLBACK" + " " * 5000, f"/* {'x' * 5000} */ ROLLBACK", "ROLLBACK TO" + " " * 5000 + "s; ROLLBACK"):
            it.do("BEGIN", "SAVEPOINT s", TAKE.format(7))
            expect(it.ask(text)[-2:], ["complete ROLLBACK", "ready I"])
            it.do("BEGIN", TAKE.format(0), "COMMIT")
            expect((it.rows("SELECT * FROM stock WHERE id = 1"), it.rows("SHOW JOURNAL")), ([UNCHANGED], []))


@PART.alone
def a_rollback_that_is_never_done() -> None:
    """Only a restart frees what the session holds: the gateway tells its clients, and ends with a status of its own."""
    with Refusing(1_000_000) as gateway:
        watch = Connection(gateway.socket)
        watch.do(STOCK, *ROWS)
        with Connection(gateway.socket) as holder:
            holder.do("BEGIN", TAKE.format(7))
        expect([it.fields()["C"] for it in watch.until_end()], ["57P01"])
        expect(gateway.running().wait(END), 5)
        expect("has refused for 10 s to roll back" in gateway.said(), True, gateway.said())


@PART.alone
def a_rollback_that_is_refused_behind_an_error() -> None:
    """What a block reserved before its error is not committed with the client's next block. If the rollback can't be had, the connection is ended."""
    for count in (1, 3):
        with Refusing(count) as gateway:
            watch = Connection(gateway.socket)
            watch.do(STOCK, *ROWS)
            it = Connection(gateway.socket)
            try:
                it.do("BEGIN", TAKE.format(7))
                expect(it.ask(TAKE.format(9999))[0], "ERROR 23514")
                it.ask("COMMIT")
                it.do("BEGIN", TAKE.format(1), "COMMIT")
                wanted = "99"
            except (wire.Ended, AssertionError, OSError):
                wanted = "100"  # the client was told
            it.close()
            wait_until("nothing is reserved", partial(holds_nothing, watch))
            expect(watch.rows("SELECT * FROM stock")[0][1], wanted, f"{count} refused")
            watch.close()
            gateway.expect_clean_end()


@PART.served
def limits_past_what_a_timer_holds(gateway: Gateway) -> None:
    """As PostgreSQL, a setting of milliseconds has at most 2,147,483,647: a longer one is refused, and is not none."""
    with Connection(gateway.socket) as it:
        it.do("SET idle_in_transaction_session_timeout = 2147483647")
        for value in ("2147483648", "'2147484s'", "'600h'", "99999999999999999999"):
            expect(it.ask(f"SET idle_in_transaction_session_timeout = {value}"), ["ERROR 22023", "ready I"], value)


@PART.served
def a_malformed_sync_commits_nothing(gateway: Gateway) -> None:
    watch = Connection(gateway.socket)
    watch.do(STOCK, *ROWS)
    for wrong in (b"S" + struct.pack("!i", 5) + b"x", b"S" + struct.pack("!i", 8) + b"\0" * 4):
        with Connection(gateway.socket) as it:
            it.send(wire.run(TAKE.format(1)), wrong)
            found = it.until_ready_or_end()
            expect([said.fields()["C"] for said in found if said.kind == "E"], ["08P01"])
        wait_until("nothing is reserved", lambda: watch.rows("SHOW JOURNAL") == [])
        expect(watch.rows("SELECT * FROM stock")[0], UNCHANGED)


# What clients send when they connect, and when a pool takes them back. Others than these are tried by the clients themselves.


@dataclass(frozen=True)
class Sent:
    """A query of a client, and the rows or tags that it needs."""

    by: str
    query: str
    answer: Tuple[str, ...]


SENT = [
    Sent(
        "asyncpg",
        "SELECT pg_advisory_unlock_all();\nCLOSE ALL;\nUNLISTEN *;\nRESET ALL;",
        ("columns pg_advisory_unlock_all:2278:-1:0", "row ", "complete SELECT 1", "complete CLOSE CURSOR ALL", "complete UNLISTEN", "complete RESET"),
    ),
    Sent("psqlODBC", "select oid, typbasetype from pg_type where typname = 'lo'", ("columns oid:26:-1:0, typbasetype:26:-1:0", "complete SELECT 0")),
    Sent(
        "ActiveRecord",
        "SELECT t.oid, t.typname\nFROM pg_type as t\nWHERE t.typname IN ('int2', 'numeric')",
        ("columns oid:26:-1:0, typname:19:-1:0", "row 21|int2", "row 1700|numeric", "complete SELECT 2"),
    ),
    Sent("pg_dump", "SELECT pg_catalog.set_config('search_path', '', false)", ("columns set_config:25:-1:0", "row ", "complete SELECT 1")),
    Sent("Sequelize", "SELECT 1+1 AS result", ("columns result:23:-1:0", "row 2", "complete SELECT 1")),
    Sent("TypeORM", "SELECT * FROM current_schema()", ("columns current_schema:19:-1:0", "row public", "complete SELECT 1")),
    Sent("a pool", "SET ROLE NONE", ("complete SET",)),
    Sent("a pool", "DISCARD ALL", ("complete DISCARD ALL",)),
    Sent("an application", "SET my.setting = 'x'", ("complete SET",)),
    Sent("an application", "SHOW my.setting", ("columns my.setting:25:-1:0", "row x", "complete SHOW")),
]


@PART.served
def what_clients_send_first(gateway: Gateway) -> None:
    with Connection(gateway.socket) as it:
        wrong = [f"{sent.by}: {sent.query!r}: {got}" for sent in SENT if (got := it.ask(sent.query)) != [*sent.answer, "ready I"]]
    for value in ("'utf-8'", "'UTF8'", "utf_8", "Unicode", "UTF8"):
        with Connection(gateway.socket, ready=False) as it:
            it.send(wire.startup(client_encoding=value))
            last = it.until_ready_or_end()[-1]
            if last.kind != "Z":
                wrong.append(f"asyncpg: client_encoding {value}: {last.shown()}")
    # HAProxy looks for AuthenticationOk, whatever comes behind it.
    with Connection(gateway.socket, ready=False) as it:
        it.send(wire.startup(None, user="haproxy"))
        kinds = [found.kind for found in it.until_ready_or_end()]
        if kinds[0] != "R":
            wrong.append(f"HAProxy: {kinds}")
    if wrong:
        raise AssertionError("\n".join(wrong))


@PART.served
def a_catalog_query_in_a_block(gateway: Gateway) -> None:
    """What psql asks at TAB does not fail the block."""
    tab = (
        "SELECT pg_catalog.quote_ident(c.relname) FROM pg_catalog.pg_class c WHERE c.relkind IN ('r', 'p') AND pg_catalog.pg_table_is_visible(c.oid)"
        " AND c.relnamespace <> (SELECT oid FROM pg_catalog.pg_namespace WHERE nspname = 'pg_catalog')"
    )
    with Connection(gateway.socket) as it:
        it.do(STOCK, *ROWS, "BEGIN", TAKE.format(1))
        expect(it.ask(tab)[1:], ["row stock", "complete SELECT 1", "ready T"])
        it.do("COMMIT")
        expect(it.rows("SELECT * FROM stock")[0][1], "99")


# By hand


def table(rows: Sequence[Sequence[str]]) -> str:
    """Returns rows as lines whose columns begin below each other."""
    widths = [max(len(row[at]) for row in rows) for at in range(len(rows[0]))]
    return "\n".join("  ".join(it.ljust(width) for it, width in zip(row, widths)).rstrip() for row in rows)


def print_p99(names: Sequence[str], rounds: int, seconds: float = 3.0) -> int:
    """Prints the times of honest clients without and beside each attack, in rounds by turns. Returns 1 if a median of p99 is over 2 times that without."""
    shown: List[Tuple[str, ...]] = [("attack", "p50 without", "beside", "p99 without", "beside", "times", "longest", "")]
    status = 0
    for name in names:
        with Gateway() as gateway:
            resource.prlimit(gateway.running().pid, resource.RLIMIT_AS, (MOST_MEMORY, MOST_MEMORY))
            honest.prepare(gateway.socket)
            fill_big(gateway.socket, 30_000 if "result" in name else 2000, 18 if "result" in name else 200)
            without: List[honest.Times] = []
            beside: List[honest.Times] = []
            for _ in range(rounds):
                without.append(honest.result(honest.apart(gateway.socket, HONEST, seconds)))
                attacker = begin(name, gateway.socket, seconds + 1.0)
                time.sleep(0.5)
                try:
                    beside.append(honest.result(honest.apart(gateway.socket, HONEST, seconds)))
                finally:
                    said = finish(attacker)
            p50 = [statistics.median(it.median for it in them) for them in (without, beside)]
            p99 = [statistics.median(it.p99 for it in them) for them in (without, beside)]
            times = p99[1] / p99[0]
            status |= times > 2.0
            longest = max(it.longest for it in beside)
            note = said[:60] or ("over" if times > 2.0 else "")
            shown.append((name, *(f"{it:.2f}" for it in (*p50, *p99)), f"{times:.1f}", f"{longest:.0f}", note))
            print(table(shown[:1] + shown[-1:]), file=sys.stderr, flush=True)
    print(table(shown))
    return status


def print_soak(minutes: float) -> int:
    """Runs 40 clients for minutes, and each attack in turn beside them. Prints the gateway's memory. Returns 1 if it is not level at the end."""
    with Gateway() as gateway:
        resource.prlimit(gateway.running().pid, resource.RLIMIT_AS, (MOST_MEMORY, MOST_MEMORY))
        process = gateway.running().pid
        honest.prepare(gateway.socket)
        fill_big(gateway.socket, 5000, 200)
        honest.result(honest.apart(gateway.socket, 40, 10.0))  # what is taken once, and kept
        first = keeps(process) / MB
        shown = [("attack", "seconds", "before", "most", "behind", "p99 of the clients, ms", "")]
        each = 60 * minutes / len(ATTACKS)
        for name in ATTACKS:
            before = keeps(process) / MB
            Path(f"/proc/{process}/clear_refs").write_text("5", encoding="utf-8")
            clients = honest.apart(gateway.socket, 40, each - 3.0)
            said = finish(begin(name, gateway.socket, each - 4.0))
            times = honest.result(clients)
            most = resident(process) / MB
            time.sleep(2.0)
            shown.append((name, f"{each:.0f}", f"{before:.1f}", f"{most:.1f}", f"{keeps(process) / MB:.1f}", f"{times.p99:.1f}", said[:60]))
            print(table(shown[:1] + shown[-1:]), file=sys.stderr, flush=True)
        honest.result(honest.apart(gateway.socket, 40, 10.0))
        time.sleep(2.0)
        last = keeps(process) / MB
        print(table(shown), f"\nat its beginning {first:.1f} MB, at its end {last:.1f} MB: {'level' if last - first <= 2.0 else 'NOT level'}")
        gateway.expect_clean_end()
        return int(last - first > 2.0)


def by_hand() -> int:
    parser = argparse.ArgumentParser(description=__doc__, formatter_class=argparse.RawDescriptionHelpFormatter)
    parser.add_argument("--p99", action="store_true")
    parser.add_argument("--rounds", type=int, default=3)
    parser.add_argument("--soak", type=float, metavar="MINUTES")
    parser.add_argument("--run", nargs=4, metavar=("ATTACK", "SOCKET", "SECONDS", "CROWD"))
    parser.add_argument("attacks", nargs="*", metavar="ATTACK")
    asked = parser.parse_args()
    if asked.run:
        Crowd.clients = int(asked.run[3])
        ATTACKS[asked.run[0]](Path(asked.run[1]), time.monotonic() + float(asked.run[2]))
        return 0
    if asked.soak:
        return print_soak(asked.soak)
    return print_p99(asked.attacks or list(ATTACKS), asked.rounds)


if __name__ == "__main__":
    if any(it in ("--p99", "--soak", "--run", "--help") for it in sys.argv[1:]):
        sys.exit(by_hand())
    main(PART)
