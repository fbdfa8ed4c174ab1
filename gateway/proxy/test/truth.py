#!/usr/bin/env python3
"""Forty buyers write orders and take their pieces, while proxies, PostgreSQL, backends and connections are killed at random: no sum is ever wrong.

    python3 -m proxy.test.truth [--kills N] [--seconds N] [--seed N] [--only WORD ..] [--kinds KIND ..] [--proxies N] [--each N]
                            [--straight] [--lazy] [--standby] [--without RULE] [--processes N] [--thinking SECONDS] [--pairs] [--kept FOLDER]

Run it in the folder gateway. Behind each kill orders have to go on. All the time, PostgreSQL is asked for a row whose stock with its journal, in one
snapshot, is not what it was at the beginning without the orders. Behind each section of kills the buyers end, and then each order whose COMMIT was
answered is there, none is there that was rolled back, of no order a part is there, the journals are empty, the table has what the orders have left,
the server gives just that, and no fold was refused. --straight leaves the proxy out, so that the test itself is tested. --lazy turns
synchronous_commit off; then a crash of PostgreSQL may lose answered COMMITs, and nothing else. --standby adds a synchronous standby, which is promoted
at the end. --without takes a rule away from schema escrow, so that something has to be wrong.

For many kills by hand: --processes has that many times ten buyers. With --thinking they wait within their transactions, so that a kill costs half of the
processor. With --pairs some kills are two at once. If something is wrong, FOLDER gets what all servers have left; for the cases, a new folder in that
which ESCROWD_KEPT names.
"""
from __future__ import annotations

import argparse
import os
import random
import re
import shutil
import signal
import statistics
import subprocess
import sys
import tempfile
import threading
import time
from collections import Counter
from concurrent.futures import ThreadPoolExecutor
from contextlib import ExitStack, contextmanager, suppress
from dataclasses import dataclass, field
from pathlib import Path
from types import TracebackType
from typing import Any, Callable, Dict, FrozenSet, Iterator, List, Mapping, NamedTuple, Optional, Sequence, Set, Tuple, Type
from unittest.mock import MagicMock

import psycopg
from psycopg import errors
from psycopg.pq import ExecStatus, TransactionStatus

from clients.servers import PATIENCE, PORT, children, wait_until
from clients.suite import Part, expect, main
from proxy.test.buyers import ALONE, BUYER, KINDS, MERCHANT, RIGHTS, ROLES, TABLES, WITH_ESCROW, Buyer, Line, Order
from proxy.test.harness import TOP, Forwarder, Proxy, Standby
from proxy.test.standin import ROLE, Cluster

PART = Part("proxy_truth")
PROCESSES, EACH = 4, 10
# The answered orders that have to come behind a kill, and the seconds in which they do: those, or so many times what the start of all took.
GOES_ON, LIMIT, STARTS = 40, 60.0, 20
# The seconds between two questions that each need a connection, and those behind which a backend is killed again.
PAUSE, REPEATS = 0.05, 10.0
# The seconds behind which a case kills no more.
SECONDS = 60.0 * PATIENCE
# The lines of what is wrong that are shown, and which of them tell of a sum.
MOST_SHOWN = 20
SUM = re.compile(r"stock and orders differed|^item [0-9]+ |were taken alone")
# What the proxy's log may not have.
ALARMS = re.compile(r"(?i)panicked|alarm|fold was refused|the server lacks a row|that no note gives|was not expected")


# Rules that are taken away from schema escrow, as a text in it and what takes its place. The test has to find that: `twice` and `taken` at once, the
# others if something is killed at the right moment.
WITHOUT = {
    "twice": ("coalesce(pg_catalog.sum(taken.change_%s), 0)", "coalesce(2 * pg_catalog.sum(taken.change_%s), 0)"),
    "part": ("WHERE j.key OPERATOR(pg_catalog.=) OLD.%2$I RETURNING",
             "WHERE j.ctid = (SELECT max(i.ctid) FROM escrow.journal_%1$s AS i WHERE i.key = OLD.%2$I) RETURNING"),
    "epoch": ("pg_catalog.pg_sequence_last_value('escrow.epoch') OPERATOR(pg_catalog.=) %6$s_%1$s.epoch "
              "AND NOT pg_catalog.pg_try_advisory_xact_lock_shared(%6$s_%1$s.epoch)", "true"),
    "wait": ("WHERE l.locktype = 'relation' AND l.granted AND l.mode = 'RowExclusiveLock'", "WHERE false"),
    "taken": ("string_agg(format('l.taken[%s]', i), ', ')", "string_agg(format('2 * l.taken[%s]', i), ', ')"),
    "holds": ("""l."table" = %1$s AND l.key = %4$s AND l.stands) AS l""", """l."table" = %1$s AND l.key = %4$s AND l.stands AND false) AS l"""),
}


class Lines:
    """The lines of a file that grows, and that may not be there yet."""

    def __init__(self, path: Path) -> None:
        self.path, self.at = path, 0

    def new(self) -> Iterator[str]:
        """Returns what was added since the last call, line by line."""
        if not self.path.exists():
            return
        with open(self.path, encoding="utf-8", errors="replace") as it:
            it.seek(self.at)
            while True:
                line = it.readline()
                if not line.endswith("\n"):
                    return
                self.at = it.tell()
                yield line


@dataclass
class Said:
    """What the buyers have said so far."""

    lines: Lines
    answered: Set[str] = field(default_factory=set)
    aborted: Set[str] = field(default_factory=set)
    unknown: Set[FrozenSet[str]] = field(default_factory=set)
    alone: "Counter[str]" = field(default_factory=Counter)
    refused: "Counter[str]" = field(default_factory=Counter)
    faults: List[str] = field(default_factory=list)

    def now(self) -> "Said":
        """Returns it with what was added."""
        for line in self.lines.new():
            self.hear(*line.split())
        return self

    def hear(self, what: str, *words: str) -> None:
        """Takes a line."""
        if what == "answered":
            self.answered.update(words)
        elif what == "aborted":
            self.aborted.update(words)
        elif what == "unknown":
            self.unknown.add(frozenset(words))
        elif what == "fault":
            self.faults.append(" ".join(words))
        else:
            (self.alone if what == "alone" else self.refused)[words[0]] += 1

    def count(self) -> int:
        """Returns how much was answered."""
        return len(self.answered) + self.alone["answered"]


class Found(NamedTuple):
    """What PostgreSQL has: orders, the stock before them, and the stock."""

    orders: Mapping[str, Line]
    before: Mapping[int, int]
    stock: Mapping[int, int]


def wrongs(said: Said, found: Found, may_lose: bool = False) -> List[str]:
    """Returns what is wrong. A crash without synchronous_commit may lose what was answered."""
    there = set(found.orders)
    wrong = [f"fault: {it}" for it in said.faults]
    wrong += [f"an answered order is missing: {it}" for it in sorted(said.answered - there) if not may_lose]
    wrong += [f"an order is there that was rolled back: {it}" for it in sorted(said.aborted & there)]
    wrong += [f"a part of an order is there: {sorted(it)}" for it in said.unknown if it & there and it - there and not may_lose]
    known = said.answered | {it for keys in said.unknown for it in keys}
    wrong += [f"nobody wrote the order {it}" for it in sorted(there - known)]
    for item, before in found.before.items():
        left = before - sum(it.pieces for it in found.orders.values() if it.item == item)
        if item == ALONE:
            least = 0 if may_lose else said.alone["answered"]
            taken, most = before - found.stock[item], said.alone["answered"] + said.alone["unknown"]
            if not least <= taken <= most:
                wrong.append(f"{taken} were taken alone, and not {least} to {most}")
        elif found.stock[item] != left:
            wrong.append(f"item {item} has {found.stock[item]}, and its orders leave {left}")
        if found.stock[item] < 0:
            wrong.append(f"item {item} has {found.stock[item]}")
    return wrong


def listed(wrong: Sequence[str]) -> str:
    """Returns what is wrong as lines: alarms first, then the first wrong sum, then the rest."""
    alarms = [it for it in wrong if ALARMS.search(it)]
    others = [it for it in wrong if it not in alarms]
    sums = [it for it in others if SUM.search(it)][:1]
    return "\n  ".join([*alarms, *sums, *(it for it in others if it not in sums)][:MOST_SHOWN])


class Watch(threading.Thread):
    """Asks all the time whether stock and orders fit, in one snapshot."""

    def __init__(self, cluster: Cluster, table: str) -> None:
        super().__init__(daemon=True)
        self.cluster, self.table = cluster, table  # of before a failover
        self.looks, self.wrong = 0, ""
        self.is_off = threading.Event()

    def __enter__(self) -> "Watch":
        return self

    def __exit__(self, *fault: object) -> None:
        self.is_off.set()
        if self.is_alive():
            self.join()

    def run(self) -> None:
        query = (
            f"SELECT n.id, n.pieces, b.pieces - coalesce(sum(o.pieces), 0) FROM {self.table} AS n JOIN base AS b USING (id) "
            f"LEFT JOIN orders AS o ON o.item = n.id GROUP BY n.id, n.pieces, b.pieces "
            f"HAVING n.id <> {ALONE} AND n.pieces <> b.pieces - coalesce(sum(o.pieces), 0) OR n.pieces < 0"
        )
        while not self.is_off.is_set():
            try:
                with self.cluster.connect() as it:
                    while not self.is_off.wait(0.05):
                        found = it.execute(query.encode()).fetchall()
                        self.looks += 1
                        if found:
                            self.wrong = f"while it ran, stock and orders differed: {found}"
                            return
            except psycopg.OperationalError:
                time.sleep(0.05)
            except psycopg.Error as error:
                self.wrong = f"it cannot be asked whether stock and orders fit: {error}"
                return


class ByHand(NamedTuple):
    """What only a run by hand may ask for: how many processes of buyers there are, how long these wait, whether two things may be killed at once, and
    which folder gets what servers have left."""

    processes: int = PROCESSES
    thinking: float = 0.0
    has_pairs: bool = False
    kept: Optional[Path] = None


class Scene:
    """A cluster with the tables, proxies, and forwarders before and behind each of them."""

    def __init__(self, proxies: int, is_lazy: bool = False, has_standby: bool = False, without: str = "", by_hand: ByHand = ByHand()) -> None:
        self.stack = ExitStack()
        self.is_lazy, self.by_hand = is_lazy, by_hand
        self.change = WITHOUT.get(without)
        # A look at all orders would be compiled anew each time, which takes longer than the look.
        settings = ("deadlock_timeout=100ms", f"synchronous_commit={'off' if is_lazy else 'on'}", "log_min_messages=fatal", "max_wal_size=4GB",
                    "max_connections=400", "jit=off")
        self.cluster = Cluster(*settings)
        self.standby = Standby(self.cluster) if has_standby else None
        self.proxies: List[Proxy] = []
        self.fronts: List[Forwarder] = []
        self.backs: List[Forwarder] = []
        self.wanted = proxies
        self.table = "escrow.now_stock" if proxies else "stock"
        self.section = 0
        self.crashes = 0
        self.limit = LIMIT
        self.logs: List[Lines] = []
        self.told: List[str] = []

    def __enter__(self) -> "Scene":
        try:
            self.open()
        except BaseException:
            self.stack.close()
            raise
        return self

    def __exit__(self, kind: Optional[Type[BaseException]], value: Optional[BaseException], trace: Optional[TracebackType]) -> None:
        if value is not None:
            kept = os.environ.get("ESCROWD_KEPT")
            folder = self.by_hand.kept or (Path(tempfile.mkdtemp(prefix="truth-", dir=kept)) if kept else None)
            if folder:
                self.keep(folder)
        self.stack.__exit__(kind, value, trace)

    def keep(self, folder: Path) -> None:
        """Ends all servers, and copies what they have left."""
        servers = [*self.proxies, *([self.standby] if self.standby else []), self.cluster]
        for it in servers:
            it.kill()
        for at, it in enumerate(servers):
            shutil.copytree(it.folder, folder / f"{at}-{type(it).__name__}", ignore=shutil.ignore_patterns(".s.*"), dirs_exist_ok=True)

    def open(self) -> None:
        """Starts all, which tells how slow the machine is."""
        begin = time.monotonic()
        self.stack.enter_context(self.cluster)
        self.cluster.run(*ROLES, "CREATE TABLE base (id integer PRIMARY KEY, pieces integer NOT NULL)")
        self.cluster.run(*TABLES, *RIGHTS, user=MERCHANT)
        if self.wanted:
            self.cluster.script("install.sql", self.change)
            self.cluster.run("SELECT escrow.reservable('stock', 'pieces')", user=MERCHANT)
        if self.standby:
            self.stack.enter_context(self.standby)
        servers = [self.cluster, *([self.standby] if self.standby else [])]
        for _ in range(self.wanted):
            backs = [self.forwarder(it.socket) for it in servers]
            self.backs += backs
            proxy = self.stack.enter_context(Proxy(self.cluster, postgres=connection_string(backs, ROLE)))
            self.proxies.append(proxy)
            self.fronts.append(self.forwarder(proxy.socket))
        if not self.wanted:
            self.fronts = [self.forwarder(it.socket) for it in servers]
        self.logs = [Lines(it.folder / "said") for it in self.proxies]
        self.limit = max(LIMIT, STARTS * (time.monotonic() - begin))

    def forwarder(self, target: Path) -> Forwarder:
        """Starts a forwarder."""
        return self.stack.enter_context(Forwarder(target, PORT))

    def dsns(self, user: str = BUYER) -> List[str]:
        """Returns how a role connects: to each, and then the others."""
        return [connection_string(self.fronts[at:] + self.fronts[:at], user) for at in range(len(self.fronts))]

    def wait(self, what: str, is_so: Callable[[], object], pause: float = 0.005) -> None:
        """Waits until something holds. Fails with alarms, and with what PostgreSQL's connections do, if it does not hold in time."""
        try:
            wait_until(what, is_so, self.limit, pause)
        except AssertionError as late:
            query = ("SELECT count(*) || ' ' || concat_ws(' ', application_name, state, wait_event, left(query, 60)) FROM pg_stat_activity "
                     "WHERE backend_type = 'client backend' GROUP BY application_name, state, wait_event, left(query, 60) ORDER BY count(*) DESC")
            try:
                with self.cluster.connect() as it:
                    state = ", ".join(text for text, in it.execute(query.encode()))
            except psycopg.Error as error:
                state = str(error)
            raise AssertionError("; ".join([*self.alarms(), f"{late}; PostgreSQL: {' '.join(state.split())}"])) from late

    def ask(self, query: str) -> List[Any]:
        """Returns the rows of a query of PostgreSQL, as soon as it serves."""
        found: List[Any] = []

        def is_answered() -> bool:
            try:
                with self.cluster.connect() as it:
                    found.extend(it.execute(query.encode()).fetchall())
            except psycopg.OperationalError:
                return False
            return True

        self.wait(f"PostgreSQL answers {query}", is_answered, 0.02)
        return found

    def found(self) -> Found:
        """Returns what PostgreSQL has."""
        orders = {key: Line(key, item, pieces) for key, item, pieces in self.ask("SELECT key, item, pieces FROM orders")}
        return Found(orders, dict(self.ask("SELECT id, pieces FROM base")), dict(self.ask("SELECT id, pieces FROM stock")))

    def is_folded(self) -> bool:
        """Returns whether no note waits for a fold."""
        return not any(self.ask(f"SELECT FROM escrow.journal_{number} LIMIT 1") for number, in self.ask("SELECT number FROM escrow.declared"))

    def is_decided(self) -> bool:
        """Returns whether the owner knows of no open reservation: PostgreSQL may hear later than the buyers that a connection is lost."""
        try:
            with self.connect(MERCHANT) as it:  # members of pg_monitor may ask
                return it.execute("SELECT FROM escrow.reservations()").fetchall() == []
        except psycopg.OperationalError:
            return False

    @contextmanager
    def buying(self, seed: int, kinds: Sequence[str] = (), is_careless: bool = False) -> Iterator["Said"]:
        """Starts the buyers over empty orders. At its end they have ended."""
        self.section += 1
        self.cluster.run("TRUNCATE receipts, orders, carts, base", "INSERT INTO base SELECT id, pieces FROM stock")
        said = Said(Lines(self.cluster.folder / f"said-{self.section}"))
        if not self.wanted and not kinds:
            kinds = [it for it in KINDS if it not in WITH_ESCROW]
        more = [*(["--careless"] if is_careless else []), *(["--kinds", *kinds] if kinds else []), f"--thinking={self.by_hand.thinking}", "--"]
        words = [sys.executable, "-B", "-m", "proxy.test.buyers"]
        buyers = [
            subprocess.Popen([*words, *more, str(place * EACH), str(EACH), str(seed * 1000 + self.section), str(said.lines.path), *self.dsns()], cwd=TOP)
            for place in range(self.by_hand.processes)
        ]
        try:
            yield said
            for it in buyers:
                it.terminate()
            self.wait("the buyers end", lambda: all(it.poll() is not None for it in buyers))
            expect({it.returncode for it in buyers} - {0, -signal.SIGTERM}, set(), "how processes of buyers end")
        finally:
            for it in buyers:
                it.kill()
                it.wait()
            said.now()

    def examine(self, said: Said) -> List[str]:
        """Returns what is wrong, once the buyers have ended."""
        if self.wanted:
            self.wait("no hold stands", lambda: self.alarms() or not self.ask("SELECT FROM escrow.hold_lines LIMIT 1"), PAUSE)
            self.wait("the journals are empty, and nothing is reserved", lambda: self.alarms() or self.is_folded() and self.is_decided(), PAUSE)
        found = self.found()
        wrong = wrongs(said, found, may_lose=self.is_lazy and self.crashes > 0) + self.alarms()
        return wrong or self.reserved(found.stock)

    def alarms(self) -> List[str]:
        """Returns what proxies have said that none may say."""
        self.told += [f"the proxy says: {line.strip()}" for log in self.logs for line in log.new() if ALARMS.search(line)]
        return self.told

    def reserved(self, stock: Mapping[int, int]) -> List[str]:
        """Returns which rows don't give just what they have: all of it, and nothing more."""
        return [f"item {item} with {pieces} {'gives' if more else 'refuses'} {pieces + more}"
                for item, pieces in stock.items() for more in (0, 1) if self.gives(item, pieces + more) == bool(more)]

    def gives(self, item: int, pieces: int) -> bool:
        """Returns whether a row gives pieces, which it gets back. Asks again if an answer says nothing of that."""
        given: List[bool] = []

        def is_answered() -> bool:
            try:
                with self.connect() as it, it.transaction(force_rollback=True):
                    it.execute("UPDATE stock SET pieces = pieces - %s WHERE id = %s", (pieces, item))
                given.append(True)
            except errors.CheckViolation:
                given.append(False)
            except psycopg.OperationalError:
                return False
            return True

        self.wait(f"item {item} is asked for {pieces}", is_answered)
        return given[0]

    def connect(self, user: str = BUYER) -> "psycopg.Connection[Any]":
        """Connects as a buyer or another role does, as soon as it can."""
        found: List["psycopg.Connection[Any]"] = []

        def opens() -> bool:
            for dsn in self.dsns(user):
                try:
                    it = psycopg.connect(dsn, autocommit=True)
                    it.execute(f"UPDATE stock SET pieces = pieces - 0 WHERE id = {ALONE}")
                except psycopg.Error:
                    continue
                found.append(it)
                return True
            return False

        self.wait("a connection is served", opens)
        return found[0]


def connection_string(forwarders: Sequence[Forwarder], user: str) -> str:
    """Returns how a role reaches the database through forwarders: by the first that accepts and writes."""
    return f"host={','.join(str(it.folder) for it in forwarders)} port={PORT} dbname=bank user={user} target_session_attrs=read-write"


# What is killed, and whether there has to be a proxy.
KILLS: Dict[str, Tuple[bool, Callable[[Scene, random.Random], None]]] = {}


def kill(needs_proxy: bool) -> Callable[[Callable[[Scene, random.Random], None]], Callable[[Scene, random.Random], None]]:
    """Adds what is killed."""

    def add(act: Callable[[Scene, random.Random], None]) -> Callable[[Scene, random.Random], None]:
        KILLS[act.__name__] = needs_proxy, act
        return act

    return add


def present(scene: Scene) -> Proxy:
    """Returns the proxy that has said last that it is the owner."""
    number, = scene.ask("SELECT last_value FROM escrow.epoch")[0]
    return next((it for it in scene.proxies if f"epoch {number}" in it.said()), scene.proxies[0])


def owner(scene: Scene, draw: random.Random) -> Proxy:
    """Returns the owner, mostly; or any proxy."""
    return draw.choice(scene.proxies) if draw.random() < 0.3 else present(scene)


@kill(needs_proxy=True)
def proxy(scene: Scene, draw: random.Random) -> None:
    it = owner(scene, draw)
    it.kill()
    time.sleep(draw.choice((0, draw.uniform(0, 1.5))))
    it.start()


@kill(needs_proxy=True)
def stopped(scene: Scene, draw: random.Random) -> None:
    """Longer than an owner may say nothing, and then it goes on with what is in its sockets."""
    it = owner(scene, draw)
    it.running().send_signal(signal.SIGSTOP)
    time.sleep(draw.choice((0.5, 4.5)))
    it.running().send_signal(signal.SIGCONT)


@kill(needs_proxy=True)
def program(scene: Scene, draw: random.Random) -> None:
    """What a proxy has started: the server."""
    for it in children(owner(scene, draw).running().pid):
        with suppress(ProcessLookupError):
            os.kill(it, signal.SIGKILL)


@kill(needs_proxy=True)
def own_backend(scene: Scene, draw: random.Random) -> None:
    """One of the proxy's own connections: keeper, folder, loader."""
    terminate(scene, draw, "application_name LIKE 'escrowd-proxy%'", 1)


@kill(needs_proxy=True)
def deaf(scene: Scene, _draw: random.Random) -> None:
    """The keeper's backend, and the proxy does not hear of it for a while. What it notes, and what it commits, is of a former epoch."""
    place, each = scene.proxies.index(present(scene)), len(scene.backs) // len(scene.proxies)
    links = scene.backs[place * each:][:each]
    for it in links:
        it.deafen()
    scene.ask("SELECT pg_terminate_backend(process) FROM escrow.owner()")
    # Another has to be the owner before it hears of that. By itself it waits for three seconds.
    until = time.monotonic() + 2.5
    while len(scene.proxies) > 1 and present(scene) is scene.proxies[place] and time.monotonic() < until:
        time.sleep(0.05)
    # Some of its buyers go to the other one, and the others stay.
    scene.fronts[place].drop()
    time.sleep(1.0)
    for it in links:
        it.deafen()


@kill(needs_proxy=True)
def behind(scene: Scene, draw: random.Random) -> None:
    """Connections between a proxy and PostgreSQL."""
    draw.choice(scene.backs).drop(draw.random() < 0.5)


@kill(needs_proxy=True)
def stalled_behind(scene: Scene, draw: random.Random) -> None:
    stall(draw.choice(scene.backs), draw.choice((0.3, 1.0, 4.5)))


@kill(needs_proxy=False)
def postgres(scene: Scene, draw: random.Random) -> None:
    """An immediate stop."""
    scene.crashes += 1
    scene.cluster.kill()
    time.sleep(draw.choice((0, draw.uniform(0, 1))))
    scene.cluster.again()


@kill(needs_proxy=False)
def restart(scene: Scene, draw: random.Random) -> None:
    """A clean stop, which ends all connections."""
    scene.cluster.end(signal.SIGINT)
    scene.cluster.again()


@kill(needs_proxy=False)
def backend(scene: Scene, draw: random.Random) -> None:
    """kill -9 of a backend, at which PostgreSQL starts anew by itself."""
    scene.crashes += 1

    def is_killed() -> bool:
        found = scene.ask("SELECT pid FROM pg_stat_activity WHERE backend_type = 'client backend' AND pid <> pg_backend_pid() "
                          "ORDER BY wait_event IS NULL DESC, random() LIMIT 10")
        try:
            if found:
                os.kill(draw.choice(found)[0], signal.SIGKILL)
        except ProcessLookupError:
            return False  # it has ended meanwhile
        return bool(found)

    with scene.cluster.connect() as witness:
        scene.wait("a backend is killed", is_killed)
        again = time.monotonic() + REPEATS

        def are_ended() -> bool:
            nonlocal again
            if time.monotonic() > again:
                # Who was killed had just ended by itself, and nobody had asked for its status yet.
                again = time.monotonic() + REPEATS
                is_killed()
            return is_ended(witness)

        scene.wait("PostgreSQL ends all connections", are_ended)
    scene.ask("SELECT 1")


def is_ended(connection: "psycopg.Connection[Any]") -> bool:
    """Returns whether PostgreSQL has ended a connection."""
    try:
        connection.execute("SELECT 1")
    except psycopg.OperationalError:
        return True
    return False


def failover(scene: Scene, draw: random.Random) -> None:
    """PostgreSQL is gone, and its standby takes its place."""
    assert scene.standby
    scene.cluster.kill()
    time.sleep(draw.uniform(0, 1))
    scene.standby.promote()
    scene.cluster = scene.standby


@kill(needs_proxy=False)
def terminated(scene: Scene, draw: random.Random) -> None:
    terminate(scene, draw, "application_name NOT LIKE 'escrowd-proxy%'", draw.randint(1, 10))


@kill(needs_proxy=False)
def before(scene: Scene, draw: random.Random) -> None:
    """Connections of buyers."""
    draw.choice(scene.fronts).drop(draw.random() < 0.2)


@kill(needs_proxy=False)
def stalled_before(scene: Scene, draw: random.Random) -> None:
    stall(draw.choice(scene.fronts), draw.choice((0.3, 1.0)))


def stall(it: Forwarder, seconds: float) -> None:
    """Stalls a forwarder."""
    it.stall()
    time.sleep(seconds)
    it.go_on()


# Of these one at a time.
OF_POSTGRES = {"postgres", "restart", "backend"}


def drawn(names: Sequence[str], has_pairs: bool, draw: random.Random) -> List[str]:
    """Returns what is killed next: sometimes two at once."""
    found = draw.sample(names, 2 if has_pairs and len(names) > 1 and draw.random() < 0.4 else 1)
    return found[:1] if OF_POSTGRES.issuperset(found) else found


def terminate(scene: Scene, draw: random.Random, which: str, count: int) -> None:
    """Ends backends."""
    scene.ask(f"SELECT pg_terminate_backend(pid) FROM (SELECT pid FROM pg_stat_activity WHERE backend_type = 'client backend' AND pid <> pg_backend_pid() "
              f"AND {which} ORDER BY random() LIMIT {count}) AS p")


@dataclass
class Run:
    """A run: what it has done so far."""

    scene: Scene
    seed: int
    names: Sequence[str]
    end: float
    kinds: Sequence[str] = ()
    kills: "Counter[str]" = field(default_factory=Counter)
    times: Dict[str, List[float]] = field(default_factory=dict)
    sums: "Counter[str]" = field(default_factory=Counter)
    refused: "Counter[str]" = field(default_factory=Counter)
    looks: int = 0

    def takeovers(self) -> int:
        """Returns how often a proxy has become the owner, but the first time."""
        epochs = {epoch for it in self.scene.proxies for epoch in re.findall("owner of epoch ([0-9]+)", it.said())}
        return max(len(epochs) - 1, 0)

    def section(self, count: int, fails_over: bool = False) -> None:
        """Kills some times, and examines."""
        with Watch(self.scene.cluster, self.scene.table) as watch:
            try:
                said = self.kill_some(watch, count, fails_over)
                wrong = self.scene.examine(said)
            except AssertionError as late:
                wrong = [*self.scene.alarms(), *([watch.wrong] if watch.wrong else []), str(late)]
                raise AssertionError(self.headed(wrong)) from late
        self.looks += watch.looks
        wrong += [watch.wrong] if watch.wrong else []
        there = set(self.scene.found().orders)
        unknown = {it for keys in said.unknown for it in keys}
        holds = self.scene.ask("SELECT count(*) FROM escrow.hold_names")[0][0] if self.scene.wanted else 0  # those of all sections
        self.sums += Counter(answered=said.count(), aborted=len(said.aborted), unknown=len(unknown), of_them_committed=len(unknown & there),
                             holds=holds - self.sums["holds"])
        self.refused += said.refused
        # It is said, so that the limit of a case is one of a section.
        print(f"  section {self.scene.section} has ended: {sum(self.kills.values())} kills, {dict(self.sums)}", flush=True)
        if wrong:
            raise AssertionError(self.headed(wrong))

    def headed(self, wrong: Sequence[str]) -> str:
        """Returns what is wrong, behind what was done."""
        return f"seed {self.seed}, section {self.scene.section}, kills {dict(self.kills)}:\n  {listed(wrong)}"

    def kill_some(self, watch: Watch, count: int, fails_over: bool) -> Said:
        """Kills some times while buyers order. Returns what they have said."""
        draw = random.Random(f"{self.seed} {self.scene.section}")
        with self.scene.buying(self.seed, self.kinds) as said:
            watch.start()
            self.await_more(said, watch)
            for _ in range(count):
                time.sleep(draw.uniform(0, 0.5))
                names = drawn(self.names, self.scene.by_hand.has_pairs, draw)
                with ThreadPoolExecutor(len(names)) as threads:
                    list(threads.map(lambda name, seed: KILLS[name][1](self.scene, random.Random(seed)), names, [draw.getrandbits(32) for _ in names]))
                self.kills.update(names)
                seconds = self.await_more(said, watch)
                for name in names:
                    self.times.setdefault(name, []).append(seconds)
                if self.is_wrong(said, watch) or time.monotonic() > self.end:
                    break
            if fails_over:
                failover(self.scene, draw)
                self.times["failover"] = [self.await_more(said, watch)]
        return said

    def is_wrong(self, said: Said, watch: Watch) -> bool:
        """Returns whether something is wrong already."""
        return bool(said.faults or watch.wrong or self.scene.alarms())

    def await_more(self, said: Said, watch: Watch) -> float:
        """Waits until more is answered, or something is wrong. Returns the seconds."""
        begin = time.monotonic()
        goal = said.now().count() + GOES_ON
        self.scene.wait(f"orders go on behind {dict(self.kills)}, seed {self.seed}", lambda: said.now().count() >= goal or self.is_wrong(said, watch))
        return time.monotonic() - begin

    def told(self) -> str:
        """Returns what was done, in words."""
        times = "; ".join(f"{name} {statistics.median(it):.1f} (worst {max(it):.1f})" for name, it in self.times.items())
        return (f"{sum(self.kills.values())} kills, {self.takeovers()} takeovers: {dict(self.kills)}\n"
                f"  {dict(self.sums)}; errors {dict(self.refused)}; {self.looks} looks\n"
                f"  seconds until {GOES_ON} more orders: {times}")


def chosen(only: Sequence[str], has_proxy: bool) -> List[str]:
    """Returns what may be killed."""
    found = [name for name, (needs_proxy, _) in KILLS.items() if has_proxy or not needs_proxy]
    return [name for name in found if not only or any(it == name for it in only)]


def run(seed: int, kills: int, *, proxies: int = 2, only: Sequence[str] = (), seconds: float = SECONDS, is_lazy: bool = False, each: int = 10,
        has_standby: bool = False, without: str = "", kinds: Sequence[str] = (), by_hand: ByHand = ByHand()) -> str:
    """Runs so many kills, and at last a failover if there is a standby. Returns what was done."""
    with Scene(proxies, is_lazy, has_standby, without, by_hand) as scene:
        it = Run(scene, seed, chosen(only, proxies > 0), time.monotonic() + seconds, kinds)
        while sum(it.kills.values()) < kills and time.monotonic() < it.end:
            it.section(min(each, kills - sum(it.kills.values())))
        if has_standby:
            it.section(0, fails_over=True)
        expect(it.looks > 0, True, "stock and orders were looked at")
        return it.told()


def shown(what: str) -> None:
    """Prints what a run has done. A line that is printed puts the limit of a case off."""
    print(what, flush=True)


@PART.alone
def nothing_is_lost_or_taken_twice() -> None:
    shown(run(1, 60, each=20))


@PART.alone
def neither_proxies_nor_buyers_are_superusers() -> None:
    with Scene(1) as scene, scene.buying(7) as said:
        scene.wait("buyers are served", lambda: said.now().count() > 0)
        served = ("SELECT DISTINCT a.usename, r.rolsuper FROM pg_stat_activity AS a JOIN pg_roles AS r ON r.rolname = a.usename "
                  "WHERE a.backend_type = 'client backend' AND a.pid <> pg_backend_pid()")
        # The backend of a connection that this test has closed may still end.
        scene.wait("nobody else is connected", lambda: sorted(scene.ask(served)) == sorted([(BUYER, False), (ROLE, False)]), PAUSE)


@PART.alone
def one_proxy_goes_on_by_itself() -> None:
    shown(run(2, 6, proxies=1, only=("proxy", "postgres", "program", "own_backend", "behind")))


@PART.alone
def a_lazy_log_loses_no_sum() -> None:
    shown(run(3, 6, proxies=1, is_lazy=True, only=("postgres", "backend", "proxy")))


@PART.alone
def a_standby_takes_over() -> None:
    shown(run(4, 0, has_standby=True))


@PART.alone
def a_rule_that_is_taken_away_is_missed() -> None:
    missed("twice")


@PART.alone
def a_hold_that_counts_twice_is_found() -> None:
    missed("taken", "held")


def missed(without: str, *kinds: str) -> None:
    """Tests that a rule is missed, whatever else is killed."""
    try:
        run(5, 2, proxies=1, without=without, only=("before",), kinds=kinds)
    except AssertionError as error:
        expect(any(it in str(error) for it in ("stock and orders differed", "its orders leave", "a fold was refused")), True, str(error)[:500])
    else:
        raise AssertionError("it is not missed")


@PART.alone
def the_test_passes_what_is_right() -> None:
    """PostgreSQL by itself, with its locks."""
    shown(run(6, 4, proxies=0))


@PART.alone
def the_test_finds_wrongs() -> None:
    said = Said(Lines(Path("/nowhere")))
    said.hear("answered", "a/0", "a/1")
    said.hear("unknown", "b/0", "b/1")
    said.hear("aborted", "c/0")
    said.hear("alone", "answered")
    said.hear("alone", "unknown")
    orders = {it.key: it for it in (Line("a/0", 1, 2), Line("a/1", 3, -1), Line("b/0", 1, 1), Line("b/1", 1, 1))}
    before, stock = {1: 10, 3: 10, ALONE: 10}, {1: 6, 3: 11, ALONE: 9}
    expect(wrongs(said, Found(orders, before, stock)), [])
    expect(wrongs(said, Found(orders, before, {**stock, ALONE: 8})), [])
    for changed, place, text in (
        ({key: it for key, it in orders.items() if key != "a/1"}, stock, "an answered order is missing: a/1"),
        ({key: it for key, it in orders.items() if key != "b/1"}, {**stock, 1: 7}, "a part of an order is there"),
        ({**orders, "c/0": Line("c/0", 1, 0)}, stock, "an order is there that was rolled back: c/0"),
        ({**orders, "d/0": Line("d/0", 1, 0)}, stock, "nobody wrote the order d/0"),
        (orders, {**stock, 1: 7}, "item 1 has 7, and its orders leave 6"),
        (orders, {**stock, ALONE: 10}, "0 were taken alone, and not 1 to 2"),
        (orders, {**stock, ALONE: 7}, "3 were taken alone, and not 1 to 2"),
        (orders, {**stock, 3: -1}, "item 3 has -1"),
    ):
        found = wrongs(said, Found(changed, before, place))
        expect(any(text in it for it in found), True, f"{text}: {found}")
    said.hear("fault", "one_row", "x")
    expect(wrongs(said, Found(orders, before, stock)), ["fault: one_row x"])
    many = [f"an answered order is missing: {it}" for it in range(MOST_SHOWN)]
    first = listed([*many, "item 1 has 7, and its orders leave 6", "item 3 has -1", "the proxy says: ALARM: FoldRefused"]).splitlines()[:3]
    expect([it.split()[:2] for it in first], [["the", "proxy"], ["item", "1"], ["an", "answered"]])


CHAINED = b"ROLLBACK AND CHAIN"


class Heard(Buyer):
    """A buyer whose connection does all that it is sent, but for a deadlock behind each ROLLBACK AND CHAIN. What it says is heard here."""

    def __init__(self) -> None:
        super().__init__("b", 1, -1, threading.Event(), argparse.Namespace(careless=False, thinking=0.0))
        self.said: List[str] = []
        self.last = b""
        self.connection = MagicMock(closed=False)
        self.connection.info.transaction_status = TransactionStatus.IDLE
        self.connection.execute.side_effect = self.done
        self.connection.pgconn.exec_prepared.side_effect = self.done

    def say(self, what: str, *words: object) -> None:
        self.said.append(" ".join((what, *map(str, words))))

    def done(self, statement: bytes, *_: object) -> MagicMock:
        """Does a statement."""
        before, self.last = self.last, statement
        if before == CHAINED:
            raise errors.DeadlockDetected
        tag = "UPDATE 1" if statement == b"take" or b"stock" in statement else "COMMIT"
        return MagicMock(status=ExecStatus.COMMAND_OK, statusmessage=tag, command_status=tag.encode())


@PART.alone
def a_line_that_was_taken_back_tells_nothing_of_an_earlier_try() -> None:
    """The COMMIT of the first try was lost, and may have been done. The repeat could write the line that neither keeps."""
    found = set()
    for seed in range(20):
        buyer = Heard()
        buyer.tried(Order("k", "chained", seed, is_first=False))
        found.update(buyer.said)
    expect(found, {"answered k/0", "refused 40P01", "unknown k/1", "aborted k/0"})


@PART.alone
def buyers_without_transactions_are_found() -> None:
    with Scene(0) as scene, Watch(scene.cluster, scene.table) as watch:
        with scene.buying(1, is_careless=True) as said:
            watch.start()
            scene.wait("it is seen while they run", lambda: watch.wrong)
            scene.wait("some are refused", lambda: said.now().refused["23514"])
        found = scene.examine(said)
        expect(any("that was rolled back" in it for it in found), True, str(found[:3]))
        expect(any("and its orders leave" in it for it in found), True, str(found[:3]))


def asked_by_hand() -> None:
    parser = argparse.ArgumentParser(description=__doc__, formatter_class=argparse.RawDescriptionHelpFormatter)
    parser.add_argument("--kills", type=int, default=100)
    parser.add_argument("--seconds", type=float, default=1e9)
    parser.add_argument("--seed", type=int, default=random.randrange(1_000_000))
    parser.add_argument("--only", nargs="+", default=[], choices=list(KILLS))
    parser.add_argument("--kinds", nargs="+", default=[], choices=list(KINDS))
    parser.add_argument("--proxies", type=int, default=2)
    parser.add_argument("--each", type=int, default=10)
    parser.add_argument("--straight", action="store_true")
    parser.add_argument("--lazy", action="store_true")
    parser.add_argument("--standby", action="store_true")
    parser.add_argument("--without", default="", choices=list(WITHOUT))
    parser.add_argument("--processes", type=int, default=PROCESSES)
    parser.add_argument("--thinking", type=float, default=0.0)
    parser.add_argument("--pairs", action="store_true")
    parser.add_argument("--kept", type=Path)
    asked = parser.parse_args()
    print(f"seed {asked.seed}", flush=True)
    proxies = 0 if asked.straight else asked.proxies
    print(run(asked.seed, asked.kills, proxies=proxies, only=asked.only, seconds=asked.seconds, is_lazy=asked.lazy, each=asked.each,
              has_standby=asked.standby, without=asked.without, kinds=asked.kinds, by_hand=ByHand(asked.processes, asked.thinking, asked.pairs, asked.kept)))


if __name__ == "__main__":
    if any(it.startswith("-") for it in sys.argv[1:]):
        asked_by_hand()
    else:
        main(PART)
