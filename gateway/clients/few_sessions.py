"""Many connections on few sessions: who has one and when, who waits, what comes back behind each end, and what an idle connection keeps.

    python3 -m clients.few_sessions --walk SECONDS [SEED]     random transactions for so long, and a line for each round of them
    python3 -m clients.few_sessions --beside HOLDERS SECONDS  how many pieces 40 sellers sell a second, without holders of the same row and beside them
    python3 -m clients.few_sessions --carts CARTS SECONDS     carts that hold a piece each: half of them buy it, the others run into a time limit
"""
from __future__ import annotations

import random
import resource
import selectors
import sys
import time
from dataclasses import dataclass
from typing import Callable, Dict, List, Tuple

from clients import wire
from clients.limits import STOCK, TAKE, last_words, with_stock
from clients.servers import END, SESSIONS, TRANSACTIONS, Gateway, holds, wait_until
from clients.suite import Part, expect, load, main
from clients.wire import Connection

PART = Part("few_sessions")
# The seconds that a statement waits for a session.
WAIT = 1.0
NO_SESSION = ["ERROR 53300", "ready E"]
# How often is tried what this machine may miss by standing still for a while. What is wrong fails each time.
TRIES = 5
SESSIONS_OF_ALL = "SELECT pid, session, state FROM pg_stat_activity WHERE session IS NOT NULL ORDER BY session"


def holders(gateway: Gateway, count: int, take: str = TAKE.format(1)) -> List[Connection]:
    """Opens connections that each hold something in a block."""
    found = [Connection(gateway.socket) for _ in range(count)]
    for it in found:
        it.send(wire.query("BEGIN"), wire.query(take))
    for it in found:
        expect([said.shown() for _ in range(2) for said in it.until_ready()], ["complete BEGIN", "ready T", "complete UPDATE 1", "ready T"])
    return found


def expect_all_free(gateway: Gateway, take: str = TAKE.format(1)) -> None:
    """Expects that as many transactions as there may be get a session at once: none is lost, and none is another's."""
    with Connection(gateway.socket) as watch:
        wait_until("nobody has a session", lambda: watch.rows(SESSIONS_OF_ALL) == [] and watch.rows("SHOW JOURNAL") == [])
        found = holders(gateway, TRANSACTIONS, take)
        sessions = [row[1] for row in watch.rows(SESSIONS_OF_ALL)]
        expect((len(sessions), len(set(sessions))), (TRANSACTIONS, TRANSACTIONS))
        expect(sorted(row[1] for row in watch.rows("SHOW JOURNAL")), sorted(sessions))
        for it in found:
            it.close()
        wait_until("nothing is held", lambda: watch.rows("SHOW JOURNAL") == [])


@PART.served
def idle_connections_have_no_session(gateway: Gateway) -> None:
    """Nor has one that reads, or that is in a block which holds nothing."""
    watch = with_stock(gateway, 100)
    many = [Connection(gateway.socket) for _ in range(3 * TRANSACTIONS)]
    for place, it in enumerate(many):
        it.do(TAKE.format(1) if place % 7 == 0 else "SELECT * FROM stock", "BEGIN", "SELECT * FROM stock")
    expect(watch.rows(SESSIONS_OF_ALL), [])
    expect(watch.rows("SELECT state, count(*) FROM pg_stat_activity GROUP BY state ORDER BY state"),
           [("active", "1"), ("idle in transaction", str(len(many)))])
    # A statement that reserves nothing gives its session back.
    expect(many[0].ask(f"{TAKE.format(1)}0"), ["complete UPDATE 0", "ready T"])
    many[1].do(TAKE.format(1))
    expect([row[1:] for row in watch.rows(SESSIONS_OF_ALL)], [("2", "idle in transaction")])
    many[1].do("COMMIT")
    expect(watch.rows(SESSIONS_OF_ALL), [])


@PART.served
def beside_as_many_holders_as_there_may_be(gateway: Gateway) -> None:
    """Whoever wants to hold too waits for a second and is refused. All else is served at once."""
    watch = with_stock(gateway, 1000)
    many = holders(gateway, TRANSACTIONS)
    reads = Connection(gateway.socket)
    reads.do("BEGIN", "SELECT * FROM stock", "COMMIT", "SHOW BOUNDS stock WHERE id = 1", "INSERT INTO stock VALUES (2, 5)", "DELETE FROM stock WHERE id = 2")
    for _ in range(20):
        reads.do(TAKE.format(1))
    reads.send(wire.run(TAKE.format(1)), wire.sync())
    expect([it.shown() for it in reads.until_ready()][-2:], ["complete UPDATE 1", "ready I"])
    # None of them has waited for a session: none was free, and so it would have been refused.
    lates = [Connection(gateway.socket) for _ in range(3)]
    begin = time.monotonic()
    for late, statement in zip(lates, (TAKE.format(1), "SAVEPOINT a")):
        late.do("BEGIN")
        late.send(wire.query(statement))
    # Of two that a client sends at once, each waits for itself.
    both = wire.query(f"{TAKE.format(1)}; {TAKE.format(1)}")
    lates[2].send(both, both)
    for late in lates[:2]:
        found = late.until_ready()
        expect([it.shown() for it in found], NO_SESSION)
        expect(f"At most {TRANSACTIONS} transactions" in found[0].fields()["D"], True, found[0].fields()["D"])
        late.do("ROLLBACK")
    expect(time.monotonic() - begin >= WAIT, True, "they wait")
    for _ in range(2):
        expect([it.shown() for it in lates[2].until_ready()], ["ERROR 53300", "ready I"])
    expect(time.monotonic() - begin >= 2 * WAIT, True, "it waits twice")
    tries = 1
    while not comes_in_time(lates[0], many[0]):
        tries += 1
        expect(tries <= TRIES, True, "a session that comes in time is its")
    for it in many[1:]:
        it.do("ROLLBACK")
    expect(watch.rows("SELECT * FROM stock"), [("1", str(1000 - 20 - 1 - tries - 1))])


def comes_in_time(late: Connection, holder: Connection) -> bool:
    """Has a client wait for a session while a holder commits. Returns whether it gets the holder's, which comes too late if this machine stands still for as
    long as it waits: then the holder holds again."""
    late.do("BEGIN")
    late.send(wire.query(TAKE.format(1)))
    time.sleep(WAIT / 4)
    holder.do("COMMIT")
    found = [it.shown() for it in late.until_ready()]
    if found == NO_SESSION:
        late.do("ROLLBACK")
        holder.do("BEGIN", TAKE.format(1))
        return False
    expect(found, ["complete UPDATE 1", "ready T"])
    late.do("COMMIT")
    return True


@PART.served
def those_who_wait_come_in_their_order(gateway: Gateway) -> None:
    watch = with_stock(gateway, 1000)
    expect(any(come_in_order(gateway, watch) for _ in range(TRIES)), True, "each gets a session in time")


def come_in_order(gateway: Gateway, watch: Connection) -> bool:
    """Has five clients wait for a session, of whom one leaves, while as many holders end. Fails unless they get a session in their order. Returns False if
    one of them was refused: this machine may have stood still for as long as it waits."""
    wait_until("nobody has a session", lambda: watch.rows(SESSIONS_OF_ALL) == [])
    many = holders(gateway, TRANSACTIONS)
    waiting = [Connection(gateway.socket) for _ in range(5)]
    opened = [*many, *waiting]
    for it in waiting:
        it.do("BEGIN")
    for it in waiting:
        it.send(wire.query(TAKE.format(1)))
        watch.do("COMMIT")  # so that the gateway has read it
    waiting.pop(1).close()
    try:
        for place, it in enumerate(waiting):
            many.pop().close()
            found = [said.shown() for said in it.until_ready()]
            if found == NO_SESSION:
                return False
            expect(found, ["complete UPDATE 1", "ready T"], f"place {place}")
            it.do("COMMIT")
        return True
    finally:
        for it in opened:
            it.close()


@dataclass(frozen=True)
class End:
    """How a transaction ends: messages behind its first reservation, and the statuses that come, or the SQLSTATE of the end of the connection."""

    name: str
    messages: Tuple[bytes, ...]
    found: Tuple[str, ...] = ()
    fatal: str = ""
    # What the transaction leaves of what it took.
    taken: int = 0
    begin: Tuple[str, ...] = ("BEGIN", TAKE.format(1))
    options: str = ""


BROKEN = TAKE.format(10_000)
HELD = wire.query(f"BEGIN; {TAKE.format(1)}")
ENDS = [
    End("COMMIT", (wire.query("COMMIT"),), ("complete COMMIT", "ready I"), taken=1),
    End("ROLLBACK", (wire.query("ROLLBACK"),), ("complete ROLLBACK", "ready I")),
    End("COMMIT AND CHAIN", (wire.query("COMMIT AND CHAIN"),), ("complete COMMIT", "ready T"), taken=1),
    End("an error", (wire.query(BROKEN),), ("ERROR 23514", "ready E")),
    End("an error of the syntax", (wire.query("SELEC 1"),), ("ERROR 42601", "ready E")),
    End("an error behind a savepoint", (wire.query("SAVEPOINT a"), wire.query(BROKEN), wire.query("ROLLBACK")),
        ("complete SAVEPOINT", "ready T", "ERROR 23514", "ready E", "complete ROLLBACK", "ready I")),
    End("a savepoint alone", (wire.query("ROLLBACK TO a"), wire.query("COMMIT")), ("complete ROLLBACK", "ready T", "complete COMMIT", "ready I"),
        begin=("BEGIN", "SAVEPOINT a", TAKE.format(1))),
    End("several statements", (wire.query(f"{TAKE.format(1)}; {TAKE.format(1)}"),), ("complete UPDATE 1", "complete UPDATE 1", "ready I"), taken=2,
        begin=()),
    End("several statements with an error", (wire.query(f"{TAKE.format(1)}; {BROKEN}"),), ("complete UPDATE 1", "ERROR 23514", "ready I"), begin=()),
    End("a pipeline", (wire.run(TAKE.format(1)), wire.run(TAKE.format(1)), wire.sync()),
        ("parsed", "bound", "no data", "complete UPDATE 1") * 2 + ("ready I",), taken=2, begin=()),
    End("a pipeline with an error", (wire.run(TAKE.format(1)), wire.run(BROKEN), wire.run(TAKE.format(1)), wire.sync()),
        ("parsed", "bound", "no data", "complete UPDATE 1", "parsed", "bound", "no data", "ERROR 23514", "ready I"), begin=()),
    End("a statement alone", (wire.query(TAKE.format(1)),), ("complete UPDATE 1", "ready I"), taken=1, begin=()),
    End("a statement alone that is refused", (wire.query(BROKEN),), ("ERROR 23514", "ready I"), begin=()),
    End("a statement alone with RETURNING", (wire.query(f"{TAKE.format(1)} RETURNING id"),), ("columns id:20:-1:0", "row 1", "complete UPDATE 1", "ready I"),
        taken=1, begin=()),
    End("Terminate", (wire.terminate(),)),
    End("Terminate amid a statement", (wire.query(TAKE.format(1)), wire.terminate()), ("complete UPDATE 1", "ready T")),
    End("a message that is none", (wire.message("?", b""),), fatal="08P01"),
    # In one query, so that nothing of it comes behind its limit.
    End("the limit of idleness", (HELD,), fatal="25P03", begin=(), options="-c idle_in_transaction_session_timeout=100"),
    End("the limit of a transaction", (HELD,), fatal="25P04", begin=(), options="-c transaction_timeout=100"),
]


def expect_end(gateway: Gateway, end: End) -> None:
    """Runs a transaction to its end, and expects what its client gets."""
    it = Connection(gateway.socket, options=end.options) if end.options else Connection(gateway.socket)
    it.do(*end.begin)
    it.send(*end.messages)
    if end.fatal:
        expect([said.shown() for said in it.until_end()][-1:], [f"FATAL {end.fatal}"], end.name)
    else:
        found: List[str] = []
        while len(found) < len(end.found):
            found.append(it.read().shown())
        expect(tuple(found), end.found, end.name)
        if end.found[-1:] == ("ready E",):
            it.do("ROLLBACK")
    it.close()


@PART.served
def sessions_come_back_behind_each_end(gateway: Gateway) -> None:
    watch, left = with_stock(gateway, 1000), 1000
    for end in ENDS:
        expect_end(gateway, end)
        left -= end.taken
        wait_until(f"no session behind {end.name}", lambda: watch.rows(SESSIONS_OF_ALL) == [] and watch.rows("SHOW JOURNAL") == [])
        expect(watch.rows("SELECT * FROM stock"), [("1", str(left))], end.name)
    expect_all_free(gateway)


@PART.served
def sessions_come_back_from_who_vanishes_or_is_ended(gateway: Gateway) -> None:
    """A lost connection, with and without a statement on its way or in line; pg_terminate_backend. A cancel request ends nothing."""
    watch = with_stock(gateway, 1000)
    for sent in ((), (wire.query(TAKE.format(1)),), (wire.query("COMMIT"),), (wire.query("SELECT * FROM stock"),)):
        with Connection(gateway.socket) as it:
            it.do("BEGIN", TAKE.format(1))
            it.send(*sent)
    wait_until("nothing is held", lambda: watch.rows("SHOW JOURNAL") == [])
    left = int(watch.rows("SELECT pieces FROM stock")[0][0])
    expect(left in (999, 1000), True, "a COMMIT on its way may be done")
    many = holders(gateway, TRANSACTIONS)
    with Connection(gateway.socket) as it:
        it.do("BEGIN")
        it.send(wire.query(TAKE.format(1)))
        watch.do("COMMIT")
    process = watch.rows(SESSIONS_OF_ALL)[0][0]
    expect(watch.rows(f"SELECT pg_terminate_backend({process})"), [("t",)])
    ended = first_ended(many)
    expect(ended.until_end()[-1].shown(), "FATAL 57P01")
    many.remove(ended)
    with Connection(gateway.socket, ready=False) as cancel:
        process = watch.rows(SESSIONS_OF_ALL)[0][0]
        cancel.send(wire.request(wire.CANCEL_REQUEST, int(process).to_bytes(4, "big") + bytes(4)))
        expect(cancel.until_end(), [])
    for it in many:
        it.do("COMMIT")
    expect(watch.rows("SELECT * FROM stock"), [("1", str(left - len(many)))])
    expect_all_free(gateway)


def first_ended(connections: List[Connection]) -> Connection:
    """Waits until the server says something on one of connections that have asked nothing. Fails unless that is one alone."""
    with selectors.DefaultSelector() as ready:
        for it in connections:
            ready.register(it.socket, selectors.EVENT_READ, it)
        found: List[Connection] = [key.data for key, _ in ready.select(END)]
    expect(len(found), 1, "connections that are ended")
    return found[0]


@PART.alone
def as_many_sessions_as_are_asked_for() -> None:
    """Hundreds of connections hold a piece each, and others sell meanwhile. Each hold ends as its client says."""
    count = 800
    resource.setrlimit(resource.RLIMIT_NOFILE, (4 * count, resource.getrlimit(resource.RLIMIT_NOFILE)[1]))
    with Gateway({"bank": None}, ["--sessions", str(count + SESSIONS - TRANSACTIONS)]) as gateway:
        seller = with_stock(gateway, count + 1)
        many = holders(gateway, count)
        expect(seller.ask(TAKE.format(1)), ["complete UPDATE 1", "ready I"])
        expect(seller.ask(TAKE.format(1)), ["ERROR 23514", "ready I"])
        expect(len(seller.rows("SHOW JOURNAL")), count)
        seller.do("BEGIN")
        expect(seller.ask("SAVEPOINT a"), NO_SESSION)
        seller.do("ROLLBACK")
        for place, it in enumerate(many):
            it.do("COMMIT" if place % 2 else "ROLLBACK")
        expect((seller.rows("SHOW JOURNAL"), seller.rows(SESSIONS_OF_ALL)), ([], []))
        expect(seller.rows("SELECT * FROM stock"), [("1", str(count // 2))])
        gateway.expect_clean_end()


# Random transactions

# The rows that clients take of, and how many clients there are.
ROWS, PIECES = 5, 1_000_000
CLIENTS = 2 * TRANSACTIONS
TRIED = 1_000
LOG = "CREATE TABLE log (id INTEGER PRIMARY KEY, n INTEGER RESERVABLE)"
# What a client does next, by the status that it was told, and how often.
STEPS: Dict[str, Dict[str, int]] = {
    "I": {"begin": 8, "take": 3, "take too much": 1, "take twice": 1, "pipeline": 1, "pipeline that fails": 1, "read": 1, "insert": 1, "vanish": 1},
    "T": {"take": 6, "take twice": 1, "pipeline": 1, "read": 2, "savepoint": 2, "back": 1, "release": 1, "take too much": 1, "commit": 4, "roll back": 3,
          "vanish": 1, "terminate": 1},
    "E": {"roll back": 3, "commit": 1, "back": 2, "read": 1, "vanish": 1},
}
# The errors that a client may get: no session, a broken check, and what is refused behind an error.
REFUSALS = ("53300", "23514", "25P02")


class Walker:
    """A client that takes random steps, and what it has of its row for sure."""

    def __init__(self, gateway: Gateway, chance: random.Random, row: int) -> None:
        self.connection = Connection(gateway.socket)
        self.chance, self.row = chance, row
        self.status, self.step, self.pieces = "I", "", 0
        # What its transaction has reserved, also at each savepoint, what it has committed, and the rows that it has inserted.
        self.reserved = self.committed = self.inserted = 0
        self.savepoints: List[int] = []

    def go(self, key: int, is_last: bool) -> bool:
        """Takes the next step, or ends its transaction if that is its last. Returns False if it has left for that. `key` is of a row that it may
        insert."""
        weights = {"roll back": 1, "commit": 1} if is_last else STEPS[self.status]
        steps = [it for it in weights if self.savepoints or it not in ("back", "release")]
        self.step = self.chance.choices(steps, [weights[it] for it in steps])[0]
        self.pieces = self.chance.randint(1, 9)
        take = f"UPDATE stock SET pieces = pieces - {self.pieces} WHERE id = {self.row}"
        too_much = f"UPDATE stock SET pieces = pieces - {10 * PIECES} WHERE id = {self.row}"
        depth = len(self.savepoints)
        messages: Dict[str, List[bytes]] = {
            "begin": [wire.query("BEGIN")],
            "take": [wire.query(take)],
            "take too much": [wire.query(too_much)],
            "take twice": [wire.query(f"{take}; SELECT * FROM stock WHERE id = 1; {take}")],
            "pipeline": [wire.run(take), wire.run(take), wire.sync()],
            "pipeline that fails": [wire.run(take), wire.run(too_much), wire.run(take), wire.sync()],
            "read": [wire.query("SELECT * FROM stock")],
            "insert": [wire.query(f"INSERT INTO log VALUES ({key}, 1)")],
            "savepoint": [wire.query(f"SAVEPOINT s{depth}")],
            "back": [wire.query(f"ROLLBACK TO s{depth - 1}")],
            "release": [wire.query(f"RELEASE s{depth - 1}")],
            "commit": [wire.query("COMMIT")],
            "roll back": [wire.query("ROLLBACK")],
            "terminate": [wire.terminate()],
            "vanish": [],
        }
        self.connection.send(*messages[self.step])
        return self.step not in ("vanish", "terminate")

    def finish(self) -> None:
        """Reads the answer to its step, and reckons what it has now."""
        found = self.connection.until_ready()
        codes = [it.fields()["C"] for it in found if it.kind == "E"]
        tags = [it.shown() for it in found if it.kind == "C"]
        wanted = self.status == "E" and self.step == "read" or self.step in ("take too much", "pipeline that fails")
        expect(set(codes) <= set(REFUSALS) and (bool(codes) or not wanted), True, f"{self.step} in {self.status}: {[it.shown() for it in found]}")
        before, self.status = self.status, chr(found[-1].body[0])
        taken = self.pieces * tags.count("complete UPDATE 1")
        if before == "I" and self.status == "I":
            self.committed += 0 if codes else taken
            self.inserted += tags.count("complete INSERT 0 1")
        elif self.status == "I":
            self.committed += self.reserved if "complete COMMIT" in tags else 0
            self.reserved, self.savepoints = 0, []
        elif self.status == "E":
            self.reserved = self.savepoints[-1] if self.savepoints else 0
        elif self.step == "savepoint":
            self.savepoints.append(self.reserved)
        elif self.step == "back":
            self.reserved = self.savepoints[-1]
        elif self.step == "release":
            self.savepoints.pop()
        else:
            self.reserved += taken


class Walk:
    """Clients that take random steps, and what they have committed for sure."""

    def __init__(self, gateway: Gateway, seed: int) -> None:
        self.gateway, self.chance = gateway, random.Random(seed)
        self.ready = selectors.DefaultSelector()
        self.ended = self.refused = self.inserted = self.keys = 0
        self.committed = dict.fromkeys(range(1, ROWS + 1), 0)
        with Connection(gateway.socket) as it:
            it.do(STOCK, LOG, *(f"INSERT INTO stock VALUES ({row}, {PIECES})" for row in self.committed))

    def enter(self) -> None:
        """Lets a new client take its first step."""
        row = self.chance.choice(list(self.committed))
        it = Walker(self.gateway, random.Random(self.chance.random()), row)
        self.ready.register(it.connection.socket, selectors.EVENT_READ, it)
        self.go(it, False)

    def go(self, it: Walker, is_last: bool) -> None:
        """Lets a client take its next step. If that is to leave, another one comes."""
        self.keys += 1
        if is_last and it.status == "I" or not it.go(self.keys, is_last):
            self.ready.unregister(it.connection.socket)
            it.connection.close()
            self.committed[it.row] += it.committed
            self.inserted += it.inserted
            self.ended += 1
            if not is_last:
                self.enter()

    def run(self, is_enough: Callable[[], bool]) -> None:
        """Lets clients walk until it is enough, and expects that each row has lost what they took, and nothing else."""
        for _ in range(CLIENTS):
            self.enter()
        while self.ready.get_map():
            answered = self.ready.select(END)
            expect(bool(answered), True, f"one of {len(self.ready.get_map())} clients is answered within {END:.0f} s")
            for key, _ in answered:
                it: Walker = key.data
                before = it.status
                it.finish()
                self.ended += it.status == "I" and before != "I"
                self.refused += it.status == "E" and before == "T"
                self.go(it, is_enough())
        with Connection(self.gateway.socket) as watch:
            wait_until("nothing is held", lambda: watch.rows("SHOW JOURNAL") == [])
            found = {int(key): PIECES - int(pieces) for key, pieces in watch.rows("SELECT * FROM stock")}
            expect(found, self.committed, "what was taken of each row")
            expect(watch.rows("SELECT count(*) FROM log"), [(str(self.inserted),)])


@PART.served
def random_transactions_lose_no_session_and_no_piece(gateway: Gateway) -> None:
    walk, wanted = Walk(gateway, 84), load(TRIED)
    walk.run(lambda: walk.ended >= wanted)
    expect_all_free(gateway)


# Memory

# How many connections rest, the bytes that each of them may take beside what it has prepared, and the seconds behind which one has given its buffers back.
RESTING, MOST_OF_ONE, RESTED = 200, 2_048, 2.2


def working(gateway: Gateway) -> List[Connection]:
    """Opens connections, and lets each do what most do."""
    found = []
    for _ in range(RESTING):
        it = Connection(gateway.socket, options="-c application_name=till")
        it.send(*(wire.query(text) for text in ("BEGIN", TAKE.format(1), "SELECT * FROM stock", "COMMIT", TAKE.format(1))))
        expect([it.until_ready()[-1].shown() for _ in range(5)], ["ready T"] * 3 + ["ready I"] * 2)
        found.append(it)
    return found


@PART.alone
def a_connection_that_rests_keeps_little() -> None:
    """What the gateway grows by for more of them, when as many have worked before and have given back what they don't need."""
    resource.setrlimit(resource.RLIMIT_NOFILE, (4 * RESTING, resource.getrlimit(resource.RLIMIT_NOFILE)[1]))
    grown: List[float] = []
    while not grown or (grown[-1] > MOST_OF_ONE and len(grown) < TRIES):  # a gateway that comes late to it has given back less
        grown.append(grown_by_one())
    expect(grown[-1] <= MOST_OF_ONE, True, f"{grown} bytes for a connection")


def grown_by_one() -> float:
    """Returns the bytes that a gateway grows by for a further connection."""
    with Gateway({"bank": None}) as gateway:
        watch, process = with_stock(gateway, 1_000_000), gateway.running().pid
        found = working(gateway)
        time.sleep(RESTED)
        before = holds(process)
        found += working(gateway)
        grown = (holds(process) - before) / RESTING
        # They go on as if they had not rested.
        time.sleep(RESTED)
        for it in found[::10]:
            expect(it.extended(wire.run(TAKE.format(1)))[-2:], ["complete UPDATE 1", "ready I"])
        expect(watch.rows("SELECT * FROM stock"), [("1", str(1_000_000 - 2 * len(found) - len(found[::10])))])
        gateway.expect_clean_end()
        return grown


# Thousands of holders, by hand

# The clients who sell beside them, and how often each is measured.
SELLERS, ROUNDS = 40, 3
# The connections and sessions beside those of the holders.
BESIDE = 96


def many_served(holders: int, *options: str) -> Gateway:
    """Returns a gateway with room for so many holders and some more."""
    sessions, connections = holders + BESIDE, 2 * holders + BESIDE
    most = resource.getrlimit(resource.RLIMIT_NOFILE)[1]
    resource.setrlimit(resource.RLIMIT_NOFILE, (min(3 * connections, most), most))
    return Gateway({"bank": None}, ["--sessions", str(sessions), "--connections", str(connections), *options])


def sold(sellers: List[Connection], seconds: float) -> float:
    """Lets clients take a piece each, again and again. Returns how many are sold a second."""
    count, begin = 0, time.monotonic()
    with selectors.DefaultSelector() as ready:
        for it in sellers:
            ready.register(it.socket, selectors.EVENT_READ, it)
            it.send(wire.query(TAKE.format(1)))
        while ready.get_map():
            for key, _ in ready.select(END):
                expect([said.shown() for said in key.data.until_ready()], ["complete UPDATE 1", "ready I"])
                count += 1
                if time.monotonic() - begin < seconds:
                    key.data.send(wire.query(TAKE.format(1)))
                else:
                    ready.unregister(key.fileobj)
    return count / (time.monotonic() - begin)


def beside(count: int, seconds: float) -> None:
    """Measures sellers without and beside so many holders of the same row, in turn."""
    with many_served(count) as gateway:
        watch = with_stock(gateway, 900_000_000)
        sellers = [Connection(gateway.socket) for _ in range(SELLERS)]
        idle = [Connection(gateway.socket) for _ in range(BESIDE - SELLERS - 1)]
        rates: List[Tuple[float, float]] = []
        for _ in range(ROUNDS):
            alone = sold(sellers, seconds)
            many = holders(gateway, count)
            expect(len(watch.rows(SESSIONS_OF_ALL)), count)
            rates.append((alone, sold(sellers, seconds)))
            for it in many:
                it.close()
            wait_until("nothing is held", lambda: watch.rows("SHOW JOURNAL") == [])
        for alone, held in rates:
            print(f"{alone:.0f} a second alone, {held:.0f} beside {count} holders and {len(idle)} idle connections: {held / alone:.2f}", flush=True)
        gateway.expect_clean_end()


def carts(count: int, seconds: float) -> None:
    """Lets carts hold a piece each for so many seconds at the most. Every second one is bought, and the others' pieces are there again."""
    with many_served(count) as gateway:
        watch = with_stock(gateway, count)
        begin = time.monotonic()
        limit = f"-c transaction_timeout={round(1000 * seconds)}"
        many = [Connection(gateway.socket, options=limit) for _ in range(count)]
        for it in many:
            it.do("BEGIN", TAKE.format(1))
        filled = time.monotonic() - begin
        expect(watch.ask(TAKE.format(1)), ["ERROR 23514", "ready I"])
        expect(len(watch.rows("SHOW JOURNAL")), count)
        for it in many[::2]:
            it.do("COMMIT")
        bought = time.monotonic() - begin
        for it in many[1::2]:
            expect(last_words(it)[0], "25P04")
        wait_until("nothing is held", lambda: watch.rows("SHOW JOURNAL") == [])
        ended = time.monotonic() - begin
        expect(watch.rows("SELECT * FROM stock"), [("1", str(count // 2))])
        print(f"{count} carts were filled in {filled:.1f} s, half of them bought after {bought:.1f} s, the others ended after {ended:.1f} s; "
              f"the gateway had {holds(gateway.running().pid) // 1024} KB at the end", flush=True)
        gateway.expect_clean_end()


def by_hand() -> None:
    """Walks for so many seconds, from a seed."""
    seconds, seed = float(sys.argv[2]), int(sys.argv[3]) if len(sys.argv) > 3 else 1
    end = time.monotonic() + seconds
    while time.monotonic() < end:
        with Gateway() as gateway:
            walk = Walk(gateway, seed)
            walk.run(lambda: walk.ended >= 20_000 or time.monotonic() >= end)
            expect_all_free(gateway)
            gateway.expect_clean_end()
        print(f"seed {seed}: {walk.ended} transactions ended, {walk.refused} had no session or broke a check", flush=True)
        seed += 1


if __name__ == "__main__":
    if sys.argv[1:2] == ["--walk"]:
        by_hand()
    elif sys.argv[1:2] == ["--beside"]:
        beside(int(sys.argv[2]), float(sys.argv[3]))
    elif sys.argv[1:2] == ["--carts"]:
        carts(int(sys.argv[2]), float(sys.argv[3]))
    else:
        main(PART)
