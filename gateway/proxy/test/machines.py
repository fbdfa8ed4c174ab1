#!/usr/bin/env python3
"""A cluster of Debian's parts: etcd, two PostgreSQL under Patroni, two escrowd-proxies. Forty buyers order while machines die or are cut off.

    python3 -m proxy.test.machines [CASE ..]
    python3 -m proxy.test.machines --failures N [--asynchronous] [--on-ports] [--only WORD ..] [--each N] [--seconds N] [--seed N] [--thinking SECONDS]
    python3 -m proxy.test.machines --keep [--asynchronous] [--on-ports]

Run it in the folder gateway; it needs Debian's packages patroni and etcd-server. The settings are packaging/etcd.env, patroni.yml and patroni.env.

The case is short, and all parts are on ports of this machine. By hand each machine is a network namespace with an address of its own, which needs root,
unless --on-ports is given. --failures draws what fails: what dies, and who is cut off from whom; --only names some. Behind each failure the others notice
it, orders go on, what failed is mended, and the cluster becomes whole. A figure is the longest time in all of that in which no order was answered. Behind
as many failures as --each says the buyers end, and then each order whose COMMIT was answered is there, and the sums are right, as `proxy.test.truth`
examines. --asynchronous takes synchronous replication away; then a failover may lose the last orders of the PostgreSQL that led, and nothing else. --keep
starts the cluster, prints how to connect, and waits.
"""
from __future__ import annotations

import argparse
import os
import random
import shutil
import signal
import statistics
import subprocess
import sys
import threading
import time
from collections import Counter, defaultdict
from contextlib import suppress
from pathlib import Path
from typing import AbstractSet, Callable, Dict, Iterable, List, Mapping, NamedTuple, Sequence

import psycopg
from psycopg import errors

from clients.servers import children, heard, wait_until
from clients.suite import Part, expect, main
from proxy.test.buyers import BUYER, MERCHANT, RIGHTS, ROLES, TABLES
from proxy.test.harness import PROXY
from proxy.test.nodes import PASSWORD, READY, Elected, Etcd, Front, Host, Namespace, Network, Node
from proxy.test.truth import GOES_ON, ByHand, Lines, Said, Scene, Watch, listed, shown

PART = Part("proxy_machines")
# The seconds in which others notice a failure, and in which orders go on behind it.
LIMIT = READY
# The seconds between two questions that cost a server something.
PAUSE = 0.1
# How a client notices within some seconds that a machine is silent.
PATIENT = "connect_timeout=2 keepalives_idle=2 keepalives_interval=1 keepalives_count=3 tcp_user_timeout=5000"
# Which PostgreSQL wrote an order: each that is promoted begins another timeline.
TIMELINE = "ALTER TABLE orders ADD COLUMN timeline text DEFAULT substr(pg_walfile_name(pg_current_wal_lsn()), 1, 8)"
# The machines, with the last parts of their addresses.
MACHINES = {"db1": 11, "db2": 12, "etcd1": 21, "etcd2": 22, "etcd3": 23, "proxy1": 31, "proxy2": 32}


class Machines(Scene):
    """The cluster, with the tables and the proxies."""

    def __init__(self, is_synchronous: bool = True, has_network: bool = False, by_hand: ByHand = ByHand()) -> None:
        super().__init__(2, is_lazy=not is_synchronous, by_hand=by_hand)
        shutil.rmtree(self.cluster.folder, ignore_errors=True)  # of a PostgreSQL that is not started
        spaces = [Namespace(name, f"10.0.0.{number}") for name, number in MACHINES.items()] if has_network else []
        self.network = Network(spaces) if has_network else None
        own: Sequence[Host] = spaces
        if not has_network:
            own = [Host(it) for it in MACHINES if it not in ("etcd2", "etcd3")]
        self.etcds = [Etcd(it) for it in own if it.name.startswith("etcd")]
        for etcd in self.etcds:
            etcd.members = self.etcds
        self.nodes = [Node(it, self.etcds, is_synchronous) for it in own if it.name.startswith("db")]
        self.behind = [it for it in own if it.name.startswith("proxy")]
        self.cluster = self.elected = Elected(self.nodes)
        self.machines: List[Front] = []
        self.limit = LIMIT
        self.mends: List[Callable[[], object]] = []

    def __enter__(self) -> "Machines":
        super().__enter__()
        return self

    def keep_logs(self, folder: Path) -> None:
        """Keeps what all servers have said."""
        folder.mkdir(parents=True, exist_ok=True)
        for it in (*self.etcds, *self.nodes, *self.machines):
            (folder / it.host.name).write_text(it.said(), encoding="utf-8")

    def open(self) -> None:
        if self.network:
            self.stack.enter_context(self.network)
        for it in (self.cluster, *self.etcds, *self.nodes):
            self.stack.enter_context(it)
        self.leader()
        wait_until("the database is created", self.has_database, READY, PAUSE)
        wait_until("schema escrow is installed", self.is_installed, READY, PAUSE)
        passwords = [f"ALTER ROLE {it} PASSWORD '{PASSWORD}'" for it in (MERCHANT, BUYER)]
        self.cluster.run(f"CREATE ROLE escrowd LOGIN PASSWORD '{PASSWORD}'", "GRANT escrow_proxy TO escrowd", *ROLES, *passwords,
                         "CREATE TABLE base (id integer PRIMARY KEY, pieces integer NOT NULL)")
        self.cluster.run(*TABLES, *RIGHTS, TIMELINE, "SELECT escrow.reservable('stock', 'pieces')", user=MERCHANT)
        target = self.cluster.dsn().replace("user=clerk", "user=escrowd")
        self.machines = [self.stack.enter_context(Front(it, self.cluster, target)) for it in self.behind]
        self.proxies = list(self.machines)
        self.logs = [Lines(it.folder / "said") for it in self.proxies]
        self.await_whole()
        self.connect().close()

    def has_database(self) -> bool:
        """Creates the database, unless it is there. Returns whether it is. A connection has two seconds, which a busy machine may need for itself."""
        with suppress(errors.DuplicateDatabase, psycopg.OperationalError):
            with psycopg.connect(self.elected.dsn("postgres"), autocommit=True) as superuser:
                superuser.execute("CREATE DATABASE bank")
        with suppress(psycopg.OperationalError):
            self.elected.connect().close()
            return True
        return False

    def is_installed(self) -> bool:
        """Installs schema escrow. Returns whether it is there."""
        words = [str(PROXY), "install", "--apply", "--postgres", self.cluster.dsn()]
        return subprocess.run(words, stdout=subprocess.DEVNULL, timeout=READY, check=False).returncode == 0

    def dsns(self, user: str = BUYER) -> List[str]:
        places = [it.address.split(":") for it in self.proxies]
        return [f"host={one[0]},{other[0]} port={one[1]},{other[1]} dbname=bank user={user} password={PASSWORD} {PATIENT}"
                for one, other in (places, places[::-1])]

    def leader(self) -> Node:
        """Returns the machine whose PostgreSQL takes writes, as soon as there is one."""
        found: List[Node] = []

        def is_found() -> bool:
            found.extend(it for it in self.nodes if it.plays("primary"))
            return bool(found)

        wait_until("a PostgreSQL leads", is_found, READY, PAUSE)
        return found[0]

    def owner(self) -> Front:
        """Returns the proxy that grants, as soon as there is one."""
        found: List[Front] = []

        def is_found() -> bool:
            number, = self.ask("SELECT last_value FROM escrow.epoch")[0]
            found.extend(it for it in self.machines if f"owner of epoch {number}" in it.said())
            return bool(found)

        wait_until("a proxy grants", is_found, READY, PAUSE)
        return found[0]

    def await_whole(self) -> None:
        """Waits until one PostgreSQL leads, and the other follows it."""
        wait_until("a standby follows", self.is_whole, READY, PAUSE)

    def is_whole(self) -> bool:
        """Returns whether one PostgreSQL leads, and the other follows: if replication is synchronous, COMMITs wait for it."""
        return any(it.has_standby() for it in self.nodes) and (self.is_lazy or any(it.plays("synchronous") for it in self.nodes))

    def part(self, some: Iterable[str], others: Iterable[str] = ()) -> None:
        """Cuts machines off from others: if none are named, from all others and the clients."""
        assert self.network
        every = {it.name: it for it in (*self.network.hosts, self.network.clients)}
        self.network.part([every[it] for it in some], [every[it] for it in set(others) or set(every) - set(some)])
        self.mends.append(self.network.heal)

    def revive(self) -> None:
        """Mends what has failed, and starts again what has died."""
        for mend in self.mends:
            mend()
        self.mends = []
        for it in (*self.etcds, *self.nodes, *self.machines):
            if it.running().poll() is not None:
                it.start()

    def examine(self, said: Said) -> List[str]:
        wrong = super().examine(said)
        return wrong + holes(said.answered, dict(self.ask("SELECT key, timeline FROM orders")))


def holes(answered: AbstractSet[str], timelines: Mapping[str, str]) -> List[str]:
    """Returns what a failover may not lose of answered orders, which have one timeline each: a part of one, and one that the same buyer wrote before
    another of its timeline. What it may lose is the end of a timeline."""
    lines_of: Dict[str, List[str]] = defaultdict(list)
    for key in answered:
        lines_of[key.split("/")[0]].append(key)
    wrong: List[str] = []
    last: Dict[str, str] = {}
    missing: Dict[str, str] = {}
    for order in sorted(lines_of, key=lambda it: int(it.rsplit(".", 1)[1])):
        buyer = order.rsplit(".", 1)[0]
        found = [timelines[it] for it in lines_of[order] if it in timelines]
        if not found:
            missing.setdefault(buyer, order)
            continue
        if len(found) < len(lines_of[order]):
            wrong.append(f"a part of an answered order is there: {order}")
        if buyer in missing and found[0] == last.get(buyer):
            wrong.append(f"an answered order is missing amid timeline {found[0]}: {missing[buyer]}")
        missing.pop(buyer, None)
        last[buyer] = found[0]
    return wrong


# Has something fail. Returns what says whether the others have noticed it.
Noticed = Callable[[], bool]
Act = Callable[[Machines], Noticed]
# What fails, by name; the second kind needs a network.
FAILURES: Dict[str, Act] = {}
PARTITIONS: Dict[str, Act] = {}


def failure(act: Act) -> Act:
    """Adds a failure."""
    FAILURES[act.__name__] = act
    return act


def partition(act: Act) -> Act:
    """Adds a failure of the network."""
    PARTITIONS[act.__name__] = act
    return act


def another(scene: Machines, was: Node) -> Noticed:
    """Waits for another PostgreSQL that leads."""
    return lambda: any(it.plays("primary") for it in scene.nodes if it is not was)


def another_owner(scene: Machines, was: Front) -> Noticed:
    """Waits for another proxy that grants."""
    return lambda: scene.owner() is not was


@failure
def postgres(scene: Machines) -> Noticed:
    """PostgreSQL that leads dies, and its machine goes on."""
    leader = scene.leader()
    leader.fail()
    return another(scene, leader)


@failure
def proxy(scene: Machines) -> Noticed:
    """The proxy that grants dies."""
    owner = scene.owner()
    owner.kill()
    return another_owner(scene, owner)


@failure
def postgres_and_proxy(scene: Machines) -> Noticed:
    """Both die at once."""
    leader, owner = scene.leader(), scene.owner()
    leader.fail()
    owner.kill()
    return another(scene, leader)


@failure
def machine(scene: Machines) -> Noticed:
    """The machine of PostgreSQL that leads dies, with Patroni."""
    leader = scene.leader()
    leader.kill()
    return another(scene, leader)


@failure
def machine_and_proxy(scene: Machines) -> Noticed:
    """That machine and the proxy that grants die at once."""
    leader, owner = scene.leader(), scene.owner()
    leader.kill()
    owner.kill()
    return another(scene, leader)


@failure
def standby(scene: Machines) -> Noticed:
    """The machine of the standby dies."""
    leader = scene.leader()
    follower, = (it for it in scene.nodes if it is not leader)
    follower.kill()
    return lambda: not scene.is_whole()


@failure
def etcd(scene: Machines) -> Noticed:
    """A machine of etcd dies, and comes back if it is the only one."""
    one = random.choice(scene.etcds)
    one.kill()
    if len(scene.etcds) == 1:
        one.start()
    return lambda: True


@failure
def paused(scene: Machines) -> Noticed:
    """The machine of PostgreSQL that leads stands still, until the other leads, and goes on then with what was in its sockets."""
    leader = scene.leader()
    first = leader.postmaster()
    stopped = [leader.running().pid, *([first, *children(first)] if first else [])]
    send(stopped, signal.SIGSTOP)
    scene.mends.append(lambda: send(stopped, signal.SIGCONT))
    return another(scene, leader)


@failure
def patroni(scene: Machines) -> Noticed:
    """Patroni dies, its PostgreSQL goes on, and Patroni comes back once the other PostgreSQL leads too."""
    leader = scene.leader()
    leader.end_patroni()
    is_other = another(scene, leader)

    def is_noticed() -> bool:
        if not is_other():
            return False
        leader.start()
        return True

    return is_noticed


@partition
def postgres_cut_off(scene: Machines) -> Noticed:
    """PostgreSQL that leads is cut off from all."""
    leader = scene.leader()
    scene.part([leader.host.name])
    return another(scene, leader)


@partition
def postgres_cut_off_from_etcd(scene: Machines) -> Noticed:
    """PostgreSQL that leads is cut off from etcd alone."""
    leader = scene.leader()
    scene.part([leader.host.name], [it.host.name for it in scene.etcds])
    return another(scene, leader)


@partition
def postgres_and_proxy_cut_off(scene: Machines) -> Noticed:
    """PostgreSQL that leads and the proxy that grants are cut off together. Clients reach both sides."""
    leader, owner = scene.leader(), scene.owner()
    scene.part([leader.host.name, owner.host.name], set(MACHINES) - {leader.host.name, owner.host.name})
    return another(scene, leader)


@partition
def standby_cut_off(scene: Machines) -> Noticed:
    """The standby is cut off from all."""
    leader = scene.leader()
    scene.part([it.host.name for it in scene.nodes if it is not leader])
    return lambda: not scene.is_whole()


@partition
def replication_cut(scene: Machines) -> Noticed:
    """The two PostgreSQL are cut off from each other alone."""
    scene.part(["db1"], ["db2"])
    return lambda: scene.is_lazy or not scene.is_whole()


@partition
def proxy_cut_off(scene: Machines) -> Noticed:
    """The proxy that grants is cut off from PostgreSQL. Clients reach it."""
    owner = scene.owner()
    scene.part([owner.host.name], [it.host.name for it in scene.nodes])
    return another_owner(scene, owner)


@partition
def proxy_cut_off_from_all(scene: Machines) -> Noticed:
    """The proxy that grants is cut off from all."""
    owner = scene.owner()
    scene.part([owner.host.name])
    return another_owner(scene, owner)


@partition
def one_way(scene: Machines) -> Noticed:
    """What PostgreSQL that leads sends is lost, and not what it is sent; or the other way round."""
    assert scene.network
    leader, network = scene.leader(), scene.network
    its = next(it for it in network.hosts if it.name == leader.host.name)
    sends = random.random() < 0.5
    for it in (*network.hosts, network.clients):
        if it is not its:
            network.lose(*((its, it) if sends else (it, its)))
    scene.mends.append(network.heal)
    return another(scene, leader)


def send(processes: Iterable[int], number: int) -> None:
    """Sends a signal to those that still run."""
    for it in processes:
        with suppress(ProcessLookupError):
            os.kill(it, number)


class Pace(threading.Thread):
    """Hears what buyers say, and measures the longest time in which no order was answered."""

    def __init__(self, said: Said) -> None:
        super().__init__(daemon=True)
        self.said, self.count = said, 0
        self.longest, self.last = 0.0, time.monotonic()
        self.is_off = threading.Event()

    def __enter__(self) -> "Pace":
        self.start()
        return self

    def __exit__(self, *fault: object) -> None:
        self.is_off.set()
        self.join()

    def run(self) -> None:
        while not self.is_off.wait(0.01):
            now, count = time.monotonic(), self.said.now().count()
            if count > self.count:
                self.longest, self.last, self.count = max(self.longest, now - self.last), now, count

    def begin(self) -> None:
        """Measures anew."""
        self.longest, self.last = 0.0, time.monotonic()

    def await_more(self, what: str) -> None:
        """Waits until further orders are answered."""
        goal = self.count + GOES_ON
        wait_until(f"orders go on {what}", lambda: self.count >= goal or self.said.faults, LIMIT)


def all_failures() -> Dict[str, Act]:
    """Returns all of them."""
    return {**FAILURES, **PARTITIONS}


def fail(scene: Machines, pace: Pace, name: str, is_last: bool = False) -> float:
    """Has something fail while buyers order, and mends it unless it is the last. Returns the seconds without service."""
    pace.await_more(f"before {name}")
    pace.begin()
    scene.crashes += 1
    is_noticed = all_failures()[name](scene)
    wait_until(f"{name} is noticed", is_noticed, LIMIT, PAUSE)
    pace.await_more(f"behind {name}")
    if not is_last:
        scene.revive()
        scene.await_whole()
        pace.await_more(f"behind the end of {name}")
    return pace.longest


class Outcome(NamedTuple):
    """What became of some failures: the seconds without service, and how many orders were answered and are not there."""

    pauses: Dict[str, List[float]]
    answered: int
    lost: int


def section(scene: Machines, seed: int, names: Sequence[str], is_last: bool = False) -> Outcome:
    """Has some things fail one after another while buyers order, and examines."""
    pauses: Dict[str, List[float]] = defaultdict(list)
    with Watch(scene.cluster, scene.table) as watch, scene.buying(seed) as said, Pace(said) as pace:
        watch.start()
        wrong: List[str] = []
        for at, name in enumerate(names, 1):
            try:
                pauses[name].append(fail(scene, pace, name, is_last and at == len(names)))
            except AssertionError as fault:  # orders may be lost too
                wrong = [f"{name}: {fault}"]
                shown(f"  {wrong}")
                break
            shown(f"  {name}: {pauses[name][-1]:.1f} s without service")
    wrong += scene.examine(said) + ([watch.wrong] if watch.wrong else [])
    if wrong:
        raise AssertionError(f"seed {seed}, {names}:\n  {listed(wrong)}")
    return Outcome(pauses, said.count(), len(said.answered - set(scene.found().orders)))


@PART.alone
def nothing_is_lost_when_machines_die() -> None:
    begin = time.monotonic()
    with Machines() as scene:
        shown(f"  the cluster serves behind {time.monotonic() - begin:.0f} s")
        it = section(scene, 1, ("postgres", "proxy", "postgres_and_proxy"), is_last=True)
    expect(it.lost, 0, "answered orders that are not there")
    shown(f"  {it.answered} orders were answered")


@PART.alone
def an_order_that_is_lost_amid_a_timeline_is_found() -> None:
    all_there = dict.fromkeys(("1.2.1/0", "1.2.2/0", "1.2.10/0", "1.2.10/1", "1.3.1/0"), "1")
    promoted = {**all_there, "1.2.10/0": "2", "1.2.10/1": "2"}
    amid, part = "an answered order is missing amid timeline 1: 1.2.2", "a part of an answered order is there: 1.2.10"
    for timelines, gone, wrong in (
        (all_there, (), []),
        (all_there, ("1.2.10/0", "1.2.10/1", "1.3.1/0"), []),
        (promoted, ("1.2.2/0",), []),
        (all_there, ("1.2.2/0",), [amid]),
        (all_there, ("1.2.10/1",), [part]),
    ):
        found = {key: it for key, it in timelines.items() if key not in gone}
        expect(holes(set(all_there), found), wrong, f"without {gone}")


class Run:
    """A run by hand: what it has done so far."""

    def __init__(self, scene: Machines, seed: int) -> None:
        self.scene, self.seed = scene, seed
        self.pauses: Dict[str, List[float]] = defaultdict(list)
        self.sums: "Counter[str]" = Counter()

    def fail(self, count: int, names: Sequence[str], each: int, end: float) -> None:
        """Has so many things fail, drawn so that each comes as often as the others."""
        draw = random.Random(self.seed)
        left: List[str] = []
        while len(left) < count:
            left += draw.sample(names, len(names))
        left = left[:count]
        while left and time.monotonic() < end:
            now, left = left[:each], left[each:]
            it = section(self.scene, self.seed, now)
            for name, seconds in it.pauses.items():
                self.pauses[name] += seconds
            self.sums += Counter(answered=it.answered, lost=it.lost)

    def told(self) -> str:
        """Returns what was done, in words."""
        head = f"{sum(map(len, self.pauses.values()))} failures, {self.sums['answered']} orders answered, {self.sums['lost']} of them lost"
        return "\n".join([head, *(f"  {name}: {len(it)} times, {statistics.median(it):.0f} s without service (worst {max(it):.0f})"
                                  for name, it in self.pauses.items())])


def keep(scene: Machines) -> None:
    """Prints how to connect, and waits for a signal."""
    enter = f"nsenter --net=/proc/{os.getpid()}/ns/net " if scene.network else ""
    print(f"PostgreSQL: {enter}psql '{scene.cluster.dsn()}'", f"the proxies: {enter}psql '{scene.dsns()[0]}'",
          *(f"{it.host.name}: {it.folder}, http://{it.rest}/cluster" for it in scene.nodes), sep="\n", flush=True)
    with suppress(KeyboardInterrupt, SystemExit):
        signal.pause()


def asked_by_hand() -> None:
    parser = argparse.ArgumentParser(description=__doc__, formatter_class=argparse.RawDescriptionHelpFormatter,
                                     epilog="\n".join(f"  {name:28}{act.__doc__}" for name, act in all_failures().items()))
    parser.add_argument("--failures", type=int, default=1)
    parser.add_argument("--asynchronous", action="store_true")
    parser.add_argument("--on-ports", action="store_true")
    parser.add_argument("--only", nargs="+", choices=list(all_failures()))
    parser.add_argument("--each", type=int, default=5)
    parser.add_argument("--seconds", type=float, default=1e9)
    parser.add_argument("--seed", type=int, default=random.randrange(1_000_000))
    parser.add_argument("--thinking", type=float, default=0.0)
    parser.add_argument("--logs", type=Path, help="a folder that gets what all servers have said")
    parser.add_argument("--keep", action="store_true")
    parser.add_argument("--in-namespace", action="store_true", help=argparse.SUPPRESS)
    asked = parser.parse_args()
    if not asked.on_ports and not asked.in_namespace:
        # The network ends with this process and those that it starts.
        os.execvp("unshare", ["unshare", "--net", "--mount", "--", sys.executable, "-B", "-m", "proxy.test.machines", "--in-namespace", *sys.argv[1:]])
    signal.signal(signal.SIGTERM, lambda *_: sys.exit(1))
    end = time.monotonic() + asked.seconds
    print(f"seed {asked.seed}", flush=True)
    random.seed(asked.seed)
    with Machines(not asked.asynchronous, asked.in_namespace, ByHand(thinking=asked.thinking)) as scene:
        shown("the cluster serves")
        if asked.keep:
            keep(scene)
            return
        run = Run(scene, asked.seed)
        try:
            run.fail(asked.failures, asked.only or list(FAILURES if asked.on_ports else all_failures()), asked.each, end)
        finally:
            print(run.told(), flush=True)
            if asked.logs:
                scene.keep_logs(asked.logs)


if __name__ == "__main__":
    if any(it.startswith("-") for it in sys.argv[1:]):
        try:
            asked_by_hand()
        except AssertionError as fault:
            print(*heard(fault), sep="\n")
            raise
    else:
        main(PART)
