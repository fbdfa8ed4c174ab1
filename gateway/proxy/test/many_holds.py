#!/usr/bin/env python3
"""Measures what many standing holds of one row cost: how soon a proxy that is killed serves again, how soon all are free if they end at once, and orders
beside them.

    python3 -m proxy.test.many_holds [--count 10000] [--seconds 8] [--clients 16]

Run it in the folder gateway, on a machine that does nothing else. Each figure stands beside its bound and the machine's load; the status says whether all
bounds are kept. PostgreSQL runs without fsync.
"""
from __future__ import annotations

import argparse
import os
import statistics
import subprocess
import sys
import time
from concurrent.futures import ThreadPoolExecutor
from pathlib import Path
from typing import List, Tuple

from clients.servers import postgres_binary, wait_until
from proxy.test.harness import Proxy
from proxy.test.reserves import Connection, is_given, pieces, take
from proxy.test.standin import Cluster

KEY, PIECES = 1, 10_000_000
# How many holds a transaction makes, and how many connections make them: a session of the server reserves 256 changes.
PIECE, MAKERS = 200, 4
ORDER = """
BEGIN;
INSERT INTO orders (item) VALUES (1);
UPDATE stock SET pieces = pieces - 1 WHERE id = 1;
COMMIT;
"""
TABLES = (
    "CREATE TABLE stock (id integer PRIMARY KEY, pieces integer NOT NULL CHECK (pieces >= 0))",
    "CREATE TABLE orders (number bigint GENERATED ALWAYS AS IDENTITY PRIMARY KEY, item integer NOT NULL)",
    f"INSERT INTO stock VALUES ({KEY}, {PIECES})",
    "SELECT escrow.reservable('stock', 'pieces')",
)
# The bounds: seconds until a row's holds are reserved again, until the proxy serves, until all are free, and the part of the rate without holds.
RESERVED, SERVED, FREE, RATE = 2.0, 3.0, 1.5, 0.9


def spent(root: int) -> float:
    """Returns the processor time of a process with its children, those too that have ended."""
    try:
        children = Path(f"/proc/{root}/task/{root}/children").read_text("ascii").split()
        fields = Path(f"/proc/{root}/stat").read_text("utf-8").rsplit(")", 1)[1].split()
    except (FileNotFoundError, ProcessLookupError):
        return 0.0  # it ends just now
    own = sum(int(it) for it in fields[11:15]) / os.sysconf("SC_CLK_TCK")
    return own + sum(spent(int(it)) for it in children)


class Measured:
    """A cluster and a proxy, and what is found of them."""

    def __init__(self, cluster: Cluster, proxy: Proxy, asked: argparse.Namespace) -> None:
        self.cluster, self.proxy, self.asked = cluster, proxy, asked
        self.are_kept = True

    def tell(self, what: str, value: float, bound: str, is_kept: bool) -> None:
        """Prints a figure."""
        self.are_kept &= is_kept
        print(f"{what}: {value:.2f} (bound {bound}{'' if is_kept else ', MISSED'}; load {os.getloadavg()[0]:.1f})", flush=True)

    def spent(self) -> float:
        """Returns the processor time of PostgreSQL, the proxy and its server."""
        return spent(self.cluster.running().pid) + spent(self.proxy.running().pid)

    def orders(self) -> Tuple[float, float]:
        """Lets pgbench order. Returns the transactions a second, and the processor time of one in milliseconds."""
        script = self.cluster.folder / "order.sql"
        script.write_text(ORDER)
        seconds, clients = self.asked.seconds, self.asked.clients
        host, port = self.proxy.socket.parent, self.proxy.socket.name.rsplit(".", 1)[1]
        words = [postgres_binary("pgbench"), "-n", "-M", "prepared", "-c", clients, "-j", 2, "-T", seconds, "-f", script, "-h", host, "-p", port, "-U", "clerk",
                 "bank"]
        before = self.spent()
        it = subprocess.run([str(word) for word in words], stdout=subprocess.PIPE, stderr=subprocess.STDOUT, text=True, check=True)
        time_spent = self.spent() - before
        done = next(int(line.split(":")[1].split("/")[0]) for line in it.stdout.splitlines() if line.startswith("number of transactions actually"))
        return done / seconds, 1000 * time_spent / done

    def hold_all(self, prefix: str) -> None:
        """Makes the holds, of a piece each."""
        begin = time.monotonic()
        with ThreadPoolExecutor(MAKERS) as makers:
            list(makers.map(lambda first: self.hold_some(prefix, first), range(0, self.asked.count, PIECE)))
        print(f"  {self.asked.count} holds are made in {time.monotonic() - begin:.1f} s", flush=True)

    def hold_some(self, prefix: str, first: int) -> None:
        """Makes some of them in a transaction."""
        with self.proxy.connect() as it, it.pipeline():
            it.execute("BEGIN")
            for at in range(first, min(first + PIECE, self.asked.count)):
                take(it, KEY, 1)
                it.execute("SELECT escrow.hold(%s, '1 hour')", (f"{prefix}/{at}",))
            it.execute("COMMIT")

    def free(self, it: Connection) -> int:
        """Returns how many pieces may be had, by PostgreSQL's rows: what is committed, without what is held."""
        found = it.execute("SELECT n.pieces + coalesce((SELECT sum(change) FROM escrow.holds), 0) FROM escrow.now_stock AS n").fetchone()
        assert found is not None
        return int(found[0])

    def gives_just(self, it: Connection) -> None:
        """Tests that so much can be had, and not one more."""
        count = self.free(it)
        for more in (0, 1):
            it.execute("BEGIN")
            given = is_given(it, KEY, count + more)
            it.execute("ROLLBACK")
            assert given == (more == 0), f"{count + more} of {count}: {given}"

    def restart(self) -> None:
        """Kills the proxy, and starts it again."""
        owners = self.proxy.said().count("owner of epoch")
        self.proxy.kill()
        begin = time.monotonic()
        self.proxy.start()
        wait_until("it is the owner", lambda: self.proxy.said().count("owner of epoch") > owners, 60)
        owned = time.monotonic()
        before = self.spent()
        with self.proxy.connect() as it:
            asked = time.monotonic()
            take(it, KEY, 1)
            served = time.monotonic()
            time_spent = self.spent() - before
            self.gives_just(it)
        print(f"  the owner behind {owned - begin:.2f} s; processor time of reserving all again {time_spent:.2f} s")
        self.tell("seconds until a row's holds are reserved again", served - asked, f"{RESERVED}", served - asked <= RESERVED)
        self.tell("seconds until a killed proxy serves the row", served - begin, f"{SERVED}", served - begin <= SERVED)

    def end_all(self, is_release: bool) -> None:
        """Ends all holds at one moment, and waits until they are free."""
        with self.proxy.connect() as it, self.cluster.connect() as direct:
            count = self.free(it) + self.asked.count
            before = self.spent()
            if is_release:
                begin = time.monotonic()
                direct.execute("SELECT escrow.release(name) FROM (SELECT DISTINCT name FROM escrow.holds) AS h")
                print(f"  all are released by a statement of {time.monotonic() - begin:.2f} s")
                begin = time.monotonic()
            else:
                found = direct.execute("UPDATE escrow.hold_names SET until = clock_timestamp() + interval '1 second' WHERE state = 'standing'").rowcount
                assert found == self.asked.count, found
                direct.execute("SELECT pg_sleep(extract(epoch FROM max(until) - clock_timestamp())) FROM escrow.hold_names")
                begin = time.monotonic()
            while not self.can_have(it, count):
                assert time.monotonic() - begin < 120, "the holds are not free"
                time.sleep(0.01)
            took = time.monotonic() - begin
            print(f"  processor time of ending all {self.spent() - before:.2f} s")
            what = "release" if is_release else "the end of their time"
            self.tell(f"seconds from {what} until all are free", took, f"about 1, {FREE}", took <= FREE)
            self.gives_just(it)

    def can_have(self, it: Connection, count: int) -> bool:
        """Returns whether so much can be had."""
        it.execute("BEGIN")
        given = is_given(it, KEY, count)
        it.execute("ROLLBACK")
        return given

    def run(self) -> None:
        """Measures all."""
        rates: List[Tuple[Tuple[float, float], Tuple[float, float]]] = []
        self.orders()  # what is prepared once
        for turn in range(2):
            without = self.orders()
            self.hold_all(f"cart-{turn}")
            beside = self.orders()
            rates.append((without, beside))
            print(f"  orders a second, without and beside holds: {without[0]:.0f}, {beside[0]:.0f}; milliseconds of one: {without[1]:.3f}, {beside[1]:.3f}")
            if turn == 0:
                self.restart()
            self.end_all(turn == 1)
        alone = [*(it[0][0] for it in rates), self.orders()[0]]
        part = statistics.mean(it[1][0] for it in rates) / statistics.mean(alone)
        self.tell("orders beside the holds by orders without", part, f"{RATE}", part >= RATE)
        wait_until("the row shows all", lambda: self.sold() == PIECES - pieces(self.cluster, KEY), 60)

    def sold(self) -> int:
        """Returns how many orders there are, with those of restarts."""
        with self.cluster.connect() as it:
            found = it.execute("SELECT count(*) FROM orders").fetchone()
            assert found is not None
            return int(found[0]) + 1


def main() -> int:
    """Measures, and returns the status."""
    parser = argparse.ArgumentParser(description=__doc__, formatter_class=argparse.RawDescriptionHelpFormatter)
    parser.add_argument("--count", type=int, default=10_000)
    parser.add_argument("--seconds", type=int, default=8)
    parser.add_argument("--clients", type=int, default=16)
    asked = parser.parse_args()
    with Cluster("statement_timeout=0") as cluster:
        cluster.script("install.sql")
        cluster.run(*TABLES)
        with Proxy(cluster) as proxy:
            wait_until("it is the owner", lambda: "owner of epoch" in proxy.said())
            it = Measured(cluster, proxy, asked)
            it.run()
    return 0 if it.are_kept else 1


if __name__ == "__main__":
    sys.exit(main())
