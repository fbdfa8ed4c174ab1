#!/usr/bin/env python3
"""The ticket shop of examples/tickets.py, while proxy, PostgreSQL and the shop itself are killed at random: no seat is sold twice, and none is lost.

    python3 -m proxy.test.tickets [--people N] [--lasting INTERVAL] [--kills N] [--seed N]

Run it in the folder gateway. By itself it is the case of the gate. With words it runs the shop as they say, until it has ended by itself.
"""
from __future__ import annotations

import argparse
import random
import subprocess
import sys
import time
from typing import Any, List

import psycopg

from clients.servers import PATIENCE, TOP, wait_until
from clients.suite import Part, expect, main
from proxy.test.harness import Proxy
from proxy.test.standin import Cluster

PART = Part("proxy_tickets")
SHOP = TOP / "examples/tickets.py"
SEATS = 900


class Shop:
    """A shop that is started again when it was killed."""

    def __init__(self, proxy: Proxy, people: int, lasting: str) -> None:
        self.why = "it has not ended"  # the last reason for which it could not go on
        self.words = ["/usr/bin/python3", "-B", str(SHOP), proxy.dsn(), str(people), lasting]
        self.start()

    def start(self) -> None:
        """Starts it."""
        self.process = subprocess.Popen(self.words, stdout=subprocess.PIPE, stderr=subprocess.PIPE, text=True)

    def kill(self) -> None:
        """Kills it."""
        self.process.kill()
        self.process.communicate()

    def has_ended(self) -> bool:
        """Returns whether it has done its work. It starts again if it could not."""
        status = self.process.poll()
        if status:
            self.why = self.process.communicate()[1][-1000:]
            time.sleep(0.5)
            self.start()
        return status == 0


def rows(cluster: Cluster, query: str) -> List[Any]:
    """Returns the rows of a query."""
    with cluster.connect() as it:
        return it.execute(query.encode()).fetchall()


def run(people: int, lasting: str, kills: int, seed: int) -> str:
    """Runs the shop, kills what the seed says, and examines what is there at the end. Returns what was done."""
    draw = random.Random(seed)
    with Cluster() as cluster, Proxy(cluster) as proxy:
        cluster.script("install.sql")
        shop = Shop(proxy, people, lasting)
        try:
            killed = {"proxy": 0, "postgres": 0, "shop": 0}
            for _ in range(kills):
                time.sleep(draw.uniform(0.5, 2.5))
                what = draw.choice(list(killed))
                killed[what] += 1
                if what == "shop":
                    shop.kill()
                    shop.start()
                elif what == "proxy":
                    proxy.kill()
                    proxy.start()
                else:
                    cluster.kill()
                    cluster.again()
            try:
                wait_until("the shop has ended", shop.has_ended, (120 + people / 5) * PATIENCE, 0.05)
            except AssertionError as late:
                raise AssertionError(f"{late}: {shop.why}") from late
            said = shop.process.communicate()[0]
        finally:
            shop.kill()
        examine(cluster, proxy, said, people)
        return f"{said.strip()}; killed {killed}, seed {seed}"


def examine(cluster: Cluster, proxy: Proxy, said: str, people: int) -> None:
    """Tests what the shop has sold, and what it holds."""
    carts, orders = [int(word) for word in said.replace(",", "").split() if word.isdigit()]
    expect(rows(cluster, "SELECT count(*) FROM carts"), [(carts,)])
    expect(rows(cluster, "SELECT count(*) FROM orders"), [(orders,)])
    # Each order is that of its cart, and no hold of it stands.
    expect(rows(cluster, "SELECT o.person FROM orders AS o LEFT JOIN carts AS c USING (person, stand, seats) WHERE c.person IS NULL"), [])
    expect(rows(cluster, "SELECT o.person FROM orders AS o JOIN escrow.holds AS h ON h.name = 'cart-' || o.person"), [])
    expect(rows(cluster, f"SELECT n.id, n.free, sum(o.seats) FROM escrow.now_stands AS n LEFT JOIN orders AS o ON o.stand = n.id "
                         f"GROUP BY n.id, n.free HAVING n.free + coalesce(sum(o.seats), 0) <> {SEATS}"), [])
    # Each stand gives what is neither sold nor held, and not one seat more.
    with psycopg.connect(proxy.dsn(), autocommit=True) as it:
        # A shop that was killed may have left a transaction, of whose end PostgreSQL hears later.
        wait_until("nothing is reserved", lambda: it.execute("SELECT FROM escrow.reservations()").fetchall() == [], pause=0.05)
        it.execute("SELECT escrow.prolong(name, '1 hour') FROM (SELECT DISTINCT name FROM escrow.holds) AS h")
        held = dict(rows(cluster, "SELECT key, -sum(change) FROM escrow.holds GROUP BY key"))
        for stand, free in rows(cluster, "SELECT id, free FROM escrow.now_stands ORDER BY id"):
            left = free - held.get(str(stand), 0)
            for more, is_given in ((1, False), (0, True)):
                it.execute("BEGIN")
                try:
                    it.execute("UPDATE stands SET free = free - %s WHERE id = %s", (left + more, stand))
                    found = True
                except psycopg.errors.CheckViolation:
                    found = False
                it.execute("ROLLBACK")
                expect(found, is_given, f"stand {stand} gives {left + more}")


@PART.alone
def no_seat_is_sold_twice_and_none_is_lost() -> None:
    print("  " + run(200, "10 minutes", 3, 7), file=sys.stderr)


def by_hand() -> None:
    parser = argparse.ArgumentParser(description=__doc__, formatter_class=argparse.RawDescriptionHelpFormatter)
    parser.add_argument("--people", type=int, default=5000)
    parser.add_argument("--lasting", default="10 minutes")
    parser.add_argument("--kills", type=int, default=50)
    parser.add_argument("--seed", type=int, default=random.randrange(1_000_000))
    asked = parser.parse_args()
    print(run(asked.people, asked.lasting, asked.kills, asked.seed))


if __name__ == "__main__":
    if any(it.startswith("-") for it in sys.argv[1:]):
        by_hand()
    else:
        main(PART)
