#!/usr/bin/env python3
"""Types what docs/proxy.md shows of psql into two psqls at a proxy, and compares what their terminals show. Runs what docs/proxy-holds.md shows."""
from __future__ import annotations

import difflib
import os
import re
from typing import Dict, List

import psycopg

from clients.servers import wait_until
from clients.suite import Part, main
from clients.with_pages import DATABASE, Terminal
from proxy.test.harness import FOLDED, TOP, Proxy, installed
from proxy.test.standin import ROLE, SQL, Cluster, of_proxy

PART = Part("proxy_page")
PAGE, HOLDS = TOP.parent / "docs/proxy.md", TOP.parent / "docs/proxy-holds.md"
# A block of a page behind the number of its psql.
BLOCK = re.compile(r"<!-- psql (\d) -->\n```\n(.*?)```\n", re.DOTALL)
SQL_BLOCK = re.compile(r"```sql\n(.*?)```\n", re.DOTALL)
TYPED = re.compile(rf"{DATABASE}[=-][*!]?> (.*)")


class Place:
    """Where a terminal connects."""

    def __init__(self, text: str) -> None:
        self.text = text

    def dsn(self, _: str) -> str:
        """Returns the connection string."""
        return self.text


@PART.alone
def the_page_shows_what_psql_shows() -> None:
    """`ESCROWD_WRITE=1` writes what the terminals show into the page; read the difference before you keep it."""
    page = PAGE.read_text()
    with Cluster() as cluster:
        cluster.run("CREATE ROLE ada LOGIN", f"CREATE DATABASE {DATABASE} OWNER ada")
        dsn = cluster.dsn(DATABASE)
        with psycopg.connect(dsn) as it:
            it.execute((SQL / "install.sql").read_bytes())
            it.execute(f"GRANT escrow_proxy TO {ROLE}".encode())
        with Proxy(cluster, "", *FOLDED, postgres=of_proxy(dsn)) as proxy:
            proxy.await_owner()
            terminals: Dict[str, Terminal] = {}
            shown = BLOCK.sub(lambda block: replayed(block, terminals, proxy, cluster), page)
            for terminal in terminals.values():
                terminal.close()
    assert len(terminals) == 2, "the page has no sessions"
    if "ESCROWD_WRITE" in os.environ:
        PAGE.write_text(shown)
    elif shown != page:
        raise AssertionError("\n".join(difflib.unified_diff(page.splitlines(), shown.splitlines(), PAGE.name, "psql", lineterm="", n=1)))


def replayed(block: "re.Match[str]", terminals: Dict[str, Terminal], proxy: Proxy, cluster: Cluster) -> str:
    """Returns a block as the terminal of its number shows it."""
    number, lines = block[1], block[2].splitlines()
    if number not in terminals:
        terminals[number] = Terminal(Place(proxy.dsn(dbname=DATABASE, user="ada")))  # type: ignore[arg-type]
    shown: List[str] = []
    for line in lines:
        typed = TYPED.fullmatch(line)
        if typed:
            shown += (it.rstrip() for it in terminals[number].type(typed[1]))
            if "escrow.reservable" in typed[1]:
                wait_until("the proxy knows the table", lambda: is_known(proxy, 1, dbname=DATABASE, user="ada"))
    text = "\n".join(shown)
    return f"<!-- psql {number} -->\n```\n{text}\n```\n"


def is_known(proxy: Proxy, key: int, **words: str) -> bool:
    """Returns whether the proxy reserves of a row: PostgreSQL itself refuses a change by nothing as any other."""
    with proxy.connect(**words) as it:
        try:
            it.execute("UPDATE stock SET pieces = pieces + 1 WHERE id = -1 AND pieces >= 0")
            it.execute("BEGIN")
            it.execute(f"UPDATE stock SET pieces = pieces + 1 WHERE id = {key}".encode())
            it.execute("ROLLBACK")
        except psycopg.errors.FeatureNotSupported:
            return False
    return True


@PART.alone
def what_the_page_on_holds_shows_runs() -> None:
    """A transaction holds two pieces, and one of another connection buys them, over the page's tables."""
    with installed() as (cluster,):
        with Proxy(cluster, "", *FOLDED) as proxy:
            proxy.await_owner()
            cluster.run("CREATE TABLE carts (id integer PRIMARY KEY, person text, pieces integer)", "CREATE TABLE orders (LIKE carts INCLUDING ALL)",
                        "CREATE TABLE stock (id integer PRIMARY KEY, pieces integer NOT NULL CHECK (pieces >= 0))", "INSERT INTO stock VALUES (5, 10)",
                        "SELECT escrow.reservable('stock', 'pieces')")
            wait_until("the proxy knows the table", lambda: is_known(proxy, 5))
            held, bought = SQL_BLOCK.findall(HOLDS.read_text())
            with proxy.connect() as it:
                for statement in held.rstrip(";\n").split(";"):
                    it.execute(statement.encode())
            with cluster.connect() as it:
                found = it.execute('SELECT name, relation::text, key, "column", change FROM escrow.holds').fetchall()
                assert found == [("cart-17", "stock", "5", "pieces", -2)], found
            with proxy.connect() as it:
                for statement in bought.rstrip(";\n").split(";"):
                    it.execute(statement.encode())
            with cluster.connect() as it:
                found = it.execute("SELECT s.pieces, o.person, o.pieces, (SELECT count(*) FROM escrow.holds) FROM stock AS s, orders AS o").fetchall()
                assert found == [(8, "ada", 2, 0)], found


if __name__ == "__main__":
    main(PART)
