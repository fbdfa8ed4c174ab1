"""What psql shows of a database, by \\d and its like and by TAB: equal to what it shows of a PostgreSQL with an equal table."""
from __future__ import annotations

import difflib
import os
import pty
import re
import select
import subprocess
from concurrent.futures import ThreadPoolExecutor
from typing import Callable, List, Sequence, Tuple

from clients.servers import END, Gateway, Postgres
from clients.suite import Part, expect, main
from clients.wire import Connection

PART = Part("with_catalog")
OURS = [
    "CREATE TABLE stock (id INTEGER PRIMARY KEY, pieces INTEGER RESERVABLE CONSTRAINT in_stock CHECK (pieces >= 0), price NUMBER(8,2), name VARCHAR2(20))",
    "CREATE TABLE orders (k VARCHAR2(10) PRIMARY KEY, n INTEGER RESERVABLE CONSTRAINT most CHECK (n <= 100))",
]
THEIRS = [
    "CREATE TABLE stock (id bigint PRIMARY KEY, pieces bigint NOT NULL CONSTRAINT in_stock CHECK (pieces >= 0), price numeric(8,2) NOT NULL,"
    " name varchar(20) NOT NULL)",
    "CREATE TABLE orders (k varchar(10) PRIMARY KEY, n bigint NOT NULL CONSTRAINT most CHECK (n <= 100))",
]
COMMANDS = [
    "\\d",
    "\\dt",
    "\\d stock",
    "\\d orders",
    "\\d public.stock",
    "\\dt stock",
    "\\dt s*",
    "\\d s*",
    "\\d nothing",
    "\\dt nothing",
    "\\dv",
    "\\ds",
    "\\dm",
    "\\dE",
    "\\di",
    "\\d stock_pkey",
]
# Keys in front of TAB, twice each, and what is typed then.
KEYS = [
    "SELECT * FROM ",
    "SELECT * FROM st",
    "UPDATE ",
    "UPDATE stock SET ",
    "UPDATE stock SET pi",
    "SELECT * FROM stock WHERE ",
    "DELETE FROM or",
    "INSERT INTO ",
    "DROP TABLE ",
    "ALTER TABLE stock DROP CONSTRAINT ",
    "\\d ",
    "\\dt st",
]
TAKE = "UPDATE stock SET pieces = pieces - 1 WHERE id = 1;"
# A letter that is typed behind TAB, and what psql prints behind a line that is taken back: when they are shown, nothing comes any more.
MARK, OVER = "@", "over"


def psql(dsn: str, *commands: str) -> List[str]:
    """Returns the lines that psql prints for commands."""
    words = ["psql", "-X", "-d", dsn, *(word for it in commands for word in ("-c", it))]
    return subprocess.run(
        words, stdout=subprocess.PIPE, stderr=subprocess.STDOUT, text=True, timeout=END, env={**os.environ, "PAGER": "cat", "LC_ALL": "C.UTF-8"}
    , check=False).stdout.splitlines()


def expect_equal(theirs: Sequence[str], ours: Sequence[str]) -> None:
    """Fails, and shows the difference, unless both are equal."""
    if theirs != ours:
        raise AssertionError("\n".join(difflib.unified_diff(theirs, ours, "PostgreSQL", "gateway", lineterm="", n=1)))


def of_both(gateway: Gateway, postgres: Postgres, act: Callable[[str], List[str]]) -> Tuple[List[str], List[str]]:
    """Creates the tables in both. Returns what an act shows of PostgreSQL and of the gateway, asked at the same time."""
    row = "INSERT INTO stock VALUES (1, 5, 9.50, 'tea')"
    expect(psql(gateway.dsn(), *OURS, row), psql(postgres.dsn(), *THEIRS, row))
    with ThreadPoolExecutor(2) as threads:
        theirs, ours = threads.map(act, (postgres.dsn(), gateway.dsn()))
    return theirs, ours


@PART.served
def the_commands_of_psql(gateway: Gateway) -> None:
    with Postgres("fsync=off") as postgres:
        expect_equal(*of_both(gateway, postgres, lambda dsn: psql(dsn, *(word for it in COMMANDS for word in (f"\\echo {it[1:]}:", it)))))


@PART.served
def a_table_that_is_dropped_is_gone(gateway: Gateway) -> None:
    """The catalog is that of now: a table, a CHECK, and their ends."""
    with Connection(gateway.socket) as it:
        it.do(*OURS)
        expect("orders" in "\n".join(psql(gateway.dsn(), "\\dt")), True)
        it.do("ALTER TABLE stock ADD CONSTRAINT few CHECK (pieces <= 50)", "DROP TABLE orders")
        said = "\n".join(psql(gateway.dsn(), "\\dt", "\\d stock"))
        expect(("orders" in said, '"few" CHECK (pieces <= 50)' in said), (False, True), said)
        it.do("ALTER TABLE stock DROP CONSTRAINT few")
        expect("few" in "\n".join(psql(gateway.dsn(), "\\d stock")), False)


class Terminal:
    """psql at a terminal, as one types in it."""

    def __init__(self, dsn: str) -> None:
        self.control, theirs = pty.openpty()
        environment = {
            **os.environ,
            "TERM": "dumb",
            "PAGER": "cat",
            "INPUTRC": "/dev/null",
            "PSQL_HISTORY": "/dev/null",
            "LC_ALL": "C.UTF-8",
            "COLUMNS": "200",
        }
        self.process = subprocess.Popen(
            ["psql", "-X", "-v", "PROMPT1=<%x> ", "-d", dsn], stdin=theirs, stdout=theirs, stderr=theirs, env=environment, start_new_session=True
        )
        os.close(theirs)
        self.until("<> ")

    def __enter__(self) -> Terminal:
        return self

    def __exit__(self, *_: object) -> None:
        self.process.kill()
        self.process.wait()
        os.close(self.control)

    def until(self, end: str) -> str:
        """Reads up to what comes last."""
        found = ""
        while not found.endswith(end):
            if not select.select([self.control], [], [], END)[0]:
                raise AssertionError(f"not within {END:.0f} s: psql shows {end!r}: {found[-500:]!r}")
            found += os.read(self.control, 65536).decode(errors="replace")
        return found

    def typed(self, keys: str, end: str = "<> ") -> str:
        """Types a line, and returns what is shown."""
        os.write(self.control, f"{keys}\r".encode())
        return self.until(end)

    def completed(self, keys: str, end: str = "<> ") -> List[str]:
        """Types keys and TAB twice, and returns the words that are shown. The line is then taken back."""
        os.write(self.control, f"{keys}\t\t{MARK}".encode())
        found = self.until(MARK).rstrip(MARK)
        os.write(self.control, f"\x15\\echo {OVER}\r".encode())
        self.until(f"\n{OVER}\r\n{end}")
        return re.sub(r"[\x07\x08]+|\x1b\[[0-9;?]*[a-zA-Z]", " ", found).split()


def shown_at_tab(dsn: str) -> List[str]:
    """Returns what TAB shows outside of a block and inside of one, and how the block ends."""
    found: List[str] = []
    with Terminal(dsn) as it:
        found += [f"{keys}: {' '.join(it.completed(keys))}" for keys in KEYS]
        it.typed("BEGIN;", "<*> ")
        it.typed(TAKE, "<*> ")
        found += [f"in a block, {keys}: {' '.join(it.completed(keys, '<*> '))}" for keys in KEYS[:6]]
        found.append(it.typed("COMMIT;").splitlines()[1])
    return found


@PART.served
def completion_by_tab(gateway: Gateway) -> None:
    with Postgres("fsync=off") as postgres:
        theirs, ours = of_both(gateway, postgres, shown_at_tab)
    expect(("stock" in theirs[0], theirs[-1]), (True, "COMMIT"), str(theirs))
    expect_equal(theirs, ours)
    with Connection(gateway.socket) as it:
        expect(it.rows("SELECT * FROM stock")[0][1], "4")


if __name__ == "__main__":
    main(PART)
