"""What drivers, ORMs and PostgreSQL's own programs get through the proxy is what they get from PostgreSQL itself."""
from __future__ import annotations

import difflib
import os
import re
import shutil
import subprocess
import tempfile
from contextlib import ExitStack, contextmanager
from dataclasses import dataclass
from functools import partial
from pathlib import Path
from typing import Callable, Dict, Iterator, List, Mapping, Optional, Sequence, Tuple

from clients.packages import NODE_MODULES, is_here, unpack_node_pg
from clients.servers import END, PORT, Relay
from clients.suite import Skipped, expect, main
from proxy.test.harness import PORT as PROXYS
from proxy.test.harness import FOLDED, Proxy, SharedPart
from proxy.test.standin import Cluster

FOLDER = Path(__file__).with_name("programs")
PYTHON = "/usr/bin/python3"
JDBC = "/usr/share/java/postgresql.jar"
# Rows of a client begin at a number of its own.
EACH = 100
TABLES = (
    "CREATE TABLE stock (id integer PRIMARY KEY, title varchar(40) NOT NULL, pieces integer NOT NULL CONSTRAINT in_stock CHECK (pieces >= 0))",
    "CREATE TABLE orders (id serial PRIMARY KEY, item integer NOT NULL REFERENCES stock, pieces integer NOT NULL)",
    "CREATE TABLE account (id uuid PRIMARY KEY, owner text NOT NULL, balance numeric(12,2) NOT NULL, held numeric(12,2) NOT NULL, "
    "CONSTRAINT enough CHECK (balance - held >= 0))",
    "CREATE TABLE shelf (code text PRIMARY KEY, room bigint NOT NULL CONSTRAINT has_room CHECK (room BETWEEN 0 AND 100))",
    "CREATE TABLE kinds (id integer PRIMARY KEY)",
    "CREATE TABLE wares (id integer PRIMARY KEY, n integer NOT NULL CHECK (n >= 0), kind integer REFERENCES kinds DEFERRABLE INITIALLY DEFERRED)",
    "CREATE TABLE lines (id integer)",
)
DECLARED = ("SELECT escrow.reservable('stock', 'pieces')", "SELECT escrow.reservable('account', 'balance', 'held')",
            "SELECT escrow.reservable('shelf', 'room')", "SELECT escrow.reservable('wares', 'n')")


class Database(Cluster):
    """A database of a cluster that runs."""

    def __init__(self, of: Cluster, name: str) -> None:  # pylint: disable=super-init-not-called  # the other one has the server
        self.of, self.name = of, name

    def dsn(self, database: str = "") -> str:
        return self.of.dsn(database or self.name)


@dataclass
class Both:
    """A database with reservable columns behind a proxy, and an equal one without."""

    cluster: Cluster
    plain: Database
    proxy: Proxy
    count: int = 0

    def rows(self, first: int) -> None:
        """Inserts the rows that begin at a number."""
        statements = (
            f"INSERT INTO stock SELECT {first} + i, 'row ' || i, 100 FROM generate_series(1, 5) AS i",
            f"INSERT INTO account VALUES ('00000000-0000-0000-0000-{first:012}', 'Ann', 50, 0)",
            f"INSERT INTO shelf VALUES ('it''s {first} ä', 0)",
            f"INSERT INTO wares SELECT {first} + i, 100 FROM generate_series(1, 5) AS i",
        )
        self.cluster.run(*statements)
        self.plain.run(*statements)

    def compare(self, words: Callable[[str, int, str, int], Sequence[object]], env: Optional[Dict[str, str]] = None) -> str:
        """Runs a command on both, for which it is given a host, a port, a database and a first row. Returns what both print."""
        self.count += 1
        first = self.count * EACH
        self.rows(first)
        shown = []
        for host, port, name in ((self.cluster.sockets, PORT, self.plain.name), (self.proxy.folder, PROXYS, "bank")):
            done = subprocess.run([str(it) for it in words(str(host), port, name, first)], capture_output=True, text=True, timeout=END,
                                  env={**os.environ, **(env or {})}, check=False)
            expect(done.returncode, 0, f"{name}: {done.stdout[-1000:]} {done.stderr[-2000:]}")
            shown.append(done.stdout.splitlines())
        same(shown[0], shown[1])
        return "\n".join(shown[0])


def same(straight: List[str], through: List[str]) -> None:
    """Expects that both have the same lines."""
    difference = "\n".join(difflib.unified_diff(straight, through, "PostgreSQL", "escrowd-proxy", lineterm="", n=1))
    expect(difference, "")


@contextmanager
def opened() -> Iterator[Tuple[Both]]:
    """Opens both databases, and the proxy."""
    with ExitStack() as stack:
        cluster = stack.enter_context(Cluster())
        plain = Database(cluster, "plain")
        cluster.run("CREATE DATABASE plain")
        for it in (cluster, plain):
            it.run(*TABLES)
        cluster.script("install.sql")
        cluster.run(*DECLARED)
        proxy = stack.enter_context(Proxy(cluster, "", *FOLDED, "--threads", 3))
        proxy.await_owner()
        yield (Both(cluster, plain, proxy),)


PART = SharedPart("proxy_drivers", opened)


def needs(*packages: str) -> None:
    """Skips a case if a package is not installed."""
    missing = [it for it in packages if not is_here(it)]
    if missing:
        raise Skipped(f"{', '.join(missing)} cannot be had")


@PART.case
def psycopg2(both: Both) -> None:
    needs("python3-psycopg2")
    both.compare(lambda host, port, name, first: [
        PYTHON, "-B", FOLDER / "with_psycopg.py", "psycopg2", first, f"host={host} port={port} dbname={name} user=clerk"])


@PART.case
def psycopg3(both: Both) -> None:
    needs("python3-psycopg")
    both.compare(lambda host, port, name, first: [
        PYTHON, "-B", FOLDER / "with_psycopg.py", "psycopg", first, f"host={host} port={port} dbname={name} user=clerk"])


@PART.case
def asyncpg(both: Both) -> None:
    needs("python3-asyncpg")
    both.compare(lambda host, port, name, first: [PYTHON, "-B", FOLDER / "with_asyncpg.py", first, host, port, name])


@PART.case
def raw_bytes(both: Both) -> None:
    both.compare(lambda host, port, name, first: [PYTHON, "-B", FOLDER / "with_bytes.py", first, host, port, name])


@PART.case
def django(both: Both) -> None:
    needs("python3-django", "python3-psycopg2")
    both.compare(lambda host, port, name, first: [PYTHON, "-B", FOLDER / "with_django.py", first, host, port, name])


@PART.case
def sqlalchemy(both: Both) -> None:
    needs("python3-sqlalchemy", "python3-psycopg2")
    both.compare(lambda host, port, name, first: [PYTHON, "-B", FOLDER / "with_sqlalchemy.py", first, host, port, name])


@PART.case
def jdbc(both: Both) -> None:
    """It has no Unix sockets."""
    needs("libpostgresql-jdbc-java", "default-jdk-headless")
    with tempfile.TemporaryDirectory(prefix="escrowd-java-") as folder, Relay(both.cluster.socket) as straight, Relay(both.proxy.socket) as through:
        subprocess.run(["javac", "-encoding", "UTF-8", "-cp", JDBC, "-d", folder, FOLDER / "WithJdbc.java"], check=True, timeout=END)
        ports = {PORT: straight.port, PROXYS: through.port}
        for more in ("", "&prepareThreshold=1", "&preferQueryMode=simple", "&reWriteBatchedInserts=true&binaryTransfer=true"):
            both.compare(partial(in_java, folder, ports, more))


def in_java(folder: str, ports: Mapping[int, int], more: str, _: str, port: int, name: str, first: int) -> Sequence[object]:
    """Returns the command of the program in Java, which connects to a TCP port, with further parameters."""
    return ["java", "-XX:+UseSerialGC", "-XX:TieredStopAtLevel=1", "-cp", f"{JDBC}:{folder}", "WithJdbc", first,
            f"jdbc:postgresql://127.0.0.1:{ports[port]}/{name}?user=clerk{more}"]


@PART.case
def node_pg(both: Both) -> None:
    given = os.environ.get(NODE_MODULES)
    modules = Path(given) if given else unpack_node_pg()
    if modules is None or not is_here("nodejs"):
        raise Skipped("Debian's node-pg cannot be had")
    try:
        both.compare(lambda host, port, name, first: ["node", FOLDER / "with_node.js", first, host, port, name], {"NODE_PATH": str(modules)})
    finally:
        if not given:
            shutil.rmtree(modules.parents[2])


@PART.case
def lib_pq(both: Both) -> None:
    """A driver of Go, where Go is installed: it is too large to be fetched for this."""
    needs("golang-go", "golang-github-lib-pq-dev")
    with tempfile.TemporaryDirectory(prefix="escrowd-go-") as folder:
        env = {**os.environ, "GO111MODULE": "off", "GOPATH": "/usr/share/gocode", "GOCACHE": folder, "GOFLAGS": "-p=2"}
        subprocess.run(["go", "build", "-o", f"{folder}/with_pq", FOLDER / "with_pq.go"], check=True, timeout=END, env=env)
        both.compare(lambda host, port, name, first: [f"{folder}/with_pq", first, host, port, name])


@PART.case
def pgbench(both: Both) -> None:
    """In three modes: order and row in one transaction. Its numbers differ, the sums don't."""
    for mode in ("simple", "extended", "prepared"):
        both.count += 1
        first = both.count * EACH
        both.rows(first)
        with tempfile.NamedTemporaryFile("w") as script:
            script.write(f"\\set item {first} + random(1, 5)\nBEGIN;\nINSERT INTO orders (item, pieces) VALUES (:item, 1);\n"
                         "UPDATE stock SET pieces = pieces - 1 WHERE id = :item;\nCOMMIT;\nUPDATE stock SET pieces = pieces + 1 WHERE id = :item;\n")
            script.flush()
            words = ["pgbench", "-n", "-M", mode, "-f", script.name, "-c", "8", "-t", "10", both.proxy.dsn()]
            done = subprocess.run(words, stdout=subprocess.PIPE, stderr=subprocess.STDOUT, text=True, timeout=END, check=False)
        expect((done.returncode, "processed: 80/80" in done.stdout), (0, True), done.stdout)
        with both.cluster.connect() as it:
            found = it.execute("SELECT sum(pieces) FROM stock WHERE id BETWEEN %s AND %s", (first, first + 99)).fetchall()
            written = it.execute("SELECT count(*) FROM orders WHERE item BETWEEN %s AND %s", (first, first + 99)).fetchall()
        expect((found, written), ([(500,)], [(80,)]))


PSQL = r"""
\d stock
\d+ orders
\dt
\di
\df+ pg_size_pretty
\x on
SELECT * FROM stock WHERE id = {first} + 1;
\x off
UPDATE stock SET pieces = pieces - 1 WHERE id = {first} + 1;
UPDATE stock SET pieces = pieces - 3 WHERE id = {one};
\set VERBOSITY sqlstate
UPDATE stock SET pieces = pieces - 3000 WHERE id = {one};
BEGIN;
DECLARE c SCROLL CURSOR FOR SELECT i FROM generate_series(1, 50) AS i;
UPDATE stock SET pieces = pieces - 1 WHERE id = {one};
FETCH 3 FROM c;
FETCH BACKWARD 1 FROM c;
MOVE FORWARD ALL FROM c;
CLOSE c;
INSERT INTO orders (item, pieces) VALUES ({one}, 1);
SAVEPOINT a;
UPDATE stock SET pieces = pieces - 3000 WHERE id = {one};
SELECT 1;
ROLLBACK TO a;
UPDATE stock SET pieces = pieces - 1 WHERE id = {one};
COMMIT;
COPY orders (item, pieces) FROM STDIN;
{one}	5
{one}	6
\.
COPY (SELECT item, pieces FROM orders WHERE item = {one} ORDER BY id) TO STDOUT WITH CSV HEADER;
PREPARE p (integer) AS SELECT title, pieces FROM stock WHERE id = $1;
EXECUTE p({one});
\gdesc
SELECT title, pieces FROM stock WHERE id = {one} \gx
EXPLAIN (COSTS off) UPDATE stock SET pieces = pieces - 1 WHERE id = {one};
LISTEN news;
SELECT 1 AS a \; SELECT 2 AS b;
BEGIN \; INSERT INTO orders (item, pieces) VALUES ({one}, 2) \; UPDATE stock SET pieces = pieces - 2 WHERE id = {one} \; COMMIT;
INSERT INTO orders (item, pieces) VALUES ({one}, 1) RETURNING item \; UPDATE stock SET pieces = pieces - 1 WHERE id = {one} RETURNING title \; SELECT 'ä' AS c;
UPDATE stock SET pieces = pieces - 1 WHERE id = {one} \; UPDATE stock SET pieces = pieces - 3000 WHERE id = {one} \; SELECT 1;
\set VERBOSITY default
SELECT 'ä' \; UPDATE stock SET pieces = pieces - 1 WHERE id = {one} \; SELECT nothing;
WITH s AS (UPDATE stock SET pieces = pieces - 1 WHERE id = {one} RETURNING id, title) SELECT * FROM s;
DELETE FROM stock WHERE id = {first} + 5;
SELECT id, title, pieces FROM stock WHERE id BETWEEN {first} AND {first} + 99 ORDER BY id;
SELECT nothing;
"""


@PART.case
def psql(both: Both) -> None:
    with tempfile.NamedTemporaryFile("w", encoding="utf-8") as script:

        def words(host: str, port: int, name: str, first: int) -> Sequence[object]:
            script.seek(0)
            script.truncate()
            script.write(PSQL.format(first=first, one=first + 2).replace("WHERE id = " + str(first) + " + 1;", f"WHERE id = {first + 1};"))
            script.flush()
            # What shows the names of triggers, of the declared table alone, is left out.
            return ["bash", "-c", f"psql -XaE -P pager=off -h {host} -p {port} -U clerk {name} < {script.name} 2>&1 "
                    "| grep -vE \"escrow|^Triggers:|^Triggers firing always:|with PID|c.oid|a.attrelid|'[0-9]+'\""]

        expect(len(both.compare(words).splitlines()) > 150, True)


@PART.case
def pg_dump_and_restore(both: Both) -> None:
    """A dump through the proxy is that of PostgreSQL, and goes back through the proxy."""
    both.rows(0)
    for more in ((), ("--inserts", "-n", "public")):
        same(rows(dumped(both.cluster.dsn(), *more)), rows(dumped(both.proxy.dsn(), *more)))
    both.cluster.run("CREATE DATABASE copy")
    whole = subprocess.run(["pg_dump", "-Fc", "-d", both.plain.dsn()], check=True, capture_output=True, timeout=END).stdout
    done = subprocess.run(["pg_restore", "-d", both.proxy.dsn(dbname="copy")], input=whole, capture_output=True, timeout=END, check=False)
    expect((done.returncode, done.stderr), (0, b""))
    plain, again = dumped(both.plain.dsn()), dumped(Database(both.cluster, "copy").dsn())
    same(sorted(rows(plain)), sorted(rows(again)))
    both.cluster.run("DROP DATABASE copy")


def dumped(dsn: str, *more: str) -> str:
    """Returns a dump."""
    return subprocess.run(["pg_dump", *more, "-d", dsn], check=True, capture_output=True, text=True, timeout=END).stdout


def rows(dump: str) -> List[str]:
    """Returns the lines of a dump without comments and restrictions."""
    return [it for it in dump.splitlines() if it and not re.match(r"--|\\(un)?restrict", it)]


if __name__ == "__main__":
    main(PART)
