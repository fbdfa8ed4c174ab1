#!/usr/bin/env python3
"""Tests `escrowd-proxy install` and `uninstall`. Each case begins with what the former ones left."""
from __future__ import annotations

import subprocess
from contextlib import contextmanager
from functools import partial
from typing import Any, Iterator, Tuple

import psycopg

from clients.servers import wait_until
from clients.suite import main
from proxy.test.harness import PROXY, Proxy, SharedPart, Standby
from proxy.test.standin import ROLE, SQL, Cluster

# What a database has of schema escrow, apart from the rows of its tables.
OBJECTS = """
    SELECT (SELECT count(*) FROM pg_namespace WHERE nspname = 'escrow'), (SELECT count(*) FROM pg_event_trigger),
        (SELECT count(*) FROM pg_roles WHERE rolname LIKE 'escrow\\_%'), (SELECT count(*) FROM pg_trigger WHERE NOT tgisinternal)
"""


@contextmanager
def bare() -> Iterator[Tuple[Cluster]]:
    """Opens a cluster without schema escrow."""
    with Cluster() as cluster:
        yield (cluster,)


PART = SharedPart("proxy_install", bare)
VERSION = 4

# What version 1 lacks.
WITHOUT_HOLDS = """DO $do$
DECLARE
	function regprocedure;
BEGIN
	UPDATE escrow.declared SET definition = '{}'; -- the event trigger lets it alone
	DROP TABLE escrow.hold_names, escrow.hold_lines CASCADE;
	FOR function IN SELECT oid FROM pg_proc WHERE pronamespace = 'escrow'::regnamespace
		AND proname ~ '^(hold|apply|open)_[0-9]+$|^(hold|take|take_hold|release|prolong|look|is_held|caller|end_of_hold|generate_holds|key_text)$' LOOP
		EXECUTE format('DROP FUNCTION %s', function);
	END LOOP;
	CREATE OR REPLACE FUNCTION escrow.version() RETURNS integer LANGUAGE sql IMMUTABLE AS 'SELECT 1';
END
$do$"""


def run(*words: str) -> Tuple[int, str, str]:
    """Runs the program. Returns its status, and what it says."""
    it = subprocess.run([str(PROXY), *words], stdout=subprocess.PIPE, stderr=subprocess.PIPE, text=True, timeout=120, check=False)
    return it.returncode, it.stdout, it.stderr


def apply(cluster: Cluster, act: str, user: str = "clerk") -> Tuple[int, str]:
    """Applies a script. Returns the status, and all that was said."""
    status, output, error = run(act, "--apply", "--postgres", cluster.dsn().replace("user=clerk", f"user={user}"))
    return status, output + error


def expect(found: Tuple[int, str], status: int, text: str) -> None:
    """Fails unless a script ended with this status and said this."""
    assert found[0] == status and text in found[1], found


def one(cluster: Cluster, query: str) -> Any:
    """Returns the only row of a query."""
    with cluster.connect() as it:
        return it.execute(query.encode()).fetchone()


@PART.case
def scripts_are_printed(cluster: Cluster) -> None:
    for act in ("install", "uninstall"):
        status, output, error = run(act)
        assert (status, error) == (0, "")
        assert output == f"BEGIN;\n\n{(SQL / act).with_suffix('.sql').read_text()}\nCOMMIT;\n"
    install, uninstall = (run(act)[1].encode() for act in ("install", "uninstall"))
    for script in (install, install, uninstall):
        it = subprocess.run(["psql", "-Xqd", cluster.dsn(), "-v", "ON_ERROR_STOP=1"], input=script, stdout=subprocess.PIPE, stderr=subprocess.PIPE, check=False)
        assert it.returncode == 0, it.stderr
    assert one(cluster, OBJECTS) == (0, 0, 0, 0)


@PART.case
def a_version_is_installed_kept_and_brought_up(cluster: Cluster) -> None:
    expect(apply(cluster, "uninstall"), 0, "schema escrow is not installed\n")
    assert apply(cluster, "install") == (0, f"schema escrow is installed, version {VERSION}\n")
    cluster.run("CREATE TABLE stock (id int PRIMARY KEY, pieces int NOT NULL CHECK (pieces >= 0))", "INSERT INTO stock VALUES (1, 10)",
                "SELECT escrow.reservable('stock', 'pieces')")
    secret = one(cluster, "SELECT key FROM escrow.secret")
    before = one(cluster, OBJECTS)
    expect(apply(cluster, "install"), 0, f"schema escrow had version {VERSION}, its functions are made anew\n")
    functions = "SELECT array_agg(oid::regprocedure::text ORDER BY oid::regprocedure::text) FROM pg_proc WHERE pronamespace = 'escrow'::regnamespace"
    made = one(cluster, functions)
    cluster.run(WITHOUT_HOLDS)
    expect(apply(cluster, "install"), 0, f"schema escrow is brought from version 1 to version {VERSION}\n")
    assert (one(cluster, "SELECT key FROM escrow.secret"), one(cluster, OBJECTS)) == (secret, before)
    assert one(cluster, functions) == made
    assert one(cluster, "SELECT count(*) FROM escrow.holds") == (0,)
    cluster.run(f"CREATE OR REPLACE FUNCTION escrow.version() RETURNS integer LANGUAGE sql IMMUTABLE AS 'SELECT {VERSION + 1}'")
    expect(apply(cluster, "install"), 1, f"schema escrow has version {VERSION + 1}, which is newer than {VERSION}")
    assert one(cluster, OBJECTS) == before


@PART.case
def what_fails_changes_nothing(cluster: Cluster) -> None:
    cluster.run(f"CREATE OR REPLACE FUNCTION escrow.version() RETURNS integer LANGUAGE sql IMMUTABLE AS 'SELECT {VERSION}'", "CREATE ROLE buyer LOGIN")
    before = one(cluster, OBJECTS)
    for act in ("install", "uninstall"):
        status, said = apply(cluster, act, "buyer")
        assert status == 1 and ("permission denied" in said or "must be" in said), said
    expect(apply(cluster, "install", "nobody"), 1, "nobody")
    status, _, said = run("install", "--apply", "--postgres", "host=/none user=clerk")
    assert status == 1 and "PostgreSQL cannot be reached" in said, said
    assert one(cluster, OBJECTS) == before


@PART.case
def a_running_proxy_keeps_the_schema(cluster: Cluster) -> None:
    cluster.run(f"GRANT escrow_proxy TO {ROLE}")
    with Proxy(cluster) as proxy:
        wait_until("the proxy is the owner", lambda: "owner of epoch" in proxy.said())
        expect(apply(cluster, "uninstall"), 1, "an escrowd-proxy is running\nHINT: Stop it first.")
        assert apply(cluster, "install")[0] == 0
        cluster.run("CREATE OR REPLACE FUNCTION escrow.version() RETURNS integer LANGUAGE sql IMMUTABLE AS 'SELECT 0'")
        expect(apply(cluster, "install"), 1, "an escrowd-proxy is running\nHINT: Stop it first.")
    with Proxy(cluster) as proxy:
        wait_until("the proxy tells", lambda: f"schema escrow has version 0, and this program needs {VERSION}" in proxy.said())
    assert apply(cluster, "install")[0] == 0


@PART.case
def tables_stay_as_they_were(cluster: Cluster) -> None:
    assert apply(cluster, "uninstall") == (0, "schema escrow is removed\n")
    assert one(cluster, OBJECTS) == (0, 0, 0, 0)
    assert one(cluster, "SELECT id, pieces FROM stock") == (1, 10)
    cluster.run("UPDATE stock SET pieces = 3", "TRUNCATE stock")
    with Proxy(cluster) as proxy:
        wait_until("the proxy tells", lambda: "schema escrow is not installed; run `escrowd-proxy install --apply`" in proxy.said())


@PART.alone
def a_standby_that_is_promoted_at_once() -> None:
    """PostgreSQL leaves the unlogged sequences of the schema as zeros there. The proxy reserves all the same, and a second one after it."""
    with Cluster() as first, Standby(first) as second:
        first.script("install.sql")
        first.run("CREATE TABLE stock (id integer PRIMARY KEY, pieces integer NOT NULL CHECK (pieces >= 0))", "INSERT INTO stock VALUES (1, 9)",
                  "SELECT escrow.reservable('stock', 'pieces')")
        first.kill()
        second.promote()
        for _ in range(2):
            with Proxy(second) as proxy:
                wait_until("a piece is taken", partial(is_taken, proxy))
        wait_until("both are folded", lambda: one(second, "SELECT pieces FROM stock") == (7,))


def is_taken(proxy: Proxy) -> bool:
    """Returns whether a piece is taken through a proxy, which may not be the owner yet, or not know the table."""
    try:
        with proxy.connect() as it:
            return it.execute("UPDATE stock SET pieces = pieces - 1 WHERE id = 1").rowcount == 1
    except (psycopg.OperationalError, psycopg.errors.FeatureNotSupported):
        return False


if __name__ == "__main__":
    main(PART)
