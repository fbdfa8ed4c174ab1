#!/usr/bin/env python3
"""Tests that escrowd-proxy relays what it does not understand: clients get what PostgreSQL sends, to the byte."""
from __future__ import annotations

import hashlib
import os
import signal
import socket
import subprocess
import time
from contextlib import contextmanager, suppress
from functools import partial
from pathlib import Path
from typing import Any, Iterator, Tuple

import psycopg
from psycopg import errors

from clients import wire
from clients.servers import END, PORT, children, free_port, wait_until
from clients.suite import main
from proxy.test.harness import Proxy, SharedPart, Standby, expect_cancel
from proxy.test.standin import ROLE, Cluster


@contextmanager
def relayed() -> Iterator[Tuple[Cluster, Proxy]]:
    """Opens a cluster and a proxy in front of it."""
    with Cluster() as cluster, Proxy(cluster) as proxy:
        yield cluster, proxy


PART = SharedPart("proxy_relay", relayed)
part = PART.case


@part
def psql_shows_the_same(cluster: Cluster, proxy: Proxy) -> None:
    script = b"""
        CREATE TABLE t (id serial PRIMARY KEY, what text UNIQUE); INSERT INTO t (what) SELECT 'x' || i FROM generate_series(1, 300) i;
        \\d t
        SELECT 1/0; SELECT * FROM t LIMIT 3; COPY t TO STDOUT; BEGIN; DECLARE c CURSOR FOR SELECT * FROM t; FETCH 5 FROM c; SELECT foo; ROLLBACK;
        INSERT INTO t (what) VALUES ('x1'); LISTEN a; NOTIFY a, 'b'; SET client_min_messages = debug1; DO $$ BEGIN RAISE NOTICE 'n'; END $$; \\set VERBOSITY verbose
        SELECT * FROM nothing;
    """
    shown = []
    for dsn in (cluster.dsn(), proxy.dsn()):
        cluster.run("DROP TABLE IF EXISTS t")
        words = ["psql", "-XaEd", dsn, "-P", "pager=off"]
        it = subprocess.run(words, input=script, stdout=subprocess.PIPE, stderr=subprocess.STDOUT, check=False)
        lines = it.stdout.splitlines()
        shown.append([line for line in lines if b"with PID" not in line and b"oid" not in line and b"pg_" not in line and b"'1" not in line])
    assert shown[0] == shown[1], "\n".join(f"{a!r} {b!r}" for a, b in zip(*shown) if a != b)
    assert len(shown[0]) > 350


@part
def pgbench_runs_in_three_modes(cluster: Cluster, proxy: Proxy) -> None:
    words = ["pgbench", "-h", str(proxy.folder), "-p", "6000", "-U", "clerk"]
    subprocess.run([*words, "-iq", "bank"], check=True, stderr=subprocess.DEVNULL)
    for mode in ("simple", "extended", "prepared"):
        it = subprocess.run([*words, "-n", "-M", mode, "-c", "10", "-t", "20", "bank"], stdout=subprocess.PIPE, stderr=subprocess.STDOUT, text=True,
                            check=False)
        assert it.returncode == 0 and "processed: 200/200" in it.stdout, it.stdout


@part
def large_messages_pass_in_parts(cluster: Cluster, proxy: Proxy) -> None:
    data = os.urandom(1 << 20) * 40
    with proxy.connect() as it:
        for size in (65_500, 65_530, 65_531, 65_532, 65_536, 65_537, 131_072, len(data)):
            found = it.execute("SELECT %b::bytea, length(%b)", (data[:size], data[:size])).fetchone()
            assert found == (data[:size], size), size
        it.execute("CREATE TEMP TABLE big (line text)")
        line = hashlib.sha256(b"x").hexdigest() * 100
        with it.cursor().copy("COPY big FROM STDIN") as copy:
            for _ in range(5_000):
                copy.write_row((line,))
        assert it.execute("SELECT count(*), min(line) = max(line) FROM big").fetchone() == (5_000, True)
        with it.cursor().copy("COPY big TO STDOUT") as copy:
            assert sum(len(bytes(block)) for block in copy) == 5_000 * (len(line) + 1)
    pid = proxy.running().pid
    peak = int(next(line for line in Path(f"/proc/{pid}/status").read_text(encoding="utf-8").splitlines() if line.startswith("VmHWM:")).split()[1])
    assert peak < 60_000, f"{peak} KB for messages of 40 MB"


@part
def pipelines_and_errors_keep_their_order(cluster: Cluster, proxy: Proxy) -> None:
    with proxy.connect() as it:
        with it.pipeline():
            cursors = [it.execute("SELECT %s::int", (n,)) for n in range(500)]
        assert [cursor.fetchone() for cursor in cursors] == [(n,) for n in range(500)]
        try:
            with it.pipeline():
                it.execute("SELECT 1")
                it.execute("SELECT 1 / 0")
                it.execute("SELECT 2")
            raise AssertionError("no error")
        except errors.DivisionByZero:
            pass
        assert it.execute("SELECT 3").fetchone() == (3,)


@part
def a_cancel_reaches_its_backend(cluster: Cluster, proxy: Proxy) -> None:
    with proxy.connect() as it, proxy.connect() as other:
        expect_cancel(it)
        assert it.execute("SELECT 1").fetchone() == other.execute("SELECT 1").fetchone() == (1,)


@part
def passwords_are_between_client_and_postgres(cluster: Cluster, proxy: Proxy) -> None:
    hba = Path(cluster.user and str(cluster.folder / "data") or str(cluster.folder)) / "cluster/pg_hba.conf"
    before = hba.read_text()
    hba.write_text("local all keeper scram-sha-256\n" + before)
    try:
        cluster.run("DROP ROLE IF EXISTS keeper", "CREATE ROLE keeper LOGIN PASSWORD 'right'", "SELECT pg_reload_conf()")
        wait_until("the rule holds", lambda: not opens(proxy, user="keeper"))
        assert opens(proxy, user="keeper", password="right") and not opens(proxy, user="keeper", password="wrong")
    finally:
        hba.write_text(before)
        cluster.run("SELECT pg_reload_conf()", "DROP ROLE keeper")


def opens(proxy: Proxy, **words: str) -> bool:
    """Returns whether a connection is accepted."""
    try:
        proxy.connect(**words).close()
    except psycopg.OperationalError:
        return False
    return True


@part
def ends_reach_the_other_side(cluster: Cluster, proxy: Proxy) -> None:
    def backends() -> int:
        with cluster.connect() as it:
            row = it.execute("SELECT count(*) FROM pg_stat_activity WHERE application_name = 'here'").fetchone()
        assert row is not None
        return int(row[0])

    # A client that vanishes inside a transaction.
    it = proxy.connect(application_name="here")
    it.execute("BEGIN; SELECT 1")
    socket.socket(fileno=os.dup(it.fileno())).shutdown(socket.SHUT_RDWR)
    wait_until("its backend ends", lambda: backends() == 0)
    # A client that sends no more gets the reply that it waits for.
    it = proxy.connect()
    it.pgconn.send_query(b"SELECT pg_sleep(1.5), 5")
    socket.socket(fileno=os.dup(it.fileno())).shutdown(socket.SHUT_WR)
    found = it.pgconn.get_result()
    assert found is not None and found.get_value(0, 1) == b"5", found
    # A backend that is ended: the client gets PostgreSQL's own words.
    it = proxy.connect(application_name="here")
    cluster.run("SELECT pg_terminate_backend(pid) FROM pg_stat_activity WHERE application_name = 'here'")
    try:
        it.execute("SELECT 1")
        raise AssertionError("it goes on")
    except psycopg.OperationalError as error:
        assert "terminating connection due to administrator command" in str(error), error
    # What is no message at all.
    for sent in (b"\0\0\0\3", b"GET / HTTP/1.1\r\n\r\n", b"\0\0\0\x08\x04\xd2\x16\x2f" * 3 + b"\xff\xff\xff\xff"):
        with socket.socket(socket.AF_UNIX) as raw:
            raw.connect(str(proxy.folder / ".s.PGSQL.6000"))
            raw.sendall(sent)
            raw.settimeout(END)
            got = b""
            with suppress(ConnectionResetError):  # it ends with bytes that it has not read
                while more := raw.recv(100):
                    got += more
            assert got in (b"", b"NNN"), got
    assert opens(proxy)


@part
def a_statement_may_come_with_the_startup(cluster: Cluster, proxy: Proxy) -> None:
    for path in (cluster.socket, proxy.socket):
        with wire.Connection(path, ready=False) as it:
            it.send(wire.startup(), wire.query("SELECT 7"), wire.parse("SELECT 8"), wire.bind(), wire.execute(), wire.sync())
            it.until_ready()
            found = [told.shown() for _ in range(2) for told in it.until_ready()]
            assert found[1:] == ["row 7", "complete SELECT 1", "ready I", "parsed", "bound", "row 8", "complete SELECT 1", "ready I"], found


@part
def it_listens_on_tcp_too(cluster: Cluster, proxy: Proxy) -> None:
    with Proxy(cluster, f"127.0.0.1:{free_port()}") as tcp:
        wait_until("it listens", lambda: opens(tcp, sslmode="prefer"))
        with tcp.connect() as connection:
            assert connection.execute("SELECT 7").fetchone() == (7,)
        assert not opens(tcp, sslmode="require")


@part
def it_says_when_postgres_is_away(cluster: Cluster, proxy: Proxy) -> None:
    cluster.end(signal.SIGINT)
    try:
        proxy.connect()
        raise AssertionError("connected")
    except psycopg.OperationalError as error:
        assert "PostgreSQL cannot be reached" in str(error), error
    cluster.again()
    assert opens(proxy)


@part
def a_signal_ends_it(cluster: Cluster, proxy: Proxy) -> None:
    with Proxy(cluster) as it:
        assert opens(it)
        assert it.end() == 0 and not (it.folder / ".s.PGSQL.6000").exists()
        # A socket that was left is replaced; one that is served is not.
        it.start()
        assert opens(it)
        it.kill()
        it.start()
        assert opens(it) and len(children(it.running().pid)) <= 1  # the server


@part
def a_standby_gets_no_client(cluster: Cluster, proxy: Proxy) -> None:
    """Where the connection string asks for a server that takes writes, a client is refused until there is one."""
    with Cluster() as first, Standby(first) as second:
        first.script("install.sql")
        # The proxy itself passes over a standby that is named first, and over what its role may do by default.
        first.run(f"ALTER ROLE {ROLE} SET default_transaction_read_only = on", "CREATE TABLE stock (id integer PRIMARY KEY, n integer NOT NULL)",
                  "INSERT INTO stock VALUES (1, 9)", "SELECT escrow.reservable('stock', 'n')")
        with Proxy(first, postgres=f"host={second.sockets},{first.sockets} port={PORT} dbname=bank user={ROLE}") as it:
            wait_until("it is the owner", lambda: "owner of epoch" in it.said())
            for left in (8, 7):
                with it.connect() as client, first.connect() as direct:
                    client.execute("BEGIN; UPDATE stock SET n = n - 1 WHERE id = 1; COMMIT")
                    wait_until("it is folded", partial(is_left, direct, left))
                    direct.execute("SELECT pg_terminate_backend(pid) FROM pg_stat_activity WHERE application_name = 'escrowd-proxy folder'")
            assert "ALARM" not in it.said(), it.said()
        target = f"host={first.sockets},{second.sockets} port={PORT} dbname=bank user=clerk target_session_attrs=read-write"
        with Proxy(first, postgres=target) as it:
            wait_until("it serves", lambda: opens(it))
            first.kill()
            begin = time.monotonic()
            while time.monotonic() < begin + 1:
                assert not opens(it)
            second.promote()
            wait_until("it serves again", lambda: opens(it))
            with it.connect() as client:
                client.execute("CREATE TABLE written (id integer)")


def is_left(it: "psycopg.Connection[Any]", count: int) -> bool:
    """Returns whether so much is in the row."""
    return it.execute("SELECT n FROM stock").fetchall() == [(count,)]


if __name__ == "__main__":
    main(PART)
