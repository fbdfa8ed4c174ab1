#!/usr/bin/env python3
"""Tests that there is one owner: two programs, of which one is killed, stopped, or loses its keeper or its PostgreSQL."""
from __future__ import annotations

import os
import shutil
import signal
import tempfile
import time
from pathlib import Path
from typing import Any, Optional

import psycopg
from psycopg import errors

from clients.servers import PORT, PROGRAM, children, wait_until
from clients.suite import main
from proxy.test.harness import Forwarder, Proxy, SharedPart, installed
from proxy.test.sql import refused, same, stock, value
from proxy.test.standin import Client, Cluster, Owner

PART = SharedPart("proxy_takeover", installed)
part = PART.case


def prepare(cluster: Cluster) -> None:
    """Makes the table anew, with no owner."""
    stock(cluster).keeper.close()
    wait_until("nobody is the owner", lambda: owner(cluster) is None)


def owner(cluster: Cluster) -> Optional[int]:
    """Returns the process of who holds OWNER."""
    found = value(cluster, "SELECT process FROM escrow.owner()")
    return None if found is None else int(found)


def epoch(cluster: Cluster) -> int:
    """Returns the epoch, or 0 if nobody holds its lock."""
    with cluster.connect() as it:
        row = it.execute("SELECT last_value FROM escrow.epoch").fetchone()
        assert row is not None
        free = it.execute("SELECT pg_try_advisory_xact_lock_shared(%s)", row).fetchone()
        assert free is not None
    return 0 if free[0] else int(row[0])


def until_owned(cluster: Cluster, before: int = 0) -> float:
    """Waits for another epoch than the one before. Returns the seconds."""
    begin = time.monotonic()
    wait_until("there is a new owner", lambda: epoch(cluster) not in (0, before))
    return time.monotonic() - begin


@part
def the_second_waits_and_takes_over(cluster: Cluster) -> None:
    prepare(cluster)
    with Proxy(cluster) as first:
        until_owned(cluster)
        one = epoch(cluster)
        with Proxy(cluster) as second:
            time.sleep(1)
            same(epoch(cluster), one)
            # A transaction of the first one's is ended before the second serves; what it has committed stays.
            noted = Client(Owner.of(cluster))
            noted.note("stock", 1, -1)
            noted.execute("BEGIN")
            noted.note("stock", 1, -1)
            waiting = noted.arguments("stock", 1, -1)
            first.kill()
            took = until_owned(cluster, one)
            wait_until("it is ended", lambda: value(cluster, "SELECT count(*) FROM escrow.holders()") == 0)
            wait_until("it says so", lambda: "owner of epoch" in second.said())
            print(f"  killed: {took:.2f} s")
            try:
                noted.send(waiting)
                raise AssertionError("it goes on")
            except errors.OperationalError:
                pass
            same(value(cluster, "SELECT pieces FROM escrow.now_stock WHERE id = 1"), 9)


@part
def an_orphan_that_is_prepared_holds_it_up(cluster: Cluster) -> None:
    prepare(cluster)
    with Proxy(cluster) as first:
        until_owned(cluster)
        one = epoch(cluster)
        noted = Client(Owner.of(cluster))
        noted.execute("BEGIN")
        noted.note("stock", 1, -2)
        noted.execute("SELECT pg_advisory_unlock_all()")
        noted.execute("PREPARE TRANSACTION 'orphan'")
        with Proxy(cluster) as second:
            first.kill()
            until_owned(cluster, one)
            wait_until("it says what it waits for", lambda: "orphan" in second.said())
            assert "owner of epoch" not in second.said()
            cluster.run("COMMIT PREPARED 'orphan'")
            wait_until("it serves", lambda: "owner of epoch" in second.said())
            same(value(cluster, "SELECT pieces FROM escrow.now_stock WHERE id = 1"), 8)


@part
def one_that_is_stopped_is_replaced_and_can_do_nothing(cluster: Cluster) -> None:
    prepare(cluster)
    with Proxy(cluster) as first, Proxy(cluster) as second:
        until_owned(cluster)
        one = epoch(cluster)
        wait_until("one says that it is the owner", lambda: "owner of epoch" in first.said() + second.said())
        stopped, other = (first, second) if "owner of epoch" in first.said() else (second, first)
        shadow = Owner.of(cluster)
        zombie = Client(shadow)
        stopped.running().send_signal(signal.SIGSTOP)
        took = until_owned(cluster, one)
        print(f"  stopped: {took:.2f} s")
        assert took > 1, took  # its last word may have come before
        wait_until("it has ended who holds a journal", lambda: "owner of epoch" in other.said())
        with refused(errors.SerializationFailure, "not the owner any more"):
            zombie.note("stock", 1, -1)
        stopped.running().send_signal(signal.SIGCONT)
        wait_until("it knows", lambda: "not the owner any more" in stopped.said())
        two = epoch(cluster)
        time.sleep(1)
        same(epoch(cluster), two)
        other.kill()
        until_owned(cluster, two)


@part
def a_lost_keeper_and_a_restart_are_taken_over(cluster: Cluster) -> None:
    prepare(cluster)
    with Proxy(cluster) as it:
        until_owned(cluster)
        for how in ("keeper", "crash", "stop"):
            before = epoch(cluster)
            if how == "keeper":
                cluster.run("SELECT pg_terminate_backend(process) FROM escrow.owner()")
            else:
                if how == "crash":
                    cluster.kill()
                else:
                    cluster.end(signal.SIGINT)
                cluster.again()
            took = until_owned(cluster, before)
            print(f"  {how}: {took:.2f} s")
        assert it.running().poll() is None


@part
def a_server_that_is_silent_is_left(cluster: Cluster) -> None:
    """As behind a machine or a network that has failed, nobody hears of an end: the next host is asked."""
    prepare(cluster)
    with Forwarder(cluster.socket, PORT) as first, Forwarder(cluster.socket, PORT) as second:
        hosts = f"host={first.folder},{second.folder} port={PORT} dbname=bank user=clerk connect_timeout=3"
        with Proxy(cluster, postgres=hosts) as proxy:
            until_owned(cluster)
            one = epoch(cluster)

            def take() -> None:
                with proxy.connect() as it:
                    it.execute("UPDATE stock SET pieces = pieces - 1 WHERE id = 1")

            take()
            first.stall()
            until_owned(cluster, one)
            take()
            wait_until("it is folded", lambda: value(cluster, "SELECT pieces FROM stock WHERE id = 1") == 8)


@part
def what_a_former_owner_left_is_folded(cluster: Cluster) -> None:
    """Also if the journal or a row is locked meanwhile, or PostgreSQL starts behind the proxy."""
    former = stock(cluster)
    table, _ = former.declared("stock")

    def leave() -> None:
        """Leaves changes in the journal."""
        wait_until("nobody is the owner", lambda: owner(cluster) is None)
        it = Owner(cluster)
        for key in (1, 2):
            it.load("stock", key)
            Client(it).note("stock", key, -1)
        it.keeper.close()

    def is_folded(key: int, pieces: int) -> bool:
        marks = value(cluster, f"SELECT count(*) FROM escrow.held_{table} WHERE key = {key}")
        return (value(cluster, f"SELECT pieces FROM stock WHERE id = {key}"), marks) == (pieces, 0)

    former.keeper.close()
    leave()
    with cluster.connect() as it:
        it.execute(f"BEGIN; LOCK TABLE escrow.journal_{table} IN SHARE MODE")
        with Proxy(cluster) as proxy:
            wait_until("it is tried", lambda: "is not folded yet" in proxy.said())
            it.execute("COMMIT")
            wait_until("it is folded", lambda: is_folded(1, 9) and is_folded(2, 9))
            assert "ALARM" not in proxy.said(), proxy.said()
        leave()
        it.execute("BEGIN; SELECT FROM stock WHERE id = 1 FOR UPDATE")
        with Proxy(cluster) as proxy:
            wait_until("the other row is folded", lambda: is_folded(2, 8))
            time.sleep(0.5)  # its sweep is over, most likely
            it.execute("COMMIT")
            wait_until("the row is folded", lambda: is_folded(1, 8))
    leave()
    cluster.kill()
    with Proxy(cluster) as proxy:
        wait_until("it waits", lambda: "cannot be the owner" in proxy.said())
        cluster.again()
        wait_until("they are folded too", lambda: is_folded(1, 7) and is_folded(2, 7))


@part
def a_program_that_ends_at_once_is_started_now_and_then(cluster: Cluster) -> None:
    """It may be gone, or want memory. The proxy serves as soon as it stays."""
    prepare(cluster)
    with tempfile.TemporaryDirectory() as folder:
        program = Path(shutil.copy(PROGRAM, folder))
        with Proxy(cluster, "", "--program", program) as proxy:
            proxy.await_owner()
            hidden = program.rename(program.with_suffix(".away"))
            for child in children(proxy.running().pid):
                os.kill(child, signal.SIGKILL)
            ended = "the server has ended; it is started anew"
            wait_until("it has ended twice", lambda: proxy.said().count(ended) > 1)
            begin, before = time.monotonic(), proxy.said().count(ended)
            time.sleep(1)
            ends = proxy.said().count(ended) - before
            assert ends <= 2 + (time.monotonic() - begin) / 0.2, f"it has ended {ends} times"
            hidden.rename(program)
            wait_until("it serves again", lambda: is_reserved(proxy))


def is_reserved(proxy: Proxy) -> bool:
    """Returns whether a reservation is served."""
    try:
        with proxy.connect() as it:
            return it.execute("UPDATE stock SET pieces = pieces - 1 WHERE id = 1").rowcount == 1
    except psycopg.Error:
        return False


@part
def a_stranger_with_the_lock_is_ended(cluster: Cluster) -> None:
    prepare(cluster)
    with cluster.connect() as it:
        it.execute("DROP ROLE IF EXISTS stranger; CREATE ROLE stranger LOGIN")
    stranger: Any = cluster.connect("stranger")
    stranger.execute("SELECT pg_advisory_lock(1702064993, 1)")
    with Proxy(cluster):
        until_owned(cluster)
        try:
            stranger.execute("SELECT 1")
            raise AssertionError("it goes on")
        except errors.OperationalError:
            pass
    cluster.run("DROP ROLE stranger")


if __name__ == "__main__":
    main(PART)
