#!/usr/bin/env python3
"""Tests what escrowd-proxy counts, over HTTP and in a file."""
from __future__ import annotations

from contextlib import contextmanager
from pathlib import Path
from tempfile import TemporaryDirectory
from typing import Iterator, List, Tuple

from psycopg import errors

from clients.servers import END, free_port, wait_until
from clients.suite import main
from proxy.test.harness import Proxy, SharedPart
from proxy.test.nodes import DIRECT
from proxy.test.sql import refused
from proxy.test.standin import Cluster


@contextmanager
def declared() -> Iterator[Tuple[Cluster]]:
    """Opens a cluster with a declared table."""
    with Cluster() as cluster:
        cluster.script("install.sql")
        cluster.run("CREATE TABLE stock (id integer PRIMARY KEY, pieces integer NOT NULL CONSTRAINT in_stock CHECK (pieces >= 0))",
                    "INSERT INTO stock VALUES (1, 10)", "SELECT escrow.reservable('stock', 'pieces')")
        yield (cluster,)


PART = SharedPart("proxy_metrics", declared)


def lacks(text: str, lines: List[str]) -> List[str]:
    """Returns which of the lines a text does not have."""
    return [line for line in lines if line not in text.splitlines()]


@PART.case
def clients_folds_and_refusals_are_counted(cluster: Cluster) -> None:
    address = f"127.0.0.1:{free_port()}"

    def shown() -> str:
        with DIRECT.open(f"http://{address}/metrics", timeout=END) as answer:
            return str(answer.read().decode())

    with Proxy(cluster, "", "--metrics", address) as proxy:
        wait_until("it is the owner", lambda: "escrowd_proxy_owner 1" in shown())
        with proxy.connect() as it, proxy.connect() as other:
            it.execute("BEGIN")
            it.execute("UPDATE stock SET pieces = pieces - 3 WHERE id = 1")
            with refused(errors.CheckViolation):
                other.execute("UPDATE stock SET pieces = pieces - 8 WHERE id = 1")
            expected = ["escrowd_proxy_connections 2", "escrowd_proxy_reservations 1", "escrowd_proxy_rows_held 1", "escrowd_proxy_reservations_total 1",
                        'escrowd_proxy_refusals_total{constraint="in_stock",kind="check"} 1', "escrowd_proxy_loads_total 1"]
            wait_until("the reservation is shown", lambda: not lacks(shown(), expected))
            age = next(line for line in shown().splitlines() if line.startswith("escrowd_proxy_oldest_reservation_seconds"))
            assert 0 < float(age.split()[1]) < END, age
            it.execute("COMMIT")
            other.execute("BEGIN")
            other.execute("UPDATE stock SET pieces = pieces - 1 WHERE id = 1")
            other.execute("ROLLBACK")
        expected = ["escrowd_proxy_connections 0", "escrowd_proxy_reservations 0", "escrowd_proxy_rows_pending 0", "escrowd_proxy_oldest_reservation_seconds 0",
                    'escrowd_proxy_transactions_total{outcome="committed"} 1', 'escrowd_proxy_transactions_total{outcome="rolled_back"} 1',
                    "escrowd_proxy_folds_refused_total 0"]
        wait_until("the ends are shown", lambda: not lacks(shown(), expected))


@PART.case
def a_file_goes_with_the_program(cluster: Cluster) -> None:
    with TemporaryDirectory() as folder:
        path = Path(folder) / "proxy.prom"
        with Proxy(cluster, "", "--metrics", str(path)) as proxy:
            wait_until("the file is there", path.exists)
            assert "escrowd_proxy_build_info" in path.read_text()
            assert proxy.end() == 0
        assert not path.exists()
        path.mkdir()
        with Proxy(cluster, str(Path(folder)), "--metrics", str(path)) as proxy:
            assert proxy.running().wait(END) == 2 and "is not a regular file" in proxy.said()


if __name__ == "__main__":
    main(PART)
