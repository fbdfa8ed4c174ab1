"""What the tests of escrowd-proxy share: cases on one cluster, the proxy, and a forwarder that loses connections."""
from __future__ import annotations

import functools
import os
import shutil
import signal
import subprocess
import sys
import threading
from contextlib import contextmanager
from pathlib import Path
from typing import Any, Callable, ContextManager, Iterator, List, Optional, Tuple, TypeVar

import psycopg
from psycopg import errors

from clients.servers import BUILT, PATIENCE, PROGRAM, START, Postgres, Server, postgres_binary, unprivileged, wait_until
from clients.suite import Alone, Part
from proxy.test.standin import Cluster, of_proxy

PROXY = Path(os.environ.get("ESCROWD_PROXY", BUILT / "release/escrowd-proxy"))
PORT = 6000
# The milliseconds that a COMMIT waits for its fold where a test reads the row behind it: a busy machine folds within them too.
FOLDED = ("--fold-wait", round(20_000 * PATIENCE))
# The proxy starts the server that the other tests have too.
ENVIRONMENT = {**os.environ, "ESCROWD": str(PROGRAM)}
TOP = Path(__file__).resolve().parents[2]
Act = TypeVar("Act", bound=Callable[..., None])


class SharedPart(Part):
    """Cases that share what is opened once. Behind each of them `after` cleans it."""

    def __init__(self, name: str, opened: Callable[[], ContextManager[Tuple[Any, ...]]], after: Callable[..., None] = lambda *_: None) -> None:
        super().__init__(name)
        self.opened, self.after = opened, after
        self.shared: Tuple[Any, ...] = ()

    def case(self, act: Act) -> Act:
        """Adds a case that gets what is shared."""

        @functools.wraps(act)
        def alone() -> None:
            try:
                act(*self.shared)
            finally:
                self.after(*self.shared)

        self.cases.append(Alone(alone))
        return act

    def run(self, wanted: List[str]) -> None:
        with self.opened() as self.shared:
            super().run(wanted)


@contextmanager
def installed() -> Iterator[Tuple[Cluster]]:
    """Opens a cluster with schema escrow."""
    with Cluster() as cluster:
        cluster.script("install.sql")
        yield (cluster,)


class Proxy(Server):
    """escrowd-proxy in front of a cluster, or of what forwards to it."""

    # Options follow the address, as in a command line.
    # pylint: disable-next=keyword-arg-before-vararg
    def __init__(self, cluster: Postgres, address: str = "", *options: object, postgres: Optional[str] = None) -> None:
        super().__init__()
        self.address, self.options = address, options
        self.postgres = postgres or of_proxy(cluster.dsn())

    @property
    def socket(self) -> Path:
        """The path that clients connect to, unless it listens at an address."""
        return self.folder / f".s.PGSQL.{PORT}"

    def start(self) -> None:
        listen = self.address or self.folder
        self.launch([PROXY, "--listen", listen, "--port", PORT, "--postgres", self.postgres, *self.options], env=ENVIRONMENT)
        if not self.address:
            self.await_socket(self.socket)

    def dsn(self, **words: str) -> str:
        """Returns a connection string."""
        host, port = self.address.split(":") if self.address else (str(self.folder), str(PORT))
        return " ".join(f"{name}={value}" for name, value in {"host": host, "port": port, "dbname": "bank", "user": "clerk", **words}.items())

    def await_owner(self) -> None:
        """Waits until it is the owner, so that it knows what is declared."""
        wait_until("the proxy is the owner", lambda: "owner of epoch" in self.said())

    def connect(self, **words: str) -> "psycopg.Connection[Any]":
        """Connects through the proxy."""
        return psycopg.connect(self.dsn(**words), autocommit=True)


def expect_cancel(connection: "psycopg.Connection[Any]") -> None:
    """Fails unless a cancel ends a statement of the connection. It is sent until it does: one before the beginning ends nothing. The next one comes late,
    since one that is on its way when the statement ends would end another."""
    is_over = threading.Event()

    def cancel() -> None:
        pause = 0.2
        while not is_over.wait(pause):
            connection.cancel()
            pause = 5.0

    thread = threading.Thread(target=cancel)
    thread.start()
    try:
        connection.execute("SELECT pg_sleep(600)")
        raise AssertionError("it was not cancelled")
    except errors.QueryCanceled as error:
        assert "user request" in str(error), error
    finally:
        is_over.set()
        thread.join()


class Standby(Cluster):
    """A standby of a PostgreSQL that runs, and that COMMITs wait for. It follows over a socket in a folder."""

    def __init__(self, primary: Postgres, through: Optional[Path] = None) -> None:
        super().__init__(*primary.settings)
        self.primary, self.through = primary, through

    def start(self) -> None:
        user = unprivileged()
        home = self.folder / "data"
        os.chmod(self.folder, 0o755)
        home.mkdir()
        if user:
            shutil.chown(home, user)
        copy = [postgres_binary("pg_basebackup"), "-D", home / "cluster", "-R", "-c", "fast", "-d", self.primary.dsn("postgres")]
        subprocess.run([str(it) for it in copy], check=True, user=user, cwd="/", capture_output=True, timeout=START)
        self.sockets, self.socket = home, home / f".s.PGSQL.{self.port}"
        settings = ("listen_addresses=", f"port={self.port}", f"unix_socket_directories={home}", "max_connections=120", *self.settings,
                    f"primary_conninfo=host={self.through or self.primary.sockets} port={self.port} user=clerk application_name=standby")
        self.launch([postgres_binary("postgres"), "-D", home / "cluster", *(word for it in settings for word in ("-c", it))], user=user)
        self.await_socket(self.socket)
        with psycopg.connect(self.primary.dsn(), autocommit=True) as it:
            it.execute("ALTER SYSTEM SET synchronous_standby_names = standby")
            it.execute("SELECT pg_reload_conf()")
            wait_until("the standby is synchronous", lambda: it.execute("SELECT sync_state FROM pg_stat_replication").fetchall() == [("sync",)])

    def promote(self) -> None:
        """Makes it a primary."""
        self.run("SELECT pg_promote()")


class Forwarder(Server):
    """A process that passes bytes on from a socket of its own to another, and loses or delays them when it is told to."""

    def __init__(self, target: Path, port: int, delay: float = 0.0) -> None:
        super().__init__()
        self.target, self.port, self.delay = target, port, delay

    @property
    def socket(self) -> Path:
        """The path at which it listens."""
        return self.folder / f".s.PGSQL.{self.port}"

    def start(self) -> None:
        os.chmod(self.folder, 0o755)
        self.launch([sys.executable, "-B", Path(__file__).with_name("forwarder.py"), self.socket, self.target, self.delay])
        self.await_socket(self.socket)
        os.chmod(self.socket, 0o777)  # PostgreSQL does not run as root

    def drop(self, are_all: bool = False) -> None:
        """Loses about half of the connections, or all, each end of them at a time of its own."""
        self.running().send_signal(signal.SIGUSR2 if are_all else signal.SIGUSR1)

    def deafen(self) -> None:
        """Lets a proxy's keeper hear nothing, not even the end of its connection; or, the second time, lets it hear all."""
        self.running().send_signal(signal.SIGHUP)

    def stall(self) -> None:
        """Passes nothing on until it is told to."""
        self.running().send_signal(signal.SIGSTOP)

    def go_on(self) -> None:
        """Passes on what waited."""
        self.running().send_signal(signal.SIGCONT)
