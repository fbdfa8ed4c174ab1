"""Starts and ends what the tests talk to: escrowd-pg, PostgreSQL and pgbouncer, each in a temporary folder."""
from __future__ import annotations

import base64
import glob
import hashlib
import hmac
import os
import pwd
import secrets
import shutil
import signal
import socket
import subprocess
import tempfile
import threading
import time
from contextlib import suppress
from pathlib import Path
from types import MappingProxyType
from types import TracebackType
from typing import Callable, Dict, List, Mapping, Optional, Sequence, Type, TypeVar

TOP = Path(__file__).resolve().parents[2]
# The environment may name other builds than those that the gate makes.
PROGRAM = Path(os.environ.get("ESCROWD", TOP / "crates/escrowd/out/escrowd"))
BUILT = Path(os.environ.get("CARGO_TARGET_DIR", TOP / "gateway/out"))
GATEWAY = Path(os.environ.get("ESCROWD_PG", BUILT / "release/escrowd-pg"))
PORT = 5432
# The part of each load that is tried: below 1 for a program that is built without a proof, which is slow and gets more time.
LOAD = float(os.environ.get("ESCROWD_LOAD", "1"))
PATIENCE = 1 if LOAD >= 1 else 5
# The seconds that a server may take to start and to end. What a test waits for is an event; these end a wait that hangs, within the limit of a case.
START = END = 120.0 * PATIENCE
IN_MEMORY: Mapping[str, Optional[Path]] = MappingProxyType({"bank": None})
IN_A_STORE: Mapping[str, Optional[Path]] = {"bank": Path("bank.db")}

Self = TypeVar("Self", bound="Server")


def wait_until(what: str, is_so: Callable[[], object], seconds: float = START, pause: float = 0.005) -> None:
    """Waits until something holds, which it asks again behind each pause. Fails if it does not hold in time."""
    end = time.monotonic() + seconds
    while not is_so():
        if time.monotonic() > end:
            raise AssertionError(f"not within {seconds} s: {what}")
        time.sleep(pause)


def is_answered(path: Path) -> bool:
    """Returns whether a server accepts connections at a Unix socket."""
    with socket.socket(socket.AF_UNIX) as it:
        it.settimeout(END)  # so that no full line of others holds it up
        try:
            it.connect(str(path))
        except OSError:
            return False
        return True


def children(process: int) -> List[int]:
    """Returns the processes that a process started and that still run."""
    found: List[int] = []
    for path in glob.glob("/proc/[0-9]*/stat"):
        try:
            parent = Path(path).read_text(encoding="utf-8").rsplit(")", 1)[1].split()[1]
        except (FileNotFoundError, ProcessLookupError):
            continue  # it has ended since
        if int(parent) == process:
            found.append(int(path.split("/")[2]))
    return sorted(found)


def resident(process: int) -> int:
    """Returns the bytes of memory that a process holds at its largest so far."""
    return memory(process, "VmHWM:")


def holds(process: int) -> int:
    """Returns the bytes of memory that a process holds now."""
    return memory(process, "VmRSS:")


def keeps(process: int) -> int:
    """Returns the bytes of memory that a process holds now, without the pages of its program's file that it has run so far."""
    return memory(process, "RssAnon:")


def memory(process: int, name: str) -> int:
    """Returns an amount of memory that the system tells of a process."""
    for line in Path(f"/proc/{process}/status").read_text(encoding="utf-8").splitlines():
        if line.startswith(name):
            return 1024 * int(line.split()[1])
    raise AssertionError(f"process {process} has ended")


def heard(fault: BaseException) -> List[str]:
    """Returns what the servers said that a fault has ended, to which they add."""
    said: List[str] = fault.__dict__.setdefault("heard", [])
    return said


class Server:
    """A process with a temporary folder, which goes when the server is left."""

    def __init__(self) -> None:
        self.folder = Path(tempfile.mkdtemp(prefix="escrowd-pg-"))
        self.process: Optional[subprocess.Popen[bytes]] = None

    def start(self) -> None:
        """Starts the server, and waits until it serves."""
        raise NotImplementedError

    def __enter__(self: Self) -> Self:
        try:
            self.start()
        except BaseException:
            self.__exit__(None, None, None)
            raise
        return self

    def __exit__(self, kind: Optional[Type[BaseException]], value: Optional[BaseException], trace: Optional[TracebackType]) -> None:
        if value is not None and self.said():
            heard(value).append(f"{type(self).__name__} said: {self.said()[-2000:]}")
        self.kill()
        shutil.rmtree(self.folder, ignore_errors=True)

    def launch(self, words: Sequence[object], user: Optional[str] = None, env: Optional[Dict[str, str]] = None) -> None:
        """Starts the process. What it says goes to a file."""
        with open(self.folder / "said", "ab") as said:
            self.process = subprocess.Popen([str(it) for it in words], stdin=subprocess.DEVNULL, stdout=said, stderr=said, user=user, env=env)

    def said(self) -> str:
        """Returns what the process wrote to its standard output and error."""
        path = self.folder / "said"
        return path.read_text(errors="replace") if path.exists() else ""

    def running(self) -> "subprocess.Popen[bytes]":
        """Returns the process. Fails if it was never started."""
        assert self.process is not None, "not started"
        return self.process

    def await_socket(self, path: Path) -> None:
        """Waits until the server accepts connections. Fails as soon as it ends instead."""

        def is_served() -> bool:
            status = self.running().poll()
            if status is not None:
                raise AssertionError(f"{type(self).__name__} ended with status {status}: {self.said()}")
            return is_answered(path)

        wait_until(f"{path} is answered", is_served)

    def end(self, by: int = signal.SIGTERM) -> int:
        """Sends a signal and returns the status with which the process ends."""
        self.running().send_signal(by)
        return self.running().wait(END)

    def kill(self) -> None:
        """Ends the process at once, if it runs."""
        self.signal_and_wait(signal.SIGKILL)

    def signal_and_wait(self, number: int) -> None:
        """Sends a signal that ends the process, if it runs, and waits for its end."""
        if self.process is not None and self.process.poll() is None:
            self.process.send_signal(number)
            try:
                self.process.wait(END)
            except subprocess.TimeoutExpired:
                self.process.kill()
                raise


# The sessions that a gateway gets, unless a test says otherwise, and the transactions that may have one at a time: few enough that a test takes all.
SESSIONS, TRANSACTIONS = 64, 60


class Gateway(Server):
    """escrowd-pg in front of a program for each database. A relative path of a store is one in the gateway's folder."""

    def __init__(self, databases: Mapping[str, Optional[Path]] = IN_MEMORY, options: Sequence[str] = ()) -> None:
        super().__init__()
        self.databases = {name: self.folder / path if path else None for name, path in databases.items()}
        self.options = [it.format(folder=self.folder) for it in options]

    @property
    def socket(self) -> Path:
        """The path that clients connect to."""
        return self.folder / f".s.PGSQL.{PORT}"

    @property
    def store(self) -> Path:
        """The path of the store of its first database."""
        path = next(iter(self.databases.values()))
        assert path is not None, "it is in memory"
        return path

    def words(self) -> List[str]:
        """Returns the command line."""
        named = [f"{name}={path}" if path else name for name, path in self.databases.items()]
        chosen = [word for it in named for word in ("--database", it)]
        sessions = [] if "--sessions" in self.options else ["--sessions", str(SESSIONS)]
        return [str(GATEWAY), "--listen", str(self.folder), "--port", str(PORT), "--program", str(PROGRAM), *chosen, *sessions, *self.options]

    def start(self) -> None:
        self.launch(self.words())
        self.await_socket(self.socket)

    def programs(self) -> List[int]:
        """Returns the processes of its databases."""
        return children(self.running().pid)

    def dsn(self, database: str = "bank", **more: object) -> str:
        """Returns a connection string for libpq."""
        words = {"host": self.folder, "port": PORT, "dbname": database, "user": "clerk", **more}
        return " ".join(f"{name}={value}" for name, value in words.items())

    def expect_clean_end(self) -> None:
        """Ends it by SIGTERM. Its status has to be 0, and it may not have panicked."""
        status = self.end()
        if status != 0 or "panicked" in self.said():
            raise AssertionError(f"the gateway ended with status {status}: {self.said()}")


def stored(path: Path, *statements: str) -> List[str]:
    """Returns what the program itself answers over a store that nobody else has open, without prefixes."""
    script = "".join(f"bank.1: {it}\n" for it in statements)
    done = subprocess.run([PROGRAM, "run", "--store", path], input=script, capture_output=True, text=True, timeout=END, check=False)
    if done.returncode != 0:
        raise AssertionError(f"the store does not open: status {done.returncode}: {done.stderr}")
    return [line.split("> ", 1)[1] for line in done.stdout.splitlines()]


def unprivileged() -> Optional[str]:
    """Returns the user for servers that refuse to run as root, or None where the tests do not run as root."""
    return "postgres" if os.geteuid() == 0 else None


def postgres_binary(name: str) -> Path:
    """Returns the newest installed binary of PostgreSQL with a name."""
    found = sorted(glob.glob(f"/usr/lib/postgresql/*/bin/{name}"), key=lambda it: float(it.split("/")[4]))
    if not found:
        raise AssertionError(f"PostgreSQL's {name} is not installed")
    return Path(found[-1])


class Postgres(Server):
    """A PostgreSQL of its own, with the database `bank`, to compare with."""

    def __init__(self, *settings: str) -> None:
        super().__init__()
        self.settings, self.port = settings, PORT
        self.sockets = self.socket = Path()

    def start(self) -> None:
        user = unprivileged()
        data = self.folder / "data"
        if user:
            os.chmod(self.folder, 0o755)
            data.mkdir()
            os.chown(data, pwd.getpwnam(user).pw_uid, pwd.getpwnam(user).pw_gid)
        home = data if user else self.folder
        cluster = home / "cluster"
        initdb = [postgres_binary("initdb"), "-D", cluster, "-U", "clerk", "-A", "trust", "-E", "UTF8", "--locale=C", "--no-sync"]
        subprocess.run([str(it) for it in initdb], check=True, user=user, cwd="/", stdout=subprocess.DEVNULL, timeout=START)
        settings = ("listen_addresses=", f"port={self.port}", f"unix_socket_directories={home}", "max_connections=120", *self.settings)
        chosen = [word for it in settings for word in ("-c", it)]
        self.sockets, self.socket = home, home / f".s.PGSQL.{self.port}"
        self.launch([postgres_binary("postgres"), "-D", cluster, *chosen], user=user)
        self.await_socket(self.socket)
        wait_until("PostgreSQL creates a database", lambda: self.psql("postgres", "CREATE DATABASE bank") == 0)

    def kill(self) -> None:
        """Ends PostgreSQL at once, but so that it leaves no shared memory."""
        self.signal_and_wait(signal.SIGQUIT)

    def psql(self, database: str, *statements: str) -> int:
        """Runs statements, and returns the status of psql."""
        words = ["psql", "-XAqtd", self.dsn(database), "-v", "ON_ERROR_STOP=1"] + [word for it in statements for word in ("-c", it)]
        return subprocess.run(words, stdout=subprocess.DEVNULL, stderr=subprocess.DEVNULL, timeout=END, check=False).returncode

    def dsn(self, database: str = "bank") -> str:
        """Returns a connection string for libpq."""
        return f"host={self.sockets} port={self.port} dbname={database} user=clerk"


# The ports that this process has been given. Each is kept by a name that goes with the process.
CLAIMS: List[socket.socket] = []


def free_port() -> int:
    """Returns a TCP port of this machine that nobody uses, that no client gets by itself while its server is away, and that no other test is given while
    this process lives."""
    least = int(Path("/proc/sys/net/ipv4/ip_local_port_range").read_text(encoding="utf-8").split()[0])
    while True:
        port = secrets.choice(range(10_000, max(least, 11_000)))
        claim = socket.socket(socket.AF_UNIX)
        try:
            claim.bind(f"\0escrowd-tests-port-{port}")
            with socket.socket() as it:
                it.bind(("127.0.0.1", port))
        except OSError:
            claim.close()
            continue
        CLAIMS.append(claim)
        return port


class Relay:
    """Passes bytes between a TCP port and a Unix socket."""

    def __init__(self, path: Path) -> None:
        self.path = path
        self.listener = socket.create_server(("127.0.0.1", 0))
        self.port = int(self.listener.getsockname()[1])

    def __enter__(self) -> "Relay":
        self.start(self.accept)
        return self

    def __exit__(self, kind: Optional[Type[BaseException]], value: Optional[BaseException], trace: Optional[TracebackType]) -> None:
        self.listener.shutdown(socket.SHUT_RDWR)
        self.listener.close()

    @staticmethod
    def start(act: Callable[..., None], *words: object) -> None:
        """Starts a thread."""
        threading.Thread(target=act, args=words, daemon=True).start()

    def accept(self) -> None:
        """Serves connections until the listener is closed."""
        while True:
            try:
                client, _ = self.listener.accept()
            except OSError:
                return
            server = socket.socket(socket.AF_UNIX)
            try:
                server.connect(str(self.path))
            except OSError:  # the server is away
                client.close()
                server.close()
                continue
            self.start(self.carry, client, server)
            self.start(self.carry, server, client)

    @staticmethod
    def carry(source: socket.socket, target: socket.socket) -> None:
        """Passes bytes on in one direction, and then the end. A side that ends with bytes that it has not read resets its connection: the other side
        hears of that end too."""
        try:
            while piece := source.recv(65536):
                target.sendall(piece)
            target.shutdown(socket.SHUT_WR)
        except OSError:
            for it in (target, source):
                with suppress(OSError):
                    it.shutdown(socket.SHUT_RDWR)


def scram_secret(password: str, iterations: int) -> str:
    """Returns what pgbouncer keeps of a password."""
    salt = b"not a secret"
    salted = hashlib.pbkdf2_hmac("sha256", password.encode(), salt, iterations)
    client, server = (hmac.digest(salted, it, "sha256") for it in (b"Client Key", b"Server Key"))
    stored, served, salted_by = (base64.b64encode(it).decode() for it in (hashlib.sha256(client).digest(), server, salt))
    return f"SCRAM-SHA-256${iterations}:{salted_by}${stored}:{served}"


class Pgbouncer(Server):
    """pgbouncer on a TCP port in front of a gateway. The user `clerk` needs the password `secret`."""

    PASSWORD = "secret"
    # The fewest iterations of SCRAM that JDBC's driver accepts. libpq accepts fewer, by which hundreds of clients log in quickly.
    ITERATIONS, FEW = 4096, 16
    PORTS = 3  # how many ports are tried, because another process may take one first

    def __init__(self, gateway: Gateway, mode: str, pool: int, iterations: int = ITERATIONS) -> None:
        super().__init__()
        self.gateway, self.mode, self.pool, self.iterations = gateway, mode, pool, iterations
        self.port = 0

    def start(self) -> None:
        (self.folder / "users").write_text(f'"clerk" "{scram_secret(self.PASSWORD, self.iterations)}"\n')
        user = unprivileged()
        if user:  # it has to reach its own folder and the gateway's socket
            for path, mode in ((self.folder, 0o755), (self.gateway.folder, 0o755), (self.gateway.socket, 0o666)):
                os.chmod(path, mode)
        for _ in range(self.PORTS):
            self.port = free_port()
            (self.folder / "ini").write_text(self.settings())
            self.launch([shutil.which("pgbouncer") or "/usr/sbin/pgbouncer", self.folder / "ini"], user=user)
            wait_until("pgbouncer listens", lambda: self.is_listening() or self.running().poll() is not None)
            if self.is_listening():
                return
        raise AssertionError(f"pgbouncer ended: {self.said()}")

    def is_listening(self) -> bool:
        """Returns whether it says that it accepts connections."""
        return f"listening on 127.0.0.1:{self.port}\n" in self.said()

    def settings(self) -> str:
        """Returns the text of its file of settings."""
        return "\n".join([
            "[databases]",
            f"bank = host={self.gateway.folder} port={PORT} dbname=bank user=clerk",
            "[pgbouncer]",
            "listen_addr = 127.0.0.1",
            f"listen_port = {self.port}",
            "unix_socket_dir =",
            "auth_type = scram-sha-256",
            f"auth_file = {self.folder}/users",
            f"pool_mode = {self.mode}",
            f"default_pool_size = {self.pool}",
            "max_client_conn = 600",
            "ignore_startup_parameters = extra_float_digits",
            "",
        ])

    def dsn(self, **more: object) -> str:
        """Returns a connection string for libpq."""
        words = {"host": "127.0.0.1", "port": self.port, "dbname": "bank", "user": "clerk", "password": self.PASSWORD, **more}
        return " ".join(f"{name}={value}" for name, value in words.items())
