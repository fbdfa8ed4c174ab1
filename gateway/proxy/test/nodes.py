"""Machines of a cluster: etcd, PostgreSQL under Patroni, and escrowd-proxy. They are on ports of this machine, or each in a network namespace of its own,
where it can be cut off."""
from __future__ import annotations

import contextlib
import json
import os
import pwd
import signal
import subprocess
import urllib.request
from pathlib import Path
from types import TracebackType
from typing import Any, Dict, List, Optional, Sequence, Tuple, Type

import psycopg

from clients.servers import PATIENCE, Postgres, Server, free_port, postgres_binary, unprivileged, wait_until
from proxy.test.harness import TOP, Proxy
from proxy.test.standin import Cluster

SETTINGS = TOP.parent / "packaging"
PASSWORD = "secret"
# The seconds in which a machine serves.
READY = 240.0 * PATIENCE
# What `state` gives of a process that has ended.
ENDED = ("", "postgres Z")
# Where the clients are in a network of namespaces, and an address of Ethernet that nobody has.
CLIENTS, NOWHERE = "10.0.0.1", "02:00:00:00:00:01"

# No proxy of HTTP's that the environment names is between.
DIRECT = urllib.request.build_opener(urllib.request.ProxyHandler({}))


class Host:
    """A machine, which is this one here: each of its servers has a port that nobody uses."""

    def __init__(self, name: str, address: str = "127.0.0.1") -> None:
        self.name, self.address = name, address

    def place(self, _usual: int) -> str:
        """Returns where a server of it listens."""
        return f"{self.address}:{free_port()}"

    def entered(self, words: Sequence[object], user: Optional[str]) -> Tuple[List[object], Optional[str]]:
        """Returns how a program is started on it as a user."""
        return list(words), user


class Namespace(Host):
    """A machine by itself: a network namespace, whose servers have their usual ports. If it is not entered, it is that of this process."""

    def __init__(self, name: str, address: str, device: str = "eth0", is_entered: bool = True) -> None:
        super().__init__(name, address)
        self.device, self.is_entered = device, is_entered

    def place(self, usual: int) -> str:
        return f"{self.address}:{usual}"

    def entered(self, words: Sequence[object], user: Optional[str]) -> Tuple[List[object], Optional[str]]:
        its = pwd.getpwnam(user) if user else None
        return ["nsenter", f"--net=/run/netns/{self.name}", *(["-S", its.pw_uid, "-G", its.pw_gid] if its else []), "--", *words], None

    def ip(self, *words: str) -> None:
        """Runs a command of ip's in it."""
        subprocess.run(["ip", *(["-n", self.name] if self.is_entered else []), *words], check=True)


class Network:
    """Namespaces at a bridge, which is in the namespace of this process: `alone` has made that. Packets from one to another can be lost."""

    def __init__(self, hosts: Sequence[Namespace]) -> None:
        self.hosts = hosts
        self.clients = Namespace("clients", CLIENTS, "switch", is_entered=False)
        self.cuts: List[Tuple[Namespace, Namespace]] = []

    def __enter__(self) -> "Network":
        Path("/run/netns").mkdir(exist_ok=True)
        subprocess.run(["mount", "-t", "tmpfs", "tmpfs", "/run/netns"], check=True)
        ip = self.clients.ip
        for words in ("link set lo up", "link add switch type bridge", f"addr add {CLIENTS}/24 dev switch", "link set switch up"):
            ip(*words.split())
        for it in self.hosts:
            ip("netns", "add", it.name)
            ip("link", "add", it.name, "type", "veth", "peer", "name", it.device, "netns", it.name)
            ip("link", "set", it.name, "master", "switch", "up")
            for words in (f"addr add {it.address}/24 dev {it.device}", f"link set {it.device} up", "link set lo up"):
                it.ip(*words.split())
        return self

    def __exit__(self, *fault: object) -> None:
        """Nothing is left: the namespaces end with their last process, and this one's with it."""

    def lose(self, source: Namespace, target: Namespace) -> None:
        """Has all packets from one to the other lost, which neither hears of."""
        source.ip("neigh", "replace", target.address, "lladdr", NOWHERE, "dev", source.device, "nud", "permanent")
        self.cuts.append((source, target))

    def part(self, ones: Sequence[Namespace], others: Sequence[Namespace]) -> None:
        """Has all packets between some and others lost."""
        for one in ones:
            for other in others:
                self.lose(one, other)
                self.lose(other, one)

    def heal(self) -> None:
        """Has nothing lost any more."""
        for source, target in self.cuts:
            source.ip("neigh", "del", target.address, "dev", source.device)
        self.cuts = []


class OnHost(Server):  # pylint: disable=abstract-method  # its children start themselves
    """A server on a machine."""

    host: Host

    def launch(self, words: Sequence[object], user: Optional[str] = None, env: Optional[Dict[str, str]] = None) -> None:
        entered, user = self.host.entered(words, user)
        super().launch(entered, user, env)


class Etcd(OnHost):
    """A machine of those where Patroni keeps who leads."""

    def __init__(self, host: Host) -> None:
        super().__init__()
        self.host = host
        self.address, self.peer = host.place(2379), host.place(2380)
        self.members = [self]

    def start(self) -> None:
        client, peer = f"http://{self.address}", f"http://{self.peer}"
        members = ",".join(f"{it.host.name}=http://{it.peer}" for it in self.members)
        # What was written outlives the process without a flush, for which a busy machine may need longer than a leader's place lasts.
        own = {"UNSAFE_NO_FSYNC": "true",
               "NAME": self.host.name, "DATA_DIR": str(self.folder / "data"), "LISTEN_CLIENT_URLS": client, "ADVERTISE_CLIENT_URLS": client,
               "LISTEN_PEER_URLS": peer, "INITIAL_ADVERTISE_PEER_URLS": peer, "INITIAL_CLUSTER": members}
        self.launch(["etcd"], env={**os.environ, **settings("etcd.env"), **{f"ETCD_{name}": value for name, value in own.items()}})

    def serves(self) -> bool:
        """Returns whether it serves, with most of the others."""
        return is_ok(f"http://{self.address}/health")


class Node(OnHost):
    """A machine with Patroni and the PostgreSQL that it starts."""

    def __init__(self, host: Host, etcds: Sequence[Etcd], is_synchronous: bool = True) -> None:
        super().__init__()
        self.host, self.is_synchronous = host, is_synchronous
        self.address, self.rest = host.place(5432), host.place(8008)
        self.data = self.folder / "home/data"
        own = {"NAME": host.name, "ETCD_HOSTS": ",".join(it.address for it in etcds), "RESTAPI_LISTEN": self.rest, "RESTAPI_CONNECT_ADDRESS": self.rest,
               "POSTGRESQL_LISTEN": self.address, "POSTGRESQL_CONNECT_ADDRESS": self.address, "POSTGRESQL_DATA_DIR": str(self.data),
               "POSTGRESQL_BIN_DIR": str(postgres_binary("postgres").parent), "POSTGRESQL_PGPASS": str(self.folder / "home/pgpass"),
               "SUPERUSER_USERNAME": "clerk", "SUPERUSER_PASSWORD": PASSWORD}
        self.env = {**settings("patroni.env"), **{f"PATRONI_{name}": value for name, value in own.items()}}

    def start(self) -> None:
        user = unprivileged()
        home = self.folder / "home"
        os.chmod(self.folder, 0o755)
        home.mkdir(exist_ok=True)
        if user:
            os.chown(home, pwd.getpwnam(user).pw_uid, pwd.getpwnam(user).pw_gid)
        text = (SETTINGS / "patroni.yml").read_text(encoding="utf-8")
        if not self.is_synchronous:
            text = text.replace("synchronous_mode: true", "synchronous_mode: false")
        # All that PostgreSQL has is in its folder, so that nothing is left of one that was killed. It says nothing of refused statements. What was
        # written outlives processes without a flush.
        own = {"unix_socket_directories": home, "dynamic_shared_memory_type": "mmap", "log_min_messages": "log", "fsync": "off"}
        text += "\n".join(["  parameters:", *(f"    {name}: {value}" for name, value in own.items()), ""])
        (self.folder / "patroni.yml").write_text(text, encoding="utf-8")
        self.launch(["patroni", self.folder / "patroni.yml"], user=user, env={**os.environ, **self.env, "HOME": str(home)})

    def plays(self, role: str) -> bool:
        """Returns whether Patroni says that its PostgreSQL has a role."""
        return is_ok(f"http://{self.rest}/{role}")

    def has_standby(self) -> bool:
        """Returns whether its PostgreSQL leads, and sends its log to a standby."""
        try:
            with DIRECT.open(f"http://{self.rest}/patroni", timeout=2) as it:
                said = json.load(it)
        except (OSError, ValueError):
            return False
        return said.get("role") in ("master", "primary") and any(it.get("state") == "streaming" for it in said.get("replication", ()))

    def locked(self) -> List[str]:
        """Returns the lines of PostgreSQL's file of its first process, if there is one."""
        with contextlib.suppress(OSError):
            return (self.data / "postmaster.pid").read_text(encoding="utf-8").splitlines()
        return []

    def postmaster(self) -> Optional[int]:
        """Returns PostgreSQL's first process, if it runs."""
        lines = self.locked()
        process = int(lines[0]) if lines and lines[0].isdigit() else 0
        # If it was killed, its file stays, and another PostgreSQL's process may have its number by now.
        return process if state(process) not in ENDED and is_in(process, self.data) else None

    def fail(self, by: int = signal.SIGKILL) -> None:
        """Ends PostgreSQL at once; Patroni goes on."""
        process = self.postmaster()
        if process is not None:
            with contextlib.suppress(ProcessLookupError):
                os.kill(process, by)
                os.kill(process, signal.SIGCONT)  # if it stands still
            wait_until("PostgreSQL has ended", lambda: state(process) in ENDED)

    def end_patroni(self) -> None:
        """Ends Patroni at once; PostgreSQL goes on."""
        self.signal_and_wait(signal.SIGKILL)

    def kill(self) -> None:
        """Ends the machine: Patroni and PostgreSQL at once."""
        self.end_patroni()
        self.fail()

    def __exit__(self, kind: Optional[Type[BaseException]], value: Optional[BaseException], trace: Optional[TracebackType]) -> None:
        self.end_patroni()
        self.fail(signal.SIGQUIT)  # it leaves no shared memory
        lines = self.locked()
        if len(lines) > 6:  # it was killed before, and left some
            subprocess.run(["ipcrm", "-m", lines[6].split()[-1]], stderr=subprocess.DEVNULL, check=False)
        super().__exit__(kind, value, trace)


class Elected(Cluster):
    """Whichever PostgreSQL takes writes."""

    def __init__(self, nodes: Sequence[Node]) -> None:
        super().__init__()
        self.nodes = nodes

    def start(self) -> None:
        """Nothing: Patroni starts it."""

    def dsn(self, database: str = "bank") -> str:
        return writable(self.nodes, database)

    def connect(self, user: str = "clerk") -> "psycopg.Connection[Any]":
        """Connects to each by itself: psycopg 3.1.7 goes on to no next host behind one that is silent."""
        lost = psycopg.OperationalError("there is no machine")
        for it in self.nodes:
            try:
                return psycopg.connect(writable([it]).replace("user=clerk", f"user={user}"), autocommit=True)
            except psycopg.OperationalError as error:
                lost = error
        raise lost

    def run(self, *statements: str, user: str = "clerk") -> None:
        """Runs statements as a role, as soon as a PostgreSQL takes writes."""
        served: List["psycopg.Connection[Any]"] = []

        def is_served() -> bool:
            with contextlib.suppress(psycopg.OperationalError):
                served.append(self.connect(user))
            return bool(served)

        wait_until("a PostgreSQL takes writes", is_served, READY)
        with served[0] as it:
            for statement in statements:
                it.execute(statement.encode())


def writable(nodes: Sequence[Node], database: str = "bank") -> str:
    """Returns how the PostgreSQL that takes writes is reached among some."""
    hosts, ports = (",".join(it.address.split(":")[at] for it in nodes) for at in (0, 1))
    return f"host={hosts} port={ports} dbname={database} user=clerk password={PASSWORD} target_session_attrs=read-write connect_timeout=2"


class Front(OnHost, Proxy):
    """A machine with escrowd-proxy."""

    def __init__(self, host: Host, cluster: Postgres, postgres: str) -> None:
        super().__init__(cluster, host.place(6432), postgres=postgres)
        self.host = host


def settings(name: str) -> Dict[str, str]:
    """Returns the variables of a file of packaging's."""
    lines = (SETTINGS / name).read_text(encoding="utf-8").splitlines()
    return dict(line.split("=", 1) for line in lines if line and not line.startswith("#"))


def is_ok(url: str) -> bool:
    """Returns whether a URL is answered with status 200."""
    try:
        with DIRECT.open(url, timeout=2) as it:
            return bool(it.status == 200)
    except OSError:
        return False


def is_in(process: int, folder: Path) -> bool:
    """Returns whether a process works in a folder, as a PostgreSQL does in that of its data."""
    try:
        return os.readlink(f"/proc/{process}/cwd") == os.path.realpath(folder)
    except OSError:
        return False


def state(process: Optional[int]) -> str:
    """Returns a process's name and the letter of its state, or nothing if there is none."""
    try:
        name, rest = Path(f"/proc/{process}/stat").read_text(encoding="utf-8").split("(", 1)[1].rsplit(")", 1)
    except (OSError, IndexError):
        return ""
    return f"{name} {rest.split()[0]}"
