"""PostgreSQL's protocol by plain sockets: builds a client's messages, and reads a server's."""
from __future__ import annotations

import socket
import struct
import time
from pathlib import Path
from typing import Dict, Iterable, List, NamedTuple, Optional, Sequence, Tuple, Union

from clients.servers import END

PROTOCOL = 196608
SSL_REQUEST, GSS_REQUEST, CANCEL_REQUEST = 80877103, 80877104, 80877102
NO_ROW_LIMIT = 0
TEXT, BINARY = 0, 1
# Oids of types.
INT2, INT4, INT8, NUMERIC, VARCHAR, STRING, UNKNOWN, UNSPECIFIED = 21, 23, 20, 1700, 1043, 25, 705, 0
Value = Optional[Union[str, bytes]]


class Ended(Exception):
    """The server closed the connection."""


class Message(NamedTuple):
    """A message of the server."""

    kind: str
    body: bytes

    def fields(self) -> Dict[str, str]:
        """Returns the fields of an error or of a notice by their letters."""
        parts = self.body.split(b"\0")
        return {part[:1].decode(): part[1:].decode() for part in parts if part}

    def columns(self) -> List[Tuple[str, int, int, int]]:
        """Returns the name, type, type modifier and format of each column of a row description."""
        found, at = [], 2
        for _ in range(struct.unpack_from("!h", self.body)[0]):
            end = self.body.index(b"\0", at)
            _, _, oid, _, modifier, shape = struct.unpack_from("!ihihih", self.body, end + 1)
            found.append((self.body[at:end].decode(), oid, modifier, shape))
            at = end + 19
        return found

    def values(self) -> List[Optional[bytes]]:
        """Returns the values of a row."""
        found: List[Optional[bytes]] = []
        at = 2
        for _ in range(struct.unpack_from("!h", self.body)[0]):
            length = struct.unpack_from("!i", self.body, at)[0]
            at += 4
            found.append(None if length < 0 else self.body[at:at + length])
            at += max(length, 0)
        return found

    def shown(self) -> str:
        """Returns the message in words, without what differs from server to server: texts, oids of tables, versions."""
        if self.kind in "EN":
            fields = self.fields()
            return f"{fields['S']} {fields['C']}"
        if self.kind == "T":
            return "columns " + ", ".join(f"{name}:{oid}:{modifier}:{shape}" for name, oid, modifier, shape in self.columns())
        if self.kind == "t":
            count = struct.unpack_from("!h", self.body)[0]
            return f"parameters {list(struct.unpack_from(f'!{count}i', self.body, 2))}"
        if self.kind == "D":
            return "row " + "|".join("NULL" if it is None else it.decode("latin-1") for it in self.values())
        if self.kind == "C":
            return f"complete {self.body[:-1].decode()}"
        if self.kind == "Z":
            return f"ready {self.body.decode()}"
        names = {"1": "parsed", "2": "bound", "3": "closed", "n": "no data", "s": "suspended", "I": "empty"}
        return names.get(self.kind, f"{self.kind} {self.body!r}")


def message(kind: str, body: bytes) -> bytes:
    """Returns a message of a client."""
    return kind.encode() + struct.pack("!i", len(body) + 4) + body


def text(it: Union[str, bytes]) -> bytes:
    """Returns a text as messages have it, with a zero behind it."""
    return (it.encode() if isinstance(it, str) else it) + b"\0"


def startup(database: Optional[str] = "bank", *, protocol: int = PROTOCOL, **more: str) -> bytes:
    """Returns a startup packet of the user `clerk`."""
    words = {"user": "clerk", **({"database": database} if database else {}), **more}
    body = struct.pack("!i", protocol) + b"".join(text(name) + text(value) for name, value in words.items()) + b"\0"
    return struct.pack("!i", len(body) + 4) + body


def request(code: int, more: bytes = b"") -> bytes:
    """Returns a request that comes in place of a startup packet."""
    return struct.pack("!ii", 8 + len(more), code) + more


def query(statements: Union[str, bytes]) -> bytes:
    return message("Q", text(statements))


def parse(statement: Union[str, bytes], name: str = "", types: Sequence[int] = ()) -> bytes:
    return message("P", text(name) + text(statement) + struct.pack(f"!h{len(types)}i", len(types), *types))


def bind(values: Sequence[Value] = (), name: str = "", portal: str = "", formats: Sequence[int] = (), results: Sequence[int] = ()) -> bytes:
    body = text(portal) + text(name) + struct.pack(f"!h{len(formats)}h", len(formats), *formats) + struct.pack("!h", len(values))
    for it in values:
        value = it.encode() if isinstance(it, str) else it
        body += struct.pack("!i", -1) if value is None else struct.pack("!i", len(value)) + value
    return message("B", body + struct.pack(f"!h{len(results)}h", len(results), *results))


def describe_statement(name: str = "") -> bytes:
    return message("D", b"S" + text(name))


def describe_portal(name: str = "") -> bytes:
    return message("D", b"P" + text(name))


def execute(portal: str = "", most: int = NO_ROW_LIMIT) -> bytes:
    return message("E", text(portal) + struct.pack("!i", most))


def close_statement(name: str = "") -> bytes:
    return message("C", b"S" + text(name))


def close_portal(name: str = "") -> bytes:
    return message("C", b"P" + text(name))


def flush() -> bytes:
    return message("H", b"")


def sync() -> bytes:
    return message("S", b"")


def terminate() -> bytes:
    return message("X", b"")


def run(statement: str, values: Sequence[Value] = (), **more: Sequence[int]) -> bytes:
    """Returns the messages by which most drivers run a statement, without Sync."""
    bound = bind(values, formats=more.get("formats", ()), results=more.get("results", ()))
    return parse(statement, types=more.get("types", ())) + bound + describe_portal() + execute()


class Connection:
    """A connection to a server at a Unix socket."""

    def __init__(self, path: Path, timeout: float = END, ready: bool = True, database: str = "bank", options: str = "") -> None:
        self.socket = socket.socket(socket.AF_UNIX)
        self.socket.settimeout(timeout)
        self.connect(path, time.monotonic() + timeout)
        self.unread = b""
        if ready:
            self.send(startup(database, options=options) if options else startup(database))
            self.until_ready()

    def __enter__(self) -> "Connection":
        return self

    def __exit__(self, *_: object) -> None:
        self.close()

    def connect(self, path: Path, end: float) -> None:
        """Connects. If many others have come, and the server has not looked since, the line is full for a while."""
        while True:
            try:
                self.socket.connect(str(path))
                return
            except BlockingIOError:
                if time.monotonic() > end:
                    raise
                time.sleep(0.005)

    def close(self) -> None:
        """Closes the socket, without Terminate."""
        self.socket.close()

    def send(self, *messages: bytes) -> None:
        self.socket.sendall(b"".join(messages))

    def _take(self, count: int) -> bytes:
        while len(self.unread) < count:
            try:
                more = self.socket.recv(65536)
            except ConnectionResetError:
                more = b""
            if not more:
                raise Ended(f"the server closed the connection, with {len(self.unread)} bytes of a message sent")
            self.unread += more
        taken, self.unread = self.unread[:count], self.unread[count:]
        return taken

    def byte(self) -> bytes:
        """Reads the answer to a request for SSL or GSS."""
        return self._take(1)

    def read(self) -> Message:
        """Reads a message. Raises Ended if there is none any more."""
        head = self._take(5)
        return Message(chr(head[0]), self._take(struct.unpack_from("!i", head, 1)[0] - 4))

    def until_ready(self) -> List[Message]:
        """Reads messages up to ReadyForQuery, that one included."""
        found = [self.read()]
        while found[-1].kind != "Z":
            found.append(self.read())
        return found

    def until_ready_or_end(self) -> List[Message]:
        """Reads messages up to ReadyForQuery, or up to the end behind an error."""
        found = [self.read()]
        while found[-1].kind not in "ZE":
            found.append(self.read())
        return found

    def until_end(self) -> List[Message]:
        """Reads messages until the server closes the connection."""
        found: List[Message] = []
        try:
            while True:
                found.append(self.read())
        except Ended:
            return found

    def ask(self, statements: str) -> List[str]:
        """Runs a simple query. Returns what comes, in words."""
        self.send(query(statements))
        return [it.shown() for it in self.until_ready()]

    def extended(self, *messages: bytes) -> List[str]:
        """Sends messages with a Sync behind them. Returns what comes, in words."""
        self.send(*messages, sync())
        return [it.shown() for it in self.until_ready()]

    def do(self, *statements: str) -> None:
        """Runs statements. Fails unless each succeeds."""
        for it in statements:
            self.send(query(it))
            for found in self.until_ready():
                if found.kind == "E":
                    raise AssertionError(f"{it}: {found.fields()}")

    def rows(self, statement: str) -> List[Tuple[str, ...]]:
        """Returns the rows of a query, as texts."""
        self.send(query(statement))
        found = self.until_ready()
        for it in found:
            if it.kind == "E":
                raise AssertionError(f"{statement}: {it.fields()}")
        return [tuple("NULL" if value is None else value.decode() for value in it.values()) for it in found if it.kind == "D"]


def all_kinds() -> Iterable[Tuple[str, bytes]]:
    """Returns each message of a client, by its name, as a server takes it behind the startup."""
    yield "query", query("SELECT * FROM T WHERE ID = 1")
    yield "parse", parse("SELECT * FROM T WHERE ID = $1", types=[INT8])
    yield "bind", bind(["1"], results=[BINARY])
    yield "describe portal", describe_portal()
    yield "execute", execute()
    yield "describe statement", describe_statement()
    yield "close portal", close_portal()
    yield "close statement", close_statement()
    yield "flush", flush()
    yield "sync", sync()
