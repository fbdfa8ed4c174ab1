"""Stands in for escrowd-proxy in tests of the SQL: an owner with its keeper, and clients that it greets and notes for."""
from __future__ import annotations

import hashlib
import random
import re
import struct
from pathlib import Path
from typing import Any, Dict, List, NamedTuple, Optional, Sequence, Tuple

import psycopg

from clients.servers import PATIENCE, Postgres, wait_until

SQL = Path(__file__).resolve().parents[1] / "sql"
OWNER = (1702064993, 1)
# The seconds behind which a statement is not slow: it waits for what does not come.
LONGEST = 60.0 * PATIENCE
# The role of the proxy's own connections. It has the rights that the page says, and no others.
ROLE = "escrowd"


def of_proxy(dsn: str) -> str:
    """Returns a connection string as a proxy has it."""
    return dsn.replace("user=clerk", f"user={ROLE}")


class Cluster(Postgres):
    """A PostgreSQL that can crash and start again over its files, with schema escrow."""

    def __init__(self, *settings: str) -> None:
        super().__init__("max_prepared_transactions=5", "fsync=off", f"statement_timeout={round(LONGEST)}s", *settings)
        self.words: Sequence[object] = ()
        self.user: Optional[str] = None

    def start(self) -> None:
        super().start()
        self.run(f"CREATE ROLE {ROLE} LOGIN")

    def launch(self, words: Sequence[object], user: Optional[str] = None, env: Optional[Dict[str, str]] = None) -> None:
        self.words, self.user = words, user
        super().launch(words, user, env)

    def again(self) -> None:
        """Starts it again, and waits until it serves."""
        super().launch(self.words, self.user)
        self.await_socket(self.socket)
        wait_until("PostgreSQL serves again", self.serves, pause=0.01)

    def serves(self) -> bool:
        """Returns whether it serves. Fails if it has ended."""
        status = self.running().poll()
        if status is not None:
            raise AssertionError(f"PostgreSQL ended with status {status}: {self.said()[-2000:]}")
        try:
            self.connect().close()
        except psycopg.OperationalError:
            return False
        return True

    def connect(self, user: str = "clerk") -> "psycopg.Connection[Any]":
        """Connects as a role. Statements commit by themselves."""
        return psycopg.connect(self.dsn().replace("user=clerk", f"user={user}"), autocommit=True)

    def run(self, *statements: str, user: str = "clerk") -> None:
        """Runs statements as a role, each by itself."""
        with self.connect(user) as it:
            for statement in statements:
                it.execute(statement.encode())

    def script(self, name: str, change: Optional[Tuple[str, str]] = None) -> None:
        """Runs a script of the folder sql in one transaction, with a text of it changed into another."""
        text = (SQL / name).read_text(encoding="utf-8")
        if change:
            assert change[0] in text, f"{name} has no {change[0]}"
            text = text.replace(*change)
        with self.connect() as it:
            it.execute(b"BEGIN")
            it.execute(text.encode())
            if name == "install.sql":
                it.execute(f"GRANT escrow_proxy TO {ROLE}".encode())
            it.execute(b"COMMIT")


def perform(connection: "psycopg.Connection[Any]", text: str, values: Sequence[Any], prepare: Optional[bool] = None) -> "psycopg.Cursor[Any]":
    """Sends a text of the proxy's with its values, as it is: psycopg writes the same numbers again."""
    named = re.sub(r"\$(\d)", r"%(\1)s", text)
    return connection.execute(named.encode(), {str(place): it for place, it in enumerate(values, 1)}, prepare=prepare)


def array(values: Sequence[object]) -> str:
    """Returns keys as an array of any type."""
    return "{" + ",".join(f'"{it}"' for it in values) + "}"


class Noted(NamedTuple):
    """What a note answered."""

    id: int
    answer: bytes
    folded: bool

    @classmethod
    def of(cls, row: Optional[Sequence[Any]]) -> "Noted":
        """Reads its row. The id is that of 64 bits of the transaction or subtransaction that has written the note's row."""
        assert row is not None and row[0] is not None, "no note"
        top, writer, answer, folded = struct.unpack(">QI32s?", row[0].ljust(45, b"\0"))
        whole = top - top % 2**32 + writer
        return cls(whole if whole >= top else whole + 2**32, answer, folded)


class Owner:
    """The owner of an epoch. The locks are those of its keeper."""

    def __init__(self, cluster: Cluster) -> None:
        self.cluster = cluster
        self.keeper = cluster.connect()
        self.epoch = random.getrandbits(63)
        self.number = 0
        self.key = bytes(self.one("SELECT key FROM escrow.secret")[0])
        # The backend of a former owner's connection may still end.
        wait_until("OWNER is free", lambda: self.one("SELECT pg_try_advisory_lock(%s, %s)", *OWNER)[0])
        assert self.one("SELECT pg_try_advisory_lock(%s)", self.epoch)[0]
        self.keeper.execute("SELECT escrow.set_epoch(%s)", (self.epoch,))

    @classmethod
    def of(cls, cluster: Cluster) -> "Owner":
        """Returns a stand-in for the owner that a proxy is: it notes under the proxy's epoch, and holds no lock."""
        it = cls.__new__(cls)
        it.cluster, it.keeper = cluster, cluster.connect()
        it.epoch = int(it.one("SELECT last_value FROM escrow.epoch")[0])
        it.number = int(it.one("SELECT last_value FROM escrow.greeted")[0])
        it.key = bytes(it.one("SELECT key FROM escrow.secret")[0])
        return it

    def one(self, query: str, *values: object) -> Any:
        """Returns the only row of a query on the keeper."""
        return self.keeper.execute(query.encode(), values).fetchone()

    def hash(self, *words: object) -> bytes:
        """Returns SHA-512 over words and the secret."""
        return hashlib.sha512("|".join(str(it) for it in words).encode() + self.key).digest()

    def mac(self, *words: object) -> bytes:
        """Returns the MAC of words."""
        return self.hash(*words)[:32]

    def next(self) -> int:
        """Returns a number that was not used in this epoch."""
        self.number += 1
        return self.number

    def status(self, xid: int) -> str:
        """Returns what PostgreSQL says of a transaction's id."""
        return str(self.one("SELECT pg_xact_status(%s::text::xid8)", xid)[0])

    def declared(self, relation: str) -> Any:
        """Returns number and note's text of a table."""
        return self.one("SELECT number, note_text FROM escrow.declared WHERE relation = %s::regclass", relation)

    def load(self, relation: str, key: object, number: Optional[int] = None) -> Optional[List[str]]:
        """Loads a row. Returns its reservable values. The load has a number, or the next one."""
        table, _ = self.declared(relation)
        found = self.one(f"SELECT escrow.load_{table}(%s, %s, %s)", self.epoch, number or self.next(), str(key))[0]
        return None if found is None else list(found)

    def leave(self, relation: str, key: object, number: Optional[int] = None) -> bool:
        """Leaves a row, of which nothing is open. Returns whether it could lock it. It has a number, or the next one."""
        table, _ = self.declared(relation)
        return bool(self.one(f"SELECT escrow.leave_{table}(%s, %s, %s)", self.epoch, number or self.next(), str(key))[0])

    def fold(self, relation: str, *keys: object) -> List[str]:
        """Folds keys on the keeper, as no proxy does. Returns those of which nothing is left."""
        number, _ = self.declared(relation)
        return [it for it, in self.keeper.execute(f"SELECT escrow.fold_{number}(%s)".encode(), ([str(it) for it in keys],))]


class Client:
    """A connection of a client, and what the proxy sends on it."""

    def __init__(self, owner: Owner, user: str = "clerk", greets: bool = True) -> None:
        self.owner = owner
        self.connection = owner.cluster.connect(user)
        # What notes with these proofs have to answer.
        self.answers: Dict[bytes, bytes] = {}
        if greets:
            self.greet()

    def greet(self) -> None:
        """Greets the connection."""
        number = self.owner.next()
        proof = self.owner.mac("greet", self.owner.epoch, self.connection.info.backend_pid, number)
        self.connection.execute("SELECT escrow.greet(%s, %s, %s)", (self.owner.epoch, number, proof))

    def execute(self, query: str) -> "psycopg.Cursor[Any]":
        """Sends what the client writes."""
        return self.connection.execute(query.encode())

    def arguments(self, relation: str, key: object, *changes: object) -> List[Any]:
        """Returns the text of a note and its arguments."""
        owner = self.owner
        table, text = owner.declared(relation)
        number = owner.next()
        given = [None if it is None else str(it) for it in changes]
        written = "{" + ",".join(it or "NULL" for it in given) + "}"
        halves = owner.hash("note", table, owner.epoch, self.connection.info.backend_pid, number, written, key)
        self.answers[halves[:32]] = halves[32:]
        return [text, owner.epoch, number, str(key), written, halves[:32], relation]

    def send(self, arguments: Sequence[Any]) -> Noted:
        """Sends a note by the extended protocol, and returns its answer."""
        noted = Noted.of(perform(self.connection, arguments[0], arguments[1:]).fetchone())
        assert noted.answer == self.answers[arguments[5]], "the answer is not that of the note"
        return noted

    def direct_arguments(self, relation: str, key: object, *changes: object) -> List[Any]:
        """Returns the text of a direct note and its arguments."""
        arguments = self.arguments(relation, key, *changes)
        arguments[0] = self.owner.one("SELECT direct_text FROM escrow.declared WHERE relation = %s::regclass", relation)[0]
        return arguments

    def direct(self, relation: str, key: object, *changes: object) -> bool:
        """Notes changes of an UPDATE that is a transaction by itself. Returns whether they are in the row already."""
        noted = self.send(self.direct_arguments(relation, key, *changes))
        assert self.owner.status(noted.id) == "committed"
        return noted.folded

    def here(self, relation: str, key: object, *changes: object) -> bool:
        """Changes a row without a reservation. Returns whether that was done."""
        owner = self.owner
        table, text = owner.one("SELECT number, here_text FROM escrow.declared WHERE relation = %s::regclass", relation)
        number = owner.next()
        given = [None if it is None else str(it) for it in changes]
        shown, written = str(key), ",".join(it or "" for it in given)
        proof = owner.mac("here", table, owner.epoch, self.connection.info.backend_pid, number, len(shown.encode()), shown, written)
        done = perform(self.connection, text, (owner.epoch, number, shown, given, proof, relation)).fetchone()
        assert done is not None
        return bool(done[0])

    def fold(self, relation: str, *keys: object) -> None:
        """Sends an own fold."""
        text = self.owner.one("SELECT own_text FROM escrow.declared WHERE relation = %s::regclass", relation)[0]
        perform(self.connection, text, (array(keys),))

    def note(self, relation: str, key: object, *changes: object) -> Noted:
        """Notes changes."""
        return self.send(self.arguments(relation, key, *changes))
