"""The queries of the catalog that clients send, to the gateway and to PostgreSQL over equal tables: columns, types and rows have to be equal.

Each file of the folder `catalog` has what one client sends, as recorded on the wire; `meaning.sql` has what the evaluator knows, `faults.sql` what it
refuses, with the position that PostgreSQL shows. A line `-- ==` begins a query. Behind it may stand why rows differ on purpose (then columns and types are
compared alone), and the value of `$1`.
"""
from __future__ import annotations

import re
from pathlib import Path
from typing import Dict, List, NamedTuple, Optional, Tuple

from clients import wire
from clients.servers import Gateway, Postgres
from clients.suite import Part, main
from clients.wire import BINARY, TEXT, Connection

PART = Part("catalog_like_postgres")
CORPUS = Path(__file__).parent / "catalog"
FAULTS = "faults"
BEGIN = re.compile(r"-- ==(?: rows differ: (?P<why>.*?))?(?: values: (?P<value>.*))?")
OURS = (
    "CREATE TABLE stock (id INTEGER PRIMARY KEY, pieces INTEGER RESERVABLE CONSTRAINT in_stock CHECK (pieces >= 0), price NUMBER(8,2), "
    "name VARCHAR2(20))",
    "CREATE TABLE orders (k VARCHAR2(10) PRIMARY KEY, n INTEGER RESERVABLE CONSTRAINT orders_n_check CHECK (n <= 100))",
)
THEIRS = (
    "CREATE TABLE stock (id bigint PRIMARY KEY, pieces bigint NOT NULL CONSTRAINT in_stock CHECK (pieces >= 0), price numeric(8,2) NOT NULL, "
    "name varchar(20) NOT NULL)",
    "CREATE TABLE orders (k varchar(10) PRIMARY KEY, n bigint NOT NULL CHECK (n <= 100))",
    # The gateway shows what is RESERVABLE as a comment.
    "COMMENT ON COLUMN stock.pieces IS 'RESERVABLE'",
    "COMMENT ON COLUMN orders.n IS 'RESERVABLE'",
)
RELATIONS = ("stock", "stock_pkey", "orders", "orders_pkey")


class Asked(NamedTuple):
    """A query of the corpus."""

    client: str
    text: str
    why: Optional[str]
    values: Tuple[str, ...]


class Answer(NamedTuple):
    """What a server gave: its columns, or the SQLSTATE of an error and its position if that counts, and its rows."""

    columns: List[Tuple[str, int, int]]
    rows: List[Tuple[Optional[bytes], ...]]


def corpus() -> List[Asked]:
    """Reads all queries."""
    found: List[Asked] = []
    for path in sorted(CORPUS.glob("*.sql")):
        lines: List[str] = []
        for line in path.read_text().splitlines():
            begin = BEGIN.fullmatch(line)
            if begin:
                value = begin["value"]
                lines = []
                found.append(Asked(path.stem, "", begin["why"], (value,) if value else ()))
            elif found:
                lines.append(line)
                found[-1] = found[-1]._replace(text="\n".join(lines))
    assert len(found) > 100, len(found)
    return found


class Side:
    """One of the two servers, with the Oids that the tables have there."""

    def __init__(self, connection: Connection, tables: Tuple[str, ...]) -> None:
        self.connection = connection
        connection.do(*tables)
        rows = connection.rows("SELECT relname, oid FROM pg_class WHERE relnamespace = 2200")
        self.oids: Dict[str, str] = {name: oid for name, oid in rows if name in RELATIONS}
        assert sorted(self.oids) == sorted(RELATIONS), self.oids

    def ask(self, asked: Asked, form: int) -> Answer:
        """Sends a query, and returns what comes, with names in place of the tables' own Oids."""
        text = re.sub("@([a-z_]+)@", lambda it: self.oids[it[1]], asked.text)
        self.connection.send(wire.run(text, asked.values, results=[form]) + wire.sync())
        columns: List[Tuple[str, int, int]] = []
        rows: List[Tuple[Optional[bytes], ...]] = []
        for it in self.connection.until_ready():
            if it.kind == "E":
                place = it.fields().get("P", "0") if asked.client == FAULTS else "0"
                columns = [(it.fields()["C"], int(place), 0)]
            elif it.kind == "T":
                columns = [(name, oid, modifier) for name, oid, modifier, _ in it.columns()]
            elif it.kind == "D":
                rows.append(tuple(self.named(value, form) for value in it.values()))
        return Answer(columns, rows)

    def named(self, value: Optional[bytes], form: int) -> Optional[bytes]:
        """Returns the name of a table for its Oid."""
        for name, oid in self.oids.items():
            own = oid.encode() if form == TEXT else int(oid).to_bytes(4, "big")
            if value == own:
                return name.encode()
        return value


def compare(gateway: Gateway, form: int) -> None:
    """Sends all queries to both, and shows all differences."""
    differences: List[str] = []
    with Postgres("fsync=off") as postgres, Connection(gateway.socket) as ours, Connection(postgres.socket) as theirs:
        here, there = Side(ours, OURS), Side(theirs, THEIRS)
        for asked in corpus():
            found, wanted = here.ask(asked, form), there.ask(asked, form)
            title = f"== {asked.client}: {asked.text}"
            if found.columns != wanted.columns:
                differences += [title, f"columns {found.columns}", f"PostgreSQL {wanted.columns}"]
            is_same = sorted(map(repr, found.rows)) == sorted(map(repr, wanted.rows))
            if asked.why is None and not is_same:
                only = [[it for it in one if it not in other] for one, other in ((found.rows, wanted.rows), (wanted.rows, found.rows))]
                differences += [title, f"rows {only[0][:5]}", f"PostgreSQL {only[1][:5]}"]
            elif asked.why is not None and is_same and found.rows:
                differences += [title, f"rows are equal, though {asked.why}"]
    if differences:
        raise AssertionError("\n".join(differences[:90]))


@PART.served
def as_text(gateway: Gateway) -> None:
    compare(gateway, TEXT)


@PART.served
def in_binary(gateway: Gateway) -> None:
    compare(gateway, BINARY)


if __name__ == "__main__":
    main(PART)
