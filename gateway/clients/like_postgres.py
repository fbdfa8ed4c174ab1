"""The same messages to PostgreSQL and to the gateway, where it claims to behave as PostgreSQL does: what comes back has to be equal.

Compared are kinds of messages, tags, SQLSTATE, severity, transaction states, row descriptions and rows; not texts. The tables are made so that types
are the same.
"""
from __future__ import annotations

import difflib
import os
import subprocess
from pathlib import Path
from typing import List, Tuple

from clients import wire
from clients.servers import END, Gateway, Postgres
from clients.sessions import EXTENDED, OURS, ROWS, SIMPLE, THEIRS, Session
from clients.suite import Part, expect, main
from clients.wire import Connection

PART = Part("like_postgres")
HERE = Path(__file__).parent
NO_SUCH_TABLE = "42P01"


def answers(connection: Connection, session: Session) -> List[str]:
    """Returns what comes back for the steps of a session, in words."""
    found: List[str] = []
    for step in session:
        found.append(f"--> {step if isinstance(step, str) else b' '.join(step)!r}")
        connection.send(wire.query(step) if isinstance(step, str) else b"".join(step) + wire.sync())
        came = [it for it in connection.until_ready() if it.kind != "S"]
        # PostgreSQL looks at tables when it parses, and the gateway when it describes or executes.
        quiet = "12n" if any(it.kind == "E" and it.fields()["C"] == NO_SUCH_TABLE for it in came) else ""
        found += [it.shown() for it in came if it.kind not in quiet]
    return found


def compare(gateway: Gateway, sessions: List[Tuple[str, Session]]) -> None:
    """Plays sessions to both, each from the same rows, and shows all differences."""
    differences: List[str] = []
    with Postgres("fsync=off") as postgres, Connection(gateway.socket) as ours, Connection(postgres.socket) as theirs:
        for title, session in sessions:
            for control, table in ((ours, OURS), (theirs, THEIRS)):
                control.ask("DROP TABLE stock")
                control.do(table, *ROWS)
            found = []
            for path in (postgres.socket, gateway.socket):
                with Connection(path) as it:
                    try:
                        found.append(answers(it, session))
                    except (wire.Ended, TimeoutError) as error:
                        found.append([f"no answer: {error}"])
            if found[0] != found[1]:
                differences += [f"== {title}", *list(difflib.unified_diff(found[0], found[1], "PostgreSQL", "gateway", lineterm="", n=2))[2:]]
    if differences:
        if "ESCROWD_SHOW" in os.environ:
            Path(os.environ["ESCROWD_SHOW"]).write_text("\n".join(differences), encoding="utf-8")
        raise AssertionError("\n".join(differences[:60]))


@PART.served
def simple_queries(gateway: Gateway) -> None:
    compare(gateway, SIMPLE)


@PART.served
def extended_queries(gateway: Gateway) -> None:
    compare(gateway, EXTENDED)


@PART.served
def a_session_by_psql(gateway: Gateway) -> None:
    """A session as one types it, to both. psql prints SQLSTATE alone of errors."""
    with Postgres("fsync=off") as postgres:
        printed = []
        for dsn, table in ((postgres.dsn(), THEIRS), (gateway.dsn(), OURS)):
            given = "\n".join([f"{table};", *(f"{it};" for it in ROWS), (HERE / "session.sql").read_text()])
            words = ["psql", "-X", "-a", "-v", "VERBOSITY=sqlstate", "-d", dsn]
            done = subprocess.run(words, input=given, stdout=subprocess.PIPE, stderr=subprocess.STDOUT, text=True, timeout=END, check=False)
            printed.append(done.stdout.splitlines()[1:])
        expect(len(printed[0]) > 100, True)
        if printed[0] != printed[1]:
            raise AssertionError("\n".join(difflib.unified_diff(printed[0], printed[1], "PostgreSQL", "gateway", lineterm="", n=2)))


if __name__ == "__main__":
    main(PART)
