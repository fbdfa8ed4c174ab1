#!/usr/bin/env python3
"""Sends messages of the protocol as they are, and prints what comes back.

    with_bytes.py FIRST HOST PORT DATABASE
"""
from __future__ import annotations

import socket
import struct
import sys
from typing import Iterator, List, Tuple

FIRST = int(sys.argv[1])
ONE, TWO, FOUR = FIRST + 1, FIRST + 2, FIRST + 4
TAKE = f"UPDATE wares SET n = n - 1 WHERE id IN ({ONE}, {TWO}, {FOUR})"
# Kind 7 is none, and PostgreSQL looks for it at the end of the transaction.
LATE = f"UPDATE wares SET n = n - 1, kind = 7 WHERE id = {ONE}"


def message(kind: str, body: bytes = b"") -> bytes:
    """Returns a message."""
    return kind.encode() + struct.pack(">I", 4 + len(body)) + body


def query(text: str) -> bytes:
    """Returns a Query."""
    return message("Q", text.encode() + b"\0")


def bound(text: str, portal: str = "") -> bytes:
    """Returns Parse and Bind."""
    return message("P", b"\0" + text.encode() + b"\0\0\0") + message("B", portal.encode() + b"\0\0" + b"\0" * 6)


def execute(limit: int = 0, portal: str = "") -> bytes:
    """Returns an Execute of so many rows."""
    return message("E", portal.encode() + b"\0" + struct.pack(">I", limit))


SYNC, DONE, FAIL = message("S"), message("c"), message("f", b"no\0")
INTO = bound("COPY lines FROM STDIN")
LINE = message("d", f"{ONE}\n".encode())

# Each exchange: what is sent at once, again and again, each up to so many ReadyForQuery.
EXCHANGES: List[Tuple[str, List[Tuple[bytes, int]]]] = [
    ("a row, and all", [(bound(f"{TAKE} RETURNING id") + execute(1) + execute(0) + execute(0) + SYNC, 1)]),
    ("two rows at a time", [(bound(f"{TAKE} RETURNING id") + execute(2) * 3 + SYNC, 1)]),
    ("as many as there are", [(bound(f"{TAKE} RETURNING id") + execute(3) + execute(3) + SYNC, 1)]),
    ("no row", [(bound("UPDATE wares SET n = n - 1 WHERE id = -1 RETURNING id") + execute(1) + SYNC, 1)]),
    ("without RETURNING", [(bound(TAKE) + execute(1) + SYNC, 1)]),
    ("in a block", [(query("BEGIN"), 1), (bound(f"{TAKE} RETURNING id", "p") + execute(1, "p") + SYNC, 1), (execute(1, "p") + SYNC, 1),
                    (execute(5, "p") + SYNC, 1), (query("COMMIT"), 1), (execute(1, "p") + SYNC, 1)]),
    ("in a block that fails", [(query("BEGIN"), 1), (bound(f"{TAKE} RETURNING id", "p") + execute(1, "p") + bound("SELECT 1 / 0") + execute()
                                                     + execute(1, "p") + SYNC, 1), (execute(1, "p") + SYNC, 1), (query("ROLLBACK"), 1)]),
    ("in WITH", [(bound(f"WITH w AS ({TAKE} RETURNING id) SELECT id FROM w") + execute(2) + execute(0) + SYNC, 1)]),
    ("a Sync amid a COPY", [(INTO + execute() + SYNC + LINE + SYNC + message("H") + LINE + DONE + SYNC, 1), (query(TAKE), 1)]),
    ("a COPY at once", [(INTO + execute() + LINE + DONE + SYNC + bound("SELECT 1") + execute() + SYNC, 2), (query(TAKE), 1)]),
    ("a COPY that the client ends", [(INTO + execute() + SYNC + LINE + FAIL + SYNC, 1), (query(TAKE), 1)]),
    ("a Sync amid a COPY of a Query", [(query("COPY lines FROM STDIN") + SYNC + LINE + DONE, 1), (query(TAKE), 1)]),
    ("the end of no COPY", [(DONE + bound("SELECT 1") + execute() + DONE + SYNC, 1), (query(TAKE), 1)]),
    ("an error at the end of a Query", [(query(LATE), 1), (query(f"{LATE} RETURNING id"), 1), (query(TAKE), 1)]),
    ("an error at the end of a Sync", [(bound(LATE) + execute() + SYNC, 1)]),
    ("an error at the end of a string", [(query(f"{TAKE}; {LATE}"), 1), (query(f"{LATE}; SELECT 1"), 1), (query(f"SELECT 1; {LATE}; {TAKE}"), 1)]),
    ("an error at the end of a block", [(query(f"BEGIN; {LATE}"), 1), (query("COMMIT"), 1), (query(f"BEGIN; {LATE}; COMMIT"), 1)]),
    ("a NULL", [(query(f"UPDATE wares SET n = n - NULL WHERE id = {ONE}"), 1), (query(f"UPDATE wares SET id = NULL WHERE id = {ONE}"), 1)]),
    ("empty statements", [(query(f" ; {TAKE}"), 1), (query(f"{TAKE};;"), 1), (query(f";{TAKE}; ; {LATE};"), 1), (query(" ; "), 1)]),
    ("a setting at the end of a string", [(query(f"{TAKE}; SET application_name = 'x'"), 1), (query(f"SET application_name = 'y'; {TAKE}"), 1)]),
    ("what is left", [(query(f"SELECT n FROM wares WHERE id > {FIRST} AND id < {FIRST + 9} ORDER BY id"), 1)]),
]


def exactly(stream: "socket.SocketIO", count: int) -> bytes:
    """Reads so many bytes, which may come in pieces."""
    found = b""
    while len(found) < count:
        more = stream.read(count - len(found))
        assert more, f"the connection has ended behind {found!r}"
        found += more
    return found


def replies(stream: "socket.SocketIO") -> Iterator[str]:
    """Reads messages, and says what each is."""
    while True:
        kind, length = struct.unpack(">cI", exactly(stream, 5))
        body = exactly(stream, length - 4)
        fields = [it[1:].decode() for it in body.split(b"\0") if it[:1] in (b"C", b"M")]
        shown = {b"C": body.decode, b"E": lambda fields=fields: " ".join(fields), b"Z": body.decode}.get(kind, str)()
        if kind not in b"KRN":
            yield f"{kind.decode()} {shown}"


with socket.socket(socket.AF_UNIX) as it:
    it.settimeout(120)
    it.connect(f"{sys.argv[2]}/.s.PGSQL.{sys.argv[3]}")
    it.sendall(message("", struct.pack(">I", 196_608) + f"user\0clerk\0database\0{sys.argv[4]}\0\0".encode()))
    answers = replies(it.makefile("rb", buffering=0))
    while next(answers) != "Z I":
        pass
    for name, sent in EXCHANGES:
        print(f"-- {name}")
        for given, count in sent:
            it.sendall(given)
            while count:
                answer = next(answers)
                print(answer)
                count -= answer.startswith("Z")
