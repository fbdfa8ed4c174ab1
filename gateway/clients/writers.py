"""Writers for the tests that kill: each of some connections moves a piece from a row of its own to another, and takes one from a row of all.

    python3 -m clients.writers SOCKET FIRST COUNT FILE

Writer N moves from row 2N to row 2N + 1 and takes from row 0, in one transaction. Behind each COMMIT that is answered a line with N goes to FILE,
so that it is known there, also after a kill, what was acknowledged. One thread serves all connections, so that many writers fit a small machine.
"""
from __future__ import annotations

import os
import selectors
import socket
import struct
import sys
from pathlib import Path
from typing import List

from clients import wire

START = 1_000_000_000
STOCK = "CREATE TABLE stock (id INTEGER PRIMARY KEY, pieces INTEGER RESERVABLE CHECK (pieces >= 0))"


def rows_for(writers: int) -> List[str]:
    """Returns the statements that prepare the rows of so many writers."""
    return [STOCK, *(f"INSERT INTO stock VALUES ({key}, {START})" for key in range(2 * writers + 2) if key != 1)]


class Writer:
    """A connection in its transaction: what it asks next, and what it has of the answer."""

    def __init__(self, path: Path, number: int) -> None:
        self.number = number
        self.connection = wire.Connection(path)
        self.turn = -1
        self.received = b""

    def statements(self) -> List[str]:
        """Returns the statements of its transaction."""
        change = "UPDATE stock SET pieces = pieces {} 1 WHERE id = {}"
        return ["BEGIN", change.format("-", 2 * self.number), change.format("-", 0), change.format("+", 2 * self.number + 1), "COMMIT"]

    def ask(self) -> None:
        """Sends its next statement."""
        statements = self.statements()
        self.turn = (self.turn + 1) % len(statements)
        self.connection.send(wire.query(statements[self.turn]))

    def receive(self) -> bool:
        """Reads what came. Returns whether the answer is whole. Raises Ended at the end of the connection, AssertionError on a refusal."""
        more = self.connection.socket.recv(65536)
        if not more:
            raise wire.Ended
        self.received += more
        while len(self.received) >= 5:
            length = struct.unpack_from("!i", self.received, 1)[0] + 1
            if len(self.received) < length:
                break
            kind, self.received = self.received[:1], self.received[length:]
            if kind == b"E":
                raise wire.Ended
            if kind == b"Z":
                return True
        return False

    def has_committed(self) -> bool:
        """Returns whether the answer was that of a COMMIT."""
        return self.turn == len(self.statements()) - 1


def main() -> None:
    path, first, count, file = Path(sys.argv[1]), int(sys.argv[2]), int(sys.argv[3]), sys.argv[4]
    acknowledged = os.open(file, os.O_WRONLY | os.O_CREAT | os.O_APPEND)
    with selectors.DefaultSelector() as ready:
        for number in range(first, first + count):
            writer = Writer(path, number)
            ready.register(writer.connection.socket, selectors.EVENT_READ, writer)
            writer.ask()
        while ready.get_map():
            for key, _ in ready.select():
                writer = key.data
                try:
                    if writer.receive():
                        if writer.has_committed():
                            os.write(acknowledged, f"{writer.number}\n".encode())
                        writer.ask()
                except (wire.Ended, ConnectionResetError, BrokenPipeError, socket.timeout):
                    ready.unregister(writer.connection.socket)


if __name__ == "__main__":
    main()
