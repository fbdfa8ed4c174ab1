"""Honest clients beside an attack: each takes a piece of a row of its own, waits, and takes the next. Measured is the time of each statement.

    python3 -m clients.honest SOCKET CLIENTS SECONDS

Prints one line of JSON: the number of statements, and the 50th and 99th of 100 and the longest of their times in milliseconds.
"""
from __future__ import annotations

import json
import selectors
import subprocess
import sys
import time
from dataclasses import dataclass
from pathlib import Path
from typing import Dict, List

from clients import wire
from clients.servers import END

# The rows that the clients take of, and the seconds that a client waits between two statements.
TABLE = "CREATE TABLE hot (id INTEGER PRIMARY KEY, pieces INTEGER RESERVABLE CHECK (pieces >= 0))"
ROWS, PIECES, PAUSE = 40, 900_000_000, 0.01


@dataclass(frozen=True)
class Times:
    """How long statements took, in milliseconds."""

    statements: int
    median: float
    p99: float
    longest: float

    def shown(self) -> str:
        return f"{self.statements} statements, p50 {self.median:.2f}, p99 {self.p99:.2f}, longest {self.longest:.1f} ms"


def prepare(path: Path) -> None:
    """Creates the rows of the clients."""
    with wire.Connection(path) as it:
        it.do(TABLE, *(f"INSERT INTO hot VALUES ({key}, {PIECES})" for key in range(ROWS)))


def measure(path: Path, clients: int, seconds: float) -> Times:
    """Runs clients for some seconds, and returns how long their statements took. Fails if one of them is refused or ended."""
    connections = [wire.Connection(path) for _ in range(clients)]
    asked: Dict[int, float] = {}
    times: List[float] = []
    begin = time.monotonic()
    due = {at: begin + PAUSE * at / clients for at in range(clients)}
    received = [b""] * clients
    with selectors.DefaultSelector() as ready:
        for at, it in enumerate(connections):
            ready.register(it.socket, selectors.EVENT_READ, at)
        while asked or time.monotonic() - begin < seconds:
            now = time.monotonic()
            for at in [at for at, when in due.items() if when <= now]:
                del due[at]
                if now - begin < seconds:
                    connections[at].send(wire.query(f"UPDATE hot SET pieces = pieces - 1 WHERE id = {at % ROWS}"))
                    asked[at] = time.monotonic()
            if now - min(asked.values(), default=now) > END:
                raise AssertionError(f"an honest client was not answered within {END:.0f} s")
            wait = max(0.0, min(due.values(), default=now + 0.1) - time.monotonic())
            for key, _ in ready.select(wait):
                at = key.data
                more = connections[at].socket.recv(65536)
                if not more:
                    raise AssertionError("an honest client was ended")
                received[at] += more
                if not received[at].endswith(b"Z\0\0\0\5I"):
                    continue
                if not received[at].startswith(b"C"):
                    raise AssertionError(f"an honest client was answered {received[at]!r}")
                received[at] = b""
                now = time.monotonic()
                times.append(1000 * (now - asked.pop(at)))
                due[at] = now + PAUSE
    for it in connections:
        it.close()
    times.sort()
    return Times(len(times), times[len(times) // 2], times[len(times) * 99 // 100], times[-1])


def apart(path: Path, clients: int, seconds: float) -> "subprocess.Popen[str]":
    """Runs the clients in a process of their own, so that an attacker in Python costs them nothing."""
    words = [sys.executable, "-B", "-m", "clients.honest", str(path), str(clients), str(seconds)]
    return subprocess.Popen(words, cwd=Path(__file__).resolve().parents[1], stdout=subprocess.PIPE, stderr=subprocess.PIPE, text=True)


def result(process: "subprocess.Popen[str]") -> Times:
    """Waits for clients of a process of their own, and returns their times."""
    said, errors = process.communicate()
    if process.returncode != 0:
        raise AssertionError(f"the honest clients: {errors.strip().splitlines()[-1:]}")
    return Times(**json.loads(said))


if __name__ == "__main__":
    print(json.dumps(measure(Path(sys.argv[1]), int(sys.argv[2]), float(sys.argv[3])).__dict__))
