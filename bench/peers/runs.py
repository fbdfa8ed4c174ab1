"""What the tools that measure peers share: the result of a run, a sync by itself, and what is missing for a run."""
import os
import statistics
import subprocess
import sys
import tempfile
import time
from typing import NamedTuple, Sequence

HERE = os.path.dirname(os.path.abspath(__file__))
# A sync is measured by so many writes of so many bytes.
SYNCS, SYNCED = 50, 4096


class Run(NamedTuple):
    """The result of a run: the transactions that were made, the seconds by the clock, and the processor seconds of the server and of the clients."""

    made: int
    seconds: float
    server: float
    clients: float


def missing(name: str, lacks: Sequence[str]) -> bool:
    """Returns whether a peer lacks programs; says so, if it does."""
    if lacks:
        print(f"{name} is left out, for want of {', '.join(lacks)}", file=sys.stderr)
    return bool(lacks)


def compiled(name: str, folder: str, *libraries: str) -> str:
    """Returns the path of a program of this folder that is compiled into another."""
    words = ["gcc", "-O2", "-Wall", "-Wextra", "-pthread", "-o", f"{folder}/{name}", f"{HERE}/{name}.c", *libraries]
    subprocess.run(words, check=True)
    return f"{folder}/{name}"


def sync_time(folder: str) -> float:
    """Returns the seconds that a write and its sync take in a folder, of the median of several."""
    times = []
    with tempfile.TemporaryFile(dir=folder, buffering=0) as file:
        for _ in range(SYNCS):
            begin = time.perf_counter()
            file.write(bytes(SYNCED))
            os.fdatasync(file.fileno())
            times.append(time.perf_counter() - begin)
    return statistics.median(times)
