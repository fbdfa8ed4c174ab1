"""Serves scripts of `bench/generate own` and `shared` by the program, for bench/sessions and bench/peers/sessions: what a run takes, whether
its replies are those that are expected, and the shortest of several runs.
"""
import collections
import os
import re
import subprocess
import sys
import tempfile
import time
from typing import IO, Callable, Counter, List, Optional, Protocol, Tuple

HERE = os.path.dirname(os.path.abspath(__file__))
# How often a script runs.
RUNS = 3
START = 1_000_000_000


class Served(Protocol):
    """A script in a file: what it is called, its databases, and what checks its replies."""

    words: str
    databases: int
    file: IO[bytes]

    def check(self, mode: str, replies: IO[bytes]) -> None:
        """Ends the program where the replies aren't those that are expected."""


class Script:
    """A script in a file, with what is expected of its replies. There may be phases of no lines at its end."""

    def __init__(self, *words: object, empty_phases: int = 0) -> None:
        self.words = " ".join(map(str, words))
        self.file: IO[bytes] = tempfile.TemporaryFile()
        subprocess.run([f"{HERE}/generate", *self.words.split()], stdout=self.file, check=True)
        self.file.write(b"@join\n" * empty_phases)
        self.file.seek(0)
        self.expected: Counter[str] = collections.Counter()
        updates: Counter[str] = collections.Counter()
        self.databases = 0
        for line in self.file:
            place, _, text = line.partition(b": ")
            name, verb = place.split(b".")[0].decode(), text.split(b" ")[0].strip()
            if verb == b"UPDATE":
                updates[name] += 1
                self.expected["OK reserved"] += 1
            elif verb == b"COMMIT":
                self.expected["OK committed"] += 1
            elif verb == b"SELECT":
                self.expected[f"{name}.1> 1 | {START - updates[name]}"] += 1
                self.databases += 1
        # What is measured: the reservations and the COMMITs.
        self.statements = self.expected["OK reserved"] + self.expected["OK committed"]

    def check(self, mode: str, replies: IO[bytes]) -> None:
        """Ends the program where the replies aren't those that are expected."""
        replies.seek(0)
        got: Counter[str] = collections.Counter()
        for line in replies:
            text = line.decode().rstrip("\n")
            kind = re.search(r"> (OK reserved|OK committed|ERR|1 \|) ", text)
            if kind:
                got[text if kind[1] == "1 |" else kind[1]] += 1
        if got != self.expected:
            sys.exit(f"{self.words}, {mode}: got {dict(got)}, and not {dict(self.expected)}")


def serve(program: str, mode: str, script: Served, watch: Optional[Callable[[int], object]] = None) -> Tuple[float, float]:
    """Serves a script once, in the mode `run` or `free`, and answers the seconds that it took: by the clock, and of processor time. What is to
    watch the program while it runs gets its process. The program's end tells that its histories were right."""
    with tempfile.TemporaryFile() as replies:
        script.file.seek(0)
        begin = time.perf_counter()
        process = subprocess.Popen([program, mode, "--databases", str(script.databases)], stdin=script.file, stdout=replies)
        if watch:
            watch(process.pid)
        _, status, used = os.wait4(process.pid, 0)
        wall = time.perf_counter() - begin
        process.returncode = os.waitstatus_to_exitcode(status)
        if process.returncode:
            sys.exit(f"{script.words}, {mode}: status {process.returncode}")
        script.check(mode, replies)
        return wall, used.ru_utime + used.ru_stime


def least(program: str, mode: str, script: Script) -> List[float]:
    """The least that several runs of a script took, by the clock and of processor time."""
    return [min(times) for times in zip(*(serve(program, mode, script) for _ in range(RUNS)))]


def costs(program: str, kind: str, sessions: int, count: int, each: int) -> List[List[float]]:
    """What a statement costs by `run` and by `free`, in seconds by the clock and of processor time: that of a script, less that of one that
    makes the tables alone."""
    script, without = Script(kind, sessions, count, each), Script(kind, sessions, 0)
    found = []
    for mode in ("run", "free"):
        took, base = least(program, mode, script), least(program, mode, without)
        found.append([(more - less) / script.statements for more, less in zip(took, base)])
    return found
