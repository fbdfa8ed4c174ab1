"""How often a store is written and synced: the transactions in its log, and the calls that strace counts."""
import os
import shutil
import struct
import subprocess
from typing import Iterator, List, NamedTuple, Tuple

from process import Input, Output, Program, Stage, compare, expect

SESSIONS = 64
MADE = ("bank.1: CREATE TABLE T (ID INTEGER PRIMARY KEY, N INTEGER RESERVABLE)\nbank.1: INSERT INTO T VALUES (1, 0)\n",
        "bank.1> OK created T\nbank.1> OK inserted\n")
# As how many writes 64 COMMITs that come together count at most: the program may read them in some pieces.
FEW = 4
# The heads of SQLite's log and of a page in it: the size of a page and the salts; whether the page ends a transaction, and the salts.
LOG_HEAD, PAGE_HEAD = struct.Struct(">8xI4x8s8x"), struct.Struct(">4xI8s8x")


class Counts(NamedTuple):
    """The transactions in the log, and the syncs; 0 if nobody counts them."""

    writes: int
    syncs: int


def pages(log: bytes) -> Iterator[bool]:
    """Whether each page of a log ends a transaction. Behind the last page is what an older log left, with other salts."""
    if len(log) < LOG_HEAD.size:
        return
    size, salts = LOG_HEAD.unpack_from(log)
    for at in range(LOG_HEAD.size, len(log) - PAGE_HEAD.size, PAGE_HEAD.size + size):
        rows, own = PAGE_HEAD.unpack_from(log, at)
        if own != salts:
            return
        yield rows > 0


def can_trace() -> bool:
    """Whether this machine has strace, and lets it trace."""
    traced = ["strace", "-qq", "-e", "trace=none", "true"]
    return shutil.which("strace") is not None and subprocess.run(traced, stderr=subprocess.DEVNULL, check=False).returncode == 0


class Writes:
    """A program over a store, and how often it has written."""

    def __init__(self, stage: Stage, program: Program, folder: str) -> None:
        self.stage, self.log, self.traced = stage, f"{folder}/bank.db-wal", f"{folder}/syncs"
        self.replies = ""
        words = ["serve", "--store", f"{folder}/bank.db"]
        self.is_traced = can_trace()
        if self.is_traced:
            words = ["-f", "-qq", "-e", "trace=fdatasync,fsync", "-e", "signal=none", "-o", self.traced, program.path, *words]
            program = Program(shutil.which("strace") or "")
        stage.give_input(Input.PIPE)
        stage.give_output("stdout", Output.KEPT)
        stage.give_output("stderr", Output.KEPT)
        stage.start(program, words, folder)

    def give(self, talk: List[Tuple[str, str]]) -> Counts:
        """Has lines served that are written at once. Returns how often the program has written for them."""
        before = self.counted()
        self.replies += "".join(replies for _, replies in talk)
        self.stage.give_lines("".join(script for script, _ in talk), self.replies)
        return Counts(*(now - then for now, then in zip(self.counted(), before)))

    def counted(self) -> Counts:
        """How often it has written so far."""
        return Counts(sum(pages(read(self.log))), read(self.traced).count(b"sync("))


def read(path: str) -> bytes:
    """The content of a file, nothing if there is none."""
    if not os.path.exists(path):
        return b""
    with open(path, "rb") as file:
        return file.read()


def shares_a_write(program: Program, folder: str) -> None:
    """COMMITs of 64 sessions are 64 writes if they come one after another, and few if they come together."""
    sessions = range(1, SESSIONS + 1)
    commits = [(f"bank.{it}: COMMIT\n", f"bank.{it}> OK committed 1\n") for it in sessions]
    with Stage() as stage:
        writes = Writes(stage, program, folder)
        writes.give([MADE])
        for first in (0, SESSIONS):
            writes.give([(f"bank.{it}: UPDATE T SET N = N + 1 WHERE ID = 1\n", f"bank.{it}> OK reserved {first + it}\n") for it in sessions])
            if not first:
                alone = [writes.give([it]) for it in commits]
        together = writes.give(commits)
        compare("the writes of one COMMIT after another", [1] * SESSIONS, [it.writes for it in alone])
        expect(0 < together.writes <= FEW, f"{together.writes} writes of {SESSIONS} COMMITs that come together")
        if writes.is_traced:
            expect(all(it.syncs for it in alone), f"the syncs of one COMMIT after another: {[it.syncs for it in alone]}")
            expect(0 < together.syncs <= FEW, f"{together.syncs} syncs of {SESSIONS} COMMITs that come together")
        compare("the status", 0, stage.end())
