"""The program over a file, for bench/peers/durable: its clients share one pipe."""
import glob
import subprocess
import sys
import tempfile
from typing import List

from runs import Run

START = 1_000_000_000
TABLE = "CREATE TABLE STOCK (ID INTEGER PRIMARY KEY, PIECES INTEGER RESERVABLE CONSTRAINT IN_STOCK CHECK (PIECES >= 0))"


class Server:
    """The program over a store of its own, with a row for each client, as long as it is in hand."""

    def __init__(self, program: str, where: str, clients: int) -> None:
        self.program, self.where, self.clients = program, where, clients

    def __enter__(self) -> "Server":
        self.folder = tempfile.TemporaryDirectory(dir=self.where)
        self.store = f"{self.folder.name}/bank.db"
        words = [self.program, "serve", "--store", self.store]
        self.process = subprocess.Popen(words, stdin=subprocess.PIPE, stdout=subprocess.PIPE, bufsize=0)
        for it in [TABLE, *(f"INSERT INTO STOCK VALUES ({row}, {START})" for row in range(1, self.clients + 1))]:
            self.ask(it)
        return self

    def __exit__(self, *_: object) -> None:
        self.process.kill()
        self.process.communicate()
        self.folder.cleanup()

    def ask(self, statement: str) -> None:
        """Has a statement served that has to succeed, with a reply of one line."""
        assert self.process.stdin and self.process.stdout
        self.process.stdin.write(f"bank.1: {statement}\n".encode())
        reply = self.process.stdout.readline()
        if not reply.startswith(b"bank.1> OK"):
            sys.exit(f"{self.program}: {statement}: {reply!r}")

    def spent(self) -> float:
        """Returns the program's processor time."""
        nanoseconds = 0
        for path in glob.glob(f"/proc/{self.process.pid}/task/*/schedstat"):
            with open(path, encoding="utf-8") as it:
                nanoseconds += int(it.read().split()[0])
        return nanoseconds / 1e9

    def transactions(self, load: str, own: bool, seconds: float, way: str) -> Run:
        """Has the clients make transactions for some seconds, by pipe.c. Then the program is killed, and all that was answered has to be in the
        store."""
        before = self.spent()
        words = [load, str(self.clients), str(seconds), way, "own" if own else "shared"]
        done = subprocess.run(words, stdin=self.process.stdout, stdout=self.process.stdin, stderr=subprocess.PIPE, text=True, check=False)
        if done.returncode:
            sys.exit(f"{self.program}: {done.stderr}")
        count, wall, client = done.stderr.split()
        run = Run(int(count), float(wall), self.spent() - before, float(client))
        self.process.kill()
        self.process.wait()
        taken = self.taken()
        if sum(taken) != run.made or sum(map(bool, taken)) != (self.clients if own else 1):
            sys.exit(f"{self.program}: {taken} taken, and not {count}")
        return run

    def taken(self) -> List[int]:
        """Returns how much the store lacks in each row."""
        words = [self.program, "run", "--store", self.store]
        _, *rows, _ = subprocess.run(words, input="bank.1: SELECT * FROM STOCK\n", capture_output=True, text=True, check=True).stdout.splitlines()
        return [START - int(row.rpartition(" ")[2]) for row in rows]
