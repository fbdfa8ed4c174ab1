"""Kill -9 of the program, of the gateway and of clients amid forty writers over a store: what was acknowledged stands, and nothing half."""
from __future__ import annotations

import collections
import os
import signal
import subprocess
import sys
from functools import partial
from pathlib import Path
from typing import Callable, Dict, List

from clients.few_sessions import expect_all_free
from clients.limits import has_ended
from clients.servers import END, IN_A_STORE, Gateway, stored, wait_until
from clients.suite import Part, expect, load, main
from clients.wire import Connection
from clients.writers import START, rows_for

PART = Part("kills")
HERE = Path(__file__).resolve().parents[1]
PROCESSES, EACH = 4, 10
WRITERS = PROCESSES * EACH
# How many transactions are acknowledged before something is killed, and how often that is tried.
BEFORE, KILLS = 100, 4


class Writers:
    """Forty writers in four processes, the transactions of which go on until their connections end."""

    def __init__(self, gateway: Gateway, turn: int) -> None:
        self.file = gateway.folder / f"acknowledged-{turn}"
        self.processes = [
            subprocess.Popen([sys.executable, "-B", "-m", "clients.writers", str(gateway.socket), str(1 + place * EACH), str(EACH), str(self.file)], cwd=HERE)
            for place in range(PROCESSES)
        ]

    def acknowledged(self) -> Dict[int, int]:
        """Returns how many transactions each writer was told to be committed."""
        return collections.Counter(map(int, self.file.read_text().split() if self.file.exists() else []))

    def await_some(self, count: int) -> None:
        """Waits until so many transactions more are acknowledged, and at least one of each writer: all of them have connected."""
        goal = sum(self.acknowledged().values()) + count

        def is_reached() -> bool:
            found = self.acknowledged()
            return sum(found.values()) >= goal and len(found) == WRITERS

        wait_until(f"{count} transactions are acknowledged, and one of each writer", is_reached)

    def await_end(self) -> None:
        """Waits until all of its processes have ended, which they do once their connections have."""
        for it in self.processes:
            it.wait(END)


def prepared(gateway: Gateway) -> None:
    """Creates the rows of the writers."""
    with Connection(gateway.socket) as it:
        it.do(*rows_for(WRITERS))


def expect_rows(lines: List[str], acknowledged: Dict[int, int]) -> None:
    """Expects that each writer's rows show what it was told, and of its last transaction, which nobody answered, all or nothing."""
    rows = {int(key): int(pieces) for key, pieces in (line.split(" | ") for line in lines)}
    done = {}
    for writer in range(1, WRITERS + 1):
        taken, given = START - rows[2 * writer], rows[2 * writer + 1] - START
        expect(taken, given, f"writer {writer} is half done")
        expect(taken - acknowledged.get(writer, 0) in (0, 1), True, f"writer {writer}: {taken} done, {acknowledged.get(writer, 0)} acknowledged")
        done[writer] = taken
    expect(START - rows[0], sum(done.values()), "the row of all")


def stored_rows(gateway: Gateway) -> List[str]:
    """Returns the rows that the store has, while no gateway runs."""
    return stored(gateway.store, "SELECT * FROM stock")[1:-1]


def expect_after_kills(kill: Callable[[Gateway], None]) -> None:
    """Kills something that ends the gateway, several times, looks at the store each time, and starts again on it."""
    with Gateway(IN_A_STORE) as gateway:
        prepared(gateway)
        total: Dict[int, int] = collections.Counter()
        for turn in range(KILLS):
            writers = Writers(gateway, turn)
            writers.await_some(load(BEFORE))
            program = gateway.programs()[0]
            kill(gateway)
            writers.await_end()
            wait_until("the program has ended", partial(has_ended, program))
            for writer, count in writers.acknowledged().items():
                total[writer] += count
            rows = stored_rows(gateway)
            expect_rows(rows, total)
            # What nobody was told of but is there counts as known from now on.
            for line in rows:
                key, pieces = map(int, line.split(" | "))
                if key and key % 2 == 0:
                    total[key // 2] = START - pieces
            gateway.start()
            with Connection(gateway.socket) as it:
                expect(it.rows("SHOW JOURNAL"), [])
                expect([" | ".join(row) for row in it.rows("SELECT * FROM stock")], rows)
        gateway.expect_clean_end()


@PART.alone
def of_the_program() -> None:

    def kill(gateway: Gateway) -> None:
        os.kill(gateway.programs()[0], signal.SIGKILL)
        expect(gateway.running().wait(END), 5, gateway.said())

    expect_after_kills(kill)


@PART.alone
def of_the_gateway() -> None:
    expect_after_kills(lambda gateway: gateway.kill())


@PART.alone
def of_both() -> None:

    def kill(gateway: Gateway) -> None:
        program = gateway.programs()[0]
        gateway.running().kill()
        os.kill(program, signal.SIGKILL)
        gateway.running().wait()

    expect_after_kills(kill)


@PART.alone
def of_clients() -> None:
    """A process of ten writers is killed while the others go on: its sessions are free, what it had open is not there, and the rest is served."""
    with Gateway(IN_A_STORE) as gateway:
        prepared(gateway)
        writers = Writers(gateway, 0)
        for victim in writers.processes[:3]:
            writers.await_some(load(BEFORE))
            victim.kill()
        writers.await_some(load(BEFORE))
        with Connection(gateway.socket) as it:
            wait_until("the killed have left", lambda: it.rows("SELECT count(*) FROM pg_stat_activity") == [(str(EACH + 1),)])
            writers.processes[3].send_signal(signal.SIGKILL)
            writers.await_end()
            wait_until("nothing is reserved", lambda: it.rows("SHOW JOURNAL") == [])
            expect_rows([" | ".join(row) for row in it.rows("SELECT * FROM stock")], writers.acknowledged())
        expect_all_free(gateway, "UPDATE stock SET pieces = pieces + 1 WHERE id = 2")
        gateway.expect_clean_end()
        expect_rows(stored_rows(gateway), writers.acknowledged())


if __name__ == "__main__":
    main(PART)
