"""pgbench in its modes, with several clients: no transaction fails, and the sums are right."""
from __future__ import annotations

import re
import subprocess
from pathlib import Path
from typing import List

from clients.servers import END, Gateway
from clients.suite import Part, expect, load, main
from clients.wire import Connection

PART = Part("with_pgbench")
ROWS, START, CLIENTS, TRANSACTIONS = 10, 1_000_000, 8, 500
SCRIPT = r"""\set id random(1, {rows})
\set count random(1, 3)
BEGIN;
UPDATE stock SET pieces = pieces - :count WHERE id = :id;
UPDATE stock SET pieces = pieces + :count WHERE id = {all};
COMMIT;
UPDATE stock SET pieces = pieces - 1 WHERE id = {once};
SELECT * FROM stock WHERE id = :id;
"""


def run(dsn: str, script: Path, mode: str, clients: int, transactions: int) -> str:
    """Runs a script of so many transactions for each client. Expects that none fails, and returns what pgbench prints."""
    words = ["pgbench", "-n", "-M", mode, "-f", str(script), "-c", str(clients), "-j", "2", "-t", str(transactions), dsn]
    done = subprocess.run(words, stdout=subprocess.PIPE, stderr=subprocess.STDOUT, text=True, timeout=2 * END, check=False)
    expect(done.returncode, 0, done.stdout[-1500:])
    counted = re.search(r"transactions actually processed: (\d+)/(\d+)", done.stdout)
    assert counted, done.stdout
    expect((int(counted[1]), int(counted[2])), (clients * transactions, clients * transactions), done.stdout)
    return done.stdout


def in_mode(gateway: Gateway, mode: str) -> None:
    """Runs the script in a mode and looks at the sums."""
    count, every, once = load(TRANSACTIONS), ROWS + 1, ROWS + 2
    script = gateway.folder / "script.sql"
    script.write_text(SCRIPT.format(rows=ROWS, all=every, once=once))
    with Connection(gateway.socket) as it:
        it.do("CREATE TABLE stock (id INTEGER PRIMARY KEY, pieces INTEGER RESERVABLE CHECK (pieces >= 0))",
              *(f"INSERT INTO stock VALUES ({key}, {START})" for key in range(1, ROWS + 3)))
        run(gateway.dsn(), script, mode, CLIENTS, count)
        rows: List[int] = [int(pieces) for _, pieces in it.rows("SELECT * FROM stock")]
    expect(rows[once - 1], START - CLIENTS * count)
    expect(sum(START - pieces for pieces in rows[:ROWS]), rows[every - 1] - START)
    expect(CLIENTS * count <= rows[every - 1] - START <= 3 * CLIENTS * count, True)


@PART.served
def simple(gateway: Gateway) -> None:
    in_mode(gateway, "simple")


@PART.served
def extended(gateway: Gateway) -> None:
    in_mode(gateway, "extended")


@PART.served
def prepared(gateway: Gateway) -> None:
    in_mode(gateway, "prepared")


@PART.served
def a_pipeline(gateway: Gateway) -> None:
    """Eight transactions of one pipeline, by the prepared mode."""
    count = load(100)
    script = gateway.folder / "script.sql"
    take = "UPDATE stock SET pieces = pieces - 1 WHERE id = 1;"
    script.write_text("\n".join(["\\startpipeline", *["BEGIN;", take, take, "COMMIT;"] * 8, "\\endpipeline", ""]))
    with Connection(gateway.socket) as it:
        it.do("CREATE TABLE stock (id INTEGER PRIMARY KEY, pieces INTEGER RESERVABLE CHECK (pieces >= 0))", f"INSERT INTO stock VALUES (1, {START})")
        for mode in ("extended", "prepared"):
            run(gateway.dsn(), script, mode, CLIENTS, count)
        expect(it.rows("SELECT * FROM stock"), [("1", str(START - 2 * CLIENTS * count * 16))])


if __name__ == "__main__":
    main(PART)
