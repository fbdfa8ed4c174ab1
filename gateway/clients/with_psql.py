"""psql: all statements of the reference, positions of faults, statuses, repeats, and the ways to print."""
from __future__ import annotations

import difflib
import os
import re
import signal
import subprocess
from pathlib import Path
from typing import List, Tuple

from clients.servers import END, Gateway, wait_until
from clients.suite import Part, expect, main

PART = Part("with_psql")
HERE = Path(__file__).parent
STOCK = "CREATE TABLE stock (id INTEGER PRIMARY KEY, pieces INTEGER RESERVABLE CONSTRAINT in_stock CHECK (pieces >= 0))"


def psql(gateway: Gateway, *words: str, given: str = "", database: str = "bank") -> Tuple[int, str]:
    """Runs psql, and returns its status and what it prints, errors among it."""
    done = subprocess.run(["psql", "-X", "-d", gateway.dsn(database), *words], input=given, stdout=subprocess.PIPE, stderr=subprocess.STDOUT,
                          text=True, timeout=END, env={**os.environ, "PGCLIENTENCODING": "UTF8", "LC_ALL": "C.UTF-8"}, check=False)
    return done.returncode, done.stdout


def lines(gateway: Gateway, *statements: str) -> List[str]:
    """Returns the lines that psql prints for statements, one after another, in its plainest form."""
    chosen = [word for it in statements for word in ("-c", it)]
    return psql(gateway, "-At", "-v", "VERBOSITY=sqlstate", *chosen)[1].splitlines()


@PART.served
def all_statements(gateway: Gateway) -> None:
    """`ESCROWD_WRITE=1 python3 -m clients.with_psql all_statements` writes the file anew; read the difference before you keep it."""
    _, got = psql(gateway, "-a", "-f", str(HERE / "statements.sql"))
    got = re.sub(r"psql:[^ ]*statements\.sql:\d+: ", "", got)
    stored = HERE / "statements.out"
    if "ESCROWD_WRITE" in os.environ:
        stored.write_text(got)
    wanted = stored.read_text()
    if got != wanted:
        raise AssertionError("\n".join(difflib.unified_diff(wanted.splitlines(), got.splitlines(), "statements.out", "psql", lineterm="", n=1)))


@PART.served
def position_of_a_fault(gateway: Gateway) -> None:
    given = "\\set VERBOSITY verbose\nDELETE\n  FROM stock /* ä€ */\n  WHERE id = = 1;\n"
    status, got = psql(gateway, "-q", given=given)
    expect(status, 0)
    error, line, caret, *_ = got.splitlines()
    expect(error.startswith("ERROR:  42601: "), True, got)
    expect((line, caret), ("LINE 3:   WHERE id = = 1;", "                     ^"))


@PART.served
def stops_at_an_error(gateway: Gateway) -> None:
    script = f"{STOCK};\nINSERT INTO stock VALUES (1, 5);\nSELECT * FROM nothing;\nINSERT INTO stock VALUES (2, 5);\n"
    status, _ = psql(gateway, "-v", "ON_ERROR_STOP=1", "-f", "-", given=script)
    expect(status, 3)
    expect(lines(gateway, "SELECT * FROM stock"), ["1|5"])
    expect(psql(gateway, "-q", "-f", "-", given="SELECT * FROM nothing;\n")[0], 0)
    expect(psql(gateway, "-c", "SELECT * FROM nothing")[0], 1)


@PART.served
def one_transaction_by_option(gateway: Gateway) -> None:
    lines(gateway, STOCK, "INSERT INTO stock VALUES (1, 5)")
    take = "UPDATE stock SET pieces = pieces - {} WHERE id = 1;\n"
    status, _ = psql(gateway, "-1", "-v", "ON_ERROR_STOP=1", "-f", "-", given=take.format(2) + take.format(9))
    expect(status, 3)
    expect(lines(gateway, "SELECT * FROM stock"), ["1|5"])
    status, _ = psql(gateway, "-1", "-f", "-", given=take.format(2) + take.format(1))
    expect(status, 0)
    expect(lines(gateway, "SELECT * FROM stock"), ["1|2"])


@PART.served
def several_statements_are_one_transaction(gateway: Gateway) -> None:
    lines(gateway, STOCK, "INSERT INTO stock VALUES (1, 5)")
    take = "UPDATE stock SET pieces = pieces - {} WHERE id = 1;"
    expect(lines(gateway, take.format(2) + take.format(9)), ["UPDATE 1", "ERROR:  23514"])
    expect(lines(gateway, "SELECT * FROM stock"), ["1|5"])
    expect(lines(gateway, take.format(2) + take.format(3)), ["UPDATE 1", "UPDATE 1"])
    expect(lines(gateway, "SELECT * FROM stock"), ["1|0"])


@PART.served
def interactive_settings(gateway: Gateway) -> None:
    given = ("\\set ON_ERROR_ROLLBACK on\nBEGIN;\nUPDATE stock SET pieces = pieces - 1 WHERE id = 1;\nUPDATE stock SET pieces = pieces - 99 WHERE id = 1;\n"
             "COMMIT;\n\\echo :LAST_ERROR_SQLSTATE :ROW_COUNT :SERVER_VERSION_NUM\n\\encoding\n\\conninfo\n")
    lines(gateway, STOCK, "INSERT INTO stock VALUES (1, 5)")
    _, got = psql(gateway, "-v", "VERBOSITY=sqlstate", given=given)
    expect(got.splitlines()[:6], ["BEGIN", "UPDATE 1", "ERROR:  23514", "COMMIT", "23514 0 150000", "UTF8"])
    expect(lines(gateway, "SELECT * FROM stock"), ["1|4"])


@PART.served
def forms_of_output(gateway: Gateway) -> None:
    lines(gateway, STOCK, "INSERT INTO stock VALUES (1, 5)", "INSERT INTO stock VALUES (2, 0)")
    expect(psql(gateway, "--csv", "-c", "SELECT * FROM stock")[1], "id,pieces\n1,5\n2,0\n")
    expect(psql(gateway, "-c", "SELECT * FROM stock")[1], " id | pieces \n----+--------\n  1 |      5\n  2 |      0\n(2 rows)\n\n")
    expect(psql(gateway, "-x", "-c", "SELECT * FROM stock WHERE id = 2")[1], "-[ RECORD 1 ]\nid     | 2\npieces | 0\n\n")
    expect(psql(gateway, "-At", "-v", "FETCH_COUNT=1", "-c", "\\echo one")[1], "one\n")


@PART.served
def repeats_until_interrupted(gateway: Gateway) -> None:
    lines(gateway, STOCK, "INSERT INTO stock VALUES (1, 5)")
    seen = gateway.folder / "seen"
    with open(seen, "w", encoding="utf-8") as output:
        watch = subprocess.Popen(["psql", "-XAt", "-d", gateway.dsn()], stdin=subprocess.PIPE, stdout=output, stderr=subprocess.STDOUT, text=True)
        assert watch.stdin
        watch.stdin.write("SELECT * FROM stock \\watch 0.02\n")
        watch.stdin.flush()
        wait_until("five repeats", lambda: seen.read_text().count("1|5\n") >= 5)
        lines(gateway, "UPDATE stock SET pieces = pieces - 1 WHERE id = 1")
        wait_until("five repeats of what was changed", lambda: seen.read_text().count("1|4\n") >= 5)
        watch.send_signal(signal.SIGINT)
        watch.stdin.close()
        watch.wait(END)
    expect("ERROR" in seen.read_text(), False)


@PART.served
def pg_dump_is_refused(gateway: Gateway) -> None:
    """It asks for REPEATABLE READ before it reads the catalog, for a schema alone too."""
    lines(gateway, STOCK)
    for words in (["pg_dump"], ["pg_dump", "-s"], ["pg_dump", "-a", "-t", "stock"]):
        done = subprocess.run([*words, "-d", gateway.dsn()], capture_output=True, text=True, timeout=END, check=False)
        expect((done.returncode, done.stdout), (1, ""), " ".join(words))
        expect("an isolation level above READ COMMITTED is not supported" in done.stderr, True, done.stderr)


@PART.served
def unknown_database(gateway: Gateway) -> None:
    status, got = psql(gateway, "-c", "COMMIT", database="nothing")
    expect(status, 2)
    expect("FATAL:  database \"nothing\" does not exist" in got, True, got)


if __name__ == "__main__":
    main(PART)
