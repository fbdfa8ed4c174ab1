"""pgbouncer in front of a gateway: TCP, passwords, and more clients than sessions."""
from __future__ import annotations

import re
import subprocess
import time
from concurrent.futures import ThreadPoolExecutor

from clients.servers import END, PORT, TOP, Gateway, Pgbouncer, scram_secret, wait_until
from clients.suite import Part, expect, load, main
from clients.wire import Connection
from clients.with_pgbench import run

PART = Part("with_pgbouncer")
STOCK = "CREATE TABLE stock (id INTEGER PRIMARY KEY, pieces INTEGER RESERVABLE CONSTRAINT in_stock CHECK (pieces >= 0))"
START, CLIENTS, POOL, TRANSACTIONS = 1_000_000, 500, 60, 10
SCRIPT = r"""\set id random(1, 20)
BEGIN;
UPDATE stock SET pieces = pieces - 1 WHERE id = :id;
\sleep 2 ms
UPDATE stock SET pieces = pieces + 1 WHERE id = 21;
COMMIT;
"""
# The seconds within which a pgbouncer with packaging's file serves again once the gateway does. By default it waits for 15.
SOON = 10.0


class Packaged(Pgbouncer):
    """pgbouncer with the file of packaging, and the paths and the port of a test."""

    def __init__(self, gateway: Gateway) -> None:
        super().__init__(gateway, "transaction", POOL)

    def settings(self) -> str:
        text = (TOP / "packaging/pgbouncer.ini").read_text()
        users = self.folder / "users"
        users.write_text("".join(f'"{name}" "{scram_secret(self.PASSWORD, self.ITERATIONS)}"\n' for name in ("clerk", "monitor")))
        for pattern, value in (("host=/run/escrowd port=5432", f"host={self.gateway.folder} port={PORT}"), ("listen_port = .*", f"listen_port = {self.port}"),
                               ("auth_file = .*", f"auth_file = {users}")):
            text, count = re.subn(pattern, value, text)
            expect(count, 1, pattern)
        return text

    def psql(self, *statements: str, **more: object) -> "subprocess.CompletedProcess[str]":
        """Runs statements of one client."""
        words = [word for it in statements for word in ("-c", it)]
        dsn = self.dsn(dbname=more.pop("dbname", "shop"), **more)
        return subprocess.run(["psql", "-XAtq", *words, dsn], capture_output=True, text=True, timeout=END, check=False)


@PART.alone
def a_set_that_would_reach_the_next_client() -> None:
    """It is refused; what pgbouncer and drivers set, and what ends with its transaction, is served."""
    with Gateway({"shop": None}) as gateway, Packaged(gateway) as bouncer:
        for setting in ("idle_in_transaction_session_timeout = '1s'", "transaction_timeout = '1s'", "default_transaction_read_only = on"):
            done = bouncer.psql(f"SET {setting}")
            expect(("would reach other clients" in done.stderr, done.stdout), (True, ""), done.stderr)
            done = bouncer.psql(f"BEGIN; SET LOCAL {setting}; COMMIT", f"SHOW {setting.split()[0]}")
            expect((done.stdout, done.stderr), ("off\n" if "read_only" in setting else "0\n", ""))
        done = bouncer.psql("SET SESSION CHARACTERISTICS AS TRANSACTION READ ONLY")
        expect("would reach other clients" in done.stderr, True, done.stderr)
        done = bouncer.psql("SET statement_timeout = '5s'; SET client_min_messages = warning; RESET ALL", "DISCARD ALL", "SHOW escrowd.transaction_pooling")
        expect((done.stdout, done.stderr), ("on\n", ""))
        gateway.expect_clean_end()


@PART.alone
def a_restart_behind_pgbouncer() -> None:
    with Gateway({"shop": None}) as gateway, Packaged(gateway) as bouncer:
        expect(bouncer.psql("SHOW server_encoding").stdout, "UTF8\n")
        gateway.expect_clean_end()
        with ThreadPoolExecutor(1) as threads:
            waiting = threads.submit(bouncer.psql, "SHOW server_encoding")
            wait_until("pgbouncer has met that the gateway is away", lambda: "connect failed" in bouncer.said())
            gateway.start()
            gateway.socket.chmod(0o666)  # pgbouncer runs as another user
            begin = time.monotonic()
            expect(waiting.result().stdout, "UTF8\n")
            expect(time.monotonic() - begin < SOON, True, f"after {time.monotonic() - begin:.1f} s")
        gateway.expect_clean_end()


@PART.alone
def who_may_look_at_pgbouncer() -> None:
    with Gateway({"shop": None}) as gateway, Packaged(gateway) as bouncer:
        done = bouncer.psql("SHOW POOLS", dbname="pgbouncer", user="monitor")
        expect((done.returncode, done.stderr), (0, ""))
        expect(bouncer.psql("SHOW POOLS", dbname="pgbouncer").returncode, 2)
        expect(bouncer.psql("RELOAD", dbname="pgbouncer", user="monitor").returncode, 1)
        gateway.expect_clean_end()


@PART.served
def five_hundred_clients_on_a_pool_of_sixty(gateway: Gateway) -> None:
    script = gateway.folder / "script.sql"
    script.write_text(SCRIPT)
    transactions = load(TRANSACTIONS)
    with Connection(gateway.socket) as it, Pgbouncer(gateway, "transaction", POOL, Pgbouncer.FEW) as bouncer:
        it.do(STOCK, *(f"INSERT INTO stock VALUES ({key}, {START})" for key in range(1, 22)))
        for mode in ("simple", "extended"):
            run(bouncer.dsn(), script, mode, CLIENTS, transactions)
        rows = [int(pieces) for _, pieces in it.rows("SELECT * FROM stock")]
        expect(it.rows("SHOW JOURNAL"), [])
    expect(rows[20], START + 2 * CLIENTS * transactions)
    expect(sum(START - pieces for pieces in rows[:20]), 2 * CLIENTS * transactions)


@PART.served
def clients_that_vanish(gateway: Gateway) -> None:
    """Clients of pgbouncer that are killed inside of blocks leave nothing reserved, and the pool serves on."""
    script = gateway.folder / "script.sql"
    script.write_text("BEGIN;\nUPDATE stock SET pieces = pieces - 1 WHERE id = 1;\n\\sleep 60 s\nCOMMIT;\n")
    with Connection(gateway.socket) as it, Pgbouncer(gateway, "transaction", POOL, Pgbouncer.FEW) as bouncer:
        it.do(STOCK, "INSERT INTO stock VALUES (1, 40)")
        for _ in range(3):
            words = ["pgbench", "-n", "-f", str(script), "-c", "40", "-t", "1", bouncer.dsn()]
            holders = subprocess.Popen(words, stdout=subprocess.DEVNULL, stderr=subprocess.DEVNULL)
            wait_until("forty holders", lambda: len(it.rows("SHOW JOURNAL")) == 40)
            expect(it.ask("UPDATE stock SET pieces = pieces - 1 WHERE id = 1"), ["ERROR 23514", "ready I"])
            holders.kill()
            holders.wait()
            wait_until("nothing is held", lambda: it.rows("SHOW JOURNAL") == [])
        expect(it.rows("SELECT * FROM stock"), [("1", "40")])


@PART.served
def sessions_of_one_client_each(gateway: Gateway) -> None:
    """In mode session pgbouncer sends DISCARD ALL between clients."""
    with Connection(gateway.socket) as it, Pgbouncer(gateway, "session", 2) as bouncer:
        it.do(STOCK, "INSERT INTO stock VALUES (1, 100)")
        script = gateway.folder / "script.sql"
        script.write_text("BEGIN;\nUPDATE stock SET pieces = pieces - 1 WHERE id = 1;\nCOMMIT;\n")
        for _ in range(3):
            run(bouncer.dsn(), script, "prepared", 2, 10)
        expect(it.rows("SELECT * FROM stock"), [("1", "40")])


@PART.served
def a_wrong_password(gateway: Gateway) -> None:
    with Pgbouncer(gateway, "transaction", POOL) as bouncer:
        done = subprocess.run(["psql", "-XAtc", "COMMIT", bouncer.dsn(password="wrong")], capture_output=True, text=True, timeout=END, check=False)
        expect((done.returncode, "SASL authentication failed" in done.stderr), (2, True), done.stderr)
        done = subprocess.run(["psql", "-XAtc", "ROLLBACK", bouncer.dsn()], capture_output=True, text=True, timeout=END, check=False)
        expect((done.returncode, done.stdout), (0, "ROLLBACK\n"), done.stderr)


if __name__ == "__main__":
    main(PART)
