"""postgres_fdw, which needs REPEATABLE READ: it is refused, and its user reads why."""
from __future__ import annotations

import os
import subprocess

from clients.servers import END, PORT, Gateway, Postgres
from clients.suite import Part, expect, main
from clients.wire import Connection

PART = Part("with_fdw")


@PART.served
def is_refused_with_a_reason(gateway: Gateway) -> None:
    os.chmod(gateway.folder, 0o755)
    os.chmod(gateway.socket, 0o666)  # PostgreSQL's user has to reach it
    with Connection(gateway.socket) as it, Postgres("fsync=off") as postgres:
        it.do("CREATE TABLE stock (id INTEGER PRIMARY KEY, pieces INTEGER RESERVABLE CHECK (pieces >= 0))", "INSERT INTO stock VALUES (1, 5)")
        script = [
            "CREATE EXTENSION postgres_fdw",
            f"CREATE SERVER gateway FOREIGN DATA WRAPPER postgres_fdw OPTIONS (host '{gateway.folder}', port '{PORT}', dbname 'bank')",
            "CREATE USER MAPPING FOR clerk SERVER gateway OPTIONS (user 'clerk', password_required 'false')",
            "CREATE FOREIGN TABLE stock (id bigint, pieces bigint) SERVER gateway",
        ]
        expect(postgres.psql("bank", *script), 0)
        for statement in ("SELECT * FROM stock", "UPDATE stock SET pieces = pieces - 1 WHERE id = 1"):
            done = subprocess.run(
                ["psql", "-XAt", "-v", "VERBOSITY=verbose", "-d", postgres.dsn(), "-c", statement],
                stdout=subprocess.PIPE,
                stderr=subprocess.STDOUT,
                text=True,
                timeout=END,
                check=False,
            )
            expect((done.returncode, "0A000" in done.stdout), (1, True), done.stdout)
            for word in ("REPEATABLE READ", "READ COMMITTED"):
                expect(word in done.stdout.upper(), True, f"{word}: {done.stdout}")
        expect(it.rows("SELECT * FROM stock"), [("1", "5")])


if __name__ == "__main__":
    main(PART)
