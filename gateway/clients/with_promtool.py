"""The metrics as promtool of Prometheus judges them."""
from __future__ import annotations

import subprocess
from pathlib import Path

from clients.limits import TAKE, with_stock
from clients.servers import TRANSACTIONS, Gateway, wait_until
from clients.suite import Part, expect, main
from clients.wire import Connection

PART = Part("with_promtool")
# What promtool finds: the histogram whose name stays although its unit is none of Prometheus' base units.
DEPRECATED = 'escrowd_pg_statement_microseconds use base unit "seconds" instead of "microseconds"\n'


@PART.alone
def metrics_that_are_checked() -> None:
    with Gateway({"bank": Path("bank.db"), "shop": None}, ("--metrics", "{folder}/escrowd.prom")) as gateway:
        holder, idle = with_stock(gateway, 5), Connection(gateway.socket)
        holder.do("BEGIN", TAKE.format(1), "COMMIT", "BEGIN", TAKE.format(1))
        metrics = gateway.folder / "escrowd.prom"
        wait_until("the commit is counted", lambda: metrics.exists() and 'outcome="committed"} 3' in metrics.read_text())
        told = dict(line.rsplit(" ", 1) for line in metrics.read_text().splitlines() if line.startswith(("escrowd_pg_connections", "escrowd_pg_sessions")))
        expect(told, {f'escrowd_pg_{name}{{database="{database}"}}': value for database, values in (("bank", ("2", "8192", "1", str(TRANSACTIONS), "0")),
                                                                                                  ("shop", ("0", "8192", "0", str(TRANSACTIONS), "0")))
                      for name, value in zip(("connections", "connections_max", "sessions", "sessions_max", "sessions_waiting"), values)})
        idle.close()
        done = subprocess.run(["promtool", "check", "metrics"], stdin=metrics.open(), capture_output=True, text=True, check=False)
        expect(done.stdout + done.stderr, DEPRECATED)
        gateway.expect_clean_end()


if __name__ == "__main__":
    main(PART)
