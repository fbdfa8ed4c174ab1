"""p1_pgsql, which reads `pg_type` when it connects: with_erlang.escript does the work."""
from __future__ import annotations

import subprocess
from pathlib import Path

from clients.servers import END, Gateway, Relay
from clients.suite import Part, expect, main

PART = Part("with_erlang")
SCRIPT = Path(__file__).with_suffix(".escript")


@PART.served
def connects_and_reserves(gateway: Gateway) -> None:
    with Relay(gateway.socket) as relay:  # it has no Unix sockets
        done = subprocess.run(["escript", str(SCRIPT), str(relay.port)], capture_output=True, text=True, timeout=END, check=False)
    # If a connection ends before its driver's process does, the driver prints a line of its own.
    expect((done.returncode, done.stdout.splitlines()[-1:]), (0, ["5 checks"]), done.stdout[-300:] + done.stderr[:1500])


if __name__ == "__main__":
    main(PART)
