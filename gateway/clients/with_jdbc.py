"""The JDBC driver: WithJdbc.java does the work. It has no Unix sockets, so it connects by TCP: through pgbouncer, as one would, and through a relay
that passes bytes on, so that the gateway hears the driver itself."""
from __future__ import annotations

import subprocess
import tempfile
from pathlib import Path

from clients.packages import is_here
from clients.servers import END, Gateway, Pgbouncer, Relay
from clients.suite import Part, expect, main

PART = Part("with_jdbc")
SOURCE = Path(__file__).parent / "WithJdbc.java"
DRIVER = "/usr/share/java/postgresql.jar"
CHECKS = "111 checks\n"


def compiled() -> "tempfile.TemporaryDirectory[str]":
    """Compiles the source into a temporary folder."""
    folder = tempfile.TemporaryDirectory(prefix="escrowd-java-")
    subprocess.run(["javac", "-encoding", "UTF-8", "-cp", DRIVER, "-d", folder.name, str(SOURCE)], check=True, timeout=END)
    return folder


def run(folder: str, url: str, table: str) -> None:
    """Runs the class, which ends with status 0 and the sum of its checks."""
    words = ["java", "-XX:+UseSerialGC", "-XX:TieredStopAtLevel=1", "-Dfile.encoding=UTF-8", "-cp", f"{DRIVER}:{folder}", "WithJdbc", url, table]
    done = subprocess.run(words, capture_output=True, text=True, timeout=END, check=False)
    expect((done.returncode, done.stdout), (0, CHECKS), done.stderr[:400])


@PART.served
def by_itself_and_through_pgbouncer(gateway: Gateway) -> None:
    with compiled() as folder, Relay(gateway.socket) as relay:
        run(folder, f"jdbc:postgresql://127.0.0.1:{relay.port}/bank?user=clerk", "direct")
        run(folder, f"jdbc:postgresql://127.0.0.1:{relay.port}/bank?user=clerk&preferQueryMode=simple", "simple")
        run(folder, f"jdbc:postgresql://127.0.0.1:{relay.port}/bank?user=clerk&prepareThreshold=-1", "in_binary")
        if is_here("pgbouncer"):
            for mode, more in (("session", ""), ("transaction", "&prepareThreshold=0")):
                with Pgbouncer(gateway, mode, 5) as bouncer:
                    run(folder, f"jdbc:postgresql://127.0.0.1:{bouncer.port}/bank?user=clerk&password={bouncer.PASSWORD}{more}", mode)


if __name__ == "__main__":
    main(PART)
