"""node-pg: with_node.js does the work."""
from __future__ import annotations

import os
import shutil
import subprocess
from pathlib import Path

from clients.packages import NODE_MODULES, unpack_node_pg
from clients.servers import END, PORT, Gateway
from clients.suite import Part, Skipped, expect, main

PART = Part("with_node")
SCRIPT = Path(__file__).with_suffix(".js")


@PART.served
def in_short(gateway: Gateway) -> None:
    given = os.environ.get(NODE_MODULES)
    modules = Path(given) if given else unpack_node_pg()
    if modules is None:
        raise Skipped("Debian's node-pg cannot be had")
    try:
        env = {**os.environ, "NODE_PATH": str(modules)}
        done = subprocess.run(["node", str(SCRIPT), str(gateway.folder), str(PORT)], capture_output=True, text=True, timeout=END, env=env, check=False)
        expect((done.returncode, done.stdout), (0, "18 checks\n"), done.stderr[:1500])
    finally:
        if not given:
            shutil.rmtree(modules.parents[2])


if __name__ == "__main__":
    main(PART)
