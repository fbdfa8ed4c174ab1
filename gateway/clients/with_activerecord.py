"""ActiveRecord: with_activerecord.rb does the work."""
from __future__ import annotations

import subprocess
from pathlib import Path

from clients.servers import END, PORT, Gateway
from clients.suite import Part, expect, main

PART = Part("with_activerecord")
SCRIPT = Path(__file__).with_suffix(".rb")


@PART.served
def connects_finds_and_reserves(gateway: Gateway) -> None:
    done = subprocess.run(["/usr/bin/ruby", str(SCRIPT), str(gateway.folder), str(PORT)], capture_output=True, text=True, timeout=END, check=False)
    expect((done.returncode, done.stdout), (0, "17 checks\n"), done.stderr[:1500])


if __name__ == "__main__":
    main(PART)
