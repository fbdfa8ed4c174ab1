#!/usr/bin/env python3
"""The protocol in Promela: spin visits every state of the small setting, and finds a fault as soon as one rule is taken away."""
from __future__ import annotations

import contextlib
import subprocess
import sys
import tempfile
import time
from typing import IO

from clients.servers import PATIENCE
from clients.suite import Part, main
from proxy.test.harness import TOP

PART = Part("proxy_model")


# The seconds of all searches, and those between two lines that say that one of them goes on: a line puts the limit of a case off.
SECONDS, EACH = 1100.0 * PATIENCE, 30.0


@PART.alone
def every_state_of_the_small_setting() -> None:
    """`model/check.py` has its larger settings by hand."""
    begin = time.monotonic()
    with tempfile.TemporaryFile("w+") as said, subprocess.Popen([sys.executable, str(TOP / "proxy/model/check.py")], stdout=said, stderr=said) as searches:
        try:
            while searches.poll() is None:
                with contextlib.suppress(subprocess.TimeoutExpired):
                    searches.wait(EACH)
                    break
                print(f"  spin searches, since {time.monotonic() - begin:.0f} s", flush=True)
                assert time.monotonic() - begin < SECONDS, f"not within {SECONDS:.0f} s: spin has searched all settings: {text_of(said)}"
        finally:
            searches.kill()
        assert searches.returncode == 0, text_of(said)


def text_of(file: IO[str]) -> str:
    """Returns the end of what was written to a file."""
    file.seek(0)
    return file.read()[-4000:]


if __name__ == "__main__":
    main(PART)
