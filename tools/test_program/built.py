"""The built programs that tools/scenarios, tools/scenario and tools/test-program start."""
import os
from typing import List, Sequence

TOP = os.path.dirname(os.path.dirname(os.path.dirname(os.path.abspath(__file__))))
BUILT = f"{TOP}/crates/escrowd/out/escrowd"
# How the builds of the two compilers end.
ENDINGS = ("", ".by-rattle")


class Missing(Exception):
    """What isn't there."""


def programs(asked: Sequence[str]) -> List[str]:
    """The paths of the programs that were asked, or of those that were built."""
    paths = [os.path.abspath(it) for it in asked] or [BUILT + it for it in ENDINGS if not it or os.path.exists(BUILT + it)]
    for path in paths:
        if not os.access(path, os.X_OK):
            raise Missing(f"{os.path.relpath(path)} isn't built: `rt run -- --help` in crates/escrowd builds the program, and so does the gate")
    return paths
