#!/usr/bin/env python3
"""Stands between the gateway and the program, and answers `ERR 51 memory` to the first ROLLBACKs: as many as ESCROWD_REFUSED_ROLLBACKS says.

A refused line reaches the program as one that has a fault in a column of its own, so that the answer comes in its place.
"""
from __future__ import annotations

import os
import re
import subprocess
import sys
import threading

HERE = os.path.dirname(os.path.abspath(__file__))
PROGRAM = os.environ.get("ESCROWD", os.path.join(HERE, "../../crates/escrowd/out/escrowd"))
ROLLBACK = re.compile(rb"^([a-z0-9]+\.[0-9]+): *ROLLBACK\b")
COLUMN = 777


def main() -> int:
    left = int(os.environ.get("ESCROWD_REFUSED_ROLLBACKS", "0"))
    program = subprocess.Popen([PROGRAM, *sys.argv[1:]], stdin=subprocess.PIPE, stdout=subprocess.PIPE)
    assert program.stdin and program.stdout

    def answers() -> None:
        assert program.stdout
        for line in program.stdout:
            os.write(1, line.replace(b"ERR 11 syntax column %d\n" % COLUMN, b"ERR 51 memory\n"))

    reader = threading.Thread(target=answers)
    reader.start()
    for line in sys.stdin.buffer:
        found = ROLLBACK.match(line)
        if found and left:
            left -= 1
            line = found[1] + b":" + b" " * (COLUMN - 1) + b"?\n"
        program.stdin.write(line)
        program.stdin.flush()
    program.stdin.close()
    reader.join()
    return program.wait()


if __name__ == "__main__":
    sys.exit(main())
