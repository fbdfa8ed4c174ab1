"""Builds escrowd-pg, and runs what cargo says of its sources."""
from __future__ import annotations

import os
import re
import shutil
import signal
import subprocess
import time
from typing import Callable, List, NamedTuple, Optional, Sequence

from clients.servers import BUILT, GATEWAY, PROGRAM, TOP
from clients.suite import FAILED, PASSED, SKIPPED, Report

PART = "sources"
CRATES = ["bytes", "clap", "hmac", "mio", "once-cell", "postgres-protocol", "prometheus", "proptest", "proptest+std", "rand", "regex",
          "rustls-pemfile", "sha2", "signal-hook", "signal-hook-mio", "socket2", "thiserror", "tokio", "tokio-postgres", "tokio-rustls",
          "tracing", "tracing-subscriber", "webpki"]
PACKAGES = [f"librust-{it}-dev" for it in CRATES]
COMPILER = ["cargo", "rustc", "gcc"]
OLDEST = (1, 63)  # of rustc
FOLDER = TOP / "gateway"
# The lines of what cargo says that a report of a failure shows.
LINES = 40
# Tests need no debug information, and nothing is built twice.
ENVIRONMENT = {"CARGO_TARGET_DIR": str(BUILT), "CARGO_INCREMENTAL": "0", "CARGO_PROFILE_DEV_DEBUG": "0", "ESCROWD": str(PROGRAM)}
TOO_LATE = 124
# The seconds in which a program says which version it has.
SOON = 300.0


class Done(NamedTuple):
    """How a command ended, and what it said. The status is TOO_LATE if its time was over."""

    status: int
    said: str


def run(words: Sequence[str], end: float) -> Done:
    """Runs a command in the gateway's folder, until a time at most."""
    process = subprocess.Popen(words, cwd=FOLDER, env={**os.environ, **ENVIRONMENT}, stdin=subprocess.DEVNULL, stdout=subprocess.PIPE,
                               stderr=subprocess.STDOUT, text=True, start_new_session=True)
    try:
        said, _ = process.communicate(timeout=max(1.0, end - time.monotonic()))
        return Done(process.returncode, said)
    except subprocess.TimeoutExpired:
        os.killpg(process.pid, signal.SIGKILL)  # the compilers that cargo started too
        return Done(TOO_LATE, process.communicate()[0])


def needs() -> List[str]:
    """Returns Debian's packages of a compiler, if there is none, and of the crates."""
    return ([] if shutil.which("cargo") else COMPILER) + PACKAGES


def lacks(needs_program: bool) -> Optional[str]:
    """Returns what a build, or also the tests with the program, need and this machine does not have, if anything."""
    if needs_program and not os.access(PROGRAM, os.X_OK):
        return f"{PROGRAM} is not built"
    if "ESCROWD_PG" in os.environ:
        return None if os.access(GATEWAY, os.X_OK) else f"{GATEWAY} is not built"
    for it in ("cargo", "rustc", "cc"):
        if not shutil.which(it):
            return f"there is no {it}"
    soon = time.monotonic() + SOON
    version = re.search(r"rustc (\d+)\.(\d+)", run(["rustc", "--version"], soon).said)
    if not version or (int(version[1]), int(version[2])) < OLDEST:
        return f"rustc is older than {OLDEST[0]}.{OLDEST[1]}"
    found = run(["cargo", "metadata", "--offline", "--format-version", "1"], soon)
    why = re.search(r"(?m)^error: (.+)", found.said)
    return None if found.status == 0 else f"the crates cannot be had: {why[1] if why else found.status}"


def reported(case: str, words: Sequence[str], end: float, add: Callable[[Report], None]) -> Done:
    """Runs cargo and reports it as a case."""
    begin = time.monotonic()
    done = run(["cargo", *words], end)
    seconds = time.monotonic() - begin
    if done.status == TOO_LATE:
        add(Report(PART, case, SKIPPED, seconds, f"cargo {' '.join(words)} does not end within the limit of the whole"))
    elif done.status:
        add(Report(PART, case, FAILED, seconds, f"cargo {' '.join(words)}: status {done.status}\n" + "\n".join(done.said.splitlines()[-LINES:])))
    else:
        add(Report(PART, case, PASSED, seconds))
    return done


def build(end: float, add: Callable[[Report], None]) -> bool:
    """Builds the gateway, if the environment does not name one. Returns whether it is there."""
    return "ESCROWD_PG" in os.environ or reported("build", ["build", "--workspace", "--offline", "--release"], end, add).status == 0


def build_tests(end: float, add: Callable[[Report], None]) -> None:
    """Builds the tests in Rust."""
    reported("tests are built", ["test", "--workspace", "--offline", "--no-run"], end, add)


def examine(end: float, add: Callable[[Report], None]) -> None:
    """Runs the tests in Rust, and the tools that judge the sources where cargo has them."""
    done = reported("test", ["test", "--workspace", "--offline"], end, add)
    passed = sum(int(it) for it in re.findall(r"(?m)^test result: \w+\. (\d+) passed", done.said))
    if done.status == 0:
        add(Report(PART, "tests in Rust", PASSED if passed else FAILED, why="" if passed else "no test ran", count=passed))
    for tool, words in {"fmt": ["fmt", "--all", "--check"], "clippy": ["clippy", "--workspace", "--offline", "--all-targets", "--", "-D", "warnings"]}.items():
        if shutil.which(f"cargo-{tool}") and run(["cargo", tool, "--version"], time.monotonic() + SOON).status == 0:
            reported(tool, words, end, add)
        else:
            add(Report(PART, tool, SKIPPED, why=f"cargo {tool} is not installed"))
