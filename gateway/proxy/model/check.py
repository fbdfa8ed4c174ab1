#!/usr/bin/env python3
"""Checks the protocol's model with spin: every state of a setting, and that each rule is needed.

    check.py                      every state of the small setting, and each rule taken away
    check.py --truth              further forms that hold, and the traces in which a sum is wrong
    check.py --clients 3 --losses 2 --crashes 1 --held    every state of a large setting, without the rest

For the rules that are taken away spin searches breadth first, so the table shows the length of the shortest trace: to the
first violation of any property, and to the first in which a sum is wrong, a CHECK breaks or a fold is refused. Rules that need
neither are searched without rows that are left and changes without a reservation.
"""
from __future__ import annotations

import argparse
import re
import subprocess
import sys
import tempfile
import time
from concurrent.futures import ThreadPoolExecutor
from dataclasses import dataclass
from pathlib import Path
from typing import Dict, List, NamedTuple, Optional, Sequence, Tuple

MODEL = Path(__file__).resolve().with_name("protocol.pml")
MEMORY = 3000  # megabytes for each search


class Without(NamedTuple):
    """A rule that is taken away, or another form of it."""

    rule: str
    what: str
    names: Tuple[str, ...]

    def given(self, is_held: bool = False) -> Tuple[str, ...]:
        """Returns the names that the model gets."""
        needs_all = not self.rule or self.rule in ("14", "16")
        return self.names if needs_all and not is_held else (*self.names, "HELD")


BREAK = [
    Without("1", "the server commits when COMMIT is sent", ("EARLY",)),
    Without("2", "a reservation is dropped when its connection is lost", ("DROP_ON_LOSS",)),
    Without("3", "COMMIT is sent behind a note that is not answered", ("UNANSWERED",)),
    Without("7", "the epoch is tested before the write", ("TEST_FIRST",)),
    Without("7, 10", "holders are looked for before the epoch is set, no lock of it", ("LOOK_FIRST", "NO_LIVE")),
    Without("7, 10", "the epoch is not tested, and no lock of it either", ("NO_TEST", "NO_LIVE")),
    Without("8, 10", "the epoch is logged, and has no lock", ("LOGGED_EPOCH", "NO_LIVE")),
    Without("8, 10", "an old snapshot shows the epoch, and it has no lock", ("SNAPSHOT", "NO_LIVE")),
    Without("8", "the epoch is logged, not flushed, counts up, and has no lock", ("LOGGED_EPOCH", "NO_FLUSH", "COUNTED", "NO_LIVE")),
    Without("8, 10", "the epoch is logged, and its lock has a fixed key", ("LOGGED_EPOCH", "FIXED_LOCK")),
    Without("9", "a new owner does not wait for older transactions", ("NO_WAIT",)),
    Without("11", "a fold takes a part of the key's rows", ("PART",)),
    Without("11", "an own fold takes its own row alone", ("OWN_ROWS",)),
    Without("11", "a fold takes no lock of the row", ("NO_LOCK",)),
    Without("14", "a load does not test the epoch", ("LOAD_UNTESTED",)),
    Without("14", "a sweep does not test the epoch", ("SWEEP_UNTESTED",)),
    Without("14", "an owner that leaves a row removes any mark", ("LEAVE_ANY",)),
    Without("14", "a leave that comes late removes the mark of a later load", ("LEAVE_LATER",)),
    Without("16", "a change without a reservation looks for no mark", ("HERE_UNMARKED",)),
    Without("16", "a change without a reservation does not test its epoch", ("HERE_UNTESTED",)),
]
HOLD = [
    Without("", "as it is", ()),
    Without("10", "no lock of the epoch", ("NO_LIVE",)),
    Without("4", "an id is asked anywhere, and a crash may give it to another", ("STALE_ID",)),
    Without("7", "holders are looked for before the epoch is set", ("LOOK_FIRST",)),
    Without("8", "the epoch is logged and flushed", ("LOGGED_EPOCH",)),
    Without("8", "an old snapshot shows the epoch", ("SNAPSHOT",)),
]


@dataclass
class Found:
    """What a search found."""

    states: int
    seconds: float
    assertion: Optional[str]
    depth: int


def search(folder: Path, names: Sequence[str], values: Dict[str, int], shortest: bool, compact: bool = False) -> Found:
    """Searches a setting. `compact` keeps 12 bytes of hash of each state, so a state is missed with a small probability. Fails if spin or the compiler fails, or if the search does not end by itself."""
    folder.mkdir()
    given = [f"-D{name}" for name in names] + [f"-D{name}={value}" for name, value in values.items()]
    subprocess.run(["spin", *given, "-a", str(MODEL)], cwd=folder, check=True, stdout=subprocess.DEVNULL)
    options = ["-O1", "-DSAFETY", "-DHC4" if compact else "-DCOLLAPSE", "-DNOREDUCE", f"-DMEMLIM={MEMORY}"] + (["-DBFS"] if shortest else [])
    subprocess.run(["gcc", "-w", *options, "-o", "pan", "pan.c"], cwd=folder, check=True)
    begin = time.monotonic()
    said = subprocess.run(["nice", "-n", "10", "./pan", "-m5000", "-w24"], cwd=folder, stdout=subprocess.PIPE, text=True).stdout
    seconds = time.monotonic() - begin
    states = re.search(r"(\d+) states, stored", said)
    errors = re.search(r"errors: (\d+)", said)
    if states is None or errors is None or "out of memory" in said or "max search depth too small" in said:
        raise RuntimeError(f"the search of {' '.join(given) or 'the model'} did not end: {said[-2000:]}")
    violated = re.search(r"assertion violated (.*) \(at depth (\d+)\)", said)
    if errors.group(1) != "0" and violated is None:
        raise RuntimeError(f"not an assertion: {said[-2000:]}")
    if errors.group(1) == "0" and "Search not completed" in said:
        raise RuntimeError(f"the search of {' '.join(given)} was not exhaustive")
    return Found(int(states.group(1)), seconds, violated.group(1) if violated else None, int(violated.group(2)) if violated else 0)


def report(folder: Path, values: Dict[str, int], truth: bool, compact: bool, is_held: bool) -> bool:
    """Prints what each search found. Returns whether all is as it should be."""
    good = True
    holds = HOLD if truth else HOLD[:1]
    breaks = [] if values else BREAK
    kinds: Sequence[Tuple[str, Tuple[str, ...]]] = (("any", ()), ("truth", ("TRUTH_ALONE",))) if truth else (("any", ()),)
    with ThreadPoolExecutor(2) as pool:
        holding = [(it, pool.submit(search, folder / f"hold{n}", it.given(is_held), values, False, compact)) for n, it in enumerate(holds)]
        breaking = [
            (it, [pool.submit(search, folder / f"{kind}{n}", it.given() + more, values, True) for kind, more in kinds])
            for n, it in enumerate(breaks)
        ]
        print(f"{'holds':70}{'states':>12}{'seconds':>9}")
        for it, future in holding:
            found = future.result()
            good = good and found.assertion is None
            verdict = "" if found.assertion is None else f" BROKEN at {found.depth}: {found.assertion}"
            print(f"{it.rule:7}{it.what:63}{found.states:12,}{found.seconds:9.1f}{verdict}", flush=True)
        if breaking:
            print(f"\n{'taken away: steps to the first violation':70}" + "".join(f"{kind:>8}" for kind, _ in kinds))
        for it, futures in breaking:
            results = [future.result() for future in futures]
            good = good and all(found.assertion is not None for found in results)
            shown = ("none" if found.assertion is None else str(found.depth) for found in results)
            print(f"{it.rule:7}{it.what:63}" + "".join(f"{it:>8}" for it in shown), flush=True)
    return good


def main(words: Optional[List[str]] = None) -> int:
    """Runs the searches. Returns the status."""
    parser = argparse.ArgumentParser(description=__doc__, formatter_class=argparse.RawDescriptionHelpFormatter)
    parser.add_argument("--truth", action="store_true")
    parser.add_argument("--compact", action="store_true", help="keep a hash of each state instead of the state")
    parser.add_argument("--held", action="store_true", help="leave out that rows are left, and changes without a reservation")
    sizes = [parser.add_argument(f"--{name}", type=int).dest for name in ("clients", "losses", "crashes")]
    chosen = parser.parse_args(words)
    values: Dict[str, int] = {name.upper(): getattr(chosen, name) for name in sizes if getattr(chosen, name) is not None}
    with tempfile.TemporaryDirectory(prefix="escrowd-model-") as folder:
        good = report(Path(folder), values, chosen.truth, chosen.compact, chosen.held)
    print("\nas it should be" if good else "\nNOT AS IT SHOULD BE")
    return 0 if good else 1


if __name__ == "__main__":
    sys.exit(main())
