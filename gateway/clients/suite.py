"""Cases and the parts that hold them. A part runs in a process of its own and reports each case as a line of JSON."""
from __future__ import annotations

import faulthandler
import json
import signal
import sys
import time
import traceback
from dataclasses import dataclass, field
from typing import Callable, List, Union

from clients.servers import LOAD, Gateway, heard

# The lines of a traceback that a report shows, and the letters of its last line.
LINES_OF_FAULT, LONGEST_FAULT = 20, 1000


class Skipped(Exception):
    """Says what a case needs and cannot have on this machine."""


PASSED, FAILED, SKIPPED = "passed", "failed", "skipped"


@dataclass(frozen=True)
class Report:
    """How a case went: why it failed or was skipped, and how many tests it stands for if it passed."""

    part: str
    case: str
    outcome: str
    seconds: float = 0.0
    why: str = ""
    count: int = 1

    def to_line(self) -> str:
        return json.dumps(self.__dict__)

    @staticmethod
    def from_line(line: str) -> Report:
        return Report(**json.loads(line))


@dataclass(frozen=True)
class Served:
    """A case that gets a gateway of its own, with the database `bank` in memory."""

    act: Callable[[Gateway], None]

    def run(self) -> None:
        with Gateway() as gateway:
            self.act(gateway)
            gateway.expect_clean_end()


@dataclass(frozen=True)
class Alone:
    """A case that starts what it needs."""

    act: Callable[[], None]

    def run(self) -> None:
        self.act()


@dataclass
class Part:
    """The cases of one client or of one concern."""

    name: str
    cases: List[Union[Served, Alone]] = field(default_factory=list)

    def served(self, act: Callable[[Gateway], None]) -> Callable[[Gateway], None]:
        """Adds a case that gets a gateway."""
        self.cases.append(Served(act))
        return act

    def alone(self, act: Callable[[], None]) -> Callable[[], None]:
        """Adds a case that starts its own gateways."""
        self.cases.append(Alone(act))
        return act

    def run(self, wanted: List[str]) -> None:
        """Runs the cases whose names contain a wanted word, or all, and prints a report of each."""
        for case in self.cases:
            name = case.act.__name__
            if wanted and not any(word in name for word in wanted):
                continue
            print(json.dumps({"begins": name}), flush=True)
            begin = time.monotonic()
            outcome, why = PASSED, ""
            try:
                case.run()
            except Skipped as skipped:
                outcome, why = SKIPPED, str(skipped)
            except Exception as fault:  # pylint: disable=broad-exception-caught  # whatever a case raises is its outcome
                outcome, why = FAILED, reason(fault)
            print(Report(self.name, name, outcome, time.monotonic() - begin, why).to_line(), flush=True)


def reason(fault: Exception) -> str:
    """Returns what servers said, then where a fault comes from, and last the fault itself in one line, which the sums show."""
    lines = "".join(traceback.format_exception(type(fault), fault, fault.__traceback__)).rstrip().splitlines()[-LINES_OF_FAULT:]
    itself = " ".join("".join(traceback.format_exception_only(type(fault), fault)).split())[:LONGEST_FAULT]
    return "\n".join([*(it.rstrip() for it in heard(fault)), *lines, *([itself] if lines[-1] != itself else [])])


def expect(got: object, wanted: object, what: str = "") -> None:
    """Fails, and shows both values, unless they are equal."""
    if got != wanted:
        raise AssertionError(f"{what + ': ' if what else ''}got {got!r}, expected {wanted!r}")


def load(count: int) -> int:
    """Returns how often a case does what it would do so often by default."""
    return max(1, round(count * LOAD))


def main(part: Part) -> None:
    """Runs a part from its own module: `python3 -m clients.with_psql [CASE ..]`. SIGTERM ends it, and what it has started. Before that it shows where each
    of its threads stands, the main one last: what a case that hangs has waited for."""
    signal.signal(signal.SIGTERM, lambda *_: sys.exit(1))
    faulthandler.register(signal.SIGTERM, chain=True)
    part.run(sys.argv[1:])
