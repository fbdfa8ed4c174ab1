"""Runs the tests of a crate of tests, as they are in the sources, without a proof."""
import re
import tempfile
from typing import List, NamedTuple

from unproved import builds, kit
from unproved.process import finished
from unproved.sources import TOP, crates_of, test_crates


class Ran(NamedTuple):
    """How many tests passed, and a line for each that failed. A line that is moved in belongs to the one before it."""

    passed: int
    failed: List[str]


def last_lines(text: str) -> List[str]:
    """The last lines of what was said, moved in, so that none counts as something that failed."""
    return ["    " + "\n    ".join(text.strip().split("\n")[-8:])]


def smallest_over(crate: str) -> str:
    """The crate of tests that is built of a crate and of the fewest others. A crate of tests is its own."""
    return min((it for it in test_crates() if crate in crates_of(it)), key=lambda it: len(crates_of(it)))


def run_tests(crate: str) -> Ran:
    """Builds and runs the tests of a crate. A kit of another form than tools/unproved knows builds them with checks."""
    try:
        tests = builds.tests(crate)
        with tempfile.TemporaryDirectory(prefix="escrowd-check-") as room:
            done = finished([f"{kit.folder()}/bin/rattle-test", "--seconds", str(kit.SECONDS), tests], room)
    except kit.Unexpected:
        done = finished([kit.rt(), *kit.words_of_try(is_test=True)], f"{TOP}/crates/{crate}")
    except kit.NotBuilt as error:
        return Ran(0, [f"{crate} is not built", *last_lines(str(error))])
    results = re.findall(r"(?m)^test (\S+) \.\.\. (.*)$", done.said)
    failed = [f"{name}: {word}" for name, word in results if word != "ok"]
    if (done.status and not failed) or not results:
        failed += [f"{crate}: not run to its end, status {done.status}", *last_lines(done.said)]
    return Ran(sum(word == "ok" for _, word in results), failed)
