"""Looks at the sources of a member of the gateway with cargo's tools, and runs its tests by values alone."""
import os
import re
import shutil
from typing import List, NamedTuple

from unproved.process import finished
from unproved.sources import TOP

# The checks of a member, quickest first.
CHECKS = {
    "fmt": ["fmt", "--check"],
    "clippy": ["clippy", "--offline", "--all-targets", "--", "-D", "warnings"],
    "test": ["test", "--offline"],
}
# Where gateway/test builds too, and as it does, so that nothing is built twice.
ENVIRONMENT = {"CARGO_TARGET_DIR": f"{TOP}/gateway/out", "CARGO_INCREMENTAL": "0", "CARGO_PROFILE_DEV_DEBUG": "0"}
# The lines of what cargo says that are shown where something fails.
LINES = 40
RESULT = re.compile(r"(?m)^test result: \w+\. (\d+) passed; (\d+) failed")


class Checked(NamedTuple):
    """A check of a member: how much passed and failed, and what cargo said if something did."""

    name: str
    passed: int
    failed: int
    said: str = ""


def last_lines(text: str) -> str:
    """The last lines of what was said, each with its end."""
    return "".join(f"{it}\n" for it in text.splitlines()[-LINES:])


def is_member(name: str) -> bool:
    """Whether a folder has a package of cargo's."""
    return os.path.exists(f"{TOP}/{name}/Cargo.toml")


def check(name: str) -> List[Checked]:
    """Makes the checks of the member in a folder."""
    environment = {key: os.environ.get(key, value) for key, value in ENVIRONMENT.items()}
    found = []
    for tool, words in CHECKS.items():
        if not shutil.which("cargo"):
            return [Checked("cargo", 0, 1, "cargo is not installed")]
        done = finished(["cargo", *words], f"{TOP}/{name}", environment)
        results = RESULT.findall(done.said)
        passed, failed = (sum(int(it[place]) for it in results) for place in (0, 1))
        if tool != "test" and not done.status:
            passed = 1
        if done.status:
            failed = max(failed, 1)
        found.append(Checked(tool, passed, failed, last_lines(done.said) if done.status else ""))
    return found
