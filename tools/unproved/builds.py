"""What is built without a proof, and kept until a source, the kit or this package changes."""
import contextlib
import fcntl
import os
import shutil
import tempfile
from typing import Iterator, NamedTuple, Optional

from unproved import checked, kit, native, sources
from unproved.kit import Unexpected
from unproved.sources import PROGRAM, TOP, Changed
from unproved.steps import Steps

# How long the steps of the program take on one of two processors, in seconds, while the gateway is built on the other.
TRANSLATED, STRIPPED, COMPILED, LINKED, CHECKED = 180, 12, 200, 1, 240
# The lines of a store that a program with checks serves over files in good time: each takes a tenth of a second.
LINES_WITH_CHECKS = 30
# The GB of memory that a build may take. With checks it takes 6.
GIGABYTES = 4


class Built(NamedTuple):
    """A program: its path, and whether it has checks, which make it slow."""

    path: str
    is_checked: bool


class Kept:
    """A program that is kept in the folder of a crate, and the sum of what it was built of."""

    def __init__(self, crate: str, name: str) -> None:
        self.path = f"{TOP}/crates/{crate}/out/tried/{name}"
        self.note = f"{self.path}.sum"

    def is_of(self, wanted: str) -> bool:
        """Whether it is there, and was built of what has this sum."""
        return os.access(self.path, os.X_OK) and self.noted() == wanted

    def noted(self) -> Optional[str]:
        """What is noted: the sum, or that it can't be built."""
        try:
            with open(self.note, encoding="utf-8") as file:
                return file.read().strip()
        except FileNotFoundError:
            return None

    def take(self, built: str, made_of: str) -> None:
        """Keeps what was built of what has this sum."""
        with contextlib.suppress(FileNotFoundError):
            os.remove(self.note)
        shutil.copy(built, f"{self.path}.new")
        os.replace(f"{self.path}.new", self.path)
        self.write(made_of)

    def write(self, text: str) -> None:
        """Notes the sum, or that it can't be built."""
        with open(self.note, "w", encoding="utf-8") as file:
            file.write(text + "\n")


@contextlib.contextmanager
def alone(crate: str, steps: Steps) -> Iterator[None]:
    """Waits until nobody else builds this crate here."""
    os.makedirs(f"{TOP}/crates/{crate}/out/tried", exist_ok=True)
    with open(f"{TOP}/crates/{crate}/out/tried/lock", "w", encoding="ascii") as lock:
        try:
            fcntl.flock(lock, fcntl.LOCK_EX | fcntl.LOCK_NB)
        except BlockingIOError:
            with steps.step(f"waiting for another build of {crate}", TRANSLATED + STRIPPED + COMPILED):
                fcntl.flock(lock, fcntl.LOCK_EX)
        yield


def without_checks(crate: str, kept: Kept, steps: Steps) -> None:
    """Builds the program, or the tests of a crate, without checks. The tests aren't optimised: to optimise them takes longer than to run them."""
    level = native.OPTIMISED if crate == PROGRAM else native.NOT_OPTIMISED
    with tempfile.TemporaryDirectory(prefix="escrowd-try-") as room:
        copied = sources.copy(crate, f"{room}/sources")
        with steps.step("translating the sources", TRANSLATED):
            caught = kit.translate(copied.folder, crate != PROGRAM, room)
        with steps.step("removing the checks", STRIPPED):
            native.strip(caught, f"{room}/program.ll")
        with steps.step("compiling", COMPILED):
            native.compile_text(caught, f"{room}/program.ll", f"{room}/program.o", level)
        with steps.step("linking", LINKED):
            native.link(f"{room}/program.o", f"{room}/program")
        kept.take(f"{room}/program", copied.made_of)
    steps.tell(f"built {os.path.relpath(kept.path, TOP)}")


def with_checks(kept: Kept, steps: Steps) -> None:
    """Builds the program as `rt try` does."""
    with tempfile.TemporaryDirectory(prefix="escrowd-try-") as room:
        copied = sources.copy(PROGRAM, f"{room}/sources")
        with steps.step("building with checks", CHECKED):
            checked.build(copied.folder, room, f"{room}/program")
        kept.take(f"{room}/program", copied.made_of)
    steps.tell(f"built {os.path.relpath(kept.path, TOP)}")


def program(name: str, is_checked: bool = False) -> Built:
    """The program of the sources as they are, which is built unless it is kept. `name` is the tool that tells of it."""
    steps = Steps(name)
    kept, slow = Kept(PROGRAM, "program"), Kept(PROGRAM, "checked")
    with alone(PROGRAM, steps):
        wanted = sources.sum_of(PROGRAM)
        if not is_checked and not can_be_built(kept, wanted, steps):
            is_checked = True
        if is_checked and not slow.is_of(wanted):
            with_checks(slow, steps)
    return Built(slow.path, True) if is_checked else Built(kept.path, False)


def can_be_built(kept: Kept, wanted: str, steps: Steps) -> bool:
    """Builds the program without checks, unless it is kept. Returns whether this kit can."""
    without = f"{wanted}, not with this kit"
    if kept.is_of(wanted):
        return True
    if kept.noted() != without:
        try:
            without_checks(PROGRAM, kept, steps)
            return True
        except Unexpected as error:
            steps.tell(f"the kit is not as this tool knows it: {error}")
            kept.write(without)
    steps.tell("so the program has checks, which make it some hundred times slower")
    return False


def tests(crate: str) -> str:
    """The path of the tests of a crate as they are, without checks, which are built unless they are kept."""
    steps, kept = Steps(""), Kept(crate, "tests")
    with alone(crate, steps):
        if not kept.is_of(sources.sum_of(crate)):
            without_checks(crate, kept, steps)
    return kept.path


__all__ = ["Built", "Changed", "GIGABYTES", "LINES_WITH_CHECKS", "Unexpected", "program", "tests"]
