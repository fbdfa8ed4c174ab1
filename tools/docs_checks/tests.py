"""Which wrong bodies and which tests try a function, and where docs/theorems.md names it.

The index of a crate is made when it is asked for, so it is never old, and no page has it. A wrong body or a lie belongs to the function that has the line
which it edits. A test belongs to a function if its file names the crate, and calls the function: by its name, and for a method names its type too.

The check finds edits that don't fit the sources any more: without it, only the prover tells, hours later. It finds lies that name no test, and counts the
public functions with a contract that no edit, no test and no promise names.
"""
import glob
import os
import re
from typing import Dict, Iterator, List, NamedTuple, Set, Tuple

from docs_checks.declared import FUNCTION, Function, functions_of
from docs_checks.sources import TOP, lines_of, read

PROMISES = "docs/theorems.md"
TEST = re.compile(r"#\[test\]\s+fn (\w+)\(")


class Edit(NamedTuple):
    """A replaced line of a wrong body or a lie: its file, what is replaced, and the file of the source, from the top."""

    path: str
    old: str
    source: str

    @property
    def name(self) -> str:
        """The name of the wrong body or the lie."""
        return os.path.basename(self.path)


def edits_of(crate: str) -> Iterator[Edit]:
    """The edits of a crate, those that the gate tries among them."""
    for path in sorted(glob.glob(f"{TOP}/crates/{crate}/must-fail/*.edit") + glob.glob(f"{TOP}/crates/{crate}/wrong-bodies/*")):
        source = ""
        for key, text in re.findall(r"(?m)^(file|old): (.*)$", read(os.path.relpath(path, TOP))):
            if key == "file":
                source = f"crates/{crate}/{text}"
            else:
                yield Edit(os.path.relpath(path, TOP), text, source)


def crates() -> List[str]:
    """The crates, by name."""
    return sorted(os.path.basename(it) for it in glob.glob(f"{TOP}/crates/*") if os.path.isdir(f"{it}/src"))


class TestFile(NamedTuple):
    """A file of a crate of tests: the crate, its text, and its tests."""

    crate: str
    text: str
    tests: List[str]


def test_files() -> List[TestFile]:
    """The files with tests."""
    found = []
    for path in sorted(glob.glob(f"{TOP}/crates/*_tests/src/**/*.rt", recursive=True)):
        text = read(os.path.relpath(path, TOP))
        tests = TEST.findall(text)
        if tests:
            found.append(TestFile(path[len(TOP) :].split("/")[2], text, tests))
    return found


def names_crate(file: TestFile, crate: str) -> bool:
    """Whether a file of tests names a crate."""
    return re.search(rf"\b{crate}::", file.text) is not None


def calls(file: TestFile, function: Function) -> bool:
    """Whether a file of tests calls a function, as far as names tell."""
    if not names_crate(file, function.crate) or not re.search(rf"\b{function.name}\(", file.text):
        return False
    return not function.holder or re.search(rf"\b{function.holder}\b", file.text) is not None


def called(function: Function) -> str:
    """A function as pages name it."""
    return f"{function.holder}::{function.name}" if function.holder else function.name


def edited_by(edit: Edit, text: str) -> int:
    """The place, among the functions of a source, of the last one that begins before the line which an edit replaces; -1 if none does."""
    before = text[: text.find(edit.old)].split("\n")
    return sum(FUNCTION.match(line) is not None for line in before) - 1


class Entry(NamedTuple):
    """What tries a function: the names of edits, the tests, and the lines of the promises."""

    function: Function
    edits: List[str]
    tests: List[str]
    promises: List[int]

    def lines(self) -> List[str]:
        """The entry as it is printed, without a line if nothing names the function."""
        found = [f"wrong body  {it}" for it in self.edits] + [f"test        {it}" for it in self.tests]
        found += [f"promise     {PROMISES}:{it}" for it in self.promises]
        source = os.path.relpath(self.function.path, f"{TOP}/crates")
        return [f"{called(self.function)} ({source})", *(f"    {it}" for it in found)] if found else []

    def is_bare(self) -> bool:
        """Whether it is a public function with a contract that nothing names."""
        return bool(self.function.is_public and self.function.clauses and not self.lines())


def promised(function: Function, lines: List[str]) -> List[int]:
    """The lines of the promises that name a function."""
    names = [called(function), f"{function.crate}::{function.name}", f"laws::{function.name}"] + ([] if function.holder else [function.name])
    return [number for number, line in enumerate(lines, 1) if any(f"`{it}`" in line or f"`{function.crate}::{it}`" in line for it in names)]


def index_of(crate: str, files: List[TestFile]) -> List[Entry]:
    """The index of a crate."""
    edits: Dict[str, List[Edit]] = {}
    for edit in edits_of(crate):
        edits.setdefault(edit.source, []).append(edit)
    lines = lines_of(PROMISES)
    entries = []
    for path in sorted(glob.glob(f"{TOP}/crates/{crate}/src/**/*.rt", recursive=True)):
        functions, text = list(functions_of(path)), read(os.path.relpath(path, TOP))
        tried: Dict[int, Set[str]] = {}
        for edit in edits.get(os.path.relpath(path, TOP), []):
            tried.setdefault(edited_by(edit, text), set()).add(edit.name)
        for place, function in enumerate(functions):
            tests = [f"{file.crate}::{test}" for file in files if calls(file, function) for test in file.tests]
            entries.append(Entry(function, sorted(tried.get(place, ())), tests, promised(function, lines)))
    return entries


def print_index(name: str) -> bool:
    """Prints the index of a crate, or of the functions of a name such as `mark` or `Journal::mark`. Returns whether there are any."""
    files = test_files()
    if name in crates():
        entries = index_of(name, files)
        bare = [called(it.function) for it in entries if it.is_bare()]
        constants = sorted({it.name for it in edits_of(name)} - {edit for it in entries for edit in it.edits})
        print(*(line for it in entries for line in it.lines()), sep="\n")
        print(f"wrong bodies of constants: {', '.join(constants) or 'none'}")
        print(f"named by none: {', '.join(bare) or 'no public function with a contract'}")
        return True
    entries = [it for crate in crates() for it in index_of(crate, files) if name in (called(it.function), it.function.name)]
    for it in entries:
        print(*(it.lines() or [f"{called(it.function)} (crates/{it.function.crate}): named by none"]), sep="\n")
    return bool(entries)


def faults_of_edits(crate: str) -> Iterator[str]:
    """The edits of a crate that don't fit."""
    for edit in edits_of(crate):
        times = read(edit.source).count(edit.old) if os.path.exists(f"{TOP}/{edit.source}") else 0
        if times != 1:
            yield f"{edit.path}: this is {times} times in {edit.source}: {edit.old}"


def faults_of_lies(files: List[TestFile]) -> Iterator[str]:
    """The lies that name a test which is in no crate of tests."""
    known = {(file.crate, test) for file in files for test in file.tests}
    for path in sorted(glob.glob(f"{TOP}/crates/*/wrong-bodies/*.lie")):
        for where, test in re.findall(r"(?m)^fails: (\S+) (.*)$", read(os.path.relpath(path, TOP))):
            if where != "test-program" and (where, test) not in known:
                yield f"{os.path.relpath(path, TOP)}: {where} has no test {test}"


def check() -> Tuple[List[str], str]:
    """Finds edits that don't fit, and lies without their tests. Returns the faults and the sums."""
    files = test_files()
    faults = [fault for crate in crates() for fault in faults_of_edits(crate)] + list(faults_of_lies(files))
    edits = {it.path for crate in crates() for it in edits_of(crate)}
    return faults, f"{len(edits)} wrong bodies and lies, {sum(len(it.tests) for it in files)} tests, {len(faults)} faults"
