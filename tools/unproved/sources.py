"""What a build is made of: a crate, the crates below it, a sum of all of it, and a copy."""
import hashlib
import os
import re
import shutil
from typing import Dict, Iterator, List, NamedTuple

from unproved.kit import version

TOP = os.path.dirname(os.path.dirname(os.path.dirname(os.path.abspath(__file__))))
PROGRAM = "escrowd"
# What `rt` reads at the top beside the crates.
CRATES, HANDLES = "crates.txt", "HANDLES"
# Where the version of the program is, and what stands behind it in a program without a proof.
VERSION_FILE = "crates/escrow_server/src/args.rt"
VERSION = re.compile(r'(?m)^(const VERSION: &str = "[0-9.]+)(";)$')
MARK = "(unproved)"


class Changed(Exception):
    """The sources have another form than this tool knows."""


def uses() -> Dict[str, List[str]]:
    """The crates in the order of crates.txt, each with the libraries that it uses, those of the kit among them."""
    with open(f"{TOP}/{CRATES}", encoding="utf-8") as file:
        lines = re.findall(r"(?m)^([a-z]\w*):(.*)$", file.read())
    return {name: used.split() for name, used in lines}


def test_crates() -> List[str]:
    """The crates of tests, in the order of crates.txt."""
    return [name for name in uses() if name.endswith("_tests")]


def crates_of(crate: str) -> List[str]:
    """The crates that a crate is built of, lowest layer first, itself last."""
    known = uses()
    wanted = {crate}
    for name in reversed(list(known)):
        if name in wanted:
            wanted.update(known[name])
    return [name for name in known if name in wanted]


def files_of(crate: str, top: str) -> Iterator[str]:
    """The paths of the sources that a crate is built of, below a folder, in order."""
    for name in crates_of(crate):
        for folder, folders, files in os.walk(f"{top}/crates/{name}/src"):
            folders.sort()
            yield from (os.path.relpath(f"{folder}/{it}", top) for it in sorted(files) if it.endswith(".rt"))


def listed(crate: str) -> str:
    """The file crates.txt with the crates alone that a crate is built of: `rt` looks for each that it lists."""
    known = uses()
    return "".join(f"{name}: {' '.join(known[name])}\n" for name in crates_of(crate))


def sum_of(crate: str, top: str = TOP) -> str:
    """The sum of all that decides what is built of a crate: the kit, this package, and the sources."""
    whole = hashlib.sha256(f"{version()}\n{listed(crate)}".encode())
    here = os.path.dirname(os.path.abspath(__file__))
    tools = [f"{here}/{it}" for it in sorted(os.listdir(here)) if it.endswith(".py")]
    for path in [*tools, *(f"{top}/{it}" for it in (HANDLES, *files_of(crate, top)))]:
        with open(path, "rb") as file:
            whole.update(f"{os.path.basename(path)} {hashlib.sha256(file.read()).hexdigest()}\n".encode())
    return whole.hexdigest()


class Copy(NamedTuple):
    """A copy of the sources of a crate: the folder of the crate, and the sum of what was copied."""

    folder: str
    made_of: str


def copy(crate: str, folder: str) -> Copy:
    """Copies the sources of a crate to a folder, so that a change during the build does no harm. The copy of the program's version says that it is not
    proved."""
    for path in (HANDLES, *files_of(crate, TOP)):
        os.makedirs(os.path.dirname(f"{folder}/{path}"), exist_ok=True)
        shutil.copy(f"{TOP}/{path}", f"{folder}/{path}")
    with open(f"{folder}/{CRATES}", "w", encoding="utf-8") as file:
        file.write(listed(crate))
    made_of = sum_of(crate, folder)
    if crate == PROGRAM:
        mark_version(f"{folder}/{VERSION_FILE}")
    return Copy(f"{folder}/crates/{crate}", made_of)


def mark_version(path: str) -> None:
    """Has `--version` say that the program is not proved."""
    with open(path, encoding="utf-8") as file:
        text, count = VERSION.subn(rf"\1 {MARK}\2", file.read())
    if count != 1:
        raise Changed(f"{VERSION_FILE} names the version {count} times: tools/unproved/sources.py looks for {VERSION.pattern}")
    with open(path, "w", encoding="utf-8") as file:
        file.write(text)
