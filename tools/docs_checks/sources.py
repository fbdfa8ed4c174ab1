"""What the checks of pages share: the folders, reading, and the files that a text names."""
import os
import re
from typing import Iterator, List

TOP = os.path.dirname(os.path.dirname(os.path.dirname(os.path.abspath(__file__))))
CRATES = f"{TOP}/crates"
# The page that lists what a reader believes.
DEFINITIONS = "docs/definitions.md"
# A definition of specs/.
DEFINED = re.compile(r"\s*(?:(?:abbrev|unfoldable) pub|pub (?:record|data)) (\S+)")


def read(path: str) -> str:
    """Reads a file of the repository, which may have bytes that are no text."""
    with open(f"{TOP}/{path}", encoding="utf-8", errors="surrogateescape") as file:
        return file.read()


def lines_of(path: str) -> List[str]:
    """Reads the lines of a file of the repository."""
    return read(path).split("\n")


def files_named(text: str) -> Iterator[str]:
    """The files below crates/ that a text names in backquotes. One without a folder is in the folder of the one before."""
    folder = ""
    for name in re.findall(r"`([\w/]+\.(?:antt|rt))`", text):
        if name.startswith("escrow_"):
            folder = os.path.dirname(name)
        yield name if name.startswith("escrow_") else f"{folder}/{name}"
