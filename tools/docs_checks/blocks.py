"""Checks that each block of a script, of replies, of psql or of code that the pages show is what the gate runs.

Each block of lines of a script and of replies must be in one piece in a file of examples or in a scenario, with the replies that are shown. The gate
compares those with what the program writes. Each block with a prompt of psql must be in one piece in the sessions that the gateway's tests replay, or in
those of the page on the proxy, which a test types. Each block of Rattle on the page on embedding, and each block of Python of the recipes, must be in one
piece in the source of an example, which the gate runs.
"""
import re
from typing import Iterator, List, NamedTuple, Tuple

from docs_checks.sources import lines_of, read
from scenario_checks.scripts import all_scenarios

PAGES = ("README.md", "docs/guide.md", "docs/reference.md", "docs/recipes.md", "docs/comparison.md")
# The pages that quote an example, the language of what they quote, and the example's source.
QUOTES = (
    ("docs/embedding.md", "rust", "crates/escrow_threads_tests/src/tests/concert.rt"),
    ("docs/recipes.md", "python", "examples/recipes.py"),
)
# What terminals of psql show: in front of each line there is the number of the terminal and `| `.
SESSIONS = "gateway/clients/pages.psql"
# The page whose blocks with a prompt a test types itself.
TYPED = "docs/proxy.md"
PROMPT = re.compile(r"\w+[=-][*!]?> ")
SAID = re.compile(r"(bank\d*(\.\d+)?|script)> ")
ASKED = re.compile(r"bank\d*\.\d+: [A-Z]")
# How the last line of a reply begins, and no other.
LAST = re.compile(r"[^ ]*> (OK|ERR) (?!\||value )")

# The lines of a part that are answered, each with the lines of its reply.
Part = List[Tuple[str, List[str]]]


class Block(NamedTuple):
    """A block of a page: the number of its first line, its lines, and whether the gate runs it."""

    page: str
    number: int
    lines: List[str]
    is_there: bool


def is_answered(line: str) -> bool:
    """Whether a line of a script has a reply."""
    return bool(line.strip()) and not line.lstrip(" \t").startswith("--") and line.strip() != "@join"


def answered(script: List[str], replies: List[str]) -> Part:
    """Each line of a part that is answered, with the lines of its reply."""
    left, found = iter(replies), []
    for line in script:
        if is_answered(line):
            reply = [next(left, "")]
            while reply[-1] and not LAST.match(reply[-1]):
                reply.append(next(left, ""))
            found.append((line, reply))
    return found


def lines_in(text: bytes) -> List[str]:
    """The lines of a part."""
    return text.decode("utf-8", "surrogateescape").split("\n")


def served() -> List[Part]:
    """What the gate serves, part by part."""
    return [answered(lines_in(part.script), lines_in(part.replies)) for scenario in all_scenarios() for part in scenario.parts]


def typed() -> List[str]:
    """What the terminals of psql show, line by line."""
    by_proxy = [line for _, lines in fenced(TYPED) if is_session(lines) for line in lines]
    return [line[3:] for line in lines_of(SESSIONS)] + by_proxy


def is_script(lines: List[str]) -> bool:
    """Whether a block has lines of a script or of replies."""
    return any(SAID.match(line) or ASKED.match(line) for line in lines)


def is_session(lines: List[str]) -> bool:
    """Whether a block has a prompt of psql."""
    return any(PROMPT.match(line) for line in lines)


def fenced(page: str) -> Iterator[Tuple[int, List[str]]]:
    """The blocks of a page, with the numbers of their first lines."""
    start = None
    lines = lines_of(page)
    for place, line in enumerate(lines):
        if line.startswith("```"):
            if start is None:
                start = place + 1
            else:
                yield start + 1, lines[start:place]
                start = None


def is_in(lines: List[str], part: Part) -> bool:
    """Whether a block is in a part in one piece: its replies alone, or its lines with those replies that it shows."""
    if all(SAID.match(line) for line in lines):
        return is_piece(lines, [line for _, reply in part for line in reply])
    return any(goes_on(lines, part[place:]) for place in range(len(part)))


def is_piece(piece: List[str], lines: List[str]) -> bool:
    """Whether lines have a piece."""
    return any(lines[place : place + len(piece)] == piece for place in range(len(lines)))


def goes_on(lines: List[str], part: Part) -> bool:
    """Whether a part begins with the lines of a block that are answered, each with its whole reply or none."""
    left = [line for line in lines if is_answered(line)]
    for asked, reply in part:
        if not left:
            return True
        if left.pop(0) != asked:
            return False
        if left and SAID.match(left[0]):
            if left[: len(reply)] != reply:
                return False
            del left[: len(reply)]
    return not left


def quoted() -> Iterator[Block]:
    """The blocks that are quoted from a source."""
    for page, language, path in QUOTES:
        text, source = read(page), read(path)
        for found in re.finditer(rf"(?ms)^```{language}\n(.*?)^```$", text):
            number = text.count("\n", 0, found.start()) + 2
            yield Block(page, number, found[1].split("\n")[:-1], f"\n{found[1]}" in f"\n{source}")


def shown() -> Iterator[Block]:
    """The blocks that show scripts, replies and sessions."""
    scripts, sessions = served(), typed()
    for page in PAGES:
        for number, lines in fenced(page):
            if is_session(lines):
                yield Block(page, number, lines, is_piece(lines, sessions))
            elif is_script(lines):
                yield Block(page, number, lines, any(is_in(lines, part) for part in scripts))


def check() -> Tuple[List[str], str]:
    """Finds the blocks that the gate doesn't run. Returns them and the sums."""
    blocks = [*quoted(), *shown()]
    faults = ["\n    ".join([f"{it.page}:{it.number}: is nowhere:", *it.lines]) for it in blocks if not it.is_there]
    return faults, f"{len(blocks)} blocks, {len(faults)} of them nowhere"
