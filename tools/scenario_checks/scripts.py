"""The scripts of examples/ and scenarios/, each beside its replies, and their parts.

`NAME.script` and `NAME.replies` have the same parts. A line `== TITLE` begins a part; an example is one part without a title. Each part is served in
databases of its own. Comments at its head say how, in this order, and each may be left out:

    -- opened again      over files alone, over the store of the part before it
    -- free              by the mode `free` in place of `run`
    -- databases: 3      with --databases 3
"""
import glob
import os
import re
from typing import List, NamedTuple, Optional, Sequence, Tuple

from built import TOP, Missing

FOLDERS = ("examples", "scenarios")
# The comments at the head of a part.
HEAD = re.compile(rb"(?P<again>-- opened again\n)?(?P<free>-- free\n)?(?:-- databases: (?P<databases>[0-9]+)\n)?")


class Part(NamedTuple):
    """A part of a scenario. `store` is the number of the part that made its store; 0 is a store that lies beside the script."""

    number: int
    title: bytes
    script: bytes
    replies: bytes
    store: int
    is_again: bool
    mode: str
    databases: str


class Scenario(NamedTuple):
    """A script with its parts. `beside` are the files of stores that lie beside it."""

    folder: str
    name: str
    parts: List[Part]
    beside: List[str]

    def over_files(self, most: Optional[int]) -> List[Part]:
        """The parts that are served over files: those over whose store all parts have at most so many lines."""
        return [it for it in self.parts if most is None or self.lines_over(it.store) <= most]

    def over_memory(self) -> List[Part]:
        """The parts that are served over memory."""
        return [it for it in self.parts if not it.is_again]

    def lines_over(self, store: int) -> int:
        """How many lines all parts over a store have."""
        return sum(it.script.count(b"\n") for it in self.parts if it.store == store)

    def store_of(self, part: Part) -> str:
        """The name of a part's store. A store beside the script has the number 1."""
        return f"{self.name}-{part.store or 1}.db"

    def with_part(self, asked: str) -> "Scenario":
        """The scenario with one part alone, by its title or its number, and those that make its store."""
        found = [it for it in self.parts if asked in (str(it.number), it.title.decode(errors="replace"))]
        if not found:
            raise Missing(f"{self.name} has no part {asked}")
        last = found[0]
        return self._replace(parts=[it for it in self.parts if it.store == last.store and it.number <= last.number])


def sections(path: str) -> List[Tuple[bytes, bytes]]:
    """The titles and texts of a file's parts."""
    found: List[Tuple[bytes, bytes]] = []
    with open(path, "rb") as file:
        for line in file:
            if line.startswith(b"== "):
                found.append((line[3:].rstrip(b"\n"), b""))
            elif found:
                found[-1] = (found[-1][0], found[-1][1] + line)
            else:
                found.append((b"", line))
    return found


def head_of(script: bytes) -> Sequence[Optional[bytes]]:
    """The three comments at the head of a part: that it is opened again, that it is `free`, and how many databases there are."""
    found = HEAD.match(script)
    return found.groups() if found else (None, None, None)


def parts_of(path: str) -> List[Part]:
    """The parts of a script, each with its replies."""
    scripts, replies = sections(f"{path}.script"), sections(f"{path}.replies")
    if [title for title, _ in scripts] != [title for title, _ in replies]:
        raise Missing(f"{os.path.relpath(path, TOP)}: the script and the replies have other titles")
    parts: List[Part] = []
    store = 0
    for number, ((title, script), (_, expected)) in enumerate(zip(scripts, replies), 1):
        again, free, databases = head_of(script)
        store = store if again else number
        parts.append(Part(number, title, script, expected, store, bool(again), "free" if free else "run", (databases or b"1").decode()))
    return parts


def scenario_at(script: str) -> Scenario:
    """The scenario of a script's path."""
    path = script[: -len(".script")]
    folder, name = os.path.split(path)
    beside = [it for it in glob.glob(f"{path}-*.db*") if re.fullmatch(rf"{re.escape(path)}-[0-9]+\.db(\.[0-9]+)?", it)]
    return Scenario(os.path.basename(folder), name, parts_of(path), beside)


def all_scenarios() -> List[Scenario]:
    """All scenarios, in order of folder and name."""
    return [scenario_at(it) for folder in FOLDERS for it in sorted(glob.glob(f"{TOP}/{folder}/*.script"))]


def scenario_named(name: str) -> Scenario:
    """The scenario of a name."""
    for folder in FOLDERS:
        script = f"{TOP}/{folder}/{name}.script"
        if os.path.exists(script):
            return scenario_at(script)
    raise Missing(f"there is no script {name} in {' or '.join(FOLDERS)}")
