"""Checks what docs/definitions.md has a reader read: the numbers of lines, and that what is cited is on the list.

The list is the part "What to read, in this order": its tables, and what is named besides. A file of specs/ cites those that its `use` lines name, and the
source of each type and limit that it names (`declared`, `contracts`, `TheConstants`). Each of them must be on the list, in the part where it is cited or
in one before. Of a source only the types and the limits are to be read, and counted, with their comments.

Each file of specs/ says in its first line whether it is believed or only helps, and one that is believed cites none that only helps.
"""
import os
import re
import textwrap
from typing import Iterator, List, NamedTuple, Optional, Set, Tuple

from docs_checks.sources import CRATES, DEFINED, DEFINITIONS, TOP, files_named, read

LIST = "## What to read, in this order"
# Where a type or a limit of a source begins.
PUBLIC = re.compile(r"\s*pub (?:struct|enum|const) (\w+)")


class Page(NamedTuple):
    """The page, in three parts: what is before the list, the list, and what is behind it."""

    before: str
    list: str
    behind: str


class Listed(NamedTuple):
    """What is wrong with the list, and the list with the right numbers."""

    faults: List[str]
    fixed: str


def page_parts() -> Page:
    """Reads the page."""
    page = read(DEFINITIONS)
    start = page.index(LIST)
    end = (page + "\n## ").index("\n## ", start + 1)
    return Page(page[:start], page[start:end], page[end:])


def sections(text: str) -> List[str]:
    """The parts of the list, each with its title."""
    return re.split(r"(?m)^(?=### )", text)[1:]


def rows_of(section: str) -> List[str]:
    """The rows of a part that have files and a number, and the header's."""
    return [row for row in re.findall(r"(?m)^\|.*\|$", section) if row.count("|") >= 4]


def text_of(path: str) -> str:
    """Reads a file below crates/."""
    return read(f"crates/{path}")


def lines_to_read(path: str) -> int:
    """How many lines of a file are to be read."""
    lines = text_of(path).splitlines()
    if path.endswith(".antt"):
        return len(lines)
    count, above = 0, 0
    inside: Optional[str] = None
    for line in lines:
        if inside is not None:
            count += 1
            if line.rstrip() in (f"{inside}}}", f"{inside});"):
                inside = None
        elif PUBLIC.match(line):
            count += above + 1
            if not line.rstrip().endswith(";"):
                inside = line[: len(line) - len(line.lstrip())]
        above = above + 1 if line.lstrip().startswith(("///", "#[")) else 0
    return count


def source_of(crate: str, module: str) -> str:
    """The file of src/ that has a type, by its module's path: module.Type, or TheConstants in its place."""
    names = module.split(".")
    for end in range(len(names), 0, -1):
        path = f"{crate}/src/{'/'.join(names[:end])}.rt"
        if os.path.exists(f"{CRATES}/{path}"):
            return path
    return f"{crate}/src/lib.rt"


def cited_by(path: str) -> Iterator[str]:
    """The files that a file of specs/ cites."""
    if not path.endswith(".antt"):
        return
    for crate, rest in re.findall(r"(?m)^(?:pub )?use Rattle\.(escrow_\w+)\.specs\.([\w.]+)", text_of(path)):
        kind, _, module = rest.rstrip(".").partition(".")
        yield source_of(crate, module) if kind in ("declared", "contracts") else f"{crate}/specs/{kind}.antt"


def kind_of(path: str) -> Optional[str]:
    """What the first line of a file of specs/ says: believed, or only helping."""
    said = re.match(r"-- (Believed|Helps)\b", text_of(path))
    return said[1] if said else None


def faults_of_kinds() -> Iterator[str]:
    """The files that don't say whether they are believed, and those that are and cite one that only helps."""
    for crate in sorted(os.listdir(CRATES)):
        folder = f"{CRATES}/{crate}/specs"
        names = sorted(os.listdir(folder)) if os.path.isdir(folder) else []
        for path in (f"{crate}/specs/{name}" for name in names if name != "Lib.antt"):
            if kind_of(path) is None:
                yield f"{path} doesn't say whether it is believed"
            elif kind_of(path) == "Believed":
                for cited in sorted(set(cited_by(path))):
                    if cited.endswith(".antt") and kind_of(cited) == "Helps":
                        yield f"{path} is believed, and {cited} only helps"


def with_numbers(section: str) -> Listed:
    """A part with the right numbers: each row has one, and the title the sum."""
    title = section.split("\n", 1)[0]
    faults: List[str] = []
    total = 0
    for row in rows_of(section):
        named = list(files_named(row.split("|")[2]))
        count = sum(map(lines_to_read, named))
        total += count
        cells = row.split("|")
        if named and cells[3].strip() != str(count):
            faults.append(f"{title}: {named[0]} .. has {count} lines")
            section = section.replace(row, "|".join([*cells[:3], f" {count} ", *cells[4:]]))
    said = re.search(r"([\d,]+) lines", title)
    if said and said[1] != f"{total:,}":
        faults.append(f"{title}: has {total:,}")
        section = section.replace(title, title.replace(said[0], f"{total:,} lines"))
    return Listed(faults, section)


def not_listed(section: str, listed: Set[str]) -> Iterator[str]:
    """What a part lists twice, and what it cites that isn't listed in it or before. Adds its files to those that are listed."""
    title = section.split("\n", 1)[0]
    files = [path for row in rows_of(section) for path in files_named(row.split("|")[2])]
    yield from (f"{title}: {path} is listed twice" for path in files if path in listed)
    listed.update(files)
    for path in files:
        yield from (f"{title}: {path} cites {cited}" for cited in sorted(set(cited_by(path))) if cited not in listed)


def look_through(text: str) -> Listed:
    """Looks through the list."""
    faults: List[str] = []
    listed: Set[str] = set()
    for section in sections(text):
        found = with_numbers(section)
        faults += [*found.faults, *not_listed(section, listed)]
        text = text.replace(section, found.fixed)
    return Listed(faults, text)


def check() -> Tuple[List[str], str]:
    """Finds what is wrong with the list. Returns the faults and the sums."""
    text = page_parts().list
    faults = [*faults_of_kinds(), *look_through(text).faults]
    files = sum(len(list(files_named(row.split("|")[2]))) for section in sections(text) for row in rows_of(section))
    return faults, f"{files} files to read, {len(faults)} faults"


def fix() -> None:
    """Writes the numbers of lines to the page."""
    page = page_parts()
    with open(f"{TOP}/{DEFINITIONS}", "w", encoding="utf-8") as file:
        file.write(page.before + look_through(page.list).fixed + page.behind)


def said_of(path: str) -> Iterator[Tuple[str, str]]:
    """The names that a file defines, each with its own comment, in their order."""
    is_source = path.endswith(".rt")
    head, sign = (PUBLIC, "///") if is_source else (DEFINED, "--")
    lines = text_of(path).splitlines()
    comment: List[str] = []
    for line in lines if is_source else lines[1:]:
        found = head.match(line)
        if found:
            yield found[1], " ".join(comment)
        bare = line.strip()
        if bare.startswith(sign):
            comment.append(bare[len(sign) :].strip())
        elif not bare.startswith("#["):
            comment = []


def print_file(path: str) -> None:
    """Prints a file's first line, if it is of specs/, and what it defines, with the comments."""
    print(f"\n{path}")
    if path.endswith(".antt"):
        print(f"  {text_of(path).splitlines()[0].strip('- ').strip()}")
    for name, comment in said_of(path):
        said = comment or "(no comment of its own)"
        print(textwrap.fill(f"{name}: {said}", 100, initial_indent="  - ", subsequent_indent="    "))


def print_list() -> None:
    """Prints what the files of the list define, in its order."""
    for section in sections(page_parts().list):
        print(f"\n{section.split(chr(10), 1)[0]}")
        cells = [row.split("|")[2] for row in rows_of(section)]
        for path in (path for cell in cells or [section] for path in files_named(cell)):
            if os.path.exists(f"{CRATES}/{path}"):
                print_file(path)
