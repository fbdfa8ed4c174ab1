"""Checks that each call, clause and law that docs/theorems.md names is in the sources, and those that other pages name in full.

A table of docs/theorems.md has a column `call` and behind it the column `clause`, or a column `function` with laws. A call is named by its own name, by its
type's or its crate's and its own, or by its own behind a call of the same type. It is public, or its row says `private`. A clause is in the contract of a
call of its row, of the call that it is said to be of, or is a field of the record of specs/ that it is said to be of. If a row names no clause, a call of
it has a clause without a name. A law without its crate is of the crate named last.

In the text of all pages it looks for the clauses that are said to be of a call or of a record, and for what is named with its type or its crate. What a
clause of a public call cites of specs/ must be named by docs/definitions.md.
"""
import glob
import os
import re
from typing import Container, Iterable, List, Sequence, Tuple

from docs_checks.declared import Function, Sources
from docs_checks.sources import DEFINITIONS, TOP, files_named, lines_of, read

PAGE = "docs/theorems.md"
TEXTS = ("README.md", "CONTRIBUTING.md", "docs/*.md", "bench/*.md", "tools/*.md")
CODE = re.compile(r"`([^`]+)`")
# Names in backquotes one after another, and what they are said to be of: one thing, or of laws several crates.
GROUP = re.compile(r"((?:`[\w:]+`(?:,\s+|\s+and\s+)?)+)(?:\s+of\s+(`[\w:]+`))?")
LAWS = re.compile(r"((?:`[\w:]+`(?:,\s+|\s+and\s+)?)+)(?:\s+of\s+((?:`[\w:]+`(?:,\s+|\s+and\s+)?)+))?")


def cells_of(line: str) -> List[str]:
    """The cells of a row of a table."""
    return [cell.strip() for cell in line.strip().strip("|").split("|")]


def is_rule(line: str) -> bool:
    """Whether a line is the rule below the header of a table."""
    return bool(line) and set(line) <= set("|- ")


def last_of(name: str) -> str:
    """The last part of a name's path."""
    return name.split("::")[-1]


class Check:
    """What was looked for, and what of it isn't there."""

    def __init__(self, sources: Sources, words: Container[str]):
        self.sources, self.words, self.count = sources, words, 0
        self.faults: List[str] = []

    def look(self, is_there: object, place: str, fault: str) -> None:
        """Notes whether something is there."""
        self.count += 1
        if not is_there:
            self.faults.append(f"{place}: {fault}")

    def clauses(self, text: str, place: str, calls: Sequence[Function]) -> None:
        """Looks for the clauses that a text names: of some calls, or of what they are said to be of."""
        for group in GROUP.finditer(text):
            clauses, of = CODE.findall(group[1]), CODE.findall(group[2] or "")
            known: List[Container[str]] = [] if of else [it.clauses for it in calls]
            for name in of:
                known += [it.clauses for it in calls if it.name == last_of(name)] or [it.clauses for it in self.sources.calls(name)]
                known += [self.sources.fields[name]] if name in self.sources.fields else []
            self.look(known, place, f"there is no {of or calls}")
            named = {last_of(name) for name in of}
            self.cited((it for it in calls if not of or it.name in named), clauses, place)
            for clause in clauses:
                whose = of or sorted({it.name for it in calls})
                self.look(any(clause in it for it in known), place, f"no clause `{clause}` of {whose}")

    def cited(self, calls: Iterable[Function], clauses: Sequence[str], place: str) -> None:
        """Looks for what clauses of public calls cite."""
        for it in (it for it in calls if it.is_public):
            for path in sorted(set(it.cites(clauses))):
                self.look(path in self.words, place, f"{it.name} cites {path}, which {DEFINITIONS} doesn't name")

    def calls(self, text: str, place: str, layer: Sequence[str]) -> List[Function]:
        """Looks for the calls that a cell names. Returns them."""
        found: List[Function] = []
        around: Sequence[str] = ()
        for name in CODE.findall(text):
            if not re.fullmatch(r"\w+(::\w+)*", name):
                continue
            its = self.sources.calls(name, around) or self.sources.calls(name, layer) or self.sources.calls(name)
            is_other = not its and (self.sources.has(name) or name in self.sources.fields)
            self.look(its or is_other, place, f"there is no call `{name}`")
            self.look(not its or "private" in text or any(it.is_public for it in its), place, f"`{name}` is private")
            found += its
            if "::" in name and name.split("::")[-2][0].isupper():
                around = (name.split("::")[-2],)
        return found

    def laws(self, text: str, place: str, crate: str) -> str:
        """Looks for the laws that a cell names. Returns the crate of the last one."""
        for group in LAWS.finditer(text):
            of = CODE.findall(group[2] or "")
            for name in CODE.findall(group[1]):
                if not of and "::" in name:
                    crate = name.split("::")[0]
                for each in of or [crate]:
                    self.look(self.sources.calls(f"{each}::{last_of(name)}"), place, f"there is no `{last_of(name)}` of {each}")
        return crate

    def promise(self, call: str, clause: str, place: str, layer: Sequence[str]) -> None:
        """Looks for the calls and the clauses of a row."""
        calls = self.calls(call, place, layer)
        if clause:
            self.clauses(clause, place, calls)
        else:
            self.look(not calls or any("" in it.clauses for it in calls), place, f"{call} has no clause without a name")
            self.cited(calls, [""], place)

    def tables(self, page: str) -> None:
        """Looks for what the tables of a page name."""
        header: List[str] = []
        layer: Tuple[str, ...] = ()
        crate = ""
        lines = lines_of(page)
        for number, line in enumerate(lines, 1):
            place = f"{page}:{number}"
            if not line.startswith("|"):
                header = []
            elif not header:
                header, layer = cells_of(line), ()
                self.look(is_rule(lines[number]), place, "a row is outside of a table")
            elif not is_rule(line):
                row = dict(zip(header, cells_of(line)))
                if row.get("layer"):
                    layer = (row["layer"].strip("`"),)
                    self.look(os.path.isdir(f"{TOP}/crates/{layer[0]}"), place, f"there is no crate {layer[0]}")
                if "function" in row:
                    crate = self.laws(row["function"], place, crate)
                elif "call" in row:
                    self.promise(row["call"], row.get("clause", ""), place, layer)

    def text(self, page: str) -> None:
        """Looks for what the text of a page names, a paragraph or a row of a table at a time."""
        start = 1
        paragraph: List[str] = []
        for number, line in enumerate([*lines_of(page), ""], 1):
            if line.strip():
                paragraph.append(line)
            if line.startswith("|") or not line.strip():
                self.paragraph(" ".join(paragraph), f"{page}:{start}")
                start, paragraph = number + 1, []

    def paragraph(self, text: str, place: str) -> None:
        """Looks for what a paragraph names."""
        for group in GROUP.finditer(text):
            of = CODE.findall(group[2] or "")
            if any("::" in name or self.sources.calls(name) or name in self.sources.fields for name in of):
                self.clauses(group[0], place, ())
        for name in CODE.findall(text):
            if re.fullmatch(r"\w+(::\w+)+", name):
                self.look(self.sources.calls(name) or self.sources.has(name), place, f"there is no `{name}`")


def check() -> Tuple[List[str], str]:
    """Finds the names that aren't in the sources. Returns the faults and the sums."""
    it = Check(Sources(), set(files_named(read(DEFINITIONS))))
    for path in (path for pattern in TEXTS for path in sorted(glob.glob(f"{TOP}/{pattern}"))):
        page = os.path.relpath(path, TOP)
        if page == PAGE:
            it.tables(page)
        it.text(page)
    return it.faults, f"{it.count} names, {len(it.faults)} of them not there"
