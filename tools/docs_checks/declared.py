"""What the sources of the crates declare: functions with the clauses of their contracts, types, and records of specs/."""
import glob
import re
from typing import Dict, Iterable, Iterator, List, Optional, Set, Tuple

from docs_checks.sources import DEFINED, TOP

# A function, a block that has functions, and a clause of a contract.
FUNCTION = re.compile(r"^( *)(pub(?:\([a-z]+\))? )?(?:ghost )?fn (\w+)")
HOLDER = re.compile(r"^( *)(?:pub(?:\([a-z]+\))? )?(?:impl|trait)\b")
CLAUSE = re.compile(r"(ensures|requires|ghost)\s*(\w*)\s*:?\s*\{")
# What else may be named with a path: types, constants, variants.
NAMED = re.compile(r"^ *pub(?:\([a-z]+\))? (?:struct|enum|trait|const|type|mod) (\w+)|^ +(\w+)(?:,|\(|\s\{)")
# What a source takes of specs/: from a crate, of a file, these names or one name for all of it.
USED = re.compile(r"ghost use Rattle\.(escrow_\w+)\.specs\.(\w+)(?:\.[\w.]+)?(?:\.\{([^}]*)\}| as (\w+));")
RECORD = re.compile(r"^ *pub record (\w+)")
FIELD = re.compile(r"^ +pub (?:each )?(\w+) :|^ +pub (?:each )?(\w+)\b")
# The most signs of a function's contract that are looked into.
CONTRACT = 20000


class Function:
    """A function of the sources: where it is, and the texts of its clauses by their names. A clause without a name has the name ''."""

    def __init__(self, crate: str, path: str, holder: str, name: str, is_public: bool, clauses: Dict[str, str]):
        self.crate, self.path, self.holder, self.name, self.is_public, self.clauses = crate, path, holder, name, is_public, clauses

    def cites(self, names: Iterable[str]) -> Iterator[str]:
        """The files of specs/ that its clauses of these names cite."""
        with open(self.path, encoding="utf-8") as source:
            used = USED.findall(source.read())
        said = set(re.findall(r"\w+", " ".join(self.clauses.get(name, "") for name in names)))
        for crate, kind, some, whole in used:
            taken = {one.split(" as ")[-1].strip() for one in (some or whole).split(",")}
            if kind not in ("declared", "contracts") and taken & said:
                yield f"{crate}/specs/{kind}.antt"


def type_of(line: str) -> str:
    """The type of an impl, or the trait."""
    trait = re.search(r"trait (\w+)", line)
    if trait and "trait" in line.split("<")[0].split():
        return trait[1]
    depth, bare = 0, ""
    for sign in line.split("impl", 1)[1]:
        depth += (sign == "<") - (sign == ">")
        if not depth and sign not in "<>":
            bare += sign
    bare = bare.split(" for ", 1)[-1].split(" where ")[0].strip(" {")
    return re.split(r"[ :]+", bare)[-1] if bare else ""


def clauses_in(text: str) -> Dict[str, str]:
    """The clauses between a function's name and its body: the text of each by its name."""
    text = re.sub(r"(?m)^\s*//.*$", "", text)
    found: Dict[str, str] = {}
    depth = place = start = 0
    name: Optional[str] = None
    while place < len(text):
        clause = None if depth else CLAUSE.match(text, place)
        if clause:
            name = clause[2] if clause[1] != "ghost" else None
            depth, place, start = 1, clause.end(), clause.end()
            continue
        if not depth and text[place] in "{;":
            break
        depth += (text[place] in "{([") - (text[place] in "})]")
        if not depth and name is not None:
            found[name] = found.get(name, "") + text[start:place]
            name = None
        place += 1
    return found


def functions_of(path: str) -> Iterator[Function]:
    """The functions of a source."""
    with open(path, encoding="utf-8") as file:
        text = file.read()
    crate = path[len(TOP) :].split("/")[2]
    # The indentation and the type of the block that the line is in.
    holder: Optional[Tuple[str, str]] = None
    start = 0
    for line in text.split("\n"):
        held = HOLDER.match(line)
        if held and not line.lstrip().startswith("//"):
            holder = held[1], type_of(line)
        elif holder and line == f"{holder[0]}}}":
            holder = None
        found = FUNCTION.match(line)
        if found:
            clauses = clauses_in(text[start + found.end() : start + found.end() + CONTRACT])
            yield Function(crate, path, holder[1] if holder else "", found[3], bool(found[2] or holder), clauses)
        start += len(line) + 1


class Sources:
    """What the sources declare: the functions by their names, other names, and the fields of records of specs/."""

    def __init__(self) -> None:
        self.functions: Dict[str, List[Function]] = {}
        self.named: Set[str] = set()
        self.fields: Dict[str, Set[str]] = {}
        for path in sorted(glob.glob(f"{TOP}/crates/*/src/**/*.rt", recursive=True)):
            for function in functions_of(path):
                self.functions.setdefault(function.name, []).append(function)
            self.read_names(path)
        for path in glob.glob(f"{TOP}/crates/*/specs/*.antt"):
            self.read_records(path)

    def read_names(self, path: str) -> None:
        """Reads the types, the variants and the constants of a source."""
        with open(path, encoding="utf-8") as file:
            for found in filter(None, map(NAMED.match, file)):
                self.named.add(found[1] or found[2])

    def read_records(self, path: str) -> None:
        """Reads the definitions of a file of specs/, and the fields of its records."""
        record = None
        with open(path, encoding="utf-8") as file:
            for line in file:
                begun, defined, field = RECORD.match(line), DEFINED.match(line), FIELD.match(line)
                if begun:
                    record = begun[1]
                    self.fields.setdefault(record, set())
                elif not line.startswith(" "):
                    record = None
                elif record and field:
                    self.fields[record].add(field[1] or field[2])
                if defined:
                    self.named.add(defined[1])

    def calls(self, name: str, around: Iterable[str] = ()) -> List[Function]:
        """The functions of a name, which may have a path in front. `around` is the path of a name without one."""
        parts = name.split("::")
        found = self.functions.get(parts[-1], [])
        for part in parts[:-1] or around:
            if part[0].isupper():
                found = [it for it in found if it.holder == part]
            else:
                found = [it for it in found if it.crate == part or f"/{part}.rt" in it.path or f"/{part}/" in it.path]
        return found

    def has(self, name: str) -> bool:
        """Whether the sources declare a name that isn't a function's, by the last part of its path."""
        return name.split("::")[-1] in self.named
