"""The script `escrowd` at the top and `tools/dump`, where there is nothing to start, or nothing to read."""
import contextlib
import importlib.util
import os
import shutil
from typing import Callable, List, Tuple

from built import TOP
from process import Case, Program, check
from steps import Write
from texts import FOREIGN

NAMES_NONE = "escrowd: ESCROWD names no program: nope\n"
IS_UNPROVED = "escrowd: {} is not proved\n"
# A program that is not proved, and writes the mode that it is given.
UNPROVED = """#!/bin/sh
case $1 in
--version) echo 'escrowd 1.1 (unproved)' ;;
*) echo "$1" ;;
esac
"""
NOT_BUILT = """escrowd: the program isn't built, and the PATH has no `rt` to build it.
escrowd: ESCROWD=PATH starts a program that was built elsewhere; README.md, What a machine needs, names the kit.
"""
# A shell that has Python and what Unix has, and no kit: links to what the script starts.
NEEDED = ("sh", "readlink", "dirname", "sed", "nproc", "find", "python3")


def names_no_program(_program: Program, folder: str) -> None:
    """ESCROWD names a program that isn't there."""
    check(Program(f"{TOP}/escrowd"), Case("", ("run",), errors=NAMES_NONE, status=1, reads=False, variables={**os.environ, "ESCROWD": "nope"}), folder)


def names_an_unproved_program(program: Program, folder: str) -> None:
    """ESCROWD names a program that is not proved, which each start tells, and one that is proved, or was built in another way."""
    named = f"{folder}/program"
    Write("program", UNPROVED).take(program, folder)
    os.chmod(named, 0o755)
    case = Case("", ("run",), replies="run\n", errors=IS_UNPROVED.format(named), variables={**os.environ, "ESCROWD": named})
    check(Program(f"{TOP}/escrowd"), case, folder)
    Write("program", UNPROVED.replace(" (unproved)", "")).take(program, folder)
    check(Program(f"{TOP}/escrowd"), case._replace(errors=""), folder)


def has_no_kit(_program: Program, folder: str) -> None:
    """Nothing is built, and there is nothing to build it with."""
    os.mkdir(f"{folder}/bin")
    for name in NEEDED:
        os.symlink(str(shutil.which(name)), f"{folder}/bin/{name}")
    os.mkdir(f"{folder}/crates")
    shutil.copy(f"{TOP}/crates.txt", folder)
    shutil.copy(f"{TOP}/escrowd", folder)
    check(Program(f"{folder}/escrowd"), Case("", ("run",), errors=NOT_BUILT, status=1, reads=False, variables={"PATH": f"{folder}/bin"}), folder)


def dumps_no_store(program: Program, folder: str) -> None:
    """A file that is no database is told apart from a database that is no store; an empty file is a store without tables."""
    import sqlite3

    dump = Program(f"{TOP}/tools/dump")
    Write("letter.txt", "this is no database, but a letter of some length\n").take(program, folder)
    Write("empty.db", "").take(program, folder)
    with contextlib.closing(sqlite3.connect(f"{folder}/other.db")) as other, other:
        other.execute("CREATE TABLE NOTE (TEXT)")
    for path, more in (("letter.txt", ": file is not a database"), ("other.db", "")):
        errors = f"tools/dump: {path}: {FOREIGN}{more}\n"
        check(dump, Case("", (path, program.path), errors=errors, status=1), folder)
    check(dump, Case("", ("empty.db", program.path)), folder)


SCRIPT_TESTS: List[Tuple[str, Callable[[Program, str], None]]] = [
    ("scripts: ESCROWD names no program", names_no_program),
    ("scripts: ESCROWD names an unproved program", names_an_unproved_program),
    ("scripts: no kit", has_no_kit),
    *([("scripts: dumps of what is no store", dumps_no_store)] if importlib.util.find_spec("sqlite3") else []),
]
