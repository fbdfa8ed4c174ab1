"""Stores in files: what a path gives when it is opened, and opened again, and why one isn't; files that others touch; rights; stores that aren't
closed; stores of the format before."""
import itertools
import os
from typing import List

from process import Case, Input, Output
from steps import Copy, Folder, Hold, Link, Meanwhile, Mode, Patch, Pipe, Refuse, Rename, Rights, Run, Same, Serve, Stand, Story, Talk, Write
from texts import CLOSED_INPUT, FOREIGN, LOST_LINK, MISSING_FOLDER, MODES, NO_FILE, READ, Reason, unanswered

TOP = os.path.dirname(os.path.dirname(os.path.dirname(os.path.abspath(__file__))))

# Runs over one file, one after another. Each finds what the ones before it committed, and none of what was open.
MADE: Talk = (
    "bank.1: CREATE TABLE T (ID INTEGER PRIMARY KEY, N INTEGER RESERVABLE)\n"
    "bank.1: INSERT INTO T VALUES (1, 10)\n"
    "bank.1: UPDATE T SET N = N + 1 WHERE ID = 1\n",
    "bank.1> OK created T\nbank.1> OK inserted\nbank.1> OK reserved 1\n",
)
CHANGED: Talk = (
    "bank.2: SELECT * FROM T\nbank.2: UPDATE T SET N = N - 7 WHERE ID = 1\nbank.2: COMMIT\n",
    "bank.2> ID | N\nbank.2> 1 | 10\nbank.2> OK rows 1\nbank.2> OK reserved 1\nbank.2> OK committed 1\n",
)
SHOWN: Talk = ("bank.1: SELECT * FROM T\n", "bank.1> ID | N\nbank.1> 1 | 3\nbank.1> OK rows 1\n")
# The row as it was made, and behind a change that was committed.
AS_MADE: Talk = ("bank.1: SELECT * FROM T\n", "bank.1> ID | N\nbank.1> 1 | 10\nbank.1> OK rows 1\n")
ADD: Talk = (
    "bank.1: UPDATE T SET N = N + 5 WHERE ID = 1\nbank.1: COMMIT\n@join\n",
    "bank.1> OK reserved 1\nbank.1> OK committed 1\n",
)
AS_ADDED: Talk = ("bank.1: SELECT * FROM T\n", "bank.1> ID | N\nbank.1> 1 | 15\nbank.1> OK rows 1\n")
COMMIT: Talk = ("bank.1: COMMIT\n", "bank.1> OK committed 0\n")
NOTHING: Talk = ("", "")

# Why stores aren't opened.
WORD = "the path is empty, is `:memory:`, or begins with `file:`"
IN_USE = "another program has it open"
OTHER_VERSION = "it was made by another version of escrowd"
JOURNAL = "SQLite was stopped during a write: open the file with sqlite3 once, then try again"
NO_FOLDER = "Not a directory (os error 20)"
DENIED = "permission denied: the file must be readable and writable, and so must its directory, where the log is made"
# What isn't a database.
NOTE = "this is no database, but a note of some length that was put here\n"
BANK = ("run", "--store", "stores/bank.db")
TWO = ("run", "--databases", "2", "--store", "stores/bank.db")
FREE_TWO = ("free", "--databases", "2", "--store", "stores/bank.db")
FOUR_FILES = ("bank.db", "bank.db-wal", "bank.db.2", "bank.db.2-wal")


def store(name: str, mode: str = "run") -> List[str]:
    """The command line that serves a script over a store."""
    return [mode, "--store", f"stores/{name}"]


def paths() -> Story:
    """A path that doesn't exist is made, and an empty file is a store without tables. At the end each is one file. Where no store is opened, nothing is
    read, nothing written, and nothing made."""
    return Story("paths", [
        Folder("stores"),
        Write("stores/empty.db", ""),
        Folder("stores/folder.db"),
        Write("stores/note.db", NOTE),
        Write("stores/byte.db", "b"),
        Write("stores/gone.db-journal", "journal"),
        Folder("stores/log.db-wal"),
        Serve(store("made.db"), MADE),
        Serve(store("made.db"), CHANGED),
        Serve(store("made.db"), SHOWN),
        Copy("stores/made.db", "stores/hot.db"),
        Write("stores/hot.db-journal", "journal"),
        Serve(store("empty.db"), MADE),
        Serve(store("empty.db"), CHANGED),
        Serve(store("-.db"), MADE),
        Serve(store("-.db"), CHANGED),
        Serve(store("bänk \U0001f4b0.db"), MADE),
        Serve(store("bänk \U0001f4b0.db"), CHANGED),
        Refuse("", WORD),
        Refuse(":memory:", WORD),
        Refuse("file:bank.db", WORD),
        Refuse("stores/folder.db", NO_FILE),
        Refuse("stores/nowhere/bank.db", MISSING_FOLDER),
        Refuse("stores/note.db/bank.db", NO_FOLDER),
        Refuse("stores/note.db", FOREIGN),
        Refuse("stores/byte.db", FOREIGN),
        Refuse("stores/gone.db", JOURNAL),
        Refuse("stores/hot.db", JOURNAL),
        Refuse("stores/log.db", NO_FILE),
        Stand("stores", ["-.db", "byte.db", "bänk \U0001f4b0.db", "empty.db", "folder.db", "gone.db-journal", "hot.db", "hot.db-journal", "log.db-wal",
                         "made.db",
                         "note.db"]),
        Same("stores/hot.db", "stores/made.db"),
        Hold("stores/note.db", NOTE),
        Hold("stores/byte.db", "b"),
    ])


# A run of two databases. A folder is at the path of the second, so it isn't opened.
HALF = Case("", ("run", "--databases", "2", "--store", "stores/two.db"), "bank.1: COMMIT\n", status=3, reads=False,
            errors=f"escrowd: the store of bank2, `stores/two.db.2`, can't be opened: {NO_FILE}\n")

# Each database is in the file of its number, and where one of them isn't opened, nothing is served.
SEVERAL_DATABASES = Story("several databases", [
    Folder("stores"),
    Serve([*store("many.db"), "--databases", "3"], (
        "bank.1: CREATE TABLE A (ID INTEGER PRIMARY KEY, N INTEGER RESERVABLE)\n"
        "bank2.1: CREATE TABLE B (ID INTEGER PRIMARY KEY, N INTEGER RESERVABLE)\n"
        "bank3.1: CREATE TABLE C (ID INTEGER PRIMARY KEY, N INTEGER RESERVABLE)\n",
        "bank.1> OK created A\nbank2.1> OK created B\nbank3.1> OK created C\n",
    )),
    Serve(store("many.db"), ("bank.1: SELECT * FROM A\n", "bank.1> ID | N\nbank.1> OK rows 0\n")),
    Serve(store("many.db.2"), ("bank.1: SELECT * FROM B\n", "bank.1> ID | N\nbank.1> OK rows 0\n")),
    Serve(store("many.db.3"), ("bank.1: SELECT * FROM C\n", "bank.1> ID | N\nbank.1> OK rows 0\n")),
    Stand("stores", ["many.db", "many.db.2", "many.db.3"]),
    Folder("stores/two.db.2"),
    Run(HALF),
    Stand("stores", ["many.db", "many.db.2", "many.db.3", "two.db", "two.db.2"]),
    Run(HALF._replace(words=("free", *HALF.words[1:]))),
    Stand("stores", ["many.db", "many.db.2", "many.db.3", "two.db", "two.db.2"]),
])

# As many databases as there may be, and their files.
MOST = 16
NAMES = ["bank", *(f"bank{number}" for number in range(2, MOST + 1))]
FILES = ["bank.db", *(f"bank.db.{number}" for number in range(2, MOST + 1))]
LAST = FILES[-1]


def sixteen(mode: str) -> List[str]:
    """The command line that serves a script in all of them."""
    return [mode, "--databases", str(MOST), "--store", "stores/bank.db"]


def all_but_the_last() -> Story:
    """At the path of the last of 16 databases is one of others, or a folder: it is named and left as it was, nothing is served, and each of the others is
    closed."""
    line = f"escrowd: the store of {NAMES[-1]}, `stores/{LAST}`, can't be opened: {{}}\n"
    refused = Case("", sixteen("serve"), "bank.1: COMMIT\n", status=3, reads=False)
    return Story("all but the last", [
        Folder("stores"),
        Serve(store(LAST), COMMIT),
        Patch(f"stores/{LAST}", b"META", b"NOTE"),
        Copy(f"stores/{LAST}", "stores/other"),
        Run(refused._replace(errors=line.format(FOREIGN))),
        Same(f"stores/{LAST}", "stores/other"),
        Stand("stores", [*FILES, "other"]),
        Rename(f"stores/{LAST}", "stores/other"),
        Folder(f"stores/{LAST}"),
        *(Run(refused._replace(words=sixteen(mode), errors=line.format(NO_FILE))) for mode in MODES),
        Stand("stores", [*FILES, "other"]),
    ])


def behind_a_fault(mode: str) -> Story:
    """Behind a fault each of 16 databases is in its own file, with the row that its last session has committed."""
    asked = [
        f"{name}.64: CREATE TABLE T (ID INTEGER PRIMARY KEY, N INTEGER RESERVABLE)\n{name}.64: INSERT INTO T VALUES (1, {number})\n"
        f"{name}.64: UPDATE T SET N = N + 100 WHERE ID = 1\n{name}.64: COMMIT\n"
        for number, name in enumerate(NAMES, 1)
    ]
    replies = [f"{name}.64> OK created T\n{name}.64> OK inserted\n{name}.64> OK reserved 1\n{name}.64> OK committed 1\n" for name in NAMES]
    shown = [f"{name}.1> ID | N\n{name}.1> 1 | {100 + number}\n{name}.1> OK rows 1\n" for number, name in enumerate(NAMES, 1)]
    all_shown = ("".join(f"{name}.1: SELECT * FROM T\n" for name in NAMES), "".join(shown))
    last_shown = ("bank.1: SELECT * FROM T\n", f"bank.1> ID | N\nbank.1> 1 | {100 + MOST}\nbank.1> OK rows 1\n")
    # sessions at the same time that aren't served to the end leave the logs
    logs = [f"{file}-wal" for file in FILES] if mode == "free" else []
    return Story(f"behind a fault, {mode}", [
        Folder("stores"),
        Run(Case("", sixteen(mode), "".join(asked) + "@join\n", "".join(replies), READ, status=1, stdin=Input.FAILING)),
        Stand("stores", [*FILES, *logs]),
        Serve(sixteen(mode), all_shown),
        Stand("stores", FILES),
        Serve(store(LAST), last_shown),
    ])


# A store of another format, and a database with another table, stay as they are.
STORES_OF_OTHERS = Story("stores of others", [
    Folder("stores"),
    Serve(store("newer.db"), COMMIT),
    Serve(store("other.db"), COMMIT),
    Patch("stores/newer.db", b"format\x02", b"format\x03"),
    Copy("stores/newer.db", "stores/newer"),
    Patch("stores/other.db", b"META", b"NOTE"),
    Copy("stores/other.db", "stores/other"),
    Refuse("stores/newer.db", OTHER_VERSION),
    Refuse("stores/other.db", FOREIGN),
    Same("stores/newer.db", "stores/newer"),
    Same("stores/other.db", "stores/other"),
    Stand("stores", ["newer", "newer.db", "other", "other.db"]),
])

def names() -> Story:
    """A file of several names is refused, under each of them, and so are pipes, devices, and links that lead nowhere. A link that leads to a store opens it:
    its log stands beside the store, and not beside the link."""
    return Story("names of a file", [
        Folder("stores"),
        Serve(BANK, MADE),
        Link("stores/bank.db", "stores/second.db", False),
        Refuse("stores/bank.db", NO_FILE),
        Refuse("stores/second.db", NO_FILE),
        Folder("stores"),
        Serve(BANK, MADE),
        Link("stores/bank.db", "stores/link.db", True),
        Meanwhile(store("link.db"), CHANGED, [Stand("stores", ["bank.db", "bank.db-wal", "link.db"])]),
        Stand("stores", ["bank.db", "link.db"]),
        Serve(BANK, SHOWN),
        Link("stores/gone.db", "stores/lost.db", True),
        Refuse("stores/lost.db", LOST_LINK),
        Pipe("stores/pipe.db"),
        Refuse("stores/pipe.db", NO_FILE),
        Refuse("/dev/null", NO_FILE),
        Stand("stores", ["bank.db", "link.db", "lost.db", "pipe.db"]),
    ])


def two_modes(first: str, second: str) -> Story:
    """What one run commits the next one finds, whatever their modes are, and each leaves one file."""
    return Story(f"{first} and {second}", [
        Folder("stores"),
        Serve(store("bank.db", first), MADE),
        Stand("stores", ["bank.db"]),
        Serve(store("bank.db", second), CHANGED),
        Stand("stores", ["bank.db"]),
        Serve(store("bank.db", first), SHOWN),
        Stand("stores", ["bank.db"]),
    ])


def copied_while_open(mode: str) -> Story:
    """What was answered is in the two files of an open store: a copy of both has the row."""
    return Story(f"copied while open, {mode}", [
        Folder("stores"),
        Serve(BANK, MADE),
        Meanwhile(store("bank.db", mode), ADD, [
            Stand("stores", ["bank.db", "bank.db-wal"]),
            Copy("stores/bank.db", "stores/copy.db"),
            Copy("stores/bank.db-wal", "stores/copy.db-wal"),
        ]),
        Serve(store("copy.db"), AS_ADDED),
        Stand("stores", ["bank.db", "copy.db"]),
    ])


# Where the log of a store was moved with it, another store may be at the old path: its log stays when the program ends that has the first one open.
MOVED_WITH_ITS_LOG = Story("moved with its log", [
    Folder("stores"),
    Serve(BANK, MADE),
    Meanwhile(BANK, ADD, [
        Rename("stores/bank.db", "stores/moved.db"),
        Rename("stores/bank.db-wal", "stores/moved.db-wal"),
        Copy("stores/moved.db", "stores/bank.db"),
        Copy("stores/moved.db-wal", "stores/bank.db-wal"),
    ]),
    Stand("stores", ["bank.db", "bank.db-wal", "moved.db", "moved.db-wal"]),
    Serve(store("moved.db"), AS_ADDED),
    Serve(BANK, AS_ADDED),
    Stand("stores", ["bank.db", "moved.db"]),
])

def in_use(mode: str) -> Story:
    """A store that is open isn't opened once more, by no mode."""
    return Story(f"in use, {mode}", [
        Folder("stores"),
        Serve(BANK, COMMIT),
        Meanwhile(store("bank.db", mode), NOTHING, [Refuse("stores/bank.db", IN_USE)], COMMIT),
        Serve(BANK, COMMIT),
        Stand("stores", ["bank.db"]),
    ])


# A store that is moved while a program has it open keeps its log in use at the old path: no store is made there, and nothing is left. Behind a program
# that was killed the old path is free again.
MOVED_WHILE_OPEN = Story("moved while open", [
    Folder("stores"),
    Meanwhile(BANK, NOTHING, [
        Rename("stores/bank.db", "stores/moved.db"),
        Refuse("stores/bank.db", IN_USE),
        Stand("stores", ["bank.db-wal", "moved.db"]),
    ], is_killed=True),
    Serve(BANK, COMMIT),
    Stand("stores", ["bank.db", "moved.db"]),
])

# What was answered stands where the program is killed: the next run finds it, and none of what was open.
KILLED = Story("killed", [
    Folder("stores"),
    Meanwhile(BANK, MADE, [], is_killed=True),
    Stand("stores", ["bank.db", "bank.db-wal"]),
    Serve(store("bank.db", "free"), CHANGED),
    Stand("stores", ["bank.db"]),
    Serve(BANK, SHOWN),
])

# Two stores of the format before: each run that migrates one says so, once, and serves all the same.
OLD = f"{TOP}/scenarios/store_of_the_format_before-1.db"
MIGRATED = "escrowd: stores/{} was migrated from format 1 to format 2\n"
MIGRATIONS = Story("migrations", [
    Folder("stores"),
    Copy(OLD, "stores/bank.db"),
    Serve(BANK, COMMIT, errors=MIGRATED.format("bank.db")),
    Serve(BANK, COMMIT),
    Copy(OLD, "stores/bank.db.2"),
    Serve(FREE_TWO, COMMIT, errors=MIGRATED.format("bank.db.2")),
    Serve(FREE_TWO, COMMIT),
    Copy(OLD, "stores/bank.db"),
    Copy(OLD, "stores/bank.db.2"),
    Serve(TWO, COMMIT, errors=MIGRATED.format("bank.db") + MIGRATED.format("bank.db.2")),
    Serve(TWO, COMMIT),
    Copy(OLD, "stores/bank.db"),
    Copy(OLD, "stores/both.db"),
    Patch("stores/both.db", b"META", b"NOTE"),
    Rename("stores/both.db", "stores/bank.db.2"),
    # the first store was migrated before the second was refused
    Run(Case("", TWO, "bank.1: COMMIT\n", status=3, reads=False,
             errors=MIGRATED.format("bank.db") + f"escrowd: the store of bank2, `stores/bank.db.2`, can't be opened: {FOREIGN}\n")),
    Stand("stores", ["bank.db", "bank.db.2"]),
])

# The same of 16 stores: each is told, in order.
ALL_MIGRATIONS = Story("all migrations", [
    Folder("stores"),
    *(Copy(OLD, f"stores/{file}") for file in FILES),
    Serve(sixteen("serve"), COMMIT, errors="".join(MIGRATED.format(file) for file in FILES)),
    Serve(sixteen("run"), COMMIT),
    # the last one alone
    Copy(OLD, f"stores/{LAST}"),
    Serve(sixteen("free"), COMMIT, errors=MIGRATED.format(LAST)),
    Stand("stores", FILES),
])

# Where rights are wanting no store is opened, whether one is there or not, and nothing is left.
WITHOUT_RIGHTS = Story("without rights", [
    Folder("stores"),
    # a folder that may be written and not read, and one that may be read and not written
    Rights("stores", 0o333),
    Refuse("stores/bank.db", DENIED),
    Rights("stores", 0o755),
    Stand("stores", []),
    Serve(BANK, COMMIT),
    Rights("stores", 0o333),
    Refuse("stores/bank.db", DENIED),
    Rights("stores", 0o555),
    Refuse("stores/bank.db", DENIED),
    Rights("stores", 0o755),
    Stand("stores", ["bank.db"]),
    # a database that may be read, one without rights, and a log alone without rights
    Rights("stores/bank.db", 0o444),
    Refuse("stores/bank.db", DENIED),
    Rights("stores/bank.db", 0o000),
    Refuse("stores/bank.db", DENIED),
    Stand("stores", ["bank.db"]),
    Folder("stores"),
    Write("stores/bank.db-wal", ""),
    Rights("stores/bank.db-wal", 0o000),
    Refuse("stores/bank.db", DENIED),
    Stand("stores", ["bank.db-wal"]),
    Mode("stores/bank.db-wal", 0o000),
], is_nobody=True)

# The superuser needs no rights.
SUPERUSER = Story("superuser", [
    Folder("stores"),
    Rights("stores", 0o333),
    Serve(BANK, COMMIT),
    Rights("stores", 0o755),
    Rights("stores/bank.db", 0o444),
    Serve(BANK, COMMIT),
    Stand("stores", ["bank.db"]),
    Mode("stores/bank.db", 0o444),
])


def one_file_at_rest() -> Story:
    """A store that was closed opens alone: a copy of its one file has its rows. A fault closes the store too."""
    return Story("one file at rest", [
        Folder("stores"),
        Serve(BANK, MADE),
        Stand("stores", ["bank.db"]),
        Copy("stores/bank.db", "stores/copy.db"),
        Serve(store("copy.db"), AS_MADE),
        Run(Case("", BANK, ADD[0], errors=unanswered(Reason.FULL), status=1, stdout=Output.FULL)),
        Stand("stores", ["bank.db", "copy.db"]),
    ])


def closed_streams() -> Story:
    """Where a standard stream is closed, no file of a store comes in its place: the store stays as it was."""
    return Story("closed streams", [
        Folder("stores"),
        Serve(BANK, MADE),
        Run(Case("", BANK, stdin=Input.CLOSED, errors=CLOSED_INPUT, status=1)),
        Run(Case("", BANK, "bank.1: ROLLBACK\n", stdout=Output.CLOSED, errors=unanswered(Reason.CLOSED), status=1)),
        Run(Case("", BANK, "bank.1: COMIT\n", "bank.1> ERR 11 syntax column 2\n", stderr=Output.CLOSED, reads=True)),
        Stand("stores", ["bank.db"]),
        Serve(BANK, AS_MADE),
    ])


def stopped() -> Story:
    """Where sessions at the same time aren't served to the end, what they committed is in two files a store. The next run finds it, whatever its mode, and
    leaves one file."""
    # What it leaves is committed but for a reservation, and it isn't served to its end.
    cut_off = Run(Case("", FREE_TWO, f"{MADE[0]}@join\nbank2.1: COMMIT\n", MADE[1], READ, status=1, stdin=Input.FAILING))
    unwritten = Run(Case("", FREE_TWO, ADD[0], errors=unanswered(Reason.FULL), status=1, stdout=Output.FULL))
    return Story("stopped", [
        Folder("stores"),
        cut_off,
        Stand("stores", FOUR_FILES),
        Serve(TWO, AS_MADE),
        Stand("stores", ["bank.db", "bank.db.2"]),
        unwritten,
        Stand("stores", FOUR_FILES),
        Serve(TWO, AS_ADDED),
        Stand("stores", ["bank.db", "bank.db.2"]),
        Folder("stores"),
        cut_off,
        Serve(FREE_TWO, AS_MADE),
        Stand("stores", ["bank.db", "bank.db.2"]),
        unwritten,
        Serve(FREE_TWO, AS_ADDED),
        Stand("stores", ["bank.db", "bank.db.2"]),
    ])


def unclosed_line(name: str, file: str) -> str:
    """The line of a store that can't be closed."""
    return (f"escrowd: the store of {name}, `stores/{file}`, can't be closed (the last commits are in `stores/{file}-wal`):"
            " it can't be read or written\n")


UNCLOSED = unclosed_line("bank", "bank.db")


def unclosed(mode: str) -> Story:
    """The program reports a store that can't be closed, here since its log is cut off before the script is read, and keeps its status 0."""
    return Story(f"unclosed, {mode}", [
        Folder("stores"),
        Meanwhile(store("bank.db", mode), NOTHING, [Write("stores/bank.db-wal", "")], COMMIT, UNCLOSED),
    ])


def unclosed_and_unwritten() -> Story:
    """Behind a fault a store that can't be closed is reported too, and the status stays 1."""
    errors = unanswered(Reason.FULL) + UNCLOSED
    return Story("unclosed and unwritten", [
        Folder("stores"),
        Meanwhile(BANK, NOTHING, [Write("stores/bank.db-wal", "")], (COMMIT[0], ""), errors, 1, Output.FULL),
    ])


def several_unclosed() -> List[Story]:
    """Of 16 stores the second and the last can't be closed: both are reported, in order, and the others are closed. Behind a fault it is the same."""
    errors = unclosed_line("bank2", "bank.db.2") + unclosed_line(NAMES[-1], LAST)
    cut = [Write("stores/bank.db.2-wal", ""), Write(f"stores/{LAST}-wal", "")]
    left = Stand("stores", [*FILES, "bank.db.2-wal", f"{LAST}-wal"])
    return [
        Story("several unclosed", [Folder("stores"), Meanwhile(sixteen("run"), NOTHING, cut, COMMIT, errors), left]),
        Story("several unclosed behind a fault", [
            Folder("stores"),
            Meanwhile(sixteen("run"), NOTHING, cut, (COMMIT[0], ""), unanswered(Reason.FULL) + errors, 1, Output.FULL),
            left,
        ]),
    ]


def stories() -> List[Story]:
    """All stories of one database, or of few."""
    by_mode = [story(mode) for story in (copied_while_open, in_use, unclosed) for mode in MODES]
    by_modes = [two_modes(*modes) for modes in itertools.permutations(MODES, 2)]
    return [paths(), SEVERAL_DATABASES, STORES_OF_OTHERS, names(), MOVED_WITH_ITS_LOG, MOVED_WHILE_OPEN, KILLED, MIGRATIONS, WITHOUT_RIGHTS, *by_mode,
            *by_modes,
            one_file_at_rest(), closed_streams(), stopped(), unclosed_and_unwritten()]


def stories_of_many() -> List[Story]:
    """Stories of as many databases as there may be."""
    return [all_but_the_last(), ALL_MIGRATIONS, *map(behind_a_fault, MODES), *several_unclosed()]
