"""Command lines, and standard streams that are closed, full, broken, not blocking, folders or terminals."""
from typing import Iterator, List, NamedTuple, Optional, Sequence

from process import Case, Input, Output, Word
from texts import BAD_MODE, CLOSED_INPUT, DATABASES, FOLDER_INPUT, MODES, NOT_UTF8, READ, SESSIONS, UNREADY_INPUT, Reason, unanswered, unprinted

SCRIPT = "bank.1: COMMIT\nbank2.1: COMMIT\nbank3.1: COMMIT\n"
ONE_OF_THREE = "bank.1> OK committed 0\nscript> ERR 12 line\nscript> ERR 12 line\n"
ONE = "bank.1: COMMIT\n"
COMMITTED = "bank.1> OK committed 0\n"
HELP = """A server of tables whose RESERVABLE columns many sessions can change at once.

It reads statements from standard input, one per line, and writes the replies to
standard output.

Usage: escrowd <MODE> [--store <PATH>] [--databases <N>] [--sessions <N>]

Arguments:
  <MODE>  `serve` and `run` serve one line after another; `free` serves the sessions of a phase at the same time

Options:
      --store <PATH>   The file that stores bank; bank2 is stored in PATH.2 and so on [default: in memory]
      --databases <N>  The number of databases, 1 to 16: bank, bank2, bank3 and so on [default: 1]
      --sessions <N>   With `serve`: the number of sessions of a database, 1 to 65535 [default: 64]
  -h, --help           Print help
  -V, --version        Print version

A line is a database, a dot, a session from 1 to 64 (or as --sessions says), a colon
and a statement:

  bank.1: CREATE TABLE ACCOUNT (ID INTEGER PRIMARY KEY, BALANCE INTEGER RESERVABLE CHECK (BALANCE >= 50))
  bank.1: INSERT INTO ACCOUNT VALUES (1, 100)
  bank.1: UPDATE ACCOUNT SET BALANCE = BALANCE - 30 WHERE ID = 1
  bank.1: COMMIT

The line `@restart bank` restarts that database, which drops its open transactions.
Empty lines and lines that begin with -- are ignored.

`serve` serves one line after another until its input ends, and writes each reply
before it reads more input. `run` does the same with a script of at most 16777216
bytes. `free` serves the lines up to `@join` as one phase. The phase's sessions, at
most 64, run at the same time. After the phase, `free` writes the replies in the
order of the lines. At the end it checks that the replies match one history of each
database. It refuses `@restart`.

If a store's file doesn't exist, it is created. The next run finds what was
committed. Without --store, data is lost when the program exits.

Exit status: 0 if everything was served and written; 1 if the input can't be read,
a reply can't be written, memory runs out, a phase has more than 64 sessions or the
replies don't match the histories; 2 for wrong arguments; 3 if a store can't be
opened, and then nothing was read.

Later versions add statements, answer the statements of this version as it does,
and read its stores. --version prints the version.
"""

# In each phase one session of a database asks. The last line has no line feed.
PHASES = Case(
    "phases", ("free", "--databases", "2"), reads=True,
    script="""bank.1: CREATE TABLE ACCOUNT (ID INTEGER PRIMARY KEY, BALANCE INTEGER RESERVABLE CONSTRAINT MINIMUM_BALANCE CHECK (BALANCE >= 50))
bank.1: INSERT INTO ACCOUNT VALUES (1, 100)
bank2.1: SELECT * FROM ACCOUNT
@join
bank.2: UPDATE ACCOUNT SET BALANCE = BALANCE - 30 WHERE ID = 1
bank2.2: COMIT
@join
bank.1: UPDATE ACCOUNT SET BALANCE = BALANCE - 30 WHERE ID = 1
@restart bank
@join
bank.2: COMMIT
@join
bank.3: SELECT * FROM ACCOUNT
bank2.2: SHOW STATISTICS
bank3.1: COMMIT""",
    replies="""bank.1> OK created ACCOUNT
bank.1> OK inserted
bank2.1> ERR 21 no such table
bank.2> OK reserved 1
bank2.2> ERR 11 syntax column 2
bank.1> ERR 41 MINIMUM_BALANCE low 40 limit 50
script> ERR 12 line
bank.2> OK committed 1
bank.3> ID | BALANCE
bank.3> 1 | 70
bank.3> OK rows 1
bank2.2> served 0 granted 0 broken 0 refused 0 commits 0 rollbacks 0 writes 0 queries 0
bank2.2> OK statistics
script> ERR 12 line
""")

# Scripts that are served to their end, and behind which nothing is read.
SERVED = [
    Case("nothing", ("run",), reads=True),
    Case("nothing", ("free",), reads=True),
    Case("one database", ("run",), SCRIPT, ONE_OF_THREE, reads=True),
    Case("one database", ("free",), SCRIPT, ONE_OF_THREE, reads=True),
    Case("two databases", ("run", "--databases", "2"), SCRIPT, "bank.1> OK committed 0\nbank2.1> OK committed 0\nscript> ERR 12 line\n", reads=True),
    Case("three databases", ("--databases", "+3", "run"), SCRIPT, "bank.1> OK committed 0\nbank2.1> OK committed 0\nbank3.1> OK committed 0\n", reads=True),
    PHASES,
    PHASES._replace(name="phases from a pipe", stdin=Input.PIPE),
]


class Good(NamedTuple):
    """Words that are taken: the mode, how many databases there are, and the file that is then there, if stores are in files."""

    words: Sequence[Word]
    mode: str = "run"
    databases: int = 1
    path: Optional[str] = None


GOOD = [
    Good(("run",)),
    Good(("run", "--databases", "1")),
    Good(("run", "--databases", "16"), databases=16),
    Good(("run", "--databases=2"), databases=2),
    Good(("--databases", "3", "run"), databases=3),
    Good(("run", "--databases", "+3"), databases=3),
    Good(("run", "--databases", "00000016"), databases=16),
    Good(("run", "--store", "bank.db"), path="bank.db"),
    Good(("--store=a b.db", "run", "--databases", "2"), databases=2, path="a b.db"),
    Good(("run", "--databases", "2", "--store", "run"), databases=2, path="run"),
    Good(("run", "--store", "bänk"), path="bänk"),
    Good(("run", "--store=--databases"), path="--databases"),
    Good(("free",), "free"),
    Good(("--databases", "2", "free"), "free", 2),
    Good(("free", "--store", "run", "--databases=16"), "free", 16, "run"),
]


def good_case(good: Good) -> Case:
    """What shows how words were taken: each database that there is answers, `@restart` is refused by the mode `free` alone, and each store has its file."""
    names = ["bank", *(f"bank{number}" for number in range(2, 18))]
    script = "".join(f"{name}.1: COMMIT\n" for name in names) + "@restart bank\n"
    replies = "".join(f"{name}.1> OK committed 0\n" for name in names[: good.databases]) + "script> ERR 12 line\n" * (17 - good.databases)
    restarted = "script> ERR 12 line\n" if good.mode == "free" else "bank> OK restarted\n"
    files = [good.path, *(f"{good.path}.{number}" for number in range(2, good.databases + 1))] if good.path else []
    return Case("good words", good.words, script, replies + restarted, reads=True, files=files)


# Words that are refused, with the first line of what is said; nothing is read, and nothing written.
MULTIPLE = "escrowd: the argument '{}' cannot be used multiple times"
NO_VALUE = "escrowd: a value is required for '--store <PATH>' but none was supplied"
BAD = [
    ((), "escrowd: the following required arguments were not provided:"),
    (("free", "run"), "escrowd: unexpected argument 'run' found"),
    (("run", "run"), "escrowd: unexpected argument 'run' found"),
    (("run", "bank.db"), "escrowd: unexpected argument 'bank.db' found"),
    (("run", "--nothing"), "escrowd: unexpected argument '--nothing' found"),
    (("run", "--store"), NO_VALUE),
    (("run", "--store", "--databases", "2"), NO_VALUE),
    (("run", "--store", "a", "--store", "b"), MULTIPLE.format("--store <PATH>")),
    (("run", "--databases=2", "--databases=2"), MULTIPLE.format("--databases <N>")),
    (("serve", "--sessions=65", "--sessions=65"), MULTIPLE.format("--sessions <N>")),
]
BAD_SESSIONS = ["0", "65536", "x", "", "-1", "1.0", " 2", "18446744073709551617"]
BAD_NUMBERS = ["0", "17", "x", "", "-1", "1.0", " 2", "256", "18446744073709551617"]
# An empty path is taken as one, and refused.
EMPTY_PATH = "escrowd: the store of bank, ``, can't be opened: the path is empty, is `:memory:`, or begins with `file:`\n"


def bad_cases() -> Iterator[Case]:
    """Command lines that are refused."""
    for words, line in BAD:
        yield Case("bad words", words, SCRIPT, first_line=line, status=2, reads=False, files=())
    for word in ("walk", "FREE", ""):
        yield Case("bad mode", (word,), SCRIPT, errors=BAD_MODE, status=2, reads=False)
    for mode in MODES:
        for number in BAD_NUMBERS:
            yield Case("bad number", (mode, f"--databases={number}"), SCRIPT, errors=DATABASES, status=2, reads=False, files=())
    for number in BAD_SESSIONS:
        yield Case("bad sessions", ("serve", f"--sessions={number}"), SCRIPT, errors=SESSIONS, status=2, reads=False, files=())
    for mode in ("run", "free"):
        yield Case("sessions of a script", (mode, "--sessions=64"), SCRIPT, errors=SESSIONS, status=2, reads=False, files=())
    yield Case("no UTF-8", ("run", b"\xff"), SCRIPT, errors=NOT_UTF8, status=2, reads=False)
    for path in (("--store=",), ("--store", "")):
        yield Case("empty path", ("run", *path), SCRIPT, errors=EMPTY_PATH, status=3, reads=False, files=())


def help_cases() -> Iterator[Case]:
    """Help reads nothing. Standard output takes all of it, or its first bytes alone."""
    for words in (("--help",), ("-h",), ("run", "--help"), ("--databases", "17", "--help", "walk")):
        yield Case("help", words, SCRIPT, HELP, reads=False)
        yield Case("help that is cut off", words, SCRIPT, HELP[:18], unprinted(Reason.LARGE), status=1, reads=False, room=18)


def byte_by_byte() -> Iterator[Case]:
    """A script that comes byte by byte takes more than 20,000 reads, and each of its replies a write, in `free` behind a phase each."""
    for mode in MODES:
        line = f"{ONE}@join\n" if mode == "free" else ONE
        times = 21_000 // len(line)
        yield Case("byte by byte", (mode,), line * times, COMMITTED * times, stdin=Input.BYTES)


def unread_cases() -> Iterator[Case]:
    """Standard input that can't be read, where standard error takes the text or doesn't. What had come whole is answered before."""
    for mode in MODES:
        for kind, text in ((Input.FAILING, READ), (Input.CLOSED, CLOSED_INPUT), (Input.FOLDER, FOLDER_INPUT), (Input.UNREADY, UNREADY_INPUT)):
            yield Case("unread", (mode,), errors=text, status=1, stdin=kind)
            yield Case("unread, over a full device", (mode,), status=1, stdin=kind, stderr=Output.FULL)
            yield Case("unread, and nowhere to say so", (mode,), status=1, stdin=kind, stderr=Output.CLOSED)
    yield Case("unread behind a line", ("run",), f"{ONE}bank.2: ROLL", COMMITTED, READ, status=1, stdin=Input.FAILING)
    yield Case("unread behind a phase", ("free",), f"{ONE}@join\nbank.2: ROLLBACK\n", COMMITTED, READ, status=1, stdin=Input.FAILING)


def unwritten_cases() -> Iterator[Case]:
    """Standard output that doesn't take the replies: none of them, or a part. Where there are none it isn't looked at."""
    for mode in MODES:
        for kind, reason in ((Output.FULL, Reason.FULL), (Output.CLOSED, Reason.CLOSED), (Output.BROKEN, Reason.BROKEN),
                             (Output.UNREADY, Reason.UNREADY)):
            yield Case("unwritten", (mode,), "bank.1: COMMIT", errors=unanswered(reason), status=1, stdout=kind)
            yield Case("unwritten, and nowhere to say so", (mode,), "bank.1: COMMIT", status=1, stdout=kind, stderr=Output.CLOSED)
            yield Case("no replies", (mode,), "-- nothing is answered\n", stdout=kind, reads=True)
        for room in (0, 1, 12, 22):
            yield Case("unwritten from a byte on", (mode,), ONE, COMMITTED[:room], unanswered(Reason.LARGE), status=1, room=room)
        yield Case("written to the last byte", (mode,), ONE, COMMITTED, room=23, reads=True)


def refused_in_silence() -> Iterator[Case]:
    """The status is the same where nobody can be told why."""
    for kind in (Output.FULL, Output.CLOSED, Output.BROKEN):
        yield Case("bad words in silence", ("walk",), SCRIPT, status=2, reads=False, stderr=kind)
        yield Case("bad path in silence", ("run", "--store", "nowhere/bank.db"), SCRIPT, status=3, reads=False, stderr=kind)


# A terminal at which the end is typed isn't asked again: at the head of a line, or behind half of one.
TYPED = [
    ("", ""),
    (ONE, COMMITTED),
    ("bank.1: COMMIT", COMMITTED),
    (f"{ONE}bank.2: ROLL", f"{COMMITTED}bank.2> ERR 11 syntax column 2\n"),
]


def cases() -> List[Case]:
    """All runs of command lines and streams."""
    typed = [Case("typed", (mode,), *both, stdin=Input.TERMINAL) for mode in MODES for both in TYPED]
    wrong = [*bad_cases(), *unread_cases(), *unwritten_cases(), *refused_in_silence()]
    return [*SERVED, *map(good_case, GOOD), *help_cases(), *byte_by_byte(), *typed, *wrong]
