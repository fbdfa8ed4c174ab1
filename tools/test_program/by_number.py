"""Calls by their numbers: what the last part of a history gets, the 300th call, the reservation behind 1,000 and the last session is what the first one got."""
import re
from typing import List, NamedTuple, Tuple

from lines import COMMITTED, ONE
from longest import ACCOUNT, MOST_BYTES
from process import Case, Input, Output, Program, Stage, compare
from steps import Folder, Patch, Serve, Stand, Story
from stores import MIGRATED, NAMES
from texts import MODES


class Numbers(NamedTuple):
    """How far tests count: how often each session of a counter counts, how often one session asks, and the rows of a store."""

    rounds: int
    asked: int
    rows: int


IN_THE_GATE = Numbers(200, 1_200, 2_000)
BY_HAND = Numbers(16_000, 100_000, 20_000)

# How many entries of a history are handed out as a part, behind the phase that has so many.
PART = 32_768


def all_parts() -> Case:
    """The last session of the last database fills three parts of a history, and then the first of the first as many as a script has bytes for: no statement
    finds its transcript full."""
    last, first = "bank16.64:COMMIT\n" * PART + "@join\n", "bank.1:COMMIT\n" * PART + "@join\n"
    parts = (MOST_BYTES - 3 * len(last)) // len(first)
    replies = "bank16.64> OK committed 0\n" * PART * 3 + COMMITTED * PART * parts
    return Case("all parts", ("free", "--databases", "16"), last * 3 + first * parts, replies, reads=True)


# The sessions of a counter, and their rounds in a phase: one transcript has room for all that they ask.
COUNTERS, ROUNDS = 8, 200


def counter(rounds: int, program: Program, folder: str) -> None:
    """Eight sessions count up one row at the same time, in phases of 200 rounds, those of an odd number by two reservations a COMMIT: each number is given
    once, each COMMIT tells what its session had reserved, and in the end all are counted."""
    asked, replies = "", ""
    for session in range(1, COUNTERS + 1):
        asked += f"bank.{session}: UPDATE COUNTER SET HITS = HITS + 1 WHERE ID = 1\n" * (1 + session % 2) + f"bank.{session}: COMMIT\n"
        replies += f"bank.{session}> OK reserved N\n" * (1 + session % 2) + f"bank.{session}> OK committed {1 + session % 2}\n"
    made = "bank.1: CREATE TABLE COUNTER (ID INTEGER PRIMARY KEY, HITS INTEGER RESERVABLE)\nbank.1: INSERT INTO COUNTER VALUES (1, 0)\n@join\n"
    hits = rounds * (COUNTERS + COUNTERS // 2)
    with Stage() as stage:
        stage.give_input(Input.FILE, (made + (asked * ROUNDS + "@join\n") * (rounds // ROUNDS) + "bank.1: SELECT * FROM COUNTER").encode())
        stage.give_output("stdout", Output.KEPT)
        stage.start(program, ("free",), folder)
        compare("the status", 0, stage.end())
        written = stage.text("stdout")
    numbers = sorted(map(int, re.findall(r"(?m) reserved (\d+)$", written)))
    compare("the numbers of the reservations", list(range(1, hits + 1)), numbers)
    whole = f"bank.1> OK created COUNTER\nbank.1> OK inserted\n{replies * rounds}bank.1> ID | HITS\nbank.1> 1 | {hits}\nbank.1> OK rows 1\n"
    compare("the replies", whole, re.sub(r"(?m) reserved \d+$", " reserved N", written))


# How many reservations that are dropped a phase has: its transcript has room for them.
PAIRS = 10_000


def numbers_of_one_session(asked: int) -> List[Case]:
    """One session reserves and drops so many times: its totals tell so, and behind a restart ids and totals begin anew."""
    update = "bank.1: UPDATE ACCOUNT SET BALANCE = BALANCE - 1 WHERE ID = 1\n"
    totals = f"bank.1> served {2 * asked + 2} granted {asked} broken 0 refused 0 commits 0 rollbacks {asked} writes 1 queries 0\nbank.1> OK statistics\n"
    pairs = "".join(f"{update}bank.1: ROLLBACK\n" + "@join\n" * (number % PAIRS == 0) for number in range(asked))
    script = f"{ACCOUNT[0]}{pairs}@join\nbank.1: SHOW STATISTICS\n"
    dropped = "".join(f"bank.1> OK reserved {number}\nbank.1> OK rolled back 1\n" for number in range(1, asked + 1))
    replies = ACCOUNT[1] + dropped + totals
    again = (f"@restart bank\n{update}bank.1: SHOW STATISTICS\n", "bank> OK restarted\nbank.1> OK reserved 1\n"
             "bank.1> served 1 granted 1 broken 0 refused 0 commits 0 rollbacks 0 writes 0 queries 0\nbank.1> OK statistics\n")
    return [Case("numbers of one session", ("free",), script, replies, reads=True),
            *(Case("numbers of one session", (mode,), script + again[0], replies + again[1], reads=True) for mode in ("run", "serve"))]


def every_session() -> List[Case]:
    """Each of the 64 sessions of each of 16 databases is served, in each mode."""
    pairs = [(name, session) for name in NAMES for session in range(1, 65)]
    asked = [f"{name}.{session}: SAVEPOINT A\n{name}.{session}: COMMIT\n" + "@join\n" * (session == 64) for name, session in pairs]
    replies = [f"{name}.{session}> OK savepoint A\n{name}.{session}> OK committed 0\n" for name, session in pairs]
    return [Case("every session", (mode, "--databases", "16"), "".join(asked), "".join(replies), reads=True) for mode in MODES]


def inserted(rows: int) -> Tuple[str, str]:
    """A script that makes a table of so many rows, and its replies."""
    return ("bank.1: CREATE TABLE T (ID INTEGER PRIMARY KEY, N INTEGER RESERVABLE CHECK (N >= 0))\n"
            + "".join(f"bank.1: INSERT INTO T VALUES ({key}, {key % 7})\n" for key in range(1, rows + 1)),
            "bank.1> OK created T\n" + "bank.1> OK inserted\n" * rows)


def migration_of_many_rows(rows: int) -> Story:
    """A store of the format before has these rows, and another program that opens it has all of them. What differs in the file is the number of the format."""
    shown = "".join(f"bank.1> {key} | {key % 7}\n" for key in range(1, rows + 1))
    select = ("bank.1: SELECT * FROM T\n", f"bank.1> ID | N\n{shown}bank.1> OK rows {rows}\n")
    words = ("run", "--store", "stores/bank.db")
    return Story("migration of many rows", [
        Folder("stores"),
        Serve(words, inserted(rows)),
        Patch("stores/bank.db", b"format\x02", b"format\x01"),
        Serve(words, select, MIGRATED.format("bank.db")),
        Serve(words, select),
        Stand("stores", ["bank.db"]),
    ])


def longest_script_byte_by_byte() -> List[Case]:
    """A script of as many bytes as there may be is read by as many calls."""
    line = f"{ONE}@join\n--{'-' * 75}\n"
    times = MOST_BYTES // len(line)
    return [Case("a longest script byte by byte", (mode,), line * times, COMMITTED * times, stdin=Input.BYTES) for mode in ("run", "free")]
