"""Scripts that are written by a rule: as many sessions, reservations and bytes as there may be."""
from typing import Iterator, List, Tuple

from process import Case, Input
from texts import TOO_LONG

ACCOUNT = (
    "bank.1: CREATE TABLE ACCOUNT (ID INTEGER PRIMARY KEY, BALANCE INTEGER RESERVABLE CONSTRAINT MINIMUM_BALANCE CHECK (BALANCE >= 50))\n"
    "bank.1: INSERT INTO ACCOUNT VALUES (1, 20000)\n",
    "bank.1> OK created ACCOUNT\nbank.1> OK inserted\n",
)
SESSIONS, EACH = 64, 256
# What all that is open may come to, and one reservation more than a session may hold.
ALL_OPEN = (
    "bank.1: SHOW BOUNDS ACCOUNT WHERE ID = 1\nbank.64: UPDATE ACCOUNT SET BALANCE = BALANCE + 1 WHERE ID = 1\n",
    "bank.1> BALANCE value 20000 inf 3616 sup 44576\n"
    "bank.1> CHECK MINIMUM_BALANCE least 3616 greatest 44576 low 50 high none\n"
    "bank.1> OK bounds\n"
    "bank.64> ERR 42 too many reservations\n",
)
NONE_OPEN = (
    "bank.1: SHOW JOURNAL\nbank.1: SELECT * FROM ACCOUNT\n",
    "bank.1> OK reservations 0\nbank.1> ID | BALANCE\nbank.1> 1 | 24096\nbank.1> OK rows 1\n",
)


def reservations() -> Iterator[Tuple[int, int, str]]:
    """The number, the session and the change of each reservation: each session in turn adds 3, or takes 2 away, 256 times."""
    for number in range(SESSIONS * EACH):
        yield number + 1, number % SESSIONS + 1, "+3" if number // SESSIONS % 2 == 0 else "-2"


def ends() -> Iterator[Tuple[str, str]]:
    """One session after another ends, those of an odd number by COMMIT. A COMMIT moves the balance up by 128. Each end leaves 256 less that may be taken
    away, and 384 less that may be added."""
    for session in range(1, SESSIONS + 1):
        end, ended = ("COMMIT", "committed") if session % 2 else ("ROLLBACK", "rolled back")
        still = SESSIONS - session
        value = 20_000 + 128 * ((session + 1) // 2)
        least, greatest = value - 256 * still, value + 384 * still
        yield f"bank.{session}: {end}\nbank.{session}: SHOW BOUNDS ACCOUNT WHERE ID = 1\n", (
            f"bank.{session}> OK {ended} {EACH}\n"
            f"bank.{session}> BALANCE value {value} inf {least} sup {greatest}\n"
            f"bank.{session}> CHECK MINIMUM_BALANCE least {least} greatest {greatest} low 50 high none\n"
            f"bank.{session}> OK bounds\n")


def all_that_may_be_open() -> Case:
    """64 sessions hold 256 reservations of one row each. The journal shows them all in order, and then they end one after another."""
    asked = [(f"bank.{session}: UPDATE ACCOUNT SET BALANCE = BALANCE {change} WHERE ID = 1\n", f"bank.{session}> OK reserved {number}\n")
             for number, session, change in reservations()]
    shown = [f"bank.7> {number} session {session} ACCOUNT 1 BALANCE {change}\n" for number, session, change in reservations()]
    journal = ("bank.7: SHOW JOURNAL ACCOUNT\n", "".join(shown) + f"bank.7> OK reservations {SESSIONS * EACH}\n")
    script, replies = ("".join(it) for it in zip(ACCOUNT, *asked, ALL_OPEN, journal, *ends(), NONE_OPEN))
    return Case("all that may be open", ("run",), script, replies, reads=True)


# Phases that are served before one that has too many sessions.
BEFORE = ("bank.1: COMMIT\n@join\nbank2.1: ROLLBACK\nbank.1: SAVEPOINT A\n@join\n",
          "bank.1> OK committed 0\nbank2.1> OK rolled back 0\nbank.1> OK savepoint A\n")


def sessions() -> List[Case]:
    """64 sessions over all databases may run at the same time, and no more. The phases before are served."""
    asked = [(f"bank.{session}: COMMIT\nbank2.{session}: COMMIT\n", f"bank.{session}> OK committed 0\nbank2.{session}> OK committed 0\n")
             for session in range(1, 33)]
    script, replies = ("".join(it) for it in zip(BEFORE, *asked))
    words = ("free", "--databases", "2")
    return [
        Case("64 sessions", words, script, replies, reads=True),
        Case("65 sessions", words, f"{script}bank.33: COMMIT\n", BEFORE[1], "escrowd: a phase has more than 64 sessions\n", status=1),
    ]


MOST_BYTES = 16_777_216


def longest_scripts() -> List[Case]:
    """A script of so many bytes is served to its last line, or phase. One that is longer by a byte is not."""
    head, first = "bank.1: COMMIT\n@join\n", "bank.1> OK committed 0\n"
    longest = head + "-" * (MOST_BYTES - len(head))
    found = []
    for mode in ("run", "free"):
        for stdin in (Input.FILE, Input.PIPE):
            found.append(Case("longest script", (mode,), longest, f"{first}script> ERR 12 line\n", stdin=stdin, reads=True))
            found.append(Case("a byte too long", (mode,), f"{longest}-", first, TOO_LONG, status=1, stdin=stdin))
    return found


MOST_ROWS = 65_536
# A step through all keys up to 65,537, which is a prime: they come in no order.
STEP = 40_503


def most_rows() -> List[Case]:
    """A table takes so many rows, here in no order of their keys, and no more until one is deleted. All of them are shown in order, and a restart reads
    them."""
    keys = [place * STEP % (MOST_ROWS + 1) for place in range(1, MOST_ROWS + 1)]
    made = [(f"bank.1: INSERT INTO T VALUES ({key}, {key % 7})\n" + "@join\n" * (place % 32_768 == 0), "bank.1> OK inserted\n")
            for place, key in enumerate(keys, 1)]
    shown = [f"bank.1> {key} | {key % 7}\n" for key in range(2, MOST_ROWS + 2)]
    shown[-1] = "bank.1> 65537 | 8\n"
    script, replies = ("".join(it) for it in zip(
        ("bank.1: CREATE TABLE T (ID INTEGER PRIMARY KEY, N INTEGER RESERVABLE)\n", "bank.1> OK created T\n"),
        *made,
        ("bank.1: INSERT INTO T VALUES (65537, 8)\n", "bank.1> ERR 34 table full\n"),
        ("bank.1: INSERT INTO T VALUES (1, 8)\n", "bank.1> ERR 30 row exists\n"),
        ("bank.1: DELETE FROM T WHERE ID = 1\n", "bank.1> OK deleted\n"),
        ("bank.1: INSERT INTO T VALUES (65537, 8)\n", "bank.1> OK inserted\n"),
        ("bank.1: SELECT * FROM T\n", f"bank.1> ID | N\n{''.join(shown)}bank.1> OK rows {MOST_ROWS}\n"),
        ("bank.1: INSERT INTO T VALUES (1, 8)\n", "bank.1> ERR 34 table full\n"),
    ))
    restart = ("@restart bank\nbank.1: INSERT INTO T VALUES (1, 8)\n", "bank> OK restarted\nbank.1> ERR 34 table full\n")
    return [Case("the most rows", ("free",), script, replies, reads=True),
            Case("the most rows", ("run",), script + restart[0], replies + restart[1], reads=True)]
