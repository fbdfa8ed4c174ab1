"""More sessions than a script has: as many as `--sessions` says, all open, and ended in several orders; and the most reservations of one row."""
from typing import Callable, Dict, Iterator, List, Sequence, Tuple

from process import Case

# The rows of the table. So many share 65,535 reservations, of which a row has at most 16,384.
ROWS = 5
MOST_OF_A_ROW = 16_384
EACH = 256
TABLE = (
    "bank.1: CREATE TABLE STOCK (ID INTEGER PRIMARY KEY, PIECES INTEGER RESERVABLE CONSTRAINT SOME CHECK (PIECES >= 0))\n",
    "bank.1> OK created STOCK\n",
)

# The orders in which sessions end.
Order = Callable[[int], Sequence[int]]
ORDERS: Dict[str, Order] = {
    "the first one first": lambda count: range(1, count + 1),
    "the last one first": lambda count: range(count, 0, -1),
    "those past the 64th first": lambda count: [*range(65, count + 1), *range(1, min(count, 64) + 1)],
    "every other one first": lambda count: [*range(2, count + 1, 2), *range(1, count + 1, 2)],
}


def joined(lines: Iterator[Tuple[str, str]]) -> Tuple[str, str]:
    """Lines and their replies, each as one text."""
    script, replies = zip(*lines)
    return "".join(script), "".join(replies)


def stock(pieces: int) -> Iterator[Tuple[str, str]]:
    """A table whose rows have so many pieces each."""
    yield TABLE
    for row in range(1, ROWS + 1):
        yield f"bank.1: INSERT INTO STOCK VALUES ({row}, {pieces})\n", "bank.1> OK inserted\n"


def row_of(session: int) -> int:
    """The row of which a session takes a piece."""
    return session % ROWS + 1


def commits(session: int) -> bool:
    """Whether a session ends by COMMIT."""
    return session % 3 > 0


def all_open(count: int, order: Order) -> Iterator[Tuple[str, str]]:
    """Each session takes a piece. One more is none. Then each ends, and a third of the pieces is back."""
    pieces = count
    yield from stock(pieces)
    for session in range(1, count + 1):
        yield f"bank.{session}: UPDATE STOCK SET PIECES = PIECES - 1 WHERE ID = {row_of(session)}\n", f"bank.{session}> OK reserved {session}\n"
    yield f"bank.{count + 1}: COMMIT\n", "script> ERR 12 line\n"
    yield f"bank.{count}: DELETE FROM STOCK WHERE ID = {row_of(count)}\n", f"bank.{count}> ERR 26 transaction open\n"
    for session in order(count):
        end, reply = ("COMMIT", "committed") if commits(session) else ("ROLLBACK", "rolled back")
        yield f"bank.{session}: {end}\n", f"bank.{session}> OK {reply} 1\n"
    yield f"bank.{count}: SHOW JOURNAL\n", f"bank.{count}> OK reservations 0\n"
    yield f"bank.{count}: SHOW STATISTICS\n", statistics(count)
    left = [pieces - sum(row_of(session) == row and commits(session) for session in range(1, count + 1)) for row in range(1, ROWS + 1)]
    rows = "".join(f"bank.1> {row} | {kept}\n" for row, kept in enumerate(left, 1))
    yield "bank.1: SELECT * FROM STOCK\n", f"bank.1> ID | PIECES\n{rows}bank.1> OK rows {ROWS}\n"


def statistics(count: int) -> str:
    """How the last session was answered: a grant, a refusal, its end and a query."""
    ends = "commits 1 rollbacks 0" if commits(count) else "commits 0 rollbacks 1"
    return f"bank.{count}> served 4 granted 1 broken 0 refused 1 {ends} writes 0 queries 1\nbank.{count}> OK statistics\n"


def late_savepoints() -> Iterator[Tuple[str, str]]:
    """A session past the 64th goes back to a savepoint, shows its journal, and loses what it holds by a restart, as any other does."""
    take = "UPDATE STOCK SET PIECES = PIECES - 1 WHERE ID = 1"
    yield from stock(3)
    yield f"bank.4096: {take}\n", "bank.4096> OK reserved 1\n"
    yield "bank.4096: SAVEPOINT A\n", "bank.4096> OK savepoint A\n"
    yield f"bank.4096: {take}\n", "bank.4096> OK reserved 2\n"
    yield f"bank.65: {take}\n", "bank.65> OK reserved 3\n"
    yield f"bank.64: {take}\n", "bank.64> ERR 41 SOME low -1 limit 0\n"
    yield "bank.4096: ROLLBACK TO B\n", "bank.4096> ERR 43 no such savepoint\n"
    yield "bank.4096: ROLLBACK TO A\n", "bank.4096> OK rolled back to A 1\n"
    yield f"bank.64: {take}\n", "bank.64> OK reserved 4\n"
    yield "bank.1: SHOW JOURNAL\n", (
        "bank.1> 1 session 4096 STOCK 1 PIECES -1\nbank.1> 3 session 65 STOCK 1 PIECES -1\nbank.1> 4 session 64 STOCK 1 PIECES -1\nbank.1> OK reservations 3\n")
    yield "bank.1: DELETE FROM STOCK WHERE ID = 1\n", "bank.1> ERR 32 row reserved\n"
    yield "@restart bank\n", "bank> OK restarted\n"
    yield "bank.1: SHOW JOURNAL\n", "bank.1> OK reservations 0\n"
    yield "bank.4096: COMMIT\n", "bank.4096> OK committed 0\n"
    yield "bank.1: DELETE FROM STOCK WHERE ID = 1\n", "bank.1> OK deleted\n"
    yield f"bank.4096: {take}\n", "bank.4096> ERR 31 no such row\n"


def full_row() -> Iterator[Tuple[str, str]]:
    """A row has at most 16,384 open reservations. One more is refused behind 31, and before 41. An end makes room."""
    yield from stock(MOST_OF_A_ROW)
    for number in range(MOST_OF_A_ROW):
        session = number // EACH + 1
        yield f"bank.{session}: UPDATE STOCK SET PIECES = PIECES - 1 WHERE ID = 1\n", f"bank.{session}> OK reserved {number + 1}\n"
    for change in ("- 1", "+ 1", "- 99999"):
        yield f"bank.65: UPDATE STOCK SET PIECES = PIECES {change} WHERE ID = 1\n", "bank.65> ERR 42 too many reservations\n"
    yield "bank.65: UPDATE STOCK SET PIECES = PIECES - 1 WHERE ID = 6\n", "bank.65> ERR 31 no such row\n"
    yield "bank.65: UPDATE STOCK SET PIECES = PIECES - 1 WHERE ID = 2\n", f"bank.65> OK reserved {MOST_OF_A_ROW + 1}\n"
    yield "bank.64: ROLLBACK\n", f"bank.64> OK rolled back {EACH}\n"
    yield "bank.65: UPDATE STOCK SET PIECES = PIECES - 257 WHERE ID = 1\n", "bank.65> ERR 41 SOME low -1 limit 0\n"
    yield "bank.65: UPDATE STOCK SET PIECES = PIECES - 256 WHERE ID = 1\n", f"bank.65> OK reserved {MOST_OF_A_ROW + 2}\n"


def session_cases() -> List[Case]:
    """The cases of sessions past the 64th, and of the last one there may be."""
    found = []
    for count in (64, 65, 4_096, 65_535):
        for name, order in ORDERS.items():
            script, replies = joined(all_open(count, order))
            found.append(Case(f"{count} sessions, {name}", ("serve", "--sessions", str(count)), script, replies, reads=True))
    for title, lines in (("savepoints of late sessions", late_savepoints), ("a full row", full_row)):
        script, replies = joined(lines())
        found.append(Case(title, ("serve", "--sessions=4096"), script, replies, reads=True))
    for mode in ("run", "serve"):
        found.append(Case("no session 65", (mode,), "bank.65: COMMIT\nbank.64: COMMIT\n", "script> ERR 12 line\nbank.64> OK committed 0\n", reads=True))
    return found
