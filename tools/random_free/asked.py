"""What the sessions of tools/random-free ask."""
import random
from typing import Callable, List, NamedTuple, Optional, Tuple

from stock import FIRST, NAMES, NO_ROW, NO_TABLE, OPEN, PASSING, SESSIONS, SHARED, SIDE, SIDES, TABLE

# Bytes that a script may have, those of them that are kept for its last phases, and how many entries a history has until it is put aside.
MOST_BYTES, SPARE, LONG = 16_777_216, 1_000_000, 33_000
# What is always refused, and how: to a session that has nothing open, and to one that has.
REFUSED = [
    ("SELECT * FROM NOWHERE", NO_TABLE, NO_TABLE),
    ("SELECT * FROM STOCK WHERE NAME = 'new'", "ERR 25 not the key", "ERR 25 not the key"),
    ("SELECT * FROM STOCK WHERE ID = 'new'", "ERR 23 bad value", "ERR 23 bad value"),
    ("UPDATE STOCK SET PIECES = 5 WHERE ID = 1", "ERR 24 bad assignment", "ERR 24 bad assignment"),
    ("UPDATE STOCK SET NAME = '' WHERE ID = 1", "ERR 23 bad value", "ERR 23 bad value"),
    ("UPDATE STOCK SET PIECES = PIECES + 1 WHERE ID = 999", NO_ROW, NO_ROW),
    ("DELETE FROM STOCK WHERE NAME = 'new'", "ERR 25 not the key", OPEN),
    ("INSERT INTO STOCK VALUES (1, 'new', 5, 0)", "ERR 30 row exists", OPEN),
    ("INSERT INTO STOCK VALUES (200, 'new', 5, 6)", "ERR 41 FREE low -1 limit 0", OPEN),
    ("INSERT INTO STOCK VALUES (200, 'new', 5)", "ERR 23 bad value", OPEN),
    (TABLE, "ERR 20 table exists", OPEN),
    ("CREATE TABLE BAD (ID INTEGER PRIMARY KEY)", "ERR 22 bad definition", OPEN),
    ("DROP TABLE NOWHERE", NO_TABLE, OPEN),
    ("ROLLBACK TO NEVER", "ERR 43 no such savepoint", "ERR 43 no such savepoint"),
]
# What is no statement: what stands before its fault, and the rest.
NO_STATEMENTS = [("", "COMIT"), ("COMMIT ", "COMMIT"), ("SHOW TABLE ", "'STOCK'"), ("SELECT * FROM STOCK WHERE ID = ", "1000000000000000"),
                 ("SAVEPOINT ", 31 * "A"), ("UPDATE STOCK SET NAME = ", "? WHERE ID = 1")]
NO_LINES = ["bank9.1: COMMIT", "bank.65: COMMIT", "COMMIT", "bank.1 COMMIT", "@restart bank", "@join bank", "-- " + 4094 * "-"]
SILENT = ["", " \t", "-- note"]
# What a session asks, and how often.
KINDS = {"reserve": 46, "touch": 3, "commit": 14, "rollback": 5, "savepoint": 5, "back": 5, "insert": 4, "delete": 3, "rename": 4, "row": 4, "rows": 0.3,
         "bounds": 3, "journal": 0.1,
         "table": 1, "create": 0.5, "drop": 0.5, "totals": 1, "refused": 2, "no_statement": 1, "no_line": 0.4, "silent": 0.4}




class Line(NamedTuple):
    """A line of a script, and what it asks: of which database, which session, what, and with which words. Of no database it is what ends a phase, or asks
    nothing."""

    text: str
    kind: str
    place: int = -1
    session: int = 0
    words: Tuple[object, ...] = ()


JOIN = Line("@join", "join")
# Behind it a single session of each database asks.
ALONE = Line("@join", "alone")


class Writer:
    """Draws the statements of phases."""

    def __init__(self, seed: int) -> None:
        self.draw = random.Random(seed)
        # How many entries the history of each database has since it was put aside, and in the whole script; and the most in one.
        self.entries: List[int] = []
        self.all_entries: List[int] = []
        self.most = 0

    def line(self, place: int, session: int, text: str, kind: str, *words: object) -> Line:
        is_entry = kind not in ("totals", "no_statement")
        self.entries[place] += is_entry
        self.all_entries[place] += is_entry
        return Line(f"{NAMES[place]}.{session}: {text}", kind, place, session, words)

    def statement(self, place: int, session: int) -> Line:
        draw = self.draw
        kind = draw.choices(list(KINDS), list(KINDS.values()))[0]

        def ask(text: str, *words: object, of_kind: Optional[str] = None) -> Line:
            return self.line(place, session, text, of_kind or kind, *words)

        if kind == "reserve":
            return self.reservation(place, session)
        if kind in ("commit", "rollback"):
            return ask(draw.choice([kind.upper(), f"{kind} work;"]))
        if kind in ("savepoint", "back"):
            name = draw.choice("ABC")
            return ask(f"SAVEPOINT {name}" if kind == "savepoint" else f"ROLLBACK TO {name}", name)
        if kind == "refused":
            text, *replies = draw.choice(REFUSED)
            return ask(text, *replies)
        if kind == "no_statement":
            front, rest = draw.choice(NO_STATEMENTS)
            return ask(front + rest, len(front) + 2)
        if kind in ("no_line", "silent"):
            return Line(draw.choice(NO_LINES if kind == "no_line" else SILENT), kind)
        if kind in ("create", "drop"):
            number = draw.choice(SIDES)
            return ask(SIDE.format(number) if kind == "create" else f"DROP TABLE SIDE_{number}", number)
        if kind in ("rows", "journal", "table", "totals"):
            text = {"rows": "SELECT * FROM STOCK", "journal": "SHOW JOURNAL", "table": "SHOW TABLE STOCK", "totals": "SHOW STATISTICS"}[kind]
            return ask(text, of_kind="select_all" if kind == "rows" else kind)
        return self.of_row(ask, kind)

    def reservation(self, place: int, session: int) -> Line:
        draw = self.draw
        pieces, held = draw.choice([(True, False), (False, True), (True, True)])
        changes = (draw.randint(-60, 60) if pieces else None, draw.randint(-30, 30) if held else None)
        texts = [f"{name} = {name} {'-' if change < 0 else '+'} {abs(change)}" for name, change in zip(("PIECES", "HELD"), changes) if change is not None]
        draw.shuffle(texts)
        key = draw.choice(SHARED)
        return self.line(place, session, f"UPDATE STOCK SET {', '.join(texts)} WHERE ID = {key}", "reserve", key, changes)

    def of_row(self, ask: Callable[..., Line], kind: str) -> Line:
        """What names a row that comes and goes, or one of all rows."""
        key = self.draw.choice(PASSING if kind in ("touch", "insert", "delete") else [*SHARED, *PASSING])
        if kind == "rename":
            name = "".join(self.draw.choice("abcdefgh") for _ in range(self.draw.randint(1, 20)))
            return ask(f"UPDATE STOCK SET NAME = '{name}' WHERE ID = {key}", key, name)
        texts = {"touch": f"UPDATE STOCK SET PIECES = PIECES + 0 WHERE ID = {key}",
                 "insert": f"INSERT INTO STOCK VALUES ({key}, 'new', {FIRST[0]}, {FIRST[1]})",
                 "delete": f"DELETE FROM STOCK WHERE ID = {key}", "row": f"SELECT * FROM STOCK WHERE ID = {key}",
                 "bounds": f"SHOW BOUNDS STOCK WHERE ID = {key}"}
        return ask(texts[kind], key, of_kind="select" if kind == "row" else kind)

    def turn(self) -> List[Line]:
        """The lines of a phase: all sessions of one database, one of each, or any of all, and what each asks, in any order of theirs."""
        draw = self.draw
        every, which = [(place, session) for place in range(len(NAMES)) for session in SESSIONS], draw.random()
        if which < 0.25:
            askers = every[:len(SESSIONS)]
        elif which < 0.45:
            askers = [(place, draw.choice(SESSIONS)) for place in range(len(NAMES))]
        else:
            askers = draw.sample(every, draw.randint(1, 64))
        order = [asker for asker in askers for _ in range(draw.randint(1, 20))]
        draw.shuffle(order)
        is_alone = 0.25 <= which < 0.45
        return is_alone * [ALONE] + [self.statement(*asker) for asker in order] + [JOIN]

    def ends(self, place: int) -> List[Line]:
        """All sessions of a database end what they have open, so that its history is put aside."""
        lines = [self.line(place, session, kind.upper(), kind) for session in SESSIONS for kind in [self.draw.choice(["commit", "rollback"])]]
        self.entries[place] = 0
        return lines + [JOIN]

    def set_up(self) -> List[Line]:
        lines: List[Line] = []
        for place in range(len(NAMES)):
            lines.append(self.line(place, 1, TABLE, "refused", "OK created STOCK", OPEN))
            lines += [self.line(place, 1, f"INSERT INTO STOCK VALUES ({key}, 'new', {FIRST[0]}, {FIRST[1]})", "refused", "OK inserted", OPEN) for key in SHARED]
        return lines + [JOIN]

    def look(self) -> List[Line]:
        """One session of each database shows all."""
        lines: List[Line] = []
        for place in range(len(NAMES)):
            session = self.draw.choice(SESSIONS)
            lines.append(self.line(place, session, "SELECT * FROM STOCK", "all_rows"))
            lines += [self.line(place, session, f"SHOW BOUNDS STOCK WHERE ID = {key}", "all_bounds", key) for key in SHARED]
            lines.append(self.line(place, session, "SHOW JOURNAL", "all_journal"))
        return lines + [JOIN]

    def all_totals(self) -> List[Line]:
        return [line for place in range(len(NAMES)) for line in [self.line(place, session, "SHOW STATISTICS", "totals") for session in SESSIONS] + [JOIN]]

    def script(self, is_first: bool, statements: int) -> Tuple[List[Line], int]:
        """The lines of a script, with so many random statements or fewer, as they have room; and how many there are."""
        self.entries, self.all_entries = [0] * len(NAMES), [0] * len(NAMES)
        lines = (self.set_up() if is_first else []) + self.look()
        size, count, phases = sum(len(line.text) + 1 for line in lines), 0, 0
        while count < statements:
            turn = self.turn()
            count += sum(line.kind not in ("join", "alone") for line in turn)
            phases += 1
            for place, entries in enumerate(self.entries):
                if entries >= LONG:
                    turn += self.ends(place)
            if phases % 40 == 0:
                turn += self.look()
            lines += turn
            size += sum(len(line.text) + 1 for line in turn)
            if size > MOST_BYTES - SPARE:
                break
        self.most = max(self.most, *self.all_entries)
        return lines + self.look() + self.all_totals(), count
