"""What the replies to the sessions of tools/random-free add up to, and whether they do."""
import collections
import re
from typing import Callable, Dict, Iterable, List, NamedTuple, Optional, Sequence, Set, Tuple

from stock import CHECKS, COLUMNS, FIRST, NO_ROW, NO_TABLE, OPEN, PASSING, SESSIONS, SHARED, SIDES, TABLE

TOTALS = ["served", "granted", "broken", "refused", "commits", "rollbacks", "writes", "queries"]
# Which total a reply counts in beside `served`, by its first words; 11 counts nowhere, as SHOW STATISTICS.
COUNTED: Dict[str, Optional[str]] = {
    "OK reserved": "granted", "ERR 41": "broken", "OK committed": "commits", "OK rolled": "rollbacks", "OK inserted": "writes", "OK deleted": "writes",
    "OK updated": "writes", "OK rows": "queries", "OK table": "queries", "OK bounds": "queries", "OK reservations": "queries", "OK created": None,
    "OK dropped": None, "OK savepoint": None}
# The amounts of a row, and what is added to each of them, if it is.
Row = Tuple[int, int]
Changes = Tuple[Optional[int], Optional[int]]


class Held(NamedTuple):
    """An open reservation."""

    id: int
    key: int
    changes: Changes


class Wrong(Exception):
    """What is wrong with a reply."""


def expect(holds: object, what: str) -> None:
    if not holds:
        raise Wrong(what)


class Session:
    """What the replies to a session say that it has open, and their totals."""

    def __init__(self) -> None:
        self.held: List[Held] = []
        self.savepoints: List[Tuple[str, int]] = []
        self.last = 0
        self.totals = dict.fromkeys(TOTALS, 0)

    def is_open(self) -> bool:
        return bool(self.held or self.savepoints)

    def count(self, reply: str) -> None:
        total = COUNTED.get(" ".join(reply.split(" ")[:2]), "refused")
        self.totals["served"] += 1
        if total:
            self.totals[total] += 1


class Thing:
    """A row or a table that comes and goes: whether it stood before the phase, how often it came and went in it, and what replies said of it."""

    def __init__(self) -> None:
        self.stands, self.came, self.went = False, 0, 0
        self.said: Set[bool] = set()

    def end_phase(self, what: str) -> None:
        expect(True not in self.said or self.stands or self.came, f"{what} was there, and never came")
        expect(False not in self.said or not self.stands or self.went, f"{what} wasn't there, and never went")
        count = self.stands + self.came - self.went
        expect(count in (0, 1), f"{what} came {self.came} times and went {self.went} times, and stood {self.stands} before")
        self.stands, self.came, self.went, self.said = bool(count), 0, 0, set()


class Database:
    """What the replies of a database say that it holds. Each method takes the reply to a statement in, or says what is wrong with it."""

    def __init__(self) -> None:
        self.rows: Dict[int, Row] = {key: FIRST for key in SHARED}
        self.names = {key: {"new"} for key in (*SHARED, *PASSING)}
        self.things = {**{f"row {key}": Thing() for key in PASSING}, **{f"table {number}": Thing() for number in SIDES}}
        self.started()

    def started(self) -> None:
        """It was opened: nothing is open."""
        self.sessions = {session: Session() for session in SESSIONS}
        self.ids: Set[int] = set()
        self.first_id, self.is_alone = 1, False
        # The names that rows were given in the phase, by whom: `None` is who inserted it.
        self.renamed: Dict[int, Dict[Optional[Session], str]] = {}
        self.touched: Set[int] = set()
        self.blocked: Set[int] = set()

    def all_held(self) -> List[Tuple[Held, int]]:
        return [(held, session) for session, asker in self.sessions.items() for held in asker.held]

    def row(self, key: int) -> Row:
        return self.rows.get(key, FIRST)

    # What may be open, and how it ends.

    def reserve(self, asker: Session, last: str, shown: List[str], key: int, changes: Changes) -> None:
        if self.is_alone and key in SHARED and len(asker.held) < 256:
            wanted = violation(self.row(key), self.changes_of(key), changes) or f"OK reserved {len(self.ids) + 1}"
            expect(last == wanted, f"not {wanted}")
        if last.startswith("OK reserved "):
            number = int(last[12:])
            is_next = number not in self.ids and asker.last < number and self.first_id <= number
            expect(len(asker.held) < 256 and is_next, "the number, or one reservation too many")
            self.ids.add(number)
            asker.last = number
            asker.held.append(Held(number, key, changes))
            self.touched.add(key)
        elif last.startswith("ERR 41 "):
            _, _, name, side, worst, _, limit = last.split(" ")
            low, high = CHECKS[name][1:]
            wanted_limit = low if side == "low" else high
            expect(key in SHARED and wanted_limit is not None and int(limit) == wanted_limit, "no such limit")
            expect(int(worst) < int(limit) if side == "low" else int(worst) > int(limit), "it breaks nothing")
        else:
            expect(last == "ERR 42 too many reservations" and len(asker.held) == 256, "refused")

    def touch(self, asker: Session, last: str, shown: List[str], key: int) -> None:
        """A reservation of a passing row, which changes nothing."""
        self.things[f"row {key}"].said.add(last != NO_ROW)
        if last != NO_ROW:
            self.reserve(asker, last, shown, key, (0, None))

    def commit(self, asker: Session, last: str, _: List[str]) -> None:
        expect(last == f"OK committed {len(asker.held)}", "how many")
        for held in asker.held:
            if held.key in SHARED:
                self.rows[held.key] = moved(self.rows[held.key], held.changes)
        asker.held, asker.savepoints = [], []

    def rollback(self, asker: Session, last: str, _: List[str]) -> None:
        expect(last == f"OK rolled back {len(asker.held)}", "how many")
        asker.held, asker.savepoints = [], []

    def savepoint(self, asker: Session, last: str, _: List[str], name: str) -> None:
        expect(last == f"OK savepoint {name}", "refused")
        asker.savepoints = [(other, count) for other, count in asker.savepoints if other != name] + [(name, len(asker.held))]

    def back(self, asker: Session, last: str, _: List[str], name: str) -> None:
        places = [place for place, (other, _) in enumerate(asker.savepoints) if other == name]
        if not places:
            expect(last == "ERR 43 no such savepoint", "there is none")
            return
        count = asker.savepoints[places[0]][1]
        expect(last == f"OK rolled back to {name} {len(asker.held) - count}", "how many")
        del asker.savepoints[places[0] + 1:], asker.held[count:]

    # What acts at once.

    def change(self, asker: Session, last: str, what: str, done: str, not_done: str, is_there: bool) -> None:
        """A thing comes or goes, or is refused, by whether it is there; or the session has something open, and only then."""
        expect(asker.is_open() == (last == OPEN), "open, or not")
        if last != OPEN:
            expect(last in (done, not_done), "refused")
            self.things[what].said.add((last == done) == is_there)
            self.things[what].came += last == done and not is_there
            self.things[what].went += last == done and is_there

    def insert(self, asker: Session, last: str, _: List[str], key: int) -> None:
        self.change(asker, last, f"row {key}", "OK inserted", "ERR 30 row exists", False)
        if last == "OK inserted":
            self.renamed.setdefault(key, {})[None] = "new"

    def delete(self, asker: Session, last: str, _: List[str], key: int) -> None:
        if last == "ERR 32 row reserved":
            expect(not asker.is_open(), "open, or not")
            self.things[f"row {key}"].said.add(True)
            self.blocked.add(key)
        else:
            self.change(asker, last, f"row {key}", "OK deleted", NO_ROW, True)

    def create(self, asker: Session, last: str, _: List[str], number: int) -> None:
        self.change(asker, last, f"table {number}", f"OK created SIDE_{number}", "ERR 20 table exists", False)

    def drop(self, asker: Session, last: str, _: List[str], number: int) -> None:
        self.change(asker, last, f"table {number}", f"OK dropped SIDE_{number}", NO_TABLE, True)

    def rename(self, asker: Session, last: str, _: List[str], key: int, name: str) -> None:
        expect(asker.is_open() == (last == OPEN), "open, or not")
        if last != OPEN:
            expect(last == "OK updated" or key in PASSING and last == NO_ROW, "refused")
            if key in PASSING:
                self.things[f"row {key}"].said.add(last != NO_ROW)
            if last == "OK updated":
                self.renamed.setdefault(key, {})[asker] = name

    # What shows.

    def table(self, asker: Session, last: str, shown: List[str]) -> None:
        expect(shown == [TABLE] and last == "OK table", "another table")

    def rows_of(self, last: str, shown: List[str]) -> Dict[int, Tuple[str, Row]]:
        """The rows that are shown. They meet the checks."""
        expect(shown[:1] == [COLUMNS] and last == f"OK rows {len(shown) - 1}", "not the columns and the rows")
        found: Dict[int, Tuple[str, Row]] = {}
        for line in shown[1:]:
            key, name, pieces, held = line.split(" | ")
            row = int(pieces), int(held)
            expect(all(low <= form(*row) and (high is None or form(*row) <= high) for form, low, high in CHECKS.values()), "a check is broken")
            expect(int(key) in SHARED or row == FIRST, "another row")
            found[int(key)] = name.strip("'"), row
        expect(list(found) == sorted(found) and len(found) == len(shown) - 1, "the keys")
        return found

    def select(self, _: Session, last: str, shown: List[str], key: int) -> None:
        found = self.rows_of(last, shown)
        expect(set(found) <= {key} and (key in found or key in PASSING), "another key")
        if key in PASSING:
            self.things[f"row {key}"].said.add(key in found)

    def select_all(self, _: Session, last: str, shown: List[str]) -> None:
        found = self.rows_of(last, shown)
        expect(set(SHARED) <= set(found) <= set(self.names), "other keys")
        for key in PASSING:
            self.things[f"row {key}"].said.add(key in found)

    def bounds(self, asker: Session, last: str, shown: List[str], key: int) -> None:
        if key in PASSING:
            self.things[f"row {key}"].said.add(last != NO_ROW)
        if last == NO_ROW:
            expect(key in PASSING, "it stands")
            return
        expect(last == "OK bounds" and len(shown) == 5, "not the bounds")
        for line, (name, (_, low, high)) in zip(shown[2:], CHECKS.items()):
            found = re.fullmatch(rf"CHECK {name} least (-?\d+) greatest (-?\d+) low {low} high {'none' if high is None else high}", line)
            expect(found and low <= int(found[1]) <= int(found[2]) and (high is None or int(found[2]) <= high), "a check may break")

    def journal(self, asker: Session, last: str, shown: List[str]) -> None:
        expect(last == f"OK reservations {len(shown)}", "how many")
        ids = [int(line.split(" ")[0]) for line in shown]
        expect(ids == sorted(set(ids)), "the order")
        own = next(session for session, other in self.sessions.items() if other is asker)
        mine = [line for line in shown if line.split(" ")[2] == str(own)]
        expect(mine == [entry(held, own) for held in asker.held], "what the session holds")

    def totals(self, asker: Session, last: str, shown: List[str]) -> None:
        expect(shown == [" ".join(f"{name} {count}" for name, count in asker.totals.items())] and last == "OK statistics", f"the totals are {asker.totals}")

    def refused(self, asker: Session, last: str, shown: List[str], closed: str, opened: str) -> None:
        expect(not shown and last == (opened if asker.is_open() else closed), "another refusal")

    def no_statement(self, _: Session, last: str, shown: List[str], column: int) -> None:
        expect(not shown and last == f"ERR 11 syntax column {column}", "another column")

    # What one session shows while no other one asks: all of it is known.

    def all_rows(self, asker: Session, last: str, shown: List[str]) -> None:
        self.select_all(asker, last, shown)
        found = self.rows_of(last, shown)
        for key, (name, row) in found.items():
            expect(row == self.row(key), f"row {key} is {self.row(key)}")
            expect(name in self.names[key], f"the name of row {key}, of {self.names[key]}")
            self.names[key] = {name}

    def all_bounds(self, _: Session, last: str, shown: List[str], key: int) -> None:
        expect(last == "OK bounds" and shown == bounds_of(self.row(key), self.changes_of(key)), f"not {bounds_of(self.row(key), self.changes_of(key))}")

    def all_journal(self, _: Session, last: str, shown: List[str]) -> None:
        wanted = [entry(held, session) for held, session in sorted(self.all_held())]
        expect(shown == wanted and last == f"OK reservations {len(wanted)}", f"not {wanted}")

    def changes_of(self, key: int) -> List[Changes]:
        return [held.changes for held, _ in self.all_held() if held.key == key]

    def end_phase(self, is_alone: bool) -> None:
        """The phase was served: looks at what holds behind it. In the next one a single session asks, or several do."""
        held: Dict[int, List[Held]] = collections.defaultdict(list)
        for one, _ in sorted(self.all_held()):
            held[one.key].append(one)
        for key, ones in held.items():
            was_deleted = key in PASSING and self.things[f"row {key}"].went
            expect(not was_deleted or ones[0].id >= self.first_id, f"row {key} was deleted, and reserved all the time")
        expect(self.blocked <= self.touched, f"rows {self.blocked - self.touched} are reserved by nobody")
        for what, thing in self.things.items():
            thing.end_phase(what)
        for key, ones in held.items():
            expect(key in SHARED or self.things[f"row {key}"].stands, f"row {key} is reserved, and not there")
            for name, (form, low, high) in CHECKS.items():
                least, greatest = span(form, self.row(key), [one.changes for one in ones])
                expect(low <= least and (high is None or greatest <= high), f"check {name} of row {key} may break: from {least} to {greatest}")
        for key, names in self.renamed.items():
            self.names[key] = set(names.values())
        expect(len(self.ids) == max(self.ids, default=0), "a number was never given")
        self.renamed, self.touched, self.blocked, self.is_alone = {}, set(held), set(), is_alone
        self.first_id = len(self.ids) + 1


def moved(row: Row, changes: Changes) -> Row:
    return row[0] + (changes[0] or 0), row[1] + (changes[1] or 0)


def entry(held: Held, session: int) -> str:
    """The line of a reservation in the journal."""
    changes = [f"{name} {change:+d}" for name, change in zip(("PIECES", "HELD"), held.changes) if change is not None]
    return " ".join([str(held.id), "session", str(session), "STOCK", str(held.key), *changes])


def span(form: Callable[[int, int], int], row: Row, all_changes: Iterable[Changes]) -> Tuple[int, int]:
    """The least and the greatest that a form may come to, whichever of the open reservations of a row are committed."""
    adds = [form(*moved((0, 0), changes)) for changes in all_changes]
    return form(*row) + sum(min(add, 0) for add in adds), form(*row) + sum(max(add, 0) for add in adds)


def violation(row: Row, all_changes: Sequence[Changes], changes: Changes) -> Optional[str]:
    """The refusal of a new reservation of a row with these open ones, if there is one: the first check that could break, the low side first."""
    for name, (form, low, high) in CHECKS.items():
        least, greatest = (limit + form(*moved((0, 0), changes)) for limit in span(form, row, all_changes))
        if least < low:
            return f"ERR 41 {name} low {least} limit {low}"
        if high is not None and greatest > high:
            return f"ERR 41 {name} high {greatest} limit {high}"
    return None


def bounds_of(row: Row, all_changes: Sequence[Changes]) -> List[str]:
    """The lines of SHOW BOUNDS of a row with these open reservations, behind which stands `OK bounds`."""
    lines = []
    for name, value, form in (("PIECES", row[0], lambda pieces, held: pieces), ("HELD", row[1], lambda pieces, held: held)):
        inf, sup = span(form, row, all_changes)
        lines.append(f"{name} value {value} inf {inf} sup {sup}")
    for name, (form, low, high) in CHECKS.items():
        least, greatest = span(form, row, all_changes)
        lines.append(f"CHECK {name} least {least} greatest {greatest} low {low} high {'none' if high is None else high}")
    return lines
