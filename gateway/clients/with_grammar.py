"""Statements at random to the gateway and to PostgreSQL 15, over equal tables: what the gateway acts on, PostgreSQL has to act on in the same way.

    python3 -m clients.with_grammar --minutes 60 --seed 7

For each statement that the gateway accepts, PostgreSQL has to accept it too, with the same tag, the same columns and rows, and the same rows behind it.
What the gateway refuses and PostgreSQL accepts has to have an SQLSTATE of REFUSALS. What differs on purpose is in ON_PURPOSE. A difference is made as
short as possible and printed with its seed. By hand it runs for as long as it is asked to.
"""
from __future__ import annotations

import argparse
import functools
import math
import random
import re
import struct
import sys
import time
from collections import Counter
from dataclasses import dataclass, field
from enum import Enum
from pathlib import Path
from typing import Callable, Dict, FrozenSet, Iterable, List, Optional, Pattern, Sequence, Tuple

from clients import wire
from clients.grammar import MADE, TABLES, Grammar, Statement
from clients.servers import LOAD, Gateway, Postgres
from clients.suite import Part, main

PART = Part("with_grammar")
# The case in the gate: its most seconds, and the statements behind which it ends, so that a faster machine serves no others. The seed of its generator.
SECONDS, STATEMENTS, SEED = 120.0 * LOAD, 60_000, 82
# The statements that are on their way at once, and the batches behind which both servers get new tables.
A_BATCH, A_TABLE = 24, 6
# The differences that are shown before a run ends.
MOST_SHOWN = 12
CHANGES = re.compile(r"insert|update|delete|drop|alter|create|truncate", re.IGNORECASE)
COMMENT = re.compile(r"--[^\n]*|/\*.*?\*/", re.DOTALL)
ORDERED, CUT = re.compile(r"order.*by", re.IGNORECASE | re.DOTALL), re.compile(r"limit|offset|fetch", re.IGNORECASE)

# What the gateway may answer where PostgreSQL acts, each with its reason.
REFUSALS: Dict[str, str] = {
    "0A000": "what the gateway or the server does not have, by its name",
    "42601": "what the gateway's grammar does not have, with its position",
    "22001": "a text of more bytes than its column has: PostgreSQL counts characters",
    "22003": "a number of more than 15 digits, or out of the range of the server's nearest type",
    "22023": "digits behind the point that the column does not have, which PostgreSQL rounds; a value of another type; an empty text",
    "22021": "control characters in a text, which the server's lines cannot hold",
    "22P02": "a text that is no number where the server needs one",
    "23502": "a column that an INSERT leaves out: the server has no NULL",
    "23514": "the worst of all choices of open reservations counts, and the type of a column is a check",
    "42602": "a name with letters that the server's names cannot have",
    "42622": "a name of more than 30 bytes, which the server has at most",
    "42P16": "a rule or a limit of the server's tables",
    "42701": "a column that a list has twice",
    "42704": "a constraint whose name is another in the server",
    "42P18": "a parameter whose type does not follow from its place",
    "54000": "a statement that is longer than a line of the server",
    "55000": "a cursor of the gateway goes forward alone",
    "55006": "a row that another session has reserved",
    "25006": "READ ONLY stays behind ROLLBACK AND CHAIN of a failed block; PostgreSQL 15 forgets it there",
    "25001": "what commits by itself beside other statements of a message",
}


@dataclass(frozen=True)
class Answer:
    """What came back for a statement: tags, SQLSTATE of an error, and the bodies of the messages that are compared."""

    tags: Tuple[bytes, ...] = ()
    error: str = ""
    text: str = ""
    columns: Tuple[bytes, ...] = ()
    rows: Tuple[bytes, ...] = ()
    others: Tuple[bytes, ...] = ()
    state: bytes = b"I"

    @property
    def acted(self) -> bool:
        return not self.error


class Aspect(Enum):
    """What is compared of a statement on which the gateway acts."""

    ACTION = "that PostgreSQL acts"
    TAGS = "tags"
    COLUMNS = "names and types of columns and of parameters"
    ROWS = "the rows of a result"
    BEHIND = "the rows of tables behind a refusal"


@dataclass(frozen=True)
class Purpose:
    """A difference that is meant: its reason, the texts in which it is the case, and what differs."""

    reason: str
    pattern: Pattern[str]
    differs: FrozenSet[Aspect]

    def excuses(self, aspect: Aspect, it: Statement) -> bool:
        return aspect in self.differs and bool(self.pattern.search(it.text))


def purpose(reason: str, pattern: str, *differs: Aspect) -> Purpose:
    return Purpose(reason, re.compile(pattern, re.IGNORECASE | re.DOTALL), frozenset(differs))


# What differs on purpose where the gateway acts.
ON_PURPOSE = [
    purpose(
        "SHOW TABLE, BOUNDS, JOURNAL and STATISTICS are the server's own statements", r"^[\s(;]*show\s+(table|bounds|journal|statistics)\b", *Aspect
    ),
    purpose("SHOW ALL shows the settings that the gateway has", r"^[\s(;]*show\s+all\b", Aspect.ROWS),
    purpose("a column of a created table has the server's nearest type: INT has 15 digits and is int8", rf"\b{MADE}\b", Aspect.COLUMNS, Aspect.ROWS),
    purpose("rows of one INSERT are INSERTs by themselves: those before a refused one stay", r"\binsert\b.*\(.*\(", Aspect.BEHIND),
    purpose("a reservation is applied at the end of its message: a SELECT behind it does not show it", r"update.*;.*select", Aspect.ROWS),
    purpose("READ ONLY stays behind ROLLBACK AND CHAIN of a failed block; PostgreSQL 15 forgets it there", r"transaction_read_only", Aspect.ROWS),
    purpose("what commits by itself stays if a later statement of its message is refused", r";", Aspect.BEHIND),
]


def excused(aspect: Aspect, it: Statement) -> bool:
    """Returns whether a difference in an aspect is meant."""
    return any(found.excuses(aspect, it) for found in ON_PURPOSE)


class EndedAt(wire.Ended):
    """The server closed the connection behind so many answers."""

    def __init__(self, answers: int, text: str) -> None:
        super().__init__(f"the connection was ended behind {answers} answers: {text or 'without a word'}")
        self.answers = answers


class Client:
    """A connection that sends many messages at once and takes their answers apart quickly."""

    def __init__(self, path: Path) -> None:
        self.connection = wire.Connection(path)

    def ask(self, requests: Sequence[bytes]) -> List[Answer]:
        """Sends requests, and returns their answers. Each request ends with one ReadyForQuery."""
        self.connection.send(b"".join(requests))
        found: List[Answer] = []
        tags: List[bytes] = []
        columns: List[bytes] = []
        rows: List[bytes] = []
        others: List[bytes] = []
        error = text = ""
        buffer, at = self.connection.unread, 0
        while len(found) < len(requests):
            if len(buffer) - at < 5 or len(buffer) - at <= (length := struct.unpack_from("!i", buffer, at + 1)[0]):
                try:
                    more = self.connection.socket.recv(1 << 18)
                except ConnectionError:
                    more = b""
                if not more:
                    raise EndedAt(len(found), text)
                buffer, at = buffer[at:] + more, 0
                continue
            kind, body = buffer[at], buffer[at + 5 : at + 1 + length]
            at += 1 + length
            if kind == 68:  # D
                rows.append(body)
            elif kind == 90:  # Z
                found.append(Answer(tuple(tags), error, text, tuple(columns), tuple(rows), tuple(others), body))
                tags, columns, rows, others, error, text = [], [], [], [], "", ""
            elif kind == 67:  # C
                tags.append(body)
            elif kind == 69:  # E
                fields = wire.Message("E", body).fields()
                error, text = fields["C"], f"{fields['C']} {fields['M']}"
            elif kind == 84:  # T
                columns.append(described(body))
            elif kind in b"tsnI":
                others.append(bytes([kind]) + body)
        self.connection.unread = buffer[at:]
        return found

    def do(self, *statements: str) -> None:
        """Runs statements. Fails unless each succeeds."""
        for statement, answer in zip(statements, self.ask([wire.query(it) for it in statements])):
            if answer.error:
                raise AssertionError(f"{statement}: {answer.text}")


@functools.lru_cache(maxsize=4096)
def described(body: bytes) -> bytes:
    """Returns a row description without the oids of tables."""
    return repr(wire.Message("T", body).columns()).encode()


BEGIN, COMMIT, ROLLBACK, CLOSE_ALL = (wire.query(it) for it in ("BEGIN", "COMMIT", "ROLLBACK", "CLOSE ALL; DEALLOCATE ALL; RESET ALL"))
LOOK_AT_OURS = wire.query("; ".join(f"SELECT * FROM {it.name}" for it in TABLES))
LOOK_AT_THEIRS = wire.query("; ".join(f"SELECT * FROM {it.name} ORDER BY {it.key.name}" for it in TABLES))
LEFT = f"SELECT tablename FROM pg_tables WHERE schemaname = 'public' AND tablename NOT IN ({', '.join(repr(it.name) for it in TABLES)})"


@dataclass
class Difference:
    """A statement with what both answered, and what is wrong with that."""

    statement: Statement
    what: str
    before: Tuple[Statement, ...] = ()
    is_block: bool = False

    def shown(self) -> str:
        """Returns it for a reader."""
        return "\n".join([self.statement.shown(), f"    {self.what}", *(f"    behind {it.shown()}" for it in self.before)])


@dataclass
class Counts:
    """How many statements both acted on, and how they were refused."""

    statements: int = 0
    both: int = 0
    refused: Counter[str] = field(default_factory=Counter)
    tags: Counter[str] = field(default_factory=Counter)

    def shown(self, seconds: float) -> str:
        tags = ", ".join(f"{tag} {count}" for tag, count in self.tags.most_common(12))
        refused = ", ".join(f"{code} {count}" for code, count in self.refused.most_common(12))
        return (
            f"{self.statements} statements in {seconds:.0f} s, {self.statements / max(seconds, 0.01):.0f} a second; both acted on {self.both} ({tags}); "
            f"refused by the gateway alone: {refused or 'none'}"
        )


class Pair:
    """The gateway and PostgreSQL with equal tables."""

    def __init__(self, gateway: Path, postgres: Path) -> None:
        self.paths = gateway, postgres
        self.ours, self.theirs = Client(gateway), Client(postgres)
        self.theirs.do("SET client_min_messages = warning")
        self.counts = Counts()

    def renew(self) -> None:
        """Gives both new tables, and takes away those that statements created."""
        left = [wire.Message("D", it).values()[0] or b"" for it in self.theirs.ask([wire.query(LEFT)])[0].rows]
        names = ['"' + it.decode() + '"' for it in left]
        for client in (self.ours, self.theirs):
            client.ask([wire.query(f"DROP TABLE {it}") for it in [*(table.name for table in TABLES), *names, MADE]])
        for table in TABLES:
            self.ours.do(table.ours, *table.rows)
            self.theirs.do(table.theirs, *table.rows)

    def reconnect(self) -> None:
        """Opens the gateway's connection again, behind an end of it."""
        self.ours = Client(self.paths[0])

    def serve(self, statements: Sequence[Statement]) -> Optional[Difference]:
        """Serves statements by both, one after another, and returns the first difference. Behind one, both need new tables."""
        looks = [bool(CHANGES.search(it.text)) for it in statements]
        requests: List[bytes] = []
        for it, look in zip(statements, looks):
            requests.append(it.messages(it.text))
            if look:
                requests.append(LOOK_AT_OURS)
        try:
            answers = self.ours.ask(requests)
        except EndedAt as error:
            self.reconnect()
            by = [it for it, look in zip(statements, looks) for _ in range(1 + look)][error.answers]
            return Difference(by, str(error), tuple(statements[: statements.index(by)]))
        ours = apart(answers, looks)
        # PostgreSQL keeps what the gateway has done, and nothing else, so its rows are looked at behind that alone.
        requests = [LOOK_AT_THEIRS]
        for it, look, (answer, _) in zip(statements, looks, ours):
            requests += [BEGIN, it.messages(it.text_of_theirs), COMMIT if answer.acted else ROLLBACK]
            if look and answer.acted:
                requests.append(LOOK_AT_THEIRS)
        came = iter(self.theirs.ask(requests))
        rows_of_theirs = next(came).rows
        for at, (it, look, (answer, rows)) in enumerate(zip(statements, looks, ours)):
            next(came)
            answer_of_theirs = next(came)
            ended = next(came)
            if look and answer.acted:
                rows_of_theirs = next(came).rows
            if answer_of_theirs.acted and ended.error:
                answer_of_theirs = ended
            wrong = self.judge(it, answer, answer_of_theirs)
            if not wrong and look and sorted(rows) != sorted(rows_of_theirs):
                if not answer.acted and excused(Aspect.BEHIND, it):
                    return Difference(it, "")
                only = [readable(set(one) - set(other)) for one, other in ((rows, rows_of_theirs), (rows_of_theirs, rows))]
                said = [it.text or it.tags for it in (answer, answer_of_theirs)]
                wrong = f"rows behind it: gateway ({said[0]}) {only[0]}, PostgreSQL ({said[1]}) {only[1]}"
            if wrong:
                return Difference(it, wrong, tuple(statements[:at]))
        return None

    def serve_block(self, block: Sequence[Statement]) -> Optional[Difference]:
        """Serves the statements of a block by both, as they are, and returns the first difference. Behind one, both need new tables."""
        try:
            ours = self.ours.ask([*(it.messages(it.text) for it in block), ROLLBACK, CLOSE_ALL, LOOK_AT_OURS])
        except EndedAt as error:
            self.reconnect()
            at = min(error.answers, len(block) - 1)
            return Difference(block[at], str(error), tuple(block[:at]), True)
        theirs = self.theirs.ask([*(it.messages(it.text_of_theirs) for it in block), ROLLBACK, CLOSE_ALL, LOOK_AT_THEIRS])
        are_equal = sorted(ours[-1].rows) == sorted(theirs[-1].rows)
        has_reserved = False
        for at, (it, our, their) in enumerate(zip(block, ours, theirs)):
            # A reservation is applied by COMMIT: until then no row shows it.
            wrong = self.judge(it, our, their, with_rows=not has_reserved)
            if not wrong and our.acted == their.acted and our.state != their.state:
                wrong = f"state: gateway {our.state!r} ({our.text or our.tags}), PostgreSQL {their.state!r} ({their.text or their.tags})"
            if wrong:
                return Difference(it, wrong, tuple(block[:at]), True)
            if our.acted != their.acted or (not our.acted and excused(Aspect.BEHIND, it)):
                return None if are_equal else Difference(it, "")
            has_reserved = our.state == b"T" and (has_reserved or any(tag.startswith(b"UPDATE") for tag in our.tags))
        if not are_equal:
            only = [readable(set(one) - set(other)) for one, other in ((ours[-1].rows, theirs[-1].rows), (theirs[-1].rows, ours[-1].rows))]
            return Difference(block[-1], f"rows behind the block: gateway {only[0]}, PostgreSQL {only[1]}", tuple(block[:-1]), True)
        return None

    def judge(self, it: Statement, ours: Answer, theirs: Answer, with_rows: bool = True) -> str:
        """Returns what is wrong with two answers, or nothing."""
        self.counts.statements += 1
        if not ours.acted:
            if theirs.acted:
                self.counts.refused[ours.error] += 1
                if ours.error not in REFUSALS:
                    return f"the gateway refused it by {ours.text}, PostgreSQL answered {theirs.tags}"
            return f"the gateway answered {ours.text}" if ours.error.startswith(("XX", "58", "57")) else ""
        if not theirs.acted:
            return "" if excused(Aspect.ACTION, it) else f"the gateway acted ({ours.tags}), PostgreSQL did not: {theirs.text}"
        self.counts.both += 1
        for tag in ours.tags:
            self.counts.tags[tag[:-1].decode().split(" ")[0]] += 1
        if ours.tags != theirs.tags and not excused(Aspect.TAGS, it):
            return f"tags: gateway {ours.tags}, PostgreSQL {theirs.tags}"
        if not excused(Aspect.COLUMNS, it):
            if ours.columns != theirs.columns:
                return f"columns: gateway {ours.columns}, PostgreSQL {theirs.columns}"
            if ours.others != theirs.others:
                return f"parameters and the like: gateway {ours.others}, PostgreSQL {theirs.others}"
        return "" if excused(Aspect.ROWS, it) or not with_rows else compared(it, ours.rows, theirs.rows)


def apart(answers: Sequence[Answer], looks: Sequence[bool]) -> List[Tuple[Answer, Tuple[bytes, ...]]]:
    """Returns for each statement its answer, and the rows behind it if they were asked for."""
    came = iter(answers)
    return [(next(came), next(came).rows if look else ()) for look in looks]


def compared(it: Statement, ours: Tuple[bytes, ...], theirs: Tuple[bytes, ...]) -> str:
    """Returns what is wrong with rows. Without ORDER BY their order counts for nothing, and with a limit then not which ones they are."""
    if ours == theirs:
        return ""
    if ";" in it.text or not ORDERED.search(COMMENT.sub(" ", it.text)):
        if sorted(ours) == sorted(theirs) or (len(ours) == len(theirs) and (it.most or CUT.search(it.text))):
            return ""
    return f"rows: gateway {readable(ours)}, PostgreSQL {readable(theirs)}"


def readable(rows: Iterable[bytes]) -> List[str]:
    """Returns rows as texts."""
    return ["|".join("NULL" if it is None else it.decode("latin-1") for it in wire.Message("D", row).values()) for row in rows]


def shortened(pair: Pair, found: Difference) -> Difference:
    """Returns a difference with as few tokens as it needs, and as few statements before it."""

    def tried(statement: Statement, before: Tuple[Statement, ...]) -> Optional[Difference]:
        pair.renew()
        if found.is_block:
            again = pair.serve_block([*before, statement])
            return again if again and again.what and len(again.before) == len(before) else None
        if any(pair.serve([it]) for it in before):
            return None  # the tables differ already
        again = pair.serve([statement])
        return Difference(again.statement, again.what, before) if again and again.what else None

    best = tried(found.statement, ()) or tried(found.statement, found.before)
    if best is None:
        return Difference(found.statement, f"{found.what} (not seen again)", found.before, found.is_block)
    for it in best.before:
        best = tried(best.statement, tuple(other for other in best.before if other is not it)) or best
    size = max(1, len(best.statement.tokens) // 2)
    while size:
        at = 0
        while at < len(best.statement.tokens):
            shorter = tried(best.statement.without(at, size), best.before)
            best, at = (shorter, at) if shorter else (best, at + size)
        size //= 2
    return best


# What a run finds: differences, how much was compared, and the seconds that it took.
Found = Tuple[List[Difference], Counts, float]
Act = Callable[[Gateway, int, float, int], Found]


def held_against_postgres(gateway: Gateway, seed: int, seconds: float, most: int = MOST_SHOWN, statements: float = math.inf) -> Found:
    """Serves so many statements, or for some seconds, and returns the differences, each once by its shape."""
    found: Dict[str, Difference] = {}
    with Postgres(
        "fsync=off", "synchronous_commit=off", "full_page_writes=off", "autovacuum=off", "standard_conforming_strings=on", "log_min_messages=panic"
    ) as postgres:
        pair = Pair(gateway.socket, postgres.socket)
        grammar = Grammar(random.Random(seed))
        begin, batches = time.monotonic(), 0
        while time.monotonic() - begin < seconds and len(found) < most and pair.counts.statements < statements:
            if batches % A_TABLE == 0:
                pair.renew()
            batches += 1
            blocks = (pair.serve_block(grammar.block()) for _ in range(A_BATCH // 8))
            difference = pair.serve([grammar.any() for _ in range(A_BATCH)]) or next((it for it in blocks if it), None)
            if difference:
                if difference.what:
                    counts, pair.counts = pair.counts, Counts()
                    difference = shortened(pair, difference)
                    pair.counts = counts
                    found.setdefault(shape(difference), difference)
                pair.renew()
        return list(found.values()), pair.counts, time.monotonic() - begin


def shape(difference: Difference) -> str:
    """Returns what is equal of differences that have one cause: the kinds of tokens of the statement, and what is wrong."""
    kinds = [re.sub(r"\d+", "0", it) if not it.startswith(("'", "$$", "E'", "e'")) else "'" for it in difference.statement.tokens]
    return " ".join(kinds) + difference.what.split(":")[0]


def expect_none(found: Sequence[Difference], counts: Counts, seconds: float, seed: int) -> None:
    """Fails, and shows each difference, if there is one."""
    print(counts.shown(seconds), file=sys.stderr, flush=True)
    if found:
        shown = "\n".join(it.shown() for it in found)
        raise AssertionError(f"{len(found)} differences, seed {seed}:\n{shown}")
    if counts.both < counts.statements // 20:
        raise AssertionError(f"both acted on too few statements: {counts.shown(seconds)}")


@PART.served
def as_postgres_does(gateway: Gateway) -> None:
    found, counts, seconds = held_against_postgres(gateway, SEED, SECONDS, statements=STATEMENTS)
    expect_none(found, counts, seconds, SEED)


def by_hand(act: Act, about: Optional[str], words: Sequence[str]) -> int:
    """Runs for minutes or hours, each quarter of an hour with a seed of its own, and prints what it finds."""
    parser = argparse.ArgumentParser(description=about, formatter_class=argparse.RawDescriptionHelpFormatter)
    parser.add_argument("--minutes", type=float, default=2.0)
    parser.add_argument("--seed", type=int, default=SEED)
    parser.add_argument("--most", type=int, default=200, help="the differences behind which a run ends")
    asked = parser.parse_args(words)
    end, seed, status = time.monotonic() + 60 * asked.minutes, asked.seed, 0
    while time.monotonic() < end:
        with Gateway() as gateway:
            found, counts, seconds = act(gateway, seed, min(900.0, end - time.monotonic()), asked.most)
        print(f"seed {seed}: {counts.shown(seconds)}")
        for it in found:
            status = 1
            print(it.shown(), flush=True)
        seed += 1
    return status


if __name__ == "__main__":
    if any(it.startswith("-") for it in sys.argv[1:]):
        sys.exit(by_hand(held_against_postgres, __doc__, sys.argv[1:]))
    main(PART)
