"""Statements at random: what the gateway accepts in all its forms, and then with tokens glued, doubled, dropped, swapped, quoted and cast.

A statement is a list of tokens with the blanks in front of them, so that a mutation and a search for the shortest text work on tokens. Its values may
be parameters of the extended protocol.
"""
from __future__ import annotations

import random
import re
import struct
from dataclasses import dataclass, replace
from decimal import Decimal
from enum import Enum
from typing import Callable, List, Optional, Sequence, Tuple

from clients import wire


class Role(Enum):
    """What a value is for."""

    WHOLE = "a whole number"
    EXACT = "a number with digits behind the point"
    WORDS = "a text"


@dataclass(frozen=True)
class Column:
    """A column as the grammar needs to know it."""

    name: str
    role: Role
    reservable: bool = False


@dataclass(frozen=True)
class Table:
    """A table that both servers have: its key is the first column, and `keys` are those of its rows."""

    name: str
    columns: Tuple[Column, ...]
    keys: Tuple[str, ...]
    ours: str
    theirs: str
    rows: Tuple[str, ...]

    @property
    def key(self) -> Column:
        return self.columns[0]

    def plain(self) -> List[Column]:
        """Returns the columns that an UPDATE sets to a value."""
        return [it for it in self.columns[1:] if not it.reservable]

    def reservable(self) -> List[Column]:
        """Returns the columns that an UPDATE reserves of."""
        return [it for it in self.columns if it.reservable]


# The server's INTEGER has 15 digits, and its columns hold neither NULL nor an empty text.
_BIG = "bigint NOT NULL CHECK ({0} BETWEEN -999999999999999 AND 999999999999999)"
STOCK = Table(
    "stock",
    (
        Column("id", Role.WHOLE),
        Column("pieces", Role.WHOLE, True),
        Column("held", Role.WHOLE, True),
        Column("price", Role.EXACT),
        Column("note", Role.WORDS),
    ),
    ("1", "2", "3", "5", "15"),
    "CREATE TABLE stock (id INTEGER PRIMARY KEY, pieces INTEGER RESERVABLE CONSTRAINT in_stock CHECK (pieces >= 0),"
    " held INTEGER RESERVABLE CHECK (held BETWEEN -50 AND 50), price NUMBER(8,2), note VARCHAR2(20), CONSTRAINT kept CHECK (held <= pieces + 40))",
    f"CREATE TABLE stock (id {_BIG.format('id')} PRIMARY KEY, pieces {_BIG.format('pieces')} CONSTRAINT in_stock CHECK (pieces >= 0),"
    " held bigint NOT NULL CHECK (held BETWEEN -50 AND 50), price numeric(8,2) NOT NULL, note varchar(20) NOT NULL CHECK (note <> ''),"
    " CONSTRAINT kept CHECK (held <= pieces + 40))",
    tuple(f"INSERT INTO stock VALUES ({key}, {key}0, 2, {key}.50, 'n{key}')" for key in (1, 2, 3, 5, 15)),
)
# An alias of one letter that is glued to `stock` names this one.
STOCKS = Table(
    "stocks",
    (Column("id", Role.WHOLE), Column("pieces", Role.WHOLE, True), Column("name", Role.WORDS)),
    ("1", "2", "15"),
    "CREATE TABLE stocks (id INTEGER PRIMARY KEY, pieces INTEGER RESERVABLE CHECK (pieces >= 0), name VARCHAR2(10))",
    f"CREATE TABLE stocks (id {_BIG.format('id')} PRIMARY KEY, pieces {_BIG.format('pieces')} CHECK (pieces >= 0),"
    " name varchar(10) NOT NULL CHECK (name <> ''))",
    tuple(f"INSERT INTO stocks VALUES ({key}, {key}1, 's{key}')" for key in (1, 2, 15)),
)
WORDED = Table(
    "t$1",
    (Column("k", Role.WORDS), Column("n", Role.EXACT, True), Column("m", Role.EXACT, True)),
    ("a", "b", "1"),
    "CREATE TABLE t$1 (k VARCHAR2(8) PRIMARY KEY, n NUMBER(8,2) RESERVABLE CHECK (n >= -100.50), m NUMBER(4,1) RESERVABLE,"
    " CONSTRAINT sum CHECK (n + m <= 900))",
    "CREATE TABLE t$1 (k varchar(8) PRIMARY KEY CHECK (k <> ''), n numeric(8,2) NOT NULL CHECK (n >= -100.50), m numeric(4,1) NOT NULL,"
    " CONSTRAINT sum CHECK (n + m <= 900))",
    tuple(f"INSERT INTO t$1 VALUES ('{key}', {at}.25, -{at}.5)" for at, key in enumerate(("a", "b", "1"))),
)
TABLES = (STOCK, STOCKS, WORDED)
# The name of the table that statements create, and what a server calls PostgreSQL's types.
MADE = "made"
RESERVABLE = "RESERVABLE"
NOT_THEIRS = re.compile(r"(?<!['\"$])\bRESERVABLE\b(?!['\"$])", re.IGNORECASE)


@dataclass(frozen=True)
class Parameter:
    """A value of the extended protocol: its text, the oid of its type as Parse declares it, and whether Bind sends it in binary."""

    value: Optional[str]
    oid: int
    role: Role
    binary: bool

    def encoded(self) -> Optional[bytes]:
        """Returns the value as Bind sends it."""
        if self.value is None:
            return None
        if not self.binary:
            return self.value.encode()
        if self.oid in (wire.INT2, wire.INT4, wire.INT8):
            size = {wire.INT2: 2, wire.INT4: 4, wire.INT8: 8}[self.oid]
            return int(Decimal(self.value)).to_bytes(size, "big", signed=True)
        if self.oid == wire.NUMERIC or (self.oid == wire.UNSPECIFIED and self.role is Role.EXACT):
            return numeric(Decimal(self.value))
        if self.oid == wire.UNSPECIFIED and self.role is Role.WHOLE:
            return int(Decimal(self.value)).to_bytes(8, "big", signed=True)
        return self.value.encode()


def numeric(value: Decimal) -> bytes:
    """Returns a number as PostgreSQL's `numeric` in binary."""
    sign, digits, exponent = value.as_tuple()
    assert isinstance(exponent, int)
    scale = max(0, -exponent)
    whole = "".join(map(str, digits)) + "0" * max(0, exponent)
    before, behind = (whole[: len(whole) - scale], whole[len(whole) - scale :]) if scale else (whole, "")
    before = "0" * (max(0, scale - len(whole))) + before if not before else before
    behind = behind.rjust(scale, "0")
    before = before.rjust(-(-len(before) // 4) * 4, "0")
    behind = behind.ljust(-(-len(behind) // 4) * 4, "0")
    groups = [int((before + behind)[at : at + 4]) for at in range(0, len(before + behind), 4)]
    weight = len(before) // 4 - 1
    while groups and groups[0] == 0:
        groups.pop(0)
        weight -= 1
    while groups and groups[-1] == 0:
        groups.pop()
    return struct.pack("!hhHh", len(groups), weight if groups else 0, 0x4000 if sign else 0, scale) + b"".join(struct.pack("!h", it) for it in groups)


@dataclass(frozen=True)
class Statement:
    """Tokens with the blanks in front of them, and how they are sent: as a simple query, or with parameters."""

    tokens: Tuple[str, ...]
    blanks: Tuple[str, ...]
    parameters: Tuple[Parameter, ...] = ()
    extended: bool = False
    result: int = wire.TEXT
    most: int = wire.NO_ROW_LIMIT

    @property
    def text(self) -> str:
        return "".join(blank + token for blank, token in zip(self.blanks, self.tokens))

    @property
    def text_of_theirs(self) -> str:
        """Returns it as PostgreSQL can read it: RESERVABLE alone is missing there."""
        return NOT_THEIRS.sub("", self.text)

    @property
    def text_without_comments(self) -> str:
        """Returns it with plain blanks in place of comments between tokens, without RESERVABLE."""
        return replace(self, blanks=tuple(" " if "/*" in it or "--" in it else it for it in self.blanks)).text_of_theirs

    def without(self, at: int, count: int = 1) -> Statement:
        """Returns it without some tokens."""
        return replace(self, tokens=self.tokens[:at] + self.tokens[at + count :], blanks=self.blanks[:at] + self.blanks[at + count :])

    def messages(self, text: str) -> bytes:
        """Returns the messages that run a text as this statement is run."""
        if not self.extended:
            return wire.query(text)
        bound = wire.bind([it.encoded() for it in self.parameters], formats=[int(it.binary) for it in self.parameters], results=[self.result])
        types = [it.oid for it in self.parameters]
        return wire.parse(text, types=types) + wire.describe_statement() + bound + wire.describe_portal() + wire.execute(most=self.most) + wire.sync()

    def shown(self) -> str:
        """Returns it for a reader: the text, and how it is sent."""
        if not self.extended:
            return repr(self.text)
        values = [f"{it.value!r}:{it.oid}{':binary' if it.binary else ''}" for it in self.parameters]
        return f"{self.text!r} with {values}" + (", result in binary" if self.result else "") + (f", at most {self.most} rows" if self.most else "")


# Below, tokens are written with a blank between them. A blank and a line feed within a token are written so:
BLANK, LINE = "\u2423", "\u2424"
# Mutations replace words by these, and put these between tokens.
STRANGE = (
    'a s x "stock" "Stock" STOCK stock stocks public . , ( ) ; = < <> == - + * / :: : 1 1. .5 1..5 1e2 0x1 1_0 1a $1 $2 $1$2 $0 \' '
    '\'\' \'a\' E\'a\' e\'\\\' U&\'a\' N\'a\' B\'1\' X\'1\' $$ $$a$$ $a$b$a$ " "" -- /* */ NULL DEFAULT TRUE AND OR NOT IN IS AS FROM WHERE SET '
    'INTO VALUES ONLY ALL DISTINCT LIMIT OFFSET ORDER BY ASC DESC id pieces n int numeric varchar text CAST COLLATE AT [ ] { \\ @ # '
    '% ^ & | ~ ! ? ` ä'
).split(" ") + ["\u00a0", "\x0b", "\x0c"]
BLANKS = [" ", " ", " ", " ", "\n", "\t", "  ", "\r\n", " /* c */ ", "/**/", " -- c\n", "\f", " /* a /* b */ c */ "]
TIGHT = set("()=,;*+<>.[]") | {"::"}
CASTS = (
    "int bigint smallint numeric numeric(5,1) numeric(4) decimal(6,2) text varchar varchar(3) char(2) integer int4 int8 int2 pg_catalog.int4".split()
)


def forms(text: str) -> List[str]:
    """Returns the ways to write something that a text lists, with ` | ` or a line feed between them."""
    return [it.strip() for line in text.strip().split("\n") for it in line.split(" | ")]


def tokens_of(text: str) -> List[str]:
    """Returns the tokens of a text that has a blank between them."""
    return [it.replace(BLANK, " ").replace(LINE, "\n") for it in text.split(" ") if it]


# The forms of a value: {v} is the value as it is, {cast} a type.
VALUES = {
    Role.WHOLE: forms(
        r"""
        '{v}' | {v} :: {cast} | '{v}' :: {cast} | CAST ( {v} AS {cast} ) | ( {v} ) | + {v} | - {v} | {v}.0 | {v}.5 | int '{v}' | 0{v}
        {v}e0 | {v}. | 0x{v} | '␣{v}␣' | E'{v}' | $${v}$$ | {v} + 1 | NULL | ( ( {v} ) ) | - - {v} | '{v}' :: bigint :: text
        '{v}.55' :: numeric(5,1) | 99999999999999999999 | - {v} :: {cast} | ( - {v} ) :: {cast} | bigint '{v}' | {v} * 1
        """
    ),
    Role.EXACT: forms(
        r"""
        '{v}' | {v} :: {cast} | '{v}' :: {cast} | - {v} | .5 | 2. | 2.555 | 1e1 | CAST ( {v} AS {cast} ) | ( {v} ) | numeric '{v}' | '1e1'
        'NaN' | - 2.55 :: int | ( - 2.55 ) :: int | 2.50000 | 1.5e-1 | {v} :: numeric :: numeric(6,1) | + {v} | - - {v}
        """
    ),
    Role.WORDS: forms(
        r"""
        'it''s' | E'{v}\n' | E'\x41\102' | E'\u0041' | e'{v}\'x' | $${v}$$ | $q${v}$q$ | '{v}' :: {cast} | CAST ( '{v}' AS {cast} )
        U&'\0061{v}' | N'{v}' | text '{v}' | '{v}' 'x' | '' | 'ä' | 'xxxxxxxxxxxxxxxxxxxx' | 'xxxxxxxxxxxxxxxxxxxxx' | 5 | B'1' | NULL
        ( '{v}' ) | '{v}' || 'x' | 'a\b' | varchar(2) '{v}' | '{v}'␤'x' | E'{v}'␤'\x41'
        """
    ),
}
# What a RESERVABLE column becomes: {n} is the column, {s} a sign, {v} an amount.
CHANGES = forms(
    r"""
    ( {n} {s} {v} ) | {v} + {n} | {n} {s} ( {v} ) | {n} {s} - {v} | {n} {s} {v} + 1 | {n} | {v} | {n} * 2 | COALESCE ( {n} , 0 ) {s} {v}
    - {v} + {n} | {v} - {n} | {n} {s} {v} :: {cast} | ( {n} ) {s} {v} | {n} {s} '1' | held {s} {v}
"""
)
# Conditions beside `key = value`, which is {e}: {k} is the key, {c} a column.
CONDITIONS = forms(
    r"""
    {e} AND {c} = 1 | {e} OR {c} = 1 | {c} = 'a' | {k} IS NULL | NOT {e} | TRUE | {k} > 1 | {k} = {k} | {k} = ANY ( '{{1,2}}' )
    {e} AND {e} | ( {e} ) IS TRUE | {k} BETWEEN 1 AND 2
"""
)
# What is selected beside columns: {k} is the key; and what names a column of a result.
LISTS = forms(
    r"""
    count ( * ) | count ( * ) AS c | COUNT ( {k} ) | count ( 1 ) | 1 | 1 AS a | 1 AS "a" | 1 one | 'x' | NULL | 1 , 2 | TRUE | ( 1 ) AS "a"
    {k} + 1 | max ( {k} ) | DISTINCT {k}
"""
)
NAMED = forms(
    r"""
    AS c | c | AS "C␣d" | AS id | AS order
"""
)
ORDERS = ["", "", *forms("ASC | DESC | DESC NULLS LAST | ASC NULLS FIRST | USING <")]
CUTS = forms(
    r"""
    LIMIT 2 | LIMIT 2 OFFSET 1 | OFFSET 1 | LIMIT {v} | LIMIT ALL | FETCH FIRST 2 ROWS ONLY | OFFSET 1 ROWS | LIMIT 0 | OFFSET 1 LIMIT 1
    LIMIT - 1 | LIMIT 1.5 | LIMIT NULL | FETCH NEXT ROW ONLY | LIMIT '1' | LIMIT 1 + 1
"""
)
LOCKS = forms(
    r"""
    FOR UPDATE | FOR UPDATE NOWAIT | FOR SHARE | FOR NO KEY UPDATE | FOR UPDATE OF {q} | FOR UPDATE SKIP LOCKED
"""
)
# Conditions of a CHECK: {n} is a column, {m} the last one.
CHECKS = forms(
    r"""
    {n} >= 0 | {n} <= 100 | {n} BETWEEN - 5 AND 100 | {n} + {m} < 200 | 2 * {n} >= - 9 | 0 <= {n} | ( {n} >= 0 ) | {n} > -1.5 | {n} >= -1..5
    {n} <> 7 | {n} >= 0 AND {n} <= 90 | ( {n} ) >= 0 | {n} >= '0' | {n} >= 0 :: int | {n} = {n}
"""
)
TYPES = forms(
    r"""
    INT | BIGINT | SMALLINT | INTEGER | NUMERIC ( 8 , 2 ) | DECIMAL ( 6 , 1 ) | NUMERIC ( 6 ) | NUMERIC | DECIMAL | int8 | int4
    NUMERIC ( 6 , 0 )
"""
)
TEXT_TYPES = forms(
    r"""
    VARCHAR ( 20 ) | TEXT | character varying ( 9 ) | varchar | CHAR ( 3 )
"""
)
CONSTRAINTS = forms('in_stock | kept | added | nothing | "IN_STOCK"')
DROPS = forms(
    r"""
    {t} | public . {t} | {t} CASCADE | {t} RESTRICT | nothing | {t} , nothing
"""
)
# Statements on the table that is created now and then, with values that fit all types: {k} is a key.
WITH_MADE = forms(
    r"""
    SELECT * FROM {t} | INSERT INTO {t} ( id , n ) VALUES ( {k} , 5 ) | INSERT INTO {t} ( id , n ) VALUES ( {k} , -1 )
    INSERT INTO {t} VALUES ( {k} , 5 , 5 , 'ab' ) | INSERT INTO {t} VALUES ( {k} , 7 ) | INSERT INTO {t} VALUES ( {k} , 7 , 'a' )
    UPDATE {t} SET n = n - 1 WHERE id = {k} | UPDATE {t} SET n = n + 60 WHERE id = {k} | DELETE FROM {t} WHERE id = {k}
    SELECT id , n FROM {t} WHERE id = {k} | INSERT INTO {t} VALUES ( {k} , 7 , 8 )
"""
)
# What clients ask without a table.
ASKED = [
    "",
    *forms(
        r"""
    SELECT 1 | SELECT 1 AS one | SELECT 1 + 1 AS result | SELECT 'x' | SELECT current_schema ( ) | SELECT current_database ( )
    SELECT * FROM current_schema ( ) | SHOW standard_conforming_strings | SHOW transaction_isolation | SET client_min_messages = 'warning'
    SET application_name TO x | SELECT NULL | SELECT - 1 | SELECT $1 :: int | SHOW server_encoding | RESET application_name | SELECT 1.5
    SELECT pg_advisory_unlock_all ( ) | CLOSE ALL | UNLISTEN * | SELECT 1 WHERE true
    SELECT set_config ( 'application_name' , 'x' , true ) | SET ROLE NONE | SELECT '1' :: int AS a
"""
    ),
]
# A block: how it begins, what is in it beside statements, and how it ends. {a} is a savepoint, {c} a cursor, {q} a query.
BEGINS = forms(
    """
    BEGIN | BEGIN | BEGIN WORK | BEGIN TRANSACTION | START TRANSACTION | BEGIN ISOLATION LEVEL READ COMMITTED | BEGIN READ WRITE | BEGIN READ ONLY
    START TRANSACTION ISOLATION LEVEL REPEATABLE READ | BEGIN ISOLATION LEVEL READ COMMITTED , READ WRITE | BEGIN NOT DEFERRABLE
"""
)
INSIDE = forms(
    """
    SAVEPOINT {a} | ROLLBACK TO {a} | ROLLBACK TO SAVEPOINT {a} | RELEASE {a} | RELEASE SAVEPOINT {a} | BEGIN | SAVEPOINT {a} | ROLLBACK WORK TO {a}
    DECLARE {c} CURSOR FOR {q} | DECLARE {c} CURSOR FOR {q} | DECLARE {c} NO SCROLL CURSOR WITHOUT HOLD FOR {q} | DECLARE {c} CURSOR WITH HOLD FOR {q}
    DECLARE {c} SCROLL CURSOR FOR {q} | DECLARE {c} BINARY CURSOR FOR {q} | FETCH {c} | FETCH 2 FROM {c} | FETCH FORWARD 2 FROM {c} | FETCH ALL FROM {c}
    FETCH FORWARD ALL FROM {c} | FETCH NEXT FROM {c} | FETCH 0 FROM {c} | FETCH PRIOR FROM {c} | FETCH -1 FROM {c} | MOVE 1 FROM {c} | FETCH ABSOLUTE 1 FROM {c}
    CLOSE {c} | CLOSE ALL | SET LOCAL application_name = 'x' | SET TRANSACTION READ ONLY | SHOW transaction_read_only | COMMIT AND CHAIN | ROLLBACK AND CHAIN
    SET TRANSACTION ISOLATION LEVEL READ COMMITTED | DISCARD ALL | PREPARE p AS {q} | EXECUTE p | DEALLOCATE p
"""
)
ENDS = forms("COMMIT | COMMIT | COMMIT WORK | END | COMMIT TRANSACTION | ROLLBACK | ABORT | ROLLBACK WORK | COMMIT AND NO CHAIN | END TRANSACTION")


class Grammar:
    """Makes statements by a generator of random numbers."""

    def __init__(self, chance: random.Random) -> None:
        self.chance = chance
        self.parameters: List[Parameter] = []
        self.extended = False

    def one_in(self, count: int) -> bool:
        return self.chance.random() * count < 1

    def of(self, *ways: str) -> str:
        """Returns one of several ways to write something."""
        return self.chance.choice(ways)

    def maybe(self, count: int, words: str) -> str:
        """Returns words, with a blank behind them, once in so many times."""
        return f"{words} " if self.one_in(count) else ""

    # Names

    def cased(self, name: str) -> str:
        """Returns a name as people write it, at times as another name."""
        turn = self.chance.randrange(30)
        return {0: f'"{name}"', 1: name.upper(), 2: f'"{name.upper()}"'}.get(turn, name)

    def table_name(self, table: Table) -> str:
        turn = self.chance.randrange(24)
        before = {0: "public . ", 1: "bank . public . ", 2: self.of("pg_catalog", "other", '"public"', "PUBLIC") + " . "}.get(turn, "")
        return before + self.cased(table.name)

    def named(self, table: Table) -> Tuple[str, str]:
        """Returns a table, perhaps with an alias, and the name that qualifies its columns."""
        name = self.table_name(table)
        if not self.one_in(4):
            return name, table.name
        alias = self.of("s", "a", "x", table.name, '"S"', "b")
        return f"{name} {self.maybe(2, 'AS')}{alias}", alias

    def column(self, name: str, qualifier: str) -> str:
        turn = self.chance.randrange(48)
        if turn < 4:
            return f"{qualifier} . {self.cased(name)}"
        return f"{self.of('public', 'nothing', 'stock')} . {name}" if turn == 4 else self.cased(name)

    # Values

    def parameter(self, value: str, role: Role) -> str:
        """Makes a value a parameter. Sometimes its type does not fit."""
        oids = {
            Role.WHOLE: [wire.UNSPECIFIED, wire.INT8, wire.INT4, wire.INT2, wire.NUMERIC],
            Role.EXACT: [wire.UNSPECIFIED, wire.NUMERIC, wire.NUMERIC, wire.INT8],
            Role.WORDS: [wire.UNSPECIFIED, wire.STRING, wire.VARCHAR],
        }[role]
        oid = self.chance.choice(oids)
        whole = oid in (wire.INT2, wire.INT4, wire.INT8)
        given = None if self.one_in(60) else str(int(Decimal(value))) if whole else value.replace(BLANK, " ")
        self.parameters.append(Parameter(given, oid, role, self.one_in(2)))
        return f"${len(self.parameters)}" + (f" :: {self.of(*CASTS)}" if self.one_in(8) else "")

    def value(self, role: Role, value: str) -> str:
        """Returns a value in one of its forms: as a constant, with a cast, or as a parameter."""
        if self.extended and not self.one_in(3):
            return self.parameter(value, role)
        if self.one_in(4):
            return self.of(*VALUES[role]).format(v=value, cast=self.of(*CASTS))
        return f"'{value}'" if role is Role.WORDS else value

    def of_key(self, table: Table) -> str:
        """Returns a key, mostly of a row that exists."""
        if table.key.role is Role.WORDS:
            return self.of(*table.keys, "c", "d")
        return self.of(*table.keys, *table.keys, "7", "8", "9", "15")

    def fresh(self, column: Column) -> str:
        """Returns a value for a column."""
        if column.role is Role.WORDS:
            return self.of("a", "tea", "b1", f"x{BLANK}y")
        if column.role is Role.EXACT:
            return self.of("1.5", "2", "0.25", "3.50", "0")
        return self.of("1", "2", "3", "5", "0", "10")

    # Parts of statements

    def where(self, table: Table, qualifier: str) -> str:
        def key() -> str:
            return self.column(table.key.name, qualifier)

        def value() -> str:
            return self.value(table.key.role, self.of_key(table))

        turn = self.chance.randrange(20)
        if turn < 14:
            found = f"{key()} = {value()}"
        elif turn < 17:
            found = f"{key()} IN ( {' , '.join(value() for _ in range(self.chance.randrange(1, 5)))} )"
        elif turn == 17:
            found = f"{value()} = {key()}"
        else:
            found = self.of(*CONDITIONS).format(e=f"{key()} = {value()}", k=table.key.name, c=self.chance.choice(table.columns).name)
        return f"WHERE ( {found} )" if self.one_in(8) else f"WHERE {found}"

    def listed(self, table: Table, qualifier: str) -> str:
        """Returns a list of columns of a result."""
        turn = self.chance.randrange(12)
        if turn < 4:
            return "*" if turn else f"{qualifier} . *"
        if turn < 6:
            return self.of(*LISTS).format(k=table.key.name)
        names = [self.column(self.chance.choice(table.columns).name, qualifier) for _ in range(self.chance.randrange(1, 4))]
        return " , ".join(f"{name} {self.of(*NAMED)}" if self.one_in(5) else name for name in names)

    def returning(self, table: Table, qualifier: str) -> str:
        return f" RETURNING {self.listed(table, qualifier)}" if self.one_in(6) else ""

    # Statements

    def select(self) -> str:
        table = self.chance.choice(TABLES)
        name, qualifier = self.named(table)
        found = [f"SELECT {self.listed(table, qualifier)} FROM {name}"]
        if not self.one_in(4):
            found.append(self.where(table, qualifier))
        if self.one_in(4):
            by = self.of("1", "2", table.columns[1].name, "c") if self.one_in(6) else self.column(table.key.name, qualifier)
            found.append(f"ORDER BY {by} {self.of(*ORDERS)}".rstrip())
        if self.one_in(5):
            found.append(self.of(*CUTS).format(v=self.value(Role.WHOLE, "1")))
        if self.one_in(10):
            found.append(self.of(*LOCKS).format(q=qualifier))
        return " ".join(found)

    def insert(self) -> str:
        table = self.chance.choice(TABLES)
        alias = self.one_in(12)
        columns = list(table.columns)
        listed = ""
        if self.one_in(2):
            if self.one_in(4):
                self.chance.shuffle(columns)
            listed = f" ( {' , '.join(self.cased(it.name) for it in columns)} )"

        def value(it: Column) -> str:
            return "DEFAULT" if self.one_in(60) else self.value(it.role, self.of_key(table) if it is table.key else self.fresh(it))

        rows = [f"( {' , '.join(value(it) for it in columns)} )" for _ in range(self.chance.choice([1, 1, 1, 1, 2, 3]))]
        returning = self.returning(table, "z" if alias else table.name)
        return f"INSERT INTO {self.table_name(table)}{' AS z' if alias else ''}{listed} VALUES {' , '.join(rows)}{returning}"

    def change(self, column: Column, qualifier: str) -> str:
        """Returns what a RESERVABLE column becomes."""
        form = self.of(*CHANGES) if self.one_in(4) else "{n} {s} {v}"
        amount = self.value(column.role, self.fresh(column))
        return form.format(n=self.column(column.name, qualifier), s=self.of("+", "-"), v=amount, cast=self.of(*CASTS))

    def update(self) -> str:
        table = self.chance.choice(TABLES)
        name, qualifier = self.named(table)
        plain, reservable = table.plain(), table.reservable()
        if plain and self.one_in(3):
            chosen = self.chance.sample(plain, self.chance.randrange(1, len(plain) + 1))
            sets = [(self.cased(it.name), self.value(it.role, self.fresh(it))) for it in chosen]
        else:
            chosen = self.chance.sample(reservable, self.chance.choice([1, 1, 1, len(reservable)]))
            sets = [(self.cased(it.name), self.change(it, qualifier)) for it in chosen]
            if plain and self.one_in(15):
                sets.append((plain[0].name, self.value(plain[0].role, self.fresh(plain[0]))))
        if self.one_in(20):
            names, values = (" , ".join(side) for side in zip(*sets))
            assigned = f"( {names} ) = {self.maybe(3, 'ROW')}( {values} )"
        else:
            assigned = " , ".join(f"{column} = {value}" for column, value in sets)
        where = "" if self.one_in(15) else f" {self.where(table, qualifier)}"
        return f"UPDATE {name} SET {assigned}{where}{self.returning(table, qualifier)}"

    def delete(self) -> str:
        table = self.chance.choice(TABLES)
        name, qualifier = self.named(table)
        where = "" if self.one_in(15) else f" {self.where(table, qualifier)}"
        return f"DELETE FROM {self.maybe(20, 'ONLY')}{name}{where}{self.returning(table, qualifier)}"

    def check(self, columns: Sequence[str], name: str) -> str:
        condition = self.of(*CHECKS).format(n=self.chance.choice(columns), m=columns[-1])
        return f"{self.maybe(2, f'CONSTRAINT {name}')}CHECK ( {condition} )"

    def create(self) -> str:
        apart = self.one_in(4)
        key = "" if apart else f" {self.maybe(6, 'CONSTRAINT pk')}PRIMARY KEY{' NOT NULL' if self.one_in(5) else ''}"
        items = [f"id {self.of(*TYPES)}{key}"]
        names = ["n", "m"][: self.chance.choice([1, 2])]
        for it in names:
            null = " NOT NULL" if self.one_in(3) else ""
            items.append(f"{it} {self.of(*TYPES)} {RESERVABLE}{null}" + (f" {self.check([it], 'c' + it)}" if self.one_in(2) else ""))
        if self.one_in(2):
            items.append(f"note {self.of(*TEXT_TYPES)}")
        if apart:
            items.append(f"{self.maybe(2, 'CONSTRAINT pk')}PRIMARY KEY ( id )")
        if self.one_in(3):
            items.append(self.check(names, "whole"))
        return f"CREATE TABLE {self.maybe(4, 'IF NOT EXISTS')}{self.maybe(10, 'public .')}{self.cased(MADE)} ( {' , '.join(items)} )"

    def alter(self) -> str:
        table = self.chance.choice([STOCK, STOCKS])
        found = f"ALTER TABLE {self.maybe(8, 'IF EXISTS')}{self.maybe(8, 'ONLY')}{self.table_name(table)}"
        if self.one_in(3):
            return f"{found} DROP CONSTRAINT {self.maybe(5, 'IF EXISTS')}{self.of(*CONSTRAINTS)}"
        return f"{found} ADD {self.check([it.name for it in table.reservable()], 'added')}"

    def drop(self) -> str:
        return f"DROP TABLE {self.maybe(2, 'IF EXISTS')}{self.of(*DROPS).format(t=MADE)}"

    def with_made(self) -> str:
        return self.of(*WITH_MADE).format(t=MADE, k=self.of("1", "2", "3"))

    def asked(self) -> str:
        return self.of(*ASKED)

    def several(self) -> str:
        """Returns several statements of one message."""
        return " ; ".join(self.chance.choice([self.update, self.update, self.select])() for _ in range(self.chance.randrange(2, 4)))

    # The whole

    def statement(self) -> Statement:
        """Returns a statement as a client would write it."""
        self.parameters, self.extended = [], self.one_in(3)
        turn = self.chance.randrange(100)
        text = next(way for limit, way in self.ways() if turn < limit)()
        tokens = tokens_of(text)
        if self.one_in(6):
            tokens.append(";")
        result = wire.BINARY if self.extended and self.one_in(3) else wire.TEXT
        most = 1 if self.extended and self.one_in(12) else wire.NO_ROW_LIMIT
        return Statement(tuple(tokens), tuple(self.blanks(tokens)), tuple(self.parameters), self.extended, result, most)

    def block(self) -> List[Statement]:
        """Returns the statements of a block, at times with one that is mutated."""

        def plain(text: str) -> Statement:
            tokens = tokens_of(text)
            return Statement(tuple(tokens), tuple(self.blanks(tokens)), extended=self.one_in(4))

        def inside() -> Statement:
            if self.one_in(2):
                query = f"SELECT * FROM {self.of('stock', 'stocks')}{self.of('', ' WHERE id = 1', ' ORDER BY id', ' ORDER BY id DESC LIMIT 2')}"
                return plain(self.of(*INSIDE).format(a=self.of("a", "b", '"B"'), c=self.of("c", "d"), q=query))
            self.parameters, self.extended = [], self.one_in(3)
            tokens = tokens_of(self.chance.choice([self.update, self.update, self.select, self.insert, self.asked])())
            return Statement(tuple(tokens), tuple(self.blanks(tokens)), tuple(self.parameters), self.extended)

        found = [plain(self.of(*BEGINS)), *(inside() for _ in range(self.chance.randrange(1, 7))), plain(self.of(*ENDS))]
        if self.one_in(3):
            at = self.chance.randrange(len(found))
            found[at] = self.mutated(found[at])
        return found

    def ways(self) -> Sequence[Tuple[int, Callable[[], str]]]:
        """Returns what statements are made of, each up to a number of 100."""
        return (
            (28, self.select),
            (56, self.update),
            (72, self.insert),
            (84, self.delete),
            (87, self.create),
            (89, self.alter),
            (90, self.drop),
            (94, self.with_made),
            (97, self.asked),
            (100, self.several),
        )

    def blanks(self, tokens: Sequence[str]) -> List[str]:
        """Returns what separates tokens: none where none is needed and the writer saves it, at times a comment or a line."""
        found = []
        for at, token in enumerate(tokens):
            tight = at > 0 and (token in TIGHT or tokens[at - 1] in TIGHT)
            if at == 0 or (tight and self.one_in(2)):
                found.append("")
            else:
                found.append(self.chance.choice(BLANKS) if self.one_in(12) else " ")
        return found

    def mutated(self, it: Statement) -> Statement:
        """Returns a statement with one token glued, doubled, dropped, swapped, quoted, cast or replaced."""
        if not it.tokens:
            return it
        tokens, blanks = list(it.tokens), list(it.blanks)
        at = self.chance.randrange(len(tokens))
        turn = self.chance.randrange(12)
        if turn in (0, 1):
            blanks[at] = ""
        elif turn == 2:
            tokens.insert(at, tokens[at])
            blanks.insert(at, self.chance.choice([" ", "", "\n"]))
        elif turn == 3:
            del tokens[at], blanks[at]
        elif turn == 4:
            other = self.chance.randrange(len(tokens))
            tokens[at], tokens[other] = tokens[other], tokens[at]
        elif turn == 5:
            tokens[at] = self.of('"{}"', "'{}'", "$${}$$", "E'{}'").replace("{}", tokens[at])
        elif turn == 6:
            tokens[at + 1 : at + 1], blanks[at + 1 : at + 1] = ["::", self.of(*CASTS)], ["", ""]
        elif turn == 7:
            tokens[at] = self.chance.choice(STRANGE)
        elif turn in (8, 9):
            tokens.insert(at, self.chance.choice(STRANGE))
            blanks.insert(at, self.chance.choice([" ", "", ""]))
        elif turn == 10:
            last = self.chance.randrange(at, len(tokens))
            tokens[last + 1 : last + 1], blanks[last + 1 : last + 1] = [")"], [""]
            tokens.insert(at, "(")
            blanks.insert(at, " ")
        else:
            cut = self.chance.randrange(len(tokens[at]) + 1)
            tokens[at : at + 1], blanks[at : at + 1] = [tokens[at][:cut], tokens[at][cut:]], [blanks[at], self.chance.choice([" ", "", "/**/"])]
        return replace(it, tokens=tuple(tokens), blanks=tuple(blanks))

    def any(self, most: int = 4) -> Statement:
        """Returns a statement: half of them as clients would write them, the others with one to `most` mutations."""
        it = self.statement()
        for _ in range(self.chance.choice([0, 0, 0, 0, 1, 1, 1, self.chance.randrange(1, most + 1)])):
            it = self.mutated(it)
        return it
