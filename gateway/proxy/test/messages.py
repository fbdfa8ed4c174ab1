"""Sessions of messages whose order or whose contents are unusual. PostgreSQL says what each of them does."""
from __future__ import annotations

import struct
from typing import Dict, Sequence, Tuple

from clients.wire import (BINARY, bind, close_portal, close_statement, describe_portal, describe_statement, execute, message, parse, query,
                          sync)

# What is sent at once, and how many ReadyForQuery answer it.
Step = Tuple[int, Sequence[bytes]]


def at_once(*messages: bytes) -> Step:
    """Returns messages with a Sync behind them."""
    return 1, [*messages, sync()]


def ran(text: str) -> Sequence[bytes]:
    """Returns messages that run a text without a Sync."""
    return parse(text), bind(), execute()


TAKE = "UPDATE stock SET pieces = pieces - 1 WHERE id = 1"
OTHER = "UPDATE stock SET pieces = pieces - 2 WHERE id = 2"
TITLE = "UPDATE stock SET title = 'prepared' WHERE id = 2"
LARGE = "x" * 70_000
# PostgreSQL compares so much of a name.
LONG = "n" * 63
PREPARED = at_once(parse(TAKE, "s"))
BOUND = at_once(parse(TAKE, "s"), bind(name="s", portal="p"))
RUNS = at_once(bind(name="s"), execute())
GOES_ON = execute("p"), sync()

# What a name means is known once all in front of it is answered.
NAMES: Dict[str, Sequence[Step]] = {
    "a Parse that fails": (PREPARED, (2, [parse(OTHER, "s"), sync(), bind(name="s"), execute(), sync()])),
    "another statement of the name": (PREPARED, at_once(*ran("DEALLOCATE s"), *ran(f"PREPARE s AS {TITLE}"), bind(name="s"), execute())),
    "a Close": (PREPARED, at_once(close_statement("s"), bind(name="s"), execute())),
    "DISCARD ALL": (PREPARED, (2, [query("DISCARD ALL"), bind(name="s"), execute(), sync()])),
    "a DEALLOCATE that fails": (at_once(parse(TAKE, "s"), parse(OTHER, "t")), (2, [query("DEALLOCATE u"), query("DEALLOCATE s")]),
                                (1, [query(f"PREPARE s AS {TITLE}")]), RUNS, at_once(bind(name="t"), execute())),
    "a portal behind its Sync": ((2, [parse(TAKE, "s"), bind(name="s", portal="p"), sync(), *GOES_ON]),),
    "a portal of a ROLLBACK": ((1, [query("BEGIN")]), BOUND, (2, [query("ROLLBACK"), *GOES_ON])),
    "a portal of a ROLLBACK TO": ((1, [query("BEGIN; SAVEPOINT a")]), BOUND, (2, [query("ROLLBACK TO a"), *GOES_ON]), (1, [query("COMMIT")])),
    "a portal that CLOSE has closed": ((1, [query("BEGIN")]), BOUND, at_once(*ran("CLOSE p"), *ran("DECLARE p CURSOR FOR SELECT 7"), execute("p")),
                                       (1, [query("COMMIT")])),
    "none behind an UPDATE": (at_once(parse(OTHER)), (1, [query(TAKE)]), at_once(bind(), execute())),
    "none behind a string": (at_once(parse("SELECT 1")), (1, [query(f"{TAKE}; SELECT 2")]), at_once(bind(), execute())),
    "statements that begin alike": (at_once(parse(TAKE, f"{LONG}1")), at_once(close_statement(f"{LONG}2")), at_once(parse("SELECT 7", f"{LONG}3")),
                                    at_once(bind(name=f"{LONG}1"), execute())),
    "portals that begin alike": ((1, [query("BEGIN")]), at_once(parse(TAKE, "s"), bind(name="s", portal=f"{LONG}1"), close_portal(f"{LONG}2")),
                                 at_once(parse("SELECT 7"), bind(portal=f"{LONG}2"), execute(f"{LONG}1")), (1, [query("COMMIT")])),
    "a portal of another table": ((2, [query("CREATE TEMP TABLE stock AS SELECT 1 AS id, 9 AS pieces"), query("BEGIN")]),
                                  at_once(parse(TAKE, "s"), bind(name="s", portal="p")), (1, [query("SET search_path = public, pg_temp")]),
                                  at_once(execute("p")), (2, [query("COMMIT"), query("SELECT pieces FROM pg_temp.stock")])),
    "a portal of another table in a pipeline": (
        (1, [query("CREATE TEMP TABLE stock AS SELECT 1 AS id, 9 AS pieces")]),
        at_once(parse(TAKE, "s"), bind(name="s", portal="p"), *ran("SET search_path = public, pg_temp"), execute("p")),
        (1, [query("SELECT pieces FROM pg_temp.stock")])),
    "a Flush with a body": ((1, [message("H", b"x"), query(TAKE), sync()]),),
    "a large error": ((1, [parse(f"SELECT '{LARGE}'::int"), parse(TAKE, "s"), bind(name="s"), execute(), sync()]), (1, [query(TAKE)])),
    "a Query that is skipped": ((1, [parse("SELECT FROM nothing"), query(TAKE), sync()]),),
    "an UPDATE amid a COPY": ((1, [query("COPY taken FROM STDIN"), query(TAKE)]),),
    "a string that is skipped": ((1, [parse("SELECT FROM nothing"), query(f"{TAKE}; SELECT 2"), sync()]),),
}

OFF = "SET standard_conforming_strings = off"
# Where a backslash is no letter it is the second row, and the first otherwise.
QUOTED = "UPDATE stock SET pieces = pieces - 1, title = 'a\\' WHERE id = 1 -- ' WHERE id = 2"
AT_RISK = "UPDATE stock SET pieces = pieces - 1, title = 'a\\b' WHERE id = 1"
SETS = "CREATE FUNCTION pg_temp.sets() RETURNS text LANGUAGE sql AS $$SELECT set_config('standard_conforming_strings', 'on', false)$$"

# PostgreSQL tells a setting at the end of a cycle, and reads a text by it before.
LETTERS: Dict[str, Sequence[Step]] = {
    "on in a pipeline": ((1, [query(OFF)]), at_once(*ran("RESET standard_conforming_strings"), *ran(AT_RISK))),
    "on by a function": ((1, [query(SETS)]), (1, [query(OFF)]), at_once(*ran("SELECT pg_temp.sets()"), *ran(AT_RISK))),
    "on again behind a block": ((1, [query(f"BEGIN; {OFF.replace('SET', 'SET LOCAL')}")]), (2, [query("COMMIT"), query(AT_RISK)])),
}
# The same, where the proxy passes the text on, so that a trigger refuses it.
REFUSED: Dict[str, Sequence[Step]] = {
    "off in a pipeline": (at_once(*ran(OFF), *ran(QUOTED)),),
    "off in front of a Query": ((2, [query(OFF), query(QUOTED)]),),
    "off by a function": ((1, [query(SETS.replace("'on'", "'off'"))]), at_once(*ran("SELECT pg_temp.sets()"), *ran(QUOTED))),
    "off behind a block": ((1, [query(OFF)]), (1, [query("BEGIN; SET LOCAL standard_conforming_strings = on")]), (1, [query(f"SELECT 1; COMMIT; {AT_RISK}")])),
}

KEY = "UPDATE shelf SET room = room - 1 WHERE code = "
LATIN1 = "SET client_encoding = LATIN1"
WITH_LETTER = (2, [query("SET client_encoding = UTF8"), query("INSERT INTO shelf VALUES ('\u00e9', 5)")])
# In LATIN1 the bytes of a letter in UTF-8 are two others.
ENCODINGS: Dict[str, Sequence[Step]] = {
    "a key": (WITH_LETTER, (1, [query(LATIN1)]), at_once(parse(f"{KEY}$1"), bind(["\u00e9"]), execute())),
    "a key in a pipeline": (WITH_LETTER, at_once(*ran(LATIN1), parse(f"{KEY}$1"), bind(["\u00e9"]), execute())),
    "a COMMIT": (WITH_LETTER, (4, [query("BEGIN"), query(f"{KEY}'\u00e9'"), query(LATIN1), query("COMMIT")])),
    "a COMMIT in a pipeline": (WITH_LETTER, (2, [query("BEGIN"), query(f"{KEY}'\u00e9'")]), at_once(*ran(LATIN1), *ran("COMMIT"))),
}

# What is too large to be looked at, and SQL's own PREPARE, change no other statement.
KEPT: Dict[str, Sequence[Step]] = {
    "a large Parse": (PREPARED, at_once(*ran(f"SELECT length('{LARGE}')")), RUNS),
    "a large Parse of the name": (at_once(parse(TAKE)), at_once(*ran(f"SELECT length('{LARGE}')")), at_once(bind(), execute())),
    "a large Bind": (BOUND, at_once(parse("SELECT length($1::text)"), bind([LARGE]), execute()), RUNS),
    "PREPARE": (PREPARED, (1, [query("PREPARE t AS SELECT 1")]), RUNS),
    "DISCARD ALL in front of the Parse": (PREPARED, (2, [query("DISCARD ALL"), parse(TAKE, "s"), sync()]), RUNS),
    "DISCARD of other things": (PREPARED, (2, [query("DISCARD TEMP"), query("DISCARD SEQUENCES")]), RUNS),
}

ID = "WHERE id = $2"
# A parameter has the type of its first place, and what RETURNING shows is found as in an UPDATE.
TYPES: Dict[str, Sequence[Step]] = {
    name: (at_once(parse(f"UPDATE {text}"), bind(values), describe_portal(), execute()),)
    for name, text, values in (
        ("a cast", f"stock SET pieces = pieces - $1::int {ID} RETURNING id", ("1", "2")),
        ("a cast beside a column", f"stock SET pieces = pieces - $1::int, title = $3 {ID}", ("1", "2", "x")),
        ("a cast in the condition", f"stock SET pieces = pieces - $1::int {ID} AND pieces >= $1::int RETURNING title t", ("1", "2")),
        ("casts and an alias", "stock AS s SET pieces = s.pieces - CAST($1 AS int) WHERE s.id = $2::int RETURNING s.id AS a, $3::text", ("1", "2", "x")),
        ("a key that is shown", f"stock SET pieces = pieces - $1 {ID} RETURNING $2, id", ("1", "2")),
        ("a change that is shown", f"stock SET pieces = pieces - $1 {ID} RETURNING $1", ("1", "2")),
        ("the key is the change", "stock SET pieces = pieces - $1 WHERE id = $1 RETURNING $1", ("2",)),
        ("the change is a title", f"stock SET pieces = pieces - $1, title = $1 {ID}", ("1", "2")),
        ("a title is the change", f"stock SET title = $1, pieces = pieces - $1 {ID}", ("1", "2")),
        ("a text is the change", "shelf SET room = room - $1 WHERE code = $1", ("c",)),
    )
}
# Requests of the proxy's own that PostgreSQL skips, since the Bind in front fails.
SKIPPED = at_once(parse("UPDATE stock SET pieces = pieces - 1, title = $1::int::text WHERE id = 1"), bind(["x"]), execute())
# The client asks for the first of some rows of 20 MB.
MANY_ROWS = (at_once(parse(f"WITH s AS ({TAKE} RETURNING id) SELECT repeat('x', 1000) FROM s, generate_series(1, 20000)"), bind(), execute("", 1)),
             (1, [query(TAKE)]))
# A setting that is asked for in front of a Query, once the statement that asks is gone. What the second one answers is the proxy's.
ASKS = 1, [*ran("SELECT 1"), query(AT_RISK)]
UNASKED = ASKS, (1, [query("DO $$BEGIN EXECUTE 'DEALLOCATE ALL'; END$$")]), ASKS
TYPES["a type that was described"] = (
    at_once(parse("WITH o AS (INSERT INTO taken VALUES ($2, $1)) UPDATE stock SET pieces = pieces - $1 WHERE id = $2", "s"), describe_statement("s")),
    at_once(bind([b"\0\0\0\2", b"\0\0\0\3"], "s", formats=[BINARY]), execute()))

# 1.5 with no digit shown behind the point: 1.
HIDDEN = struct.pack("!HhHHHH", 2, 0, 0, 0, 1, 5000)
CONDITION = "1000 WHERE id = 1 AND pieces >= 1000"
NO_KEY = "1 WHERE id = ANY ('{}')"
SPACE = "\u00a0"
ACCOUNT = "WHERE id = '00000000-0000-0000-0000-000000000001'"


def in_read_only(text: str) -> Sequence[Step]:
    """Returns what changes pieces in READ ONLY."""
    return (1, [query("BEGIN READ ONLY")]), (2, [query(f"UPDATE stock SET pieces = pieces - {text}"), query("ROLLBACK")])


def behind_an_error(text: str) -> Sequence[Step]:
    """Returns what changes pieces, and then the same behind a Parse that fails."""
    return (at_once(parse(f"UPDATE stock SET pieces = pieces - {text}", "s"), bind(name="s"), execute()),
            at_once(parse("SELEC"), bind(name="s"), execute()))


# PostgreSQL judges an UPDATE as a whole, whether it finds a row or not.
WHOLE: Dict[str, Sequence[Step]] = {
    "a refusal in READ ONLY": in_read_only("1000 WHERE id = 1"),
    "a change out of range in READ ONLY": in_read_only("4000000000 WHERE id = 1"),
    "a condition in READ ONLY": in_read_only(CONDITION),
    "a condition and what is shown in READ ONLY": in_read_only(f"{CONDITION} RETURNING id"),
    "no key in READ ONLY": in_read_only(NO_KEY),
    "a condition behind a Parse that fails": behind_an_error(CONDITION),
    "no key behind a Parse that fails": behind_an_error(NO_KEY),
    **{name: ((1, [query(f"UPDATE {text}")]),) for name, text in (
        ("an aggregate", "stock SET pieces = pieces - 1 WHERE id = 1 RETURNING max(title)"),
        ("a set", "stock SET pieces = pieces - 1 WHERE id = 1 RETURNING generate_series(1, 1), title"),
        ("a set of no row", "stock SET pieces = pieces - 1 WHERE id = ANY ('{}') RETURNING generate_series(1, 1)"),
        ("a function", "stock SET pieces = pieces - 1 WHERE id = 1 RETURNING upper(title), coalesce(title, ''), id"),
        ("an array of nothing", "stock SET pieces = pieces - 1 WHERE id = ANY (ARRAY[])"),
        ("another letter in an array", f"shelf SET room = room - 1 WHERE code = ANY ('{{c{SPACE},\\NULL, c\\ }}')"),
        ("another letter in a number", f"account SET balance = balance - '{SPACE}1' {ACCOUNT}"),
        ("ONLY and *", "ONLY stock * SET pieces = pieces - 1 WHERE id = 1"),
    )},
    "a numeric with hidden digits": (at_once(parse(f"UPDATE account SET balance = balance - $1 {ACCOUNT}", types=[1700]),
                                             bind([HIDDEN], formats=[BINARY]), execute()),),
    "a row that it has deleted": ((1, [query("BEGIN")]),
                                  (3, [query("DELETE FROM stock WHERE id = 4"), query("UPDATE stock SET pieces = pieces - 1 WHERE id = 4"),
                                       query("UPDATE stock SET pieces = pieces - 1 WHERE id IN (4, 5) RETURNING id")]), (1, [query("COMMIT")])),
    "a row that has another key": ((1, [query("BEGIN; UPDATE stock SET id = 9 WHERE id = 4")]), (3, [query("UPDATE stock SET pieces = pieces - 1 WHERE id = 4"),
                                   query("UPDATE stock SET pieces = pieces - 1 WHERE id = 9 RETURNING id"), query("COMMIT")])),
    "a row that it has inserted anew": ((1, [query("BEGIN; DELETE FROM stock WHERE id = 4; INSERT INTO stock VALUES (4, 'new', 7)")]),
                                        (2, [query("UPDATE stock SET pieces = pieces - 7 WHERE id = 4"), query("COMMIT")])),
}
