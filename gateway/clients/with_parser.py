"""PostgreSQL's parser as a library, which needs no server: whatever the gateway accepts has to be in PostgreSQL's grammar.

    python3 -m clients.with_parser --minutes 60 --seed 7

The statements are those of with_grammar, with more mutations. The parser knows no tables and no types, so this finds what is written wrongly alone, but
in more statements a second.
"""
from __future__ import annotations

import math
import random
import sys
import time
from typing import Dict

from pglast import parser

from clients import wire
from clients.grammar import MADE, TABLES, Grammar, Statement
from clients.servers import LOAD, Gateway
from clients.suite import Part, main
from clients.with_grammar import A_BATCH, A_TABLE, MOST_SHOWN, SEED, Aspect, Client, Counts, Difference, Found, by_hand, excused, expect_none, shape

PART = Part("with_parser")
# The most seconds and statements of the case in the gate, and the most mutations of a statement.
SECONDS, STATEMENTS, MUTATIONS = 20.0 * LOAD, 60_000, 8


def refusal(it: Statement) -> str:
    """Returns what the parser has against a statement, or nothing. The library, unlike the server, stumbles over a comment within NULLS FIRST and its like."""
    said = ""
    for text in (it.text_of_theirs, it.text_without_comments):
        try:
            parser.parse_sql_json(text)
            return ""
        except parser.ParseError as error:
            said = str(error)
    return said


def held_against_its_parser(gateway: Gateway, seed: int, seconds: float, most: int = MOST_SHOWN, statements: float = math.inf) -> Found:
    """Serves so many statements that are mutated much, or for some seconds, and asks PostgreSQL's parser about each that the gateway acts on."""
    grammar, client, counts = Grammar(random.Random(seed)), Client(gateway.socket), Counts()
    found: Dict[str, Difference] = {}
    begin, batches = time.monotonic(), 0

    def renew() -> None:
        client.ask([wire.query(f"DROP TABLE {it}") for it in [*(table.name for table in TABLES), MADE]])
        for table in TABLES:
            client.do(table.ours, *table.rows)

    while time.monotonic() - begin < seconds and len(found) < most and counts.statements < statements:
        if batches % A_TABLE == 0:
            renew()
        batches += 1
        batch = [grammar.any(MUTATIONS) for _ in range(A_BATCH)]
        for it, answer in zip(batch, client.ask([it.messages(it.text) for it in batch])):
            counts.statements += 1
            wrong = refusal(it) if answer.acted else ""
            if answer.acted and not wrong:
                counts.both += 1
            if wrong and not excused(Aspect.ACTION, it):

                def differs(shorter: Statement) -> bool:
                    return bool(refusal(shorter)) and client.ask([shorter.messages(shorter.text)])[0].acted

                at = 0
                while at < len(it.tokens):
                    shorter = it.without(at)
                    renew()
                    it, at = (shorter, at) if differs(shorter) else (it, at + 1)
                difference = Difference(it, f"the gateway acted, PostgreSQL's parser: {refusal(it)}")
                found.setdefault(shape(difference), difference)
    return list(found.values()), counts, time.monotonic() - begin


@PART.served
def as_its_parser_does(gateway: Gateway) -> None:
    found, counts, seconds = held_against_its_parser(gateway, SEED, SECONDS, statements=STATEMENTS)
    expect_none(found, counts, seconds, SEED)


if __name__ == "__main__":
    if any(it.startswith("-") for it in sys.argv[1:]):
        sys.exit(by_hand(held_against_its_parser, __doc__, sys.argv[1:]))
    main(PART)
