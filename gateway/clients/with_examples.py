"""The examples in Python, as the guide starts them."""
from __future__ import annotations

import re
import subprocess

from clients.servers import END, TOP, Gateway
from clients.suite import Part, expect, main
from clients.wire import Connection

PART = Part("with_examples")
PIECES, WANTED = 50, sum(customer % 3 + 1 for customer in range(40))
# The table of the guide's session, in whose database the example runs too.
OF_THE_GUIDE = "CREATE TABLE stock (id INTEGER PRIMARY KEY, pieces INTEGER RESERVABLE CONSTRAINT in_stock CHECK (pieces >= 0))"
RECIPES = """authorised: True False True
a new rule: keeps_30
orders: True False
seats held on: EX 104
account: (1, Decimal('30.00')) (2, Decimal('30.00'))
orders: (1001, 'TEA', 6)
flight: ('EX 104', 100, 98) ('EX 105', 100, 99)
bucket: (17, 850)
payment: (501, 1)
"""


def printed(name: str, *words: str) -> str:
    """Runs an example, which has to end with status 0, and returns what it prints."""
    done = subprocess.run(["/usr/bin/python3", "-B", str(TOP / "examples" / name), *words], capture_output=True, text=True, timeout=END, check=False)
    expect(done.returncode, 0, done.stderr)
    return done.stdout


# Each is called for a row that does not exist, on a connection that holds a reservation of its own.
WITHOUT_ROWS = '''
import sys
from contextlib import suppress
sys.path.insert(0, sys.argv[1])
import psycopg, recipes
def connect(autocommit=True):
    return psycopg.connect(host=sys.argv[2], dbname="bank", autocommit=autocommit)
with connect() as plain, connect(autocommit=False) as open_one:
    for statement in recipes.TABLES.split(";"):
        plain.execute(statement)
    print(recipes.authorise(open_one, 1, 70), recipes.authorise(open_one, 1, 31))
    with suppress(LookupError):
        print(recipes.authorise(open_one, 99, 1))
    print(recipes.take_order(plain, 1, "COFFEE", 1), plain.execute("SELECT * FROM orders").fetchall())
    print(recipes.hold_seats(plain, ["EX 103", "EX 104"], 2))
    with suppress(LookupError):
        print(recipes.book(connect, 501, 99, 30))
    print(plain.execute("SELECT * FROM payment").fetchall())
    open_one.commit()
    print(plain.execute("SELECT * FROM account").fetchall())
'''
ANSWERS = """True False
False []
['EX 104']
[(501, 0)]
[(1, Decimal('30.00')), (2, Decimal('60.00'))]
"""


@PART.alone
def shop() -> None:
    with Gateway({"shop": None}) as gateway:
        with Connection(gateway.socket, database="shop") as it:
            it.do(OF_THE_GUIDE, "INSERT INTO stock VALUES (1, 5)")
        got = printed("shop.py", str(gateway.folder))
        gateway.expect_clean_end()
    counted = re.fullmatch(r"(\d+) refused by in_stock\n(\d+) sold, (\d+) left\n", got)
    assert counted, got
    refused, sold, left = map(int, counted.groups())
    expect(sold + left, PIECES)
    # A customer is refused only if the pieces would not do, were all others served that may still be.
    expect(left < 3, True, got)
    expect(WANTED - 3 * refused <= sold <= WANTED - refused, True, got)


@PART.served
def recipes(gateway: Gateway) -> None:
    expect(printed("recipes.py", str(gateway.folder), "bank"), RECIPES)


@PART.served
def recipes_without_a_row(gateway: Gateway) -> None:
    """`UPDATE 0` is taken for no grant, and what the transaction had stays."""
    words = ["/usr/bin/python3", "-B", "-c", WITHOUT_ROWS, str(TOP / "examples"), str(gateway.folder)]
    done = subprocess.run(words, capture_output=True, text=True, timeout=END, check=False)
    expect(done.stdout, ANSWERS, done.stderr)


if __name__ == "__main__":
    main(PART)
