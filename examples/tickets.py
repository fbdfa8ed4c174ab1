#!/usr/bin/env python3
"""People fill carts, which hold seats of a stand, and half of them buy: examples/tickets.py DSN 5000 '10 minutes'

It may be killed: started again it goes on where it was, since all that it knows is in PostgreSQL.
"""
import sys
import threading
import time
from concurrent.futures import ThreadPoolExecutor

import psycopg
from psycopg.errors import CheckViolation, UniqueViolation

TABLES = """
    CREATE TABLE stands (id integer PRIMARY KEY, free integer NOT NULL CHECK (free >= 0));
    CREATE TABLE carts (person integer PRIMARY KEY, stand integer NOT NULL REFERENCES stands, seats integer NOT NULL);
    CREATE TABLE orders (person integer PRIMARY KEY, stand integer NOT NULL REFERENCES stands, seats integer NOT NULL);
    INSERT INTO stands SELECT i, 900 FROM generate_series(1, 10) AS i; SELECT escrow.reservable('stands', 'free')"""
here = threading.local()


def done(act, person):
    """Does something in a transaction until its outcome is known. Returns whether the person has got it."""
    while True:
        try:
            if getattr(here, "shop", None) is None:
                here.shop = psycopg.connect(dsn)
            with here.shop.transaction():
                act(here.shop, person)
            return True
        except UniqueViolation:
            return True  # an earlier try was committed, and its answer was lost
        except CheckViolation:
            return False  # sold out
        except psycopg.Error as error:
            if error.sqlstate == "55H03":
                return False  # its time is over
            here.shop = time.sleep(0.2)  # the connection is lost, or another proxy is the owner: ask again


def fill_cart(shop, person):
    stand, seats = person % 10 + 1, person % 3 + 1
    shop.execute("INSERT INTO carts VALUES (%s, %s, %s)", (person, stand, seats))
    shop.execute("UPDATE stands SET free = free - %s WHERE id = %s", (seats, stand))
    shop.execute("SELECT escrow.hold(%s, %s)", (f"cart-{person}", lasting))


def buy(shop, person):
    shop.execute("INSERT INTO orders SELECT * FROM carts WHERE person = %s", (person,))
    shop.execute("SELECT escrow.take(%s)", (f"cart-{person}",))


dsn, people, lasting = sys.argv[1], int(sys.argv[2]), sys.argv[3]
with psycopg.connect(dsn, autocommit=True) as first:
    if first.execute("SELECT to_regclass('stands') IS NULL").fetchone()[0]:
        first.execute(TABLES)
with ThreadPoolExecutor(40) as threads:
    carts = list(threads.map(lambda person: done(fill_cart, person), range(people)))
    orders = list(threads.map(lambda person: carts[person] and done(buy, person), range(1, people, 2)))
    print(sum(carts), "carts,", sum(orders), "orders")
