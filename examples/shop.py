#!/usr/bin/env python3
"""Forty customers buy at the same time, by psycopg 3: examples/shop.py FOLDER [DATABASE]

FOLDER has the socket of escrowd-pg. DATABASE is `shop` by default. A table `sale` is created there, and dropped at the end.
"""
import sys
from concurrent.futures import ThreadPoolExecutor

import psycopg
from psycopg.errors import CheckViolation


def buy(customer):
    pieces = customer % 3 + 1
    try:
        with psycopg.connect(where) as connection:  # one transaction: committed at the end, rolled back by an exception
            connection.execute("UPDATE sale SET pieces = pieces - %s WHERE id = %s", (pieces, 1))
            # The pieces are reserved. Nobody waits for this customer, who pays now.
        return pieces
    except CheckViolation as refusal:  # the answer is no: nothing is reserved, and there is nothing to try again
        return refusal.diag.constraint_name


where = f"host={sys.argv[1]} dbname={(sys.argv + ['shop'])[2]} user=shop"
with psycopg.connect(where, autocommit=True) as shop:  # INSERT and tables commit by themselves
    shop.execute("CREATE TABLE sale (id INTEGER PRIMARY KEY, pieces INTEGER RESERVABLE CONSTRAINT in_stock CHECK (pieces >= 0))")
    shop.execute("INSERT INTO sale VALUES (1, 50)")
    with ThreadPoolExecutor(40) as threads:
        answers = list(threads.map(buy, range(40)))
    print(answers.count("in_stock"), "refused by in_stock")
    print(sum(it for it in answers if it != "in_stock"), "sold,", *shop.execute("SELECT * FROM sale").fetchone()[1:], "left")
    shop.execute("DROP TABLE sale")
