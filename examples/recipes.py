#!/usr/bin/env python3
"""What the application of each recipe does if a reservation is refused, by psycopg 3, on a database without tables.

    examples/recipes.py FOLDER DATABASE

FOLDER has the socket of escrowd-pg.
"""
import sys
import time
from contextlib import suppress

import psycopg
from psycopg.errors import CheckViolation, UniqueViolation


def reserve(connection, update, values):
    """Reserves by an UPDATE. If there is no such row it raises LookupError: `UPDATE 0` is no error, and reserves nothing."""
    if connection.execute(update, values).rowcount == 0:
        raise LookupError(f"no row: {update}, {values}")


def authorise(connection, account, amount):
    """Reserves an amount until the connection commits. Returns False if the account does not cover it; what the transaction had stays."""
    connection.execute("SAVEPOINT before")
    try:
        reserve(connection, "UPDATE account SET balance = balance - %s WHERE id = %s", (amount, account))
        return True
    except CheckViolation:
        connection.execute("ROLLBACK TO before")
        return False
    finally:
        connection.execute("RELEASE before")


def take_order(connection, order, article, pieces):
    """Books an order. Returns False if too few pieces are free, or no such article is there. The connection is in autocommit."""
    connection.execute("INSERT INTO orders VALUES (%s, %s, 0)", (order, article))
    try:
        with connection.transaction():
            reserve(connection, "UPDATE article SET held = held + %s WHERE code = %s", (pieces, article))
            reserve(connection, "UPDATE orders SET pieces = pieces + %s WHERE id = %s", (pieces, order))
        return True
    except (CheckViolation, LookupError):
        connection.execute("DELETE FROM orders WHERE id = %s", (order,))
        return False


def hold_seats(connection, flights, seats):
    """Holds seats on as many of the flights as have them, in one transaction. Returns these flights."""
    held = []
    with connection.transaction():
        for flight in flights:
            with suppress(CheckViolation, LookupError), connection.transaction():  # a savepoint
                reserve(connection, "UPDATE flight SET held = held + %s WHERE code = %s", (seats, flight))
                held.append(flight)
    return held


def give_back(connection, customer, calls):
    """Gives calls back that a job did not make. A refusal means that a refill came between, and the quota is full."""
    connection.commit()  # what the job took, which may not be given back before
    try:
        reserve(connection, "UPDATE bucket SET calls = calls + %s WHERE customer = %s", (calls, customer))
        connection.commit()
    except CheckViolation:
        connection.rollback()


def introduce(connection, steps):
    """Adds the strongest of some rules that no open transaction could break. Returns its name, or None."""
    for name, rule in steps:
        with suppress(CheckViolation):
            connection.execute(f"ALTER TABLE account ADD CONSTRAINT {name} CHECK ({rule})")
            return name
    return None


def book(connect, payment, account, amount):
    """Books a payment once, even if the server or the network fails in between. `connect` returns a connection in autocommit.

    Delete the payment's row only when nobody can repeat the call any more: a repeat would book the payment again.
    """
    while True:
        with suppress(psycopg.OperationalError), connect() as connection:
            with suppress(UniqueViolation):
                connection.execute("INSERT INTO payment VALUES (%s, 0)", (payment,))
            try:
                with connection.transaction():
                    reserve(connection, "UPDATE payment SET times = times + 1 WHERE id = %s", (payment,))
                    reserve(connection, "UPDATE account SET balance = balance - %s WHERE id = %s", (amount, account))
                return
            except CheckViolation as refused:
                if refused.diag.constraint_name != "once":
                    raise
                # It was booked before its answer was lost, or the transaction of a lost connection is not over yet.
                if connection.execute("SELECT * FROM payment WHERE id = %s", (payment,)).fetchone() == (payment, 1):
                    return
        time.sleep(1)


TABLES = """
CREATE TABLE account (id INTEGER PRIMARY KEY, balance NUMBER(12,2) RESERVABLE, CONSTRAINT covered CHECK (balance >= 0));
CREATE TABLE article (code VARCHAR2(8) PRIMARY KEY, stock NUMBER(6) RESERVABLE, held NUMBER(6) RESERVABLE, CONSTRAINT free CHECK (stock - held >= 0));
CREATE TABLE orders (id INTEGER PRIMARY KEY, code VARCHAR2(8), pieces NUMBER(6) RESERVABLE);
CREATE TABLE flight (code VARCHAR2(6) PRIMARY KEY, seats NUMBER(3) RESERVABLE, held NUMBER(3) RESERVABLE, CONSTRAINT room CHECK (held <= seats));
CREATE TABLE bucket (customer INTEGER PRIMARY KEY, calls NUMBER(4) RESERVABLE, CONSTRAINT ceiling CHECK (calls <= 1000));
CREATE TABLE payment (id INTEGER PRIMARY KEY, times NUMBER(1) RESERVABLE, CONSTRAINT once CHECK (times BETWEEN 0 AND 1));
INSERT INTO account VALUES (1, 100);
INSERT INTO account VALUES (2, 60);
INSERT INTO article VALUES ('TEA', 10, 0);
INSERT INTO flight VALUES ('EX 104', 100, 95);
INSERT INTO flight VALUES ('EX 105', 100, 99);
INSERT INTO bucket VALUES (17, 1000)
"""


def main():
    if len(sys.argv) != 3:
        sys.exit(__doc__)

    def connect(autocommit=True):
        return psycopg.connect(host=sys.argv[1], dbname=sys.argv[2], autocommit=autocommit)

    with connect() as plain, connect(autocommit=False) as first, connect(autocommit=False) as second:
        for statement in TABLES.split(";"):
            plain.execute(statement)
        print("authorised:", authorise(first, 1, 70), authorise(second, 1, 40), authorise(second, 1, 30))
        second.rollback()
        print("a new rule:", introduce(plain, [("keeps_50", "balance >= 50"), ("keeps_30", "balance >= 30")]))
        first.commit()
        print("orders:", take_order(plain, 1001, "TEA", 6), take_order(plain, 1002, "TEA", 5))
        print("seats held on:", *hold_seats(plain, ["EX 104", "EX 105"], 3))
        first.execute("UPDATE bucket SET calls = calls - 400 WHERE customer = 17")
        give_back(first, 17, 250)
        for _ in range(2):
            book(connect, 501, 2, 30)
        for table in "account", "orders", "flight", "bucket", "payment":
            print(f"{table}:", *plain.execute(f"SELECT * FROM {table}").fetchall())


if __name__ == "__main__":
    main()
