"""psqlODBC by unixODBC, driven by pyodbc."""
from __future__ import annotations

from decimal import Decimal

import pyodbc

from clients.servers import PORT, Gateway
from clients.suite import Part, expect, main

PART = Part("with_odbc")
STOCK = "CREATE TABLE stock (id INTEGER PRIMARY KEY, pieces INTEGER RESERVABLE CONSTRAINT in_stock CHECK (pieces >= 0), price NUMBER(8,2), name VARCHAR2(20))"
TAKE = "UPDATE stock SET pieces = pieces - ? WHERE id = ?"


def connect(gateway: Gateway, autocommit: bool = True) -> pyodbc.Connection:
    """Returns a connection by the driver that Debian packages."""
    words = {"Driver": "{PostgreSQL Unicode}", "Server": gateway.folder, "Port": PORT, "Database": "bank", "Uid": "clerk"}
    return pyodbc.connect(";".join(f"{name}={value}" for name, value in words.items()), autocommit=autocommit)


@PART.served
def statements_and_blocks(gateway: Gateway) -> None:
    connection = connect(gateway)
    cursor = connection.cursor()
    cursor.execute(STOCK)
    cursor.execute("INSERT INTO stock VALUES (?, ?, ?, ?)", 1, 5, Decimal("9.50"), "Bob's tea")
    expect([tuple(row) for row in cursor.execute("SELECT * FROM stock WHERE id = ?", 1).fetchall()], [(1, 5, Decimal("9.50"), "Bob's tea")])
    expect([tuple(row) for row in cursor.execute("SELECT id, pieces FROM stock").fetchall()], [(1, 5)])
    expect(cursor.execute(TAKE, 2, 1).rowcount, 1)
    expect(cursor.execute(TAKE, 2, 9).rowcount, 0)
    connection.autocommit = False
    expect(cursor.execute(TAKE, 3, 1).rowcount, 1)
    try:
        cursor.execute(TAKE, 1, 1)
    except pyodbc.IntegrityError as error:
        expect(error.args[0], "23514")
    else:
        raise AssertionError("no IntegrityError")
    connection.rollback()
    cursor.execute(TAKE, 1, 1)
    connection.commit()
    connection.autocommit = True
    expect(cursor.execute("SELECT pieces FROM stock").fetchval(), 2)
    connection.close()


@PART.served
def tables_and_columns(gateway: Gateway) -> None:
    """SQLTables, SQLColumns and SQLPrimaryKeys, which read the catalog."""
    connection = connect(gateway)
    cursor = connection.cursor()
    cursor.execute(STOCK)
    expect([(row.table_schem, row.table_name, row.table_type) for row in cursor.tables(table="stock").fetchall()], [("public", "stock", "TABLE")])
    expect(
        [(row.column_name, row.type_name) for row in cursor.columns(table="stock").fetchall()],
        [("id", "int8"), ("pieces", "int8"), ("price", "numeric"), ("name", "varchar")],
    )
    expect([row.column_name for row in cursor.primaryKeys("stock").fetchall()], ["id"])
    connection.close()


if __name__ == "__main__":
    main(PART)
