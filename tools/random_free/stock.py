"""The databases of tools/random-free: their sessions, the table that each has, and its rows."""
from typing import Callable, Dict, Optional, Tuple
NAMES = ["bank", *(f"bank{place}" for place in range(2, 9))]
SESSIONS = range(1, 65)
# The rows that all sessions reserve on, and those that come and go; what each has at first; tables that come and go.
SHARED, PASSING, FIRST, SIDES = range(1, 9), range(101, 117), (500, 100), range(1, 4)
COLUMNS = "ID | NAME | PIECES | HELD"
TABLE = ("CREATE TABLE STOCK (ID NUMBER(15) PRIMARY KEY, NAME VARCHAR2(20), PIECES NUMBER(15) RESERVABLE, HELD NUMBER(15) RESERVABLE,"
         " CONSTRAINT ROOM CHECK (PIECES BETWEEN 0 AND 1000), CONSTRAINT PROMISED CHECK (HELD >= 0), CONSTRAINT FREE CHECK (PIECES - HELD >= 0))")
SIDE = "CREATE TABLE SIDE_{} (ID NUMBER(15) PRIMARY KEY, N NUMBER(15) RESERVABLE)"
# Of each check what it makes of a row, and its limits.
CHECKS: Dict[str, Tuple[Callable[[int, int], int], int, Optional[int]]] = {
    "ROOM": (lambda pieces, held: pieces, 0, 1000), "PROMISED": (lambda pieces, held: held, 0, None), "FREE": (lambda pieces, held: pieces - held, 0, None)}
# Refusals that depend on what a session has open, and on what comes and goes.
OPEN, NO_ROW, NO_TABLE = "ERR 26 transaction open", "ERR 31 no such row", "ERR 21 no such table"
