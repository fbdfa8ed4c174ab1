"""psycopg2 and psycopg 3 on rows from a number on: python3 with_psycopg.py psycopg2|psycopg FIRST DSN. Prints what they get."""
from __future__ import annotations

import importlib
import io
import sys
from decimal import Decimal
from typing import Any, Callable, Tuple

TAKE = "UPDATE stock SET pieces = pieces - %s WHERE id = %s"
ORDER = "INSERT INTO orders (item, pieces) VALUES (%s, %s)"
TIMES = 12


class Suite:
    """The cases of a driver. Their answers are printed."""

    def __init__(self, driver: Any, first: int, dsn: str) -> None:
        self.driver, self.first, self.dsn = driver, first, dsn
        self.connection = driver.connect(dsn)
        self.connection.autocommit = True

    def run(self, text: str, *values: object) -> Tuple[int, str]:
        """Runs a statement. Returns its count and tag."""
        with self.connection.cursor() as cursor:
            cursor.execute(text, values or None)
            return cursor.rowcount, cursor.statusmessage

    def rows(self, text: str, *values: object) -> Any:
        """Returns the rows of a statement."""
        with self.connection.cursor() as cursor:
            cursor.execute(text, values or None)
            return [tuple(it) for it in cursor.fetchall()]

    def say(self, what: str, *words: object) -> None:
        """Prints an answer."""
        print(what, *words, flush=True)

    def refused(self, what: str, act: Callable[[], object]) -> None:
        """Prints an error, which has to come."""
        try:
            found = act()
        except self.driver.Error as error:
            code = getattr(error, "sqlstate", None) or getattr(error, "pgcode", None)
            diag = error.diag
            self.say(what, type(error).__name__, code, diag.severity, diag.schema_name, diag.table_name, diag.constraint_name)
        else:
            self.say(what, "not refused:", found)

    def stock(self, what: str) -> None:
        """Prints the rows."""
        low, high = self.first, self.first + 99
        self.say(what, self.rows("SELECT id, title, pieces FROM stock WHERE id BETWEEN %s AND %s ORDER BY id", low, high),
                 self.rows("SELECT item, pieces FROM orders WHERE item BETWEEN %s AND %s ORDER BY id", low, high))

    def by_themselves(self) -> None:
        one = self.first + 1
        self.say("one", self.run(TAKE, 2, one), self.run(TAKE, -1, one), self.run(TAKE, 1, self.first + 98))
        self.refused("too many", lambda: self.run(TAKE, 1000, one))
        self.say("literal", self.run(f"UPDATE stock SET pieces = pieces - 1 WHERE id = {one}"), self.run(f'update "stock" SET pieces=1+pieces where {one}=id;'))
        self.say("returning", self.rows(TAKE + " RETURNING id, title", 1, one))
        self.refused("no column", lambda: self.run("UPDATE stock SET nothing = nothing - 1 WHERE id = 1"))
        self.stock("by themselves")

    def blocks(self) -> None:
        one, two = self.first + 1, self.first + 2
        self.connection.autocommit = False
        self.run(ORDER, one, 1)
        self.run(TAKE, 1, one)
        self.connection.commit()
        self.stock("committed")
        self.connection.rollback()
        self.run(TAKE, 1, two)
        self.run(ORDER, two, 1)
        self.connection.rollback()
        self.stock("rolled back")
        self.connection.rollback()
        self.run(TAKE, 1, one)
        self.run("SAVEPOINT a")
        self.run(ORDER, two, 5)
        self.refused("in a savepoint", lambda: self.run(TAKE, 1000, two))
        self.refused("failed", lambda: self.run("SELECT 1"))
        self.run("ROLLBACK TO SAVEPOINT a")
        self.run(TAKE, 2, two)
        self.run(ORDER, two, 2)
        self.run("RELEASE a")
        self.connection.commit()
        self.stock("savepoints")
        self.connection.rollback()
        self.run(ORDER, one, 3)
        self.run(TAKE, 3, one)
        self.refused("the last", lambda: self.run(TAKE, 1000, one))
        self.say("commit", self.run("COMMIT")[1])
        self.stock("failed as a whole")
        self.connection.rollback()
        self.connection.autocommit = True

    def many(self) -> None:
        three = self.first + 3
        for turn in range(TIMES):
            self.say("again", self.run(TAKE, turn % 3, three))
        self.connection.autocommit = False
        with self.connection.cursor() as cursor:
            cursor.executemany(TAKE, [(1, three), (2, three), (3, three)])
            self.say("executemany", cursor.rowcount)
        self.connection.commit()
        self.connection.autocommit = True
        self.stock("many")

    def other_tables(self) -> None:
        account, shelf = f"00000000-0000-0000-0000-{self.first:012}", f"it's {self.first} ä"
        move = "UPDATE account SET balance = balance - %s, held = held + %s WHERE id = %s"
        self.say("account", self.run(move, Decimal("1.25"), Decimal("0.50"), account))
        self.refused("enough", lambda: self.run(move, Decimal("90"), Decimal("9"), account))
        self.say("account", self.rows("SELECT owner, balance, held FROM account WHERE id = %s", account))
        self.say("shelf", self.run("UPDATE shelf SET room = room + %s WHERE code = %s", 7, shelf))
        self.refused("no room", lambda: self.run("UPDATE shelf SET room = room + %s WHERE code = %s", 100, shelf))
        self.say("shelf", self.rows("SELECT code, room FROM shelf WHERE code = %s", shelf))

    def further_forms(self) -> None:
        three, four, five = (self.first + it for it in (3, 4, 5))
        self.say("mixed", self.run("UPDATE stock SET title = %s, pieces = pieces - 1 WHERE id = %s", "new", four))
        self.say("if there is enough", self.run(TAKE + " AND pieces >= %s", 2, four, 2), self.run(TAKE + " AND pieces >= %s", 500, four, 500))
        self.say("both", self.run("UPDATE stock SET pieces = pieces - 1 WHERE id IN (%s, %s)", three, four))
        self.say("any", self.run("UPDATE stock SET pieces = pieces - 1 WHERE id = ANY(%s)", [three, four]))
        taken = "WITH s AS (UPDATE stock SET pieces = pieces - %s WHERE id = %s AND pieces >= %s RETURNING id) INSERT INTO orders (item, pieces) SELECT id, %s FROM s RETURNING pieces"
        self.say("with", self.rows(taken, 1, four, 1, 1), self.rows(taken, 1000, four, 1000, 1000))
        self.say("behind with", self.run("WITH o AS (INSERT INTO orders (item, pieces) VALUES (%s, %s)) " + TAKE, four, 2, 2, four))
        self.connection.autocommit = False
        self.run("INSERT INTO stock VALUES (%s, 'inserted', 5)", self.first + 9)
        self.say("just inserted", self.run(TAKE, 2, self.first + 9))
        self.connection.commit()
        self.connection.autocommit = True
        self.say("delete", self.run("DELETE FROM stock WHERE id = %s", five))
        self.stock("further forms")

    def strings(self) -> None:
        """Several statements in one text, as scripts and psycopg2's execute_batch send them."""
        three, four = self.first + 3, self.first + 4
        order = f"INSERT INTO orders (item, pieces) VALUES ({three}, 2)"
        take = f"UPDATE stock SET pieces = pieces - 2 WHERE id = {three}"
        self.run(f"{order}; {take}; {take.replace(str(three), str(four))}; SELECT 1")
        self.run(f"BEGIN; {order}; {take}; COMMIT")
        self.run(f"BEGIN; SAVEPOINT a; {take}; ROLLBACK TO a; {order}; {take}; RELEASE a; END; {take}")
        self.stock("strings")
        self.refused("too many in a string", lambda: self.run(f"{order}; {take.replace('- 2', '- 1000')}; {order}"))
        self.refused("an error behind it", lambda: self.run(f"{order}; {take}; SELECT 1 / 0"))
        self.refused("a fault behind it", lambda: self.run(f"BEGIN; {order}; {take}; COMMIT; SELEC"))
        self.connection.autocommit = False
        self.run(";".join(take.replace(str(three), str(it)) for it in (three, four, three)))
        self.run(f"{order}; {take}")
        self.connection.commit()
        self.run(f"{take}; {order}")
        self.connection.rollback()
        self.connection.autocommit = True
        self.stock("strings in blocks")

    def streams(self) -> None:
        text = f"{self.first + 1}\t7\n{self.first + 2}\t8\n"
        with self.connection.cursor() as cursor:
            if hasattr(cursor, "copy_expert"):
                cursor.copy_expert("COPY orders (item, pieces) FROM STDIN", io.StringIO(text))
                out = io.StringIO()
                cursor.copy_expert(f"COPY (SELECT item, pieces FROM orders WHERE item = {self.first + 2} ORDER BY id) TO STDOUT", out)
                self.say("copy", out.getvalue().split())
            else:
                with cursor.copy("COPY orders (item, pieces) FROM STDIN") as copy:
                    copy.write(text)
                with cursor.copy(f"COPY (SELECT item, pieces FROM orders WHERE item = {self.first + 2} ORDER BY id) TO STDOUT") as copy:
                    self.say("copy", b"".join(bytes(it) for it in copy).split())
        self.connection.autocommit = False
        self.run(TAKE, 1, self.first + 1)
        with self.connection.cursor("named") as cursor:
            cursor.execute("SELECT generate_series(1, 1000)")
            self.say("cursor", sum(it for it, in cursor))
        self.run(TAKE, -1, self.first + 1)
        self.connection.commit()
        self.connection.autocommit = True
        self.stock("streams")

    def pipelines(self) -> None:
        """psycopg 3 alone."""
        if not hasattr(self.connection, "pipeline"):
            return
        one = self.first + 1
        with self.connection.pipeline():
            found = [self.connection.execute(TAKE, (1, one)), self.connection.execute(ORDER, (one, 1)), self.connection.execute("SELECT %s::int", (7,))]
        self.say("pipeline", [it.rowcount for it in found], found[2].fetchall())
        with self.connection.pipeline(), self.connection.transaction():
            found = [self.connection.execute(TAKE, (it, one)) for it in (1, -2, 1)]
        self.say("pipeline", [it.rowcount for it in found])

        def too_many() -> None:
            with self.connection.pipeline():
                self.connection.execute(ORDER, (one, 1000))
                self.connection.execute(TAKE, (1000, one))
                self.connection.execute(ORDER, (one, 1001))

        self.refused("in a pipeline", too_many)
        for binary in (True, False):
            for prepare in (True, False):
                cursor = self.connection.execute("UPDATE stock SET pieces = pieces - %b WHERE id = %b RETURNING id, title", (1, one), prepare=prepare, binary=binary)
                self.say("formats", cursor.fetchall(), [(it.name, it.type_code) for it in cursor.description])
        self.stock("pipelines")


def main() -> None:
    suite = Suite(importlib.import_module(sys.argv[1]), int(sys.argv[2]), sys.argv[3])
    for it in (suite.by_themselves, suite.blocks, suite.many, suite.other_tables, suite.further_forms, suite.strings, suite.streams, suite.pipelines):
        try:
            it()
        except suite.driver.Error as error:
            suite.say("FAILED", it.__name__, type(error).__name__, error)
            suite.connection.rollback()
            suite.connection.autocommit = True


if __name__ == "__main__":
    main()
