"""asyncpg on rows from a number on: python3 with_asyncpg.py FIRST HOST PORT DATABASE. Prints what it gets."""
from __future__ import annotations

import asyncio
import sys
import uuid
from decimal import Decimal
from typing import Any, Awaitable

import asyncpg

TAKE = "UPDATE stock SET pieces = pieces - $1 WHERE id = $2"
ORDER = "INSERT INTO orders (item, pieces) VALUES ($1, $2)"


async def refused(what: str, act: Awaitable[object]) -> None:
    """Prints an error, which has to come."""
    try:
        found = await act
    except asyncpg.PostgresError as error:
        print(what, type(error).__name__, error.sqlstate, error.table_name, error.constraint_name)
    else:
        print(what, "not refused:", found)


async def stock(what: str, it: Any, first: int) -> None:
    """Prints the rows."""
    rows = await it.fetch("SELECT id, title, pieces FROM stock WHERE id BETWEEN $1 AND $1 + 99 ORDER BY id", first)
    orders = await it.fetch("SELECT item, pieces FROM orders WHERE item BETWEEN $1 AND $1 + 99 ORDER BY id", first)
    print(what, [tuple(row) for row in rows], [tuple(row) for row in orders])


async def main() -> None:
    first = int(sys.argv[1])
    words: Any = {"host": sys.argv[2], "port": int(sys.argv[3]), "database": sys.argv[4], "user": "clerk", "command_timeout": 120}
    one, two, three = first + 1, first + 2, first + 3
    it = await asyncpg.connect(**words)
    print("one", await it.execute(TAKE, 2, one), await it.execute(TAKE, -1, one), await it.execute(TAKE, 1, first + 98))
    await refused("too many", it.execute(TAKE, 1000, one))
    statement = await it.prepare(TAKE + " RETURNING id, title")
    print("prepared", [kind.name for kind in statement.get_parameters()], [(column.name, column.type.name) for column in statement.get_attributes()])
    for _ in range(3):
        print("again", [tuple(row) for row in await statement.fetch(1, one)])
    async with it.transaction():
        await it.execute(ORDER, one, 1)
        await it.execute(TAKE, 1, one)
        try:
            async with it.transaction():
                await it.execute(ORDER, two, 1000)
                await it.execute(TAKE, 1000, two)
        except asyncpg.CheckViolationError as error:
            print("nested", error.constraint_name)
        async with it.transaction():
            await it.execute(TAKE, 2, two)
            await it.execute(ORDER, two, 2)
        print("cursor", [row[0] async for row in it.cursor("SELECT generate_series(1, 120)")][-1])
    await stock("blocks", it, first)
    try:
        async with it.transaction(isolation="repeatable_read"):
            await it.execute(TAKE, 1, three)
            await it.execute(ORDER, three, 1)
            raise KeyError
    except KeyError:
        pass
    await it.executemany(TAKE, [(1, three), (2, three), (-1, three)])
    account = uuid.UUID(f"00000000-0000-0000-0000-{first:012}")
    print("account", await it.execute("UPDATE account SET balance = balance - $1, held = held + $2 WHERE id = $3", Decimal("1.25"), Decimal("0.5"), account))
    await refused("enough", it.execute("UPDATE account SET held = held + $1 WHERE id = $2", Decimal(1000), account))
    print("account", tuple(await it.fetchrow("SELECT balance, held FROM account WHERE id = $1", account)))
    print("any", await it.execute("UPDATE stock SET pieces = pieces - 1 WHERE id = ANY($1)", [one, three]))
    print("string", await it.execute(f"BEGIN; INSERT INTO orders (item, pieces) VALUES ({one}, 1); UPDATE stock SET pieces = pieces - 1 WHERE id = {one}; COMMIT"))
    taken = "WITH s AS (UPDATE stock SET pieces = pieces - $1 WHERE id = $2 AND pieces >= $1 RETURNING id) INSERT INTO orders (item, pieces) SELECT id, $1 FROM s"
    print("with", await it.execute(taken, 1, one), await it.execute(taken, 1000, one))
    await it.copy_records_to_table("orders", records=[(one, 7), (two, 8)], columns=["item", "pieces"])
    async with asyncpg.create_pool(min_size=2, max_size=4, **words) as pool:

        async def buy() -> None:
            async with pool.acquire() as taken, taken.transaction():
                await taken.execute(ORDER, three, 1)
                await taken.execute(TAKE, 1, three)

        await asyncio.gather(*(buy() for _ in range(20)))
    await stock("pool", it, first)
    await it.close()


if __name__ == "__main__":
    asyncio.run(main())
