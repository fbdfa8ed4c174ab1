"""asyncpg: connections, pools and types, all by prepared statements with values in binary."""
from __future__ import annotations

import asyncio
from decimal import Decimal
from typing import Any, Awaitable, Callable

import asyncpg

from clients.servers import END, PORT, Gateway
from clients.suite import Part, expect, main

PART = Part("with_asyncpg")
STOCK = "CREATE TABLE stock (id INTEGER PRIMARY KEY, pieces INTEGER RESERVABLE CONSTRAINT in_stock CHECK (pieces >= 0), price NUMBER(8,2), name VARCHAR2(20))"
TAKE = "UPDATE stock SET pieces = pieces - $1 WHERE id = $2"
ONE = "SELECT * FROM stock WHERE id = $1"


def tried(gateway: Gateway, act: Callable[[Any], Awaitable[None]]) -> None:
    """Runs an act with a connection to a gateway that has the table."""

    async def whole() -> None:
        connection = await asyncpg.connect(
            host=str(gateway.folder), port=PORT, user="clerk", database="bank", timeout=END, command_timeout=END
        )
        await connection.execute(STOCK)
        await connection.execute("INSERT INTO stock VALUES ($1, $2, $3, $4)", 1, 5, Decimal("9.50"), "Bob's \\ tea")
        await act(connection)
        await connection.close()

    asyncio.run(whole())


@PART.served
def types_and_tags(gateway: Gateway) -> None:
    async def act(connection: Any) -> None:
        expect(tuple(await connection.fetchrow(ONE, 1)), (1, 5, Decimal("9.50"), "Bob's \\ tea"))
        expect(await connection.fetchrow(ONE, 9), None)
        expect(
            [(it.name, it.type.name) for it in (await connection.prepare(ONE)).get_attributes()],
            [("id", "int8"), ("pieces", "int8"), ("price", "numeric"), ("name", "varchar")],
        )
        expect(await connection.execute(TAKE, 2, 1), "UPDATE 1")
        expect(await connection.execute(TAKE, -2, 1), "UPDATE 1")
        expect(await connection.execute(TAKE, 2, 9), "UPDATE 0")
        expect(await connection.fetchval("SELECT pieces FROM stock WHERE id = $1", 1), 5)
        expect(await connection.fetchval("SELECT count(*) FROM stock"), 1)
        expect(await connection.fetchval("SELECT 1"), 1)
        await connection.executemany("INSERT INTO stock VALUES ($1, $2, $3, $4)", [(key, key, Decimal(key), "many") for key in (2, 3)])
        expect([it["id"] for it in await connection.fetch("SELECT id FROM stock ORDER BY id DESC LIMIT 2")], [3, 2])
        expect(await connection.execute("DELETE FROM stock WHERE id = $1", 3), "DELETE 1")
        for price in ("0", "-0.05", "999999.99", "100", "0.10"):
            await connection.execute("UPDATE stock SET price = $1 WHERE id = 1", Decimal(price))
            expect(await connection.fetchval("SELECT price FROM stock WHERE id = 1"), Decimal(price))

    tried(gateway, act)


@PART.served
def blocks_savepoints_and_cursors(gateway: Gateway) -> None:
    async def act(connection: Any) -> None:
        async with connection.transaction():
            await connection.execute(TAKE, 1, 1)
            try:
                async with connection.transaction():
                    await connection.execute(TAKE, 99, 1)
            except asyncpg.CheckViolationError as error:
                expect(error.constraint_name, "in_stock")
            else:
                raise AssertionError("no CheckViolationError")
            async with connection.transaction():
                await connection.execute(TAKE, 1, 1)
            expect([it["id"] async for it in connection.cursor("SELECT * FROM stock")], [1])
        expect((await connection.fetchrow(ONE, 1))["pieces"], 3)

    tried(gateway, act)


@PART.served
def a_pool_gives_back_clean_connections(gateway: Gateway) -> None:
    """At each release the pool sends what resets a session."""

    async def act(connection: Any) -> None:
        async with asyncpg.create_pool(
            host=str(gateway.folder), port=PORT, user="clerk", database="bank", min_size=2, max_size=4, command_timeout=END
        ) as pool:

            async def take() -> None:
                async with pool.acquire() as it:
                    await it.execute("SET application_name = 'taken'")
                    await it.execute(TAKE, 0, 1)

            await asyncio.gather(*(take() for _ in range(20)))
            async with pool.acquire() as it:
                expect(await it.fetchval("SHOW application_name"), "")
            async with pool.acquire() as it:
                await it.execute("BEGIN")
                await it.execute(TAKE, 5, 1)
            async with pool.acquire() as it:
                expect((await it.fetchrow(ONE, 1))["pieces"], 5)
        await connection.execute(TAKE, 5, 1)

    tried(gateway, act)


if __name__ == "__main__":
    main(PART)
