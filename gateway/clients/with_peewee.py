"""peewee: a model of a table that exists, over psycopg2."""
from __future__ import annotations

from typing import Any

import peewee

from clients.servers import PORT, Gateway
from clients.suite import Part, expect, main
from clients.wire import Connection

PART = Part("with_peewee")
TABLE = "CREATE TABLE stock (id INTEGER PRIMARY KEY, pieces INTEGER RESERVABLE CONSTRAINT in_stock CHECK (pieces >= 0), name VARCHAR2(20))"


@PART.served
def loads_counts_and_reserves(gateway: Gateway) -> None:
    database = peewee.PostgresqlDatabase("bank", host=str(gateway.folder), port=PORT, user="clerk")

    class Stock(peewee.Model):  # type: ignore[misc]
        id = peewee.BigIntegerField(primary_key=True)
        pieces = peewee.BigIntegerField()
        name = peewee.CharField(20)

        class Meta:
            table_name = "stock"

    stock: Any = Stock
    stock.bind(database)
    with Connection(gateway.socket) as it:  # peewee opens a block for each statement, in which these are refused
        it.do(TABLE, "INSERT INTO stock VALUES (1, 5, 'tea')", "INSERT INTO stock VALUES (2, 5, 'milk')")
    expect(stock.get_by_id(1).name, "tea")
    # pylint: disable-next=no-value-for-parameter  # peewee's decorator gives count its database
    expect((stock.select().count(), stock.select().where(stock.id == 1).exists(), stock.get_or_none(stock.id == 9)), (2, True, None))
    expect([it.id for it in stock.select().where(stock.id.in_([1, 2])).order_by(stock.id)], [1, 2])
    expect([it.id for it in stock.select().order_by(stock.id.desc()).paginate(1, 1)], [2])
    expect([it.pieces for it in stock.select(stock.id, stock.pieces)], [5, 5])
    with database.atomic():
        expect(stock.update(pieces=stock.pieces - 3).where(stock.id == 1).execute(), 1)
        with database.atomic():
            stock.update(pieces=stock.pieces + 1).where(stock.id == 2).execute()
    expect([it.pieces for it in stock.select().order_by(stock.id)], [2, 6])
    try:
        with database.atomic():
            stock.update(pieces=stock.pieces - 3).where(stock.id == 1).execute()
    except peewee.IntegrityError:
        pass
    else:
        raise AssertionError("no IntegrityError")
    expect(stock.get_by_id(1).pieces, 2)
    database.close()


if __name__ == "__main__":
    main(PART)
