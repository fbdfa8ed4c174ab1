"""SQLAlchemy over psycopg2: Core with its defaults, and models of a table that exists."""
from __future__ import annotations

from decimal import Decimal

import sqlalchemy
import sqlalchemy.exc
from sqlalchemy import BigInteger, Column, Numeric, String, delete, func, inspect, literal_column, select, text, update
from sqlalchemy.orm import Session, declarative_base

from clients.servers import PORT, Gateway
from clients.suite import Part, expect, main

PART = Part("with_sqlalchemy")
STOCK = "CREATE TABLE stock (id INTEGER PRIMARY KEY, pieces INTEGER RESERVABLE CONSTRAINT in_stock CHECK (pieces >= 0), price NUMBER(8,2), name VARCHAR2(20))"
TAKE = text("UPDATE stock SET pieces = pieces - :count WHERE id = :id")
INSERT = text("INSERT INTO stock VALUES (:id, :pieces, :price, :name)")


def engine(gateway: Gateway, **more: object) -> sqlalchemy.engine.Engine:
    """Returns an engine for a gateway."""
    return sqlalchemy.create_engine(f"postgresql+psycopg2://clerk@/bank?host={gateway.folder}&port={PORT}", **more)


@PART.served
def inserts_selects_and_transactions(gateway: Gateway) -> None:
    made = engine(gateway)
    # What commits by itself needs a connection without a block around it.
    with made.connect().execution_options(isolation_level="AUTOCOMMIT") as connection:
        connection.execute(text(STOCK))
        connection.execute(INSERT, {"id": 1, "pieces": 5, "price": Decimal("9.50"), "name": "Bob's \\ tea"})
        connection.execute(INSERT, [{"id": key, "pieces": key, "price": 0, "name": "many"} for key in (2, 3)])
    with made.begin() as connection:
        expect(connection.execute(TAKE, {"count": 2, "id": 1}).rowcount, 1)
        expect(connection.execute(TAKE, {"count": 2, "id": 9}).rowcount, 0)
    try:
        with made.begin() as connection:
            connection.execute(TAKE, {"count": 1, "id": 2})
            connection.execute(TAKE, {"count": 99, "id": 1})
    except sqlalchemy.exc.IntegrityError as error:
        expect(error.orig.diag.constraint_name, "in_stock")
    else:
        raise AssertionError("no IntegrityError")
    with made.connect() as connection:
        row = connection.execute(text("SELECT * FROM stock WHERE id = :id"), {"id": 1}).mappings().one()
        expect(dict(row), {"id": 1, "pieces": 3, "price": Decimal("9.50"), "name": "Bob's \\ tea"})
        expect([tuple(it)[:2] for it in connection.execute(text("SELECT * FROM stock"))], [(1, 3), (2, 2), (3, 3)])
    made.dispose()


@PART.served
def nested_transactions(gateway: Gateway) -> None:
    made = engine(gateway)
    with made.connect().execution_options(isolation_level="AUTOCOMMIT") as connection:
        connection.execute(text(STOCK))
        connection.execute(INSERT, {"id": 1, "pieces": 9, "price": 1, "name": "tea"})
    with made.begin() as connection:
        connection.execute(TAKE, {"count": 1, "id": 1})
        inner = connection.begin_nested()
        connection.execute(TAKE, {"count": 2, "id": 1})
        inner.rollback()
        with connection.begin_nested():
            connection.execute(TAKE, {"count": 4, "id": 1})
    with made.connect() as connection:
        expect(connection.execute(text("SELECT * FROM stock")).scalars("pieces").all(), [4])
    made.dispose()


@PART.served
def pool_of_connections(gateway: Gateway) -> None:
    """A pool that looks whether a connection is alive, and whose dialect asks what it asks at a first connect."""
    made = engine(gateway, pool_size=3, max_overflow=0, pool_pre_ping=True)
    for _ in range(5):
        with made.connect() as first, made.connect() as second, made.connect() as third:
            expect([it.execute(text("show standard_conforming_strings")).scalar() for it in (first, second, third)], ["on"] * 3)
    expect(made.dialect.server_version_info[0], 15)
    expect(made.dialect.default_schema_name, "public")
    made.dispose()


Base = declarative_base()


class Stock(Base):  # type: ignore[misc, valid-type]
    """The model of the table."""

    __tablename__ = "stock"
    id = Column(BigInteger, primary_key=True, autoincrement=False)
    pieces = Column(BigInteger)
    price = Column(Numeric(8, 2))
    name = Column(String(20))


def prepared(gateway: Gateway) -> sqlalchemy.engine.Engine:
    """Returns an engine for a gateway that has the table with three rows."""
    made = engine(gateway)
    with made.connect().execution_options(isolation_level="AUTOCOMMIT") as connection:
        connection.execute(text(STOCK))
        for key, name in ((1, "tea"), (2, "milk"), (3, "salt")):
            connection.execute(INSERT, {"id": key, "pieces": 5, "price": Decimal("9.50"), "name": name})
    return made


@PART.served
def models_load_filter_and_count(gateway: Gateway) -> None:
    made = prepared(gateway)
    with Session(made) as session:
        it = session.get(Stock, 1)
        expect((it.pieces, it.price, it.name), (5, Decimal("9.50"), "tea"))
        expect([row.name for row in session.query(Stock)], ["tea", "milk", "salt"])
        expect(session.query(Stock).filter(Stock.id == 2).one().name, "milk")
        expect([row.id for row in session.query(Stock).filter(Stock.id.in_([3, 1, 9])).order_by(Stock.id)], [1, 3])
        expect([row.id for row in session.query(Stock).order_by(Stock.id).limit(2).offset(1)], [2, 3])
        expect(session.query(Stock).order_by(Stock.id.desc()).first().id, 3)
        expect([tuple(row) for row in session.query(Stock.id, Stock.pieces).filter(Stock.id == 1)], [(1, 5)])
        expect(session.execute(select(func.count()).select_from(Stock)).scalar(), 3)
        expect(session.execute(select(func.count(Stock.id)).where(Stock.id == 9)).scalar(), 0)
        expect((session.query(Stock).count(), session.query(Stock).filter(Stock.id == 1).count()), (3, 1))
        expect(session.execute(select(literal_column("1")).where(Stock.id == 1)).scalar(), 1)
        expect(session.get(Stock, 9), None)
    made.dispose()


@PART.served
def models_reserve(gateway: Gateway) -> None:
    made = prepared(gateway)
    with Session(made) as session, session.begin():
        session.execute(update(Stock).where(Stock.id == 1).values(pieces=Stock.pieces - 3).execution_options(synchronize_session=False))
        session.query(Stock).with_for_update().filter(Stock.id == 2).one().pieces = Stock.pieces - 1
        session.flush()
        with session.begin_nested():
            session.execute(update(Stock).where(Stock.id == 3).values(pieces=Stock.pieces + 1).execution_options(synchronize_session=False))
    try:
        with Session(made) as session, session.begin():
            session.execute(update(Stock).where(Stock.id == 3).values(pieces=Stock.pieces - 1).execution_options(synchronize_session=False))
            session.execute(update(Stock).where(Stock.id == 1).values(pieces=Stock.pieces - 3).execution_options(synchronize_session=False))
    except sqlalchemy.exc.IntegrityError as error:
        expect(error.orig.diag.constraint_name, "in_stock")
    else:
        raise AssertionError("no IntegrityError")
    with Session(made) as session:
        expect([row.pieces for row in session.query(Stock).order_by(Stock.id)], [2, 4, 6])
    made.dispose()


@PART.served
def models_insert_change_and_delete(gateway: Gateway) -> None:
    """In a session that commits each statement by itself."""
    made = prepared(gateway)
    with Session(made.execution_options(isolation_level="AUTOCOMMIT")) as session:
        session.add(Stock(id=5, pieces=1, price=1, name="new"))
        session.commit()
        it = session.get(Stock, 5)
        it.name = "newer"
        session.commit()
        expect(session.get(Stock, 5).name, "newer")
        session.delete(it)
        session.commit()
        expect(session.execute(delete(Stock).where(Stock.id == 3)).rowcount, 1)
        session.add_all([Stock(id=key, pieces=1, price=1, name="many") for key in (7, 8)])
        session.commit()
        expect([row.id for row in session.query(Stock.id).order_by(Stock.id)], [1, 2, 7, 8])
    made.dispose()


@PART.served
def the_inspector(gateway: Gateway) -> None:
    """What SQLAlchemy asks of the catalog."""
    made = prepared(gateway)
    found = inspect(made)
    expect((found.has_table("stock"), found.has_table("nothing"), found.get_table_names()), (True, False, ["stock"]))
    expect([it["name"] for it in found.get_columns("stock")], ["id", "pieces", "price", "name"])
    expect(found.get_pk_constraint("stock")["constrained_columns"], ["id"])
    expect([it["name"] for it in found.get_check_constraints("stock")], ["in_stock"])
    expect((found.get_foreign_keys("stock"), found.get_view_names()), ([], []))
    Base.metadata.create_all(made)  # the table exists, so nothing is created
    made.dispose()


if __name__ == "__main__":
    main(PART)
