"""SQLAlchemy's ORM and Core on rows from a number on: python3 with_sqlalchemy.py FIRST HOST PORT DATABASE. Prints what they get."""
from __future__ import annotations

import sys
from decimal import Decimal
from typing import Any

import sqlalchemy
import sqlalchemy.orm
from sqlalchemy import Column, ForeignKey, Integer, MetaData, Numeric, String, Table, inspect, select, update
from sqlalchemy.dialects.postgresql import UUID, array
from sqlalchemy.exc import IntegrityError

# The library's types are not its users'.
Base: Any = sqlalchemy.orm.declarative_base()
Session: Any = sqlalchemy.orm.Session
create_engine: Any = sqlalchemy.create_engine


class Stock(Base):  # type: ignore[misc]
    """A row of the stock."""

    __tablename__ = "stock"
    id = Column(Integer, primary_key=True, autoincrement=False)
    title = Column(String(40))
    pieces = Column(Integer)


class Order(Base):  # type: ignore[misc]
    """An order."""

    __tablename__ = "orders"
    id = Column(Integer, primary_key=True)
    item = Column(Integer, ForeignKey("stock.id"))
    pieces = Column(Integer)


ACCOUNT = Table("account", MetaData(), Column("id", UUID(as_uuid=False), primary_key=True), Column("balance", Numeric(12, 2)), Column("held", Numeric(12, 2)))


def take(item: int, pieces: int) -> Any:
    """Returns the statement that takes pieces."""
    return update(Stock).where(Stock.id == item).values(pieces=Stock.pieces - pieces).execution_options(synchronize_session=False)


def shown(what: str, engine: Any, first: int) -> None:
    """Prints the rows."""
    with Session(engine) as session:
        print(what, [(it.id, it.title, it.pieces) for it in session.query(Stock).filter(Stock.id.between(first, first + 99)).order_by(Stock.id)],
              [(it.item, it.pieces) for it in session.query(Order).filter(Order.item.between(first, first + 99)).order_by(Order.id)])


def main() -> None:
    first = int(sys.argv[1])
    one, two, three, four = (first + it for it in (1, 2, 3, 4))
    engine = create_engine(f"postgresql+psycopg2://clerk@/{sys.argv[4]}?host={sys.argv[2]}&port={sys.argv[3]}", future=True)
    with Session(engine) as session, session.begin():
        session.add(Order(item=one, pieces=3))
        print("taken", session.execute(take(one, 3)).rowcount)
    try:
        with Session(engine) as session, session.begin():
            session.add(Order(item=one, pieces=1000))
            session.flush()
            session.execute(take(one, 1000))
        print("not refused")
    except IntegrityError as error:
        print("too many", error.orig.pgcode, error.orig.diag.table_name, error.orig.diag.constraint_name)
    with Session(engine) as session, session.begin():
        session.execute(take(two, 1))
        try:
            with session.begin_nested():
                session.add(Order(item=two, pieces=1000))
                session.execute(take(two, 1000))
        except IntegrityError as error:
            print("nested", error.orig.diag.constraint_name)
        with session.begin_nested():
            session.add(Order(item=two, pieces=2))
            session.execute(take(two, 2))
    shown("nested", engine, first)
    with Session(engine) as session, session.begin():
        it = session.get(Stock, three)
        it.pieces = Stock.pieces - 2  # the ORM writes an UPDATE by the key
        session.add(Order(item=three, pieces=2))
    with Session(engine) as session, session.begin():
        it = session.get(Stock, four, with_for_update=True)
        it.title = "changed"
        it.pieces = Stock.pieces + 1
    with engine.connect() as connection:
        connection.execute(ACCOUNT.update().where(ACCOUNT.c.id == f"00000000-0000-0000-0000-{first:012}")
                           .values(balance=ACCOUNT.c.balance - Decimal("1.25"), held=ACCOUNT.c.held + Decimal("0.50")))
        connection.execute(take(four, 1))
        connection.rollback()
    with engine.connect().execution_options(isolation_level="AUTOCOMMIT") as connection:
        print("account", connection.execute(ACCOUNT.update().where(ACCOUNT.c.id == f"00000000-0000-0000-0000-{first:012}")
                                            .values(balance=ACCOUNT.c.balance - Decimal("1.25"), held=ACCOUNT.c.held + Decimal("0.50"))).rowcount)
        print("account", [tuple(it) for it in connection.execute(select(ACCOUNT.c.balance, ACCOUNT.c.held).where(ACCOUNT.c.id == f"00000000-0000-0000-0000-{first:012}"))])
        print("any", connection.execute(Stock.__table__.update().where(Stock.__table__.c.id == sqlalchemy.any_(array([three, four]))).values(pieces=Stock.__table__.c.pieces - 1)).rowcount)
        print("many", connection.execute(Stock.__table__.update().where(Stock.__table__.c.id.in_([three, four])).values(pieces=Stock.__table__.c.pieces - 1)).rowcount)
    shown("all", engine, first)
    print("inspected", [(it["name"], str(it["type"]), it["nullable"]) for it in inspect(engine).get_columns("stock")], inspect(engine).get_pk_constraint("stock")["constrained_columns"])


if __name__ == "__main__":
    main()
