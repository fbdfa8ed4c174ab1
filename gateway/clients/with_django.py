"""Django 3.2: a model of a table that exists, over psycopg2, with Django's own transactions."""
from __future__ import annotations

import importlib
import sys
import types
from decimal import Decimal
from typing import Any, Callable, List

import django
import django.db
from django.conf import settings
from django.db import IntegrityError, InternalError, connections, models, transaction
from django.db.models import F
from django.db.utils import NotSupportedError, OperationalError, ProgrammingError

from clients.servers import PORT, Gateway
from clients.suite import Part, expect, main
from clients.wire import Connection

PART = Part("with_django")
TABLE = "CREATE TABLE stock (id INTEGER PRIMARY KEY, pieces INTEGER RESERVABLE CONSTRAINT in_stock CHECK (pieces >= 0), price NUMBER(8,2), name VARCHAR2(20))"
APPLICATION = "shop"


def model() -> Any:
    """Returns the model of the table. Django wants a module as its application."""
    if APPLICATION not in sys.modules:
        module = types.ModuleType(APPLICATION)
        module.__path__ = []
        module.__file__ = f"/{APPLICATION}/__init__.py"
        sys.modules[APPLICATION] = module
        settings.configure(
            SECRET_KEY="x",
            INSTALLED_APPS=[],
            USE_TZ=True,
            DATABASES={
                "default": {"ENGINE": "django.db.backends.postgresql", "NAME": "bank", "USER": "clerk", "HOST": "/nowhere", "PORT": str(PORT)}
            },
        )
        django.setup()
        importlib.invalidate_caches()

        class Stock(models.Model):  # type: ignore[misc]
            id = models.BigIntegerField(primary_key=True)
            pieces = models.BigIntegerField()
            price = models.DecimalField(max_digits=8, decimal_places=2)
            name = models.CharField(max_length=20)

            class Meta:
                app_label = APPLICATION
                db_table = "stock"
                managed = False

        module.Stock = Stock  # type: ignore[attr-defined]
    return sys.modules[APPLICATION].Stock


def stock(gateway: Gateway) -> Any:
    """Creates the table with two rows, and returns its model over a connection of its own."""
    made = model()
    connections["default"].close()
    connections["default"].settings_dict["HOST"] = str(gateway.folder)
    with Connection(gateway.socket) as it:
        it.do(TABLE, "INSERT INTO stock VALUES (1, 5, 9.50, 'tea')", "INSERT INTO stock VALUES (2, 7, 0.25, 'milk')")
    return made


def pieces(gateway: Gateway) -> List[str]:
    """Returns what the rows have, as another connection sees it."""
    with Connection(gateway.socket) as it:
        return [row[1] for row in it.rows("SELECT * FROM stock")]


@PART.served
def loads_filters_and_counts(gateway: Gateway) -> None:
    objects = stock(gateway).objects
    it = objects.get(pk=1)
    expect((it.id, it.pieces, it.price, it.name), (1, 5, Decimal("9.50"), "tea"))
    expect([row.name for row in objects.all()], ["tea", "milk"])
    expect([row.id for row in objects.filter(pk=2)], [2])
    expect([row.id for row in objects.filter(pk__in=[2, 3, 1]).order_by("id")], [1, 2])
    expect((objects.count(), objects.filter(pk__in=[1, 9]).count(), objects.filter(pk=9).count()), (2, 1, 0))
    expect((objects.filter(pk=1).exists(), objects.filter(pk=9).exists()), (True, False))
    expect([row.id for row in objects.order_by("-id")[:1]], [2])
    expect([row.id for row in objects.order_by("id")[1:5]], [2])
    expect((objects.first().id, objects.last().id), (1, 2))
    expect(sorted(objects.in_bulk([1, 2])), [1, 2])
    expect(list(objects.values_list("name", flat=True).order_by("id")), ["tea", "milk"])
    expect([row.pieces for row in objects.only("pieces").filter(pk=1)], [5])
    expect(list(objects.filter(pk=1).values("id", "price")), [{"id": 1, "price": Decimal("9.50")}])
    try:
        objects.get(pk=9)
    except model().DoesNotExist:
        pass
    else:
        raise AssertionError("a row that does not exist was found")
    connections["default"].close()


@PART.served
def reserves_in_atomic_blocks(gateway: Gateway) -> None:
    objects = stock(gateway).objects
    with transaction.atomic():
        expect(objects.filter(pk=1).update(pieces=F("pieces") - 3), 1)
        expect(pieces(gateway), ["5", "7"])
    expect(pieces(gateway), ["2", "7"])
    with transaction.atomic():
        expect(objects.filter(pk=9).update(pieces=F("pieces") - 3), 0)
        objects.select_for_update().get(pk=2)
        with transaction.atomic():
            objects.filter(pk=2).update(pieces=F("pieces") + 1)
        try:
            with transaction.atomic():
                objects.filter(pk=1).update(pieces=F("pieces") - 3)
        except IntegrityError as error:
            expect(error.__cause__.diag.constraint_name, "in_stock")
        else:
            raise AssertionError("no IntegrityError")
    expect(pieces(gateway), ["2", "8"])
    try:
        with transaction.atomic():
            objects.filter(pk=2).update(pieces=F("pieces") - 8)
            raise KeyError
    except KeyError:
        pass
    expect(pieces(gateway), ["2", "8"])
    connections["default"].close()


@PART.served
def creates_saves_and_deletes(gateway: Gateway) -> None:
    """Each outside of a block, since it commits by itself. `save` names the columns that it may set."""
    made = stock(gateway)
    it = made.objects.create(id=3, pieces=1, price=Decimal("1.50"), name="it's")
    it.refresh_from_db()
    expect((it.pieces, it.price, it.name), (1, Decimal("1.50"), "it's"))
    it.name = "new"
    it.save(update_fields=["name"])
    it.pieces = F("pieces") + 2
    it.save(update_fields=["pieces"])
    it.refresh_from_db()
    expect((it.pieces, it.name), (3, "new"))
    it.delete()
    expect(made.objects.count(), 2)
    expect(pieces(gateway), ["5", "7"])
    try:
        made.objects.filter(pk=2).delete()  # Django opens a block for it
    except InternalError as error:
        expect(error.__cause__.pgcode, "25001")
    else:
        raise AssertionError("a DELETE was served inside a block")
    connections["default"].close()


@PART.served
def what_is_not_there_is_refused_by_its_name(gateway: Gateway) -> None:
    """0A000 or a fault of the syntax, and Django goes on behind it."""
    objects = stock(gateway).objects
    refused: List[Callable[[], object]] = [
        lambda: objects.filter(name="tea").count(),
        lambda: objects.aggregate(models.Sum("pieces")),
        lambda: list(objects.filter(pieces__gt=1)),
    ]
    for act in refused:
        try:
            act()
        except (NotSupportedError, ProgrammingError, OperationalError):
            continue
        raise AssertionError("it was served")
    expect(objects.count(), 2)
    connections["default"].close()


@PART.served
def introspection(gateway: Gateway) -> None:
    """What Django asks of the catalog."""
    stock(gateway)
    connection = connections["default"]
    expect(connection.introspection.table_names(), ["stock"])
    with connection.cursor() as cursor:
        found = connection.introspection.get_table_description(cursor, "stock")
        expect([it.name for it in found], ["id", "pieces", "price", "name"])
        expect(connection.introspection.get_primary_key_column(cursor, "stock"), "id")
        constraints = connection.introspection.get_constraints(cursor, "stock")
        expect([name for name, it in constraints.items() if it["primary_key"]], ["stock_pkey"])
        expect(constraints["in_stock"]["check"], True)
    connection.close()


if __name__ == "__main__":
    main(PART)
