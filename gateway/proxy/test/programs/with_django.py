"""Django's models on rows from a number on: python3 with_django.py FIRST HOST PORT DATABASE. Prints what it gets."""
from __future__ import annotations

import sys
import types
import uuid
from decimal import Decimal
from typing import Any

import django
from django.conf import settings
from django.db import IntegrityError, connection, models, transaction
from django.db.models import F

FIRST, HOST, PORT, DATABASE = sys.argv[1:]
module = types.ModuleType("shop")
module.__path__ = []
module.__file__ = "/shop/__init__.py"
sys.modules["shop"] = module
settings.configure(
    SECRET_KEY="x", INSTALLED_APPS=[], USE_TZ=True,
    DATABASES={"default": {"ENGINE": "django.db.backends.postgresql", "NAME": DATABASE, "USER": "clerk", "HOST": HOST, "PORT": PORT}},
)
django.setup()


class Stock(models.Model):  # type: ignore[misc]
    """A row of the stock."""

    id = models.IntegerField(primary_key=True)
    title = models.CharField(max_length=40)
    pieces = models.IntegerField()

    class Meta:
        app_label = "shop"
        db_table = "stock"
        managed = False


class Order(models.Model):  # type: ignore[misc]
    """An order."""

    item = models.ForeignKey(Stock, models.PROTECT, db_column="item")
    pieces = models.IntegerField()

    class Meta:
        app_label = "shop"
        db_table = "orders"
        managed = False


class Account(models.Model):  # type: ignore[misc]
    """An account."""

    id = models.UUIDField(primary_key=True)
    owner = models.TextField()
    balance = models.DecimalField(max_digits=12, decimal_places=2)
    held = models.DecimalField(max_digits=12, decimal_places=2)

    class Meta:
        app_label = "shop"
        db_table = "account"
        managed = False


stocks: Any = Stock._default_manager
orders: Any = Order._default_manager
accounts: Any = Account._default_manager


def buy(item: int, pieces: int) -> None:
    """Writes an order, and takes its pieces."""
    with transaction.atomic():
        orders.create(item_id=item, pieces=pieces)
        print("updated", stocks.filter(pk=item).update(pieces=F("pieces") - pieces))


def shown(what: str, first: int) -> None:
    """Prints the rows."""
    print(what, list(stocks.filter(pk__range=(first, first + 99)).order_by("pk").values_list("id", "title", "pieces")),
          list(orders.filter(item__gte=first, item__lt=first + 100).order_by("pk").values_list("item", "pieces")))


def refused(what: str, item: int, pieces: int) -> None:
    """Prints the error of an order, which has to come."""
    try:
        buy(item, pieces)
        print(what, "not refused")
    except IntegrityError as error:
        cause: Any = error.__cause__
        print(what, cause.pgcode, cause.diag.table_name, cause.diag.constraint_name)


def main() -> None:
    first = int(FIRST)
    one, two, three, four = (first + it for it in (1, 2, 3, 4))
    buy(one, 3)
    refused("too many", one, 1000)
    shown("bought", first)
    with transaction.atomic():
        buy(two, 1)
        refused("nested", two, 1000)
        with transaction.atomic():
            buy(two, 2)
        place = transaction.savepoint()
        buy(three, 1)
        transaction.savepoint_rollback(place)
        buy(three, 2)
    shown("nested", first)
    try:
        with transaction.atomic():
            buy(one, 1)
            raise KeyError
    except KeyError:
        pass
    it = stocks.get(pk=four)
    it.pieces = F("pieces") - 1
    it.save(update_fields=["pieces"])
    it = stocks.get(pk=four)
    it.pieces = F("pieces") - 2
    it.title = "saved"
    it.save()
    with transaction.atomic():
        locked = stocks.select_for_update().get(pk=four)
        print("locked", locked.title)
        print("updated", stocks.filter(pk=four, pieces__gte=2).update(pieces=F("pieces") - 2))
        print("updated", stocks.filter(pk=four, pieces__gte=500).update(pieces=F("pieces") - 500))
    print("both", stocks.filter(pk__in=[three, four]).update(pieces=F("pieces") - 1))
    with transaction.atomic():
        stocks.create(id=first + 9, title="made", pieces=4)
        stocks.filter(pk=first + 9).update(pieces=F("pieces") - 1)
    stocks.filter(pk=first + 5).delete()
    account = uuid.UUID(f"00000000-0000-0000-0000-{first:012}")
    print("account", accounts.filter(pk=account).update(balance=F("balance") - Decimal("1.25"), held=F("held") + Decimal("0.50")))
    print("account", accounts.values_list("balance", "held").get(pk=account))
    print("bulk", len(orders.bulk_create([Order(item_id=one, pieces=it) for it in (7, 8)])))
    shown("all", first)
    with connection.cursor() as cursor:
        print("described", [(field.name, field.type_code) for field in connection.introspection.get_table_description(cursor, "stock")])


if __name__ == "__main__":
    main()
