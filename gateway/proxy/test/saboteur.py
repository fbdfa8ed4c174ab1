#!/usr/bin/env python3
"""Tests schema escrow and escrowd-proxy against schedules, names and callers of a saboteur.

    python3 -m proxy.test.saboteur            all cases, in the folder gateway
"""
from __future__ import annotations

import re
import socket
import struct
import subprocess
import tempfile
import threading
import time
from contextlib import contextmanager
from functools import partial
from pathlib import Path
from typing import Any, Callable, Iterator, List, Tuple

import psycopg
from psycopg import errors

from clients import wire
from clients.servers import END, wait_until
from clients.suite import main
from proxy.test.harness import FOLDED, PROXY, Proxy, SharedPart, installed
from proxy.test.sql import Copy, refused, same, stock, until_free, value
from proxy.test.standin import ROLE, Client, Cluster, Owner, of_proxy, perform


def end_clients(cluster: Cluster) -> None:
    """Ends all connections, also those of a case that has failed."""
    cluster.run("SELECT pg_terminate_backend(pid) FROM pg_stat_activity WHERE backend_type = 'client backend' AND pid <> pg_backend_pid()")
    until_free(cluster)


PART = SharedPart("proxy_saboteur", installed, end_clients)
part = PART.case


@contextmanager
def owner_of(cluster: Cluster) -> Iterator[Proxy]:
    """Opens a proxy that is the owner, and whose COMMITs wait for their folds however busy the machine is."""
    with Proxy(cluster, "", *FOLDED) as proxy:
        proxy.await_owner()
        yield proxy


def change_here(client: Client, relation: str, key: object, change: object) -> bool:
    """Sends a change without a reservation, as the proxy does for a row that its client has locked. Returns whether it was done."""
    owner = client.owner
    table, text = owner.one("SELECT number, here_text FROM escrow.declared WHERE relation = %s::regclass", relation)
    number, shown, written = owner.next(), str(key), str(change)
    proof = owner.mac("here", table, owner.epoch, client.connection.info.backend_pid, number, len(shown.encode()), shown, written)
    row = perform(client.connection, text, (owner.epoch, number, shown, [written], proof, relation)).fetchone()
    assert row is not None
    return bool(row[0])


def taken_over(owner: Owner) -> Owner:
    """Returns a second owner. The first has lost its locks, and doesn't know it."""
    owner.keeper.execute("SELECT pg_advisory_unlock_all()")
    return Owner(owner.cluster)


def all_ordinary(cluster: Cluster) -> None:
    """Makes all tables ordinary."""
    cluster.run("SELECT escrow.ordinary(relation) FROM escrow.declared")


@part
def a_change_here_of_a_former_epoch_raises(cluster: Cluster) -> None:
    """The new owner has set its epoch, and still waits for who has reserved the row in the former one."""
    owner = stock(cluster, 5)
    owner.load("stock", 1)
    holder, late = Client(owner), Client(owner)
    holder.execute("BEGIN")
    holder.note("stock", 1, -5)
    second = taken_over(owner)
    with refused(errors.SerializationFailure, "not the owner any more"):
        change_here(late, "stock", 1, -5)
    holder.execute("COMMIT")
    same(second.load("stock", 1), ["0"])
    # Under the new epoch it is good where nobody holds the row, and the new owner sees that it holds the journal.
    late.owner = second
    late.greet()
    late.execute("BEGIN")
    same((change_here(late, "stock", 1, 1), change_here(late, "stock", 2, -1)), (False, True))
    same(second.keeper.execute("SELECT process FROM escrow.holders()").fetchall(), [(late.connection.info.backend_pid,)])
    late.execute("COMMIT")
    same(value(cluster, "SELECT pieces FROM stock WHERE id = 2"), 4)


@part
def names_end_where_they_end(cluster: Cluster) -> None:
    """A name that ends with a quotation mark is another one than the same without it."""
    cluster.run('CREATE TABLE t (id integer PRIMARY KEY, a integer NOT NULL, "a""" integer NOT NULL CONSTRAINT it CHECK (2 * "a""" >= 0))')
    with cluster.connect() as it:
        same(it.execute("""SELECT escrow.reservable('t', 'a', 'a"')""").fetchall(), [('it: 2 * a" >= 0',)])
        it.execute("SELECT escrow.ordinary('t'); DROP TABLE t")


@part
def products_fit_bigint(cluster: Cluster) -> None:
    """PostgreSQL fails where a product leaves bigint, also within a CHECK that would hold: a fold of what was granted would be refused."""
    with cluster.connect() as it:
        for condition in ("n * 1000000 >= 0", "n - 10000 * n < 5", "n + 9223372036854775000 > 0"):
            it.execute(f"CREATE TABLE t (id integer PRIMARY KEY, n bigint NOT NULL CHECK ({condition}))".encode())
            with refused(errors.InvalidTableDefinition, "the CHECK t_n_check compares no sums"):
                it.execute("SELECT escrow.reservable('t', 'n')")
            it.execute("DROP TABLE t")
        it.execute("CREATE TABLE t (id integer PRIMARY KEY, n bigint NOT NULL CHECK (n * 9000 >= 0)); SELECT escrow.reservable('t', 'n')")
        it.execute("SELECT escrow.ordinary('t'); DROP TABLE t")


@part
def nobody_acts_for_others(cluster: Cluster) -> None:
    """A role's function that PostgreSQL calls for a superuser, as ANALYZE does, may not do what the superuser may."""
    stock(cluster)
    cluster.run("CREATE ROLE mallory LOGIN", "CREATE SCHEMA mallory AUTHORIZATION mallory", "GRANT USAGE ON SCHEMA public TO mallory")
    with cluster.connect("mallory") as it:
        it.execute("CREATE FUNCTION mallory.f(i integer) RETURNS integer LANGUAGE plpgsql IMMUTABLE AS 'BEGIN RETURN i; END'; "
                   "CREATE TABLE mallory.t (i integer); INSERT INTO mallory.t SELECT generate_series(1, 9); CREATE INDEX ON mallory.t (mallory.f(i))")
    for call in ("ordinary('public.stock')", "take('cart')", "release('cart')", "prolong('cart', '1 day')", "hold('mine', '1 day')"):
        with cluster.connect("mallory") as it:
            for name, kind, acts in (("g()", "void", f"PERFORM escrow.{call};"), ("f(i integer)", "integer IMMUTABLE", "PERFORM mallory.g(); RETURN i;")):
                it.execute(f"CREATE OR REPLACE FUNCTION mallory.{name} RETURNS {kind} LANGUAGE plpgsql AS $$ BEGIN {acts} END $$".encode())
        with cluster.connect() as it:
            with refused(errors.InsufficientPrivilege, "within security-restricted operation"):
                it.execute("ANALYZE mallory.t /* escrow.hold */")
    with cluster.connect() as it:
        # The role of SET ROLE counts, and not the one that may take it.
        it.execute("SET ROLE mallory")
        with refused(errors.InsufficientPrivilege, "must be owner of table public.stock"):
            it.execute("SELECT escrow.ordinary('stock')")
        it.execute("RESET ROLE; CREATE ROLE keeper NOINHERIT LOGIN; GRANT mallory TO keeper; "
                   "CREATE TABLE mallory.own (id integer PRIMARY KEY, n integer NOT NULL); ALTER TABLE mallory.own OWNER TO mallory")
    with cluster.connect("keeper") as it:
        it.execute("SET ROLE mallory; SELECT escrow.reservable('mallory.own', 'n'); SELECT escrow.ordinary('mallory.own')")
    same(value(cluster, "SELECT relation::text FROM escrow.declared"), "stock")
    cluster.run("DROP OWNED BY mallory", "DROP ROLE mallory, keeper")


# Acts of a role that owns a declared table: each = and <> of its own writes down with whose rights it is called.
MALLORY = """SET search_path = mallory, pg_catalog;
    CREATE TABLE t (id integer PRIMARY KEY, n integer NOT NULL); INSERT INTO t VALUES (1, 9), (2, 9); CREATE TABLE loot (who name);
    GRANT USAGE ON SCHEMA mallory TO PUBLIC; GRANT INSERT ON loot TO PUBLIC;
    CREATE FUNCTION sets() RETURNS trigger LANGUAGE plpgsql AS $$ BEGIN
        PERFORM pg_catalog.set_config('search_path', 'mallory, pg_catalog', false); RETURN NULL; END $$;
    CREATE TRIGGER sets AFTER UPDATE ON t FOR EACH ROW EXECUTE FUNCTION sets();
    DO $do$ DECLARE it record; BEGIN
        FOR it IN SELECT t, o, 'f' || n AS f FROM unnest('{integer,bigint,text,oid,name}'::text[], '{1,2,3,4,5}'::int[]) AS u (t, n), unnest('{=,<>}'::text[]) AS o LOOP
            EXECUTE format('CREATE FUNCTION mallory.%1$s(a %2$s, b %2$s) RETURNS boolean LANGUAGE plpgsql AS $f$ BEGIN INSERT INTO mallory.loot VALUES (current_user); '
                'RETURN a OPERATOR(pg_catalog.%3$s) b; END $f$; CREATE OPERATOR mallory.%3$s (LEFTARG = %2$s, RIGHTARG = %2$s, FUNCTION = mallory.%1$s)',
                it.f || ascii(it.o), it.t, it.o);
        END LOOP; END $do$; SET search_path = public; SELECT escrow.reservable('mallory.t', 'n')"""


@part
def a_path_that_a_trigger_sets_is_nobody_elses(cluster: Cluster) -> None:
    """PostgreSQL keeps a SET beyond the function with a SET of its own in which a trigger does it: the caller went on by the path of another role's."""
    all_ordinary(cluster)
    cluster.run("CREATE ROLE mallory LOGIN", "CREATE SCHEMA mallory AUTHORIZATION mallory")
    with cluster.connect("mallory") as it:
        it.execute(MALLORY.encode())
    owner = Owner(cluster)
    client = Client(owner)

    def fold() -> None:
        client.note("mallory.t", 1, -1)
        client.note("mallory.t", 2, -1)
        owner.fold("mallory.t", 1, 2)

    def leave() -> None:
        client.note("mallory.t", 1, -1)
        owner.leave("mallory.t", 1)

    def make_ordinary() -> None:
        client.note("mallory.t", 1, -1)
        cluster.run("SELECT escrow.ordinary('mallory.t')", user="mallory")

    acts: List[Callable[[], object]] = [lambda: owner.load("mallory.t", 1), fold, leave, lambda: change_here(client, "mallory.t", 2, -1), make_ordinary]
    for act in acts:
        act()
        same(value(cluster, "SELECT array_agg(DISTINCT who) FROM mallory.loot"), None)
        for one in (owner.keeper, client.connection):
            one.execute("RESET ALL")
    same(value(cluster, "SELECT array_agg(n ORDER BY id) FROM mallory.t"), [6, 7])
    cluster.run("DROP OWNED BY mallory", "DROP ROLE mallory")


# Functions that fit calls better than those of PostgreSQL, which take arrays or values of any type. Each writes down who runs it.
FITTING = {
    "unnest(it bigint[])": ("SETOF bigint", "FOR i IN 1 .. cardinality(it) LOOP RETURN NEXT it[i]; END LOOP;"),
    "array_to_string(it text[], parts text)": ("text", "RETURN (SELECT string_agg(x, parts) FROM unnest(it) AS x);"),
    "format(it text, value integer)": ("text", "RETURN replace(replace(it, '%1$s', value::text), '%s', value::text);"),
    "format(it text, value regclass)": ("text", "RETURN replace(it, '%L', value::text);"),
    "format(it text, value text)": ("text", "RETURN replace(replace(it, '%I', quote_ident(value)), '%s', value);"),
}


@part
def nothing_in_public_runs_with_the_rights_of_the_proxy(cluster: Cluster) -> None:
    """All may create there in a database that is older than PostgreSQL 15."""
    stock(cluster).keeper.close()
    cluster.run("CREATE ROLE mallory LOGIN", "GRANT CREATE ON SCHEMA public TO mallory")
    with cluster.connect("mallory") as it:
        it.execute("CREATE TABLE public.loot (who name); GRANT INSERT ON loot TO PUBLIC")
        for name, (result, act) in FITTING.items():
            it.execute(f"CREATE FUNCTION public.{name} RETURNS {result} LANGUAGE plpgsql AS $$ BEGIN INSERT INTO public.loot VALUES (current_user); "
                       f"{act} END $$".encode())
        it.execute("SELECT array_to_string('{a}'::text[], ',') || format('%s', 1)")
    looted = "SELECT array_agg(DISTINCT who) FROM loot"
    with owner_of(cluster) as proxy, proxy.connect() as it:
        for text in ("BEGIN", "SAVEPOINT a", "UPDATE stock SET pieces = pieces - 1 WHERE id = 1", "ROLLBACK TO a",
                     "UPDATE stock SET pieces = pieces - 2 WHERE id = 1", "COMMIT"):
            it.execute(text.encode())
        same(it.execute("SELECT pieces FROM stock WHERE id = 1").fetchall(), [(8,)])
        same(value(cluster, looted), ["mallory"])
    with cluster.connect() as it, refused(errors.ObjectInUse, "cannot be truncated"):
        it.execute("TRUNCATE stock")
    for script in ("install.sql", "uninstall.sql", "install.sql"):
        cluster.script(script)
        same((script, value(cluster, looted)), (script, ["mallory"]))
    cluster.run("DROP OWNED BY mallory", "DROP ROLE mallory")


@part
def a_schema_of_somebody_elses_is_left_alone(cluster: Cluster) -> None:
    """Who may create schemas could make it before it is installed, with a function for the superuser to run."""
    cluster.run("CREATE ROLE mallory LOGIN", "DROP DATABASE IF EXISTS copy", "CREATE DATABASE copy OWNER mallory")
    copied = Copy(cluster)
    with copied.connect("mallory") as it:
        it.execute("CREATE SCHEMA escrow")
        for name, result in (("version()", "integer"), ("is_live(bigint)", "boolean")):
            it.execute(f"CREATE FUNCTION escrow.{name} RETURNS {result} LANGUAGE plpgsql AS 'BEGIN ALTER ROLE mallory SUPERUSER; RETURN NULL; END'".encode())
    for script in ("install", "uninstall"):
        with refused(errors.ObjectNotInPrerequisiteState, "schema escrow belongs to the role mallory"):
            copied.script(f"{script}.sql")
        run = subprocess.run([str(PROXY), script, "--apply", "--postgres", copied.dsn()], stderr=subprocess.PIPE, text=True, check=False)
        assert run.returncode == 1 and "schema escrow belongs to the role mallory" in run.stderr, run
        same(value(cluster, "SELECT rolsuper FROM pg_roles WHERE rolname = 'mallory'"), False)
    cluster.run("DROP DATABASE copy WITH (FORCE)", "DROP ROLE mallory")


@part
def an_owner_gets_another_name(cluster: Cluster) -> None:
    """No event trigger hears of it. So it may change nothing that DDL of any table is compared with."""
    all_ordinary(cluster)
    cluster.run("CREATE ROLE shop", "CREATE SCHEMA shop AUTHORIZATION shop")
    with cluster.connect() as it:
        it.execute("SET ROLE shop")
        for name in ("a", "b"):
            it.execute(f"CREATE TABLE shop.{name} (id integer PRIMARY KEY, n integer NOT NULL); SELECT escrow.reservable('shop.{name}', 'n')".encode())
        it.execute("RESET ROLE; ALTER ROLE shop RENAME TO market")
        it.execute("CREATE TABLE other (id integer); DROP TABLE other; CREATE ROLE shop")
        with refused(errors.ObjectInUse, "would change what is declared reservable of a"):
            it.execute("ALTER TABLE shop.a OWNER TO shop")
    # It gives all that it owns away. No event trigger hears of that either.
    cluster.run("REASSIGN OWNED BY market TO shop", "CREATE TABLE other (id integer)", "DROP TABLE other")
    cluster.script("install.sql")
    with cluster.connect() as it:
        for role, may_read in (("shop", True), ("market", False)):
            it.execute(f"SET ROLE {role}".encode())
            same([takes(it, text) for text in ("SELECT FROM escrow.now_a", "ALTER TABLE shop.a ADD COLUMN more text")], [may_read, may_read])
            it.execute("RESET ROLE")
    all_ordinary(cluster)
    cluster.run("DROP SCHEMA shop CASCADE", "DROP ROLE shop, market")


@part
def default_privileges_change_nothing(cluster: Cluster) -> None:
    """Who installs may have some that give rights on whatever is made, the secret too, or that let nobody call functions."""
    cluster.run("CREATE ROLE mallory LOGIN", "CREATE ROLE buyer LOGIN", "DROP DATABASE IF EXISTS copy", "CREATE DATABASE copy")
    copied = Copy(cluster)
    copied.run(*(f"ALTER DEFAULT PRIVILEGES GRANT ALL ON {kind} TO mallory, PUBLIC" for kind in ("TABLES", "SEQUENCES")),
               "ALTER DEFAULT PRIVILEGES GRANT ALL ON FUNCTIONS TO mallory", "ALTER DEFAULT PRIVILEGES REVOKE ALL ON FUNCTIONS FROM PUBLIC")
    copied.script("install.sql")
    owner = stock(copied)
    copied.run("GRANT SELECT, UPDATE ON stock TO buyer")
    buyer = Client(owner, "buyer")
    buyer.note("stock", 1, -1)
    assert buyer.direct("stock", 1, -1)
    functions = "^(mac|is_fresh|standing|look|set_epoch|end_owner|end_holders|(lock|load|leave)_[0-9]+)$"
    given = ("SELECT array_agg(DISTINCT object || ' ' || privilege) FROM (SELECT relname, a.privilege_type, grantee FROM pg_class, aclexplode(relacl) AS a "
             "WHERE relnamespace = 'escrow'::regnamespace AND relkind <> 'v' "
             "UNION SELECT proname, a.privilege_type, grantee FROM pg_proc, aclexplode(proacl) AS a "
             f"WHERE pronamespace = 'escrow'::regnamespace AND proname ~ '{functions}') "
             "AS it (object, privilege, grantee) WHERE grantee = 0 OR grantee = 'mallory'::regrole")
    same(value(copied, given), ["declared SELECT"])
    cluster.run("DROP DATABASE copy WITH (FORCE)", "DROP ROLE mallory, buyer")


@part
def a_trigger_of_another_table_folds_nothing(cluster: Cluster) -> None:
    """Whoever may execute a trigger's function may put it on a table of their own: a fold of that table would take what is committed of the real one."""
    owner = stock(cluster)
    table = owner.declared("stock")[0]
    cluster.run("CREATE ROLE mallory LOGIN")
    Client(owner).note("stock", 1, -4)
    with cluster.connect("mallory") as it:
        it.execute("CREATE TEMP TABLE mine (id integer, pieces integer); INSERT INTO mine VALUES (1, 0); SET escrow.fold = on")
        for kind, when in (("guard", "BEFORE UPDATE"), ("keep", "AFTER DELETE")):
            with refused(errors.InsufficientPrivilege, f"permission denied for function escrow.{kind}_{table}"):
                it.execute(f"CREATE TRIGGER t {when} ON mine FOR EACH ROW EXECUTE FUNCTION escrow.{kind}_{table}()".encode())
        # It may have had one since before nobody could.
        cluster.run(f"GRANT EXECUTE ON FUNCTION escrow.guard_{table} TO mallory")
        it.execute(f"CREATE TRIGGER t BEFORE UPDATE ON mine FOR EACH ROW EXECUTE FUNCTION escrow.guard_{table}(); UPDATE mine SET id = id".encode())
        cluster.run(f"REVOKE EXECUTE ON FUNCTION escrow.guard_{table} FROM mallory")
    same((owner.fold("stock", 1), value(cluster, "SELECT pieces FROM stock WHERE id = 1")), (["1"], 6))
    # A name that PostgreSQL writes in quotation marks is that of the table too.
    cluster.run("SELECT escrow.ordinary('stock')", """CREATE SCHEMA "It's ""mine"" \\" """, """ALTER TABLE stock SET SCHEMA "It's ""mine"" \\" """)
    named = """"It's ""mine"" \\".stock"""
    with cluster.connect() as it:
        it.execute("SELECT escrow.reservable(%s, 'pieces')", (named,))
    Client(owner).note(named, 1, -4)
    same((owner.fold(named, 1), value(cluster, f"SELECT pieces FROM {named} WHERE id = 1")), (["1"], 2))
    with cluster.connect() as it:
        it.execute("SELECT escrow.ordinary(%s)", (named,))
    cluster.run("""DROP SCHEMA "It's ""mine"" \\" CASCADE""", "DROP ROLE mallory")


@part
def triggers_of_a_declared_table_are_its_owners(cluster: Cluster) -> None:
    """GRANT ALL has the right to make triggers. A fold runs them with the rights of the table's owner, here a superuser, whoever changes the row."""
    owner = stock(cluster)
    cluster.run("CREATE ROLE mallory LOGIN", "GRANT ALL ON stock TO mallory",
                "CREATE FUNCTION noop() RETURNS trigger LANGUAGE plpgsql AS 'BEGIN RETURN NEW; END'")
    with cluster.connect("mallory") as it:
        it.execute("CREATE FUNCTION pg_temp.acts() RETURNS trigger LANGUAGE plpgsql AS 'BEGIN ALTER ROLE mallory SUPERUSER; RETURN NEW; END'")
        for function in ("pg_temp.acts", "noop"):
            with refused(errors.InsufficientPrivilege, "must be owner of a declared table to create a trigger on it"):
                it.execute(f"CREATE TRIGGER acts BEFORE UPDATE ON stock FOR EACH ROW EXECUTE FUNCTION {function}()".encode())
        mallory = Client(owner, "mallory")
        assert mallory.direct("stock", 1, -1)
    same(value(cluster, "SELECT rolsuper FROM pg_roles WHERE rolname = 'mallory'"), False)
    cluster.run("CREATE TRIGGER acts BEFORE UPDATE ON stock FOR EACH ROW EXECUTE FUNCTION noop()", "DROP TRIGGER acts ON stock", "DROP FUNCTION noop",
                "DROP OWNED BY mallory", "DROP ROLE mallory")


@part
def temporary_tables_stand_for_none_of_the_owners(cluster: Cluster) -> None:
    """A trigger that names its table without a schema writes into the owner's, also if the client has a temporary one with a trigger of its own."""
    owner = stock(cluster)
    cluster.run("CREATE ROLE mallory LOGIN", "GRANT SELECT, UPDATE ON stock TO mallory", "CREATE TABLE audit (pieces integer)",
                "CREATE FUNCTION record() RETURNS trigger LANGUAGE plpgsql AS 'BEGIN INSERT INTO audit VALUES (NEW.pieces); RETURN NULL; END'",
                "CREATE TRIGGER record AFTER UPDATE ON stock FOR EACH ROW EXECUTE FUNCTION record()")
    mallory = Client(owner, "mallory")
    mallory.execute("CREATE TEMP TABLE audit (pieces integer); GRANT ALL ON audit TO PUBLIC; CREATE FUNCTION pg_temp.acts() RETURNS trigger "
                    "LANGUAGE plpgsql AS 'BEGIN ALTER ROLE mallory SUPERUSER; RETURN NEW; END'; "
                    "CREATE TRIGGER acts BEFORE INSERT ON audit FOR EACH ROW EXECUTE FUNCTION pg_temp.acts()")

    def fold_own() -> None:
        mallory.execute("BEGIN")
        mallory.note("stock", 2, -1)
        mallory.fold("stock", 2)
        mallory.execute("COMMIT")

    acts: List[Callable[[], object]] = [lambda: mallory.direct("stock", 1, -1), fold_own, lambda: change_here(mallory, "stock", 3, -2)]
    for act in acts:
        act()
        same(value(cluster, "SELECT rolsuper FROM pg_roles WHERE rolname = 'mallory'"), False)
    same(value(cluster, "SELECT array_agg(pieces ORDER BY pieces) FROM audit"), [8, 9, 9])
    mallory.connection.close()
    cluster.run("DROP TRIGGER record ON stock", "DROP FUNCTION record", "DROP TABLE audit", "DROP OWNED BY mallory", "DROP ROLE mallory")


def keep_detail(said: List[str], notice: psycopg.errors.Diagnostic) -> None:
    """Keeps the detail of a notice."""
    said.append(notice.message_detail or "")


@part
def plans_print_no_reservations(cluster: Cluster) -> None:
    """PostgreSQL prints plans with the values of parameters, also of what the proxy runs on the client's connection."""
    stock(cluster).keeper.close()
    cluster.run("CREATE ROLE mallory LOGIN", "CREATE ROLE watcher LOGIN", "GRANT pg_monitor TO watcher")
    asked = "SELECT 1 FROM escrow.reservations()"
    with owner_of(cluster) as proxy, proxy.connect() as it:
        it.execute("BEGIN; UPDATE stock SET pieces = pieces - 3 WHERE id = 4")
        for user, is_told in (("mallory", False), ("watcher", True)):
            with proxy.connect(user=user) as other:
                said: List[str] = []
                other.add_notice_handler(partial(keep_detail, said))
                other.execute("SET debug_print_plan = on; SET debug_pretty_print = off; SET client_min_messages = log; SET plan_cache_mode = force_custom_plan")
                same(takes(other, asked), is_told)
                # The words of the entries.
                values = (bytes(int(byte) % 256 for byte in it.split()) for plan in said for it in re.findall(r":constvalue [0-9]+ \[ ([^]]*)\]", plan))
                same(any(b"echangesprocess" in it for it in values), is_told)
    cluster.run("DROP ROLE mallory, watcher")


@part
def a_view_of_another_owner_stays_that_owners(cluster: Cluster) -> None:
    """The owner of a view may write the number of a table that comes later into its comment, and may have granted the view to all."""
    all_ordinary(cluster)
    cluster.run("CREATE ROLE mallory LOGIN", "CREATE SCHEMA mallory AUTHORIZATION mallory", "CREATE ROLE buyer LOGIN", "DROP TABLE IF EXISTS stock")
    with cluster.connect("mallory") as it:
        it.execute("CREATE TABLE mallory.stock (id integer PRIMARY KEY, pieces integer NOT NULL); SELECT escrow.reservable('mallory.stock', 'pieces')")
        number = 1 + it.execute("SELECT max(number) FROM escrow.declared").fetchall()[0][0]
        it.execute(f"COMMENT ON VIEW escrow.now_stock IS '{number}'; GRANT SELECT ON escrow.now_stock TO buyer".encode())
        it.execute("CREATE VIEW mallory.more AS SELECT * FROM escrow.now_stock")
    cluster.run("CREATE TABLE stock (id integer PRIMARY KEY, pieces integer NOT NULL)", "SELECT escrow.reservable('stock', 'pieces')")
    found = value(cluster, f"SELECT escrow.now_view({number})::text")
    same((value(cluster, "SELECT max(number) FROM escrow.declared"), found), (number, f"escrow.now_{number}"))
    with cluster.connect("buyer") as it, refused(errors.InsufficientPrivilege):
        it.execute(f"SELECT * FROM escrow.now_{number}".encode())
    cluster.script("install.sql")
    cluster.run("SELECT escrow.ordinary('stock')", "DROP VIEW mallory.more", "DROP VIEW escrow.now_stock", "SELECT escrow.ordinary('mallory.stock')",
                "DROP TABLE stock", "DROP OWNED BY mallory", "DROP ROLE mallory, buyer")


@part
def a_dump_numbers_columns_anew(cluster: Cluster) -> None:
    """Columns that were dropped leave holes in the numbers, which a dump has not."""
    all_ordinary(cluster)
    cluster.run("CREATE TABLE holes (gone integer, id integer PRIMARY KEY, n integer NOT NULL)", "ALTER TABLE holes DROP COLUMN gone",
                "INSERT INTO holes VALUES (1, 7)", "SELECT escrow.reservable('holes', 'n')")
    dump = subprocess.run(["pg_dump", "-d", cluster.dsn()], check=True, stdout=subprocess.PIPE).stdout
    cluster.run("DROP DATABASE IF EXISTS copy", "CREATE DATABASE copy")
    copied = Copy(cluster)
    subprocess.run(["psql", "-Xqd", copied.dsn(), "-v", "ON_ERROR_STOP=1"], input=dump, check=True, stdout=subprocess.DEVNULL)
    copied.script("install.sql")
    copied.run("CREATE TABLE other (id integer)")
    second = Owner(copied)
    same(second.load("holes", 1), ["7"])
    Client(second).note("holes", 1, -1)
    same((second.fold("holes", 1), value(copied, "SELECT n FROM holes")), (["1"], 6))
    cluster.run("DROP DATABASE copy WITH (FORCE)", "SELECT escrow.ordinary('holes')", "DROP TABLE holes")


@part
def definitions_stay_on_other_ways(cluster: Cluster) -> None:
    all_ordinary(cluster)
    cluster.run("CREATE ROLE mallory LOGIN", "CREATE SCHEMA mallory AUTHORIZATION mallory",
                "CREATE TABLE mallory.t (id integer PRIMARY KEY, n integer NOT NULL)", "ALTER TABLE mallory.t OWNER TO mallory",
                "SELECT escrow.reservable('mallory.t', 'n')")
    n = value(cluster, "SELECT number FROM escrow.declared")
    texts: List[str] = ["ALTER SCHEMA mallory RENAME TO m", "CREATE SCHEMA more CREATE TABLE child () INHERITS (mallory.t)",
                        f"ALTER FUNCTION escrow.row_{n}(integer, boolean, boolean) SET SCHEMA mallory"]
    for user, text in (("clerk", texts[0]), ("clerk", texts[1]), ("mallory", texts[2])):
        with cluster.connect(user) as it, refused(errors.ObjectInUse, "would change what is declared reservable of t"):
            it.execute(text.encode())
    cluster.run("CREATE SCHEMA more", "ALTER SCHEMA more RENAME TO less", "DROP SCHEMA less", "SELECT escrow.ordinary('mallory.t')",
                "DROP OWNED BY mallory", "DROP ROLE mallory")


@part
def an_old_snapshot_declares_and_alters_nothing(cluster: Cluster) -> None:
    """In REPEATABLE READ the catalog and the marks are those of the snapshot, and a lock that was waited for shows nothing newer."""
    owner = stock(cluster)
    rewrites = "ALTER TABLE stock ALTER title TYPE varchar(50)"
    cases: List[Tuple[Callable[[], object], str, str]] = [
        (lambda: owner.load("stock", 5), rewrites, "would write a table with reservable columns anew"),
        (lambda: cluster.run("SELECT escrow.ordinary('stock')", "ALTER TABLE stock ADD CHECK (pieces < 50)"), "SELECT escrow.reservable('stock', 'pieces')",
         "escrow.reservable needs READ COMMITTED"),
        (lambda: cluster.run("SELECT escrow.reservable('stock', 'pieces')"), "ALTER TABLE stock DISABLE TRIGGER ALL",
         "could not see which tables are declared"),
        (lambda: cluster.run("SELECT escrow.ordinary('stock'); SELECT escrow.reservable('stock', 'pieces')"), "CREATE UNIQUE INDEX ON stock (id, pieces)",
         "could not see which tables are declared"),
    ]
    for level in ("REPEATABLE READ", "SERIALIZABLE"):
        for before, act, why in cases:
            with cluster.connect() as it:
                it.execute(f"BEGIN ISOLATION LEVEL {level}; SELECT FROM orders".encode())
                before()
                with refused(psycopg.Error, why):
                    it.execute(act.encode())
    with cluster.connect() as it:
        it.execute("BEGIN ISOLATION LEVEL SERIALIZABLE; ALTER TABLE stock ADD COLUMN more text; ALTER TABLE orders ALTER pieces TYPE bigint; COMMIT")
        it.execute(rewrites.encode())
    same(value(cluster, "SELECT count(*) FROM pg_trigger WHERE tgrelid = 'stock'::regclass AND tgenabled = 'A'"), 3)


@part
def a_table_that_was_dropped_unseen_stops_no_ddl(cluster: Cluster) -> None:
    """A superuser drops tables while event triggers are off. What they have left can be removed."""
    stock(cluster).keeper.close()
    cluster.run("CREATE ROLE mallory LOGIN", "CREATE TABLE ware (id integer PRIMARY KEY, n integer NOT NULL)", "INSERT INTO ware VALUES (1, 9)",
                "SELECT escrow.reservable('ware', 'n'), escrow.reservable('orders', 'pieces')")
    gone = value(cluster, "SELECT array_agg(relation::oid ORDER BY relation) FROM escrow.declared WHERE relation IN ('stock'::regclass, 'orders'::regclass)")
    with cluster.connect() as it:
        it.execute("SET session_replication_role = replica; DROP TABLE stock, orders CASCADE; RESET session_replication_role")
        it.execute("CREATE TABLE other (id integer); ALTER TABLE other ADD COLUMN n integer; DROP TABLE other")
        for text in ("ALTER TABLE ware ADD CHECK (n < 100)", "DROP TABLE ware CASCADE"):
            with refused(errors.ObjectInUse, "would change what is declared reservable of"):
                it.execute(text.encode())
        cluster.script("install.sql")
        for relation in gone:
            with cluster.connect("mallory") as other, refused(errors.InsufficientPrivilege, "must be owner of table"):
                other.execute("SELECT escrow.ordinary(%s::oid::regclass)", (relation,))
            it.execute("SELECT escrow.ordinary(%s::oid::regclass)", (relation,))
    same(value(cluster, "SELECT array_agg(relation::text) FROM escrow.declared"), ["ware"])
    same(value(cluster, "SELECT count(*) FROM pg_class WHERE relnamespace = 'escrow'::regnamespace AND relname ~ '^(journal|held)_[0-9]+$'"), 2)
    cluster.run("SELECT escrow.ordinary('ware')", "DROP TABLE ware", "DROP ROLE mallory")


@part
def a_trigger_that_lacks_its_table_stops_the_table(cluster: Cluster) -> None:
    """PostgreSQL's error is that of functions which are gone: the proxy may not take the table for one that is ordinary again."""
    all_ordinary(cluster)
    cluster.run("CREATE TABLE log (id integer)",
                "CREATE FUNCTION logs() RETURNS trigger LANGUAGE plpgsql AS 'BEGIN INSERT INTO public.log VALUES (1); RETURN NULL; END'",
                "CREATE TABLE ware (id integer PRIMARY KEY, n integer NOT NULL CHECK (n >= 0))", "INSERT INTO ware VALUES (1, 9), (2, 9)",
                "CREATE TRIGGER logs AFTER UPDATE ON ware FOR EACH ROW EXECUTE FUNCTION logs()", "SELECT escrow.reservable('ware', 'n')")
    take = "UPDATE ware SET n = n - 1 WHERE id = "
    with owner_of(cluster) as proxy, proxy.connect() as it:
        it.execute(f"{take}1".encode())
        wait_until("it is folded", lambda: value(cluster, "SELECT n FROM ware WHERE id = 1") == 8)
        cluster.run("DROP TABLE log")
        it.execute(f"BEGIN; {take}1; COMMIT".encode())
        wait_until("the table stands still", lambda: "ALARM: FoldRefused" in proxy.said())
        with refused(errors.ObjectNotInPrerequisiteState, "has stopped reservations of table"):
            it.execute(f"{take}1".encode())
        cluster.run("CREATE TABLE log (id integer)")
        it.execute("SELECT escrow.resume('ware')")
        wait_until("it is folded", lambda: value(cluster, "SELECT n FROM ware WHERE id = 1") == 7)
        # A row that is not loaded yet.
        cluster.run("DROP TABLE log")
        with refused(psycopg.errors.UndefinedTable, 'relation "public.log" does not exist'):
            it.execute(f"{take}2".encode())
    cluster.run("DROP TRIGGER logs ON ware", "DROP FUNCTION logs", "SELECT escrow.ordinary('ware')", "DROP TABLE ware")


def said(kind: bytes, body: bytes) -> bytes:
    """Returns a message of a client."""
    return kind + struct.pack(">I", 4 + len(body)) + body


def answered(it: socket.socket) -> List[Tuple[bytes, bytes]]:
    """Returns kind and body of each message of a server, up to its ReadyForQuery."""
    found: List[Tuple[bytes, bytes]] = []
    with it.makefile("rb") as stream:
        while not found or found[-1][0] != b"Z":
            kind, length = struct.unpack(">cI", stream.read(5))
            found.append((kind, stream.read(length - 4)))
    return found


@part
def a_portal_is_run_once(cluster: Cluster) -> None:
    """PostgreSQL refuses the second Execute of a portal. The change must not be made twice."""
    stock(cluster).keeper.close()
    with owner_of(cluster) as proxy, socket.socket(socket.AF_UNIX) as it:
        it.settimeout(END)
        it.connect(str(proxy.socket))
        it.sendall(said(b"", struct.pack(">I", 196608) + b"user\0clerk\0database\0bank\0\0"))
        answered(it)
        parsed, bound = said(b"P", b"\0UPDATE stock SET pieces = pieces - 1 WHERE id = 1\0\0\0"), said(b"B", b"\0" * 8)
        executed = said(b"E", b"\0" * 5)
        it.sendall(parsed + bound + executed + executed + said(b"S", b""))
        kinds = b"".join(kind for kind, _ in answered(it) if kind in b"CEZ")
    same((kinds, value(cluster, "SELECT pieces FROM escrow.now_stock WHERE id = 1")), (b"CEZ", 10))


class Cut:
    """Passes on what a proxy sends to PostgreSQL and back. A connection that has sent a word is lost: what answers that never comes."""

    def __init__(self, folder: Path, target: Path) -> None:
        self.target, self.word = target, b""
        self.listener = socket.socket(socket.AF_UNIX)
        self.listener.bind(str(folder / target.name))
        self.listener.listen(100)
        threading.Thread(target=self.accept, daemon=True).start()

    def accept(self) -> None:
        """Passes on all connections."""
        while True:
            proxy, postgres = self.listener.accept()[0], socket.socket(socket.AF_UNIX)
            postgres.connect(str(self.target))
            for source, target, word in ((proxy, postgres, True), (postgres, proxy, False)):
                threading.Thread(target=self.passes, args=(source, target, word), daemon=True).start()

    def passes(self, source: socket.socket, target: socket.socket, is_proxys: bool) -> None:
        """Passes one direction on to its end."""
        try:
            while piece := source.recv(65_536):
                is_lost = is_proxys and self.word != b"" and self.word in piece
                if is_lost:
                    self.word = b""
                    source.shutdown(socket.SHUT_RDWR)
                target.sendall(piece)
            target.shutdown(socket.SHUT_WR)
        except OSError:
            pass


@part
def a_note_behind_a_block_is_answered_before_its_end_is_sent(cluster: Cluster) -> None:
    """The client ends its block before a Sync, so that the Sync behind its UPDATE commits. The connection is lost with the note's answer."""
    stock(cluster).keeper.close()
    with tempfile.TemporaryDirectory() as name:
        cut = Cut(Path(name), cluster.socket)
        with Proxy(cluster, postgres=of_proxy(cluster.dsn()).replace(str(cluster.sockets), name)) as proxy:
            take = "UPDATE stock SET pieces = pieces - 4 WHERE id = 1"
            with wire.Connection(proxy.socket) as it:
                it.do(take, "BEGIN")
                backend = it.rows("SELECT pg_backend_pid()")[0][0]
                cut.word = b"SELECT escrow.note_"
                it.send(wire.parse("COMMIT"), wire.bind(), wire.execute(), wire.query(take))
                it.until_end()
            wait_until("its backend has ended", lambda: value(cluster, f"SELECT count(*) FROM pg_stat_activity WHERE pid = {backend}") == 0)
            # What was given back was not committed.
            with proxy.connect() as other:
                other.execute("UPDATE stock SET pieces = pieces - 6 WHERE id = 1")
            same(value(cluster, "SELECT pieces FROM stock WHERE id = 1"), 0)


@part
def a_row_that_could_not_be_left_is_left_later(cluster: Cluster) -> None:
    """A client locks the row before it deletes it. The proxy cannot take the mark away then; a later DELETE must be able to."""
    stock(cluster).keeper.close()
    with owner_of(cluster) as proxy, proxy.connect() as it:
        it.execute("UPDATE stock SET pieces = pieces - 1 WHERE id = 1")
        with refused(errors.ObjectInUse, "the row of stock is held by escrowd-proxy"):
            it.execute("BEGIN; SELECT 1 FROM stock WHERE id = 1 FOR UPDATE; DELETE FROM stock WHERE id = 1")
        it.execute("ROLLBACK")
        it.execute("DELETE FROM stock WHERE id = 1")
        same(value(cluster, "SELECT count(*) FROM stock WHERE id = 1"), 0)


@part
def a_condition_comes_before_other_checks(cluster: Cluster) -> None:
    """PostgreSQL changes no row where the condition does not hold, whatever CHECKs say of the change."""
    all_ordinary(cluster)
    cluster.run("CREATE TABLE two (id integer PRIMARY KEY, n integer NOT NULL, CONSTRAINT a CHECK (n >= 5), CONSTRAINT b CHECK (n >= 0))",
                "INSERT INTO two VALUES (1, 6)", "SELECT escrow.reservable('two', 'n')")
    with owner_of(cluster) as proxy, proxy.connect() as it:
        same(it.execute("UPDATE two SET n = n - 9 WHERE id = 1 AND n >= 9").rowcount, 0)
    cluster.run("SELECT escrow.ordinary('two')", "DROP TABLE two")


@part
def an_index_that_is_refused_leaves_nothing(cluster: Cluster) -> None:
    """CREATE INDEX CONCURRENTLY has committed an index, which is kept up to date, before the event trigger hears of it."""
    stock(cluster)
    with cluster.connect() as it:
        it.execute("DELETE FROM stock WHERE id > 1")
        with refused(errors.ObjectInUse, "would change what is declared reservable of stock"):
            it.execute("CREATE UNIQUE INDEX CONCURRENTLY u ON stock (pieces)")
        it.execute("INSERT INTO stock VALUES (2, 'x', 10); CREATE TABLE other (id integer); DROP TABLE other")


@part
def a_leave_on_a_lost_connection_comes_late(cluster: Cluster) -> None:
    """The row was loaded again meanwhile: its mark is that of the later load. A load of before may be late too."""
    owner = stock(cluster)
    table, _ = owner.declared("stock")
    for loads, leave, stays in (([1], 2, False), ([3], 2, True), ([3, 1], 2, True), ([1, 3], 4, False)):
        for number in loads:
            same(owner.load("stock", 1, number), ["10"])
        assert owner.leave("stock", 1, leave)
        same((loads, leave, value(cluster, f"SELECT count(*) = 1 FROM escrow.held_{table}")), (loads, leave, stays))
        owner.leave("stock", 1, 9)
    # A mark of a former epoch goes, whatever its number: its hold has ended.
    owner.load("stock", 1, 5)
    later = taken_over(owner)
    assert later.leave("stock", 1, 1)
    same(value(cluster, f"SELECT count(*) FROM escrow.held_{table}"), 0)


@part
def what_is_no_key_leaves_no_row(cluster: Cluster) -> None:
    """A cast to the key's type would cut the text, or round it, to the key of another row."""
    all_ordinary(cluster)
    for key_type, held, other in (("varchar(3)", "'abc'", "'abcd'"), ("numeric(5,1)", "1.5", "1.54")):
        cluster.run(f"CREATE TABLE keyed (id {key_type} PRIMARY KEY, n integer NOT NULL CHECK (n >= 0))", f"INSERT INTO keyed VALUES ({held}, 9)",
                    "SELECT escrow.reservable('keyed', 'n')")
        with owner_of(cluster) as proxy, proxy.connect() as it, proxy.connect() as other_one:
            it.execute(f"BEGIN; UPDATE keyed SET n = n - 1 WHERE id = {held}")
            same(other_one.execute(f"DELETE FROM keyed WHERE id = {other}").rowcount, 0)
            with cluster.connect() as straight, refused(errors.ObjectInUse, "the row of keyed is held by escrowd-proxy"):
                straight.execute("DELETE FROM keyed")
            it.execute("COMMIT")
        cluster.run("SELECT escrow.ordinary('keyed')", "DROP TABLE keyed")


@part
def a_condition_is_of_its_column_alone(cluster: Cluster) -> None:
    """A CHECK of the same constraint, over another column, refuses the change as PostgreSQL does."""
    all_ordinary(cluster)
    cluster.run("CREATE TABLE two (id integer PRIMARY KEY, n integer NOT NULL, m integer NOT NULL)",
                "ALTER TABLE two ADD CONSTRAINT both_of CHECK (m >= 0 AND n >= 0 AND n <= 9)", "INSERT INTO two VALUES (1, 5, 0)",
                "SELECT escrow.reservable('two', 'n', 'm')")
    with owner_of(cluster) as proxy, proxy.connect() as it:
        with refused(errors.CheckViolation, "both_of"):
            it.execute("UPDATE two SET n = n - 1, m = m - 1 WHERE id = 1 AND n >= 1")
        with refused(errors.CheckViolation, "both_of"):
            it.execute("UPDATE two SET n = n + 9 WHERE id = 1 AND n >= -9")
        same(it.execute("UPDATE two SET n = n - 6 WHERE id = 1 AND n >= 6").rowcount, 0)
    cluster.run("SELECT escrow.ordinary('two')", "DROP TABLE two")


@part
def the_whole_row_has_its_columns(cluster: Cluster) -> None:
    """Neither the constraint nor the index depends on a column. A fold would fail by each of them."""
    all_ordinary(cluster)
    cluster.run("CREATE TABLE whole (id integer PRIMARY KEY, n integer NOT NULL)", "INSERT INTO whole VALUES (1, 9)",
                "CREATE FUNCTION n_of(whole) RETURNS integer IMMUTABLE LANGUAGE sql AS 'SELECT $1.n'")
    in_index = "the column n is in an expression or the condition of the index"
    for made, gone, why in (
        ("ALTER TABLE whole ADD CONSTRAINT c CHECK (n_of(whole) > 5)", "ALTER TABLE whole DROP CONSTRAINT c", "the CHECK c names the whole row"),
        ("CREATE UNIQUE INDEX i ON whole (n_of(whole))", "DROP INDEX i", "the column n is in a unique index"),
        ("CREATE INDEX i ON whole ((1 / n_of(whole)))", "DROP INDEX i", in_index),
        ("CREATE INDEX i ON whole (id) WHERE 1 / n_of(whole) = 1", "DROP INDEX i", in_index),
    ):
        cluster.run(made)
        with cluster.connect() as it, refused(errors.InvalidTableDefinition, why):
            it.execute("SELECT escrow.reservable('whole', 'n')")
        cluster.run(gone, "SELECT escrow.reservable('whole', 'n')")
        with cluster.connect() as it, refused(errors.ObjectInUse, "would change what is declared reservable of whole"):
            it.execute(made.encode())
        cluster.run("SELECT escrow.ordinary('whole')")
    cluster.run("DROP TABLE whole CASCADE")


@part
def an_index_is_judged_before_it_is_built(cluster: Cluster) -> None:
    stock(cluster).keeper.close()
    cluster.run("CREATE SCHEMA aside", "CREATE TABLE aside.stock (pieces integer)", "CREATE TABLE aside.\"ON stock\" (pieces integer)")
    refusals = ["UNIQUE INDEX CONCURRENTLY ON stock (pieces)",
                "UNIQUE INDEX CONCURRENTLY IF NOT EXISTS i ON ONLY public.\"stock\" USING btree (title, Pieces)",
                "UNIQUE INDEX /* of */ CONCURRENTLY i ON -- the table\n public . stock (title) INCLUDE (\"pieces\")",
                "INDEX CONCURRENTLY i ON stock ((pieces + 1))",
                "INDEX CONCURRENTLY i ON stock (title) WHERE pieces % 2 = 0",
                "INDEX CONCURRENTLY i ON stock ((stock::text))",
                "UNIQUE INDEX CONCURRENTLY i ON stock (U&\"\\0070ieces\")",
                "UNIQUE INDEX CONCURRENTLY i ON U&\"\\0073tock\" (pieces)"]
    passes = ["INDEX CONCURRENTLY i ON stock (pieces DESC)",
              "UNIQUE INDEX CONCURRENTLY i ON stock (title, id)",
              "INDEX CONCURRENTLY i ON stock (lower(title)) WHERE id > 5",
              "INDEX CONCURRENTLY i ON stock USING btree (id) INCLUDE (pieces) WITH (fillfactor = 70)",
              "UNIQUE INDEX CONCURRENTLY i ON aside.stock (pieces)",
              "UNIQUE INDEX CONCURRENTLY i ON aside.\"ON stock\" (pieces)"]
    with cluster.connect() as it:
        for text in refusals:
            with refused(errors.ObjectInUse, "would change what is declared reservable of stock"):
                it.execute(f"CREATE {text}".encode())
            same((text, value(cluster, "SELECT count(*) FROM pg_index WHERE NOT indisvalid")), (text, 0))
        for text in passes:
            it.execute(f"CREATE {text}".encode())
            it.execute("DROP INDEX IF EXISTS public.i, aside.i")
        it.execute("SET search_path = aside")
        it.execute("CREATE UNIQUE INDEX CONCURRENTLY i ON stock (pieces)")
        it.execute("DROP SCHEMA aside CASCADE")


@part
def what_a_held_row_stops_passes_when_it_is_repeated(cluster: Cluster) -> None:
    """The proxy sees no key in these statements. PostgreSQL names the row that stops them, and the proxy leaves it."""
    all_ordinary(cluster)
    cluster.run("CREATE TABLE kinds (id integer PRIMARY KEY)", "INSERT INTO kinds VALUES (1)",
                "CREATE TABLE ware (id numeric(9,2) PRIMARY KEY, kind integer REFERENCES kinds ON DELETE CASCADE, n integer NOT NULL CHECK (n >= 0))",
                "SELECT escrow.reservable('ware', 'n')")
    for text, tag in (("DELETE FROM ware WHERE kind = 1", "DELETE 1"), ("DELETE FROM kinds WHERE id = 1", "DELETE 1"),
                      ("UPDATE ware SET id = 2 WHERE id = 1.5", "UPDATE 1"), ("DELETE FROM ware USING kinds WHERE ware.kind = kinds.id", "DELETE 1")):
        with owner_of(cluster) as proxy, proxy.connect() as it, proxy.connect() as holder:
            for first in (text, f"BEGIN; {text}"):
                cluster.run("INSERT INTO kinds VALUES (1) ON CONFLICT DO NOTHING", "INSERT INTO ware VALUES (1.5, 1, 9)")
                holder.execute("BEGIN")
                holder.execute("UPDATE ware SET n = n - 1 WHERE id = 1.5")
                for _ in range(2):
                    with refused(errors.ObjectInUse, "Repeat it through escrowd-proxy, which leaves a row that nobody has reserved."):
                        it.execute(first.encode())
                    it.execute("ROLLBACK")
                holder.execute("COMMIT")
                with refused(errors.ObjectInUse, "The key is 1.50."):
                    it.execute(text.encode())
                same(it.execute(text.encode()).statusmessage, tag)
                it.execute("DELETE FROM ware")
    cluster.run("SELECT escrow.ordinary('ware')", "DROP TABLE ware, kinds")


@part
def a_publication_of_all_tables_stops_nothing(cluster: Cluster) -> None:
    """PostgreSQL refuses the DELETEs of a table that is published and has no replica identity. Each fold deletes in a journal."""
    stock(cluster).keeper.close()
    cluster.run("CREATE PUBLICATION everything FOR ALL TABLES")
    with owner_of(cluster) as proxy, proxy.connect() as it:
        it.execute("UPDATE stock SET pieces = pieces - 1 WHERE id = 1")
        for text in ("BEGIN", "UPDATE stock SET pieces = pieces - 1 WHERE id = 1", "SELECT escrow.hold('h', interval '1 hour')", "COMMIT",
                     "SELECT escrow.take('h')", "DELETE FROM stock WHERE id = 2"):
            it.execute(text.encode())
        wait_until("all is folded", lambda: value(cluster, "SELECT pieces FROM stock WHERE id = 1") == 8)
    with owner_of(cluster) as proxy, proxy.connect() as it:
        it.execute("UPDATE stock SET pieces = pieces - 1 WHERE id = 1")
        wait_until("all is folded", lambda: value(cluster, "SELECT pieces FROM stock WHERE id = 1") == 7)
    cluster.run("DROP PUBLICATION everything")


def takes(it: "psycopg.Connection[Any]", text: str) -> bool:
    """Returns whether PostgreSQL takes a statement."""
    try:
        it.execute(text.encode())
    except psycopg.Error:
        return False
    return True


@part
def a_publication_that_lets_no_row_be_updated_is_refused(cluster: Cluster) -> None:
    """PostgreSQL refuses each UPDATE of such a table, and so each fold."""
    stock(cluster).keeper.close()
    published = ("FOR ALL TABLES", "FOR TABLES IN SCHEMA public", "FOR TABLE stock", "FOR TABLE stock (id)", "FOR TABLE stock (title, pieces)",
                 "FOR TABLE stock WHERE (id > 3)", "FOR TABLE stock (id, pieces) WHERE (title <> 'x')", "FOR TABLE stock WHERE (pieces > 0)",
                 "FOR TABLE stock WITH (publish = 'insert, delete')")
    found = []
    with cluster.connect() as it:
        it.execute("SELECT escrow.ordinary('stock'); ALTER TABLE stock ALTER title SET NOT NULL; CREATE UNIQUE INDEX by_title ON stock (title)")
        for identity in ("DEFAULT", "FULL", "NOTHING", "USING INDEX by_title"):
            it.execute(f"ALTER TABLE stock REPLICA IDENTITY {identity}".encode())
            for what in published:
                it.execute(f"CREATE PUBLICATION them {what}".encode())
                taken = [takes(it, text) for text in ("UPDATE stock SET title = title WHERE id = 1", "SELECT escrow.describe('stock', '{pieces}')")]
                same((identity, what, taken), (identity, what, 2 * taken[:1]))
                found.append(taken[0])
                it.execute("DROP PUBLICATION them")
        it.execute("ALTER TABLE stock REPLICA IDENTITY DEFAULT; SELECT escrow.reservable('stock', 'pieces')")
        with refused(errors.ObjectInUse, "the publication them lets no row of it be updated"):
            it.execute("CREATE PUBLICATION them FOR TABLE stock WHERE (pieces > 0)")
        it.execute("CREATE PUBLICATION them FOR TABLE stock")
        for text in ("ALTER TABLE stock REPLICA IDENTITY NOTHING", "ALTER PUBLICATION them SET TABLE stock WHERE (title = 'x')"):
            with refused(errors.ObjectInUse, "would change what is declared reservable of stock"):
                it.execute(text.encode())
        it.execute("SELECT escrow.ordinary('stock'); ALTER TABLE stock REPLICA IDENTITY NOTHING")
        with refused(errors.InvalidTableDefinition, "the publication them lets no row of it be updated"):
            it.execute("SELECT escrow.reservable('stock', 'pieces')")
        it.execute("DROP PUBLICATION them")
    same(set(found), {False, True})


@part
def a_table_that_waits_stops_no_other(cluster: Cluster) -> None:
    """A trigger waits for a lock, so that each fold of its table fails. Who changes another table waits for the fold of that one alone."""
    stock(cluster).keeper.close()
    cluster.run("CREATE TABLE audit (n integer)", "INSERT INTO audit VALUES (0)",
                "CREATE FUNCTION counts() RETURNS trigger LANGUAGE plpgsql AS 'BEGIN UPDATE public.audit SET n = n + 1; RETURN NEW; END'",
                "CREATE TRIGGER counts BEFORE UPDATE ON stock FOR EACH ROW EXECUTE FUNCTION counts()",
                "CREATE TABLE ware (id integer PRIMARY KEY, n integer NOT NULL)", "INSERT INTO ware VALUES (1, 9)", "SELECT escrow.reservable('ware', 'n')")
    with Proxy(cluster, "", "--fold-wait", 20_000) as proxy, proxy.connect() as it, proxy.connect() as other, cluster.connect() as locks:
        it.execute("UPDATE stock SET pieces = pieces - 1 WHERE id = 1")
        locks.execute("BEGIN; UPDATE audit SET n = 5")
        it.execute("SET escrow.wait = off")
        it.execute("BEGIN; UPDATE stock SET pieces = pieces - 1 WHERE id = 1; COMMIT")  # no own fold
        begin = time.monotonic()
        for _ in range(3):
            other.execute("BEGIN; UPDATE ware SET n = n - 1 WHERE id = 1; COMMIT")
        assert time.monotonic() - begin < 15, "it has waited for the other table"
        same(value(cluster, "SELECT n FROM ware"), 6)
        locks.execute("COMMIT")
        wait_until("that is folded too", lambda: value(cluster, "SELECT pieces FROM stock WHERE id = 1") == 8)
    cluster.run("SELECT escrow.ordinary(relation) FROM escrow.declared", "DROP TABLE ware, audit, stock", "DROP FUNCTION counts")


@part
def settings_of_the_proxys_role_change_nothing(cluster: Cluster) -> None:
    """They are those of the database, too: its owner may have it read only for a while."""
    stock(cluster).keeper.close()
    for setting in ("default_transaction_read_only = on", "default_transaction_isolation = serializable", "search_path = nowhere", "statement_timeout = 1"):
        cluster.run(f"ALTER ROLE {ROLE} SET {setting}")
    with Proxy(cluster) as proxy, proxy.connect() as it:
        it.execute("UPDATE stock SET pieces = pieces - 1 WHERE id = 1")
        it.execute("BEGIN; UPDATE stock SET pieces = pieces - 1 WHERE id = 1; COMMIT")
        wait_until("it is folded", lambda: value(cluster, "SELECT pieces FROM stock WHERE id = 1") == 8)
    cluster.run(f"ALTER ROLE {ROLE} RESET ALL")


@part
def a_connection_that_is_refused_is_told(cluster: Cluster) -> None:
    """The proxy lacks a connection of its own: the first one has taken the last place. That is the keeper, or the watcher."""
    stock(cluster).keeper.close()
    cluster.run(f"ALTER ROLE {ROLE} CONNECTION LIMIT 1")
    why = f"has no connection: db error: FATAL: too many connections for role \"{ROLE}\""
    with Proxy(cluster) as proxy:
        wait_until("it is told", lambda: why in proxy.said() or why.replace("has no connection", "cannot be the owner") in proxy.said())
        cluster.run(f"ALTER ROLE {ROLE} CONNECTION LIMIT -1")
        with proxy.connect() as it:
            wait_until("it reserves", lambda: takes(it, "UPDATE stock SET pieces = pieces - 1 WHERE id = 1"))
        # Once by each of its connections.
        assert proxy.said().count(why) <= 8, proxy.said()


@part
def settings_of_texts_and_names_change_nothing(cluster: Cluster) -> None:
    """Functions are read with the settings of who calls them, and so are names and expressions of the catalog."""
    stock(cluster).keeper.close()
    with cluster.connect() as it:
        for setting in ("quote_all_identifiers = on", "standard_conforming_strings = off"):
            it.execute(f"SET {setting}; SET escape_string_warning = off".encode())
            it.execute("CREATE TABLE other (id integer PRIMARY KEY, n integer NOT NULL CHECK (n >= 0 AND 2 * n <= 5))")
            it.execute("CREATE INDEX ON other (n)")
            same(it.execute("SELECT escrow.reservable('other', 'n')").fetchall(), [("other_n_check: n >= 0",), ("other_n_check: 2 * n <= 5",)])
            with refused(errors.FeatureNotSupported, "send the UPDATE by itself"):
                it.execute("DO 'BEGIN UPDATE stock SET pieces = 1; END'")
            for text in ("ALTER TABLE stock DROP CONSTRAINT in_stock", "CREATE UNIQUE INDEX CONCURRENTLY ON stock (pieces)"):
                with refused(errors.ObjectInUse, "would change what is declared reservable of stock"):
                    it.execute(text.encode())
            it.execute("ALTER TABLE stock ADD COLUMN more text; ALTER TABLE stock DROP COLUMN more")
            it.execute("SELECT escrow.ordinary('other'); DROP TABLE other")
            it.execute("RESET ALL")


if __name__ == "__main__":
    main(PART)
