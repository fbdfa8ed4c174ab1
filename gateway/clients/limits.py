"""Bounds and ends: holds with a limit, readers that do not read, a connection too many, the socket, statuses, and what an operator sees."""
from __future__ import annotations

import os
import pwd
import re
import select
import shutil
import signal
import socket
import stat
import subprocess
import tempfile
import threading
import time
from pathlib import Path
from typing import Dict, List, Tuple

from clients import wire
from clients.servers import END, GATEWAY, IN_A_STORE, PORT, PROGRAM, TRANSACTIONS, Gateway, Relay, resident, stored, wait_until
from clients.suite import Part, expect, load, main
from clients.wire import Connection, Ended

PART = Part("limits")
# The seconds within which what needs no waiting is answered, also by a busy machine. The shortest limit of the gateway's own has ten.
AT_ONCE = 8.0
STOCK = "CREATE TABLE stock (id INTEGER PRIMARY KEY, pieces INTEGER RESERVABLE CONSTRAINT in_stock CHECK (pieces >= 0))"
TAKE = "UPDATE stock SET pieces = pieces - {} WHERE id = 1"


def with_stock(gateway: Gateway, pieces: int) -> Connection:
    """Creates a table with a row, and returns the connection."""
    it = Connection(gateway.socket)
    it.do(STOCK, f"INSERT INTO stock VALUES (1, {pieces})")
    return it


def last_words(connection: Connection) -> Tuple[str, str]:
    """Returns SQLSTATE and text of the error with which a connection ends."""
    found = connection.until_end()
    expect([it.kind for it in found], ["E"])
    fields = found[0].fields()
    expect(fields["S"], "FATAL")
    return fields["C"], fields["M"]


def expect_hold_ends(watch: Connection, holder: Connection, least: float) -> None:
    """Expects that a holder of all pieces is ended, not before some seconds, and that the pieces are there again."""
    begin = time.monotonic()
    expect(holder.ask(f"BEGIN; {TAKE.format(5)}")[-1], "ready T")
    wait_until("the pieces are there again", lambda: watch.ask(TAKE.format(1)) != ["ERROR 23514", "ready I"], pause=0.01)
    expect(time.monotonic() - begin > least, True, f"after {time.monotonic() - begin:.2f} s")
    code, _ = last_words(holder)
    expect(code, "25P03")
    expect(watch.rows("SHOW JOURNAL"), [])
    watch.do("UPDATE stock SET pieces = pieces + 1 WHERE id = 1")


@PART.served
def a_hold_past_its_limit(gateway: Gateway) -> None:
    watch = with_stock(gateway, 5)
    for value in ("300", "'300'", "'300ms'", "'0.3s'"):
        holder = Connection(gateway.socket)
        holder.do(f"SET idle_in_transaction_session_timeout = {value}")
        expect_hold_ends(watch, holder, 0.29)
    holder = Connection(gateway.socket, options="-c idle_in_transaction_session_timeout=300")
    expect_hold_ends(watch, holder, 0.29)


def hold_on(holder: Connection, limit: float, turns: int) -> bool:
    """Reserves a piece each half second in a block, which ends with a COMMIT. Returns False if the holder was ended because this machine stood still
    for the limit between two statements."""
    holder.do(f"SET idle_in_transaction_session_timeout TO '{limit}s'")
    before = time.monotonic()
    for statement in ("BEGIN", *[TAKE.format(1)] * turns, "COMMIT"):
        asked = time.monotonic()
        try:
            holder.do(statement)
        except (Ended, BrokenPipeError, ConnectionResetError):
            if time.monotonic() - before < limit:
                raise
            return False
        before = asked
        time.sleep(0.5)
    return True


@PART.served
def a_holder_that_goes_on_is_kept(gateway: Gateway) -> None:
    """The limit counts from the last statement, also in a failed block, and not at all outside of one."""
    watch, turns = with_stock(gateway, 50), 7
    while not hold_on(Connection(gateway.socket), 3, turns):
        pass
    expect(watch.rows("SELECT * FROM stock"), [("1", str(50 - turns))])
    with Connection(gateway.socket) as holder:
        holder.do("SET idle_in_transaction_session_timeout TO '300ms'")
        time.sleep(0.6)
        # One query, so that nothing is idle before its end.
        expect(holder.ask(f"BEGIN; {TAKE.format(1)}; {TAKE.format(99)}")[-2:], ["ERROR 23514", "ready E"])
        code, _ = last_words(holder)
        expect(code, "25P03")
    with Connection(gateway.socket) as holder:
        holder.do("SET idle_in_transaction_session_timeout = 100", "SET idle_in_transaction_session_timeout = 0", "BEGIN", TAKE.format(1))
        time.sleep(0.4)
        holder.do("COMMIT")
    expect(watch.rows("SELECT * FROM stock"), [("1", str(49 - turns))])


@PART.alone
def a_limit_for_all() -> None:
    with Gateway({"bank": None}, ("--idle-in-transaction-timeout", "1")) as gateway:
        watch = with_stock(gateway, 5)
        expect_hold_ends(watch, Connection(gateway.socket), 0.98)
        watch.close()
        gateway.expect_clean_end()


@PART.alone
def the_connection_that_is_too_many() -> None:
    """It is refused at once, and the next one is served as soon as one has ended. Those of another database don't count."""
    most = 70
    with Gateway({"bank": None, "shop": None}, ("--connections", str(most))) as gateway:
        open_ones = [Connection(gateway.socket) for _ in range(most)]
        others = [Connection(gateway.socket, database="shop") for _ in range(most)]
        took: List[float] = []
        for _ in range(3):
            begin = time.monotonic()
            late = Connection(gateway.socket, ready=False)
            late.send(wire.startup())
            found = late.until_end()
            expect(found[-1].shown(), "FATAL 53300")
            expect((f"at most {most} connections" in found[-1].fields()["D"], "--connections" in found[-1].fields()["H"]), (True, True))
            took.append(time.monotonic() - begin)
        expect(min(took) < AT_ONCE, True, "at once")
        open_ones[7].send(wire.terminate())
        expect(open_ones.pop(7).until_end(), [])

        def next_one() -> bool:
            it = Connection(gateway.socket, ready=False)
            it.send(wire.startup())
            served = it.until_ready_or_end()[-1].kind == "Z"
            it.close()
            return served

        wait_until("one more is served", next_one)
        for it in [*open_ones, *others]:
            it.do("SELECT 1")
        gateway.expect_clean_end()


@PART.alone
def databases_have_sessions_of_their_own() -> None:
    with Gateway({"bank": None, "shop": None}) as gateway:
        banks = [Connection(gateway.socket) for _ in range(TRANSACTIONS)]
        shops = [Connection(gateway.socket, database="shop") for _ in range(TRANSACTIONS)]
        banks[0].do(STOCK, "INSERT INTO stock VALUES (1, 500)")
        expect(shops[0].ask("SELECT * FROM stock"), ["ERROR 42P01", "ready I"])
        shops[5].do(STOCK, "INSERT INTO stock VALUES (1, 700)")
        for it in [*banks, *shops]:
            it.do("BEGIN", TAKE.format(1))
        expect((banks[-1].rows("SELECT * FROM stock"), shops[-1].rows("SELECT * FROM stock")), ([("1", "500")], [("1", "700")]))
        for it in [*banks, *shops]:
            it.do("COMMIT")
        left = [[("1", str(pieces - TRANSACTIONS))] for pieces in (500, 700)]
        expect([banks[0].rows("SELECT * FROM stock"), shops[0].rows("SELECT * FROM stock")], left)
        expect(len(gateway.programs()), 2)
        gateway.expect_clean_end()


@PART.served
def a_reader_that_never_reads(gateway: Gateway) -> None:
    """It asks for rows without end and takes none. Thirty-nine others are served, and the gateway does not grow by it."""
    watch = with_stock(gateway, 1_000_000)
    rows = load(2000)
    for key in range(2, rows + 2):
        watch.send(wire.query(f"INSERT INTO stock VALUES ({key}, 1)"))
    for _ in range(rows):
        watch.until_ready()
    glutton = Connection(gateway.socket)
    glutton.socket.setblocking(False)
    asked = wire.query("SELECT * FROM stock") * 100
    before, stopped = resident(gateway.running().pid), False
    sent = 0
    end = time.monotonic() + END
    while not stopped and time.monotonic() < end:
        try:
            sent += glutton.socket.send(asked)
        except BlockingIOError:
            time.sleep(0.3)
            try:
                sent += glutton.socket.send(asked)
            except BlockingIOError:
                stopped = True
    expect(stopped, True, "no more is read of who does not read")
    turns, done = load(50), []

    def buy(_: int) -> None:
        with Connection(gateway.socket) as it:
            for _ in range(turns):
                it.do("BEGIN", TAKE.format(1), "COMMIT")
            done.append(turns)

    buyers = [threading.Thread(target=buy, args=(place,)) for place in range(39)]
    for it in buyers:
        it.start()
    for it in buyers:
        it.join()
    expect(done, [turns] * 39)
    expect(watch.rows("SELECT * FROM stock WHERE id = 1"), [("1", str(1_000_000 - 39 * turns))])
    grown = resident(gateway.running().pid) - before
    expect(grown < 32 * 2**20, True, f"the gateway grew by {grown} bytes")
    glutton.close()


def files_without_names(process: int) -> List[str]:
    """Returns the open files of a process that have no name any more, sockets and pipes left out."""
    found = []
    for it in Path(f"/proc/{process}/fd").iterdir():
        try:
            found.append(os.readlink(it))
        except FileNotFoundError:
            pass  # it was closed meanwhile
    return [it for it in found if it.startswith("/") and it.endswith(" (deleted)")]


@PART.served
def rows_wait_in_a_file(gateway: Gateway) -> None:
    """A client that reads late gets all rows in order. Until then they are in a file without a name, and not in memory."""
    process = gateway.running().pid
    names = ", ".join(f"c{place} VARCHAR2(100)" for place in range(8))
    texts = ", ".join(["'" + "x" * 100 + "'"] * 8)
    rows = 3000
    with Connection(gateway.socket) as it:
        it.do(f"CREATE TABLE big (id INTEGER PRIMARY KEY, n INTEGER RESERVABLE, {names})")
        it.send(*(wire.query(f"INSERT INTO big VALUES ({key}, 0, {texts})") for key in range(rows)))
        for _ in range(rows):
            it.until_ready()
        before = resident(process)
        it.send(wire.query("SELECT * FROM big"), wire.query("SELECT 1"))
        wait_until("rows wait in a file", lambda: len(files_without_names(process)) == 1)
        with Connection(gateway.socket) as other:
            expect(other.rows("SELECT id FROM big WHERE id = 7"), [("7",)])
        grown = resident(process) - before
        expect(grown < 2 * 2**20, True, f"the gateway grew by {grown} bytes")
        found = it.until_ready()
        expect([row.values()[0] for row in found if row.kind == "D"], [str(key).encode() for key in range(rows)])
        expect(found[-2].shown(), f"complete SELECT {rows}")
        expect(it.until_ready()[-2].shown(), "complete SELECT 1")
        wait_until("the file is closed", lambda: files_without_names(process) == [])


@PART.alone
def tables_of_a_store_are_known_at_the_start() -> None:
    """Also those of the log, which a killed gateway leaves. Dropped tables leave their texts, and are none."""
    with Gateway(IN_A_STORE) as gateway:
        with Connection(gateway.socket) as it:
            for name in ("kept", "dropped", "another"):
                it.do(f"CREATE TABLE {name} (id INTEGER PRIMARY KEY, n INTEGER RESERVABLE)")
            it.do("DROP TABLE dropped")
        for end in (signal.SIGKILL, signal.SIGTERM):
            gateway.end(end)
            gateway.start()
            wait_until("both tables are found", lambda: re.findall(r"is open: (\d+) tables", gateway.said())[-1:] == ["2"])
        gateway.expect_clean_end()


@PART.served
def a_pipeline_longer_than_all_buffers(gateway: Gateway) -> None:
    """A client that sends much before it reads gets every answer, in order."""
    watch = with_stock(gateway, 1_000_000)
    count = load(20_000)
    statements = b"".join(wire.query(TAKE.format(1)) for _ in range(count))
    with Connection(gateway.socket) as it:
        sender = threading.Thread(target=it.socket.sendall, args=(statements,))
        sender.start()
        time.sleep(0.5)
        for _ in range(count):
            expect([found.shown() for found in it.until_ready()], ["complete UPDATE 1", "ready I"])
        sender.join()
    expect(watch.rows("SELECT * FROM stock"), [("1", str(1_000_000 - count))])


@PART.served
def who_may_connect(gateway: Gateway) -> None:
    expect(stat.S_IMODE(os.stat(gateway.socket).st_mode), 0o600)
    if os.geteuid() == 0:
        os.chmod(gateway.folder, 0o755)
        expect(connects_as("nobody", gateway), "PermissionError")
    with Gateway({"bank": None}, ("--mode", "0666")) as other:
        expect(stat.S_IMODE(os.stat(other.socket).st_mode), 0o666)
        if os.geteuid() == 0:
            os.chmod(other.folder, 0o755)
            expect(connects_as("nobody", other), "served")
        other.expect_clean_end()


def connects_as(user: str, gateway: Gateway) -> str:
    """Returns what a process of a user meets that connects."""
    script = ("import socket, sys\nit = socket.socket(socket.AF_UNIX)\n"
              "try:\n    it.connect(sys.argv[1])\n    print('served')\nexcept OSError as error:\n    print(type(error).__name__)\n")
    words = ["/usr/bin/python3", "-c", script, str(gateway.socket)]
    done = subprocess.run(words, user=pwd.getpwnam(user).pw_uid, cwd="/", capture_output=True, text=True, check=False)
    return done.stdout.strip()


@PART.served
def a_socket_that_is_answered(gateway: Gateway) -> None:
    """A second gateway does not take it. One that a killed gateway left is taken."""
    second = subprocess.run(gateway.words(), capture_output=True, text=True, timeout=END, check=False)
    expect(second.returncode, 4, second.stderr)
    with Connection(gateway.socket) as it:
        it.do("COMMIT")
    gateway.kill()
    expect(gateway.socket.exists(), True)
    gateway.start()
    with Connection(gateway.socket) as it:
        it.do("COMMIT")


@PART.alone
def commands_that_cannot_be_used() -> None:
    with Gateway() as gateway:
        folder = gateway.folder
        (folder / "text").write_text("no store")
        words = [str(GATEWAY), "--listen", str(folder), "--port", str(PORT + 1)]
        by_program = ["--program", str(PROGRAM)]
        cases: List[Tuple[List[str], int]] = [
            ([], 2), (["--database", "bank", "--database", "bank", *by_program], 2), (["--database", "=x", *by_program], 2),
            (["--database", "bank", "--mode", "9", *by_program], 2), (["--database", "bank", "--program", str(folder / "nothing")], 3),
            (["--database", f"bank={folder}/text", *by_program], 3), (["--database", f"bank={folder}/nothing/bank.db", *by_program], 3),
            (["--database", "bank", *by_program, "--listen", str(folder / "nothing")], 2),
        ]
        for more, status in cases:
            done = subprocess.run([*words, *more], capture_output=True, text=True, timeout=END, env={**os.environ, "ESCROWD": ""}, check=False)
            expect(done.returncode, status, f"{more}: {done.stderr}")
            expect(bool(done.stderr), True, "a reason on standard error")
        nowhere = [str(GATEWAY), "--listen", str(folder / "nothing"), "--database", "bank", *by_program]
        missing = subprocess.run(nowhere, capture_output=True, timeout=END, check=False)
        expect(missing.returncode, 4)
        expect(sorted(it.name for it in folder.iterdir()), [".s.PGSQL.5432", "said", "text"])
        gateway.expect_clean_end()
        expect(gateway.socket.exists(), False)


@PART.alone
def a_program_without_a_proof() -> None:
    """Such a program is started only if it is named, and each start says so."""
    with Gateway() as gateway:
        beside = gateway.folder / "bin"
        beside.mkdir()
        copy = Path(shutil.copy(GATEWAY, beside))
        unproved = beside / "escrowd"
        unproved.write_text(f"""#!/bin/sh
case $* in
--version) echo 'escrowd 1.1 (unproved)' ;;
*) exec {PROGRAM} "$@" ;;
esac
""")
        unproved.chmod(0o755)
        words = [str(copy), "--listen", str(beside), "--database", "bank"]
        found = subprocess.run(words, capture_output=True, text=True, timeout=END, env={**os.environ, "ESCROWD": ""}, check=False)
        expect(found.returncode, 3, found.stderr)
        expect(f"{unproved} is not proved: --program or ESCROWD has to name it" in found.stderr, True, found.stderr)
        named: List[Tuple[List[str], str]] = [(["--program", str(unproved)], ""), ([], str(unproved))]
        for more, variable in named:
            gateway.kill()
            gateway.launch([*words, *more], env={**os.environ, "ESCROWD": variable})
            gateway.await_socket(beside / f".s.PGSQL.{PORT}")
            wait_until("the log says so", lambda: f"{unproved} is not proved\n" in gateway.said())
        gateway.expect_clean_end()


@PART.alone
def an_end_by_signal() -> None:
    """Idle connections are told, what runs is answered first, stores are closed, and the status is 0."""
    for number in (signal.SIGTERM, signal.SIGINT):
        with Gateway({"bank": Path("bank.db"), "shop": Path("shop.db")}) as it:
            idle, holder, half = (Connection(it.socket) for _ in range(3))
            idle.do(STOCK, "INSERT INTO stock VALUES (1, 50)", TAKE.format(1))
            holder.do("BEGIN", TAKE.format(7))
            half.send(wire.query(TAKE.format(2))[:-5])
            expect((it.folder / "bank.db-wal").exists(), True)
            expect(it.end(number), 0, it.said())
            for connection in (idle, holder, half):
                code, text = last_words(connection)
                expect(code, "57P01")
                expect(bool(text), True)
            expect(sorted(found.name for found in it.folder.iterdir()), ["bank.db", "said", "shop.db"])
            expect(stored(it.store, "SELECT * FROM stock")[1:], ["1 | 49", "OK rows 1"])


@PART.alone
def an_end_while_statements_run() -> None:
    """Whatever was answered as committed stands in the store; no connection is answered twice or half."""
    for _ in range(3):
        with Gateway(IN_A_STORE) as gateway:
            end_while_buyers_buy(gateway)


def end_while_buyers_buy(gateway: Gateway) -> None:
    """Ends a gateway while 20 connections buy, and compares what they were told with the store."""
    with_stock(gateway, 100_000).close()
    acknowledged, strange = [0] * 20, []

    def buy(place: int) -> None:
        connection = Connection(gateway.socket)
        try:
            while True:
                connection.send(wire.query(TAKE.format(1)))
                found = [it.shown() for it in connection.until_ready()]
                strange.extend([] if found == ["complete UPDATE 1", "ready I"] else found)
                acknowledged[place] += 1
        except (Ended, BrokenPipeError, ConnectionResetError):
            pass

    buyers = [threading.Thread(target=buy, args=(place,)) for place in range(20)]
    for it in buyers:
        it.start()
    wait_until("each has bought", lambda: all(it >= 5 for it in acknowledged))
    expect(gateway.end(), 0, gateway.said())
    for it in buyers:
        it.join()
    left = int(stored(gateway.store, "SELECT * FROM stock")[1].split(" | ")[1])
    expect(strange, [])
    # An orderly end answers what runs, so what was done and what was told are equal.
    expect(left, 100_000 - sum(acknowledged))


@PART.alone
def the_program_ends() -> None:
    """Every connection is told with the text, and the gateway ends with a status of its own."""
    with Gateway({"bank": None, "shop": None}) as gateway:
        banks = [Connection(gateway.socket) for _ in range(5)]
        shop = Connection(gateway.socket, database="shop")
        banks[0].do(STOCK)
        os.kill(gateway.programs()[0], signal.SIGKILL)
        for it in (*banks, shop):
            code, text = last_words(it)
            expect(code, "57P01")
            expect(bool(text), True)
        expect(gateway.running().wait(END), 5, gateway.said())
        expect(gateway.socket.exists(), False)


def has_ended(process: int) -> bool:
    """Returns whether a process has ended, or is a zombie."""
    try:
        return "Z" in Path(f"/proc/{process}/stat").read_text(encoding="utf-8").rsplit(")", 1)[1]
    except (FileNotFoundError, ProcessLookupError):
        return True


@PART.alone
def the_gateway_is_killed() -> None:
    """The program's input ends, so it closes its store and ends by itself."""
    with Gateway(IN_A_STORE) as gateway:
        it = with_stock(gateway, 9)
        it.do("BEGIN", TAKE.format(3))
        program = gateway.programs()[0]
        gateway.kill()
        expect(it.until_end(), [])
        wait_until("the program has ended", lambda: has_ended(program))
        expect((gateway.folder / "bank.db-wal").exists(), False)
        expect(stored(gateway.store, "SELECT * FROM stock")[1:], ["1 | 9", "OK rows 1"])


@PART.alone
def a_relay_of_the_tests_passes_ends_on() -> None:
    """Also that of a server which has not read all that came, so that its connection is reset."""
    with tempfile.TemporaryDirectory() as folder, socket.socket(socket.AF_UNIX) as listener:
        listener.bind(f"{folder}/socket")
        listener.listen()
        with Relay(Path(folder, "socket")) as relay, socket.create_connection(("127.0.0.1", relay.port), END) as client:
            with listener.accept()[0] as server:
                client.sendall(b"unread")
                select.select([server], [], [], END)
                server.sendall(b"last words")
            expect(b"".join(iter(lambda: client.recv(100), b"")), b"last words")


@PART.alone
def what_an_operator_sees() -> None:
    """The metrics tell what was done, in the format of the textfile collector; standard error tells of each store."""
    with Gateway({"bank": Path("bank.db"), "shop": None}, ("--metrics", "{folder}/escrowd.prom")) as gateway:
        metrics = gateway.folder / "escrowd.prom"
        it = with_stock(gateway, 5)
        it.do("BEGIN", TAKE.format(1), "COMMIT", "BEGIN", TAKE.format(1), "ROLLBACK", "BEGIN", TAKE.format(1))
        for _ in range(3):
            with Connection(gateway.socket) as other:
                expect(other.ask(TAKE.format(9)), ["ERROR 23514", "ready I"])
        wait_until("the metrics are written", lambda: metrics.exists() and values(metrics).get('refusals{23514}') == 3.0)
        text = metrics.read_text()
        expect([line for line in text.splitlines() if not re.fullmatch(r'# (HELP|TYPE) .+|[a-z_]+(\{[^}]*\})? [0-9.e+-]+', line)], [])
        expect(all(re.search(rf"(?m)^# TYPE \S*{word}", text) for word in ("statement", "refus", "transaction", "connection")), True, text)
        wait_until("the log names the store", lambda: str(gateway.store) in gateway.said())
        gateway.expect_clean_end()


def values(path: Path) -> Dict[str, float]:
    """Returns the refusals of a file of metrics by their SQLSTATE."""
    found = {}
    for line in path.read_text().splitlines():
        match = re.match(r'[a-z_]*refus[a-z_]*\{.*"(\w{5})".*\} ([0-9.]+)$', line)
        if match and float(match[2]):
            found[f"refusals{{{match[1]}}}"] = float(match[2])
    return found


if __name__ == "__main__":
    main(PART)
