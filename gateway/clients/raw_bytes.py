"""Raw bytes: messages that are cut, in pieces, wrong, unknown and random. Nothing of it may end the gateway, reach another, or hold a session."""
from __future__ import annotations

import random
import select
import socket
import struct
import time

from clients import wire
from clients.few_sessions import expect_all_free
from clients.servers import Gateway, wait_until
from clients.suite import Part, expect, load, main
from clients.wire import Connection, message

PART = Part("raw_bytes")
TABLE = "CREATE TABLE t (id INTEGER PRIMARY KEY, n INTEGER RESERVABLE CHECK (n >= 0), name VARCHAR2(20))"
ROW = ("1", "5", "one")
MOST = 1_048_576  # the bytes of a message
RANDOM_MESSAGES, A_CONNECTION = 100_000, 100


def prepared(gateway: Gateway) -> Connection:
    """Creates the table with its row, and returns the connection that did it, for looking at the row later."""
    watch = Connection(gateway.socket)
    watch.do(TABLE, "INSERT INTO t VALUES (1, 5, 'one')")
    return watch


def unharmed(gateway: Gateway, watch: Connection) -> None:
    """Expects that the gateway serves, that the row is as it was, that nothing is reserved, and that all sessions are free."""
    expect(gateway.running().poll(), None, "the gateway ended")
    expect(watch.rows("SELECT * FROM t"), [ROW])
    wait_until("nothing is reserved", lambda: watch.rows("SHOW JOURNAL") == [])
    expect_all_free(gateway, "UPDATE t SET n = n + 1 WHERE id = 1")


def expect_end(connection: Connection, code: str) -> None:
    """Expects a fatal error of a code behind whatever came before, and then the end."""
    last = connection.until_end()[-1:]
    expect([it.shown() for it in last], [f"FATAL {code}"])


@PART.served
def each_message_cut_at_each_byte(gateway: Gateway) -> None:
    """A client that vanishes in the middle of a message, at any byte of it."""
    watch = prepared(gateway)
    kinds = [("startup", wire.startup()), ("ssl", wire.request(wire.SSL_REQUEST)), ("cancel", wire.request(wire.CANCEL_REQUEST, b"\0" * 8))]
    for _, whole in kinds:
        for cut in range(len(whole)):
            with Connection(gateway.socket, ready=False) as it:
                it.send(whole[:cut])
    for _, whole in wire.all_kinds():
        for cut in range(len(whole)):
            with Connection(gateway.socket) as it:
                it.send(wire.query("BEGIN; UPDATE t SET n = n - 1 WHERE id = 1"), whole[:cut])
                expect([kind for kind, _ in it.until_ready()], ["C", "C", "Z"])
    unharmed(gateway, watch)


@PART.served
def in_pieces_of_one_byte(gateway: Gateway) -> None:
    """A whole session whose bytes come one by one is answered as in one piece."""
    watch = prepared(gateway)
    session = [wire.startup(), wire.query("SELECT * FROM t"), *(it for _, it in wire.all_kinds()), wire.query("COMMIT"), wire.terminate()]
    answers = []
    for size in (1, 2, 7, 1 << 16):
        with Connection(gateway.socket, ready=False) as it:
            stream = b"".join(session)
            for at in range(0, len(stream), size):
                it.send(stream[at:at + size])
            answers.append([found.shown() for found in it.until_end() if found.kind != "K"])
    for got in answers[1:]:
        expect(got, answers[0])
    binary = "row " + "\0\0\0\0\0\0\0\1|\0\0\0\0\0\0\0\5|one"
    expect([it for it in answers[0] if it.startswith(("ready", "row", "suspended", "ERROR"))],
           ["ready I", "row 1|5|one", "ready I", "row 1|5|one", "ready I", binary, "ready I", "ready I"])
    unharmed(gateway, watch)


@PART.served
def lengths_that_are_wrong(gateway: Gateway) -> None:
    watch = prepared(gateway)
    for kind in "QPBDECHSXdcfFp?":
        for length in (-1, -2**31, 0, 3, MOST + 5, 2**31 - 1):
            with Connection(gateway.socket) as it:
                it.send(kind.encode() + struct.pack("!i", length) + b"\0" * 16)
                expect_end(it, "08P01")
    for length in (-1, -2**31, 0, 3, 4, 7, MOST + 5, 2**31 - 1):
        with Connection(gateway.socket, ready=False) as it:
            it.send(struct.pack("!i", length) + b"\0" * 16)
            expect([found.kind for found in it.until_end()][-1:] in ([], ["E"]), True)
    unharmed(gateway, watch)


@PART.served
def the_longest_message(gateway: Gateway) -> None:
    """A message of 1 MiB is read. A text that is longer than a line of the program's is refused, and nothing is done."""
    watch = prepared(gateway)
    with Connection(gateway.socket) as it:
        comment = "/*" + "x" * (MOST - 100) + "*/"
        expect(it.ask(f"SELECT * FROM t {comment} WHERE id = 1")[1:], ["row 1|5|one", "complete SELECT 1", "ready I"])
        expect(it.ask("UPDATE t SET name = '" + "x" * 4200 + "' WHERE id = 1"), ["ERROR 54000", "ready I"])
        expect(it.ask("UPDATE t SET n = n + 0 WHERE id = 1"), ["complete UPDATE 1", "ready I"])
        it.send(wire.query("SELECT * FROM t"), *[wire.query("COMMIT")] * 3)
        expect([[found.shown() for found in it.until_ready()][-1] for _ in range(4)], ["ready I"] * 4)
    unharmed(gateway, watch)


@PART.served
def bodies_that_are_wrong(gateway: Gateway) -> None:
    """Each message whose body is shorter or longer than it says, with texts without an end, or with counts below zero."""
    watch = prepared(gateway)
    for _, whole in wire.all_kinds():
        kind, body = chr(whole[0]), whole[5:]
        bodies = [body[:cut] for cut in range(len(body))] + [body + b"\0", body + b"x", body.replace(b"\0", b"x"), b"\xff" * len(body), b"\0" * 40]
        for wrong in bodies:
            with Connection(gateway.socket) as it:
                it.send(message(kind, wrong), wire.sync(), wire.terminate())
                found = [said.kind for said in it.until_end()]
                expect(set(found) <= set("EZ12TDC3tnsI"), True, f"{kind} {wrong!r}: {found}")
    with Connection(gateway.socket) as it:
        it.send(message("Q", b"SELECT * FROM t\xff\0"))
        expect([said.shown() for said in it.until_ready()], ["ERROR 22021", "ready I"])
    unharmed(gateway, watch)


@PART.served
def kinds_that_are_unknown(gateway: Gateway) -> None:
    watch = prepared(gateway)
    for byte in range(256):
        if chr(byte) in "QPBDECHSXdcfFp":
            continue
        with Connection(gateway.socket) as it:
            it.send(bytes([byte]) + struct.pack("!i", 8) + b"\0\0\0\0", wire.query("BEGIN"))
            expect_end(it, "08P01")
    unharmed(gateway, watch)


@PART.served
def startups(gateway: Gateway) -> None:
    watch = prepared(gateway)
    with Connection(gateway.socket, ready=False) as it:
        for number in (wire.SSL_REQUEST, wire.GSS_REQUEST):
            it.send(wire.request(number))
            expect(it.byte(), b"N")
        it.send(wire.startup())
        found = it.until_ready()
        parameters = dict(said.body[:-1].decode().split("\0") for said in found if said.kind == "S")
        expect(found[0].body, struct.pack("!i", 0))
        version = parameters.pop("server_version")
        expect(version.startswith("15.0 (escrowd "), True, version)
        for name, value in {"server_encoding": "UTF8", "client_encoding": "UTF8", "DateStyle": "ISO, MDY", "integer_datetimes": "on",
                            "standard_conforming_strings": "on"}.items():
            expect(parameters[name], value, name)
        expect("TimeZone" in parameters, True)
        expect([said.kind for said in found if said.kind in "KZ"], ["K", "Z"])
    with Connection(gateway.socket, ready=False) as it:
        it.send(wire.startup(protocol=wire.PROTOCOL + 2))
        expect([said.kind for said in it.until_ready()].count("v"), 1, "NegotiateProtocolVersion")
    for packet, code in ((wire.startup("nothing"), "3D000"), (wire.startup(None), "3D000"), (wire.startup(protocol=2 << 16), "0A000"),
                         (wire.startup(protocol=4 << 16), "0A000"), (wire.startup(client_encoding="LATIN1"), "22023")):
        with Connection(gateway.socket, ready=False) as it:
            it.send(packet)
            expect_end(it, code)
    with Connection(gateway.socket, ready=False) as it:
        it.send(wire.request(wire.CANCEL_REQUEST, struct.pack("!ii", 1, 2)))
        expect(it.until_end(), [])
    unharmed(gateway, watch)


def random_message(draw: random.Random) -> bytes:
    """Returns a message that may be right, wrong by a little, or nothing at all."""
    sort = draw.random()
    statements = ["SELECT * FROM t WHERE id = $1", "UPDATE t SET n = n - 1 WHERE id = 1", "BEGIN", "ROLLBACK", "SAVEPOINT a", "ROLLBACK TO a", "RELEASE a",
                  "SHOW BOUNDS t WHERE id = $1", "", ";", "'", "/*", "E'\\", "$1", "UPDATE t SET n = n + $1 WHERE id = $2", "SHOW TABLE t", "\"", "SELECT 'x"]
    name = draw.choice(["", "", "a", "b", "c" * 70])
    if sort < 0.55:
        values = [draw.choice([None, "1", "x", "", "9" * 20, struct.pack("!q", 1)]) for _ in range(draw.randrange(3))]
        return draw.choice([
            lambda: wire.query(draw.choice(statements)),
            lambda: wire.parse(draw.choice(statements), name, [draw.choice([0, 20, 21, 23, 25, 1043, 1700, 705, 16, 999999])] * draw.randrange(3)),
            lambda: wire.bind(values, name, draw.choice(["", "a"]), [draw.randrange(-1, 3)] * draw.randrange(3), [draw.randrange(-1, 3)] * draw.randrange(3)),
            lambda: wire.describe_statement(name), lambda: wire.describe_portal(name), lambda: wire.execute(name, draw.choice([0, 1, -1, 2**31 - 1])),
            lambda: wire.close_portal(name), lambda: wire.close_statement(name), wire.flush, wire.sync,
        ])()
    if sort < 0.95:
        body = bytearray(draw.choice([it for _, it in wire.all_kinds()])[5:])
        for _ in range(draw.randrange(1, 4)):
            if body:
                body[draw.randrange(len(body))] = draw.randrange(256)
        return message(draw.choice("QPBDECHSQPBDECHSdcfFp"), bytes(body))
    if sort < 0.98:
        return message(draw.choice("QPBDECHS"), draw.randbytes(draw.randrange(80)))
    return draw.randbytes(draw.randrange(1, 40))


def drain(it: socket.socket) -> int:
    """Reads what is there without waiting. Returns the bytes, or -1 at the end."""
    seen = 0
    while select.select([it], [], [], 0)[0]:
        try:
            more = it.recv(1 << 16)
        except ConnectionResetError:
            more = b""
        if not more:
            return -1
        seen += len(more)
    return seen


@PART.served
def random_messages(gateway: Gateway) -> None:
    """Random messages on eight connections, while a ninth asks for its rows and has to get these and nothing else."""
    watch, draw = prepared(gateway), random.Random(65)
    watch.do(*(f"INSERT INTO t VALUES ({key}, 1000, 'own')" for key in range(2, 6)))
    sent, asked = 0, 0
    while sent < load(RANDOM_MESSAGES):
        connections = []
        for _ in range(8):
            connections.append(Connection(gateway.socket).socket)
        for _ in range(A_CONNECTION):
            for client in list(connections):
                try:
                    client.sendall(random_message(draw))
                    sent += 1
                except (BrokenPipeError, ConnectionResetError):
                    connections.remove(client)
                    continue
                if drain(client) < 0:
                    connections.remove(client)
            if not connections:
                break
        key = 2 + asked % 4
        asked += 1
        expect(watch.ask(f"SELECT * FROM t WHERE id = {key}")[1:], [f"row {key}|1000|own", "complete SELECT 1", "ready I"])
        for client in connections:
            client.close()
    watch.do(*(f"DELETE FROM t WHERE id = {key}" for key in range(2, 6)))
    wait_until("nothing is reserved", lambda: watch.rows("SHOW JOURNAL") == [])
    expect(watch.rows("SELECT * FROM t")[0][0], "1")
    watch.do("DELETE FROM t WHERE id = 1", "INSERT INTO t VALUES (1, 5, 'one')")
    unharmed(gateway, watch)


@PART.served
def ends_in_the_middle(gateway: Gateway) -> None:
    """A client that ends with statements unanswered: its later ones go to nobody, and what it had open is rolled back."""
    watch = prepared(gateway)
    for count in (1, 2, 50):
        for _ in range(load(20)):
            with Connection(gateway.socket) as it:
                it.send(wire.query("BEGIN"), *[wire.query("UPDATE t SET n = n - 1 WHERE id = 1")] * count)
    unharmed(gateway, watch)


@PART.served
def half_a_connection_closed(gateway: Gateway) -> None:
    """A client that ends only its own side gets the answers to what it sent."""
    watch = prepared(gateway)
    with Connection(gateway.socket) as it:
        it.send(wire.query("SELECT * FROM t"), wire.query("BEGIN"), wire.query("UPDATE t SET n = n - 1 WHERE id = 1"))
        it.socket.shutdown(socket.SHUT_WR)
        expect([said.shown() for said in it.until_end() if said.kind in "DCZ"],
               ["row 1|5|one", "complete SELECT 1", "ready I", "complete BEGIN", "ready T", "complete UPDATE 1", "ready T"])
    unharmed(gateway, watch)


@PART.served
def a_startup_that_never_comes(gateway: Gateway) -> None:
    """Connections that say nothing are ended in time, and keep nobody away while they last."""
    watch = prepared(gateway)
    silent = [Connection(gateway.socket, ready=False) for _ in range(100)]
    begin = time.monotonic()
    with Connection(gateway.socket) as it:
        expect(it.rows("SELECT * FROM t"), [ROW])
    for it in silent:
        it.until_end()
    expect(time.monotonic() - begin > 8, True, f"ended after {time.monotonic() - begin:.1f} s")
    unharmed(gateway, watch)


if __name__ == "__main__":
    main(PART)
