#!/usr/bin/env python3
"""Serves a script of bench/generate by redis, answers each line, and says on standard error how long the server took: redis.py < SCRIPT

A RESERVABLE column of a row is a hash with an amount, a floor and a ceiling, and with two sums that are kept beside it, of the falls and of the
rises that are pending. A session is a list of the numbers that it changes, and of the changes. A reservation is one call of a Lua script, and
so is a COMMIT or a ROLLBACK; redis runs no two at a time. Commands go over a socket in the file system, 200 at a time. The time is the
processor time of the server alone.
"""
import re
import socket
import subprocess
import sys
import tempfile
import time
from typing import Iterable, List, Optional, Sequence, Tuple, Union

sys.dont_write_bytecode = True
from runs import Run

START = 1_000_000_000
# Where it keeps nothing, and where what it answers has been synced.
IN_MEMORY = ["--appendonly", "no"]
DURABLE = ["--appendonly", "yes", "--appendfsync", "always"]
RESERVE = """
for i = 2, #KEYS do
  local n, change = redis.call('HMGET', KEYS[i], 'amount', 'falls', 'rises', 'floor', 'ceiling'), tonumber(ARGV[i - 1])
  if change < 0 and n[1] + n[2] + change < tonumber(n[4]) or change > 0 and n[1] + n[3] + change > tonumber(n[5]) then return 0 end
end
for i = 2, #KEYS do
  redis.call('HINCRBY', KEYS[i], tonumber(ARGV[i - 1]) < 0 and 'falls' or 'rises', ARGV[i - 1])
  redis.call('RPUSH', KEYS[1], KEYS[i], ARGV[i - 1])
end
return redis.call('INCR', 'reservations')
"""
END = """
local held = redis.call('LRANGE', KEYS[1], 0, -1)
for i = 1, #held, 2 do
  if ARGV[1] == 'COMMIT' then redis.call('HINCRBY', held[i], 'amount', held[i + 1]) end
  redis.call('HINCRBY', held[i], tonumber(held[i + 1]) < 0 and 'falls' or 'rises', -held[i + 1])
end
redis.call('DEL', KEYS[1])
return #held / 2
"""


class Server:
    """A redis server in a folder of its own, as long as it is in hand."""

    def __init__(self, where: Optional[str] = None, keeps: Optional[Sequence[str]] = None) -> None:
        self.where, self.keeps = where, keeps or IN_MEMORY

    def __enter__(self) -> "Server":
        self.folder = tempfile.TemporaryDirectory(dir=self.where)
        path = f"{self.folder.name}/socket"
        options = ["--port", "0", "--unixsocket", path, "--save", "", *self.keeps, "--dir", self.folder.name]
        self.process = subprocess.Popen(["redis-server", *options], stdout=subprocess.DEVNULL)
        self.socket = socket.socket(socket.AF_UNIX)
        while self.socket.connect_ex(path):
            time.sleep(0.01)
        self.reserve, self.end = (self.ask(["SCRIPT", "LOAD", text])[1].decode() for text in (RESERVE, END))
        return self

    def __exit__(self, *_: object) -> None:
        self.socket.close()
        self.process.terminate()
        self.process.wait()
        self.folder.cleanup()

    def send(self, commands: Sequence[bytes], replies: int) -> List[bytes]:
        """Sends commands that are answered by one line each, and answers the lines."""
        self.socket.sendall(b"".join(commands))
        got = b""
        while got.count(b"\r\n") < replies:
            got += self.socket.recv(1 << 16)
        return got.split(b"\r\n")[:-1]

    def ask(self, words: Sequence[str]) -> List[bytes]:
        """Sends a command that is answered by a text, and answers its lines behind the length."""
        self.socket.sendall(command(words))
        got = b""
        while not is_whole(got):
            got += self.socket.recv(1 << 16)
        return got.split(b"\r\n")

    def spent(self) -> float:
        """The server's processor time."""
        return sum(float(line.split(b":")[1]) for line in self.ask(["INFO", "cpu"]) if re.match(rb"used_cpu_(user|sys):", line))

    def transactions(self, load: str, own: bool, clients: int, limit: Union[int, str], way: int, is_plain: bool = False) -> Run:
        """Has clients make transactions by clients.c, each so many or for so long, and looks at the amounts behind it. A plain one is a DECR."""
        self.send([command(["FLUSHALL"])], 1)
        fields = f"amount {START} falls 0 rises 0 floor 0 ceiling 900000000000000".split()
        for number in range(1, clients + 1):
            key = f"n:{number}:0"
            self.send([command(["SET", key, str(START)] if is_plain else ["HSET", key, *fields])], 1)
        before = self.spent()
        words = [load, f"{self.folder.name}/socket", str(clients), str(limit), str(way), "own" if own else "shared"]
        words += [] if is_plain else [self.reserve, self.end]
        count, wall, client = subprocess.run(words, stdout=subprocess.PIPE, text=True, check=True).stdout.split()
        run = Run(int(count), float(wall), self.spent() - before, float(client))
        taken = [self.taken(f"n:{number}:0", is_plain) for number in range(1, clients + 1)]
        if sum(taken) != run.made or sum(map(bool, taken)) != (clients if own else 1):
            sys.exit(f"redis: {taken} taken, and not {count}")
        return run

    def taken(self, key: str, is_plain: bool) -> int:
        """How much a number lacks, of which nothing may be pending."""
        if is_plain:
            return START - int(self.ask(["GET", key])[1])
        amount, falls = (int(self.ask(["HGET", key, field])[1]) for field in ("amount", "falls"))
        if falls:
            sys.exit(f"redis: {falls} of {key} are pending")
        return START - amount

    def command(self, line: str) -> List[bytes]:
        """The commands of a script's line."""
        found = re.match(r"bank\.(\d+): (.*)", line)
        if not found:
            sys.exit(f"redis: no line of one database: {line}")
        session, text = found.groups()
        kind = text.split(" ", 1)[0]
        if kind == "INSERT":
            key, *amounts = re.findall(r"\b\d+\b", text)
            fields = "falls 0 rises 0 floor 0 ceiling 900000000000000".split()
            return [command(["HSET", f"n:{key}:{place}", "amount", amount, *fields]) for place, amount in enumerate(amounts)]
        if kind == "UPDATE":
            key = text.rsplit(" ", 1)[1]
            changes = re.findall(r"= (?:AMOUNT|C(\d)) ([-+]) (\d+)", text)
            keys = [f"s:{session}", *(f"n:{key}:{place or 0}" for place, _, _ in changes)]
            return [command(["EVALSHA", self.reserve, str(len(keys)), *keys, *(f"{sign}{by}".lstrip("+") for _, sign, by in changes)])]
        if kind in ("COMMIT", "ROLLBACK"):
            return [command(["EVALSHA", self.end, "1", f"s:{session}", kind])]
        return []

    def serve(self, lines: Iterable[str]) -> Tuple[float, List[str]]:
        """The server's processor time for a script, and the replies to its lines."""
        lines = list(lines)
        commands = [(one, line) for line in lines for one in self.command(line)]
        self.send([command(["FLUSHALL"])], 1)
        begin = self.spent()
        replies: List[Tuple[bytes, str]] = []
        for at in range(0, len(commands), 200):
            part = commands[at : at + 200]
            replies += zip(self.send([one for one, _ in part], len(part)), (line for _, line in part))
        return self.spent() - begin, [reply(line, got.decode()) for got, line in replies]


def is_whole(got: bytes) -> bool:
    """Whether an answer has its length and as many bytes behind it."""
    found = re.match(rb"\$(\d+)\r\n", got)
    return found is not None and len(got) >= found.end() + int(found[1]) + 2


def command(words: Sequence[str]) -> bytes:
    return "".join([f"*{len(words)}\r\n", *(f"${len(word)}\r\n{word}\r\n" for word in words)]).encode()


def reply(line: str, got: str) -> str:
    """What a command's answer says of the line that it was made of."""
    session, text = line.split(": ", 1)
    if got.startswith("-"):
        sys.exit(f"redis: {got}")
    if text.startswith("UPDATE"):
        return f"{session}> " + ("ERR 41" if got == ":0" else f"OK reserved {got[1:]}")
    return f"{session}> OK"


def main() -> None:
    with Server() as server:
        took, replies = server.serve(sys.stdin.read().splitlines())
    print("\n".join(replies))
    print(f"{took:.6f} seconds", file=sys.stderr)


if __name__ == "__main__":
    main()
