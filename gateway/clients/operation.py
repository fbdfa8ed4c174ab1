"""What an operator does and sees: signals, restarts, the log, and files that others left or put in the way."""
from __future__ import annotations

import fcntl
import os
import pty
import re
import resource
import signal
import subprocess
import termios
import time
from functools import partial
from pathlib import Path
from typing import Callable, Dict, List, Mapping, Optional, Sequence

from clients import wire
from clients.limits import STOCK, TAKE, last_words, with_stock
from clients.servers import END, IN_A_STORE, IN_MEMORY, PROGRAM, Gateway, is_answered, stored, wait_until
from clients.suite import Part, expect, main
from clients.wire import Connection

PART = Part("operation")
# The connections of a gateway that refuses the next one.
FEW = 8
# Signals that end a process which does not take them, and that mean nothing to the gateway.
MEANINGLESS = [signal.SIGUSR1, signal.SIGUSR2, signal.SIGALRM, signal.SIGVTALRM, signal.SIGPROF, signal.SIGIO, signal.SIGXFSZ, signal.SIGRTMIN + 1,
               signal.SIGRTMAX]
# Those of them, and of the others, that the server ignores.
OF_ALL = [signal.SIGHUP, signal.SIGUSR1, signal.SIGUSR2, signal.SIGALRM, signal.SIGVTALRM, signal.SIGPROF, signal.SIGXFSZ]
# The seconds within which signals of the same meaning count once, and some more.
APART = 1.2
# The size of a file past which nothing is written.
MOST_BYTES = 1 << 20
# The seconds that the gateway waits for a store that another program has open.
LOCK = 10.0
# How often is tried what a limit of time of the gateway's own may disturb.
TRIES = 3
# What a program in place of escrowd's begins with: it has the same version.
VERSION = f"""#!/bin/sh
[ "$1" = --version ] && exec {PROGRAM} --version
"""
# Answers the gateway's first question, and nothing else. It does not end either when its input does.
DEAF = VERSION + """IFS=: read -r session question
printf '%s> served 0 granted 0 broken 0 refused 0 commits 0 rollbacks 0 writes 0 queries 0\\n' "$session"
printf '%s> OK statistics\\n' "$session"
exec sleep 60
"""
# Answers nothing.
MUTE = VERSION + "exec cat > /dev/null\n"


class Operated(Gateway):
    """A gateway that is started in another way: with a program in place of escrowd's, in an environment, or by other words."""

    def __init__(self, databases: Mapping[str, Optional[Path]] = IN_MEMORY, options: Sequence[str] = (), program: str = "", front: Sequence[str] = (),
                 before: Optional[Callable[[], None]] = None) -> None:
        super().__init__(databases, options)
        self.program, self.front, self.before = program, list(front), before
        self.env: Dict[str, str] = {}

    def words(self) -> List[str]:
        words = [*self.front, *super().words()]
        if self.program:
            # A gateway that was killed may just be starting it: what is run cannot be written to, but another file may get its name.
            path, new = self.folder / "program", self.folder / "program.new"
            new.write_text(self.program)
            new.chmod(0o755)
            new.replace(path)
            words[words.index("--program") + 1] = str(path)
        return words

    def begin(self) -> None:
        """Starts the process, and does not wait for it."""
        with open(self.folder / "said", "ab") as said:
            # No thread of a case runs yet.
            # pylint: disable-next=subprocess-popen-preexec-fn
            self.process = subprocess.Popen(self.words(), stdin=subprocess.DEVNULL, stdout=said, stderr=said, env={**os.environ, **self.env},
                                            start_new_session=True, preexec_fn=self.prepare)

    def prepare(self) -> None:
        """Prepares the process: what `nohup` has told the tests is not the gateway's."""
        signal.signal(signal.SIGHUP, signal.SIG_DFL)
        if self.before is not None:
            self.before()

    def start(self) -> None:
        self.begin()
        self.await_socket(self.socket)

    def as_journal(self) -> None:
        """Lets its standard error be what systemd says is the journal."""
        said = self.folder / "said"
        said.touch()
        found = said.stat()
        self.env["JOURNAL_STREAM"] = f"{found.st_dev}:{found.st_ino}"


def has_said(gateway: Gateway, text: str) -> bool:
    """Returns whether a gateway has said something."""
    return text in gateway.said()


def is_silent(path: Path) -> bool:
    """Returns whether nobody accepts connections at a socket."""
    return not is_answered(path)


def expect_served(gateway: Gateway) -> None:
    """Expects that a client is served."""
    with Connection(gateway.socket) as it:
        it.do("COMMIT")


@PART.alone
def signals_that_mean_nothing() -> None:
    """None of them ends the gateway, and each is told. What a service manager sends to all processes does not end the server either."""
    with Operated() as gateway:
        for number in (signal.SIGHUP, *MEANINGLESS):
            gateway.running().send_signal(number)
            if number in OF_ALL:
                os.kill(gateway.programs()[0], number)
            told = f"{name_of(number)} changes nothing"
            wait_until(f"signal {number} is told", partial(has_said, gateway, told))
            expect_served(gateway)
        gateway.expect_clean_end()


def name_of(number: int) -> str:
    """Returns the name of a signal as the gateway tells it."""
    return f"signal {number}" if number >= signal.SIGRTMIN else signal.Signals(number).name


@PART.alone
def signals_that_stop() -> None:
    for number in (signal.SIGQUIT, signal.SIGXCPU, signal.SIGPWR):
        with Operated() as gateway:
            expect((gateway.end(number), f"{name_of(number)}: stopping" in gateway.said()), (0, True), gateway.said())


@PART.alone
def a_terminal_that_hangs_up() -> None:
    """SIGHUP stops a gateway that has a terminal, unless `nohup` started it."""
    keyboard, terminal = pty.openpty()

    def take_terminal() -> None:
        fcntl.ioctl(terminal, termios.TIOCSCTTY, 0)

    with Operated(before=take_terminal) as gateway:
        expect((gateway.end(signal.SIGHUP), "SIGHUP: stopping" in gateway.said()), (0, True), gateway.said())
    os.close(keyboard)
    os.close(terminal)
    with Operated(front=["/usr/bin/nohup"]) as gateway:
        gateway.running().send_signal(signal.SIGHUP)
        expect_served(gateway)
        gateway.expect_clean_end()
        expect("SIGHUP" in gateway.said(), False, gateway.said())


@PART.alone
def signals_that_come_again() -> None:
    """At once they count as one. Later the second one ends the wait for clients, and the third the wait for programs."""
    took: List[float] = []
    while not took or (took[-1] >= LOCK and len(took) < TRIES):  # a busy machine may stand still for as long
        took.append(ended_by_signals())
    expect(took[-1] < LOCK, True, f"no limit of time has passed: {took} s")


def ended_by_signals() -> float:
    """Sends signals until a gateway has ended. Returns the seconds from the first to the end."""
    with Operated(program=DEAF) as gateway:
        waiting = Connection(gateway.socket)
        waiting.send(wire.query("SHOW JOURNAL"))
        expect_served(gateway)  # so it has read the statement too
        program, begin = gateway.programs()[0], time.monotonic()
        for _ in range(3):
            gateway.running().send_signal(signal.SIGTERM)
        wait_until("it stops", lambda: "SIGTERM: stopping" in gateway.said())
        time.sleep(APART)
        expect(gateway.running().poll(), None, "it waits for the client")
        gateway.running().send_signal(signal.SIGTERM)
        expect(waiting.until_end(), [])
        time.sleep(APART)
        expect(gateway.running().poll(), None, "it waits for the program")
        expect(gateway.end(signal.SIGINT), 1, gateway.said())
        took = time.monotonic() - begin
        expect(Path(f"/proc/{program}").exists(), False)
        expect("the program of bank was killed before it closed its store" in gateway.said(), True, gateway.said())
        return took


@PART.alone
def a_server_that_was_stopped() -> None:
    """The gateway lets it go on at the end, so that it answers, and closes its store."""
    with Gateway(IN_A_STORE) as gateway:
        it = with_stock(gateway, 9)
        program = gateway.programs()[0]
        os.kill(program, signal.SIGSTOP)
        wait_until("the program is stopped", lambda: "(stopped)" in Path(f"/proc/{program}/status").read_text(encoding="utf-8"))
        it.send(wire.query(TAKE.format(2)))
        expect_served(gateway)  # so it has read the statement too
        expect(gateway.end(), 0, gateway.said())
        expect([found.shown() for found in it.until_end()], ["complete UPDATE 1", "ready I", "FATAL 57P01"])
        expect((gateway.folder / "bank.db-wal").exists(), False)
        expect(stored(gateway.store, "SELECT * FROM stock")[1:], ["1 | 7", "OK rows 1"])


@PART.alone
def a_start_behind_a_kill() -> None:
    """The next start waits for the program that a killed gateway left."""
    with Gateway(IN_A_STORE) as gateway:
        with_stock(gateway, 9).close()
        for left in range(8, 3, -1):
            with Connection(gateway.socket) as it:
                it.do(TAKE.format(1))
            gateway.kill()
            gateway.start()
            with Connection(gateway.socket) as it:
                expect(it.rows("SELECT * FROM stock"), [("1", str(left))])
        gateway.expect_clean_end()


def holder_of(store: Path) -> "subprocess.Popen[bytes]":
    """Starts a program that has a store open."""
    holder = subprocess.Popen([PROGRAM, "serve", "--store", store], stdin=subprocess.PIPE, stdout=subprocess.PIPE)
    assert holder.stdin and holder.stdout
    holder.stdin.write(b"bank.1: SHOW STATISTICS\n")
    holder.stdin.flush()
    holder.stdout.readline()
    return holder


@PART.alone
def a_store_that_is_open_elsewhere() -> None:
    """The gateway waits for it, ten seconds at most."""
    with Operated(IN_A_STORE) as gateway:
        with_stock(gateway, 9).close()
        gateway.expect_clean_end()
        holder = holder_of(gateway.store)
        begin = time.monotonic()
        gateway.begin()
        expect(gateway.running().wait(END), 3, gateway.said())
        expect(LOCK - 1 < time.monotonic() - begin, True, f"after {time.monotonic() - begin:.1f} s")
        expect(gateway.said().strip().endswith("another program has it open"), True, gateway.said())
        gateway.begin()
        time.sleep(1)
        expect(gateway.running().poll(), None, gateway.said())
        holder.communicate(timeout=END)
        gateway.await_socket(gateway.socket)
        expect_served(gateway)
        gateway.expect_clean_end()


@PART.alone
def a_stop_while_a_store_is_open_elsewhere() -> None:
    """It ends the wait for that store in order, and closes the other one."""
    with Operated({"bank": Path("bank.db"), "shop": Path("shop.db")}, ("--log-level", "debug")) as gateway:
        with_stock(gateway, 9).close()
        gateway.expect_clean_end()
        holder = holder_of(gateway.store)
        for number in (signal.SIGTERM, signal.SIGINT):
            (gateway.folder / "said").unlink()
            gateway.begin()
            wait_until("it has met the lock", lambda: "another program has it open" in gateway.said())
            expect(gateway.end(number), 0, gateway.said())
            expect("all stores are closed" in gateway.said(), True, gateway.said())
        expect((gateway.folder / "shop.db-wal").exists(), False)
        holder.communicate(timeout=END)
        expect(holder.returncode, 0)


@PART.alone
def folders_of_a_killed_start() -> None:
    """The next start removes them."""
    with Operated() as gateway:
        gateway.expect_clean_end()
        gateway.program = MUTE

        def private() -> List[str]:
            return [it.name for it in gateway.folder.glob(".[0-9]*.[0-9]*")]

        for _ in range(3):
            gateway.begin()
            nameless = gateway.folder / f".{gateway.running().pid}.0/s"
            wait_until("its socket has no name yet", partial(is_answered, nameless))
            gateway.kill()
            # A process that it was starting may have the socket for a moment.
            wait_until("nobody answers there", partial(is_silent, nameless))
            expect(len(private()), 1)
        gateway.program = ""
        gateway.start()
        expect(private(), [])
        gateway.expect_clean_end()


@PART.alone
def metrics_in_the_way() -> None:
    """A link or a pipe where the metrics should be is refused, and nothing is written to it."""
    with Operated() as gateway:
        gateway.expect_clean_end()
        target, metrics = gateway.folder / "target", gateway.folder / "escrowd.prom"
        target.write_text("text")
        gateway.options = ["--metrics", str(metrics)]
        makes: List[Callable[[Path], None]] = [lambda place: place.symlink_to(target), os.mkfifo, os.mkdir]
        for place in (metrics, metrics.with_name("escrowd.prom.new")):
            for make in makes:
                make(place)
                gateway.begin()
                expect(gateway.running().wait(END), 2, gateway.said())
                expect(f"{place} is not a regular file" in gateway.said(), True, gateway.said())
                if place.is_dir():
                    place.rmdir()
                else:
                    place.unlink()
        expect(target.read_text(), "text")


@PART.served
def who_holds_what(gateway: Gateway) -> None:
    """pg_stat_activity tells which client has a session of SHOW JOURNAL, and how much it holds. pg_terminate_backend ends it."""
    watch = with_stock(gateway, 9)
    till, other = (Connection(gateway.socket, options=f"-c application_name={name}") for name in ("till", "other"))
    till.do("BEGIN", TAKE.format(1), "SAVEPOINT a", TAKE.format(2), TAKE.format(3), "ROLLBACK TO a", TAKE.format(4))
    other.do("BEGIN", TAKE.format(1))
    expect(other.ask(TAKE.format(9))[-1], "ready E")
    held = [row[1] for row in watch.rows("SHOW JOURNAL")]
    expect(len(held), 2)
    shown = watch.rows("SELECT session, usename, application_name, state, reservations, xact_start IS NULL FROM pg_stat_activity ORDER BY pid")
    expect((shown[0][0], shown[0][2:]), ("NULL", ("", "active", "0", "t")))
    expect(shown[1:], [(held[0], "clerk", "till", "idle in transaction", "2", "f"),
                       ("NULL", "clerk", "other", "idle in transaction (aborted)", "0", "f")])
    end = "SELECT pg_terminate_backend(pid) FROM pg_stat_activity WHERE application_name = 'till'"
    expect(watch.rows(end), [("t",)])
    expect(last_words(till), ("57P01", "terminating connection due to administrator command"))
    wait_until("nothing is held", lambda: watch.rows("SHOW JOURNAL") == [])
    expect(watch.rows(end), [])
    other.do("ROLLBACK")


@PART.alone
def a_limit_of_the_sizes_of_files() -> None:
    """A write past it is refused, and logged as a warning. It ends neither the server nor the gateway, and reads are served."""
    with Operated(IN_A_STORE, before=lambda: resource.setrlimit(resource.RLIMIT_FSIZE, (MOST_BYTES, MOST_BYTES))) as gateway:
        it, rows = with_stock(gateway, 9), 1
        while it.ask(f"INSERT INTO stock VALUES ({rows + 1}, 9)") == ["complete INSERT 0 1", "ready I"]:
            rows += 1
        expect(it.ask(f"INSERT INTO stock VALUES ({rows + 1}, 9)"), ["ERROR 58030", "ready I"])
        expect(len(it.rows("SELECT * FROM stock")), rows)
        warning = re.compile(r"WARN bank: connection \d+ of user \"clerk\", application \"\", got 58030")
        wait_until("the log warns", lambda: warning.search(gateway.said()))
        gateway.expect_clean_end()


@PART.alone
def lines_of_the_journal() -> None:
    """Each line has a priority: connections that of debug, what needs a look that of a warning."""
    gateway = Operated(
        IN_A_STORE, ("--log-level", "debug", "--idle-in-transaction-timeout", "1", "--transaction-timeout", "2", "--connections", str(FEW)))
    gateway.as_journal()
    with gateway:
        open_ones = [Connection(gateway.socket) for _ in range(FEW)]
        late = Connection(gateway.socket, ready=False)
        late.send(wire.startup())
        expect([it.shown() for it in late.until_end()][-1], "FATAL 53300")
        open_ones[0].do(STOCK, "INSERT INTO stock VALUES (1, 9)")
        open_ones[1].do("BEGIN")
        expect(last_words(open_ones[1])[0], "25P03")
        # One query, so that it has begun before its limit ends it, and no limit of idleness.
        open_ones[2].do("SET idle_in_transaction_session_timeout = 0")
        expect(open_ones[2].ask(f"BEGIN; {TAKE.format(1)}")[-1], "ready T")
        expect(last_words(open_ones[2])[0], "25P04")
        for it in open_ones:
            it.close()
        expect(gateway.end(), 0, gateway.said())
        said = gateway.said().splitlines()
    expect([line for line in said if not re.match("<[3467]>[^ ]", line)], [])
    told = {state: [line[:3] for line in said if f"got {state}" in line] for state in ("53300", "25P03", "25P04")}
    expect(told, {state: ["<4>"] for state in told})
    expect([line[:3] for line in said if line.endswith("begins")], ["<7>"] * FEW)
    expect([line[:3] for line in said if "serving bank" in line or "SIGTERM: stopping" in line], ["<6>"] * 2)


if __name__ == "__main__":
    main(PART)
