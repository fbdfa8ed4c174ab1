"""Runs of the program: what its three standard streams are, and what it shows."""
import array
import contextlib
import enum
import fcntl
import os
import socket
import subprocess
import tempfile
import termios
import threading
import time
import tty
from select import PIPE_BUF
from typing import Any, Callable, Dict, List, Mapping, NamedTuple, Optional, Sequence, Tuple, Union

Word = Union[str, bytes]
# The seconds that one run of the program may take.
SECONDS = 300
# The user and the group of nobody.
NOBODY = 65534
# The unit of the shell's limit of a file's size, in bytes.
BLOCK = 512
# How the shell limits a file: the signal is ignored, so that the write fails.
LIMIT = 'trap "" XFSZ; ulimit -f 1; '


class Wrong(Exception):
    """What is wrong with what the program shows."""


class Input(enum.Enum):
    """What standard input is."""

    FILE = enum.auto()
    PIPE = enum.auto()
    # A device that fails with error 5 behind the script: the master of a terminal whose other end was closed.
    FAILING = enum.auto()
    # A terminal. Behind the script its end is typed, and then one line more.
    TERMINAL = enum.auto()
    # A socket that gives one byte to each read.
    BYTES = enum.auto()
    # A pipe that isn't blocking, and has nothing yet.
    UNREADY = enum.auto()
    FOLDER = enum.auto()
    CLOSED = enum.auto()


class Output(enum.Enum):
    """What standard output or standard error is."""

    KEPT = enum.auto()
    # A device that is always full.
    FULL = enum.auto()
    CLOSED = enum.auto()
    # A pipe that nobody reads.
    BROKEN = enum.auto()
    # A pipe that isn't blocking, and is full.
    UNREADY = enum.auto()
    TERMINAL = enum.auto()
    # A device that takes everything, at which nobody looks.
    NOWHERE = enum.auto()


class Program(NamedTuple):
    """A program to test: its path, and whether nobody is to run it."""

    path: str
    is_nobody: bool = False

    def command(self, words: Sequence[Word], shell: str) -> List[Word]:
        """The command that starts it, behind what a shell does first."""
        drop = ["setpriv", f"--reuid={NOBODY}", f"--regid={NOBODY}", "--clear-groups", "--no-new-privs"]
        whole: List[Word] = [*(drop if self.is_nobody and os.geteuid() == 0 else ()), self.path, *words]
        return ["sh", "-c", f'{shell}exec "$@"', "sh", *whole] if shell else whole


class Case(NamedTuple):
    """A run of the program, and what it has to show."""

    name: str
    words: Sequence[Word]
    script: str = ""
    replies: str = ""
    # What standard error has: all of it, or its first line alone.
    errors: str = ""
    first_line: Optional[str] = None
    status: int = 0
    stdin: Input = Input.FILE
    stdout: Output = Output.KEPT
    stderr: Output = Output.KEPT
    # How many bytes standard output takes, if it has a limit.
    room: Optional[int] = None
    # Whether the script is read to its end, or nothing of it. None: nobody looks.
    reads: Optional[bool] = None
    # The names of all files that are then in the folder. None: nobody looks.
    files: Optional[Sequence[str]] = None
    # The variables of the environment. None: those of this process.
    variables: Optional[Mapping[str, str]] = None


def expect(holds: bool, what: str) -> None:
    """Refuses what doesn't hold."""
    if not holds:
        raise Wrong(what)


def compare(what: str, expected: Any, got: Any) -> None:
    """Refuses what is other than expected."""
    expect(expected == got, f"{what}: expected {shortened(expected)}, got {shortened(got)}")


def shortened(value: Any) -> str:
    """A value, or the beginning and the end of a long one."""
    text = repr(value)
    return text if len(text) <= 1000 else f"{text[:500]} .. {text[-500:]}"


def wait_until(holds: Callable[[], bool], what: str) -> None:
    """Waits until something holds."""
    end = time.monotonic() + SECONDS
    while not holds():
        expect(time.monotonic() < end, f"{what} not within {SECONDS} seconds")
        time.sleep(0.001)


def read_all(descriptor: int, into: bytearray) -> None:
    """Reads until a stream ends. The master of a terminal fails where nobody has its other end open."""
    while True:
        try:
            data = os.read(descriptor, 65536)
        except OSError:
            return
        if not data:
            return
        into += data


def sockets() -> Tuple[int, int]:
    """The end that reads and the end that writes of a socket. What is written at once is read at once, and nothing else with it."""
    reader, writer = socket.socketpair(socket.AF_UNIX, socket.SOCK_SEQPACKET)
    return reader.detach(), writer.detach()


def unread_bytes(reader: int) -> int:
    """How many bytes of a pipe were not read yet."""
    count = array.array("i", [0])
    fcntl.ioctl(reader, termios.FIONREAD, count)
    return count[0]


class Stage:
    """One run of the program: its streams, and what it showed. It is left with everything closed, and the program ended."""

    def __init__(self) -> None:
        # The streams of the program, which of them the shell closes, and the descriptors that are its own.
        self.streams: Dict[str, int] = {}
        self.shell = ""
        self.given: List[int] = []
        # The descriptors of the test: all, those that a script is still written to and read from, and that of a file with a script.
        self.own: List[int] = []
        self.writer = self.reader = self.file = -1
        self.kept: Dict[str, bytearray] = {}
        self.threads: List[threading.Thread] = []
        self.started: Optional["subprocess.Popen[bytes]"] = None

    def __enter__(self) -> "Stage":
        return self

    def __exit__(self, *_: Any) -> None:
        if self.started:
            self.started.kill()
            self.started.wait()
        self.close_given()
        self.end_input()
        for thread in self.threads:
            thread.join()
        for descriptor in self.own:
            os.close(descriptor)

    def close_given(self) -> None:
        """Closes what the program alone has from now on."""
        while self.given:
            os.close(self.given.pop())

    def give(self, stream: str, descriptor: int) -> None:
        """Makes a descriptor a stream of the program."""
        self.streams[stream] = descriptor
        self.given.append(descriptor)

    def give_input(self, kind: Input, script: bytes = b"") -> None:
        """Makes standard input. The script of a pipe or a socket is written later."""
        if kind == Input.CLOSED:
            self.shell += "exec <&-; "
        elif kind == Input.FOLDER:
            self.give("stdin", os.open("/", os.O_RDONLY))
        elif kind == Input.PIPE:
            self.reader, self.writer = os.pipe()
            self.own.append(self.reader)
            self.streams["stdin"] = self.reader
        elif kind == Input.BYTES:
            reader, self.writer = sockets()
            self.give("stdin", reader)
        elif kind == Input.UNREADY:
            reader, writer = os.pipe2(os.O_NONBLOCK)
            self.own.append(writer)
            self.give("stdin", reader)
        else:
            makers = {Input.FILE: self.give_file, Input.FAILING: self.give_failing, Input.TERMINAL: self.give_typed}
            makers[kind](script)

    def give_file(self, script: bytes) -> None:
        """Makes a file with the script standard input. Its position stays to be seen."""
        with tempfile.TemporaryFile() as file:
            file.write(script)
            file.seek(0)
            self.file = os.dup(file.fileno())
        self.own.append(self.file)
        self.streams["stdin"] = self.file

    def give_failing(self, script: bytes) -> None:
        """Makes a device that fails behind the script standard input."""
        master, slave = os.openpty()
        tty.setraw(slave)
        os.write(slave, script)
        os.close(slave)
        self.give("stdin", master)

    def give_typed(self, script: bytes) -> None:
        """Makes a terminal standard input, at which the script, its end and one line more are typed. Behind half a line the end is typed twice."""
        master, slave = os.openpty()
        modes = termios.tcgetattr(slave)
        modes[3] &= ~termios.ECHO
        termios.tcsetattr(slave, termios.TCSANOW, modes)
        ends = b"\x04" if script.endswith(b"\n") or not script else b"\x04\x04"
        os.write(master, script + ends + b"bank.3: COMMIT\n")
        self.own.append(master)
        self.give("stdin", slave)

    def give_output(self, stream: str, kind: Output) -> None:
        """Makes standard output or standard error."""
        if kind == Output.CLOSED:
            self.shell += f"exec {'1' if stream == 'stdout' else '2'}>&-; "
        elif kind in (Output.FULL, Output.NOWHERE):
            self.give(stream, os.open("/dev/full" if kind == Output.FULL else "/dev/null", os.O_WRONLY))
        elif kind == Output.BROKEN:
            reader, writer = os.pipe()
            os.close(reader)
            self.give(stream, writer)
        elif kind == Output.UNREADY:
            self.give(stream, self.full_pipe())
        else:
            self.keep(stream, kind == Output.TERMINAL)

    def full_pipe(self) -> int:
        """The end that writes of a pipe that isn't blocking, and is full."""
        reader, writer = os.pipe2(os.O_NONBLOCK)
        self.own.append(reader)
        with contextlib.suppress(BlockingIOError):
            while True:
                os.write(writer, bytes(PIPE_BUF))
        return writer

    def keep(self, stream: str, is_terminal: bool) -> None:
        """Keeps what comes of a stream, which is a pipe or a terminal."""
        reader, writer = os.openpty() if is_terminal else os.pipe()
        if is_terminal:
            tty.setraw(writer)
        self.own.append(reader)
        self.give(stream, writer)
        self.kept[stream] = bytearray()
        self.threads.append(threading.Thread(target=read_all, args=(reader, self.kept[stream]), daemon=True))
        self.threads[-1].start()

    def give_limited(self, path: str, room: int) -> None:
        """Makes a file standard output that takes so many bytes more."""
        descriptor = os.open(path, os.O_WRONLY | os.O_CREAT | os.O_TRUNC | os.O_APPEND)
        os.write(descriptor, bytes(BLOCK - room))
        self.give("stdout", descriptor)
        self.shell += LIMIT

    def start(self, program: Program, words: Sequence[Word], folder: str, variables: Optional[Mapping[str, str]] = None) -> None:
        """Starts the program in a folder, with these variables of the environment alone if they are given."""
        self.started = subprocess.Popen(program.command(words, self.shell), cwd=folder, env=variables, **self.streams)  # type: ignore[call-overload]
        self.close_given()

    def has_ended(self) -> bool:
        """Whether the program has ended."""
        return self.started is None or self.started.poll() is not None

    def write(self, script: bytes, most: Optional[int] = None) -> None:
        """Writes a script to the pipe that is standard input, so many bytes at a time at most. A program that reads no more is judged by what it shows."""
        left = memoryview(script)
        try:
            while left:
                left = left[os.write(self.writer, left[:most]) :]
        except (BrokenPipeError, ConnectionResetError):
            pass

    def give_lines(self, script: str, replies: str) -> None:
        """Writes lines to the pipe. Waits until they were read, and until these are all replies since the start."""
        self.write(script.encode())
        wait_until(lambda: unread_bytes(self.reader) == 0 or self.has_ended(), "the lines were read")
        if "stdout" in self.kept:
            wait_until(lambda: len(self.kept["stdout"]) >= len(replies.encode()) or self.has_ended(), "the replies came")
            compare("the replies so far", replies, self.text("stdout"))

    def end_input(self) -> None:
        """Ends what is written to the pipe."""
        if self.writer >= 0:
            os.close(self.writer)
            self.writer = -1

    def end(self) -> int:
        """Waits for the end of the program and of what it wrote. Returns its status."""
        self.end_input()
        assert self.started
        try:
            status = self.started.wait(SECONDS)
        except subprocess.TimeoutExpired:
            raise Wrong(f"the program had not ended after {SECONDS} seconds") from None
        for thread in self.threads:
            thread.join()
        return status

    def text(self, stream: str) -> str:
        """What came of a stream."""
        return bytes(self.kept.get(stream, b"")).decode(errors="backslashreplace")

    def position(self) -> int:
        """How many bytes of the file that is standard input were read."""
        return os.lseek(self.file, 0, os.SEEK_CUR)


def check(program: Program, case: Case, folder: str) -> None:
    """Runs the program, and compares what it shows."""
    limited, script = f"{folder}/limited", case.script.encode()
    with Stage() as stage:
        stage.give_input(case.stdin, script)
        if case.room is None:
            stage.give_output("stdout", case.stdout)
        else:
            stage.give_limited(limited, case.room)
        stage.give_output("stderr", case.stderr)
        stage.start(program, case.words, folder, case.variables)
        if case.stdin in (Input.PIPE, Input.BYTES):
            stage.write(script, 1 if case.stdin == Input.BYTES else None)
        status = stage.end()
        compare_errors(case, stage.text("stderr"))
        compare("standard output", case.replies, stage.text("stdout") if case.room is None else tail_of(limited, case.room))
        compare("the status", case.status, status)
        if case.stdin == Input.FILE and case.reads is not None:
            compare("how many bytes were read", len(script) if case.reads else 0, stage.position())
    if case.files is not None:
        compare("the files", sorted(case.files), sorted(os.listdir(folder)))


def compare_errors(case: Case, errors: str) -> None:
    """Compares what came of standard error."""
    if case.first_line is None:
        compare("standard error", case.errors, errors)
    else:
        compare("the first line of standard error", case.first_line, errors.split("\n", 1)[0])


def tail_of(path: str, room: int) -> str:
    """What was written to a file that took so many bytes more."""
    with open(path, "rb") as file:
        return file.read()[BLOCK - room :].decode()
