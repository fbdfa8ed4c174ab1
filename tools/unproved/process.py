"""Commands that are run to their end, and end with this process."""
import os
import signal
import subprocess
import sys
import threading
from typing import Any, Mapping, NamedTuple, NoReturn, Optional, Sequence, Set

# What runs now, in whichever thread, and whether this process ends.
RUNNING: Set["subprocess.Popen[Any]"] = set()
ENDING = threading.Event()
LOCK = threading.Lock()
ENDED = "ended by a signal"
# The seconds that a command may take to end, once it was told to.
FAREWELL = 10.0


class Done(NamedTuple):
    """How a command ended, and what it wrote to standard output and standard error."""

    status: int
    said: str


def started(words: Sequence[str], **how: Any) -> "subprocess.Popen[Any]":
    """Starts a command that ends with this process."""
    with LOCK:
        if ENDING.is_set():
            raise InterruptedError(ENDED)
        process = subprocess.Popen(words, **how)
        RUNNING.add(process)
    return process


def ended(process: "subprocess.Popen[Any]") -> None:
    """Ends a command, if it still runs, and all that it started, if it cares for that."""
    with LOCK:
        RUNNING.discard(process)
    if process.poll() is None:
        process.terminate()
        try:
            process.wait(FAREWELL)
        except subprocess.TimeoutExpired:
            process.kill()
            process.wait()


def finished(words: Sequence[str], folder: Optional[str] = None, variables: Optional[Mapping[str, str]] = None) -> Done:
    """Runs a command without input in a folder to its end, with further variables of the environment. What a signal to this process has ended is no end."""
    process = started(words, cwd=folder, env={**os.environ, **(variables or {})}, stdin=subprocess.DEVNULL, stdout=subprocess.PIPE,
                      stderr=subprocess.STDOUT, text=True, errors="replace")
    try:
        said, _ = process.communicate()
    finally:
        ended(process)
    if ENDING.is_set():
        raise InterruptedError(ENDED)
    return Done(process.returncode, said)


def end_by(number: int, _frame: object) -> NoReturn:
    """Ends this process for a signal, and all that it started."""
    ENDING.set()
    for process in list(RUNNING):
        process.terminate()
    sys.exit(128 + number)


def end_with_signals() -> None:
    """Has the signals that end a command end what it started too."""
    for number in (signal.SIGHUP, signal.SIGINT, signal.SIGTERM):
        signal.signal(number, end_by)
