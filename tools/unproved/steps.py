"""Tells on standard error which step of a build runs, how long the build has taken so far, and how long the step usually takes."""
import contextlib
import sys
import threading
import time
from typing import Iterator

# A step is told again after so many seconds.
AGAIN = 30.0


def minutes(seconds: float) -> str:
    """A time as people say it."""
    whole = round(seconds)
    return f"{whole // 60} min {whole % 60:02} s" if whole >= 60 else f"{whole} s"


class Steps:
    """The steps of one build. `name` is the tool that speaks; without one nothing is told."""

    def __init__(self, name: str) -> None:
        self.name = name
        self.begin = time.monotonic()

    def tell(self, text: str) -> None:
        """Tells something, with the time since the beginning."""
        if self.name:
            print(f"{self.name}: {minutes(time.monotonic() - self.begin)}: {text}", file=sys.stderr, flush=True)

    @contextlib.contextmanager
    def step(self, what: str, usual: float) -> Iterator[None]:
        """Tells that a step begins, and from time to time that it still runs."""
        text = f"{what}, usually {minutes(usual)}"
        is_over = threading.Event()

        def tell_again() -> None:
            while not is_over.wait(AGAIN):
                self.tell(text)

        self.tell(text)
        teller = threading.Thread(target=tell_again, daemon=True)
        teller.start()
        try:
            yield
        finally:
            is_over.set()
            teller.join()
