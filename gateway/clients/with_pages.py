"""The sessions of psql that the pages show: pages.psql is typed into two psqls, and has to be what their terminals show.

A line of pages.psql begins with the number of its psql and `| `. Behind that stands what the terminal shows: a prompt with what is typed, or output.
"""
from __future__ import annotations

import difflib
import os
import pty
import re
import select
import subprocess
import termios
from pathlib import Path
from typing import List

from clients.servers import END, Gateway
from clients.suite import Part, main

PART = Part("with_pages")
STORED = Path(__file__).parent / "pages.psql"
DATABASE = "shop"
TYPED = re.compile(rf"(\d)\| {DATABASE}[=-][*!]?> (.*)")
PROMPT = re.compile(rf"(?:^|\n){DATABASE}[=-][*!]?> $")


class Terminal:
    """psql at a terminal that doesn't echo what is typed."""

    def __init__(self, gateway: Gateway) -> None:
        self.side, other = pty.openpty()
        settings = termios.tcgetattr(other)
        settings[1] &= ~termios.OPOST
        settings[3] &= ~termios.ECHO
        termios.tcsetattr(other, termios.TCSANOW, settings)
        words = ["psql", "-X", "-n", "-P", "pager=off", "-d", gateway.dsn(DATABASE)]
        env = {**os.environ, "PGCLIENTENCODING": "UTF8", "LC_ALL": "C.UTF-8", "TERM": "dumb"}
        self.process = subprocess.Popen(words, stdin=other, stdout=other, stderr=other, env=env, start_new_session=True)
        os.close(other)
        self.prompt = self.output().rsplit("\n", 1)[-1]

    def output(self) -> str:
        """Reads until a prompt comes."""
        text = b""
        while not PROMPT.search(text.decode(errors="replace")):
            if not select.select([self.side], [], [], END)[0]:
                raise AssertionError(f"psql shows no prompt: {text!r}")
            text += os.read(self.side, 65536)
        return text.decode()

    def type(self, line: str) -> List[str]:
        """Types a line, and returns what the terminal shows from the prompt before it to the next one."""
        os.write(self.side, line.encode() + b"\n")
        *shown, prompt = self.output().split("\n")
        shown.insert(0, self.prompt + line)
        self.prompt = prompt
        return shown

    def close(self) -> None:
        """Ends psql."""
        os.close(self.side)
        self.process.wait(END)


@PART.alone
def sessions_of_the_pages() -> None:
    """`ESCROWD_WRITE=1` writes what the terminals show; read the difference before you keep it."""
    stored = STORED.read_text().splitlines()
    with Gateway({DATABASE: None}) as gateway:
        terminals = {"1": Terminal(gateway), "2": Terminal(gateway)}
        shown: List[str] = []
        for line in stored:
            typed = TYPED.fullmatch(line)
            if typed:
                shown += (f"{typed[1]}| {it}".rstrip() for it in terminals[typed[1]].type(typed[2]))
        for it in terminals.values():
            it.close()
    if "ESCROWD_WRITE" in os.environ:
        STORED.write_text("\n".join(shown) + "\n")
    if shown != stored:
        raise AssertionError("\n".join(difflib.unified_diff(stored, shown, "pages.psql", "psql", lineterm="", n=1)))


if __name__ == "__main__":
    main(PART)
