#!/usr/bin/env python3
"""Passes bytes on between Unix sockets, as a network does that loses connections.

    forwarder.py SOCKET TARGET [MILLISECONDS]

Each piece arrives so many milliseconds later. SIGUSR1: about half of the connections are lost; SIGUSR2: all. For a moment nothing arrives, then one
side hears of the end, and the other up to two seconds later; what is under way to it arrives just before. SIGSTOP and SIGCONT, as always, stall it.
SIGHUP: a proxy's keeper hears nothing more of its PostgreSQL, not even the end of its connection; and again: it hears all.
"""
from __future__ import annotations

import asyncio
import random
import selectors
import signal
import sys
from typing import Any, Coroutine, List, Optional, Set

MOMENT, LATE = 0.1, 2.0
# What the first message of a proxy's keeper has.
KEEPER = b"escrowd-proxy keeper"
DELAY = float(sys.argv[3]) / 1000 if len(sys.argv) > 3 else 0.0


class Side(asyncio.Protocol):
    """A side of a link: the client's, or the target's. What comes from it goes to the other one."""

    transport: asyncio.Transport

    def __init__(self, link: Link, other: Optional[Side] = None) -> None:
        self.link, self.other = link, other
        # What is under way to it when the link is lost, and what came from it before it had another side.
        self.under_way: List[bytes] = []
        self.early: List[bytes] = []

    def connection_made(self, transport: asyncio.BaseTransport) -> None:
        assert isinstance(transport, asyncio.Transport)
        self.transport = transport

    def data_received(self, data: bytes) -> None:
        if self.other is None:
            self.early.append(data)
        elif self.link.is_lost:
            self.other.under_way.append(data)
        elif DELAY:
            asyncio.get_running_loop().call_later(DELAY, self.other.transport.write, data)
        else:
            self.other.transport.write(data)

    def eof_received(self) -> bool:
        self.end_other()
        return self.other is not None  # what is under way to it still arrives

    def connection_lost(self, exc: Optional[Exception]) -> None:
        LINKS.discard(self.link)
        self.end_other()

    def end_other(self) -> None:
        """Ends the other side behind all that is under way to it."""
        if self.other is not None and not self.link.is_lost:
            asyncio.get_running_loop().call_later(DELAY, self.other.transport.close)

    def pause_writing(self) -> None:
        if self.other is not None:
            self.other.transport.pause_reading()

    def resume_writing(self) -> None:
        if self.other is not None and not self.link.is_deaf:
            self.other.transport.resume_reading()


class Client(Side):
    """The client's side, which comes first."""

    def connection_made(self, transport: asyncio.BaseTransport) -> None:
        super().connection_made(transport)
        start(self.link.open(self))

    def data_received(self, data: bytes) -> None:
        self.link.is_keeper |= KEEPER in data
        super().data_received(data)


class Link:
    """A connection with its two sides."""

    def __init__(self) -> None:
        self.is_lost = self.is_keeper = self.is_deaf = False
        self.sides: List[Side] = []

    async def open(self, client: Client) -> None:
        """Connects a client to the target."""
        try:
            _, target = await asyncio.get_running_loop().create_unix_connection(lambda: Side(self, client), sys.argv[2])
        except OSError:
            client.transport.close()
            return
        if client.transport.is_closing():
            target.transport.close()
            return
        client.other = target
        self.sides = [client, target]
        LINKS.add(self)
        for it in client.early:
            client.data_received(it)

    async def lose(self) -> None:
        """Ends one side soon, and the other later."""
        self.is_lost = True
        LINKS.discard(self)
        await asyncio.sleep(random.uniform(0, MOMENT))
        first, last = random.sample(self.sides, 2)
        first.transport.abort()
        await asyncio.sleep(random.choice((0, random.uniform(0, MOMENT), random.uniform(0, LATE))))
        last.transport.writelines(last.under_way)
        last.transport.close()

    def deafen(self) -> None:
        """Lets its client hear nothing of its target, not even the end."""
        self.is_deaf = True
        self.sides[1].transport.pause_reading()

    def hear(self) -> None:
        """Lets its client hear all."""
        self.is_deaf = False
        self.sides[1].transport.resume_reading()


LINKS: Set[Link] = set()
TASKS: "Set[asyncio.Task[None]]" = set()


def start(act: Coroutine[Any, Any, None]) -> None:
    """Starts a task."""
    task = asyncio.ensure_future(act)
    TASKS.add(task)
    task.add_done_callback(TASKS.discard)


async def main() -> None:
    def lose(part: float) -> None:
        for it in list(LINKS):
            if not it.is_lost and random.random() < part:
                start(it.lose())

    deaf: List[Link] = []

    def deafen() -> None:
        for it in deaf:
            it.hear()
        deaf[:] = [] if deaf else [it for it in LINKS if it.is_keeper]
        for it in deaf:
            it.deafen()

    loop = asyncio.get_running_loop()
    loop.add_signal_handler(signal.SIGHUP, deafen)
    loop.add_signal_handler(signal.SIGUSR1, lose, 0.5)
    loop.add_signal_handler(signal.SIGUSR2, lose, 1.0)
    server = await loop.create_unix_server(lambda: Client(Link()), sys.argv[1])
    await server.serve_forever()


if __name__ == "__main__":
    # Its times are of microseconds; those of others are of whole milliseconds.
    loop = asyncio.SelectorEventLoop(selectors.SelectSelector() if DELAY else None)
    loop.run_until_complete(main())
