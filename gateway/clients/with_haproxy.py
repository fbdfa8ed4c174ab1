"""HAProxy's `option pgsql-check`: a gateway that serves is UP, and one that has ended is DOWN."""
from __future__ import annotations

import shutil
import socket
from typing import Dict

from clients.servers import END, Gateway, Server, free_port, wait_until
from clients.suite import Part, main

PART = Part("with_haproxy")


class Haproxy(Server):
    """HAProxy in front of a gateway, which it asks each tenth of a second whether it serves."""

    def __init__(self, gateway: Gateway) -> None:
        super().__init__()
        self.gateway = gateway
        self.control = self.folder / "control"

    def start(self) -> None:
        (self.folder / "settings").write_text(
            "\n".join(
                [
                    "global",
                    f"  stats socket {self.control} mode 600 level admin",
                    "defaults",
                    "  mode tcp",
                    "  timeout connect 2s",
                    "  timeout client 2s",
                    "  timeout server 2s",
                    "listen gateway",
                    f"  bind 127.0.0.1:{free_port()}",
                    "  option pgsql-check user haproxy",
                    f"  server it unix@{self.gateway.socket} check inter 100ms fall 2 rise 1",
                    "",
                ]
            )
        )
        self.launch([shutil.which("haproxy") or "/usr/sbin/haproxy", "-db", "-f", self.folder / "settings"])
        self.await_socket(self.control)

    def state(self) -> str:
        """Returns the state of its server, as `UP` or `DOWN`."""
        with socket.socket(socket.AF_UNIX) as it:
            it.settimeout(END)
            it.connect(str(self.control))
            it.sendall(b"show stat\n")
            said = b"".join(iter(lambda: it.recv(65536), b"")).decode()
        lines = [line.split(",") for line in said.splitlines() if line]
        columns: Dict[str, int] = {name: at for at, name in enumerate(lines[0])}
        found = next(line for line in lines if line[columns["svname"]] == "it")
        return f"{found[columns['status']]} {found[columns['check_status']]}"


@PART.alone
def is_up_while_it_serves() -> None:
    with Gateway() as gateway, Haproxy(gateway) as haproxy:
        # It begins as UP without a check, which then says what it found.
        wait_until("UP by a check of layer 7", lambda: haproxy.state() == "UP L7OK", pause=0.05)
        gateway.expect_clean_end()
        wait_until("DOWN", lambda: haproxy.state().startswith("DOWN"), pause=0.05)


if __name__ == "__main__":
    main(PART)
