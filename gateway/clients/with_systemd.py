"""The service under a real systemd: packaging's unit, run by a user manager in namespaces of its own, with its filter of system calls in force.

The manager runs as root, so it changes the user as the manager of a machine does. Its folders lie where that one has them: /run and /var/lib are empty
there, and what is mounted there is seen by nobody else.
"""
from __future__ import annotations

import json
import os
import shutil
import subprocess
from functools import partial
from pathlib import Path
from typing import Dict, List

from clients.limits import STOCK, TAKE
from clients.servers import END, GATEWAY, PROGRAM, TOP, Server, children, is_answered, wait_until
from clients.suite import Part, Skipped, expect, main
from clients.wire import Connection

PART = Part("with_systemd")
PACKAGING = TOP / "packaging"
SYSTEMD = Path("/lib/systemd/systemd")
JOURNALD = Path("/lib/systemd/systemd-journald")
UNIT = "escrowd-pg.service"
# A user that the machine need not have.
USER, ID = "escrowd", 64999
# The seconds between two questions. Each question starts a process.
PAUSE = 0.1
# What the gateway says last.
LAST = "all stores are closed"
OPTIONS = "--log-level debug --metrics /run/escrowd/escrowd-pg.prom"
# The lines that a status of a process has while a filter of system calls is in force, without new privileges.
CONFINED = ["NoNewPrivs:\t1", "Seccomp:\t2"]
# Sets up what the manager sees, and starts it. $1 is the server's folder, $2 the name of a control group.
SETUP = f"""
set -e
mount --make-rprivate /
for folder in /run /var/lib /etc/default; do mount -t tmpfs -o mode=755 tmpfs $folder; done
mount -t cgroup2 cgroup2 /sys/fs/cgroup
mkdir "/sys/fs/cgroup/$2"
echo $$ > "/sys/fs/cgroup/$2/cgroup.procs"
for file in passwd group; do mount --bind "$1/$file" /etc/$file; done
mount --bind "$1/bin" /usr/local/bin
mkdir -p /run/systemd/system /run/systemd/user /run/systemd/journald.conf.d
cp "$1/journald.conf" /run/systemd/journald.conf.d/
cp "$1/{UNIT}" /run/systemd/user/
cp "$1/default" /etc/default/escrowd-pg
{JOURNALD} &
umask 0  # as a machine's manager has: so a service of another user may tell it that it is ready
# The first process of the namespace would be a manager of the whole machine.
SYSTEMD_LOG_TARGET=console {SYSTEMD} --user --unit=basic.target &
wait $!
"""
# The journal of the manager alone, without the kernel's lines, and without a word to the kernel.
JOURNALD_CONF = "[Journal]\nStorage=volatile\nReadKMsg=no\nAudit=\n"
# Nothing of the tests' own environment is the manager's.
ENVIRONMENT = {"PATH": "/usr/sbin:/usr/bin:/sbin:/bin", "HOME": "/root", "XDG_RUNTIME_DIR": "/run", "XDG_CONFIG_HOME": "/var/lib",
               "XDG_STATE_HOME": "/var/lib"}
# Removes the control group $1, which is empty as soon as the last of its processes is gone.
REMOVE = """
mount --make-rprivate /
mount -t cgroup2 cgroup2 /sys/fs/cgroup
cd "/sys/fs/cgroup" && [ -d "$1" ] && find "$1" -depth -type d -exec rmdir {} +
[ ! -d "$1" ]
"""


class Manager(Server):
    """systemd with the unit, in namespaces of processes and of mounts."""

    def __init__(self) -> None:
        super().__init__()
        self.is_begun = False

    def start(self) -> None:
        lacks = [str(it) for it in (SYSTEMD, JOURNALD) if not it.exists()] + [it for it in ("unshare", "nsenter") if not shutil.which(it)]
        if lacks:
            raise Skipped(f"there is no {', '.join(lacks)}")
        if os.geteuid() != 0:
            raise Skipped("systemd cannot change the user: the tests do not run as root")
        os.chmod(self.folder, 0o755)
        (self.folder / "bin").mkdir()
        for program, name in ((GATEWAY, "escrowd-pg"), (PROGRAM, "escrowd")):
            shutil.copy(program, self.folder / "bin" / name)
        unit = (PACKAGING / UNIT).read_text()
        (self.folder / UNIT).write_text(unit.replace("=/usr/bin/", "=/usr/local/bin/"))
        default = (PACKAGING / "escrowd-pg.default").read_text()
        (self.folder / "default").write_text(default.replace('OPTIONS=""', f'OPTIONS="{OPTIONS}"'))
        (self.folder / "journald.conf").write_text(JOURNALD_CONF)
        for file, line in (("passwd", f"{USER}:x:{ID}:{ID}::/var/lib/{USER}:/usr/sbin/nologin\n"), ("group", f"{USER}:x:{ID}:\n")):
            (self.folder / file).write_text(Path("/etc", file).read_text(encoding="utf-8") + line)
        words = ["unshare", "--mount", "--pid", "--fork", "--kill-child", "--mount-proc", "sh", "-c", SETUP, "sh", self.folder, self.folder.name]
        self.launch(words, env=ENVIRONMENT)
        wait_until("the manager runs, or cannot", lambda: self.running().poll() is not None or self.is_up(), pause=PAUSE)
        if self.running().poll() is not None:
            raise Skipped(f"this machine lets no systemd run in a namespace: {self.said().strip()[-300:]}")
        self.is_begun = True

    def is_up(self) -> bool:
        """Returns whether the manager has started what it starts by itself, whatever came of that."""
        return bool(children(self.running().pid)) and self.systemctl("is-system-running").stdout.strip() in ("running", "degraded")

    def kill(self) -> None:
        super().kill()
        if self.process is not None and not self.is_removed() and self.is_begun:
            wait_until("the control group is empty", self.is_removed, pause=PAUSE)

    def is_removed(self) -> bool:
        """Removes the control group, if no process is in it. Returns whether it is gone."""
        words = ["unshare", "--mount", "sh", "-c", REMOVE, "sh", self.folder.name]
        return subprocess.run(words, stdout=subprocess.DEVNULL, stderr=subprocess.DEVNULL, check=False).returncode == 0

    def inside(self, *words: str) -> "subprocess.CompletedProcess[str]":
        """Runs a command where the manager is."""
        init = children(self.running().pid)[0]
        return subprocess.run(["nsenter", "--target", str(init), "--mount", "--pid", *words], capture_output=True, text=True, timeout=END,
                              env=ENVIRONMENT, check=False)

    def systemctl(self, *words: str) -> "subprocess.CompletedProcess[str]":
        return self.inside("systemctl", "--user", *words)

    def do(self, verb: str, *words: str) -> None:
        """Runs systemctl with the unit, which has to succeed."""
        done = self.systemctl(verb, *words, UNIT)
        if done.returncode != 0:
            raise AssertionError(f"systemctl {verb}: {done.stderr}{self.journal()}")

    def shown(self, *names: str) -> Dict[str, str]:
        """Returns properties of the unit."""
        done = self.systemctl("show", UNIT, "--property", ",".join(names))
        return dict(line.split("=", 1) for line in done.stdout.splitlines())

    def journal(self) -> List[Dict[str, str]]:
        """Returns the lines of the gateway in the journal, which reads them when it has time."""
        done = self.inside("journalctl", "--output=json", "--no-pager", "SYSLOG_IDENTIFIER=escrowd-pg")
        return [json.loads(line) for line in done.stdout.splitlines()]

    def path(self, path: str) -> Path:
        """Returns the path under which this process reaches a path of the manager's."""
        return Path(f"/proc/{children(self.running().pid)[0]}/root{path}")

    @property
    def socket(self) -> Path:
        return self.path("/run/escrowd/.s.PGSQL.5432")

    def confined(self) -> List[List[str]]:
        """Returns what the status of each process of the unit says of its confinement."""
        group = self.path("/sys/fs/cgroup") / self.shown("ControlGroup")["ControlGroup"].lstrip("/")
        found = []
        for process in (group / "cgroup.procs").read_text().split():
            status = Path(f"/proc/{process}/status").read_text(encoding="utf-8").splitlines()
            found.append([line for line in status if line.startswith(("NoNewPrivs:", "Seccomp:"))])
        return found

    def restarts(self) -> int:
        return int(self.shown("NRestarts")["NRestarts"])


def has_restarted(manager: Manager, restarts: int) -> bool:
    """Returns whether the service was started again so often, and serves."""
    return manager.restarts() == restarts and is_answered(manager.socket)


def expect_pieces(manager: Manager, pieces: int) -> None:
    with Connection(manager.socket, database="shop") as it:
        expect(it.rows("SELECT * FROM stock"), [("1", str(pieces))])


@PART.alone
def the_life_of_a_service() -> None:
    """It is started, stopped and started again, killed, and told to read its files again."""
    with Manager() as manager:
        manager.do("start")
        expect(manager.confined(), [CONFINED, CONFINED])
        with Connection(manager.socket, database="shop") as it:
            it.do(STOCK, "INSERT INTO stock VALUES (1, 9)", TAKE.format(1))
        manager.do("stop")
        expect(manager.shown("Result", "ExecMainStatus"), {"Result": "success", "ExecMainStatus": "0"})
        expect([it.name for it in manager.path("/var/lib/escrowd").iterdir()], ["shop.db"])
        manager.do("start")
        expect_pieces(manager, 8)
        manager.do("kill", "--signal=SIGHUP", "--kill-whom=main")
        manager.do("restart")
        expect_pieces(manager, 8)
        expect((manager.restarts(), manager.shown("ActiveState")), (0, {"ActiveState": "active"}))


@PART.alone
def a_service_that_is_killed() -> None:
    """systemd starts it again, whichever of the two ended."""
    with Manager() as manager:
        manager.do("start")
        with Connection(manager.socket, database="shop") as it:
            it.do(STOCK, "INSERT INTO stock VALUES (1, 9)", TAKE.format(2))
        for restarts, name in ((1, "escrowd-pg"), (2, "escrowd")):
            manager.inside("sh", "-c", f"kill -KILL $(pgrep -x {name})")
            wait_until(f"a start behind the end of {name}", partial(has_restarted, manager, restarts), pause=PAUSE)
            expect_pieces(manager, 7)
        manager.do("stop")
        expect([it.name for it in manager.path("/var/lib/escrowd").iterdir()], ["shop.db"])


@PART.alone
def what_the_service_shows() -> None:
    """Its lines have priorities in the journal. Everybody may read the metrics; the store is for its user alone, the socket for its group too."""
    with Manager() as manager:
        manager.do("start")
        Connection(manager.socket, database="shop").close()
        metrics = manager.path("/run/escrowd/escrowd-pg.prom")
        wait_until("the metrics are written", metrics.exists)
        modes = {path: oct(manager.path(path).stat().st_mode & 0o777) for path in ("/run/escrowd", "/run/escrowd/escrowd-pg.prom", "/run/escrowd/.s.PGSQL.5432",
                                                                                   "/var/lib/escrowd")}
        expect(modes, {"/run/escrowd": "0o755", "/run/escrowd/escrowd-pg.prom": "0o644", "/run/escrowd/.s.PGSQL.5432": "0o660",
                       "/var/lib/escrowd": "0o700"})
        manager.do("stop")
        wait_until("the journal has the last lines", lambda: any(line["MESSAGE"] == LAST for line in manager.journal()), pause=PAUSE)
        told = {line["MESSAGE"]: line["PRIORITY"] for line in manager.journal()}
        expect(told.get("serving shop at /run/escrowd/.s.PGSQL.5432"), "6", str(told))
        expect([told[line] for line in told if line.startswith("shop: connection 1 of user ")], ["7"], str(told))
        expect(told.get("SIGTERM: stopping"), "6", str(told))


if __name__ == "__main__":
    main(PART)
