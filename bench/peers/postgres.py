"""A PostgreSQL server for bench/peers/sessions and bench/peers/durable.

Its rows are locked by the transactions that change them. It listens at a socket in the file system alone. The program's amount is a column, and its
floor stands in WHERE. The rows that are changed stand on pages of their own, half of which is free for their versions.
"""
import glob
import os
import pwd
import re
import resource
import shutil
import signal
import subprocess
import tempfile
import time
from typing import Any, Dict, List, Mapping, Optional, Sequence

from runs import Run

START = 1_000_000_000
# Where the rows that are changed stand: more than a page's rows from each other.
APART = 200
TABLE = f"""
CREATE TABLE hot (id integer PRIMARY KEY, amount bigint NOT NULL) WITH (fillfactor = 50);
INSERT INTO hot SELECT id, {START} FROM generate_series(0, {64 * APART - 1}) id;
VACUUM ANALYZE hot;
CHECKPOINT;
"""
# Where it waits for no disk, and where what it answers has been synced.
IN_MEMORY = {"fsync": "off", "synchronous_commit": "off", "full_page_writes": "off"}
DURABLE = {"fsync": "on", "synchronous_commit": "on", "full_page_writes": "on"}


def found(name: str) -> Optional[str]:
    """Where a program of the server is, if it is installed."""
    return shutil.which(name) or next(iter(sorted(glob.glob(f"/usr/lib/postgresql/*/bin/{name}"))[::-1]), None)


def path_of(name: str) -> str:
    """The path of a program of the server, which is installed."""
    return found(name) or name


def lacks() -> List[str]:
    """The programs that are wanted and aren't installed."""
    return [name for name in ("initdb", "postgres", "pgbench", "psql") if not found(name)]


class Server:
    """A server in a folder of its own, as long as it is in hand. It refuses to run as root, so that root runs it as `nobody`."""

    def __init__(self, where: Optional[str] = None, keeps: Optional[Mapping[str, str]] = None) -> None:
        self.where, self.keeps = where, keeps or IN_MEMORY

    def __enter__(self) -> "Server":
        self.folder = tempfile.TemporaryDirectory(dir=self.where)
        who: Dict[str, Any] = {}
        if os.geteuid() == 0:
            nobody = pwd.getpwnam("nobody")
            os.chown(self.folder.name, nobody.pw_uid, nobody.pw_gid)
            who = {"user": nobody.pw_uid, "group": nobody.pw_gid, "extra_groups": []}
        self.data = f"{self.folder.name}/data"
        words = [path_of("initdb"), "--no-sync", "--auth=trust", "--username=bench", "--encoding=UTF8", "--no-locale", f"--pgdata={self.data}"]
        subprocess.run(words, cwd=self.folder.name, stdout=subprocess.DEVNULL, check=True, **who)
        options = {**self.keeps, "listen_addresses": "", "unix_socket_directories": self.folder.name}
        words = [path_of("postgres"), "-D", self.data, *(word for name, value in options.items() for word in ("-c", f"{name}={value}"))]
        with open(f"{self.folder.name}/log", "w", encoding="utf-8") as log:
            self.process = subprocess.Popen(words, cwd=self.folder.name, stdout=log, stderr=log, **who)
        while not self.is_ready():
            if self.process.poll() is not None:
                with open(f"{self.folder.name}/log", encoding="utf-8") as log:
                    raise SystemExit(f"postgres: {log.read()}")
            time.sleep(0.05)
        return self

    def __exit__(self, *_: object) -> None:
        self.process.send_signal(signal.SIGINT)
        self.process.wait()
        self.folder.cleanup()

    def psql(self) -> List[str]:
        return [path_of("psql"), "-h", self.folder.name, "-U", "bench", "-d", "postgres", "-X", "-q", "-A", "-t", "-v", "ON_ERROR_STOP=1"]

    def is_ready(self) -> bool:
        return subprocess.run([*self.psql(), "-c", "SELECT 1"], stdout=subprocess.DEVNULL, stderr=subprocess.DEVNULL, check=False).returncode == 0

    def ask(self, text: str) -> str:
        return subprocess.run(self.psql(), input=text, capture_output=True, text=True, check=True).stdout.strip()

    def spent(self) -> float:
        """The processor time of the server and of all processes that it has started, in seconds."""
        ticks = 0
        for stat in glob.glob("/proc/[0-9]*/stat"):
            try:
                with open(stat, encoding="utf-8") as it:
                    numbers = it.read().rpartition(")")[2].split()
            except (FileNotFoundError, ProcessLookupError):
                continue
            if int(stat.split("/")[2]) == self.process.pid:
                ticks += sum(map(int, numbers[11:15]))
            elif int(numbers[1]) == self.process.pid:
                ticks += sum(map(int, numbers[11:13]))
        return ticks / os.sysconf("SC_CLK_TCK")

    def transactions(self, own: bool, clients: int, limit: Sequence[str], in_block: bool) -> Run:
        """Has clients make transactions of one UPDATE by pgbench, each so many or for so long, and looks at the rows behind it. An UPDATE that
        isn't in a block of BEGIN and COMMIT is a transaction by itself."""
        self.ask("DROP TABLE IF EXISTS hot;" + TABLE)
        key = f"{APART} * :client_id" if own else "0"
        update = "UPDATE hot SET amount = amount - 1 WHERE id = :id AND amount - 1 >= 0;"
        lines = [f"\\set id {key}", *(["BEGIN;", update, "COMMIT;"] if in_block else [update])]
        with tempfile.NamedTemporaryFile("w", suffix=".sql") as script:
            script.write("".join(f"{line}\n" for line in lines))
            script.flush()
            words = [path_of("pgbench"), "-h", self.folder.name, "-U", "bench", "-n", "-M", "prepared", "-f", script.name]
            words += ["-c", str(clients), "-j", str(min(clients, os.cpu_count() or 1)), *limit, "postgres"]
            server, client = self.spent(), spent_by_children()
            said = subprocess.run(words, capture_output=True, text=True, check=True).stdout
            client = spent_by_children() - client
            time.sleep(0.1)
            server = self.spent() - server
        count = int(number_in(said, r"transactions actually processed: (\d+)"))
        rate = float(number_in(said, r"tps = ([\d.]+) \(without initial connection time\)"))
        taken = self.ask(f"SELECT sum({START} - amount), count(*) FROM hot WHERE amount <> {START}")
        if taken != f"{count}|{clients if own else 1}":
            raise SystemExit(f"postgres: {taken} taken, and not {count}")
        return Run(count, count / rate, server, client)


def number_in(said: str, pattern: str) -> str:
    """What a pattern finds in what a program said."""
    it = re.search(pattern, said)
    if not it:
        raise SystemExit(f"postgres: {said}")
    return it[1]


def spent_by_children() -> float:
    """The processor time of all programs that were run and have ended."""
    usage = resource.getrusage(resource.RUSAGE_CHILDREN)
    return usage.ru_utime + usage.ru_stime
