"""Installs Debian's packages of the clients, where they are not there."""
from __future__ import annotations

import glob
import os
import shutil
import subprocess
import sys
import tempfile
import time
from pathlib import Path
from typing import Dict, List, Optional, Sequence

# How often apt is asked, the seconds between, those that it may take, and those behind which no package is tried by itself.
TRIES, PAUSE, LIMIT, LAST = 3, 5.0, 600.0, 900.0
APT = ["apt-get", "-qy", "-o", "DPkg::Lock::Timeout=60", "-o", "Acquire::Retries=0", "-o", "Acquire::http::Timeout=20"]
UPDATE = [*APT, "-o", "APT::Update::Error-Mode=any", "update"]
INSTALL = [*APT, "install", "--no-install-recommends"]
# Names the folder of modules that has node-pg, for the part that needs it.
NODE_MODULES = "ESCROWD_NODE_MODULES"
# What a client needs beyond `pg`, of which Debian makes packages of their own.
NODE_PACKAGES = [
    "node-pg", "node-split2", "node-xtend", "node-readable-stream", "node-inherits", "node-core-util-is", "node-string-decoder",
    "node-safe-buffer", "node-process-nextick-args", "node-util-deprecate", "node-isarray",
]
# Programs and files that show that a package, or another installation of the same, is there.
SHOWS: Dict[str, Sequence[str]] = {
    "postgresql-client": ["/usr/bin/psql"],
    "postgresql-15": ["/usr/lib/postgresql/*/bin/pgbench"],
    "python3-psycopg": ["/usr/lib/python3/dist-packages/psycopg/__init__.py"],
    "python3-psycopg-pool": ["/usr/lib/python3/dist-packages/psycopg_pool/__init__.py"],
    "python3-psycopg2": ["/usr/lib/python3/dist-packages/psycopg2/__init__.py"],
    "python3-sqlalchemy": ["/usr/lib/python3/dist-packages/sqlalchemy/__init__.py"],
    "libpostgresql-jdbc-java": ["/usr/share/java/postgresql.jar"],
    "default-jdk-headless": ["/usr/bin/javac"],
    "nodejs": ["/usr/bin/node", "/usr/local/bin/node"],
    "pgbouncer": ["/usr/sbin/pgbouncer"],
    "haproxy": ["/usr/sbin/haproxy"],
    "python3-asyncpg": ["/usr/lib/python3/dist-packages/asyncpg/__init__.py"],
    "python3-django": ["/usr/lib/python3/dist-packages/django/__init__.py"],
    "python3-peewee": ["/usr/lib/python3/dist-packages/peewee.py"],
    "python3-pglast": ["/usr/lib/python3/dist-packages/pglast/__init__.py"],
    "python3-pyodbc": ["/usr/lib/python3/dist-packages/pyodbc*.so"],
    "odbc-postgresql": ["/usr/lib/*/odbc/psqlodbcw.so"],
    "ruby-activerecord": ["/usr/share/rubygems-integration/all/gems/activerecord-*"],
    "ruby-pg": ["/usr/lib/ruby/vendor_ruby/pg.rb", "/usr/share/rubygems-integration/*/gems/pg-*", "/var/lib/gems/*/gems/pg-*"],
    "erlang-p1-pgsql": ["/usr/lib/*/erlang/lib/p1_pgsql-*", "/usr/lib/erlang/lib/p1_pgsql-*"],
    "systemd": ["/lib/systemd/systemd-journald"],
    "prometheus": ["/usr/bin/promtool"],
    "gnuplot-nox": ["/usr/bin/gnuplot"],
    "openssl": ["/usr/bin/openssl"],
    "patroni": ["/usr/bin/patroni"],
    "etcd-server": ["/usr/bin/etcd"],
}


def is_here(package: str) -> bool:
    """Returns whether a package is installed, or something in its place."""
    if package in SHOWS:
        return any(glob.glob(pattern) for pattern in SHOWS[package])
    done = subprocess.run(["dpkg-query", "-W", "-f", "${Status}", package], capture_output=True, text=True, check=False)
    return done.stdout.endswith(" installed")


def run(words: Sequence[str], tries: int = 1, folder: Optional[Path] = None) -> bool:
    """Runs a command of apt's until it succeeds, so often at most. Returns whether it did."""
    env = {**os.environ, "DEBIAN_FRONTEND": "noninteractive"}
    for again in range(tries):
        if again:
            time.sleep(PAUSE)
        try:
            done = subprocess.run(words, stdin=subprocess.DEVNULL, stdout=subprocess.PIPE, stderr=subprocess.STDOUT, text=True, env=env,
                                  cwd=folder, timeout=LIMIT, check=False)
            status, said = str(done.returncode), done.stdout
        except (subprocess.TimeoutExpired, OSError) as error:
            status, said = "none", str(error)
        if status == "0":
            return True
        print(f"{' '.join(words)}: status {status}: {said.strip()[-300:]}", file=sys.stderr, flush=True)
    return False


def fetch_and_install(packages: Sequence[str], tries: int) -> bool:
    """Installs packages once all that they need is there, so that no network that stands still ends dpkg halfway. Returns whether it did."""
    return run([*INSTALL, "--download-only", *packages], tries) and run([*INSTALL, "--no-download", *packages])


def install(packages: Sequence[str]) -> List[str]:
    """Installs packages of Debian's that are not there. Returns those that could not be had."""
    missing = [it for it in packages if not is_here(it)]
    if not missing or os.geteuid() != 0 or not shutil.which("apt-get"):
        return missing
    print(f"installing {' '.join(missing)}", file=sys.stderr, flush=True)
    begin = time.monotonic()
    # An old list of packages may still do. One package that cannot be had keeps no other away.
    updated = run(UPDATE, TRIES)
    if not fetch_and_install(missing, TRIES if updated else 1) and updated:
        for it in missing:
            if time.monotonic() - begin < LAST:
                fetch_and_install([it], 1)
    return [it for it in missing if not is_here(it)]


def unpack_node_pg(parent: Optional[Path] = None) -> Optional[Path]:
    """Unpacks Debian's node-pg into a temporary folder, and returns the folder of modules, if it can be had. It is not installed, because the package
    wants Debian's own Node.js, and a machine may have another."""
    folder = Path(tempfile.mkdtemp(prefix="escrowd-node-", dir=parent))
    fetched = shutil.which("apt-get") and run([*APT, "download", *NODE_PACKAGES], TRIES, folder)
    if not fetched:
        shutil.rmtree(folder)
        return None
    for it in folder.glob("*.deb"):
        subprocess.run(["dpkg", "-x", str(it), str(folder)], check=True)
    return folder / "usr/share/nodejs"
