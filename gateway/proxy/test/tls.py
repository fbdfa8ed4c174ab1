#!/usr/bin/env python3
"""Tests TLS on both sides of escrowd-proxy, with certificates that openssl makes."""
from __future__ import annotations

import os
import pwd
import signal
import socket
import ssl
import struct
import subprocess
from contextlib import contextmanager
from functools import partial
from pathlib import Path
from tempfile import TemporaryDirectory
from typing import Iterator, List, Optional, Sequence, Tuple

import psycopg

from clients.servers import END, Server, free_port, wait_until
from clients.suite import main
from proxy.test.harness import ENVIRONMENT, PROXY, SharedPart, expect_cancel
from proxy.test.standin import Cluster

HBA = "local all all trust\nhost all all all scram-sha-256\n"


class Authority:
    """A folder of certificates: a root, what it has signed, and one that signs itself."""

    def __init__(self, folder: Path) -> None:
        self.folder = folder
        self.openssl("req", "-x509", "-newkey", "ec", "-pkeyopt", "ec_paramgen_curve:prime256v1", "-nodes", "-days", "9", "-subj", "/CN=root",
                     "-keyout", "root.key", "-out", "root.crt")
        self.openssl("req", "-x509", "-newkey", "ec", "-pkeyopt", "ec_paramgen_curve:prime256v1", "-nodes", "-days", "9", "-subj", "/CN=localhost",
                     "-addext", "subjectAltName=DNS:localhost", "-keyout", "itself.key", "-out", "itself.crt")
        for name, host in (("server", "localhost"), ("proxy", "localhost"), ("elsewhere", "elsewhere.example")):
            self.sign(name, f"subjectAltName=DNS:{host}")
        # As PostgreSQL's manual makes it, it has version 1 and a common name alone.
        self.sign("old", "")

    def openssl(self, *words: str) -> None:
        """Runs openssl in the folder."""
        subprocess.run(["openssl", *words], check=True, cwd=self.folder, stdout=subprocess.DEVNULL, stderr=subprocess.DEVNULL)

    def sign(self, name: str, extensions: str) -> None:
        """Makes a key and a certificate that the root has signed."""
        self.openssl("req", "-newkey", "rsa:2048", "-nodes", "-subj", "/CN=localhost", "-keyout", f"{name}.key", "-out", f"{name}.csr")
        (self.folder / f"{name}.ext").write_text(extensions)
        more = ["-extfile", f"{name}.ext"] if extensions else []
        self.openssl("x509", "-req", "-in", f"{name}.csr", "-CA", "root.crt", "-CAkey", "root.key", "-CAcreateserial", "-days", "9", "-out", f"{name}.crt",
                     *more)

    def path(self, name: str) -> Path:
        """Returns a file's path."""
        return self.folder / name


class Encrypted(Cluster):
    """A PostgreSQL that also listens on a port. `buyer` needs a password there."""

    def __init__(self, authority: Authority) -> None:
        authority.path("hba").write_text(HBA)
        super().__init__("listen_addresses=localhost", f"hba_file={authority.path('hba')}", "password_encryption=scram-sha-256")
        self.port, self.authority = free_port(), authority

    def start(self) -> None:
        super().start()
        self.run("CREATE ROLE buyer LOGIN PASSWORD 'secret'", "CREATE ROLE owner LOGIN SUPERUSER PASSWORD 'secret'")

    def show(self, certificate: Optional[str]) -> None:
        """Takes this certificate, or listens without TLS."""
        key, chain = (self.authority.path(f"{certificate}.{end}") for end in ("key", "crt"))
        if certificate and self.user:
            os.chown(key, pwd.getpwnam(self.user).pw_uid, -1)
        settings = [f"ssl_cert_file = '{chain}'", f"ssl_key_file = '{key}'", "ssl = on"] if certificate else ["ssl = off"]
        with self.connect() as it:
            for setting in settings:
                it.execute(f"ALTER SYSTEM SET {setting}".encode())
            it.execute(b"SELECT pg_reload_conf()")
        wait_until("PostgreSQL has read its settings", lambda: self.shown() == (bool(certificate), str(chain) if certificate else self.shown()[1]))

    def shown(self) -> Tuple[bool, str]:
        """Returns whether it uses TLS, and the file of its certificate."""
        with self.connect() as it:
            found = it.execute(b"SELECT current_setting('ssl')::bool, current_setting('ssl_cert_file')").fetchone()
            assert found
            return found[0], found[1]


class Proxy(Server):
    """escrowd-proxy in front of it, on a port, with a certificate of its own or none."""

    def __init__(self, cluster: Encrypted, parameters: str, certificate: Optional[str] = None, more: Sequence[str] = ()) -> None:
        super().__init__()
        self.target = f"host=localhost port={cluster.port} dbname=bank user=owner password=secret {parameters}"
        self.port = free_port()
        files = (cluster.authority.path(f"{certificate}.{end}") for end in ("crt", "key"))
        self.words: List[object] = [word for pair in zip(("--tls-certificate", "--tls-key"), files) for word in pair] if certificate else []
        self.words += more

    def start(self) -> None:
        self.launch([PROXY, "--listen", f"localhost:{self.port}", "--postgres", self.target, *self.words], env=ENVIRONMENT)
        wait_until("the proxy listens", lambda: self.running().poll() is not None or self.is_listening())

    def has_said(self, text: str) -> bool:
        """Returns whether it has said something."""
        return text in self.said()

    def is_listening(self) -> bool:
        """Returns whether somebody answers at the port."""
        with socket.socket() as it:
            return it.connect_ex(("127.0.0.1", self.port)) == 0

    def psql(self, parameters: str, command: str = "SELECT ssl FROM pg_stat_ssl WHERE pid = pg_backend_pid()") -> str:
        """Runs psql with these parameters as `buyer`, and returns what it says."""
        dsn = f"host=localhost port={self.port} dbname=bank user=buyer password=secret {parameters}"
        it = subprocess.run(["psql", "-XAqtd", dsn, "-c", command], stdout=subprocess.PIPE, stderr=subprocess.STDOUT, text=True, timeout=END, check=False)
        return it.stdout.strip()

    def hears(self) -> socket.socket:
        """Connects without a driver."""
        return socket.create_connection(("127.0.0.1", self.port), timeout=END)


def expect(found: str, what: str) -> None:
    """Fails unless a text has another in it."""
    assert what in found, f"{what!r} is not in {found!r}"


@contextmanager
def encrypted() -> Iterator[Tuple[Encrypted]]:
    """Opens a cluster with certificates."""
    with TemporaryDirectory() as folder:
        os.chmod(folder, 0o755)
        with Encrypted(Authority(Path(folder))) as cluster:
            yield (cluster,)


PART = SharedPart("proxy_tls", encrypted)
part = PART.case


@part
def clients_choose_their_mode(cluster: Encrypted) -> None:
    cluster.show(None)
    root = f"sslrootcert={cluster.authority.path('root.crt')}"
    with Proxy(cluster, "sslmode=disable", "proxy") as proxy:
        for mode in ("disable", "allow", "prefer", "require", f"verify-ca {root}", f"verify-full {root}"):
            assert proxy.psql(f"sslmode={mode}") == "f", mode
        expect(proxy.psql("sslmode=require", "\\conninfo"), "protocol: TLSv1.3")
        assert "protocol" not in proxy.psql("sslmode=disable", "\\conninfo")
        expect(proxy.psql(f"sslmode=verify-ca sslrootcert={cluster.authority.path('itself.crt')}"), "certificate verify failed")
        expect(proxy.psql("sslmode=require ssl_max_protocol_version=TLSv1.1 ssl_min_protocol_version=TLSv1.1"), "error")
        assert proxy.psql("sslmode=require ssl_max_protocol_version=TLSv1.2") == "f"
        long = proxy.psql("sslmode=require", "SELECT repeat('x', 30000000)")
        assert len(long) == 30_000_000
    with Proxy(cluster, "sslmode=disable") as proxy:
        assert proxy.psql("sslmode=prefer") == "f"
        expect(proxy.psql("sslmode=require"), "server does not support SSL")


@part
def clients_without_tls_may_be_refused(cluster: Encrypted) -> None:
    cluster.show(None)
    with Proxy(cluster, "sslmode=disable", "proxy", ("--tls-only",)) as proxy:
        expect(proxy.psql("sslmode=disable"), "escrowd-proxy needs TLS")
        assert proxy.psql("sslmode=prefer") == "f"
        # libpq sends the request to cancel without TLS.
        dsn = f"host=localhost port={proxy.port} dbname=bank user=buyer password=secret sslmode=require"
        with psycopg.connect(dsn) as it:
            expect_cancel(it)


@part
def a_certificate_is_read_anew(cluster: Encrypted) -> None:
    cluster.show(None)
    chain, key = (cluster.authority.path(f"renewed.{end}") for end in ("crt", "key"))

    def renew(name: str) -> None:
        for end, path in (("crt", chain), ("key", key)):
            path.write_bytes(cluster.authority.path(f"{name}.{end}").read_bytes())

    renew("proxy")
    root, itself = (f"sslmode=verify-full sslrootcert={cluster.authority.path(name)}" for name in ("root.crt", "itself.crt"))
    with Proxy(cluster, "sslmode=disable", "renewed") as proxy:
        assert proxy.psql(root) == "f"
        renew("itself")
        proxy.running().send_signal(signal.SIGHUP)
        wait_until("the certificate is read", lambda: "was read anew" in proxy.said())
        assert proxy.psql(itself) == "f"
        expect(proxy.psql(root), "certificate verify failed")
        chain.write_text("")
        proxy.running().send_signal(signal.SIGHUP)
        wait_until("the file is told", lambda: "the certificate for clients stays" in proxy.said())
        assert proxy.psql(itself) == "f"


@part
def postgres_is_reached_as_sslmode_says(cluster: Encrypted) -> None:
    root, itself = (f"sslrootcert={cluster.authority.path(name)}" for name in ("root.crt", "itself.crt"))
    # The server's certificate, the parameters, and whether it is encrypted, or why the connection is refused.
    cases = [
        (None, "sslmode=disable", "f"),
        (None, "", "f"),
        (None, "sslmode=require", "the server does not offer TLS"),
        (None, f"sslmode=verify-full {root}", "the server does not offer TLS"),
        ("server", "sslmode=disable", "f"),
        ("server", "", "t"),
        ("server", "sslmode=prefer", "t"),
        ("server", "sslmode=require", "t"),
        ("server", f"sslmode=verify-ca {root}", "t"),
        ("server", f"sslmode=verify-full {root}", "t"),
        ("server", f"sslmode=verify-ca {itself}", "UnknownIssuer"),
        ("server", f"sslmode=require {itself}", "UnknownIssuer"),
        ("elsewhere", f"sslmode=verify-ca {root}", "t"),
        ("elsewhere", f"sslmode=verify-full {root}", "CertNotValidForName"),
        ("old", "sslmode=require", "t"),
        ("old", f"sslmode=verify-ca {root}", "UnsupportedCertVersion"),
        ("itself", f"sslmode=verify-full {itself}", "t"),
        ("itself", f"sslmode=verify-ca {root}", "invalid peer certificate"),
    ]
    for certificate, parameters, expected in cases:
        cluster.show(certificate)
        with Proxy(cluster, parameters) as proxy:
            found = proxy.psql("sslmode=disable")
            assert found == expected if len(expected) == 1 else expected in found and "FATAL" in found, (certificate, parameters, found)


@part
def passwords_pass_as_the_two_certificates_allow(cluster: Encrypted) -> None:
    cluster.show("server")
    with Proxy(cluster, "sslmode=require", "proxy") as proxy:
        expect(proxy.psql("sslmode=require"), "connect with channel_binding=disable")
        assert proxy.psql("sslmode=require channel_binding=disable") == "t"
        expect(proxy.psql("sslmode=require channel_binding=require"), "channel binding is required")
        assert proxy.psql("sslmode=disable") == "t"
        expect(proxy.psql("sslmode=require channel_binding=disable password=wrong"), "password authentication failed")
    with Proxy(cluster, "sslmode=require", "server") as proxy:
        for binding in ("disable", "prefer", "require"):
            assert proxy.psql(f"sslmode=require channel_binding={binding}") == "t", binding
        assert proxy.psql("sslmode=disable") == "t"
    with Proxy(cluster, "sslmode=disable", "proxy") as proxy:
        assert proxy.psql("sslmode=require") == "f"
        expect(proxy.psql("sslmode=require channel_binding=require"), "channel binding is required")


@part
def what_is_sent_before_the_answer_is_refused(cluster: Encrypted) -> None:
    tls, gss = struct.pack("!II", 8, 80877103), struct.pack("!II", 8, 80877104)
    cluster.show(None)
    with Proxy(cluster, "sslmode=disable", "proxy") as proxy:
        for packets in ((tls + b"\0", b""), (gss + tls, b""), (gss, b"N", gss, b"")):
            with proxy.hears() as it:
                for sent, answer in zip(packets[::2], packets[1::2]):
                    it.sendall(sent)
                    assert it.recv(10) == answer, packets
        with proxy.hears() as it:
            it.sendall(gss)
            assert it.recv(10) == b"N"
            it.sendall(tls)
            assert it.recv(10) == b"S"
            context = ssl.create_default_context(cafile=str(cluster.authority.path("root.crt")))
            with context.wrap_socket(it, server_hostname="localhost") as inner:
                inner.sendall(tls)
                assert inner.recv(10) == b""
    with Proxy(cluster, "sslmode=disable") as proxy, proxy.hears() as it:
        for answer in (b"N", b""):
            it.sendall(tls)
            assert it.recv(10) == answer


@part
def the_proxys_own_role_is_asked_for_a_password(cluster: Encrypted) -> None:
    """Where PostgreSQL trusts the proxy's connections, a client could be the role that may read what signs notes."""
    cluster.show(None)
    cluster.run("CREATE ROLE runner LOGIN PASSWORD 'secret'")
    trusted, asked = Proxy(cluster, ""), Proxy(cluster, "user=runner")
    trusted.target = cluster.dsn().replace("user=clerk", "user=runner")
    for proxy in (trusted, asked):
        with proxy:
            wait_until("the proxy has connected", partial(proxy.has_said, "schema escrow is not installed"))
            assert proxy.psql("") == "f"
            found = proxy.psql("user=runner")
            assert found == "f" if proxy is asked else "needs a password here" in found, found
            if proxy is trusted:
                expect(proxy.psql("user=runner dbname=postgres"), "needs a password here")


@part
def files_that_cannot_be_used_are_told(cluster: Encrypted) -> None:
    path = cluster.authority.path
    wrong: List[Tuple[str, List[object], str]] = [
        ("", ["--tls-certificate", path("root.crt")], "--tls-key"),
        ("", ["--tls-certificate", path("none"), "--tls-key", path("server.key")], "No such file"),
        ("", ["--tls-certificate", path("server.key"), "--tls-key", path("server.key")], "it has no certificate in PEM"),
        ("", ["--tls-certificate", path("server.crt"), "--tls-key", path("server.crt")], "it has no private key in PEM"),
        ("sslmode=allow", [], "sslmode=allow is not one of"),
        ("sslcert=x", [], "sslcert is not supported"),
        ("sslmode=verify-ca sslrootcert=/none", [], "/none: No such file"),
    ]
    for parameters, words, why in wrong:
        line = [str(PROXY), "--listen", "localhost:1", "--postgres", f"host=localhost {parameters}", *map(str, words)]
        it = subprocess.run(line, stderr=subprocess.PIPE, text=True, timeout=END, check=False)
        assert it.returncode != 0
        expect(it.stderr, why)


if __name__ == "__main__":
    main(PART)
