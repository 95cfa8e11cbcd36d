"""A site to look at: an office in a file, its server, and the proxy of docs/operations.md with TLS in front."""
import contextlib
import fcntl
import os
import pathlib
import re
import signal
import socket
import subprocess
from collections.abc import Iterable, Iterator
from typing import Self

from trial import ROOT  # which leads to tests/

from tests import harness
from tests.harness import Result, Server, eventually, free_port, serving

__all__ = ["Office", "Proxy", "ROOT", "eventually", "free_port", "has_ipv6", "serving"]

PATIENCE = 90  # seconds
WRAPPER = """
{user}
daemon off;
worker_processes {workers};
pid {folder}/nginx.pid;
error_log {folder}/error.log info;
events {{ worker_connections {connections}; }}
http {{
    include /etc/nginx/mime.types;
    access_log off;
    client_body_temp_path {folder}/body;
    proxy_temp_path {folder}/proxy;
    fastcgi_temp_path {folder}/fastcgi;
    uwsgi_temp_path {folder}/uwsgi;
    scgi_temp_path {folder}/scgi;
    {around}
    {site}
}}
"""


def has_ipv6() -> bool:
    with socket.socket(socket.AF_INET6) as probe, contextlib.suppress(OSError):
        probe.bind(("::1", 0))
        return True
    return False


def listens(port: int) -> bool:
    with socket.socket() as probe:
        return probe.connect_ex(("127.0.0.1", port)) == 0


def end(process: "subprocess.Popen[str]") -> None:
    """Ends a process; one that doesn't end, with what it started: a worker that is left keeps the port."""
    process.terminate()
    try:
        process.wait(PATIENCE)
    except subprocess.TimeoutExpired:
        os.killpg(process.pid, signal.SIGKILL)
    process.wait()


class Office(harness.Office):
    """An office with the lines that it accepted, and a server at a port of its own."""

    def __init__(self, program: str, folder: pathlib.Path, port: int) -> None:
        super().__init__(program, str(folder))
        self.port, self.lines = port, list[str]()
        self.server: Server | None = None

    def do(self, lines: str) -> None:
        """Does lines of the plant, each accepted, and requests of owners to the server, each answered 200."""
        for line in filter(None, map(str.strip, lines.splitlines())):
            is_well = self.ask(line).startswith("200 ") if line[0] == ">" else self.reply(line).out == "accepted\n"
            if not is_well:
                raise SystemExit(f"the office refused {line!r}")
            self.lines.append(line)

    def reply(self, line: str) -> Result:
        """The answer to a line of the plant, given again while another has the lock."""

        def answered() -> Result | None:
            result = self.plant(*line.split())
            return None if "fault Locked" in result.err else result

        result = eventually(answered, PATIENCE)
        assert result, f"{line} doesn't get the lock"
        return result

    def import_actuals(self, records: list[str]) -> None:
        """Imports actuals: key, owner, order, batch, segment, use, material, lot's owner, lot, sublot, amount, day."""
        head = "key,owner,order,batch,segment,use,material,lot_owner,lot,sublot,amount,day"
        sheet = self.write("actuals.csv", "\n".join([head, *records, ""]))
        report = self.reply(f"import {sheet}").out.splitlines()[-1]
        assert report == f"accepted {len(records)} repeated 0 refused 0 bad 0 fault 0", report
        self.lines += [f"actual {record.replace(',', ' ')}" for record in records]

    def start(self) -> None:
        self.server = Server(self, port=self.port)

    def end(self) -> None:
        if self.server:
            end(self.server.process)
            self.server.kill()
            self.server = None

    def ask(self, line: str) -> str:
        """The reply to a script's line, as a script prints it."""
        assert self.server
        return self.server.ask(line)

    @contextlib.contextmanager
    def stopped(self) -> Iterator[None]:
        """The server doesn't answer meanwhile."""
        assert self.server
        self.server.process.send_signal(signal.SIGSTOP)
        try:
            yield
        finally:
            self.server.process.send_signal(signal.SIGCONT)

    @contextlib.contextmanager
    def locked(self) -> Iterator[None]:
        """Another program has the lock meanwhile."""
        with open(f"{self.db}.lock", "a") as lock:
            fcntl.flock(lock, fcntl.LOCK_EX)
            yield


class Proxy:
    """nginx with the site of packaging/nginx.conf for the host localhost, on a port and with a certificate of its own.

    `around` stands beside the site, as an administrator's other settings do. `changes` are pairs of a pattern
    and what stands in its place. `parts` are the parts of other packages, whose services have sockets in the folder.
    """

    nginx: "subprocess.Popen[str] | None" = None

    def __init__(
        self,
        folder: pathlib.Path,
        office_port: int,
        around: str = "",
        changes: Iterable[tuple[str, str]] = (),
        port: int | None = None,
        workers: int = 1,
        connections: int = 256,
        user: str = "root",
        parts: Iterable[str] = (),
    ) -> None:
        self.folder, self.port, self.guesses = folder, port or free_port(), free_port()
        self.address = f"https://localhost:{self.port}/owner/"
        certify = "openssl req -x509 -newkey rsa:2048 -nodes -days 2 -subj /CN=localhost"
        words = [*certify.split(), "-keyout", "key.pem", "-out", "certificate.pem"]
        subprocess.run(words, check=True, capture_output=True, cwd=folder)
        # the page's files and the contract, as packages have them
        subprocess.run([ROOT / "packaging" / "documents.py", folder], check=True)
        site, changes = (ROOT / "packaging" / "nginx.conf").read_text(), tuple(changes)
        for name in parts:
            once, office = (ROOT / "packaging" / name / "nginx.conf").read_text().split("# Once per office\n")
            around += self._own(once, office_port, changes)
            (folder / "parts").mkdir(exist_ok=True)
            (folder / "parts" / f"{name}.conf").write_text(self._own(office, office_port, changes))
        own = {"user": "" if os.geteuid() else f"user {user};", "site": self._own(site, office_port, changes)}
        counts = {"workers": workers, "connections": connections}
        (folder / "nginx.conf").write_text(WRAPPER.format(folder=folder, around=around, **counts, **own))

    def _own(self, site: str, office_port: int, changes: Iterable[tuple[str, str]]) -> str:
        """The site as packages have it; host, ports, certificate, page, sockets and logs are those of the trial."""
        for pattern, ours in (
            *changes,
            (r"listen \[::\]:443([^;]*);", rf"listen [::1]:{self.port}\1;" if has_ipv6() else ""),
            (r"listen 443", f"listen 127.0.0.1:{self.port}"),
            (r"server_name [^;]*;", "server_name localhost;"),
            (r"ssl_certificate [^;]*;", f"ssl_certificate {self.folder}/certificate.pem;"),
            (r"ssl_certificate_key [^;]*;", f"ssl_certificate_key {self.folder}/key.pem;"),
            (r"127\.0\.0\.1:800\b", f"127.0.0.1:{self.guesses}"),
            (r"proxy_pass http://127\.0\.0\.1:\d+", f"proxy_pass http://127.0.0.1:{office_port}"),
            (r"/etc/nginx/toll-NAME/", f"{self.folder}/parts/"),
            (r"/run/toll-(\w+)/NAME/socket", rf"{self.folder}/\1.sock"),
            (r"alias [^;]*/page/;", f"alias {self.folder}/toll/page/;"),
            (r"/var/log/nginx/", f"{self.folder}/"),
            (r"/var/cache/toll-companion/NAME/", f"{self.folder}/companion/"),
        ):
            site = re.sub(pattern, ours, site)
        return site

    def start(self) -> None:
        words = f"nginx -e {self.folder}/error.log -p {self.folder} -c {self.folder}/nginx.conf".split()
        nothing = subprocess.DEVNULL
        self.nginx = nginx = subprocess.Popen(words, start_new_session=True, stdout=nothing, stderr=nothing, text=True)
        eventually(lambda: nginx.poll() is not None or listens(self.port), PATIENCE)
        assert nginx.poll() is None, f"nginx ended: {(self.folder / 'error.log').read_text()[-600:]}"

    def end(self) -> None:
        if self.nginx:
            end(self.nginx)
            self.nginx = None

    def __enter__(self) -> Self:
        self.start()
        return self

    def __exit__(self, *_: object) -> None:
        self.end()
