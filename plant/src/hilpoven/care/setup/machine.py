"""The machine on which an office is set up: where its files are, how its programs run, and what answers on it."""
import contextlib
import grp
import os
import pwd
import re
import shutil
import socket
import ssl
import subprocess
import time
from collections.abc import Callable, Iterator
from dataclasses import dataclass
from typing import NamedTuple

from ...core import client, files, lock, settings as site
from ...core.failure import WRONG_USE, Failure

PORTS = range(801, 1024)  # which no other account may take; nginx has 800 for wrong keys
PORT = re.compile(r"^PORT=[\"']?([0-9]{1,5})\b", re.M)
ANSWERS = 60.0  # seconds within which a server that is started answers
PAUSE = 0.2
OK = 200
NGINX_USER, LOGS_GROUP, LOG_MODE = "www-data", "adm", 0o640  # of nginx's logs, as packaging/etc/logrotate.d has them
FORBIDDEN = 403  # what a server answers to a request without a key
NGINX_FILES = (("conf.d", ".conf"), ("sites-enabled", ""))
TEMPLATES = (f"{site.CHECKOUT}/packaging/nginx.conf", f"{site.CHECKOUT}/toll/nginx.conf", "/usr/share/toll/nginx.conf")
DESK_TEMPLATES = (f"{site.CHECKOUT}/packaging/desk/nginx.conf", "/usr/share/hilpoven-desk/nginx.conf")
PERSONS_TEMPLATES = (f"{site.CHECKOUT}/packaging/persons/nginx.conf", "/usr/share/hilpoven-persons/nginx.conf")
PAGES = ("/usr/share/toll/page", f"{site.CHECKOUT}/toll/page")
RUNNING = "/run/systemd/system"  # which is there where systemd runs
UNITS = ("/usr/lib/systemd/system", "/usr/local/lib/systemd/system", "/etc/systemd/system")


class Ran(NamedTuple):
    """How a program ended, and what it wrote."""

    status: int
    text: str


@dataclass(frozen=True)
class Machine:
    """The machine's folders and the office's user."""

    settings: str = site.PATH
    offices: str = site.OFFICES
    data: str = site.DATA
    nginx: str = "/etc/nginx"
    user: str = "toll"
    lock: str = "/run/hilpoven-setup.lock"  # which no other account can hold
    command: str = "hilpoven"  # this program, by which commands over the office are given
    login: str = ""  # who sets up, as journals name it
    logs: str = "/var/log/nginx"

    @contextlib.contextmanager
    def held(self) -> Iterator[None]:
        """Lets no other setup take its steps meanwhile."""
        flags = os.O_RDWR | os.O_CREAT | os.O_NOFOLLOW | os.O_CLOEXEC
        with open(os.open(self.lock, flags, 0o600)) as file:
            if not lock.take(file.fileno()):
                raise Failure("another setup is under way")
            yield

    def run(self, words: list[str], user: str | None = None) -> Ran:
        """Runs a program, as this user or another one, who is no member of the group behind sudo. The journal names
        who logged in."""
        groups: list[str] | None = None if user is None else []
        variables = {name: value for name, value in os.environ.items() if name != "SUDO_UID"}
        try:
            done = subprocess.run(
                words,
                user=user,
                group=user,
                extra_groups=groups,
                cwd="/",
                env={**variables, "SUDO_USER": self.login},
                stdin=subprocess.DEVNULL,
                stdout=subprocess.PIPE,
                stderr=subprocess.STDOUT,
            )
        except OSError as error:
            raise Failure(f"{words[0]} can't be run: {error.strerror}") from error
        return Ran(done.returncode, done.stdout.decode(errors="replace"))

    def must(self, words: list[str], user: str | None = None) -> str:
        """What a program writes; fails where it does."""
        done = self.run(words, user)
        if done.status:
            raise Failure(f"`{' '.join(words)}` failed: {done.text.strip()}")
        return done.text

    def hilpoven(self, name: str, *words: str) -> str:
        """What a command over an office writes; fails where it does."""
        return self.must([self.command, "--office", name, *words], self.user)

    def require_programs(self) -> None:
        """Fails where what the steps need isn't installed, or systemd doesn't run."""
        if not self.has_unit("toll@.service"):
            raise Failure("the units of the packages aren't here", WRONG_USE, "docs/packages.md says how they come")
        if not os.path.isdir(RUNNING):
            raise Failure("systemd doesn't run here, and nothing would start the server", WRONG_USE)
        if not shutil.which("nginx"):
            raise Failure("nginx isn't here", WRONG_USE, "apt-get install nginx-light; then the same command again")

    def has_unit(self, unit: str) -> bool:
        """Whether a unit is installed."""
        return any(os.path.isfile(f"{folder}/{unit}") for folder in UNITS)

    def template(self) -> str:
        """The site's file, as it is installed."""
        return first_of(TEMPLATES)

    def desk_template(self) -> str:
        """The same of the plant's screens."""
        return first_of(DESK_TEMPLATES)

    def persons_template(self) -> str:
        """The same of the persons of owners."""
        return first_of(PERSONS_TEMPLATES)

    def page(self) -> str:
        """The folder of the owner's page."""
        return next((folder for folder in PAGES if os.path.isfile(f"{folder}/index.html")), PAGES[0])

    def nginx_files(self) -> dict[str, str]:
        """The texts of nginx's sites, by their paths."""
        texts = {}
        for folder, end in NGINX_FILES:
            with contextlib.suppress(FileNotFoundError):
                for name in sorted(os.listdir(f"{self.nginx}/{folder}")):
                    path = f"{self.nginx}/{folder}/{name}"
                    if name.endswith(end) and not name.startswith(".") and os.path.isfile(path):
                        with open(path, errors="replace") as file:
                            texts[path] = file.read()
        return texts

    def begin_log(self, name: str) -> None:
        """Makes a log of nginx as its rotation does. nginx's own test would make one that root alone reads, and neither
        administrators nor companions."""
        try:
            user, group = pwd.getpwnam(NGINX_USER).pw_uid, grp.getgrnam(LOGS_GROUP).gr_gid
            with open(os.open(f"{self.logs}/{name}", files.NEW, LOG_MODE), "wb") as log:
                os.fchown(log.fileno(), user, group)
                os.fchmod(log.fileno(), LOG_MODE)
        except (FileExistsError, FileNotFoundError, KeyError):
            pass  # it is there already, or another nginx has other ways

    def ports(self) -> dict[str, int]:
        """The ports of the offices that are there, by their names."""
        ports_by_name = {}
        for name in os.listdir(self.offices):
            if name.endswith(".env"):
                with contextlib.suppress(OSError), open(f"{self.offices}/{name}") as lines:
                    if port := PORT.search(lines.read()):
                        ports_by_name[name.removesuffix(".env")] = int(port[1])
        return ports_by_name

    def free_port(self) -> int:
        """A port below 1024 of no office, no service and no program."""
        taken = set(self.ports().values())
        for port in PORTS:
            if port not in taken and not is_of_service(port) and self.may_listen(port):
                return port
        raise Failure(f"no port from {PORTS[0]} to {PORTS[-1]} is free")

    def may_listen(self, port: int) -> bool:
        """Whether nobody listens at a port."""
        with socket.socket() as peer:
            try:
                peer.bind(("127.0.0.1", port))
            except OSError:
                return False
        return True

    def has_files(self, folder: str) -> bool:
        """Whether something is in a folder."""
        try:
            return bool(os.listdir(folder))
        except FileNotFoundError:
            return False

    def wait_for_server(self, port: int) -> bool:
        """Whether the server at a port comes to answer."""
        return comes(lambda: client.status_at(port) == FORBIDDEN)

    def wait_for_page(self, host: str) -> bool:
        """Whether the site of a host name comes to hand out the page and the office's answers."""
        return comes(lambda: status_by_tls(host, "/orders") == FORBIDDEN and status_by_tls(host, "/owner/") == OK)

    def has_ipv6(self) -> bool:
        """Whether nginx can listen at addresses of IPv6."""
        try:
            with socket.socket(socket.AF_INET6) as peer:
                peer.bind(("::", 0))
        except OSError:
            return False
        return True


def first_of(paths: tuple[str, ...]) -> str:
    """The text of the first of these files that is there."""
    for path in paths:
        with contextlib.suppress(FileNotFoundError), open(path) as file:
            return file.read()
    raise Failure("the site's file isn't here", WRONG_USE, f"it is looked for in {', '.join(paths)}")


def is_of_service(port: int) -> bool:
    """Whether a service of the Internet has a port, as far as the machine knows them."""
    try:
        return bool(socket.getservbyport(port, "tcp"))
    except OSError:
        return False


def comes(holds: Callable[[], bool]) -> bool:
    """Whether something comes to hold."""
    end = time.monotonic() + ANSWERS
    while not holds():
        if time.monotonic() > end:
            return False
        time.sleep(PAUSE)
    return True


def status_by_tls(host: str, path: str) -> int:
    """The status of a request without a key to a site of this machine; 0 if it doesn't answer. Whoever issued the
    certificate is for browsers to judge."""
    context = ssl.create_default_context()
    context.check_hostname, context.verify_mode = False, ssl.CERT_NONE
    return client.status_at(443, path, context, host)
