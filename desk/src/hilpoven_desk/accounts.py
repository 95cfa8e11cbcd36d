"""Who a person is: accounts with their passwords, groups and full names, those of the machine or a sample's."""
import grp
import os
import pwd
import socket
import struct
from collections.abc import Mapping
from dataclasses import dataclass
from typing import Protocol

from hilpoven.core.rights import Person

GROUP = "hilpoven"  # whose members may log in
MOST_LOGIN, MOST_PASSWORD = 64, 512  # bytes
FIRST_PERSON = 1000  # the number of the first account that isn't the system's
SASLAUTHD = "/run/toll-passwords/mux"  # of toll-passwords.service
SERVICE = "hilpoven-desk"  # of PAM: /etc/pam.d/hilpoven-desk
PATIENCE = 15  # seconds for an answer of saslauthd
PIECE = 1_024  # bytes


class Unavailable(Exception):
    """Nobody can be asked whether a password is right."""


@dataclass(frozen=True)
class DeskPerson(Person):
    """A person at a screen, with the groups of the moment: a member, whatever this process may do."""

    account: str = ""
    full_name: str = ""
    groups: frozenset[str] = frozenset()

    @property
    def is_member(self) -> bool:
        """A screen gives nobody more than a member's rights."""
        return True

    @property
    def has_login(self) -> bool:
        """A person asks, and no timer."""
        return True

    @property
    def login(self) -> str:
        """The account, by which the journal names the person."""
        return self.account

    def is_in(self, group: str) -> bool:
        """Whether the person is a member of a group now."""
        return group in self.groups


class Accounts(Protocol):
    """Accounts, of which nothing is remembered from one request to the next."""

    def has_password(self, login: str, password: str) -> bool:
        """Whether an account has a password; raises `Unavailable` where nobody can tell."""

    def person(self, login: str) -> DeskPerson | None:
        """The person of an account that may use the screens now; `None` of any other."""


def new_person(login: str, full_name: str, groups: frozenset[str]) -> DeskPerson | None:
    """A person of an account, if the groups let it use the screens."""
    return DeskPerson(os.getuid(), account=login, full_name=full_name, groups=groups) if GROUP in groups else None


@dataclass(frozen=True)
class MachineAccounts:
    """The accounts of this machine. Passwords are checked by saslauthd, which runs as root: this process needs no right
    but that to its socket."""

    saslauthd: str = SASLAUTHD

    def has_password(self, login: str, password: str) -> bool:
        """Whether saslauthd takes a password."""
        try:
            with socket.socket(socket.AF_UNIX) as peer:
                peer.settimeout(PATIENCE)
                peer.connect(self.saslauthd)
                peer.sendall(b"".join(map(counted, (login, password, SERVICE, ""))))
                return read_counted(peer).startswith(b"OK")
        except OSError as error:
            raise Unavailable(f"{self.saslauthd}: {error}") from error

    def person(self, login: str) -> DeskPerson | None:
        """The person of an account, by the machine's database; of none that is the system's."""
        try:
            account = pwd.getpwnam(login)
        except (KeyError, ValueError):
            return None
        if account.pw_uid < FIRST_PERSON or account.pw_name != login:
            return None
        numbers = os.getgrouplist(login, account.pw_gid)
        names = frozenset(name for number in numbers if (name := group_name(number)))
        return new_person(login, account.pw_gecos.split(",")[0] or login, names)


@dataclass(frozen=True)
class SampleAccounts:
    """Accounts of a sample, each with its password, its full name and its groups."""

    accounts: Mapping[str, tuple[str, str, frozenset[str]]]

    def has_password(self, login: str, password: str) -> bool:
        """Whether an account has a password."""
        return login in self.accounts and self.accounts[login][0] == password

    def person(self, login: str) -> DeskPerson | None:
        """The person of an account."""
        account = self.accounts.get(login)
        return new_person(login, account[1], account[2]) if account else None


def group_name(number: int) -> str:
    """The name of a group of the machine; empty if it has none."""
    try:
        return grp.getgrgid(number).gr_name
    except KeyError:
        return ""


def counted(text: str) -> bytes:
    """A text with its length in front, as saslauthd reads it."""
    content = text.encode()
    return struct.pack("!H", len(content)) + content


def read_counted(peer: socket.socket) -> bytes:
    """The text with its length in front that comes."""
    content = b""
    while len(content) < 2 or len(content) < 2 + int.from_bytes(content[:2]):
        if not (piece := peer.recv(PIECE)):
            raise Unavailable("saslauthd gave no whole answer")
        content += piece
    return content[2:]
