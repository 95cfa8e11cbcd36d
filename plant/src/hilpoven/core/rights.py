"""With whose rights a command works: what root would make beside a file, the file's owner couldn't open."""
import grp
import os
import pwd
from dataclasses import dataclass

from .failure import WRONG_USE, Failure
from .forms import listed

NOBODY = 4_294_967_295  # the login of a process that no login began


@dataclass(frozen=True)
class Person:
    """Who gives a command: the user as whom it began, the caller whom sudo names by a number and a name, the user who
    logged in, as the system notes it, and whether there is a terminal."""

    number: int
    caller: str | None = None  # by sudo alone, which sets it; its caller can't change it
    caller_name: str | None = None
    login_number: int = NOBODY
    has_terminal: bool = False

    @property
    def is_member(self) -> bool:
        """Whether another user than the office's, and than root, has these rights by sudo: a member of the group
        hilpoven. Whoever began as root, or came from root, may do what root may."""
        return self.caller is not None and self.number != 0 and self.caller not in ("0", str(self.number))

    @property
    def has_login(self) -> bool:
        """Whether a person began this, and no timer."""
        return self.login_number != NOBODY or self.caller_name is not None or self.has_terminal

    @property
    def login(self) -> str:
        """Who logged in, also behind sudo and su: what the system notes of a login, else whom sudo names, else the
        user."""
        return name_of(self.login_number) if self.login_number != NOBODY else self.caller_name or name_of(self.number)

    def require_operator(self, word: str, advice: str = "") -> None:
        """Fails for a member, who may not give a word."""
        if self.is_member:
            raise Failure(
                f"{word} is for root and the office's user alone, and by sudo for nobody else", WRONG_USE, advice
            )

    def require_role(self, command: str, role: str, groups: list[str] | None) -> None:
        """Fails for a member who is in none of the groups to which the role of a command belongs; where none are said,
        it belongs to all."""
        if groups is None or not self.is_member or any(map(self.is_in, groups)):
            return
        who = f"the members of {listed(groups, 'or')}" if groups else "root and the office's user"
        raise Failure(f"{command} is for {who} alone, by the role {role} of the settings", WRONG_USE)

    def is_in(self, group: str) -> bool:
        """Whether the caller of sudo is a member of a group, as the system's database says."""
        number = self.caller or ""
        if not (number.isascii() and number.isdecimal()):
            return False
        try:
            caller = pwd.getpwuid(int(number))
            return grp.getgrnam(group).gr_gid in os.getgrouplist(caller.pw_name, caller.pw_gid)
        except (KeyError, OverflowError):
            return False


def name_of(user: int) -> str:
    """The name of a user of the machine."""
    try:
        return pwd.getpwuid(user).pw_name
    except KeyError:
        return str(user)


def owner_number(file: str) -> int:
    """The number of the user whose a file is; this one where it isn't there."""
    try:
        return os.stat(file).st_uid
    except OSError:
        return os.geteuid()


def become_owner(file: str) -> None:
    """Goes on with the rights of the owner of a file, or of its folder where it isn't there, where this is root."""
    if os.geteuid() != 0:
        return
    try:
        state = os.stat(file if os.path.exists(file) else os.path.dirname(file))
    except OSError:
        return  # what isn't there is told where it is looked for
    if state.st_uid == 0:
        return
    try:
        os.setgroups([state.st_gid])
        os.setgid(state.st_gid)
        os.setuid(state.st_uid)
    except OSError as error:
        raise Failure(f"this is root, and {file} belongs to another, whose rights can't be taken: {error}") from error


def owner_of(file: str) -> str:
    """The user who may work on a file, as far as it can be seen: whose it is, or whose the nearest folder above it
    is."""
    while True:
        try:
            state = os.stat(file)
            return name_of(state.st_uid) if state.st_uid else "toll"
        except OSError:
            above = os.path.dirname(file)
            if above == file:
                return "toll"
            file = above


def unusable(why: str, file: str, error: OSError) -> Failure:
    """What fails because of a file, and whose rights it needs, where rights are what it lacks."""
    needs = owner_of(file) if isinstance(error, PermissionError) else ""
    return Failure(f"{why}: {error.strerror}", needs=needs)
