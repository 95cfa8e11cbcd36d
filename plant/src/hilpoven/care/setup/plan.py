"""What is asked for: an office, its site and an owner, in forms that no file and no program reads as anything else."""
import os
import re
import ssl
from dataclasses import dataclass

from ...core.failure import WRONG_USE, Failure
from ...core.forms import name_fault

NAME = re.compile(r"[A-Za-z0-9][A-Za-z0-9-]{0,31}")
LABEL = r"[A-Za-z0-9](?:[A-Za-z0-9-]{0,61}[A-Za-z0-9])?"
HOST = re.compile(rf"(?=.{{1,253}}\Z){LABEL}(?:\.{LABEL})+")
PATH = re.compile(r"/[A-Za-z0-9._@+/-]+")  # which nginx reads as one word
EVERYBODY = 0o004  # may read it


@dataclass(frozen=True)
class Plan:
    """An office by its name, the host name of its site, the files of its certificate, an owner, and the host name of
    the plant's screens; empty if none is asked for. The site may have persons of owners, too."""

    name: str
    host: str
    certificate: str
    key: str
    owner: str = ""
    desk: str = ""
    has_persons: bool = False

    def require_forms(self) -> None:
        """Fails where a value isn't of its form."""
        if not NAME.fullmatch(self.name):
            raise wrong("NAME", self.name, "is to be 1 to 32 letters, digits and -, not starting with -")
        if not HOST.fullmatch(self.host):
            raise wrong("--host", self.host, "is no host name, such as toll.example.com")
        if self.desk and (not HOST.fullmatch(self.desk) or self.desk == self.host):
            raise wrong("--desk", self.desk, "is no host name of its own, such as desk.example.com")
        for option, path in (("--cert", self.certificate), ("--key", self.key)):
            if not PATH.fullmatch(path) or os.path.normpath(path) != path:
                raise wrong(option, path, "is to be a path of letters, digits and ._@+-/ without . or .. on its way")
        if self.owner and (fault := name_fault(self.owner)):
            raise wrong("--owner", self.owner, fault)

    def require_certificate(self) -> None:
        """Fails where the two files aren't a certificate with its key."""
        if absent := [path for path in (self.certificate, self.key) if not os.path.isfile(path)]:
            command = f"openssl req -x509 -newkey rsa:2048 -nodes -days 30 -subj /CN={self.host}"
            advice = f"for a trial: {command} -keyout {self.key} -out {self.certificate}" if len(absent) == 2 else ""
            raise Failure(f"there is no file {absent[0]}", WRONG_USE, advice)
        if os.stat(self.key).st_mode & EVERYBODY:
            raise Failure(f"everybody may read {self.key}", WRONG_USE, f"chmod 600 {self.key}")
        try:
            ssl.SSLContext(ssl.PROTOCOL_TLS_SERVER).load_cert_chain(self.certificate, self.key, no_password)
        except (OSError, ValueError) as error:
            why = error.reason if isinstance(error, ssl.SSLError) and error.reason else error
            raise Failure(f"{self.certificate} is no certificate with the key {self.key}: {why}", WRONG_USE) from error


def wrong(subject: str, value: str, fault: str) -> Failure:
    """Why a value isn't taken."""
    return Failure(f"{subject}: `{value}` {fault}", WRONG_USE)


def no_password() -> str:
    """No password of a key: nginx couldn't ask for one, either."""
    raise ValueError("the key has a password")
