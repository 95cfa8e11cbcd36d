"""What `toll` doesn't tell owners, at /companion, as the site for owners hands it out."""
import hashlib
import os
import time
from collections.abc import Callable
from dataclasses import dataclass

from ...core.failure import Failure
from .site import JSON, Reply, failure

COMMAND, PATH = "companion", "/companion"
EVERY = 10  # seconds, after which the files are made anew if the office changed


@dataclass
class Companions:
    """A folder with a file for each owner."""

    folder: str
    give: Callable[[list[str]], tuple[int, str]]  # the status of a command of `hilpoven`, and what it writes
    due: float = 0.0  # by time.monotonic

    def make(self) -> None:
        """Makes the files."""
        os.mkdir(self.folder, 0o700)
        status, output = self.refreshed()
        if status:
            raise Failure(f"no companions are made: {output.strip()}")

    def refresh(self) -> None:
        """Makes the files anew from time to time."""
        if time.monotonic() >= self.due:
            self.refreshed()

    def refreshed(self) -> tuple[int, str]:
        """How the command ended that makes the files."""
        self.due = time.monotonic() + EVERY
        return self.give([COMMAND, "--out", self.folder])

    def reply(self, owner: str, known: str) -> Reply:
        """The file of an owner whose key is right; 304 if the client has this one, by its tag."""
        try:
            with open(os.path.join(self.folder, f"{owner}.json"), "rb") as file:
                content = file.read()
        except FileNotFoundError:
            return failure(404, "NoRoute")
        tag = f'"{hashlib.sha256(content).hexdigest()[:16]}"'
        fields = (("ETag", tag),)
        return Reply(304, JSON, b"", fields) if known == tag else Reply(200, JSON, content, fields)
