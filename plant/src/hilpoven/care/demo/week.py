"""The sample week: what a plant and three owners give on five working days, the last of which is today."""
import json
import os
import re
import shlex
import socket
from collections.abc import Callable
from dataclasses import dataclass, field
from datetime import date, timedelta

from ...core import client
from ...core.failure import Failure
from ...core.days import day_of

HERE = os.path.dirname(os.path.abspath(__file__))
SCRIPT, SHEETS = "week.toll", ".csv"
DAY = re.compile(r"@([1-5])(?:\+([0-9]{1,3}))?\b")
KEY = re.compile(r"^key (\w+)$", re.M)
SATURDAY = 5


def working_days(today: date) -> list[date]:
    """The last five days from Monday to Friday that aren't after today, the earliest first."""
    days = [day for number in range(7) if (day := today - timedelta(number)).weekday() < SATURDAY]
    return sorted(days)


def dated(text: str, days: list[date]) -> str:
    """A text with the days that `@1` to `@5`, and so many days after them, stand for."""
    return DAY.sub(lambda match: f"{day_of(days[int(match[1]) - 1] + timedelta(int(match[2] or 0))):06}", text)


def text_of(name: str) -> str:
    """The text of a file beside this one."""
    with open(os.path.join(HERE, name)) as file:
        return file.read()


@dataclass
class Week:
    """An office that lives through the sample week, beside its server."""

    give: Callable[[list[str]], tuple[int, str]]  # the status of a command of `hilpoven`, and what it writes
    port: int  # of the server
    folder: str  # in which sheets are laid
    days: list[date]
    keys: dict[str, str] = field(default_factory=dict)  # of the owners, by their names

    def live(self) -> None:
        """Gives each line of the script; fails at the first that isn't taken."""
        for name in sorted(os.listdir(HERE)):
            if name.endswith(SHEETS):
                with open(os.path.join(self.folder, name), "x") as sheet:
                    sheet.write(dated(text_of(name), self.days))
        for line in dated(text_of(SCRIPT), self.days).splitlines():
            if line and not line.startswith("#"):
                self.take(line)

    def take(self, line: str) -> None:
        """Gives a line: an owner's request, or a command of the plant."""
        if line.startswith("> "):
            owner, method, path, *body = line[2:].split(" ", 3)
            content = json.loads(body[0]) if body else () if method == "POST" else None
            status, answer = self.request(owner, path, content)
            is_taken, output = status == 200, f"{status} {answer}"
        else:
            status, output = self.give(self.words_of(line))
            is_taken = status == 0
        if not is_taken:
            raise Failure(f"the sample week stops at `{line}`: {output.strip()}")
        if match := KEY.search(output):
            self.keys[line.split()[2]] = match[1]

    def words_of(self, line: str) -> list[str]:
        """The words of a line, in which a sheet has its path."""
        words = shlex.split(line)
        return [os.path.join(self.folder, word) if word.endswith(SHEETS) else word for word in words]

    def request(self, owner: str, path: str, content: object) -> tuple[int, dict[str, object]]:
        """The status and the body of the reply to an owner's request."""
        with socket.create_connection(("127.0.0.1", self.port), client.PATIENCE) as peer:
            return client.requested(peer, owner, self.keys[owner], path, content)
