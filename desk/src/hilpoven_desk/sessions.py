"""Who is logged in at which browser, with what came of its forms."""
import threading
from collections import OrderedDict
from dataclasses import dataclass, field
from typing import Any

from hilpoven.core import sessions

from .recording import Outcome

Fields = list[tuple[str, str]]  # of a form, by their names, of which there may be several
MOST_DONE = 200  # forms of a session that are remembered
MOST_NOTICES = 20


@dataclass
class Session(sessions.Session):
    """A person at a browser: the token that each of its forms carries, notices for its next page, fields that a log-in
    kept, and what came of its forms, by the slip that each carries."""

    notices: list[Any] = field(default_factory=list)
    kept: dict[str, Fields] = field(default_factory=dict)  # by the path of their page
    done: "OrderedDict[str, Outcome]" = field(default_factory=OrderedDict)
    lock: threading.RLock = field(default_factory=threading.RLock)

    def tell(self, notice: Any) -> None:
        """Has the next page show a notice."""
        with self.lock:
            self.notices = [*self.notices, notice][-MOST_NOTICES:]

    def take_notices(self) -> list[Any]:
        """The notices, each once."""
        with self.lock:
            notices, self.notices = self.notices, []
            return notices

    def remember(self, slip: str, done: Outcome) -> None:
        """Remembers what came of a form."""
        self.done[slip] = done
        while len(self.done) > MOST_DONE:
            self.done.popitem(last=False)


class Sessions(sessions.Sessions[Session]):
    """The sessions of a desk."""

    def __init__(self) -> None:
        super().__init__(Session)
