"""What is asked of the program while it meets a fault, with all that the fault may make of it."""
import contextlib
import os
import sqlite3
from collections.abc import Callable
from typing import Any

from tests.harness import UNAVAILABLE, Office, Preloaded, Result, content, import_report, put
from tests.lines import ACTUALS, AT_WORK, BACK_TO_VERSION_1

# How an attempt ended that is right; of any other the text says what is wrong.
UNHARMED, FAULTED = "as without a fault", "as a fault may leave it"
Left = list[tuple[Any, Result | None]]
New = Callable[[], Office]


class Command:
    """Words of the plant over a file. For each answer it has the contents that it may leave, each with the answer to
    the same words given again, after which the content is that without a fault; or none where these aren't given
    again."""

    def __init__(self, office: Office, base: str | None, words: str, out: str = "accepted\n", closed: str = "") -> None:
        self.base, self.words, self.closed = base, words.split(), closed
        put(base, office.db)
        self.before = content(office.db)
        self.answer = Result(0, out)
        assert office.plant(*self.words) == self.answer
        self.after = content(office.db)
        self.allowed: dict[Result, Left] = {self.answer: [(self.after, None)]}

    def attempt(self, office: Preloaded) -> str:
        """How the command ends under the fault that the office's program is to meet."""
        put(self.base, office.db)
        answer, rows = office.plant(*self.words, env=office.env, closed=self.closed), content(office.db)
        again = [again for left, again in self.allowed.get(answer, []) if left == rows]
        if not again or os.path.exists(f"{office.db}.lock") and os.path.getsize(f"{office.db}.lock"):
            return f"{answer}, with rows or a lock that it may not leave" if answer in self.allowed else str(answer)
        if again[0] and ((repeated := office.plant(*self.words)) != again[0] or content(office.db) != self.after):
            return f"{answer}, and the same words again: {repeated}"
        return UNHARMED if answer == self.answer else FAULTED


class Import(Command):
    """An import of ACTUALS, with the content after each number of its records."""

    OUTCOMES = ["accepted", "accepted", "repeated"]

    def __init__(self, new: New, base: str) -> None:
        office = new()
        path = new().write("actuals.csv", "")

        def rows_after(count: int) -> Any:
            with open(path, "w") as file:
                file.writelines(ACTUALS.splitlines(keepends=True)[: count + 1])
            put(base, office.db)
            office.plant("import", path)
            return content(office.db)

        self.lefts: Left = [
            (rows_after(count), Result(0, import_report(["repeated"] * count + self.OUTCOMES[count:])))
            for count in range(len(self.OUTCOMES) + 1)
        ]
        super().__init__(office, base, f"import {path}", import_report(self.OUTCOMES))

    def ending_with(self, name: str, count: int) -> Result:
        """The report where the record behind so many met this fault."""
        return Result(3, import_report(self.OUTCOMES[:count] + [f"fault {name}"]))


class Request:
    """A request to a server, and the same one again. It opens the file, or finds it open behind a request that comes
    first. A fault may stop a server only where that is said; then the change may be done without an answer."""

    def __init__(self, office: Office, base: str, asked: str, body: str, first: str = "", may_stop: bool = False):
        self.line, self.answer = f"> ACME ACMEKEY1 {asked}", f"200 {body}"
        self.base, self.first, self.may_stop = base, first, may_stop
        put(base, office.db)
        self.before = content(office.db)
        with office.serve() as server:
            assert server.ask(self.line) == self.answer
        self.after = content(office.db)

    def attempt(self, office: Preloaded) -> str:
        put(self.base, office.db)
        with office.serve(office.env) as server:
            if self.first and not server.ask(self.first).startswith("200 "):
                return "the request before it is not answered"
            reply = server.ask(self.line)
            office.leave()
            rows = content(office.db)
            if (reply, rows) == (self.answer, self.after) and not self.may_stop:
                return UNHARMED
            is_silent = reply == "" and (not self.may_stop or server.has_ended())
            again = server.ask(self.line)
            if again == "" and self.may_stop and server.has_ended():
                with office.serve() as other:
                    again = other.ask(self.line)
        if reply == self.answer:
            may_leave = [self.after]
        else:
            may_leave = [self.before, self.after] if self.may_stop else [self.before]
        if reply not in (self.answer, UNAVAILABLE) and not is_silent or rows not in may_leave:
            return f"{reply or 'no reply'}, with rows {'as before' if rows == self.before else 'that changed'}"
        if again != self.answer or content(office.db) != self.after:
            return f"{reply or 'no reply'}, and the same request again: {again or 'no reply'}"
        return UNHARMED if reply == self.answer else FAULTED


def make_version_1(new: New) -> str:
    """A file of version 1 with an office at work."""
    db = new().lay(AT_WORK)
    with contextlib.closing(sqlite3.connect(db)) as base:
        base.executescript(BACK_TO_VERSION_1)
    return db
