"""Each of the program's requests for memory is refused in turn, and then with all later ones.

- The answer is want of memory, and the file's rows are those from before the command; the same command given again gets
  its answer, and leaves its rows. Or the refusal does no harm: the answer and the rows are those of ample memory.
- Of a script, one answer is want of memory, and all others are those of the script without that line; or nothing is
  written, and the status is 3.
- Of an import, the records before the fault stand, and are repeated when the file is imported again.

Of many requests the first are refused and then one in so many; `-m long` refuses every one, for hours.
"""
import contextlib
import itertools
import math
import os
import sqlite3
import struct
import sys
from collections.abc import Callable, Sequence
from typing import Any, Protocol

import pytest

from tests.attempts import FAULTED, UNHARMED, Command, Import, New, Request, make_version_1
from tests.harness import JOBS, UNAVAILABLE, Office, Preloaded, Result, content, fault, put, wrong_outcomes
from tests.lines import AT_WORK, BACK_FROM_P1, HOUSE_MAKES, RECALLED, REQUESTS, SCRIPTS, SERVED, STOCK, TESTED
from tests.lines import WITH_WATER

MEMORY = fault("Memory")
MOST, MOST_WITH_LATER, EVERY = int(os.environ.get("MOST", 60)), 40, sys.maxsize  # refusals of a run
NONE_REFUSED = "no refusal"


class Refusing(Preloaded):
    """An office whose program is refused memory."""

    PLAN = struct.Struct("5q")

    def refuse(self, first: int, last: int, accepts: int = 0) -> None:
        """The requests from first to last are to be refused, counted once so many connections were taken."""
        self.plan.write_bytes(self.PLAN.pack(accepts, first, last, 0, 0))

    def requests(self) -> int:
        return int(self.PLAN.unpack(self.plan.read_bytes())[3])

    def is_refused(self) -> bool:
        return bool(self.PLAN.unpack(self.plan.read_bytes())[4])


class Run(Protocol):
    """What is tried: an attempt tells how it ended where the requests from first to last are refused."""

    def attempt(self, office: Refusing, first: int, last: int) -> str:
        ...


Make = Callable[[New, str], Run]


class Script:
    """A script over an office in memory."""

    def __init__(self, office: Office, laid: str, script: str) -> None:
        front = laid.strip().splitlines()
        lines, answers = parsed(script)
        self.lines = front + lines
        self.ample = self.answer(office, self.lines)
        assert self.ample == Result(0, self.answer(office, front).out + "".join(answers))
        self.allowed = {self.answer_without(office, at) for at in range(len(self.lines))} | {MEMORY}

    def answer(self, office: Office, lines: list[str], env: dict[str, str] | None = None) -> Result:
        return office.run(["script"], env, "".join(line + "\n" for line in lines).encode())

    def answer_without(self, office: Office, at: int) -> Result:
        """The answer where that of this line is want of memory."""
        front = self.answer(office, self.lines[:at]).out
        rest = self.answer(office, self.lines[:at] + self.lines[at + 1 :]).out.removeprefix(front)
        word = UNAVAILABLE if self.lines[at].startswith("> ") else "fault Memory"
        return Result(0, f"{front}{word}\n{rest}")

    def attempt(self, office: Refusing, first: int, last: int) -> str:
        office.refuse(first, last)
        answer = self.answer(office, self.lines, office.env)
        if answer == self.ample:
            return UNHARMED if office.is_refused() else NONE_REFUSED
        return FAULTED if answer in self.allowed and office.is_refused() else str(answer)


def parsed(script: str) -> tuple[list[str], list[str]]:
    """The lines of a script, and the answer of each."""
    lines, answers = [], []
    for line in script.splitlines():
        if not line.startswith("= "):
            lines.append(line)
            answers.append("accepted\n")
        else:
            answers[-1] = answers[-1].removeprefix("accepted\n") + line[2:] + "\n"
    return lines, answers


class Refused:
    """A command or a request that meets no memory."""

    def __init__(self, tried: Command | Request, accepts: int = 0) -> None:
        self.tried, self.accepts = tried, accepts

    def attempt(self, office: Refusing, first: int, last: int) -> str:
        office.refuse(first, last, self.accepts)
        outcome = self.tried.attempt(office)
        return outcome if office.is_refused() else NONE_REFUSED if outcome == UNHARMED else f"no refusal, and {outcome}"


def over_file(command: Command, *befores: Any) -> Run:
    """A command over a file, which leaves these contents where its answer is want of memory."""
    command.allowed[MEMORY] = [(before, command.answer) for before in befores or (command.before,)]
    return Refused(command)


# What is tried

LOTS = range(1000)


def make_ring(new: New) -> str:
    """A file in which each of 1,000 lots went into the next one, and the last one into the first."""
    db = new().lay(
        "owner-add ACME ACMEKEY1\nunit-add U1\nmaterial-add ACME M kg\nrecipe-add ACME R 1\n"
        "require ACME R 1 consumed ACME M 1\nrequire ACME R 1 produced ACME M 1"
    )
    ones = [1] * 3
    batch = [(f"O-{at // 99 + 1}", at % 99 + 1) for at in LOTS]
    rows: dict[str, list[tuple[Any, ...]]] = {
        "orders": [("ACME", order, "R", 99, 0) for order in {order for order, _ in batch}],
        "batches": [("ACME", *batch_id, "U1", 11, 1) for batch_id in batch],
        "lots": [("ACME", f"L-{at + 1}", "M", *batch[at], 1) for at in LOTS],
        "sublots": [("ACME", f"L-{at + 1}", "S", 0) for at in LOTS],
        # the batch of a lot consumes the lot before it
        "moves": [
            ("ACME", f"{word}-{at + 1}", kind, "ACME", f"L-{(at + shift) % 1000 + 1}", "S", "", "M", *batch[at], *ones)
            for at in LOTS
            for word, kind, shift in (("C", 4, -1), ("P", 5, 0))
        ],
    }
    with contextlib.closing(sqlite3.connect(db)) as base, base:
        for table, lines in rows.items():
            base.executemany(f"INSERT INTO {table} VALUES ({','.join('?' * len(lines[0]))})", lines)
    return db


def trace_of_ring(way: str) -> str:
    numbers = LOTS if way == "forward" else [0, *range(999, 0, -1)]
    return "".join(f"{steps:6} {'ACME':16} L-{number + 1}\n" for steps, number in enumerate(numbers))


def records(new: New, base: str) -> Run:
    """An import, whose answer is want of memory, or has it in the line of a record."""
    command = Import(new, base)
    command.allowed[MEMORY] = command.lefts
    command.allowed |= {command.ending_with("Memory", count): [left] for count, left in enumerate(command.lefts[:-1])}
    return Refused(command)


def closed(new: New, base: str) -> Run:
    """A shipment whose answer goes to a closed stream, and not into a file of the office that is opened in its
    place."""
    command = Command(new(), base, "ship ACME K9 A S1 1 12", closed=">&-")
    before, after, command.answer = (command.before, None), (command.after, None), Result(3, "")
    command.allowed = {command.answer: [before, after], MEMORY: [before]}
    return Refused(command)


def first_command(new: New, _: str) -> Run:
    office = new()
    office.plant("orders", "HOUSE")
    return over_file(Command(new(), None, "unit-add U1"), {}, content(office.db))


def adoption(new: New, base: str) -> Run:
    first = make_version_1(new)
    return over_file(Command(new(), first, "stock ACME", STOCK), content(first), content(base))


def plain(words: str, out: str = "accepted\n", laid: str = AT_WORK) -> Make:
    return lambda new, base: over_file(Command(new(), base if laid == AT_WORK else new().lay(laid), words, out))


def ring(way: str) -> Make:
    return lambda new, _: over_file(Command(new(), make_ring(new), f"trace ACME L-1 {way}", trace_of_ring(way)))


def script(name: str) -> Make:
    return lambda new, _: Script(new(), *SCRIPTS[name])


def request(asked: str, body: str, laid: str = SERVED, first: str = "> ACME ACMEKEY1 GET /orders/O") -> Make:
    """A request, which the server has the file open for where another one comes first."""
    return lambda new, _: Refused(Request(new(), new().lay(laid), asked, body, first), accepts=2 if first else 1)


ACTUAL = "actual K2 ACME O 1 1 consumed M ACME A S1"
RELEASED = (
    '{"disposition":"released","lot":"A","material":"M","measure":"kg","origin":"receipts",'
    '"results":[{"day":1,"test":"PH","value":8}],"sublots":[{"amount":10,"sublot":"S"}]}'
)
STOCK_BESIDE_Z = (
    '{"lots":[{"amount":100,"disposition":"released","lot":"A","material":"M","measure":"kg"},'
    '{"amount":%d,"disposition":"quarantined","lot":"Z","material":"M","measure":"kg"}]}'
)
BY_PLANT: dict[str, Make] = {
    **{f"{name}, by script": script(name) for name in SCRIPTS},
    "a consumption": plain(f"{ACTUAL} 100 11"),
    "a split": plain("split ACME K4 A S1 S2 30 12"),
    "a trace": plain("trace ACME P1 back", BACK_FROM_P1, WITH_WATER),
    "a recall of HOUSE's lot": plain("recall HOUSE H-1", RECALLED, HOUSE_MAKES),
    "a void": plain("void ACME K2", laid=AT_WORK + f"{ACTUAL} 40 11"),
    "an import of three records": records,
    "a trace forward round a ring of 1,000 lots": ring("forward"),
    "a trace back round a ring of 1,000 lots": ring("back"),
    "a shipment whose standard output is closed": closed,
    "the first command, which makes the file": first_command,
    "a question to a file of version 1": adoption,
}
RUNS = BY_PLANT | {
    "a release that opens the file": request("POST /lots/A/release", RELEASED, TESTED + "result ACME A PH 8 1", ""),
    **{" ".join(asked.split(" ")[:2]): request(asked, body) for asked, body in REQUESTS.items()},
}


@pytest.fixture(scope="module")
def parent() -> str | None:
    return "/dev/shm" if os.path.isdir("/dev/shm") else None


@pytest.fixture(scope="module")
def offices(program: str, folder: str, build: Callable[[str], str]) -> list[Refusing]:
    library = build("memory.c")
    return [Refusing(program, folder, library) for _ in range(JOBS)]


@pytest.fixture(scope="module", params=RUNS)
def run(request: pytest.FixtureRequest, new: New, work: str) -> tuple[str, Run]:
    return request.param, RUNS[request.param](new, work)


def sample(requests: int, most: int) -> Sequence[int]:
    """The requests that are refused: all, or at most so many, of which half are the first."""
    if requests <= most:
        return range(1, requests + 1)
    first = most // 2
    return [*range(1, first + 1), *range(first + 1, requests + 1, math.ceil((requests - first) / (most - first)))]


@pytest.mark.parametrize("most", [MOST, pytest.param(EVERY, marks=pytest.mark.long)], ids=["sample", "every"])
def test_a_refused_request_for_memory_changes_nothing(run: tuple[str, Run], offices: list[Refusing], most: int) -> None:
    name, tried = run
    assert tried.attempt(offices[0], 0, 0) == NONE_REFUSED
    requests = offices[0].requests()
    points = [(at, at) for at in sample(requests, most)]
    if name in BY_PLANT:
        points += [(at, sys.maxsize) for at in sample(requests, most if most == EVERY else MOST_WITH_LATER)]
    wrong = wrong_outcomes(offices, lambda office, at: tried.attempt(office, *at), points, (UNHARMED, FAULTED))
    assert points and wrong == {}


def test_a_turn_that_lacks_memory_is_a_fault_for_the_operator_also_without_a_reply(
    offices: list[Refusing], work: str
) -> None:
    outcomes = []
    for at in range(1, 16):
        put(work, offices[0].db)
        offices[0].refuse(at, at, accepts=1)
        with offices[0].serve(offices[0].env) as server:
            reply = server.ask("> ACME ACMEKEY1 GET /orders")
            outcomes.append((reply[:3], [line for line in server.lines() if line.startswith("fault ")]))
    in_turn = list(itertools.dropwhile(lambda outcome: not outcome[1], outcomes))  # the first meet it before
    assert ("", ["fault Unavailable began"]) in in_turn
    assert [outcome for outcome in in_turn if (outcome[0] == "200") == bool(outcome[1])] == []


def test_with_ample_memory_300_receipts_are_accepted(new: New, at_work: Office) -> None:
    """The stock is asked for after each."""
    lines, question = [f"receive ACME Z-{number} M Z S 1 12" for number in range(1, 301)], "> ACME ACMEKEY1 GET /stock"
    wanted = "".join(f"accepted\n200 {STOCK_BESIDE_Z % amount}\n" for amount in range(1, 301))
    script = AT_WORK.strip() + "".join(f"\n{line}\n{question}" for line in lines) + "\n"
    answer = new().run(["script"], stdin=script.encode())
    assert answer.status == 0 and answer.out.endswith(wanted)
    with at_work.serve() as server:
        assert "".join(at_work.plant(*line.split()).out + server.ask(question) + "\n" for line in lines) == wanted


def test_with_ample_memory_a_script_of_3000_lines_is_answered(new: New) -> None:
    answer = new().run(["script"], stdin=b"unit-add U1\n" * 3000)
    assert answer == Result(0, "accepted\n" + "refused 5 UnitExists\n" * 2999)
