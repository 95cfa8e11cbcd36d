"""Papers and labels, each made by a process of its own: what makes them forks, and sets where temporary files are.

The process reads what it makes from standard input, as JSON, and writes the file to standard output. Where that fails
it writes why to standard error, as JSON.
"""
import contextlib
import io
import json
import os
import pathlib
import subprocess
import sys
import tarfile
import zipfile
from collections.abc import Callable, Mapping
from dataclasses import asdict, dataclass
from typing import TYPE_CHECKING, Any, NamedTuple, TypeAlias

import hilpoven
from hilpoven.core import roles, settings as site
from hilpoven.core.context import Context
from hilpoven.core.failure import FAULT, Failure
from hilpoven.model.rows import BatchId, LotId

from .accounts import DeskPerson

if TYPE_CHECKING:
    from hilpoven.report.papers.case import Row as CaseRow
    from hilpoven.report.papers.copies import Source
    from hilpoven.report.papers.printing import Document

PATIENCE = 300  # seconds for a paper
OFFICE_PATIENCE = 5.0  # seconds for the office's lock
MOST_AT_ONCE = 2
BEGIN = "import sys; sys.path[:0] = {}; from hilpoven_desk.making import main; main()"
PDF, ZIP, HTML = "application/pdf", "application/zip", "text/html; charset=utf-8"
JSON = "application/json"
Names = Mapping[str, Any]
Make: TypeAlias = "Callable[[Source], list[Document]]"


class Made(NamedTuple):
    """A file that was made: its name, its type and its bytes."""

    name: str
    kind: str
    content: bytes


@dataclass(frozen=True)
class Contexts:
    """Makes what a request stands on, by the settings as they are then: those of an office's name or of a file, and of
    a file of settings, if that isn't the machine's."""

    office: str = ""
    db: str = ""
    settings: str = ""

    def __call__(self, person: DeskPerson) -> Context:
        where = {"office": self.office, "db": self.db}
        settings = site.load(self.settings, **where) if self.settings else site.load(**where)
        return Context(settings, self.db, person=person).waiting(OFFICE_PATIENCE)

    def make(self, person: DeskPerson, kind: str, names: Names) -> Made:
        """Makes a paper in a process of its own."""
        folders = [str(pathlib.Path(module).parent.parent) for module in (__file__, hilpoven.__file__)]
        asked = {"contexts": asdict(self), "person": of_person(person), "kind": kind, "names": dict(names)}
        try:
            done = subprocess.run(
                [sys.executable, "-IBc", BEGIN.format(folders)],
                input=json.dumps(asked).encode(),
                capture_output=True,
                timeout=PATIENCE,
            )
        except subprocess.TimeoutExpired:
            raise Failure("the paper takes too long") from None
        if done.returncode:
            raise failure_in(done.stderr)
        name, media_type, content = done.stdout.split(b"\n", 2)
        return Made(name.decode(), media_type.decode(), content)


def of_person(person: DeskPerson) -> dict[str, Any]:
    """A person as JSON has it."""
    return {"account": person.account, "full_name": person.full_name, "groups": sorted(person.groups)}


def failure_in(error: bytes) -> Failure:
    """Why a process made no paper."""
    try:
        fault = json.loads(error.splitlines()[-1])
        return Failure(str(fault["message"]), int(fault["status"]), str(fault["advice"]))
    except (ValueError, LookupError, TypeError):
        return Failure("the paper can't be made")


def main() -> None:
    """Makes what standard input asks for."""
    from hilpoven.cli.caller import end_by_signals

    os.umask(0o077)
    end_by_signals()
    asked = json.load(sys.stdin)
    account, full_name, groups = (asked["person"][name] for name in ("account", "full_name", "groups"))
    person = DeskPerson(os.getuid(), account=account, full_name=full_name, groups=frozenset(groups))
    try:
        file = file_of(Contexts(**asked["contexts"])(person), asked["kind"], asked["names"])
    except (Failure, OSError) as error:
        failure = error if isinstance(error, Failure) else Failure(str(error.strerror), FAULT)
        fault = {"message": failure.message, "status": failure.exit_code, "advice": failure.advice}
        print(json.dumps(fault), file=sys.stderr)
        sys.exit(1)
    sys.stdout.buffer.write(b"\n".join([file.name.encode(), file.kind.encode(), file.content]))


def file_of(context: Context, kind: str, names: Names) -> Made:
    """What is asked for: labels, a step of a recall case, or a paper."""
    if kind in CASES:
        return step_of_case(context, CASES[kind], **names)
    return labels(context, **names) if kind == "labels" else paper(context, *PAPERS[kind](context, **names))


def step_of_case(context: Context, word: str, **names: Any) -> Made:
    """What a subcommand of a recall case prints, and why not all of it was done, as JSON. A screen gives no other words
    than a terminal: which lots there are, who got them, and what an answer may say is decided there."""
    from hilpoven.cli import cases

    if word == "status":
        with cases.reported(context, cases.read(context, names["number"], is_open=False), is_whole=True) as report:
            rows = [row_of_case(row) for row in report.rows]
            answer = {"facts": report.facts, "rows": rows, "is_open": not report.case.closed, "fault": ""}
        return Made("case", JSON, json.dumps(answer).encode())
    roles.require(context, f"case {word}")
    steps: dict[str, Callable[..., None]] = {
        "open": cases.open_command,
        "hold": cases.hold,
        "reply": cases.reply,
        "close": cases.close,
    }
    printed, fault = io.StringIO(), ""
    with contextlib.redirect_stdout(printed):
        try:
            steps[word](context, **names)
            context.end()
        except Failure as failure:
            if failure.exit_code == FAULT or not printed.getvalue():
                raise
            fault = failure.message
    return Made("case", JSON, json.dumps({"lines": printed.getvalue().splitlines(), "fault": fault}).encode())


def row_of_case(row: "CaseRow") -> dict[str, Any]:
    """What a customer had of a lot, and what became of it."""
    customer, item = row
    return {
        "owner": customer.owner,
        "party": customer.party,
        "name": customer.name or customer.called,
        "phone": customer.phone,
        "answered": customer.answered_at,
        "lot": item.lot.name,
        "measure": item.measure,
        **{name: getattr(item, name) for name in ("had", "back", "destroyed", "gone", "open")},
    }


def lot_card(_: Context, owner: str, lot: str) -> tuple[str, Make]:
    """A lot's card."""
    from hilpoven.report.papers import lot_card as lot_cards

    return f"lot-{owner}-{lot}", lambda source: lot_cards.documents(source, LotId(owner, lot))


def certificate(context: Context, owner: str, lot: str, key: str = "") -> tuple[str, Make]:
    """A lot's certificate, or that of a shipment of it."""
    from hilpoven.report.papers import certificate as certificates

    plant, day, name = context.settings.plant, context.today, f"certificate-{owner}-{lot}{f'-{key}' if key else ''}"
    return name, lambda source: certificates.documents(source, LotId(owner, lot), plant, day, key)


def delivery_note(context: Context, owner: str, key: str) -> tuple[str, Make]:
    """The delivery note of a shipment."""
    from hilpoven.report.papers import certificate as certificates

    plant = context.settings.plant
    return f"delivery-{owner}-{key}", lambda source: certificates.delivery_note(source, owner, [key], plant)


def batch_record(context: Context, owner: str, order: str, number: int) -> tuple[str, Make]:
    """A batch's record."""
    from hilpoven.report.papers import batch_record as records

    asked, journal = BatchId(owner, order, number), context.journal()
    return f"batch-{owner}-{order}-{number}", lambda source: records.documents(source, asked=asked, journal=journal)


def recall(_: Context, owner: str, lot: str) -> tuple[str, Make]:
    """The papers of a recall, for the plant and each owner."""
    from hilpoven.report.papers import recall_paper

    return f"recall-{owner}-{lot}", lambda source: recall_paper.documents(source, LotId(owner, lot))


def papers_of_case(context: Context, number: str) -> tuple[str, Make]:
    """The papers of a recall case: the plant's, a letter for each customer, and the contacts."""
    from hilpoven.cli import cases
    from hilpoven.report.papers import case as papers

    case, plant, journal = cases.read(context, number, is_open=False), context.settings.plant, context.journal()
    return f"case-{number}", lambda source: papers.documents(source, case, journal, plant)


PAPERS: dict[str, Callable[..., tuple[str, Make]]] = {
    "lot": lot_card,
    "certificate": certificate,
    "delivery-note": delivery_note,
    "batch": batch_record,
    "recall": recall,
    "case": papers_of_case,
}
CASES = {f"case-{word}": word for word in ("open", "hold", "reply", "close", "status")}


def paper(context: Context, name: str, make: Make) -> Made:
    """Makes a paper, which the journal notes: its PDF, or all that it is of several."""
    from hilpoven.report.papers import delivery

    tar, office = io.BytesIO(), context.office_to_export("papers", name)
    task = delivery.Delivery(name, make, context.settings.plant, context.today, True, tar)
    delivery.deliver(office, context.journal(), task, lambda _: None, lambda _: None)
    return picked(name, tar.getvalue())


def picked(name: str, tar: bytes) -> Made:
    """The PDF of a paper; of several all files, as a spreadsheet's machine opens them."""
    with tarfile.open(fileobj=io.BytesIO(tar)) as files:
        read = {entry.name: files.extractfile(entry) for entry in files if entry.isfile()}
        contents = {path: file.read() for path, file in read.items() if file}
    prints = [path for path in contents if path.endswith(".pdf")]
    if len(prints) == 1:
        return Made(f"{name}.pdf", PDF, contents[prints[0]])
    with io.BytesIO() as content:
        with zipfile.ZipFile(content, "w", zipfile.ZIP_DEFLATED) as archive:
            for path, each in contents.items():
                archive.writestr(path, each)
        return Made(f"{name}.zip", ZIP, content.getvalue())


def labels(context: Context, owner: str, lot: str, sublots: list[str], size: str) -> Made:
    """Labels of sublots of a lot, which the journal notes."""
    from hilpoven.report.papers import copies, printing
    from hilpoven.report.papers import labels as sublot_labels

    printing.require_printer(instead="")
    printing.require_module("segno", "segno isn't here, which makes the QR codes")
    office = context.office_to_export("labels", owner, lot, *sublots)
    with copies.opened(office, context.journal()) as source:
        stock = sublot_labels.SIZES[size]
        text = sublot_labels.page(source, LotId(owner, lot), sublots, stock, context.today)
    return Made(f"labels-{owner}-{lot}.pdf", PDF, printing.pdf_of(text))
