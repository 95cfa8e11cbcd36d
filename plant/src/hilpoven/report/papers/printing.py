"""Papers as HTML, as PDF and as CSV: each is one template, which a browser shows and WeasyPrint prints."""
import contextlib
import functools
import importlib.util
import os
import pathlib
import signal
from collections.abc import Iterator, Sequence
from dataclasses import dataclass, field
from typing import Any

from ...core.failure import Failure
from ...core.scratch import ENDING, held_back
from .letterhead import Issue
from .longtables import LongTable, finisher, on_paper
from .pictures import SIGNS
from ..sheets import ACROSS, UPRIGHT, Sheet, rows_as_html

TEMPLATES = pathlib.Path(__file__).resolve().parent / "templates"
LONG = 60  # rows; a table with more is set in lines on paper
MOST_PRINTERS = 4


@dataclass
class Document:
    """A paper: its template, whether the plant reads it, its title, its tables, which are beside it as CSV, what else
    the template needs, the folder that it goes to, and other texts by their names."""

    name: str
    for_plant: bool
    title: str
    sheets: list[Sheet]
    values: dict[str, Any]
    folder: str = ""
    texts: dict[str, str] = field(default_factory=dict)
    footer: str = ""  # instead of that of the moment in which it is made
    issued_on: str = ""  # its date of issue, if that isn't the day on which it is made
    is_across: bool = True  # whether its pages are wider than high, so that there is room for long tables

    @functools.cached_property
    def on_paper(self) -> list[Sheet]:
        """Its tables as its page has them, long ones with ranges of names."""
        return [on_paper(sheet, LONG) for sheet in self.sheets]

    def page(self, footer: str, issue: Issue, tables: dict[str, LongTable] | None = None) -> str:
        """Its page, with a letterhead and the date of issue unless the plant alone reads it. On paper its long tables
        have places, but for those that don't fit, which are set as others are."""
        sheets = {sheet.name: sheet for sheet in self.on_paper}
        width = ACROSS if self.is_across else UPRIGHT
        values = {"title": self.title, "is_plants": self.for_plant, "footer": footer, "sheets": sheets, "width": width}
        issue = issue._replace(day=self.issued_on or issue.day)
        values |= {"issue": None if self.for_plant else issue, **self.values}
        set_in_lines = {name: table for name, table in (tables or {}).items() if table.fits}
        return render(self.name, values, set_in_lines, [name for name in tables or {} if name not in set_in_lines])

    def long_tables(self) -> dict[str, LongTable]:
        """Its tables that are long."""
        if not self.is_across:
            return {}
        return {sheet.name: LongTable(sheet) for sheet in self.on_paper if len(sheet.rows) > LONG}


@dataclass
class Job:
    """A page to be printed, with its long tables, and the file of the PDF."""

    text: str
    tables: dict[str, LongTable]
    target: pathlib.Path


def require_printer(instead: str = "; --no-pdf makes pages and tables alone") -> None:
    """Fails if WeasyPrint isn't installed, and says what may be done instead."""
    require_module("weasyprint", "WeasyPrint isn't here, which makes the PDF", instead)


def require_module(name: str, why: str, instead: str = "") -> None:
    """Fails if a module isn't installed."""
    if importlib.util.find_spec(name) is None:
        raise Failure(why, advice=f"the package hilpoven-papers brings it{instead}")


@functools.cache
def environment() -> Any:
    """What reads templates, each once."""
    with held_back():
        import jinja2

    loader = jinja2.FileSystemLoader(TEMPLATES)
    return jinja2.Environment(
        loader=loader, autoescape=True, undefined=jinja2.StrictUndefined, trim_blocks=True, lstrip_blocks=True
    )


def render(
    name: str, values: dict[str, Any], tables: dict[str, LongTable] | None = None, wrapped: Sequence[str] = ()
) -> str:
    """A page of a template, with long tables that are set in lines, and those that are set in cells on paper too."""
    template = environment().get_template(f"{name}.html")
    always = {"long": LONG, "signs": SIGNS, "rows_as_html": rows_as_html}
    return str(template.render(**always, tables=tables or {}, wrapped=wrapped, **values))


def write(documents: list[tuple[Document, str]], issue: Issue, room: pathlib.Path, prints: bool) -> None:
    """Writes papers with their footers below a folder. Temporary files are beside it, in a folder that its caller
    removes."""
    jobs = []
    for document, footer in documents:
        folder = room / document.folder
        folder.mkdir(parents=True, exist_ok=True)
        tables = {f"{sheet.name}.csv": sheet.csv() for sheet in document.sheets}
        for name, text in {f"{document.name}.html": document.page(footer, issue), **tables, **document.texts}.items():
            (folder / name).write_text(text, encoding="utf-8", newline="")
        if prints:
            long = document.long_tables()
            jobs.append(Job(document.page(footer, issue, long), long, folder / f"{document.name}.pdf"))
    if jobs:
        with temporary_files_in(room.parent):
            print_all(jobs)


@contextlib.contextmanager
def temporary_files_in(folder: pathlib.Path) -> Iterator[None]:
    """Has temporary files made in a folder: WeasyPrint leaves a folder of fonts where a process ends at once."""
    import tempfile

    before, tempfile.tempdir = tempfile.tempdir, str(folder)
    try:
        yield
    finally:
        tempfile.tempdir = before


def print_all(jobs: list[Job]) -> None:
    """Prints pages, several in processes side by side."""
    import multiprocessing

    with held_back():
        importlib.import_module("weasyprint")  # it takes a second, which no other command waits for
    count = min(len(jobs), len(os.sched_getaffinity(0)), MOST_PRINTERS)
    if count == 1:
        print_share(jobs)
        return
    context, workers = multiprocessing.get_context("fork"), []
    for at in range(count):
        receiver, sender = context.Pipe(False)
        workers.append((context.Process(target=work, args=(jobs[at::count], sender), daemon=True), receiver))
    try:
        for worker, _ in workers:
            with held_back():
                worker.start()
        for worker, receiver in workers:
            worker.join()
            if worker.exitcode:
                raise Failure(receiver.recv() if receiver.poll() else "a paper can't be printed")
    finally:
        for worker, _ in workers:
            if worker.is_alive():
                worker.kill()


def work(jobs: list[Job], sender: Any) -> None:
    """Prints a share of the pages in a process of its own, and sends why it can't."""
    signal.pthread_sigmask(signal.SIG_UNBLOCK, ENDING)
    try:
        print_share(jobs)
    except BaseException as error:
        sender.send(error.message if isinstance(error, Failure) else f"a paper can't be printed: {error}")
        os._exit(1)
    os._exit(0)


def print_share(jobs: list[Job]) -> None:
    """Prints pages one after the other."""
    for job in jobs:
        try:
            job.target.write_bytes(pdf_of(job.text, job.tables))
        except OSError as error:
            raise Failure(f"{job.target.name} can't be written: {error.strerror or error}") from error


def pdf_of(text: str, tables: dict[str, LongTable] | None = None) -> bytes:
    """A page as PDF, with its long tables."""
    import logging

    import weasyprint

    logging.getLogger("weasyprint").setLevel(logging.CRITICAL)
    page = weasyprint.HTML(string=text, url_fetcher=picture_within)
    return bytes(page.write_pdf(finisher=finisher(tables or {})))


def picture_within(address: str) -> dict[str, Any]:
    """A paper is complete in itself: nothing is fetched for it but the picture of a letterhead, which it has."""
    if not address.startswith("data:image/"):
        raise ValueError(f"{address} isn't fetched")
    import weasyprint

    picture: dict[str, Any] = weasyprint.default_url_fetcher(address)
    return picture
