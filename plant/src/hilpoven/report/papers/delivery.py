"""Where papers go: a folder, complete or not at all, or a tar to standard output."""
import datetime
import pathlib
import tarfile
import tempfile
from collections.abc import Callable, Sequence
from dataclasses import dataclass
from typing import IO

from ...core import paths, scratch
from ...core.failure import Failure
from ...core.office import Office
from ...core.settings import PlantFacts
from ...core.journal import log
from ...core.table import counted
from ...model.rows import BatchId, LotId
from . import copies, guard, printing
from .copies import Source
from .letterhead import Issue, letterhead_beside, letterhead_of
from .printing import Document

Tell = Callable[[str], None]
Write = Callable[[pathlib.Path], None]  # writes papers into a folder
Maker = Callable[[Source], list[Document]]
PAPERS = (".html", ".pdf")
MOST_NAMED = 12  # papers that are named when all are written


def footer_of(source: Source, program: str, login: str, for_plant: bool) -> str:
    """The line at the foot of each page. Only the plant reads the names of files, which may hold any word, their
    digests, which are of all owners' rows, and the login of whoever made it."""
    files = " and ".join(f"{part.name}, sha256 {part.hash}" for part in source.files)
    of_plant, of_others = f" by {login} from {files},", f" from {len(source.files)} files,"
    origin = of_plant if for_plant else "" if source.is_one else of_others
    now = datetime.datetime.now(datetime.timezone.utc)
    return f"Made on {now:%Y-%m-%d at %H:%M} UTC{origin} with {program}."


@dataclass(frozen=True)
class Delivery:
    """Papers that are to be made and given: their name, what makes them, what they say of the plant, whether they are
    printed, where they go, a folder or, as a tar, a stream, and with what the recall begins that they are of, if they
    are of nothing else."""

    name: str
    make: Maker
    plant: PlantFacts
    day: datetime.date  # of their issue
    prints: bool
    target: str | IO[bytes]
    starts: Sequence[LotId | BatchId] | None = None

    def issue(self, documents: Sequence[Document], tell: Tell) -> Issue:
        """What those say that leave the plant."""
        if all(document.for_plant for document in documents):
            return Issue(None, "")
        is_beside = any(document.for_plant for document in documents)
        letterhead = letterhead_beside(self.plant, tell) if is_beside else letterhead_of(self.plant)
        return Issue(letterhead, str(self.day))


def deliver(office: Office, journal: log.Journal, delivery: Delivery, begin: Tell, tell: Tell) -> str:
    """Makes papers and delivers them, and says what was written; if anything fails nothing is delivered. `begin` is
    told each step, and `tell` what the papers lack."""
    if delivery.prints:
        printing.require_printer()
    if not isinstance(delivery.target, str):
        written = give_tar(read(office, journal, delivery, begin, tell), delivery.name, delivery.target)
        return f"wrote {delivery.name}: {written}"
    with paths.target(delivery.target) as target:
        write = read(office, journal, delivery, begin, tell)
        with target.room() as (room, path), guard.over(path):
            papers = pathlib.Path(paths.open_path(room), "papers")
            write(papers)
            written = files_below(papers)
            target.put(room, "papers")
    return f"wrote {delivery.target}: {written}"


def read(office: Office, journal: log.Journal, delivery: Delivery, begin: Tell, tell: Tell) -> Write:
    """Reads what papers say; what writes them into a folder."""
    begin(f"copying {office.file}")
    with copies.opened(office, journal, delivery.starts) as source:
        begin("reading it, and comparing with what toll says")
        program, papers = copies.version(office), delivery.make(source)
        documents = [
            (document, document.footer or footer_of(source, program, journal.login, document.for_plant))
            for document in papers
        ]
        issue = delivery.issue(papers, tell)
    begin(f"writing {counted(len(papers), 'papers')}")
    return lambda folder: printing.write(documents, issue, folder, delivery.prints)


def give_tar(write: Write, name: str, stream: IO[bytes]) -> str:
    """Gives papers as a tar to a stream; the names of their files."""
    with scratch.folder(tempfile.gettempdir()) as path, guard.over(path):
        folder = pathlib.Path(path, "papers")
        try:
            write(folder)
            write_tar(folder, name, stream)
            stream.flush()
            return files_below(folder)
        except BrokenPipeError:
            raise
        except OSError as error:
            raise Failure(f"the papers can't be written: {error.strerror or error}") from error


def files_below(folder: pathlib.Path) -> str:
    """The pages and the PDFs of papers by their names, and how many tables are beside them."""
    files = sorted(path.relative_to(folder) for path in folder.rglob("*") if path.is_file())
    papers = [str(path) for path in files if path.suffix in PAPERS]
    named = [*papers[:MOST_NAMED], *([f"{len(papers) - MOST_NAMED:,} more"] if len(papers) > MOST_NAMED else [])]
    return f"{', '.join(named)}, and {counted(len(files) - len(papers), 'tables')}"


def write_tar(folder: pathlib.Path, name: str, stream: IO[bytes]) -> None:
    """Writes papers as a tar of a folder with this name, whose files belong to whoever unpacks it."""

    def disown(entry: tarfile.TarInfo) -> tarfile.TarInfo:
        entry.uid = entry.gid = 0
        entry.uname = entry.gname = ""
        return entry

    with tarfile.open(fileobj=stream, mode="w|") as tar:
        tar.add(folder, name, filter=disown)
