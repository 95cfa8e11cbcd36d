"""An office that is made of pieces: of the last ones on another machine, or of those up to a moment on its own."""
import contextlib
import os
from dataclasses import dataclass, field
from enum import auto, Enum

from ...core import files, lock, paths, scratch, snapshot, timeline
from ...core.failure import REFUSED, Failure
from ...core.journal import query
from ...core.journal.log import MADE_AT, Journal
from ...core.office import number_of, Answer, Office
from ...core.server import Place
from .. import backups, keys, persons
from . import chain, piece
from .chain import Built, Chain, Report
from .piece import Header


@dataclass(frozen=True)
class Choice:
    """Which pieces an office is made of: a snapshot, and those behind it up to the last."""

    chain: Chain
    start: int
    end: int
    newest: tuple[int, int]  # the same of the newest office that pieces of the chain give
    notes: tuple[str, ...] = ()  # what is wrong with others


@dataclass(frozen=True)
class Made:
    """What was put in place: the last piece, its timeline, the folder where what was there is now, and what is told of
    the journal, of keys and of persons."""

    last: Header
    timeline: int
    aside: str
    notes: list[str] = field(default_factory=list)


def latest(folder: str, until: int | None = None) -> Choice:
    """All pieces of a folder's newest chain, which are looked at, or those up to a number; fails if one of them can't
    be used."""
    of = chain.newest_in(folder)
    report = Report(of, folder).look()
    start, end = report.route if until is None else report.route_to(until)
    if until is None and end != of.last:
        lost = of.last - end
        raise Failure(
            f"{lost:,} of {of.last:,} pieces can't be used: {'; '.join(report.wrong[:5])}",
            REFUSED,
            f"get them anew, or `promote --until {end}` makes the office of {chain.at_of(of, end)} without them",
        )
    return Choice(of, start, end, report.route, tuple(report.wrong))


def at_moment(folder: str, moment: float, last_timeline: int) -> Choice:
    """The pieces up to a moment, in seconds since 1970, of the newest chain that begins before it."""
    chains = [
        candidate
        for candidate in chain.chains_in(folder)
        if candidate.timeline <= last_timeline and candidate.snapshots
    ]
    for of in reversed(chains):
        first = piece.opened(of.snapshots[of.first_snapshot]).header
        if first.moment <= moment:
            end = chain.last_before(of, moment)
            report = Report(of, folder).look()
            start, end = report.route_to(end)
            return Choice(of, start, end, report.route, tuple(report.wrong))
    raise Failure(f"no snapshot in {folder} is as old as that", REFUSED, oldest(chains))


def oldest(chains: list[Chain]) -> str:
    """From when on offices can be made."""
    times = [chain.at_of(candidate, candidate.first_snapshot) for candidate in chains]
    return f"the oldest is of {min(times)}" if times else ""


def promote(office: Office, folder: str, place: Place, journal: Journal, until: int | None) -> tuple[Made, Choice]:
    """Makes the office of a folder's pieces and begins the next timeline. What was in the file's place is moved aside.
    The journal stays or becomes longer, whatever pieces are used."""
    folder = paths.private(folder)
    backups.stop_on_server(office.file, place)
    choice = latest(folder, until)
    with scratch.folder(os.path.dirname(office.file)) as room:
        built = made_of(choice, office, room)
        lines = newest_lines(choice, built, room)
        bring_earlier(built, folder, office.file)
        with lock.held(office.file, office.wait):
            backups.stop_on_server(office.file, place)
            promoted = put(office, folder, journal, choice, built, lines, until)
    backups.require_opening(office, promoted.aside)
    return promoted, choice


def put(
    office: Office, folder: str, journal: Journal, choice: Choice, built: Built, lines: str, until: int | None
) -> Made:
    """Puts the office and the lines of the journal that pieces gave in place, under the lock. The folder is marked
    before the file has its name, so that no two offices go on."""
    beside = compared(journal.path, lines, built.journal)
    number = 1 + max(choice.chain.timeline, timeline.number_of(office.file), timeline.latest(os.listdir(folder)))
    present = office.file if beside.is_newer else ""
    kept = keys.keep(built.file, present, beside.longer, beside.point, beside.changed_keys)
    origin = {"chain": choice.chain.name, "piece": choice.end, "at": built.last.at, "sha256": files.hash_of(built.file)}
    notes = [*beside.lines, *kept.lines]
    aside = go_on(journal, beside)
    copies = os.path.join(folder, persons.COPY), os.path.join(aside, os.path.basename(persons.path_of(office.file)))
    words = ["promote", *(["--until", str(until)] if until is not None else []), built.last.name]
    members = {"sha256": origin["sha256"], "timeline": number, MADE_AT: built.last.at}
    with journal.noted(office.file, words, **members) as note:
        timeline.mark(folder, number, origin)
        timeline.begin(office.file, number, origin)
        files.put_in_place(built.file, office.file)
        notes += persons.put_back(office.file, journal, *copies, without=beside.changed_persons)
        note.answer = Answer(0, "; ".join([f"timeline {number}", *notes]) + "\n", "")
    return Made(built.last, number, aside, notes)


def newest_lines(choice: Choice, built: Built, room: str) -> str:
    """The journal of the newest office that pieces of a chain give, if it goes on with that of the chosen ones; else
    theirs."""
    if choice.newest[1] == choice.end:
        return built.journal
    path = os.path.join(room, "newest.journal")
    with open(path, "xb") as lines:
        for one in chain.pieces_of(choice.chain, *choice.newest):
            chain.put_lines(lines, one)
    return path if query.common(built.journal, path) == os.path.getsize(built.journal) else built.journal


def tried(office: Office, folder: str, until: int | None) -> tuple[Header, Choice]:
    """Makes the office of a folder's pieces and looks at it, and leaves nothing of it."""
    choice = latest(paths.private(folder), until)
    with scratch.folder(os.path.dirname(office.file)) as room:
        return made_of(choice, office, room).last, choice


def restore_at(office: Office, folder: str, place: Place, journal: Journal, moment: float) -> Made:
    """Puts the office of a moment in the file's place, as a restore puts a backup there. The journal stays."""
    folder = paths.private(folder)
    backups.stop_on_server(office.file, place)
    number = timeline.number_of(office.file)
    choice = at_moment(folder, moment, number)
    with scratch.folder(os.path.dirname(office.file)) as room:
        built = made_of(choice, office, room)
        if not os.path.lexists(journal.path):
            files.copy_in_place(newest_lines(choice, built, room), journal.path)
        words, digest = ["restore", "--at", built.last.at, built.last.name], files.hash_of(built.file)
        then = built.journal, os.path.join(folder, persons.COPY)
        replaced = backups.replace(office, built.file, place, journal, words, digest, *then)
    return Made(built.last, number, *replaced)


def made_of(choice: Choice, office: Office, room: str) -> Built:
    """The office that pieces give, looked at as a backup is."""
    built = chain.build(chain.pieces_of(choice.chain, choice.start, choice.end), room)
    snapshot.settle(built.file)
    backups.require_sound(office, built.file)
    backups.require_sums(built.file)
    return built


def bring_earlier(built: Built, folder: str, file: str) -> None:
    """Puts the earlier files that pieces name beside the office's file, where they aren't yet. What is looked at is a
    copy, which nobody changes meanwhile."""
    copy = os.path.join(os.path.dirname(built.file), "earlier.db")
    for name, digest in built.earlier.items():
        source, target = chain.earlier_path(folder, digest), os.path.join(os.path.dirname(file), name)
        if not number_of(file, name) or not is_copied(source, copy, digest):
            raise Failure(f"{source} isn't the earlier file {name}", REFUSED)
        if not os.path.lexists(target):
            os.chmod(copy, 0o400)
            files.put_in_place(copy, target)
        elif files.hash_of(target) != digest:
            raise Failure(f"{target} is another file than the pieces name", REFUSED, "move it elsewhere")


def is_copied(source: str, target: str, digest: str) -> bool:
    """Whether a file that is no link could be copied, and has this SHA-256."""
    with contextlib.suppress(OSError):
        if os.path.isfile(source):
            files.copy(source, target)
            return files.hash_of(target) == digest
    return False


class Relation(Enum):
    """What a journal that is in place is to the lines of pieces."""

    NONE = auto()  # there is no journal
    OLDER = auto()  # the lines go on with it
    NEWER = auto()  # it goes on with the lines
    ANOTHER = auto()  # each has lines behind those that both have


@dataclass(frozen=True)
class Beside:
    """A journal that is in place, the lines of pieces, and how much of them the office has that is made."""

    relation: Relation
    path: str
    size: int  # bytes of the journal in place
    pieces: str  # the file with the lines of pieces
    point: int  # bytes of them up to the office
    changed_keys: frozenset[str] = frozenset()  # whose keys only lines say that are moved aside
    changed_persons: frozenset[str] = frozenset()  # persons of owners of whom they say something

    @property
    def is_newer(self) -> bool:
        """Whether the file that is in place is newer than all pieces."""
        return self.relation is Relation.NEWER

    @property
    def is_another(self) -> bool:
        """Whether the journal in place is moved aside."""
        return self.relation is Relation.ANOTHER

    @property
    def longer(self) -> str:
        """Of the journal in place and the lines of pieces, the one that goes on."""
        return self.path if self.is_newer else self.pieces

    @property
    def lines(self) -> list[str]:
        """What is told of lines that the office doesn't have."""
        behind = sum(1 for _ in query.lines_behind(self.longer, self.point))
        stay = f"the journal keeps {behind:,} lines behind that piece, and the office has nothing of what they say"
        moved = "the journal that was here has lines that pieces don't have, and is moved aside"
        return [*([stay] if behind else []), *([moved] if self.is_another else [])]


def compared(path: str, pieces: str, of_office: str) -> Beside:
    """A journal that is in place, beside the lines of pieces and those of them that an office has."""
    point, size, changed = os.path.getsize(of_office), files.size_of(path), (frozenset[str](), frozenset[str]())
    same = query.common(path, pieces)
    if not os.path.lexists(path):
        relation = Relation.NONE
    elif same == os.path.getsize(pieces):
        relation = Relation.NEWER
    elif same == size or is_cut(path, pieces, same):
        relation = Relation.OLDER
    else:
        of_keys = frozenset(keys.changed(path, same) - keys.changed(pieces, same))
        relation, changed = Relation.ANOTHER, (of_keys, persons.changed(path, same))
    return Beside(relation, path, size, pieces, point, *changed)


def is_cut(path: str, longer: str, at: int) -> bool:
    """Whether all that a journal has behind a place is the front of a line that another one has there."""
    with open(path, "rb") as journal, open(longer, "rb") as lines:
        journal.seek(at)
        lines.seek(at)
        rest = journal.read(files.PART)
        return lines.readline().startswith(rest)


def go_on(journal: Journal, beside: Beside) -> str:
    """Has the office's journal go on with the lines of pieces that it lacks, and moves the office's file aside; the
    folder where it is now. A journal that was written meanwhile fails before that. Behind a kill, the same goes on."""
    if beside.relation is Relation.OLDER:
        add_lines(journal, beside)
    older = [] if beside.is_newer else [persons.path_of(journal.file)]  # it may have who was removed since
    aside = backups.move_aside(journal.file, *older, *([journal.path] if beside.is_another else []))
    if beside.relation in (Relation.NONE, Relation.ANOTHER):
        files.put_in_place(beside.pieces, journal.path)
    journal.move(journal.file)
    return aside


def add_lines(journal: Journal, beside: Beside) -> None:
    """Adds the lines of pieces that an older journal lacks, under its lock."""
    with journal.locked() as descriptor, open(beside.pieces, "rb") as lines:
        if os.fstat(descriptor).st_size != beside.size:
            raise Failure(f"the journal {journal.path} was written meanwhile", advice="give the command again")
        lines.seek(beside.size)
        while part := lines.read(files.PART):
            os.write(descriptor, part)
        os.fsync(descriptor)
