"""What an office says now of its lots, its movements and its notes, of which the group has the last version; and the
notes of its journal, in the journal's order."""
import json
from collections import defaultdict
from collections.abc import Iterator
from dataclasses import dataclass, field
from typing import Any

from hilpoven import HOUSE
from hilpoven.core.context import Context
from hilpoven.core.journal.log import Journal
from hilpoven.model.notes import Link, MovementFacts, Note, PlantLink, joined
from hilpoven.model.register.keeping import IN_BATCH, OfficeFile as NotedFile, Reader
from hilpoven.model.register.noted import Noted
from hilpoven.model.register.standing import belonging, kept, statuses
from hilpoven.model.rows import BatchId, LotId

from .office import Office, Row

Key = tuple[Any, ...]
Said = dict[Key, Key]  # by whose a thing is and what names it, what is said of it


@dataclass
class Notes:
    """The notes of an office's journal, and what those that stand say of movements and lots."""

    rows: dict[int, list[Row]] = field(default_factory=lambda: defaultdict(list))  # by the number of their file
    faults: Said = field(default_factory=dict)
    facts: dict[Key, MovementFacts] = field(default_factory=dict)
    links: set[Key] = field(default_factory=set)
    size: int = 0  # bytes of the journal that they were read of


def numbered(kind: str, at: int, owner: str, name: str) -> str:
    """What a thing is called over all files of an office: by its file's number, and its name there."""
    return f"{at + 1} {name}"


def unnumbered(name: str) -> tuple[int, str]:
    """The file's number and the name of such a thing."""
    number, _, plain = name.partition(" ")
    return int(number), plain


def read_notes(journal: Journal, office: Office) -> Notes:
    """The notes of an office's journal as its files are now."""
    register, own = kept(journal, office.newest.base), Notes()
    names = ["", *(file.name for file in office.files)]
    files = [NotedFile(after, file.base) for after, file in zip(names, office.files)]
    number_of = {part.after: at for at, part in enumerate(files, 1)}
    reader = Reader(files, numbered)
    for place, noted in enumerate(belonging(register, journal), 1):
        add_row(own, office, place, noted, number_of)
    for status in statuses(register):
        note, file = status.note, number_of.get(status.noted.after)
        if note is None or file is None or note.owner not in (gids := office.files[file - 1].gids):
            continue
        own.faults[gids[note.owner], file, status.noted.name] = (status.fault,)
        if not status.fault and isinstance(note, (MovementFacts, Link, PlantLink)):
            for read in reader.read(status.noted, note):
                add_standing(own, office, read)
    return own


def add_row(own: Notes, office: Office, place: int, noted: Noted, number_of: dict[str, int]) -> None:
    """Adds a note to those of its file, whether it stands or not, without what it says of another owner."""
    file = number_of.get(noted.after)
    if noted.note is not None and file is not None:
        owner = noted.note.owner
        is_own = noted.value.get("of_owner", owner) in (owner, HOUSE)
        value = {name: member for name, member in noted.value.items() if is_own or not name.startswith("of_")}
        text = json.dumps(value, sort_keys=True, separators=(",", ":"))
        own.rows[file].append((place, owner, (noted.name, noted.kind, text)))


def add_standing(own: Notes, office: Office, note: Note) -> None:
    """Adds what a note says that stands, by the numbers of what it is about."""
    if isinstance(note, MovementFacts):
        number, key = unnumbered(note.key)
        gid = office.files[number - 1].gids.get(note.owner)
        if gid is not None:
            own.facts[gid, number, key] = joined(own.facts.get((gid, number, key)), note)
    elif isinstance(note, Link | PlantLink):
        for src in contained_lots(office, note.contained):
            add_link(own, office, note, src)


def add_link(own: Notes, office: Office, note: Link | PlantLink, src: int) -> None:
    """Adds that what a link is noted of contains a lot. A link of the plant's, which may join lots of two owners, is
    HOUSE's, so that neither sees it."""
    lot = batch = 0
    if note.lot:
        number, name = unnumbered(note.lot)
        lot = office.lot(number, note.owner, name) or 0
    else:
        number, order = unnumbered(note.order)
        batch = office.files[number - 1].batches.get((note.owner, order, note.batch), 0)
    if lot or batch:
        owner = HOUSE if isinstance(note, PlantLink) else note.owner
        own.links.add((office.files[number - 1].gids[owner], src, lot, batch))


def contained_lots(office: Office, end: LotId | BatchId) -> list[int]:
    """The lots that a link says are contained: one, or all that a batch took or made; none if it isn't there."""
    if isinstance(end, LotId):
        number, name = unnumbered(end.name)
        lots = [(end.owner, name)]
    elif end.order:
        number, order = unnumbered(end.order)
        lots = office.files[number - 1].base.execute(IN_BATCH, (end.owner, order, end.number)).fetchall()
    else:
        return []
    return [known for owner, lot in lots if (known := office.lot(number, owner, lot))]


def said_by(office: Office, notes: Notes) -> dict[str, Said]:
    """What an office says now, by the names of the tables of versions."""
    office.read_dispositions()
    return {
        "states": office.dispositions,
        "facts": {key: (fact.party, fact.supplier_lot, fact.document) for key, fact in notes.facts.items()},
        "links": {key: (True,) for key in notes.links},
        "standing": dict(notes.faults),
    }


def journal_of(context: Context) -> Journal | None:
    """The journal of an office; `None` if it may have no notes."""
    return context.journal() if context.may_have_notes else None


def rows_behind(rows: list[Row], place: int, most: int) -> Iterator[Row]:
    """The notes of a file behind a place."""
    yield from [row for row in rows if row[0] > place][: most if most >= 0 else None]
