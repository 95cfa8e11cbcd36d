"""What the plant's links add below what `toll` answers to a recall or a trace."""
from collections.abc import Mapping, Sequence

from .. import HOUSE
from ..core import snapshot
from ..core.failure import REFUSED, Failure
from ..core.office import Answer, Office
from ..core.journal.log import Journal
from . import answers, corrected, residues, unit_order, views
from .genealogy import FORWARD, Genealogy
from .answers import recall_lines
from .rows import LotId
from .register.file import Notes
from .notes import Link, PlantLink
from .register import standing

LINKED = f"""
SELECT 1 FROM note WHERE kind = '{Link.KIND}' AND owner <> '' AND (? = '{HOUSE}' OR owner IN (?, '{HOUSE}')) LIMIT 1
"""
HAS_PLANT_LINKS = f"SELECT 1 FROM note WHERE kind = '{PlantLink.KIND}' AND owner <> '' LIMIT 1"
HEADING = "noted by the plant: links add these lots, or shorten the way to them"
MARK = "*"


def lines_below(office: Office, journal: Journal, words: Sequence[str], answer: Answer) -> list[str]:
    """The lines that links add to an answer, or shorten, under a heading; none if there are none of them. Below those
    of a recall stand what was recorded by mistake, and the batches that may contain residues. The words are of a
    `recall` or a `trace`."""
    name, start, way = words[0], LotId(*words[1:3]), words[3] if words[3:] else FORWARD
    notes = Notes(journal)
    is_recall = name == "recall"
    has_residues = is_recall and unit_order.has_cleanings(notes)
    if not (has_residues or may_concern(notes, start) or is_recall and corrected.may_be_any(notes)):
        return []
    with snapshot.opened(office) as base:
        order = unit_order.read(journal, base) if has_residues else None
        register = standing.read(journal, base)
        genealogy = Genealogy(base, register, is_plants=True)
        trace = genealogy.trace(start, way)
        require_told(name, answer, trace.recorded)
        if not is_recall:
            return noted_text(answers.trace_text(trace.noted))
        lines = noted_text(answers.recall_text(recall_lines(base, trace.noted))[1:])
        lines += corrected.lines_below(views.over(base, register), trace.steps)
        rows = residues.may_contain(genealogy, trace, order, is_whole=False) if order else []
        return [*lines, *residues.lines_of(rows)]


def may_concern(notes: Notes, start: LotId) -> bool:
    """Whether there is a link to which a trace of this lot may come: it stays with the lot's owner and HOUSE, unless
    the lot is HOUSE's, which all owners' batches may consume; a link of the plant's may join any lots."""
    return bool(notes.rows(LINKED, (start.owner, start.owner))) or has_plant_links(notes)


def has_plant_links(notes: Notes) -> bool:
    """Whether there are links that may join lots of two owners."""
    return bool(notes.rows(HAS_PLANT_LINKS))


def noted_text(lines: Sequence[str]) -> list[str]:
    """Lines under the heading that says who noted them, each with the mark behind it; nothing if there are none."""
    width = max(map(len, lines), default=0)
    return [HEADING, *(f"{line:<{width}} {MARK}" for line in lines)] if lines else []


def require_told(name: str, answer: Answer, recorded: Mapping[LotId, int]) -> None:
    """Fails unless `toll` told the recorded lots with their steps, so that what links add belongs to its answer."""
    lines = answers.recall_of(answer.output) if name == "recall" else answers.trace_of(answer.output)
    if {LotId(line.owner, line.lot): line.steps for line in lines} != recorded:
        raise Failure(
            "what links add isn't shown: toll tells other lots than the tables",
            REFUSED,
            "the office was changed meanwhile: ask again; if that doesn't help, `hilpoven verify` looks at the file",
        )
