"""Who did what when, of the plant and of the owners, as `hilpoven journal` shows it."""
from collections.abc import Iterator
from dataclasses import dataclass
from operator import attrgetter
from typing import Any, NamedTuple

from ..core import settings as site
from ..core.context import Context
from ..core.days import moment_in, written
from ..core.failure import WRONG_USE, Failure
from ..core.journal import query, sitelog
from ..core.journal.query import listed, sheet_keys, who
from ..model.register.noted import from_json

COLUMNS = ["time", "who", "where", "what", "answer"]
UNKNOWN = "asked, answer unknown"
MARKS = ".,;:!?()[]{}<>\"'`"  # that stand around a word in a sentence


@dataclass(frozen=True)
class JournalEntry:
    """What somebody did, as it is shown: when, who, from which machine or address, what, and what was answered."""

    time: str
    who: str
    where: str
    asked: str
    answer: str
    names: tuple[str, ...] = ()  # by which `--who` finds it
    words: frozenset[str] = frozenset()  # by which `--word` finds it


class Asked(NamedTuple):
    """Which entries are asked for: from a time on until before another one, of whom, and with which word."""

    since: str | None = None
    until: str | None = None
    whom: str | None = None
    word: str | None = None

    def of(self, entries: Iterator[JournalEntry], zone: str) -> list[JournalEntry]:
        """Those of some entries, by their times. A time that names no time zone is of this one."""
        since, until = (None if text is None else moment(text, zone) for text in (self.since, self.until))
        return [
            entry
            for entry in sorted(entries, key=attrgetter("time"))
            if (since is None or entry.time >= since)
            and (until is None or entry.time < until)
            and (self.whom is None or self.whom in entry.names)
            and (self.word is None or self.word in entry.words)
        ]


def moment(text: str, zone: str) -> str:
    """A time as the journal writes it, to be compared."""
    try:
        return written(moment_in(text, zone))
    except (ValueError, OverflowError):
        advice = f"such as 2026-11-27, or 2026-11-27T14:30; times are those of {zone or 'this machine'}"
        raise Failure(f"{text!r} is no time", WRONG_USE, advice) from None


def of_all(context: Context, site_logs: list[str], with_site: bool, with_questions: bool) -> Iterator[JournalEntry]:
    """What was done over the office's file, and what owners asked by these logs of the site, or by those of the
    settings; that there are none, or that one can't be read, is told."""
    yield from of_plant(context.journal().path, context.file)
    yield from of_owners(site_logs, with_questions)
    if site_logs or not with_site:
        return
    logs, name = site.site_logs_of(context.settings, context.file), context.settings.office or "NAME"
    if not logs and site.offices():
        path = f"{site.OFFICES}/{name}.env"
        log = f"SITE_LOGS=/var/log/nginx/toll.log, or toll-{name}.log, in {path}"
        context.tell(f"What owners did is left out: {log} names its log.")
    try:
        yield from of_owners(logs, with_questions)
    except Failure as failure:
        context.tell(f"What owners did is left out: {failure.message}.")


def of_plant(path: str, file: str) -> list[JournalEntry]:
    """What was done through this command over a file."""
    return shown(query.entries(path, file))


def between(path: str, file: str, first: str, last: str) -> list[JournalEntry]:
    """The same from a line to another one, both with it, which are given by their names; fails if one is missing."""
    entries = query.entries(path, file)
    places = {entry["id"]: place for place, entry in enumerate(entries) if entry.get("id") in (first, last)}
    if len(places) < len({first, last}):
        raise Failure(f"the journal {path} has no longer the lines {first} and {last}")
    return shown(entries[places[first] : places[last] + 1])


def shown(entries: list[dict[str, Any]]) -> list[JournalEntry]:
    """What entries of the plant's command say, each with its answer."""
    answers = {str(entry.get("of")): entry for entry in entries if entry.get("event") == "told"}
    return [
        JournalEntry(
            str(entry.get("time")),
            who(entry),
            str(entry.get("machine")),
            asked(entry),
            answer_of(entry, answers),
            (str(entry.get("login")), str(entry.get("user"))),
            words_of(entry),
        )
        for entry in entries
        if entry.get("event") in ("asked", "exported", "moved", "note")
    ]


def asked(entry: dict[str, Any]) -> str:
    """What was asked, in words."""
    words = ["moved", "from", entry.get("from")] if entry.get("event") == "moved" else listed(entry, "words")
    return "; noted: ".join([" ".join(map(str, words)), *sentences(entry)])


def sentences(entry: dict[str, Any]) -> list[str]:
    """What the notes of an entry say, one after another."""
    if "notes" not in entry:
        return []
    notes = [from_json(value) for value in listed(entry, "notes")]
    return [note.sentence if note else "what can't be read" for note in notes]


def words_of(entry: dict[str, Any]) -> frozenset[str]:
    """The words of an entry, and those of the keys of a sheet that was imported."""
    return words_in(f"{asked(entry)} {' '.join(sheet_keys(entry))}")


def words_in(text: str) -> frozenset[str]:
    """The words of a text: what stands between blanks, its parts between slashes, and all of these without the marks
    around them, so that `TR-77` is a word of `(lot TR-77, ACME/B-1)`."""
    typed = text.split()
    words = {*typed, *(part for word in typed for part in word.split("/"))}
    return frozenset(words | {word.strip(MARKS) for word in words} - {""})


def answer_of(entry: dict[str, Any], answers: dict[str, dict[str, Any]]) -> str:
    """What was answered to an entry."""
    return answered(answers.get(str(entry.get("id")))) if entry.get("event") == "asked" else "noted"


def answered(entry: dict[str, Any] | None) -> str:
    """What was answered, in a line."""
    if entry is None:
        return UNKNOWN
    lines = f"{entry.get('answer', '')}{entry.get('error', '')}".strip().splitlines()
    return lines[-1] if lines else f"status {entry.get('status')}"


def of_owners(paths: list[str], with_questions: bool) -> list[JournalEntry]:
    """What owners asked over HTTP, as the site's log has it."""
    return [
        JournalEntry(
            written(request.time),
            request.who,
            request.address,
            request.action,
            str(request.status),
            request.names,
            words_in(request.action),
        )
        for path in paths
        for request in sitelog.requests(path)
        if with_questions or request.is_change
    ]
