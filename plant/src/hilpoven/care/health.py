"""Whether an office is well, and how full it is: a table of checks, each of which gives what it finding."""
import contextlib
import os
import sqlite3
import time
from collections.abc import Callable
from dataclasses import dataclass, field
from datetime import date, datetime

from .. import HOUSE
from ..core import client, files, server, settings as site, snapshot
from ..core.context import Context
from ..core.days import zone_of
from ..core.failure import FAULT, REFUSED, Failure, printable
from ..core.table import formatted
from ..model.gauge import FULL, Gauge, gauges
from ..model.register import drills, standing
from ..model.genealogy import Suspect, suspects
from ..model.years import chain
from . import backups, keys
from .standby.state import folder_of, lag_of
from .years import pace

OLD_COMPANIONS = 300  # seconds; a timer looks after them each minute
Values = list[tuple[str, float]]  # of a metric, each behind its labels
# What Prometheus reads, and what it is about. The first ones are always told, those of a standby if there is one.
METRICS = {
    "file_opens": "Whether the office's file opens.",
    "server_answers": "Whether a server answers.",
    "last_backup_timestamp_seconds": "When the newest backup was made; 0 is never.",
    "rows": "Rows that have a limit.",
    "rows_limit": "The most rows that there may be.",
    "rows_full_timestamp_seconds": "When the most is reached at the pace of the last months, where that can be told.",
    "standby_behind_seconds": "By how many seconds the standby is behind.",
    "standby_unsent_pieces": "Pieces that aren't on the other machine yet.",
    "standby_looked_timestamp_seconds": "When the follower looked last.",
}


@dataclass
class Finding:
    """What checks found: the lines that tell it, what wants attention, what isn't well, and the values of metrics."""

    lines: list[str] = field(default_factory=list)
    attention: list[str] = field(default_factory=list)
    bad: list[str] = field(default_factory=list)
    values: dict[str, Values] = field(default_factory=dict)


@dataclass
class Fullness:
    """How full an office is, by what day each limit is reached at the pace of the last months, which limits are reached
    soon, and receipts that look as if a trace ended there."""

    full: list[Gauge] = field(default_factory=list)
    full_by: dict[Gauge, date] = field(default_factory=dict)
    soon_full: list[Gauge] = field(default_factory=list)
    suspects: list[Suspect] = field(default_factory=list)

    def pressing(self) -> list[Gauge]:
        """What is nearly full, or will be soon."""
        return [gauge for gauge in self.full if gauge.percent >= FULL or gauge in self.soon_full]

    def described(self, gauge: Gauge) -> str:
        """How full it is, and by what day it is full at the pace of the last months."""
        when = self.full_by.get(gauge)
        by = f"; at this pace full by {when}: `hilpoven carry-over` before" if when else ""
        name = f"{gauge.owner} {gauge.kind}".strip()
        return f"{name}: {formatted(gauge.count)} of {formatted(gauge.most)}, {gauge.percent} %{by}"

    def values(self) -> dict[str, Values]:
        """The metrics of it."""
        ends = ((gauge, datetime.combine(when, datetime.min.time())) for gauge, when in self.full_by.items())
        return {
            "rows": [(labels(gauge), gauge.count) for gauge in self.full],
            "rows_limit": [(labels(gauge), gauge.most) for gauge in self.full],
            "rows_full_timestamp_seconds": [(labels(gauge), int(end.timestamp())) for gauge, end in ends],
        }


@dataclass(frozen=True)
class Age:
    """The seconds since the companions of an office were those of now, and whether its file changed since."""

    seconds: float
    is_old: bool


AgeOf = Callable[[Context, str], Age | None]  # of the companions in a folder, which are made elsewhere


@dataclass
class Subject:
    """What is looked at: the office, the age of its companions, and how full it is, which is filled in."""

    context: Context
    age_of: AgeOf
    fullness: Fullness = field(default_factory=Fullness)


@dataclass
class Health(Finding):
    """What was found of an office, and how full it is."""

    fullness: Fullness = field(default_factory=Fullness)

    @property
    def code(self) -> int:
        """The exit status."""
        return FAULT if self.bad else REFUSED if self.attention else 0


def check_file(subject: Subject) -> Finding:
    """Reads a copy of the file, and has `toll` open it, unless a server has it open already."""
    context, fullness = subject.context, subject.fullness
    try:
        office = context.office_to_read()
        with snapshot.copied(office) as copy:
            with contextlib.closing(sqlite3.connect(copy)) as base:
                require_sound(base, context.file)
                count_rows(base, fullness, context.today)
                short, notes = keys.short_keys(base), check_notes(context, base, fullness)
                earlier = check_earlier(context, base)
            if not server.greeting(context.file):
                answer = office.ask(["stock", HOUSE], copy)
                if answer.status:
                    why = answer.error.strip() or "it ended without an answer"
                    raise Failure(f"toll doesn't open {office.file}: {why}")
    except Failure as failure:
        return Finding(bad=[failure.message])
    except sqlite3.Error as error:
        return Finding(bad=[f"the tables of {context.file} can't be read: {error}"])
    size = files.size_of(context.file) + files.size_of(f"{context.file}-wal")
    unread = [text for text in notes.attention if text not in earlier.attention]
    return Finding(
        [f"file: {context.file} opens; {size / 1e6:,.1f} MB with its log", *short, *notes.lines, *earlier.lines],
        [*earlier.attention, *unread, *map(fullness.described, fullness.pressing())],
        values={"file_opens": [("", 1)]},
    )


def require_sound(base: sqlite3.Connection, file: str) -> None:
    """Fails where a page of the tables of a copy is damaged."""
    snapshot.require_office(base, file)
    damage = base.execute("PRAGMA quick_check(1)").fetchone()[0]
    if damage != "ok":
        raise Failure(f"SQLite finds {file} damaged: {damage.splitlines()[-1]}")


def count_rows(base: sqlite3.Connection, fullness: Fullness, day: date) -> None:
    """Reads how full the tables of a copy are on a day, and soon will be."""
    fullness.full = gauges(base)
    fullness.full_by = pace.full_by(base, fullness.full, day)
    fullness.soon_full = [gauge for gauge, when in fullness.full_by.items() if pace.is_soon(when, day)]


def check_notes(context: Context, base: sqlite3.Connection, fullness: Fullness) -> Finding:
    """Looks for receipts that look as if a trace ended there, and for a drill that is under way."""
    try:
        fullness.suspects = suspects(base, standing.read(context.journal(), base))
        drill = drills.under_way(drills.drills_of(context.journal(), base))
    except Failure as failure:
        return Finding(attention=[failure.message])
    if drill is None:
        return Finding()
    began = f"by {drill.begun.who} on {drills.as_moment(drill.begun)}"
    return Finding([f"drill: one over lot {drill.lot} is under way, begun {began}; `hilpoven drill end` ends it"])


def check_earlier(context: Context, base: sqlite3.Connection) -> Finding:
    """Looks whether the office's earlier files lie beside its file."""
    try:
        earlier = chain.earlier_files(context.file, chain.came_from(base))
    except Failure as failure:
        return Finding(attention=[failure.message])
    names = ", ".join(file.name for file in earlier)
    return Finding([f"earlier files: {names}; the last was carried over at {earlier[-1].at}"] if earlier else [])


def check_server(subject: Subject) -> Finding:
    """Asks the server, where one is there or is to be there."""
    context = subject.context
    greeting, port = server.greeting(context.file), context.settings.port
    status = client.status_at(port) if port else 0
    serves = status == 403 if port else bool(greeting)
    wrong = f"answers {status}, not 403" if status else "doesn't answer"
    owners = f"answers at port {port}; " if serves and port else ""
    none = "takes no commands: each opens the file itself" if owners else "none: each command opens the file itself"
    plant = f"takes the plant's commands ({greeting})" if greeting else none
    return Finding(
        [f"server: {owners}{plant}"],
        bad=[f"the server at port {port} {wrong}"] if port and not serves else [],
        values={"server_answers": [("", int(serves))]},
    )


def check_backups(subject: Subject) -> Finding:
    """Looks for the newest backup."""
    context = subject.context
    folder = context.settings.backups
    if not folder:
        return Finding(["backup: no folder is named in the settings"])
    newest, ahead = backups.newest(context.file, folder, context.journal())
    finding = Finding(attention=[f"{backup} is dated in the future: is the clock right?" for backup in ahead])
    if not newest:
        finding.attention.append(f"there is no backup in {folder}")
        return finding
    made_at = os.path.getmtime(newest)
    hours = (time.time() - made_at) / 3600
    finding.lines.append(f"backup: {newest}, {hours:,.1f} hours old")
    finding.values["last_backup_timestamp_seconds"] = [("", int(made_at))]
    if hours > context.settings.backup_hours:
        finding.attention.append(f"the newest backup is {hours:,.0f} hours old")
    return finding


def check_companions(subject: Subject) -> Finding:
    """Looks whether the owners' companions are as new as the file, where the office has any."""
    context = subject.context
    folder = site.companions_of(context.settings)
    is_own = folder and context.file == site.office_of(context.settings)
    try:
        age = subject.age_of(context, folder) if is_own else None
    except Failure as failure:
        return Finding(attention=[failure.message])
    if age is None:
        return Finding()
    finding = Finding([f"companions: {folder}, looked after {age.seconds / 60:,.0f} minutes ago"])
    if age.is_old and age.seconds > OLD_COMPANIONS:
        timer = f"`systemctl status toll-companion@{context.settings.office}.timer`"
        finding.attention.append(f"the owners' companions in {folder} are older than the file: {timer}")
    return finding


def check_standby(subject: Subject) -> Finding:
    """Looks how far a standby is behind, if the settings have one or somebody follows."""
    context = subject.context
    follow = context.settings.follow
    lag = lag_of(context.file, folder_of(context.file, follow.to), zone_of(context.settings.time_zone))
    if lag is None:
        return Finding(attention=[f"standby: nobody follows to {follow.to}"] if follow.to else [])
    late = [f"it is {lag.seconds:,.0f} seconds behind"] if lag.seconds > follow.behind else []
    return Finding(
        [f"standby: {line}" for line in lag.lines],
        [f"standby: {fault}" for fault in [*lag.faults, *late]],
        values={
            "standby_behind_seconds": [("", round(lag.seconds, 1))],
            "standby_unsent_pieces": [("", lag.state.unsent)],
            "standby_looked_timestamp_seconds": [("", int(lag.state.looked))],
        },
    )


Check = Callable[[Subject], Finding]
CHECKS: tuple[Check, ...] = (check_file, check_server, check_backups, check_companions, check_standby)


def health_of(context: Context, age_of: AgeOf) -> Health:
    """All that is found of an office, whose companions are made elsewhere."""
    subject = Subject(context, age_of)
    health = Health(fullness=subject.fullness)
    for check in CHECKS:
        finding = check(subject)
        health.lines += finding.lines
        health.attention += finding.attention
        health.bad += finding.bad
        health.values |= finding.values
    health.values |= health.fullness.values()
    return health


def metrics(health: Health) -> str:
    """The same as Prometheus reads it."""
    always = dict.fromkeys(("file_opens", "server_answers", "last_backup_timestamp_seconds"), [("", 0)])
    values = always | health.values
    return "".join(
        f"# HELP hilpoven_{name} {about}\n# TYPE hilpoven_{name} gauge\n"
        + "".join(f"hilpoven_{name}{label} {value}\n" for label, value in values[name])
        for name, about in METRICS.items()
        if name in values
    )


def labels(gauge: Gauge) -> str:
    """The labels of a gauge."""
    owner, kind = (printable(label).replace("\\", r"\\").replace('"', r"\"") for label in (gauge.owner, gauge.kind))
    return f'{{owner="{owner}",of="{kind}"}}'
