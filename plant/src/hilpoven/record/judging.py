"""What the plant's quality says of a lot: that it is held, or signed, by one who recorded nothing of it, as the journal
has it."""
import contextlib
from collections.abc import Callable, Iterable, Iterator, Sequence
from typing import Any, NamedTuple

from ..core import lock, roles
from ..core.context import Context
from ..core.failure import REFUSED, Failure
from ..core.grammar import LINES
from ..core.journal import query
from ..core.journal.log import KNOWN_KEYS, Journal
from ..model import quality
from ..model.quality import tests_of
from ..model.notes import Held, Judgement, Signed
from ..model.register.standing import Register, register_of
from ..model.rows import Base, Lot, LotId, require_lot
from ..model.years.earlier import KINDS, lot_of
from . import asking, making
from .making import Desk

RESULTS = {Signed: quality.LIMIT, Held: quality.LIMIT - 1}  # of the plant's own test
WORDS = {Signed: "sign", Held: "hold"}  # the commands
ALONE = "The lot's material hasn't the plant's own test, so hilpoven alone goes by this, and toll doesn't."


class Judged(NamedTuple):
    """What came of it: the result as it was given to `toll`, or in its place what is told, with what that means."""

    given: asking.Given | None = None
    text: str = ""
    remark: str = ""


def sign(
    context: Context, lot: LotId, reason: str, day: int | None, require: Callable[[Desk], None] = lambda _: None
) -> Judged:
    """Signs a lot, unless it is signed already. `require` fails where something is otherwise than the signer saw it:
    nobody else records between that and the signature."""
    note = Signed(*lot, context.day(day), reason)
    with desk_alone(context, note) as desk:
        asked = require_lot(desk.base, lot)
        require(desk)
        register = register_of(context, desk.base)
        status = quality.statuses(desk.base, register, lot).get(lot)
        if status is not None and status.state == quality.QualityState.SIGNED:
            return Judged(text=f"lot {lot} is {status.text} already")
        require_passed(desk.base, register, asked)
        require_another_person(context, desk, lot)
        return record(context, desk, asked, note)


def hold(context: Context, lot: LotId, reason: str, day: int | None) -> Judged:
    """Holds a lot."""
    note = Held(*lot, context.day(day), reason)
    with desk_alone(context, note) as desk:
        return record(context, desk, require_lot(desk.base, lot), note)


@contextlib.contextmanager
def desk_alone(context: Context, note: Judgement) -> Iterator[Desk]:
    """Reads a copy of an office's file while nobody else records in it, for whoever has the role now. What is looked at
    then stays so until the note is recorded. A hold goes on beside others who record for long: nothing stops it."""
    office = context.office()
    with lock.alone(office.file, office.wait, is_urgent=isinstance(note, Held)) as is_alone:
        roles.require(context, WORDS[type(note)])
        with making.desk(context) as desk:
            yield desk
    if not is_alone:
        behind = f"What they began may come behind it: `hilpoven show lot {note.lot_id}`"
        context.tell(f"Others are recording for long. {behind}")


def require_passed(base: Base, register: Register, lot: Lot) -> None:
    """Fails unless each of a lot's own tests has a result within its limits."""
    if missing := [test.name for test in tests_of(base, register, lot.id) if not test.passes]:
        advice = f"`hilpoven show lot {lot.id.owner} {lot.id.name}` has its tests"
        raise Failure(f"lot {lot.id} has no result within the limits of {', '.join(missing)}", REFUSED, advice)


def require_another_person(context: Context, desk: Desk, lot: LotId) -> None:
    """Fails if the caller recorded something of a lot, and the settings need a second person."""
    if context.settings.quality.persons < 2:
        return
    who = context.person.login
    if who in recorders(desk.journal, desk.bases, lot, context.settings.quality.test):
        advice = "another person signs it; persons = 1 below [quality] in the settings lets the same one"
        raise Failure(f"{who} recorded results or movements of lot {lot}", REFUSED, advice)


def is_alone(context: Context, desk: Desk, lot: Lot) -> bool:
    """Whether a note alone says what quality says of a lot: its material hasn't the plant's own test."""
    names = {"test": context.settings.quality.test, "owner": lot.id.owner, "material": lot.material}
    return desk.base.execute(quality.HAS_TEST, names).fetchone() is None


def record(context: Context, desk: Desk, lot: Lot, note: Judgement, ask: asking.Ask | None = None) -> Judged:
    """Records what quality says of a lot: as the result of the plant's own test, if the lot's material has it, and
    otherwise as a note alone."""
    if is_alone(context, desk, lot):
        reason = ["--reason", note.reason] if note.reason else []
        name = desk.record([WORDS[type(note)], *lot.id, *reason, "--day", str(note.day)], note)
        return Judged(text=f"noted {name}", remark=ALONE)
    words = [*lot.id, context.settings.quality.test, str(RESULTS[type(note)]), str(note.day)]
    members = desk.all_members([note])
    answer = asking.given(context, desk.office, LINES["result"], words, desk.journal, ask, **members)
    return Judged(asking.Given(words, [], "", answer))


# What a line has besides the lot's name that may say who recorded something of it: by a sheet, or by a void; and an
# answer that a command was refused.
OTHERS = ('"keys": [', f'"{KNOWN_KEYS}": [', '"void"', f'"status": {REFUSED},')
KEYS = "SELECT owner || ' ' || mkey FROM moves WHERE lot_owner = ? AND lot = ?"


def recorders(journal: Journal, bases: Iterable[Base], lot: LotId, plants_test: str) -> set[str]:
    """The logins that recorded a result or a movement of a lot, or voided one, but for results of the plant's own test.
    Whoever was refused recorded nothing; of a command without an answer that isn't known, and it counts."""
    keys = {str(key) for base in bases for key, in base.execute(KEYS, lot)}
    by_sheet, by_line = set[str](), dict[str, str]()  # the latter by the name of the journal's line
    for entry in query.entries(journal.path, journal.file, texts=[f'"{lot.name}"', *OTHERS]):
        if (entry.get("event") == "asked" or KNOWN_KEYS in entry) and is_about(entry, lot, keys, plants_test):
            if query.sheet_keys(entry):
                by_sheet.add(str(entry.get("login")))
            else:
                by_line[str(entry.get("id"))] = str(entry.get("login"))
        elif entry.get("event") == "told" and entry.get("status") == REFUSED:
            by_line.pop(str(entry.get("of")), None)
    return by_sheet | set(by_line.values())


def is_about(entry: dict[str, Any], lot: LotId, keys: set[str], plants_test: str) -> bool:
    """Whether a command records something of a lot, which has movements of these keys."""
    if given := query.sheet_keys(entry):
        return not keys.isdisjoint(given)
    words = entry.get("words")
    return isinstance(words, list) and words_are_about([str(word) for word in words], lot, keys, plants_test)


def words_are_about(words: Sequence[str], lot: LotId, keys: set[str], plants_test: str) -> bool:
    """Whether the words of a command record something of a lot, or void it."""
    line = LINES.get(words[0]) if words else None
    if line is None or len(words) != len(line.values) + 1:
        return False
    values = dict(zip(line.values, words[1:]))
    if line.name == "void":
        return f"{values['OWNER']} {values['KEY']}" in keys
    is_record = line.name in KINDS or line.name == "result" and values["TEST"] != plants_test
    return is_record and lot_of(values) == lot
