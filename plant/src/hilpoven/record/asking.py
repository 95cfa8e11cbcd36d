"""How a line is given to `toll`: what is typed is looked at, noted in the journal, and the answer is explained."""
from collections.abc import Callable, Iterator
from typing import Any, NamedTuple

from .. import HOUSE
from ..core import lock, meanings
from ..core.context import Context
from ..core.failure import WRONG_USE, Failure, printable
from ..core.grammar import OWNER_ADD, Line, faults, unsayable, written
from ..core.journal.log import BLOTTED, Journal
from ..core.office import earlier_files
from ..core.office import Answer, Office

TRACES = ("recall", "trace")  # the questions to which links add lots
TAKES = ("ship", "actual")  # the commands by which a lot leaves, or is consumed


Ask = Callable[[list[str]], Answer]  # another way of asking `toll` than a process for each line


class Beside(NamedTuple):
    """What stands in the journal beside a line that is asked, what is told once it is accepted, and whether it is a
    scrap of what a batch uses, which a hold stops."""

    members: dict[str, Any] = {}
    hint: str = ""
    is_use: bool = False


class Given(NamedTuple):
    """A line as it was given to `toll`: its words, what is wrong with them, what is told once it is accepted, and the
    answer."""

    words: list[str]
    wrong: list[str]
    hint: str
    answer: Answer


MakeBeside = Callable[[dict[str, str]], Beside]  # of the values of a line, by their names


def give(context: Context, line: Line, typed: list[str], beside: MakeBeside | None = None) -> Given:
    """Gives a line to `toll`, and tells which words are read otherwise than they were typed. What is noted beside it is
    made of its values, where all can be read."""
    words, notes = written(line, typed)
    for note in notes:
        context.tell(note)
    wrong = faults(line, words)
    if unsayable(words):
        advice = "\n".join(wrong) or f"{unsayable(words)[0]!r} is a word of no line"
        raise Failure(f"{line.name} can't be asked so", WRONG_USE, advice)
    office, values = context.office(), dict(zip(line.values, words))
    noted = Beside() if wrong or beside is None else beside(values)
    answer = asked(context, office, line, words, is_use=noted.is_use, **noted.members)
    return Given(words, wrong, noted.hint, answer)


def below(context: Context, line: Line, given: Given) -> list[str]:
    """What the plant's links add to a recall or a trace, below what `toll` answers."""
    if line.name not in TRACES or given.answer.status:
        return []
    from ..model.register import lines

    office, journal = context.office(), context.journal()
    if not lines.may_have_notes(journal):
        return []
    from ..model import below

    return list(below.lines_below(office, journal, [line.name, *given.words], given.answer))


def remarks(context: Context, line: Line, given: Given) -> Iterator[str]:
    """What is told beside an answer: what is wrong with the words, what the answer means, and what comes next."""
    yield from given.wrong
    yield from explained(context.office(), line, given.words, given.answer)
    if given.answer.output == "accepted\n":
        yield given.hint


def asked(
    context: Context,
    office: Office,
    line: Line,
    words: list[str],
    journal: Journal | None = None,
    ask: Callable[[list[str]], Answer] | None = None,
    is_use: bool = False,
    **members: Any,
) -> Answer:
    """What `toll` answers; of a command it stands in the journal before it is asked, with what more there is to note,
    and behind. What an earlier file of the office has already isn't asked, nor what the plant's quality stops, which is
    looked at while nobody signs or holds a lot."""
    if known := known_earlier(office, line, words):
        if "notes" in members and not known.status:
            (journal or context.journal()).note(office.file, [line.name, *words], **members)
        return known
    if line.is_question:
        return office.ask_patiently([line.name, *words])
    with lock.recording(office.file, office.wait):
        if stopped := stopped_by_quality(context, line, words, is_use):
            return stopped
        return given(context, office, line, words, journal, ask, **members)


def stopped_by_quality(context: Context, line: Line, words: list[str], is_use: bool) -> Answer | None:
    """What is answered in place of `toll` to what the plant's quality stops; mostly `None`."""
    values = dict(zip(line.values, words))
    is_own_test = line.name == "result" and values["TEST"] == context.settings.quality.test
    is_judged = line.name in TAKES or is_use or is_own_test
    if not is_judged:
        return None
    from .stops import Stops

    return context.once(Stops).answer(line, values, is_use)


def given(
    context: Context,
    office: Office,
    line: Line,
    words: list[str],
    journal: Journal | None = None,
    ask: Callable[[list[str]], Answer] | None = None,
    **members: Any,
) -> Answer:
    """What `toll` answers to a command, which stands in the journal before and behind. The caller holds the office, as
    one of those who record or alone (`lock.recording`)."""
    journal = journal or context.journal()
    blotted = [BLOTTED if line.name == OWNER_ADD and name == "KEY" else word for name, word in zip(line.values, words)]
    entry = journal.asked(office.file, [line.name, *blotted], **members)
    answer = office.ask_patiently([line.name, *words], ask)
    journal.answered(entry, answer)
    return answer


def known_earlier(office: Office, line: Line, words: list[str]) -> Answer | None:
    """What an earlier file of the office answers, where it has one that does."""
    if not earlier_files(office.file):
        return None
    from ..model.years import earlier

    return earlier.answer(office, line, words)


def explained(office: Office, line: Line, words: list[str], answer: Answer) -> Iterator[str]:
    """What a refusal or a fault means, what to look at, and what earlier files have."""
    refusal, fault = meanings.refusal_in(answer.output), meanings.fault_in(answer.error)
    values = dict(zip(line.values, map(printable, words)))
    is_opened = line.name == "open" and answer.output == "accepted\n"
    if refusal or is_opened:
        from . import hints

        if refusal:
            yield meanings.explained("refusals", refusal, {"OWNER": HOUSE, **values})
            yield hints.of_refusal(office, line, refusal, values)
        else:
            yield hints.opened(office, *words)
    elif fault:
        yield meanings.explained("faults", fault, values)
        if fault == "Locked":
            yield lock.holders(lock.name_of(office.file))
    if line.name == OWNER_ADD and answer.output == "accepted\n":
        yield (
            "Its key stood on a command line, where others may have seen it: "
            f"`hilpoven owner key {words[0]}` gives it another one."
        )
    if earlier_files(office.file):
        from ..model.years import earlier

        yield earlier.hint(office, line, words, refusal)
