"""The register is what the fold over the journal gives, at each step and however the journal grows."""
import json
import os
import time

import pytest
from conftest import eventually
from hilpoven.core.office import Answer
from hilpoven.core.journal.log import Journal
from hilpoven.core.journal.query import check
from hilpoven.model import notes as facts
from hilpoven.model.register import file, folding
from hilpoven.model.kinds import Bound
from hilpoven.model.register.noted import from_json, to_json
from hilpoven.model.notes import KINDS, Link, MovementFacts, NotLinked, Party, Role, Why, Withdrawal
from hypothesis import example, given, settings
from hypothesis import strategies as any_of

NAME = any_of.from_regex(r"[A-Z0-9][A-Z0-9-]{0,4}", fullmatch=True)
TEXT = any_of.text(any_of.characters(whitelist_categories=["L", "N", "P"]), max_size=20)
SOME_TEXT = TEXT.filter(bool)
DATE = any_of.none() | any_of.integers(20, 99).map(lambda year: year * 10_000 + 228)
OF_NOTE = any_of.from_regex(r"[0-9a-f]{16}(\.[2-9])?", fullmatch=True)
LINKS = any_of.builds(Link, NAME, NAME.map(lambda letters: f"A{letters}"), any_of.just(""), any_of.just(0), any_of.just("HOUSE"), NAME, any_of.sampled_from(Why),
                      any_of.none() | any_of.integers(1, 1_000_000_000), TEXT)
OF_BATCHES = any_of.builds(Link, NAME, any_of.just(""), NAME, any_of.integers(1, 99), any_of.just("HOUSE"), NAME, any_of.sampled_from(Why))
NOTES = any_of.one_of(LINKS, OF_BATCHES, any_of.builds(Party, NAME, NAME, SOME_TEXT, TEXT, TEXT, TEXT, any_of.lists(any_of.sampled_from(Role), max_size=2).map(tuple)),
                      any_of.builds(MovementFacts, NAME, NAME, any_of.just("") | NAME, TEXT, TEXT), any_of.builds(NotLinked, NAME, NAME),
                      any_of.builds(Withdrawal, NAME, OF_NOTE, SOME_TEXT), any_of.builds(facts.OwnerFacts, NAME, TEXT, TEXT), any_of.builds(facts.MaterialFacts, NAME, NAME, TEXT),
                      any_of.builds(facts.TestFacts, NAME, NAME, NAME, TEXT, TEXT, any_of.integers(0, 9), TEXT), any_of.builds(facts.LotFacts, NAME, NAME, DATE, DATE, DATE),
                      any_of.builds(facts.ResultFacts, NAME, NAME, NAME, any_of.integers(-1_000_000_000, 1_000_000_000), any_of.integers(0, 9_999_999), any_of.sampled_from(Bound)))


@pytest.fixture
def journal(tmp_path) -> Journal:
    """A journal without a line, of a file that isn't there."""
    return Journal(str(tmp_path / "office.db.journal"), str(tmp_path / "office.db"))


def folded_anew(journal):
    """What a fold from the first line gives."""
    fresh = file.memory()
    folding.fold_on(journal.path, fresh)
    return file.Opened(fresh)


def names(notes):
    """The names of notes, in their order."""
    return [name for name, in notes.rows("SELECT name FROM note ORDER BY id")]


def is_same(one, other):
    """Whether two folds have the same notes, answers and files."""
    return all(one.rows(sql) == other.rows(sql) for queries in file.OF_JOURNAL.values() for sql in queries)


@settings(max_examples=200)
@given(NOTES)
def test_a_note_is_read_as_it_was_written(note):
    assert from_json(json.loads(json.dumps(to_json(note)))) == note


@settings(max_examples=300)
@given(NOTES.map(to_json), any_of.sampled_from(["owner", "lot", "order", "batch", "of_owner", "of_lot", "why", "amount", "reason", "party", "roles", "key", "of", "kind", "more", "material", "test", "decimals", "expires", "value", "day", "bound"]),
       any_of.one_of(any_of.none(), any_of.integers(-2, 10**12), any_of.text(max_size=3), any_of.sampled_from(["", "a\nb", "\x1b[2J", "\ud800", "X" * 201, "wh_2", "-A"]),
                     any_of.lists(any_of.text(max_size=2), max_size=2), any_of.booleans(), any_of.dictionaries(any_of.text(max_size=2), any_of.none(), max_size=1)))
def test_what_is_no_note_is_read_as_none_or_as_a_note_that_can_be_printed(value, member, other):
    note = from_json({**value, member: other})
    assert note is None or note.sentence.isprintable() and KINDS[note.KIND] is type(note)


# What is done to a journal: a step's name, and how much of it.
STEPS = any_of.lists(any_of.tuples(any_of.sampled_from(["own", "command", "accepted", "refused", "other", "withdrawn", "cut", "moved", "elsewhere", "twice"]), any_of.integers(0, 3), NOTES), max_size=25)


def add(journal, step, count, note, asked):
    """Does one step to a journal."""
    if step == "own":
        journal.note(journal.file, ["note"], notes=[to_json(note)] * (count + 1))
    elif step == "command":
        asked.append(journal.asked(journal.file, ["receive", "ACME", "K", "SALT", "S-1", "BAY1", "5", "101"], notes=[to_json(note)]))
    elif step in ("accepted", "refused") and asked:
        journal.answered(asked.pop(count % len(asked)), Answer(0, "accepted\n", "") if step == "accepted" else Answer(1, "refused 35 KeyConflict\n", ""))
    elif step == "withdrawn":
        known = names(folded_anew(journal))
        journal.note(journal.file, ["note"], notes=[to_json(Withdrawal("ACME", known[count % len(known)] if known else "0" * 16, "no"))])
    elif step == "cut":
        with open(journal.path, "ab") as lines:
            lines.write(b'{"before": "0", "event": "note", "id": "0123456789abcdef", "notes": [{"kind": "lin')
    elif step == "moved":
        journal.add({"event": "moved", "from": f"{journal.file}{count}", "file": journal.file})
    elif step == "elsewhere":
        with open(journal.path, "ab") as lines:
            lines.write(json.dumps({"before": "0" * 64, "event": "exported", "file": f"{journal.file}{count}"}).encode() + b"\n")
    elif step == "twice" and os.path.exists(journal.path):
        lines = open(journal.path, "rb").read().splitlines(keepends=True)
        with open(journal.path, "ab") as appending:
            appending.write(lines[count % len(lines)])
    else:
        journal.answered(journal.asked(journal.file, ["unit-add", "PRESS"]), Answer(0, "accepted\n", ""))


@settings(max_examples=40)
@given(STEPS)
@example([("command", 0, NotLinked("ACME", "K1")), ("elsewhere", 1, NotLinked("ACME", "K1")), ("accepted", 0, NotLinked("ACME", "K1"))])
def test_the_register_is_what_a_fold_from_the_first_line_gives_at_each_step(tmp_path_factory, steps):
    folder = tmp_path_factory.mktemp("folded")
    journal, asked = Journal(str(folder / "office.db.journal"), str(folder / "office.db")), []
    for step, count, note in steps:
        add(journal, step, count, note, asked)
        stored, fresh = file.Notes(journal), folded_anew(journal)
        assert is_same(stored, fresh) if names(fresh) else not names(stored)
        assert os.path.exists(file.path_of(journal.file)) == bool(names(fresh))
        assert file.difference(journal) == ""
    assert names(file.rebuild(journal)) == names(folded_anew(journal))
    assert file.difference(journal) == ""


def test_a_journal_without_a_note_makes_no_file(journal):
    journal.answered(journal.asked(journal.file, ["unit-add", 'A "notes": [{"kind": "link"}]']), Answer(0, "accepted\n", ""))
    assert names(file.Notes(journal)) == names(file.rebuild(journal)) == []
    assert not os.path.exists(file.path_of(journal.file))


def test_a_note_in_another_event_or_of_a_strange_name_is_none(journal):
    value = [to_json(NotLinked("ACME", "K1"))]
    journal.add({"event": "told", "of": "0" * 16, "notes": value}, {"event": "note", "id": "../x", "notes": value}, {"event": "note", "id": "0" * 16, "notes": value[0]})
    assert names(file.Notes(journal)) == []


def test_a_register_that_is_missing_is_made_by_the_next_reader(journal):
    journal.note(journal.file, ["note"], notes=[to_json(NotLinked("ACME", "K1"))])
    first, path = names(file.Notes(journal)), file.path_of(journal.file)
    assert os.stat(path).st_mode & 0o777 == 0o600
    os.unlink(path)
    assert names(file.Notes(journal)) == first and os.path.exists(path)


def test_a_forged_line_counts_until_verify_tells_it(journal):
    journal.note(journal.file, ["note"], notes=[to_json(NotLinked("ACME", "K1"))])
    line = json.loads(open(journal.path).read())
    with open(journal.path, "a") as lines:
        lines.write(json.dumps({**line, "id": "0" * 16, "notes": [to_json(NotLinked("ACME", "K2"))]}) + "\n")
    assert len(names(file.Notes(journal))) == 2
    assert check(journal.path).wrong == ["line 2 doesn't follow line 1: one of them was changed, or lines between them are missing"]


def test_a_long_journal_is_read_at_once(journal):
    line = json.dumps({"before": "0" * 64, "time": "2026-11-27T10:00:00.000Z", "event": "asked", "id": "0" * 16, "user": "toll", "login": "anna", "machine": "plant",
                       "file": journal.file, "words": ["receive", "ACME", "K1", "SALT", "S-1", "BAY1", "500", "261127"]}) + "\n"
    with open(journal.path, "w") as lines:
        lines.writelines([line] * 100_000)

    def is_fast(seconds: float) -> bool:
        begun = time.process_time()
        file.Notes(journal)
        return time.process_time() - begun < seconds

    assert eventually(lambda: is_fast(0.5)) and not os.path.exists(file.path_of(journal.file))
    journal.note(journal.file, ["note"], notes=[to_json(NotLinked("ACME", "K1"))])
    assert is_fast(0.5) and eventually(lambda: is_fast(0.02))
