"""What was typed wrongly is corrected: stock, statement, balance, settlement, labels and who has what are those of a model of what was meant, and no recall
loses a line. Another person signs where the settings say so."""
import contextlib
import json
import pathlib
import re
import sqlite3
import tempfile
from collections import Counter
from random import Random

import pytest
from conftest import Plant, is_told
from hilpoven.cli import caller
from hilpoven.core import settings as site
from hilpoven.core.journal.log import Journal
from hilpoven.model import corrected, views
from hilpoven.model.genealogy import Genealogy
from hilpoven.model.register import standing
from hilpoven.model.rows import LotId, lots_of, sublots_of
from hilpoven.record.settling.settlement import Reader
from hilpoven.report import overviews
from hilpoven.report.papers import labels
from weeks_typed import Week, root_of

REASON = ("--reason", "typed wrongly")


@contextlib.contextmanager
def read(plant):
    """The tables of an office with the views, and its register."""
    with plant.reading() as base:
        register = standing.read(Journal(str(plant.journal), str(plant.db)), base)
        yield views.over(base, register), register


def traces(plant):
    """The lots that each lot went into, with their steps."""
    with read(plant) as (base, register):
        genealogy = Genealogy(base, register)
        lots = [LotId(*row) for row in base.execute("SELECT owner, lot FROM lots")]
        return {lot: genealogy.trace(lot, "forward").steps for lot in lots}


def check_stock(week, base):
    """Stock is what a person counts, and labels say so."""
    piles, lots = Counter(), [LotId(*row) for row in base.execute("SELECT owner, lot FROM lots")]
    for (lot, sublot), amount in sublots_of(base, lots).items():
        piles[lot.owner, root_of(lot.name), sublot] += amount
    assert +piles == +week.piles, (+piles - week.piles, +week.piles - piles)
    for lot in lots_of(base, lots).values():
        if root_of(lot.id.name) == lot.id.name:
            text_of = labels.piles_of(base, lot)
            for (_, sublot), amount in sublots_of(base, [lot.id]).items():
                assert text_of(sublot, amount).split(" ")[0].replace(",", "") == str(week.piles[(*lot.id, sublot)]), (lot, sublot)


def check_settlement(week, base, register):
    """What closed batches consumed and made, and what was delivered, is what was meant."""
    settled = Reader(base, register, "ACME").between(0, 9_999_999)
    figures, meant = Counter(), Counter()
    for line in settled.lines:
        figures[line.item.use.word, line.item.material] += line.recorded + line.used + line.corrected
    for move in week.moves:
        if move.batch in week.closed:
            meant[move.kind, {"S": "RAW", "W": "WATER", "B": "MID"}[move.lot[0]]] += move.amount
    assert +figures == +meant
    delivered = {material: sums[None] for (material, _), sums in settled.receipts.items() if sums[None]}
    assert delivered == +Counter({"RAW": sum(move.amount for move in week.moves if move.kind == "receive" and move.lot_owner == "ACME")})


def check_recipients(week, base):
    """Who has what is what was meant."""
    for lot in {move.lot for move in week.moves if move.lot_owner == "ACME"}:
        meant = Counter()
        for move in week.moves:
            if move.kind == "ship" and move.lot == lot:
                meant[move.party] += move.amount
        assert +Counter({party: amount for party, *_, amount, _ in overviews.recipients(base, LotId("ACME", lot))}) == +meant, lot


def check_recalls(week, plant, before):
    """No recall loses a line, or has it with more steps; and each has what was meant."""
    after, edges = traces(plant), week.edges()
    for lot, steps in before.items():
        lost = {name for name, number in steps.items() if after[lot].get(name, number + 1) > number}
        assert not lost, (lot, lost)
    for source, product in edges:
        assert LotId(*product) in after[LotId(*source)], (source, product)


def try_week(program, seed, most):
    """Tries a week with 1 to so many mistakes."""
    random = Random(seed)
    with tempfile.TemporaryDirectory() as folder, pytest.MonkeyPatch.context() as patch:
        patch.setenv("TOLL", program)
        plant = Plant(program, pathlib.Path(folder))
        week = Week(plant, random)
        week.live()
        before, count = traces(plant), 0
        for _ in range(random.randint(1, most)):
            count += week.correct()
        with read(plant) as (base, register):
            check_stock(week, base)
            check_settlement(week, base, register)
            check_recipients(week, base)
        for owner in ("ACME", "HOUSE"):
            office, meant = week.statement_of_office(owner), week.statement(owner)
            assert office == meant, (office, meant)
        check_recalls(week, plant, before)
        return count


def test_a_sample_of_weeks_with_mistakes(program):
    assert sum(try_week(program, seed, 8) for seed in range(3)) > 3


@pytest.mark.long
@pytest.mark.parametrize("seed", range(3, 203))
def test_two_hundred_weeks_with_mistakes(program, seed):
    try_week(program, seed, 20)


# One by one

@pytest.fixture
def shipped(settled, monkeypatch):
    """An office at work of which a lot was shipped."""
    monkeypatch.setattr(caller, "login_number", lambda: caller.NOBODY)
    for line in ("party add ACME NORD --name Nord --role customer", "party add ACME CHEM --name Chem --role supplier", "result ACME B-1 PH 7 103"):
        assert settled.run(*line.split()).status == 0
    with settled.serve() as server:
        assert server.ask("ACME", "POST", "/lots/B-1/release")[0] == 200
    assert settled.run("ship", "ACME", "K7", "B-1", "TOTE1", 480, 103, "--to", "NORD").out == "accepted\n"
    return settled


def with_two(plant):
    """Has the settings want a second person."""
    plant.settle()
    path = site.load.__defaults__[0]
    path.write_text(path.read_text() + "[corrections]\npersons = 2\n")


def by(plant, login, *words):
    """The command, given by a login."""
    with pytest.MonkeyPatch.context() as patch:
        patch.setenv("SUDO_USER", login)
        return plant.run(*words)


def test_a_shipment_that_left_is_of_what_was_meant_and_what_was_typed_stays_marked(shipped):
    before = shipped.run("recall", "ACME", "B-1").out
    done = shipped.run("correct", "ACME", "K7", "--amount", 48, *REASON, "--day", 104)
    assert done.status == 0 and re.fullmatch(r"receive ACME CORR-[0-9A-F]{7}-1 BRINE B-1-C TOTE1 432 104: accepted\nnoted [0-9a-f]{16}\n", done.out)
    after = shipped.run("recall", "ACME", "B-1").out
    assert after.startswith(before) and "B-1-C" in after and after.splitlines()[-2:] == [
        corrected.HEADING, "ACME K7 ship 480 of B-1, meant 48 of B-1: recorded by mistake, corrected on 104 by root"]
    holders = json.loads(shipped.run("show", "lot", "ACME", "B-1", "--json").out)["who has it"]
    assert [(each["party"], each["amount"]) for each in holders] == [("NORD", 48)]
    assert shipped.toll("recall", "ACME", "B-1").out == before  # toll's own stays


def test_an_actual_of_an_open_batch_is_voided_and_its_lines_stay(shipped):
    assert shipped.run("receive", "ACME", "K8", "SALT", "S-2", "BAY2", 900, 103).out == "accepted\n"
    with shipped.serve() as server:
        assert server.ask("ACME", "POST", "/lots/S-2/release")[0] == 200
    done = shipped.run("correct", "ACME", "K2", "--lot", "S-2", "--sublot", "BAY2", *REASON)
    assert done.status == 0 and done.out.startswith("void ACME K2: accepted\nactual CORR-")
    assert "B-1 " not in shipped.toll("recall", "ACME", "S-1").out.partition("S-1")[2]
    for lot in ("S-1", "S-2"):
        assert " B-1 " in shipped.run("recall", "ACME", lot).out
    assert "recorded by mistake: consumed K2 is corrected" in shipped.run("note", "list").out


@pytest.mark.parametrize("words, why", [
    (["K7", *REASON], "nothing is given that was meant"), (["K7", "--amount", "48"], "--reason is empty"), (["K7", "--amount", "48", "--reason", " "], "is empty"),
    (["K9", "--amount", "48", *REASON], "there is no movement K9"), (["K7", "--amount", "480", *REASON], "nothing is corrected"), (["K7", "--to", "NORD", *REASON], "nothing is corrected"),
    (["K7", "--to", "CHEM", *REASON], "no customer"), (["K1", "--to", "NORD", *REASON], "is no shipment"), (["K7", "--lot", "S-1", *REASON], "is of SALT, and ACME B-1 of BRINE"),
    (["K7", "--lot", "B-9", *REASON], "there is no lot ACME B-9"), (["K7", "--amount", "5000", *REASON], "it isn't sure where they lie"), (["K6", "--lot", "S-1", *REASON], "is a split"),
    (["K7", "--sign", "0123456789abcdef"], "there is no correction"), (["K7", "--sign", "0123456789abcdef", "--amount", "48"], "and nothing else"),
    (["K7", "--amount", "48", "--reason", "a\nb"], ""), (["K7", "--amount", "48", "--reason", "x" * 201], ""), (["K7", "--amount", "-1", *REASON], ""), (["K7", "--lot", "../x", *REASON], "")])
def test_what_can_t_be_meant_is_refused_and_nothing_is_done(shipped, words, why):
    before, lines = shipped.content(), shipped.lines()
    done = shipped.run("correct", "ACME", *words)
    assert done.status in (1, 2) and is_told(done, done.status) and why in done.err, done
    assert shipped.content() == before and shipped.lines() == lines


def test_a_correction_isn_t_corrected_or_withdrawn_but_followed(shipped):
    done = shipped.run("correct", "ACME", "K7", "--amount", 48, *REASON)
    key, name = done.out.split()[2], done.out.split()[-1]
    again = shipped.run("correct", "ACME", key, "--amount", 5, *REASON)
    assert again.status == 1 and f"{key} of ACME is itself a correction of K7 of ACME" in again.err
    withdrawn = shipped.run("note", "withdraw", name, "--reason", "no")
    assert withdrawn.status == 1 and "is of a correction, which nobody withdraws" in withdrawn.err
    assert shipped.run("correct", "ACME", "K7", "--amount", 480, *REASON).status == 0
    assert json.loads(shipped.run("show", "lot", "ACME", "B-1", "--json").out)["who has it"][0]["amount"] == 480


def test_nothing_that_a_correction_notes_is_withdrawn(shipped):
    """Neither what says that a movement sets the stock right, nor a link by which no recall loses a line, nor who got it."""
    assert shipped.run("receive", "ACME", "K8", "SALT", "S-2", "BAY2", 900, 103).out == "accepted\n"
    with shipped.serve() as server:
        assert server.ask("ACME", "POST", "/lots/S-2/release")[0] == 200
    assert shipped.run("party", "add", "ACME", "SUED", "--name", "Sued", "--role", "customer").status == 0
    known = {note["note"] for note in json.loads(shipped.run("note", "list", "--json").out)}
    assert shipped.run("correct", "ACME", "K7", "--amount", 48, "--to", "SUED", *REASON).status == 0
    assert shipped.run("correct", "ACME", "K2", "--lot", "S-2", "--sublot", "BAY2", *REASON).status == 0
    notes = [note for note in json.loads(shipped.run("note", "list", "--json").out) if note["note"] not in known]
    recalls, statement = shipped.run("recall", "ACME", "S-1").out, shipped.run("years", "statement", "ACME", "--csv").out
    assert {note["what"].split(" ")[0] for note in notes} >= {"lot", "movement", "K7", "K2"} and len(notes) >= 7, notes
    for note in notes:
        done = shipped.run("note", "withdraw", note["note"], "--reason", "no")
        assert done.status == 1 and "is of a correction, which nobody withdraws" in done.err, (note, done)
    assert shipped.run("recall", "ACME", "S-1").out == recalls and shipped.run("years", "statement", "ACME", "--csv").out == statement
    own = shipped.run("link", "ACME", "S-2", "S-1", "--why", "rework").out.split()[-1]
    assert shipped.run("note", "withdraw", own, "--reason", "no").status == 0


def test_another_person_signs(shipped):
    with_two(shipped)
    before = shipped.content()
    done = by(shipped, "anna", "correct", "ACME", "K7", "--amount", 48, *REASON)
    name = done.out.split()[-1]
    assert done.status == 0 and f"hilpoven correct ACME K7 --sign {name}" in done.err and shipped.content() == before
    assert by(shipped, "anna", "correct", "ACME", "K7", "--amount", 48, *REASON).out.split()[-1] == name  # the same again
    own = by(shipped, "anna", "correct", "ACME", "K7", "--sign", name)
    assert own.status == 1 and "anna asked for this correction" in own.err and shipped.content() == before
    other = by(shipped, "bert", "correct", "ACME", "K1", "--sign", name)
    assert other.status == 1 and "is no correction of K1" in other.err and shipped.content() == before
    assert by(shipped, "bert", "correct", "ACME", "K7", "--sign", name).status == 0
    assert "by anna, signed by bert" in shipped.run("recall", "ACME", "B-1").out
    twice = by(shipped, "carl", "correct", "ACME", "K7", "--sign", name)
    assert twice.status == 1 and "is signed already, by bert" in twice.err


def test_what_was_asked_for_and_withdrawn_isn_t_signed(shipped):
    with_two(shipped)
    name = by(shipped, "anna", "correct", "ACME", "K7", "--amount", 48, *REASON).out.split()[-1]
    assert by(shipped, "anna", "note", "withdraw", name, "--reason", "no").status == 0
    done = by(shipped, "bert", "correct", "ACME", "K7", "--sign", name)
    assert done.status == 1 and "doesn't stand: withdrawn" in done.err


def test_an_owner_s_paper_says_when_and_not_by_whom(shipped):
    assert by(shipped, "annalogin", "correct", "ACME", "K7", "--amount", 48, "--to", "NORD", *REASON, "--day", 104).status == 0
    target = shipped.folder / "statement"
    assert shipped.run("papers", "statement", "ACME", "--from", 0, "--to", 9_999_999, target, "--no-pdf").status == 0
    texts = "".join(path.read_text() for path in target.iterdir())
    assert "recorded by mistake, corrected on 104" in texts and "annalogin" not in texts
    assert shipped.run("papers", "recall", "ACME", "S-1", shipped.folder / "recall", "--no-pdf").status == 0
    owners = "".join(path.read_text() for path in (shipped.folder / "recall" / "owners").rglob("*.*"))
    assert "recorded by mistake, corrected on 104" in owners and "annalogin" not in owners
    assert "corrected on 104 by annalogin" in (shipped.folder / "recall" / "plant" / "recall.html").read_text()


def test_a_register_that_lacks_the_table_of_corrections_is_made_anew(shipped):
    """That of a version before."""
    assert shipped.run("correct", "ACME", "K7", "--amount", 48, *REASON).status == 0
    with contextlib.closing(sqlite3.connect(f"{shipped.db}.register")) as base, base:
        base.execute("DROP TABLE corrected_note")
    done = shipped.run("recall", "ACME", "B-1")
    assert "meant 48 of B-1" in done.out and "register" not in done.err
    with contextlib.closing(sqlite3.connect(f"{shipped.db}.register")) as base:
        assert base.execute("SELECT amount_meant FROM corrected_note").fetchall() == [(48,)]
