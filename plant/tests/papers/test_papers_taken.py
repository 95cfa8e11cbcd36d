"""Papers that owners take by themselves, of offices that are filled by chance: no byte is another owner's, and of another's lot
there is none."""
import os
import subprocess
import sys
import tempfile
import types

import figures
import pytest
from conftest import ROOT
from looks import Papers
from offices import HOUSE, Filled

from hilpoven.cli import main
from hilpoven.core import settings as site
from hilpoven.core.context import Context
from hilpoven.core.rights import Person

pytest.importorskip("segno")
SAMPLE, MOST = 1, 300


@pytest.fixture
def taking(monkeypatch):
    """The part of the package hilpoven-persons that makes papers."""
    monkeypatch.syspath_prepend(str(ROOT / "persons" / "src"))
    taking = pytest.importorskip("hilpoven_persons.taking")
    monkeypatch.setattr(taking, "PATIENCE", 1_500)  # on a machine with much to do
    return taking


def forked(words, **_):
    """What comes of the command, as `subprocess.run` has it, in a fork of this process, which has read WeasyPrint already: that takes half
    of a small paper's time."""
    with tempfile.TemporaryFile() as out, tempfile.TemporaryFile() as err:
        if not (child := os.fork()):
            status = 70
            try:
                os.dup2(out.fileno(), 1), os.dup2(err.fileno(), 2)
                sys.stdout, sys.stderr = (open(number, "w", closefd=False) for number in (1, 2))
                sys.argv = ["hilpoven", *words[3:]]
                main()
            except SystemExit as ended:
                status = ended.code or 0
            finally:
                sys.stdout.flush(), sys.stderr.flush()
                os._exit(status)
        _, ended = os.waitpid(child, 0)
        out.seek(0), err.seek(0)
        return subprocess.CompletedProcess(words, os.waitstatus_to_exitcode(ended), out.read(), err.read())


def paths_of(filled, owner):
    """The papers that an owner may ask for: of its lots, batches and days, and one of another's lot."""
    chance = filled.chance
    own = [f"/papers/certificate/{lot}" for lot in chance.sample(sorted(filled.lots[owner]), min(1, len(filled.lots[owner])))]
    own += [f"/papers/batch/{order}/1" for order in chance.sample(filled.batches[owner], min(1, len(filled.batches[owner])))]
    return [*own, "/papers/statement/261101/261130"]


def look(taking, program, folder, seed):
    """Takes papers of an office of this seed; how many."""
    filled = Filled(program, folder, seed)
    papers, count = Papers(filled, prints=True), 0
    context = Context(site.Settings(toll=program), str(filled.plant.db), person=Person(os.getuid()))
    for owner in filled.owners[: 2 if seed < SAMPLE else None]:
        for path in paths_of(filled, owner):
            content = taking.made_for(context, owner, taking.paper_of(path))
            assert content and content.startswith(b"%PDF-"), path
            (file := folder / f"taken-{owner}.pdf").write_bytes(content)
            strangers = papers.foreign(owner) & set(figures.text_of_pdf(file).replace("/", " ").split())
            assert not strangers, (path, strangers)
            assert not [word for word in papers.foreign(owner) if word.encode() in content], path
            assert "office.db" not in figures.text_of_pdf(file)
            count += 1
        others = [(other, lot) for other in (*filled.owners, HOUSE) if other != owner for lot in filled.lots[other] if lot not in filled.lots[owner]]
        for _, lot in others[:1]:
            assert taking.made_for(context, owner, taking.paper_of(f"/papers/certificate/{lot}")) is None
    return count


@pytest.mark.parametrize("seed", range(SAMPLE))
def test_papers_that_an_owner_takes_have_no_byte_of_others(taking, program, tmp_path, seed):
    assert look(taking, program, tmp_path / "office", seed) >= 2


@pytest.mark.long
@pytest.mark.parametrize("seed", range(SAMPLE, MOST))
def test_papers_of_300_offices_have_no_byte_of_others(taking, program, tmp_path, seed, monkeypatch):
    pytest.importorskip("weasyprint")
    monkeypatch.setattr(taking, "subprocess", types.SimpleNamespace(**vars(subprocess) | {"run": forked}))
    assert look(taking, program, tmp_path / "office", seed) >= 1
