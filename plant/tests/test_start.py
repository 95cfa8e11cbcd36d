"""A command imports what it needs, so that it starts quickly."""
import subprocess
import sys

import pytest
from conftest import ROOT

HEAVY = {"bz2", "csv", "difflib", "email", "gzip", "html", "http", "http.client", "jinja2", "lzma", "odf", "openpyxl", "pathlib", "platform", "random",
         "rich", "secrets", "shutil", "sqlite3", "ssl", "tempfile", "tomllib", "urllib.parse", "weasyprint", "xml", "zipfile", "zlib"}
LOADED = "import sys, atexit; atexit.register(lambda: print('\\n', *sys.modules, file=sys.stderr)); sys.argv[0] = 'hilpoven'; from hilpoven.cli import main; main()"
OWN = {"hilpoven", "hilpoven.cli", "hilpoven.cli.caller", "hilpoven.cli.building", "hilpoven.cli.output", "hilpoven.cli.table", "hilpoven.cli.words", "hilpoven.core", "hilpoven.core.context", "hilpoven.core.days", "hilpoven.core.failure",
       "hilpoven.core.files", "hilpoven.core.forms", "hilpoven.core.grammar", "hilpoven.core.gs1", "hilpoven.core.journal", "hilpoven.core.journal.log", "hilpoven.core.lock", "hilpoven.core.office", "hilpoven.core.paths",
       "hilpoven.core.rights", "hilpoven.core.roles", "hilpoven.core.scanned", "hilpoven.core.scratch", "hilpoven.core.settings", "hilpoven.core.table", "hilpoven.core.timeline"}
QUESTION = OWN | {"hilpoven.cli.lines", "hilpoven.record", "hilpoven.record.asking", "hilpoven.record.giving", "hilpoven.core.meanings", "hilpoven.core.office",
                  "hilpoven.model", "hilpoven.model.kinds"}
NOTED = QUESTION | {"hilpoven.cli.building"}
TABLES = {"bz2", "csv", "lzma", "pathlib", "random", "shutil", "sqlite3", "tempfile", "urllib.parse", "zlib"}  # to read which days the office has
HELP = {"bz2", "lzma", "shutil", "zlib"}  # click asks shutil how wide the terminal is
LISTING = OWN | {"hilpoven.cli.listing", "hilpoven.core.snapshot", "hilpoven.model", "hilpoven.model.schema",
                 "hilpoven.report", "hilpoven.report.columns", "hilpoven.report.lists"}


def loaded(plant, *words):
    """The modules that a command has imported when it ends."""
    started = [sys.executable, "-Bc", LOADED, "--db", str(plant.db), *words]
    done = subprocess.run(started, capture_output=True, text=True, env={"PYTHONPATH": str(ROOT / "plant" / "src"), "TOLL": plant.program, "PATH": "/usr/bin:/bin"})
    assert done.returncode == 0, done.stderr
    return set(done.stderr.splitlines()[-1].split())


@pytest.mark.parametrize("words, own, heavy", [
    (["--version"], OWN, set()), (["--help"], OWN, HELP), (["papers", "--help"], OWN, HELP),
    (["papers", "recall", "--help"], OWN | {"hilpoven.cli.building"}, HELP), (["stock", "ACME"], QUESTION, set()),
    (["unit-add", "NEW"], QUESTION, set()),
    (["receive", "ACME", "K99", "SALT", "S-99", "BAY1", "5", "--today"], NOTED, set()),
    (["receive", "ACME", "K99", "SALT", "S-99", "BAY1", "5", "102"], None, TABLES),
    (["list", "units"], LISTING, {"sqlite3"}), (["list", "lots"], None, {"sqlite3"}),
    (["show", "lot", "ACME", "S-1"], None, {"sqlite3"})])
def test_a_command_imports_what_it_needs_alone(at_work, words, own, heavy):
    modules = loaded(at_work, *words)
    assert modules & HEAVY <= heavy, words
    assert own is None or {module for module in modules if module.split(".")[0] == "hilpoven"} == own, words


def test_python_runs_the_package(at_work):
    words = [sys.executable, "-Bm", "hilpoven", "--db", at_work.db, "stock", "BOLT"]
    done = subprocess.run(words, capture_output=True, text=True, env={"PYTHONPATH": str(ROOT / "plant" / "src"), "TOLL": at_work.program, "PATH": "/usr/bin:/bin"})
    assert (done.returncode, done.stdout, done.stderr) == (0, at_work.toll("stock", "BOLT").out, "")


def test_click_is_for_the_command_line_alone():
    package = ROOT / "plant" / "src" / "hilpoven"
    assert {path.parent.name for path in package.rglob("*.py") if "import click" in path.read_text()} == {"cli"}
