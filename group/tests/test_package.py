"""The package stands beside the plant's command: it imports that, and nothing of that imports it."""
import re
import subprocess
import sys

import hilpoven_group
from group_of_plants import ROOT
from hilpoven.cli.table import PACKAGED, read
from hilpoven_group import questions, table, tables

SCRIPT = "from hilpoven.cli import main; import sys; sys.argv = ['hilpoven', *sys.argv[1:]]; main()"


def test_nothing_of_the_plants_command_imports_it():
    named = {path.relative_to(ROOT).as_posix() for path in (ROOT / "plant" / "src").rglob("*.py") if "hilpoven_group" in path.read_text()}
    assert named == {"plant/src/hilpoven/cli/table.py"}


def test_without_it_the_plants_command_says_which_package_has_the_word():
    for word in ("publish", "group"):
        done = subprocess.run([sys.executable, "-c", SCRIPT, word], capture_output=True, text=True, env={"PYTHONPATH": f"{ROOT}/plant/src"})
        assert (done.returncode, done.stdout) == (2, "")
        assert done.stderr == f"hilpoven: {word} is a command of the package hilpoven-group, which isn't installed\n"


def test_its_words_are_those_that_the_plants_command_knows():
    own = {entry.name: entry.about for entry in read(table.TABLE, "hilpoven_group") if not entry.group}
    assert own == {word: about for word, (package, about) in PACKAGED.items() if package == "hilpoven_group"}
    assert hilpoven_group.VERSION


def test_each_subcommand_has_its_help():
    for words in (["publish", "--help"], ["publish", "verify", "--help"], ["group", "--help"], ["group", "office", "add", "--help"], ["group", "export", "--help"]):
        done = subprocess.run([sys.executable, "-c", SCRIPT, *words], capture_output=True, text=True, env={"PYTHONPATH": f"{ROOT}/plant/src:{ROOT}/group/src"})
        assert done.returncode == 0 and "Example: hilpoven" in done.stdout, done.stderr


def test_columns_are_named_and_no_key_is_read():
    """A star would bring the keys of owners along."""
    for path in (ROOT / "group" / "src").rglob("*"):
        if path.suffix in (".py", ".sql"):
            text = path.read_text()
            assert not re.search(r"SELECT \*|\bokey\b|SELECT \w+\.\*", text), path
    assert all("*" not in sql for sql in questions.VIEWS.values() if "count(*)" not in sql)
    assert {table.name for table in tables.TABLES.values()} == {"materials", "lots", "moves", "voids", "results", "notes"}
