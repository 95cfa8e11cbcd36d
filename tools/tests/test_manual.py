"""docs/toll.1: the commands of the code, the faults of the pages, and no mistake that mandoc finds."""
import re
import subprocess

import plant_words
from conftest import ROOT

MANUAL = ROOT / "docs" / "toll.1"
TEXT = MANUAL.read_text()


def spelled(value: str) -> str:
    return value.upper().replace("-", "_")


def test_it_has_each_command_with_its_values() -> None:
    values_of = {name: values.split() for name, values in re.findall(r"^\.It Cm ([a-z-]+) Ar (.*)$", TEXT, re.M)}
    code = plant_words.lines_of_code().items()
    assert {name: [spelled(value) for value in values] for name, values in values_of.items()} == {
        name: [spelled(value) for value in values] for name, values in code
    }


def test_it_has_the_words_of_each_value() -> None:
    plain = re.sub(r"^\.\w+ ", "", TEXT, flags=re.M)
    for words in plant_words.choices_of_code().values():
        assert [word for word in words if not re.search(rf"(?<![\w-]){word}(?![\w-])", plain)] == []


def test_it_has_the_faults_that_a_command_may_be_told() -> None:
    page = (ROOT / "docs" / "operations.md").read_text().split("## Faults, and what to do")[1]
    rows = re.findall(r"^- `(\w+)`: (.*)$", page, re.M)
    faults = {name for name, meaning in rows if not meaning.startswith(("server only", "an earlier fault"))}
    assert len(rows) == 13 and set(re.findall(r"^\.It fault (\w+)$", TEXT, re.M)) == faults


def test_it_has_the_exit_statuses() -> None:
    part = TEXT.split(".Sh EXIT STATUS")[1].split(".Sh ")[0]
    assert re.findall(r"^\.It (\d)$", part, re.M) == ["0", "1", "2", "3"]


def test_mandoc_finds_no_mistake() -> None:
    done = subprocess.run(["mandoc", "-T", "lint", "-W", "warning", MANUAL], capture_output=True, text=True)
    assert (done.returncode, done.stdout) == (0, "")


def test_its_messages_are_told_in_the_code() -> None:
    code = "\n".join(source.read_text() for source in (ROOT / "crates").glob("*/src/**/*.rt"))
    for words in re.findall(r"^\.Sq (accepted|repeated|listening|refused)\b", TEXT, re.M):
        assert words in code
    for name in re.findall(r"^\.It fault (\w+)$", TEXT, re.M):
        assert name in code
