"""What the command knows of the office is what the pages say."""
import re

import hilpoven
import pytest
from conftest import ROOT
from hilpoven.core import forms, grammar, meanings
from hilpoven.model import gauge, schema
from hilpoven.report.lists import LISTINGS

COMMANDS = (ROOT / "docs" / "commands.md").read_text()
TABLES = (ROOT / "docs" / "tables.md").read_text()


def test_the_lines_are_those_of_the_page():
    lines = re.findall(r"^    ([a-z-]+(?: [A-Z-]+)+)$", COMMANDS, re.M)
    assert lines == [line.usage() for line in grammar.LINES.values()]


def test_the_words_of_values_are_those_of_the_page():
    for name, form in (("USE", forms.USE), ("WAY", forms.WAY), ("COMMAND", forms.COMMAND)):
        row = re.search(rf"^- {name}: (.*)$", COMMANDS, re.M)[1]
        assert tuple(re.findall(r"`(\w+)`", row)) == form.choices


def test_each_refusal_means_what_the_page_says():
    rows = re.findall(r"^- (\d+) (\w+)(?: \(\d+\))?: (.*)$", COMMANDS, re.M)
    assert len(rows) == 42
    assert [(int(number), word, means) for number, word, means in rows] == [(refusal["number"], word, refusal["means"]) for word, refusal in meanings.table("refusals").items()]


def test_each_limit_is_that_of_the_page():
    rows = dict(re.findall(r"^- (.+?): ([\d,]+)$", COMMANDS.split("## Limits")[1], re.M))
    limits = {kind.split()[0]: int(most.replace(",", "")) for kind, most in rows.items() if not kind.startswith(("owners", "units", "actuals"))}
    assert limits == {kind: most for kind, (most, _) in gauge.OF_OWNER.items()}
    assert [int(rows[head]) for head in ("owners besides HOUSE", "units", "actuals of a batch")] == [gauge.OWNERS, gauge.UNITS, gauge.ACTUALS]


@pytest.mark.parametrize("column, listing, shown", [("disposition", "lots", "disposition"), ("state", "batches", "state"), ("kind", "moves", "kind"), ("role", "requirements", "use")])
def test_numbers_stand_for_the_words_of_the_page(column, listing, shown):
    row = re.search(rf"^- {column}: (.*)$", TABLES, re.M)[1]
    words = re.findall(r"WHEN (\d+) THEN '(\w+)'", LISTINGS[listing].columns[shown])
    assert re.findall(r"(\d+) (\w+)", row) == words and words


def test_what_can_be_done_in_a_state_is_what_the_page_says():
    table = COMMANDS.split("| state | done |")[1].split("\n\n")[0].splitlines()
    heads = ["done", *re.findall(r"\w+", table[0])]
    page = {cells[0]: {head for head, cell in zip(heads, cells[1:]) if cell} for cells in ([part.strip() for part in row.split("|")[1:-1]] for row in table[2:])}
    assert len(page) == 12 and page == {state.word: set(commands) for state, commands in schema.FOLLOWING.items()}
    closable = re.search(r"BadState unless it is (.*)\.", COMMANDS)[1]
    assert re.findall(r"idle|complete|stopped|aborted|\w+ed\b", closable) == ["idle", "complete", "stopped", "aborted"] == [
        state.word for state in (schema.State.IDLE, schema.State.COMPLETE, schema.State.STOPPED, schema.State.ABORTED) if state in schema.CLOSABLE]
    assert len(schema.CLOSABLE) == 4


def test_each_advice_names_commands_that_are_there():
    from hilpoven.cli import hilpoven as group

    for kind in ("refusals", "faults"):
        for word, meaning in meanings.table(kind).items():
            for advice in re.findall(r"`hilpoven ([^`]*)`", meaning["look"]):
                names = advice.split()
                command = group.commands[names[0]]
                if hasattr(command, "commands"):
                    assert names[1] in command.commands, (word, advice)
                    command = command.commands[names[1]]
                known = {option for parameter in command.params for option in parameter.opts}
                assert set(re.findall(r"--[a-z-]+", advice)) <= known, (word, advice)


def commands_of(group, names=()):
    """All commands below a group, each with the words that call it."""
    for name, command in group.commands.items():
        yield (*names, name), command
        if hasattr(command, "commands"):
            yield from commands_of(command, (*names, name))


def test_each_command_has_an_example_of_itself():
    from hilpoven.cli import hilpoven as group

    for names, command in commands_of(group):
        example = re.search(r"Example: hilpoven ([^\n]*)", command.help)
        assert example and example[1].split()[:len(names)] == list(names), names
        assert command.get_short_help_str(), names


def test_the_clerks_page_says_of_each_command_what_its_mistake_can_still_be():
    part = (ROOT / "docs" / "hilpoven.md").read_text().split("## I recorded it wrongly")[1].split("\n## ")[0]
    first = " ".join(re.findall(r"^- (.+?): ", part, re.M))
    assert {line.name for line in grammar.LINES.values() if not line.is_question} <= set(re.findall(r"`([a-z-]+)`", first))


def test_the_version_is_the_newest_of_the_changes():
    assert re.search(r"^## (\S+)$", (ROOT / "CHANGELOG.md").read_text(), re.M)[1] == hilpoven.VERSION


def test_each_value_in_an_advice_is_one_of_a_line():
    for refusal in meanings.table("refusals").values():
        assert set(re.findall(r"\{([A-Z-]+)\}", refusal["look"])) <= set(grammar.FORMS)


def test_every_example_of_help_is_a_command():
    from hilpoven.cli import hilpoven as group

    for name, line in grammar.LINES.items():
        words = line.example.split()
        assert words[0] == name and not grammar.faults(line, words[1:]), line.example
        assert line.example in group.commands[name].help
    assert set(LISTINGS) >= {"owners", "units", "materials", "tests", "recipes", "orders", "batches", "lots", "sublots", "moves", "results", "voids"}
