"""Whatever words a command is given: no traceback, a status of the documented ones, and no control character in what it prints."""
import contextlib
import os
import re
import sqlite3

import click
import hypothesis
import pytest
from click.testing import CliRunner
from conftest import Plant, copied
from hilpoven.cli import hilpoven
from hypothesis import strategies as any_of

STATUSES = {0, 1, 2, 3}
UNPRINTABLE = re.compile(r"[\x00-\x09\x0b-\x1f\x7f-\x9f\u061c\u200e\u200f\u2028\u2029\u202a-\u202e\u2066-\u2069\ud800-\udfff]")
LEFT_OUT = {"board", "labels", "papers", "carry-over", "years"}  # which take minutes, and have tests of their own
SOME = hypothesis.settings(max_examples=400)

# Words of this office, and those that a hand, a clipboard or somebody else's file may bring.
KNOWN = ["ACME", "BOLT", "HOUSE", "O-1", "1", "B-1", "S-1", "K1", "KETTLE", "TOTE1", "ACME/B-1/TOTE1", "HOUSE/W-101/TANK", "5", "101", "back", "consumed", "start", "DENSITY", "SALT", "sheet.csv"]
HOSTILE = ["", " ", "-", "--", "---", "1x", "1.0", "-1", "+1", "01", "\u0661", "\uff11", "9" * 30, "1e5", "0x1", "\x1b[2J", "a\nb", "a\r", "\t", "\x7f", "\x85", "\u2028", "\u202e",
           "\udcff", "a\udc80b", "A" * 5_000, "%s", "{OWNER}", "{}", "'", "\"", "'; DROP TABLE lots; --", "*", "?", "$(id)", "`id`", "~", "/", "//", "a/b/c", "-/-/-", "ACME/\x1b[2J/1", ".", "..", "absent/", "sheet.csv/a", "=1+1",
           "help", "NULL", "\u00c4", "\U0001f600", "[/x]", "[red]", "|", "a,b", "1970-01-01", "2026-13-01", "99999-01-01", "0001-01-01", "9999-12-31T23:59:59+23:59", "0 " + "f" * 64, "9" * 4_090 + " " + "f" * 64]
WORD = any_of.one_of(any_of.sampled_from(KNOWN), any_of.sampled_from(HOSTILE), any_of.text(any_of.characters(blacklist_characters="\0", blacklist_categories=["Cs"]), max_size=6))


def commands(group, before=()):
    """The words of each subcommand, with the command."""
    for name, command in sorted(group.commands.items()):
        if isinstance(command, click.Group):
            yield (*before, name), command
            yield from commands(command, (*before, name))
        elif name not in LEFT_OUT:
            yield (*before, name), command


ALL = [named for named in commands(hilpoven) if named[0][0] not in LEFT_OUT]


@any_of.composite
def typed(draw):
    """A subcommand with some of its options and as many words as come."""
    names, command = draw(any_of.sampled_from(ALL))
    words = [*names, *(["--check"] if names == ("follow",) else [])]  # without it, it follows until it is ended
    options = [parameter for parameter in command.params if isinstance(parameter, click.Option)]
    for option in draw(any_of.lists(any_of.sampled_from(options), max_size=3)) if options else []:
        words.append(option.opts[0])
        words += [] if option.is_flag else [draw(WORD)]
    places = [parameter for parameter in command.params if isinstance(parameter, click.Argument)]
    exact = sum(len(place.metavar.split()) if place.nargs == -1 and place.metavar else 1 for place in places)
    count = draw(any_of.one_of(any_of.just(exact), any_of.integers(0, 4)))
    return words + [draw(WORD) for _ in range(count)]


@pytest.fixture(scope="module")
def office(laid, tmp_path_factory):
    """An office in a folder in which the commands run."""
    plant = copied(laid, Plant(laid.program, tmp_path_factory.mktemp("words")))
    (plant.folder / "sheet.csv").write_text("key,owner\nK1,ACME\n")
    return plant


def invoked(plant, words):
    """What the command prints, and its status; the two faults that `main` reports for all commands count as reported."""
    with contextlib.chdir(plant.folder):
        done = CliRunner(mix_stderr=False, env={"TOLL": plant.program}).invoke(hilpoven, ["--db", str(plant.db), "--wait", "0", *words], input="")
    error = done.exception
    if error and not isinstance(error, (SystemExit, OSError, sqlite3.Error)):
        raise error
    output = "" if done.stdout_bytes.startswith(b"PK") else done.stdout_bytes.decode()  # a workbook is no text
    return (3 if isinstance(error, (OSError, sqlite3.Error)) else done.exit_code), output + done.stderr_bytes.decode()


@SOME
@hypothesis.given(typed())
def test_any_words_are_answered(office, words):
    status, text = invoked(office, words)
    assert status in STATUSES and not UNPRINTABLE.search(text), (status, text)
    assert "Traceback" not in text


@pytest.mark.parametrize("name", sorted({named[0][0] for named in ALL}))
@pytest.mark.parametrize("word", ["\udcff", "a\nb", "\x1b[2J", "9" * 30])
def test_each_command_answers_hostile_words_in_all_places(office, name, word):
    for names, command in ALL:
        if names[0] == name and not isinstance(command, click.Group):
            places = [parameter for parameter in command.params if isinstance(parameter, click.Argument)]
            count = sum(len(place.metavar.split()) if place.nargs == -1 and place.metavar else 1 for place in places)
            options = [[parameter.opts[0], word] for parameter in command.params if isinstance(parameter, click.Option) and not parameter.is_flag]
            for option in [[], *options]:
                status, text = invoked(office, [*names, *option, *[word] * count])
                assert status in STATUSES and not UNPRINTABLE.search(text), (names, option, status, text)


def test_the_office_is_as_it_was(office, laid):
    assert os.path.exists(office.db) and office.content().keys() == laid.content().keys()
