"""Subcommands of packages of their own: they are there where their package is, and otherwise its name is told."""
import sys

import pytest
from conftest import called
from hilpoven import cli
from hilpoven.cli import hilpoven
from hilpoven.core import roles

TABLE = """TABLE = '''
[Look after the office]

greet : greeting
  --loudly =is_loud  In capitals.
  Greets somebody.
  > greet --loudly

greet all : greeting.everybody
  Greets everybody.
  > greet all
'''
"""
GREETING = """
import click

def greet(context, is_loud):
    click.echo("HELLO" if is_loud else "hello")

def everybody(context):
    click.echo(f"hello all in {context.file}")
"""


@pytest.fixture
def with_package(monkeypatch, tmp_path):
    """A package with a subcommand `greet`, and one that isn't installed with `sing`."""
    folder = tmp_path / "polite_package"
    folder.mkdir()
    for name, text in (("__init__", ""), ("table", TABLE), ("greeting", GREETING)):
        (folder / f"{name}.py").write_text(text)
    monkeypatch.syspath_prepend(tmp_path)
    for word, package in (("greet", "polite_package"), ("sing", "absent_package")):
        monkeypatch.setitem(cli.PACKAGED, word, (package, word))
        monkeypatch.setitem(hilpoven.commands, word, cli.packaged_command(word))
    yield
    for name in [name for name in sys.modules if name.startswith("polite_package")]:
        del sys.modules[name]


def test_a_package_has_subcommands_of_its_own(with_package, at_work):
    assert at_work.run("greet", "all").out == f"hello all in {at_work.db}\n"
    assert at_work.run("greet", "--loudly").out == "HELLO\n"
    assert called("greet", "--help").out.startswith("Usage: hilpoven greet ")


def test_the_package_of_an_absent_subcommand_is_told_in_a_line(with_package):
    for words in (["sing"], ["sing", "a", "--loudly"], ["sing", "../x"]):
        result = called(*words)
        assert (result.status, result.out, result.err) == (2, "", "hilpoven: sing is a command of the package absent-package, which isn't installed\n")


def test_lists_have_it_whether_its_package_is_there_or_not():
    assert set(cli.PACKAGED) <= set(hilpoven.makers)
    assert not set(cli.PACKAGED) & set(roles.ROLES)
