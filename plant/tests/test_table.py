"""The table of subcommands: what does each takes its values, and what lists say of it is a sentence."""
import inspect
from importlib import import_module

import pytest
from hilpoven.cli.table import ENTRIES, read
from hilpoven.core.grammar import LINES

OWN = [entry for entry in ENTRIES if entry.module and not entry.is_made and (entry.group or entry.name not in LINES)]


@pytest.mark.parametrize("entry", OWN, ids=lambda entry: " ".join([*entry.group, entry.name]))
def test_what_does_a_subcommand_takes_its_values(entry):
    function = getattr(import_module(f"hilpoven.cli.{entry.module}"), entry.function)
    inspect.signature(function).bind(None, **{value.name: None for value in entry.values})


@pytest.mark.parametrize("entry", ENTRIES, ids=lambda entry: " ".join([*entry.group, entry.name]))
def test_each_entry_says_what_it_is_for(entry):
    assert entry.about and "\n" not in entry.about and entry.examples


def test_an_entry_is_read_as_it_is_written():
    (entry,) = read("""
[Ask]
note show OWNER KEY_..=keys LOT:name [FOLDER] : noting.show_note
  --until DAY =last !  All of them until this day,
      and that day itself.
  --csv =form ~csv  As CSV.
  --of NAME N :word,1..9 ~x *  One of
      several.
  = shows notes
  Shows notes. All of them.

  Or some.
  > note show ACME K1
""")
    assert (entry.group, entry.name, entry.section, entry.module, entry.function) == (["note"], "show", "Ask", "noting", "show_note")
    assert [tuple(value) for value in entry.values] == [
        ("owner", "OWNER", "word", "", "", None, False, False), ("keys", "KEY ..", "word", "", "", None, False, False),
        ("lot", "LOT", "name", "", "", None, False, False), ("folder", "[FOLDER]", "path", "", "", None, False, False),
        ("last", "DAY", "day", "--until", "All of them until this day, and that day itself.", None, True, False),
        ("form", "", "", "--csv", "As CSV.", "csv", False, False), ("of", "NAME N", "word,1..9", "--of", "One of several.", "x", False, True)]
    assert (entry.about, entry.help) == ("shows notes", "Shows notes. All of them.\n\nOr some.\n\nExample: hilpoven note show ACME K1")
