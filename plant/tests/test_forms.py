"""What is told of a word is what `toll` thinks of it."""
import pytest
from hilpoven.core import forms
from hypothesis import given, settings, strategies

WORDS = strategies.one_of(
    strategies.text("ABZ019-az_. ,M\u00e9", min_size=1, max_size=18), strategies.text("0123456789", min_size=1, max_size=12),
    strategies.from_regex(r"M?[0-9]{1,11}", fullmatch=True), strategies.sampled_from(["consumed", "Consumed", "back", "start", "help", "999999999", "1000000000",
                                                                                       "1000000001", "0", "M0", "M1000000001", "9999999", "10000000", "50", "51", "99", "100"]))
# For each form a line of words in which one value is of the form, and by which no row is made.
LINES = {
    "NAME": (forms.NAME, ["orders", "{}"]), "MEASURE": (forms.MEASURE, ["material-add", "NOBODY", "M", "{}"]),
    "SECRET": (forms.SECRET, ["owner-add", "HOUSE", "{}"]), "AMOUNT": (forms.AMOUNT, ["scrap", "NOBODY", "K", "L", "S", "{}", "1"]),
    "DAY": (forms.DAY, ["scrap", "NOBODY", "K", "L", "S", "1", "{}"]), "SEGMENT": (forms.SEGMENT, ["recipe-add", "NOBODY", "R", "{}"]),
    "BATCH": (forms.BATCH, ["close", "NOBODY", "O", "{}"]), "VALUE": (forms.VALUE, ["result", "NOBODY", "L", "T", "{}", "1"]),
    "USE": (forms.USE, ["require", "NOBODY", "R", "1", "{}", "S", "M", "1"]), "WAY": (forms.WAY, ["trace", "NOBODY", "L", "{}"]),
    "COMMAND": (forms.COMMAND, ["do", "NOBODY", "O", "1", "{}"]),
}


@pytest.mark.parametrize("name", LINES)
@settings(max_examples=20)
@given(word=WORDS)
def test_a_word_is_a_value_where_toll_reads_it(laid, tmp_path_factory, name, word):
    form, line = LINES[name]
    if word.startswith("-") or word == "help" or not word:
        return
    done = laid.toll(*(word if part == "{}" else part for part in line))
    assert done.out.startswith(("refused 1 ", "refused 2 ")) == bool(form.fault(word)), (word, done, form.fault(word))


def test_a_fault_is_a_sentence_behind_the_value():
    for name, (form, _) in LINES.items():
        for word in ("", "a_b", "1234567890123456789012345678901234567", "1.000", "x" * 40, "-", "é", "\t", "\u00a0", "\x00"):
            fault = form.fault(word)
            assert fault and not fault.endswith(".") and "\n" not in fault and fault[0].islower(), (name, word, fault)


def test_bounds_are_told():
    assert forms.AMOUNT.fault("0") == "is below 1"
    assert forms.AMOUNT.fault("1000000001") == "is above 1,000,000,000"
    assert forms.BATCH.fault("100") == "is above 99"
    assert forms.VALUE.fault("M1000000001") == "is above 1,000,000,000; `M5` is -5"




@pytest.mark.parametrize("text", ["TR-77", "tr-77", "TR-77,", "(TR-77)", "drum 3 of TR-77.", "TR-77/3", "- TR-77 -", "-TR-77-", "TR-77; TR-771", "lot:TR-77"])
def test_a_name_is_found_whatever_stands_beside_it(text):
    assert forms.whole_words("TR-77").search(text)


@pytest.mark.parametrize("text", ["TR-771", "TR-77-B", "X-TR-77", "XTR-77", "TR-77_2", "TR 77", "TR-7", ""])
def test_another_name_that_has_it_is_another(text):
    assert not forms.whole_words("TR-77").search(text)


def test_several_words_are_found_with_any_spaces_between_them():
    assert forms.whole_words("drum  3").search("a (drum 3)") and not forms.whole_words("drum 3").search("drum 33")
