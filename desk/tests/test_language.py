"""Texts in two languages: each has its German one, with the same places; days and numbers are in the reader's form."""
import re
from datetime import date

import pytest
from babel.messages.extract import extract_from_dir
from babel.messages.pofile import read_po
from conftest import ROOT
from hilpoven_desk import language

SOURCES = ROOT / "desk" / "src" / "hilpoven_desk"
METHODS = [("**.py", "python"), ("**.html", "jinja2")]
OPTIONS = {"**.html": {"trim_blocks": "true", "lstrip_blocks": "true", "newstyle_gettext": "true"}}
KEYWORDS = {"_": None, "ngettext": (1, 2), "text": None}
PLACES = re.compile(r"%\((\w+)\)s|\{(\w+)\}")


def texts() -> set[str]:
    """The texts of pages, as they stand in the sources."""
    extracted = extract_from_dir(str(SOURCES), METHODS, OPTIONS, KEYWORDS)
    return {message if isinstance(message, str) else message[0] for _, _, message, *_ in extracted}


def german() -> dict:
    """The German catalog, by the English texts."""
    with open(SOURCES / "locale" / "de.po", "rb") as lines:
        return {message.id if isinstance(message.id, str) else message.id[0]: message for message in read_po(lines, locale="de") if message.id}


def test_each_text_has_a_german_one():
    assert len(texts()) > 150 and texts() <= set(german())


def test_each_german_text_has_the_places_of_the_english_one():
    for name, message in german().items():
        forms = message.string if isinstance(message.string, tuple) else (message.string,)
        for form in forms:
            assert form and set(PLACES.findall(form)) <= set(PLACES.findall(name)), name


def test_what_hilpoven_says_is_said_in_german_where_a_phrase_is_known():
    reader = language.Reader("de")
    assert reader.translated("there is no lot ACME X-1") == ("Es gibt keine Charge ACME X-1", "de")
    assert reader.translated("`5000` is more than BAY1 holds: 4,700") == ("`5000` ist mehr, als auf BAY1 liegt: 4,700", "de")
    assert reader.translated("something that nobody foresaw") == ("something that nobody foresaw", "en")
    assert language.Reader("en").translated("there is no lot ACME X-1") == ("there is no lot ACME X-1", "en")


@pytest.mark.parametrize("name, typed, word", [
    ("de", "30.11.2026", "261130"), ("de", "1.2.26", "260201"), ("de", "5.6.", "260605"), ("de", "2026-11-30", "261130"), ("de", "31.2.2026", "31.2.2026"),
    ("en", "2026-11-30", "261130"), ("en", "261130", "261130"), ("en", "101", "101"), ("en", "tomorrow", "tomorrow"), ("de", "1.1.1999", "1.1.1999"), ("de", "", "")])
def test_days_are_typed_in_the_readers_form(name, typed, word):
    assert language.Reader(name).day_word(typed, date(2026, 7, 1)) == word


@pytest.mark.parametrize("name, typed, word", [("de", "7,02", "7.02"), ("de", "1180", "1180"), ("de", "<0,5", "<0.5"), ("en", "7.02", "7.02"), ("en", "1,180", "1,180")])
def test_values_are_typed_in_the_readers_form(name, typed, word):
    assert language.Reader(name).value_word(typed) == word


def test_a_value_that_may_be_another_one_is_none():
    from hilpoven.core.forms import VALUE

    assert all(VALUE.fault(language.Reader("de").value_word(word)) for word in ("1.180", "1.180,5"))


def test_days_and_numbers_are_shown_in_the_readers_form():
    english, reader = language.Reader("en"), language.Reader("de")
    assert (english.day(261130), reader.day(261130), reader.day(101), reader.day(None)) == ("30 Nov 2026", "30.11.2026", "101", "")
    assert (english.number(12_345), reader.number(12_345)) == ("12,345", "12.345")


def test_a_browser_chooses_its_language(browse):
    anna = browse("anna")
    anna.get("/", headers={"Accept-Language": "de-DE,de;q=0.9"})
    assert "Wartet auf Freigabe" in anna.text and 'lang="de"' in anna.page
    anna.send("/language", language="de", to="/recall")
    assert "Rückruf" in anna.text
    anna.get("/receive?owner=ACME&material=SALT")
    anna.fill("/receive", material="SALT", lot="S-9", sublot="BAY1", amount="5", day="31.2.2026")
    assert "Noch nichts erfasst" in anna.text
    anna.send("/language", language="xx", to="//evil.example")
    assert "Wartet auf Freigabe" in anna.text
