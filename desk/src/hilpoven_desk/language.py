"""What a reader reads: texts, days and numbers in a language. A text is named by its English words.

What `hilpoven` says is in English. Where it says one of the phrases of a catalog, it is said in the reader's language;
all else stays as it is, marked as English.
"""
import functools
import gettext
import io
import pathlib
import re
from datetime import date
from typing import Any

from babel.dates import format_date
from babel.messages.mofile import write_mo
from babel.messages.pofile import read_po
from babel.numbers import format_decimal
from hilpoven.core.table import formatted
from hilpoven.core.days import DATED_YEARS, date_of, day_in, day_of

LOCALES = pathlib.Path(__file__).parent / "locale"
LANGUAGES = {"en": "English", "de": "Deutsch"}
DEFAULT = "en"
REGIONS = {"en": "en_GB", "de": "de_DE"}  # whose days and numbers
INPUT_DAYS = {"en": "%Y-%m-%d", "de": "%d.%m.%Y"}  # how a day is written in a field
POINTED = re.compile(r"([0-9]{1,2})\.([0-9]{1,2})\.([0-9]{2}|[0-9]{4})?")
PLACE = re.compile(r"\\{(\w+)\\}")  # in an escaped phrase
GERMAN = str.maketrans(",.", ".,")  # of the signs in a number
AMBIGUOUS = re.compile(r"[0-9]{1,3}\.[0-9]{3}")


@functools.cache
def catalog(language: str) -> gettext.NullTranslations:
    """The texts of a language."""
    path = LOCALES / f"{language}.po"
    if language == DEFAULT or not path.exists():
        return gettext.NullTranslations()
    with open(path, "rb") as lines, io.BytesIO() as compiled:
        write_mo(compiled, read_po(lines, locale=language))
        compiled.seek(0)
        return gettext.GNUTranslations(compiled)


@functools.cache
def phrases(language: str) -> list[tuple[re.Pattern[str], str]]:
    """What `hilpoven` says as patterns, each with its text: those with places in braces, and those without."""
    known = getattr(catalog(language), "_catalog", {})
    pairs = [(name, text) for name, text in known.items() if isinstance(name, str) and name and is_phrase(name)]
    ordered = sorted(pairs, key=lambda pair: -len(PLACE.sub("", re.escape(pair[0]))))
    return [(re.compile(PLACE.sub(r"(?P<\1>.+?)", re.escape(name))), text) for name, text in ordered]


def is_phrase(name: str) -> bool:
    """Whether a text of a catalog is one that `hilpoven` says: those of pages have their places as `%(name)s`."""
    return "%(" not in name


def best(wanted: str, accepted: str | None) -> str:
    """The language that was chosen, or the first that a browser accepts."""
    return wanted if wanted in LANGUAGES else accepted if accepted in LANGUAGES else DEFAULT


class Reader:
    """Somebody who reads a language."""

    def __init__(self, language: str) -> None:
        self.language, self.catalog = language, catalog(language)

    def text(self, name: str, /, **words: Any) -> str:
        """A text of a page."""
        translation = self.catalog.gettext(name)
        return translation % words if words else translation

    def plural(self, one: str, many: str, count: int, /, **words: Any) -> str:
        """A text of a page about so many."""
        return self.catalog.ngettext(one, many, count) % {"count": self.number(count), **words}

    def translated(self, line: str) -> tuple[str, str]:
        """What `hilpoven` says, with the language in which it is."""
        if self.language == DEFAULT:
            return line, DEFAULT
        for pattern, text in phrases(self.language):
            if match := pattern.fullmatch(line):
                return text.format(**match.groupdict()), self.language
        return line, DEFAULT

    def day(self, day: int | None) -> str:
        """A day of the office in the reader's form; a number that is no date stays one."""
        when = date_of(day) if day else None
        return str(day or "") if when is None else format_date(when, "medium", locale=REGIONS[self.language])

    def number(self, number: int) -> str:
        """A whole number in the reader's form."""
        return str(format_decimal(number, locale=REGIONS[self.language]))

    def test_value(self, value: int | None) -> str:
        """A value of a test as it was measured, in the reader's form."""
        shown = formatted(value)
        return shown.translate(GERMAN) if self.language == "de" else shown

    def day_in_field(self, day: int) -> str:
        """A day as it is written in a field."""
        when = date_of(day)
        return str(day) if when is None else when.strftime(INPUT_DAYS[self.language])

    def day_word(self, typed: str, today: date) -> str:
        """The word of a day that was typed: one that stands for a date, or what was typed where it is none."""
        if (day := day_in(typed)) is not None:
            return str(day)
        if match := POINTED.fullmatch(typed):
            number, month, year = match.groups()
            return pointed(int(number), int(month), year or "", today) or typed
        return typed

    def value_word(self, typed: str) -> str:
        """The word of a measured value that was typed. Between thousands and before decimals a language has other
        signs, so one that can be read in two ways stays, and is no value."""
        if self.language != "de" or AMBIGUOUS.fullmatch(typed.lstrip("<>-M ")):
            return typed if self.language != "de" else typed.replace(".", "'")
        return typed.replace(",", ".") if typed.count(",") == 1 and "." not in typed else typed


def pointed(number: int, month: int, year: str, today: date) -> str:
    """The day of a date with points, which has two or four digits of a year, or is of this one; empty if it is none."""
    full = today.year if not year else int(year) if len(year) == 4 else 2000 + int(year)
    try:
        when = date(full, month, number)
    except ValueError:
        return ""
    return str(day_of(when)) if when.year in DATED_YEARS else ""
