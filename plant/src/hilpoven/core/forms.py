"""What each value of a command may be, and what is told of a word that is none."""
import re
from collections.abc import Callable
from typing import NamedTuple

from .failure import is_visible

MOST_VALUE = 1_000_000_000
MOST_DIGITS = 10
MOST_LETTERS = 200  # of a text
MOST_TOLD = 40  # letters of a word that is none, which are told back
DIGITS = "0123456789"
CAPITALS = "ABCDEFGHIJKLMNOPQRSTUVWXYZ"
SMALL = CAPITALS.lower()
NAME_LETTERS = f"{CAPITALS}{DIGITS}-"


class Form(NamedTuple):
    """The form of a value: what it may be in words, what is wrong with a word, and the words that it is one of, if it
    is."""

    about: str
    fault: Callable[[str], str]
    choices: tuple[str, ...] = ()


def listed(words: list[str] | tuple[str, ...], last: str = "and") -> str:
    """Words as a list in a sentence."""
    return f" {last} ".join([", ".join(words[:-1]), words[-1]] if len(words) > 1 else words)


def quoted(letter: str) -> str:
    """A letter as it is told: what can't be seen has a name."""
    names = {" ": "a blank", "\t": "a tab", "\n": "a line end", "\r": "a carriage return", "\u00a0": "a hard blank"}
    return names.get(letter) or (f"`{letter}`" if is_visible(letter) else f"U+{ord(letter):04X}")


def others(word: str, allowed: str) -> list[str]:
    """The letters of a word that aren't allowed, each once; lower-case ones together."""
    if not word.strip(allowed):
        return []
    strange = list(dict.fromkeys(letter for letter in word if letter not in allowed))
    lower = [letter for letter in strange if letter in SMALL]
    named = ["a lower-case letter" if len(lower) == 1 else "lower-case letters"] if lower else []
    return named + [quoted(letter) for letter in strange if letter not in lower]


def name_fault(word: str) -> str:
    """What is wrong with a name."""
    if not word:
        return "is empty; a name has 1 to 16 of A-Z, 0-9 and -"
    strange = others(word, NAME_LETTERS)
    if strange:
        return f"has {listed(strange)}; A-Z, 0-9 and - are allowed"
    if word[0] == "-":
        return "begins with `-`; a name begins with a letter or a digit"
    if len(word) > 16:
        return f"has {len(word)} letters; a name has at most 16"
    return ""


def measure_fault(word: str) -> str:
    """What is wrong with a measure."""
    strange = [quoted(letter) for letter in dict.fromkeys(word) if letter not in CAPITALS + SMALL]
    if strange:
        return f"has {listed(strange)}; a measure has letters alone, such as kg or liter"
    if not 1 <= len(word) <= 8:
        return f"has {len(word)} letters; a measure has 1 to 8"
    return "is a word that `toll` takes for a call for help" if word == "help" else ""


def secret_fault(word: str) -> str:
    """What is wrong with an owner's key, which is never told itself."""
    if not word.isascii() or not word.isalnum():
        return "has something else than letters and digits"
    return "" if 8 <= len(word) <= 32 else f"has {len(word)} letters; an owner's key has 8 to 32"


def number_fault(least: int, most: int) -> Callable[[str], str]:
    """What is wrong with a whole number within these bounds."""

    def fault(word: str) -> str:
        if word.isascii() and word.isdecimal() and len(word) <= MOST_DIGITS:
            number = int(word)
            return f"is below {least}" if number < least else f"is above {most:,}" if number > most else ""
        return f"{no_number(word)}; a whole number from {least:,} to {most:,} is written in digits alone"

    return fault


def no_number(word: str) -> str:
    """Why a word is no whole number."""
    if not word:
        return "is empty"
    if re.fullmatch(r"[0-9]{11,}", word):
        return f"has {len(word)} digits, and 10 are read at most"
    if re.fullmatch(r"[0-9]{1,3}([.,' ][0-9]{3})+", word):
        return "has something between its thousands, or decimals, which can't be told apart"
    if re.fullmatch(r"[0-9]+[.,][0-9]+", word):
        return "has decimals"
    if re.fullmatch(r"[0-9]{1,4}[-./][0-9]{1,2}[-./][0-9]{1,4}", word):
        return "is a date in a form that isn't read; a day is a number such as 261127 or a date such as 2026-11-27"
    if match := re.fullmatch(r"[0-9]+\s*([A-Za-z]+)", word):
        return f"has {quoted(match[1])} behind the number; the measure is the material's"
    if re.fullmatch(r"(-|M)[0-9]+", word):
        return "is negative"
    strange = [quoted(letter) for letter in dict.fromkeys(word) if letter not in DIGITS]
    return f"has {listed(strange)}"


def value_fault(word: str) -> str:
    """What is wrong with a value of a test."""
    size = word.removeprefix("M")
    if size == word:
        return number_fault(0, MOST_VALUE)(word).replace("from 0 to", "from -1,000,000,000 to")
    fault = number_fault(1, MOST_VALUE)(size)
    return f"{fault}; `M5` is -5" if fault else ""


def text_fault(word: str) -> str:
    """What is wrong with a text of the plant's own, such as a reason."""
    if len(word) > MOST_LETTERS:
        return f"has {len(word):,} letters; a text has at most {MOST_LETTERS}"
    if is_visible(word):
        return ""
    strange = [quoted(letter) for letter in dict.fromkeys(word) if not is_visible(letter)]
    return f"has {listed(strange)}; a text is one line that can be printed"


def whole_words(text: str) -> re.Pattern[str]:
    """What finds the words of a text in others, whatever stands beside them, and capitals as small letters: `TR-77` in
    `TR-77,` and `(tr-77)`, and not in `TR-778`, `TR-77-B` or `X-TR-77`, which are other names."""
    words = r"\s+".join(map(re.escape, text.split()))
    return re.compile(rf"(?<!\w)(?<!\w-){words}(?!-?\w)", re.IGNORECASE)


def choice_fault(*words: str) -> Callable[[str], str]:
    """What is wrong with a word that is to be one of these."""

    def fault(word: str) -> str:
        if word in words:
            return ""
        import difflib

        near = difflib.get_close_matches(word.lower(), words, 1)
        return f"is none of {listed(words)}{f'; did you mean `{near[0]}`?' if near else ''}"

    return fault


def number(least: int, most: int) -> Form:
    """The form of a whole number."""
    return Form(f"{least:,} to {most:,}", number_fault(least, most))


def choice(*words: str) -> Form:
    """The form of a word of a list."""
    return Form(listed(words, "or"), choice_fault(*words), words)


NAME = Form("1 to 16 of A-Z, 0-9 and -, the first not -", name_fault)
SECRET = Form("8 to 32 letters or digits", secret_fault)
MEASURE = Form("1 to 8 letters", measure_fault)
AMOUNT = number(1, 1_000_000_000)
DAY = number(0, 9_999_999)
SEGMENT = number(1, 50)
BATCH = number(1, 99)
VALUE = Form("-1,000,000,000 to 1,000,000,000, with M before a negative one: M5 is -5", value_fault)
TEXT = Form(f"one line of at most {MOST_LETTERS} letters", text_fault)
USE = choice("consumed", "produced")
WAY = choice("back", "forward")
COMMAND = choice("done", "start", "stop", "hold", "restart", "abort", "reset", "pause", "resume")
