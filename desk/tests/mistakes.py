"""What becomes of a slip of the finger: each entry is given with one neighbouring key hit, at each key that is typed of it, and
with the choice beside each that is touched. Nothing else is wrong with it. A slip that is recorded is a wrong record; one that
is refused, or asked about first, is none.
"""
import pathlib
import shutil
from collections import Counter
from collections.abc import Callable, Iterator

from hilpoven.core.grammar import LINES
from hilpoven_desk import web

SCANNED = {"OWNER", "LOT-OWNER", "LOT", "SUBLOT"}  # what a label has
ROWS = ("1234567890-=", "qwertyuiop[", "asdfghjkl;'", "zxcvbnm,./")  # of a keyboard


def beside(letter: str) -> list[str]:
    """The keys beside that of a letter, in its row."""
    for row in ROWS:
        if (at := row.find(letter.lower())) >= 0:
            around = [row[place] for place in (at - 1, at + 1) if 0 <= place < len(row)]
            return [key.upper() for key in around] if letter.isupper() else around
    return []


def slips(word: str) -> Iterator[tuple[str, float]]:
    """A word with one neighbouring key hit, each with its share of the slips at that key."""
    for at, letter in enumerate(word):
        for key in (around := beside(letter)):
            yield f"{word[:at]}{key}{word[at + 1:]}", 1 / len(around)


def touched_beside(choices: list[str], chosen: str) -> Iterator[tuple[str, float]]:
    """The choices beside one that is touched, each with its share."""
    at = choices.index(chosen)
    around = [choices[place] for place in (at - 1, at + 1) if 0 <= place < len(choices)]
    yield from ((choice, 1 / len(around)) for choice in around)


class Saved:
    """An office's files as they are now, to which it is set back."""

    def __init__(self, office, folder: pathlib.Path) -> None:
        self.office, self.folder = office, folder
        shutil.rmtree(folder, ignore_errors=True)
        folder.mkdir()
        for path in self.files():
            shutil.copyfile(path, folder / path.name)

    def files(self) -> list[pathlib.Path]:
        """The office's files."""
        return [path for path in self.office.folder.glob("office.db*") if path.is_file()]

    def set_back(self) -> None:
        """Sets the office back."""
        for path in self.files():
            path.unlink()
        for path in self.folder.iterdir():
            shutil.copyfile(path, self.office.folder / path.name)
            (self.office.folder / path.name).chmod(0o600)


def wrong_records(saved: Saved, tries: Iterator[tuple[str, str, float]], is_recorded: Callable[[str, str], bool]) -> Counter:
    """How many slips become wrong records, by what they are in: each slip is of a name, with its word and its share."""
    counted: Counter = Counter()
    for name, word, share in tries:
        if is_recorded(name, word):
            counted[name] += share
            saved.set_back()
    return counted


def listed(counted: Counter) -> str:
    """Wrong records by what they are in, the most first."""
    return ", ".join(f"{name} {count:.1f}" for name, count in counted.most_common())


def release(office, entries: list, number: int) -> None:
    """The owner releases what is shipped, before the first shipment."""
    if entries[number].words[0] == "ship" != entries[number - 1].words[0]:
        with office.serve() as server:
            assert server.ask("ACME", "POST", "/lots/B-1/release")[0] == 200


def slips_at_screens(entry) -> Iterator[tuple[str, str, float]]:
    """The slips of an entry at a screen, in what is typed and in what is touched."""
    for name, word in entry.typed.items():
        yield from ((name, slip, share) for slip, share in slips(word) if name != "password")
    for name, choices in entry.choices.items():
        if (chosen := entry.fields.get(name, "")) in choices and chosen:
            yield from ((f"{name} touched", choice, share) for choice, share in touched_beside(choices, chosen))


def at_screens(browser, office, entries: list, folder: pathlib.Path) -> Counter:
    """The wrong records of a day at the screens, whose forms are sent again with slips."""
    counted: Counter = Counter()
    browser.get("/")
    token = browser.token()
    for number, entry in enumerate(entries):
        release(office, entries, number)
        own = {"token": token}

        def is_recorded(name: str, word: str) -> bool:
            browser.send(entry.path, follow=False, **{**entry.fields, **own, name.split()[0]: word, "slip": web.new_slip()})
            return browser.status == 303

        counted += wrong_records(Saved(office, folder), slips_at_screens(entry), is_recorded)
        if not is_recorded("token", token):
            own |= {"asked": browser.hidden()["asked"], "answer": "yes"}
            assert is_recorded("token", token), (entry, browser.text)
    return counted


def typed_at_terminal(entry) -> dict[str, str]:
    """The values that are typed of an entry at a terminal, by their names. A receipt and what comes out have no label yet."""
    name, *words = entry.words
    values = LINES[name].values if name in LINES else ("OWNER", "LOT")
    has_label = "LOT" in values and name != "receive" and "produced" not in words
    named = {value: word for value, word in zip(values, words) if not (has_label and value in SCANNED)}
    return {value: "next" if value == "KEY" and name != "void" else word for value, word in named.items()}


def at_terminal(_, office, entries: list, folder: pathlib.Path) -> Counter:
    """The wrong records of the same day at a terminal. A key that nobody meant is none: it names what it is the key of."""
    counted: Counter = Counter()
    for number, entry in enumerate(entries):
        release(office, entries, number)
        name, *words = entry.words
        values = LINES[name].values if name in LINES else ("OWNER", "LOT")
        typed = typed_at_terminal(entry)
        given = {**dict(zip(values, words)), **typed}
        if name == "void":
            given["KEY"] = office.rows("SELECT mkey FROM moves ORDER BY rowid DESC LIMIT 1")[0][0]
        if "reason" in entry.typed:
            given["--reason"] = typed["--reason"] = entry.typed["reason"]

        def is_recorded(value: str, word: str) -> bool:
            words = {**given, value: word}
            reason = ["--reason", words.pop("--reason")] if "--reason" in words else []
            return office.run(name, *words.values(), *reason).status == 0

        tries = ((value, slip, share) for value in typed if value != "KEY" for slip, share in slips(given[value]))
        counted += wrong_records(Saved(office, folder), tries, is_recorded)
        first = next(iter(given))
        assert is_recorded(first, given[first]), given
    return counted
