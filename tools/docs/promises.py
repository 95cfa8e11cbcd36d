"""PROMISES.md of docs/engineering: what belongs to each sentence of PROVED.md there."""
import collections
import itertools
import re
from collections.abc import Iterable, Iterator
from dataclasses import dataclass
from pathlib import Path

from .sources import Item, Place, Sources

PROMISE = re.compile(r"^- \*\*(\d+\.\d+)\*\* (.*)$", re.M)
NAME = re.compile(r"`(\w+(?:::\w+)*)`(?: \(((?:`\w+`(?:, )?)+)\))?")
LAWS = re.compile(r" \((`.*)\)$")  # what carries a promise, at its end
GUARDED = re.compile(r"# promise (\d+\.\d+)(?:: (.+))?")
VERDICTS = ("toll_history", "Verdict")  # where the checks of decisions are
TESTS, PROVED, PROMISES = "tools/docs/tests.txt", "docs/engineering/PROVED.md", "docs/engineering/PROMISES.md"
MOST_DEFINITIONS, MOST_WRONG_BODIES = 3, 6  # of a promise; of a crate
INTRODUCTION = """# Promises

`tools/check-docs promises` makes this page. A line leads from a promise, by its number in [PROVED](PROVED.md), which \
has its laws and clauses, to definitions in those clauses, the code, wrong bodies (files of a crate's `must-fail/`), \
and tests. Files are below `crates/`. `-`: the clauses carry the promise alone.

|promise|definition|code|wrong body|test|
|---|---|---|---|---|
"""


@dataclass(frozen=True)
class Promise:
    """A sentence of PROVED.md, the laws that it names with their clauses, and the functions behind these names."""

    number: str
    words: str
    laws: list[tuple[str, list[str]]]
    items: list[tuple[Item, list[str]]]


@dataclass(frozen=True)
class WrongBody:
    """A file of must-fail/: the promise that it guards, with those of its words that say so, and its replacements."""

    path: Path
    promise: str
    words: str
    replacements: list[tuple[str, str, str]]  # a file of the crate, an old text and a new one


def promises_of(text: str, sources: Sources) -> Iterator[Promise]:
    for number, line in PROMISE.findall(text):
        match = LAWS.search(line)
        laws = [(name, re.findall(r"\w+", clauses)) for name, clauses in NAME.findall(match[1] if match else "")]
        items = [(item, clauses) for name, clauses in laws for item in sources.called(name)]
        yield Promise(number, LAWS.sub("", line), laws, items)


def wrong_body_in(path: Path) -> WrongBody:
    head, *lines = path.read_text().split("\n")
    guarded = GUARDED.fullmatch(head)
    promise, words = guarded.groups("") if guarded else ("", "")
    fields, replacements = {"file": "", "old": ""}, []
    for kind, _, text in (line.partition(":") for line in lines):
        fields[kind] = text.strip() if kind == "file" else text.removeprefix(" ")
        if kind == "new":
            replacements.append((fields["file"], fields["old"], fields["new"]))
    return WrongBody(path, promise, words, replacements)


def quoted(names: Iterable[str]) -> str:
    return ", ".join(f"`{name}`" for name in dict.fromkeys(names)) or "-"


def definitions_of(promise: Promise, sources: Sources) -> str:
    """The definitions in its clauses: the checks of a decision, and those that the fewest functions cite."""
    cited = [
        (item, name)
        for item, clauses in promise.items
        for text in item.clause_texts(clauses)
        for name in sources.cited(item, text)
    ]
    decisions = dict.fromkeys(item.name for item, name in cited if name.startswith("Decides"))
    checks = [f"{word}_checks" for name in decisions for word in name.split("_")]
    of_file = collections.defaultdict[Place | None, list[str]](list)
    of_file[VERDICTS] = [name for name in checks if VERDICTS in sources.definitions.get(name, ())]
    for item, name in sorted(dict.fromkeys(cited), key=lambda citation: sources.citations[citation[1]]):
        names = of_file[sources.file_of(item, name)]
        if name not in names and sum(map(len, of_file.values())) < MOST_DEFINITIONS:
            names.append(name)
    files = ((place, quoted(names)) for place, names in of_file.items() if place and names)
    return "; ".join(f"`{crate}/specs/{file}.antt`: {names}" for (crate, file), names in files) or "-"


class Promises:
    """The promises of a repository with what belongs to them."""

    def __init__(self, root: Path, sources: Sources) -> None:
        self.root, self.sources = root, sources
        self.promises = list(promises_of((root / PROVED).read_text(), sources))
        lines = (line.split() for line in (root / TESTS).read_text().split("\n") if line and not line.startswith("#"))
        self.tests = {number: names for number, *names in lines}
        self.wrong_bodies = [wrong_body_in(path) for path in sorted(root.glob("crates/*/must-fail/*.edit"))]

    def page(self) -> str:
        """The text of PROMISES.md."""
        return INTRODUCTION + "".join(f"|{'|'.join(self.cells(promise))}|\n" for promise in self.promises)

    def cells(self, promise: Promise) -> Iterator[str]:
        yield promise.number
        yield definitions_of(promise, self.sources)
        yield quoted(f"{item.crate}/{item.file}" for item, _ in promise.items)
        yield quoted(body.path.stem for body in self.wrong_bodies if body.promise == promise.number)
        yield quoted(self.tests.get(promise.number, ()))

    def mistakes(self) -> Iterator[str]:
        """What leads nowhere, wrong bodies that guard no promise of their own, and a page that isn't up to date."""
        yield from (f"{PROVED}: {mistake}" for mistake in [*self.misnumbered(), *self.mistakes_of_laws()])
        numbers = {promise.number for promise in self.promises}
        yield from (f"{TESTS}: {number} is no promise" for number in self.tests if number not in numbers)
        tests = (test for names in self.tests.values() for test in names)
        yield from (f"{TESTS}: there is no test {test}" for test in tests if test not in self.sources.tests)
        yield from self.mistakes_of_wrong_bodies()
        if (self.root / PROMISES).read_text() != self.page():
            yield f"{PROMISES}: it is not what `tools/check-docs promises` makes"

    def misnumbered(self) -> Iterator[str]:
        section, place = 1, 0
        for number in (promise.number for promise in self.promises):
            if number not in (f"{section}.{place + 1}", f"{section + 1}.1"):
                yield f"{number} doesn't follow {section}.{place}"
            section, place = map(int, number.split("."))

    def mistakes_of_laws(self) -> Iterator[str]:
        for promise in self.promises:
            if not promise.laws:
                yield f"{promise.number}: it names nothing that carries it"
            for name, clauses in promise.laws:
                items = self.sources.called(name)
                known = {clause for item in items for clause, _ in item.clauses()}
                unknown = [f"has no clause {clause}" for clause in clauses if clause not in known]
                yield from (f"{promise.number}: {name} {fault}" for fault in (unknown if items else ["is not public"]))

    def mistakes_of_wrong_bodies(self) -> Iterator[str]:
        words = {promise.number: promise.words for promise in self.promises}
        for body in self.wrong_bodies:
            yield from (f"{body.path.relative_to(self.root)}: {mistake}" for mistake in mistakes_of(body, words))
        for one, other in itertools.combinations((body for body in self.wrong_bodies if body.promise), 2):
            if one.promise == other.promise and (one.words == other.words or not (one.words and other.words)):
                yield f"{other.path.relative_to(self.root)}: {one.path.relative_to(self.root)} guards {one.promise} too"
        for crate, count in collections.Counter(body.path.parent.parent.name for body in self.wrong_bodies).items():
            if count > MOST_WRONG_BODIES:
                yield f"crates/{crate}: {count} wrong bodies, at most {MOST_WRONG_BODIES}"


def mistakes_of(body: WrongBody, promises: dict[str, str]) -> Iterator[str]:
    if not body.promise:
        yield "its first line names no promise"
    elif body.promise not in promises:
        yield f"{body.promise} is no promise"
    elif body.words not in promises[body.promise]:
        yield f"{body.promise} doesn't say: {body.words}"
    texts = dict[Path, str]()
    for file, old, new in body.replacements:
        path = body.path.parent.parent / file
        text = texts.get(path) or (path.read_text() if path.is_file() else "")
        if text.count(old) != 1:
            yield f"not once in its file: {old}"
        texts[path] = text.replace(old, new)
