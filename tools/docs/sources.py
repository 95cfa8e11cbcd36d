"""What the sources of the crates declare, in the layout that `rt fmt` gives them."""
import collections
import functools
import itertools
import re
from collections.abc import Iterator
from dataclasses import dataclass
from pathlib import Path

HEAD = re.compile(r"^( *)(pub(?:\(\w+\))? )?(?:const fn|fn|const|static) (\w+)")
OWNER = re.compile(r"^(?:unsafe )?(?:impl\b(.*)|(?:pub )?trait (\w+).*)")
COMMENT = re.compile(r"^\s*//.*$", re.M)
CLAUSE = re.compile(r"^\s*ensures (?:(\w+) )?\{((?:[^{}]|\{[^{}]*\})*)\}", re.M)
USED = re.compile(r"^\s*ghost use Rattle\.(\w+)\.specs\.(?:([\w.]+)\.\{([^}]*)\}|(\w+) as \w+);", re.M)
DEFINED = re.compile(r"^ *(?:(?:pub|abbrev|unfoldable) )*([\w']+) *:|^ *(?:pub )?record (\w+)", re.M)
TEST = re.compile(r"#\[test\]\s+(?:#\[[^\]]*\]\s+)*(?:pub )?fn (\w+)")
STORY = re.compile(r"^const (\w+): Story =", re.M)
UNSTATED = ("Command", "Worked")  # files of actions and of examples
Place = tuple[str, str]  # a crate, and a file of it


@dataclass(frozen=True)
class Item:
    """A function or a constant, with its type if it is a method."""

    crate: str
    file: str
    owner: str
    name: str
    is_public: bool
    text: str

    def clauses(self) -> list[Place]:
        """The names and the texts of its clauses."""
        return CLAUSE.findall(self.text)

    def clause_texts(self, names: list[str]) -> list[str]:
        """The texts of the clauses with these names, or of all."""
        return [text for name, text in self.clauses() if name in names] or [text for _, text in self.clauses()]


def owner_of(line: str) -> str:
    """The type of an `impl`, or the trait, which begins in this line."""
    match = OWNER.match(line)
    head = re.sub(r"<[^<>]*>", "", re.sub(r"<[^<>]*>", "", match[1] or "")) if match else ""
    return match and match[2] or (re.findall(r"\w+", head.split(" for ")[-1]) or [""])[0]


def items_of(crate: str, file: str, text: str) -> Iterator[Item]:
    """The functions and constants of a source file, each with its text up to the next."""
    lines, owner, starts = COMMENT.sub("", text).split("\n"), "", list[tuple[int, re.Match[str] | None, str]]()
    for number, line in enumerate(lines):
        if line and not line.startswith((" ", ")", "{", "where")):
            owner = owner_of(line)
        head = HEAD.match(line)
        if head or line[:1] not in (*" )}{", ""):
            starts.append((number, head, owner))
    for (number, head, owner), end in zip(starts, [*(start for start, *_ in starts[1:]), len(lines)]):
        if head:
            is_public = bool(head[2] or head[1] and f"pub trait {owner}" in text)
            yield Item(crate, file, owner if head[1] else "", head[3], is_public, "\n".join(lines[number:end]))


class Sources:
    """All crates: texts, items and definitions."""

    def __init__(self, root: Path) -> None:
        self.crates = root / "crates"
        self.code, self.specs = self.texts("src/**/*.rt"), self.texts("specs/**/*.antt")
        self.proofs = self.texts("proofs/**/*.antt")
        self.items = [item for path, text in self.code.items() for item in items_of(*self.place_of(path), text)]
        self.definitions = collections.defaultdict[str, list[Place]](list)
        for path, text in self.specs.items():
            for names in DEFINED.findall(text):
                self.definitions[names[0] or names[1]].append((self.place_of(path)[0], path.stem))
        self.tests = {name for text in self.code.values() for name in TEST.findall(text) + STORY.findall(text)}
        self.exported, self.types = (collections.defaultdict[str, set[str]](set) for _ in range(2))
        for path, text in self.code.items():
            crate, _ = self.place_of(path)
            self.exported[crate].update(re.findall(r"\w+", " ".join(re.findall(r"^pub use ([^;]*);", text, re.M))))
            self.types[crate].update(re.findall(r"\b(?:struct|enum) (\w+)", text))

    def texts(self, form: str) -> dict[Path, str]:
        return {path: path.read_text() for path in sorted(self.crates.glob(f"*/{form}"))}

    def place_of(self, path: Path) -> Place:
        crate, *parts = path.relative_to(self.crates).parts
        return crate, "/".join(parts)

    def called(self, name: str) -> list[Item]:
        """The public functions that PROVED.md means by a name: of a type, by themselves, or all methods that a
        type has in its crate."""
        *owner, last = name.split("::")
        own = [item for item in self.items if not item.crate.endswith(("_tests", "_stories"))]
        items = [item for item in own if item.is_public and item.name == last and item.owner == "".join(owner)]
        items = [item for item in items if (item.owner or item.name) in self.exported[item.crate]] or items
        return items or [item for item in own if item.owner == name and name in self.types[item.crate]]

    def cited(self, item: Item, clause: str) -> list[str]:
        """The definitions that a clause cites as statements: no types of what it speaks of, actions or examples."""
        names = re.findall(r"[A-Za-z_]\w*", re.sub(r"\(([^()]*) : [^()]*(?:\([^()]*\))*[^()]*\)", "", clause))
        imported = [name for name in names if name in self.imports(item.crate, item.file)]
        return [name for name in imported if (self.file_of(item, name) or UNSTATED)[1] not in UNSTATED]

    @functools.cache
    def imports(self, crate: str, file: str) -> dict[str, Place]:
        """The names that a file of the code takes from definitions, each with its crate and file."""
        source_of = dict[str, Place]()
        for below, place, names, whole in USED.findall(self.code[self.crates / crate / file]):
            of_file = [name for name, places in self.definitions.items() if (below, whole) in places]
            source = below, whole or place.split(".")[-1]
            source_of.update(dict.fromkeys(of_file + re.findall(r"[\w']+", names), source))
        return source_of

    def file_of(self, item: Item, name: str) -> Place | None:
        """The file of the definition that a clause of this item cites by this name."""
        places = self.definitions.get(name, [])
        place = self.imports(item.crate, item.file).get(name, (item.crate, ""))
        return min(places, key=lambda other: (other != place, other[0] != place[0])) if places else None

    @functools.cached_property
    def citations(self) -> collections.Counter[str]:
        """How many functions cite each definition."""
        cited = ({name for _, text in item.clauses() for name in self.cited(item, text)} for item in self.items)
        return collections.Counter(itertools.chain.from_iterable(cited))
