"""Whether what the pages name is there, and whether the lengths that they state are true."""
import re
from collections.abc import Iterator
from pathlib import Path

from .sources import DEFINED, Sources

# The pages that describe the code: each of their names is one of the repository's.
OF_CODE = "PROVED PROMISES DEFINITIONS ARCHITECTURE DECISIONS".split()
PAGES = ["README.md", "CONTRIBUTING.md", "CHANGELOG.md", "docs/GLOSSARY.md"]
PAGES += [f"docs/engineering/{name}.md" for name in OF_CODE]
OTHERS = set("hilpoven bash curl sh flock python3 sqlite3 rt help import use stdout server Clone Display Net".split())
QUOTED = re.compile(r"`([^`]+)`")
LINKED = re.compile(r"\]\(([^):#]*)(?:#([^)]+))?\)")
HEADING = re.compile(r"^#+ (.+)$", re.M)
CODE = re.compile(r"^```.*?^```$", re.M | re.S)
DECLARED = [
    re.compile(r"\bfn (\w+)"),
    re.compile(r"\b(?:struct|enum|trait|type|const|static|mod|macro_rules!) (\w+)"),
    re.compile(r"^\s+(?:pub )?(\w+)\s*[:,({=]", re.M),
    re.compile(r"\b(?:ensures|ghost) (\w+) "),
]
FOLDERS = "tools|demo|desk|docs|page|persons|packaging|crates|plant|bench|tests"
FILE = re.compile(rf"[\w./-]+\.(?:rt|antt|py|md|txt|toll|out|yaml|csv|sql|png|svg|1)|(?:{FOLDERS})/[\w./-]*")
PATH = re.compile(rf"(?:{FOLDERS})/[\w@./-]*\w")
NAMES = re.compile(r"[A-Za-z_][\w']*(?:(?:::|\.)[A-Za-z_][\w']*)*")
SETTINGS = re.compile(r"^```(?:nginx|ini)\n(.*?)^```$", re.M | re.S)
MOST_WORDS = 700  # of README.md


def declared(texts: dict[Path, str], *forms: re.Pattern[str]) -> set[str]:
    """The names in the texts at which the forms point."""
    matches = (match for text in texts.values() for form in forms for match in form.finditer(text))
    return {name for match in matches for name in match.groups() if name}


def places(text: str) -> set[str]:
    """The places in a page to which links lead: its headings, as forges name them."""
    headings = HEADING.findall(CODE.sub("", text).lower())
    return {re.sub(r"[^\w -]", "", heading).replace(" ", "-") for heading in headings}


def links_to_nothing(page: Path, text: str) -> list[str]:
    """The links of a page, or of a line of it, whose file or heading isn't there."""
    lost = []
    for link, place in LINKED.findall(text):
        target = page.parent / link if link else page
        if not target.exists() or place and place not in places(target.read_text()):
            lost.append(f"{link}#{place}" if place else link)
    return lost


class Pages:
    """The pages of a repository, and what its sources declare."""

    def __init__(self, root: Path, sources: Sources) -> None:
        self.root, self.sources = root, sources
        self.rows = dict(re.findall(r"^(\w+):(.*)", re.sub(r"#.*", "", (root / "crates.txt").read_text()), re.M))
        crates = [path for path in sources.crates.iterdir() if path.is_dir()]
        files = [*crates, *sources.specs, *sources.proofs, *sources.crates.glob("*/must-fail/*.edit")]
        self.names = OTHERS.union(
            (path.stem for path in files),
            self.rows,
            " ".join(self.rows.values()).split(),
            declared(sources.code, *DECLARED),
            declared(sources.specs | sources.proofs, DEFINED),
        )
        self.code_files = {name for path in sources.code for name in (path.name, f"{path.parent.name}/{path.name}")}
        plant = root / "plant" / "src" / "hilpoven"
        self.folders = [root, root / "docs", root / "docs" / "engineering", plant, *plant.glob("**/")]
        self.folders += [
            root / "desk" / "src" / "hilpoven_desk",
            root / "group" / "src" / "hilpoven_group",
            root / "persons" / "src" / "hilpoven_persons",
            sources.crates,
            *crates,
            *(crate / "specs" for crate in crates),
        ]

    def mistakes(self) -> Iterator[str]:
        """What is wrong on the pages, a line each."""
        for name in PAGES:
            lines = enumerate((self.root / name).read_text().split("\n"), 1) if (self.root / name).exists() else ()
            yield from () if lines else (f"{name} is not there",)
            for number, line in lines:
                wrong = [f"there is no {stranger}" for stranger in self.strangers_in(line)]
                wrong += [f"the link {link} leads to nothing" for link in links_to_nothing(self.root / name, line)]
                yield from (f"{name}:{number}: {mistake}" for mistake in wrong)
        settings = [path.read_text() for path in (self.root / "packaging").iterdir() if path.is_file()]
        for page in sorted([*self.root.glob("docs/**/*.md"), *self.root.glob("SECURITY.md")]):
            yield from (f"{page.relative_to(self.root)}:{mistake}" for mistake in self.mistakes_of_page(page, settings))
        yield from self.wrong_lengths(self.root / "docs" / "engineering" / "DEFINITIONS.md")
        yield from self.mistakes_of_readme((self.root / "README.md").read_text())

    def strangers_in(self, line: str) -> Iterator[str]:
        """The names between backquotes that the repository has not. A form has a word of capitals, as proofs/FILE."""
        for quoted in QUOTED.findall(line):
            if re.search(r"\b[A-Z]{4,}\b", quoted):
                continue
            if FILE.fullmatch(quoted):
                is_there = quoted in self.code_files or any((folder / quoted).exists() for folder in self.folders)
                yield from () if is_there else (quoted,)
            elif NAMES.fullmatch(quoted):
                names = (name for name in re.split(r"::|\.", quoted) if len(name) > 1)
                yield from (name for name in names if name not in self.names)

    def mistakes_of_page(self, page: Path, settings: list[str]) -> Iterator[str]:
        """The links and paths that lead to no file, and the blocks of settings that no file of packaging/ has."""
        text = page.read_text()
        for number, line in enumerate(text.split("\n"), 1):
            paths = [match[0] for quoted in QUOTED.findall(line) if (match := PATH.match(quoted))]
            lost = links_to_nothing(page, line) + [path for path in paths if not (self.root / path).exists()]
            yield from (f"{number}: there is no {path}" for path in lost)
        for block in SETTINGS.finditer(text):
            if not any(f"\n{block[1]}" in f"\n{file}" for file in settings):
                number = text.count("\n", 0, block.start()) + 1
                yield f"{number}: the block is no lines of a file of packaging/"

    def wrong_lengths(self, page: Path) -> Iterator[str]:
        """The lines of the table whose files have another number of lines than it says."""
        for number, line in enumerate(page.read_text().split("\n"), 1):
            cells = [cell.strip() for cell in line.strip().strip("|").split("|")]
            if len(cells) != 3 or not re.fullmatch(r"[\d,]+", cells[2]):
                continue
            wanted = {crate: names for crate, names in re.findall(r"`(\w+)/specs`(?:: ([\w, ]+))?", cells[1])}
            specs = ((path.parent.parent.name, path.stem, text) for path, text in self.sources.specs.items())
            files = [(wanted[crate], file, text) for crate, file, text in specs if crate in wanted and file != "Lib"]
            lines = sum(text.count("\n") for names, file, text in files if not names or file in names.split(", "))
            if lines != int(cells[2].replace(",", "")):
                yield f"{page.relative_to(self.root)}:{number}: {lines} lines, not {cells[2]}"

    def mistakes_of_readme(self, text: str) -> Iterator[str]:
        """What README.md says of its own length, and of how many crates the program has."""
        if len(text.split()) > MOST_WORDS:
            yield f"README.md: {len(text.split())} words, not at most {MOST_WORDS}"
        crates = ["toll"]
        for crate in crates:  # which grows meanwhile
            crates += [use for use in re.findall(r"\w+", self.rows[crate]) if use in self.rows and use not in crates]
        if f"the program's {len(crates)} crates" not in text:
            yield f"README.md: the program has {len(crates)} crates"
