"""tools/check-docs: PROMISES.md, the names on the pages, and their examples."""
import os
import shutil
from collections.abc import Iterator
from pathlib import Path

import pytest
from conftest import ROOT, script, tool
from docs import examples
from docs.names import Pages
from docs.promises import PROMISES, Promises
from docs.sources import Sources

Output = pytest.CaptureFixture[str]
STOCK = """\
//! Stock.
ghost use Rattle.std.specs.Prelude.{IfOk};
ghost use Rattle.toll_stock.specs.Common.{Decides, IsEnough};
pub use shipping::ship;

/// Ships it.
pub fn ship(amount: u64) -> Result<Decision, Refusal>
    ensures decides { IfOk result (Decides amount.now) }
    ensures enough { (row : Row) → IsEnough row amount.now
        result }
{
    check_amount(amount)
}

fn check_amount(amount: u64) -> Result<Decision, Refusal> {
    if amount > ON_HAND { return Err(Refusal::NotEnough); }
}

pub struct Lots;

impl Lots {
    pub fn total(&self) -> u64
        ensures { result ≡ 0 }
    { 0 }
}
"""
VERDICT = "Decides : Amount → Type\nship_checks : Amount → Checks\nrecord Row\n"
PROVED = """\
# What is proved

- **1.1** An amount that is shipped is there. (`ship` (`enough`))
- **1.2** A decision is the verdict. (`ship`)
- **1.3** A lot has a total. (`Lots::total`)
"""
OTHER_BODY = "crates/toll_stock/must-fail/a_total_is_one_more.edit"
FILES = {
    "README.md": "Of `ship` and [stock](docs/engineering/PROVED.md): the program's 2 crates.\n",
    "CONTRIBUTING.md": "`crates/FOLDER`, `Lots::total`, `shipping.rt`, `cargo build`, `ship_checks`\n",
    "CHANGELOG.md": "",
    "docs/GLOSSARY.md": "",
    **{f"docs/engineering/{name}.md": "" for name in ("PROMISES", "ARCHITECTURE", "DECISIONS")},
    "docs/engineering/DEFINITIONS.md": """|what|read|lines|
|---|---|---|
|a verdict|`toll_history/specs`: Verdict; `toll_stock/specs`|4|
""",
    "docs/operations.md": "```nginx\nlisten 80;\n```\nSee `packaging/site.conf`.\n",
    "docs/engineering/PROVED.md": PROVED,
    "docs/engineering/testing.md": "`tools/check-docs` compares.\n",
    "packaging/site.conf": "server {\nlisten 80;\n}\n",
    "crates.txt": "# All.\ntoll_stock:\ntoll_history:\ntoll: toll_stock\n",
    "crates/toll_stock/src/shipping.rt": STOCK,
    "crates/toll_history/specs/Verdict.antt": VERDICT,
    "crates/toll_stock/specs/Enough.antt": "IsEnough : Row → Amount → Type\n",
    "crates/toll_stock/must-fail/more_shipped_than_there_is.edit": """# promise 1.1
file: src/shipping.rt
old: amount > ON_HAND
new: false
""",
    "crates/toll_tests/src/stock.rt": "#[test]\nfn what_is_there_is_shipped(rt: HostRuntime) {}\n",
    "tools/check-docs": "",
    "tools/docs/tests.txt": "# The tests.\n1.1 what_is_there_is_shipped\n",
}


@pytest.fixture
def repository(tmp_path: Path) -> Path:
    for name, text in FILES.items():
        (tmp_path / name).parent.mkdir(parents=True, exist_ok=True)
        (tmp_path / name).write_text(text)
    (tmp_path / PROMISES).write_text(Promises(tmp_path, Sources(tmp_path)).page())
    return tmp_path


def mistakes(root: Path) -> list[str]:
    """The mistakes in a repository, except that PROMISES.md is old."""
    sources = Sources(root)
    mistakes_of_all = [*Promises(root, sources).mistakes(), *Pages(root, sources).mistakes()]
    return [mistake for mistake in mistakes_of_all if not mistake.startswith(f"{PROMISES}: it is not")]


def change(root: Path, name: str, old: str, new: str) -> None:
    text = (root / name).read_text()
    assert old in text
    (root / name).write_text(text.replace(old, new))


# Promises


def rows(root: Path) -> dict[str, list[str]]:
    lines = (line.split("|") for line in Promises(root, Sources(root)).page().split("\n"))
    return {cells[1]: cells[2:-1] for cells in lines if len(cells) == 7 and cells[1][0].isdigit()}


def test_a_promise_leads_to_all_that_belongs_to_it(repository: Path) -> None:
    by_number = rows(repository)
    enough, code = "`toll_stock/specs/Enough.antt`: `IsEnough`", "`toll_stock/src/shipping.rt`"
    body, test = "`more_shipped_than_there_is`", "`what_is_there_is_shipped`"
    assert by_number["1.1"] == [enough, code, body, test]
    assert by_number["1.2"][0] == f"`toll_history/specs/Verdict.antt`: `ship_checks`, `Decides`; {enough}"
    assert by_number["1.3"] == ["-", code, "-", "-"]


def add_wrong_body(root: Path, name: str, *, promise: str, old: str = "    { 0 }") -> None:
    path = root / "crates" / "toll_stock" / "must-fail" / f"{name}.edit"
    path.write_text(f"{promise}\nfile: src/shipping.rt\nold: {old}\nnew:     {{ 1 }}\n")


def test_a_wrong_body_names_its_promise(repository: Path) -> None:
    add_wrong_body(repository, "a_total_is_one_more", promise="# promise 1.3: A lot has a total")
    bodies = [cells[2] for cells in rows(repository).values()]
    assert bodies == ["`more_shipped_than_there_is`", "-", "`a_total_is_one_more`"]
    assert mistakes(repository) == []


@pytest.mark.parametrize(
    "promise, old, mistake",
    [
        ("# A total", "    { 0 }", "its first line names no promise"),
        ("# promise 1.4", "    { 0 }", "1.4 is no promise"),
        ("# promise 1.3: A lot has two totals", "    { 0 }", "1.3 doesn't say: A lot has two totals"),
        ("# promise 1.1", "    { 0 }", f"{OTHER_BODY} guards 1.1 too"),
        ("# promise 1.1: is there", "    { 0 }", f"{OTHER_BODY} guards 1.1 too"),
        ("# promise 1.3", "total += 1", "not once in its file: total += 1"),
    ],
)
def test_a_wrong_body_without_a_promise_of_its_own_is_a_mistake(
    repository: Path, promise: str, old: str, mistake: str
) -> None:
    add_wrong_body(repository, "a_total_is_one_more", promise=promise, old=old)
    assert [text.split(": ", 1)[1] for text in mistakes(repository)] == [mistake]


def test_wrong_bodies_may_share_a_promise_if_each_guards_other_words_of_it(repository: Path) -> None:
    add_wrong_body(repository, "more_shipped_than_there_is", promise="# promise 1.1: An amount")
    add_wrong_body(repository, "a_total_is_one_more", promise="# promise 1.1: is there")
    assert mistakes(repository) == []


def test_a_crate_has_six_wrong_bodies_at_most(repository: Path) -> None:
    with open(repository / "docs/engineering/PROVED.md", "a") as page:
        page.writelines(f"- **2.{number}** A rule. (`ship`)\n" for number in range(1, 7))
    for number in range(1, 7):
        add_wrong_body(repository, f"edit_{number}", promise=f"# promise 2.{number}")
    assert mistakes(repository) == ["crates/toll_stock: 7 wrong bodies, at most 6"]


def test_an_old_page_is_a_mistake(repository: Path) -> None:
    assert list(Promises(repository, Sources(repository)).mistakes()) == []
    change(repository, PROMISES, "1.3", "1.4")
    mistake = f"{PROMISES}: it is not what `tools/check-docs promises` makes"
    assert list(Promises(repository, Sources(repository)).mistakes()) == [mistake]


def test_the_page_of_the_repository_has_each_wrong_body_once() -> None:
    text = (ROOT / PROMISES).read_text()
    names = [path.stem for path in ROOT.glob("crates/*/must-fail/*.edit")]
    assert names and [name for name in names if text.count(f"`{name}`") != 1] == []


# Each fault on the pages


PROVED_PAGE, README = "docs/engineering/PROVED.md", "README.md"
FAULTS = [
    (PROVED_PAGE, "`ship` (`enough`)", "`check_amount`", ": 1.1: check_amount is not public"),
    (PROVED_PAGE, "(`enough`)", "(`decides`, `total`)", ": 1.1: ship has no clause total"),
    (PROVED_PAGE, " (`Lots::total`)", "", ": 1.3: it names nothing that carries it"),
    (PROVED_PAGE, "**1.3**", "**1.4**", ": 1.4 doesn't follow 1.2"),
    ("tools/docs/tests.txt", "1.1", "2.1", ": 2.1 is no promise"),
    ("tools/docs/tests.txt", "is_there", "is_gone", ": there is no test what_is_gone_is_shipped"),
    (README, "`ship`", "`sink`", ":1: there is no sink"),
    (README, "docs/engineering/PROVED.md", "docs/LOST.md", ":1: the link docs/LOST.md leads to nothing"),
    (README, "PROVED.md", "PROVED.md#x", ":1: the link docs/engineering/PROVED.md#x leads to nothing"),
    (README, "2 crates", "3 crates", ": the program has 2 crates"),
    (README, "Of ", "Of " * 700, ": 707 words, not at most 700"),
    ("CONTRIBUTING.md", "Lots::total", "Lots::sum", ":1: there is no sum"),
    ("CONTRIBUTING.md", "`shipping.rt`", "`sinking.rt`", ":1: there is no sinking.rt"),
    ("CONTRIBUTING.md", "`ship_checks`", "`sink_checks`", ":1: there is no sink_checks"),
    ("docs/engineering/DEFINITIONS.md", "|4|", "|5|", ":3: 4 lines, not 5"),
    ("docs/engineering/testing.md", "k-docs", "k-all", ":1: there is no tools/check-all"),
    ("docs/operations.md", "80", "81", ":1: the block is no lines of a file of packaging/"),
    ("docs/operations.md", "site.conf", "sites.conf", ":4: there is no packaging/sites.conf"),
    ("docs/operations.md", "See ", "See [more](more.md) in ", ":4: there is no more.md"),
    ("docs/operations.md", "See ", "See [more](#a-site) in ", ":4: there is no #a-site"),
]


@pytest.mark.parametrize("name, old, new, mistake", FAULTS)
def test_a_fault_on_a_page_is_a_mistake(repository: Path, name: str, old: str, new: str, mistake: str) -> None:
    assert mistakes(repository) == []
    change(repository, name, old, new)
    assert mistakes(repository) == [name + mistake]


def test_a_page_that_is_gone_is_a_mistake(repository: Path) -> None:
    (repository / "docs" / "GLOSSARY.md").unlink()
    assert mistakes(repository) == ["docs/GLOSSARY.md is not there"]


# Examples

PAGE = """\
```console
$ toll one
ran one
$ echo two \\
> three
two three
```
```text
$ nothing
```
```sh
toll four  # ran four
printf 'a\\nb'
# a
# b

(sleep 0.5; echo late 8080) &
# late 8080
```
"""


@pytest.fixture
def shell(tmp_path: Path) -> Iterator[examples.Shell]:
    with examples.shell_of_page(ROOT, script(tmp_path / "program", 'echo "ran $*"'), tmp_path / "hilpoven") as shell:
        yield shell


@pytest.fixture
def page(tmp_path: Path) -> Path:
    (tmp_path / "page.md").write_text(PAGE)
    return tmp_path / "page.md"


def test_the_commands_of_a_page_are_read_with_what_they_print(page: Path) -> None:
    assert [(example.line, example.command, example.printed) for example in examples.examples_of(page)] == [
        (2, "toll one", ["ran one"]),
        (4, "echo two \\\nthree", ["two three"]),
        (12, "toll four", ["ran four"]),
        (13, "printf 'a\\nb'", ["a", "b"]),
        (17, "(sleep 0.5; echo late 8080) &", ["late 8080"]),
    ]


def test_examples_that_print_what_the_page_says_pass(page: Path, shell: examples.Shell, capsys: Output) -> None:
    assert examples.check(page, list(examples.examples_of(page)), shell) == 5 and capsys.readouterr().out == ""


def test_an_example_that_prints_something_else_is_told_and_the_next_runs(
    page: Path, shell: examples.Shell, capsys: Output
) -> None:
    change(page.parent, "page.md", "ran one", "ran none")
    assert examples.check(page, list(examples.examples_of(page)), shell) == 4
    assert capsys.readouterr().out == f"{page}:2: toll one\n  the page says:\n    ran none\n  it prints:\n    ran one\n"


def test_an_example_that_hangs_ends_its_page(
    page: Path, shell: examples.Shell, capsys: Output, monkeypatch: pytest.MonkeyPatch
) -> None:
    monkeypatch.setattr(examples, "PATIENCE", 1)
    change(page.parent, "page.md", "toll one", "echo so; sleep 300")
    assert examples.check(page, list(examples.examples_of(page)), shell) == 0
    assert "    so\n" in (output := capsys.readouterr().out) and "nothing more within 1 s" in output


@pytest.mark.parametrize(
    "page, status, output",
    [
        ("$ toll x\nran x\n```\n| 33 | NotEnough |\n", 0, "1 of 1 examples"),
        ("$ toll x\nran y\n```\n", 1, "0 of 1 examples"),
        ("$ toll x\n```\n", 1, "0 of 1 examples"),
        ("$ toll x\nran x\nand more\n```\n", 1, "0 of 1 examples"),
        ("$ toll x\nran x\n```\n| 32 | NotEnough |\n", 1, "NotEnough is 33, not 32"),
    ],
)
def test_the_tool_runs_a_page_and_compares_its_numbers(tmp_path: Path, page: str, status: int, output: str) -> None:
    (tmp_path / "page.md").write_text(f"```console\n{page}")
    program = script(tmp_path / "program", 'echo "ran $*"')
    done = tool("check-docs", tmp_path / "page.md", env={**os.environ, "TOLL": str(program)})
    assert (done.returncode, output in done.stdout) == (status, True), done.stdout


def test_a_line_of_commands_that_the_code_has_not_is_a_mistake(tmp_path: Path) -> None:
    for name in ("tools", "tests", "crates/toll_plant/src", "crates/toll_base/src", "docs"):
        shutil.copytree(ROOT / name, tmp_path / name, ignore=shutil.ignore_patterns("__pycache__", "papers", "tests"))
    (tmp_path / "page.md").write_text("")
    change(tmp_path, "docs/commands.md", "    scrap OWNER", "    scrub OWNER")
    done = tool(tmp_path / "tools" / "check-docs", "page.md", cwd=tmp_path, env={**os.environ, "TOLL": "/bin/true"})
    assert done.returncode == 1 and "docs/commands.md and the code don't both have: scrub OWNER" in done.stdout


@pytest.mark.parametrize("words", [["--help-me"], ["names", "README.md"], ["promises", "names"]])
def test_a_wrong_use_has_status_2(words: list[str]) -> None:
    done = tool("check-docs", *words)
    assert (done.returncode, done.stderr) == (2, "usage: tools/check-docs [names | promises | PAGE ..]\n")
