"""tools/check-worked: changes apply once, CONTRIBUTING.md names what they touch, and the toolchain reads what comes of
them."""
import os
import pathlib
import shutil
import subprocess

import pytest
from conftest import ROOT, script

PAGE = """# Working

## Add a thing

In `low`: `src/lib.rt`, and `README.md`.

## Other

`low/src/other.rt`, which `tools/texts` writes.
"""
EDIT = """The worked change of CONTRIBUTING.md, "Add a thing": two of it.

file: crates/low/src/lib.rt
old: fn one()
new: fn one()
new: fn two()

file: README.md
old: one thing
new: two things
"""
WRITTEN = """The worked change of CONTRIBUTING.md, "Other": a file that a tool writes.

file: tools/texts
old: one
new: two

file: crates/low/src/other.rt
by: tools/texts
"""
# As `rattle`: it refuses text with the word "wrong", and tells what it was asked to read.
RATTLE = """case $1 in
fmt) shift 2; ! grep -l unformatted "$@" ;;
check)
    echo "$*" >> "$TOLD"
    ! grep -rn wrong ../*/src | sed 's/^/error[unknown-name]: /' | grep . || exit 1
    echo only=0 ;;
esac"""


FILES = {
    "crates.txt": "low: serde\ntop: low\n",
    "crates/low/src/lib.rt": "fn one()\n",
    "crates/low/src/other.rt": "\n",
    "crates/top/src/main.rt": "fn main()\n",
    "README.md": "It is one thing.\n",
    "CONTRIBUTING.md": PAGE,
    "tools/worked/thing.edit": EDIT,
}
SHORT = {"page": "CONTRIBUTING.md", "change": "tools/worked/thing.edit", "code": "crates/low/src/lib.rt"}


class Worked:
    """A repository with one change, and a kit of scripts."""

    def __init__(self, folder: pathlib.Path) -> None:
        self.top, self.kit, self.notes = folder / "repository", folder / "kit", folder / "told"
        for name, text in FILES.items():
            (self.top / name).parent.mkdir(parents=True, exist_ok=True)
            (self.top / name).write_text(text)
        shutil.copy(ROOT / "tools" / "check-worked", self.top / "tools")
        (self.kit / "bin").mkdir(parents=True)
        for name, text in (("rt", ""), ("rattle", RATTLE)):
            script(self.kit / "bin" / name, text)

    def __call__(self, **edits: tuple[str, str]) -> tuple[int, str]:
        """The status and the output of the tool, after files were edited."""
        for name, (old, new) in edits.items():
            path = self.top / SHORT[name]
            path.write_text(path.read_text().replace(old, new))
        environment = {**os.environ, "PATH": f"{self.kit}/bin:{os.environ['PATH']}", "TOLD": str(self.notes)}
        words = [self.top / "tools" / "check-worked"]
        done = subprocess.run(words, capture_output=True, text=True, timeout=60, env=environment)
        return done.returncode, done.stdout + done.stderr


@pytest.fixture
def worked(tmp_path: pathlib.Path) -> Worked:
    return Worked(tmp_path)


def test_a_change_that_applies_is_read_by_the_front_end_in_a_copy(worked: Worked) -> None:
    assert worked() == (0, "check-worked: 1 changes apply, and their code is typed\n")
    words = worked.notes.read_text().split()
    assert words[words.index("--crate-name") + 1] == "low" and "src/lib.rt" in words
    assert any(word.endswith("rlibs/serde.rlib") for word in words)
    assert (worked.top / "crates/low/src/lib.rt").read_text() == "fn one()\n"


def test_a_change_whose_text_is_gone_or_twice_there_is_told(worked: Worked) -> None:
    status, output = worked(code=("fn one()", "fn one() fn one()"))
    assert status == 1 and "crates/low/src/lib.rt has 2 times, and not once: 'fn one()'" in output
    assert "has 0 times" in worked(code=("fn one()", "fn other()"))[1]


def test_code_that_the_front_end_refuses_is_told(worked: Worked) -> None:
    status, output = worked(change=("fn two()", "fn wrong()"))
    assert status == 1 and "error[unknown-name]" in output


def test_text_that_the_formatter_refuses_is_told(worked: Worked) -> None:
    status, output = worked(change=("fn two()", "fn unformatted()"))
    assert status == 1 and "crates/low/src/lib.rt" in output


def test_a_file_that_the_section_does_not_name_is_told(worked: Worked) -> None:
    status, output = worked(page=("`src/lib.rt`, and", "and"))
    assert status == 1 and "'Add a thing', doesn't name crates/low/src/lib.rt, which thing.edit changes" in output
    assert "CONTRIBUTING.md has no section Add a thing" in worked(page=("## Add a thing", "## Add one"))[1]


def test_a_file_that_a_tool_writes_is_written_in_the_copy(worked: Worked) -> None:
    script(worked.top / "tools" / "texts", "echo 'fn one()' > crates/low/src/other.rt")
    (worked.top / "tools" / "worked" / "written.edit").write_text(WRITTEN)
    assert worked() == (0, "check-worked: 2 changes apply, and their code is typed\n")
    assert (worked.top / "crates/low/src/other.rt").read_text() == "\n"
    script(worked.top / "tools" / "texts", "echo 'fn one()' > crates/low/src/third.rt")
    assert "written.edit: tools/texts leaves crates/low/src/other.rt as it was" in worked()[1]
    script(worked.top / "tools" / "texts", "echo one is amiss; exit 1")
    assert "written.edit: tools/texts fails: two is amiss" in worked()[1]


def test_a_line_that_is_none_of_a_change_is_told(worked: Worked) -> None:
    status, output = worked(change=("old: one thing", "was: one thing"))
    assert status == 1 and "thing.edit: 'was: one thing' is no line of a change" in output
