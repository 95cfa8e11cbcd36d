"""A test over a keep in lists, which the program doesn't use, in the toolchain's trial: one request for memory is
refused, the line that met it says so, and nothing breaks."""
import pathlib
import re
import shutil
import subprocess

import pytest

from tests.harness import ROOT

TEST, REFUSED = "each_of_300_receipts_is_in_stock_over_lists", 20_000
# to the receipt, or to the look at the stock
REPLY = r'(?:\d+: fault Memory, 200 .*|.*(?:fault Memory|503 {\\"error\\":\\"Unavailable\\"}))'
WANT_OF_MEMORY = re.compile(f'^    error: (?:Memory|"{REPLY}")$', re.M)


def is_want_of_memory(text: str) -> bool:
    """Whether the trial says that the test failed for want of memory, and for nothing else."""
    return "0 passed; 1 failed" in text and len(WANT_OF_MEMORY.findall(text)) == 1


@pytest.fixture
def crates(tmp_path: pathlib.Path) -> pathlib.Path:
    """A copy of the crates, since those of the repository may be under proof meanwhile."""
    shutil.copytree(ROOT / "crates", tmp_path / "crates", ignore=shutil.ignore_patterns("out"))
    for file in ("crates.txt", "HANDLES"):
        shutil.copy(ROOT / file, tmp_path / file)
    return tmp_path / "crates"


def test_one_refusal_over_lists_is_answered_as_want_of_memory(crates: pathlib.Path) -> None:
    words = ["rt", "try", "--test", "--fail-alloc", str(REFUSED), "--", TEST]
    done = subprocess.run(words, cwd=crates / "toll_story_tests", capture_output=True, text=True, errors="replace")
    assert is_want_of_memory(done.stdout), done.stdout + done.stderr


FAILED = f"""tests: 190
test stories::{TEST} ... FAILED
    error: {{}}
    the test failed: its result gives status 1
    the test exited with status 101
test result: FAILED. 0 passed; 1 failed; 0 ignored; 189 filtered out
run=ended status=101 runners=1 proved=no
"""
PASSED = f"test stories::{TEST} ... ok\ntest result: ok. 1 passed; 0 failed; 0 ignored; 189 filtered out\n"
KILLED = FAILED.replace("    error: {}", "    src/stories.rt:28:5: the test was killed by signal 6 (SIGABRT)")


WANTS = [r'"109: fault Memory, 200 {\"lots\":[]}"', r'"89: accepted, 503 {\"error\":\"Unavailable\"}"', "Memory"]
WANTS.append('"7: accepted, fault Memory"')
OTHERS = [FAILED.format('"7: accepted, refused 33 NotEnough"'), FAILED.format("Disk"), KILLED, PASSED, ""]


def test_what_the_trial_says_is_read_right() -> None:
    assert [result for result in WANTS if not is_want_of_memory(FAILED.format(result))] == []
    assert [text for text in OTHERS if is_want_of_memory(text)] == []
