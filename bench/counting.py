"""What Debian's valgrind and strace count of a program: its instructions, and its calls of the system."""
import contextlib
import re
import signal
import subprocess
import tempfile
from collections.abc import Iterator
from pathlib import Path

TOTAL, CALLS = re.compile(r"^totals: (\d+)$", re.M), re.compile(r"^ *(\d+) (\w+)$", re.M)


class Callgrind:
    """Counts the instructions of one program, by files in a folder of its own, which the caller removes."""

    def __init__(self, parent: str) -> None:
        self.folder = tempfile.mkdtemp(dir=parent)
        self.pipes = f"--vgdb-prefix={self.folder}/vgdb"

    def words(self, words: list[str]) -> list[str]:
        """The words by which the program is run and counted."""
        report = f"--callgrind-out-file={self.folder}/callgrind"
        return ["valgrind", "-q", "--tool=callgrind", report, self.pipes, *words]

    def dump(self, pid: int) -> None:
        """Has the program's count written while it runs."""
        subprocess.run(["vgdb", self.pipes, f"--pid={pid}", "dump"], check=True, capture_output=True)

    def millions(self) -> float:
        """The millions of instructions so far: each dump has those since the one before, and the end has the rest."""
        texts = (file.read_text() for file in Path(self.folder).glob("callgrind*"))
        return sum(int(total) for text in texts for total in TOTAL.findall(text)) / 1e6


@contextlib.contextmanager
def system_calls(pid: int) -> Iterator[dict[str, int]]:
    """How often a process calls the system meanwhile, in all and by name; the counts are there at the end."""
    counts = {"all": 0}
    with tempfile.NamedTemporaryFile("r") as report:
        words = ["strace", "-f", "-c", "-U", "calls,name", "-o", report.name, "-p", str(pid)]
        with subprocess.Popen(words, stderr=subprocess.PIPE, text=True) as strace:
            assert strace.stderr
            if not (line := strace.stderr.readline()).endswith("attached\n"):
                raise OSError(line.strip())
            try:
                yield counts
            finally:
                strace.send_signal(signal.SIGINT)
                strace.communicate()
        by_name = {name: int(count) for count, name in CALLS.findall(report.read())}
    counts["all"] = by_name.pop("total", 0)
    counts |= by_name
