"""What the tests share: the built program, and offices in folders that are removed at the end, also after a signal."""
import os
import shutil
import signal
import subprocess
import tempfile
from collections.abc import Callable, Iterator

import pytest

from tests.harness import JOBS, ROOT, Disk, Office, put
from tests.lines import AT_WORK

pytest.register_assert_rewrite("tests.attempts", "looks")


@pytest.fixture(scope="session", autouse=True)
def tidy() -> None:
    """A signal ends the tests in order, and files are their maker's alone."""
    signal.signal(signal.SIGTERM, lambda number, _: pytest.exit("ended by a signal", 128 + number))
    os.umask(0o077)


@pytest.fixture(scope="session")
def program() -> str:
    """The program that TOLL names, or that of ./toll, which builds it where it isn't built yet."""
    name = os.environ.get("TOLL", "")
    if not name and subprocess.run([ROOT / "toll", "script"], stdin=subprocess.DEVNULL).returncode:
        pytest.exit("./toll can't be run", 3)
    path = shutil.which(name or ROOT / "crates" / "toll" / "out" / "toll")
    if not path:
        pytest.exit(f"{name} is no program", 3)
    return os.path.realpath(path)


@pytest.fixture(scope="module")
def parent() -> str | None:
    """Where the folders of a module are; where the system has them if it doesn't say."""
    return None


@pytest.fixture(scope="module")
def folder(parent: str | None) -> Iterator[str]:
    """A folder for a module's files, with a path that is short enough for sockets."""
    with tempfile.TemporaryDirectory(prefix="tests.", dir=parent) as path:
        yield path


@pytest.fixture(scope="module")
def build(folder: str) -> Callable[[str], str]:
    """Compiles a library of this folder, which the program is to preload."""

    def built(source: str) -> str:
        path = os.path.join(folder, source + ".so")
        compiler = shutil.which("cc") or shutil.which("gcc") or "gcc"
        subprocess.run([compiler, "-O1", "-shared", "-fPIC", "-o", path, ROOT / "tests" / source], check=True)
        return path

    return built


@pytest.fixture(scope="module")
def new(program: str, folder: str) -> Callable[[], Office]:
    """Makes offices without a file yet."""
    return lambda: Office(program, folder)


@pytest.fixture(scope="module")
def work(new: Callable[[], Office]) -> str:
    """The file of an office at work, which no test changes."""
    return new().lay(AT_WORK)


@pytest.fixture
def at_work(new: Callable[[], Office], work: str) -> Office:
    """An office at work, for one test."""
    office = new()
    put(work, office.db)
    return office


@pytest.fixture(scope="module")
def disks(program: str, folder: str, build: Callable[[str], str]) -> list[Disk]:
    """As many offices with disturbed calls as may be tried at a time."""
    library = build("disk.c")
    return [Disk(program, folder, library) for _ in range(JOBS)]
