"""What the tools share that try the program: their words, the program, and the way to the harness of tests/."""
import argparse
import contextlib
import os
import pathlib
import shutil
import signal
import subprocess
import sys
import tempfile
from collections.abc import Iterator
from typing import NoReturn

ROOT = pathlib.Path(__file__).resolve().parent.parent
NAME = pathlib.Path(sys.argv[0]).name

sys.path.insert(0, str(ROOT))


def give_up(why: str) -> NoReturn:
    print(f"{NAME}: {why}", file=sys.stderr)
    sys.exit(2)


def need(packages: dict[str, str], *files: pathlib.Path) -> None:
    """Gives up if a program isn't here, by the name of Debian's package with it, or a file."""
    missing = [f"{name} (Debian's package {package})" for name, package in packages.items() if not shutil.which(name)]
    if missing := missing + [str(file) for file in files if not file.is_file()]:
        give_up(f"these are missing: {', '.join(missing)}")


class Words(argparse.ArgumentParser):
    """The words of a tool, whose wrong use is told in one line."""

    def __init__(self, usage: str) -> None:
        formatter = argparse.RawDescriptionHelpFormatter
        super().__init__(prog=NAME, description=usage, formatter_class=formatter, allow_abbrev=False)

    def error(self, message: str) -> NoReturn:
        give_up(message)


def built(program: pathlib.Path | None) -> pathlib.Path:
    """The program, which ./toll builds where it isn't built yet."""
    if program is None:
        program = ROOT / "crates" / "toll" / "out" / "toll"
        if subprocess.run([ROOT / "toll", "script"], stdin=subprocess.DEVNULL).returncode:
            give_up("./toll can't be run")
    if not os.access(program, os.X_OK) or program.read_bytes()[:4] != b"\x7fELF":
        give_up(f"{program} is no built program")
    return program.resolve()


def exit_at_signals() -> None:
    """Lets a signal end the tool as an exception does, so that folders are removed."""
    for number in (signal.SIGINT, signal.SIGTERM, signal.SIGHUP):
        if signal.getsignal(number) != signal.SIG_IGN:  # as under nohup
            signal.signal(number, lambda number, _: sys.exit(128 + number))


@contextlib.contextmanager
def folder_of_trial(parent: str | None = None) -> Iterator[str]:
    """A folder that is removed at the end, also where the tool is ended by a signal."""
    exit_at_signals()
    os.umask(0o077)
    with tempfile.TemporaryDirectory(prefix=f"{NAME}.", dir=parent) as folder:
        yield folder
