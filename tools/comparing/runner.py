"""Runs commands of the plant's command in turn, and writes what each said and wrote: runner.py SOURCE FOLDER < COMMANDS

Each is a child of a process that has imported all modules, so that none waits for them. The clock is a minute later
for each.
"""
import gc
import importlib
import io
import json
import os
import pathlib
import pkgutil
import pty
import re
import shutil
import signal
import sys
import tarfile
import termios
import traceback
import zipfile
from typing import Any

import clock  # type: ignore[import]  # it stands beside this script

LIBRARIES = ("click", "csv", "difflib", "jinja2", "openpyxl", "shutil", "sqlite3", "tempfile", "tomllib", "zipfile")
PATIENCE = 120  # seconds
OUT = "out"  # the folder of a command's files
BY_CHANCE = re.compile(r"sha256,? [0-9a-f]{64}|-?[0-9.]+ hours old")  # random salts of a log, and a backup's real time
NOT_COMPARED = (".pdf", ".companions")  # printed pages, and when files of an office were changed


def texts_of(name: str, content: bytes) -> dict[str, str]:
    """The texts of a file by their names: one, or those of the members of an archive, whose bytes have times."""
    if zipfile.is_zipfile(io.BytesIO(content)):
        with zipfile.ZipFile(io.BytesIO(content)) as zipped:
            return {f"{name}/{member}": zipped.read(member).decode(errors="replace") for member in zipped.namelist()}
    if content[257:262] == b"ustar":
        with tarfile.open(fileobj=io.BytesIO(content)) as archive:
            members = [(member.name, archive.extractfile(member)) for member in archive if member.isfile()]
            return {f"{name}/{path}": file.read().decode(errors="replace") for path, file in members if file}
    return {name: content.decode(errors="replace")}


def child(words: list[str], output: str) -> None:
    """The command itself, of which standard output goes to a file."""
    os.dup2(os.open(output, os.O_WRONLY | os.O_CREAT | os.O_TRUNC), 1)
    sys.stdin, sys.stdout = open(0, closefd=False), open(1, "w", closefd=False)
    sys.stderr = open(2, "w", 1, closefd=False)
    sys.argv = ["hilpoven", *words]
    signal.alarm(PATIENCE)
    status: object = 1
    try:
        importlib.import_module("hilpoven.cli").main()
    except SystemExit as end:
        status = end.code
    except BaseException:
        traceback.print_exc()
    finally:
        sys.stdout.flush()
        sys.stderr.flush()
        os._exit(status if isinstance(status, int) else 0)


def at_terminal(words: list[str], typed: str, output: str, errors: str) -> int:
    """The status of a command at a terminal, at which this is typed."""
    process, terminal = pty.fork()
    if not process:
        state = termios.tcgetattr(0)
        state[1] &= ~termios.OPOST
        state[3] &= ~termios.ECHO
        termios.tcsetattr(0, termios.TCSANOW, state)
        os.write(2, b"\n")  # now what is typed isn't echoed
        child(words, output)
    with open(errors, "wb") as file:
        file.write(os.read(terminal, 1))
        os.write(terminal, typed.encode() + b"\x04")
        try:
            while part := os.read(terminal, 65_536):
                file.write(part)
        except OSError:  # the terminal's other end is closed
            pass
    os.close(terminal)
    return os.waitstatus_to_exitcode(os.waitpid(process, 0)[1])


def with_input(words: list[str], text: str, output: str, errors: str) -> int:
    """The status of a command with this standard input."""
    if not (process := os.fork()):
        reading, writing = os.pipe()
        os.write(writing, text.encode())
        os.close(writing)
        os.dup2(reading, 0)
        os.dup2(os.open(errors, os.O_WRONLY | os.O_CREAT | os.O_TRUNC), 2)
        child(words, output)
    return os.waitstatus_to_exitcode(os.waitpid(process, 0)[1])


def result_of(number: int, command: dict[str, Any], room: str) -> dict[str, str]:
    """What a command said and wrote, by the names of the parts."""
    clock.move_to(clock.BEGIN + 60 * number)
    shutil.rmtree(OUT, ignore_errors=True)
    os.mkdir(OUT, 0o700)
    run = at_terminal if command["is_typed"] else with_input
    status = run(command["words"], command["input"], f"{room}/output", f"{room}/errors")
    texts = {
        "status": str(status),
        **texts_of("errors", pathlib.Path(f"{room}/errors").read_bytes()),
        **texts_of("output", pathlib.Path(f"{room}/output").read_bytes()),
    }
    for path in sorted(pathlib.Path(OUT).rglob("*")):
        if path.is_file() and not path.name.endswith(NOT_COMPARED):
            texts |= texts_of(str(path), path.read_bytes())
    return {name: BY_CHANCE.sub("BY-CHANCE", text) for name, text in texts.items()}


def main() -> None:
    """Runs the commands of standard input."""
    clock.stop()
    sys.path.insert(0, sys.argv[1])
    os.chdir(sys.argv[2])
    package = importlib.import_module("hilpoven")
    modules = [module.name for module in pkgutil.walk_packages(package.__path__, "hilpoven.")]
    for name in (*LIBRARIES, *modules):
        if not name.endswith("__main__"):
            importlib.import_module(name)
    gc.freeze()
    room = os.path.dirname(sys.argv[2])
    json.dump([result_of(number, command, room) for number, command in enumerate(json.load(sys.stdin))], sys.stdout)


if __name__ == "__main__":
    main()
