"""The examples of the pages, and what a shell prints of them."""
import contextlib
import os
import select
import signal
import subprocess
import tempfile
import time
from collections.abc import Iterator
from dataclasses import dataclass
from pathlib import Path
from typing import Any

from tests.harness import free_port

MARK = "--- the example has ended ---"
PATIENCE = 60  # seconds without more output


@dataclass
class Example:
    """A command of a page: the number of its line, and the lines that it prints."""

    line: int
    command: str
    printed: list[str]


def examples_of(page: Path) -> Iterator[Example]:
    """The commands of the page's blocks: what a terminal shows, or what is pasted, whose output is in comments."""
    kind, example = "", None
    for number, line in enumerate(page.read_text().split("\n"), 1):
        if line.startswith("```"):
            if example:
                yield example
            kind, example = "" if kind else line[3:] or "text", None
        elif kind == "console" and line.startswith("$ ") or kind == "sh" and line.strip() and not line.startswith("# "):
            if example:
                yield example
            command, _, answer = line.partition("  # ") if kind == "sh" else (line[2:], "", "")
            example = Example(number, command.rstrip(), [answer] if answer else [])
        elif example and kind == "console" and line.startswith("> ") and not example.printed:
            example.command += "\n" + line[2:]
        elif example and (kind == "console" or line.strip()):
            example.printed.append(line.removeprefix("# ") if kind == "sh" else line)


class Shell:
    """A shell in the folder of a page. It ends with all that the page left running."""

    def __init__(self, folder: Path, environment: dict[str, str]) -> None:
        how: dict[str, Any] = {"cwd": folder, "env": environment, "bufsize": 0, "start_new_session": True}
        how |= {"stdin": subprocess.PIPE, "stdout": subprocess.PIPE, "stderr": subprocess.STDOUT}
        self.process: subprocess.Popen[bytes] = subprocess.Popen(["bash", "--norc"], **how)
        assert self.process.stdin and self.process.stdout
        self.stdin, self.stdout = self.process.stdin, self.process.stdout

    def run(self, command: str, lines: int) -> list[str]:
        """What the command prints; one in the background prints at least so many lines."""
        self.stdin.write(f"{command}\nprintf '%s\\n' '{MARK}'\n".encode())
        printed, end = b"", time.monotonic() + PATIENCE
        while MARK.encode() not in printed or command.endswith("&") and printed.count(b"\n") <= lines:
            is_ready, *_ = select.select([self.stdout], [], [], max(0, end - time.monotonic()))
            chunk = os.read(self.stdout.fileno(), 65536) if is_ready else b""
            if not chunk:
                text = printed.decode(errors="replace")
                raise TimeoutError(f"{text}\n(nothing more within {PATIENCE} s: the page ends here)")
            printed += chunk
        text = printed.decode(errors="replace").replace(f"{MARK}\n", "")
        return [line.rstrip() for line in text.removesuffix("\n").split("\n")] if text else []

    def close(self) -> None:
        with contextlib.suppress(ProcessLookupError):
            os.killpg(self.process.pid, signal.SIGKILL)
        self.process.wait()


@contextlib.contextmanager
def shell_of_page(root: Path, toll: Path, hilpoven: Path) -> Iterator[Shell]:
    """A shell in a folder that has what examples need, with the programs on its path."""
    with tempfile.TemporaryDirectory(prefix="check-docs.") as parent:
        folder, programs = Path(parent, "here"), Path(parent, "programs")
        programs.mkdir()
        (folder / "plant" / "bin").mkdir(parents=True)
        (folder / "toll").write_text(f'#!/bin/sh\nexec "{toll}" "$@"\n')
        (folder / "toll").chmod(0o755)
        (programs / "toll").symlink_to(folder / "toll")
        for link in (programs / "hilpoven", folder / "plant" / "bin" / "hilpoven"):
            link.symlink_to(hilpoven)
        for name in ("docs", "demo", "tools"):
            (folder / name).symlink_to(root / name)
        environment = {**os.environ, "LC_ALL": "C.UTF-8", "TOLL": str(toll), "PATH": f"{programs}:{os.environ['PATH']}"}
        shell = Shell(folder, environment)
        try:
            yield shell
        finally:
            shell.close()


def check(page: Path, examples: list[Example], shell: Shell) -> int:
    """How many examples print what the page says; prints the others."""
    port, passed = str(free_port()), 0
    for example in examples:
        expected = [line.replace("8080", port).rstrip() for line in example.printed]
        try:
            printed, is_over = shell.run(example.command.replace("8080", port), len(expected)), False
        except TimeoutError as why:
            printed, is_over = str(why).split("\n"), True
        passed += printed == expected
        if printed != expected:
            wanted, seen = ([f"    {line}" for line in lines] for lines in (expected, printed))
            place = f"{page}:{example.line}: {example.command}"
            print(place, "  the page says:", *wanted, "  it prints:", *seen, sep="\n")
        if is_over:
            break
    return passed
