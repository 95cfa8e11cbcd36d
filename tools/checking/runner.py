"""Runs the parts, and prints how each ended."""
import argparse
import asyncio
import contextlib
import dataclasses
import os
import pathlib
import re
import resource
import shutil
import signal
import sys
import tempfile
import time
from collections.abc import Iterable
from typing import Any, NamedTuple

from machine import GB, free_memory, processors
from trial import Words

from . import debian
from .parts import BESIDE, FOLDER, PROGRAM, PROOFS, ROOT, SHARED, SKIPPED, UNPROVED, Part, parts

BUILT = ROOT / "crates" / "toll" / "out" / "toll"
QUICK = ROOT / "out" / "quick" / "toll"  # of which nothing is proved
PROVED = ("rt: toll proved", "rt: toll is kept:")  # how the line of `rt ci` begins behind which the program is built
MEMORY_OF_CHECK = 5 * GB  # bytes that a check of rt takes at the most
MEMORY_BESIDE = 2.5 * GB  # bytes that the proofs leave to a part, if there is so much
LOWERED = 5  # the niceness of what runs beside the proofs and needs no program
MOST_LINES, LAST_LINES = 400, 40  # of a part that failed, and once more at the end, since a log may be cut at its front
MAKERS = (PROOFS, UNPROVED)  # which are run once: what tried the program meanwhile tried an older one
# How a fault's line begins: that of pytest, of what tries the page or packages, and of node; else one of a file's line.
FAULTS = [re.compile(r"(?:FAILED |ERROR |WRONG: |\s*(?=not ok ))(.*)"), re.compile(r"(?=[\w./-]+:\d+:)(.*)")]
LONGEST_FAULT = 160  # letters
SECONDS_TO_END, ROOM_IN_MEMORY = 10.0, 2 * GB


def plain(line: str) -> str:
    """A line without what moves a terminal's cursor."""
    return "".join(letter if letter.isprintable() or letter == "\t" else "?" for letter in line)


def indented(text: str) -> list[str]:
    """The lines of what a part printed. The lines that aren't indented are the gate's own."""
    return [f"    {plain(line)}" for line in text.splitlines()]


class Ended(NamedTuple):
    """How a part ended."""

    name: str
    seconds: float
    is_ok: bool
    printed: str = ""
    is_second: bool = False  # whether it had failed before, and was run once more
    processor: float = 0  # seconds of all that it started

    def report(self) -> None:
        outcome = f"{'ok' if self.is_ok else 'FAILED'}{', run once more, alone' if self.is_second else ''}"
        print(f"{self.name:20} {self.seconds:6.0f} s  {outcome}", flush=True)
        if not self.is_ok:
            self.print_output(MOST_LINES)

    def print_output(self, most: int) -> None:
        """Prints the last lines of what the part printed."""
        lines = indented(self.printed.rstrip())
        left = [f"    .. {len(lines) - most} lines before these"] if len(lines) > most else []
        print(*left, *lines[-most:], sep="\n", flush=True)

    def first_fault(self) -> str:
        """The first line that names a fault, or the last one."""
        lines = [line for line in map(plain, self.printed.splitlines()) if line.strip()]
        faults = [fault[1] for beginning in FAULTS for fault in map(beginning.match, lines) if fault]
        return (faults or lines[-1:] or ["no output"])[0].strip()[:LONGEST_FAULT]


async def end(process: asyncio.subprocess.Process) -> None:
    """Ends a process and all of its session, which has ten seconds to clear away."""
    latest = time.monotonic() + SECONDS_TO_END
    with contextlib.suppress(ProcessLookupError, PermissionError):  # nothing of it is there
        os.killpg(process.pid, signal.SIGTERM)
        while time.monotonic() < latest:
            os.killpg(process.pid, 0)
            await asyncio.sleep(0.02)
        os.killpg(process.pid, signal.SIGKILL)
    await process.wait()


def folder_for_tests() -> str | None:
    """In memory, if that has the room."""
    has_room = os.path.isdir("/dev/shm") and shutil.disk_usage("/dev/shm").free > ROOM_IN_MEMORY
    return "/dev/shm" if has_room else None


@dataclasses.dataclass
class Runner:
    """Runs parts side by side, each with all that it starts in a session of its own, which ends with it; each as soon
    as the processors and the memory that it takes are free and, if it needs the program, that is there. The part that
    makes the program leaves one processor at least to the others, and all that it doesn't take."""

    program: pathlib.Path
    processors: int = 1
    memory: float = GB
    shared: str = ""
    ended: list[Ended] = dataclasses.field(default_factory=list)
    running: list[Part] = dataclasses.field(default_factory=list)
    maker: Part | None = None
    is_program_there: bool = True

    def __post_init__(self) -> None:
        self.spent = processor_seconds()
        self.changed = asyncio.Event()

    async def run_all(self, wanted: Iterable[Part], maker: Part | None = None, is_program_there: bool = True) -> None:
        """Runs these parts, in this order if several may begin, and comes back when all have ended."""
        self.maker, self.is_program_there = maker, is_program_there
        waiting = list(wanted)
        async with asyncio.TaskGroup() as group:
            if maker:
                self.begin(maker, group)
            while waiting:
                part = next((candidate for candidate in waiting if self.may_begin(candidate)), None)
                if part:
                    waiting.remove(part)
                    self.begin(part, group)
                else:
                    self.changed.clear()
                    await self.changed.wait()

    def may_begin(self, part: Part) -> bool:
        if part.needs_program() and not self.is_program_there:
            return False
        if not self.running or part.is_alone or any(other.is_alone for other in self.running):
            return not self.running
        processors = sum(other.processors for other in self.running if other != self.maker)
        most: float = self.processors
        if self.maker and self.maker in self.running:
            most = max(1, self.processors - self.maker.processors)
        memory = sum(other.memory for other in self.running)
        return processors + min(part.processors, most) <= most and memory + part.memory <= self.memory

    def begin(self, part: Part, group: asyncio.TaskGroup) -> None:
        self.running.append(part)
        group.create_task(self.run_one(part))

    async def run_one(self, part: Part) -> None:
        try:
            if part.needs_program() and not self.has_program():
                raise FileNotFoundError(f"there is no program {self.program}")
            await self.run(part, LOWERED if part in BESIDE and self.maker in self.running else 0)
        except OSError as fault:
            self.note(Ended(part.name, 0, False, str(fault)))
        finally:
            self.running.remove(part)
            self.is_program_there |= part == self.maker
            self.changed.set()

    def has_program(self) -> bool:
        """Whether the program is there. It is newer than its sources then, whichever came first."""
        if not os.access(self.program, os.X_OK):
            return False
        if self.program == BUILT:
            self.program.touch()
        return True

    async def run(self, part: Part, lowered: int = 0) -> None:
        """Runs a part, and notes and prints how it ended. Of what makes the program, lines are printed as they come."""
        began, status, why = time.monotonic(), 1, ""
        room = tempfile.TemporaryDirectory(prefix="check.", dir=folder_for_tests(), ignore_cleanup_errors=True)
        with tempfile.NamedTemporaryFile("wb") as output, room as folder:
            os.chmod(folder, 0o711)  # some tests are another user below it
            words = part.command({PROGRAM: str(self.program), FOLDER: folder, SHARED: self.shared})
            how: dict[str, Any] = {"cwd": ROOT, "env": {**os.environ, "PYTHONDONTWRITEBYTECODE": "1"}}
            how |= {"stdin": asyncio.subprocess.DEVNULL, "stdout": output, "stderr": asyncio.subprocess.STDOUT}
            command = ["nice", "-n", str(lowered), *words]
            process = await asyncio.create_subprocess_exec(*command, start_new_session=True, **how)
            passing = asyncio.create_task(self.pass_on(process, output.name, part == self.maker))
            try:
                status = await asyncio.wait_for(process.wait(), 60 * part.minutes)
            except TimeoutError:
                why = f"it had not ended after {part.minutes} minutes\n"
            finally:
                await end(process)
                await passing
            printed = pathlib.Path(output.name).read_text(errors="replace") + why
        is_ok = status == 0 and not (part.fault and re.search(part.fault, printed))
        before, self.spent = self.spent, processor_seconds()
        self.note(Ended(part.name, time.monotonic() - began, is_ok, printed, processor=self.spent - before))

    async def pass_on(self, process: asyncio.subprocess.Process, name: str, is_maker: bool) -> None:
        """Prints a maker's lines as they come, and notes that the program is there as soon as one says so."""
        rest, is_over = "", not is_maker
        with open(name, errors="replace") as output:
            while not is_over:
                is_over = process.returncode is not None
                *whole, rest = (rest + output.read()).split("\n")
                for line in [*whole, *filter(None, [rest] if is_over else [])]:
                    print(*indented(line), sep="\n", flush=True)
                    if line.startswith(PROVED):
                        self.is_program_there = True
                        self.changed.set()
                await asyncio.sleep(0.05)

    def note(self, ended: Ended) -> None:
        self.ended.append(ended._replace(is_second=any(earlier.name == ended.name for earlier in self.ended)))
        self.ended[-1].report()

    def passed(self) -> set[str]:
        return {ended.name for ended in self.ended if ended.is_ok}

    def failures(self) -> list[Ended]:
        """How the parts ended that haven't passed, each time."""
        return [ended for ended in self.ended if ended.name not in self.passed()]

    def costs(self) -> str:
        """The minutes of the processor that all parts took, and each of them, the longest first."""
        costs = sorted(self.ended, key=lambda ended: -ended.processor)
        of_parts = ", ".join(f"{ended.name} {ended.processor / 60:.1f}" for ended in costs)
        return f"processor minutes: {sum(ended.processor for ended in costs) / 60:.1f}: {of_parts}"

    def flaky(self) -> list[str]:
        """The parts that failed and then passed, each with its first fault."""
        flaky = (ended for ended in self.ended if not ended.is_ok and ended.name in self.passed())
        return [f"flaky: {ended.name}, {ended.first_fault()}" for ended in flaky]


def processor_seconds() -> float:
    """Of the processor, what all took that was started and has ended."""
    usage = resource.getrusage(resource.RUSAGE_CHILDREN)
    return usage.ru_utime + usage.ru_stime


def maker_of(wanted: list[Part], processors: int, memory: float) -> Part | None:
    """The part that makes the program, if there is one, with what it takes of the machine."""
    if PROOFS not in wanted:
        return UNPROVED if UNPROVED in wanted else None
    # one job for each check, since a second one loads the check's libraries once more
    jobs = int(max(1, min(processors, memory // MEMORY_OF_CHECK)))
    os.environ.setdefault("RT_JOBS", str(jobs))
    left = max(MEMORY_OF_CHECK, memory - MEMORY_BESIDE)
    return dataclasses.replace(PROOFS, processors=processors, memory=min(jobs * MEMORY_OF_CHECK, left))


async def gate(program: pathlib.Path, wanted: list[Part]) -> Runner:
    """Runs the parts: the one that makes the program, beside it those that need none, and those that try the program
    once it is there. Behind all others, those that failed are run once more, each alone, since a failure may be bad
    luck."""
    with tempfile.TemporaryDirectory(prefix="check.", ignore_cleanup_errors=True) as shared:
        runner = Runner(program, processors(), free_memory(), shared)
        maker = maker_of(wanted, runner.processors, runner.memory)
        others = [part for part in wanted if part not in MAKERS]
        await runner.run_all(others, maker, maker is None or program not in (BUILT, QUICK))
        failed = {ended.name for ended in runner.failures()}
        await runner.run_all(dataclasses.replace(part, is_alone=True) for part in others if part.name in failed)
    return runner


async def heeding_signals(program: pathlib.Path, wanted: list[Part]) -> Runner:
    """The same; a signal that isn't ignored, as under nohup, ends all that runs, and is the status."""
    running, ended_by = asyncio.create_task(gate(program, wanted)), list[int]()

    def stop(number: int) -> None:
        ended_by.append(number)
        running.cancel()

    for number in (signal.SIGINT, signal.SIGTERM, signal.SIGHUP):
        if signal.getsignal(number) != signal.SIG_IGN:
            asyncio.get_running_loop().add_signal_handler(number, stop, number)
    try:
        return await running
    except asyncio.CancelledError:
        sys.exit(128 + ended_by[0])


def words_of(usage: str) -> argparse.Namespace:
    words = Words(usage)
    words.add_argument("--quick", action="store_true")
    words.add_argument("--only", action="append", metavar="PART")
    words.add_argument("--program", type=pathlib.Path, metavar="FILE")
    words.add_argument("--list", action="store_true")
    given = words.parse_args()
    names = [part.name for part in parts(given.quick)]
    for name in given.only or ():
        if name not in names:
            words.error(f"there is no part {name} here: {', '.join(names)}")
    return given


def wanted_by(words: argparse.Namespace) -> list[Part]:
    """The parts that the words ask for. Over another program nothing has to be compiled."""
    wanted = [part for part in parts(words.quick) if words.only is None or part.name in words.only]
    return [part for part in wanted if part != UNPROVED or not words.program]


def described(part: Part) -> str:
    need = "makes the program" if part in MAKERS else f"needs {'the' if part.needs_program() else 'no'} program"
    return f"{part.name:20} {need:18} {' '.join(part.packages)}".rstrip()


def report(runner: Runner, wanted: list[Part], words: argparse.Namespace, minutes: float) -> bool:
    """Prints how all ended; whether a part failed. One that never ended is none that passed."""
    failed = [part.name for part in wanted if part.name not in runner.passed()]
    print(f"parts: {len(wanted) - len(failed)} passed, {len(failed)} failed")
    if words.only is None:
        print("skipped for time:", *(f"    {command:30} {subject}" for command, subject in SKIPPED.items()), sep="\n")
        print(runner.costs())
        if words.quick:
            print("NOTHING WAS PROVED, and no wrong body was tried: ./check does both")
        for ended in runner.failures():
            print(f"{ended.name} FAILED:")
            ended.print_output(LAST_LINES)
    outcome = f"{len(failed)} FAILED: {', '.join(failed)}" if failed else "all ok"
    print(*runner.flaky(), f"{len(wanted)} parts in {minutes:.0f} minutes: {outcome}", sep="\n")
    return bool(failed)


def main(usage: str) -> int:
    words = words_of(usage)
    wanted = wanted_by(words)
    if words.list:
        print(*map(described, wanted), sep="\n")
        return 0
    packages = [package for part in wanted for package in part.packages]
    if any(part in MAKERS for part in wanted) and not shutil.which("rt"):  # nothing is downloaded then
        missing = [*debian.missing_of(packages), "rt, the toolchain"]
    else:
        missing = debian.install(packages)
    if missing:
        print(f"check: these are missing: {', '.join(missing)}", file=sys.stderr)
        return 2
    began = time.monotonic()
    program = (words.program or (QUICK if words.quick else BUILT)).resolve()
    runner = asyncio.run(heeding_signals(program, wanted))
    return report(runner, wanted, words, (time.monotonic() - began) / 60)
