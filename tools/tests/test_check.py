"""./check: each part has a line, a failure is printed and counts, and nothing is left running."""
import asyncio
import contextlib
import dataclasses
import os
import pathlib
import re
import signal
import subprocess
import sys
from typing import Any

import pytest
from checking import debian, empty_names, parts, runner
from checking.parts import FOLDER, PROGRAM, SHARED, Part
from conftest import ROOT, eventually, script, tool
from machine import GB

Capture = pytest.CaptureFixture[str]
Done = subprocess.CompletedProcess[str]
PATH = os.environ["PATH"]


def sh(name: str, lines: str, **options: Any) -> Part:
    return Part(name, ("sh", "-c", lines), **options)


def once(path: pathlib.Path, first: str, then: str = "true") -> str:
    """Lines of a shell that do one thing when they run first, and another from then on."""
    return f"if test -e {path}; then {then}; else touch {path}; {first}; fi"


def check(*words: str, path: object = "") -> Done:
    """The gate, with a folder before the path of programs."""
    environment = {**os.environ, "PATH": f"{path}:{PATH}" if path else PATH}
    return subprocess.run([ROOT / "check", *words], capture_output=True, text=True, timeout=120, env=environment)


def only(*names: str) -> list[str]:
    return [word for name in names for word in ("--only", name)]


def of_the_gate(printed: str) -> list[str]:
    """The lines that are the gate's own: what a part printed is indented."""
    return [line for line in printed.splitlines() if line and not line.startswith(" ")]


@dataclasses.dataclass
class Notes:
    """What parts note of their beginnings and ends, in order."""

    folder: pathlib.Path

    def part(self, name: str, until: int = 1, then: str = "true", **options: Any) -> Part:
        """A part that notes when it begins and ends, and stays until so many have begun."""
        notes = self.folder / "notes"
        wait = f"for i in $(seq 1200); do test $(grep -c begins {notes}) -ge {until} && break; sleep 0.05; done"
        lines = f"echo {name} begins >> {notes}; {wait}; {then}; s=$?; echo {name} ends >> {notes}; exit $s"
        return sh(name, lines, **options)

    def lines(self) -> list[str]:
        file = self.folder / "notes"
        return file.read_text().splitlines() if file.exists() else []

    def first(self) -> str:
        """The parts that began before any ended, in the alphabet's order."""
        ends = [line.endswith(" ends") for line in self.lines()]
        return "".join(sorted(line.split()[0] for line in self.lines()[: ends.index(True)]))

    def run(self, *wanted: Part, processors: int = 4, memory: float = 8 * GB, **options: Any) -> dict[str, bool]:
        """Runs parts, and gives how each ended."""
        one = runner.Runner(self.folder / "toll", processors, memory)
        asyncio.run(one.run_all(wanted, **options))
        assert one.running == []
        return {ended.name: ended.is_ok for ended in one.ended}


@pytest.fixture
def notes(tmp_path: pathlib.Path) -> Notes:
    return Notes(tmp_path)


@pytest.mark.parametrize(
    "part, printed",
    [
        (sh("well", "echo much"), "well 0 s ok"),
        (sh("ill", "echo why; echo because >&2; exit 3"), "ill 0 s FAILED why because"),
        (Part("absent", ("/nowhere/at-all",)), "absent 0 s FAILED nice: ‘/nowhere/at-all’: No such file or directory"),
        (sh("tried", f"test {PROGRAM} = /x/toll"), "tried 0 s ok"),
        (sh("roomy", f"touch {FOLDER}/a && test $(stat -c %a {FOLDER}) = 711"), "roomy 0 s ok"),
    ],
)
def test_a_part_has_one_line_and_one_that_fails_what_it_printed(part: Part, printed: str, capsys: Capture) -> None:
    asyncio.run(runner.Runner(pathlib.Path("/x/toll")).run(part))
    lines = capsys.readouterr().out
    assert " ".join(lines.split()) == printed and all(line.startswith("    ") for line in lines.splitlines()[1:])


@pytest.mark.parametrize("bad, is_ok", [(0, True), (1, False), (12, False)])
def test_proofs_with_a_wrong_body_that_guards_nothing_fail(
    notes: Notes, bad: int, is_ok: bool, capsys: Capture
) -> None:
    line = f"rt: ok; handles allowed: Net; must-fail edits: 81 refused, {bad} bad; every proof was done in this run"
    proofs = dataclasses.replace(parts.PROOFS, words=("echo", line))
    assert notes.run(maker=proofs) == {"proofs": is_ok} and line in capsys.readouterr().out


def gate(monkeypatch: pytest.MonkeyPatch, *wanted: Part) -> int:
    """The status of a gate that has these parts alone."""
    for name in ("BESIDE", "BEHIND"):
        monkeypatch.setattr(parts, name, list(wanted) if name == "BESIDE" else [])
    monkeypatch.setattr(parts, "PROOFS", sh("proofs", "true"))
    monkeypatch.setattr("sys.argv", ["check"])
    monkeypatch.setattr(debian, "install", lambda _: [])
    return runner.main("")


def test_a_part_that_never_ended_has_not_passed(monkeypatch: pytest.MonkeyPatch, capsys: Capture) -> None:
    monkeypatch.setattr(runner.Runner, "note", lambda *_: None)
    assert gate(monkeypatch, sh("mute", "true")) == 1 and "2 FAILED: mute, proofs" in capsys.readouterr().out


def test_both_outputs_of_a_part_that_failed_twice_stand_at_the_end(
    monkeypatch: pytest.MonkeyPatch, capsys: Capture, tmp_path: pathlib.Path
) -> None:
    ill = sh("ill", f"{once(tmp_path / 'ran', 'echo cause one', 'seq 99')}; exit 1")
    assert gate(monkeypatch, ill) == 1
    beginning, _, end = capsys.readouterr().out.partition("skipped for time:")
    lines, shown = end.splitlines(), "ill FAILED:|    cause one|ill FAILED:|    .. 59 lines before these|    60"
    assert lines[-45:-40] == shown.split("|") and lines[-2:] == ["    99", "2 parts in 0 minutes: 1 FAILED: ill"]
    assert "    cause one\n" in beginning and "    1\n" in beginning and "flaky:" not in end


def test_the_processor_s_minutes_of_each_part_are_told(monkeypatch: pytest.MonkeyPatch, capsys: Capture) -> None:
    busy = sh("busy", "i=0; while [ $i -lt 900000 ]; do i=$((i+1)); done")
    assert gate(monkeypatch, busy, sh("idle", "sleep 1")) == 0
    (line,) = [line for line in capsys.readouterr().out.splitlines() if line.startswith("processor minutes: ")]
    assert re.search(r": busy 0\.[0-9], .*idle 0\.0", line)


def test_with_quick_no_part_waits_until_it_is_alone() -> None:
    assert [part.name for part in parts.parts() if part.is_alone] == ["try-page"]
    assert not any(part.is_alone for part in parts.parts(is_quick=True))
    behind = [part.name for part in parts.BEHIND]
    assert [part.name for part in parts.parts(is_quick=True)][-len(behind) :] == behind


@pytest.mark.parametrize("quick", [[], ["--quick"]])
def test_a_part_that_fails_by_luck_is_run_once_more_and_counted(tmp_path: pathlib.Path, quick: list[str]) -> None:
    failure = "echo ok 1; echo not ok 2 - a click on null; echo later; exit 1"
    script(tmp_path / "node", f"echo run >> {tmp_path}/runs; {once(tmp_path / 'ran', failure)}")
    done = check(*quick, *only("page-tests", "sql-texts"), path=tmp_path)
    *outcomes, count, flaky, last = of_the_gate(done.stdout)
    assert (done.returncode, count) == (0, "parts: 2 passed, 0 failed")
    assert (flaky, last) == ("flaky: page-tests, not ok 2 - a click on null", "2 parts in 0 minutes: all ok")
    assert sorted(line.split()[0] for line in outcomes) == ["page-tests", "page-tests", "sql-texts"]
    assert outcomes[-1].endswith("ok, run once more, alone") and (tmp_path / "runs").read_text() == "run\nrun\n"


def test_what_failed_is_run_once_more_alone_behind_all_others_and_what_passed_is_not(
    notes: Notes, tmp_path: pathlib.Path
) -> None:
    failing = [notes.part(name, until=2, then=once(tmp_path / name, "false")) for name in "ac"]
    one = asyncio.run(runner.gate(tmp_path / "toll", [failing[0], notes.part("b", until=3), failing[1]]))
    assert notes.lines()[6:] == ["a begins", "a ends", "c begins", "c ends"]
    assert {line[0] for line in notes.lines()[:6]} == set("abc")
    assert sorted(one.flaky()) == ["flaky: a, no output", "flaky: c, no output"] and one.failures() == []


@pytest.mark.parametrize("maker", [parts.PROOFS, parts.UNPROVED])
def test_what_makes_the_program_is_run_once(
    notes: Notes, tmp_path: pathlib.Path, monkeypatch: pytest.MonkeyPatch, maker: Part
) -> None:
    """What tried the program meanwhile tried an older one."""
    failing = notes.part(maker.name, then=once(tmp_path / "ran", "false"))
    monkeypatch.setattr(runner, "MAKERS", (failing,))
    monkeypatch.setattr(runner, "maker_of", lambda *_: failing)
    one = asyncio.run(runner.gate(tmp_path / "toll", [failing]))
    assert notes.lines() == [f"{maker.name} begins", f"{maker.name} ends"] and one.flaky() == []


@pytest.mark.parametrize(
    "printed, fault",
    [
        ("E   assert 1\nFAILED tests/test_a.py::b - 1\nFAILED tests/test_a.py::c", "tests/test_a.py::b - 1"),
        ("# Subtest: a\n    not ok 1 - b\nnot ok 1 - a.test.js", "not ok 1 - b"),
        ("ERROR tests/test_a.py - no module", "tests/test_a.py - no module"),
        ("WRONG: click on null at leaving\n3 pictures; 1 wrong", "click on null at leaving"),
        ("b.md: 2 of 3\na.md:12: toll stock\nc.md:1: toll", "a.md:12: toll stock"),
        ("WRONG: site: curl: status 7\nlines of it", "site: curl: status 7"),
        ("the first\nthe last\n\n", "the last"),
        ("", "no output"),
        ("a\x1b[2K\tb\x07", "a?[2K\tb?"),
        ("x" * 500, "x" * 160),
    ],
)
def test_the_first_fault_of_a_part_is_a_line(printed: str, fault: str) -> None:
    assert runner.Ended("ill", 0, False, printed).first_fault() == fault


def test_what_a_part_prints_is_never_a_line_of_the_gate(tmp_path: pathlib.Path) -> None:
    forged = "flaky: sql-texts, forged"
    ends = ("\\r", "\\v", "\\f", "\\0342\\0200\\0250", "\\n\\0033[2K", "\\n9 parts in 0 minutes: all ok\\n")
    lines = f"printf '%b' '{forged.join(['', *ends])}'"
    script(tmp_path / "node", f"{lines}; {once(tmp_path / 'ran', 'exit 1')}")
    script(tmp_path / "rt", f"{lines}; exit 1")
    done = check(*only("page-tests", "proofs"), path=tmp_path)
    assert done.returncode == 1 and done.stdout.count(forged) > 9 and "\x1b" not in done.stdout
    own = of_the_gate(done.stdout)
    assert [line for line in own if "flaky" in line] == ["flaky: page-tests, 9 parts in 0 minutes: all ok"]
    assert [line for line in own if " minutes: " in line][1:] == ["2 parts in 0 minutes: 1 FAILED: proofs"]


def test_a_part_that_does_not_end_is_ended_with_all_that_it_started(notes: Notes, capsys: Capture) -> None:
    endless = sh("endless", f"sleep 300 & echo $! > {notes.folder}/pid; wait", minutes=1 / 30)
    assert notes.run(endless) == {"endless": False} and "had not ended" in capsys.readouterr().out
    child = pathlib.Path("/proc", (notes.folder / "pid").read_text().strip(), "status")
    assert eventually(lambda: not child.exists() or "zombie" in child.read_text())


# What runs beside what: the parts by their names, with until how many have begun each stays

UNTIL_2, TWO, HALF = {"until": 2}, {"processors": 2}, {"until": 2, "memory": 2.5 * GB}
WAITING: dict[str, Any] = {"until": 3, "processors": 0.3}
SIDES: list[tuple[str, list[dict[str, Any]], dict[str, Any], str, str]] = [
    ("on as many processors as there are", [{"until": 3}] * 4, {"processors": 3}, "abc", ""),
    ("of those that mostly wait several on one", [WAITING] * 4, {"processors": 1}, "abc", ""),
    ("the first of the list first", [{}] * 3, {"processors": 1}, "a", "a,a,b,b,c,c"),
    ("one of several waits, and not one of fewer", [UNTIL_2, TWO, UNTIL_2], TWO, "ac", "b,b"),
    ("of more than there is alone", [{"processors": 9, "memory": 99 * GB}, {}], TWO, "a", "a,a,b,b"),
    ("nothing beside one that runs alone", [UNTIL_2, {"is_alone": True}, UNTIL_2], {}, "ac", "b,b"),
    ("no more than memory allows", [HALF, {"memory": 3 * GB}, HALF], {"memory": 5 * GB}, "ac", "b,b"),
]


@pytest.mark.parametrize("wanted, machine, first, last", [side[1:] for side in SIDES], ids=[side[0] for side in SIDES])
def test_parts_run_side_by_side(
    notes: Notes, wanted: list[dict[str, Any]], machine: dict[str, Any], first: str, last: str
) -> None:
    outcome = notes.run(*(notes.part(name, **options) for name, options in zip("abcd", wanted)), **machine)
    assert all(outcome.values()) and len(outcome) == len(wanted) and notes.first() == first
    assert ",".join(line[0] for line in notes.lines()).endswith(last)


def test_what_one_part_leaves_in_the_shared_folder_another_has(notes: Notes, tmp_path: pathlib.Path) -> None:
    making = notes.part("making", then=f"echo {SHARED} > {tmp_path}/shared; echo much > {SHARED}/root")
    taking = notes.part("taking", until=2, then=f": {PROGRAM}; grep -q much {SHARED}/root")
    (tmp_path / "toll").touch(0o755)
    one = asyncio.run(runner.gate(tmp_path / "toll", [making, dataclasses.replace(taking, is_alone=True)]))
    assert [ended.is_ok for ended in one.ended] == [True, True]
    assert not os.path.exists((tmp_path / "shared").read_text().strip())


def test_one_that_fails_or_hangs_stops_no_other(notes: Notes) -> None:
    endless = notes.part("endless", then="sleep 300", minutes=1 / 30)
    outcome = notes.run(notes.part("ill", then="false"), endless, notes.part("well"), notes.part("late"), processors=2)
    assert outcome == {"ill": False, "endless": False, "well": True, "late": True}


PROVING = "echo 'rt: toll proved'; for i in $(seq 200); do grep -q 'c ends' {}/notes && break; sleep 0.05; done"


@pytest.mark.parametrize(
    "then, names, wanted",
    [
        # one at a time, since the proofs take all processors
        (PROVING, "abc", "a,a,b,b,c,c,proofs"),
        ("echo 'rt: toll NOT PROVED'; false", "b", "proofs,proofs,b,b"),
    ],
)
def test_what_needs_the_program_begins_as_soon_as_it_is_there(notes: Notes, then: str, names: str, wanted: str) -> None:
    (notes.folder / "toll").touch(0o755)
    proofs = notes.part("proofs", then=then.format(notes.folder), processors=4)
    trying = [notes.part(name, then="true" if name == "a" else f": {PROGRAM}") for name in names]
    outcome = notes.run(*trying, maker=proofs, is_program_there=False)
    assert outcome == {**dict.fromkeys(names, True), "proofs": "false" not in then}
    order = [line.split()[0] for line in notes.lines() if then != PROVING or line != "proofs begins"]
    assert ",".join(order) == wanted


def test_a_part_waits_for_the_proofs_if_its_memory_is_lacking_beside_them(notes: Notes) -> None:
    proofs = notes.part("proofs", processors=4, memory=6 * GB)
    notes.run(notes.part("large", memory=3 * GB), maker=proofs)
    assert notes.lines() == ["proofs begins", "proofs ends", "large begins", "large ends"]


def test_what_a_part_leaves_has_time_to_clear_away(notes: Notes) -> None:
    folder = notes.folder
    clearing = f'trap "sleep 0.5; touch {folder}/cleared; exit" TERM; touch {folder}/there; sleep 300 & wait'
    part = sh("leaving", f"sh -c '{clearing}' & while ! test -e {folder}/there; do sleep 0.02; done")
    assert notes.run(part) == {"leaving": True} and (folder / "cleared").exists()


def test_parts_that_need_the_program_fail_if_there_is_none(tmp_path: pathlib.Path) -> None:
    done = check("--program", str(tmp_path / "absent"), *only("tests-socket", "sql-texts"))
    assert done.returncode == 1 and "there is no program" in done.stdout
    assert done.stdout.splitlines()[-1].endswith("1 FAILED: tests-socket")


@pytest.mark.parametrize("status", [0, 1, 2])
def test_the_proofs_are_those_of_rt(tmp_path: pathlib.Path, status: int) -> None:
    script(tmp_path / "rt", f'echo "rt $*, jobs $RT_JOBS"; exit {status}')
    done = check(*only("proofs", "sql-texts"), path=tmp_path)
    outcomes = [line.split()[:4:3] for line in of_the_gate(done.stdout) if re.search(r" s  \w+$", line)]
    assert "rt ci, jobs " in done.stdout and done.returncode == bool(status)
    assert sorted(outcomes) == [["proofs", "FAILED" if status else "ok"], ["sql-texts", "ok"]]


def listed(*words: str) -> list[str]:
    return [line.split()[0] for line in check(*words, "--list").stdout.splitlines()]


def test_the_list_names_each_part_and_what_it_needs() -> None:
    lines = check("--list").stdout.splitlines()
    assert [line.split()[0] for line in lines] == [part.name for part in parts.parts()]
    assert "proofs               makes the program" in lines
    assert any(line.startswith("shell                needs no program   git shellcheck") for line in lines)
    assert any(line.startswith("tests-http           needs the program  python3-pytest ") for line in lines)


def test_quick_runs_everything_but_the_proofs_over_an_unproved_build(tmp_path: pathlib.Path) -> None:
    assert listed("--quick") == ["unproved-build" if name == "proofs" else name for name in listed()]
    assert "unproved-build" not in listed("--quick", "--program", str(tmp_path / "toll"))
    assert check("--quick", *only("proofs")).returncode == 2 and check(*only("unproved-build")).returncode == 2


def test_quick_tries_the_unproved_program_and_says_that_nothing_was_proved(
    monkeypatch: pytest.MonkeyPatch, capsys: Capture
) -> None:
    tried: list[pathlib.Path] = []

    async def nothing(program: pathlib.Path, _: object) -> runner.Runner:
        tried.append(program)
        return runner.Runner(program)

    monkeypatch.setattr(runner, "gate", nothing)
    monkeypatch.setattr(debian, "install", lambda _: [])
    monkeypatch.setattr("sys.argv", ["check", "--quick"])
    assert runner.main("") == 1 and tried == [ROOT / "out" / "quick" / "toll"]
    assert "NOTHING WAS PROVED" in capsys.readouterr().out


@pytest.mark.parametrize("processors, free, taken", [(4, 22, 19.5), (2, 22, 10), (4, 4, 5)])
def test_the_proofs_take_all_processors_and_leave_memory_to_one_part(
    monkeypatch: pytest.MonkeyPatch, processors: int, free: float, taken: float
) -> None:
    monkeypatch.setenv("RT_JOBS", "4")
    maker = runner.maker_of([parts.PROOFS], processors, free * GB)
    assert maker == dataclasses.replace(parts.PROOFS, processors=processors, memory=taken * GB)
    assert runner.maker_of([parts.UNPROVED], 4, free * GB) == parts.UNPROVED and runner.maker_of([], 4, GB) is None


def test_what_is_missing_is_said_in_one_line_and_nothing_is_installed_without_rt(
    tmp_path: pathlib.Path, monkeypatch: pytest.MonkeyPatch, capfd: Capture
) -> None:
    monkeypatch.setenv("PATH", str(tmp_path))
    monkeypatch.setattr(sys, "argv", ["check", *only("proofs", "page-tests")])
    assert runner.main("The gate.\n\n    check\n") == 2
    assert capfd.readouterr() == ("", "check: these are missing: nodejs, rt, the toolchain\n")


def test_a_package_that_is_nowhere_is_missing(monkeypatch: pytest.MonkeyPatch) -> None:
    monkeypatch.setattr(os, "geteuid", lambda: 1)
    assert debian.install(["no-such-package-of-debian", "coreutils"]) == ["no-such-package-of-debian"]


def test_a_wrong_use_has_status_2() -> None:
    assert check("--only", "nothing").returncode == 2


@pytest.mark.parametrize("ignored, number, status", [(False, 15, 143), (False, 1, 129), (True, 1, 0)])
def test_a_signal_ends_it_and_leaves_nothing_unless_it_is_ignored_as_under_nohup(
    tmp_path: pathlib.Path, ignored: bool, number: int, status: int
) -> None:
    seconds = 1 if ignored else 300
    script(tmp_path / "rt", f"echo $$ > {tmp_path}/new; mv {tmp_path}/new {tmp_path}/pid; exec sleep {seconds}")
    words, environment = [str(ROOT / "check"), *only("proofs")], {**os.environ, "PATH": f"{tmp_path}:{PATH}"}
    how = signal.SIG_IGN if ignored else signal.SIG_DFL
    hang_up = lambda: signal.signal(signal.SIGHUP, how)
    with subprocess.Popen(words, stdout=subprocess.DEVNULL, env=environment, preexec_fn=hang_up) as process:
        assert eventually((tmp_path / "pid").exists)
        process.send_signal(number)
        assert process.wait(30) == status
    assert not os.path.exists(f"/proc/{(tmp_path / 'pid').read_text().strip()}")


def test_a_signal_lets_nothing_more_begin(notes: Notes) -> None:
    async def end_soon() -> None:
        one = runner.Runner(notes.folder / "toll", processors=1)
        running = asyncio.create_task(one.run_all([notes.part("a", until=9), notes.part("b")]))
        while not notes.lines():
            await asyncio.sleep(0.02)
        running.cancel()
        with contextlib.suppress(asyncio.CancelledError):
            await running
        assert one.ended == []

    asyncio.run(end_soon())
    assert notes.lines() == ["a begins"]


def test_each_tool_that_tries_the_program_is_a_part_or_named_as_skipped() -> None:
    words = " ".join([word for part in parts.BESIDE + parts.BEHIND for word in part.words] + [*parts.SKIPPED])
    names = [path.name for path in (ROOT / "tools").iterdir() if path.name.startswith(("try-", "check-"))]
    assert [name for name in names if f"tools/{name}" not in words] == []
    assert [file.name for file in (ROOT / "tests").glob("test_*.py") if f"tests/{file.name}" not in words] == []


def test_what_one_part_of_the_plant_s_tests_leaves_out_another_runs() -> None:
    of_plant = [part.words for part in parts.parts() if any(word.startswith("plant/tests") for word in part.words)]
    pairs = [pair for words in of_plant for pair in zip(words, words[1:]) if pair[1].startswith("plant/tests")]
    left_out = {word for before, word in pairs if before == "--ignore"}
    assert {word for before, word in pairs if before != "--ignore"} == {"plant/tests", *left_out}
    assert [path for path in left_out if not (ROOT / path).exists()] == []


# Sources

SHELL = ("toll", "demo/run", ".ci/run", "debian/toll.postinst", "packaging/completion.bash")
PYTHON = ("check", "plant/bin/hilpoven", "tools/try-page", "tools/check-sources", "tests/test_socket.py")


def sources_of(folder: pathlib.Path, language: str, program: str) -> str:
    """What the checks of a language look at, by a stub in the place of the program that looks."""
    script(folder / program, f'echo "$@" > {folder}/sources; exit 3')
    environment = {**os.environ, "PATH": f"{folder}:{PATH}"}
    assert tool("check-sources", language, env=environment).returncode == 1
    return (folder / "sources").read_text()


def test_each_script_is_looked_at(tmp_path: pathlib.Path) -> None:
    assert set(SHELL) <= set(sources_of(tmp_path, "shell", "shellcheck").split())


def test_sources_that_cannot_be_listed_fail(tmp_path: pathlib.Path) -> None:
    script(tmp_path / "git", "exit 128")
    assert tool("check-sources", "shell", env={**os.environ, "PATH": f"{tmp_path}:{PATH}"}).returncode == 1


NAMED = {
    "it": ["it = 1", "for it in (): pass", "[1 for _, it in ()]", "import os as it", "match 1:\n  case it: pass"],
    "found": ["if found := 1: pass", "found: int", "match 1:\n  case {**found}: pass"],
    "told": ["with open('a') as told: pass", "lambda told: 1", "a.told = 1", "a(told=1)"],
    "what": ["try: pass\nexcept OSError as what: pass"],
    "look_at": ["def look_at(): pass"],
    "thing": ["class thing: pass"],
}


@pytest.mark.parametrize("source, name", [(source, name) for name, sources in NAMED.items() for source in sources])
def test_a_name_that_says_nothing_is_reported(tmp_path: pathlib.Path, capsys: Capture, source: str, name: str) -> None:
    (tmp_path / "source.py").write_text(f"\n{source}\n")
    assert empty_names.main([tmp_path / "source.py"]) == 1
    assert re.fullmatch(rf"{tmp_path}/source.py:[23]: `{name}` .*\n", capsys.readouterr().out)


def test_a_name_that_says_more_or_that_another_gave_is_none_of_those(tmp_path: pathlib.Path) -> None:
    (tmp_path / "source.py").write_text('# it\ntold_onward = {"event": "told"}, a.told, it\n')
    assert empty_names.main([tmp_path / "source.py"]) == 0


def test_a_field_of_json_is_none_of_those_if_the_documents_name_it(tmp_path: pathlib.Path) -> None:
    for path, is_wrong in ((tmp_path / empty_names.FIELDS["made"][0], False), (tmp_path / "source.py", True)):
        path.parent.mkdir(parents=True, exist_ok=True)
        path.write_text("made: int\n")
        assert empty_names.main([path]) == is_wrong


def test_the_gate_runs_this_and_nothing_else() -> None:
    lines = (ROOT / ".ci" / "run").read_text().splitlines()
    assert [line for line in lines if line and not line.startswith(("#", "set ", "cd ", "trap "))] == ["./check"]
    assert "\n    ./check\n" in (ROOT / "README.md").read_text()
