"""./toll's first build: what begins when, what is built anew, and how it ends. A script stands in for `rt`."""
import fcntl
import os
import re
import shutil
import signal
import subprocess
import time
from collections.abc import Callable
from pathlib import Path
from typing import Any

import pytest
from conftest import PATIENCE, ROOT, eventually, heed_signals
from tests.harness import Result

RT = r"""#!/usr/bin/python3
import hashlib, os, pathlib, shutil, signal, subprocess, sys, time
told = pathlib.Path(os.environ["TOLD"])
verb, words = sys.argv[1], sys.argv[2:]
if verb == "version":
    print((told / "version").read_text())
    sys.exit()
assert not signal.pthread_sigmask(signal.SIG_BLOCK, []), "a signal doesn't end this"
here, top = pathlib.Path.cwd(), pathlib.Path.cwd().parent.parent
rows = {it.partition(":")[0]: it.partition(":")[2].split() for it in (top / "crates.txt").read_text().splitlines()}


def note(what):
    with open(told / "log", "a") as log:
        log.write(f"{what}\n")


def stamp(name):
    files = sorted(it for it in (top / "crates" / name / "src").rglob("*") if it.is_file())
    below = [stamp(it) for it in rows[name] if it in rows]
    return hashlib.sha256(repr([rows[name], [it.read_bytes() for it in files], below]).encode()).hexdigest()


def is_built(name):
    file = top / "crates" / name / "out" / "rlib" / "stamp"
    return file.is_file() and file.read_text() == stamp(name)


name, out = here.name, here / "out"
below = [it for it in rows if it != name]
for it in below:
    if not is_built(it):
        note(f"ANEW {it}")
if verb == "lib" and is_built(name):
    note(f"same {name}")
    sys.exit()
note(f"begin {name} {words[words.index('--jobs') + 1]}")
text = (here / "src" / ("main.rt" if verb == "run" else "lib.rt")).read_text()
(out / "incremental").mkdir(parents=True, exist_ok=True)
with open(out / "incremental" / "log", "a") as log:
    log.write("begun\n")
with open(out / "incremental" / "kept.oantt.new", "w") as kept:
    kept.write(text)
os.replace(out / "incremental" / "kept.oantt.new", out / "incremental" / "kept.oantt")
(told / f"pid-{name}.new").write_text(str(os.getpid()))
os.replace(told / f"pid-{name}.new", told / f"pid-{name}")  # from here on a test may end this
time.sleep(float(text.partition("seconds ")[2].partition("\n")[0] or 0.1))
if "wrong" in text:
    print("fn it::well: proved", f"src/lib.rt:3:1: error[unknown-name]: there is no {name}", sep="\n")
    print("note: src/lib.rt:4:1: it is not proved that it returns")
    print("fn it::ill: no proof: write it", "logic=not-proved", sep="\n")
    print("rattle build: nothing was built, since only a proved crate is built")
    sys.exit(1)
if verb == "run":
    (out / name).write_text("#!/bin/sh\n# " + text.replace("\n", " ") + "\necho \"ran $*\"; cat\n")
    (out / name).chmod(0o755)
else:
    shutil.rmtree(out / "rlib", ignore_errors=True)
    (out / "rlib" / f"{name}.rlib").mkdir(parents=True)
    (out / "rlib" / f"{name}.rlib" / "format").write_text(text)
    (out / "rlib" / "stamp").write_text(stamp(name))
note(f"end {name}")
if verb == "run":
    sys.exit(subprocess.run([out / name, "script"]).returncode)
"""

# `long` is the longest chain. What the program doesn't stand on is never built.
CRATES = """# The crates, lowest first.
low:
short: low thiserror
mid_a: low
mid_b: low, mid_a
mid_c: low mid_b  # and no more
wide: low mid_a
apart:
toll_tests: low toll
toll: short mid_c wide
"""
WIDER = CRATES.replace("wide: low", "wide: low slab")
LIBRARIES = "low mid_a mid_b mid_c short wide"
ALL = "low mid_a mid_b mid_c short toll wide"
STARTED_BY = "tools/build-program"


def ended(process: "subprocess.Popen[str]", given: str = "") -> Result:
    """How a process ends, and what it has written."""
    out, err = process.communicate(given, timeout=PATIENCE)
    return Result(process.returncode, out, err)


class Repository:
    """A repository with a toolchain that stands in for the real one."""

    def __init__(self, folder: Path) -> None:
        self.folder, self.notes, self.rt = folder / "repository", folder / "told", folder / "bin" / "rt"
        self.environment = {**os.environ, "PATH": f"{folder}/bin:{os.environ['PATH']}", "TOLD": str(self.notes)}

    def begin(self) -> "Repository":
        """Makes it, with nothing that is built."""
        for path in (self.folder / "tools", self.notes, self.rt.parent):
            path.mkdir(parents=True)
        for name in ("toll", STARTED_BY, "tools/machine.py", "tools/trial.py"):
            shutil.copy2(ROOT / name, self.folder / name)
        self.rt.write_text(RT)
        self.rt.chmod(0o755)
        (self.notes / "version").write_text("kit 1")
        self.list_crates(CRATES)
        return self

    def list_crates(self, text: str) -> None:
        """Writes crates.txt, and each crate that isn't there yet."""
        (self.folder / "crates.txt").write_text(text)
        for name in re.findall(r"^(\w+):", text, re.M):
            if not (self.folder / "crates" / name).exists():
                self.write(name, "fn it\n")

    def write(self, name: str, text: str) -> None:
        file = self.folder / "crates" / name / "src" / ("main.rt" if name == "toll" else "lib.rt")
        file.parent.mkdir(parents=True, exist_ok=True)
        file.write_text(text)

    def start(self, *words: str, program: str = "toll", **how: Any) -> "subprocess.Popen[str]":
        pipes = dict.fromkeys(("stdin", "stdout", "stderr"), subprocess.PIPE)
        how = {**pipes, "env": self.environment, "preexec_fn": heed_signals, "text": True, **how}
        process: subprocess.Popen[str] = subprocess.Popen([self.folder / program, *words], **how)
        return process

    def toll(self, *words: str, given: str = "") -> Result:
        return ended(self.start(*(words or ("script",))), given)

    def build(self, words: str = "") -> Result:
        return ended(self.start(*words.split(), program=STARTED_BY))

    def noted(self, event: str = "begin") -> str:
        """The crates with which this was done, in order."""
        return " ".join(line.split()[1] for line in self.log().splitlines() if line.split()[0] == event)

    def jobs(self) -> dict[str, str]:
        return dict(re.findall(r"begin (\w+) (\d)", self.log()))

    def log(self) -> str:
        return (self.notes / "log").read_text() if (self.notes / "log").exists() else ""

    def forget(self) -> None:
        (self.notes / "log").unlink(missing_ok=True)

    def out(self, name: str) -> Path:
        return self.folder / "crates" / name / "out"

    def wait_for(self, name: str) -> None:
        """Waits until the crate's rt may be ended."""
        assert eventually((self.notes / f"pid-{name}").exists)

    def has_ended(self, name: str) -> bool:
        child = (self.notes / f"pid-{name}").read_text()
        return eventually(lambda: not os.path.exists(f"/proc/{child}"))

    def is_clean(self) -> bool:
        return not (self.folder / "out" / "building").exists() and not list(self.folder.glob("crates/*/out/rlib/*.new"))


@pytest.fixture
def repository(tmp_path: Path) -> Repository:
    return Repository(tmp_path).begin()


@pytest.fixture(scope="module")
def built_once(tmp_path_factory: pytest.TempPathFactory) -> Path:
    """The folder of a repository in which all is built, which no test changes."""
    folder = tmp_path_factory.mktemp("built")
    repository = Repository(folder).begin()
    assert repository.build().status == 0
    repository.forget()
    return folder


@pytest.fixture
def built(built_once: Path, tmp_path: Path) -> Repository:
    """A repository in which all is built."""
    shutil.copytree(built_once, tmp_path, symlinks=True, dirs_exist_ok=True)
    return Repository(tmp_path)


def alphabetical(names: str) -> str:
    return " ".join(sorted(names.split()))


def test_toll_builds_the_program_and_runs_it(repository: Repository) -> None:
    done = repository.toll("stock", "ACME", given="lines\n")
    assert done[:2] == (0, "ran stock ACME\nlines\n"), done.err
    assert alphabetical(repository.noted()) == ALL and repository.noted().endswith(" toll")
    assert "ANEW" not in repository.log() and repository.is_clean()


def test_a_built_program_runs_without_a_word(built: Repository) -> None:
    assert built.toll() == (0, "ran script\n", "") and built.log() == ""


# What begins when


@pytest.mark.parametrize(
    "write, begins",
    [({}, "low mid_a mid_b mid_c wide short toll"), ({"short": "fn it\n" * 9000}, "low short ")],
    ids=["a crate behind those below", "the chain by the lines of the crates"],
)
def test_the_longest_chain_begins_first(repository: Repository, write: dict[str, str], begins: str) -> None:
    for name, text in write.items():
        repository.write(name, text)
    assert repository.build("--jobs 1").status == 0
    assert repository.noted().startswith(begins) and set(repository.jobs().values()) == {"1"}


def test_idle_processors_go_to_the_chain(repository: Repository) -> None:
    for name in ("mid_a", "short"):
        repository.write(name, "seconds 0.5\n")
    assert repository.build("--jobs 4 --memory 100").status == 0
    assert {"low": "4", "mid_a": "3", "short": "1", "toll": "4"}.items() <= repository.jobs().items()


@pytest.mark.parametrize("words", ["--jobs 4 --memory 5", "--jobs 2 --memory 0.1"])
def test_no_more_runs_than_memory_allows_and_one_after_another_if_it_is_too_little(
    repository: Repository, words: str
) -> None:
    assert repository.build(words).status == 0
    events = [line.split()[0] for line in repository.log().splitlines()]
    assert events == ["begin", "end"] * 7 and set(repository.jobs().values()) == {"1"}


# What is built anew


def touch_all(built: Repository) -> None:
    for source in built.folder.glob("crates/*/src/*"):
        source.touch()


def add_wrong_body(built: Repository) -> None:
    built.write("toll_tests", "fn other\n")
    (built.folder / "crates" / "low" / "must-fail").mkdir()
    (built.folder / "crates" / "low" / "must-fail" / "ill.edit").write_text("file: src/lib.rt\n")


def forget_notes(built: Repository) -> None:
    for note in built.folder.glob("crates/*/out/rlib/built-from"):
        note.unlink()


CHANGES: dict[str, tuple[Callable[[Repository], object], str, str]] = {
    "a source": (lambda tree: tree.write("mid_b", "fn other\n"), "mid_b mid_c toll", ""),
    "a line of the list": (lambda tree: tree.list_crates(WIDER), "wide toll", ""),
    "a source that was only touched": (touch_all, "", ""),
    "wrong bodies and tests": (add_wrong_body, "", ""),
    "another toolchain": (lambda tree: (tree.notes / "version").write_text("kit 2"), "toll", LIBRARIES),
    "what rt built by itself": (forget_notes, "", LIBRARIES),
    "a library that was removed": (lambda tree: shutil.rmtree(tree.out("mid_b") / "rlib"), "mid_b", ""),
    "a library without a stamp": (lambda tree: (tree.out("mid_b") / "rlib" / "stamp").unlink(), "mid_b", ""),
    "another library": (lambda tree: (tree.out("mid_b") / "rlib" / "stamp").write_text("other"), "mid_b", ""),
    "another program": (lambda tree: (tree.out("toll") / "toll").write_text("#!/bin/sh\n"), "toll", ""),
}


@pytest.mark.parametrize("change, begun, same", CHANGES.values(), ids=CHANGES)
def test_what_changed_is_built_with_what_stands_on_it_and_nothing_else(
    built: Repository, change: Callable[[Repository], object], begun: str, same: str
) -> None:
    change(built)
    done = built.build()
    assert done.status == 0 and (done.err == "") == (not begun and not same)
    assert (built.noted(), alphabetical(built.noted("same"))) == (begun, same) and "ANEW" not in built.log()
    assert built.toll().out == "ran script\n"
    newest = max(source.stat().st_mtime_ns for source in built.folder.glob("crates/*/src/*"))
    assert (built.out("toll") / "toll").stat().st_mtime_ns > newest or begun.startswith(("mid_b", "wide"))


def test_an_edit_meanwhile_is_left_to_the_next_build(repository: Repository) -> None:
    repository.write("mid_a", "seconds 1\n")
    process = repository.start("script")
    repository.wait_for("mid_a")
    repository.write("low", "fn later\n")
    assert process.communicate(timeout=PATIENCE)[0] == "ran script\n" and "ANEW" not in repository.log()
    repository.forget()
    assert repository.toll().status == 0 and alphabetical(repository.noted()) == ALL


# What fails


def test_a_crate_that_fails_stops_what_stands_on_it_and_is_named(repository: Repository) -> None:
    repository.write("mid_b", "wrong\n")
    done, log = repository.toll(), repository.out("mid_b") / "build.log"
    assert done[:2] == (3, "") and alphabetical(repository.noted()) == "low mid_a mid_b short wide"
    lines = f"""mid_b failed:
    src/lib.rt:3:1: error[unknown-name]: there is no mid_b
    note: src/lib.rt:4:1: it is not proved that it returns
    fn it::ill: no proof: write it
    all that was said: {log}"""
    assert "".join(f"toll: {line}\n" for line in lines.splitlines()) in done.err
    assert done.err.endswith("toll: mid_b failed; above it were left: 2\ntoll: the program couldn't be built\n")
    assert "nothing was built" in log.read_text() and repository.is_clean()
    assert (repository.out("mid_b") / "incremental" / "kept.oantt").read_text() == "wrong\n"
    repository.forget()
    repository.write("mid_b", "right\n")
    assert repository.toll().status == 0 and repository.noted() == "mid_b mid_c toll"


def test_a_program_stays_if_the_next_cannot_be_built(built: Repository) -> None:
    built.write("toll", "wrong\n")
    assert built.toll().status == 3
    assert (built.out("toll") / "toll").exists() and built.toll().status == 3


def test_a_library_that_rt_leaves_without_a_stamp_has_failed(repository: Repository) -> None:
    stamping = '(out / "rlib" / "stamp").write_text(stamp(name))'
    repository.rt.write_text(RT.replace(stamping, 'print("the text changed")'))
    done = repository.toll()
    assert done.status == 3 and "toll: low failed:\ntoll:     the text changed\n" in done.err


# What ends it


@pytest.mark.parametrize("number", [signal.SIGINT, signal.SIGTERM, signal.SIGHUP])
@pytest.mark.parametrize("program", ["toll", STARTED_BY])
def test_ended_by_a_signal_it_leaves_nothing_but_what_was_finished(
    repository: Repository, number: int, program: str
) -> None:
    repository.write("mid_a", "seconds 300\n")
    process = repository.start(program=program)
    repository.wait_for("mid_a")
    process.send_signal(number)
    assert process.wait(20) == 128 + number and repository.has_ended("mid_a") and repository.is_clean()
    kept, built = (repository.out("mid_a") / name for name in ("incremental/kept.oantt", "rlib"))
    assert kept.exists() and not built.exists()
    repository.forget()
    repository.write("mid_a", "seconds 0.1\n")
    assert repository.toll().status == 0
    begun = set(repository.noted().split())
    assert set(ALL.split()) - {"low", "short"} <= begun <= set(ALL.split()) - {"low"}


MANY_SIGNALS = """
import random, threading

def send():
    while True:
        time.sleep(random.random() / 500)
        os.kill(os.getpid(), signal.SIGTERM)

session = Session(0)
threading.Thread(target=send, daemon=True).start()
for _ in range(20):
    with contextlib.suppress(Ended):
        while True:
            session.pause(lambda: "on it goes")
os._exit(0)
"""


def test_a_signal_at_any_moment_ends_the_build() -> None:
    text = (ROOT / STARTED_BY).read_text().replace("sys.exit(main())\n", MANY_SIGNALS)
    assert text.count(MANY_SIGNALS) == 1
    words, environment = ["/usr/bin/python3", "-u", "-"], {**os.environ, "PYTHONPATH": str(ROOT / "tools")}
    text = text.replace("Path(__file__)", f"Path({str(ROOT / STARTED_BY)!r})")
    done = subprocess.run(words, input=text, capture_output=True, text=True, timeout=PATIENCE, env=environment)
    assert done.returncode == 0 and "on it goes" in done.stderr, done.stderr


def test_ctrl_c_ends_all_at_once(repository: Repository) -> None:
    repository.write("low", "seconds 300\n")
    process = repository.start("script", stdin=subprocess.DEVNULL, start_new_session=True)
    repository.wait_for("low")
    os.killpg(process.pid, signal.SIGINT)
    assert "the building was ended; what is proved stays" in process.communicate(timeout=20)[1]
    assert process.returncode == 130 and repository.is_clean()


# What waits


def test_of_two_at_once_the_second_waits(repository: Repository) -> None:
    repository.write("low", "seconds 2\n")
    first = repository.start("first")
    repository.wait_for("low")
    second = repository.toll("second")
    waiting = "toll: another build of the program is under way here, and this one waits for it\n"
    assert second.out == "ran second\n" and waiting in second.err
    assert first.communicate(timeout=PATIENCE)[0] == "ran first\n" and alphabetical(repository.noted()) == ALL


def test_what_a_killed_build_left_goes_with_the_next(repository: Repository) -> None:
    repository.write("low", "seconds 4\n")
    process = repository.start(program=STARTED_BY)
    repository.wait_for("low")
    process.kill()
    process.communicate(timeout=20)
    assert not repository.is_clean()
    done = repository.toll()
    assert done.out == "ran script\n" and "another build" in done.err  # its rt goes on to its end, and keeps others out
    assert repository.is_clean()


def test_it_waits_for_another_rt_in_a_crate(repository: Repository) -> None:
    lock = os.open(repository.folder / "crates" / "mid_a", os.O_RDONLY)
    fcntl.flock(lock, fcntl.LOCK_EX)
    process = repository.start("script")
    assert eventually(lambda: "end short" in repository.log())
    time.sleep(0.3)
    assert "mid_a" not in repository.noted()
    os.close(lock)
    out, err = process.communicate(timeout=PATIENCE)
    waiting = "toll: another rt works in crates/mid_a, and what needs that waits for it\n"
    assert out == "ran script\n" and err.count(waiting) == 1


# What it says


def test_it_says_how_far_it_is_and_how_long_it_may_take(repository: Repository) -> None:
    repository.write("wide", "seconds 1.5\n")
    repository.write("mid_a", "fn it\n" * 3000)
    first, *lines = repository.build("--jobs 1 --every 0.3").err.splitlines()
    form = r"toll: \d of 7 crates are proved(, (some \d+ minutes|about a minute) to go)?( \([\w, ]+\))?"
    assert first.startswith("toll: building the program: ") and all(re.fullmatch(form, line) for line in lines), lines
    assert lines[0] == "toll: 0 of 7 crates are proved, some 7 minutes to go (low)"
    assert lines[-1] == "toll: 7 of 7 crates are proved" and sum("(wide)" in line for line in lines) >= 3


def test_it_says_so_within_thirty_seconds_by_itself() -> None:
    (seconds,) = re.findall(r'"--every", type=float, default=(\d+)', (ROOT / STARTED_BY).read_text())
    assert 10 <= float(seconds) <= 30


def test_a_wrong_use_has_status_2(repository: Repository) -> None:
    assert repository.build("--jobs 0").status == 2 and repository.log() == ""


def test_with_no_toolchain_it_says_so(repository: Repository) -> None:
    repository.rt.unlink()
    folders = (folder for folder in os.environ["PATH"].split(":") if not os.path.exists(f"{folder}/rt"))
    repository.environment["PATH"] = ":".join(folders)
    assert repository.toll() == (3, "", "toll: the toolchain's command rt isn't here, and the program isn't built\n")


NO_LINKS = """import errno, os

def link(*_, **__):
    raise OSError(errno.EXDEV, 'no links here')

os.link = link
"""


def test_it_copies_if_there_are_no_hard_links(repository: Repository, tmp_path: Path) -> None:
    (tmp_path / "no-links").mkdir()
    (tmp_path / "no-links" / "sitecustomize.py").write_text(NO_LINKS)
    repository.environment["PYTHONPATH"] = str(tmp_path / "no-links")
    assert repository.toll().out == "ran script\n"
    assert alphabetical(repository.noted()) == ALL and "ANEW" not in repository.log()


def test_what_stands_in_the_tree_is_never_written_into(built: Repository) -> None:
    library, kept = (built.out("low") / name for name in ("rlib/low.rlib/format", "incremental/log"))
    with open(library) as library_before, open(kept) as kept_before:
        built.write("low", "fn other\n")
        assert built.build().status == 0
        assert (library_before.read(), kept_before.read()) == ("fn it\n", "begun\n")
    assert (library.read_text(), kept.read_text()) == ("fn other\n", "begun\n" * 2)


@pytest.mark.parametrize(
    "text, why",
    [
        ("low:\n", "crates.txt has no crate toll"),
        ("low: mid\nmid: low\ntoll: low\n", "crates that stand on one another"),
        (CRATES + "toll: absent\nabsent:\n", "there is no folder crates/absent"),
    ],
)
def test_a_list_that_is_wrong_is_refused(repository: Repository, text: str, why: str) -> None:
    repository.list_crates(text)
    shutil.rmtree(repository.folder / "crates" / "absent", ignore_errors=True)
    done = repository.toll()
    assert done.status == 3 and why in done.err and repository.log() == ""
    assert done.err.endswith("toll: the program couldn't be built\n")


# A build without proofs

# As `rt try`, it has the clang of its own kit compile a stub, then the program's module unoptimized and with a
# sanitizer.
TRYING = r"""#!/usr/bin/python3
import os, pathlib, signal, subprocess, sys, tempfile, time
kit, told = pathlib.Path(__file__).resolve().parent.parent, pathlib.Path(os.environ["TOLD"])
if sys.argv[1] == "version":
    print("kit 1")
    sys.exit()
assert not signal.pthread_sigmask(signal.SIG_BLOCK, []), "a signal doesn't end this"
assert sys.argv[1] == "try" and (kit / "bin" / "rtlib.py").read_text() == "library" and (kit / "rlibs").is_dir()
text = pathlib.Path("src/main.rt").read_text()
rows = pathlib.Path("../../crates.txt").read_text().splitlines()
assert all(pathlib.Path("..", it.partition(":")[0]).is_dir() for it in rows)
(told / "pid-try.new").write_text(str(os.getpid()))
os.replace(told / "pid-try.new", told / "pid-try")
time.sleep(float(text.partition("seconds ")[2].partition("\n")[0] or 0))
if "wrong" in text:
    sys.exit("src/main.rt:3:1: error[unknown-name]: there is no such thing")
with tempfile.TemporaryDirectory() as folder:
    for module, more in (("stub", []), (text, ["-fsanitize=address"])):
        pathlib.Path(folder, "module.bc").write_text(module)
        words = ["-mllvm", "-trap", "-c", "-x", "ir", "module.bc", "-o", "module.o", "-fPIE", "-O0", *more]
        if subprocess.run([kit / "toolchain/bin/clang", *words], cwd=folder, env={}).returncode:
            sys.exit("the tool clang failed")
    print("it was run, and nothing is left")
"""
CLANG = r"""#!/usr/bin/python3
import pathlib, sys
words = sys.argv[1:]
how = " ".join(it for it in words if it.startswith(("-O", "-f")))
pathlib.Path(words[words.index("-o") + 1]).write_text(how + "\n" + pathlib.Path("module.bc").read_text())
"""
# Of the module it makes two objects.
LINKER = r"""#!/usr/bin/python3
import pathlib, sys
words = sys.argv[1:]
to = [it.partition("=")[2] for it in words if it.startswith("--lto-obj-path=")][0]
how = " ".join(it for it in words if it.startswith(("--lto-newpm-passes", "-mllvm", "-trap")))
pathlib.Path(to).write_text(how + "\n")
pathlib.Path(to + "1").write_text(pathlib.Path("module.bc").read_text())
"""
LINK = r"""#!/usr/bin/python3
import pathlib, sys
to = pathlib.Path(sys.argv[sys.argv.index("-o") + 1])
to.write_text("linked " + "".join(pathlib.Path(it).read_text() for it in sys.argv if it.endswith(".o")))
"""


class Unproved(Repository):
    """A repository with a kit that tries."""

    def begin(self) -> "Unproved":
        super().begin()
        kit, self.quick = self.folder.parent / "kit", self.folder / "out" / "quick"
        self.linker = kit / "toolchain/bin/ld.lld"
        texts = {"bin/rt": TRYING, "bin/rtlib.py": "library", "bin/rattle-link": LINK, "toolchain/bin/clang": CLANG}
        texts["toolchain/bin/ld.lld"] = LINKER
        for name, text in {**texts, "rlibs/one": "", "c/libos_c.a": ""}.items():
            (kit / name).parent.mkdir(parents=True, exist_ok=True)
            (kit / name).write_text(text)
            (kit / name).chmod(0o755)
        self.rt.unlink()
        self.rt.symlink_to(kit / "bin" / "rt")
        return self

    def is_left(self) -> bool:
        """Whether something of an unfinished build is left."""
        return (self.quick / "building").exists()

    def compiled(self) -> str:
        """What the program was compiled of, and how."""
        return (self.quick / "toll").read_text()


@pytest.fixture
def unproved(tmp_path: Path) -> Unproved:
    return Unproved(tmp_path).begin()


@pytest.fixture
def compiled(unproved: Unproved) -> Unproved:
    """One that has an unproved build."""
    assert unproved.build("--unproved").status == 0
    (unproved.notes / "pid-try").unlink()
    return unproved


def test_an_unproved_build_is_the_tried_module_optimized_and_says_what_it_is(unproved: Unproved) -> None:
    done = unproved.build("--unproved")
    assert done.status == 0 and "toll: out/quick/toll is compiled, and NOTHING OF IT IS PROVED" in done.err, done.err
    assert unproved.compiled() == "linked --lto-newpm-passes=default<O1> -mllvm -trap\nfn it\n"
    assert not unproved.is_left() and not (unproved.out("toll") / "toll").exists()


def test_an_unproved_build_of_the_same_text_stays_and_another_is_compiled(compiled: Unproved) -> None:
    assert compiled.build("--unproved").status == 0 and not (compiled.notes / "pid-try").exists()
    compiled.write("toll", "fn other\n")
    assert compiled.build("--unproved").status == 0 and compiled.compiled().endswith("fn other\n")


def test_what_cannot_be_compiled_is_named_and_the_last_build_stays(compiled: Unproved) -> None:
    compiled.write("toll", "wrong\n")
    done = compiled.build("--unproved")
    assert done.status == 3 and "toll:     src/main.rt:3:1: error[unknown-name]: there is no such thing\n" in done.err
    assert compiled.compiled().endswith("fn it\n") and not compiled.is_left()


@pytest.mark.parametrize("number, before", [(signal.SIGTERM, "unproved"), (signal.SIGINT, "compiled")])
def test_an_unproved_build_that_a_signal_ends_leaves_the_one_from_before(
    request: pytest.FixtureRequest, number: int, before: str
) -> None:
    repository: Unproved = request.getfixturevalue(before)
    repository.write("toll", "seconds 300\n")
    process = repository.start("--unproved", program=STARTED_BY)
    repository.wait_for("try")
    process.send_signal(number)
    err = process.communicate(timeout=20)[1]
    assert process.returncode == 128 + number and repository.has_ended("try") and not repository.is_left()
    was = "out/quick/toll is the one from before" if before == "compiled" else "there is no out/quick/toll"
    end = f"toll: the compiling was ended, and nothing of it is left: {was}, and the next one begins anew\n"
    assert err.endswith(end) and (repository.quick / "toll").exists() == (before == "compiled")
    assert before == "unproved" or repository.compiled().endswith("fn it\n")


def test_an_unproved_build_says_what_it_compiles_and_how_far_it_is(unproved: Unproved) -> None:
    unproved.write("toll", "seconds 1\n" + "fn it\n" * 30000)
    slow = "import time\nwords = sys.argv[1:]\ntime.sleep(1)"
    unproved.linker.write_text(LINKER.replace("words = sys.argv[1:]", slow))
    lines = unproved.build("--unproved --every 0.2").err.splitlines()[:-1]
    steps = [r"step 1 of 2, 7 crates of 30,0\d\d lines become one module", "step 2 of 2, the module is optimized"]
    beginning = "toll: compiling out/quick/toll, of which nothing is proved: "
    end = r": \d+ seconds so far, (some \d+ minutes|about a minute) to go"
    forms = [re.compile(beginning + step + end) for step in steps]
    numbers = [[number for number, form in enumerate(forms, 1) if form.fullmatch(line)] for line in lines]
    assert {tuple(found_by) for found_by in numbers} == {(1,), (2,)} and numbers == sorted(numbers), lines
    assert lines[0].endswith("0 seconds so far, some 5 minutes to go")
