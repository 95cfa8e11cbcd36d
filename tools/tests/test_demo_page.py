"""demo/page: what it installs, compiles and says, over programs that stand in for apt-get, the compiling and the
demo."""
import os
import pathlib
import shutil
import signal
import subprocess
from collections.abc import Callable
from typing import Any

import pytest
from conftest import PATIENCE, ROOT, eventually, heed_signals, script

BUILDER = """printf '%s\\n' "toll: step 1 of 2" >&2
touch {folder}/began
{then}
mkdir -p {folder}/clone/out/quick; echo program > {folder}/clone/out/quick/toll"""
MODULES = ("click", "jinja2", "odf", "openpyxl")
# Python finds no module but those of Python itself and of this folder.
WITHOUT = """import sys
sys.path[:] = [path for path in sys.path if "dist-packages" not in path] + [{!r}]
"""


class Clone:
    """A clone whose compiling and whose demo are scripts, on a machine whose Python and apt-get are of the test."""

    def __init__(self, folder: pathlib.Path) -> None:
        self.folder, self.page = folder, folder / "clone" / "demo" / "page"
        for name in ("demo", "tools", "plant/bin"):
            (folder / "clone" / name).mkdir(parents=True)
        self.kit = folder / "kit"
        self.page.write_text((ROOT / "demo" / "page").read_text().replace('"/opt/rattle"', repr(str(self.kit))))
        self.page.chmod(0o755)
        shutil.copytree(ROOT / "tools" / "checking", folder / "clone" / "tools" / "checking")
        script(folder / "clone" / "plant" / "bin" / "hilpoven", 'echo "$TOLL $*"')
        self.builds("true")
        (folder / "bin").mkdir()
        (folder / "modules").mkdir()
        (folder / "site").mkdir()
        (folder / "site" / "sitecustomize.py").write_text(WITHOUT.format(str(folder / "modules")))
        self.environment = {**os.environ, "PATH": f"{folder}/bin:/usr/bin:/bin", "PYTHONPATH": str(folder / "site")}
        self.environment.pop("TOLL", None)
        self.has(*MODULES)
        script(folder / "bin" / "rt", "true")

    def builds(self, then: str) -> None:
        script(self.folder / "clone" / "tools" / "build-program", BUILDER.format(folder=self.folder, then=then))

    def has(self, *modules: str) -> None:
        for module in modules:
            (self.folder / "modules" / f"{module}.py").touch()

    def lacks(self, *modules: str) -> None:
        for module in modules:
            (self.folder / "modules" / f"{module}.py").unlink()

    def apt(self, text: str) -> None:
        """An apt-get of these lines, on a machine where dpkg knows no package."""
        script(self.folder / "bin" / "apt-get", f'echo "$*" >> {self.folder}/asked\n{text}')
        script(self.folder / "bin" / "dpkg-query", "true")

    def start(self, *words: str, **options: Any) -> "subprocess.Popen[str]":
        pipes: dict[str, Any] = {"stdout": subprocess.PIPE, "stderr": subprocess.PIPE, "env": self.environment}
        pipes["preexec_fn"] = heed_signals
        process: subprocess.Popen[str] = subprocess.Popen([str(self.page), *words], text=True, **pipes | options)
        return process

    def run(self, *words: str, **options: Any) -> tuple[int | None, str, str]:
        process = self.start(*words, **options)
        out, err = process.communicate(timeout=PATIENCE)
        return process.returncode, out, err


@pytest.fixture
def clone(tmp_path: pathlib.Path) -> Clone:
    return Clone(tmp_path)


def test_it_compiles_and_then_runs_the_demo(clone: Clone) -> None:
    status, out, err = clone.run("--port", "8080")
    assert (status, out) == (0, f"{clone.folder}/clone/out/quick/toll demo --port 8080\n")
    first = "demo/page: first the program is compiled, then a sample week is made and its page served\n"
    assert err == first + "toll: step 1 of 2\n"


def test_of_another_program_nothing_is_compiled(clone: Clone) -> None:
    clone.environment["TOLL"] = "/bin/true"
    assert clone.run() == (0, "/bin/true demo\n", "") and not (clone.folder / "began").exists()


@pytest.mark.skipif(os.geteuid() != 0, reason="only root installs packages")
def test_packages_that_are_missing_are_installed(clone: Clone) -> None:
    clone.lacks("odf", "click")
    clone.apt(f'case "$*" in *install*) touch {clone.folder}/modules/odf.py {clone.folder}/modules/click.py;; esac')
    status, out, err = clone.run()
    assert status == 0 and "demo/page: apt-get installs python3-click python3-odf\n" in err and out.endswith(" demo\n")
    assert (clone.folder / "asked").read_text().splitlines()[-1].endswith("install python3-click python3-odf")


def test_where_apt_get_installs_nothing_what_is_missing_is_told_and_nothing_compiled(clone: Clone) -> None:
    clone.lacks("odf")
    clone.apt("exit 100")
    status, out, err = clone.run()
    assert (status, out) == (2, "") and not (clone.folder / "began").exists()
    missing = "these are missing, and nothing is served: python3-odf. As root: apt-get install python3-odf"
    assert err.splitlines()[-1] == f"demo/page: {missing}"


def test_without_the_toolchain_nothing_is_installed(clone: Clone) -> None:
    (clone.folder / "bin" / "rt").unlink()
    clone.lacks("odf")
    clone.apt("true")
    status, out, err = clone.run()
    assert (status, out) == (3, "") and not (clone.folder / "asked").exists()
    assert err.startswith("demo/page: the toolchain's command rt isn't here, and nothing is served")


def test_the_toolchain_is_found_where_its_kit_lies(clone: Clone) -> None:
    (clone.kit / "bin").mkdir(parents=True)
    (clone.folder / "bin" / "rt").rename(clone.kit / "bin" / "rt")
    status, out, _ = clone.run()
    assert (status, out) == (0, f"{clone.folder}/clone/out/quick/toll demo\n")


@pytest.mark.skipif(os.geteuid() != 0, reason="only root installs packages")
def test_why_apt_get_failed_is_told(clone: Clone) -> None:
    clone.lacks("odf")
    clone.apt('printf "W: old\nE: Unable to locate package python3-odf\n" >&2; exit 100')
    err = clone.run()[2]
    assert "demo/page: apt-get update ended with 100: E: Unable to locate package python3-odf\n" in err
    assert "demo/page: apt-get install ended with 100: E: Unable to locate package python3-odf\n" in err


@pytest.mark.skipif(os.geteuid() != 0, reason="only root installs packages")
@pytest.mark.parametrize("number", [signal.SIGINT, signal.SIGTERM, signal.SIGHUP])
def test_a_signal_while_packages_are_installed_ends_it_behind_that_step(clone: Clone, number: signal.Signals) -> None:
    clone.lacks("odf")
    clone.apt(f"touch {clone.folder}/waits; while test -e {clone.folder}/waits; do sleep 0.1; done")
    process = clone.start(start_new_session=True)
    assert eventually(lambda: (clone.folder / "waits").exists())
    process.send_signal(number)
    assert process.poll() is None
    (clone.folder / "waits").unlink()
    out, err = process.communicate(timeout=PATIENCE)
    assert (process.returncode, out) == (128 + number, "") and not (clone.folder / "began").exists()
    assert err.endswith("demo/page: it was ended, and nothing is served; what apt-get installed stays\n")
    assert len((clone.folder / "asked").read_text().splitlines()) == 1  # no install behind the update


@pytest.mark.parametrize("status", [3, 130])
def test_a_compiling_that_fails_is_told_and_nothing_is_served(clone: Clone, status: int) -> None:
    clone.builds(f"exit {status}")
    done = clone.run()
    assert done[:2] == (status, "") and done[2].endswith("toll: step 1 of 2\ndemo/page: nothing is served\n")


SENDS: dict[str, Callable[["subprocess.Popen[str]"], None]] = {
    "ctrl-c": lambda process: os.killpg(process.pid, signal.SIGINT),
    "TERM": lambda process: process.terminate(),
    "HUP": lambda process: process.send_signal(signal.SIGHUP),
}


@pytest.mark.parametrize("send", SENDS.values(), ids=SENDS)
def test_a_signal_ends_the_compiling_and_the_end_is_told(
    clone: Clone, send: Callable[["subprocess.Popen[str]"], None]
) -> None:
    ending = 'trap "echo toll: nothing of it is left >&2; kill \\$! 2> /dev/null; exit 143" TERM INT'
    noting = f"echo $$ > {clone.folder}/pid; touch {clone.folder}/waits"
    clone.builds(f"sleep 300 > /dev/null 2>&1 & {ending}; {noting}; wait")
    process = clone.start(start_new_session=True)
    assert eventually(lambda: (clone.folder / "waits").exists())
    send(process)
    out, err = process.communicate(timeout=PATIENCE)
    assert process.returncode in (129, 130, 143) and out == ""
    assert err.endswith("toll: nothing of it is left\ndemo/page: nothing is served\n")
    assert not os.path.exists(f"/proc/{(clone.folder / 'pid').read_text().strip()}")
