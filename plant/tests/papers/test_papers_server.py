"""All that `toll` answers for a paper comes from one server over its copy, which nobody else reaches and which never stays."""
import os
import pathlib
import signal
import subprocess
import time

import pytest
from conftest import Plant, eventually, script

RECALL = ("papers", "recall", "HOUSE", "W-101")
PAPERS = (
    (*RECALL, "made", "--no-pdf"), ("papers", "batch", "ACME", "O-1", 1, "made", "--no-pdf"), ("papers", "certificate", "ACME", "B-1", "made", "--no-pdf"),
    ("papers", "lot", "ACME", "B-1", "made", "--no-pdf"), ("papers", "statement", "ACME", "--from", 0, "--to", 999, "made", "--no-pdf"),
    ("papers", "settlement", "ACME", "--from", 0, "--to", 999, "made", "--no-pdf"), ("papers", "takeout", "ACME", "made", "--no-pdf"), ("board", "--out", "board.html"),
    ("labels", "ACME", "B-1", "--out", "labels.pdf"),
)


def servers(folder: pathlib.Path) -> list[int]:
    """The processes that work in a folder of this one, also in one that is gone."""
    at = []
    for name in filter(str.isdigit, os.listdir("/proc")):
        try:
            place = os.readlink(f"/proc/{name}/cwd")
        except OSError:
            continue
        if place.startswith(f"{folder}/"):
            at.append(int(name))
    return at


@pytest.mark.parametrize("words", PAPERS, ids=lambda words: words[0] if words[0] != "papers" else words[1])
def test_a_paper_opens_its_copy_once(at_work, words, monkeypatch):
    runs = at_work.folder / "runs"
    counting = Plant(str(script(at_work.folder / "counting", f"echo \"$@\" >> '{runs}'; exec '{at_work.program}' \"$@\"")), at_work.folder)
    monkeypatch.chdir(at_work.folder)
    done = counting.run(*words)
    assert (done.status, done.err) == (0, ""), done
    opened = [line for line in runs.read_text().splitlines() if "--db" in line]
    assert [line.split()[-3:] for line in opened] == [["serve", "0", "1000000"]]
    assert servers(at_work.folder) == []


def test_nobody_else_reaches_the_socket(at_work):
    seen = at_work.folder / "seen"
    looking = script(at_work.folder / "looking", f"case \"$*\" in *serve*) stat -c '%a %u' . > '{seen}';; esac; exec '{at_work.program}' \"$@\"")
    assert Plant(str(looking), at_work.folder).run(*RECALL, at_work.folder / "made", "--no-pdf").status == 0
    assert seen.read_text() == f"700 {os.geteuid()}\n"


@pytest.mark.parametrize("number", (signal.SIGINT, signal.SIGTERM, signal.SIGHUP, signal.SIGKILL))
def test_a_server_ends_with_whoever_began_it(at_work, number):
    """The program waits before it serves, so that the signal comes while the command waits for it, or after it has begun."""
    slow = script(at_work.folder / "slow", f"case \"$*\" in *serve*) sleep 1;; esac; exec '{at_work.program}' \"$@\"")
    for wait in (0.0, 0.9, 1.1):
        with Plant(str(slow), at_work.folder).begun(*RECALL, at_work.folder / "made") as process:
            assert eventually(lambda: servers(at_work.folder) != [])
            time.sleep(wait)
            process.send_signal(number)
            assert process.communicate()[1] == ""
        assert eventually(lambda: servers(at_work.folder) == []) and eventually(lambda: not list(at_work.folder.glob(".hilpoven.*")))


def test_no_server_begins_for_who_is_gone(at_work):
    """The command is killed between its fork and the moment from which the system ends its child: that finds nobody to say where it listens."""
    late = at_work.folder / "bin"
    late.mkdir()
    script(late / "setpriv", "kill -KILL $PPID; sleep 0.3; exec /usr/bin/setpriv \"$@\"")
    done = subprocess.run(["/usr/bin/python3", "-I", "-c", BEGINS, at_work.program, at_work.db], env={**os.environ, "PATH": f"{late}:{os.environ['PATH']}"}, capture_output=True)
    assert done.returncode == -signal.SIGKILL
    time.sleep(1)
    assert servers(at_work.folder.parent) == [] and not pathlib.Path(f"{at_work.db}.sock").exists()


BEGINS = f"""import sys
sys.path.insert(0, {str(pathlib.Path(__file__).resolve().parents[2] / 'src')!r})
from hilpoven.core.client import PlantSocket, begin_server
begin_server(sys.argv[1], PlantSocket(sys.argv[2]))
"""


def test_a_server_that_ends_by_itself_is_told(at_work):
    short = script(at_work.folder / "short", f"case \"$*\" in *serve*) echo listening 1; exit;; esac; exec '{at_work.program}' \"$@\"")
    done = Plant(str(short), at_work.folder).run(*RECALL, at_work.folder / "made", "--no-pdf")
    assert done.status == 3 and "doesn't answer" in done.err and done.err.count("\n") == 1 and not (at_work.folder / "made").exists()
    assert not list(at_work.folder.glob(".hilpoven.*"))
