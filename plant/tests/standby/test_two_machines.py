"""Two machines in network namespaces, with ssh between them: one is lost, the other one promoted, and the first refused.

    pytest-3 -m long tests/standby/test_two_machines.py

It needs root, and Debian's iproute2, openssh-client, openssh-server and rsync.
"""
import contextlib
import os
import pathlib
import shutil
import subprocess
import time

import pytest
from conftest import HILPOVEN, Plant, environment, eventually
from hilpoven.care.standby import chain
from restricted import line_of

NEEDS = ("ip", "rsync", "rrsync", "ssh", "ssh-keygen", "/usr/sbin/sshd")
pytestmark = [pytest.mark.long, pytest.mark.skipif(os.geteuid() != 0 or not all(map(shutil.which, NEEDS)), reason="needs root, ip, rsync and sshd")]
SSHD = """
ListenAddress 10.231.7.2
Port 22
HostKey {folder}/host
AuthorizedKeysFile {folder}/authorized
PidFile {folder}/sshd.pid
StrictModes no
UsePAM no
"""


def run(*words: object, **options: object) -> subprocess.CompletedProcess:
    """A program that has to end well."""
    return subprocess.run([str(word) for word in words], check=True, capture_output=True, text=True, **options)


class Machine:
    """A network namespace with an office's folder."""

    def __init__(self, name: str, program: str, folder: pathlib.Path) -> None:
        self.name = f"{name}-{os.getpid()}"
        folder.mkdir(mode=0o700)
        self.plant = Plant(program, folder)
        run("ip", "netns", "add", self.name)
        self.inside("ip", "link", "set", "lo", "up")

    def inside(self, *words: object) -> subprocess.CompletedProcess:
        return run("ip", "netns", "exec", self.name, *words)

    def begin(self, *words: object, **options: object) -> subprocess.Popen:
        return subprocess.Popen(["ip", "netns", "exec", self.name, *map(str, words)], **options)

    def settle(self, to: str, rsh: str) -> dict[str, str]:
        """The settings of its office, in a variable of the environment."""
        settings = self.plant.folder / "hilpoven.toml"
        settings.write_text(f'file = "{self.plant.db}"\ntoll = "{self.plant.program}"\n[follow]\nto = "{to}"\nrsh = "{rsh}"\n')
        return environment(HILPOVEN_SETTINGS=settings)


@pytest.fixture
def machines(program, tmp_path):
    """Two machines with a line between them, and an sshd on the second."""
    first, second = (Machine(name, program, tmp_path / name) for name in ("first", "second"))
    with contextlib.ExitStack() as stack:
        for machine in (first, second):
            stack.callback(subprocess.run, ["ip", "netns", "del", machine.name])
        run("ip", "link", "add", f"v{os.getpid() % 10_000}a", "netns", first.name, "type", "veth", "peer", "name", "v0", "netns", second.name)
        first.inside("ip", "link", "set", f"v{os.getpid() % 10_000}a", "name", "v0")
        for place, machine in enumerate((first, second), 1):
            machine.inside("ip", "addr", "add", f"10.231.7.{place}/24", "dev", "v0")
            machine.inside("ip", "link", "set", "v0", "up")
        for name in ("host", "key"):
            run("ssh-keygen", "-q", "-t", "ed25519", "-N", "", "-f", tmp_path / name)
        (tmp_path / "authorized").write_text(f"{line_of(second.plant.folder / 'follow')} {(tmp_path / 'key.pub').read_text()}")
        (tmp_path / "sshd.conf").write_text(SSHD.format(folder=tmp_path))
        pathlib.Path("/run/sshd").mkdir(exist_ok=True)
        sshd = second.begin("/usr/sbin/sshd", "-D", "-f", tmp_path / "sshd.conf", "-E", tmp_path / "sshd.log")
        stack.callback(lambda: (sshd.kill(), sshd.wait()))
        yield first, second, stack


def rsh_of(folder: pathlib.Path) -> str:
    return f"ssh -i {folder}/key -o BatchMode=yes -o ConnectTimeout=2 -o StrictHostKeyChecking=accept-new -o UserKnownHostsFile={folder}/known"


def test_a_machine_is_lost_and_refused_when_it_is_back(machines, laid, tmp_path):
    first, second, stack = machines
    target = second.plant.folder / "follow"
    target.mkdir(mode=0o700)
    for end in ("", "-wal"):
        if pathlib.Path(f"{laid.db}{end}").exists():
            shutil.copyfile(f"{laid.db}{end}", f"{first.plant.db}{end}")
    settings = first.settle("root@10.231.7.2:/", rsh_of(tmp_path))
    log = open(tmp_path / "log", "w+")
    follower = first.begin(HILPOVEN, "follow", env=settings, stderr=log)
    stack.callback(lambda: (follower.kill(), follower.wait()))
    times: dict[str, float] = {}
    with first.plant.serve() as server:
        assert eventually(lambda: bool(chain.chains_in(str(target)))), log.seek(0) or log.read()
        for number in range(60):
            assert first.plant.toll("receive", "ACME", f"N{number}", "SALT", "S-77", "BAY1", 5, 102).out == "accepted\n"
        time.sleep(3)
        # the line is cut, the office serves on, and nothing of that is at the other end
        first.inside("ip", "link", "set", "v0", "down")
        assert server.ask("ACME", "POST", "/orders", '{"order":"LATE","recipe":"BRINE-10","batches":1}')[0] == 200
        began = time.monotonic()
        promotion = second.plant.run("promote")
        assert promotion.status == 0, promotion
        times["promoted"] = time.monotonic() - began
        assert second.plant.rows("SELECT count(*) FROM moves WHERE mkey GLOB 'N*'") == [(60,)]
        with second.plant.serve() as other:
            times["served"] = time.monotonic() - began
            assert other.ask("ACME", "GET", "/orders/O-1")[0] == 200
            # the line is back: the first machine's follower learns of it, and ends
            first.inside("ip", "link", "set", "v0", "up")
            assert follower.wait(90) == 1
    log.seek(0)
    assert "timeline 2 has begun" in log.read()
    # the machine comes back: its unit looks first, and neither the server nor a command goes on
    done = subprocess.run(["ip", "netns", "exec", first.name, str(HILPOVEN), "follow", "--check"], env=settings, capture_output=True, text=True)
    assert done.returncode == 1 and "timeline 2 has begun" in done.stderr
    assert subprocess.run(["test", "!", "-e", f"{first.plant.db}.superseded"]).returncode == 1
    assert first.plant.run("unit-add", "LATE").status == 1 and second.plant.run("unit-add", "OVEN").out == "accepted\n"
    print(times)
