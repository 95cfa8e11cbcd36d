"""Debian's packages that the parts need."""
import os
import shutil
import subprocess
import sys
from collections.abc import Callable, Iterable
from typing import TextIO

APT = ["apt-get", "-q", "-o", "DPkg::Lock::Timeout=600"]
# A program that was put there otherwise serves as well as its package.
PROGRAMS = dict(git="git", nodejs="node", gcc="gcc", curl="curl", chromium="chromium", sqlite3="sqlite3")
PROGRAMS |= {"nginx-light": "nginx", "libreoffice-calc": "soffice"}


def missing_of(packages: Iterable[str]) -> list[str]:
    """Those of these packages that aren't installed, by dpkg."""
    wanted = sorted(set(packages))
    if not wanted or not shutil.which("dpkg-query"):
        return wanted
    words = ["dpkg-query", "-W", "-f", "${Package} ${db:Status-Status}\n", *wanted]
    output = subprocess.run(words, capture_output=True, text=True).stdout
    installed = {line.split()[0] for line in output.splitlines() if line.endswith(" installed")}
    return [name for name in wanted if name not in installed and not shutil.which(PROGRAMS.get(name, "/"))]


def install(
    packages: Iterable[str], name: str = "check", to: TextIO = sys.stdout, is_over: Callable[[], bool] = lambda: False
) -> list[str]:
    """Installs what is missing, if this is root, and says so in the name of what needs it, and why apt-get couldn't;
    gives what is missing still. If it is over meanwhile, apt-get isn't broken off, and no other step begins."""
    missing = missing_of(packages)
    if not missing or os.geteuid() or not shutil.which("apt-get"):
        return missing
    print(f"{name}: apt-get installs {' '.join(missing)}", file=to, flush=True)
    environment = {**os.environ, "DEBIAN_FRONTEND": "noninteractive"}
    for words in (["update"], ["-y", "--no-install-recommends", "install", *missing]):
        if is_over():
            break
        nothing = subprocess.DEVNULL
        done = subprocess.run(
            [*APT, *words], stdin=nothing, stdout=nothing, stderr=subprocess.PIPE, env=environment, errors="replace"
        )
        if done.returncode:
            why = next(filter(None, reversed(done.stderr.splitlines())), "it said nothing")
            step = "update" if words == ["update"] else "install"
            print(f"{name}: apt-get {step} ended with {done.returncode}: {why}", file=to, flush=True)
    return missing_of(packages)
