"""What stands in for ssh with a key that `rrsync` holds to a folder, by the line that docs/standby.md has."""
import pathlib
import re
import shutil

from conftest import ROOT, script

NEEDS = ("rsync", "rrsync")
IS_THERE = all(map(shutil.which, NEEDS))


def line_of(folder: pathlib.Path | str) -> str:
    """What the page has a key begin with, for a folder."""
    ((line,),) = [re.findall(r"`(restrict,command=\"rrsync [^`]*)`", (ROOT / "docs" / "standby.md").read_text())]
    return line.replace("/var/lib/toll/NAME/follow", str(folder))


def command_of(folder: pathlib.Path | str) -> str:
    """The command that such a line allows alone."""
    return re.findall(r'command="([^"]*)"', line_of(folder))[0]


def rsh_into(folder: pathlib.Path, path: pathlib.Path, first: str = "") -> pathlib.Path:
    """A program in the place of ssh: it notes what rsync asks for in PATH.log, and runs what the key allows. `first` is
    done before that."""
    return script(path, f'shift\nexport SSH_ORIGINAL_COMMAND="$*"\necho "$*" >> {path}.log\n{first}\nexec {command_of(folder)}')
