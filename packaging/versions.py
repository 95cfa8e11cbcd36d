#!/usr/bin/python3 -IB
"""Ends with 1 and a line if the program, CHANGELOG.md or debian/changelog has another version than the plant's command.

    packaging/versions.py PROGRAM
"""
import pathlib
import re
import subprocess
import sys

ROOT = pathlib.Path(__file__).resolve().parent.parent
VERSION_FILE = "plant/src/hilpoven/__init__.py"
# How each file says its newest version, which in debian/changelog has a revision.
FORMS = {VERSION_FILE: r'^VERSION = "(\S+)"', "CHANGELOG.md": r"^## (\S+)$",
         "debian/changelog": r"^hilpoven \((\S+)-\d+\)"}


def version_in(text: str, form: str) -> str:
    """The first version of this form in a text."""
    match = re.search(form, text, re.MULTILINE)
    return match[1] if match else "no version"


def versions(program: str) -> dict[str, str]:
    """The version of each file, and that of the program's usage."""
    usage = subprocess.run([program], stdin=subprocess.DEVNULL, capture_output=True, errors="replace", timeout=60)
    by_file = {file: version_in((ROOT / file).read_text(), form) for file, form in FORMS.items()}
    return {**by_file, program: version_in(usage.stderr + usage.stdout, r"^toll (\S+), office format")}


if __name__ == "__main__":
    if len(sys.argv) != 2:
        sys.exit(__doc__)
    try:
        version_of = versions(sys.argv[1])
    except OSError as fault:
        sys.exit(f"the program can't be run: {fault}")
    if others := ", ".join(f"{file} has {version}" for file, version in version_of.items() if version != version_of[VERSION_FILE]):
        sys.exit(f"{VERSION_FILE} has version {version_of[VERSION_FILE]}, but {others}")
