#!/usr/bin/python3 -IB
"""Writes the owner's page and the documents as they are installed.

    packaging/documents.py SHARE       SHARE is /usr/share of a package: it gets toll/page/ and doc/toll/

The page has the contract of its interface beside it, with the page that the contract cites. In all pages, programs,
units and examples have the names by which they are installed, and a link to what isn't installed there is its words.
The engineers' pages are not installed.
"""
import os
import pathlib
import re
import shutil
import sys

ROOT = pathlib.Path(__file__).resolve().parent.parent
ENGINEERING = ROOT / "docs" / "engineering"
EXAMPLES = "/usr/share/doc/toll/examples"
UNITS = "/usr/lib/systemd/system"
CONTRACT = ("openapi.yaml", "http.md", "commands.md")
TOP = ("README.md", "SECURITY.md")
LINK = re.compile(r"\[([^\]]+)\]\(([^):#]+)(?:#[^)]*)?\)")

# Names in the sources, and what is installed in their place.
NAMES = {
    r"toll\(\) \{ \./toll\b": "toll() { command toll",
    r"(?<![\w/])\./toll\b": "toll",
    r"(?<![\w./])plant/bin/hilpoven\b": "hilpoven",
    r"(?<![\w./])demo/run\b": f"{EXAMPLES}/demo",
    r"(?<![\w./])packaging/(nginx\.conf|office\.env)": rf"{EXAMPLES}/\1",
    r"(?<![\w./])packaging/((?:toll|toll-backup|toll-failed)@\.(?:service|timer))": rf"{UNITS}/\1",
    r"(?<![\w./])packaging/(hardening\.conf|office\.conf)": rf"{UNITS}/toll@.service.d/\1",
}
# Names of what no package has. Installed pages say SOURCES/tools/check-docs.
ELSEWHERE = r"(?<![\w./])(?<!SOURCES/)(?:tools|packaging|debian|demo|crates|plant|docs/engineering)/(?=[\w@.-])"


def installed(text: str) -> str:
    """The text with the names of what is installed."""
    for form, name in NAMES.items():
        text = re.sub(form, name, text)
    return re.sub(ELSEWHERE, lambda match: f"SOURCES/{match[0]}", text)


def named_in_sources(text: str) -> list[str]:
    """The names in a text of what no package has."""
    return re.findall(ELSEWHERE + r"[\w@./-]+|(?<![\w/])\./toll\b", text)


def linked(text: str, folder: str, names: set[str]) -> str:
    """The text of a page in a folder of the sources, with links to these names alone. Others are their words."""

    def link(match: re.Match[str]) -> str:
        return match[0] if os.path.normpath(f"{folder}/{match[2]}") in names else match[1]

    return LINK.sub(link, text)


def copy(name: str, target: pathlib.Path, names: set[str]) -> None:
    """Copies a file of the sources; a page gets the names of what is installed, and links to these files alone."""
    source = ROOT / name
    target.parent.mkdir(parents=True, exist_ok=True)
    if source.suffix == ".md":
        target.write_text(installed(linked(source.read_text(), os.path.dirname(name) or ".", names)))
    else:
        shutil.copyfile(source, target)


def write(share: pathlib.Path) -> None:
    """Writes the page and the documents below SHARE."""
    page, docs = share / "toll/page", share / "doc/toll/docs"
    ignored = shutil.ignore_patterns("tests", "package.json")
    shutil.copytree(ROOT / "page", page, ignore=ignored, dirs_exist_ok=True, copy_function=shutil.copyfile)
    for name in CONTRACT:
        copy(f"docs/{name}", page / name, {f"docs/{other}" for other in CONTRACT})
    files = [file for file in (ROOT / "docs").rglob("*") if file.is_file() and file.name != "toll.1"]
    names = {*TOP, *(str(file.relative_to(ROOT)) for file in files if ENGINEERING not in file.parents)}
    for name in names:
        copy(name, docs.parent / name, names)


if __name__ == "__main__":
    if len(sys.argv) != 2:
        sys.exit(__doc__)
    write(pathlib.Path(sys.argv[1]))
