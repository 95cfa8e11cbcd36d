"""Timelines: an office begins with the first, and each promotion begins the next one.

FILE.timeline has the number, beside FILE; it is missing in the first timeline. A promotion marks the folder that it was
made of. Whoever follows an office of an earlier timeline into that folder, or into one that gets it, is refused, and
FILE.superseded, beside FILE, keeps its server's unit and the plant's command from going on.
"""
import json
import os
import re
from collections.abc import Iterable
from typing import Any

from . import files
from .failure import REFUSED, Failure
from .office import SUPERSEDED

TIMELINE = ".timeline"  # the end of its name
MARK = re.compile(r"promoted-([0-9]{4})")
FIRST, MOST = 1, 9_999


def number_of(file: str) -> int:
    """The timeline of an office's file."""
    path = f"{file}{TIMELINE}"
    try:
        number = read(path)["timeline"]
    except FileNotFoundError:
        return FIRST
    except (OSError, ValueError, KeyError, TypeError) as error:
        raise Failure(f"{path} doesn't say the timeline: {error}") from error
    if type(number) is not int or not FIRST <= number <= MOST:
        raise Failure(f"{path} doesn't say the timeline")
    return number


def read(path: str) -> Any:
    """What a small file says."""
    with open(os.open(path, files.READ)) as lines:
        return json.load(lines)


def write(path: str, number: int, origin: dict[str, Any]) -> None:
    """Writes a timeline with what it came from, whole or not at all, and has it on the disk."""
    files.replace(path, f"{json.dumps({'timeline': number, **origin})}\n".encode(), 0o666)


def begin(file: str, number: int, origin: dict[str, Any]) -> None:
    """Begins a timeline of an office's file, which came from a chain of pieces."""
    write(f"{file}{TIMELINE}", number, origin)
    files.remove(f"{file}{SUPERSEDED}")


def mark(folder: str, number: int, origin: dict[str, Any]) -> None:
    """Marks a folder as that of which an office of a timeline was made."""
    write(os.path.join(folder, mark_of(number)), number, origin)


def mark_of(number: int) -> str:
    """The name of the mark of a timeline."""
    return f"promoted-{number:04}"


def latest(names: Iterable[str]) -> int:
    """The latest timeline that marks of a folder name; 0 if there is none."""
    return max((int(mark[1]) for mark in map(MARK.fullmatch, names) if mark), default=0)


def supersede(file: str, number: int, where: str) -> Failure:
    """Keeps an office from being served, since another one was made of its pieces; why."""
    why = f"{where} was promoted: timeline {number} has begun, and {file} is of timeline {number_of(file)}"
    write(f"{file}{SUPERSEDED}", number, {"why": why})
    return superseded(file, why)


def superseded(file: str, why: str) -> Failure:
    """Why an office of an earlier timeline isn't worked on, and what to do."""
    return Failure(
        why,
        REFUSED,
        "the promoted machine has the office now. To make this machine its standby, move the file with all beside it "
        f"elsewhere. {file}{SUPERSEDED} keeps `hilpoven` and the server's unit from going on",
    )


def require_latest(file: str) -> None:
    """Fails for an office that another one has superseded."""
    try:
        why = str(read(f"{file}{SUPERSEDED}")["why"])
    except FileNotFoundError:
        return
    except (OSError, ValueError, KeyError, TypeError):
        why = f"{file}{SUPERSEDED} is there"
    raise superseded(file, why)
