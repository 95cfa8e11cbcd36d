"""The letterhead of papers that leave the plant: its name, address, contact and logo, as the settings say."""
import base64
import hashlib
import json
import os
import stat
from collections.abc import Callable
from dataclasses import replace
from typing import Any, NamedTuple

from ...core.failure import WRONG_USE, Failure
from ...core.settings import PlantFacts

MOST_BYTES = 1 << 20  # of a logo
TYPES = {b"\x89PNG\r\n\x1a\n": "png", b"\xff\xd8\xff": "jpeg"}  # by what a file begins with
DIGITS = 8  # of the digest in a number


class Letterhead(NamedTuple):
    """What stands at the top of a paper; the logo is a `data:` address, so that a page is complete in itself."""

    name: str
    address: str
    contact: str
    logo: str


class Issue(NamedTuple):
    """What a paper that leaves the plant says of who issues it, if the settings tell that, and on which date."""

    letterhead: Letterhead | None
    day: str


def letterhead_of(plant: PlantFacts) -> Letterhead | None:
    """The letterhead of a plant; `None` if the settings say nothing of it."""
    if plant == PlantFacts():
        return None
    return Letterhead(plant.name, plant.address, plant.contact, address_of(plant.logo) if plant.logo else "")


def letterhead_beside(plant: PlantFacts, tell: Callable[[str], None]) -> Letterhead | None:
    """The letterhead of papers that leave the plant beside one of its own, which no logo stops: without the logo if
    that can't be used, which is told."""
    try:
        return letterhead_of(plant)
    except Failure as failure:
        tell(f"Without the logo: {failure.message}.")
        return letterhead_of(replace(plant, logo=""))


def address_of(logo: str) -> str:
    """The `data:` address of a picture; fails if a file is none."""
    content = read(logo)
    kind = next((kind for begin, kind in TYPES.items() if content.startswith(begin)), "")
    if not kind:
        raise not_used(logo, "it is neither PNG nor JPEG")
    return f"data:image/{kind};base64,{base64.b64encode(content).decode()}"


def read(logo: str) -> bytes:
    """The content of a logo's file."""
    try:
        descriptor = os.open(logo, os.O_RDONLY | os.O_CLOEXEC | os.O_NONBLOCK)
        with open(descriptor, "rb") as file:
            if not stat.S_ISREG(os.fstat(descriptor).st_mode):
                raise not_used(logo, "it is no file")
            content = file.read(MOST_BYTES + 1)
    except OSError as error:
        raise not_used(logo, error.strerror or str(error)) from error
    if len(content) > MOST_BYTES:
        raise not_used(logo, f"it is larger than {MOST_BYTES:,} bytes")
    return content


def not_used(logo: str, why: str) -> Failure:
    """That a file can't be the logo, and what to do."""
    return Failure(f"the logo {logo} can't be used: {why}", WRONG_USE, "name another file in the settings, or none")


def number_of(front: str, says: Any) -> str:
    """The number of a paper: what it is about, and the first digits of the digest of what it says. The same paper has
    the same number whenever it is made, and one that says anything else has another."""
    digest = hashlib.sha256(json.dumps(says, sort_keys=True).encode()).hexdigest()
    return f"{front}-{digest[:DIGITS].upper()}"
