"""Pieces that somebody crafted, whole in themselves: they give an office or a line that says what is wrong, never anything else."""
import contextlib
import hashlib
import json
import os
import pathlib
from dataclasses import asdict

import pytest
from conftest import Plant
from following import follower_of, look
from hilpoven.core.failure import Failure
from hilpoven.care.standby import chain, piece

HEAD = {
    "kind": ["file", "", 3, None], "office": ["", 3, None, "\x1b[2J"], "timeline": [0, 9_999, 10**9, "1", None], "chain": ["../../../x", "0" * 12, 3, None],
    "number": [-1, 10**12, "1", 1.5, None, True], "before": ["", 3, None], "at": ["", "yesterday", "9999-99-99", 3, None, "2026-11-30"],
    "page_size": [0, -4096, 1, 3, 10**12, "4096", None], "pages": [0, -1, 10**12, "1", None], "size": [0, -1, 10**15, "1", None],
    "journal_from": [-1, 7, 10**15, "0", None], "journal": [-1, 10**12, "0", None], "journal_hash": ["", 3, None], "earlier": [-1, 5, 10**12, None],
    "sha256": ["", 3, None], "log": [{}, [], 3, {"salts": [1]}, None], "file": [[], [1, 2], {}, 3, None, ["a", "b", "c"]],
    "more": [1],
}
CONTENT = {
    "page 0": ({"pages": 1}, (0).to_bytes(4) + bytes(4096)), "last page": ({"pages": 1}, (2**32 - 1).to_bytes(4) + bytes(4096)),
    "a list of files": ({"earlier": 2}, b"[]"), "no JSON": ({"earlier": 2}, b"{{"), "nested": ({"earlier": 90_000}, b"[" * 90_000), "numbers": ({"earlier": 8}, b'{"a": 3}'),
    "a journal of nothing": ({"journal": 3, "journal_from": 0}, b"\0\n\n"), "half of a line": ({"journal": 3, "journal_from": 0}, b"{}x"),
}


@pytest.fixture
def standby(program, tmp_path) -> Plant:
    """A folder of another machine, without an office."""
    (tmp_path / "standby").mkdir(mode=0o700)
    return Plant(program, tmp_path / "standby")


@pytest.fixture
def last(at_work) -> pathlib.Path:
    """The last of two pieces of an office."""
    folder = at_work.folder / "follow"
    follower = follower_of(at_work.db, folder, f"{os.uname().nodename}:{at_work.db}")
    look(follower)
    for name in ("PRESS", "OVEN"):
        assert at_work.run("unit-add", name).status == 0
        look(follower)
    return pathlib.Path(chain.newest_in(str(folder)).newest)


def craft(path: pathlib.Path, fields: dict[str, object], content: bytes | None = None) -> None:
    """Puts a piece with these fields in a piece's place, with its own hashes."""
    header = asdict(piece.opened(str(path)).header)
    content = path.read_bytes()[piece.HEAD :] if content is None else content
    fields = {**header, **({} if content is None else {"sha256": hashlib.sha256(content).hexdigest()}), **fields}
    text = json.dumps({"format": piece.FORMAT, **fields}).encode().ljust(piece.HEAD - piece.SUM)
    path.write_bytes(text + hashlib.sha256(text).hexdigest().encode() + b"\n" + content)


def try_crafted(at_work: Plant, standby: Plant, last: pathlib.Path) -> None:
    """All that reads the folder ends with a line: an exception would end the test. The follower begins another chain, or goes on."""
    for plant, words in ((at_work, ["follow", "verify", last.parent]), (standby, ["promote", "--check", last.parent])):
        done = plant.run(*words)
        assert done.status in (0, 1, 2, 3) and "\x1b" not in done.err + done.out and done.err + done.out, (words, done)
    assert list(standby.folder.iterdir()) == []
    with contextlib.suppress(Failure):
        look(follower_of(at_work.db, last.parent, f"{os.uname().nodename}:{at_work.db}"))


def test_a_crafted_header_is_named_and_nothing_is_made_of_it(at_work, standby, last):
    """Those that a follower could have written are looked at as they are."""
    whole, named = last.read_bytes(), 0
    for name, value in ((name, value) for name, values in HEAD.items() for value in values):
        craft(last, {name: value})
        done = at_work.run("follow", "verify", last.parent)
        assert done.status in (0, 1) and last.name in done.out or done.status == 0, (name, value, done)
        named += done.status
        if done.status:
            assert standby.run("promote", last.parent).status == 1 and list(standby.folder.iterdir()) == [], (name, value)
        last.write_bytes(whole)
    assert named > len(HEAD) * 2
    assert standby.run("promote", last.parent).status == 0


@pytest.mark.parametrize("case", CONTENT)
def test_a_crafted_content_gives_a_line(at_work, standby, last, case):
    fields, content = CONTENT[case]
    craft(last, {"pages": 0, "journal": 0, "earlier": 0, **fields}, content)
    try_crafted(at_work, standby, last)


def test_a_nested_header_gives_a_line(at_work, standby, last):
    text = b"[" * (piece.HEAD - piece.SUM)
    last.write_bytes(text + hashlib.sha256(text).hexdigest().encode() + b"\n")
    try_crafted(at_work, standby, last)
