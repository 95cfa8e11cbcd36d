"""A promotion and a follower that are killed at a step: the same command again gives the office, and no piece is torn."""
import os
import pathlib
import shutil
import sys

import pytest
from conftest import Plant
from following import follower_of, look
from hilpoven.cli import main
from hilpoven.core.journal.query import check
from hilpoven.care.standby import chain
from hilpoven.care.standby.follower import Follower
from killed import kill_at, steps



def follow_for_three_looks() -> None:
    """The command, of which the follower ends by itself behind three looks, each with a piece."""
    looks, real = [], Follower.step

    def step(self: Follower) -> None:
        real(self)
        self.written = 0.0
        looks.append(1)
        if len(looks) == 3:
            sys.exit(0)

    Follower.step = step
    main()


def try_promotions(at_work: Plant, room: pathlib.Path, kills: int) -> int:
    """Kills a promotion at so many steps; how often it was killed."""
    pieces, done, whole = room / "pieces", 0, 0
    follower = follower_of(at_work.db, pieces)
    look(follower)
    assert at_work.run("unit-add", "OVEN").status == 0
    look(follower)
    for step in [0, *range(kills)]:
        folder = room / "standby"
        shutil.rmtree(folder, ignore_errors=True)
        folder.mkdir(mode=0o700)
        for mark in pieces.glob("promoted-*"):
            mark.unlink()
        standby = Plant(at_work.program, folder)
        at = steps(whole, kills)[step] if whole and step < len(steps(whole, kills)) else 0
        ended = kill_at(standby, at, ["promote", pieces])
        whole, done = whole or ended, done + (not ended)
        assert not standby.db.exists() or standby.content() == at_work.content(), at
        # whoever could have served it finds the folder marked
        assert not standby.db.exists() or list(pieces.glob("promoted-*")), at
        promotion = standby.run("promote", pieces)
        assert promotion.status == 0 and standby.content() == at_work.content(), (at, promotion)
        assert check(str(standby.journal)).wrong == [] and standby.run("verify").status == 0, at
    return done


def try_followers(at_work: Plant, room: pathlib.Path, kills: int) -> int:
    """Kills a follower at so many steps of its first looks, with a command in between; how often it was killed."""
    done = whole = 0
    for step in [0, *range(kills)]:
        pieces = room / "pieces"
        shutil.rmtree(pieces, ignore_errors=True)
        pieces.mkdir(mode=0o700)
        at = steps(whole, kills)[step] if whole and step < len(steps(whole, kills)) else 0
        for number in range(2):
            ended = kill_at(at_work, at, ["follow", "--to", pieces], begin=follow_for_three_looks)
            whole, done = whole or ended, done + (not ended)
            assert at_work.run("unit-add", f"U-{at}-{number}").status in (0, 1)
        assert all(path.name.endswith((".piece", ".snapshot", ".json", ".made")) or path.name.startswith(".hilpoven.") for path in pieces.iterdir()), at
        name = f"{os.uname().nodename}:{at_work.db}"
        look(follower_of(at_work.db, pieces, name))
        for of in chain.chains_in(str(pieces)):
            assert chain.Report(of, str(pieces)).look().wrong == [], at
        standby = Plant(at_work.program, room / "standby")
        shutil.rmtree(standby.folder, ignore_errors=True)
        standby.folder.mkdir(mode=0o700)
        assert standby.run("promote", pieces).status == 0 and standby.content() == at_work.content(), at
    return done


def test_a_kill_of_a_promotion_leaves_none_or_all(at_work, tmp_path):
    assert try_promotions(at_work, tmp_path, 8) >= 6


def test_a_kill_of_a_follower_tears_no_piece(at_work, tmp_path):
    assert try_followers(at_work, tmp_path, 6) >= 8


@pytest.mark.long
def test_many_kills_of_a_promotion_leave_none_or_all(at_work, tmp_path):
    assert try_promotions(at_work, tmp_path, 100) >= 80


@pytest.mark.long
def test_many_kills_of_a_follower_tear_no_piece(at_work, tmp_path):
    assert try_followers(at_work, tmp_path, 60) >= 80  # the second of two goes on where the first was, in fewer steps
