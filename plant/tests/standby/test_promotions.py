"""What a promotion and a restore of a moment leave as it is: no line of the journal goes, and no key that was changed is right again."""
import hashlib
import json
import os
import pathlib
import shutil

import pytest
from conftest import Plant
from following import follower_of, look
from hilpoven.core import settings as site
from hilpoven.core.journal.log import Journal
from hilpoven.core.journal.query import check
from hilpoven.care.standby import chain, promoting

OLD, NEW = "ACMEKEY1", "ANOTHERKEY2"


@pytest.fixture
def standby(program, tmp_path) -> Plant:
    """A folder of another machine, without an office."""
    (tmp_path / "standby").mkdir(mode=0o700)
    return Plant(program, tmp_path / "standby")


@pytest.fixture
def pieces(at_work) -> pathlib.Path:
    """Pieces of an office: piece 1 has the unit PRESS, 2 another key of ACME, and 3 the unit OVEN."""
    folder = at_work.folder / "follow"
    follower = follower_of(at_work.db, folder, f"{os.uname().nodename}:{at_work.db}")
    look(follower)
    for words, typed in ((["unit-add", "PRESS"], None), (["owner", "key", "ACME"], NEW), (["unit-add", "OVEN"], None)):
        assert at_work.run(*words, stdin=typed).status == 0
        look(follower)
    assert chain.newest_in(str(folder)).last == 3 and key_in(at_work) == NEW
    return folder


def key_in(plant: Plant) -> str:
    """ACME's key in an office's file."""
    ((key,),) = plant.rows("SELECT okey FROM owners WHERE owner = 'ACME'")
    return key


def asked(plant: Plant) -> list[list[str]]:
    """The words of what the journal notes as asked."""
    return [line["words"] for line in plant.lines() if line["event"] == "asked"]


def status_of(plant: Plant, key: str) -> int:
    """What ACME's request with a key is answered by the office's server."""
    import http.client

    with plant.serve() as server:
        peer = http.client.HTTPConnection("127.0.0.1", server.port, timeout=60)
        peer.request("GET", "/orders/O-1", None, {"toll-owner": "ACME", "toll-key": key})
        return peer.getresponse().status


def test_a_promotion_up_to_a_piece_keeps_the_journal_and_the_changed_key(at_work, pieces):
    before = at_work.journal.read_bytes()
    done = at_work.run("promote", "--until", 1, pieces)
    assert done.status == 0 and "is the office of piece 1" in done.out, done
    assert at_work.journal.read_bytes().startswith(before) and check(str(at_work.journal), file=str(at_work.db)).wrong == []
    assert ("PRESS",) in at_work.content()["units"] and ("OVEN",) not in at_work.content()["units"]
    assert key_in(at_work) == NEW and status_of(at_work, OLD) == 403 and status_of(at_work, NEW) == 200
    assert "the keys of ACME were changed since, and stay as they are now" in done.err
    assert "the journal keeps 4 lines behind that piece" in done.err
    assert asked(at_work)[-1][:3] == ["promote", "--until", "1"] and asked(at_work)[-1][3].endswith("-00000001.piece")
    assert "stay as they are now" in at_work.lines()[-1]["answer"]
    assert at_work.run("verify").status == 0 and at_work.run("unit-add", "OVEN").out == "accepted\n"


def test_a_promotion_up_to_a_piece_names_the_notes_that_lost_their_rows(at_work):
    """A later shipment of the same key went to another customer."""
    for party in ("NORD", "SPAS"):
        assert at_work.run("party", "add", "ACME", party, "--name", party, "--role", "customer").status == 0
    folder = at_work.folder / "follow"
    follower = follower_of(at_work.db, folder, f"{os.uname().nodename}:{at_work.db}")
    look(follower)
    assert at_work.run("unit-add", "PRESS").status == 0
    look(follower)
    assert at_work.run("ship", "ACME", "K9", "S-1", "BAY1", 5, 103, "--to", "NORD", "--yes").out == "accepted\n"
    look(follower)
    done = at_work.run("promote", "--until", 1, folder)
    assert done.status == 0 and "notes that lost what they are about: 1" in done.out and "NORD" in done.out
    assert at_work.run("ship", "ACME", "K9", "S-1", "BAY1", 5, 103, "--yes").out == "accepted\n"  # the same values, without a customer
    assert "NORD" not in at_work.run("show", "key", "ACME", "K9").out
    assert "notes that lost what they are about: 1" in at_work.run("verify").out


def test_on_a_standby_a_changed_key_is_known_to_nobody_until_another_is_made(at_work, pieces, standby):
    """No file has the key of now there."""
    done = standby.run("promote", "--until", 1, pieces)
    assert done.status == 0 and key_in(standby) not in (OLD, NEW)
    assert "the keys of ACME were changed since, and the new ones are lost" in done.err and "hilpoven owner key NAME" in done.err
    assert standby.journal.read_bytes().startswith(at_work.journal.read_bytes())
    assert check(str(standby.journal), file=str(standby.db)).wrong == [] and standby.run("verify").status == 0
    assert status_of(standby, OLD) == 403 and standby.run("owner", "key", "ACME", stdin=NEW).status == 0 and status_of(standby, NEW) == 200


def test_a_promotion_of_all_pieces_has_the_keys_of_now(at_work, pieces, standby):
    done = standby.run("promote", pieces)
    assert done.status == 0 and key_in(standby) == NEW and "keys" not in done.err
    done = at_work.run("promote", pieces)  # whose journal is older than that of the pieces now
    assert done.status == 0 and key_in(at_work) == NEW


def test_a_key_that_only_the_lost_machine_changed_is_right_nowhere_again(at_work, pieces, standby):
    """The first machine goes on behind the promotion, cut off, and is promoted later."""
    assert standby.run("promote", pieces).status == 0
    follower = follower_of(standby.db, pieces, f"{os.uname().nodename}:{standby.db}", 2)
    look(follower)
    assert at_work.run("owner", "key", "BOLT", stdin="BOLTKEY3").status == 0
    done = at_work.run("promote", pieces)
    assert done.status == 0 and "lines that pieces don't have, and is moved aside" in done.err and "the keys of BOLT were changed since" in done.err
    ((key,),) = at_work.rows("SELECT okey FROM owners WHERE owner = 'BOLT'")
    assert key not in ("BOLTKEY1", "BOLTKEY3") and key_in(at_work) == NEW
    (aside,) = at_work.folder.glob("office-before-restore-*")
    assert ["owner key", "BOLT", "********"] in [json.loads(line).get("words") for line in (aside / "office.db.journal").read_text().splitlines()]
    assert check(str(at_work.journal), file=str(at_work.db)).wrong == []


def test_lines_that_pieces_lack_stay(at_work, pieces):
    """They came when nobody followed."""
    assert at_work.run("unit-add", "LATE").status == 0
    before = at_work.journal.read_bytes()
    done = at_work.run("promote", pieces)
    assert done.status == 0 and "the journal keeps 2 lines behind that piece" in done.err
    assert at_work.journal.read_bytes().startswith(before) and ("LATE",) not in at_work.content()["units"]
    assert check(str(at_work.journal), file=str(at_work.db)).wrong == []


@pytest.mark.parametrize("cut", (0, 1, 100, -1, -200))
def test_a_journal_that_a_stop_cut_goes_on_with_the_lines_of_the_pieces(at_work, pieces, cut):
    before = at_work.journal.read_bytes()
    os.truncate(at_work.journal, cut if cut >= 0 else len(before) + cut)
    assert at_work.run("promote", pieces).status == 0
    assert at_work.journal.read_bytes().startswith(before) and check(str(at_work.journal), file=str(at_work.db)).wrong == []


def test_a_journal_that_is_written_meanwhile_stops_a_promotion_before_anything_is_moved(at_work, pieces, monkeypatch):
    """Somebody's command is noted while it waits for the lock."""
    whole = at_work.journal.read_bytes()
    lines = whole.splitlines(keepends=True)
    at_work.journal.write_bytes(b"".join(lines[:2]))
    real, before = promoting.compared, at_work.content()

    def compared(*words: str) -> promoting.Beside:
        beside = real(*words)
        Journal(str(at_work.journal), str(at_work.db)).note(str(at_work.db), ["party", "add"])
        return beside

    with monkeypatch.context() as patch:
        patch.setattr(promoting, "compared", compared)
        done = at_work.run("promote", pieces)
    assert done.status == 3 and "was written meanwhile" in done.err and at_work.content() == before and not list(pieces.glob("promoted-*"))
    assert len(at_work.lines()) == 3 and not list(at_work.folder.glob("*before-restore*"))
    assert at_work.run("promote", pieces).status == 0 and at_work.journal.read_bytes().startswith(whole)  # the other one is aside, with its line
    assert len(list(at_work.folder.glob("*before-restore*/office.db.journal"))) == 1


@pytest.mark.parametrize("make", (lambda path: path.symlink_to("/etc/passwd"), os.mkfifo, os.mkdir))
def test_what_is_no_journal_stops_a_promotion(at_work, pieces, make):
    at_work.journal.unlink()
    make(at_work.journal)
    before = at_work.content()
    done = at_work.run("promote", pieces)
    assert done.status in (1, 2, 3) and done.err.startswith("hilpoven: ") and at_work.content() == before, done
    assert not list(pieces.glob("promoted-*"))


def test_lines_behind_damaged_pieces_come_from_a_later_snapshot(at_work, pieces, standby):
    follower = follower_of(at_work.db, pieces, f"{os.uname().nodename}:{at_work.db}")
    assert at_work.run("unit-add", "MILL").status == 0
    look(follower)
    follower.make_snapshot()
    next(pieces.glob("*-00000002.piece")).unlink()
    assert standby.run("promote", "--until", 1, pieces).status == 0
    assert standby.journal.read_bytes().startswith(at_work.journal.read_bytes()) and ("MILL",) not in standby.content()["units"]


def follow_settings(plant: Plant, folder: pathlib.Path) -> None:
    """Has the settings name the office and the folder of its pieces."""
    plant.settle()
    path = site.load.__defaults__[0]
    path.write_text(path.read_text() + f'[follow]\nto = "{folder}"\n')


def test_a_moment_keeps_the_changed_key_and_brings_a_journal_that_is_gone(at_work, pieces):
    follow_settings(at_work, pieces)
    at = chain.at_of(chain.newest_in(str(pieces)), 1)
    done = at_work.run("restore", "--at", at)
    assert done.status == 0 and key_in(at_work) == NEW and "the keys of ACME were changed since, and stay" in done.err, done
    assert ("OVEN",) not in at_work.content()["units"] and "stay as they are now" in at_work.lines()[-1]["answer"]
    # the machine has neither the file nor the journal any more
    for path in (at_work.db, at_work.journal, *at_work.folder.glob("office.db-*")):
        path.unlink(missing_ok=True)
    done = at_work.run("restore", "--at", at)
    assert done.status == 0 and key_in(at_work) not in (OLD, NEW) and "the keys of ACME were changed since, and the new ones are lost" in done.err, done
    assert ["unit-add", "OVEN"] in asked(at_work) and check(str(at_work.journal), file=str(at_work.db)).wrong == []


def test_a_backup_keeps_the_changed_key(at_work):
    at_work.settle()
    name = os.path.basename(at_work.run("backup").out.splitlines()[0])
    assert at_work.run("owner", "key", "ACME", stdin=NEW).status == 0
    done = at_work.as_member("restore", name)
    assert done.status == 0 and key_in(at_work) == NEW and "stay as they are now" in done.err, done
    assert at_work.run("owner", "key", "ACME", stdin="THIRDKEY3").status == 0
    for path in (at_work.db, *at_work.folder.glob("office.db-*")):
        path.unlink(missing_ok=True)
    done = at_work.as_member("restore", name)
    assert done.status == 0 and key_in(at_work) not in (OLD, NEW, "THIRDKEY3") and "the new ones are lost" in done.err, done


@pytest.mark.parametrize("words", (["promote"], ["promote", "--check"], ["promote", "--until", "1"], ["promote", "--until", "1", "--check"], ["--wait", "1", "promote"]))
def test_a_member_promotes_nothing(at_work, pieces, words):
    at_work.settle()
    before, files = at_work.journal.read_bytes(), sorted(at_work.folder.rglob("*"))
    done = at_work.as_member(*words)
    assert done.status == 2 and "promote is for root and the office's user alone, by the role restore of the settings" in done.err, done
    assert at_work.journal.read_bytes() == before and sorted(at_work.folder.rglob("*")) == files and key_in(at_work) == NEW


def test_links_and_pipes_in_a_folder_of_pieces_are_refused(at_work, pieces, standby):
    """Whoever may write there could show another file by them, or have a reader wait for ever."""
    (standby.folder / "secret").write_text("secret")
    follow_settings(at_work, pieces)
    at = chain.at_of(chain.newest_in(str(pieces)), 1)
    piece = next(pieces.glob("*-00000002.piece"))
    for name, make in {
        piece.name: lambda path: (shutil.move(piece, standby.folder / "kept"), path.symlink_to(standby.folder / "kept")),
        f"earlier-{'0' * 64}.db": lambda path: path.symlink_to(standby.folder / "secret"),
        "promoted-0009": lambda path: path.symlink_to("nowhere"),
        "follower.json": lambda path: path.symlink_to(standby.folder / "secret"),
        "0001-0123456789ab-00000000.snapshot": os.mkfifo,
    }.items():
        make(pieces / name)
        runs = {
            "promote": standby.run("promote", pieces),
            "check": standby.run("promote", "--check", pieces),
            "verify": standby.run("follow", "verify", pieces),
            "follow": at_work.run("follow", "--to", pieces),
            "follow --check": at_work.run("follow", "--to", pieces, "--check"),
            "restore": at_work.run("restore", "--at", at),
        }
        for done in runs.values():
            assert done.status in (1, 2) and f"{name} in {pieces} is no file" in done.err, (name, runs)
        assert not standby.db.exists() and not os.path.lexists(f"{at_work.db}.superseded")
        (pieces / name).unlink()
        if (standby.folder / "kept").exists():
            shutil.move(standby.folder / "kept", piece)
    assert standby.run("promote", pieces).status == 0


@pytest.mark.parametrize("name", ("office.db", "office.db-wal", "office.db.journal", "office.db.superseded", "office.db.lock", "", ".", "..", "../evil.db", "other-1.db", "office-0x.db"))
def test_a_piece_names_no_file_but_an_earlier_one(at_work, pieces, standby, name):
    follower = follower_of(at_work.db, pieces, f"{os.uname().nodename}:{at_work.db}")
    look(follower)
    digest = hashlib.sha256(b"x").hexdigest()
    (pieces / f"earlier-{digest}.db").write_bytes(b"x")
    follower.book.earlier = {name: digest}
    with follower.book.writer("file", 0) as piece:
        follower.book.finish(piece, follower.watch.place, 4096, follower.book.last.size)
    done = standby.run("promote", pieces)
    assert done.status == 1 and "isn't the earlier file" in done.err and list(standby.folder.iterdir()) == []
