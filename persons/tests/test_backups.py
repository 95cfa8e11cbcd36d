"""Persons in backups, in pieces of a standby and behind a carry-over: those come back who stand by the journal, with the password
that they have, and nobody else."""
import json
import os
import pathlib
import time
from collections.abc import Callable
from typing import Any

import pytest
from conftest import OWNER, PASSWORD, Told, hilpoven
from hilpoven.care import persons as kept
from hilpoven.care.standby.book import Book
from hilpoven.care.standby.follower import Follower
from hilpoven.core.journal.log import Journal
from hilpoven_persons import passwords, people
from try_page.site import Office

TOLL = os.environ.get("TOLL", "")


class Desk:
    """An office with persons, in a folder of its own."""

    def __init__(self, folder: pathlib.Path) -> None:
        os.umask(0o077)
        folder.mkdir(mode=0o700, exist_ok=True)
        self.folder, self.db = folder, folder / "office.db"
        self.office = Office(TOLL, folder, 0)
        self.folder, self.db = folder, pathlib.Path(self.office.db)
        self.persons, self.journal = (pathlib.Path(f"{self.db}.{end}") for end in ("persons", "journal"))

    def reply(self, *words: object, stdin: str = "") -> Told:
        """What a command tells."""
        return hilpoven(str(self.db), *map(str, words), stdin=stdin)

    def run(self, *words: object, stdin: str = "") -> Told:
        """The same of one that has to be done."""
        result = self.reply(*words, stdin=stdin)
        assert result.status == 0, result
        return result

    def add(self, name: str, role: str = "reads", owner: str = "ACME") -> None:
        """Adds a person."""
        self.run("person", "add", owner, name, "--role", role, stdin=PASSWORD.format(name))

    def backup(self) -> pathlib.Path:
        """A new backup."""
        (self.folder / "backups").mkdir(exist_ok=True, mode=0o700)
        return pathlib.Path(self.run("backup", self.folder / "backups").out.splitlines()[0])

    def known(self) -> dict[str, str]:
        """The role of each person who can log in by the first password."""
        persons = people.read(str(self.persons)).values()
        return {person.name: person.role.word for person in persons if passwords.is_right(PASSWORD.format(person.name), person.secret)}

    def answer(self) -> str:
        """What the journal has as the last answer."""
        return str(json.loads(self.journal.read_text().splitlines()[-1])["answer"])


def with_two(folder: pathlib.Path) -> Desk:
    """An office with two persons of ACME."""
    desk = Desk(folder)
    desk.office.do(OWNER.format("ACME"))
    desk.add("rita")
    desk.add("oscar", "orders")
    return desk


@pytest.fixture
def desk(tmp_path: pathlib.Path) -> Desk:
    """The same, of a test's own."""
    return with_two(tmp_path / "one")


@pytest.fixture(scope="module")
def known(tmp_path_factory: pytest.TempPathFactory) -> Desk:
    """The same, which no test changes."""
    return with_two(tmp_path_factory.mktemp("known"))


def test_a_backup_has_persons_for_its_user_alone_and_goes_with_them(desk: Desk) -> None:
    backup = desk.backup()
    beside = pathlib.Path(f"{backup}.persons")
    assert beside.read_bytes() == desk.persons.read_bytes() and beside.stat().st_mode & 0o777 == 0o600
    (lost := pathlib.Path(f"{backup}".replace(".db", "") + "9.db.persons")).write_text("")
    stray = backup.parent / f"{backup.name[:-18]}20200101-000000.db.persons"  # of a backup that was killed before it had its name
    stray.write_text("")
    desk.run("backup", "--keep", 1, desk.folder / "backups")
    assert not beside.exists() and not stray.exists() and lost.exists()


def test_a_restore_leaves_persons_that_are_there(desk: Desk) -> None:
    backup = desk.backup()
    desk.run("person", "remove", "rita")
    desk.add("rosa", "releases")
    before = desk.persons.read_bytes()
    result = desk.run("restore", backup)
    assert desk.persons.read_bytes() == before and desk.known() == {"oscar": "orders", "rosa": "releases"} and "person" not in result.err


def test_a_restore_brings_persons_back_who_stand_by_the_journal(desk: Desk) -> None:
    desk.add("paul")
    desk.add("anna")
    backup = desk.backup()
    desk.run("person", "remove", "rita")
    desk.run("person", "role", "oscar", "releases")
    desk.run("person", "password", "paul", stdin="another-password")
    desk.add("late")
    assert desk.reply("person", "remove", "nobody").status == 1 and desk.reply("person", "add", "ACME", "anna", "--role", "reads").status == 1
    desk.persons.unlink()
    result = desk.run("restore", backup)
    assert desk.known() == {"anna": "reads", "oscar": "releases"} and desk.persons.stat().st_mode & 0o777 == 0o600
    assert "2 persons of owners can log in as before: anna, oscar" in result.err and "no copy has their password: late, paul" in result.err
    assert "log in as before: anna, oscar" in desk.answer() and "late, paul" in desk.answer() and "rita" not in result.err + desk.answer()
    desk.add("rita")
    desk.add("paul")
    assert set(desk.known()) == {"anna", "oscar", "paul", "rita"}


def test_another_machine_gets_persons_with_the_journal_of_the_backup(desk: Desk) -> None:
    backup = desk.backup()
    for path in desk.db.parent.iterdir():
        path.unlink()
    result = desk.run("restore", backup)
    assert desk.known() == {"oscar": "orders", "rita": "reads"} and "can log in as before: oscar, rita" in result.err


def changed(value: dict[str, Any], **members: Any) -> dict[str, Any]:
    """A person with other members."""
    return {**value, **members}


SECRET = passwords.secret_of("known-to-the-thief")
WRITTEN: dict[str, Callable[[dict[str, Any]], Any]] = {
    "another's secret": lambda rita: [changed(rita, secret=SECRET)], "a new person": lambda rita: [changed(rita, name="thief", secret=SECRET)],
    "another owner": lambda rita: [changed(rita, owner="BOLT")], "no person": lambda _: [{}], "numbers": lambda rita: [changed(rita, name=1)],
    "lists": lambda rita: [changed(rita, name=["rita"])], "no list": lambda _: 7, "texts": lambda _: ["rita"],
}


def put_back(known: Desk, folder: pathlib.Path, content: str) -> tuple[dict[str, str], str]:
    """Who can log in behind a restore of a copy with this content, and what is told."""
    (folder / "copy").write_text(content)
    notes = kept.put_back(str(folder / "office.db"), Journal(str(known.journal)), str(folder / "copy"))
    return {person.name: person.role.word for person in people.read(str(folder / "office.db.persons")).values()}, "; ".join(notes)


@pytest.mark.parametrize("name", WRITTEN)
def test_what_is_written_into_a_copy_lets_nobody_in(known: Desk, tmp_path: pathlib.Path, name: str) -> None:
    rita = next(each for each in json.loads(known.persons.read_text())["persons"] if each["name"] == "rita")
    persons, notes = put_back(known, tmp_path, json.dumps({"form": 1, "persons": WRITTEN[name](rita)}))
    assert not persons and "no copy has their password: oscar, rita" in notes


@pytest.mark.parametrize("content", ["", "{", "[]", '{"form": 2, "persons": []}', "\0" * 10])
def test_what_is_no_copy_of_persons_brings_nobody_back(known: Desk, tmp_path: pathlib.Path, content: str) -> None:
    persons, notes = put_back(known, tmp_path, content)
    assert not persons and "oscar, rita" in notes


def test_a_written_role_isn_t_taken(known: Desk, tmp_path: pathlib.Path) -> None:
    content = known.persons.read_text().replace('"role": "reads"', '"role": "releases"')
    assert put_back(known, tmp_path, content)[0] == {"oscar": "orders", "rita": "reads"}


def test_an_office_without_persons_gets_none_and_is_told_nothing(tmp_path: pathlib.Path) -> None:
    desk = Desk(tmp_path / "one")
    desk.office.do(OWNER.format("ACME"))
    backup = desk.backup()
    assert not pathlib.Path(f"{backup}.persons").exists()
    assert "person" not in desk.run("restore", "--foreign", backup).err and not desk.persons.exists()


# A standby


def follower_of(desk: Desk, pieces: pathlib.Path, timeline: int = 1) -> Follower:
    """A follower of an office, which has looked."""
    pieces.mkdir(mode=0o700, exist_ok=True)
    book = Book(str(pieces), str(desk.db), str(desk.journal), f"{os.uname().nodename}:{desk.db}", timeline)
    follower = Follower(str(desk.db), 1.0, book, 7, lambda text: None)
    follower.resume()
    look(follower)
    return follower


def look(follower: Follower) -> None:
    """Has a follower look, and write."""
    follower.step()
    follower.write_pending()


def test_a_standby_has_the_persons_of_now(desk: Desk, tmp_path: pathlib.Path) -> None:
    pieces, other = tmp_path / "pieces", Desk(tmp_path / "two")
    follower = follower_of(desk, pieces)
    assert (pieces / kept.COPY).read_bytes() == desk.persons.read_bytes() and (pieces / kept.COPY).stat().st_mode & 0o777 == 0o600
    desk.run("person", "remove", "rita")
    desk.add("rosa", "releases")
    look(follower)
    result = other.run("promote", pieces)
    assert other.known() == {"oscar": "orders", "rosa": "releases"} and "can log in as before: oscar, rosa" in result.err


def test_who_was_removed_at_the_standby_stays_out_where_the_first_machine_comes_back(desk: Desk, tmp_path: pathlib.Path) -> None:
    pieces, other = tmp_path / "pieces", Desk(tmp_path / "two")
    follower_of(desk, pieces)
    other.run("promote", pieces)
    other.run("person", "remove", "rita")
    other.add("rosa", "releases")
    follower_of(other, pieces, 2)
    assert desk.known() == {"oscar": "orders", "rita": "reads"}
    desk.run("promote", pieces)
    assert desk.known() == {"oscar": "orders", "rosa": "releases"}
    (aside,) = desk.db.parent.glob("office-before-restore-*")
    assert (aside / "office.db.persons").exists()


def test_who_was_removed_at_the_lost_machine_alone_stays_out_there(desk: Desk, tmp_path: pathlib.Path) -> None:
    pieces, other = tmp_path / "pieces", Desk(tmp_path / "two")
    follower_of(desk, pieces)
    other.run("promote", pieces)
    follower_of(other, pieces, 2)
    desk.run("person", "remove", "rita")
    result = desk.run("promote", pieces)
    assert desk.known() == {"oscar": "orders"} and "no copy has their password: rita" in result.err


def test_an_earlier_moment_keeps_the_persons_of_now(desk: Desk, tmp_path: pathlib.Path) -> None:
    pieces = desk.folder / "follow"
    follower = follower_of(desk, pieces)
    moment = time.strftime("%Y-%m-%dT%H:%M:%S", time.gmtime(time.time() + 1))
    desk.run("person", "remove", "rita")
    look(follower)
    settings = tmp_path / "hilpoven.toml"
    settings.write_text(f'file = "{desk.db}"\n[follow]\nto = "{pieces}"\n')
    for is_there in (True, False):
        if not is_there:
            desk.persons.unlink()
        result = hilpoven(str(desk.db), "restore", "--at", f"{moment}Z", HILPOVEN_SETTINGS=str(settings))
        assert result.status == 0, result
        assert desk.known() == {"oscar": "orders"}


def test_a_carry_over_leaves_persons(desk: Desk) -> None:
    before = desk.persons.read_bytes()
    desk.run("carry-over", desk.db.parent / "next.db")
    assert desk.persons.read_bytes() == before and desk.reply("person", "list").out.count("ACME") == 2
