"""What an office publishes comes to its group once, whatever happens on the way; and what the group has is what the office has."""
import contextlib
import fcntl
import pathlib
import random
import re
import shutil
import sqlite3
import tempfile
import time

import psycopg2
import pytest
from conftest import Cluster
from group_of_plants import SHIP, Plant, new_group
from hilpoven.core.failure import Failure
from hilpoven_group import database, publisher as publishers, settings
from hilpoven_group import replica as replicas
from hilpoven_group.numbers import place_of
from hilpoven_group.tables import VERSIONS


def busy(plant: Plant, at: int = 1) -> list[str]:
    """Something of each kind happens; the keys of two shipments."""
    with plant.writing() as base:
        for owner in ("ACME", "BOLT"):
            plant.receive(base, owner, f"S-{at}")
            plant.receive(base, "HOUSE", f"W-{owner}{at}")
            plant.batch(base, owner, f"O-{at}", 1, {f"S-{at}": 1, ("HOUSE", f"W-{owner}{at}"): 2}, {f"B-{at}": 2, f"C-{at}": 1})
            key = base.execute("SELECT mkey FROM moves WHERE owner = ? AND kind = 5 ORDER BY rowid DESC", (owner,)).fetchone()[0]
            plant.void(base, owner, key)
            base.execute("INSERT INTO results VALUES (?, ?, 'PH', 1, 7, 261101)", (owner, f"B-{at}"))
        return [plant.move(base, owner, SHIP, f"B-{at}", 10) for owner in ("ACME", "BOLT")]


@pytest.fixture
def plant(group) -> Plant:
    """An office in which something of each kind happened."""
    plant = group.plant("NORTH")
    for owner, key in zip(("ACME", "BOLT"), busy(plant)):
        plant.note_movement(owner, key, party="SHOP", document=f"LS {owner}")
    plant.note_link("ACME", "B-1", "C-1")
    return plant


def test_rows_come_once(plant, group):
    assert plant.publish() > 0
    content = group.content()
    assert plant.publish() == 0 and group.content() == content
    assert plant.differences() == []
    busy(plant, 2)
    assert plant.publish() > 0 and plant.differences() == []
    for table, rows in content.items():
        assert table in ("heads", "states") or set(rows) <= set(group.content()[table]), table
    assert "0 differ" not in group.ok("group", "verify") and "the same" in group.ok("group", "verify")


def test_no_key_and_no_row_of_an_owner_outside_leaves_the_office(group):
    plant = group.plant("NORTH", owners=("ACME", "BOLT", "OTHER"))
    with contextlib.closing(group.cluster.connect(group.name)) as base, base.cursor() as cursor:
        cursor.execute("DELETE FROM hg.members WHERE owner = 'OTHER'")
    with plant.writing() as base:
        plant.receive(base, "OTHER", "HIDDEN-1")
    busy(plant)
    plant.note({"kind": "owner", "owner": "OTHER", "name": "HIDDEN Ltd"})
    plant.publish()
    assert "HIDDEN" not in str(group.content()) and "SECRETKEY" not in str(group.content())
    assert plant.differences() == []
    group.ok("group", "member", "add", "NORTH", "OTHER", "OTHER")  # its rows come from the first on
    assert plant.publish() > 0
    assert "HIDDEN-1" in str(group.content()) and plant.differences() == []


def test_what_an_office_says_otherwise_is_another_version(plant, group):
    first = plant.note_movement("ACME", "K1", party="OLD", supplier_lot="X-1")
    plant.publish()
    facts = "SELECT v, party, supplier_lot FROM hg.facts WHERE mkey = 'K1' ORDER BY v"
    second = plant.note_movement("ACME", "K1", party="NEW")
    plant.publish()
    assert group.rows(facts) == [(1, "OLD", "X-1"), (2, "NEW", "X-1")]
    plant.withdraw("ACME", second)
    plant.publish()
    assert group.rows(facts)[2:] == [(3, "OLD", "X-1")]  # the earlier note counts again
    plant.withdraw("ACME", first)
    plant.publish()
    assert group.rows(facts)[3:] == [(4, "", "")]
    with plant.writing() as base:
        base.execute("UPDATE lots SET disposition = 2 WHERE owner = 'ACME' AND lot = 'B-1'")
    plant.publish()
    states = "SELECT s.v, s.disposition FROM hg.states AS s JOIN hg.lots AS l USING (lot_id) WHERE l.lot = 'B-1' AND l.owner = 'ACME' ORDER BY 1"
    assert group.rows(states) == [(1, 1), (2, 2)]
    withdrawn = group.rows("SELECT fault FROM hg.standing WHERE fault <> '' ORDER BY note, v")
    assert withdrawn == [("withdrawn: a mistake",)] * 2
    assert plant.differences() == []


def test_what_was_changed_in_the_group_shows(plant, group):
    plant.publish()
    group.rows("UPDATE hg.moves SET amount = amount + 1 WHERE mkey = 'K1' AND gid = 1 RETURNING 1")
    faults = plant.differences()
    assert any("moves of ACME" in fault for fault in faults) and any("sublots" in fault for fault in faults)
    assert group.run("group", "verify").exit_code == 1
    group.rows("UPDATE hg.facts SET party = 'THIEF' RETURNING 1")
    assert any("of facts differ" in fault for fault in plant.differences())


HEAD = "head = set_byte(head, 0, get_byte(head, 0) # 1)"  # done again, it is as before
CHANGES = {  # of one row of each table
    "materials": "measure = 'x' || measure",
    "lots": "number = number + 1",
    "moves": "segment = segment + 1",
    "voids": "mkey = mkey || '-1'",
    "results": "value = value + 1",
    "notes": "value = value || ' '",
    "states": "disposition = 1 - disposition",
    "facts": "document = document || 'x'",
    "links": "stands = NOT stands",
    "standing": "fault = 'x'",
}


def test_each_row_that_the_superuser_changes_is_found(plant, group):
    plant.publish()
    known, printed = set(plant.differences()), set(group.ok("group", "verify").splitlines()[:-1])
    assert known == printed == set()
    for is_found in (True, False):
        group.rows(f"UPDATE hg.heads SET {HEAD} WHERE ctid = (SELECT max(ctid) FROM hg.heads) RETURNING 1")
        codes = plant.run("publish", "--check").exit_code, group.run("group", "verify").exit_code
        assert codes == ((1, 1) if is_found else (0, 0))
    for table, change in CHANGES.items():
        group.rows(f"UPDATE hg.{table} SET {change} WHERE ctid = (SELECT max(ctid) FROM hg.{table}) RETURNING 1")
        faults, lines = set(plant.differences()), set(group.run("group", "verify").stdout.splitlines()[:-1])
        assert faults - known, table
        assert lines - printed or table in VERSIONS, table  # what an office says now has no head: its own `verify` finds that
        known, printed = faults, lines
    group.rows("DELETE FROM hg.moves WHERE ctid = (SELECT min(ctid) FROM hg.moves) RETURNING 1")
    assert set(plant.differences()) - known


# What is lost on the way


class Cut:
    """A cursor's connection is cut at the n-th statement that a publisher sends, or behind its n-th commit."""

    def __init__(self, group, at: int, is_behind: bool) -> None:
        self.group, self.at, self.is_behind, self.count = group, at, is_behind, 0

    def factory(self):
        cut = self

        class Connection(psycopg2.extensions.connection):
            def cursor(self, *words, **options):
                return super().cursor(*words, **options, cursor_factory=Cursor)

            def __exit__(self, *error):
                super().__exit__(*error)
                if error[0] is None and cut.is_behind and cut.is_next():
                    raise psycopg2.OperationalError("the answer was lost")

        class Cursor(psycopg2.extensions.cursor):
            def execute(self, sql, words=None):
                if not cut.is_behind and cut.is_next():
                    cut.group.rows(f"SELECT pg_terminate_backend({self.connection.info.backend_pid})")
                return super().execute(sql, words)

        return Connection

    def is_next(self) -> bool:
        self.count += 1
        return self.count == self.at


def cut_at(group, monkeypatch, is_behind: bool, places: range) -> None:
    """Cuts publishers' connections at these places; the group has the same rows as without."""
    whole = group.plant("WHOLE")
    busy(whole)
    whole.publish()
    group.chunk = 12
    plain = psycopg2.connect
    for at in places:
        plant = group.plant(f"CUT{at}")
        busy(plant)
        cut = Cut(group, at, is_behind)
        with plant.publisher() as publish:
            monkeypatch.setattr(publishers.database.psycopg2, "connect", lambda *words, **options: plain(*words, **options, connection_factory=cut.factory()))
            first, second, third = publish.step(), publish.step(), publish.step()
            monkeypatch.setattr(publishers.database.psycopg2, "connect", plain)
        assert cut.count < at or first is None
        assert second is not None and third == 0
        counts = "SELECT tbl, owner, n FROM hg.heads JOIN hg.offices USING (office) WHERE name = '{}' ORDER BY 1, 2"
        assert group.rows(counts.format(plant.name)) == group.rows(counts.format("WHOLE"))
        assert plant.differences() == []


@pytest.mark.parametrize("is_behind, places", [(False, range(13, 130, 23)), (True, range(1, 6))], ids=["cut", "answers lost"])
def test_a_connection_that_is_cut_loses_and_doubles_nothing(group, monkeypatch, is_behind, places):
    cut_at(group, monkeypatch, is_behind, places)


@pytest.mark.long
def test_a_connection_that_is_cut_anywhere_loses_and_doubles_nothing(group, monkeypatch):
    cut_at(group, monkeypatch, False, range(1, 120))


@contextlib.contextmanager
def served(plant: Plant):
    """The file open, as a server has it, so that its log stays."""
    with contextlib.closing(sqlite3.connect(plant.file)) as held:
        held.execute("SELECT count(*) FROM lots").fetchone()
        yield


def test_a_second_publisher_adds_nothing(plant, group):
    with served(plant), plant.publisher() as first, plant.publisher() as second:
        assert first.step() > 0 and second.step() == 0
        busy(plant, 2)
        first.look()
        second.look()
        assert first.turn() > 0
        content = group.content()
        assert second.step() is None and "another publisher" in second.state.fault
        assert second.step() == 0 and group.content() == content  # it reads where the group is, and goes on
        busy(plant, 3)
        assert second.step() > 0 and first.step() is None and first.step() == 0
    assert plant.differences() == []


def test_two_publishers_that_begin_at_once_begin_once(plant, group):
    with plant.publisher() as first, plant.publisher() as second:
        assert first.resume() == [] and second.resume() == []
        assert first.turn() > 0
        assert second.step() is None
        assert second.step() == 0
    assert plant.differences() == []


def test_an_old_primary_is_refused_by_its_timeline(plant):
    with plant.publisher() as publish:
        assert publish.step() > 0
        publish.timeline, busy_again = 2, busy(plant, 2)  # as if it had written to a promoted standby
        publish.disconnect()
        assert busy_again and publish.step() is None and "timeline 1" in publish.state.fault


def test_a_primary_that_was_cut_off_ends_with_a_publisher_connected(tmp_path, monkeypatch):
    with tempfile.TemporaryDirectory(prefix="hg.", ignore_cleanup_errors=True) as folder:
        cluster = Cluster(pathlib.Path(folder))
        try:
            with new_group(cluster, tmp_path, monkeypatch) as group:
                plant = group.plant("NORTH")
                with plant.publisher() as publish:
                    assert publish.step() > 0
                    with contextlib.closing(cluster.connect()) as base:
                        waited = "SELECT string_agg(setting, ' ' ORDER BY name) FROM pg_settings WHERE name LIKE 'synchronous\\_%'"
                        database.run(base, "ALTER SYSTEM SET synchronous_standby_names = 'nobody'")
                        database.run(base, "SELECT pg_reload_conf()")
                        eventually(lambda: "nobody" in database.value(base, waited))
                    cluster.stop()  # in which its temporary tables go, and which fails if it takes a minute
                cluster.start()
                with contextlib.closing(cluster.connect()) as base:
                    database.run(base, "SET synchronous_commit = local")
                    database.run(base, "ALTER SYSTEM RESET synchronous_standby_names")
                    database.run(base, "SELECT pg_reload_conf()")
                assert plant.publish() == 0 and plant.differences() == []
        finally:
            cluster.stop("immediate")


def eventually(is_so) -> None:
    """Waits until something is so."""
    until = time.monotonic() + 60
    while not is_so():
        assert time.monotonic() < until
        time.sleep(0.05)


# The copy that follows FILE


def test_a_copy_follows_the_log_without_the_lock(group):
    plant = group.plant("NORTH")
    dice = random.Random(1)
    with contextlib.closing(sqlite3.connect(plant.file)) as held, replicas.following(str(plant.file), 0.0) as copy:
        held.execute("BEGIN")
        held.execute("SELECT count(*) FROM lots").fetchone()
        held.execute("COMMIT")
        with open(f"{plant.file}.lock", "w") as lock:
            fcntl.flock(lock, fcntl.LOCK_EX)  # as `toll` has it
            for at in range(40):
                with plant.writing() as base:
                    for _ in range(dice.randrange(4)):
                        plant.receive(base, "ACME", f"S-{dice.randrange(500)}")
                    if dice.random() < 0.1:
                        base.execute("DELETE FROM sublots WHERE rowid % 2 = 0")
                if dice.random() < 0.2:
                    held.execute("PRAGMA wal_checkpoint(RESTART)")
                copy.advance()
                with contextlib.closing(copy.opened()) as own:
                    assert list(own.iterdump()) == list(held.iterdump())
        assert copy.scans < 20 and copy.advance() is False


def test_nothing_of_a_copy_is_left(plant):
    before = sorted(path.name for path in plant.file.parent.iterdir())
    plant.publish()
    after = sorted(path.name for path in plant.file.parent.iterdir())
    assert set(after) - set(before) <= {"office.db.published", "office.db.register", "office.db-shm", "office.db.lock"}


# An office that was set back


@pytest.fixture
def restored(plant, group) -> Plant:
    """An office of which the group has more rows than it has."""
    kept = plant.file.with_name("kept")
    with contextlib.closing(sqlite3.connect(plant.file)) as base, contextlib.closing(sqlite3.connect(kept)) as target:
        base.backup(target)
    plant.publish()
    with plant.writing() as base:
        plant.receive(base, "HOUSE", "W-LOST")
        plant.receive(base, "HOUSE", "W-LATER")
        plant.receive(base, "ACME", "S-LOST")
        plant.batch(base, "ACME", "O-9", 1, {"S-LOST": 1, ("HOUSE", "W-LATER"): 1}, {"B-9": 1})
        base.execute("UPDATE lots SET disposition = 2 WHERE lot = 'B-9'")
    plant.note_movement("ACME", base_key(plant, "S-LOST"), party="SHOP")
    plant.publish()
    for end in ("-wal", "-shm"):
        plant.file.with_name(f"office.db{end}").unlink(missing_ok=True)
    shutil.move(kept, plant.file)
    return plant


def base_key(plant: Plant, lot: str) -> str:
    """The key of the receipt of a lot."""
    with contextlib.closing(sqlite3.connect(plant.file)) as base:
        return base.execute("SELECT mkey FROM moves WHERE lot = ? AND kind = 0", (lot,)).fetchone()[0]


def test_an_office_that_was_set_back_sends_nothing_until_a_person_accepts(restored, group):
    content = group.content()
    with pytest.raises(Failure, match="was set back"):
        restored.publish()
    refused = restored.run("publish", "--once")
    assert refused.exit_code == 1 and "lots of HOUSE" in refused.stderr and group.content() == content
    assert restored.run("publish", "--check").exit_code == 1
    assert restored.run("publish", "--once", "--accept-set-back", 1).exit_code == 1 and group.content() == content
    count = refused.stderr.split("--accept-set-back ")[1].split("`")[0]
    accepted = restored.run("publish", "--once", "--accept-set-back", count)
    assert accepted.exit_code == 0, accepted.stderr
    assert restored.differences() == []
    retracted = group.rows("SELECT tbl, count(*) FROM hg.retracted GROUP BY 1 ORDER BY 1")
    assert dict(retracted)["lots"] == 4 and dict(retracted)["states"] == 4 and dict(retracted)["facts"] == 1
    assert group.rows("SELECT DISTINCT epoch FROM hg.retracted") == [(2,)]
    assert restored.publish() == 0


def test_a_number_that_means_another_lot_has_nothing_of_the_old_one(restored, group):
    with restored.writing() as base:  # in another order than before: the numbers of the lots of HOUSE change places
        restored.keys.update(HOUSE=2, ACME=6)
        restored.receive(base, "HOUSE", "W-LATER")
        restored.receive(base, "HOUSE", "W-LOST")
        restored.receive(base, "ACME", "S-LOST")
        restored.batch(base, "ACME", "O-9", 1, {"S-LOST": 1, ("HOUSE", "W-LATER"): 1}, {"B-9": 1})
    with restored.publisher() as publish:
        publish.retract(publish.resume(), "a test")
        assert publish.step() > 0
    assert restored.differences() == []
    row = group.rows("SELECT m.lot_id, l.lot_id FROM hg.moves AS m JOIN hg.lots AS l ON l.lot = m.lot AND l.owner = m.lot_owner WHERE m.lot = 'W-LATER' AND m.kind = 4")
    assert row and row[0][0] == row[0][1]
    dispositions = group.rows("SELECT s.disposition FROM hg.current_states AS s JOIN hg.lots AS l USING (lot_id) WHERE l.lot = 'B-9'")
    assert dispositions == [(1,)]


def test_an_empty_file_in_the_place_of_the_office_takes_nothing_away(plant, group):
    plant.publish()
    content = group.content()
    for end in ("", "-wal", "-shm"):
        plant.file.with_name(f"office.db{end}").unlink(missing_ok=True)
    Plant(group, "EMPTY", plant.file)
    with pytest.raises(Failure, match="set back"):
        plant.publish()
    assert group.content() == content


def test_a_publisher_that_runs_notices_a_restore(plant, restored, group):
    with restored.publisher() as publish:
        assert publish.resume()
    with plant.publisher() as publish:
        publish.retract(publish.resume(), "a test")
        assert publish.step() == 0
        copy = plant.file.with_name("copy")
        with contextlib.closing(sqlite3.connect(plant.file)) as base, contextlib.closing(sqlite3.connect(copy)) as target:
            base.backup(target)
        busy(plant, 5)
        assert publish.step() > 0
        for end in ("-wal", "-shm"):
            plant.file.with_name(f"office.db{end}").unlink(missing_ok=True)
        shutil.move(copy, plant.file)
        busy(plant, 6)
        with pytest.raises(Failure, match="was set back"):
            publish.step()


# Years, and owners that come and go


def test_a_lot_that_came_over_is_one_lot(plant, group):
    plant.publish()
    number = group.rows("SELECT lot_id FROM hg.lots WHERE owner = 'ACME' AND lot = 'B-1'")
    plant.carry_over()
    with plant.writing() as base:
        plant.batch(base, "ACME", "O-1", 1, {"B-1": 1}, {"C-1": 1})  # the names come again
    assert plant.publish() > 0
    assert plant.differences() == []
    assert group.rows("SELECT DISTINCT lot_id FROM hg.lots WHERE owner = 'ACME' AND lot = 'B-1'") == number
    both = group.rows("SELECT lot_id FROM hg.lots WHERE owner = 'ACME' AND lot = 'C-1' AND NOT came ORDER BY file")
    assert [place_of(row[0]).file for row in both] == [1, 2]
    assert len(group.rows("SELECT 1 FROM hg.facts WHERE file = 1")) == 2  # what is noted of the earlier file stays its


def test_a_later_owner_of_an_earlier_ones_name_is_another_company(plant, group):
    plant.publish()
    plant.carry_over()
    with plant.writing() as base:
        for table in ("moves", "lots", "sublots", "materials", "owners", "carried_moves"):
            base.execute(f"DELETE FROM {table} WHERE owner = 'BOLT'")
        plant.owner(base, "BOLT")
        plant.receive(base, "BOLT", "S-NEW")
    group.ok("group", "company", "add", "Bolt of another")
    assert group.run("group", "member", "add", "NORTH", "BOLT", "Bolt of another").exit_code == 1  # file 1 is published
    group.ok("group", "member", "add", "NORTH", "BOLT", "Bolt of another", "--since", 2)
    assert plant.publish() > 0 and plant.differences() == []
    gids = group.rows("SELECT DISTINCT file, gid FROM hg.lots WHERE owner = 'BOLT' ORDER BY 1")
    assert len(gids) == 2 and gids[0][1] != gids[1][1]


def test_an_office_is_published_in_parts(plant, group):
    group.chunk = 3
    plant.publish()
    assert plant.differences() == []
    parts = group.content()
    other = group.plant("OTHER")
    group.chunk = 20_000
    busy(other)
    other.publish()
    assert len(parts["moves"]) == sum(row[1] == 2 for row in group.content()["moves"])


def test_the_database_is_away(plant, group, tmp_path):
    with plant.publisher() as publish:
        assert publish.step() > 0
        publish.disconnect()
        publish.group = publish.group.__class__(database="host=/nowhere", plant="NORTH")
        assert publish.step() is None and publish.step() is None
        assert len(publish.lines) == 1 and publish.state.fault
    status = plant.run("publish", "status")
    assert status.exit_code == 1 and "ATTENTION" in status.stdout


def test_a_fault_of_the_database_that_lasts_is_told_as_one(plant, group):
    whole, name = group.database, group.name
    group.database = whole.replace(name, "postgres")  # which has no tables of a group
    for words in (["--once"], ["--check"], ["verify"], ["digest", "ACME"]):
        refused = plant.run("publish", *words)
        assert refused.exit_code == 3 and refused.stderr == 'hilpoven: the group\'s database: schema "hg" does not exist\n', words
    group.database = whole
    group.rows("REVOKE INSERT ON hg.moves FROM hg_publisher; SELECT 1")
    refused = plant.run("publish", "--once")
    assert refused.exit_code == 1 and "refuses that: permission denied for table moves" in refused.stderr


# How an office logs in


def test_an_office_logs_in_as_what_is_beside_its_file_says(plant, group, tmp_path):
    log_in = plant.file.with_name("office.db.group")
    log_in.write_text(f"{group.database} user=hg_publisher_NORTH password=x\n")
    log_in.chmod(0o640)
    refused = plant.run("publish", "--once")
    assert refused.exit_code == 2 and "others may read" in refused.stderr
    log_in.chmod(0o600)
    (group.folder / "group.toml").write_text("")
    assert settings.of_office(plant.context()).database.endswith("user=hg_publisher_NORTH password=x")
    first = plant.run("publish", "--once")
    assert first.exit_code == 0 and "next: systemctl enable --now toll-publish@" in first.stderr
    assert "next" not in plant.run("publish", "--once").stderr
    log_in.rename(tmp_path / "aside")
    log_in.symlink_to(tmp_path / "aside")
    assert plant.run("publish", "--once").exit_code != 0  # a link is no file of the office's


def test_each_command_of_a_group_tells_the_next(group):
    added = group.run("group", "office", "add", "EAST", "--host", "db.example")
    shell = re.search(r"echo '(host=db\.example dbname=\S+ user=hg_publisher_EAST password=[0-9a-f]{40} sslmode=require channel_binding=require)' \| install", added.stderr)
    assert added.stdout == "EAST publishes as hg_publisher_EAST\n" and shell and "--member EAST OWNER" in added.stderr
    hashed = group.rows("SELECT rolpassword FROM pg_authid WHERE rolname = 'hg_publisher_EAST'")[0][0]
    assert hashed.startswith("SCRAM-SHA-256$") and shell[1].split("password=")[1][:40] not in hashed
    group.ok("group", "office", "add", "WEST")
    group.ok("group", "company", "add", "Acme", "--member", "EAST", "ACME", "--member", "WEST", "ACME-2", "--party", "WEST", "EASTCO", "EAST")
    assert group.rows("SELECT o.name, m.owner FROM hg.members AS m JOIN hg.offices AS o USING (office) JOIN hg.companies AS c USING (gid) WHERE c.name = 'Acme' ORDER BY 1") == [("EAST", "ACME"), ("WEST", "ACME-2")]
    assert group.rows("SELECT party, other FROM hg.parties") == [("EASTCO", 1)]
    for words in (["--party", "WEST", "EASTCO", "EAST"], ["--member", "NOWHERE", "X"], ["--member", "EAST", "HOUSE"], ["--member", "EAST", "x y"]):
        assert group.run("group", "company", "add", "Other", *words).exit_code in (1, 2), words
    assert group.rows("SELECT count(*) FROM hg.companies WHERE name = 'Other'") == [(0,)]
