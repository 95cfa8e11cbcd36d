"""The question service: each login asks under its own role, and nothing else is answered."""
import base64
import pathlib
import re
import subprocess

import psycopg2
import pytest
from group_of_plants import SHIP
from hilpoven_group import service, settings
from test_publishing import eventually


@pytest.fixture
def asked(group):
    """Asks the service of a group of two companies, with a login and a secret."""
    plant = group.plant("NORTH")
    with plant.writing() as base:
        for owner in ("ACME", "BOLT"):
            plant.receive(base, owner, f"{owner}-1")
            key = plant.move(base, owner, SHIP, f"{owner}-1", 10)
    plant.note_movement("BOLT", key, party="SHOP", document="<script>")
    plant.publish()
    secrets = {name: group.ok("group", "login", "add", name, *(["--company", name.upper()] if name != "quality" else [])).strip() for name in ("acme", "bolt", "quality")}
    client = service.application(settings.Group(database=group.database)).test_client()

    def ask(path: str, login: str = "", secret: str | None = None, method: str = "GET"):
        given = secrets.get(login, "") if secret is None else secret
        basic = base64.b64encode(f"{login}:{given}".encode()).decode()
        return client.open(path, method=method, headers={"Authorization": f"Basic {basic}"} if login else {})

    return ask


RECALL = "/recall?office=NORTH&owner={0}&lot={0}-1"


def test_each_login_sees_its_own_rows_alone(asked):
    for login, owners in (("acme", {"ACME"}), ("bolt", {"BOLT"}), ("quality", {"ACME", "BOLT"})):
        for owner in ("ACME", "BOLT"):
            reply = asked(RECALL.format(owner), login)
            assert reply.status_code == (200 if owner in owners else 404), (login, owner)
            assert (f"{owner}-1" in reply.text) == (owner in owners or reply.status_code == 404)
        heads = asked("/heads?form=json", login).json["tables"]["Heads"]
        assert {row["owner"] for row in heads if row["owner"] != "HOUSE"} == owners
        assert asked("/", login).status_code == asked("/ends", login).status_code == asked("/status", login).status_code == 200
    assert asked("/ends?form=json", "acme").json["foot"].startswith("oldest: NORTH")


def test_without_a_login_nothing_is_answered(asked, group):
    for login, secret in (("", None), ("acme", ""), ("acme", "wrong"), ("nobody", "x"), ("acme", "x" * 65), ("hg_company_1", ""), ("'; --", "'"), ("a\0", "b\0")):
        reply = asked("/status", login, secret)
        assert reply.status_code == 401 and "NORTH" not in reply.text, login
    group.ok("group", "login", "remove", "acme")
    assert asked("/status", "acme").status_code == 401
    assert group.run("group", "login", "remove", "acme").exit_code == 1
    assert group.run("group", "login", "add", "bolt").exit_code == 1 and group.run("group", "login", "add", "a b").exit_code == 2


def test_the_role_that_looks_logins_up_does_nothing_else(asked, group):
    for sql in ("SELECT count(*) FROM hg.logins", "SELECT lot_id FROM hg.find_lot('NORTH', 'ACME', 'ACME-1')", "SET ROLE hg_quality", "SELECT hg.sees_all()"):
        with pytest.raises(Exception, match="permission denied"):
            group.rows(sql, "hg_service")
    assert group.rows("SELECT count(*) FROM hg.logins WHERE length(secret) = 32") == [(3,)]


def test_values_are_escaped_and_bounded(asked):
    reply = asked(RECALL.format("BOLT"), "bolt")
    assert "<script>" not in reply.text and "&lt;script&gt;" in reply.text
    assert reply.headers["Cache-Control"] == "no-store" and "default-src 'none'" in reply.headers["Content-Security-Policy"]
    assert asked(f"/recall?office={'x' * 65}", "bolt").status_code == 400 and asked("/recall?lot=%00", "bolt").status_code == 400
    assert asked("/recall?office=NORTH&owner=BOLT&lot=BOLT-1&way=up", "bolt").status_code == 400
    assert asked("/recall?office=<b>&owner='&lot=%25", "bolt").status_code == 404
    assert asked("/recall", "bolt").mimetype == "text/plain" or asked("/recall", "bolt").status_code == 404
    for method in ("POST", "PUT", "DELETE"):
        assert asked("/status", "bolt", method=method).status_code == 405
    assert asked("/../etc/passwd", "bolt").status_code == asked("/static/x", "bolt").status_code == 404


def test_a_database_that_is_away_is_told_without_its_address(group):
    client = service.application(settings.Group(database="host=/nowhere dbname=secret")).test_client()
    reply = client.get("/status", headers={"Authorization": "Basic " + base64.b64encode(b"a:b").decode()})
    assert reply.status_code == 503 and "secret" not in reply.text and "nowhere" not in reply.text


def test_persons_who_log_in_at_the_database_still_do_once_the_service_has_logins(group):
    """PostgreSQL goes by the first line that a role is of, and those of persons are behind the service's."""
    group.plant("NORTH", owners=("ACME",))
    ((file,),) = group.rows("CREATE ROLE jane LOGIN IN ROLE hg_reader; SELECT current_setting('hba_file')")
    hba = pathlib.Path(file)
    before = hba.read_text()
    commands = group.run("group", "login", "add", "quality").stderr.strip().removeprefix("next, as root: ").split(" && ")
    try:
        subprocess.run(commands[0], shell=True, check=True)
        group.rows("SELECT pg_reload_conf()")
        eventually(lambda: is_refused(group, "hg_quality"))
        assert group.rows("SELECT count(*) FROM hg.ages()", "jane") == [(1,)]
        assert all(is_refused(group, role) for role in ("hg_service", group.rows("SELECT role FROM hg.companies WHERE name = 'ACME'")[0][0]))
    finally:
        hba.write_text(before)
        group.rows("SELECT pg_reload_conf(); DROP ROLE jane; SELECT 1")
        eventually(lambda: not is_refused(group, "hg_quality"))


def is_refused(group, role: str) -> bool:
    """Whether PostgreSQL lets this process in as a role only as the service's user."""
    try:
        group.rows("SELECT 1", role)
    except psycopg2.OperationalError as error:
        assert "Peer authentication failed" in str(error)
        return True
    return False


def test_a_login_says_which_lines_of_postgresql_are_missing(group):
    """They are commands of a shell, and none is told again once PostgreSQL has the line."""
    group.plant("NORTH", owners=("ACME",))
    added = group.run("group", "login", "add", "acme", "--company", "ACME")
    assert re.fullmatch("[0-9a-f]{40}\n", added.stdout)
    commands = added.stderr.strip().removeprefix("next, as root: ").split(" && ")
    role = group.rows("SELECT role FROM hg.companies WHERE name = 'ACME'")[0][0]
    assert commands[0].startswith(f"sed -i '1i local {group.name} hg_service,hg_quality,+hg_company peer map=group' ")
    assert commands[-3].startswith(f"echo group hilpoven-group {role} >> ")
    assert commands[-2:] == ["systemctl reload postgresql", "systemctl enable --now hilpoven-group"]
