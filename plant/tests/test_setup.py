"""Setup: an office with its settings, units and site, on a machine whose systemd and nginx are stood in for. tools/check-package tries it
with the real ones."""
import contextlib
import getpass
import os
import pathlib
import re
import shlex
import shutil
import socket
import subprocess
import types

import pytest
from click.testing import CliRunner
from conftest import ROOT
from hilpoven.cli import hilpoven, setup as command
from hilpoven.core import settings as site
from hilpoven.core.failure import Failure
from hilpoven.care.setup import machine as machines, steps
from hilpoven.care.setup.machine import Machine, Ran
from hilpoven.care.setup.plan import Plan

HOST = "toll.north.example"
TEMPLATE = (ROOT / "packaging" / "nginx.conf").read_text()


class Trial(Machine):
    """A machine in a folder, with the real program and the plant's command, and what stands in for systemd and nginx."""

    def use(self, program):
        self.__dict__ |= {"program": program, "active": set(), "asked": [], "nginx_says": Ran(0, "ok"), "is_up": True, "more_units": ()}
        return self

    def run(self, words, user=None):
        self.asked.append(words)
        if words[0] == "systemctl" and words[1].startswith("is-"):
            return Ran(0 if words[3] in self.active else 3, "")
        if words[:2] == ["systemctl", "start"]:
            self.back_up(re.fullmatch(r"toll-backup@(.*)\.service", words[2])[1])
            return Ran(0, "")
        if words[0] == "systemctl":
            self.active.update(words[3:] if words[1] == "enable" else words[2:])
            return Ran(0, "")
        if words[0] == "nginx":
            return self.nginx_says
        assert words[0] in ("mkdir", "chmod") and user == self.user
        return super().run(words)

    def back_up(self, name):
        """What the unit of backups does."""
        os.makedirs(f"{self.data}/{name}/backup", mode=0o700, exist_ok=True)
        self.hilpoven(name, "backup")

    def hilpoven(self, name, *words):
        umask = os.umask(0o077)
        try:
            done = CliRunner(mix_stderr=False, env={"TOLL": self.program}).invoke(hilpoven, ["--office", name, *words])
        finally:
            os.umask(umask)
        if done.exit_code:
            raise Failure(done.stderr)
        return done.stdout

    def require_programs(self):
        pass

    def has_unit(self, unit):
        return unit in self.more_units

    def template(self):
        return TEMPLATE

    def wait_for_server(self, port):
        return self.is_up

    def wait_for_page(self, host):
        return self.is_up

    def may_listen(self, port):
        return port != 801


def certificate_in(folder, name="site", *options):
    """A certificate and its key."""
    certificate, key = folder / f"{name}.pem", folder / f"{name}.key"
    how = options or ("-nodes",)
    subprocess.run(["openssl", "req", "-x509", "-newkey", "ec", "-pkeyopt", "ec_paramgen_curve:prime256v1", *how, "-days", "2", "-subj", f"/CN={HOST}", "-keyout", key, "-out", certificate],
                   check=True, capture_output=True)
    return str(certificate), str(key)


@pytest.fixture
def machine(tmp_path, monkeypatch, program):
    for folder in ("toll", "data", "nginx/conf.d", "nginx/sites-enabled"):
        (tmp_path / folder).mkdir(parents=True)
    monkeypatch.setattr(site, "OFFICES", str(tmp_path / "toll"))
    monkeypatch.setattr(site, "DATA", str(tmp_path / "data"))
    trial = Trial(str(tmp_path / "etc-hilpoven.toml"), site.OFFICES, site.DATA, str(tmp_path / "nginx"), getpass.getuser(), str(tmp_path / "lock"), logs=str(tmp_path / "logs")).use(program)
    trial.__dict__["certificate"] = certificate_in(tmp_path)
    return trial


def plan_of(machine, name="north", host=HOST, owner=""):
    return Plan(name, host, *machine.certificate, owner)


def given(machine, **values):
    """What the steps did."""
    return list(steps.take(steps.Setup(plan_of(machine, **values), machine)))


def files_of(machine):
    """All files below the machine's folders, with their bytes, times and modes."""
    top = pathlib.Path(machine.nginx).parent
    return {path: (path.is_symlink() or path.is_dir() or (path.read_bytes(), path.lstat().st_mtime_ns), path.lstat().st_mode) for path in sorted(top.rglob("*")) if "office.db" not in path.name}


def contents(files):
    """The files without their times."""
    return {path: state[0] if isinstance(state, tuple) else state for path, (state, _) in files.items()}


def test_an_office_with_its_site_and_an_owner_s_key(machine):
    done = given(machine, owner="ACME")
    assert [step.is_new for step in done] == [True] * 8
    env = pathlib.Path(machine.offices, "north.env")
    assert re.findall(r"^\w+=.*", env.read_text(), re.M) == ["PORT=802", "SITE_LOGS=/var/log/nginx/toll.log"] and env.stat().st_mode & 0o777 == 0o644  # 801 is taken
    folder = pathlib.Path(machine.data, "north")
    assert folder.stat().st_mode & 0o777 == 0o700 and (folder / "office.db").stat().st_size
    assert machine.active == {"toll@north.service", "toll-backup@north.timer", "nginx"}
    once, office = (pathlib.Path(machine.nginx, "conf.d", name).read_text() for name in ("00-toll.conf", "toll_north.conf"))
    assert "limit_req_zone" in once and "limit_req_zone" not in office and "toll.example.com" not in once + office
    assert re.findall(r"server_name (.*);", office) == [HOST] and set(re.findall(r"proxy_pass http://127\.0\.0\.1:(\d+)", office)) == {"802"}
    assert re.findall(r"ssl_certificate(?:_key)? (.*);", office) == list(machine.certificate)
    assert re.fullmatch("[A-Za-z0-9]{32}", done[-1].owner_key)
    assert [line.split(",")[0] for line in machine.hilpoven("north", "list", "owners", "--csv").splitlines()[1:]] == ["ACME", "HOUSE"]
    both = "".join(re.sub(r"# hilpoven setup wrote.*\n", "", text) for text in (once, office))
    assert len(both.splitlines()) >= len(TEMPLATE.splitlines()) - 12  # what is left out is the head, and IPv6 where there is none


def test_the_companions_of_owners_are_made_where_the_machine_has_their_units(machine):
    machine.__dict__["more_units"] = ("toll-companion@.timer",)
    given(machine)
    assert machine.active == {"toll@north.service", "toll-backup@north.timer", "toll-companion@north.timer", "nginx"}


@pytest.mark.parametrize("units, has_systemd, programs, why", [((), True, ("nginx",), "the units of the packages aren't here"), (("toll@.service",), False, ("nginx",), "systemd doesn't run here"),
                                                               (("toll@.service",), True, (), "nginx isn't here"), (("toll@.service",), True, ("nginx",), "")])
def test_what_the_steps_need_is_looked_at_first(monkeypatch, tmp_path, units, has_systemd, programs, why):
    for unit in units:
        (tmp_path / unit).touch()
    monkeypatch.setattr(machines, "UNITS", (str(tmp_path),))
    monkeypatch.setattr(machines, "RUNNING", str(tmp_path if has_systemd else tmp_path / "nowhere"))
    monkeypatch.setattr(shutil, "which", lambda name: name in programs)
    with pytest.raises(Failure, match=why) if why else contextlib.nullcontext():
        Machine().require_programs()


def test_a_second_run_changes_nothing_and_says_so(machine):
    given(machine, owner="ACME")
    before, machine.asked[:] = files_of(machine), []
    done = given(machine, owner="ACME")
    assert [(step.is_new, step.owner_key) for step in done] == [(False, "")] * 8 and files_of(machine) == before
    assert {words[0] for words in machine.asked} == {"systemctl", "nginx"} and all(words[1].startswith("is-") or words == ["nginx", "-t"] for words in machine.asked)


def test_what_a_failure_left_is_gone_on_with(machine):
    machine.__dict__["is_up"] = False
    with pytest.raises(Failure, match="toll@north.service doesn't answer at port 802"):
        given(machine)
    machine.__dict__["is_up"] = True
    assert [step.is_new for step in given(machine)] == [False, False, False, False, False, True, True]


def test_each_office_has_its_own_port_host_and_log(machine):
    given(machine)
    first = files_of(machine)
    given(machine, name="south", host="toll.south.example")
    assert files_of(machine).items() >= {path: state for path, state in first.items() if path.is_file()}.items()
    assert "PORT=803\nSITE_LOGS=/var/log/nginx/toll-south.log\n" in pathlib.Path(machine.offices, "south.env").read_text()
    text = pathlib.Path(machine.nginx, "conf.d", "toll_south.conf").read_text()
    assert re.findall(r"access_log /var/log/nginx/(\S+) ", text) == ["toll-south.log", "unauthenticated-toll-south.log"]
    with pytest.raises(Failure, match=r"toll_north\.conf has a site of toll\.north\.example"):
        given(machine, name="east")


def test_an_office_of_an_earlier_version_is_told_which_log_its_site_has(machine):
    pathlib.Path(machine.offices, "north.env").write_text("PORT=802\n")
    done = given(machine)
    assert done[0].text.endswith("north.env: port 802; SITE_LOGS=/var/log/nginx/toll.log there shows `hilpoven journal` what its owners did")
    assert pathlib.Path(machine.offices, "north.env").read_text() == "PORT=802\n"


def test_another_host_or_certificate_replaces_what_setup_wrote(machine):
    given(machine)
    done = given(machine, host="new.north.example")
    text = pathlib.Path(machine.nginx, "conf.d", "toll_north.conf").read_text()
    assert [step.is_new for step in done] == [False] * 6 + [True] and "server_name new.north.example;" in text and HOST not in text


def test_what_was_changed_by_hand_stays(machine):
    given(machine)
    path = pathlib.Path(machine.nginx, "conf.d", "toll_north.conf")
    path.write_text(path.read_text().replace("client_max_body_size 4k;", "client_max_body_size 4k; allow 192.0.2.0/24; deny all;"))
    before = files_of(machine)
    assert f"{path} was changed by hand and stays" in given(machine, host="new.north.example")[-1].text and files_of(machine) == before


SITES, SETTINGS = ["nginx/conf.d/toll_north.conf", "nginx/conf.d/00-toll.conf"], ["toll/north.env", "etc-hilpoven.toml"]


@pytest.mark.parametrize("place, kind", [*((place, kind) for place in SITES + SETTINGS for kind in ("file", "link", "dangling", "folder")), *((place, "pipe") for place in SITES)])
def test_no_file_of_another_hand_is_replaced_and_no_link_followed(machine, place, kind):
    top = pathlib.Path(machine.nginx).parent
    path, target = top / place, top / "precious"
    target.write_text("precious\n")
    if kind == "file":
        path.write_text("# mine\nPORT=900\n")
    elif kind == "folder":
        path.mkdir()
    elif kind == "pipe":
        os.mkfifo(path)
    else:
        path.symlink_to(target if kind == "link" else top / "nowhere")
    state = path.lstat()
    with contextlib.suppress(Failure, OSError):
        given(machine)
    assert path.lstat().st_ino == state.st_ino and path.lstat().st_mode == state.st_mode and target.read_text() == "precious\n" and not (top / "nowhere").exists()
    assert kind != "file" or path.read_text() == "# mine\nPORT=900\n"


def test_settings_of_an_office_that_are_there_count(machine):
    pathlib.Path(machine.offices, "north.env").write_text(f"PORT=950\nFILE={machine.data}/elsewhere/office.db\n")
    done = given(machine)
    assert not done[0].is_new and "port 950" in done[0].text and os.path.exists(f"{machine.data}/elsewhere/office.db")
    assert "proxy_pass http://127.0.0.1:950;" in pathlib.Path(machine.nginx, "conf.d", "toll_north.conf").read_text()


def test_the_site_has_the_page_of_the_installed_files(machine, monkeypatch, tmp_path):
    (tmp_path / "local" / "page").mkdir(parents=True)
    (tmp_path / "local" / "page" / "index.html").touch()
    monkeypatch.setattr(machines, "PAGES", ("/nowhere", f"{tmp_path}/local/page"))
    given(machine)
    assert f"alias {tmp_path}/local/page/;" in pathlib.Path(machine.nginx, "conf.d", "toll_north.conf").read_text()


def test_no_two_offices_have_a_port(machine):
    given(machine)
    pathlib.Path(machine.offices, "south.env").write_text("PORT='802'\n")
    with pytest.raises(Failure, match=r"south.env: 802 is the port of the office north, too"):
        given(machine, name="south", host="toll.south.example")
    assert machine.active == {"toll@north.service", "toll-backup@north.timer", "nginx"}


def test_one_setup_goes_on_at_a_time(machine):
    with machine.held(), pytest.raises(Failure, match="another setup is under way"):
        given(machine)
    assert machine.asked == [] and os.stat(machine.lock).st_mode & 0o777 == 0o600
    os.unlink(machine.lock)
    os.symlink("/etc/passwd", machine.lock)
    with pytest.raises(OSError):
        given(machine)


def test_what_nginx_doesn_t_take_is_taken_back(machine):
    machine.__dict__["nginx_says"] = Ran(1, "nginx: [emerg] a duplicate default server for 0.0.0.0:443\n")
    with pytest.raises(Failure, match="nginx doesn't take the site: .*a duplicate default server"):
        given(machine)
    assert os.listdir(f"{machine.nginx}/conf.d") == [] and "nginx" not in machine.active
    machine.__dict__["nginx_says"] = Ran(0, "ok")
    given(machine)
    before = files_of(machine)
    machine.__dict__["nginx_says"] = Ran(0, 'nginx: [warn] conflicting server name "x" on 0.0.0.0:443, ignored')
    with pytest.raises(Failure, match="conflicting server name"):
        given(machine, host="new.north.example")
    assert contents(files_of(machine)) == contents(before)


@pytest.mark.parametrize("listens, is_told", [("listen 80 default_server;", True), ("listen [::]:80;", True), ("listen 127.0.0.1:80;", True), ("listen 8080;", False), ("listen 443 ssl;", False),
                                              ("# listen 80;", False), ("listen 80.example:443;", False)])
def test_another_site_without_tls_is_told_and_stays(machine, listens, is_told):
    other = pathlib.Path(machine.nginx, "sites-enabled", "default")
    other.write_text(f"server {{\n    {listens}\n}}\n")
    assert (f"{other} answers at port 80" in given(machine)[-1].text) is is_told and other.exists()


def test_a_machine_whose_site_was_made_by_hand_keeps_its_part(machine):
    hand = pathlib.Path(machine.nginx, "sites-enabled", "toll.conf")
    hand.write_text(TEMPLATE)
    done = given(machine)
    assert sorted(os.listdir(f"{machine.nginx}/conf.d")) == [] and f"{hand} has the machine's part" in done[-1].text
    assert sorted(os.listdir(hand.parent)) == ["toll.conf", "toll_north.conf"] and hand.read_text() == TEMPLATE  # nginx reads them in this order
    with pytest.raises(Failure, match="toll.conf has a site of toll.example.com"):
        given(machine, name="south", host="toll.example.com")


NAMES = ["", "-x", ".", "..", "a/b", "../x", "a b", "a\nb", "a;b", "a'b", "a$b", "a%i", "a@b", "x" * 33, "ä", "a\0b"]
HOSTS = ["", "localhost", "a..b", "-a.example", "a.example;", "a.example\nb.example", "a.example b.example", "*.example.com", "_", "a.example{", "a.example\n", "ä.example", "x" * 250 + ".com",
         "a.example#"]
PATHS = ["/etc/../etc/passwd", "/tmp/a;b", "/tmp/a b", "/tmp/a\nb", "/tmp/{", "/tmp/$x", "relative.pem", "/tmp//a", "/tmp/a/", "/tmp/'a'", '/tmp/"', "/tmp/a#", "", "/tmp/./a", "data:x"]
OWNERS = ["acme", "-A", "A B", "A\nB", "x" * 17, "A;B"]


@pytest.mark.parametrize("field, value", [*(("name", name) for name in NAMES), *(("host", host) for host in HOSTS), *(("certificate", path) for path in PATHS), *(("key", path) for path in PATHS),
                                          *(("owner", owner) for owner in OWNERS)])
def test_a_word_that_could_be_read_as_more_makes_nothing(machine, field, value):
    before = files_of(machine)
    values = {"name": "north", "host": HOST, "certificate": machine.certificate[0], "key": machine.certificate[1], "owner": ""}
    with pytest.raises(Failure) as raised:
        list(steps.take(steps.Setup(Plan(**{**values, field: value}), machine)))
    assert raised.value.exit_code == 2 and files_of(machine) == before and machine.asked == []


def test_a_certificate_without_its_key_makes_nothing(machine, tmp_path):
    before = files_of(machine)
    (_, other), (mine, key) = certificate_in(tmp_path, "other"), machine.certificate
    secret = certificate_in(tmp_path, "secret", "-passout", "pass:geheim")
    shutil.copy(key, open_key := tmp_path / "open.key")
    os.chmod(open_key, 0o644)
    for pair, why in {(mine, other): "KEY_VALUES_MISMATCH", (key, key): "is no certificate", secret: "has a password", (mine, str(open_key)): "everybody may read",
                      (mine, "/nowhere"): "there is no file /nowhere"}.items():
        with pytest.raises(Failure, match=why):
            list(steps.take(steps.Setup(Plan("north", HOST, *pair), machine)))
    assert machine.asked == [] and {path for path in files_of(machine) if path.suffix not in (".pem", ".key")} == {path for path in before if path.suffix not in (".pem", ".key")}


def test_who_has_no_certificate_is_told_how_to_make_one_for_a_trial(machine, tmp_path):
    certificate, key = tmp_path / "new.pem", tmp_path / "new.key"
    with pytest.raises(Failure) as raised:
        list(steps.take(steps.Setup(Plan("north", HOST, str(certificate), str(key)), machine)))
    subprocess.run(shlex.split(raised.value.advice.removeprefix("for a trial: ")), check=True, capture_output=True)
    assert list(steps.take(steps.Setup(Plan("north", HOST, str(certificate), str(key)), machine)))[-1].is_new


def test_a_folder_that_others_may_change_is_refused(machine):
    os.chmod(machine.offices, 0o777)
    with pytest.raises(Failure, match="others may change what is in"):
        given(machine)
    os.chmod(machine.offices, 0o755)
    os.chmod(f"{machine.nginx}/conf.d", 0o775)
    with pytest.raises(Failure, match="others may change what is in"):
        given(machine)
    assert os.listdir(f"{machine.nginx}/conf.d") == []


def test_a_folder_of_another_is_refused(machine):
    os.symlink("/etc", f"{machine.data}/north")
    with pytest.raises(Failure, match="is no folder of"):
        given(machine)


def test_ports_of_services_and_of_others_are_left(monkeypatch):
    machine = Machine(offices="/nowhere")
    with socket.socket() as taken:
        taken.bind(("127.0.0.1", 0))
        taken.listen()
        assert not machine.may_listen(taken.getsockname()[1])
    monkeypatch.setattr(Machine, "ports", lambda _: {"north": 801, "south": 802})
    monkeypatch.setattr(Machine, "may_listen", lambda _, port: port > 803)
    monkeypatch.setattr(machines, "is_of_service", lambda port: port == 804)
    assert machine.free_port() == 805


def words_for(machine):
    return ["setup", "north", "--host", HOST, "--cert", machine.certificate[0], "--key", machine.certificate[1]]


def test_a_member_of_the_group_reaches_nothing(at_work, machine, monkeypatch):
    monkeypatch.setattr(os, "execvp", lambda *_: pytest.fail("a member's command isn't given anew"))
    before = files_of(machine)
    done = at_work.as_member(*words_for(machine))
    assert (done.status, done.out) == (2, "") and "--cert is for root and the office's user alone" in done.err and files_of(machine) == before


@pytest.mark.parametrize("groups, is_called", [(["sudo"], True), (["users", "wheel"], True), (["hilpoven"], False), ([], False)])
def test_sudo_is_called_where_the_caller_may(machine, monkeypatch, groups, is_called):
    called = []

    def execvp(file, words):
        called.append(words)
        raise SystemExit(0)

    monkeypatch.setattr(os, "execvp", execvp)
    monkeypatch.setattr(os, "geteuid", lambda: 4711)
    monkeypatch.setattr(command, "group_names", lambda: groups)
    monkeypatch.setattr("sys.argv", ["/usr/bin/hilpoven", *words_for(machine)])
    done = CliRunner(mix_stderr=False).invoke(hilpoven, words_for(machine))
    wanted = ["sudo", "--", "/usr/bin/hilpoven", *words_for(machine)]
    assert called == [wanted] * is_called and (is_called or done.exit_code == 2 and f"sudo -- /usr/bin/hilpoven setup north --host {HOST}" in done.stderr)


def with_desk(machine, host="desk.north.example"):
    return list(steps.take(steps.Setup(Plan("north", HOST, *machine.certificate, "", host), machine)))


def test_the_plants_screens_have_a_host_of_their_own(machine, tmp_path):
    with pytest.raises(Failure, match="hilpoven-desk isn't here"):
        with_desk(machine)
    machine.__dict__["more_units"] = ("toll-desk@.service",)
    done = with_desk(machine)
    assert "toll-desk@north.service" in done[-1].text and done[-1].is_new
    assert {"toll-passwords.service", "toll-desk@north.service"} <= machine.active
    assert "DESK_HOST=desk.north.example\n" in (tmp_path / "toll" / "north.env").read_text()
    served = (tmp_path / "nginx" / "conf.d" / "toll-desk_north.conf").read_text()
    assert "server_name desk.north.example;" in served and "unix:/run/toll-desk/north/socket:" in served and machine.certificate[0] in served
    assert not any(each.is_new for each in with_desk(machine))
    with pytest.raises(Failure, match="has screens at desk.north.example"):
        with_desk(machine, "other.north.example")


def with_persons(machine):
    return list(steps.take(steps.Setup(Plan("north", HOST, *machine.certificate, has_persons=True), machine)))


def test_persons_of_owners_are_a_part_of_the_site(machine, tmp_path):
    with pytest.raises(Failure, match="hilpoven-persons isn't here"):
        with_persons(machine)
    machine.__dict__["more_units"] = ("toll-persons@.service",)
    done = with_persons(machine)
    assert "toll-persons@north.service" in done[-1].text and done[-1].is_new and "toll-persons@north.service" in machine.active
    part, port = (tmp_path / "nginx" / "toll-north" / "persons.conf").read_text(), site.of_office(site.Settings(), "north").port
    assert f"http://127.0.0.1:{port}$toll_person_path" in part and "unix:/run/toll-persons/north/socket:" in part and "NAME" not in part
    office = tmp_path / "nginx" / "conf.d" / "toll_north.conf"
    assert "include /etc/nginx/toll-north/*.conf;" in office.read_text()
    assert "log_format toll_person" in (tmp_path / "nginx" / "conf.d" / "00-toll-persons.conf").read_text()
    assert not any(each.is_new for each in with_persons(machine))
    office.write_text(office.read_text().replace("include ", "# "))
    with pytest.raises(Failure, match="doesn't read parts"):
        with_persons(machine)


@pytest.mark.parametrize("host", [HOST, "a b", "x;y", "../x", "desk.example.com\nX=1", "-x"])
def test_the_host_of_screens_is_a_host_name(machine, host):
    with pytest.raises(Failure, match="--desk"):
        with_desk(machine, host)


def test_logs_of_the_site_begin_as_their_rotation_makes_them(machine, monkeypatch):
    (folder := pathlib.Path(machine.logs)).mkdir()
    user, group = os.getuid(), os.getgid()
    monkeypatch.setattr(machines, "pwd", types.SimpleNamespace(getpwnam=lambda name: types.SimpleNamespace(pw_uid={"www-data": user}[name])))
    monkeypatch.setattr(machines, "grp", types.SimpleNamespace(getgrnam=lambda name: types.SimpleNamespace(gr_gid={"adm": group}[name])))
    (folder / "unauthenticated-toll.log").write_text("what was there\n")
    (folder / "kept").write_text("")
    given(machine)
    assert {path.name: (oct(path.stat().st_mode & 0o777), path.read_text()) for path in folder.iterdir()} == {
        "toll.log": ("0o640", ""), "unauthenticated-toll.log": (oct((folder / "unauthenticated-toll.log").stat().st_mode & 0o777), "what was there\n"),
        "kept": (oct((folder / "kept").stat().st_mode & 0o777), "")}
    (folder / "toll.log").unlink()
    (folder / "toll.log").symlink_to(folder / "kept")
    machine.begin_log("toll.log")
    assert (folder / "toll.log").is_symlink()


def test_a_machine_with_another_nginx_s_user_begins_no_log(machine, monkeypatch):
    pathlib.Path(machine.logs).mkdir()

    def absent(name):
        raise KeyError(name)

    monkeypatch.setattr(machines, "pwd", types.SimpleNamespace(getpwnam=absent))
    given(machine)
    assert not os.listdir(machine.logs)
