"""The units of packaging/: what systemd makes of them, and what each may do."""
import fnmatch
import pathlib
import re
import shutil
import subprocess
import sys
import tomllib

import pytest
from conftest import ROOT, script

sys.path.insert(0, str(ROOT / "plant" / "src"))
from hilpoven.core import settings  # noqa: E402

OFFICE = """toll@acme.service toll-backup@acme.service toll-companion@acme.service toll-follow@acme.service
    toll-publish@acme.service toll-persons@acme.service toll-notify@acme.service toll-notify@acme.timer
    toll-backup@acme.timer toll-companion@acme.timer toll-failed@toll@acme.service.service""".split()
SINGLE = ["toll.service", "toll-backup.service", "toll-backup.timer", "hilpoven-group.service"]
PROGRAMS = r"(?m)^(Exec\w+=)(toll|hilpoven)\b"


@pytest.fixture(scope="module")
def installed(tmp_path_factory: pytest.TempPathFactory) -> pathlib.Path:
    """A folder with the units as they are installed; their programs stand in a folder beside it."""
    folder = tmp_path_factory.mktemp("units")
    for name in ("toll", "hilpoven"):
        shutil.copy("/bin/true", folder / name)
    lines = [line.split() for file in (ROOT / "debian").glob("*.install") for line in file.read_text().splitlines()]
    for source, target in (line for line in lines if line[-1].startswith("usr/lib/systemd/system")):
        unit = folder / target.removeprefix("usr/lib/systemd/") / source.rpartition("/")[2]
        unit.parent.mkdir(parents=True, exist_ok=True)
        unit.write_text(re.sub(PROGRAMS, rf"\1{folder}/\2", (ROOT / source).read_text()))
    return folder / "system"


def analyzed(installed: pathlib.Path, *words: str) -> tuple[int, str]:
    environment = {"PATH": "/usr/bin:/bin", "SYSTEMD_UNIT_PATH": f"{installed}:/lib/systemd/system"}
    command = ["systemd-analyze", "--man=no", *words]
    done = subprocess.run(command, capture_output=True, text=True, env=environment)
    return done.returncode, done.stdout + done.stderr


@pytest.mark.parametrize("unit", OFFICE + SINGLE)
def test_systemd_finds_nothing_in_a_unit(installed: pathlib.Path, unit: str) -> None:
    assert analyzed(installed, "verify", unit) == (0, "")


@pytest.mark.parametrize("unit", OFFICE + SINGLE)
def test_a_unit_that_is_broken_is_found(installed: pathlib.Path, unit: str, tmp_path: pathlib.Path) -> None:
    """That the look above sees something."""
    broken = shutil.copytree(installed, tmp_path / "system")
    source = broken / re.sub(r"@.*(\.\w+)$", r"@\1", unit)
    text = source.read_text().replace("OnCalendar=", "OnCalendar=never ")
    source.write_text(text.replace("ExecStart=", "ExecStart=/nowhere/"))
    assert analyzed(broken, "verify", unit) != (0, "")


@pytest.mark.parametrize("unit", [unit for unit in OFFICE[:3] + SINGLE[:2]])
def test_a_unit_may_do_little(installed: pathlib.Path, unit: str) -> None:
    status, output = analyzed(installed, "security", "--offline=yes", "--no-pager", unit)
    (exposure,) = re.findall(r"exposure level for \S+: ([\d.]+)", output)
    assert float(exposure) <= 1.5, output


def text_of(name: str) -> str:
    return (ROOT / "packaging" / name).read_text()


def setting(text: str, name: str) -> list[str]:
    return re.findall(rf"(?m)^{name}=(.*)$", text)


def test_the_server_has_the_one_capability_that_a_low_port_needs() -> None:
    server = text_of("toll@.service")
    for name in ("CapabilityBoundingSet", "AmbientCapabilities"):
        assert setting(server, name) == ["CAP_NET_BIND_SERVICE"]
        assert setting(text_of("toll-backup@.service"), name) == [""]
    # a user's own root has no say over this machine's ports
    assert "PrivateUsers" not in server + text_of("hardening.conf") + text_of("office.conf")
    assert setting(text_of("office.env"), "PORT") and int(setting(text_of("office.env"), "PORT")[0]) < 1024


def test_the_c_library_has_what_the_server_sets_of_it() -> None:
    """It passes over a name that it doesn't know."""
    (words,) = setting(text_of("toll@.service"), "Environment=GLIBC_TUNABLES")
    listing, environment = ["/lib64/ld-linux-x86-64.so.2", "--list-tunables"], {"GLIBC_TUNABLES": words}
    listed = subprocess.run(listing, capture_output=True, text=True, env=environment).stdout
    tunables = {name: int(value, 16) for name, value in re.findall(r"(?m)^(\S+): (0x[0-9a-f]+) ", listed)}
    for name, _, value in (word.partition("=") for word in words.split(":")):
        assert tunables[name] == int(value)


def test_the_site_looks_for_companions_where_the_unit_puts_them_for_its_group() -> None:
    unit = text_of("toll-companion@.service")
    (folder,) = re.findall(r"alias (/var/cache/\S+)/\$toll_companion\.json;", text_of("nginx.conf"))
    assert folder == f"{settings.COMPANIONS}/NAME" == settings.companions_of(settings.Settings(office="NAME"))
    assert [f"/var/cache/{name}" for name in setting(unit, "CacheDirectory")] == [folder.replace("NAME", "%i")]
    assert setting(unit, "ExecStart")[0].endswith(f" companion --out {folder.replace('NAME', '%i')}")
    # the group's alone, whose new files are the group's too
    rights = [setting(unit, name) for name in ("Group", "CacheDirectoryMode", "UMask")]
    assert rights == [["www-data"], ["2710"], ["0077"]]
    # a state folder would be given to that group
    assert not setting(unit, "StateDirectory") and setting(text_of("office.conf"), "BindPaths") == ["/var/lib/toll/%i"]
    assert setting(unit, "EnvironmentFile") == ["/etc/toll/%i.env"]


def test_companions_read_the_site_s_log_of_their_office_and_no_other_log() -> None:
    """`--db FILE` would be an office without a name, which has no site."""
    unit = text_of("toll-companion@.service")
    assert setting(unit, "ExecStart")[0].startswith("hilpoven --office %i ")
    assert setting(unit, "SupplementaryGroups") == ["adm"] and setting(unit, "InaccessiblePaths") == ["-/run/log"]
    assert "/var/log:ro" in setting(unit, "TemporaryFileSystem")[0]
    (folder,) = setting(unit, "BindReadOnlyPaths")
    assert re.findall(r"create 0640 www-data adm", (ROOT / "packaging/etc/logrotate.d/hilpoven").read_text())
    logs = set(re.findall(r"access_log (/\S+/)", text_of("nginx.conf")))
    assert {f"{folder.removeprefix('-')}/"} == logs


def test_server_and_backup_have_one_file_of_settings() -> None:
    units = [text_of(name) for name in ("toll@.service", "toll-backup@.service", "toll-follow@.service")]
    for unit in units:
        assert setting(unit, "EnvironmentFile") == ["/etc/toll/%i.env"]
        assert setting(unit, "UMask") == ["0077"] and setting(unit, "OnFailure") == ["toll-failed@%n.service"]
        assert "${FILE}" in unit
        assert setting(unit, "Environment")[0].split()[0] == "FILE=/var/lib/toll/%i/office.db"
    used = set(re.findall(r"\$\{(\w+)\}", "".join(units)))
    assert used == set(re.findall(r"(?m)^#?([A-Z]+)=", text_of("office.env")))


def test_a_server_waits_for_its_follower_s_look_and_ends_when_another_has_the_office() -> None:
    follower, server = text_of("toll-follow@.service"), text_of("toll@.service")
    stop = "+sh -c 'test ! -e ${FILE}.superseded || systemctl --no-block stop toll@%i.service'"
    assert setting(follower, "Before") == ["toll@%i.service"] and setting(follower, "ExecStopPost") == [stop]
    assert setting(follower, "ExecStartPre")[0].endswith("--check")
    assert "test ! -e ${FILE}.superseded" in setting(server, "ExecStartPre")


def test_the_timers_backup_keeps_what_its_settings_say() -> None:
    (command,) = setting(text_of("toll-backup@.service"), "ExecStart")
    assert re.findall(r"--(keep|days) \$\{(\w+)\}", command) == [("keep", "HOURS"), ("days", "DAYS")]


@pytest.mark.parametrize("name, when", [("toll-backup@.timer", "hourly"), ("single/toll-backup.timer", "daily")])
def test_a_backup_that_was_due_while_the_machine_was_off_is_made_when_it_is_on(name: str, when: str) -> None:
    timer = text_of(name)
    assert setting(timer, "Persistent") == ["yes"] and setting(timer, "OnCalendar") == [when]


def test_what_owners_did_is_kept_for_ten_years_and_by_its_age_alone() -> None:
    """The other log has what anybody may send: it is kept for days, and by number and size."""
    rules = {
        path: {words[0]: words[1:] for words in map(str.split, filter(None, lines.splitlines()))}
        for path, lines in re.findall(r"(?m)^(\S+) \{\n(.*?)^\}", text_of("etc/logrotate.d/hilpoven"), re.S)
    }
    owners, anybody = rules["/var/log/nginx/toll*.log"], rules["/var/log/nginx/unauthenticated-toll*.log"]
    # ten years have up to three leap days
    assert int(owners["maxage"][0]) >= 3653 and owners["rotate"] == ["-1"] and "monthly" in owners
    assert (anybody["maxage"], anybody["rotate"]) == (["14"], ["14"])
    (log,) = re.findall(r"access_log (\S+) toll if=\$toll_authenticated;", text_of("nginx.conf"))
    assert fnmatch.fnmatch(log, "/var/log/nginx/toll*.log")


def test_page_example_unit_and_command_have_the_same_defaults(
    tmp_path: pathlib.Path, monkeypatch: pytest.MonkeyPatch
) -> None:
    (line,) = setting(text_of("toll-backup@.service"), "Environment")
    backup = dict(word.split("=") for word in line.split())
    defaults = {name: value.replace("%i", "NAME") for name, value in backup.items()}
    rows = re.findall(r"(?m)^- `([A-Z]+)`, by default `?(\S+?)`?: ", (ROOT / "docs" / "operations.md").read_text())
    lines = dict(re.findall(r"(?m)^#([A-Z]+)=(.*)$", text_of("office.env")))
    assert lines.pop("FOLLOW").startswith("HOST:")  # an example: without it nobody follows
    assert dict(rows) == defaults == lines
    (tmp_path / "NAME.env").write_text("PORT=801\n")
    monkeypatch.setattr(settings, "OFFICES", str(tmp_path))
    office = settings.of_office(settings.Settings(), "NAME")
    assert [office.file, office.backups, str(office.keep), str(office.days)] == list(defaults.values())


def test_the_journal_reads_the_log_that_the_site_keeps() -> None:
    kept = re.findall(r"access_log (\S+) toll if=\$toll_authenticated;", text_of("nginx.conf"))
    assert tomllib.loads(text_of("etc/hilpoven.toml"))["site_logs"] == kept and len(kept) == 1


def test_no_site_goes_to_a_port_that_no_unit_serves() -> None:
    ports = set(re.findall(r"proxy_pass http://127\.0\.0\.1:(\d+)", text_of("nginx.conf")))
    assert len(ports) == 1


def test_the_site_goes_to_the_port_of_the_example() -> None:
    (port,) = setting(text_of("office.env"), "PORT")
    assert re.findall(r"proxy_pass http://127\.0\.0\.1:(\d+);", text_of("nginx.conf")) == [port] and int(port) < 1024


def operators_units(package: str) -> dict[str, str]:
    """The units of a package that an operator enables, as systemctl takes them, and the pattern of their instances."""
    lines = [line.split() for line in (ROOT / "debian" / f"{package}.install").read_text().splitlines()]
    names = [source.rpartition("/")[2] for source, *targets in lines if targets == ["usr/lib/systemd/system"]]
    enabled = [name for name in names if "[Install]" in next((ROOT / "packaging").rglob(name)).read_text()]
    return {name: name.replace("@.", "@*.") for name in enabled}


@pytest.mark.parametrize("package", ("toll", "hilpoven", "hilpoven-group"))
def test_a_package_that_is_removed_stops_and_disables_what_its_operator_enabled(
    package: str, tmp_path: pathlib.Path
) -> None:
    """The script that dpkg runs before, with programs that note their words in place of systemd's."""
    units = operators_units(package)
    for name in ("systemctl", "deb-systemd-invoke"):
        script(tmp_path / name, f'for word; do echo "{name} $1 $word" >> {tmp_path}/log; done')
    text = (ROOT / "debian" / f"{package}.prerm").read_text().replace("/run/systemd/system", str(tmp_path))
    stopped = [f"deb-systemd-invoke stop {pattern}" for pattern in units.values()]
    for words, log in (
        (["upgrade", "99"], set[str]()),
        (["remove"], {*stopped, *(f"systemctl disable {name}" for name in units)}),
    ):
        (tmp_path / "log").write_text("")
        subprocess.run(["sh", "-c", text, "prerm", *words], check=True, env={"PATH": f"{tmp_path}:/usr/bin:/bin"})
        noted = set((tmp_path / "log").read_text().splitlines())
        assert log <= noted and bool(log) == bool(noted), log - noted
    assert units
