"""Roles: under sudo the groups of the caller decide which commands it may give, and neither its environment nor other words do."""
import contextlib
import dataclasses
import json

import click
import pytest
from click.testing import CliRunner
from conftest import Told, script
from hilpoven.cli import caller, hilpoven
from hilpoven.cli.table import PACKAGED
from hilpoven.record import on_behalf
from hilpoven.core import roles, settings as site
from hilpoven.core.failure import Failure
from hilpoven.core.journal import log

# Users and groups that each Debian has: daemon, 1, is in the group daemon, and man, 6, in the group man.
DAEMON, MAN = 1, 6
QUESTIONS = {"orders", "stock", "batch", "trace", "recall", "status", "verify", "labels", "board", "companion", "to-csv", "count sheet", "complete", "find", "note list", "party list", "drill paper", "journal verify",
             "journal head", "follow status", "follow verify", "case status", "case paper", "case list", "years files", "years recall", "years trace", "years lot", "years statement"}
GROUPS_OF_QUESTIONS = {"list", "show", "papers", "export"}  # of which no subcommand records anything
OF_EACH_ROLE = {
    "record": ["ship ACME K9 S-1 BAY1 5 103", "count import -", "use ACME O-1 1 HOUSE W-101 TANK 5 103", "import -", "note not-linked ACME K1", "note corrects ACME K1 K2", "link ACME B-1 S-1 --why use", "do ACME O-1 1 hold",
               "correct ACME K1 --amount 5 --reason x",
               "clean KETTLE --how hot", "note no-residue ACME O-1 1 --reason rinsed", "link BOLT P-1 S-1 --of-owner ACME --why residue --tell",
               "for ACME order O-9 BRINE-10 1 --by mail"],
    "quality": ["reject W-101", "release W-101", "sign ACME S-1", "describe lot ACME S-1 --expires 271127", "drill start S-1",
                "for ACME release S-1 --by mail", "for ACME reject S-1 --by mail"],
    "master_data": ["unit-add PRESS", "material new ACME GLUE kg", "material-add ACME GLUE kg", "require ACME BRINE-10 1 consumed ACME SALT 3", "party add ACME N --name N --role customer",
                    "describe owner ACME --name Acme", "describe material ACME BRINE --name Brine", "describe test ACME BRINE PH --decimals 2",
                    "describe recipe ACME BRINE-10 --allowance 1.5", "describe unit KETTLE --name K", "describe material ACME BRINE --allergen MILK"],
    "settlement": ["settle ACME 2501 --tar --no-pdf", "settle HOUSE 2501"],
    "keys": ["owner key ACME", "owner add NEW", "owner-add NEW NEWKEY12"],
    "restore": ["restore office.db", "restore --at 2026-11-27", "promote", "backup", "carry-over", "new", "register rebuild"],
}


def settle(plant, **groups):
    """Has the settings name these groups."""
    plant.settle()
    path = site.load.__defaults__[0]
    path.write_text(path.read_text() + "[roles]\n" + "".join(f"{role} = {json.dumps(names)}\n" for role, names in groups.items()))


def by(plant, user, *words, **environment):
    """What the plant's command tells a member of the group whose number sudo gives."""
    with pytest.MonkeyPatch.context() as patch:
        patch.setattr(caller, "STARTED_AS", 4242)
        done = CliRunner(mix_stderr=False, env={"SUDO_UID": str(user), "SUDO_USER": "anna", **environment}).invoke(hilpoven, list(words), input="")
    if done.exception and not isinstance(done.exception, SystemExit):
        raise done.exception
    return Told(done.exit_code, done.stdout, done.stderr)


def words_of(group, before=()):
    """The words of each subcommand that is no group of others."""
    for name, command in group.commands.items():
        if isinstance(command, click.Group):
            yield from words_of(command, (*before, name))
        else:
            yield " ".join((*before, name))


def test_each_subcommand_has_a_role_or_changes_nothing():
    names = set(words_of(hilpoven)) - {"demo", "setup", *PACKAGED}  # which no member gives
    own = {name for name in roles.ROLES if name.split()[0] not in PACKAGED}  # those of packages are tried with them
    assert own <= names and set(roles.ROLES.values()) == {field.name for field in dataclasses.fields(site.Roles)}
    assert set(on_behalf.PATHS) <= set(roles.ROLES)  # whose roles `for` asks for
    assert {name for name in names - set(roles.ROLES) - {"for"} if name.split()[0] not in GROUPS_OF_QUESTIONS} == QUESTIONS


@pytest.mark.parametrize("role", OF_EACH_ROLE)
def test_a_member_of_another_group_gives_no_command_of_a_role(at_work, role):
    settle(at_work, **{role: ["man"]})
    before, files, lines = at_work.content(), sorted(at_work.folder.iterdir()), at_work.lines()
    for text in OF_EACH_ROLE[role]:
        done = by(at_work, DAEMON, *text.split())
        assert done.status == 2 and done.out == "" and f" is for the members of man alone, by the role {role} of the settings" in done.err, (text, done)
    assert at_work.content() == before and sorted(at_work.folder.iterdir()) == files and at_work.lines() == lines


def test_a_member_of_the_group_may_and_so_may_root(at_work):
    settle(at_work, master_data=["mail", "man"], quality=[])
    assert by(at_work, MAN, "unit-add", "PRESS").out == "accepted\n"
    assert "for root and the office's user alone" in by(at_work, MAN, "reject", "W-101").err
    assert by(at_work, DAEMON, "scrap", "ACME", "K9", "S-1", "BAY1", "5", "103").out == "accepted\n"  # of which nothing is told
    assert at_work.run("unit-add", "MIXER-2").out == at_work.run("reject", "W-101").out == "accepted\n"
    for words in (["stock", "ACME"], ["list", "lots"], ["show", "lot", "ACME", "S-1"], ["note", "list"], ["party", "list"], ["journal", "--no-site"], ["board"]):
        assert by(at_work, DAEMON, *words).status == 0


def test_whoever_records_holds_a_lot_and_quality_alone_lets_it_go(at_work):
    """DAEMON judges and MAN records; a member with neither role does nothing."""
    settle(at_work, quality=["daemon"], record=["man"])
    for user in (MAN, DAEMON):
        assert by(at_work, user, "hold", "ACME", "S-1", "--reason", "wet").out.startswith("noted ")
    assert "is for the members of daemon alone, by the role quality of the settings" in by(at_work, MAN, "sign", "ACME", "S-1").err
    settle(at_work, quality=["daemon"], record=["mail"])
    done, lines = by(at_work, MAN, "hold", "ACME", "S-1", "--reason", "wet"), at_work.lines()
    assert done.status == 2 and "hold is for the members of daemon or mail alone, by the role quality or record of the settings" in done.err, done
    settle(at_work, quality=["daemon"])  # every member records
    assert by(at_work, MAN, "hold", "ACME", "S-1", "--reason", "wet").status == 0 and len(at_work.lines()) == len(lines) + 1
    settle(at_work, quality=[], record=[])
    assert "hold is for root and the office's user alone" in by(at_work, MAN, "hold", "ACME", "S-1", "--reason", "wet").err


CASE = ["case open ACME S-1 --reason wet", "case hold", "case reply ACME N S-1 --back 1", "case close --reason done"]


def test_whoever_records_or_judges_recalls(at_work):
    """DAEMON judges and MAN records; a member with neither role changes nothing of a case."""
    settle(at_work, quality=["daemon"], record=["man"])
    for user in (MAN, DAEMON):
        assert by(at_work, user, *CASE[0].split()).out.startswith("case C-")
        assert by(at_work, user, "case", "hold", "--case", "C-1").status == 0
    settle(at_work, quality=["daemon"], record=["mail"])
    lines = at_work.lines()
    for text in CASE:
        done = by(at_work, MAN, *text.split())
        assert done.status == 2 and "is for the members of daemon or mail alone, by the role record or quality of the settings" in done.err, (text, done)
    assert at_work.lines() == lines


WITHDRAWN = {"master_data": ["describe test ACME BRINE PH --decimals 2", "describe recipe ACME BRINE-10 --allowance 1.5", "describe owner ACME --name Acme", "party add ACME N --name N --role customer", "describe unit KETTLE --name K"],
             "quality": ["describe lot ACME S-1 --expires 271127", "drill start S-1"], "record": ["link ACME B-1 S-1 --why rework", "note not-linked ACME K1", "link BOLT P-1 S-1 --of-owner ACME --why residue", "clean MIXER --how hot", "note no-residue ACME O-1 1 --reason clear", "case open ACME S-1 --reason x"],
             "settlement": ["settle ACME 2501 --tar --no-pdf"]}


@pytest.mark.parametrize("role", WITHDRAWN)
def test_a_note_is_withdrawn_by_whoever_may_make_it(at_work, role):
    settle(at_work, **{role: ["man"]})
    for text in WITHDRAWN[role]:
        assert by(at_work, MAN, *text.split()).status == 0
        name = at_work.lines()[-1]["id"]
        done = by(at_work, DAEMON, "note", "withdraw", name, "--reason", "wrong")
        assert done.status == 2 and f"is for the members of man alone, by the role {role} of the settings" in done.err and at_work.lines()[-1]["id"] == name
        assert by(at_work, MAN, "note", "withdraw", name, "--reason", "wrong").out.startswith("noted ")


REASONS = {"quality": ["reject W-101"], "record": ["scrap ACME K9 S-1 BAY1 5 103", "do ACME O-1 1 hold"]}


@pytest.mark.parametrize("role, text", [*((role, text) for role in ("master_data", "quality") for text in WITHDRAWN[role]), *((role, f"{text} --reason wet") for role in REASONS for text in REASONS[role])])
def test_a_withdrawal_needs_the_role_of_the_note_that_it_changes_in_the_end(at_work, role, text):
    """MAN has the role and records; DAEMON only records, or, of a note of a recorder, only judges."""
    settle(at_work, **({role: ["man"]} if role != "record" else {"record": ["man"], "quality": ["daemon"]}))
    assert by(at_work, MAN, *text.split()).status == 0
    name = next(line["id"] for line in at_work.lines() if "notes" in line)
    for depth in range(4):
        lines = at_work.lines()
        done = by(at_work, DAEMON, "note", "withdraw", name, "--reason", f"not so {depth}")
        assert done.status == 2 and f"for the members of man alone, by the role {role} of the settings" in done.err and at_work.lines() == lines, (depth, done)
        done = by(at_work, MAN, "note", "withdraw", name, "--reason", f"so {depth}")
        assert done.status == 0, (depth, done)
        name = done.out.split()[1]


def test_a_withdrawal_of_what_isn_t_there_is_withdrawn_by_nobody(at_work):
    settle(at_work, quality=["man"])
    journal = log.Journal(str(at_work.journal), str(at_work.db))
    note = {"kind": "withdrawal", "owner": "ACME", "of": "0123456789abcdef", "reason": "no"}
    name = journal.note(str(at_work.db), ["note", "withdraw"], notes=[note])
    done = by(at_work, DAEMON, "note", "withdraw", name, "--reason", "no")
    assert done.status == 1 and "there is no note 0123456789abcdef" in done.err


@pytest.mark.parametrize("user", [DAEMON, "4294967294", "99999999999999999999", "x", "-1", "", "6 ", "06x"])
def test_whom_the_system_doesn_t_know_is_in_no_group(at_work, user):
    settle(at_work, quality=["man"])
    assert by(at_work, user, "reject", "W-101").status == 2 and at_work.lines() == []


@pytest.mark.parametrize("environment", [
    {"SUDO_USER": "man"}, {"USER": "man", "LOGNAME": "man", "SUDO_GID": "12", "GROUPS": "12"}, {"HILPOVEN_SETTINGS": "/dev/null"},
    {"_HILPOVEN_COMPLETE": "bash_complete", "COMP_WORDS": "hilpoven reject W-101", "COMP_CWORD": "2"}])
def test_the_environment_decides_nothing(at_work, environment):
    settle(at_work, quality=["man"])
    done = by(at_work, DAEMON, "reject", "W-101", **environment)
    assert done.out.strip() == "" and at_work.rows("SELECT disposition FROM lots WHERE lot = 'W-101'") == [(1,)]


def test_no_settings_and_no_program_of_a_member_s_own_are_taken(at_work, tmp_path, monkeypatch):
    """Settings without roles, which name the same office, and a program that would run with the office's rights."""
    settle(at_work, quality=["man"])
    own, ran = tmp_path / "own.toml", tmp_path / "ran"
    own.write_text(f'file = "{at_work.db}"\ntoll = "{at_work.program}"\n')
    program = script(tmp_path / "own-toll", f"touch {ran}")
    done = by(at_work, DAEMON, "reject", "W-101", HILPOVEN_SETTINGS=str(own), TOLL=str(program))
    assert done.status == 2 and at_work.rows("SELECT disposition FROM lots WHERE lot = 'W-101'") == [(1,)] and not ran.exists()
    monkeypatch.setenv("TOLL", str(program))
    assert site.program(site.Settings()) == str(program)
    monkeypatch.setenv("SUDO_UID", str(DAEMON))
    with contextlib.suppress(Failure):
        assert site.program(site.Settings()) != str(program)


def test_words_before_and_behind_the_subcommand_change_nothing(at_work):
    settle(at_work, quality=["man"], keys=["man"], record=["man"])
    for text in ("--wait 0 reject W-101", "--office office reject W-101", "reject --lot W-101", "reject -- W-101", "owner key --random ACME", "owner --help key ACME", "drill start --help",
                 "result ACME B-1 PH 7 103", "import --what results -", "import --check -"):
        done = by(at_work, DAEMON, *text.split())
        assert done.status in (0, 2) and at_work.lines() == [] and "accepted" not in done.out, (text, done)


def test_the_caller_of_sudo_is_who_signs(at_work):
    settle(at_work)
    assert by(at_work, MAN, "hold", "ACME", "S-1", "--reason", "wet").status == 0
    line, = at_work.lines()
    assert line["event"] == "note" and line["login"] in ("anna", line["login"])


@pytest.mark.parametrize("text, why", [("roles = 1\n", "roles is to be a table: [roles]"), ("[roles]\nquality = \"qa\"\n", "quality is to be a list of texts"),
                                       ("[roles]\nqualty = [\"qa\"]\n", "qualty is no line of [roles]"), ("[roles]\nquality = [1]\n", "quality is to be a list of texts")])
def test_wrong_roles_let_nobody_in(at_work, text, why):
    at_work.settle()
    path = site.load.__defaults__[0]
    path.write_text(path.read_text() + text)
    done = by(at_work, MAN, "reject", "W-101")
    assert done.status == 2 and why in done.err and at_work.lines() == []


def test_a_role_that_isn_t_told_lets_no_member_promote(at_work):
    """Each other command of the role is every member's then: this one ends the work of another machine."""
    settle(at_work)
    for words in (["promote"], ["promote", "--check"], ["promote", "--until", "1"]):
        assert "promote is for root and the office's user alone, by the role restore of the settings" in by(at_work, MAN, *words).err
    settle(at_work, restore=["man"])
    assert "no snapshot and no piece" in by(at_work, MAN, "promote").err or "is no folder" in by(at_work, MAN, "promote").err
    assert "is for the members of man alone" in by(at_work, DAEMON, "promote").err


def test_who_signs_a_correction_has_the_role_of_quality(at_work):
    """MAN records and asks for it; DAEMON records, and isn't of quality."""
    settle(at_work, record=["man", "daemon"], quality=["man"])
    path = site.load.__defaults__[0]
    path.write_text(path.read_text() + "[corrections]\npersons = 2\n")
    done = by(at_work, MAN, "correct", "ACME", "K1", "--amount", "4990", "--reason", "typed wrongly")
    assert done.status == 0, done
    before = at_work.content()
    signed = by(at_work, DAEMON, "correct", "ACME", "K1", "--sign", done.out.split()[-1])
    assert signed.status == 2 and "correct --sign is for the members of man alone, by the role quality of the settings" in signed.err and at_work.content() == before
