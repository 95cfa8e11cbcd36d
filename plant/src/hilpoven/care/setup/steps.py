"""The steps from the installed packages to an owner's page. Each leaves what is right, and says what it did."""
import csv
import io
import os
import pwd
import re
import stat
from collections.abc import Callable, Iterator
from dataclasses import dataclass
from typing import NamedTuple

from ...core import paths, settings as site
from ...core.failure import WRONG_USE, Failure
from ...core.office import has_bytes
from . import files
from .machine import Machine
from .plan import Plan
from .site import persons_of, screens_of, site_of

ABOUT_HILPOVEN = (
    '# The settings of hilpoven. What can stand here: /usr/share/doc/toll/docs/administration.md, "Settings".\n'
)
ABOUT_SETTINGS = '# What else can stand here: /usr/share/doc/toll/docs/operations.md, "As a service".\n'
LOGS = re.compile(r"^\s*access_log /var/log/nginx/([\w.-]+)", re.M)
DESK_HOST = re.compile(r"^DESK_HOST=(.*)$", re.M)
IS = ("is-enabled", "is-active")
OPTIONAL = ("toll-companion@{name}.timer",)  # units of later packages


class Done(NamedTuple):
    """What a step did: whether it changed something, and what is so now."""

    is_new: bool
    text: str
    owner_key: str = ""  # of an owner that was added


@dataclass(frozen=True)
class Setup:
    """An office that is set up on a machine."""

    plan: Plan
    machine: Machine

    @property
    def settings(self) -> site.Settings:
        """The settings of the office, once they are there."""
        return site.of_office(site.Settings(), self.plan.name)

    def units(self) -> list[str]:
        """The units of the office."""
        optional = [unit for unit in OPTIONAL if self.machine.has_unit(unit.format(name=""))]
        return [
            unit.format(name=self.plan.name) for unit in ("toll@{name}.service", "toll-backup@{name}.timer", *optional)
        ]


def office_settings(setup: Setup) -> Done:
    """The office's file of settings, with a port of its own, and the log of its site."""
    path, port = f"{setup.machine.offices}/{setup.plan.name}.env", setup.machine.free_port()
    is_new, log = not os.path.lexists(path), site_of(setup.machine, setup.plan, port).log
    if is_new:
        files.write(path, f"{ABOUT_SETTINGS}PORT={port}\nSITE_LOGS={log}\n", is_new=True)
    port = setup.settings.port
    if not port:
        raise Failure(f"{path} names no PORT", WRONG_USE, f"PORT={setup.machine.free_port()} is free")
    if others := [name for name, used in setup.machine.ports().items() if used == port and name != setup.plan.name]:
        advice = f"PORT={setup.machine.free_port()} is free"
        raise Failure(f"{path}: {port} is the port of the office {others[0]}, too", WRONG_USE, advice)
    warning = "" if port < 1024 else ", which another account may take: one below 1024 is better"
    line = "" if setup.settings.site_logs else f"; SITE_LOGS={log} there shows `hilpoven journal` what its owners did"
    return Done(is_new, f"{path}: port {port}{warning}{line}")


def folder(setup: Setup) -> Done:
    """The office's folder, which its user makes, alone may open, and owns."""
    path, user = os.path.dirname(setup.settings.file), setup.machine.user
    is_new = not os.path.lexists(path)
    if is_new:
        setup.machine.must(["mkdir", "-m", "700", path], user)
    state = os.lstat(path)
    if not stat.S_ISDIR(state.st_mode) or state.st_uid != pwd.getpwnam(user).pw_uid:
        raise Failure(f"{path} is no folder of {user}'s", WRONG_USE)
    if is_open := bool(state.st_mode & 0o077):
        setup.machine.must(["chmod", "700", path], user)
    return Done(is_new or is_open, f"{path}: only {user} can open it")


def office(setup: Setup) -> Done:
    """The office's file."""
    file = setup.settings.file
    if is_new := not has_bytes(file):
        setup.machine.hilpoven(setup.plan.name, "new")
    return Done(is_new, f"{file}: the office")


def settings(setup: Setup) -> Done:
    """The settings of `hilpoven`, which the package brings."""
    path = setup.machine.settings
    if is_new := not os.path.lexists(path):
        files.write(path, ABOUT_HILPOVEN, is_new=True)
    return Done(is_new, f"{path}: the settings of hilpoven")


def units(setup: Setup) -> Done:
    """The units, which begin with the machine and now; fails where the server doesn't answer."""
    machine, names, port = setup.machine, setup.units(), setup.settings.port
    if not (was_right := are_active(machine, names)):
        machine.must(["systemctl", "enable", "--now", *names])
    if not machine.wait_for_server(port) or not are_active(machine, names):
        advice = f"journalctl -u {names[0]} tells why"
        raise Failure(f"{names[0]} doesn't answer at port {port}", advice=advice)
    return Done(not was_right, f"{', '.join(names)}: enabled and active")


def backup(setup: Setup) -> Done:
    """The first backup, which the timer would make within the hour."""
    folder, unit = setup.settings.backups, f"toll-backup@{setup.plan.name}.service"
    if is_new := not setup.machine.has_files(folder):
        setup.machine.must(["systemctl", "start", unit])
    return Done(is_new, f"{folder}: the backups")


def are_active(machine: Machine, units: list[str]) -> bool:
    """Whether units are enabled and active."""
    return all(machine.run(["systemctl", question, "--quiet", name]).status == 0 for question in IS for name in units)


def site_for_owners(setup: Setup) -> Done:
    """The site, by nginx; what nginx doesn't take is taken back."""
    machine, plan = setup.machine, setup.plan
    site = site_of(machine, plan, setup.settings.port)
    if other := site.other_of_host(plan.host):
        raise Failure(f"{other} has a site of {plan.host}", WRONG_USE, "each office has a host name of its own")
    wanted = [site.office] if site.shared else [site.machine, site.office]
    changed = [file for file in wanted if file.state() is files.State.CHANGED]
    is_new = replaced(machine, wanted)
    is_running = machine.run(["systemctl", "is-active", "--quiet", "nginx"]).status == 0
    if is_new or not is_running:
        machine.must(["systemctl", *(("reload",) if is_running else ("enable", "--now")), "nginx"])
    if not machine.wait_for_page(plan.host):
        raise Failure(
            f"nginx doesn't hand out the page and the office's answers at {plan.host}",
            advice="nginx -T shows its sites",
        )
    remarks = [f"{file.path} was changed by hand and stays" for file in changed]
    remarks += [f"{site.shared} has the machine's part"] if site.shared else []
    remarks += [
        f"{site_path} answers at port 80, where a key goes unencrypted: remove it"
        for site_path in site.others_at_port_80()
    ]
    return Done(is_new or not is_running, "; ".join([f"{site.office.path}: the site of {plan.host}", *remarks]))


def replaced(machine: Machine, wanted: list[files.Written]) -> bool:
    """Writes files of nginx, as far as they aren't right, and begins their logs; whether any was written. Fails where
    nginx doesn't take them, and puts back what was there."""
    before: dict[str, str] = {}
    try:
        for file in wanted:
            for log in sorted(set(LOGS.findall(file.lines))):
                machine.begin_log(log)
            if (text := file.put()) is not None:
                before[file.path] = text
        done = machine.run(["nginx", "-t"])
        if done.status or "conflicting server name" in done.text:
            why = "; ".join(done.text.splitlines())
            raise Failure(f"nginx doesn't take the site: {why}", advice="docs/operations.md has its parts")
    except BaseException:
        for path, text in before.items():
            files.take_back(path, text)
        raise
    return bool(before)


def persons(setup: Setup) -> Done | None:
    """The persons of owners, by their unit and a part of the site."""
    machine, plan, port = setup.machine, setup.plan, setup.settings.port
    if not plan.has_persons:
        return None
    if not machine.has_unit("toll-persons@.service"):
        raise Failure("the package hilpoven-persons isn't here, which has persons of owners", WRONG_USE)
    site = site_of(machine, plan, port)
    with open(site.office.path) as file:
        if not re.search(rf"^\s*include \S+/toll-{plan.name}/\*\.conf;", file.read(), re.M):
            line = f"include {machine.nginx}/toll-{plan.name}/*.conf;"
            raise Failure(
                f"{site.office.path} was changed by hand, and doesn't read parts", WRONG_USE, f"it needs {line}"
            )
    names = [f"toll-persons@{plan.name}.service"]
    if not (was_right := are_active(machine, names)):
        machine.must(["systemctl", "enable", "--now", *names])
    os.makedirs(f"{machine.nginx}/toll-{plan.name}", 0o755, exist_ok=True)
    if is_new := replaced(machine, persons_of(machine, plan, port, site.log)):
        machine.must(["systemctl", "reload", "nginx"])
    return Done(not was_right or is_new, f"{', '.join(names)}: persons of owners at {plan.host}")


def screens(setup: Setup) -> Done | None:
    """The plant's screens, by their unit and nginx."""
    machine, plan = setup.machine, setup.plan
    if not plan.desk:
        return None
    if not machine.has_unit("toll-desk@.service"):
        raise Failure("the package hilpoven-desk isn't here, which has the screens", WRONG_USE)
    is_named, names = named_host(setup), ["toll-passwords.service", f"toll-desk@{plan.name}.service"]
    was_right = are_active(machine, names)
    if not was_right:
        machine.must(["systemctl", "enable", "--now", *names])
    elif is_named:
        machine.must(["systemctl", "restart", names[1]])
    if is_new := replaced(machine, screens_of(machine, plan)):
        machine.must(["systemctl", "reload", "nginx"])
    return Done(is_named or not was_right or is_new, f"{', '.join(names)}: the plant's screens at {plan.desk}")


def named_host(setup: Setup) -> bool:
    """Has the office's settings name the host of its screens; whether they didn't. Fails where they name another."""
    path, host = f"{setup.machine.offices}/{setup.plan.name}.env", setup.plan.desk
    with open(path) as file:
        text = file.read()
    if match := DESK_HOST.search(text):
        if match[1] != host:
            raise Failure(f"{path} has screens at {match[1]}", WRONG_USE, f"DESK_HOST={host} there names another host")
        return False
    files.write(path, f"{text}DESK_HOST={host}\n", is_new=False)
    return True


def owner(setup: Setup) -> Done | None:
    """The first owner, with a key that is made and shown once."""
    name, machine = setup.plan.owner, setup.machine
    if not name:
        return None
    rows = csv.reader(io.StringIO(machine.hilpoven(setup.plan.name, "list", "owners", "--csv")))
    if name in [row[0] for row in rows if row]:
        return Done(False, f"{name}: an owner, whose key isn't shown again")
    text = machine.hilpoven(setup.plan.name, "owner", "add", name, "--random")
    return Done(True, f"{name}: an owner", text.split("key ")[-1].strip())


STEPS: tuple[Callable[[Setup], Done | None], ...] = (
    office_settings,
    folder,
    office,
    settings,
    units,
    backup,
    site_for_owners,
    persons,
    screens,
    owner,
)


def take(setup: Setup) -> Iterator[Done]:
    """Takes the steps one by one, once all that can be wrong with the words is looked at."""
    setup.plan.require_forms()
    setup.machine.require_programs()
    setup.plan.require_certificate()
    paths.private(setup.machine.offices)
    with setup.machine.held():
        for step in STEPS:
            if done := step(setup):
                yield done
