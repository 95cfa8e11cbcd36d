"""`hilpoven setup`: from the installed packages to an owner's page."""
import grp
import os
import shlex
import sys

import click

from .. import HOUSE
from ..core.context import Context
from ..core import settings as site
from ..core.failure import WRONG_USE, Failure, printable
from .output import tell_line
from ..care.setup.machine import Machine
from ..care.setup.plan import Plan
from ..care.setup.steps import Setup, take
from .caller import person

MAY_BE_ROOT = {"sudo", "wheel", "admin"}  # groups whose members may become root by sudo


def setup(_: Context, name: str, host: str, cert: str, key: str, owner: str, desk: str, has_persons: bool) -> None:
    """`hilpoven setup`."""
    become_root()
    if owner == HOUSE:
        raise Failure("HOUSE is the plant itself", WRONG_USE)
    plan = Plan(name, host.lower(), os.path.abspath(cert), os.path.abspath(key), owner, desk.lower(), has_persons)
    owner_key, changes = "", 0
    machine = Machine(command=os.path.abspath(sys.argv[0]), login=person().login)
    for done in take(Setup(plan, machine)):
        tell_line(printable(f"{'done ' if done.is_new else 'there'}  {done.text}"))
        changes, owner_key = changes + done.is_new, done.owner_key or owner_key
    if not changes:
        tell_line("all of it was right: nothing is changed")
    click.echo(f"https://{plan.host}/owner/")
    if plan.desk:
        tell_line(f"https://{plan.desk}/ has the plant's screens; `adduser NAME hilpoven` lets a person log in")
    if has_persons:
        tell_line("`hilpoven person add OWNER NAME --role ROLE` lets a person of an owner log in")
    if owner_key:
        click.echo(f"{owner} {owner_key}")
    tell_line(f"next: {next_step(plan)}")


def become_root() -> None:
    """Goes on as root, by sudo where the caller may; fails for everybody else."""
    if os.geteuid() == 0 and not person().is_member:
        return
    words = ["sudo", "--", os.path.abspath(sys.argv[0]), *sys.argv[1:]]
    if not person().is_member and MAY_BE_ROOT & set(group_names()):
        sys.stdout.flush()
        os.execvp("sudo", words)
    raise Failure("setup is for root alone", WRONG_USE, printable(shlex.join(words)))


def group_names() -> list[str]:
    """The names of the caller's groups."""
    names = []
    for number in os.getgroups():
        try:
            names.append(grp.getgrgid(number).gr_name)
        except KeyError:
            continue
    return names


def next_step(plan: Plan) -> str:
    """The command behind this one."""
    by = "sudo -u toll " if "SUDO_UID" in os.environ else ""
    office = "" if site.only_office() == plan.name else f" --office {plan.name}"
    if not plan.owner:
        return f"{by}hilpoven{office} owner add OWNER --random"
    return f"{by}hilpoven{office} recipe-add {plan.owner} TRIAL 1  (a recipe that {plan.owner} can order on its page)"
