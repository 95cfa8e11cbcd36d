"""The files of nginx that make an office's site, by the shipped one: what a machine needs once, and each office."""
import os
import re
from dataclasses import dataclass

from ...core.failure import Failure
from .files import Written
from .machine import Machine
from .plan import Plan

PARTS = re.compile(r"^# Once per (?:machine|office)\n", re.M)
IPV6 = re.compile(r"^ *listen \[::\]:.*\n", re.M)
ZONE = re.compile(r"^\s*limit_req_zone\s.*\bzone=toll:", re.M)  # which only the machine's part has
OPEN = re.compile(r"^\s*listen\s+(?:[\w.:\[\]*]*:)?80(?![\w.:])", re.M)
LOG = "/toll.log"
OWNERS_LOG = re.compile(r"^\s*access_log (\S+) toll if=\$toll_authenticated;", re.M)


@dataclass(frozen=True)
class Site:
    """The two files of an office's site, and which other file has the machine's part; empty if none has."""

    machine: Written
    office: Written
    shared: str
    others: dict[str, str]  # the other files of nginx's sites

    @property
    def log(self) -> str:
        """The log of the owners' requests."""
        if not (match := OWNERS_LOG.search(self.office.lines)):
            raise Failure("the site's file hasn't the log of owners' requests that this version knows")
        return match[1]

    def other_of_host(self, host: str) -> str:
        """Which other file has a site of this host name; empty if none has."""
        named = re.compile(rf"^\s*server_name\s[^;]*(?<![\w.-]){re.escape(host)}(?![\w.-])", re.M | re.I)
        return next((path for path, text in self.others.items() if named.search(text)), "")

    def others_at_port_80(self) -> list[str]:
        """Which other files answer without TLS."""
        return [path for path, text in self.others.items() if OPEN.search(text)]


def site_of(machine: Machine, plan: Plan, port: int) -> Site:
    """The files of an office's site, whose server has this port. nginx reads the machine's part first: files by their
    names, and conf.d before sites-enabled."""
    once_path, name = f"{machine.nginx}/conf.d/00-toll.conf", f"toll_{plan.name}.conf"
    texts = machine.nginx_files()
    shared = next((path for path, text in texts.items() if path != once_path and ZONE.search(text)), "")
    path = f"{os.path.dirname(shared or once_path)}/{name}"
    others = {other: text for other, text in texts.items() if other not in (path, once_path)}
    _, once, office = parts_of(machine, machine.template())
    logs = "" if not any(LOG in text for text in others.values()) else plan.name
    office = filled(office, plan, port, logs).replace("/usr/share/toll/page/", f"{machine.page()}/")
    return Site(Written(once_path, once), Written(path, office), shared, others)


def parts_of(machine: Machine, text: str) -> list[str]:
    """A shipped file's head, the machine's part and an office's, without IPv6 where the machine has none."""
    parts = [f"{part.strip()}\n" for part in PARTS.split(text)]
    if len(parts) != 3:
        raise Failure("the site's file hasn't the two parts that this version knows")
    return parts if machine.has_ipv6() else [IPV6.sub("", part) for part in parts]


def filled(text: str, plan: Plan, port: int, log: str) -> str:
    """An office's part with its own values; its logs have its name where another office has those of the shipped
    file."""
    own = with_own(
        text,
        *of_certificate("toll.example.com", plan.host, plan),
        ("http://127.0.0.1:801", f"http://127.0.0.1:{port}"),
        ("toll.log ", f"toll-{log}.log " if log else "toll.log "),
    )
    named = own.replace("/toll-companion/NAME/", f"/toll-companion/{plan.name}/")
    return named.replace("/toll-NAME/", f"/toll-{plan.name}/")


def of_certificate(shipped: str, host: str, plan: Plan) -> tuple[tuple[str, str], ...]:
    """What names a host in a shipped file, and the plan's host and certificate in its place."""
    return (
        (f"server_name {shipped};", f"server_name {host};"),
        (f"/etc/ssl/{shipped}.pem;", f"{plan.certificate};"),
        (f"/etc/ssl/private/{shipped}.key;", f"{plan.key};"),
    )


def with_own(text: str, *values: tuple[str, str]) -> str:
    """A shipped text with own values in the place of its own."""
    for shipped, own in values:
        if shipped not in text:
            raise Failure(f"the site's file has no `{shipped}`, which this version knows")
        text = text.replace(shipped, own)
    return text


def persons_of(machine: Machine, plan: Plan, port: int, log: str) -> list[Written]:
    """The files of the persons of an office's owners: what a machine needs once, and a part of the office's site."""
    _, once, office = parts_of(machine, machine.persons_template())
    own = with_own(
        office,
        ("http://127.0.0.1:801", f"http://127.0.0.1:{port}"),
        ("/NAME/", f"/{plan.name}/"),
        ("toll.log ", f"{os.path.basename(log)} "),
    )
    path = f"{machine.nginx}/toll-{plan.name}/persons.conf"
    return [Written(f"{machine.nginx}/conf.d/00-toll-persons.conf", once), Written(path, own)]


def screens_of(machine: Machine, plan: Plan) -> list[Written]:
    """The files of the site of an office's screens, which serves them at a host name of their own."""
    _, once, office = parts_of(machine, machine.desk_template())
    own = with_own(office, *of_certificate("desk.example.com", plan.desk, plan), ("/NAME/", f"/{plan.name}/"))
    folder = f"{machine.nginx}/conf.d"
    return [Written(f"{folder}/00-toll-desk.conf", once), Written(f"{folder}/toll-desk_{plan.name}.conf", own)]
