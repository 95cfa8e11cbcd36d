"""Which office, which program, where the journal and the backups are: /etc/hilpoven.toml, the office's
/etc/toll/NAME.env, or the words of the command."""
import os
import re
from collections.abc import Callable
from dataclasses import Field, dataclass, field, fields, is_dataclass, replace
from typing import Any, TypeVar

from .days import zone_of
from .failure import WRONG_USE, Failure
from .forms import TEXT, name_fault
from .rights import unusable

PATH = "/etc/hilpoven.toml"
OFFICES = "/etc/toll"
DATA = "/var/lib/toll"
COMPANIONS = "/var/cache/toll-companion"
CHECKOUT = os.path.abspath(f"{__file__}/../../../../..")

Table = TypeVar("Table")
WARN, ASK, REFUSE = "warn", "ask", "refuse"
ANY_UNIT = "*"  # in place of the names of units
MUCH = 1_000_000
MOST_PREFIX = 8  # letters before the number of a key, which has 16 with it
TEXTS = (list[str], list[str] | None)
# What the values of a type are called.
CALLED: dict[Any, str] = {
    **{str: "a text", int: "a whole number", float: "a number", bool: "true or false"},
    **dict.fromkeys(TEXTS, "a list of texts"),
}


def setting(
    default: Any,
    about: str,
    least: float | None = None,
    most: float = MUCH,
    fault: Callable[[str], str] | None = None,
    variable: str = "",
) -> Any:
    """A setting, as a field of a table: its default; what it is for, with its unit; the least and the most of a number;
    what is wrong with a text; and its name in an office's /etc/toll/NAME.env, which goes before the settings."""
    metadata = {"about": about, "least": least, "most": most, "fault": fault, "variable": variable}
    if isinstance(default, list):
        return field(default_factory=default.copy, metadata=metadata)
    return field(default=default, metadata=metadata)


def expiry_fault(word: str) -> str:
    """What is wrong with what becomes of lots past their day."""
    return "" if word in (WARN, REFUSE) else f'is to be "{WARN}" or "{REFUSE}"'


def open_fault(word: str) -> str:
    """What is wrong with what becomes of `open` on a unit that isn't clean."""
    return "" if word in (ASK, REFUSE) else f'is to be "{ASK}" or "{REFUSE}"'


def prefix_fault(prefix: str) -> str:
    """What is wrong with what keys begin with."""
    return name_fault(prefix) or ("" if len(prefix) <= MOST_PREFIX else f"has more than {MOST_PREFIX} letters")


def zone_fault(name: str) -> str:
    """What is wrong with the name of a time zone."""
    try:
        zone_of(name)
    except (OSError, ValueError, LookupError):
        return "is no time zone of this machine, such as Europe/Berlin"
    return ""


@dataclass(frozen=True)
class Require:
    """What a site requires of commands besides what `toll` does."""

    recipient: bool = setting(False, "whether each shipment names the party that gets it")


@dataclass(frozen=True)
class Expiry:
    """What becomes of commands that take from a lot past its day."""

    ship: str = setting(WARN, "of shipments", fault=expiry_fault)
    actual: str = setting(WARN, "of actuals", fault=expiry_fault)


@dataclass(frozen=True)
class Clean:
    """Which units have to be clean before a batch is opened, `*` for all, and what `open` does if one isn't."""

    always: list[str] = setting([], "units to be clean before each batch")
    owners: list[str] = setting([], "units to be clean between batches of two owners")
    materials: list[str] = setting([], "units to be clean between batches that make other materials")
    allergens: list[str] = setting([], "units to be clean of allergens that the next batch hasn't")
    open: str = setting(ASK, "what `open` does on a unit that isn't clean", fault=open_fault)


@dataclass(frozen=True)
class PlantFacts:
    """What papers say of the plant."""

    name: str = setting("", "its name", fault=TEXT.fault)
    address: str = setting("", "its address, in one line", fault=TEXT.fault)
    contact: str = setting("", "who answers questions about a paper, and how", fault=TEXT.fault)
    logo: str = setting("", "a file, PNG or JPEG", fault=TEXT.fault)
    approver: str = setting("", "who approves certificates", fault=TEXT.fault)


@dataclass(frozen=True)
class Quality:
    """How the plant signs and holds lots."""

    test: str = setting("", "the plant's own test: its result 1 is a signature and 0 a hold", fault=name_fault)
    persons: int = setting(2, "needed: 2 let nobody sign a lot of which it recorded something", least=1, most=2)


@dataclass(frozen=True)
class Corrections:
    """How what was typed wrongly is corrected."""

    persons: int = setting(1, "needed: with 2 each correction waits for another person's signature", least=1, most=2)


@dataclass(frozen=True)
class Roles:
    """Which groups of the machine may give the commands of each role under sudo. `None` is a role that isn't told,
    whose commands every member may give."""

    record: list[str] | None = setting(None, "what happens in the plant: movements, batches, results, holds")
    quality: list[str] | None = setting(None, "what is judged: releases, rejections, signatures, holds")
    master_data: list[str] | None = setting(None, "units, materials, tests, recipes, parties")
    settlement: list[str] | None = setting(None, "closed settlements of owners")
    keys: list[str] | None = setting(None, "owners and their keys")
    restore: list[str] | None = setting(None, "the office's files: new ones, backups, restores, later ones")


@dataclass(frozen=True)
class Follow:
    """How a standby is kept."""

    to: str = setting("", "the folder of the pieces, or HOST:FOLDER on another machine", variable="FOLLOW")
    days: int = setting(7, "days for which snapshots and pieces stay", least=0)
    behind: int = setting(60, "seconds; a standby that is behind by more is told by `status`", least=1)
    reserve: int = setting(500, "megabytes of the disk that pieces leave to the office", least=0)
    rsh: str = setting("ssh -o BatchMode=yes -o ConnectTimeout=5", "by which rsync reaches HOST")


@dataclass(frozen=True)
class Mail:
    """How mail reaches the people of owners."""

    sender: str = setting("", "the address from which it comes", fault=TEXT.fault)
    page: str = setting("", "the address of the owners' page, which it names", fault=TEXT.fault)
    sendmail: str = setting("/usr/sbin/sendmail", "the program that takes it", fault=TEXT.fault)


@dataclass(frozen=True)
class Settings:
    """What a site says of its office: each field is a line of /etc/hilpoven.toml, or a table of it such as [plant]."""

    office: str = setting("", "its name, by which /etc/toll/NAME.env has its file, its port and its backups")
    file: str = setting("", "the office's file", variable="FILE")
    toll: str = setting("", "the proved program; what is installed where it isn't said")
    journal: str = setting("", "who did what; beside the file where it isn't said")
    backups: str = setting("", "the folder of the backups", variable="BACKUPS")
    keep: int = setting(30, "how many of the newest backups stay", least=1, variable="HOURS")
    days: int = setting(0, "of how many days the last backup stays", least=0, variable="DAYS")
    backup_hours: int = setting(26, "hours; an older newest backup is told by `status`", least=1)
    port: int = setting(0, "of the server that answers owners; 0 asks none", least=0, most=65_535, variable="PORT")
    wait: float = setting(10.0, "seconds for a lock that somebody has", least=0)
    key_prefix: str = setting("K", "what the keys of movements that are made begin with", fault=prefix_fault)
    time_zone: str = setting("", "in which the plant's day begins; the machine's by default", fault=zone_fault)
    site_logs: list[str] = setting([], "of the proxy, with the owners' requests", variable="SITE_LOGS")
    require: Require = Require()
    plant: PlantFacts = PlantFacts()
    expiry: Expiry = Expiry()
    clean: Clean = Clean()
    quality: Quality = Quality()
    corrections: Corrections = Corrections()
    roles: Roles = Roles()
    follow: Follow = Follow()
    mail: Mail = Mail()


def of_environment(name: str) -> str:
    """A variable of the environment; empty behind sudo, where whoever asks has another's rights."""
    return "" if "SUDO_UID" in os.environ else os.environ.get(name, "")


def load(path: str = PATH, office: str = "", db: str = "") -> Settings:
    """The settings of a file, or of the one that HILPOVEN_SETTINGS names, with those of an office; those that nobody
    changed where it isn't there. The office is the named one, that of the settings, or, if no file is named either,
    the only one.
    """
    path = of_environment("HILPOVEN_SETTINGS") or os.fspath(path)
    settings, folder = table_of(path, Settings, lines_of(path)), os.path.dirname(path)
    settings = replace(
        settings,
        **{name: inside(folder, getattr(settings, name)) for name in ("file", "journal", "backups")},
        plant=replace(settings.plant, logo=inside(folder, settings.plant.logo)),
        follow=replace(settings.follow, to=target_of(folder, settings.follow.to)),
    )
    default = settings.office or ("" if db or settings.file else only_office())
    if not office or office == default:
        return of_office(settings, default) if default else settings
    return of_office(replace(settings, journal="", site_logs=[]), office)


def inside(folder: str, path: str) -> str:
    """A path from where the settings are; empty if none is set."""
    return path and os.path.join(folder, path)


def target_of(folder: str, to: str) -> str:
    """Where pieces go: HOST:FOLDER as it is, and a folder of this machine from where the settings are."""
    return to if not to or ":" in to.partition("/")[0] else os.path.join(folder, to)


def lines_of(path: str) -> dict[str, Any]:
    """The lines of a file of settings; none where it isn't there."""
    try:
        with open(path, "rb") as file:
            import tomllib

            return tomllib.load(file)
    except FileNotFoundError:
        return {}
    except OSError as error:
        raise unusable(f"{path} can't be read", path, error) from error
    except ValueError as error:
        raise Failure(f"{path}: {error}", WRONG_USE) from error


def table_of(path: str, kind: type[Table], lines: dict[str, Any], table: str = "") -> Table:
    """The settings of a file, or of a table of it; fails where one is unknown or wrong."""
    declared, values = {each.name: each for each in fields(kind)}, {}
    for name, value in lines.items():
        if name not in declared:
            refusal = "nothing to require" if table == "require" else f"no line of [{table}]" if table else "no setting"
            raise Failure(f"{path}: {name} is {refusal}", WRONG_USE, f"there are: {', '.join(declared)}")
        values[name] = value_of(path, declared[name], value)
    return kind(**values)


def value_of(path: str, declared: "Field[Any]", value: Any, called: str = "") -> Any:
    """The value of a setting, of its type and in its bounds; `called` is its name in the file where that is another."""
    kind, name, rules = declared.type, declared.name, declared.metadata
    if is_dataclass(kind):
        if type(value) is not dict:
            raise Failure(f"{path}: {name} is to be a table: [{name}]", WRONG_USE)
        return table_of(path, kind, value, name)
    if kind is float and type(value) is int:
        value = float(value)
    is_texts = type(value) is list and all(type(each) is str for each in value)
    if not (is_texts if kind in TEXTS else type(value) is kind):
        raise Failure(f"{path}: {name} is to be {CALLED[kind]}", WRONG_USE)
    if rules["least"] is not None and not rules["least"] <= value <= rules["most"]:
        bounds = f"from {rules['least']:,} to {rules['most']:,}"
        raise Failure(f"{path}: {called or name} is to be {bounds}", WRONG_USE)
    if rules["fault"] and (value or declared.default) and (fault := rules["fault"](value)):
        raise Failure(f"{path}: {name} {fault}", WRONG_USE)
    return value


def offices() -> list[str]:
    """The names of the offices of this machine; none where they can't be seen."""
    try:
        return sorted(file_name.removesuffix(".env") for file_name in os.listdir(OFFICES) if file_name.endswith(".env"))
    except OSError:
        return []


def unnamed_office() -> Failure:
    """What is told where no office is named: how it is, by the name of one where the machine has several."""
    if names := offices():
        return Failure(
            "no office is named, and this machine has several",
            WRONG_USE,
            f"`hilpoven --office {names[0]} ..` is for {names[0]}; there are: {', '.join(names)}\n"
            f'office = "{names[0]}" in {PATH} makes it the one that is meant without --office',
        )
    return Failure(
        "no file is named", WRONG_USE, f'give it by --db FILE before the command, or by file = ".." in {PATH}'
    )


def only_office() -> str:
    """The name of the only office of this machine; empty where there is none, or more than one."""
    names = offices()
    return names[0] if len(names) == 1 else ""


def of_office(settings: Settings, name: str) -> Settings:
    """The settings with those of an office's units, which its file of settings has."""
    if not re.fullmatch(r"[A-Za-z0-9:_.-]+", name):
        raise Failure(f"{name!r} is no name of an office", WRONG_USE)
    path = os.path.join(OFFICES, f"{name}.env")
    try:
        with open(path) as lines:
            rows = re.findall(r"^([A-Z_]+)=(.*)$", lines.read(), re.M)
    except FileNotFoundError:
        advice = f"there are: {', '.join(offices())}" if offices() else ""
        raise Failure(f"there is no office {name}: {path} isn't there", WRONG_USE, advice) from None
    except OSError as error:
        raise unusable(f"{path} can't be read", path, error) from error
    units = {unit_name: value.strip().strip("\"'") for unit_name, value in rows}
    numbers = {"keep": 48, "days": 30}
    for each in fields(Settings):
        variable = each.metadata.get("variable", "")
        if each.type is int and units.get(variable):
            numbers[each.name] = value_of(path, each, number_of(path, variable, units[variable]), variable)
    return replace(
        settings,
        office=name,
        file=os.path.join(OFFICES, units.get("FILE", f"{DATA}/{name}/office.db")),
        backups=os.path.join(OFFICES, units.get("BACKUPS", f"{DATA}/{name}/backup")),
        site_logs=units["SITE_LOGS"].split() if "SITE_LOGS" in units else settings.site_logs,
        follow=replace(settings.follow, to=target_of(OFFICES, units.get("FOLLOW", settings.follow.to))),
        **numbers,
    )


def number_of(path: str, name: str, value: str) -> int:
    """The number that a line of an office's settings says."""
    if not re.fullmatch(r"[0-9]{1,9}", value):
        raise Failure(f"{path}: {name} is to be a whole number", WRONG_USE)
    return int(value)


def program(settings: Settings) -> str:
    """The proved program: the one that the settings name, that of TOLL, of this checkout, or the one that is
    installed."""
    checkout = f"{CHECKOUT}/toll" if os.path.isfile(f"{CHECKOUT}/crates.txt") else "toll"
    named = settings.toll or of_environment("TOLL") or checkout
    for path in [named] if os.path.dirname(named) else [os.path.join(folder, named) for folder in os.get_exec_path()]:
        if os.path.isfile(path) and os.access(path, os.X_OK):
            return os.path.abspath(path)
    raise Failure(f"the program {named} isn't here, or can't be run", WRONG_USE)


def journal_of(settings: Settings, file: str) -> str:
    """Where the journal of an office's file is."""
    return settings.journal if settings.journal and file == office_of(settings) else f"{file}.journal"


def site_logs_of(settings: Settings, file: str) -> list[str]:
    """The site's logs of an office's file, and of no other: those of the settings, where the file is theirs, or where
    the machine has no office of a name."""
    own = office_of(settings)
    return settings.site_logs if file == own or not own and not offices() else []


def companions_of(settings: Settings) -> str:
    """The folder in which the site looks for the companions of an office; empty where the office has no name."""
    return os.path.join(COMPANIONS, settings.office) if settings.office else ""


def office_of(settings: Settings) -> str:
    """The office's file of the settings, without links on its way; empty where none is set."""
    return os.path.realpath(settings.file) if settings.file else ""
