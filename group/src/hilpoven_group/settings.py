"""Where the group's database is and what an office is called in it, by /etc/hilpoven-group.toml; and how the office
logs in there, which is beside its FILE."""
import os
from dataclasses import dataclass, replace

from hilpoven.core import files, settings as site
from hilpoven.core.context import Context
from hilpoven.core.failure import WRONG_USE, Failure
from hilpoven.core.rights import unusable

PATH = "/etc/hilpoven-group.toml"
LOG_IN = ".group"  # the end of the name of a file beside FILE: how libpq reaches the database, with the office's secret
MOST_BYTES = 4_096  # of that
LOCAL = "dbname=hilpoven"  # on the group's own machine


@dataclass(frozen=True)
class Group:
    """What a machine says of its group: each field is a line of /etc/hilpoven-group.toml."""

    database: str = site.setting(LOCAL, "how libpq reaches the group's database, such as host=.. dbname=..")
    plant: str = site.setting("", "what the office is called in the group; its NAME where it isn't said")
    behind: int = site.setting(60, "seconds; an office that is behind by more is told by `publish status`", least=1)
    every: float = site.setting(1.0, "seconds between two looks at the office", least=0)
    chunk: int = site.setting(20_000, "rows that are sent at a time", least=1)
    listen: str = site.setting("127.0.0.1:8090", "where `group serve` answers")
    uri: str = site.setting("", "with which the names of exported lots begin, such as https://group.example")


def load(path: str = PATH) -> Group:
    """The settings of a file, or of that which HILPOVEN_GROUP_SETTINGS names; behind sudo that counts for nothing."""
    path = site.of_environment("HILPOVEN_GROUP_SETTINGS") or path
    return site.table_of(path, Group, site.lines_of(path))


def of_office(context: Context) -> Group:
    """The same, with the name of the office of a command, and how it logs in."""
    group = load()
    group = replace(group, database=log_in_of(context.file) or group.database)
    group = group if group.plant else replace(group, plant=context.settings.office)
    if not group.plant:
        raise Failure("the office has no name in the group", WRONG_USE, f'plant = ".." in {PATH} says it')
    return group


def log_in_of(file: str) -> str:
    """How an office reaches the group's database, with its secret; empty if that isn't beside its FILE. Fails if others
    may read it."""
    path = f"{file}{LOG_IN}"
    try:
        with open(os.open(path, files.READ)) as lines:
            if os.fstat(lines.fileno()).st_mode & 0o077:
                raise Failure(f"others may read {path}, which has the office's secret", WRONG_USE, f"chmod 600 {path}")
            return lines.read(MOST_BYTES).strip()
    except FileNotFoundError:
        return ""
    except (OSError, UnicodeDecodeError) as error:
        raise unusable(f"{path} can't be read", file, error if isinstance(error, OSError) else OSError(str(error)))
