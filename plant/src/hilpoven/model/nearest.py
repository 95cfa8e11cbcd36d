"""The names that are there, where a name is told to be unknown."""
import sqlite3

from .. import HOUSE
from .schema import IS_ACTUAL
from ..core import snapshot
from ..core.failure import Failure
from ..core.office import Office

# For each refusal: which value it is about, what that is called, and the names that are there, by the other values.
NAMES: dict[str, tuple[str, str, str]] = {
    "UnknownOwner": ("OWNER", "owners", "SELECT owner FROM owners UNION SELECT 'HOUSE'"),
    "UnknownUnit": ("UNIT", "units", "SELECT unit FROM units"),
    "UnknownMaterial": (
        "MATERIAL",
        "materials of {names_owner}",
        "SELECT material FROM materials WHERE owner = :names_owner",
    ),
    "UnknownRecipe": ("RECIPE", "recipes of {names_owner}", "SELECT recipe FROM recipes WHERE owner = :names_owner"),
    "UnknownOrder": ("ORDER", "orders of {names_owner}", "SELECT ord FROM orders WHERE owner = :names_owner"),
    "UnknownBatch": (
        "BATCH",
        "batches of {order}",
        "SELECT CAST(number AS TEXT) FROM batches WHERE owner = :names_owner AND ord = :order",
    ),
    "UnknownLot": ("LOT", "lots of {names_owner}", "SELECT lot FROM lots WHERE owner = :names_owner"),
    "UnknownSublot": (
        "SUBLOT",
        "sublots of {lot}",
        "SELECT sublot FROM sublots WHERE owner = :names_owner AND lot = :lot",
    ),
    "UnknownTest": (
        "TEST",
        "tests of {lot}",
        "SELECT test FROM tests JOIN lots USING (owner, material) WHERE owner = :names_owner AND lot = :lot",
    ),
    "UnknownKey": (
        "KEY",
        "actuals of {names_owner}",
        f"SELECT mkey FROM moves AS m WHERE owner = :names_owner AND {IS_ACTUAL}",
    ),
}
ELSEWHERE = "SELECT owner FROM lots WHERE lot = ? AND owner <> ? ORDER BY owner"
MOST = 8  # names that are told of a short list


def owner_of_names(word: str, values: dict[str, str]) -> str:
    """Whose names are meant: of a requirement the source's materials, of an actual the lot's owner's lots."""
    if word == "UnknownMaterial" and "SOURCE" in values:
        return values["SOURCE"]
    if word in ("UnknownLot", "UnknownSublot") and "LOT-OWNER" in values:
        return values["LOT-OWNER"]
    return values.get("OWNER", HOUSE)


def names_near(office: Office, word: str, values: dict[str, str]) -> str:
    """A line with the names that are nearest to the unknown one; empty where they can't be read."""
    if word not in NAMES or NAMES[word][0] not in values:
        return ""
    value, called, sql = NAMES[word]
    given = {
        "names_owner": owner_of_names(word, values),
        "order": values.get("ORDER", ""),
        "lot": values.get("LOT", ""),
    }
    try:
        with snapshot.opened(office) as base:
            names = sorted(name for name, in base.execute(sql, given))
            beside = (
                [owner for owner, in base.execute(ELSEWHERE, (values[value], given["names_owner"]))]
                if word == "UnknownLot"
                else []
            )
    except (Failure, sqlite3.Error):
        return ""
    lines = [f"{owner} has a lot {values[value]}." for owner in beside]
    return "\n".join([*lines, nearest(values[value], names, called.format(**given))])


def nearest(word: str, names: list[str], called: str) -> str:
    """The names that are most like a word, or all of a short list."""
    import difflib

    near = difflib.get_close_matches(word, names, 3)
    if near:
        return f"Nearest of the {called}: {', '.join(near)}."
    if not names:
        return f"There are no {called}."
    return f"The {called}: {', '.join(names[:MOST])}{', ..' if len(names) > MOST else ''}."
