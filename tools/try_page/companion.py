"""The companion of an owner of a trial's office (docs/http.md), made of accepted lines and of the office's replies."""
import datetime
import json
import os
import pathlib
import time
from collections import Counter, defaultdict
from collections.abc import Callable
from typing import Any

from .site import Office

LAST_DAY = 105  # the last day of fillings.py, which stands for today
Row = dict[str, Any]
Change = Callable[[Row], object]
# The kind of the movement that a line of the plant makes, and the line's values.
MOVEMENTS = {
    "receive": ("receipt", "owner key material lot sublot amount day"),
    "actual": ("actual", "key owner order batch segment use material lotOwner lot sublot amount day"),
    "ship": ("shipment", "owner key lot sublot amount day"),
}
NUMBERS = ("amount", "batch", "segment", "day")


def dated(day: int) -> int:
    """A day of the fillings as one of the last days, as six digits; other days as they are."""
    if day > LAST_DAY:
        return day
    return int((datetime.date.today() - datetime.timedelta(LAST_DAY - day)).strftime("%y%m%d"))


class Companions:
    """The companions that a site serves from a folder, a file for each owner."""

    def __init__(self, folder: pathlib.Path) -> None:
        self.folder, self.time = folder, int(time.time())
        folder.mkdir(exist_ok=True)

    def write(self, office: Office, owner: str = "ACME", change: Change = lambda value: None) -> None:
        """Writes an owner's companion, after `change` has changed its value."""
        value = companion(office, owner)
        change(value)
        self.put(owner, json.dumps(value))

    def put(self, owner: str, text: str) -> None:
        """Puts this text in the place of an owner's companion, whole or not at all."""
        new = self.folder / "new"
        new.write_text(text)
        # nginx tells versions apart by seconds and lengths
        self.time += 1
        os.utime(new, (self.time, self.time))
        new.rename(self.folder / f"{owner}.json")

    def clear(self) -> None:
        for file in self.folder.iterdir():
            file.unlink()


def companion(office: Office, owner: str) -> Row:
    """The value of a companion."""
    lines = [line.split() for line in office.lines]
    of: Callable[[str], list[list[str]]] = lambda word: [values for first, *values in lines if first == word]
    movements = [movement(*line) for line in lines if line[0] in MOVEMENTS]
    movements = [row for row in movements if row.pop("owner") in (owner, "HOUSE")]
    movements = [row for row in movements if row["lotOwner"] == owner or row.get("order")]
    makers: dict[str, Row] = {}  # the batch that made each lot first
    for row in movements:
        if row.get("use") == "produced" and row["lotOwner"] == owner:
            makers.setdefault(row["lot"], {"order": row["order"], "batch": row["batch"]})
    tests = defaultdict(list)
    for test_owner, material, test, low, high in of("test-add"):
        if test_owner == owner:
            tests[material].append({"test": test, "low": int(low), "high": int(high)})
    materials: list[Row] = [dict(zip(("owner", "material", "measure"), values)) for values in of("material-add")]
    materials = [row for row in materials if row["owner"] in (owner, "HOUSE")]
    for row in materials:
        row |= {"tests": tests[row["material"]]} if row["owner"] == owner else {}
    return {
        "version": 1,
        "owner": owner,
        "made": datetime.datetime.now(datetime.timezone.utc).strftime("%Y-%m-%dT%H:%M:%SZ"),
        "plant": {"name": "Hilltop Blending", "address": "4 Mill Lane, Anytown", "contact": "+00 555 0100"},
        "materials": materials,
        "batches": batches_of(office, owner, of("open"), makers),
        "lots": lots_of(office, owner, of("result"), tests, makers),
        "movements": movements,
        "links": [],
        "parties": [{"party": "NORTH", "description": "Northern Drums Ltd", "roles": ["customer"]}],
        "reasons": [{"command": "hold", "order": "O-1", "batch": 2, "text": "the stirrer stands"}],
    }


def movement(word: str, *values: str) -> Row:
    """A movement of the plant's line, with the owner of_owner row it is."""
    kind, names = MOVEMENTS[word]
    row: Row = {"kind": kind}
    row |= {name: int(value) if name in NUMBERS else value for name, value in zip(names.split(), values)}
    row["day"] = dated(row["day"])
    row.setdefault("lotOwner", row["owner"])
    return row | ({"to": "NORTH", "document": "DN-17"} if kind == "shipment" else {})


def asked(office: Office, owner: str, path: str) -> Any:
    return json.loads(office.ask(f"> {owner} {owner}KEY1 GET {path}").removeprefix("200 "))


def batches_of(office: Office, owner: str, opened: list[list[str]], makers: dict[str, Row]) -> list[Row]:
    """The batches as the office has them, each with its lots."""
    counts, rows = Counter[str](), []
    for order in (order for order_owner, order, _ in opened if order_owner == owner):
        counts[order] += 1
        reply = asked(office, owner, f"/batches/{order}/{counts[order]}")
        lots = [lot for lot, maker in makers.items() if maker == {"order": order, "batch": counts[order]}]
        row = {name: reply[name] for name in ("order", "batch", "unit", "state", "closed")}
        rows.append({**row, "lines": reply["requirements"], "lots": lots})
    return rows


def lots_of(
    office: Office, owner: str, results: list[list[str]], tests: dict[str, list[Row]], makers: dict[str, Row]
) -> list[Row]:
    """The lots in stock, with why each can't be released."""
    own = [values for of_owner, *values in results if of_owner == owner]
    latest = {(lot, test): int(value.replace("M", "-")) for lot, test, value, _ in own}
    rows = []
    for row in asked(office, owner, "/stock")["lots"]:
        reasons = (reason_of(test, latest.get((row["lot"], test["test"]))) for test in tests[row["material"]])
        why = list(filter(None, reasons))
        release = {"possible": False, "why": why} if why else {"possible": True}
        rows.append({"lot": row["lot"], **makers.get(row["lot"], {}), "release": release})
    return rows


def reason_of(test: Row, value: int | None) -> Row | None:
    """What keeps a lot with this latest value from being released."""
    if value is None:
        return {"test": test["test"], "reason": "missing"}
    if test["low"] <= value <= test["high"]:
        return None
    reason, limit = ("below", test["low"]) if value < test["low"] else ("above", test["high"])
    return {"test": test["test"], "reason": reason, "value": value, "limit": limit}
