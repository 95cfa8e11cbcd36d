"""Who has what was shipped, less what came back, as the plant noted it."""
from collections import defaultdict
from dataclasses import dataclass
from itertools import groupby
from operator import itemgetter
from typing import Any

from ...core.days import LAST_DAY
from ...model.kinds import Why
from ...model.rows import LotId
from ...model.schema import Kind
from ..columns import columns
from ..noted import documents_named
from ..sheets import Sheet
from .recall import MOVES, SHIPMENTS, View

LATER = " "  # in the key of a movement that came again in a later file, so that no command means this one by it
CONTACT = "noted_contact:text noted_phone:text@beneath noted_address:text@beneath"
OF_CONTACT = {f"noted_{name}": f"m.{name}" for name in ("party", "name", "contact", "phone", "address")}


def to_note(reader: str, owner: str, key: str, option: str, otherwise: str, by_owner: str) -> str:
    """What is to be done about a movement whose party isn't known: the plant's command, if one can name it."""
    if reader:
        return by_owner
    return otherwise if LATER in key else f"hilpoven note movement {owner} {key} {option}"


def to_find(reader: str, owner: str, key: str) -> str:
    """The same of a shipment."""
    return to_note(reader, owner, key, "--to PARTY", "find out who has it", "tell the plant who has it")


WITHOUT_RECIPIENT = columns(
    "m.day:day m.owner key m.lot r.material amount=shipped:number r.measure=unit:text@beside noted_document:text "
    "to_do=what_to_do:text",
    key="m.mkey",
    amount="m.amount",
    noted_document="m.document",
    to_do=(":reader", "m.owner", "m.mkey", to_find),
)
RECIPIENTS = columns(
    f"owner noted_party noted_name:text {CONTACT} lot material shipments:number amount=shipped:number "
    "noted_returned=came_back:number noted_has=has:number measure=unit:text@beside noted_documents:text"
)
CONTACTS = columns(
    f"m.owner noted_party noted_name:text {CONTACT} shipments:number", shipments="count(*)", **OF_CONTACT
)
RETURNED = columns(
    "day:day owner key of_lot lot=came_into amount=came_back:number measure=unit:text@beside noted_party=from "
    "noted_document:text what:text"
)
KNOWN = f"{SHIPMENTS} AND m.party <> ''"
RECEIVED = f"""
SELECT m.owner, m.party, r.owner, r.lot, m.name, m.contact, m.phone, m.address, r.material, r.measure, m.amount,
  m.document {KNOWN} ORDER BY 1, 2, 3, 4, m.place
"""
# The receipts of what links say to be returns. What was received of a lot with one such link is all of the lot that the
# link names; a link with an amount says itself how much it is, and of another one nobody knows.
RETURNS = f"""
WITH back AS (SELECT * FROM link WHERE why = '{Why.RETURN}' AND lot <> '' AND :reader IN ('', owner)),
  receipt AS (SELECT m.*, r.measure, min(m.place) OVER of_lot AS first, count(*) OVER of_lot AS receipts
    {MOVES.replace(':reader', "''")} AND m.kind = {Kind.RECEIVE:d} AND NOT m.is_void
    WINDOW of_lot AS (PARTITION BY m.lot_owner, m.lot))
SELECT m.day, m.owner, m.mkey, f.owner, f.lot, m.lot, m.amount,
  CASE WHEN n.links = 1 AND k.amount IS NULL THEN m.amount WHEN m.receipts = 1 THEN k.amount END,
  m.measure, m.measure = f.measure, m.party, m.document
FROM back AS k JOIN (SELECT owner, lot, count(*) AS links FROM back GROUP BY 1, 2) AS n USING (owner, lot)
JOIN receipt AS m ON m.lot_owner = k.owner AND m.lot = k.lot
JOIN temp.recalled AS f ON f.owner = k.of_owner AND f.lot = k.of_lot
ORDER BY m.first, k.note, k.place, m.place
"""


@dataclass
class Received:
    """What a recipient got of a lot: what tables say before and behind the amounts, how much it got in how many
    shipments, and how much of it came back."""

    about: tuple[Any, ...]
    behind: tuple[Any, ...]
    shipments: int
    amount: int
    returned: int = 0
    returned_since: int = 0  # a day that is asked for

    @property
    def row(self) -> tuple[Any, ...]:
        """The row of what it has of it still."""
        return *self.about, self.shipments, self.amount, self.returned, self.amount - self.returned, *self.behind


Recipients = dict[tuple[str, str, LotId], Received]  # by owner, party and lot


def sheets_of(view: View) -> list[Sheet]:
    """Who has what a recall found: the shipments that nobody is known to have, the recipients, their contacts, and what
    came back, if anything did."""
    received = received_of(view)
    returned = returns_of(view, received)
    recipients = Sheet(
        "recipients",
        RECIPIENTS,
        [each.row for each in received.values()],
        ["shipments", "amount", "noted_returned", "noted_has"],
    )
    sheets = [
        without_recipient(view),
        recipients if returned.rows else recipients.without("noted_returned", "noted_has"),
        view.select("contacts", CONTACTS, f"{KNOWN} GROUP BY m.owner, m.party ORDER BY m.owner, m.party"),
    ]
    return [*sheets, returned] if returned.rows else sheets


def without_recipient(view: View) -> Sheet:
    """The shipments that nobody is known to have, with what is to be done about each."""
    return view.select("without_recipient", WITHOUT_RECIPIENT, f"{SHIPMENTS} AND m.party = '' ORDER BY m.place")


def received_of(view: View) -> Recipients:
    """What each recipient got of each lot."""
    received: Recipients = {}
    rows = view.report.base.execute(RECEIVED, {"reader": view.owner})
    for (owner, party, *lot), moves in groupby(rows, itemgetter(0, 1, 2, 3)):
        (*_, name, contact, phone, address, material, measure, _, _), *_ = all_moves = list(moves)
        about = owner, party, name, contact, phone, address, lot[1], material
        documents = documents_named(move[-1] for move in all_moves)
        amount = sum(move[-2] for move in all_moves)
        received[owner, party, LotId(*lot)] = Received(about, (measure, documents), len(all_moves), amount)
    return received


def returns_of(view: View, received: Recipients, since: int = LAST_DAY) -> Sheet:
    """What came back, and from whose amounts that is subtracted, which this does; and how much of it since a day."""
    rows, parties = [], defaultdict[LotId, set[str]](set)
    for owner, lot, party in view.report.base.execute(
        f"SELECT r.owner, r.lot, m.party {SHIPMENTS}", {"reader": view.owner}
    ):
        parties[LotId(owner, lot)].add(party)
    for day, owner, key, *of, lot, all_of_it, amount, measure, is_same, party, document in view.report.base.execute(
        RETURNS, {"reader": view.owner}
    ).fetchall():
        of_lot = LotId(*of)
        sender, why = sender_of(received, owner, party, of_lot, parties[of_lot])
        if amount is None:
            sender, why = "", "the notes don't say how much of it is of this lot"
        elif not is_same:
            sender, why = "", "it has another unit"
        if sender:
            received[owner, sender, of_lot].returned += amount
            received[owner, sender, of_lot].returned_since += amount if day >= since else 0
        otherwise = why or to_note(
            view.owner, owner, key, "--from PARTY", "nobody noted who sent it", "tell the plant who sent it"
        )
        remark = f"subtracted from {sender}" if sender else f"not subtracted: {otherwise}"
        about = day, owner, key, of_lot.name, lot
        rows.append((*about, all_of_it if amount is None else amount, measure, party, document, remark))
    return Sheet("returned", RETURNED, rows)


def sender_of(received: Recipients, owner: str, party: str, lot: LotId, parties: set[str]) -> tuple[str, str]:
    """From whose amount what came back of a lot is subtracted; of nobody's, why, if more is known than that nobody
    noted it. One that isn't noted is the only recipient of the lot."""
    if party:
        return (party, "") if (owner, party, lot) in received else ("", f"{party} got none of this lot by the notes")
    only = max(parties) if len(parties) == 1 else ""
    return (only, "") if (owner, only, lot) in received else ("", "")
