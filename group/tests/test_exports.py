"""What others get of a recall: events of EPCIS 2.0, and the spreadsheet of FSMA 204."""
import contextlib
import csv
import io
import json
import re
import sqlite3

import pytest
from group_of_plants import SHIP, Group, Plant


@pytest.fixture
def pair(group) -> tuple[Plant, Plant]:
    """Two plants, of which the second receives from the first, and of which both use water of the plant."""
    north, south = group.plant("NORTH"), group.plant("SOUTH")
    for words in (["party", "SOUTH", "ACME", "NORTHCO", "NORTH"], ["party", "NORTH", "ACME", "SOUTHCO", "SOUTH"]):
        group.ok("group", *words)
    group.rows("UPDATE hg.offices SET gln = '4012345000009' WHERE name = 'SOUTH' RETURNING 1")
    with north.writing() as base:
        north.receive(base, "HOUSE", "W-1", 100)
        for owner in ("ACME", "BOLT"):
            north.receive(base, owner, "S-1")
            north.batch(base, owner, "O-1", 1, {"S-1": 1, ("HOUSE", "W-1"): 2}, {f"{owner}-1": 1, f"{owner}-2": 2})
        key = north.move(base, "ACME", SHIP, "ACME-2", 40)
        void = base.execute("SELECT mkey FROM moves WHERE owner = 'BOLT' AND kind = 4").fetchone()[0]
        north.void(base, "BOLT", void)
    north.note_movement("ACME", key, party="SOUTHCO", document="=LS 1")
    with south.writing() as base:
        key = south.receive(base, "ACME", "R-1", 40)
    south.note_movement("ACME", key, party="NORTHCO", supplier_lot="ACME-2", document="=LS 1")
    north.publish()
    south.publish()
    return north, south


def exported(group: Group, *words: str) -> str:
    """What an export writes, with a name with which lots begin."""
    group.uri = "https://group.example"
    return group.ok("group", "export", *words)


def test_events_are_those_of_the_lots_alone(pair, group):
    document = json.loads(exported(group, "epcis", "SOUTH", "ACME", "R-1", "back"))
    assert document["type"] == "EPCISDocument" and document["schemaVersion"] == "2.0"
    events = document["epcisBody"]["eventList"]
    assert "BOLT" not in str(events)  # the plant's water went into its batch, too
    assert len({event["eventID"] for event in events}) == len(events)
    transformed = [event for event in events if event["type"] == "TransformationEvent"]
    names = [[quantity["epcClass"].rpartition("/")[2] for quantity in event["outputQuantityList"]] for event in transformed]
    assert names == [["ACME-1"], ["ACME-2"]]  # by their last segments
    used = [{quantity["epcClass"].rpartition("/")[2]: quantity.get("quantity") for quantity in event["inputQuantityList"]} for event in transformed]
    assert used == [{"S-1": 1}, {"W-1": 1, "S-1": None}]
    steps = {event["bizStep"]: event for event in events}
    assert steps["shipping"]["destinationList"][0]["destination"] == "https://id.gs1.org/417/4012345000009"
    assert steps["shipping"]["quantityList"] == [{"epcClass": "https://group.example/NORTH/lot/ACME/ACME-2", "quantity": 40, "uom": "KGM"}]
    assert all(event["eventTime"] == "2026-11-01T00:00:00.000+00:00" for event in events)
    assert steps["receiving"]["type"] == "ObjectEvent"


def test_a_voided_actual_is_in_no_event(pair, group):
    events = json.loads(exported(group, "epcis", "NORTH", "BOLT", "BOLT-2", "back"))["epcisBody"]["eventList"]
    used = [quantity["epcClass"].rpartition("/")[2] for event in events for quantity in event.get("inputQuantityList", [])]
    assert used == ["W-1"]


def test_the_spreadsheet_keeps_the_suppliers_code(pair, group):
    rows = list(csv.DictReader(io.StringIO(exported(group, "fsma", "NORTH", "ACME", "S-1"))))
    received = [row for row in rows if row["event"] == "receiving" and row["location"] == "SOUTH"]
    assert [(row["traceability lot code"], row["lot here"], row["date"]) for row in received] == [("ACME-2", "R-1", '="2026-11-01"')]
    shipped = [row for row in rows if row["event"] == "shipping"]
    assert [row["reference document"] for row in shipped] == ['="=LS 1"']  # no formula of somebody else's


def test_an_export_needs_the_name_with_which_lots_begin(pair, group):
    assert group.run("group", "export", "epcis", "NORTH", "ACME", "S-1").exit_code == 2


def test_numbers_and_codes_that_are_noted_are_in_both_exports(pair, group):
    north, south = pair
    gln, gtin, sscc = "4098765000003", "4012345678901", "340123450000000017"
    with contextlib.closing(sqlite3.connect(north.file)) as base:
        shipped = base.execute("SELECT mkey FROM moves WHERE owner = 'ACME' AND kind = 2").fetchone()[0]
    north.note({"kind": "material", "owner": "ACME", "material": "END", "gtin": gtin, "name": "Brine"})
    north.note({"kind": "material", "owner": "ACME", "material": "END", "unit_code": "GRM"})  # the first one's GTIN still counts
    north.note({"kind": "material", "owner": "BOLT", "material": "END", "gtin": "96385074"})
    north.note({"kind": "owner", "owner": "ACME", "gln": gln})
    north.note({"kind": "owner", "owner": "HOUSE", "gln": "4012345000016"})
    withdrawn = north.note({"kind": "owner", "owner": "HOUSE", "gln": "4012345000009"})
    north.withdraw("HOUSE", *withdrawn)
    north.note({"kind": "party", "owner": "ACME", "party": "SHOP", "name": "Shop", "roles": ["customer"], "gln": "4012345000023"})
    with north.writing() as base:
        north.lot(base, "ACME", "ACME-2")
        sold = north.move(base, "ACME", SHIP, "ACME-2", 7)
    north.note_movement("ACME", sold, party="SHOP", document=sscc)
    north.note_movement("ACME", shipped, document=sscc[:-1] + "8")  # no SSCC, by its last digit
    assert north.publish() > 0 and north.differences() == []
    events = json.loads(exported(group, "epcis", "NORTH", "ACME", "S-1"))["epcisBody"]["eventList"]
    shipments = {event["destinationList"][0]["destination"].rpartition("/")[2]: event for event in events if event["bizStep"] == "shipping"}
    assert set(shipments) == {"4012345000009", "4012345000023"}
    event = shipments["4012345000023"]
    assert event["quantityList"] == [{"epcClass": f"https://id.gs1.org/01/0{gtin}/10/ACME-2", "quantity": 7, "uom": "GRM"}]
    assert event["epcList"] == [f"https://id.gs1.org/00/{sscc}"] and "bizTransactionList" not in event
    assert event["sourceList"] == [{"type": "owning_party", "source": f"https://id.gs1.org/417/{gln}"}]
    assert event["bizLocation"] == {"id": "https://id.gs1.org/414/4012345000016"}
    assert "epcList" not in shipments["4012345000009"] and "96385074" not in str(events)
    rows = list(csv.DictReader(io.StringIO(exported(group, "fsma", "NORTH", "ACME", "S-1"))))
    row = next(row for row in rows if row["other party"] == "SHOP")
    assert [row[name].strip('="') for name in ("GTIN", "GLN", "other GLN", "reference document")] == [gtin, "4012345000016", "4012345000023", sscc]


def test_an_event_has_what_epcis_demands(pair, group):
    """By hand, of the schema of GS1: what each kind of event has to have, and which words it may."""
    document = json.loads(exported(group, "epcis", "NORTH", "ACME", "S-1"))
    assert {"@context", "type", "schemaVersion", "creationDate", "epcisBody"} == set(document)
    for event in document["epcisBody"]["eventList"]:
        assert {"type", "eventID", "eventTime", "eventTimeZoneOffset"} <= set(event)
        assert event["action"] in ("OBSERVE", "ADD", "DELETE") if event["type"] == "ObjectEvent" else "action" not in event
        assert event.get("epcList") or event.get("quantityList") or event.get("outputQuantityList")
        for quantity in [*event.get("quantityList", []), *event.get("inputQuantityList", []), *event.get("outputQuantityList", [])]:
            assert set(quantity) <= {"epcClass", "quantity", "uom"} and re.fullmatch(r"[A-Z0-9]{2,3}", quantity.get("uom", "KGM"))
