"""`list` and `show` tell what `toll` tells, wherever both tell a thing."""
import csv
import io
import json

import pytest
from hilpoven.report.lists import LISTINGS


def listed(plant, name, *options):
    return json.loads(plant.run("list", name, *options, "--json").out)


@pytest.fixture(scope="module")
def office(laid):
    """The office at work, of which nothing is changed."""
    return laid


def test_sublots_are_the_stock(office):
    for owner in ("ACME", "BOLT", "HOUSE"):
        lines = [line.split() for line in office.toll("stock", owner).out.splitlines()]
        assert lines == [[row["lot"], row["sublot"], row["material"], row["disposition"], str(row["amount"]), row["measure"]] for row in listed(office, "sublots", "--owner", owner)]


def test_orders_are_those_of_toll(office):
    lines = [line.split() for line in office.toll("orders", "ACME").out.splitlines()]
    assert lines == [[row["order"], row["recipe"], str(row["batches"]), row["status"]] for row in listed(office, "orders", "--owner", "ACME")]


def test_a_batch_is_that_of_toll(office):
    head, *rows = office.toll("batch", "ACME", "O-1", "1").out.splitlines()
    shown = json.loads(office.run("show", "batch", "ACME", "O-1", "1", "--json").out)
    assert head.split()[1:] == [shown["state"], shown["unit"], shown["closed"]]
    assert [row.split() for row in rows] == [[str(requirement[name]) for name in ("segment", "use", "owner", "material", "required", "actual")] for requirement in shown["requirements"]]


def test_a_lot_is_that_of_http(at_work):
    with at_work.serve() as server:
        for name in ("S-1", "B-1"):
            status, reply = server.ask("ACME", "GET", f"/lots/{name}")
            shown = json.loads(at_work.run("show", "lot", "ACME", name, "--json").out)
            assert status == 200
            assert [reply[field] for field in ("material", "measure", "disposition", "origin")] == [shown[field] for field in ("material", "measure", "disposition", "origin")]
            assert reply["sublots"] == [{"amount": sublot["amount"], "sublot": sublot["sublot"]} for sublot in shown["sublots"]]
            results = listed(at_work, "results", "--owner", "ACME", "--lot", name)
            assert reply["results"] == [{field: row[field] for field in ("day", "test", "value")} for row in results]


def test_a_ledgers_last_balance_is_on_hand(office):
    for lot in listed(office, "lots"):
        shown = json.loads(office.run("show", "lot", lot["owner"], lot["lot"], "--json").out)
        assert shown["ledger"][-1]["balance"] == shown["on hand"] == sum(sublot["amount"] for sublot in shown["sublots"])


def test_a_voided_actual_does_not_count_in_the_ledger(at_work):
    at_work.lay("void ACME K2\n")
    shown = json.loads(at_work.run("show", "lot", "ACME", "S-1", "--json").out)
    assert [(movement["key"], movement["void"], movement["balance"]) for movement in shown["ledger"]] == [("K1", "", 5000), ("K2", "void", 5000)]
    assert shown["on hand"] == 5000
    assert [row["key"] for row in listed(at_work, "voids")] == ["K2"]
    assert "K2" not in [row["key"] for row in listed(at_work, "moves", "--owner", "ACME", "--open")]


def test_what_is_missing_for_a_release_is_what_toll_wants(at_work):
    shown = json.loads(at_work.run("show", "lot", "ACME", "B-1", "--json").out)
    assert shown["remarks"] == ["Missing for its release:", "  PH: no result yet; the limits are -5 to 9"]
    at_work.lay("result ACME B-1 PH M6 102\n")
    assert "the latest result, -6, is out of -5 to 9" in at_work.run("show", "lot", "ACME", "B-1").out
    with at_work.serve() as server:
        assert server.ask("ACME", "POST", "/lots/B-1/release")[1]["error"] == "TestsOpen"
    at_work.lay("result ACME B-1 PH M5 102\n")
    assert "Nothing is missing for its release, which ACME gives over HTTP." in at_work.run("show", "lot", "ACME", "B-1").out
    at_work.lay("> ACME POST /lots/B-1/release\n")
    assert "It is released." in at_work.run("show", "lot", "ACME", "B-1").out


def test_a_unit_tells_its_batch(office):
    assert "runs: ACME O-1/1, running" in office.run("show", "unit", "KETTLE").out
    assert "runs: nothing" in office.run("show", "unit", "MIXER").out
    assert [row["unit"] for row in listed(office, "units", "--open")] == ["KETTLE"]


def test_a_unit_tells_the_open_batch_behind_those_that_are_closed(at_work):
    at_work.lay("do ACME O-1 1 done\nclose ACME O-1 1\nopen ACME O-1 KETTLE\n")
    shown = json.loads(at_work.run("show", "unit", "KETTLE", "--json").out)
    assert [(row["batch"], row["closed"]) for row in shown["batches"]] == [(1, "closed"), (2, "open")]


def test_an_order_tells_its_batches_and_recipe(office):
    shown = json.loads(office.run("show", "order", "ACME", "O-1", "--json").out)
    assert (shown["batches"], shown["recipe"]) == ([{"batch": 1, "unit": "KETTLE", "state": "running", "closed": "open"}], "BRINE-10")
    assert len(shown["recipe for each batch"]) == 3


def test_what_is_open(office):
    assert [row["lot"] for row in listed(office, "lots", "--open", "--owner", "ACME")] == ["B-1"]
    assert [row["batch"] for row in listed(office, "batches", "--open")] == [1]
    assert [row["order"] for row in listed(office, "orders", "--open")] == ["O-1"]


def test_an_order_is_done_when_its_batches_are_closed_and_not_before(at_work):
    def status_of_order():
        (order,) = (row for row in listed(at_work, "orders", "--owner", "ACME") if row["order"] == "O-2")
        assert (order in listed(at_work, "orders", "--open")) is (order["status"] == "open")
        return order["opened"], order["closed"], order["status"]
    at_work.lay('> ACME POST /orders {"order":"O-2","recipe":"BRINE-10","batches":1}\n')
    assert status_of_order() == (0, 0, "open")
    at_work.lay("open ACME O-2 MIXER\n")
    assert status_of_order() == (1, 0, "open")
    at_work.lay("do ACME O-2 1 start\ndo ACME O-2 1 done\nclose ACME O-2 1\n")
    assert status_of_order() == (1, 1, "done")


def test_no_key_of_an_owner_is_listed(office):
    for name in LISTINGS:
        for form in ("--json", "--csv"):
            assert "KEY1" not in office.run("list", name, form).out


@pytest.mark.parametrize("name", LISTINGS)
def test_each_list_has_the_rows_of_its_table(office, name):
    table = {"requirements": "requirements"}.get(name, name)
    wanted = office.rows(f"SELECT count(*) FROM {table}")[0][0] + (name == "owners")
    rows = listed(office, name)
    assert len(rows) == wanted
    read = list(csv.DictReader(io.StringIO(office.run("list", name, "--csv").out)))
    assert [{key: "" if value is None else str(value) for key, value in row.items()} for row in rows] == read
    plain = office.run("list", name)
    assert len(plain.out.splitlines()) == (wanted + 1 if wanted else 0) and (wanted or plain.err == f"no {name}\n")


@pytest.mark.parametrize("name, options, column, values", [
    ("moves", ["--material", "BRINE"], "key", ["K4", "K6"]), ("moves", ["--order", "O-1"], "key", ["K2", "K3", "K4"]),
    ("moves", ["--kind", "consumed"], "key", ["K2", "K3"]), ("moves", ["--kind", "receive", "--material", "SALT"], "key", ["K1"]),
    ("moves", ["--since", "102"], "key", ["K6"]), ("moves", ["--since", "2026-01-01"], "key", []), ("results", ["--since", "102"], "lot", ["B-1"]),
    ("lots", ["--material", "SALT"], "lot", ["S-1"]), ("sublots", ["--material", "BRINE"], "sublot", ["TOTE1", "TOTE2"]),
    ("tests", ["--material", "BRINE"], "test", ["DENSITY", "PH"]), ("requirements", ["--material", "WATER"], "source", ["HOUSE"]),
    ("materials", ["--material", "WATER"], "owner", ["HOUSE"]), ("orders", ["--order", "O-1"], "owner", ["ACME"]), ("batches", ["--order", "O-1"], "unit", ["KETTLE"]),
    ("batches", ["--unit", "MIXER"], "unit", []), ("units", ["--unit", "MIXER"], "unit", ["MIXER"]), ("units", ["--order", "O-1"], "unit", ["KETTLE"])])
def test_an_option_leaves_the_rows_that_have_its_value(office, name, options, column, values):
    assert [row[column] for row in listed(office, name, *options)] == values


def test_a_day_is_a_number_or_a_date(at_work):
    at_work.lay("receive ACME K30 SALT S-30 BAY1 5 261126\nreceive ACME K31 SALT S-31 BAY1 5 261127\nvoid ACME K3\n")
    for day in ("261127", "2026-11-27"):
        assert [row["key"] for row in listed(at_work, "moves", "--since", day)] == ["K31"]
    assert [row["key"] for row in listed(at_work, "voids", "--kind", "consumed", "--order", "O-1", "--since", "101")] == ["K3"]
    assert at_work.run("list", "moves", "--since", "261128").err == "no moves\n  The latest day is 2026-11-27.\n"


@pytest.mark.parametrize("words, lines", [
    ("lots --material SLAT --owner ACME", ["There is no material SLAT of ACME.", "Nearest of the materials of ACME: SALT."]),
    ("batches --unit KETLE", ["There is no unit KETLE.", "Nearest of the units: KETTLE."]),
    ("moves --order O-9", ["There is no order O-9.", "Nearest of the orders: O-1."]),
    ("lots --owner ACMEE --lot X-1", ["There is no lot X-1 of ACMEE.", "There is no owner ACMEE.", "Nearest of the owners: ACME."]),
    ("orders --open --owner BOLT", ["Without these options there are 1."]),
    ("units --open --unit MIXER", ["--open shows units that run a batch; without it there are 1."])])
def test_a_list_without_rows_says_why(office, words, lines):
    done = office.run("list", *words.split())
    first, *rest = done.err.splitlines()
    assert (done.status, done.out, first) == (0, "", f"no {words.split()[0]}") and set(lines) <= {line.strip() for line in rest}


def test_a_list_of_what_is_open_says_what_else_there_is(at_work):
    at_work.lay('recipe-add BOLT R 1\n> BOLT POST /orders {"order":"O-3","recipe":"R","batches":1}\n> BOLT POST /orders/O-3/cancel\n')
    assert at_work.run("list", "orders", "--open", "--owner", "BOLT").err == (
        "no orders\n  --open shows orders that are neither cancelled nor done; without it there are 1: 1 cancelled.\n")
    assert at_work.run("list", "lots", "--open", "--lot", "S-1").err == "no lots\n  --open shows lots that are quarantined; without it there are 1: 1 released.\n"


@pytest.mark.parametrize("words, lines", [
    ("lots --unit KETTLE", ["list lots has no option --unit", "it has --owner, --lot and --material; --unit is of list units and batches"]),
    ("owners --since 101", ["list owners has no option --since", "it has --owner; --since is of list moves, results and voids"]),
    ("moves --kind shipped", ["'shipped' is not one of 'receive', 'split', 'ship'"]), ("moves --since 27.11.2026", ["`27.11.2026` is no day", "2026-11-27"]),
    ("moves --since 2026-02-30", ["`2026-02-30` is no day"]), ("moves --since 99999999", ["`99999999` is no day"]), ("lots --sinse 5", ["No such option: --sinse"])])
def test_an_option_that_a_list_has_not_is_told(office, words, lines):
    done = office.run("list", *words.split())
    assert done.status == 2 and done.out == "" and all(line in done.err for line in lines), done.err


def test_a_list_reads_what_stands_in_the_log_alone(at_work):
    with at_work.serve():
        at_work.run("unit-add", "PRESS")
        assert "PRESS" in at_work.run("list", "units").out


def test_nothing_is_left_beside_the_file(at_work):
    before = sorted(path.name for path in at_work.folder.iterdir())
    at_work.run("list", "lots")
    at_work.run("show", "lot", "ACME", "B-1")
    assert sorted(path.name for path in at_work.folder.iterdir()) == sorted({*before, "office.db.lock"})


def test_a_server_need_not_open_its_file_anew(at_work):
    with at_work.serve() as server:
        assert server.ask("ACME", "GET", "/stock")[0] == 200
        for words in (["list", "lots"], ["show", "lot", "ACME", "B-1"], ["status"], ["backup", at_work.folder], ["verify"]):
            at_work.run(*words)
            assert server.ask("ACME", "GET", "/stock")[0] == 200
        assert "opened anew" not in server.end()


@pytest.mark.parametrize("number", ["1x", "1.0", " 1", "\u0661", "", "99999999999999999999"])
def test_a_batch_of_no_number_is_refused(office, number):
    done = office.run("show", "batch", "ACME", "O-1", number)
    assert done.status == 1 and done.err.startswith(f"hilpoven: BATCH: `{number}` ") and done.out == ""


def test_a_batch_may_have_a_zero_before_its_number(office):
    assert office.run("show", "batch", "ACME", "O-1", "01").out == office.run("show", "batch", "ACME", "O-1", "1").out.replace("O-1/1", "O-1/01", 1)


@pytest.mark.parametrize("words", [("list", "lots", "--owner"), ("list", "moves", "--key"), ("show", "lot", "ACME"), ("show", "unit")])
def test_a_word_that_is_no_utf_8_is_refused(office, words):
    done = office.run(*words, "\udcff")
    assert done.status == 2 and "`\\xff` is no UTF-8" in done.err


# Names that a spreadsheet takes for a number, a date or a truth.
MISTAKEN = ["1E5", "007", "1-2", "MAR-1", "TRUE"]


def test_a_csv_has_no_name_that_a_spreadsheet_changes(at_work):
    at_work.lay("\n".join(f"receive ACME X{number} SALT {name} BAY1 5 101" for number, name in enumerate(MISTAKEN)))
    rows = list(csv.DictReader(io.StringIO(at_work.run("list", "lots", "--owner", "ACME", "--csv").out)))
    assert sorted(row["lot"] for row in rows if row["lot"].startswith("=")) == sorted(f'="{name}"' for name in MISTAKEN)


def shown(plant, *words):
    return json.loads(plant.run("show", *words, "--json").out)


def test_an_owner_is_shown_with_what_it_has_and_never_its_key(office):
    owner = shown(office, "owner", "ACME")
    assert [owner[kind] for kind in ("materials", "recipes", "orders", "lots", "movements", "results")] == [2, 1, 1, 2, 5, 1]
    assert owner["materials by name"] == [{"material": "BRINE", "measure": "kg", "lots": 1, "on hand": 980}, {"material": "SALT", "measure": "kg", "lots": 1, "on hand": 4700}]
    assert owner["open batches"] == [{"order": "O-1", "batch": 1, "unit": "KETTLE", "state": "running"}]
    assert "KEY1" not in office.run("show", "owner", "ACME").out and "BOLT" not in office.run("show", "owner", "ACME").out
    assert shown(office, "owner", "HOUSE")["lots by disposition"] == [{"disposition": "released", "lots": 1}]


def test_a_recipe_is_shown_with_its_requirements_and_orders(office):
    recipe = shown(office, "recipe", "ACME", "BRINE-10")
    assert recipe["segments"] == 2 and len(recipe["requirements"]) == 3
    assert recipe["orders"] == [{"order": "O-1", "batches": 3, "opened": 1, "closed": 0, "status": "open"}]


def test_a_material_is_shown_with_its_tests_recipes_and_stock(office):
    material = shown(office, "material", "HOUSE", "WATER")
    assert (material["measure"], material["lots"], material["on hand"]) == ("liter", 1, 10_000 - 700)
    assert material["recipes"] == [{"owner": "ACME", "recipe": "BRINE-10", "segment": 1, "use": "consumed", "amount": 700}]
    assert shown(office, "material", "ACME", "BRINE")["tests"] == [{"test": "DENSITY", "low": 1100, "high": 1250}, {"test": "PH", "low": -5, "high": 9}]


def test_a_key_is_shown_with_what_it_recorded(at_work):
    at_work.run("party", "add", "ACME", "NORD", "--name", "Nord Foods", "--role", "customer")
    at_work.lay("result ACME B-1 PH 5 102\n> ACME POST /lots/B-1/release\n")
    assert at_work.run("ship", "ACME", "K7", "B-1", "TOTE2", 30, 103, "--to", "NORD", "--document", "LS 1").status == 0
    split = shown(at_work, "key", "ACME", "K6")
    assert [split[field] for field in ("kind", "lot", "sublot", "target", "material", "amount", "measure", "day")] == ["split", "B-1", "TOTE1", "TOTE2", "BRINE", 80, "kg", 102]
    shipment = shown(at_work, "key", "ACME", "K7")
    assert (shipment["noted party"], shipment["noted document"]) == ("NORD", "LS 1")
    used = shown(at_work, "key", "ACME", "K3")
    assert (used["lot owner"], used["batch"], used["segment"]) == ("HOUSE", "ACME O-1/1", 1)
    assert "day: 103" in at_work.run("show", "key", "ACME", "K7").out


def test_a_lot_tells_who_has_it_and_all_results(at_work):
    at_work.run("party", "add", "ACME", "NORD", "--name", "Nord Foods", "--phone", "+44 20", "--role", "customer")
    at_work.lay("result ACME B-1 DENSITY 1190 103\nresult ACME B-1 PH 5 102\n> ACME POST /lots/B-1/release\nship ACME K8 B-1 TOTE1 7 103\n")
    for key, amount in (("K7", 30), ("K9", 12)):
        at_work.run("ship", "ACME", key, "B-1", "TOTE2", amount, 103, "--to", "NORD", "--document", f"LS {key}")
    lot = shown(at_work, "lot", "ACME", "B-1")
    assert lot["batch"] == "O-1/1, recipe BRINE-10, unit KETTLE, running, open"
    assert [(row["test"], row["value"]) for row in lot["results"]] == [("DENSITY", 1180), ("DENSITY", 1190), ("PH", 5)]
    assert [(row["party"], row["phone"], row["shipments"], row["amount"], row["documents"]) for row in lot["who has it"]] == [
        ("", "", 1, 7, ""), ("NORD", "+44 20", 2, 42, "LS K7; LS K9")]
    assert sum(row["amount"] for row in lot["who has it"]) == 980 - lot["on hand"]
    assert "who has it" not in shown(at_work, "lot", "ACME", "S-1")


def test_a_batch_says_whether_it_is_closed(at_work):
    assert "  closed: no\n" in at_work.run("show", "batch", "ACME", "O-1", "1").out and shown(at_work, "batch", "ACME", "O-1", "1")["closed"] == "open"
    at_work.lay("do ACME O-1 1 done\nclose ACME O-1 1\n")
    assert "  closed: yes\n" in at_work.run("show", "batch", "ACME", "O-1", "1").out and shown(at_work, "batch", "ACME", "O-1", "1")["closed"] == "closed"


@pytest.mark.parametrize("words, why", [
    ("owner ACMEE", "Nearest of the owners: ACME"), ("recipe ACME BRINE-1", "Nearest of the recipes: BRINE-10"), ("material ACME SLAT", "Nearest of the materials: SALT"),
    ("key ACME K66", "Nearest of the movements of ACME: K6"), ("material ACMEE SALT", "there is no owner ACMEE"), ("key BOLT K6", "there is no movement K6 of BOLT")])
def test_what_is_not_there_is_told_with_the_nearest(office, words, why):
    done = office.run("show", *words.split())
    assert (done.status, done.out) == (1, "") and why in done.err


def test_an_opened_batch_is_named(at_work):
    done = at_work.run("open", "ACME", "O-1", "MIXER")
    assert done == (0, "accepted\n", "  O-1/2 is open on MIXER.\n")
    at_work.lay("close ACME O-1 2\n")
    assert "O-1/3 is open on MIXER" in at_work.run("open", "ACME", "O-1", "MIXER").err
