"""Offices at their limits: a lot with 5,000 descendants, 64 owners with names of 16 letters, amounts of 20,000,000,000,000."""
import contextlib
import sqlite3

from conftest import Plant

DESCENDANTS = 4_999  # and the lot itself: an owner has 5,000
OF_BATCH = 198
MOVEMENTS, MOST = 20_000, 1_000_000_000
HEADER = "key,owner,order,batch,segment,use,material,lot_owner,lot,sublot,amount,day\n"


def with_descendants(plant: Plant) -> Plant:
    """A lot of ACME with as many descendants as an owner may have: each batch takes a lot of the one before."""
    plant.lay("""owner-add ACME ACMEKEY1
unit-add KETTLE
material-add ACME SALT kg
recipe-add ACME R 1
require ACME R 1 consumed ACME SALT 1
require ACME R 1 produced ACME SALT 1000
receive ACME K1 SALT S-1 BAY1 500000 261101
> ACME POST /lots/S-1/release
> ACME POST /orders {"order":"O-1","recipe":"R","batches":99}""")
    sheet, descendants, taken, batch = plant.folder / "actuals.csv", 0, ("S-1", "BAY1"), 0
    with plant.serve() as server:
        while descendants < DESCENDANTS:
            batch, count = batch + 1, min(OF_BATCH, DESCENDANTS - descendants)
            rows = [f"C{batch},ACME,O-1,{batch},1,consumed,SALT,ACME,{taken[0]},{taken[1]},10,261102"]
            rows += [f"P{batch}-{number},ACME,O-1,{batch},1,produced,SALT,ACME,L{batch:02d}-{number:03d},TOTE1,{1000 + number},261103" for number in range(count)]
            sheet.write_text(HEADER + "\n".join(rows) + "\n")
            for words in (("open", "ACME", "O-1", "KETTLE"), ("do", "ACME", "O-1", batch, "start"), ("import", sheet), ("do", "ACME", "O-1", batch, "done"),
                          ("close", "ACME", "O-1", batch)):
                assert plant.toll(*words).status == 0, words
            for at in range(0, count, 20):
                assert server.ask("ACME", "POST", f"/lots/L{batch:02d}-{at:03d}/release")[0] == 200
            assert plant.toll("ship", "ACME", f"S{batch}", f"L{batch:02d}-000", "TOTE1", 50, 261104).status == 0
            descendants, taken = descendants + count, (f"L{batch:02d}-000", "TOTE1")
    return plant


def long_name(front: str, number: int) -> str:
    """A name of 16 letters."""
    return f"{front}{number:0{16 - len(front)}d}"


def with_owners(plant: Plant, count: int = 64) -> Plant:
    """So many owners, each of which has a batch that took water of HOUSE; half of the batches are closed."""
    water, lot, tank = long_name("WATER-", 1), long_name("W-", 1), long_name("TANK-", 1)
    plant.lay(f"material-add HOUSE {water} liters\nreceive HOUSE K1 {water} {lot} {tank} {MOST} 261101\nrelease {lot}")
    owners, lines = [long_name("OWNER-", number) for number in range(count)], []
    for number, owner in enumerate(owners):
        material, recipe, unit = long_name("MATERIAL-", number), long_name("RECIPE-", number), long_name("UNIT-", number)
        lines.append(f"""owner-add {owner} {owner.replace("-", "")}KEY1
unit-add {unit}
material-add {owner} {material} kilogram
test-add {owner} {material} {long_name("TEST-", number)} M1000000000 1000000000
recipe-add {owner} {recipe} 1
require {owner} {recipe} 1 consumed HOUSE {water} {MOST}
require {owner} {recipe} 1 produced {owner} {material} {MOST}""")
    plant.lay("\n".join(lines))
    keys = {owner: owner.replace("-", "") for owner in owners}
    order_all(plant, owners, keys)
    for number, owner in enumerate(owners):
        order, product = long_name("ORDER-", number), long_name("LOT-", number)
        rows = [("open", owner, order, long_name("UNIT-", number)), ("do", owner, order, 1, "start"),
                ("actual", "K1", owner, order, 1, 1, "consumed", water, "HOUSE", lot, tank, 10_000_000, 261102),
                ("actual", "K2", owner, order, 1, 1, "produced", long_name("MATERIAL-", number), owner, product, long_name("TOTE-", number), MOST, 261103)]
        rows += [("do", owner, order, 1, "done"), ("close", owner, order, 1)] if number % 2 else []
        for words in rows:
            assert plant.toll(*words).status == 0, words
    return plant


def order_all(plant: Plant, owners: list[str], keys: dict[str, str]) -> None:
    """Each owner orders two batches over HTTP."""
    import http.client

    with plant.serve() as server:
        for number, owner in enumerate(owners):
            with contextlib.closing(http.client.HTTPConnection("127.0.0.1", server.port)) as peer:
                body = f'{{"order":"{long_name("ORDER-", number)}","recipe":"{long_name("RECIPE-", number)}","batches":2}}'
                peer.request("POST", "/orders", body, {"toll-owner": owner, "toll-key": f"{keys[owner]}KEY1"})
                assert peer.getresponse().status == 200


def with_amounts(plant: Plant) -> Plant:
    """A sublot of 20,000,000,000,000, which is 20,000 receipts of 1,000,000,000. They are written by SQL as `toll` writes them."""
    lot, material, sublot = long_name("LOT-", 1), long_name("MATERIAL-", 1), long_name("TANK-", 1)
    owner = long_name("OWNER-", 1)
    plant.lay(f"owner-add {owner} OWNERKEY1\nmaterial-add {owner} {material} kilogram\nreceive {owner} K0 {material} {lot} {sublot} {MOST} 261101")
    with contextlib.closing(sqlite3.connect(plant.db)) as base, base:
        names = [column[1] for column in base.execute("PRAGMA table_info(moves)")]
        columns = ", ".join({"mkey": "'K' || n.value"}.get(name, f"m.{name}") for name in names)
        base.execute(f"INSERT INTO moves SELECT {columns} FROM moves AS m, (WITH RECURSIVE n(value) AS (SELECT 1 UNION ALL SELECT value + 1 FROM n "
                     f"WHERE value < {MOVEMENTS - 1}) SELECT value FROM n) AS n WHERE m.mkey = 'K0'")
        base.execute("UPDATE sublots SET amount = ?", (MOVEMENTS * MOST,))
    return plant
