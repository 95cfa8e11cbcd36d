"""What the offices are filled with that tools/try-page looks at."""
from collections.abc import Callable, Iterator

from .browser import HERE
from .site import Office

SMALL = (HERE / "small.toll").read_text().partition("\n")[2]
# What the picture of BL-1 shows: edges as FROM>TO.
BLEND_EDGES = sorted(
    """ACME/S-1>ACME/B-1 HOUSE/W-101>ACME/B-1 ACME/S-1>ACME/B-2 ACME/S-2>ACME/B-2 HOUSE/W-102>ACME/B-2
    ACME/B-1>ACME/BL-1 ACME/B-2>ACME/BL-1 HOUSE/W-102>ACME/BL-1 ACME/BL-1>ACME/DR-1 ACME/BL-1>ACME/DR-2
    ACME/B-2>ACME/DR-1 ACME/B-2>ACME/DR-2""".split()
)
ORDERS, BATCHES, LOTS_EACH, CHAIN = 2000, 11, 199, 32
# lots on hand: drums, salt, a yeast for each cask, sugar, the first and the last cask; each other went into the next
LARGE_LOTS = BATCHES * LOTS_EACH + 1 + CHAIN + 1 + 2
LARGE = """
owner-add ACME ACMEKEY1
material-add ACME SALT kg
material-add ACME DRUM pc
material-add ACME CASK liter
material-add ACME SUGAR kg
material-add ACME YEAST kg
material-add HOUSE WATER liter
recipe-add ACME FILL 1
require ACME FILL 1 consumed ACME SALT 199
require ACME FILL 1 produced ACME DRUM 199
recipe-add ACME AGE 1
require ACME AGE 1 consumed ACME CASK 1
require ACME AGE 1 consumed ACME SUGAR 1
require ACME AGE 1 consumed ACME YEAST 1
require ACME AGE 1 consumed HOUSE WATER 1
require ACME AGE 1 produced ACME CASK 1
receive ACME R1 SALT S-1 BAY1 100000 101
receive ACME R2 CASK C-0 BAY1 100 101
receive ACME R3 SUGAR SU-1 BAY1 1000 101
receive HOUSE R1 WATER W-1 TANK 1000 101
release W-1
"""


def each(count: int, line: str) -> str:
    return "".join(f"{line.format(number)}\n" for number in range(1, count + 1))


def place(name: str, recipe: str, batches: int) -> str:
    return f'> ACME ACMEKEY1 POST /orders {{"order":"{name}","recipe":"{recipe}","batches":{batches}}}\n'


def release(*lots: str) -> str:
    return "".join(f"> ACME ACMEKEY1 POST /lots/{lot}/release\n" for lot in lots)


def fill_large(office: Office) -> None:
    """2,000 orders; a lot of salt that went into 2,189 lots of drums; a chain of 32 casks, each made of four lots."""
    yeasts = each(CHAIN, "receive ACME Y{0} YEAST Y-{0} BAY1 10 101")
    office.do(LARGE + yeasts + each(BATCHES + CHAIN, "unit-add U-{0}"))
    office.start()
    others = (place(f"ORDER-{at:04}", "FILL" if at % 3 else "AGE", 1 + at % 20) for at in range(1, ORDERS - 1))
    released = release("S-1", "C-0", "SU-1", *(f"Y-{number}" for number in range(1, CHAIN + 1)))
    office.do(released + place("BIG", "FILL", BATCHES) + place("CHAIN", "AGE", CHAIN) + "".join(others))
    office.do(each(BATCHES, "open ACME BIG U-{0}\ndo ACME BIG {0} start"))
    office.import_actuals([record for batch in range(1, BATCHES + 1) for record in drums(batch)])
    for batch in range(1, CHAIN + 1):
        office.do(f"open ACME CHAIN U-{BATCHES + batch}\ndo ACME CHAIN {batch} start")

    def chained(key: str, use: str, lot_of: Callable[[int], str]) -> None:
        numbers = range(1, CHAIN + 1)
        office.import_actuals([f"{key}{batch},ACME,CHAIN,{batch},1,{use},{lot_of(batch)},1,102" for batch in numbers])

    chained("D", "produced", lambda batch: f"CASK,ACME,C-{batch},BAY1")
    office.do(release(*(f"C-{number}" for number in range(1, CHAIN + 1))))
    chained("C", "consumed", lambda batch: f"CASK,ACME,C-{batch - 1},BAY1")
    chained("G", "consumed", lambda _: "SUGAR,ACME,SU-1,BAY1")
    chained("V", "consumed", lambda batch: f"YEAST,ACME,Y-{batch},BAY1")
    chained("W", "consumed", lambda _: "WATER,HOUSE,W-1,TANK")


def drums(batch: int) -> Iterator[str]:
    yield f"S{batch},ACME,BIG,{batch},1,consumed,SALT,ACME,S-1,BAY1,199,102"
    for number in range(LOTS_EACH):
        yield f"P{batch}-{number},ACME,BIG,{batch},1,produced,DRUM,ACME,L-{batch}-{number:03},PAL{1 + number % 9},1,102"
