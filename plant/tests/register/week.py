"""A plant's week, as a clerk types it. `> OWNER METHOD PATH BODY` is what an owner does on its page, and `refused ..` behind `=>` what is answered to
what doesn't work; all else is accepted, noted or answered 200."""
import shlex

from conftest import Plant

PREPARED = """
owner-add ACME ACMEKEY1
unit-add KETTLE
material-add HOUSE ANTIFOAM kg
material-add ACME RESIN kg
material-add ACME BINDER kg
test-add ACME BINDER PH 5 9
recipe-add ACME MAKE 1
require ACME MAKE 1 consumed ACME RESIN 900
require ACME MAKE 1 produced ACME BINDER 1000
recipe-add ACME REWORK 1
require ACME REWORK 1 consumed ACME BINDER 900
require ACME REWORK 1 produced ACME BINDER 900
party add ACME NORD --name "Nord Foods Ltd" --contact "Ms Lund" --phone "+44 20 7946 0000" --role customer
party add ACME ALP --name "Alp Coatings AG" --contact "Mr Frei" --phone "+41 44 668 18 00" --role customer
party add ACME CHEMCO --name "Chemco SpA" --role supplier
"""
WEEK = """
receive HOUSE K1 ANTIFOAM AF-1 CAN1 20 261123
release AF-1
receive ACME K1 RESIN C-2611-07 TANK1 5000 261123 --from CHEMCO --supplier-lot 88-1207 --document "DN 3301"
> ACME POST /lots/C-2611-07/release
> ACME POST /orders {"order":"O-1","recipe":"MAKE","batches":2}
> ACME POST /orders {"order":"O-2","recipe":"REWORK","batches":1}

open ACME O-1 KETTLE
do ACME O-1 1 start
actual A1 ACME O-1 1 1 consumed RESIN ACME C-2611-07 TANK1 900 261123
actual A2 ACME O-1 1 1 consumed ANTIFOAM HOUSE AF-1 CAN1 1 261123 => refused 26 NotInRecipe
use ACME O-1 1 HOUSE AF-1 CAN1 1 261123 --reason "it foamed"
actual A2 ACME O-1 1 1 produced BINDER ACME BU-0001 T1 1050 261123
do ACME O-1 1 done
close ACME O-1 1
result ACME BU-0001 PH 7 261123
> ACME POST /lots/BU-0001/release
ship ACME S1 BU-0001 T1 650 261124 --to NORD --document "LS 4711"
ship ACME S2 BU-0001 T1 300 261124 --to ALP
receive ACME CORR-S2 BINDER BU-0001C T1 270 261124 --of BU-0001 --why correction --reason "30 were loaded, and 300 were typed"

open ACME O-1 KETTLE
do ACME O-1 2 start
actual A3 ACME O-1 2 1 consumed RESIN ACME C-2611-07 TANK1 900 261124
actual A4 ACME O-1 2 1 produced BINDER ACME BU-0002 T2 940 261124
do ACME O-1 2 done
close ACME O-1 2
result ACME BU-0002 PH 12 261124
> ACME POST /lots/BU-0002/release => TestsOpen
open ACME O-2 KETTLE
do ACME O-2 1 start
actual A5 ACME O-2 1 1 consumed BINDER ACME BU-0002 T2 940 261125 => refused 31 NotReleased
scrap ACME X1 BU-0002 T2 940 261125
receive ACME K2 BINDER BU-0002-RW T2 940 261125 --of BU-0002 --why rework
result ACME BU-0002-RW PH 8 261125
> ACME POST /lots/BU-0002-RW/release
actual A5 ACME O-2 1 1 consumed BINDER ACME BU-0002-RW T2 940 261125
actual A6 ACME O-2 1 1 produced BINDER ACME BU-0003 T3 930 261125
do ACME O-2 1 done
close ACME O-2 1
result ACME BU-0003 PH 7 261125
> ACME POST /lots/BU-0003/release
ship ACME S3 BU-0003 T3 905 261126 --to ALP --document "LS 4712"

receive ACME K3 BINDER BU-0001R DOCK 400 261127 --of BU-0001 --why return --from NORD --document "RT 17" --reason "drums leaked"
"""


def lived(plant: Plant, text: str) -> Plant:
    """An office in which this was done."""
    if not plant.db.exists():
        assert plant.run("new", plant.db).status == 0
    with plant.serve() as server:
        for line in filter(None, text.splitlines()):
            typed, _, expected = line.partition(" => ")
            if typed.startswith("> "):
                status, reply = server.ask(*typed[2:].split(" ", 3))
                assert (reply.get("error"), status) == (expected, 409) if expected else status == 200, (line, status, reply)
            else:
                done = plant.run(*shlex.split(typed))
                answer = done.out.splitlines()[0] if done.out else ""
                assert answer == expected if expected else answer == "accepted" or answer.startswith("noted "), (line, done)
    return plant
