"""Offices as the lines that lay them, files of actuals, and scripts with their answers."""
import pathlib
import re

HERE = pathlib.Path(__file__).resolve().parent


def office(name: str) -> str:
    return (HERE / "offices" / f"{name}.toll").read_text()


AT_WORK, WITH_WATER, TESTED, HOUSE_MAKES = map(office, ("at-work", "with-water", "tested", "house-makes"))
SERVED = f"""{WITH_WATER}
receive ACME K7 M C S 5 4
receive ACME K8 M D S 5 4
> ACME ACMEKEY1 POST /orders {{"order":"O-2","recipe":"R","batches":1}}
"""
HEADER = "key,owner,order,batch,segment,use,material,lot_owner,lot,sublot,amount,day\n"
ACTUALS = f"""{HEADER}\
K2,ACME,O,1,1,consumed,M,ACME,A,S1,40,11
K3,ACME,O,1,1,produced,P,ACME,P1,S1,30,11
K2,ACME,O,1,1,consumed,M,ACME,A,S1,40,11
"""
STOCK = "A                S1               M                released               100 kg\n"
# What brings a file of version 2 back to version 1, as the program that wrote version 1 left it.
BACK_TO_VERSION_1 = "DROP TABLE voids; UPDATE meta SET value = 1 WHERE name = 'toll'"
BACK_FROM_P1 = """\
     0 ACME             P1
     1 ACME             A
     1 HOUSE            H-1
"""
RECALLED = """\
 steps owner            lot              disposition        on-hand        shipped
     0 HOUSE            H-1              released                 0              0
     1 HOUSE            H-2              released                 6              0
     2 ACME             P1               quarantined              5              0
"""


def many_actuals(count: int) -> str:
    """A file of so many consumptions of one kilogram."""
    return HEADER + "".join(f"Q{number},ACME,O,1,1,consumed,M,ACME,A,S1,1,11\n" for number in range(count))


# Scripts, each with the lines of the office that they stand behind. What stands behind "= " is the answer of the line
# above it, or a further line of that answer; each other answer is `accepted`.
SECTIONS = re.findall(r"^# (.*), over (.*)\n((?:[^#].*\n)*)", (HERE / "scripts.toll").read_text(), re.M)
SCRIPTS = {name: ("" if base == "nothing" else office(base), text) for name, base, text in SECTIONS}
# What is asked of a server of SERVED, and the body of its reply.
REQUESTS = dict(re.findall(r"^> ACME ACMEKEY1 (.*)\n= 200 (.*)\n", (HERE / "requests.toll").read_text(), re.M))
