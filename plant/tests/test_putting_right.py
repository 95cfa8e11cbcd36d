"""What the clerk's page says of a wrong entry is so: each way to put it right is gone, in the office at work."""
import pytest

# What was recorded wrong and how it is put right: lines with what each is answered; `stock` lines that stand in the end.
WAYS = {
    "a measure": (["material-add ACME SUGAR liter", "material-add ACME SUGAR kg = refused 8 MaterialExists", "material-add ACME SUGAR-KG kg"], []),
    "a requirement": (["recipe-add ACME R-2 1", "require ACME R-2 1 consumed ACME SALT 5", "require ACME R-2 1 consumed ACME SALT 6 = refused 16 RequirementExists",
                       "recipe-add ACME R-3 1", "require ACME R-3 1 consumed ACME SALT 6"], []),
    "an order of HOUSE": (["recipe-add HOUSE C 1", "order C-1 C 2", "cancel C-1", "order C-2 C 1"], []),
    "a cancelled order": (["recipe-add HOUSE C 1", "order C-1 C 2", "cancel C-1", "order C-1 C 2 = repeated", "open HOUSE C-1 MIXER = refused 19 OrderCancelled",
                           "order C-2 C 2", "open HOUSE C-2 MIXER"], []),
    "a batch opened": (["open ACME O-1 MIXER", "close ACME O-1 2", "open ACME O-1 MIXER"], []),
    "a command to a batch": (["do ACME O-1 1 stop", "do ACME O-1 1 done", "do ACME O-1 1 reset", "do ACME O-1 1 start"], []),
    "a batch closed": (["do ACME O-1 1 done", "close ACME O-1 1", "do ACME O-1 1 reset = refused 24 BatchClosed", "open ACME O-1 KETTLE", "do ACME O-1 2 start",
                        "actual K9 ACME O-1 2 1 consumed SALT ACME S-1 BAY1 5 102"], []),
    "an actual": (["void ACME K2", "actual K9 ACME O-1 1 1 consumed SALT ACME S-1 BAY1 290 101"], ["S-1 BAY1 SALT released 4710 kg"]),
    "a production": (["void ACME K4 = refused 33 NotEnough", "split ACME K9 B-1 TOTE2 TOTE1 80 102", "void ACME K4"], ["B-1 TOTE1 BRINE quarantined 0 kg"]),
    "an actual of a closed batch": (["do ACME O-1 1 done", "close ACME O-1 1", "void ACME K4 = refused 24 BatchClosed", "scrap ACME CORR-1 B-1 TOTE1 20 102"],
                                    ["B-1 TOTE1 BRINE quarantined 880 kg"]),
    "a void": (["void ACME K2", "actual K2 ACME O-1 1 1 consumed SALT ACME S-1 BAY1 300 101 = refused 41 Voided",
                "actual K9 ACME O-1 1 1 consumed SALT ACME S-1 BAY1 300 101"], ["S-1 BAY1 SALT released 4700 kg"]),
    "a receipt of too much": (["receive ACME K9 SALT S-2 BAY1 600 102", "scrap ACME CORR-1 S-2 BAY1 100 102"], ["S-2 BAY1 SALT quarantined 500 kg"]),
    "a receipt of too little": (["receive ACME K9 SALT S-2 BAY1 400 102", "receive ACME K10 SALT S-2 BAY1 100 102",
                                 "receive ACME K11 SALT S-1 BAY1 100 102 = refused 32 NotQuarantined", "receive ACME K11 SALT S-1A BAY1 100 102 --of S-1 --why correction"],
                                ["S-2 BAY1 SALT quarantined 500 kg", "S-1A BAY1 SALT quarantined 100 kg"]),
    "a receipt by a wrong lot": (["receive ACME K9 SALT S-22 BAY1 400 102", "scrap ACME CORR-1 S-22 BAY1 400 102", "receive ACME K10 SALT S-2 BAY1 400 102 --of S-22 --why correction"],
                                 ["S-22 BAY1 SALT quarantined 0 kg", "S-2 BAY1 SALT quarantined 400 kg"]),
    "a split": (["split ACME K9 S-1 BAY1 BAY2 100 102", "split ACME K10 S-1 BAY2 BAY1 100 102"], ["S-1 BAY1 SALT released 4700 kg", "S-1 BAY2 SALT released 0 kg"]),
    "a shipment": (["ship ACME K9 S-1 BAY1 100 102", "receive ACME K10 SALT S-1R BAY1 100 102 --of S-1 --why return"], ["S-1R BAY1 SALT quarantined 100 kg"]),
    "scrap": (["scrap ACME K9 S-1 BAY1 100 102", "receive ACME K10 SALT S-1R BAY1 100 102 --of S-1 --why correction"], ["S-1R BAY1 SALT quarantined 100 kg"]),
    "a result": (["result ACME B-1 PH 7 102", "result ACME B-1 DENSITY 9999 102", "> ACME POST /lots/B-1/release = TestsOpen", "result ACME B-1 DENSITY 1190 102",
                  "> ACME POST /lots/B-1/release", "result ACME B-1 PH 8000 103", "ship ACME K9 B-1 TOTE1 5 103 = refused 31 NotReleased", "result ACME B-1 PH 8 103",
                  "> ACME POST /lots/B-1/release", "ship ACME K9 B-1 TOTE1 5 103"], ["B-1 TOTE1 BRINE released 895 kg"]),
    "a release": (["reject W-101", "release W-101 = refused 32 NotQuarantined"], []),
    "a release of a tested lot": (["material-add HOUSE STEAM kg", "test-add HOUSE STEAM PH 1 9", "receive HOUSE K2 STEAM T-1 TANK 5 102", "result HOUSE T-1 PH 5 102",
                                   "release T-1", "result HOUSE T-1 PH 99 102", "release T-1 = refused 36 TestsOpen"], []),
    "a rejection": (["reject W-101", "scrap HOUSE K2 W-101 TANK 5 102", "receive HOUSE K3 WATER W-101R TANK 5 102 --of W-101 --why correction", "release W-101R"], []),
}


@pytest.mark.parametrize("name", WAYS)
def test_a_wrong_entry_is_put_right(at_work, name):
    lines, stock = WAYS[name]
    with at_work.serve() as server:
        for line in lines:
            words, _, wanted = line.partition(" = ")
            if words.startswith("> "):
                status, reply = server.ask(*words[2:].split(" ", 3))
                assert (reply["error"] == wanted) if wanted else status == 200, (words, reply)
            else:
                assert at_work.run(*words.split()).out == f"{wanted or 'accepted'}\n", words
    stock_lines = [" ".join(line.split()) for line in at_work.toll("stock", "ACME").out.splitlines()]
    assert set(stock) <= set(stock_lines)
