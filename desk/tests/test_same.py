"""A day at the screens leaves the rows and the journal's lines that the same words leave when they are typed."""
import shutil

from conftest import NOTED
from plants import Plant

DAY = "103"
OPTIONS = {"party": {"receive": "--from", "ship": "--to"}, "supplier_lot": "--supplier-lot", "document": "--document", "reason": "--reason"}


def entries(anna, quinn, server) -> None:
    """A day of a clerk and of a quality person, with receipts, a batch, results, a hold, a signature, and a shipment."""
    anna.get("/receive?owner=ACME&material=SALT")
    anna.means("/receive", material="SALT", lot="S-9", sublot="BAY1", amount="700", day=DAY, party="SALINE", supplier_lot="X 1", document="LS 1")
    anna.get("/order/ACME/O-1")
    anna.means("/order/ACME/O-1", unit="MIXER")
    path = "/batch/ACME/O-1/2"
    anna.get(path)
    anna.fill(path, "do", command="start")
    for scan, amount in (("ACME/S-1/BAY1", "300"), ("HOUSE/W-101/TANK", "700")):
        anna.get(f"{path}?scan={scan}")
        anna.fill(path, "consume", amount=amount, day=DAY)
    anna.get(path)
    anna.means(path, "produce", lot="B-2", sublot="TOTE3", amount="990", day=DAY)
    anna.fill(path, "do", command="done")
    anna.fill(path, "close")
    for test, value in (("DENSITY", "1180"), ("PH", "7")):
        anna.get("/lot/ACME/B-2")
        anna.send("/lot/ACME/B-2", **{**anna.form("result"), "test": test, "value": value, "day": DAY})
    anna.means("/lot/ACME/B-2", "split", sublot="TOTE3", target="TOTE4", amount="90", day=DAY)
    anna.fill("/lot/ACME/B-2", "scrap", sublot="TOTE4", amount="5", day=DAY, reason="sample")
    quinn.get("/lot/ACME/B-2")
    quinn.fill("/lot/ACME/B-2", "hold", reason="metal found")
    quinn.fill("/lot/ACME/B-2", "sign", password="quinn's word", reason="it was none")
    assert server.ask("ACME", "POST", "/lots/B-2/release")[0] == 200
    anna.get("/ship?scan=ACME/B-2/TOTE3")
    anna.fill("/ship", party="NORD", amount="400", day=DAY, document="LS 2")
    assert "400 of lot B-2 shipped to NORD" in anna.text, anna.text


def lines_of(office, first: int) -> list[tuple]:
    """What the journal has of commands from a line on: the words, what is noted beside them, and the answers."""
    return [(line.get("event"), line.get("words"), line.get("notes"), line.get("answer"), line.get("status")) for line in office.lines()[first:]]


def options(name: str, notes: list[dict] | None) -> list[str]:
    """What was noted beside a line as it is typed."""
    typed = []
    for note in notes or []:
        for member, option in OPTIONS.items():
            if word := note.get(member):
                typed += [option[name] if isinstance(option, dict) else option, word]
    return typed


def test_the_same_words_typed_leave_the_same(browse, office, tmp_path):
    settings = office.folder / "hilpoven.toml"
    settings.write_text(f"{settings.read_text()}[quality]\npersons = 1\n")  # one person types all of it
    (tmp_path / "typed").mkdir()
    typed = Plant(office.program, tmp_path / "typed")
    first = len(office.lines())
    for end in ("", "-wal"):
        if office.db.with_name(f"office.db{end}").exists():
            shutil.copyfile(f"{office.db}{end}", f"{typed.db}{end}")
    for words in NOTED:
        assert typed.run(*words).status == 0
    with office.serve() as server:
        entries(browse("anna"), browse("quinn"), server)
    lines = office.lines()[first:]
    given = [line for line in lines if line.get("words") and line.get("event") != "told"]
    assert len(given) == 15, [line["words"][0] for line in given]
    with typed.serve() as server:
        for line in given:
            name, *words = line["words"]
            if name == "ship":
                assert server.ask("ACME", "POST", "/lots/B-2/release")[0] == 200
            beside = [] if name in ("sign", "hold") else options(name, line.get("notes"))
            result = typed.run(name, *words, *beside)
            assert result.status == 0, (line["words"], result)
    assert typed.content() == office.content()
    assert lines_of(typed, first) == lines_of(office, first)
    assert {line["login"] for line in given} == {"anna", "quinn"}
