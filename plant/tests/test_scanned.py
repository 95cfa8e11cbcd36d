"""What a scanner types from a label stands for OWNER, LOT and SUBLOT: what `toll` gets is what would be typed without it."""
import re
import shlex
import subprocess

import click
import pytest
from conftest import HILPOVEN, Told, environment
from hilpoven.cli import hilpoven
from hilpoven.core.grammar import LINES

# What is typed, and the words that `toll` gets of it.
TYPED = [
    # OWNER and SUBLOT are left out
    ("ship K9 ACME/S-1/BAY1 5 102", "ship ACME K9 S-1 BAY1 5 102"),
    ("scrap K9 ACME/S-1/BAY1 5 102", "scrap ACME K9 S-1 BAY1 5 102"),
    ("split K9 ACME/S-1/BAY1 BAY3 5 102", "split ACME K9 S-1 BAY1 BAY3 5 102"),
    ("receive K9 PIGMENT BOLT/P-1/BAY2 5 102", "receive BOLT K9 PIGMENT P-1 BAY2 5 102"),
    ("actual K9 ACME O-1 1 1 consumed SALT ACME/S-1/BAY1 5 102", "actual K9 ACME O-1 1 1 consumed SALT ACME S-1 BAY1 5 102"),
    ("actual K9 ACME O-1 1 1 consumed WATER HOUSE/W-101/TANK 5 102", "actual K9 ACME O-1 1 1 consumed WATER HOUSE W-101 TANK 5 102"),
    ("result ACME/B-1/TOTE1 PH -5 102", "result ACME B-1 PH M5 102"),
    # one of them, or both, are the same
    ("ship ACME K9 ACME/S-1/BAY1 5 102", "ship ACME K9 S-1 BAY1 5 102"),
    ("ship K9 ACME/S-1/BAY1 BAY1 5 102", "ship ACME K9 S-1 BAY1 5 102"),
    ("ship ACME K9 ACME/S-1/BAY1 BAY1 5 102", "ship ACME K9 S-1 BAY1 5 102"),
    ("actual K9 ACME O-1 1 1 consumed SALT ACME ACME/S-1/BAY1 BAY1 5 102", "actual K9 ACME O-1 1 1 consumed SALT ACME S-1 BAY1 5 102"),
    ("result ACME ACME/B-1/TOTE2 PH 5 102", "result ACME B-1 PH 5 102"),
    # values with names
    ("ship --key K9 --amount 5 --day 102 ACME/S-1/BAY1", "ship ACME K9 S-1 BAY1 5 102"),
    ("ship --lot ACME/S-1/BAY1 K9 5 102", "ship ACME K9 S-1 BAY1 5 102"),
    ("ship --owner ACME K9 ACME/S-1/BAY1 5 102", "ship ACME K9 S-1 BAY1 5 102"),
    ("ship --sublot BAY1 --owner ACME --lot ACME/S-1/BAY1 K9 5 102", "ship ACME K9 S-1 BAY1 5 102"),
    # a lot of HOUSE has no OWNER
    ("reject HOUSE/W-101/TANK", "reject W-101"),
]

# What is typed, and what is told of both owners, both sublots, or what isn't there; `toll` gets nothing.
REFUSED = [
    ("ship BOLT K9 ACME/S-1/BAY1 5 102", ["OWNER is BOLT", "ACME/S-1/BAY1 it is ACME"]),
    ("ship --owner BOLT K9 ACME/S-1/BAY1 5 102", ["OWNER is BOLT", "ACME/S-1/BAY1 it is ACME"]),
    ("ship --owner BOLT --lot ACME/S-1/BAY1 K9 5 102", ["OWNER is BOLT", "ACME/S-1/BAY1 it is ACME"]),
    ("ship K9 ACME/S-1/BAY1 BAY2 5 102", ["SUBLOT is BAY2", "ACME/S-1/BAY1 it is BAY1"]),
    ("actual K9 ACME O-1 1 1 consumed WATER ACME HOUSE/W-101/TANK 5 102", ["LOT-OWNER is ACME", "HOUSE/W-101/TANK it is HOUSE"]),
    ("recall BOLT ACME/B-1/TOTE1", ["OWNER is BOLT", "ACME/B-1/TOTE1 it is ACME"]),
    ("release ACME/S-1/BAY1", ["release", "lots of HOUSE", "a lot of ACME"]),
    ("reject ACME/S-1/BAY1", ["lots of HOUSE", "a lot of ACME"]),
    ("ship K9 ACME/S-1/BAY1 5", ["DAY is missing"]),
    ("ship ACME/S-1/BAY1", ["KEY, LOT, SUBLOT, AMOUNT, DAY are missing", "usage: hilpoven ship OWNER KEY LOT"]),
    ("show lot BOLT ACME/S-1/BAY1", ["OWNER is BOLT", "ACME/S-1/BAY1 it is ACME"]),
    ("papers lot BOLT ACME/S-1/BAY1 card --no-pdf", ["OWNER is BOLT", "ACME/S-1/BAY1 it is ACME"]),
    ("list lots --owner BOLT --lot ACME/S-1/BAY1", ["OWNER is BOLT", "ACME/S-1/BAY1 it is ACME"]),
    ("link ACME/B-1/TOTE1 ACME/S-1/BAY1 --why rework --of-owner HOUSE", ["OF-OWNER is HOUSE", "ACME/S-1/BAY1 it is ACME"]),
    ("use ACME O-1 1 ACME HOUSE/W-101/TANK 1 102", ["OF-OWNER is ACME", "HOUSE/W-101/TANK it is HOUSE"]),
    ("hold BOLT ACME/S-1/BAY1 --reason wet", ["OWNER is BOLT", "ACME/S-1/BAY1 it is ACME"]),
    ("sign BOLT ACME/S-1/BAY1", ["OWNER is BOLT", "ACME/S-1/BAY1 it is ACME"]),
    ("case open BOLT ACME/S-1/BAY1 --reason wet", ["OWNER is BOLT", "ACME/S-1/BAY1 it is ACME"]),
    ("case reply BOLT NORD ACME/S-1/BAY1 --back 1", ["OWNER is BOLT", "ACME/S-1/BAY1 it is ACME"]),
    ("drill start BOLT ACME/S-1/BAY1", ["OWNER is BOLT", "ACME/S-1/BAY1 it is ACME"]),
    ("describe lot BOLT ACME/S-1/BAY1 --expires 271127", ["OWNER is BOLT", "ACME/S-1/BAY1 it is ACME"]),
    ("for BOLT release ACME/S-1/BAY1 --by mail", ["OWNER is BOLT", "ACME/S-1/BAY1 it is ACME"]),
    ("for ACME release ACME/S-1 --by mail", ["LOT: `ACME/S-1` has `/`"]),
    ("labels BOLT ACME/S-1/BAY1", ["OWNER is BOLT", "ACME/S-1/BAY1 it is ACME"]),
    ("papers recall BOLT ACME/S-1/BAY1 card --no-pdf", ["OWNER is BOLT", "ACME/S-1/BAY1 it is ACME"]),
    ("papers certificate BOLT ACME/S-1/BAY1 card --no-pdf", ["OWNER is BOLT", "ACME/S-1/BAY1 it is ACME"]),
    ("years trace BOLT ACME/S-1/BAY1 back", ["OWNER is BOLT", "ACME/S-1/BAY1 it is ACME"]),
    ("years lot BOLT ACME/S-1/BAY1", ["OWNER is BOLT", "ACME/S-1/BAY1 it is ACME"]),
    ("years recall BOLT ACME/S-1/BAY1", ["OWNER is BOLT", "ACME/S-1/BAY1 it is ACME"]),
]

# What is no scanned text stays what it was: `toll`'s to refuse, or a folder.
OTHERS = [
    ("recall HOUSE W/101", 1, "LOT: `W/101` has `/`"),
    ("recall HOUSE /tmp/x", 1, "LOT: `/tmp/x` has lower-case letters and `/`"),
    ("recall HOUSE W-101/TANK/", 1, "LOT: `W-101/TANK/` has `/`"),
    ("recall A/B/C/D", 2, "LOT is missing"),
    ("stock ACME/S-1/BAY1", 1, "OWNER: `ACME/S-1/BAY1` has `/`"),
    ("ship K9 acme/S-1/BAY1 5 102", 1, "OWNER: `acme` has lower-case letters"),
    ("ship ACME K9 S-1 ACME/S-1/BAY1 5 102", 1, "SUBLOT: `ACME/S-1/BAY1` has `/`"),
    ("split K9 ACME/S-1/BAY1 ACME/S-1/BAY2 5 102", 1, "TARGET: `ACME/S-1/BAY2` has `/`"),
]

# Questions and other commands: what is typed, and what says the same without a scanner.
ALIKE = [
    ("recall ACME/S-1/BAY1", "recall ACME S-1"),
    ("trace ACME/B-1/TOTE2 back", "trace ACME B-1 back"),
    ("trace ACME ACME/B-1/TOTE2 back", "trace ACME B-1 back"),
    ("show lot HOUSE/W-101/TANK", "show lot HOUSE W-101"),
    ("describe lot HOUSE/W-101/TANK", "describe lot HOUSE W-101"),
    ("show lot --json HOUSE HOUSE/W-101/TANK", "show lot HOUSE W-101 --json"),
    ("list sublots --lot ACME/B-1/TOTE1", "list sublots --lot B-1 --owner ACME"),
    ("list moves --lot HOUSE/W-101/TANK", "list moves --lot W-101"),
    ("years recall --csv ACME/S-1/BAY1", "years recall ACME S-1 --csv"),
    ("years trace ACME/B-1/TOTE1 forward", "years trace ACME B-1 forward"),
    ("years lot ACME/B-1/TOTE1", "years lot ACME B-1"),
]


def asked(plant):
    """The words of the commands in the journal."""
    return [" ".join(entry["words"]) for entry in plant.lines() if entry["event"] == "asked"]


@pytest.mark.parametrize("typed, given", TYPED)
def test_the_program_gets_the_words_that_the_text_stands_for(at_work, typed, given):
    at_work.lay("> ACME POST /lots/B-1/reject\n> BOLT POST /lots/P-1/release" if "reject" in typed else "")
    done = at_work.run(*shlex.split(typed))
    assert asked(at_work) == [given]
    assert done.out in ("accepted\n", "refused 42 Rejected\n") and done.status == (done.out != "accepted\n"), done


def commands(group, before=""):
    """Each subcommand that is no group of others, by its words."""
    for name, command in group.commands.items():
        yield from commands(command, f"{before}{name} ") if isinstance(command, click.Group) else [(before + name, command)]


def test_every_command_that_has_a_lot_is_among_them():
    with_lot = [name for name, command in commands(hilpoven) if any(re.search(r"\bLOT\b", parameter.make_metavar()) for parameter in command.params if isinstance(parameter, click.Argument))]
    typed = [line for line, _ in [*TYPED, *ALIKE, *REFUSED]]
    assert len(with_lot) > 20 and [name for name in with_lot if not any(line.startswith(f"{name} ") for line in typed)] == []


@pytest.fixture(scope="module")
def office(laid):
    """The office at work, and its rows."""
    return laid, laid.content()


@pytest.mark.parametrize("typed, words", REFUSED)
def test_what_differs_from_the_text_is_refused(office, typed, words):
    plant, content = office
    count = len(plant.lines())
    done = plant.run(*shlex.split(typed))
    assert done.status == 2 and done.out == "" and all(word in done.err for word in words), done
    assert len(plant.lines()) == count and plant.content() == content


@pytest.mark.parametrize("typed, status, words", OTHERS)
def test_what_is_no_such_text_is_told_as_before(office, typed, status, words):
    plant, content = office
    done = plant.run(*shlex.split(typed))
    assert done.status == status and words in done.err and plant.content() == content, done


@pytest.mark.parametrize("typed, same", ALIKE)
def test_questions_take_it(office, typed, same):
    plant, _ = office
    done, wanted = (plant.run(*shlex.split(line)) for line in (typed, same))
    assert (done.status, done.out, done.err) == (0, wanted.out, wanted.err) and done.out


def test_notes_take_it(at_work):
    for words in ("link ACME/B-1/TOTE1 ACME/S-1/BAY1 --why rework", "link ACME B-1 HOUSE/W-101/TANK --why use", "link ACME --batch O-1 1 HOUSE/W-101/TANK --why use",
                  "receive K9 BRINE ACME/B-1R/BAY9 5 102 --of ACME/B-1/TOTE1 --why return", "use ACME O-1 1 HOUSE/W-101/TANK 1 102", "drill start ACME/S-1/BAY1",
                  "hold ACME/S-1/BAY1 --reason 'wet bag' --day 102"):
        done = at_work.run(*shlex.split(words))
        assert done.status == 0, (words, done)
    notes = [line.split(",")[4] for line in at_work.run("note", "list", "--csv").out.splitlines()[1:]]
    assert notes[:5] == [
        "lot ACME B-1 contains some of lot ACME S-1 (rework)",
        "lot ACME B-1 contains some of lot HOUSE W-101 (use)",
        "batch ACME O-1/1 contains some of lot HOUSE W-101 (use)",
        "lot ACME B-1R contains some of lot ACME B-1 (return)",
        "batch ACME O-1/1 contains 1 of lot HOUSE W-101 (use)",
    ] and "ACME S-1" in notes[5] and "ACME S-1" in notes[6]


def test_papers_take_it_beside_their_folder(at_work):
    for number, words in enumerate((["lot", "ACME/S-1/BAY1", "{}"], ["lot", "--no-pdf", "ACME", "ACME/S-1/BAY1", "{}"], ["recall", "HOUSE/W-101/TANK", "--", "{}"])):
        folder = at_work.folder / f"a/b/{number}"  # which has the form of one, with capitals or without
        folder.parent.mkdir(parents=True, exist_ok=True)
        options = [] if "--no-pdf" in words else ["--no-pdf"]
        done = at_work.run("papers", words[0], *options, *(word.format(folder) for word in words[1:]))
        assert done == Told(0, "", "") and folder.is_dir(), done
    assert [entry["words"] for entry in at_work.lines()] == [["papers", "lot-ACME-S-1"], ["papers", "lot-ACME-S-1"], ["papers", "recall-HOUSE-W-101"]]


def test_a_folder_of_that_form_is_a_folder(at_work):
    (at_work.folder / "A" / "B").mkdir(parents=True)
    words = [HILPOVEN, "--db", at_work.db, "papers", "lot", "ACME", "S-1", "A/B/C", "--no-pdf"]
    subprocess.run(words, cwd=at_work.folder, env=environment(TOLL=at_work.program), check=True)
    assert (at_work.folder / "A/B/C/lot.html").exists()


def test_help_shows_it(at_work):
    assert "OWNER/LOT/SUBLOT" in at_work.run("--help").out and "OWNER/LOT/SUBLOT" in at_work.run("labels", "--help").out
    for name, line in LINES.items():
        assert ("A label's text, such as" in at_work.run(name, "--help").out) == ("LOT" in line.values), name



def test_a_shell_completes_what_comes_behind_it(at_work):
    words = "hilpoven show lot BOLT ACME/S-1/BAY1 --"
    done = subprocess.run([HILPOVEN], capture_output=True, text=True, env=environment(_HILPOVEN_COMPLETE="bash_complete", COMP_WORDS=words, COMP_CWORD="5"))
    assert "plain,--json" in done.stdout and done.stderr == ""


def test_a_script_of_a_shell_takes_it(at_work):
    lines = "ship K8 ACME/S-1/BAY1 5 102\nscrap K9 ACME/S-1/BAY1 5 102\n"
    done = subprocess.run(["sh", "-c", f"while read -r words; do {HILPOVEN} --db {at_work.db} $words; done"], input=lines, capture_output=True, text=True,
                          env=environment(TOLL=at_work.program))
    assert (done.stdout, done.stderr) == ("accepted\n" * 2, "")
    assert at_work.rows("SELECT mkey, lot, sublot, amount FROM moves WHERE mkey IN ('K8', 'K9')") == [("K8", "S-1", "BAY1", 5), ("K9", "S-1", "BAY1", 5)]


SHEETS = {
    "actuals": ("key,owner,order,batch,segment,use,material,lot_owner,lot,sublot,amount,day", [
        ("K8,ACME,O-1,1,1,consumed,SALT,,ACME/S-1/BAY1,,5,102", "K8 ACME O-1 1 1 consumed SALT ACME S-1 BAY1 5 102"),
        ("K9,ACME,O-1,1,1,consumed,WATER,HOUSE,HOUSE/W-101/TANK,TANK,5,102", "K9 ACME O-1 1 1 consumed WATER HOUSE W-101 TANK 5 102")]),
    "receipts": ("owner,key,material,lot,sublot,amount,day", [(",K8,PIGMENT,BOLT/P-1/BAY2,,5,102", "BOLT K8 PIGMENT P-1 BAY2 5 102")]),
    "shipments": ("owner,key,lot,sublot,amount,day", [(",K8,ACME/S-1/BAY1,,5,102", "ACME K8 S-1 BAY1 5 102")]),
    "results": ("owner,lot,test,value,day", [(",ACME/B-1/TOTE1,PH,5,102", "ACME B-1 PH 5 102")]),
}


@pytest.mark.parametrize("kind", SHEETS)
def test_the_lots_of_a_sheet_take_it(at_work, kind):
    header, rows = SHEETS[kind]
    sheet = at_work.folder / "sheet.csv"
    sheet.write_text("\n".join([header, *(row for row, _ in rows)]))
    assert at_work.run("to-csv", "--what", kind, sheet).out.splitlines() == [header, *(wanted.replace(" ", ",") for _, wanted in rows)]
    done = at_work.run("import", "--what", kind, sheet)
    assert done.status == 0 and f"{len(rows)} accepted" in done.out, done


@pytest.mark.parametrize("row, why", [
    ("BOLT,K8,ACME/S-1/BAY1,,5,102", "row 2, column A (owner): it is BOLT, and in the scanned text ACME/S-1/BAY1 it is ACME"),
    (",K8,ACME/S-1/BAY1,BAY2,5,102", "row 2, column D (sublot): it is BAY2, and in the scanned text ACME/S-1/BAY1 it is BAY1"),
    ("ACME,K8,1/2/2026,BAY1,5,102", "row 2, column C (lot): '1/2/2026' is no name"),
    (",K8,ACME/s-1/BAY1,,5,102", "row 2, column C (lot): 's-1' has lower-case letters"),
    (",K8,S-1,,5,102", "row 2, column A (owner): it is empty")])
def test_a_row_that_differs_from_the_text_is_refused(at_work, row, why):
    sheet, content = at_work.folder / "sheet.csv", at_work.content()
    sheet.write_text(f"owner,key,lot,sublot,amount,day\n{row}\n")
    done = at_work.run("import", "--what", "shipments", sheet)
    assert done.status == 1 and why in done.err and at_work.content() == content, done
