"""Each mistake of a clerk: what is typed, and what is told. Nothing is changed by any of them."""
import resource
import shlex
import subprocess

import pytest

ACTUAL = "actual K9 ACME O-1 1 1 consumed SALT ACME S-1 BAY1"

# What is typed, the exit status, and what is told, on either stream.
MISTAKES = [
    # the command
    ("receve ACME K9 SALT S-9 BAY1 5 101", 2, ["no command receve", "did you mean receive"]),
    ("relase W-101", 2, ["did you mean release"]),
    ("stok ACME", 2, ["did you mean stock"]),
    ("Stock ACME", 2, ["no command Stock", "stock"]),
    ("STOCK ACME", 2, ["no command STOCK", "there are:"]),
    ("recieve ACME K9 SALT S-9 BAY1 5 101", 2, ["did you mean receive"]),
    ("list lot", 2, ["did you mean list lots"]),
    ("show lots ACME B-1", 2, ["did you mean show lot"]),
    ("list", 0, ["lots", "hilpoven list lots --owner ACME --open"]),
    ("owner ad ACME", 2, ["did you mean owner add"]),
    ("journal verfy", 2, ["did you mean journal verify"]),
    ("--dB office.db stock ACME", 2, ["No such option", "--db"]),
    ("--wait soon stock ACME", 2, ["--wait", "soon"]),
    ("stock ACME --db other.db", 2, ["stock has no option --db", "stand before the command"]),
    # how many values
    ("stock", 2, ["OWNER is missing", "usage: hilpoven stock OWNER", "such as: hilpoven stock ACME"]),
    ("receive ACME K9 SALT S-9 BAY1", 2, ["AMOUNT, DAY are missing", "usage: hilpoven receive OWNER KEY MATERIAL LOT SUBLOT AMOUNT DAY"]),
    ("receive ACME K9 SALT S-9 BAY1 5 101 102", 2, ["1 more than its 7 values: 102"]),
    ("release ACME W-101", 2, ["1 more than its 1 values", "usage: hilpoven release LOT"]),
    ("scrap --owner ACME --lot S-1", 2, ["KEY, SUBLOT, AMOUNT, DAY are missing"]),
    ("scrap --owner ACME --lto S-1 K9 BAY1 5 101", 2, ["scrap has no option --lto", "did you mean --lot?"]),
    ("ship ACME K9 S-1 BAY1 5 kg 101", 2, ["1 more than its 6 values: 101"]),
    ("stock A C M E", 2, ["3 more than its 1 values: C M E"]),
    # names
    ("stock acme", 1, ["refused 1 BadName", "OWNER: `acme` has lower-case letters; A-Z, 0-9 and - are allowed"]),
    ("recall HOUSE wh_2", 1, ["refused 1 BadName", "LOT: `wh_2` has lower-case letters and `_`; A-Z, 0-9 and - are allowed"]),
    ("recall HOUSE W_101", 1, ["LOT: `W_101` has `_`"]),
    ("recall HOUSE 'W 101'", 1, ["LOT: `W 101` has a blank"]),
    ("recall HOUSE W.101", 1, ["LOT: `W.101` has `.`"]),
    ("recall HOUSE W/101", 1, ["LOT: `W/101` has `/`"]),
    ("recall HOUSE 'W-101 '", 1, ["LOT: `W-101 ` has a blank"]),
    ("recall HOUSE WÄ-101", 1, ["LOT: `WÄ-101` has `Ä`"]),
    ("recall HOUSE 'W\u00a0101'", 1, ["has a hard blank"]),
    ("recall HOUSE W–101", 1, ["has `–`; A-Z, 0-9 and - are allowed"]),
    ("recall HOUSE VERY-LONG-LOT-NAME-1", 1, ["has 20 letters; a name has at most 16"]),
    ("recall HOUSE -101", 2, ["recall can't be asked so", "begins with `-`"]),
    ("recall HOUSE ''", 2, ["LOT: `` is empty"]),
    ("recall '' W-101", 2, ["OWNER: `` is empty"]),
    ("unit-add kettle", 1, ["UNIT: `kettle` has lower-case letters"]),
    ("unit-add 'KETTLE,MIXER'", 1, ["UNIT: `KETTLE,MIXER` has `,`"]),
    ("recipe-add ACME 'BRINE 10%' 1", 1, ["has a blank and `%`"]),
    ("trace ACME B-1 bak", 1, ["WAY: `bak` is none of back and forward; did you mean `back`?"]),
    ("trace ACME B-1 Forward", 1, ["did you mean `forward`?"]),
    ("do ACME O-1 1 strat", 1, ["COMMAND: `strat` is none of done, start", "did you mean `start`?"]),
    ("do ACME O-1 1 finish", 1, ["COMMAND: `finish` is none of done, start, stop, hold"]),
    ("require ACME BRINE-10 1 consume HOUSE WATER 1", 1, ["USE: `consume` is none of consumed and produced; did you mean `consumed`?"]),
    ("require ACME BRINE-10 1 OUT HOUSE WATER 1", 1, ["USE: `OUT` is none of consumed and produced"]),
    # measures and keys
    ("material-add ACME SUGAR kg/l", 1, ["MEASURE: `kg/l` has `/`; a measure has letters alone"]),
    ("material-add ACME SUGAR kilograms", 1, ["MEASURE: `kilograms` has 9 letters; a measure has 1 to 8"]),
    ("material-add ACME SUGAR m3", 1, ["MEASURE: `m3` has `3`"]),
    ("material-add ACME SUGAR help", 2, ["MEASURE: `help` is a word that `toll` takes for a call for help"]),
    ("owner-add CARL short", 1, ["KEY: the key has 5 letters; an owner's key has 8 to 32"]),
    ("owner-add CARL with_underscore", 1, ["KEY: the key has something else than letters and digits"]),
    # numbers
    ("scrap ACME K9 S-1 BAY1 0 101", 1, ["refused 2 BadAmount", "AMOUNT: `0` is below 1"]),
    ("scrap ACME K9 S-1 BAY1 5kg 101", 1, ["AMOUNT: `5kg` has `kg` behind the number; the measure is the material's"]),
    ("scrap ACME K9 S-1 BAY1 '5 kg' 101", 1, ["has `kg` behind the number"]),
    ("scrap ACME K9 S-1 BAY1 1.000 101", 1, ["AMOUNT: `1.000` has something between its thousands, or decimals, which can't be told apart"]),
    ("scrap ACME K9 S-1 BAY1 1,5 101", 1, ["AMOUNT: `1,5` has decimals"]),
    ("scrap ACME K9 S-1 BAY1 five 101", 1, ["AMOUNT: `five` has"]),
    ("scrap ACME K9 S-1 BAY1 -5 101", 2, ["AMOUNT: `-5` is negative"]),
    ("scrap ACME K9 S-1 BAY1 2000000000 101", 1, ["AMOUNT: `2000000000` is above 1,000,000,000"]),
    ("scrap ACME K9 S-1 BAY1 12345678901 101", 1, ["AMOUNT: `12345678901` has 11 digits, and 10 are read at most"]),
    ("scrap ACME K9 S-1 BAY1 5 27-11-2026", 1, ["DAY: `27-11-2026` is a date in a form that isn't read; a day is a number such as 261127 or a date such as 2026-11-27"]),
    ("scrap ACME K9 S-1 BAY1 5 27.11.2026", 1, ["DAY: `27.11.2026` is a date"]),
    ("scrap ACME K9 S-1 BAY1 5 20261127", 1, ["DAY: `20261127` is above 9,999,999"]),
    ("scrap ACME K9 S-1 BAY1 5 today", 1, ["DAY: `today` has"]),
    ("close ACME O-1 0", 1, ["BATCH: `0` is below 1"]),
    ("close ACME O-1 100", 1, ["BATCH: `100` is above 99"]),
    ("close ACME O-1 first", 1, ["BATCH: `first` has"]),
    ("recipe-add ACME R-9 51", 1, ["SEGMENTS: `51` is above 50"]),
    ("test-add ACME SALT PH 9 5", 1, ["refused 2 BadAmount", "LOW: 9 is above HIGH, 5"]),
    ("test-add ACME SALT PH M5 M9", 1, ["LOW: -5 is above HIGH, -9"]),
    ("result ACME B-1 PH 7.2 102", 1, ["VALUE: `7.2` has decimals"]),
    ("result ACME B-1 PH m5 102", 1, ["VALUE: `m5` has `m`"]),
    ("result ACME B-1 PH 2000000000 102", 1, ["VALUE: `2000000000` is above 1,000,000,000"]),
    # two at once: each is told
    ("scrap acme k9 S-1 BAY1 0 101", 1, ["OWNER: `acme`", "KEY: `k9`", "AMOUNT: `0` is below 1"]),
    # names that are not there
    ("stock ACMEE", 1, ["refused 3 UnknownOwner", "no owner of this name was added", "Nearest of the owners: ACME"]),
    ("orders BLOT", 1, ["Nearest of the owners: BOLT"]),
    ("open ACME O-1 KETLE", 1, ["refused 6 UnknownUnit", "Nearest of the units: KETTLE"]),
    ("recall HOUSE W-110", 1, ["refused 27 UnknownLot", "Nearest of the lots of HOUSE: W-101"]),
    ("recall ACME W-101", 1, ["refused 27 UnknownLot", "HOUSE has a lot W-101."]),
    ("release S-1", 1, ["refused 27 UnknownLot", "ACME has a lot S-1."]),
    ("result ACME B-1 DENSTY 1180 102", 1, ["refused 37 UnknownTest", "Nearest of the tests of B-1: DENSITY"]),
    ("scrap ACME K9 S-1 BAY2 5 101", 1, ["refused 28 UnknownSublot", "Nearest of the sublots of S-1: BAY1"]),
    ("close ACME O-2 1", 1, ["refused 18 UnknownOrder", "Nearest of the orders of ACME: O-1"]),
    ("close ACME O-1 2", 1, ["refused 22 UnknownBatch", "The batches of O-1: 1"]),
    ("receive ACME K9 SLAT S-9 BAY1 5 101", 1, ["refused 9 UnknownMaterial", "Nearest of the materials of ACME: SALT"]),
    ("order C-1 CLEANING 1", 1, ["refused 13 UnknownRecipe", "There are no recipes of HOUSE."]),
    ("void ACME K44", 1, ["refused 40 UnknownKey", "Nearest of the actuals of ACME: K4"]),
    ("show lot ACME B-2", 1, ["there is no lot ACME B-2", "Nearest of the lots: B-1"]),
    ("show unit PRESS", 1, ["there is no unit PRESS", "The units: KETTLE, MIXER"]),
    ("show batch ACME O-1 9", 1, ["there is no batch ACME O-1 9", "The batches: 1"]),
    # what can't be done
    ("receive ACME K1 SALT S-1 BAY1 600 101", 1, ["refused 35 KeyConflict", "hilpoven list moves --owner ACME --key K1"]),
    (f"{ACTUAL} 9999 101", 1, ["refused 33 NotEnough", "the sublot holds less than the amount"]),
    ("ship ACME K9 B-1 TOTE1 5 102", 1, ["refused 31 NotReleased", "what is missing for its release"]),
    ("open ACME O-1 KETTLE", 1, ["refused 7 UnitBusy", "`hilpoven show unit KETTLE` tells which batch holds it"]),
    ("close ACME O-1 1", 1, ["refused 23 BadState", "`hilpoven batch ACME O-1 1` tells its state", "O-1/1 of ACME is running; what can be done now: hold, pause, stop, abort, done."]),
    ("do ACME O-1 1 reset", 1, ["refused 23 BadState", "O-1/1 of ACME is running; what can be done now: hold, pause, stop, abort, done."]),
    ("do ACME O-1 01 resume", 1, ["refused", "01"]),
    # what only an owner can do
    ("reject S-1", 1, ["refused 27 UnknownLot", "Only ACME can reject it: `hilpoven for ACME reject S-1 --by TEXT`"]),
    ("release P-1", 1, ["refused 27 UnknownLot", "BOLT has a lot P-1. Only BOLT can release it: `hilpoven for BOLT release P-1 --by TEXT`"]),
    ("cancel O-1", 1, ["refused 18 UnknownOrder", "ACME has an order O-1. Only ACME can cancel it: `hilpoven for ACME cancel O-1 --by TEXT`"]),
    ("order O-5 BRINE-10 2", 1, ["refused 13 UnknownRecipe", "ACME has a recipe BRINE-10. Only ACME can order by it: `hilpoven for ACME order O-5 BRINE-10 2 --by TEXT`"]),
    ("split ACME K9 S-1 BAY1 BAY1 5 101", 1, ["refused 34 SameSublot", "TARGET is the sublot to which the amount goes"]),
    ("void ACME K1", 1, ["refused 40 UnknownKey", "Only an actual is taken back"]),
    # sheets and files
    ("import absent.csv", 2, ["there is no file absent.csv"]),
    ("import --what actual sheet.csv", 2, ["--what", "actuals"]),
    ("import --digits lots sheet.csv", 2, ["there is no file sheet.csv"]),
    ("import /tmp", 2, ["/tmp is no file"]),
    ("to-csv /tmp", 2, ["/tmp is no file"]),
    ("new {db}", 2, ["is there already"]),
    ("backup absent", 2, ["absent is no folder"]),
    ("backup", 2, ["no folder is named"]),
    ("restore absent.db", 2, ["absent.db is no file"]),
    ("journal --since yesterday", 2, ["'yesterday' is no time", "such as 2026-11-27"]),
]


def test_there_are_enough_of_them():
    assert len(MISTAKES) >= 80 and len({mistake[0] for mistake in MISTAKES}) == len(MISTAKES)


@pytest.fixture(scope="module")
def office(laid):
    """The office at work, and its rows."""
    return laid, laid.content()


@pytest.mark.parametrize("typed, status, texts", MISTAKES, ids=[mistake[0] for mistake in MISTAKES])
def test_a_mistake_is_told(office, typed, status, texts):
    plant, before = office
    done = plant.run(*shlex.split(typed.replace("{db}", str(plant.db))))
    text = done.out + done.err
    assert done.status == status, text
    for part in texts:
        assert part in text, text
    assert "Traceback" not in text
    assert plant.content() == before


def test_a_negative_value_is_given_with_an_m_and_that_is_told(at_work):
    done = at_work.run("result", "ACME", "B-1", "PH", "-5", "102")
    assert (done.status, done.out) == (0, "accepted\n") and "VALUE: -5 is given as M5" in done.err
    assert at_work.rows("SELECT value FROM results WHERE test = 'PH'") == [(-5,)]


@pytest.mark.parametrize("words", [("--value", "-5"), ("--value=-5",)])
def test_values_stand_behind_their_names_too(at_work, words):
    done = at_work.run("result", "--owner", "ACME", *words, "--lot", "B-1", "PH", "102")
    assert (done.status, done.out) == (0, "accepted\n")
    assert at_work.rows("SELECT test, value, day FROM results WHERE test = 'PH'") == [("PH", -5, 102)]


def test_a_file_that_is_not_there_is_no_new_office(at_work):
    done = at_work.run("unit-add", "PRESS", db=at_work.folder / "ofice.db")
    assert done.status == 2 and "there is no file" in done.err and f"did you mean {at_work.db}?" in done.err and "hilpoven new" in done.err
    assert not (at_work.folder / "ofice.db").exists()


def test_an_empty_file_and_a_folder_are_no_office(at_work):
    (at_work.folder / "empty.db").write_text("")
    assert "is empty" in at_work.run("stock", "ACME", db=at_work.folder / "empty.db").err
    assert (at_work.folder / "empty.db").stat().st_size == 0
    assert "is no file" in at_work.run("stock", "ACME", db=at_work.folder).err


def test_a_file_whose_log_stands_alone_is_told(at_work):
    (at_work.folder / "moved.db-wal").write_text("rows")
    done = at_work.run("stock", "ACME", db=at_work.folder / "moved.db")
    assert done.status == 2 and "it was moved away" in done.err


def test_another_database_is_told(at_work):
    import sqlite3

    with sqlite3.connect(at_work.folder / "other.db") as base:
        base.execute("CREATE TABLE t (a)")
    done = at_work.run("stock", "ACME", db=at_work.folder / "other.db")
    assert done.status == 3 and "fault NotOurs" in done.err and "the file is no office" in done.err
    done = at_work.run("list", "lots", db=at_work.folder / "other.db")
    assert done.status == 3 and "is no office" in done.err


def test_an_answer_that_cannot_be_written_is_a_fault(at_work):
    from conftest import HILPOVEN, environment
    for words in (["stock", "ACME"], ["list", "lots"], ["receive", "ACME", "K9", "SALT", "S-9", "BAY1", "5", "101"]):
        with open("/dev/full", "w") as full:
            done = subprocess.run([HILPOVEN, "--db", at_work.db, *words], stdout=full, stderr=subprocess.PIPE, text=True, env=environment(TOLL=at_work.program))
        assert done.returncode == 3 and done.stderr == "hilpoven: standard output: No space left on device\n", words
    assert at_work.lines()[-1]["answer"] == "accepted\n"


@pytest.mark.parametrize("stream", ["2> /dev/full", ">&- 2>&-", "<&- >&- 2>&-"])
@pytest.mark.parametrize("words", ["unit-add bad_", "list nothing", "unit-add PRESS"])
def test_an_explanation_that_cannot_be_written_is_a_fault(at_work, words, stream):
    """An answer that is written whole has its own status."""
    from conftest import HILPOVEN, environment
    env = environment(TOLL=at_work.program)
    line = f"{HILPOVEN} --db {at_work.db} {words} {stream}"
    done = subprocess.run(["sh", "-c", line], capture_output=True, text=True, env=env)
    is_written = (words, stream) == ("unit-add PRESS", "2> /dev/full")
    assert (done.returncode, done.stdout) == ((0, "accepted\n") if is_written else (3, done.stdout))
    assert (at_work.rows("SELECT * FROM units WHERE unit = 'PRESS'") != []) == ("PRESS" in words)


def test_an_endless_standard_input_is_no_key(at_work):
    from conftest import command, environment
    with open("/dev/zero") as endless:
        done = command("--db", at_work.db, "owner", "key", "ACME", stdin=endless, env=environment(TOLL=at_work.program),
                       preexec_fn=lambda: resource.setrlimit(resource.RLIMIT_AS, (500_000_000, 500_000_000)))
    assert done.returncode == 2 and "the key has something else than letters and digits" in done.stderr
    assert at_work.rows("SELECT okey FROM owners WHERE owner = 'ACME'") == [("ACMEKEY1",)]


def test_tables_that_cannot_be_read_are_told(at_work):
    from conftest import HILPOVEN, environment
    page = at_work.rows("SELECT rootpage FROM sqlite_master WHERE name = 'lots'")[0][0]
    with open(at_work.db, "r+b") as file:
        file.seek((page - 1) * 4096)
        file.write(b"\xff" * 4096)
    done = subprocess.run([HILPOVEN, "--db", at_work.db, "list", "lots"], capture_output=True, text=True, env=environment(TOLL=at_work.program))
    assert done.returncode == 3 and "the tables can't be read" in done.stderr and "Traceback" not in done.stderr


def test_no_file_is_named(program, tmp_path):
    from click.testing import CliRunner
    from hilpoven.cli import hilpoven

    done = CliRunner(mix_stderr=False).invoke(hilpoven, ["stock", "ACME"])
    assert done.exit_code == 2 and "no file is named" in done.stderr and "--db FILE" in done.stderr


@pytest.mark.parametrize("settings, offices, db, file", [
    ("", ["acme"], "", "/var/lib/toll/acme/office.db"), ("", ["acme", "bolt"], "", ""), ("", [], "", ""), ("", ["acme"], "other.db", ""),
    ('file = "mine.db"', ["acme"], "", "mine.db"), ('office = "bolt"', ["acme", "bolt"], "", "/var/lib/toll/bolt/office.db")])
def test_the_only_office_needs_no_setting(tmp_path, monkeypatch, settings, offices, db, file):
    from hilpoven.core import settings as site
    monkeypatch.setattr(site, "OFFICES", tmp_path)
    (tmp_path / "hilpoven.toml").write_text(settings)
    for name in offices:
        (tmp_path / f"{name}.env").write_text("PORT=801\n")
    loaded = site.load(tmp_path / "hilpoven.toml", db=db)
    assert loaded.file.removeprefix(f"{tmp_path}/") == file and (loaded.port, loaded.keep) == ((801, 48) if file.startswith("/") else (0, 30))
