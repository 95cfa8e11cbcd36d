"""Notes as people make them: links, uses, receipts of what was here before, and what stands of them."""
import os
import pty
import subprocess

import pytest
from conftest import HILPOVEN, Plant, environment
from hilpoven.model.register import file
from hilpoven.model.notes import Link, Why
from notes import cut_off, links, noted, register_of

RETURNED = "receive ACME K9 BRINE B-1R BAY1 40 103 --of B-1 --why return".split()
USED = "use ACME O-1 1 HOUSE W-101 TANK 5 103".split()


def test_a_link_stands_and_the_same_again_is_no_other_one(settled):
    words = ["link", "ACME", "B-1", "S-1", "--why", "rework", "--amount", 5, "--reason", "too thin"]
    name = noted(settled, *words)
    assert settled.run(*words).out == f"noted already as {name}\n"
    assert register_of(settled).links == [Link("ACME", "B-1", "", 0, "ACME", "S-1", Why.REWORK, 5, "too thin")]
    assert os.path.exists(file.path_of(str(settled.db)))


def test_a_link_of_a_batch_and_of_the_plant_s_lot(settled):
    noted(settled, "link", "ACME", "--batch", "O-1", 1, "W-101", "--of-owner", "HOUSE", "--why", "use")
    assert links(settled) == [("ACME O-1/1", "HOUSE W-101")]


@pytest.mark.parametrize("words, status, why", [
    ("ACME B-2 B-1", 1, "there is no lot B-2 of ACME\n  Nearest of the lots of ACME: B-1"),
    ("ACME B-1 B-9", 1, "there is no lot B-9 of ACME\n  Nearest of the lots of ACME: B-1"),
    ("ACNE B-1 S-1", 1, "there is no owner ACNE\n  Nearest of the owners: ACME"),
    ("ACME B-1 P-1 --of-owner BOLT", 1, "a lot of ACME contains lots of ACME and of HOUSE alone, and none of BOLT"),
    ("ACME B-1 P-1", 1, "there is no lot P-1 of ACME"),
    ("HOUSE W-101 S-1 --of-owner ACME", 1, "a lot of HOUSE contains lots of HOUSE and of HOUSE alone, and none of ACME"),
    ("ACME B-1 B-1", 1, "lot ACME B-1 isn't linked to itself"),
    ("ACME --batch O-1 1 B-1", 1, "lot ACME B-1 was made by batch O-1/1 itself"),
    ("ACME --batch O-1 7 S-1", 1, "there is no batch O-1/7 of ACME\n  The batches of O-1: 1"),
    ("ACME --batch O-9 1 S-1", 1, "there is no batch O-9/1 of ACME\n  Nearest of the orders of ACME with a batch: O-1"),
    ("ACME --batch O-1 100 S-1", 2, "BATCH: `100` is above 99"),
    ("ACME --batch O-1 1 B-1 S-1", 2, "link: OF-LOT alone stands behind OWNER with --batch"),
    ("ACME B-1", 2, "link: LOT and OF-LOT stand behind OWNER"),
])
def test_a_link_of_what_isn_t_there_is_refused(settled, words, status, why):
    lines = settled.lines()
    done = settled.run("link", *words.split(), "--why", "rework")
    assert done.status == status and done.out == "" and why in done.err, done
    assert settled.lines() == lines and not os.path.exists(file.path_of(str(settled.db)))


@pytest.mark.parametrize("text", ["a\nb", "\x1b[2J", "\u202e", "x" * 201, "\udcff", "\u0085"])
def test_a_text_that_is_no_line_is_a_wrong_use(settled, text):
    for words in (["link", "ACME", "B-1", "S-1", "--why", "use", "--reason", text], [*RETURNED, "--reason", text], [*USED, "--reason", text],
                  ["note", "withdraw", "0" * 16, "--reason", text]):
        done = settled.run(*words)
        assert done.status == 2 and text not in done.err, done
    assert settled.lines() == []


def test_a_withdrawn_note_doesn_t_stand_and_its_withdrawal_can_be_withdrawn(settled):
    first = noted(settled, "link", "ACME", "B-1", "S-1", "--why", "rework")
    second = noted(settled, "note", "withdraw", first, "--reason", "it was S-2")
    assert links(settled) == [] and "no: withdrawn: it was S-2" in settled.run("note", "list", "ACME").out
    assert settled.run("note", "withdraw", first, "--reason", "again").status == 1
    noted(settled, "note", "withdraw", second, "--reason", "it was S-1 after all")
    assert links(settled) == [("ACME B-1", "ACME S-1")]
    done = settled.run("note", "withdraw", first[:-1], "--reason", "no")
    assert done.status == 1 and f"Nearest of the notes: {first}" in done.err
    assert settled.run("note", "withdraw", first, "--reason", " ").status == 2


def test_a_use_is_a_scrap_and_a_link_in_one_line(settled):
    done = settled.run(*USED)
    assert done == (0, "accepted\n", "") and links(settled) == [("ACME O-1/1", "HOUSE W-101")]
    asked = [entry for entry in settled.lines() if entry["event"] == "asked"]
    assert len(asked) == 1 and asked[0]["words"][0] == "scrap" and asked[0]["notes"][0]["amount"] == 5
    assert settled.run(*USED).out == "repeated\n" and len(links(settled)) == 1
    assert settled.run(*USED, "--key", "MORE").out == "accepted\n"
    assert [amount for amount, in settled.rows("SELECT amount FROM moves WHERE kind = 3")] == [5, 5]


@pytest.mark.parametrize("words, status, why", [
    ("ACME O-9 1 HOUSE W-101 TANK 5 103", 1, "there is no batch O-9/1 of ACME"),
    ("ACME O-1 1 BOLT P-1 BAY2 5 103", 1, "and none of BOLT"),
    ("ACME O-1 1 HOUSE W-102 TANK 5 103", 1, "there is no lot W-102 of HOUSE"),
    ("ACME O-1 1 HOUSE W-101 TANK 5000000 103", 1, "NotEnough"),
    ("ACME O-1 1 HOUSE W-101 TANK 5,0 103", 1, "AMOUNT: `5,0`"),
])
def test_a_use_that_is_refused_leaves_no_link(settled, words, status, why):
    done = settled.run("use", *words.split())
    assert done.status == status and why in done.err and links(settled) == []
    assert settled.rows("SELECT * FROM moves WHERE kind = 3") == []


def test_a_receipt_of_what_was_here_has_its_link_in_its_line(settled):
    assert settled.run(*RETURNED, "--reason", "wet").out == "accepted\n"
    assert register_of(settled).links == [Link("ACME", "B-1R", "", 0, "ACME", "B-1", Why.RETURN, None, "wet")]
    assert settled.run(*RETURNED, "--reason", "wet").out == "repeated\n" and len(links(settled)) == 1


def test_a_note_of_a_refused_command_doesn_t_count(settled):
    settled.run("receive", "ACME", "K9", "SALT", "B-2", "BAY1", 40, 103)
    assert settled.run(*RETURNED).out == "refused 35 KeyConflict\n" and links(settled) == []
    cut_off(settled)
    assert links(settled) == [] and "no: its movement isn't there" in settled.run("note", "list").out


def test_a_note_of_a_command_whose_answer_was_cut_off_counts_if_it_was_done(settled):
    settled.run(*RETURNED)
    cut_off(settled)
    assert links(settled) == [("ACME B-1R", "ACME B-1")]


@pytest.mark.parametrize("words, why", [(["--of", "B-7", "--why", "return"], "there is no lot B-7 of ACME"), (["--of", "B-1"], "--of needs --why"), (["--why", "use"], "--why needs --of"),
                                        (["--of", "P-1", "--of-owner", "BOLT", "--why", "use"], "none of BOLT"), (["--of", "B-1R", "--why", "use"], "there is no lot B-1R")])
def test_a_receipt_with_a_wrong_link_is_asked_of_nobody(settled, words, why):
    done = settled.run(*RETURNED[:8], *words)
    assert done.status in (1, 2) and why in done.err and settled.lines() == []
    assert settled.rows("SELECT * FROM lots WHERE lot = 'B-1R'") == []


@pytest.mark.parametrize("key, lot, is_told", [("K9", "B-1R", True), ("K9", "B-1-RW", True), ("K9", "B-1-2", True), ("CORR-1", "B-7", True), ("K9", "B-12", False), ("K9", "B-7", False),
                                               ("K9", "B-1-12", False), ("K9", "Q-1R", False), ("CORRECT", "B-7", False), ("CORR-1", "B-1", False)])
def test_a_receipt_that_looks_like_a_return_is_told(settled, key, lot, is_told):
    done = settled.run("receive", "ACME", key, "BRINE", lot, "BAY1", 5, 103)
    assert ("no recall of that lot has it" in done.err) == is_told, done
    assert not is_told or f"hilpoven note not-linked ACME {key}" in done.err


def on_terminal(plant: Plant, typed: str, *words: object) -> str:
    """What a terminal shows of a command to whose questions this is typed."""
    ours, theirs = pty.openpty()
    process = subprocess.Popen([HILPOVEN, "--db", plant.db, *map(str, words)], stdin=theirs, stdout=theirs, stderr=theirs, env=environment(TOLL=plant.program))
    os.close(theirs)
    os.write(ours, typed.encode())
    text = b""
    try:
        while piece := os.read(ours, 65_536):
            text += piece
    except OSError:
        pass
    os.close(ours)
    assert process.wait() == 0, text
    return text.decode()


def test_a_terminal_is_asked(settled):
    assert "and why?" in on_terminal(settled, "return\n", "receive", "ACME", "K9", "BRINE", "B-1R", "BAY1", 5, 103)
    on_terminal(settled, "no\n", "receive", "ACME", "K10", "BRINE", "B-1-2", "BAY1", 5, 103)
    on_terminal(settled, "B-1\ncorrection\n", "receive", "ACME", "CORR-1", "BRINE", "B-8", "BAY1", 5, 103)
    register = register_of(settled)
    assert links(settled) == [("ACME B-1R", "ACME B-1"), ("ACME B-8", "ACME B-1")] and register.not_linked == {("ACME", "K10")}


def test_status_lists_receipts_at_which_a_trace_may_end(settled):
    for key, lot in (("K20", "B-20"), ("K21", "B-21"), ("K22", "B-22"), ("K23", "B-20")):
        settled.run("receive", "ACME", key, "BRINE", lot, "BAY1", 5, 103)
    settled.run("receive", "ACME", "K24", "SALT", "S-24", "BAY1", 5, 103)
    done = settled.run("status")
    assert "3 receipts of what batches make" in done.out and "K23" not in done.out and "S-24" not in done.out
    noted(settled, "link", "ACME", "B-20", "B-1", "--why", "rework")
    noted(settled, "note", "not-linked", "ACME", "K21")
    done = settled.run("status")
    assert "1 receipt of what batches make" in done.out and "B-22" in done.out
    assert settled.run("note", "not-linked", "ACME", "K3").status == 1
    assert "receipts of what" not in settled.run("status", "--prometheus").out


def test_opening_stock_is_answered_by_one_command(settled):
    for number in range(30):
        settled.toll("receive", "ACME", f"K{100 + number}", "BRINE", f"OPEN-{number}", "BAY1", 5, 101 if number < 20 else 103)
    done = settled.run("status").out
    assert "30 receipts of what batches make" in done and done.count("OPEN-") == 5 and "`hilpoven note not-linked ACME --until 103`" in done and "`hilpoven status --all` shows all" in done
    assert settled.run("status", "--all").out.count("OPEN-") == 30
    assert settled.run("note", "not-linked", "ACME", "K120", "K121", "K121", "K120").out == "2 receipts noted, 0 noted already\n"
    assert settled.run("note", "not-linked", "ACME", "--until", 101).out == "20 receipts noted, 0 noted already\n"
    assert "8 receipts of what batches make" in settled.run("status").out
    assert settled.run("note", "not-linked", "ACME", "-", stdin="K122\n\nK123\nK120\n").out == "2 receipts noted, 1 noted already\n"
    assert len(register_of(settled).not_linked) == 24
    lines = len(settled.lines())
    for words, status, why in ((("K124", "K999"), 1, "there is no receipt K999"), ((), 2, "either KEY .. or --until DAY"), (("K124", "--until", 103), 2, "either KEY .. or --until DAY"), (("--until", "x"), 2, "is no day")):
        done = settled.run("note", "not-linked", "ACME", *words)
        assert done.status == status and why in done.err and len(settled.lines()) == lines
    assert settled.run("note", "not-linked", "BOLT", "--until", 999_999).out == "0 receipts noted, 0 noted already\n"
    assert settled.run("note", "not-linked", "ACME", "--until", "9999999").out == "6 receipts noted, 0 noted already\n" and "receipts of what" not in settled.run("status").out


def test_thousands_of_receipts_are_noted_in_lines_that_can_be_withdrawn_from(settled):
    with settled.serve() as server:
        for number in range(1_200):
            assert server.tell("receive", "ACME", f"K{1000 + number}", "BRINE", f"OPEN-{number}", "BAY1", 5, 101).out == "accepted\n"
    assert settled.run("note", "not-linked", "ACME", "--until", 101).out == "1,200 receipts noted, 0 noted already\n"
    lines = [line for line in settled.lines() if line["event"] == "note"]
    assert [len(line["notes"]) for line in lines] == [1_000, 200]
    assert settled.run("note", "withdraw", f"{lines[0]['id']}.1000", "--reason", "came back").status == 0
    assert "1 receipt of what batches make" in settled.run("status").out


def test_status_tells_a_journal_that_can_t_be_read(settled):
    settled.journal.symlink_to("/dev/zero")
    done = settled.run("status")
    assert done.status == 1 and "ATTENTION: the journal" in done.out and "opens" in done.out


def test_the_journal_shows_notes_in_words_and_finds_their_lots(settled):
    settled.run(*RETURNED)
    noted(settled, "link", "ACME", "B-1", "S-1", "--why", "rework")
    text = settled.run("journal", "--no-site", "--csv").out
    assert "noted: lot ACME B-1R contains some of lot ACME B-1 (return),accepted" in text and "noted: lot ACME B-1 contains some of lot ACME S-1 (rework),noted" in text
    assert settled.run("journal", "--no-site", "--word", "B-1", "--csv").out.count("\n") == 3


def test_without_a_note_no_file_is_made_and_nothing_is_told_of_one(settled):
    settled.run("unit-add", "PRESS")
    assert settled.run("note", "list") == (0, "", "no notes\n")
    assert "register" not in settled.run("verify").out and settled.run("register", "rebuild").status == 0
    assert not os.path.exists(file.path_of(str(settled.db)))


def test_a_new_office_doesn_t_begin_with_the_notes_of_another(settled):
    noted(settled, "link", "ACME", "B-1", "S-1", "--why", "rework")
    for end in ("", "-wal"):
        os.unlink(f"{settled.db}{end}")
    done = settled.run("new", settled.db)
    assert done.status == 2 and "notes of the office that was here" in done.err and not settled.db.exists()
    settled.journal.rename(settled.folder / "kept.journal")
    assert settled.run("new", settled.db).status == 0


def test_a_restore_brings_the_notes_of_the_journal_that_stands(settled):
    settled.settle()
    noted(settled, "link", "ACME", "B-1", "S-1", "--why", "rework")
    assert settled.run("backup").status == 0 and not list((settled.folder / "backups").glob("*register*"))
    backup = next((settled.folder / "backups").glob("*.db")).name
    settled.run(*RETURNED)
    assert len(links(settled)) == 2
    assert settled.run("restore", backup).status == 0
    assert links(settled) == [("ACME B-1", "ACME S-1")] and "its movement isn't there" in settled.run("note", "list").out
    assert len(list(settled.folder.glob("office-before-restore-*/office.db.register"))) == 1
    settled.run("receive", "ACME", "K9", "BRINE", "B-1R", "BAY1", 40, 103)
    assert len(links(settled)) == 2
    settled.journal.unlink()
    assert settled.run("restore", backup).status == 0 and links(settled) == [("ACME B-1", "ACME S-1")]
    assert settled.run("verify").out.count("it is what the journal gives") == 1


def test_a_member_notes_and_names_no_path(settled):
    settled.settle()
    assert settled.as_member("link", "ACME", "B-1", "S-1", "--why", "rework").status == 0
    assert settled.as_member(*USED).out == "accepted\n" and settled.as_member(*RETURNED).out == "accepted\n"
    assert settled.as_member("note", "list", "ACME").out.count("yes") == 3
    assert settled.as_member("register", "rebuild").status == 0
    settled.folder.chmod(0o777)
    for words in (["link", "ACME", "B-1", "S-1", "--why", "use"], USED, RETURNED, ["note", "list"], ["register", "rebuild"], ["note", "not-linked", "ACME", "K1"]):
        assert "others may change what is in" in settled.as_member(*words).err
