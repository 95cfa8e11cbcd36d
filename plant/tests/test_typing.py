"""What a clerk's hand types at a terminal of 80 columns: lines that are asked value by value, keys and days that fill themselves in, names
in lower case, and what Tab completes."""
import fcntl
import os
import pty
import re
import select
import signal
import struct
import subprocess
import termios
from collections.abc import Callable
from concurrent.futures import ThreadPoolExecutor

import pytest
from conftest import HILPOVEN, PATIENCE, ZONE, Plant, command, copied, environment, forked, script
from hilpoven.cli.terminal import prompt_of
from hilpoven.core import settings as site
from hilpoven.cli.caller import person
from hilpoven.core.context import Context
from hilpoven.core.grammar import LINES
from hilpoven.record.dialogue import Dialogue

END, INTERRUPT, TAB = "\x04", "\x03", "\t"  # what Ctrl-D, Ctrl-C and Tab type
PASTE = re.compile(r"\x1b\[\?2004[hl]\r?")  # by which a terminal is told that it may paste
SAID_NO = "hilpoven: nothing is done"


class Terminal:
    """The plant's command at a terminal of 80 columns."""

    def __init__(self, plant: Plant, *words: object, env: dict[str, str] = {}, **streams: object) -> None:
        self.screen, theirs = pty.openpty()
        fcntl.ioctl(theirs, termios.TIOCSWINSZ, struct.pack("HHHH", 24, 80, 0, 0))
        child = forked("--db", plant.db, *words, **{"TOLL": plant.program, "TERM": "xterm", **env})

        def started() -> None:
            fcntl.ioctl(theirs, termios.TIOCSCTTY, 0)
            child()

        self.process = subprocess.Popen([HILPOVEN], **{"stdin": theirs, "stdout": theirs, "stderr": theirs, **streams}, start_new_session=True, preexec_fn=started)
        os.close(theirs)
        self.text, self.seen = "", 0

    def read(self) -> bool:
        """Reads what comes next; whether there was something."""
        assert select.select([self.screen], [], [], PATIENCE)[0], self.text
        try:
            piece = os.read(self.screen, 65_536)
        except OSError:
            return False
        self.text = PASTE.sub("", self.text + piece.decode().replace("\r\n", "\n"))
        return bool(piece)

    def shows(self, text: str) -> None:
        """Waits until this is shown, behind what was waited for before."""
        while (place := self.text.find(text, self.seen)) < 0:
            assert self.read(), f"{text!r} isn't shown: {self.text}"
        self.seen = place + len(text)

    def answer(self, prompt: str, typed: str) -> None:
        """Types behind a prompt, once it is shown."""
        self.shows(prompt)
        if typed == INTERRUPT:
            self.stop(lambda: os.write(self.screen, INTERRUPT.encode()))
        else:
            os.write(self.screen, (typed if typed == END else f"{typed}\n").encode())

    def stop(self, again: Callable[[], object]) -> None:
        """Stops it at a prompt. A signal that comes before the prompt waits for a key is seen at the next one, so it is sent again."""
        shown = len(self.text)
        while True:
            again()
            while select.select([self.screen], [], [], 0.2)[0]:
                if not self.read() or SAID_NO in self.text[shown:]:
                    return

    def end(self) -> tuple[int, str]:
        """The status, and all that was shown."""
        while self.read():
            pass
        os.close(self.screen)
        return self.process.wait(), self.text


Step = str | tuple[str, str]  # what is shown, or a prompt with what is typed behind it


def typed(plant: Plant, line: str, steps: list[Step] = [], **options: object) -> tuple[int, str]:
    """The status and the text of a line to whose prompts this is typed."""
    terminal = Terminal(plant, *line.split(), **options)
    for step in steps:
        terminal.shows(step) if isinstance(step, str) else terminal.answer(*step)
    return terminal.end()


def asked_of(plant: Plant) -> list[str]:
    """The commands in the journal."""
    return [" ".join(entry["words"]) for entry in plant.lines() if entry["event"] == "asked"]


def day_in(zone: str) -> str:
    """Today in a time zone, as the system has it."""
    return subprocess.run(["date", "+%y%m%d"], env={"TZ": zone}, capture_output=True, text=True).stdout.strip()


# A line value by value

ACTUAL: list[Step] = [("OWNER: ", "1"), ("ORDER [O-1]: ", ""), ("BATCH [1]: ", ""), ("SEGMENT: ", "1"), ("USE [consumed]: ", ""), ("MATERIAL: ", "2"),
                      ("LOT-OWNER [HOUSE]: ", ""), ("LOT [W-101]: ", ""), ("SUBLOT [TANK]: ", ""), ("AMOUNT (1 to 9,300, which TANK holds): ", "40"),
                      ("DAY (0 to 9,999,999): ", "103"), ("[next]: ", "")]
CONFIRM = "Enter gives it, n drops it, the name of a value asks it again: "


def test_a_line_is_asked_value_by_value_and_shown_before_it_is_given(at_work):
    status, text = typed(at_work, "actual", [*ACTUAL, (CONFIRM, "")])
    assert status == 0 and text.endswith("  KEY: next is K7\naccepted\n"), text
    assert "hilpoven actual next ACME O-1 1 1 consumed WATER HOUSE W-101 TANK 40 103\n" in text
    assert "  1  ACME\n  2  BOLT\n  3  HOUSE\n" in text and "  1  SALT\n  2  WATER\n" in text
    assert asked_of(at_work) == ["actual K7 ACME O-1 1 1 consumed WATER HOUSE W-101 TANK 40 103"]
    assert at_work.rows("SELECT amount FROM moves WHERE mkey = 'K7'") == [(40,)] and max(map(len, text.splitlines())) <= 80


def test_values_that_are_given_are_not_asked(at_work):
    status, text = typed(at_work, "ship --key K9 HOUSE W-101", [("SUBLOT [TANK]: ", ""), ("holds): ", "5"), ("DAY (", "103"), (CONFIRM, "")])
    assert status == 0 and "OWNER" not in text and "KEY" not in text
    assert asked_of(at_work) == ["ship HOUSE K9 W-101 TANK 5 103"]


def test_each_value_is_checked_at_once_and_asked_again(at_work):
    status, text = typed(at_work, "scrap ACNE", [
        "OWNER: `ACNE` isn't there. Nearest of the owners: ACME.", ("OWNER: ", ""), "OWNER: is empty", ("OWNER: ", "acme"), "OWNER: acme is read as ACME",
        ("LOT: ", "S-2"), "LOT: `S-2` isn't there. Nearest of the lots of ACME: S-1.", ("LOT: ", "S_1"), "LOT: `S_1` has `_`", ("LOT: ", "2"), ("SUBLOT [BAY1]: ", ""),
        ("holds): ", "4701"), "AMOUNT: `4701` is more than BAY1 holds: 4,700", ("holds): ", "1,5"), "AMOUNT: `1,5` has decimals", ("holds): ", "5"),
        ("DAY (0 to 9,999,999): ", "today"), "DAY: `today` has", ("DAY (", "103"), ("[next]: ", "K 9"), "KEY: `K 9` has a blank", ("[next]: ", "k9"), (CONFIRM, "")])
    assert status == 0 and "KEY: k9 is read as K9" in text and asked_of(at_work) == ["scrap ACME K9 S-1 BAY1 5 103"]


@pytest.mark.parametrize("line, prompt, existing, new", [("unit-add", "UNIT (", "kettle", "PRESS"), ("material-add ACME", "MATERIAL (", "SALT", "SUGAR"),
                                                         ("scrap ACME --lot S-1 --sublot BAY1 --amount 5 --day 103", "[next]: ", "K4", "K9")])
def test_a_new_name_is_not_there_yet(at_work, line, prompt, existing, new):
    measure: list[Step] = [("MEASURE (1 to 8 letters): ", "kg")] if "material" in line else []
    status, text = typed(at_work, line, [(prompt, existing), f"`{existing.upper()}` is there already", (prompt, new), *measure, (CONFIRM, "")])
    assert status == 0 and new in asked_of(at_work)[0]


def test_what_came_meanwhile_is_there(at_work):
    terminal = Terminal(at_work, "scrap", "ACME")
    terminal.shows("LOT: ")
    assert at_work.toll("receive", "ACME", "K20", "SALT", "S-20", "BAY7", 5, 101).status == 0
    os.write(terminal.screen, b"S-20\n")
    terminal.answer("SUBLOT [BAY7]: ", INTERRUPT)
    assert terminal.end()[0] == 130


def test_a_value_is_asked_again_by_its_name(at_work):
    assert at_work.toll("receive", "HOUSE", "K2", "WATER", "W-102", "TANK", 5, 101).status == 0
    status, text = typed(at_work, "reject", [("LOT: ", "2"), "hilpoven reject W-102\n", (CONFIRM, "what"), (CONFIRM, "lot"), ("LOT: ", "1"), "hilpoven reject W-101\n", (CONFIRM, "n")])
    assert (status, text.splitlines()[-1]) == (1, SAID_NO) and at_work.lines() == []


@pytest.mark.parametrize("steps, status", [([("OWNER: ", INTERRUPT)], 130), ([("OWNER: ", END)], 1), ([("OWNER: ", "1"), ("ORDER [O-1]: ", INTERRUPT)], 130),
                                           ([*ACTUAL, (CONFIRM, INTERRUPT)], 130), ([*ACTUAL, (CONFIRM, END)], 1), ([*ACTUAL, (CONFIRM, "n")], 1)])
def test_nothing_is_done_if_somebody_goes_or_says_no(at_work, steps, status):
    before = at_work.content()
    ended = typed(at_work, "actual", steps)
    assert (ended[0], ended[1].splitlines()[-1]) == (status, SAID_NO)
    assert at_work.content() == before and at_work.lines() == [] and not list(at_work.folder.glob(".hilpoven.*"))


def test_a_signal_from_elsewhere_does_nothing_either(at_work):
    terminal = Terminal(at_work, "ship")
    terminal.shows("OWNER: ")
    terminal.stop(lambda: os.kill(terminal.process.pid, signal.SIGTERM))
    status, text = terminal.end()
    assert status == 128 + signal.SIGTERM and SAID_NO in text and at_work.lines() == []


@pytest.mark.parametrize("stream", ["stdin", "stderr"])
def test_without_a_terminal_it_is_the_usage(at_work, stream):
    with open(at_work.folder / "told", "w+") as file:
        status, text = typed(at_work, "ship ACME", **{stream: file})
        file.seek(0)
        text += file.read()
    assert status == 2 and "ship: KEY, LOT, SUBLOT, AMOUNT, DAY are missing\n  usage: hilpoven ship OWNER KEY" in text


def test_a_key_of_an_owner_is_not_asked(at_work):
    status, text = typed(at_work, "owner-add CARL")
    assert status == 2 and "owner-add: KEY is missing" in text


def test_answers_that_go_elsewhere_leave_the_questions_on_the_terminal(at_work):
    with open(at_work.folder / "told", "w+") as file:
        status, text = typed(at_work, "stock", [("OWNER: ", "2")], stdout=file)
        file.seek(0)
        assert (status, file.read()) == (0, at_work.toll("stock", "BOLT").out) and text.endswith("hilpoven stock BOLT\n")


def test_a_new_name_is_no_number_of_a_choice(at_work):
    steps: list[Step] = [("MATERIAL: ", "2"), ("LOT (", "1"), "LOT: 1 is new\n", ("SUBLOT (", "BAY3"), "SUBLOT: BAY3 is new\n", ("AMOUNT (1 to 1,000,000,000): ", "5"), ("DAY (", "103"), ("[next]: ", "K9"), (CONFIRM, "")]
    assert at_work.toll("receive", "ACME", "K20", "SALT", "S-20", "BAY7", 5, 101).status == 0
    status, text = typed(at_work, "receive ACME", steps)
    assert status == 0 and "     S-20  SALT, quarantined, 5 kg\n" in text
    assert asked_of(at_work) == ["receive ACME K9 SALT 1 BAY3 5 103"]


def test_a_name_that_is_there_is_not_new(at_work):
    steps: list[Step] = [("LOT (", "s-20"), ("SUBLOT (", f"ta{TAB}"), ("AMOUNT (1 to 1,000,000,000): ", "5"), ("DAY (", "103"), ("[next]: ", ""), (CONFIRM, "")]
    assert at_work.toll("receive", "ACME", "K20", "SALT", "S-20", "BAY7", 5, 101).status == 0
    status, text = typed(at_work, "receive --owner ACME --material SALT", steps)
    assert at_work.rows("SELECT sublot FROM moves WHERE mkey = 'K21'") == [("TANK",)]  # which is HOUSE's
    assert status == 0 and "is new" not in text and "     S-20  SALT, quarantined, 5 kg\n" in text and "     BAY7  5 kg\n" in text


def test_names_that_are_numbers_are_typed(at_work):
    for number, name in enumerate((5, 2, 1), 20):
        assert at_work.toll("receive", "BOLT", f"K{number}", "PIGMENT", name, "BAY1", 5, 101).status == 0
    status, text = typed(at_work, "scrap BOLT", [("LOT: ", "2"), ("SUBLOT [BAY1]: ", ""), ("holds): ", "5"), ("DAY (", "103"), ("[next]: ", "K9"), (CONFIRM, "")])
    assert status == 0 and asked_of(at_work) == ["scrap BOLT K9 2 BAY1 5 103"]


def test_tab_completes_a_name(at_work):
    assert typed(at_work, "split ACME", [("LOT: ", f"s{TAB}"), ("SUBLOT [BAY1]: ", END)])[0] == 1
    assert typed(at_work, "trace ACME S-1", [("WAY: ", f"f{TAB}")])[1].endswith(at_work.toll("trace", "ACME", "S-1", "forward").out)


def test_settings_of_the_terminal_s_library_come_from_nobody(at_work):
    rules = at_work.folder / ".inputrc"
    rules.write_text('"b": "HOUSE"\nno line of settings\n')
    for name, path in (("INPUTRC", rules), ("HOME", at_work.folder)):
        status, text = typed(at_work, "stock", [("OWNER: ", "bolt")], env={name: str(path)})
        assert status == 0 and "OWNER: bolt is read as BOLT" in text and "inputrc" not in text


def test_limits_of_a_test_are_shown_and_a_value_below_zero_is_read(at_work):
    status, text = typed(at_work, "result ACME B-1", [("TEST: ", "2"), ("VALUE (limits -5 to 9): ", "-3"), ("DAY (", "103"), (CONFIRM, "value"), ("): ", "-6"), "VALUE: -6 is out of the limits", (CONFIRM, "value"),
                                                        ("): ", "-3"), (CONFIRM, "")])
    assert status == 0 and "VALUE: -3 is given as M3" in text and asked_of(at_work) == ["result ACME B-1 PH M3 103"]


def test_values_are_shown_and_taken_as_they_are_measured(at_work):
    assert at_work.run("describe", "test", "ACME", "BRINE", "DENSITY", "--decimals", "3", "--unit", "kg/l", "--results-too").status == 0
    status, text = typed(at_work, "result ACME B-1", ["DENSITY  limits 1.100 to 1.250", ("TEST: ", "1"), ("VALUE (limits 1.100 to 1.250): ", "1.18045"), "has 5 decimals",
                                                        ("1.250): ", "1180"), "VALUE: 1180 is out of the limits", ("DAY (", "103"), (CONFIRM, "value"), ("1.250): ", "1.18"),
                                                        (CONFIRM, "")])
    assert status == 0 and at_work.rows("SELECT value FROM results WHERE day = 103") == [(1180,)], text


def test_a_question_is_shown_and_not_confirmed(at_work):
    status, text = typed(at_work, "trace", [("OWNER: ", "1"), ("LOT: ", "1"), ("WAY: ", "1")])
    assert status == 0 and text.endswith("hilpoven trace ACME B-1 back\n" + at_work.toll("trace", "ACME", "B-1", "back").out)


def test_values_are_asked_by_their_forms_where_the_tables_cannot_be_read(at_work):
    with open(f"{at_work.db}.lock", "w") as held:
        fcntl.flock(held, fcntl.LOCK_EX)
        terminal = Terminal(at_work, "--wait", "0", "close")
        for prompt, answer in (("OWNER (1 to 16 of A-Z", "ACNE"), ("ORDER (1 to 16 of A-Z", "O-1"), ("BATCH (1 to 99): ", "100"), ("BATCH (1 to 99): ", "1"), (CONFIRM, "")):
            terminal.answer(prompt, answer)
        status, text = terminal.end()
    assert status == 3 and "BATCH: `100` is above 99" in text and "fault Locked" in text


def test_no_prompt_is_wider_than_the_terminal(at_work):
    class NoTables:
        base = None

    for line in LINES.values():
        dialogue = Dialogue(Context(site.Settings(), person=person()), line, NoTables())
        assert all(len(prompt_of(dialogue.asked(value))) <= 79 for value in line.values)


# Values as they were measured

MEASURES = ("describe", "test", "ACME", "BRINE", "PH", "--decimals", 2)  # its limits are -5 and 9, which are -0.05 and 0.09


def test_a_value_is_asked_as_it_was_measured(at_work):
    assert at_work.run(*MEASURES).status == 0
    status, text = typed(at_work, "result ACME B-1", [
        "  1  DENSITY  limits 1,100 to 1,250\n  2  PH       limits -0.05 to 0.09\n", ("TEST: ", "2"), ("VALUE (limits -0.05 to 0.09): ", "0,07"),
        "VALUE: `0,07` has a comma; decimals stand behind a point, such as 7.02\n", ("): ", "0.071"), "VALUE: `0.071` has 3 decimals, and the test has 2\n",
        ("): ", "7.02"), "VALUE: 7.02 is out of the limits\n", ("DAY (", "103"), "hilpoven result ACME B-1 PH 7.02 103\n", (CONFIRM, "")])
    assert status == 0 and text.endswith("  VALUE: 7.02 is given as 702\naccepted\n") and asked_of(at_work)[-1] == "result ACME B-1 PH 702 103"


def test_a_bound_is_asked_for_and_shown_in_quotes(at_work):
    status, text = typed(at_work, "result ACME B-1 DENSITY", [
        ("VALUE (limits 1,100 to 1,250): ", "<"), "VALUE: `<` is empty; ", ("): ", "<1200"), "what is below 1,200 may be outside\n", ("): ", "<7.5"), "VALUE: `<7.5` has decimals",
        ("): ", "<900"), "VALUE: <900 is out of the limits\n", ("DAY (", "103"), "hilpoven result ACME B-1 DENSITY '<900' 103\n", (CONFIRM, "")])
    assert status == 0 and asked_of(at_work) == ["result ACME B-1 DENSITY 900 103"]
    assert [entry["notes"][0]["bound"] for entry in at_work.lines() if "notes" in entry] == ["below"]
    status, text = typed(at_work, "result ACME B-1 DENSITY 900", [("DAY (", "103"), "DAY: lot ACME B-1 has the result <900 of DENSITY on day 103: 900 couldn't be told from it\n", ("DAY (", "104"), (CONFIRM, "")])
    assert status == 0 and at_work.rows("SELECT value, day FROM results WHERE test = 'DENSITY' AND value = 900") == [(900, 103), (900, 104)]


def test_a_value_is_asked_again_where_another_test_has_other_decimals(at_work):
    assert at_work.run(*MEASURES).status == 0
    status, text = typed(at_work, "result ACME B-1 PH 0.07", [("DAY (", "103"), (CONFIRM, "test"), ("TEST: ", "1"), "VALUE: `0.07` has decimals", ("VALUE (limits 1,100 to 1,250): ", "1180"), (CONFIRM, "")])
    assert status == 0 and text.count("DAY (") == 1 and asked_of(at_work)[-1] == "result ACME B-1 DENSITY 1180 103"


def test_limits_with_decimals_are_asked_as_they_are_measured(at_work):
    at_work.lay("material-add ACME SUGAR kg")
    status, text = typed(at_work, "test-add ACME SUGAR PH --decimals 2", [
        ("LOW (-10,000,000.00 to 10,000,000.00): ", "6.505"), "LOW: `6.505` has 3 decimals, and the test has 2\n", ("LOW (", "-0.5"), ("HIGH (-10,000,000.00 to 10,000,000.00): ", "8.50"), (CONFIRM, "")])
    assert status == 0 and "LOW: -0.5 is given as M50\n" in text and at_work.rows("SELECT low, high FROM tests WHERE material = 'SUGAR'") == [(-50, 850)]
    status, text = typed(at_work, "test-add ACME SUGAR X", [("LOW (-1,000,000,000 to 1,000,000,000): ", "6.50"), "LOW: `6.50` has decimals", ("LOW (", END)])
    assert status == 1


def test_the_test_by_which_the_plant_signs_is_neither_offered_nor_taken(at_work):
    at_work.lay("material-add ACME PASTE kg\ntest-add ACME PASTE PH M5 9\ntest-add ACME PASTE QA 1 1\nreceive ACME K20 PASTE P-1 BAY1 5 101")
    at_work.settle()
    path = site.load.__defaults__[0]
    path.write_text(path.read_text() + '[quality]\ntest = "QA"\n')
    env = {"HILPOVEN_SETTINGS": str(path)}
    status, text = typed(at_work, "result ACME P-1", [("TEST [PH]: ", "qa"), "TEST: QA is the test by which the plant signs and holds", ("TEST [PH]: ", ""), ("): ", "5"), ("DAY (", "103"), (CONFIRM, "")], env=env)
    assert status == 0 and asked_of(at_work) == ["result ACME P-1 PH 5 103"]


# A label's text

SHIPPED: list[Step] = [("holds): ", "5"), ("DAY (", "103"), ("[next]: ", ""), "hilpoven ship ACME next S-1 BAY1 5 103\n", (CONFIRM, "")]


@pytest.mark.parametrize("line, first", [("ship", ("OWNER: ", "ACME/S-1/BAY1")), ("ship ACME", ("LOT [S-1]: ", "ACME/S-1/BAY1")), ("ship --lot s-1 --sublot bay1", ("OWNER: ", "ACME/S-1/BAY1"))])
def test_a_label_fills_what_it_says(at_work, line, first):
    status, text = typed(at_work, line, [first, *SHIPPED])
    assert status == 0 and "SUBLOT [" not in text and asked_of(at_work) == ["ship ACME K7 S-1 BAY1 5 103"]


def test_a_label_that_differs_is_refused_and_asked_again(at_work):
    status, text = typed(at_work, "ship ACME", [
        ("LOT [S-1]: ", "BOLT/P-1/BAY2"), "ship: OWNER is ACME, and in the scanned text BOLT/P-1/BAY2 it is BOLT\n", ("LOT [S-1]: ", "ACME/S-2/BAY1"), "LOT: `S-2` isn't there.",
        ("LOT [S-1]: ", "ACME/S-1/BAY9"), "SUBLOT: `BAY9` isn't there.", ("LOT [S-1]: ", "ACME/S-1/BAY1"), *SHIPPED])
    assert status == 0 and asked_of(at_work) == ["ship ACME K7 S-1 BAY1 5 103"]
    status, text = typed(at_work, "ship ACME --sublot BAY2", [("LOT [S-1]: ", "ACME/S-1/BAY1"), "ship: SUBLOT is BAY2, and in the scanned text ACME/S-1/BAY1 it is BAY1\n", ("LOT [S-1]: ", END)])
    assert status == 1
    status, text = typed(at_work, "ship --lot B-1", [("OWNER: ", "ACME/S-1/BAY1"), "ship: LOT is B-1, and in the scanned text ACME/S-1/BAY1 it is S-1\n", ("OWNER: ", END)])
    assert status == 1


def test_another_label_takes_the_place_of_the_first(at_work):
    assert at_work.toll("receive", "HOUSE", "K2", "WATER", "W-102", "TANK2", 5, 101).status == 0
    status, text = typed(at_work, "scrap", [("OWNER: ", "HOUSE/W-101/TANK"), ("AMOUNT (1 to 9,300, which TANK holds): ", "7"), ("DAY (", "103"), ("[next]: ", ""), (CONFIRM, "lot"), ("LOT: ", "HOUSE/W-102/TANK2"),
                                            "AMOUNT: `7` is more than TANK2 holds: 5\n", ("AMOUNT (1 to 5, which TANK2 holds): ", "3"), (CONFIRM, "")])
    assert status == 0 and asked_of(at_work) == ["scrap HOUSE K3 W-102 TANK2 3 103"]


def test_a_label_is_of_the_lot_and_not_of_the_order(at_work):
    steps: list[Step] = [(prompt, "HOUSE/W-101/TANK") if "OWNER [" in prompt else (prompt, answer) for prompt, answer in ACTUAL if not prompt.startswith(("LOT [", "SUBLOT"))]
    status, text = typed(at_work, "actual", [*steps, (CONFIRM, "")])
    assert status == 0 and asked_of(at_work) == ["actual K7 ACME O-1 1 1 consumed WATER HOUSE W-101 TANK 40 103"]
    assert typed(at_work, "actual", [("OWNER: ", "HOUSE/W-101/TANK"), "OWNER: `HOUSE/W-101/TANK` has `/`", ("OWNER: ", END)])[0] == 1
    assert typed(at_work, "reject", [("LOT [W-101]: ", "ACME/S-1/BAY1"), "reject: it is for lots of HOUSE, and ACME/S-1/BAY1 is a lot of ACME\n", ("LOT [W-101]: ", "HOUSE/W-101/TANK"), (CONFIRM, "n")])[0] == 1


# Names in lower case

def test_names_in_lower_case_are_taken_as_capitals_and_told(at_work):
    status, text = typed(at_work, "receive acme k9 salt s-9 Bay3 5 103")
    notes = ["OWNER: acme is read as ACME", "KEY: k9 is read as K9", "MATERIAL: salt is read as SALT", "LOT: s-9 is read as S-9", "SUBLOT: Bay3 is read as BAY3"]
    assert (status, text) == (0, "".join(f"  {note}\n" for note in notes) + "accepted\n")
    assert asked_of(at_work) == ["receive ACME K9 SALT S-9 BAY3 5 103"]


@pytest.mark.parametrize("line, why", [("stock a_b", "OWNER: `a_b` has lower-case letters and `_`"), ("trace ACME B-1 BACK", "WAY: `BACK` is none of"),
                                        ("stock ß", "OWNER: `ß` has `ß`"), ("stock ı", "OWNER: `ı` has `ı`"), ("owner-add CARL short", "KEY: the key has 5 letters")])
def test_what_is_no_name_in_capitals_either_stays(at_work, line, why):
    status, text = typed(at_work, line)
    assert status == 1 and why in text and "is read as" not in text


def test_an_owner_s_key_and_a_script_s_words_stay(at_work):
    assert typed(at_work, "owner-add carl carlskey1")[0] == 0
    assert at_work.rows("SELECT okey FROM owners WHERE owner = 'CARL'") == [("carlskey1",)]
    assert at_work.run("stock", "acme").out == "refused 1 BadName\n"


# The next free key

def received(plant: Plant) -> list[tuple]:
    """The receipts with keys of their own."""
    return plant.rows("SELECT owner, mkey, amount FROM moves WHERE lot = 'S-9' ORDER BY rowid")


def next_receipt(amount: int, *options: str) -> list[object]:
    """A receipt with the next key."""
    return ["receive", "ACME", "--key", "next", "SALT", "S-9", "BAY9", amount, 103, *options]


def test_the_next_key_is_behind_the_greatest_and_told(at_work):
    done = at_work.run(*next_receipt(5))
    assert done == (0, "accepted\n", "  KEY: next is K7\n")
    assert at_work.toll("receive", "ACME", "K41", "SALT", "S-9", "BAY9", 1, 103).status == 0
    assert at_work.toll("receive", "ACME", "K-99", "SALT", "S-9", "BAY9", 2, 103).status == 0
    assert at_work.run("receive", "ACME", "next", "SALT", "S-9", "BAY9", 6, 103).err == "  KEY: next is K42\n"
    assert at_work.run("scrap", "BOLT", "--key", "next", "P-1", "BAY2", 1, 103).err == "  KEY: next is K2\n"
    assert received(at_work) == [("ACME", "K7", 5), ("ACME", "K41", 1), ("ACME", "K-99", 2), ("ACME", "K42", 6)]


def test_the_settings_say_what_keys_begin_with(at_work):
    at_work.settle(key_prefix="GR-26-")
    assert [at_work.run(*next_receipt(amount)).err for amount in (5, 6)] == ["  KEY: next is GR-26-1\n", "  KEY: next is GR-26-2\n"]


@pytest.mark.parametrize("name, value", [("key_prefix", "k"), ("key_prefix", "-K"), ("key_prefix", "NINE-LONG"), ("key_prefix", 5),
                                         ("time_zone", "Mars/Base"), ("time_zone", "../../etc/passwd"), ("time_zone", "/etc/localtime"), ("time_zone", 1)])
def test_wrong_settings_are_told(at_work, name, value):
    at_work.settle(**{name: value})
    done = at_work.run("stock", "ACME")
    assert done.status == 2 and f"hilpoven.toml: {name} " in done.err


def test_a_key_of_16_letters_has_no_next(at_work):
    assert at_work.toll("receive", "ACME", f"K{'9' * 15}", "SALT", "S-9", "BAY9", 1, 103).status == 0
    done = at_work.run(*next_receipt(5))
    assert done.status == 2 and "ACME has no next key" in done.err and "key_prefix" in done.err and len(received(at_work)) == 1


def test_a_line_that_cannot_be_read_takes_no_key(at_work):
    done = at_work.run(*next_receipt(0))
    assert done.status == 1 and done.out == "refused 2 BadAmount\n" and "KEY" not in done.err
    assert at_work.run("void", "ACME", "next").out == "refused 1 BadName\n"


def test_a_key_of_an_earlier_file_is_not_free(plant):
    plant.lay("owner-add ACME ACMEKEY1\nmaterial-add ACME SALT kg\nreceive ACME K1 SALT S-1 BAY1 5 101\nreceive ACME K8 SALT S-1 BAY1 5 101")
    assert plant.run("carry-over", plant.folder / "next.db", "--day", 102).status == 0
    assert plant.rows("SELECT mkey FROM moves") == [("C1-1",)]
    assert plant.run(*next_receipt(5)).err.startswith("  KEY: next is K9\n")
    done = plant.run("receive", "ACME", "next", "SALT", "S-1", "BAY1", 5, 101)
    assert done.status == 1 and "the same movement of ACME is recorded with key K8 and 1 more; nothing is done" in done.err


def test_a_key_that_somebody_took_meanwhile_is_passed_over(at_work):
    done = at_work.folder / "done"
    other = f'"{at_work.program}" --db "{at_work.db}" receive ACME K7 SALT S-8 BAY8 1 103 > "{done}"'
    first = script(at_work.folder / "first", f'[ "$3" = receive ] && [ ! -e "{done}" ] && {other}\nexec "{at_work.program}" "$@"')
    at_work.program = str(first)
    answer = at_work.run(*next_receipt(5))
    assert answer == (0, "accepted\n", "  KEY: next is K7\n  KEY: K7 was taken meanwhile\n  KEY: next is K8\n")
    assert [entry["answer"] for entry in at_work.lines() if entry["event"] == "told"] == ["refused 35 KeyConflict\n", "accepted\n"]


def test_the_same_that_somebody_recorded_meanwhile_is_no_repetition(at_work):
    done = at_work.folder / "done"
    other = f'"{at_work.program}" --db "{at_work.db}" receive ACME K7 SALT S-9 BAY9 5 103 > "{done}"'
    at_work.program = str(script(at_work.folder / "first", f'[ "$3" = receive ] && [ ! -e "{done}" ] && {other}\nexec "{at_work.program}" "$@"'))
    answer = at_work.run(*next_receipt(5))
    assert answer.status == 1 and answer.out == "" and "recorded with key K7; nothing is done" in answer.err and received(at_work) == [("ACME", "K7", 5)]


def test_clerks_at_once_get_keys_of_their_own(at_work):
    env = environment(TOLL=at_work.program)
    with ThreadPoolExecutor(4) as clerks:
        answers = list(clerks.map(lambda amount: command("--db", at_work.db, *next_receipt(amount), env=env), range(1, 9)))
    assert [answer.stdout for answer in answers] == ["accepted\n"] * 8, answers
    assert sorted(row[1] for row in received(at_work)) == [*(f"K{number}" for number in range(10, 15)), "K7", "K8", "K9"]


def test_the_same_again_without_a_terminal_is_not_done(at_work):
    assert at_work.run(*next_receipt(5)).status == 0
    lines = at_work.lines()
    done = at_work.run(*next_receipt(5))
    assert done == (1, "", "hilpoven: the same movement of ACME is recorded with key K7; nothing is done\n  if this is another one, give its key: --key K8\n")
    assert at_work.lines() == lines and received(at_work) == [("ACME", "K7", 5)]
    assert at_work.run(*next_receipt(6)).status == 0
    assert at_work.run("receive", "ACME", "K20", "SALT", "S-9", "BAY9", 5, 103) == (0, "accepted\n", "")


@pytest.mark.parametrize("answer, status, count", [("", 1, 1), ("n", 1, 1), ("what", 1, 1), (END, 1, 1), (INTERRUPT, 130, 1), ("y", 0, 2), ("Yes", 0, 2)])
def test_the_same_again_is_asked_at_a_terminal(at_work, answer, status, count):
    assert at_work.run(*next_receipt(5)).status == 0
    question = "The same movement of ACME is recorded with key K7. Is this another one? [y/N] "
    ended = typed(at_work, " ".join(map(str, next_receipt(5))), [(question, answer), *([(question, "")] if answer == "what" else [])])
    assert ended[0] == status and len(received(at_work)) == count and (SAID_NO in ended[1]) == (count == 1)


def test_what_was_voided_is_not_the_same(at_work):
    line = "actual next ACME O-1 1 1 consumed SALT ACME S-1 BAY1 300 101".split()
    assert "recorded with key K2" in at_work.run(*line).err
    assert at_work.toll("void", "ACME", "K2").status == 0
    assert at_work.run(*line) == (0, "accepted\n", "  KEY: next is K7\n")


def test_notes_stand_beside_the_movement_with_its_key(at_work):
    assert at_work.run("receive", "ACME", "next", "BRINE", "B-1R", "BAY1", 40, 103, "--of", "B-1", "--why", "return", "--document", "D-1").status == 0
    assert at_work.run("list", "moves", "--key", "K7", "--csv").out.splitlines()[-1].endswith("D-1")


# Today

@pytest.mark.parametrize("zone", ["Pacific/Kiritimati", "Etc/GMT+12"])  # 26 hours apart, so their days always differ
def test_today_is_the_plant_s_day(at_work, zone):
    at_work.settle(time_zone=zone)
    days = [day_in(zone)]
    done = at_work.run("receive", "ACME", "K9", "SALT", "S-9", "BAY9", 5, "--today")
    days.append(day_in(zone))
    (day,), = at_work.rows("SELECT day FROM moves WHERE mkey = 'K9'")
    assert done == (0, "accepted\n", f"  DAY: --today is {day}\n") and str(day) in days


def test_enter_is_today_where_days_are_dates(plant):
    plant.lay("owner-add ACME ACMEKEY1\nmaterial-add ACME SALT kg\ntest-add ACME SALT PH 1 9\nreceive ACME K1 SALT S-1 BAY1 5 261127")
    days = [day_in(ZONE)]
    status, _ = typed(plant, "result ACME S-1 PH 5", [("DAY (0 to 9,999,999) [", ""), (CONFIRM, "")])
    days.append(day_in(ZONE))
    (day,), = plant.rows("SELECT day FROM results")
    assert status == 0 and str(day) in days


def test_one_day_is_said_once(at_work):
    done = at_work.run("scrap", "ACME", "K9", "S-1", "BAY1", 5, "--day", 103, "--today")
    assert done.status == 2 and "--today and --day both say the day" in done.err
    assert "1 more than its 6 values" in at_work.run("scrap", "ACME", "K9", "S-1", "BAY1", 5, 103, "--today").err
    assert "no option --today" in at_work.run("release", "--today", "W-101").err


# Completion

def completed(plant: Plant, line: str) -> list[str]:
    """What the shell gets for the last word of a line."""
    words = ["hilpoven", *line.split(" ")]
    done = plant.run("complete", len(words) - 1, *words)
    assert done.status == 0 and done.err == ""
    return [line.removeprefix("plain,") for line in done.out.splitlines() if line]


@pytest.mark.parametrize("line, names", [
    ("stock ", "ACME BOLT HOUSE"), ("stock b", "BOLT"), ("recall --owner ACME ", "B-1 S-1"), ("recall acme b", "B-1"), ("open ACME ", "O-1"), ("open ACME O-1 ", "MIXER"), ("do ACME O-1 ", "1"),
    ("receive ACME K9 ", "BRINE SALT"), ("ship HOUSE K9 ", "W-101"), ("ship ACME K9 ", "S-1"), ("scrap ACME K9 B-1 ", "TOTE1 TOTE2"), ("result ACME B-1 ", "DENSITY PH"),
    ("actual K9 ACME O-1 1 1 consumed ", "SALT WATER"), ("actual K9 ACME O-1 1 1 consumed WATER ", "HOUSE"), ("actual K9 ACME O-1 1 1 consumed WATER HOUSE ", "W-101"),
    ("actual K9 ACME O-1 1 2 produced BRINE ACME ", "B-1"), ("void ACME ", "K2 K3 K4"), ("receive --key n", "next"), ("split ACME K9 B-1 TOTE1 t", "TOTE2 TANK TOTE1"), ("receive ACME K9 SALT S-9 b", "BAY1 BAY2"), ("release ", ""),
    ("reject ", "W-101"), ("show lot BOLT ", "P-1"), ("show unit ", "KETTLE MIXER"), ("list moves --owner A", "ACME"), ("show batch ACME O-1 ", "1"), ("show order ACME ", "O-1"),
    ("trace ACME B-1 ", "back forward"), ("unit-add ", ""), ("nothing ", ""), ("--office ../x stock ", ""), ("com", "companion")])
def test_names_of_the_office_complete(at_work, line, names):
    at_work.settle()
    assert completed(at_work, line) == names.split()


def test_the_plant_s_own_test_is_not_offered(at_work):
    at_work.settle()
    with open(at_work.folder / "hilpoven.toml", "a") as settings:
        settings.write('[quality]\ntest = "PH"\n')
    assert completed(at_work, "result ACME B-1 ") == ["DENSITY"]


def test_the_shell_asks_with_the_command_s_own_rights(at_work):
    """Behind sudo by the rule that runs the command, otherwise as whoever types."""
    at_work.settle()
    site = at_work.folder / "hilpoven.toml"
    script(at_work.folder / "sudo", f'printf "%s " "$@" >> "{at_work.folder}/asked"; [ "$1 $2 $3 $4" = "-n -u toll hilpoven" ] && shift 4 && exec "{HILPOVEN}" "$@"')
    (at_work.folder / "hilpoven").symlink_to(HILPOVEN)
    text = """. <(_HILPOVEN_COMPLETE=bash_source hilpoven)
words() { COMP_WORDS=(hilpoven "$@"); COMP_CWORD=$#; COMPREPLY=(); _hilpoven_completion hilpoven; echo "${COMPREPLY[*]}"; }
words stock A; words nothing ""; words stock "'"; ls asked 2> /dev/null; root_command=hilpoven; words stock B; words sto; cat asked"""
    env = environment(PATH=f"{at_work.folder}:/usr/bin:/bin", HILPOVEN_SETTINGS=site)
    done = subprocess.run(["bash", "--norc", "-c", text], cwd=at_work.folder, env=env, capture_output=True, text=True, timeout=PATIENCE)
    assert (done.stdout, done.stderr) == ("ACME\n\nACME BOLT HOUSE\nBOLT\nstock\n-n -u toll hilpoven complete 2 hilpoven stock B -n -u toll hilpoven complete 1 hilpoven sto ", "")


def test_completion_changes_nothing_and_waits_for_nobody(at_work):
    at_work.settle()
    assert at_work.run("list", "owners").status == 0  # which makes the lock
    before, names = at_work.content(), sorted(os.listdir(at_work.folder))
    assert completed(at_work, "stock A") == ["ACME"] and at_work.content() == before and at_work.lines() == []
    with open(f"{at_work.db}.lock") as held:
        fcntl.flock(held, fcntl.LOCK_EX)
        assert completed(at_work, "stock A") == []
    assert sorted(os.listdir(at_work.folder)) == names


def test_what_is_no_office_completes_nothing(at_work):
    at_work.settle(file=str(at_work.folder / "absent.db"))
    assert completed(at_work, "stock A") == []
    (at_work.folder / "absent.db").write_text("no office")
    assert completed(at_work, "stock A") == []


def test_without_rights_nothing_completes(reachable):
    (reachable.folder / "site.toml").write_text(f'file = "{reachable.db}"\n')
    os.chmod(reachable.folder / "site.toml", 0o644)
    os.chmod(reachable.db, 0o600)
    env = environment(HILPOVEN_SETTINGS=reachable.folder / "site.toml", TOLL=reachable.program)
    words = ("complete", "2", "hilpoven", "stock", "A")
    assert command(*words, env=env).stdout == "plain,ACME\n"
    if not os.geteuid():
        done = command(*words, env=env, user=65_534, group=65_534, extra_groups=[])
        assert (done.returncode, done.stdout, done.stderr) == (0, "\n", "")


def test_a_member_completes_as_the_command_and_names_no_path(at_work, laid, tmp_path):
    at_work.settle()
    (tmp_path / "other").mkdir()
    other = copied(laid, Plant(laid.program, tmp_path / "other"))
    assert other.toll("owner-add", "CARL", "CARLKEY1").status == 0
    for line, names in (("stock A", "plain,ACME\n"), (f"--db {other.db} stock ", "plain,ACME\nplain,BOLT\nplain,HOUSE\n"), ("import ", "file,\n")):
        words = ["hilpoven", *line.split(" ")]
        assert at_work.as_member("complete", len(words) - 1, *words) == (0, names, "")
    at_work.folder.chmod(0o777)
    assert at_work.as_member("complete", 2, "hilpoven", "stock", "A").out == "\n"


# The customer of a shipment, and keys that aren't meant

SHIP: list[Step] = [("SUBLOT [TANK]: ", ""), ("holds): ", "5"), ("DAY (", "103")]


def parties_of(plant: Plant) -> None:
    """Has HOUSE have two customers and a supplier."""
    for name, role in (("NORD", "customer"), ("SUED", "customer"), ("SPAS", "supplier")):
        assert plant.run("party", "add", "HOUSE", name, "--name", f"{name.title()} GmbH", "--role", role).status == 0


def facts_of(plant: Plant) -> list[dict]:
    """What the journal has beside shipments."""
    return [note for line in plant.lines() for note in line.get("notes", []) if note["kind"] == "movement"]


def settle(plant: Plant, text: str) -> dict[str, str]:
    """Settings that say this, by their variable."""
    path = plant.folder / "settings.toml"
    path.write_text(text)
    return {"HILPOVEN_SETTINGS": str(path)}


def test_a_shipment_that_is_asked_asks_for_its_customer_before_its_lot(settled):
    parties_of(settled)
    status, text = typed(settled, "ship HOUSE", [("TO (the customer; Enter alone for none): ", "2"), ("LOT [W-101]: ", ""), *SHIP, ("[next]: ", ""), (CONFIRM, "")])
    assert status == 0 and "  1  NORD  Nord GmbH\n  2  SUED  Sued GmbH\n" in text and "SPAS" not in text
    assert "hilpoven ship HOUSE next W-101 TANK 5 103 --to SUED\n" in text
    assert facts_of(settled) == [{"kind": "movement", "owner": "HOUSE", "key": "K2", "party": "SUED"}]
    assert max(map(len, text.splitlines())) <= 80


def test_a_customer_may_be_left_out_and_is_asked_again_by_its_name(settled):
    parties_of(settled)
    steps: list[Step] = [("TO (", "nodr"), "TO: there is no party NODR of HOUSE. Nearest of the customers of HOUSE: NORD.", ("TO (", "spas"), "SPAS of HOUSE is a supplier, and no customer",
                         ("TO (", "N ORD"), "TO: `N ORD` has a blank", ("TO (", ""), ("LOT [W-101]: ", ""), *SHIP, ("[next]: ", ""), "hilpoven ship HOUSE next W-101 TANK 5 103\n"]
    assert typed(settled, "ship HOUSE", [*steps, (CONFIRM, "")])[0] == 0 and facts_of(settled) == []
    status, text = typed(settled, "ship HOUSE", [*steps, (CONFIRM, "to"), ("TO (", "nord"), "--to NORD\n", (CONFIRM, ""), ("Is this another one?", "y")])
    assert status == 0 and [facts["party"] for facts in facts_of(settled)] == ["NORD"], text


def test_a_customer_that_is_given_isn_t_asked_for(settled):
    parties_of(settled)
    status, text = typed(settled, "ship HOUSE --to SUED", [("LOT [W-101]: ", ""), *SHIP, ("[next]: ", ""), "--to SUED\n", (CONFIRM, "")])
    assert status == 0 and "TO (" not in text and facts_of(settled)[0]["party"] == "SUED"
    status, text = typed(settled, "ship HOUSE --to SPAS", ["TO: SPAS of HOUSE is a supplier, and no customer", ("TO (", INTERRUPT)])
    assert status == 130 and len(facts_of(settled)) == 1


def test_an_owner_without_customers_is_asked_for_none(settled):
    parties_of(settled)
    assert "TO (" not in typed(settled, "ship ACME", [("LOT [S-1]: ", INTERRUPT)])[1]


def test_a_required_customer_is_asked_for_first_and_never_left_out(settled):
    env = settle(settled, "[require]\nrecipient = true\n")
    status, text = typed(settled, "ship HOUSE", env=env)
    assert status == 1 and "LOT" not in text and "there are no customers of HOUSE, and the settings require each shipment's recipient" in text.replace("\n  ", " ")
    parties_of(settled)
    status, text = typed(settled, "ship HOUSE", [("TO (the customer): ", ""), "TO: is empty", ("TO (the customer): ", "1"), ("LOT [W-101]: ", ""), *SHIP, ("[next]: ", ""), (CONFIRM, "")], env=env)
    assert status == 0 and facts_of(settled)[0]["party"] == "NORD", text


@pytest.mark.parametrize("mistyped", ["SPAS", "nex", "NXET", "stop", "-", "Nord"])
def test_a_key_without_a_digit_is_asked_about(settled, mistyped):
    steps: list[Step] = [(f"KEY: {mistyped.upper()} has no digit. Is it meant? [y/N] ", "")] if mistyped != "-" else ["KEY: `-` begins with `-`"]
    status, text = typed(settled, "scrap HOUSE --lot W-101 --sublot TANK --amount 5 --day 103", [("[next]: ", mistyped), *steps, ("[next]: ", "NEXT"), (CONFIRM, "")])
    assert status == 0 and asked_of(settled) == ["scrap HOUSE K2 W-101 TANK 5 103"], text


def test_a_key_without_a_digit_may_be_meant(settled):
    status, text = typed(settled, "scrap HOUSE --lot W-101 --sublot TANK --amount 5 --day 103", [("[next]: ", "corr"), ("KEY: CORR has no digit. Is it meant? [y/N] ", "y"), "KEY: corr is read as CORR", (CONFIRM, "")])
    assert status == 0 and asked_of(settled) == ["scrap HOUSE CORR W-101 TANK 5 103"], text
