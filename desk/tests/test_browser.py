"""Entries in a real browser, by a scanner and by touch, behind the real nginx, on small and large screens."""
import pytest
import browsing
from browsing import FAINT, LEAST, SMALL
from conftest import PERSONS
from selenium.webdriver.common.by import By
from selenium.webdriver.common.keys import Keys

site, screens = browsing.site, browsing.screens  # fixtures


def test_a_day_by_scanner_and_touch(screens, office):
    screen = screens()
    screen.log_in("frida")
    screen.touch("a.door[href='/receive']")
    screen.touch(".tiles a[href='?owner=ACME']")
    screen.touch(".tiles a[href$='material=SALT']")
    for name, word in (("lot", "s-9"), ("amount", "700")):
        screen.type(name, word)
    screen.touch("input[value=BAY1]")
    screen.type("day", "103")
    screen.touch("form.card button.main")
    screen.shows("Amount 700: before it was 5,000.")
    screen.touch("button[name=answer]")
    screen.shows("700 of SALT received into lot S-9 at BAY1")
    screen.open("/batch/ACME/O-1/1")
    for label, amount in (("ACME/S-1/BAY1", "10"), ("HOUSE/W-101/TANK", "20")):
        screen.scan(label)
        screen.shows("released")
        screen.type("amount", amount)
        screen.type("day", "103")
        screen.touch("form.take button.main")
        screen.shows(f"{amount} from")
    screen.touch(".notice button")  # take back
    screen.shows("taken back")
    screen.open("/lot/ACME/B-1")
    screen.type("reason", "metal found", "form[data-draft^=hold]")
    screen.touch("form[data-draft^=hold] button.danger")
    screen.shows("Lot B-1 held")
    assert office.rows("SELECT amount FROM sublots WHERE lot = 'S-9'") == [(700,)]
    assert office.rows("SELECT count(*) FROM voids") == [(1,)]
    print(f"{screen.keys} keys, {screen.touches} touches")


def test_what_was_typed_is_kept_over_the_end_of_the_session(screens, desk, office):
    screen = screens()
    screen.log_in("anna")
    screen.open("/receive?owner=ACME&material=SALT")
    screen.touch("input[value=BAY1]")
    for name, word in (("lot", "S-9"), ("amount", "4900"), ("day", "103")):
        screen.type(name, word)
    for session in desk.sessions.by_digest.values():
        session.seen -= 3_600
    screen.touch("form.card button.main")
    screen.shows("What you typed is kept")
    screen.type("login", "anna")
    screen.type("password", PERSONS["anna"][0])
    screen.touch("main button.main")
    screen.shows("Record the receipt")
    assert not office.rows("SELECT 1 FROM lots WHERE lot = 'S-9'")
    assert screen.driver.find_element(By.NAME, "lot").get_attribute("value") == "S-9" and screen.has("input[value=BAY1]:checked")
    screen.touch("form.card button.main")
    screen.shows("received into lot S-9")


def test_a_count_is_brought_back_where_nothing_moved_since(screens, desk, office):
    screen = screens()
    screen.log_in("anna")
    screen.open("/count?owner=ACME")
    counted = screen.driver.find_elements(By.NAME, "counted")
    for field, word in zip(counted, ("899", "79", "4690")):
        field.send_keys(word)
    assert office.run("split", "ACME", "K77", "B-1", "TOTE2", "TOTE3", "5", "103").status == 0
    for session in desk.sessions.by_digest.values():
        session.seen -= 3_600
    screen.driver.refresh()
    screen.shows("Log in")
    screen.type("login", "anna")
    screen.type("password", PERSONS["anna"][0])
    screen.touch("main button.main")
    screen.shows("Record the count")
    shown = {field.get_attribute("data-of"): field.get_attribute("value") for field in screen.driver.find_elements(By.NAME, "counted")}
    assert shown == {"B-1 TOTE1 900": "899", "B-1 TOTE2 75": "", "B-1 TOTE3 5": "", "S-1 BAY1 4700": "4690"}


def test_pages_work_without_a_script(screens, office):
    screen = screens(has_script=False)
    screen.log_in("anna")
    screen.open("/batch/ACME/O-1/1")
    screen.scan("ACME/S-1/BAY1")
    screen.shows("released")
    screen.type("amount", "10")
    screen.type("day", "103")
    screen.touch("form.take button.main")
    screen.shows("10 from S-1")
    screen.open("/receive?owner=ACME&material=SALT")
    for choice in ("S-2", "BAY1"):
        screen.touch(f"input[value={choice}]")
    screen.type("amount", "490")
    screen.type("day", "103")
    screen.touch("form.card button.main")
    screen.shows("Amount 490: before it was 5,000.")
    screen.touch("button[name=answer]")
    screen.shows("490 of SALT received into lot S-2 at BAY1")


def test_one_choice_is_touched_or_another_one_is_typed(screens):
    screen = screens()
    screen.log_in("anna")
    screen.open("/receive?owner=ACME&material=SALT")
    for choice in ("S-2", "BAY1", "5000"):
        screen.touch(f"input[value='{choice}']")
    screen.waits().until(lambda driver: driver.find_element(By.CSS_SELECTOR, ".missing").text == "")
    screen.type("amount", "4900")
    assert not screen.has("input[value='5000']:checked")
    screen.touch("input[value='5000']")
    assert screen.driver.find_element(By.NAME, "amount").get_attribute("value") == "" and screen.has("input[value='5000']:checked")


@pytest.mark.parametrize("width, height, is_dark", [(1024, 768, False), (390, 844, False), (1024, 768, True), (390, 844, True)])
def test_targets_contrasts_and_widths(screens, width, height, is_dark):
    screen = screens(width=width, height=height, is_dark=is_dark)
    screen.log_in("frida")
    for path in ("/", "/receive?owner=ACME&material=SALT", "/ship?scan=ACME/S-1/BAY1", "/batch/ACME/O-1/1", "/batch/ACME/O-1/1?scan=ACME/S-1/BAY1", "/lot/ACME/B-1", "/recall?q=HOUSE+W-101", "/cases", "/count?owner=ACME", "/papers/lot/ACME/B-1", "/nothing"):
        screen.open(path)
        assert screen.driver.execute_script("return document.documentElement.scrollWidth") <= width, path
        assert screen.driver.execute_script(SMALL, LEAST) == [], path
        assert screen.driver.execute_script(FAINT) == [], path
    screen.open("/receive?owner=ACME&material=SALT")
    for name, word in (("lot", "X-2"), ("sublot", "BAY7"), ("amount", "5")):
        screen.type(name, word)
    screen.touch("form.card button.main")
    screen.waits().until(lambda driver: screen.has("button[name=answer]"))
    assert screen.driver.execute_script("return document.documentElement.scrollWidth") <= width
    assert screen.driver.execute_script(SMALL, LEAST) == screen.driver.execute_script(FAINT) == []


def test_a_receipt_by_the_keyboard_alone(screens, office):
    screen = screens()
    screen.log_in("anna")
    press = lambda *keys: [screen.driver.switch_to.active_element.send_keys(key) for key in keys]  # noqa: E731
    reach(screen, "a.door[href='/receive']")
    press(Keys.ENTER)
    screen.shows("Whose is it?")
    reach(screen, ".tiles a[href='?owner=ACME']")
    press(Keys.ENTER)
    screen.shows("Material")
    reach(screen, ".tiles a[href$='material=SALT']")
    press(Keys.ENTER)
    screen.shows("Record the receipt")
    for name, word in (("lot", "S-9"), ("sublot", "BAY1"), ("amount", "5")):
        reach(screen, f"[name={name}]")
        press(word)
    reach(screen, "[name=day]")  # whose content is selected on the way
    press("103", Keys.ENTER)
    screen.shows("Amount 5: before it was 5,000.")
    reach(screen, "button[name=answer]")
    press(Keys.ENTER)
    screen.shows("5 of SALT received into lot S-9")
    assert office.rows("SELECT amount FROM sublots WHERE lot = 'S-9'") == [(5,)]


def reach(screen, css: str, most: int = 60) -> None:
    """Goes to something by the tabulator alone, which has to show where it is."""
    for _ in range(most):
        screen.driver.switch_to.active_element.send_keys(Keys.TAB)
        if screen.driver.execute_script("return document.activeElement.matches(arguments[0])", css):
            shown = "const e = document.activeElement; const s = getComputedStyle(e.matches('.choice [type=radio]') ? e.nextElementSibling : e); return s.outlineStyle"
            assert screen.driver.execute_script(shown) == "solid", css
            return
    raise AssertionError(f"the tabulator doesn't reach {css}")
