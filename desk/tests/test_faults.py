"""Faults while a form is sent, behind the real nginx: nothing is lost or recorded twice, and the person is told."""
import contextlib
import re
import signal
import threading
import time

import proxied
import pytest
from conftest import PERSONS, text_of
from proxied import Client

place = proxied.place  # the fixture


def received(office, lot: str) -> list[tuple]:
    """The receipts of a lot."""
    return office.rows(f"SELECT mkey, amount FROM moves WHERE lot = '{lot}'")


@pytest.mark.parametrize("delay", [0.0, 0.05, 0.1])
def test_screens_that_are_killed_record_a_form_once(place, office, delay):
    anna = Client(place, "anna")
    form = anna.receipt("S-9")
    sending = threading.Thread(target=anna.ask, args=("POST", "/receive", form))
    sending.start()
    time.sleep(delay)
    place.desk.kill()
    place.desk.wait()
    sending.join()
    assert anna.status == 303 or anna.status == 502 and "never recorded twice" in anna.page, anna.page
    place.begin_desk()
    anna.until(401, "POST", "/receive", form)  # sessions end with the process: what was typed is kept
    assert "What you typed is kept" in anna.page and 'name="kept.key"' in anna.page
    kept = dict(re.findall(r'<input type="hidden" name="(kept[^"]+)" value="([^"]*)">', anna.page))
    anna.ask("POST", "/login", {**kept, "login": "anna", "password": PERSONS["anna"][0], "to": "/receive"})
    again = anna.ask("GET", anna.location).partition("data-draft")[2]
    hidden = dict(re.findall(r'<input type="hidden" name="([^"]+)" value="([^"]*)">', again))
    assert hidden["key"] == form["key"]
    anna.ask("POST", "/receive", {**form, **hidden})
    assert anna.status == 303, text_of(anna.page)
    assert received(office, "S-9") == [(form["key"], 7_000)]


def test_a_server_of_the_office_that_is_killed_leaves_each_form_once(place, office):
    anna, answers = Client(place, "anna"), []
    with contextlib.ExitStack() as stack:
        server = stack.enter_context(office.serve())
        for number in range(6):
            form = anna.receipt(f"S-9{number}")
            killing = threading.Timer(0.01 * number, server.process.send_signal, (signal.SIGKILL,))
            killing.start()
            anna.ask("POST", "/receive", form)
            killing.join()
            answers.append((anna.status, text_of(anna.page)))
            server.process.wait()
            assert anna.status == 303 or "Not recorded" in answers[-1][1] or "Nobody knows" in answers[-1][1], answers
            if anna.status != 303:
                anna.ask("POST", "/receive", form)
                assert anna.status == 303, text_of(anna.page)
            assert received(office, f"S-9{number}") == [(form["key"], 7_000)]
            server = stack.enter_context(office.serve())


def test_nginx_that_is_ended_loses_no_form(place, office):
    anna = Client(place, "anna")
    form = anna.receipt("S-9")
    place.nginx.terminate()
    place.nginx.wait()
    anna.ask("POST", "/receive", form)
    assert anna.status == 0
    place.begin_nginx()
    anna.until(303, "POST", "/receive", form)
    assert received(office, "S-9") == [(form["key"], 7_000)]
