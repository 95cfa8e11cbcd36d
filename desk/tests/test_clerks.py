"""Ten clerks at once for ten minutes, behind the real nginx and beside owners' requests: nothing is lost or there twice."""
import re
import threading
import time
from collections import Counter
from dataclasses import dataclass, field

import proxied
import pytest
from conftest import text_of
from proxied import Client, Place

place = proxied.place  # the fixture

CLERKS, MINUTES = 10, 10
OF_LOT = 20  # receipts into a lot
MOST = 1_500  # entries of a clerk, so that an owner's movements have room
HIDDEN = r'<input type="hidden" name="([^"]+)" value="([^"]*)">'


@dataclass
class Clerk:
    """A clerk at a screen of an own: what was recorded, by keys, and the slowest pages."""

    place: Place
    number: int
    given: dict[str, int] = field(default_factory=dict)  # amounts by the keys of receipts
    moved: dict[str, int] = field(default_factory=dict)  # amounts by the keys of moves
    faults: list[str] = field(default_factory=list)
    slowest: Counter = field(default_factory=Counter)  # seconds by what was asked

    def work(self, end: float) -> None:
        """Receives, looks at the lot and moves some of it, until the time is over."""
        client = Client(self.place, address=f"127.0.0.{self.number + 10}")
        client.until(200, "GET", "/login")
        client.ask("POST", "/login", {"login": ("anna", "frida")[self.number % 2], "password": ("anna's word", "frida's word")[self.number % 2]})
        while time.monotonic() < end and len(self.given) < MOST:
            lot = f"S-{self.number}{len(self.given) // OF_LOT:03}"
            self.ask(client, "today", "GET", "/")
            form = dict(re.findall(HIDDEN, self.ask(client, "form", "GET", "/receive?owner=ACME&material=SALT").partition("data-draft")[2]))
            amount = 5_000 + len(self.given)
            self.give(client, "/receive", {**form, "lot": lot, "sublot": "BAY1", "amount": str(amount), "day": "103"}, amount, self.given)
            page = self.ask(client, "lot", "GET", f"/lot/ACME/{lot}").partition('data-draft="split')[2].partition("</form>")[0]
            if len(self.given) % 4 == 0:
                self.give(client, f"/lot/ACME/{lot}", {**dict(re.findall(HIDDEN, page)), "sublot": "BAY1", "target": "BAY9", "amount": "7", "day": "103"}, 7, self.moved)

    def ask(self, client: Client, kind: str, method: str, path: str, fields: dict[str, str] | None = None) -> str:
        """What a request gets, whose time is noted."""
        begun = time.monotonic()
        page = client.ask(method, path, fields)
        self.slowest[kind] = max(self.slowest[kind], time.monotonic() - begun)
        if client.status not in (200, 303, 409):
            self.faults.append(f"{client.status} {path}: {text_of(page)[:200]}")
        return page

    def give(self, client: Client, path: str, form: dict[str, str], amount: int, given: dict[str, int]) -> None:
        """Sends a form, says that what is unusual is meant, and notes it where it is recorded."""
        page = self.ask(client, "entry", "POST", path, form)
        if client.status == 409 and (asked := re.findall(r'name="asked" value="([^"]*)"', page)):
            page = self.ask(client, "entry", "POST", path, {**form, "asked": asked[-1], "answer": "yes"})
        if client.status == 303:
            given[form["key"]] = amount
        else:
            self.faults.append(f"{client.status} {path}: {text_of(page)[:300]}")


def owner(server, over: threading.Event, served: Counter) -> None:
    """An owner who looks at its lots, and orders now and then."""
    while not over.wait(0.2):
        served[server.ask("ACME", "GET", "/stock")[0]] += 1
        if served[200] % 50 == 0:
            served[server.ask("ACME", "POST", "/orders", f'{{"order":"N-{served[200]}","recipe":"BRINE-10","batches":1}}')[0]] += 1


@pytest.mark.long
def test_ten_clerks_at_once_for_ten_minutes(place, office):
    clerks, served, over = [Clerk(place, number) for number in range(CLERKS)], Counter(), threading.Event()
    before = office.rows("SELECT count(*) FROM moves")[0][0]
    with office.serve() as server:
        end = time.monotonic() + 60 * MINUTES
        threads = [threading.Thread(target=clerk.work, args=[end]) for clerk in clerks]
        asking = threading.Thread(target=owner, args=[server, over, served])
        for thread in [*threads, asking]:
            thread.start()
        for thread in threads:
            thread.join()
        over.set()
        asking.join()
    given = {key: amount for clerk in clerks for key, amount in [*clerk.given.items(), *clerk.moved.items()]}
    rows = office.rows(f"SELECT mkey, amount FROM moves ORDER BY rowid LIMIT -1 OFFSET {before}")
    slowest = {kind: round(max(clerk.slowest[kind] for clerk in clerks), 2) for kind in clerks[0].slowest}
    print(f"{len(given)} entries, each clerk {min(len(clerk.given) for clerk in clerks)} receipts at least, owners {dict(served)}, slowest {slowest} s")
    assert not [fault for clerk in clerks for fault in clerk.faults] and all(clerk.given for clerk in clerks)
    assert len(given) == sum(len(clerk.given) + len(clerk.moved) for clerk in clerks) == len(rows)
    assert dict(rows) == given
    assert set(served) <= {200, 503} and served[503] * 10 < served[200]  # an owner is refused while the log is copied, and asks again
    accepted = [line for line in office.lines() if line.get("answer") == "accepted\n"]
    assert len(accepted) >= len(given)
