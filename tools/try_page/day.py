"""The owners' lines of docs/day.toll, by clicks: they leave the same rows as over HTTP."""
import json
import re
from collections.abc import Callable, Iterator
from typing import Any

from trial import ROOT

from tests.harness import content

from .site import Office
from .trial import Trial

Answer = dict[str, Any]


def day(t: Trial) -> None:
    replies = [line for line in (ROOT / "docs/day.out").read_text().splitlines() if re.match(r"\d{3}( \{|$)", line)]
    lines = [line for line in (ROOT / "docs/day.toll").read_text().splitlines() if line and line[0] != "#"]
    asked = [line for line in lines if line.startswith("> ")]
    t.same(len(asked), len(replies), "the replies to the lines of owners")
    small, straight, clicked = t.office, t.new_office(), t.new_office()
    by_http = iter(replies)
    run_day(t, straight, lines, lambda line: t.same(straight.ask(line).rstrip(), next(by_http).rstrip(), line))
    clicks, by_page = Clicks(t), iter(replies)
    run_day(t, clicked, lines, lambda line: clicks.do(line, next(by_page)))
    clicks.close()
    counts = f"{clicks.done} of {len(asked)} lines done and seen, {clicks.none} that no click asks for"
    print(f"a day by clicks: {counts}", flush=True)
    rows = content(straight.db)
    t.expect(content(clicked.db) == rows, "the day by clicks leaves other rows than over HTTP")
    filled = {name for name, (_, of_table) in rows.items() if of_table}
    t.expect({"orders", "lots", "moves"} <= filled, f"the day leaves rows in {filled} alone")
    t.serve(small)


def run_day(t: Trial, office: Office, lines: list[str], ask: Callable[[str], None]) -> None:
    """The plant's lines as commands, an owner's by what is given."""
    t.office.end()
    office.reply(lines[0])
    t.serve(office)
    for line in lines[1:]:
        if line.startswith("> "):
            ask(line)
        else:
            office.reply(line)


class Clicks:
    """What owners ask, done by clicks: a window for each owner."""

    def __init__(self, t: Trial) -> None:
        self.t, self.b, self.home = t, t.browser, t.browser.current_window_handle
        self.windows, self.placed = dict[str, str](), set[tuple[str, str]]()
        self.done = self.none = 0

    def close(self) -> None:
        for handle in self.windows.values():
            self.b.switch_to.window(handle)
            self.b.close_window(self.home)

    def window_of(self, owner: str) -> None:
        if owner in self.windows:
            self.b.switch_to.window(self.windows[owner])
        else:
            self.windows[owner] = self.b.new_window()
            self.t.enter(owner)
            self.b.heading("Home")
        self.t.to("Orders")

    def do(self, line: str, reply: str) -> None:
        _, owner, key, method, target, *body = line.split(" ", 5)
        status, text = int(reply[:3]), reply[4:]
        if key != f"{owner}KEY1":
            self.knock(owner, key)
            return
        self.window_of(owner)
        # so that what is said then is said of this request
        self.b.js("all('.notice .close').forEach(button => button.click())")
        answer = json.loads(text) if text else {}
        if method == "POST":
            is_done = self.post(owner, target, json.loads(body[0]) if body else {}, status, answer)
        else:
            is_done = self.look(target, status, answer) if method == "GET" else None
        self.t.expect(is_done is not False, f"the day by clicks: {line}")
        self.done, self.none = self.done + (is_done is not None), self.none + (is_done is None)

    def knock(self, owner: str, key: str) -> None:
        """Another window, a wrong key."""
        before = self.b.current_window_handle
        self.b.new_window()
        if owner == "-":
            self.t.show("", "Log in")
            self.b.click("button", "Log in")
            self.t.now("wrongField()", "owner")
        else:
            self.t.enter(owner, key)
            self.b.wait("The name or the key is wrong.")
        self.b.close_window(before)
        self.done += 1

    def post(self, owner: str, target: str, body: Answer, status: int, answer: Answer) -> bool | None:
        """Whether the page says what was answered; None if no click asks for it."""
        _, kind, *names = target.split("/")
        if target == "/orders" and "recipe" not in body:
            self.b.type("input[name=order]", body["order"])
            self.b.click("button", "Place the order")
            return bool(self.b.value("wrongField()") == "recipe")
        if target == "/orders":
            self.t.place(body["order"], body["recipe"], body["batches"])
            return self.says(self.said_of_order(owner, answer) if status == 200 else str(answer["code"]))
        if kind == "orders":
            # the list has such buttons too, and stands until the order is read
            self.t.follow("tbody a", names[0], f"Order {names[0]}")
            return self.press("Cancel", "Cancel the order", f"Order {names[0]} is cancelled.", status, answer)
        if kind != "lots":
            return None
        self.t.to_lot(names[0], is_pictured=False)
        if names[1] == "release":
            return self.press("Release", None, f"Lot {names[0]} is released.", status, answer)
        return self.press("Reject…", "Reject the lot", f"Lot {names[0]} is rejected.", status, answer)

    def said_of_order(self, owner: str, answer: Answer) -> str:
        """What the page says of an order that is answered as it stands."""
        name = answer["order"]
        was_there = (owner, name) in self.placed
        self.placed.add((owner, name))
        if answer["status"] == "cancelled":
            return f"{name} was cancelled; choose another name."
        return f"Order {name} was placed before" if was_there else f"Order {name} is placed"

    def press(self, button: str, question: str | None, confirmation: str, status: int, answer: Answer) -> bool:
        if status == 409 and answer["error"] == "NotQuarantined":
            # a page that shows the lot as it is doesn't offer this
            return not self.b.seen("button", button)
        self.b.click("button", button)
        if question:
            self.b.click("dialog button", question)
        return self.says(confirmation if status == 200 else str(answer["code"]))

    def says(self, words: str) -> bool:
        return words in self.b.until(lambda: self.b.text("#told") + self.b.text("#wrong"), f"the page says {words}")

    def look(self, target: str, status: int, answer: Answer) -> bool:
        """Whether all names and amounts of a reply are seen."""
        _, kind, *names = target.split("/")
        if kind == "trace":
            kind = "plant" if names.pop(0) == "house" else "trace"
        view = {"stock": "stock?show=all", "batches": "orders", "trace": "lots"}.get(kind, kind)
        self.b.get(self.t.proxy.address + "/".join([f"#/{view}", *names[:1]]))
        wanted = [f"{leaf:,}" if isinstance(leaf, int) and leaf > 99 else str(leaf) for leaf in leaves(answer)]
        if status == 404:
            wanted = ["There is no such page" if kind == "nowhere" else "You have no lot"]
        if kind in ("trace", "plant"):
            self.t.pictured()
            self.b.becomes("one('details') && (one('details').open = true)")
        self.b.becomes("arguments[0].filter(word => !text('main').includes(word))", [], wanted)
        return True


NOT_SHOWN = ("closed", "origin", "owner", "batch", "day")


def leaves(value: Any) -> Iterator[Any]:
    """The names and amounts of a reply."""
    if isinstance(value, (dict, list)):
        members = value.items() if isinstance(value, dict) else enumerate(value)
        for name, member in members:
            if name not in NOT_SHOWN:
                yield from leaves(member)
    else:
        yield value
