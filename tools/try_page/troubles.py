"""What goes wrong between a person and the office, and what the page makes of it."""
import contextlib
import os
import socketserver
import subprocess
from collections.abc import Iterator

from .browser import PATIENCE
from .site import has_ipv6, serving
from .trial import Trial

AT_ONCE = 4  # requests of an address that the site takes at once: limit_conn of packaging/nginx.conf
BUSY, AWAY, NOT_THE_OFFICES = (
    "The office is busy.",
    "The office can't be reached.",
    "What came isn't the office's answer",
)


def forbidden(t: Trial) -> None:
    b = t.entered()
    t.to_lot("B-1")
    small = t.office
    t.serve(t.new_office("owner-add ACME OTHERKEY1"))
    t.read_again()
    b.wait("The office doesn't take this name and key any more.")
    b.heading("Log in")
    t.shot("19-forbidden")
    t.now("keys()", 0)
    t.serve(small)
    b.type("input[name=key]", "ACMEKEY1")
    t.follow("button", "Log in", "Lot B-1")


def busy(t: Trial) -> None:
    b = t.entered()
    with t.office.locked():
        b.click("#nav a", "Stock")
        b.wait(BUSY, "#sign")
        t.shot("20-busy")
    b.heading("Stock")
    b.becomes("text('#sign')", "")
    t.to_lot("S-4")
    with t.office.locked():
        b.click("button", "Release")
        b.wait(BUSY, "#sign")
    b.wait("Lot S-4 is released.")
    t.pictured()
    # a browser may take either address
    with t.office.stopped(), crowd_of(t, "-4"), crowd_of(t, "-6") if has_ipv6() else contextlib.nullcontext():
        b.click("#nav a", "Orders")
        b.wait(BUSY, "#sign")
        t.shot("21-too-many")
    b.heading("Orders")
    b.becomes("text('#sign') === '' && seen('tbody tr') !== null")


@contextlib.contextmanager
def crowd_of(t: Trial, family: str) -> Iterator[None]:
    """Meanwhile others ask from the same address: as many as the site takes at once, and one that it doesn't take."""
    asked = f"https://localhost:{t.proxy.port}/stock"
    words = ["curl", family, "-sk", "-m", str(PATIENCE), "-o", os.devnull, "-w", "%{http_code}", asked]
    crowd = [subprocess.Popen(words, stdout=subprocess.PIPE, text=True) for _ in range(AT_ONCE + 1)]

    def is_full() -> bool:
        return any(client.poll() is not None and client.stdout and client.stdout.read() == "429" for client in crowd)

    try:
        t.browser.until(is_full, "the proxy answers 429")
        yield
    finally:
        for client in crowd:
            client.kill()
            client.communicate()


def away(t: Trial) -> None:
    b = t.entered()
    with t.office.locked():
        b.click("#nav a", "Stock")
        b.wait(BUSY, "#sign")
        t.office.end()
        # the sign says what is so now
        b.wait(AWAY, "#sign")
    t.shot("22-away")
    t.office.start()
    b.heading("Stock")
    b.find("tbody a")
    t.proxy.end()
    b.click("#nav a", "Orders")
    b.wait(AWAY, "#sign")
    t.proxy.start()
    b.heading("Orders")
    b.find("tbody a")
    # what changes something is asked again too, and done once
    t.office.end()
    t.place("O-AWAY")
    b.wait(AWAY, "#sign")
    t.office.start()
    b.wait("Order O-AWAY is placed")
    # in the end it is said, and asked again by a click
    t.office.end()
    b.click("#nav a", "Stock")
    b.becomes("seen('button', 'Ask again') !== null", patience=240)
    t.has("ACME, not read: tried on 20", css=".read")
    t.shot("22-gave-up")
    t.office.start()
    b.click("button", "Ask again")
    b.find("tbody a")
    t.has("ACME, read on 20", css=".read")


def answer(status: int, kind: str, body: str, length: int | None = None) -> bytes:
    """The bytes of a reply, which may say that it is longer than it is."""
    fields = f"content-type: {kind}\r\ncontent-length: {length or len(body)}\r\nconnection: close"
    return f"HTTP/1.1 {status} Answered\r\n{fields}\r\n\r\n{body}".encode()


PAGE, JSON = "text/html", "application/json"
WELCOME = "<html><body><h1>Welcome to our wireless network</h1><script>top.hit = 1</script></body></html>"
TEXTS = (
    '{"lots":[{"amount":1,"disposition":"<script>top.hit=2</script>","lot":"<img src=x onerror=top.hit=3>",'
    '"material":"<b>BOLD</b>","measure":"kg"}]}'
)
A_PAGE, A_403 = answer(200, PAGE, WELCOME), answer(403, PAGE, WELCOME)
STRANGE = {
    "a page in place of a reply": A_PAGE,
    "a page that is called JSON": answer(200, JSON, WELCOME),
    "JSON that is cut": answer(200, JSON, '{"lots":[{"amount":1,"disposition":"released","lot"'),
    "the reply to something else": answer(200, JSON, '{"orders":[]}'),
    "a list that is none": answer(200, JSON, '{"lots":{"length":1}}'),
    "nothing": answer(200, JSON, ""),
    "names that would be HTML": answer(200, JSON, TEXTS),
    "a proxy's 403": A_403,
    "a proxy's 404": answer(404, PAGE, WELCOME),
    "a proxy's 500": answer(500, PAGE, WELCOME),
}


class Another(socketserver.TCPServer):
    allow_reuse_address = True


@contextlib.contextmanager
def another(port: int, reply: bytes, to_get: bytes | None = None) -> Iterator[int]:
    """Something else than the office on its port answers all by these bytes; a GET by others, if they are given."""

    class Answering(socketserver.BaseRequestHandler):
        def handle(self) -> None:
            with contextlib.suppress(OSError):
                asked = self.request.recv(65536)
                self.request.sendall(to_get if to_get and asked.startswith(b"GET ") else reply)

    with serving(Another(("127.0.0.1", port), Answering)) as server:
        yield int(server.server_address[1])


def garbled(t: Trial) -> None:
    """What isn't the office's is called so, whatever it is, and the page goes on when the office is back."""
    b = t.entered()
    t.office.end()
    for case, reply in STRANGE.items():
        with another(t.office_port, reply):
            b.click("#nav a", "Stock", says=NOT_THE_OFFICES)
            look_sane(t, case)
        b.js("location.hash = '#/nowhere'")
        b.heading("There is no such page")
    with another(t.office_port, A_PAGE):
        b.click("#nav a", "Stock", says=NOT_THE_OFFICES)
        t.shot("39-not-the-office")
    t.office.start()
    t.follow("button", "Ask again", "Stock")
    b.find("tbody a")
    garbled_changes(t)
    garbled_entering(t)


def look_sane(t: Trial, case: str) -> None:
    """The page stands, the owner is still entered, and nothing of what came is on it."""
    situation, t.situation = t.situation, f"{t.situation}, {case}"
    t.now("[text('h1'), keys(), text('#who .owner')]", ["Stock", 1, "ACME"])
    t.offers("button", "Ask again")
    t.offers("button", "Read again")
    t.now("[all('main img, main b, main script').length, window.hit ?? 0]", [0, 0])
    t.lacks("Welcome", "BOLD", css="body")
    t.situation = situation


def garbled_changes(t: Trial) -> None:
    """An order whose reply is another's, or breaks off: what isn't known is called so, and it is done once."""
    b = t.browser
    t.to("Orders")
    t.office.end()
    with another(t.office_port, A_PAGE):
        t.place("O-CUT")
        # a row whose order can't be read says so too
        b.wait(NOT_THE_OFFICES, "#wrong")
        t.lacks("isn't known")
    no_order = answer(404, JSON, '{"code":18,"error":"UnknownOrder"}')
    with another(t.office_port, A_PAGE, no_order):
        t.place("O-CUT")
        b.wait("Whether this was done isn't known", "#wrong")
    with another(t.office_port, answer(200, JSON, '{"batches":1,', 400), no_order):
        t.place("O-CUT")
        b.wait(AWAY, "#sign")
    t.office.start()
    b.wait("Order O-CUT is placed")


def garbled_entering(t: Trial) -> None:
    """A proxy's page doesn't enter anybody, and is no wrong key."""
    b = t.browser
    t.log_off()
    t.office.end()
    for reply in (A_PAGE, A_403):
        with another(t.office_port, reply):
            t.fill_in("ACME")
            b.wait(NOT_THE_OFFICES, "#wrong")
            t.now("[text('h1'), keys()]", ["Log in", 0])
    t.office.start()
    t.log_in("ACME")


def strange(t: Trial) -> None:
    """Texts that would be HTML stay texts, and scripts and styles that aren't the page's own aren't taken."""
    b = t.entered()
    texts = b.later(
        """const done = arguments[0];
        import('/owner/dom.js').then(({html, link}) => {
            const text = '<img src=x onerror=top.hit=1><b>bold</b>';
            one('#view').append(html('p', {title: text}, text, link('#/stock', text)));
            done([all('main img, main b').length, one('#view > p').innerText]);
        })"""
    )
    t.same(texts, [0, "<img src=x onerror=top.hit=1><b>bold</b>" * 2], "a text that would be HTML")
    t.shot("34-strange-texts")
    html = "document.body.insertAdjacentHTML('beforeend', '<p>')"
    error = b.js(f"try {{ {html}; return 'done'; }} catch (error) {{ return error.name; }}")
    t.same(error, "TypeError", "HTML of a text")
    effects = b.js(
        """const paragraph = document.createElement('p');
        document.body.append(paragraph);
        paragraph.setAttribute('style', 'color: red');
        try { paragraph.setAttribute('onclick', 'window.hit = 3'); } catch { }
        paragraph.click();
        return [window.hit ?? 0, getComputedStyle(paragraph).color]"""
    )
    t.same(effects, [0, "rgb(23, 33, 43)"], "a script and a style within the page")
    moving(t)
    t.reload("Orders")
    headers = dict(b.later("fetch('/owner/').then(reply => arguments[0]([...reply.headers]))"))
    policy = headers.get("content-security-policy", "")
    t.expect("default-src 'none'" in policy and "unsafe" not in policy, f"the policy is {policy}")


def moving(t: Trial) -> None:
    """A button changes places with another under the pointer: a click comes to it in the end, never to the other."""
    t.browser.js(
        """window.clicked = [];
        const [wanted, other] = ['Wanted', 'Other'].map(textContent => Object.assign(
            document.createElement('button'), {textContent, onclick: () => clicked.push(textContent)}));
        one('#view').append(wanted, other);
        addEventListener('mousemove', () => wanted.before(other), {once: true})"""
    )
    t.browser.click("button", "Wanted")
    t.now("window.clicked", ["Wanted"])
