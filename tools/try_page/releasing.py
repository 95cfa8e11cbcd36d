"""Many lots are released at once, by a person and by a program: what can't be and why, and what came of each."""
import os
import pathlib
import re
import subprocess
import time

from .browser import PATIENCE
from .many import IDLE, SUM
from .offices import each, place
from .site import ROOT
from .trial import Trial

PASSING, MISSING, FAILING = 481, 10, 9
LOTS = PASSING + MISSING + FAILING
BATCHES = 3  # that make so many lots: each has at most 200 actuals
MINUTE = 60.0  # seconds, of an idle machine
OUTCOMES = """const of = word => all('[data-report] tbody tr').filter(row => row.cells[3].textContent === word).length;
return ["released", "refused", "not ready", "not known", "not asked"].map(of)"""


def releasing(t: Trial) -> None:
    small = t.office
    small.end()
    t.office = t.new_office(
        """owner-add ACME ACMEKEY1
        material-add ACME DRUM kg
        material-add ACME BRINE kg
        test-add ACME BRINE PURITY 1 9
        recipe-add ACME FILL 1
        require ACME FILL 1 produced ACME DRUM 200
        receive ACME R-8 BRINE B-08 BAY1 5 101
        result ACME B-08 PURITY 5 102"""
    )
    t.office.start()
    t.office.do(
        place("BIG", "FILL", 2 * BATCHES)
        + each(2 * BATCHES, "unit-add U-{0}\nopen ACME BIG U-{0}\ndo ACME BIG {0} start")
    )
    fill(t, "D", 1)
    for at in range(MISSING + FAILING):
        t.office.do(f"receive ACME R{at} BRINE B-1{at:02} BAY1 5 101")
        if at >= MISSING:
            t.office.do(f"result ACME B-1{at:02} PURITY 12 102")
    t.companions.write(t.office)
    try:
        by_a_person(t)
        by_a_program(t)
        on_a_phone(t)
    finally:
        t.companions.clear()
        t.browser.devtools("Emulation.clearDeviceMetricsOverride")
    t.serve(small)


def fill(t: Trial, name: str, first: int) -> None:
    """Makes lots of drums, which have no test, in batches from this one on."""
    lots = [f"{name}-{at:03}" for at in range(1, PASSING)]
    batches = [first + at * BATCHES // PASSING for at in range(1, PASSING)]
    t.office.import_actuals(
        [f"P{lot},ACME,BIG,{batch},1,produced,DRUM,ACME,{lot},BAY1,5,102" for lot, batch in zip(lots, batches)]
    )


def by_a_person(t: Trial) -> None:
    b = t.browser
    t.to_home_of("ACME")
    b.click(".need a", "Release many lots")
    b.heading("Release lots")
    b.becomes("all('tbody tr').length", LOTS)
    b.choose("select[name=can]", "not ready")
    b.becomes("all('tbody tr').length", MISSING + FAILING)
    t.has("PURITY has no result yet.", "PURITY is 12, above its limit of 9.")
    b.choose("select[name=can]", "")
    b.becomes("all('tbody tr').length", LOTS)
    b.click("[data-key=choose-found]")
    t.has(f"Chosen: {LOTS} lots. Of these, {MISSING + FAILING} can't be released and stay in quarantine.")
    b.click("[data-key=choose-none]")
    t.has("Nothing is chosen.")
    b.click("[data-key=choose-possible]")
    b.click("input[data-lot=D-001]")
    t.has(f"Chosen: {PASSING - 1} lots.")
    b.click("input[data-lot=D-001]")
    b.click("[data-key=choose-found]")
    t.shot("61-choosing")
    b.click("[data-key=release-chosen]", f"Release {PASSING} lots…")
    t.has(
        f"{PASSING - 1} DRUM, 1 BRINE",
        f"{MISSING + FAILING} lots can't be released",
        "B-100 PURITY has no result yet.",
        css="dialog",
    )
    t.now("focused().textContent", "No, not yet")
    t.shot("62-question")
    # meanwhile one is released by somebody else, and another fails
    t.office.do("> ACME ACMEKEY1 POST /lots/D-007/release\nresult ACME B-08 PURITY 0 103")
    before, begun = b.js(SUM), time.monotonic()
    b.click("dialog button", f"Release {PASSING} lots")
    b.becomes("one('progress')?.value > 20", True)
    t.shot("63-releasing")
    b.becomes("one('[data-report]') !== null", True, patience=3 * PATIENCE)
    seconds = time.monotonic() - begun
    times = max(1, (before + b.js(SUM)) / 2 / IDLE)
    print(f"{PASSING} lots by a person: {seconds:.1f} s, on a machine that is {times:.1f} times slower", flush=True)
    t.expect(b.slowness or seconds < MINUTE * times, f"{PASSING} lots take {seconds:.0f} s")
    t.same(b.js(OUTCOMES), [PASSING - 2, 2, MISSING + FAILING, 0, 0], "what came of the lots")
    t.has("The lot isn't quarantined any more", "A test of the lot has no result yet, or its latest result is out")
    records, name = t.downloaded("csv-release-report")
    t.expect(re.fullmatch(r"ACME-release-report-\d{4}-\d\d-\d\d\.csv", name), f"the report is called {name}")
    t.same(
        [len(records), [(row["Lot"], row["Refusal"]) for row in records[:2]]],
        [LOTS, [('="B-08"', "36"), ('="D-007"', "32")]],
        "the file of the report",
    )
    t.shot("64-report")
    b.click("button", "Back to the lots in quarantine")
    b.becomes("all('tbody tr').length", MISSING + FAILING + 1)


def by_a_program(t: Trial) -> None:
    """The program of docs/http.md releases as many, through the site."""
    fill(t, "E", 1 + BATCHES)
    script = re.search(r"\$ cat > release\.py <<'END'\n(.*?)\n> END\n", (ROOT / "docs" / "http.md").read_text(), re.S)
    assert script, "docs/http.md has no program that releases"
    program = t.folder / "release.py"
    program.write_text("".join(f"{line[2:]}\n" for line in script[1].splitlines()))
    lots = [*(f"E-{at:03}" for at in range(1, PASSING)), "B-100"]
    keys = {"TOLL_OWNER": "ACME", "TOLL_KEY": "ACMEKEY1", "SSL_CERT_FILE": str(t.folder / "certificate.pem")}
    begun = time.monotonic()
    site = t.proxy.address.removesuffix("/owner/")
    done = run(program, [site, *lots], keys)
    print(f"{len(lots)} lots by a program: {time.monotonic() - begun:.1f} s", flush=True)
    wanted = [*(f"{lot} released" for lot in lots[:-1]), f"{lots[-1]} 36 TestsOpen"]
    t.same([done.stdout.splitlines(), done.stderr], [wanted, ""], "the program's lines")


def run(program: pathlib.Path, words: list[str], keys: dict[str, str]) -> "subprocess.CompletedProcess[str]":
    command = ["/usr/bin/python3", str(program), *words]
    return subprocess.run(command, env={**os.environ, **keys}, capture_output=True, text=True, timeout=10 * PATIENCE)


def on_a_phone(t: Trial) -> None:
    b = t.browser
    for width, name in ((390, "phone"), (1024, "tablet")):
        b.phone(width)
        t.show("#/release", "Release lots")
        t.read_again()
        b.becomes("all('tbody tr').length > 0")
        t.shot(f"61-{name}-choosing")
