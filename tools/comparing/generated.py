"""Makes a generated office in a folder, with the generators of plant/tests: generated.py NAME PROGRAM FOLDER."""
import itertools
import json
import pathlib
import random
import sys

import clock  # type: ignore[import]

if __name__ == "__main__":
    clock.stop()  # before anything that reads the time is imported

from companions import PLANT, QA, Known  # type: ignore[import]
from conftest import AT_WORK, Plant  # type: ignore[attr-defined]
from hilpoven.cli.demo import week_in
from hilpoven.core import private_server, settings as site
from histories import CUT, Growing, accepts  # type: ignore[import]
from test_closing import BATCH, MADE  # type: ignore[import]
from week import PREPARED, WEEK, lived  # type: ignore[import]

LINKED = """
link ACME B-1 W-101 --of-owner HOUSE --why use --amount 5
link BOLT P-1 W-101 --of-owner HOUSE --why use --reason "diluted"
receive BOLT K2 PIGMENT P-2 BAY2 50 2026-11-20 --of P-1 --why rework
link ACME S-1 B-1 --why return
hold BOLT P-2 --reason "too dark"
sign ACME S-1 --day 261120
"""


def run(plant: Plant, *words: object) -> None:
    """Gives a command, which does what it says."""
    done = plant.run(*words)
    assert done.status == 0, (words, done)


def at_work(plant: Plant, _: int) -> None:
    """Two owners, a batch that is open, and an actual that is void."""
    plant.lay(AT_WORK + "void ACME K3\n")


def linked(plant: Plant, _: int) -> None:
    """Two owners whose lots have links to a lot of HOUSE."""
    lived(plant.lay(AT_WORK), LINKED)


def week(plant: Plant, _: int) -> None:
    """A week with a return, a correction and rework."""
    lived(plant, PREPARED + WEEK)


def sample(plant: Plant, _: int) -> None:
    """The sample week, with decimals, bounds, held, signed and rejected lots."""
    with week_in(str(plant.folder), plant.program):
        pass


def known(plant: Plant, seed: int) -> None:
    """Owners of whom the plant noted all that it can."""
    Known(plant.program, plant.folder, seed)


def closed(plant: Plant, _: int) -> None:
    """Two months that are closed, with batches and a correction behind them."""
    batch = BATCH + "close ACME O-{n} 1\n"
    amounts = {"brine": 950, "sludge": 40}
    days = {n: 250100 + 100 * (n // 3) + n for n in range(1, 9)}
    plant.lay(MADE + "".join(batch.format(n=n, salt=1000 + n, day=day, **amounts) for n, day in days.items()))
    run(plant, *"receive ACME C90 SALT S-9 BAY9 20 250220 --of S-1 --why correction --yes".split())
    run(plant, "note", "corrects", "ACME", "C90", "C1")
    for month in ("2501", "2502"):
        run(plant, "settle", "ACME", month, "--no-pdf", plant.folder / f"settled-{month}")
    plant.lay(BATCH.format(n=9, salt=900, brine=910, sludge=30, day=250105))


def carried(plant: Plant, seed: int) -> None:
    """A history that is carried over, with notes of each file."""
    one = plant.folder / "one" / "one.db"
    one.parent.mkdir()
    with private_server.opened(plant.program, str(one)) as server:
        growing = Growing(server, random.Random(seed), one)
        growing.grow(140, 1 + seed % 2)
    groups = itertools.groupby(growing.steps, lambda step: bool(step == CUT))
    parts = [list(part) for is_cut, part in groups if not is_cut]
    for number, part in enumerate(parts):
        if number:
            run(plant, "carry-over", plant.folder / "next.db", "--day", 260101)
        with private_server.opened(plant.program, str(plant.db)) as server:
            assert all([accepts(server, step) for step in part])
        note(plant, number)


def note(plant: Plant, number: int) -> None:
    """Notes of some lots and movements, by the command."""
    for owner in ("ACME", "BOLT"):
        run(plant, "party", "add", owner, f"C{number}", "--name", f"Customer {number} & Söhne", "--role", "customer")
        lots = [lot for lot, in plant.rows(f"SELECT lot FROM lots WHERE owner = '{owner}' ORDER BY rowid DESC LIMIT 8")]
        for at, (lot, other) in enumerate(zip(lots, lots[1:])):
            plant.run("describe", "lot", owner, lot, "--expires", 261201 + at, "--made", 260101)
            plant.run("hold" if at % 4 == 1 else "sign", owner, lot, "--reason", f"seen {at}")
            why, amount = ("rework", "return", "use")[at % 3], ["--amount", 7] if at % 2 else []
            plant.run("link", owner, lot, other, "--why", why, *amount)
        for (house,) in plant.rows("SELECT lot FROM lots WHERE owner = 'HOUSE' ORDER BY rowid DESC LIMIT 1"):
            plant.run("link", owner, lots[0], house, "--of-owner", "HOUSE", "--why", "use")
        shipped = f"SELECT mkey FROM moves WHERE owner = '{owner}' AND kind = 2 ORDER BY rowid DESC LIMIT 4"
        for (key,) in plant.rows(shipped):
            plant.run("note", "movement", owner, key, "--to", f"C{number}", "--document", f"DN {key}")


MAKERS = {"at-work": at_work, "week": week, "sample": sample, "linked": linked, "closed": closed, "carried-1": carried}
MAKERS |= {"known-1": known, "carried-2": carried, "known-2": known, "known-3": known}


def main() -> None:
    """Makes it, with settings that name it."""
    name, program, folder = sys.argv[1], sys.argv[2], pathlib.Path(sys.argv[3])
    settings = folder / "hilpoven.toml"
    site.load.__defaults__ = (settings, "", "")
    site.OFFICES = str(folder)
    for subfolder in (folder, folder / "backups", folder / "companions"):
        subfolder.mkdir(mode=0o700)
    MAKERS[name](Plant(program, folder), int(name.partition("-")[2] or 0) if name[-1].isdecimal() else 0)
    texts = "".join(f"{line} = {json.dumps(text)}\n" for line, text in PLANT.items())
    lines = {"file": str(folder / "office.db"), "backups": str(folder / "backups"), "toll": program}
    kept = f'[plant]\n{texts}\n[quality]\ntest = "{QA}"\npersons = 1\n'
    settings.write_text("".join(f"{line} = {json.dumps(text)}\n" for line, text in lines.items()) + kept)


if __name__ == "__main__":
    main()
