"""bench/: offices keep the office's own limits, what is measured beside the program looks and writes as it does, counts
are of what a program does, and tables have what was measured."""
import collections
import json
import math
import os
import re
import socket
import sqlite3
import subprocess
import sys
import time
from collections.abc import Iterator
from pathlib import Path

import pytest
from conftest import ROOT, script, tool

sys.path.append(str(ROOT))
from bench import beside, counting, offices  # noqa: E402
from bench.offices import CONSUMED, HOUSE, PRODUCED, RECEIVED, WATER, Dense, Genealogy  # noqa: E402
from bench.running import Figures, Office, knocking  # noqa: E402
from bench.table import Column, Number, lines, measure, too_fast  # noqa: E402

Output = pytest.CaptureFixture[str]
KINDS = (ROOT / "crates" / "toll_sql" / "src" / "table_kind.rt").read_text()
TABLES = re.findall(r'"(CREATE TABLE .*?)"', KINDS)


# Offices


@pytest.mark.parametrize("genealogy", [*map(Dense, (1, 10, 20, 50, 100)), Genealogy(19_900), offices.AT_THE_LIMITS])
def test_a_genealogy_keeps_the_limits_of_an_owner(genealogy: Dense | Genealogy) -> None:
    rows = list(genealogy.moves("OWNER-01"))
    lots = [row[3:5] for row in rows if row[2] in (RECEIVED, PRODUCED)]
    assert len(rows) <= offices.MOST_MOVEMENTS and len(set(lots)) <= offices.MOST_LOTS
    assert max(collections.Counter(row[8:10] for row in rows if row[8]).values()) <= offices.MOST_OF_BATCH
    assert [row[1] for row in rows] == sorted({row[1] for row in rows})
    existing: set[offices.Row] = {(HOUSE, WATER)}
    for row in rows:  # what is consumed was made before
        assert row[2] != CONSUMED or row[3:5] in existing
        existing.add(row[3:5])


@pytest.mark.parametrize("across, batches", [(10, 480), (20, 250), (100, 49), (50, 100), (1, 5_000)])
def test_a_dense_genealogy_has_all_edges_between_neighbours(across: int, batches: int) -> None:
    assert Dense(across).batches == batches
    produced, consumed = (collections.defaultdict[offices.Row, set[offices.Row]](set) for _ in range(2))
    for row in Dense(across).moves("O"):
        (produced if row[2] == PRODUCED else consumed)[row[8:10]].add(row[3:5])
    orders = [offices.batch_name(number) for number in range(1, batches + 1)]
    assert consumed[orders[0]] == {(HOUSE, WATER)} and all(len(produced[order]) == across for order in orders)
    assert all(consumed[later] == produced[earlier] for earlier, later in zip(orders, orders[1:]))


def test_half_of_a_dense_genealogy_is_the_front_of_all() -> None:
    half = list(Dense(20, 2).moves("O"))
    assert Dense(20, 2).batches == 125 and list(Dense(20).moves("O"))[: len(half)] == half


def test_a_second_file_of_actuals_goes_on_behind_the_first() -> None:
    first, second, both = (list(offices.records(*given)) for given in ((300,), (100, 300), (400,)))
    assert first[0] == second[0] and first + second[1:] == both


def test_later_names_sort_behind_earlier_ones() -> None:
    script_lines = [line.split() for line in offices.script(1_001)]
    received, released = ([line for line in script_lines if line[0] == verb] for verb in ("receive", "release"))
    actuals = [line.split(",") for line in offices.records(2_000)][1:]
    products = [offices.product(batch, place) for batch in (1, 1_000) for place in range(100)]
    keys, lots = ([line[place] for line in received] for place in (2, 4))
    for names in (keys, lots, [line[0] for line in actuals], products):
        assert names == sorted(set(names))
    assert [line[1] for line in released] == lots and len(script_lines) == 2_003


# What stands beside


@pytest.fixture
def base(tmp_path: Path) -> Iterator[beside.Base]:
    """The office's tables with an owner's lot of 1,000, of which a batch consumes."""
    base = beside.Base(":memory:")
    base.base.executescript(
        ";".join(TABLES)
        + """;
        INSERT INTO owners VALUES ('ACME', 'KEY');
        INSERT INTO recipes VALUES ('ACME', 'R', 1);
        INSERT INTO orders VALUES ('ACME', 'O-1', 'R', 1, 0);
        INSERT INTO materials VALUES ('ACME', 'SALT', 'kg');
        INSERT INTO batches VALUES ('ACME', 'O-1', 1, 'U', 1, 0);
        INSERT INTO lots VALUES ('ACME', 'S-1', 'SALT', '', 0, 1);
        INSERT INTO sublots VALUES ('ACME', 'S-1', 'BAY1', 1000);
        INSERT INTO requirements VALUES ('ACME', 'R', 1, 0, 'ACME', 'SALT', 1), ('ACME', 'R', 1, 1, 'ACME', 'SALT', 1);
    """
    )
    base.base.execute(offices.MOVE, offices.receipt("ACME", "K1", "S-1", "SALT"))
    yield base
    base.base.close()


def test_an_order_beside_looks_and_writes(base: beside.Base) -> None:
    body = '{"order":"O-2","recipe":"R","batches":2}'
    assert json.loads(base.place("ACME", "KEY", body)) == {**json.loads(body), "status": "open"}
    assert base.one("SELECT * FROM orders WHERE ord = 'O-2'") == ("ACME", "O-2", "R", 2, 0)
    other = body.replace("O-2", "O-3")
    for key, sent in (("KEY", body), ("OTHER", other), ("KEY", other.replace('"R"', '"S"'))):
        with pytest.raises(beside.Refused):
            base.place("ACME", key, sent)
        base.base.execute("ROLLBACK")


HEAD = next(offices.records(1))
USED = "C1,ACME,O-1,1,1,consumed,SALT,ACME,S-1,BAY1,10,101\n"
MADE = "C3,ACME,O-1,1,1,produced,SALT,ACME,P-1,BAY1,7,101\n"


def test_an_import_beside_writes_by_an_index_what_recalls_and_stock_print(
    base: beside.Base, tmp_path: Path, capsys: Output
) -> None:
    (tmp_path / "lines").write_text(HEAD + USED + USED.replace("C1", "C2") + MADE)
    base.import_(str(tmp_path / "lines"))
    assert capsys.readouterr().out.splitlines()[-1] == "accepted 3 repeated 0 refused 0 bad 0 fault 0"
    assert "moves_by_batch" in base.one(f"EXPLAIN QUERY PLAN {beside.COUNT_OF_BATCH}", "ACME", "O-1", 1)[-1]
    base.trace("ACME", "S-1", "forward")
    base.recall("ACME", "S-1")
    base.stock("ACME")
    trace = ["0 ACME S-1", "1 ACME P-1"]
    recall = ["steps owner lot disposition on-hand shipped", "0 ACME S-1 released 980 0", "1 ACME P-1 quarantined 7 0"]
    stock = ["P-1 BAY1 SALT quarantined 7 kg", "S-1 BAY1 SALT released 980 kg"]
    printed = [" ".join(line.split()) for line in capsys.readouterr().out.splitlines()]
    assert printed == trace + recall + stock


WRONG = {"C1": "K1", "O-1,1": "O-1,2", "consumed": "produced", "S-1": "S-2", "BAY1": "BAY2", ",10,": ",1001,"}
WRONG |= {"SALT": "SUGAR", "1,1,consumed": "1,2,consumed"}


@pytest.mark.parametrize("old, new", WRONG.items())
def test_an_import_beside_looks_before_it_writes(base: beside.Base, tmp_path: Path, old: str, new: str) -> None:
    (tmp_path / "lines").write_text(HEAD + USED.replace(old, new))
    with pytest.raises(beside.Refused):
        base.import_(str(tmp_path / "lines"))
    base.base.execute("ROLLBACK")
    assert base.one("SELECT amount FROM sublots") == (1_000,) and base.one("SELECT count(*) FROM moves") == (1,)


def test_columns_are_those_of_the_office() -> None:
    with sqlite3.connect(":memory:") as base:
        for table in TABLES:
            base.execute(table)
        for text in (offices.DEFINITIONS, offices.DERIVED, offices.FULL, offices.RUNNING, offices.CHANGE):
            base.executescript(text)
        base.execute(offices.MOVE, next(Dense(10).moves("A")))


# Clients that connect and send nothing


@pytest.mark.parametrize("family", [socket.AF_INET, socket.AF_UNIX])
def test_so_many_connections_come_in_a_second_until_the_end(tmp_path: Path, family: socket.AddressFamily) -> None:
    with socket.socket(family) as door:
        door.bind(("127.0.0.1", 0) if family == socket.AF_INET else f"{tmp_path}/door")
        door.listen(100)
        began = time.monotonic()
        with knocking(door.getsockname(), 100):
            for _ in range(20):
                door.accept()[0].close()
        assert time.monotonic() - began > 0.18
        door.settimeout(0)
        with pytest.raises(BlockingIOError):
            for _ in range(100):
                door.accept()


# What is counted


def test_instructions_are_those_of_the_program(tmp_path: Path) -> None:
    def of(count: int) -> float:
        return Office(Path("/usr/bin/echo"), None, str(tmp_path), is_counted=True).run("", *["word"] * count)

    base = of(1)
    assert 0 < base < of(5_000) - 0.1 and of(1) == pytest.approx(base, rel=0.01)


def test_instructions_of_a_running_program_are_counted_up_to_each_look(tmp_path: Path) -> None:
    counter, figures = counting.Callgrind(str(tmp_path)), [0.0]
    with subprocess.Popen(counter.words(["cat"]), stdin=subprocess.PIPE, stdout=subprocess.PIPE) as program:
        assert program.stdin and program.stdout
        for line in (b"1\n", b"2\n", b"3\n"):
            os.write(program.stdin.fileno(), line)
            assert program.stdout.readline() == line
            counter.dump(program.pid)
            figures.append(counter.millions())
    start, *later = [after - before for before, after in zip(figures, figures[1:])]
    assert all(0 < figure < start / 10 for figure in later) and counter.millions() > figures[-1]
    assert not list(tmp_path.glob("*/vgdb*"))


def test_calls_of_the_system_are_those_of_a_process_meanwhile() -> None:
    with subprocess.Popen(["cat"], stdin=subprocess.PIPE, stdout=subprocess.PIPE) as program:
        assert program.stdin and program.stdout
        with counting.system_calls(program.pid) as counts:
            for _ in range(20):
                os.write(program.stdin.fileno(), b"1\n")
                assert program.stdout.readline() == b"1\n"
    assert counts["write"] in (19, 20) and counts["read"] in (19, 20, 21)  # one may not have ended
    assert counts["all"] == counts["read"] + counts["write"] and len(counts) == 3
    with pytest.raises(OSError), counting.system_calls(program.pid):
        pass


# Tables


def test_a_table_has_ratios_and_growths_of_what_the_first_program_takes() -> None:
    figures = {"work": 0.2, "small": 0.0012, "count": 1_800, "ratio": Number(1.366)}
    first, other = Column("A", Path("a"), figures=figures), Column("B", Path("b"), figures={"work": 0.4, "other": 1.0})
    counted = Column("A: M", Path("a"), is_counted=True, figures={"work": 1_892.0, "ratio": Number(2)})
    half = Column("half", Path("a"), 2, True, {"work": 946.0, "ratio": Number(1)})
    python = Column("Python", None, figures={"work": math.nan})
    assert [*lines("works", [first, other, python, counted], half)] == [
        "| works | A | B | A / B | Python | A: M | growth |",
        "|---" * 7 + "|",
        "| work | 200 ms | 400 ms | 0.50 |  | 1,892.00 | 1.00 |",
        "| small | 1.20 ms |  |  |  |  |  |",
        "| count | 1,800 |  |  |  |  |  |",
        "| ratio | 1.37 |  |  |  | 2.00 |  |",
        "| other |  | 1,000 ms |  |  |  |  |",
    ]


def test_rows_that_grow_faster_than_the_size_may_are_named() -> None:
    whole = Column("A", None, figures={"square": 4.0, "in proportion": 2.0, "constant": 1.0, "ratio": Number(9)})
    half = Column("half", None, 2, figures=dict.fromkeys(whole.figures, 1.0))
    assert [*too_fast([whole], half)] == ["square grows by the power 2.00"]


def test_a_ratio_is_of_the_better_figures(tmp_path: Path) -> None:
    column = Column("A", None)
    for rows in ((("first", 1.0), ("second", 3.0)), (("first", 2.0), ("second", 1.2))):
        column.measure(lambda *_, of=rows: iter(of), None, str(tmp_path))
    column.relate("ratio", "second", "first")
    column.relate("none", "third", "first")
    assert column.figures == {"first": 1.0, "second": 1.2, "ratio": 1.2}


def test_programs_take_turns_and_what_they_print_is_compared(tmp_path: Path) -> None:
    programs = [script(tmp_path / name, f"echo {name} >> {tmp_path}/log; echo {name}") for name in "AB"]
    sizes = list[int]()

    def work(office: Office, parts: int) -> Figures:
        sizes.append(parts)
        if office.program:
            yield office.time("stock", "stock", "OWNER")
            yield office.time("none", "orders", HOUSE)

    columns = [*map(Column, ("A", "B", "Python"), (*programs, None)), Column("half", programs[0], 2)]
    assert measure(work, columns, 2, str(tmp_path)) == ["stock"]
    assert (tmp_path / "log").read_text().split() == [*"AABBAA"] * 2 and sizes == [1, 1, 1, 2] * 2
    assert all(0 <= figure < 1 for column in columns for figure in column.figures.values())
    assert measure(work, [columns[0], columns[3]], 1, str(tmp_path)) == []


@pytest.mark.parametrize(
    "words", [["--no-such"], ["nothing"], ["--runs", "x"], ["--program", "/etc/passwd"], ["--instructions", "attacks"]]
)
def test_a_wrong_use_has_status_2(words: list[str]) -> None:
    done = tool(ROOT / "bench" / "run", *words)
    assert done.returncode == 2 and done.stdout == ""


@pytest.mark.parametrize("word, package", [("--instructions", "valgrind"), ("calls", "strace"), ("commands", "wrk")])
def test_a_package_that_is_missing_is_named(tmp_path: Path, word: str, package: str) -> None:
    for name in {"hyperfine", "wrk", "curl", "valgrind", "strace"} - {package}:
        script(tmp_path / name, "")
    done = tool(ROOT / "bench" / "run", word, env={"PATH": str(tmp_path)})
    assert done.returncode == 2 and done.stderr.splitlines()[-1].endswith(f"error: Debian's {package} is missing")
