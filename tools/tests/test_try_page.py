"""tools/try-page: its words, and how it slows a browser down."""
import json
import pathlib
import subprocess
from typing import Any

import pytest
from conftest import tool
from try_page.slow import RESTS, Slowness

# Asks in a document that has the script: for a path twice and for another once, and once with a signal that comes
# meanwhile. Writes how long each step rested, in the order in which they were asked for, and what was sent.
DOCUMENT = """
const rested = [], sent = [];
globalThis.window = globalThis;
globalThis.setTimeout = (go, rest) => { rested.push(rest); queueMicrotask(go); };
globalThis.fetch = async path => { sent.push(path); return path; };
await import(process.argv[2]);
for (const path of ["/stock", "/orders", "/stock"]) await fetch(path);
const leaving = new AbortController();
const asked = fetch("/left", { signal: leaving.signal });
leaving.abort();
await asked.catch(error => sent.push(error.name));
console.log(JSON.stringify({ rested, sent }));
"""


class Window:
    """It notes the commands that it is given."""

    def __init__(self) -> None:
        self.commands: dict[str, dict[str, Any]] = {}

    def devtools(self, command: str, **words: Any) -> None:
        self.commands[command] = words


@pytest.mark.parametrize("words", ["--slow", "--slow entering", "--slow -1.5", "--fast", "--pictures", "nowhere"])
def test_wrong_words_are_refused_and_nothing_is_made(words: str, tmp_path: pathlib.Path) -> None:
    done = tool("try-page", *words.split(), cwd=tmp_path)
    assert (done.returncode, done.stdout, list(tmp_path.iterdir())) == (2, "", [])
    assert done.stderr.startswith("try-page: ") and done.stderr.count("\n") == 1


def test_replies_are_late_or_the_processor_is_slow_or_both_or_the_trial() -> None:
    late, slow, both, trial = (Slowness.of(seed) for seed in (1, 2, 3, 4))
    assert late.longest_rest > 0 and late.times == 1
    assert slow.times > 1 and slow.longest_rest == 0
    assert both.longest_rest > 0 and both.times > 1
    assert trial.longest_pause > 0 and not any(slowness.longest_pause for slowness in (late, slow, both))


def test_a_trial_pauses_before_few_commands_by_the_seed(monkeypatch: pytest.MonkeyPatch) -> None:
    def pauses(slowness: Slowness) -> list[float]:
        paused: list[float] = []
        monkeypatch.setattr("time.sleep", paused.append)
        for nth in range(1000):
            slowness.pause(nth)
        return paused

    once, again, otherwise = (pauses(Slowness(seed, longest_pause=3)) for seed in (4, 4, 8))
    assert once == again != otherwise
    assert 0 < len(once) < 200 and all(0 <= pause < 3 for pause in once)


def test_a_window_is_slowed_down_by_commands_of_its_devtools() -> None:
    both, window = Slowness.of(3), Window()
    both.slow_down(window)
    assert window.commands["Emulation.setCPUThrottlingRate"] == {"rate": both.times}
    assert window.commands["Network.emulateNetworkConditions"]["latency"] == both.latency
    assert "window.fetch" in window.commands["Page.addScriptToEvaluateOnNewDocument"]["source"]


def asked_in(folder: pathlib.Path, seed: int, longest: int) -> dict[str, list[Any]]:
    """What a document does whose requests rest by this seed."""
    script, document = folder / "rests.mjs", folder / "document.mjs"
    script.write_text(RESTS % json.dumps([seed, longest]))
    document.write_text(DOCUMENT)
    done = subprocess.run(["node", document, script], capture_output=True, text=True, check=True)
    asked: dict[str, list[Any]] = json.loads(done.stdout)
    return asked


def test_requests_rest_by_the_seed_and_one_that_is_left_is_not_sent(tmp_path: pathlib.Path) -> None:
    once, again, otherwise = (asked_in(tmp_path, seed, 750) for seed in (1, 1, 2))
    assert once == again and once["rested"] != otherwise["rested"]
    assert once["sent"] == ["/stock", "/orders", "/stock", "AbortError"]
    # before each of the three is sent, before its reply is there, and once of what is left
    assert len(set(once["rested"])) == 7 and all(0 <= rest < 750 for rest in once["rested"])
