"""A browser that is slowed down: a step of a trial that doesn't wait for what it needs fails in it."""

import dataclasses
import json
import random
import time
from typing import Any, Protocol, Self

# Runs in each document before the page's own scripts. How long a request rests depends on the seed, its path and how
# often the document asked for that, so it is the same in each run. Of a long genealogy the first requests rest alone.
RESTS = """(() => {
    const [seed, longest] = %s, resting = 60, asked = new Map(), send = window.fetch;
    const mixed = (sum, letter) => Math.imul(sum ^ letter.charCodeAt(0), 16777619) >>> 0;
    const part = text => [...text].reduce(mixed, 2166136261) %% 1009 / 1009;
    const rest = async (signal, text) => {
        await new Promise(go => setTimeout(go, part(text) * longest));
        signal?.throwIfAborted();
    };
    let all = 0;
    window.fetch = async (path, given = {}) => {
        if (++all > resting) return send(path, given);
        const nth = (asked.get(path) ?? 0) + 1;
        asked.set(path, nth);
        await rest(given.signal, `${seed} asks ${nth} ${path}`);
        const reply = await send(path, given);
        await rest(given.signal, `${seed} told ${nth} ${path}`);
        return reply;
    };
})()"""


class Devtools(Protocol):
    """A window that takes commands of the browser's devtools."""

    def devtools(self, command: str, **words: Any) -> Any:
        """What a command gives."""


# One of so many commands to the browser comes late.
SELDOM = 15


@dataclasses.dataclass(frozen=True)
class Slowness:
    """How much a browser is slowed down in each of its windows, and the trial that drives it."""

    seed: int
    times: int = 1  # as long as otherwise the page's scripts and its layout take
    latency: int = 0  # milliseconds, of each request
    longest_rest: int = 0  # milliseconds, of a request before it is sent, and of its reply before it is there
    longest_pause: float = 0  # seconds, of the trial before a command to the browser

    @classmethod
    def of(cls, seed: int) -> Self:
        """One of four kinds, by the seed: late replies, a slow processor, both, or a slow trial."""
        return [
            cls(seed, longest_rest=750, longest_pause=3),
            cls(seed, longest_rest=750),
            cls(seed, times=10, latency=300),
            cls(seed, times=6, latency=300, longest_rest=400),
        ][seed % 4]

    def slow_down(self, window: Devtools) -> None:
        """Slows down a window, and all documents that are loaded in it from now on."""
        window.devtools("Emulation.setCPUThrottlingRate", rate=self.times)
        window.devtools("Network.enable")
        rates = {"downloadThroughput": -1, "uploadThroughput": -1}
        window.devtools("Network.emulateNetworkConditions", offline=False, latency=self.latency, **rates)
        rests = RESTS % json.dumps([self.seed, self.longest_rest])
        window.devtools("Page.addScriptToEvaluateOnNewDocument", source=rests)

    def pause(self, nth: int) -> None:
        """The trial's pause before its nth command."""
        chance = random.Random(f"{self.seed} {nth}")
        if chance.randrange(SELDOM) == 0:
            time.sleep(chance.random() * self.longest_pause)
