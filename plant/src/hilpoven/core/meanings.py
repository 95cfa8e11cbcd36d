"""What a refusal or a fault means, and what to look at."""
import functools
import os
import re
from collections import defaultdict
from typing import Any

# What `toll import` answers to a row.
OUTCOME = re.compile(r" *\d+ (accepted|repeated|refused \d+ \w+|bad-record|fault \w+)")


@functools.cache
def table(name: str) -> dict[str, dict[str, Any]]:
    """The meanings of `refusals` or `faults`, by their words."""
    import tomllib

    with open(f"{os.path.dirname(__file__)}/{name}.toml", "rb") as file:
        return tomllib.load(file)


def refusal_in(output: str) -> str:
    """The word of the refusal that an answer is; empty where it is none."""
    words = output.split()
    return words[2] if len(words) == 3 and words[0] == "refused" else ""


def fault_in(error: str) -> str:
    """The word of the fault that an answer is; empty where it is none."""
    words = error.split()
    return words[1] if len(words) == 2 and words[0] == "fault" else ""


def meaning(kind: str, word: str) -> str:
    """What a refusal or a fault means to the plant: what is said of owners' requests is left out."""
    return str(table(kind)[word]["means"]).split("; of `GET")[0]


def explained(kind: str, word: str, values: dict[str, str]) -> str:
    """Two lines: what it means, and what to look at, with the values that were given in it."""
    entry = table(kind).get(word)
    if not entry:
        return ""
    filled = defaultdict(str, {f"{{{name}}}": value for name, value in values.items()})
    look = re.sub(r"\{([A-Z-]+)\}", lambda match: filled[match[0]] or match[1], entry["look"])
    return f"{word}: {meaning(kind, word)}.\n{look}"
