"""What the machine has to give: processors and memory, within the limits of this process's control group."""
import os
import re
import sys
from pathlib import Path

GB = 1_000_000_000


def number_of_group(file: str, otherwise: int, word: int = 0) -> int:
    """A number of this process's control group, if it has one."""
    try:
        return int(Path("/sys/fs/cgroup", file).read_text().split()[word])
    except (OSError, ValueError):
        return otherwise


def processors() -> int:
    """The processors that this process may use."""
    quota = number_of_group("cpu.max", sys.maxsize) // number_of_group("cpu.max", 100_000, 1)
    return max(1, min(len(os.sched_getaffinity(0)), quota))


def free_memory() -> int:
    """Free bytes. Of the group's memory, what programs hold counts, and not its pages of files, which it gives back."""
    free = int(re.findall(r"MemAvailable: *(\d+)", Path("/proc/meminfo").read_text())[0]) * 1024
    return min(free, number_of_group("memory.max", sys.maxsize) - number_of_group("memory.stat", 0, 1))
