#!/usr/bin/env python3
"""How many checks run at a time on this machine.

    scripts/machine.py      prints the number

It is the number of processors, four at most, and three at most where less than 22 GB of memory are free: the four
largest checks that may run side by side take 21 GB, the three largest 17. RT_JOBS sets how many processors there are.
"""

import os
import re

GB = 1_000_000_000
FREE_FOR_FOUR = 22 * GB
# the most wrong bodies of a crate that the gate tries one after another
IN_TURN = 3


def free_memory():
    with open("/proc/meminfo", encoding="ascii") as it:
        return int(re.search(r"MemAvailable:\s+(\d+) kB", it.read())[1]) * 1024


def processors():
    """How many processors there are to use."""
    given = os.environ.get("RT_JOBS", "")
    return int(given) if given.isdigit() and int(given) else len(os.sched_getaffinity(0))


def checks():
    """How many checks run at a time."""
    return min(processors(), 4 if free_memory() >= FREE_FOR_FOUR else 3)


def shares(edits):
    """The wrong bodies of a crate in shares, which the gate tries beside each other."""
    count = -(-len(edits) // IN_TURN)
    return [edits[at::count] for at in range(count)]


if __name__ == "__main__":
    print(checks())
