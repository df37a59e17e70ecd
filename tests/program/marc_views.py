#!/usr/bin/env python3
"""Compares the view that `zmeta join --titles` prints with that of marc_model.py, on thousands of mutilated records.

    ZMETA=PROGRAM tests/program/marc_views.py COUNT SEED [FILE]

The records are those of marc_made.py and COUNT mutilated ones, or the same of the MARC 21 records in FILE. The status
is 1 if the views differ."""

import os
import random
import subprocess
import sys
import tempfile

import marc_made
import marc_model
import saved

NAMES = ["made", "other"]


def placed(records, dice):
    """The records by position and target. Some places have several records, which differ; no place is empty."""
    found = {}
    place = (1, 0)
    for it in records:
        several = found.setdefault(place, [])
        if it not in several:
            several.append(it)
        if dice.randrange(20):
            place = (place[0], 1) if place[1] == 0 else (place[0] + 1, 0)
    return {place: sorted(several, key=lambda it: saved.record(*it)) for place, several in found.items()}


def write_halves(room, found, counts, dice):
    """Writes two saved files that have the records together; some records are in both."""
    halves = [], []
    for (position, target), several in found.items():
        for it in several:
            for half in dice.choice(((0,), (1,), (0, 1))):
                halves[half].append((saved.SEEN, target, 1, position, saved.record(*it)))
    for name, half in zip(("one.saved", "two.saved"), halves):
        with open(os.path.join(room, name), "wb") as file:
            facts = [(saved.COUNT, target, 1, count) for target, count in counts.items()]
            file.write(saved.of_facts(NAMES, facts + half))


def faults(zmeta, room, records, seed):
    """The first five lines that differ, if any, from the program and from the model."""
    dice = random.Random(seed)
    found = placed(records, dice)
    counts = dict(enumerate((len(records), 1_000_000)))
    write_halves(room, found, counts, dice)
    words = [zmeta, "join", "--titles", "one.saved", "two.saved"]
    ran = subprocess.run(words, capture_output=True, cwd=room, timeout=600)
    if (ran.returncode, ran.stderr) != (0, b""):
        return [f"view: {ran.returncode} {ran.stderr}"]
    ours, theirs = (it.split("\n") for it in (ran.stdout.decode(), marc_model.view(NAMES, counts, found)))
    lines = enumerate(zip(ours, theirs), 1)
    differing = [f"view, line {number}:\n    {one}\n    {other} by the model"
                 for number, (one, other) in lines if one != other]
    if len(ours) != len(theirs):
        differing.append(f"view: {len(ours)} lines, {len(theirs)} by the model")
    return differing[:5]


def records_of(file):
    return [(saved.MARC21, it + marc_made.RECORD_END) for it in file.read().split(marc_made.RECORD_END)
            if it[:5].isdigit()]


def main(count, seed, path=None):
    bases = None
    if path:
        with open(path, "rb") as file:
            bases = records_of(file)
    records = [*marc_made.all_of_them(int(count), int(seed), bases)]
    with tempfile.TemporaryDirectory() as room:
        found = faults(os.path.abspath(os.environ["ZMETA"]), room, records, int(seed))
    print(f"{len(records)} records", *found, sep="\n")
    return 1 if found else 0


if __name__ == "__main__":
    sys.exit(main(*sys.argv[1:]))
