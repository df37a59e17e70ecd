#!/usr/bin/env python3
"""Compares the list of facts with one that is worked out by its definition: all facts stand in one list, in fact order,
which is gone through for each line.

    ZMETA=PROGRAM python3 tests/program/listed.py

Facts of few keys meet often. Files have them in parts of so many, taken in an order of no kind in particular; one part
after the other stands before or behind those that are there."""

import os
import subprocess
import sys
import tempfile

import saved
from extracting import through_pipe
from merging import write
from saved import BIB1, COUNT, DIAG, FAILED, MARC21, SEEN

NAMES = ("a", "b")
FACTS = 400
# how many facts at a time are in one file
SIZES = (400, 200, 90, 13, 2, 1)
# Records, each with its text: three with octets, one of them twice; a surrogate diagnostic, a fragment and an element.
RECORDS = (
    ("r1", f'rec {MARC21} - "r1"'),
    ("x2", f'rec {MARC21} - "x2"'),
    ("r1", f'rec {MARC21} - "r1"'),
    ('"\\', f'rec {MARC21} - "\\"\\\\"'),
    ("301a800164a115a213301106072a8648ce130401020200ee1b02225c", f'diag "d" {BIB1} 238 "\\"\\\\"'),
    ("3005a103830161", "ber 3005a103830161"),
    ("300ca10aa1082806020105810161", "ber 300ca10aa1082806020105810161"),
)
DIAGS = (
    ("300e06072a8648ce13040102010d1a00", f'{BIB1} 13 ""'),
    ("301006072a8648ce13040102010d1b026869", f'{BIB1} 13 "hi"'),
    ("301006072a8648ce13040102010d1a026869", f'{BIB1} 13 "hi"'),
    ("28048102686a", "ber 28048102686a"),
)
TEXTS = {saved.element_of(word): text for word, text in (*RECORDS, *DIAGS)}

# What a search and two requests for records gave, the first for the positions 1 to 3, the second for 2 to 4; the second
# with another record at its first position; and the lists that are due, worked out by hand.
FIRST = "a; count 0 1 4; seen 0 1 1 r1; seen 0 1 2 r2; seen 0 1 3 r3"
SECOND = "a; count 0 1 4; seen 0 1 2 r2; seen 0 1 3 r3; seen 0 1 4 r4"
OTHER = "a; count 0 1 4; seen 0 1 2 x2; seen 0 1 3 r3; seen 0 1 4 r4"
AGREED = """target "a" set 1 count 4
1 "a" 1 rec 1.2.840.10003.5.10 - "r1"
2 "a" 1 rec 1.2.840.10003.5.10 - "r2"
3 "a" 1 rec 1.2.840.10003.5.10 - "r3"
4 "a" 1 rec 1.2.840.10003.5.10 - "r4"
"""
CONFLICT = """target "a" set 1 count 4
1 "a" 1 rec 1.2.840.10003.5.10 - "r1"
2 "a" 1 conflict 2
  rec 1.2.840.10003.5.10 - "r2"
  rec 1.2.840.10003.5.10 - "x2"
3 "a" 1 rec 1.2.840.10003.5.10 - "r3"
4 "a" 1 rec 1.2.840.10003.5.10 - "r4"
"""
TEXTS |= {saved.element_of(it): f'rec {MARC21} - "{it}"' for it in ("r2", "r3", "r4")}


class Dice:
    """The linear congruential generator of crates/zber_rows/src/dice.rt (Knuth, The Art of Computer Programming,
    volume 2, 3.3.4)."""

    def __init__(self, seed):
        self.state = seed

    def below(self, bound):
        self.state = (self.state * 6364136223846793005 + 1442695040888963407) % 2**64
        return (self.state >> 33) % bound

    def order(self, count):
        order = [*range(count)]
        for at in range(count):
            other = self.below(count)
            order[at], order[other] = order[other], order[at]
        return order


def drawn(dice):
    """A fact of three targets, of which the last has no name."""
    target, number, place, kind = dice.below(3), dice.below(2), dice.below(3) + 1, dice.below(6)
    if kind == 0:
        return COUNT, target, number, place
    if kind == 1:
        return FAILED, target, number
    kind, several = (DIAG, DIAGS) if kind == 2 else (SEEN, RECORDS)
    return kind, target, number, place, saved.element_of(several[dice.below(len(several))][0])


def name_of(target):
    return f'"{NAMES[target]}"' if target < len(NAMES) else f"#{target}"


def tail_of(fact):
    """The line of a fact of a set, behind the set."""
    kind, _, _, *rest = fact
    if kind == FAILED:
        return "failed"
    return f"count {rest[0]}" if kind == COUNT else f"diag {rest[0]} {TEXTS[rest[1]]}"


def list_of(facts):
    """The list of facts."""
    facts = sorted(set(facts))
    blocks = sorted({it[1:3] for it in facts if it[0] != SEEN})
    lines = [f"target {name_of(key[0])} set {key[1]} {tail_of(it)}"
             for key in blocks for it in facts if it[0] != SEEN and it[1:3] == key]
    for position, target, number in sorted({(it[3], *it[1:3]) for it in facts if it[0] == SEEN}):
        texts = [TEXTS[it[4]] for it in facts if it[0] == SEEN and it[1:4] == (target, number, position)]
        head = f"{position} {name_of(target)} {number}"
        several = [f"{head} conflict {len(texts)}", *("  " + it for it in texts)]
        lines += several if len(texts) > 1 else [f"{head} {texts[0]}"]
    return "".join(it + "\n" for it in lines)


def parts_of(dice, facts, size):
    """The facts in parts of so many."""
    order, parts = dice.order(len(facts)), []
    for at in range(0, len(order), size):
        part = [facts[it] for it in order[at : at + size]]
        parts.insert(0 if dice.below(2) == 0 else len(parts), part)
    return parts


def joined(zmeta, room, *words):
    ran = subprocess.run([zmeta, "join", *words], capture_output=True, cwd=room, timeout=120, check=False)
    return ran.returncode, ran.stdout, ran.stderr


def faults_of_two(zmeta, room):
    """Two files, either way, and the second twice; the definition has the same list."""
    for one, other, due in ((FIRST, SECOND, AGREED), (FIRST, OTHER, CONFLICT)):
        rows = (*one.split("; ")[1:], *other.split("; ")[1:])
        model = list_of([saved.of_row(it) for it in rows])
        for name, text in (("one", one), ("other", other)):
            write(os.path.join(room, name), saved.of_rows(text))
        for words in (("one", "other"), ("other", "one"), ("one", "other", "other"), ("other", "one", "one")):
            found = joined(zmeta, room, *words)
            if found != (0, due.encode(), b"") or model != due:
                yield f"listed, {words}: {found}, by definition {model}"


def faults_of_parts(zmeta, room, size):
    """The facts in parts of so many, in files that are read twice, and in memory."""
    dice = Dice(1)
    facts = [drawn(dice) for _ in range(FACTS)]
    parts = parts_of(dice, facts, size)
    names = [f"part{size}-{at}" for at in range(len(parts))]
    for name, part in zip(names, parts):
        write(os.path.join(room, name), saved.of_facts(NAMES, part))
    due = 1, list_of(facts).encode(), b""
    for found in (joined(zmeta, room, *names), through_pipe(zmeta, room, names[0], names, "join")):
        if found != due:
            yield f"listed, in parts of {size}: {found}, and {due} is due"


def faults(zmeta):
    """What is not as it should be of lists."""
    with tempfile.TemporaryDirectory() as room:
        yield from faults_of_two(zmeta, room)
        for size in SIZES:
            yield from faults_of_parts(zmeta, room, size)


def main():
    found = [*faults(os.path.abspath(os.environ["ZMETA"]))]
    print(f"lists of {FACTS} facts in parts of {len(SIZES)} sizes", *found, sep="\n")
    return 1 if found else 0


if __name__ == "__main__":
    sys.exit(main())
