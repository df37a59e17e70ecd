"""Prints what saved files know together, and compares lists that are a stream with lists of files in memory.

    ZMETA=PROGRAM python3 tests/program/joining.py

The saved files are random, and are made here. All but a page is printed while regular files are read, twice or three
times; what is no regular file is read whole, and all facts are in memory then. Both have to print the same, and so has
the list of one file of all facts. Lists of large files have to stay within a fixed memory, and a file that changes
meanwhile is refused.
"""

import os
import random
import subprocess
import sys
import tempfile
import time

import saved
from extracting import LARGE, MOST, NAMES, RECORD, random_facts, run, through_pipe
from merging import run_measured, write
from saved import COUNT, DIAG, FAILED, MARC21, SEEN

CASES = 50
VIEWS = ((), ("--hex",), ("--json",), ("--titles",), ("--fields",), ("--html", "--heading", "all"))
# views that are printed while files are read
STREAMS = VIEWS[:5]
# sets of one record each, the last at the lowest position
FALLING = 20_000


def join(zmeta, room, *words):
    return run(zmeta, room, "join", *words)


def random_lists(zmeta, room):
    """The list of several files is that of one file of all facts, whether files are in memory or not."""
    dice = random.Random(21)
    for case in range(CASES):
        facts, paths = set(), []
        for number in range(dice.randrange(1, 6)):
            part, _ = random_facts(dice)
            facts |= part
            paths.append(f"part{number}")
            write(os.path.join(room, paths[-1]), saved.of_facts(NAMES, part))
        write(os.path.join(room, "whole"), saved.of_facts(NAMES, facts))
        for view in VIEWS:
            found = join(zmeta, room, *view, *paths)
            due = through_pipe(zmeta, room, "whole", [*view, "whole"], "join")
            if found != due or found[0] != (1 if any(it[0] == FAILED for it in facts) else 0):
                yield f"joining, case {case} of {[*view, *paths]}: {found}, and {due} is due"
                return
        view = dice.choice(VIEWS)
        if case % 10 == 0 and through_pipe(zmeta, room, dice.choice(paths), [*view, *paths], "join") != join(
                zmeta, room, *view, *paths):
            yield f"joining, case {case} of {[*view, *paths]}: another text through a pipe"
            return


def damaged(zmeta, room):
    """A damaged file is refused as in memory, and nothing is printed."""
    dice = random.Random(22)
    for case in range(CASES):
        whole = [saved.of_facts(NAMES, random_facts(dice)[0]) for _ in range(3)]
        hurt = dice.randrange(3)
        octets = bytearray(whole[hurt])
        place = dice.randrange(len(octets))
        if dice.randrange(2):
            octets[place] ^= dice.randrange(1, 256)
        else:
            del octets[place:]
        for number in range(3):
            write(os.path.join(room, f"file{number}"), bytes(octets) if number == hurt else whole[number])
        files = [f"file{number}" for number in range(3)]
        # a page is made in memory
        due = join(zmeta, room, *VIEWS[-1], *files)
        for view in STREAMS:
            found = join(zmeta, room, *view, *files)
            if found[0] != due[0] or found[0] == 3 and found != (3, b"", due[2]):
                yield f"joining, damaged case {case} of {view}: {found}, and a page is {due[0]}, {due[2]}"
                return


def large(zmeta, room):
    """Two large files, with counts, a failure and diagnostics, take no more memory than a list of small ones."""
    at = lambda name: os.path.join(room, name)
    heads = [saved.fact(COUNT, 0, 1, 2 * LARGE), saved.fact(FAILED, 1, 1)]
    tails = [saved.fact(DIAG, 1, 1, 0, saved.diagnostic(saved.BIB1, 108))]
    for number in range(2):
        facts = (saved.fact(SEEN, 0, 1, 2 * it + number, saved.record(MARC21, b"%0*d" % (RECORD, it)))
                 for it in range(1, LARGE + 1))
        write(at(f"large{number}"), saved.named(NAMES) + b"".join([*heads, *facts, *tails]))
    for view in STREAMS:
        status, most = run_measured([zmeta, "join", *view, at("large0"), at("large1")], at("all"))
        _, due, _ = through_pipe(zmeta, room, "large0", [*view, "large0", "large1"], "join")
        with open(at("all"), "rb") as file:
            same = file.read() == due
        if status != 1 or most > MOST or not same:
            yield (f"joining, large, {view}: status {status}, {most} KB of at most {MOST}, "
                   f"{'as' if same else 'not as'} it is due")


def falling(zmeta, room):
    """Many sets whose positions fall, so that each record begins a run, take no long time."""
    facts = (saved.fact(SEEN, 0, it, FALLING - it + 1, saved.record(MARC21, b"%06d" % it))
             for it in range(1, FALLING + 1))
    write(os.path.join(room, "falling"), saved.named(NAMES) + b"".join(facts))
    for view in STREAMS:
        began = time.monotonic()
        found = join(zmeta, room, *view, "falling")
        took = time.monotonic() - began
        if found != through_pipe(zmeta, room, "falling", [*view, "falling"], "join") or took > 60:
            yield f"joining, falling, {view}: status {found[0]}, {len(found[1])} octets, {took:.0f} seconds"


def changed(zmeta, room, view, name, change):
    """The file that NAME names is changed while it is printed, which ends with a refusal behind a front."""
    path = os.path.join(room, name)
    _, due, _ = through_pipe(zmeta, room, name, [*view, name], "join")
    with subprocess.Popen([zmeta, "join", *view, path], stdout=subprocess.PIPE, stderr=subprocess.PIPE) as child:
        front = os.read(child.stdout.fileno(), 1)
        # it waits until more of what it prints is read
        change(path)
        rest, told = child.communicate(timeout=300)
    if child.returncode != 3 or told != f"zmeta: cannot read {path}\n".encode() or not due.startswith(front + rest):
        yield f"joining {name}, {view}, of a file that changes: {child.returncode}, {told}, {len(rest)} octets"


def changing(zmeta, room):
    """A file that is cut while it is printed is refused once the list comes to its end; one whose last record becomes
    another catalogue's is so by the view, which has counted it before."""
    facts = [saved.fact(SEEN, 0, 1, it, saved.record(MARC21, b"%0*d" % (RECORD, it))) for it in range(1, LARGE + 1)]
    other = saved.fact(SEEN, 1, 1, LARGE, saved.record(MARC21, b"%0*d" % (RECORD, LARGE)))

    def cut(path):
        os.truncate(path, os.path.getsize(path) // 2)

    def move(path):
        with open(path, "r+b") as file:
            file.seek(-len(other), os.SEEK_END)
            file.write(other)

    for name, views, change in (("cut", STREAMS, cut), ("moved", (("--titles",), ("--fields",)), move)):
        for view in views:
            write(os.path.join(room, name), saved.named(NAMES) + b"".join(facts))
            yield from changed(zmeta, room, view, name, change)


def faults(zmeta):
    with tempfile.TemporaryDirectory() as room:
        yield from random_lists(zmeta, room)
        yield from damaged(zmeta, room)
        yield from large(zmeta, room)
        yield from falling(zmeta, room)
        yield from changing(zmeta, room)


def main():
    found = [*faults(os.path.abspath(os.environ["ZMETA"]))]
    print("lists of files", *found, sep="\n")
    return 1 if found else 0


if __name__ == "__main__":
    sys.exit(main())
