"""Merges saved files piece by piece, and compares the file that is made with the saved file of all their facts.

    ZMETA=PROGRAM python3 tests/program/merging.py

The saved files are random, and are made here. What is due of a merge is made here, too: the names, and then the set of
all elements in the order of facts. A merge of large files has to stay within a fixed memory.
"""

import os
import random
import re
import resource
import signal
import subprocess
import sys
import tempfile
import time

from saved import element, integer

TOP = os.path.dirname(os.path.dirname(os.path.dirname(os.path.abspath(__file__))))
TREE = os.path.join(TOP, "examples/union/tree.mk")
CASES = 150
# the elements of each of two large files, the octets of a record, and the most KB that a merge of them may take
LARGE, RECORD, MOST = 60_000, 200, 8_000
# no file may be larger than so many octets: a merged one is
SMALL = 100
OLDER = b"an older file"
# the octets of the longest element of a saved file
LONGEST = 4_194_304


def names(count):
    return element(b"\xa4", b"".join(element(b"\x80", b"catalogue %d" % it) for it in range(count)))


def record(octets):
    """A record of MARC 21 as an EXTERNAL, without a database name."""
    external = element(b"\x28", bytes.fromhex("06072a8648ce13050a") + element(b"\x81", octets))
    return element(b"\x30", element(b"\xa1", element(b"\xa1", external)))


def count_of(target, number, count):
    octets = integer(b"\x80", target) + integer(b"\x81", number) + integer(b"\x82", count)
    return (target, number, 0, count), element(b"\xa0", octets)


def failed(target, number):
    return (target, number, 1), element(b"\xa1", integer(b"\x80", target) + integer(b"\x81", number))


def seen(target, number, position, octets):
    value = record(octets)
    place = integer(b"\x80", target) + integer(b"\x81", number) + integer(b"\x82", position)
    return (target, number, position, value), element(b"\xa2", place + value)


def key(fact):
    """Facts are in order of their kinds; of one kind by target, set and position; then by counts or records."""
    kind = fact[1][0]
    place = fact[0]
    return kind, place


def saved(count, facts):
    return names(count) + b"".join(octets for _, octets in sorted(facts, key=key))


def random_facts(dice, count):
    facts = set()
    for _ in range(dice.randrange(30)):
        target, number = dice.randrange(count), dice.choice((1, 1, 2, 300))
        position = dice.choice((1, 2, 3, 127, 128, 70_000))
        kind = dice.randrange(8)
        if kind == 0:
            facts.add(count_of(target, number, dice.choice((0, 5, 200))))
        elif kind == 1:
            facts.add(failed(target, number))
        else:
            facts.add(seen(target, number, position, dice.choice((b"a", b"b", b"c" * 127, b"d" * 300))))
    return facts


def write(path, octets):
    with open(path, "wb") as file:
        file.write(octets)


def octets_at(path):
    with open(path, "rb") as file:
        return file.read()


def join(zmeta, room, *words, before=None):
    ran = subprocess.run([zmeta, "join", *words], stdin=subprocess.DEVNULL, capture_output=True, cwd=room, timeout=300,
        preexec_fn=before, check=False)
    return ran.returncode, ran.stdout, ran.stderr


def merge(zmeta, room, made, *files, before=None):
    return join(zmeta, room, "--quiet", "--save", made, *files, before=before)


def limited():
    """The disk is full for a program: it may write no more than `SMALL` octets into a file."""
    signal.signal(signal.SIGXFSZ, signal.SIG_IGN)
    resource.setrlimit(resource.RLIMIT_FSIZE, (SMALL, SMALL))


def random_merges(zmeta, room):
    dice = random.Random(7)
    at = lambda name: os.path.join(room, name)
    for case in range(CASES):
        count, paths, parts = dice.choice((1, 3)), [], []
        for number in range(dice.randrange(1, 6)):
            parts.append(random_facts(dice, count))
            paths.append(f"part{number}")
            write(at(paths[-1]), saved(count, parts[-1]))
        due = saved(count, set().union(*parts))
        found = merge(zmeta, room, "made", *paths), octets_at(at("made"))
        if found != ((0, b"", b""), due):
            yield f"merging, case {case}: {found}, and {due} is due"
            return
        # in another order and grouping, one file twice, and with a list
        dice.shuffle(paths)
        half = len(paths) // 2
        groups = [paths[: half + 1], paths[half:] or paths]
        for number, group in enumerate(groups):
            merge(zmeta, room, f"group{number}", *group)
        status, _, told = join(zmeta, room, "--save", "listed", *paths)
        again = merge(zmeta, room, "again", "group1", "group0", "made"), octets_at(at("again")), octets_at(at("listed"))
        if again != ((0, b"", b""), due, due) or status not in (0, 1) or told:
            yield f"merging, case {case}, in groups: {again}, {status}, {told}, and {due} is due"
            return
        # the file that is made is one of those that are merged
        if (merge(zmeta, room, paths[0], *paths), octets_at(at(paths[0]))) != ((0, b"", b""), due):
            yield f"merging, case {case}: one of the files is not replaced by all"
            return


def damaged_merges(zmeta, room):
    """A damaged file is refused as a list of it is, and nothing is made."""
    dice = random.Random(8)
    at = lambda name: os.path.join(room, name)
    write(at("older"), OLDER)
    for case in range(CASES):
        whole = [saved(2, random_facts(dice, 2)) for _ in range(3)]
        hurt = dice.randrange(3)
        octets = bytearray(whole[hurt])
        place = dice.randrange(len(octets))
        if dice.randrange(2):
            octets[place] ^= dice.randrange(1, 256)
        else:
            del octets[place:]
        for number in range(3):
            write(at(f"file{number}"), bytes(octets) if number == hurt else whole[number])
        files = [f"file{number}" for number in range(3)]
        listed, merged = join(zmeta, room, *files), merge(zmeta, room, "older", *files)
        if listed[0] == 3 and (merged != (3, b"", listed[2]) or octets_at(at("older")) != OLDER):
            yield f"merging, damaged case {case}: {merged}, and {listed} is due"
            return
        if listed[0] != 3:
            if merged != (0, b"", b""):
                yield f"merging, damaged case {case}: {merged}, and the list is {listed}"
                return
            write(at("older"), OLDER)


def run_measured(words, to=os.devnull):
    """The status of a program, and the most KB that it had, as far as the system told while it ran. What the system
    tells at its end counts the memory of the program that started it, too. What it prints goes into a file."""
    most = 0
    with open(to, "wb") as printed, subprocess.Popen(words, stdout=printed) as child:
        while child.poll() is None:
            try:
                with open(f"/proc/{child.pid}/status", encoding="ascii") as told:
                    found = re.search(r"VmHWM:\s+(\d+) kB", told.read())
                most = max(most, int(found[1])) if found else most
            except OSError:
                # it has ended
                pass
            time.sleep(0.005)
    return child.returncode, most


def large_merge(zmeta, room):
    at = lambda name: os.path.join(room, name)
    for number in range(2):
        facts = [seen(0, 1, 2 * it + number, b"%0*d" % (RECORD, it)) for it in range(1, LARGE + 1)]
        write(at(f"large{number}"), names(1) + b"".join(octets for _, octets in facts))
    status, most = run_measured([zmeta, "join", "--quiet", "--save", at("all"), at("large0"), at("large1")])
    due = sum(os.path.getsize(at(f"large{it}")) for it in range(2)) - len(names(1))
    if status or most > MOST or os.path.getsize(at("all")) != due:
        yield f"merging, large: status {status}, {most} KB of at most {MOST}"


def tree_merge(zmeta, room):
    """The example that merges in a tree, side by side, makes the file that one merge makes."""
    dice = random.Random(9)
    for number in range(9):
        write(os.path.join(room, f"leaf{number}"), saved(1, random_facts(dice, 1)))
    leaves = [f"leaf{number}" for number in range(9)]
    given = ["OUT=tree", f"PARTS={' '.join(leaves)}", f"ZMETA={zmeta}"]
    ran = subprocess.run(["make", "--silent", "-j4", "-f", TREE, *given], cwd=room, capture_output=True, timeout=300,
                         check=False)
    due = merge(zmeta, room, "flat", *leaves), octets_at(os.path.join(room, "flat"))
    if ran.returncode or due[0] != (0, b"", b"") or octets_at(os.path.join(room, "tree")) != due[1]:
        yield f"merging in a tree: {ran}, and {due} is due"
    left = [it for it in sorted(os.listdir(room)) if it.startswith("tree.")]
    if left:
        yield f"merging in a tree left {left}"


def failing(zmeta, room):
    at = lambda name: os.path.join(room, name)
    for number in range(2):
        write(at(f"some{number}"), saved(1, {seen(0, 1, it + number, b"x" * 50) for it in range(1, 9)}))
    write(at("kept"), OLDER)
    found = merge(zmeta, room, "kept", "some0", "some1", before=limited), octets_at(at("kept"))
    if found != ((3, b"", b"zmeta: cannot write kept\n"), OLDER):
        yield f"merging, full disk: {found}"
    found = merge(zmeta, room, "/dev/full", "some0", "some1")
    if found != (3, b"", b"zmeta: cannot write /dev/full\n"):
        yield f"merging, full device: {found}"
    found = join(zmeta, room, "--save", "kept", "some0", "no")
    if found != (3, b"", b"zmeta: cannot read no\n") or octets_at(at("kept")) != OLDER:
        yield f"merging, no file: {found}"
    left = [it for it in sorted(os.listdir(room)) if it.endswith(".part") or it.startswith("zmeta-")]
    if left:
        yield f"merging left {left}"


def longest(zmeta, room):
    """An element of 4,194,304 octets is the longest, in files that are merged, and in those that are listed."""
    refused = 3, b"", b"zmeta: knowledge refused: NotKnowledge at 0\n"
    for size, due in ((LONGEST, (0, b"", b"")), (LONGEST + 1, refused)):
        # one name, behind two headers of five octets
        file = element(b"\xa4", element(b"\x80", b"n" * (size - 10)))
        write(os.path.join(room, "long"), file)
        for number, words in enumerate((["--quiet", "long", "long"], ["long"], ["/dev/stdin"])):
            made = f"longest{number}-{size}"
            ran = subprocess.run([zmeta, "join", "--save", made, *words], input=file, capture_output=True, cwd=room,
                                 timeout=300, check=False)
            path = os.path.join(room, made)
            there = octets_at(path) if os.path.exists(path) else None
            if (ran.returncode, ran.stdout, ran.stderr) != due or there != (None if due == refused else file):
                yield f"merging, an element of {size} octets, {words}: {ran.returncode} {ran.stderr}"


def faults(zmeta):
    with tempfile.TemporaryDirectory() as room:
        yield from random_merges(zmeta, room)
        yield from damaged_merges(zmeta, room)
        yield from tree_merge(zmeta, room)
        yield from large_merge(zmeta, room)
        yield from failing(zmeta, room)
        yield from longest(zmeta, room)


def main():
    found = [*faults(os.path.abspath(os.environ["ZMETA"]))]
    print("merged files", *found, sep="\n")
    return 1 if found else 0


if __name__ == "__main__":
    sys.exit(main())
