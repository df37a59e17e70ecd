"""Writes the records of saved files, and compares what is written with a model.

    ZMETA=PROGRAM python3 tests/program/extracting.py

The saved files are random, and are made here. What is due is made here, too: the rows of all files together, by
position, target and set. Files are read twice, so what is no regular file is read whole; both have to write the same.
Records of large files have to stay within a fixed memory, and a file that changes meanwhile is refused.
"""

import os
import random
import subprocess
import sys
import tempfile
import threading
import time

import saved
from merging import run_measured, write
from saved import COUNT, DIAG, FAILED, MARC21, SEEN, UNIMARC

CASES = 150
NAMES = ("a", "b library", "c")
# the records of each of two large files, the octets of a record, and the most KB that they may take
LARGE, RECORD, MOST = 60_000, 200, 16_000
# sets of one record each, the last at the lowest position
FALLING = 20_000
LEFT = ("positions with several records", "diagnostics", "records of another syntax",
        "structured records (as OPAC and GRS-1)")


def value_of(dice):
    """A record, its octets if it has any, its syntax if it names one, and the line that counts it if it has none."""
    kind, octets = dice.randrange(8), dice.choice((b"a", b"b", b"c" * 127, b"d" * 300))
    if dice.randrange(200) == 0:
        octets = b"e" * 70_000
    if kind == 0:
        return saved.surrogate(saved.BIB1, 13), None, None, 1
    syntax = dice.choice((MARC21, MARC21, UNIMARC))
    if kind == 1:
        return saved.retrieved(syntax, saved.element(b"\xa0", saved.integer(b"\x02", 5))), None, syntax, 3
    return saved.record(syntax, octets), octets, syntax, None


def random_facts(dice):
    """Facts, and the records of those that have one, by the facts."""
    facts, values = set(), {}
    for _ in range(dice.randrange(40)):
        target, number = dice.randrange(len(NAMES)), dice.choice((1, 1, 2, 300))
        kind = dice.randrange(12)
        if kind == 0:
            facts.add((COUNT, target, number, dice.choice((0, 5, 200))))
        elif kind == 1:
            facts.add((FAILED, target, number))
        elif kind == 2:
            facts.add((DIAG, target, number, 0, saved.diagnostic(saved.BIB1, 108)))
        else:
            value = value_of(dice)
            position = dice.choice((1, 2, 3, 127, 128, 70_000, 2**31, 2**62))
            facts.add((SEEN, target, number, position, value[0]))
            values[value[0]] = value
    return facts, values


def due_of(facts, values, only, syntax, conflicts):
    """The octets of the records of facts, the lines of what is left out, and the status."""
    facts = {it for it in facts if not only or NAMES[it[1]] in only}
    rows = {}
    for it in facts:
        if it[0] == SEEN:
            rows.setdefault((it[3], it[1], it[2]), []).append(it[4])
    out, left = b"", [0, 0, 0, 0]
    for _, found in sorted(rows.items()):
        if len(found) > 1 and not conflicts:
            left[0] += 1
            continue
        for value in sorted(found):
            _, octets, named, line = values[value]
            if syntax and named not in (None, syntax):
                left[2] += 1
            elif octets is None:
                left[line] += 1
            else:
                out += octets
    told = "".join(f"zmeta: {name} left out: {count}\n" for name, count in zip(LEFT, left) if count)
    return (1 if any(it[0] == FAILED for it in facts) else 0), out, told.encode()


def run(zmeta, room, command, *words):
    ran = subprocess.run([zmeta, command, *words], stdin=subprocess.DEVNULL, capture_output=True, cwd=room,
                         timeout=300, check=False)
    return ran.returncode, ran.stdout, ran.stderr


def records(zmeta, room, *words):
    return run(zmeta, room, "records", *words)


def through_pipe(zmeta, room, path, words, command="records"):
    """What a command writes if one of the files is a pipe."""
    pipe = os.path.join(room, "pipe")
    os.mkfifo(pipe)
    with open(os.path.join(room, path), "rb") as file:
        octets = file.read()

    def fill():
        try:
            write(pipe, octets)
        except BrokenPipeError:
            pass

    filler = threading.Thread(target=fill, daemon=True)
    filler.start()
    found = run(zmeta, room, command, *("pipe" if it == path else it for it in words))
    filler.join(10)
    os.unlink(pipe)
    return found


def random_records(zmeta, room):
    dice = random.Random(11)
    for case in range(CASES):
        facts, values, paths = set(), {}, []
        for number in range(dice.randrange(1, 6)):
            part = random_facts(dice)
            facts |= part[0]
            values |= part[1]
            paths.append(f"part{number}")
            write(os.path.join(room, paths[-1]), saved.of_facts(NAMES, part[0]))
        only = dice.choice(((), (), (NAMES[0],), (NAMES[1], NAMES[2])))
        syntax, conflicts = dice.choice((None, None, MARC21)), dice.randrange(2)
        words = [*paths, *(it for name in only for it in ("--only", name))]
        words += [*(("--syntax", syntax) if syntax else ()), *(("--conflicts",) if conflicts else ())]
        due = due_of(facts, values, only, syntax, conflicts)
        found = records(zmeta, room, *words)
        if found != due:
            yield f"records, case {case} of {words}: {found}, and {due} is due"
            return
        if case % 10 == 0 and through_pipe(zmeta, room, dice.choice(paths), words) != due:
            yield f"records, case {case} of {words}, through a pipe: {due} is due"
            return


def damaged(zmeta, room):
    """A damaged file is refused as a list of it is, and nothing is written."""
    dice = random.Random(12)
    for case in range(CASES):
        whole = [saved.of_facts(NAMES, random_facts(dice)[0]) for _ in range(3)]
        hurt = dice.randrange(3)
        octets = bytearray(whole[hurt])
        place = dice.randrange(len(octets))
        if dice.randrange(2):
            octets[place] ^= dice.randrange(1, 256)
        else:
            del octets[place:]
        for number in range(3):
            write(os.path.join(room, f"file{number}"), bytes(octets) if number == hurt else whole[number])
        files = [f"file{number}" for number in range(3)]
        ran = subprocess.run([zmeta, "join", *files], capture_output=True, cwd=room, timeout=300, check=False)
        found = records(zmeta, room, *files)
        if (ran.returncode == 3) != (found[0] == 3) or ran.returncode == 3 and found != (3, b"", ran.stderr):
            yield f"records, damaged case {case}: {found}, and the list is {ran.returncode}, {ran.stderr}"
            return


def large(zmeta, room):
    at = lambda name: os.path.join(room, name)
    for number in range(2):
        facts = (saved.fact(SEEN, 0, 1, 2 * it + number, saved.record(MARC21, b"%0*d" % (RECORD, it)))
                 for it in range(1, LARGE + 1))
        write(at(f"large{number}"), saved.named(NAMES) + b"".join(facts))
    status, most = run_measured([zmeta, "records", at("large0"), at("large1")], at("all"))
    with open(at("all"), "rb") as file:
        same = file.read() == b"".join(b"%0*d" % (RECORD, it // 2) for it in range(2, 2 * LARGE + 2))
    if status or most > MOST or not same:
        yield f"records, large: status {status}, {most} KB of at most {MOST}, {'as' if same else 'not as'} it is due"


def falling(zmeta, room):
    """Many sets whose positions fall, so that each record begins a run, take no long time."""
    facts = (saved.fact(SEEN, 0, it, FALLING - it + 1, saved.record(MARC21, b"%06d" % it))
             for it in range(1, FALLING + 1))
    write(os.path.join(room, "falling"), saved.named(NAMES) + b"".join(facts))
    began = time.monotonic()
    found = records(zmeta, room, "falling")
    took = time.monotonic() - began
    due = b"".join(b"%06d" % it for it in range(FALLING, 0, -1))
    if found != (0, due, b"") or took > 60:
        yield f"records, falling: status {found[0]}, {len(found[1])} octets, {took:.0f} seconds"


def changing(zmeta, room):
    """A file that is cut while its records are written is refused, once they come to its end."""
    path = os.path.join(room, "cut")
    facts = [saved.fact(SEEN, 0, 1, it, saved.record(MARC21, b"%0*d" % (RECORD, it))) for it in range(1, LARGE + 1)]
    write(path, saved.named(NAMES) + b"".join(facts))
    with subprocess.Popen([zmeta, "records", path], stdout=subprocess.PIPE, stderr=subprocess.PIPE) as child:
        front = os.read(child.stdout.fileno(), 1)
        # it waits until more of what it writes is read
        os.truncate(path, os.path.getsize(path) // 2)
        rest, told = child.communicate(timeout=300)
    due = b"".join(b"%0*d" % (RECORD, it) for it in range(1, LARGE + 1))
    if child.returncode != 3 or told != f"zmeta: cannot read {path}\n".encode() or not due.startswith(front + rest):
        yield f"records of a file that is cut: status {child.returncode}, {told}, {len(rest)} octets"


def faults(zmeta):
    with tempfile.TemporaryDirectory() as room:
        yield from random_records(zmeta, room)
        yield from damaged(zmeta, room)
        yield from large(zmeta, room)
        yield from falling(zmeta, room)
        yield from changing(zmeta, room)


def main():
    found = [*faults(os.path.abspath(os.environ["ZMETA"]))]
    print("records of files", *found, sep="\n")
    return 1 if found else 0


if __name__ == "__main__":
    sys.exit(main())
