#!/usr/bin/env python3
"""Measures what the view for readers costs beside the list.

    bench/titles.py [RECORDS]       (100,000 if not said; once zmeta is built, or with its path in ZMETA)

Prints the least times of five runs each, and the memory. The status is 1 if the view takes a second and a half of
processor time more than the list. The records are made by tests/program/marc_made.py, each with a number in its title,
at the positions of ten catalogues."""

import os
import subprocess
import sys
import tempfile
import time

TOP = os.path.dirname(os.path.dirname(os.path.abspath(__file__)))
sys.path.insert(0, f"{TOP}/tests/program")

import marc_made  # noqa: E402
import saved  # noqa: E402

ZMETA = os.path.abspath(os.environ.get("ZMETA") or f"{TOP}/crates/zmeta/out/zmeta")
CATALOGUES = 10
RUNS = 5
MOST = 1.5

# titles and makers: in ASCII, in MARC-8 with marks, and in UTF-8
TITLES = (
    (b"How to program a computer /", b"Jack Collins.", " "),
    (b"Le\xe2gendes de Dvo\xe9r\xe2ak /", b"e\xe2dite\xe2es par D\xe8oblin.", " "),
    ("Преступление и наказание /".encode(), "Ф. М. Достоевский.".encode(), "a"),
    ("Les e\u0301tudes de l'abbe\u0301 /".encode(), "E\u0301. Zola.".encode(), "a"),
)


def record(number):
    """A record of some 650 octets, as catalogues have them."""
    title, maker, coding = TITLES[number % len(TITLES)]
    subject = marc_made.field(" 0", "aA subject heading of a usual length", "xHistory", f"y{number}")
    return marc_made.made(
        [
            ("001", b"%08d" % number), ("008", marc_made.coded(1900 + number % 100)),
            ("020", marc_made.field("  ", f"a{number:010d} (hbk.)")),
            ("100", marc_made.field("1 ", b"a" + maker)),
            ("245", marc_made.field("10", b"aNumber %d, " % number + title, b"c" + maker)),
            ("260", marc_made.field("  ", "aNew York :", "bA publisher,", f"cc{1900 + number % 100}.")),
            ("300", marc_made.field("  ", "axi, 231 p. :")),
            *[("650", subject)] * 5,
        ],
        coding,
    )


def write_files(room, count):
    """A saved file of so many records, and one of the names alone, which `join` takes beside it."""
    names = [f"catalogue {it}" for it in range(CATALOGUES)]
    seen = [(saved.SEEN, it % CATALOGUES, 1, it // CATALOGUES + 1, saved.record(saved.MARC21, record(it)))
            for it in range(count)]
    counts = [(saved.COUNT, it, 1, count // CATALOGUES) for it in range(CATALOGUES)]
    for name, facts in (("known.saved", counts + seen), ("names.saved", [])):
        with open(os.path.join(room, name), "wb") as file:
            file.write(saved.of_facts(names, facts))
    return os.path.getsize(os.path.join(room, "known.saved"))


def measured(room, *words):
    """The least seconds of the runs, on the clock and of the processor, the kilobytes of memory, and the octets
    printed."""
    clock = processor = float("inf")
    out = os.path.join(room, "out")
    for _ in range(RUNS):
        with open(out, "wb") as file:
            start = time.perf_counter()
            child = subprocess.Popen([ZMETA, *words], stdout=file, cwd=room)
            _, status, usage = os.wait4(child.pid, 0)
            clock = min(clock, time.perf_counter() - start)
        processor = min(processor, usage.ru_utime + usage.ru_stime)
        if status:
            sys.exit(f"zmeta {' '.join(words)}: status {os.waitstatus_to_exitcode(status)}")
    return clock, processor, usage.ru_maxrss, os.path.getsize(out)


def main(count="100000"):
    if not os.access(ZMETA, os.X_OK):
        sys.exit(f"bench/titles.py: zmeta is not at {ZMETA}: cd crates/zmeta && rt run -- --help")
    with tempfile.TemporaryDirectory() as room:
        size = write_files(room, int(count))
        print(f"{int(count):,} records, a saved file of {size / 1e6:.0f} MB. The least of {RUNS} runs.")
        print(f"The load of the last minute is {os.getloadavg()[0]:.1f} on {os.cpu_count()} processors.\n")
        print("| `zmeta join` | seconds | of the processor | memory | octets printed |\n|---|---|---|---|---|")
        taken = []
        for label, words in (("the list", ()), ("the list, `--hex`", ("--hex",)),
                             ("the view, `--titles`", ("--titles",))):
            clock, processor, kilobytes, printed = measured(room, "join", *words, "known.saved", "names.saved")
            taken.append(processor)
            print(f"| {label} | {clock:.2f} | {processor:.2f} | {kilobytes / 1000:.0f} MB | {printed:,} |", flush=True)
        more = taken[-1] - taken[0]
        print(f"\nThe view takes {more:.2f} s of the processor more than the list.")
        return 1 if more >= MOST else 0


if __name__ == "__main__":
    sys.exit(main(*sys.argv[1:]))
