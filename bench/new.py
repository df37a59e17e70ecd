#!/usr/bin/env python3
"""Measures what `zmeta new` takes of two saved files, and how that grows with their records.

    bench/new.py [RECORDS]       (100,000 if not said; once zmeta is built, or with its path in ZMETA)

Each file has so many records. Of the later one's, one in a hundred changed and one in a hundred is new, and all stand
one position further on. Prints the least times of five runs each, and the memory: of a quarter of the records, of half
of them and of all, and then of each view. The records are those of titles.py."""

import os
import sys
import tempfile

import titles
from titles import saved


def later(number, count):
    """The record of the later file in the place of this one of the earlier file."""
    if number % 100 == 1:
        return titles.record(count + number)
    record = titles.record(number)
    return record.replace(b"231 p.", b"232 p.") if number % 100 == 0 else record


def write_files(room, count):
    """The octets of both files."""
    for name, shift, made in (("old", 0, titles.record), ("new", 1, lambda it: later(it, count))):
        seen = [(saved.SEEN, 0, 1, it + 1 + shift, saved.record(saved.MARC21, made(it))) for it in range(count)]
        with open(os.path.join(room, name), "wb") as file:
            file.write(saved.of_facts(["a"], seen))
    return sum(os.path.getsize(os.path.join(room, name)) for name in ("old", "new"))


def line(room, count, size, *words):
    clock, processor, kilobytes, printed = titles.measured(room, *words, "old", "new")
    front = f"| `{' '.join(words)}` | {count:,} | {size / 1e6:.0f} MB | {clock:.2f} | {processor:.2f}"
    print(f"{front} | {kilobytes / 1000:.0f} MB | {printed:,} |", flush=True)


def main(count="100000"):
    if not os.access(titles.ZMETA, os.X_OK):
        sys.exit(f"bench/new.py: zmeta is not at {titles.ZMETA}: cd crates/zmeta && rt run -- --help")
    print(f"The load of the last minute is {os.getloadavg()[0]:.1f} on {os.cpu_count()} processors.\n")
    print("| `zmeta` | records of each | octets of both | seconds | of the processor | memory | octets printed |")
    print("|---|---|---|---|---|---|---|")
    for part in (4, 2, 1):
        with tempfile.TemporaryDirectory() as room:
            records = int(count) // part
            size = write_files(room, records)
            line(room, records, size, "new")
            if part == 1:
                for words in (("new", "--titles"), ("new", "--json"), ("new", "--html"), ("records", "--new")):
                    line(room, records, size, *words)


if __name__ == "__main__":
    sys.exit(main(*sys.argv[1:]))
