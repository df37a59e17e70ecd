#!/usr/bin/env python3
"""Measures decoding and `zmeta show` beside libyaz, on the same messages: bench/measure.py [FOLDER], at the top of the
repository, once `rt run` has built crates/zmeta/out/zmeta. Files go to FOLDER (none: a new one in /tmp). README.md says
more."""

import os
import pathlib
import re
import shutil
import subprocess
import sys
import tempfile
import time

TOP = os.path.dirname(os.path.dirname(os.path.abspath(__file__)))
sys.path.insert(0, f"{TOP}/scripts")
import crates  # noqa: E402

ZMETA = f"{TOP}/crates/zmeta/out/zmeta"


def build_decode(folder):
    """The program of bench/decode.rt.txt, proved and built as a crate above the repository's own."""
    top = pathlib.Path(folder, "repository")
    shutil.rmtree(top, ignore_errors=True)
    top.mkdir(parents=True)
    crates.copy(["zapdu"], top)
    with open(top / "crates.txt", "a", encoding="utf-8") as file:
        file.write("decode: zber zapdu\n")
    os.makedirs(f"{top}/crates/decode/src")
    shutil.copyfile(f"{TOP}/bench/decode.rt.txt", f"{top}/crates/decode/src/main.rt")
    with open(f"{folder}/close.ber", "rb") as close:
        subprocess.run(["rt", "run", "--", "1", "4096"], cwd=f"{top}/crates/decode", stdin=close, check=True)
    return f"{top}/crates/decode/out/decode"


def build_libyaz(folder):
    program = f"{folder}/libyaz"
    subprocess.run(["cc", "-O2", "-o", program, f"{TOP}/bench/libyaz.c", "-lyaz"], check=True)
    return program


def call(command, path):
    with open(path, "rb") as file:
        return subprocess.run(command, stdin=file, capture_output=True, text=True, check=True)


def instructions(command, path):
    tool = ["valgrind", "--tool=callgrind", "--callgrind-out-file=/dev/null"]
    return int(re.search(r"Collected : (\d+)", call([*tool, *command], path).stderr)[1])


def allocations(command, path):
    """How many blocks the run took, and how many octets they had."""
    said = call(["valgrind", *command], path).stderr
    found = re.search(r"total heap usage: ([\d,]+) allocs, [\d,]+ frees, ([\d,]+) bytes", said)
    return tuple(int(it.replace(",", "")) for it in found.groups())


def milliseconds(command, path, runs=20):
    """The least time of a run."""
    least = float("inf")
    for _ in range(runs):
        start = time.perf_counter()
        call(command, path)
        least = min(least, time.perf_counter() - start)
    return 1000 * least


def each(measured, command_of, path):
    """What one pass over the messages takes: three passes less one, halved, so that the start and the reading fall
    out."""
    return (measured(command_of(3), path) - measured(command_of(1), path)) / 2


def tell_instructions(folder, ours, theirs):
    print("| Instructions an octet | decode | libyaz | `zmeta show` |\n|---|---|---|---|")
    for name in ("marc", "grs1", "close"):
        path, digits = f"{folder}/{name}.ber", f"{folder}/{name}.hex"
        size = os.path.getsize(path)
        mine = each(instructions, lambda n: [ours, str(n), str(size)], path) / size
        other = each(instructions, lambda n: [theirs, path, str(n)], path) / size
        can_show = os.path.exists(ZMETA) and os.path.exists(digits)
        shown = f"{instructions([ZMETA, 'show'], digits) / size:.1f}" if can_show else ""
        print(f"| {name} | {mine:.1f} | {other:.1f} | {shown} |", flush=True)


def tell_times(folder, ours, theirs):
    print(f"\nThe machine's load of the last minute is {os.getloadavg()[0]:.1f} on {os.cpu_count()} processors.")
    print("\n| Milliseconds | in one piece | by 4,096 octets | by 64 octets | libyaz |\n|---|---|---|---|---|")
    for name in ("marc", "grs1", "close"):
        path = f"{folder}/{name}.ber"
        pieces = (os.path.getsize(path), 4096, 64)
        mine = [each(milliseconds, lambda n: [ours, str(n), str(it)], path) for it in pieces]
        other = each(milliseconds, lambda n: [theirs, path, str(n)], path)
        print(f"| {name} | " + " | ".join(f"{it:.2f}" for it in [*mine, other]) + " |", flush=True)


def tell_allocations(folder, ours):
    """Messages of as many elements take as many blocks, and as many octets but for those that were fed."""
    taken = []
    for name in ("small", "large"):
        path = f"{folder}/{name}.ber"
        size = os.path.getsize(path)
        one, two = (allocations([ours, str(n), str(size)], path) for n in (1, 2))
        taken.append((two[0] - one[0], two[1] - one[1] - size))
        print(f"{name}: {taken[-1][0]} blocks, {taken[-1][1]} octets besides the {size} fed")
    if taken[0] != taken[1]:
        sys.exit("decoding copies contents: what it takes grows with them")


def main():
    folder = sys.argv[1] if len(sys.argv) > 1 else tempfile.mkdtemp(prefix="bench-")
    os.makedirs(folder, exist_ok=True)
    subprocess.run([sys.executable, f"{TOP}/bench/messages.py", folder], check=True)
    ours, theirs = build_decode(folder), build_libyaz(folder)
    tell_instructions(folder, ours, theirs)
    tell_times(folder, ours, theirs)
    print()
    tell_allocations(folder, ours)


main()
