#!/usr/bin/env python3
"""Merges saved files piece by piece (`zmeta join --quiet --save`), and prints the time and memory that it takes.

    bench/merge.py PROGRAM                       two files of 100,000 records of 100 octets
    bench/merge.py PROGRAM FILES RECORDS OCTETS  so many files, of so many records each, of so many octets each

Records of the files stand in alternation, at positions of their own. The files are made in a folder of their own below
/tmp, and removed; the merged file is as large as all of them.
"""

import contextlib
import os
import re
import resource
import subprocess
import sys
import tempfile
import time


def length(count):
    if count < 128:
        return bytes([count])
    return bytes([0x81, count]) if count < 256 else bytes([0x82]) + count.to_bytes(2, "big")


def make(path, number, files, records, octets):
    """A saved file: the name `a`, and records of MARC 21 of set 1 at every position that is `number` of `files`."""
    oid = bytes.fromhex("06072a8648ce13050a")
    marc = b"\x81" + length(octets) + b"%0*d"
    external = len(oid) + 1 + len(length(octets)) + octets
    head = b"\x28" + length(external) + oid
    for tag in (b"\xa1", b"\xa1", b"\x30"):
        head = tag + length(external + len(head) - len(oid)) + head
    with open(path, "wb", buffering=1 << 20) as file:
        file.write(b"\xa4\x03\x80\x01a")
        for it in range(records):
            position = 1 + number + it * files
            place = position.to_bytes(position.bit_length() // 8 + 1, "big")
            body = b"\x80\x01\x00\x81\x01\x01\x82" + length(len(place)) + place
            contents = body + head + marc % (octets, position)
            file.write(b"\xa2" + length(len(contents)) + contents)


def main(words):
    if len(words) not in (1, 4):
        sys.exit(__doc__)
    program = os.path.abspath(words[0])
    files, records, octets = map(int, words[1:] or (2, 100_000, 100))
    with tempfile.TemporaryDirectory(prefix="zmeta-merge-", dir="/tmp") as room:
        paths = [os.path.join(room, f"part{number}") for number in range(files)]
        for number, path in enumerate(paths):
            make(path, number, files, records, octets)
        size = sum(os.path.getsize(it) for it in paths)
        began = time.monotonic()
        child = subprocess.Popen([program, "join", "--quiet", "--save", os.path.join(room, "all"), *paths])
        most = 0
        while child.poll() is None:
            # what the system tells at the end counts the memory of this program, too
            with contextlib.suppress(OSError), open(f"/proc/{child.pid}/status", encoding="ascii") as told:
                found = re.search(r"VmHWM:\s+(\d+) kB", told.read())
                most = max(most, int(found[1])) if found else most
            time.sleep(0.005)
        took, status = time.monotonic() - began, child.returncode
        used = resource.getrusage(resource.RUSAGE_CHILDREN).ru_utime
        if status or os.path.getsize(os.path.join(room, "all")) != size - 5 * (files - 1):
            sys.exit(f"merge: status {status}, and the file that is made is not as large as all")
    speed = f"{took:.2f} s, {used:.2f} s of a processor, {size / 1e6 / took:.0f} MB/s"
    print(f"{files} files, {size / 1e6:.1f} MB: {speed}, {most / 1000:.1f} MB of memory")


main(sys.argv[1:])
