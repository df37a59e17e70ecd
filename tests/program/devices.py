#!/usr/bin/env python3
"""Runs the program behind failing.c, where one call of the C library fails, or standard input brings an octet a read.

    ZMETA=PROGRAM python3 tests/program/devices.py        (a long input; check.py runs the rows of `devices`)"""

import os
import subprocess
import sys
import tempfile

HERE = os.path.dirname(os.path.abspath(__file__))
# failing.c, compiled
SHIM = ".failing.so"
# a run has to end within so many seconds
MOST = 300
# so often the program reads standard input, and the last read has to find its end
READS = 1_000_000
CLOSE = b"BF30059F81530100"


def make_shim(room):
    shim = os.path.join(room, SHIM)
    subprocess.run(["cc", "-O2", "-shared", "-fPIC", "-o", shim, os.path.join(HERE, "failing.c"), "-ldl"], check=True)


def failing(zmeta, room, which, words, given):
    """The status of a command, what it prints, and what it tells, if that call fails."""
    more = dict(os.environ, LD_PRELOAD=os.path.join(room, SHIM), FAILS=which)
    ran = subprocess.run([zmeta, *words], input=given, capture_output=True, cwd=room, timeout=MOST, env=more)
    return ran.returncode, ran.stdout, ran.stderr


def faults(zmeta, room):
    """What is not as it should be of input that ends at the last read, and behind it."""
    for octets, due in ((READS - 1, (0, b"close - 0\n", b"")), (READS, (3, b"", b"zmeta: cannot read -\n"))):
        found = failing(zmeta, room, "drip", ["show"], CLOSE.ljust(octets))
        if found != due:
            yield f"devices: {octets} octets, one a read: {found}"


def main():
    with tempfile.TemporaryDirectory() as room:
        make_shim(room)
        found = [*faults(os.path.abspath(os.environ["ZMETA"]), room)]
    print("input of an octet a read", *found, sep="\n")
    return 1 if found else 0


if __name__ == "__main__":
    sys.exit(main())
