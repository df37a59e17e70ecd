#!/usr/bin/env python3
"""Writes the messages that are measured into a folder: marc.ber, grs1.ber, close.ber, and the first two in
hexadecimal."""

import os
import random
import sys

TOP = os.path.dirname(os.path.dirname(os.path.abspath(__file__)))
sys.path.insert(0, f"{TOP}/tests/program")

from saved import element, integer  # noqa: E402

WORDS = ("the library catalogue of a town by river and sea Dune Herbert Frank Chilton 1965 "
         "history science letters notes new edition illustrated volume index maps").split()


def phrase(chance, least, most):
    return " ".join(chance.choice(WORDS) for _ in range(chance.randint(least, most))).encode()


def marc(chance, size):
    """Octets as a MARC record's: fields of words with their delimiters, cut at the size."""
    record = b"02000nam a2200000 a 4500"
    while len(record) < size:
        record += b"10\x1fa" + phrase(chance, 3, 12) + b"\x1fb" + phrase(chance, 1, 6) + b"\x1e"
    return record[: size - 1] + b"\x1d"


def tagged(kind, tag, data):
    """A tagged element of a GRS-1 record: its tag and a string."""
    return element(b"\x30", integer(b"\x81", kind), element(b"\xa2", integer(b"\x82", tag)),
                   element(b"\xa4", element(b"\x1b", data)))


def grs1(chance, elements):
    fields = (tagged(chance.randint(1, 3), chance.randint(1, 60), phrase(chance, 1, 2)) for _ in range(elements))
    return element(b"\x30", *fields)


def record(syntax, encoding):
    """A NamePlusRecord: an EXTERNAL in the syntax 1.2.840.10003.5 and its last arc."""
    identifier = element(b"\x06", b"\x2a\x86\x48\xce\x13\x05", syntax)
    return element(b"\x30", element(b"\xa1", element(b"\xa1", element(b"\x28", identifier, encoding))))


def response(records):
    """A PresentResponse of these records."""
    fields = [integer(b"\x98", len(records)), integer(b"\x99", 1), integer(b"\x9b", 0), element(b"\xbc", *records)]
    return element(b"\xb9", *fields)


def close():
    return element(b"\xbf\x30", integer(b"\x9f\x81\x53", 0))


def main(folder):
    chance = random.Random(1)
    files = {
        "marc": response([record(b"\x0a", element(b"\x81", marc(chance, 2000))) for _ in range(200)]),
        "grs1": response([record(b"\x69", element(b"\xa0", grs1(chance, 100))) for _ in range(100)]),
        "close": close() * (2_097_152 // len(close())),
    }
    # one message of small bodies and one of large, of as many elements
    for name, size in (("small", 100), ("large", 8000)):
        files[name] = response([record(b"\x0a", element(b"\x81", marc(chance, size))) for _ in range(200)])
    for name, octets in files.items():
        with open(f"{folder}/{name}.ber", "wb") as file:
            file.write(octets)
        if name in ("marc", "grs1"):
            with open(f"{folder}/{name}.hex", "w") as file:
                file.write(octets.hex())


main(sys.argv[1])
