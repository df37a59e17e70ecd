#!/usr/bin/env python3
"""Prints the copies of OPAC records, a line for each of their fields, as the standard names it (Z39.50-2003, Appendix
REC).

    tests/interop/holdings.py yaz FILE       what yaz-client printed for `format opac` and `show`
    tests/interop/holdings.py json FILE      what zmeta printed with --json"""

import json
import sys

# fields that are true or false, which yaz-client prints as numbers
FLAGS = ("availableNow", "renewable", "onHold")


def by_yaz(lines):
    """A line for each field of each copy. A copy begins at `Data holdings`, a volume or a circulation record at its
    number."""
    is_copy = False
    for line in lines:
        word, _, value = line.rstrip("\n").partition(": ")
        if line.startswith("Data holdings"):
            is_copy = True
            yield "copy"
        elif is_copy and line.startswith(("volume ", "circulation ")):
            yield line.split()[0]
        elif is_copy and word.strip().isalpha() and value:
            yield f"{word.strip()} {value}"
        elif not line.startswith(" ") and not word.isalpha():
            is_copy = False


def fields(said):
    for name, value in said.items():
        if name in ("volumes", "circulationData"):
            for it in value:
                yield {"volumes": "volume", "circulationData": "circulation"}[name]
                yield from fields(it)
        else:
            yield f"{name} {int(value) if name in FLAGS else value}"


def by_json(lines):
    for line in lines:
        for copy in json.loads(line).get("holdings", []):
            yield "copy"
            yield from fields(copy)


def main():
    with open(sys.argv[2], encoding="utf-8") as file:
        for line in {"yaz": by_yaz, "json": by_json}[sys.argv[1]](file):
            print(line)


if __name__ == "__main__":
    main()
