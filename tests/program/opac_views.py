#!/usr/bin/env python3
"""Compares what the program prints of random OPAC records, some of them damaged, with opac_model.py: the view of `join
--titles`, lines of JSON, and the records that `records` writes.

    ZMETA=PROGRAM tests/program/opac_views.py COUNT SEED

The status is 1 if they differ."""

import os
import random
import subprocess
import sys
import tempfile

import json_lines
import marc_made
import opac_model
import saved

NAME, FOUND = "made", 1_000_000
RECORDS = (*marc_made.MARC21_RECORDS, *marc_made.UNIMARC_RECORDS)
FILE = "opac.saved"


def run(zmeta, room, *words):
    ran = subprocess.run([zmeta, *words], capture_output=True, cwd=room, timeout=600)
    return ran.returncode, ran.stdout, ran.stderr


def faults_of_view(zmeta, room, records):
    """The first five lines that differ, if any, from the program and from the model."""
    status, printed, told = run(zmeta, room, "join", "--titles", FILE, FILE)
    if (status, told) != (0, b""):
        return [f"view of copies: {status} {told}"]
    ours, theirs = (it.split("\n") for it in (printed.decode(), opac_model.view(NAME, FOUND, records)))
    lines = enumerate(zip(ours, theirs), 1)
    differing = [f"view of copies, line {at}:\n    {one}\n    {other} by the model"
                 for at, (one, other) in lines if one != other]
    if len(ours) != len(theirs):
        differing.append(f"view of copies: {len(ours)} lines, {len(theirs)} by the model")
    return differing[:5]


def faults_of_records(zmeta, room, records):
    for words, asked in (((), None), (("--syntax", "marc21"), saved.MARC21), (("--syntax", "opac"), opac_model.OPAC)):
        found, due = run(zmeta, room, "records", FILE, *words), (0, *opac_model.written_of(records, asked))
        if found != due:
            counts = f"{len(found[1])} octets, {len(due[1])} by the model"
            text = f"{found[0]} {found[2]}\n    {due[0]} {due[2]} by the model"
            yield f"records of copies {' '.join(words)}: {counts}\n    {text}"


def faults(zmeta, room, count, seed):
    """What differs, if anything."""
    dice = random.Random(seed)
    records = [opac_model.made(dice, RECORDS) for _ in range(count)]
    seen = [
        (saved.SEEN, 0, 1, place, saved.retrieved(opac_model.OPAC, saved.element(b"\xa0", it)))
        for place, it in enumerate(records, 1)
    ]
    contents = saved.of_facts([NAME], [(saved.COUNT, 0, 1, FOUND), *seen])
    fault = json_lines.fault_of(zmeta, room, FILE, contents, ["join", FILE, FILE])
    return [*([fault] if fault else []), *faults_of_view(zmeta, room, records),
            *faults_of_records(zmeta, room, records)]


def main(count, seed):
    with tempfile.TemporaryDirectory() as room:
        found = faults(os.path.abspath(os.environ["ZMETA"]), room, int(count), int(seed))
    print(f"{count} records", *found, sep="\n")
    return 1 if found else 0


if __name__ == "__main__":
    sys.exit(main(*sys.argv[1:]))
