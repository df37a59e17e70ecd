#!/usr/bin/env python3
"""Asks catalogues with `zmeta ask --json`, and prints the year, the title and the author of each record, or how many
octets it has.

    python3 examples/ask.py FILE [OPTIONS]       for example: ask.py catalogues --at-once --title dune

ZMETA may have the path of zmeta; else it is on the command path."""

import base64
import json
import os
import subprocess
import sys


def shown(record):
    texts = [record[it] for it in ("year", "title", "author") if it in record]
    octets = base64.b64decode(record.get("octets", record.get("encoding")))
    return "  ".join(texts) or f"{len(octets)} octets"


zmeta = os.environ.get("ZMETA", "zmeta")
with subprocess.Popen([zmeta, "ask", "--json", *sys.argv[1:]], stdout=subprocess.PIPE) as asked:
    for fact in map(json.loads, asked.stdout):
        # The records of a conflict stand in an array; any other line is one fact.
        for it in fact.get("records", [fact]):
            if it["type"] == "record":
                print(fact["position"], fact["catalogue"], shown(it), sep="  ")
sys.exit(asked.returncode)
