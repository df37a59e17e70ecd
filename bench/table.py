#!/usr/bin/env python3
"""Measures the table "By crate" of docs/GATE.md: runs the gate's proofs, and counts the processor's seconds of each check.

    bench/table.py [--times F]                  runs them anew, and writes the whole table (from one to two hours)
    bench/table.py [--times F] zber zasn        runs these crates and those below them, and writes their rows
    bench/table.py --show [--times F] [NAME..]  the same, and only prints the rows

What `rt ci` keeps of earlier runs is not measured: those rows stay. The numbers of wrong bodies are counted anyway.
The table has the seconds of one machine. Another takes F times as long: `make test` says how many, and what was
measured is divided by it. Run it on a machine that does nothing else.
"""

import pathlib
import re
import subprocess
import sys

TOP = pathlib.Path(__file__).resolve().parent.parent
sys.path.insert(0, str(TOP / "scripts"))
import crates  # noqa: E402
import measured  # noqa: E402


def measure(words):
    """Runs a command, and returns its status and what its checks took."""
    with measured.Watch() as watch:
        status = subprocess.run(words, cwd=TOP, check=False).returncode
    return status, watch.took()


def number(value):
    return f"{value:.0f}" if value else ""


def row_of(name, took, old, times):
    """The row of a crate. What was not measured stays as the old row has it."""
    cells = old.cells if old else [""] * 6
    seconds = measured.sums(took)
    for kind, at in measured.Row.KINDS.items():
        if (name, kind) in seconds:
            cells[at] = number(seconds[name, kind] / times)
    own = [gb for crate, _, _, gb in took if crate == name]
    if own:
        cells[5] = f"{max(own):.1f}"
    cells[2] = number(sum(len([*(TOP / it).glob("*.edit")]) for it in tried_in(name)))
    cells[3] = number(len([*(TOP / f"tests/mutants/{name}").glob("*.edit")]))
    return f"| `{name}` |{'|'.join(cells)}|"


def tried_in(name):
    """The folders of the wrong bodies of a crate that the gate tries."""
    return f"crates/{name}/must-fail", f"tests/mutants/gate/{name}"


def run(names):
    """Proves and tries what the gate proves and tries, and returns its status and what its checks took."""
    status, took = measure(["rt", "ci", "--anew", *names])
    # (rt ci with names works on a copy, so that nothing lies here to try wrong bodies over)
    if not status and not names:
        status, more = measure(["tests/mutants/check", "--gate"])
        took += more
    return status, took


def main(words):
    is_shown = "--show" in words
    times = float(words[words.index("--times") + 1]) if "--times" in words[:-1] else 1
    wanted = [it for at, it in enumerate(words) if it not in ("--show", "--times") and words[at - 1 : at] != ["--times"]]
    if set(wanted) - set(crates.lines()):
        sys.exit(__doc__)
    status, took = run(wanted)
    if status:
        sys.exit("table: the run did not pass, so nothing is written")
    page = measured.GATE.read_text(encoding="utf-8")
    head, rows = re.search(r"(?m)^(\| Crate \|.*\n\|[-|]+\|\n)((?:\|.*\n)+)", page).groups()
    old = measured.table()
    new = "".join(row_of(name, took, old.get(name), times) + "\n" for name in crates.lines())
    if is_shown:
        print(head + new, end="")
    else:
        measured.GATE.write_text(page.replace(head + rows, head + new), encoding="utf-8")


main(sys.argv[1:])
