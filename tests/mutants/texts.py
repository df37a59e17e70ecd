#!/usr/bin/env python3
"""Says whether each wrong body still changes a text that stands: each `old:` once in its file.

Most of tests/mutants and those of tests/program/gives-up are tried only on demand (by the script check beside them), and
one of crates/*/must-fail that changes nothing fails nothing, so a changed name could leave one that tries nothing. The
status is 1 where a text is gone or stands twice.
"""
import pathlib
import sys

TOP = pathlib.Path(__file__).resolve().parents[2]


def faults_of(edit, name):
    crate, at, number = TOP / "crates" / name, None, 0
    for line in edit.read_text(encoding="utf-8").splitlines():
        word, _, text = line.partition(": ")
        if word == "file":
            at = crate / text.strip()
            if not at.is_file():
                yield f"there is no {text.strip()}"
                return
        elif word == "old":
            number += 1
            found = at.read_text(encoding="utf-8").count(text) if at else 0
            if found != 1:
                yield f"this stands {found} times: {text.strip()}"
    if not number:
        yield "it changes nothing"


def main():
    left = [(edit, edit.parent.name) for it in ("*", "gate/*") for edit in (TOP / "tests/mutants").glob(f"{it}/*.edit")]
    tried = [(edit, edit.parts[-3]) for edit in (TOP / "crates").glob("*/must-fail/*.edit")]
    # (the files of these are named from the top)
    built = [(edit, "..") for edit in (TOP / "tests/program/gives-up").glob("*.edit")]
    edits = sorted(left + tried + built)
    faults = [f"{edit.relative_to(TOP)}: {fault}" for edit, name in edits for fault in faults_of(edit, name)]
    for fault in faults:
        print(f"mutants: {fault}", file=sys.stderr)
    told = f"{len(faults)} faults" if faults else f"{len(edits)} wrong bodies change a text that stands"
    print(f"mutants: {told}")
    return 1 if faults or not edits else 0


if __name__ == "__main__":
    sys.exit(main())
