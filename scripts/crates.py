"""The crates of a repository as crates.txt names them, for the scripts that copy them or go through them.

A line of crates.txt is `NAME: DEP DEP ..`: a crate, and the crates and the toolchain's libraries that its files name.
"""

import pathlib
import shutil

TOP = pathlib.Path(__file__).resolve().parent.parent


def lines(top=TOP):
    """The lines of crates.txt that name a crate, in their order, by the crate's name."""
    text = (top / "crates.txt").read_text(encoding="utf-8")
    return {it.split(":")[0].split()[0]: it for it in text.splitlines() if ":" in it.split("#")[0]}


def rows(top=TOP):
    """What the files of each crate name, in the order of crates.txt."""
    return {name: line.split("#")[0].partition(":")[2].split() for name, line in lines(top).items()}


def below(names, of):
    """The crates of these names and all below them, of what the files of each crate name."""
    found, waiting = set(), [*names]
    while waiting:
        crate = waiting.pop()
        if crate in of and crate not in found:
            found.add(crate)
            waiting += of[crate]
    return found


def size(name, top=TOP):
    """How many lines the code, definitions and proofs of a crate have."""
    parts = [top / "crates" / name / part for part in ("src", "specs", "proofs")]
    return sum(file.read_bytes().count(b"\n") for part in parts for file in part.rglob("*.*"))


def copy(names, to):
    """Copies the crates of these names and all below them, and their lines of crates.txt, into a folder. It leaves out
    must-fail edits and what `rt` makes. Returns the names of what it copied."""
    wanted = below(names, rows())
    kept = [line for crate, line in lines().items() if crate in wanted]
    (to / "crates.txt").write_text("\n".join(kept) + "\n", encoding="utf-8")
    shutil.copy(TOP / "HANDLES", to)
    for crate in wanted:
        ignored = shutil.ignore_patterns("out", "must-fail")
        shutil.copytree(TOP / "crates" / crate, to / "crates" / crate, ignore=ignored)
    return wanted
