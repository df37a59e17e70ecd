#!/usr/bin/env python3
"""How long the gate takes: a play of its queue, with the seconds of the table "By crate" in docs/GATE.md.

    bench/gate.py                    on 2 and on 4 processors, of the table's machine and of one 2.2 times as slow
    bench/gate.py CORES [CHECKS]     (as many checks at a time as the Makefile has, if left out)

First `rt ci` starts what is ready, proofs and tests before must-fail edits, and of these what has the most lines behind
it. Then the wrong bodies of tests/mutants/gate are tried, a share of a crate's a task, the largest with most edits
first. Each check has one job, and checks share the processors evenly. With -v it prints what goes on beside what. The
tests of the program, some two minutes, are not in it.
"""
import pathlib
import sys

TOP = pathlib.Path(__file__).resolve().parent.parent
sys.path.insert(0, str(TOP / "scripts"))
import crates  # noqa: E402
import machine  # noqa: E402
import measured  # noqa: E402

PROOFS = "proof", "tests"
SLOWEST = 2.2


def crates_of_each():
    """Each crate, and the crates of the repository that its line names."""
    named = crates.rows()
    return {name: [it for it in words if it in named] for name, words in named.items()}


def tasks(of):
    """Each task of rt ci: what it waits for, its seconds, and its lines; those of a crate after those of the crates below
    it. And each task behind it."""
    made, rows, last = {}, measured.table(), {}
    for name in sorted(of, key=lambda it: len(crates.below([it], of))):
        waits = [(it, "proof") for it in of[name]]
        made[name, "proof"] = waits, rows[name].seconds("code"), crates.size(name)
        if rows[name].seconds("tests"):
            made[name, "tests"] = waits, rows[name].seconds("tests"), crates.size(name)
        edits = rows[name].seconds("edits")
        if edits and (TOP / f"crates/{name}/must-fail").is_dir():
            made[name, "edits"] = [(name, it) for it in PROOFS if (name, it) in made], edits, 0
        elif edits:
            paths = [it for part in ("gate", "own") for it in (TOP / f"tests/mutants/{part}/{name}").glob("*.edit")]
            for at, share in enumerate(machine.shares(paths)):
                last[name, f"edits {at + 1}"] = [], edits * len(share) / len(paths), len(share) * crates.size(name)
    return made, last


def play(made, cores, checks, is_told, now=0.0):
    behind = dict.fromkeys(made, 0)
    for key in reversed([*made]):
        behind[key] += made[key][2]
        for it in made[key][0]:
            behind[it] = max(behind[it], behind[key])
    left, running, done = sorted(made, key=lambda it: (it[1] not in PROOFS, -behind[it])), {}, set()
    while left or running:
        for key in [it for it in left if done.issuperset(made[it][0])][: checks - len(running)]:
            left.remove(key)
            running[key] = made[key][1]
        if is_told:
            print(f"{now / 60:6.1f}  {', '.join(' '.join(it) for it in running)}")
        share = min(1, cores / len(running))
        step = min(running.values()) / share
        now += step
        running = {it: rest - step * share for it, rest in running.items()}
        ended = {it for it, rest in running.items() if rest < 1e-6}
        done |= ended
        running = {it: rest for it, rest in running.items() if it not in ended}
    return now


def tell(cores, checks, is_told, times=1.0):
    made, last = tasks(crates_of_each())
    whole = sum(it[1] for part in (made, last) for it in part.values())
    took = play(last, cores, checks, is_told, play(made, cores, checks, is_told))
    side = f"{cores} cores with {checks} checks at a time" + f", {times} times as slow" * (times != 1)
    print(f"{took * times / 60:.0f} minutes on {side}; {whole * times / 60:.0f} minutes of a processor")


def main(words):
    given = [it for it in words if it != "-v"]
    if not all(it.isdigit() and int(it) for it in given) or len(given) > 2:
        sys.exit(__doc__)
    is_told = "-v" in words
    if given:
        cores = int(given[0])
        tell(cores, int(given[1]) if len(given) > 1 else min(cores, 4), is_told)
        return
    for cores in (2, 4):
        for times in (1.0, SLOWEST):
            tell(cores, cores, is_told, times)


main(sys.argv[1:])
