#!/usr/bin/env python3
"""Refuses each allocation of the program's runs, and of tests, in turn, and looks at what they answer then: it alone,
with the next, and with all that follow.

A run has to end with status 4, `out of memory` and nothing printed, or as it does with ample memory. One that saves a
file may have printed all, and leaves the older file as it is, or saves. A test has to tell that it wants memory while
it makes itself ready, and from then on to pass: what it tests asks again where memory was refused, and has to answer
the same.

    python3 tests/out-of-memory/check.py     (once the program and the vectors are built; ZMETA may name another build)
"""

import os
import re
import subprocess
import sys
import tempfile
import threading
from concurrent.futures import ThreadPoolExecutor

ROOT = os.path.dirname(os.path.dirname(os.path.dirname(os.path.abspath(__file__))))
ZMETA = os.path.abspath(os.environ.get("ZMETA") or os.path.join(ROOT, "crates/zmeta/out/zmeta"))
VECTORS = os.path.join(ROOT, "crates/{0}/out/{0}_tests")

# stands for the path of a file that a run saves, and what is there before
SAVED, OLDER = "SAVED", b"an older file"
RUNS = [
    (["show"], "examples/present-response.hex"),
    (["pqf", "@attr 1=4 dune"], None),
    (["pqf", "@attr 1=4 @and dune @attr 1=1003 herbert"], None),
    (["pqf", "--title", "dun*", "--isbn", "0-441-01359-7", "--year", "1965-1970", "--any", "sand"], None),
    # what a file of catalogues says, and its mistake; and one that is not asked
    (["catalogues", "tests/program/files/keyed.toml"], None),
    (["catalogues", "tests/program/files/curly.toml"], None),
    (["catalogues", "tests/program/files/mistaken.toml"], None),
    (["ask", "--title", " ", "tests/program/files/abbey.toml"], None),
    # such a file as a world file, and a world file as such a file, and what they refuse
    (["catalogues", "--world", "--title", "a \"b", "tests/program/files/said.toml"], None),
    (["catalogues", "--world", "--title", "a", "tests/program/files/feed.toml"], None),
    (["catalogues", "--toml", "tests/program/files/keyed.world"], None),
    (["catalogues", "--toml", "tests/program/files/octet.world"], None),
    (["run", "--save", SAVED, "examples/libraries.world"], None),
    # answers that are shorter than what was asked for, and the same with moves
    (["run", "tests/out-of-memory/short.world"], None),
    (["run", "tests/out-of-memory/moves.world"], None),
    (["loop", "--save", SAVED, "examples/libraries.world"], None),
    (["ask", "--save", SAVED, "tests/program/files/hosts.world"], None),
    # a trace that is written, and one that is replayed and shown
    (["ask", "--trace", "/dev/null", "tests/program/files/hosts.world"], None),
    (["replay", "--titles", "--save", SAVED, "examples/traces/three-servers.trace"], None),
    (["replay", "examples/traces/broken-off.trace"], None),
    (["show", "--trace", "examples/traces/refused.trace", "--only", "small server"], None),
    (["join", "examples/monday.saved", "examples/tuesday.saved"], None),
    # a file of all, with the list, and merged in pieces
    (["join", "--save", SAVED, "examples/monday.saved", "examples/tuesday.saved"], None),
    (["join", "--quiet", "--save", SAVED, "examples/monday.saved", "examples/tuesday.saved"], None),
    # one count, and two that differ
    (["join", "tests/out-of-memory/four.saved", "tests/out-of-memory/four.saved"], None),
    (["join", "tests/out-of-memory/four.saved", "tests/out-of-memory/five.saved"], None),
    (["records", "examples/monday.saved", "examples/tuesday.saved"], None),
    # the view for readers: records of MARC 21 and UNIMARC with letters of MARC-8 and UTF-8, SUTRS, a conflict, two
    # counts, refusals
    (["run", "--titles", "--save", SAVED, "tests/out-of-memory/titles.world"], None),
    (["join", "--titles", "tests/out-of-memory/titles-one.saved", "tests/out-of-memory/titles-two.saved"], None),
    # lines of JSON, one search for all, and the records of one catalogue
    (["join", "--json", "tests/out-of-memory/titles-one.saved", "tests/out-of-memory/titles-two.saved"], None),
    (["run", "--title", "dune", "--author", "herbert", "--records", "1", "--syntax", "marc21",
      "examples/libraries.world"], None),
    (["records", "--only", "library", "--syntax", "marc21", "examples/monday.saved"], None),
    # what is new, changed and gone, in each form
    (["new", "examples/monday.saved", "examples/tuesday.saved"], None),
    (["new", "--titles", "tests/out-of-memory/titles-one.saved", "tests/out-of-memory/titles-two.saved"], None),
    (["new", "--json", "tests/out-of-memory/titles-one.saved", "tests/out-of-memory/titles-two.saved"], None),
    (["new", "--html", "examples/monday.saved", "examples/tuesday.saved"], None),
    (["records", "--new", "tests/out-of-memory/titles-one.saved", "tests/out-of-memory/titles-two.saved"], None),
    # wrong words, and help
    (["run"], None),
    (["show", "--hex"], None),
    (["--help"], None),
    (["ask", "--help"], None),
]
TESTS = [
    ("zknow_tests", "elements::pieces::a_session_goes_on_where_memory_was_refused"),
    ("zknow_tests", "known::what_is_known_grows_where_memory_was_refused"),
    ("zvectors", "pool::memory::a_session_goes_on_where_memory_was_refused"),
    ("zvectors", "failing::a_talk_tells_where_memory_was_refused"),
]
# as many runs at a time as there are processors
POOL = ThreadPoolExecutor(len(os.sched_getaffinity(0)))
# the last of all allocations
ALL = (1 << 64) - 1
# what a test says that could not make itself ready: `Unread` is what reading its rows says
WANTS = re.compile(r"error: (Unread|AllocError|AllocFailed|Memory|OutOfMemory|PqfError \{ at: \d+, kind: Memory \})")


def content(path):
    with open(path, "rb") as file:
        return file.read()


def run(room, words, file, first, last):
    """Runs a program with allocations refused (none where the last is 0): its status, both outputs, and the saved file,
    if it saves one; and its allocations."""
    count, saved = (os.path.join(room, f"{name}-{threading.get_ident()}") for name in ("count", "saved"))
    saves = SAVED in words
    if saves:
        with open(saved, "wb") as older:
            older.write(OLDER)
    words = [saved if it == SAVED else it for it in words]
    surroundings = dict(os.environ, LD_PRELOAD=os.path.join(room, "refuse.so"), REFUSE=str(first), LAST=str(last),
                        COUNT=count)
    with open(os.path.join(ROOT, file) if file else os.devnull, "rb") as given:
        ran = subprocess.run(words, stdin=given, capture_output=True, env=surroundings, cwd=ROOT, timeout=60,
                             close_fds=False)
    return (ran.returncode, ran.stdout, ran.stderr, content(saved) if saves else None), int(content(count))


def is_refused(answer, ample):
    """Whether memory was refused, and is said to be."""
    status, printed, told, saved = answer
    # (the file is saved also if no memory is found for the list)
    if saved is not None and (saved not in (OLDER, ample[3]) or printed not in (b"", ample[1])):
        return False
    return status == 4 and (saved is not None or not printed) and told.endswith(b"out of memory\n")


def look_at_run(room, words, file):
    ample, count = run(room, [ZMETA, *words], file, 1, 0)
    if ample[3] == OLDER:
        return f"zmeta {' '.join(words)}: saves nothing with ample memory: {ample}"
    refused = [(number, last) for number in range(1, count + 1) for last in (number, number + 1, ALL)]
    answers = POOL.map(lambda it: run(room, [ZMETA, *words], file, *it), refused)
    for (number, last), (answer, _) in zip(refused, answers):
        if answer != ample and not is_refused(answer, ample):
            return f"zmeta {' '.join(words)}: allocations {number} to {last} of {count} refused: {answer}"
    print(f"zmeta {' '.join(words)}: each of {count} allocations refused, with the next, and with all that follow")
    return None


def look_at_test(room, crate, name):
    tests = VECTORS.format(crate)
    ample, count = run(room, [tests, name], None, 1, 0)
    if ample[0]:
        return f"{name}: fails with ample memory: {ample}"
    passed = 0
    answers = POOL.map(lambda it: run(room, [tests, name], None, it, it), range(1, count + 1))
    for number, (answer, _) in enumerate(answers, 1):
        wants = WANTS.match(answer[2].decode(errors="replace"))
        if answer[0] and (passed or not wants):
            return f"{name}: allocation {number} of {count} refused: {answer}"
        passed += not answer[0]
    print(f"{name}: each of {count} allocations refused, {passed} of them in what it tests")
    return None if passed else f"{name}: tests nothing that takes memory"


def main():
    failed = 0
    with tempfile.TemporaryDirectory() as room:
        source = os.path.join(ROOT, "tests/out-of-memory/refuse.c")
        subprocess.run(["cc", "-O2", "-shared", "-fPIC", "-o", os.path.join(room, "refuse.so"), source, "-ldl"],
                       check=True)
        for fault in [look_at_run(room, *it) for it in RUNS] + [look_at_test(room, *it) for it in TESTS]:
            if fault:
                print(fault)
                failed += 1
    return 1 if failed else 0


if __name__ == "__main__":
    sys.exit(main())
