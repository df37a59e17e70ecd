#!/usr/bin/env python3
"""Worlds with much of one kind: requests that wait, ranges, long records, databases, words; and with replies or
requests that are too long to be sent. Of each, `zmeta run` and `zmeta loop` have to give the status, the list, what is
told of failed connections, and the saved file; and `zmeta join` has to list this file's facts.

    ZMETA=PROGRAM python3 tests/program/wide.py"""

import os
import subprocess
import sys
import tempfile
import time

from peers import search_for
from saved import BIB1, COUNT, DIAG, FAILED, MARC21, SEEN, diagnostic, of_facts, record, surrogate

# a run has to end within so many seconds
MOST = 60
# as many octets as a move may carry
ALL = 4294967295
# the most octets of a message, and of the records of a reply
MESSAGE, RECORDS = 2_097_152, 1_048_576
# a NamePlusRecord of database d has so many octets for a record of two, and of ten thousand
SHORT, LONG = 24, 10_032


class World:
    """A world file, and what is due of its run: facts, and reasons for which connections fail."""

    def __init__(self, step=10, window=4):
        self.lines, self.asks, self.moves = [f"step {step}", f"window {window}"], [], []
        self.names, self.facts, self.rows, self.blocks, self.told, self.trouble = [], [], [], [], [], False

    def target(self, name, size=RECORDS, flags="cn"):
        self.lines.append(f"target {name} {size} {flags}")

    def database(self, name, entries):
        """A database of entries: the octets, and a text with its Use attribute."""
        self.lines.append(f'db "{name}"')
        for octets, *fields in entries:
            self.lines.append(f"rec {MARC21} {octets}")
            self.lines += [f'field {use} "{text}"' for use, text in fields]

    def ask(self, name, want, query, database="d", syntax="-"):
        self.names.append(name)
        self.asks.append(f'ask {name} "{database}" {syntax} {want} "{query}"')

    def brings(self, name, number, *records, database="d"):
        """A count, and records with their positions."""
        at = self.names.index(name)
        self.facts.append((COUNT, at, 1, number))
        self.blocks.append(f'target "{name}" set 1 count {number}\n')
        for position, octets in records:
            self.facts.append((SEEN, at, 1, position, record(MARC21, octets.encode(), database)))
            self.rows.append((position, at, f'{position} "{name}" 1 rec {MARC21} "{database}" "{octets}"\n'))

    def lacks(self, name, *positions, database="d"):
        """Positions at which a diagnostic stands for a record that is too long."""
        at = self.names.index(name)
        for position in positions:
            self.facts.append((SEEN, at, 1, position, surrogate(BIB1, 17, database=database)))
            self.rows.append((position, at, f'{position} "{name}" 1 diag "{database}" {BIB1} 17 ""\n'))

    def fails(self, name, condition, info):
        """The search fails."""
        at, self.trouble = self.names.index(name), True
        self.facts += [(FAILED, at, 1), (DIAG, at, 1, 0, diagnostic(BIB1, condition, info))]
        self.blocks.append(f'target "{name}" set 1 failed\ntarget "{name}" set 1 diag 0 {BIB1} {condition} "{info}"\n')

    def text(self):
        return "\n".join(self.lines + self.asks + self.moves) + "\n"

    def listed(self):
        return "".join(self.blocks + [row for _, _, row in sorted(self.rows)])

    def answer(self):
        told = "".join(f'zmeta: target "{name}": {reason}\n' for name, reason in self.told)
        return int(bool(self.told) or self.trouble), self.listed(), told

    def saved(self):
        return of_facts(self.names, self.facts)


def entries(name, number, text="dune"):
    return [(f"{name}{it}", (4, text)) for it in range(1, number + 1)]


def records(name, positions):
    return [(it, f"{name}{it}") for it in positions]


def span(*ranges):
    return ",".join(f"{first}-{last}" for first, last in ranges)


# many requests and replies at a time


def crowd(step, window, size, flags, moves=()):
    """A hundred records."""
    world = World(step, window)
    world.target("a", size, flags)
    world.database("d", entries("a", 100))
    world.ask("a", 100, "dune")
    world.brings("a", 100, *records("a", range(1, 101)))
    world.moves = list(moves)
    return world


def released(order):
    """Init and the search are answered, and all Presents are carried; then their replies are released in this order,
    and carried."""
    once = [f"to a {ALL}", "rel a 0", f"from a {ALL}"]
    return [*once, *once, f"to a {ALL}", *(f"rel a {it}" for it in order), f"from a {ALL}"]


def crowds():
    for size in (RECORDS, 2 * SHORT):
        for flags in ("cn", "c"):
            yield crowd(1, 64, size, flags)
            yield crowd(3, 64, size, flags)
    yield crowd(3, 64, RECORDS, "n")
    # 64 replies wait: they are released from the last to the first; some from the midst; and none, since there is no
    # 65th
    for order in (range(63, -1, -1), (40, 20, 20, 30, 0, 59), (64, 4000)):
        yield crowd(1, 64, RECORDS, "cn", released(order))
        yield crowd(1, 64, 2 * SHORT, "c", released(order))
    # in pieces of one octet, so that a request is not whole while others wait
    yield crowd(1, 64, RECORDS, "cn", released(range(20, 0, -1)) + ["to a 1", "rel a 0", "from a 1"] * 100)


# many ranges


def gaps(step, window, size):
    """Each second record of 300, and two of three."""
    world = World(step, window)
    odd, pairs = range(1, 300, 2), [(it, it + 1) for it in range(1, 300, 3)]
    for name in "ab":
        world.target(name, size)
        world.database("d", entries(name, 300))
    world.ask("a", span(*((it, it) for it in odd)), "dune")
    world.ask("b", span(*pairs), "dune")
    world.brings("a", 300, *records("a", odd))
    world.brings("b", 300, *records("b", [it for pair in pairs for it in pair]))
    return world


def all_gaps():
    # a Present of all ranges; and what a reply of one or of some leaves of it
    for step in (1, 7, 1000):
        for size in (2 * SHORT, 40 * SHORT, RECORDS):
            yield gaps(step, 64, size)
        yield gaps(step, 1, 40 * SHORT)


# long records


def long(step, size, moves=()):
    """Records of ten thousand octets, found by a word of five thousand."""
    word = "w" * 5000
    octets = [f"{it:010}" * 1000 for it in range(20)]
    world = World(step, 64)
    world.target("a", size)
    world.database("d", [(it, (4, word)) for it in octets])
    world.ask("a", 20, f"@attr 1=4 {word}")
    if size >= LONG:
        world.brings("a", 20, *enumerate(octets, 1))
    else:
        world.brings("a", 20)
        world.lacks("a", *range(1, 21))
    world.moves = list(moves)
    return world


def all_long():
    for size in (RECORDS, 45_000, LONG, LONG - 1):
        yield long(10, size)
        yield long(1, size)
    yield long(20, RECORDS, ["to a 5000", f"to a {ALL}", "rel a 0", "from a 20", f"from a {ALL}", "to a 4097",
                             f"to a {ALL}", "rel a 0", f"from a {ALL}", f"to a {ALL}", "rel a 0", "from a 4097",
                             "from a 4096", "from a 1", "from a 100000"])
    # a record of a million octets, and one that is too long for any reply
    world = World()
    octets = ["m" * 1_000_000, "n" * (RECORDS - 20), "o"]
    world.target("a")
    world.database("d", [(it, (4, "dune")) for it in octets])
    world.ask("a", 3, "dune")
    world.brings("a", 3, (1, octets[0]), (3, octets[2]))
    world.lacks("a", 2)
    yield world


# many databases, records, fields and words


def shelves():
    """Ten targets of ten databases with ten records each, which have ten fields; each is asked for another database."""
    world = World(5, 8)
    uses = (4, 7, 21, 31, 12, 1003, 4, 21, 1003, 7)
    for target in range(10):
        world.target(f"t{target}", 4096, ("cn", "-")[target % 2])
        for shelf in range(10):
            entry = [(use, f"w{number} {shelf}") for number, use in enumerate(uses)]
            world.database(f"d{shelf}", [(f"t{target}.{shelf}.{number}", *entry) for number in range(1, 11)])
    for target in range(10):
        name, shelf = f"t{target}", 9 - target
        world.ask(name, 10, f"@attr 1={uses[target]} w{target}", f"d{shelf}")
        world.brings(name, 10, *((number, f"{name}.{shelf}.{number}") for number in range(1, 11)), database=f"d{shelf}")
    return world


NUMBERS = "one two three four five six seven eight nine ten"


def words():
    """A title of ten words, found by ten words in their order; a query of ten tokens, of ten terms, and of
    thirty-two."""
    world = World()
    titles = [NUMBERS, "ten nine eight seven six five four three two one", "one two three"]
    queries = {
        "phrase": (f'\\"{NUMBERS}\\"', [1]),
        "ten": ("@and @attr bib-1 1=4 one @and @term string ten nine", [1, 2]),
        "terms": ("@and " * 9 + NUMBERS, [1, 2]),
        "many": ("@or " * 31 + "x " * 29 + "ten y three", [1, 2, 3]),
        "none": (f'@not @and one three @or \\"{NUMBERS}\\" @or \\"ten nine\\" \\"one two\\"', []),
    }
    for name in queries:
        world.target(name)
        world.database("d", [(f"{name}{number}", (4, title)) for number, title in enumerate(titles, 1)])
    for name, (query, found) in queries.items():
        world.ask(name, 10, query)
        world.brings(name, len(found), *((position, f"{name}{number}") for position, number in enumerate(found, 1)))
    return world


# what is too long to be sent


def unsent():
    """A search of as many octets as a message may have is sent, and one of one more is not; the others are asked."""
    for more in (0, 1):
        world = World()
        term = "x" * (2 * MESSAGE + more - len(search_for("x" * MESSAGE)))
        assert len(search_for(term)) == MESSAGE + more
        for name in "abc":
            world.target(name)
            world.database("d", entries(name, 1))
        for name, query in zip("abc", ("dune", term, "dune")):
            world.ask(name, 1, query)
            if query == "dune":
                world.brings(name, 1, (1, f"{name}1"))
            elif more:
                world.trouble = True
            else:
                world.brings(name, 0)
        yield world


def lost():
    """A reply of more octets than a message may have is lost, and its connection ends, without a Close: the text of an
    attribute set is longer than its encoding."""
    world = World()
    for name in "abc":
        world.target(name)
        world.database("d", entries(name, 1))
    world.ask("a", 1, "dune")
    world.ask("b", 1, "@attrset 1.2" + ".4294967295" * 200_000 + " dune")
    world.ask("c", 1, "@attrset 1.2.4294967295 dune")
    world.brings("a", 1, (1, "a1"))
    world.fails("c", 121, "1.2.4294967295")
    world.told = [("b", "Ended")]
    return world


def named():
    """A reply that is longer than its records may be, since the name of a database is, and a diagnostic stands for
    each."""
    world, name = World(), "d" * (RECORDS + 10)
    world.target("a")
    world.database(name, entries("a", 2))
    world.ask("a", 2, "dune", name)
    world.brings("a", 2)
    world.lacks("a", 1, 2, database=name)
    return world


def made():
    yield from crowds()
    yield from all_gaps()
    yield from all_long()
    yield shelves()
    yield words()
    yield from unsent()
    yield lost()
    yield named()


# runs


def answer_of(zmeta, room, *given):
    ran = subprocess.run([zmeta, *given], capture_output=True, cwd=room, timeout=MOST)
    return ran.returncode, ran.stdout.decode(), ran.stderr.decode()


def differs(found, due):
    """A short word on answers that differ, which may be very long."""
    one, other = (f"{it[0]}, {len(it[1])} octets, {it[2][:200]}" for it in (found, due))
    return f"status {one}; {other} are due"


def fault_of(zmeta, room, number, world):
    """What is not as it should be of a world, if anything."""
    name, saved = f"wide-{number}.world", f"wide-{number}.saved"
    with open(os.path.join(room, name), "w", encoding="utf-8") as file:
        file.write(world.text())
    due, joined = world.answer(), (int(any(it[0] == FAILED for it in world.facts)), world.listed(), "")
    for command in ("run", "loop"):
        found = answer_of(zmeta, room, command, name, "--save", saved)
        if found != due:
            return f"{command} {world.text()[:2000]}\n    {differs(found, due)}"
        with open(os.path.join(room, saved), "rb") as file:
            if file.read() != world.saved():
                return f"{command} {world.text()[:2000]}\n    another file is saved"
    found = answer_of(zmeta, room, "join", saved, saved)
    return None if found == joined else f"join {world.text()[:2000]}\n    {differs(found, joined)}"


def main():
    begun = time.monotonic()
    with tempfile.TemporaryDirectory() as room:
        worlds = [*made()]
        program = os.path.abspath(os.environ["ZMETA"])
        found = [it for it in (fault_of(program, room, *it) for it in enumerate(worlds)) if it]
    print(f"{len(worlds)} worlds, in {time.monotonic() - begun:.1f} s", *found, sep="\n")
    return 1 if found else 0


if __name__ == "__main__":
    sys.exit(main())
