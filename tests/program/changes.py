"""Compares two saved files by `zmeta new` and `zmeta records --new`, and what is printed with a model.

    ZMETA=PROGRAM python3 tests/program/changes.py

The files are random, and are made here. Their records are of MARC with control numbers or without, or of other
syntaxes, and some are diagnostics; the catalogues have names that both files have or one alone, in any order.
"""

import json
import os
import random
import subprocess
import sys
import tempfile

import marc_made
import saved

CASES = 150
NAMES = ("a", "b library", 'c "quoted"', "d\\e")
# octets of other syntaxes
PLAIN = ((saved.XML, b"<one/>"), (saved.XML, b"<two/>"), (saved.SUTRS, b"three"), ("1.2.840.10003.5.109.3", b"four"))
# of a command
TIME = 60
# records of one file of the two large ones
LARGE = 30_000


def marc(number, title):
    fields = [("245", marc_made.field("10", "a" + title))]
    return marc_made.made([("001", number), *fields] if number is not None else fields)


class Record:
    """A NamePlusRecord: its database, the octets in a syntax or a diagnostic, and the control number that it is due."""

    def __init__(self, database, syntax, octets, number, diagnostic=None):
        self.database, self.diagnostic = database, diagnostic
        self.syntax, self.octets, self.number = syntax, octets, number

    def encoded(self):
        if self.diagnostic is None:
            return saved.record(self.syntax, self.octets, self.database)
        return saved.surrogate(saved.BIB1, self.diagnostic, "", self.database)

    def contents(self):
        """What is compared of it: all but the database."""
        return self.syntax, self.octets, self.diagnostic

    def text(self):
        database = "-" if self.database is None else f'"{self.database}"'
        if self.diagnostic is None:
            return f"rec {self.syntax} {database} {quoted(self.octets)}"
        return f'diag {database} {saved.BIB1} {self.diagnostic} ""'


def quoted(octets):
    shown = "".join(
        "\\" + chr(it) if it in b'"\\' else chr(it) if 0x20 <= it <= 0x7E else f"\\x{it:02x}" for it in octets
    )
    return f'"{shown}"'


def random_record(dice):
    database = dice.choice((None, "books"))
    kind = dice.randrange(10)
    if kind == 0:
        return Record(database, None, None, None, dice.choice((14, 238)))
    if kind < 3:
        syntax, octets = dice.choice(PLAIN)
        return Record(database, syntax, octets, None)
    number = dice.choice((None, b"", b"1", b"2", b"30", b" 30", b"ocm00000042"))
    octets = marc(number, dice.choice(("Dune", "Dune messiah", "Sand")))
    # what is no record of ISO 2709 has no number
    if dice.randrange(12) == 0:
        octets, number = b"no record", None
    syntax = dice.choice((saved.MARC21, saved.MARC21, saved.UNIMARC, "1.2.840.10003.5.109.3", saved.SUTRS))
    return Record(database, syntax, octets, None if syntax == saved.SUTRS else number or None)


def random_file(dice):
    names = dice.sample(NAMES, dice.randrange(len(NAMES) + 1))
    seen = {}
    for _ in range(dice.randrange(14)):
        # a target without a name, too
        place = dice.randrange(len(names) + 1), dice.choice((1, 1, 2)), dice.choice((1, 2, 3, 200))
        record = random_record(dice)
        seen[(*place, record.encoded())] = record
    return names, seen


def octets_of(file, failed):
    names, seen = file
    facts = [(saved.SEEN, target, number, position, octets) for target, number, position, octets in seen]
    return saved.of_facts(names, facts + ([(saved.FAILED, 0, 1)] if failed else []))


def catalogue(names, target):
    return names[target] if target < len(names) else target


def shown(names, target):
    return quoted(names[target].encode()) if target < len(names) else f"#{target}"


def held(file):
    """The contents, and the control numbers, of the records of each catalogue."""
    names, seen = file
    contents = {(catalogue(names, place[0]), it.contents()) for place, it in seen.items()}
    numbers = {(catalogue(names, place[0]), it.number) for place, it in seen.items() if it.number is not None}
    return contents, numbers


def due(old, new):
    """The changes, each as its kind, the names of its file, its place and its record."""
    found = []
    for file, other, kinds in ((new, held(old), ("changed", "new")), (old, held(new), (None, "gone"))):
        names, seen = file
        contents, numbers = other
        for place in sorted(seen, key=lambda it: (it[2], it[0], it[1], it[3])):
            record, named = seen[place], catalogue(names, place[0])
            if (named, record.contents()) in contents:
                continue
            kind = kinds[0] if record.number is not None and (named, record.number) in numbers else kinds[1]
            if kind:
                found.append((kind, names, place, record))
    return found


def listed(changes):
    lines = [
        f"{kind} {place[2]} {shown(names, place[0])} {place[1]} {record.text()}\n"
        for kind, names, place, record in changes
    ]
    return "".join(lines).encode()


def run(zmeta, room, *words):
    ran = subprocess.run(
        [zmeta, *words], stdin=subprocess.DEVNULL, capture_output=True, cwd=room, timeout=TIME, check=False
    )
    return ran.returncode, ran.stdout, ran.stderr


def write(room, name, octets):
    with open(os.path.join(room, name), "wb") as file:
        file.write(octets)


def place_of(row):
    """Where the record of a line of JSON stands; the line is left without it."""
    name = row.pop("catalogue", None)
    return row.pop("catalogueNumber") if name is None else name, row.pop("set"), row.pop("position")


def rows_by_place(text):
    """The objects of the records of a file, by where they stand."""
    found = {}
    for line in text.decode().splitlines():
        row = json.loads(line)
        if "position" in row:
            place = place_of(row)
            found[place] = row["records"] if row["type"] == "conflict" else [row]
    return found


def fault_of_json(zmeta, room, text, changes):
    """What is not as it should be of the lines of JSON, if anything: each has the kind, and what `join --json` has of
    the record at its place."""
    old, new = (rows_by_place(run(zmeta, room, "join", "--json", it)[1]) for it in ("old", "new"))
    found = []
    for line in text.decode().splitlines():
        row = json.loads(line)
        kind, place = row.pop("change"), place_of(row)
        if row not in (old if kind == "gone" else new)[place]:
            return row
        found.append((kind, *place))
    wanted = [(kind, catalogue(names, place[0]), place[1], place[2]) for kind, names, place, _ in changes]
    return None if found == wanted else (found, wanted)


def fault_of_titles(text, changes):
    counts = [line for line in text.decode().splitlines() if line and not line.startswith(" ")]
    wanted = [f"{sum(it[0] == kind for it in changes)} {kind}" for kind in ("new", "changed", "gone")]
    return None if counts == wanted else (counts, wanted)


def fault_of_page(text, changes):
    """In the page a row stands for each change, in the table of its kind."""
    parts = text.decode().split("<h2 id=")[1:]
    found = [(part.split(">")[0], part.count("<tr class=")) for part in parts]
    wanted = [(f'"{kind}"', sum(it[0] == kind for it in changes)) for kind in ("new", "changed", "gone")]
    return None if found == wanted else (found, wanted)


def alone(changes):
    """The octets that are written of changes: those of each position that has one record with octets, in the order of
    the list; and what is left out."""
    places = {}
    for kind, names, place, record in changes:
        if kind != "gone":
            places.setdefault((place[2], place[0], place[1]), []).append((place[3], record))
    octets, conflicts, diagnostics = b"", 0, 0
    for place in sorted(places):
        if len(places[place]) > 1:
            conflicts += 1
        elif places[place][0][1].diagnostic is not None:
            diagnostics += 1
        else:
            octets += places[place][0][1].octets
    told = f"zmeta: positions with several records left out: {conflicts}\n" if conflicts else ""
    told += f"zmeta: diagnostics left out: {diagnostics}\n" if diagnostics else ""
    return octets, told.encode()


def fault_of(zmeta, room, dice):
    old, new = random_file(dice), random_file(dice)
    # of some pairs the later file has most of what the earlier one has, elsewhere
    if dice.randrange(3) == 0:
        names, seen = old
        moved = {(place[0], place[1], place[2] + 5, place[3]): it for place, it in seen.items() if dice.randrange(4)}
        new = names, {**moved, **{place: it for place, it in new[1].items() if place[0] <= len(names)}}
    failed = dice.randrange(6) == 0, dice.randrange(6) == 0
    status = 1 if any(failed) else 0
    write(room, "old", octets_of(old, failed[0]))
    write(room, "new", octets_of(new, failed[1]))
    changes = due(old, new)
    found = run(zmeta, room, "new", "old", "new")
    if found != (status, listed(changes), b""):
        return found, (status, listed(changes))
    found = run(zmeta, room, "new", "--json", "old", "new")
    if (found[0], found[2]) != (status, b"") or fault_of_json(zmeta, room, found[1], changes):
        return "--json", found, fault_of_json(zmeta, room, found[1], changes)
    for view, look in (("--titles", fault_of_titles), ("--fields", fault_of_titles), ("--html", fault_of_page)):
        found = run(zmeta, room, "new", view, "old", "new")
        if (found[0], found[2]) != (status, b"") or look(found[1], changes):
            return view, found, look(found[1], changes)
    found = run(zmeta, room, "records", "--new", "old", "new")
    if found != (status, *alone(changes)):
        return found, (status, *alone(changes))
    return None


def faults_of_files(zmeta, room):
    """A file that is refused is told as `join` tells of it, the earlier one first."""
    write(room, "some", saved.of_facts(["a"], []))
    write(room, "other", saved.of_facts(["b"], []))
    write(room, "cut", saved.of_facts(["a"], [(saved.COUNT, 0, 1, 4)])[:-1])
    for command in (("new",), ("records", "--new")):
        for old, new, told in (
            ("none", "cut", b"cannot read none"), ("cut", "none", b"knowledge refused: NotKnowledge at 1"),
            ("some", "none", b"cannot read none"), ("some", "cut", b"knowledge refused: NotKnowledge at 1"),
        ):
            found = run(zmeta, room, *command, old, new)
            if found != (3, b"", b"zmeta: " + told + b"\n"):
                yield f"{command} {old} {new}: {found}"
        # the files need not have the same catalogues
        if run(zmeta, room, *command, "some", "other") != (0, b"", b""):
            yield f"{command}: files of other catalogues are refused"
    found = run(zmeta, room, "records", "--new", "some", "some", "other")
    if found != (3, b"", b"zmeta: names differ\n"):
        yield f"records --new, of two files: {found}"
    found = run(zmeta, room, "records", "--new", "some", "other", "--only", "a")
    if found != (3, b"", b"zmeta: no catalogue a\n"):
        yield f"records --new --only: {found}"


def fault_of_large(zmeta, room):
    """Two files of many records, of which each has one that the other has not, take no long time."""
    octets = [marc(b"%d" % number, f"title {number}") for number in range(LARGE + 1)]
    for name, front in (("large-old", 0), ("large-new", 1)):
        facts = [(saved.SEEN, 0, 1, it + 1, saved.record(saved.MARC21, octets[it + front])) for it in range(LARGE)]
        write(room, name, saved.of_facts(["a"], facts))
    found = run(zmeta, room, "new", "large-old", "large-new")
    lines = [f'new {LARGE} "a" 1 rec {saved.MARC21} - {quoted(octets[LARGE])}\n']
    lines += [f'gone 1 "a" 1 rec {saved.MARC21} - {quoted(octets[0])}\n']
    good = found == (0, "".join(lines).encode(), b"")
    return None if good else f"large files: {found[0]} {found[1][:300]} {found[2]}"


def faults(zmeta):
    dice = random.Random(11)
    with tempfile.TemporaryDirectory() as room:
        for case in range(CASES):
            found = fault_of(zmeta, room, dice)
            if found:
                yield f"changes, case {case}: {found}"
                return
        yield from faults_of_files(zmeta, room)
        found = fault_of_large(zmeta, room)
        if found:
            yield found


def main():
    found = [*faults(os.path.abspath(os.environ["ZMETA"]))]
    print(f"changes of {CASES} pairs of saved files", *found, sep="\n")
    return 1 if found else 0


if __name__ == "__main__":
    sys.exit(main())
