#!/usr/bin/env python3
"""Compares what targets in memory find and answer with what is due: sessions of `rows/served.rows`, octet for octet;
rows of `rows/targets.rows`; and searches of no kind in particular, with a model of which entries match.

    ZMETA=PROGRAM python3 tests/program/targets.py

A row of `matched` is run as a world. The others are sent to `zmeta serve`, and so are the searches, each with all
records that are found."""

import os
import random
import re
import socket
import subprocess
import sys
import tempfile
import time

from peers import (
    ACCEPTED, ATTRIBUTES, CLOSE, END, INIT, connected, found, free_port, init_reply, received, search, searching,
)
from saved import MARC21, element, integer, object_identifier, record
from served import unfound

HERE = os.path.dirname(os.path.abspath(__file__))
# random worlds, and how many of them one target has
WORLDS, PART = 500, 50
# the largest size of a set of which all records come with the response
ALL = 1000
MANY = 10_000
# so many searches are sent at a time
SIDE = 25
# a run has to end within so many seconds
MOST = 300
# seconds behind each piece of a request
REST = 0.001

# The libraries of sessions: the entries of the database `d`, their octets and fields, if there are databases. The
# database `e` has one entry.
DUNE = ["4 dune"]
LIBRARIES = {"none": None, "one": {"hi": DUNE}, "three": {"c1": DUNE, "c2": DUNE, "c3": DUNE}}
FOURTH = {"thirty octets of one record  .": ["4 Dune messiah", "1003 Herbert"]}
# The databases of rows, by the first words of these.
PLACED = {"a": {"a0": ["4 one"], "a1": ["4 two"]}, "b": {"b0": ["4 one dune"], "b1": DUNE, "b2": DUNE}}
REPEATED = {"a": {"a0": ["4 dune", "1003 herbert"]}}
FAULTS = {"a": {"a0": DUNE}, "b": {"b0": DUNE}}


def unescaped(text):
    return re.sub(rb"%([0-9a-f]{2})", lambda it: bytes.fromhex(it[1].decode()), text.encode())


def rows_of(table):
    with open(os.path.join(HERE, "rows", table + ".rows"), encoding="utf-8") as file:
        return [it for it in file.read().split("\n") if it and not it.startswith("#")]


# worlds


def quoted(octets):
    return b'"' + re.sub(rb'(["\\])', rb"\\\1", octets) + b'"'


def field_line(row):
    """The line of a field, `USE TEXT`."""
    use, _, text = row.partition(" ")
    return b"field %s %s\n" % (use.encode(), quoted(unescaped(text)))


def target_lines(name, settings, databases):
    """The lines of a target: its settings, and the fields of the entries of each database."""
    lines = [b"target %s %s\n" % (name.encode(), settings.encode())]
    for database, entries in databases.items():
        lines.append(b"db %s\n" % database.encode())
        for octets, fields in entries.items():
            lines += [b"rec %s %s\n" % (MARC21.encode(), quoted(octets.encode())), *map(field_line, fields)]
    return b"".join(lines)


def written(room, name, octets):
    with open(os.path.join(room, name), "wb") as file:
        file.write(octets)
    return name


class Served:
    """`zmeta serve` with a target of a world file, for so many connections."""

    def __init__(self, zmeta, room, name, world, connections):
        self.port = free_port()
        words = [zmeta, "serve", f"127.0.0.1:{self.port}", name, world, str(connections)]
        self.process = subprocess.Popen(words, stdout=subprocess.PIPE, stderr=subprocess.PIPE, cwd=room)

    def __enter__(self):
        return self

    def __exit__(self, *_):
        self.process.kill()
        self.process.communicate()

    def fault(self):
        """What is not as it should be of its end, if anything."""
        try:
            ended = *self.process.communicate(timeout=END), self.process.returncode
        except subprocess.TimeoutExpired as error:
            return str(error)
        return None if ended == (b"", b"", 0) else str(ended)


def serving(zmeta, room, settings, databases, connections):
    """A target with these settings and databases is served."""
    world = written(room, "served.world", target_lines("t", settings, databases))
    return Served(zmeta, room, "t", world, connections)


def answer(link, pieces, due):
    """What comes for a request in pieces where so much is due: no octets if the server ends the connection."""
    try:
        for it in pieces:
            link.sendall(it)
            time.sleep(REST)
        return received(link, max(1, len(due)))
    except ConnectionError:
        return b""


# sessions


def sessions():
    """Each session: its row, and its requests with their replies; None where the server waits for more."""
    found = []
    for row in rows_of("served"):
        if row.startswith("new "):
            found.append((row, []))
        else:
            request, due = row.split(" = ")
            reply = None if due == ".." else b"" if due == "-" else bytes.fromhex(due)
            found[-1][1].append(([*map(bytes.fromhex, request.split())], reply))
    return found


def fault_of_session(port, steps):
    """The first reply that differs, if one does."""
    with connected(port) as link:
        for pieces, due in steps:
            if due is None:
                link.sendall(b"".join(pieces))
                continue
            got = answer(link, pieces, due)
            if got != due:
                return f"{b' '.join(pieces).hex()} = {got.hex()}, and {due.hex()} is due"
        try:
            link.shutdown(socket.SHUT_WR)
            rest = received(link, 1 << 20)
        except OSError:
            rest = b""
        return f"at the end: {rest.hex()}" if rest else None


def faults_of_sessions(zmeta, room):
    by_row = {}
    for row, steps in sessions():
        by_row.setdefault(row, []).append(steps)
    for row, each in by_row.items():
        library, settings = row.split(" ", 2)[1:]
        databases = {"d": LIBRARIES[library], "e": FOURTH} if LIBRARIES[library] else {}
        with serving(zmeta, room, settings, databases, len(each)) as server:
            try:
                told = [fault_of_session(server.port, steps) for steps in each] + [server.fault()]
            except TimeoutError as error:
                told = [repr(error)]
            yield from (f"{row}: {it}" for it in told if it)


# a world file whose targets are served

SMALL = b"""step 3
window 7
window 4
target a 48 cn
db d
rec 1.2.840.10003.5.10 a1
field 4 emma
rec 1.2.840.10003.5.10 a2
db e
host b h:210
target c 4096 r
ask c d - 10 \"@attr 1=4 dune\"
ask b d 1.2.840.10003.5.10 0 dune
ask a e - 1-2,5-7 emma
to a 100
rel c 2
from a 1"""


def sessions_of_small():
    """Of each target its settings, its databases, and what is found there."""
    first = [(INIT, init_reply(sizes="850130 860130")),
             (search(1, b"1", ["d"], "emma", ALL, ALL + 1), all_found([("a1", "d")])),
             (search(1, b"2", ["e"], "emma"), found(1, 0, 0)),
             (search(1, b"3", ["f"], "emma"), unfound(1, 235, "f"))]
    second = [(INIT, init_reply(options="840301c000", sizes="85021000 86021000", result="8c0100"))]
    return {"a": first, "c": second}


def faults_of_small(zmeta, room):
    world = written(room, "small.world", SMALL)
    for name, steps in sessions_of_small().items():
        with Served(zmeta, room, name, world, 1) as server:
            fault = fault_of_session(server.port, [([request], due) for request, due in steps]) or server.fault()
            if fault:
                yield f"small world, {name}: {fault}"


# rows that are run


def tables():
    """The rows of `rows/targets.rows` by their first words, each as its two first parts and what is due."""
    found = {}
    for row in rows_of("targets"):
        told, _, due = row.partition(" => ")
        word, _, rest = told.partition(" ")
        first, _, second = rest.partition(" | ")
        found.setdefault(word, []).append((first, second, due))
    return found


def printed(zmeta, room, name, world):
    ran = subprocess.run([zmeta, "run", written(room, name, world)], capture_output=True, cwd=room, timeout=MOST)
    return ran.returncode, ran.stdout, ran.stderr


def faults_of_matched(zmeta, room, rows):
    """One world has a target for each row, of one entry, and asks it for one record."""
    targets, asks, counts = [], [], []
    for number, (query, fields, due) in enumerate(rows):
        targets.append(target_lines(f"t{number}", "4096 cn", {"a": {"r": fields.split(" | ")}}))
        asks.append(b"ask t%d a - 1 %s\n" % (number, quoted(unescaped(query))))
        counts.append(int(due == "true"))
    lines = [b'target "t%d" set 1 count %d\n' % it for it in enumerate(counts)]
    lines += [b'1 "t%d" 1 rec %s "a" "r"\n' % (number, MARC21.encode()) for number, it in enumerate(counts) if it]
    status, listed, told = printed(zmeta, room, "matched.world", b"".join(targets + asks))
    if (status, told) != (0, b""):
        yield f"matched: {status} {told}"
    there = {*listed.splitlines(True)}
    for number, (line, row) in enumerate(zip(lines, rows)):
        if line not in there:
            yield f"matched {row}: not {number} {line}"
    if listed != b"".join(lines):
        yield "matched: the list is another"


def faults_of_many(zmeta, room):
    """Ten thousand entries are searched."""
    entry = b"rec %s r\nfield 4 \"the quick brown fox jumps over the lazy dog\"\nfield 1003 dune\n" % MARC21.encode()
    world = b"target t 4096 cn\ndb a\n" + entry * MANY + b'ask t a - 1 "@and \\"lazy dog\\" @not dune zebra"\n'
    listed = b'target "t" set 1 count %d\n1 "t" 1 rec %s "a" "r"\n' % (MANY, MARC21.encode())
    ran = printed(zmeta, room, "many.world", world)
    if ran != (0, listed, b""):
        yield f"many entries: {ran}"


# rows that are sent


def element_of(zmeta, query):
    """The element around a query in prefix notation."""
    ran = subprocess.run([zmeta, "pqf", query], capture_output=True, check=True, timeout=END)
    return bytes.fromhex(ran.stdout.splitlines()[1].decode())


def searched(zmeta, room, databases, searches):
    """What differs of searches, each of names and the element around its query, with the reply that is due."""
    # a server waits for a while only
    searches = [*searches]
    with serving(zmeta, room, "1048576 cn", databases, 1) as server, connected(server.port) as link:
        if answer(link, [INIT], ACCEPTED) != ACCEPTED:
            yield "Init"
        for at in range(0, len(searches), SIDE):
            some = searches[at : at + SIDE]
            link.sendall(b"".join(searching(1, b"1", names, query, ALL, ALL + 1) for _, names, query, _ in some))
            for told, _, _, due in some:
                got = received(link, len(due))
                if got != due:
                    yield f"{told}: {got.hex()}\n    {due.hex()} is due"
        if answer(link, [CLOSE], CLOSE) != CLOSE:
            yield "Close"
        fault = server.fault()
        if fault:
            yield fault


def all_found(entries):
    """The response with all that is found: the octets of records, each with its database."""
    listed = [record(MARC21, octets.encode(), database) for octets, database in entries]
    return found(1, len(listed), 0, listed)


def entries_of(databases, names):
    """The entries of the databases that are named, each database once: octets, database and fields."""
    return [(octets, it, fields) for it in dict.fromkeys(names) for octets, fields in databases[it].items()]


def placed(zmeta, rows):
    for query, names, due in rows:
        entries = entries_of(PLACED, names.split())
        reply = all_found([entries[int(it)][:2] for it in due.split()])
        yield f"placed {query} | {names}", names.split(), element_of(zmeta, query), reply


def repeated(rows):
    for word, attributes, due in rows:
        numbers = [tuple(map(int, it.split("="))) for it in attributes.split()]
        reply = all_found([("a0", "a")] if due == "true" else [])
        yield f"repeated {word} | {attributes}", ["a"], query_of(operand(numbers, word.encode())), reply


def failed(zmeta, rows):
    for query, names, due in rows:
        named = [] if names == "-" else names.split()
        if due == "none":
            # each entry has a title alone
            used = re.search(r" 1=(\d+) ", query)
            entries = entries_of(FAULTS, named) if used is None or used[1] in ("4", "1016") else []
            reply = all_found([it[:2] for it in entries])
        else:
            condition, _, info = due.partition(" ")
            reply = unfound(1, int(condition), info)
        yield f"fault {query} | {names}", named, element_of(zmeta, query), reply


# searches of no kind in particular: words of which one begins another, with all that stands between words

WORDS = b"a", b"A", b"ab", b"aB", b"ba", b"b1", b"\xe9", b"\xe9a", b"-"
BETWEEN = b" ", b"-", b", ", b""
USES = 4, 1003, 1016, 99
NAMED = "a", "b", "a b", "b a", "b a b", "a a", "b b a a"


def operand(attributes, text):
    """An operand with these attributes, each a type and a number."""
    each = [element(b"\x30", integer(b"\x9f\x78", kind), integer(b"\x9f\x79", value)) for kind, value in attributes]
    return element(b"\xa0", element(b"\xbf\x66", element(b"\xbf\x2c", *each), element(b"\x9f\x2d", text)))


def query_of(root):
    """The element around a query under bib-1."""
    return element(b"\xb5", element(b"\xa1", object_identifier(ATTRIBUTES), root))


def text_of(dice, most):
    return b"".join(dice.choice(WORDS) + dice.choice(BETWEEN) for _ in range(dice.randrange(most + 1)))


def any_entries(dice, name):
    """Entries, each with fields of a Use and a text."""
    return {f"{name}-{number}": [(dice.choice(USES), text_of(dice, 6)) for _ in range(dice.randrange(1, 4))]
            for number in range(dice.randrange(6))}


def any_operand(dice):
    """An operand: its attributes and its text."""
    used = dice.choice([(), (), ((1, 4),), ((1, 1003),), ((1, 1016),)])
    truncated = dice.choice([(), ((5, 1),), ((5, 100),)])
    return (*used, *truncated), text_of(dice, 3)


def any_query(dice, operators):
    """An operand; or an operator, 0 to 2 for and, or, and and-not, and two queries."""
    query = any_operand(dice)
    for _ in range(operators):
        other = any_operand(dice)
        query = dice.randrange(3), *dice.sample((query, other), 2)
    return query


def spelt(query):
    """The element of a query as `any_query` makes it."""
    if len(query) == 2:
        return operand(*query)
    operator, left, right = query
    return element(b"\xa1", spelt(left), spelt(right), element(b"\xbf\x2e", element(bytes([0x80 + operator]))))


def words_of(text):
    """The words of octets in lower case, with a space before each and behind the last."""
    return b" ".join([b"", *re.findall(rb"[a-z0-9\x80-\xff]+", text.lower()), b""])


def has_operand(fields, attributes, text):
    """Whether the words stand one after the other in a field of the Use, the last of them perhaps cut."""
    numbers, due = dict(attributes), words_of(text)
    if due == b" ":
        return False
    used, part = numbers.get(1, 1016), due[:-1] if numbers.get(5) == 1 else due
    return any(part in words_of(it) for use, it in fields if used in (1016, use))


def is_match(fields, query):
    """Whether an entry with these fields is matched."""
    if len(query) == 2:
        return has_operand(fields, *query)
    operator, left, right = query
    first, second = is_match(fields, left), is_match(fields, right)
    return (first and second, first or second, first and not second)[operator]


def any_searches(seeds):
    """A target's databases, two of the world of each seed; and searches of them."""
    databases, searches = {}, []
    for seed in seeds:
        dice = random.Random(seed)
        world = {name: any_entries(dice, name + str(seed)) for name in "ab"}
        databases |= {name + str(seed): entries for name, entries in world.items()}
        for operators in (0, 0, 1, 2, 3, 7):
            names, query = [it + str(seed) for it in dice.choice(NAMED).split()], any_query(dice, operators)
            due = [it[:2] for it in entries_of(databases, names) if is_match(it[2], query)]
            searches.append((f"search {names} {query}", names, query_of(spelt(query)), all_found(due)))
    rows = {name: {octets: [f"{use} " + "".join("%%%02x" % it for it in text) for use, text in fields]
                   for octets, fields in entries.items()} for name, entries in databases.items()}
    return rows, searches


def faults(zmeta, room):
    """What is not as it should be, and how many sessions, rows and searches there were."""
    rows, count = tables(), 0
    wrong = [*faults_of_sessions(zmeta, room), *faults_of_small(zmeta, room)]
    wrong += faults_of_matched(zmeta, room, rows["matched"])
    wrong += faults_of_many(zmeta, room)
    wrong += searched(zmeta, room, PLACED, placed(zmeta, rows["placed"]))
    wrong += searched(zmeta, room, REPEATED, repeated(rows["repeated"]))
    wrong += searched(zmeta, room, FAULTS, failed(zmeta, rows["fault"]))
    for first in range(0, WORLDS, PART):
        databases, searches = any_searches(range(first, first + PART))
        wrong += searched(zmeta, room, databases, searches)
        count += len(searches)
    return wrong, len(sessions()), sum(map(len, rows.values())), count


def main():
    with tempfile.TemporaryDirectory() as room:
        wrong, *counts = faults(os.path.abspath(os.environ["ZMETA"]), room)
    print(counts, *wrong, sep="\n")
    return 1 if wrong else 0


if __name__ == "__main__":
    sys.exit(main())
