#!/usr/bin/env python3
"""Talks to `zmeta serve` octet by octet, and compares each reply with what is due.

    ZMETA=PROGRAM python3 tests/program/served.py

A session is a connection: pieces that are sent, each in one write, with the octets that answer it. Behind them the
connection ends: by the server if it has stopped or closed, else by the client."""

import os
import socket
import subprocess
import sys
import tempfile
import time

from peers import (
    ACCEPTED, CLOSE, END, INIT, REFUSED, close, connected, found, free_port, init_reply, non_surrogate, operation,
    present, received, search, shown,
)
from saved import MARC21, XML, element, record
from streams import interrupt, make_narrow

# so many seconds after a reply a server waits for the next piece
REST = 0.005
# if a reply has more octets, its write is interrupted so often before anything is read
MUCH, WRITES = 400_000, 3

hexadecimal = bytes.fromhex

# Databases: records, with their syntax and the field by which they are found.
DATABASES = {
    "d1": [("a1", MARC21, 4, "dune"), ("a2", XML, 4, "dune messiah"), ("a3", MARC21, 4, "emma")],
    "d2": [("b1", MARC21, 4, "emma"), ("b2", MARC21, 1003, "dune")],
    "d3": [("c1", MARC21, 21, "one two three four five six seven eight nine ten")],
    "many": [(f"r{number}", MARC21, 4, "word") for number in range(1, 301)],
    "long": [(f"{number}" * 60_000, MARC21, 4, "word") for number in range(8)],
}
SYNTAXES = {octets: syntax for records in DATABASES.values() for octets, syntax, _, _ in records}
# Targets: their settings and databases.
TARGETS = {"shelf": ("1048576 cn", [*DATABASES]), "box": ("64 -", ["d1", "d2"]), "wall": ("1048576 cnr", ["d1"])}


def world(name):
    """The world file of a target."""
    settings, databases = TARGETS[name]
    lines = [f"target {name} {settings}\n"]
    for database in databases:
        lines.append(f"db {database}\n")
        lines += [f'rec {syntax} {octets}\nfield {use} "{text}"\n' for octets, syntax, use, text in DATABASES[database]]
    return "".join(lines)


# replies


def records_of(database, *octets):
    """Records of a database, each in its syntax."""
    return [record(SYNTAXES[it], it.encode(), database) for it in octets]


def unfound(number, condition, info):
    """A Search response that fails for this reason."""
    numbers = hexadecimal("970100 980100 990100 960100 9a0103")
    return element(b"\xb7", operation(number), numbers, non_surrogate(condition, info))


def unshown(number, condition, info=""):
    """A Present response that fails for this reason."""
    return element(b"\xb9", operation(number), hexadecimal("980100 990100 9b0105"), non_surrogate(condition, info))


def single(positions):
    """A Present of each of these positions of set 1, and what answers it."""
    requests = [present(it + 1, b"1", it, 1) for it in positions]
    replies = [shown(it + 1, records_of("many", f"r{it}"), (it + 1) % 301) for it in positions]
    return b"".join(requests), b"".join(replies)


# sessions

OPENED = INIT, ACCEPTED
MANY = search(1, b"1", ["many"], "word"), found(1, 300, 1)
ALL, LONG = ([it[0] for it in DATABASES[name]] for name in ("many", "long"))
ODD = range(1, 300, 2)
SEVENTY, HUNDREDS = single(range(1, 71)), single(range(1, 221))
SETS = [(search(it, b"s%d" % it, ["d1"], "dune"), found(it, 2, 1)) for it in range(1, 13)]
SETS += [(present(20 + it, b"s%d" % it, 2, 1), shown(20 + it, records_of("d1", "a2"), 0)) for it in range(1, 13)]
NO_VERSION = INIT.replace(hexadecimal("830205e0"), hexadecimal("83020500"))
# octets that are no element; and an element that is no APDU
BROKEN, STRANGE = hexadecimal("04ff"), hexadecimal("0400")

SHELF = [
    # several databases: in the order named, each once
    [OPENED,
     (search(1, b"1", ["d2", "d1", "d2"], "dune", 9, 10),
      found(1, 3, 0, records_of("d2", "b2") + records_of("d1", "a1", "a2"))),
     (search(2, b"2", ["d1", "d3", "d2"], "emma"), found(2, 2, 1)),
     (present(3, b"2", 1, 2), shown(3, records_of("d1", "a3") + records_of("d2", "b1"), 0)),
     (present(4, b"1", 2, 1, (1, 1)), shown(4, records_of("d1", "a1") + records_of("d2", "b2"), 2)),
     (search(5, b"3", ["d1", "dx"], "dune"), unfound(5, 235, "dx")),
     (search(6, b"3", [], "dune"), unfound(6, 235, "")),
     (search(7, b"3", [*DATABASES, *DATABASES], "dune"), found(7, 3, 1)),
     (present(8, b"4", 1, 1), unshown(8, 30, "4")),
     (present(9, b"3", 3, 2), unshown(9, 13)),
     (close(10), close(10))],
    # a phrase of ten words, and of nine that do not stand one behind the other
    [OPENED,
     (search(1, b"1", ["d3"], "One two three four five six seven eight nine ten!"), found(1, 1, 1)),
     (search(2, b"2", ["d3"], "one two three four five six seven nine ten"), found(2, 0, 0)),
     (CLOSE, CLOSE)],
    # many requests in one piece, and in several: all replies wait, and Close is the last
    [(INIT + MANY[0] + SEVENTY[0] + close(99), ACCEPTED + MANY[1] + SEVENTY[1] + close(99))],
    [OPENED, MANY, HUNDREDS, (CLOSE, CLOSE)],
    # a reply longer than a piece, of one range and of many; and a request longer than a piece
    [OPENED, MANY,
     (present(2, b"1", 1, 300), shown(2, records_of("many", *ALL), 0)),
     (present(3, b"1", 1, 1, *((it, 1) for it in ODD[1:])),
      shown(3, records_of("many", *(f"r{it}" for it in ODD)), 300)),
     (search(4, b"2", ["many"], "x" * 10_000), found(4, 0, 0)),
     # and a reply of half a million octets, in writes that are interrupted
     (search(5, b"3", ["long"], "word"), found(5, 8, 1)),
     (present(6, b"3", 1, 8), shown(6, records_of("long", *LONG), 0))],
    # what stops the server: what was not answered before is answered no more, not even Close
    [(INIT + BROKEN, b"")],
    [(INIT + CLOSE + BROKEN, b"")],
    [(INIT + MANY[0] + SEVENTY[0] + CLOSE + STRANGE, b"")],
    [OPENED, MANY, (SEVENTY[0] + CLOSE + ACCEPTED, b"")],
    [OPENED, (STRANGE, b"")],
    [OPENED, MANY, (MANY[1], b"")],
    [OPENED, (INIT, b"")],
    [(MANY[0], b"")],
    [(close(0), close(0))],
    [(INIT + CLOSE, ACCEPTED + CLOSE)],
    [(NO_VERSION, init_reply("83020500", result="8c0100")), (CLOSE, b"")],
    # many result sets, of which one is replaced
    [OPENED, *SETS,
     (search(40, b"s3", ["d2"], "emma"), found(40, 1, 1)),
     (present(41, b"s3", 1, 1), shown(41, records_of("d2", "b1"), 0)),
     (CLOSE, CLOSE)],
]
BOX = [
    # a reply has as many records as its size allows, two of 25 octets; a result set has no name of its own
    [(INIT, init_reply(options="840301c000", sizes="850140 860140")),
     (search(1, b"1", ["d1"], "dune"), unfound(1, 22, "1")),
     (search(2, b"default", ["d2", "d1"], "dune", 9, 10),
      found(2, 3, 3, records_of("d2", "b2") + records_of("d1", "a1")).replace(
          hexadecimal("9b0100"), hexadecimal("9b0102"))),
     (present(3, b"default", 1, 3), shown(3, records_of("d2", "b2") + records_of("d1", "a1"), 3, 2)),
     (CLOSE, CLOSE)],
]
WALL = [[(INIT, REFUSED), (MANY[0], b"")]]

SESSIONS = {"shelf": SHELF, "box": BOX, "wall": WALL}
# the session with a great reply, of which the client reads little at a time, and which it ends
GREAT = SHELF[4]


# a server


def fault_of_session(port, session, server):
    """What differs from what is due, if anything. The server is interrupted while it waits for a piece, and for room
    for a long reply."""
    with connected(port, make_narrow if session is GREAT else lambda link: None) as link:
        for at, (sent, due) in enumerate(session):
            time.sleep(REST)
            interrupt(server)
            link.sendall(sent)
            for _ in range(WRITES if len(due) > MUCH else 0):
                time.sleep(REST)
                interrupt(server)
            found = received(link, len(due))
            if found != due:
                return f"piece {at}: {found.hex()}\n    {due.hex()} is due"
        if session is GREAT:
            link.shutdown(socket.SHUT_WR)
        rest = received(link, 1 << 20)
        return f"at the end: {rest.hex()}" if rest else None


def faults_of_target(zmeta, room, name):
    with open(os.path.join(room, name + ".world"), "w", encoding="utf-8") as file:
        file.write(world(name))
    sessions, port = SESSIONS[name], free_port()
    words = [zmeta, "serve", f"127.0.0.1:{port}", name, name + ".world", str(len(sessions))]
    with subprocess.Popen(words, stdout=subprocess.PIPE, stderr=subprocess.PIPE, cwd=room) as server:
        try:
            for number, session in enumerate(sessions):
                fault = fault_of_session(port, session, server)
                if fault:
                    yield f"serve {name}, session {number}, {fault}"
            found = *server.communicate(timeout=END), server.returncode
            if found != (b"", b"", 0):
                yield f"serve {name}: {found}"
        except (OSError, subprocess.TimeoutExpired) as error:
            yield f"serve {name}: {error!r}"
        finally:
            server.kill()


def faults(zmeta, room):
    """What is not as it should be, and how many sessions there were."""
    found = [fault for name in SESSIONS for fault in faults_of_target(zmeta, room, name)]
    return found, sum(map(len, SESSIONS.values()))


def main():
    with tempfile.TemporaryDirectory() as room:
        found, count = faults(os.path.abspath(os.environ["ZMETA"]), room)
    print(f"{count} sessions", *found, sep="\n")
    return 1 if found else 0


if __name__ == "__main__":
    sys.exit(main())
