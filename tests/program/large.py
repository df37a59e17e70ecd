#!/usr/bin/env python3
"""Runs each command on large input: no contract says when memory is found, so a body that gives up for want of it shows
here alone.

    ZMETA=PROGRAM python3 tests/program/large.py          (all commands)
    ZMETA=PROGRAM python3 tests/program/large.py show     (this one)

`show` reads two million digits, and `catalogues` a file of 10,000, and files of 20,000 with a long setting and with
mistakes. The others have 100,000 records of one catalogue each; `join` prints 200,000 rows, of which standard output
takes 16 octets at a time, and `new` has that many changes.
`gives-up` has a wrong body for each command, which its row here finds."""

import os
import subprocess
import sys
import tempfile
import time

from peers import connected, free_port
from saved import COUNT, MARC21, SEEN, element, of_facts, record

# a run has to end within so many seconds
MOST = 300
RECORDS = 100_000
# of a file of catalogues, of one that is long or full of mistakes, and of a world file that is printed as one
TABLES, MANY, HOSTS = 10_000, 20_000, 1000
# of a message for `show`: so many records of so many octets
SHOWN, SIZE = 80, 12_480
HERE = os.path.dirname(os.path.abspath(__file__))


def octets_of(number):
    return b"record %06d" % number


def rows_of(numbers):
    return b"".join(b'%d "a" 1 rec %s "d" "%s"\n' % (it, MARC21.encode(), octets_of(it)) for it in numbers)


def counted(count):
    return b'target "a" set 1 count %d\n' % count


def saved_of(numbers, *counts):
    facts = [(COUNT, 0, 1, it) for it in counts]
    return of_facts(["a"], facts + [(SEEN, 0, 1, it, record(MARC21, octets_of(it), "d")) for it in numbers])


def made(room, name, octets):
    with open(os.path.join(room, name), "wb") as file:
        file.write(octets)
    return name


def content(room, name):
    with open(os.path.join(room, name), "rb") as file:
        return file.read()


def run(zmeta, room, words, given=b"", **surroundings):
    """The status of a command, what it prints, and what it tells."""
    more = dict(os.environ, **surroundings)
    ran = subprocess.run([zmeta, *words], input=given, capture_output=True, cwd=room, timeout=MOST, env=more)
    return ran.returncode, ran.stdout, ran.stderr


def show(zmeta, room):
    records = [b"%06d" % it * (SIZE // 6) for it in range(SHOWN)]
    front = element(b"\x82", bytes(4)), bytes.fromhex("98 01 %02x 99 01 00 9b 01 00" % SHOWN)
    message = element(b"\xb9", *front, element(b"\xbc", *(record(MARC21, it) for it in records)))
    lines = b"".join(b'  rec %s - "%s"\n' % (MARC21.encode(), it) for it in records)
    due = b"presentResponse 00000000 %d 0 0\n" % SHOWN + lines
    yield run(zmeta, room, ["show"], message.hex().encode()), (0, due, b"")


def pqf(zmeta, room):
    # an argument has at most 131,071 octets
    word = b"x" * 120_000
    status, printed, told = run(zmeta, room, ["pqf", word])
    text, _, octets = printed.partition(b"\n")
    yield (status, text, word in bytes.fromhex(octets.decode()), told), (0, b'"%s"' % word, True, b"")


def join(zmeta, room):
    halves = [range(1, RECORDS + 1), range(RECORDS + 1, 2 * RECORDS + 1)]
    names = [made(room, f"half-{at}.saved", saved_of(it, 2 * RECORDS)) for at, it in enumerate(halves)]
    shim = os.path.join(room, "narrow.so")
    subprocess.run(["cc", "-O2", "-shared", "-fPIC", "-o", shim, os.path.join(HERE, "narrow.c"), "-ldl"], check=True)
    due = counted(2 * RECORDS) + rows_of(range(1, 2 * RECORDS + 1))
    yield run(zmeta, room, ["join", *names], LD_PRELOAD=shim), (0, due, b"")


def records(zmeta, room):
    name = made(room, "all.saved", saved_of(range(1, RECORDS + 1), RECORDS))
    yield run(zmeta, room, ["records", name]), (0, b"".join(map(octets_of, range(1, RECORDS + 1))), b"")


def new(zmeta, room):
    halves = [range(1, RECORDS + 1), range(RECORDS + 1, 2 * RECORDS + 1)]
    names = [made(room, f"{name}.saved", saved_of(it)) for name, it in zip(("old", "new"), halves)]
    rows = zip((b"new ", b"gone "), halves[::-1])
    lines = [word + line for word, it in rows for line in rows_of(it).splitlines(True)]
    yield run(zmeta, room, ["new", *names]), (0, b"".join(lines), b"")


def catalogues(zmeta, room):
    whole = range(1, TABLES + 1)
    file = "".join(f'[c{it}]\naddress = "c{it}.example"\ndatabase = "d"\n' for it in whole)
    lines = "".join(f'{3 * it - 2} "c{it}" c{it}.example:210 "d"\n' for it in whole)
    name = made(room, "large.toml", file.encode())
    yield run(zmeta, room, ["catalogues", name]), (0, lines.encode(), b"")
    yield from long_setting(zmeta, room)
    yield from many_mistakes(zmeta, room)
    yield from mistakes_of_one(zmeta, room)
    yield from many_hosts(zmeta, room)


def many_hosts(zmeta, room):
    world = "".join(f"host n{it} h:210\nask n{it} d - 10 dune\n" for it in range(HOSTS))
    settings = 'address = "h:210"\ndatabase = "d"\nrecords = "1-10"\nquery = "\\"dune\\""\n'
    tables = "".join(f"\n[n{it}]\n{settings}" for it in range(HOSTS))
    name = made(room, "hosts-all.world", world.encode())
    yield run(zmeta, room, ["catalogues", "--toml", name]), (0, f"step = 10\nwindow = 4\n{tables}".encode(), b"")


def long_setting(zmeta, room):
    """A setting for all that is as long as there are catalogues: for each of them it is what keeps it out of a world
    file."""
    file = f'elements = "{"F" * MANY}"\n' + "".join(f'[c{it}]\naddress = "h"\ndatabase = "b"\n' for it in range(MANY))
    name = made(room, "long.toml", file.encode())
    told = f'zmeta: {name}: catalogue "c0": a world file has no element set names\n'
    yield run(zmeta, room, ["catalogues", "--world", name, "--title", "a"]), (3, b"", told.encode())


# what follows a key whose value is no address, or a missing one
ADDRESS = 'write address = "host:port", the port from 1 to 65535'
DATABASE = 'no database; write database = "name", or ["one", "two"] for several'


def many_mistakes(zmeta, room):
    """Each catalogue has no database, and a mistake in each of its three lines."""
    file = "".join(f'[c{it}]\nadress = "h"\naddress = 1\nrecords = 0\n' for it in range(MANY))
    name = made(room, "mistaken-all.toml", file.encode())
    lines = []
    for it in range(MANY):
        front, catalogue = 4 * it + 1, f'catalogue "c{it}"'
        lines += [(front, f"{catalogue}: {DATABASE}"),
                  (front + 1, f'unknown key "adress" in "c{it}"; did you mean "address"?'),
                  (front + 2, f"{catalogue}: address is of another type; {ADDRESS}"),
                  (front + 3, f'{catalogue}: records is out of range; '
                              'write records = 20, from 1 to 1000000, or "1-3,10-12"')]
    yield run(zmeta, room, ["catalogues", name]), (3, b"", told_of(name, lines))


def mistakes_of_one(zmeta, room):
    """One catalogue has neither address nor database, and keys that are not known."""
    file = "[town]\n" + "".join(f"key-{it} = 1\n" for it in range(MANY))
    name = made(room, "mistaken-one.toml", file.encode())
    lines = [(1, f'catalogue "town": no address; {ADDRESS}'), (1, f'catalogue "town": {DATABASE}')]
    lines += [(it + 2, f'unknown key "key-{it}" in "town"') for it in range(MANY)]
    yield run(zmeta, room, ["catalogues", name]), (3, b"", told_of(name, lines))


def told_of(name, mistakes):
    """What is told of a file with mistakes in these lines."""
    return "".join(f"zmeta: {name}: line {line}: {it}\n" for line, it in mistakes).encode()


def entries():
    return b"".join(b'rec %s "%s"\nfield 4 dune\n' % (MARC21.encode(), octets_of(it)) for it in range(1, RECORDS + 1))


def due_of_world(room, found, name):
    """What a run of the world gave with what is due, and the file that it saved."""
    whole = range(1, RECORDS + 1)
    yield found, (0, counted(RECORDS) + rows_of(whole), b"")
    yield (content(room, name) if os.path.exists(os.path.join(room, name)) else None), saved_of(whole, RECORDS)


def world_in_memory(zmeta, room, command):
    head = b"step 1000\ntarget a 1048576 cn\ndb d\n"
    world = made(room, "large.world", head + entries() + b"ask a d - %d dune\n" % RECORDS)
    found = run(zmeta, room, [command, "--save", f"{command}.saved", world])
    yield from due_of_world(room, found, f"{command}.saved")


def run_world(zmeta, room):
    yield from world_in_memory(zmeta, room, "run")


def loop(zmeta, room):
    yield from world_in_memory(zmeta, room, "loop")


def ask(zmeta, room):
    """`serve` and `ask`: the server takes two connections, of which the first only shows that it listens."""
    served = made(room, "served.world", b"target a 1048576 cn\ndb d\n" + entries())
    port = free_port()
    asked = made(room, "asked.world", b"step 1000\nhost a 127.0.0.1:%d\nask a d - %d dune\n" % (port, RECORDS))
    words = [zmeta, "serve", f"127.0.0.1:{port}", "a", served, "2"]
    with subprocess.Popen(words, cwd=room, stderr=subprocess.PIPE) as server:
        try:
            connected(port, most=MOST).close()
            found = run(zmeta, room, ["ask", "--save", "ask.saved", asked])
            yield from due_of_world(room, found, "ask.saved")
            yield (server.wait(MOST), server.stderr.read()), (0, b"")
        finally:
            server.kill()


COMMANDS = {"show": show, "pqf": pqf, "catalogues": catalogues, "join": join, "records": records, "new": new,
            "run": run_world, "loop": loop, "ask": ask}


def short(found):
    return str(found)[:200]


def faults(zmeta, room, commands=COMMANDS):
    """What is not as it should be of large input."""
    for name in commands:
        for found, due in COMMANDS[name](zmeta, room):
            if found != due:
                yield f"large input of {name}: {short(found)}, and {short(due)} is due"


def main():
    begun = time.monotonic()
    with tempfile.TemporaryDirectory() as room:
        found = [*faults(os.path.abspath(os.environ["ZMETA"]), room, sys.argv[1:] or COMMANDS)]
    print(f"large input, in {time.monotonic() - begun:.1f} s", *found, sep="\n")
    return 1 if found else 0


if __name__ == "__main__":
    sys.exit(main())
