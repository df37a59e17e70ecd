#!/usr/bin/env python3
"""Has `zmeta show` print messages that are made here: APDUs of which one element is changed, by the rows of
rows/perturbed.rows; operators within one another; and strings of many segments.

    ZMETA=PROGRAM python3 tests/program/messages.py

A row has a kind of APDU, one of that kind, and for each change and each of its elements how many elements stand before
the fault, in base 36, or a dot where none is at fault. In order each element is dropped, doubled, swapped with the next
one (the last one stays), renamed to `[99]`, put into the other form and emptied, emptied."""

import os
import subprocess
import sys
import tempfile

from changes import quoted
from opac_model import elements
from saved import MARC21, element, object_identifier

HERE = os.path.dirname(os.path.abspath(__file__))
PERTURBED = os.path.join(HERE, "rows/perturbed.rows")
MOST = 60
# a SearchRequest is two elements around its query, a message has 64 levels, and an operand takes three
OPERATORS = 58
BIB1_SET = "1.2.840.10003.3.1"


def run(zmeta, room, *words, given=b""):
    ran = subprocess.run([zmeta, *words], input=given, capture_output=True, cwd=room, timeout=MOST)
    return ran.returncode, ran.stdout, ran.stderr


# ---- changed APDUs


def empty(identifier, same_form):
    return element(identifier if same_form else bytes([identifier[0] ^ 0x20]) + identifier[1:])


def renamed(identifier, contents):
    return element(bytes([0x9F | identifier[0] & 0x20, 99]), contents)


def changes(parts):
    """For each change and each element, the elements that it makes of these: identifiers and contents."""
    whole = [element(*it) for it in parts]
    places = range(len(parts))
    yield [whole[:at] + whole[at + 1:] for at in places]
    yield [whole[:at] + whole[at:at + 1] + whole[at:] for at in places]
    yield [whole[:at] + whole[at:at + 2][::-1] + whole[at + 2:] for at in places]
    yield [whole[:at] + [renamed(*parts[at])] + whole[at + 1:] for at in places]
    yield [whole[:at] + [empty(parts[at][0], False)] + whole[at + 1:] for at in places]
    yield [whole[:at] + [empty(parts[at][0], True)] + whole[at + 1:] for at in places]


def mark_of(kind, line):
    """The mark of what is printed of an APDU that is to be of this kind, or to be refused as one."""
    refusal = f"{kind} malformed at "
    if line.startswith(refusal):
        at = int(line[len(refusal):])
        return "0123456789abcdefghijklmnopqrstuvwxyz"[at] if at < 36 else "?"
    return "." if line.startswith(f"{kind} ") else "?"


def trace_of(messages):
    """A trace in which these came, one behind the other."""
    world = b'host "h" "h"\nask "h" d - 1 x\n'
    head = ['"version":1', f'"world":"{world.hex()}"', '"manner":"inOrder"', '"connect":1', '"patience":1']
    came = [f'"connection":0,"received":"{it.hex()}"' for it in messages]
    return "".join('{"at":0,%s}\n' % it for it in [*head, *came])


def fault_of_changes(zmeta, room, row):
    """What is not as a row says, if anything. A trace shows what comes behind a message that is refused."""
    kind, digits, due = row.split(" ", 2)
    ((identifier, contents),) = elements(bytes.fromhex(digits))
    made = [*changes(elements(contents))]
    with open(os.path.join(room, "changed.trace"), "w", encoding="utf-8") as file:
        file.write(trace_of(element(identifier, *it) for of_change in made for it in of_change))
    status, printed, told = run(zmeta, room, "show", "--trace", "changed.trace")
    front = '0.000 "h" < '
    lines = [it[len(front):] for it in printed.decode().split("\n") if it.startswith(front)]
    marks = "".join(mark_of(kind[0].lower() + kind[1:], it) for it in lines)
    found = " ".join(marks[at * len(of_change):(at + 1) * len(of_change)] for at, of_change in enumerate(made))
    if (status, found, len(lines), told) == (0, due, sum(map(len, made)), b""):
        return None
    return f"{row}\n    {found} {status} {told}"


# ---- operators within one another


def search(query):
    """A SearchRequest for this query's element, and what is printed of it in front of the query."""
    parts = [b"\x8d\1\0", b"\x8e\1\1", b"\x8f\1\0", b"\x90\1\xff", b"\x91\1\x31", b"\xb2\0", element(b"\xb5", query)]
    return element(b"\xb6", *parts), b'searchRequest - 0 1 0 true "1"\n  query '


def operand(letter):
    return element(b"\xa0", element(b"\xbf\x66", b"\xbf\x2c\0", element(b"\x9f\x2d", letter)))


def tower(operator, is_left):
    """The element of a query in which operators stand in one another, to the left or to the right. One operand of each
    is b, and the innermost one is a."""
    node = operand(b"a")
    for _ in range(OPERATORS):
        pair = (node, operand(b"b")) if is_left else (operand(b"b"), node)
        node = element(b"\xa1", *pair, element(b"\xbf\x2e", operator))
    return element(b"\xa1", object_identifier(BIB1_SET), node)


def faults_of_towers(zmeta, room):
    """And, or, and-not, and proximity: a query with that many levels has no text."""
    for operator in (b"\x80\0", b"\x81\0", b"\x82\0", b"\xa3\0"):
        for is_left in (True, False):
            query = tower(operator, is_left)
            given, front = search(query)
            due = front + b"ber " + query.hex().encode() + b"\n"
            if run(zmeta, room, "show", given=given.hex().encode()) != (0, due, b""):
                yield f"{OPERATORS} operators {operator.hex()} in one another, to the left: {is_left}"


# ---- strings of many segments


def octets_of(count):
    return bytes(it % 251 for it in range(count))


def segments(octets, size):
    return [element(b"\4", octets[at:at + size]) for at in range(0, len(octets), size)]


def streamed(identifier, *parts):
    """An element of indefinite length."""
    return identifier + b"\x80" + b"".join(parts) + b"\0\0"


def faults_of_segments(zmeta, room):
    octets = octets_of(100_000)
    node = streamed(b"\xa1", *segments(octets, 1000))
    for identifier, front in ((b"\x28", object_identifier(MARC21)), (b"\xa1", b""), (b"\xa1", b""), (b"\x30", b"")):
        node = streamed(identifier, front, node)
    given = streamed(b"\xb9", b"\x98\1\1", b"\x99\1\2", b"\x9b\1\0", streamed(b"\xbc", node))
    due = f"presentResponse - 1 2 0\n  rec {MARC21} - {quoted(octets)}\n".encode()
    if run(zmeta, room, "show", given=given.hex().encode()) != (0, due, b""):
        yield "a record of 100,000 octets in segments of 1,000"
    octets = octets_of(200_000)
    for levels in (1, 60):
        node = b"".join(segments(octets, 1))
        for _ in range(levels - 1):
            node = element(b"\x24", node)
        given = element(b"\xbf\x30", b"\x9f\x81\x53\1\0", element(b"\xa3", node))
        due = f"close - 0\n  info {quoted(octets)}\n".encode()
        if run(zmeta, room, "show", given=given.hex().encode()) != (0, due, b""):
            yield f"a text of 200,000 octets in segments of one, {levels} deep"


def faults(zmeta, room):
    """What is not as it should be, and how many rows there are."""
    with open(PERTURBED, encoding="utf-8") as file:
        rows = [it for it in file.read().split("\n") if it and not it.startswith("#")]
    found = [it for it in (fault_of_changes(zmeta, room, row) for row in rows) if it]
    return [*found, *faults_of_towers(zmeta, room), *faults_of_segments(zmeta, room)], len(rows)


def main():
    with tempfile.TemporaryDirectory() as room:
        found, count = faults(os.path.abspath(os.environ["ZMETA"]), room)
    print(f"{count} APDUs with changes, operators in one another, and strings of many segments", *found[:5], sep="\n")
    return 1 if found else 0


if __name__ == "__main__":
    sys.exit(main())
