#!/usr/bin/env python3
"""Has the program ask hosts whose replies it accepts or refuses, save what is known, and tell failures to a standard
error that fails too. Compares the list, what is told of failed connections, what each host is sent, and the saved file,
octet by octet.

    ZMETA=PROGRAM python3 tests/program/replies.py

A row has a host's name, its replies, the requests that it is sent, what is known of it, and the reason that is told of
it, if any. Requests are I, S, C, and Presents by their ranges: 1x2,4x1 are two records from 1 on and one at 4. What is
known is a fact without its target, the position of its row in the list, if it has one, and the text of its line, if it
has one of its own."""

import asyncio
import os
import subprocess
import sys
import tempfile
import time
from collections import namedtuple
from concurrent.futures import ThreadPoolExecutor
from functools import partial

from peers import (
    ACCEPTED, BOTH, CLOSE, END, INIT, Asker, Host, all_together, broken_off, counted, faults_of_answer, init_reply,
    listening, narrow, non_surrogate, one_by_one, operation, present_at, quoted, reading_late, reset_in_advance,
    search_for,
)
from saved import (
    BIB1, COUNT, DIAG, FAILED, MARC21, SEEN, diagnostic, element, integer, of_facts, record, surrogate,
)
from streams import interrupt

# seconds between two interruptions
PAUSE = 0.01

hexadecimal = bytes.fromhex

# what is known


def count(number):
    return (COUNT, 1, number), None, f"set 1 count {number}"


def noted(place, condition, info=""):
    """A diagnostic of the search, or of the Present that begins at the place."""
    return (DIAG, 1, place, diagnostic(BIB1, condition, info)), None, f'set 1 diag {place} {BIB1} {condition} "{info}"'


def text_of(octets):
    return f'rec {MARC21} - "{octets}"'


def seen(position, octets):
    return (SEEN, 1, position, record(MARC21, octets.encode())), position, text_of(octets)


def unseen(position, condition, info=""):
    """A diagnostic in place of a record."""
    return (SEEN, 1, position, surrogate(BIB1, condition, info)), position, f'diag - {BIB1} {condition} "{info}"'


def differing(position, one, other):
    """Two records at one position, in the order of their encodings."""
    (first, _, _), (second, _, _) = seen(position, one), seen(position, other)
    return (first, position, f"conflict 2\n  {text_of(one)}\n  {text_of(other)}"), (second, position, "")


def all_seen(number, positions):
    """A count, and a record at each of these positions."""
    return [count(number), *(seen(it, f"r{it}") for it in positions)]


FAILING = (FAILED, 1), None, "set 1 failed"
REJECTED = (FAILED, 0), None, "set 0 failed"

# replies


def found(count_octets, returned=0, reference="820400000001", status="9601ff", more=b""):
    """A Search response, with the octets of its count and the number of records that it tells of."""
    numbers = element(b"\x97", hexadecimal(count_octets)), integer(b"\x98", returned), hexadecimal("990101")
    return element(b"\xb7", hexadecimal(reference), *numbers, hexadecimal(status), more)


def requested(position):
    """The reference id of the Present that begins at the position."""
    return operation(position + 1)


def given(position, *texts, more=b"", status="9b0100"):
    """A Present response to the request that begins at the position, with records."""
    return listed(requested(position), len(texts), [record(MARC21, it.encode()) for it in texts], more, status)


def listed(reference, returned, records, more=b"", status="9b0100"):
    records = element(b"\xbc", *records) if records else b""
    return element(b"\xb9", reference, integer(b"\x98", returned), hexadecimal("990100 " + status), records, more)


def short(position, *texts):
    """A Present response with fewer records than were asked for, which says so."""
    return given(position, *texts, status="9b0102")


def as_many(*diagnostics):
    return element(b"\xbf\x81\x4d", *diagnostics)


# no concurrent operations and no named result sets; no Present either; and no Search; and versions 1 and 2 alone
PLAIN, SEARCHES, NOTHING, SECOND = "840301c000", "84020780", "840100", "830206c0"
TWO = counted(2)
ONE, OTHER = given(1, "r1"), given(2, "r2")
# the same of position 1 in indefinite lengths, and of position 2 with a string in segments
INDEFINITE = hexadecimal(
    "b980 820400000002 980101 990102 9b0100 bc80 3015 a113 a111 2882000d 06072a8648ce13050a 81027231 0000 0000"
)
SEGMENTED = hexadecimal(
    "b92a 820400000003 980101 990103 9b0100 bc19 3017 a115 a113 2811 06072a8648ce13050a a106 040172 040132"
)
PART = element(b"\x30", element(b"\xa1", element(b"\xa3")))
UNFOUND = {"count_octets": "00", "status": "960100 9a0103"}
HUGE = 2**63 - 1


Row = namedtuple("Row", "name replies requests known told give set want term place",
                 defaults=("", all_together, b"1", "2", None, listening))


def whole(name, *replies, known=None, requests="I S 1x1 2x1 C", **others):
    """Init is accepted, and Close comes last."""
    return Row(name, [ACCEPTED, *replies, CLOSE], requests, all_seen(2, (1, 2)) if known is None else known, **others)


def broken(name, told, *replies, requests="I S", known=(), **others):
    """Init is accepted, and the last reply is refused."""
    return Row(name, [ACCEPTED, *replies], requests, known, told, **others)


def misframed(told, octets, **others):
    """The first reply is refused."""
    return Row(told, [octets], "I", [], told, **others)


SMALL, GREAT = "step 1\n", "step 1000\nwindow 64\n"
PLAIN_SET = {"set": b"default"}

# Replies that are accepted, and what is known of them.
GOOD = [
    whole("plain", TWO, ONE, OTHER),
    whole("in another order", TWO, OTHER, ONE),
    whole("in other forms", TWO, SEGMENTED, INDEFINITE),
    whole("none", counted(0), known=[count(0)], requests="I S C"),
    whole("fewer", counted(1), ONE, known=all_seen(1, [1]), requests="I S 1x1 C"),
    whole("very many", counted(HUGE), ONE, OTHER, known=all_seen(HUGE, (1, 2))),
    whole("surrogate", TWO, listed(requested(1), 1, [surrogate(BIB1, 14, "x")]), OTHER,
          known=[count(2), unseen(1, 14, "x"), seen(2, "r2")]),
    whole("diagnostic", TWO, given(1, more=non_surrogate(13, "1")), OTHER,
          known=[count(2), noted(1, 13, "1"), seen(2, "r2")]),
    whole("diagnostics", TWO, given(1, more=as_many(diagnostic(BIB1, 13), diagnostic(BIB1, 30, "1"))), OTHER,
          known=[count(2), noted(1, 13), noted(1, 30, "1"), seen(2, "r2")]),
    whole("warning", found("02", more=non_surrogate(2)), ONE, OTHER,
          known=[count(2), noted(0, 2), seen(1, "r1"), seen(2, "r2")]),
    whole("unasked", found("02", 1, more=element(b"\xbc", record(MARC21, b"r0"))), ONE, OTHER,
          known=[count(2), *differing(1, "r0", "r1"), seen(2, "r2")]),
    whole("behind Close", TWO, ONE, OTHER, CLOSE, hexadecimal("04ff")),
    # a request longer than what a host takes at a time; an Init response longer than a read; the end of the octets in
    # place of Close; and no reference ids
    whole("long request", TWO, ONE, OTHER, give=reading_late, term="x" * 200_000, place=narrow),
    Row("long name", [init_reply(more=element(b"\x9f\x6f", b"n" * 5000)), TWO, ONE, OTHER, CLOSE], "I S 1x1 2x1 C",
        all_seen(2, (1, 2))),
    Row("ending", [ACCEPTED, TWO, ONE, OTHER], "I S 1x1 2x1 C", all_seen(2, (1, 2)), give=broken_off),
    Row("without ids", [init_reply(options=PLAIN, reference=""), found("02", reference=""),
                        listed(b"", 1, [record(MARC21, b"r1")]), listed(b"", 1, [record(MARC21, b"r2")]), CLOSE],
        "I S 1x1 2x1 C", all_seen(2, (1, 2)), **PLAIN_SET),
    Row("no Present", [init_reply(options=SEARCHES), TWO, CLOSE], "I S C", [count(2)], **PLAIN_SET),
]

# The same of Presents of several ranges, or of one each below version 3; and of many that wait. An answer may be short.
WANTED = {"want": "1-2,4-5,9-9"}
NINE = all_seen(9, (1, 2, 4, 5, 9))
ODD, FEWER = range(1, 220, 2), range(1, 160, 2)
RANGED = [
    whole("ranges", counted(9), given(1, "r1", "r2"), given(4, "r4", "r5", "r9"), known=NINE,
          requests="I S 1x2,4x2,9x1 4x2,9x1 C", **WANTED),
    Row("version 2", [init_reply(SECOND), counted(9), given(9, "r9"), given(4, "r4"), given(1, "r1", "r2"),
                      given(5, "r5"), CLOSE],
        "I S 1x2 4x2 9x1 5x1 C", NINE, **WANTED),
    Row("one at a time", [init_reply(SECOND, PLAIN), counted(9), given(1, "r1", "r2"), given(4, "r4"), given(5, "r5"),
                          given(9, "r9"), CLOSE],
        "I S 1x2 4x2 5x1 9x1 C", NINE, **WANTED, **PLAIN_SET),
    whole("many ranges", counted(219), given(1, *(f"r{it}" for it in ODD[:50])),
          given(101, *(f"r{it}" for it in ODD[50:])),
          requests="I S " + ",".join(f"{it}x1" for it in ODD) + " " + ",".join(f"{it}x1" for it in ODD[50:]) + " C",
          known=all_seen(219, ODD), want=",".join(f"{it}-{it}" for it in ODD)),
    Row("many at a time", [init_reply(SECOND), counted(159),
                           *(given(it, f"r{it}") for it in [*FEWER[63::-1], *FEWER[64:]]), CLOSE],
        "I S " + " ".join(f"{it}x1" for it in FEWER) + " C", all_seen(159, FEWER),
        want=",".join(f"{it}-{it}" for it in FEWER)),
    # all records of two ranges; an answer that ends within a range; diagnostics in place of the records of ranges
    whole("whole ranges", counted(7), given(1, "r1", "r2", "r5"), known=all_seen(7, (1, 2, 5)),
          requests="I S 1x2,5x1 C", want="1-2,5-5"),
    whole("within a range", counted(7), given(1, "r1", "r2", "r5"), given(6, "r6"), known=all_seen(7, (1, 2, 5, 6)),
          requests="I S 1x2,5x2 6x1 C", want="1-2,5-6"),
    whole("ranges failing", counted(7), given(1, more=non_surrogate(13)), known=[count(7), noted(1, 13)],
          requests="I S 1x2,5x1 C", want="1-2,5-5"),
    whole("ranges failing twice", counted(7),
          given(3, more=as_many(diagnostic(BIB1, 13), diagnostic(BIB1, 30, "1"))),
          known=[count(7), noted(3, 13), noted(3, 30, "1")], requests="I S 3x2,6x1 C", want="3-4,6-6"),
]

# The same of a set of seven, of which a Present asks for three records, and four Presents wait at most: each answer has
# two records, or one; and positions 1, 2 and 5 to 7 are wanted, also without version 3.
SEVEN = all_seen(7, range(1, 8))
STEPPED = [
    whole("two at most", counted(7), short(1, "r1", "r2"), short(4, "r4", "r5"), given(3, "r3"), given(6, "r6"),
          given(7, "r7"), known=SEVEN, requests="I S 1x3 4x3 7x1 3x1 6x1 C", want="10"),
    whole("one at most", counted(7), short(1, "r1"), short(4, "r4"), short(2, "r2"), short(5, "r5"), given(3, "r3"),
          given(6, "r6"), given(7, "r7"), known=SEVEN, requests="I S 1x3 4x3 7x1 2x2 5x2 3x1 6x1 C", want="10"),
    whole("parted", counted(7), short(1, "r1", "r2"), given(6, "r6", "r7"), given(5, "r5"),
          known=all_seen(7, (1, 2, 5, 6, 7)), requests="I S 1x2,5x1 6x2 5x1 C", want="1-2,5-7"),
    Row("parted, version 2", [init_reply(SECOND), counted(7), short(1, "r1", "r2"), given(5, "r5"),
                              given(6, "r6", "r7"), CLOSE],
        "I S 1x2 5x1 6x2 C", all_seen(7, (1, 2, 5, 6, 7)), want="1-2,5-7"),
]


def window(size, first):
    """So many Presents wait: the replies from this place on come first, and then the others."""
    places = [*range(1, size + 1)]
    replies = [given(it, f"r{it}") for it in places[first:] + places[:first]]
    return whole(f"window {size} {first}", counted(100), *replies, known=all_seen(100, places),
                 requests="I S " + " ".join(f"{it}x1" for it in places) + " C", want=str(size))


WINDOWS = [window(*it) for it in ((1, 0), (2, 1), (3, 2), (63, 31), (64, 1), (64, 32), (64, 63))]

# Replies of which the last is refused, or ends the association before its time.
BAD = [
    misframed("TagForm", hexadecimal("1f80")),
    misframed("TagTooLarge", hexadecimal("1f9080808000")),
    misframed("StrayEnd", hexadecimal("0000")),
    misframed("LengthForm", hexadecimal("04ff")),
    misframed("IndefinitePrimitive", hexadecimal("0480")),
    misframed("Overrun", hexadecimal("30020401")),
    misframed("TooLong", hexadecimal("04831ffffc")),
    misframed("TooDeep", hexadecimal("3080" * 65)),
    misframed("Truncated", ACCEPTED[:20], give=broken_off),
    misframed("NotApdu", hexadecimal("3000")),
    misframed("Malformed", hexadecimal("b500")),
    misframed("WrongKind", INIT),
    broken("cut", "Truncated", TWO, ONE, OTHER[:-1], requests="I S 1x1 2x1", known=all_seen(2, [1]), give=broken_off),
    broken("primitive", "NotApdu", hexadecimal("9700")),
    broken("too much", "Malformed", TWO, given(1, "r1", more=hexadecimal("0400")), requests="I S 1x1 2x1",
           known=[count(2)]),
    broken("another kind", "WrongKind", init_reply(reference="820400000001")),
    broken("no such id", "UnknownReference", found("02", reference="820400000009")),
    broken("short id", "UnknownReference", found("02", reference="8203000001")),
    broken("no id", "UnknownReference", found("02", reference="")),
    broken("twice", "UnknownReference", TWO, ONE, ONE, requests="I S 1x1 2x1", known=all_seen(2, [1])),
    broken("too few", "CountMismatch", found("02", 1)),
    broken("below 0", "BadNumber", found("ff")),
    broken("too many found", "BadShape", found("01", 2, more=element(b"\xbc", *[record(MARC21, b"r0")] * 2))),
    broken("too many shown", "BadShape", TWO, given(1, "r1", "r2"), requests="I S 1x1 2x1", known=[count(2)]),
    broken("nothing", "BadShape", TWO, given(1), requests="I S 1x1 2x1", known=[count(2)]),
    broken("a part", "BadShape", TWO, listed(requested(1), 1, [PART]), requests="I S 1x1 2x1", known=[count(2)]),
    broken("ended", "Ended", TWO, ONE, requests="I S 1x1 2x1", known=all_seen(2, [1]), give=broken_off),
    broken('a "b', "Ended", give=broken_off, term="b"),
    Row("reset", [], "I", [], "Read", reset_in_advance),
    Row("closing", [CLOSE], "I", []),
    broken("closing later", "", TWO, ONE, CLOSE, requests="I S 1x1 2x1", known=all_seen(2, [1])),
    Row("rejecting", [init_reply(result="8c0100")], "I", [REJECTED]),
    Row("no Search", [init_reply(options=NOTHING), CLOSE], "I C", []),
    whole("failing", found(**UNFOUND, more=non_surrogate(114, "1")), requests="I S C",
          known=[FAILING, noted(0, 114, "1")]),
    whole("failing twice", found(**UNFOUND, more=as_many(diagnostic(BIB1, 114, "5"), diagnostic(BIB1, 3))),
          requests="I S C", known=[FAILING, noted(0, 3), noted(0, 114, "5")]),
]

# what stands in front of the world file, the rows, and the status
THREES, WIDE = "step 3\nwindow 4\n", "step 1\nwindow 64\n"
GROUPS = ((SMALL, GOOD, 0), (GREAT, RANGED, 0), (THREES, STEPPED, 0), (WIDE, WINDOWS, 0), (SMALL, BAD, 1))


# what is due


def request(row, word):
    """The request that a word of the row stands for."""
    if word in "ISC":
        return {"I": INIT, "S": search_for(row.term or row.name, row.set), "C": CLOSE}[word]
    (first, number), *more = (map(int, it.split("x")) for it in word.split(","))
    return present_at(first, number, [tuple(it) for it in more], row.set)


class Replying(Host):
    """The host of a row."""

    def __init__(self, row):
        super().__init__(row.name, [], 0, None, row.give, row.replies, row.place)
        self.row, self.want, self.term = row, row.want, row.term or row.name

    def requests_due(self):
        return [b"".join(request(self.row, it) for it in self.row.requests.split())]


def list_due(rows):
    lines = [f"target {quoted(row.name)} {text}\n" for row in rows for _, at, text in row.known if at is None]
    every = [(position, at, text) for at, row in enumerate(rows) for _, position, text in row.known]
    placed = sorted(it for it in every if it[0] and it[2])
    return "".join(lines + [f"{position} {quoted(rows[at].name)} 1 {text}\n" for position, at, text in placed])


def told_due(rows):
    return "".join(f"zmeta: target {quoted(row.name)}: {row.told}\n" for row in rows if row.told)


def saved_due(rows):
    facts = [(fact[0], target, *fact[1:]) for target, row in enumerate(rows) for fact, _, _ in row.known]
    return of_facts([row.name for row in rows], facts)


def fault_of_saved(asker, name, rows, status):
    """What is not as it should be of the saved file, and of its list."""
    with open(os.path.join(asker.room, name), "rb") as file:
        octets = file.read()
    if octets != saved_due(rows):
        return [f"{name}: {octets.hex()}\n    {saved_due(rows).hex()} is due"]
    ran = subprocess.run([asker.zmeta, "join", name, name], capture_output=True, cwd=asker.room, timeout=60)
    found, due = (ran.returncode, ran.stdout.decode(), ran.stderr), (status, list_due(rows), b"")
    return [] if found == due else [f"{name}: joined, it is {found}\n    {due} is due"]


async def faults_of_group(asker, front, rows, status, at_once, errors):
    """What is not as it should be where these rows are asked. If `errors` is a path, standard error goes there and
    fails."""
    hosts, name = [Replying(it) for it in rows], f"replies-{asker.count}.saved"
    with open(errors or os.devnull, "wb") as stream:
        target = stream if errors else subprocess.PIPE
        run = await asker.run(hosts, ["--save", name], at_once, errors=target, front=front)
    due = (3, list_due(rows), "") if errors else (status, list_due(rows), told_due(rows))
    found = faults_of_answer(run, hosts, due)
    has_failed = any(it[0][0] == FAILED for row in rows for it in row.known)
    found += fault_of_saved(asker, name, rows, int(status == 1 and has_failed))
    return [f"replies: {'at once' if at_once else 'in order'}, {errors or 'told'}: {it}" for it in found]


class Interrupted(Asker):
    """The program is interrupted again and again."""

    def program(self, words, files, errors):
        begun = time.monotonic()
        words = [self.zmeta, "ask", *words]
        with subprocess.Popen(words, stdout=subprocess.PIPE, stderr=errors, cwd=self.room) as process:
            while process.poll() is None and time.monotonic() < begun + END:
                interrupt(process)
                time.sleep(PAUSE)
            printed, told = process.communicate(timeout=END)
        return (process.returncode, printed.decode(), told.decode()), begun, time.monotonic() - begun


async def faults_of_interrupted(asker, at_once):
    """What is not as it should be where the program is interrupted while it waits for replies."""
    give = partial(one_by_one, pause=4 * PAUSE)
    hosts = [Host(name, ["r1", "r2"], None, "answered", give) for name in ("a", "b", "c")]
    found = faults_of_answer(await asker.run(hosts, (), at_once), hosts)
    return [f"replies: {'at once' if at_once else 'in order'}, interrupted: {it}" for it in found]


async def all_faults(zmeta, room, pool):
    asker, interrupted, found = Asker(zmeta, room, pool), Interrupted(zmeta, room, pool), []
    for at_once in BOTH:
        for front, rows, status in GROUPS:
            found += await faults_of_group(asker, front, rows, status, at_once, None)
        found += await faults_of_group(asker, SMALL, BAD, 1, at_once, "/dev/full")
        found += await faults_of_interrupted(interrupted, at_once)
    return found, 2 * sum(len(rows) for _, rows, _ in GROUPS)


def faults(zmeta, room):
    """What is not as it should be, and how many hosts were asked."""
    with ThreadPoolExecutor(1) as pool:
        return asyncio.run(all_faults(zmeta, room, pool))


def main():
    begun = time.monotonic()
    with tempfile.TemporaryDirectory() as room:
        found, count = faults(os.path.abspath(os.environ["ZMETA"]), room)
    print(f"{count} hosts, in {time.monotonic() - begun:.1f} s", *found, sep="\n")
    return 1 if found else 0


if __name__ == "__main__":
    sys.exit(main())
