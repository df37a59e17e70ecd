#!/usr/bin/env python3
"""Has hosts asked with a trace, and replays it: the same is printed, told and saved, and the status is the same. Then
cuts and damages traces, replays those of examples/traces, and compares heads of traces with what was asked.

    ZMETA=PROGRAM python3 tests/program/traces.py"""

import asyncio
import json
import os
import random
import re
import socket
import subprocess
import sys
import tempfile
import threading
import time
from concurrent.futures import ThreadPoolExecutor

import hosts
from hosts import AT_ONCE, BOTH, EVERY, IN_ORDER, Trials, four_hosts, hosts_of
from saved import of_facts

HERE = os.path.dirname(os.path.abspath(__file__))
EXAMPLES = os.path.join(os.path.dirname(os.path.dirname(HERE)), "examples/traces")
# how many runs go side by side
SIDE = 8
# how many fronts of a trace that end at any octet are replayed
FRONTS, SEED = 60, 1
CUT = b"zmeta: the trace is cut off\n"

# kinds of hosts and options: each is asked in order and at once
CASES = (
    ("whole one-by-one", ()),
    ("whole nobody refusing", ("--titles",)),
    ("pieces closing ending", ("--json",)),
    ("whole nobody no-port", ("--fields",)),
    ("whole no-name refusing", ("--html", "--heading", "Dune & more")),
    ("great page", ("--hex",)),
    ("resetting-at-close closing-unread resetting-in-advance whole", ()),
    ("stalling whole silent", ("--patience", "1")),
    ("stalling whole full", ("--patience", "1", "--titles", "--explain")),
    ("trickling whole", ("--within", "1", "--json")),
    ("silent full whole", ("--connect", "1", "--patience", "1", "--explain")),
    (EVERY, ("--patience", "1", "--titles")),
    ("whole whole whole", ("--only", "whole 1", "--records", "1-1,3-3", "--elements", "F", "--syntax", "marc21")),
    ("whole whole", ("--title", "dune", "--author", "herbert")),
    ("whole whole", ("--query", '@attr 1=4 "du\\"ne"', "--syntax", "-")),
    ("", ()),
)
# Words of `ask`, its world, and what its trace has before the first connection: texts, and numbers of seconds.
ONE = "host b 127.0.0.1:1\nask b d - 1 dune\n"
TWO = 'host a h\nhost "b c" h\nask a d - 1 dune\nask "b c" d - 1 dune\n'
IN_TURN, TOGETHER = ("manner", "inOrder"), ("manner", "atOnce")
LIMITS = ("connect", 30), ("patience", 30), ("total", 3600)
HEADS = (
    ("WORLD", ONE, IN_TURN, *LIMITS),
    ("WORLD|--query|x|--only|b", ONE, ("query", "x"), ("only", "b"), IN_TURN, *LIMITS),
    ("--only|a|WORLD|--at-once|--only|b c", TWO, ("only", "a"), ("only", "b c"), TOGETHER, *LIMITS),
    ("WORLD|--patience|2|--within|1800", ONE, IN_TURN, ("connect", 2), ("patience", 2), ("total", 1800)),
    ("WORLD|--connect|3|--within|86400|-4", ONE, IN_TURN, ("connect", 3), ("patience", 30), ("total", 86400)),
    ("WORLD|--records|1-3|--elements|F|--syntax|xml", ONE, ("records", "1-3"), ("elements", "F"), ("syntax", "xml"),
     IN_TURN, *LIMITS),
)
TEXTS = "world query records elements syntax only".split()
# the options that replay has too
PRINTED = ("--titles", "--json", "--fields", "--html", "--hex", "--explain")


def printed_options(options):
    found = [it for it in options if it in PRINTED]
    return found + ["--heading", options[options.index("--heading") + 1]] if "--heading" in options else found


class Traced(Trials):
    """Trials that write a trace and a saved file of each run."""

    def program(self, words, files, errors):
        path = words[0]
        return super().program([*words, "--trace", path + ".trace", "--save", path + ".saved"], files, errors)


def run(zmeta, room, *words):
    how = {"stdin": subprocess.DEVNULL, "capture_output": True, "cwd": room, "timeout": 60, "check": False}
    ran = subprocess.run([zmeta, *words], **how)
    return ran.returncode, ran.stdout, ran.stderr


def octets_at(path):
    with open(path, "rb") as file:
        return file.read()


def make(path, octets):
    with open(path, "wb") as file:
        file.write(octets)


def replayed(zmeta, room, path, answer, options):
    """What is not as it should be of the replay of a trace, beside which the saved file is."""
    status, printed, told = answer
    found = run(zmeta, room, "replay", *printed_options(options), "--save", path + ".again", path + ".trace")
    if found != (status, printed.encode(), told.encode()):
        yield f"{found}\n    {answer} is due"
    if octets_at(path + ".again") != octets_at(path + ".saved"):
        yield "the saved file is another"
    shown = run(zmeta, room, "show", "--trace", path + ".trace")
    if shown[0] or shown[2] or not re.fullmatch(rb'(\d+\.\d{3} "[^"]*" .*\n(  .*\n)*)*', shown[1]):
        yield f"its dialogue: {shown}"


async def traced(gate, zmeta, room, asked, options, at_once):
    """What `ask` answers for hosts in a folder of its own, and the path of its trace, without the ending."""
    os.mkdir(room)
    async with gate:
        with ThreadPoolExecutor(1) as pool:
            run = await Traced(zmeta, room, pool).run(asked, options, at_once)
    return run.answer, os.path.join(room, "asked-1.world")


async def faults_of_case(gate, zmeta, room, case, at_once):
    kinds, options = case
    answer, path = await traced(gate, zmeta, room, hosts_of(kinds), options, at_once)
    return [f"traces: {kinds} {options}: {it}" for it in replayed(zmeta, room, path, answer, options)]


async def faults_of_all(zmeta, room):
    """What is not as it should be of runs, and the trace of one more."""
    gate = asyncio.Semaphore(SIDE)
    ways = [(case, at_once) for case in CASES for at_once in BOTH]
    runs = [faults_of_case(gate, zmeta, os.path.join(room, f"case-{at}"), *it) for at, it in enumerate(ways)]
    found = await asyncio.gather(*runs)
    _, path = await traced(gate, zmeta, os.path.join(room, "four"), four_hosts(), (), IN_ORDER)
    return [fault for some in found for fault in some], path


def faults_of_fronts(zmeta, room, path):
    """What is not as it should be of fronts of a trace."""
    octets = octets_at(path + ".trace")
    whole = run(zmeta, room, "replay", path + ".trace")
    ends = [it.end() for it in re.finditer(b"\n", octets)]
    chance = random.Random(SEED)
    places = {*ends, *(chance.randrange(len(octets)) for _ in range(FRONTS))} - {len(octets)}
    head = next(at for at, it in enumerate(octets.splitlines(), 1) if b'"total"' in it)
    for place in sorted(places):
        make(os.path.join(room, "front.trace"), octets[:place])
        status, printed, told = run(zmeta, room, "replay", "front.trace")
        lines = octets[:place].count(b"\n")
        if lines < head - 1:
            due = (3, b"", b"zmeta: line %d refused\n" % (lines + 1))
            if (status, printed, told) != due:
                yield f"traces: {place} octets: {status} {printed} {told}"
        elif (status != 1 or told not in (whole[2], CUT, CUT + whole[2])
              or place not in ends and not told.startswith(CUT)):
            yield f"traces: {place} octets: {status} {told}"
        elif not set(re.findall(rb".* rec .*", printed)) <= set(re.findall(rb".* rec .*", whole[1])):
            yield f"traces: {place} octets bring other records"


def faults_of_damage(zmeta, room, path):
    """What is not as it should be of traces with a damaged line: each is refused at that line."""
    lines = octets_at(path + ".trace").splitlines(keepends=True)

    def refused(number, changed):
        make(os.path.join(room, "damaged.trace"), b"".join(changed))
        for words in (("replay", "damaged.trace", "--save", "none.saved"), ("show", "--trace", "damaged.trace")):
            found = run(zmeta, room, *words)
            if found != (3, b"", b"zmeta: line %d refused\n" % number):
                yield f"traces: {words} with line {number} damaged: {found}"
        if os.path.exists(os.path.join(room, "none.saved")):
            yield "traces: a damaged one is saved"

    for at, line in enumerate(lines):
        others = line.replace(b'"', b"'", 1), b" " + line, line.replace(b":", b": ", 1), b"\n" + line
        for other in (*others, line[:-1] + b"\r\n"):
            yield from refused(at + 1, [*lines[:at], other, *lines[at + 1 :]])
        if b'"connection":0,' in line:
            other = line.replace(b'"connection":0,', b'"connection":4,')
            yield from refused(at + 1, [*lines[:at], other, *lines[at + 1 :]])
    head = next(at for at, it in enumerate(lines) if b'"total"' in it)
    # the total may miss
    for at in range(head):
        yield from refused(at + 1, [*lines[:at], *lines[at + 1 :]])
        yield from refused(at + 2, [*lines[: at + 1], lines[at], *lines[at + 1 :]])
    yield from refused(head + 2, [*lines[: head + 1], *lines[head:]])
    yield from refused(1, [b'{"at":0,"version":2}\n', *lines[1:]])
    yield from refused(1, [])
    given = ((b"host a", b"world"), (b"target t 1 n\ndb d\nask t d - 1 x\n", b"world"), (b"@and", b"query"),
             (b"0-x", b"records"))
    for front, octets in given:
        other = b'{"at":0,"%s":"%s"}\n' % (octets, front.hex().encode())
        yield from refused(2, [lines[0], *([] if octets == b"world" else [lines[1]]), other, *lines[2:]])
    for name in (b"another", b"\xff"):
        yield from refused(2, [*lines[:2], b'{"at":0,"only":"%s"}\n' % name.hex().encode(), *lines[2:]])


def silent_host():
    """A host that takes a connection, and says nothing."""
    door = socket.create_server(("127.0.0.1", 0))
    held = []

    def take():
        while True:
            try:
                held.append(door.accept()[0])
            except OSError:
                return

    threading.Thread(target=take, daemon=True).start()
    return door, held


def faults_of_killed(zmeta, room):
    """What is not as it should be of a trace whose program is killed while a host is silent."""
    door, held = silent_host()
    path = os.path.join(room, "killed.trace")
    with open(os.path.join(room, "killed.world"), "w", encoding="utf-8") as file:
        file.write("host silent 127.0.0.1:%d\nask silent d - 1 dune\n" % door.getsockname()[1])
    how = {"cwd": room, "stdout": subprocess.DEVNULL, "stderr": subprocess.DEVNULL}
    with subprocess.Popen([zmeta, "ask", "--trace", path, "killed.world"], **how) as ran:
        for _ in range(600):
            time.sleep(0.1)
            if os.path.exists(path) and b'"sent"' in octets_at(path):
                break
        ran.kill()
    for it in (door, *held):
        it.close()
    found = run(zmeta, room, "replay", "killed.trace")
    if found != (1, b"", CUT):
        yield f"traces: killed: {found}"
    if b"> initRequest" not in run(zmeta, room, "show", "--trace", "killed.trace")[1]:
        yield "traces: killed: its dialogue"


async def faults_of_full(zmeta, room):
    """What is not as it should be where a trace cannot be written: the answers are printed and saved if it was begun, and
    nobody is asked if not."""
    with ThreadPoolExecutor(1) as pool:
        for path, printed in (("/dev/full", "".join(hosts.ONE)), ("none/x", ""), (".", "")):
            trials = Trials(zmeta, room, pool)
            words = ("--only", "one", "--trace", path, "--save", f"full{len(printed)}.saved")
            answer = (await trials.run(four_hosts(), words, AT_ONCE)).answer
            due = (3, printed, f"zmeta: cannot write {path}\n")
            if answer != due:
                yield f"traces: at {path}: {answer}"
    due = (0, "".join(hosts.ONE).encode())
    if run(zmeta, room, "join", f"full{len(due[1])}.saved")[:2] != due:
        yield "traces: at /dev/full nothing is saved"
    if os.path.exists(os.path.join(room, "full0.saved")):
        yield "traces: a file is saved though nobody is asked"


async def collected(found):
    return [it async for it in found]


def entry_of(key, value):
    """An entry of a head, without its time."""
    if key in TEXTS:
        return {key: value.encode().hex()}
    return {key: value if isinstance(value, str) else value * 10**9}


def faults_of_heads(zmeta, room):
    """What is not as it should be of heads of traces, and of the saved files beside them."""
    for words, world, *said in HEADS:
        make(os.path.join(room, "headed.world"), world.encode())
        words = ["headed.world" if it == "WORLD" else it for it in words.split("|")]
        run(zmeta, room, "ask", *words, "--trace", "headed.trace", "--save", "headed.saved")
        lines = [json.loads(it) for it in octets_at(os.path.join(room, "headed.trace")).splitlines()]
        found = [{key: it[key] for key in it if key != "at"} for it in lines if not {"connection", "report"} & set(it)]
        due = [{"version": 1}, entry_of("world", world), *(entry_of(*it) for it in said)]
        if found != due:
            yield f"traces: the head of {words}: {found}\n    {due} is due"
        names = ["b"] if world == ONE else ["a", "b c"]
        if octets_at(os.path.join(room, "headed.saved")) != of_facts(names, []):
            yield f"traces: the file that {words} save"


def faults_of_examples(zmeta, room):
    """What is not as it should be of the traces that are kept as examples, beside what was printed and told, with its
    status."""
    for name in sorted(os.listdir(EXAMPLES)):
        if not name.endswith(".trace"):
            continue
        path = os.path.join(EXAMPLES, name[: -len(".trace")])
        found = run(zmeta, room, "replay", "--titles", path + ".trace")
        if b"%d\n" % found[0] + found[2] + found[1] != octets_at(path + ".answer"):
            yield f"traces: {name}: {found}"
        shown = run(zmeta, room, "show", "--trace", path + ".trace")
        if shown != (0, octets_at(path + ".dialogue"), b""):
            yield f"traces: the dialogue of {name}: {shown}"


def faults(zmeta, room):
    """What is not as it should be of traces, and how many were written."""
    room = os.path.join(room, "traces")
    os.mkdir(room)
    found, path = asyncio.run(faults_of_all(zmeta, room))
    found += faults_of_fronts(zmeta, room, path)
    found += faults_of_damage(zmeta, room, path)
    found += faults_of_killed(zmeta, room)
    found += asyncio.run(collected(faults_of_full(zmeta, room)))
    found += faults_of_heads(zmeta, room)
    found += faults_of_examples(zmeta, room)
    return found, 2 * len(CASES) + len(HEADS) + 2


def main():
    with tempfile.TemporaryDirectory() as room:
        found, count = faults(os.path.abspath(os.environ["ZMETA"]), room)
    print(f"{count} traces", *found[:20], sep="\n")
    return 1 if found else 0


if __name__ == "__main__":
    sys.exit(main())
