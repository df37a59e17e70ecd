#!/usr/bin/env python3
"""Runs the program on rows, whole views, worlds, mutilated records, large input, hosts, a terminal, and streams,
files and a clock that fail, or streams that are slow, talks to its server, searches its targets, replays traces, and
compares what it prints with what is due; and the completions of command lines with rows and with its help.

    python3 tests/program/check.py       (once the program is built; ZMETA may name another build)

A row has the words of a command line, with `|` between them, and the input behind `<`. Behind `=>` stand the status,
standard output and standard error, with `>` between them. `%` and two digits stand for one octet, `=FILE` for the
octets of that file, `-` for none, `0x` and digits for octets, `facts` for a saved file of the names and facts behind
it. One more `>` is followed by a file that the run makes, and one with the same octets, `<` for those of standard
input, or `-` if it makes none; no other file is made. A row of words has the status behind `=>`, and the beginning of
the text: on standard output if the status is 0, else on standard error. A row of `full` begins with the stream that
fails, one of `devices` with the call. The files are those of tests/program/files, and `folder` is a folder."""

import os
import re
import shutil
import subprocess
import sys
import tempfile
from concurrent.futures import ThreadPoolExecutor

import changes
import charsets
import completions
import devices
import extracting
import hosts
import html_pages
import json_lines
import joining
import kept
import large
import listed
import marc_made
import marc_views
import merging
import messages
import names
import opac_views
import ready
import replies
import saved
import saving
import served
import stops
import streams
import targets
import terminal
import traces
import views
import wide
import worlds

HERE = os.path.dirname(os.path.abspath(__file__))
BUILT = os.path.join(os.path.dirname(os.path.dirname(HERE)), "crates/zmeta/out/zmeta")
ZMETA = os.path.abspath(os.environ.get("ZMETA") or BUILT)
FILES = os.path.join(HERE, "files")
MUTILATED = 5000
COPIED = 5000
JSON_WORLDS, JSON_FACTS = 3000, 20000
SEED = 1
# the tables of rows, but those of completions
TABLES = (
    "show framing lengths misfits queries pqf notation catalogues conversions join saved views copies stops new records "
    "worlds search json traces help full devices explained words"
).split()
# the streams of which a row begins with one that fails
STREAMS = "stdin", "stdout", "stderr", "both"


def content(path):
    with open(path, "rb") as file:
        return file.read()


def octets_of(name):
    return content(os.path.join(FILES, name))


def unescaped(text):
    return re.sub(rb"%([0-9a-f]{2})", lambda it: bytes.fromhex(it[1].decode()), text.encode())


def meant(text):
    if text == "-":
        return b""
    if text.startswith("0x"):
        return bytes.fromhex(text[2:])
    if text.startswith("facts "):
        return saved.of_rows(text[6:])
    return octets_of(text[1:]) if text.startswith("=") else unescaped(text)


def run(room, words, given=b""):
    """The status of a command in a folder, what it prints, and what it tells. Its help has the name by which it is
    called."""
    ran = subprocess.run(["zmeta", *words], executable=ZMETA, input=given, capture_output=True, cwd=room, timeout=60)
    return ran.returncode, ran.stdout, ran.stderr


def rows_of(table):
    with open(os.path.join(HERE, "rows", table + ".rows"), encoding="utf-8") as file:
        return [it for it in file.read().split("\n") if it and not it.startswith("#")]


def fault_of_row(room, row):
    """What is not as the row says, if anything."""
    line, due = row.split(" => ", 1)
    line, _, given = line.partition(" < ")
    status, printed, told, *made = due.split(" > ")
    front, *words = line.split("|")
    words, given = [*map(unescaped, words)], meant(given) if given else b""
    if front == "zmeta":
        found = run(room, words, given)
    else:
        found = (streams if front in STREAMS else devices).failing(ZMETA, room, front, words, given)
    if found != (int(status), meant(printed), meant(told)):
        return f"{row}\n    {found}"
    for it in made:
        name, like = it.split("=")
        path = os.path.join(room, name)
        there = content(path) if os.path.exists(path) else None
        if there != (None if like == "-" else given if like == "<" else octets_of(like)):
            return f"{row}\n    {name} is not as is due: {there}"
    return None


def unnamed(room, rows):
    """Files that no row names, and no run makes for itself."""
    words = {word.rpartition("=")[2] for row in rows for word in row.split(" => ")[0].split("|")}
    known = {*os.listdir(FILES), "folder", devices.SHIM}
    return [f"the file {it} is made" for it in sorted(os.listdir(room)) if it not in known | words]


def fault_of_words(room, row):
    line, due = row.split(" => ", 1)
    status, _, front = due.partition(" ")
    found = run(room, map(unescaped, line.split("|")[1:]), octets_of("close.hex"))
    text, other = found[1:] if status == "0" else found[:0:-1]
    if found[0] != int(status) or not text.startswith(unescaped(front)) or other:
        return f"{row}\n    {found}"
    return None


def fault_of_view(room, name, known, names, status, text):
    """What is printed in place of a view, if it differs."""
    for file, octets in ((name, known), (name + ".names", names)):
        with open(os.path.join(room, file), "wb") as it:
            it.write(octets)
    found = run(room, ["join", "--titles", name, name + ".names"])
    return None if found == (status, text, b"") else f"{name}: {found[0]} {found[2]}\n{found[1].decode()}"


def nested(operators):
    """A query of so many operators, each before its operands."""
    return "@and " * operators + "x " * (operators + 1)


def response(records):
    """A Present response with so many records of 3,000 octets, and what is printed of it. Each element that holds
    elements has an indefinite length, as many servers send them."""
    record = b"3080 800164 A180 A180 2880 06072A8648CE13050A 81820BB8" + b"41" * 3000 + b"0000 0000 0000 0000\n"
    front = b"B980 820400000002 9801%02X990100 9B0100 BC80" % records
    lines = b'  rec 1.2.840.10003.5.10 "d" "%s"\n' % (b"A" * 3000) * records
    return front + record * records + b"0000 0000", b"presentResponse 00000002 %d 0 0\n" % records + lines


def faults_of_large(room):
    """What is not as it should be of deep queries and of large messages."""
    status, _, told = run(room, ["pqf", nested(31)])
    if (status, told) != (0, b""):
        yield f"31 operators: {status} {told}"
    if run(room, ["pqf", nested(32)]) != (3, b"", b"zmeta: TooDeep at 160\n"):
        yield "32 operators"
    for records in (1, 7, 100):
        given, printed = response(records)
        if run(room, ["show"], given) != (0, printed, b""):
            yield f"{records} records"


def fault_of_world(room, number, world, listed):
    """What is not as it should be of one world, if anything."""
    name = f"any-{number}.world"
    with open(os.path.join(room, name), "w", encoding="utf-8") as file:
        file.write(world)
    found = run(room, ["run", name])
    return None if found == (0, listed.encode(), b"") else f"{world}\n    {found}"


def main():
    faults = []
    with tempfile.TemporaryDirectory() as room, ThreadPoolExecutor(len(os.sched_getaffinity(0))) as pool:
        shutil.copytree(FILES, room, dirs_exist_ok=True)
        os.mkdir(os.path.join(room, "folder"))
        devices.make_shim(room)
        for table in TABLES:
            look = fault_of_words if table == "words" else fault_of_row
            rows = rows_of(table)
            faults += [it for it in pool.map(lambda row: look(room, row), rows) if it]
            print(f"program: {len(rows)} rows of {table}")
        faults += unnamed(room, [row for table in TABLES for row in rows_of(table)])
        rows = rows_of("completions")
        faults += completions.faults(run, room, rows)
        print(f"program: {len(rows)} rows of completions")
        found, count = messages.faults(ZMETA, room)
        faults += found
        print(f"program: {count} APDUs with changes, operators in one another, and strings of many segments")
        faults += terminal.faults(ZMETA, room)
        print("program: Ctrl-C and the line of progress")
        found, count, again = hosts.faults(ZMETA, room)
        faults += found
        print(f"program: {count} runs that ask hosts over TCP, and {again} again")
        found, count = names.faults(ZMETA, room)
        faults += found
        print(f"program: {count} runs that ask hosts by name")
        found, count = replies.faults(ZMETA, room)
        faults += found
        print(f"program: {count} hosts, whose replies are accepted or refused")
        found, count = served.faults(ZMETA, room)
        faults += found
        print(f"program: {count} sessions with its server")
        found, *counts = targets.faults(ZMETA, room)
        faults += found
        print("program: %d sessions with targets, %d rows of what they find, and %d searches" % tuple(counts))
        faults += charsets.faults(ZMETA, room)
        print(f"program: {len(charsets.VIEWS)} views of records in charsets of a file")
        faults += streams.faults(ZMETA, room)
        print("program: long texts over slow streams")
        faults += devices.faults(ZMETA, room)
        print("program: input of an octet a read")
        faults += stops.faults(ZMETA, room)
        print(f"program: {len(stops.HOSTS)} hosts that stop, in the view and in JSON")
        found, count = ready.faults(ZMETA, room)
        faults += found
        print(f"program: {count} runs that are stopped while hosts answer, or that strangers meet")
        found, count = traces.faults(ZMETA, room)
        faults += found
        print(f"program: {count} traces, replayed, cut and damaged")
        faults += saving.faults(ZMETA, room)
        print("program: saved files where saving may fail")
        faults += kept.faults(ZMETA)
        print("program: files of folders that commands leave as they were")
        faults += changes.faults(ZMETA)
        print(f"program: changes of {changes.CASES} pairs of saved files")
        faults += merging.faults(ZMETA)
        print(f"program: {2 * merging.CASES} merges of saved files")
        faults += extracting.faults(ZMETA)
        print(f"program: records of {2 * extracting.CASES} sets of saved files")
        faults += joining.faults(ZMETA)
        print(f"program: lists of {2 * joining.CASES} sets of saved files")
        faults += listed.faults(ZMETA)
        print(f"program: lists of {listed.FACTS} facts in parts of {len(listed.SIZES)} sizes")
        faults += large.faults(ZMETA, room)
        print(f"program: large input of {len(large.COMMANDS)} commands")
        faults += [it for it in (fault_of_view(room, *it) for it in views.files()) if it]
        print(f"program: {len(views.ALL)} whole views")
        faults += faults_of_large(room)
        made = [*worlds.made(octets_of)]
        numbered = [(number, *it) for number, it in enumerate(made)]
        faults += [it for it in pool.map(lambda it: fault_of_world(room, *it), numbered) if it]
        print(f"program: {len(made)} worlds")
        made = [*wide.made()]
        faults += [it for it in pool.map(lambda it: wide.fault_of(ZMETA, room, *it), enumerate(made)) if it]
        print(f"program: {len(made)} wide worlds")
        faults += marc_views.faults(ZMETA, room, [*marc_made.all_of_them(MUTILATED, SEED)], SEED)
        print(f"program: {MUTILATED} mutilated records")
        faults += opac_views.faults(ZMETA, room, COPIED, SEED)
        print(f"program: {COPIED} records with their copies")
        faults += html_pages.faults(ZMETA, room)
        print(f"program: {len(html_pages.ASKED)} pages for browsers")
        files = json_lines.files(JSON_WORLDS, JSON_FACTS, SEED)
        faults += [it for it in pool.map(lambda it: json_lines.fault_of(ZMETA, room, *it), files) if it]
        print(f"program: JSON of {JSON_WORLDS} worlds and {JSON_FACTS} facts")
    for it in faults:
        print(f"program: not as it should be: {it}")
    return 1 if faults else 0


if __name__ == "__main__":
    sys.exit(main())
