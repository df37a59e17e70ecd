#!/usr/bin/env python3
"""Asks one server as three catalogues of a file, with and without a charset, and looks how its records are shown; then
a host for each of the three, of which the first has a text of two lines; then a host as a catalogue of two databases,
with attributes and an element set name of its own, and looks what it is sent.

    ZMETA=PROGRAM python3 tests/program/charsets.py

The records are in ISO 8859-1, and the leader of the first claims MARC-8. What is due is written out, or stands in the
files `charsets.saved`, `charsets.titles` and the like."""

import base64
import json
import os
import shutil
import subprocess
import sys
import tempfile
import threading

from peers import ACCEPTED, CLOSE, INIT, connected, counted, found, free_port, shown, silent, threaded
from saved import MARC21, SUTRS, record

FILES = os.path.join(os.path.dirname(os.path.abspath(__file__)), "files")
# seconds
END = 60
# each catalogue is asked by each view, and by the list
CATALOGUES = {"a": 'charset = "latin-1"\n', "b": "", "c": 'charset = "utf-8"\n'}
VIEWS = ("--titles", "--fields", "--json", "--html", "list")

LEADER = "00083nam  22000491a 4500"
MARC = f"{LEADER}245002400000260000900024\x1e10\x1faCaf\xe9 cr\xe8me /\x1fc\xc9mile\x1e  \x1fc1965\x1e\x1d"
TEXT = "d\xe9j\xe0 vu: le r\xeave"
RECORDS = (MARC21, MARC), (SUTRS, TEXT)

# The title, the maker and the text, as each catalogue has them.
READ = {
    "a": ("Caf\xe9 cr\xe8me", "\xc9mile", TEXT),
    "b": ("Caf \u030ccrm\u0308e", "\ufffdmile", "d\ufffdj\ufffd vu: le r\ufffdve"),
    "c": ("Caf\ufffd cr\ufffdme", "\ufffdmile", "d\ufffdj\ufffd vu: le r\ufffdve"),
}
# As they say themselves, whatever file they came by.
DECLARED = dict.fromkeys(READ, READ["b"])


def world():
    """The world file of the server."""
    return "target t 65536 cn\ndb d\n" + "".join(f'rec {it} "{octets}"\nfield 4 "dune"\n' for it, octets in RECORDS)


def file_of_catalogues(addresses):
    return "".join(f'[{name}]\naddress = "{address}"\ndatabase = "d"\n{charset}'
                   for (name, charset), address in zip(CATALOGUES.items(), addresses))


def head():
    return "".join(f"{name}: 2 found, 2 shown\n" for name in READ) + "\n"


def titles(read, below=lambda title, maker: "", text_below=lambda text: ""):
    lines = [head()]
    for name, (title, maker, _) in read.items():
        lines.append(f"  1  {name}  1965  {title} / {maker}\n" + below(title, maker))
    for name, (_, _, text) in read.items():
        lines.append(f"  2  {name}        {text}\n" + text_below(text))
    return "".join(lines)


def fields(read):
    def of_record(*lines):
        return "".join(f"{'':14}{it}\n" for it in lines)

    return titles(read, lambda title, maker: of_record(LEADER, f"245 10 $a {title} / $c {maker}", "260    $c 1965"),
                  of_record)


def objects(read):
    """The lines of JSON: the records have their octets as they came."""
    lines = [{"type": "count", "catalogue": name, "set": 1, "count": 2} for name in read]
    for position, (syntax, octets) in enumerate(RECORDS, 1):
        for name, (title, maker, _) in read.items():
            where = {"type": "record", "catalogue": name, "set": 1, "position": position, "syntax": syntax}
            fields = {"year": "1965", "title": title, "author": maker} if syntax == MARC21 else {}
            coded = base64.b64encode(octets.encode("latin-1")).decode()
            lines.append({**where, "database": "d", **fields, "octets": coded})
    return "".join(json.dumps(it, ensure_ascii=False, separators=(",", ":")) + "\n" for it in lines)


def cells(printed):
    """How many records of a page have the title and the maker of the first catalogue."""
    title, maker, _ = READ["a"]
    row = f'<td role="cell">1965</td><td role="cell">{title}<details><summary>Fields</summary>'
    return printed.count(row), printed.count(f'<td role="cell">{maker}</td>')


def ran(zmeta, room, *words):
    it = subprocess.run([zmeta, *words], capture_output=True, cwd=room, timeout=END)
    return it.returncode, it.stdout, it.stderr.decode()


def octets_at(room, name):
    with open(os.path.join(room, name), "rb") as file:
        return file.read()


def fault(what, found, due):
    return [] if found == due else [f"charsets, {what}: {found}\n    {due} is due"]


def faults_of_views(zmeta, room):
    ask = "ask", "charsets.toml", "--title", "dune"
    printed = {it: ran(zmeta, room, *ask, *([] if it == "list" else [it]), "--save", f"charsets{it}") for it in VIEWS}
    for it, (status, _, said) in printed.items():
        yield from fault(f"status of {it}", (status, said), (0, ""))
    text = {it: octets.decode() for it, (_, octets, _) in printed.items()}
    yield from fault("titles", text["--titles"], titles(READ))
    yield from fault("fields", text["--fields"], fields(READ))
    yield from fault("JSON", text["--json"], objects(READ))
    yield from fault("page", cells(text["--html"]), (1, 1))
    rows = [it.split('"', 2)[2] for it in text["list"].splitlines() if it[:2] == "1 "]
    yield from fault("list", (len(rows), len(set(rows))), (3, 1))
    yield from fault("saved", ran(zmeta, room, "join", "charsetslist", "--titles"),
                     (0, titles(DECLARED).encode(), ""))


def gives(*records):
    """A host that finds and gives these records."""
    listed = [record(syntax, octets.encode("latin-1")) for syntax, octets in records]
    replies = ACCEPTED, counted(len(listed)), shown(2, listed, len(listed) + 1), CLOSE
    return lambda link: silent(link, *replies)


def faults_of_hosts(zmeta, room):
    """What is not as the files have it of a host for each catalogue."""
    held = []
    marc, text = (MARC21, MARC), (SUTRS, TEXT.replace(": ", "\n"))
    addresses = [threaded(gives(*it), held) for it in ((marc, text), (marc,), (marc,))]
    with open(os.path.join(room, "charset-hosts.toml"), "w", encoding="utf-8") as file:
        file.write(file_of_catalogues(addresses))
    ask = "ask", "charset-hosts.toml", "--title", "dune"
    for view in ("titles", "fields", "json"):
        printed = ran(zmeta, room, *ask, "--" + view, "--save", "charset-hosts.saved")
        yield from fault(f"hosts, {view}", printed, (0, octets_at(room, "charsets." + view), ""))
    kept = octets_at(room, "charset-hosts.saved")
    yield from fault("hosts, saved", kept, octets_at(room, "charsets.saved"))
    yield from fault("hosts, page", cells(ran(zmeta, room, *ask, "--html")[1].decode()), (1, 1))
    for it in held:
        it.close()


# The search of the databases y and z, both element set names F, for a title with a structure of its own.
SEARCH = bytes.fromhex(
    "b65b 820400000001 8d0100 8e0101 8f0100 9001ff 910131 b208 9f690179 9f69017a bf6403800146 bf6503800146"
    "b52e a12c 06072a8648ce130301 a021 bf661e bf2c14 3008 9f780101 9f790104 3008 9f780104 9f790106 9f2d04 64756e65")


def faults_of_question(zmeta, room):
    """What is not as it should be of what a host is sent."""
    held, came, ended = [], [], threading.Event()

    def finds_nothing(link):
        link.sendall(ACCEPTED + found(1, 0, 0) + CLOSE)
        while piece := link.recv(4096):
            came.append(piece)
        ended.set()

    file = (f'[b]\naddress = "{threaded(finds_nothing, held)}"\ndatabase = ["y", "z"]\nelements = "F"\n'
            'terms.title = "@attr 1=4 @attr 4=6"\n')
    with open(os.path.join(room, "question.toml"), "w", encoding="utf-8") as it:
        it.write(file)
    printed = ran(zmeta, room, "ask", "question.toml", "--title", "dune")
    yield from fault("question, ended", ended.wait(END), True)
    yield from fault("question", printed, (0, b'target "b" set 1 count 0\n', ""))
    yield from fault("question, sent", b"".join(came).hex(), (INIT + SEARCH + CLOSE).hex())
    for it in held:
        it.close()


def faults(zmeta, room):
    """What is not as it should be."""
    yield from faults_of_server(zmeta, room)
    yield from faults_of_hosts(zmeta, room)
    yield from faults_of_question(zmeta, room)


def faults_of_server(zmeta, room):
    """What is not as it should be of one server."""
    port = free_port()
    with open(os.path.join(room, "charsets.world"), "w", encoding="latin-1") as file:
        file.write(world())
    with open(os.path.join(room, "charsets.toml"), "w", encoding="utf-8") as file:
        file.write(file_of_catalogues([f"127.0.0.1:{port}"] * len(CATALOGUES)))
    # one connection waits until the server listens
    count = str(1 + len(CATALOGUES) * len(VIEWS))
    words = [zmeta, "serve", f"127.0.0.1:{port}", "t", "charsets.world", count]
    with subprocess.Popen(words, stdout=subprocess.PIPE, stderr=subprocess.PIPE, cwd=room) as server:
        try:
            with connected(port):
                pass
            return [*faults_of_views(zmeta, room)]
        except (OSError, ValueError, subprocess.TimeoutExpired) as error:
            return [f"charsets: {error!r}"]
        finally:
            server.kill()


def main():
    with tempfile.TemporaryDirectory() as room:
        shutil.copytree(FILES, room, dirs_exist_ok=True)
        found = [*faults(os.path.abspath(os.environ["ZMETA"]), room)]
    print(*found, sep="\n")
    return 1 if found else 0


if __name__ == "__main__":
    sys.exit(main())
