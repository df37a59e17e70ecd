#!/usr/bin/env python3
"""Runs the program on streams that fail, and on streams that take a long text slowly, in short writes that signals
interrupt.

    ZMETA=PROGRAM python3 tests/program/streams.py"""

import fcntl
import os
import signal
import socket
import struct
import subprocess
import sys
import tempfile
import threading
import time

from saved import COUNT, MARC21, SEEN, element, of_facts, record

# a run has to end within so many seconds, also where it is interrupted
MOST = 300
# a long text is of so many records of so many octets, which are more than a million
RECORDS, SIZE = 350, 3000
# the octets that a stream holds, those that are read of it at a time, and the reads between two interruptions
HELD, PIECE, READS = 4096, 3000, 7
# a text takes so many writes at least
WRITES = 20


# streams that fail


def failing(zmeta, room, which, words, given):
    """The status of a command, what it prints, and what it tells. Of its streams, `stdout`, `stderr` or `both` are
    full, or `stdin` is a folder."""
    with open("/dev/full", "wb") as full:
        out, errors = (full if which in it else subprocess.PIPE for it in (("stdout", "both"), ("stderr", "both")))
        source = {"stdin": os.open(room, os.O_RDONLY)} if which == "stdin" else {"input": given}
        try:
            ran = subprocess.run([zmeta, *words], **source, stdout=out, stderr=errors, cwd=room, timeout=MOST)
        finally:
            if which == "stdin":
                os.close(source["stdin"])
    return ran.returncode, ran.stdout or b"", ran.stderr or b""


# streams that are slow


def pipe():
    """Both ends of a small pipe: a write that is interrupted has taken a part."""
    here, there = os.pipe()
    fcntl.fcntl(here, fcntl.F_SETPIPE_SZ, HELD)
    return here, there


def stream():
    """Both ends of a small socket with a limit of time: a write that is interrupted has taken a part, or nothing; then
    it has failed."""
    here, there = socket.socketpair()
    there.setsockopt(socket.SOL_SOCKET, socket.SO_SNDBUF, HELD)
    there.setsockopt(socket.SOL_SOCKET, socket.SO_SNDTIMEO, struct.pack("ll", MOST, 0))
    return here.detach(), there.detach()


def make_narrow(link):
    """Lets a TCP socket take few octets which are not read, and the system of its other end keep few: segments are
    short."""
    link.setsockopt(socket.SOL_SOCKET, socket.SO_RCVBUF, HELD)
    link.setsockopt(socket.IPPROTO_TCP, socket.TCP_MAXSEG, 536)


def until(process, state):
    """Waits until a program sleeps (`S`) or is stopped (`T`), or has ended."""
    while process.poll() is None:
        with open(f"/proc/{process.pid}/stat", encoding="utf-8", errors="replace") as file:
            if file.read().rpartition(")")[2].split()[0] == state:
                return
        time.sleep(0.0002)


def interrupt(process):
    """Breaks off what a program waits for: stops it, and lets it go on."""
    until(process, "S")
    process.send_signal(signal.SIGSTOP)
    until(process, "T")
    process.send_signal(signal.SIGCONT)


def writes_of(process):
    """How many writes a program has made, or 0 if it has ended."""
    try:
        with open(f"/proc/{process.pid}/io", encoding="utf-8") as file:
            return int(dict(line.split(": ") for line in file)["syscw"])
    except OSError:
        return 0


def feed(process, given):
    """Gives a program its standard input in pieces, as long as it takes them."""
    try:
        with process.stdin as stream:
            for at in range(0, len(given), PIECE):
                stream.write(given[at : at + PIECE])
    except BrokenPipeError:
        pass


def slowly(zmeta, room, words, given, ends):
    """The status of a command, what it prints and tells, and how many writes it made before the last interruption."""
    here, there = ends()
    with subprocess.Popen([zmeta, *words], bufsize=0, stdin=subprocess.PIPE, stdout=there, stderr=subprocess.PIPE,
                          cwd=room) as process:
        os.close(there)
        feeding, ending = threading.Thread(target=feed, args=(process, given)), threading.Timer(MOST, process.kill)
        for it in (feeding, ending):
            it.start()
        pieces, writes = [], 0
        while piece := os.read(here, PIECE):
            pieces.append(piece)
            if len(pieces) % READS == 0:
                # (once it has taken a part, and then nothing)
                interrupt(process)
                interrupt(process)
                writes = max(writes, writes_of(process))
        os.close(here)
        ending.cancel()
        feeding.join()
        told = process.stderr.read()
    return (process.returncode, b"".join(pieces), told), writes


# long texts


def octets_of(number):
    return b"%04d" % number * (SIZE // 4)


def message(number):
    """A Present response with one record."""
    front = element(b"\x82", number.to_bytes(4, "big")), bytes.fromhex("980101 990100 9b0100")
    return element(b"\xb9", *front, element(b"\xbc", record(MARC21, octets_of(number))))


def long_texts(room):
    """Commands, their input, and the texts that they have to print. Makes their files."""
    numbers = range(1, RECORDS + 1)
    lines = [(number, b'rec %s - "%s"\n' % (MARC21.encode(), octets_of(number))) for number in numbers]
    shown = b"".join(b"presentResponse %08x 1 0 0\n  %s" % it for it in lines)
    yield ["show"], b"\n".join(message(it).hex().encode() for it in numbers), shown
    entries = b"".join(b"rec %s %s\nfield 4 dune\n" % (MARC21.encode(), octets_of(number)) for number in numbers)
    with open(os.path.join(room, "long.world"), "wb") as file:
        file.write(b"target a 100000 cn\ndb d\n" + entries + b"ask a d - %d dune\n" % RECORDS)
    listed = b"".join(b'%d "a" 1 %s' % (number, line.replace(b" - ", b' "d" ')) for number, line in lines)
    yield ["run", "long.world"], b"", b'target "a" set 1 count %d\n' % RECORDS + listed
    facts = [(COUNT, 0, 1, RECORDS), *((SEEN, 0, 1, it, record(MARC21, octets_of(it))) for it in numbers)]
    with open(os.path.join(room, "long-text.saved"), "wb") as file:
        file.write(of_facts(["a"], facts))
    yield ["records", "long-text.saved"], b"", b"".join(map(octets_of, numbers))


def faults(zmeta, room):
    """What is not as it should be of long texts over slow streams."""
    for words, given, due in long_texts(room):
        for ends in (pipe, stream):
            found, writes = slowly(zmeta, room, words, given, ends)
            if found != (0, due, b""):
                text = f"{found[0]} {found[2]}, {len(found[1])} octets, and {len(due)} are due"
                yield f"{words}, slow {ends.__name__}: {text}"
            elif writes < WRITES:
                yield f"{words}, slow {ends.__name__}: {writes} writes are too few"


def main():
    begun = time.monotonic()
    with tempfile.TemporaryDirectory() as room:
        found = [*faults(os.path.abspath(os.environ["ZMETA"]), room)]
    print(f"slow streams, in {time.monotonic() - begun:.1f} s", *found, sep="\n")
    return 1 if found else 0


if __name__ == "__main__":
    sys.exit(main())
