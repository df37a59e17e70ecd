#!/usr/bin/env python3
"""Sends zmeta what strangers may send, and sees that it neither crashes nor hangs: each run has to end with a status of
its own, within 100 milliseconds of processor time for each message, or in one of five runs more.

    tests/hostile/check.py                              (once zmeta is built, or with its path in ZMETA)
    tests/hostile/check.py --show 1000 --ask 1000 --serve 100 --great 0 --seed 7

Great messages are to take a second of processor time for each million octets.

- show: damaged messages on standard input, one a run
- great: whole messages of nearly 2 MB on standard input, of as many parts of one kind as they hold
- ask: damaged replies of hosts, in random pieces: a run asks 200 hosts at once, and each of them damages one of its
  replies
- serve: connections of which two in three break off, send garbage, or trickle octets, and each third has to be answered
  as ever

All is drawn from the seed. Prints a line for each part, and what went wrong; the status is 1 then.
"""

import argparse
import concurrent.futures
import os
import random
import re
import resource
import socket
import subprocess
import sys
import tempfile
import threading
import time

ROOT = os.path.dirname(os.path.dirname(os.path.dirname(os.path.abspath(__file__))))
sys.path.insert(0, os.path.join(ROOT, "tests/program"))

import peers  # noqa: E402
import saved  # noqa: E402

ZMETA = os.environ.get("ZMETA", os.path.join(ROOT, "crates/zmeta/out/zmeta"))
WORLD = os.path.join(ROOT, "examples/libraries.world")
NAME = "city library"
QUESTION = 'ask %s books - 10 "@attr 1=4 dune"\n'
HOSTS = 200
PATIENCE = 60
LIMIT = 0.1
AGAIN = 5


def messages():
    """The encodings of APDUs that the repository keeps, of all kinds."""
    with open(os.path.join(ROOT, "crates/zknow_tests/src/apdus.rt"), encoding="utf-8") as file:
        return [bytes.fromhex(row)
                for row in re.findall(r"^\s*(?:r#\")?([0-9a-f]{10,}) (?:\w+Re\w+|close) ", file.read(), re.M)]


# ---- damage


def set_octet(draw, octets):
    octets[draw.randrange(len(octets))] = draw.randrange(256)


def flip_bit(draw, octets):
    octets[draw.randrange(len(octets))] ^= 1 << draw.randrange(8)


def cut(draw, octets):
    del octets[draw.randrange(len(octets)):]


def leave_out(draw, octets):
    at = draw.randrange(len(octets))
    del octets[at:at + draw.randint(1, 8)]


def put_in(draw, octets):
    at = draw.randrange(len(octets) + 1)
    octets[at:at] = draw.randbytes(draw.randint(1, 8))


def repeat(draw, octets):
    at = draw.randrange(len(octets))
    octets[at:at] = octets[at:at + draw.randint(1, 64)]


def nest(draw, octets):
    """Constructed elements within one another, of indefinite length."""
    at = draw.randrange(len(octets))
    octets[at:at] = b"\x30\x80" * draw.randint(1, 200)


def lengthen(draw, octets):
    """A length of many octets."""
    at = draw.randrange(len(octets))
    octets[at:at + 1] = bytes([0x80 | draw.randint(1, 127)]) + draw.randbytes(draw.randint(0, 9))


KINDS = [set_octet, flip_bit, cut, leave_out, put_in, repeat, nest, lengthen]


def damaged(draw, message):
    octets = bytearray(message)
    for _ in range(draw.choice([1, 1, 1, 2, 3, 8])):
        if octets:
            draw.choice(KINDS)(draw, octets)
    return bytes(octets)


# ---- runs


def spent(before):
    now = resource.getrusage(resource.RUSAGE_CHILDREN)
    return now.ru_utime + now.ru_stime - before.ru_utime - before.ru_stime


def timed(words, given=None):
    """A run's status, or `hangs`; its processor time; and what it told."""
    before = resource.getrusage(resource.RUSAGE_CHILDREN)
    try:
        ran = subprocess.run(words, input=given, capture_output=True, timeout=PATIENCE)
    except subprocess.TimeoutExpired:
        return "hangs", spent(before), b""
    return ran.returncode, spent(before), ran.stderr


def show_some(seed, count):
    """The longest time, and what went wrong."""
    draw = random.Random(seed)
    bases = messages()
    longest, wrong = 0.0, []
    for _ in range(count):
        octets = damaged(draw, draw.choice(bases))
        status, taken, told = timed([ZMETA, "show"], octets.hex().encode())
        # what else the machine does can take as long: the least of some runs is the message's own
        for _ in range(AGAIN):
            if taken > LIMIT:
                taken = min(taken, timed([ZMETA, "show"], octets.hex().encode())[1])
        longest = max(longest, taken)
        if status not in (0, 3) or (status == 3) != told.startswith(b"zmeta: ") or taken > LIMIT:
            wrong.append(f"show: status {status} in {1000 * taken:.0f} ms of {octets.hex()}")
    return longest, wrong


def show(count, seed):
    jobs = os.cpu_count() or 1
    parts = [(f"{seed} show {job}", count // jobs + (job < count % jobs)) for job in range(jobs)]
    with concurrent.futures.ProcessPoolExecutor(jobs) as pool:
        answers = list(pool.map(show_some, *zip(*parts)))
    longest = max(answer[0] for answer in answers)
    print(f"show: {count} damaged messages, the longest {1000 * longest:.0f} ms", flush=True)
    return [line for answer in answers for line in answer[1]]


# ---- great messages

SIZE = 2_000_000
PIECE = 1_000_000


def element(tag, *parts):
    """An element with these identifier octets, in hexadecimal digits."""
    return saved.element(bytes.fromhex(tag), *parts)


def number(n):
    return n.to_bytes(n.bit_length() // 8 + 1, "big")


def filled(part):
    """As many parts as there is room for, each of its number."""
    parts, size = [], 0
    while size < SIZE:
        parts.append(part(len(parts)))
        size += len(parts[-1])
    return b"".join(parts)


def search_request(names, query):
    begins = bytes.fromhex("8204000000018d01008e01018f01009001ff910131")
    return element("b6", begins, element("b2", names), element("b5", query))


def query(operand):
    return element("a1", bytes.fromhex("06072a8648ce130301"), operand)


def term(attributes, text):
    return element("a0", element("bf66", element("bf2c", attributes), text))


def attribute(n):
    return element("30", element("9f78", number(n)), element("9f79", number(4)))


def operands():
    """A tree of as many operands as there is room for, of one height everywhere."""
    one = term(attribute(1), DUNE)
    while 2 * len(one) < SIZE:
        one = element("a1", one, one, element("bf2e", element("80")))
    return one


def present_response(records):
    return element("b9", bytes.fromhex("8204000000029801019901029b0100"), records)


def record(content, arcs=bytes.fromhex("2a8648ce13050a")):
    return element("30", element("a1", element("a1", element("28", element("06", arcs), content))))


def diagnostic(n):
    return element("30", bytes.fromhex("06072a8648ce130401"), element("02", number(n)), element("1a"))


DATABASE = element("9f69", b"d")
DUNE = element("9f2d", b"dune")


def search_by(attributes, term_of=DUNE):
    """A search by one operand."""
    return search_request(DATABASE, query(term(attributes, term_of)))


def records_of(*records):
    return present_response(element("bc", *records))


GREAT = {
    "attributes of an operand": lambda: search_by(filled(attribute)),
    "equal attributes of an operand": lambda: search_by(filled(lambda n: attribute(1))),
    "databases": lambda: search_request(filled(lambda n: element("9f69", number(n))), query(term(b"", DUNE))),
    "operands": lambda: search_request(DATABASE, query(operands())),
    "segments of a term": lambda: search_by(b"", element("bf2d", filled(lambda n: element("04", b"d")))),
    "records": lambda: records_of(filled(lambda n: record(element("81", number(n))))),
    "equal records": lambda: records_of(filled(lambda n: record(element("81", b"r")))),
    "octets of a record": lambda: records_of(record(element("81", bytes(SIZE)))),
    "elements of a record": lambda: records_of(record(element("a0", element("30", filled(lambda n: element("05")))))),
    "diagnostics": lambda: present_response(element("bf814d", filled(diagnostic))),
    "arcs of a syntax": lambda: records_of(record(element("81", b"r"), bytes([42]) + bytes([1]) * SIZE)),
}


def great():
    """Each is to be shown within the time."""
    wrong = []
    for kind, made in GREAT.items():
        octets = made()
        status, taken, told = timed([ZMETA, "show"], octets.hex().encode())
        print(f"great: {len(octets)} octets, {kind}: {1000 * taken:.0f} ms", flush=True)
        if status != 0 or taken * PIECE > len(octets):
            wrong.append(f"great: status {status} in {1000 * taken:.0f} ms, {kind}, {told[:80]!r}")
    return wrong


# ---- a server


def listener():
    it = socket.create_server(("127.0.0.1", 0), backlog=1024)
    return it, it.getsockname()[1]


def serve(port, count):
    return subprocess.Popen([ZMETA, "serve", f"127.0.0.1:{port}", NAME, WORLD, str(count)],
                            stdout=subprocess.DEVNULL, stderr=subprocess.PIPE)


def without_delay(link):
    link.setsockopt(socket.IPPROTO_TCP, socket.TCP_NODELAY, 1)


def connected(port):
    """A connection, once one is taken there. What is sent over it is not held back."""
    return peers.connected(port, without_delay)


def host_file(room, ports):
    """A file of so many hosts, each asked one question."""
    path = os.path.join(room, "hosts")
    with open(path, "w", encoding="ascii") as file:
        file.write("window 1\n")
        for number, port in enumerate(ports):
            file.write(f"host host{number} 127.0.0.1:{port}\n" + QUESTION % f"host{number}")
    return path


def recorded(room):
    """Requests and replies of a session of `zmeta ask` with `zmeta serve`, one for the other."""
    server_port = peers.free_port()
    server = serve(server_port, 1)
    there = connected(server_port)
    door, port = listener()
    client = subprocess.Popen([ZMETA, "ask", host_file(room, [port])], stdout=subprocess.DEVNULL)
    here, _ = door.accept()
    here.settimeout(PATIENCE)
    exchanges = []
    while request := here.recv(65536):
        there.sendall(request)
        reply = there.recv(65536)
        here.sendall(reply)
        exchanges.append((request, reply))
    for it in (here, there, door):
        it.close()
    if client.wait() or server.wait():
        raise SystemExit("hostile: the session to be recorded failed")
    return exchanges


# ---- ask


def in_pieces(draw, octets):
    while octets:
        n = draw.choice([1, 2, 3, 7, 40, 4096])
        yield octets[:n]
        octets = octets[n:]


def answer_one(draw, taken, exchanges):
    """Answers one connection, and damages one reply."""
    worst = draw.randrange(len(exchanges))
    without_delay(taken)
    taken.settimeout(PATIENCE)
    try:
        for number, (_, reply) in enumerate(exchanges[:worst + 1]):
            if not taken.recv(65536):
                return
            for piece in in_pieces(draw, damaged(draw, reply) if number == worst else reply):
                taken.sendall(piece)
    except OSError:
        pass
    finally:
        taken.close()


def answer_all(draw, door, exchanges, count):
    taken = [door.accept()[0] for _ in range(count)]
    for it in taken:
        answer_one(draw, it, exchanges)


def ask_some(seed, runs, exchanges):
    draw = random.Random(seed)
    longest, wrong = 0.0, []
    door, port = listener()
    with tempfile.TemporaryDirectory() as room:
        hosts = host_file(room, [port] * HOSTS)
        for run in range(runs):
            part = random.Random(draw.getrandbits(64))
            answering = threading.Thread(target=answer_all, args=(part, door, exchanges, HOSTS))
            answering.start()
            status, taken, told = timed([ZMETA, "ask", "--at-once", hosts])
            answering.join()
            longest = max(longest, taken)
            odd = [line for line in told.splitlines() if not re.fullmatch(rb'zmeta: target "host\d+": \w+', line)]
            if status not in (0, 1) or odd or taken > LIMIT * HOSTS:
                wrong.append(f"ask: status {status} in {1000 * taken:.0f} ms, {odd[:1]}, run {run} of {seed}")
    return longest, wrong


def ask(count, seed):
    with tempfile.TemporaryDirectory() as room:
        exchanges = recorded(room)
    jobs = os.cpu_count() or 1
    runs = -(-count // HOSTS)
    parts = [(f"{seed} ask {job}", runs // jobs + (job < runs % jobs), exchanges) for job in range(jobs)]
    with concurrent.futures.ProcessPoolExecutor(jobs) as pool:
        answers = list(pool.map(ask_some, *zip(*parts)))
    longest = max(answer[0] for answer in answers)
    count = f"{runs * HOSTS} hosts with a damaged reply each, {HOSTS} a run"
    print(f"ask: {count}, the longest {1000 * longest:.0f} ms", flush=True)
    return [line for answer in answers for line in answer[1]]


# ---- serve


def break_off(draw, it, exchanges):
    request = exchanges[0][0]
    it.sendall(request[:draw.randrange(len(request))])


def send_garbage(draw, it, exchanges):
    it.sendall(draw.randbytes(draw.randint(1, 300)))
    it.shutdown(socket.SHUT_WR)
    while it.recv(65536):
        pass


def trickle(draw, it, exchanges):
    for octet in exchanges[0][0][:draw.randint(1, 10)]:
        it.sendall(bytes([octet]))
        time.sleep(0.002)


def is_answered(it, exchanges):
    for request, reply in exchanges:
        it.sendall(request)
        got = b""
        while len(got) < len(reply):
            piece = it.recv(65536)
            if not piece:
                return False
            got += piece
        if got != reply:
            return False
    return True


def meet(draw, port, exchanges, number):
    """Meets the server once: whether it did as it should."""
    it = connected(port)
    try:
        if number % 3 == 0:
            return is_answered(it, exchanges)
        draw.choice([break_off, send_garbage, trickle])(draw, it, exchanges)
    except ConnectionError:
        pass  # the server may close a connection that sent garbage
    finally:
        it.close()
    return number % 3 != 0


def serving(count, seed):
    draw = random.Random(f"{seed} serve")
    with tempfile.TemporaryDirectory() as room:
        exchanges = recorded(room)
    port = peers.free_port()
    server = serve(port, count)
    start = time.monotonic()
    wrong = [f"serve: connection {number} is not answered" for number in range(count)
             if not meet(draw, port, exchanges, number)]
    status = server.wait(PATIENCE)
    taken = time.monotonic() - start
    print(f"serve: {count} connections in {taken:.0f} s", flush=True)
    return wrong + ([] if status == 0 else [f"serve: status {status}: {server.stderr.read()[:200]}"])


def main():
    asks = argparse.ArgumentParser(description="Sends zmeta what strangers may send.")
    asks.add_argument("--show", type=int, default=1000000, metavar="N", help="damaged messages on standard input")
    asks.add_argument("--ask", type=int, default=1000000, metavar="N", help="damaged replies of hosts")
    asks.add_argument("--great", type=int, default=1, metavar="N",
                      help="whether messages of nearly 2 MB are shown: 0 or 1")
    asks.add_argument("--serve", type=int, default=10000, metavar="N", help="connections to a server")
    asks.add_argument("--seed", default="1")
    given = asks.parse_args()
    if not os.access(ZMETA, os.X_OK):
        print(f"hostile: nothing was tried, for zmeta is not at {ZMETA}: 'make show' builds it")
        return 0
    wrong = great() if given.great else []
    for part, count in ((serving, given.serve), (ask, given.ask), (show, given.show)):
        if count:
            wrong += part(count, given.seed)
    for line in wrong[:20]:
        print(line)
    print(f"hostile: {len(wrong)} went wrong")
    return 1 if wrong else 0


if __name__ == "__main__":
    sys.exit(main())
