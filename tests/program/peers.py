"""Peers over TCP, on 127.0.0.1: hosts that answer `ask`, connections to `serve`, and the octets of requests and replies
(Z39.50-2003, 4.1). Has the program ask hosts, and compares what it prints, and what it sends to each, with what is due.

A host gives its replies whatever it is asked. The term of a search is the name of its host, so that a search is seen
that goes to another. A script that needs hosts of other kinds writes a function that gives the replies of a `Talk`, or
one that finds a place for a `Host`."""

import asyncio
import errno
import os
import socket
import struct
import subprocess
import threading
import time
from collections import namedtuple

from saved import BIB1, MARC21, element, integer, object_identifier, record
from streams import make_narrow

# the program has to end within so many seconds, and a peer to answer, whatever the other does
END = 60
# seconds before a delayed octet
DELAY = 0.2
# the attribute set bib-1
ATTRIBUTES = "1.2.840.10003.3.1"
IN_ORDER, AT_ONCE = False, True
BOTH = (IN_ORDER, AT_ONCE)

# ---- requests: Init, a search, a Present, and Close

INIT = bytes.fromhex("b421 820400000000 830205e0 840301c006 8503100000 8603100000 9f6f057a6d657461")
CLOSE = bytes.fromhex("bf30 059f81530100")


def operation(number):
    """The reference id of an operation."""
    return element(b"\x82", number.to_bytes(4, "big"))


def operand(text):
    """An operand without attributes, whose term is this text."""
    return element(b"\xa0", element(b"\xbf\x66", element(b"\xbf\x2c"), element(b"\x9f\x2d", text.encode())))


def searching(number, name, databases, query, small=0, large=1):
    """A search of databases, into a result set of this name, by the element around a query. The bounds of small and
    large sets say whether it asks for records."""
    named = element(b"\xb2", *(element(b"\x9f\x69", it.encode()) for it in databases))
    bounds = integer(b"\x8d", small), integer(b"\x8e", large), integer(b"\x8f", 0), bytes.fromhex("9001ff")
    return element(b"\xb6", operation(number), *bounds, element(b"\x91", name), named, query)


def search(number, name, databases, text, small=0, large=1):
    """A search of databases for a text."""
    query = element(b"\xb5", element(b"\xa1", object_identifier(ATTRIBUTES), operand(text)))
    return searching(number, name, databases, query, small, large)


def present(number, name, start, many, *ranges):
    """A Present of so many records of a set from a position on, and of more ranges, each a start and how many."""
    more = [element(b"\x30", integer(b"\x81", one), integer(b"\x82", other)) for one, other in ranges]
    front = operation(number), element(b"\x9f\x1f", name), integer(b"\x9e", start), integer(b"\x9d", many)
    return element(b"\xb8", *front, *([element(b"\xbf\x81\x54", *more)] if more else []))


def close(number):
    """A Close with the reference id of an operation."""
    return element(b"\xbf\x30", operation(number), bytes.fromhex("9f81530100"))


def size_of_first(octets):
    """The size of the first message, or 0 if it is not all there."""
    at = 3 if octets[:1] == b"\xbf" else 2
    if at > len(octets):
        return 0
    short = octets[at - 1]
    behind = at + max(0, short - 128)
    size = behind + (short if short < 128 else int.from_bytes(octets[at:behind], "big"))
    return size if max(behind, size) <= len(octets) else 0


# what `ask` sends to a host: a search of database d as operation 1, and Presents as operations that are one more than
# where they begin


def search_for(term, name=b"1"):
    """The search that `ask` sends: of database d by one term."""
    return search(1, name, ["d"], term)


def present_at(position, many=1, ranges=(), name=b"1"):
    """The Present that `ask` sends: of so many records from a position on, and of more ranges."""
    return present(position + 1, name, position, many, *ranges)


# ---- replies


def init_reply(versions="830205e0", options="840301c006", sizes="8503100000 8603100000", result="8c01ff",
               reference="820400000000", more=b""):
    """An Init response, of the hexadecimal digits of its elements. It accepts, with concurrent operations and named
    result sets."""
    return element(b"\xb5", bytes.fromhex(reference + versions + options + sizes + result), more)


ACCEPTED, REFUSED = init_reply(), init_reply(result="8c0100")


def found(number, count, following, records=()):
    """A Search response that succeeds: the count, the next position, and all records that were due, if any were."""
    numbers = integer(b"\x97", count), integer(b"\x98", len(records)), integer(b"\x99", following)
    listed = [bytes.fromhex("9b0100"), element(b"\xbc", *records)] if records else []
    return element(b"\xb7", operation(number), *numbers, bytes.fromhex("9601ff"), *listed)


def shown(number, records, following, status=0):
    """A Present response with records, the next position, and whether all came that were due: status 0."""
    numbers = integer(b"\x98", len(records)), integer(b"\x99", following), integer(b"\x9b", status)
    return element(b"\xb9", operation(number), *numbers, element(b"\xbc", *records))


def non_surrogate(condition, info=""):
    """A diagnostic in place of the records of a response."""
    parts = object_identifier(BIB1), integer(b"\x02", condition), element(b"\x1a", info.encode())
    return element(b"\xbf\x81\x02", *parts)


def counted(count):
    """The reply to the search of `ask`, with a count alone."""
    return found(1, count, 1)


def shown_at(position, octets):
    """The reply to a Present of `ask`, with one record of MARC 21."""
    return shown(position + 1, [record(MARC21, octets.encode())], position + 1)


# ---- how a host gives its replies to a connection, a `Talk`


async def all_together(talk):
    """Gives all replies before it is asked."""
    talk.stream.write(b"".join(talk.host.replies))


async def one_by_one(talk, pause=0):
    """Gives a reply for each request."""
    for count, reply in enumerate(talk.host.replies, 1):
        await talk.requests(count)
        await asyncio.sleep(pause)
        talk.stream.write(reply)


async def in_pieces(talk, size, pause):
    """Gives all replies in pieces of so many octets, with a pause behind each."""
    octets = b"".join(talk.host.replies)
    for at in range(0, len(octets), size):
        talk.stream.write(octets[at : at + size])
        await asyncio.sleep(pause)


async def broken_off(talk):
    """Gives all replies, and ends the connection."""
    await all_together(talk)
    talk.stream.write_eof()


async def without_close(talk):
    """Answers all but the Close, which it ignores."""
    talk.stream.write(b"".join(talk.host.replies[:-1]))


def linger_no_more(link):
    """Has a socket end its connection by a reset."""
    link.setsockopt(socket.SOL_SOCKET, socket.SO_LINGER, struct.pack("ii", 1, 0))


def reset(talk):
    """Ends the connection by a reset."""
    linger_no_more(talk.stream.get_extra_info("socket"))
    talk.stream.abort()


async def reset_at_close(talk):
    """Answers all but the Close, at which it resets the connection."""
    await without_close(talk)
    await talk.requests(len(talk.host.replies))
    reset(talk)


async def close_unread(talk):
    """Answers all but the Close, and closes the connection while that is not read."""
    *most, last, _ = talk.host.replies
    talk.stream.write(b"".join(most))
    await talk.requests(len(most) + 1)
    talk.stream.pause_reading()
    talk.stream.write(last)
    await asyncio.sleep(DELAY)
    talk.stream.abort()


async def reset_in_advance(talk):
    """Answers all before it is asked, and resets the connection. What it is sent then cannot be written."""
    await talk.requests(1)
    talk.stream.write(b"".join(talk.host.replies))
    reset(talk)


async def reading_late(talk):
    """Gives the first reply, and reads nothing for a while, so that a long request waits in the program. Then gives a
    reply for each request."""
    first, *others = talk.host.replies
    talk.stream.pause_reading()
    talk.stream.write(first)
    await asyncio.sleep(DELAY)
    talk.stream.resume_reading()
    for number, reply in enumerate(others, 2):
        await talk.requests(number)
        talk.stream.write(reply)


class Talk(asyncio.Protocol):
    """A connection to a host: the octets that came, and the times at which requests were all there."""

    def __init__(self, host):
        self.host, self.came, self.times, self.is_over = host, b"", [], False
        self.seen, self.news = 0, asyncio.Event()

    def connection_made(self, transport):
        self.stream = transport
        self.host.talks.append(self)
        self.giving = asyncio.ensure_future(self.host.give(self))

    def data_received(self, data):
        self.came += data
        while size := size_of_first(self.came[self.seen :]):
            self.seen += size
            self.times.append(time.monotonic())
        self.news.set()

    def connection_lost(self, exc):
        self.giving.cancel()
        self.is_over, self.ended = True, time.monotonic()

    async def requests(self, count):
        """Waits for so many requests."""
        while len(self.times) < count:
            self.news.clear()
            await self.news.wait()


# ---- where a host is


def address_of(door):
    """The address of a socket, as `host:port`."""
    return "%s:%d" % door.getsockname()


def free_port():
    """A port at which nobody listens."""
    with socket.create_server(("127.0.0.1", 0)) as door:
        return door.getsockname()[1]


def fill(door, held):
    """Lets as many connections wait at a socket as may: the system drops what begins another. They are added to what is
    held."""
    door.listen(0)
    for _ in range(10):
        caller = socket.socket(door.family)
        held.append(caller)
        caller.setblocking(False)
        caller.connect_ex(door.getsockname())
        time.sleep(0.05)
        if caller.connect_ex(door.getsockname()) == errno.EALREADY:
            return
    raise RuntimeError("no queue is full")


def full_port(held):
    """A port whose queue is full."""
    held.append(socket.socket())
    held[-1].bind(("127.0.0.1", 0))
    port = held[-1].getsockname()[1]
    fill(held[-1], held)
    return port


async def listening(host, prepare=lambda door: None):
    """Takes connections, at a socket that is prepared before."""
    door = socket.create_server(("127.0.0.1", 0), backlog=100)
    prepare(door)
    host.held.append(await asyncio.get_running_loop().create_server(lambda: Talk(host), sock=door))
    return address_of(door)


async def narrow(host):
    """Takes few octets which it has not read, and the system keeps few for it."""
    return await listening(host, make_narrow)


async def unheard(host):
    """Nobody listens at the port, which is taken."""
    host.held.append(socket.socket())
    host.held[0].bind(("127.0.0.1", 0))
    return address_of(host.held[0])


async def full(host):
    """As many connections wait as may, and the system drops what else comes."""
    port = await asyncio.get_running_loop().run_in_executor(None, full_port, host.held)
    return f"127.0.0.1:{port}"


class Host:
    """A host, and what is due: how many requests it is sent, where None are all, and what becomes of its question. That
    is `answered`, `refused`, `closed`, or the reason that the program tells. With no request it is not connected to
    either."""

    def __init__(self, name, records, requests, outcome, give=all_together, replies=None, place=listening):
        self.name, self.records, self.requests, self.outcome = name, records, requests, outcome
        self.give, self.place = give, place
        whole = [ACCEPTED, counted(len(records)), *(shown_at(*it) for it in enumerate(records, 1)), CLOSE]
        self.replies = whole if replies is None else replies
        self.want, self.term = len(records), name
        self.talks, self.held, self.address = [], [], None

    async def open(self):
        """Takes its place, which is a function that finds an address, or an address."""
        self.address = self.place if isinstance(self.place, str) else await self.place(self)

    def close(self):
        for it in [talk.stream for talk in self.talks] + self.held:
            it.close()

    def requests_due(self):
        """What each connection is due to bring."""
        every = [INIT, search_for(self.term), *(present_at(it) for it, _ in enumerate(self.records, 1)), CLOSE]
        return [] if self.requests == 0 else [b"".join(every[: self.requests])]


# hosts of threads, beside a program that is waited for


def wait_for_end(link):
    """Reads what comes until the other hangs up."""
    while link.recv(4096):
        pass


def silent(link, *replies):
    """Gives these replies, and then nothing."""
    link.sendall(b"".join(replies))
    wait_for_end(link)


def hangs_up(link, *replies):
    """Gives these replies, and ends the connection."""
    link.sendall(b"".join(replies))
    link.shutdown(socket.SHUT_WR)
    wait_for_end(link)


def resets(link):
    """Breaks the connection once the other has sent something."""
    link.recv(4096)
    linger_no_more(link)


def doing(door, does):
    """Does this with each connection that comes, as long as the socket is open."""
    while True:
        try:
            link, _ = door.accept()
        except OSError:
            return
        with link:
            try:
                does(link)
            except OSError:
                pass


def threaded(does, held):
    """The address of a host that does this with each connection, one after the other, in a thread. Its socket is added
    to what is held."""
    door = socket.create_server(("127.0.0.1", 0))
    held.append(door)
    threading.Thread(target=doing, args=(door, does), daemon=True).start()
    return address_of(door)


# ---- connections to a server


def connected(port, prepare=lambda link: None, most=END):
    """A connection, once the server takes one, within so many seconds. Its socket is prepared before."""
    for _ in range(most * 20):
        link = socket.socket()
        prepare(link)
        link.settimeout(END)
        if link.connect_ex(("127.0.0.1", port)) == 0:
            return link
        link.close()
        time.sleep(0.05)
    raise TimeoutError(f"nobody listens at port {port}")


def received(link, count):
    """So many octets, or all up to the end."""
    octets = b""
    while len(octets) < count and (piece := link.recv(min(65536, count - len(octets)))):
        octets += piece
    return octets


# ---- what is due where `ask` asks hosts

# what it answers, prints and tells of hosts that are asked in order or at once; when it began, and how long it took
Run = namedtuple("Run", "hosts at_once answer begun taken")


def quoted(name):
    """A name as lines of world files, of the list and of failures have it."""
    return '"' + name.replace('"', '\\"') + '"'


def world_of(hosts):
    """A world file, with the hosts in another order than their questions."""
    lines = [f'host {quoted(it.name)} "{it.address}"\n' for it in reversed(hosts)]
    return "".join(lines + [f'ask {quoted(it.name)} d - {it.want} "\\"{it.term}\\""\n' for it in hosts])


def answer_due(hosts):
    """The status, and what is printed and told, if these are asked."""
    answered = [it for it in hosts if it.outcome == "answered"]
    sets = {it: {"answered": f"1 count {len(it.records)}", "refused": "0 failed"}.get(it.outcome) for it in hosts}
    lines = [f'target "{it.name}" set {text}\n' for it, text in sets.items() if text]
    rows = sorted((at, hosts.index(it), octets) for it in answered for at, octets in enumerate(it.records, 1))
    lines += [f'{position} "{hosts[at].name}" 1 rec {MARC21} - "{octets}"\n' for position, at, octets in rows]
    told = [f'zmeta: target "{it.name}": {it.outcome}\n' for it in hosts if it.outcome in ("Connect", "Read", "Ended")]
    return int(len(answered) < len(hosts)), "".join(lines), "".join(told)


def faults_of_answer(run, asked, due=None):
    """How what the program answers, and what hosts are sent, differs from what is due, if these are asked."""
    due = due or answer_due(asked)
    faults = [] if run.answer == due else [f"{run.answer}\n    {due} is due"]
    for it in run.hosts:
        sent = [talk.came.hex() for talk in it.talks]
        wanted = [octets.hex() for octets in it.requests_due() if it in asked]
        if sent != wanted:
            faults.append(f"{it.name} is sent {sent}\n    {wanted} is due")
    return faults


class Asker:
    """The program, a folder for world files, and threads for its runs."""

    def __init__(self, zmeta, room, pool):
        self.zmeta, self.room, self.pool, self.count = zmeta, room, pool, 0

    def file_of(self, world):
        """The path of a new file with this world."""
        self.count += 1
        path = os.path.join(self.room, f"asked-{self.count}.world")
        with open(path, "w", encoding="utf-8") as file:
            file.write(world)
        return path

    def program(self, words, files, errors):
        """What `ask` answers, prints and tells, when it began, and how long it took. It may open so many files, if that
        is a number. Its standard error is `errors`."""
        limit = ["sh", "-c", 'ulimit -n "$0" && exec "$@"', str(files)] if files else []
        words, given = [*limit, self.zmeta, "ask", *words], subprocess.DEVNULL
        begun = time.monotonic()
        ran = subprocess.run(words, stdin=given, stdout=subprocess.PIPE, stderr=errors, cwd=self.room, timeout=END)
        taken = time.monotonic() - begun
        return (ran.returncode, ran.stdout.decode(), (ran.stderr or b"").decode()), begun, taken

    async def run(self, hosts, options, at_once, files=None, errors=subprocess.PIPE, front="step 1\n"):
        """Has hosts asked, and waits until each has seen the end of its connections. `front` stands in front of the
        world file."""
        try:
            for it in hosts:
                await it.open()
            words = [self.file_of(front + world_of(hosts)), *options, *(["--at-once"] if at_once else [])]
            loop = asyncio.get_running_loop()
            answer = await loop.run_in_executor(self.pool, self.program, words, files, errors)
            for _ in range(500):
                await asyncio.sleep(0.01)
                if all(talk.is_over for it in hosts for talk in it.talks):
                    break
            return Run(hosts, at_once, *answer)
        finally:
            for it in hosts:
                it.close()
