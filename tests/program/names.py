#!/usr/bin/env python3
"""Has the program ask hosts by name, and compares with what is due: what it prints and tells, how long it takes, and
which names it looks up. Names have other addresses, and another name server, in a file system that only the program
sees. Where that may not be made, nothing is run.

    ZMETA=PROGRAM python3 tests/program/names.py"""

import asyncio
import os
import socket
import subprocess
import sys
import tempfile
import time

from hosts import KINDS, STARTS
from peers import END, Host, answer_due, fill, world_of
from ready import many_files, several

# a name with an address that is silent, and one where a host listens; then names of which the name server says nothing
TWICE = "twice.example"
SILENT = ("one.example", "other.example", "third.example")
# one look-up of these names takes so long, in seconds: the resolver asks once
LOOK_UP = 1
SERVER = ("127.0.0.1", 53)
# many hosts beside a name whose look-up takes longer than they may be silent, and after how long they answer: so all
# have asked before it, and answered when it ends
MANY, LONG_LOOK_UP, PATIENCE, LATE = 600, 4, 3, 0.6


def may_run():
    """Whether there may be a file system of the program's own, two addresses of this machine, and a name server."""
    try:
        with socket.socket(socket.AF_INET6) as one, socket.socket(type=socket.SOCK_DGRAM) as other:
            one.bind(("::1", 0))
            other.bind(SERVER)
    except OSError:
        return False
    made = subprocess.run(["unshare", "-m", "mount", "--bind", "/etc/hosts", "/etc/hosts"], capture_output=True)
    return made.returncode == 0


def resolver(look_up):
    """A file of the resolver, by which the look-up of a name takes so many seconds."""
    return f"nameserver {SERVER[0]}\noptions timeout:{look_up} attempts:1\n"


def is_silent(port, held):
    """At the port, and at the address of IPv6, as many connections wait as may. Returns whether that is so."""
    held.append(socket.socket(socket.AF_INET6))
    held[-1].bind(("::1", port))
    try:
        fill(held[-1], held)
    except RuntimeError:
        return False
    return True


class NameServer(asyncio.DatagramProtocol):
    """A name server that answers nothing: the names that it was asked for, each as often as the program had it looked
    up."""

    def __init__(self):
        self.names = []

    def datagram_received(self, data, address):
        at, labels = 12, []
        while data[at]:
            labels.append(data[at + 1 : at + 1 + data[at]].decode())
            at += 1 + data[at]
        is_v4 = data[at + 1 : at + 3] == b"\0\1"
        self.names += [".".join(labels)] if is_v4 else []


def at_address(host, address):
    async def place(_):
        return address

    host.place = place
    return host


class Trial:
    """The program, and a folder for its files."""

    def __init__(self, zmeta, room):
        self.zmeta, self.room = zmeta, room

    def write(self, name, text):
        path = os.path.join(self.room, name)
        with open(path, "w", encoding="utf-8") as file:
            file.write(text)
        return path

    def program(self, hosts, options, look_up=LOOK_UP):
        """What `ask` answers, prints and tells, and how long it takes."""
        world = self.write("named.world", "step 1\n" + world_of(hosts))
        places = self.write("places", f"::1 {TWICE}\n127.0.0.1 {TWICE}\n"), self.write("resolver", resolver(look_up))
        mounts = f"mount --bind {places[0]} /etc/hosts && mount --bind {places[1]} /etc/resolv.conf"
        words = ["unshare", "-m", "sh", "-c", f'{mounts} && exec "$@"', "sh", self.zmeta, "ask", world, *options]
        begun = time.monotonic()
        ran = subprocess.run(words, stdin=subprocess.DEVNULL, capture_output=True, timeout=END)
        return (ran.returncode, ran.stdout.decode(), ran.stderr.decode()), time.monotonic() - begun

    async def faults(self, title, hosts, options, least, most, names=(), look_up=LOOK_UP):
        """What is not as it should be of a run. It looks these names up, each once."""
        loop = asyncio.get_running_loop()
        stream, server = await loop.create_datagram_endpoint(NameServer, local_addr=SERVER)
        try:
            start = (await loop.run_in_executor(None, self.program, [], ()))[1]
            answer, taken = await loop.run_in_executor(None, self.program, hosts, options, look_up)
        finally:
            stream.close()
            await asyncio.sleep(0.01)
        found, due = [], answer_due(hosts)
        if answer != due:
            found.append(f"{answer}\n    {due} is due"[:2000])
        if not least <= taken <= most + STARTS * start:
            found.append(f"{taken:.2f} s, and {least} to {most} s are due")
        if server.names != list(names):
            found.append(f"the names {server.names} are looked up, and {list(names)} are due")
        return [f"names: {title}: {it}" for it in found]


def unfound(name, outcome="Connect"):
    return at_address(Host(name, ["r"], 0, outcome, None, []), f"{name}:210")


async def all_faults(zmeta, room, held):
    """What is not as it should be, and how many runs there were."""
    trial, live = Trial(zmeta, room), Host("live", ["a", "b"], *KINDS["whole"])
    await live.open()
    port = int(live.address.rsplit(":", 1)[1])
    if not is_silent(port, held):
        return [], 0
    place, name = live.address, f"{TWICE}:{port}"
    found = []
    for way in ((), ("--at-once",)):
        live.address = name
        # the next address is tried after a quarter of a second
        found += await trial.faults("the first address is silent", [live], way, 0.25, 0.5)
        found += await trial.faults("IPv4 alone", [live], ("-4", *way), 0, 0.25)
        other = Host("other", ["r"], 0, "Connect", None, [])
        other.address = name
        found += await trial.faults("IPv6 alone", [other], ("-6", "--connect", "1", *way), 1, 1.25)
        # a host with an address in numbers is asked before names are looked up, each once, and none once the time for
        # all is over
        live.address = place
        lost = [unfound(it) for it in (SILENT[0], SILENT[1], SILENT[0], SILENT[2])]
        for number, it in enumerate(lost):
            await it.open()
            it.name += f" {number}"
        hosts = [lost[0], live, *lost[1:]]
        found += await trial.faults("a silent name server", hosts, ("--at-once",), 2 * LOOK_UP, 4 * LOOK_UP, SILENT)
        within = ("--within", "1", "--at-once")
        found += await trial.faults("no time for all names", hosts, within, LOOK_UP, 2 * LOOK_UP, SILENT[:1])
    return found + await many_faults(trial), 11


async def many_faults(trial):
    """What is not as it should be of many hosts beside a name that is looked up for too long: none of them is lost."""
    many, lost = several(MANY, LATE), unfound(SILENT[0])
    options, least = ("--at-once", "--patience", str(PATIENCE)), LONG_LOOK_UP
    title, hosts = f"{MANY} hosts beside one dead name", [lost, *many]
    try:
        with many_files():
            for it in hosts:
                await it.open()
            return await trial.faults(title, hosts, options, least, 3 * least, SILENT[:1], LONG_LOOK_UP)
    finally:
        for it in many:
            it.close()


def faults(zmeta, room):
    """What is not as it should be, and how many runs there were: none if the machine lets none be made."""
    if not may_run():
        return [], 0
    held = []
    try:
        return asyncio.run(all_faults(zmeta, room, held))
    finally:
        for it in held:
            it.close()


def main():
    with tempfile.TemporaryDirectory() as room:
        found, count = faults(os.path.abspath(os.environ["ZMETA"]), room)
    print(f"{count} runs", *found, sep="\n")
    return 1 if found else 0


if __name__ == "__main__":
    sys.exit(main())
