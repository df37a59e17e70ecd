"""Stops the program while hosts answer, and lets it go on once their time is over: it has to hear what lies in its sockets
before it gives up a host. And connects to `loop` while it makes its connections: it has to take its own alone.

    ZMETA=PROGRAM python3 tests/program/ready.py

The hosts are those of `peers.py`."""

import asyncio
import contextlib
import os
import resource
import signal
import socket
import subprocess
import sys
import tempfile
import time
from functools import partial

from peers import AT_ONCE, END, IN_ORDER, Host, answer_due, one_by_one, world_of
from wide import RECORDS, World, entries, records

# how many hosts are asked, in which way, how many seconds each may be silent, and for how many the program is stopped.
# One poll of it gives 256 sockets
STOPS = ((1, IN_ORDER, 3, 4), (1, AT_ONCE, 3, 4), (20, AT_ONCE, 3, 4), (600, AT_ONCE, 8, 9))
# seconds after which a host answers a request, and how many files are open where there are many hosts, at the most
PAUSE, FILES = 0.1, 4000
# how many catalogues `loop` asks, how many strangers connect, and how often it is tried until they come in time
CATALOGUES, STRANGERS, TRIES = 300, 3, 20
# seconds for which the program goes on between two looks at it
STEP = 0.0005

# ---- hosts that answer while the program is stopped


@contextlib.contextmanager
def many_files():
    """Lets this program, and one that it runs, have many files open meanwhile: two for each host, if that may be."""
    soft, hard = resource.getrlimit(resource.RLIMIT_NOFILE)
    most = FILES if hard == resource.RLIM_INFINITY else min(FILES, hard)
    resource.setrlimit(resource.RLIMIT_NOFILE, (max(soft, most), hard))
    try:
        yield
    finally:
        resource.setrlimit(resource.RLIMIT_NOFILE, (soft, hard))


def several(count, pause=PAUSE):
    """Hosts, of which each answers a request after a pause."""
    give = partial(one_by_one, pause=pause)
    return [Host(f"host {it}", [f"record {it}"], None, "answered", give) for it in range(count)]


async def all_asked(hosts):
    """Waits until each host has been asked something."""
    while not all(it.talks and it.talks[0].times for it in hosts):
        await asyncio.sleep(0.01)


async def answer_of(words, hosts, stopped):
    """What a program answers, prints and tells, which is stopped for so many seconds once it has asked each host."""
    run = await asyncio.create_subprocess_exec(*words, stdout=subprocess.PIPE, stderr=subprocess.PIPE)
    try:
        await asyncio.wait_for(all_asked(hosts), END)
        # it waits for answers by now
        await asyncio.sleep(PAUSE / 2)
        run.send_signal(signal.SIGSTOP)
        await asyncio.sleep(stopped)
        run.send_signal(signal.SIGCONT)
        out, told = await asyncio.wait_for(run.communicate(), END)
        return run.returncode, out.decode(), told.decode()
    finally:
        with contextlib.suppress(ProcessLookupError):
            run.kill()


async def faults_of_stop(zmeta, room, count, at_once, patience, stopped):
    """What is not as it should be where the program is stopped for longer than a host may be silent."""
    title = f"ready: {count} hosts, stopped for {stopped} s, {'at once' if at_once else 'in order'}"
    hosts, path = several(count), os.path.join(room, f"stopped-{count}-{at_once}.world")
    try:
        for it in hosts:
            await it.open()
        with open(path, "w", encoding="utf-8") as file:
            file.write("step 1\n" + world_of(hosts))
        words = [zmeta, "ask", "--patience", str(patience), *(["--at-once"] if at_once else []), path]
        answer, due = await answer_of(words, hosts, stopped), answer_due(hosts)
    except (TimeoutError, ProcessLookupError) as fault:
        return [f"{title}: {fault!r}"]
    finally:
        for it in hosts:
            it.close()
    lost = answer[2].count("\n")
    return [] if answer == due else [f"{title}: status {answer[0]}, {lost} lost: {answer[2][:200]}"]


async def faults_of_stops(zmeta, room):
    with many_files():
        return [fault for it in STOPS for fault in await faults_of_stop(zmeta, room, *it)]


# ---- strangers that connect to `loop`


def sockets_of(pid):
    """The sockets that a program has open, by their numbers."""
    folder, found = f"/proc/{pid}/fd", set()
    for name in os.listdir(folder):
        with contextlib.suppress(OSError):
            found.add(os.readlink(os.path.join(folder, name)))
    return {it[len("socket:[") : -1] for it in found if it.startswith("socket:[")}


def door_of(pid):
    """The port at which a program listens, or None."""
    own = sockets_of(pid)
    with open(f"/proc/{pid}/net/tcp", encoding="ascii") as file:
        rows = [line.split() for line in file.readlines()[1:]]
    ports = [int(row[1].split(":")[1], 16) for row in rows if row[3] == "0A" and row[9] in own]
    return ports[0] if ports else None


def strangers_at(run):
    """Connections to the port at which the program listens, made while it is stopped; none if it is not met there."""
    while run.poll() is None:
        run.send_signal(signal.SIGSTOP)
        try:
            port = door_of(run.pid)
            if port:
                return [socket.create_connection(("127.0.0.1", port), END) for _ in range(STRANGERS)]
        finally:
            run.send_signal(signal.SIGCONT)
        time.sleep(STEP)
    return []


def many_in_memory():
    """A world of many catalogues in memory, of one record each."""
    world = World()
    for name in (f"t{it}" for it in range(CATALOGUES)):
        world.target(name, RECORDS)
        world.database("d", entries(name, 1))
        world.ask(name, 1, "dune")
        world.brings(name, 1, *records(name, [1]))
    return world


def looped_beside_strangers(words):
    """What `loop` answers, prints and tells, and how many strangers it met."""
    with subprocess.Popen(words, stdout=subprocess.PIPE, stderr=subprocess.PIPE) as run:
        strangers = strangers_at(run)
        try:
            out, told = run.communicate(timeout=END)
            return (run.returncode, out.decode(), told.decode()), len(strangers)
        finally:
            run.kill()
            for it in strangers:
                it.close()


def faults_of_strangers(zmeta, room):
    """What is not as it should be where others connect to `loop`."""
    world, path = many_in_memory(), os.path.join(room, "strangers.world")
    with open(path, "w", encoding="utf-8") as file:
        file.write(world.text())
    for _ in range(TRIES):
        try:
            answer, met = looped_beside_strangers([zmeta, "loop", path])
        except subprocess.TimeoutExpired:
            return [f"ready: `loop` beside strangers does not end in {END} s"]
        if answer != world.answer():
            return [f"ready: `loop` beside {met} strangers: {answer}"[:400]]
        if met:
            return []
    return [f"ready: no stranger comes to `loop` in time, of {TRIES}"]


def faults(zmeta, room):
    """What is not as it should be, and how many runs there were."""
    found = asyncio.run(faults_of_stops(zmeta, room)) + faults_of_strangers(zmeta, room)
    return found, len(STOPS) + 1


def main():
    begun = time.monotonic()
    with tempfile.TemporaryDirectory() as room:
        found, count = faults(os.path.abspath(os.environ["ZMETA"]), room)
    print(f"{count} runs in {time.monotonic() - begun:.1f} s", *found, sep="\n")
    return 1 if found else 0


if __name__ == "__main__":
    sys.exit(main())
