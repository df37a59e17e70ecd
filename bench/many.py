#!/usr/bin/env python3
"""Measures `zmeta ask --at-once` of many hosts with slow replies, over sockets of one machine: the seconds that it
takes, and those of the processor.

    bench/many.py [PROGRAM]      (once zmeta is built; PROGRAM, or ZMETA, is the path of another build)

Each host answers a fifth of a second after each request: Init, the search, and a Present for each of its records."""

import asyncio
import os
import resource
import subprocess
import sys
import tempfile
import time
from functools import partial

TOP = os.path.dirname(os.path.dirname(os.path.abspath(__file__)))
sys.path.insert(0, f"{TOP}/tests/program")

from peers import Host, one_by_one

# how many hosts, and how many records of each: with Init, the search and Close, each gives three replies more
ROWS = ((100, 2), (400, 2), (1600, 2), (200, 100))
DELAY = 0.2
BUILT = f"{TOP}/crates/zmeta/out/zmeta"


def asked(zmeta, world):
    """How many lines `ask` prints, how long it takes, and how much of the processor."""
    begun, before = time.monotonic(), resource.getrusage(resource.RUSAGE_CHILDREN)
    ran = subprocess.run([zmeta, "ask", "--at-once", world], stdin=subprocess.DEVNULL, capture_output=True)
    taken, after = time.monotonic() - begun, resource.getrusage(resource.RUSAGE_CHILDREN)
    used = after.ru_utime + after.ru_stime - before.ru_utime - before.ru_stime
    if ran.returncode or ran.stderr:
        sys.exit(f"bench/many.py: status {ran.returncode}: {ran.stderr.decode()[:300]}")
    return len(ran.stdout.splitlines()), taken, used


async def measured(zmeta, room, hosts, records):
    # all replies of a host with many records follow at once, so that records and not pauses are measured
    give = partial(one_by_one, pause=DELAY if records < 10 else 0)
    host = Host("x", [f"record {it}".ljust(600, ".") for it in range(records)], None, "answered", give)
    await host.open()
    lines = [f"host h{it} {host.address}\n" for it in range(hosts)]
    lines += [f'ask h{it} d - {records} "\\"x\\""\n' for it in range(hosts)]
    world = os.path.join(room, "many.world")
    with open(world, "w", encoding="utf-8") as file:
        file.write("step 1\n" + "".join(lines))
    found = await asyncio.get_running_loop().run_in_executor(None, asked, zmeta, world)
    host.close()
    return found


async def main():
    zmeta = os.path.abspath(sys.argv[1] if len(sys.argv) > 1 else os.environ.get("ZMETA") or BUILT)
    most = resource.getrlimit(resource.RLIMIT_NOFILE)[1]
    resource.setrlimit(resource.RLIMIT_NOFILE, (most, most))
    print("| Hosts | records of each | lines | seconds | of the processor |\n|---|---|---|---|---|")
    with tempfile.TemporaryDirectory() as room:
        for hosts, records in ROWS:
            lines, taken, used = await measured(zmeta, room, hosts, records)
            print(f"| {hosts:,} | {records} | {lines:,} | {taken:.2f} | {used:.3f} |")


if __name__ == "__main__":
    asyncio.run(main())
