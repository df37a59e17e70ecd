#!/usr/bin/env python3
"""Measures 100 records over each of 200 connections to one yaz-ztest, in rounds: `zmeta ask` at once and in turn, and
libyaz's ZOOM (pool.c) before and behind them. Prints milliseconds of the processor, of the rounds in which libyaz's
two runs took at most so many: they tell how quiet the machine was.

    bench/rounds.py [ROUNDS [PROGRAM]]      (30 rounds, once zmeta is built; PROGRAM, or ZMETA, is another build)

It needs yaz-ztest, cc and libyaz-dev."""

import contextlib
import os
import socket
import subprocess
import sys
import tempfile
import time

TOP = os.path.dirname(os.path.dirname(os.path.abspath(__file__)))
BUILT = f"{TOP}/crates/zmeta/out/zmeta"
MARC = "1.2.840.10003.5.10"
CONNECTIONS, RECORDS, STEP = 200, 100, 10
# what libyaz's two runs of a round took at most, as parts of the rounds, the quietest first
PARTS = (0.25, 0.5, 1)


def used(words):
    """Milliseconds of the processor that a program takes, its output left unread."""
    child = subprocess.Popen(words, stdin=subprocess.DEVNULL, stdout=subprocess.DEVNULL)
    _, status, usage = os.wait4(child.pid, 0)
    child.returncode = os.waitstatus_to_exitcode(status)
    if child.returncode:
        sys.exit(f"bench/rounds.py: status {child.returncode}: {words[0]}")
    return 1000 * (usage.ru_utime + usage.ru_stime)


def free_port():
    with socket.create_server(("127.0.0.1", 0)) as it:
        return it.getsockname()[1]


@contextlib.contextmanager
def server(port):
    """A yaz-ztest whose connections have a thread each."""
    with subprocess.Popen(["yaz-ztest", "-T", f"@:{port}"], stderr=subprocess.DEVNULL) as it:
        try:
            for _ in range(100):
                with contextlib.suppress(OSError), socket.create_connection(("127.0.0.1", port)):
                    break
                time.sleep(0.1)
            yield
        finally:
            it.kill()


def rows_of(rounds):
    """Of the quietest rounds: how many, what libyaz took at most, and least, median and most of both manners."""
    rounds = sorted(rounds)
    for part in PARTS:
        some = rounds[: max(1, int(part * len(rounds)))]
        cells = []
        for manner in (1, 2):
            taken = sorted(it[manner] for it in some)
            cells.append(f"{taken[0]:.0f}, {taken[len(taken) // 2]:.0f}, {taken[-1]:.0f}")
        yield f"| {some[-1][0]:.0f} | {len(some)} | {cells[0]} | {cells[1]} |"


def main():
    count = int(sys.argv[1]) if len(sys.argv) > 1 else 30
    zmeta = os.path.abspath(sys.argv[2] if len(sys.argv) > 2 else os.environ.get("ZMETA") or BUILT)
    port = free_port()
    with tempfile.TemporaryDirectory() as room, server(port):
        pool = f"{room}/pool"
        subprocess.run(["cc", "-O2", "-o", pool, f"{TOP}/bench/pool.c", "-lyaz"], check=True)
        world = f"{room}/rounds.world"
        with open(world, "w", encoding="utf-8") as file:
            file.write(f"step {STEP}\nwindow 4\n")
            file.writelines(f"host peer{it} 127.0.0.1:{port}\n" for it in range(CONNECTIONS))
            file.writelines(f"ask peer{it} Default {MARC} {RECORDS} {RECORDS}\n" for it in range(CONNECTIONS))
        peer = [pool, f"127.0.0.1:{port}", MARC, *map(str, (RECORDS, CONNECTIONS, RECORDS, STEP))]
        rounds, before = [], used(peer)
        for _ in range(count):
            ours = used([zmeta, "ask", "--at-once", world]), used([zmeta, "ask", world])
            behind = used(peer)
            rounds.append((max(before, behind), *ours))
            before = behind
    print("| libyaz's ZOOM, both at most | rounds | at once: least, median, most | in turn: least, median, most |")
    print("|---|---|---|---|")
    print("\n".join(rows_of(rounds)))


if __name__ == "__main__":
    main()
