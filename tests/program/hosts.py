#!/usr/bin/env python3
"""Has the program ask hosts over TCP, and compares with what is due: what it prints and tells, how long it takes, and
what each host is sent.

    ZMETA=PROGRAM python3 tests/program/hosts.py

The hosts are those of `peers.py`, each at a port of its own. What a host is to be sent is the same in order and at
once, octet by octet."""

import asyncio
import os
import resource
import subprocess
import sys
import tempfile
import time
from collections import namedtuple
from concurrent.futures import ThreadPoolExecutor
from functools import partial

from peers import (
    ACCEPTED, AT_ONCE, BOTH, CLOSE, DELAY, END, IN_ORDER, REFUSED, Asker, Host, all_together, broken_off, close_unread,
    faults_of_answer, full, in_pieces, one_by_one, reset_at_close, reset_in_advance, shown_at, unheard, without_close,
)

# seconds between pieces of three octets, between octets that trickle, and between long parts
PAUSE, TRICKLE, REST = 0.002, 0.3, 0.5
# how many runs go side by side that do not wait, and that do
BUSY, WAITING = 4, 32
# how often a run with limits of time is tried again, since other work of the machine may take as long; and all of them
# together
AGAIN, ALL_AGAIN = 3, 12
# a run may be late by as many times what one without hosts takes, here and now: more on a busy machine, or of a slow
# build
STARTS = 10
MANY = 100

# Kinds of hosts: what is due, how they give replies, which, and where they are.

KINDS = {
    "whole": (None, "answered"),
    "one-by-one": (None, "answered", one_by_one),
    "slow": (None, "answered", partial(one_by_one, pause=DELAY)),
    "pieces": (None, "answered", partial(in_pieces, size=3, pause=PAUSE)),
    "five-parts": (None, "answered", partial(in_pieces, size=50, pause=REST)),
    # it has all been answered, so that none of these has failed; the last two are not sent all, or it cannot be seen
    "ignoring-close": (None, "answered", without_close),
    "resetting-at-close": (None, "answered", reset_at_close),
    "closing-unread": (5, "answered", close_unread),
    "resetting-in-advance": (1, "answered", reset_in_advance),
    "great": (None, "answered"),
    "page": (None, "answered", one_by_one),
    # as the first, if the time for all is over before the host is talked with
    "late": (1, "Read"),
    "trickling": (1, "Read", partial(in_pieces, size=1, pause=TRICKLE)),
    "silent": (1, "Read", all_together, []),
    "stalling": (2, "Read", all_together, [ACCEPTED]),
    "ending": (2, "Ended", broken_off, [ACCEPTED]),
    "closing": (2, "closed", all_together, [ACCEPTED, CLOSE]),
    "refusing": (1, "refused", all_together, [REFUSED]),
    "nobody": (0, "Connect", None, [], unheard),
    "full": (0, "Connect", None, [], full),
    # addresses that stand for none; no name is looked up of which a server would have to be asked
    "no-port": (0, "Connect", None, [], "nowhere"),
    "great-port": (0, "Connect", None, [], "127.0.0.1:65536"),
    "no-name": (0, "Connect", None, [], "a..b:210"),
    "no-address": (0, "Connect", None, [], ""),
}
# Octets of longer records: many, and as many as make a reply of 4,096 octets, which the program reads at a time.
SIZES = {"great": 40_000, "page": 4_096 - len(shown_at(1, "x" * 4_000)) + 4_000}


def hosts_of(kinds):
    """Hosts of these kinds, with three records each, and with a name of its own, which has a space."""
    hosts = []
    for number, kind in enumerate(kinds.split()):
        name = f"{kind} {number}"
        hosts.append(Host(name, [f"{name}.{it}".ljust(SIZES.get(kind, 0), "x") for it in (1, 2, 3)], *KINDS[kind]))
    return hosts


def four_hosts(give=all_together):
    """Two hosts that answer, behind one that is not reached, and around one that refuses."""
    refuses = Host("refuses", ["r"], 1, "refused", give, [REFUSED])
    one, other = (Host(name, [octets], None, "answered", give) for name, octets in (("one", "r1"), ("other", "r2")))
    return [Host("nobody", ["r"], *KINDS["nobody"]), other, refuses, one]


# what is due


def chosen(hosts, options):
    """The hosts that these options have asked."""
    only = [name for option, name in zip(options, options[1:]) if option == "--only"]
    return [it for it in hosts if not only or it.name in only]


# Options, and what is due of the four hosts: it is written out, and does not come from `answer_due`.

OTHER = 'target "other" set 1 count 1\n', '1 "other" 1 rec 1.2.840.10003.5.10 - "r2"\n'
ONE = 'target "one" set 1 count 1\n', '1 "one" 1 rec 1.2.840.10003.5.10 - "r1"\n'
REFUSES = 'target "refuses" set 0 failed\n'
ROWS = (
    ((), (1, OTHER[0] + REFUSES + ONE[0] + OTHER[1] + ONE[1], 'zmeta: target "nobody": Connect\n')),
    (("--only", "one", "--only", "other"), (0, OTHER[0] + ONE[0] + OTHER[1] + ONE[1], "")),
    (("--only", "one"), (0, ONE[0] + ONE[1], "")),
    (("--only", "one", "--hex"), (0, ONE[0] + ONE[1].replace('"r1"', "7231"), "")),
    (("--only", "refuses"), (1, REFUSES, "")),
)

# runs, and what else has to hold of some


def times_of(run):
    """When each host that answers was sent Init, the search, and Close."""
    return [(*it.talks[0].times[:2], it.talks[0].times[-1]) for it in run.hosts if it.outcome == "answered"]


def is_prompt(run):
    """no host delays another: those that answer are sent all before half of the patience, three seconds, is over"""
    return all(close < run.begun + 1.5 for _, _, close in times_of(run))


def is_ordered(run):
    """all are sent Init before the first search; in order, each Close goes before the next search, at once, behind
    all"""
    inits, searches, closes = zip(*times_of(run))
    befores = [(max(searches), min(closes))] if run.at_once else zip(closes, searches[1:])
    return max(inits) < min(searches) and all(one < other for one, other in befores)


def is_left_at_once(run):
    """no host waits for another to be left: each sees the end of its connection within 50 ms of its Close"""
    return all(it.talks[0].ended < it.talks[0].times[-1] + 0.05 for it in run.hosts if it.outcome == "answered")


# kinds of hosts in the order of their questions, options, ways to ask, the least and the longest time, and what else
# has to hold

Case = namedtuple("Case", "kinds options ways least most holds", defaults=((), BOTH, 0, END, None))

EVERY = (
    "no-port full whole nobody silent one-by-one ending great-port refusing pieces stalling closing slow no-address "
    "no-name"
)
PATIENCE, WITHIN = ("--patience", "1"), ("--within", "1")
THREE, TWO = ("--patience", "3"), ("--patience", "1", "--within", "2")
QUICK = [
    Case("slow slow slow", holds=is_ordered),
    Case("great page great page"),
    Case("closing one-by-one"),
    Case("resetting-at-close closing-unread resetting-in-advance whole", (), BOTH, 0, 2),
    Case(""),
]
LONG = [
    Case("whole silent one-by-one", PATIENCE, BOTH, 1, 2),
    Case("silent whole pieces", PATIENCE, BOTH, 1, 2),
    Case("stalling one-by-one", PATIENCE, BOTH, 1, 2),
    Case("full whole full full one-by-one", PATIENCE, BOTH, 1, 2),
    Case("full whole one-by-one", THREE, [AT_ONCE], 3, 4, is_prompt),
    Case("silent pieces stalling one-by-one whole", THREE, [AT_ONCE], 3, 4, is_prompt),
    Case("full whole", WITHIN, [AT_ONCE], 1, 2),
    Case("full late", WITHIN, [IN_ORDER], 1, 2),
    Case("trickling whole one-by-one", TWO, [AT_ONCE], 2, 3),
    Case("trickling " + "one-by-one " * 20, TWO, [AT_ONCE], 2, 3, is_left_at_once),
    # a Close is waited for no longer than two seconds
    Case("ignoring-close whole", (), BOTH, 2, 2.5),
    # connecting has a limit of its own
    Case("full whole", ("--connect", "1"), BOTH, 1, 2),
    Case("silent whole", ("--connect", "3", "--patience", "1"), BOTH, 1, 2),
    Case("whole one-by-one trickling", TWO, BOTH, 2, 3),
    Case("whole trickling late", TWO, [IN_ORDER], 2, 3),
    # a host that is never silent for a second is not given up
    Case("five-parts whole", PATIENCE, BOTH, 4 * REST, 4 * REST + 1),
    # in order, the silence of each of two hosts begins when it is talked with
    Case(EVERY, PATIENCE, [AT_ONCE], 1, 2.5),
    Case(EVERY, PATIENCE, [IN_ORDER], 3, 6),
]

# many connections: how many, of how many records each, the pause before each answer, and the most time of the
# processor; on the machine of bench/RESULTS.md a quarter of it is taken

Load = namedtuple("Load", "hosts records pause most")

LOADS = [Load(400, 2, 0.2, 0.6), Load(200, 100, 0, 0.8)]


class Trials(Asker):
    """Runs of the program, and a gate for those that are alone of their kind."""

    def __init__(self, zmeta, room, pool):
        super().__init__(zmeta, room, pool)
        self.alone, self.again = asyncio.Semaphore(1), 0

    async def faults_of_row(self, kind, row, at_once):
        """What is not as it should be where four hosts of a kind are asked, by what a row says is due."""
        hosts, (options, due) = four_hosts(*KINDS[kind][2:]), row
        return faults_of_answer(await self.run(hosts, options, at_once), chosen(hosts, options), due)

    async def faults_of_case(self, case, at_once):
        """What is not as it should be of a case. If it has limits of time, it is tried again, with no other beside
        it."""
        found, left = await self.looked_at(case, at_once), AGAIN if case.least or case.holds else 0
        while found and left and self.again < ALL_AGAIN:
            left, self.again = left - 1, self.again + 1
            async with self.alone:
                found = await self.looked_at(case, at_once)
        return found

    async def looked_at(self, case, at_once):
        """What is not as it should be of a run."""
        run = await self.run(hosts_of(case.kinds), case.options, at_once)
        found = faults_of_answer(run, run.hosts)
        late = run.taken - case.most
        if run.taken < case.least or late > 0 and late > STARTS * (await self.run([], (), IN_ORDER)).taken:
            found.append(f"{run.taken:.2f} s, and {case.least} to {case.most} s are due")
        if case.holds and not found and not case.holds(run):
            found.append(f"{case.holds.__doc__}: begun at {run.begun}, {times_of(run)}")
        return found

    async def faults_of_many(self, files, at_once):
        """What is not as it should be of many hosts, and so many open files. If there are fewer, hosts wait for a
        descriptor, and all are asked."""
        hosts = hosts_of("whole " * MANY)
        return faults_of_answer(await self.run(hosts, (), at_once, files), hosts)

    async def faults_of_load(self, load, at_once):
        """What is not as it should be of many connections to one host. It is tried again, as a case is. No other run is
        beside it."""
        found, left = await self.loaded(load, at_once), AGAIN
        while found and left and self.again < ALL_AGAIN:
            left, self.again = left - 1, self.again + 1
            found = await self.loaded(load, at_once)
        return found

    async def loaded(self, load, at_once):
        """What is not as it should be of many connections to one host, which answers each request after a pause, and of
        the time of the processor that they take."""
        give = partial(one_by_one, pause=load.pause)
        host = Host("x", [f"record {it}".ljust(600, ".") for it in range(load.records)], None, "answered", give)
        await host.open()
        try:
            names = [f"h{it}" for it in range(load.hosts)]
            lines = [f"host {it} {host.address}\n" for it in names]
            lines += [f'ask {it} d - {load.records} "\\"x\\""\n' for it in names]
            words = [self.file_of("step 1\n" + "".join(lines)), *(["--at-once"] if at_once else [])]
            loop, before = asyncio.get_running_loop(), time_of_children()
            answer, _, _ = await loop.run_in_executor(self.pool, self.program, words, None, subprocess.PIPE)
            used = time_of_children() - before
        finally:
            host.close()
        found = [] if used <= load.most else [f"{used:.2f} s of the processor, and {load.most} s are the most"]
        listed = len(answer[1].splitlines())
        if (answer[0], listed, answer[2]) != (0, load.hosts * (load.records + 1), ""):
            found.append(f"{answer[0]}, {listed} lines: {answer[2][:200]}")
        return found


def time_of_children():
    """The seconds of the processor that programs took that have ended."""
    used = resource.getrusage(resource.RUSAGE_CHILDREN)
    return used.ru_utime + used.ru_stime


async def titled(gate, title, at_once, faults_of):
    """The faults of a run that waits at a gate, behind its title."""
    title = f"hosts: {title}, {'at once' if at_once else 'in order'}"
    async with gate:
        try:
            return [f"{title}: {it}" for it in await faults_of]
        except subprocess.TimeoutExpired:
            return [f"{title}: does not end in {END} s"]


async def all_faults(zmeta, room, pool):
    """What is not as it should be, how many runs there were, and how many again. Runs that wait are first, since others
    would take their processor."""
    trials, waiting, busy = Trials(zmeta, room, pool), asyncio.Semaphore(WAITING), asyncio.Semaphore(BUSY)

    def of_cases(gate, cases):
        ways = [(it, way) for it in cases for way in it.ways]
        return [titled(gate, f"{it.kinds} {it.options}", way, trials.faults_of_case(it, way)) for it, way in ways]

    long, quick, loads = of_cases(waiting, LONG), of_cases(busy, QUICK), []
    for way in BOTH:
        for files in (256, 40):
            quick.append(titled(trials.alone, f"{files} files", way, trials.faults_of_many(files, way)))
        for kind in ("whole", "one-by-one", "slow", "pieces"):
            quick += [titled(busy, f"four {kind} {it[0]}", way, trials.faults_of_row(kind, it, way)) for it in ROWS]
    for it in LOADS:
        title = f"{it.hosts} hosts of {it.records} records"
        loads.append(titled(trials.alone, title, AT_ONCE, trials.faults_of_load(it, AT_ONCE)))
    groups = long, quick, loads
    found = [await asyncio.gather(*runs) for runs in groups]
    return [fault for group in found for some in group for fault in some], sum(map(len, groups)), trials.again


def faults(zmeta, room):
    """What is not as it should be, how many runs there were, and how many of them were tried again."""
    with ThreadPoolExecutor(BUSY + WAITING + 1) as pool:
        return asyncio.run(all_faults(zmeta, room, pool))


def main():
    begun = time.monotonic()
    with tempfile.TemporaryDirectory() as room:
        found, count, again = faults(os.path.abspath(os.environ["ZMETA"]), room)
    print(f"{count} runs, and {again} again, in {time.monotonic() - begun:.1f} s", *found, sep="\n")
    return 1 if found else 0


if __name__ == "__main__":
    sys.exit(main())
