"""Asks hosts that are not reached, or that stop, and looks at what the view and the JSON tell of each. The hosts are on
127.0.0.1.

    ZMETA=PROGRAM python3 tests/program/stops.py"""

import json
import os
import subprocess
import sys
import tempfile

from peers import ACCEPTED, counted, free_port, full_port, hangs_up, resets, shown_at, silent, threaded

# a program that asks has to end within so many seconds
MOST = 60
WORDS = ["ask", "--at-once", "--connect", "1", "--patience", "1"]


# a name, what its host does (or its address), the reason, the words, and whether they stand behind what is known
HOSTS = [
    ("portless", "127.0.0.1", "Connect", "not reached (the address has no port)", "the address has no port"),
    ("closed", None, "Connect", "not reached (refused)", "refused"),
    ("full", full_port, "Connect", "not reached (no answer in 1 s)", "no answer in 1 s"),
    ("mute", lambda link: silent(link), "Read", "silent for 1 s", "silent for 1 s"),
    ("late", lambda link: silent(link, ACCEPTED, counted(12)), "Read",
     "12 found, 0 shown; then silent for 1 s", "silent for 1 s"),
    ("one", lambda link: silent(link, ACCEPTED, counted(12), shown_at(1, "r")), "Read",
     "12 found, 1 shown; then silent for 1 s", "silent for 1 s"),
    ("gone", lambda link: hangs_up(link), "Ended", "hung up", "hung up"),
    ("short", lambda link: hangs_up(link, ACCEPTED, counted(3)[:-1]), "Truncated", "hung up", "hung up"),
    ("broken", resets, "Read", "reset", "reset"),
    ("web", lambda link: hangs_up(link, b"HTTP/1.0 400 Bad Request\r\n\r\n" + b" " * 200), None,
     "sent what is no Z39.50", "sent what is no Z39.50"),
    ("odd", lambda link: silent(link, counted(3)), None,
     "sent an answer that fits no request", "sent an answer that fits no request"),
]


def address_of(does, held):
    """The address of a host, which does so with each connection."""
    if isinstance(does, str):
        return does
    if does is None:
        return f"127.0.0.1:{free_port()}"
    if does is full_port:
        return f"127.0.0.1:{full_port(held)}"
    return threaded(does, held)


def asked(zmeta, room, *words):
    words = [zmeta, *WORDS, *words, "stops.world"]
    ran = subprocess.run(words, capture_output=True, cwd=room, timeout=MOST, check=False)
    return ran.returncode, ran.stdout.decode(), ran.stderr.decode()


def faults(zmeta, room):
    """What is not as it should be of hosts that stop."""
    held = []
    try:
        addresses = [(name, address_of(does, held)) for name, does, *_ in HOSTS]
        with open(os.path.join(room, "stops.world"), "w", encoding="utf-8") as file:
            file.writelines(f"host {name} {address}\n" for name, address in addresses)
            file.writelines(f"ask {name} d - 2 dune\n" for name, _ in addresses)
        status, view, told = asked(zmeta, room, "--titles")
        head = view.split("\n\n")[0].rstrip("\n").split("\n")
        due = [f"{name}: {words}" for name, _, _, words, _ in HOSTS]
        if status != 1 or head != due:
            yield f"stops: {status} {head}, and {due} is due\n{told}"
        status, lines, told = asked(zmeta, room, "--json")
        found = [it for it in map(json.loads, lines.splitlines()) if it["type"] == "stopped"]
        details = [(name, detail) for name, *_, detail in HOSTS]
        if status != 1 or [(it["catalogue"], it["detail"]) for it in found] != details:
            yield f"stops: {status} {found}\n{told}"
        reasons = {line.split('"')[1]: line.rpartition(": ")[2] for line in told.splitlines()}
        for it, (name, _, reason, *_) in zip(found, HOSTS):
            if it["reason"] != reasons.get(name) or reason and it["reason"] != reason:
                yield f"stops: {it}, and standard error has {reasons.get(name)}"
    finally:
        for it in held:
            it.close()


def main():
    with tempfile.TemporaryDirectory() as room:
        found = [*faults(os.path.abspath(os.environ["ZMETA"]), room)]
    print(f"{len(HOSTS)} hosts that stop", *found, sep="\n")
    return 1 if found else 0


if __name__ == "__main__":
    sys.exit(main())
