"""Completes command lines by install/zmeta.bash, and compares what is offered with rows and with the options of the
help."""

import os
import re
import subprocess

HERE = os.path.dirname(os.path.abspath(__file__))
INSTALL = os.path.join(os.path.dirname(os.path.dirname(HERE)), "install")
COMMANDS = ("ask", "replay", "catalogues", "run", "loop", "join", "new", "records", "serve", "show", "pqf")
# The file and the words come as arguments; what is offered goes out in lines.
SCRIPT = '. "$1"; COMP_WORDS=("${@:2}"); COMP_CWORD=$(($# - 2)); _zmeta 2> /dev/null; printf "%s\\n" "${COMPREPLY[@]}"'


def offered(room, words):
    """What bash completes in a folder: the last word is typed so far."""
    file = os.path.join(INSTALL, "zmeta.bash")
    words = ["bash", "--norc", "-c", SCRIPT, "bash", file, *words]
    ran = subprocess.run(words, capture_output=True, cwd=room, timeout=60)
    return sorted(ran.stdout.decode().split())


def options_in(text):
    """The long options that a help describes, each at the beginning of its line."""
    return sorted(re.findall(r"^ +(?:-\w, )?(--[a-z0-9-]+)", text, re.M))


def fault_of_row(room, row):
    line, due = row.split(" => ")
    found = offered(room, line.split("|"))
    return None if found == ([] if due == "-" else sorted(due.split())) else f"{row}\n    {found}"


def unnamed(options):
    """Where one of these options is missing: the man page, or the completions of zsh and fish."""
    ways = (("zmeta.1", lambda it: it.replace("-", "\\-")), ("_zmeta", str), ("zmeta.fish", lambda it: f"-l {it[2:]} "))
    for file, way in ways:
        with open(os.path.join(INSTALL, file), encoding="utf-8") as opened:
            text = opened.read()
        yield from (f"{file} has no {it}" for it in options if way(it) not in text)


def faults(run, room, rows):
    """What is not as it should be. `run(room, words)` runs the program."""
    yield from (it for it in (fault_of_row(room, row) for row in rows) if it)
    options = set()
    for command in COMMANDS:
        described = options_in(run(room, ["help", command])[1].decode())
        options.update(described)
        found = [it for it in offered(room, ["zmeta", command, "-"]) if it.startswith("--")]
        if found != described:
            yield f"completions of {command}: {found}, and its help has {described}"
    yield from unnamed(sorted(options))
