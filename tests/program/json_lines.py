#!/usr/bin/env python3
"""Compares what `--json` prints with the list, line by line: for the random worlds of worlds.py, many to a file, and
for saved files with facts of every kind. Each line has to be the text that Python's json writes, and to be read back by
it.

    ZMETA=zmeta python3 tests/program/json_lines.py WORLDS FACTS SEED

jq reads such lines too, one object after the other; the records of a conflict are in its array:

    zmeta ask --json FILE | jq -r 'select(.position) | [.position, .catalogue, (.records // [.] | .[].syntax)] | @tsv'
    zmeta ask --json FILE | jq -r 'select(.octets) | .octets | @base64d'"""

import base64
import json
import os
import random
import re
import subprocess
import sys
import tempfile
from concurrent.futures import ThreadPoolExecutor

import marc_made
import marc_model
import opac_model
import saved
import worlds

# worlds in a file, and facts in another
TOGETHER = 20
MOST_FACTS = 200
QUOTED = rb'"(?:[^"\\]|\\.)*"'
# `target NAME set S REST`, or `P NAME S REST`; then a record in a line of its own, and what a diagnostic has
BLOCK = re.compile(rb"target (%s|#\d+) set (\d+) (count|failed|diag) ?(.*)" % QUOTED)
ROW = re.compile(rb"(\d+) (%s|#\d+) (\d+) (rec|diag|ber|conflict) (.*)" % QUOTED)
RECORD = re.compile(rb"(rec|diag|ber) (.*)")
OCTETS = re.compile(rb"(\S+) (%s|-) ([0-9a-f]*)" % QUOTED)
SURROGATE = re.compile(rb"(%s|-) (.*)" % QUOTED)
DEFAULT = re.compile(rb"([0-9.]+) (-?\d+) (%s)" % QUOTED)


def unquoted(text):
    return re.sub(rb"\\(x([0-9a-f]{2})|.)", lambda it: bytes.fromhex(it[2].decode()) if it[2] else it[1], text[1:-1])


def coded(octets):
    return base64.b64encode(octets).decode()


def received(name, octets):
    """A text, and its octets where it is not UTF-8."""
    text = {name: octets.decode(errors="replace")}
    try:
        octets.decode()
    except UnicodeDecodeError:
        text[name + "Octets"] = coded(octets)
    return text


def base_of(name):
    return {"catalogueNumber": int(name[1:])} if name.startswith(b"#") else received("catalogue", unquoted(name))


def place(kind, name, number):
    return {"type": kind, **base_of(name), **({"set": int(number)} if int(number) else {})}


def database(name):
    return {} if name == b"-" else received("database", unquoted(name))


def diagnostic(text):
    if text.startswith(b"ber "):
        return {"encoding": coded(bytes.fromhex(text[4:].decode()))}
    number, condition, info = DEFAULT.fullmatch(text).groups()
    return {"diagnosticSet": number.decode(), "condition": int(condition), **received("addinfo", unquoted(info))}


# BER in definite lengths, with one identifier octet

def elements(octets):
    """The identifiers and contents of elements, one behind the other."""
    found, at = [], 0
    while at < len(octets):
        size, behind = octets[at + 1], at + 2
        if size > 127:
            size, behind = int.from_bytes(octets[behind : behind + size - 128], "big"), behind + size - 128
        found.append((octets[at], octets[behind : behind + size]))
        at = behind + size
    return found


def dotted(contents):
    arcs, value = [], 0
    for octet in contents:
        value = value << 7 | octet & 127
        if octet < 128:
            arcs.append(value)
            value = 0
    first = min(arcs[0] // 40, 2)
    return ".".join(map(str, (first, arcs[0] - 40 * first, *arcs[1:])))


def encoded(octets):
    """What is said of a NamePlusRecord, of which the list has the encoding alone."""
    said = {}
    ((_, parts),) = elements(octets)
    *name, (_, choice) = elements(parts)
    ((kind, record),) = elements(choice)
    if kind == 0xA1:
        ((_, external),) = elements(record)
        within = elements(external)
        form, contents = within[-1]
        if within[0][0] == 0x06:
            said["syntax"] = dotted(within[0][1])
        said |= received("database", name[0][1]) if name else {}
        if form == 0x81:
            said |= marc_model.fields_told(said.get("syntax", ""), contents)
        opac = opac_model.read(contents) if form == 0xA0 and said.get("syntax") == opac_model.OPAC else None
        said |= opac_model.told(*opac) if opac else {}
    return {"type": "record" if kind == 0xA1 else "element"}, {**said, "encoding": coded(octets)}


def record(kind, rest):
    """What is said of a record by its part of a line: the type, and the rest."""
    if kind == b"rec":
        syntax, name, octets = OCTETS.fullmatch(rest).groups()
        octets = bytes.fromhex(octets.decode())
        told = marc_model.fields_told(syntax.decode(), octets)
        said = {"syntax": syntax.decode(), **database(name), **told, "octets": coded(octets)}
        return {"type": "record"}, said
    if kind == b"diag":
        name, text = SURROGATE.fullmatch(rest).groups()
        return {"type": "diagnostic"}, {**database(name), **diagnostic(text)}
    return encoded(bytes.fromhex(rest.decode()))


def block(name, number, kind, rest):
    if kind == b"count":
        return {**place("count", name, number), "count": int(rest)}
    if kind == b"failed":
        return place("failure", name, number)
    first, text = rest.split(b" ", 1)
    return {**place("diagnostic", name, number), **({"from": int(first)} if int(first) else {}), **diagnostic(text)}


def objects(listed):
    """What a list in hexadecimal says, as the objects that are due."""
    lines = iter(listed.split(b"\n")[:-1])
    for line in lines:
        found = BLOCK.fullmatch(line)
        if found:
            yield block(*found.groups())
            continue
        position, name, number, kind, rest = ROW.fullmatch(line).groups()
        if kind == b"conflict":
            parts = [record(*RECORD.fullmatch(next(lines)[2:]).groups()) for _ in range(int(rest))]
            front, said = {"type": "conflict"}, {"records": [{**one, **other} for one, other in parts]}
        else:
            front, said = record(kind, rest)
        yield {**place(front["type"], name, number), "position": int(position), **said}


def fault_of(zmeta, room, name, contents, words):
    """How the JSON that a command prints of a file differs from its list, if it does."""
    with open(os.path.join(room, name), "wb") as file:
        file.write(contents)
    listed, printed = (
        subprocess.run([zmeta, *words, option], capture_output=True, cwd=room, timeout=60)
        for option in ("--hex", "--json")
    )
    if (listed.returncode, listed.stderr) != (printed.returncode, printed.stderr) or listed.stderr:
        return f"{words}: {listed.returncode} {listed.stderr}, {printed.returncode} {printed.stderr}"
    due, found = [*objects(listed.stdout)], printed.stdout.decode().split("\n")
    if found.pop() or len(due) != len(found):
        return f"{words}: {len(found)} lines of JSON, {len(due)} due"
    for wanted, line in zip(due, found):
        text = json.dumps(wanted, ensure_ascii=False, separators=(",", ":"))
        if line != text or json.loads(line) != wanted:
            return f"{words}:\n    {line}\n    {text} is due"
    return None


# worlds


def files_of_worlds(number):
    """Files of many worlds each: the names of the second world's catalogues have a 1 behind them, and so on."""
    made = [worlds.any_world(seed)[0][0] for seed in range(number)]
    for front in range(0, number, TOGETHER):
        parts = enumerate(made[front : front + TOGETHER])
        yield "".join(re.sub(r"^((?:target|ask) \w)", rf"\g<1>{at}", world, flags=re.M) for at, world in parts)


# saved files

TEXTS = (b"", b"a", b'"\\/', b"\x00\x1f\x7f\x80", b"caf\xe9 ", b"\xe2\x82\"", b"\xed\xa0\x80\xc0\x80\xf4\x90\x80\x80",
         "Дюна \u2028😀".encode())
SYNTAXES = (saved.MARC21, saved.UNIMARC, saved.SUTRS, "2.100.3", "1.2.840.10003.5.105")
RECORDS = (*marc_made.MARC21_RECORDS, *marc_made.UNIMARC_RECORDS)
KINDS = (saved.COUNT, saved.FAILED, saved.DIAG, saved.SEEN, saved.SEEN, saved.SEEN)
SETS = (0, 1, 2, 7, 2**31, 2**32 - 1)
POSITIONS = (*range(1, 12), 2**53 + 1, 2**63 - 1)
# also counts
PLACES = (0, 0, 1, 11, 2**63 - 1)


def octets(dice):
    if dice.randrange(2):
        return dice.choice(TEXTS) + dice.randbytes(dice.randrange(5))
    return dice.randbytes(dice.randrange(200))


def syntax(dice):
    return saved.object_identifier(dice.choice(SYNTAXES))


def integer(number):
    size = (number + (number < 0)).bit_length() // 8 + 1
    return saved.element(b"\x02", number.to_bytes(size, "big", signed=True))


def condition(dice):
    return integer(dice.choice((0, 109, -5, 127, 128, -(2**63), 2**63 - 1)))


def aligned(dice):
    return saved.element(b"\x81", dice.choice(RECORDS) if dice.randrange(2) else octets(dice))


def content(dice):
    """What an EXTERNAL holds: octets, an element, or bits."""
    string = saved.element(b"\xa0", saved.element(b"\x1b", octets(dice)))
    return dice.choice((aligned(dice), string, saved.element(b"\x82", b"\x04\xf0")))


def external(dice):
    """An EXTERNAL, often with a syntax and octets alone, or an OPAC record."""
    if dice.randrange(3) == 0:
        opac = saved.element(b"\xa0", opac_model.made(dice, RECORDS))
        named = saved.object_identifier(opac_model.OPAC) if dice.randrange(8) else syntax(dice)
        return saved.element(b"\x28", named, opac)
    if dice.randrange(2):
        return saved.element(b"\x28", syntax(dice), aligned(dice))
    fronts = (syntax(dice), integer(3), saved.element(b"\x07", octets(dice)))
    return saved.element(b"\x28", *(it for it in fronts if dice.randrange(2)), content(dice))


def diag_rec(dice):
    if dice.randrange(4) == 0:
        return external(dice)
    info = saved.element(dice.choice((b"\x1a", b"\x1b")), octets(dice))
    return saved.element(b"\x30", syntax(dice), condition(dice), info)


def name_plus_record(dice):
    """A record, a diagnostic in its place, or a part of a record, often with a database's name."""
    kind = dice.choice((0xA1, 0xA1, 0xA1, 0xA2, 0xA2, 0xA3, 0xA4, 0xA5))
    body = {0xA1: external, 0xA2: diag_rec}.get(kind, lambda _: saved.element(b"\x04", b"part"))(dice)
    name = [saved.element(b"\x80", octets(dice))] if dice.randrange(3) else []
    return saved.element(b"\x30", *name, saved.element(b"\xa1", saved.element(bytes([kind]), body)))


def any_fact(dice, targets):
    """A fact of one of so many targets, or of one without a name."""
    kind = dice.choice(KINDS)
    where = kind, dice.choice((*range(targets), targets + 1, 2**32 - 1)), dice.choice(SETS)
    if kind == saved.FAILED:
        return where
    if kind == saved.SEEN:
        return *where, dice.choice(POSITIONS), name_plus_record(dice)
    return *where, dice.choice(PLACES), diag_rec(dice) if kind == saved.DIAG else b""


def any_file(dice, facts):
    """A saved file of so many facts at most; some positions have several records."""
    names = [octets(dice) for _ in range(dice.randrange(8))]
    front = saved.element(b"\xa4", *(saved.element(b"\x80", it) for it in names))
    return front + b"".join(saved.fact(*it) for it in sorted({any_fact(dice, len(names)) for _ in range(facts)}))


def files(number, facts, seed):
    """Names, contents and commands: so many worlds, and so many facts."""
    for at, world in enumerate(files_of_worlds(number)):
        name = f"json-{at}.world"
        yield name, world.encode(), ["run", name]
    dice = random.Random(seed)
    while facts > 0:
        many = min(facts, dice.randrange(1, MOST_FACTS))
        facts -= many
        name = f"json-{facts}.saved"
        yield name, any_file(dice, many), ["join", name, name]


def main(number, facts, seed):
    zmeta, made = os.path.abspath(os.environ["ZMETA"]), files(int(number), int(facts), int(seed))
    with tempfile.TemporaryDirectory() as room, ThreadPoolExecutor(len(os.sched_getaffinity(0))) as pool:
        found = [it for it in pool.map(lambda it: fault_of(zmeta, room, *it), made) if it]
    print(f"{number} worlds, {facts} facts", *found[:5], sep="\n")
    return 1 if found else 0


if __name__ == "__main__":
    sys.exit(main(*sys.argv[1:]))
