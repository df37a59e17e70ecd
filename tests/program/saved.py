"""Writes saved files: facts in canonical BER, in fact order, behind the names of the targets."""

# record syntaxes, and a set of diagnostics
MARC21 = "1.2.840.10003.5.10"
UNIMARC = "1.2.840.10003.5.1"
SUTRS = "1.2.840.10003.5.101"
XML = "1.2.840.10003.5.109.10"
OPAC = "1.2.840.10003.5.102"
BIB1 = "1.2.840.10003.4.1"
# kinds of facts
COUNT, FAILED, SEEN, DIAG = range(4)


def element(lead, *parts):
    """An element with these identifier octets, and its length in the shortest form."""
    contents = b"".join(parts)
    size = len(contents)
    if size < 128:
        return lead + bytes([size]) + contents
    octets = size.to_bytes((size.bit_length() + 7) // 8, "big")
    return lead + bytes([128 + len(octets)]) + octets + contents


def integer(lead, value):
    """An INTEGER, not below 0, in the fewest octets."""
    return element(lead, value.to_bytes(value.bit_length() // 8 + 1, "big"))


def base128(arc):
    groups = [arc & 127]
    while arc > 127:
        arc >>= 7
        groups.append(arc & 127 | 128)
    return bytes(reversed(groups))


def object_identifier(dotted):
    first, second, *rest = (int(it) for it in dotted.split("."))
    return element(b"\x06", b"".join(base128(it) for it in (40 * first + second, *rest)))


def external(syntax, content):
    return element(b"\x28", object_identifier(syntax), content)


def name_plus_record(choice, database):
    """A NamePlusRecord, with a database's name if there is one."""
    name = [] if database is None else [element(b"\x80", database.encode())]
    return element(b"\x30", *name, element(b"\xa1", choice))


def retrieved(syntax, content, database=None):
    """A retrieval record with this content."""
    return name_plus_record(element(b"\xa1", external(syntax, content)), database)


def record(syntax, octets, database=None):
    return retrieved(syntax, element(b"\x81", octets), database)


def diagnostic(syntax, condition, info=""):
    """A DiagRec in the default format."""
    return element(b"\x30", object_identifier(syntax), integer(b"\x02", condition), element(b"\x1a", info.encode()))


def surrogate(syntax, condition, info="", database=None):
    """A NamePlusRecord with a diagnostic in place of the record."""
    return name_plus_record(element(b"\xa2", diagnostic(syntax, condition, info)), database)


def named(names):
    return element(b"\xa4", *(element(b"\x80", it.encode()) for it in names))


def fact(kind, target, number, place=None, rest=b""):
    """A fact of a target's set: COUNT and how many; FAILED; SEEN, the position and a NamePlusRecord; DIAG, the place
    and a DiagRec."""
    where = [integer(b"\x80", target), integer(b"\x81", number)]
    return element(bytes([0xA0 + kind]), *where, *([] if place is None else [integer(b"\x82", place)]), rest)


def of_facts(names, facts):
    """A saved file of names and of facts, each as the parts of `fact`."""
    return named(names) + b"".join(fact(*it) for it in sorted(set(facts)))


def element_of(word):
    """The element that a word names: digits; `opac:` and the digits of an OPAC record; or of two octets, a record of
    them in MARC 21."""
    if word.startswith("opac:"):
        return retrieved(OPAC, element(b"\xa0", bytes.fromhex(word[5:])))
    return record(MARC21, word.encode()) if len(word) == 2 else bytes.fromhex(word)


def of_row(row):
    """The fact of a row: its kind, target and set, then the count, or the position or place and the element. The row of
    a failure ends with a dash."""
    kind, target, number, *rest = row.split(" ")
    where = int(target), int(number)
    if kind == "failed":
        return FAILED, *where
    place, words = int(rest[0]), rest[1:]
    return {"count": COUNT, "seen": SEEN, "diag": DIAG}[kind], *where, place, *(element_of(it) for it in words)


def of_rows(text):
    """A saved file of names with a space between each two and, behind `; ` each, of the facts of rows."""
    names, *rows = text.split("; ")
    return of_facts(names.split(" ") if names else [], [of_row(it) for it in rows])
