"""OPAC records (Z39.50-2003, Appendix REC: OPACRecord): makes random ones and damaged ones, reads them, and tells what
the view and JSON show of their copies, and which octets `records` writes."""

import base64

import marc_model
import saved

OPAC = saved.OPAC

# The fields of each production: tag, kind, and the name of its member in JSON, in the order of the standard
VOLUME = ((1, "text", "enumeration"), (2, "text", "chronology"), (3, "text", "enumAndChron"))
CIRCULATION = (
    (1, "bool", "availableNow"), (2, "text", "availabilityDate"), (3, "text", "availableThru"),
    (4, "text", "restrictions"),
    (5, "text", "itemId"), (6, "bool", "renewable"), (7, "bool", "onHold"), (8, "text", "enumAndChron"),
    (9, "text", "midspine"),
    (10, "text", "temporaryLocation"),
)
TEXTS = (
    "typeOfRecord encodingLevel format receiptAcqStatus generalRetention completeness dateOfReport nucCode"
    " localLocation shelvingLocation callNumber shelvingData copyNumber publicNote reproductionNote termsUseRepro"
    " enumAndChron"
).split()
COPY = (*((tag, "text", name) for tag, name in enumerate(TEXTS, 1)), (18, VOLUME, "volumes"),
        (19, CIRCULATION, "circulationData"))


# Reading


class Misfit(Exception):
    """The element stands for no value."""


def elements(octets):
    """The identifiers and contents of elements, one behind the other. The octets are well-formed."""
    found, at = [], 0
    while at < len(octets):
        start = at
        at += 1
        if octets[start] & 31 == 31:
            while octets[at] & 128:
                at += 1
            at += 1
        identifier = octets[start:at]
        size, at = octets[at], at + 1
        if size > 127:
            size, at = int.from_bytes(octets[at : at + size - 128], "big"), at + size - 128
        found.append((identifier, octets[at : at + size]))
        at += size
    return found


def text(constructed, contents):
    if not constructed:
        return contents
    pieces = []
    for identifier, inner in elements(contents):
        if identifier[0] & 0xDF != 0x04:
            raise Misfit
        pieces.append(text(identifier[0] & 0x20, inner))
    return b"".join(pieces)


def truth(constructed, contents):
    if constructed or len(contents) != 1:
        raise Misfit
    return contents != b"\0"


def table(fields, contents):
    """The values of a production's elements: each at most once, in order; a BOOLEAN is required."""
    found, left = {}, elements(contents)
    for tag, kind, name in fields:
        if left and left[0][0][0] & 0xDF == 0x80 + tag:
            identifier, inner = left.pop(0)
            constructed = identifier[0] & 0x20
            if kind == "text":
                found[name] = text(constructed, inner)
            elif kind == "bool":
                found[name] = truth(constructed, inner)
            else:
                found[name] = entries(kind, constructed, inner)
        elif kind == "bool":
            raise Misfit
    if left:
        raise Misfit
    return found


def entries(fields, constructed, contents):
    """SEQUENCE OF SEQUENCE."""
    if not constructed or any(identifier != b"\x30" for identifier, _ in elements(contents)):
        raise Misfit
    return [table(fields, inner) for _, inner in elements(contents)]


def dotted(contents):
    """The numbers of an OBJECT IDENTIFIER."""
    arcs, value, begins = [], 0, True
    for octet in contents:
        if begins and octet == 0x80:
            raise Misfit
        value, begins = value << 7 | octet & 127, octet < 128
        if begins:
            arcs.append(value)
            value = 0
    if not begins or not arcs:
        raise Misfit
    first = min(arcs[0] // 40, 2)
    numbers = (first, arcs[0] - 40 * first, *arcs[1:])
    if max(numbers) >= 2**32:
        raise Misfit
    return ".".join(map(str, numbers))


def number(contents):
    if not contents or len(contents) > 1 and contents[0] in (0, 255) and contents[0] >> 7 == contents[1] >> 7:
        raise Misfit
    if len(contents) > 8:
        raise Misfit


def external(contents):
    """The syntax of an EXTERNAL; whether it has a syntax and octets alone; its octets, None if it has none; and what
    the view says of other contents."""
    left, syntax, alone, other = elements(contents), None, True, None
    if left and left[0][0] == b"\x06":
        syntax = dotted(left.pop(0)[1])
    if left and left[0][0] == b"\x02":
        number(left.pop(0)[1])
        alone = False
    if left and left[0][0][0] & 0xDF == 0x07:
        identifier, inner = left.pop(0)
        text(identifier[0] & 0x20, inner)
        alone = False
    if len(left) != 1:
        raise Misfit
    (identifier, inner), octets = left[0], None
    if identifier == b"\xa0":
        if len(elements(inner)) != 1:
            raise Misfit
        other = f"{len(inner)} octets"
    elif identifier[0] & 0xDF == 0x81:
        octets = text(identifier[0] & 0x20, inner)
    elif identifier != b"\x82" or not inner or inner[0] > 7 or inner[0] and len(inner) == 1:
        raise Misfit
    else:
        other = "in bits"
    return syntax, alone and octets is not None and syntax is not None, octets, other


def read(octets):
    """The bibliographic record and the holdings of the element of an OPAC record, each None if it is absent. None if
    the element stands for no such record."""
    try:
        ((identifier, contents),) = elements(octets)
        if identifier != b"\x30":
            return None
        left, record, holdings = elements(contents), None, None
        if left and left[0][0] == b"\xa1":
            record = external(left.pop(0)[1])
        if left and left[0][0] == b"\xa2":
            holdings = [holding(*it) for it in elements(left.pop(0)[1])]
        return None if left else (record, holdings)
    except Misfit:
        return None


def holding(identifier, contents):
    """What is said of a copy: the parts of its EXTERNAL and its own octets, or its fields."""
    if identifier == b"\xa1":
        return external(contents), saved.element(identifier, contents)
    if identifier == b"\xa2":
        return table(COPY, contents)
    raise Misfit


# JSON


def coded(octets):
    return base64.b64encode(octets).decode()


def members(fields, values):
    told = {}
    for _, kind, name in fields:
        value = values.get(name)
        if value is None:
            continue
        if isinstance(value, bytes):
            told[name] = value.decode(errors="replace")
            if told[name].encode() != value:
                told[name + "Octets"] = coded(value)
        else:
            told[name] = value if kind == "bool" else [members(kind, it) for it in value]
    return told


def told_of_holding(it):
    if isinstance(it, dict):
        return members(COPY, it)
    (_, alone, octets, _), own = it
    return {"marcHoldingsRecord": coded(octets)} if alone else {"encoding": coded(own)}


def told(record, holdings):
    """What JSON has of a record with its copies: the fields of its bibliographic record, and its holdings."""
    fields = {} if record is None or record[2] is None else marc_model.fields_told(record[0] or "", record[2])
    return fields if holdings is None else {**fields, "holdings": [told_of_holding(it) for it in holdings]}


# Their own records


def written(octets):
    """The octets that are written for the element of an OPAC record, None if there are none, and the syntax that is
    compared."""
    found = read(octets)
    if found is None:
        return None, OPAC
    if found[0] is None:
        return None, None
    syntax, alone, record, _ = found[0]
    return record if alone else None, syntax


def written_of(records, asked):
    """What `records` writes of the elements of OPAC records on standard output, and what on standard error."""
    own = [written(it) for it in records]
    wanted = [octets for octets, syntax in own if None in (asked, syntax) or asked == syntax]
    counts = (
        ("records of another syntax", len(own) - len(wanted)),
        ("structured records (as OPAC and GRS-1)", wanted.count(None)),
    )
    lines = [f"zmeta: {what} left out: {count}\n" for what, count in counts if count]
    return b"".join(it for it in wanted if it is not None), "".join(lines).encode()


# The view


def joined(separator, *pieces):
    return separator.join(it for it in pieces if it)


def shown(values, name, word=""):
    line = marc_model.shown(marc_model.utf8_text(values.get(name) or b""))
    return word + line if line else ""


def shown_item(it):
    now = it["availableNow"]
    until = "" if now else shown(it, "availabilityDate", "until ")
    state = joined(", ", "available" if now else "not available", until, "on hold" if it["onHold"] else "")
    return joined(": ", shown(it, "enumAndChron"), state)


def shown_copy(it):
    place = joined(", ", *(shown(it, name) for name in ("localLocation", "shelvingLocation", "nucCode")))
    # (a number that has the word stands alone)
    word = "" if (it.get("copyNumber") or b"").startswith((b"copy", b"Copy", b"COPY")) else "copy "
    which = joined(", ", shown(it, "callNumber"), shown(it, "copyNumber", word), shown(it, "enumAndChron"))
    volumes = [joined(", ", *(shown(v, name) for _, _, name in VOLUME)) for v in it.get("volumes", ())]
    items = [shown_item(r) for r in it.get("circulationData", ())]
    return joined("; ", joined(": ", place, which), *volumes, shown(it, "publicNote"), *items) or "copy without details"


def named(syntax):
    return f"record of syntax {syntax}" if syntax else "record of no named syntax"


def entry(octets):
    """The year and the text that are shown of the element of an OPAC record."""
    found = read(octets)
    if found is None:
        return "", f"{named(OPAC)}, {len(octets)} octets"
    if found[0] is None:
        return "", "copies of a record that is not there"
    syntax, _, octets, other = found[0]
    if octets is None:
        return "", f"{named(syntax)}, {other}"
    if syntax is None and marc_model.form_of("", octets) is None:
        return "", f"{named(syntax)}, {len(octets)} octets"
    return marc_model.entry(syntax or "", octets)


def view(name, count, records):
    """The view of the elements of OPAC records, from position 1 on."""
    width = len(str(len(records)))
    told = [f"{name}: {count} found, {len(records)} shown", ""]
    for place, octets in enumerate(records, 1):
        told.append("  {:>{}}  {}  {:<4}  {}".format(place, width, name, *entry(octets)))
        front = " " * (12 + width + len(name))
        told += [front + it for it in lines((read(octets) or (None, None))[1])]
    return "".join(it + "\n" for it in told)


def lines(holdings):
    """The lines of a record's copies. A MARC record of holdings is shown as one of MARC 21."""
    for it in holdings or ():
        if isinstance(it, dict):
            yield shown_copy(it)
        else:
            octets = it[0][2]
            is_marc = octets is not None and marc_model.fields_of(octets) is not None
            brief = marc_model.marc_entry(marc_model.Marc21, octets)[1] if is_marc else ""
            yield joined(": ", "MARC holdings record", "" if brief.startswith("no title, ") else brief)


# Making them

CONTENTS = (b"", b"a", b"v.3", b"Copy 1", b"2026-12-01", "Главный зал".encode(), b'"\\\n', b"\xff\xfe", b"caf\xe9",
            "\u202eabc\x1b[2J".encode())


def made_text(dice):
    return dice.choice(CONTENTS) if dice.randrange(4) else dice.randbytes(dice.randrange(9))


def made_value(dice, tag, kind):
    if kind == "text":
        return saved.element(bytes([0x80 + tag]), made_text(dice))
    if kind == "bool":
        return saved.element(bytes([0x80 + tag]), dice.choice((b"\0", b"\xff", b"\1")))
    return saved.element(bytes([0xA0 + tag]),
                         *(saved.element(b"\x30", made_fields(dice, kind, 2)) for _ in range(dice.randrange(4))))


def made_fields(dice, fields, odds):
    """Each BOOLEAN, and one in `odds` of the others."""
    return b"".join(made_value(dice, tag, kind)
                    for tag, kind, _ in fields if kind == "bool" or dice.randrange(odds) == 0)


def made_external(dice, tag, records):
    """An EXTERNAL, often with a syntax and octets alone."""
    front = [saved.object_identifier(dice.choice((saved.MARC21, saved.UNIMARC, "1.2.840.10003.5.109.10", "2.100.3")))]
    if dice.randrange(5) == 0:
        front = [it for it in (*front, b"\x02\x01\x03", saved.element(b"\x07", b"d")) if dice.randrange(2)]
    octets = saved.element(b"\x81", dice.choice(records) if dice.randrange(4) else made_text(dice))
    single, bits = saved.element(b"\xa0", saved.element(b"\x04", b"part")), saved.element(b"\x82", b"\x04\xf0")
    others = octets, octets, octets, octets, single, bits
    return saved.element(bytes([tag]), *front, dice.choice(others))


def made_holding(dice, records):
    if dice.randrange(5) == 0:
        return made_external(dice, 0xA1, records)
    return saved.element(b"\xa2", made_fields(dice, COPY, dice.choice((2, 4, 30))))


def damaged(dice, octets):
    """The same element with one element within it lost, twice there, of another tag, in another form, or with other
    contents."""
    found = elements(octets)
    at = dice.randrange(len(found))
    identifier, contents = found[at]
    if identifier[0] & 0x20 and contents and dice.randrange(5):
        parts = [*found]
        parts[at] = (identifier, damaged(dice, contents))
    else:
        # (the tag 00 ends contents, and stands in no file)
        tag = identifier[0] ^ 1 << dice.randrange(3)
        kinds = [], [found[at]] * 2, [(bytes([tag if tag & 0xDF else tag | 8]), contents)]
        other = bytes([identifier[0] ^ 0x20]), b"" if identifier[0] & 0x20 else b"\x02\x01\x03"
        others = [other], [(identifier, b"")]
        parts = found[:at] + dice.choice((*kinds, *others)) + found[at + 1 :]
    return b"".join(saved.element(*it) for it in parts)


def made(dice, records):
    """An OPAC record with a bibliographic record of these, and one in four of them damaged."""
    record = [made_external(dice, 0xA1, records)] if dice.randrange(8) else []
    copies = []
    if dice.randrange(8):
        copies.append(saved.element(b"\xa2", *(made_holding(dice, records) for _ in range(dice.randrange(5)))))
    parts = b"".join((*record, *copies))
    return saved.element(b"\x30", damaged(dice, parts) if parts and dice.randrange(4) == 0 else parts)
