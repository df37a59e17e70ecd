"""An independent model of the view for readers and of the fields in lines of JSON: what the program shows of a record
of ISO 2709 in MARC 21 or UNIMARC. It follows the standards and the description of the view in docs/FORMATS.md, and uses
Python's own UTF-8 and normalization."""

import re
import unicodedata

from saved import MARC21, SUTRS, UNIMARC, XML

FIELD_END, RECORD_END, DELIMITER = b"\x1e", b"\x1d", b"\x1f"
REPLACEMENT = "\N{REPLACEMENT CHARACTER}"
# the control characters of ISO 6630 round what is left out in sorting
SORT_MARKS = "\x98\x9c"


# Records: a leader of 24 octets, a directory, and fields


def decimal(octets):
    """The number that the octets spell, None if one of them is no digit."""
    return int(octets or b"0") if octets.isdigit() or not octets else None


def up_to_terminator(octets):
    return octets.partition(FIELD_END)[0].partition(RECORD_END)[0]


def entry_map(leader):
    """The lengths of a directory entry's parts behind its tag: 4, 5 and 0 if the leader has no digits."""
    return [int(chr(it)) if chr(it) in "0123456789" else usual for it, usual in zip(leader[20:23], (4, 5, 0))]


def directory_entries(octets, base):
    """The tag of each directory entry, and the octets of its field: None if the entry points at none."""
    lengths, starts, others = entry_map(octets[:24])
    width = 3 + lengths + starts + others
    directory, data = up_to_terminator(octets[24:base]), octets[base:]
    for at in range(0, len(directory) - width + 1, width):
        entry = directory[at : at + width]
        length, start = decimal(entry[3 : 3 + lengths]), decimal(entry[3 + lengths : 3 + lengths + starts])
        lies_within = length is not None and start is not None and start + length <= len(data)
        yield entry[:3], up_to_terminator(data[start : start + length]) if lies_within else None


def fields_of(octets):
    """The fields, each a tag and its octets; None if the octets are no record."""
    base = decimal(octets[12:17]) if len(octets) >= 24 else None
    if base is None or not 24 <= base <= len(octets):
        return None
    fields = [it for it in directory_entries(octets, base) if it[1] is not None]
    if sum(len(data) for _, data in fields) > 16 * len(octets):
        return None
    return fields


def own_octets(octets):
    """The octets of the record itself: as many as its leader tells, where that can be; else all."""
    told = decimal(octets[:5]) if len(octets) >= 24 else None
    return octets[:told] if told is not None and 24 <= told <= len(octets) else octets


class Record:
    """The fields of a record by tag, and their subfields by code."""

    def __init__(self, fields):
        self.by_tag = {}
        for tag, data in fields:
            self.by_tag.setdefault(tag.decode("latin-1"), []).append(data)

    def all(self, tag):
        return self.by_tag.get(tag, [])

    def first(self, tag):
        return next(iter(self.all(tag)), b"")

    def value(self, tag, code):
        """The first subfield of this code in the first field of this tag; None if there is none or it is empty."""
        return subfield(self.first(tag), code) or None


def subfields(field):
    """Code and data of each subfield; what stands before the first delimiter are the indicators."""
    return [(it[:1].decode("latin-1"), it[1:]) for it in field.split(DELIMITER)[1:] if it]


def subfield(field, code):
    return next((data for its_code, data in subfields(field) if its_code == code), b"")


# Character sets

# MARC-8: ANSEL (ANSI/NISO Z39.47) with the additions of MARC 21, by the names of Unicode
SPACING = {
    0xA1: "LATIN CAPITAL LETTER L WITH STROKE", 0xA2: "LATIN CAPITAL LETTER O WITH STROKE",
    0xA3: "LATIN CAPITAL LETTER D WITH STROKE", 0xA4: "LATIN CAPITAL LETTER THORN", 0xA5: "LATIN CAPITAL LETTER AE",
    0xA6: "LATIN CAPITAL LIGATURE OE", 0xA7: "MODIFIER LETTER PRIME", 0xA8: "MIDDLE DOT", 0xA9: "MUSIC FLAT SIGN",
    0xAA: "REGISTERED SIGN", 0xAB: "PLUS-MINUS SIGN", 0xAC: "LATIN CAPITAL LETTER O WITH HORN",
    0xAD: "LATIN CAPITAL LETTER U WITH HORN", 0xAE: "MODIFIER LETTER APOSTROPHE", 0xB0: "MODIFIER LETTER TURNED COMMA",
    0xB1: "LATIN SMALL LETTER L WITH STROKE", 0xB2: "LATIN SMALL LETTER O WITH STROKE",
    0xB3: "LATIN SMALL LETTER D WITH STROKE", 0xB4: "LATIN SMALL LETTER THORN", 0xB5: "LATIN SMALL LETTER AE",
    0xB6: "LATIN SMALL LIGATURE OE", 0xB7: "MODIFIER LETTER DOUBLE PRIME", 0xB8: "LATIN SMALL LETTER DOTLESS I",
    0xB9: "POUND SIGN", 0xBA: "LATIN SMALL LETTER ETH", 0xBC: "LATIN SMALL LETTER O WITH HORN",
    0xBD: "LATIN SMALL LETTER U WITH HORN", 0xC0: "DEGREE SIGN", 0xC1: "SCRIPT SMALL L",
    0xC2: "SOUND RECORDING COPYRIGHT", 0xC3: "COPYRIGHT SIGN", 0xC4: "MUSIC SHARP SIGN", 0xC5: "INVERTED QUESTION MARK",
    0xC6: "INVERTED EXCLAMATION MARK", 0xC7: "LATIN SMALL LETTER SHARP S", 0xC8: "EURO SIGN",
}
# marks, which MARC-8 has before their letter and Unicode behind it
COMBINING = {
    0xE0: "HOOK ABOVE", 0xE1: "GRAVE ACCENT", 0xE2: "ACUTE ACCENT", 0xE3: "CIRCUMFLEX ACCENT", 0xE4: "TILDE",
    0xE5: "MACRON", 0xE6: "BREVE", 0xE7: "DOT ABOVE", 0xE8: "DIAERESIS", 0xE9: "CARON", 0xEA: "RING ABOVE",
    0xEB: "DOUBLE INVERTED BREVE", 0xED: "COMMA ABOVE RIGHT", 0xEE: "DOUBLE ACUTE ACCENT", 0xEF: "CANDRABINDU",
    0xF0: "CEDILLA", 0xF1: "OGONEK", 0xF2: "DOT BELOW", 0xF3: "DIAERESIS BELOW", 0xF4: "RING BELOW",
    0xF5: "DOUBLE LOW LINE", 0xF6: "LOW LINE", 0xF7: "COMMA BELOW", 0xF8: "LEFT HALF RING BELOW", 0xF9: "BREVE BELOW",
    0xFA: "DOUBLE TILDE", 0xFE: "COMMA ABOVE",
}
# the right halves of the ligature and of the double tilde: the characters of the left halves span both letters
RIGHT_HALVES = (0xEC, 0xFB)

LETTERS = {it: unicodedata.lookup(name) for it, name in SPACING.items()}
LETTERS |= {it: chr(it) for it in range(0x80)} | dict(zip((0x88, 0x89), SORT_MARKS))
MARKS = {it: unicodedata.lookup("COMBINING " + name) for it, name in COMBINING.items()}


def ascii_text(octets):
    """ASCII, and the marks for sorting."""
    return "".join(LETTERS[it] if it < 0x80 or it in (0x88, 0x89) else REPLACEMENT for it in octets)


def marc8_text(octets):
    """MARC-8 of the Latin sets. An escape to another set is one U+FFFD; the characters of that set are left out."""
    text, marks, is_latin = "", "", True
    for escape, run in re.findall(rb"(\x1b(?:\(.|[^(]|\(?\Z))|([^\x1b]+)", octets, re.DOTALL):
        if run and is_latin:
            for it in run:
                if it in MARKS:
                    marks += MARKS[it]
                elif it not in RIGHT_HALVES:
                    text, marks = text + LETTERS.get(it, REPLACEMENT) + marks, ""
        elif escape in (b"\x1bs", b"\x1b(B"):
            is_latin = True
        elif escape and escape not in (b"\x1b", b"\x1b("):
            text, marks, is_latin = text + REPLACEMENT + marks, "", False
    return text + (REPLACEMENT + marks if marks else "")


def utf8_text(octets):
    return octets.decode("utf-8", errors="replace")


def is_utf8_beyond_ascii(octets):
    try:
        return not octets.decode("utf-8").isascii()
    except UnicodeDecodeError:
        return False


# What is safe on a terminal

UNSAFE = re.compile("[\0-\x1f\x7f-\x9f\u061c\u200b\u200e\u200f\u2028-\u202e\u2066-\u2069\ufeff]")


def shown(text):
    composed = unicodedata.normalize("NFC", text)
    kept = re.sub(f"[{SORT_MARKS}]", "", composed)
    return UNSAFE.sub(REPLACEMENT, re.sub("[\t\n\r]", " ", kept))


# MARC 21 and UNIMARC


class Marc21:
    title_tag, maker_code, isbn_tag = "245", "c", "020"
    headings = ("100", "110", "111")
    # what is shown of the title, and the mark of ISBD before it; what of it is not the statement of responsibility
    title_codes = dict.fromkeys("abnpc")
    title_alone = "abnp"
    dates = (("264", "c"), ("260", "c"), ("260", "g"))
    other_text = staticmethod(marc8_text)

    @staticmethod
    def coded_date(record):
        return record.first("008")[7:11]

    @staticmethod
    def says_utf8(octets, record):
        return octets[9:10] == b"a"


class Unimarc:
    title_tag, maker_code, isbn_tag = "200", "f", "010"
    headings = ("700", "710")
    title_codes = {"a": None, "e": ":", "f": "/", "g": ";"}
    title_alone = "ae"
    dates = (("214", "d"), ("210", "d"))
    other_text = staticmethod(ascii_text)

    @staticmethod
    def coded_date(record):
        return (record.value("100", "a") or b"")[9:13]

    @staticmethod
    def says_utf8(octets, record):
        return (record.value("100", "a") or b"")[26:28] == b"50"


def year(form, record):
    """The first four digits in a row of the date of publication; if it has none, the date of the coded field."""
    for tag, code in form.dates:
        for field in record.all(tag):
            found = re.search(rb"[0-9]{4}", subfield(field, code))
            if found:
                return found[0].decode()
    coded = form.coded_date(record)
    return coded.decode() if re.fullmatch(rb"[0-9]{4}", coded) else ""


def title(form, record, codes):
    for code, data in subfields(record.first(form.title_tag)):
        if code in codes and data:
            mark = form.title_codes[code]
            yield from [mark.encode(), data] if mark else [data]


def heading(form, record):
    """The main heading; None if there is none."""
    return next(filter(None, (record.value(tag, "a") for tag in form.headings)), None)


def maker(form, record):
    """The main heading, if the title does not say who made it."""
    if record.value(form.title_tag, form.maker_code) is None and heading(form, record):
        yield from (b"/", heading(form, record))


def isbn(form, record):
    """The first word of the first ISBN field whose first word has a digit."""
    words = [subfield(field, "a").split(b" ")[0] for field in record.all(form.isbn_tag)]
    numbers = [it for it in words if re.search(rb"[0-9]", it)]
    return [b"ISBN", numbers[0]] if numbers else []


def joined(form, octets, record, pieces):
    """The text of pieces, in the character set of the record."""
    is_utf8 = form.says_utf8(octets, record) or is_utf8_beyond_ascii(own_octets(octets))
    meant = utf8_text if is_utf8 else form.other_text
    line = ""
    for piece in pieces:
        line += (" " if line else "") + shown(meant(piece))
    return line


def marc_entry(form, octets):
    fields = fields_of(octets)
    if fields is None:
        return "", f"no record, {len(octets)} octets"
    record = Record(fields)
    pieces = [*title(form, record, form.title_codes), *maker(form, record), *isbn(form, record)]
    return year(form, record), joined(form, octets, record, pieces) or f"no title, {len(octets)} octets"


# The fields that programs are told


def without_marks(pieces):
    """Pieces without the spaces and marks of ISBD at the end of all."""
    pieces = [*pieces]
    while pieces:
        last = pieces.pop().rstrip(b" /:;,=")
        if last:
            return [*pieces, last]
    return []


def fields_told(syntax, octets):
    """What a record has of year, title, author and ISBN; nothing of octets that are not read as MARC."""
    form, fields = form_of(syntax, octets), fields_of(octets)
    if form is None or fields is None:
        return {}
    record = Record(fields)
    author = heading(form, record) or record.value(form.title_tag, form.maker_code)
    texts = {
        "year": year(form, record),
        "title": joined(form, octets, record, without_marks(title(form, record, form.title_alone))),
        "author": joined(form, octets, record, without_marks([author] if author else [])),
        "isbn": joined(form, octets, record, isbn(form, record)[1:]),
    }
    return {name: text for name, text in texts.items() if text}


# The view


def sutrs_entry(octets):
    line = " ".join(it for it in shown(utf8_text(octets)).split(" ") if it)
    return "", line if len(line) <= 200 else line[:200] + "\N{HORIZONTAL ELLIPSIS}"


def form_of(syntax, octets):
    """The format that octets in a syntax are read in; None if they are not read as MARC."""
    if syntax in (SUTRS, XML):
        return None
    if syntax == UNIMARC:
        return Unimarc
    front, _, last = syntax.rpartition(".")
    is_marc = front == MARC21.rpartition(".")[0] and int(last) < 100
    return Marc21 if is_marc or fields_of(octets) is not None else None


def entry(syntax, octets):
    """The year and the text that are shown of a record."""
    if syntax == SUTRS:
        return sutrs_entry(octets)
    if syntax == XML:
        return "", f"XML, {len(octets)} octets"
    form = form_of(syntax, octets)
    return marc_entry(form, octets) if form else ("", f"record of syntax {syntax}, {len(octets)} octets")


def heads(names, counts, found):
    """A line for each target that has a count. `found` has the records by position and target."""
    for target in sorted(counts):
        shown_there = sum(1 for _, its_target in found if its_target == target)
        yield f"{names[target]}: {counts[target]} found, {shown_there} shown"


def rows(names, found):
    """The rows of these records. If several stand at a place, the row has their number, and a line for each follows."""
    place_width = max(len(str(place)) for place, _ in found)
    name_width = max(len(names[target]) for _, target in found)
    for place, target in sorted(found):
        head = f"  {place:>{place_width}}  {names[target]:<{name_width}}  "
        several = found[place, target]
        if len(several) > 1:
            yield f"{head}      {len(several)} different records"
            head = " " * len(head)
        for it in several:
            yield "{}{:<4}  {}".format(head, *entry(*it))


def view(names, counts, found):
    """The view of records by position and target, each a syntax and octets. Several of one place stand in the order of
    the list. The names are short and in ASCII."""
    return "".join(it + "\n" for it in [*heads(names, counts, found), "", *rows(names, found)])
