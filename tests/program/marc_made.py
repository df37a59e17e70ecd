"""Records of ISO 2709 in MARC 21 and UNIMARC as catalogues have them, and the same records mutilated in many ways."""

import random

from saved import MARC21, SUTRS, UNIMARC, XML

END, RECORD_END, DELIMITER = b"\x1e", b"\x1d", b"\x1f"


# Making records


def field(indicators, *subfields):
    """A field of indicators and subfields. A subfield begins with its code."""
    return indicators.encode() + b"".join(DELIMITER + it for it in map(octets_of, subfields))


def octets_of(text):
    return text if isinstance(text, bytes) else text.encode()


def made(fields, coding="a", lengths=(4, 5, 0), indicators=2):
    """A record of these fields, each a tag and its octets without the terminator. `coding` is position 9 of the leader;
    `lengths` are those of a directory entry's parts behind the tag."""
    directory, data = b"", b""
    for tag, octets in fields:
        length = len(octets) + 1
        directory += tag.encode() + digits(length, lengths[0]) + digits(len(data), lengths[1]) + b"x" * lengths[2]
        data += octets + END
    base = 24 + len(directory) + 1
    size = base + len(data) + 1
    kinds = f"nam {coding}{indicators}2".encode()
    leader = digits(size, 5) + kinds + digits(base, 5) + b" a " + digits(int("%d%d%d" % lengths), 3) + b"0"
    return leader + directory + END + data + RECORD_END


def digits(value, count):
    return str(value % 10**count).zfill(count).encode() if count else b""


def coded(first_date, second_date="    "):
    """Field 008 of MARC 21."""
    return f"910710s{first_date:4}{second_date}nyu           000 1 eng  ".encode()


def general(year, charset="50  "):
    """Field 100 of UNIMARC: its $a has the date at position 9, and the character sets at 26."""
    return field("  ", f"a20040722d{year:4}    m  y0frey{charset:4}    ba")


MARC21_RECORDS = [
    made([("001", b"ocm00000042"), ("008", coded("1965")), ("020", field("  ", "a0801950775 (hbk.)", "c$5.95")),
          ("020", field("  ", "a9780441013593")), ("100", field("1 ", "aHerbert, Frank,", "d1920-1986.")),
          ("245", field("10", "aDune /", "cFrank Herbert.")), ("250", field("  ", "a1st ed.")),
          ("260", field("  ", "aPhiladelphia :", "bChilton Books,", "c[1965]")),
          ("650", field(" 0", "aDune (Imaginary place)"))]),
    made([("008", coded("1866")), ("100", field("1 ", "aДостоевский, Ф. М.", "6880-01")),
          ("245", field("10", "aПреступление и наказание :", "bроман в шести частях /", "cФ. М. Достоевский.")),
          ("264", field(" 1", "aМосква :", "bНаука,", "c1970")), ("020", field("  ", "a978-5-02-012345-6"))]),
    made([("245", field("00", "aΟδύσσεια /", "cΌμηρος ; μετάφραση Γ. Ψυχουντάκη.")), ("264", field(" 4", "c©1979"))]),
    made([("100", field("1 ", "aעוז, עמוס.")), ("245", field("10", "aסיפור על אהבה וחושך")),
          ("260", field("  ", "cתשס״ב 2002"))]),
    made([("100", field("1 ", "a川端康成")), ("245", field("10", "a雪国 /", "c川端康成著.")),
          ("260", field("  ", "c昭和22 [1947]"))]),
    # decomposed, and beyond what one character has
    made([("245", field("10", "aE\u0301tude o\u0302\u0301 d\u0323\u0307 /", "cAntoni\u0301n Dvor\u030ca\u0301k"))]),
    # a title without a name: the main headings in turn, the first of them empty
    made([("100", field("1 ", "a")), ("110", field("2 ", "aLibrary of Congress.", "bCopyright Office")),
          ("111", field("2 ", "aWorkshop on Images")),
          ("245", field("10", "aAnnual report", "n2. part,", "pFigures")), ("008", coded("19uu"))]),
    made([("111", field("2 ", "aInternational Congress of Libraries", "n(3rd :")),
          ("245", field("10", "aProceedings", "h[sound recording]"))]),
    # dates: of the manufacture; the first that has four digits; the coded one
    made([("245", field("00", "aMap of the bay")), ("260", field("  ", "c[n.d.]", "g(1911 printing)")),
          ("008", coded("1912", "1915"))]),
    made([("260", field("  ", "c1980")), ("264", field(" 1", "c1981")), ("245", field("00", "aReprint"))]),
    made([("264", field(" 1", "cMCMLXX")), ("264", field(" 4", "cc20011999")), ("245", field("00", "aTwo dates", "b")),
          ("008", coded("1970"))]),
    made([("245", field("04", "a\x98The \x9cbook of sand /", "cJ. L. Borges")), ("008", coded("|975"))]),
    # ISBNs without a number, and of one field of several
    made([("020", field("  ", "a(pbk.)")), ("020", field("  ", "z0131103628")), ("020", field("  ", "a 0131103628")),
          ("020", field("  ", "a99921-58-10-7:", "a0131103628")), ("245", field("10", "aA title", "cA maker"))]),
    # MARC-8
    made([("008", coded("1929")), ("100", field("1 ", b"aD\xe8oblin, Alfred,")),
          ("245", field("10", "aBerlin Alexanderplatz")),
          ("260", field("  ", "aBerlin,", "c1929."))], coding=" "),
    made([("245", field("10", b"aDvo\xe9r\xe2ak :", b"b\xb1\xf1 \xa1 \xa2 \xb5 \xc7 \xc8 \xb2 na\xe8\xf2ive /",
                        b"cT\xebi\xecu\xe1a \xfaa\xfbb"))], coding=" "),
    made([("100", field("1 ", b"aDostoevski\xe6i, Fyodor")),
          ("245", field("10", b"a\x1b(NpRESTUPLENIE I NAKAZANIE\x1b(B :", b"broman /", b"c\x1b$1!0@!1A\x1b(B."))],
         coding=" "),
    made([("245", field("10", b"aH\x1bb2\x1bsO and \x1bga\x1bs-rays", b"b\x88The \x89end")),
          ("260", field("  ", b"c\xc31987"))], coding=" "),
    # UTF-8 that the leader does not tell, and that it tells wrongly
    made([("245", field("10", "aŒuvres complètes /", "cMolière"))], coding=" "),
    made([("245", field("10", b"aD\xe8oblin \xff\xc3"))], coding="a"),
    # fields before others, and again; subfields without a code, or with one of its own kind
    made([("245", field("10", "a", "aSecond $a", "cfirst", "csecond") + DELIMITER),
          ("245", field("10", "aAnother title"))]),
    made([("245", b"aNo indicators" + DELIMITER + b"aTitle" + DELIMITER + DELIMITER + b"bx")]),
    made([("245", field("10", "aOther lengths /", "cof a directory")), ("008", coded("1984"))], lengths=(3, 4, 2)),
    made([("245", field("10", "aLong parts")), ("260", field("  ", "c2024"))], lengths=(5, 6, 0)),
    made([("245", field("10", "a" + "Word " * 100 + "/", "c" + "Name, " * 50))]),
    made([("245", field("10", "aShort title /", "cshort name.")), ("520", field("  ", "a" + "A long note. " * 150))]),
    made([("001", b"1"), ("008", coded("1990"))]),
    made([]),
]
UNIMARC_RECORDS = [
    made([("001", b"FRBNF39131232"), ("010", field("  ", "a2-07-036822-X", "bbr.", "d5,20 EUR")),
          ("100", general("1942")),
          ("200", field("1 ", "aL'étranger", "eroman", "fAlbert Camus", "gpréface de Jean-Paul Sartre")),
          ("210", field("  ", "aParis", "cGallimard", "d1971")), ("700", field(" |", "aCamus", "bAlbert"))],
         coding=" "),
    made([("100", general("1937")), ("200", field("1 ", "aКапитанская дочка")),
          ("700", field(" 1", "aПушкин", "bА. С.")),
          ("214", field(" 0", "aМосква", "d1937")), ("210", field("  ", "d1938"))], coding=" "),
    made([("010", field("  ", "z123")), ("010", field("  ", "a960-03-1234-5")), ("100", general("1999")),
          ("710", field("02", "aΕθνική Βιβλιοθήκη")), ("200", field("1 ", "aΚατάλογος", "e", "gepimeleia"))],
         coding=" "),
    # in ISO 5426: only ASCII is read
    made([("100", general("1899", "01  ")), ("200", field("1 ", b"a\x88L'\x89\xc2etranger", b"fA. Camus"))],
         coding=" "),
    made([("100", general("19..", "0103")), ("200", field("1 ", "aPlain title", "f", "gsomeone")),
          ("700", field(" 1", "aLast name"))], coding=" "),
    made([("100", field("  ", "atoo short")), ("200", field("1 ", "a\x98Le \x9crouge et le noir", "fStendhal")),
          ("210", field("  ", "d[s.d.]", "dcop. 1830"))], coding=" "),
]
OTHERS = [
    (SUTRS, "  Title:\n  Dune \x1b[2J\r\n\nAuthor: F. Herbert\n ".encode()),
    (SUTRS, ("Ein Buch, Œuvres, книга " * 12).encode()),
    (XML, b"<record/>"),
    ("1.2.840.10003.5.102", b"opac"),
    ("1.2.840.10003.5.1000.81.2", b"other octets"),
]


def sources():
    """Records, each a syntax and octets. Some have the syntax of another format of MARC, or of no format of MARC."""
    yield from ((MARC21, it) for it in MARC21_RECORDS)
    yield from ((UNIMARC, it) for it in UNIMARC_RECORDS)
    yield UNIMARC, MARC21_RECORDS[0]
    yield MARC21, UNIMARC_RECORDS[0]
    yield from (("1.2.840.10003.5.99", it) for it in MARC21_RECORDS[:2])
    yield from (("1.2.840.10003.5.1000.81.2", it) for it in MARC21_RECORDS[:2])
    yield from OTHERS


# Mutilating them

TAGS = [it.encode() for it in "001 008 010 020 100 110 111 200 210 214 245 260 264 700 710 880".split()]
INSERTED = [
    # MARC-8: escapes, whole and cut, and marks that follow one another, or stand at the end
    b"\x1b(N", b"\x1b$1", b"\x1b(B", b"\x1bs", b"\x1bg", b"\x1b", b"\x1b(", b"\x1b\x1b", b"\x1b)!E",
    b"\xe2", b"\xe8\xf2", b"\xeb", b"\xec", b"\xfb", b"\xff", b"\x8d",
    # what is no UTF-8: cut, too long, surrogates, beyond the last character
    b"\xc3", b"\xe2\x82", b"\xc0\xaf", b"\xe0\x80\x80", b"\xed\xa0\x80", b"\xf4\x90\x80\x80", b"\xf0\x9f\x98", b"\x80",
    b"\xfe",
    # controls, marks of direction, what nobody sees, marks for sorting
    b"\0", b"\x07", b"\x08", b"\t", b"\n", b"\r", b"\x7f", b"\x9b2J",
    "\x85".encode(), "\x9b".encode(), "\x98".encode(), "\x9c".encode(), b"\x88", b"\x89",
    "\u202e".encode(), "\u202a".encode(), "\u2066".encode(), "\u2069".encode(), "\u200e".encode(), "\u200f".encode(),
    "\u061c".encode(),
    "\u200b".encode(), "\ufeff".encode(), "\u2028".encode(), "\u2029".encode(), "\u200d".encode(), "\ufffe".encode(),
    "\U0001f4d6".encode(),
    # marks that are combined with what stands before them, in no order; Hangul and what is composed no more
    "\u0301".encode(), "\u0323\u0307".encode(), "\u0307\u0323".encode(), "\u0345".encode(),
    "\u1100\u1161\u11a8".encode(), "\u212b".encode(),
    "\u0958".encode(), "\ufb1d".encode(),
    # the octets that hold a record together
    END, RECORD_END, DELIMITER, DELIMITER + b"a", DELIMITER + b"c1999", b" ", b"1234", b"12345678",
]


def replaced(octets, at, count, other):
    return octets[:at] + other + octets[at + count :]


def base_of(octets):
    """Where the data of a record begin: by its leader if it has a number, else in the middle."""
    told = octets[12:17]
    return min(int(told), len(octets)) if len(told) == 5 and told.isdigit() else len(octets) // 2


def with_octet(dice, octets):
    return replaced(octets, dice.randrange(len(octets)), 1, bytes([dice.randrange(256)]))


def with_flipped_bit(dice, octets):
    at = dice.randrange(len(octets))
    return replaced(octets, at, 1, bytes([octets[at] ^ 1 << dice.randrange(8)]))


def cut_short(dice, octets):
    return octets[: dice.randrange(len(octets))]


def with_more(dice, octets):
    return octets + dice.choice((octets, b"\x1d", b"garbage", octets[:30]))


def with_something_in_its_data(dice, octets):
    """Puts octets into the data, in place of others or between them; the directory stays as it is."""
    at = dice.randrange(base_of(octets), len(octets) + 1)
    other = dice.choice(INSERTED)
    return replaced(octets, at, dice.choice((0, len(other), 1)), other)


def with_another_leader(dice, octets):
    """Changes the length, base address, entry map or character coding in the leader."""
    at, other = dice.choice((
        (0, digits(dice.randrange(100000), 5)), (12, digits(base_of(octets) + dice.randrange(-15, 16), 5)),
        (12, digits(dice.randrange(2000), 5)),
        (12, b"     "), (9, b" "), (9, b"a"), (10, b"00"), (20, b"    "),
        (20, bytes([dice.randrange(48, 58)])), (21, bytes([dice.randrange(48, 58)])),
        (22, bytes([dice.randrange(48, 58)])), (20, b"000"), (20, b"999"),
    ))
    return replaced(octets, at, len(other), other)


def with_another_entry(dice, octets):
    """Changes a directory entry: its tag, or its length or start to a wrong number, no number or that of another
    entry."""
    count = max((base_of(octets) - 25) // 12, 1)
    at, from_at = (24 + 12 * dice.randrange(count) for _ in range(2))
    offset, other = dice.choice((
        (0, dice.choice(TAGS)), (0, bytes(dice.randrange(32, 127) for _ in range(3))),
        (3, digits(dice.randrange(80), 4)), (3, digits(dice.randrange(10000), 4)),
        (7, digits(dice.randrange(300), 5)), (7, digits(dice.randrange(100000), 5)), (3, b"00x0"), (7, b"    0"),
        (3, b"0000"),
        (3, octets[from_at + 3 : from_at + 12]), (0, octets[from_at : from_at + 12]), (dice.randrange(12), END),
        (dice.randrange(12), b""),
    ))
    return replaced(octets, at + offset, len(other) if other else dice.randrange(13), other)


def with_entries_over_and_over(dice, octets):
    """Repeats the directory, and moves the base address behind it: the entries tell of the same octets many times."""
    base = base_of(octets)
    directory = (octets[24 : base - 1] * dice.randrange(2, 60))[:6000]
    moved = octets[:12] + digits(24 + len(directory) + 1, 5) + octets[17:24]
    return moved + directory + octets[base - 1 :]


def without_some(dice, octets):
    at = dice.randrange(len(octets))
    return replaced(octets, at, dice.randrange(1, 20), b"")


def without_a_terminator(dice, octets):
    """Removes a terminator or delimiter, or replaces it by another octet."""
    places = [at for at, it in enumerate(octets) if it in b"\x1d\x1e\x1f"]
    if not places:
        return octets
    return replaced(octets, dice.choice(places), 1, dice.choice((b"", b" ", END, DELIMITER, RECORD_END)))


def with_fields_anew(dice, octets):
    """Another record, of titles and other fields that are shown, with inserted pieces among their words; the directory
    is right."""
    fields = []
    for tag in [b"245", b"200", *dice.sample(TAGS, dice.randrange(4))]:
        pieces = [dice.choice("aaabcdefgnp").encode() + text_anew(dice) for _ in range(dice.randrange(1, 4))]
        indicators = dice.choice((b"10", b"  ", b"1", b""))
        fields.append((tag.decode(), indicators + b"".join(DELIMITER + it for it in pieces)))
    return made(fields, dice.choice(" a"))


def text_anew(dice):
    words = (b"dune", b"1965", "Мир".encode(), "école".encode(), b"D\xe8oblin", b"\xc3\xa9t\xe2e", b"A", b" ")
    return b"".join(dice.choice((dice.choice(words), dice.choice(INSERTED))) for _ in range(dice.randrange(1, 6)))


WAYS = (
    with_octet, with_flipped_bit, cut_short, with_more, with_something_in_its_data, with_something_in_its_data,
    with_something_in_its_data,
    with_another_leader, with_another_leader, with_another_entry, with_another_entry, with_another_entry,
    with_entries_over_and_over, without_some,
    without_a_terminator, without_a_terminator, with_fields_anew, with_fields_anew, with_fields_anew,
)


def mutilated(dice, octets):
    for _ in range(dice.choice((1, 1, 1, 2, 3, 6))):
        if octets:
            octets = dice.choice(WAYS)(dice, octets)
    return octets


def all_of_them(count, seed, bases=None):
    """The records as they are, then so many mutilated ones, each a syntax and octets."""
    dice = random.Random(seed)
    bases = bases or [*sources()]
    yield from bases
    for _ in range(count):
        syntax, octets = dice.choice(bases)
        yield syntax, mutilated(dice, octets)
