"""Whole views for readers, worked out by hand: what is known, from which a saved file is written, and the text that is
due."""

import saved
from marc_made import DELIMITER, END, RECORD_END, coded, digits, field, general, made
from saved import BIB1, COUNT, DIAG, FAILED, MARC21, SEEN, SUTRS, UNIMARC, XML

OTHER_SET = "1.2.840.10003.4.2"
BOTH = (field("10", "aDune /", "cFrank Herbert"), field("  ", "c1965"))


def seen(target, position, syntax, octets):
    return SEEN, target, 1, position, saved.record(syntax, octets)


def titled(*subfields, coding="a", more=()):
    """A record of MARC 21 with this title."""
    return made([("245", field("10", *subfields)), *more], coding)


def unimarc(*subfields, more=()):
    return made([("100", general("1999")), ("200", field("1 ", *subfields)), *more], " ")


ISBN_FIELD = [("010", field("  ", "a5-17-012345-6"))]

# Letters of many scripts, composed and decomposed, and MARC-8

LETTERS = (
    ["Российская национальная библиотека", "Εθνική Βιβλιοθήκη", "הספרייה הלאומית", "国立国会図書館", "Bibliothe\u0300que"],
    [
        (COUNT, 0, 1, 4), (COUNT, 3, 1, 3),
        seen(0, 1, MARC21, titled("aПреступление и наказание :", "bроман /", "cФ. М. Достоевский.",
                                  more=[("264", field(" 1", "c1970"))])),
        # Greek letters with their accents behind them
        seen(1, 1, MARC21, titled("aΟδύσσεια /", "cΟ\u0301μηρος")),
        # Hebrew with points: NFC composes no presentation form, and sorts points by their classes
        seen(2, 1, MARC21, titled("a\ufb2a\u05b8לום /", "cעמוס עוז", more=[("260", field("  ", "cתשס״ב 2002"))])),
        seen(3, 1, MARC21, titled("aか\u3099くもん ｶﾅ /", "c川端康成著")),
        seen(4, 1, MARC21, titled("aE\u0301tude o\u0323\u0302 o\u0302\u0323 q\u0307\u0323", coding=" ")),
        seen(0, 2, UNIMARC,
             unimarc("aКапитанская дочка", "eповесть", "fА. С. Пушкин", "gпослесловие В. Иванова", more=ISBN_FIELD)),
        # MARC-8: Cyrillic, and Greek symbols, which are not read; marks before their letter, and half marks
        seen(0, 3, MARC21,
             titled(b"a\x1b(NpRESTUPLENIE\x1b(B :", b"broman /", b"c\x1b(NdOSTOEWSKIJ\x1b(B.", coding=" ")),
        seen(1, 3, MARC21, titled(b"aThe \x1bga\x1bs-rays, H\x1bb2\x1bsO", coding=" ")),
        seen(3, 3, MARC21, titled(b"a\x1b$1!0@!1A", coding=" ")),
        seen(4, 3, MARC21,
             titled(b"aVi\xf2\xe3et Vi\xe3\xf2et \xa1\xe2od\xe2z \xc7 \xc8 \xebi\xecu \xfan\xfbg a\xe2", coding=" ")),
        # Hangul in its parts, and a letter of four octets
        seen(3, 4, MARC21, titled("a\u1112\u1161\u11ab 📖 𝄞")),
        # nothing that turns text, moves the cursor or is not seen
        seen(4, 4, MARC21,
             titled("aa\u202eb\u2066c\u200fd\u061ce\u200bf\ufeffg\x1b[2J\x07h\x85i\u2028j\tk", "b\x98The \x9cend")),
    ],
    """\
Российская национальная библиотека: 4 found, 3 shown
国立国会図書館: 3 found, 3 shown

  1  Российская национальная…  1970  Преступление и наказание : роман / Ф. М. Достоевский.
  1  Εθνική Βιβλιοθήκη               Οδύσσεια / Όμηρος
  1  הספרייה הלאומית           2002  \u05e9\u05b8\u05c1לום / עמוס עוז
  1  国立国会図書館                  がくもん ｶﾅ / 川端康成著
  1  Bibliothèque                    Étude ộ ộ q\u0323\u0307
  2  Российская национальная…  1999  Капитанская дочка : повесть / А. С. Пушкин ; послесловие В. Иванова ISBN 5-17-012345-6
  3  Российская национальная…        � : roman / �.
  3  Εθνική Βιβλιοθήκη               The �-rays, H�O
  3  国立国会図書館                  �
  3  Bibliothèque                    Việt Việt Łódź ß € i\u0361u n\u0360g a�\u0301
  4  国立国会図書館                  한 📖 𝄞
  4  Bibliothèque                    a�b�c�d�e�f�g�[2J�h�i�j k The end
""",
)

# Directories and leaders that are damaged

TWO = made([("245", BOTH[0]), ("260", BOTH[1])])
BASE = 24 + 2 * 12 + 1


def changed(at, other, octets=TWO):
    return octets[:at] + other + octets[at + len(other) :]


def twice(first, second):
    """Two fields 245, of whose entries the first is that."""
    octets = made([("245", field("10", first)), ("245", field("10", second))])
    return lambda entry: changed(24, entry, octets)


def repeated(size):
    """17 entries of one field of so many octets. With 3,696 they tell of 16 times as many octets as the record has."""
    directory = (b"500" + digits(size + 1, 4) + b"00000") * 17
    leader = b"00000nam a22" + digits(25 + len(directory), 5) + b" a 4500"
    return leader + directory + END + b"x" * size + END + RECORD_END


DAMAGED = (
    ["a"],
    [
        seen(0, number, MARC21, octets)
        for number, octets in enumerate(
            (
                TWO,
                # the entry of 260 reaches behind the end, begins behind it, or has a letter; that of 245 has a letter
                changed(36 + 3, b"0011"),
                changed(36 + 7, b"99999"),
                changed(36 + 7, b"0002x"),
                changed(24 + 3, b"00x2"),
                # both tell of the title; that of 245 reaches into the next field, and that of 260 begins within the
                # title
                changed(36 + 3, TWO[27:36]),
                changed(24 + 3, b"0030"),
                changed(36 + 3, b"001400010"),
                # the first of two titles is lost, empty, or cut by its length
                twice("aLost", "aFound")(b"245000999999"),
                twice("aLost", "aFound")(b"245000000000"),
                twice("aCut in the middle", "aNot shown")(b"245001000000"),
                # no terminator behind the directory, and one too early; none behind a title
                changed(BASE - 1, b" "),
                changed(36, END),
                changed(BASE + len(BOTH[0]), b"!"),
                # the base address: one too small, in letters, behind the end, within the leader
                changed(12, digits(BASE - 1, 5)),
                changed(12, b"0004x"),
                changed(12, b"00999"),
                changed(12, b"00023"),
                # the record's length, the number of indicators and the entry map are no numbers; entries of other
                # lengths than told
                changed(0, b"9x9x9"),
                changed(10, b"xx"),
                changed(20, b"    "),
                changed(20, b"9900"),
                # cut within the data, in the directory, and in the leader
                TWO[: BASE + len(BOTH[0]) + 5],
                TWO[: BASE - 3],
                TWO[:20],
                b"",
                # more indicators than told, none, and a delimiter without a code
                made([("245", b"1 0 " + DELIMITER + b"aDune")]),
                made([("245", DELIMITER + b"aDune" + DELIMITER + DELIMITER + b"bmessiah" + DELIMITER)]),
                # entries that tell of the same octets as often as may be, and of one octet more; nothing but a leader
                repeated(3696),
                repeated(3697),
                b"00024nam a2200024 a 4500",
            ),
            1,
        )
    ],
    """\
   1  a  1965  Dune / Frank Herbert
   2  a        Dune / Frank Herbert
   3  a        Dune / Frank Herbert
   4  a        Dune / Frank Herbert
   5  a  1965  no title, 85 octets
   6  a        Dune / Frank Herbert
   7  a  1965  Dune / Frank Herbert
   8  a        Dune / Frank Herbert
   9  a        Found
  10  a        no title, 69 octets
  11  a        Cut in
  12  a  1965  Dune / Frank Herbert
  13  a        Dune / Frank Herbert
  14  a  1965  Dune / Frank Herbert!
  15  a        no title, 85 octets
  16  a        no record, 85 octets
  17  a        no record, 85 octets
  18  a        no record, 85 octets
  19  a  1965  Dune / Frank Herbert
  20  a  1965  Dune / Frank Herbert
  21  a  1965  Dune / Frank Herbert
  22  a        no title, 85 octets
  23  a        Dune / Frank Herbert
  24  a        no record, 46 octets
  25  a        no record, 20 octets
  26  a        no record, 0 octets
  27  a        Dune
  28  a        Dune messiah
  29  a        no title, 3927 octets
  30  a        no record, 3928 octets
  31  a        no title, 24 octets
""",
)

# Names: wider than 24 columns, of East Asian letters, with controls; an empty one, and none

NAMES = (
    ["Staatsbibliothek zu Berlin", "exactly 24 columns wide.", "国立国会図書館東京本館閲覧室", "ｶﾅ", "cafe\u0301 \u202eevil\x1b[31m",
     ""],
    [(COUNT, target, 1, 1) for target in range(7)]
    + [(COUNT, 0, 2, 7)]
    + [seen(target, 1, XML, b"<r/>") for target in range(7)]
    + [(SEEN, 0, 2, 10, saved.record(XML, b"<r/>")), (SEEN, 6, 3, 10, saved.record(XML, b"<r/>"))],
    """\
Staatsbibliothek zu Berlin: 1 found, 1 shown
Staatsbibliothek zu Berlin set 2: 7 found, 1 shown
exactly 24 columns wide.: 1 found, 1 shown
国立国会図書館東京本館閲覧室: 1 found, 1 shown
ｶﾅ: 1 found, 1 shown
café �evil�[31m: 1 found, 1 shown
: 1 found, 1 shown
#6: 1 found, 1 shown

   1  Staatsbibliothek zu Ber…        XML, 4 octets
   1  exactly 24 columns wide.        XML, 4 octets
   1  国立国会図書館東京本館…         XML, 4 octets
   1  ｶﾅ                              XML, 4 octets
   1  café �evil�[31m                 XML, 4 octets
   1                                  XML, 4 octets
   1  #6                              XML, 4 octets
  10  Staatsbibliothek zu Ber…        XML, 4 octets
  10  #6 set 3                        XML, 4 octets
""",
)

# Names of hearts that U+FE0F makes two columns wide each, and one column by themselves: too wide, and of 24 columns

HEART = "\u2764\ufe0f"
JOINED = (
    [HEART * 15, HEART * 12],
    [seen(target, 1, XML, b"<r/>") for target in range(2)],
    f"""\
  1  {HEART * 11}…         XML, 4 octets
  1  {HEART * 12}        XML, 4 octets
""",
)

# Counts, failures and diagnostics

ANSWERS = (
    ["counts", "refused", "association", "other set", "other format", "later", "no words", "both"],
    [
        (COUNT, 0, 1, 9), (COUNT, 0, 1, 24), (COUNT, 0, 1, 25),
        (FAILED, 1, 1), (DIAG, 1, 1, 0, saved.diagnostic(BIB1, 109, "now\x1bhere")),
        (FAILED, 2, 0), (DIAG, 2, 0, 0, saved.diagnostic(BIB1, 1014)),
        (FAILED, 3, 1), (DIAG, 3, 1, 0, saved.diagnostic(OTHER_SET, 5, "x")),
        (FAILED, 4, 1), (DIAG, 4, 1, 0, saved.external(OTHER_SET, saved.element(b"\x81", b"x"))),
        (COUNT, 5, 1, 30), (DIAG, 5, 1, 0, saved.diagnostic(BIB1, 1)),
        (DIAG, 5, 1, 11, saved.diagnostic(BIB1, 13, "11")),
        (DIAG, 5, 1, 21, saved.diagnostic(BIB1, 2)),
        (FAILED, 6, 1), (DIAG, 6, 1, 0, saved.diagnostic(BIB1, 2000)),
        (COUNT, 7, 1, 0), (FAILED, 7, 1), (DIAG, 7, 1, 0, saved.diagnostic(BIB1, 3)),
        (DIAG, 7, 1, 0, saved.diagnostic(BIB1, 114, "9999")),
        (FAILED, 7, 2),
    ],
    """\
counts: 9 or 24 or 25 found, 0 shown
refused: search refused: 109 Database unavailable (now�here)
association: association refused: 1014 Init/AC: Authentication System error
other set: search refused: condition 5 of 1.2.840.10003.4.2 (x)
other format: search refused: diagnostic in another format
later: 30 found, 0 shown; search: 1 Permanent system error; records from 11: 13 Present request out of range (11); records from 21: 2 Temporary system error
no words: search refused: 2000
both: 0 found, 0 shown; search refused: 3 Unsupported search, 114 Unsupported Use attribute (9999)
both set 2: search refused
""",
)

# Records of other syntaxes, what stands in place of a record, and several at one place

STRING = saved.element(b"\xa0", saved.element(b"\x1b", "Title:\r\n\tDüne\n".encode()))
SEQUENCE = saved.element(b"\xa0", saved.element(b"\x30", saved.integer(b"\x02", 5)))

SYNTAXES = (
    ["a", "b"],
    [
        (COUNT, 0, 1, 9),
        seen(0, 1, SUTRS, "  Title:\n  Dune \x1b[2J\r\n\nAuthor: F. Herbert\n ".encode()),
        seen(0, 2, SUTRS, b"abcdefghi " * 21),
        seen(0, 3, SUTRS, b"abcdefghi " * 20),
        (SEEN, 0, 1, 4, saved.retrieved(SUTRS, STRING)),
        (SEEN, 0, 1, 5, saved.retrieved(SUTRS, SEQUENCE)),
        (SEEN, 0, 1, 6, saved.surrogate(BIB1, 14, "record 6")),
        seen(0, 7, XML, b"<record/>"),
        seen(0, 8, "1.2.840.10003.5.105", b"grs"),
        seen(0, 9, "1.2.840.10003.5.28", TWO),
        # octets of ISO 2709 in another syntax, and cut ones
        seen(0, 10, "1.2.3", TWO),
        seen(0, 11, "1.2.3", TWO[:30]),
        seen(0, 12, MARC21, b"no marc"),
        seen(0, 13, MARC21, made([("008", coded("1990"))])),
        # several at one place, one of them a diagnostic
        seen(1, 13, MARC21, TWO),
        seen(1, 13, XML, b"<record/>"),
        (SEEN, 1, 1, 13, saved.surrogate(OTHER_SET, 7)),
        (SEEN, 1, 1, 14, saved.surrogate(BIB1, 238, "1.2.840.10003.5.10")),
        # a place of nothing but diagnostics
        (SEEN, 1, 1, 15, saved.surrogate(BIB1, 14)), (SEEN, 1, 1, 15, saved.surrogate(BIB1, 17)),
        (COUNT, 1, 1, 15),
        # a record of MARC 21 that is read as UNIMARC
        seen(1, 16, UNIMARC, TWO),
        seen(1, 17, UNIMARC, unimarc("aTitre", "ecomplément", more=[("210", field("  ", "cÉditeur", "dDL 2001")),
                                                                    ("700", field(" |", "aNom"))])),
    ],
    """\
a: 9 found, 12 shown
b: 15 found, 3 shown

   1  a        Title: Dune �[2J Author: F. Herbert
   2  a        """ + "abcdefghi " * 20 + """…
   3  a        """ + ("abcdefghi " * 20).strip() + """
   4  a        Title: Düne
   5  a        record of syntax 1.2.840.10003.5.101, 5 octets
   6  a        not shown: 14 System error in presenting records (record 6)
   7  a        XML, 9 octets
   8  a        record of syntax 1.2.840.10003.5.105, 3 octets
   9  a  1965  Dune / Frank Herbert
  10  a  1965  Dune / Frank Herbert
  11  a        record of syntax 1.2.3, 30 octets
  12  a        no record, 7 octets
  13  a  1990  no title, 79 octets
  13  b        3 different records
               not shown: condition 7 of 1.2.840.10003.4.2
               XML, 9 octets
         1965  Dune / Frank Herbert
  14  b        not shown: 238 Record not available in requested syntax (1.2.840.10003.5.10)
  15  b        2 different records
               not shown: 14 System error in presenting records
               not shown: 17 Record exceeds Maximum-record-size
  16  b        no title, 85 octets
  17  b  2001  Titre : complément / Nom
""",
)

ALL = {"letters": LETTERS, "damaged": DAMAGED, "names": NAMES, "joined": JOINED, "answers": ANSWERS,
       "syntaxes": SYNTAXES}


def files():
    """Each view's name, a saved file of what is known, one of the names alone, the status, and the text that is due."""
    for name, (names, facts, text) in ALL.items():
        failed = any(it[0] == FAILED for it in facts)
        yield name, saved.of_facts(names, facts), saved.of_facts(names, []), 1 if failed else 0, text.encode()
