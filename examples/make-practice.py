#!/usr/bin/env python3
"""Writes practice.world and practice-tuesday.world beside this script: two catalogues of books to practise with, and
one of them a day later.

The records are MARC 21 in ISO 2709, some in UTF-8 and some in MARC-8. To change a book, change it here and run the
script again. Do not edit the files: a record says how many octets each of its fields has.
"""

import pathlib
import unicodedata

SYNTAX = "1.2.840.10003.5.10"
TITLE, ISBN, SUBJECT, YEAR, AUTHOR = 4, 7, 21, 31, 1003
# ANSEL (ANSI/NISO Z39.47): a mark stands before its letter.
ANSEL = {"Ł": 0xA1, "ł": 0xB1, "\u0300": 0xE1, "\u0301": 0xE2, "\u0303": 0xE4, "\u0308": 0xE8, "\u030c": 0xE9}

SOLARIS_ENGLISH = {
    "id": "t001", "marc8": True, "place": "cau", "year": "1987", "language": "eng", "isbn": "0156837501",
    "author": ("Lem, Stanisław", "Stanisław Lem"), "title": [("a", "Solaris /")], "skip": 0,
    "by": "Stanisław Lem ; translated from the French by Joanna Kilmartin and Steve Cox.",
    "from": ("San Diego :", "Harcourt Brace Jovanovich,", "1987, c1970."), "subject": "Science fiction",
}
CIEN_ANOS = {
    "id": "t002", "place": "ag ", "year": "1967", "language": "spa",
    "author": ("García Márquez, Gabriel", "Gabriel García Márquez"), "title": [("a", "Cien años de soledad /")],
    "by": "Gabriel García Márquez.", "from": ("Buenos Aires :", "Editorial Sudamericana,", "1967."),
    "subject": "Magic realism (Fiction)",
}
JANE_EYRE = {
    "id": "t003", "place": "enk", "year": "2006", "language": "eng", "isbn": "9780141441146",
    "author": ("Brontë, Charlotte", "Charlotte Brontë"), "title": [("a", "Jane Eyre /")],
    "by": "Charlotte Brontë ; edited by Stevie Davies.", "from": ("London :", "Penguin,", "2006."),
    "subject": "Governesses, Fiction",
}
DUNE = {
    "id": "t004", "marc8": True, "place": "pau", "year": "1965", "language": "eng",
    "author": ("Herbert, Frank", "Frank Herbert"), "title": [("a", "Dune /")], "by": "Frank Herbert.",
    "from": ("Philadelphia :", "Chilton Books,", "1965."), "subject": "Science fiction",
}
PETIT_PRINCE = {
    "id": "t005", "marc8": True, "place": "nyu", "year": "1943", "language": "fre",
    "author": ("Saint-Exupéry, Antoine de", "Antoine de Saint-Exupéry"), "title": [("a", "Le petit prince /")],
    "skip": 3, "by": "Antoine de Saint-Exupéry.",
    "from": ("New York :", "Reynal & Hitchcock,", "1943."), "subject": "Fairy tales, Fiction",
}
SOLARIS_POLISH = {
    "id": "c001", "place": "pl ", "year": "1961", "language": "pol",
    "author": ("Lem, Stanisław", "Stanisław Lem"), "title": [("a", "Solaris /")], "by": "Stanisław Lem.",
    "from": ("Warszawa :", "Wydawnictwo Ministerstwa Obrony Narodowej,", "1961."), "subject": "Science fiction",
}
SOLITUDE = {
    "id": "c002", "marc8": True, "place": "nyu", "year": "1970", "language": "eng", "isbn": "0060114185",
    "author": ("García Márquez, Gabriel", "Gabriel García Márquez"),
    "title": [("a", "One hundred years of solitude /")],
    "by": "Gabriel García Márquez ; translated from the Spanish by Gregory Rabassa.",
    "from": ("New York :", "Harper & Row,", "1970."), "subject": "Magic realism (Fiction)",
}
GODEL = {
    "id": "c004", "marc8": True, "place": "nyu", "year": "1979", "language": "eng", "isbn": "0465026850",
    "author": ("Hofstadter, Douglas R.", "Douglas R. Hofstadter"),
    "title": [("a", "Gödel, Escher, Bach :"), ("b", "an eternal golden braid /")], "by": "Douglas R. Hofstadter.",
    "from": ("New York :", "Basic Books,", "1979."), "subject": "Artificial intelligence", "form": "0",
}
SEARCHING = {
    "id": "c005", "place": "mau", "year": "1973", "language": "eng", "isbn": "020103803X",
    "author": ("Knuth, Donald E.", "Donald E. Knuth"), "skip": 4,
    "title": [("a", "The art of computer programming."), ("n", "Volume 3,"), ("p", "Sorting and searching /")],
    "by": "Donald E. Knuth.", "from": ("Reading, Mass. :", "Addison-Wesley,", "1973."),
    "subject": "Computer programming", "form": "0",
}
PETIT_PRINCE_CORRECTED = PETIT_PRINCE | {"by": "Antoine de Saint-Exupéry ; avec dessins par l'auteur."}
DUNE_MESSIAH = DUNE | {
    "id": "t006", "place": "nyu", "year": "1969", "title": [("a", "Dune messiah /")],
    "from": ("New York :", "Putnam,", "1969."),
}

TOWN = [SOLARIS_ENGLISH, CIEN_ANOS, JANE_EYRE, DUNE, PETIT_PRINCE]
COLLEGE = [SOLARIS_POLISH, SOLITUDE, JANE_EYRE, GODEL, SEARCHING]
# one record is corrected, and one is new
TUESDAY = [SOLARIS_ENGLISH, CIEN_ANOS, JANE_EYRE, DUNE, PETIT_PRINCE_CORRECTED, DUNE_MESSIAH]


def in_marc8(text):
    octets, letter, marks = bytearray(), b"", b""
    for c in unicodedata.normalize("NFD", text):
        octet = bytes([ANSEL[c]]) if c in ANSEL else c.encode("ascii")
        if unicodedata.combining(c):
            marks += octet
        else:
            octets += marks + letter
            letter, marks = octet, b""
    return bytes(octets + marks + letter)


def fields_of(book):
    """The fields of a book: a tag with its text, or with indicators and subfields."""
    form = book.get("form", "1")
    yield "001", book["id"]
    yield "008", f"260101s{book['year']}    {book['place']}           000 {form} {book['language']} d"
    if "isbn" in book:
        yield "020", ("  ", [("a", book["isbn"])])
    yield "100", ("1 ", [("a", book["author"][0])])
    yield "245", (f"1{book.get('skip', 0)}", [*book["title"], ("c", book["by"])])
    yield "260", ("  ", [*zip("abc", book["from"])])
    yield "650", (" 0", [("a", book["subject"])])


def record_of(book):
    """The book as a record of ISO 2709: a leader of 24 octets, a directory, and the fields."""
    encode = in_marc8 if book.get("marc8") else str.encode
    directory, data = b"", b""
    for tag, field in fields_of(book):
        if isinstance(field, str):
            octets = field.encode() + b"\x1e"
        else:
            parts = [b"\x1f" + code.encode() + encode(text) for code, text in field[1]]
            octets = field[0].encode() + b"".join(parts) + b"\x1e"
        directory += f"{tag}{len(octets):04}{len(data):05}".encode()
        data += octets
    base = 24 + len(directory) + 1
    leader = f"{base + len(data) + 1:05}nam {' ' if book.get('marc8') else 'a'}22{base:05} a 4500"
    return leader.encode() + directory + b"\x1e" + data + b"\x1d"


def plain(text):
    """The text without its diacritics, as people type it."""
    found = "".join(c for c in unicodedata.normalize("NFD", text) if not unicodedata.combining(c))
    return found.replace("ł", "l").replace("Ł", "L")


def quoted(octets):
    return b'"' + octets.replace(b"\\", b"\\\\").replace(b'"', b'\\"') + b'"'


def lines_of(name, books):
    yield f"target {name} 65536 cn".encode()
    yield b"db books"
    for book in books:
        yield f"rec {SYNTAX} ".encode() + quoted(record_of(book))
        title = " ".join(text for _, text in book["title"]).strip(" /:")
        texts = [(TITLE, title), (AUTHOR, book["author"][1]), (ISBN, book.get("isbn", "")), (YEAR, book["year"]),
                 (SUBJECT, book["subject"])]
        for use, text in texts:
            for spelling in dict.fromkeys([text, plain(text)]):
                if spelling:
                    yield f"field {use} ".encode() + quoted(spelling.encode())


def main():
    here = pathlib.Path(__file__).parent
    monday = [*lines_of("town", TOWN), b"", *lines_of("college", COLLEGE)]
    (here / "practice.world").write_bytes(b"\n".join(monday) + b"\n")
    (here / "practice-tuesday.world").write_bytes(b"\n".join(lines_of("town", TUESDAY)) + b"\n")


main()
