"""The facts that pages are printed of: catalogues for practice, records of strangers, and many records."""

import os
import re

from marc_made import field, made
from saved import BIB1, COUNT, DIAG, FAILED, MARC21, SEEN, SUTRS, diagnostic, of_facts, record, surrogate

ROOT = os.path.dirname(os.path.dirname(os.path.dirname(os.path.abspath(__file__))))
HEADING = "Novels, 28 November"

ELEMENTS = """html head meta title style body main h1 h2 section div table thead tbody tr th td p ul li meter strong
details summary""".split()
ATTRIBUTES = "lang charset http-equiv name content class id scope value max role tabindex aria-labelledby".split()

# what strangers put into a name, a title and other places
HOSTILE = (
    b"<script>ran = 1</script>",
    b'"onload="ran = 1" x="',
    b"' onmouseover='ran = 1",
    b"]]><img src=x onerror=ran=1>",
    b"</td></table></main></style><svg onload=ran=1>",
    b"&lt;b&gt; &amp;amp; &#x3c;",
    b"a \xe2\x80\xaeb \xe2\x81\xa6c \xe2\x80\x8fd \xd8\x9ce",
    b"overlong \xc0\xbcscript\xc0\xbe \xe0\x80\xbc \xf0\x80\x80\xbc",
    b"nul \x00 escape \x1b[31m delete \x7f",
    b"<!-- --!> <![CDATA[ <? <plaintext> <template>",
    b"javascript:ran=1 data:text/html,ran",
)
STRANGE_HEADING = "</title></h1><script>ran = 1</script>\u202e & \u2066'\""
# pieces of these, as the page shows them
PIECES = (
    "<script>ran = 1</script>",
    '"onload="ran = 1" x="',
    "' onmouseover='ran = 1",
    "]]><img src=x onerror=ran=1>",
    "</td></table></main></style><svg onload=ran=1>",
    "&lt;b&gt; &amp;amp; &#x3c;",
    "<!-- --!> <![CDATA[ <? <plaintext> <template>",
    "javascript:ran=1 data:text/html,ran",
)
# characters that no page has
UNSEEN = "\u202e\u2066\u200f\u061c\u200b\ufeff\x00\x1b\x7f"


def write(path, names, facts):
    with open(path, "wb") as file:
        file.write(of_facts(names, facts))


def book(number, title, author, year, isbn="", coding="a"):
    """A record of MARC 21."""
    fields = [("001", b"%06d" % number), ("008", f"260101s{year:4}    enk           000 1 eng d".encode())]
    if isbn:
        fields.append(("020", field("  ", "a" + isbn)))
    fields += [("100", field("1 ", "a" + author)), ("245", field("10", "a" + title + " /", "c" + author + "."))]
    fields += [("260", field("  ", "aLondon :", "bHouse,", f"c{year}")), ("650", field(" 0", "aFiction"))]
    return record(MARC21, made(fields, coding), "books")


def practice_books():
    """The records of the town's catalogue of examples/practice.world, as they stand there."""
    with open(os.path.join(ROOT, "examples/practice.world"), "rb") as file:
        town = file.read().split(b"\ntarget ")[0]
    return [it.replace(b'\\"', b'"') for it in re.findall(rb'^rec 1\.2\.840\.10003\.5\.10 "(.*)"$', town, re.M)]


def write_practice(path):
    """Three catalogues: one has all records; of the next one is refused, two that differ stand at a position, and
    others are missing; one refuses the search."""
    facts = [(COUNT, 0, 1, 5), (COUNT, 1, 1, 9), (FAILED, 2, 1)]
    facts += [(SEEN, 0, 1, at, record(MARC21, it, "books")) for at, it in enumerate(practice_books()[:5], 1)]
    facts += [
        (SEEN, 1, 1, 1, book(1, "Solaris", "Lem, Stanisław", "1961")),
        (SEEN, 1, 1, 2, book(2, "One hundred years of solitude", "García Márquez, Gabriel", "1970", "0060114185")),
        (SEEN, 1, 1, 3, book(3, "Jane Eyre", "Brontë, Charlotte", "1847")),
        (SEEN, 1, 1, 3, book(3, "Jane Eyre", "Brontë, Charlotte", "2006", "9780141441146")),
        (SEEN, 1, 1, 4, surrogate(BIB1, 238, MARC21, "books")),
        (DIAG, 1, 1, 5, diagnostic(BIB1, 13, "5-9")),
        (DIAG, 2, 1, 0, diagnostic(BIB1, 109, "books")),
    ]
    write(path, ["town", "college", "abbey"], facts)


def stranger(text, coding):
    """A record of MARC 21 that has these octets wherever a text is."""
    free = text.replace(b"\x1d", b"").replace(b"\x1e", b"").replace(b"\x1f", b"")
    fields = [("020", field("  ", b"a" + free)), ("100", field("1 ", b"a" + free))]
    fields += [("245", field("10", b"a" + free, b"c" + free)), ("260", field("  ", b"c" + free))]
    fields += [("<x>", field('">', b"<" + free))]
    return record(MARC21, made(fields, coding), "books")


def write_strangers(path):
    """A catalogue whose records, name and diagnostics have what could become markup; and texts of it."""
    facts = [(COUNT, 0, 1, len(HOSTILE))]
    for at, text in enumerate(HOSTILE, 1):
        facts += [(SEEN, 0, 1, at, stranger(text, "a")), (SEEN, 0, 2, at, stranger(text, " "))]
        facts += [(SEEN, 0, 3, at, record(SUTRS, text, "books"))]
    facts += [(DIAG, 0, 1, 0, diagnostic(BIB1, 109, HOSTILE[0].decode()))]
    write(path, [HOSTILE[4].decode(), HOSTILE[0].decode()], facts)


def write_large(path, count):
    """A catalogue of so many records."""
    facts = [(COUNT, 0, 1, count)]
    for it in range(1, count + 1):
        title = f"The {it}th voyage of the ship Argo, with an account of the islands"
        facts.append((SEEN, 0, 1, it, book(it, title, f"Author {it % 997}, Some", str(1800 + it % 200), f"{it:010}")))
    write(path, ["city library"], facts)
