#!/usr/bin/env python3
"""Reads the pages that `--html` prints by Python's HTML parser, and compares them with the JSON of the same facts: each
record has its row, with its year, title, author and ISBN, and with its lines of `--fields` behind the title. The rows
of catalogues add up, and the rows of 50 positions are a block. A page has no element that runs or loads something,
and its policy names its style sheet. Some pages are worked out by hand, and what is marked in the rows of different
records.

    ZMETA=PROGRAM python3 tests/program/html_pages.py"""

import base64
import hashlib
import html.parser
import json
import os
import shutil
import subprocess
import sys
import tempfile

from saved import COUNT, SEEN, SUTRS, of_facts, record

FILES = os.path.join(os.path.dirname(os.path.abspath(__file__)), "files")
HEADING = """<script>alert("1")</script> & 'two' \u202e"""
# what is printed of each of these
ASKED = (
    ["run", "marc.world"],
    ["run", "three.world"],
    ["run", "refusing.world"],
    ["join", "record.saved", "unlike.saved"],
    ["join", "two-catalogues.saved", "two-catalogues.saved"],
    ["join", "kinds.saved", "kinds.saved"],
    ["join", "copies.saved", "copies.saved"],
    ["join", "readers.saved"],
    ["replay", "unreached.trace"],
    ["join", "empty", "empty"],
    ["join", "many.saved", "many.saved"],
)
# words that print the page of one record, and its heading
HEADED = (
    (["join", "--html", "count.saved", "record.saved"], "What the catalogues answered"),
    (["join", "count.saved", "--heading", "x y", "record.saved", "--html"], "x y"),
    (["new", "count.saved", "record.saved", "--html"], "What is new, changed or gone"),
    (["new", "count.saved", "--heading", "x y", "record.saved", "--html"], "x y"),
)
# how many records the last has, each at a position of its own, and how many rows are in each block
MANY, BLOCKS = 120, [50, 50, 20]
# What is wanted behind the style sheet of these. In `readers` one of three catalogues has records, of which two differ
# and one is not shown; two refuse, and a fourth has a record. In `unreached` the same two refuse, and the fourth is not
# reached.
WHOLE = (
    (["join", "readers.saved"], "readers.html"),
    (["replay", "unreached.trace"], "unreached.html"),
)
WHOLE_HEADING = "dune & <others>"
# What is marked in the rows of `marks`. At position 1 two records differ in all but their copies. At 2 the first two
# of three have the same title, at 3 the last two. At 4 a note differs, at 5 the copies, at 6 the database alone. At 7
# there is one record. Of each row: `x` for each cell that is marked, from the position to the copies, and for the
# lines of all fields; `.` for each that is not. Then the mark of the row.
MARKED = """\
..xxxx.x one of 2 different records: year, title, author, ISBN, fields
..xxxx.x one of 2 different records: year, title, author, ISBN, fields
...x...x one of 3 different records: title, fields
...x...x one of 3 different records: title, fields
...x...x one of 3 different records: title, fields
...x...x one of 3 different records: title, fields
...x...x one of 3 different records: title, fields
...x...x one of 3 different records: title, fields
.......x one of 2 different records: fields
.......x one of 2 different records: fields
......x. one of 2 different records: copies
......x. one of 2 different records: copies
........ one of 2 different records
........ one of 2 different records
........ 
"""
TAGS = set(
    "html head meta title style body main h1 h2 section div table thead tbody tr th td p ul li meter strong details "
    "summary".split()
)


class Page(html.parser.HTMLParser):
    """Of each class of rows the texts of their cells, and the lines that a reader opens; the heading, the style sheet,
    and the tags and attributes that stand there."""

    def __init__(self, text):
        super().__init__(convert_charrefs=True)
        self.tags, self.names, self.texts, self.policy = set(), set(), {"h1": "", "title": "", "style": ""}, ""
        self.records, self.catalogues, self.lines, self.open, self.row, self.whole = [], [], [], [], None, ""
        self.blocks = []
        self.feed(text)
        self.close()

    def handle_starttag(self, tag, attrs):
        self.tags.add(tag)
        self.names |= {name for name, _ in attrs}
        said = dict(attrs)
        if said.get("http-equiv") == "Content-Security-Policy":
            self.policy = said["content"]
        if tag == "meta":
            return
        self.open.append(tag)
        if tag == "tbody":
            self.blocks.append(0)
        elif tag == "tr":
            self.row = []
            if "class" in said:
                self.blocks[-1] += 1
                (self.records if said["class"] in ("record", "differs") else self.catalogues).append(self.row)
        elif tag in ("td", "th"):
            self.row.append("")
        elif tag == "p":
            self.whole = ""
        elif tag == "li" and len(self.row) == 7 and self.records:
            self.lines.append("")

    def handle_endtag(self, tag):
        if not self.open or self.open.pop() != tag:
            raise ValueError(f"{tag} ends what it does not begin")
        if tag == "p":
            if not self.whole.endswith("\n"):
                raise ValueError(f"no line feed ends {self.whole!r}")
            self.lines += self.whole[:-1].split("\n")

    def handle_data(self, text):
        if self.open and self.open[-1] in self.texts:
            self.texts[self.open[-1]] += text
        elif "p" in self.open:
            self.whole += text
        elif "li" in self.open and len(self.row) == 7 and self.records:
            self.lines[-1] += text
        elif "tr" in self.open and "details" not in self.open:
            self.row[-1] += text


def shown(zmeta, room, words, *more):
    ran = subprocess.run([zmeta, *words, *more], capture_output=True, cwd=room, timeout=120, check=False)
    return ran.returncode, ran.stdout.decode(), ran.stderr.decode()


def records_of(lines):
    """Each record of lines of JSON, with its place; other things that stand at a position, too."""
    for said in map(json.loads, lines.splitlines()):
        if said["type"] == "conflict":
            yield from ({**said, **it} for it in said["records"])
        elif "position" in said:
            yield said


def fault_of_rows(page, records):
    if len(page.records) != len(records):
        return f"{len(page.records)} rows, and {len(records)} records"
    for row, said in zip(page.records, records):
        place = str(said["position"]), said.get("catalogue") or f"#{said['catalogueNumber']}"
        if row[0] != place[0] or not row[1].startswith(place[1]):
            return f"the row {row} stands for {said}"
        wanted = [said.get("year", ""), said.get("title", row[3]), said.get("author", ""), said.get("isbn", "")]
        if row[2:6] != wanted:
            return f"the row {row} has other fields than {wanted}"
    return None


def fault_of_catalogues(page):
    """What is found is shown, refused or missing."""
    for row in page.catalogues:
        found, *parts = row[1:5]
        if found.isdecimal() and int(found) != sum(map(int, parts)) and parts[2] != "0":
            return f"the row {row} does not add up"
        if not found.isdecimal() and parts[2]:
            return f"the row {row} has a number of missing records"
    return None


def fault_of_lines(page, view):
    """Each line that a reader opens, and each copy, stands in the view of whole records, in order."""
    lines = iter(it.strip() for it in view.splitlines())
    for line in page.lines:
        if line.strip() not in lines:
            return f"the view of whole records has no {line!r} here"
    return None


def fault_of(zmeta, room, words):
    status, text, told = shown(zmeta, room, words, "--html", "--heading", HEADING)
    due, lines, said = shown(zmeta, room, words, "--json")
    if (status, told) != (due, said):
        return f"{status} {told}, and {due} {said} with --json"
    if not text:
        return None if not lines else "there is no page"
    page = Page(text)
    digest = base64.b64encode(hashlib.sha256(page.texts["style"].encode()).digest()).decode()
    if not text.startswith("<!doctype html>") or page.open or page.tags - TAGS:
        return f"the page has {page.tags - TAGS} or open elements {page.open}"
    if any(name.startswith("on") or name in ("src", "href", "style") for name in page.names):
        return f"the page has attributes that run or load: {page.names}"
    if page.policy != f"default-src 'none'; style-src 'sha256-{digest}'":
        return f"the policy is {page.policy}, and the style sheet's sum is {digest}"
    if page.texts["h1"] != page.texts["title"] or page.texts["h1"] != HEADING.replace("\u202e", "\ufffd"):
        return f"the heading is {page.texts['h1']!r}"
    if "many.saved" in words and page.blocks[1:] != BLOCKS:
        return f"{MANY} records stand in blocks of {page.blocks[1:]}"
    view = shown(zmeta, room, words, "--fields")[1]
    return fault_of_rows(page, [*records_of(lines)]) or fault_of_catalogues(page) or fault_of_lines(page, view)


def marked_in(text):
    """What is marked in the rows of the table of records."""
    found = ""
    for row in text.split('<tbody role="rowgroup">')[-1].split("<tr ")[1:]:
        flags = [*(it.startswith('class="other"') for it in row.split("<td ")[1:]), '<summary class="other">' in row]
        mark = row.partition("<strong>")[2].partition("</strong>")[0]
        found += "".join(".x"[it] for it in flags) + f" {mark}\n"
    return found


def faults_by_hand(zmeta, room):
    """What is not as it should be of the pages that are worked out by hand."""
    for words, name in WHOLE:
        _, text, _ = shown(zmeta, room, words, "--html", "--heading", WHOLE_HEADING)
        before, _, rest = text.partition("<style>")
        found = rest.partition("</style>")[2]
        with open(os.path.join(room, name), encoding="utf-8") as file:
            due = file.read()
        if found != due or not before.startswith('<!doctype html><html lang="en"><head>'):
            yield f"page of {' '.join(words)}: {before[:40]} and behind its style sheet {found}"
    found = marked_in(shown(zmeta, room, ["join", "marks.saved"], "--html")[1])
    if found != MARKED:
        yield f"page of marks.saved: what is marked is\n{found}"


def fault_of_heading(zmeta, room, words, heading):
    status, text, told = shown(zmeta, room, words)
    page = Page(text)
    found = status, told, page.texts["h1"], page.texts["title"], len(page.records)
    return None if found == (0, "", heading, heading, 1) else f"{found}"


def faults(zmeta, room):
    """What is not as it should be of the pages."""
    yield from faults_by_hand(zmeta, room)
    facts = [(COUNT, 0, 1, MANY), *((SEEN, 0, 1, it, record(SUTRS, b"%d" % it, "books")) for it in range(1, MANY + 1))]
    with open(os.path.join(room, "many.saved"), "wb") as file:
        file.write(of_facts(["city library"], facts))
    for words in ASKED:
        fault = fault_of(zmeta, room, words)
        if fault:
            yield f"page of {' '.join(words)}: {fault}"
    for words, heading in HEADED:
        fault = fault_of_heading(zmeta, room, words, heading)
        if fault:
            yield f"heading of {' '.join(words)}: {fault}"


def main():
    with tempfile.TemporaryDirectory() as room:
        shutil.copytree(FILES, room, dirs_exist_ok=True)
        found = [*faults(os.path.abspath(os.environ["ZMETA"]), room)]
    print(f"{len(ASKED)} pages", *found, sep="\n")
    return 1 if found else 0


if __name__ == "__main__":
    sys.exit(main())
