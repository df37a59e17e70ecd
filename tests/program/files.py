"""Prints docs/FILES.md: each source file, by crate, with the first sentence of its first comment.

    python3 tests/program/files.py > docs/FILES.md      (pages.py tells when that is due)"""

import re
import sys
import textwrap

from declared import CRATES, crates

COLUMNS = 100
HEAD = """# Source files

Each file of `crates/*/src`, with the first sentence of its first comment. The first lines of a file
import the definitions that it meets, from `specs/`; its proofs stand in `proofs/`. A crate has what
stands at its `lib.rt`. `docs/DESIGN.md` ("Where to change what") leads from what a user sees to the
file, and `CALLING.md` in the folder of a crate tells how it is called.

`python3 tests/program/files.py > docs/FILES.md` makes this page.
"""


def first_sentence(text):
    """The first sentence of the first comment of a file, or nothing."""
    found = re.match(r"(//!?) (?:.*\n(?:\1 .*\n)*)", text)
    words = " ".join(line[len(found[1]) + 1 :] for line in found[0].splitlines()) if found else ""
    return re.split(r"(?<=\.)\s+(?=[A-Z`])", words, maxsplit=1)[0]


def item(text):
    return textwrap.fill(text, COLUMNS, initial_indent="- ", subsequent_indent="  ", break_long_words=False,
                         break_on_hyphens=False)


def page():
    parts = [HEAD]
    for crate in crates.lines():
        top = CRATES / crate / "src"
        files = sorted(top.rglob("*.rt"), key=lambda it: (it.name != "lib.rt", it.relative_to(top).parts))
        items = [item(f"`{it.relative_to(top)}`: {first_sentence(it.read_text(encoding='utf-8'))}") for it in files]
        parts.append(f"## `{crate}`\n\n" + "\n".join(items) + "\n")
    return "\n".join(parts)


if __name__ == "__main__":
    sys.stdout.write(page())
