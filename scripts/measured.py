"""What checks take: the processor's seconds and the memory of each check that runs on this machine, and what docs/GATE.md
says of it."""

import os
import pathlib
import re
import statistics
import threading

GATE = pathlib.Path(__file__).resolve().parent.parent / "docs/GATE.md"
TICKS = os.sysconf("SC_CLK_TCK")
EVERY = 0.5
GB = 1_000_000
# a row of fewer seconds, or a run of fewer rows, says little of the machine
LEAST_DUE, LEAST_ROWS = 30, 8
LATE = 1.1


def kind_of(words, folder):
    """What a check is for: the code of a crate, its code and tests, or wrong bodies."""
    if "rt-edit-" in folder or "mutants-edit-" in folder:
        return "edits"
    return "tests" if b"--test" in words else "code"


def checks():
    """Each check that runs now: its process, its crate, its kind, its seconds of a processor, and its most GB."""
    for it in pathlib.Path("/proc").glob("[0-9]*"):
        try:
            words = (it / "cmdline").read_bytes().split(b"\0")
            if not words[0].endswith(b"/rattle"):
                continue
            name = words[words.index(b"--crate-name") + 1].decode()
            kind = kind_of(words, os.readlink(it / "cwd"))
            stat = (it / "stat").read_text().rpartition(")")[2].split()
            most = re.search(r"VmHWM:\s+(\d+) kB", (it / "status").read_text())
        except (OSError, ValueError, IndexError):
            # it has ended, or is another process
            continue
        seconds = (int(stat[11]) + int(stat[12])) / TICKS
        yield (it.name, stat[19]), (name, kind, seconds, int(most[1]) / GB if most else 0)


class Watch:
    """Watches the checks of this machine from its start to its end."""

    def __init__(self):
        self.found, self.is_over = {}, threading.Event()
        self.watching = threading.Thread(target=self.watch, daemon=True)

    def watch(self):
        while not self.is_over.wait(EVERY):
            self.found.update(checks())

    def __enter__(self):
        self.watching.start()
        return self

    def __exit__(self, *_):
        self.is_over.set()
        self.watching.join()

    def took(self):
        """What each check took: its crate, its kind, its seconds and its GB."""
        return [*self.found.values()]


class Row:
    """A row of the table "By crate": seconds of the code, of code and tests, and of the gate's wrong bodies; how many
    wrong bodies the gate tries and leaves out; and the most GB of a check."""

    KINDS = {"code": 0, "tests": 1, "edits": 4}

    def __init__(self, cells):
        self.cells = cells

    def seconds(self, kind):
        return int(self.cells[self.KINDS[kind]] or 0)


def table():
    """The rows of the table "By crate" in docs/GATE.md, by their crates."""
    page = GATE.read_text(encoding="utf-8").partition("## By crate")[2].partition("\n## ")[0]
    rows = re.finditer(r"^\| `(\w+)` \|(.*)\|$", page, re.M)
    return {it[1]: Row([cell.strip() for cell in it[2].split("|")]) for it in rows}


def sums(took):
    """The seconds of each crate and kind, of what checks took."""
    found = {}
    for name, kind, seconds, _ in took:
        found[name, kind] = found.get((name, kind), 0) + seconds
    return found


def slower(took):
    """How many times as long as in the table checks took on this machine, and those that took a tenth longer still: the
    crate, the kind, the seconds, and those that its row says for this machine. `None` if too few were measured."""
    rows, found = table(), {}
    for (name, kind), seconds in sums(took).items():
        due = rows[name].seconds(kind) if name in rows else 0
        if due >= LEAST_DUE:
            found[name, kind] = seconds, due
    if len(found) < LEAST_ROWS:
        return None
    factor = statistics.median(seconds / due for seconds, due in found.values())
    late = [(*key, seconds, factor * due) for key, (seconds, due) in found.items() if seconds > LATE * factor * due]
    return factor, sorted(late, key=lambda it: it[3] - it[2])
