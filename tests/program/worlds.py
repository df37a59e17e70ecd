"""Worlds, each with the list that `zmeta run` is to print of it: one world run in many ways, and worlds of no kind in
particular, whose lists are worked out from their entries alone, with moves and without."""

import random

STEPS = (1, 3, 1000)
WINDOWS = (1, 4, 64)
FLAGS = ("-", "c", "n", "cn")

# A little is carried, and much is left for the rounds; and the replies of one connection are released in reverse, once
# they are there.
MOVES = (
    "from a 9, rel a 0, to c 4294967295, rel c 0, rel c 0, from c 20, from c 0, from c 1000, to c 10",
    "to c 1000, rel c 0, from c 1000, to c 1000, rel c 0, from c 1000, "
    "to c 1000, rel c 2, rel c 1, rel c 1, rel c 0, from c 1000",
    "to c 100000, rel c 0, from c 100000, to c 100000, rel c 0, from c 100000, "
    "to c 100000, rel c 2, rel c 0, rel c 0, from c 100000",
)

# Words of titles and questions, of which one begins another; a title may have a second word.
WORDS = ("dune", "dunes", "emma")
SECONDS = ("", *WORDS)

RANDOM = 600


def settings(step, window):
    return f"step {step}\nwindow {window}\n"


def target(name, size, flags, titles):
    """A target, whose entries are numbered and have these titles."""
    entries = [f'rec 1.2.840.10003.5.10 {name}{number}\nfield 4 "{title}"\n' for number, title in enumerate(titles, 1)]
    return f"target {name} {size} {flags}\ndb d\n" + "".join(entries)


def question(name, want, word):
    return f'ask {name} d - {want} "@attr 1=4 {word}"\n'


def three(step, window, flags, size, last, want):
    """Three catalogues, of which the last finds seven records; the size is that of the first two, `last` that of the
    last."""
    titles = {"a": ["emma"], "b": ["dune"], "c": ["dune"] * 7}
    targets = [target(name, last if name == "c" else size, flags, titles[name]) for name in titles]
    return settings(step, window) + "".join(targets) + "".join(question(name, want, "dune") for name in titles)


def schedules(octets_of):
    """Answers of one record, of two, and of all; and none of which one has room."""
    lists = {want: octets_of(name).decode() for want, name in (("10", "short.list"), ("1-2,5-7", "three.list"))}
    for size in (24, 48, 4096):
        for step in STEPS:
            for window in WINDOWS:
                for flags in FLAGS:
                    for want, listed in lists.items():
                        yield three(step, window, flags, size, size, want), listed
    for flags in FLAGS:
        yield three(3, 4, flags, 48, 23, "10"), octets_of("narrow.list").decode()


def moved(octets_of):
    """A world with moves; and with 600 rounds, in which each connection carries one octet each way, and its target
    releases the second of its replies before the first."""
    world, listed = octets_of("short.world").decode(), octets_of("short.list").decode()
    for row in MOVES:
        yield world + row.replace(", ", "\n") + "\n", listed
    yield world + "".join(f"to {name} 1\nrel {name} 1\nfrom {name} 1\n" for name in "abc") * 600, listed


def wants(dice):
    """A number, or ranges that ascend and do not touch: how it is written, and whether it has a position."""
    if dice.randrange(2):
        last = dice.randrange(15)
        return str(last), lambda position: position <= last
    ranges, first = [], dice.randrange(1, 4)
    for _ in range(dice.randrange(1, 4)):
        last = first + dice.randrange(4)
        ranges.append((first, last))
        first = last + dice.randrange(2, 4)
    text = ",".join(f"{first}-{last}" for first, last in ranges)
    return text, lambda position: any(a <= position <= b for a, b in ranges)


def moves(dice, names):
    """200 moves: of some octets, or of one of the first replies."""
    words = (("to", 120), ("rel", 4), ("from", 120))
    picked = [(*dice.choice(words), dice.choice(names)) for _ in range(200)]
    return "".join(f"{word} {name} {dice.randrange(bound)}\n" for word, bound, name in picked)


def any_world(seed):
    """A world of one to four catalogues, with 200 moves and without, and its list."""
    dice = random.Random(seed)
    world, known = settings(dice.randrange(1, 10), dice.randrange(1, 9)), []
    names = "abcd"[: dice.randrange(1, 5)]
    for name in names:
        titles = [(dice.choice(WORDS), dice.choice(SECONDS)) for _ in range(dice.randrange(13))]
        want, word = wants(dice), dice.choice(WORDS)
        # often just enough for a few records
        size = 64 + dice.randrange(4033 if dice.randrange(3) == 0 else 150)
        world += target(name, size, dice.choice(FLAGS), map(" ".join, titles)) + question(name, want[0], word)
        known.append((name, [number for number, it in enumerate(titles, 1) if word in it], want[1]))
    listed = "".join(f'target "{name}" set 1 count {len(found)}\n' for name, found, _ in known)
    for position in range(1, 13):
        for name, found, has in known:
            if position <= len(found) and has(position):
                listed += f'{position} "{name}" 1 rec 1.2.840.10003.5.10 "d" "{name}{found[position - 1]}"\n'
    return [(world, listed), (world + moves(dice, names), listed)]


def made(octets_of):
    yield from schedules(octets_of)
    yield from moved(octets_of)
    for seed in range(RANDOM):
        yield from any_world(seed)
