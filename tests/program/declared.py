"""What the repository declares, for pages.py: calls with their contracts, types, definitions, commands and targets."""

import collections
import functools
import pathlib
import re
import sys

TOP = pathlib.Path(__file__).resolve().parents[2]
sys.path.insert(0, str(TOP / "scripts"))
import crates  # noqa: E402

CRATES = TOP / "crates"
WORDS = re.compile(r"[^\W\d][\w']*")

ITEM = re.compile(r"(?:pub(?:\(\w+\))? )?(struct|enum|trait|type|const|static) (\w+)")
CALL = re.compile(r"( *)(pub )?(?:pub\(\w+\) )?(?:const )?fn (\w+)")
CLAUSE = re.compile(r"(?:ensures|requires) (\w*)")
MEMBER = re.compile(r"    (?:pub(?:\(\w+\))? )?(?:(?:ghost|type|const) )?(\w+)(?=[:,({ ;])")

Call = collections.namedtuple("Call", "name owner trait crate file public arguments clauses")


class Crate:
    """What a crate declares: calls, names with their files, members of types, and the words of each definition."""

    def __init__(self, folder):
        self.name, self.folder, self.calls = folder.name, folder, []
        self.names, self.members = collections.defaultdict(set), collections.defaultdict(dict)
        self.words = collections.defaultdict(set)
        for file in sorted(folder.glob("src/**/*.rt")):
            self.read_code(file, file.read_text(encoding="utf-8").split("\n"))
        for file in sorted(folder.glob("specs/**/*.antt")):
            self.read_definitions(file, file.read_text(encoding="utf-8").split("\n"))

    def read_code(self, file, lines):
        owner = trait = holder = None
        for number, line in enumerate(lines):
            if not line or line.lstrip().startswith("//"):
                continue
            if line[0] in "psetc" and (item := ITEM.match(line)):
                holder = item[2]
                self.names[holder].add(file)
                owner, trait = (holder, holder) if item[1] == "trait" else (None, None)
            elif line.startswith("impl"):
                trait, owner = implemented(line)
                holder = owner
            elif line.startswith("}"):
                owner = trait = holder = None
            if "fn " in line and (call := CALL.match(line)):
                self.names[call[3]].add(file)
                clauses = clauses_of(lines[number:number + 60], len(call[1]))
                self.calls.append(Call(call[3], owner, trait, self.name, file, bool(call[2] or trait),
                                       arguments_of(lines[number:number + 15]), clauses))
            elif holder and line[4:5].strip() and (found := MEMBER.match(line)):
                self.members[holder][found[1]] = line
                if found[1][0].isupper():
                    self.names[found[1]].add(file)

    def read_definitions(self, file, lines):
        holder = None
        for line in (it.split("--")[0] for it in lines):
            if found := re.match(r"\s*(?:\w+ )*(?:record|data|abbrev|unfoldable|module) (?:\w+ )*([^\s:(){}]+)", line):
                holder = found[1]
            elif found := re.match(r"(?:pub )?([\w']+) :", line):
                holder = found[1]
            elif holder and (found := re.match(r"\s+(?:pub )?((?:[\w']+ )+):(.*)", line)):
                for name in found[1].split():
                    self.members[holder][name] = found[2]
                    self.names[name].add(file)
            if holder:
                self.names[holder].add(file)
                self.words[holder].update(WORDS.findall(line))


def implemented(line):
    """The trait, if any, and the type of a line that begins an impl."""
    text, depth = "", 0
    for sign in line[4:].replace("->", ""):
        depth += sign == "<"
        text += sign if not depth else ""
        depth -= sign == ">"
    words = [it.split("::")[-1] for it in re.sub(r"[{&]|'\w+|\bmut\b|\bwhere\b.*", " ", text).split()]
    return (words[0], words[2]) if words[1:2] == ["for"] else (None, words[0])


def arguments_of(lines):
    """The names of the arguments of a call, besides self."""
    text = " ".join(lines)
    text = text[text.index("(", text.index("fn ")):].replace("->", "")
    found, part, depth = [], "", 0
    for number, sign in enumerate(text):
        depth -= sign in ")]>}"
        if not depth and number:
            break
        if depth == 1 and sign == ",":
            found.append(part)
            part = ""
        elif depth:
            part += sign
        depth += sign in "([<{"
    names = [re.sub(r"^\s*(?:&|mut |'\w+ )*", "", it).split(":")[0].strip() for it in [*found, part]]
    return [it for it in names if it and it != "self"]


def clauses_of(lines, indent):
    """The texts of the clauses of a call by their labels; that of "" has those without one."""
    clauses, label = collections.defaultdict(str), None
    for number, line in enumerate(lines):
        text = line.lstrip()
        is_outer = len(line) - len(text) <= indent
        if is_outer and (text[:1] in ("", "{", "}") or text[-1:] == "{" or number and CALL.match(line)):
            break
        if found := CLAUSE.match(text):
            label = found[1]
        if label is not None:
            clauses[label] += line + "\n"
    return dict(clauses)


class Library:
    """All that the repository has and a page may name."""

    def __init__(self):
        self.crates = {it.name: Crate(it) for it in sorted(CRATES.iterdir()) if it.is_dir()}
        self.below = self.crates_below()
        self.makefile = (TOP / "Makefile").read_text(encoding="utf-8")
        self.targets = set(" ".join(re.findall(r"^([a-z][a-z -]*):", self.makefile, re.M)).split())
        forms = "".join(it.read_text(encoding="utf-8") for it in sorted((CRATES / "zmeta_args/src").glob("*.rt")))
        self.commands = set(re.findall(r'name: "([a-z]+)"', forms)) | {"help"}
        self.options = set(re.findall(r'id: "([a-z][a-z0-9-]*)"', forms)) | {"help", "version"}
        self.calls, self.words, self.names = collections.defaultdict(list), collections.defaultdict(set), set()
        for crate in self.crates.values():
            self.names.update(crate.names)
            for it in crate.calls:
                self.calls[it.name].append(it)
            for name, words in crate.words.items():
                self.words[name] |= words

    def crates_below(self):
        """Each crate with all that stand below it, by crates.txt."""
        rows = crates.rows()
        return {it: crates.below([it], rows) | {it} for it in self.crates}

    @functools.cache
    def members(self, name):
        """The members of the types, traits and records of a name, with the lines that declare them."""
        return {key: line for it in self.crates.values() for key, line in it.members.get(name, {}).items()}

    def is_type(self, name):
        return name[:1].isupper() and any(name in it.members or name in it.words for it in self.crates.values())

    def contracts(self, call):
        """The call, and that of the trait for which it is."""
        others = self.calls[call.name] if call.trait and call.trait != call.owner else ()
        return [call, *(it for it in others if it.owner == call.trait)]

    def labels(self, call):
        """The labels of its clauses, and the fields of the records in those without one: of laws."""
        found = set()
        for it in self.contracts(call):
            found.update(label for label in it.clauses if label)
            for word in WORDS.findall(it.clauses.get("", "")):
                found.update(self.members(word) if word in self.words else ())
        return found

    def text_of(self, call, labels):
        """Its clauses with these labels and those without one, or all if it has no such labels."""
        clauses = [it for contract in self.contracts(call) for it in contract.clauses.items()]
        known = self.labels(call).intersection(labels)
        lines = [line for it in {call.owner, call.trait} for line in self.members(it).values()]
        clauses += [("", line) for line in lines if "ghost" in line]
        return " ".join(text for label, text in clauses if not known or not label or label in known)

    @functools.cache
    def reach(self, text, crate):
        """All definitions to which a text of a crate leads."""
        table, found = self.words_below(crate), set()
        left = table.keys() & WORDS.findall(text)
        while left:
            word = left.pop()
            found.add(word)
            left |= table[word] - found
        return found

    @functools.cache
    def words_below(self, crate):
        """The definitions that each definition of a crate and of those below it names."""
        tables = [self.crates[it].words for it in self.below[crate]]
        names, table = set().union(*tables), collections.defaultdict(set)
        for it in tables:
            for name, words in it.items():
                table[name] |= words & names
        return table

    def leads(self, call, name, labels=()):
        return name in self.words and name in self.reach(self.text_of(call, labels), call.crate)

    @functools.cache
    def promised(self, crate):
        """All definitions to which the contracts of a crate lead."""
        return self.reach(" ".join(self.text_of(it, ()) for it in self.crates[crate].calls), crate)
