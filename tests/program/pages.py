#!/usr/bin/env python3
"""Finds what README.md, docs/THEOREMS.md, docs/DESIGN.md, docs/GATE.md and crates/*/CALLING.md name: each definition,
clause, call, crate, file, command, option and make target in back quotes, each link, and what their programs use.

    python3 tests/program/pages.py          (--all also prints what was passed over: texts, values, words of a shell)

- A bare name is one of the crate of the page or of the links in the heading, or else of one below.
- Behind a call, as `parse` (`ok`), stands a clause of that call, or a field of the record that a law returns. Behind a
  record stands a field, behind a crate or a folder a file of it, behind another name the file that declares it.
- In "`Definition`; `parse` (`ok`)" the clause leads to the definition. On the page of a crate some contract of it does.
- Other words in parentheses on such a page are clauses or definitions of the calls beside them.

The status is 1 where a name is not there, or where docs/FILES.md is not as files.py prints it. Names that are wrong, in
sentences of its own, have to be found first."""

import collections
import re
import sys

import files as source_files
from declared import CRATES, TOP, WORDS, Library

FOLDERS = "bench|crates|docs|examples|install|scripts|tests"
PATH = re.compile(r"[\w.*-]*(?:/[\w.*-]*)+|[\w*-]+\.(?:rt|antt|md|py|txt|rows|hex)|HANDLES|Makefile")
LIST = re.compile(r"(?:,|,? and|,? or| \.\.)\s+")
SHELL = ("rt", "cat", "CI=true")

# What the toolchain's library, its crates and the language have.
KIT = {"AllocError", "Ok", "Err", "Some", "None", "Net", "InvalidValue", "true", "u64", "drop", "ensures", "laws"}
KIT |= {"clap", "cc", "rt", "bytes", "anyhow", "json", "unicode_width"}

# Sentences with one wrong name each.
WRONG = (
    ("docs/THEOREMS.md", "It is returned: `AfterNext`; `Framer::next` (`answer`).", "answer"),
    ("docs/THEOREMS.md", "It is returned: `CloseLaws`; `Framer::next` (`after`).", "CloseLaws"),
    ("docs/THEOREMS.md", "It is returned: `StreamLaws`; `Framer::next` (`after`).", "StreamLaws"),
    ("docs/THEOREMS.md", "It is returned: `AfterNext`; `Framer::last` (`after`).", "Framer::last"),
    ("docs/THEOREMS.md", "- `Framer::next` (`after`)\n- It: `AfterNext`; the same (`answer`).", "answer"),
    ("docs/THEOREMS.md", "- `Framer::next` (`after`)\n- It: `StreamLaws`; the same (`after`).", "StreamLaws"),
    ("docs/THEOREMS.md", "It is shown: `EarlyLaws`; law `early_laws` (`quiet`).", "quiet"),
    ("docs/THEOREMS.md", "It is shown: `EarlyLaws` (`quiet`).", "quiet"),
    ("crates/zber/CALLING.md", "- `encode` appends the encoding (`framed`, `written`).", "written"),
    ("crates/zber/CALLING.md", "- `next` returns a message (`AfterLast`).", "AfterLast"),
    ("crates/zber/CALLING.md", "- `next` returns a message (`after`: `StreamLaws`).", "StreamLaws"),
    ("crates/zber/CALLING.md", "- `laws::schedule_laws` has more.", "laws::schedule_laws"),
    ("crates/zber/CALLING.md", "- `parse_pqf` reads a query.", "parse_pqf"),
    ("crates/zber/CALLING.md", "Tests: `zknow_tests` (`elements/framing.rt`, `farming.rt`).", "farming.rt"),
    ("crates/zber/CALLING.md", "```rust\nuse zber::{Framer, Farmer};\n```", "zber::Farmer"),
    ("crates/zplan/CALLING.md", "- `note_answered(first)` notes a reply.", "note_answered(first)"),
    ("crates/zasn/CALLING.md", "With `calls: zasn zbir` it runs.", "calls: zasn zbir"),
    ("docs/DESIGN.md", "1. `Framer::next` (`zber/src/scan.rt`) cuts.", "zber/src/scan.rt"),
    ("docs/DESIGN.md", "- **a rule**: `zber/specs/Spelling.antt`, `Spilling.antt`", "Spilling.antt"),
    ("docs/DESIGN.md", "- **a limit**: `MESSAGES_LIMIT` in `zber/src/framer.rt`", "zber/src/framer.rt"),
    ("docs/DESIGN.md", "- `zbir`: elements.", "zbir"),
    ("README.md", "See `tests/nothing`.", "tests/nothing"),
    ("README.md", "See [a page](docs/NOTHING.md).", "docs/NOTHING.md"),
    ("README.md", "See [a heading](docs/GATE.md#nothing) or [one](docs/GATE.md#by-crate).", "docs/GATE.md#nothing"),
    ("README.md", 'See `docs/GATE.md` ("Nothing") or `docs/GATE.md`, "By crate".', "Nothing"),
    ("README.md", "    make test nothing", "make nothing"),
    ("README.md", "    zmeta run examples/nothing.world", "examples/nothing.world"),
    ("README.md", "`make nothing` and `make test`", "make nothing"),
    ("README.md", "`zmeta sing` and `zmeta show`", "zmeta sing"),
    ("README.md", "`--loud` and `--json`", "--loud"),
)

Span = collections.namedtuple("Span", "text start end line")
Group = collections.namedtuple("Group", "start end heads")
Note = collections.namedtuple("Note", "page line text fault")


class Block:
    """A paragraph, an item, a heading or a row of a page, with its spans and its parentheses."""

    def __init__(self, text, line):
        self.text, self.line = text, line
        self.spans = [Span(" ".join(it[1].split()), it.start(), it.end(), self.line_at(it.start()))
                      for it in re.finditer(r"`([^`]+)`", text)]
        hidden = re.sub(r"`[^`]+`", lambda it: "_" * len(it[0]), text)
        hidden = re.sub(r"\]\([^)]*\)", lambda it: "_" * len(it[0]), hidden)
        self.groups = [Group(it.start(), it.end(), self.list_before(it.start()))
                       for it in re.finditer(r"\([^()]*\)", hidden)]

    def line_at(self, place):
        return self.line + self.text.count("\n", 0, place)

    def list_before(self, end):
        """The spans of the list that ends there."""
        found = []
        for span in reversed([it for it in self.spans if it.end <= end]):
            gap = self.text[span.end:end]
            if gap.strip() and not (found and LIST.fullmatch(gap)):
                break
            found.insert(0, span)
            end = span.start
        return found

    def group_of(self, span):
        return next((it for it in self.groups if it.start < span.start and span.end <= it.end), None)

    def inner(self, group):
        return [it for it in self.spans if group.start < it.start and it.end <= group.end]

    def behind(self, span):
        """The spans behind the `;` that follows the list in which a span stands, up to the end of the sentence."""
        others, found = [it for it in self.spans if it.start >= span.start], []
        for before, it in zip(others, others[1:]):
            gap = self.text[before.end:it.start]
            begins = found or gap.startswith(";")
            if found and re.search(r"(?<!\.)\.\s", gap) or not begins and not LIST.fullmatch(gap):
                break
            found += [it] if begins else []
        return found


def blocks_of(text):
    """The blocks of a page with their kinds and first lines; programs are blocks of code."""
    kind, lines, begin, is_fenced = "text", [], 1, False
    for number, line in enumerate([*text.split("\n"), ""], 1):
        fence = line.startswith("```")
        if is_fenced and not fence:
            lines.append(line)
            continue
        if lines and (fence or not line.strip() or re.match(r"[-#|]|\d+\. |    \S", line)):
            yield kind, "\n".join(lines), begin
            lines = []
        is_fenced ^= fence
        if fence or line.strip():
            if not lines:
                begin = number
                kind = "code" if fence else {"-": "item", "#": "heading", " ": "code"}.get(line[0], "text")
            lines += [line] if not fence or is_fenced else []


def is_call(text):
    return re.fullmatch(r"(?:\w+::)*[a-z_]\w*(?:\(.*\))?\??", text) is not None


def name_of(text):
    """The last name of a call or of a path of names, without arguments."""
    return re.sub(r"[(?].*", "", text).split("::")[-1]


class Page:
    """A page that is looked at, block by block."""

    def __init__(self, library, name, text):
        self.library, self.name, self.text, self.notes = library, name, text, []
        self.own = name.split("/")[1] if name.startswith("crates/") else None
        self.scope = self.scope_of([self.own] if self.own else [])
        self.begin(())

    def begin(self, calls):
        """Begins a part of the page, with the calls in its heading."""
        self.heading, self.intro, self.last, self.part = list(calls), [], [], []
        self.bases = [CRATES / self.own] if self.own else []

    def scope_of(self, crates):
        """The crates to look in: these first, then those below them, then those that the page of a crate names."""
        if not crates:
            return [list(self.library.crates)]
        lower = set().union(*(self.library.below[it] for it in crates)) - set(crates)
        named = set(re.findall(r"\bz\w+", self.text)) & set(self.library.crates) if self.own else set()
        return [crates, sorted(lower), sorted(named - lower - set(crates))]

    def note(self, text, line, fault):
        self.notes.append(Note(self.name, line, text, fault))

    def look(self):
        for kind, text, line in blocks_of(self.text):
            block = Block(text, line)
            if kind == "code":
                self.look_at_code(block)
                continue
            self.look_at_links(block)
            linked = re.findall(r"\(\.\./crates/(\w+)/", text)
            if not self.own and (linked or kind == "heading"):
                self.scope = self.scope_of(linked)
            calls = self.calls_in(block)
            if kind == "heading":
                self.begin(calls)
            elif kind == "item":
                self.bases = [CRATES / self.own] if self.own else []
            self.last = calls or self.last
            self.part += calls
            self.intro = calls if kind == "text" and text.rstrip().endswith(":") else self.intro
            for span in block.spans:
                self.note(span.text, span.line, self.fault_of(block, span))
        return self

    def look_at_links(self, block):
        for it in re.finditer(r"\[[^]]*\]\(([^)\s]+)\)", block.text):
            path, _, anchor = it[1].partition("#")
            file = (TOP / self.name).parent / path if path else TOP / self.name
            fault = "there is no such file" if not file.exists() and "://" not in path else None
            if anchor and file.is_file() and anchor not in anchors_of(file.read_text(encoding="utf-8")):
                fault = "there is no such heading"
            self.note(it[1], block.line_at(it.start()), fault)
        for it in re.finditer(r'`([\w/]+\.md)`,?\s\(?"([^"]+)"', block.text):
            title = " ".join(it[2].split())
            heads = anchors_of((TOP / it[1]).read_text(encoding="utf-8"))
            there = any(head.startswith(anchor_of(title)) for head in heads)
            self.note(title, block.line_at(it.start()), None if there else "there is no such heading")

    def look_at_code(self, block):
        """Looks at the files, the make targets and the `use` lines of a program or a session."""
        form = r"(?<![\w/.-])(?:%s)/[\w./*-]*\w|\bmake(?: [a-z][a-z-]*)+|^use z[^;]+;" % FOLDERS
        for it in re.finditer(form, block.text, re.M):
            line, words = block.line_at(it.start()), re.findall(r"[\w-]+", it[0])
            if words[0] == "make":
                for target in words[1:]:
                    self.note("make " + target, line, self.fault_of_shell(["make", target]))
            elif words[0] == "use":
                crates = [self.library.crates[it] for it in self.library.below.get(words[1], ())]
                for name in words[2:]:
                    there = any(name in it.names or any(it.folder.glob(f"src/{name}.rt")) for it in crates)
                    self.note(f"{words[1]}::{name}", line, None if there else "there is no such name")
            else:
                self.note(it[0], line, self.fault_of_shell([it[0]]))

    def fault_of_shell(self, words):
        if words[0] == "make":
            return next((f"there is no target {it}" for it in words[1:] if it not in self.library.targets), None)
        if words[0] == "zmeta":
            return None if words[1] in self.library.commands else "there is no such command"
        return None if any(TOP.glob(words[0])) or words[0] in self.library.makefile else "there is no such file"

    def calls_in(self, block):
        spans = (it for it in block.spans if is_call(it.text) and not block.group_of(it))
        return [call for span in spans for call in self.calls_of(block, span)]

    def calls_of(self, block, span):
        """The calls that a span may mean. In "`Type::one`, `other`" the other is one of that type, if it has such."""
        *parts, name = re.sub(r"[(?].*", "", span.text).split("::")
        found = self.library.calls.get(name, [])
        if not parts:
            owners = [it.text.split("::")[-2] for it in block.list_before(span.end) if "::" in it.text]
            return [it for it in found if {it.owner, it.file.stem}.intersection(owners[-1:])] or self.nearest(found)
        for part in parts:
            if part in self.library.crates:
                crates = self.library.below[part] if part == "zoom" else {part}
                found = [it for it in found if it.crate in crates]
            else:
                found = [it for it in found if part in (it.owner, it.trait, it.file.stem, it.file.parent.name)]
        if parts == ["laws"] and self.own:
            return [it for it in found if it.crate == self.own]
        return found if parts[0] in self.library.crates else self.nearest(found)

    def nearest(self, found):
        """Those of the first crates of the scope that have some, the public ones if there are such."""
        for crates in self.scope:
            near = [it for it in found if it.crate in crates]
            if near:
                return [it for it in near if it.public] or near
        return []

    def paths_of(self, text):
        """The files and folders that a path means: of the repository, of a crate, or near those that were named."""
        text = text.rstrip("/")
        found = [*TOP.glob(text), *CRATES.glob(text)]
        if not found and text in ("specs", "src", "proofs"):
            found = list(CRATES.glob("*/" + text))
        for base in self.bases if not found else ():
            found = [*base.glob(text)] or [*base.glob("**/" + text)]
            if found:
                break
        for it in found[:1]:
            crate = [CRATES / it.relative_to(CRATES).parts[0]] if CRATES in it.parents else []
            near = [it if it.is_dir() else it.parent, *crate]
            self.bases = near + [it for it in self.bases if it not in near]
        return found

    def fault_of_path(self, block, span):
        """A file that is not there, or that does not declare what stands in front of it."""
        path = span.text.split()[0]
        crates = [it.text for it in block.spans if it.end <= span.start and it.text in self.library.crates]
        self.bases[:0] = [CRATES / it for it in reversed(crates)]
        files = self.paths_of(path)
        if not files:
            return self.fault_of_shell([path])
        group = block.group_of(span)
        heads, paths = group.heads if group else [], block.inner(group) if group else [span]
        if group and not heads:
            heads = [it for it in paths if block.text[it.end:span.start] == ", "]
        if re.search(r"\sin\s+$", block.text[:span.start]):
            heads = block.list_before(block.text.rindex("in", 0, span.start))
        words = [name_of(it.text).split()[0] for it in heads if not PATH.fullmatch(it.text)]
        names = {it for it in words if re.match(r"\w", it)} - {*self.library.crates, "impl"}
        if not names:
            return None
        files += [file for it in paths if it != span and PATH.fullmatch(it.text) for file in self.paths_of(it.text)]
        files = [file for it in files for file in (it.rglob("*.*") if it.is_dir() else [it])]
        texts = [it.read_text(encoding="utf-8") for it in files if it.suffix in (".rt", ".antt", ".py")]
        form = r"(?:fn|struct|enum|trait|const|abbrev|pub|record|data|unfoldable) {0}\b|^{0} = |^ +(?:pub )?{0} :"
        gone = [it for it in sorted(names) if not any(re.search(form.format(it), text, re.M) for text in texts)]
        return f"{gone[0]} is not declared there" if gone and texts else None

    def has(self, name):
        """Whether a name is declared in the crates of the page."""
        return any(name in self.library.crates[it].names for crates in self.scope for it in crates)

    def is_member(self, name):
        """Whether a type, a trait or a record has such a member, or a call such an argument."""
        crates = [self.library.crates[it] for crates in self.scope for it in crates]
        return any(name in it for crate in crates for it in crate.members.values()) or any(
            name in it.arguments for crate in crates for it in crate.calls)

    def fault_of(self, block, span):
        """What is wrong with a span, None if what it names is there, or "" if it is passed over."""
        text, words, group = span.text, span.text.split(), block.group_of(span)
        if text in self.library.crates or name_of(text) in KIT:
            return None
        if text.startswith("--"):
            return None if words[0][2:] in self.library.options else "there is no such option"
        if words[0] in ("make", "zmeta") and len(words) > 1:
            return self.fault_of_shell(words)
        if words[0] == "calls:":
            missing = [it for it in words[1:] if it not in self.library.crates and it not in KIT]
            return f"there is no crate {missing[0]}" if missing else None
        if found := re.match(r"(?:ghost use )?Rattle\.([\w.]*\w)", text):
            path = CRATES / found[1].replace(".", "/")
            return None if path.is_dir() or path.with_name(path.name + ".antt").is_file() else "there is no such module"
        if words[0] in SHELL or re.match(r"[A-Z_]+\.edit$", text):
            return ""
        if PATH.fullmatch(words[0]) or text in ("src", "specs", "proofs"):
            return self.fault_of_path(block, span)
        if group and re.fullmatch(r"[a-z_]\w*", text):
            return self.fault_in_group(block, span, group)
        if is_call(text) or "::" in text:
            return self.fault_of_call(block, span)
        if re.fullmatch(r"[A-Z]\w*", text):
            return self.fault_of_definition(block, span, group)
        if found := re.fullmatch(r"([A-Z]\w*)\.(\w+)", text):
            return None if found[2] in self.library.members(found[1]) else "there is no such field"
        if re.match(r"[A-Z]\w+(?: \{|\(| [a-z])|[a-z]+_\w+ [a-z]", text):
            missing = [it for it in re.findall(r"\b[A-Z]\w*|^\w+", text) if it not in KIT and not self.has(it)]
            return f"there is no {missing[0]}" if missing else None
        if found := re.fullmatch(r"(?:ghost|impl) (\w+)", text):
            return None if self.has(found[1]) or self.is_member(found[1]) else "there is no such name"
        return "" if not text.startswith("*") else self.fault_of_shell(["crates/" + text])

    def fault_of_call(self, block, span):
        *parts, name = re.sub(r"[(?].*", "", span.text).split("::")
        if span.text == "laws::*":
            return None
        if name[0].isupper():
            types = [it for it in parts if it not in self.library.crates]
            there = self.has(name) and all(name in self.library.members(it) for it in types)
            return None if there else "there is no such name"
        calls = self.calls_of(block, span)
        if found := re.search(r"\((.*)\)\??$", span.text):
            given = len([it for it in found[1].split(",") if it.strip()])
            if calls and all(len(it.arguments) != given for it in calls):
                return f"it takes {', '.join(calls[0].arguments) or 'nothing'}"
        if calls:
            return None
        if parts or "(" in span.text:
            return "there is no such call"
        bound = {word for it in block.spans if re.match(r"[A-Z]\w+ [a-z]", it.text) for word in it.text.split()}
        there = name in self.library.commands or name in bound or self.has(name) or self.is_member(name)
        return self.fault_of_statement(block, span) if there else "there is no such name"

    def fault_of_definition(self, block, span, group):
        name = span.text
        if not self.has(name):
            if re.search(r"`%s`(?:,? and `\w+`)? in\s+`[\w/.-]+`" % name, block.text):
                return None
            return "" if re.fullmatch(r"[A-Z]+_[A-Z]+", name) else "there is no such name"
        if group and self.own and self.library.crates[self.own].calls and name in self.library.words:
            if name not in self.library.promised(self.own):
                return "no contract of the crate leads to it"
            before = [it for it in block.inner(group) if block.text[it.end:span.start].split() == [":"]]
            calls = [*self.last, *self.part, *self.intro, *self.heading]
            for it in before:
                if not any(it.text in call.clauses and self.library.leads(call, name, [it.text]) for call in calls):
                    return f"no clause {it.text} leads to it"
        return self.fault_of_statement(block, span)

    def fault_of_statement(self, block, span):
        """In "`Definition`; `call` (`clause`)" one of the clauses leads to the definition."""
        if span.text not in self.library.words or block.group_of(span):
            return None
        meant = []
        for it in block.behind(span):
            if is_call(it.text) and not block.group_of(it):
                labels = [word.text for group in block.groups if it in group.heads for word in block.inner(group)]
                meant += [(call, labels) for call in self.calls_of(block, it)]
        if not meant and re.match(r"(?:[^.]|\.\.)*; the same", block.text[span.end:]):
            meant = [(call, [it.text for it in block.behind(span)]) for call in self.last]
        if not meant or any(self.library.leads(call, span.text, labels) for call, labels in meant):
            return None
        return "no clause that is named behind it leads to it"

    def fault_in_group(self, block, span, group):
        """A word in parentheses: a clause, a field, a definition or a file."""
        name, heads = span.text, group.heads
        last = heads[-1].text if heads else ""
        if last in self.library.crates or PATH.fullmatch(last):
            folders = [CRATES / last] if last in self.library.crates else self.paths_of(last)
            return None if any(any(it.glob(f"**/{name}.*")) for it in folders) else f"{last} has no such file"
        calls = [(it.text, self.calls_of(block, it)) for it in heads if is_call(it.text)]
        for text, meant in (it for it in calls if it[1]):
            if not any(self.is_of(name, it) for it in meant):
                return f"{text} has no such clause"
        types = [it.text for it in heads if self.library.is_type(it.text)]
        if not any(it[1] for it in calls) and types:
            return None if any(self.is_part(name, it) for it in types) else f"{types[-1]} has no such part"
        near = [*self.last, *self.intro, *self.heading, *(self.part if self.own else ())]
        there = any(it[1] for it in calls) or any(self.is_of(name, it) or name in it.arguments for it in near)
        there = there or any(name in self.library.members(it.text) for it in block.spans)
        there = there or not self.calls_in(block) and self.own and self.defines(name)
        there = there or not near and self.has(name) or not self.own and name in self.library.commands
        laws = (it for it in self.calls_of(block, span) if it.file.stem == "laws" or self.name == "docs/DESIGN.md")
        return None if there or any(laws) else "no call beside it has such a clause or definition"

    def is_of(self, name, call):
        """Whether a call has such a clause or, on the page of a crate, a contract that leads to such a definition."""
        if name in self.library.labels(call) or not self.own:
            return name in self.library.labels(call)
        words = (it for it in WORDS.findall(self.library.text_of(call, ())) if it in self.library.words)
        records = (self.library.members(it) for it in words)
        return any(name in it for it in records) or self.defines(name) and self.library.leads(call, name)

    def defines(self, name):
        """Whether the crate of the page, or a member of its family that it hands out, has such a definition."""
        family = [it for it in self.library.below[self.own] if it == self.own or it.startswith(self.own + "_")]
        return any(name in self.library.crates[it].words for it in family)

    def is_part(self, name, kind):
        """Whether a type or its traits have such a member, its calls such a clause, or a record such a field of it."""
        methods = [it for calls in self.library.calls.values() for it in calls if it.owner == kind]
        kinds = {kind, *(it.trait for it in methods if it.trait)}
        fields = (it.get(name, "") for crate in self.library.crates.values() for it in crate.members.values())
        return any(name in self.library.members(it) for it in kinds) or any(
            name in self.library.labels(it) for it in methods) or any(kind in WORDS.findall(it) for it in fields)


def anchor_of(heading):
    """GitHub's name of a heading."""
    plain = re.sub(r"\[([^]]*)\]\([^)]*\)", r"\1", heading).lower()
    return re.sub(r"[^\w\- ]", "", plain).strip().replace(" ", "-")


def anchors_of(text):
    return {anchor_of(it) for it in re.findall(r"^#+ (.*)", re.sub(r"```.*?```", "", text, flags=re.S), re.M)}


def main(words):
    library = Library()
    for page, text, name in WRONG:
        found = [it.text for it in Page(library, page, text).look().notes if it.fault]
        if found != [name]:
            sys.exit(f"pages: not only {name} is found wrong, but {found}: {text}")
    files = [TOP / "README.md", *(TOP / "docs" / it for it in ("THEOREMS.md", "DESIGN.md", "GATE.md"))]
    files += sorted(CRATES.glob("*/CALLING.md"))
    pages = [Page(library, str(it.relative_to(TOP)), it.read_text(encoding="utf-8")) for it in files]
    notes = [it for page in pages for it in page.look().notes]
    faults = [it for it in notes if it.fault]
    for it in faults:
        print(f"pages: {it.page}:{it.line}: {it.text}: {it.fault}", file=sys.stderr)
    for it in notes if "--all" in words else ():
        if it.fault == "":
            print(f"passed over: {it.page}:{it.line}: {it.text}")
    print(f"pages: {sum(it.fault is None for it in notes)} names of {len(files)} pages are there")
    is_due = (TOP / "docs/FILES.md").read_text(encoding="utf-8") != source_files.page()
    if is_due:
        print("pages: docs/FILES.md is due: python3 tests/program/files.py > docs/FILES.md", file=sys.stderr)
    return 1 if faults or is_due else 0


if __name__ == "__main__":
    sys.exit(main(sys.argv[1:]))
