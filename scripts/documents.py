#!/usr/bin/env python3
"""Looks that the documents say what the code says, or writes what can be written: scripts/documents.py [--write]
[--seconds LOG] [WORD ..]

- What is printed stands in a document between a line `<!-- printed: NAME -->` and a line `<!-- end -->`. It comes from
  crates.txt with its comments, the heads of the crates' root files, what lies in their folders, the tables of
  `refusal_texts`, and scripts/believed.py. The seconds of docs/GATE.md's table are those that stand there (`--seconds`
  says how they change).
- Each link leads to a file that stands, and one to a line (`#L12`) to that of the function that it names.
- Each code of a refusal that docs/REFUSALS.md explains is in the tables in code under the same name, and the other way
  round; each text of these tables fits a line.
- Each clause that docs/PROVED.md names stands in the code, at what the document speaks of there (`untold`). Each crate
  with code has a section there, and each with definitions is named in docs/DEFINITIONS.md. Each crate has an edit for
  each mistake that docs/GATE.md names of it. What wrong bodies take away stands in their files (`wrong_bodies.py`).

It tells what differs, a line each, and exits with 1 where something does; with further words it tells only of what has
one of them in its line. With `--write` what is printed and the lines of links are written anew before. With `--seconds
LOG`, the output of scripts/cost.py, the seconds become those of the table in LOG, also before; crates that this table
hasn't keep theirs. Python 3.11, without a package.
"""

import difflib
import os
import re
import sys
from collections import defaultdict
from pathlib import Path

from wrong_bodies import misfits

ROOT = Path(__file__).resolve().parent.parent
DOCUMENTS = ["README.md", "crates/README.md"] + [f"docs/{it.name}" for it in sorted((ROOT / "docs").glob("*.md"))]
FUNCTION = re.compile(r"\s*(?:pub(?:\([a-z]+\))? )?(?:const )?fn (\w+)")
WIDTH = 120


def text_of(path):
    return (ROOT / path).read_text(encoding="utf-8")


# What crates.txt says, and what lies in the crates' folders.


class Crate:
    """A line of crates.txt with its comments, by the word that each begins with, and those on what it uses."""

    def __init__(self, name, libraries, layer):
        self.name, self.libraries, self.layer = name, libraries, layer
        self.texts, self.uses = {}, []

    def root(self):
        """The path of its root file in crates/."""
        paths = (f"{self.name}/src/{it}.rt" for it in ("lib", "main"))
        return next((it for it in paths if (ROOT / "crates" / it).exists()), None)

    def head(self):
        """The first sentence of its root file's head."""
        text = text_of(f"crates/{self.root()}") if self.root() else ""
        rows = [row[3:].strip() for row in re.match(r"(?:\s*//!.*\n)*", text)[0].splitlines()]
        sentence = re.split(r"(?<=\.) (?=[A-Z\[])|  ", " ".join(rows))[0]
        return re.sub(r"\[(`[^`]+`)\]", r"\1", sentence)

    def files(self, part, ending):
        return sorted((ROOT / "crates" / self.name / part).rglob(f"*.{ending}"))

    def counts(self):
        """What docs/GATE.md counts: functions, lines, lines of definitions and proofs, edits, wrong bodies as text."""
        code = [row for file in self.files("src", "rt") for row in file.read_text(encoding="utf-8").splitlines()]
        lines = [sum(it.read_bytes().count(b"\n") for it in self.files(part, "antt")) for part in ("specs", "proofs")]
        kept = [len(self.files("must-fail", ending)) for ending in ("edit", "md")]
        return [sum(1 for row in code if FUNCTION.match(row)), len(code), *lines, *kept]


def comments_joined(text):
    """The lines of crates.txt, where a comment that goes on is one line."""
    rows = []
    for row in text.splitlines():
        if re.match(r"#\s\s", row) and rows:
            rows[-1] += " " + row[1:].strip()
        else:
            rows.append(row)
    return rows


def read_crates():
    """The crates, by name, in their order."""
    crates, layer, crate = {}, None, None
    for row in comments_joined(text_of("crates.txt")):
        word, _, text = (it.strip() for it in row.removeprefix("#").partition(":"))
        if not row.startswith("#") and word:
            name = word.split()[0]
            crate = crates[name] = Crate(name, text.partition("#")[0].split(), layer)
        elif word == "layer":
            layer, crate = text, None
        elif crate and word.startswith("uses "):
            crate.uses.append((word.removeprefix("uses "), text))
        elif crate and row.startswith("#"):
            crate.texts[word] = text
    return crates


def below(crates, name):
    """The crates that stand below one, on any way down."""
    found, waiting = set(), [name]
    while waiting:
        for it in crates[waiting.pop()].libraries:
            if it in crates and it not in found:
                found.add(it)
                waiting.append(it)
    return found


def faults_of(crate, crates, before):
    """What crates.txt lacks of a crate, or says wrongly; before it stand these."""
    if not crate.layer:
        yield "stands behind no comment `# layer: ..`"
    if not crate.root() or not crate.head():
        yield "its root file has no head (`//! ..`)"
    if "knows" not in crate.texts:
        yield "there is no comment `# knows: ..` behind its line"
    for word in sorted(set(crate.texts) - {"knows", "not", "used by most"}):
        yield f"a comment begins with `{word}`, which is none of `knows`, `not`, `uses ..`, `used by most`"
    for it in crate.libraries:
        if it in crates and it not in before:
            yield f"it stands in front of `{it}`, on which it stands"
    for used, _ in crate.uses:
        for it in re.findall(r"\b[a-z]+_\w+\b|^\w+$", used):
            if it not in below(crates, crate.name):
                yield f"it says that it uses `{it}`, which " + ("isn't below it" if it in crates else "is no crate")


# What is printed into documents, each by a function of the crates.


def filled(words, first, rest, gap=" "):
    """Words as lines that are no wider than they may be."""
    lines = [first]
    for word in words:
        if len(lines[-1]) + len(gap) + len(word) > WIDTH and lines[-1].strip():
            lines.append(rest)
        lines[-1] += word if lines[-1] in (first, rest) else gap + word
    return "\n".join(lines) + "\n"


def in_layers(crates):
    """Each layer's text with its crates."""
    layers = defaultdict(list)
    for crate in crates.values():
        layers[crate.layer or "In no layer:"].append(crate)
    return layers.items()


def table(heads, rows):
    """A table as Markdown."""
    lines = ["|".join(["", *(f" {it} " if it else " " for it in row), ""]) for row in [heads, *rows]]
    return "\n".join([lines[0], "|---" * len(heads) + "|", *lines[1:]]) + "\n"


def print_layers(crates):
    parts = []
    for text, members in in_layers(crates):
        parts.append(filled(text.replace("`", "").split(), "", "  "))
        parts.append(filled([it.name for it in members], "    ", "    ", "   "))
    return "```\n" + "".join(parts) + "```\n"


def print_list(crates):
    parts = []
    for text, members in in_layers(crates):
        title, _, rest = text.partition(":")
        parts.append(filled(f"**{title}**:{rest}".split(), "", ""))
        points = (f"[`{it.name}`]({it.root()}): {it.head()}" for it in members)
        parts.append("".join(filled(point.split(), "- ", "  ") for point in points))
    return "\n" + "\n".join(parts) + "\n"


def print_knows(crates):
    rows = ([f"`{it.name}`", it.texts.get("knows", ""), it.texts.get("not", "")] for it in crates.values())
    return table(["crate", "knows", "doesn't know"], rows)


def print_uses(crates):
    """What each uses of those below; crates that use the same of the same ones share a row."""
    rows, above = [], defaultdict(list)
    for crate in crates.values():
        if "used by most" in crate.texts:
            rows.append(["most", f"`{crate.name}`", crate.texts["used by most"]])
        for use in crate.uses:
            above[use].append(f"`{crate.name}`")
    for (used, text), names in above.items():
        marked = re.sub(r"\w+", lambda it: f"`{it[0]}`" if it[0] in crates else it[0], used)
        rows.append([", ".join(names), marked, text])
    return table(["above", "below", "what the one above uses"], rows)


def seconds_in(text):
    """The seconds of checks and edits in a table of counts, by crate."""
    rows = re.findall(r"^\| `(\w+)` (?:\| [\d,]+ ){6}\| (\S+) \| (\S+) \|$", text, re.M)
    return {name: [check, edits] for name, check, edits in rows}


def longest_chain(crates, seconds):
    """The seconds of checks on the longest chain of crates that stand on each other, and its crates."""
    chains = {}
    for name, crate in crates.items():
        most, names = max((chains[it] for it in crate.libraries if it in chains), default=(0, []))
        own = seconds.get(name, ["?"])[0]
        chains[name] = (most + (int(own) if own.isdigit() else 0), [*names, f"`{name}`"])
    return max(chains.values(), default=(0, []))


def print_counts(crates, seconds=None):
    """The table of docs/GATE.md; seconds that nobody measured are `?`."""
    seconds = seconds_in(text_of("docs/GATE.md")) if seconds is None else seconds
    counted = ["functions", "lines", "definitions", "proofs", "edits", "wrong bodies as text"]
    rows = ([f"`{name}`", *(f"{it:,}" for it in crate.counts()), *seconds.get(name, ["?", "?"])]
            for name, crate in crates.items())
    most, chain = longest_chain(crates, seconds)
    sentence = f"The longest chain takes {most:,} s of the checks: {', '.join(chain)}."
    return table(["crate", *counted, "check, s", "edits, s"], rows) + "\n" + filled(sentence.split(), "", "")


def print_believed(_):
    from believed import how_much  # which imports this file

    return filled(how_much("stream_world", "run", "headline").split(), "", "")


# The tables of refusals in code.

TEXT = r'"((?:[^"\\]|\\.)*)"'
ENTRY = re.compile(
    rf"Refusal\s*\{{\s*code:\s*{TEXT},\s*name:\s*{TEXT},\s*meaning:\s*{TEXT},"
    rf"\s*again:\s*Again::(Always|Never|After\(\s*{TEXT},?\s*\)),?\s*\}}"
)
# A code with its name, as the document explains it: `S9 BadLog VERSION`.
EXPLAINED = re.compile(r"`(?:refused\s+)?((?:St|TH|[A-Z])\d+)\s+([A-Z]\w+)")
LONGEST = 110


def entries():
    """The tables' entries, in their order: code, name, meaning, and when the same call may be tried again."""
    found = []
    for name in ("refusal_table.rt", "fault_table.rt"):
        text = text_of(f"crates/refusal_texts/src/{name}")
        size, rows = re.search(r"\[Refusal; (\d+)\] = \[\n(.*?)^\];", text, re.S | re.M).groups()
        here = ENTRY.findall(rows)
        if len(here) != int(size):
            sys.exit(f"{name}: {len(here)} entries can be read, of {size}")
        for code, kind, meaning, again, what in here:
            meaning, what = (re.sub(r"\\(.)", r"\1", it) for it in (meaning, what))  # as the code means them
            found.append((code, kind, meaning, f"after {what}" if what else {"Always": "yes", "Never": "no"}[again]))
    return found


def print_refusals(_):
    rows = ([f"`{code}`", f"`{name}`", meaning, again] for code, name, meaning, again in entries())
    return table(["code", "name", "what it means", "retry"], rows)


def faults_of_refusals(_):
    """What is wrong with the entries by themselves, and which codes the code or the document alone has."""
    seen = set()
    for code, _, meaning, again in entries():
        if code in seen:
            yield f"refusal_texts: {code} stands twice"
        seen.add(code)
        if len(meaning) > LONGEST:
            yield f"refusal_texts: {code}: its meaning has {len(meaning)} characters, of at most {LONGEST}"
        if any(re.search(r"[|\n]|^\s|[\s.]$|retry:", text) for text in (meaning, again)):
            yield f"refusal_texts: {code}: a text fits no line of a table, ends with a space or a full stop, or says `retry:`"
    coded, explained = {entry[:2] for entry in entries()}, set(EXPLAINED.findall(text_of("docs/REFUSALS.md")))
    for code, name in sorted(explained - coded):
        yield f"docs/REFUSALS.md: it explains {code} {name}, which isn't in the code"
    for code, name in sorted(coded - explained):
        yield f"docs/REFUSALS.md: it doesn't explain {code} {name}, which is in the code"


# Clauses that docs/PROVED.md names.


# What a file of definitions or proofs names: a definition or a lemma, or a field or a constructor below one.
NAMED = re.compile(r"^(?:(?:abbrev|unfoldable|mutual|pub|data|record) | +(?:pub )?(?=\w+ :))*(\w+)", re.M)


class Contracts:
    """Of a crate the clauses of its contracts, by function and by type, and which other names its files have."""

    def __init__(self, name):
        self.clauses, self.functions, self.names = defaultdict(set), set(), set()
        for file in sorted((ROOT / "crates" / name / "src").rglob("*.rt")):
            self.read_code(file.read_text(encoding="utf-8").splitlines())
        for file in (ROOT / "crates" / name).rglob("*.antt"):
            self.names |= set(NAMED.findall(file.read_text(encoding="utf-8")))

    def read_code(self, rows):
        types, function = [], None
        for row in rows:
            if re.match(r"(?:pub(?:\([a-z]+\))? )?(?:impl|trait)\b", row):
                types = re.findall(r"\b[A-Z]\w+", row)
            found = FUNCTION.match(row)
            if found:
                function = found[1]
                self.functions.add(function)
            self.names |= set(re.findall(r"^\s*(?:pub )?ghost (?:fn )?(\w+)", row))
            for clause in re.findall(r"\bensures (\w+) \{", row):
                for it in [function, *types]:
                    self.clauses[it].add(clause)
            if row == "}":
                types = []

    def has(self, clause, spoken_of):
        return any(clause in self.clauses.get(it, ()) for it in spoken_of)


MARKED = re.compile(r"`([^`]+)`")
IN_BRACKETS = re.compile(r"\(((?:[^()]|\([^()]*\))*)\)")
LINKED = re.compile(r"\[((?:`[\w:]+`(?:, )?)+)\]\(\.\./crates/(\w+)/[^)]*\): ((?:`\w+`(?:, )?)+)")
# Words of the language and of lines, which stand in brackets like a clause.
WORDS = {"requires", "foreign", "hex", "row", "snapshot"}


def items_of(text):
    """The points and paragraphs of a document: the head that each stands under, its first line, and all as one line."""
    head, start, item = "", 1, []
    for number, row in enumerate(text.splitlines() + ["## "], 1):
        begins = re.match(r"## |\d+\. ", row) or not head.startswith("The claims") and re.match(r"\s*- |\s*$", row)
        if begins:
            yield head, start, " ".join(" ".join(item).split())
            start, item = number, []
        if row.startswith("## "):
            head = row[3:]
        item.append(row)


def words_in(text):
    """The words that stand between marks."""
    return {word for marked in MARKED.findall(text) for word in re.findall(r"\w+", marked)}


def untold(crates):
    """The clauses that docs/PROVED.md names and that aren't clauses of what it names beside them.

    A name in brackets has to be a clause of a function or a type that its point names, or else its section; or what a
    crate that is spoken of has under this name: a law, a definition, a field of one, a lemma. Names behind a link to a
    function and a colon have to be clauses of just this function."""
    contracts = {name: Contracts(name) for name in crates}
    items = list(items_of(text_of("docs/PROVED.md")))
    by_head = defaultdict(set)
    for head, _, item in items:
        by_head[head] |= words_in(item)
    for head, number, item in items:
        own = [it for it in MARKED.findall(head) if it in crates] or re.findall(r"\]\(\.\./crates/(\w+)/src", item)
        if not MARKED.search(head) and not head.startswith("The claims"):
            continue
        place = f"docs/PROVED.md, line {number}"
        if item.startswith("## "):
            yield from (f"{place}: `{it}` is no crate" for it in MARKED.findall(head) if it not in crates)
        for names, crate, clauses in LINKED.findall(item):
            for name in MARKED.findall(names):
                yield from (f"{place}: `{it}` is no clause of `{name}`" for it in MARKED.findall(clauses)
                            if crate in crates and not contracts[crate].has(it, [name.split("::")[-1]]))
        named = words_in(item)
        spoken = [contracts[it] for it in {*own, *(named & set(crates))} if it in crates]
        lower = {it for name in own if name in crates for it in below(crates, name)}
        for group in IN_BRACKETS.findall(item):
            for it in MARKED.findall(re.sub(r"\]\([^)]*\)", "]", group)):
                if not re.fullmatch(r"[a-z]\w*", it) or it in WORDS or it in crates:
                    continue
                if any(one.has(it, named | by_head[head]) or it in one.functions | one.names for one in spoken):
                    continue
                if not any(it in contracts[one].functions for one in lower):
                    yield f"{place}: `{it}` is no clause of what stands there"


def unnamed(crates):
    """The crates that have no section in docs/PROVED.md, or no definition in docs/DEFINITIONS.md."""
    heads = " ".join(re.findall(r"^## .*", text_of("docs/PROVED.md"), re.M))
    definitions = text_of("docs/DEFINITIONS.md")
    for name, crate in crates.items():
        functions, _, lines, *_ = crate.counts()
        if functions and f"`{name}`" not in heads:
            yield f"docs/PROVED.md: no head of a section names `{name}`"
        if lines and not re.search(rf"\b{name}\b", definitions):
            yield f"docs/DEFINITIONS.md: it doesn't name `{name}`, which has definitions"


def untried(crates):
    """The crates that have fewer edits than docs/GATE.md names mistakes of them, each behind a semicolon."""
    rows = text_of("docs/GATE.md").partition("| the mistake | the crate |\n|---|---|\n")[2].partition("\n\n")[0]
    for mistakes, name in re.findall(r"^\| (.*) \| `(\w+)` \|$", rows, re.M):
        edits = crates[name].counts()[4] if name in crates else 0
        if edits < (named := mistakes.count("; ") + 1):
            yield f"docs/GATE.md: mistakes of `{name}` that the gate tries: {named} are named, and it has {edits} edits"


# Links.

LINK = re.compile(r"\[([^\]]*)\]\(([^)#\s]+)(?:#L(\d+))?\)")


def line_of(name, path):
    """The line on which a function of this name begins, or none."""
    rows = enumerate(path.read_text(encoding="utf-8").splitlines(), 1)
    return next((number for number, row in rows if (found := FUNCTION.match(row)) and found[1] == name), None)


def mended(link, document):
    """A link as it should stand, or none where it leads to no file."""
    words, target, line = link.groups()
    path = (ROOT / document).parent / target
    if target.startswith("http"):
        return link[0]
    if not path.exists():
        return None
    found = line_of(words.strip("`").split("::")[-1], path) if path.suffix == ".rt" else None
    return link[0] if found is None or line == str(found) else f"[{words}]({target}#L{found})"


def faults_of_links(document, text):
    for link in LINK.finditer(text):
        right = mended(link, document)
        if right != link[0]:
            yield f"{document}: {link[0]}: " + ("no such file" if right is None else f"it should be {right}")


# The documents as they should stand.

PRINTED = {
    "layers": print_layers, "knows": print_knows, "uses": print_uses, "list": print_list, "counts": print_counts,
    "refusals": print_refusals, "believed": print_believed,
}
PART = re.compile(r"(<!-- printed: (\w+) -->\n)(.*?)(<!-- end -->\n)", re.S)


def differences(crates, document, text):
    for part in PART.finditer(text):
        right = PRINTED.get(part[2], lambda _: "")(crates)
        for line in difflib.unified_diff(part[3].splitlines(), right.splitlines(), n=0, lineterm=""):
            if not line.startswith(("---", "+++", "@@")):
                yield f"{document}: {'it says' if line[0] == '-' else 'the code'}: {line[1:]}"


def written(crates, document, text):
    text = PART.sub(lambda part: part[1] + PRINTED.get(part[2], lambda _: part[3])(crates) + part[4], text)
    return LINK.sub(lambda link: mended(link, document) or link[0], text)


def faults(crates):
    """All that differs, a line each."""
    before = set()
    for name, crate in crates.items():
        yield from (f"crates.txt: {name}: {it}" for it in faults_of(crate, crates, before))
        before.add(name)
    texts = {document: text_of(document) for document in DOCUMENTS}
    for name in PRINTED:
        if sum(text.count(f"<!-- printed: {name} -->\n") for text in texts.values()) != 1:
            yield f"the line <!-- printed: {name} --> has to stand in one document, once"
    for document, text in texts.items():
        yield from differences(crates, document, text)
        yield from faults_of_links(document, text)
    yield from faults_of_refusals(crates)
    yield from untold(crates)
    yield from unnamed(crates)
    yield from untried(crates)
    yield from misfits(ROOT)


def write_seconds(crates, log):
    """Puts the seconds of a measured table into that of docs/GATE.md."""
    text = text_of("docs/GATE.md")
    seconds = {**seconds_in(text), **seconds_in(Path(log).read_text(encoding="utf-8", errors="replace"))}
    front, marks, rest = text.partition("<!-- printed: counts -->\n")
    text = front + marks + print_counts(crates, seconds) + rest[rest.index("<!-- end -->"):]
    (ROOT / "docs/GATE.md").write_text(text, encoding="utf-8")


def main(words):
    crates = read_crates()
    if "--seconds" in words:
        at = words.index("--seconds")
        write_seconds(crates, words[at + 1])
        del words[at:at + 2]
    if "--write" in words:
        words.remove("--write")
        for document in DOCUMENTS:
            text = text_of(document)
            if (new := written(crates, document, text)) != text:
                (ROOT / document).write_text(new, encoding="utf-8")
                print(f"written: {document}")
    found = [line for line in faults(crates) if not words or any(word in line for word in words)]
    for line in found:
        print(line)
    print("documents: " + (f"{len(found)} lines differ" if found else "they say what the code says"))
    return 1 if found else 0


if __name__ == "__main__":
    sys.exit(main(sys.argv[1:]))
