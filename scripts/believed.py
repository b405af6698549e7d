#!/usr/bin/env python3
"""Prints the definitions that a clause unfolds to: what has to be read, and believed to say what it should, beside the
proof: scripts/believed.py CRATE::FUNCTION[::CLAUSE] [--names]

Each definition stands once, behind those that it mentions but where they mention each other, with its file and line. At
the end their lines are counted, comments and blank lines left out: those of the public standards' formats apart from
the rest. What the kit defines is named, and what a type in code declares. `--names` leaves the texts out. Of several
functions of a name in a crate it takes the first; names are found by their texts, so a few definitions may be too many.
"""
import re
import sys
from pathlib import Path

from documents import read_crates

ROOT = Path(__file__).resolve().parent.parent / "crates"

# Crates whose definitions say what the bytes and texts of Parquet, Thrift, JSON, schemas and Delta's actions are: those
# of the layer of formats, and these.
FORMATS = {"lake_bytes", "json_text", "json_fields", "delta_actions", "delta_checkpoint"}
FORMATS |= {name for name, crate in read_crates().items() if (crate.layer or "").startswith("Formats:")}

WORD = r"[^\s(){}\[\];,.λ:=→×⊎≡≢≤<+∷|↦\"]+"
PATH = re.compile(r"(?:%s\.)*%s" % (WORD, WORD))
HEAD = re.compile(r"^(?:abbrev |unfoldable |mutual |pub )*(?:(data|record) )?(\S+)")
INNER = re.compile(r"^  (?:abbrev |unfoldable |pub )*((?:data |record )?)(\S+) (?::|\()")
SKIP = ("use ", "pub use ", "unfoldable pub use ", "mod ", "pub mod ", "infix", "open ", "unfolding ")


class Definition:
    """A definition with the comment above it, and the names that it brings: its own, and its constructors'."""

    def __init__(self, module, line, text, head, names):
        self.module, self.line, self.text, self.head, self.names = module, line, text, head, names

    def is_constructor(self, name):
        return self.names != {name} and name != self.head

    def lines(self):
        return sum(1 for row in self.text.split("\n") if row.strip() and not row.strip().startswith("--"))


class Module:
    """A file of definitions: what it defines, and under which names it sees those of others."""

    def __init__(self, name, path):
        self.name, self.path, self.defined, self.seen, self.aliases = name, path, {}, {}, {}
        rows = path.read_text().split("\n")
        uses = [row for row in rows if re.match(r"^(unfoldable )?(pub )?use ", row)]
        self.read_uses(uses)
        self.read_definitions(rows)

    def read_uses(self, uses):
        for use in uses:
            several = re.match(r".*?use (\S+)\.\{(.*)\}", use)
            alias = re.match(r".*?use (\S+) as (\S+)", use)
            if several:
                for one in several.group(2).split(","):
                    whole = one.split(" as ")
                    self.seen[whole[-1].strip()] = (several.group(1), whole[0].strip())
            elif alias:
                self.aliases[alias.group(2)] = alias.group(1)

    def read_definitions(self, rows):
        start, comment, block = None, None, []
        for number, row in enumerate(rows + ["."], 1):
            if row.startswith((" ", "\t")) and start is not None:
                block.append(row)
                continue
            if row.startswith(SKIP) or row.strip() == "" or row.startswith("--"):
                if start is not None and row.strip() == "":
                    block.append(row)
                if row.startswith("--"):
                    goes_on = comment is not None and comment[2] == number - 1
                    comment = (comment[0], comment[1] + [row], number) if goes_on else (number, [row], number)
                continue
            name = HEAD.match(row)
            name = name.group(2) if name else None
            above = comment[1] if comment is not None and comment[2] == number - 1 else []
            if start is not None and row.startswith(start[1] + " "):
                block += above + [row]
                continue
            self.close(start, block)
            start, block = None, []
            if row != "." and name:
                start, block = (number - len(above), name), above + [row]

    def close(self, start, block):
        if start is None:
            return
        text = "\n".join(block).rstrip()
        names = {start[1]}
        body = [row for row in block if not row.startswith("--")]
        # A record's fields are seen by what has its type, so they bring no name. A mutual block brings those inside it
        # and their constructors.
        depth = "" if re.match(r"^(abbrev |unfoldable |pub )*data ", body[0]) else None
        for row in body[1:]:
            inner = start[1] == "mutual" and INNER.match(row)
            if inner:
                names.add(inner.group(2))
                depth = "  " if inner.group(1) == "data " else None
            built = re.match(r"^%s  (\S+) :" % depth, row) if depth is not None else None
            if built:
                names.add(built.group(1))
        one = Definition(self, start[0], text, start[1], names)
        for name in names:
            self.defined.setdefault(name, one)


class House:
    def __init__(self):
        self.modules, self.passed, self.kit, self.declared = {}, {}, set(), set()
        for path in ROOT.glob("*/specs/**/*.antt"):
            parts = path.relative_to(ROOT).with_suffix("").parts
            name = "Rattle." + ".".join(parts)
            self.modules[name] = Module(name, path)
            for whole, last, other in re.findall(r"(?m)^pub use (\S*?(\w+))(?: as (\w+))?$", path.read_text()):
                self.passed[name.rpartition(".")[0] + "." + (other or last)] = whole

    def find(self, module, name, depth=0):
        """The definition of a name that a module of this name has or passes on."""
        while module in self.passed:
            module = self.passed[module]
        here = self.modules.get(module)
        if here is None or depth > 8:
            if here is None:
                (self.declared if ".declared." in module else self.kit).add(module + "." + name)
            return None
        if name in here.defined:
            return here.defined[name]
        if name in here.seen:
            return self.find(*here.seen[name], depth + 1)
        return None

    def resolve(self, module, token):
        first, _, rest = token.partition(".")
        if first in module.aliases and rest:
            return self.find(module.aliases[first], rest.split(".")[0])
        for name in [token] + [self.mixfix(module, first)] + [first]:
            if name is None:
                continue
            if name in module.defined:
                return module.defined[name]
            if name in module.seen:
                return self.find(*module.seen[name])
        return None

    @staticmethod
    def mixfix(module, token):
        for name in list(module.defined) + list(module.seen):
            if "◌" in name and token in name.split("◌"):
                return name
        return None


def mentioned(text):
    # A record's field isn't what another definition of its name is.
    plain = "\n".join(re.sub(r"^  pub (?=\S+ :)\S+|\"[^\"]*\"|--.*", "", row) for row in text.split("\n"))
    return PATH.findall(plain) + (["◌>>=◌"] if "←" in plain or ">>=" in plain else [])


def bound_in(text):
    """Names that stand for variables: of binders, and left of `=` (there without constructors: the caller looks)."""
    binders, left = set(), set()
    for binder in (r"[({]([^(){}:]+) : ", r"λ ([^.]+)\.", r"let (\S+) "):
        for names in re.findall(binder, text):
            binders.update(names.split())
    for row in text.split("\n"):
        clause = re.match(r"^\s*\S+ ([^=:←]*) = ", row + " ")
        if clause and "{" not in clause.group(1):
            left.update(PATH.findall(clause.group(1)))
    return binders, left


def gather(house, module, text, done, order):
    binders, left = bound_in(text)
    for token in mentioned(text):
        found = house.resolve(module, token)
        first = token.split(".")[0]
        if found is None or first in binders:
            continue
        if token in left and not found.is_constructor(token.split(".")[-1]) and "◌" not in found.head:
            continue
        if id(found) not in done:
            done.add(id(found))
            gather(house, found.module, found.text, done, order)
            order.append(found)


def clauses_of(crate, function, clause):
    """The contract's clauses and the module that stands for the file that they are in."""
    for path in sorted((ROOT / crate / "src").glob("**/*.rt")):
        text = path.read_text()
        at = re.search(r"^\s*(?:pub(?:\([a-z]+\))? )?fn %s\b" % re.escape(function), text, re.M)
        if not at:
            continue
        contract = text[at.start():]
        ends = re.search(r"^\s*\{", contract, re.M)
        contract = contract[: ends.start()] if ends else contract
        pieces = re.split(r"\n\s*(?=(?:ensures|requires)\b)", contract)
        begins = ("ensures", "requires") if clause is None else "ensures %s " % clause
        chosen = [p for p in pieces if p.startswith(begins)]
        if not chosen:
            sys.exit("believed: %s has no clause%s" % (function, "" if clause is None else " " + clause))
        seen = Module.__new__(Module)
        seen.name, seen.path, seen.defined, seen.seen, seen.aliases = path.stem, path, {}, {}, {}
        seen.read_uses([row.strip().rstrip(";") for row in text.split("\n") if row.strip().startswith("ghost use ")])
        return path, "\n".join(chosen), seen
    sys.exit("believed: no function %s in %s" % (function, crate))


def type_of(name):
    """The crate and the type of what code declares, whichever variant was named."""
    crate, rest = name.removeprefix("Rattle.").split(".specs.declared.")
    return crate + "::" + rest.split(".TheVariants")[0].split(".")[-1]


def unfolded(seen, text):
    """The house, the definitions that clauses unfold to, in their order, and their lines by crate."""
    house, order, counts = House(), [], {}
    gather(house, seen, text, set(), order)
    for one in order:
        crate = one.module.path.relative_to(ROOT).parts[0]
        counts[crate] = counts.get(crate, 0) + one.lines()
    return house, order, counts


def how_much(crate, function, clause):
    """What docs/HEADLINE.md says of how much has to be believed for its sentence."""
    _, text, seen = clauses_of(crate, function, clause)
    _, order, counts = unfolded(seen, text)
    formats = sum(lines for name, lines in counts.items() if name in FORMATS)
    own = sum(counts.values()) - formats
    world, table, bridge = (counts.get(it, 0) for it in ("stream_model", "table_model", "table_store"))
    return (
        f"{len(order):,} definitions, as the script finds them by their names (a few may be too many): {own:,} lines "
        f"of this product's own, and {formats:,} of formats. Of the former {world} are events and the headline, "
        f"{table} the table and what stands before an offset, {bridge} the bridge from a store to it, and "
        f"{own - world - table - bridge:,} jobs, outcomes and how they are paired."
    )


def main(words):
    names_only = "--names" in words
    words = [word for word in words if word != "--names"]
    if len(words) != 1 or words[0].count("::") not in (1, 2):
        sys.exit(__doc__)
    crate, function, *rest = words[0].split("::")
    path, text, seen = clauses_of(crate, function, rest[0] if rest else None)
    house, order, counts = unfolded(seen, text)
    for one in order:
        place = one.module.path.relative_to(ROOT.parent)
        print("%s:%d" % (place, one.line) + (" " + one.head if names_only else ""))
        if not names_only:
            print(one.text + "\n")
    print("%s\n%s\n" % (path.relative_to(ROOT.parent), text))
    print("types of code: " + ", ".join(sorted({type_of(name) for name in house.declared})))
    kit = {name.removeprefix("Rattle.").replace(".specs.", "::") for name in house.kit}
    print("of the kit: " + ", ".join(sorted(kit)))
    print("lines: " + ", ".join("%s %d" % one for one in sorted(counts.items(), key=lambda one: -one[1])))
    formats = sum(lines for name, lines in counts.items() if name in FORMATS)
    print("%d definitions: %d lines, and %d of formats" % (len(order), sum(counts.values()) - formats, formats))


if __name__ == "__main__":
    main(sys.argv[1:])
