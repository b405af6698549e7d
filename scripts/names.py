#!/usr/bin/env python3
"""Looks, without a proof and in some seconds, that what .rt and .antt files import of the repository's definitions and
proofs stands there; what a check would tell only once the crates below are built: scripts/names.py [CRATE..]

`--unused` prints besides which imported names a file doesn't use, as far as that can be seen: a trait whose methods are
called, and operators of `do` blocks, are used without their name. `--twice` prints in place of it the definitions that
several files give one name.
"""
import collections
import re
import sys
from functools import lru_cache
from pathlib import Path

ROOT = Path(__file__).resolve().parent.parent / "crates"
CRATES = {it.name for it in ROOT.iterdir() if it.is_dir()}
# What the checker makes of a function beside its proof.
MADE = ("Goals", "Given", "Met", "Statement")
USE = re.compile(r"^ *(?:ghost |unfoldable |pub )*use (Rattle[\w.\-+]*?)(?:\.\{([^}]*)\}| as \w+)?;?$", re.M)
PASSED_ON = re.compile(r"^(?:unfoldable )?pub use (Rattle[\w.\-+]*?)(?: as (\w+)|\.\{([^}]*)\})?$", re.M)
BEFORE = r"(?:pub |abbrev |unfoldable |data |record |mutual )*"


@lru_cache(maxsize=None)
def text_of(path):
    return path.read_text() if path.is_file() else None


def own_names(listed):
    """The names of a list in braces, as they are called where they come from."""
    return [it.strip().split(" as ")[0] for it in (listed or "").split(",") if it.strip()]


def module_of(path, depth=0):
    """The file of a module, or `None` where it isn't one of the repository's own definitions or lemmas; an empty text
    where there is none of that name."""
    words = path.split(".")
    if words[1] not in CRATES or words[2] not in ("specs", "proofs"):
        return None
    crate, kind, rest = words[1], words[2], words[3:]
    if kind == "proofs" and rest[-1] in MADE:
        return None
    file = ROOT.joinpath(crate, kind, *rest).with_suffix(".antt")
    lib = text_of(ROOT / crate / kind / "Lib.antt") or ""
    if text_of(file) is not None:
        is_declared = len(rest) > 1 or re.search(rf"^(?:pub )?mod {re.escape(rest[0])}$", lib, re.M)
        return file if is_declared else ""
    for module, alias, names in PASSED_ON.findall(lib):
        if not names and (alias or module.split(".")[-1]) == rest[0] and depth < 8:
            return module_of(".".join([module, *rest[1:]]), depth + 1)
    return ""


def has_name(file, name):
    """Whether a file defines a name, as a definition of its own, a constructor or a lemma in a block, or passes it on."""
    text, name = text_of(file), re.escape(name)
    if re.search(rf"^ *{BEFORE}{name}(?!\w)", text, re.M):
        return True
    return any(re.search(rf"(?:^|[ ,]){name}(?:,|$)", names) for _, _, names in PASSED_ON.findall(text))


def wrong_type(path, names):
    """What is wrong with an import of a type that code declares."""
    words = path.split(".")
    rest = words[4:]
    modules = [it for it in rest if it[0].islower()]
    kinds = [it for it in rest if it[0].isupper()]
    code = text_of(ROOT.joinpath(words[1], "src", *(modules or ["lib"])).with_suffix(".rt"))
    if code is None:
        return f"no file for {path}"
    if kinds and kinds[0] != "TheConstants" and not re.search(rf"\b(?:struct|enum|trait) {kinds[0]}\b", code):
        return f"no type {kinds[0]} in {path}"
    lost = [it for it in names if "TheVariants" in rest and not re.search(rf"^ *{it}\b", code, re.M)]
    return f"no variant {lost[0]} in {path}" if lost else None


def wrong_with(path, names):
    """What is wrong with an import, if something is."""
    words = path.split(".")
    if words[1] in CRATES and words[2:4] == ["specs", "declared"]:
        return wrong_type(path, names)
    if words[1] in CRATES and words[2:4] == ["specs", "contracts"]:
        return None
    file = module_of(path)
    if file == "":
        return f"no module {path}"
    lost = [it for it in names if file and not has_name(file, it)]
    return f"no {lost[0]} in {path}" if lost else None


def unused_of(text):
    """The imported names that a file doesn't use."""
    body = re.sub(r"^ *(?:ghost |pub |unfoldable )*use [^;\n]*;?$", "", text, flags=re.M)
    for path, names in USE.findall(text):
        for name in (names or "").split(","):
            name = name.strip().split(" as ")[-1]
            if re.fullmatch(r"\w+", name) and not re.search(rf"(?<![\w.]){re.escape(name)}(?!\w)", body):
                yield name, path


def files_of(crates):
    for crate in sorted(crates):
        for file in sorted((ROOT / crate).rglob("*")):
            if file.suffix in (".rt", ".antt") and "out" not in file.relative_to(ROOT).parts:
                yield file


def look(crates, tells_unused):
    wrong = 0
    for file in files_of(crates):
        text, place = file.read_text(), file.relative_to(ROOT)
        for path, listed in USE.findall(text):
            why = wrong_with(path, own_names(listed))
            if why:
                wrong += 1
                print(f"{place}: {why}")
        for name, path in unused_of(text) if tells_unused else ():
            print(f"{place}: {name} of {path} isn't used")
    print(f"names: {wrong} imports of what isn't there")
    return wrong


def tell_twice():
    homes = collections.defaultdict(set)
    for file in ROOT.glob("*/specs/*.antt"):
        for name in re.findall(rf"^(?:abbrev pub|unfoldable pub|pub data|pub record|pub) ([^\s:({{]+)", file.read_text(), re.M):
            if name not in ("use", "mod", "data", "record"):
                homes[name].add(f"{file.parts[-3]}/{file.stem}")
    several = {name: places for name, places in homes.items() if len(places) > 1}
    for name, places in sorted(several.items(), key=lambda it: (-len(it[1]), it[0])):
        print(f"{name}: {', '.join(sorted(places))}")
    print(f"names: {len(several)} of {len(homes)} are defined more than once")


def main(words):
    flags, crates = {it for it in words if it.startswith("--")}, {it for it in words if not it.startswith("--")}
    if "--twice" in flags:
        tell_twice()
        return 0
    return 1 if look(crates or CRATES, "--unused" in flags) else 0


if __name__ == "__main__":
    sys.exit(main(sys.argv[1:]))
