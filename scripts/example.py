#!/usr/bin/env python3
"""Runs the program that docs/STREAMS.md shows, without a proof, and compares what it prints with what stands there.

On a copy of the crates it is a crate `orders` that lists `lake_table` alone. `rt try` builds it and runs it, in some two
minutes. What stands behind it is printed twice, over a store and in a folder. Exit status 0 where it prints just that.
"""

import re
import shutil
import subprocess
import sys
import tempfile
from pathlib import Path

TOP = Path(__file__).resolve().parent.parent
DOCUMENT = "docs/STREAMS.md"


def shown():
    """The program, and what it prints over each of the two."""
    text = (TOP / DOCUMENT).read_text(encoding="utf-8")
    found = re.search(r"^```rust\n(.*?)^```$.*?^```\n(.*?)^```$", text, re.DOTALL | re.MULTILINE)
    return found.groups() if found else sys.exit(f"{DOCUMENT}: no program stands there with what it prints")


def run(program, top):
    """What it prints on standard output, and how it ends, as a crate of a copy that is made there."""
    left_out = shutil.ignore_patterns("out", "must-fail", "data", "stdin", "stdout")
    shutil.copytree(TOP / "crates", top / "crates", ignore=left_out)
    crates = (TOP / "crates.txt").read_text(encoding="utf-8")
    (top / "crates.txt").write_text(f"{crates}\norders: lake_table\n", encoding="utf-8")
    source = top / "crates" / "orders" / "src"
    source.mkdir(parents=True)
    (source / "main.rt").write_text(program, encoding="utf-8")
    subprocess.run(["git", "init", "--quiet", "."], cwd=top, check=True)
    return subprocess.run(["rt", "try"], cwd=source.parent, text=True, capture_output=True, check=False)


def main():
    program, printed = shown()
    with tempfile.TemporaryDirectory() as top:
        ran = run(program, Path(top))
    if ran.returncode or ran.stdout != 2 * printed:
        sys.exit(f"{ran.stderr[-2000:]}{ran.stdout}\n{DOCUMENT}: its program doesn't print what stands there")
    print(f"{DOCUMENT}: its program prints what stands there")


if __name__ == "__main__":
    main()
