#!/usr/bin/env python3
"""Runs the examples of README.md and docs/FORMATS.md with the built program, and compares what it prints with them.

Of README.md it is the block that begins with `$ mkdir orders`: each command behind `$ `, and its output up to the next
one, by bash in a temporary directory. Of docs/FORMATS.md it is the script whose lines stand with their replies and
remarks, each four spaces or more apart. Run `make lake` before it. Exit status 0 where all is as it stands.
"""

import os
import re
import subprocess
import sys
import tempfile

TOP = os.path.dirname(os.path.dirname(os.path.abspath(__file__)))
LAKE = os.path.join(TOP, "crates", "lake", "out")


def block(path, begins):
    """The lines of the code block that begins with this text."""
    text = open(os.path.join(TOP, path), encoding="utf-8").read()
    for found in re.findall(r"^```\n(.*?)^```$", text, re.DOTALL | re.MULTILINE):
        if found.startswith(begins):
            return found.splitlines()
    sys.exit(f"{path}: no block begins with {begins!r}")


def run(words, folder, stdin=None):
    """What a command prints on standard output."""
    path = LAKE + os.pathsep + os.environ["PATH"]
    ran = subprocess.run(words, cwd=folder, input=stdin, text=True, stdout=subprocess.PIPE, stderr=subprocess.DEVNULL,
                         env={**os.environ, "PATH": path}, check=False)
    return ran.stdout.splitlines()


def commands():
    """Pairs of a command of README.md and the lines that stand under it."""
    pairs = []
    for line in block("README.md", "$ mkdir orders"):
        if line.startswith("$ "):
            pairs.append((line[2:], []))
        else:
            pairs[-1][1].append(line)
    return pairs


def compare(what, wanted, printed):
    """Says where they differ; 1 where they do."""
    if wanted == printed:
        return 0
    print(f"{what}\n  stands: {wanted}\n  printed: {printed}")
    return 1


def main():
    if not os.access(os.path.join(LAKE, "lake"), os.X_OK):
        sys.exit("run `make lake` before it")
    wrong = 0
    with tempfile.TemporaryDirectory() as folder:
        pairs = commands()
        for command, wanted in pairs:
            wrong += compare(command, wanted, run(["bash", "-c", command], folder))
    parts = [re.split(r" {4,}", line) for line in block("docs/FORMATS.md", "create ")]
    replies = [part[1] for part in parts if len(part) > 1 and part[1]]
    script = "".join(part[0] + "\n" for part in parts)
    wrong += compare("the script of docs/FORMATS.md", replies, run(["lake", "script"], TOP, script))
    print(f"{len(pairs)} commands and a script of {len(parts)} lines: {wrong} wrong")
    return 1 if wrong else 0


if __name__ == "__main__":
    sys.exit(main())
