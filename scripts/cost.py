#!/usr/bin/env python3
"""What the gate costs, in processor seconds (user and system).

scripts/cost.py [--run COMMAND ..]    a run of the gate, by the command or else by `rt ci`: it looks each second at the
    processes below it, and prints the table of docs/GATE.md with the seconds of each crate's check, with what is built
    for it, and of its must-fail edits. The table stands in front of the command's last line, and the status is the
    command's. What a process takes in its last second isn't seen in the table; the whole is counted by the system.
scripts/cost.py [--no-edits] CRATE ..    the same table of some crates, measured one at a time with one job, each from
    nothing: its check (with its tests, where it has any) and its edits. The libraries below are built before, which
    isn't counted. What was kept in out/ is set aside meanwhile, and comes back where a check fails or is stopped.
scripts/cost.py --functions CRATE    a check of the crate from nothing with one job: by the clock, what each function
    took, most first: the time between the line that the checker prints of it (`checked .., 3 of 20`) and the one before
scripts/cost.py --paths [CRATE ..]    what rt reads, where it keeps no sum of a library within a call: of each library
    it takes one twice, and for that reads all files of each library below on each path of crates.txt that leads there.
    It prints paths and files for each crate, and the files that a run of the gate reads so

`scripts/documents.py --seconds LOG` writes a table that stands in LOG into docs/GATE.md.
"""

import contextlib
import functools
import os
import re
import resource
import shutil
import signal
import subprocess
import sys
import threading
import time

from documents import ROOT, below, print_counts, read_crates

TICK = os.sysconf("SC_CLK_TCK")
OTHER = "(other)"


def children_seconds():
    """The processor seconds of the processes that were waited for."""
    spent = resource.getrusage(resource.RUSAGE_CHILDREN)
    return spent.ru_utime + spent.ru_stime


def measured_table(crates, checks, edits):
    """The table of docs/GATE.md of the crates that were measured."""
    seen = {name: crate for name, crate in crates.items() if name in checks or name in edits}
    seconds = {name: [f"{table.get(name, 0):.0f}" for table in (checks, edits)] for name in seen}
    return print_counts(seen, seconds)


# A run of the gate.


def processes():
    """Each process: its parent, its start, its processor seconds, its words and its folder."""
    for entry in filter(str.isdigit, os.listdir("/proc")):
        try:
            with open(f"/proc/{entry}/stat", encoding="utf-8", errors="replace") as file:
                fields = file.read().rsplit(")", 1)[1].split()
            with open(f"/proc/{entry}/cmdline", "rb") as file:
                words = file.read().decode("utf-8", "replace").split("\0")
            folder = os.readlink(f"/proc/{entry}/cwd")
        except (OSError, IndexError):
            continue
        seconds = (int(fields[11]) + int(fields[12])) / TICK
        yield int(entry), int(fields[1]), fields[19], seconds, words, folder


def those_below(root, found):
    """Those of the processes that stand below one."""
    parents = {pid: parent for pid, parent, *_ in found}
    for one in found:
        pid = one[0]
        while pid in parents and pid != root:
            pid = parents[pid]
        if pid == root:
            yield one


def kind(words, folder):
    """The crate that a process works on, and whether it is an edit's."""
    crate = re.search(r"--crate-name (\S+)", " ".join(words))
    return (crate[1], "/rt-edit" in folder) if crate else (OTHER, False)


def watch(root, seen):
    """Looks at the processes below one, each second."""
    while True:
        for pid, _, start, seconds, words, folder in those_below(root, list(processes())):
            # One that has ended, and that nobody has waited for yet, has no words any more.
            before = seen.get((pid, start))
            seen[(pid, start)] = (seconds, *(before[1:] if before and not words[0] else kind(words, folder)))
        time.sleep(1)


def print_run(seen, minutes):
    """The table of what was seen, and the whole."""
    checks, edits = {}, {}
    for seconds, crate, is_edit in list(seen.values()):
        sums = edits if is_edit else checks
        sums[crate] = sums.get(crate, 0) + seconds
    print(measured_table(read_crates(), checks, edits))
    named = [(sum(table.values()) - table.get(OTHER, 0)) / 60 for table in (checks, edits)]
    print(f"the whole: {children_seconds() / 60:.1f} processor minutes, of these {named[0]:.1f} for checks and what is "
          f"built for them, {named[1]:.1f} for edits; {minutes:.1f} minutes on {os.cpu_count()} processors")


def run_gate(command):
    """Runs the command, and prints what it cost in front of its last line; its status."""
    began = time.monotonic()
    run = subprocess.Popen(command, stdout=subprocess.PIPE)
    seen = {}
    threading.Thread(target=watch, args=(run.pid, seen), daemon=True).start()
    last = b""
    for line in run.stdout:
        sys.stdout.buffer.write(last)
        sys.stdout.buffer.flush()
        last = line
    status = run.wait()
    try:
        print_run(seen, (time.monotonic() - began) / 60)
    except Exception as error:  # what is measured decides nothing
        print(f"cost: the table can't be made: {error}")
    sys.stdout.flush()
    sys.stdout.buffer.write(last)
    sys.stdout.buffer.flush()
    return status if status >= 0 else 1


# Some crates, one at a time.


@contextlib.contextmanager
def set_aside(folder):
    """What stands in a folder is set aside; where what is done meanwhile fails or is stopped it comes back."""
    aside = folder.with_name(folder.name + ".aside")
    if folder.exists():
        folder.rename(aside)
    try:
        yield
    except BaseException:
        if aside.exists():
            shutil.rmtree(folder, ignore_errors=True)
            aside.rename(folder)
        raise
    shutil.rmtree(aside, ignore_errors=True)


def seconds_of(folder, *command):
    """The processor seconds of a command; where it fails the end of what it says is told, and nothing more is done."""
    before = children_seconds()
    ran = subprocess.run(command, cwd=folder, stdin=subprocess.DEVNULL, stdout=subprocess.PIPE,
                         stderr=subprocess.STDOUT, check=False)
    if ran.returncode:
        rows = ran.stdout.decode("utf-8", "replace").splitlines()
        sys.exit("\n".join([*rows[-20:], f"cost: {' '.join(command)} failed in {folder}"]))
    return children_seconds() - before


def build_below(crates, name):
    """Builds the libraries below a crate, the lowest first."""
    lower = below(crates, name)
    for it in (it for it in crates if it in lower):
        seconds_of(ROOT / "crates" / it, "rt", "lib", "--jobs", "1")


def check_from_nothing(crate):
    """The seconds of a crate's check, and of its check with tests where it has any."""
    folder = ROOT / "crates" / crate.name
    with set_aside(folder / "out"):
        seconds = seconds_of(folder, "rt", "check", "--jobs", "1")
    if any("#[test]" in file.read_text(encoding="utf-8") for file in crate.files("src", "rt")):
        with set_aside(folder / "out"):
            seconds += seconds_of(folder, "rt", "check", "--test", "--jobs", "1")
    return seconds


def measure(names, with_edits):
    """Measures some crates, and prints their table."""
    crates = read_crates()
    checks, edits = {}, {}
    for name, crate in crates.items():
        if name in names:
            build_below(crates, name)
            checks[name] = check_from_nothing(crate)
            if with_edits and crate.files("must-fail", "edit"):
                edits[name] = seconds_of(ROOT, "rt", "must-fail", name)
            print(f"{name}: {checks[name]:.0f} s, edits {edits.get(name, 0):.0f} s", file=sys.stderr, flush=True)
    print(measured_table(crates, checks, edits))
    print(f"together {sum(checks.values()) + sum(edits.values()):.0f} s")


# The functions of a crate.


def measure_functions(name):
    """Prints what each function took, by the moments at which its line comes."""
    build_below(read_crates(), name)
    folder = ROOT / "crates" / name
    took = []
    with set_aside(folder / "out"):
        began = last = time.monotonic()
        run = subprocess.Popen(["rt", "check", "--jobs", "1"], cwd=folder, stdin=subprocess.DEVNULL,
                               stdout=subprocess.PIPE, stderr=subprocess.STDOUT, text=True, errors="replace")
        for line in run.stdout:
            if found := re.match(r"checked (\S+), \d+ of \d+$", line):
                now = time.monotonic()
                took.append((now - last, found[1].removeprefix(f"{name}::")))
                last = now
        if run.wait():
            sys.exit(f"cost: rt check failed in {folder}")
    for seconds, function in sorted(took, reverse=True):
        print(f"{seconds:8.2f} {function}")
    print(f"{time.monotonic() - began:8.2f} s in all, {len(took)} functions; the first one has the loading of libraries, "
          "too")


# What is read for sums of libraries.


def print_paths(names):
    """The paths down from crates, and the files that are read on them."""
    crates = read_crates()

    @functools.cache
    def down(name):
        found = [down(it) for it in crates[name].libraries if it in crates]
        parts = [folder for part in ("src", "specs", "proofs") for folder in (ROOT / "crates" / name / part).rglob("*")]
        own = sum(1 for it in parts if it.is_file())
        return 1 + sum(paths for paths, _ in found), own + sum(files for _, files in found)

    for name in names or crates:
        print(f"{name:16} {down(name)[0]:>9,} paths {down(name)[1]:>11,} files")
    libraries = [name for name, crate in crates.items() if not crate.root().endswith("main.rt")]
    print(f"{'the gate':16} {'':>15} {2 * sum(down(name)[1] for name in libraries):>11,} files")


def main(words):
    signal.signal(signal.SIGTERM, lambda *_: sys.exit(130))
    if not words or words[0] == "--run":
        return run_gate(words[1:] or ["rt", "ci"])
    names = [word for word in words if not word.startswith("--")]
    options = [word for word in words if word.startswith("--")]
    unknown = [name for name in names if name not in read_crates()]
    if unknown:
        sys.exit(f"cost: no crate is named {' '.join(unknown)}")
    if options == ["--paths"]:
        print_paths(names)
    elif options == ["--functions"] and len(names) == 1:
        measure_functions(names[0])
    elif options in ([], ["--no-edits"]) and names:
        measure(names, not options)
    else:
        sys.exit(__doc__)
    return 0


if __name__ == "__main__":
    sys.exit(main(sys.argv[1:]))
