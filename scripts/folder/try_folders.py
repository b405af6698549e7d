"""Tries the built program on folders of a disk, in a temporary directory (TMPDIR), and says what it tried.

`python3 scripts/folder/try_folders.py [--program PATH] [--jobs N] [--seconds N] [--races N]`

- Create, append, close, checkpoint, `history`, `tail` and `check` are run on small tables, each call of the system
  disturbed in turn: the process is killed at it, a write is torn, a call fails or is told as failed though it had its
  effect. What stands then is looked at, the same command is run again, and the folder has to be the one that an
  undisturbed run leaves, byte by byte.
- Several processes race on one folder: producers that are killed at any moment, two of them with the same batches,
  checkpoints, and readers. Each batch that was told as standing has to stand once, whole and in order.
- Behind each disturbed call and each race `check` has to tell the table sound, with the count of its commits, and beside
  it just the leftovers and the data files without a commit that are on the disk. It has to tell the same behind the
  command that is run again, where something was left over: else that folder is the undisturbed one, which is checked once.
- A table of 10,000 batches is checked, whole and without its last file.
- Of a log with a gap, and of a folder that isn't there, each command has to tell its own refusal.
- A commit of another tool adds files of odd paths: the rows before it are told, and then that the file is missing, as a
  script is told it. What is no plain file lies under the name of a file that is to be made, and no name is free to write
  it under: an append is refused and says why, and is done once that is taken away.
- For a row of a long log behind a checkpoint few commits are opened, where those in front of it are few, and else each
  once.

It ends with status 0 where all held, 1 where something didn't, and 2 where nothing can be tried. A kill loses no write
that the system took: cuts of power aren't tried.
"""

from collections import Counter
from pathlib import Path
import argparse
import multiprocessing
import os
import random
import sys
import time

from fronts import try_fronts
from gaps import try_gaps
from large import try_large
from others import NAMES, PATHS, THINGS, try_others
from races import run_creates, run_race
from steps import STEPS, Prepared, Program, disturbances, is_built, leftovers, prepare, try_one
from traced import CannotTrace, Disturbance

LAKE = Path(__file__).resolve().parents[2] / "crates" / "lake" / "out" / "lake"

# Rounds of processes that create the same table, and how many they are; the leftovers that an append has to bear.
CREATES, CREATORS, LEFTOVERS = 20, 4, 1_200

# The batches of a table that is checked.
BATCHES = 10_000

Task = tuple[Program, Prepared, Disturbance]


def tried(task: Task) -> tuple[str, list[str]]:
    program, prepared, disturbance = task
    return disturbance.act, try_one(program, prepared, disturbance)


def try_calls(program: Program, jobs: int, end: float) -> tuple[Counter[str], int, list[str]]:
    """Disturbs each call of each step: how many of each kind were tried, how many weren't for want of time, and what
    was wrong."""
    tasks: list[Task] = []
    for step in STEPS:
        prepared = prepare(program, step)
        tasks += [(program, prepared, disturbance) for disturbance in disturbances(prepared.calls)]
    # Where time runs out, some of each step were tried.
    random.Random(0).shuffle(tasks)
    counts: Counter[str] = Counter()
    faults: list[str] = []
    with multiprocessing.Pool(jobs) as pool:
        for act, found in pool.imap_unordered(tried, tasks):
            counts[act] += 1
            faults += found
            if time.monotonic() > end:
                break
    return counts, len(tasks) - counts.total(), faults


def try_races(program: Program, races: int, end: float) -> tuple[int, Counter[str], list[str]]:
    """Runs races: how many, what their processes were told, and the faults."""
    told: Counter[str] = Counter()
    faults: list[str] = []
    for seed in range(races):
        if time.monotonic() > end:
            return seed, told, faults
        replies, found = run_race(program, seed)
        told += replies
        faults += found
    return races, told, faults


def words() -> argparse.Namespace:
    parser = argparse.ArgumentParser(description=__doc__.split("\n")[0])
    parser.add_argument("--program", type=Path, default=LAKE, help="the program; crates/lake/out/lake if not given")
    parser.add_argument("--jobs", type=int, default=min(4, os.cpu_count() or 1), help="how many at once")
    parser.add_argument("--seconds", type=float, default=110.0, help="when to stop, also where not all was tried")
    parser.add_argument("--races", type=int, default=8, help="how many races")
    return parser.parse_args()


def main() -> int:
    asked = words()
    if not is_built(asked.program):
        return 2
    program, start = Program(asked.program.resolve()), time.monotonic()
    try:
        counts, untried, faults = try_calls(program, asked.jobs, start + asked.seconds * 0.7)
    except (CannotTrace, AssertionError) as error:
        print(f"nothing was tried: {error}", file=sys.stderr)
        return 2
    faults += leftovers(program, LEFTOVERS)
    faults += run_creates(program, CREATES, CREATORS)
    seconds, found = try_large(program, BATCHES)
    faults += found + try_gaps(program) + try_fronts(program)
    races, told, found = try_races(program, asked.races, start + asked.seconds)
    found += try_others(program)
    tell(counts, untried, races, told)
    print(f"a table of {BATCHES} batches was checked in {seconds:.1f} s")
    for fault in faults + found:
        print(f"wrong: {fault}")
    print(f"{len(faults + found)} wrong, {time.monotonic() - start:.0f} s")
    return 1 if faults or found else 0


def tell(counts: Counter[str], untried: int, races: int, told: Counter[str]) -> None:
    """Says what was tried."""
    kills = counts["kill"] + counts["torn"]
    print(f"{len(STEPS)} commands, each call of the system in turn: {counts.total()} disturbed, {kills} of them kills")
    print("   " + ", ".join(f"{act} {count}" for act, count in sorted(counts.items())))
    if untried:
        print(f"   {untried} not tried, for want of time")
    print(f"{CREATES} rounds of {CREATORS} creates at once; an append beside {LEFTOVERS} leftovers in each folder")
    print(f"{len(PATHS)} odd paths; {len(THINGS)} things under a file's name; an append beside {NAMES} leftovers")
    print(f"{races} races: {told.total()} commands, {told['killed']} of them killed at some moment")
    for reply, count in sorted(told.items()):
        print(f"   {count:6} {reply}")


if __name__ == "__main__":
    sys.exit(main())
