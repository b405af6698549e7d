"""Each command on a folder, disturbed at each of its calls of the system, and what has to stand behind it."""

from dataclasses import dataclass
from pathlib import Path
import json
import os
import re
import shutil
import subprocess
import sys
import tempfile

from traced import Disturbance, Ended, run_disturbed

ID = "00000000-0000-4000-8000-000000000001"
BEGINNING = '{"file":0,"row":0,"version":0}'
SCHEMA = json.dumps(
    {
        "type": "struct",
        "fields": [
            {"name": "app", "type": "string", "nullable": False},
            {"name": "batch", "type": "long", "nullable": False},
            {"name": "row", "type": "integer"},
        ],
    }
)

# What may befall a call: any is killed at or fails, and some in further ways.
ACTS = {
    "read": ("short",),
    "write": ("torn", "short", "lost", "ENOSPC"),
    "open": ("lost", "ENOSPC", "EACCES", "EINVAL"),
    "stat": ("EACCES", "EINVAL"),
    "fsync": ("lost", "ENOSPC", "EINVAL"),
    "link": ("lost", "ENOSPC", "EACCES"),
    "mkdir": ("lost", "ENOSPC", "EACCES"),
    "unlink": ("lost", "EACCES"),
}

# The names of commits, and those of files that killed runs leave.
COMMIT = re.compile(r"_delta_log/[0-9]{20}\.json")
LEFTOVER = re.compile(r"\.new-[0-9]+")

# What a folder holds: the bytes of each plain file, by its name.
Files = dict[str, bytes]


def batch(app: str, number: int, count: int) -> str:
    """The rows of a batch, as an append reads them and a `tail` prints them."""
    rows = ({"app": app, "batch": number, "row": row} for row in range(count))
    return "".join(json.dumps(row, separators=(",", ":")) + "\n" for row in rows)


@dataclass(frozen=True)
class Step:
    """A command that is tried: what is done before it, what it answers, and what the same command answers behind it.

    `mark` is the file that it puts last, without which nothing of it counts, or `None` where it puts none.
    """

    name: str
    before: tuple[tuple[str, ...], ...]
    words: tuple[str, ...]
    reply: str
    again: str
    again_status: int = 0
    mark: str | None = None
    rows: str = ""
    lacks: str | None = None


def commit(version: int) -> str:
    return f"_delta_log/{version:020}.json"


CREATE = ("create", "DIR", "--id", ID, "--schema", SCHEMA)
FIRST = ("append", "DIR", "shop", "0")
SECOND = ("append", "DIR", "shop", "1")
TAIL = ("tail", "DIR", "--from", BEGINNING, "--max", "100")
ROWS = {FIRST: batch("shop", 0, 3), SECOND: batch("shop", 1, 2)}
PAST = (CREATE, FIRST, ("checkpoint", "DIR"), SECOND)
DATA = "part-73686f70-00000000000000000000.parquet"


def told(rows: str, version: int) -> str:
    return rows + f'next {{"file":0,"row":0,"version":{version}}}\n'


STEPS = (
    Step("create", (), CREATE, "Created 0\n", "refused E1 TableExists\n", 1, mark=commit(0)),
    Step("append", (CREATE,), FIRST, "Committed 1\n", "Already 0\n", mark=commit(1), rows=ROWS[FIRST]),
    Step("append behind a checkpoint", PAST[:3], SECOND, "Committed 2\n", "Already 1\n", mark=commit(2),
         rows=ROWS[SECOND]),
    Step("append whose data file stands", (CREATE, FIRST), FIRST, "Committed 1\n", "Already 0\n", mark=commit(1),
         rows=ROWS[FIRST], lacks=commit(1)),
    Step("append of what stands", PAST, SECOND, "Already 1\n", "Already 1\n", rows=ROWS[SECOND]),
    Step("close", PAST, ("close", "DIR", "shop"), "Closed 3\n", "AlreadyClosed\n", mark=commit(3)),
    Step("checkpoint", (CREATE, FIRST), ("checkpoint", "DIR"), "Checkpointed 1\n", "Checkpointed 1\n",
         mark="checkpoint"),
    Step("checkpoint behind one", PAST, ("checkpoint", "DIR"), "Checkpointed 2\n", "Checkpointed 2\n",
         mark="checkpoint"),
    Step("history", PAST, ("history", "DIR"), '0\n1 txn "shop" 0\n2 txn "shop" 1\n',
         '0\n1 txn "shop" 0\n2 txn "shop" 1\n'),
    Step("tail", PAST, TAIL, told(ROWS[FIRST] + ROWS[SECOND], 3), told(ROWS[FIRST] + ROWS[SECOND], 3)),
    Step("check", PAST, ("check", "DIR"), "sound 3\n", "sound 3\n"),
)


def is_built(program: Path) -> bool:
    """Whether the program is there. Where it isn't, standard error is told what makes it."""
    if os.access(program, os.X_OK):
        return True
    print(f"there is no {program}: run 'make lake' first", file=sys.stderr)
    return False


class Program:
    """The program, run on a folder without a disturbance."""

    def __init__(self, path: Path) -> None:
        self.path = path

    def words(self, words: tuple[str, ...], folder: Path) -> list[str]:
        return [str(self.path), *(str(folder) if word == "DIR" else word for word in words)]

    def run(self, words: tuple[str, ...], folder: Path, rows: str = "") -> Ended:
        ended = subprocess.run(self.words(words, folder), input=rows, capture_output=True, text=True, timeout=60)
        return Ended(ended.returncode, ended.stdout, ended.stderr)


def contents(folder: Path) -> Files:
    """The files of a folder, but for those whose names begin with `.`."""
    files = (path for path in folder.rglob("*") if path.is_file() and not path.name.startswith("."))
    return {str(path.relative_to(folder)): path.read_bytes() for path in files}


def fill(folder: Path, files: Files) -> None:
    """Makes a folder of these files."""
    folder.mkdir()
    for name, data in files.items():
        path = folder / name
        path.parent.mkdir(exist_ok=True)
        path.write_bytes(data)


@dataclass(frozen=True)
class Prepared:
    """A step with what the folder holds before it and behind it, and what the reads tell then."""

    step: Step
    before: Files
    after: Files
    reads_before: tuple[str, str]
    reads_after: tuple[str, str]
    calls: list[str]


def reads(program: Program, folder: Path) -> tuple[str, str]:
    """What `history` and a `tail` from the beginning tell."""
    return program.run(("history", "DIR"), folder).told, program.run(TAIL, folder).told


def prepare(program: Program, step: Step) -> Prepared:
    """Runs a step undisturbed, and looks that it answers as it should and leaves a sound table."""
    with tempfile.TemporaryDirectory() as place:
        scratch, folder = Path(place), Path(place) / "table"
        folder.mkdir()
        for words in step.before:
            ended = program.run(words, folder, ROWS.get(words, ""))
            assert ended.status == 0, f"{words[0]}: {ended.told}{ended.said}"
        if step.lacks is not None:
            (folder / step.lacks).unlink()
        before, reads_before = contents(folder), reads(program, folder)
        (scratch / "rows").write_text(step.rows)
        ended = run_disturbed(program.words(step.words, folder), scratch / "rows", scratch, folder, None)
        assert (ended.status, ended.told) == (0, step.reply), f"{step.name}: {ended}"
        unsound = faults_of_check(program, folder)
        assert not unsound, f"{step.name}: {unsound}"
        return Prepared(step, before, contents(folder), reads_before, reads(program, folder), ended.calls)


def left_behind(folder: Path) -> list[str]:
    """The files that killed runs left in a folder and in its log's folder, in the order of their names' bytes."""
    files = (path for path in folder.rglob(".new-*") if path.is_file() and LEFTOVER.fullmatch(path.name))
    return sorted((str(path.relative_to(folder)) for path in files), key=os.fsencode)


def added_by(commit: bytes) -> set[str]:
    """The data files that a commit adds; none where it isn't whole."""
    try:
        actions = [json.loads(line) for line in commit.splitlines()]
        return {action["add"]["path"] for action in actions if "add" in action}
    except (ValueError, TypeError, KeyError):
        return set()


def without_commit(files: Files) -> list[str]:
    """The data files that no commit adds, in the order of their names' bytes."""
    added = set().union(*(added_by(data) for name, data in files.items() if COMMIT.fullmatch(name)))
    return sorted((name for name in files if name.endswith(".parquet") and name not in added), key=os.fsencode)


def faults_of_check(program: Program, folder: Path) -> list[str]:
    """A check tells the folder's table sound, with the count of its commits, or that no table stands there. Beside it lie
    just the leftovers and the data files without a commit that are on the disk, and nothing else is told."""
    files = contents(folder)
    ended = program.run(("check", "DIR"), folder)
    count = sum(1 for name in files if COMMIT.fullmatch(name))
    wanted = (0, f"sound {count}\n") if count else (1, "refused K7 BadLog 0\n")
    faults = []
    if (ended.status, ended.told) != wanted:
        faults.append(f"check: status {ended.status} with {ended.told!r} {ended.said!r}, where {wanted!r} was to come")
    beside = [f"leftover {json.dumps(name)}" for name in left_behind(folder)]
    beside += [f"unnamed {json.dumps(name)}" for name in without_commit(files)]
    said = ended.said.splitlines()
    meaning = [] if count else [line for line in said[:1] if line.startswith("K7 BadLog: ")]
    if said != meaning + beside or len(meaning) != (count == 0):
        faults.append(f"check: tells {ended.said[:500]!r} beside the table, and there are {beside[:5]} ({len(beside)})")
    return faults


def disturbances(calls: list[str]) -> list[Disturbance]:
    """All that may befall these calls."""
    return [
        Disturbance(number, act)
        for number, call in enumerate(calls)
        for act in ("kill", "EIO", *ACTS.get(call, ()))
    ]


def is_done(prepared: Prepared, files: Files) -> bool:
    """Whether what the step puts stands."""
    new = prepared.after.keys() - prepared.before.keys()
    mark = prepared.step.mark
    return mark is not None and any(mark in name for name in new & files.keys())


def faults_of_files(prepared: Prepared, files: Files) -> list[str]:
    """What stood stands, and what is new is what the undisturbed step puts, byte by byte."""
    lost = [f"{name} is gone or changed" for name, data in prepared.before.items() if files.get(name) != data]
    half = [f"{name} isn't what is put" for name, data in files.items() if prepared.after.get(name) != data]
    return lost + half


def faults_of_end(prepared: Prepared, ended: Ended, done: bool) -> list[str]:
    """A command that says that it is done has put all; else it refuses, or was killed."""
    step = prepared.step
    stands = done or step.mark is None
    if ended.status is None or ended.status == 0:
        whole = ended.told == step.reply
        if whole and not stands:
            return [f"told {ended.told!r}, and it doesn't stand"]
        return [] if whole or ended.status is None else [f"status 0 with {ended.told!r}"]
    # A reply that was written and told as lost stands before the refusal.
    refusal = (ended.told.removeprefix(step.reply) + ended.said).startswith("refused ")
    return [] if ended.status == 1 and refusal else [f"status {ended.status} with {ended.told!r} {ended.said!r}"]


def try_one(program: Program, prepared: Prepared, disturbance: Disturbance) -> list[str]:
    """Runs a step with one call disturbed, looks at what stands, runs it again, and looks once more. What stands is
    checked the first time, and once more where something was left over."""
    step = prepared.step
    with tempfile.TemporaryDirectory() as place:
        scratch, folder = Path(place), Path(place) / "table"
        fill(folder, prepared.before)
        (scratch / "rows").write_text(step.rows)
        ended = run_disturbed(program.words(step.words, folder), scratch / "rows", scratch, folder, disturbance)
        files = contents(folder)
        done = is_done(prepared, files)
        faults = [] if ended.disturbed else ["the call wasn't met again"]
        faults += faults_of_files(prepared, files) + faults_of_end(prepared, ended, done)
        faults += faults_of_check(program, folder)
        if step.name != "create" or done:
            wanted = prepared.reads_after if done or step.mark is None else prepared.reads_before
            faults += [] if reads(program, folder) == wanted else ["history or tail tell something else"]
        again = program.run(step.words, folder, step.rows)
        wanted_again = (step.again_status, step.again) if done or step.mark is None else (0, step.reply)
        if (again.status, again.told) != wanted_again:
            faults.append(f"again: status {again.status} with {again.told!r} {again.said!r}")
        faults += [] if contents(folder) == prepared.after else ["another folder than without the disturbance"]
        faults += [] if reads(program, folder) == prepared.reads_after else ["history or tail tell something else then"]
        # Where nothing was left over the folder is the undisturbed one, which was checked when the step was prepared.
        faults += faults_of_check(program, folder) if left_behind(folder) else []
    return [f"{step.name}, call {disturbance.call} ({disturbance.act}): {fault}" for fault in faults]


def leftovers(program: Program, count: int) -> list[str]:
    """A folder in which so many files were left by killed commands still takes a batch, and a check tells them all."""
    with tempfile.TemporaryDirectory() as place:
        folder = Path(place) / "table"
        folder.mkdir()
        program.run(CREATE, folder)
        for number in range(count):
            (folder / f".new-{number}").write_bytes(b"")
            (folder / "_delta_log" / f".new-{number}").write_bytes(b"half")
        ended = program.run(FIRST, folder, ROWS[FIRST])
        faults = [] if ended.told == "Committed 1\n" else [f"{ended.told}{ended.said}"]
        faults += faults_of_check(program, folder)
        shutil.rmtree(folder)
    return [f"{count} leftovers: {fault}" for fault in faults]
