#!/usr/bin/env python3
"""Measures what reads of hostile data files take: scripts/bench/pages.py [--program PATH] [--memory MIB] [SHAPE ..]

Each shape is a table in a temporary folder (TMPDIR), as another tool would write it: a commit that makes it, and one
that adds a data file. The file is small and asks for much: a run of two thousand million nulls, one page of packed
levels, or many columns or groups of rows that all state one and the same page. Of each the program `lake tail DIR --max
2` is run, and two things are looked at:

- its exit status and its answer, which have to be those that docs/FORMATS.md has for such a file ("Data files": rows,
  or the first fault in the order of the tests). They are computed here from what the file states, not by a program;
- the most memory that it held (VmHWM, read where it ends), which may be twice the file, 16 MiB, and 64 KiB for each
  column.

A line a shape: its name, the file's size, the seconds of the processor, the peak, its bound, and `ok`, or what is
amiss: `over` the bound; `short`, told O9 for want of memory; `wrong`, and then a line says what was told. `leaves-64`
is 64 columns that state one page, `struct-16` 16 columns in a struct that may be null, `groups-64` 64 groups of rows of
such a struct, `page-8MiB` a page with 8 MiB of levels. Shapes are named to try these alone. A run may take 2,048 MiB of
addresses (`--memory`), and is refused more, and 120 seconds of the processor, behind which it is ended.

It ends with status 0 where all is ok, 1 where something is amiss, and 2 where nothing can be tried. Run `make lake`
before it. With Python 3.11, without a package, on x86-64 Linux.
"""

from collections.abc import Iterator
from dataclasses import dataclass
from pathlib import Path
from typing import Any, BinaryIO
import argparse
import ctypes
import errno
import json
import os
import resource
import shutil
import signal
import struct
import sys
import tempfile

SCRIPTS = Path(__file__).resolve().parents[1]
sys.path += [str(SCRIPTS / "folder"), str(SCRIPTS / "model")]

from parquet_writer import DATA_PAGE, MAGIC, PLAIN, RLE, THRIFT_STRUCT, Leaf, column_chunk, file_meta_data
from parquet_writer import i32_field, i64_field, leaves, list_field, struct_field, thrift_struct, varint
from steps import is_built
from traced import KILL_WITH_TRACER, SET_OPTIONS, CannotTrace, ask, begin, libc

LAKE = SCRIPTS.parent / "crates" / "lake" / "out" / "lake"
KIB, MIB = 1 << 10, 1 << 20

# What docs/FORMATS.md has of files that are read.
LARGEST_FILE, MOST_ROWS = 64 * MIB, 4_194_304

# What a read may take: twice the file, this, and this for each column.
ROOM, ROOM_OF_A_LEAF = 16 * MIB, 64 * KIB

SECONDS = 120

# What a read is told where it is refused memory.
NO_MEMORY = "refused O9 Memory\n"

FILE = "hostile.parquet"

# Of the system's tracing: to go on, to stop at a process's end, and how such a stop is told.
CONTINUE, STOP_AT_END, AT_END = 7, 0x40, signal.SIGTRAP | 6 << 8


@dataclass(frozen=True)
class Shape:
    """A file of columns that all state one and the same page, in each group of rows.

    A column is a boolean that may be null, at the top or in a struct that may be null. The page has so many levels:
    packed ones, 0 and 1 in turn, or one run of 0. Each group claims so many rows.
    """

    name: str
    columns: int
    levels: int
    rows: int
    in_struct: bool = False
    packed: bool = True
    groups: int = 1

    def schema(self) -> dict[str, Any]:
        fields = [
            {"name": f"c{number:03}", "type": "boolean", "nullable": True, "metadata": {}}
            for number in range(self.columns)
        ]
        if self.in_struct:
            inside = {"type": "struct", "fields": fields}
            fields = [{"name": "s", "type": inside, "nullable": True, "metadata": {}}]
        return {"type": "struct", "fields": fields}

    def row(self, level: int) -> dict[str, Any]:
        """The row whose levels are all this one, 0 or 1; a value is true."""
        if self.in_struct and level == 0:
            return {"s": None}
        value = True if level == 1 and not self.in_struct else None
        row = {f"c{number:03}": value for number in range(self.columns)}
        return {"s": row} if self.in_struct else row

    def answer(self, size: int) -> tuple[int, str]:
        """The exit status and the answer of a read of two rows, of a file of this size, by the order of the tests: P9
        for the file, P9 for the rows claimed, and then, since each page is right by itself, P7 for another count of
        values than of rows."""
        if size > LARGEST_FILE or self.rows * self.groups > MOST_ROWS:
            return 1, "refused O5 BadFile 1 0 P9 TooLarge\n"
        if self.levels != self.rows:
            return 1, "refused O5 BadFile 1 0 P7 CountMismatch\n"
        levels = [0, 1] if self.packed else [0, 0]
        rows = [json.dumps(self.row(level), separators=(",", ":")) for level in levels]
        return 0, "\n".join([*rows, 'next {"file":0,"row":2,"version":1}']) + "\n"

    def bound(self, size: int) -> int:
        """How much memory a read may take of a file of this size."""
        return 2 * size + ROOM + self.columns * ROOM_OF_A_LEAF


def page_of(levels: int) -> str:
    """The name of a page of so many packed levels of a bit each."""
    size = levels // 8
    return f"page-{size // MIB}MiB" if size % MIB == 0 else f"page-{size // KIB}KiB"


def shapes() -> Iterator[Shape]:
    yield Shape("nulls", 1, MOST_ROWS, MOST_ROWS, packed=False)
    yield Shape("nulls-2^31", 1, (1 << 31) - 1, MOST_ROWS, packed=False)
    for size in (512 * KIB, MIB, 8 * MIB, 40 * MIB):
        yield Shape(page_of(8 * size), 1, 8 * size, MOST_ROWS)
    for columns in (4, 64, 256):
        yield Shape(f"leaves-{columns}", columns, MOST_ROWS, MOST_ROWS)
    for columns in (4, 16):
        yield Shape(f"struct-{columns}", columns, MOST_ROWS, MOST_ROWS, in_struct=True)
    yield Shape("groups-64", 16, MOST_ROWS // 64, MOST_ROWS // 64, in_struct=True, groups=64)


def body_parts(shape: Shape) -> list[tuple[bytes, int]]:
    """The body of the shape's page, as bytes that are repeated so often."""
    if not shape.packed:
        run = varint(2 * shape.levels) + b"\0"
        return [(struct.pack("<I", len(run)) + run, 1)]
    # The levels 0, 1, 0, 1, .. of one bit each, or of two in a struct. Of the first ones every second is a value.
    levels_of_eight = b"\x44\x44" if shape.in_struct else b"\xaa"
    groups = shape.levels // 8
    head = varint(2 * groups + 1)
    size = len(head) + groups * len(levels_of_eight)
    values = 0 if shape.in_struct else shape.levels // 2 // 8
    return [(struct.pack("<I", size) + head, 1), (levels_of_eight, groups), (b"\xff", values)]


def page_head(shape: Shape, size: int) -> bytes:
    """The header of a data page of version 1 with a body of this size."""
    inside = thrift_struct(i32_field(1, shape.levels), i32_field(2, PLAIN), i32_field(3, RLE), i32_field(4, RLE))
    return thrift_struct(i32_field(1, DATA_PAGE), i32_field(2, size), i32_field(3, size), struct_field(5, inside))


def write_repeated(file: BinaryIO, part: bytes, times: int) -> None:
    """Writes bytes so often, a MiB of them at a time."""
    at_once = max(1, MIB // len(part))
    for done in range(0, times, at_once):
        file.write(part * min(at_once, times - done))


def write_file(shape: Shape, path: Path) -> int:
    """Writes the shape's file, and tells its size."""
    parts = body_parts(shape)
    size = sum(len(part) * times for part, times in parts)
    head = page_head(shape, size)
    fields = shape.schema()["fields"]
    columns: list[Leaf] = list(leaves(fields))
    chunks = [column_chunk(leaf, shape.levels, len(MAGIC), len(head) + size) for leaf in columns]
    group = thrift_struct(
        list_field(1, THRIFT_STRUCT, chunks),
        i64_field(2, len(chunks) * (len(head) + size)),
        i64_field(3, shape.rows),
    )
    footer = file_meta_data(fields, shape.rows * shape.groups, [group] * shape.groups)
    with path.open("wb") as file:
        file.write(MAGIC + head)
        for part, times in parts:
            write_repeated(file, part, times)
        file.write(footer + struct.pack("<I", len(footer)) + MAGIC)
        return file.tell()


def write_table(shape: Shape, folder: Path) -> int:
    """Makes the shape's table, and tells the size of its data file."""
    log = folder / "_delta_log"
    log.mkdir(parents=True)
    size = write_file(shape, folder / FILE)
    meta_data = {
        "id": "00000000-0000-4000-8000-000000000001",
        "format": {"provider": "parquet", "options": {}},
        "schemaString": json.dumps(shape.schema()),
        "partitionColumns": [],
        "configuration": {},
    }
    add = {"path": FILE, "partitionValues": {}, "size": size, "modificationTime": 0, "dataChange": True}
    commits: list[list[dict[str, Any]]] = [
        [{"protocol": {"minReaderVersion": 1, "minWriterVersion": 2}}, {"metaData": meta_data}],
        [{"add": add}],
    ]
    for version, actions in enumerate(commits):
        text = "".join(json.dumps(action) + "\n" for action in actions)
        (log / f"{version:020}.json").write_text(text)
    return size


@dataclass
class Ended:
    """How a run ended: its status, below 0 that of a signal; its answer; the processor's seconds; and its peak."""

    status: int
    told: str
    seconds: float
    peak: int


def peak_of(process: int) -> int:
    """The most memory that a process has held so far."""
    for line in Path(f"/proc/{process}/status").read_text().splitlines():
        if line.startswith("VmHWM:"):
            return int(line.split()[1]) * KIB
    raise CannotTrace("the system doesn't tell a process's peak")


def run(words: list[str], scratch: Path, memory: int) -> Ended:
    """Runs a command with no more than so many bytes of addresses, and stops at its end to look at its peak."""
    told = scratch / "told"
    process = begin(words, Path(os.devnull), told, scratch / "said")
    ask(SET_OPTIONS, process, STOP_AT_END | KILL_WITH_TRACER)
    resource.prlimit(process, resource.RLIMIT_AS, (memory, memory))
    resource.prlimit(process, resource.RLIMIT_CPU, (SECONDS, SECONDS + 5))
    resource.prlimit(process, resource.RLIMIT_CORE, (0, 0))
    passed_on = peak = 0
    while True:
        if libc.ptrace(CONTINUE, process, None, passed_on) < 0 and ctypes.get_errno() != errno.ESRCH:
            raise CannotTrace(os.strerror(ctypes.get_errno()))
        _, status, used = os.wait4(process, 0)
        passed_on = 0
        if os.WIFEXITED(status) or os.WIFSIGNALED(status):
            code = os.waitstatus_to_exitcode(status)
            return Ended(code, told.read_text(errors="replace"), used.ru_utime + used.ru_stime, peak)
        if status >> 8 == AT_END:
            peak = peak_of(process)
        elif os.WSTOPSIG(status) != signal.SIGTRAP:
            passed_on = os.WSTOPSIG(status)


def short(text: str) -> str:
    """A text in a line."""
    return repr(text if len(text) <= 100 else text[:80] + f".. ({len(text)} characters)")


def try_shape(program: Path, shape: Shape, memory: int) -> bool:
    """Makes a shape's table, has it read, and prints what came; whether it is as it has to be."""
    with tempfile.TemporaryDirectory() as parent:
        scratch = Path(parent)
        folder = scratch / "t"
        size = write_table(shape, folder)
        ended = run([str(program), "tail", str(folder), "--max", "2"], scratch, memory)
        shutil.rmtree(folder)
    status, answer = shape.answer(size)
    bound = shape.bound(size)
    verdicts = []
    if ended.peak > bound:
        verdicts.append("over")
    if (ended.status, ended.told) == (1, NO_MEMORY):
        verdicts.append("short")
    elif (ended.status, ended.told) != (status, answer):
        verdicts.append("wrong")
    verdict = ", ".join(verdicts) or "ok"
    print(f"{shape.name:<12} {size:>10,} {ended.seconds:>8.2f} {ended.peak / MIB:>9.1f} {bound / MIB:>9.1f}  {verdict}")
    if "wrong" in verdicts:
        print(f"   told {short(ended.told)} with {ended.status}, and not {short(answer)} with {status}")
    sys.stdout.flush()
    return not verdicts


def words() -> argparse.Namespace:
    parser = argparse.ArgumentParser(description=__doc__.split("\n")[0])
    parser.add_argument("--program", type=Path, default=LAKE, help="the program; crates/lake/out/lake if not given")
    parser.add_argument("--memory", type=int, default=2_048, help="how many MiB of addresses a run may take")
    parser.add_argument("shapes", nargs="*", metavar="SHAPE", help="the shapes to try; all if none is given")
    return parser.parse_args()


def main() -> int:
    asked = words()
    if not is_built(asked.program):
        return 2
    known = {shape.name: shape for shape in shapes()}
    unknown = [name for name in asked.shapes if name not in known]
    if unknown:
        print(f"no shape is named {', '.join(unknown)}; there are {', '.join(known)}", file=sys.stderr)
        return 2
    chosen = [known[name] for name in asked.shapes or known]
    print(f"{'shape':<12} {'bytes':>10} {'seconds':>8} {'peak MiB':>9} {'bound MiB':>9}")
    try:
        fine = [try_shape(asked.program.resolve(), shape, asked.memory * MIB) for shape in chosen]
    except CannotTrace as error:
        print(f"nothing can be tried: {error}", file=sys.stderr)
        return 2
    print(f"{len(fine)} shapes, {fine.count(False)} of them not ok")
    return 0 if all(fine) else 1


if __name__ == "__main__":
    sys.exit(main())
