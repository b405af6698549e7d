"""A few rows of a long log behind a checkpoint: how many files are opened for them."""

from pathlib import Path
import tempfile

from large import CREATE, grow
from steps import Program
from traced import run_disturbed

# The batches of a table, and their last version, of which a checkpoint stands.
BATCHES = 400

# What is opened beside commits and the files of batches: the folders, and the checkpoint; and how many commits a front
# has for a row, and the commit of the checkpoint's version, which may be read once more.
OTHERS, MORE = 14, 6

# The version of the offset, and how many files of commits and batches a read of one row from there on opens, at least
# and at most. The commits in front of it tell the schema. A front is looked at first where it reads at most half of
# what the whole log does; else each commit is opened once. Where no batch has rows, the front is looked at in vain.
READS = ((1, 0, 2), (100, 100, 101), (180, 180, 181), (350, BATCHES + 1, BATCHES + 2))
WITHOUT_ROWS = ((1, 2 * BATCHES + 1, 2 * BATCHES + 1 + MORE),)


def made(program: Program, folder: Path, row: str) -> None:
    """Makes a table of batches each of which has this row, if it is one, and a checkpoint of its last version."""
    folder.mkdir()
    program.run(CREATE, folder)
    program.run(("append", "DIR", "a", "0"), folder, row)
    grow(folder, BATCHES)
    program.run(("checkpoint", "DIR"), folder)


def try_reads(program: Program, parent: Path, row: str, reads: tuple[tuple[int, int, int], ...]) -> list[str]:
    """What was wrong with reads of a row of a table whose batches have this one, or none."""
    folder, given = parent / f"t{len(row)}", parent / "given"
    made(program, folder, row)
    given.write_text("")
    faults = []
    for version, least, most in reads:
        offset = f'{{"file":0,"row":0,"version":{version}}}'
        words = program.words(("tail", "DIR", "--from", offset, "--max", "1"), folder)
        ended = run_disturbed(words, given, parent, folder, None)
        end = (1, version) if row else (0, BATCHES + 1)
        told = f'{row}next {{"file":0,"row":{end[0]},"version":{end[1]}}}\n'
        if (ended.status, ended.told) != (0, told):
            faults.append(f"a row from version {version} on is told {ended.status} {ended.told!r}")
        opened = ended.calls.count("open")
        if not least <= opened <= most + MORE + OTHERS:
            faults.append(f"{opened} files are opened for a row from version {version} on")
    return faults


def try_fronts(program: Program) -> list[str]:
    """What was wrong with reads of a row of long logs."""
    with tempfile.TemporaryDirectory() as parent:
        found = try_reads(program, Path(parent), '{"x":"tea"}\n', READS)
        return found + try_reads(program, Path(parent), "", WITHOUT_ROWS)
