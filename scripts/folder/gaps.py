"""A log with a gap on a disk, and a folder that isn't there: each command tells it as its own refusal, and puts nothing."""

from pathlib import Path
import tempfile

from steps import CREATE, Program, batch, contents

APPEND = ("append", "DIR", "a")

# What each command tells of a log without its version 1, behind which version 2 stands.
GAPPED = (
    ((*APPEND, "2"), "refused S9 BadLog 1\n"),
    (("close", "DIR", "a"), "refused S9 BadLog 1\n"),
    (("checkpoint", "DIR"), "refused K7 BadLog 1\n"),
    (("snapshot", "DIR"), "refused K7 BadLog 1\n"),
)

# What is asked of a folder that isn't there: each is told F1, also what would be refused in any folder.
ABSENT = (
    CREATE,
    ("create", "DIR", "--id", "no", "--schema", "{}"),
    (*APPEND, "0"),
    ("append", "DIR", "a" * 65, "0"),
    (*APPEND, "1000000000000"),
    ("close", "DIR", "a" * 65),
    ("checkpoint", "DIR"),
    ("snapshot", "DIR"),
    ("history", "DIR"),
)


def commit_of(folder: Path, version: int) -> Path:
    return folder / "_delta_log" / f"{version:020}.json"


def made(program: Program, folder: Path) -> None:
    """Makes a table of three versions."""
    folder.mkdir()
    program.run(CREATE, folder)
    for number in range(2):
        program.run((*APPEND, str(number)), folder, batch("a", number, 2))


def try_words(program: Program, folder: Path, words: tuple[str, ...], told: str) -> list[str]:
    """Runs a command that has to tell this and to leave the folder as it was; what was wrong."""
    before = contents(folder)
    ended = program.run(words, folder, batch("a", 2, 2) if words[0] == "append" else "")
    faults = []
    if (ended.status, ended.told) != (1, told):
        faults.append(f"{' '.join(words)} is told {ended}, and not {told.strip()}")
    if contents(folder) != before:
        faults.append(f"{' '.join(words)} changed a folder of which it told {told.strip()}")
    return faults


def try_gaps(program: Program) -> list[str]:
    """What was wrong in folders whose log has a gap, or that aren't there."""
    faults = []
    with tempfile.TemporaryDirectory() as parent:
        gapped = Path(parent) / "gapped"
        made(program, gapped)
        commit_of(gapped, 1).unlink()
        for words, told in GAPPED:
            faults += try_words(program, gapped, words, told)
        behind = Path(parent) / "behind"
        made(program, behind)
        program.run(("checkpoint", "DIR"), behind)
        for version in range(2):
            commit_of(behind, version).unlink()
        faults += try_words(program, behind, (*APPEND, "2", "--no-checkpoint"), "refused S9 BadLog 0\n")
        absent = Path(parent) / "absent"
        for words in ABSENT:
            ended = program.run(words, absent, batch("a", 2, 2) if words[0] == "append" else "")
            if ended.status == 0 or f"refused F1 NotLoaded {absent}\n" not in ended.said:
                faults.append(f"{' '.join(words)} without a folder is told {ended}")
    return faults
