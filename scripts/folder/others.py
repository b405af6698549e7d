"""What other hands have put beside a table: paths of no file in a commit of another tool, things under the name of a
file that is to be made, and names that killed runs have left until none is free."""

from collections.abc import Callable
from pathlib import Path
import json
import os
import shutil
import tempfile

from large import CREATE, SCHEMA, commit_name, data_file_name
from steps import BEGINNING, ID, Program, contents, faults_of_check

ROW = '{"x":"tea"}'
NEXT = '{"file":0,"row":1,"version":1}'
APPEND = ("append", "DIR", "a", "1")

# The names under which a file is written before it gets its own: so many are tried.
NAMES = 100_000

# Paths as another tool's commit may give them, none of which is that of a data file that stands: what they decode to is
# no name of a table's file, or one that nobody has, or one that no file can have.
PATHS = (
    "",
    ".",
    "..",
    "/",
    "/dev/null",
    "../absent.parquet",
    "sub/absent.parquet",
    "absent.parquet/",
    "absent.parquet",
    ".new-0",
    "_delta_log",
    "_delta_log/",
    "_delta_log/.",
    "_delta_log/..",
    "_delta_log/absent.parquet",
    "_delta_log/sub/absent.parquet",
    "_delta_log/0000000000000000009.json",
    "%5fdelta_log/",
    "_delta_log%2Fabsent%2eparquet",
    "%00",
    "x" * 300,
    "_delta_log/" + "x" * 300,
)

# What lies under a name and is no plain file.
THINGS: dict[str, Callable[[Path], None]] = {
    "a folder": lambda path: path.mkdir(),
    "a pipe": lambda path: os.mkfifo(path),
    "a dangling link": lambda path: path.symlink_to("absent"),
    "a link to a file": lambda path: path.symlink_to(Path(__file__).resolve()),
}

# What is told to do about these, and where no name is free.
NO_FILE = "hint: what lies under this name is no plain file: move it away and run the same command again\n"
NO_NAME = (
    "hint: 100,000 files that killed runs have left lie in its folder: "
    "remove .new-0, .new-1 and so on while no process writes to the table\n"
)


def made(program: Program, folder: Path) -> None:
    """Makes a table of one batch with one row."""
    folder.mkdir()
    program.run(CREATE, folder)
    program.run(("append", "DIR", "a", "0"), folder, ROW + "\n")


# ---- paths of another tool


def added(path: str) -> str:
    """A commit's line that adds the file of that path, as another tool writes it."""
    add = {"path": path, "partitionValues": {}, "size": 4, "modificationTime": 0, "dataChange": True}
    return json.dumps({"add": add}, separators=(",", ":"))


def script(path: str) -> str:
    """The lines of a script that makes the same table, has another tool's commit put, and reads it."""
    lines = (
        f"create {ID} 0 {SCHEMA}",
        f"append a 0 0 [{ROW}]",
        f"foreign 2 {added(path)}",
        f"tail 100 {BEGINNING}",
        f"tail 100 {NEXT}",
    )
    return "".join(line + "\n" for line in lines)


def try_path(program: Program, folder: Path, path: str) -> list[str]:
    """Reads a table whose last commit adds the file of that path: the rows before it are told, and then that it is
    missing, by the command as by a script."""
    (folder / "_delta_log" / commit_name(2)).write_text(added(path) + "\n")
    rows, refused = f"{ROW}\nnext {NEXT}\n", f"refused O6 MissingFile {path}\n"
    faults = []
    for offset, wanted in ((BEGINNING, (0, rows)), (NEXT, (1, refused))):
        ended = program.run(("tail", "DIR", "--from", offset, "--max", "100"), folder)
        if (ended.status, ended.told) != wanted:
            faults.append(f"a read from {offset} before the path {path[:40]!r} is told {ended}")
    ended = program.run(("script",), folder, script(path))
    if (ended.status, ended.told) != (0, f"Created 0\nCommitted 1\ncreated\n{rows}{refused}"):
        faults.append(f"a script with the path {path[:40]!r} is told {ended}")
    return faults


# ---- an append that can't make its file


def try_refused(program: Program, folder: Path, name: str, hint: str) -> list[str]:
    """Runs an append twice that has to be refused for that file, with that hint, and to leave what stood."""
    before, faults = contents(folder), []
    for _ in range(2):
        ended = program.run(APPEND, folder, ROW + "\n")
        if (ended.status, ended.told) != (1, "") or not is_told(ended.said, name, hint):
            faults.append(f"an append is told {ended}, and not that {name} isn't saved")
    after = contents(folder)
    if any(after.get(kept) != data for kept, data in before.items()) or is_put(folder):
        faults.append(f"an append that {name} stopped changed what stood, or put its commit")
    return faults


def is_told(said: str, name: str, hint: str) -> bool:
    return said.startswith(f"refused F2 NotSaved {name}\n") and said.endswith(hint)


def is_put(folder: Path) -> bool:
    path = folder / "_delta_log" / commit_name(2)
    return path.is_file() and not path.is_symlink()


def try_taken(program: Program, folder: Path) -> list[str]:
    """The same append, once nothing is in its way: it is done, and the table is sound."""
    ended = program.run(APPEND, folder, ROW + "\n")
    faults = [] if (ended.status, ended.told) == (0, "Committed 2\n") else [f"an append then is told {ended}"]
    return faults + faults_of_check(program, folder)


def try_thing(program: Program, folder: Path, what: str, name: str) -> list[str]:
    """An append under the name of whose file that thing lies, and once more when it is moved away."""
    path = folder / name
    THINGS[what](path)
    mode = path.lstat().st_mode
    faults = try_refused(program, folder, name, NO_FILE)
    if path.lstat().st_mode != mode:
        faults.append("it was changed")
    path.rmdir() if path.is_dir() and not path.is_symlink() else path.unlink()
    return [f"{what} under {name}: {fault}" for fault in faults + try_taken(program, folder)]


def try_names(program: Program, folder: Path, place: Path, name: str) -> list[str]:
    """An append where no name is free to write that file under, and once more when one is."""
    for number in range(NAMES):
        (place / f".new-{number}").touch()
    faults = try_refused(program, folder, name, NO_NAME)
    (place / f".new-{NAMES - 1}").unlink()
    return [f"{NAMES} leftovers before {name}: {fault}" for fault in faults + try_taken(program, folder)]


def try_others(program: Program) -> list[str]:
    """What was wrong with what other hands have put beside a table."""
    names = (data_file_name(1), f"_delta_log/{commit_name(2)}")
    faults = []
    with tempfile.TemporaryDirectory() as parent:
        folder, fresh = Path(parent) / "t", Path(parent) / "fresh"
        made(program, fresh)
        for path in PATHS:
            shutil.copytree(fresh, folder)
            faults += try_path(program, folder, path)
            shutil.rmtree(folder)
        for name in names:
            for what in THINGS:
                shutil.copytree(fresh, folder)
                faults += try_thing(program, folder, what, name)
                shutil.rmtree(folder)
            shutil.copytree(fresh, folder)
            faults += try_names(program, folder, (folder / name).parent, name)
            shutil.rmtree(folder)
    return faults
