"""A table of many commits: it is checked whole, and its newest commit isn't passed over."""

from pathlib import Path
import shutil
import tempfile
import time

from steps import Program

SCHEMA = '{"type":"struct","fields":[{"name":"x","type":"string"}]}'
CREATE = ("create", "DIR", "--id", "00000000-0000-4000-8000-000000000001", "--schema", SCHEMA)
CHECK = ("check", "DIR")


def commit_name(version: int) -> str:
    return f"{version:020}.json"


def data_file_name(number: int) -> str:
    return f"part-61-{number:020}.parquet"


def grow(folder: Path, batches: int) -> None:
    """Makes a table whose batch 0 stands one of so many batches, each with the rows of batch 0."""
    rows = (folder / data_file_name(0)).read_bytes()
    commit = (folder / "_delta_log" / commit_name(1)).read_text()
    for number in range(1, batches):
        (folder / data_file_name(number)).write_bytes(rows)
        text = commit.replace(data_file_name(0), data_file_name(number)).replace('"version":0', f'"version":{number}')
        (folder / "_delta_log" / commit_name(number + 1)).write_text(text)


def try_large(program: Program, batches: int) -> tuple[float, list[str]]:
    """How many seconds a check of a table of so many batches takes, and the faults."""
    with tempfile.TemporaryDirectory() as parent:
        folder = Path(parent) / "t"
        folder.mkdir()
        program.run(CREATE, folder)
        program.run(("append", "DIR", "a", "0"), folder, '{"x":"tea"}\n')
        grow(folder, batches)
        start = time.monotonic()
        sound = program.run(CHECK, folder)
        seconds = time.monotonic() - start
        faults = []
        if (sound.status, sound.told, sound.said) != (0, f"sound {batches + 1}\n", ""):
            faults.append(f"a table of {batches} batches is told {sound}")
        shutil.copy(folder / data_file_name(0), folder / data_file_name(batches))
        last = folder / data_file_name(batches - 1)
        last.unlink()
        broken = program.run(CHECK, folder)
        told = f"unsound {batches}\nfile {last.name}: missing\n"
        if (broken.status, broken.told, broken.said) != (1, told, f'unnamed "{data_file_name(batches)}"\n'):
            faults.append(f"a table without its last file is told {broken}")
    return seconds, faults
