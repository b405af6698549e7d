"""Whether the objects of a folder are a sound table, and what lies beside it: the answer of `check`.

Which objects are sound is told by `docs/DEFINITIONS.md` ("Table, holds, lawful, sound"), over Delta's PROTOCOL.md
("Delta Log Entries", "Actions", "Action Reconciliation", "Checkpoints"). Version by version the commit is looked at,
and then the checkpoints of that version by their names; the first thing that is wrong is told.
"""

from collections.abc import Iterator
from typing import Any
import re

from actions import Action, actions_of, closed_by, key_of, line_fault
from checkpoint import CHECKPOINT_NAME, action_line, left_by
from log import COMMIT_NAME, readable
from parquet_reader import ReadFault, read_file
from refusals import explained
from snapshot import Snapshot
from table import LARGEST_NUMBER, commit_name, compact, data_file_name

# What a run that was killed may leave of a file that it wrote.
LEFTOVER = re.compile(r"(_delta_log/)?\.new-[0-9]+")

# The protocol of a table, and what its metadata has beside an id, a moment and a schema.
PROTOCOL = {
    "minReaderVersion": 3,
    "minWriterVersion": 7,
    "readerFeatures": ["v2Checkpoint"],
    "writerFeatures": ["domainMetadata", "v2Checkpoint"],
}
PLAIN: dict[str, Any] = {"name": None, "description": None, "partitionColumns": [], "configuration": {}}
CLOSED = '{"closed":true}'


class Unsound(Exception):
    """Why a version is unsound."""


class TooLarge(Exception):
    """The name of a data file that isn't read, so that it isn't known whether it is one of the table's."""


def commit_version(name: str) -> int | None:
    """The version whose commit has a name."""
    match = COMMIT_NAME.fullmatch(name)
    return int(match[1]) if match is not None and int(match[1]) <= LARGEST_NUMBER else None


def checkpoint_version(name: str) -> int | None:
    """The version whose checkpoint has a name."""
    match = CHECKPOINT_NAME.fullmatch(name)
    return int(match[1]) if match is not None and int(match[1]) <= LARGEST_NUMBER else None


def created_schema(beside: list[Action]) -> dict[str, Any] | None:
    """The schema of the table that actions create, or None where they create none."""
    if [action.key for action in beside] != ["protocol", "metaData"]:
        return None
    protocol, meta_data = (action.fields for action in beside)
    told = meta_data["format"]
    is_plain = told.get("provider") in (None, "parquet") and not told.get("options")
    is_plain = is_plain and all(meta_data[name] == value for name, value in PLAIN.items())
    return readable(meta_data["schemaString"]) if is_plain and protocol == PROTOCOL else None


class Audit:
    """A look over a folder's objects, from version 0 on, and what the commits behind it leave."""

    def __init__(self, objects: dict[str, bytes]) -> None:
        self.objects = objects
        names = sorted(objects, key=str.encode)
        self.commits = {version for version in map(commit_version, names) if version is not None}
        self.checkpoints: dict[int, list[str]] = {}
        for name in names:
            version = checkpoint_version(name)
            if version is not None:
                self.checkpoints.setdefault(version, []).append(name)
        self.schema: dict[str, Any] = {}
        self.log: list[list[Action]] = []
        self.last: dict[str, int] = {}
        self.closed: set[str] = set()

    def look(self) -> None:
        """Goes over the versions; behind it the log is as long as the sound front."""
        while (version := len(self.log)) in self.commits:
            self.log.append(self.followed(version))
            for name in self.checkpoints.get(version, []):
                self.test_checkpoint(version, name)

    def followed(self, version: int) -> list[Action]:
        """The actions of the next commit, which has to follow the ones before it."""
        content = self.objects[commit_name(version)]
        fault = line_fault(content)
        if fault is not None:
            raise Unsound(f"commit {version}: {fault}")
        actions = actions_of(content) or []
        beside = [action for action in actions if action.key != "commitInfo"]
        if version == 0:
            schema = created_schema(beside)
            if schema is None:
                raise Unsound("commit 0: no creation of a table")
            self.schema = schema
        elif not self.is_close(beside):
            self.test_group(version, beside)
        return actions

    def is_close(self, beside: list[Action]) -> bool:
        """Whether actions are the close of a stream, which then is closed."""
        if [action.key for action in beside] != ["domainMetadata"]:
            return False
        application = closed_by(beside[0])
        if application is None or beside[0].fields["configuration"] != CLOSED:
            return False
        self.closed.add(application)
        return True

    def test_group(self, version: int, beside: list[Action]) -> None:
        """Refuses actions that are no group of batches whose numbers and files may follow."""
        txns = [action.fields for action in beside if action.key == "txn"]
        adds = [action.fields for action in beside if action.key == "add"]
        if len(txns) + len(adds) != len(beside) or not txns:
            raise Unsound(f"commit {version}: no group and no close")
        applications = [txn["appId"] for txn in txns]
        for place in reversed(range(len(txns))):
            if applications[place] in applications[place + 1 :]:
                raise Unsound(f"commit {version}: {compact(applications[place])} stands twice")
            self.test_number(applications[place], txns[place]["version"])
        if len(txns) != len(adds):
            raise Unsound(f"commit {version}: no group and no close")
        for txn, add in zip(txns, adds):
            self.test_file(txn["appId"], txn["version"], add)
        self.last |= {txn["appId"]: txn["version"] for txn in txns}

    def test_number(self, application: str, number: int) -> None:
        """Refuses a number that isn't above its application's last, or that stands behind a close."""
        last = self.last.get(application)
        if last is not None and number <= last:
            raise Unsound(f"number {number} of {compact(application)} is not above {last}")
        if application in self.closed:
            raise Unsound(f"number {number} of {compact(application)} is behind its close")

    def test_file(self, application: str, number: int, add: dict[str, Any]) -> None:
        """Refuses a batch whose file isn't the one named for it, or isn't there, or is none of the table's."""
        name = data_file_name(application, number)
        if not add["dataChange"] or key_of(add["path"]) != name:
            raise Unsound(f"number {number} of {compact(application)} adds another file")
        if name not in self.objects:
            raise Unsound(f"file {name}: missing")
        try:
            read_file(self.schema, self.objects[name])
        except ReadFault as fault:
            if str(fault) == "P9 TooLarge":
                raise TooLarge(name) from fault
            raise Unsound(f"file {name}: {fault}") from fault

    def test_checkpoint(self, version: int, name: str) -> None:
        """Refuses a checkpoint whose lines aren't what the log leaves at its version, each once and in any order."""
        content = self.objects[name]
        fault = line_fault(content)
        if fault is not None:
            raise Unsound(f"checkpoint {name}: {fault}")
        actions = actions_of(content) or []
        told = sorted(map(action_line, actions))
        wanted = [Action("checkpointMetadata", {"version": version}), *left_by(Snapshot(self.log))]
        if told != sorted(map(action_line, wanted)):
            raise Unsound(f"checkpoint {name}: not that of its version")

    def behind(self) -> tuple[int, str] | None:
        """The least version behind the log's end that has a commit or a checkpoint, and what is wrong with it."""
        version = min((v for v in {*self.commits, *self.checkpoints} if v >= len(self.log)), default=None)
        if version is None:
            return None
        if version in self.commits:
            return version, f"commit {version} behind a gap"
        return version, f"checkpoint {self.checkpoints[version][0]}: no commit"

    def verdict(self) -> list[str]:
        """Whether the objects are sound, and else the least version that isn't, and why; or that no table stands there."""
        try:
            self.look()
        except TooLarge as large:
            return [f"refused P9 TooLarge {large}"]
        except Unsound as reason:
            # The version whose commit broke isn't in the log, and one whose checkpoint broke is.
            is_of_checkpoint = str(reason).startswith("checkpoint ")
            return [f"unsound {len(self.log) - is_of_checkpoint}", str(reason)]
        found = self.behind()
        if found is not None:
            return [f"unsound {found[0]}", found[1]]
        return [f"sound {len(self.log)}"] if self.log else ["refused K7 BadLog 0"]


def lines_beside(objects: dict[str, bytes]) -> Iterator[str]:
    """What lies beside a table: files that killed runs left, files of no kind, and data files that no commit adds.

    Other names that begin with a dot are passed over.
    """
    names = sorted(objects, key=str.encode)
    added = set()
    for name in names:
        actions = actions_of(objects[name]) if commit_version(name) is not None else None
        added |= {key_of(action.fields["path"]) for action in actions or [] if action.key == "add"}
    yield from (f"leftover {compact(name)}" for name in names if LEFTOVER.fullmatch(name))
    strays, unnamed = [], []
    for name in names:
        is_hidden = name.removeprefix("_delta_log/").startswith(".")
        is_of_log = commit_version(name) is not None or checkpoint_version(name) is not None
        if is_hidden or is_of_log:
            continue
        if name.startswith("_delta_log/") or not name.endswith(".parquet"):
            strays.append(name)
        elif name not in added:
            unnamed.append(name)
    yield from (f"stray {compact(name)}" for name in strays)
    yield from (f"unnamed {compact(name)}" for name in unnamed)


def check_lines(objects: dict[str, bytes]) -> list[str]:
    """What `check` tells: its verdict, its status, what a refusal means, and what lies beside the table."""
    told = Audit(objects).verdict()
    status = 0 if told[0].startswith("sound ") else 1
    beside = [] if told[0].startswith("refused P9 ") else lines_beside(objects)
    return [*told, f"status {status}", *explained(told[0]), *beside]
