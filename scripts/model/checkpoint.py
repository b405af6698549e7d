"""Checkpoints of a log's newest version, and its snapshot as text.

By Delta's PROTOCOL.md ("V2 Spec", "Action Reconciliation") and the rules on names and order of
`docs/FORMATS.md`.
"""

from collections.abc import Callable, Iterator
from functools import lru_cache
from typing import Any
import re
import uuid

from actions import Action, actions_of, closed_by, key_of, last_of
from snapshot import Snapshot
from table import compact

CHECKPOINT_NAME = re.compile(
    r"_delta_log/([0-9]{20})\.checkpoint\.[0-9A-Fa-f]{8}(-[0-9A-Fa-f]{4}){3}-[0-9A-Fa-f]{12}\.json"
)

# The features that a protocol's line has only where there are some.
FEATURES = {"readerFeatures", "writerFeatures"}


def checkpoint_name(version: int, table_id: str) -> str:
    """The name of a version's checkpoint, with a UUID of version 5 over the table's id."""
    try:
        space = uuid.UUID(table_id)
    except ValueError:
        space = uuid.UUID(int=0)
    own = uuid.uuid5(space, f"checkpoint {version}")
    return f"_delta_log/{version:020}.checkpoint.{own}.json"


@lru_cache(maxsize=None)
def checkpoint_in(content: bytes, version: int) -> list[Action] | None:
    """The actions of a version's checkpoint, or None where its bytes aren't one that reads well."""
    actions = actions_of(content) or []
    told = [action.fields["version"] for action in actions if action.key == "checkpointMetadata"]
    has_sidecar = any(action.key == "sidecar" for action in actions)
    return None if set(told) != {version} or has_sidecar else actions


def unput(snapshot: Snapshot) -> str | None:
    """Why no checkpoint of a table is put: what the table has or lacks."""
    fault = snapshot.unread()
    if fault is not None:
        return " ".join(filter(None, fault))
    feature = snapshot.unwritten()
    protocol = last_of(snapshot.actions, "protocol") or {}
    if feature is None and not all("v2Checkpoint" in protocol[name] for name in FEATURES):
        feature = "v2Checkpoint"
    return None if feature is None else f"C3 Feature {feature}"


def checkpoint_text(snapshot: Snapshot, version: int) -> bytes:
    """The lines of a version's checkpoint."""
    first = Action("checkpointMetadata", {"version": version})
    return "".join(action_line(action) for action in (first, *left_by(snapshot))).encode()


def action_line(action: Action) -> str:
    """The line of an action: what is absent isn't told."""
    fields = dict(action.fields)
    if action.key == "metaData":
        told = fields["format"]
        fields["format"] = {
            "provider": told.get("provider") or "parquet",
            "options": told.get("options") or {},
        }
    shown = {
        name: value
        for name, value in fields.items()
        if value is not None and (name not in FEATURES or value)
    }
    return compact({action.key: shown}) + "\n"


def left_by(snapshot: Snapshot) -> Iterator[Action]:
    """What a log leaves, in the order of a checkpoint."""
    for key in ("protocol", "metaData"):
        yield from newest(snapshot, {key}, lambda action: "")
    yield from newest(snapshot, {"txn"}, lambda action: action.fields["appId"])
    for action in newest(snapshot, {"domainMetadata"}, lambda action: action.fields["domain"]):
        if not action.fields["removed"]:
            yield action
    files = newest(snapshot, {"add", "remove"}, lambda action: key_of(action.fields["path"]))
    yield from (action for action in files if action.key == "add")
    yield from (action for action in files if action.key == "remove")


def newest(
    snapshot: Snapshot, keys: set[str], name_of: Callable[[Action], str]
) -> list[Action]:
    """The newest action of each name, in the order of the names' bytes."""
    found: dict[bytes, Action] = {}
    for action in snapshot.actions:
        if action.key in keys:
            found[name_of(action).encode()] = action
    return [found[name] for name in sorted(found)]


def snapshot_lines(snapshot: Snapshot, version: int) -> Iterator[str]:
    """What a log leaves, a line each."""
    protocol: dict[str, Any] = last_of(snapshot.actions, "protocol") or {}
    yield f"version {version}"
    yield f"protocol {protocol['minReaderVersion']} {protocol['minWriterVersion']}"
    yield f"schema {compact(snapshot.schema())}"
    left = list(left_by(snapshot))
    for action in left:
        if action.key == "txn":
            yield f"app {compact(action.fields['appId'])} {action.fields['version']}"
    closed = [closed_by(action) for action in left]
    for application in sorted(filter(None.__ne__, closed), key=lambda name: str(name).encode()):
        yield f"closed {compact(application)}"
    for action in left:
        if action.key == "add":
            yield f"file {action.fields['path']} {action.fields['size']}"
