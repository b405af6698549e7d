"""The actions of commits, by Delta's PROTOCOL.md ("Actions").

Counts are whole numbers from 0 to 2^63 - 1. A null field is absent, and other fields are skipped.
"""

from collections.abc import Iterator
from typing import Any, NamedTuple
from urllib.parse import unquote_to_bytes
import re

from table import json_value


class BadLine(Exception):
    """A line of a commit that isn't an action: the fault's code and name, and the field that is wrong, if one is."""


class Action(NamedTuple):
    """An action: its key, and the fields that are known of it, with their defaults."""

    key: str
    fields: dict[str, Any]


def of_kind(kind: type) -> Any:
    """A test of values of a JSON kind."""
    return lambda value: type(value) is kind


def is_count(value: Any) -> bool:
    """Whether a value is a whole number from 0 to 2^63 - 1."""
    return type(value) is int and 0 <= value < 2**63


def are_texts(value: Any) -> bool:
    """Whether a value is an array of texts."""
    return isinstance(value, list) and all(isinstance(member, str) for member in value)


def is_text_map(value: Any) -> bool:
    """Whether a value is an object of texts and nulls."""
    members = value.values() if isinstance(value, dict) else [0]
    return all(member is None or isinstance(member, str) for member in members)


def is_path(value: Any) -> bool:
    """Whether a value is a text that decodes to UTF-8."""
    try:
        return isinstance(value, str) and key_of(value) is not None
    except UnicodeDecodeError:
        return False


def is_format(value: Any) -> bool:
    """Whether a value tells a file format; its fields have defaults."""
    if not isinstance(value, dict):
        return False
    provider, options = value.get("provider"), value.get("options")
    return (provider is None or isinstance(provider, str)) and (
        options is None or is_text_map(options)
    )


is_text, is_truth = of_kind(str), of_kind(bool)

# The fields of each action that has some: a test, and a default in a list where one may be absent.
FIELDS: dict[str, dict[str, tuple[Any, ...]]] = {
    "protocol": {
        "minReaderVersion": (is_count,),
        "minWriterVersion": (is_count,),
        "readerFeatures": (are_texts, []),
        "writerFeatures": (are_texts, []),
    },
    "metaData": {
        "id": (is_text,),
        "schemaString": (is_text,),
        "name": (is_text, None),
        "description": (is_text, None),
        "format": (is_format, {}),
        "partitionColumns": (are_texts, []),
        "createdTime": (is_count, None),
        "configuration": (is_text_map, {}),
    },
    "add": {
        "path": (is_path,),
        "size": (is_count,),
        "dataChange": (is_truth,),
        "partitionValues": (is_text_map, {}),
        "modificationTime": (is_count, 0),
        "stats": (is_text, None),
        "tags": (is_text_map, None),
    },
    "remove": {
        "path": (is_path,),
        "dataChange": (is_truth,),
        "deletionTimestamp": (is_count, None),
    },
    "txn": {"appId": (is_text,), "version": (is_count,), "lastUpdated": (is_count, None)},
    "domainMetadata": {
        "domain": (is_text,),
        "configuration": (is_text, ""),
        "removed": (is_truth, False),
    },
    "checkpointMetadata": {"version": (is_count,)},
}


def key_of(path: str) -> str:
    """The name of the object that a path tells."""
    return unquote_to_bytes(path).decode()


def action_of(line: bytes) -> Action:
    """The action that a line of a commit is."""
    try:
        value = json_value(line.decode())
    except ValueError as error:
        raise BadLine("A1 BadJson") from error
    if not isinstance(value, dict):
        raise BadLine("A1 BadJson")
    if len(value) != 1:
        raise BadLine("A3 NotOneKey")
    ((key, body),) = value.items()
    if key not in FIELDS:
        return Action(key, {})
    if not isinstance(body, dict):
        raise BadLine("A2 BadField", key)
    fields = {}
    for name, (test, *default) in FIELDS[key].items():
        found = body.get(name)
        if found is None and not default or found is not None and not test(found):
            raise BadLine("A2 BadField", name)
        fields[name] = default[0] if found is None else found
    return Action(key, fields)


def lines_of(commit: bytes) -> Iterator[tuple[int, bytes]]:
    """The lines of a commit that aren't blank, and their numbers, which count from 1."""
    for number, line in enumerate(commit.split(b"\n"), 1):
        if line.strip(b" \t\r"):
            yield number, line


def actions_of(commit: bytes) -> list[Action] | None:
    """The actions of a commit, or None where a line is none."""
    try:
        return [action_of(line) for _, line in lines_of(commit)]
    except BadLine:
        return None


def line_fault(commit: bytes) -> str | None:
    """What is wrong with the first line of a commit that is no action, or None where each is one."""
    for number, line in lines_of(commit):
        try:
            action_of(line)
        except BadLine as fault:
            name, *field = fault.args
            return " ".join((name, str(number), *field))
    return None


def last_of(actions: list[Action], key: str) -> dict[str, Any] | None:
    """The fields of the last action of a key."""
    found = [action.fields for action in actions if action.key == key]
    return found[-1] if found else None


def new_paths(actions: list[Action]) -> list[str]:
    """The paths of the files that bring new rows."""
    adds = [action.fields for action in actions if action.key == "add"]
    return [add["path"] for add in adds if add["dataChange"]]


def removes_rows(actions: list[Action]) -> bool:
    """Whether rows are taken away."""
    return any(action.key == "remove" and action.fields["dataChange"] for action in actions)


def says_closed(configuration: str) -> bool:
    """Whether a domain's configuration says that its stream is closed."""
    try:
        value = json_value(configuration)
    except ValueError:
        return False
    return isinstance(value, dict) and value.get("closed") is True


def closed_by(action: Action) -> str | None:
    """The application whose stream an action closes."""
    fields = action.fields
    if action.key != "domainMetadata" or fields["removed"]:
        return None
    digits = re.fullmatch("sink\\.((?:[0-9a-f]{2})*)", fields["domain"])
    if digits is None or not says_closed(fields["configuration"]):
        return None
    try:
        return bytes.fromhex(digits[1]).decode()
    except UnicodeDecodeError:
        return None
