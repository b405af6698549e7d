"""Commands on the table in a folder: their words, and what each tells and leaves."""

from typing import NamedTuple
import json
import re

from check import check_lines
from log import Log
from refusals import ENTRIES, explained, row_explained
from script_lines import why_bad
from table import NotModelled, json_value, unsupported_columns
from world import World

# The places of each command behind its folder, its options, and whether one has to be given.
AT = {"at": False}
PUTS = AT | {"tries": False}
COMMANDS: dict[str, tuple[int, dict[str, bool]]] = {
    "create": (0, AT | {"id": True, "schema": True}),
    "append": (2, PUTS | {"rows": False}),
    "close": (1, PUTS),
    "load": (0, PUTS | {"workers": True}),
    "tail": (0, {"from": False, "max": False}),
    "snapshot": (0, {}),
    "checkpoint": (0, {}),
    "history": (0, {}),
    "check": (0, {}),
}

# The bounds of numbers, and what stands for an option that isn't given.
NUMBER = (0, 2**64 - 1)
BOUNDS = {"at": (0, 10**15 - 1), "tries": (1, 64), "max": (0, 65_536), "workers": NUMBER, "rows": NUMBER}
DEFAULTS = {"at": "0", "tries": "16", "from": "start", "max": "65536"}

# The offset of a table's first row.
START = '{"file":0,"row":0,"version":0}'

# The words of JSON, and a sign that stands in front of a number; and how many columns without rows are named.
WORDS = ("true", "false", "null", "-")
MOST_NAMED = 10

COMMIT = re.compile(r"_delta_log/[0-9]{20}\.json")
CHECKPOINT = re.compile(r"_delta_log/[0-9]{20}\.checkpoint\..*\.json")


class Run(NamedTuple):
    """A command line, its input, and which of the files that it makes fails."""

    words: list[str]
    input: bytearray
    stops: list[str]


class Command(NamedTuple):
    """A command that was read: its name, folder, further places and options."""

    name: str
    folder: str
    places: list[str]
    options: dict[str, str]
    restores: bool


class BadLine(Exception):
    """The number of an input line that is no JSON object, and the line."""


class Miscounted(Exception):
    """How many rows the words say, and how many the input has."""


def command_of(words: list[str]) -> Command:
    """The command that words spell. What else they may be isn't modelled."""
    if not words or words[0] not in COMMANDS:
        raise NotModelled("words that are no command on a folder")
    count, options = COMMANDS[words[0]]
    places: list[str] = []
    given: dict[str, str] = {}
    restores = True
    rest = iter(words[1:])
    for word in rest:
        if word == "--no-checkpoint" and words[0] not in ("create", "check"):
            restores = False
        elif word.startswith("-"):
            if word[2:] not in options or word[2:] in given:
                raise NotModelled("words that are refused")
            given[word[2:]] = next(rest, "-")
        else:
            places.append(word)
    is_whole = all(name in given for name, needed in options.items() if needed)
    values = [(given[name], BOUNDS[name]) for name in given if name in BOUNDS]
    values += [(places[2], NUMBER)] if words[0] == "append" and len(places) > 2 else []
    are_numbers = all(is_number(value, *bounds) for value, bounds in values)
    if len(places) != count + 1 or not is_whole or not are_numbers:
        raise NotModelled("words that are refused")
    return Command(words[0], places[0], places[1:], DEFAULTS | given, restores)


def is_number(word: str, low: int, high: int) -> bool:
    """Whether a word spells a number between two bounds."""
    return re.fullmatch("[+]?[0-9]+", word) is not None and low <= int(word) <= high


def objects_in(content: bytes) -> list[str]:
    """The lines of an input, each a JSON object."""
    lines = content.split(b"\n")
    if not lines[-1]:
        lines.pop()
    for place, line in enumerate(lines):
        try:
            value = json_value(line.decode())
        except ValueError as error:
            raise BadLine(place + 1, line) from error
        if not isinstance(value, dict):
            raise BadLine(place + 1, line)
    return [line.decode() for line in lines]


def script_line(command: Command, content: bytes) -> str:
    """The line of a script that asks for the same."""
    options = command.options
    if command.name == "create":
        return f"create {options['id']} {options['at']} {options['schema']}"
    if command.name == "append":
        rows = objects_in(content)
        if int(options.get("rows", len(rows))) != len(rows):
            raise Miscounted(int(options["rows"]), len(rows))
        return f"append {command.places[0]} {command.places[1]} {options['at']} [{','.join(rows)}]"
    if command.name == "close":
        return f"close {command.places[0]} {options['at']}"
    if command.name == "tail":
        return f"tail {options['max']} {START if options['from'] == 'start' else options['from']}"
    return command.name


def misused(wrong: BadLine | Miscounted) -> list[str]:
    """What is told of an input that isn't read as the words have it."""
    if isinstance(wrong, BadLine):
        number, line = wrong.args
        return [f"bad line {number}", "status 2", f"hint: the line {flaw(line)}"]
    rows, found = wrong.args
    return ["status 2", f"--rows says {rows}, but the count of rows in the input is {found}; nothing was run"]


def kind(name: str) -> int:
    """The place of an object's kind in the order of saving."""
    return 1 if COMMIT.fullmatch(name) else 2 if CHECKPOINT.fullmatch(name) else 0


def script_lines(run: Run) -> list[str]:
    """What a script tells, which has a store of its own, and its status."""
    if run.words[1:] not in ([], ["--no-checkpoint"]):
        raise NotModelled("words that are refused")
    script = run.input.decode()
    told, end = World({}, len(run.words) == 1).answers(script)
    if end == "Done":
        return [*told, "status 0"]
    number = int(end.removeprefix("BadLine "))
    line = script.split("\n")[number - 1]
    return [*told, "status 2", f"line {number}: {why_bad(line)}"]


def explanation(words: list[str]) -> list[str]:
    """What a code means, where a refusal has it, in upper or lower case; without one what each code means."""
    if len(words) > 1 or words[:1] and words[0].startswith("-"):
        raise NotModelled("words that are refused")
    if not words:
        return [*ENTRIES.values(), "status 0"]
    first = re.split("[ \n]", words[0].removeprefix("refused "))[0]
    alike = [code for code in ENTRIES if code.lower() == first.lower()]
    if not alike:
        return ["status 2", f"error: no refusal has the code '{words[0]}'"]
    return [ENTRIES[alike[0]], "status 0"]


def flaw(content: bytes) -> str:
    """Why a text is no JSON object. Of a fault inside of it, the byte is that of Python's own reader."""
    if not content:
        return "is empty"
    try:
        text = content.decode()
    except UnicodeDecodeError as error:
        return f"isn't UTF-8 at byte {error.start + 1}"
    try:
        json_value(text)
    except json.JSONDecodeError as error:
        rest = text[error.pos :]
        if error.msg.startswith("Unterminated string") or any(word.startswith(rest) for word in WORDS):
            return "ends too early"
        byte = len(text[: error.pos].rpartition("\n")[2].encode()) + 1
        below = f" of its line {error.lineno}" if error.lineno > 1 else ""
        return f"can't be read as JSON near byte {byte}{below}"
    except ValueError as error:
        raise NotModelled("a text that is JSON, and isn't read") from error
    return "is JSON, but no object"


def limit_passed(told: str, line: str) -> list[str]:
    """The hint which limit a job passes that is refused for its size; that of a file isn't modelled."""
    word, _, rest = line.partition(" ")
    if told != "refused S8 TooLarge":
        return []
    if word == "append" and int(rest.split(" ")[1]) > 999_999_999_999:
        return ["hint: the number is above 999,999,999,999"]
    if word == "append" and len(json_value(rest.split(" ", 3)[3])) > 65_536:
        return ["hint: there are over 65,536 rows; hand them in as several batches"]
    return ["hint: the log has its last version, 999,999,999,999, and takes no further commit"]


def schema_flaw(told: str, line: str) -> list[str]:
    """The hint why the text of a schema is no JSON."""
    if told != "refused E2 BadSchema G1 BadJson":
        return []
    return [f"hint: the schema's text {flaw(line.split(' ', 3)[3].encode())}"]


def rowless(line: str) -> list[str]:
    """The note that a table that was created takes no rows."""
    word, _, rest = line.partition(" ")
    columns = unsupported_columns(json_value(rest.split(" ", 2)[2])["fields"]) if word == "create" else []
    if not columns:
        return []
    names, more = ", ".join(columns[:MOST_NAMED]), len(columns) - MOST_NAMED
    which = f"the types of the columns {names} have" if columns[1:] else f"the type of the column {names} has"
    if more > 0:
        which = f"the types of the columns {names} and {more} more have"
    return [f"note: the table takes no rows, since {which} none here"]


def empty(command: Command, line: str) -> list[str]:
    """The note that a batch without rows uses up its number, where the words don't say how many rows it has."""
    if command.name != "append" or "rows" in command.options or json_value(line.split(" ", 4)[4]):
        return []
    rest = "is used up by a batch without rows (--rows N refuses such an input)"
    return [f"note: the input had no rows: the number {int(command.places[1])} {rest}"]


class Folder:
    """A table's folder: its files, and what commands tell of them."""

    def __init__(self, objects: dict[str, bytes], made: list[str]) -> None:
        self.objects = dict(objects)
        self.known = set(made)

    def answer(self, run: Run) -> list[str]:
        """The lines that a command writes, its status, and what stands on standard error."""
        if run.words[:1] == ["script"]:
            return script_lines(run)
        if run.words[:1] == ["explain"]:
            return explanation(run.words[1:])
        command = command_of(run.words)
        self.known.add(command.folder)
        if len(self.known) > 1 or command.folder.endswith("!"):
            return self.elsewhere(command, run)
        if command.name == "load":
            return ["refused N1 NotYet", "status 1", *explained("refused N1 NotYet")]
        if command.name == "check":
            return check_lines(self.objects)
        try:
            line = script_line(command, bytes(run.input))
        except (BadLine, Miscounted) as wrong:
            return misused(wrong)
        log = Log(dict(self.objects), command.restores)
        told = log.answer(line)
        fault = self.save(log.objects, run.stops)
        if fault is not None:
            return ["status 1", f"refused F2 NotSaved {fault}", *explained("refused F2")]
        if not told or not told[-1].startswith("refused "):
            return [*told, "status 0", *rowless(line), *empty(command, line)]
        hints = [*row_explained(told[-1]), *limit_passed(told[-1], line), *schema_flaw(told[-1], line)]
        return [*told, "status 1", *explained(told[-1]), *hints]

    def elsewhere(self, command: Command, run: Run) -> list[str]:
        """Of folders beside the first nothing is modelled but what comes before they are looked at."""
        try:
            script_line(command, bytes(run.input))
        except (BadLine, Miscounted) as wrong:
            return misused(wrong)
        raise NotModelled("a second folder")

    def save(self, objects: dict[str, bytes], stops: list[str]) -> str | None:
        """Makes the files that are new, up to one that fails, whose name is told."""
        names = sorted(objects.keys() - self.objects.keys(), key=lambda name: (kind(name), name))
        for place, name in enumerate(names):
            if f"before {place}" in stops:
                return name
            self.objects[name] = objects[name]
            if f"after {place}" in stops:
                return name
        return None

    def object_lines(self) -> list[str]:
        """The names of the files, each with its count of bytes."""
        return [f"{name} {len(self.objects[name])}" for name in sorted(self.objects)]
