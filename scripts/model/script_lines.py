"""The lines of a script as they are read, before anything of a table is looked at.

Words are separated by one space, and the last argument is the rest of the line. The words of the
whole line are read first, so a malformed line is bad whatever would be answered.
"""

from typing import Any, NamedTuple
import re

from table import LARGEST_MOMENT, MOST_ROWS, MOST_TRIES, NotModelled, json_value

LARGEST_COUNT = 2**64 - 1
KINDS = ("pass", "lost", "mute", "late", "twice")

# The lines that are answered by what actors do; a script with one of them needs a world.
ACTOR_WORDS = ("fault", "start", "until", "step", "finish", "die", "land")

# What the lines of a script take behind their first word, as standard error says it of a bad one.
MOMENT = f"a moment of at most {LARGEST_MOMENT} milliseconds"
KIND_WORDS = "`pass`, `lost`, `mute`, `late` or `twice`"
FORMS = {
    "create": f"takes ID AT SCHEMA: AT is {MOMENT}",
    "append": f"takes APP NUMBER AT ROWS: a number below 2^64, {MOMENT} and a JSON array",
    "close": f"takes APP AT: AT is {MOMENT}",
    "checkpoint": "stands alone",
    "snapshot": "stands alone",
    "history": "stands alone",
    "tail": f"takes MAX OFFSET: MAX is a number of at most {MOST_ROWS}",
    "show": "takes V: a number below 2^64",
    "hex": "takes NAME",
    "tries": f"takes N: a number from 1 to {MOST_TRIES}",
    "fault": f"takes KIND: {KIND_WORDS}",
    "start": "takes ACTOR JOB: JOB is an `append`, `close`, `checkpoint` or `tail` line",
    "until": "takes ACTOR",
    "step": f"takes ACTOR KIND: KIND is {KIND_WORDS}",
    "finish": "takes ACTOR",
    "die": "takes ACTOR",
    "land": "takes K: a number below 2^64",
    "foreign": "takes V LINE: V is a number below 2^64",
}


class BadLine(Exception):
    """A line that is none of a script."""


class Append(NamedTuple):
    """`append APP NUMBER AT ROWS`: the rows as JSON values."""

    application: str
    number: int
    moment: int
    values: list[Any]


class Close(NamedTuple):
    """`close APP AT`."""

    application: str
    moment: int


class Tail(NamedTuple):
    """`tail MAX OFFSET`: the offset as a text."""

    limit: int
    offset: str


class Checkpoint(NamedTuple):
    """`checkpoint`."""


class Create(NamedTuple):
    """`create ID AT SCHEMA`: the id and the schema as texts."""

    id: str
    moment: int
    schema: str


Job = Append | Close | Tail | Checkpoint


class Start(NamedTuple):
    """`start ACTOR JOB`."""

    actor: str
    job: Job


class Plain(NamedTuple):
    """Another line: its first word, and its arguments."""

    word: str
    arguments: tuple[Any, ...]


Line = Job | Create | Start | Plain


def split(text: str, count: int) -> list[str]:
    """So many arguments, of which the last is the rest of the line."""
    words = text.split(" ", count - 1)
    if len(words) != count:
        raise BadLine
    return words


def number(word: str, low: int = 0, high: int = LARGEST_COUNT) -> int:
    """The number that a word spells, between two bounds."""
    if not re.fullmatch(r"\+?[0-9]+", word) or not low <= int(word) <= high:
        raise BadLine
    return int(word)


def kind(word: str) -> str:
    """The word for what becomes of a call."""
    if word not in KINDS:
        raise BadLine
    return word


def rows(text: str) -> list[Any]:
    """The values of a JSON array."""
    try:
        values = json_value(text)
    except ValueError as error:
        raise BadLine from error
    if not isinstance(values, list):
        raise BadLine
    return values


def job(text: str) -> Job | None:
    """The job that a line is, where it is one."""
    word, space, rest = text.partition(" ")
    if text == "checkpoint":
        return Checkpoint()
    if word == "append" and space:
        application, count, moment, values = split(rest, 4)
        spelled = number(count), number(moment, 0, LARGEST_MOMENT)
        return Append(application, *spelled, rows(values))
    if word == "close" and space:
        application, moment = split(rest, 2)
        return Close(application, number(moment, 0, LARGEST_MOMENT))
    if word == "tail" and space:
        limit, offset = split(rest, 2)
        return Tail(number(limit, 0, MOST_ROWS), offset)
    return None


def line(text: str) -> Line:
    """What a line says; BadLine where it is none of a script."""
    asked = job(text)
    if asked is not None:
        return asked
    if text in ("snapshot", "history"):
        return Plain(text, ())
    word, space, rest = text.partition(" ")
    if not space:
        raise BadLine
    if word == "create":
        table_id, moment, schema = split(rest, 3)
        return Create(table_id, number(moment, 0, LARGEST_MOMENT), schema)
    if word == "start":
        actor, job_text = split(rest, 2)
        started = job(job_text)
        if started is None:
            raise BadLine
        return Start(actor, started)
    if word == "foreign":
        version, action = split(rest, 2)
        return Plain(word, (number(version), action))
    if word == "step":
        actor, how = split(rest, 2)
        return Plain(word, (actor, kind(how)))
    if word in ("until", "finish", "die", "hex"):
        return Plain(word, (rest,))
    if word == "fault":
        return Plain(word, (kind(rest),))
    if word == "tries":
        return Plain(word, (number(rest, 1, MOST_TRIES),))
    if word in ("land", "show"):
        return Plain(word, (number(rest),))
    raise BadLine


def why_bad(text: str) -> str:
    """Why a line is bad, as standard error says it."""
    word = text.partition(" ")[0]
    if word in FORMS:
        return f"`{word}` {FORMS[word]}"
    if not re.fullmatch("[ -~]{0,250}", word) or re.search(r"[\\\"']", word):
        raise NotModelled("a word that isn't shown as it is")
    return f"no line begins with `{word}`" if word else "no line begins with a space"
