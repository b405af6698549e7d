"""Cases of scripts: how they are spelled, and what this model tells of them."""

from collections.abc import Iterator
from typing import NamedTuple
import hashlib
import re

from commands import Folder, Run
from log import Log
from table import NotModelled, Table, commit_name
from world import World, needs_world

# What a backslash and a letter stand for in the directives of scripts.
ESCAPES = {"n": b"\n", "r": b"\r", "t": b"\t"}
ESCAPE = re.compile(r"\\([nrt])|\\x\{([0-9a-fA-F]*)\}|\$\{([^}]*)\}")


class ScriptCase(NamedTuple):
    """A case: its directives but for texts and command lines, its script, and its command lines."""

    name: str
    directives: list[str]
    script: bytearray
    objects: dict[str, bytes]
    runs: list[Run]

    def input(self) -> bytearray:
        """The script, or the input of the last command line."""
        return self.runs[-1].input if self.runs else self.script


def script_text(names: dict[str, bytes], text: str) -> bytes:
    """The bytes that a text of a directive spells: escapes, and names of earlier texts."""
    content = b""
    place = 0
    for mark in ESCAPE.finditer(text):
        letter, digits, name = mark.groups()
        content += text[place : mark.start()].encode()
        if letter is not None:
            content += ESCAPES[letter]
        elif digits is not None:
            content += bytes.fromhex(digits)
        else:
            content += names[name]
        place = mark.end()
    return content + text[place:].encode()


def repeated(parts: list[bytes], times: int) -> bytes:
    """Parts of a text, joined so many times by the count from 0 on."""
    if len(parts) == 1:
        return parts[0] * times
    return b"".join(str(count).encode().join(parts) for count in range(times))


def words_of(text: str) -> list[str]:
    """The words of a command line, in which `␣` stands for a space."""
    return [word.replace("␣", " ") for word in text.split()]


def script_cases(lines: list[str]) -> Iterator[ScriptCase]:
    """The cases of an input of scripts."""
    names: dict[str, bytes] = {}
    case = None
    for line in lines:
        if line.startswith("== "):
            if case is not None:
                yield case
            case = ScriptCase(line[3:], [], bytearray(), {}, [])
        elif line.startswith(">> let "):
            name, _, rest = line.removeprefix(">> let ").partition(" ")
            names[name] = script_text(names, rest)
        elif case is not None and line.startswith(">> text "):
            case.input().extend(script_text(names, line.removeprefix(">> text ")))
        elif case is not None and line.startswith(">> repeat "):
            times, _, rest = line.removeprefix(">> repeat ").partition(" ")
            parts = [script_text(names, part) for part in rest.split("#")]
            case.input().extend(repeated(parts, int(times)))
        elif case is not None and line.startswith((">> object ", ">> commit ")):
            word, name, text = (line.removeprefix(">> ") + " ").split(" ", 2)
            name = commit_name(int(name)) if word == "commit" else name
            case.objects.setdefault(name, script_text(names, text.removesuffix(" ")))
        elif case is not None and line.startswith(">> words"):
            case.runs.append(Run(words_of(line.removeprefix(">> words")), bytearray(), []))
        elif case is not None and case.runs and line.startswith(">> stops "):
            case.runs[-1].stops.append(line.removeprefix(">> stops "))
        elif case is not None and line.startswith(">> "):
            case.directives.append(line.removeprefix(">> "))
        elif case is not None:
            case.input().extend(line.encode() + b"\n")
    if case is not None:
        yield case


def last_lines(lines: list[str], count: int) -> list[str]:
    """The last lines, behind the count and the SHA-256 of those before them."""
    hidden = lines[: max(len(lines) - count, 0)]
    if not hidden:
        return lines
    digest = hashlib.sha256("".join(line + "\n" for line in hidden).encode()).hexdigest()
    return [f"{len(hidden)} lines {digest}", *lines[len(hidden) :]]


def replies(case: ScriptCase, restores: bool) -> tuple[list[str], str, Table | Log | World]:
    """The replies to a script, how it ended, and what answered: a world where no table or log knows all lines."""
    try:
        script = case.script.decode()
    except UnicodeDecodeError as error:
        raise NotModelled("a script that is no text") from error
    of_log = re.search("^(foreign |checkpoint$|snapshot$)", script, re.MULTILINE)
    if not needs_world(script):
        is_plain = not case.objects and of_log is None
        table = Table() if is_plain else Log(dict(case.objects), restores)
        try:
            return answers_of(table, script), "Done", table
        except NotModelled:
            pass
    world = World(case.objects, restores)
    told, end = world.answers(script)
    return told, end, world


def answers_of(table: Table | Log, script: str) -> list[str]:
    """The answers to the lines of a script that are neither blank nor comments."""
    lines = [line for line in script.split("\n") if line.strip(" \t\r")]
    return [told for line in lines if not line.startswith("#") for told in table.answer(line)]


def script_answer(case: ScriptCase) -> list[str]:
    """What is told of a case: the replies, how it ended, and the table that is left."""
    words = [directive.partition(" ")[0] for directive in case.directives]
    if case.runs:
        if not {"folder", "objects"}.issuperset(words):
            raise NotModelled("a directive beside command lines")
        made = [word[7:] for word in case.directives if word.startswith("folder ")]
        folder = Folder(case.objects, made)
        told = [line for run in case.runs for line in folder.answer(run)]
        return told + (folder.object_lines() if "objects" in words else [])
    for word in words:
        if word not in ("entries", "objects", "last", "replays"):
            raise NotModelled(f"the directive {word}")
    told, end, table = replies(case, "replays" not in words)
    if "last" in words:
        last = case.directives[words.index("last")]
        told = last_lines(told, int(last.removeprefix("last ")))
    told.append(f"end {end} short" if table.is_short else f"end {end}")
    told.append(table.summary())
    if "entries" in words:
        told += table.entry_lines()
    if "objects" in words:
        told += table.object_lines()
    return told
