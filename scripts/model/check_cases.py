"""Compares stored answers of cases with those of the model in this folder.

The model was written from the public standards (Apache Parquet, the Thrift compact protocol, and
Delta's PROTOCOL.md) and from what `docs/FORMATS.md` and `docs/REFUSALS.md` lay down beside them. It
shares no code with the crates. Cases with anything that it doesn't know are skipped.

`python3 scripts/model/check_cases.py` ends with status 1 where an answer differs, or where a stored one
says that memory was refused.
"""

from collections.abc import Callable, Iterator
from functools import partial
from pathlib import Path
from typing import Any
import re
import sys

from event_cases import event_answer, event_cases
from pages import page_lines
from parquet_reader import ReadFault, read_file
from parquet_writer import write_file
from random_cases import is_random, replies_in, script_lines
from reply_cases import found_in, reply_cases
from script_cases import script_answer, script_cases
from session_cases import session_answer, session_cases
from table import NotModelled, RowFault
from table import compact, json_value, row_of, schema_of, unsupported_column

CRATES = Path(__file__).resolve().parents[2] / "crates"

# The longest line that is told whole, and how many bytes of a longer one are told at each end.
LONGEST_LINE = 1_000
LINE_END = 300

# The numbers of a type.
U32, U64, I64 = range(1 << 32), range(1 << 64), range(-(1 << 63), 1 << 63)

class Misspelled(Exception):
    """A line whose bytes or numbers aren't spelled as the notation wants it."""


def lines_of(crate: str, name: str) -> list[str]:
    """The lines of a crate's stored input or output."""
    return (CRATES / crate / name).read_bytes().decode().removesuffix("\n").split("\n")


class Tally:
    """How many cases agree, differ and are skipped."""

    def __init__(self) -> None:
        self.agree = 0
        self.differ = 0
        self.skipped = 0

    def __str__(self) -> str:
        return f"{self.agree} agree, {self.differ} differ, {self.skipped} skipped"

    def add(self, other: "Tally") -> None:
        """Adds the counts of another tally."""
        self.agree += other.agree
        self.differ += other.differ
        self.skipped += other.skipped

    def compare(self, name: str, answer: Callable[[], list[str]], stored: list[str]) -> None:
        """Compares the model's answer with the stored one, and prints where they differ."""
        try:
            told = answer()
        except NotModelled:
            self.skipped += 1
            return
        if told == stored:
            self.agree += 1
            return
        self.differ += 1
        print(f"{name} differs:")
        for place in range(max(len(told), len(stored))):
            mine = told[place : place + 1]
            theirs = stored[place : place + 1]
            if mine != theirs:
                print("  stored", *map(shortened, theirs))
                print("  model ", *map(shortened, mine))


def places_of_kind(kind: str, lines: list[str]) -> range:
    """Where the lines of a kind stand in the stored input or output of `crates/lake_cases`."""
    start = lines.index(f">>>> {kind}") + 1
    behind = [place for place, line in enumerate(lines) if line.startswith(">>>> ") and place >= start]
    return range(start, min(behind, default=len(lines)))


def lines_of_kind(kind: str, name: str) -> list[str]:
    """The lines of `crates/lake_cases`' stored input or output that are of a kind."""
    lines = lines_of("lake_cases", name)
    return [lines[place] for place in places_of_kind(kind, lines)]


def stored_scripts(lines: list[str]) -> dict[str, list[str]]:
    """The stored answers of scripts by the names of the cases."""
    stored: dict[str, list[str]] = {}
    for line in lines:
        if line.startswith("== "):
            answer = stored[line[3:]] = []
        elif stored:
            answer.append(line)
        else:
            raise SystemExit("a stored line stands before the first answer")
    return stored


def check_stored(
    kind: str, cases_of: Callable[[list[str]], Iterator[Any]], answer: Callable[[Any], list[str]]
) -> Tally:
    """Compares cases of `crates/lake_cases` of one kind, each by its name with what is stored of it."""
    tally = Tally()
    stored = stored_scripts(lines_of_kind(kind, "stdout"))
    for case in cases_of(lines_of_kind(kind, "stdin")):
        tally.compare(f"{kind}: {case.name}", partial(answer, case), stored.pop(case.name, []))
    if stored:
        raise SystemExit(f"{kind}: a stored answer is left over")
    return tally


def check_random_scripts() -> Tally:
    """Looks that the stored answers to random scripts keep the laws of batches and reads by themselves.

    None of these scripts may be skipped: the model knows all of their lines.
    """
    tally = Tally()
    stored = stored_scripts(lines_of_kind("scripts", "stdout"))
    for case in filter(is_random, script_cases(lines_of_kind("scripts", "stdin"))):
        script_answer(case)
        script, told = script_lines(case), replies_in(stored[case.name])
        tally.compare(f"random scripts: {case.name}", partial(found_in, script, told), ["lawful"])
    return tally


def check_replies() -> Tally:
    """Looks which replies are found to break a law of batches and reads, and which law."""
    tally = Tally()
    for case in reply_cases():
        tally.compare(f"replies: {case.name}", partial(found_in, case.script, case.told), case.found)
    return tally


def number_of(word: str, numbers: range) -> int:
    """The number that a word spells, one of these; without negative ones there is no minus."""
    sign = "[+-]?" if numbers.start < 0 else "[+]?"
    if not re.fullmatch(sign + "[0-9]+", word) or int(word) not in numbers:
        raise Misspelled(word)
    return int(word)


def split_once(text: str) -> tuple[str, str]:
    """A text's first word, and what stands behind it."""
    word, space, rest = text.partition(" ")
    if not space:
        raise Misspelled(text)
    return word, rest


class Spelling:
    """The bytes that a line spells: digits, quoted texts, names, lengths, repeats and changes."""

    def __init__(self, names: dict[str, bytes | None]) -> None:
        self.names = names
        self.content = bytearray()
        self.last = b""
        self.start = 0

    def read(self, text: str) -> bytes:
        """The bytes of a text."""
        parts = text.split("'")
        if len(parts) % 2 == 0:
            raise Misspelled("a quote that isn't closed")
        for place, part in enumerate(parts):
            if place % 2 == 1:
                self.last = part.encode()
                self.content += self.last
                continue
            for word in part.split():
                self.word(word)
        return bytes(self.content)

    def word(self, word: str) -> None:
        """Adds what a word stands for, or changes what stands before it."""
        item, star, times = word.partition("*")
        if word == "<":
            self.start = len(self.content)
        elif word == ">":
            self.content += (len(self.content) - self.start).to_bytes(4, "little")
        elif word.startswith("@"):
            self.change(word.removeprefix("@"))
        elif star and not item:
            self.content += self.last * max(number_of(times, U32) - 1, 0)
        else:
            self.last = self.item(item)
            self.content += self.last * (number_of(times, U32) if star else 1)

    def item(self, item: str) -> bytes:
        """The bytes of a name or of hexadecimal digits."""
        if not item.startswith("$"):
            return digits_of(item)
        if item[1:] not in self.names:
            raise Misspelled(item)
        content = self.names[item[1:]]
        if content is None:
            raise NotModelled(f"bytes named {item}")
        return content

    def change(self, change: str) -> None:
        """Changes the bytes from a place on."""
        place_word, equals, digits = change.partition("=")
        if not equals:
            raise Misspelled(change)
        place = number_of(place_word, U64)
        content = digits_of(digits)
        if place + len(content) > len(self.content):
            raise Misspelled(change)
        self.content[place : place + len(content)] = content


def digits_of(digits: str) -> bytes:
    """The bytes of hexadecimal digits."""
    try:
        return bytes.fromhex(digits)
    except ValueError as error:
        raise Misspelled(digits) from error


def shortened(line: str) -> str:
    """A line, of which the middle is left out where it is long."""
    content = line.encode()
    if len(content) <= LONGEST_LINE:
        return line
    front = content[:LINE_END].decode(errors="replace")
    back = content[-LINE_END:].decode(errors="replace")
    return f"{front} .. {back} ({len(content)} bytes)"


def row_lines(schema: dict[str, Any], content: bytes) -> list[str]:
    """What a file's rows are, in lines: their count, and each."""
    rows = read_file(schema, content)
    return [f"{len(rows)} rows", *map(compact, rows)]


def spoiled_lines(tell: Callable[[bytes], list[str]], content: bytes) -> list[str]:
    """How often each outcome comes of a file that is cut, lacks a byte, or has another one."""
    whole = tell(content)
    tallies: dict[str, list[int]] = {}
    for place in range(len(content)):
        front, behind = content[:place], content[place + 1 :]
        ways = [front, front + behind, front + b"\x00" + behind, front + b"\xff" + behind]
        for way, spoiled in enumerate(ways):
            try:
                outcome = "same" if tell(spoiled) == whole else "other"
            except ReadFault as fault:
                outcome = f"refused {fault}"
            tallies.setdefault(outcome, [0] * len(ways))[way] += 1
    told = [f"  {' '.join(map(str, tallies[outcome]))} {outcome}" for outcome in sorted(tallies)]
    return ["cut, without, 00, FF", *told]


class Inspector:
    """Answers the lines of `crates/lake_inspect` that are of files and rows."""

    def __init__(self, files: list[bytes]) -> None:
        self.names: dict[str, bytes | None] = {
            str(number): content for number, content in enumerate(files, 1)
        }

    def answer(self, line: str, number: int) -> list[str]:
        """The lines that are told of a line of this number."""
        asked = line.removeprefix("whole ")
        try:
            if asked.startswith("spoil file "):
                schema, content = self.file(asked.removeprefix("spoil file "))
                return spoiled_lines(partial(row_lines, schema), content)
            told = self.told(asked)
        except Misspelled:
            return [f"bad line {number}"]
        except (ReadFault, RowFault) as fault:
            told = [f"refused {fault}"]
        if asked != line:
            return [*told[:1], *(f"  {part}" for part in told[1:])]
        return [shortened(" | ".join(told))]

    def told(self, line: str) -> list[str]:
        """What is told of a line, in its parts."""
        word, _, rest = line.partition(" ")
        if word == "let":
            return [f"{len(self.let(rest))} bytes"]
        if word == "write":
            return [self.written(rest).hex()]
        if word == "file":
            return row_lines(*self.file(rest))
        if word == "pages":
            return page_lines(*self.file(rest))
        raise NotModelled(f"the line {word}")

    def spelled(self, text: str) -> bytes:
        """The bytes that a text spells."""
        return Spelling(self.names).read(text)

    def schema(self, text: str) -> dict[str, Any]:
        """The schema that a text spells."""
        try:
            return schema_of(self.spelled(text).decode())
        except UnicodeDecodeError as error:
            raise NotModelled("a schema that is no text") from error

    def let(self, rest: str) -> bytes:
        """Names bytes. Those that the model doesn't know have a name all the same."""
        name, text = split_once(rest)
        is_written = text.startswith("write ")
        try:
            content = self.written(text[6:]) if is_written else self.spelled(text)
        except NotModelled:
            self.names[name] = None
            raise
        self.names[name] = content
        return content

    def file(self, text: str) -> tuple[dict[str, Any], bytes]:
        """The schema and the bytes of `SCHEMA BYTES`."""
        schema_word, rest = split_once(text)
        return self.schema(schema_word), self.spelled(rest)

    def written(self, text: str) -> bytes:
        """The file that is written for `rows SCHEMA N ..` or `file SCHEMA ROWS`."""
        word, _, rest = text.partition(" ")
        if word == "rows":
            schema_word, _, numbers = rest.partition(" ")
            return number_file(self.schema(schema_word), list(numbers_of(numbers)))
        if word != "file":
            raise NotModelled(f"write {word}")
        schema_word, rows_text = split_once(rest)
        schema = self.schema(schema_word)
        try:
            values = json_value(self.spelled(rows_text).decode())
        except ValueError as error:
            raise Misspelled(rows_text) from error
        if not isinstance(values, list):
            raise Misspelled(rows_text)
        column = unsupported_column(schema["fields"])
        if column is not None:
            raise RowFault(f"V4 Unsupported {column}")
        return write_file(schema, [row_of(schema["fields"], value) for value in values])


def number_file(schema: dict[str, Any], numbers: list[int]) -> bytes:
    """The file of the rows of these numbers, each in every column, which all have to take it."""
    fields = schema["fields"]
    column = unsupported_column(fields)
    if column is not None and numbers:
        raise Misspelled(f"a number for {column}")
    if column is not None:
        raise RowFault(f"V4 Unsupported {column}")
    try:
        rows = [row_of(fields, {field["name"]: number for field in fields}) for number in numbers]
    except RowFault as fault:
        raise Misspelled("a number that a column can't hold") from fault
    return write_file(schema, rows)


def numbers_of(text: str) -> Iterator[int]:
    """The numbers that words spell: `N`, or `N..M` for those from N up to M, which isn't one."""
    for word in text.split():
        first, dots, end = word.partition("..")
        if dots:
            yield from range(number_of(first, I64), number_of(end, I64))
        else:
            yield number_of(word, I64)


def stored_answers(lines: list[str]) -> Iterator[list[str]]:
    """The stored answers of lines: one line each, and the ones behind it that are set in."""
    answer: list[str] = []
    for line in lines:
        if answer and not line.startswith("  "):
            yield answer
            answer = []
        answer.append(line)
    if answer:
        yield answer


def check_lines() -> Tally:
    """Compares the lines of `crates/lake_inspect`; comments and blank lines are no cases."""
    tally = Tally()
    files = [CRATES / "lake_inspect" / "data" / file for file in lines_of("lake_inspect", "args")]
    inspector = Inspector([file.read_bytes() for file in files])
    stored = stored_answers(lines_of("lake_inspect", "stdout"))
    for number, line in enumerate(lines_of("lake_inspect", "stdin"), 1):
        told = next(stored, [])
        if line and not line.startswith("#"):
            name = f"lake_inspect: line {number}, {shortened(line)}"
            tally.compare(name, partial(inspector.answer, line, number), told)
        elif told != [line]:
            raise SystemExit(f"lake_inspect: line {number} has no stored answer")
    if next(stored, None) is not None:
        raise SystemExit("lake_inspect: a stored answer is left over")
    return tally


# What is told where a growth of memory was refused.
NO_MEMORY = re.compile(
    r"out of memory|refused (E4|S6|O9|K6|St2) Memory|refused F[12] Not(Loaded|Saved) -$"
)


def refusals_of_memory() -> list[str]:
    """The stored answers that say that memory was refused: none may, but where a case wants it.

    Those are the answers to the lines of `crates/lake_inspect` whose first word begins with `heap`, and to lists of
    events, which say in which call memory runs out.
    """
    found: list[str] = []
    wanted = places_of_kind("events", lines_of("lake_cases", "stdout"))
    for stored in sorted(CRATES.glob("*/stdout")):
        crate = stored.parent.name
        asked = lines_of(crate, "stdin") if crate == "lake_inspect" else []
        answers = [[line] for line in lines_of(crate, "stdout")]
        if asked:
            answers = list(stored_answers(lines_of(crate, "stdout")))
        for number, answer in enumerate(answers):
            line = asked[number] if asked else ""
            if crate == "lake_cases" and number in wanted:
                continue
            if not line.startswith(("#", "heap")) and any(map(NO_MEMORY.search, answer)):
                found.append(f"{crate}: answer {number + 1}, {shortened(answer[0])}")
    return found


def main() -> int:
    """Compares all cases, and prints how many agree."""
    refusals = refusals_of_memory()
    for refusal in refusals:
        print("memory was refused,", refusal)
    total = Tally()
    checks = {
        "scripts": partial(check_stored, "scripts", script_cases, script_answer),
        "random scripts, by themselves": check_random_scripts,
        "replies that break laws": check_replies,
        "calls": partial(check_stored, "calls", session_cases, session_answer),
        "events": partial(check_stored, "events", event_cases, event_answer),
        "lake_inspect": check_lines,
    }
    for name, check in checks.items():
        tally = check()
        print(f"{name}: {tally}")
        total.add(tally)
    print(total)
    return 1 if total.differ or refusals else 0


if __name__ == "__main__":
    sys.exit(main())
