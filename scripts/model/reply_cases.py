"""Scripts with replies to them, written by hand: the laws of batches and reads that the replies keep, or the one
that they break.

They stand in `broken_replies.txt`. A line `== NAME` begins a case, `> LINE` is a line of its script, `< REPLY` one
of its replies, and `= FOUND` says what has to be found: `lawful`, or what is broken.
"""

from collections.abc import Iterator
from pathlib import Path
from typing import NamedTuple

from headline import Broken, headline

STORED = Path(__file__).resolve().parent / "broken_replies.txt"


class ReplyCase(NamedTuple):
    """A script, the replies to it, and what has to be found."""

    name: str
    script: list[str]
    told: list[str]
    found: list[str]


def reply_cases() -> Iterator[ReplyCase]:
    """The stored cases."""
    for text in STORED.read_text().split("\n== ")[1:]:
        name, *lines = text.split("\n")
        kept = {mark: [line[2:] for line in lines if line.startswith(f"{mark} ")] for mark in "><="}
        yield ReplyCase(name, kept[">"], kept["<"], kept["="])


def found_in(script: list[str], told: list[str]) -> list[str]:
    """What is found, in a line: the first law that is broken, or that none is."""
    try:
        headline(script, told)
    except Broken as broken:
        return [f"broken: {broken}"]
    return ["lawful"]
