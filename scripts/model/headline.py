"""Whether the replies to a script say what they have to of batches and reads, by the replies alone.

The script begins with a creation, and ends with `history` and a `tail` of all rows. No model of stores or
sessions stands behind this: each line gets a reply of its kind, each acknowledged batch stands in the log
once, every batch at most once and with rows that were handed in under its number, numbers of an application
rise, none stands behind its close, and each read got just the rows of the log between its two offsets.
Readers that go on where they ended got a front of the rows.

Replies that break each of these laws, written by hand, stand in `broken_replies.txt`.
"""

from collections import Counter
from typing import Any, NamedTuple
import json

from script_lines import Append, BadLine, Checkpoint, Close, Create, Job, Plain, Start, Tail
from script_lines import line as line_of
from table import Offset, offset_of

DECODER = json.JSONDecoder()
Row = dict[str, Any]


# What a job may be told at its end: the first word, or a refusal's code, over a table that this product alone writes.
ENDS: dict[type, set[str]] = {
    Append: {"Committed", "Already", "S1", "S2", "S3", "S4", "S5", "S7", "S8", "S11"},
    Checkpoint: {"Checkpointed", "K5"},
    Close: {"Closed", "AlreadyClosed", "S4", "S5", "S11"},
    Create: {"Created", "E1", "E5"},
    Tail: {"next", "O2", "O7", "O8", "O10"},
}

# What the other lines with a reply may be told.
NO_ACTOR = "refused Q2 NoActor"
PLAIN = {"land": {"created", "taken", "refused Q1 NoSuchName"}, "tries": {"ok"}}


class Broken(Exception):
    """What isn't as it has to be."""


class Read(NamedTuple):
    """A read that was told rows: by whom, from where, how many at most, its rows, and where it ended."""

    reader: str
    start: Offset
    limit: int
    rows: list[Row]
    end: Offset


class Entry(NamedTuple):
    """A version: the batch of an application, or its close where there is no number."""

    application: str
    number: int | None

    def __str__(self) -> str:
        """What it is, in words."""
        word = "the close" if self.number is None else f"batch {self.number}"
        return f"{word} of {self.application}"


def need(holds: bool, text: str) -> None:
    """Refuses what doesn't hold."""
    if not holds:
        raise Broken(text)


class Replies:
    """Replies, taken one after the other."""

    def __init__(self, told: list[str]) -> None:
        self.told = told
        self.place = 0

    def one(self) -> str:
        """The next reply line."""
        need(self.place < len(self.told), "replies are missing")
        self.place += 1
        return self.told[self.place - 1]

    def read(self) -> list[str]:
        """The lines of a read: rows up to `next`, or a refusal."""
        lines = [self.one()]
        while lines[-1].startswith("{"):
            lines.append(self.one())
        return lines

    def history(self) -> list[Entry | None]:
        """The entries of a history, None for a creation."""
        entries: list[Entry | None] = []
        while self.place < len(self.told):
            version, _, rest = self.told[self.place].partition(" ")
            if version != str(len(entries)):
                break
            entries.append(entry_of(rest))
            self.place += 1
        return entries


def entry_of(text: str) -> Entry | None:
    """What a history tells behind a version."""
    if not text:
        return None
    word, _, rest = text.partition(" ")
    application, end = DECODER.raw_decode(rest)
    need(word in ("txn", "close"), f"a history tells {text}")
    return Entry(application, int(rest[end:]) if word == "txn" else None)


class Talk:
    """All that was handed in and told: submissions, outcomes, reads, and at the end the history and the rows."""

    def __init__(self, script: list[str], told: list[str]) -> None:
        self.replies = Replies(told)
        self.jobs: dict[str, Job] = {}
        self.submitted: dict[tuple[str, int], list[list[Row]]] = {}
        self.outcomes: list[tuple[Job, str]] = []
        self.reads: list[Read] = []
        self.asked: dict[str, list[tuple[Offset, Offset | None]]] = {}
        self.entries: list[Entry | None] = []
        for text in script:
            if text and not text.startswith("#"):
                self.take(text)
        need(self.replies.place == len(told), "replies are left over")

    def take(self, text: str) -> None:
        """Takes a line and its reply."""
        try:
            line = line_of(text)
        except BadLine as bad:
            raise Broken(f"{text} is no line") from bad
        if isinstance(line, Start):
            need(self.replies.one() == "ok", f"{text}: not ok")
            self.jobs[line.actor] = line.job
            self.submit(line.job)
        elif isinstance(line, Plain):
            self.plain(line)
        elif isinstance(line, Tail):
            self.end("", line, self.replies.read())
        else:
            self.submit(line)
            self.end("", line, [self.replies.one()])

    def plain(self, line: Plain) -> None:
        """Takes a line that is no job."""
        if line.word == "history":
            self.entries = self.replies.history()
            need(bool(self.entries), "a history tells no version")
        elif line.word in ("until", "step", "finish", "die"):
            self.lead(line.word, line.arguments[0])
        elif line.word != "fault":
            reply = self.replies.one()
            need(reply in PLAIN[line.word], f"`{line.word}` was told {reply}")

    def lead(self, word: str, actor: str) -> None:
        """Takes what an actor is told that is led on, or dies."""
        told = self.replies.read()
        if told == [NO_ACTOR]:
            need(actor not in self.jobs, f"{actor} has a job, and was told that it has none")
            return
        need(actor in self.jobs, f"{actor} has no job, and was told {told[-1]}")
        if word == "die":
            need(told == ["ok"], f"{actor} died, and was told {told[-1]}")
            del self.jobs[actor]
        elif told != ["ok"]:
            self.end(actor, self.jobs.pop(actor), told)
        else:
            need(word != "finish", f"{actor} is to end its job, and was told ok")

    def submit(self, job: Any) -> None:
        """Keeps the rows of a batch that was handed in."""
        if isinstance(job, Append):
            rows = self.submitted.setdefault((job.application, job.number), [])
            if job.values not in rows:
                rows.append(job.values)

    def end(self, actor: str, job: Any, told: list[str]) -> None:
        """Keeps what a job was told at its end, which has to be of its kind."""
        kind = kind_of(told[-1])
        need(kind in ENDS[type(job)], f"such a job is never told {told[-1]}")
        need(len(told) == 1 or kind == "next", f"rows stand in front of {told[-1]}")
        self.outcomes.append((job, told[-1]))
        if not isinstance(job, Tail) or told[-1].startswith("refused O7"):
            return
        start, end = offset_of(job.offset), None
        if told[-1].startswith("next "):
            end = offset_of(told[-1].removeprefix("next "))
            rows = [json.loads(row) for row in told[:-1]]
            self.reads.append(Read(actor, start, job.limit, rows, end))
        self.asked.setdefault(actor, []).append((start, end))


class Facts:
    """What the history and the last read tell: entries, and which rows each version has."""

    def __init__(self, talk: Talk) -> None:
        self.entries = talk.entries
        self.versions = {entry: version for version, entry in enumerate(talk.entries) if entry}
        need(bool(talk.reads), "no read was told rows")
        last = talk.reads[-1]
        is_whole = last.start == (0, 0, 0) and last.end == (len(talk.entries), 0, 0)
        need(is_whole, "the last read isn't of all rows")
        self.rows = last.rows
        self.acknowledged: dict[tuple[str, int], list[Row]] = {}
        for job, told in talk.outcomes:
            if isinstance(job, Append) and told.startswith(("Committed ", "Already ")):
                key = job.application, job.number
                rows = self.acknowledged.setdefault(key, job.values)
                need(rows == job.values, f"other rows stand as {Entry(*key)}")
        self.starts = self.divided(talk)

    def divided(self, talk: Talk) -> list[int]:
        """Where the rows of each version begin: each batch has rows that were handed in under its number."""
        starts = [0]
        for entry in self.entries:
            place = starts[-1]
            lists: list[list[Row]] = [[]]
            if entry is not None and entry.number is not None:
                key = entry.application, entry.number
                own = self.acknowledged.get(key)
                lists = talk.submitted.get(key, []) if own is None else [own]
            fitting = {len(rows) for rows in lists if self.rows[place : place + len(rows)] == rows}
            # Rows are all different, so of several lists that fit only an empty one is a part of another.
            need(bool(fitting), f"the rows of {entry} were not handed in")
            starts.append(place + max(fitting))
        need(starts[-1] == len(self.rows), "rows are left over")
        return starts

    def position(self, offset: Offset) -> int:
        """How many rows stand in front of a place."""
        version, file, row = offset
        if version >= len(self.entries):
            need(offset == (len(self.entries), 0, 0), f"{offset.text()} is no place")
            return len(self.rows)
        start, end = self.starts[version], self.starts[version + 1]
        place = (start if file == 0 else end) + row
        need(place <= end, f"{offset.text()} is no place")
        return place


def headline(script: list[str], told: list[str]) -> str:
    """What was found, in a line; Broken where something isn't as it has to be."""
    talk = Talk(script, told)
    facts = Facts(talk)
    test_log(facts)
    for job, reply in talk.outcomes:
        test_outcome(facts, job, reply)
    for read in talk.reads:
        test_read(facts, read)
    readers = test_readers(facts, talk)
    counts = Counter(kind_of(reply) for _, reply in talk.outcomes)
    told_kinds = ", ".join(f"{kind} {count}" for kind, count in sorted(counts.items()))
    batches = sum(entry is not None and entry.number is not None for entry in facts.entries)
    return (
        f"{len(facts.entries)} versions, {batches} batches of {len(facts.rows)} rows, "
        f"{len(facts.acknowledged)} acknowledged, {readers} readers that went on; {told_kinds}"
    )


def kind_of(reply: str) -> str:
    """The kind of a reply: its first word, and the code of a refusal."""
    words = reply.split(" ")
    return words[1] if words[0] == "refused" else words[0]


def test_log(facts: Facts) -> None:
    """Each batch stands once, numbers rise, and none stands behind its close."""
    last: dict[str, int] = {}
    closed: set[str] = set()
    for version, entry in enumerate(facts.entries):
        need((entry is None) == (version == 0), f"version {version} is {entry or 'a creation'}")
        if entry is None:
            continue
        need(entry.application not in closed, f"{entry} stands behind its close")
        if entry.number is None:
            closed.add(entry.application)
        else:
            need(entry.number > last.get(entry.application, -1), f"{entry} doesn't rise")
            last[entry.application] = entry.number
    for key in facts.acknowledged:
        need(Entry(*key) in facts.versions, f"{Entry(*key)} was acknowledged and doesn't stand")


def test_outcome(facts: Facts, job: Job, reply: str) -> None:
    """Whether the log says what a job was told."""
    kind = kind_of(reply)
    last_word = reply.split(" ")[-1]
    count = int(last_word) if last_word.isdigit() else -1
    if kind in ("Checkpointed", "S4"):
        need(0 <= count < len(facts.entries), f"{reply} of {len(facts.entries)} versions")
    need(kind != "Created" or reply == "Created 0", f"a creation was told {reply}")
    if not isinstance(job, Append | Close):
        return
    number = job.number if isinstance(job, Append) else None
    own = facts.versions.get(Entry(job.application, number))
    holds = {
        "Committed": own == count,
        "Closed": own == count,
        "Already": own is not None and number == count,
        "AlreadyClosed": own is not None,
        "S1": number is not None and number < count and Entry(job.application, count) in facts.versions,
        "S2": own is None and Entry(job.application, None) in facts.versions,
    }
    need(holds.get(kind, True), f"{Entry(job.application, number)} isn't so: {reply}")


def test_read(facts: Facts, read: Read) -> None:
    """Whether a read got the rows between its offsets, and as many as it was to get."""
    start, end = facts.position(read.start), facts.position(read.end)
    need(read.rows == facts.rows[start:end], f"a read from {read.start.text()} got other rows")
    is_end = read.end.file == read.end.row == 0 and len(read.rows) < read.limit
    need(len(read.rows) == read.limit or is_end, f"a read from {read.start.text()} ended early")


def test_readers(facts: Facts, talk: Talk) -> int:
    """How many readers began at the beginning and went on where they ended: each got a front of the rows."""
    count = 0
    for reader, asked in talk.asked.items():
        place, goes_on = Offset(0, 0, 0), reader != ""
        for start, end in asked:
            goes_on = goes_on and start == place
            place = end if end is not None and goes_on else place
        if goes_on:
            handed = [row for read in talk.reads if read.reader == reader for row in read.rows]
            need(handed == facts.rows[: facts.position(place)], f"{reader} got other rows than a front")
            count += 1
    return count
