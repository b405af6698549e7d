"""Cases of sessions that are answered call by call, and what this model tells of them.

Of the calls of `crates/lake_cases` those are answered that have calls, faults, creations, appends, closes,
checkpoints and reads alone; its `src/calls.rt` says how their lines are spelled.
"""

from collections.abc import Iterator
from typing import Any, NamedTuple

from log import COMMIT_NAME
from script_lines import KINDS, LARGEST_COUNT, MOST_ROWS, Append, BadLine, Checkpoint, Close, Create, Job, Tail
from script_lines import number, rows, split
from sessions import Get, Gets, List, PutCommit, PutFile, Request, Session, Setting
from stores import Store
from table import NotModelled, commit_name, offset_of
from world import put_of

READER = " reader"

# The latest moment, in milliseconds.
LATEST = 2**63 - 1

# What is answered to a call that was lost.
LOST = "lost"

# How long the texts are of rows that are filled in.
MIB = 1 << 20

# The words for outcomes; another reply is a refusal, or that of a read.
OUTCOMES = {
    "Committed": "committed",
    "Already": "already",
    "Closed": "closed",
    "AlreadyClosed": "closed already",
    "Checkpointed": "checkpointed",
}


class SessionCase(NamedTuple):
    """A case, and its lines."""

    name: str
    lines: list[str]


def session_cases(lines: list[str]) -> Iterator[SessionCase]:
    """The cases of an input."""
    case = None
    for line in lines:
        if line.startswith("case "):
            if case is not None:
                yield case
            case = SessionCase(line.removeprefix("case "), [])
        elif case is not None and line and not line.startswith("#"):
            case.lines.append(line)
    if case is not None:
        yield case


def session_answer(case: SessionCase) -> list[str]:
    """What is told of a case."""
    calls = Calls()
    try:
        told = [text for line in case.lines for text in calls.answer(line)]
    except BadLine as error:
        raise NotModelled("a bad line") from error
    return "\n".join(told).split("\n") if told else []


def rows_of(text: str) -> Any:
    """The rows of an append: a JSON array, or so many rows of a text of 1 MiB."""
    word, _, count = text.partition(" ")
    return [{"s": "x" * MIB}] * number(count) if word == "fill" else rows(text)


class Calls:
    """A store whose calls meet turns, and the sessions that ask it."""

    def __init__(self) -> None:
        self.store = Store({})
        self.flight: list[tuple[str, bytes]] = []
        self.turns: list[str] = []
        self.armed: str | None = None
        self.faults = 0
        self.sessions: dict[str, Session] = {}

    def answer(self, line: str) -> list[str]:
        """The texts that are told of a line."""
        word, _, rest = line.partition(" ")
        if word in ("append", "close"):
            return self.begin("", line)
        if word == "start":
            return self.begin(*split(rest, 2))
        if word == "read":
            return self.read(rest)
        if word in ("step", "turn"):
            return self.go_on(READER if word == "turn" else rest)
        if word == "create":
            table_id, moment, schema = split(rest, 3)
            return self.driven(Create(table_id, number(moment, 0, LATEST), schema))
        if line == "checkpoint":
            return self.driven(Checkpoint())
        if word in ("turns", "arm", "land", "faults", "object"):
            return FAULTS[word](self, rest)
        if word in ("list", "get", "put", "commit"):
            return [self.call(word, rest)]
        raise NotModelled(f"the line {word}")

    def call(self, word: str, rest: str) -> str:
        """One call of the store, and its answer."""
        name, _, text = rest.partition(" ")
        if word == "list":
            answer = self.meets(List())
            return LOST if answer == LOST else " ".join(["names", *sorted(self.store.objects)])
        if word == "get":
            answer = self.meets(Get(rest))
            return LOST if answer == LOST else f"object {'-' if answer is None else answer.decode()}"
        is_file = word == "put"
        content = text.encode()
        answer = self.meets(PutFile(name, content) if is_file else PutCommit(number(name), content))
        return LOST if answer == LOST else "created" if answer else "exists"

    def meets(self, request: Request) -> Any:
        """The answer to a call, which meets the next turn; one that is armed stands in its place."""
        turn = self.turns.pop(0) if self.turns else "pass"
        is_put = isinstance(request, PutFile | PutCommit)
        if is_put and self.armed is not None and COMMIT_NAME.fullmatch(put_of(request)[0]):
            turn, self.armed = self.armed, None
        is_lost = turn in ("lost", "mute", "late")
        self.faults += is_lost
        if isinstance(request, List):
            return LOST if is_lost else self.store.listing()
        if isinstance(request, Get):
            return LOST if is_lost else self.store.objects.get(request.name)
        if turn == "late":
            self.flight.append(put_of(request))
        is_new = turn in ("pass", "mute", "twice") and self.store.put(*put_of(request))
        return LOST if is_lost else is_new and turn == "pass"

    def session(self, job: Job | Create, tries: int) -> Session:
        """A session that has made its first step."""
        session = Session(Setting(self.store, tries, True, []), job)
        session.begin()
        return session

    def begin(self, actor: str, line: str) -> list[str]:
        """An append or a close begins."""
        word, _, rest = line.partition(" ")
        if word == "append":
            application, count, moment, tries, values = split(rest, 5)
            job: Job = Append(application, number(count), number(moment, 0, LATEST), rows_of(values))
        elif word == "close":
            application, moment, tries = split(rest, 3)
            job = Close(application, number(moment, 0, LATEST))
        else:
            raise BadLine
        return self.asked(actor, self.session(job, number(tries, 1, LARGEST_COUNT)))

    def read(self, rest: str) -> list[str]:
        """A read begins."""
        limit, offset = split(rest, 2)
        try:
            offset_of(offset)
        except ValueError as error:
            raise BadLine from error
        return self.asked(READER, self.session(Tail(number(limit, 0, MOST_ROWS), offset), 1))

    def go_on(self, actor: str) -> list[str]:
        """The call that a session asks for is made."""
        session = self.sessions.pop(actor, None)
        if session is None:
            raise BadLine
        self.make(session)
        return self.asked(actor, session)

    def make(self, session: Session) -> None:
        """Makes a session's call."""
        request = session.request
        if not isinstance(request, Gets):
            answer = self.meets(request)
            session.lose() if answer == LOST else session.take(answer)
            return
        first, last, needed = request
        if self.meets(Get(commit_name(first))) == LOST:
            session.lose()
            return
        bad = self.store.first_bad(first, first) if needed else None
        if bad is None and first < last:
            session.request = Gets(first + 1, last, needed)
        else:
            session.take(bad)

    def asked(self, actor: str, session: Session) -> list[str]:
        """What a session asks for, or how it ended."""
        if session.reply is not None:
            return ended(session)
        self.sessions[actor] = session
        request = session.request
        if isinstance(request, List):
            return ["asks for the names"]
        if isinstance(request, PutFile):
            return [f"asks to put {request.name}", f"file {len(request.content)}"]
        if isinstance(request, PutCommit):
            return [f"asks to put commit {request.version}", request.content.decode().removesuffix("\n")]
        name = request.name if isinstance(request, Get) else commit_name(request.first)
        return [f"asks for {name}"]

    def driven(self, job: Job | Create) -> list[str]:
        """A session that is driven to its end."""
        session = self.session(job, 1)
        while session.reply is None:
            self.make(session)
        if isinstance(job, Create):
            return ["created" if line == "Created 0" else line for line in session.reply]
        return ended(session)

    def add_turns(self, rest: str) -> list[str]:
        """`turns KIND ..`."""
        self.turns += rest.split()
        if not set(self.turns) <= set(KINDS):
            raise BadLine
        return []

    def arm(self, rest: str) -> list[str]:
        """`arm KIND`."""
        if rest not in KINDS:
            raise BadLine
        self.armed = rest
        return []

    def land(self, rest: str) -> list[str]:
        """`land K`."""
        place = number(rest)
        if place >= len(self.flight):
            return ["none"]
        return ["created" if self.store.put(*self.flight[place]) else "exists"]

    def count(self, rest: str) -> list[str]:
        """`faults`."""
        return [f"faults {self.faults}"]

    def standing(self, rest: str) -> list[str]:
        """`object NAME`."""
        content = self.store.objects.get(rest)
        return ["absent" if content is None else f"stands {content.decode()}"]


def ended(session: Session) -> list[str]:
    """How a session ended: a refusal is told by its text."""
    if isinstance(session.job, Tail) or session.reply is None:
        return [line.removeprefix("refused ") for line in session.reply or []]
    word, _, rest = session.reply[0].partition(" ")
    return [rest if word == "refused" else f"{OUTCOMES[word]} {rest}".rstrip()]


FAULTS: dict[str, Any] = {
    "turns": Calls.add_turns,
    "arm": Calls.arm,
    "land": Calls.land,
    "faults": Calls.count,
    "object": Calls.standing,
}
