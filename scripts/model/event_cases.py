"""Lists of events, each over a new store, and what this model tells of each.

`src/events.rt` of `crates/lake_cases` says how they are spelled.
"""

from collections.abc import Iterator
from typing import Any, NamedTuple

from log import Log
from script_lines import Append, BadLine, Checkpoint, Close, Create, Job, Plain, Start, Tail
from script_lines import line as line_of
from script_lines import number, split
from sessions import Get, Gets, List, Session, Setting
from stores import Store
from table import offset_of
from world import FIRST_TRIES, put_of

# The ways in which a call is answered.
HOWS = ("once", "twice", "late", "lost", "short")

# What waits where a call was lost, or memory ran out in it.
LOST, SHORT = "lost", "short"

# What a session tells where memory ran out in a call.
NO_MEMORY = {
    Append: "S6 Memory",
    Close: "S6 Memory",
    Checkpoint: "K6 Memory",
    Tail: "O9 Memory",
    Create: "E4 Memory",
}


class EventCase(NamedTuple):
    """A case, and its lines with their numbers."""

    name: str
    lines: list[tuple[int, str]]


def event_cases(lines: list[str]) -> Iterator[EventCase]:
    """The cases of an input."""
    case = None
    for place, line in enumerate(lines, 1):
        if line.startswith("case "):
            if case is not None:
                yield case
            case = EventCase(line.removeprefix("case "), [])
        elif case is not None and line and not line.startswith("#"):
            case.lines.append((place, line))
    if case is not None:
        yield case


def event_answer(case: EventCase) -> list[str]:
    """What is told of a case: its bad lines, what each event told, whether it fell short, and which table is left."""
    events = Events()
    bad: list[str] = []
    told: list[str] = []
    for place, line in case.lines:
        try:
            told += events.take(line)
        except BadLine:
            bad.append(f"bad line {place}")
    log = Log(events.store.objects, True)
    # A list falls short where a session tells want of memory, which here it does only by an event that lets it.
    short = ["short"] if any(it.endswith(" Memory") for it in told) else []
    return bad + told + short + [log.summary(), *log.entry_lines()]


def job_of(text: str) -> Job | Create:
    """The job that a line of a script asks for, one that a session can do."""
    asked = line_of(text)
    if isinstance(asked, Plain | Start):
        raise BadLine
    if isinstance(asked, Tail):
        try:
            offset_of(asked.offset)
        except ValueError as error:
            raise BadLine from error
    return asked


class Actor:
    """A session, and the answer that waits for it, if one does."""

    def __init__(self, session: Session) -> None:
        self.session = session
        self.waits: list[Any] = []

    def take(self, answer: Any) -> None:
        """The session takes an answer; of several gets it takes one."""
        self.waits = []
        session = self.session
        if answer == LOST:
            session.lose()
        elif answer == SHORT:
            session.reply = [f"refused {NO_MEMORY[type(session.job)]}"]
        elif isinstance(session.request, Gets) and answer is None and session.request.first < session.request.last:
            session.request = session.request._replace(first=session.request.first + 1)
        else:
            session.take(answer)


class Events:
    """A store, the puts in flight, and the actors whose sessions haven't ended."""

    def __init__(self) -> None:
        self.store = Store({})
        self.flight: list[tuple[str, bytes]] = []
        self.actors: dict[int, Actor] = {}
        self.tries = FIRST_TRIES

    def take(self, line: str) -> list[str]:
        """What an event tells; a count of tries is none, and tells nothing."""
        word, rest = split(line, 2)
        if word == "tries":
            self.tries = number(rest, 1)
            return []
        name, _, rest = rest.partition(" ")
        place = number(name)
        if word == "begin":
            setting = Setting(self.store, self.tries, True, [])
            self.actors[place] = Actor(Session(setting, job_of(rest)))
        elif word == "act" and rest in HOWS:
            self.act(place, rest)
        elif word in ("answer", "lose") and not rest:
            return self.go_on(place, word == "lose")
        elif word == "die" and not rest:
            self.actors.pop(place, None)
        elif word == "land" and not rest:
            for put in self.flight[place : place + 1]:
                self.store.put(*put)
        else:
            raise BadLine
        return ["-"]

    def act(self, name: int, how: str) -> None:
        """The call that an actor's session asks for is answered in this way, if it asks for one."""
        actor = self.actors.get(name)
        if actor is None or actor.session.request is None or actor.waits:
            return
        request = actor.session.request
        is_look = isinstance(request, List | Get | Gets)
        if how == "late" and not is_look:
            self.flight.append(put_of(request))
        if how == "short":
            actor.waits = [SHORT]
        elif how in ("late", "lost"):
            actor.waits = [LOST]
        elif is_look:
            actor.waits = [self.seen(request)]
        else:
            is_new = self.store.put(*put_of(request))
            actor.waits = [is_new and how == "once"]

    def seen(self, request: List | Get | Gets) -> Any:
        """The answer to a call that changes nothing; of several gets that to the first one."""
        if isinstance(request, List):
            return self.store.listing()
        if isinstance(request, Get):
            return self.store.objects.get(request.name)
        return self.store.first_bad(request.first, request.first) if request.needed else None

    def go_on(self, name: int, is_lost: bool) -> list[str]:
        """An actor's session makes its first step, or takes what waits, or the loss of it."""
        actor = self.actors.get(name)
        if actor is None:
            return ["-"]
        if actor.session.is_new:
            if not is_lost:
                actor.session.begin()
        elif actor.waits:
            actor.take(LOST if is_lost else actor.waits[0])
        if actor.session.reply is None:
            return ["-"]
        del self.actors[name]
        return actor.session.reply
