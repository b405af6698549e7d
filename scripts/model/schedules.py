"""Random scripts of several actors over one table, and a check of what they were told.

`schedules.py SEED COUNT` prints a script of about COUNT lines, the same one for each seed; `--versions N`
says about how many versions its log gets. `schedules.py --answer SCRIPT` prints the replies of this model.
`schedules.py --check SCRIPT REPLIES` compares replies with the model's, and then tests by the replies alone
that batches and reads are as they have to be; it ends with status 1 where one isn't. With `--no-checkpoint`
each of them is of logs that are read from version 0. `random_cases.py` stores a few such scripts as cases.
"""

from pathlib import Path
from random import Random
import argparse
import sys

from headline import Broken, headline
from sessions import PutCommit
from stores import version_of
from table import Offset, compact, offset_of
from world import World

CREATE = 'create 00000000-0000-4000-8000-000000000001 0 {"type":"struct","fields":['
TEXT_COLUMN = '{"name":"s","type":"string","nullable":true,"metadata":{}}'
NUMBER_COLUMN = '{"name":"x","type":"long","nullable":false,"metadata":{}}'
LOSSES = ("lost", "mute", "late")
LIVE_STREAMS = 6
WRITERS = [f"w{number}" for number in range(8)]
READERS = [f"r{number}" for number in range(4)]
READ_ALL = 65_536


class Stream:
    """An application, and the rows that were handed in under each of its numbers, as texts."""

    def __init__(self, name: str) -> None:
        self.name = name
        self.batches: list[tuple[int, str]] = []

    @property
    def next(self) -> int:
        """The number above all that were handed in."""
        return self.batches[-1][0] + 1 if self.batches else 0


class Schedule:
    """A script that is made line by line, and a world that answers it meanwhile."""

    def __init__(self, seed: int, count: int, versions: int, restores: bool) -> None:
        self.random = Random(seed)
        self.count = count
        self.versions = versions
        self.world = World({}, restores)
        self.has_text = self.chance(50)
        columns = [TEXT_COLUMN, NUMBER_COLUMN] if self.has_text else [NUMBER_COLUMN]
        self.table = f"{CREATE}{','.join(columns)}]}}"
        self.lines: list[str] = []
        self.named = 0
        self.row = 0
        self.live = [self.stream() for _ in range(LIVE_STREAMS)]
        self.closed: list[Stream] = []
        self.offsets = {name: Offset(0, 0, 0) for name in READERS}
        self.places = [Offset(0, 0, 0)]

    def script(self) -> list[str]:
        """The lines of the script."""
        self.say(self.table)
        events = [self.begin, self.go_on, self.plain, self.read, self.land, self.set, self.stray]
        weights = [20, 42, 9, 18, 6, 3, 2]
        while len(self.lines) < self.count:
            self.random.choices(events, weights)[0]()
        self.say("history")
        self.say(f"tail {READ_ALL} {Offset(0, 0, 0).text()}")
        return self.lines

    def say(self, line: str) -> list[str]:
        """Adds a line, and gives its reply."""
        self.lines.append(line)
        return self.world.answer(line)

    def chance(self, percent: int) -> bool:
        """Whether something happens that does so often."""
        return self.random.randrange(100) < percent

    def stream(self) -> Stream:
        """A stream of a new application."""
        name, self.named = self.named, self.named + 1
        letters = chr(97 + name % 26) + (str(name // 26) if name > 25 else "")
        return Stream(letters + self.random.choice(["", "", "", "", "\u00fc", '"', "-x"]))

    def may_grow(self) -> bool:
        """Whether the log has fewer versions than it is to have by now."""
        return self.world.store.newest < 3 + self.versions * len(self.lines) // self.count

    def batch(self) -> str:
        """The line of a batch: a new one, or one that was handed in before, with its rows or others."""
        stream = self.random.choice(self.live)
        if self.closed and self.chance(8):
            stream = self.random.choice(self.closed[-8:])
        is_old = bool(stream.batches) and (not self.may_grow() or self.chance(35))
        if is_old and self.chance(92):
            back = 1 if self.chance(70) else self.random.randrange(len(stream.batches)) + 1
            number, rows = stream.batches[-back]
        else:
            gap = self.random.randrange(4) if self.chance(10) else 0
            number, rows = stream.next + gap, self.rows()
            stream.batches.append((number, rows))
        if is_old and self.chance(5):
            rows = self.rows()
        return f"append {stream.name} {number} {self.random.randrange(100)} {rows}"

    def rows(self) -> str:
        """A few rows, none of which was there before."""
        count = self.random.choice([0, 1, 1, 1, 2, 3])
        self.row += count
        return compact([self.row_of(number) for number in range(self.row - count, self.row)])

    def row_of(self, number: int) -> dict[str, str | int | None]:
        """The row of a number, of which the text may be null."""
        if not self.has_text:
            return {"x": number}
        return {"s": None if self.chance(20) else f"row {number}", "x": number}

    def close(self) -> str:
        """The line of a close; another stream begins."""
        if self.closed and self.chance(60):
            return f"close {self.random.choice(self.closed[-8:]).name} 7"
        # Mostly one of which a batch is on its way.
        busy = {getattr(session.job, "application", None) for session in self.world.actors.values()}
        places = [place for place, stream in enumerate(self.live) if stream.name in busy]
        place = self.random.choice(places if places and self.chance(80) else range(len(self.live)))
        self.closed.append(self.live[place])
        self.live[place] = self.stream()
        return f"close {self.closed[-1].name} {self.random.randrange(100)}"

    def job(self) -> str:
        """The line of a job that may put something."""
        if self.chance(6) and self.may_put_checkpoint():
            return "checkpoint"
        return self.close() if self.chance(4) else self.batch()

    def may_put_checkpoint(self) -> bool:
        """Whether the log has grown enough since the last checkpoint, for checkpoints grow with it."""
        store = self.world.store
        if len(self.lines) * 6 < self.count:
            return False
        last = version_of(store.checkpoints[-1]) if store.checkpoints else 0
        return store.newest > last + last // 25 + 4 or self.chance(10)

    def begin(self) -> None:
        """A writer begins, mostly one that does nothing yet."""
        idle = [name for name in WRITERS if name not in self.world.actors]
        names = WRITERS if not idle or self.chance(8) else idle
        self.say(f"start {self.random.choice(names)} {self.job()}")

    def go_on(self) -> None:
        """A writer makes a step, or several."""
        busy = [name for name in WRITERS if name in self.world.actors]
        if not busy:
            self.begin()
            return
        name = self.random.choice(busy)
        if isinstance(self.world.actors[name].request, PutCommit):
            hows = ["pass", "twice", *LOSSES]
            how = self.random.choices(["finish", "die", *hows], [25, 6, 25, 12, 8, 12, 12])[0]
        else:
            hows = ["until", "pass", "twice", *LOSSES]
            how = self.random.choices(["finish", "die", *hows], [12, 4, 45, 25, 6, 2, 3, 3])[0]
        is_line = how in ("finish", "die", "until")
        self.say(f"{how} {name}" if is_line else f"step {name} {how}")
        # Mostly a later commit takes the version first, unless the put lands at once.
        if how == "late" and self.world.flight and self.chance(60):
            self.say(f"land {len(self.world.flight) - 1}")

    def plain(self) -> None:
        """A line without an actor."""
        if self.chance(20):
            self.say(f"tail {self.random.choice([1, 3, 10])} {self.place().text()}")
        elif self.chance(4):
            jobs = ["append  0 0 []", "close  0", "append a 1000000000000 0 []", "tail 1 nothing"]
            self.say(self.random.choice(jobs))
        elif self.chance(4):
            self.say(f"append {self.live[0].name} {self.live[0].next + 1} 0 [{{}}]")
        else:
            self.say(self.job())

    def place(self) -> Offset:
        """A place that a read was told, or one that may not be there."""
        place = self.random.choice(self.places[-50:])
        if self.chance(15):
            place = Offset(*(part + self.random.randrange(3) for part in place))
        return place

    def read(self) -> None:
        """A reader begins where its last read ended, or goes on."""
        name = self.random.choice(READERS)
        session = self.world.actors.get(name)
        if session is None or self.chance(5):
            limit = self.random.choice([0, 1, 2, 3, 5, 20, 200])
            self.say(f"start {name} tail {limit} {self.offsets[name].text()}")
            return
        how = self.random.choices(["finish", "die", "until", "step"], [55, 5, 15, 25])[0]
        if how == "step":
            how = self.random.choice(["pass", "twice", *LOSSES])
            if how not in LOSSES and not (session.is_new or self.is_in_order(name)):
                how = "lost"
        is_line = how in ("finish", "die", "until")
        told = self.say(f"{how} {name}" if is_line else f"step {name} {how}")
        if told[-1].startswith("next "):
            self.offsets[name] = offset_of(told[-1].removeprefix("next "))
            self.places.append(self.offsets[name])

    def is_in_order(self, reader: str) -> bool:
        """Whether a read's calls have one order: where a checkpoint may stand behind its place they may have others."""
        checkpoints = self.world.store.checkpoints if self.world.restores else []
        return not checkpoints or version_of(checkpoints[-1]) < self.offsets[reader].version

    def land(self) -> None:
        """A put in flight takes effect, mostly one of the last."""
        count = len(self.world.flight)
        near = max(count - self.random.randrange(1, 8), 0)
        self.say(f"land {near if self.chance(80) else self.random.randrange(count + 1)}")

    def set(self) -> None:
        """A setting: a fault, or how many versions are tried."""
        if self.chance(75):
            self.say(f"fault {self.random.choice(['pass', 'twice', *LOSSES])}")
        else:
            self.say(f"tries {self.random.choice([1, 1, 2, 3, 16])}")

    def stray(self) -> None:
        """A line that finds nothing, or a comment."""
        name = self.random.choice(["nobody", *WRITERS, *READERS])
        if name in self.world.actors:
            name = "nobody"
        lines = [f"until {name}", f"step {name} late", f"finish {name}", f"die {name}", self.table]
        lines.append(f"start {name} tail 1 nothing")
        if self.chance(80):
            self.say(self.random.choice(lines))
        else:
            self.lines.append(self.random.choice(["", "# nothing"]))


def versions_of(count: int) -> int:
    """About how many versions the log of a script of so many lines gets, unless it is said."""
    return min(count // 10 + 20, 2_000)


def lines_in(path: str) -> list[str]:
    """The lines of a file."""
    return Path(path).read_bytes().decode().removesuffix("\n").split("\n")


def compare(script: list[str], told: list[str], restores: bool) -> str:
    """How many replies there are, which all are the model's; Broken where one isn't."""
    world = World({}, restores)
    place = 0
    for number, line in enumerate(script, 1):
        if line and not line.startswith("#"):
            mine = world.answer(line)
            theirs = told[place : place + len(mine)]
            if mine != theirs:
                where = next(i for i, reply in enumerate(mine) if theirs[i : i + 1] != [reply])
                found = theirs[where] if where < len(theirs) else "nothing"
                raise Broken(f"line {number}, {line}: {found}, and the model says {mine[where]}")
            place += len(mine)
    if place != len(told):
        raise Broken(f"reply {place + 1} is left over: {told[place]}")
    return f"{len(script)} lines, {len(told)} replies are the model's"


def check(script: list[str], told: list[str], restores: bool) -> bool:
    """Checks a script's replies in two ways, tells what was found, and whether all is as it has to be."""
    is_sound = True
    for test in (lambda: compare(script, told, restores), lambda: headline(script, told)):
        try:
            print(test())
        except Broken as broken:
            is_sound = False
            print(f"broken: {broken}")
    return is_sound


def arguments() -> argparse.Namespace:
    """The arguments of the program."""
    parser = argparse.ArgumentParser(description="Random scripts of several actors, and a check of their replies.")
    parser.add_argument("seed", type=int, nargs="?", default=1)
    parser.add_argument("count", type=int, nargs="?", default=10_000)
    parser.add_argument("--versions", type=int, help="about how many versions the log gets")
    parser.add_argument("--answer", metavar="SCRIPT", help="print the model's replies to a script")
    parser.add_argument("--check", nargs=2, metavar=("SCRIPT", "REPLIES"), help="check the replies to a script")
    parser.add_argument("--no-checkpoint", action="store_true", help="of logs that are read from version 0")
    return parser.parse_args()


def main() -> int:
    """Does what the arguments say."""
    given = arguments()
    restores = not given.no_checkpoint
    if given.check:
        script, told = map(lines_in, given.check)
        return 0 if check(script, told, restores) else 1
    if given.answer:
        told, _ = World({}, restores).answers("\n".join(lines_in(given.answer)))
        print("\n".join(told))
        return 0
    versions = given.versions or versions_of(given.count)
    print("\n".join(Schedule(given.seed, given.count, versions, restores).script()))
    return 0


if __name__ == "__main__":
    sys.exit(main())
