"""Processes that race on one folder: producers that are killed at any moment, checkpoints, and readers beside them."""

from collections import Counter
from dataclasses import dataclass, field
from pathlib import Path
import json
import random
import re
import subprocess
import tempfile
import threading

from steps import BEGINNING, CREATE, Program, batch, contents, faults_of_check

# The longest time, in seconds, after which a process is killed, and how often a command is run until it must have
# ended.
LONGEST_LIFE = 0.02
MOST_RUNS = 2_000


@dataclass
class Told:
    """What the processes of a race were told, and how many of them were killed."""

    replies: Counter[str] = field(default_factory=Counter)
    faults: list[str] = field(default_factory=list)
    lock: threading.Lock = field(default_factory=threading.Lock)

    def add(self, reply: str) -> None:
        with self.lock:
            self.replies[reply] += 1

    def fault(self, text: str) -> None:
        with self.lock:
            self.faults.append(text)

    def killed(self) -> int:
        return self.replies["killed"]


def kind_of(told: str, said: str) -> str:
    """The first words of an answer: a refusal with its code and name, or the reply's first word."""
    refusal = re.match(r"refused \w+ \w+", said + told)
    if refusal:
        return refusal[0]
    return "rows" if told.startswith("{") else (told.split() or ["nothing"])[0]


class Racer(threading.Thread):
    """Something that runs the program on the folder beside others."""

    def __init__(self, race: "Race") -> None:
        super().__init__()
        self.race = race
        self.random = random.Random(race.random.random())

    def run(self) -> None:
        try:
            self.work()
        except Exception as error:  # a racer that fails is a fault of the race, and no silent end
            self.race.told.fault(f"{type(self).__name__}: {error!r}")

    def work(self) -> None:
        raise NotImplementedError

    def command(self, words: tuple[str, ...], rows: str = "", killed: float = 0.0) -> tuple[int | None, str]:
        """Runs a command, with so much chance that it is killed at some moment. Tells the status, or `None`, and what
        was told on standard output."""
        process = subprocess.Popen(
            self.race.program.words(words, self.race.folder),
            stdin=subprocess.PIPE, stdout=subprocess.PIPE, stderr=subprocess.PIPE, text=True,
        )
        killer = threading.Timer(self.random.random() * LONGEST_LIFE, process.kill)
        if self.random.random() < killed:
            killer.start()
        told, said = process.communicate(rows, timeout=60)
        killer.cancel()
        if process.returncode < 0:
            self.race.told.add("killed")
            return None, ""
        if process.returncode not in (0, 1):
            self.race.told.fault(f"{words[0]}: status {process.returncode}: {told}{said}")
        self.race.told.add(f"{words[0]}: {kind_of(told, said)}")
        return process.returncode, told

    def until(self, words: tuple[str, ...], replies: tuple[str, ...], rows: str = "") -> str:
        """Runs a command again and again until one of these replies comes."""
        for _ in range(MOST_RUNS):
            status, told = self.command(words, rows, killed=0.3)
            if status is not None and told.startswith(replies):
                return told
        raise RuntimeError(f"{' '.join(words)}: no end in {MOST_RUNS} runs")


class Producer(Racer):
    """Hands in the batches of an application, each until it stands, and closes its stream, if it may."""

    def __init__(self, race: "Race", app: str, closes: bool) -> None:
        super().__init__(race)
        self.app, self.closes = app, closes

    def work(self) -> None:
        # The twin of an application may be ahead, with the same batches.
        stands = ("Committed", "Already") if self.closes else ("Committed", "Already", "refused S1 Stale")
        for number in range(self.race.batches):
            words = ("append", "DIR", self.app, str(number), "--tries", "4")
            self.until(words, stands, self.race.rows(self.app, number))
        if self.closes:
            self.until(("close", "DIR", self.app), ("Closed", "AlreadyClosed"))
            words = ("append", "DIR", self.app, str(self.race.batches))
            self.until(words, ("refused S2 StreamClosed",), self.race.rows(self.app, self.race.batches))


class Keeper(Racer):
    """Puts checkpoints until the producers have ended."""

    def work(self) -> None:
        while not self.race.ended.wait(self.random.random() / 20):
            self.command(("checkpoint", "DIR"), killed=0.3)


class Reader(Racer):
    """Reads on from its offset until the producers have ended, and then to the end."""

    def __init__(self, race: "Race") -> None:
        super().__init__(race)
        self.rows: list[str] = []

    def work(self) -> None:
        offset = BEGINNING
        for _ in range(MOST_RUNS):
            is_last = self.race.ended.is_set()
            most = str(self.random.randint(1, 9))
            status, told = self.command(("tail", "DIR", "--from", offset, "--max", most), killed=0.1)
            if status != 0:
                continue
            *rows, end = told.splitlines()
            offset = end.removeprefix("next ")
            self.rows += rows
            if is_last and not rows:
                return
        self.race.told.fault("a reader came to no end")


class Race:
    """Producers of their own applications, two that hand in the same batches, checkpoints, and readers, at once."""

    def __init__(self, program: Program, place: Path, seed: int, apps: int = 3, batches: int = 6) -> None:
        self.program, self.folder, self.batches = program, place / "table", batches
        self.random, self.told, self.ended = random.Random(seed), Told(), threading.Event()
        self.apps = [f"app-{number}" for number in range(apps)] + ["twin"]

    def rows(self, app: str, number: int) -> str:
        return batch(app, number, 1 + number % 3)

    def run(self) -> list[str]:
        """Runs the race, and tells what is wrong with what stands behind it."""
        self.folder.mkdir()
        self.program.run(CREATE, self.folder)
        producers = [Producer(self, app, closes=True) for app in self.apps[:-1]]
        producers += [Producer(self, "twin", closes=False) for _ in range(2)]
        others = [Keeper(self), Reader(self), Reader(self)]
        for racer in producers + others:
            racer.start()
        for racer in producers:
            racer.join()
        self.ended.set()
        for racer in others:
            racer.join()
        readers = [racer.rows for racer in others if isinstance(racer, Reader)]
        return self.told.faults + self.faults_of_table(readers)

    def faults_of_table(self, readers: list[list[str]]) -> list[str]:
        """Each acknowledged batch stands once, whole and in its application's order; readers were handed just that."""
        told = self.program.run(("history", "DIR"), self.folder).told
        batches = re.findall(r'^\d+ txn "(.*)" (\d+)$', told, re.M)
        closes = re.findall(r'^\d+ close "(.*)"$', told, re.M)
        faults = []
        for app in self.apps:
            numbers = [int(number) for name, number in batches if name == app]
            if numbers != list(range(self.batches)):
                faults.append(f"{app}: the log has {numbers}")
        if sorted(closes) != self.apps[:-1]:
            faults.append(f"closed are {closes}")
        if len(told.splitlines()) != 1 + len(batches) + len(closes):
            faults.append(f"the history has other versions: {told}")
        wanted = "".join(self.rows(app, int(number)) for app, number in batches).splitlines()
        tail = self.program.run(("tail", "DIR", "--from", BEGINNING, "--max", "65536"), self.folder).told
        if tail.splitlines()[:-1] != wanted:
            faults.append("a tail tells other rows")
        faults += ["a reader was handed other rows" for rows in readers if rows != wanted]
        return faults + self.faults_of_files() + faults_of_check(self.program, self.folder)

    def faults_of_files(self) -> list[str]:
        """Each commit is whole: its lines are JSON objects."""
        faults = []
        for name, data in contents(self.folder).items():
            if name.endswith(".json"):
                try:
                    objects = [isinstance(json.loads(line), dict) for line in data.splitlines()]
                    whole = data.endswith(b"\n") and all(objects)
                except ValueError:
                    whole = False
                faults += [] if whole else [f"{name} isn't whole"]
        return faults


def race_of_creates(program: Program, place: Path, count: int) -> list[str]:
    """Processes that create a table in the same folder: one is told that it did, and its table stands."""
    folder = place / "table"
    folder.mkdir()
    ids = [f"00000000-0000-4000-8000-{number:012}" for number in range(count)]
    started = []
    for number in ids:
        words = tuple(number if word == CREATE[3] else word for word in CREATE)
        words = program.words(words, folder)
        started.append(subprocess.Popen(words, stdout=subprocess.PIPE, stderr=subprocess.PIPE, text=True))
    ends = [process.communicate(timeout=60) for process in started]
    winners = [number for number, (told, _) in zip(ids, ends) if told == "Created 0\n"]
    refused = [told + said for told, said in ends if told != "Created 0\n"]
    faults = [f"created by {winners}"] if len(winners) != 1 else []
    faults += [text for text in refused if not text.startswith(("refused E1 TableExists", "refused F2 NotSaved"))]
    table = (folder / "_delta_log" / f"{0:020}.json").read_text()
    faults += [f"the table isn't that of {number}" for number in winners if number not in table]
    return faults + faults_of_check(program, folder)


def run_race(program: Program, seed: int) -> tuple[Counter[str], list[str]]:
    """One race in a folder of its own: what its processes were told, and what is wrong."""
    with tempfile.TemporaryDirectory() as place:
        race = Race(program, Path(place), seed)
        faults = race.run()
    return race.told.replies, [f"race {seed}: {fault}" for fault in faults]


def run_creates(program: Program, rounds: int, count: int) -> list[str]:
    """Rounds of processes that create the same table."""
    faults = []
    for _ in range(rounds):
        with tempfile.TemporaryDirectory() as place:
            faults += race_of_creates(program, Path(place), count)
    return faults
