"""Random scripts of several actors as stored cases, at the end of the scripts of `crates/lake_cases`.

`random_cases.py` makes the scripts of the seeds below anew, has the model of this folder answer them, and puts
both in the place of those that are stored: the scripts in `stdin`, and the answers in `stdout`. It takes nothing
from the program. `schedules.py` makes and judges such scripts of other seeds.
"""

from pathlib import Path
import sys

from headline import headline
from schedules import Schedule, versions_of
from script_cases import ScriptCase, script_answer, script_cases

CASES = Path(__file__).resolve().parents[2] / "crates" / "lake_cases"
LINES = 500

# Seeds of scripts whose logs are read by their checkpoints, and of those whose logs are read from version 0; the first
# two are answered both ways.
BY_CHECKPOINTS = range(1, 15)
FROM_VERSION_0 = (1, 2, 15, 16, 17, 18)

# How the name of such a case begins, and the line that the scripts end with.
FRONT = "a random script of several actors, seed "
BEHIND = ">>>> calls"


def is_random(case: ScriptCase) -> bool:
    """Whether a case is such a script."""
    return case.name.startswith(FRONT)


def case_lines(seed: int, restores: bool) -> list[str]:
    """The lines of a case: its name, how it is run and told, and its script."""
    script = Schedule(seed, LINES, versions_of(LINES), restores).script()
    name = f"== {FRONT}{seed}"
    if restores:
        return [name, ">> entries", *script, ""]
    return [f"{name}, read from version 0", ">> replays", ">> entries", *script, ""]


def script_lines(case: ScriptCase) -> list[str]:
    """The lines of a case's script."""
    return case.script.decode().removesuffix("\n").split("\n")


def replies_in(answer: list[str]) -> list[str]:
    """The replies in an answer, behind which it tells how the script ended and which table is left."""
    return answer[: answer.index("end Done")]


def put(name: str, lines: list[str]) -> None:
    """Puts lines in the place of the random scripts, or of their answers, in a stored text."""
    path = CASES / name
    stored = path.read_bytes().decode().split("\n")
    end = stored.index(BEHIND)
    is_first = (place for place, line in enumerate(stored[:end]) if line.startswith(f"== {FRONT}"))
    start = next(is_first, end)
    path.write_bytes("\n".join([*stored[:start], *lines, *stored[end:]]).encode())


def main() -> int:
    """Makes the cases anew, and tells what the answer of each says by itself."""
    asked = [line for seed in BY_CHECKPOINTS for line in case_lines(seed, True)]
    asked += [line for seed in FROM_VERSION_0 for line in case_lines(seed, False)]
    answers: list[str] = []
    for case in script_cases(asked):
        answer = script_answer(case)
        print(f"{case.name}: {headline(script_lines(case), replies_in(answer))}")
        answers += [f"== {case.name}", *answer]
    put("stdin", asked)
    put("stdout", answers)
    return 0


if __name__ == "__main__":
    sys.exit(main())
