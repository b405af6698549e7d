"""What each refusal means, as the table at the end of `docs/REFUSALS.md` has it."""

import os
import re

DOCUMENT = os.path.join(os.path.dirname(__file__), "..", "..", "docs", "REFUSALS.md")
ROW = re.compile(r"\| `(\w+)` \| `(\w+)` \| (.*) \| (.*) \|\n")
REFUSED = re.compile(r"refused (\w+)( |$)")
BAD_ROW = re.compile(r"refused S7 BadRow \d+ (V\d) ")


def entries() -> dict[str, str]:
    """The line that explains each code."""
    with open(DOCUMENT, encoding="utf-8") as file:
        rows = ROW.findall(file.read())
    return {code: f"{code} {name}: {meaning}; retry: {again}" for code, name, meaning, again in rows}


ENTRIES = entries()


def explained(line: str) -> list[str]:
    """The line on standard error that explains the refusal that a line tells, if it tells one."""
    found = REFUSED.match(line)
    return [ENTRIES[found[1]]] if found is not None and found[1] in ENTRIES else []


def row_explained(line: str) -> list[str]:
    """The line on standard error that explains the fault of the row for which a line refuses a batch, if it does."""
    found = BAD_ROW.match(line)
    return [ENTRIES[found[1]]] if found is not None else []
