"""How a run of the program ends: its statuses, and what it says of each on standard error, by the table in docs/INPUT.md."""

import functools
import re

from headers import TOP

TABLE = TOP / "docs/INPUT.md"
ROW = re.compile(r"\| (\d+) \| (?:`([^`]+)`)? ?\| .*\|")
PARTS = {"ROLE": "[a-z]+:[0-9]+", "N": "[0-9]+"}        # what stands for what


@functools.cache
def lines_by_status() -> dict[int, re.Pattern[str]]:
    """Of each status the line on standard error; of 0 it is empty."""
    rows = TABLE.read_text().partition("## Exit statuses\n")[2]
    return {int(row[1]): re.compile(re.sub(r"\b(ROLE|N)\b", lambda part: PARTS[part[0]], row[2] or "")) for row in ROW.finditer(rows)}


def line_of(status: int, said: str) -> str:
    """Of all that a run has said the line that tells how it ended. Others may stand before and behind it, as a cause behind `link failed`. Where
    there is none, as of a run that was killed, all that it said is given in one line."""
    line = lines_by_status().get(status)
    found = [each for each in said.splitlines() if line is not None and each and line.fullmatch(each)]
    return found[0] if found else "; ".join(said.split("\n")).strip("; ") or "it said nothing"


def ending(said: str) -> str:
    """The same where the status isn't known, as of a node that was killed: the line of any status, else the last one."""
    lines = [line.strip() for line in said.splitlines() if line.strip()]
    found = [line for line in lines if any(of_status.fullmatch(line) for of_status in lines_by_status().values())] or lines
    return found[-1] if found else ""
