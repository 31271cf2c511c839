"""Histories as text: what clients asked and were answered, an event a line.

    0 ask client:0 1 put a 1
    3 ask client:1 1 app a 2
    7 answer client:0 1 ok
    8 ask client:1 2 get a
    9 answer client:1 2 is 12
    9 ask client:0 2 session a

First comes the time, a whole number or one with a fraction, all of one clock; then the client and its number. A command is `put K V`,
`app K V`, `del K`, `get K`, or `session K` for a session read. Its answer is as a node prints it behind `at N`: `ok`, `was V`, `len N`,
`full`, `is V` or `none`. The command comes before its answer; else the order of the lines is free. A line may come again with another time,
where a command was sent or answered more than once: then the first time counts. Blank lines and lines that begin with # are passed over.
"""

import re
from collections.abc import Iterable, Iterator

from asking import Command
from headers import Unusable
from linearity import Operation

EVENT = re.compile(r"(\d+(?:\.\d+)?) (ask|answer) client:(\d{1,5}) (\d{1,20}) (.*)")
COMMAND = re.compile(r"(?P<verb>put|app|del|get|session) (?P<key>[\w.-]{1,32})(?: (?P<text>[\w.-]{1,64}))?", re.ASCII)
ANSWER = re.compile(r"ok|none|full|(?:is|was) \S+|len \d+")


def time_of(word: str) -> float:
    """A whole number stays one, since nanoseconds are too many for a float."""
    return int(word) if word.isdigit() else float(word)


def command_of(words: str) -> Command | None:
    found = COMMAND.fullmatch(words)
    if found is None or (found["verb"] in ("put", "app")) != (found["text"] is not None):
        return None
    if found["verb"] == "session":
        return Command("get", found["key"], session=True)
    return Command(found["verb"], found["key"], found["text"] or "")


def read(text: str, name: str) -> list[Operation]:
    """The operations of a history."""
    asked: dict[tuple[int, int], tuple[float, Command]] = {}
    found: list[Operation] = []
    for at, line in enumerate(text.splitlines(), 1):
        if not line.strip() or line.startswith("#"):
            continue
        event = EVENT.fullmatch(line)
        if event is None:
            raise Unusable(f"{name}: line {at} is no event: {line}", 2)
        time, client, number = time_of(event[1]), int(event[3]), int(event[4])
        if event[2] == "ask":
            command = command_of(event[5])
            if command is None:
                raise Unusable(f"{name}: line {at} asks no command: {line}", 2)
            known = asked.setdefault((client, number), (time, command))
            if known[1] != command:
                raise Unusable(f"{name}: line {at} asks client:{client} {number} again, and something else", 2)
            asked[client, number] = min(known, (time, command), key=lambda it: it[0])
        elif (client, number) not in asked or not ANSWER.fullmatch(event[5]):
            why = "answers what wasn't asked before" if ANSWER.fullmatch(event[5]) else "has no answer"
            raise Unusable(f"{name}: line {at} {why}: {line}", 2)
        else:
            found.append(Operation(client, number, asked[client, number][1], asked[client, number][0], time, event[5]))
    answered = {(it.client, it.number) for it in found}
    return found + [Operation(*who, command, time) for who, (time, command) in asked.items() if who not in answered]


def lines_of(history: Iterable[Operation]) -> Iterator[str]:
    """The text of a history, by time."""
    events: list[tuple[float, int, str]] = []
    for it in history:
        verb = "session" if it.command.session else it.command.verb
        events.append((it.asked, 0, f"ask {it.name} {' '.join(filter(None, (verb, it.command.key, it.command.text)))}"))
        if it.answered is not None:
            events.append((it.answered, 1, f"answer {it.name} {it.reply}"))
    return (f"{time} {words}" for time, _, words in sorted(events))
