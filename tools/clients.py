"""Clients whose answers are known beforehand: each asks one command after the other, of keys that no other client uses."""

import random
from collections import deque
from dataclasses import dataclass, field

from asking import Command, Way
from headers import Header

KEYS = 12                       # of each client
LINES = 5_000                   # of each client in a node's input, which has at most 65,535
LONGEST_TEXT = 64


class Lost(Exception):
    """What isn't as it has to be."""


@dataclass
class Client:
    """What a client asks, and the texts of its keys after all that was answered."""

    index: int
    chance: random.Random
    texts: dict[str, str] = field(default_factory=dict)
    asked: int = 0                                                          # how many commands, each of which has the next number
    waiting: deque[tuple[int, Command]] = field(default_factory=deque)      # those that aren't answered

    @property
    def keys(self) -> list[str]:
        return [f"c{self.index}.{at}" for at in range(KEYS)]

    def ask(self, verb: str, key: str) -> None:
        self.asked += 1
        text = f"v{self.asked}" if verb in ("put", "app") else ""
        self.waiting.append((self.asked, Command("get", key, session=True) if verb == "session" else Command(verb, key, text)))

    def ask_much(self) -> None:
        """Asks as much as a node is given."""
        while len(self.waiting) < LINES:
            self.ask(self.chance.choice(("put", "put", "app", "app", "app", "del", "get", "get")), self.chance.choice(self.keys))

    def ask_for_all(self) -> None:
        """Asks for all keys, behind the only command that may have acted although it wasn't answered."""
        while len(self.waiting) > 1:
            self.asked = self.waiting.pop()[0] - 1
        for key in self.keys:
            self.ask("get", key)

    def lines(self, header: Header) -> str:
        """The lines of what isn't answered, each by other roles than the one before."""
        counts = [header.count(kind) for kind in ("batcher", "reader", "replica")]
        ways = [Way(number % counts[0], number % counts[1], number // counts[1] % counts[2]) for number, _ in self.waiting]
        return "".join(f"{command.line(self.index, number, way)}\n" for way, (number, command) in zip(ways, self.waiting))

    def answered(self, number: int, reply: str) -> None:
        asked, command = self.waiting.popleft()
        known = self.reply_to(command)
        if (number, reply) != (asked, known):
            raise Lost(f"client:{self.index} was answered {reply!r} to {number}; it asked {asked}, {command}, to which the answer is {known!r}")

    def reply_to(self, command: Command) -> str:
        """The answer to a command that acts once, after all that was answered."""
        return reply_of(self.texts, command)


def reply_of(texts: dict[str, str], command: Command) -> str:
    """The answer to a command of keys with these texts, which it changes."""
    text = texts.get(command.key, "")
    match command.verb:
        case "get":
            return f"is {text}" if text else "none"
        case "del":
            return f"was {texts.pop(command.key)}" if text else "none"
        case "app" if len(text) + len(command.text) > LONGEST_TEXT:
            return "full"
    texts[command.key] = command.text if command.verb == "put" else text + command.text
    return "ok" if command.verb == "put" else f"len {len(texts[command.key])}"
