"""Judges whether a history of commands and their answers is linearizable, as a map is: whether there is one order of all commands in which
each acts once, gives the answer that was given, and comes behind each one that was answered before it was asked.

A command that isn't answered may act at any time after it was asked, once, or never. Where the same clock gives two commands the same
time, neither is before the other. A map is linearizable where each of its keys is, so each key is judged alone. Session reads are left
out: they aren't linearizable (they may be older than what other clients were answered).

The order is searched command by command (Wing and Gong), and where a search has been is remembered by which commands were placed and
which text they left (Lowe). Four things keep it short:

- A command that leaves the text as it is, and whose answer fits, is placed at once: no order is lost by that.
- A command without an answer is placed only right before an answer that needs it. Elsewhere it changes nothing that anyone saw.
- Of two ways to the same place the one that used fewer of these is at least as good.
- No command is placed that takes away the text with which another one's answer begins, where no write is left that can bring it again.
"""

import functools
import operator
from collections import defaultdict
from collections.abc import Iterable, Iterator, Mapping, Sequence
from dataclasses import dataclass, replace
from typing import NamedTuple

from asking import Command
from execution import LONGEST_TEXT, executed
from headers import Unusable

MOST_STEPS = 5_000_000          # of the search for one key, of 2 to 20 microseconds each; behind them it is undecided
STEPS_TO_CUT = 20_000           # of each search that only makes a fault shorter,
STEPS_TO_CUT_ALL = 500_000      # and of all of these
MOST_SHOWN = 12                 # answers of a fault, the last ones
TEXTS_A_STEP = 20               # of pending operations that are looked through


class TooLong(Exception):
    """A search took more steps than it may."""


@dataclass(frozen=True)
class Operation:
    """A command of a client, when it was asked, and when it was first answered with what, if it was. However often it is sent it is one."""

    client: int
    number: int
    command: Command
    asked: float
    answered: float | None = None
    reply: str | None = None

    def __post_init__(self) -> None:
        if (self.answered is None) != (self.reply is None):
            raise Unusable(f"{self.name} needs both an answer and its time, or neither", 2)
        if self.answered is not None and self.answered < self.asked:
            raise Unusable(f"{self.name} was answered before it was asked", 2)

    @property
    def name(self) -> str:
        return f"client:{self.client} {self.number}"

    def __str__(self) -> str:
        words = " ".join(filter(None, (self.command.verb, self.command.key, self.command.text)))
        answer = "not answered" if self.reply is None else f"answered {self.answered}: {self.reply}"
        return f"{self.name} {words}, asked {self.asked}, {answer}"


@dataclass(frozen=True)
class Fault:
    """Why a key isn't linearizable. Of its answers by time the first so many can't be put in order, but all without the last of these can.
    Of these already the answers of `core` can't, whatever else was asked and did act or not; where `shortest` none of them can be left out."""

    key: str
    answers: int
    core: Sequence[Operation]
    beside: int                 # the other commands of the key that may have acted, in any way
    shortest: bool

    def lines(self) -> list[str]:
        which = "of these none can be left out" if self.shortest else "perhaps fewer would do"
        shown = sorted(self.core, key=lambda it: it.answered)[-MOST_SHOWN:]
        rest = f" the last {MOST_SHOWN}:" if len(self.core) > MOST_SHOWN else ""
        return [f"key {self.key}: its first {self.answers:,} answers can't be put in order, of these already {len(self.core):,} can't ({which}), "
                f"whatever the {self.beside:,} other writes to it did:{rest}", *[f"  {it}" for it in self.core if it in shown]]


@dataclass(frozen=True)
class Verdict:
    operations: int
    keys: int
    unanswered: int
    left_out: int               # session reads
    faults: Sequence[Fault]
    undecided: Sequence[str]    # the keys whose search took too many steps

    def __bool__(self) -> bool:
        return not self.faults and not self.undecided

    def lines(self) -> list[str]:
        found = [line for fault in self.faults for line in fault.lines()]
        found += [f"key {key}: too many orders to try, so undecided" for key in self.undecided]
        count = f"{self.operations:,} commands on {self.keys} keys, {self.unanswered:,} of them not answered"
        return [*found, f"{count}; {self.left_out:,} session reads left out", "linearizable" if self else "not linearizable" if self.faults else "undecided"]


class State(NamedTuple):
    """How far a search is. Sets of operations are numbers with a bit for each."""

    done: int                   # of those with an answer
    used: int                   # of those without
    text: str | None            # what the key has
    first: int                  # all that were asked before this place are done
    due: int                    # all that were answered before this place are done


class Search:
    """Looks for an order of a key's operations: of all in `answered`, and of any of `pending`, whatever their answer."""

    def __init__(self, answered: Iterable[Operation], pending: Iterable[Operation], most: int) -> None:
        self.operations = sorted(answered, key=lambda it: it.asked)
        pending = sorted(pending, key=lambda it: it.asked)
        self.bits = [1 << at for at in range(len(self.operations))]
        self.by_answer = sorted(range(len(self.operations)), key=lambda at: self.operations[at].answered)
        self.looks = [leaves_the_text(it) for it in self.operations]
        self.pending: defaultdict[tuple[str, str], list[tuple[float, int]]] = defaultdict(list)     # by what they do, in the order of asking
        for at, it in enumerate(pending):
            self.pending[it.command.verb, it.command.text].append((it.asked, 1 << at))
        self.texts = {verb: [text for of, text in self.pending if of == verb] for verb in ("put", "app")}
        self.wishes = Wishes(self.operations, pending)
        self.seen: defaultdict[tuple[int, str | None], list[int]] = defaultdict(list)
        self.left = most

    def finds(self) -> bool:
        """Whether there is an order."""
        walk = [iter([State(0, 0, None, 0, 0)])]
        while walk:
            state = next(walk[-1], None)
            if state is None:
                walk.pop()
                continue
            state = self.looked(state)
            if state.due == len(self.operations):
                return True
            if not self.was_seen(state):
                walk.append(self.steps(state))
        return False

    def count(self, looked: int = 0) -> None:
        """Counts a step, and how many texts it looks through."""
        self.left -= 1 + looked // TEXTS_A_STEP
        if self.left < 0:
            raise TooLong

    def was_seen(self, state: State) -> bool:
        """Whether this place was reached before with no more of the pending ones used. Each place is reached once so."""
        self.count()
        ways = self.seen[state.done, state.text]
        if any(way & state.used == way for way in ways):
            return True
        ways.append(state.used)
        return False

    def advanced(self, state: State) -> State:
        first, due, count = state.first, state.due, len(self.operations)
        while first < count and state.done & self.bits[first]:
            first += 1
        while due < count and state.done & self.bits[self.by_answer[due]]:
            due += 1
        return state._replace(first=first, due=due)

    def until(self, state: State) -> float:
        """The time of the first answer that is due: what is placed next was asked by then."""
        return self.operations[self.by_answer[state.due]].answered

    def open(self, state: State) -> Iterator[int]:
        """Those that may be placed next."""
        until = self.until(state)
        for at in range(state.first, len(self.operations)):
            if self.operations[at].asked > until:
                break
            if not state.done & self.bits[at]:
                yield at

    def fits(self, at: int, text: str | None) -> bool:
        """Whether an operation gives its answer where the key has this text."""
        it = self.operations[at]
        return executed(text, it.command.verb, it.command.text)[1] == it.reply

    def after(self, at: int, text: str | None) -> str | None:
        command = self.operations[at].command
        return executed(text, command.verb, command.text)[0]

    def looked(self, state: State) -> State:
        """All placed that leave the text as it is."""
        while (state := self.advanced(state)).due < len(self.operations):
            looks = sum(self.bits[at] for at in self.open(state) if self.looks[at] and self.fits(at, state.text))
            if not looks:
                break
            state = state._replace(done=state.done | looks)
        return state

    def steps(self, state: State) -> Iterator[State]:
        """Each state that is one operation further: first the one whose answer is due first, then those behind which that fits."""
        due = self.by_answer[state.due]
        helps = {at: self.fits(due, self.after(at, state.text)) for at in self.open(state)}
        for at in sorted(helps, key=lambda at: (at != due, not helps[at], self.operations[at].answered)):
            for used, text in self.ways(at, state):
                if self.fits(at, text):
                    done, after = state.done | self.bits[at], self.after(at, text)
                    if self.wishes.are_left(state.text, after, done, used):
                        yield State(done, used, after, state.first, state.due)

    def ways(self, at: int, state: State) -> Iterator[tuple[int, str | None]]:
        """The texts that pending operations can leave right before this one, with those that are used then; none used comes first."""
        command, (word, _, rest) = self.operations[at].command, self.operations[at].reply.partition(" ")
        until, here = self.until(state), (state.used, state.text)
        if command.verb == "put" or not self.pending:
            yield here
        elif command.verb != "app":
            wanted = rest if word in ("is", "was") else None
            yield from ((used, wanted) for used in self.leaving(wanted, here, until))
        elif word == "full":
            yield from self.reaching(LONGEST_TEXT - len(command.text) + 1, LONGEST_TEXT, here, until)
        elif rest.isdigit() and int(rest) == len(command.text):
            yield from ((used, None) for used in self.leaving(None, here, until))
        elif rest.isdigit():
            yield from self.reaching(int(rest) - len(command.text), int(rest) - len(command.text), here, until)

    def unused(self, verb: str, text: str, used: int, until: float) -> int:
        """The first of the pending operations that do this which isn't used, and was asked by then; 0 where there is none."""
        for asked, bit in self.pending.get((verb, text), ()):
            if asked > until:
                break
            if not used & bit:
                return bit
        return 0

    def leaving(self, wanted: str | None, here: tuple[int, str | None], until: float) -> Iterator[int]:
        """What is used in each way that leaves this text: nothing more; a removal or a put of it; or an append of its end, behind such a way."""
        self.count()
        used, text = here
        if len(wanted or "") > LONGEST_TEXT:
            return
        if wanted == text:
            yield used
            return
        if bit := self.unused("del", "", used, until) if wanted is None else self.unused("put", wanted, used, until):
            yield used | bit
        for size in range(1, len(wanted or "") + 1):
            if bit := self.unused("app", wanted[-size:], used, until):
                yield from self.leaving(wanted[:-size] or None, (used | bit, text), until)

    def reaching(self, least: int, most: int, here: tuple[int, str | None], until: float) -> Iterator[tuple[int, str | None]]:
        """Each text whose length is in this range."""
        self.count(len(self.texts["put"]))
        used, text = here
        yield from self.appended(least, most, here, until)
        if text is not None and (bit := self.unused("del", "", used, until)):
            yield from self.appended(least, most, (used | bit, None), until)
        for put in self.texts["put"]:
            if bit := self.unused("put", put, used, until):
                yield from self.appended(least, most, (used | bit, put), until)

    def appended(self, least: int, most: int, here: tuple[int, str | None], until: float) -> Iterator[tuple[int, str | None]]:
        """Those with this text at their front."""
        self.count(len(self.texts["app"]))
        used, text = here
        if least <= len(text or "") <= most:
            yield here
        for more in self.texts["app"]:
            if len(text or "") + len(more) <= most and (bit := self.unused("app", more, used, until)):
                yield from self.appended(least, most, (used | bit, (text or "") + more), until)


class Wishes:
    """Which text each answer needs to be there, and which writes can begin it: those of that text, or of its front."""

    def __init__(self, operations: Sequence[Operation], pending: Sequence[Operation]) -> None:
        self.of: defaultdict[str, int] = defaultdict(int)       # by a text: the operations that need it, or one that begins with it
        self.origins: list[tuple[int, int]] = []
        writes, others = by_text(operations), by_text(pending)
        for at, it in enumerate(operations):
            fronts = fronts_of(needed_by(it))
            self.origins.append((union(writes, fronts), union(others, fronts)))
            for front in fronts:
                self.of[front] |= 1 << at

    def are_left(self, before: str | None, after: str | None, done: int, used: int) -> bool:
        """Whether all that needed the text before can still get theirs with the text after it, or by a write that is left."""
        if before is None or before == after:
            return True
        left = self.of.get(before, 0) & ~self.of.get(after or "", 0) & ~done
        while left:
            bit = left & -left
            left ^= bit
            writes, others = self.origins[bit.bit_length() - 1]
            if not writes & ~done and not others & ~used:
                return False
        return True


def by_text(operations: Sequence[Operation]) -> dict[str, int]:
    """The writes of each text, as a set of bits."""
    found: defaultdict[str, int] = defaultdict(int)
    for at, it in enumerate(operations):
        if it.command.text:
            found[it.command.text] |= 1 << at
    return found


def union(sets: Mapping[str, int], texts: Sequence[str]) -> int:
    return functools.reduce(operator.or_, (sets[text] for text in texts if text in sets), 0)


def fronts_of(text: str) -> list[str]:
    return [text[:size] for size in range(1, len(text) + 1)]


def needed_by(it: Operation) -> str:
    """The text that an answer needs to be there; empty where it needs none, or one of some length."""
    word, _, rest = it.reply.partition(" ")
    return rest if word in ("is", "was") else ""


def leaves_the_text(it: Operation) -> bool:
    """Whether an operation with this answer leaves the text as it is, wherever it acts."""
    return it.command.verb == "get" or it.reply in ("none", "full")


class Key:
    """The operations of one key."""

    def __init__(self, name: str, operations: Iterable[Operation]) -> None:
        self.name = name
        self.operations = list(operations)
        self.answered = sorted((it for it in self.operations if it.reply is not None), key=lambda it: it.answered)
        self.left = STEPS_TO_CUT_ALL + 20 * len(self.operations)

    def others(self, kept: Sequence[Operation]) -> list[Operation]:
        """The writes but these."""
        names = {it.name for it in kept}
        return [it for it in self.operations if it.command.verb != "get" and it.name not in names]

    def has_order(self, kept: Sequence[Operation], most: int) -> bool:
        """Whether there is an order where these answers alone count."""
        return Search(kept, self.others(kept), most).finds()

    def cut_order(self, kept: Sequence[Operation]) -> bool | None:
        """The same, or None where that takes too many steps."""
        self.left -= len(self.operations)
        most = min(STEPS_TO_CUT, self.left)
        if most <= 0:
            return None
        search = Search(kept, self.others(kept), most)
        try:
            return search.finds()
        except TooLong:
            return None
        finally:
            self.left -= most - search.left

    def fault(self) -> Fault:
        """Why there is no order of all."""
        good, bad = 0, len(self.answered)
        while bad - good > 1:
            middle = (good + bad) // 2
            if self.cut_order(self.answered[:middle]) is False:
                bad = middle
            else:
                good = middle
        core = self.core(self.answered[:bad])
        shortest = all(self.cut_order([other for other in core if other is not it]) for it in core)
        return Fault(self.name, bad, sorted(core, key=lambda it: it.asked), len(self.others(core)), shortest)

    def core(self, kept: list[Operation]) -> list[Operation]:
        """These answers without such as aren't needed for that there is no order: halves are tried first, then ever smaller parts."""
        size = len(kept)
        while size > 1:
            size = (size + 1) // 2
            at = 0
            while at < len(kept):
                fewer = kept[:at] + kept[at + size :]
                if fewer and self.cut_order(fewer) is False:
                    kept = fewer
                else:
                    at += size
        return kept


def merged(history: Iterable[Operation]) -> tuple[list[Operation], list[Fault]]:
    """Each request once, from its first sending to its first answer; and a fault for each that was answered in two ways."""
    found: dict[tuple[int, int], Operation] = {}
    faults: dict[str, Fault] = {}
    for it in sorted(history, key=lambda it: (it.asked, it.answered is None, it.answered or 0)):
        known = found.setdefault((it.client, it.number), it)
        if known.command != it.command:
            raise Unusable(f"{it.name} asks two things: {known}; {it}", 2)
        if it.reply is None or known.reply == it.reply:
            continue
        if known.reply is None:
            found[it.client, it.number] = replace(known, answered=it.answered, reply=it.reply)
        else:
            faults.setdefault(it.name, Fault(it.command.key, 2, (known, it), 0, True))
    return list(found.values()), list(faults.values())


def judge(history: Iterable[Operation], most: int = MOST_STEPS) -> Verdict:
    """Whether a history is linearizable, and where not, why. A key whose search takes more than so many steps is undecided."""
    requests, faults = merged(history)
    operations = [it for it in requests if not it.command.session]
    keys: defaultdict[str, list[Operation]] = defaultdict(list)
    for it in operations:
        keys[it.command.key].append(it)
    undecided = []
    for name in sorted(keys):
        key = Key(name, keys[name])
        try:
            if not key.has_order(key.answered, most):
                faults.append(key.fault())
        except TooLong:
            undecided.append(name)
    unanswered = sum(it.reply is None for it in operations)
    return Verdict(len(operations), len(keys), unanswered, len(requests) - len(operations), faults, undecided)
