"""Tests of tools/linear: histories by hand, random ones beside all orders of their commands, and what is said of those that have none."""

import heapq
import itertools
import pathlib
import random
import tempfile
import unittest
from collections.abc import Iterator, Sequence

import histories
from asking import Command
from execution import executed
from headers import Unusable
from linearity import Fault, Operation, judge
from trials import run


def history(*lines: str) -> list[Operation]:
    """Of each line a command: client and number, command, the times at which it was asked and answered, and its answer; or `-` for none."""
    found = []
    for line in lines:
        words, times, answer = (part.strip() for part in line.split(";"))
        client, number, *command = words.split()
        asked, _, answered = times.partition(" ")
        ends = (None, None) if answer == "-" else (int(answered), answer)
        found.append(Operation(int(client), int(number), histories.command_of(" ".join(command)), int(asked), *ends))
    return found


GOOD = {
    "nothing": (),
    "a fresh read": ("0 1 put a 1; 0 1; ok", "1 1 get a; 2 3; is 1"),
    "a read beside a put": ("0 1 put a 1; 0 9; ok", "1 1 get a; 1 2; none", "1 2 get a; 3 4; is 1"),
    "reads beside a put, the later one of another client older": ("0 1 put a 1; 0 9; ok", "1 1 get a; 1 8; is 1", "2 1 get a; 2 7; none"),
    "one that isn't answered has acted": ("0 1 put a 1; 0; -", "1 1 get a; 2 3; is 1"),
    "one that isn't answered has not acted": ("0 1 put a 1; 0; -", "1 1 get a; 2 3; none"),
    "one that isn't answered acts late": ("0 1 put a 1; 0; -", "1 1 get a; 2 3; none", "1 2 get a; 8 9; is 1"),
    "two of the same that aren't answered act": ("0 1 app a 1; 0; -", "1 1 app a 1; 0; -", "2 1 get a; 2 3; is 11"),
    "two that aren't answered, in either order": ("0 1 app a 1; 0; -", "1 1 app a 2; 0; -", "2 1 get a; 2 3; is 21"),
    "one that isn't answered hides another": ("0 1 put a 1; 0 1; ok", "0 2 del a; 2; -", "1 1 app a 2; 3; -", "2 1 get a; 4 5; is 2"),
    "puts at once": ("0 1 put a 1; 0 5; ok", "1 1 put a 2; 1 4; ok", "2 1 get a; 6 7; is 1"),
    "puts at once, the other one last": ("0 1 put a 1; 0 5; ok", "1 1 put a 2; 1 4; ok", "2 1 get a; 6 7; is 2"),
    "a removal": ("0 1 put a 1; 0 1; ok", "0 2 del a; 2 3; was 1", "0 3 del a; 4 5; none", "0 4 get a; 6 7; none"),
    "appends at once": ("0 1 app a 1; 0 9; len 2", "1 1 app a 2; 0 9; len 1", "2 1 get a; 10 11; is 21"),
    "an append behind a removal that isn't answered": ("0 1 put a 123; 0 1; ok", "0 2 del a; 2; -", "1 1 app a 4; 3 4; len 1"),
    "an append behind a put that isn't answered": ("0 1 put a 123; 0; -", "1 1 app a 4; 3 4; len 4", "1 2 get a; 5 6; is 1234"),
    "one too long": (f"0 1 put a {'x' * 64}; 0 1; ok", "0 2 app a 1; 2 3; full", f"0 3 get a; 4 5; is {'x' * 64}"),
    "one too long by one that isn't answered": ("0 1 put a 1; 0 1; ok", f"1 1 app a {'x' * 63}; 0; -", "0 2 app a 1; 2 3; full"),
    "other keys": ("0 1 put a 1; 0 1; ok", "1 1 get b; 2 3; none"),
    "the same time is no order": ("0 1 put a 1; 0 5; ok", "1 1 get a; 5 9; none"),
    "sent and answered again": ("0 1 app a 1; 0 3; len 1", "0 1 app a 1; 5 6; len 1", "1 1 get a; 7 8; is 1"),
    "a session read may be old": ("0 1 put a 1; 0 1; ok", "1 1 session a; 2 3; none"),
    "a get that isn't answered": ("0 1 put a 1; 0 1; ok", "1 1 get a; 2; -"),
}

# Behind each history the names of those whose answers contradict each other: none of them can be left out.
BAD = {
    "a stale read": (("0 1 put a 1; 0 1; ok", "1 1 get a; 2 3; none"), "0.1 1.1"),
    "a stale read behind a second put": (("0 1 put a 1; 0 1; ok", "0 2 put a 2; 2 3; ok", "1 1 get a; 4 5; is 1"), "0.1 0.2 1.1"),
    "a read that goes back": (("0 1 put a 1; 0 9; ok", "1 1 get a; 1 2; is 1", "2 1 get a; 3 4; none"), "1.1 2.1"),
    "a text that nobody wrote": (("0 1 put a 1; 0 1; ok", "1 1 get a; 2 3; is 7"), "1.1"),
    "a text from later": (("1 1 get a; 0 1; is 1", "0 1 put a 1; 2 3; ok"), "1.1"),
    "a lost put": (("0 1 put a 1; 0 1; ok", "1 1 put b 1; 0 1; ok", "0 2 app a 2; 2 3; len 1"), "0.1 0.2"),
    "a lost append": (("0 1 app a 1; 0 3; len 1", "1 1 app a 2; 1 2; len 1"), "0.1 1.1"),
    "an append that acts twice": (("0 1 app a 1; 0 1; len 1", "0 2 app a 2; 2 3; len 2", "1 1 get a; 4 5; is 122"), "1.1"),
    "one that isn't answered acts twice": (("0 1 app a 1; 0; -", "1 1 get a; 1 2; is 11"), "1.1"),
    "one that isn't answered acts, and then hasn't": (("0 1 put a 1; 0; -", "1 1 get a; 1 2; is 1", "1 2 get a; 3 4; none"), "1.1 1.2"),
    "one that isn't answered acts before it is asked": (("1 1 get a; 0 1; is 1", "0 1 put a 1; 2; -"), "1.1"),
    "two that aren't answered, in both orders": (("0 1 app a 1; 0; -", "1 1 app a 2; 0; -", "2 1 get a; 2 3; is 21", "2 2 get a; 4 5; is 12"), "2.1 2.2"),
    "appends in another order": (("0 1 app a 1; 0 9; len 2", "1 1 app a 2; 0 9; len 1", "2 1 get a; 10 11; is 12"), "1.1 2.1"),
    "puts at once, read in both orders": (("0 1 put a 1; 0 5; ok", "1 1 put a 2; 0 5; ok", "2 1 get a; 6 7; is 1", "2 2 get a; 8 9; is 2"),
                                          "1.1 2.1 2.2"),
    "removed twice": (("0 1 put a 1; 0 1; ok", "0 2 del a; 2 5; was 1", "1 1 del a; 2 5; was 1"), "0.2 1.1"),
    "removed and still there": (("0 1 put a 1; 0 1; ok", "0 2 del a; 2 3; was 1", "1 1 get a; 4 5; is 1"), "0.2 1.1"),
    "a removal of another text": (("0 1 put a 1; 0 1; ok", "0 2 del a; 2 3; was 2"), "0.2"),
    "full where there is room": (("0 1 put a 1; 0 1; ok", "0 2 app a 2; 2 3; full"), "0.2"),
    "longer than a text may be": ((f"0 1 put a {'x' * 64}; 0 1; ok", "0 2 app a 1; 2 3; len 65"), "0.2"),
    "read longer than a text may be": ((f"0 1 put a {'x' * 64}; 0; -", "1 1 app a y; 0; -", f"2 1 get a; 2 3; is {'x' * 64}y"), "2.1"),
    "an answer of another command": (("0 1 put a 1; 0 1; none",), "0.1"),
    "an answer that no command has": (("0 1 get a; 0 1; len 1",), "0.1"),
    "answered in two ways": (("0 1 app a 1; 0 1; len 1", "0 1 app a 1; 0 3; len 2"), "0.1 0.1"),
    "one key of two": (("0 1 put b 1; 0 1; ok", "1 1 get b; 2 3; is 1", "0 2 put a 1; 4 5; ok", "1 2 get a; 6 7; none"), "0.2 1.2"),
}


def orders(operations: Sequence[Operation]) -> Iterator[Sequence[Operation]]:
    """Each order in which all that are answered and some of the others can act: none comes behind one that was asked after its answer."""
    answered = [it for it in operations if it.reply is not None]
    pending = [it for it in operations if it.reply is None]
    for count in range(len(pending) + 1):
        for some in itertools.combinations(pending, count):
            for order in itertools.permutations([*answered, *some]):
                if not any(later.answered is not None and later.answered < it.asked for it, later in itertools.combinations(order, 2)):
                    yield order


def is_right(order: Sequence[Operation]) -> bool:
    texts: dict[str, str | None] = {}
    for it in order:
        texts[it.command.key], reply = executed(texts.get(it.command.key), it.command.verb, it.command.text)
        if it.reply not in (None, reply):
            return False
    return True


def has_order(operations: Sequence[Operation]) -> bool:
    """By trying all orders."""
    return any(is_right(order) for order in orders(operations))


def unanswered(it: Operation) -> Operation:
    return Operation(it.client, it.number, it.command, it.asked)


def names(operations: Sequence[Operation]) -> str:
    return " ".join(f"{it.client}.{it.number}" for it in operations)


def small(chance: random.Random) -> list[Operation]:
    """Up to five commands on one key or two, with answers that might be."""
    found = []
    for client in range(chance.randint(2, 5)):
        verb = chance.choice(("put", "put", "app", "app", "del", "get", "get"))
        text = chance.choice("12") if verb in ("put", "app") else ""
        asked = chance.randrange(12)
        reply = {"put": ["ok"], "app": ["len 1", "len 2", "len 3"], "del": ["none", "was 1", "was 12"],
                 "get": ["none", "is 1", "is 2", "is 12", "is 21"]}[verb]
        ends = (None, None) if chance.random() < 0.25 else (asked + chance.randrange(8), chance.choice(reply))
        found.append(Operation(client, 1, Command(verb, chance.choice("aaab"), text), asked, *ends))
    return found


def long(seed: int, count: int, clients: int, lost: float) -> list[Operation]:
    """A history of a map that acts at a moment between asking and answer; of what isn't answered half acts."""
    chance = random.Random(seed)
    free = [(chance.random(), client) for client in range(clients)]
    heapq.heapify(free)
    asked, acts = [], []
    for number in range(1, count + 1):
        time, client = heapq.heappop(free)
        verb = chance.choice(("put", "app", "app", "del", "get", "get", "get"))
        command = Command(verb, f"k{chance.randrange(12)}", f"{client}.{number}" if verb in ("put", "app") else "")
        lasts, is_lost = chance.expovariate(1), chance.random() < lost
        asked.append((client, number, command, time, None if is_lost else time + lasts))
        if not is_lost or chance.random() < 0.5:
            acts.append((time + lasts * chance.random(), number))
        heapq.heappush(free, (time + lasts + (10 if is_lost else 0.01), client))
    texts: dict[str, str | None] = {}
    replies = {}
    for _, number in sorted(acts):
        command = asked[number - 1][2]
        texts[command.key], replies[number] = executed(texts.get(command.key), command.verb, command.text)
    return [Operation(*it, replies[it[1]] if it[4] is not None else None) for it in asked]


class JudgeTest(unittest.TestCase):
    def test_good(self) -> None:
        for name, lines in GOOD.items():
            with self.subTest(name):
                verdict = judge(history(*lines))
                self.assertTrue(verdict, verdict.lines())
                self.assertEqual(verdict.lines()[-1], "linearizable")

    def test_bad(self) -> None:
        for name, (lines, core) in BAD.items():
            with self.subTest(name):
                verdict = judge(history(*lines))
                self.assertFalse(verdict)
                (fault,) = verdict.faults
                self.assertEqual((names(fault.core), fault.shortest), (core, True))

    def test_counts(self) -> None:
        verdict = judge(history("0 1 put a 1; 0 1; ok", "0 2 put b 1; 0; -", "1 1 session a; 2 3; none", "2 1 get c; 5; -"))
        self.assertEqual((verdict.operations, verdict.keys, verdict.unanswered, verdict.left_out), (3, 3, 2, 1))

    def test_each_bad_key_is_named(self) -> None:
        verdict = judge(history("0 1 get a; 0 1; is 1", "0 2 get b; 2 3; none", "0 3 get c; 4 5; is 1"))
        self.assertEqual([fault.key for fault in verdict.faults], ["a", "c"])

    def test_the_first_answers_that_contradict(self) -> None:
        """What comes behind them counts no more."""
        lines = BAD["a stale read"][0] + tuple(f"2 {number} put a x; {2 * number} {2 * number + 1}; ok" for number in range(5, 50))
        (fault,) = judge(history(*lines)).faults
        self.assertEqual((fault.answers, names(fault.core), fault.beside), (2, "0.1 1.1", 45))

    def test_small_histories_beside_all_orders(self) -> None:
        chance, counts = random.Random(1987), [0, 0]
        for _ in range(900):
            operations = small(chance)
            verdict, expected = judge(operations), has_order(operations)
            self.assertEqual(bool(verdict), expected, operations)
            counts[expected] += 1
            for fault in verdict.faults:
                self.sees(fault, [it for it in operations if it.command.key == fault.key])
        self.assertGreater(min(counts), 150)

    def sees(self, fault, operations: list[Operation]) -> None:
        """What a fault says is so, by trying all orders."""
        core = set(names(fault.core).split())
        kept = lambda some: [it if names([it]) in some else unanswered(it) for it in operations]
        self.assertFalse(has_order(kept(core)))
        self.assertTrue(fault.shortest)
        for it in core:
            self.assertTrue(has_order(kept(core - {it})))
        by_answer = [names([it]) for it in sorted((it for it in operations if it.reply is not None), key=lambda it: (it.answered, it.asked))]
        self.assertFalse(has_order(kept(by_answer[: fault.answers])))
        self.assertTrue(has_order(kept(by_answer[: fault.answers - 1])))

    def test_long_histories(self) -> None:
        for clients, lost in ((8, 0.0), (32, 0.0), (8, 0.01)):
            verdict = judge(long(7, 1500, clients, lost))
            self.assertTrue(verdict, verdict.lines())

    def test_a_long_history_with_one_wrong_answer(self) -> None:
        operations = long(8, 2000, 8, 0.0)
        at = next(at for at, it in enumerate(operations) if at > 1200 and (it.reply or "").startswith("is "))
        wrong = operations[at]
        operations[at] = Operation(wrong.client, wrong.number, wrong.command, wrong.asked, wrong.answered, f"{wrong.reply}.x")
        (fault,) = judge(operations).faults
        self.assertEqual((fault.key, fault.core), (wrong.command.key, [operations[at]]))

    def test_as_many_as_can_be_read(self) -> None:
        """The last answers of a fault are shown."""
        core = history(*[f"0 {number} app a x; {2 * number} {2 * number + 1}; len {number}" for number in range(1, 31)])
        shown = Fault("a", 30, core, 5, False).lines()
        self.assertEqual((len(shown), shown[-1]), (13, "  client:0 30 app a x, asked 60, answered 61: len 30"))
        self.assertIn("already 30 can't (perhaps fewer would do), whatever the 5 other writes to it did: the last 12:", shown[0])

    def test_too_many_steps(self) -> None:
        verdict = judge(history(*GOOD["a fresh read"]), most=0)
        self.assertEqual((bool(verdict), verdict.undecided, verdict.lines()[-1]), (False, ["a"], "undecided"))

    def test_no_history(self) -> None:
        put = Command("put", "a", "1")
        for lines in ([Operation(0, 1, put, 0), Operation(0, 1, Command("put", "a", "2"), 1)],):
            with self.assertRaisesRegex(Unusable, "client:0 1 asks two things"):
                judge(lines)
        for ends in ((1, None), (None, "ok"), (-1, "ok")):
            with self.assertRaisesRegex(Unusable, "client:0 1 (needs|was answered before)"):
                Operation(0, 1, put, 0, *ends)


class LinearTest(unittest.TestCase):
    def setUp(self) -> None:
        self.file = pathlib.Path(self.enterContext(tempfile.TemporaryDirectory(prefix="compax-linear-")), "history")

    def judged(self, text: str, *words: object) -> tuple[int, str, str]:
        self.file.write_text(text)
        return run("linear", self.file, *words)

    def test_a_file(self) -> None:
        good = "# a history\n\n5 ask client:0 1 put a 1\n7.5 answer client:0 1 ok\n8 ask client:1 1 get a\n9 answer client:1 1 is 1\n9 ask client:1 2 session a\n"
        self.assertEqual(self.judged(good),
                         (0, "2 commands on 1 keys, 0 of them not answered; 1 session reads left out\nlinearizable\n", ""))
        status, out, said = self.judged(good.replace("is 1", "none"))
        self.assertEqual((status, said), (1, ""))
        self.assertEqual(out.splitlines()[1:3], ["  client:0 1 put a 1, asked 5, answered 7.5: ok", "  client:1 1 get a, asked 8, answered 9: none"])
        self.assertEqual(self.judged(good, "--most", 0)[0], 3)

    def test_files_are_one_history(self) -> None:
        other = self.file.with_name("other")
        other.write_text("2 ask client:1 1 get a\n3 answer client:1 1 none\n")
        self.file.write_text("0 ask client:0 1 put a 1\n1 answer client:0 1 ok\n")
        self.assertEqual([run("linear", *files)[0] for files in ((self.file,), (other,), (self.file, other))], [0, 0, 1])

    def test_long_times(self) -> None:
        """Nanoseconds are told apart."""
        now = 1_800_000_000_000_000_000
        lines = [f"{now} ask client:0 1 put a 1", f"{now + 1} answer client:0 1 ok", f"{now + 2} ask client:1 1 get a", f"{now + 3} answer client:1 1 none"]
        self.assertEqual(self.judged("\n".join(lines))[0], 1)

    def test_no_history(self) -> None:
        for text, why in (("0 ask client:0 1 put a", "line 1 asks no command"), ("0 ask client:0 1 get a 1", "line 1 asks no command"),
                          ("0 ask client:0 1 put a é", "line 1 asks no command"), ("\nask client:0 1 get a", "line 2 is no event"),
                          ("0 answer client:0 1 ok", "line 1 answers what wasn't asked before"),
                          ("5 ask client:0 1 get a\n4 answer client:0 1 none", "client:0 1 was answered before it was asked"),
                          ("0 ask client:0 1 get a\n4 answer client:0 1 at 3 none", "line 2 has no answer"),
                          ("0 ask client:0 1 get a\n4 ask client:0 1 get b", "line 2 asks client:0 1 again, and something else")):
            with self.subTest(text):
                status, out, said = self.judged(text)
                self.assertEqual((status, out), (2, ""))
                self.assertIn(why, said)
        for words in ((), (self.file.with_name("none"),), (self.file.parent,)):
            self.assertEqual(run("linear", *words)[0], 2)

    def test_written_and_read_again(self) -> None:
        operations = long(3, 200, 4, 0.1)
        operations.append(Operation(9, 1, Command("get", "a", session=True), 1, 2, "none"))
        again = histories.read("\n".join(histories.lines_of(operations)), "history")
        self.assertEqual(sorted(again, key=lambda it: it.name), sorted(operations, key=lambda it: it.name))


if __name__ == "__main__":
    unittest.main()
