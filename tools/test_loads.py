"""Tests of loads.py: what clients ask, and which answers they refuse."""

import pathlib
import unittest

from clients import Lost
from loads import Asking, Load
from test_headers import header


class AskingTest(unittest.TestCase):
    def client(self, keys: int = 8, end: int = 200) -> Asking:
        return Asking(1, keys, end=end)

    def test_what_is_asked(self) -> None:
        """By the table of verbs: under number n, n // 8 + n + 1 gives the place, of seven."""
        client = self.client()
        self.assertEqual([client.command(number).line(1, number, Load(pathlib.Path(), header()).way(client, number)) for number in (1, 4, 8)],
                         ["write client:1 1 batcher:1 app c1.1 v1", "write client:1 4 batcher:1 del c1.4", "write client:1 8 batcher:1 put c1.0 v8"])

    def test_known_answers(self) -> None:
        client = self.client()
        client.hear(1, 5, "len 2")                                          # app c1.1 v1
        for number, at, reply, why in ((2, 6, "len 2", "to which the answer is 'ok'"), (1, 6, "len 2", "for which it doesn't wait"),
                                       (201, 6, "ok", "for which it doesn't wait")):
            with self.subTest(number=number), self.assertRaisesRegex(Lost, why):
                client.hear(number, at, reply)

    def test_a_later_command_of_a_key_stands_behind(self) -> None:
        client = self.client()
        client.hear(1, 5, "len 2")                                          # app c1.1 v1
        self.assertEqual((client.command(9).verb, client.command(9).key), ("app", "c1.1"))
        with self.assertRaisesRegex(Lost, "'len 4' at 5 to 9, .*, and the one before at 5"):
            client.hear(9, 5, "len 4")

    def test_answers_in_any_order(self) -> None:
        """With 64 keys any of 64 commands may be answered first; what isn't is asked again."""
        client = self.client(keys=64)
        for number in range(64, 1, -1):
            client.hear(number, 100 + number, {"app": f"len {len(f'v{number}')}", "put": "ok", "del": "none"}[client.command(number).verb])
        self.assertEqual((client.first, client.left(), client.open()[:2]), (1, 200 - 63, [1, 65]))
        client.hear(1, 99, {"app": "len 2", "put": "ok", "del": "none"}[client.command(1).verb])
        self.assertEqual((client.first, client.answered), (65, set()))

    def test_what_is_given_up_has_acted_or_not(self) -> None:
        client = self.client()
        client.hear(1, 5, "len 2")                                          # app c1.1 v1
        for number, reply in ((2, "ok"), (3, "len 2"), (4, "none"), (5, "len 2"), (6, "ok"), (7, "len 2"), (8, "ok")):
            client.hear(number, 5 + number, reply)
        client.give_up()                                                    # 9 is app c1.1 v9, and 10 is del c1.2
        self.assertEqual((client.first, client.left(), client.texts["c1.1"], client.texts["c1.2"]), (11, 0, {"v1", "v1v9"}, {"v2", ""}))
        client.only_gets()
        self.assertEqual([str(client.command(number).verb) for number in client.open()], ["get"] * 8)
        keys = {client.key(number): number for number in client.open()}
        self.assertEqual(keys, {"c1.3": 11, "c1.4": 12, "c1.5": 13, "c1.6": 14, "c1.7": 15, "c1.0": 16, "c1.1": 17, "c1.2": 18})
        with self.assertRaisesRegex(Lost, "to which the answer is ('is v1' or 'is v1v9'|'is v1v9' or 'is v1')$"):
            client.hear(17, 50, "is v9")
        client.hear(17, 50, "is v1v9")
        client.hear(18, 50, "is v2")
        self.assertEqual((client.texts["c1.1"], client.texts["c1.2"]), ({"v1v9"}, {"v2"}))

    def test_a_window_that_is_given_up(self) -> None:
        """Of 64 commands each may be answered, and so 64 more be sent."""
        client = self.client(keys=64)
        client.hear(30, 3, {"app": "len 3", "put": "ok", "del": "none"}[client.command(30).verb])
        client.give_up()
        self.assertEqual((client.first, client.answered), (129, set()))

    def test_gets_by_share(self) -> None:
        client = Asking(1, 8, share=0.25)
        self.assertEqual(sum(client.command(number).verb == "get" for number in range(1, 801)) / 800, 0.25)


class SharedTest(unittest.TestCase):
    def test_times_of_shared_commands(self) -> None:
        """A command was sent after the one before the last was printed, so after the time of which that is known."""
        client = Asking(1, 8, shared=1.0, end=5, unsent=(10.0, 10.0))
        for number, since, now, reply in ((1, 10.5, 11.0, "a"), (2, 11.5, 12.0, "b"), (3, 12.5, 13.0, "c")):
            client.hear(number, 1, reply, since, now)
        client.give_up()
        self.assertEqual([(it.number, it.asked, it.answered, it.reply) for it in client.history if it.number < 4],
                         [(1, 10.0, 11.0, "a"), (2, 10.0, 12.0, "b"), (3, 10.5, 13.0, "c")])
        self.assertEqual([(it.asked, it.answered, it.reply) for it in client.history if it.number > 3 and it.command.verb != "get"], [(11.5, None, None)])
        self.assertEqual({it.command.key for it in client.history}, {f"shared.{at}" for at in (0, 1, 2, 3)})

    def test_how_many_are_shared(self) -> None:
        client = Asking(1, 8, shared=0.1)
        self.assertEqual(sum(client.is_shared(number) for number in range(1, 8001)) / 8000, 0.1)


class LoadTest(unittest.TestCase):
    def test_lines(self) -> None:
        """A new input goes on above all that may have been sent: the first line without an answer, and the next one."""
        load = Load(pathlib.Path(), header(clients=2), share=0.3)
        first = load.input().partition("---\n")[2].splitlines()
        self.assertEqual(len(first), 2 * (load.lines + 1))
        for client in load.clients:
            self.assertEqual([line for line in first if line.split()[1] == f"client:{client.index}"],
                             [client.command(number).line(client.index, number, load.way(client, number)) for number in client.open()])
        load.clients[0].first = 500
        load.stop()
        second = load.input().partition("---\n")[2].splitlines()
        numbers = [int(line.split()[2]) for line in second if line.split()[1] == "client:0"]
        self.assertEqual(numbers, list(range(502, 502 + load.lines + 1)))

    def test_sixty_four_clients_fit(self) -> None:
        load = Load(pathlib.Path(), header(clients=64), window=64)
        self.assertLess(load.input().count("\n"), 65_535)


if __name__ == "__main__":
    unittest.main()
