"""Tests of clients.py: which answers a client expects."""

import random
import unittest

from clients import Client


class ClientTest(unittest.TestCase):
    def asked(self, *words: str) -> list[str]:
        client = Client(0, random.Random(1))
        for word in words:
            client.ask(*word.split())
        return [client.reply_to(command) for _, command in client.waiting]

    def test_answers(self) -> None:
        self.assertEqual(self.asked("get a", "put a", "app a", "get a", "del b", "del a", "del a", "app a", "get a"),
                         ["none", "ok", "len 4", "is v2v3", "none", "was v2v3", "none", "len 2", "is v8"])
        self.assertEqual(self.asked(*["app a"] * 26, "put a", "app a")[-6:], ["len 60", "len 63", "full", "full", "ok", "len 6"])


if __name__ == "__main__":
    unittest.main()
