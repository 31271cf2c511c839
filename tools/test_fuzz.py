"""Tests of bench/fuzz.py: it knows all that the program's source and docs/INPUT.md name, and tells ends that may not be."""

import pathlib
import random
import re
import sys
import unittest

sys.path.append(str(pathlib.Path(__file__).resolve().parents[1] / "bench"))

import fuzz
import journals
from headers import KEEPING, RANGES, TOP

SOURCE = TOP / "crates/compax/src/words.rt"
INPUT = TOP / "docs/INPUT.md"


def case(*words: str) -> fuzz.Case:
    return fuzz.Case(list(words), b"", {})


class ListsTest(unittest.TestCase):
    def test_options(self) -> None:
        options = set(re.findall(r'\.long\("([a-z]+)"\)', SOURCE.read_text()))
        self.assertEqual({f"--{option}" for option in options}, set(fuzz.OPTIONS))
        self.assertEqual({option for option, takes in fuzz.OPTIONS.items() if takes}, set(fuzz.VALUES))

    def test_header(self) -> None:
        table = INPUT.read_text().partition("## The header\n")[2].partition("\n\n`pool`")[0]
        self.assertEqual(set(re.findall(r"\| `(\w+)`", table)), set(RANGES))

    def test_stores(self) -> None:
        """Each kind with a journal has a whole one."""
        self.assertEqual(set(fuzz.WHOLE), set(KEEPING))
        self.assertEqual(set(journals.KINDS), set(KEEPING))
        for kind, stores in fuzz.WHOLE.items():
            tags = {tag for tag, it in journals.TAGS.items() if it.kind == kind}
            for store in stores:
                self.assertIn(store[7 if store[0] == 4 else 5], tags)

    def test_what_is_made(self) -> None:
        """Within a thousand runs each option, optional key, kind of role and kind of store is met."""
        made = [fuzz.make(1, number, [b"---\n"], [b"---\n"]) for number in range(1000)]
        words = {word for it in made for word in it.words}
        self.assertLessEqual(set(fuzz.OPTIONS), words)
        self.assertEqual({name.split("-")[1] for it in made for name in it.files}, set(KEEPING))
        inputs = b"".join(it.data for it in made)
        for piece in (b"\nreplacers = ", b"\npool = ", b"\nreplace replacer:", b"\nsnap replica:", b"\nsession client:", b"\nchange leader:", b"/",
                      b"\nkeep_sets = ", b"\noffer replica:"):
            self.assertIn(piece, inputs)
        self.assertLessEqual({"replacer:0", "reader:0", "match:0"}, words)


class EndsTest(unittest.TestCase):
    def wrong(self, words: str, status: int | str, err: bytes, out: bytes = b"") -> str | None:
        return fuzz.wrong_end(case(*words.split()), status, out, err)

    def test_right(self) -> None:
        for words, status, err in (("replay", 0, b""), ("node a", 2, b"bad words\n"), ("node a", 11, b"store not empty: reader:0\n"),
                                   ("node a", 12, b"record full\n"), ("node a", 7, b"store failed: replacer:3\n"),
                                   ("node --tend 64 a", 7, b"store failed: match:0\ncompax-match-0.journal: No space left\n"),
                                   ("node --tend 64 a", 6, b"link failed\nport 21000\n"), ("node --tend 64 a", 6, b"link failed\n")):
            self.assertIsNone(self.wrong(words, status, err), (words, err))

    def test_wrong(self) -> None:
        for words, status, err in (("replay", "hangs", b""), ("replay", -11, b""), ("replay", 13, b""), ("node a", 2, b"bad input at line 1\n"),
                                   ("node a", 2, b"bad words"), ("node a", 0, b"a\n"), ("node a", 8, b""), ("replay", 8, b"turns ended\n"),
                                   ("node a", 6, b"link failed\nport 21000\n"), ("node --tend 64 a", 8, b"turns ended\nmore\n"),
                                   ("node --tend 64 a", 6, b"port 21000\nlink failed\n"), ("node --tend 64 a", 6, b"link failed\na\nb\n")):
            self.assertIsNotNone(self.wrong(words, status, err), (words, err))
        self.assertIsNotNone(self.wrong("gen 1 2", 2, b"bad words\n", b"events 2\n"))


if __name__ == "__main__":
    unittest.main()
