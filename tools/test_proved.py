"""Tests of tools/proved: which part of a crate's head is its row."""

import pathlib
import tempfile
import unittest

from trials import tool_of


class RowTest(unittest.TestCase):
    def setUp(self) -> None:
        room = tempfile.TemporaryDirectory()
        self.addCleanup(room.cleanup)
        self.top = pathlib.Path(room.name)
        self.proved = tool_of("proved")
        self.proved.TOP, self.proved.MODEL = self.top, self.top / "MODEL.md"
        self.proved.MODEL.write_text("| 1 | `Agreement` | | `cx_law` |\n")

    def row(self, crate: str, theorem: str) -> str:
        root = self.top / "crates" / crate / "src" / "lib.rt"
        root.parent.mkdir(parents=True, exist_ok=True)
        root.write_text(f"//! A crate.\n//!\n//! It has parts. {theorem}\n//! And more.\n\n//! no head\n")
        return self.proved.proved(crate)

    def test_up_to_a_semicolon_or_a_sentence(self) -> None:
        self.assertEqual(self.row("cx_one", "Its theorem is: one is two; two is three."), "One is two.")
        self.assertEqual(self.row("cx_one", "Its theorems are `a`, of i.e. all. `b` too."), "`a`, of i.e. all.")
        self.assertEqual(self.row("cx_one", "Their theorem is the contract of\n//! `step`."), "The contract of `step`.")

    def test_promises_have_their_names(self) -> None:
        theorem = "Its theorems are `one_law`, `other_law`: all is well; `third_law` too."
        self.assertEqual(self.row("cx_law", theorem), "`one_law`, `other_law`.")
        self.assertEqual(self.row("cx_one", theorem), "`one_law`, `other_law`: all is well.")
        self.assertEqual(self.row("cx_law", "Its theorem is the contract of `step`: all."), "The contract of `step`: all.")

    def test_a_head_without_a_theorem(self) -> None:
        with self.assertRaises(SystemExit):
            self.row("cx_one", "It has no theorem.")


if __name__ == "__main__":
    unittest.main()
