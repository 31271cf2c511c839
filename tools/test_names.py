"""Tests of tools/names."""

import unittest

from trials import OverTree


class NamesTest(OverTree):
    tool = "names"

    def setUp(self) -> None:
        super().setUp()
        self.write("tools/names.same", "# none\n")
        self.write("crates/cx_one/specs/Words.antt", "-- words\npub record Mark : Type 0 where\n\nabbrev pub count : ℕ\ncount = 1\n\nprivate : ℕ\nprivate = 1\n")

    def test_each_name_in_one_crate(self) -> None:
        self.write("crates/cx_two/src/lib.rt", "pub struct Other;\nimpl Other {\n    pub fn count(&self) {}\n}\nfn private() {}\n")
        self.assertEqual(self.says(), (0, ["names: 0 stand in several crates, 0 of them with several meanings"]))

    def test_two_meanings(self) -> None:
        self.write("crates/cx_two/src/lib.rt", "//! two\n\npub struct Mark;\n")
        self.assertEqual(self.says(), (1, ["Mark stands in several crates:", "    crates/cx_one/specs/Words.antt:2", "    crates/cx_two/src/lib.rt:3",
                                           "names: 1 stand in several crates, 1 of them with several meanings"]))

    def test_code_that_computes_its_definition(self) -> None:
        self.write("crates/cx_two/src/lib.rt", "ghost use Rattle.cx_one.specs.Words.{count};\n\npub fn count() -> u64\n")
        self.assertEqual(self.says()[0], 0)

    def test_one_meaning(self) -> None:
        self.write("crates/cx_two/specs/Parts.antt", "abbrev pub count : ℕ\n")
        self.assertEqual(self.says()[0], 1)
        self.write("tools/names.same", "count: how many, in both\n")
        self.assertEqual(self.says(), (0, ["names: 1 stand in several crates, 0 of them with several meanings"]))

    def test_a_stale_line(self) -> None:
        self.write("tools/names.same", "Mark: the same\n")
        self.assertEqual(self.says(), (1, ["tools/names.same: Mark doesn't stand in several crates",
                                           "names: 0 stand in several crates, 0 of them with several meanings"]))


if __name__ == "__main__":
    unittest.main()
