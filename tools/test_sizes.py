"""Tests of tools/sizes."""

import unittest

from trials import OverTree


def counted(total: int) -> str:
    return f"sizes: {total} bytes of documents, of 110000"


class SizesTest(OverTree):
    tool = "sizes"

    def test_which_files_are_documents(self) -> None:
        for name in ("README.md", "CONTRIBUTING.md", "CHANGELOG.md", "examples/README.md", "docs/MODEL.md", "docs/deep/traps.md"):
            self.write(name, "text\n")
        for name in ("bench/results/node.md", "reference/README.md", "docs/picture.svg"):
            self.write(name, "x" * 121 + "\n")
        self.assertEqual(self.says(), (0, [counted(30)]))

    def test_all_together(self) -> None:
        self.write("docs/MODEL.md", "sevenly\n" * 13_750)
        self.assertEqual(self.says(), (0, [counted(110_000)]))
        self.write("CHANGELOG.md", "\n")
        self.assertEqual(self.says(), (1, [counted(110_001)]))

    def test_each_by_itself(self) -> None:
        for name, most in (("README.md", 9_000), ("docs/PROVED.md", 12_000)):
            with self.subTest(name):
                self.write(name, "→\n" * (most // 4))
                self.assertEqual(self.says(), (0, [counted(most)]))
                self.write(name, "→\n" * (most // 4) + "\n")
                self.assertEqual(self.says(), (1, [f"{name}: {most + 1} bytes, of {most}", counted(most + 1)]))
                self.write(name, "")

    def test_columns(self) -> None:
        self.write("docs/MODEL.md", "→" * 120 + "\n" + "| " + "x" * 300 + " |\n" + "x" * 121 + "\n")
        self.assertEqual(self.says(), (1, ["docs/MODEL.md:3: 121 columns", counted(788)]))


if __name__ == "__main__":
    unittest.main()
