"""Tests of tools/columns."""

import contextlib
import io
import pathlib
import tempfile
import unittest

from trials import tool_of


def counted(proofs: int, clauses: int) -> str:
    return f"columns: {proofs} lines of proofs and definitions have more than 140, {clauses} of clauses more than 100"


class ColumnsTest(unittest.TestCase):
    def setUp(self) -> None:
        room = tempfile.TemporaryDirectory()
        self.addCleanup(room.cleanup)
        self.top = pathlib.Path(room.name)

    def write(self, name: str, text: str) -> None:
        file = self.top / "crates" / "cx_one" / name
        file.parent.mkdir(parents=True, exist_ok=True)
        file.write_text(text)

    def says(self) -> tuple[int, list[str]]:
        said = io.StringIO()
        with contextlib.redirect_stdout(said):
            status = tool_of("columns").main(self.top)
        return status, said.getvalue().splitlines()

    def test_lines_of_the_bound(self) -> None:
        self.write("proofs/Laws.antt", "→" * 140 + "\n")
        self.write("specs/deep/Words.antt", "-- " + "x" * 137 + "\n")
        self.write("src/lib.rt", "    ensures { " + "≡" * 84 + " }\n{\n}\n")
        self.assertEqual(self.says(), (0, [counted(0, 0)]))

    def test_wide_proofs_and_definitions(self) -> None:
        self.write("proofs/Laws.antt", "short\n" + "→" * 141 + "\n")
        self.write("specs/deep/Words.antt", "-- " + "x" * 1000 + "\n")
        self.assertEqual(self.says(), (1, ["crates/cx_one/proofs/Laws.antt:2: 141 columns", "crates/cx_one/specs/deep/Words.antt:1: 1003 columns",
                                           counted(2, 0)]))

    def test_wide_clauses(self) -> None:
        for word in ("requires", "ensures whole", "invariant", "ghost view =", "ghost fits:"):
            with self.subTest(word):
                self.write("src/lib.rt", f"fn f()\n    {word} {{ {'≡' * 100} }}\n")
                self.assertEqual(self.says(), (1, [f"crates/cx_one/src/lib.rt:2: {109 + len(word)} columns", counted(0, 1)]))

    def test_a_clause_of_several_lines(self) -> None:
        wide = "x" * 101
        self.write("src/lib.rt", f"fn f()\n    ensures {{ f {{\n      {wide}\n    }}\n        {wide} }}\n{{\n    {wide}\n}}\n")
        self.assertEqual(self.says(), (1, ["crates/cx_one/src/lib.rt:3: 107 columns", "crates/cx_one/src/lib.rt:5: 111 columns", counted(0, 2)]))

    def test_a_brace_in_a_text_ends_no_clause(self) -> None:
        self.write("src/lib.rt", 'fn f()\n    ensures { f "}"\n        ' + "x" * 101 + " }\n")
        self.assertEqual(self.says(), (1, ["crates/cx_one/src/lib.rt:3: 111 columns", counted(0, 1)]))

    def test_code_comments_and_imports_are_no_clauses(self) -> None:
        wide = "x" * 101
        self.write("src/lib.rt", f"//! {wide}\n\nghost use Rattle.cx_two.specs.Words.{{{wide}}};\n\n/// ensures {{ {wide} }}\nfn f() {{ {wide} }}\n")
        self.assertEqual(self.says(), (0, [counted(0, 0)]))


if __name__ == "__main__":
    unittest.main()
