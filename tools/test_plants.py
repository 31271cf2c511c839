"""Tests of tools/plants: each plant can be applied, and plants that a prover doesn't refuse are told."""

import os
import pathlib
import subprocess
import tempfile
import unittest
from unittest import mock

from trials import run, tool_of

TOP = pathlib.Path(__file__).resolve().parent.parent

# In the place of `rt`: it refuses each edit of the crates that it is named but those that are called missed.
PROVER = """#!/bin/sh
echo "$*, $RT_JOBS at once"
shift
for crate in "$@"; do
  for edit in crates/$crate/must-fail/*; do
    case $edit in *missed*) what="NOT REFUSED: it is still proved" ;; *) what="refused, as it must be: a goal" ;; esac
    echo "rt: must-fail $crate/${edit##*/}: $what"
  done
done
"""


def applied(edit: pathlib.Path, crate: pathlib.Path) -> str:
    """Why an edit can't be applied to its crate; nothing where it can."""
    head, *lines = edit.read_text().splitlines()
    if not head.startswith("# plants: ") or "; refused by: " not in head:
        return "its first line doesn't say what it plants, and what refuses it"
    texts, path, old = {}, crate, ""
    for line in lines:
        name, _, text = line.partition(": ")
        if name == "file":
            path = crate / text
            texts.setdefault(path, path.read_text())
        elif name == "old":
            old = text
            if texts[path].count(old) != 1:
                return f"{path.name} has this {texts[path].count(old)} times: {old}"
        elif name == "new":
            texts[path] = texts[path].replace(old, text)
        elif not line.startswith("# "):
            return f"a line that isn't read: {line}"
    return "" if texts else "it names no file"


class PlantsTest(unittest.TestCase):
    def setUp(self) -> None:
        room = tempfile.TemporaryDirectory()
        self.addCleanup(room.cleanup)
        self.top = pathlib.Path(room.name) / "top"
        for name in ["plants/one/a.edit", "plants/one/b.edit", "plants/two/missed.edit", "crates/one/must-fail/own.edit", "crates/two/src/lib.rt"]:
            (self.top / name).parent.mkdir(parents=True, exist_ok=True)
            (self.top / name).write_text(name)
        (self.top.parent / "rt").write_text(PROVER)
        (self.top.parent / "rt").chmod(0o755)
        for words in ["init -q", "add .", "-c user.name=a -c user.email=a commit -qm a"]:
            subprocess.run(["git", *words.split()], cwd=self.top, check=True)
        path = f"{self.top.parent}{os.pathsep}{os.environ['PATH']}"
        for patch in [mock.patch.object(tool_of("plants"), "TOP", self.top), mock.patch.dict(os.environ, PATH=path)]:
            patch.start()
            self.addCleanup(patch.stop)

    def test_each_plant_can_be_applied(self) -> None:
        for crate, plants in tool_of("plants").planted(TOP).items():
            self.assertTrue(plants, crate)
            for plant in plants:
                with self.subTest(plant=plant.name):
                    self.assertEqual(applied(plant, TOP / "crates" / crate), "")

    def test_plants_stand_in_the_place_of_edits(self) -> None:
        status, out, _ = run("plants", "one")
        first, *lines = out.splitlines()
        self.assertRegex(first, r"^ci one, [1-9]\d* at once$")
        said = [f"rt: must-fail one/{name}.edit: refused, as it must be: a goal" for name in "ab"]
        self.assertEqual((status, lines), (0, [*said, "one: 2 of 2 refused"]))
        self.assertTrue((self.top / "crates/one/must-fail/own.edit").exists())

    def test_what_is_not_refused_is_told(self) -> None:
        status, out, _ = run("plants")
        self.assertEqual((status, out.splitlines()[-2:]), (1, ["one: 2 of 2 refused", "two: 0 of 1 refused"]))

    def test_a_crate_without_plants(self) -> None:
        status, out, said = run("plants", "one", "none")
        self.assertEqual((status, out), (2, ""))
        self.assertIn("none has no folder in plants/", said)


if __name__ == "__main__":
    unittest.main()
