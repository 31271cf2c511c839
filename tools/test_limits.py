"""Tests that docs/INPUT.md has the limits of the program's source."""

import re
import unittest

from headers import RANGES, TOP

LIMITS = (TOP / "crates/cx_base/src/limits.rt").read_text()
INPUT = (TOP / "docs/INPUT.md").read_text()
GREATEST = {"f": "MAX_F", "leaders": "ROLES", "proxies": "PROXIES", "acceptors": "ACCEPTORS", "replicas": "ROLES", "batchers": "ROLES",
            "unbatchers": "ROLES", "readers": "ROLES", "clients": "CLIENTS", "batch": "BATCH", "pool": "MATCHMAKERS", "replacers": "REPLACERS"}


def constants() -> dict[str, int]:
    """The constants of the source, each a number, a power of two, or an earlier one."""
    found: dict[str, int] = {}
    for name, text in re.findall(r"^pub const (\w+): \w+ = (.+);$", LIMITS, re.MULTILINE):
        base, _, power = text.removesuffix(" as usize").replace("_", "" if text[0].isdigit() else "_").partition(" << ")
        found[name] = found[base] if base in found else int(base) << int(power or 0)
    return found


def section(title: str) -> str:
    return INPUT.partition(f"## {title}\n")[2].partition("\n## ")[0]


class LimitsTest(unittest.TestCase):
    def test_the_source_is_read(self) -> None:
        self.assertEqual({name: constants()[name] for name in ("WINDOW_LENGTH", "SLOTS", "MAX_RECORD_LENGTH")},
                         {"WINDOW_LENGTH": 32, "SLOTS": 2**40, "MAX_RECORD_LENGTH": 32_768})

    def test_the_header(self) -> None:
        """Each key's greatest number is what the tools take, and the source's where that has a constant."""
        table = {key: int(most) for key, most in re.findall(r"\| `(\w+)`[^|]*\| [^|]* to (\d+) ", section("The header"))}
        self.assertEqual(table, {key: most for key, (_, most) in RANGES.items()})
        self.assertEqual({key: table[key] for key in GREATEST}, {key: constants()[name] for key, name in GREATEST.items()})

    def test_the_lines(self) -> None:
        """Each row of the table names its constant."""
        rows = re.findall(r"^\| [^|]+ \| ([\d,]+) \| `(\w+)` \|", section("Limits"), re.MULTILINE)
        self.assertEqual({name: int(number.replace(",", "")) for number, name in rows}, {name: constants()[name] for _, name in rows})
        self.assertLessEqual({"MAX_LINE_LENGTH", "MAX_HEADER_LENGTH", "MAX_LINES", "KEY_LENGTH", "TEXT_LENGTH", "MEMBERS", "OUTSTANDING"},
                             {name for _, name in rows})


if __name__ == "__main__":
    unittest.main()
