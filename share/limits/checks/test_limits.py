"""The limits are the program's."""

from __future__ import annotations

import re
import unittest
from pathlib import Path

import limits

CRATES = Path(__file__).resolve().parents[3] / "crates"
# Where the program has another name for one.
NAMES = {"BYTES": "BYTE_LIMIT", "LINES": "LINE_LIMIT", "GROUPS": "GROUP_LIMIT"}


class Limits(unittest.TestCase):
    """Each is a constant of the code."""

    def test_constants(self) -> None:
        """They have the numbers of the code."""
        found: dict[str, int] = {}
        for name in ("cred_ids/src/limits.rt", "cred_caps/src/secure.rt"):
            text = (CRATES / name).read_text(encoding="utf-8")
            for it in re.finditer(r"^pub const (\w+): \w+ = ([0-9_]+);", text, re.M):
                found[it[1]] = int(it[2])
        for name, value in vars(limits).items():
            if name.isupper():
                with self.subTest(name):
                    self.assertEqual(value, found[NAMES.get(name, name)])


if __name__ == "__main__":
    unittest.main()
