"""The rows of docs/LINUX.md by their keys."""

from __future__ import annotations

import unittest

from .. import rows


class Rows(unittest.TestCase):
    """What the page has."""

    def test_both_ways(self) -> None:
        """Each key of the page stands in code, and each of code on the page."""
        self.assertEqual(rows.KEYS, set(rows.rows()))

    def test_cells(self) -> None:
        """A row says something of both; a key without a row is told as it is."""
        self.assertTrue(all(here and linux for here, linux in rows.rows().values()))
        self.assertEqual(rows.row(rows.GROUPS)[0], "at most 1,024 groups, else EINVAL")
        self.assertEqual(rows.row("no-such-row"), ("no-such-row", ""))


if __name__ == "__main__":
    unittest.main()
