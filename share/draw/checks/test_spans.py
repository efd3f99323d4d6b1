"""How spans are stacked, and how long texts are cut for a page."""

from __future__ import annotations

import unittest

from ..command import LONGEST_TEXT, cut
from ..spans import HOLD, OPEN, Span, levels


def spans(*pairs: tuple[int, int]) -> list[Span]:
    """Spans from an entry to another."""
    return [Span(HOLD, "h1", "c0", start, end) for start, end in pairs]


class Spans(unittest.TestCase):
    """Where spans lie."""

    def test_levels(self) -> None:
        """A level is free behind the last entry of its span, and the least is taken."""
        self.assertEqual(levels(spans((1, 5), (2, 3), (3, 9), (4, 4), (6, 7)), 9), [0, 1, 2, 1, 0])

    def test_open(self) -> None:
        """What no entry ends reaches to the end."""
        self.assertEqual(levels(spans((1, OPEN), (2, OPEN), (8, 9)), 9), [0, 1, 2])

    def test_meets(self) -> None:
        """A span meets a part where one entry is of both."""
        found = [Span(HOLD, "h1", "c0", 5, end).meets(7, 9) for end in (6, 7, OPEN)]
        self.assertEqual(found, [False, True, True])
        self.assertFalse(Span(HOLD, "h1", "c0", 10).meets(7, 9))


class Texts(unittest.TestCase):
    """Entries of any length."""

    def test_cut(self) -> None:
        """What is as long as may be is whole; of a longer one it is told how much is left out."""
        whole = "1 " + "x" * (LONGEST_TEXT - 2)
        self.assertEqual(cut(whole), whole)
        found = cut("1 ask h1 groups -> ok" + " 1" * LONGEST_TEXT)
        self.assertTrue(found.startswith("1 ask h1 groups -> ok 1 1"))
        left = 2 + 2 * LONGEST_TEXT - LONGEST_TEXT
        self.assertTrue(found.endswith(f"... ({left} characters more)"))


if __name__ == "__main__":
    unittest.main()
