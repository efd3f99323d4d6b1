"""How values are told in words, and which words name a capability or a line."""

from __future__ import annotations

import argparse
import unittest

from ..inputs import capability, line_number, shown
from ..names import ALL, counted, flags, listed, named
from ..obstacles import at_lines


class Words(unittest.TestCase):
    """Sets, flags, numbers and lines."""

    def test_sets(self) -> None:
        """More than half of all capabilities are told by those that lack."""
        self.assertEqual((named(0), named(ALL), named(1 << 13)), ("none", "all", "CAP_NET_RAW"))
        self.assertEqual(named(ALL & ~1), "all-CAP_CHOWN")
        self.assertEqual(named((1 << 20) - 1).count(","), 19)
        self.assertTrue(named((1 << 21) - 1).startswith("all-"))

    def test_flags(self) -> None:
        """A bit above the last securebit is told by its number."""
        self.assertEqual(flags(0), "none")
        self.assertEqual(flags(0x110), "SECBIT_KEEP_CAPS,bit 8")

    def test_lists(self) -> None:
        """None, one, two and more."""
        found = [listed(list(range(count))) for count in range(4)]
        self.assertEqual(found, ["", "0", "0 and 1", "0, 1 and 2"])
        self.assertEqual((counted(1, "hold"), counted(2, "hold")), ("1 hold", "2 holds"))

    def test_lines(self) -> None:
        """Lines one behind another are a span, and only the first four are told."""
        self.assertEqual(at_lines([7]), "line 7")
        self.assertEqual(at_lines([3, 2, 1, 5, 1]), "lines 1 to 3, 5")
        spread = at_lines([1, 3, 5, 7, 9, 11])
        self.assertEqual(spread, "lines 1, 3, 5, 7 and others up to 11")


class Given(unittest.TestCase):
    """The words of the command line."""

    def test_capabilities(self) -> None:
        """By name, in any case, with and without CAP_, or by number up to the last."""
        for word in ("CAP_NET_RAW", "net_raw", "cap_Net_Raw", "13"):
            self.assertEqual(capability(word), 13, word)
        for word in ("41", "-1", "net", "", "1e1", "²"):
            self.assertRaises(argparse.ArgumentTypeError, capability, word)

    def test_numbers(self) -> None:
        """A line's number has at most six digits."""
        self.assertEqual(line_number("999999"), 999999)
        for word in ("1000000", "-1", "1.0", "", "٣"):
            self.assertRaises(argparse.ArgumentTypeError, line_number, word)

    def test_shown(self) -> None:
        """A name is told without what moves the terminal, and cut."""
        self.assertEqual(shown("-"), "standard input")
        self.assertEqual(shown("a\x1b[2Jb\u202e"), "a?[2Jb?")
        self.assertEqual(len(shown("x" * 300)), 200)


if __name__ == "__main__":
    unittest.main()
