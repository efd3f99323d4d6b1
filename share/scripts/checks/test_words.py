"""How the words of a script are spelled, up to their sizes, and which word is near another."""

from __future__ import annotations

import unittest

from ..words import KINDS, distance, is_record, near


class Sizes(unittest.TestCase):
    """The first and the last word of each kind, and those beside them (docs/FORMATS.md)."""

    def test_ends(self) -> None:
        """What is one, and what is none."""
        for kind, good, bad in (
            ("NUM", ("0", "4294967295"), ("4294967296", "01", "-1", "", "9999999999")),
            ("ID", ("0", "4294967294"), ("4294967295", "-1")),
            ("ARG", ("-1", "4294967294"), ("-2", "4294967295")),
            ("T", ("t1", "t99999"), ("t0", "t100000", "t01", "p1", "t")),
            ("N", ("n0", "n15"), ("n16", "n-1")),
            ("CAP", ("0", "CAP_CHOWN", "CAP_CHECKPOINT_RESTORE"), ("CHOWN", "cap_chown", "CAP_")),
            ("SET", ("0", "1ffffffffff", "00000000000000ff"), ("20000000000", "0x1", "0" * 17)),
            ("NAME", ("a", "a" * 32, "A.b_c-9"), ("a" * 33, "9a", "", "a b", "ä")),
            ("MODE", ("0000", "7777"), ("0800", "755", "00755")),
            ("HEX", ("00", "0xff", "00" * 64), ("0", "0X00", "00" * 65, "0x")),
            ("WANT", ("r", "rwx"), ("xr", "", "rr")),
            ("LINE", ("1", "20000"), ("0", "20001")),
        ):  # fmt: skip
            for word in good:
                self.assertTrue(KINDS[kind](word), f"{kind}: {word}")
            for word in bad:
                self.assertFalse(KINDS[kind](word), f"{kind}: {word}")

    def test_records(self) -> None:
        """A record of capset(2) has its version's length, and is of the task or of itself."""
        third = "2205082007000000" + "00" * 24
        self.assertTrue(is_record(third, "t7"))
        self.assertTrue(is_record("0x22050820" + "00" * 28, "t7"))
        self.assertFalse(is_record(third, "t8"))
        self.assertFalse(is_record(third[:-2], "t7"))
        self.assertFalse(is_record("3003981907000000" + "00" * 24, "t7"))


class Near(unittest.TestCase):
    """What a wrong word likely means."""

    def test_distance(self) -> None:
        """A letter that lacks, is added or changed, and two that are exchanged, are one each."""
        for other in ("setui", "setuidd", "setuit", "setiud"):
            self.assertEqual(distance("setuid", other), 1, other)
        self.assertEqual(distance("", "abc"), 3)
        self.assertEqual(distance("ids", "ids"), 0)

    def test_near(self) -> None:
        """Of a short word one letter may differ, of a longer one two."""
        known = {"ids", "bits", "caps", "setresuid", "setreuid"}
        self.assertEqual(near("cap", known), "caps")
        self.assertIsNone(near("cup", known))
        self.assertEqual(near("setresuids", known), "setresuid")
        self.assertEqual(near("setrsuid", known), "setresuid or setreuid")


if __name__ == "__main__":
    unittest.main()
