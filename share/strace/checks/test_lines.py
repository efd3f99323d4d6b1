"""How a line of strace's is read: arguments, results, strings, structures, numbers."""

from __future__ import annotations

import unittest

from ..log import lines
from ..log.lines import Result


class Arguments(unittest.TestCase):
    """What stands between the brackets of a call."""

    def test_commas_inside(self) -> None:
        """A comma in a string, an array or a structure parts no arguments."""
        text = '"/a,b", ["x", "y"], {a=1, b=[2, 3]}, 0x7 /* 9 vars */) = 0'
        found = ['"/a,b"', '["x", "y"]', "{a=1, b=[2, 3]}", "0x7 /* 9 vars */"]
        self.assertEqual(lines.split(text), (found, " = 0"))

    def test_brackets_in_strings(self) -> None:
        """A bracket in a string, or behind a backslash, closes nothing."""
        self.assertEqual(lines.split(r'"a)\")", 5) = 0'), ([r'"a)\")"', "5"], " = 0"))

    def test_descriptors(self) -> None:
        """What -y writes behind a descriptor may have brackets and commas."""
        text = "3</tmp/a,b(c)>, 5<socket:[1, 2]>) = 0"
        self.assertEqual(lines.split(text), (["3</tmp/a,b(c)>", "5<socket:[1, 2]>"], " = 0"))

    def test_shifts(self) -> None:
        """A shift begins no descriptor's path."""
        self.assertEqual(lines.split("1<<CAP_KILL, 2) = 0"), (["1<<CAP_KILL", "2"], " = 0"))

    def test_none(self) -> None:
        """A call may have no argument, or no end."""
        self.assertEqual(lines.split(") = 1"), ([], " = 1"))
        self.assertIsNone(lines.split('"/bin/sh", ["sh"'))


class Results(unittest.TestCase):
    """What stands behind the closing bracket."""

    def test_values(self) -> None:
        """Decimal, hexadecimal, none, and errors."""
        self.assertEqual(lines.result(" = 5"), Result(5, None))
        self.assertEqual(lines.result("   = 0x1f (flags A)"), Result(0x1F, None))
        self.assertEqual(lines.result(" = ?"), Result(None, None))
        text = " = -1 EPERM (Operation not permitted)"
        self.assertEqual(lines.result(text), Result(-1, "EPERM"))

    def test_descriptors(self) -> None:
        """A descriptor with its path."""
        self.assertEqual(lines.result(" = 3</etc/passwd>"), Result(3, None))
        self.assertEqual(lines.result(" = 3</tmp/x>(deleted)"), Result(3, None))

    def test_pids(self) -> None:
        """A pid of another PID namespace is taken as strace knows it."""
        self.assertEqual(lines.result(" = 2 /* 4711 in strace's PID NS */"), Result(4711, None))
        self.assertEqual(lines.pid("2 /* 4711 in strace's PID NS */"), 4711)

    def test_cut(self) -> None:
        """A result that is cut is none."""
        self.assertIsNone(lines.result(" = "))
        self.assertIsNone(lines.result(" = -"))


class Values(unittest.TestCase):
    """Single arguments."""

    def test_strings(self) -> None:
        """Escapes of C; a string that is shortened is none."""
        self.assertEqual(lines.string(r'"a\tb\x2f\101\"\\"'), 'a\tb/A"\\')
        self.assertEqual(lines.string('""'), "")
        self.assertIsNone(lines.string('"abc"...'))
        self.assertIsNone(lines.string("NULL"))

    def test_structures(self) -> None:
        """The fields, of what was written behind the arrow too."""
        text = "{version=3, pid=0} => {a={b=1, c=2}, d=5}"
        expected = {"version": "3", "pid": "0", "a": "{b=1, c=2}", "d": "5"}
        self.assertEqual(lines.fields(text), expected)
        self.assertEqual(lines.fields("NULL"), {})

    def test_arrays(self) -> None:
        """The elements; one that is shortened is none."""
        self.assertEqual(lines.items("[1, 2, 3]"), ["1", "2", "3"])
        self.assertEqual(lines.items("[]"), [])
        self.assertIsNone(lines.items("[1, 2, ...]"))
        self.assertIsNone(lines.items("0x7ffe"))

    def test_numbers(self) -> None:
        """Octal as open(2) has modes, hexadecimal, and comments behind."""
        self.assertEqual(lines.number("0755"), 0o755)
        self.assertEqual(lines.number("0x10"), 16)
        self.assertEqual(lines.number("7 /* SIGBUS */"), 7)
        self.assertEqual(lines.number("3</dev/null>"), 3)
        self.assertEqual(lines.number("-1"), -1)
        self.assertIsNone(lines.number("AT_FDCWD"))

    def test_flags(self) -> None:
        """Names and numbers joined; an unknown name is no number."""
        names = {"A": 1, "B": 4}
        self.assertEqual(lines.bits("A|B|0x10", names), 21)
        self.assertEqual(lines.bits("A|0x100 /* C_??? */", names), 0x101)
        self.assertIsNone(lines.bits("A|UNKNOWN", names))


if __name__ == "__main__":
    unittest.main()
