"""How ids are led through the maps of user namespaces (user_namespaces(7))."""

from __future__ import annotations

import unittest

from ..follow.user_namespaces import GREATEST, Space, led
from ..script.calls import Said, Unheld


def below(parent: Space, uids: str, gids: str = "0 100000 65536\n") -> Space:
    """A namespace with these maps."""
    space = Space(parent.number + 1, parent)
    space.write("uid_map", uids)
    space.write("gid_map", gids)
    return space


class Maps(unittest.TestCase):
    """What a namespace and those above it make of an id."""

    def test_initial(self) -> None:
        """The initial namespace has every id as it is."""
        self.assertEqual(Space().outside(GREATEST, groups=False), GREATEST)
        self.assertTrue(Space().inside(5, groups=True))

    def test_ends(self) -> None:
        """The first and the last id of a line of a map, and those beside them."""
        space = below(Space(), "10 1000 5\n")
        found = [space.outside(it, groups=False) for it in (9, 10, 14, 15)]
        self.assertEqual(found, [None, 1000, 1004, None])
        self.assertEqual([space.inside(it, groups=False) for it in (999, 1000, 1004, 1005)],
                         [False, True, True, False])  # fmt: skip

    def test_lines(self) -> None:
        """A map of several lines, in any order."""
        space = below(Space(), "1 200000 10\n0 1000 1\n")
        self.assertEqual(space.root(), 1000)
        self.assertEqual(space.outside(10, groups=False), 200009)

    def test_nested(self) -> None:
        """An id goes through each map above; one that a map in the middle lacks is lost."""
        middle = below(Space(), "0 100000 1000\n")
        inner = below(middle, "0 500 600\n")
        self.assertEqual(inner.roots(), [100500, 100000, 0])
        self.assertEqual(inner.outside(499, groups=False), 100999)
        self.assertIsNone(inner.outside(500, groups=False))
        self.assertTrue(inner.is_within(middle))
        self.assertFalse(middle.is_within(inner))

    def test_greatest(self) -> None:
        """No id is (uid_t) -1."""
        space = below(Space(), f"0 {GREATEST} 5\n")
        self.assertEqual(space.outside(0, groups=False), GREATEST)
        self.assertIsNone(space.outside(1, groups=False))

    def test_written(self) -> None:
        """What runc writes ends with a zero byte; what is no map is told."""
        space = Space(1, Space())
        space.write("gid_map", "0 5 1\0rest")
        self.assertEqual(space.gids, [(0, 5, 1)])
        space.write("setgroups", "deny\n")
        self.assertTrue(space.denied)
        for text in ("0 5", "0 5 x", "0 5 1 1"):
            self.assertRaises(Unheld, space.write, "uid_map", text)


class Calls(unittest.TestCase):
    """What a task of a namespace says, by the ids of the initial one."""

    def setUp(self) -> None:
        """A container's namespace."""
        self.space = below(Space(), "0 100000 65536\n")

    def test_calls(self) -> None:
        """Arguments that are ids; -1 stays, and an id without a number is none."""
        said = led(Said("setresuid 0 -1 7", "ok"), self.space)
        self.assertEqual(said, Said("setresuid 100000 -1 100007", "ok"))
        self.assertIsNone(led(Said("setuid 70000", "ok"), self.space))
        self.assertEqual(led(Said("setfsuid 5", "ok was 0"), self.space),
                         Said("setfsuid 100005", "ok was 100000"))  # fmt: skip

    def test_answers(self) -> None:
        """The overflow id says nothing; groups are sorted by what they are outside."""
        answer = "ok 0 0 0 65534 0 0 0 0"
        outside = "ok 100000 100000 100000 * 100000 100000 100000 100000"
        self.assertEqual(led(Said("ids", answer), self.space), Said("ids", outside))
        self.assertEqual(led(Said("groups", "ok 5 1"), self.space),
                         Said("groups", "ok 100001 100005"))  # fmt: skip
        self.assertEqual(led(Said("groups", "ok 5 65534"), self.space), Said("groups", "ok * *"))


if __name__ == "__main__":
    unittest.main()
