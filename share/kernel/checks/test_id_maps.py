"""The maps that the driver writes, for a namespace whose root is another user."""

from __future__ import annotations

import unittest

from ..machine import common, extents
from ..setup import Place, id_map, pieces, swapped, within

WHOLE = 0xFFFFFFFF


class Maps(unittest.TestCase):
    """A namespace in which 0 is its root's id, and that id is 0."""

    def test_swapped(self) -> None:
        """Two ids change places, and every other stays."""
        self.assertEqual([swapped(5, it) for it in (0, 5, 6)], [5, 0, 6])

    def test_every_id_once(self) -> None:
        """A map has each id of the place once, inside and outside, with 0 at the root."""
        for roots in ([1000], [0], [200000, 100000]):
            found = id_map(Place(), roots)
            self.assertEqual(sum(count for _, _, count in found), WHOLE, roots)
            inside = sorted((first, first + count) for first, _, count in found)
            self.assertTrue(all(a[1] == b[0] for a, b in zip(inside, inside[1:])), roots)
            above = roots[1] if len(roots) > 1 else 0
            zero = next(outside for first, outside, _ in found if first == 0)
            self.assertEqual(zero, swapped(above, roots[0]), roots)

    def test_cut(self) -> None:
        """Each id that is cut out has a piece of its own, at the ends of an extent too."""
        place = Place(extents=((0, 10), (20, 5)))
        self.assertEqual(pieces(place, [0, 5, 24, 30]),
                         [(0, 1), (1, 4), (5, 1), (6, 4), (20, 4), (24, 1)])  # fmt: skip

    def test_few(self) -> None:
        """An id that the place lacks isn't mapped."""
        place = Place(extents=((0, 1), (1000, 2)))
        self.assertEqual(id_map(place, [1000]), [(0, 1000, 1), (1000, 0, 1), (1001, 1001, 1)])
        self.assertEqual([within(place.extents, it) for it in (0, 1, 1001, 1002)],
                         [True, False, True, False])  # fmt: skip


class Extents(unittest.TestCase):
    """What /proc tells of a map."""

    def test_read(self) -> None:
        """The lines behind a name, up to what is no line of a map."""
        told = ["gid_map", "0 5 1", "uid_map", "         0       1000          1", "1 7 2", "end"]
        self.assertEqual(extents(told, "uid_map"), ((0, 1), (1, 2)))
        self.assertEqual(extents(told, "other"), ())

    def test_common(self) -> None:
        """What two lists both have."""
        self.assertEqual(common(((0, 10), (20, 5)), ((5, 17),)), ((5, 5), (20, 2)))
        self.assertEqual(common(((0, 5),), ((5, 5),)), ())


if __name__ == "__main__":
    unittest.main()
