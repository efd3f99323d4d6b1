"""How the list of files has paths: in words, in quotes, and their names in a script."""

from __future__ import annotations

import unittest

from ..files import listing
from ..files.listing import BadList, File, Names


class Lists(unittest.TestCase):
    """A list of files."""

    def test_quotes(self) -> None:
        """A path that is no word is quoted, and comes back as it was."""
        for path in ("/bin/sh", "/tmp/a b", "/tmp/a\nb", '"x', "#x", "/tmp/\\", "/tmp/\xff", "/ä"):
            text = listing.listing({path: File("reg 0 0 0755", None, False)})
            self.assertEqual(list(listing.read_list(text).files), [path], text)
            self.assertEqual(text.count("\n"), 1)

    def test_words(self) -> None:
        """What stands behind a path: an attribute, noexec, an interpreter, what it was before."""
        found = listing.read_list(
            "/a reg 0 0 4755 nosuid caps 0100 noexec #! /bin/sh\n/a before reg 5 5 0644\n"
            "# a comment\n\n/b -> /a\n"
        )
        self.assertEqual(found.files["/a"].words, "reg 0 0 4755 nosuid caps 0100")
        self.assertEqual((found.files["/a"].noexec, found.files["/a"].interpreter),
                         (True, "/bin/sh"))  # fmt: skip
        self.assertEqual(found.before["/a"].words, "reg 5 5 0644")
        self.assertEqual(found.same, {"/b": "/a"})

    def test_sizes(self) -> None:
        """An id below 4294967295, a mode of four digits, an attribute of at most 64 bytes."""
        good = "/a reg 4294967294 0 0755 caps " + "00" * 64
        self.assertIn("/a", listing.read_list(good).files)
        for words in (
            "reg 4294967295 0 0755", "reg 0 00 0755", "reg 0 0 755", "reg 0 0 0855", "lnk 0 0 0755",
            "reg 0 0 0755 caps 0", "reg 0 0 0755 caps " + "00" * 65, "reg 0 0 0755 nosuidx",
        ):  # fmt: skip
            with self.assertRaises(BadList, msg=words):
                listing.read_list(f"/a {words}\n")

    def test_folders(self) -> None:
        """The folders above a path, the root first."""
        self.assertEqual(listing.folders_of("/usr/bin/su"), ["/", "/usr", "/usr/bin"])
        self.assertEqual(listing.folders_of("/su"), ["/"])


class ScriptNames(unittest.TestCase):
    """The names of files in a script: 1 to 32 characters, each of one file."""

    def test_apart(self) -> None:
        """Two files of one last component have two names, and a path keeps its own."""
        names = Names()
        first, other = names.name("/bin/su"), names.name("/usr/bin/su")
        self.assertEqual((first, other), ("su", "su-2"))
        self.assertEqual(names.name("/bin/su"), "su")

    def test_forms(self) -> None:
        """A name begins with a letter, and has no other character than may stand in one."""
        names = Names()
        for path in ("/a/[", "/a/1x", "/a/" + "x" * 255, "/a/ä b", "/", "/b/" + "x" * 255):
            self.assertRegex(names.name(path), r"^[A-Za-z][A-Za-z0-9_.-]{0,31}$")
        self.assertEqual(len(set(names.of_path.values())), 6)


if __name__ == "__main__":
    unittest.main()
