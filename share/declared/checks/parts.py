"""Parts that stored answers can't isolate: how texts are read, how files are found, rows."""

from __future__ import annotations

import io
import json
import tempfile
import unittest
from dataclasses import replace
from pathlib import Path

from kernel.on_execve import Before, compared
from kernel.rows import NO_NEW_PRIVS_FILE, SET_ID
from kernel.script import File
from why import linux

from ..oci.positions import lines
from ..places import Bad
from ..run.engines import Engine, nearest
from ..run.line import parsed as parsed_line
from ..tree import Disk, Mount
from ..unit import commands, dynamic, fragments, specifiers, syntax, words
from ..unit.syntax import Assignment
from ..users import of_texts

RAW = bytes.fromhex("0100000200200000000000000000000000000000")


class Texts(unittest.TestCase):
    """Units, command lines and JSON."""

    def test_lines_that_go_on(self) -> None:
        """A line that ends in a backslash goes on over comments; its number is the first."""
        data = b"[Service]\nUser=one \\\n# no\n  two\n;\nGroup=x\\\\\n"
        found = [it for it in syntax.parsed(data, "x") if isinstance(it, Assignment)]
        self.assertEqual([(it.value, it.place.line) for it in found],
                         [("one    two", 2), ("x\\\\", 6)])  # fmt: skip

    def test_words(self) -> None:
        """Quotes hold words together."""
        self.assertEqual(words.split("a 'b c' \"d\\\" e\"  f\\ g"), ["a", "b c", 'd" e', "f g"])

    def test_sets(self) -> None:
        """Lines of a set merge, and an empty one empties."""
        found = words.Capabilities(0)
        for text in ("CAP_KILL cap_chown", "~CAP_CHOWN"):
            found.assign(text)
        self.assertEqual(found.value, 1 << 5)
        self.assertEqual(found.assign("CAP_FOO"), ["CAP_FOO"])

    def test_commands(self) -> None:
        """Several commands of a line, and the words of --command."""
        self.assertEqual(commands.texts("/a b ; /c ;"), ["/a b", "/c"])
        self.assertEqual(commands.choice("ExecStop:3"), commands.Choice("ExecStop", 3))
        for word in ("", "User", "ExecStart:0", "ExecStart:x"):
            self.assertRaises(Bad, commands.choice, word)

    def test_specifiers(self) -> None:
        """Those of the name; others are told."""
        name = fragments.Name("a-b@c\\x2dd.service")
        self.assertEqual(specifiers.expand("%p %i %I %%", name).text, "a-b c\\x2dd c-d %")
        self.assertEqual(specifiers.expand("%m", name).unknown, ("%m",))

    def test_dynamic(self) -> None:
        """A name of a unit that no user may have is hashed."""
        self.assertEqual(dynamic.name_of("web"), "web")
        self.assertEqual(dynamic.number_of(dynamic.name_of("two.three")), 63056)

    def test_positions(self) -> None:
        """The line of each value, also of keys that are there twice."""
        text = '{\n"a": [1,\n {"b": "}"}],\n"c": {}, "c":\n 2}'
        json.loads(text)
        found = lines(text)
        self.assertEqual([found[it] for it in ("a", "a[1]", "a[1].b", "c")], [2, 3, 3, 4])

    def test_line(self) -> None:
        """Short options stand together, and a value behind its letter."""
        found = parsed_line("docker run -itu5 --cap-add=A --cap-add B img x --user 7".split())
        self.assertEqual((found.last("--user"), found.values("--cap-add")), ("5", ["A", "B"]))
        self.assertEqual((found.image, found.words), ("img", ["x", "--user", "7"]))

    def test_versions(self) -> None:
        """A version that wasn't measured is answered by the nearest."""
        self.assertEqual(nearest(Engine.DOCKER, "20.10.24")[1], True)
        self.assertEqual(nearest(Engine.PODMAN, "5.1")[1], False)


class Trees(unittest.TestCase):
    """Files below a root, users, and drop-ins."""

    def test_links(self) -> None:
        """A link leads inside the root, and a mount hides what lies below it."""
        with tempfile.TemporaryDirectory() as place:
            root, other = Path(place, "root"), Path(place, "other")
            (root / "usr").mkdir(parents=True)
            other.mkdir()
            (root / "usr/one").write_text("#!/bin/sh\n", encoding="ascii")
            (other / "two").write_text("", encoding="ascii")
            (root / "bin").symlink_to("/usr")
            (root / "loop").symlink_to("loop")
            disk = Disk(str(root), [Mount("/mnt", str(other), nosuid=True)])
            self.assertEqual(disk.find("/bin/../bin/one").head, b"#!/bin/sh\n")
            self.assertTrue(disk.find("/mnt/two").nosuid)
            self.assertRaises(OSError, disk.find, "/loop")
            self.assertRaises(OSError, disk.find, "/two")

    def test_users(self) -> None:
        """A name goes before a number."""
        found = of_texts("7:x:1:2::\nx:y\nb:x:7:3::\n", "g:x:9:b,c\n")
        one, other = found.user("7"), found.user("b")
        self.assertTrue(one is not None and one.number == 1)
        self.assertTrue(other is not None and found.groups_of(other.name, 3) == [3, 9])

    def test_dropins(self) -> None:
        """By file name; of two alike the one of the earlier folder, and a unit's own folder."""
        with tempfile.TemporaryDirectory() as place:
            for name in ("one/a-b.service.d/2.conf", "two/a-b.service.d/2.conf",
                         "two/a-.service.d/1.conf", "two/service.d/3.conf"):  # fmt: skip
                path = Path(place, name)
                path.parent.mkdir(parents=True)
                path.write_text("", encoding="ascii")
            paths = [Path(place, it) for it in ("one", "two")]
            found = fragments.dropins(fragments.Name("a-b.service"), paths)
            names = [str(it.relative_to(place)) for it in found]
            self.assertEqual(names, ["two/a-.service.d/1.conf", "one/a-b.service.d/2.conf",
                                     "two/service.d/3.conf"])  # fmt: skip


class Rows(unittest.TestCase):
    """The two rows of docs/LINUX.md that decide most of them."""

    SETS = 0x400, 0x400, 0x400, 1 << 13 | 0x400, 0x400
    BEFORE = Before((7,) * 4, (7,) * 4, (50,), SETS, 0, True)

    def test_attribute(self) -> None:
        """Under no_new_privs an attribute is read, and empties the ambient set."""
        file = File("f", False, 0, 0, 0o755, False, RAW)
        it = compared(self.BEFORE, file, [0])
        self.assertEqual(it.rows, (NO_NEW_PRIVS_FILE,))
        self.assertEqual((it.manual.sets[4], it.linux.sets[4]), (0x400, 0))
        self.assertIn("docs/LINUX.md, not by proof", linux.reasons(it, 0x400)[0].text)
        self.assertEqual(linux.reasons(it, 1), [])

    def test_set_id(self) -> None:
        """A set-group-ID bit of a group that the task is in leaves the ambient set."""
        before = replace(self.BEFORE, no_new_privs=False)
        it = compared(before, File("f", False, 0, 50, 0o2755, False, None), [0])
        self.assertEqual((it.rows, it.manual.sets[4], it.linux.sets[4]), ((SET_ID,), 0, 0x400))


def faults() -> tuple[str, list[str]]:
    """How many tests there were, and those that fail."""
    suite = unittest.TestSuite(
        unittest.defaultTestLoader.loadTestsFromTestCase(it) for it in (Texts, Trees, Rows)
    )
    result = unittest.TextTestRunner(io.StringIO(), verbosity=0).run(suite)
    found = [f"{test}: {text}" for test, text in result.failures + result.errors]
    return f"{result.testsRun} tests of parts", found
