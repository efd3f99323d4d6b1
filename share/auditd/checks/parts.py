"""Parts that stored logs can't isolate: records, events, windows, signs, tests of a difference."""

from __future__ import annotations

import datetime
import io
import tempfile
import unittest
from pathlib import Path

from tool.inputs import Fault

from ..fleet import Total
from ..gather import Gatherer
from ..host import failed, host_of
from ..judge import is_less, without_set_ids
from ..numbers import numbers_of
from ..records import Damaged, Event, read_call, read_path
from ..reduced import Ending, ending
from ..signs import is_initial, is_inside, is_led
from ..sources import time_of
from ..spaces import GREATEST, Ids, Space
from ..tasks import Process, Task, thread_of
from ..window import Reader
from ..workers import reason

FORM = (
    "type=SYSCALL msg=audit({time}:{serial}): arch=c000003e syscall={number} success={done} "
    "exit={result} a0={a0} a1=ffffffff a2=0 a3=0 items=0 ppid=1 pid={pid} auid=4294967295 "
    'uid={uid} gid=7 euid={uid} suid={uid} fsuid={uid} egid=7 sgid=7 fsgid=7 tty=(none) '
    'ses=4294967295 comm="x" exe="/usr/bin/x" key="k"'
)


def record(number: int = 39, pid: int = 50, uid: int = 5, serial: int = 1, time: str = "9.000",
           done: str = "yes", result: int = 0, a0: str = "0") -> str:  # fmt: skip
    """A record of a call."""
    return FORM.format(number=number, pid=pid, uid=uid, serial=serial, time=time, done=done,
                       result=result, a0=a0)  # fmt: skip


def events(*lines: str) -> list[Event]:
    """The events of a log."""
    return list(Gatherer().events(lines))


def event(**words: int | str) -> Event:
    """The event of one record."""
    return events(record(**words))[0]  # type: ignore[arg-type]


class Records(unittest.TestCase):
    """Lines of a log."""

    def test_other_order(self) -> None:
        """A record whose fields stand otherwise says the same; one that lacks an id is damaged."""
        text = record().partition("): ")[2]
        words = text.split(" ")
        usual, other = Event("9.000", 1), Event("9.000", 1)
        read_call(usual, text, 0)
        turned = " ".join(reversed(words))
        read_call(other, turned, 0)
        other.text = usual.text
        self.assertEqual(usual, other)
        lacks = " ".join(word for word in words if not word.startswith("fsuid="))
        self.assertRaises(Damaged, read_call, other, lacks, 0)

    def test_enriched(self) -> None:
        """What auditd adds for readers isn't read."""
        self.assertEqual(event().ids, events(record() + '\x1dUID="0" uid=9')[0].ids)

    def test_attribute(self) -> None:
        """A file's capabilities are the bytes of its attribute."""
        found = read_path(
            'item=0 name="/x" inode=1 mode=0100755 ouid=0 ogid=0 rdev=00:00 nametype=NORMAL '
            "cap_fp=2000 cap_fi=0 cap_fe=1 cap_fver=2 cap_frootid=0"
        )
        assert found is not None
        self.assertEqual(found.attribute, "0100000200200000000000000000000000000000")
        self.assertIsNone(read_path('item=0 name="/x" nametype=UNKNOWN'))

    def test_numbers(self) -> None:
        """Calls of 32 bits have ids of 16 bits in one form, and of 32 in the other."""
        i386 = numbers_of("40000003")
        self.assertEqual([(i386[at].name, i386[at].short) for at in (23, 213)],
                         [("setuid", True), ("setuid", False)])  # fmt: skip
        self.assertEqual(numbers_of("deadbeef"), {})


class Order(unittest.TestCase):
    """Events in the order in which they happened."""

    def test_serials(self) -> None:
        """By their numbers, also where records are mixed; they begin again at a boot."""
        mixed = events(record(serial=2), record(serial=1), record(serial=3))
        self.assertEqual([one.serial for one in mixed], [1, 2, 3])
        boot = events(record(serial=8), record(serial=9), record(serial=1, time="99.000"))
        self.assertEqual([(one.serial, one.anew) for one in boot],
                         [(8, False), (9, False), (1, True)])  # fmt: skip

    def test_hosts(self) -> None:
        """Of a log of several hosts one is compared, and the others are counted."""
        gatherer = Gatherer()
        lines = [f"node={name} {record(serial=at)}" for at, name in enumerate("aab")]
        self.assertEqual(len(list(gatherer.events(lines))), 2)
        self.assertEqual(gatherer.others, {"b": 1})

    def test_window(self) -> None:
        """What is dropped isn't found any more, and what comes is."""
        lines = [record(number=57, pid=50, result=60, serial=1), record(pid=60, serial=2),
                 record(pid=50, serial=3)]  # fmt: skip
        reader = Reader(iter(events(*lines)))
        window = reader.window(2)
        assert window is not None
        self.assertEqual((len(window), window.last), (2, False))
        self.assertTrue(window.next_of(60, 0) and not window.next_of(60, 2))
        self.assertEqual([one.serial for one in window.makers(60, -1)], [1])
        window.drop(1)
        self.assertEqual(window.makers(60, -1), [])
        again = reader.window(9)
        assert again is window
        self.assertEqual(([one.serial for one in window.first(9)], window.last), ([2, 3], True))
        window.drop(2)
        self.assertIsNone(reader.window(9))

    def test_times(self) -> None:
        """Times as ausearch(8) takes them."""
        now = datetime.datetime(2026, 12, 2, 3, 0, 0)
        self.assertEqual(time_of("recent", now), now.timestamp() - 600)
        self.assertEqual(time_of("1:30", now), now.timestamp() - 5400)
        self.assertEqual(time_of("17.5", now), 17.5)
        self.assertRaises(Fault, time_of, "soon", now)


class Signs(unittest.TestCase):
    """Signs of user namespaces, and which thread made a call."""

    def process(self, *uids: int) -> Process:
        """A process with a thread for each user."""
        found = Process(50, 1, "/usr/bin/x")
        found.threads = [
            Task(f"t{at}", found, (uid, uid, uid, uid, 7, 7, 7, 7)) for at, uid in enumerate(uids)
        ]
        return found

    def test_led(self) -> None:
        """A call that left another id than it named; root outside is no sign, nor are changes of
        other ids."""
        inside = event(number=105, a0="1", uid=100001)
        self.assertTrue(is_led(inside, self.process(100000)))
        self.assertFalse(is_initial(inside))
        self.assertFalse(is_led(event(number=105, a0="1", uid=0), self.process(100000)))
        self.assertFalse(is_led(inside, self.process(100000, 100000)))
        plain = event(number=105, a0="5", uid=5)
        self.assertTrue(is_initial(plain) and not is_led(plain, self.process(0)))
        other = self.process(100000)
        other.threads[0].ids = (100000, 100000, 100000, 100000, 8, 8, 8, 8)
        self.assertFalse(is_led(inside, other))

    def test_kept_sets(self) -> None:
        """An execve that left capabilities to a user, of a file without any; but not to root, nor
        where an ambient set or the file gives them."""
        gains = (
            "type=BPRM_FCAPS msg=audit(9.000:1): fver=0 fp=0 fi=0 fe=0 old_pp=5 old_pi=0 old_pe=5 "
            "old_pa=0 pp=5 pi=0 pe=5 pa={} frootid=0"
        )
        path = (
            'type=PATH msg=audit(9.000:1): item=0 name="/x" mode=0100755 ouid=0 ogid=0 '
            "nametype=NORMAL cap_fp={} cap_fi=0 cap_fe=0 cap_fver={} cap_frootid=0"
        )

        def sign(uid: int, ambient: int, version: int) -> bool:
            lines = (record(number=59, uid=uid), gains.format(ambient), path.format(5, version))
            return is_inside(events(*lines)[0], self.process(uid))

        self.assertEqual([sign(5, 0, 0), sign(0, 0, 0), sign(5, 5, 0), sign(5, 0, 2)],
                         [True, False, False, False])  # fmt: skip

    def test_threads(self) -> None:
        """The thread whose ids the call leads to those of the record, and that hasn't made it."""
        process = self.process(0, 0, 5)
        call = event(number=105, a0="5", uid=5)
        self.assertEqual(thread_of(call, process).name, "t0")
        process.threads[0].made = call.name, *call.args[:3]
        self.assertEqual(thread_of(call, process).name, "t1")

    def test_spaces(self) -> None:
        """Ids by a map, and learned ones."""
        mapped = Ids([(0, 1000, 1), (1, 100000, 65536)])
        self.assertEqual([mapped.outside(at) for at in (0, 1, 65536, 65537)],
                         [1000, 100000, 165535, None])  # fmt: skip
        self.assertTrue(mapped.has(1000) and not mapped.has(0))
        guess = Space(creator=1000)
        self.assertEqual((guess.root(), guess.learn(3, 4000, False), guess.learn(3, 9, False)),
                         (1000, 4000, 4000))  # fmt: skip
        self.assertEqual(Space(users=Ids([]), groups=Ids([])).root(), GREATEST)


class Differences(unittest.TestCase):
    """Tests of a difference, and the lines that lead to one."""

    def test_less(self) -> None:
        """Less in each set; one bit more isn't."""
        self.assertTrue(is_less("ok 1 0 1 * 0", "ok 3 0 3 ff 0"))
        self.assertFalse(is_less("ok 4 0 1 * 0", "ok 3 0 3 ff 0"))

    def test_set_ids(self) -> None:
        """All eight ids of the same file without set-id bits."""
        path = ('type=PATH msg=audit(9.000:1): item=0 name="/x" mode=0104755 ouid=0 ogid=0 '
                "nametype=NORMAL")  # fmt: skip
        done = events(record(number=59), path)[0]
        rules = "ok 5 0 0 0 7 7 7 7"
        self.assertTrue(without_set_ids(done, "ok 5 5 5 5 7 7 7 7", rules))
        for place in range(2, 9):
            words = "ok 5 5 5 5 7 7 7 7".split()
            words[place] = "9"
            self.assertFalse(without_set_ids(done, " ".join(words), rules), str(place))

    def test_ending(self) -> None:
        """The lines of other tasks go, and questions; where a record's lines begin is kept."""
        files = ["file f0 reg 0 0 0755", "file f1 reg 0 0 0755"]
        head = [*files, "init t1 p1 0 0 n0", "init t9 p9 0 0 n0"]
        body = ["t9 exec f1", "t1 fork t2 p2", "t1 exec f1", "t2 ids", "t2 exec f0", "t2 ids"]
        found = ending(Ending(head, body, 4))
        self.assertEqual(found.head, [files[0], head[2]])
        self.assertEqual((found.body, found.begin), (["t1 fork t2 p2", "t2 exec f0", "t2 ids"], 1))


class Fleets(unittest.TestCase):
    """Hosts, and what they are all in all."""

    def test_host(self) -> None:
        """A folder's logs, and what /proc said there; no other file."""
        with tempfile.TemporaryDirectory() as name:
            place = Path(name)
            for one in ("audit.log", "audit.log.1", "notes"):
                (place / one).write_text("")
            self.assertEqual(host_of(name, ["--strict"]).words,
                             ("--strict", f"{name}/audit.log", f"{name}/audit.log.1"))  # fmt: skip
            (place / "start").mkdir()
            self.assertEqual(host_of(name, []).words[:2], ("--start", f"{name}/start"))

    def test_statuses(self) -> None:
        """What is unexplained counts first; where none was compared it is another status."""
        def status(*statuses: int) -> int:
            total = Total()
            for one in statuses:
                total.add(host_of("x", []), failed("y") | {"status": one})
            return total.status()

        self.assertEqual([status(0, 0), status(0, 2, 1), status(2, 2), status(0, 2), status(0, 3)],
                         [0, 1, 2, 3, 3])  # fmt: skip

    def test_reasons(self) -> None:
        """Why a host failed is one line."""
        self.assertEqual(reason(ValueError("a\nb")), "ValueError: a")
        self.assertEqual(reason(MemoryError()), "MemoryError")


def check() -> str:
    """Runs them all."""
    told = io.StringIO()
    found = unittest.defaultTestLoader.loadTestsFromModule(__import__(__name__, fromlist=["x"]))
    result = unittest.TextTestRunner(told).run(found)
    assert result.wasSuccessful(), told.getvalue()
    return f"{result.testsRun} tests of the parts"
