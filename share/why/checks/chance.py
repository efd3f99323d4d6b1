"""Scripts that are made by chance, also with lanes: none of their sentences is a fault either.

The cases have what a manual page speaks of. Here all forms stand in any order, so that labels,
overrides, calls of all threads and commits meet.
"""

from __future__ import annotations

import random
from collections.abc import Callable

from ..program import report_of, runs
from ..reason import Bad, Fault, NotFound
from ..script import Script
from ..tell import Teller
from . import scripts

SEED, SCRIPTS, LANE_SCRIPTS, LINES = 62, 60, 30, 60
ATTRIBUTES = (
    "0100000200200000000000000000000000000000", "0000000200000000000000000000000000000000", "0100",
    "010000030020000000000000000000000000000064000000", "010000010020000000200000",
    "01000002ffffffffffffffffff010000ff010000",
)  # fmt: skip
MODES = ("0755", "4755", "6755", "2710", "0000", "0640", "4711", "0111")
SETS = ("0", "2000", "80", "1ffffffffff", "100", "21c3", "2", "6")

# One thread of four can't follow: the call has to be asked about before its line ends.
FOUR = "".join(f"init t{task} p1 0 0 n0\n" for task in range(1, 5)) + (
    "t4 capset 0 0 0\nt1 setresuid 5 5 5\n"
)


class Maker:
    """Makes the lines of a script, of some tasks and some labels."""

    def __init__(self, chance: random.Random) -> None:
        self.chance = chance
        self.files: list[str] = []
        self.tasks = ["t1"] * 6 + ["t2", "t3", "t4", "t5", "t6"]
        self.labels = ["h1", "h2", "h3"]

    def of(self, *words: str) -> str:
        """A form with its words: each is made, or stands for itself."""
        makers: dict[str, Callable[[], object]] = {
            "T": lambda: self.chance.choice(self.tasks), "N": lambda: f"t{self.number(1, 5)}",
            "H": lambda: self.chance.choice(self.labels), "F": lambda: f"f{self.number(1, 4)}",
            "P": lambda: f"p{self.number(1, 5)}", "NAME": lambda: self.chance.choice(self.files),
            "ARG": lambda: self.chance.choice(("0", "1", "5", "100", "-1")),
            "ID": lambda: self.chance.choice(("0", "0", "1", "5", "100")),
            "SET": lambda: self.chance.choice(SETS),
            "CAP": lambda: self.chance.choice(("13", "7", "8", "1", "2", "5", "41")),
            "WANT": lambda: self.chance.choice(("r", "w", "x", "rw", "rx", "wx", "rwx")),
            "BITS": lambda: self.chance.choice((0, 1, 4, 16, 48, 64, 85, 170, 256, 32, 5)),
            "BIT": lambda: self.number(0, 2), "CALL": self.call, "CHANGE": self.change,
            "QUERY": self.query, "LINE": lambda: self.number(9, 9 + LINES),
        }  # fmt: skip
        return " ".join(str(makers[word]()) if word in makers else word for word in words)

    def number(self, least: int, most: int) -> int:
        """A number."""
        return self.chance.randint(least, most)

    def one(self, *forms: str) -> str:
        """One of these forms."""
        return self.of(*self.chance.choice(forms).split())

    def call(self) -> str:
        """A call that sets ids."""
        return self.one(
            "setuid ARG", "seteuid ARG", "setgid ARG", "setegid ARG", "setreuid ARG ARG",
            "setregid ARG ARG", "setresuid ARG ARG ARG", "setresgid ARG ARG ARG", "setgroups",
            "setgroups ID ID",
        )  # fmt: skip

    def change(self) -> str:
        """A call that changes more than ids."""
        return self.one(
            "setfsuid ARG", "setfsgid ARG", "capset SET SET SET", "capdrop CAP", "ambraise CAP",
            "amblower CAP", "ambclear", "securebits BITS", "keepcaps BIT", "nonewprivs BIT",
            "exec NAME", "exec NAME", "keepcaps 1",
        )  # fmt: skip

    def query(self) -> str:
        """A question."""
        return self.one(
            "ids", "caps", "groups", "bits", "capable CAP", "bset CAP", "ambis CAP",
            "check NAME WANT",
        )  # fmt: skip

    def line(self) -> str:
        """A line that isn't a declaration."""
        return self.one(
            *["T CALL", "T CHANGE", "T CHANGE"] * 5, *["T QUERY", "T access NAME WANT"] * 2,
            "T signal N", "T spawn T", "T fork T P", "T exit", "T open NAME WANT F", "T close F",
            "T fcap F CAP", "take H N", "takereal H N", "takefile H F", "drop H", "ask H QUERY",
            *["prepare H T H", "change H CHANGE", "change H access", "commit H"] * 2, "abort H",
            "override T H", "revert T", "begin T CALL", "begin T CALL", "act LINE", "act LINE",
            "sweep",
        )  # fmt: skip

    def declarations(self) -> list[str]:
        """Namespaces, files and first tasks."""
        found = ["ns 1 100 0", "ns 2 5 1"]
        self.files = [f"file{number}" for number in range(6)]
        for name in self.files:
            mode = self.chance.choice(MODES)
            line = self.of("file", name, "reg", "ID", "ID", mode)
            if self.chance.random() < 0.5:
                line += f" caps {self.chance.choice(ATTRIBUTES)}"
            found.append(line)
        for task in range(1, 4):
            found.append(self.of("init", f"t{task}", f"p{1 + task // 3}", "ID", "ID", "n0"))
        return found


def script(chance: random.Random, lanes: bool) -> str:
    """A script."""
    maker = Maker(chance)
    lines = maker.declarations()
    for part in range(LINES // 6):
        if lanes:
            lane = chance.randint(1, 3)
            lines.append(f"lane {lane}")
            maker.tasks = [f"t{lane}"] * 5 + [f"t{10 * lane + 1}"]
            maker.labels = [f"h{10 * lane + place}" for place in range(3)]
        lines += [maker.line() for _ in range(6)]
    return "\n".join(lines) + "\n"


def faults() -> list[str]:
    """The sentences that are faults."""
    chance, found, count = random.Random(SEED), [], scripts.Sum()
    for number in range(SCRIPTS + LANE_SCRIPTS):
        text = script(chance, number >= SCRIPTS) if number else FOUR
        name = f"the script by chance {number}"
        try:
            reports = [report_of(text.encode())]
            if number >= SCRIPTS:
                reports.append(runs(["lanes"], text.encode())[1])
            for report in reports:
                scripts.count(name, Teller(Script(text), report), count, False)
        except (Bad, Fault, NotFound) as fault:
            found.append(f"{name}: {fault}")
    return found + count.faults
