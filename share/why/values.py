"""The values of credentials, asked of the program.

A sealed credential is never changed, so what is asked of it holds wherever it is asked. What the
script's own questions were told is taken as it is. The rest is asked in copies of the script:
behind the line that sealed a credential the copy asks the task that has it. A copy leaves out what
changes nothing: comments, questions, access(2), signals, looks into other tasks. A line is written
as its events where lanes took turns in it, or where it has to be asked before it ends.
"""

from __future__ import annotations

import re
from bisect import bisect_left
from collections import Counter
from functools import lru_cache

import limits

from .journal import Journal
from .program import report_of
from .reason import BITS, CAPS, GROUPS, IDS, Fault, NotFound
from .script import QUERIES

LINES, BYTES = limits.LINES, limits.BYTES
KINDS = (IDS, CAPS, GROUPS, BITS)
# What leaves everything as it is: a line that begins so, or the word behind its task.
NOTHING = QUERIES | {"fcap", "access", "signal", "ptrace", "dumpable", "dumped", "stat"}
# Events that aren't written as their lines are: the line stands for them.
BY_LINE = (
    "open", "close", "spawn", "fork", "exit", "raw", "chown", "chmod", "setattr", "clearattr",
)  # fmt: skip
CALL_LABEL = re.compile(r"\bh\d{6}\b")


@lru_cache(4096)
def numbers(words: tuple[str, ...], base: int) -> tuple[int, ...]:
    """Words as numbers."""
    return tuple(int(word, base) for word in words)


class Values:
    """What is known of each credential, and what is asked for."""

    def __init__(self, journal: Journal) -> None:
        self.journal = journal
        self.known = journal.known
        self.wanted: dict[int, set[str]] = {}
        # Why a credential could not be asked for.
        self.lost: dict[int, NoRoom | Fault] = {}

    def want(self, credential: int | None, *kinds: str) -> None:
        """Has a credential asked for what isn't known of it."""
        if credential is None:
            return
        for kind in kinds:
            if (credential, kind) not in self.known:
                self.wanted.setdefault(credential, set()).add(kind)

    def words(self, credential: int | None, kind: str) -> tuple[str, ...]:
        """The answer to a question."""
        if credential is None:
            raise Fault(f"the entry names no credential that could be asked for its {kind}")
        found = self.known.get((credential, kind))
        if found is None and credential in self.lost:
            raise self.lost[credential]
        if found is None:
            raise Fault(f"c{credential} was not asked for its {kind}")
        return tuple(found)

    def ids(self, credential: int | None) -> tuple[int, ...]:
        """The eight ids."""
        return numbers(self.words(credential, IDS), 10)

    def caps(self, credential: int | None) -> tuple[int, ...]:
        """The five sets."""
        return numbers(self.words(credential, CAPS), 16)

    def groups(self, credential: int | None) -> tuple[int, ...]:
        """The supplementary groups."""
        return numbers(self.words(credential, GROUPS), 10)

    def bits(self, credential: int | None) -> tuple[int, ...]:
        """The securebits, and no_new_privs."""
        return numbers(self.words(credential, BITS), 10)

    def ask(self) -> None:
        """Asks for all that is wanted."""
        while self.wanted:
            try:
                asked = Copy(self.journal, self.wanted).run(self.known)
            except (NoRoom, Fault) as fault:
                # Behind that place there is no room either, and the course is another one.
                self.lost = dict.fromkeys(self.wanted, fault)
                self.wanted.clear()
                return
            for credential in asked:
                del self.wanted[credential]


class NoRoom(NotFound):
    """A script is as long as one may be, and a question would make it longer."""


class Copy:
    """A copy of the script, with as many of the questions as there is room for."""

    def __init__(self, journal: Journal, wanted: dict[int, set[str]]) -> None:
        self.journal = journal
        self.wanted = wanted
        self.lines = list(journal.script.declarations)
        self.size = sum(map(len, self.lines)) + len(self.lines)
        self.marks: dict[int, tuple[int, str]] = {}
        # Which number each credential that is asked for has here: a line that is left out seals
        # none.
        self.seals = [home.index for home in journal.homes.values()]
        self.left_out = 0
        self.number: dict[int, int] = {}
        self.begun: dict[str, int] = {}
        self.free = journal.script.free_labels()
        self.own = next(self.free)
        self.renamed: dict[str, str] = {}
        self.asked: list[int] = []
        self.closed = False
        self.build()

    def build(self) -> None:
        """Goes through the entries, line by line, up to the last credential that is wanted."""
        homes = self.journal.homes
        places = sorted((homes[number].index, number) for number in self.wanted)
        runs = self.journal.runs
        split = self.taken_in_turns()
        idle = self.refused()
        late: list[int] = []
        place = 0
        for line, first, behind in runs:
            if place == len(places) and not late or self.closed:
                return
            here = []
            while place < len(places) and places[place][0] < behind:
                here.append(places[place][1])
                place += 1
            text = self.journal.script.line(line)
            word = text.split(" ", 1)[0]
            if word == "init":
                # No question stands before a declaration.
                self.add(text)
                late += here
                continue
            for number in late:
                self.question(number)
            late = []
            inside = [it for it in here if (homes[it].until or behind) < behind]
            if line in split or inside:
                self.expand(line, first, behind, here)
            elif line in idle or self.changes_nothing(text):
                self.left_out += bisect_left(self.seals, behind) - bisect_left(self.seals, first)
            else:
                self.keep(line, text)
                for number in here:
                    self.question(number)
        for number in late:
            self.question(number)

    def taken_in_turns(self) -> set[int]:
        """The lines whose entries don't stand one behind another."""
        runs = self.journal.runs
        if len(runs) == len({line for line, _, _ in runs}):
            return set()
        counts = Counter(line for line, _, _ in runs)
        return {line for line, count in counts.items() if count > 1}

    def refused(self) -> set[int]:
        """The lines that a refusal leaves without any effect."""
        return {
            it.line
            for it in self.journal.decisions
            if it.refused and it.told[0] not in ("stale", "table", "aborted")
        }

    @staticmethod
    def changes_nothing(text: str) -> bool:
        """Whether a line leaves all credentials, labels and tasks as they are."""
        words = text.split(" ", 2)
        return words[0] == "ask" or words[0][0] == "t" and words[1] in NOTHING

    def add(self, text: str) -> int:
        """A line more; its number."""
        self.lines.append(text)
        self.size += len(text) + 1
        if len(self.lines) > LINES or self.size > BYTES:
            self.closed = True
        return len(self.lines)

    def keep(self, line: int, text: str) -> None:
        """A line of the script. The number of a call of all threads is that of its line here."""
        if text.startswith("act "):
            begun = self.begun.get(text[4:])
            if begun is None:
                return
            self.add(f"act {begun}")
        else:
            self.begun[str(line)] = self.add(text)

    def expand(self, line: int, first: int, behind: int, here: list[int]) -> None:
        """The events of a line, each as a line, with the questions between."""
        homes = self.journal.homes
        after = {homes[number].index: number for number in here}
        text = self.journal.script.line(line)
        for index in range(first, behind):
            event = self.journal.entries[index].partition(" -> ")[0].split(" ", 1)[1]
            word = event.split(" ", 1)[0]
            if word in BY_LINE:
                self.add(text)
            elif word in ("begin", "act"):
                self.keep(line, event)
            elif word not in ("signal", "ask", "ptrace", "dumpable", "dumped", "stat"):
                self.add(CALL_LABEL.sub(self.label, event))
            if index in after:
                self.question(after[index])

    def label(self, found: re.Match[str]) -> str:
        """The free label that stands for one that a call takes for itself."""
        if found[0] not in self.renamed:
            self.renamed[found[0]] = next(self.free)
        return self.renamed[found[0]]

    def question(self, number: int) -> None:
        """Asks for a credential, where a task acts with it."""
        home = self.journal.homes[number]
        before, size = len(self.lines), self.size
        if self.closed:
            return
        kinds = [kind for kind in KINDS if kind in self.wanted[number]]
        if home.full:
            self.add(f"drop {self.any_hold()}")
        if home.overridden:
            self.add(f"takereal {self.own} {home.task}")
        ask = f"ask {self.own}" if home.overridden else home.task
        places = {self.add(f"{ask} {kind}"): kind for kind in kinds}
        if home.overridden:
            self.add(f"drop {self.own}")
        if self.closed:
            del self.lines[before:]
            self.size = size
            return
        self.marks |= {place: (number, kind) for place, kind in places.items()}
        self.number[number] = number - self.left_out
        self.asked.append(number)
        # What was dropped to have room for a question is missing behind it.
        self.closed = home.full

    def any_hold(self) -> str:
        """A label that holds here."""
        held: dict[str, None] = {}
        for line in self.lines:
            words = line.split(" ")
            if words[0] in ("take", "takereal", "takefile"):
                held[words[1]] = None
            elif words[0] == "drop":
                held.pop(words[1], None)
        return next(reversed(held))

    def run(self, known: dict[tuple[int, str], list[str]]) -> list[int]:
        """Runs the copy, and keeps what it was told; the credentials that it has asked for."""
        if not self.asked:
            where = min(self.journal.homes[number].index for number in self.wanted)
            line = self.journal.entries[where].split(" ", 1)[0]
            raise NoRoom(f"there is no room in the script for a question behind line {line}")
        text = "\n".join(self.lines[: max(self.marks)]) + "\n"
        holds: dict[str, str] = {}
        for entry in report_of(text.encode("latin-1")).split("\n"):
            words = entry.split(" ")
            if words[1:2] == ["ask"] and int(words[0]) in self.marks:
                self.answered(words, holds, known)
            elif words[1:2] in (["take"], ["takereal"]) and words[5:]:
                holds[words[2]] = words[6]
        lost = [number for number, kind in self.marks.values() if (number, kind) not in known]
        if lost:
            raise Fault(f"the question for c{lost[0]} was not answered")
        return self.asked

    def answered(
        self, words: list[str], holds: dict[str, str], known: dict[tuple[int, str], list[str]]
    ) -> None:
        """Keeps the answer to a question, where it is one on the credential that was meant."""
        number, kind = self.marks[int(words[0])]
        arrow = words.index("->")
        if holds.get(words[2]) != f"c{self.number[number]}" or words[arrow + 1] != "ok":
            raise Fault(f"the copy of the script takes another course before c{number}")
        known[number, kind] = words[arrow + 2 :]
