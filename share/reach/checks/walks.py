"""Random walks against the kept states: each state that a walk comes to is covered by one of them.

A walk begins in a fork of the start or of a kept state, and makes calls of every kind with any
arguments, most of them in play. So a call that the search should have tried, and a state that it
should have kept, is found.
"""

from __future__ import annotations

import random
from dataclasses import dataclass, field

from why.names import ALL, LAST

from ..asking import LINES
from ..order import Node
from ..search import Search
from ..state import QUESTIONS, state_at

# So many calls a walk has.
STEPS = 10
# How often each kind of call is drawn.
KINDS = {
    "set": 6, "setre": 6, "setres": 8, "setfs": 4, "setgroups": 4, "capdrop": 3, "capset": 9,
    "ambraise": 4, "amblower": 2, "securebits": 3, "keepcaps": 3, "nonewprivs": 1, "exec": 6,
}  # fmt: skip
OTHER_IDS = (0, 1, 2, 500, 4294967294)
BITS = (0, 1, 4, 5, 16, 20, 64)


@dataclass
class Walked:
    """What walks have come to: steps, different states, and those that no kept one covers."""

    steps: int = 0
    seen: set[Node] = field(default_factory=set)
    outside: list[str] = field(default_factory=list)


@dataclass(frozen=True)
class Mark:
    """A step of a walk: behind which line it is asked about, and the calls so far."""

    line: int
    namespace: int
    calls: tuple[str, ...]


class Walker:
    """Draws calls."""

    def __init__(self, search: Search, chance: random.Random) -> None:
        self.search = search
        self.chance = chance
        states = [node.state for node in search.kept]
        files = search.start.declared.values()
        self.users = sorted(
            {id for state in states for id in (*state.users.three(), state.users.fs)}
            | search.scope.users | {file.owner for file in files}
        )  # fmt: skip
        self.groups = sorted(
            {id for it in states for id in (*it.groups.three(), it.groups.fs, *it.supplementary)}
            | search.scope.groups | {file.group for file in files}
        )  # fmt: skip
        sets = {caps for it in states for caps in (it.perm, it.inh, it.eff, it.bound, it.amb)}
        self.sets = sorted(sets | {0, ALL})
        some = [caps for caps in self.sets if caps != ALL]
        self.caps = [at for at in range(LAST + 1) if any(caps >> at & 1 for caps in some)]
        self.caps = self.caps or [6, 7, 8, 12]

    def id(self, some: list[int], keep: bool = False) -> str:
        """An id: mostly one in play."""
        drawn = self.chance.random()
        if keep and drawn < 0.3:
            return "-1"
        if drawn < 0.85:
            return str(self.chance.choice(some))
        return str(self.chance.choice((*OTHER_IDS, self.chance.getrandbits(31))))

    def caps_of(self) -> str:
        """A set: mostly one in play, or one that is nearly so."""
        caps, drawn = self.chance.choice(self.sets), self.chance.random()
        if drawn < 0.25:
            caps &= self.chance.getrandbits(LAST + 1)
        elif drawn < 0.4:
            caps &= ~(1 << self.chance.choice(self.caps))
        elif drawn < 0.5:
            caps |= 1 << self.chance.choice(self.caps)
        return f"{caps:x}"

    def cap(self) -> int:
        """A capability."""
        if self.chance.random() < 0.7:
            return self.chance.choice(self.caps)
        return self.chance.randrange(LAST + 2)

    def id_call(self, kind: str) -> str:
        """A call that sets ids."""
        of_users = self.chance.random() < 0.75
        some, suffix = (self.users, "uid") if of_users else (self.groups, "gid")
        if kind == "set":
            return f"{self.chance.choice(('set', 'sete'))}{suffix} {self.id(some)}"
        count = {"setre": 2, "setres": 3, "setfs": 1}[kind]
        return " ".join([f"{kind}{suffix}", *(self.id(some, True) for _ in range(count))])

    def change(self, kind: str) -> str:
        """A call that changes sets or flags."""
        chance = self.chance
        if kind == "capset":
            perm, inh, eff = self.caps_of(), self.caps_of(), self.caps_of()
            return f"capset {perm} {inh} {perm if chance.random() < 0.4 else eff}"
        if kind in ("capdrop", "ambraise"):
            return f"{kind} {self.cap()}"
        if kind == "amblower":
            return chance.choice((f"amblower {self.cap()}", "ambclear"))
        if kind == "securebits":
            return f"securebits {chance.choice((*BITS, chance.randrange(256)))}"
        if kind == "keepcaps":
            return f"keepcaps {chance.choice((0, 1, 1, 1))}"
        return "nonewprivs 1"

    def call(self) -> str:
        """A call."""
        kind = self.chance.choices(list(KINDS), list(KINDS.values()))[0]
        if kind in ("set", "setre", "setres", "setfs"):
            return self.id_call(kind)
        if kind == "setgroups":
            some = [self.id(self.groups) for _ in range(self.chance.randrange(4))]
            return " ".join(["setgroups", *some])
        if kind == "exec":
            files = self.search.files
            return f"exec {self.chance.choice(files)}" if files else "keepcaps 1"
        return self.change(kind)

    def script(self) -> tuple[list[str], list[Mark]]:
        """A script of walks, as long as one may be."""
        lines, marks = list(self.search.start.prefix), []
        nodes = list(self.search.kept)
        task = self.search.task
        while len(lines) < LINES - 500:
            node = self.chance.choice(nodes)
            path = self.search.path(node)
            lines.append(f"{path.thread} fork {task} p{task[1:]}")
            lines += [f"{task} {call}" for call in path.calls]
            walked = list(path.calls)
            for _ in range(STEPS):
                walked.append(self.call())
                lines.append(f"{task} {walked[-1]}")
                marks.append(Mark(len(lines) + 1, node.namespace, tuple(walked)))
                lines += [f"{task} {question}" for question in QUESTIONS]
            lines.append(f"{task} exit")
        return lines, marks


def walk(search: Search, seed: str, scripts: int = 1) -> Walked:
    """Walks through so many scripts."""
    walker, found = Walker(search, random.Random(seed)), Walked()
    for _ in range(scripts):
        lines, marks = walker.script()
        answers = search.runner.answers(lines)
        for mark in marks:
            state = state_at(answers, mark.line)
            found.steps += 1
            if state is None:
                continue
            node = Node(state, mark.namespace)
            if node in found.seen:
                continue
            found.seen.add(node)
            if not search.kept.covers(node):
                found.outside.append(f"{state.text()} by {'; '.join(mark.calls)}")
    return found
