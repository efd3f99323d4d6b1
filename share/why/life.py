"""The life of a capability in a task: when it came into a set or left one, and why."""

from __future__ import annotations

from . import linux
from .records import Decision
from .names import EFFECTIVE, PERMITTED, SETS, cap_name, listed
from .reason import CAPS, Bad, Fault, NotFound, Reason
from .tell import Teller, wrapped


class Life:
    """The entries that give a task its credentials, from the first task that it comes from on."""

    def __init__(self, teller: Teller, task: str, capability: int, line: int | None = None) -> None:
        self.teller, self.task, self.capability = teller, task, capability
        self.journal, self.values = teller.journal, teller.values
        self.steps = self.lineage(line)

    def lineage(self, line: int | None) -> list[Decision]:
        """The births and the decisions that lead to what the task has, in their order."""
        births = [it for it in self.journal.births if it.task == self.task]
        if not births:
            raise Bad(f"no line makes a task {self.task}")
        before = [it for it in births if line is None or it.line <= line]
        if not before:
            raise Bad(f"{self.task} is made in line {births[0].line}, behind line {line}")
        birth: Decision | None = before[-1]
        found: list[Decision] = []
        later = (it.index for it in births if it.index > before[-1].index)
        end = next(later, len(self.journal.entries))
        while birth is not None:
            own = [
                it
                for it in self.journal.decisions + self.journal.lendings
                if it.task == birth.task and birth.index < it.index < end and it.after is not None
            ]
            found += [birth, *own]
            end, creator = birth.index, birth.creator
            born = [it for it in self.journal.births if it.task == creator and it.index < end]
            birth = born[-1] if born else None
        return sorted(found, key=lambda it: it.index)

    def sets(self, credential: int | None) -> list[int]:
        """The sets of a credential that have the capability, by their places."""
        caps = self.values.caps(credential)
        return [place for place in range(5) if caps[place] >> self.capability & 1]

    def told(self) -> list[str]:
        """The life, line by line, and where the capability is at its end."""
        for it in self.steps:
            self.values.want(it.after, CAPS)
        explained = self.teller.explainer.explained(self.steps)
        found = [f"{cap_name(self.capability)} in {self.task}:"]
        gone: dict[int, int] = {}
        now: list[int] = []
        for it, reasons in zip(self.steps, explained, strict=True):
            lent = it.words[0] in ("override", "revert")
            sets = self.sets(it.after)
            if lent:
                found += self.lent(it, sets)
                continue
            if it.before is None and (it.creator is None or it.task == self.task):
                found += self.step(it, f"in {self.names(sets)}", reasons)
            elif sets != now and it.before is not None:
                for place in set(now) - set(sets):
                    gone[place] = it.line
                found += self.step(it, self.difference(now, sets), self.about(reasons, now, sets))
            elif it.change and it.change[0] == "exec":
                if PERMITTED not in sets or self.on_linux(reasons):
                    found += self.step(it, f"still in {self.names(sets)}", reasons)
            now = sets
        return found + wrapped(self.end(now, gone) + self.otherwise(explained), 0)

    def on_linux(self, reasons: list[Reason] | Fault | NotFound) -> bool:
        """Whether Linux leaves it in other sets than the rules do."""
        return isinstance(reasons, list) and any(it.source == linux.SOURCE for it in reasons)

    def otherwise(self, explained: list[list[Reason] | Fault | NotFound]) -> str:
        """What is added to the end where Linux does otherwise."""
        lines = [it.line for it, reasons in zip(self.steps, explained, strict=True)
                 if self.on_linux(reasons)]  # fmt: skip
        if not lines:
            return ""
        places = listed([self.teller.place(line) for line in dict.fromkeys(lines)])
        return f" That is by the rules: by docs/LINUX.md, not by proof, Linux differs at {places}."

    def names(self, sets: list[int]) -> str:
        """Sets by their names."""
        return listed([SETS[place] for place in sets]) or "no set"

    def difference(self, old: list[int], new: list[int]) -> str:
        """Which sets it came into, and which it left."""
        came, left = [it for it in new if it not in old], [it for it in old if it not in new]
        parts = [f"{how} {self.names(sets)}" for how, sets in (("came into", came), ("left", left))
                 if sets]  # fmt: skip
        return ", ".join(parts)

    def about(
        self, reasons: list[Reason] | Fault | NotFound, old: list[int], new: list[int]
    ) -> list[Reason] | Fault | NotFound:
        """The sentences on sets that it came into or left."""
        if not isinstance(reasons, list):
            return reasons
        other = set(old) ^ set(new)
        return [it for it in reasons if not it.sets or other & set(it.sets)]

    def step(
        self, decision: Decision, what: str, reasons: list[Reason] | Fault | NotFound
    ) -> list[str]:
        """A line of its life."""
        found = [self.teller.heading(decision.line)]
        who = "" if decision.task == self.task else f"{decision.task}, from which {self.task} is: "
        found += wrapped(who + what)
        return found + self.teller.of(reasons)

    def lent(self, decision: Decision, sets: list[int]) -> list[str]:
        """An override, or its end: the task acts with another credential."""
        if decision.task != self.task:
            return []
        text = f"{self.task} acts with c{decision.after} from here on: there it is in "
        return [self.teller.heading(decision.line), *wrapped(text + self.names(sets))]

    def end(self, now: list[int], gone: dict[int, int]) -> str:
        """Where it is in the end, or the line at which it vanished."""
        name = cap_name(self.capability)
        rest = f"is left in {self.names(now)}" if now else "is left in no set"
        if EFFECTIVE in now:
            return f"{name} is effective in the end."
        if PERMITTED in now:
            since = f" since {self.teller.place(gone[EFFECTIVE])}" if EFFECTIVE in gone else ""
            return f"{name} is permitted in the end, and not effective{since}."
        if PERMITTED in gone:
            return f"{name} vanished at {self.teller.place(gone[PERMITTED])}: it {rest}."
        return f"{name} never was permitted: it {rest}."
