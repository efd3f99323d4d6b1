"""Scripts with their reports, for cases that a generator makes.

Who makes a case says what each line does, as the manual page has it. How its entries are written,
which number a new credential has and in which slot it stands, is worked out here, from
docs/FORMATS.md ("The report") and docs/RULES.md ("Holding credentials").
"""
import heapq
import sys
from collections import Counter

import suite

sys.path.insert(0, str(suite.TOP.parent / "share"))
import limits  # noqa: E402

# The most lines of a script, and the slots of the table.
LINES, SLOTS = limits.LINES, limits.SLOTS


class Slots:
    """Which credential stands in which slot, as far as something refers to it.

    What is given up keeps its slot until the sweep, which is made where no slot is free.
    """

    def __init__(self) -> None:
        self.sealed = 0
        self.place: dict[int, int] = {}
        self.uses: Counter[int] = Counter()
        self.free = list(range(SLOTS))

    def keep(self) -> int:
        """The least free slot."""
        if not self.free:
            self.sweep()
        return heapq.heappop(self.free)

    def abort(self, slot: int) -> None:
        """The slot that was kept is free again."""
        heapq.heappush(self.free, slot)

    def seal(self, slot: int) -> int:
        """The number of the new credential in this slot."""
        number = self.sealed
        self.sealed += 1
        self.place[number] = slot
        self.uses[number] = 1
        return number

    def sweep(self) -> None:
        """Frees each slot to whose credential nothing refers."""
        self.uses = +self.uses
        self.place = {it: self.place[it] for it in self.uses}
        taken = set(self.place.values())
        self.free = [it for it in range(SLOTS) if it not in taken]


class Script:
    """A script, and the entries that its lines make."""

    def __init__(self) -> None:
        self.lines: list[str] = []
        self.entries: list[str] = []
        self.slots = Slots()
        # The current credential of each live task, its process, and what it acts with in its place.
        self.current: dict[int, int] = {}
        self.process: dict[int, int] = {}
        self.lent: dict[int, int] = {}
        # What each label holds.
        self.held: dict[int, int] = {}

    def line(self, text: str) -> None:
        """Adds a line."""
        self.lines.append(text)

    def entry(self, event: str, answer: str) -> None:
        """Adds an entry of the last line."""
        self.entries.append(f"{len(self.lines)} {event} -> {answer}")

    def named(self, number: int) -> str:
        """A credential and its slot, as an answer names them."""
        return f"ok c{number} s{self.slots.place[number]}"

    def acts_with(self, task: int) -> int:
        """The task's subjective credential."""
        return self.lent.get(task, self.current[task])

    def labels(self) -> tuple[str, str, str]:
        """The labels of the last line."""
        base = 100_000 + 10 * len(self.lines)
        return f"h{base}", f"h{base + 1}", f"h{base + 2}"

    def declares(self, *texts: str) -> None:
        """Lines that make no entry."""
        self.lines += texts

    def init(self, task: int, process: int, user: int, group: int, namespace: int = 0) -> None:
        """A first task."""
        words = f"init t{task} p{process} {user} {group} n{namespace}"
        self.line(words)
        self.current[task] = self.slots.seal(self.slots.keep())
        self.process[task] = process
        self.entry(words, self.named(self.current[task]))

    def starts(self, word: str, task: int, child: int, process: int) -> None:
        """The child shares the credential of the task."""
        self.current[child] = self.current[task]
        self.process[child] = process
        self.slots.uses[self.current[task]] += 1
        self.entry(word, self.named(self.current[task]))

    def fork(self, task: int, child: int, process: int) -> None:
        """A new process."""
        self.line(f"t{task} fork t{child} p{process}")
        self.starts(f"fork t{task} t{child} p{process}", task, child, process)

    def spawn(self, task: int, child: int) -> None:
        """A new thread."""
        self.line(f"t{task} spawn t{child}")
        self.starts(f"spawn t{task} t{child}", task, child, self.process[task])

    def exit(self, task: int) -> None:
        """The task ends."""
        self.line(f"t{task} exit")
        self.entry(f"exit t{task}", "ok")
        self.slots.uses[self.current.pop(task)] -= 1
        del self.process[task]

    def sweep(self) -> None:
        """Every reference that was given up is dropped."""
        self.line("sweep")
        self.entry("sweep", "ok")
        self.slots.sweep()

    def becomes(self, task: int, slot: int) -> str:
        """The task has a new credential in this slot."""
        self.slots.uses[self.current[task]] -= 1
        self.current[task] = self.slots.seal(slot)
        return self.named(self.current[task])

    def ids(self, task: int, call: str, refusal: str | None = None) -> None:
        """A call that sets ids. Where it isn't refused, each other thread of the process makes it
        too.
        """
        self.line(f"t{task} {call}")
        if refusal:
            self.entry(f"begin t{task} {call}", refusal)
            return
        others = sorted(
            it for it, process in self.process.items()
            if process == self.process[task] and it != task
        )
        sealed = self.becomes(task, self.slots.keep())
        self.entry(f"begin t{task} {call}", f"{sealed} left {len(others)}")
        for left, other in enumerate(others, 1):
            sealed = self.becomes(other, self.slots.keep())
            told = f"ok t{other} {sealed.removeprefix('ok ')} left {len(others) - left}"
            self.entry(f"act {len(self.lines)}", told)

    def raw(self, task: int, call: str, refusal: str | None = None) -> None:
        """A call that sets the ids of one thread alone."""
        self.line(f"t{task} raw {call}")
        self.entry(f"raw t{task} {call}", refusal or self.becomes(task, self.slots.keep()))

    def changes(
        self,
        task: int,
        change: str,
        refusal: str | None = None,
        answer: str = "ok",
        then: str = "",
        by: str | None = None,
    ) -> None:
        """A change of the task's credential, answered so; `then` ends the answer of its commit. The
        call is written `by` other words where it has some.
        """
        self.line(f"t{task} {by or change}")
        held, prepared, _ = self.labels()
        slot = self.slots.keep()
        self.entry(f"take {held} t{task}", self.named(self.current[task]))
        self.entry(f"prepare {prepared} t{task} {held}", f"ok s{slot}")
        self.entry(f"change {prepared} {change}", refusal or answer)
        if refusal:
            self.slots.abort(slot)
            self.entry(f"abort {prepared}", "ok")
        else:
            self.entry(f"commit {prepared}", self.becomes(task, slot) + then)
        self.entry(f"drop {held}", "ok")

    def asks(self, task: int, query: str, answer: str) -> None:
        """A question about what the task acts with."""
        self.line(f"t{task} {query}")
        held, *_ = self.labels()
        self.entry(f"take {held} t{task}", self.named(self.acts_with(task)))
        self.entry(f"ask {held} {query}", answer)
        self.entry(f"drop {held}", "ok")

    def access(self, task: int, file: str, want: str, answer: str) -> None:
        """access(2): the task acts for a while with the credential that the call decides by."""
        self.line(f"t{task} access {file} {want}")
        held, prepared, asked = self.labels()
        slot = self.slots.keep()
        self.entry(f"take {held} t{task}", self.named(self.acts_with(task)))
        self.entry(f"prepare {prepared} t{task} {held}", f"ok s{slot}")
        self.entry(f"change {prepared} access", "ok")
        lent = self.slots.seal(slot)
        self.entry(f"override t{task} {prepared}", self.named(lent))
        self.entry(f"take {asked} t{task}", self.named(lent))
        self.entry(f"ask {asked} check {file} {want}", answer)
        self.entry(f"drop {asked}", "ok")
        self.entry(f"revert t{task}", "ok")
        self.slots.uses[lent] -= 1
        self.entry(f"drop {held}", "ok")

    def takes(self, label: int, task: int) -> None:
        """The label takes hold of what the task acts with."""
        words = f"take h{label} t{task}"
        self.line(words)
        self.held[label] = self.acts_with(task)
        self.slots.uses[self.held[label]] += 1
        self.entry(words, self.named(self.held[label]))

    def asks_held(self, label: int, query: str, answer: str) -> None:
        """A question about what the label holds."""
        words = f"ask h{label} {query}"
        self.line(words)
        self.entry(words, answer)

    def overrides(self, task: int, label: int) -> None:
        """The task acts with what the label holds."""
        words = f"override t{task} h{label}"
        self.line(words)
        self.lent[task] = self.held[label]
        self.slots.uses[self.lent[task]] += 1
        self.entry(words, self.named(self.held[label]))

    def reverts(self, task: int) -> None:
        """The task acts with its own credential again."""
        self.line(f"revert t{task}")
        self.slots.uses[self.lent.pop(task)] -= 1
        self.entry(f"revert t{task}", "ok")

    def signals(self, task: int, other: int, answer: str) -> None:
        """A signal to the other task."""
        self.line(f"t{task} signal t{other}")
        of_task, of_other, _ = self.labels()
        self.entry(f"take {of_task} t{task}", self.named(self.acts_with(task)))
        self.entry(f"takereal {of_other} t{other}", self.named(self.current[other]))
        self.entry(f"signal t{task} {of_task} t{other} {of_other}", answer)
        self.entry(f"drop {of_other}", "ok")
        self.entry(f"drop {of_task}", "ok")

    def traces(self, task: int, other: int, mode: str, answer: str) -> None:
        """A question whether the task may look into the other."""
        self.line(f"t{task} ptrace {mode} t{other}")
        of_task, of_other, _ = self.labels()
        self.entry(f"take {of_task} t{task}", self.named(self.acts_with(task)))
        self.entry(f"takereal {of_other} t{other}", self.named(self.current[other]))
        self.entry(f"ptrace {mode} t{task} {of_task} t{other} {of_other}", answer)
        self.entry(f"drop {of_other}", "ok")
        self.entry(f"drop {of_task}", "ok")

    def dumpable(self, task: int, value: int, answer: str = "ok") -> None:
        """The task's process is to be dumpable, or not."""
        self.line(f"t{task} dumpable {value}")
        self.entry(f"dumpable t{task} {value}", answer)

    def dumped(self, task: int, flag: int) -> None:
        """Whether the task's process is dumpable."""
        self.line(f"t{task} dumped")
        self.entry(f"dumped t{task}", f"ok {flag}")

    def case(self, name: str, calls: int) -> suite.Case:
        """The case: this script must be reported so."""
        if len(self.lines) > LINES:
            raise ValueError(f"{name}: {len(self.lines)} lines")
        text, report = ("\n".join([*its, ""]) for its in (self.lines, self.entries))
        return suite.script(name, text, report, calls=calls)
