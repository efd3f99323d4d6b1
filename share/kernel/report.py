"""A report of what was answered, as docs/FORMATS.md has it: the entries of each line."""

from __future__ import annotations

from .numbers import Numbers
from .rules import gains
from .script import CHANGES, ID_CALLS, QUERIES, Line, Script, capability

Words = tuple[str, ...]


def spelt(words: Words) -> str:
    """A call, a change or a question as an event has it."""
    if words[0] == "capset":
        return "capset " + " ".join(f"{int(word, 16):x}" for word in words[1:])
    if words[0] in ("capdrop", "ambraise", "amblower", "capable", "bset", "ambis"):
        return f"{words[0]} {capability(words[1])}"
    return " ".join(words)


class Report:
    """Writes the entries of one script, line by line."""

    def __init__(self, script: Script) -> None:
        self.script = script
        self.numbers = Numbers()
        self.process: dict[str, str] = {}
        self.space: dict[str, int] = {}
        self.entries: list[str] = []
        self.number = 0

    def entry(self, event: str, answer: str) -> None:
        """Adds an entry."""
        self.entries.append(f"{self.number} {event} -> {answer}")

    def born(self, task: str, process: str, space: int) -> None:
        """A task lives."""
        self.process[task] = process
        self.space[task] = space

    def ends(self, task: str) -> None:
        """A task is gone."""
        self.numbers.drop(task)
        self.process.pop(task, None)

    def init(self, words: Words, answer: str) -> None:
        """A first task."""
        event, task = " ".join(words), words[1]
        if answer == "ok":
            self.born(task, words[2], int(words[5][1:]))
            answer = "ok " + self.numbers.becomes(task, self.numbers.keep())
        elif answer in ("exists", "too many"):
            answer = f"exists {task}" if answer == "exists" else "too many tasks"
        self.entry(event, answer)

    def begin(self, task: str, words: Words, answers: list[str]) -> None:
        """An id call: its own step, and those of the other threads."""
        event, first = f"begin {task} {spelt(words)}", answers[0]
        if not first.startswith("ok"):
            self.entry(event, f"no task {task}" if first == "no task" else first)
            return
        sealed = self.numbers.becomes(task, self.numbers.keep())
        self.entry(event, f"ok {sealed} left {first.split()[1]}")
        for answer in answers[1:]:
            self.act(self.number, answer)

    def act(self, line: int, answer: str) -> None:
        """A step of a thread that follows."""
        event = f"act {line}"
        if answer == "no broadcast":
            self.entry(event, f"{answer} {line}")
            return
        number, word, *left = answer.split()
        task = f"t{number}"
        if word == "ok":
            sealed = self.numbers.becomes(task, self.numbers.keep())
            self.entry(event, f"ok {task} {sealed} left {left[0]}")
            return
        self.entry(event, f"aborted {task} {' '.join((word, *left))}")
        process = self.process[task]
        for other in [it for it, its in self.process.items() if its == process]:
            self.ends(other)

    def begins(self, task: str, answer: str) -> bool:
        """Takes hold of what the task acts with, as most lines do; false where it isn't there."""
        self.held = f"h{100_000 + 10 * self.number}"
        if answer == "no task" or task not in self.numbers.current:
            self.entry(f"take {self.held} {task}", f"no task {task}")
            return False
        self.entry(f"take {self.held} {task}", f"ok {self.numbers.of(task)}")
        return True

    def prepares(self, task: str, answer: str) -> bool:
        """Prepares a change; false where the task is busy."""
        self.prepared = f"h{100_001 + 10 * self.number}"
        event = f"prepare {self.prepared} {task} {self.held}"
        if answer.startswith("busy "):
            self.entry(event, answer)
            return False
        self.slot = self.numbers.keep()
        self.entry(event, f"ok s{self.slot}")
        return True

    def changes(self, task: str, words: Words, answer: str) -> None:
        """A change of the task's own credential."""
        if not self.begins(task, answer):
            return
        if self.prepares(task, answer):
            self.makes(task, words, answer)
        self.entry(f"drop {self.held}", "ok")

    def makes(self, task: str, words: Words, answer: str) -> None:
        """The change, and its commit."""
        event = f"change {self.prepared} {spelt(words)}"
        if not answer.startswith("ok"):
            self.entry(event, answer)
            self.entry(f"abort {self.prepared}", "ok")
            self.numbers.abort(self.slot)
            return
        sealed = f"ok {self.numbers.becomes(task, self.slot)}"
        if words[0] == "exec":
            sealed += self.executed(task, words[1], answer)
            answer = "ok"
        self.entry(event, answer)
        self.entry(f"commit {self.prepared}", sealed)

    def executed(self, task: str, name: str, answer: str) -> str:
        """How the commit of an execve ends: who ended, and what was gained."""
        ended, *told = answer.split()[1:]
        process = self.process[task]
        for other in [it for it, its in self.process.items() if its == process and it != task]:
            self.ends(other)
        if len(told) != 7:
            return f" ended {ended} {' '.join(told)}"
        space = self.space[task]
        gained = gains(self.script, space, self.script.files[name], told)
        return f" ended {ended} gain " + " ".join(f"{it:x}" for it in gained)

    def asks(self, task: str, words: Words, answer: str) -> None:
        """A question about the credential of a task."""
        if self.begins(task, answer):
            self.entry(f"ask {self.held} {spelt(words)}", answer)
            self.entry(f"drop {self.held}", "ok")

    def access(self, task: str, words: Words, answer: str) -> None:
        """access(2): the task acts with another credential meanwhile."""
        if not self.begins(task, answer):
            return
        if self.prepares(task, answer):
            asked = f"h{100_002 + 10 * self.number}"
            lent = self.numbers.seal(self.slot)
            self.entry(f"change {self.prepared} access", "ok")
            sealed = f"ok c{lent} s{self.slot}"
            self.entry(f"override {task} {self.prepared}", sealed)
            self.entry(f"take {asked} {task}", sealed)
            self.entry(f"ask {asked} check {words[1]} {words[2]}", answer)
            self.entry(f"drop {asked}", "ok")
            self.entry(f"revert {task}", "ok")
        self.entry(f"drop {self.held}", "ok")

    def opens(self, task: str, words: Words, answer: str) -> None:
        """open(2)."""
        if self.begins(task, answer):
            answer = f"exists {words[3]}" if answer == "exists" else answer
            self.entry(f"open {self.held} {' '.join(words[1:])}", answer)
            self.entry(f"drop {self.held}", "ok")

    def signals(self, task: str, other: str, answer: str) -> None:
        """A signal to another task."""
        if not self.begins(task, answer):
            return
        held = f"h{100_001 + 10 * self.number}"
        if answer == "no other" or other not in self.numbers.current:
            self.entry(f"takereal {held} {other}", f"no task {other}")
        else:
            self.entry(f"takereal {held} {other}", f"ok {self.numbers.of(other)}")
            self.entry(f"signal {task} {self.held} {other} {held}", answer)
            self.entry(f"drop {held}", "ok")
        self.entry(f"drop {self.held}", "ok")

    def starts(self, task: str, words: Words, answer: str) -> None:
        """A new thread, or a child."""
        form, child = words[:2]
        process = words[2] if form == "fork" else self.process.get(task, "")
        if answer == "ok":
            self.born(child, process, self.space[task])
            self.numbers.refer(child, self.numbers.current[task])
            answer = f"ok {self.numbers.of(child)}"
        event = f"{form} {task} {child}" + (f" {process}" if form == "fork" else "")
        refusals = {
            "exists": f"exists {child}", "exists process": f"exists {process}",
            "no task": f"no task {task}", "too many": "too many tasks",
        }  # fmt: skip
        self.entry(event, refusals.get(answer, answer))

    def takes(self, words: Words, answer: str) -> None:
        """A label takes hold."""
        label, task = words[1:]
        if answer == "ok":
            self.numbers.refer(label, self.numbers.current[task])
            answer = f"ok {self.numbers.of(label)}"
        refusals = {
            "exists": f"exists {label}", "no task": f"no task {task}",
            "too many": "too many holds",
        }  # fmt: skip
        self.entry(" ".join(words), refusals.get(answer, answer))

    def label(self, words: Words, answer: str) -> None:
        """A question to a label, or its end."""
        if words[0] == "drop":
            self.numbers.drop(words[1])
        event = " ".join((*words[:2], spelt(words[2:]))) if words[0] == "ask" else " ".join(words)
        self.entry(event, f"no hold {words[1]}" if answer == "no task" else answer)

    def of_task(self, task: str, words: Words, answer: str) -> None:
        """A line that begins with a task."""
        form = words[0]
        if form in ID_CALLS:
            self.begin(task, words, answer.split(" / "))
        elif form in CHANGES:
            self.changes(task, words, answer)
        elif form in QUERIES:
            self.asks(task, words, answer)
        elif form == "access":
            self.access(task, words, answer)
        elif form == "open":
            self.opens(task, words, answer)
        elif form == "close":
            self.entry(f"close {words[1]}", answer)
        elif form == "signal":
            self.signals(task, words[1], answer)
        elif form in ("spawn", "fork"):
            self.starts(task, words, answer)
        elif answer == "ok":
            self.ends(task)
            self.entry(f"exit {task}", answer)
        else:
            self.entry(f"exit {task}", f"no task {task}" if answer == "no task" else answer)

    def line(self, line: Line, answer: str) -> None:
        """The entries of a line."""
        self.number, words = line.number, line.words
        if words[0] == "init":
            self.init(words, answer)
        elif words[0] == "begin":
            self.begin(words[1], words[2:], [answer])
        elif words[0] == "act":
            self.act(int(words[1]), answer)
        elif words[0] in ("take", "takereal"):
            self.takes(words, answer)
        elif words[0] in ("ask", "drop"):
            self.label(words, answer)
        else:
            self.of_task(words[0], words[1:], answer)


def report_of(script: Script, answers: dict[int, str]) -> str:
    """The report of these answers, of the lines that have one."""
    report = Report(script)
    for line in script.lines:
        if line.number in answers:
            report.line(line, answers[line.number])
    return "".join(entry + "\n" for entry in report.entries)
