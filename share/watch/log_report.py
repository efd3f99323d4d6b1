"""What is told of a log: its refused calls with their reasons, and where capabilities went.

A refused call is explained by a rule, where the program refuses it too; by a row of docs/LINUX.md
or by the log itself, where only the kernel does; or it is named as not modelled.
"""

from __future__ import annotations

import re
from collections.abc import Iterator
from dataclasses import dataclass, field, replace
from enum import Enum

from strace.compare.command import (
    Comparison, answers, compare, logged, probes_told, report_of,
)  # fmt: skip
from strace.compare import script_files
from strace.compare.not_modelled import kind_of, reason
from strace.compare.refused_lines import ScriptRun, run_script
from strace.log.reader import Call
from strace.script.converter import Converter
from strace.script.refused import Refused, is_refused
from strace.script.script import LINES, Line
from tool.inputs import Fault
from why.logs import LogTeller
from why.reason import Bad, NotFound
from why.tell import wrapped

AT_LINE = re.compile(r"(at|since|behind) line (\d+)\b")
HEADING = re.compile(r"line (\d+): ")
HAS = re.compile(r"(\d+) ask \S+ capable \S+ -> ok ([01])")


class How(Enum):
    """By what a refusal is explained."""

    RULE = "rule"
    KERNEL = "kernel"
    NOT_MODELLED = "not modelled"


@dataclass
class Refusal:
    """A call that the kernel refused, and why."""

    call: Call
    how: How
    reasons: list[str]
    # The line of the script, and its text, where it has one.
    number: int = 0
    text: str = ""
    # The lines of the log where the same task was refused the same again; and those where the other
    # threads of its process were, which libc has make the call too.
    again: list[int] = field(default_factory=list)
    threads: list[int] = field(default_factory=list)

    def told(self) -> list[str]:
        """Its call, and below it the reason."""
        where = f" (line {self.number}: {self.text})" if self.number else ""
        found = [logged(self.call) + where, *self.reasons]
        if self.threads:
            listed = ", ".join(map(str, self.threads))
            where = f"line{'' if len(self.threads) == 1 else 's'} {listed}"
            found += wrapped(f"so were the other threads of its process, in {where}")
        if self.again:
            times = "once more" if len(self.again) == 1 else f"{len(self.again)} times more, last"
            found.append(f"  refused so {times}, in line {self.again[-1]}")
        return found


@dataclass
class Change:
    """A call that changed a capability set, and how."""

    line: Line
    number: int
    told: list[str]


@dataclass
class LogReport:
    """All that is told of a log."""

    converter: Converter
    run: ScriptRun
    comparison: Comparison
    refusals: list[Refusal]
    changes: list[Change]
    probes: list[str]
    teller: LogTeller
    script: list[Line]

    def text(self, every: bool = False, start: str | None = None) -> Iterator[str]:
        """The lines that are shown; `every` refused call by itself."""
        refusals = self.refusals if every else repeated(self.refusals)
        yield f"{counted(len(self.refusals), 'refused call')}{':' if refusals else ''}"
        for refusal in refusals:
            yield from refusal.told()
        yield from self.probes
        changes = counted(len(self.changes), "call")
        yield f"{changes} by which a task lost or gained capabilities{':' if self.changes else ''}"
        for change in self.changes:
            call = change.line.call
            where = f" (line {change.number}: {change.line.text})"
            yield (logged(call) if call else "") + where
            yield from change.told
        shown = {it.number for it in self.refusals} | {it.number for it in self.changes}
        yield from self.by_scripts(shown)
        yield from self.ends(start)

    def by_scripts(self, shown: set[int]) -> Iterator[str]:
        """The script files that were executed, and have bits or an attribute that don't count."""
        for number, line in enumerate(self.script, 1):
            if line.call and number not in shown and script_files.has_lost(line):
                yield f"{logged(line.call)} (line {number}: {line.text})"
                yield from of_script_files(line)

    def ends(self, start: str | None) -> Iterator[str]:
        """What the script lacks, what differs otherwise, and the comparison's one line."""
        yield from self.converter.what_is_left()
        forgotten = self.comparison.forgotten(start)
        shown = {it.number for it in self.refusals}
        if forgotten:
            yield forgotten
        else:
            for number, told in zip(self.comparison.rows, self.comparison.told, strict=True):
                if number not in shown:
                    yield told
        yield self.comparison.sum()

    def life(self, capability: int, start: str | None) -> Iterator[str]:
        """The life of a capability in each task, by the lines of the log."""
        for told in self.teller.lives(capability):
            for text in told:
                yield self.of_log(text)
                if heading := HEADING.match(text):
                    yield from of_script_files(self.script[int(heading[1]) - 1])
        yield from self.ends(start)

    def of_log(self, text: str) -> str:
        """A line that is told of the script, as one of the log."""
        heading = HEADING.match(text)
        if heading:
            line = self.script[int(heading[1]) - 1]
            before = logged(line.call) if line.call else "before the log"
            return f"{before} (line {heading[1]}: {text[heading.end():]})"
        return AT_LINE.sub(self.at, text)

    def at(self, found: re.Match[str]) -> str:
        """A place in the script, as one in the log."""
        line = self.script[int(found[2]) - 1]
        if line.call is None:
            return f"{found[1]} line {found[2]} of the script, before the log"
        return f"{found[1]} line {line.call.first}"


def of_script_files(line: Line) -> list[str]:
    """What is told of the script files by which a line executes a program."""
    return [text for sentence in script_files.told(line) for text in wrapped(sentence)]


def counted(count: int, what: str) -> str:
    """So many of a thing."""
    return f"{count or 'no'} {what}{'' if count == 1 else 's'}"


def repeated(refusals: list[Refusal]) -> list[Refusal]:
    """The refusals, each shown once for a task and a call."""
    first: dict[tuple[object, ...], Refusal] = {}
    for one in refusals:
        task = one.text.split()[0] if one.text else str(one.call.pid)
        what = one.text.split()[1:] if one.text else [one.call.name, *one.call.args]
        key = (task, one.call.name, one.call.result, *what, *one.reasons)
        if key in first:
            first[key].again.append(one.call.first)
        else:
            first[key] = replace(one, again=[])
    return list(first.values())


def log_report(converter: Converter) -> LogReport:
    """Runs the script of a log, compares it with the log, and explains."""
    try:
        return explained(converter)
    except (Bad, NotFound) as fault:
        raise Fault(str(fault)) from None


def explained(converter: Converter) -> LogReport:
    """The same, as far as it can be found out."""
    script = converter.script.lines()
    run = run_script(script, lambda text: answers(report_of(text)))
    comparison = compare(converter.script, run)
    text = run.text()
    teller = LogTeller(text, report_of(text))
    ours = {number: line for number, line in enumerate(script, 1) if line.call}
    asked = {number for number, line in ours.items() if line.call and is_refused(line.call)}
    told = teller.refused(set(ours))
    refusals = by_rules(ours, asked, dict(told.lines), comparison)
    has = capable(run.lines, len(script) - len(converter.script.body), converter.refused)
    refusals += [
        Refusal(it.call, How.NOT_MODELLED, wrapped(reason(it, has.get(place))))
        for place, it in enumerate(converter.refused)
    ]
    threads: dict[tuple[int, int], list[int]] = {}
    for (_, line), said in sorted(converter.joint.items(), key=lambda pair: pair[0][1]):
        threads.setdefault(said, []).append(line)
    for refusal in refusals:
        refusal.threads = threads.get((refusal.call.pid, refusal.call.first), [])
    refusals.sort(key=lambda it: (it.call.first, it.number))
    changes = [
        Change(ours[number], number, [*text, *of_script_files(ours[number])])
        for number, text in teller.changes(set(ours))
    ]
    probes = probes_told(told.probes)
    return LogReport(converter, run, comparison, refusals, changes, probes, teller, script)


def by_rules(
    ours: dict[int, Line], asked: set[int], told: dict[int, list[str]], comparison: Comparison
) -> list[Refusal]:
    """The refused calls that have lines of the script, once each."""
    found: list[Refusal] = []
    seen: set[int] = set()
    for number in sorted(asked | set(told)):
        line = ours[number]
        if line.call is None or not is_refused(line.call):
            continue
        if number in comparison.rows:
            rows = comparison.rows[number].split("\n")
            how, reasons = How.KERNEL, [f"  {rows[0]}", *rows[1:]]
        elif number in told:
            how, reasons = How.RULE, told[number]
        elif (line.answer or "ok").startswith("ok"):
            # Another line says what was refused of this call.
            continue
        else:
            how, reasons = How.RULE, wrapped("the report refuses it too, and has no more of it")
        if id(line.call) not in seen:
            reasons = [*reasons, *of_script_files(line)]
            found.append(Refusal(line.call, how, reasons, number, line.text))
        seen.add(id(line.call))
    return found


def capable(script: list[Line], head: int, refused: list[Refused]) -> dict[int, bool]:
    """Whether each refused call's capability was effective in its task there, by its place.

    The first `head` lines of the script stand for no call.
    """
    wanted: dict[int, list[tuple[int, str]]] = {}
    for place, it in enumerate(refused):
        kind = kind_of(it.call)
        if kind and kind.capability and it.task and not it.why:
            question = f"{it.task} capable CAP_{kind.capability}"
            wanted.setdefault(head + it.place, []).append((place, question))
    texts: list[str] = []
    of_line: dict[int, int] = {}
    room = LINES - len(script)
    for number in range(len(script) + 1):
        for place, question in wanted.get(number, ())[: max(0, room)]:
            texts.append(question)
            of_line[len(texts)] = place
            room -= 1
        if number < len(script):
            texts.append(script[number].text)
    if not of_line:
        return {}
    report = report_of("".join(text + "\n" for text in texts))
    found = (HAS.match(entry) for entry in report.split("\n"))
    return {of_line[int(it[1])]: it[2] == "1" for it in found if it and int(it[1]) in of_line}
