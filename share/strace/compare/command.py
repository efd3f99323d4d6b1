"""The command credtrace-compare: the kernel's results beside the answers of a report."""

from __future__ import annotations

import argparse
import re
import subprocess
import sys
from collections import Counter
from dataclasses import dataclass, field

from tool.inputs import Fault
from tool.program import cant_run, program

from ..log.reader import Call
from ..options import add_options, converted, options_of
from ..script.script import Line, Script
from .possible_rows import CHANGED
from .probe import QUESTIONS, Probe
from .refused_lines import ScriptRun, run_script
from .rows import Explainer

AGREES, DIFFERS, NOT_COMPARED, ENDS_BEFORE = 0, 1, 2, 3

# The entries that decide a line; the others take hold of a credential and drop it.
DECIDING = frozenset(
    "begin act raw ask change open signal spawn fork exit dumpable dumped ptrace chown chmod "
    "setattr clearattr stat".split()
)


def report_of(script: str) -> str:
    """The report of a script."""
    try:
        done = subprocess.run(
            [program(), "run"], input=script.encode("ascii"), stdout=subprocess.PIPE, check=False
        )
    except OSError as fault:
        raise Fault(cant_run(fault)) from None
    text = done.stdout.decode("latin-1")
    if done.returncode:
        raise Fault(f"{program()} ended with status {done.returncode}: {text.strip()[:200]}")
    return text


def answers(report: str) -> dict[int, str]:
    """The answer that decides each line: its first refusal, or that of its own event."""
    found: dict[int, str] = {}
    refused: set[int] = set()
    for entry in report.split("\n"):
        match = re.match(r"(\d+) (\w+) .*?-> (.*)$", entry)
        if match is None or int(match[1]) in refused:
            continue
        number, event, answer = int(match[1]), match[2], match[3]
        if answer.split()[0] != "ok":
            refused.add(number)
        elif event not in DECIDING:
            continue
        found[number] = answer
    return found


def fits(pattern: str, word: str) -> bool:
    """Whether a word of a report is what the kernel's result says."""
    if pattern == "*":
        return True
    match = re.fullmatch(r"&(\d+)=(\d+)", pattern)
    if match:
        return word.isdigit() and int(word) & int(match[1]) == int(match[2])
    match = re.fullmatch(r"([0-9a-f]+)&=([0-9a-f]+)", pattern)
    if match:
        return int(word, 16) & int(match[1], 16) == int(match[2], 16)
    return pattern == word


def agrees(kernel: str, report: str) -> bool:
    """Whether the answers are the same. Where the kernel's is one word, it says no more."""
    wanted, words = kernel.split(), report.split()
    if len(wanted) == 1:
        return words[:1] == wanted
    return len(wanted) == len(words) and all(map(fits, wanted, words))


def logged(call: Call) -> str:
    """A call as the log has it."""
    result = f"{call.result.value} {call.result.error or ''}".strip()
    return f"line {call.first}: pid {call.pid} {call.text} = {result}"


@dataclass
class Comparison:
    """How many calls agree, and what is told of the others."""

    agree: int = 0
    explained: int = 0
    unexplained: int = 0
    told: list[str] = field(default_factory=list)
    # Why the kernel answered otherwise, by the number of the script's line.
    rows: dict[int, str] = field(default_factory=dict)
    # Whether the first difference is in what a credential is, which no call changed before.
    begins_otherwise: bool | None = None

    def differs(self, number: int, line: Line, report: str, row: str | None) -> None:
        """A call whose result is another one."""
        call = line.call
        if call is None:
            return
        self.rows[number] = row or "docs/LINUX.md: no row explains it"
        self.told.append(
            f"{logged(call)}: the kernel {line.answer}, "
            f"the report {report} (line {number}: {line.text})\n"
            f"    {self.rows[number]}"
        )
        if row:
            self.explained += 1
        else:
            self.unexplained += 1

    def begins(self, line: Line) -> None:
        """Whether the log begins otherwise than the script, as far as a line tells it."""
        if self.told:
            self.begins_otherwise = line.words[1] in QUESTIONS
        elif may_change(line):
            self.begins_otherwise = False

    def forgotten(self, start: str | None) -> str | None:
        """What is said where the first difference is that the log begins otherwise."""
        if not self.told or "no row explains it" not in self.told[0]:
            return None
        first = f"{self.told[0].split(': ')[0]} is the first of {len(self.told)} calls that differ"
        if start is None:
            return (
                f"{first}. The script begins as root with all capabilities, since no --start was "
                "given, and the log may not: name the text of /proc/PID/status where it begins by "
                "--start"
            )
        if not self.begins_otherwise:
            return None
        return (
            f"{first}, and no call before it changed a credential: the log begins with another one "
            f"than {start} says, as where strace -u runs a program as another user"
        )

    def sum(self) -> str:
        """How many agree."""
        return (
            f"agree: {self.agree} calls, explained by docs/LINUX.md: {self.explained}, "
            f"unexplained: {self.unexplained}"
        )


def differing(lines: list[Line], found: dict[int, str]) -> list[int]:
    """The numbers of the lines whose answers aren't the kernel's."""
    return [
        number
        for number, line in enumerate(lines, 1)
        if line.answer is not None and not agrees(line.answer, found.get(number, "nothing"))
    ]


def compare(script: Script, run: ScriptRun) -> Comparison:
    """Compares each answer with the kernel's."""
    found = run.found
    comparison = Comparison()
    lines = script.lines()
    probe = Probe(run.lines, differing(lines, found), report_of, script.known)
    explainer = Explainer(probe, script.tracer)
    before: Call | None = None
    renamed = script.renames()
    for number, line in enumerate(lines, 1):
        for names in renamed.get(number, ()):
            explainer.goes_on_as(*names)
        if line.call is not None and line.answer is not None:
            report = found.get(number, "nothing")
            if agrees(line.answer, report):
                comparison.agree += line.call is not before
            else:
                reason = explainer.explain(number, line, report)
                comparison.differs(number, line, report, reason)
            before = line.call
        explainer.see(number, line, found.get(number, "ok"))
        if comparison.begins_otherwise is None and line.call is not None:
            comparison.begins(line)
    return comparison


def may_change(line: Line) -> bool:
    """Whether a call may have changed a credential."""
    mode, *others = [*line.facts.words.split()[3:], "0"]
    if line.words[1] == "exec":
        return bool(int(mode, 8) & 0o6000) or "caps" in others
    return line.words[1] in CHANGED and (line.answer or "").startswith("ok")


def refusals(script: Script, run: ScriptRun) -> list[str]:
    """Why each call of the log was refused, with its line."""
    # To say why takes another package, which is read where it is asked for alone.
    from why.logs import refused

    lines = {number: line for number, line in enumerate(script.lines(), 1) if line.call}
    try:
        found = refused(run.text(), report_of(run.text()), set(lines))
    except ValueError as fault:
        raise Fault(str(fault)) from None
    told = []
    for number, sentences in found.lines:
        line = lines[number]
        told.append(f"{logged(line.call) if line.call else ''} (line {number}: {line.text})")
        told += sentences
    return [*told, *probes_told(found.probes)]


def probes_told(probes: Counter[int]) -> list[str]:
    """What is said of questions about capabilities that there aren't, once for all."""
    if not probes:
        return []
    numbers = ", ".join(map(str, sorted(probes)))
    return [
        f"{sum(probes.values())} questions about capabilities that there aren't ({numbers}), by "
        "which libcap finds the last one: EINVAL each time (prctl(2), PR_CAPBSET_READ)"
    ]


def main(words: list[str]) -> int:
    """Converts a log, runs the script, and compares."""
    parser = argparse.ArgumentParser(
        prog="credtrace-compare",
        description="Runs the script of a log of strace -f, and compares it with the kernel.",
    )
    add_options(parser)
    parser.add_argument(
        "--why", action="store_true", help="say of each call that was refused why it was"
    )
    given = parser.parse_args(words)
    try:
        converter = converted(options_of(given))
        run = run_script(converter.script.lines(), lambda text: answers(report_of(text)))
        comparison = compare(converter.script, run)
        refused = refusals(converter.script, run) if given.why else []
    except Fault as fault:
        print(f"credtrace-compare: {fault}", file=sys.stderr)
        return NOT_COMPARED
    forgotten = comparison.forgotten(given.start)
    for told in refused + ([forgotten] if forgotten else comparison.told):
        print(told)
    for note in converter.notes:
        print(note, file=sys.stderr)
    for left in converter.what_is_left():
        print(left)
    print(comparison.sum())
    if comparison.unexplained:
        return DIFFERS
    if converter.is_part():
        return ENDS_BEFORE
    return AGREES if comparison.agree + comparison.explained else NOT_COMPARED
