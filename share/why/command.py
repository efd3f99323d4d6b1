"""The command credtrace-why: why a line was answered as it was, and where a capability went."""

from __future__ import annotations

import argparse
import sys

from scripts.names import without_names

from .inputs import bytes_of, capability, line_number, shown
from .life import Life
from .names import cap_number
from .program import audited, report_of
from .reason import A_FAULT, Bad, Fault, NotFound
from .script import Script
from .tell import Teller
from .values import BYTES

__all__ = ["capability", "main"]

TOLD, FAULT, BAD, NOT_FOUND = 0, 1, 2, 3
REPORT_BYTES = 402653184
# The options of a log that --log takes too.
OF_LOGS = "credtrace-from-strace"
LOG_OPTIONS = {"start": "FILE", "files": "FILE", "folder": "PATH", "root": "PATH", "proc": "FOLDER"}
# The questions on one capability of a task.
ONE = ("capable", "ambis", "bset")


def parsed(words: list[str]) -> argparse.Namespace:
    """The words of the command line."""
    parser = argparse.ArgumentParser(
        prog="credtrace-why",
        description="Says why a call was answered as it was, and where a capability went. Without "
        "LINE: of each call that was refused, and of each that changed a set.",
    )
    parser.add_argument(
        "script", metavar="SCRIPT", nargs="?", help="the script; - is standard input"
    )
    parser.add_argument("line", metavar="LINE", nargs="?", type=line_number, help="this line alone")
    parser.add_argument("--task", metavar="T", help="this task alone, as t1")
    parser.add_argument(
        "--cap", metavar="NAME", type=capability, help="the life of this capability in the task"
    )
    parser.add_argument(
        "--report", metavar="FILE", help="the report, where it is not that of `run`: of `lanes`"
    )
    parser.add_argument(
        "--log", metavar="LOG", help="in place of a script: a log of strace -f, of which each "
        "refused call is told"
    )
    parser.add_argument("--all", action="store_true", help="of a log: each refused call by itself")
    for name, what in LOG_OPTIONS.items():
        parser.add_argument(f"--{name}", metavar=what, help=f"of a log, as {OF_LOGS} takes it")
    given = parser.parse_args(words)
    of_log = given.all or any(getattr(given, name) for name in LOG_OPTIONS)
    if given.log is None and of_log:
        parser.error("--all and the options of a log are for --log")
    if (given.script is None) == (given.log is None):
        parser.error("a SCRIPT is wanted, or --log LOG")
    if given.log is not None and (given.line or given.task or given.report):
        parser.error("LINE, --task and --report are of a script")
    return given


def told_of_log(given: argparse.Namespace) -> int:
    """Tells of a log, and ends with the status."""
    # What reads logs is another package, which is wanted here alone.
    from strace.options import Options, converted
    from tool.inputs import Fault as Refused
    from watch.log_report import log_report

    given_options = given.files, given.start, None, given.folder, given.root or "/", given.proc
    try:
        report = log_report(converted(Options([given.log], *given_options)))
        lines = report.text(given.all, given.start) if given.cap is None else (
            report.life(given.cap, given.start))  # fmt: skip
        for line in lines:
            print(line)
    except Refused as fault:
        print(f"credtrace-why: {fault}", file=sys.stderr)
        return BAD
    except Fault as fault:
        print(f"credtrace-why: {shown(given.log)}: {A_FAULT}: {fault}", file=sys.stderr)
        return FAULT
    for note in report.converter.notes:
        print(note, file=sys.stderr)
    return FAULT if report.teller.faults else TOLD


def tasks_of(teller: Teller, given: str | None) -> list[str]:
    """The tasks that are asked about."""
    return [given] if given else list(dict.fromkeys(it.task for it in teller.journal.births))


def lacked(lines: Script, teller: Teller, line: int) -> list[str]:
    """Of a question whether a task has a capability, where the answer is no: how that came."""
    words = lines.line(line).split(" ")
    asked = [it for it in teller.journal.decisions if it.line == line and it.words[0] == "ask"]
    if len(words) != 3 or words[1] not in ONE or not asked or asked[0].told != ["ok", "0"]:
        return []
    number = cap_number(words[2])
    life = Teller(lines, "\n".join(teller.journal.entries), None, 1 << number)
    found = Life(life, words[0], number, line).told()
    teller.faults += life.faults
    return found


def told(given: argparse.Namespace) -> tuple[list[str], int]:
    """What is told, and the status."""
    script = bytes_of(given.script, BYTES)
    other = bytes_of(given.report, REPORT_BYTES) if given.report else None
    try:
        report = report_of(script) if other is None else audited(script, other)
    except Bad:
        # Perhaps its sets are names: credtrace-names --to-script writes it so too.
        named, script = script, without_names(script)
        if script == named:
            raise
        report = report_of(script) if other is None else audited(script, other)
    lines = Script(script.decode("latin-1"))
    if given.line is not None:
        lines.line(given.line)
    whole = given.line if given.cap is None else None
    teller = Teller(lines, report, whole, None if given.cap is None else 1 << given.cap)
    if given.task and given.task not in {it.task for it in teller.journal.births}:
        raise Bad(f"no line makes a task {shown(given.task)}")
    found: list[str] = []
    if given.cap is not None:
        for task in tasks_of(teller, given.task):
            found += Life(teller, task, given.cap, given.line).told()
    elif given.line is not None:
        found = teller.whole_line(given.line, given.task) + lacked(lines, teller, given.line)
    else:
        decisions = [it for it in teller.journal.decisions if given.task in (None, it.task)]
        found = teller.told(decisions) or ["no call was refused, and no set has changed"]
    if teller.faults:
        return found, FAULT
    return found, NOT_FOUND if teller.not_found else TOLD


def main(words: list[str]) -> int:
    """Tells why."""
    given = parsed(words)
    if given.log is not None:
        return told_of_log(given)
    try:
        lines, status = told(given)
    except Bad as bad:
        print(f"credtrace-why: {shown(given.script)}: {bad}", file=sys.stderr)
        return BAD
    except NotFound as fault:
        print(f"credtrace-why: {shown(given.script)}: {fault}", file=sys.stderr)
        return NOT_FOUND
    except Fault as fault:
        print(f"credtrace-why: {shown(given.script)}: {A_FAULT}: {fault}", file=sys.stderr)
        return FAULT
    print("\n".join(lines))
    return status
