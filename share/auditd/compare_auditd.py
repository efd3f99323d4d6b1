"""The command credtrace-compare-auditd: each recorded call of a host held against the rules."""

from __future__ import annotations

import argparse
import gc
import json
import os
import sys
from dataclasses import dataclass
from pathlib import Path

from tool.inputs import Fault

from .command import add_options, input_of
from .compare import Comparer, Result
from .findings import Class, Finding
from .script import Script
from .start import started
from .telling import Place, Teller, summary, summary_text

AGREES, DIFFERS, NOT_COMPARED, ENDS_BEFORE = 0, 1, 2, 3
# What is read lives as long as a script: after so many objects Python looks for what it can free.
YOUNG = 50_000


def parser() -> argparse.ArgumentParser:
    """The words of the command."""
    words = argparse.ArgumentParser(
        prog="credtrace-compare-auditd",
        description="Holds each record of an audit log against the rules, and shows what differs.",
    )
    add_options(words)
    words.add_argument(
        "--lost", metavar="N", type=int, help="how many records were lost, as auditctl -s says it"
    )
    words.add_argument(
        "--names", action="store_true", help="write ids and sets as names, by this machine's users"
    )
    words.add_argument("--json", action="store_true", help="write each finding as a line of JSON")
    words.add_argument(
        "--scripts", metavar="DIR", help="write the scripts, and one for each finding, there"
    )
    words.add_argument(
        "--strict", action="store_true", help="status 1 also for calls missing and doubtful ones"
    )
    return words


class Folder:
    """Where scripts are written, if anywhere."""

    def __init__(self, path: str | None) -> None:
        self._path = path
        self._count = 0
        if path is not None:
            try:
                os.makedirs(path, exist_ok=True)
            except OSError as fault:
                raise Fault(f"{path}: {fault.strerror}") from None

    def keep(self, script: Script) -> None:
        """A script of the log."""
        self._count += 1
        self._write(f"{self._count}.trace", script.text())

    def finding(self, finding: Finding) -> Place:
        """The script of a finding."""
        lines = finding.script
        name = f"finding-{finding.event.serial}.trace"
        self._write(name, "\n".join([*lines, ""]))
        path = name if self._path is None else str(Path(self._path, name))
        return Place(path, len(lines), lines[-1], self._path is not None)

    def _write(self, name: str, text: str) -> None:
        if self._path is None:
            return
        try:
            Path(self._path, name).write_text(text, encoding="ascii")
        except OSError as fault:
            raise Fault(f"{self._path}/{name}: {fault.strerror}") from None


def status_of(result: Result, cut: bool, strict: bool) -> int:
    """The exit status."""
    classes = result.classes()
    if classes[Class.UNEXPLAINED]:
        return DIFFERS
    if strict and classes[Class.MISSING] + classes[Class.DOUBTFUL]:
        return DIFFERS
    if not sum(result.agree.values()) + classes[Class.EXPLAINED]:
        return NOT_COMPARED
    return ENDS_BEFORE if cut or result.unsettled else AGREES


@dataclass(frozen=True)
class Compared:
    """What came of the logs of a host."""

    status: int
    result: Result
    findings: list[tuple[Finding, Place]]
    notes: list[str]


def compared(given: argparse.Namespace, tells: bool = True) -> Compared:
    """Compares the logs, and tells on a terminal how far it is."""
    gc.set_threshold(YOUNG)
    source = input_of(given, started(given.start), tells)
    folder = Folder(given.scripts)
    comparer = Comparer(folder.keep if given.scripts else None, source.started)
    result = comparer.run(source.events())
    result.counts.update(source.gatherer.counts)
    return Compared(
        status_of(result, bool(source.logs.cut), given.strict),
        result,
        [(finding, folder.finding(finding)) for finding in result.findings],
        [*source.notes(), *result.notes],
    )


def main(words: list[str]) -> int:
    """Compares, and tells."""
    given = parser().parse_args(words)
    try:
        done = compared(given)
    except Fault as fault:
        print(f"credtrace-compare-auditd: {fault}", file=sys.stderr)
        return NOT_COMPARED
    teller = Teller(given.names, given.lost)
    for finding, place in done.findings:
        print(teller.json(finding, place) if given.json else teller.text(finding, place))
    for note in done.notes:
        print(note, file=sys.stderr)
    if given.json:
        print(json.dumps({"summary": summary(done.result, given.lost)}))
    else:
        print("\n".join(summary_text(done.result, given.lost)))
    return done.status
