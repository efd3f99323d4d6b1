"""The command credtrace-from-auditd: the scripts of an audit log."""

from __future__ import annotations

import argparse
import os
import sys
from pathlib import Path

from tool.inputs import Fault

from .command import add_options, input_of
from .compare import Comparer
from .script import Script
from .start import started

WHOLE, ENDS_BEFORE, NONE = 0, 1, 2


def parser() -> argparse.ArgumentParser:
    """The words of the command."""
    words = argparse.ArgumentParser(
        prog="credtrace-from-auditd", description="Writes the script of an audit log."
    )
    add_options(words)
    words.add_argument(
        "--scripts",
        metavar="DIR",
        help="write all scripts there, as 1.trace, 2.trace ..: a long log makes several",
    )
    words.add_argument(
        "--table", metavar="FILE", help="write which record each line comes from into this file"
    )
    return words


class Writer:
    """Writes scripts: the first one to standard output, or all into a folder."""

    def __init__(self, folder: str | None, table: str | None) -> None:
        self._folder, self._table = folder, table
        self.count = 0
        self.rows: list[str] = []
        if folder is not None:
            try:
                os.makedirs(folder, exist_ok=True)
            except OSError as fault:
                raise Fault(f"{folder}: {fault.strerror}") from None

    def keep(self, script: Script) -> None:
        """A script more."""
        self.count += 1
        if self._folder is not None:
            write(str(Path(self._folder, f"{self.count}.trace")), script.text())
        elif self.count == 1:
            sys.stdout.write(script.text())
        if self._table is not None:
            lead = script.lead() + 1
            for check in script.checks:
                event = check.event
                self.rows.append(
                    f"{self.count} {lead + check.place} {event.stamp} {event.pid} {event.program} "
                    f"{event.name}: {check.expected}\n"
                )

    def end(self) -> None:
        """The table, once all is known."""
        if self._table is not None:
            write(self._table, "".join(self.rows))


def write(path: str, text: str) -> None:
    """Writes a file."""
    try:
        Path(path).write_text(text, encoding="latin-1")
    except OSError as fault:
        raise Fault(f"{path}: {fault.strerror}") from None


def main(words: list[str]) -> int:
    """Converts."""
    given = parser().parse_args(words)
    try:
        source = input_of(given, started(given.start))
        writer = Writer(given.scripts, given.table)
        comparer = Comparer(writer.keep, source.started, judges=False)
        result = comparer.run(source.events())
        writer.end()
        if not source.gatherer.counts["calls"]:
            raise Fault("the log has no record of a call (type=SYSCALL)")
    except Fault as fault:
        print(f"credtrace-from-auditd: {fault}", file=sys.stderr)
        return NONE
    sys.stdout.flush()
    for note in source.notes():
        print(note, file=sys.stderr)
    for name, count in sorted(result.counts.items()):
        print(f"{name}: {count}", file=sys.stderr)
    if given.scripts is None and writer.count > 1:
        print(
            f"the log makes {writer.count} scripts, and this is the first: --scripts DIR writes "
            "all",
            file=sys.stderr,
        )
        return ENDS_BEFORE
    return WHOLE
