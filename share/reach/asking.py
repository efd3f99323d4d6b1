"""Runs of the program: what its questions were answered, by the numbers of the lines."""

from __future__ import annotations

import re
import sys
import time
from collections.abc import Sequence

from why.values import BYTES, LINES
from why.program import judged

from .faults import Bad, Limit, NotFound

__all__ = ["BYTES", "LINES", "Runner", "answers_of"]

ASKED = re.compile(r"^(\d+) (?:ask|stat) \S+ \S+ -> ok ?(.*)$", re.M)
# So many seconds go by between two lines that say how far it is.
PATIENCE = 2.0


def answers_of(report: str) -> dict[int, str]:
    """What each question of a report was told, by its line."""
    return {int(found[1]): found[2] for found in ASKED.finditer(report)}


class Runner:
    """Runs scripts. It says how far a search is, where it is to."""

    def __init__(self, tells: bool = True) -> None:
        self.tells = tells
        self.spoke = time.monotonic()

    def report(self, lines: Sequence[str]) -> str:
        """The report of a script of these lines."""
        text = "\n".join(lines) + "\n"
        if len(lines) > LINES or len(text) > BYTES:
            raise Limit(f"the script and the calls behind it have more than {LINES:,} lines")
        try:
            return judged(["run"], text.encode("latin-1"))
        except Bad as bad:
            raise NotFound(f"a script of credtrace-reach's own is bad: {bad}") from None

    def answers(self, lines: Sequence[str]) -> dict[int, str]:
        """What each question of a script was told, where it was not refused."""
        return answers_of(self.report(lines))

    def progress(self, states: int, calls: int) -> None:
        """Says how far it is, now and then."""
        now = time.monotonic()
        if self.tells and now - self.spoke > PATIENCE:
            self.spoke = now
            text = f"credtrace-reach: {states:,} states, {calls:,} calls so far"
            print(text, file=sys.stderr, flush=True)
