"""What credtrace-why says of the calls of a witness."""

from __future__ import annotations

from why.program import report_of
from why.script import Script
from why.tell import Teller

from .witness import Witness


def sentences(witness: Witness) -> list[list[str]]:
    """For each line that was added to the script, the line and what is said of it."""
    text = witness.text
    last = len(witness.lines)
    teller = Teller(Script(text), report_of(text.encode("latin-1")), last)
    return [
        [line, *teller.whole_line(number)[1:]]
        for number, line in enumerate(witness.shown, witness.first)
    ]
