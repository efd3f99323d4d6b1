"""The program, asked: the report of a script, whether a report is legal, an attribute's bytes."""

from __future__ import annotations

import re
import subprocess
from functools import lru_cache

from scripts.command import too_large
from tool.program import TOP, cant_run, program

from .reason import Bad, NotFound

__all__ = ["TOP", "audited", "decoded", "report_of", "runs"]

# The statuses of docs/FORMATS.md that an input can lead to.
DONE, BAD, LARGE, OTHER = 0, 2, 6, 7


def runs(words: list[str], given: bytes) -> tuple[int, str]:
    """How it ends with these words and this input, and what it writes."""
    try:
        done = subprocess.run(
            [program(), *words], input=given, stdout=subprocess.PIPE, check=False
        )
    except OSError as fault:
        raise NotFound(cant_run(fault)) from None
    return done.returncode, done.stdout.decode("latin-1")


def judged(words: list[str], given: bytes) -> str:
    """What it writes of a script, or what is bad in it."""
    status, text = runs(words, given)
    found = re.fullmatch(r"bad (\d+) (\w+)\n", text)
    if status == BAD and found:
        raise Bad(f"line {found[1]} is bad ({found[2]}): credtrace-check says why")
    if status == LARGE:
        raise Bad(too_large(given))
    if status == OTHER and re.fullmatch(r"not legal \d+\n", text):
        entry = text.split()[2]
        raise Bad(f"the report is not the script's: it goes wrong at entry {entry}")
    if status != DONE:
        raise NotFound(f"{program()} ended with status {status}")
    return text


def report_of(script: bytes) -> str:
    """The report of a script."""
    return judged(["run"], script)


def audited(script: bytes, report: bytes) -> str:
    """A report that somebody else made, where the program finds it legal."""
    ended = script if script.endswith(b"\n") or not script else script + b"\n"
    # A script's own line `report` would end it too early, and no line of a script is that.
    judged(["run"], ended)
    judged(["audit"], ended + b"report\n" + report)
    return report.decode("latin-1")


@lru_cache(None)
def decoded(attribute: str) -> tuple[int, int, int, bool, int] | str:
    """What the bytes of a file's attribute say: its version, its permitted and inheritable sets,
    its effective flag, its root id; or why they say nothing."""
    status, text = runs(["decode", attribute], b"")
    found = re.fullmatch(
        r"version (\d+) perm (\w+) inh (\w+) effective ([01]) root (\d+)\n", text
    )
    if status == DONE and found:
        return (
            int(found[1]), int(found[2], 16), int(found[3], 16), found[4] == "1", int(found[5])
        )  # fmt: skip
    if status == BAD and text.startswith("bad "):
        return text.strip()
    raise NotFound(f"{program()} ended with status {status}")
