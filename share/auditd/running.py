"""The report of a script, and the answer that decides each of its lines."""

from __future__ import annotations

import re
import subprocess

from tool.program import cant_run, program

from tool.inputs import Fault

# An entry that decides its line, or is refused. Others only take hold of a credential and drop it.
ENTRY = re.compile(
    r"^(\d+) (?:(?!take|prepare|commit|drop|abort)[^>\n]* -> (.*)|[^>\n]* -> (?!ok)(.*))$",
    re.MULTILINE,
)


def report_of(script: str) -> str:
    """The report of a script."""
    try:
        done = subprocess.run(
            [program(), "run"], input=script.encode("ascii"), stdout=subprocess.PIPE, check=False
        )
    except OSError as fault:
        raise Fault(cant_run(fault)) from None
    text = done.stdout.decode("latin-1")
    if done.returncode:
        raise Fault(f"{program()} ended with status {done.returncode}: {text.strip()[:200]}")
    return text


def answers_of(script: str) -> dict[int, str]:
    """The answer of each line: its first refusal, or that of its own event."""
    found: dict[int, str] = {}
    for number, decides, refusal in ENTRY.findall(report_of(script)):
        line = int(number)
        # What follows a refusal only gives up what was begun.
        if line not in found or found[line].startswith("ok"):
            found[line] = decides or refusal
    return found


def fits(expected: str, answer: str) -> bool:
    """Whether an answer is what the log says. Where that is one word it says no more."""
    if expected == answer:
        return True
    wanted, words = expected.split(), answer.split()
    if len(wanted) == 1:
        return words[:1] == wanted
    return len(wanted) == len(words) and all(
        one in ("*", other) for one, other in zip(wanted, words, strict=True)
    )
