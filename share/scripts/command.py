"""The command credtrace-check: why a script is bad, and the form that its line should have."""

from __future__ import annotations

import argparse
import re
import subprocess
import sys
import textwrap

from limits import BYTES, LINES
from tool.inputs import Fault, shown
from tool.program import cant_run, program

from .forms import NoPage, form_of, spelling, tests
from .hints import hints, words_of
from .names import without_names

GOOD, BAD, NOT_CHECKED = 0, 2, 3

# The program's status for a script with a bad line, and for one that is too large.
STATUS_BAD, STATUS_LARGE = 2, 6

# What is added of a script that the program itself doesn't take.
WITH_NAMES = ", with names for sets: credtrace-names --to-script writes it for credtrace run"


def verdict(script: bytes) -> tuple[int, str] | None:
    """The first bad line and the reason, as the program says them."""
    try:
        done = subprocess.run([program(), "run"], input=script, stdout=subprocess.PIPE, check=False)
    except OSError as fault:
        raise Fault(cant_run(fault)) from None
    if done.returncode == 0:
        return None
    match = re.fullmatch(rb"bad (\d+) (\w+)\n?", done.stdout)
    if done.returncode == STATUS_LARGE:
        raise Fault(too_large(script))
    if done.returncode != STATUS_BAD or match is None:
        raise Fault(f"{program()} ended with status {done.returncode}")
    return int(match[1]), match[2].decode("ascii")


def too_large(script: bytes) -> str:
    """Which limit of docs/FORMATS.md a script is above."""
    count = script.count(b"\n") + (not script.endswith(b"\n"))
    if count > LINES:
        return f"it has {count:,} lines, and a script has at most {LINES:,} (docs/FORMATS.md)"
    return f"it has {len(script):,} bytes, and a script has at most {BYTES:,} (docs/FORMATS.md)"


def sentence(reason: str, has_form: bool) -> str:
    """The test that the line fails. Of the two for `word` the first asks which form it is."""
    found = [text for name, text in tests() if name == reason]
    return found[-1] if has_form else found[0]


def wrapped(text: str) -> str:
    """A text below the line, indented."""
    return textwrap.fill(text, 100, initial_indent="    ", subsequent_indent="      ")


def explained(script: bytes, plain: bytes, number: int, reason: str) -> list[str]:
    """What is told of a bad line: its form, what is likely meant, the test, and how words are
    spelled. `plain` is the script without names."""
    line = script.decode("latin-1").split("\n")[number - 1]
    lines = plain.decode("latin-1").split("\n")
    words = words_of(lines[number - 1])
    form = form_of(words)
    shown_line = "".join(c if " " <= c <= "~" else f"\\x{ord(c):02x}" for c in line)
    told = [f"line {number}: {shown_line[:200]}"]
    test = wrapped(f"{reason}: {sentence(reason, form is not None)}")
    if reason == "byte":
        place = next(place for place, c in enumerate(line, 1) if not " " <= c <= "~")
        return [*told, wrapped(f"Byte {place} of the line is 0x{ord(line[place - 1]):02x}."), test]
    if form is not None:
        told.append(wrapped(f"The form: {form.text} ({form.does})"))
    told += [wrapped(hint) for hint in hints(reason, form, words, lines[: number - 1])]
    told.append(test)
    spelled = spelling(form) if form is not None else []
    return told + [wrapped(f"{name}: {text}") for name, text in spelled]


def unmade(script: bytes) -> list[str]:
    """Lines of tasks that no line makes: their reports say `no task`."""
    made: set[str] = set()
    told = []
    warned: set[str] = set()
    for number, line in enumerate(script.decode("latin-1").split("\n"), 1):
        words = words_of(line)
        if not words or words[0].startswith("#"):
            continue
        if words[0] == "init":
            made.add(words[1])
        elif len(words) > 2 and words[1] in ("fork", "spawn"):
            made.add(words[2])
        elif words[0] in ("fork", "spawn"):
            made.add(words[2])
        named = [word for word in words[:3] if re.fullmatch(r"t[0-9]+", word)]
        for task in named:
            if task not in made and task not in warned:
                warned.add(task)
                told.append(f"warning: line {number}: no init, fork or spawn makes {task} before")
    return told


def judged(script: bytes) -> tuple[bytes, tuple[int, str] | None]:
    """The script, without names where it has some, and its first bad line with the reason."""
    try:
        bad = verdict(script)
    except Fault:
        # Names are longer than what they stand for.
        plain = without_names(script)
        if plain == script:
            raise
        return plain, verdict(plain)
    plain = without_names(script) if bad is not None else script
    return plain, bad if plain == script else verdict(plain)


def main(words: list[str]) -> int:
    """Checks a script."""
    parser = argparse.ArgumentParser(
        prog="credtrace-check",
        description="Says why a script is bad, and which form its line should have.",
    )
    parser.add_argument(
        "file", metavar="FILE", nargs="?", default="-", help="the script; else standard input"
    )
    given = parser.parse_args(words)
    name = shown(given.file)
    try:
        if given.file == "-":
            script = sys.stdin.buffer.read()
        else:
            with open(given.file, "rb") as file:
                script = file.read()
        plain, bad = judged(script)
    except OSError as fault:
        print(f"credtrace-check: {name}: {fault.strerror}", file=sys.stderr)
        return NOT_CHECKED
    except Fault as fault:
        print(f"credtrace-check: {name}: {fault}", file=sys.stderr)
        return NOT_CHECKED
    if bad is None:
        more = "" if plain == script else WITH_NAMES
        print("\n".join([*unmade(plain), f"{name} is a script{more}"]))
        return GOOD
    try:
        print("\n".join(explained(script, plain, *bad)))
    except NoPage as fault:
        print(f"line {bad[0]}: {bad[1]}")
        print(f"credtrace-check: {fault}", file=sys.stderr)
    return BAD
