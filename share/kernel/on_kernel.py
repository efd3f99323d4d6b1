"""The command credtrace-on-kernel: the answers of the running kernel to a script's calls."""

from __future__ import annotations

import argparse
import signal
import sys
from pathlib import Path

from .runnable import why_not
from .isolation import Fault
from .grammar import is_good
from .machine import Lost, Machine
from .numbers import Full
from .process import SECONDS, Built
from .report import report_of
from .script import Script, parse

ANSWERED, NOT_ASKED = 0, 2
NAME = "credtrace-on-kernel"


def read(name: str) -> str:
    """The text of a script."""
    try:
        if name == "-":
            data = sys.stdin.buffer.read()
        else:
            data = Path(name).read_bytes()
    except OSError as fault:
        raise Fault(f"{name}: {fault.strerror}") from None
    return data.decode("latin-1")


def script_of(name: str) -> Script:
    """The script. One with a bad line is told to be none: `credtrace run` says which line it is."""
    text = read(name)
    if not is_good(text):
        raise Fault(f"{name} is no script: share/credtrace-check says why")
    return parse(text)


def answered(machine: Machine, script: Script) -> str:
    """The report of the kernel's answers."""
    if reason := why_not(script, machine.place):
        raise Fault(f"a kernel can't be asked this script: {reason}")
    try:
        return report_of(script, machine.answers(script))
    except Full:
        raise Fault("the script fills the table of credentials, which no kernel has") from None
    except Lost as why:
        raise Fault(f"the script wasn't answered to its end: {why}") from None


def ended(number: int, _frame: object) -> None:
    """A signal that ends the command: what was made is removed on the way out."""
    raise SystemExit(128 + number)


def seconds(word: str) -> int:
    """How long a script may take."""
    if not word.isdigit() or not 0 < int(word) < 100_000:
        raise argparse.ArgumentTypeError("a number of seconds, 1 or more")
    return int(word)


def words_of(words: list[str]) -> argparse.Namespace:
    """The words of the command line."""
    parser = argparse.ArgumentParser(
        prog=NAME, description="Makes a script's calls on the running kernel, and tells answers."
    )
    parser.add_argument(
        "--via", metavar="COMMAND", help="what runs the driver, which stands for {}, or last"
    )
    parser.add_argument(
        "--seconds", type=seconds, default=SECONDS, metavar="N", help="how long the script may take"
    )
    parser.add_argument("--ids", metavar="FIRST-LAST,..", help="map these ids alone")
    parser.add_argument("file", metavar="SCRIPT", nargs="?", default="-")
    return parser.parse_args(words)


def main(words: list[str]) -> int:
    """Runs a script."""
    given = words_of(words)
    for number in (signal.SIGTERM, signal.SIGHUP):
        signal.signal(number, ended)
    built = None
    try:
        script = script_of(given.file)
        built = Built(given.via)
        sys.stdout.write(answered(Machine(built, given.seconds, ids=given.ids), script))
        return ANSWERED
    except Fault as fault:
        print(f"{NAME}: {fault}", file=sys.stderr)
        return NOT_ASKED
    finally:
        if built is not None:
            built.close()
