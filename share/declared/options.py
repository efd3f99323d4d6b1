"""What the commands share: their options, and how they end."""

from __future__ import annotations

import argparse
import sys
from collections.abc import Callable
from dataclasses import dataclass

from why.command import capability
from why.reason import Bad as BadScript
from why.reason import Fault, NotFound

from . import as_json, launcher, life, table
from .answers import Answer
from .declaration import Declaration
from .launcher import Launcher
from .places import Bad
from .wants import Status, Wants, judged


@dataclass(frozen=True)
class Output:
    """What is written."""

    script: bool = False
    json: bool = False
    why: int | None = None


def add(parser: argparse.ArgumentParser) -> None:
    """The options of all three commands."""
    parser.add_argument(
        "--start", metavar="FILE", help="what the launcher itself has, as /proc/PID/status has it"
    )
    what = parser.add_mutually_exclusive_group()
    what.add_argument("--script", action="store_true", help="write the script, and run nothing")
    what.add_argument("--json", action="store_true", help="write all of it as JSON")
    what.add_argument(
        "--why", metavar="CAP", type=capability, help="where this capability comes from, or goes"
    )
    parser.add_argument(
        "--want", metavar="CAP", type=capability, action="append", default=[],
        help="it has to be effective, else status 1",
    )  # fmt: skip
    parser.add_argument(
        "--want-not", metavar="CAP", type=capability, action="append", default=[],
        help="it may not be permitted, else status 1",
    )  # fmt: skip
    parser.add_argument(
        "--want-user", metavar="ID", default="", help="all user ids have to be this, else status 1"
    )


def output_of(given: argparse.Namespace) -> Output:
    """What is to be written."""
    return Output(given.script, given.json, given.why)


def wants_of(given: argparse.Namespace) -> Wants:
    """What is wanted."""
    return Wants(tuple(given.want), tuple(given.want_not), given.want_user)


def launcher_of(given: argparse.Namespace) -> Launcher:
    """The launcher."""
    return launcher.read(given.start) if given.start else launcher.everything()


def written(declaration: Declaration, found: Answer, output: Output) -> str:
    """What is written on standard output."""
    if output.json:
        return as_json.told(declaration, found)
    if output.why is not None:
        return "\n".join(life.told(found, output.why))
    return "\n".join(table.told(declaration, found))


def answered(name: str, declaration: Declaration, output: Output, wants: Wants) -> int:
    """Writes the answer; the status."""
    if output.script:
        if wants.any():
            raise Bad("--script writes the script and runs nothing: it goes with no --want")
        print(declaration.script.written().text, end="")
        return Status.TOLD
    found = declaration.answer()
    verdict = judged(declaration, wants, found)
    print(written(declaration, found, output))
    # Standard error comes behind, where both are one terminal.
    sys.stdout.flush()
    for line in verdict.lines:
        print(f"{name}: {declaration.name}: {line}", file=sys.stderr)
    return verdict.status


def run(name: str, make: Callable[[], Declaration], output: Output, wants: Wants) -> int:
    """Reads a declaration and answers it; what is wrong ends in a line."""
    try:
        return answered(name, make(), output, wants)
    except Bad as bad:
        print(f"{name}: {plain(str(bad))}", file=sys.stderr)
        return Status.BAD
    except (BadScript, NotFound, Fault) as fault:
        print(f"{name}: {plain(str(fault))}", file=sys.stderr)
        return Status.NOT_RUN


def plain(text: str) -> str:
    """A message in one line."""
    return "".join(c if c.isprintable() else "?" for c in text)[:400]
