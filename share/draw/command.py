"""The command credtrace-draw."""

from __future__ import annotations

import argparse
import gc
import io
import sys
from collections.abc import Iterable
from typing import BinaryIO

from .names import tables
from .page import page
from .report import BadReport, Lines, entries
from .script import Bad, NotFound, Told, is_script, run as run_script, told_of
from .story import Story
from .window import Window

DRAWN, NOT_DRAWN = 0, 2

# How many entries a page has at most, and how long an event and an answer may be in it.
MOST, LONGEST_TEXT = 200_000, 1_000

# What is read of an input that is no report: with names a script may be longer than one may be.
MOST_BYTES = 1 << 22

# What is folded unless it is asked for.
FOLDED = ("slots", "holds")


class Rest:
    """An input of which some bytes were read."""

    def __init__(self, head: bytes, source: BinaryIO) -> None:
        self.head, self.source = head, source

    def readline(self, limit: int, /) -> bytes:
        """The next line, or as much of it."""
        head, self.head = self.head, b""
        return head + self.source.readline(limit - len(head))


class Fault(Exception):
    """What is wrong with the words or the input, in one line."""


def number(word: str) -> int:
    """The number of an entry."""
    if not word.isascii() or not word.isdigit() or len(word) > 9 or int(word) == 0:
        raise argparse.ArgumentTypeError("an entry's number is 1 or more")
    return int(word)


def cut(text: str) -> str:
    """An entry whose event and answer aren't too long for a page: a task may have 1,024 groups."""
    if len(text) <= LONGEST_TEXT:
        return text
    parts = text.rpartition(" -> ")
    return "".join(
        part if len(part) <= LONGEST_TEXT
        else f"{part[:LONGEST_TEXT]}... ({len(part) - LONGEST_TEXT} characters more)"
        for part in parts
    )


def read(source: Lines, first: int, last: int | None) -> tuple[Story, list[str]]:
    """The story of a whole report, and the texts of its entries from the first to the last."""
    # What is kept refers to itself by no cycle: to look for garbage takes half the time.
    gc.disable()
    story = Story()
    texts: list[str] = []
    for entry in entries(source):
        story.add(entry)
        if story.count >= first and (last is None or story.count <= last) and len(texts) < MOST:
            texts.append(cut(entry.text))
    if not texts:
        raise Fault(f"the report ends with entry {story.count}, before {first}")
    return story, texts


def source_of(path: str) -> BinaryIO:
    """The bytes of an input."""
    return sys.stdin.buffer if path == "-" else open(path, "rb")


def drawn(
    source: Lines, first: int, last: int | None, told: Told | None = None,
    shown: Iterable[str] = (),
) -> str:  # fmt: skip
    """The page of a report, from one entry to another; with what is told of its script."""
    if last is not None and last < first:
        raise Fault(f"--to {last} is before --from {first}")
    story, texts = read(source, first, last)
    end = first + len(texts) - 1
    if end < min(last or story.count, story.count):
        print(f"credtrace-draw: a page has {MOST} entries at most: these are {first} to {end} "
              f"of {story.count}; --from and --to choose others", file=sys.stderr)
    story.learn(told.sets if told else {})
    data = Window(story, first, end).data(texts, told.reasons if told else {})
    return page(data | tables() | {"shown": [*shown]})


def drawn_script(
    script: bytes, first: int, last: int | None, report: bytes | None = None,
    shown: Iterable[str] = (),
) -> str:  # fmt: skip
    """The page of a script: of its report, or of the one that is given."""
    plain, text = run_script(script, report)
    return drawn(io.BytesIO(text.encode("latin-1")), first, last, told_of(plain, text), shown)


def of_input(given: argparse.Namespace) -> str:
    """The page of a script or of a report: a report begins with a number."""
    source = source_of(given.input)
    shown = [name for name in FOLDED if getattr(given, name)]
    head = source.read(1)
    if head and not head.isdigit():
        head += source.read(MOST_BYTES)
        if is_script(head):
            other = given.report and source_of(given.report).read()
            return drawn_script(head, given.first, given.last, other, shown)
        source = io.BytesIO()
    if given.report:
        raise Fault("--report is for a script, and this is none")
    return drawn(Rest(head, source), given.first, given.last, None, shown)


def parsed(words: list[str]) -> argparse.Namespace:
    """The words of the command line."""
    parser = argparse.ArgumentParser(
        prog="credtrace-draw",
        description="Draws a script or a report as one page of HTML. Of a script the sets are "
        "shown at each change, and why a call was refused or a capability was lost.",
    )
    parser.add_argument("--from", metavar="N", type=number, default=1, dest="first",
                        help="the first entry that is drawn, counted from 1")
    parser.add_argument("--to", metavar="N", type=number, dest="last",
                        help="the last entry that is drawn")
    parser.add_argument("--report", metavar="FILE",
                        help="of a script: its report, where it is not that of `run`")
    parser.add_argument("--slots", action="store_true", help="show the slots from the beginning")
    parser.add_argument("--holds", action="store_true",
                        help="show holds, and what is prepared, from the beginning")
    parser.add_argument("input", metavar="SCRIPT|REPORT", nargs="?", default="-",
                        help="what is drawn; else standard input")
    return parser.parse_args(words)


def main(words: list[str]) -> int:
    """Draws a script or a report."""
    given = parsed(words)
    name = "standard input" if given.input == "-" else given.input
    try:
        text = of_input(given)
    except (BadReport, Fault) as fault:
        print(f"credtrace-draw: {fault}", file=sys.stderr)
        return NOT_DRAWN
    except (Bad, NotFound) as fault:
        print(f"credtrace-draw: {name}: {fault}", file=sys.stderr)
        return NOT_DRAWN
    except OSError as fault:
        print(f"credtrace-draw: {fault.filename or name}: {fault.strerror}", file=sys.stderr)
        return NOT_DRAWN
    except MemoryError:
        print("credtrace-draw: out of memory", file=sys.stderr)
        return NOT_DRAWN
    sys.stdout.write(text)
    return DRAWN
