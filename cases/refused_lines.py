"""Scripts with a refused line in the middle, and their reports.

A generator says which lines stand before it and behind it, each with its events.
"""
from collections.abc import Iterable, Iterator
from textwrap import shorten

import suite

# A line, and the events that it makes.
Line = tuple[str, tuple[str, ...]]

INIT = "init t1 p1 0 0 n0"
# Where a script's setup ends: a comment, or in its place the line that opens a lane. A lane's
# questions, changes, signals and openings are decided beside the lock. docs/LANES.md: "A script
# that opens one lane at most has no second legal journal".
SETUP_ENDS: Line = ("#", ())
LANE: Line = ("lane 1", ())


def own(line: str, answer: str) -> Line:
    """A line that makes the event that it names, and its entry."""
    return line, (f"{line} -> {answer}",)


def asking(line: str, label: str, *events: str) -> Line:
    """A line of a task that takes hold of its credential under its own label for the events."""
    return line, (f"take {{0}} t{line[1]} -> {label}", *events, "drop {0} -> ok")


def report_of(lines: Iterable[Line]) -> tuple[str, str]:
    """The script of these lines, and its report. In an entry `{0}` and `{1}` are the line's
    labels."""
    entries = []
    for number, (_, events) in enumerate(lines, 1):
        labels = [f"h{100_000 + 10 * number + place}" for place in range(2)]
        entries += [f"{number} {event.format(*labels)}" for event in events]
    script = "".join(f"{line}\n" for line, _ in lines)
    return script, "".join(f"{entry}\n" for entry in entries)


def named(line: Line) -> str:
    """A line as a name, which is no longer than a line."""
    return shorten(line[0], 60, placeholder=" ..")


def of_setup(line: Line) -> bool:
    """Whether a line may stand in the setup alone: a first task, or a change of a file."""
    words = line[0].split()
    changes = ("chown", "chmod", "setattr", "clearattr")
    return words[0] == "init" or len(words) > 1 and words[1] in changes


def cases_of(
    name: str, before: Iterable[Line], after: Iterable[Line], refused: Iterable[Line]
) -> Iterator[suite.Case]:
    """The script without a refused line, and the same with each of these lines; and each of them in
    a lane, where it may stand there."""
    in_lane = [LANE if it == SETUP_ENDS else it for it in before]
    for line in (("#", ()), *refused):
        yield suite.script(f"{name}: {named(line)}", *report_of([*before, line, *after]))
        if LANE in in_lane and not of_setup(line):
            its = report_of([*in_lane, line, *after])
            yield suite.script(f"{name}, in a lane: {named(line)}", *its)
