"""The entries of a report, each compared with the form that docs/FORMATS.md gives it."""

from __future__ import annotations

import re
from collections.abc import Iterator
from dataclasses import dataclass
from typing import Protocol

# A line that a report can have is shorter by far: 1,024 groups are 11,264 characters.
LONGEST = 65_536

NUM = r"(?:0|[1-9][0-9]{0,19})"
WORDS = {
    "T": f"t{NUM}",
    "P": f"p{NUM}",
    "H": f"h{NUM}",
    "F": f"f{NUM}",
    "N": f"n{NUM}",
    "C": f"c{NUM}",
    "S": f"s{NUM}",
    "NUM": NUM,
    "ARG": f"(?:-1|{NUM})",
    "SET": "(?:0|[1-9a-f][0-9a-f]{0,15})",
    "WANT": "(?:r|w|x|rw|rx|wx|rwx)",
    "MODE": "[0-7]{4}",
    "HEX": "(?:[0-9a-f]{2}){1,64}",
    # What a name may have is the script's concern: here it is a word of printable ASCII.
    "NAME": "[!-~]{1,255}",
}

ID_CALLS = (
    "setuid ARG|setgid ARG|seteuid ARG|setegid ARG|setreuid ARG ARG|setregid ARG ARG"
    "|setresuid ARG ARG ARG|setresgid ARG ARG ARG|setgroups( NUM)*"
)

# The events, and behind the arrow what is told where nothing refuses.
FORMS = {
    "init": ["init T P NUM NUM N -> ok C S"],
    "take": ["take H T -> ok C S"],
    "takereal": ["takereal H T -> ok C S"],
    "takefile": ["takefile H F -> ok C S"],
    "drop": ["drop H -> ok"],
    "ask": [
        "ask H ids -> ok NUM NUM NUM NUM NUM NUM NUM NUM",
        "ask H caps -> ok SET SET SET SET SET",
        "ask H groups -> ok( NUM)*",
        "ask H bits -> ok NUM (0|1)",
        "ask H (capable|bset|ambis) NUM -> ok (0|1)",
        "ask H check NAME WANT -> ok",
    ],
    "prepare": ["prepare H T H -> ok S"],
    "change": [
        "change H (setfsuid|setfsgid) ARG -> ok was NUM",
        "change H capset SET SET SET -> ok",
        "change H (capdrop|ambraise|amblower|securebits|keepcaps|nonewprivs) NUM -> ok",
        "change H (ambclear|access) -> ok",
        "change H exec NAME -> ok",
    ],
    "commit": ["commit H -> ok C S( ended NUM gain SET SET SET)?"],
    "abort": ["abort H -> ok"],
    "override": ["override T H -> ok C S"],
    "revert": ["revert T -> ok"],
    "begin": [f"begin T ({ID_CALLS}) -> ok C S left NUM"],
    "act": ["act NUM -> ok T C S left NUM"],
    "spawn": ["spawn T T -> ok C S"],
    "fork": ["fork T T P -> ok C S"],
    "exit": ["exit T -> ok"],
    "open": ["open H NAME WANT F -> ok"],
    "close": ["close F -> ok"],
    "signal": ["signal T H T H -> ok"],
    "ptrace": ["ptrace (fs|real) T H T H -> ok"],
    "dumpable": ["dumpable T NUM -> ok"],
    "dumped": ["dumped T -> ok (0|1)"],
    "chown": ["chown H NAME ARG ARG -> ok"],
    "chmod": ["chmod H NAME MODE -> ok"],
    "setattr": ["setattr H NAME HEX -> ok"],
    "clearattr": ["clearattr H NAME -> ok"],
    "stat": ["stat H NAME -> ok NUM NUM MODE (0|1)"],
    "raw": [f"raw T ({ID_CALLS}) -> ok C S"],
    "sweep": ["sweep -> ok"],
}

REFUSALS = (
    "eperm|einval|eacces|ebadf|busy NUM|exists [tphfk]NUM|too many (tasks|holds|prepared|files)"
    "|too deep|table full|no (hold H|prepared H|task T|broadcast NUM)|overridden NUM"
    "|not overridden|stale C C|aborted T (eperm|full)"
)


class BadReport(Exception):
    """What is wrong with a report, in one line."""


@dataclass(slots=True)
class Entry:
    """A line of a report."""

    text: str
    line: int
    words: list[str]
    answer: list[str]

    @property
    def is_ok(self) -> bool:
        """Whether nothing refused it."""
        return self.answer[0] == "ok"


def spelled(form: str) -> str:
    """The expression of a form."""
    plain = form.replace("(", "(?:")
    return re.sub(r"\b[A-Z]+\b", lambda name: WORDS[name[0]], plain)


def expression(forms: list[str]) -> re.Pattern[str]:
    """What an event's entries look like: told, or refused."""
    parts = []
    for form in forms:
        event, _, told = form.partition(" -> ")
        parts.append(f"{spelled(event)} -> (?:{spelled(told)}|{spelled(REFUSALS)})")
    return re.compile(f"{NUM} (?:{'|'.join(parts)})", re.ASCII)


EXPRESSIONS = {event: expression(forms) for event, forms in FORMS.items()}


def shown(text: str) -> str:
    """A text that may be written anywhere: what isn't printable ASCII as an escape, no more than
    80 characters."""
    cut = text if len(text) <= 80 else text[:80] + "..."
    return "".join(c if " " <= c <= "~" else c.encode("unicode_escape").decode() for c in cut)


def entry_of(text: str, place: int) -> Entry:
    """The entry of a line, which stands at this place of the report."""
    words = text.split(" ")
    form = EXPRESSIONS.get(words[1]) if len(words) > 1 else None
    if form is None or form.fullmatch(text) is None:
        raise BadReport(f"line {place} is no entry of a report: {shown(text)}")
    # A name may be an arrow too; no answer has one.
    arrow = len(words) - 1 - words[::-1].index("->")
    return Entry(text, int(words[0]), words[1:arrow], words[arrow + 1 :])


class Lines(Protocol):
    """What lines are read from."""

    def readline(self, limit: int, /) -> bytes:
        """The next line, or as much of it."""


def entries(source: Lines) -> Iterator[Entry]:
    """The entries, in their order."""
    place = 0
    while line := source.readline(LONGEST + 1):
        place += 1
        if not line.endswith(b"\n"):
            why = "it is too long" if len(line) > LONGEST else "no line feed ends it"
            raise BadReport(f"the report is cut in line {place}, or is none: {why}")
        try:
            text = line[:-1].decode("utf-8")
        except UnicodeDecodeError:
            raise BadReport(f"line {place} is no entry of a report: it isn't UTF-8") from None
        yield entry_of(text, place)
    if place == 0:
        raise BadReport("the report is empty")
