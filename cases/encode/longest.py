"""Texts as long as a word of the command line may be, and longer.

docs/FORMATS.md, "The command line": "TEXT has 1 to 4,096 bytes".
"""
from collections.abc import Iterator

from captext import case
from suite import UNREAD, Case

MOST = 4096
USAGE = b"usage: credtrace run|lanes|audit|gen N|decode HEX|encode TEXT|capdata HEX\n"


def texts(length: int) -> Iterator[tuple[str, str]]:
    """Texts of so many bytes: one action of many letters, many clauses, and what only begins one or
    goes wrong at its end.
    """
    start = "cap_chown="
    yield "letters", start + "p" * (length - len(start))
    yield "clauses", "= " * ((length - 1) // 2) + ("=" if length % 2 else "=p")
    yield "a beginning", start + "p" * (length - len(start) - 1) + " "
    yield "a wrong end", start + "p" * (length - len(start) - 1) + "x"


def cases() -> Iterator[Case]:
    for length in (MOST - 1, MOST, MOST + 1, 2 * MOST, 32 * MOST - 1):
        for name, text in texts(length):
            assert len(text) == length, name
            if length <= MOST:
                yield case(f"{name}, {length}", text)
            else:
                yield Case(f"{name}, {length}", ("encode", text), UNREAD, USAGE)
    for text in ("", "-", "-p", "-cap_chown=p"):
        yield Case(f"no word: {text!r}", ("encode", text), UNREAD, USAGE)
