"""Words that are empty, or that have a space in them.

docs/FORMATS.md: "Any other words write the usage line, and so do words of which one is empty or
begins with `-`".
"""
from collections.abc import Iterator

from suite import Case

USAGE = b"usage: credtrace run|lanes|audit|gen N|decode HEX|encode TEXT|capdata HEX\n"


def cases() -> Iterator[Case]:
    """An empty word behind a command, and a number with a space behind it."""
    yield Case("an empty word", ("run", ""), written=USAGE)
    yield Case("a space behind the number", ("gen", "1 "), written=USAGE)
