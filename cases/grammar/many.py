"""Declarations up to their limits: 256 files, and attributes of 2 to 128 digits.

docs/FORMATS.md: HEX is "2 to 128 hexadecimal digits of either case, an even number, with or without
`0x` before them, which isn't counted (`0X` is no such prefix)". The test `count`: "a `file` line
has 6 to 9. [It] fails here, and so does a `file` line after 256 others." Declarations make no
event.
"""
from collections.abc import Iterator

import suite

BAD = "bad 1 word\n"

# What stands before the digits, how many there are, and what is written.
DIGITS = (
    ("", 2, ""),
    ("0x", 2, ""),
    ("", 128, ""),
    ("0x", 128, ""),
    ("", 1, BAD),
    ("0x", 1, BAD),
    ("", 127, BAD),
    ("", 130, BAD),
    ("0x", 130, BAD),
    ("0X", 4, BAD),
)


def attributes() -> Iterator[suite.Case]:
    """A file each with an attribute of so many digits."""
    for prefix, count, written in DIGITS:
        text = f"file a reg 0 0 0644 caps {prefix}{'f' * count}"
        yield suite.script(f"{count} digits after '{prefix}'", text, written)


def files() -> Iterator[suite.Case]:
    """256 files may be declared. One more is too many, whatever it spells."""
    declared = "".join(f"file f{number} reg 0 0 0644\n" for number in range(1, 257))
    answer = "257 take h102570 t1 -> no task t1\n"
    yield suite.script("256 files", f"{declared}t1 check f256 r\n", answer)
    yield suite.script("a 257th", f"{declared}file f257 reg 0 0 0644\n", "bad 257 count\n")
    for line in ("file f257 reg 0 0 0644", "file f1", "file"):
        text = f"{declared}t1 check f256 r\n{line}"
        yield suite.script(f"then `{line}`", text, "bad 258 count\n")


def cases() -> Iterator[suite.Case]:
    """All of them."""
    yield from attributes()
    yield from files()
