"""The assignments of a unit file: systemd.syntax(7)."""

from __future__ import annotations

from collections.abc import Iterator
from dataclasses import dataclass
from pathlib import Path

from ..places import Bad, Place

# More than any unit file has.
BYTES = 1 << 20
COMMENTS = ("#", ";")


@dataclass(frozen=True)
class Assignment:
    """KEY=VALUE of a section."""

    section: str
    key: str
    value: str
    place: Place


@dataclass(frozen=True)
class Skipped:
    """A line that systemd passes over, and why."""

    why: str
    place: Place


def text_of(path: Path) -> bytes:
    """The bytes of a unit file."""
    try:
        with open(path, "rb") as file:
            data = file.read(BYTES + 1)
    except (OSError, ValueError) as fault:
        raise Bad(f"{path}: {getattr(fault, 'strerror', None) or fault}") from None
    if len(data) > BYTES:
        raise Bad(f"{path}: it has more than {BYTES} bytes")
    return data.removeprefix(b"\xef\xbb\xbf")


def goes_on(line: str) -> bool:
    """Whether a line ends in a backslash that no other one escapes."""
    return (len(line) - len(line.rstrip("\\"))) % 2 == 1


def whole_lines(data: bytes, name: str) -> Iterator[tuple[int, str] | Skipped]:
    """The lines, each with its number. One that ends in a backslash goes on, also over comments."""
    held, first = "", 0
    for number, raw in enumerate(data.split(b"\n"), 1):
        try:
            line = raw.decode("utf-8").rstrip("\r")
        except UnicodeDecodeError:
            yield Skipped("it is no UTF-8: systemd passes over it", Place("", name, number))
            continue
        if line.lstrip()[:1] in COMMENTS or not (line.strip() or held):
            continue
        held, first = held + line, first or number
        if goes_on(held):
            held = held[:-1] + " "
            continue
        yield first, held.strip()
        held, first = "", 0
    if held.strip():
        yield first, held.strip()


def parsed(data: bytes, name: str) -> Iterator[Assignment | Skipped]:
    """The assignments of a text."""
    section = ""
    for found in whole_lines(data, name):
        if isinstance(found, Skipped):
            yield found
            continue
        number, line = found
        place = Place("", name, number)
        if line.startswith("["):
            if not line.endswith("]"):
                raise Bad(f"{name}:{number}: {line[:80]} is no section: it has no ] at its end")
            section = line[1:-1]
            continue
        key, equals, value = line.partition("=")
        key = key.strip()
        if not section:
            yield Skipped(f"{line[:80]} stands in no section: it is passed over", place)
        elif not equals or not key:
            yield Skipped(f"{line[:80]} is no assignment: it is passed over", place)
        else:
            yield Assignment(section, key, value.strip(), Place(f"{key}=", name, number))
