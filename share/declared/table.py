"""The table of before and after execve, and what is said below it."""

from __future__ import annotations

import textwrap
from collections.abc import Callable
from dataclasses import dataclass

from why.names import SETS, flags, named

from .answers import Answer, Credential
from .declaration import Declaration
from .places import Failure, listed

WIDTH = 100
LABEL = 13
NOT_PROVED = "by docs/LINUX.md, not by proof"
MARK = "(*)"


def brief(caps: int) -> str:
    """A set as names without CAP_, with room to break the line behind a comma."""
    return named(caps).replace("CAP_", "").replace(",", ", ")


def numbers(values: tuple[int, ...]) -> str:
    """Ids one after another."""
    return " ".join(map(str, values)) or "none"


def bits(value: int) -> str:
    """Securebits as names without SECBIT_."""
    return flags(value).replace("SECBIT_", "").replace(",", ", ")


# The rows of the table: how each is called, and what of a credential it shows.
ROWS: tuple[tuple[str, Callable[[Credential], str]], ...] = (
    ("user", lambda it: numbers(it.users)),
    ("group", lambda it: numbers(it.group_ids)),
    ("groups", lambda it: numbers(it.groups)),
    *((name, lambda it, at=place: brief(it.sets[at])) for place, name in enumerate(SETS)),
    ("securebits", lambda it: bits(it.securebits)),
    ("no_new_privs", lambda it: str(int(it.no_new_privs))),
)


@dataclass(frozen=True)
class Column:
    """A column of the table: its head, and what it has in each row."""

    head: str
    cells: tuple[str, ...]


def column(head: str, credential: Credential | None) -> Column:
    """A column for a credential."""
    return Column(head, tuple(shows(credential) if credential else "" for _, shows in ROWS))


def columns(found: Answer) -> list[Column]:
    """Before and after; where a row of docs/LINUX.md decides, what it decides is marked, and what
    the rules leave stands beside it."""
    before, after = column("before execve", found.before), column("after", found.after)
    if not found.rows:
        return [before, after]
    rules = column("by the rules", found.rules)
    marked = tuple(
        f"{one} {MARK}" if one != other else one
        for one, other in zip(after.cells, rules.cells, strict=True)
    )
    beside = tuple(
        other if one != other else "" for one, other in zip(after.cells, rules.cells, strict=True)
    )
    return [before, Column("after", marked), Column("by the rules", beside)]


def wrap(text: str, width: int) -> list[str]:
    """A text in lines of this width."""
    return textwrap.wrap(text, width, break_long_words=False, break_on_hyphens=False) or [""]


def lay(labels: list[str], found: list[Column]) -> list[str]:
    """The lines of a table: each cell is broken to the width of its column."""
    width = (WIDTH - LABEL) // len(found) - 2
    lines = []
    rows = [("", [it.head for it in found])]
    rows += [(label, [it.cells[place] for it in found]) for place, label in enumerate(labels)]
    for label, cells in rows:
        parts = [wrap(cell, width) for cell in cells]
        for place in range(max(map(len, parts))):
            texts = [it[place] if place < len(it) else "" for it in parts]
            head = f"{label if place == 0 else '':{LABEL}}"
            lines.append((head + "".join(f"{text:{width + 2}}" for text in texts)).rstrip())
    return lines


def paragraph(text: str) -> list[str]:
    """A text below the table."""
    return textwrap.wrap(
        text, WIDTH, subsequent_indent="  ", break_long_words=False, break_on_hyphens=False
    )


def failure(it: Failure) -> list[str]:
    """Why the program doesn't start."""
    text = f"it doesn't start: {it.step}"
    if it.call:
        text += f": {it.call} is {it.answer}"
    lines = paragraph(text)
    for part in (listed(it.places), it.reason):
        lines += [f"  {line}" for line in paragraph(part)] if part else []
    return lines


def title(declaration: Declaration) -> list[str]:
    """What is started, and where that is declared."""
    place = declaration.place
    where = f" ({place.where})" if place.where else ""
    return paragraph(f"{declaration.name}: {place.key}{declaration.command}{where}")


def below(declaration: Declaration, found: Answer) -> list[str]:
    """What is said below the table: rows, what was left out, and what isn't known."""
    script = declaration.script
    lines = []
    for row in found.rows:
        lines += paragraph(f"{MARK} {NOT_PROVED}: {row}")
    for it in found.passed:
        places = listed(it.line.places)
        lines += paragraph(f"passed over: {places}: {it.line.call} is {it.answer}")
    for note in script.notes:
        lines += paragraph(f"note: {note}")
    for unknown in script.unknown:
        lines += paragraph(f"not known: {unknown}")
    return [*lines, f"the order of calls is that of {declaration.order}"]


def told(declaration: Declaration, found: Answer) -> list[str]:
    """The whole of it."""
    lines = title(declaration)
    if found.after is not None:
        lines += lay([label for label, _ in ROWS], columns(found))
    elif found.failure is not None:
        lines += failure(found.failure)
        if found.before is not None:
            heads = [label for label, _ in ROWS]
            lines += lay(heads, [column("before execve", found.before)])
    return lines + below(declaration, found)
