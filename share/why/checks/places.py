"""Each source is a place that exists: a section of a manual page, a heading of docs/RULES.md, or
what docs/FORMATS.md cites of the kernel's own documentation."""

from __future__ import annotations

import gzip
import re
from collections import Counter
from functools import lru_cache
from pathlib import Path

from ..program import TOP

MANUALS = (Path("/usr/share/man"), Path("/usr/local/share/man"))
RST = "Documentation/security/credentials.rst"


@lru_cache(None)
def page(name: str, section: str) -> str | None:
    """The source of a manual page, where it is here; a link is followed."""
    for folder in MANUALS:
        path = folder / f"man{section}" / f"{name}.{section}.gz"
        if path.exists():
            text = gzip.decompress(path.read_bytes()).decode("utf-8", "replace")
            link = re.match(r"\.so man\d/(\S+)\.(\d)", text)
            return page(link[1], link[2]) if link else text
    return None


def headings(text: str) -> list[str]:
    """The headings of a page, as they are read."""
    found = re.findall(r"^\.S[HS] (.*)$", text, re.M)
    return [it.replace('"""', '"').strip('"').replace("\\-", "-") for it in found]


def stands(part: str) -> bool | None:
    """Whether a place exists: None where its page isn't here."""
    place = re.sub(r", \d$", "", part)
    if place.startswith(RST):
        return place.partition(", ")[2] in read("docs/FORMATS.md")
    if place.startswith("docs/"):
        name, _, heading = place.partition(", ")
        if not heading:
            return (TOP / name).exists()
        return any(it.startswith(heading.strip('"')) for it in
                   re.findall(r"^## (.*)$", read(name), re.M))  # fmt: skip
    found = re.fullmatch(r"(\w+)\((\d)\), (.*)", place)
    if found is None:
        return False
    text = page(found[1], found[2])
    if text is None:
        return None
    where = found[3].strip('"')
    if re.fullmatch(r"(PR|CLONE)_\w+", where):
        return where in text
    return any(it.startswith(where) for it in headings(text))


@lru_cache(None)
def read(name: str) -> str:
    """A page of this repository."""
    return (TOP / name).read_text(encoding="utf-8")


def faults(sources: Counter[str]) -> tuple[str, list[str]]:
    """How many places there are, and those that don't exist."""
    parts = {part for source in sources for part in source.split("; ")}
    found = {part: stands(part) for part in parts}
    lacking = [f"there is no {part}" for part, there in sorted(found.items()) if there is False]
    away = sum(there is None for there in found.values())
    told = f"{len(parts)} sources"
    if away:
        told += f", {away} of them in manual pages that are not installed here"
    return told, lacking
