"""Rows of docs/LINUX.md on calls that change a file: chown(2), chmod(2), setxattr(2)."""

from __future__ import annotations

from linux.rows import (
    AS_WRITTEN, CHOWN_ENOUGH, CHOWN_KEEPS, CHOWN_STAYS, CHOWN_TAKES, MAPPED_FILE, NO_ATTRIBUTE,
    OTHER_ATTRIBUTE,
)  # fmt: skip

from ..script.script import Line

ALL = (
    CHOWN_KEEPS, CHOWN_ENOUGH, CHOWN_TAKES, CHOWN_STAYS, MAPPED_FILE, NO_ATTRIBUTE, OTHER_ATTRIBUTE,
    AS_WRITTEN,
)  # fmt: skip

FORMS = ("chown", "chmod", "setattr", "clearattr")
# The forms of which a file's state decides, or tells.
OF_FILES = (*FORMS, "stat", "exec", "open", "check", "access")


def refused(line: Line, pair: tuple[str, str]) -> str | None:
    """The row by which the kernel refuses what the program allows, or otherwise."""
    form = line.words[1]
    if form == "setattr" and pair[0] == "einval":
        return NO_ATTRIBUTE if pair[1] == "eperm" else OTHER_ATTRIBUTE
    if pair != ("eperm", "ok"):
        return None
    mode = int(line.facts.words.split()[3], 8)
    if form == "chown" and mode & 0o6000:
        return CHOWN_ENOUGH
    return MAPPED_FILE if line.facts.unmapped else None


def kept(line: Line) -> list[str]:
    """The rows by which the file may be another one after a call that succeeded."""
    words, now = line.words, line.facts.words.split()
    mode, has_caps = int(now[3], 8), "caps" in now
    privileged = bool(mode & 0o6000) or has_caps
    found = []
    if words[1] == "chown" and now[0] == "reg":
        found += [CHOWN_KEEPS] if words[3:] == ["-1", "-1"] and privileged else []
        found += [CHOWN_TAKES] if not mode & 0o111 and privileged else []
        found += [CHOWN_STAYS] if mode & 0o2010 == 0o2000 else []
    if words[1] == "setattr" and line.facts.inside:
        found.append(AS_WRITTEN)
    if words[1] == "chmod" and line.facts.unmapped and int(words[3], 8) & 0o2000:
        found.append(MAPPED_FILE)
    return found
