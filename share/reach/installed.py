"""The files of a system that give something to who executes them, as lines of a script."""

from __future__ import annotations

import os
import re
import stat
from collections.abc import Iterator
from dataclasses import dataclass, field
from pathlib import Path

from .declared import LONGEST_NAME

ATTRIBUTE = "security.capability"
# A script declares so many files; one more is the plain program.
MOST = 255
# The longest attribute that a script may have, in bytes.
LONGEST_ATTRIBUTE = 64


@dataclass(frozen=True)
class Found:
    """A file that gives something, as the system has it."""

    path: str
    owner: int
    group: int
    mode: int
    nosuid: bool
    attribute: str


@dataclass
class Survey:
    """What was found, and what couldn't be looked at."""

    files: list[Found] = field(default_factory=list)
    closed: list[str] = field(default_factory=list)
    looked: int = 0


def attribute_of(path: str) -> str:
    """The bytes of a file's capability attribute, in hexadecimal digits; none where it has none."""
    try:
        return os.getxattr(path, ATTRIBUTE, follow_symlinks=False)[:LONGEST_ATTRIBUTE].hex()
    except OSError:
        return ""


def entries(folder: str, survey: Survey) -> list[os.DirEntry[str]]:
    """What lies in a folder, in the order of the names."""
    try:
        with os.scandir(folder) as found:
            return sorted(found, key=lambda entry: entry.name)
    except OSError as fault:
        survey.closed.append(f"{folder}: {fault.strerror}")
        return []


def is_nosuid(path: str) -> bool:
    """Whether a file lies where set-id bits and attributes have no effect."""
    return bool(os.statvfs(path).f_flag & os.ST_NOSUID)


def look_at(path: str, told: os.stat_result, survey: Survey) -> None:
    """Notes a file, if it gives something."""
    survey.looked += 1
    attribute = attribute_of(path)
    if told.st_mode & (stat.S_ISUID | stat.S_ISGID) or attribute:
        mode = stat.S_IMODE(told.st_mode)
        found = Found(path, told.st_uid, told.st_gid, mode, is_nosuid(path), attribute)
        survey.files.append(found)


def survey_of(folders: list[str], cross: bool) -> Survey:
    """Looks through folders. Other file systems that are mounted below one are left out, unless
    they are wanted: a remote one may be large, and /proc has no programs."""
    survey = Survey()
    for top in folders:
        device = os.stat(top).st_dev
        waiting = [top]
        while waiting:
            folder = waiting.pop()
            deeper = []
            for entry in entries(folder, survey):
                told = told_of(entry, survey)
                if told is None:
                    continue
                if stat.S_ISDIR(told.st_mode) and (cross or told.st_dev == device):
                    deeper.append(entry.path)
                elif stat.S_ISREG(told.st_mode):
                    look_at(entry.path, told, survey)
            waiting += reversed(deeper)
    return survey


def told_of(entry: os.DirEntry[str], survey: Survey) -> os.stat_result | None:
    """What stat(2) says of an entry; nothing where it is gone, or can't be asked."""
    try:
        return entry.stat(follow_symlinks=False)
    except FileNotFoundError:
        return None
    except OSError as fault:
        survey.closed.append(f"{entry.path}: {fault.strerror}")
        return None


def name_of(path: str, taken: set[str]) -> str:
    """A name for a file that a script may have, and no other one has."""
    plain = re.sub(r"[^A-Za-z0-9_.-]", "_", Path(path).name)
    plain = plain if plain[:1].isalpha() else f"f{plain}"
    found, number = plain[:LONGEST_NAME], 2
    while found in taken:
        end = f"-{number}"
        found, number = f"{plain[: LONGEST_NAME - len(end)]}{end}", number + 1
    taken.add(found)
    return found


def lines_of(files: list[Found]) -> Iterator[str]:
    """The lines of a script, each below a comment with the path."""
    taken: set[str] = set()
    for file in files:
        path = "".join(c if " " <= c <= "~" else "?" for c in file.path)
        more = " nosuid" if file.nosuid else ""
        more += f" caps {file.attribute}" if file.attribute else ""
        yield f"# {path}"
        name = name_of(file.path, taken)
        yield f"file {name} reg {file.owner} {file.group} {file.mode:04o}{more}"
