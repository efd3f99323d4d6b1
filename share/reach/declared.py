"""The files that a task may execute: those of the script as they stand, a list's, a plain one."""

from __future__ import annotations

from collections.abc import Iterable, Mapping, Sequence
from dataclasses import dataclass

import limits
from why.file_rules import Version
from why.program import decoded, report_of
from why.script import File

from .faults import Bad
from .lines import words_of

# A script declares so many files at most.
MOST_FILES = limits.FILES
LONGEST_NAME = 32
EXECUTES = 0o111


@dataclass(frozen=True)
class Attribute:
    """What the bytes of a file's capability attribute say. One of version 3 has a root id."""

    perm: int
    inh: int
    effective: bool
    root: int | None

    def counts(self, chains: Iterable[Sequence[int]]) -> bool:
        """Whether it counts for a task of one of the namespaces with these root ids."""
        return self.root is None or any(self.root in chain for chain in chains)


@dataclass(frozen=True)
class Executable:
    """A regular file as it stands: `spoiled` is one whose attribute's bytes say nothing."""

    name: str
    owner: int
    group: int
    mode: int
    nosuid: bool
    attribute: Attribute | None
    spoiled: bool

    @property
    def asks_who(self) -> bool:
        """Whether its owner and its group decide who may execute it: its execute bits differ."""
        return self.mode & EXECUTES not in (0, EXECUTES)

    def text(self) -> str:
        """What it is, as far as that gives something."""
        kinds = ["set-user-ID"] if self.mode & 0o4000 else []
        kinds += ["set-group-ID"] if self.mode & 0o2010 == 0o2010 else []
        kinds += ["with capabilities"] if self.attribute or self.spoiled else []
        kinds += ["nosuid"] if self.nosuid else []
        more = f", {', '.join(kinds)}" if kinds else ""
        return f"{self.name} ({self.owner}:{self.group} {self.mode:04o}{more})"


def attribute_of(file: File | Version, has_one: bool) -> Attribute | None | str:
    """The attribute of a file that has one now; or why its bytes say nothing."""
    if not has_one:
        return None
    links = list(file.chain()) if isinstance(file, Version) else []
    first = links[-1].before if links else file
    given = [link.words[3] for link in links if link.words[0] == "setattr"]
    found = given[0] if given else first.attribute if isinstance(first, File) else None
    said = decoded(found or "00")
    if isinstance(said, str):
        return said
    version, perm, inh, effective, root = said
    return Attribute(perm, inh, effective, root if version == 3 else None)


def as_it_stands(file: File, now: File | Version, told: str) -> Executable:
    """A file with the words that stat(2) was answered: owner, group, mode, whether it has an
    attribute. Which bytes that has the last call that set them says."""
    owner, group, mode, flag = told.split()
    found = attribute_of(now, flag == "1")
    attribute = found if isinstance(found, Attribute) else None
    return Executable(
        file.name, int(owner), int(group), int(mode, 8), file.nosuid, attribute,
        isinstance(found, str),
    )  # fmt: skip


def declarations(lines: Iterable[str]) -> dict[str, str]:
    """The lines that declare files, by the names."""
    found = {}
    for line in lines:
        words = words_of(line)
        if words[:1] == ["file"] and len(words) > 5:
            found[words[1]] = " ".join(words)
    return found


def named_anew(name: str, taken: Mapping[str, str]) -> str:
    """A name like this one that no file has."""
    if name not in taken:
        return name
    for number in range(2, MOST_FILES + 2):
        end = f"-{number}"
        found = f"{name[: LONGEST_NAME - len(end)]}{end}"
        if found not in taken:
            return found
    raise Bad(f"there are too many files named {name}")


def added_from(given: Sequence[str], path: str, script: Sequence[str]) -> list[str]:
    """The lines of a list that declare files which the script lacks. A file with a name that the
    script has for another one gets another name."""
    taken = declarations(script)
    found: list[str] = []
    try:
        report_of(("\n".join(given) + "\n").encode("latin-1"))
    except Bad as bad:
        raise Bad(f"{path}: {bad}") from None
    for number, line in enumerate(given, 1):
        words = words_of(line)
        if not words:
            continue
        if words[0] != "file" or len(words) < 6:
            form = "file NAME KIND OWNER GROUP MODE .."
            raise Bad(f"line {number} of {path} declares no file: {form}")
        if taken.get(words[1]) == " ".join(words):
            continue
        name = named_anew(words[1], taken)
        taken[name] = " ".join(["file", name, *words[2:]])
        found.append(taken[name])
    if len(taken) > MOST_FILES:
        raise Bad(f"with {path} there are {len(taken)} files: a script has {MOST_FILES} at most")
    return found


def plain_name(script: Sequence[str]) -> str:
    """A name for the plain program that every system has."""
    return named_anew("plain", declarations(script))


def plain_line(name: str) -> str:
    """A plain program of root's, which everybody may execute."""
    return f"file {name} reg 0 0 0755"
