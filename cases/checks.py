"""Checks of a file and of a directory by a process, as path_resolution(7) has them.

A generator says which processes ask, and how they came to be. Here is what each is granted.
"""
from collections.abc import Iterator
from dataclasses import dataclass

# What each octal digit of a mode permits: "read (4), write (2), and execute (1)" (chmod(1)). To
# execute a directory is to search it.
DIGITS = [{*it} for it in ("", "x", "w", "wx", "r", "rx", "rw", "rwx")]
ASKED = {it: {*it} for it in ("r", "w", "x", "rw", "rx", "wx", "rwx")}
CAP_DAC_OVERRIDE, CAP_DAC_READ_SEARCH = 1, 2


@dataclass(frozen=True)
class Process:
    """A process that a check asks for, as the page speaks of it."""

    fsuid: int
    fsgid: int
    supplementary: int
    dac_override: bool
    dac_read_search: bool


@dataclass(frozen=True)
class File:
    """A file or a directory."""

    kind: str
    mode: int
    owner: int
    group: int

    def name(self) -> str:
        """Its name in a script."""
        return f"{self.kind}{self.mode:03o}-u{self.owner}"

    def declared(self) -> str:
        """The line that declares it."""
        return f"file {self.name()} {self.kind} {self.owner} {self.group} 0{self.mode:03o}"

    def digits(self) -> list[set[str]]:
        """What the owner may, the group, and the others."""
        return [DIGITS[self.mode >> shift & 7] for shift in (6, 3, 0)]


def by_bits(process: Process, file: File) -> set[str]:
    """What the bits grant."""
    owner, group, others = file.digits()
    # "The first group of three is used when the effective user ID of the calling process equals
    # the owner ID of the file." But: "Linux uses the fsuid instead of the effective user ID in
    # permission checks."
    if process.fsuid == file.owner:
        return owner
    # "The second group of three is used when the group ID of the file either equals the effective
    # group ID of the calling process, or is one of the supplementary group IDs of the calling
    # process (as set by setgroups(2))." But: "Linux uses the fsgid ("filesystem group ID")
    # instead".
    if file.group in (process.fsgid, process.supplementary):
        return group
    # "When neither holds, the third group is used."
    return others


def by_override(file: File) -> set[str]:
    """What CAP_DAC_OVERRIDE grants."""
    # "The CAP_DAC_OVERRIDE capability overrides all permission checking, but grants execute
    # permission only when at least one of the file's three execute permission bits is set." It is
    # files that it speaks of: a directory is searched (fs/namei.c: "DACs are overridable for
    # directories").
    executable = any("x" in it for it in file.digits())
    return DIGITS[7] if file.kind == "dir" or executable else DIGITS[6]


def by_read_search(file: File) -> set[str]:
    """What CAP_DAC_READ_SEARCH grants."""
    # "The CAP_DAC_READ_SEARCH capability grants read and search permission on directories, and read
    # permission on ordinary files."
    return DIGITS[5] if file.kind == "dir" else DIGITS[4]


def granted(process: Process, file: File) -> Iterator[set[str]]:
    """What is granted at once, by the bits or by one capability: all that is asked has to be among
    what one of these grants, since the kernel asks for the whole mask each time (fs/namei.c).
    """
    yield by_bits(process, file)
    if process.dac_override:
        yield by_override(file)
    if process.dac_read_search:
        yield by_read_search(file)


def told(process: Process, file: File, letters: str) -> str:
    """The answer to a check for all of these."""
    asked = ASKED[letters]
    return "ok" if any(asked <= it for it in granted(process, file)) else "eacces"
