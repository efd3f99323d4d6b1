"""What a kernel can run, and why not."""

from __future__ import annotations

from collections.abc import Iterator

from .lines import OPENS
from .script import FILE_IDS, FIRST_IDS, Script, called, numbers
from .setup import Place, executed, in_image, spaces_used

# The events that a program has no call for.
OWN_CODE = {
    "prepare": "prepared credentials", "change": "prepared credentials",
    "commit": "prepared credentials", "abort": "prepared credentials",
    "override": "overrides", "revert": "overrides", "sweep": "the sweep",
    "takefile": "an opener's credential",
}  # fmt: skip
KERNEL_MADE = "{}: the kernel's own code makes them, no call does"
OPENER = "no call tells what an open file's opener was able to do"
NO_EXECUTE = "open(2) asks for no execute permission, and opens no directory for writing"
BUSY = "a program that runs isn't opened for writing (ETXTBSY)"
DESCRIPTORS = "a descriptor is one of its process, not of the whole system"
SPACES_OF_PROCESS = "the threads of a process are in one user namespace"
LOOKS = "the driver doesn't ask who may look into whom"
CHANGED = "the driver changes no file"
RAW = "the driver makes no call for one thread alone, and none by a record"
NO_SPACES = "user namespaces can't be created here"
EVERY_ID = ((0, 0xFFFFFFFF),)
NOT_MAPPED = "ids that aren't mapped here"
DENIED = "setgroups(2) is denied here, so that a first task has other groups"
NO_ATTRIBUTES = "attributes can't be set here"
NO_IMAGE = "attributes that setxattr(2) refuses can't be had here"


def processes(script: Script) -> dict[str, str]:
    """The process of each task, as lines say it."""
    found: dict[str, str] = {}
    for line in script.lines:
        words = (*line.words, "")
        if words[0] == "init":
            found.setdefault(words[1], words[2])
        elif words[1] == "spawn":
            found.setdefault(words[2], found.get(words[0], ""))
        elif words[1] == "fork":
            found.setdefault(words[2], words[3])
    return found


def forms(script: Script) -> Iterator[str]:
    """Reasons that the forms of its lines give."""
    process: dict[str, str] = {}
    owner: dict[str, str] = {}
    runs = executed(script)
    for line in script.lines:
        words = (*line.words, "")
        if words[0] in OWN_CODE:
            yield KERNEL_MADE.format(OWN_CODE[words[0]])
        elif words[1] == "fcap":
            yield OPENER
        elif words[1] in ("ptrace", "dumpable", "dumped"):
            yield LOOKS
        elif words[1] in ("chown", "chmod", "setattr", "clearattr", "stat"):
            yield CHANGED
        elif words[1] in ("raw", "capsetraw"):
            yield RAW
        elif words[1] == "open":
            if words[3] not in OPENS or "w" in words[3] and script.files[words[2]].is_dir:
                yield NO_EXECUTE
            if "w" in words[3] and words[2] in runs:
                yield BUSY
        if words[1] not in ("open", "close"):
            continue
        process = process or processes(script)
        name = words[4] if words[1] == "open" else words[2]
        of_task = process.get(words[0])
        if of_task is None or owner.setdefault(name, of_task) != of_task:
            yield DESCRIPTORS


def spaces_of_processes(script: Script) -> Iterator[str]:
    """Reasons that first tasks give."""
    space: dict[str, str] = {}
    for line in script.lines:
        words = line.words
        if words[0] == "init" and space.setdefault(words[2], words[5]) != words[5]:
            yield SPACES_OF_PROCESS


def all_mapped(script: Script, place: Place) -> bool:
    """Whether the ids of a script are there. Of those that calls name this is no matter where the
    map is narrower than it could be: there the call itself says so.
    """
    narrow = place.extents != place.known
    first = numbers(FIRST_IDS, script) | (set() if narrow else called(script))
    return all(map(place.has, first)) and all(map(place.knows, numbers(FILE_IDS, script)))


def here(script: Script, place: Place) -> Iterator[str]:
    """Reasons that this machine gives."""
    if not place.spaces and len(spaces_used(script)) > 1:
        yield NO_SPACES
    if place.extents != EVERY_ID and not all_mapped(script, place):
        yield NOT_MAPPED
    if place.denied and any("groups" in it.words for it in script.lines):
        yield DENIED
    if not place.attributes and any(it.attribute is not None for it in script.files.values()):
        yield NO_ATTRIBUTES
    if not place.images and in_image(script):
        yield NO_IMAGE


def why_not(script: Script, place: Place) -> str | None:
    """The first reason why this script can't be run, or none."""
    for reasons in (forms(script), spaces_of_processes(script), here(script, place)):
        for reason in reasons:
            return reason
    return None
