"""What stands before a script's calls, in the driver's words: files, namespaces, first tasks."""

from __future__ import annotations

from dataclasses import dataclass

from .lines import IMAGE_FD, Writer, path
from .rules import chain
from .script import File, Script

# What setxattr(2) takes of an attribute: two revisions with their lengths, and no flag but one.
REVISIONS = {2: 20, 3: 24}
NO_ROOT = b"\xff" * 4


def within(extents: tuple[tuple[int, int], ...], number: int) -> bool:
    """Whether an id is in one of these."""
    return any(first <= number < first + count for first, count in extents)


@dataclass(frozen=True)
class Place:
    """Where a script runs: the ids that are mapped, and what the machine allows.

    `extents` are those of namespace 0, pairs of a first id and how many there are, and `known`
    those of who runs the driver, which may be more; `own` says that namespace 0 is a user
    namespace of the driver's making; `denied` that setgroups(2) is. `spaces`, `attributes` and
    `images` say that others can be made, that setxattr(2) puts attributes, and that a file system
    can be mounted whose attributes it would refuse.
    """

    extents: tuple[tuple[int, int], ...] = ((0, 0xFFFFFFFF),)
    known: tuple[tuple[int, int], ...] = ((0, 0xFFFFFFFF),)
    own: bool = True
    denied: bool = False
    spaces: bool = True
    attributes: bool = True
    images: bool = True

    def has(self, number: int) -> bool:
        """Whether this id is mapped."""
        return within(self.extents, number)

    def knows(self, number: int) -> bool:
        """Whether a file can have this owner."""
        return within(self.known, number)


def swapped(root: int, number: int) -> int:
    """In a namespace 0 is the root id outside, and the other way round; all others are the same."""
    return root if number == 0 else 0 if number == root else number


def pieces(place: Place, cuts: list[int]) -> list[tuple[int, int]]:
    """The extents, with each of these ids in one of its own."""
    found = []
    for first, count in place.extents:
        end = first + count
        for cut in sorted({it for it in cuts if first <= it < end}):
            if cut > first:
                found.append((first, cut - first))
            found.append((cut, 1))
            first = cut + 1
        if first < end:
            found.append((first, end - first))
    return found


def id_map(place: Place, roots: list[int]) -> list[tuple[int, int, int]]:
    """The map of a namespace with this root id, and those of its ancestors behind it. A run of ids
    has to be in one run of the parent's map, so that each is cut where an ancestor's is.
    """
    root, above = (*roots, 0)[:2]
    found = []
    for first, count in pieces(place, [0, *roots]):
        outside = swapped(root, first)
        if place.has(outside):
            found.append((first, swapped(above, outside), count))
    return found


def settable(attribute: bytes) -> bool:
    """Whether setxattr(2) puts these bytes as they are."""
    revision, length = attribute[3] if len(attribute) > 3 else 0, len(attribute)
    plain = attribute[:3] in (b"\0\0\0", b"\1\0\0")
    return plain and REVISIONS.get(revision) == length and attribute[20:] != NO_ROOT


def in_image(script: Script) -> set[str]:
    """The files whose attribute a file system has to be made with."""
    return {
        it.name for it in script.files.values()
        if it.attribute is not None and not it.is_dir and not settable(it.attribute)
    }  # fmt: skip


def executed(script: Script) -> set[str]:
    """The files that lines execute."""
    return {it.words[2] for it in script.lines if it.words[1:2] == ("exec",)}


def file_line(file: File, is_executed: bool) -> str:
    """The line that makes a file."""
    has_attribute = file.attribute is not None and not file.is_dir
    attribute = (file.attribute or b"").hex() if has_attribute else "-"
    kind = "d" if file.is_dir else "r"
    ids = f"{file.owner} {file.group} {file.mode}"
    return f"F {path(file, False)} {kind} {ids} {int(is_executed)} {attribute}"


def space_line(script: Script, number: int, place: Place) -> str:
    """The line that makes a user namespace."""
    space = script.spaces[number]
    triples = [" ".join(map(str, it)) for it in id_map(place, chain(script, number))]
    words = (number, space.parent, space.root, int(place.own), int(place.denied))
    return f"N {' '.join(map(str, words))} {' '.join(triples)}"


def spaces_used(script: Script) -> list[int]:
    """The namespaces that first tasks are in, with those above them, the highest first."""
    used = {0}
    for line in script.lines:
        if line.words[0] == "init":
            number = int(line.words[5][1:])
            while number not in used:
                used.add(number)
                number = script.spaces[number].parent
    return [number for number in script.spaces if number in used]


def setup(script: Script, place: Place, named: set[str], has_image: bool) -> list[str]:
    """The lines before the calls."""
    image = IMAGE_FD if has_image else -1
    runs = executed(script)
    found = [f"M {image}"]
    others = [it for it in script.files.values() if it.name not in named]
    found += [file_line(it, it.name in runs) for it in others]
    found += [space_line(script, number, place) for number in spaces_used(script)]
    for line in script.lines:
        if line.words[0] == "init":
            task, process, user, group, space = line.words[1:]
            words = (line.number, task[1:], process[1:], user, group, space[1:], int(place.denied))
            found.append("I " + " ".join(map(str, words)))
    return [*found, "G"]


def whole(script: Script, place: Place, named: set[str], has_image: bool) -> str:
    """The script in the driver's words."""
    writer = Writer(script, named)
    calls = [
        f"{line.number} {writer.line(line)}" for line in script.lines if line.words[0] != "init"
    ]
    return "\n".join([*setup(script, place, named, has_image), *calls, ""])
