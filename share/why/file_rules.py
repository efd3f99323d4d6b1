"""Files that change: what each call makes of one, and why it is refused."""

from __future__ import annotations

from collections.abc import Callable, Iterator, Sequence
from dataclasses import dataclass, replace

from . import sources
from .execve import GROUP_EXECUTES, SET_GID, SET_UID
from .names import EFFECTIVE, NUMBERS
from .program import decoded
from .reason import Fault, Reason
from .script import File

CHOWN, FOWNER, FSETID, SETFCAP = (
    NUMBERS[f"CAP_{name}"] for name in ("CHOWN", "FOWNER", "FSETID", "SETFCAP")
)
KEPT = "-1"
# Gives the ids, the sets and the groups of a credential.
Asked = Callable[[int], tuple[Sequence[int], Sequence[int], Sequence[int]]]
EXECUTES = 0o111
# The events, each with its label and the name of its file.
EVENTS = ("chown", "chmod", "setattr", "clearattr", "stat")


@dataclass(frozen=True)
class Version:
    """A file behind a call that changed it: what was before, the call, and its credential."""

    before: File | Version
    words: list[str]
    credential: int

    def chain(self) -> Iterator[Version]:
        """This one, and those before it."""
        link: File | Version = self
        while isinstance(link, Version):
            yield link
            link = link.before

    def credentials(self) -> Iterator[int]:
        """The credentials that the mode rests on."""
        for link in self.chain():
            if link.words[0] == "chmod" and int(link.words[3], 8) & SET_GID:
                yield link.credential


def named(words: list[str]) -> str | None:
    """The file that an event decides on."""
    if words[0] in EVENTS or words[0] == "open":
        return words[2]
    if words[0] in ("ask", "change") and words[2] in ("check", "exec"):
        return words[3]
    return None


def is_member(file: File, ids: Sequence[int], groups: Sequence[int]) -> bool:
    """Whether a task is in the file's group."""
    return file.group == ids[7] or file.group in groups


def stands(version: File | Version, asked: Asked) -> File:
    """The file behind the calls that changed it."""
    calls: list[Version] = []
    while isinstance(version, Version):
        calls.append(version)
        version = version.before
    for link in reversed(calls):
        version = changed(version, link, asked)
    return version


def changed(file: File, link: Version, asked: Asked) -> File:
    """What a call makes of a file."""
    call, words = link.words[0], link.words[3:]
    if call == "chown":
        owner, group = words
        found = replace(
            file,
            owner=file.owner if owner == KEPT else int(owner),
            group=file.group if group == KEPT else int(group),
        )
        if words == [KEPT, KEPT] or file.kind != "reg" or not file.mode & EXECUTES:
            return found
        bits = SET_UID | (SET_GID if file.mode & GROUP_EXECUTES else 0)
        return replace(found, mode=file.mode & ~bits, attribute=None)
    if call == "chmod":
        mode = int(words[0], 8)
        if mode & SET_GID:
            ids, caps, groups = asked(link.credential)
            if not caps[EFFECTIVE] >> FSETID & 1 and not is_member(file, ids, groups):
                mode &= ~SET_GID
        return replace(file, mode=mode)
    return replace(file, attribute=words[0] if call == "setattr" else None)


def chown_lacks(
    file: File, owner: str, group: str, ids: Sequence[int], groups: Sequence[int]
) -> str | None:
    """Why a task may not chown as the file's owner, or nothing."""
    if ids[3] != file.owner:
        return f"the filesystem user id {ids[3]} is not the owner {file.owner}"
    if owner not in (KEPT, str(file.owner)):
        return f"the owner {file.owner} may not give the file to {owner}"
    if group not in (KEPT, str(file.group), str(ids[7])) and int(group) not in groups:
        return f"{group} is neither the filesystem group id {ids[7]} nor a supplementary group"
    return None


def refusal(
    words: list[str],
    told: str,
    file: File,
    ids: Sequence[int],
    caps: Sequence[int],
    groups: Sequence[int],
) -> Reason:
    """Why a call on a file is refused."""
    call, has = words[0], caps[EFFECTIVE]
    if call == "chown" and told == "eperm" and not has >> CHOWN & 1 and words[3:] != [KEPT, KEPT]:
        lacks = chown_lacks(file, words[3], words[4], ids, groups)
        if lacks:
            return Reason(f"EPERM: {lacks}; and CAP_CHOWN is not effective", sources.errors(call))
    if call == "chmod" and told == "eperm" and not has >> FOWNER & 1 and ids[3] != file.owner:
        text = f"EPERM: the filesystem user id {ids[3]} is not the owner {file.owner}; and "
        return Reason(f"{text}CAP_FOWNER is not effective", sources.errors(call))
    if call in ("setattr", "clearattr"):
        found = attribute_refused(words, told, bool(has >> SETFCAP & 1))
        if found:
            return found
    raise Fault(f"{' '.join(words)} was answered {told}, and no condition for it holds")


def attribute_refused(words: list[str], told: str, has: bool) -> Reason | None:
    """Why an attribute isn't set."""
    if told == "eperm" and not has:
        return Reason("EPERM: CAP_SETFCAP is not effective", sources.LIST)
    said = decoded(words[3]) if words[0] == "setattr" and has else None
    if told == "einval" and isinstance(said, str):
        return Reason(f"EINVAL: the bytes are no attribute ({said})", sources.VERSIONS)
    return None


def allowed(
    words: list[str], file: File, ids: Sequence[int], caps: Sequence[int], groups: Sequence[int]
) -> list[Reason]:
    """Why a call on a file isn't refused, and what it takes from the file."""
    call, has = words[0], caps[EFFECTIVE]
    if call == "stat":
        return []
    if call == "chown":
        lacks = chown_lacks(file, words[3], words[4], ids, groups)
        kept = words[3:] == [KEPT, KEPT]
        why = "both ids are kept" if kept else "CAP_CHOWN is effective" if has >> CHOWN & 1 else (
            f"the filesystem user id {ids[3]} is the owner's")  # fmt: skip
        if not kept and lacks and not has >> CHOWN & 1:
            raise Fault(f"the chown was allowed, but {lacks}")
        return [Reason(f"allowed: {why}", sources.text(call)), *stripped(file, kept)]
    name = {"chmod": "CAP_FOWNER"}.get(call, "CAP_SETFCAP")
    if call == "chmod" and ids[3] == file.owner:
        text = f"allowed: the filesystem user id {ids[3]} is the owner's"
        return [Reason(text, sources.text(call))]
    if not has >> NUMBERS[name] & 1:
        raise Fault(f"{call} was allowed, but {name} is not effective")
    return [Reason(f"allowed: {name} is effective", sources.LIST)]


def stripped(file: File, kept: bool) -> list[Reason]:
    """What a chown takes from an executable file."""
    if kept or file.kind != "reg" or not file.mode & EXECUTES:
        return []
    lost = ["the set-user-ID bit"] if file.mode & SET_UID else []
    if file.mode & SET_GID and file.mode & GROUP_EXECUTES:
        lost.append("the set-group-ID bit")
    lost += ["the capability attribute"] if file.attribute else []
    if not lost:
        return []
    text = f"{' and '.join(lost)} of {file.name} {'is' if len(lost) == 1 else 'are'} gone: an owner"
    return [Reason(f"{text} or a group of an executable file is given", sources.text("chown"))]
