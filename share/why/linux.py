"""What Linux makes of an execve otherwise than the rules, by the rows of docs/LINUX.md.

No answer of the program says this, and nothing of it is proved: it is computed by share/kernel, of
the credential before the execve and of the file.
"""

from __future__ import annotations

from collections.abc import Sequence

from kernel.on_execve import Before, Compared, compared, sentence
from kernel.script import File as KernelFile
from kernel.script import hex_bytes

from .names import ERRORS, SETS, listed, named
from .reason import Reason
from .script import File

SOURCE = "docs/LINUX.md"


def of_kernel(file: File) -> KernelFile:
    """A file, as share/kernel has one."""
    attribute = hex_bytes(file.attribute) if file.attribute else None
    is_dir = file.kind == "dir"
    return KernelFile(
        file.name, is_dir, file.owner, file.group, file.mode, file.nosuid, attribute
    )  # fmt: skip


def execve(
    file: File, ids: Sequence[int], caps: Sequence[int], groups: Sequence[int],
    bits: Sequence[int], chain: Sequence[int],
) -> Compared:  # fmt: skip
    """The execve of a file by a task with these ids, sets, groups and flags, by both."""
    before = Before(
        tuple(ids[:4]), tuple(ids[4:]), tuple(groups), tuple(caps), bits[0], bool(bits[1])
    )
    return compared(before, of_kernel(file), chain)


def left(it: Compared, mask: int) -> str:
    """What Linux leaves, of these capabilities where the rules leave other ones."""
    if it.linux.error:
        return f"the execve is {ERRORS.get(it.linux.error, it.linux.error)} there"
    if it.manual.error:
        return "the execve is not refused there"
    sets = [
        f"{name} {named(linux & mask)}"
        for name, manual, linux in zip(SETS, it.manual.sets, it.linux.sets, strict=True)
        if (manual ^ linux) & mask
    ]
    if sets:
        return f"there it leaves {listed(sets)}"
    ids = it.linux.users + it.linux.group_ids
    return f"there it leaves the ids {' '.join(map(str, ids))}"


def reasons(it: Compared, mask: int) -> list[Reason]:
    """The sentences on the rows that decide something of these capabilities, or of the ids."""
    manual, linux = it.manual, it.linux
    ids = (manual.users, manual.group_ids) != (linux.users, linux.group_ids)
    sets = any((one ^ other) & mask for one, other in zip(manual.sets, linux.sets, strict=True))
    if not (sets or ids or manual.error != linux.error):
        return []
    text = "; ".join(sentence(row) for row in it.rows)
    return [Reason(f"by docs/LINUX.md, not by proof: {text}; {left(it, mask)}", SOURCE)]
