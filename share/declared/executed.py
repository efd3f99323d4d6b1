"""The file that is executed, as it stands there now; of a script file its interpreter."""

from __future__ import annotations

import os
import re
from collections.abc import Callable
from dataclasses import dataclass, replace

from kernel.script import File

from .places import Bears, Place
from .script import Moment, Script
from .tree import Found, Tree

SET_ID = 0o6000
# The kernel follows so many interpreters (load_script() by way of fs/exec.c).
INTERPRETERS = 5
# A file that can't be looked at: most programs are so.
PLAIN = Found(0, 0, 0o755)


@dataclass(frozen=True)
class Execution:
    """What is executed, and where: a path of a tree, whether a setting makes it nosuid there,
    which ids the program's user namespace has, and how the launcher names a failure."""

    path: str
    tree: Tree
    place: Place
    nosuid: Place | None = None
    mapped: Callable[[int], bool] = lambda _: True
    step: str = "exec"


def name_of(count: int, path: str) -> str:
    """A name that a script may have for a file."""
    return re.sub(r"[^A-Za-z0-9_.-]", "_", f"f{count}-{os.path.basename(path)}")[:32]


def look(script: Script, it: Execution, path: str) -> Found:
    """The file of a path. One that isn't there is taken as plain, and named."""
    try:
        found = it.tree.find(path)
    except (OSError, ValueError) as fault:
        why = getattr(fault, "strerror", None) or str(fault)
        text = f"{path}: {why}: it is taken as a plain file of root's, 0755, with no attribute"
        script.doubt("file", text, it.place, bears=Bears.ALL)
        return PLAIN
    if found.noexec:
        script.fail(it.step, f"EACCES: {path} lies on a mount with noexec", it.place)
    if not (found.is_regular or found.is_dir):
        script.fail(it.step, f"EACCES: {path} is no regular file", it.place)
    return found


def declare(script: Script, it: Execution, path: str) -> Found:
    """A file of the script."""
    found = look(script, it, path)
    mode = found.mode
    if mode & SET_ID and not (it.mapped(found.owner) and it.mapped(found.group)):
        mode &= ~SET_ID
        script.note(
            f"{path} belongs to {found.owner}:{found.group}, which the program's user namespace "
            "doesn't map: its set-id bits don't count (user_namespaces(7))", it.place
        )  # fmt: skip
    nosuid = found.nosuid or it.nosuid is not None
    if it.nosuid is not None and (mode & SET_ID or found.attribute):
        script.note(
            f"{path} lies where this mounts, and the mount is nosuid as no_new_privs is asked for: "
            "its set-id bits and its attribute don't count", it.nosuid
        )  # fmt: skip
    name = name_of(len(script.files), path)
    attribute = found.attribute
    if attribute is not None and len(attribute) > 64:
        script.doubt("file", f"{path} has an attribute of {len(attribute)} bytes", it.place,
                     bears=Bears.ALL)  # fmt: skip
        attribute = None
    script.file(File(name, found.is_dir, found.owner, found.group, mode, nosuid, attribute))
    return replace(found, attribute=attribute)


def interpreter(head: bytes) -> str:
    """The interpreter that the first line of a script file names; empty where it names none."""
    words = head[2:].split(b"\n")[0].split()
    return words[0].decode("latin-1") if words else ""


def execute(script: Script, it: Execution) -> None:
    """The execve, with questions before it and behind it."""
    path = it.path
    for _ in range(INTERPRETERS):
        found = declare(script, it, path)
        name = script.files[-1].name
        if not found.head.startswith(b"#!"):
            if found.head and not found.head.startswith(b"\x7fELF"):
                script.doubt("file", f"{path} is neither an ELF file nor begins with #!: execve(2) "
                             "is ENOEXEC unless binfmt_misc has a handler", it.place,
                             bears=Bears.ALL)  # fmt: skip
            script.ask(Moment.BEFORE)
            script.add(f"exec {name}", it.place, step=it.step)
            script.ask(Moment.AFTER)
            return
        why = f"{path} is a script file: it must be executable, and its own set-id bits and " \
              "attribute don't count"  # fmt: skip
        script.add(f"check {name} x", it.place, why=why, step=it.step)
        path = interpreter(found.head)
        if not path:
            break
    script.fail(it.step, f"{it.path}: no interpreter is found", it.place)
    script.ask(Moment.BEFORE)
