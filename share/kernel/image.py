"""A small file system whose files have attributes that setxattr(2) refuses: damaged ones, those of
version 1, and those with other flags. mke2fs(8) makes it and debugfs(8) puts the files into it.
"""

from __future__ import annotations

import os
import shutil
import subprocess

from .isolation import Fault, made_apart
from .script import File

SIZE = 8 << 20
WORLD = os.pathsep + "/sbin" + os.pathsep + "/usr/sbin"


def tool(name: str) -> str | None:
    """Where a tool is."""
    return shutil.which(name, path=os.environ.get("PATH", "") + WORLD)


def can_make() -> bool:
    """Whether the tools are there."""
    return tool("mke2fs") is not None and tool("debugfs") is not None


def commands(file: File, program: str, bytes_of: str) -> list[str]:
    """The commands of debugfs that make a file."""
    name = file.name
    return [
        f"write {program} {name}",
        f"sif {name} mode 010{file.mode:04o}",
        f"sif {name} uid {file.owner}",
        f"sif {name} gid {file.group}",
        f"ea_set -f {bytes_of} {name} security.capability",
    ]


def made(files: list[File], program: bytes, folder: str) -> bytes:
    """The image, made in this folder."""
    image, source, script = (os.path.join(folder, it) for it in ("image", "program", "commands"))
    with open(image, "wb") as target:
        target.truncate(SIZE)
    with open(source, "wb") as target:
        target.write(program)
    lines = []
    for number, file in enumerate(files):
        attribute = os.path.join(folder, f"a{number}")
        with open(attribute, "wb") as target:
            target.write(file.attribute or b"")
        lines += commands(file, source, attribute)
    with open(script, "w", encoding="ascii") as target:
        target.write("\n".join([*lines, ""]))
    plain = ["-q", "-F", "-I", "256", "-b", "1024", "-O", "^has_journal", image]
    make, fill = (tool(name) or name for name in ("mke2fs", "debugfs"))
    for words in ([make, *plain], [fill, "-w", "-f", script, image]):
        nothing = subprocess.DEVNULL
        done = subprocess.run(words, stdout=nothing, stderr=nothing, check=False)
        if done.returncode:
            raise Fault(f"{words[0]} ended with status {done.returncode}")
    with open(image, "rb") as result:
        return result.read()


def image_of(files: list[File], program: bytes) -> bytes:
    """The image with these files, each with the program's bytes."""
    return made_apart(lambda folder: made(files, program, folder))
