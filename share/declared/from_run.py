"""The command credtrace-from-run: what a line of docker run or podman run gives a program."""

from __future__ import annotations

import argparse
import os

from . import options, users
from .declaration import Declaration
from .places import Bad
from .run import image, line
from .run.convert import Source, convert
from .run.engines import Engine

NAME = "credtrace-from-run"
# Where no image is unpacked: nothing lies there.
NOWHERE = "/nonexistent"


def parsed(words: list[str]) -> argparse.Namespace:
    """The words of the command line, those behind -- apart."""
    place = words.index("--") if "--" in words else len(words)
    parser = argparse.ArgumentParser(
        prog=NAME, usage="%(prog)s [OPTION ..] -- docker|podman run ..",
        description="Says which ids, groups and capabilities a line of docker run or podman run "
        "gives a program.",
    )  # fmt: skip
    parser.add_argument("--rootfs", metavar="DIR", help="the folder of the unpacked image")
    parser.add_argument(
        "--image", metavar="FILE", help="what docker image inspect or podman image inspect writes"
    )
    parser.add_argument(
        "--engine-version", metavar="V", default="", help="of docker or podman, as 20.10"
    )
    options.add(parser)
    given = parser.parse_args(words[:place])
    given.line = words[place + 1 :]
    return given


def source_of(given: argparse.Namespace, found: line.Line) -> Source:
    """Where the image is."""
    root = given.rootfs
    if found.engine is Engine.PODMAN and found.has("--rootfs"):
        root = root or found.image
    if root and not os.path.isdir(root):
        raise Bad(f"{root}: it is no folder of an unpacked image")
    known = image.read(given.image) if given.image else None
    names = users.of_texts(users.read(f"{root}/etc/passwd"), users.read(f"{root}/etc/group"))
    return Source(root or NOWHERE, None, names, bool(root), known, given.engine_version)


def main(words: list[str]) -> int:
    """Answers a line."""
    given = parsed(words)

    def make() -> Declaration:
        found = line.parsed(given.line)
        return convert(found, source_of(given, found), options.launcher_of(given))

    return options.run(NAME, make, options.output_of(given), options.wants_of(given))
