"""The command credtrace-from-unit: what a service of systemd will have, by its unit."""

from __future__ import annotations

import argparse

from . import options, users
from .declaration import Declaration
from .tree import Disk, Tree
from .unit import commands, convert, fragments, versions
from .unit.convert import Host

NAME = "credtrace-from-unit"


def number(word: str) -> int:
    """The number of a version."""
    if word.isascii() and word.isdigit() and 0 < int(word[:6]) < 10_000:
        return int(word)
    raise argparse.ArgumentTypeError(f"{word[:40]} is no version of systemd, as 252")


def parsed(words: list[str]) -> argparse.Namespace:
    """The words of the command line."""
    parser = argparse.ArgumentParser(
        prog=NAME, description="Says which ids, groups and capabilities a service has."
    )
    parser.add_argument(
        "unit", metavar="UNIT", help="the unit's name, or with a slash the path of its file"
    )
    parser.add_argument(
        "--command", metavar="KEY:N", default="ExecStart", help="as ExecStart:2, the second of them"
    )
    parser.add_argument(
        "--root", metavar="DIR", default="/", help="the units, users and files of this folder"
    )
    parser.add_argument(
        "--unit-path", metavar="DIR", nargs="+", action="extend",
        help="look for units here, in place of systemd's folders",
    )  # fmt: skip
    parser.add_argument(
        "--systemd", metavar="N", type=number, help="the version, where it isn't this machine's"
    )
    options.add(parser)
    return parser.parse_args(words)


def main(words: list[str], tree: Tree | None = None) -> int:
    """Answers a unit. A tree stands in for the files of the machine."""
    given = parsed(words)

    def make() -> Declaration:
        which = commands.choice(given.command)
        found = fragments.find(given.unit, given.root, given.unit_path)
        host = Host(
            tree or Disk(given.root), users.of_tree(given.root), options.launcher_of(given),
            versions.given(given.systemd),
        )  # fmt: skip
        return convert.convert(found, which, host)

    return options.run(NAME, make, options.output_of(given), options.wants_of(given))
