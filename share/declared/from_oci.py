"""The command credtrace-from-oci: what a container's program will have, by its config.json."""

from __future__ import annotations

import argparse

from . import options
from .declaration import Declaration
from .oci import config, convert
from .oci.orders import Runtime

NAME = "credtrace-from-oci"


def parsed(words: list[str]) -> argparse.Namespace:
    """The words of the command line."""
    parser = argparse.ArgumentParser(
        prog=NAME, description="Says which ids, groups and capabilities a container's program has."
    )
    parser.add_argument("config", metavar="BUNDLE", help="the bundle, or its config.json")
    parser.add_argument(
        "--runtime", choices=[it.value for it in Runtime], default="runc", help="runc, if not named"
    )
    options.add(parser)
    return parser.parse_args(words)


def main(words: list[str]) -> int:
    """Answers a config."""
    given = parsed(words)

    def make() -> Declaration:
        found = config.read(given.config)
        return convert.convert(found, Runtime(given.runtime), options.launcher_of(given))

    return options.run(NAME, make, options.output_of(given), options.wants_of(given))
