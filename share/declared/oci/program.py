"""Which file a container executes: by its PATH, in its root, through its mounts."""

from __future__ import annotations

import os
from dataclasses import dataclass

from ..executed import Execution
from ..places import Bears
from ..script import Script
from ..tree import Disk, Mount, Tree, below
from .config import Bound, Config
from .maps import Maps

# Where the config has no PATH.
PATHS = ("/usr/local/sbin", "/usr/local/bin", "/usr/sbin", "/usr/bin", "/sbin", "/bin")


def tree_of(config: Config) -> Disk:
    """The files of the container, with its bind mounts."""
    binds = [
        Mount(it.at, os.path.join(config.bundle, it.source), "nosuid" in it.options,
              "noexec" in it.options, it.place)
        for it in config.mounts if it.is_bind
    ]  # fmt: skip
    return Disk(config.root, binds)


def is_there(tree: Tree, path: str) -> bool:
    """Whether a path leads to a file that someone may execute."""
    try:
        found = tree.find(path)
    except (OSError, ValueError):
        return False
    return bool(found.mode & 0o111) and not found.is_dir


def path_of(config: Config, tree: Tree) -> str:
    """The path of the program: a word without a slash is looked for in the folders of PATH."""
    word = config.args[0]
    if "/" in word:
        return os.path.join("/", config.folder, word)
    paths = [os.path.join("/", folder, word) for folder in config.path or PATHS]
    return next((path for path in paths if is_there(tree, path)), paths[0])


def hiding(config: Config, path: str) -> Bound | None:
    """A mount that shows at this path what isn't known here."""
    found = [it for it in config.mounts if it.at != "/" and below(path, it.at)]
    return found[-1] if found and not found[-1].is_bind else None


@dataclass(frozen=True)
class Chosen:
    """The program of a config."""

    path: str
    tree: Tree


def chosen(config: Config, tree: Tree | None) -> Chosen:
    """The program, in the tree given, or in that of the config."""
    files = tree or tree_of(config)
    return Chosen(path_of(config, files), files)


def execution(script: Script, config: Config, it: Chosen, maps: Maps) -> Execution:
    """How it is executed."""
    hidden = hiding(config, it.path)
    if hidden is not None:
        text = f"{it.path} lies in a mount of type {hidden.kind or 'none'}: its files"
        script.doubt("mount", text, hidden.place, bears=Bears.ALL)
    place = config.place("process.args")
    return Execution(it.path, it.tree, place, mapped=maps.space().maps)
