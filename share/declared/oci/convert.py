"""From a config to its script."""

from __future__ import annotations

from .. import executed, launcher
from ..declaration import Declaration
from ..launcher import Launcher
from ..places import Bears, Place
from ..script import Moment, Script
from ..tree import Tree
from ..users import Files, Users
from . import program
from .config import NO_ID, Config
from .maps import Map, Maps, maps_of
from .orders import Order, Runtime, Wanted, masks

# An id that stands for one that no map has, where the runtime fails before it is used.
UNUSED = NO_ID - 1


def mapped(script: Script, it: Map, number: int, what: str, place: Place) -> int:
    """An id of the container as the host's."""
    found = it.out(number)
    if found is None:
        script.fail("EINVAL", f"{what} {number} isn't mapped in the user namespace", place)
        return UNUSED
    return found


def begin(script: Script, config: Config, it: Launcher, maps: Maps) -> Maps:
    """The first task: the runtime, or the root of a new user namespace."""
    if not config.new_space:
        it.begin(script)
        return maps
    place = config.place("linux.namespaces")
    if config.space_path:
        text = "it is entered by its path: its maps, and whose it is, can't be read there"
        script.doubt("namespace", text, place, bears=Bears.ALL)
        it.begin(script)
        return Maps()
    root = maps.users.out(0)
    if root is None:
        text = "no id is mapped to the container's 0: a runtime can't set itself up there"
        script.fail("EINVAL", text, config.place("linux.uidMappings"))
    launcher.in_namespace(script, 1, UNUSED if root is None else root)
    return maps


def wanted(script: Script, config: Config, runtime: Runtime, maps: Maps) -> Wanted:
    """What is asked for, in the host's ids."""
    sets = masks(script, config, runtime)
    others = sorted(set(config.others)) if runtime is Runtime.RUNC else config.others
    place = config.place("process.user.additionalGids")
    groups = [mapped(script, maps.groups, it, "group", place) for it in others]
    root_group = maps.groups.out(0)
    return Wanted(
        mapped(script, maps.users, config.user, "user", config.place("process.user.uid")),
        mapped(script, maps.groups, config.group, "group", config.place("process.user.gid")),
        tuple(groups), maps.users.out(0) or 0, root_group or 0, **sets,
    )  # fmt: skip


def doubts(script: Script, config: Config) -> None:
    """What changes no credential, and is named."""
    for place in config.filters:
        text = "it changes no id and no set, and may refuse what the program calls"
        script.doubt("filter", text, place)
    for place in config.hooks:
        script.doubt("hook", "it runs as the runtime does, before the program", place)


def convert(
    config: Config, runtime: Runtime, it: Launcher, tree: Tree | None = None,
    users: Users | None = None,
) -> Declaration:  # fmt: skip
    """The declaration of a config. A tree stands in for the files of its root."""
    script = Script()
    maps = begin(script, config, it, maps_of(config))
    script.ask(Moment.START)
    Order(script, config, wanted(script, config, runtime, maps)).write(runtime)
    doubts(script, config)
    chosen = program.chosen(config, tree)
    executed.execute(script, program.execution(script, config, chosen, maps))
    place = config.place("process.args")
    command = " " + " ".join(config.args)[:120]
    return Declaration(
        config.reader.file, command, place, runtime.measured, script, users or Files(), maps.space()
    )
