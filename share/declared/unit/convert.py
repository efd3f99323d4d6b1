"""From a unit to the script of one of its commands."""

from __future__ import annotations

from dataclasses import dataclass

from strace.script.start import Status

from .. import executed, launcher
from ..answers import Space
from ..declaration import Declaration
from ..executed import Execution
from ..launcher import Launcher
from ..places import Bears, Place
from ..script import Moment, Script
from ..tree import Tree
from ..users import Users
from . import commands, sandbox
from .commands import Choice, Command
from .fragments import Fragments
from .identity import Finder, Identity
from .order import EXEC, Order
from .settings import Settings, read
from .versions import Version

# What a script can't say: the key, what it is, and what it may change.
UNSAID = (
    ("PAMName", "pam", "the modules of a PAM session may change groups and sets, or refuse",
     Bears.ALL),
    ("SELinuxContext", "security module", "it may refuse the execve and calls", Bears.NOTHING),
    ("AppArmorProfile", "security module", "it may refuse the execve and calls", Bears.NOTHING),
    ("SmackProcessLabel", "security module", "it may refuse the execve and calls", Bears.NOTHING),
    ("RootImage", "image", "the files of the image", Bears.ALL),
    ("MountImages", "image", "the files of the image", Bears.ALL),
    ("ExtensionImages", "image", "the files of the image", Bears.ALL),
    ("ExtensionDirectories", "image", "the files of these folders", Bears.ALL),
    ("PermissionsStartOnly", "old setting", "it was not measured", Bears.ALL),
)  # fmt: skip


@dataclass(frozen=True)
class Host:
    """Where users and files are looked up, what systemd has, and which version it is."""

    tree: Tree
    users: Users
    launcher: Launcher
    version: Version


def doubts(script: Script, settings: Settings) -> None:
    """What can't be said, and is named."""
    for key, kind, text, bears in UNSAID:
        if settings.values(key):
            script.doubt(kind, text, *settings.places(key), bears=bears)


def begin(script: Script, settings: Settings, host: Host, private: bool) -> Status:
    """The first task, and what it has."""
    if not private:
        host.launcher.begin(script)
        return host.launcher.status
    text = "capabilities are those of a user namespace: root and the user alone are mapped there"
    script.note(text, *settings.places("PrivateUsers"))
    return launcher.in_namespace(script, 1, 0)


def space_of(who: Identity, private: bool) -> Space:
    """The user namespace of PrivateUsers=: it maps root and the user, and their groups."""
    if not private:
        return Space()
    users, groups = {0, who.user}, {0, who.group}
    return Space(
        lambda number: number if number in users else None,
        lambda number: number if number in groups else None,
    )


def nosuid(settings: Settings, command: Command, who: Identity, path: str) -> Place | None:
    """The setting by whose mount the program lies on a nosuid mount: where no_new_privs is asked
    for, what settings mount is nosuid, and nothing else."""
    asked = settings.truth("NoNewPrivileges") or who.dynamic
    if not asked or not command.prefixes.sandboxed:
        return None
    found = sandbox.over(settings, path)
    places = sandbox.places(settings, found[:1])
    return places[-1] if places else None


def hidden(script: Script, settings: Settings, command: Command, path: str) -> None:
    """A program that lies where a setting shows other files isn't known."""
    if not command.prefixes.sandboxed:
        return
    for it in sandbox.over(settings, path):
        if it.hides or it.key in sandbox.BINDS:
            text = f"{path} lies where this mounts: which file is there"
            script.doubt("mount", text, *settings.places(it.key), bears=Bears.ALL)


def missing(script: Script, settings: Settings, command: Command, tree: Tree) -> None:
    """Paths that have to be mounted and aren't there: then systemd fails."""
    for key in (*sandbox.PATHS, *sandbox.BINDS) if command.prefixes.sandboxed else ():
        for path in sandbox.required(settings, key):
            try:
                tree.find(path)
            except (OSError, ValueError):
                text = f"{path} isn't there: the service fails by 226/NAMESPACE unless it is made"
                script.doubt("path", text, *settings.places(key), bears=Bears.ALL)


def convert(fragments: Fragments, which: Choice, host: Host) -> Declaration:
    """The declaration of a command of a unit."""
    script = Script()
    settings = read(fragments, script)
    top = settings.last("RootDirectory")
    command = commands.chosen(settings, which)
    tree = host.tree.under(top) if top and command.prefixes.sandboxed else host.tree
    path = commands.path_of(command, tree)
    who = Finder(settings, host.users).find()
    private = command.prefixes.sandboxed and settings.truth("PrivateUsers")
    has = begin(script, settings, host, private)
    script.ask(Moment.START)
    bounding = sandbox.bounding(settings)
    Order(script, settings, who, command.prefixes, bounding, has).write()
    host.version.tell(script)
    doubts(script, settings)
    hidden(script, settings, command, path)
    missing(script, settings, command, tree)
    space = space_of(who, private)
    place = nosuid(settings, command, who, path)
    executed.execute(script, Execution(path, tree, command.place, place, space.maps, EXEC))
    return Declaration(
        settings.name.full, command.text[:120], command.place, host.version.name(), script,
        host.users, space,
    )  # fmt: skip
