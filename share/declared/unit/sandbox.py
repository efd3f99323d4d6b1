"""What the settings of a service take away, imply and mount (systemd.exec(5)): of systemd 252."""

from __future__ import annotations

from dataclasses import dataclass
from pathlib import PurePosixPath

from why.names import ALL, NUMBERS

from ..places import Place
from ..tree import below
from .settings import Settings
from .words import FALSE, TRUE

# These install a seccomp filter: a task without CAP_SYS_ADMIN needs no_new_privs for that.
FILTERS = (
    "LockPersonality", "MemoryDenyWriteExecute", "PrivateDevices", "ProtectClock",
    "ProtectHostname", "ProtectKernelTunables", "ProtectKernelModules", "ProtectKernelLogs",
    "RestrictAddressFamilies", "RestrictNamespaces", "RestrictRealtime", "RestrictSUIDSGID",
    "SystemCallFilter", "SystemCallLog", "SystemCallArchitectures",
)  # fmt: skip
LISTS = frozenset(
    ("RestrictAddressFamilies", "SystemCallFilter", "SystemCallLog", "SystemCallArchitectures")
)
# Settings that take capabilities out of the bounding set.
DROPS = {
    "PrivateDevices": ("CAP_MKNOD", "CAP_SYS_RAWIO"), "ProtectKernelModules": ("CAP_SYS_MODULE",),
    "ProtectKernelLogs": ("CAP_SYSLOG",), "ProtectClock": ("CAP_SYS_TIME", "CAP_WAKE_ALARM"),
}  # fmt: skip
# Lists of paths that are mounted. Of the second kind a path stands behind a colon.
PATHS = (
    "ReadWritePaths", "ReadOnlyPaths", "InaccessiblePaths", "ExecPaths", "NoExecPaths",
    "TemporaryFileSystem",
)  # fmt: skip
BINDS = ("BindPaths", "BindReadOnlyPaths")
SYSTEM = ("/usr", "/boot", "/efi", "/lib", "/lib64", "/bin", "/sbin")
HOMES = ("/home", "/root", "/run/user")
TEMPORARY = ("/tmp", "/var/tmp")


@dataclass(frozen=True)
class Mounted:
    """Folders that a setting mounts."""

    key: str
    paths: tuple[str, ...]
    # Whether other files are seen there than those of the machine.
    hides: bool = False


def filters(settings: Settings) -> list[str]:
    """The settings that install a filter."""
    found = []
    for key in FILTERS:
        if key in LISTS:
            on = bool(settings.values(key))
        elif key == "RestrictNamespaces":
            on = any(it.lower() not in FALSE for it in settings.values(key))
        else:
            on = settings.truth(key)
        if on or key == "RestrictSUIDSGID" and settings.truth("DynamicUser"):
            found.append(key)
    return found


@dataclass(frozen=True)
class Bounding:
    """The bounding set, and the keys that make it so."""

    caps: int
    keys: tuple[str, ...]


def bounding(settings: Settings) -> Bounding:
    """CapabilityBoundingSet=, less what other settings take away."""
    caps, keys = settings.bounding(), ["CapabilityBoundingSet"]
    for key, names in DROPS.items():
        if settings.truth(key):
            keys.append(key)
            caps &= ALL & ~sum(1 << NUMBERS[name] for name in names)
    return Bounding(caps, tuple(keys))


def system(settings: Settings) -> list[Mounted]:
    """ProtectSystem=, which DynamicUser= sets to strict."""
    word = settings.last("ProtectSystem").lower()
    if settings.truth("DynamicUser"):
        return [Mounted("DynamicUser", ("/",))]
    if word == "strict":
        return [Mounted("ProtectSystem", ("/",))]
    if word == "full":
        return [Mounted("ProtectSystem", (*SYSTEM, "/etc"))]
    return [Mounted("ProtectSystem", SYSTEM)] if word in TRUE else []


def listed(settings: Settings, key: str) -> Mounted:
    """The folders of a list of paths."""
    words = settings.words(key)
    if key in BINDS:
        parts = [it.lstrip("-").split(":") for it in words]
        return Mounted(key, tuple(it[1] if it[1:] and it[1] else it[0] for it in parts))
    paths = tuple(it.split(":")[0].lstrip("-+") for it in words)
    return Mounted(key, paths, key in ("InaccessiblePaths", "TemporaryFileSystem"))


def mounted(settings: Settings) -> list[Mounted]:
    """All folders that settings mount."""
    found = system(settings)
    home = settings.last("ProtectHome").lower()
    if home and home not in FALSE:
        found.append(Mounted("ProtectHome", HOMES, home != "read-only"))
    if settings.truth("PrivateTmp"):
        found.append(Mounted("PrivateTmp", TEMPORARY, True))
    return found + [listed(settings, key) for key in (*PATHS, *BINDS) if settings.values(key)]


def required(settings: Settings, key: str) -> list[str]:
    """The paths of a list that have to be there: those before which there is no -."""
    words = settings.words(key)
    if key in BINDS:
        return [it.split(":")[0] for it in words if not it.startswith("-")]
    if key == "TemporaryFileSystem":
        return []
    # A + leads to the root directory of the service.
    return [it.lstrip("+") for it in words if not it.startswith("-")]


def over(settings: Settings, path: str) -> list[Mounted]:
    """The settings that mount a folder in which a path lies."""
    return [
        it for it in mounted(settings)
        if any(PurePosixPath(folder).is_absolute() and below(path, folder) for folder in it.paths)
    ]  # fmt: skip


def places(settings: Settings, found: list[Mounted]) -> tuple[Place, ...]:
    """Where these settings stand."""
    return settings.places(*(it.key for it in found))
