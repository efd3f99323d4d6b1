"""Cases that are made by chance, of a seed: configurations and units."""

from __future__ import annotations

from random import Random
from typing import Any

from capabilities import CAPABILITIES
from declared.checks.stored import Case

from .place import NAMES

KIND = "random"
ALL = (1 << len(CAPABILITIES)) - 1
# What runtimes are asked for most, and what the machine has that they are recorded on.
DEFAULT = 0x20A80425FB & ALL
NO_RESOURCE = ALL & ~(1 << CAPABILITIES.index("SYS_RESOURCE"))
FEW = ("NET_RAW", "NET_BIND_SERVICE", "KILL", "SYS_ADMIN", "SETPCAP", "CHOWN", "DAC_OVERRIDE",
       "SETUID", "SETGID", "SYS_MODULE", "SYS_TIME", "SYS_RAWIO", "SYSLOG")  # fmt: skip
USERS = (0, 0, 1000, 1000, 1001, 33, 65534, 50)
SECUREBITS = ("keep-caps", "noroot", "no-setuid-fixup", "noroot no-setuid-fixup",
              "keep-caps-locked", "noroot noroot-locked", "no-setuid-fixup keep-caps")  # fmt: skip
BOOLEANS = (
    "PrivateDevices", "ProtectKernelModules", "ProtectClock", "ProtectHostname", "PrivateTmp",
    "RestrictSUIDSGID", "LockPersonality", "PrivateUsers", "MemoryDenyWriteExecute",
    "ProtectKernelTunables", "ProtectControlGroups", "RestrictRealtime",
)  # fmt: skip
OTHERS = (
    "SystemCallFilter=@system-service", "SystemCallArchitectures=native", "ProtectSystem=strict",
    "ProtectSystem=full", "ProtectSystem=yes", "ProtectHome=yes", "ReadOnlyPaths=/units",
    "ReadWritePaths=/units/bin", "RestrictNamespaces=user", "RestrictNamespaces=no",
    "RestrictAddressFamilies=AF_UNIX", "RootDirectory=/units/rootdir", "ProcSubset=pid",
    "BindReadOnlyPaths=/etc:/units/rootdir/etc", "TemporaryFileSystem=/mnt",
)  # fmt: skip


def some(chance: Random, mask: int, share: float) -> int:
    """Some capabilities of a set."""
    places = [place for place in range(len(CAPABILITIES)) if mask >> place & 1]
    return sum(1 << place for place in places if chance.random() < share)


def sets(chance: Random) -> dict[str, str] | None:
    """The five sets of a configuration."""
    few = sum(1 << CAPABILITIES.index(name) for name in FEW[:6])
    pool = chance.choice([DEFAULT, NO_RESOURCE, ALL, few, few])
    mode = chance.randrange(6)
    if mode == 0 and chance.random() < 0.4:
        return None
    bounding = pool if mode < 3 else some(chance, pool, 0.7)
    permitted = bounding if mode < 4 else some(chance, pool, 0.6)
    effective = permitted if chance.random() < 0.6 else some(chance, permitted, 0.7)
    from_set = permitted if chance.random() < 0.8 else pool
    inheritable = some(chance, from_set, chance.choice([0.0, 0.5, 1.0]))
    ambient = some(chance, inheritable if chance.random() < 0.7 else pool, 0.5)
    names = ("bounding", "effective", "permitted", "inheritable", "ambient")
    values = (bounding, effective, permitted, inheritable, ambient)
    return {name: f"{value:x}" for name, value in zip(names, values, strict=True)}


def container(chance: Random) -> dict[str, Any]:
    """A configuration."""
    user = chance.choice(USERS)
    who: dict[str, Any] = {"uid": user, "gid": chance.choice([user, 0, 50, 77])}
    if chance.random() < 0.4:
        count = chance.randrange(4)
        who["additionalGids"] = [chance.choice([0, 50, 7, 1000, 77]) for _ in range(count)]
    case: dict[str, Any] = {"user": who, "caps": sets(chance), "file": chance.choice(NAMES)}
    if chance.random() < 0.5:
        case["nnp"] = chance.random() < 0.7
    if chance.random() < 0.25:
        case["mapped"] = True
    return case


def listed(chance: Random, share: float) -> str:
    """Names of capabilities, as a unit has them."""
    names = [f"CAP_{name}" for name in FEW if chance.random() < share]
    return " ".join(it.lower() if chance.random() < 0.1 else it for it in names)


def identity(chance: Random) -> list[str]:
    """User= and its kin."""
    found = []
    if chance.random() < 0.6:
        users = ("daemon", "nobody", "bin", "1", "www-data", "root", "games", "1000")
        found.append("User=" + chance.choice(users))
    if chance.random() < 0.12:
        found.append("DynamicUser=yes")
    if chance.random() < 0.2:
        found.append("Group=" + chance.choice(["audio", "adm", "50", "root", "nogroup"]))
    if chance.random() < 0.25:
        groups = ["audio", "adm audio", "50 4", "root", "daemon audio", "nosuch"]
        found.append("SupplementaryGroups=" + chance.choice(groups))
    return found


def service(chance: Random) -> dict[str, Any]:
    """A unit."""
    lines = identity(chance)
    for _ in range(chance.choice([0, 1, 1, 2])):
        sign = chance.choice(["", "", "", "~"])
        lines.append(f"AmbientCapabilities={sign}{listed(chance, 0.3)}")
    for _ in range(chance.choice([0, 0, 1, 2])):
        lines.append("CapabilityBoundingSet=" + chance.choice(["", "~"]) + listed(chance, 0.6))
    if chance.random() < 0.2:
        lines.append("SecureBits=" + chance.choice(SECUREBITS))
    if chance.random() < 0.3:
        lines.append("NoNewPrivileges=" + chance.choice(["yes", "no", "true", "1", "off"]))
    lines += [f"{it}=yes" for it in BOOLEANS if chance.random() < 0.06]
    lines += [it for it in OTHERS if chance.random() < 0.05]
    chance.shuffle(lines)
    case: dict[str, Any] = {"lines": lines, "file": chance.choice([*NAMES, *["plain"] * 6])}
    if chance.random() < 0.35:
        case["prefix"] = chance.choice(["+", "!", "!!", "-", ":", "-!", "+-"])
    if chance.random() < 0.2:
        more = [
            f"AmbientCapabilities={listed(chance, 0.2)}", "NoNewPrivileges=yes", "User=bin",
            f"CapabilityBoundingSet=~{listed(chance, 0.2)}", "AmbientCapabilities=",
        ]  # fmt: skip
        case["dropins"] = [[chance.choice(more)] for _ in range(chance.randrange(1, 3))]
    return case


def cases(kind: str, seed: int, count: int, behind: int) -> list[Case]:
    """So many cases of a seed, numbered behind those that are there."""
    chance = Random(seed)
    make = {"containers": container, "services": service}[kind]
    return [Case(behind + place, KIND, make(chance)) for place in range(1, count + 1)]
