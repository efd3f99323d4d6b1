"""The config that docker or podman writes for its runtime."""

from __future__ import annotations

import os
from dataclasses import dataclass

from why.names import LAST, NUMBERS, cap_name

from ..oci.config import Bound, Config, Reader
from ..places import Bad, Bears, Place
from ..script import Script
from .engines import Asked, Engine, Sets, Version, sets
from .identity import Identity
from .image import Image
from .line import Line

CAPS = ("--cap-add", "--cap-drop", "--privileged")
# What isn't followed: user namespaces, and what is executed before the program.
UNMEASURED = {
    "--userns": "the maps of another user namespace", "--uidmap": "the maps of a user namespace",
    "--gidmap": "the maps of a user namespace", "--subuidname": "the maps of a user namespace",
    "--subgidname": "the maps of a user namespace", "--init": "the program is executed by another",
    "--pod": "what a pod shares", "--systemd": "what podman mounts for a systemd",
}  # fmt: skip
HARMLESS = {"--userns": ("host", ""), "--systemd": ("false", "true"), "--init": ("false",)}


@dataclass
class Words(Reader):
    """Names the keys of the config by the words of the line that they come from."""

    line: Line
    version: Version

    def place(self, key: str) -> Place:
        """The words of the line, or what holds where there are none."""
        if key.startswith("process.capabilities"):
            default = f"the default capabilities of {self.version}"
            return Place(self.line.told(*CAPS) or default)
        if key.startswith("process.user"):
            names = ("--user", "--group-add") if key.endswith("Gids") else ("--user",)
            return Place(self.line.told(*names) or "the user of the image")
        if key == "process.noNewPrivileges":
            return Place(self.line.told("--security-opt"))
        return Place("the command" if key == "process.args" else key)


def capability(word: str, option: str, version: Version) -> str:
    """The name of a capability without CAP_, or ALL."""
    name = word.strip().upper().removeprefix("CAP_")
    known = NUMBERS.get(f"CAP_{name}")
    if name != "ALL" and (known is None or not version.known >> known & 1):
        raise Bad(f"{option} {word[:40]}: {version} has no such capability")
    return name


def asked(line: Line, version: Version) -> Asked:
    """What the line asks for. podman takes names with commas between."""

    def names(option: str) -> frozenset[str]:
        words = [
            part for value in line.values(option)
            for part in (value.split(",") if line.engine is Engine.PODMAN else [value])
        ]  # fmt: skip
        return frozenset(capability(word, option, version) for word in words)

    add, drop = names("--cap-add"), names("--cap-drop")
    both = sorted(add & drop)
    if both and line.engine is Engine.PODMAN:
        raise Bad(f"--cap-add and --cap-drop both have {both[0]}: podman refuses that")
    return Asked(add, drop, line.has("--privileged"))


def no_new_privs(line: Line) -> bool:
    """Whether --security-opt asks for it: the last one that speaks of it counts."""
    found = False
    for value in line.values("--security-opt"):
        name, _, word = value.replace(":", "=", 1).partition("=")
        if name == "no-new-privileges":
            found = word in ("", "true")
    return found


def lists(it: Sets) -> dict[str, list[str]]:
    """The sets as names, as config.json has them."""
    return {
        key: [cap_name(number) for number in range(LAST + 1) if caps >> number & 1]
        for key, caps in vars(it).items()
    }


def program(line: Line, image: Image) -> list[str]:
    """The words that are executed. --entrypoint takes the image's command away too."""
    if line.values("--entrypoint"):
        entrypoint = line.last("--entrypoint")
        return [*([entrypoint] if entrypoint else []), *line.words]
    return image.entrypoint + (line.words or image.command)


def binds(line: Line) -> list[Bound]:
    """The mounts of --volume, --mount and --tmpfs."""
    found = []
    for value in line.values("--volume"):
        parts = value.split(":")
        options = tuple(parts[2].split(",")) if parts[2:] else ()
        kind = "bind" if parts[1:] and parts[0].startswith("/") else "volume"
        at = parts[1] if parts[1:] else parts[0]
        place = Place(f"--volume {value}")
        found.append(Bound("/" + at.strip("/"), kind, parts[0], options, place))
    for value in line.values("--mount"):
        fields = dict(part.partition("=")[::2] for part in value.split(","))
        at = next((fields[it] for it in ("destination", "dst", "target") if it in fields), "")
        source = fields.get("source", fields.get("src", ""))
        place = Place(f"--mount {value}")
        found.append(Bound("/" + at.strip("/"), fields.get("type", "volume"), source, (), place))
    for value in line.values("--tmpfs"):
        at = value.partition(":")[0].strip("/")
        found.append(Bound(f"/{at}", "tmpfs", "", (), Place(f"--tmpfs {value}")))
    return found


def doubts(script: Script, line: Line) -> None:
    """What wasn't measured, and is named."""
    for name, text in UNMEASURED.items():
        values = [it for it in line.values(name) if it not in HARMLESS.get(name, ())]
        if values:
            script.doubt("option", text, Place(line.told(name)), bears=Bears.ALL)
    options = line.values("--security-opt")
    if not line.has("--privileged") and "seccomp=unconfined" not in options:
        text = "the default seccomp filter may refuse what the program calls"
        script.doubt("filter", text)


def config_of(
    line: Line, version: Version, image: Image, who: Identity, root: str, has: int
) -> Config:
    """The config of a line."""
    name = line.engine.value
    words = program(line, image)
    if not words:
        raise Bad(f"{line.image}: no command is named, and none of the image's is known")
    folder = line.last("--workdir") or image.folder or "/"
    reader = Words(f"{name} run", {}, line, version)
    found = sets(version, has, asked(line, version), who.user)
    return Config(
        reader, "/", root, who.user, who.group, who.more, words,
        image.path.split(":") if image.path else [], os.path.join("/", folder), lists(found),
        no_new_privs(line), mounts=binds(line),
    )  # fmt: skip
