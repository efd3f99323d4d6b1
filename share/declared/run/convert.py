"""From a line to its script."""

from __future__ import annotations

from dataclasses import dataclass, replace

from ..declaration import Declaration
from ..launcher import Launcher
from ..oci.convert import convert as convert_config
from ..oci.orders import Runtime
from ..places import Bears, Place
from ..script import Script
from ..tree import Tree
from ..users import Files, Users
from .config import config_of, doubts
from .engines import Engine, nearest
from .identity import Finder
from .image import Image
from .line import Line


@dataclass(frozen=True)
class Source:
    """Where an image is unpacked, if it is, its users, its settings; the engine's version."""

    root: str
    tree: Tree | None
    users: Users
    there: bool
    image: Image | None
    version: str = ""


def runtime_of(script: Script, line: Line) -> Runtime:
    """The runtime that the engine calls."""
    name = line.last("--runtime").rpartition("/")[2]
    for it in Runtime:
        if it.value == name:
            return it
    if name:
        text = "only runc and crun were measured"
        script.doubt("runtime", text, Place(f"--runtime {name}"), bears=Bears.ALL)
    return line.engine.runtime


def image_of(script: Script, line: Line, source: Source) -> Image:
    """The image's settings. podman's --rootfs has none."""
    if line.engine is Engine.PODMAN and line.has("--rootfs"):
        return Image()
    if source.image is None:
        needs = [] if line.values("--user") else ["USER"]
        needs += [] if line.values("--entrypoint") else ["ENTRYPOINT"]
        if needs:
            text = f"its {' and its '.join(needs)}, taken to be none: --image names a file"
            script.doubt("image", text, Place(line.image), bears=Bears.ALL)
        return Image(known=False)
    return source.image


def convert(line: Line, source: Source, launcher: Launcher) -> Declaration:
    """The declaration of a line."""
    said = Script()
    version, measured = nearest(line.engine, source.version)
    if not measured:
        text = f"{line.engine.value} {source.version} was not measured: this is what {version} does"
        said.doubt("version", text, bears=Bears.ALL)
    image = image_of(said, line, source)
    users = source.users if source.there else Files()
    who = Finder(said, line, users, source.there).find(line.last("--user") or image.user)
    runtime = runtime_of(said, line)
    doubts(said, line)
    config = config_of(line, version, image, who, source.root, launcher.status.bounding)
    if not image.known and not line.words and not line.values("--entrypoint"):
        config.args = ["/bin/sh"]
    it = convert_config(config, runtime, launcher, source.tree, users)
    it.script.unknown[:0] = said.unknown
    if said.failure is not None:
        it.script.failure = said.failure
    name = f"{line.engine.value} run {line.image}"
    order = f"{version} over {runtime.measured}"
    return replace(it, name=name, order=order)
