"""What is known of an image: what `docker image inspect` or `podman image inspect` says of it."""

from __future__ import annotations

import json
from dataclasses import dataclass, field

from ..places import Bad

BYTES = 4 << 20


@dataclass
class Image:
    """The settings of an image that decide a credential, and which program is executed."""

    user: str = ""
    entrypoint: list[str] = field(default_factory=list)
    command: list[str] = field(default_factory=list)
    path: str = ""
    folder: str = ""
    known: bool = True


def texts(value: object, key: str, file: str) -> list[str]:
    """A list of strings; null is an empty one."""
    if value is None:
        return []
    if not isinstance(value, list) or not all(isinstance(it, str) for it in value):
        raise Bad(f"{file}: {key} of the image is no list of strings")
    return [str(it) for it in value]


def image_of(text: str, file: str) -> Image:
    """The image that a text tells of."""
    try:
        whole = json.loads(text)
    except (ValueError, RecursionError) as fault:
        raise Bad(f"{file}: {fault}: it is no JSON") from None
    first = whole[0] if isinstance(whole, list) and whole else whole
    config = first.get("Config") if isinstance(first, dict) else None
    if not isinstance(config, dict):
        raise Bad(f"{file}: it has no Config, as docker image inspect writes one")
    env = texts(config.get("Env"), "Env", file)
    paths = [it[5:] for it in env if it.startswith("PATH=")]
    user, folder = config.get("User") or "", config.get("WorkingDir") or ""
    if not isinstance(user, str) or not isinstance(folder, str):
        raise Bad(f"{file}: User or WorkingDir of the image is no string")
    entrypoint = texts(config.get("Entrypoint"), "Entrypoint", file)
    command = texts(config.get("Cmd"), "Cmd", file)
    return Image(user, entrypoint, command, paths[0] if paths else "", folder)


def read(name: str) -> Image:
    """The image that a file tells of."""
    try:
        with open(name, "rb") as file:
            return image_of(file.read(BYTES).decode("utf-8"), name)
    except UnicodeDecodeError as fault:
        raise Bad(f"{name}: byte {fault.start} is no UTF-8") from None
    except (OSError, ValueError) as fault:
        raise Bad(f"{name}: {getattr(fault, 'strerror', None) or fault}") from None
