"""Declarations that are broken: each is answered, or ends in a line and a status."""

from __future__ import annotations

import json
import tempfile
from dataclasses import dataclass
from pathlib import Path
from random import Random
from typing import Any

from .. import from_oci, from_run, from_unit
from . import configs, ends, services, stored
from .ends import Main

SEED, COUNT = 7801, 200
STATUSES = (0, 1, 2, 4, 5)
# What is put where something else stands.
WRONG: tuple[object, ...] = (
    None, True, -1, 1 << 40, 1.5, "", "x" * 300, [], [None], {}, {"a": 1}, "\0", "CAP_", [[]], [{}],
)  # fmt: skip
LINES = (
    "[Service", "=", "User", "User==", "[Service]\n[Service]", "ExecStart=", "ExecStart=\\",
    "ExecStart=\"", "ExecStart=+-@:!", "AmbientCapabilities=~~CAP_KILL", "SecureBits=,", "User=%Q",
    "CapabilityBoundingSet=999999999999", "RootDirectory=/../..", "User=-1", "\0", "\\", ";" * 3,
    "Group=4294967295", "SupplementaryGroups=%%%", "BindPaths=:::", "ReadOnlyPaths=-+-", "ÿ",
    "ExecStart=relative path", "DynamicUser=yes", "ProtectSystem=", "ExecStart=/bin/sh ; ; /bin/x",
)  # fmt: skip


def places(value: object, path: tuple[object, ...] = ()) -> list[tuple[object, ...]]:
    """The paths of all values of a JSON value."""
    found = [path]
    items = value.items() if isinstance(value, dict) else enumerate(value) if isinstance(
        value, list) else ()  # fmt: skip
    for key, it in items:
        found += places(it, (*path, key))
    return found


def broken_config(chance: Random) -> str:
    """A config.json with a wrong value, or that breaks off."""
    case = next(it for it in stored.cases("containers") if it.declared.get("mapped"))
    whole = configs.config(case.declared, "/nowhere")
    text = json.dumps(whole, indent=1)
    if chance.random() < 0.3:
        at = chance.randrange(len(text))
        return text[:at] + chance.choice(["", "}", "\"", "[", "\\u", ","]) + text[at + 1 :]
    for _ in range(chance.choice([1, 1, 2])):
        put(whole, chance.choice(places(whole)[1:]), chance.choice(WRONG))
    return json.dumps(whole, indent=1)


def put(whole: Any, path: tuple[object, ...], value: object) -> None:
    """Puts a value at a path."""
    for key in path[:-1]:
        whole = whole[key]
    whole[path[-1]] = value


def broken_unit(chance: Random) -> bytes:
    """A unit with wrong lines, or bytes that are no text."""
    case = chance.choice(list(stored.cases("services")))
    lines = services.unit_text(case).split("\n")
    for _ in range(chance.randrange(1, 4)):
        lines.insert(chance.randrange(len(lines) + 1), chance.choice(LINES))
    data = "\n".join(lines).encode("utf-8")
    if chance.random() < 0.3:
        at = chance.randrange(len(data))
        data = data[:at] + bytes([chance.randrange(256)]) + data[at + 1 :]
    return data


def broken_line(chance: Random) -> list[str]:
    """A line with words that are wrong, or that ends too early."""
    words = ["docker", "run", "--user", "1000", "--cap-add", "KILL", "-it", "image", "/bin/sh"]
    words[0] = chance.choice(["docker", "podman", "docker"])
    wrong = ["--", "-", "--user", "-u", "--cap-add=", "-Z", "--user=:::", "--mount", "a=b,,", "run",
             "--volume=:", "--group-add=", "\0", "--cap-add=ÿ", "--user=-1", "--x"]  # fmt: skip
    for _ in range(chance.randrange(1, 3)):
        words.insert(chance.randrange(len(words) + 1), chance.choice(wrong))
    return words[: chance.randrange(1, len(words) + 1)]


@dataclass(frozen=True)
class Broken:
    """A command and its words."""

    main: Main
    words: tuple[str, ...]


def made(chance: Random, folder: Path, number: int) -> Broken:
    """A broken declaration."""
    kind = number % 5
    if kind < 2:
        path = folder / f"{number}.json"
        path.write_text(broken_config(chance), encoding="utf-8")
        return Broken(from_oci.main, (str(path), "--runtime", chance.choice(["runc", "crun"])))
    if kind < 4:
        path = folder / f"x{number}.service"
        path.write_bytes(broken_unit(chance))
        return Broken(from_unit.main, (str(path), "--systemd", "252"))
    return Broken(from_run.main, ("--", *broken_line(chance)))


def faults() -> tuple[str, list[str]]:
    """How many there were, and those that end otherwise."""
    chance, found = Random(SEED), []
    ended: dict[int, int] = {}
    with tempfile.TemporaryDirectory() as place:
        for number in range(COUNT):
            it = made(chance, Path(place), number)
            end = ends.run(it.main, list(it.words))
            ended[end.status] = ended.get(end.status, 0) + 1
            if end.status not in STATUSES or end.status == 2 and not end.is_line:
                text = f"status {end.status}: {end.error[-600:]}"
                found.append(f"broken {number}: {it.words}: {text}")
    told = ", ".join(f"{count} by {status}" for status, count in sorted(ended.items()))
    return f"{COUNT} broken declarations end: {told}", found
