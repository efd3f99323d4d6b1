"""Specifiers in values: systemd.unit(5), "Specifiers". Those that ask the machine aren't known."""

from __future__ import annotations

import re
from dataclasses import dataclass

from .fragments import KIND, Name

# Of the system manager.
FOLDERS = {"t": "/run", "S": "/var/lib", "C": "/var/cache", "L": "/var/log", "E": "/etc",
           "T": "/tmp", "V": "/var/tmp", "h": "/root", "u": "root", "U": "0", "g": "root",
           "G": "0"}  # fmt: skip


@dataclass(frozen=True)
class Expanded:
    """A value without specifiers, and those that stay, as they aren't known."""

    text: str
    unknown: tuple[str, ...] = ()


def unescaped(text: str) -> str:
    r"""A name whose `-` is `/`, and whose `\x2d` are letters: systemd-escape(1)."""
    text = text.replace("-", "/")
    return re.sub(r"\\x([0-9a-f]{2})", lambda found: chr(int(found[1], 16)), text)


def of_name(letter: str, name: Name) -> str | None:
    """What a specifier stands for."""
    instance = name.instance or ""
    last = name.prefix.rpartition("-")[2]
    values = FOLDERS | {
        "%": "%", "i": instance, "I": unescaped(instance), "p": name.prefix,
        "P": unescaped(name.prefix), "n": name.stem + KIND, "N": name.stem, "j": last,
        "J": unescaped(last), "f": "/" + unescaped(instance or name.prefix).strip("/"),
    }  # fmt: skip
    return values.get(letter)


def expand(value: str, name: Name) -> Expanded:
    """A value with its specifiers expanded."""
    unknown: list[str] = []

    def replaced(found: re.Match[str]) -> str:
        it = of_name(found[1], name)
        if it is None:
            unknown.append(found[0])
        return found[0] if it is None else it

    return Expanded(re.sub(r"%(.)", replaced, value), tuple(dict.fromkeys(unknown)))
