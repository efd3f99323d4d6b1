"""The keys of config.json that decide a credential, typed, each with its line."""

from __future__ import annotations

import json
from dataclasses import dataclass, field
from pathlib import Path

from ..places import Bad, Place
from .positions import lines

# More than any config.json has.
BYTES = 16 << 20
NO_ID = 0xFFFFFFFF
SETS = ("bounding", "effective", "permitted", "inheritable", "ambient")


@dataclass
class Reader:
    """A JSON text, with the lines of its keys. What is wrong with a value ends in a Bad."""

    file: str
    at: dict[str, int]

    def place(self, key: str) -> Place:
        """Where a key stands; without a line, where the key isn't there."""
        return Place(key, self.file, self.at.get(key, 0))

    def bad(self, key: str, what: str) -> Bad:
        """What is wrong with a key."""
        return Bad(f"{self.place(key).where}: {key} {what}")

    def member(self, value: object, path: str, key: str, kind: type, what: str) -> object:
        """A member of an object, where it is of this kind; None where it isn't there, or null."""
        found = value.get(key) if isinstance(value, dict) else None
        # A boolean is a number in Python, and none in JSON.
        is_bool = isinstance(found, bool) and kind is not bool
        if found is not None and (is_bool or not isinstance(found, kind)):
            raise self.bad(f"{path}.{key}".lstrip("."), f"is no {what}")
        return found

    def mapping(self, value: object, path: str, key: str) -> dict[str, object] | None:
        """An object."""
        found = self.member(value, path, key, dict, "object")
        return found if isinstance(found, dict) else None

    def array(self, value: object, path: str, key: str) -> list[object]:
        """A list; an empty one where it isn't there."""
        found = self.member(value, path, key, list, "list")
        return found if isinstance(found, list) else []

    def text(self, value: object, path: str, key: str) -> str:
        """A string; empty where it isn't there."""
        found = self.member(value, path, key, str, "string")
        if isinstance(found, str) and "\0" in found:
            raise self.bad(f"{path}.{key}".lstrip("."), "has a NUL byte")
        return found if isinstance(found, str) else ""

    def truth(self, value: object, path: str, key: str) -> bool:
        """A boolean."""
        return bool(self.member(value, path, key, bool, "boolean"))

    def number(self, value: object, path: str, key: str) -> int:
        """An id; 0 where it isn't there."""
        found = self.member(value, path, key, int, "number")
        return self.id_of(found if isinstance(found, int) else 0, f"{path}.{key}")

    def id_of(self, value: object, path: str) -> int:
        """A number that may be an id."""
        if not isinstance(value, int) or isinstance(value, bool) or not 0 <= value < NO_ID:
            raise self.bad(path, f"is no id: a number from 0 to {NO_ID - 1}")
        return value

    def texts(self, value: object, path: str, key: str) -> list[str]:
        """A list of strings."""
        where = f"{path}.{key}".lstrip(".")
        found = []
        for place, it in enumerate(self.array(value, path, key)):
            if not isinstance(it, str) or "\0" in it:
                raise self.bad(f"{where}[{place}]", "is no string")
            found.append(it)
        return found


@dataclass(frozen=True)
class Range:
    """A range of ids that a user namespace maps."""

    inside: int
    outside: int
    size: int


@dataclass(frozen=True)
class Bound:
    """A mount of the container."""

    at: str
    kind: str
    source: str
    options: tuple[str, ...]
    place: Place

    @property
    def is_bind(self) -> bool:
        """Whether it shows a folder or a file of the machine."""
        return self.kind == "bind" or bool({"bind", "rbind"} & set(self.options))


@dataclass
class Config:
    """What a config says. `capabilities` is None where the key isn't there."""

    reader: Reader
    bundle: str
    root: str
    user: int
    group: int
    others: list[int]
    args: list[str]
    path: list[str]
    folder: str
    capabilities: dict[str, list[str]] | None
    no_new_privs: bool
    new_space: bool = False
    space_path: str = ""
    users: list[Range] = field(default_factory=list)
    groups: list[Range] = field(default_factory=list)
    mounts: list[Bound] = field(default_factory=list)
    # Keys that change no credential, and may refuse the program's calls.
    filters: list[Place] = field(default_factory=list)
    hooks: list[Place] = field(default_factory=list)

    def place(self, key: str) -> Place:
        """Where a key stands."""
        return self.reader.place(key)


def ranges(reader: Reader, linux: object, key: str) -> list[Range]:
    """A list of maps."""
    found = []
    for place, it in enumerate(reader.array(linux, "linux", key)):
        path = f"linux.{key}[{place}]"
        if not isinstance(it, dict):
            raise reader.bad(path, "is no object")
        numbers = [reader.number(it, path, name) for name in ("containerID", "hostID", "size")]
        found.append(Range(*numbers))
    return found


def mounts(reader: Reader, whole: object) -> list[Bound]:
    """The mounts, in their order."""
    found = []
    for place, it in enumerate(reader.array(whole, "", "mounts")):
        path = f"mounts[{place}]"
        if not isinstance(it, dict):
            raise reader.bad(path, "is no object")
        at, kind, source = (reader.text(it, path, key) for key in ("destination", "type", "source"))
        options = tuple(reader.texts(it, path, "options"))
        whole_path = "/" + at.strip("/")
        found.append(Bound(whole_path, kind, source, options, reader.place(path)))
    return found


def namespaces(reader: Reader, linux: object, config: Config) -> None:
    """The user namespace, where there is one."""
    for place, it in enumerate(reader.array(linux, "linux", "namespaces")):
        path = f"linux.namespaces[{place}]"
        if not isinstance(it, dict):
            raise reader.bad(path, "is no object")
        if reader.text(it, path, "type") == "user":
            config.space_path = reader.text(it, path, "path")
            config.new_space = True


def filters(reader: Reader, process: object, linux: object) -> list[Place]:
    """What may refuse the program's calls, and changes no credential."""
    found = []
    if reader.mapping(linux, "linux", "seccomp"):
        found.append(reader.place("linux.seccomp"))
    for key in ("apparmorProfile", "selinuxLabel"):
        if reader.text(process, "process", key):
            found.append(reader.place(f"process.{key}"))
    return found


def capabilities(reader: Reader, process: object) -> dict[str, list[str]] | None:
    """The five lists of names."""
    found = reader.mapping(process, "process", "capabilities")
    if found is None:
        return None
    return {key: reader.texts(found, "process.capabilities", key) for key in SETS}


def config_of(reader: Reader, whole: dict[str, object], bundle: str) -> Config:
    """The config of an object."""
    process = reader.mapping(whole, "", "process")
    if process is None:
        raise Bad(f"{reader.file}: it has no process: it is no config.json of a container to start")
    linux = reader.mapping(whole, "", "linux") or {}
    user = reader.mapping(process, "process", "user") or {}
    others = reader.array(user, "process.user", "additionalGids")
    where = "process.user.additionalGids"
    root = reader.text(reader.mapping(whole, "", "root") or {}, "root", "path") or "rootfs"
    env = reader.texts(process, "process", "env")
    paths = [it[5:] for it in env if it.startswith("PATH=")]
    args = reader.texts(process, "process", "args")
    if not args or not args[0]:
        raise reader.bad("process.args", "names no program")
    config = Config(
        reader, bundle, str(Path(bundle, root)),
        reader.number(user, "process.user", "uid"), reader.number(user, "process.user", "gid"),
        [reader.id_of(it, f"{where}[{place}]") for place, it in enumerate(others)], args,
        paths[0].split(":") if paths else [], reader.text(process, "process", "cwd") or "/",
        capabilities(reader, process), reader.truth(process, "process", "noNewPrivileges"),
    )  # fmt: skip
    namespaces(reader, linux, config)
    config.users = ranges(reader, linux, "uidMappings")
    config.groups = ranges(reader, linux, "gidMappings")
    config.mounts = mounts(reader, whole)
    config.filters = filters(reader, process, linux)
    hooks = reader.mapping(whole, "", "hooks") or {}
    config.hooks = [reader.place(f"hooks.{key}") for key, value in hooks.items() if value]
    return config


def parsed(text: str, file: str, bundle: str) -> Config:
    """The config of a text."""
    try:
        whole = json.loads(text)
    except RecursionError:
        raise Bad(f"{file}: it is nested too deeply") from None
    except json.JSONDecodeError as fault:
        raise Bad(f"{file}:{fault.lineno}: {fault.msg}: it is no JSON") from None
    except ValueError as fault:
        raise Bad(f"{file}: {fault}") from None
    if not isinstance(whole, dict):
        raise Bad(f"{file}: it is no JSON object")
    return config_of(Reader(file, lines(text)), whole, bundle)


def read(name: str) -> Config:
    """The config of a bundle, or of a file."""
    path = Path(name)
    try:
        path = path / "config.json" if path.is_dir() else path
        with open(path, "rb") as file:
            data = file.read(BYTES + 1)
        if len(data) > BYTES:
            raise Bad(f"{path}: it has more than {BYTES} bytes")
        text = data.decode("utf-8")
        return parsed(text, path.name, str(path.resolve().parent))
    except UnicodeDecodeError as fault:
        raise Bad(f"{path}: byte {fault.start} is no UTF-8") from None
    except (OSError, ValueError) as fault:
        raise Bad(f"{path}: {getattr(fault, 'strerror', None) or fault}") from None
