"""Calls that change a file or tell what it is: chmod(2), chown(2), setxattr(2), stat(2)."""

from __future__ import annotations

from ..follow.path_calls import argument
from ..log import lines
from ..log.reader import Call
from ..script.calls import identity
from .listing import ATTRIBUTE

# Where the mode stands among the arguments; the owner, with the group behind it; an attribute's
# name, with its value behind it.
CHMOD = {"chmod": 1, "fchmod": 1, "fchmodat": 2, "fchmodat2": 2}
CHOWN = {"chown": 1, "lchown": 1, "fchown": 1, "fchownat": 2}
CHOWN |= {name + "32": place for name, place in CHOWN.items() if name != "fchownat"}
SET = ("setxattr", "lsetxattr", "fsetxattr")
REMOVE = ("removexattr", "lremovexattr", "fremovexattr")

# Those that leave a symbolic link itself to be changed.
OF_LINKS = ("lchown", "lchown32", "lsetxattr", "lremovexattr")

STAT, GET = lines.STAT, lines.GET
BY_DESCRIPTOR = (
    "fchmod", "fchown", "fchown32", "fsetxattr", "fremovexattr", "fstat", "fstat64", "fgetxattr",
)  # fmt: skip
AT_FOLDER = ("fchmodat", "fchmodat2", "fchownat", "newfstatat", "fstatat64", "statx")

MODE_BITS = {"S_ISUID": 0o4000, "S_ISGID": 0o2000, "S_ISVTX": 0o1000}
# An attribute of a script has so many bytes.
LONGEST = 64


def of_link(call: Call) -> bool:
    """Whether a symbolic link at the end of the path isn't followed."""
    return call.name in OF_LINKS or any("AT_SYMLINK_NOFOLLOW" in arg for arg in call.args)


def changing(call: Call) -> tuple[str, tuple[str, ...]] | None:
    """The form of the line of a call that changes a file, and the words behind the name."""
    if call.name in CHMOD:
        mode = lines.number(argument(call, CHMOD[call.name]))
        return None if mode is None else ("chmod", (f"{mode & 0o7777:04o}",))
    if call.name in CHOWN:
        place = CHOWN[call.name]
        owner, group = (identity(argument(call, at)) for at in (place, place + 1))
        return None if owner is None or group is None else ("chown", (owner, group))
    if lines.string(argument(call, 1)) != ATTRIBUTE:
        return None
    if call.name in REMOVE:
        return "clearattr", ()
    value = whole(argument(call, 2), lines.number(argument(call, 3)))
    return None if value is None else ("setattr", (value,))


def whole(text: str, size: int | None) -> str | None:
    """The bytes of an attribute in hexadecimal digits. A zero at the end strace leaves out."""
    value = lines.string(text)
    if value is None or size is None or not 0 < size <= LONGEST:
        return None
    value += "\0" * (len(value) == size - 1)
    return value.encode("latin-1").hex() if len(value) == size else None


def mode_of(text: str) -> int | None:
    """The mode bits of a file, as strace writes them: S_IFREG|S_ISUID|0755."""
    words = [word for word in text.split("|") if not word.startswith("S_IF")]
    return lines.bits("|".join(words), MODE_BITS) if words else None


def stat_of(call: Call) -> dict[str, int] | None:
    """What stat(2) tells: the mode, and with -v the owner and the group."""
    text = next((arg for arg in call.args if arg.startswith("{st")), None)
    if text is None or call.result.value != 0:
        return None
    found = {name.partition("_")[2]: value for name, value in lines.fields(text).items()}
    mode = mode_of(found.get("mode", ""))
    if mode is None:
        return None
    told = {"mode": mode}
    for name in ("uid", "gid"):
        value = lines.number(found.get(name, ""))
        told |= {name: value} if value is not None else {}
    return told


def attribute_of(call: Call) -> tuple[bool, str | None] | None:
    """Whether getxattr(2) tells of an attribute, and its bytes where these are told too."""
    if lines.string(argument(call, 1)) != ATTRIBUTE:
        return None
    if call.result.error == "ENODATA":
        return False, None
    if call.result.error or not call.result.value:
        return None
    return True, whole(argument(call, 2), call.result.value)
