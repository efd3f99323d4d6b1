"""What bytes say as a capability attribute: their length, their revision and flags, and each bit of
a set.

The sources are capabilities(7), "File capability extended attribute versioning", and the structures
of linux/capability.h. What each says is quoted beside the line that follows it.
"""
from collections.abc import Iterator

from suite import UNREAD, Case

# "VFS_CAP_REVISION_1 This was the original file capability implementation, which supported 32-bit
# masks for file capabilities": the first word, and one word for each of the two sets.
# "VFS_CAP_REVISION_2 This version allows for file capability masks that are 64 bits in size":
# `data[2]`.
# "VFS_CAP_REVISION_3 Version 3 file capabilities are provided to support namespaced file
# capabilities": `__le32 rootid` stands behind them.
BYTES = {1: 4 * (1 + 2), 2: 4 * (1 + 2 * 2), 3: 4 * (1 + 2 * 2 + 1)}
# `#define VFS_CAP_REVISION_SHIFT 24`, `#define VFS_CAP_FLAGS_EFFECTIVE 0x000001`
EFFECTIVE = 0x000001
# Every other bit below the revision.
OTHERS = 0xFFFFFE
# "But in addition, the root user ID of namespace is encoded in the security.capability extended
# attribute": here user 100000.
ROOT = 100000
# CAP_LAST_CAP
LAST = 40


def said(version: int, permitted: int, inheritable: int, effective: int) -> str:
    """The line that an attribute is written as."""
    root = ROOT if version == 3 else 0
    sets = f"perm {permitted:x} inh {inheritable:x}"
    return f"version {version} {sets} effective {effective} root {root}\n"


def spelt(revision: int, flags: int, permitted: int, inheritable: int) -> bytes:
    """The six words: `magic_etc`, twice `permitted` and `inheritable`, the low halves first, and
    `rootid`.
    """
    words = [revision << 24 | flags]
    words += [it >> half & 0xFFFFFFFF for half in (0, 32) for it in (permitted, inheritable)]
    return b"".join(it.to_bytes(4, "little") for it in [*words, ROOT])


def case(name: str, data: bytes, line: str) -> Case:
    return Case(name, ("decode", data.hex()), UNREAD, line.encode())


def lengths() -> Iterator[Case]:
    """Every length under every revision, with CAP_NET_RAW permitted and CAP_KILL inheritable."""
    permitted, inheritable = 1 << 13, 1 << 5
    for revision in range(5):
        for flags in (0, EFFECTIVE, OTHERS, OTHERS | EFFECTIVE):
            whole = spelt(revision, flags, permitted, inheritable) + b"\xff"
            for length in range(1, len(whole) + 1):
                # Fewer bytes than the first word have no revision.
                if length < 4:
                    line = f"bad length {length}\n"
                elif revision not in BYTES:
                    line = f"bad revision {revision}\n"
                elif length != BYTES[revision]:
                    line = f"bad length {length}\n"
                else:
                    line = said(revision, permitted, inheritable, flags & EFFECTIVE)
                name = f"{length}-bytes-revision-{revision}-flags-{flags:x}"
                yield case(name, whole[:length], line)


def capabilities() -> Iterator[Case]:
    """Each bit of a set by itself. Version 1 has those of the low half alone."""
    for version, length in BYTES.items():
        for bit in range(32 if version == 1 else 64):
            # Bits above CAP_LAST_CAP say nothing.
            means = 1 << bit if bit <= LAST else 0
            yield case(
                f"version-{version}-permitted-{bit}",
                spelt(version, 0, 1 << bit, 0)[:length],
                said(version, means, 0, 0),
            )
            yield case(
                f"version-{version}-inheritable-{bit}",
                spelt(version, 0, 0, 1 << bit)[:length],
                said(version, 0, means, 0),
            )


def cases() -> Iterator[Case]:
    yield from lengths()
    yield from capabilities()
