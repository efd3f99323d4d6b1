"""What bytes say as a record of capget(2) and capset(2): their length, their version, their target,
and each bit of a set.

The sources are capset(2), "Current details", and the structures of linux/capability.h. What each
says is quoted beside the line that follows it.
"""
from collections.abc import Iterator

from suite import UNREAD, Case

# "#define _LINUX_CAPABILITY_VERSION_1 0x19980330", and likewise _VERSION_2 0x20071026 and
# _VERSION_3 0x20080522
WORDS = {1: 0x19980330, 2: 0x20071026, 3: 0x20080522}
# "__u32 version; int pid;", and "__u32 effective; __u32 permitted; __u32 inheritable;", of which
# "#define _LINUX_CAPABILITY_U32S_1 1", and the others have 2.
BYTES = {1: 4 * (2 + 3), 2: 4 * (2 + 2 * 3), 3: 4 * (2 + 2 * 3)}
# "64-bit capabilities use datap[0] and datap[1], whereas 32-bit capabilities use only datap[0]."
GROUPS = {1: (0,), 2: (0, 32), 3: (0, 32)}
# CAP_LAST_CAP
LAST = 40
FULL = (1 << LAST + 1) - 1
LOW = 0xFFFFFFFF


def spelt(
    word: int,
    target: int,
    effective: int,
    permitted: int,
    inheritable: int,
    groups: tuple[int, ...] = (0, 32),
) -> bytes:
    """The bytes of a record: `hdrp`, and `datap[0]` before `datap[1]`."""
    words = [word, target]
    words += [it >> half & LOW for half in groups for it in (effective, permitted, inheritable)]
    return b"".join(it.to_bytes(4, "little") for it in words)


def said(version: int, target: int, effective: int, permitted: int, inheritable: int) -> str:
    """The line that a record is written as: bits above CAP_LAST_CAP say nothing."""
    cut = FULL if version > 1 else LOW
    effective, permitted, inheritable = (it & cut for it in (effective, permitted, inheritable))
    third = spelt(WORDS[3], target, effective, permitted, inheritable).hex()
    sets = f"perm {permitted:x} inh {inheritable:x} eff {effective:x}"
    return f"version {version} target {target} {sets} v3 {third}\n"


def told(data: bytes) -> str:
    """What `capdata` writes for these bytes."""
    # Fewer bytes than the header have no version.
    if len(data) < 8:
        return f"bad length {len(data)}\n"
    word, target, *words = (
        int.from_bytes(data[it : it + 4], "little") for it in range(0, len(data) & ~3, 4)
    )
    version = next((it for it, that in WORDS.items() if that == word), None)
    # "The calls fail with the error EINVAL .. when an unsupported version value is specified."
    if version is None:
        return f"bad version {word}\n"
    if len(data) != BYTES[version]:
        return f"bad length {len(data)}\n"
    groups = [words[it : it + 3] for it in range(0, len(words), 3)]
    sets = [sum(group[it] << 32 * at for at, group in enumerate(groups)) for it in range(3)]
    return said(version, target, *sets)


def case(name: str, data: bytes) -> Case:
    return Case(name, ("capdata", data.hex()), UNREAD, told(data).encode())


def lengths() -> Iterator[Case]:
    """Every length under every version and none, with other bytes behind."""
    for version, word in [*WORDS.items(), (0, 0)]:
        whole = spelt(word, 7, 1 << 13, 1 << 13 | 1 << 40, 1 << 5) + bytes(range(1, 9))
        for length in range(1, len(whole) + 1):
            yield case(f"{length}-bytes-version-{version}", whole[:length])


def versions() -> Iterator[Case]:
    """Each word of a version, those next to it, and it with each of its bits the other way."""
    for version, word in WORDS.items():
        near = [word, word - 1, word + 1, *(word ^ 1 << bit for bit in range(32))]
        near.append(int.from_bytes(word.to_bytes(4, "big"), "little"))
        for other in dict.fromkeys(near):
            for size in sorted(set(BYTES.values())):
                data = spelt(other, 0, 1, 3, 4)[:size]
                yield case(f"version-{version}-word-{other:x}-of-{size}", data)


def targets() -> Iterator[Case]:
    """Any number is a target: whom a call may be about is not the record's."""
    for version, word in WORDS.items():
        for target in (0, 1, 2, 99999, 0x7FFFFFFF, 0x80000000, LOW):
            data = spelt(word, target, 0, 0, 0, GROUPS[version])
            yield case(f"version-{version}-target-{target}", data)


def bits() -> Iterator[Case]:
    """Each bit of each word by itself, also those that no capability has."""
    for version, word in WORDS.items():
        for at, name in enumerate(("effective", "permitted", "inheritable")):
            for bit in range(32 * len(GROUPS[version])):
                sets = [0, 0, 0]
                sets[at] = 1 << bit
                data = spelt(word, 0, sets[0], sets[1], sets[2], GROUPS[version])
                yield case(f"version-{version}-{name}-{bit}", data)


def again() -> Iterator[Case]:
    """The record of version 3 that a line ends with says the same."""
    for sets in ((0, 0, 0), (FULL, FULL, FULL), (1, 1 << 40 | 1, 1 << 32)):
        data = spelt(WORDS[3], 12, *sets)
        line = told(data)
        assert line.split()[-1] == data.hex(), line
        yield case(f"again-{sets[1]:x}", data)


def cases() -> Iterator[Case]:
    yield from lengths()
    yield from versions()
    yield from targets()
    yield from bits()
    yield from again()
