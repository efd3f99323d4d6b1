"""Texts whose words have bytes side by side: 256 too much in one of them and one too little in the
next would be the same word, so a byte is looked at beside each of its neighbours.

linux/capability.h, `struct vfs_cap_data`: "__le32 permitted; /* Little endian */ __le32
inheritable; /* Little endian */", two of each ("#define VFS_CAP_U32_2 2"), behind `magic_etc`:
capability n is bit n % 32 of word n / 32.
"""
import itertools
from collections.abc import Iterator

from captext import NAMES, case
from suite import Case

# The capabilities of each byte of a set: four bytes of its low word, and two of its high one.
BYTES = [range(it, min(it + 8, len(NAMES))) for it in range(0, len(NAMES), 8)]
# The bytes of which one is in its word next above the other.
NEIGHBOURS = ((0, 1), (1, 2), (2, 3), (4, 5))


def beside() -> Iterator[tuple[int, ...]]:
    """Two capabilities of a byte above one that has none, and one above one or none."""
    for low, high in NEIGHBOURS:
        yield from itertools.combinations(BYTES[high], 2)
        for above in BYTES[high]:
            yield (above,)
            yield from ((below, above) for below in BYTES[low])


def across() -> Iterator[tuple[int, ...]]:
    """One or two capabilities in each of some bytes, and none in the others."""
    for chosen in itertools.product((False, True), repeat=len(BYTES)):
        for first, second in ((0, 0), (2, 5), (7, 1)):
            places = [it for it, some in zip(BYTES, chosen) if some]
            caps = {it[at % len(it)] for it in places for at in (first, second)}
            if caps:
                yield tuple(sorted(caps))


def cases() -> Iterator[Case]:
    # CAP_NET_BIND_SERVICE and CAP_NET_RAW are of the second byte, CAP_SYS_RAWIO of the third and
    # CAP_AUDIT_WRITE of the fourth; the first has none.
    sets = dict.fromkeys([(10, 13, 17, 29), *beside(), *across()])
    for caps in sets:
        names = ",".join(NAMES[it] for it in caps)
        for letters in ("ep", "i"):
            yield case(f"{names}={letters}", f"{names}={letters}")
