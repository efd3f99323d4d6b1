"""Scripts that are made at random: files of every kind, and a task that is given any state."""

from __future__ import annotations

import random

from why.names import ALL, LAST, NUMBERS

from .scripts import Case

SEED = 77
USERS, GROUPS = (0, 5, 1000), (0, 10, 1000)
MODES = (
    0o755, 0o755, 0o4755, 0o4755, 0o4750, 0o2755, 0o4711, 0o700, 0o705, 0o6755, 0o2750, 0o4705,
)  # fmt: skip
SETPCAP = NUMBERS["CAP_SETPCAP"]
BITS = (0, 0, 0, 1, 3, 4, 16, 47, 64, 192, 2, 32)


def attribute(chance: random.Random) -> str:
    """The bytes of an attribute: of version 2, or of version 3 with a root id."""
    some = (0, 0x2000, 0x80, 0x40, 0x100, 0x3FFF, ALL, 1 << chance.randrange(LAST + 1))
    perm, inh = chance.choice(some), chance.choice(some)
    version = 0x03000000 if chance.random() < 0.1 else 0x02000000
    words = [version | chance.getrandbits(1), perm & 0xFFFFFFFF, inh & 0xFFFFFFFF]
    words += [perm >> 32, inh >> 32]
    if version == 0x03000000:
        words.append(chance.choice((0, 100000)))
    return "".join(word.to_bytes(4, "little").hex() for word in words)


def files(chance: random.Random) -> list[str]:
    """Up to three files."""
    found = []
    for place in range(chance.randrange(4)):
        caps = f" caps {attribute(chance)}" if chance.random() < 0.5 else ""
        nosuid = " nosuid" if chance.random() < 0.1 else ""
        owner, group = chance.choice(USERS), chance.choice(GROUPS)
        mode = chance.choice(MODES)
        found.append(f"file f{place} reg {owner} {group} {mode:04o}{nosuid}{caps}")
    return found


def caps(chance: random.Random) -> int:
    """A set."""
    return chance.choice((0, ALL, 0x2000, 0x80, 0x100, 0x40, 0x1C0, chance.getrandbits(LAST + 1)))


def state(chance: random.Random) -> list[str]:
    """Calls that give t1 ids, sets and flags. CAP_SETPCAP leaves the bounding set last."""
    perm, inh = caps(chance), chance.choice((0, 0, caps(chance)))
    drop = chance.choice((0, 0, ALL, 0x2000, 0x80, chance.getrandbits(LAST + 1)))
    some = " ".join(str(group) for group in GROUPS if chance.random() < 0.3)
    found = ["t1 securebits 4", f"t1 setgroups {some}".rstrip()]
    found.append("t1 setresgid " + " ".join(str(chance.choice(GROUPS)) for _ in range(3)))
    found.append(f"t1 capset {ALL:x} {inh:x} {ALL:x}")
    may = [number for number in range(LAST + 1) if (perm & inh) >> number & 1]
    found += [f"t1 ambraise {number}" for number in may if chance.random() < 0.5]
    gone = sorted(range(LAST + 1), key=lambda number: number == SETPCAP)
    found += [f"t1 capdrop {number}" for number in gone if drop >> number & 1]
    found.append("t1 setresuid " + " ".join(str(chance.choice(USERS)) for _ in range(3)))
    if chance.random() < 0.2:
        found.append(f"t1 setfsuid {chance.choice(USERS)}")
    found.append(f"t1 securebits {chance.choice((*BITS, chance.randrange(256)))}")
    eff = chance.choice((perm, 0, perm & caps(chance)))
    found.append(f"t1 capset {perm:x} {inh:x} {eff:x}")
    return found + (["t1 nonewprivs 1"] if chance.random() < 0.15 else [])


def script(number: int) -> Case:
    """The script of a number."""
    chance = random.Random(f"{SEED} {number}")
    spaces, space = [], "n0"
    user, group = 0, 0
    if chance.random() < 0.1:
        spaces, space, user, group = ["ns 1 100000 0"], "n1", 100000, 100000
    lines = [*spaces, *files(chance), f"init t1 p1 {user} {group} {space}", *state(chance)]
    plain = chance.random() < 0.8
    return Case(f"random {number}", "\n".join(lines) + "\n", plain, "t1")
