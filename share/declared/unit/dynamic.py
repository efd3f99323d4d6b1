"""The number of a dynamic user: the hash of its name is tried first (src/core/dynamic-user.c)."""

from __future__ import annotations

import re

# The keys of the hash that makes a number of a name, and a name of a unit's.
NUMBER_KEY = bytes.fromhex("37537e31cfce48f58abb39578dd9ec59")
NAME_KEY = bytes.fromhex("581aafe628584e96b44ef53b8c9207ec")
FIRST, LAST = 61184, 65519
MASK = (1 << 64) - 1
# A user's name that systemd accepts for a unit's own: systemd.exec(5), User=.
NAME = re.compile(r"[A-Za-z_][A-Za-z0-9_-]{0,30}")


def turned(value: int, count: int) -> int:
    """A 64-bit number, turned to the left."""
    return (value << count | value >> (64 - count)) & MASK


def rounds(state: list[int], count: int) -> None:
    """Rounds of SipHash over its four words."""
    for _ in range(count):
        one, two, three, four = state
        one, three = (one + two) & MASK, (three + four) & MASK
        two, four = turned(two, 13) ^ one, turned(four, 16) ^ three
        one = turned(one, 32)
        one, three = (one + four) & MASK, (three + two) & MASK
        four, two = turned(four, 21) ^ one, turned(two, 17) ^ three
        state[:] = [one, two, turned(three, 32), four]


def siphash(key: bytes, name: bytes) -> int:
    """SipHash-2-4."""
    first, second = (int.from_bytes(key[place : place + 8], "little") for place in (0, 8))
    state = [
        first ^ 0x736F6D6570736575, second ^ 0x646F72616E646F6D,
        first ^ 0x6C7967656E657261, second ^ 0x7465646279746573,
    ]  # fmt: skip
    data = name + b"\0" * (7 - len(name) % 8) + bytes([len(name) & 255])
    for place in range(0, len(data), 8):
        word = int.from_bytes(data[place : place + 8], "little")
        state[3] ^= word
        rounds(state, 2)
        state[0] ^= word
    state[2] ^= 255
    rounds(state, 4)
    return state[0] ^ state[1] ^ state[2] ^ state[3]


def name_of(unit: str) -> str:
    """The name of the dynamic user of a unit that names none: its own, if a user may have it."""
    if NAME.fullmatch(unit):
        return unit
    return f"_du{siphash(NAME_KEY, unit.encode('utf-8')):016x}"


def number_of(name: str) -> int:
    """The number that a dynamic user of this name has, if it is free."""
    return FIRST + (siphash(NUMBER_KEY, name.encode("utf-8")) & 0xFFFFFFFF) % (LAST - FIRST + 1)
