"""The text of a file's capabilities, by the sentences of cap_text_formats(7): which texts there
are, which bytes a text may begin with, what each says, and how one is written.

Which texts there are is a regular expression here, and a byte leads to its derivative: the
expression of what may follow (Brzozowski). The bytes of which nothing may follow are outside. The
expression is narrower than the page: names are in small letters and no numbers, `all` stands alone
in its list, and one space stands between two clauses and nowhere else (docs/DECISIONS.md).
"""
import re
import sys
from functools import lru_cache
from typing import Any

import suite

sys.path.insert(0, str(suite.TOP.parent / "share"))
from capabilities import CAPABILITIES  # noqa: E402

# The names, by number.
NAMES = [f"cap_{it.lower()}" for it in CAPABILITIES]
FULL = (1 << len(NAMES)) - 1

# ---- regular expressions: nothing, the empty text, a byte, one of two, one behind the other, many
# Its kind, and what it is made of: a byte, or others.
Form = tuple[Any, ...]
NOTHING: Form = ("nothing",)
EMPTY: Form = ("empty",)


def either(*parts: Form) -> Form:
    """One of these. What stands twice counts once, so that derivatives stay few."""
    flat: set[Form] = {that for it in parts for that in (it[1] if it[0] == "either" else (it,))}
    flat -= {NOTHING}
    return NOTHING if not flat else flat.pop() if len(flat) == 1 else ("either", frozenset(flat))


def behind(*parts: Form) -> Form:
    """One behind the other."""
    if NOTHING in parts:
        return NOTHING
    rest = [it for it in parts if it != EMPTY]
    if not rest:
        return EMPTY
    first, others = rest[0], rest[1:]
    return ("behind", first, behind(*others)) if others else first


def many(part: Form) -> Form:
    """Any number of these."""
    return ("many", part)


def some(part: Form) -> Form:
    """At least one of these."""
    return behind(part, many(part))


def word(text: str) -> Form:
    return behind(*(("byte", it) for it in text))


@lru_cache(None)
def may_end(it: Form) -> bool:
    """The empty text is one of these."""
    kind = it[0]
    return (
        kind in ("empty", "many")
        or kind == "either" and any(may_end(that) for that in it[1])
        or kind == "behind" and may_end(it[1]) and may_end(it[2])
    )


@lru_cache(None)
def after(it: Form, byte: str) -> Form:
    """What may follow this byte."""
    kind = it[0]
    if kind == "byte":
        return EMPTY if it[1] == byte else NOTHING
    if kind == "either":
        return either(*(after(that, byte) for that in it[1]))
    if kind == "many":
        return behind(after(it[1], byte), it)
    if kind == "behind":
        first = behind(after(it[1], byte), it[2])
        return either(first, after(it[2], byte)) if may_end(it[1]) else first
    return NOTHING


# "Legal flags are: 'e', 'i', and 'p'. These flags are case-sensitive"
LETTER = either(*(word(it) for it in "eip"))
# "The subsequent flags (which are optional when associated with this operator)"
RESET = behind(word("="), many(LETTER))
# "The operators, '+' and '-' both require .. one or more explicit trailing flags."
OTHER = behind(either(word("+"), word("-")), some(LETTER))
# "An action-list consists of a sequence of operator flag pairs."
ACTION = either(RESET, OTHER)
NAME = either(*(word(it) for it in NAMES))
# "a list of comma-separated capability names (or the word 'all')"
LIST = either(word("all"), behind(NAME, many(behind(word(","), NAME))))
# "In the case that the leading operator is '=', and no list of capabilities is provided, the
# action-list is assumed to refer to 'all' capabilities."
CLAUSE = either(behind(LIST, some(ACTION)), behind(RESET, many(ACTION)))
# "one or more whitespace-separated clauses"
TEXT = behind(CLAUSE, many(behind(word(" "), CLAUSE)))


def longest(text: str) -> tuple[int, bool]:
    """How many bytes of these some text begins with, and whether all of them are one."""
    rest = TEXT
    for place, byte in enumerate(text):
        rest = after(rest, byte)
        if rest == NOTHING:
            return place, False
    return len(text), may_end(rest)


# ---- what a text says


def listed(names: str) -> int:
    """The capabilities of a list. "The special name 'all' specifies all capabilities"."""
    return FULL if names in ("", "all") else sum({1 << NAMES.index(it) for it in names.split(",")})


def split(clause: str) -> tuple[str, list[tuple[str, str]]]:
    """The list of a clause, and its actions."""
    start = min(it for it in map(clause.find, "=+-") if it >= 0)
    actions = [(it[0], it[1:]) for it in re.findall("[=+-][^=+-]*", clause[start:])]
    return clause[:start], actions


def sets(text: str) -> tuple[int, int, int]:
    """The sets E, P and I. "the set starts out with all capabilities lowered, and the meaning of
    the string is the state of the capability set after all the clauses have been applied in
    order."
    """
    said = dict.fromkeys("epi", 0)
    for clause in text.split(" "):
        names, actions = split(clause)
        caps = listed(names)
        for operator, letters in actions:
            # "The '=' operator indicates that the listed capabilities are first reset in all three
            # capability sets."
            if operator == "=":
                said = {letter: it & ~caps for letter, it in said.items()}
            for letter in letters:
                # "The '-' operator will lower all of the listed capabilities in the flagged
                # capability sets."
                said[letter] = said[letter] & ~caps if operator == "-" else said[letter] | caps
    return said["e"], said["p"], said["i"]


def attribute(permitted: int, inheritable: int, effective: bool) -> bytes:
    """The bytes of an attribute of version 2: "VFS_CAP_REVISION_2", two words for each set."""
    words = [2 << 24 | effective]
    words += [it >> half & 0xFFFFFFFF for half in (0, 32) for it in (permitted, inheritable)]
    return b"".join(it.to_bytes(4, "little") for it in words)


def line(text: str) -> str:
    """What `encode` writes for a text."""
    length, whole = longest(text)
    if not whole:
        return f"bad text {length}\n"
    effective, permitted, inheritable = sets(text)
    # "Effective: This is not a set, but rather just a single bit." (capabilities(7))
    if effective not in (0, permitted | inheritable):
        return "bad flags\n"
    return f"{attribute(permitted, inheritable, effective != 0).hex()}\n"


# ---- how one is written


def names_of(caps: int) -> str:
    return ",".join(it for number, it in enumerate(NAMES) if caps >> number & 1)


def printed(permitted: int, inheritable: int, effective: bool) -> str:
    """The text of an attribute, of at most three clauses (docs/RULES.md)."""
    parts = (
        (permitted & ~inheritable, "p"),
        (permitted & inheritable, "ip"),
        (inheritable & ~permitted, "i"),
    )
    flag = "e" if effective else ""
    return " ".join(f"{names_of(it)}={flag}{letters}" for it, letters in parts if it) or "="


def case(name: str, text: str) -> suite.Case:
    """What `encode` must write for a text, which is one word of a command line."""
    return suite.Case(name, ("encode", text), suite.UNREAD, line(text).encode())
