"""The text that is written for an attribute says that attribute: its clauses are of what is
permitted alone, of what is in both sets, and of what is inheritable alone. And any three sets, each
capability in a clause of its own, are an attribute or none.
"""
import itertools
import random
from collections.abc import Iterator

from captext import FULL, NAMES, attribute, case, printed, sets
from suite import UNREAD, Case

# Three capabilities: the first, the last of the low word, and the last of all.
THREE = (1 << 0, 1 << 31, 1 << 40)
MORE = 500


def few() -> Iterator[tuple[int, int]]:
    """Each two sets over three capabilities."""
    yield from itertools.product(subsets(), repeat=2)


def subsets() -> list[int]:
    return [sum(it) for size in range(4) for it in itertools.combinations(THREE, size)]


def triples() -> Iterator[Case]:
    """Each three sets over three capabilities: effective, permitted and inheritable."""
    for its in itertools.product(subsets(), repeat=3):
        letters = {cap: "".join(it for it, s in zip("epi", its) if s & cap) for cap in THREE}
        clauses = [f"{NAMES[cap.bit_length() - 1]}={it}" for cap, it in letters.items()]
        text = " ".join(clauses)
        assert sets(text) == its, text
        yield case(text, text)


def many() -> Iterator[tuple[int, int]]:
    """Two sets over all capabilities, of any size."""
    drawn = random.Random(1)
    for _ in range(MORE):
        one, other = (
            drawn.getrandbits(41) & drawn.choice((FULL, drawn.getrandbits(41))) for _ in range(2)
        )
        yield one, other


def cases() -> Iterator[Case]:
    for permitted, inheritable in [*few(), *many()]:
        for effective in (False, True):
            # No capability is effective: no text has a flag for that.
            if effective and not permitted | inheritable:
                continue
            text = printed(permitted, inheritable, effective)
            data = attribute(permitted, inheritable, effective).hex()
            name = f"{permitted:x}-{inheritable:x}-{effective:d}"
            yield Case(name, ("encode", text), UNREAD, f"{data}\n".encode())
    yield from triples()
