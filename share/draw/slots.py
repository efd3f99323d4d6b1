"""The lives of slots: which credential stood where, and when it was given up and swept."""

from __future__ import annotations

from bisect import bisect_right
from collections import defaultdict
from dataclasses import dataclass

from .spans import OPEN, Span
from .story import Story
from .credentials import Credential


@dataclass(slots=True)
class Life:
    """A credential in its slot, from the entry that sealed it.

    `given_up` is the entry that ended the last reference to it, and `swept` the one after which it
    stands there no more: a sweep, or the next use of the slot, which a sweep came before.
    """

    cred: Credential
    start: int
    given_up: int
    swept: int = OPEN
    by_reuse: bool = False


def last_reference(spans: list[Span]) -> int:
    """The entry that ended the last of these, or OPEN."""
    ends = [span.end for span in spans]
    return OPEN if OPEN in ends else max(ends, default=OPEN)


def lives(story: Story) -> dict[str, list[Life]]:
    """By slots, the credentials that stood there, in their order."""
    found: dict[str, list[Life]] = defaultdict(list)
    for cred in story.credentials.values():
        found[cred.slot].append(Life(cred, cred.sealed, last_reference(cred.spans)))
    uses = {slot: [life.start for life in there] for slot, there in found.items()}
    for span in story.kept:
        uses.setdefault(span.slot, []).append(span.start)
    for slot, there in found.items():
        begins = sorted(uses[slot])
        for life in there:
            end_of(life, begins, story.sweeps)
    return found


def end_of(life: Life, begins: list[int], sweeps: list[int]) -> None:
    """When a credential stood in its slot for the last time."""
    if life.given_up == OPEN:
        return
    sweep = bisect_right(sweeps, life.given_up)
    swept = sweeps[sweep] if sweep < len(sweeps) else OPEN
    use = bisect_right(begins, life.start)
    used = begins[use] if use < len(begins) else OPEN
    if used != OPEN and (swept == OPEN or used < swept):
        life.swept, life.by_reuse = used, True
    else:
        life.swept = swept
