"""The part of a story that the page shows, as lists of numbers and words that its script reads.

Entries keep their numbers, which are counted from 1. What began before the part or ends behind it
is there with its own numbers.
"""

from __future__ import annotations

from collections.abc import Callable
from typing import Any

from .slots import Life, lives
from .spans import BAND, HOLD, OPEN, PREPARED, Row, Span, levels
from .story import Story
from .credentials import Change, changes

# The number that stands for none, where an index is meant.
NONE = -1


class Window:
    """A part of a story, from its first entry to its last."""

    def __init__(self, story: Story, first: int, last: int) -> None:
        """What meets the part, with a place for each row, credential and slot of it."""
        self.story, self.first, self.last = story, first, last
        self.lives = [
            life
            for there in lives(story).values()
            for life in there
            if life.start <= last and (life.swept == OPEN or life.swept >= first)
        ]
        self.spans = self.spans_of_rows()
        self.rows = self.rows_shown()
        self.row_places = {id(row): place for place, row in enumerate(self.rows)}
        kept = {span.slot for _, span in self.spans if span.slot}
        slots = {life.cred.slot for life in self.lives} | kept
        self.slots = sorted(slots, key=lambda name: (len(name), name))
        self.slot_places = {name: place for place, name in enumerate(self.slots)}
        self.cred_places = {life.cred.name: place for place, life in enumerate(self.lives)}

    def spans_of_rows(self) -> list[tuple[Row, Span]]:
        """The spans that meet the part, with their rows, in the order of their starts."""
        found = [
            (row, span)
            for row in self.story.rows()
            for span in [*row.bands, *row.spans]
            if span.meets(self.first, self.last)
        ]
        return sorted(found, key=lambda pair: pair[1].start)

    def rows_shown(self) -> list[Row]:
        """The rows that have an entry or a span in the part."""
        used = {id(row) for row in self.story.of[self.first - 1 : self.last]}
        used |= {id(row) for row, _ in self.spans}
        used |= {id(link.to) for link in self.story.links if self.first <= link.end <= self.last}
        return [row for row in self.story.rows() if id(row) in used]

    def levels_by(self, key: Callable[[Row, Span], Any], only: Callable[[Span], bool]) -> list[int]:
        """For each span its level among those with the same key; NONE where it has none."""
        groups: dict[Any, list[int]] = {}
        for place, (row, span) in enumerate(self.spans):
            if only(span):
                groups.setdefault(key(row, span), []).append(place)
        found = [NONE] * len(self.spans)
        for places in groups.values():
            for place, level in zip(places, levels([self.spans[p][1] for p in places], self.last)):
                found[place] = level
        return found

    def span_lists(self) -> dict[str, list[Any]]:
        """The spans, a list for each of their fields."""
        spans = [span for _, span in self.spans]
        slot_of = self.story.credentials
        return {
            "kind": [span.kind for span in spans],
            "label": [span.label for span in spans],
            "cred": [self.cred_places.get(span.cred, NONE) for span in spans],
            "start": [span.start for span in spans],
            "end": [span.end for span in spans],
            "kept": [self.slot_places.get(span.slot, NONE) for span in spans],
            "row": [self.row_places[id(row)] for row, _ in self.spans],
            # Holds and what is prepared may be folded, so they have levels of their own.
            "level": self.levels_by(
                lambda row, span: (id(row), span.kind in (HOLD, PREPARED)),
                lambda span: span.kind != BAND,
            ),
            "held": self.levels_by(
                lambda _, span: slot_of[span.cred].slot, lambda span: span.cred != ""
            ),
        }

    def life(self, life: Life) -> list[Any]:
        """A credential: its number, its slot, its life there, and what was told of it."""
        cred = life.cred
        slot = self.slot_places[cred.slot]
        told = {name: " ".join(words) for name, words in cred.told.items()}
        return [cred.name, slot, life.start, life.given_up, life.swept, int(life.by_reuse), told]

    def change(self, change: Change) -> list[Any]:
        """What is seen to come and go at an entry."""
        sets = [[place, f"{came:x}", f"{went:x}"] for place, came, went in change.sets]
        asked = [[place, sign, f"{caps:x}"] for place, sign, caps in change.asked]
        gain = [f"{caps:x}" for caps in change.gain]
        return [change.place, self.row_places[id(change.row)], change.since, sets, asked, gain]

    def links(self) -> list[list[Any]]:
        """The lines between rows that end in the part."""
        places = self.row_places
        return [
            [link.kind, link.start, places[id(link.row)], link.end, places[id(link.to)]]
            for link in self.story.links
            if self.first <= link.end <= self.last and id(link.row) in places
        ]

    def data(
        self, texts: list[str], reasons: dict[int, list[str]] | None = None
    ) -> dict[str, Any]:
        """All that the page's script reads; the texts are those of the part's entries, and the
        reasons are by the numbers of entries."""
        story = self.story
        shown = slice(self.first - 1, self.last)
        seen = changes(story.seals, story.credentials)
        return {
            "first": self.first,
            "last": self.last,
            "total": story.count,
            "texts": "\n".join(texts),
            "kinds": "".join(story.kinds[shown]),
            "of": [self.row_places[id(row)] for row in story.of[shown]],
            "rows": [[row.name, row.process] for row in self.rows],
            "spans": self.span_lists(),
            "credentials": [self.life(life) for life in self.lives],
            "slots": self.slots,
            "links": self.links(),
            "changes": [self.change(c) for c in seen if self.first <= c.place <= self.last],
            "why": [[place, told] for place, told in sorted((reasons or {}).items())
                    if self.first <= place <= self.last],
            "sweeps": [place for place in story.sweeps if self.first <= place <= self.last],
        }
