"""The settings of a service, over all of its files."""

from __future__ import annotations

from dataclasses import dataclass, field

from why.names import ALL

from ..places import Bad, Bears, Place
from ..script import Script
from .fragments import Fragments, Name
from .specifiers import expand
from .syntax import Assignment, parsed, text_of
from .words import Capabilities, securebits, split, truth

SECTION = "Service"


@dataclass
class Settings:
    """The assignments of the section [Service], in the order in which systemd reads them."""

    name: Name
    script: Script
    assigned: list[Assignment] = field(default_factory=list)
    has_section: bool = False

    def of(self, key: str) -> list[Assignment]:
        """The assignments of a key that count: those since the last empty one, and that one."""
        found: list[Assignment] = []
        for it in self.assigned:
            if it.key == key:
                found = [*(found if it.value else []), it]
        return found

    def places(self, *keys: str) -> tuple[Place, ...]:
        """Where these keys stand; of those that don't, nothing."""
        return tuple(it.place for key in keys for it in self.of(key))

    def values(self, key: str) -> list[str]:
        """The values of a list that isn't empty."""
        return [it.value for it in self.of(key) if it.value]

    def last(self, key: str) -> str:
        """The value of a key: the last counts. Its specifiers are expanded."""
        found = self.of(key)
        return self.expanded(found[-1].value, found[-1].place) if found else ""

    def expanded(self, value: str, place: Place) -> str:
        """A value with its specifiers."""
        found = expand(value, self.name)
        for it in found.unknown:
            text = f"the specifier {it} in {value[:80]}"
            self.script.doubt("specifier", text, place, bears=Bears.ALL)
        return found.text

    def words(self, key: str) -> list[str]:
        """The words of a list, with their specifiers."""
        return [
            self.expanded(word, it.place) for it in self.of(key) for word in split(it.value)
        ]  # fmt: skip

    def plain_words(self, key: str) -> list[str]:
        """The words of a list in which quotes mean nothing."""
        return [self.expanded(word, it.place) for it in self.of(key) for word in it.value.split()]

    def truth(self, key: str) -> bool:
        """A boolean. A word that is none is passed over, as systemd does."""
        found = False
        for it in self.assigned:
            if it.key != key:
                continue
            value = truth(it.value)
            if value is None:
                self.script.note(f"{it.value[:80] or 'nothing'} is no boolean: it is passed over",
                                 it.place)  # fmt: skip
            found = found if value is None else value
        return found

    def capabilities(self, key: str, initial: int) -> int:
        """A set of capabilities, over all lines."""
        found = Capabilities(initial)
        for it in self.assigned:
            if it.key == key:
                for word in found.assign(it.value):
                    self.script.note(f"{word[:80]} is no capability: it is passed over", it.place)
        return found.value

    def bounding(self) -> int:
        """CapabilityBoundingSet=."""
        return self.capabilities("CapabilityBoundingSet", ALL)

    def ambient(self) -> int:
        """AmbientCapabilities=."""
        return self.capabilities("AmbientCapabilities", 0)

    def securebits(self) -> int:
        """SecureBits=: the last line counts."""
        found, unknown = securebits(self.last("SecureBits"))
        for word in unknown:
            places = self.places("SecureBits")
            self.script.note(f"{word[:80]} is no secure bit: it is passed over", *places)
        return found


def read(fragments: Fragments, script: Script) -> Settings:
    """The settings of all files of a unit."""
    found = Settings(fragments.name, script)
    for path in fragments.files():
        for it in parsed(text_of(path), path.name):
            if not isinstance(it, Assignment):
                script.note(it.why, it.place)
            elif it.section == SECTION:
                found.has_section = True
                found.assigned.append(it)
    if not found.has_section:
        raise Bad(f"{fragments.main}: it has no setting in a section [{SECTION}]: it is no service")
    return found
