"""A declaration as it was read: its script, and what the table says of it besides."""

from __future__ import annotations

from dataclasses import dataclass, field

from .answers import Answer, Space, answer
from .places import Bears, Place
from .script import Script
from .users import Users


@dataclass
class Declaration:
    """A program that a declaration starts. `order` names what was measured, as `systemd 252`."""

    name: str
    command: str
    place: Place
    order: str
    script: Script
    users: Users
    space: Space = field(default_factory=Space)

    @property
    def unsure(self) -> bool:
        """Whether something isn't known that all of the answer may depend on."""
        return any(it.bears is Bears.ALL for it in self.script.unknown)

    def answer(self) -> Answer:
        """What it comes to."""
        return answer(self.script, self.space)
