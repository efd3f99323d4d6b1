"""How it ends where there is no answer."""

from __future__ import annotations

from why.reason import Bad, NotFound

__all__ = ["Bad", "Limit", "NotFound"]


class Limit(Exception):
    """A limit was met: what it is, in one line. The answer isn't known."""
