"""The names of capabilities and securebits, as the page's script has them."""

from __future__ import annotations

from capabilities import CAPABILITIES, SECUREBITS


def tables() -> dict[str, list[str]]:
    """The capabilities by their numbers, and a script's securebits by their bits."""
    return {
        "caps": [f"CAP_{name}" for name in CAPABILITIES],
        "flags": [f"SECBIT_{name}" for name in SECUREBITS[:8]],
    }
