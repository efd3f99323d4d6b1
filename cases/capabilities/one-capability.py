"""Each capability alone in the effective set: whether each is had."""
from collections.abc import Iterator

from processes import ALL
from reports import Script
from suite import Case

CAPABILITIES = range(41)


def alone(script: Script, had: int) -> None:
    """A child of root's to which all is permitted has this one capability effective."""
    script.fork(1, 2, 2)
    script.changes(2, f"capset {ALL:x} 0 {1 << had:x}")
    for asked in CAPABILITIES:
        script.asks(2, f"capable {asked}", f"ok {asked == had:d}")
    script.exit(2)


def cases() -> Iterator[Case]:
    """One script for all."""
    script = Script()
    script.init(1, 1, 0, 0)
    for it in CAPABILITIES:
        alone(script, it)
    yield script.case("of each", 41 * 41)
