"""Numbers of groups, up to more than there may be.

setgroups(2): "EINVAL size is greater than NGROUPS_MAX (32 before Linux 2.6.4; 65536 since Linux
2.6.4)"; docs/RULES.md has 1,024, and docs/LINUX.md the difference.
"""
from collections.abc import Iterator
from dataclasses import replace

from reports import Script
from suite import Case

TASK = 1
MOST = 1024
# The few, those about 32, 64, 512 and the most, and none again behind a refusal; then Linux's most.
COUNTS = (*range(5), 31, 32, 33, 63, 64, 65, 511, 512, 513, 1023, MOST, MOST + 1, 0, 2048, 65_536)


def cases() -> Iterator[Case]:
    """A root task sets so many groups, and is asked each time."""
    made = Script()
    made.init(TASK, 1, 0, 0)
    groups = ""
    for count in COUNTS:
        told = " ".join(str(it) for it in range(1, count + 1))
        call = f"setgroups {told}".rstrip()
        if count <= MOST:
            groups = told
        made.ids(TASK, call, None if count <= MOST else "einval")
        made.asks(TASK, "groups", f"ok {groups}".rstrip())
    case = made.case("0 to 65,536", len(COUNTS))
    yield case
    # The same as events: a line that begins the call makes the entry that the call's line makes.
    given = case.given.replace(b"t1 setgroups", b"begin t1 setgroups")
    yield replace(case, name="0 to 65,536, as events", given=given)
