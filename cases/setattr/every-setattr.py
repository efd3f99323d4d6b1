"""Attributes that are set and removed, by the file's owner and by others, with CAP_SETFCAP and
without; bytes that are none; how the file stands before and then, and what it gives to whoever
executes it.
"""
from collections.abc import Iterator
from itertools import product

from changed import CAP_CHOWN, CAP_FOWNER, CAP_SETFCAP, GIVES, NET_RAW, File, Process
from changed import begin, make, setattr_, stranger, tries
from processes import ALL
from reports import Script
from suite import Case

OWNER, GROUP, OTHER = 1, 2, 3
# Attributes of each version, with flags and bits that say nothing, and what each gives: one of
# version 3 is for processes whose root is another, and so gives nothing here. And bytes that are
# none: too few for a revision, none of the revisions, and another length than the revision's.
GOOD = {
    NET_RAW: GIVES,
    "000000010020000000000000": (1 << 13, False),
    "0100000300200000000000000000000000000000a0860100": (0, False),
    "ffffff02ffffffffffffffffffffffffffffffff": (ALL, True),
}
BAD = ("01", "010000", "01000004" + 16 * "00", NET_RAW + "00", "01000002", "01000001" + 16 * "00")


def processes() -> Iterator[Process]:
    """The owner and another; with CAP_SETFCAP, with what serves other calls, with all but it."""
    capabilities = (
        (),
        (CAP_SETFCAP,),
        (CAP_CHOWN, CAP_FOWNER),
        tuple(it for it in range(ALL.bit_length()) if it != CAP_SETFCAP),
    )
    for user, some in product((OWNER, OTHER), capabilities):
        yield Process(user, OTHER, OTHER, frozenset(some))


def cases() -> Iterator[Case]:
    given = [*((it, True) for it in GOOD), *((it, False) for it in BAD), (None, True)]
    for number, process in enumerate(processes()):
        had = product(("reg", "dir"), (True, False))
        kinds = [File(kind, OWNER, GROUP, 0o4755, one) for kind, one in had]
        asked = [*product(kinds, given)]
        script = Script()
        begin(script, {f"f{at}": file for at, (file, _) in enumerate(asked)})
        make(script, process)
        stranger(script)
        for at, (file, (data, is_one)) in enumerate(asked):
            answer, then = setattr_(process, file, data is not None, is_one)
            call = "clearattr" if data is None else "setattr"
            gives = GOOD.get(data or "", GIVES) if answer == "ok" else GIVES
            tries(script, f"f{at}", file, call, data or "", answer, then, gives)
        yield script.case(f"process-{number}", 4 * len(asked))
