"""Every chmod of a file, by its owner and by others, in its group and not, with each capability
that tells and without; how the file stands before and then, and what it is to whoever executes it.
"""
from collections.abc import Iterator
from itertools import product

from changed import CAP_CHOWN, CAP_FOWNER, CAP_FSETID, File, Process
from changed import begin, chmod, make, stranger, tries
from reports import Script
from suite import Case

# The file's owner and group; another user and another group.
OWNER, GROUP, OTHER = 1, 2, 3
MODES = (0o0000, 0o0755, 0o2000, 0o2755, 0o6755, 0o7777, 0o2644, 0o4111)


def processes() -> Iterator[Process]:
    """The owner and another; in the file's group, by its filesystem group or by a supplementary
    one, and not.
    """
    groups = ((GROUP, OTHER), (OTHER, GROUP), (OTHER, OTHER))
    capabilities = ((), (CAP_FOWNER,), (CAP_FSETID,), (CAP_FOWNER, CAP_FSETID), (CAP_CHOWN,))
    for user, (own, other), some in product((OWNER, OTHER), groups, capabilities):
        yield Process(user, own, other, frozenset(some))


def cases() -> Iterator[Case]:
    for number, process in enumerate(processes()):
        kinds = [File(kind, OWNER, GROUP, 0o6755, True) for kind in ("reg", "dir")]
        asked = [*product(kinds, MODES)]
        script = Script()
        begin(script, {f"f{at}": file for at, (file, _) in enumerate(asked)})
        make(script, process)
        stranger(script)
        for at, (file, mode) in enumerate(asked):
            answer, then = chmod(process, file, mode)
            tries(script, f"f{at}", file, "chmod", f"{mode:04o}", answer, then)
        yield script.case(f"process-{number}", 4 * len(asked))
