"""Every chown of a file, by its owner and by others, with the capability and without, over modes
with and without set-id and execute bits; how the file stands before and then, and what it is to
whoever executes it.
"""
from collections.abc import Iterator
from itertools import product

from changed import CAP_CHOWN, CAP_FOWNER, CAP_FSETID, KEEP, File, Process
from changed import begin, chown, make, stranger, tries
from reports import Script
from suite import Case

# The file's owner and group; another user; the groups that a process is in, and one that it isn't.
OWNER, GROUP, OTHER, OWN, SUPPLEMENTARY, STRANGE = 1, 2, 3, 4, 5, 6
MODES = (0o0755, 0o4755, 0o6755, 0o2755, 0o2705, 0o6644, 0o4100, 0o1010)
OWNERS = (KEEP, OWNER, OTHER)
GROUPS = (KEEP, GROUP, OWN, SUPPLEMENTARY, STRANGE)


def processes() -> Iterator[Process]:
    """The owner and another, in the file's group and not; with CAP_CHOWN, with others, and none."""
    capabilities = ((), (CAP_CHOWN,), (CAP_FOWNER, CAP_FSETID))
    for user, some in product((OWNER, OTHER), capabilities):
        yield Process(user, OWN, SUPPLEMENTARY, frozenset(some))


def files() -> Iterator[File]:
    """Programs with an attribute, files that nobody executes, and directories."""
    for mode in MODES:
        yield File("reg", OWNER, GROUP, mode, True)
    yield File("reg", OWNER, GROUP, 0o6755, False)
    yield File("dir", OWNER, GROUP, 0o6755, True)


def cases() -> Iterator[Case]:
    for number, process in enumerate(processes()):
        for kinds in (list(files())[:5], list(files())[5:]):
            asked = [*product(kinds, OWNERS, GROUPS)]
            script = Script()
            begin(script, {f"f{at}": file for at, (file, _, _) in enumerate(asked)})
            make(script, process)
            stranger(script)
            for at, (file, owner, group) in enumerate(asked):
                answer, then = chown(process, file, owner, group)
                tries(script, f"f{at}", file, "chown", f"{owner} {group}", answer, then)
            yield script.case(f"process-{number}-{kinds[0].mode:04o}", 4 * len(asked))
