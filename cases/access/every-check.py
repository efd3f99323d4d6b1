"""Every check of a file and of a directory, over all modes of three octal digits.

The processes have a filesystem id that is the file's or isn't, a supplementary group that is or
isn't, and CAP_DAC_OVERRIDE and CAP_DAC_READ_SEARCH or not. Each is held under a label of its own.
"""
from collections.abc import Iterator
from itertools import product

from checks import ASKED, CAP_DAC_OVERRIDE, CAP_DAC_READ_SEARCH, File, Process, told
from processes import ALL, NO_SETUID_FIXUP
from reports import Script
from suite import Case

# The file's owner and group, and another user and group.
OWNER, GROUP, OTHER = 1, 2, 3
# How many files are declared in a script.
FILES = 128


def processes() -> Iterator[Process]:
    """The owner, outside of the group and in it; a member by its filesystem group and by a
    supplementary one; and another. Each with the two capabilities or not.
    """
    classes = (
        (OWNER, OTHER, OTHER),
        (OWNER, GROUP, GROUP),
        (OTHER, GROUP, OTHER),
        (OTHER, OTHER, GROUP),
        (OTHER, OTHER, OTHER),
    )
    for ids, *capabilities in product(classes, (False, True), (False, True)):
        yield Process(*ids, *capabilities)


def make(script: Script, process: Process) -> None:
    """Makes a child of root this process. Its other ids are the file's where its filesystem ids are
    not, and the other way round, and so are of no use to it.
    """
    user = OTHER if process.fsuid == OWNER else OWNER
    group = OTHER if process.fsgid == GROUP else GROUP
    effective = process.dac_override << CAP_DAC_OVERRIDE
    effective |= process.dac_read_search << CAP_DAC_READ_SEARCH
    script.fork(1, 2, 2)
    script.ids(2, f"setgroups 0 {process.supplementary} 9")
    script.ids(2, f"setresgid {group} {group} {group}")
    script.changes(2, f"setfsgid {process.fsgid}", answer=f"ok was {group}")
    script.ids(2, f"setresuid {user} {user} {user}")
    script.changes(2, f"setfsuid {process.fsuid}", answer=f"ok was {user}")
    script.changes(2, f"capset {ALL:x} 0 {effective:x}")


def ask(script: Script, label: int, process: Process, file: File) -> None:
    """Asks for each way to use the file."""
    for letters in ASKED:
        query = f"check {file.name()} {letters}"
        script.asks_held(label, query, told(process, file, letters))


def checks(files: list[File]) -> Script:
    """Each process asks for all of each file."""
    script = Script()
    script.declares(*(it.declared() for it in files))
    script.init(1, 1, 0, 0)
    script.changes(1, f"securebits {NO_SETUID_FIXUP}")
    for label, process in enumerate(processes(), 1):
        make(script, process)
        script.takes(label, 2)
        script.exit(2)
        for file in files:
            ask(script, label, process, file)
    return script


def cases() -> Iterator[Case]:
    """All files, some in each script."""
    kinds = product(("reg", "dir"), range(0o1000))
    files = [File(kind, mode, OWNER, GROUP) for kind, mode in kinds]
    for start in range(0, len(files), FILES):
        some = files[start : start + FILES]
        calls = len(some) * len(ASKED) * len([*processes()])
        yield checks(some).case(f"of {some[0].name()} and on", calls)
