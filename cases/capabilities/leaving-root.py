"""Every setresuid(2) between triples of three user ids, of which one is root's, under the
securebits that change its effect: in the initial user namespace and in a container's.
"""
from collections.abc import Iterator
from dataclasses import replace
from itertools import product

from processes import (
    CONTAINER, INITIAL, KEEP_CAPS, NO_SETUID_FIXUP, TASK, USERS, Process, Setting, begun, followed,
    make, tries_ids,
)
from suite import Case

SECUREBITS = 0, KEEP_CAPS, NO_SETUID_FIXUP, KEEP_CAPS | NO_SETUID_FIXUP


def page(process: Process, real: int, effective: int, saved: int) -> Process:
    """setresuid(2) of a process with CAP_SETUID: it "may set its real UID, effective UID, and saved
    set-user-ID to arbitrary values".
    """
    return followed(replace(process, real=real, effective=effective, saved=saved))


def cases() -> Iterator[Case]:
    """A script for each namespace and each choice of securebits."""
    for setting in (Setting(*it) for it in product((INITIAL, CONTAINER), SECUREBITS)):
        script = begun(setting.namespace)
        for real, effective, saved in product(setting.namespace.ids, repeat=3):
            process = Process(real, effective, saved, effective, True)
            make(script, process, USERS, setting)
            for ids in product(setting.namespace.ids, repeat=3):
                tries_ids(script, process, USERS, page, ("setresuid", *ids), setting)
            script.exit(TASK)
        number, securebits = setting.namespace.number, setting.securebits
        yield script.case(f"in n{number} with securebits {securebits}", 27 * 27)
