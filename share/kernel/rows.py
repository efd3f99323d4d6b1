"""The rows of docs/LINUX.md that a kernel's answers show, by their keys."""

from __future__ import annotations

from linux.rows import (
    CAPABILITY, DENIED_GROUPS, FILESYSTEM_IDS, GROUPS, IDS_TOLD, LONG_ATTRIBUTE, NO_NEW_PRIVS_FILE,
    NO_NEW_PRIVS_IDS, PLAIN_FILE, SECUREBITS, SET_ID, UNMAPPED, UNMAPPED_FILE, row,
)  # fmt: skip

# Those that the model of a Linux has (model.py), and so are expected of one.
EXPECTED = frozenset(
    (
        FILESYSTEM_IDS, SECUREBITS, GROUPS, NO_NEW_PRIVS_FILE, NO_NEW_PRIVS_IDS, SET_ID, PLAIN_FILE,
        LONG_ATTRIBUTE, CAPABILITY, UNMAPPED, UNMAPPED_FILE, IDS_TOLD,
    )
)  # fmt: skip
# It is one more where setgroups(2) is denied, as in a user's own namespace.
MANUAL: frozenset[str] = frozenset()

__all__ = [
    "CAPABILITY", "DENIED_GROUPS", "EXPECTED", "FILESYSTEM_IDS", "GROUPS", "LONG_ATTRIBUTE",
    "MANUAL", "NO_NEW_PRIVS_FILE", "NO_NEW_PRIVS_IDS", "PLAIN_FILE", "SECUREBITS", "SET_ID",
    "UNMAPPED", "UNMAPPED_FILE", "row",
]  # fmt: skip
