"""The rows of docs/LINUX.md by their keys, which stand in its table's first column.

Code names a row by its key alone; what the page says of it is read there. Each key of the page
stands here, and each that stands here on the page (.ci/pages).
"""

from __future__ import annotations

import re
from functools import lru_cache
from pathlib import Path

PAGE = Path(__file__).resolve().parents[2] / "docs" / "LINUX.md"

FILESYSTEM_IDS = "filesystem-id"
GROUPS = "groups"
IDS_TOLD = "ids-told"
UNMAPPED = "unmapped-id"
DENIED_GROUPS = "denied-groups"
SECUREBITS = "securebits"
FIRST_TASK = "first-task"
THREADS_NAMESPACE = "namespace-of-threads"
DIRECTORIES = "directories"
NOT_MODE = "not-the-mode"
CAPABILITY = "mapped-for-capability"
CONTINUE = "sigcont"
CREATOR = "namespace-creator"
OUTER = "namespace-of-program"
LOOKS = "looks"
EXECVE_FLAG = "dumpable-at-execve"
SUID_DUMPABLE = "suid-dumpable"
LONG_ATTRIBUTE = "long-attribute"
NO_NEW_PRIVS_FILE = "no-new-privs-file"
NO_NEW_PRIVS_IDS = "no-new-privs-ids"
UNMAPPED_FILE = "unmapped-owner"
SET_ID = "set-id-bit"
PLAIN_FILE = "plain-file"
TRACED = "script-or-traced"
CHILD = "child-credential"
RAW_CALL = "call-of-one-thread"
RAW_MEANWHILE = "call-meanwhile"
CALLER_LAST = "caller-last"
LEADER = "leader-after-execve"
OVERRIDES = "overrides"
DESCRIPTORS = "descriptors"
STALE = "stale-commit"
CHOWN_KEEPS = "chown-of-no-id"
CHOWN_ENOUGH = "chown-of-set-id"
CHOWN_TAKES = "chown-of-any-file"
CHOWN_STAYS = "chown-of-set-group-id"
MAPPED_FILE = "mapped-file"
NO_ATTRIBUTE = "no-attribute"
OTHER_ATTRIBUTE = "other-attribute"
AS_WRITTEN = "attribute-as-written"
ABSENT_ATTRIBUTE = "absent-attribute"
NO_NEW_PRIVS_FLAG = "no-new-privs-flag"

KEYS = frozenset(it for name, it in globals().items() if name.isupper() and isinstance(it, str))


@lru_cache(None)
def rows() -> dict[str, tuple[str, str]]:
    """Of each key what is said of the program and of Linux; nothing where share/ was copied without
    the pages."""
    text = PAGE.read_text(encoding="utf-8") if PAGE.exists() else ""
    found = re.findall(r"^\| `([\w-]+)` \| (.*?) \| (.*) \|$", text, re.MULTILINE)
    return {key: (here, linux) for key, here, linux in found}


def row(key: str) -> tuple[str, str]:
    """What the row of a key says of the program, and of Linux; without the page the key alone."""
    return rows().get(key, (key, ""))
