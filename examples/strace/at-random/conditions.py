"""What has to stand in a log for what credtrace-compare tells of it, by its text alone.

What is told of a line has to stand in the log before that line ends.
"""

from __future__ import annotations

import re
from collections.abc import Callable
from contextlib import suppress
from pathlib import Path

from linux import rows
from strace.compare.rows import LOG
from strace.log.lines import BadLog
from strace.log.sources import merged

# What is told of a difference: the call, the kernel's answer, the report's, the script's line.
DIFFERENCE = re.compile(
    r"line (?P<line>\d+): pid (?P<pid>\d+) (?P<call>.*): the kernel (?P<kernel>[^,]*), "
    r"the report (?P<report>.*) \(line \d+: (?P<text>.*)\)$"
)
SINCE = re.compile(r"    since line \d+: (?P<text>.*)$", re.MULTILINE)

# Whether a reason may be told: of the difference, the text of the log, what it is told since, and
# whether strace was a user's.
Condition = Callable[[re.Match[str], str, str, bool], bool]


def has(*parts: str) -> Condition:
    """The log has each of these."""
    return lambda found, log, since, user: all(re.search(part, log) for part in parts)


def since_is(pattern: str, *parts: str) -> Condition:
    """The line that it comes from is such a one, and the log has each of these."""
    return lambda found, log, since, user: (
        re.search(pattern, since or found["text"]) is not None
        and all(re.search(part, log) for part in parts)
    )


NEW_PRIVS = r"PR_SET_NO_NEW_PRIVS, 1"
SPACE = r"CLONE_NEWUSER"
RAISE = r"PR_CAP_AMBIENT_RAISE, \S+, 0, 0\) = 0"

CONDITIONS: dict[str, Condition] = {
    rows.FILESYSTEM_IDS: since_is(r"setres[ug]id \S+ -1 "),
    rows.SECUREBITS: since_is(r"securebits (25[6-9]|2[6-9]\d|[3-9]\d\d|\d{4})"),
    rows.UNMAPPED: lambda *_: False,
    rows.DENIED_GROUPS: since_is(r"setgroups", SPACE),
    rows.DIRECTORIES: lambda found, log, since, user: found["kernel"] == "eacces",
    rows.NOT_MODE: lambda found, log, since, user: found["kernel"] in ("eperm", "eacces"),
    rows.CAPABILITY: has(SPACE),
    rows.CONTINUE: lambda found, log, since, user: "SIGCONT) = 0" in found["call"],
    rows.NO_NEW_PRIVS_FILE: has(NEW_PRIVS),
    rows.NO_NEW_PRIVS_IDS: has(NEW_PRIVS),
    rows.UNMAPPED_FILE: since_is(r"exec ", SPACE),
    rows.SET_ID: since_is(r"exec ", RAISE),
    rows.PLAIN_FILE: since_is(r"exec ", r"setfsgid", RAISE),
    rows.TRACED: lambda found, log, since, user: user,
    rows.CREATOR: has(SPACE),
    rows.OUTER: has(SPACE),
    rows.LOOKS: lambda *_: False,
    rows.EXECVE_FLAG: since_is(r"dumped|ptrace|exec ", r"execve"),
    rows.CHOWN_KEEPS: since_is(r"chown \S+ -1 -1"),
    rows.CHOWN_ENOUGH: lambda found, log, since, user: " chown " in found["text"],
    rows.CHOWN_TAKES: since_is(r"chown"),
    rows.CHOWN_STAYS: since_is(r"chown"),
    rows.MAPPED_FILE: has(SPACE),
    rows.NO_ATTRIBUTE: lambda found, log, since, user: "EINVAL" in found["call"] or (
        found["kernel"] == "einval" and " setattr " in found["text"]),
    rows.OTHER_ATTRIBUTE: lambda found, log, since, user: found["kernel"] == "einval",
    rows.AS_WRITTEN: since_is(r"setattr", SPACE),
}


def text_of(logs: list[str]) -> str:
    """All of the log, of one in parts in the order of its times."""
    with suppress(BadLog):
        if len(logs) > 1:
            return "\n".join(merged(logs))
    # Of one that is cut, as where strace was killed, the parts one behind the other.
    return "".join(Path(log).read_text(encoding="latin-1") for log in logs)


def unfounded(out: str, logs: list[str], user: bool) -> str | None:
    """A difference that isn't explained, or by what doesn't hold."""
    log = text_of(logs)
    blocks = re.split(r"\n(?=line \d+: pid )", out)
    for block in blocks:
        head, _, rest = block.partition("\n")
        found = DIFFERENCE.match(head)
        if found is None:
            continue
        reason = rest.split("\n")[0].strip()
        if "no row explains it" in reason:
            return block
        since = SINCE.search(block)
        before = "\n".join(log.split("\n")[: int(found["line"])])
        if not holds(found, reason, before, since["text"] if since else "", user):
            return f"what is told doesn't hold:\n{block}"
    return None


def holds(found: re.Match[str], reason: str, log: str, since: str, user: bool) -> bool:
    """Whether a reason holds."""
    if reason.startswith(LOG):
        return is_told(reason, log)
    told = re.sub(r"^docs/LINUX\.md(, it may be)?: ", "", reason)
    for key, condition in CONDITIONS.items():
        if told.startswith(rows.row(key)[0]):
            return condition(found, log, since, user)
    return False


def is_told(reason: str, log: str) -> bool:
    """Whether the log itself says so, at the line that is named."""
    if "has noexec" in reason:
        return "MS_NOEXEC" in log
    named = re.search(r" line (\d+)", reason)
    line = int(named[1]) if named else 0
    there = [*log.split("\n"), ""][line - 1 : line] if line else []
    changes = "is under way" in reason and re.search(r"set\w+\(|exec|prctl|capset", "".join(there))
    return bool(changes) or bool(re.search(r"SECCOMP_\w*MODE_FILTER", "".join(there)))
