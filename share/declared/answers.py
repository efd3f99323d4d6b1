"""The program's answer to a script: the credential at each moment, or the call that is refused.

What Linux makes of the execve otherwise than the rules is found by the rules of share/kernel, and
told apart: the script's answer is proved, that isn't.
"""

from __future__ import annotations

import re
from collections.abc import Callable
from dataclasses import dataclass, field, replace

from kernel.on_execve import Before, Compared, compared, sentence
from why.names import ERRORS, KEEP_CAPS
from why.program import report_of

from .places import Failure
from .script import Line, Moment, Script, Written

# An id that the program's user namespace doesn't map, as the program sees it.
OVERFLOW = 65534
ENTRY = re.compile(r"(\d+) (.*) -> (.*)")
# How the kernel answers what a rule refuses with no error's name: an attribute that is too long.
NAMES = ERRORS | {"errno 34": "ERANGE"}


@dataclass(frozen=True)
class Credential:
    """Ids, groups, the five sets and the flags, as a script tells them."""

    users: tuple[int, ...]
    group_ids: tuple[int, ...]
    groups: tuple[int, ...]
    sets: tuple[int, ...]
    securebits: int
    no_new_privs: bool

    def seen(self, user: Callable[[int], int], group: Callable[[int], int]) -> Credential:
        """As the program sees it in its user namespace."""
        return replace(
            self, users=tuple(map(user, self.users)), group_ids=tuple(map(group, self.group_ids)),
            groups=tuple(sorted(map(group, self.groups))),
        )  # fmt: skip


@dataclass(frozen=True)
class Passed:
    """A call that is refused, and that the launcher passes over."""

    number: int
    line: Line
    answer: str


@dataclass
class Answer:
    """What a declaration comes to. `after` is what Linux leaves, `rules` what the rules do; they
    differ by `rows`. Where the program isn't started `failure` says why."""

    written: Written
    start: Credential | None = None
    before: Credential | None = None
    after: Credential | None = None
    rules: Credential | None = None
    rows: list[str] = field(default_factory=list)
    passed: list[Passed] = field(default_factory=list)
    failure: Failure | None = None


@dataclass
class Asked:
    """The answers to the questions of one moment."""

    words: dict[str, list[str]] = field(default_factory=dict)

    def credential(self) -> Credential | None:
        """The credential, where all is told."""
        if len(self.words) < 4:
            return None
        ids = [int(word) for word in self.words["ids"]]
        bits = [int(word) for word in self.words["bits"]]
        return Credential(
            tuple(ids[:4]), tuple(ids[4:]), tuple(map(int, self.words["groups"])),
            tuple(int(word, 16) for word in self.words["caps"]), bits[0], bool(bits[1]),
        )  # fmt: skip


def refused(told: str) -> bool:
    """Whether an event is refused."""
    return told.split()[0] != "ok"


def shown(told: str) -> str:
    """A refusal by its error's name."""
    return NAMES.get(told, told)


def failed(line: Line, number: int, told: str) -> Failure:
    """A call of the launcher that is refused."""
    return Failure(line.step, line.why, line.places, line.call, shown(told), number)


def read(script: Script, written: Written, report: str) -> Answer:
    """The answer that a report gives."""
    found = Answer(written)
    asked = {moment: Asked() for moment in Moment}
    for number, event, told in ENTRY.findall(report):
        line = written.lines.get(int(number))
        if line is None:
            continue
        if line.asks is not None:
            if event.startswith("ask"):
                asked[line.asks].words[event.split()[2]] = told.split()[1:]
        elif refused(told) and not event.startswith(("drop", "abort")):
            if line.passes:
                found.passed.append(Passed(int(number), line, shown(told)))
            elif found.failure is None:
                found.failure = failed(line, int(number), told)
    found.start = asked[Moment.START].credential()
    found.before = asked[Moment.BEFORE].credential()
    if found.failure is None:
        found.rules = found.after = asked[Moment.AFTER].credential()
    return found


def by_linux(script: Script, it: Compared, found: Answer) -> None:
    """The answer, with what Linux does at the execve otherwise."""
    found.rows = [sentence(row) for row in it.rows]
    number, line = next(
        (number, line) for number, line in found.written.lines.items()
        if line.call.startswith("exec ")
    )  # fmt: skip
    if it.linux.error:
        found.after = None
        found.failure = replace(
            failed(line, number, it.linux.error), reason="; ".join(found.rows)
        )
        return
    if found.before is None:
        return
    found.failure = None
    found.after = replace(
        found.before, users=it.linux.users, group_ids=it.linux.group_ids, sets=it.linux.sets,
        securebits=found.before.securebits & ~KEEP_CAPS,
    )  # fmt: skip


@dataclass(frozen=True)
class Space:
    """The program's user namespace: which ids of the host it maps, and to which."""

    user: Callable[[int], int | None] = lambda number: number
    group: Callable[[int], int | None] = lambda number: number

    def maps(self, number: int) -> bool:
        """Whether an id is mapped, as a user and as a group."""
        return self.user(number) is not None and self.group(number) is not None

    def seen(self, credential: Credential | None) -> Credential | None:
        """A credential, as the program sees it."""

        def inside(of: Callable[[int], int | None]) -> Callable[[int], int]:
            return lambda number: OVERFLOW if (found := of(number)) is None else found

        return credential and credential.seen(inside(self.user), inside(self.group))


def compare_execve(script: Script, space: Space, found: Answer) -> None:
    """Compares the execve of the script with Linux's, where one is reached."""
    before = found.before
    reaches = found.failure is None or found.failure.call.startswith("exec ")
    if before is None or not script.files or not reaches or script.failure is not None:
        return
    known = Before(
        before.users, before.group_ids, before.groups, before.sets, before.securebits,
        before.no_new_privs,
    )  # fmt: skip
    it = compared(known, script.files[-1], script.roots, space.maps)
    if it.rows:
        by_linux(script, it, found)


def answer(script: Script, space: Space) -> Answer:
    """Runs a script, and reads what came of it. Ids are told as the program sees them."""
    written = script.written()
    found = read(script, written, report_of(written.text.encode("latin-1")))
    compare_execve(script, space, found)
    if script.failure is not None:
        found.failure, found.after, found.rules = script.failure, None, None
    if found.failure is not None and not found.failure.call.startswith("exec "):
        found.before = None
    found.before, found.after, found.rules = map(
        space.seen, (found.before, found.after, found.rules)
    )
    return found
