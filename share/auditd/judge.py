"""The tests by which a difference gets its class, each held to the last id."""

from __future__ import annotations

from collections.abc import Callable

from .files import has_set_ids, program_of
from .findings import Class, Reason
from .records import Event
from .reduced import Ending
from .running import fits
from .script import Check, Kind
from .tasks import FILE_IDS

Answers = Callable[[str], dict[int, str]]
Verdict = tuple[Class, Reason]


class Judge:
    """Judges a difference, by the lines that lead to it."""

    def __init__(self, leads: Ending, answers: Answers) -> None:
        self._leads, self._answers = leads, answers

    def judged(self, check: Check, answer: str) -> Verdict:
        """The class of a difference, and why it is that."""
        if check.kind is Kind.PROGRAM:
            return Class.MISSING, Reason.LACKS_EXECVE
        if check.guess is not None:
            return Class.DOUBTFUL, Reason.MAPS
        if check.kind is Kind.CALL and is_refusal(check.expected) and answer.startswith("ok"):
            return Class.EXPLAINED, Reason.REFUSED
        if check.kind is Kind.IDS:
            return self._ids(check, answer)
        if self._was(check) and self._reached(check, [self._was_line(check)]):
            return Class.MISSING, Reason.LACKS
        if not check.sets_known:
            return Class.DOUBTFUL, Reason.GUESS
        if check.kind in (Kind.SETS, Kind.BEFORE) and is_less(check.expected, answer):
            return Class.EXPLAINED, Reason.LESS
        if self._sets_missing(check):
            return Class.MISSING, Reason.LACKS_SETS
        return Class.UNEXPLAINED, Reason.GAINS

    def _ids(self, check: Check, answer: str) -> Verdict:
        """Ids that are others."""
        if without_set_ids(check.event, check.expected, answer):
            return Class.EXPLAINED, Reason.NO_SET_IDS
        if self._reached(check, id_calls(check)):
            return Class.MISSING, Reason.LACKS
        if not check.executed:
            return Class.DOUBTFUL, Reason.THREADS
        return Class.UNEXPLAINED, Reason.GAINS

    def _was(self, check: Check) -> bool:
        """Whether it is what setfsuid(2) or setfsgid(2) returned."""
        return check.kind is Kind.CALL and check.event.name in FILE_IDS

    def _was_line(self, check: Check) -> str:
        return f"{check.task.name} {check.event.name} {check.expected.split()[2]}"

    def _answer(self, lines: list[str]) -> str:
        """The answer of the last line, behind those before the body."""
        head = self._leads.head
        text = "\n".join([*head, *lines, ""])
        return self._answers(text).get(len(head) + len(lines), "nothing")

    def _reached(self, check: Check, calls: list[str]) -> bool:
        """Whether with these calls before or after that of the record the rules lead to what it
        says."""
        body, begin = self._leads.body, self._leads.begin
        before, own, line = body[:begin], body[begin:-1], body[-1]
        ways = [[*before, *calls, *own, line]]
        if not self._was(check):
            ways.append([*before, *own, *calls, line])
        return any(fits(check.expected, self._answer(way)) for way in ways)

    def _sets_missing(self, check: Check) -> bool:
        """Whether one call more of the task, that changes no id, makes the difference go."""
        body, place = self._leads.body, len(self._leads.body) - 1
        name = check.task.name
        line = body[place]
        for at in self._places(check):
            for call in self._set_calls(name, body[:at]):
                if fits(check.expected, self._answer([*body[:at], call, *body[at:place], line])):
                    return True
        return False

    def _places(self, check: Check) -> list[int]:
        """Before which lines a call may be missing: the record's own, and those before which
        changed the task's ids, the nearest first."""
        begin = self._leads.begin
        found = [begin]
        head = f"{check.task.name} "
        for at in range(begin - 1, -1, -1):
            line = self._leads.body[at]
            if not line.startswith(head):
                continue
            words = line.split()
            if words[1] == "exec":
                break
            if words[1].startswith("set") and words[1] != "setgroups":
                found.append(at)
        return found[:PLACES]

    def _set_calls(self, name: str, before: list[str]) -> list[str]:
        """Calls that change sets: KEEP_CAPS, and all that is permitted made effective."""
        answer = self._answer([*before, f"{name} caps"]).split()
        if len(answer) != 6:
            return []
        permitted, inheritable = answer[1:3]
        return [f"{name} keepcaps 1", f"{name} capset {permitted} {inheritable} {permitted}"]


# At how many places a missing call is tried.
PLACES = 6


def is_refusal(expected: str) -> bool:
    """Whether the kernel refused the call."""
    return expected in ("eperm", "eacces", "einval")


def id_calls(check: Check) -> list[str]:
    """The calls that lead to the ids of a record, where they are permitted."""
    name, ids = check.task.name, check.event.ids
    return [
        f"{name} setresgid {ids[4]} {ids[5]} {ids[6]}",
        f"{name} setfsgid {ids[7]}",
        f"{name} setresuid {ids[0]} {ids[1]} {ids[2]}",
        f"{name} setfsuid {ids[3]}",
    ]


def without_set_ids(event: Event, expected: str, answer: str) -> bool:
    """Whether an execve has all ids that the same file without set-id bits would give."""
    if not (event.executes and event.done):
        return False
    path = program_of(event)
    if path is None or not has_set_ids(path):
        return False
    rules = answer.split()[1:]
    return len(rules) == 8 and expected.split()[1:] == [rules[0]] * 4 + [rules[4]] * 4


def is_less(expected: str, answer: str) -> bool:
    """Whether the log's sets have nothing that those of the rules lack."""
    log, rules = expected.split()[1:], answer.split()[1:]
    return len(rules) == len(log) and not any(
        int(one, 16) & ~int(other, 16)
        for one, other in zip(log, rules, strict=True)
        if one != "*"
    )
