"""From a decision to its sentences: what has to be asked for it, and which rule it falls under."""

from __future__ import annotations

from collections.abc import Callable

from . import access, adjust, execve, file_rules, ids, linux, ptrace_rules, sources
from .values import KINDS, Values
from .records import Decision
from .journal import Journal
from .names import ALL, LAST, cap_number
from .reason import BITS, CAPS, GROUPS, IDS, Fault, NotFound, Reason
from .script import File

# What a change is decided on; and behind it, where it leads to other ids.
BEFORE = {"exec": (IDS, CAPS, GROUPS, BITS), "setfsuid": (IDS, CAPS, BITS), "setfsgid": (IDS, CAPS)}
AFTER = {"exec": (IDS, CAPS), "setfsuid": (IDS, CAPS), "setfsgid": (IDS, CAPS)}


Numbers = tuple[int, ...]


class Explainer:
    """Explains the entries of a journal."""

    def __init__(self, journal: Journal, values: Values, mask: int = ALL) -> None:
        self.journal = journal
        self.values = values
        self.mask = mask
        # Whether it is also told why an event was not refused.
        self.full = journal.whole is not None

    def asked(self, credential: int | None) -> tuple[Numbers, Numbers, Numbers]:
        """The ids, the sets and the groups of a credential."""
        values = self.values
        return values.ids(credential), values.caps(credential), values.groups(credential)

    def file_of(self, decision: Decision) -> File:
        """The file of a decision, as it stood."""
        if decision.file is None:
            raise Fault("the entry names no file")
        return file_rules.stands(decision.file, self.asked)

    def roots(self, credential: int | None) -> list[int]:
        """The root ids of a credential's namespace and of those above it."""
        return self.journal.script.roots[self.namespace(credential)]

    def namespace(self, credential: int | None) -> int:
        """The user namespace of a credential."""
        if credential is None:
            raise Fault("the entry names no credential that has a namespace")
        return self.journal.namespaces[credential]

    def wants(self, decision: Decision) -> None:
        """Has all asked for that the sentences of a decision rest on."""
        event, want = decision.words[0], self.values.want
        before, after = decision.before, decision.after
        self.wants_of_file(decision)
        if self.full:
            want(before, *KINDS)
            want(after, *KINDS)
            want(decision.target if event in ("signal", "ptrace") else None, IDS, CAPS)
            self.wants_of_flag(decision)
            return
        if decision.reason is not None or not (decision.refused or after is not None):
            return
        if event in ("begin", "act", "raw"):
            want(before, IDS, CAPS, *((BITS,) if not decision.refused else ()))
            want(after, IDS, CAPS)
        elif event == "commit":
            call = self.changed_by(decision)[0]
            want(before, *BEFORE.get(call, (CAPS,)))
            want(after, *AFTER.get(call, (CAPS,)))
        elif event == "change":
            self.wants_of_change(decision.words[2], before)
        elif event in file_rules.EVENTS or event == "open":
            want(before, IDS, CAPS, GROUPS)
        elif event == "ask" and decision.words[2] == "check":
            want(before, IDS, CAPS, GROUPS)
        elif event == "signal":
            want(before, IDS, CAPS)
            want(decision.target, IDS)
        elif event == "ptrace":
            want(before, IDS, CAPS)
            want(decision.target, IDS, CAPS)
            self.wants_of_flag(decision)
        elif event == "init":
            want(after, CAPS)

    def wants_of_file(self, decision: Decision) -> None:
        """What the mode of a file that was changed rests on."""
        if isinstance(decision.file, file_rules.Version):
            for credential in decision.file.credentials():
                self.values.want(credential, IDS, CAPS, GROUPS)

    def wants_of_flag(self, decision: Decision) -> None:
        """What the flag of a process rests on."""
        if decision.flag is not None:
            for credential in decision.flag.credentials():
                self.values.want(credential, IDS)

    def wants_of_change(self, call: str, before: int | None) -> None:
        """What the refusal of a change rests on."""
        if call == "exec":
            self.values.want(before, IDS, CAPS, GROUPS, BITS)
        else:
            self.values.want(before, *adjust.NEEDS.get(call, ()))

    def reasons(self, decision: Decision) -> list[Reason]:
        """The sentences of a decision. One that doesn't lead to the answer is a Fault."""
        if isinstance(decision.reason, Fault):
            raise decision.reason
        if decision.reason is not None:
            return [decision.reason]
        if decision.refused:
            return [self.refusal(decision), *self.on_linux(decision)]
        if decision.words[0] == "commit":
            return self.committed(decision)
        if decision.words[0] in ("override", "revert"):
            return []
        if decision.before is None and decision.after is not None:
            return [self.born(decision)]
        found = self.allowed(decision) if self.full else []
        if decision.words[0] in ("begin", "act", "raw"):
            found += self.identified(decision)
        return found

    def allowed(self, decision: Decision) -> list[Reason]:
        """Why a rule doesn't refuse an event."""
        words, before, values = decision.words, decision.before, self.values
        if words[0] in file_rules.EVENTS:
            return file_rules.allowed(words, self.file_of(decision), *self.asked(before))
        if words[0] in ("begin", "act", "raw"):
            call = self.call_of(decision)
            return [ids.allowed(call[0], call[1:], values.ids(before), values.caps(before))]
        if words[0] == "open" or words[0] == "ask" and words[2] == "check":
            want = words[3] if words[0] == "open" else words[4]
            return [access.allowed(self.file_of(decision), want, *self.asked(before))]
        if words[0] == "signal":
            asked = values.ids(before), values.caps(before), values.ids(decision.target)
            return [access.signal_allowed(*asked, decision.within)]
        if words[0] == "ptrace":
            return [self.look(decision, ptrace_rules.allowed)]
        if words[0] == "dumped":
            dumpable, text = self.flag_of(decision)
            if decision.told != ["ok", str(int(dumpable))]:
                raise Fault(f"it was answered {' '.join(decision.told)}, but it is {text}")
            return [Reason(text, sources.DUMPABLE)]
        return []

    def flag_of(self, decision: Decision) -> tuple[bool, str]:
        """Whether the process is dumpable, and since when."""
        if decision.flag is None:
            raise Fault("the entry looks into no process")
        dumpable, flag = ptrace_rules.found(decision.flag, self.values.ids)
        return dumpable, ptrace_rules.since(flag, dumpable, self.journal.script.line(flag.line))

    def look(self, decision: Decision, why: Callable[..., Reason]) -> Reason:
        """Why a look into another task is refused or allowed."""
        if decision.within:
            return Reason("allowed: both are threads of one process", sources.TRACE)
        values = self.values
        sides = (decision.before, decision.target)
        own, other = ((values.ids(it), values.caps(it)) for it in sides)
        one, two = (self.namespace(it) for it in sides)
        reach = one in self.journal.script.spaces[two]
        return why(decision.words[1], own, other, reach, one == two, self.flag_of(decision))

    def born(self, decision: Decision) -> Reason:
        """The sets that a new task has."""
        words, after = decision.words, decision.after
        if decision.creator is not None:
            text = f"{decision.task} has the credential of {decision.creator}, c{after}"
            return Reason(text, sources.CLONE if words[0] == "spawn" else sources.THREAD_SETS)
        root, user = self.roots(after)[0], int(words[3])
        full = ALL if user == root else 0
        if self.values.caps(after) != (full, 0, full, ALL, 0):
            raise Fault(f"a first task of user {user} has other sets, where root is {root}")
        is_root = "is root" if full else f"is not root ({root})"
        sets = "all permitted and effective" if full else "none permitted and none effective"
        text = f"a first task whose user {user} {is_root} has {sets}, and a full bounding set"
        return Reason(text, sources.FIRST)

    def call_of(self, decision: Decision) -> list[str]:
        """The words of a call that sets ids."""
        return self.changed_by(decision) if decision.words[0] == "act" else decision.words[2:]

    def changed_by(self, decision: Decision) -> list[str]:
        """The words of the call that is committed or followed."""
        if decision.change is None:
            raise Fault("the entry commits no call")
        return decision.change

    def refusal(self, decision: Decision) -> Reason:
        """Why a rule refuses an event."""
        event, words, told = decision.words[0], decision.words, decision.told[0]
        before, values = decision.before, self.values
        if event in file_rules.EVENTS:
            return file_rules.refusal(words, told, self.file_of(decision), *self.asked(before))
        if event in ("begin", "act", "raw"):
            call = self.call_of(decision)
            error = decision.told[2] if told == "aborted" else told
            found = ids.refusal(call[0], call[1:], error, values.ids(before), values.caps(before))
            if told == "aborted":
                text = f"{found.text}; so {decision.task} can't follow, and its process ends"
                return Reason(text, f"{found.source}; {sources.THREADS}")
            return found
        if event == "change":
            return self.change_refused(decision)
        if event == "ask":
            found = self.question_refused(decision)
            return by_access(found) if self.is_access(decision.line) else found
        if event == "open" and told == "eacces":
            file = self.file_of(decision)
            return access.refusal(file, words[3], *self.asked(before), source=sources.OPEN)
        # Within one process a signal is always allowed.
        if event == "signal" and told == "eperm" and not decision.within:
            return self.signal_refused(decision)
        if event == "ptrace" and told == "eperm" and not decision.within:
            return self.look(decision, ptrace_rules.refused)
        if event == "dumpable" and told == "einval" and words[2] not in ("0", "1"):
            return Reason(f"EINVAL: {words[2]} is neither 0 nor 1", sources.DUMPABLE)
        raise Fault(f"no sentence for {' '.join(words)}, answered {told}")

    def is_access(self, line: int) -> bool:
        """Whether a line is a call of access(2)."""
        return self.journal.script.line(line).split(" ")[1:2] == ["access"]

    def change_refused(self, decision: Decision) -> Reason:
        """Why a change is refused."""
        words, told, before = decision.words[2:], decision.told[0], decision.before
        values = self.values
        if words[0] == "exec":
            asked = *self.asked(before), values.bits(before), self.roots(before)
            return execve.refusal(self.file_of(decision), told, *asked)
        needs = adjust.NEEDS.get(words[0], ())
        caps = values.caps(before) if CAPS in needs else ()
        bits = values.bits(before) if BITS in needs else ()
        return adjust.refusal(words, told, caps, bits)

    def question_refused(self, decision: Decision) -> Reason:
        """Why a question is refused."""
        words, told = decision.words[2:], decision.told[0]
        if words[0] == "check" and told == "eacces":
            asked = self.asked(decision.before)
            return access.refusal(self.file_of(decision), words[2], *asked)
        source = {"capable": sources.LIST, "bset": sources.BOUND_READ, "ambis": sources.IS_SET}
        if told == "einval" and words[0] in source and cap_number(words[1]) > LAST:
            return adjust.no_capability(words[1], source[words[0]])
        raise Fault(f"the question {' '.join(words)} was answered {told}")

    def signal_refused(self, decision: Decision) -> Reason:
        """Why a signal is refused."""
        values = self.values
        target = values.ids(decision.target)
        asked = values.ids(decision.before), values.caps(decision.before)
        return access.signal_refused(*asked, target)

    def identified(self, decision: Decision) -> list[Reason]:
        """What a call that set ids made of the sets."""
        call, values = self.call_of(decision)[0], self.values
        before, after = decision.before, decision.after
        old, new = values.ids(before)[:3], values.ids(after)[:3]
        bits, root = values.bits(before)[0], self.roots(before)[0]
        return ids.changes(call, old, new, values.caps(before), values.caps(after), bits, root)

    def committed(self, decision: Decision) -> list[Reason]:
        """What a commit made of the sets."""
        words, values = self.changed_by(decision), self.values
        before, after = decision.before, decision.after
        sets = values.caps(before), values.caps(after)
        if words[0] == "exec":
            file = self.file_of(decision)
            asked = values.ids(before), values.ids(after), *sets, values.bits(before)
            found = execve.changes(file, decision.told, *asked, self.roots(before), self.mask)
            return found + self.on_linux(decision)
        if words[0] in ("setfsuid", "setfsgid"):
            old, new = values.ids(before), values.ids(after)
            bits = values.bits(before)[0] if words[0] == "setfsuid" else 0
            root = self.roots(before)[0]
            return ids.filesystem(words[0], words[1], old, new, *sets, bits, root)
        return adjust.changes(words, *sets)

    def on_linux(self, decision: Decision) -> list[Reason]:
        """What Linux makes of an execve otherwise."""
        words, before, values = decision.words, decision.before, self.values
        call = decision.change if words[0] == "commit" else words[2:]
        if before is None or not call or call[0] != "exec" or words[0] not in ("commit", "change"):
            return []
        asked = values.ids(before), values.caps(before), values.groups(before), values.bits(before)
        found = linux.execve(self.file_of(decision), *asked, self.roots(before))
        return linux.reasons(found, self.mask)

    def ask(self, decisions: list[Decision]) -> None:
        """Asks at once for all that the sentences of many decisions rest on."""
        for decision in decisions:
            self.wants(decision)
        self.values.ask()

    def explained(self, decisions: list[Decision]) -> list[list[Reason] | Fault | NotFound]:
        """The sentences of many decisions, all of which are asked for at once; or why one has none:
        that is a fault, or there was no room for a question."""
        self.ask(decisions)
        found: list[list[Reason] | Fault | NotFound] = []
        for decision in decisions:
            try:
                found.append(self.reasons(decision))
            except (Fault, NotFound) as fault:
                found.append(fault)
        return found


def by_access(reason: Reason) -> Reason:
    """A check that access(2) makes."""
    takes = "access(2) takes the real ids as filesystem ids"
    text = reason.text.replace("EACCES: ", f"EACCES: {takes}; ", 1)
    return Reason(text, f"{sources.ACCESS}; {reason.source}")
