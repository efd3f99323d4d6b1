"""The entries of a report one after another: which spans begin and end by each, and in which row.

Nothing is worked out here but what an entry says. A report that contradicts itself is drawn as far
as it goes: what was never begun doesn't end, and whoever is named has a row.
"""

from __future__ import annotations

from collections.abc import Sequence
from dataclasses import dataclass, field

from .report import Entry
from .spans import BAND, FILE, HOLD, OVERRIDE, PREPARED, Row, Span
from .credentials import Credential, Seal

# What an entry is, in one letter: the page draws each in another way. What a line does for itself
# is left out of the picture, unless holds are asked for.
PLAIN, REFUSED, NEW, MINOR = "o", "x", "n", "m"
MINOR_EVENTS = frozenset(("take", "takereal", "takefile", "drop", "prepare", "change", "abort"))
# Labels that a line takes for itself have so many digits.
OWN_DIGITS = 6


def kind_of(entry: Entry) -> str:
    """What an entry is, where it gives no task another credential."""
    if not entry.is_ok:
        return REFUSED
    own = entry.words[0] in MINOR_EVENTS and len(entry.words[1]) > OWN_DIGITS
    return MINOR if own else PLAIN


@dataclass(slots=True)
class Label:
    """A prepared credential: its span, its task's row, and the changes that were made to it."""

    span: Span
    row: Row
    changes: list[list[str]] = field(default_factory=list)


@dataclass(slots=True)
class Link:
    """A line from an entry to a later one, or to the row of another task."""

    kind: str
    start: int
    row: Row
    end: int
    to: Row


class Story:
    """All that lasts, entry by entry."""

    def __init__(self) -> None:
        """Nothing has happened yet."""
        self.count = 0
        self.kinds: list[str] = []
        self.of: list[Row] = []
        self.tasks: dict[str, Row] = {}
        self.files = Row("open files")
        self.others = Row("no task")
        self.credentials: dict[str, Credential] = {}
        self.seals: list[Seal] = []
        self.links: list[Link] = []
        self.sweeps: list[int] = []
        self.kept: list[Span] = []
        self.current: dict[str, Span] = {}
        self.members: dict[str, set[str]] = {}
        self.holds: dict[str, Span] = {}
        self.prepared: dict[str, Label] = {}
        self.overrides: dict[str, list[Span]] = {}
        self.opened: dict[str, Span] = {}
        self.begun: dict[str, tuple[int, Row]] = {}
        self.home: dict[str, Row] = {}

    def add(self, entry: Entry) -> None:
        """The next entry. A refused one belongs to a row too, and changes nothing but the answers
        that say so."""
        self.count += 1
        row = self.row_of(entry)
        self.of.append(row)
        self.kinds.append(kind_of(entry))
        if entry.is_ok:
            act = getattr(self, "on_" + entry.words[0], None)
            if act:
                act(row, *entry.words[1:], told=entry.answer[1:], entry=entry)
        elif entry.answer[0] == "stale" and entry.words[0] == "commit":
            self.end_prepared(entry.words[1])
        elif entry.answer == ["table", "full"]:
            self.sweeps.append(self.count)
        elif entry.answer[0] == "aborted":
            self.end_process(row.process, "")
            if entry.answer[2] == "full":
                self.sweeps.append(self.count)

    def row_of(self, entry: Entry) -> Row:
        """The row in which an entry stands: that of the task which it names, or of its label's."""
        words = entry.words
        if words[0] == "act":
            named = entry.answer[1] if len(entry.answer) > 1 else ""
            begun = self.begun.get(words[1])
            if named[:1] == "t" and named[1:].isdigit():
                return self.task(named)
            return begun[1] if begun else self.others
        if words[0] in ("take", "takereal", "prepare", "ptrace"):
            return self.task(words[2])
        if words[0] in ("takefile", "close"):
            return self.files
        if words[0] == "sweep":
            return self.others
        return self.task(words[1]) if words[1][0] == "t" else self.home.get(words[1], self.others)

    def task(self, name: str) -> Row:
        """The row of a task."""
        row = self.tasks.get(name)
        if row is None:
            row = self.tasks[name] = Row(name)
        return row

    def credential(self, name: str, slot: str) -> Credential:
        """A credential by its number; met first, it stands in this slot from here on."""
        found = self.credentials.get(name)
        if found is None:
            found = self.credentials[name] = Credential(name, slot, self.count)
        return found

    def span(self, kind: int, label: str, cred: str, slot: str = "") -> Span:
        """A span that begins here; its credential is referred to as long as it lasts."""
        span = Span(kind, label, cred, self.count, slot=slot)
        if cred:
            self.credentials[cred].spans.append(span)
        return span

    def becomes(self, row: Row, cred: str, slot: str) -> Span:
        """A credential becomes a task's current one."""
        before = self.current.pop(row.name, None)
        if before:
            before.end = self.count
        self.credential(cred, slot)
        span = self.current[row.name] = self.span(BAND, row.name, cred)
        row.bands.append(span)
        # What a fork gives to the child is nothing new to the parent, whose entry it is.
        if row is self.of[-1]:
            self.kinds[-1] = NEW
        return span

    def lives(self, row: Row, process: str, told: list[str]) -> None:
        """A task is there."""
        row.process = process
        self.members.setdefault(process, set()).add(row.name)
        self.becomes(row, told[0], told[1])

    def ends(self, name: str) -> None:
        """A task isn't there any more: it acts with nothing, and has no current credential."""
        for span in self.overrides.pop(name, []):
            span.end = self.count
        current = self.current.pop(name, None)
        if current:
            current.end = self.count
        self.members.get(self.task(name).process, set()).discard(name)

    def end_process(self, process: str, but: str) -> None:
        """All threads of a process end, but one."""
        for name in sorted(self.members.get(process, set()) - {but}):
            self.ends(name)

    def end_prepared(self, label: str) -> Label | None:
        """What was prepared under a label is committed, lent or given up."""
        found = self.prepared.pop(label, None)
        if found:
            found.span.end = self.count
        return found

    def linked(self, kind: str, start: int, row: Row, to: Row) -> None:
        """A line to this entry."""
        self.links.append(Link(kind, start, row, self.count, to))

    def on_init(
        self, row: Row, _: str, process: str, *_ids: str, told: list[str], **_e: object
    ) -> None:
        """A first task."""
        self.lives(row, process, told)

    def on_spawn(self, row: Row, _: str, new: str, *, told: list[str], **_entry: object) -> None:
        """A thread more."""
        self.lives(self.task(new), row.process, told)
        self.linked("spawn", self.count, row, self.task(new))

    def on_fork(
        self, row: Row, _: str, new: str, process: str, *, told: list[str], **_e: object
    ) -> None:
        """A child."""
        self.lives(self.task(new), process, told)
        self.linked("fork", self.count, row, self.task(new))

    def on_exit(self, row: Row, task: str, **_entry: object) -> None:
        """A task ends."""
        self.ends(task)

    def on_begin(self, row: Row, _: str, *call: str, told: list[str], entry: Entry) -> None:
        """A call: the caller's own step."""
        before = self.current.get(row.name)
        self.seal(self.becomes(row, told[0], told[1]), row, before, [])
        self.begun[str(entry.line)] = self.count, row

    def on_raw(self, row: Row, _: str, *call: str, told: list[str], **_entry: object) -> None:
        """A call of one thread alone."""
        before = self.current.get(row.name)
        self.seal(self.becomes(row, told[0], told[1]), row, before, [])

    def on_act(self, row: Row, line: str, *, told: list[str], **_entry: object) -> None:
        """A call: a thread follows."""
        before = self.current.get(row.name)
        self.seal(self.becomes(row, told[1], told[2]), row, before, [])
        begun = self.begun.get(line)
        if begun:
            self.linked("follows", begun[0], begun[1], row)

    def seal(
        self, span: Span, row: Row, before: Span | None, changes: list[list[str]],
        gain: Sequence[str] = (),
    ) -> None:  # fmt: skip
        """A task's credential is replaced by another one: that is where sets may change."""
        self.seals.append(Seal(span, row, before.cred if before else "", changes, list(gain)))

    def on_take(self, row: Row, label: str, *_: str, told: list[str], **_entry: object) -> None:
        """A hold."""
        self.credential(told[0], told[1])
        self.home[label] = row
        span = self.holds[label] = self.span(HOLD, label, told[0])
        row.spans.append(span)

    on_takereal = on_take
    on_takefile = on_take

    def on_drop(self, row: Row, label: str, **_entry: object) -> None:
        """The end of a hold."""
        span = self.holds.pop(label, None)
        if span:
            span.end = self.count

    def on_ask(
        self, row: Row, label: str, asked: str, *_: str, told: list[str], **_entry: object
    ) -> None:
        """A question: what the credential is, from here to its end and from its beginning."""
        held = self.holds.get(label)
        if held and asked in ("ids", "caps", "groups", "bits"):
            self.credentials[held.cred].told[asked] = told

    def on_prepare(
        self, row: Row, label: str, _: str, base: str, told: list[str], **_e: object
    ) -> None:
        """A copy, which keeps a slot."""
        held = self.holds.get(base)
        self.home[label] = row
        span = self.span(PREPARED, label, held.cred if held else "", told[0])
        self.prepared[label] = Label(span, row)
        row.spans.append(span)
        self.kept.append(span)

    def on_change(self, row: Row, label: str, *change: str, **_entry: object) -> None:
        """A change of the copy."""
        prepared = self.prepared.get(label)
        if prepared:
            prepared.changes.append(list(change))

    def on_commit(self, row: Row, label: str, *, told: list[str], **_entry: object) -> None:
        """The copy becomes a task's current credential. An execve ends the other threads."""
        prepared = self.end_prepared(label)
        before = self.current.get(row.name)
        span = self.becomes(row, told[0], told[1])
        self.seal(span, row, before, prepared.changes if prepared else [], told[5:])
        if len(told) > 2 and told[3] != "0":
            self.end_process(row.process, row.name)

    def on_abort(self, row: Row, label: str, **_entry: object) -> None:
        """The copy is given up."""
        self.end_prepared(label)

    def on_override(
        self, row: Row, task: str, label: str, *, told: list[str], **_entry: object
    ) -> None:
        """The task acts with another credential; what was prepared for access(2) is one then."""
        if label not in self.holds:
            self.end_prepared(label)
        self.credential(told[0], told[1])
        span = self.span(OVERRIDE, label, told[0])
        self.overrides.setdefault(task, []).append(span)
        row.spans.append(span)

    def on_revert(self, row: Row, task: str, **_entry: object) -> None:
        """The end of the last override that stands."""
        standing = self.overrides.get(task)
        if standing:
            standing.pop().end = self.count

    def on_open(
        self, row: Row, label: str, name: str, want: str, file: str, **_entry: object
    ) -> None:
        """An open file keeps its opener's credential."""
        held = self.holds.get(label)
        span = self.opened[file] = self.span(FILE, file, held.cred if held else "")
        self.files.spans.append(span)
        self.linked("opens", self.count, row, self.files)

    def on_close(self, row: Row, file: str, **_entry: object) -> None:
        """The end of an open file."""
        span = self.opened.pop(file, None)
        if span:
            span.end = self.count

    def on_signal(
        self, row: Row, _: str, __: str, other: str, *_rest: str, **_entry: object
    ) -> None:
        """A signal."""
        self.linked("signals", self.count, row, self.task(other))

    def on_ptrace(
        self, row: Row, _: str, __: str, ___: str, other: str, *_rest: str, **_entry: object
    ) -> None:
        """A look into another task."""
        self.linked("signals", self.count, row, self.task(other))

    def on_sweep(self, row: Row, **_entry: object) -> None:
        """What was given up is dropped."""
        self.sweeps.append(self.count)

    def learn(self, sets: dict[str, list[str]]) -> None:
        """What was asked of credentials besides: their sets, where no entry tells them."""
        for name, words in sets.items():
            if name in self.credentials:
                self.credentials[name].told.setdefault("caps", words)

    def rows(self) -> list[Row]:
        """The tasks, those of a process beside each other; then what belongs to none."""
        places: dict[str, int] = {}
        for place, row in enumerate(self.tasks.values()):
            places.setdefault(row.process, place)
        tasks = sorted(self.tasks.values(), key=lambda row: places[row.process])
        used = {id(row) for row in self.of}
        rest = [row for row in (self.files, self.others) if id(row) in used or row.spans]
        return tasks + rest
