"""What a log does to files: their owners, groups, modes and attributes, and what these were before.

A list of files, and the file system, have files as they are after the log. A script declares them
as they were before it, and has a line for each change. What a file was before its first change the
log may tell: by stat(2) and getxattr(2) before that, or by who made it. Where it doesn't, what the
file was used for before the change ends the script.
"""

from __future__ import annotations

from dataclasses import dataclass, field, replace

# The parts of a file, each of which a call sets or takes. The set-id bits are one of their own: a
# chown(2) takes them, and leaves the others.
OWNER, GROUP, BITS, SET_ID, CAPS = "owner", "group", "mode", "set-id bits", "attribute"
ASKED = frozenset({OWNER, GROUP, BITS})
SET_ID_BITS = 0o6000


@dataclass(frozen=True)
class State:
    """A file as it is at a time."""

    kind: str
    owner: int
    group: int
    mode: int
    caps: str | None = None
    nosuid: bool = False

    @property
    def words(self) -> str:
        """The words of a `file` line behind its name."""
        found = [self.kind, str(self.owner), str(self.group), f"{self.mode:04o}"]
        found += ["nosuid"] if self.nosuid else []
        return " ".join(found + (["caps", self.caps] if self.caps else []))


def state_of(words: str) -> State:
    """The same from the words."""
    parts = words.split()
    caps = parts[parts.index("caps") + 1] if "caps" in parts else None
    owner, group = int(parts[1]), int(parts[2])
    return State(parts[0], owner, group, int(parts[3], 8), caps, "nosuid" in parts)


@dataclass(frozen=True)
class Change:
    """A call that changed a file, by the words of its line."""

    line: int
    form: str
    words: tuple[str, ...]
    # The filesystem user id of who made it.
    user: int = 0

    def sets(self) -> frozenset[str]:
        """The parts of a file that are others after it, or may be."""
        if self.form == "chmod":
            return frozenset({BITS, SET_ID})
        if self.form != "chown":
            return frozenset({CAPS})
        ids = zip((OWNER, GROUP), self.words, strict=True)
        given = {part for part, word in ids if word != "-1"}
        # Linux takes them also where both ids stay (docs/LINUX.md).
        return frozenset(given | {SET_ID, CAPS})

    def after(self, old: State) -> State:
        """The file after it."""
        if self.form == "chmod":
            return replace(old, mode=int(self.words[0], 8))
        if self.form != "chown":
            return replace(old, caps=self.words[0] if self.words else None)
        owner, group = (int(word) for word in self.words)
        new = replace(
            old,
            owner=old.owner if owner == -1 else owner,
            group=old.group if group == -1 else group,
        )
        if (owner, group) == (-1, -1) or old.kind != "reg" or not old.mode & 0o111:
            return new
        taken = 0o6000 if old.mode & 0o010 else 0o4000
        return replace(new, mode=old.mode & ~taken, caps=None)


@dataclass
class History:
    """The changes of one file, and what the log tells of it besides."""

    changes: list[Change] = field(default_factory=list)
    # What is known of the parts before the first change of each.
    told: dict[str, int | str | None] = field(default_factory=dict)
    # The lines of all calls that are told by lines of a script, also of those that were refused;
    # and that since which it is this file.
    lines: set[int] = field(default_factory=set)
    since: int = 0

    def first(self, part: str) -> int | None:
        """The line of the first change of a part."""
        return next((one.line for one in self.changes if part in one.sets()), None)

    def tells(self, **parts: int | str | None) -> None:
        """The log tells what these parts are here: as before, where nothing has changed them."""
        named = {"owner": OWNER, "group": GROUP, "bits": BITS, "set_id": SET_ID, "caps": CAPS}
        for name, value in parts.items():
            if self.first(named[name]) is None:
                self.told.setdefault(named[name], value)

    def unknown(self) -> dict[str, int]:
        """The parts of which nobody knows what they were, up to the line that first sets each."""
        changed = {part: self.first(part) for part in (OWNER, GROUP, BITS, SET_ID, CAPS)}
        return {part: line for part, line in changed.items() if line and part not in self.told}

    def before(self, end: State) -> State:
        """The file before its first change, for what it is after the last."""
        told = self.owners() | self.told

        def number(part: str, otherwise: int) -> int:
            return int(told[part] or 0) if part in told else otherwise

        owner, group = number(OWNER, end.owner), number(GROUP, end.group)
        bits = number(BITS, end.mode & ~SET_ID_BITS)
        # Of a folder a chown(2) takes nothing.
        taken = any(one.form == "chmod" or end.kind == "reg" for one in self.changes)
        taken = taken and self.first(SET_ID) is not None
        set_id = number(SET_ID, 0 if taken else end.mode & SET_ID_BITS)
        caps = told.get(CAPS, None if self.first(CAPS) else end.caps)
        attribute = None if caps is None else str(caps)
        return State(end.kind, owner, group, bits | set_id, attribute, end.nosuid)

    def owners(self) -> dict[str, int | str | None]:
        """The owner before, where it is changed: who isn't root and sets the mode before that."""
        until = self.first(OWNER)
        makers = [one for one in self.changes if one.form == "chmod" and one.user]
        users = [one.user for one in makers if until is not None and one.line < until]
        return {OWNER: users[0]} if users else {}

    def state(self, begin: State) -> State:
        """The file as it is now."""
        for change in self.changes:
            begin = change.after(begin)
        return begin
