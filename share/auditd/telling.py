"""What is told of a log: each finding, and what was compared."""

from __future__ import annotations

import grp
import json
import pwd
from collections.abc import Callable
from dataclasses import dataclass

from scripts.names import set_in_names

from .compare import Result
from .findings import Class, Finding
from .manual import place_of
from .script import Kind

# Whom the ids of an answer are of: the first four are users.
USERS = 4


@dataclass(frozen=True)
class Place:
    """Where a finding can be run again: a file, or what it would be called; and its last line."""

    file: str
    line: int
    text: str
    written: bool


@dataclass
class Teller:
    """Writes findings, with ids and sets as names or as numbers."""

    names: bool = False
    lost: int | None = None

    def answer(self, finding: Finding, text: str) -> str:
        """An answer, in names where that is wanted."""
        words = text.split()
        if not self.names or words[:1] != ["ok"]:
            return text
        if finding.kind is Kind.IDS:
            shown = [name_of(word, place < USERS) for place, word in enumerate(words[1:])]
            return " ".join(["ok", *shown])
        if finding.kind in (Kind.SETS, Kind.BEFORE):
            return " ".join(["ok", *map(set_in_names, words[1:])])
        return text

    def reason(self, finding: Finding) -> str:
        """Why it is of its class."""
        told = finding.reason.value
        if self.lost and finding.found is not Class.EXPLAINED:
            told += f"; {self.lost} records were lost: it may come from one of them"
        return told

    def text(self, finding: Finding, place: Place) -> str:
        """A finding, as it is read."""
        event = finding.event
        failed = "" if event.done else f", which failed ({event.result})"
        agreed = finding.agreed
        before = (
            f"the last record of it that agrees: {agreed.stamp} {agreed.name}" if agreed
            else "no record of it agrees before"
        )  # fmt: skip
        where = f"{place.file}, line {place.line}: {place.text}"
        return "\n".join([
            f"{event.stamp}: pid {event.pid} {event.program} {event.name}{failed}",
            f"    {finding.found.value}: {self.reason(finding)}",
            f"    {finding.kind.value}: the log {self.answer(finding, finding.log)}",
            f"    {' ' * len(finding.kind.value)}  the rules {self.answer(finding, finding.rules)}",
            f"    {before}",
            f"    {place_of(event, finding.kind)}",
            f"    {where}" + ("" if place.written else " (--scripts DIR writes it)"),
            f"    {event.text}",
        ])  # fmt: skip

    def json(self, finding: Finding, place: Place) -> str:
        """A finding as a line of JSON."""
        return json.dumps(self.values(finding, place))

    def values(self, finding: Finding, place: Place) -> dict[str, object]:
        """A finding as JSON has it."""
        event, agreed = finding.event, finding.agreed
        return {
            "serial": event.serial,
            "time": event.time,
            "pid": event.pid,
            "exe": event.program,
            "call": event.name,
            "done": event.done,
            "compared": finding.kind.value,
            "log": self.answer(finding, finding.log),
            "rules": self.answer(finding, finding.rules),
            "class": finding.found.value,
            "reason": self.reason(finding),
            "agreed": {"serial": agreed.serial, "time": agreed.time} if agreed else None,
            "manual": place_of(event, finding.kind),
            "script": place.file if place.written else None,
            "line": place.line,
            "text": place.text,
            "record": event.text,
        }


def name_of(word: str, user: bool) -> str:
    """The name of an id on this machine; the number where it has none."""
    find: Callable[[int], str] = user_name if user else group_name
    return find(int(word)) if word.isdigit() else word


def user_name(number: int) -> str:
    """The name of a user."""
    try:
        return pwd.getpwuid(number).pw_name
    except (KeyError, OverflowError):
        return str(number)


def group_name(number: int) -> str:
    """The name of a group."""
    try:
        return grp.getgrgid(number).gr_name
    except (KeyError, OverflowError):
        return str(number)


def summary(result: Result, lost: int | None) -> dict[str, object]:
    """What was compared, as JSON has it."""
    return {
        "records": result.counts["records"],
        "calls": result.counts["calls"],
        "scripts": result.scripts,
        "lines": result.lines,
        "agree": {kind.value: result.agree[kind] for kind in Kind if kind is not Kind.PROGRAM},
        "classes": {one.value: count for one, count in result.classes().items()},
        "not compared": left_out(result),
        "lost": lost,
    }


def left_out(result: Result) -> dict[str, int]:
    """What wasn't compared, and how often."""
    return {
        name: count for name, count in sorted(result.counts.items())
        if count and name not in ("records", "calls")
    }  # fmt: skip


def summary_text(result: Result, lost: int | None) -> list[str]:
    """The same as it is read."""
    classes = result.classes()
    told = [f"{name}: {count}" for name, count in left_out(result).items()]
    others = ", ".join(
        f"{kind.value}: {result.agree[kind]}"
        for kind in (Kind.CALL, Kind.SETS, Kind.BEFORE)
    )
    told.append(
        "lost records: " + ("not told (--lost N: auditctl -s says how many)" if lost is None
                            else str(lost))
    )  # fmt: skip
    told.append(
        f"{result.counts['records']} records, {result.counts['calls']} calls, "
        f"{result.lines} lines in {result.scripts} script{'s' * (result.scripts != 1)}"
    )
    told.append(
        f"agree: ids of {result.agree[Kind.IDS]} records ({others}), "
        + ", ".join(f"{one.value}: {count}" for one, count in classes.items())
    )
    return told
