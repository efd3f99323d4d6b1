"""What is told, as JSON."""

from __future__ import annotations

import json

from capabilities import CAPABILITIES
from why.names import SETS, cap_name

from .answers import Answer, Credential, Passed
from .declaration import Declaration
from .places import Failure, Note, Place, Unknown
from .table import NOT_PROVED

Json = dict[str, object]


def of_set(caps: int) -> Json:
    """A set as names and as a mask."""
    names = [cap_name(number) for number in range(len(CAPABILITIES)) if caps >> number & 1]
    return {"mask": f"{caps:x}", "names": names}


def of_credential(it: Credential | None) -> Json | None:
    """A credential."""
    if it is None:
        return None
    sets: Json = {name: of_set(caps) for name, caps in zip(SETS, it.sets, strict=True)}
    return {
        "uid": list(it.users), "gid": list(it.group_ids), "groups": list(it.groups), **sets,
        "securebits": it.securebits, "no_new_privs": it.no_new_privs,
    }  # fmt: skip


def of_place(it: Place) -> Json:
    """A place in the declaration."""
    return {"key": it.key, "file": it.file or None, "line": it.line or None}


def of_places(places: tuple[Place, ...]) -> list[Json]:
    """Places."""
    return [of_place(it) for it in places]


def of_passed(it: Passed) -> Json:
    """A refusal that the launcher passes over."""
    return {
        "script_line": it.number, "call": it.line.call, "answer": it.answer,
        "places": of_places(it.line.places),
    }  # fmt: skip


def of_failure(it: Failure | None) -> Json | None:
    """Why the program isn't started."""
    if it is None:
        return None
    return {
        "step": it.step, "call": it.call or None, "answer": it.answer or None,
        "reason": it.reason or None, "script_line": it.line or None,
        "places": of_places(it.places),
    }  # fmt: skip


def of_note(it: Note) -> Json:
    """A note."""
    return {"text": it.text, "places": of_places(it.places)}


def of_unknown(it: Unknown) -> Json:
    """What isn't known."""
    bears = it.bears.value
    return {"kind": it.kind, "bears_on": bears, "text": it.text, "places": of_places(it.places)}


def of_lines(found: Answer) -> list[Json]:
    """The lines of the script that come from the declaration."""
    return [
        {"script_line": number, "call": line.call, "places": of_places(line.places),
         "why": line.why or None}
        for number, line in found.written.lines.items() if line.asks is None
    ]  # fmt: skip


def told(declaration: Declaration, found: Answer) -> str:
    """The whole of it."""
    script = declaration.script
    whole: Json = {
        "name": declaration.name, "command": declaration.command,
        "place": of_place(declaration.place), "order": declaration.order,
        "start": of_credential(found.start), "before": of_credential(found.before),
        "after": of_credential(found.after),
        "by_the_rules": of_credential(found.rules) if found.rows else None,
        "rows": [f"{NOT_PROVED}: {row}" for row in found.rows],
        "fails": of_failure(found.failure), "passed_over": list(map(of_passed, found.passed)),
        "notes": list(map(of_note, script.notes)),
        "not_known": list(map(of_unknown, script.unknown)),
        "script": found.written.text, "lines": of_lines(found),
    }  # fmt: skip
    return json.dumps(whole, indent=1)
