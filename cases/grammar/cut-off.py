"""The script of a service that starts, cut off at each of its bytes.

docs/FORMATS.md, "The script": "Each line ends with LF; the last one may lack it", and one "whose
first word begins with `#`, holds nothing". Every line but the last is whole, so that alone can be
bad: by the first word that names nothing, by too few words, by the last word, or by the name of a
file that no line declares. Where it is good all lines before it have the entries that they have in
the whole script.
"""
import re
from collections.abc import Iterator
from pathlib import Path

from suite import Case

EXAMPLE = Path(__file__).resolve().parents[2] / "examples" / "service.trace"
FILE = "svc"
# The forms of this script: how many words each has at least, and how its last word is spelled.
ID, SET = "0|[1-9][0-9]*", "[0-9a-fA-F]{1,16}"
DECLARING = {"file": (6, "[0-7]{4}"), "init": (6, "n(?:[0-9]|1[0-5])")}
OF_TASK = {
    "keepcaps": (3, ID),
    "setgroups": (2, f"setgroups|{ID}"),
    "setresgid": (5, ID),
    "setresuid": (5, ID),
    "capset": (5, SET),
    "ambraise": (3, "CAP_NET_BIND_SERVICE"),
    "nonewprivs": (3, ID),
    "exec": (3, "[a-zA-Z][a-zA-Z0-9_.-]*"),
    "caps": (2, "caps"),
    "groups": (2, "groups"),
}
TASK = re.compile("t[1-9][0-9]*")


def form_of(words: list[str]) -> tuple[int, str] | None:
    """The form that the first words name, if any. "A task alone fails here"."""
    if TASK.fullmatch(words[0]):
        return OF_TASK.get(words[1]) if len(words) > 1 else None
    return DECLARING.get(words[0])


def reason_of(line: str) -> str | None:
    """Why the line is bad, by the tests in their order; nothing of a good one."""
    words = line.partition("#")[0].split()
    form = form_of(words) if words else (0, "")
    if form is None:
        return "word"
    least, last = form
    if len(words) < least:
        return "count"
    if words and not re.fullmatch(last, words[-1]):
        return "word"
    return "name" if words[1:2] == ["exec"] and words[2] != FILE else None


def cases() -> Iterator[Case]:
    """Each beginning of the script."""
    script = EXAMPLE.read_bytes()
    report = EXAMPLE.with_suffix(".report").read_bytes().splitlines()
    for place in range(len(script) + 1):
        given = script[:place]
        last = given.rpartition(b"\n")[2]
        number = given.count(b"\n") + 1
        reason = reason_of(last.decode())
        name = f"{place} bytes"
        if reason:
            yield Case(name, ("run",), given, f"bad {number} {reason}\n".encode())
            continue
        entries = tuple(it for it in report if int(it.split()[0]) < number)
        yield Case(name, ("run",), given, entries=entries, status=0)
