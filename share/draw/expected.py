"""What the page of a report must have, worked out from its entries apart from `story`."""

from __future__ import annotations

import io
import json
import re
import sys
from collections import Counter
from html.parser import HTMLParser
from typing import Any

from . import command, names, page
from .spans import BAND, FILE, HOLD, OVERRIDE, PREPARED
from .window import Window

# The events by which a hold, a prepared label and an open file begin, and by which they end; and
# those whose last word is the label.
BEGINNING = ("take", "takereal", "takefile", "prepare", "open")
ENDING = ("drop", "commit", "abort", "close")
LAST_NAMED = ("open", "override")
# The attributes of an element, and what a page is made of.
Attributes = list[tuple[str, str | None]]
Data = dict[str, Any]


class Shape(HTMLParser):
    """The elements of a page with their attributes, and what stands in scripts and styles."""

    def __init__(self) -> None:
        """Nothing is read yet."""
        super().__init__()
        self.elements: list[tuple[str, Attributes]] = []
        self.raw: list[str] = []

    def handle_starttag(self, tag: str, attrs: Attributes) -> None:
        """An element begins."""
        self.elements.append((tag, attrs))
        if tag in ("script", "style"):
            self.raw.append("")

    def handle_data(self, data: str) -> None:
        """A text."""
        if self.elements and self.elements[-1][0] in ("script", "style"):
            self.raw[-1] += data


def wrong(what: str) -> None:
    """Tells the first thing that is wrong, and ends."""
    sys.exit("draw/check: " + what.encode("ascii", "backslashreplace").decode())


def page_of(text: str, first: int = 1, last: int | None = None) -> tuple[str, Data]:
    """The page of a report, and the data that it was made of."""
    story, texts = command.read(io.BytesIO(text.encode("utf-8")), first, last)
    data = Window(story, first, first + len(texts) - 1).data(texts) | names.tables()
    return page.page(data), data


def shape_of(html: str) -> Shape:
    """The elements of a page."""
    shape = Shape()
    shape.feed(html)
    shape.close()
    return shape


def parts(line: str) -> tuple[list[str], list[str]]:
    """The words of an entry's event, and those of its answer."""
    event, _, answer = line.partition(" ")[2].rpartition(" -> ")
    return event.split(" "), answer.split(" ")


def check_page(name: str, text: str, skeleton: Shape) -> None:
    """The page of a report has its entries, and no element that another page hasn't."""
    html, data = page_of(text)
    shape = shape_of(html)
    if shape.elements != skeleton.elements or shape.raw[2:] != skeleton.raw[2:]:
        wrong(f"{name}: the page has other elements than that of another report")
    if json.loads(shape.raw[1]) != json.loads(json.dumps(data)):
        wrong(f"{name}: the page has other data than it was made of")
    lines = text.split("\n")[:-1]
    shown = [command.cut(line) for line in lines]
    if data["texts"].split("\n") != shown or len(data["of"]) != len(lines):
        wrong(f"{name}: not each entry is there once")
    for place, line in enumerate(lines):
        check_entry(f"{name}, entry {place + 1}", line, data, place)
    check_bands(name, lines, data)
    check_ends(name, lines, data)
    check_tasks(name, lines, data)
    check_slots(name, lines, data)


def check_entry(name: str, line: str, data: Data, place: int) -> None:
    """An entry has its kind, and its row is that of the task that it names."""
    words, told = parts(line)
    event = " ".join(words)
    if (told[0] != "ok") != (data["kinds"][place] == "x"):
        wrong(f"{name}: a refusal isn't drawn as one, or something else is")
    row = data["rows"][data["of"][place]][0]
    task = re.match(
        r"(?:init|begin|raw|spawn|fork|exit|override|revert|signal|dumpable|dumped|ptrace \w+) "
        r"(t\d+)",
        event,
    )
    task = task or re.match(r"(?:take|takereal|prepare) h\d+ (t\d+)", event)
    if task and task[1] != row:
        wrong(f"{name}: it stands in the row of {row}")


def check_bands(name: str, lines: list[str], data: Data) -> None:
    """Bands begin where an entry makes a credential a task's current one, and nowhere else."""
    spans, credentials = data["spans"], data["credentials"]
    begins = {
        (spans["start"][at], data["rows"][spans["row"][at]][0], credentials[spans["cred"][at]][0])
        for at, kind in enumerate(spans["kind"]) if kind == BAND
    }
    expected = set()
    for place, line in enumerate(lines, 1):
        words, told = parts(line)
        if told[0] != "ok":
            continue
        row = data["rows"][data["of"][place - 1]][0]
        if words[0] in ("init", "begin", "raw", "commit"):
            expected.add((place, row, told[1]))
        elif words[0] in ("spawn", "fork"):
            expected.add((place, words[2], told[1]))
        elif words[0] == "act":
            expected.add((place, told[1], told[2]))
    if begins != expected:
        wrong(f"{name}: bands that are missing or too many: {sorted(begins ^ expected)[:3]}")


def named_ends(lines: list[str]) -> dict[tuple[str, int], int]:
    """Where what was taken, prepared or opened ends, by its label and beginning; 0 for never."""
    begun: dict[str, tuple[int, str]] = {}
    found: dict[tuple[str, int], int] = {}
    for place, line in enumerate(lines, 1):
        words, told = parts(line)
        event = words[0]
        label = words[-1] if event in LAST_NAMED else "".join(words[1:2])
        _, how = begun.get(label, (0, ""))
        # What was prepared for access(2) is lent, and its label is gone; a hold stays.
        lent = event == "override" and how == "prepare"
        if told[0] == "ok" and event in BEGINNING:
            begun[label] = place, event
            found[label, place] = 0
        elif how and (told[0] == "stale" or told[0] == "ok" and (event in ENDING or lent)):
            found[label, begun.pop(label)[0]] = place
    return found


def check_ends(name: str, lines: list[str], data: Data) -> None:
    """Holds, prepared labels and open files last as long as their entries say."""
    spans = data["spans"]
    ends = {
        (spans["label"][at], spans["start"][at]): spans["end"][at]
        for at, kind in enumerate(spans["kind"]) if kind in (HOLD, PREPARED, FILE)
    }
    expected = named_ends(lines)
    if ends != expected:
        differ = sorted(set(ends.items()) ^ set(expected.items()))
        wrong(f"{name}: what ends otherwise: {differ[:3]}")


def bands_ended(event: str, told: list[str]) -> int:
    """How many bands an entry ends: that of a task that ends, that which another one replaces."""
    if told[0] != "ok" or event not in ("exit", "begin", "raw", "act", "commit"):
        return 0
    return 1 + (int(told[4]) if "ended" in told else 0)


def check_tasks(name: str, lines: list[str], data: Data) -> None:
    """As many bands and overrides end by an entry as it says."""
    spans = data["spans"]
    ended = Counter(zip(spans["kind"], spans["end"]))
    tasks = {(spans["label"][at], spans["end"][at])
             for at, kind in enumerate(spans["kind"]) if kind == BAND}
    for place, line in enumerate(lines, 1):
        words, told = parts(line)
        if told[0] == "aborted":
            right = (told[1], place) in tasks
        else:
            right = ended[BAND, place] == bands_ended(words[0], told)
            reverts = words[0] == "revert" and told[0] == "ok"
            right &= "ended" in told or ended[OVERRIDE, place] == reverts
        if not right:
            wrong(f"{name}, entry {place}: bands or overrides end that don't, or the other way")


def check_slots(name: str, lines: list[str], data: Data) -> None:
    """Each credential stands in the slot that entries say."""
    slots = {entry[0]: data["slots"][entry[1]] for entry in data["credentials"]}
    for line in lines:
        for cred, slot in re.findall(r"(?<= )(c\d+) (s\d+)\b", line.rpartition(" -> ")[2]):
            if slots.get(cred) != slot:
                wrong(f"{name}: {cred} doesn't stand in {slot}")
