"""What the program says of a task before a line: its ids, sets, groups and bits.

They are asked by a second run of the script, with questions before the lines that matter.
"""

from __future__ import annotations

import re
from collections.abc import Callable, Collection
from dataclasses import dataclass

from ..files.listing import Files
from ..script.script import BYTES, FILES, LINES, Line

QUESTIONS = ("ids", "caps", "groups", "bits")

TASK = re.compile(r"t[0-9]+$")

# An answer of a question in a report: the line, the question, and what was said.
ASKED = re.compile(r"(\d+) ask \S+ (ids|caps|groups|bits|check \S+ x) -> (.*)$")


@dataclass(frozen=True)
class Values:
    """What the program says of a task."""

    users: list[int]
    group_ids: list[int]
    sets: list[int]
    groups: list[int]
    securebits: int
    no_new_privs: bool
    # The folders of the file, with whether it may search each.
    searched: dict[str, bool]


class Probe:
    """Asks once for all lines that matter."""

    def __init__(
        self, lines: list[Line], numbers: Collection[int], run: Callable[[str], str], files: Files
    ) -> None:
        self._lines = lines
        self._numbers = set(numbers) | {
            number for number, line in enumerate(lines, 1) if matters(line.words)
        }
        self._run = run
        self._files = files
        self._found: dict[int, Values] | None = None

    def before(self, number: int) -> Values | None:
        """What the task of a line was before it; None where it wasn't asked for."""
        if self._found is None:
            self._found = self._ask()
        return self._found.get(number)

    def _ask(self) -> dict[int, Values]:
        """Runs the script with the questions."""
        names, declared = self._folders()
        texts, of_line = [*declared], {}
        room = LINES - len(self._lines) - len(declared)
        size = BYTES - sum(len(line.text) + 1 for line in self._lines)
        for number, line in enumerate(self._lines, 1):
            task = line.text.removeprefix("# ").split()[0]
            asks = self._questions(line, names) if number in self._numbers else []
            if TASK.match(task) and len(asks) <= room and 40 * len(asks) <= size:
                room, size = room - len(asks), size - 40 * len(asks)
                for ask in asks:
                    texts.append(f"{task} {ask}")
                    of_line[len(texts)] = number
            texts.append(line.text)
        report = self._run("".join(text + "\n" for text in texts))
        return self._read(report, of_line, {name: place for place, name in names.items()})

    def _folders(self) -> tuple[dict[str, str], list[str]]:
        """The names of the folders above refused files, and the lines that declare them."""
        names: dict[str, str] = {}
        declared: list[str] = []
        room = FILES - sum(line.text.startswith("file ") for line in self._lines)
        for number, line in enumerate(self._lines, 1):
            if number not in self._numbers or line.answer != "eacces":
                continue
            for place in folders_of(line.facts.place):
                words = self._files.folder(place)
                if words and place not in names and len(names) < room:
                    names[place] = f"folder-of-a-path-{len(names)}"
                    declared.append(f"file {names[place]} {words}")
        return names, declared

    def _questions(self, line: Line, names: dict[str, str]) -> list[str]:
        """What is asked before a line."""
        if line.answer != "eacces":
            return list(QUESTIONS)
        known = [names[place] for place in folders_of(line.facts.place) if place in names]
        return [*QUESTIONS, *(f"check {name} x" for name in known)]

    def _read(
        self, report: str, of_line: dict[int, int], places: dict[str, str]
    ) -> dict[int, Values]:
        """The answers of each line's questions."""
        told: dict[int, dict[str, str]] = {}
        for entry in report.split("\n"):
            match = ASKED.match(entry)
            if match and int(match[1]) in of_line:
                told.setdefault(of_line[int(match[1])], {})[match[2]] = match[3]
        found = {number: values(answers, places) for number, answers in told.items()}
        return {number: value for number, value in found.items() if value is not None}


def matters(words: list[str]) -> bool:
    """Whether a line may leave another credential in Linux."""
    if len(words) < 3:
        return False
    if words[1] in ("setresuid", "setresgid"):
        return words[3:4] == ["-1"]
    return words[1] == "exec"


def folders_of(place: str) -> list[str]:
    """The folders above a place."""
    parts = place.split("/")
    if not place.startswith("/"):
        return []
    return ["/".join(parts[:count]) or "/" for count in range(1, len(parts))]


def values(answers: dict[str, str], places: dict[str, str]) -> Values | None:
    """The values, from the answers of one line's questions."""
    parts = {question: answers.get(question, "").split() for question in QUESTIONS}
    if any(words[:1] != ["ok"] for words in parts.values()):
        return None
    ids = [int(word) for word in parts["ids"][1:]]
    searched = {
        places[question.split()[1]]: answer.startswith("ok")
        for question, answer in answers.items()
        if question.startswith("check ") and question.split()[1] in places
    }
    return Values(
        ids[:4],
        ids[4:],
        [int(word, 16) for word in parts["caps"][1:]],
        [int(word) for word in parts["groups"][1:]],
        int(parts["bits"][1]),
        parts["bits"][2] == "1",
        searched,
    )
