"""The forms of a script's lines and the tests of a bad one, as docs/FORMATS.md has them."""

from __future__ import annotations

import re
from dataclasses import dataclass
from functools import cache
from pathlib import Path

PAGE = Path(__file__).resolve().parents[2] / "docs" / "FORMATS.md"

# The tables of forms, and that of the words in them, by the heads of their two columns.
LINES = ("line", "what it does")
ID_CALLS = ("IDCALL", "what the words are")
CHANGES = ("CHANGE", "what the words are")
QUERIES = ("QUERY", "what it asks")
SPELLINGS = ("name", "spelling")

Row = list[str]


@dataclass(frozen=True)
class Form:
    """A form, and what it does."""

    text: str
    does: str


class NoPage(Exception):
    """The page isn't beside the tools, as where share/ was copied alone."""


def page() -> str:
    """The text of docs/FORMATS.md."""
    try:
        return PAGE.read_text(encoding="utf-8")
    except FileNotFoundError:
        raise NoPage(f"{PAGE} isn't here, which has the forms: copy docs/ beside share/") from None


def cells(line: str) -> Row:
    """The cells of a row of a table."""
    return [cell.strip() for cell in line.strip().strip("|").split(" | ")]


@cache
def tables() -> dict[tuple[str, ...], list[Row]]:
    """The rows of each table, by the heads of its columns."""
    found: dict[tuple[str, ...], list[Row]] = {}
    rows: list[Row] | None = None
    for line in page().split("\n"):
        if not line.startswith("|"):
            rows = None
        elif rows is None:
            rows = found.setdefault(tuple(cells(line)), [])
        elif not line.startswith("|---"):
            rows.append(cells(line))
    return found


def tests() -> list[tuple[str, str]]:
    """The tests that a line passes, in their order: the reason and the sentence."""
    text = page()
    found = re.findall(r"^\d\. `(\w+)`: (.*(?:\n   .*)*)", text, re.MULTILINE)
    return [(reason, " ".join(sentence.split())) for reason, sentence in found]


def quoted(cell: str) -> list[str]:
    """The texts in backticks."""
    return re.findall(r"`([^`]*)`", cell)


def keyword(form: str) -> str:
    """The word that a form is known by: behind the task, if it begins with one."""
    words = form.split()
    return words[1] if words[0] == "T" and len(words) > 1 else words[0]


def in_table(rows: list[Row], word: str, before: str) -> Form | None:
    """The form of this word in a table, with what stands before it in a line."""
    for row in rows:
        forms = quoted(row[0])
        for form in forms:
            if keyword(form) != word:
                continue
            listed = re.fullmatch(r"`[^`]*`(, `[^`]*`)*", row[0]) is not None
            text = form if listed else row[0].replace("`", "")
            return Form(f"{before} {text}".strip(), row[1])
    return None


def form_of(words: list[str]) -> Form | None:
    """The form that a line of these words has, by its first words; None where there is none."""
    found = tables()
    first = words[0] if words else ""
    second = words[1] if len(words) > 1 else ""
    third = words[2] if len(words) > 2 else ""
    if is_task(first) and second == "raw" and third:
        return in_table(found[ID_CALLS], third, "T raw")
    if is_task(first):
        parts = ((ID_CALLS, "T"), (CHANGES, "T"), (QUERIES, "T"))
        asked = [in_table(found[name], second, before) for name, before in parts]
        own = [row for row in found[LINES] if row[0].startswith("`T ")]
        return next((form for form in [in_table(own, second, ""), *asked] if form), None)
    events = [row for row in found[LINES] if not row[0].startswith("`T ")]
    nested = {
        "begin": (ID_CALLS, "begin T"),
        "ask": (QUERIES, "ask H"),
        "change": (CHANGES, "change H"),
    }
    if first == "change" and third == "access":
        return in_table([row for row in events if "H access" in row[0]], "change", "")
    if first in nested and third:
        name, before = nested[first]
        return in_table(found[name], third, before)
    return in_table(events, first, "")


def spelling(form: Form) -> list[tuple[str, str]]:
    """How each word of a form is spelled, where a name stands for it, and the names in that too."""
    known = {name: row[1] for row in tables()[SPELLINGS] for name in row[0].split(", ")}
    found: dict[str, str] = {}
    texts = [form.text]
    while texts:
        words = set(re.findall(r"\b[A-Z]+\b", texts.pop())) & set(known) - set(found)
        found |= {name: known[name] for name in known if name in words}
        texts += [known[name] for name in words if name not in ("T", "P", "H", "F")]
    kinds: dict[str, list[str]] = {}
    for name, text in found.items():
        kinds.setdefault(text, []).append(name)
    return [(", ".join(names), text) for text, names in kinds.items()]


def keywords(*names: tuple[str, str]) -> set[str]:
    """The words that the forms of these tables are known by."""
    found = tables()
    rows = [row for name in names for row in found[name]]
    # The names of tables and of their parts stand for words, and are none.
    return {keyword(form) for row in rows for form in quoted(row[0])} & {
        word for row in rows for form in quoted(row[0]) for word in form.split() if word.islower()
    }


def is_task(word: str) -> bool:
    """Whether a line that begins with this word is one of a task."""
    return re.match(r"t[0-9]", word) is not None


def beginnings(words: list[str]) -> tuple[int, set[str]]:
    """Which word of a line names its form, and the words that may stand there."""
    own = {form for row in tables()[LINES] for form in quoted(row[0]) if form.startswith("T ")}
    of_tasks = {keyword(form) for form in own} - {"IDCALL", "CHANGE", "QUERY"}
    first = words[0] if words else ""
    if is_task(first) and words[1:2] == ["raw"]:
        return 2, keywords(ID_CALLS)
    if is_task(first):
        return 1, of_tasks | keywords(ID_CALLS, CHANGES, QUERIES)
    tables_of = {"begin": (ID_CALLS,), "ask": (QUERIES,), "change": (CHANGES,)}
    if first in tables_of:
        access = {"access"} if first == "change" else set()
        return 2, keywords(*tables_of[first]) | access
    return 0, keywords(LINES) - of_tasks - {"nosuid", "caps"}
