"""How the words of a line are spelled (docs/FORMATS.md), and what a wrong one likely means."""

from __future__ import annotations

import re
from collections.abc import Callable

from capabilities import CAPABILITIES
from limits import LAST_LANE, LAST_NAMESPACE

from .names import BadName, encoded, flags_in_number, set_in_hex

MOST = (1 << 32) - 1
ALL = (1 << len(CAPABILITIES)) - 1


def is_num(word: str, least: int = 0, most: int = MOST) -> bool:
    """A NUM within limits."""
    return re.fullmatch(r"0|[1-9][0-9]{0,9}", word) is not None and least <= int(word) <= most


def is_named(letter: str, least: int, most: int) -> Callable[[str], bool]:
    """A letter with a NUM behind it."""
    return lambda word: word[:1] == letter and is_num(word[1:], least, most)


def is_cap(word: str) -> bool:
    """A CAP."""
    return is_num(word) or word.removeprefix("CAP_") in CAPABILITIES and word.startswith("CAP_")


def is_set(word: str) -> bool:
    """A SET."""
    return re.fullmatch(r"[0-9a-fA-F]{1,16}", word) is not None and int(word, 16) <= ALL


KINDS: dict[str, Callable[[str], bool]] = {
    "NUM": is_num,
    "ID": lambda word: is_num(word, most=MOST - 1),
    "ARG": lambda word: word == "-1" or is_num(word, most=MOST - 1),
    "T": is_named("t", 1, 99999),
    "P": is_named("p", 1, 99999),
    "H": is_named("h", 1, 99999),
    "F": is_named("f", 1, 99999),
    "N": is_named("n", 0, 15),
    "CAP": is_cap,
    "SET": is_set,
    "NAME": lambda word: re.fullmatch(r"[A-Za-z][A-Za-z0-9_.-]{0,31}", word) is not None,
    "MODE": lambda word: re.fullmatch(r"[0-7]{4}", word) is not None,
    "HEX": lambda word: re.fullmatch(r"(?:0x)?(?:[0-9a-fA-F]{2}){1,64}", word) is not None,
    "WANT": lambda word: word in ("r", "w", "x", "rw", "rx", "wx", "rwx"),
    "LINE": lambda word: is_num(word, 1, 20000),
    "KIND": lambda word: word in ("reg", "dir"),
}


# The versions of a record of capset(2), with how many bytes each has.
RECORDS = {0x19980330: 20, 0x20071026: 32, 0x20080522: 32}


def is_record(word: str, task: str) -> bool:
    """Whether the bytes are a record of capset(2) that the task may hand over."""
    record = bytes.fromhex(word.removeprefix("0x"))
    version, target = (int.from_bytes(record[at : at + 4], "little") for at in (0, 4))
    return RECORDS.get(version) == len(record) and str(target) in ("0", task[1:])


# The numbers that a word may have, where it isn't all of its kind.
WITHIN = {
    ("ns", 1): (1, LAST_NAMESPACE), ("ns", 3): (0, LAST_NAMESPACE), ("lane", 1): (1, LAST_LANE),
}  # fmt: skip


def expected_of(form: str, words: list[str]) -> list[str]:
    """The kinds of the words of a line: those in brackets as far as the line has them."""
    expected = form.split()
    if words[:1] != ["file"]:
        return expected
    more = ["nosuid"] if words[6:7] == ["nosuid"] else []
    return expected[:6] + more + (["caps", "HEX"] if len(words) > 6 + len(more) else [])


def wrong_word(form: str, words: list[str]) -> tuple[int, str] | None:
    """The first word that isn't as its place asks, by its place, and what should stand there."""
    expected = expected_of(form, words)
    for place, word in enumerate(words):
        kind = expected[min(place, len(expected) - 1)]
        if kind == "...":
            kind = expected[-2]
        fits = KINDS.get(kind)
        least, most = WITHIN.get((expected[0], place), (0, MOST))
        if fits is not None and not (fits(word) and (most == MOST or is_num(word, least, most))):
            return place, kind + ("" if most == MOST else f" of {least} to {most}")
        if fits is None and kind.islower() and kind != word:
            either = "`nosuid` or `caps`" if words[0] == "file" and place == 6 else f"`{kind}`"
            return place, either
    if expected[1:2] == ["capsetraw"] and len(words) == 3 and not is_record(words[2], words[0]):
        return 2, "record of capset(2) about 0 or the task itself"
    return (len(words), "HEX") if expected[-1] == "HEX" and len(words) < len(expected) else None


def meant(kind: str, words: list[str], form: str) -> str | None:
    """What the first of these words would be, were it right, where that can be told."""
    word = words[0]
    if kind.startswith("`"):
        return near(word, set(re.findall(r"\w+", kind)))
    if " of " in kind:
        return None
    guess = GUESSES.get(kind)
    found = guess(word) if guess else None
    if found is None and kind == "HEX":
        found = guess_attribute(words)
    if found is None and form == "securebits":
        found = flags_in_number(word)
    if found is None and kind in ("NUM", "ID", "ARG", "LINE", "CAP"):
        found = guess_number(word)
    if found is None and KINDS.get(kind, is_num)(word.lower()):
        found = word.lower()
    if kind == "SET" and found and set_in_hex(found):
        return found
    fits = KINDS.get(kind)
    return found if found and fits and fits(found) else None


def guess_number(word: str) -> str | None:
    """A number in hexadecimal digits or with zeros before it; the user and the group of root."""
    if re.fullmatch(r"0[xX][0-9a-fA-F]{1,8}", word):
        return str(int(word, 16))
    return {"root": "0"}.get(word, str(int(word)) if re.fullmatch(r"0+[0-9]+", word) else None)


def guess_attribute(words: list[str]) -> str | None:
    """The bytes of an attribute that stands there as a text."""
    try:
        return encoded(words)
    except BadName:
        return None


def guess_cap(word: str) -> str | None:
    """A capability without its prefix, or in small letters."""
    name = word.upper().removeprefix("CAP_")
    found = name if name in CAPABILITIES else near(name, set(CAPABILITIES))
    return f"CAP_{found}" if found in CAPABILITIES else None


def guess_set(word: str) -> str | None:
    """A set in names, or with 0x before it; a name of which a letter or two differ."""
    if re.fullmatch(r"0[xX][0-9a-fA-F]+", word):
        return word[2:]
    names = {"none", "all"} | {f"CAP_{name}" for name in CAPABILITIES}
    guess = near(word.lower(), {"none", "all"}) or guess_cap(word)
    return set_in_hex(word) or (guess if guess in names else None)


def guess_name(word: str) -> str | None:
    """The last part of a path."""
    last = word.rstrip("/").rpartition("/")[2]
    return last if last != word else None


def guess_mode(word: str) -> str | None:
    """Three octal digits, or letters as ls(1) writes them."""
    if re.fullmatch(r"[0-7]{1,3}", word):
        return word.zfill(4)
    match = re.fullmatch(r"-?((?:[r-][w-][xsStT-]){3})", word)
    if match is None:
        return None
    value = 0
    for place, letter in enumerate(match[1]):
        value |= (letter not in "-ST") << (8 - place)
        value |= (letter in "sStT") << (11 - place // 3)
    return f"{value:04o}"


def guess_want(word: str) -> str | None:
    """The same letters in their order."""
    return "".join(letter for letter in "rwx" if letter in word.lower()) or None


def guess_numbered(letter: str) -> Callable[[str], str | None]:
    """A number without its letter, with another word in its place, or with zeros before it."""
    def guess(word: str) -> str | None:
        match = re.fullmatch(r"([A-Za-z_]*?)0*([0-9]+)", word)
        others = set("tphfn") - {letter}
        return f"{letter}{int(match[2])}" if match and match[1] not in others else None

    return guess


def guess_kind(word: str) -> str | None:
    """Another word for a kind of file."""
    return {"file": "reg", "regular": "reg", "directory": "dir", "folder": "dir"}.get(word)


GUESSES: dict[str, Callable[[str], str | None]] = {
    "CAP": guess_cap,
    "SET": guess_set,
    "NAME": guess_name,
    "MODE": guess_mode,
    "WANT": guess_want,
    "KIND": guess_kind,
    **{letter.upper(): guess_numbered(letter) for letter in "tphfn"},
}


def distance(one: str, other: str) -> int:
    """How many letters differ: lacking, added, changed, or two exchanged."""
    rows = [list(range(len(other) + 1))]
    for i, a in enumerate(one, 1):
        row = [i]
        for j, b in enumerate(other, 1):
            best = min(rows[-1][j] + 1, row[-1] + 1, rows[-1][j - 1] + (a != b))
            if i > 1 and j > 1 and a == other[j - 2] and one[i - 2] == b:
                best = min(best, rows[-2][j - 2] + 1)
            row.append(best)
        rows.append(row)
    return rows[-1][-1]


def near(word: str, known: set[str]) -> str | None:
    """The known words from which one letter or two differ; of a short word one letter."""
    most = 2 if len(word) > 4 else 1
    far = {other: distance(word, other) for other in known if abs(len(word) - len(other)) <= most}
    least = min(far.values(), default=most + 1)
    if least > most:
        return None
    return " or ".join(sorted(other for other, count in far.items() if count == least)[:3])
