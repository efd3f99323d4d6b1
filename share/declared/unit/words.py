"""The values of settings: booleans, quoted words, sets of capabilities, securebits."""

from __future__ import annotations

from dataclasses import dataclass

from why.names import ALL, FLAGS, LAST, NUMBERS

TRUE = frozenset("1 yes y true t on".split())
FALSE = frozenset("0 no n false f off".split())
# By the names of systemd.exec(5), SecureBits=.
SECUREBITS = {name.lower().replace("_", "-"): 1 << place for place, name in enumerate(FLAGS[:6])}


def truth(value: str) -> bool | None:
    """A boolean; None where the word is none."""
    word = value.lower()
    return True if word in TRUE else False if word in FALSE else None


def split(value: str) -> list[str]:
    """The words of a value: quotes hold a word together, and a backslash keeps the next letter.
    A quote that isn't closed ends with the value."""
    words: list[str] = []
    word, quote, inside = "", "", False
    letters = iter(value)
    for letter in letters:
        if letter == "\\":
            word, inside = word + escaped(next(letters, "")), True
        elif quote:
            quote, word = ("", word) if letter == quote else (quote, word + letter)
        elif letter in "'\"" and not inside:
            quote, inside = letter, True
        elif letter.isspace():
            words += [word] if inside else []
            word, inside = "", False
        else:
            word, inside = word + letter, True
    return words + ([word] if inside else [])


def escaped(letter: str) -> str:
    """What a backslash and a letter stand for."""
    return {"n": "\n", "t": "\t", "s": " ", "r": "\r"}.get(letter, letter)


@dataclass
class Capabilities:
    """A set that is assigned line by line. `initial` is what it is before."""

    initial: int
    value: int = 0

    def __post_init__(self) -> None:
        self.value = self.initial

    def assign(self, text: str) -> list[str]:
        """A line more: `~` takes away, an empty one empties. The words that are no capabilities."""
        invert = text.startswith("~")
        mask, unknown = 0, []
        for word in split(text[1:] if invert else text):
            number = NUMBERS.get(word.upper())
            if number is None and word.isascii() and word.isdigit() and len(word) < 3:
                number = int(word) if int(word) <= LAST else None
            if number is None:
                unknown.append(word)
            else:
                mask |= 1 << number
        if not mask or self.value == self.initial:
            self.value = ALL & ~mask if invert else mask
        else:
            self.value = self.value & ~mask if invert else self.value | mask
        return unknown


def securebits(value: str) -> tuple[int, list[str]]:
    """The securebits of a line, and the words that are none."""
    words = split(value)
    unknown = [word for word in words if word not in SECUREBITS]
    return sum(SECUREBITS[word] for word in set(words) if word in SECUREBITS), unknown
