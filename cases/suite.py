"""The cases, and how they are read from the folders.

README.md says what each kind of file is. A file NAME.py has a function `cases()` that yields cases
whose expected answers it works out by itself, from the manual page's words.
"""
import importlib.util
import os
import re
from collections.abc import Callable, Iterator
from dataclasses import dataclass, replace
from pathlib import Path
from types import ModuleType
from typing import Any

TOP = Path(__file__).resolve().parent
# The status where the words are no command.
USAGE = 1
# What a text says of the status that the program ends with; any other text is a whole one.
STATUSES = {b"usage: ": USAGE, b"bad ": 2, b"not legal ": 7}
ESCAPE = re.compile(rb"\\(?:x([0-9a-f]{2})|(.))")
ESCAPES = {b"n": b"\n", b"r": b"\r", b"t": b"\t", b"\\": b"\\"}
# What stands on standard input where the words ask for no input.
UNREAD = b"not read\n"


@dataclass(frozen=True)
class Case:
    """What a program is given, and what it must write.

    `written` is the whole text; or `entries` are lines of it, in their order, where others may
    stand between. `reports` are further reports that `audit` must find legal. `calls` is how many
    calls of the interface the case asks about, where that is more than one. `runs` is how often
    `lanes` runs a script with lanes.
    """

    name: str
    words: tuple[str, ...]
    given: bytes = b""
    written: bytes | None = None
    entries: tuple[bytes, ...] = ()
    reports: tuple[bytes, ...] = ()
    status: int | None = None
    calls: int = 1
    runs: int = 1

    def ends(self) -> int:
        """The status that the program must end with."""
        return status_of(self.written or b"") if self.status is None else self.status


def script(name: str, text: str, report: str | None = None, **more: Any) -> Case:
    """A script that `run` must report so: what most generators yield."""
    return Case(name, ("run",), text.encode(), None if report is None else report.encode(), **more)


def status_of(text: bytes) -> int:
    """The status that goes with a text."""
    return next((status for begin, status in STATUSES.items() if text.startswith(begin)), 0)


def ended(line: bytes) -> bytes:
    """A text with its last line feed, which a row leaves out."""
    return line + b"\n" if line else b""


def unescaped(text: bytes) -> bytes:
    """The bytes that a row spells."""
    return ESCAPE.sub(lambda it: bytes.fromhex(it[1].decode()) if it[1] else ESCAPES[it[2]], text)


def rows(file: Path) -> Iterator[tuple[bytes, bytes]]:
    """The rows of a file: what stands before the arrow, and what stands behind it."""
    for line in file.read_bytes().splitlines():
        if line and not line.startswith(b";"):
            given, arrow, written = line.partition(b" =>")
            if not arrow:
                raise ValueError(f"{file}: a row without an arrow: {line!r}")
            yield unescaped(given), ended(unescaped(written.removeprefix(b" ")))


def of_script(file: Path, name: str) -> Iterator[Case]:
    """The case of a script, whose report or entries stand beside it."""
    report, entries, turns = (file.with_suffix(it) for it in (".report", ".entries", ".turns"))
    yield Case(
        name,
        ("run",),
        file.read_bytes(),
        report.read_bytes() if report.exists() else None,
        tuple(entries.read_bytes().splitlines()) if entries.exists() else (),
        (turns.read_bytes(),) if turns.exists() else (),
    )


# What reads the cases of a file, whose names begin so.
Reader = Callable[[Path, str], Iterator[Case]]


def of_rows(word: str) -> Reader:
    """What reads the cases of a file of rows, each an input of this command."""

    def read(file: Path, name: str) -> Iterator[Case]:
        for number, (given, written) in enumerate(rows(file), 1):
            yield Case(f"{name}:{number}", (word,), given, written)

    return read


def of_words(file: Path, name: str) -> Iterator[Case]:
    """The cases of a file of rows, each the words of a command line, which may be any bytes."""
    for number, (line, written) in enumerate(rows(file), 1):
        words = tuple(os.fsdecode(it) for it in line.split())
        yield Case(f"{name}:{number}", words, UNREAD, written)


def of_generator(file: Path, name: str) -> Iterator[Case]:
    """The cases that a file in Python makes."""
    for case in module_of(name.replace("/", "."), file).cases():
        yield replace(case, name=f"{name}:{case.name}")


def module_of(name: str, file: Path) -> ModuleType:
    """A file in Python as a module, whatever its name."""
    spec = importlib.util.spec_from_file_location(name, file)
    if spec is None or spec.loader is None:
        raise ValueError(f"{file} is no module")
    module = importlib.util.module_from_spec(spec)
    spec.loader.exec_module(module)
    return module


READERS: dict[str, Reader] = {
    ".trace": of_script,
    ".lines": of_rows("run"),
    ".inputs": of_rows("audit"),
    ".words": of_words,
    ".py": of_generator,
}


def subjects() -> list[Path]:
    """The folders of cases, by their names."""
    return sorted(it for it in TOP.iterdir() if (it / "TABLE.md").exists())


def cases_of(subject: Path) -> Iterator[Case]:
    """The cases of a folder. Its table has each of its files, once, and no other."""
    files = sorted(it for it in subject.iterdir() if it.suffix in READERS)
    told = re.findall(r"^\| `([^`]+)`", (subject / "TABLE.md").read_text(), re.M)
    if sorted(told) != sorted(it.stem for it in files):
        other = set(told) ^ {it.stem for it in files} or told
        raise ValueError(f"{subject.name}/TABLE.md and its folder differ: {sorted(other)}")
    for file in files:
        yield from READERS[file.suffix](file, f"{subject.name}/{file.stem}")
