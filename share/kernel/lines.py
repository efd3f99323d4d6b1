"""A script in the words of the driver (driver/main.c), a line a call."""

from __future__ import annotations

from .script import CHANGES, ID_CALLS, NONE, QUERIES, File, Line, Script, capability

# `enum op` and `enum query` of driver/world.h, and the two of driver/calls.c.
(
    ID_CALL, FS_CALL, CAPSET, PRCTL, EXECVE, OPEN, CLOSE, ACCESS, SIGNAL, SPAWN, FORK, EXIT, ASK,
) = range(13)  # fmt: skip
BEGIN, ACT = 100, 101
HOLD = 100_000

# The options of prctl(2), with what stands before the script's word.
PRCTLS = {
    "capdrop": (24,), "ambraise": (47, 2), "amblower": (47, 3), "securebits": (28,),
    "keepcaps": (8,), "nonewprivs": (38,),
}  # fmt: skip
WANTED = {"r": 4, "w": 2, "x": 1}
# How open(2) asks for the same, where it can: O_RDONLY, O_WRONLY, O_RDWR.
OPENS = {"r": 0, "w": 1, "rw": 2}
EFFECTIVE_IDS = 0x200
# The descriptor of the image of a file system, in the driver.
IMAGE_FD = 61


def id_of(word: str) -> int:
    """An id; `-1` is what keeps one."""
    return NONE if word == "-1" else int(word)


def path(file: File, of_image: bool) -> str:
    """Where a file stands."""
    return ("bc" if of_image else "sn")[file.nosuid] + "/" + file.name


def number_of(word: str) -> int:
    """The driver's number of a task or of a label that holds."""
    return int(word[1:]) + HOLD * (word[0] == "h")


def id_call(words: tuple[str, ...]) -> str:
    """The words of a call that sets ids."""
    kind = ID_CALLS.index(words[0])
    ids = [id_of(word) for word in words[1:]]
    if words[0] == "setgroups":
        ids = [len(ids), *ids]
    return " ".join(map(str, (kind, *ids)))


class Writer:
    """Writes the lines of one script."""

    def __init__(self, script: Script, in_image: set[str]) -> None:
        self.script = script
        self.in_image = in_image
        # The numbers of open files, from 1 on: a process may have few.
        self.files: dict[str, int] = {}

    def file(self, name: str) -> int:
        """The driver's number of an open file."""
        return self.files.setdefault(name, len(self.files) + 1)

    def path(self, name: str) -> str:
        """Where the file of this name stands."""
        return path(self.script.files[name], name in self.in_image)

    def asks(self, task: int, words: tuple[str, ...]) -> str:
        """A question about the credential of a task."""
        if words[0] == "check":
            return self.access(task, words, EFFECTIVE_IDS)
        asked = capability(words[1]) if len(words) > 1 else 0
        return f"{ASK} {task} {QUERIES.index(words[0])} {asked}"

    def access(self, task: int, words: tuple[str, ...], flags: int) -> str:
        """faccessat2(2), and open(2) where that asks the same."""
        mode = sum(WANTED[letter] for letter in words[2])
        is_dir = self.script.files[words[1]].is_dir
        has_open = flags and words[2] in OPENS and (words[2] == "r" or not is_dir)
        opened = OPENS[words[2]] if has_open else -1
        return f"{ACCESS} {task} {self.path(words[1])} {mode} {flags} {opened}"

    def changes(self, task: int, words: tuple[str, ...]) -> str:
        """A change of the task's own credential."""
        form, *rest = words
        if form in ("setfsuid", "setfsgid"):
            return f"{FS_CALL} {task} {int(form == 'setfsgid')} {id_of(rest[0])}"
        if form == "capset":
            return " ".join(map(str, (CAPSET, task, *(int(word, 16) for word in rest))))
        if form == "exec":
            return f"{EXECVE} {task} {self.path(rest[0])}"
        if form == "ambclear":
            return f"{PRCTL} {task} 47 4 0"
        option = " ".join(map(str, PRCTLS[form]))
        return f"{PRCTL} {task} {option} {capability(rest[0])} 0 0"

    def of_task(self, task: int, words: tuple[str, ...]) -> str:
        """A line that begins with a task."""
        form = words[0]
        if form in ID_CALLS:
            return f"{ID_CALL} {task} {id_call(words)}"
        if form in CHANGES:
            return self.changes(task, words)
        if form in QUERIES:
            return self.asks(task, words)
        if form == "access":
            return self.access(task, words, 0)
        if form == "open":
            return f"{OPEN} {task} {self.path(words[1])} {OPENS[words[2]]} {self.file(words[3])}"
        if form == "close":
            return f"{CLOSE} {task} {self.file(words[1])}"
        if form == "exit":
            return f"{EXIT} {task}"
        number = number_of(words[1])
        if form == "fork":
            return f"{FORK} {task} {number} {words[2][1:]}"
        return f"{SPAWN if form == 'spawn' else SIGNAL} {task} {number}"

    def line(self, line: Line) -> str:
        """A line in the driver's words."""
        words = line.words
        first = words[0]
        if first == "begin":
            return f"{BEGIN} {number_of(words[1])} {id_call(words[2:])}"
        if first == "act":
            return f"{ACT} {words[1]}"
        if first in ("take", "takereal"):
            hold = number_of(words[1])
            return f"{FORK} {number_of(words[2])} {hold} {hold}"
        if first == "drop":
            return f"{EXIT} {number_of(words[1])}"
        if first == "ask":
            return self.asks(number_of(words[1]), words[2:])
        return self.of_task(number_of(first), words[1:])
