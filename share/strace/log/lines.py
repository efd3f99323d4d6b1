"""A line of a log: who wrote it, which kind it is, and the arguments of a call."""

from __future__ import annotations

import re
from dataclasses import dataclass


class BadLog(Exception):
    """The text isn't a log of strace, or not a whole one."""

    def __init__(self, line: int, what: str) -> None:
        super().__init__(f"line {line}: {what}")
        self.line = line
        self.what = what


@dataclass(frozen=True)
class Result:
    """What a call returned: its value where that is known, and the name of its error."""

    value: int | None
    error: str | None


# What stands before a call: the pid (with -f), the time (-t, -r), the instruction pointer or the
# number of the call (-i, -n).
HEAD = re.compile(
    r" *(?:\[pid +(?P<shown>\d+)(?:<[^<>]*>)?\] +|(?P<pid>\d+)(?:<[^<>]*>)? +)?"
    r"(?:\d\d:\d\d:\d\d(?:\.\d+)? +|\d+\.\d+ +)?(?:\(\+ +\d+\.\d+\) +)?(?:\[[ 0-9a-f?]+\] +)?"
    r"(?:(?P<call>[a-z_][a-z_0-9]*|\?{3,4})\("
    r"|<\.\.\. (?P<resumed>[a-z_][a-z_0-9]*|\?{3,4}) resumed>"
    r"|\+\+\+ (?P<ended>[^+]*) \+\+\+$"
    r"|(?P<signal>---) .* ---$)"
)

# Most lines of a long log: a pid and a call, which is seldom a wanted one.
PLAIN = re.compile(r"\d{1,9} +([a-z_][a-z_0-9]*)\(")

# Strace's own messages, and the frames that it writes with -k.
MESSAGE = re.compile(r"strace: .*|\[ Process PID=\d+ runs in .* mode\. \]| > .*")

ATTACHED = re.compile(r"strace: Process (\d{1,9}) attached(?: with \d+ threads)?$")

# A call that isn't ended on its line; of an execve in another thread than the first -ff writes
# which pid it has from then on.
UNFINISHED = "<unfinished ...>"
PID_CHANGED = re.compile(r"<pid changed to \d{1,9} \.\.\.>$")

# Behind a call of the first thread of a process, without an end: another one has executed a
# program.
SUPERSEDED = re.compile(
    r"(?:\[pid +\d{1,9}\] +|\d{1,9} +)?(?:\d\d:\d\d:\d\d(?:\.\d+)? +|\d+\.\d+ +)?"
    r"\+\+\+ superseded by execve in pid \d{1,9} \+\+\+$"
)

# A call in which strace detached from its task.
DETACHED = "<detached ...>"

# Calls that tell what a file is, which matters where files change in the log; and those that change
# one.
STAT = (
    "stat", "lstat", "fstat", "stat64", "lstat64", "fstat64", "newfstatat", "fstatat64", "statx",
)  # fmt: skip
GET = ("getxattr", "lgetxattr", "fgetxattr")
TELLING = frozenset({*STAT, *GET})
CHANGING = frozenset(
    "chmod fchmod fchmodat fchmodat2 chown lchown fchown fchownat chown32 lchown32 fchown32 "
    "setxattr lsetxattr fsetxattr removexattr lremovexattr fremovexattr".split()
)

# Calls of which only some are read: write(2) where it may be of a map of ids or the beginning of a
# script file, the others where they make a descriptor.
ASKED = {
    "write": re.compile(
        r'\d+(?:<[^>]*>(?:\(deleted\))?)?, "(?:(?:[0-9 ]|\\[nt0])+"|deny|allow|#!)'
    ),
    "fcntl": re.compile(r"\d+(?:<.*>)?, F_DUPFD"),
    "ioctl": re.compile(r"\d+(?:<.*>)?, NS_GET_"),
    "recvmsg": re.compile(r".*(?:SCM_RIGHTS|<unfinished \.\.\.>$)"),
    "recvmmsg": re.compile(r".*(?:SCM_RIGHTS|<unfinished \.\.\.>$)"),
}
ASKED |= dict.fromkeys(GET, re.compile(r'.*(?:"security\.capability"|<unfinished)'))

# A result that strace made up (-e inject): the kernel never saw the call.
INJECTED = " (INJECTED)"

# Calls of which there are many in a long log, and of which those that failed otherwise say nothing.
PATH_CALLS = frozenset(
    "open openat openat2 creat access faccessat faccessat2 stat lstat fstat stat64 lstat64 fstat64 "
    "newfstatat fstatat64 statx".split()
)
REFUSED = re.compile(r" = -1 E(?:ACCES|PERM|INVAL)\b")

# What the kernel refused, and not strace.
NOT_PERMITTED = re.compile(r"\) *= -1 E(?:ACCES|PERM) (?!.*\(INJECTED\)$)")

# An open as most are, which needs no whole reading.
OPEN = re.compile(
    r'(AT_FDCWD), ("(?:[^"\\]|\\.)*"), ([A-Z_|]+)(?:, (0[0-7]*))?\) *= (\d{1,9})$'
)

# A string, a comment, what -y writes behind a descriptor, a shift, a bracket, a comma, other text.
TOKEN = re.compile(
    r'"(?:[^"\\]|\\.)*"(?:\.\.\.)?|/\*.*?\*/'
    r"|(?<=[0-9D])<(?!<)(?:[^<>\[]|\[[^\]]*\]|<[^<>]*>)*>"
    r'|[(\[{)\]},]|(?:[^"/<(\[{)\]},]+|<<)+|.'
)

# Arguments without strings and structures, as most are, and what follows them.
WORD = r"(?:\d+<[^<>\[\]\",]*>|[^\"\[\](){}<>/,]+)"
WORDS = re.compile(rf"({WORD}(?:, {WORD})*)\)( *= .*)$")

RESULT = re.compile(
    r" *= (\?|-?\d{1,20}|0x[0-9a-f]{1,16})(?:<.*>(?:\(deleted\))?)?(?: (E[A-Z0-9]+))?(?: .*)?$"
)

# What --pidns-translation writes behind a pid of another PID namespace.
TRANSLATED = re.compile(r"/\* (\d{1,9}) in strace's PID NS \*/")

ESCAPE = re.compile(r"\\(x[0-9a-fA-F]{2}|[0-7]{1,3}|.)")

ESCAPES = {"n": "\n", "t": "\t", "r": "\r", "v": "\v", "f": "\f", "a": "\a", "b": "\b"}


def whole(text: str) -> tuple[str, str] | None:
    """The name of a call that ends on its line, as most do, and what stands behind its bracket."""
    match = PLAIN.match(text)
    if match is None or " = " not in text or text.endswith("...>"):
        return None
    return match[1], text[match.end() :]


def is_asked(name: str, rest: str) -> bool:
    """Whether a call is of those that are read, where of its name only some are."""
    if name in PATH_CALLS:
        # Where a file isn't there nobody asks who may do what to it.
        return " = -1 E" not in rest or REFUSED.search(rest) is not None
    asked = ASKED.get(name)
    return asked is None or asked.match(rest) is not None


def is_refused(rest: str) -> bool:
    """Whether the kernel refused a call by EPERM or EACCES, from what stands behind its bracket."""
    return " = -1 E" in rest and NOT_PERMITTED.search(rest) is not None


def has_result(rest: str) -> bool:
    """Whether what follows a call's opening bracket comes to an end as strace's lines do."""
    return " = " in rest or rest.endswith((UNFINISHED, DETACHED))


def split(text: str) -> tuple[list[str], str] | None:
    """The arguments of a call up to its closing bracket, and what follows it, if there is one."""
    if plain := WORDS.match(text):
        return [word.strip() for word in plain[1].split(", ")], plain[2]
    found: list[str] = []
    depth = start = 0
    for token in TOKEN.finditer(text):
        what = token.group()
        if what in "([{":
            depth += 1
        elif what in ")]}":
            depth -= 1
            if depth < 0:
                last = text[start : token.start()].strip()
                return (found + [last] if found or last else [], text[token.end() :])
        elif what == "," and depth == 0:
            found.append(text[start : token.start()].strip())
            start = token.end()
    return None


def plain_open(text: str) -> tuple[tuple[str, ...], Result] | None:
    """The arguments and the result of an open as most are."""
    match = OPEN.match(text)
    if match is None:
        return None
    folder, path, flags, mode, value = match.groups()
    given = (folder, path, flags) if mode is None else (folder, path, flags, mode)
    return given, Result(int(value), None)


def result(text: str) -> Result | None:
    """What a call returned, from what follows its closing bracket."""
    match = RESULT.match(text)
    if match is None:
        return None
    if (translated := TRANSLATED.search(text)) is not None:
        return Result(int(translated[1]), match[2])
    value = match[1]
    known = None if value == "?" else int(value, 16 if value.startswith("0x") else 10)
    return Result(known, match[2])


def string(text: str) -> str | None:
    """The string that an argument is, a character for a byte, where it is one and not shortened."""
    if len(text) < 2 or text[0] != '"' or text[-1] != '"':
        return None
    return ESCAPE.sub(unescaped, text[1:-1])


def unescaped(match: re.Match[str]) -> str:
    """The character that an escape of a C string stands for."""
    code = match[1]
    if code[0] == "x" and len(code) == 3:
        return chr(int(code[1:], 16))
    if code[0] in "01234567":
        return chr(int(code, 8) & 255)
    return ESCAPES.get(code, code)


def fields(text: str) -> dict[str, str]:
    """The fields of a structure, each `name=value`, and of what was written behind `=>` too."""
    found: dict[str, str] = {}
    for part in re.split(r" => ", text):
        inner = split(part[1:]) if part.startswith("{") else None
        for field in inner[0] if inner else []:
            name, equals, value = field.partition("=")
            if equals:
                found[name] = value
    return found


def items(text: str) -> list[str] | None:
    """The elements of an array; None where it is none, or was shortened."""
    if not text.startswith("["):
        return None
    inner = split(text[1:])
    if inner is None or inner[1] or "..." in inner[0]:
        return None
    return [] if inner[0] == [""] else inner[0]


def number(text: str) -> int | None:
    """The number that an argument is, without a comment or what -y and -Y add."""
    match = re.match(r"(-?(?:0x[0-9a-f]{1,16}|\d{1,20}))(?:<.*>)?(?: /\*.*\*/)?$", text)
    if match is None:
        return None
    word = match[1]
    if "0x" in word:
        return int(word, 16)
    octal = re.fullmatch(r"0[0-7]+", word)
    return int(word, 8 if octal else 10)


def pid(text: str) -> int | None:
    """The pid that an argument is, as strace itself knows it."""
    translated = TRANSLATED.search(text)
    return int(translated[1]) if translated else number(text)


def bits(text: str, names: dict[str, int]) -> int | None:
    """The flags that an argument is, joined by `|`."""
    found = 0
    for word in re.sub(r" */\*.*?\*/", "", text).split("|"):
        value = names.get(word, number(word))
        if value is None or value < 0:
            return None
        found |= value
    return found
