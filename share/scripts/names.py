"""Sets and securebits as names in reports and scripts, and names as sets in scripts."""

from __future__ import annotations

import argparse
import re
import struct
import sys
from collections.abc import Callable, Iterator
from typing import BinaryIO

from capabilities import ALL_CAPABILITIES, CAPABILITIES, SECUREBIT_VALUES
from limits import LAST_BITS

# The securebits that a script holds: docs/FORMATS.md.
FLAGS = {name: bit for name, bit in SECUREBIT_VALUES.items() if bit <= LAST_BITS}

CAP_WORDS = frozenset({"capable", "bset", "ambis", "capdrop", "ambraise", "amblower"})

# linux/capability.h: VFS_CAP_REVISION_2 and _3, VFS_CAP_FLAGS_EFFECTIVE.
REVISION_2, REVISION_3, EFFECTIVE = 0x02000000, 0x03000000, 1

GOOD, BAD = 0, 2

# Lines in which something may be named: most lines of a long report are none.
NAMED = re.compile(r"\b(?:cap\w*|bits|securebits|bset|ambis|amb(?:raise|lower)|gain|version)\b")

# What credtrace-compare writes of a difference.
COMPARED = re.compile(
    r"(?P<head>.*: the kernel )(?P<kernel>[^,]*)(?P<middle>, the report )(?P<report>.*?) "
    r"\(line (?P<number>\d+): (?P<line>.*)\)$"
)

# The line of a script from which it goes on, as it writes it below a difference.
SINCE = re.compile(r"( +since line \d+: )(.*)$")


class BadName(Exception):
    """A word that is no name of a set."""


def joined(value: int) -> str:
    """The capabilities of a set."""
    return ",".join(f"CAP_{name}" for place, name in enumerate(CAPABILITIES) if value >> place & 1)


def set_in_names(word: str) -> str:
    """A set in names; another word as it is."""
    if not re.fullmatch(r"[0-9A-Fa-f]+", word):
        return word
    value = int(word, 16) & ALL_CAPABILITIES
    lacks = ALL_CAPABILITIES & ~value
    if not value:
        return "none"
    if not lacks:
        return "all"
    return "all-" + joined(lacks) if value.bit_count() > len(CAPABILITIES) / 2 else joined(value)


def set_in_hex(word: str) -> str | None:
    """A set of names in hexadecimal digits."""
    if word.lower() in ("none", "all"):
        return "0" if word.lower() == "none" else f"{ALL_CAPABILITIES:x}"
    lacks = word.lower().startswith("all-")
    value = 0
    for name in word[4:].split(",") if lacks else word.split(","):
        short = name.upper().removeprefix("CAP_")
        if short not in CAPABILITIES:
            return None
        value |= 1 << CAPABILITIES.index(short)
    return f"{ALL_CAPABILITIES & ~value if lacks else value:x}"


def flags_in_names(word: str) -> str:
    """Securebits in names; the number is decimal."""
    if not word.isdigit() or int(word) > LAST_BITS:
        return word
    return ",".join(name for name, bit in FLAGS.items() if int(word) & bit) or "none"


def flags_in_number(word: str) -> str | None:
    """Securebits of names as a number."""
    names = [] if word.lower() == "none" else word.upper().split(",")
    values = [FLAGS.get("SECBIT_" + name.removeprefix("SECBIT_")) for name in names]
    return None if None in values else str(sum(value or 0 for value in values))


def capability(word: str) -> str:
    """The name of a capability, where the word is the number of one."""
    known = word.isdigit() and int(word) < len(CAPABILITIES)
    return f"CAP_{CAPABILITIES[int(word)]}" if known else word


def encoded(words: list[str]) -> str:
    """The bytes of security.capability, for the text of cap_to_text(3) as getcap(8) writes it."""
    flags = dict.fromkeys("eip", 0)
    root = None
    for word in words:
        if match := re.fullmatch(r"\[rootid=(\d{1,10})\]", word):
            root = int(match[1])
        else:
            clause(word, flags)
    permitted, inheritable = flags["p"], flags["i"]
    # An attribute has one effective flag, for all that it permits; setcap(8) refuses such a text
    # too.
    if flags["e"] and (permitted | inheritable) & ~flags["e"]:
        raise BadName(f"{' '.join(words)}: a file has all of its capabilities effective, or none")
    head = (REVISION_2 if root is None else REVISION_3) | (EFFECTIVE if flags["e"] else 0)
    low = 0xFFFFFFFF
    found = struct.pack(
        "<IIIII", head, permitted & low, inheritable & low, permitted >> 32, inheritable >> 32
    )
    return (found + (b"" if root is None else struct.pack("<I", root))).hex()


def clause(word: str, flags: dict[str, int]) -> None:
    """What a clause of cap_from_text(3) makes of the effective, inheritable and permitted set: `=`
    lowers its capabilities in all three first."""
    match = re.fullmatch(r"([A-Za-z_0-9,]*)((?:[=+-][eip]*)+)", word)
    named = (match[1] or ("all" if match[2][0] == "=" else "")) if match else ""
    value = ALL_CAPABILITIES if named.lower() == "all" else 0
    for name in [] if value else named.split(","):
        known = name.upper().removeprefix("CAP_")
        if name.isdigit() and int(name) < len(CAPABILITIES):
            known = CAPABILITIES[int(name)]
        if known not in CAPABILITIES:
            raise BadName(f"{word} is no text of capabilities, as cap_net_raw=ep")
        value |= 1 << CAPABILITIES.index(known)
    for how, letters in re.findall(r"([=+-])([eip]*)", match[2] if match else ""):
        for letter in flags:
            if how == "+" and letter in letters:
                flags[letter] |= value
            elif how == "=":
                flags[letter] = flags[letter] & ~value | (value if letter in letters else 0)
            elif how == "-" and letter in letters:
                flags[letter] &= ~value


def to_names(line: str) -> str:
    """A line with names: of a report, of a script, of `decode` or `capdata`, or of
    credtrace-compare."""
    if not NAMED.search(line):
        return line
    if since := SINCE.match(line):
        return since[1] + words_in_names(since[2])
    if compared := COMPARED.match(line):
        told = f"0 ask h1 {compared['line'].partition(' ')[2]} -> "
        kernel, report = (
            words_in_names(told + compared[part]).partition(" -> ")[2]
            for part in ("kernel", "report")
        )
        asked = words_in_names(compared["line"])
        number = f"(line {compared['number']}: {asked})"
        return f"{compared['head']}{kernel}{compared['middle']}{report} {number}"
    return words_in_names(line)


def words_in_names(line: str) -> str:
    """The same of a line whose words are separated by spaces."""
    parts = re.split(r"( +)", line)
    words = [part for part in parts if part.strip(" ")]
    if not words:
        return line
    before = words[:]
    event = 1 if words[0].isdigit() and len(words) > 1 else 0
    arrow = len(words) - words[::-1].index("->") - 1 if "->" in words else 0
    told = arrow + 2 if arrow and words[arrow + 1 : arrow + 2] == ["ok"] else 0
    name_words(words, event, told)
    if words == before:
        return line
    return " ".join(words)


def name_words(words: list[str], event: int, told: int) -> None:
    """Puts names in the place of sets, of numbers of capabilities and of securebits."""
    verb = words[event]
    what = event + 2 if verb in ("ask", "change") else 0
    what = event + 1 if re.fullmatch(r"t\d+", verb) else what
    word = words[what] if 0 < what < len(words) else ""
    if word == "capset":
        in_names(words, what + 1, 3)
    elif word == "securebits":
        words[what + 1 : what + 2] = map(flags_in_names, words[what + 1 : what + 2])
    elif word in CAP_WORDS:
        words[what + 1 : what + 2] = map(capability, words[what + 1 : what + 2])
    if told and verb == "ask" and word == "caps":
        in_names(words, told, 5)
    elif told and verb == "ask" and word == "bits":
        words[told : told + 1] = map(flags_in_names, words[told : told + 1])
        words[told + 1 : told + 2] = [f"no_new_privs={bit}" for bit in words[told + 1 : told + 2]]
    elif told and verb == "commit" and words[told + 4 : told + 5] == ["gain"]:
        in_names(words, told + 5, 3)
    elif verb == "version":
        # `decode` writes two sets, `capdata` three behind the target: each behind its own word.
        for place, word in enumerate(words[:-1]):
            if word in ("perm", "inh", "eff"):
                in_names(words, place + 1, 1)


def in_names(words: list[str], place: int, count: int) -> None:
    """Writes the words from one place on as sets."""
    words[place : place + count] = map(set_in_names, words[place : place + count])


def to_script(line: str, keeps: bool = False) -> str:
    """A line of a script, with the sets of its names. What is no name is a BadName, or stays."""
    words = line.split(" ")
    if line.lstrip(" ").startswith("#"):
        return line
    words = [word for word in words if word]
    if words[:1] == ["file"] and "caps" in words[6:]:
        place = words.index("caps", 6) + 1
        if not re.fullmatch(r"(?:0x)?[0-9a-fA-F]*", "".join(words[place:])):
            return " ".join([*words[:place], encoded(words[place:])])
    if words[1:2] == ["setattr"] and not re.fullmatch(r"(?:0x)?[0-9a-fA-F]*", "".join(words[3:])):
        return " ".join([*words[:3], encoded(words[3:])])
    what = 2 if words[:1] == ["change"] else 1
    word = words[what] if what < len(words) else ""
    if word == "capset":
        words[what + 1 :] = [written(in_hex, name, keeps) for name in words[what + 1 :]]
    elif word == "securebits":
        words[what + 1 :] = [written(in_number, name, keeps) for name in words[what + 1 :]]
    else:
        return line
    return " ".join(words)


def without_names(script: bytes) -> bytes:
    """A script with the sets of its names, as to_script makes each line; what is no name stays."""
    found = []
    for line in script.decode("latin-1").split("\n"):
        try:
            found.append(to_script(line, keeps=True))
        except BadName:
            found.append(line)
    return "\n".join(found).encode("latin-1")


def written(write: Callable[[str], str], word: str, keeps: bool) -> str:
    """What is written for a word."""
    try:
        return write(word)
    except BadName:
        if keeps:
            return word
        raise


def in_hex(word: str) -> str:
    """A set of a script."""
    if re.fullmatch(r"[0-9a-fA-F]{1,16}", word):
        return word
    found = set_in_hex(word)
    if found is None:
        raise BadName(f"{word} is no set: names with commas between them, none, all, all-NAME")
    return found


def in_number(word: str) -> str:
    """Securebits of a script."""
    found = word if word.isdigit() else flags_in_number(word)
    if found is None:
        raise BadName(f"{word} is no securebits: SECBIT names with commas between them, or none")
    return found


def lines_of(paths: list[str]) -> Iterator[str]:
    """The lines of all files, or of standard input."""
    for path in paths or ["-"]:
        if path == "-":
            yield from decoded(sys.stdin.buffer)
        else:
            with open(path, "rb") as source:
                yield from decoded(source)


def decoded(source: BinaryIO) -> Iterator[str]:
    """The lines of one, each byte a character."""
    return (line.decode("latin-1").rstrip("\n") for line in source)


def main(words: list[str]) -> int:
    """Writes names, or sets."""
    parser = argparse.ArgumentParser(
        prog="credtrace-names",
        description="Writes the sets of a report, a script, of `decode`, `capdata` or of "
        "credtrace-compare as names of capabilities, and securebits as theirs.",
    )
    parser.add_argument(
        "--to-script",
        action="store_true",
        help="read a script with names, and write it with sets: capset CAP_NET_RAW none all, "
        "securebits SECBIT_KEEP_CAPS, and caps cap_net_raw=ep in a file line",
    )
    parser.add_argument("file", metavar="FILE", nargs="*", help="what is read; else standard input")
    given = parser.parse_args(words)
    number = 0
    try:
        for number, line in enumerate(lines_of(given.file), 1):
            sys.stdout.write((to_script(line) if given.to_script else to_names(line)) + "\n")
    except BadName as fault:
        sys.stdout.flush()
        print(f"credtrace-names: line {number}: {fault}", file=sys.stderr)
        return BAD
    except OSError as fault:
        # Of what is written there is no name.
        if fault.filename is None:
            raise
        print(f"credtrace-names: {fault.filename}: {fault.strerror}", file=sys.stderr)
        return BAD
    return GOOD
